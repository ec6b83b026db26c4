//! Shows that the trials can fail: libraries with one fault each are caught,
//! and the list that catches them is made short.

mod careless;
mod faulty;
mod forecasts;
mod runs;

use crate::borders::BORDERS;
use crate::call::Call;
use crate::cards::Size;
use crate::doctored::form::{COMMITTED, CURRENT, PENDING};
use crate::doctored::{cards, records, Failed, STATES};
use crate::limits::{told, LIMITS};
use crate::list::{Lending, List, Step};
use crate::mix;
use crate::reference::Reference;
use crate::rng::Rng;
use crate::run::{run, Failure};
use crate::shrink::shrink;
use crate::tally::Tally;
use careless::{Careless, Slip};
use faulty::{Fault, Faulty};
use model::geometry::BLOCK;
use model::{Lent, Model};

const LISTS: u64 = 200;
const MIDDLE_LISTS: u64 = 40;
/// Steps of a list that is short enough to be read: three commits and their
/// migrations, and more.
const SHORT: usize = 36;

fn lists() -> impl Iterator<Item = List> {
    (0..LISTS).map(|i| mix::list_of_size(Rng::part(7, i), Size::Small))
}

/// Lists on cards with ranges of several runs.
fn middle_lists() -> impl Iterator<Item = List> {
    (0..MIDDLE_LISTS).map(|i| mix::list_of_size(Rng::part(7, i), Size::Middle))
}

/// A list with generations of 251 entries.
fn full_list() -> List {
    mix::list_of_size(Rng::new(7), Size::Full)
}

fn fails<R: Reference>(fault: Fault, reference: R, list: &List) -> bool {
    let mut library = Faulty::new(fault);
    run(&mut library, reference, list, &mut Tally::default()).is_err()
}

/// Finds a list that fails, makes it short and says its steps.
fn caught(mut fails: impl FnMut(&List) -> bool) -> Vec<Step> {
    let mut lists = lists().chain(middle_lists()).chain([full_list()]);
    let list = lists.find(&mut fails).expect("no list fails");
    let short = shrink(list, &mut fails);
    println!("{short}");
    short.steps
}

/// Caught by the model's answers and card.
fn caught_by_model(fault: Fault) {
    let steps = caught(|list| fails(fault, Model::new(Vec::new()), list));
    assert!(steps.len() <= SHORT);
}

/// Caught with the fault in the reference too, where only the book is left.
fn caught_by_book(fault: Fault) {
    let steps = caught(|list| fails(fault, Faulty::new(fault), list));
    assert!(steps.len() <= SHORT);
}

/// As by the book, but by a run that few random lists come to.
fn caught_by_run(fault: Fault, list: &List) {
    let failure = |fault| {
        let tally = &mut Tally::default();
        run(&mut Faulty::new(fault), Faulty::new(fault), list, tally).err()
    };
    assert!(failure(Fault::None).is_none());
    let failure = failure(fault).expect("the run does not fail");
    println!("{list}{failure}");
    assert!(failure.what.contains("the book has"));
}

/// Caught by the model's answer to a change of a full generation.
fn caught_when_full(fault: Fault, what: &str) {
    let (mut library, model) = (Faulty::new(fault), Model::new(Vec::new()));
    let result = run(&mut library, model, &full_list(), &mut Tally::default());
    let failure = result.expect_err("the list does not fail");
    assert_eq!(failure.what, what);
}

/// These lists come to all that a run must see of empty pages.
#[test]
fn library_without_fault_passes() {
    let mut tally = Tally::default();
    for list in lists().chain(middle_lists()) {
        let (mut library, model) = (Faulty::new(Fault::None), Model::new(Vec::new()));
        let result = run(&mut library, model, &list, &mut tally);
        assert!(result.is_ok(), "{result:?}");
    }
    assert_eq!(tally.empties.missing_from_lists(), [""; 0]);
}

#[test]
fn pot_updated_at_home() {
    caught_by_model(Fault::PotAtHome);
    caught_by_book(Fault::PotAtHome);
}

#[test]
fn write_on_waiting_old_bytes() {
    caught_by_model(Fault::OldBytes);
    caught_by_book(Fault::OldBytes);
}

#[test]
fn write_on_what_home_holds() {
    caught_by_model(Fault::HomeBytes);
    caught_by_book(Fault::HomeBytes);
}

#[test]
fn write_that_alters_the_snapshot() {
    caught_by_model(Fault::SnapshotAltered);
    caught_by_book(Fault::SnapshotAltered);
}

#[test]
fn area_released_once_migration_has_started() {
    caught_by_model(Fault::ReleasedEarly);
    caught_by_book(Fault::ReleasedEarly);
}

#[test]
fn start_that_shows_commit_0() {
    caught_by_model(Fault::CommitZero);
    caught_by_book(Fault::CommitZero);
}

#[test]
fn commit_with_no_trailer_behind_it() {
    caught_by_model(Fault::NoTrailer);
    caught_by_book(Fault::NoTrailer);
}

#[test]
fn advance_that_does_everything() {
    caught_by_model(Fault::AllAtOnce);
}

#[test]
fn refusal_12_too_early() {
    caught_by_model(Fault::TwelveTooEarly);
}

#[test]
fn writes_that_change_nothing() {
    caught_by_model(Fault::WritesNothing);
    caught_by_book(Fault::WritesNothing);
}

#[test]
fn no_flush_before_the_header() {
    caught_by_model(Fault::NoFlushBeforeHeader);
    caught_by_book(Fault::NoFlushBeforeHeader);
}

#[test]
fn no_flush_after_the_header() {
    caught_by_model(Fault::NoFlushAfterHeader);
    caught_by_book(Fault::NoFlushAfterHeader);
}

#[test]
fn no_flush_after_a_start() {
    caught_by_model(Fault::NoFlushAfterStart);
    caught_by_run(Fault::NoFlushAfterStart, &runs::block_released(true));
}

#[test]
fn page_out_while_a_flush_is_due() {
    caught_by_model(Fault::PageOutWhileOwed);
    caught_by_run(Fault::PageOutWhileOwed, &runs::block_released(false));
}

/// The book sees it too: what the pending snapshot shows must be home by its H.
#[test]
fn empty_pages_by_the_newest_view() {
    caught_by_model(Fault::EmptyByNewest);
    caught_by_book(Fault::EmptyByNewest);
    caught_by_run(Fault::EmptyByNewest, &runs::rescinded_after_the_snapshot());
}

/// With the snapshot committed the page is empty, so the book sees nothing.
#[test]
fn empty_pages_by_the_pending_view() {
    caught_by_model(Fault::EmptyByPending);
}

#[test]
fn pot_passed_over() {
    caught_by_model(Fault::PotPassedOver);
    caught_by_book(Fault::PotPassedOver);
}

#[test]
fn full_page_passed_over() {
    caught_by_model(Fault::EmptyByNeighbour);
    caught_by_book(Fault::EmptyByNeighbour);
}

#[test]
fn full_page_passed_over_by_the_first_pot() {
    caught_by_model(Fault::EmptyByFirstPot);
    caught_by_book(Fault::EmptyByFirstPot);
}

#[test]
fn full_page_passed_over_by_other_flag_bits() {
    caught_by_model(Fault::EmptyByAnyBit);
    caught_by_book(Fault::EmptyByAnyBit);
}

#[test]
fn nothing_passed_over() {
    caught_by_model(Fault::NothingPassedOver);
}

#[test]
fn refusal_20_too_early() {
    caught_by_model(Fault::MigrationEndsEarly);
    caught_by_book(Fault::MigrationEndsEarly);
}

#[test]
fn refusal_20_too_late() {
    caught_by_model(Fault::PassedReported);
}

#[test]
fn header_that_waits_for_what_is_passed_over() {
    caught_by_model(Fault::HeaderWaits);
}

#[test]
fn directory_in_order_of_first_change() {
    caught_by_model(Fault::DirectoryUnsorted);
    caught_by_book(Fault::DirectoryUnsorted);
}

#[test]
fn entry_missed_at_an_end_of_the_directory() {
    for last in [false, true] {
        caught_by_model(Fault::EntryMissed { last });
        caught_by_book(Fault::EntryMissed { last });
    }
}

#[test]
fn numbers_at_the_borders_of_ranges() {
    for row in 0..BORDERS.len() {
        let fault = Fault::Border { row };
        let steps = caught(|list| fails(fault, Model::new(Vec::new()), list));
        assert!(steps.len() <= 1);
    }
}

/// For each row of `LIMITS`, the row of the same limit kept.
const KEPT: [usize; 8] = [1, 1, 2, 2, 5, 5, 6, 6];

/// A 512 refused, A 513 and nine ranges let through, and their like, by lists
/// with a card that keeps the limit.
#[test]
fn limits_of_question_5() {
    for (row, kept) in KEPT.into_iter().enumerate() {
        for start in [false, true] {
            let fault = Fault::Limit { row, start };
            let steps = caught(|list| {
                LIMITS[kept].decides(&list.geometry) && fails(fault, Model::new(Vec::new()), list)
            });
            assert!(steps.len() <= 1);
        }
    }
}

#[test]
fn entry_251_lost() {
    assert!(fails(
        Fault::EntryLost,
        Model::new(Vec::new()),
        &full_list()
    ));
    caught_by_run(Fault::EntryLost, &full_list());
}

#[test]
fn entry_251_refused() {
    caught_when_full(Fault::EntryRefused, "answers 12, the model done");
}

#[test]
fn entry_252_taken() {
    caught_when_full(Fault::EntryTooMany, "answers done, the model 12");
}

/// How lists fail by a slip.
fn failures(mut library: Careless) -> impl Iterator<Item = Failure> {
    lists().filter_map(move |list| {
        let model = Model::new(Vec::new());
        run(&mut library, model, &list, &mut Tally::default()).err()
    })
}

/// Doctoring must see a slip, and no list may.
fn seen(result: Result<(), Failed>) -> String {
    match result {
        Err(Failed::Doctored(what)) => what,
        Err(Failed::List(list, failure)) => panic!("{failure} of {list}"),
        Err(Failed::Panic(what)) => panic!("{what}"),
        Ok(()) => panic!("the slip is not seen"),
    }
}

#[test]
fn doctored_records_catch_slips() {
    for slip in [
        Slip::Record,
        Slip::Memory,
        Slip::Card,
        Slip::Buffer,
        Slip::Number(21),
        Slip::Number(3),
        Slip::One,
    ] {
        let on = |_: &Call| true;
        let mut library = Careless { on, at: 2, slip };
        let tally = &mut Tally::default();
        let result = records::doctor(&mut library, tally, STATES[2], Rng::new(5));
        println!("{}", seen(result));
    }
}

/// A question 2 that takes entries in any order.
#[test]
fn doctored_records_catch_an_order_not_asked_for() {
    let [.., one, two] = STATES;
    for (directory, state) in [(COMMITTED, one), (PENDING, two), (CURRENT, two)] {
        let (on, at, slip) = (|_: &Call| true, 0, Slip::AnyOrder(directory));
        let mut library = Careless { on, at, slip };
        let tally = &mut Tally::default();
        let what = seen(records::doctor(&mut library, tally, state, Rng::new(5)));
        let sentence = format!("{}: entries swapped", directory.name);
        assert!(what.contains(&sentence), "{what}");
    }
}

/// With two entries swapped between calls the next one answers 2. Forecasts, which
/// come between all others, would say so first.
#[test]
fn lists_catch_entries_out_of_order() {
    for directory in [COMMITTED, PENDING, CURRENT] {
        let on = |call: &Call| *call != Call::Forecast;
        let (at, slip) = (0, Slip::Swapped(directory));
        let mut failures = failures(Careless { on, at, slip });
        assert!(failures.any(|failure| failure.what.starts_with("answers 2, the model")));
    }
}

#[test]
fn doctored_cards_catch_slips() {
    for at in [6, 7, 8] {
        for slip in [Slip::Record, Slip::Number(5)] {
            let on = |_: &Call| true;
            let mut library = Careless { on, at, slip };
            let tally = &mut Tally::default();
            let result = cards::doctor(&mut library, tally, STATES[1], Rng::new(5));
            println!("{}", seen(result));
        }
    }
}

/// Key, read and a write of length 0, done, leave the record.
#[test]
fn lists_catch_a_record_that_changes() {
    let on: [fn(&Call) -> bool; 3] = [
        |call| matches!(call, Call::Key { .. }),
        |call| matches!(call, Call::Read { .. }),
        |call| matches!(call, Call::Write { length: 0, .. }),
    ];
    for on in on {
        let (at, slip) = (0, Slip::Record);
        let mut failures = failures(Careless { on, at, slip });
        let failure = failures.next().expect("no list fails");
        assert!(failure.what.contains("record byte 77"), "{failure}");
    }
}

/// A run that has seen nothing says what it should have seen.
#[test]
fn what_was_never_seen_is_told() {
    let missing = Tally::default().missing_from_lists();
    let told = |what: &str| missing.iter().any(|one| one == what);
    assert!(told("a cut in H that leaves old"));
    assert!(told("a cut in page-out that leaves torn"));
    assert!(!told("a cut in H that leaves torn"));
    assert!(told("a card of 65,536 blocks"));
    assert!(told("a memory of 64 frames"));
    assert!(told("rescind of an OID first in a gap"));
    assert!(told("format 0 of A 512 on a card filled exactly"));
    assert!(told("start 5 of 9 ranges on a card filled exactly"));
    assert!(told("a generation of 251 entries refused one change more"));
    assert!(told("a generation of 251 entries migrated"));
    assert!(told("100000 cuts with two or more unflushed writes"));
    assert!(told("all 5 orders of 2 unflushed writes"));
    assert!(told("all 65 orders of 4 unflushed writes"));
    assert!(told("an unflushed H found old"));
    assert!(told("an unflushed H found new after a start"));
    assert!(told("a start over an unflushed T, then a cut"));
    assert!(told("entry new to the current directory: front"));
    assert!(told("8 pages in falling order"));
    assert!(told("20 with only pages left that are passed over"));
    assert!(told("forecast, none pending, a flush due: 1"));
    assert!(told(
        "forecast, of M only pages are left that are passed over"
    ));
    assert!(told("write done amid a commit"));
    assert!(told("snapshot refused amid a commit"));
    assert!(!told("snapshot done amid a commit"));
    assert!(told("a commit counted down from 251 advances"));
    let missing = Tally::default().missing_from_doctored();
    let told = |what: &str| missing.iter().any(|one| one == what);
    assert!(told("broken: head"));
    assert!(told("broken: pending: entries swapped"));
    assert!(told("doctored: page passed over by its pot at home"));
    assert!(told("5000 doctored records counted down"));
}

/// A refusal counts for a limit if nothing else is wrong.
#[test]
fn limits_decide_alone() {
    let decides = |blocks, area, ranges: &[u32]| {
        let ranges = ranges.to_vec();
        let (card, memory) = (blocks * BLOCK, 0);
        let told = told(&Call::Format { area, ranges }, Lent { card, memory }, &[]);
        told.is_some_and(|told| LIMITS.iter().any(|limit| limit.decides(&told)))
    };
    let nine: Vec<u32> = (0..9).flat_map(|oid| [oid, 1]).collect();
    assert!(decides(518, 513, &nine[..4]));
    assert!(decides(531, 512, &nine));
    assert!(!decides(519, 513, &nine[..4]), "a block that is not filled");
    assert!(!decides(532, 513, &nine), "two limits passed");
    assert!(!decides(516, 513, &[0, 1, 1, 0]), "a range without pages");
    assert!(!decides(519, 513, &[0, 2, 1, 1]), "ranges that overlap");
    assert!(!decides(519, 513, &[0, 1, u32::MAX, 2]), "OIDs too large");
}

/// A list is worth little if its calls are all lent the wrong thing.
#[test]
fn most_calls_are_lent_what_is_right() {
    let steps: Vec<Step> = lists().flat_map(|list| list.steps).collect();
    let right = |step: &&Step| {
        let whole = Lending::default();
        matches!(step, Step::Call { lending, .. } if *lending == whole)
    };
    assert!(steps.iter().filter(right).count() * 10 > steps.len() * 8);
}
