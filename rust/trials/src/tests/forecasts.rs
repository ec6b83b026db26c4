//! Faults in what is foretold, and forecasts that change something.

use super::careless::{Careless, Slip};
use super::faulty::{Fault, Faulty, Miscount};
use super::{caught, caught_by_model, fails, failures, full_list, seen, SHORT};
use crate::call::Call;
use crate::doctored::{records, STATES};
use crate::foretold::played;
use crate::rng::Rng;
use crate::tally::Tally;
use model::geometry::BLOCK;
use model::{Lent, Model};

/// Caught by the model's forecasts; and with the fault in the reference too, by
/// the calls between two forecasts.
fn caught_as_miscount(miscount: Miscount) {
    let fault = Fault::Forecast(miscount);
    caught_by_model(fault);
    let steps = caught(|list| fails(fault, Faulty::new(fault), list));
    assert!(steps.len() <= SHORT);
}

#[test]
fn trailer_left_out() {
    caught_as_miscount(Miscount::NoTrailer);
}

#[test]
fn header_left_out() {
    caught_as_miscount(Miscount::NoHeader);
}

#[test]
fn flush_after_the_header_left_out() {
    caught_as_miscount(Miscount::NoFlushAfterHeader);
}

#[test]
fn flush_before_the_header_counted_again() {
    caught_as_miscount(Miscount::FlushCountedAgain);
}

/// Only a directory of several blocks is down in part.
#[test]
fn directory_counted_whole() {
    let (fault, list) = (Fault::Forecast(Miscount::DirectoryWhole), full_list());
    assert!(fails(fault, Model::new(Vec::new()), &list));
    assert!(fails(fault, Faulty::new(fault), &list));
}

#[test]
fn migration_left_out() {
    caught_as_miscount(Miscount::NoMigration);
}

#[test]
fn pages_counted_that_are_passed_over() {
    caught_as_miscount(Miscount::PassedOverCounted);
}

#[test]
fn empty_pages_by_the_newest_view() {
    caught_as_miscount(Miscount::EmptyByNewest);
}

#[test]
fn empty_pages_by_the_pot_at_home() {
    caught_as_miscount(Miscount::EmptyAtHome);
}

#[test]
fn migration_told_with_none_pending() {
    caught_as_miscount(Miscount::MigrationAlone);
}

#[test]
fn flush_that_is_due_left_out() {
    caught_as_miscount(Miscount::NoFlushOwed);
}

#[test]
fn current_frames_counted() {
    caught_as_miscount(Miscount::CurrentCounted);
}

#[test]
fn forecast_of_the_snapshot_kept() {
    caught_as_miscount(Miscount::Stale);
}

/// What a copy makes is what the whole run of document 01 makes, with document
/// 02's flushes: F, P, P, D, T, F, H, F, M, M.
#[test]
fn advances_of_the_whole_run() {
    let (card, memory) = (11 * BLOCK, 4 * BLOCK);
    let lent = Lent { card, memory };
    let mut model = Model::new(vec![0; card]);
    assert_eq!(model.format(card, 8, &[100, 1]), Ok(()));
    assert_eq!(model.start(lent), Ok(()));
    assert_eq!(played(model.clone(), lent), 1);
    assert_eq!(model.write(lent, 100, 0, 0, &[7]), Ok(()));
    assert_eq!(model.snapshot(lent), Ok(()));
    for left in [8, 7, 6, 5, 4, 3, 2, 1, 0, 0] {
        assert_eq!(played(model.clone(), lent), left);
        assert!(model.advance(lent).is_ok());
    }
    assert_eq!(played(model, lent), 0);
}

/// Records that hold together are advanced as far as they foretell.
#[test]
fn doctored_records_catch_a_miscount() {
    let on = |call: &Call| *call == Call::Forecast;
    let (at, slip) = (0, Slip::OneMore);
    let mut library = Careless { on, at, slip };
    let tally = &mut Tally::default();
    let what = seen(records::doctor(&mut library, tally, STATES[2], Rng::new(5)));
    assert!(what.contains("advance makes H with 3 foretold"), "{what}");
}

/// Done or refused, a forecast leaves record, memory and card.
#[test]
fn lists_catch_a_forecast_that_changes_something() {
    for at in [0, 1, 3] {
        for (slip, what) in [
            (Slip::Record, "record byte 77"),
            (Slip::Memory, "memory byte"),
            (Slip::Card, "card block"),
        ] {
            let on = |call: &Call| *call == Call::Forecast;
            let mut failures = failures(Careless { on, at, slip });
            let failure = failures.next().expect("no list fails");
            assert!(failure.what.contains(what), "{failure}");
        }
    }
}
