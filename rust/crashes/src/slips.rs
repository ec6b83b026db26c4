//! Shows that the trials can fail: layers with one slip each are caught.

mod between;

use crate::cuts::Effort;
use crate::day::{tiny, Begin, Letter, ALL, FAR};
use crate::layer::Layer;
use crate::linked::{Door, InC};
use crate::ready::{Ready, Recorded};
use crate::recorded::Shared;
use crate::shape::Room;
use crate::shim::{self, Calls};
use crate::system::{self, Setting};
use crate::trial::Run;
use crate::work::{self, IN_C, LONG, SHORT};
use crate::wrong::Wrong;
use between::{Between, Kind, Slip};

/// Only cards that document 02's drive may leave, none of them spoilt, and one cut alone.
fn plain(effort: Effort) -> Effort {
    Effort {
        spoilt: 0,
        go_on: 0,
        ..effort
    }
}

/// Cuts in short days and, as some slips need more calls, in a few long ones.
fn by_cuts(layer: &dyn Layer) -> Result<(), Wrong> {
    let mut run = Run::new(1);
    let shape = tiny(10, Room::Make);
    let effort = plain(SHORT);
    work::short(&mut run, layer, &FAR, 5, &shape, Begin::Created, effort)?;
    work::short(&mut run, layer, &ALL, 4, &shape, Begin::Formatted, effort)?;
    (0..6).try_for_each(|seed| work::long(&mut run, layer, seed, plain(LONG)).map(|_| ()))
}

/// Every card is gone on with, and nothing is opened but after a cut.
fn by_second_cuts(layer: &dyn Layer) -> Result<(), Wrong> {
    let letters = [Letter::Write0, Letter::Commit];
    let effort = Effort {
        go_on: 1000,
        ..plain(SHORT)
    };
    let (mut run, shape) = (Run::new(1), tiny(10, Room::Make));
    work::short(&mut run, layer, &letters, 2, &shape, Begin::Created, effort)
}

fn by_failures(layer: &dyn Layer) -> Result<(), Wrong> {
    let mut run = Run::new(1);
    (0..4).try_for_each(|seed| work::failures(&mut run, layer, seed, &IN_C))
}

fn by_creates(layer: &dyn Layer) -> Result<(), Wrong> {
    let mut run = Run::new(1);
    (0..4).try_for_each(|seed| work::create(&mut run, layer, seed))
}

/// The trial fails, and says this.
fn caught(trial: Result<(), Wrong>, what: &str) {
    let wrong = trial.expect_err("the slip is not caught").to_string();
    println!("{wrong}");
    assert!(wrong.contains(what), "{wrong}");
}

fn in_rust(slip: Slip) -> impl Layer {
    Ready(move |record: Shared| Between::new(record, slip))
}

fn in_c(calls: &'static Calls) -> InC {
    InC {
        calls,
        door: Door::Path(Setting::default()),
        unmapped: false,
    }
}

#[test]
fn none_in_rust() {
    let layer = Ready(Recorded);
    assert!(by_cuts(&layer).is_ok() && by_failures(&layer).is_ok() && by_creates(&layer).is_ok());
}

#[test]
fn none_in_c() {
    let layer = in_c(&shim::SHIPPED);
    assert!(by_cuts(&layer).is_ok() && by_failures(&layer).is_ok() && by_creates(&layer).is_ok());
    assert_eq!(system::with(|system| system.held()), 0);
}

/// What a create leaves at home is zeros, as an empty page is: only a card that was formatted over any
/// bytes shows that a flag is not asked.
#[test]
fn rust_flags_not_asked() {
    let (layer, shape) = (in_rust(Slip::FlagsNotAsked), tiny(10, Room::Make));
    let letters = [Letter::Write0, Letter::Commit];
    let days = |begin| {
        let mut run = Run::new(1);
        work::short(&mut run, &layer, &letters, 2, &shape, begin, plain(SHORT))
    };
    assert!(days(Begin::Created).is_ok());
    caught(days(Begin::Formatted), "and 0 is right");
}

macro_rules! slips {
    ($($test:ident: $trial:ident, $layer:expr, $what:literal;)*) => {
        $(#[test]
        fn $test() {
            caught($trial(&$layer), $what);
        })*
    };
}

slips! {
    rust_no_flush_before_header: by_cuts, in_rust(Slip::NoFlushBefore), "Refused(7)";
    rust_no_flush_after_header: by_cuts, in_rust(Slip::NoFlushAfter), "1 was answered done";
    rust_no_flush_at_open: by_cuts, in_rust(Slip::NoFlushAtOpen), "1 was answered done";
    rust_header_before_flush: by_cuts, in_rust(Slip::HeaderFirst), "Refused(7)";
    rust_header_joined: by_cuts, in_rust(Slip::HeaderJoined), "card: block 0 old, then new";
    rust_lost_page: by_cuts, in_rust(Slip::Lost(Kind::Page)), "byte 0 is 0, and 1 is right";
    rust_lost_directory: by_cuts, in_rust(Slip::Lost(Kind::Directory)), "Refused(8)";
    rust_lost_trailer: by_cuts, in_rust(Slip::Lost(Kind::Trailer)), "Refused(7)";
    rust_lost_home: by_cuts, in_rust(Slip::Lost(Kind::Home)), "is right";
    rust_misplaced_in_area: by_cuts, in_rust(Slip::Misplaced(Kind::Page)), "is right";
    rust_misplaced_at_home: by_cuts, in_rust(Slip::Misplaced(Kind::Home)), "is right";
    rust_neighbour_rewritten: by_cuts, in_rust(Slip::Rewritten), "any bytes";
    rust_done_before_flush: by_cuts, in_rust(Slip::DoneEarly), "1 was answered done";
    rust_open_writes: by_cuts, in_rust(Slip::OpenWrites), "opening writes a block";
    rust_drop_writes: by_cuts, in_rust(Slip::DropWrites), "a lane that is dropped writes";
    rust_slip_after_a_cut: by_second_cuts, in_rust(Slip::NoFlushBeforeOpened), "  cut: ";
    rust_goes_on_after_flush: by_failures, in_rust(Slip::FailedFlushDone), "has failed";
    rust_failed_write_done: by_failures, in_rust(Slip::FailedWriteDone), "the drive fails, and";
    rust_retried: by_failures, in_rust(Slip::Retried), "Write after the drive has failed";
    rust_cards_after_failures: by_failures, in_rust(Slip::NoFlushBefore), "block 0 new";
    rust_create_not_flushed: by_creates, in_rust(Slip::CreateNotFlushed), "Refused(7)";

    c_no_flush_before_header: by_cuts, in_c(&shim::NO_FLUSH_BEFORE_HEADER), "Refused(7)";
    c_no_flush_after_header: by_cuts, in_c(&shim::NO_FLUSH_AFTER_HEADER), "1 was answered done";
    c_no_flush_at_open: by_cuts, in_c(&shim::NO_FLUSH_AT_OPEN), "1 was answered done";
    c_header_before_flush: by_cuts, in_c(&shim::HEADER_BEFORE_FLUSH), "Refused(7)";
    c_header_joined: by_cuts, in_c(&shim::HEADER_JOINED), "card: block 0 old, then new";
    c_lost_page: by_cuts, in_c(&shim::LOST_PAGE), "byte 0 is 0, and 1 is right";
    c_lost_directory: by_cuts, in_c(&shim::LOST_DIRECTORY), "Refused(8)";
    c_lost_trailer: by_cuts, in_c(&shim::LOST_TRAILER), "Refused(7)";
    c_lost_home: by_cuts, in_c(&shim::LOST_HOME), "is right";
    c_misplaced_one: by_cuts, in_c(&shim::MISPLACED_ONE), "is right";
    c_misplaced_several: by_cuts, in_c(&shim::MISPLACED_SEVERAL), "Refused(7)";
    c_neighbour_rewritten: by_cuts, in_c(&shim::NEIGHBOUR_REWRITTEN), "any bytes";
    c_done_before_flush: by_cuts, in_c(&shim::DONE_BEFORE_FLUSH), "done after header 0";
    c_not_waited_for: by_cuts, in_c(&shim::NOT_WAITED_FOR), "while writes are under way";
    c_open_writes: by_cuts, in_c(&shim::OPEN_WRITES), "opening writes a block";
    c_close_writes: by_cuts, in_c(&shim::CLOSE_WRITES), "a lane that is dropped writes";
    c_advance_keeps_back: by_cuts, in_c(&shim::ADVANCE_KEEPS_BACK), "has not reached the drive";
    c_forecast_to_header: by_cuts, in_c(&shim::FORECAST_TO_HEADER), "with 6 foretold";
    c_forecast_left_open: by_failures, in_c(&shim::FORECAST_LEFT_OPEN), "and tells";
    c_goes_on_after_flush: by_failures, in_c(&shim::GOES_ON_AFTER_FLUSH), "lane is stopped, and";
    c_goes_on_after_write: by_failures, in_c(&shim::GOES_ON_AFTER_WRITE), "lane is stopped, and";
    c_flush_retried: by_failures, in_c(&shim::FLUSH_RETRIED), "Flush after the drive has failed";
    c_failed_write_done: by_failures, in_c(&shim::FAILED_WRITE_DONE), "the drive fails, and";
    c_failed_flush_done: by_failures, in_c(&shim::FAILED_FLUSH_DONE), "the drive fails, and";
    c_short_write_done: by_failures, in_c(&shim::SHORT_WRITE_DONE), "has failed";
    c_rest_of_write_done: by_failures, in_c(&shim::REST_OF_WRITE_DONE), "has failed";
    c_short_completion_done: by_failures, in_c(&shim::SHORT_COMPLETION_DONE), "has failed";
    c_failed_completion_done: by_failures, in_c(&shim::FAILED_COMPLETION_DONE), "has failed";
    c_refused_submit_done: by_failures, in_c(&shim::REFUSED_SUBMIT_DONE), "has failed";
    c_cards_after_failures: by_failures, in_c(&shim::NO_FLUSH_BEFORE_HEADER), "block 0 new";
    c_create_not_flushed: by_creates, in_c(&shim::CREATE_NOT_FLUSHED), "Refused(7)";
    c_create_header_first: by_creates, in_c(&shim::CREATE_HEADER_FIRST), "and 0 is right";
    c_folder_not_synced: by_creates, in_c(&shim::FOLDER_NOT_SYNCED), "the folder is not synced";
    c_file_left: by_failures, in_c(&shim::FILE_LEFT), "the file is left";
}
