//! The ready store on files, and over a drive that records and fails.

use lane::file::{Doing, Drive, Error, Event, Lane, Options, Promise, Recorder, Room, Unkept};
use lane::{Key, Range, Refusal, Report, BLOCK};
use std::fs::{self, OpenOptions};
use std::path::{Path, PathBuf};

const FIRST: u32 = 100;

/// A folder of its own, removed at the end.
struct Folder(PathBuf);

impl Folder {
    fn new(name: &str) -> Folder {
        let memory = Path::new("/dev/shm");
        let within = if memory.is_dir() {
            memory.to_path_buf()
        } else {
            std::env::temp_dir()
        };
        let folder = within.join(format!("lane-file-{name}-{}", std::process::id()));
        fs::create_dir(&folder).unwrap();
        Folder(folder)
    }

    fn card(&self) -> PathBuf {
        self.0.join("card")
    }
}

impl Drop for Folder {
    fn drop(&mut self) {
        let _ = fs::remove_dir_all(&self.0);
    }
}

fn kill() -> Options {
    Options::new().promise(Promise::Kill).clone()
}

fn pages(pages: u32) -> [Range; 1] {
    [Range {
        first: FIRST,
        pages,
    }]
}

fn put<D: Drive>(lane: &mut Lane<D>, oid: u32, byte: u8) -> Result<(), Error> {
    let key = lane.key(oid)?;
    lane.write(key, 0, &[byte; BLOCK])
}

fn byte<D: Drive>(lane: &Lane<D>, oid: u32) -> u8 {
    let mut page = [0; BLOCK];
    lane.read(lane.key(oid).unwrap(), &mut page).unwrap();
    assert_eq!(page, [page[0]; BLOCK], "a page is torn");
    page[0]
}

fn number(answer: Result<(), Error>) -> u32 {
    match answer {
        Ok(()) => 0,
        Err(Error::Refused(refusal)) => refusal.number(),
        Err(other) => panic!("{other}"),
    }
}

#[test]
fn what_is_committed_is_found_again() {
    let folder = Folder::new("found");
    let mut lane = kill().create(folder.card(), 8, &pages(3)).unwrap();
    put(&mut lane, FIRST, 7).unwrap();
    lane.commit().unwrap();
    put(&mut lane, FIRST, 8).unwrap();
    drop(lane);
    for mapped in [true, false] {
        let lane = kill().mapped(mapped).open(folder.card()).unwrap();
        assert_eq!(byte(&lane, FIRST), 7);
        assert_eq!(byte(&lane, FIRST + 1), 0);
    }
}

#[test]
fn a_card_is_open_once() {
    let folder = Folder::new("once");
    let lane = kill().create(folder.card(), 8, &pages(1)).unwrap();
    assert!(matches!(kill().open(folder.card()), Err(Error::Busy)));
    let again = kill().replace(true).create(folder.card(), 8, &pages(1));
    assert!(matches!(again, Err(Error::Busy)));
    drop(lane);
    kill().open(folder.card()).unwrap();
}

#[test]
fn what_is_there_is_not_formatted_over_unasked() {
    let folder = Folder::new("over");
    let mut lane = kill().create(folder.card(), 8, &pages(2)).unwrap();
    put(&mut lane, FIRST, 7).unwrap();
    lane.commit().unwrap();
    drop(lane);
    let again = kill().create(folder.card(), 8, &pages(1));
    assert!(matches!(again, Err(Error::Exists)));
    assert_eq!(byte(&kill().open(folder.card()).unwrap(), FIRST), 7);
    let new = kill().replace(true).create(folder.card(), 8, &pages(1));
    assert_eq!(byte(&new.unwrap(), FIRST), 0);
    assert_eq!(fs::metadata(folder.card()).unwrap().len(), 11 * 512);
}

#[test]
fn a_geometry_that_is_refused_makes_no_file() {
    let folder = Folder::new("geometry");
    for (area, number) in [(7, 3), (600, 5), (70_000, 3)] {
        let answer = kill().create(folder.card(), area, &pages(1));
        assert_eq!(answer.unwrap_err().refusal().unwrap().number(), number);
        assert!(!folder.card().exists());
    }
}

/// A card is not given up for a lane that cannot be opened.
#[test]
fn memory_that_is_refused_leaves_a_card_as_it_is() {
    let folder = Folder::new("memory");
    let mut lane = kill().create(folder.card(), 8, &pages(1)).unwrap();
    put(&mut lane, FIRST, 7).unwrap();
    lane.commit().unwrap();
    drop(lane);
    for frames in [3, 65] {
        let mut options = kill();
        options.frames(frames).replace(true);
        let answer = options.create(folder.card(), 8, &pages(1)).unwrap_err();
        assert_eq!(answer.refusal(), Some(Refusal::Memory));
        let answer = options.open(folder.card()).unwrap_err();
        assert_eq!(answer.refusal(), Some(Refusal::Memory));
    }
    assert_eq!(byte(&kill().open(folder.card()).unwrap(), FIRST), 7);
}

#[test]
fn a_file_of_another_length_is_told() {
    let folder = Folder::new("length");
    drop(kill().create(folder.card(), 8, &pages(4)).unwrap());
    let wanted = 14 * 512;
    for found in [wanted - 512, wanted + 512, wanted + 1] {
        let file = OpenOptions::new().write(true).open(folder.card()).unwrap();
        file.set_len(found).unwrap();
        let answer = kill().open(folder.card()).unwrap_err();
        let text = format!("{found} bytes, where the card has {wanted}");
        assert_eq!(answer.to_string(), text);
    }
}

#[test]
fn what_is_no_card_is_refused_by_its_number() {
    let folder = Folder::new("none");
    for (bytes, number) in [(0, 3), (100, 3), (10 * 512, 3), (11 * 512, 4)] {
        fs::write(folder.card(), vec![0; bytes]).unwrap();
        let answer = kill().open(folder.card()).unwrap_err();
        assert_eq!(answer.refusal().unwrap().number(), number);
    }
    let missing = kill().open(folder.0.join("missing")).unwrap_err();
    let Error::Drive { doing, source } = missing else {
        panic!("{missing}");
    };
    assert_eq!(doing, Doing::Open);
    assert_eq!(source.kind(), std::io::ErrorKind::NotFound);
}

#[test]
fn memory_has_no_promise_at_a_power_cut() {
    if !Path::new("/dev/shm").is_dir() {
        return;
    }
    let folder = Folder::new("promise");
    let answer = Lane::create(folder.card(), 8, &pages(1)).unwrap_err();
    assert!(matches!(
        answer,
        Error::Promise(Unkept::FileSystem(_) | Unkept::Direct)
    ));
    assert!(!folder.card().exists());
}

/// The run that document 01 prints, at the drive.
#[test]
fn a_commit_is_one_write_a_flush_the_header_and_a_flush() {
    let lane = Options::new().create_on(Recorder::zeros(11), 8, &pages(1));
    let mut lane = lane.unwrap();
    let before = lane.drive().events().len();
    put(&mut lane, FIRST, 7).unwrap();
    assert_eq!(lane.drive().events().len(), before);
    lane.commit().unwrap();
    lane.settle().unwrap();
    let events = lane.drive().events()[before..].iter();
    let told: Vec<_> = events
        .map(|event| match event {
            Event::Write { at, bytes } => (*at as usize / BLOCK, bytes.len() / BLOCK),
            Event::Flush => (0, 0),
        })
        .collect();
    assert_eq!(told, [(1, 4), (0, 0), (0, 1), (0, 0), (9, 2)]);
}

#[test]
fn advances_are_told_one_by_one() {
    let lane = Options::new().create_on(Recorder::zeros(11), 8, &pages(1));
    let mut lane = lane.unwrap();
    put(&mut lane, FIRST, 7).unwrap();
    lane.snapshot().unwrap();
    let mut told = Vec::new();
    while let Some(report) = lane.advance().unwrap() {
        told.push(report);
    }
    let (p, d, t) = (Report::P, Report::D(3), Report::T(4));
    let (f, h, m) = (Report::F(0), Report::H(0), Report::M);
    assert_eq!(told, [p(1), p(2), d, t, f, h, f, m(9), m(10)]);
    assert_eq!(number(lane.snapshot()), Refusal::Unchanged.number());
    lane.commit().unwrap();
}

#[test]
fn advances_are_foretold() {
    let lane = Options::new().create_on(Recorder::zeros(11), 8, &pages(1));
    let mut lane = lane.unwrap();
    put(&mut lane, FIRST, 7).unwrap();
    assert_eq!(lane.forecast().unwrap(), 0);
    lane.snapshot().unwrap();
    for left in (1..=7).rev() {
        assert_eq!(lane.forecast().unwrap(), left);
        put(&mut lane, FIRST, 8).unwrap();
        assert_eq!(byte(&lane, FIRST), 8);
        assert_eq!(lane.forecast().unwrap(), left);
        lane.advance().unwrap();
    }
    while lane.advance().unwrap().is_some() {
        assert_eq!(lane.forecast().unwrap(), 0);
    }
}

/// The blocks that were written and the flushes.
fn made(drive: &Recorder) -> usize {
    let made = drive.events().iter().map(|event| match event {
        Event::Write { bytes, .. } => bytes.len() / BLOCK,
        Event::Flush => 1,
    });
    made.sum()
}

/// The second finds pot and page of the first on their way home, the third an empty page, which stays
/// out.
#[test]
fn finish_makes_as_many_as_are_foretold() {
    let lane = Options::new().create_on(Recorder::zeros(1 + 12 + 3), 12, &pages(2));
    let mut lane = lane.unwrap();
    let mut finish = |oid, empty, foretold| {
        put(&mut lane, oid, 7).unwrap();
        if empty {
            lane.rescind(lane.key(oid).unwrap()).unwrap();
        }
        lane.snapshot().unwrap();
        assert_eq!(lane.forecast().unwrap(), foretold);
        let before = made(lane.drive());
        lane.finish().unwrap();
        assert_eq!(made(lane.drive()) - before, foretold as usize);
        assert_eq!(lane.forecast().unwrap(), 0);
    };
    // P, P, D, T, F, H, F.
    finish(FIRST, false, 7);
    // P, P, D, T, M, M, F, H, F.
    finish(FIRST + 1, true, 9);
    // P, D, T, M, F, H, F.
    finish(FIRST, false, 7);
}

/// Writes n pages, far more than half the area of 8 has room for.
fn fill(room: Room) -> Vec<u32> {
    let mut options = Options::new();
    let lane = options
        .frames(4)
        .room(room)
        .create_on(Recorder::zeros(30), 8, &pages(20));
    let mut lane = lane.unwrap();
    (FIRST..FIRST + 20)
        .map(|oid| number(put(&mut lane, oid, 7)))
        .collect()
}

#[test]
fn room_is_made_as_the_caller_chooses() {
    let full = Refusal::GenerationFull.number();
    assert_eq!(fill(Room::Commit), [0; 20]);
    assert_eq!(fill(Room::Make)[..3], [0, full, full]);
    assert_eq!(fill(Room::Refuse)[..3], [0, full, full]);
}

/// With memory of 4 frames a fifth page waits for a page-out, which only `Room::Refuse` leaves to
/// the caller.
#[test]
fn memory_is_freed_unless_it_is_to_be_refused() {
    for (room, wanted) in [(Room::Make, 0), (Room::Refuse, 14)] {
        let mut options = Options::new();
        options.frames(4).room(room);
        let lane = options.create_on(Recorder::zeros(1 + 40 + 11), 40, &pages(10));
        let mut lane = lane.unwrap();
        let answers: Vec<u32> = (FIRST..FIRST + 5)
            .map(|oid| number(put(&mut lane, oid, 7)))
            .collect();
        assert_eq!(answers[4], wanted);
    }
}

/// While a snapshot is pending the three generations come to the area's end.
#[test]
fn a_pending_snapshot_is_finished_where_the_area_is_full() {
    let lane = Options::new().create_on(Recorder::zeros(30), 8, &pages(20));
    let mut lane = lane.unwrap();
    put(&mut lane, FIRST, 1).unwrap();
    lane.commit().unwrap();
    put(&mut lane, FIRST, 2).unwrap();
    lane.snapshot().unwrap();
    assert_eq!(lane.forecast().unwrap(), 8);
    put(&mut lane, FIRST, 3).unwrap();
    assert_eq!(lane.forecast().unwrap(), 0);
    assert_eq!(byte(&lane, FIRST), 3);
    let bytes = lane.into_drive().bytes().to_vec();
    let lane = Options::new().open_on(Recorder::new(bytes)).unwrap();
    assert_eq!(byte(&lane, FIRST), 2);
}

/// On a disk that takes single blocks: pages far apart are in flight together on their way home.
#[test]
fn many_blocks_go_down_at_once() {
    let folder = Folder(std::env::temp_dir().join(format!("lane-many-{}", std::process::id())));
    fs::create_dir(&folder.0).unwrap();
    let mut options = Options::new();
    options.promise(Promise::Vouched);
    let mut lane = match options.create(folder.card(), 512, &pages(2_000)) {
        Err(Error::Promise(Unkept::Direct)) => return,
        lane => lane.unwrap(),
    };
    let apart = |i: u32| FIRST + i * 10;
    for turn in 1..=2 {
        (0..200).for_each(|i| put(&mut lane, apart(i), i as u8 ^ turn).unwrap());
        lane.commit().unwrap();
        lane.settle().unwrap();
    }
    drop(lane);
    let lane = options.open(folder.card()).unwrap();
    (0..200).for_each(|i| assert_eq!(byte(&lane, apart(i)), i as u8 ^ 2));
}

/// A short day; tells how many commits were answered done.
fn day(lane: &mut Lane<Recorder>) -> (u8, Result<(), Error>) {
    for turn in 1..=4 {
        let mut change = || {
            put(lane, FIRST, turn)?;
            put(lane, FIRST + 1, turn)?;
            lane.commit()
        };
        if let Err(why) = change() {
            return (turn - 1, Err(why));
        }
        if let Err(why) = lane.settle() {
            return (turn, Err(why));
        }
    }
    (4, Ok(()))
}

fn all_refused(lane: &mut Lane<Recorder>, key: Key) {
    let stopped = |answer: Result<(), Error>| matches!(answer, Err(Error::Stopped));
    assert!(stopped(lane.key(FIRST).map(|_| ())));
    assert!(stopped(lane.read(key, &mut [0; BLOCK])));
    assert!(stopped(lane.write(key, 0, b"x")));
    assert!(stopped(lane.rescind(key)));
    assert!(stopped(lane.snapshot()));
    assert!(stopped(lane.finish()));
    assert!(stopped(lane.forecast().map(|_| ())));
    assert!(stopped(lane.commit()));
    assert!(stopped(lane.advance().map(|_| ())));
    assert!(stopped(lane.settle()));
}

#[test]
fn after_a_failure_everything_is_refused_and_nothing_committed_is_lost() {
    let mut failures = 0;
    for left in 0.. {
        let lane = Options::new().create_on(Recorder::zeros(1 + 12 + 3), 12, &pages(2));
        let mut lane = lane.unwrap();
        let key = lane.key(FIRST).unwrap();
        lane.drive_mut().fail_after(left);
        let (done, outcome) = day(&mut lane);
        let Err(why) = outcome else {
            break;
        };
        failures += 1;
        assert!(matches!(why, Error::Drive { .. }), "{why}");
        let written = lane.drive().events().len();
        all_refused(&mut lane, key);
        assert_eq!(lane.drive().events().len(), written);
        let bytes = lane.into_drive().bytes().to_vec();
        let lane = Options::new().open_on(Recorder::new(bytes)).unwrap();
        let found = byte(&lane, FIRST);
        assert_eq!(found, byte(&lane, FIRST + 1));
        assert!((done..=done + 1).contains(&found), "{done} {found}");
    }
    assert!(failures > 16);
}

#[test]
fn a_read_that_fails_is_told_at_open() {
    let mut drive = Recorder::zeros(11);
    drive.fail_after(0);
    let why = Options::new().open_on(drive).unwrap_err();
    assert_eq!(
        why.to_string(),
        "read failed: the drive fails, as it was told to"
    );
}
