//! The disk where a call of the system fails: each of its calls, at each of its turns, one a day.
//! A day is a process of its own, with failing.c loaded before the C library: that tells every call
//! on the card and its folder, and fails one.

use lane::file::{Disk, Error, Lane, Options, Promise, Unkept};
use lane::{Key, Range, BLOCK};
use std::os::unix::fs::MetadataExt;
use std::path::{Path, PathBuf};
use std::process::Command;
use std::{env, fs};

const FOLDER: &str = "LANE_FAILING_FOLDER";
const WORDS: &str = "LANE_FAILING_WORDS";
/// Pages that share no pot.
const OIDS: [u32; 4] = [100, 210, 320, 430];

/// Calls, and how each fails; turns that a day has at least; and what it is told, nothing where the
/// layer goes on without the call.
type Case = (&'static str, &'static str, usize, &'static str);

const OPEN: &str = "open failed: Protocol error (os error 71)";
const READ: &str = "read failed: Protocol error (os error 71)";
const WRITE: &str = "write failed: Protocol error (os error 71)";
const FLUSH: &str = "flush failed: Protocol error (os error 71)";
const INTERRUPTED: &str = "flush failed: Interrupted system call (os error 4)";
const SHORT: &str = "write failed: only a part was written";
const END: &str = "read failed: failed to fill whole buffer";
const BUSY: &str = "the card is open already, or its device is in use";
const EXISTS: &str = "something is there, which is not formatted over unasked";
const DIRECT: &str = "the promise is not kept: no O_DIRECT for blocks of 512 bytes here";

const MAPPED: [Case; 9] = [
    ("open metadata", "71", 4, OPEN),
    ("flock lseek", "71", 2, OPEN),
    ("flock", "11", 2, BUSY),
    ("fsync", "71", 1, OPEN),
    ("mmap madvise posix_fadvise", "71", 2, ""),
    ("pwrite", "71 half", 10, WRITE),
    ("pwrite", "short", 10, SHORT),
    ("fdatasync", "71", 13, FLUSH),
    ("fdatasync", "4", 13, INTERRUPTED),
];
const UNMAPPED: [Case; 3] = [
    ("pread", "71", 2, READ),
    ("pread", "end", 2, END),
    ("pread", "half", 2, ""),
];
/// Over a longer file that is there.
const REPLACED: [Case; 2] = [
    ("ftruncate fsync", "71", 1, OPEN),
    ("pwrite", "71", 10, WRITE),
];
const AT_ONCE: [Case; 5] = [
    ("io_setup io_destroy", "71", 2, ""),
    ("io_submit", "11 one midway", 3, ""),
    ("io_getevents", "4 one", 3, ""),
    ("io_getevents", "71 spoilt", 3, WRITE),
    ("io_getevents", "short", 3, SHORT),
];

#[test]
fn calls_of_the_system_fail() {
    if let (Ok(folder), Ok(words)) = (env::var(FOLDER), env::var(WORDS)) {
        println!();
        day(&options(&words), &Path::new(&folder).join("card"));
        return;
    }
    in_memory();
    on_a_disk();
}

fn in_memory() {
    if !Path::new("/dev/shm").is_dir() {
        return eprintln!("no /dev/shm: not tried in memory");
    }
    let place = Place::new("/dev/shm");
    place.every_turn("kill", &MAPPED);
    place.every_turn("kill unmapped", &UNMAPPED);
    place.every_turn("kill replace", &REPLACED);
    // Between the file's making and its opening.
    place.turn("kill", ("open", "taken", EXISTS), 2);
}

fn on_a_disk() {
    let place = Place::new(env!("CARGO_TARGET_TMPDIR"));
    let tried = Disk::create(place.folder.join("card"), 512, Promise::Vouched, false).map(drop);
    if let Err(Error::Promise(Unkept::Direct)) = tried {
        return eprintln!("no O_DIRECT: not tried on a disk");
    }
    place.every_turn("vouched", &MAPPED);
    place.every_turn("vouched", &[("statx", "71", 2, "")]);
    place.every_turn("vouched unmapped", &UNMAPPED);
    place.every_turn("vouched replace", &REPLACED);
    place.turn("asked", ("fstatfs", "71", OPEN), 1);
    for (words, answer) in [("vouched", DIRECT), ("kill", "")] {
        place.turn(words, ("open", "22", answer), 2);
        place.turn(words, ("statx", "4096", answer), 1);
    }
    match fs::metadata(&place.folder).unwrap().dev() >> 8 & 0xfff {
        0 => eprintln!("no device below: no writes at once are tried"),
        _ => place.every_turn("vouched", &AT_ONCE),
    }
}

fn options(words: &str) -> Options {
    let mut options = Options::new();
    options.mapped(!words.ends_with("unmapped"));
    options.replace(words.ends_with("replace"));
    options.promise(match words.split(' ').next() {
        Some("kill") => Promise::Kill,
        Some("vouched") => Promise::Vouched,
        _ => Promise::Asked,
    });
    options
}

/// Creates, commits, opens and commits again, until a call is not done.
fn day(options: &Options, card: &Path) -> Option<()> {
    let (first, pages) = (OIDS[0], 400);
    let created = options.create(card, 24, &[Range { first, pages }]);
    let mut lane = told("create", created)?;
    for n in [1, 2] {
        change(&mut lane, n)?;
        let answer = lane.settle();
        live(&mut lane, "settle", answer)?;
    }
    change(&mut lane, 3)?;
    drop(lane);
    let mut lane = told("open", options.open(card))?;
    assert_eq!(shown(&lane), 3);
    change(&mut lane, 4)
}

fn told<T>(call: &str, answer: Result<T, Error>) -> Option<T> {
    match &answer {
        Ok(_) => println!("done {call}"),
        Err(why) => println!("failed {call}: {why}"),
    }
    answer.ok()
}

fn change(lane: &mut Lane, n: u8) -> Option<()> {
    for oid in OIDS {
        lane.write(Key { oid, count: 0 }, 0, &[n; BLOCK]).unwrap();
    }
    let answer = lane.commit();
    live(lane, "commit", answer)
}

/// Tells the answer, and if it was not done, whether every later call is refused.
fn live(lane: &mut Lane, call: &str, answer: Result<(), Error>) -> Option<()> {
    told(call, answer).or_else(|| {
        let key = Key { oid: 100, count: 0 };
        let later = [
            lane.key(100).map(|_| ()),
            lane.read(key, &mut [0; BLOCK]),
            lane.write(key, 0, b"x"),
            lane.rescind(key),
            lane.snapshot(),
            lane.finish(),
            lane.commit(),
            lane.advance().map(|_| ()),
            lane.settle(),
        ];
        let stopped = |answer: &Result<(), Error>| matches!(answer, Err(Error::Stopped));
        println!("stopped {}", later.iter().all(stopped));
        None
    })
}

/// The commit that all pages are of.
fn shown(lane: &Lane) -> u8 {
    let mut pages = [[0; BLOCK]; OIDS.len()];
    for (oid, page) in OIDS.iter().zip(&mut pages) {
        lane.read(lane.key(*oid).unwrap(), page).unwrap();
    }
    assert_eq!(pages, [[pages[0][0]; BLOCK]; OIDS.len()]);
    pages[0][0]
}

/// A folder of its own, removed at the end, and failing.c as it is loaded.
struct Place {
    folder: PathBuf,
    loaded: PathBuf,
}

impl Place {
    fn new(within: &str) -> Place {
        let name = format!("lane-failing-{}", std::process::id());
        let folder = Path::new(within).join(&name);
        let loaded = Path::new(env!("CARGO_TARGET_TMPDIR")).join(name + ".so");
        fs::create_dir(&folder).unwrap();
        let made = Command::new("gcc")
            .args("-std=c11 -Wall -Wextra -Werror -shared -fPIC -o".split(' '))
            .arg(&loaded)
            .arg(concat!(env!("CARGO_MANIFEST_DIR"), "/tests/failing.c"))
            .status();
        assert!(made.unwrap().success());
        Place { folder, loaded }
    }

    /// As many turns as there are in a day where no call fails.
    fn every_turn(&self, words: &str, cases: &[Case]) {
        let good = self.turn(words, ("none", "", ""), 0);
        for (calls, hows, least, answer) in cases {
            for call in calls.split(' ') {
                let turns = good.count(call);
                assert!(turns >= *least, "{words}: {call} has {turns} turns");
                for how in hows.split(' ') {
                    (1..=turns).for_each(|turn| drop(self.turn(words, (call, how, answer), turn)));
                }
            }
        }
    }

    fn turn(&self, words: &str, (call, how, answer): (&str, &str, &str), turn: usize) -> Day {
        let day = self.day(words, [call, how, &turn.to_string()]);
        let rest = ["rest"].repeat((call == "pwrite" && how != "71").into());
        let holds = |ok: bool, what| assert!(ok, "{what}: {words} {call} {how} {turn}: {}", day.0);
        holds(day.count("fails") == turn.min(1), "it did not fail");
        holds(day.answer() == answer, "the answer");
        holds(day.count("stopped false") == 0, "it is not stopped");
        holds(answer.is_empty() || day.after() == rest, "it went on");
        holds(day.count("shared") == 0, "the mapping is shared");
        holds(!day.leaves_writes(), "writes are under way");
        holds(self.kept(words, &day), "what is found");
        day
    }

    fn day(&self, words: &str, [call, how, turn]: [&str; 3]) -> Day {
        let card = self.folder.join("card");
        let _ = fs::remove_file(&card);
        if words.ends_with("replace") {
            fs::write(card, [7; 1 << 18]).unwrap();
        }
        let told = Command::new(env::current_exe().unwrap())
            .args(["--exact", "calls_of_the_system_fail", "--nocapture"])
            .env("LD_PRELOAD", &self.loaded)
            .env(FOLDER, &self.folder)
            .env(WORDS, words)
            .env("LANE_FAILING_CALL", call)
            .env("LANE_FAILING_HOW", how)
            .env("LANE_FAILING_TURN", turn)
            .output()
            .unwrap();
        assert!(told.status.success(), "{call} {how} {turn}: {told:?}");
        Day(String::from_utf8(told.stdout).unwrap())
    }

    /// Whether the last commit that was done is found, or the one that failed. Where create failed,
    /// a new file is gone, unless it is another's.
    fn kept(&self, words: &str, day: &Day) -> bool {
        let card = self.folder.join("card");
        let found = || shown(&options(words).open(&card).unwrap());
        let done = day.count("done commit") as u8;
        let last = done + u8::from(day.0.contains("failed commit"));
        match day.count("done create") {
            0 => {
                let another = [BUSY, EXISTS].contains(&day.answer());
                card.exists() == (words.ends_with("replace") || another)
            }
            _ => (done..=last).contains(&found()),
        }
    }
}

impl Drop for Place {
    fn drop(&mut self) {
        let _ = fs::remove_dir_all(&self.folder);
        let _ = fs::remove_file(&self.loaded);
    }
}

/// What a day has told, by lines.
struct Day(String);

impl Day {
    fn count(&self, line: &str) -> usize {
        self.0.lines().filter(|found| *found == line).count()
    }

    /// What was told of the failure, if anything was.
    fn answer(&self) -> &str {
        let failed = self.0.lines().find_map(|line| line.strip_prefix("failed "));
        failed.map_or("", |failed| failed.split_once(": ").unwrap().1)
    }

    /// What was done to the card and its folder after the failure.
    fn after(&self) -> Vec<&str> {
        const DONE: &str = "pwrite rest ftruncate fdatasync fsync io_submit";
        let after = self.0.lines().skip_while(|line| *line != "fails");
        let done = |line: &&str| DONE.split(' ').any(|done| done == *line);
        after.filter(done).collect()
    }

    /// Whether writes are under way at a flush or an answer.
    fn leaves_writes(&self) -> bool {
        let mut left = "0";
        self.0.lines().any(|line| {
            left = line.strip_prefix("under way ").unwrap_or(left);
            let answer = line.starts_with("done") || line.starts_with("failed");
            left != "0" && (answer || line == "fdatasync")
        })
    }
}
