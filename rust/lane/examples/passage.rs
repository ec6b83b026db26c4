//! A toll lane's controller. The bank's reply and the ticket of a car are two pages that change
//! together: should they come apart, the last car's reply beside the new car's ticket, the barrier
//! lifts for a car that has not paid. Both go into one snapshot, and the barrier lifts once no cut
//! can lose it.
//!
//!     passage IMAGE format           makes an empty card of a file or a block device, whatever it
//!                                    holds
//!     passage IMAGE pass [--kill N]  lets those of the cars 1 to 3 pass that have not yet, saying
//!                                    what goes down; killed, the N-th block or flush is cut
//!     passage IMAGE show             prints what an open finds; fails if reply and ticket differ
//!
//! A file is for trying it out. A device has physical and logical sectors of 512 bytes.

#![forbid(unsafe_code)]

use lane::file::{self, Card, Disk, Drive, Lane, Options, Promise};
use lane::{Range, Refusal, BLOCK};
use std::error::Error;
use std::io;
use std::num::NonZeroUsize;
use std::process::{exit, Command};

// OIDs: the car's reply and ticket, the car that the camera has seen last, tags with their balance.
const REPLY: u32 = 100;
const TICKET: u32 = 101;
const LOG: u32 = 102;
const TAGS: u32 = 103;
const STOLEN: u32 = 104;

const CARS: u8 = 3;
const TOP_UPS: u32 = 3;

/// Half of it, 6 blocks, holds a passage whole: log, pot, reply, ticket, directory, trailer.
const AREA: usize = 12;
const PAGES: Range = Range {
    first: REPLY,
    pages: 10,
};

type Outcome<T> = Result<T, Box<dyn Error>>;

fn ensure(holds: bool, why: &str) -> Outcome<()> {
    holds.then_some(()).ok_or_else(|| why.into())
}

/// The disk, but that it says what goes down, and is cut after so many blocks and flushes.
struct Told {
    disk: Disk,
    left: usize,
}

impl Told {
    fn put(&mut self, at: u64, bytes: &[u8]) -> io::Result<()> {
        self.disk.write(at, bytes)?;
        let (first, blocks) = (at as usize / BLOCK, bytes.len() / BLOCK);
        match blocks {
            1 => println!("block {first}"),
            _ => println!("blocks {first} to {}", first + blocks - 1),
        }
        Ok(())
    }

    /// Dies as in a power cut. Of the write some blocks are down, and the next one is torn, with
    /// its first half new. Block 0 is still old.
    fn cut(&mut self, at: u64, bytes: &[u8]) -> io::Result<()> {
        if at == 0 {
            return die("block 0 not made");
        }
        let (down, lost) = bytes.split_at(self.left * BLOCK);
        if !down.is_empty() {
            self.put(at, down)?;
        }
        let at = at + down.len() as u64;
        let mut torn = Card::zeros(BLOCK);
        self.disk.read(at, &mut torn)?;
        torn[..BLOCK / 2].copy_from_slice(&lost[..BLOCK / 2]);
        self.disk.write(at, &torn)?;
        die(&format!("block {} torn", at as usize / BLOCK))
    }
}

fn die(cut: &str) -> io::Result<()> {
    println!("{cut}");
    let mut kill = Command::new("sh");
    kill.args(["-c", "kill -KILL $PPID"]).status()?;
    Err(io::Error::other("the kill failed"))
}

impl Drive for Told {
    fn length(&self) -> u64 {
        self.disk.length()
    }

    fn card(&mut self) -> Result<Card, file::Error> {
        self.disk.card()
    }

    fn read(&mut self, at: u64, buffer: &mut [u8]) -> io::Result<()> {
        self.disk.read(at, buffer)
    }

    fn write(&mut self, at: u64, bytes: &[u8]) -> io::Result<()> {
        let blocks = bytes.len() / BLOCK;
        if self.left < blocks {
            return self.cut(at, bytes);
        }
        self.left -= blocks;
        self.put(at, bytes)
    }

    fn flush(&mut self) -> io::Result<()> {
        if self.left == 0 {
            return die("flush not made");
        }
        self.left -= 1;
        self.disk.flush()?;
        println!("flush");
        Ok(())
    }
}

/// Asks that the card survives a power cut. Where that cannot be promised it says why, and goes on.
fn promised<T>(open: impl Fn(Promise) -> Result<T, file::Error>) -> Result<T, file::Error> {
    match open(Promise::Asked) {
        Err(file::Error::Promise(why)) => {
            eprintln!("passage: {why}: safe at a kill, not at a power cut");
            open(Promise::Kill)
        }
        answer => answer,
    }
}

/// With the least memory room has to be made for a write at times. No commit is made for it: did
/// half the area not hold a passage, the write would be refused.
fn options() -> Options {
    Options::new().frames(4).replace(true).clone()
}

/// A page has its number in every byte, so that a torn one would be seen.
fn number<D: Drive>(lane: &Lane<D>, oid: u32) -> Outcome<u8> {
    let mut page = [0; BLOCK];
    lane.read(lane.key(oid)?, &mut page)?;
    ensure(page == [page[0]; BLOCK], "a page is torn")?;
    Ok(page[0])
}

fn write(lane: &mut Lane<Told>, oid: u32, number: u8) -> Result<(), file::Error> {
    lane.write(lane.key(oid)?, 0, &[number; BLOCK])
}

/// Whoever kept a key to the page has an old one from here on.
fn rescind(lane: &mut Lane<Told>, oid: u32) -> Outcome<()> {
    let old = lane.key(oid)?;
    lane.rescind(old)?;
    let told = lane.read(old, &mut [0; BLOCK]).err();
    let told = told.and_then(|why| why.refusal());
    ensure(told == Some(Refusal::Count), "the old key still opens it")?;
    ensure(number(lane, oid)? == 0, "the new key finds no zeros")?;
    let number = Refusal::Count.number();
    println!("tag {oid} rescinded: old key refused {number}, new key reads zeros");
    Ok(())
}

/// The office sends balances of tags. The log is committed before them, and they before the next
/// passage begins: each has half the area for itself.
fn top_up(lane: &mut Lane<Told>) -> Outcome<()> {
    println!("top-up");
    lane.commit()?;
    for tag in TAGS..TAGS + TOP_UPS {
        write(lane, tag, 50)?;
    }
    Ok(lane.commit()?)
}

fn passage(lane: &mut Lane<Told>, car: u8) -> Outcome<()> {
    println!("car {car}");
    if number(lane, LOG)? != car {
        write(lane, LOG, car)?;
    }
    if car == CARS {
        rescind(lane, STOLEN)?; // reported with this car, and kept with it
    }
    write(lane, REPLY, car)?;
    write(lane, TICKET, car)?;
    lane.snapshot()?;
    println!("snapshot");
    write(lane, LOG, car + 1)?; // the camera does not wait: this is the next snapshot's
    println!("log {}", car + 1);
    lane.finish()?;
    println!("barrier {car}");
    Ok(())
}

/// What an open shows no cut takes away: that car has paid. Whether it still stands there the
/// lane's sensor knows. At last the lane is idle, and brings the pages home.
fn pass(lane: &mut Lane<Told>) -> Outcome<()> {
    let kept = number(lane, REPLY)?;
    if kept > 0 {
        println!("paid {kept}");
    }
    for car in kept + 1..=CARS {
        if car == CARS {
            top_up(lane)?;
        }
        passage(lane, car)?;
    }
    Ok(lane.settle()?)
}

fn show(lane: &Lane) -> Outcome<()> {
    let number = |oid| number(lane, oid);
    let (reply, ticket, log) = (number(REPLY)?, number(TICKET)?, number(LOG)?);
    let (balance, count) = (number(STOLEN)?, lane.key(STOLEN)?.count);
    println!("reply {reply}, ticket {ticket}, log {log}, tag {STOLEN}: {balance}, count {count}");
    ensure(reply == ticket, "reply and ticket are of two cars")
}

fn run(words: &[&str]) -> Outcome<()> {
    let create =
        |image| promised(|promise| options().promise(promise).create(image, AREA, &[PAGES]));
    let open = |image| promised(|promise| options().promise(promise).open(image));
    let (image, left) = match *words {
        [image, "format"] => return Ok(create(image).map(drop)?),
        [image, "show"] => return show(&open(image)?),
        [image, "pass"] => (image, usize::MAX),
        [image, "pass", "--kill", n] => (image, n.parse::<NonZeroUsize>()?.get() - 1),
        _ => return Err("usage: IMAGE format | IMAGE pass [--kill N] | IMAGE show".into()),
    };
    let disk = promised(|promise| Disk::open(image, promise))?;
    pass(&mut options().open_on(Told { disk, left })?)
}

fn main() {
    let words: Vec<String> = std::env::args().skip(1).collect();
    let words: Vec<&str> = words.iter().map(String::as_str).collect();
    if let Err(why) = run(&words) {
        eprintln!("passage: {why}");
        exit(1);
    }
}
