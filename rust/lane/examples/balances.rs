//! Three balances, a page each, on a card. Money moves from one to the next over and over, and each
//! move is a commit: killed at any time, the program goes on from the last one.

use lane::file::{Error, Options, Promise};
use lane::{Key, Range, BLOCK};

fn main() -> Result<(), Error> {
    let card = std::env::args().nth(1).unwrap_or("balances.card".into());
    let mut any_disk = Options::new();
    any_disk.promise(Promise::Kill); // a lane asks for more
    let pages = [Range { first: 0, pages: 3 }];
    let mut lane = match any_disk.open(&card) {
        Err(Error::Drive { .. }) => any_disk.create(&card, 12, &pages)?, // not there yet
        lane => lane?,
    };
    let keys = [0, 1, 2].map(|oid| Key { oid, count: 0 });
    let mut page = [0; BLOCK];
    let mut balances = [0i64; 3];
    for (key, balance) in keys.iter().zip(&mut balances) {
        lane.read(*key, &mut page)?;
        *balance = i64::from_le_bytes(page[..8].try_into().unwrap());
    }
    for n in 0.. {
        println!("{n}: {} {} {}", balances[0], balances[1], balances[2]);
        balances[n % 3] -= n as i64 + 1;
        balances[(n + 1) % 3] += n as i64 + 1;
        for (key, balance) in keys.iter().zip(&balances) {
            lane.write(*key, 0, &balance.to_le_bytes())?;
        }
        lane.commit()?; // no cut takes it away from here on
    }
    Ok(())
}
