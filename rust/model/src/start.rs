//! Start: questions 4 to 8, asked of the card's bytes alone.

use crate::blocks::{get, number, ENTRIES, TRAILER_AT};
use crate::generation::{size, Changes, Committed};
use crate::geometry::Geometry;
use crate::store::{Phase, Store};
use crate::Refusal;

/// The store that a card of whole blocks holds.
pub fn start(card: &[u8], blocks: usize, memory: usize) -> Result<Store, Refusal> {
    let header = get(card, 0);
    if number(&header, 0) != 1 {
        return Err(4);
    }
    let geometry = geometry(&header, blocks).ok_or(5u32)?;
    let commit = number(&header, 4);
    let trailer = number(&header, 8) as usize;
    if (commit == 0) != (trailer == 0) || (commit > 0 && !geometry.in_area(trailer)) {
        return Err(6);
    }
    let committed = if commit == 0 {
        None
    } else {
        Some(committed(card, &geometry, commit, trailer)?)
    };
    // With commit 0 the first generation starts at block 1.
    let first = committed.as_ref().map_or(1, |committed| {
        geometry.ring(committed.first, committed.size())
    });
    Ok(Store {
        geometry,
        memory,
        commit,
        committed,
        pending: None,
        current: Changes::none(first),
        phase: Phase::Owed,
    })
}

/// Question 5, with A and the ranges from the header.
fn geometry(header: &[u8], blocks: usize) -> Option<Geometry> {
    let area = number(header, 12) as usize;
    let ranges = number(header, 16) as usize;
    if !(1..=8).contains(&ranges) {
        return None;
    }
    let numbers: Vec<u32> = (0..2 * ranges)
        .map(|i| number(header, 20 + 4 * i))
        .collect();
    Geometry::new(blocks, area, &numbers)
}

/// Questions 7 and 8.
fn committed(
    card: &[u8],
    geometry: &Geometry,
    commit: u32,
    trailer: usize,
) -> Result<Committed, Refusal> {
    let bytes = get(card, trailer);
    let first = number(&bytes, TRAILER_AT + 4) as usize;
    let p = number(&bytes, TRAILER_AT + 8) as usize;
    let e = number(&bytes, TRAILER_AT + 12) as usize;
    let holds = number(&bytes, TRAILER_AT) == commit
        && geometry.in_area(first)
        && (1..=p).contains(&e)
        && size(p, e) <= geometry.half()
        && geometry.ring(first, size(p, e) - 1) == trailer;
    if !holds {
        return Err(7);
    }
    let entries = entries(card, geometry, geometry.ring(first, p), e);
    if !entries_hold(geometry, first, p, &entries) {
        return Err(8);
    }
    Ok(Committed {
        first,
        p,
        entries,
        migrated: 0,
    })
}

/// The e entries of the directory that starts at that block.
fn entries(card: &[u8], geometry: &Geometry, directory: usize, e: usize) -> Vec<(usize, usize)> {
    let entry = |i: usize| {
        let block = get(card, geometry.ring(directory, i / ENTRIES));
        let at = 8 * (i % ENTRIES);
        let frame = number(&block, at) as usize;
        (frame, number(&block, at + 4) as usize)
    };
    (0..e).map(entry).collect()
}

/// Question 8: do entries rise, with home frames and blocks among the p?
fn entries_hold(geometry: &Geometry, first: usize, p: usize, entries: &[(usize, usize)]) -> bool {
    let rise = entries.windows(2).all(|pair| pair[0].0 < pair[1].0);
    let among_p =
        |block: usize| geometry.in_area(block) && geometry.ring_distance(first, block) < p;
    rise && entries
        .iter()
        .all(|(frame, block)| geometry.is_home(*frame) && among_p(*block))
}
