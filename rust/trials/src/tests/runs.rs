//! Runs that few random lists come to.

use crate::call::Call;
use crate::drive::{Down, Left};
use crate::list::{List, Restart, Step};
use model::{Geometry, Range};

/// These calls on a card with one range from OID 100 on, then a cut.
fn list(area: usize, pages: u32, calls: Vec<Call>, down: Down) -> List {
    let mut steps: Vec<Step> = calls.into_iter().map(Step::plain).collect();
    steps.push(Step::Cut {
        call: None,
        down,
        left: Left::New,
        restart: Restart::plain(4),
    });
    let blocks = 1 + area + Range { first: 100, pages }.blocks();
    List {
        geometry: Geometry::new(blocks, area, &[100, pages]).expect("the range fills the card"),
        frames: 4,
        filler: 0,
        steps,
    }
}

/// A write to page 100, with bytes from that seed.
fn write(fill: u64) -> Call {
    write_to(100, fill)
}

fn write_to(oid: u32, fill: u64) -> Call {
    Call::Write {
        oid,
        count: 0,
        at: 0,
        length: 1,
        fill,
    }
}

fn commit(fill: u64, advances: usize) -> Vec<Call> {
    let mut calls = vec![write(fill), Call::Snapshot];
    calls.extend(std::iter::repeat_n(Call::Advance, advances));
    calls
}

/// On *lanetrace*'s card, page 100 at block 10 and its pot at 9, two commits up
/// to the second H, which frees blocks 1 to 4; then page-outs to 8 and 1, or 28.
/// The cut finds H old and, if it was let through, the page of the first commit
/// overwritten.
pub fn block_released(start: bool) -> List {
    let mut calls = vec![Call::Advance];
    // P 1, P 2, D 3, T 4, F, H, F, M 9, M 10.
    calls.extend(commit(7, 9));
    // P 5, D 6, T 7, F, H.
    calls.extend(commit(8, 5));
    if start {
        calls.push(Call::Start);
    }
    calls.extend([write(9), Call::PageOut, write(10), Call::PageOut]);
    list(8, 1, calls, Down::Blocks(vec![1]))
}

/// Page 100 is in the first generation alone, and is rescinded after the second
/// snapshot. Left out of M, it is not home when the second H frees its block.
pub fn rescinded_after_the_snapshot() -> List {
    let mut calls = vec![Call::Advance, write(7), Call::Snapshot, write_to(101, 8)];
    // P 1, P 2, D 3, T 4, F, H.
    calls.extend(std::iter::repeat_n(Call::Advance, 6));
    let (oid, count) = (100, 0);
    calls.extend([Call::Snapshot, Call::Rescind { oid, count }]);
    // F, P 5, P 6, D 7, T 8, M 13, M 14, F, H, F.
    calls.extend(std::iter::repeat_n(Call::Advance, 10));
    list(12, 2, calls, Down::All)
}
