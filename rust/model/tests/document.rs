//! Document 01's lane tables, the whole run with document 02's flushes, where
//! a flush is due, and which pages stay out of home, shown of the model.

mod common;

use common::{advance_up_to, commit_up_to, small, with_area, FILLER};
use model::blocks::{get, number};
use model::generation::size;
use model::geometry::BLOCK;
use model::Kind::{D, F, H, M, P, T};
use model::{Geometry, Kind, Lent, Model, Range};

/// The advances until one is refused, which is 20.
fn advances(model: &mut Model, lent: Lent) -> Vec<(Kind, usize)> {
    let run = std::iter::from_fn(|| model.advance(lent).ok()).collect();
    assert_eq!(model.advance(lent), Err(20));
    run
}

/// How many committed entries are home or passed over.
fn migrated(model: &Model) -> Option<usize> {
    let committed = model.store.as_ref()?.committed.as_ref()?;
    Some(committed.migrated)
}

#[test]
fn places_of_a_to_c() {
    let geometry = Geometry::new(1 + 8 + 105, 8, &[0, 103]).expect("the ranges fill the card");
    let into_range = |oid| {
        let place = geometry.place(oid).expect("the OID is in the range");
        (place.page - 9, place.pot - 9)
    };
    assert_eq!(into_range(0), (1, 0));
    assert_eq!(into_range(101), (102, 0));
    assert_eq!(into_range(102), (104, 103));
}

/// OIDs in no range: 21 between two ranges, 9 below the first and above the
/// last. Ranges that touch have nothing between them.
#[test]
fn gaps_and_ends() {
    let answers = |numbers: &[u32], oids: std::ops::RangeInclusive<u32>| -> Vec<u32> {
        let pages = numbers.chunks(2).map(|pair| pair[1] as usize + 1);
        let blocks = 9 + pages.sum::<usize>();
        let geometry = Geometry::new(blocks, 8, numbers).expect("the ranges fill the card");
        oids.map(|oid| geometry.place(oid).err().unwrap_or(0))
            .collect()
    };
    let apart = answers(&[10, 5, 20, 5], 9..=25);
    assert_eq!(apart, [&[9][..], &[0; 5], &[21; 5], &[0; 5], &[9]].concat());
    let touching = answers(&[10, 5, 15, 5], 9..=20);
    assert_eq!(touching, [&[9][..], &[0; 10], &[9]].concat());
    let three = answers(&[10, 1, 11, 1, 13, 1], 9..=14);
    assert_eq!(three, [9, 0, 0, 21, 0, 9]);
    let ends = answers(&[0, 1, u32::MAX, 1], 0..=2);
    assert_eq!(ends, [0, 21, 21]);
    assert_eq!(answers(&[1, 1], u32::MAX..=u32::MAX), [9]);
}

/// Each home block is a pot or the page of one OID.
#[test]
fn pages_at_blocks() {
    let geometry = Geometry::new(135, 8, &[100, 103, 1000, 20]).expect("the ranges fill the card");
    for oid in (100..203).chain(1000..1020) {
        let place = geometry.place(oid).expect("the OID is in a range");
        assert_eq!(geometry.page_at(place.page), Some(place));
    }
    assert_eq!(geometry.pots(), [9, 112, 114]);
    assert!(geometry
        .pots()
        .iter()
        .all(|pot| geometry.page_at(*pot).is_none()));
    assert_eq!(9 + 123 + geometry.pots().len(), 135);
}

#[test]
fn sizes_of_d_to_j() {
    let blocks = |pages| Range { first: 0, pages }.blocks();
    assert_eq!(blocks(102), 103);
    assert_eq!(blocks(103), 105);
    let nine = Geometry::new(12, 9, &[0, 1]).expect("the range fills the card");
    assert_eq!(nine.half(), 4);
    let eight = Geometry::new(11, 8, &[0, 1]).expect("the range fills the card");
    assert_eq!(eight.ring(7, 3), 2);
    assert_eq!(size(2, 2), 4);
    assert_eq!(size(65, 65), 68);
    assert_eq!(size(251, 251), 256);
}

/// Each on a card that A and the ranges fill exactly.
#[test]
fn limits_of_question_5() {
    let allowed = |area: usize, ranges: u32| {
        let numbers: Vec<u32> = (0..ranges).flat_map(|i| [i, 1]).collect();
        Geometry::new(1 + area + 2 * ranges as usize, area, &numbers).is_some()
    };
    assert_eq!(
        [7, 8, 512, 513].map(|area| allowed(area, 2)),
        [false, true, true, false]
    );
    assert_eq!(
        [0, 1, 8, 9].map(|ranges| allowed(8, ranges)),
        [false, true, true, false]
    );
}

#[test]
fn second_fresh_page_of_k_is_refused() {
    let (mut model, lent) = small(2);
    assert_eq!(model.write(lent, 100, 0, 0, &[1]), Ok(()));
    assert_eq!(model.write(lent, 101, 0, 0, &[1]), Err(12));
}

/// Four runs of 62 pages in memory of 64 frames: with its pot each page takes
/// one place.
#[test]
fn generation_of_j_is_full() {
    let card = (1 + 512 + 4 * 103) * BLOCK;
    let memory = 64 * BLOCK;
    let lent = Lent { card, memory };
    let mut model = Model::new(vec![0; card]);
    assert_eq!(model.format(card, 512, &[0, 408]), Ok(()));
    assert_eq!(model.start(lent), Ok(()));
    assert_eq!(model.advance(lent), Ok((F, 0)));
    let oids: Vec<u32> = (0..4)
        .flat_map(|run| (0..62).map(move |i| 102 * run + i))
        .collect();
    for oid in &oids[..247] {
        if oid % 102 == 0 {
            while model.page_out(lent).is_ok() {}
        }
        assert_eq!(model.write(lent, *oid, 0, 0, &[1]), Ok(()));
    }
    let current = model.store.as_ref().map(|store| &store.current);
    assert_eq!(
        current.map(|current| (current.p(), current.e())),
        Some((251, 251))
    );
    assert_eq!(model.write(lent, oids[247], 0, 0, &[1]), Err(12));
}

#[test]
fn offsets_of_l() {
    let (mut model, lent) = small(1);
    assert_eq!(model.write(lent, 100, 0, 511, &[1]), Ok(()));
    assert_eq!(model.write(lent, 100, 0, 511, &[1, 2]), Err(11));
    assert_eq!(model.write(lent, 100, 0, 512, &[]), Ok(()));
    assert_eq!(model.write(lent, 100, 0, usize::MAX, &[1]), Err(11));
}

#[test]
fn whole_run() {
    let (mut model, lent) = small(1);
    assert_eq!(model.write(lent, 100, 0, 0, &[7]), Ok(()));
    assert_eq!(model.snapshot(lent), Ok(()));
    for advance in [(F, 0), (P, 1), (P, 2), (D, 3), (T, 4)] {
        assert_eq!(model.advance(lent), Ok(advance));
    }
    let mut after_t = Model::new(model.card.clone());
    for advance in [(F, 0), (H, 0)] {
        assert_eq!(model.advance(lent), Ok(advance));
    }
    let mut after_h = Model::new(model.card.clone());
    assert_eq!(advances(&mut model, lent), [(F, 0), (M, 9), (M, 10)]);
    let directory = get(&model.card, 3);
    let entries: Vec<u32> = (0..4).map(|i| number(&directory, 4 * i)).collect();
    assert_eq!(entries, [9, 2, 10, 1]);

    assert_eq!(after_t.start(lent), Ok(()));
    assert_eq!(after_t.read(lent, 100, 0, BLOCK), Ok([0; BLOCK]));
    for restarted in [&mut after_h, &mut model] {
        assert_eq!(restarted.start(lent), Ok(()));
        let page = restarted.read(lent, 100, 0, BLOCK);
        assert_eq!(page.map(|page| page[0]), Ok(7));
    }
}

#[test]
fn migration_left_over_comes_between_trailer_and_flush() {
    let (mut model, lent) = small(1);
    commit_up_to(M, &mut model, lent);
    assert_eq!(model.rescind(lent, 100, 0), Ok(()));
    assert_eq!(model.snapshot(lent), Ok(()));
    let before = [(P, 5), (D, 6), (T, 7), (M, 10)];
    let after = [(F, 0), (H, 0), (F, 0), (M, 9)];
    assert_eq!(advances(&mut model, lent), [before, after].concat());
}

/// 28 comes before 19, and other calls go on.
#[test]
fn page_out_is_refused_while_the_flush_after_a_start_is_due() {
    let (mut model, lent) = small(1);
    assert_eq!(model.page_out(lent), Err(28));
    assert_eq!(model.write(lent, 100, 0, 0, &[7]), Ok(()));
    assert_eq!(model.page_out(lent), Err(28));
    assert_eq!(model.advance(lent), Ok((F, 0)));
    assert_eq!(model.page_out(lent), Ok(1));
    assert_eq!(model.page_out(lent), Ok(2));
    assert_eq!(model.page_out(lent), Err(19));
}

/// A snapshot does not take the place of the flush.
#[test]
fn page_out_is_refused_while_the_flush_after_a_header_is_due() {
    let (mut model, lent) = small(1);
    commit_up_to(H, &mut model, lent);
    assert_eq!(model.page_out(lent), Err(28));
    assert_eq!(model.write(lent, 100, 0, 0, &[8]), Ok(()));
    assert_eq!(model.snapshot(lent), Ok(()));
    assert_eq!(model.page_out(lent), Err(28));
    assert_eq!(model.advance(lent), Ok((F, 0)));
    assert_eq!(model.page_out(lent), Ok(5));
}

#[test]
fn page_out_before_the_header_brings_no_second_flush() {
    let (mut model, lent) = small(1);
    commit_up_to(T, &mut model, lent);
    assert_eq!(model.write(lent, 100, 0, 0, &[8]), Ok(()));
    assert_eq!(model.advance(lent), Ok((F, 0)));
    assert_eq!(model.page_out(lent), Ok(5));
    assert_eq!(model.advance(lent), Ok((H, 0)));
    assert_eq!(model.advance(lent), Ok((F, 0)));
}

/// #104's case: M for the pot only, and 20. Home keeps what it held before the
/// format, and the page is zeros, also behind a later commit.
#[test]
fn empty_page_stays_out_of_home() {
    let (mut model, lent) = small(1);
    assert_eq!(model.advance(lent), Ok((F, 0)));
    assert_eq!(model.write(lent, 100, 0, 0, &[7]), Ok(()));
    assert_eq!(model.rescind(lent, 100, 0), Ok(()));
    assert_eq!(model.snapshot(lent), Ok(()));
    let before = [(P, 1), (P, 2), (D, 3), (T, 4), (F, 0), (H, 0)];
    let after = [(F, 0), (M, 9)];
    assert_eq!(advances(&mut model, lent), [&before[..], &after].concat());
    assert_eq!(get(&model.card, 10), [FILLER; BLOCK]);

    assert_eq!(model.rescind(lent, 100, 1), Ok(()));
    assert_eq!(model.snapshot(lent), Ok(()));
    advance_up_to(H, &mut model, lent);
    assert_eq!(model.start(lent), Ok(()));
    assert_eq!(model.read(lent, 100, 2, BLOCK), Ok([0; BLOCK]));
    assert_eq!(get(&model.card, 10), [FILLER; BLOCK]);
}

/// H does not wait for what is passed over. It counts as migrated from the next
/// M or the flush before H on, and not by a refusal.
#[test]
fn flush_before_the_header_counts_what_is_passed_over() {
    let (mut model, lent) = small(1);
    assert_eq!(model.write(lent, 100, 0, 0, &[7]), Ok(()));
    assert_eq!(model.rescind(lent, 100, 0), Ok(()));
    assert_eq!(model.snapshot(lent), Ok(()));
    advance_up_to(M, &mut model, lent);
    assert_eq!(model.advance(lent), Err(20));
    assert_eq!(migrated(&model), Some(1));
    assert_eq!(model.rescind(lent, 100, 1), Ok(()));
    assert_eq!(model.snapshot(lent), Ok(()));
    let advances = [(P, 5), (D, 6), (T, 7), (F, 0), (H, 0)];
    for (advance, count) in advances.into_iter().zip([1, 1, 1, 2, 0]) {
        assert_eq!(model.advance(lent), Ok(advance));
        assert_eq!(migrated(&model), Some(count));
    }
}

/// Page 101, at block 15, is passed over on the way from page 100 to 102.
#[test]
fn migration_counts_what_it_passes_over() {
    let (mut model, lent) = with_area(12, 3);
    for oid in 100..103 {
        assert_eq!(model.write(lent, oid, 0, 0, &[7]), Ok(()));
    }
    assert_eq!(model.rescind(lent, 101, 0), Ok(()));
    assert_eq!(model.snapshot(lent), Ok(()));
    advance_up_to(H, &mut model, lent);
    let advances = [(F, 0), (M, 13), (M, 14), (M, 16)];
    for (advance, count) in advances.into_iter().zip([0, 1, 2, 4]) {
        assert_eq!(model.advance(lent), Ok(advance));
        assert_eq!(migrated(&model), Some(count));
    }
    assert_eq!(model.advance(lent), Err(20));
}

/// A directory with the page and not its pot, whose flag at home is set, which
/// only another program could have left.
#[test]
fn pot_at_home_tells_where_the_directory_has_none() {
    let (mut model, lent) = small(1);
    for byte in [7, 8] {
        assert_eq!(model.write(lent, 100, 0, 0, &[byte]), Ok(()));
        assert_eq!(model.snapshot(lent), Ok(()));
        advances(&mut model, lent);
    }
    model.card[9 * BLOCK + 4] |= 1;
    assert_eq!(model.start(lent), Ok(()));
    assert_eq!(advances(&mut model, lent), [(F, 0)]);
    assert_eq!(model.read(lent, 100, 0, BLOCK), Ok([0; BLOCK]));
}

/// Page 100 was rescinded after the second snapshot, so what that one shows of
/// it must go home before the second H.
#[test]
fn page_goes_home_that_is_empty_only_by_now() {
    let (mut model, lent) = with_area(12, 2);
    assert_eq!(model.write(lent, 100, 0, 0, &[7]), Ok(()));
    assert_eq!(model.snapshot(lent), Ok(()));
    assert_eq!(model.write(lent, 101, 0, 0, &[8]), Ok(()));
    advance_up_to(H, &mut model, lent);
    assert_eq!(model.snapshot(lent), Ok(()));
    assert_eq!(model.rescind(lent, 100, 0), Ok(()));
    advance_up_to(H, &mut model, lent);
    assert_eq!(model.start(lent), Ok(()));
    let mut page = [0; BLOCK];
    page[0] = 7;
    assert_eq!(model.read(lent, 100, 0, BLOCK), Ok(page));
}

#[test]
fn record_of_zeros_answers_1() {
    let (mut model, lent) = small(1);
    let short = Lent { memory: 0, ..lent };
    assert_eq!(model.start(short), Err(1));
    assert_eq!(model.key(lent, 100), Err(1));
    assert_eq!(model.forecast(lent), Err(1));
    assert_eq!(model.advance(short), Err(1));
}
