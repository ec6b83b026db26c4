//! Document 02's forecast, shown of the model.

mod common;

use common::{advance_up_to, commit_up_to, small};
use model::geometry::BLOCK;
use model::Kind::{D, F, H, M, P, T};
use model::{Kind, Lent, Model};

/// The forecast before each advance, with its kind, until one is refused.
fn foretold(model: &mut Model, lent: Lent) -> Vec<(usize, Kind)> {
    let run = std::iter::from_fn(|| {
        let left = model.forecast(lent).expect("the record holds together");
        model.advance(lent).ok().map(|(kind, _)| (left, kind))
    });
    run.collect()
}

/// The advances are these, counted down to 1, and then M alone, so often.
fn counts_down(model: &mut Model, lent: Lent, kinds: &[Kind], home: usize) {
    let left = (1..=kinds.len()).rev();
    let mut run: Vec<(usize, Kind)> = left.zip(kinds.iter().copied()).collect();
    run.extend(std::iter::repeat_n((0, M), home));
    assert_eq!(foretold(model, lent), run);
}

/// A snapshot before the first flush: 8, then 7 to 1, and 0 behind the flush
/// after H, with M left and without.
#[test]
fn forecast_of_the_whole_run() {
    let (mut model, lent) = small(1);
    assert_eq!(model.forecast(lent), Ok(1));
    assert_eq!(model.write(lent, 100, 0, 0, &[7]), Ok(()));
    assert_eq!(model.forecast(lent), Ok(1));
    assert_eq!(model.snapshot(lent), Ok(()));
    counts_down(&mut model, lent, &[F, P, P, D, T, F, H, F], 2);
    assert_eq!(model.forecast(lent), Ok(0));
}

#[test]
fn forecast_after_the_first_flush() {
    let (mut model, lent) = small(1);
    assert_eq!(model.advance(lent), Ok((F, 0)));
    assert_eq!(model.forecast(lent), Ok(0));
    assert_eq!(model.write(lent, 100, 0, 0, &[7]), Ok(()));
    assert_eq!(model.snapshot(lent), Ok(()));
    assert_eq!(model.forecast(lent), Ok(7));
}

/// The page alone changes again while the pot and the page have to go home.
#[test]
fn forecast_counts_the_migration_left() {
    let (mut model, lent) = small(1);
    commit_up_to(H, &mut model, lent);
    assert_eq!(model.forecast(lent), Ok(1));
    assert_eq!(model.write(lent, 100, 0, 0, &[8]), Ok(()));
    assert_eq!(model.snapshot(lent), Ok(()));
    counts_down(&mut model, lent, &[F, P, D, T, M, M, F, H, F], 1);
}

/// #104's case, and the pot changed once more: the page has not to go home.
#[test]
fn forecast_leaves_out_what_is_passed_over() {
    let (mut model, lent) = small(1);
    assert_eq!(model.write(lent, 100, 0, 0, &[7]), Ok(()));
    assert_eq!(model.rescind(lent, 100, 0), Ok(()));
    assert_eq!(model.snapshot(lent), Ok(()));
    assert_eq!(model.forecast(lent), Ok(8));
    advance_up_to(H, &mut model, lent);
    assert_eq!(model.rescind(lent, 100, 1), Ok(()));
    assert_eq!(model.snapshot(lent), Ok(()));
    counts_down(&mut model, lent, &[F, P, D, T, M, F, H, F], 1);
}

/// Nor do those that are left before H, when nothing else is.
#[test]
fn forecast_does_not_wait_for_what_is_passed_over() {
    let (mut model, lent) = small(1);
    assert_eq!(model.write(lent, 100, 0, 0, &[7]), Ok(()));
    assert_eq!(model.rescind(lent, 100, 0), Ok(()));
    assert_eq!(model.snapshot(lent), Ok(()));
    advance_up_to(M, &mut model, lent);
    assert_eq!(model.rescind(lent, 100, 1), Ok(()));
    assert_eq!(model.snapshot(lent), Ok(()));
    counts_down(&mut model, lent, &[P, D, T, F, H, F], 1);
}

/// Keys, reads, writes, rescinds and refused calls.
#[test]
fn forecast_stays_until_an_advance() {
    let (mut model, lent) = small(1);
    commit_up_to(D, &mut model, lent);
    let left = |model: &Model| model.forecast(lent);
    assert_eq!(left(&model), Ok(4));
    assert_eq!(model.key(lent, 100), Ok(0));
    assert!(model.read(lent, 100, 0, BLOCK).is_ok());
    assert_eq!(left(&model), Ok(4));
    assert_eq!(model.write(lent, 100, 0, 0, &[8]), Ok(()));
    assert_eq!(left(&model), Ok(4));
    assert_eq!(model.rescind(lent, 100, 0), Ok(()));
    assert_eq!(left(&model), Ok(4));
    assert_eq!(model.snapshot(lent), Err(16));
    assert_eq!(model.write(lent, 100, 0, 0, &[8]), Err(10));
    assert_eq!(left(&model), Ok(4));
}

/// A page-out takes one off while a pending frame waits, and leaves it once
/// only current ones do.
#[test]
fn forecast_after_page_outs() {
    let (mut model, lent) = small(1);
    assert_eq!(model.advance(lent), Ok((F, 0)));
    commit_up_to(P, &mut model, lent);
    assert_eq!(model.write(lent, 100, 0, 0, &[8]), Ok(()));
    assert_eq!(model.forecast(lent), Ok(6));
    assert_eq!(model.page_out(lent), Ok(2));
    assert_eq!(model.forecast(lent), Ok(5));
    assert_eq!(model.page_out(lent), Ok(5));
    assert_eq!(model.forecast(lent), Ok(5));
    counts_down(&mut model, lent, &[D, T, F, H, F], 2);
}

#[test]
fn forecast_asks_1_and_3() {
    let (model, lent) = small(1);
    let memory = 5 * BLOCK;
    assert_eq!(model.forecast(Lent { memory, ..lent }), Err(1));
    let card = lent.card - BLOCK;
    assert_eq!(model.forecast(Lent { card, ..lent }), Err(3));
    assert_eq!(model.forecast(Lent { card, memory }), Err(1));
}
