//! Small cards, just started, and commits on them.

use model::geometry::BLOCK;
use model::{Kind, Lent, Model, Range};

/// What each byte of a card is before its format.
pub const FILLER: u8 = 0xA5;

/// A 8, one range of the given pages from OID 100 on, memory of 4 frames.
pub fn small(pages: u32) -> (Model, Lent) {
    with_area(8, pages)
}

pub fn with_area(area: usize, pages: u32) -> (Model, Lent) {
    let range = Range { first: 100, pages };
    let card = (1 + area + range.blocks()) * BLOCK;
    let lent = Lent {
        card,
        memory: 4 * BLOCK,
    };
    let mut model = Model::new(vec![FILLER; card]);
    assert_eq!(model.format(card, area, &[100, pages]), Ok(()));
    assert_eq!(model.start(lent), Ok(()));
    (model, lent)
}

/// Page 100 written, a snapshot, and advances up to that kind.
pub fn commit_up_to(kind: Kind, model: &mut Model, lent: Lent) {
    assert_eq!(model.write(lent, 100, 0, 0, &[7]), Ok(()));
    assert_eq!(model.snapshot(lent), Ok(()));
    advance_up_to(kind, model, lent);
}

pub fn advance_up_to(kind: Kind, model: &mut Model, lent: Lent) {
    while model.advance(lent).expect("an advance is due").0 != kind {}
}
