//! How many blocks there are of each kind.

use super::Paint;
use crate::started::Started;
use std::collections::BTreeMap;

pub struct Tally {
    pub area: BTreeMap<Paint, usize>,
    pub home: BTreeMap<Paint, usize>,
}

impl Tally {
    pub fn of(card: &Started) -> Tally {
        let mut tally = Tally {
            area: BTreeMap::new(),
            home: BTreeMap::new(),
        };
        for block in 1..=card.geometry.ring.area {
            *tally.area.entry(Paint::of_area(card, block)).or_default() += 1;
        }
        for run in card.geometry.ranges.iter().flat_map(|range| range.runs()) {
            *tally.home.entry(Paint::of_pot(card, run.pot)).or_default() += 1;
            for entry in 0..run.pages {
                let empty = card.mark(&run, entry).empty;
                let paint = Paint::of_page(card, run.page(entry), empty);
                *tally.home.entry(paint).or_default() += 1;
            }
        }
        tally
    }
}
