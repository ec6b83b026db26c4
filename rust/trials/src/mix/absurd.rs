//! Arguments that a call should not have.

use super::Mix;
use crate::call::{Call, MOST_BYTES};
use crate::list::{numbers, Lending, Step};
use crate::stock::{CARD_SLACK, MEMORY};
use model::geometry::BLOCK;
use model::Geometry;

impl Mix {
    /// A format, most often one that breaks a limit.
    pub(super) fn format(&mut self) -> Call {
        let mut area = self.geometry.area;
        let mut ranges = numbers(&self.geometry);
        let at = self.rng.below(ranges.len());
        match self.rng.below(9) {
            0 => area = self.rng.pick(&[0, 7, 513, 1 << 32, usize::MAX]),
            1 => area = self.rng.pick(&[area - 1, area + 1, area ^ (1 << 40)]),
            2 => ranges[at] = self.rng.pick(&[0, 1, u32::MAX, ranges[0]]),
            3 => ranges[at] = ranges[at].wrapping_add(1),
            4 => ranges[at] = ranges[at].wrapping_sub(1),
            5 => ranges.truncate(at),
            6 => ranges.resize(self.rng.between(0, 20), 1),
            7 => ranges.reverse(),
            _ => {}
        }
        Call::Format { area, ranges }
    }

    /// Format and start on a card with a block more, which the ranges fill.
    pub(super) fn one_block_more(&mut self) -> [Step; 2] {
        let mut ranges = numbers(&self.geometry);
        if let Some(n) = ranges.last_mut() {
            *n += 1;
        }
        let area = self.geometry.area;
        let lending = Lending {
            card: Some((self.geometry.blocks + 1) * BLOCK),
            memory: None,
        };
        [Call::Format { area, ranges }, Call::Start].map(|call| Step::Call { call, lending })
    }

    /// Format and start with A or ranges just past a limit, on a card that they
    /// fill exactly.
    pub(super) fn past_limits(&self) -> Vec<Step> {
        let Geometry { blocks, area, .. } = self.geometry;
        let ranges = numbers(&self.geometry);
        let mut past = Vec::new();
        if area == 8 {
            past.push((blocks - 1, 7, ranges.clone()));
        }
        if area == 512 {
            past.push((blocks + 1, 513, ranges.clone()));
        }
        if ranges.len() == 2 {
            past.push((1 + area, area, Vec::new()));
        }
        if let (16, Some(free)) = (ranges.len(), self.free_oid()) {
            past.push((blocks + 2, area, [ranges, vec![free, 1]].concat()));
        }
        past.into_iter().flat_map(format_and_start).collect()
    }

    /// The OID after the last range, if there is one.
    fn free_oid(&self) -> Option<u32> {
        let last = self.geometry.ranges.last()?;
        u32::try_from(last.end()).ok()
    }

    pub(super) fn wrong_memory(&mut self) -> usize {
        let frames = self.rng.between(0, MEMORY / BLOCK) * BLOCK;
        let bytes = self.rng.below(MEMORY);
        let few = [0, 1, 511, 512, 513, 3 * BLOCK, 65 * BLOCK, MEMORY];
        let few = self.rng.pick(&few);
        self.rng.pick(&[frames, bytes, few])
    }

    pub(super) fn wrong_card(&mut self) -> usize {
        let card = self.geometry.blocks * BLOCK;
        let few = self.rng.pick(&[0, 1, 511, 512, 513, 10 * BLOCK]);
        let near = [
            card - BLOCK,
            card - 1,
            card + 1,
            card + BLOCK,
            card + CARD_SLACK,
        ];
        let near = self.rng.pick(&near);
        let bytes = self.rng.below(card + CARD_SLACK);
        self.rng.pick(&[few, near, near, bytes])
    }

    /// Gives one of a call's arguments a value it should not have.
    pub(super) fn make_absurd(&mut self, call: &mut Call) {
        let which = self.rng.below(3);
        let next = self.rng.next();
        let border = self.rng.pick(&self.borders);
        let some = self.rng.between(0, MOST_BYTES);
        let some = self.rng.pick(&[0, 1, 511, 512, 513, some]);
        match call {
            Call::Key { oid } => *oid = if which == 0 { next as u32 } else { border },
            Call::Read { oid, count, length } => match which {
                0 => *oid = border,
                1 => *count = self.rng.pick(&[1, u32::MAX, next as u32]),
                _ => *length = some,
            },
            Call::Write {
                oid,
                count,
                at,
                length,
                ..
            } => match which {
                0 => *oid = border,
                1 => *count = self.rng.pick(&[1, u32::MAX, next as u32]),
                _ => {
                    *length = some;
                    let wraps = usize::MAX - some.wrapping_sub(1);
                    let far = [511, 512, 513, usize::MAX, wraps, next as usize];
                    *at = self.rng.pick(&far);
                }
            },
            Call::Rescind { oid, count } => match which {
                0 => *oid = border,
                _ => *count = self.rng.pick(&[1, u32::MAX, next as u32]),
            },
            _ => {}
        }
    }
}

/// Format of that many blocks, and a start on them by a doctored header.
fn format_and_start((blocks, area, ranges): (usize, usize, Vec<u32>)) -> [Step; 2] {
    let call = Call::Format {
        area,
        ranges: ranges.clone(),
    };
    let lending = Lending {
        card: Some(blocks * BLOCK),
        memory: None,
    };
    let start = Step::DoctorGeometry {
        blocks,
        area: area as u32,
        ranges,
    };
    [Step::Call { call, lending }, start]
}
