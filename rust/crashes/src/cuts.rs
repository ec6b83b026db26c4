//! The cards that a cut may leave: all of them where they are few, else a sample.

use crate::block::{block, Block, HEADER};
use crate::doubt::{Left, Spot};
use crate::rng::Rng;
use lane::BLOCK;

/// How many cards of a point are made.
#[derive(Clone, Copy, Debug)]
pub struct Effort {
    /// At so many cards or fewer all of them.
    pub all: usize,
    /// Else so many random ones, beside those that are always made.
    pub random: usize,
    /// With any bytes in all unflushed blocks.
    pub spoilt: usize,
    /// Of a thousand that are opened, so many are gone on with.
    pub go_on: usize,
}

/// A card that a cut leaves.
#[derive(Clone, Debug, PartialEq)]
pub struct Cut {
    /// The way in which each unflushed block is found.
    ways: Vec<usize>,
    length: usize,
    /// Any bytes in all unflushed blocks but a whole header, from this seed.
    spoilt: Option<u64>,
}

impl Cut {
    pub fn is_spoilt(&self) -> bool {
        self.spoilt.is_some()
    }

    pub fn is_torn(&self, left: &Left) -> bool {
        let mut spots = self.ways.iter().zip(&left.spots);
        spots.any(|(way, spot)| *way >= spot.whole.len())
    }

    /// The header's place among the unflushed blocks, if it is one.
    fn header_place(left: &Left) -> Option<usize> {
        left.spots.iter().position(|spot| spot.block == HEADER)
    }

    /// Is the header that was written last down? None if none is in doubt.
    pub fn has_new_header(&self, left: &Left) -> Option<bool> {
        let place = Cut::header_place(left)?;
        Some(self.ways[place] + 1 == left.spots[place].whole.len())
    }

    /// The card's header.
    pub fn header(&self, left: &Left) -> Block {
        match Cut::header_place(left) {
            _ if self.length < BLOCK => [0; BLOCK],
            None => block(&left.safe, HEADER),
            Some(_) if self.is_spoilt() => block(&self.card(left), HEADER),
            Some(place) => *left.spots[place].way_at(self.ways[place]).bytes,
        }
    }

    /// The card's bytes.
    pub fn card(&self, left: &Left) -> Vec<u8> {
        let mut card = left.safe.clone();
        let mut rng = self.spoilt.map(Rng::new);
        for (way, spot) in self.ways.iter().zip(&left.spots) {
            let mut bytes = *spot.way_at(*way).bytes;
            if let Some(rng) = rng.as_mut().filter(|_| !spot.torn.is_empty()) {
                spoil(rng, &mut bytes, left);
            }
            let at = spot.block * BLOCK;
            card[at..at + BLOCK].copy_from_slice(&bytes);
        }
        card.truncate(self.length);
        card
    }

    /// A number of its bytes, but not of a spoilt one's.
    pub fn mark(&self, left: &Left) -> u64 {
        let spots = self.ways.iter().zip(&left.spots);
        let changes = spots.map(|(way, spot)| spot.whole[0].mark ^ spot.way_at(*way).mark);
        let length = (self.length as u64).wrapping_mul(0x9FB2_1C65_1E98_DF25);
        changes.fold(left.mark ^ length, |sum, change| sum ^ change)
    }

    /// The unflushed blocks as this card has them.
    pub fn text(&self, left: &Left) -> String {
        let spots = self.ways.iter().zip(&left.spots);
        let mut words: Vec<String> = spots
            .map(|(way, spot)| format!("block {} {}", spot.block, spot.way_at(*way).name))
            .collect();
        if let Some(seed) = self.spoilt {
            words.push(format!("all but block 0 spoilt by seed {seed}"));
        }
        if left.lengths.len() > 1 {
            words.push(format!("{} bytes long", self.length));
        }
        match words.is_empty() {
            true => "nothing in doubt".to_string(),
            false => words.join(", "),
        }
    }
}

/// Any bytes, those of another block among them, which a start could take for what it looks for.
fn spoil(rng: &mut Rng, bytes: &mut Block, left: &Left) {
    match rng.below(4) {
        0 => {}
        1 => *bytes = block(&left.safe, rng.below(left.safe.len() / BLOCK)),
        2 => *bytes = *rng.pick(&left.spots).last().bytes,
        _ => rng.fill(bytes),
    }
}

/// The cards of a point.
pub fn cuts(left: &Left, effort: &Effort, rng: &mut Rng) -> Vec<Cut> {
    let few = count(left).is_some_and(|count| count <= effort.all);
    let mut cuts = match few {
        true => all(left),
        false => sample(left, effort.random, rng),
    };
    if left.spots.iter().any(|spot| spot.block != HEADER) {
        for _ in 0..effort.spoilt {
            let seed = rng.next();
            let mut cut = random(left, rng, false);
            cut.spoilt = Some(seed);
            cuts.push(cut);
        }
    }
    cuts
}

/// How many cards there are, with at most one torn block, if that is a number.
fn count(left: &Left) -> Option<usize> {
    let (mut whole, mut torn) = (left.lengths.len(), 0usize);
    for spot in &left.spots {
        let ways = spot.whole.len();
        torn = torn.checked_mul(ways)?;
        torn = torn.checked_add(whole.checked_mul(spot.torn.len())?)?;
        whole = whole.checked_mul(ways)?;
    }
    whole.checked_add(torn)
}

/// All cards, first those without a torn block.
fn all(left: &Left) -> Vec<Cut> {
    let mut cuts = Vec::new();
    for length in &left.lengths {
        let mut each = |ways: &[usize]| {
            cuts.push(Cut {
                ways: ways.to_vec(),
                length: *length,
                spoilt: None,
            });
        };
        whole_ways(&left.spots, None, &mut each);
        for (place, spot) in left.spots.iter().enumerate() {
            for torn in 0..spot.torn.len() {
                let given = Some((place, spot.whole.len() + torn));
                whole_ways(&left.spots, given, &mut each);
            }
        }
    }
    cuts
}

/// Every choice of whole ways, with one block's way given.
fn whole_ways(spots: &[Spot], given: Option<(usize, usize)>, each: &mut impl FnMut(&[usize])) {
    let mut ways = vec![0; spots.len()];
    if let Some((place, way)) = given {
        ways[place] = way;
    }
    loop {
        each(&ways);
        let next = (0..spots.len()).find(|place| {
            let fixed = given.is_some_and(|(given, _)| given == *place);
            if fixed {
                return false;
            }
            ways[*place] = (ways[*place] + 1) % spots[*place].whole.len();
            ways[*place] != 0
        });
        if next.is_none() {
            return;
        }
    }
}

/// None down, all, each single one, all but each single one, and random ones.
fn sample(left: &Left, random_ones: usize, rng: &mut Rng) -> Vec<Cut> {
    let lengths = &left.lengths;
    let (first, last) = (lengths[0], lengths[lengths.len() - 1]);
    let cut = |length, ways| Cut {
        ways,
        length,
        spoilt: None,
    };
    let none = vec![0; left.spots.len()];
    let lasts = left.spots.iter().map(|spot| spot.whole.len() - 1);
    let all: Vec<usize> = lasts.collect();
    let mut cuts = vec![cut(first, none.clone()), cut(last, all.clone())];
    for place in 0..all.len() {
        let (mut single, mut but) = (none.clone(), all.clone());
        single[place] = all[place];
        but[place] = 0;
        cuts.extend([cut(last, single), cut(last, but)]);
    }
    cuts.extend((0..random_ones).map(|i| random(left, rng, i % 2 == 1)));
    cuts
}

fn random(left: &Left, rng: &mut Rng, torn: bool) -> Cut {
    let spots = &left.spots;
    let ways = spots.iter().map(|spot| rng.below(spot.whole.len()));
    let mut ways: Vec<usize> = ways.collect();
    let can: Vec<usize> = (0..spots.len())
        .filter(|place| !spots[*place].torn.is_empty())
        .collect();
    if torn && !can.is_empty() {
        let place = rng.pick(&can);
        ways[place] = spots[place].whole.len() + rng.below(spots[place].torn.len());
    }
    Cut {
        ways,
        length: rng.pick(&left.lengths),
        spoilt: None,
    }
}

#[cfg(test)]
mod tests {
    use super::*;
    use crate::doubt::Doubt;
    use crate::recorded::Event;
    use std::collections::BTreeSet;

    fn left(writes: &[(usize, u8)]) -> Left {
        let mut doubt = Doubt::new(&[7; 6 * BLOCK]);
        for (first, byte) in writes {
            doubt.apply(&Event::Write {
                first: *first,
                bytes: vec![*byte; BLOCK],
                done: true,
            });
        }
        doubt.left()
    }

    #[test]
    fn all_are_counted_and_none_comes_twice() {
        let left = left(&[(0, 1), (2, 1), (3, 2), (3, 3)]);
        let cuts = all(&left);
        assert_eq!(Some(cuts.len()), count(&left));
        let cards: BTreeSet<Vec<u8>> = cuts.iter().map(|cut| cut.card(&left)).collect();
        assert_eq!(cards.len(), cuts.len());
        let marks: BTreeSet<u64> = cuts.iter().map(|cut| cut.mark(&left)).collect();
        assert_eq!(marks.len(), cuts.len());
    }

    /// Of two unflushed blocks: each old or new, and one of them torn with the other old or new.
    #[test]
    fn few_cards_are_all_made() {
        let left = left(&[(2, 1), (3, 2)]);
        let torn = left.spots[0].torn.len();
        assert_eq!(torn, 6);
        assert_eq!(all(&left).len(), 4 + 2 * torn * 2);
    }

    #[test]
    fn a_sample_has_each_single_one_and_all_but_it() {
        let left = left(&[(1, 1), (2, 1), (3, 1), (4, 1)]);
        let cuts = sample(&left, 0, &mut Rng::new(1));
        let down = |cut: &Cut| cut.ways.iter().sum::<usize>();
        let mut downs: Vec<usize> = cuts.iter().map(down).collect();
        downs.sort();
        assert_eq!(downs, [0, 1, 1, 1, 1, 3, 3, 3, 3, 4]);
    }

    #[test]
    fn a_whole_header_is_not_spoilt() {
        let left = left(&[(0, 1), (2, 1)]);
        let mut cut = random(&left, &mut Rng::new(3), false);
        for seed in 0..50 {
            cut.spoilt = Some(seed);
            let header = cut.card(&left)[0];
            assert!(header == 7 || header == 1);
            assert_eq!(cut.header(&left)[0], header);
        }
    }
}
