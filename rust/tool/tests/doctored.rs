//! What the tool finds wrong with a card has the number by which the library refuses it: over
//! thousands of doctored cards, each made of a good one by a few wrong bytes.

mod common;
#[path = "../../trials/src/rng.rs"]
#[allow(dead_code)]
mod rng;

use common::{busy, put_number, range, whole_image, Maker};
use lane::{Store, BLOCK};
use rng::Rng;
use std::collections::{BTreeMap, BTreeSet};
use tool::card::number;
use tool::explain::{finding, first_no, Sight, QUESTIONS};

const SEED: u64 = 1;
const CARDS: usize = 50_000;
/// Cards that each number must have refused, and that none must have.
const LEAST: usize = 200;

/// All that the tool has to say of a refused card, numbers left out, but that it is too long.
const SAID: [&str; 22] = [
    "# block is too few, a card has at least #",
    "# blocks are too few, a card has at least #",
    "# bytes are no whole blocks",
    "A is #, not # to #",
    "commit # with trailer #",
    "e # is above p #",
    "e is #",
    "entry # names block #, which is no page block (#)",
    "entry # names block #, which is no page block (# to #)",
    "entry # names frame #, the one before it frame #",
    "entry # names frame #, which is no home block",
    "range # begins at OID #, the one before it ends at OID #",
    "range # ends at OID #, above #",
    "range # has no page",
    "size # from block # on ends at block #, the trailer is #",
    "size # is above H #",
    "the first block is #, the area has # to #",
    "the layout is #",
    "the number of ranges is #, not # to #",
    "the ranges end at block #, the card has #",
    "the trailer in block # is of commit #, the header of #",
    "the trailer is block #, the area has # to #",
];

/// A good card and the places of its numbers that a start looks at.
struct Base {
    card: Vec<u8>,
    header: Vec<usize>,
    trailer: Vec<usize>,
    directory: Vec<usize>,
}

impl Base {
    fn of(card: Vec<u8>) -> Base {
        let numbers = 5 + 2 * number(&card, 16) as usize;
        let header = (0..numbers).map(|i| 4 * i).collect();
        let (area, trailer) = (number(&card, 12) as usize, number(&card, 8) as usize);
        let at = trailer * BLOCK + 496;
        let (mut last, mut directory) = (Vec::new(), Vec::new());
        if trailer > 0 {
            last = (0..4).map(|i| at + 4 * i).collect();
            let [first, p, e] = [4, 8, 12].map(|more| number(&card, at + more) as usize);
            let block = |i: usize| (first - 1 + p + i / 64) % area + 1;
            let entry = |i: usize| block(i) * BLOCK + 8 * (i % 64);
            directory = (0..e).flat_map(|i| [entry(i), entry(i) + 4]).collect();
        }
        Base {
            card,
            header,
            trailer: last,
            directory,
        }
    }

    /// One to three numbers or bytes are wrong, mostly in one place.
    fn doctored(&self, rng: &mut Rng) -> Vec<u8> {
        let mut card = self.card.clone();
        if rng.below(12) == 0 {
            change_length(&mut card, rng);
            return card;
        }
        let places = [
            &self.header,
            &self.trailer,
            &self.directory,
            &self.directory,
        ];
        let mut place = rng.pick(&places);
        if place.is_empty() {
            place = &self.header;
        }
        for _ in 0..=rng.below(3) {
            let at = rng.pick(place);
            match rng.below(3) {
                0 => card[at + rng.below(4)] ^= 1 << rng.below(8),
                1 => {
                    let other = number(&card, rng.pick(place));
                    put_number(&mut card, at, other);
                }
                _ => put_number(&mut card, at, near(&self.card, at, rng)),
            }
        }
        card
    }
}

/// A number near the one that is there, or near a limit.
fn near(card: &[u8], at: usize, rng: &mut Rng) -> u32 {
    let (area, blocks) = (number(card, 12), (card.len() / BLOCK) as u32);
    let there = number(card, at);
    let limits = [there, there, 0, 1, 8, 512, area / 2, area, blocks];
    let (limit, any) = (rng.pick(&limits), rng.below(2 * blocks as usize) as u32);
    let limit = rng.pick(&[limit, any, u32::MAX]);
    limit.wrapping_add(rng.below(5) as u32).wrapping_sub(2)
}

fn change_length(card: &mut Vec<u8>, rng: &mut Rng) {
    let blocks = card.len() / BLOCK;
    let length = match rng.below(4) {
        0 => rng.below(card.len() + 4 * BLOCK),
        1 => BLOCK * rng.below(12),
        2 => BLOCK * (blocks - 1),
        _ => BLOCK * (blocks + 1 + rng.below(3)),
    };
    card.resize(length, 0);
}

/// A directory of two blocks.
fn wide() -> Vec<u8> {
    let mut maker = Maker::new(200, &[range(7, 300)]);
    for oid in 7..47 {
        maker.write(oid, &[1]);
    }
    for _ in 0..40 {
        maker.page_out();
    }
    for oid in 57..97 {
        maker.write(oid, &[1]);
    }
    maker.commit();
    maker.card
}

/// The smallest card and the largest area; one range and eight; no commit, and one of a pot alone.
fn bases() -> Vec<Base> {
    let empty = Maker::new(9, &[range(0, 4), range(u32::MAX - 2, 3)]);
    let eight: Vec<_> = (0..8).map(|i| range(1000 * i, 1 + i)).collect();
    let mut ranges = Maker::new(16, &eight);
    ranges.write(7000, &[1]).commit();
    let mut pot = Maker::new(8, &[range(5, 2)]);
    pot.rescind(5).commit();
    let mut large = Maker::new(512, &[range(3, 1)]);
    large.write(3, &[1]).commit();
    let made = [empty, ranges, pot, large].map(|maker| maker.card);
    let cards = [whole_image(), busy(), wide()].into_iter().chain(made);
    cards.map(Base::of).collect()
}

/// The library's number, 0 if it accepts the card.
fn library(card: &[u8]) -> u32 {
    let start = Store::start(card, &[0; 4 * BLOCK]);
    start.err().map_or(0, |refusal| refusal.number())
}

/// Every number made a sign.
fn without_numbers(text: &str) -> String {
    let mut said = String::new();
    for letter in text.replace(',', "").chars() {
        match letter {
            '0'..='9' if said.ends_with('#') => {}
            '0'..='9' => said.push('#'),
            _ => said.push(letter),
        }
    }
    said
}

#[test]
fn what_is_found_has_the_library_s_number() {
    let (bases, mut rng) = (bases(), Rng::new(SEED));
    let (mut refused, mut said) = (BTreeMap::<u32, usize>::new(), BTreeSet::new());
    for i in 0..CARDS {
        let card = bases[rng.below(bases.len())].doctored(&mut rng);
        let (library, found) = (library(&card), finding(&Sight::of(&card)));
        let number = found.as_ref().map_or(0, |found| found.number);
        assert_eq!(number, library, "card {i} of seed {SEED}: {found:?}");
        *refused.entry(library).or_default() += 1;
        said.extend(found.map(|found| without_numbers(&found.text)));
    }
    for number in [0, 3, 4, 5, 6, 7, 8] {
        let cards = refused.get(&number).copied().unwrap_or(0);
        assert!(cards >= LEAST, "{number}: only {cards} of {refused:?}");
    }
    let all = SAID.map(|text| text.replace(',', ""));
    assert_eq!(said, BTreeSet::from(all));
}

/// The test above can fail: a tool that asks fewer questions is found out.
#[test]
fn a_question_that_is_not_asked_is_missed() {
    let (bases, mut rng) = (bases(), Rng::new(SEED));
    let mut missed = [0; QUESTIONS.len()];
    for _ in 0..2_000 {
        let card = bases[rng.below(bases.len())].doctored(&mut rng);
        let library = library(&card);
        for (asked, missed) in missed.iter_mut().enumerate() {
            let found = first_no(&QUESTIONS[..asked], &Sight::of(&card));
            *missed += usize::from(found.map_or(0, |found| found.number) != library);
        }
    }
    assert!(missed.iter().all(|cards| *cards > 0), "{missed:?}");
    assert!(
        missed.windows(2).all(|pair| pair[0] > pair[1]),
        "{missed:?}"
    );
}

#[test]
fn a_card_that_is_too_long_is_found_out() {
    let mut card = whole_image();
    for (blocks, number) in [(65_536, 5), (65_537, 3)] {
        card.resize(blocks * BLOCK, 0);
        let found = finding(&Sight::of(&card)).unwrap();
        assert_eq!((found.number, library(&card)), (number, number));
    }
}

#[test]
fn good_cards_are_found_good() {
    for base in bases() {
        assert_eq!(library(&base.card), 0);
        assert_eq!(finding(&Sight::of(&base.card)), None);
    }
}
