//! Doctored cards: start agrees with the model's start, and if it is done all
//! that follows agrees too. Also slices of all wrong lengths.

use super::{calls_on, in_state, Failed, State};
use crate::call::Call;
use crate::cards::{self, Size};
use crate::library::Library;
use crate::list::{numbers, Lending};
use crate::mix;
use crate::rng::Rng;
use crate::stock::{difference, CARD_SLACK, MEMORY};
use crate::tally::Tally;
use crate::trial::Trial;
use model::blocks::{directory, number, put, put_number, ENTRIES, TRAILER_AT};
use model::geometry::BLOCK;
use model::{Geometry, Lent, Model};

/// Of each card so many directories are made others.
const DIRECTORIES: usize = 200;

/// A card in a state, and the blocks that start reads.
struct Good {
    card: Vec<u8>,
    geometry: Geometry,
    frames: usize,
    /// The blocks of trailer and directory; none at commit 0.
    trailer: Option<usize>,
    directory: Vec<usize>,
}

/// Doctors the card of a store in that state.
pub fn doctor<L: Library>(
    library: &mut L,
    tally: &mut Tally,
    state: State,
    mut rng: Rng,
) -> Result<(), Failed> {
    let mut good = None;
    in_state(library, tally, state, &mut rng, |trial| {
        good = Some(Good::of(trial));
        slices(trial)
    })?;
    let good = good.ok_or("no state was found".to_string())?;
    let mut doctor = Doctor {
        library,
        tally,
        rng,
    };
    doctor.flip_bytes(&good)?;
    for _ in 0..2000 {
        let card = doctor.other_numbers(&good);
        doctor.try_like(card, &good)?;
    }
    doctor.other_directories(&good)?;
    Ok(doctor.random_cards()?)
}

impl Good {
    fn of<L: Library>(trial: &Trial<'_, L, Model>) -> Good {
        let card = trial.stock.card.clone();
        let geometry = trial.geometry.clone();
        let trailer = Some(number(&card, 8) as usize).filter(|block| *block > 0);
        let mut directory = Vec::new();
        if let Some(block) = trailer {
            let Generation { first, p, e } = Generation::of(&card, block);
            directory.extend((0..e.div_ceil(64)).map(|i| geometry.ring(first, p + i)));
        }
        Good {
            card,
            geometry,
            frames: trial.frames,
            trailer,
            directory,
        }
    }

    /// A number that start reads, by its byte position on the card.
    fn any_number(&self, rng: &mut Rng) -> usize {
        match (rng.below(3), self.trailer) {
            (1, Some(trailer)) => trailer * BLOCK + TRAILER_AT + 4 * rng.below(4),
            (2, Some(_)) => rng.pick(&self.directory) * BLOCK + 4 * rng.below(12),
            _ => 4 * rng.below(5 + 2 * self.geometry.ranges.len()),
        }
    }
}

/// A committed generation as its trailer tells it.
struct Generation {
    first: usize,
    p: usize,
    e: usize,
}

struct Doctor<'t, L> {
    library: &'t mut L,
    tally: &'t mut Tally,
    rng: Rng,
}

impl Generation {
    fn of(card: &[u8], trailer: usize) -> Generation {
        let at = trailer * BLOCK + TRAILER_AT;
        let [first, p, e] = [4, 8, 12].map(|field| number(card, at + field) as usize);
        Generation { first, p, e }
    }
}

impl<L: Library> Doctor<'_, L> {
    /// Every byte of header, trailer and directory, with a bit flipped.
    fn flip_bytes(&mut self, good: &Good) -> Result<(), String> {
        for block in [0].iter().chain(&good.trailer).chain(&good.directory) {
            for at in 0..BLOCK {
                let mut card = good.card.clone();
                card[block * BLOCK + at] ^= 1 << self.rng.below(8);
                self.try_like(card, good)?;
            }
        }
        Ok(())
    }

    /// A card that was made from a good one.
    fn try_like(&mut self, card: Vec<u8>, good: &Good) -> Result<(), String> {
        let at = difference(&card, &good.card).unwrap_or(0);
        let (block, byte, is) = (at / BLOCK, at % BLOCK, card[at]);
        let tried = self.try_card(card, &good.geometry, good.frames);
        tried.map_err(|what| format!("card block {block} byte {byte} made {is}: {what}"))
    }

    /// Start, and if it is done a look at the pages and some steps. There is
    /// no book of such a card.
    fn try_card(
        &mut self,
        card: Vec<u8>,
        geometry: &Geometry,
        frames: usize,
    ) -> Result<(), String> {
        self.tally.doctored_cards += 1;
        let model = Model::new(Vec::new());
        let geometry = geometry.clone();
        let mut trial = Trial::new(self.library, model, self.tally, card, geometry, frames);
        trial.stock.lose(self.rng.next());
        trial.make(&Call::Start, Lending::default())?;
        let Some(store) = &trial.reference.store else {
            return Ok(());
        };
        trial.geometry = store.geometry.clone();
        trial.look_at_all()?;
        let part = Rng::new(self.rng.next());
        for step in mix::some_steps(part, trial.geometry.clone()) {
            let done = trial.step(&step);
            done.map_err(|what| format!("{step}: {what}"))?;
        }
        Ok(())
    }

    /// One to three numbers made others: one off, at a border, or another
    /// number that start reads.
    fn other_numbers(&mut self, good: &Good) -> Vec<u8> {
        let mut card = good.card.clone();
        let rng = &mut self.rng;
        for _ in 0..rng.between(1, 3) {
            let at = good.any_number(rng);
            let now = number(&card, at);
            let other = number(&card, good.any_number(rng));
            let area = good.geometry.area as u32;
            let blocks = good.geometry.blocks as u32;
            let one_off = [now.wrapping_add(1), now.wrapping_sub(1)];
            let borders = [0, 1, 8, 9, area, area + 1, blocks - 1, blocks, u32::MAX];
            let choices = [rng.pick(&one_off), rng.pick(&borders), other];
            put_number(&mut card, at, rng.pick(&choices));
        }
        card
    }

    /// Directories of any frames, with any bytes in pots and page blocks. A page
    /// may stand there without its pot, which then tells at home whether it is
    /// passed over.
    fn other_directories(&mut self, good: &Good) -> Result<(), String> {
        let Some(trailer) = good.trailer else {
            return Ok(());
        };
        for _ in 0..DIRECTORIES {
            let card = self.other_directory(good, Generation::of(&good.card, trailer));
            self.try_like(card, good)?;
        }
        Ok(())
    }

    fn other_directory(&mut self, good: &Good, generation: Generation) -> Vec<u8> {
        let Generation { first, p, e } = generation;
        let geometry = &good.geometry;
        let page_blocks: Vec<usize> = (0..p).map(|i| geometry.ring(first, i)).collect();
        let mut card = good.card.clone();
        self.fill_blocks(&mut card, &geometry.pots());
        self.fill_blocks(&mut card, &page_blocks);
        let frames = self.any_frames(geometry, e).into_iter();
        let entries: Vec<(usize, usize)> = frames
            .map(|frame| (frame, self.rng.pick(&page_blocks)))
            .collect();
        for (block, part) in good.directory.iter().zip(entries.chunks(ENTRIES)) {
            put(&mut card, *block, &directory(part));
        }
        card
    }

    fn fill_blocks(&mut self, card: &mut [u8], blocks: &[usize]) {
        for block in blocks {
            self.rng.fill(&mut card[block * BLOCK..(block + 1) * BLOCK]);
        }
    }

    /// So many home frames, rising.
    fn any_frames(&mut self, geometry: &Geometry, count: usize) -> Vec<usize> {
        let mut frames: Vec<usize> = (1 + geometry.area..geometry.blocks).collect();
        self.rng.shuffle(&mut frames);
        frames.truncate(count);
        frames.sort_unstable();
        frames
    }

    /// Any bytes, but for a layout, A and ranges that may be right.
    fn random_cards(&mut self) -> Result<(), String> {
        for _ in 0..300 {
            let geometry = cards::random(&mut self.rng, Size::Small);
            let mut card = vec![0; geometry.blocks * BLOCK + CARD_SLACK];
            self.rng.fill(&mut card);
            let right = self.rng.below(4);
            if right > 0 {
                put_number(&mut card, 0, 1);
            }
            if right > 1 {
                let count = geometry.ranges.len() as u32;
                let told = [geometry.area as u32, count];
                let told = told.into_iter().chain(numbers(&geometry));
                for (i, number) in told.enumerate() {
                    put_number(&mut card, 12 + 4 * i, number);
                }
            }
            if right > 2 {
                let trailer = 1 + self.rng.below(geometry.area);
                put_number(&mut card, 8, trailer as u32);
            }
            self.try_card(card, &geometry, 4)?;
        }
        Ok(())
    }
}

/// Each call, lent each wrong length of card and of memory.
fn slices<L: Library>(trial: &mut Trial<'_, L, Model>) -> Result<(), String> {
    let oid = trial.geometry.ranges[0].first;
    let count = trial.present_count(oid);
    let mut calls = calls_on(oid, count);
    calls.push(Call::Format {
        area: trial.geometry.area,
        ranges: numbers(&trial.geometry),
    });
    // Refused, it leaves a record of zeros, so it comes last.
    calls.push(Call::Start);
    for call in &calls {
        lend_wrongly(trial, call)?;
    }
    Ok(())
}

fn lend_wrongly<L: Library>(trial: &mut Trial<'_, L, Model>, call: &Call) -> Result<(), String> {
    let near = |bytes: usize| [BLOCK, 1].map(|off| [bytes - off, bytes + off]).concat();
    let few = [0, 1, 511, 512, 513];
    let mut card = near(trial.geometry.blocks * BLOCK);
    card.extend(few);
    card.extend([10 * BLOCK, trial.stock.card.len()]);
    for bytes in card {
        let mut lending = Lending {
            card: Some(bytes),
            memory: None,
        };
        make_lent(trial, call, lending)?;
        lending.memory = Some(0);
        make_lent(trial, call, lending)?;
    }
    if let Call::Format { .. } = call {
        return Ok(());
    }
    let mut memory = near(trial.frames * BLOCK);
    memory.extend(few);
    memory.extend([3 * BLOCK, 65 * BLOCK, MEMORY]);
    for bytes in memory {
        let lending = Lending {
            card: None,
            memory: Some(bytes),
        };
        make_lent(trial, call, lending)?;
    }
    Ok(())
}

fn make_lent<L: Library>(
    trial: &mut Trial<'_, L, Model>,
    call: &Call,
    lending: Lending,
) -> Result<(), String> {
    let Lent { card, memory } = trial.lent(lending);
    let made = trial.make(call, lending);
    made.map(|_| ()).map_err(|what| {
        let name = call.name();
        format!("{name}, lent {card} bytes of card and {memory} of memory: {what}")
    })
}
