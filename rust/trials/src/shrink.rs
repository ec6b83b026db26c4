//! Makes a list that fails short, so that it can be read.

use crate::call::Call;
use crate::drive::{Down, Left};
use crate::list::{List, Restart, Step};
use model::geometry::BLOCK;

/// Lists on larger cards are tried less often.
const CARD_BYTES_TRIED: usize = 8 << 30;
const MOST_TRIES: usize = 20_000;
/// Pairs are sought among so many first steps.
const PAIRED: usize = 40;
/// Cuts that put down one block alone are tried with so many first blocks.
const ALONE: usize = 64;

struct Shrinker<'f> {
    list: List,
    fails: &'f mut dyn FnMut(&List) -> bool,
    tries: usize,
}

/// The shortest list found that still fails in any way.
pub fn shrink(list: List, fails: &mut dyn FnMut(&List) -> bool) -> List {
    let tries = CARD_BYTES_TRIED / (list.geometry.blocks * BLOCK);
    let mut shrinker = Shrinker {
        list,
        fails,
        tries: tries.min(MOST_TRIES),
    };
    loop {
        let dropped = shrinker.drop_steps();
        let simplified = shrinker.simplify_steps() | shrinker.simplify_card();
        if !dropped && !simplified && !shrinker.drop_pair() {
            return shrinker.list;
        }
    }
}

impl Shrinker<'_> {
    /// Takes the other list if it fails too.
    fn take(&mut self, other: List) -> bool {
        if self.tries == 0 {
            return false;
        }
        self.tries -= 1;
        let fails = (self.fails)(&other);
        if fails {
            self.list = other;
        }
        fails
    }

    /// Drops chunks of steps, halves first, single steps last.
    fn drop_steps(&mut self) -> bool {
        let mut any = false;
        let mut chunk = self.list.steps.len().div_ceil(2);
        while chunk > 0 {
            let mut from = 0;
            while from < self.list.steps.len() {
                let mut shorter = self.list.clone();
                let to = (from + chunk).min(shorter.steps.len());
                shorter.steps.drain(from..to);
                if self.take(shorter) {
                    any = true;
                } else {
                    from += chunk;
                }
            }
            chunk /= 2;
        }
        any
    }

    /// Drops two steps that only go together, such as a write and a page-out.
    fn drop_pair(&mut self) -> bool {
        let steps = self.list.steps.len();
        for first in 0..steps.min(PAIRED) {
            for second in first + 1..steps.min(PAIRED) {
                let mut shorter = self.list.clone();
                shorter.steps.remove(second);
                shorter.steps.remove(first);
                if self.take(shorter) {
                    return true;
                }
            }
        }
        false
    }

    /// A step is simpler if it reads shorter, so this comes to an end.
    fn simplify_steps(&mut self) -> bool {
        let mut any = false;
        let read = |step: &Step| step.to_string().len();
        for i in 0..self.list.steps.len() {
            for step in simpler(&self.list.steps[i]) {
                let mut other = self.list.clone();
                if read(&step) < read(&other.steps[i]) {
                    other.steps[i] = step;
                    any |= self.take(other);
                }
            }
        }
        any
    }

    fn simplify_card(&mut self) -> bool {
        let mut any = false;
        if self.list.filler != 0 {
            let mut other = self.list.clone();
            other.filler = 0;
            any |= self.take(other);
        }
        if self.list.frames != 4 {
            let mut other = self.list.clone();
            other.frames = 4;
            any |= self.take(other);
        }
        any
    }
}

/// Forms of a step that may be simpler, the simplest first.
fn simpler(step: &Step) -> Vec<Step> {
    match step {
        Step::Call { call, lending } => {
            let mut steps = vec![Step::plain(call.clone())];
            let lending = *lending;
            steps.extend(simpler_calls(call).map(|call| Step::Call { call, lending }));
            steps
        }
        Step::Cut {
            call,
            down,
            left,
            restart,
        } => simpler_cuts(call, down, *left, *restart),
        Step::DoctorCommit(_) => vec![Step::DoctorCommit(1)],
        &Step::DoctorPot { oid, count, flags } => [(0, 1), (count, 1), (0, flags)]
            .map(|(count, flags)| Step::DoctorPot { oid, count, flags })
            .to_vec(),
        Step::DoctorGeometry { .. } => Vec::new(),
    }
}

fn simpler_cuts(call: &Option<Call>, down: &Down, left: Left, restart: Restart) -> Vec<Step> {
    let plain = Restart::plain(4);
    let call = || call.clone();
    let mut forms = vec![
        (None, Down::All, Left::New, plain),
        (call(), down.clone(), left, plain),
        (call(), down.clone(), Left::New, restart),
        (call(), down.clone(), Left::Old, restart),
        (call(), Down::All, left, restart),
    ];
    // A seed does not tell what is down.
    let alone = (0..ALONE).map(|block| Down::Blocks(vec![block]));
    for few in [Down::Blocks(Vec::new())].into_iter().chain(alone) {
        forms.push((call(), few, Left::New, restart));
    }
    let cut = |(call, down, left, restart)| Step::Cut {
        call,
        down,
        left,
        restart,
    };
    forms.into_iter().map(cut).collect()
}

fn simpler_calls(call: &Call) -> impl Iterator<Item = Call> {
    let mut calls = Vec::new();
    let mut simplify = |change: &dyn Fn(&mut Call)| {
        let mut simpler = call.clone();
        change(&mut simpler);
        calls.push(simpler);
    };
    simplify(&|call| {
        if let Some(count) = call.count_mut() {
            *count = 0;
        }
    });
    if let Call::Write { .. } = call {
        simplify(&|call| set_write(call, Some(0), None, 1));
        simplify(&|call| set_write(call, None, Some(1), 1));
        simplify(&|call| set_write(call, Some(0), Some(1), 1));
    }
    calls.into_iter()
}

/// Sets a write's offset and length, if told, and its bytes.
fn set_write(call: &mut Call, to_at: Option<usize>, to_length: Option<usize>, to_fill: u64) {
    if let Call::Write {
        at, length, fill, ..
    } = call
    {
        *at = to_at.unwrap_or(*at);
        *length = to_length.unwrap_or(*length);
        *fill = to_fill;
    }
}
