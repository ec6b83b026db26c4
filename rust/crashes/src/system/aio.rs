//! Writes under way beside each other: they end in any order, and are told of in parts.

use super::{written, System, Told, EAGAIN, EINTR, EINVAL};
use crate::recorded::{How, Outcome};

/// A write that was submitted and is not told yet.
pub struct Flight {
    completion: Completion,
    outcome: Outcome,
    path: String,
}

#[derive(Clone, Copy)]
pub struct Completion {
    pub data: u64,
    pub object: u64,
    pub result: i64,
}

/// A write that is submitted.
pub struct Request<'a> {
    pub file: i32,
    pub data: u64,
    pub object: u64,
    pub at: usize,
    pub bytes: &'a [u8],
}

impl System {
    pub(super) fn in_flight(&self) -> usize {
        self.contexts.values().map(Vec::len).sum()
    }

    /// Ends what is under way. Tells how many writes it was.
    pub fn end_flights(&mut self) -> usize {
        let flights = self.contexts.values_mut();
        flights.map(|flights| flights.drain(..).count()).sum()
    }

    /// How many writes were begun while others were under way.
    pub fn together(&self) -> u64 {
        self.together
    }

    pub fn aio_begin(&mut self) -> Told<u64> {
        if self.setting.no_aio {
            return Err(EAGAIN);
        }
        let context = self.number() as u64;
        self.contexts.insert(context, Vec::new());
        Ok(context)
    }

    /// Waits for all that is under way.
    pub fn aio_end(&mut self, context: u64) -> Told<()> {
        self.contexts.remove(&context).map(|_| ()).ok_or(EINVAL)
    }

    /// Takes some of the writes, from the first on, and at least one; or none that is refused.
    pub fn submit(&mut self, context: u64, requests: &[Request]) -> Told<usize> {
        let most = self.rng.between(1, requests.len());
        for (taken, request) in requests[..most].iter().enumerate() {
            self.aligned(request.file, request.at, request.bytes)?;
            let (path, _) = self.path(request.file)?;
            let record = self.record(&path)?;
            self.lengthen(&record, request.at + request.bytes.len());
            let mut drive = record.borrow_mut();
            if drive.refuses_next() {
                if taken > 0 {
                    return Ok(taken);
                }
                drive.write(request.at, request.bytes);
                return Err(EAGAIN);
            }
            let outcome = drive.begin_write(request.at, request.bytes);
            let completion = Completion {
                data: request.data,
                object: request.object,
                result: written(outcome, request.bytes.len()),
            };
            let flights = self.contexts.get_mut(&context).ok_or(EINVAL)?;
            flights.push(Flight {
                completion,
                outcome,
                path,
            });
            self.together += u64::from(flights.len() > 1);
        }
        Ok(most)
    }

    /// Tells of some that have ended, in any order. A signal may come before any has, or before all
    /// have.
    pub fn events(&mut self, context: u64, most: usize) -> Told<Vec<Completion>> {
        if self.rng.chance(100) {
            return Err(EINTR);
        }
        let flights = self.contexts.get_mut(&context).ok_or(EINVAL)?;
        self.rng.shuffle(flights);
        let most = most.min(flights.len());
        let told = if self.rng.chance(300) && most > 0 {
            self.rng.between(1, most)
        } else {
            most
        };
        let ended: Vec<Flight> = flights.drain(..told).collect();
        for flight in &ended {
            let record = self.record(&flight.path)?;
            let outcome = record.borrow_mut().tell(flight.outcome);
            if outcome == Outcome::Failed(How::Untold) {
                return Err(EINVAL);
            }
        }
        Ok(ended.iter().map(|flight| flight.completion).collect())
    }
}
