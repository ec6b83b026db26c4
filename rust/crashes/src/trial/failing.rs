//! A drive that fails in a call.

use super::{Life, Part, Trial};
use crate::day::Call;
use crate::layer::{Answer, Fault};
use crate::wrong::Wrong;
use lane::BLOCK;

impl Trial<'_> {
    /// The drive has failed in a call: its answer must say so, every later call must be refused,
    /// and any card that may be left shows a whole snapshot.
    fn failed(&mut self, answer: &Answer, right: &Fault) -> Result<(), Wrong> {
        self.run.tally.failures += 1;
        self.part = Part::Failed;
        if *answer != Answer::Fault(right.clone()) {
            let was = answer.text();
            return self.wrong(format!("the drive fails, and the call is answered {was}"));
        }
        let from = self.record.borrow().events().len();
        if self.lane.is_some() {
            self.stopped()?;
        }
        self.lane = None;
        if self.record.borrow().events().len() != from {
            return self.wrong("a stopped lane writes or flushes".to_string());
        }
        let wrong = self.record.borrow_mut().take_wrong();
        if let Some(what) = wrong {
            return self.wrong(what);
        }
        self.point()
    }

    /// Every call is refused, key, read and forecast too.
    fn stopped(&mut self) -> Result<(), Wrong> {
        let write = Call::Write {
            page: 0,
            at: 0,
            bytes: vec![1],
        };
        let calls = [
            Call::Key(0),
            write,
            Call::Rescind(0),
            Call::Snapshot,
            Call::Finish,
            Call::Commit,
            Call::Advance,
            Call::Settle,
        ];
        for call in calls {
            let answer = self.answer(&call);
            if answer != Answer::Fault(Fault::Stopped) {
                let was = answer.text();
                return self.wrong(format!("the lane is stopped, and {call} is answered {was}"));
            }
        }
        let lane = self.lane.as_mut().expect("the lane is stopped");
        let (oid, mut page) = (self.oids[0], [0; BLOCK]);
        let answers = [
            lane.read(oid, 0, &mut page),
            lane.write(oid, 0, 0, &[1]),
            lane.rescind(oid, 0),
        ];
        let foretold = lane.forecast();
        let stopped = answers.iter().all(|answer| *answer == Err(Fault::Stopped));
        match stopped && foretold == Err(Fault::Stopped) {
            true => Ok(()),
            false => self.wrong(format!(
                "the lane is stopped, and answers {answers:?}, forecast {foretold:?}"
            )),
        }
    }

    /// Makes the create or a call on a drive that may fail in it. Says whether it has.
    pub fn attempt(&mut self, call: Option<&Call>, right: &Fault) -> Result<bool, Wrong> {
        let answer = match call {
            Some(call) => self.make(call, false)?,
            None => {
                let made = self.layer.create(&self.record, self.shape);
                let answer = made.map(|lane| self.lane = Some(lane));
                self.walk(false)?;
                answer.map_or_else(Answer::Fault, |()| Answer::Done)
            }
        };
        if self.record.borrow().failed() {
            self.failed(&answer, right)?;
            return Ok(true);
        }
        match call {
            Some(call) => self.finish(call, &answer)?,
            None => self.life = Life::Made,
        }
        Ok(false)
    }
}
