//! Days on a drive that fails once: at each of its operations in turn.

use crate::cuts::Effort;
use crate::day::Day;
use crate::layer::{Doing, Fault, Layer};
use crate::recorded::{How, Plan};
use crate::trial::{Before, Run, Trial};
use crate::wrong::Wrong;

const EFFORT: Effort = Effort {
    all: 64,
    random: 10,
    spoilt: 2,
    go_on: 10,
};

/// Every read, write and flush of the day fails once, in each of these ways.
pub fn each(
    run: &mut Run,
    layer: &dyn Layer,
    day: &Day,
    before: &Before,
    ways: &[(Doing, How)],
) -> Result<(), Wrong> {
    let mut trial = Trial::new(run, layer, &day.shape, before.clone(), EFFORT);
    trial.create(false)?;
    for call in &day.calls {
        trial.call(call, false)?;
    }
    let record = trial.record().clone();
    for (doing, how) in ways {
        for nth in 0..record.borrow().asked(*doing) {
            let (doing, how) = (*doing, *how);
            let plan = Plan { doing, nth, how };
            once(run, layer, day, before, plan)?;
        }
    }
    Ok(())
}

fn once(
    run: &mut Run,
    layer: &dyn Layer,
    day: &Day,
    before: &Before,
    plan: Plan,
) -> Result<(), Wrong> {
    let right = Fault::Drive(plan.doing);
    let mut trial = Trial::new(run, layer, &day.shape, before.clone(), EFFORT);
    trial.record().borrow_mut().fail(plan);
    if trial.attempt(None, &right)? {
        return Ok(());
    }
    for call in &day.calls {
        if trial.attempt(Some(call), &right)? {
            return Ok(());
        }
    }
    trial.wrong(format!("{plan:?} is never met"))
}
