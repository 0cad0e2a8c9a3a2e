//! Any of the calls, planned and not yet carried out: for benches that carry out some of its ops.

use crate::calls::{
    next, plan_append, plan_complete, plan_copy, plan_force, plan_recover, plan_release,
    plan_release_all, plan_reserve, Forced, Plan,
};
use crate::ops::Op;
use crate::refusal::Refusal;
use crate::script::Command;
use crate::state::State;

/// What a granted call is going to do.
pub struct PlannedCall {
    pub ops: Vec<Op>,
    pub state: State,
    pub answer: Answer,
}

#[derive(Clone, Copy, Debug, PartialEq, Eq)]
pub enum Answer {
    Reserved { lsn: u64 },
    Appended { lsn: u64, durable: bool },
    Durable,
    Deferred,
    Done,
}

impl PlannedCall {
    fn new<A>(plan: Plan<A>, answer: impl FnOnce(A) -> Answer) -> PlannedCall {
        PlannedCall { ops: plan.ops, state: plan.state, answer: answer(plan.answer) }
    }

    fn done(plan: Plan<()>) -> PlannedCall {
        PlannedCall::new(plan, |()| Answer::Done)
    }
}

/// Any writing call but format, with an op buffer that is long enough.
pub fn plan_call(image: &[u64], state: &State, call: &Command) -> Result<PlannedCall, Refusal> {
    Ok(match *call {
        Command::Reserve { kind, length } => {
            PlannedCall::new(plan_reserve(image, state, kind, length)?, |reserved| {
                Answer::Reserved { lsn: reserved.lsn }
            })
        }
        Command::Copy { lsn, offset, ref bytes } => {
            PlannedCall::done(plan_copy(image, state, lsn, offset, bytes)?)
        }
        Command::Complete { lsn } => PlannedCall::done(plan_complete(image, state, lsn)?),
        Command::Force { lsn, frequency } => {
            PlannedCall::new(plan_force(image, state, lsn, frequency)?, |forced| match forced {
                Forced::Durable => Answer::Durable,
                Forced::Deferred => Answer::Deferred,
            })
        }
        Command::Append { kind, frequency, ref bytes } => {
            PlannedCall::new(plan_append(image, state, kind, bytes, frequency)?, |appended| {
                let durable = appended.forced == Forced::Durable;
                Answer::Appended { lsn: appended.lsn, durable }
            })
        }
        Command::Release { lsn } => PlannedCall::done(plan_release(image, state, lsn)?),
        Command::ReleaseAll => PlannedCall::done(plan_release_all(image, state)?),
        Command::Recover => PlannedCall::done(plan_recover(image, next)?),
        _ => unreachable!("no writing call, or format"),
    })
}

/// What the stores of these ops make of an image.
pub fn store_all(image: &mut [u64], ops: &[Op]) {
    for op in ops {
        if let Op::Store { word, value } = *op {
            image[word as usize] = value;
        }
    }
}
