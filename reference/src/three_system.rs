//! A log on three modules (document 02, slip 9) that are absent, miss ops and lose power; and what its abstract log counts.
//!
//! Two corners that the slip leaves open are read so that its promise holds (docs/DECISIONS.md): a module that misses ops settles then,
//! as if its power had failed; and a recovery that leaves its raised epoch on no module is followed by recoveries only.

use crate::abstract_log::AbstractLog;
use crate::calls::{open, plan_format};
use crate::device::Device;
use crate::ops::Op;
use crate::planned::{plan_call, store_all, Answer, PlannedCall};
use crate::refusal::Refusal;
use crate::rng::Rng;
use crate::script::Command;
use crate::state::State;
use crate::three::{plan_recover_three, repair_ops, ThreePlan, Way, MODULES};
use std::array::from_fn;

/// A rule that is broken on purpose: the crash bench must find that out.
#[derive(Clone, Copy, Debug, PartialEq, Eq)]
pub enum Variant {
    /// The promise is held to be due also after a recovery left its raised epoch on exactly one module.
    LoneDropped,
    /// A force without ops counts whatever modules are in step.
    IdleForceAlways,
    /// A force without ops counts with one module in step.
    IdleForceWithOne,
    /// A force with ops counts when one module carried them out.
    ForceWithOne,
    /// A module that was absent at the recovery gets the ops of the calls behind it.
    AbsentGivenOps,
    /// A module that missed ops gets those of later calls.
    MissingGivenOps,
    /// Recovery is content with one readable copy.
    OneReadableEnough,
    /// Of the readable copies with the greatest epoch the lowest is chosen.
    ChoiceWithoutEnd,
    /// The readable copy with the greatest end LSN is chosen.
    ChoiceWithoutEpoch,
    /// A module stays readable while it is repaired.
    RepairWithoutSelector2,
    /// A repair stores the selector before it flushes the other words.
    SelectorBeforeFlush,
    /// A release is begun when two modules carried out its first op.
    ReleaseByTwo,
    /// A module that misses ops, or is absent, keeps its words pending.
    MissedNotSettled,
    /// Calls go on behind a recovery that left its raised epoch on no module.
    RaisedOnNone,
}

impl Variant {
    pub const ALL: [(&'static str, Variant); 14] = [
        ("lone-dropped", Variant::LoneDropped),
        ("idle-force-always", Variant::IdleForceAlways),
        ("idle-force-with-one", Variant::IdleForceWithOne),
        ("force-with-one", Variant::ForceWithOne),
        ("absent-given-ops", Variant::AbsentGivenOps),
        ("missing-given-ops", Variant::MissingGivenOps),
        ("one-readable-enough", Variant::OneReadableEnough),
        ("choice-without-end", Variant::ChoiceWithoutEnd),
        ("choice-without-epoch", Variant::ChoiceWithoutEpoch),
        ("repair-without-selector-2", Variant::RepairWithoutSelector2),
        ("selector-before-flush", Variant::SelectorBeforeFlush),
        ("release-by-two", Variant::ReleaseByTwo),
        ("missed-not-settled", Variant::MissedNotSettled),
        ("raised-on-none", Variant::RaisedOnNone),
    ];

    pub fn named(name: &str) -> Option<Variant> {
        Variant::ALL.into_iter().find(|&(its_name, _)| its_name == name).map(|(_, variant)| variant)
    }

    /// How a log with this variant recovers three modules.
    pub fn way(variant: Option<Variant>) -> Way {
        match variant {
            Some(Variant::OneReadableEnough) => Way { least_readable: 1, ..Way::RIGHT },
            Some(Variant::ChoiceWithoutEnd) => Way { rank: |copy| (copy.epoch, 0), ..Way::RIGHT },
            Some(Variant::ChoiceWithoutEpoch) => {
                Way { rank: |copy| (copy.end_lsn, 0), ..Way::RIGHT }
            }
            Some(Variant::RepairWithoutSelector2) => {
                Way { repair: |image| repair_ops(image).split_off(2), ..Way::RIGHT }
            }
            Some(Variant::SelectorBeforeFlush) => Way { repair: selector_first, ..Way::RIGHT },
            _ => Way::RIGHT,
        }
    }
}

/// A repair whose flush of the words comes one op too late.
fn selector_first(image: &[u64]) -> Vec<Op> {
    let mut ops = repair_ops(image);
    let flush = ops.len() - 3;
    ops.swap(flush, flush + 1);
    ops
}

/// What the world does to an event.
#[derive(Clone, Copy, Debug, PartialEq, Eq)]
pub struct Weather {
    /// How many of its ops each module carries out, if it gets so many.
    pub done: [usize; MODULES],
    /// Power fails behind them.
    pub power_fails: bool,
}

#[derive(Clone, Debug)]
pub struct Module {
    pub device: Device,
    /// It was present at the last recovery, or the formatting, and carried out all its ops since, those of the recovery included.
    pub in_step: bool,
    /// The same, but in the variants that give it ops regardless.
    pub gets_ops: bool,
    /// A repair of it was begun, and neither it nor a later one was finished.
    pub half_repaired: bool,
}

impl Module {
    fn carry_out(&mut self, ops: &[Op]) {
        ops.iter().for_each(|&op| self.device.carry_out(op));
    }

    fn settle(&mut self, rng: &mut Rng) {
        self.device = Device::new(&crash_image(rng, &self.device));
    }
}

/// An image that a crash can leave: newest values up to some word and flushed ones behind it, or the other way round; or any mixture.
pub fn crash_image(rng: &mut Rng, device: &Device) -> Vec<u64> {
    if rng.chance(1, 3) {
        let (edge, newest_first) = (rng.below(device.words() + 1), rng.chance(1, 2));
        return device.crash_image(|word, count| match (word < edge) == newest_first {
            true => count,
            false => 0,
        });
    }
    // Of 16 words with a choice, so many hold something newer than their flushed value.
    let newer = rng.pick(&[0, 2, 8, 8, 14, 16]);
    let newest = rng.chance(1, 2);
    device.crash_image(|_, count| match rng.chance(newer, 16) {
        false => 0,
        true if newest => count,
        true => rng.between(1, count as u64) as usize,
    })
}

#[derive(Clone, Debug)]
pub struct System {
    variant: Option<Variant>,
    pub working: Vec<u64>,
    pub state: State,
    pub log: AbstractLog,
    /// Only recoveries may follow.
    pub down: bool,
    /// A recovery left its raised epoch on exactly one module.
    pub lone: bool,
    pub modules: [Module; MODULES],
}

impl System {
    /// Formats a log, all ops carried out, over any old contents of one good length.
    pub fn start(
        variant: Option<Variant>,
        old: [Vec<u64>; MODULES],
        mut working: Vec<u64>,
    ) -> Result<System, Refusal> {
        let plan = plan_format(&working)?;
        store_all(&mut working, &plan.ops);
        let modules = old.map(|image| {
            let device = Device::new(&image);
            let mut module = Module { device, in_step: true, gets_ops: true, half_repaired: false };
            module.carry_out(&plan.ops);
            module
        });
        let log = AbstractLog::default();
        Ok(System { variant, working, state: plan.state, log, down: false, lone: false, modules })
    }

    /// What the modules hold while power is on.
    pub fn newest(&self) -> [Vec<u64>; MODULES] {
        self.modules.each_ref().map(|module| module.device.newest())
    }

    // ------------------------------------------------------------ calls

    /// Any call but format and recover.
    pub fn plan_call(&self, call: &Command) -> Result<PlannedCall, Refusal> {
        plan_call(&self.working, &self.state, call)
    }

    /// Only if not down.
    pub fn call(&mut self, call: &Command, plan: PlannedCall, weather: Weather, rng: &mut Rng) {
        let all = plan.ops.len();
        let done = from_fn(|i| match self.modules[i].gets_ops {
            true => weather.done[i].min(all),
            false => 0,
        });
        self.feed(call, &plan, done);
        store_all(&mut self.working, &plan.ops);
        self.state = plan.state;
        for (i, done) in done.into_iter().enumerate() {
            self.modules[i].carry_out(&plan.ops[..done]);
            if self.modules[i].gets_ops && done < all {
                self.misses(i, rng);
            }
        }
        if weather.power_fails {
            self.power_fails(rng);
        }
    }

    /// Tells the abstract log of a call, of whose ops each module carries out so many.
    fn feed(&mut self, call: &Command, plan: &PlannedCall, done: [usize; MODULES]) {
        match *call {
            Command::Reserve { kind, length } => {
                if let Answer::Reserved { lsn } = plan.answer {
                    self.log.reserve(lsn, kind, length);
                }
            }
            Command::Copy { lsn, offset, ref bytes } => self.log.copy(lsn, offset, bytes),
            Command::Complete { lsn } => self.log.complete(lsn),
            Command::Force { lsn, .. }
                if plan.answer == Answer::Durable && self.force_counts(plan.ops.len(), done) =>
            {
                self.log.make_durable(lsn);
            }
            Command::Append { kind, ref bytes, .. } => {
                if let Answer::Appended { lsn, durable } = plan.answer {
                    let durable = durable && self.force_counts(plan.ops.len(), done);
                    self.log.append(lsn, kind, bytes, durable);
                }
            }
            Command::Release { lsn } if self.release_begins(done) => self.log.begin_release(lsn),
            Command::ReleaseAll if self.release_begins(done) => self.log.begin_release_all(),
            _ => {}
        }
    }

    /// Two modules in step carried out all ops of the force or of the append, or the force has none.
    fn force_counts(&self, all: usize, done: [usize; MODULES]) -> bool {
        let modules = self.modules.iter().zip(done);
        let counted = modules.filter(|(module, done)| module.in_step && *done == all).count();
        let needed = match self.variant {
            Some(Variant::IdleForceAlways) if all == 0 => 0,
            Some(Variant::IdleForceWithOne) if all == 0 => 1,
            Some(Variant::ForceWithOne) if all > 0 => 1,
            _ => 2,
        };
        counted >= needed
    }

    /// Any module carried out an op.
    fn release_begins(&self, done: [usize; MODULES]) -> bool {
        let needed = if self.variant == Some(Variant::ReleaseByTwo) { 2 } else { 1 };
        done.into_iter().filter(|&done| done > 0).count() >= needed
    }

    // ------------------------------------------------------------ recoveries

    /// A recovery of the modules as they are, with all op buffers long enough.
    pub fn plan_recover(&self, present: [bool; MODULES]) -> Result<ThreePlan, Refusal> {
        let newest = self.newest();
        let images = newest.each_ref().map(Vec::as_slice);
        plan_recover_three(&Variant::way(self.variant), images, present)
    }

    /// Any time. The repairs of modules that are cut one before another, and the recovery's ops of one before the repair of another,
    /// are allowed: the promise needs no order between modules.
    pub fn recover(&mut self, plan: ThreePlan, weather: Weather, rng: &mut Rng) {
        let mut working = self.modules[plan.chosen].device.newest();
        store_all(&mut working, &plan.ops[plan.chosen]);
        self.working = working;
        for i in 0..MODULES {
            if plan.present[i] {
                self.carry_out_recovery(i, &plan, weather.done[i], rng);
            } else {
                self.is_absent(i, rng);
            }
        }
        if weather.power_fails {
            self.power_fails(rng);
        }
        let raised = self.raised(plan.state.epoch);
        self.lone |= raised == 1;
        let goes_on = raised > 0 || self.variant == Some(Variant::RaisedOnNone);
        self.down = weather.power_fails || !goes_on;
        self.state = plan.state;
    }

    fn carry_out_recovery(&mut self, i: usize, plan: &ThreePlan, done: usize, rng: &mut Rng) {
        let ops = &plan.ops[i];
        let done = done.min(ops.len());
        let module = &mut self.modules[i];
        module.carry_out(&ops[..done]);
        module.half_repaired = match plan.repair_len(i) {
            0 => false,
            _ if done == 0 => module.half_repaired,
            repair => done < repair,
        };
        if done == ops.len() {
            module.in_step = true;
            module.gets_ops = true;
        } else {
            self.misses(i, rng);
        }
    }

    /// How many modules have a good superline with this epoch.
    fn raised(&self, epoch: u64) -> usize {
        let is_raised =
            |image: &&Vec<u64>| open(image).is_ok_and(|cursor| cursor.superline_epoch == epoch);
        self.newest().iter().filter(is_raised).count()
    }

    // ------------------------------------------------------------ modules that fall out

    /// A module that gets ops does not carry all of them out: that is a crash of this module.
    fn misses(&mut self, i: usize, rng: &mut Rng) {
        let module = &mut self.modules[i];
        module.in_step = false;
        module.gets_ops = self.variant == Some(Variant::MissingGivenOps);
        if self.variant != Some(Variant::MissedNotSettled) {
            module.settle(rng);
        }
    }

    /// One that is in step and absent at a recovery falls out likewise.
    fn is_absent(&mut self, i: usize, rng: &mut Rng) {
        if self.modules[i].in_step {
            self.misses(i, rng);
        }
        self.modules[i].gets_ops = self.variant == Some(Variant::AbsentGivenOps);
    }

    pub fn power_fails(&mut self, rng: &mut Rng) {
        for module in &mut self.modules {
            module.settle(rng);
            module.in_step = false;
            module.gets_ops = false;
        }
        self.down = true;
    }
}
