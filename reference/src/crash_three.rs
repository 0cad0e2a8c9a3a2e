//! The crash bench for three modules: random runs with absent modules, missed ops and power failures (document 02, slip 9).
//!
//! After every event, and once more as if power failed there, every choice of absent modules is looked at: whatever the recovery would
//! choose has to hold what the abstract log promises. Unlike [`crate::crash`] this is a bench of our own recovery and of the promise
//! itself; another program's recovery is compared with ours by [`crate::three_calls`].

use crate::abstract_log::WalkedRecord;
use crate::calls::{walk, Record};
use crate::layout::{
    record_check, record_size, CheckWord, Header, Ring, FIRST_RING_WORD, HEADER_WORDS,
    MARK_COMMITTED, MAX_KIND, MIN_IMAGE_WORDS,
};
use crate::ops::OP_WORDS;
use crate::refusal::Refusal;
use crate::rng::Rng;
use crate::script::{digest, Command};
use crate::state::{Stage, State};
use crate::three::{choose, Readable, ThreePlan, MODULES, RECOVER_OPS};
use crate::three_system::{crash_image, System, Variant, Weather};
use std::array::from_fn;
use std::time::{Duration, Instant};

#[derive(Clone, Debug, Default)]
pub struct Report {
    pub histories: u64,
    pub events: u64,
    pub power_failures: u64,
    /// Granted recoveries that were events, and repairs in them; how many of those were cut.
    pub taken_up: u64,
    pub repairs: u64,
    pub cut_repairs: u64,
    /// Refused ones: too few readable copies, a short op buffer.
    pub too_few: u64,
    pub short: u64,
    /// Triples of images that were looked at, and the recoveries of them that are granted and were held against the promise.
    pub triples: u64,
    pub recoveries: u64,
    /// Triples of which nothing is promised, since a recovery left its raised epoch on one module.
    pub lone: u64,
    pub failure: Option<Failure>,
}

#[derive(Clone, Debug)]
pub struct Failure {
    /// Starting the bench with this seed meets the failure in its first history.
    pub seed: u64,
    pub what: String,
    /// The events of the run up to it.
    pub story: Vec<String>,
}

/// Runs histories with the seeds from `seed` on, until time is up or one fails.
pub fn crash_three(variant: Option<Variant>, seed: u64, time: Duration) -> Report {
    let start = Instant::now();
    let mut report = Report::default();
    while report.failure.is_none() && start.elapsed() < time {
        let seed = seed.wrapping_add(report.histories);
        report.histories += 1;
        if let Err(what) = History::new(variant, seed, &mut report).run() {
            report.failure = Some(Failure { seed, what, story: story(variant, seed) });
        }
    }
    report
}

/// What three modules may hold after some events of the first life of a seed's history, if power then fails or if it stays on.
pub fn modules_of_a_run(seed: u64) -> [Vec<u64>; MODULES] {
    let mut report = Report::default();
    let mut history = History::new(None, seed, &mut report);
    let words = MIN_IMAGE_WORDS + history.rng.below(20);
    let [old @ .., working]: [Vec<u64>; MODULES + 1] = from_fn(|_| history.old_contents(words));
    let mut system = System::start(None, old, working).expect("a good size");
    for _ in 0..history.rng.between(1, 40) {
        history.step(&mut system).expect("the promise holds");
    }
    if history.rng.chance(1, 2) {
        system.power_fails(&mut history.rng);
    }
    system.newest()
}

/// The events of a history that fails, told.
fn story(variant: Option<Variant>, seed: u64) -> Vec<String> {
    let mut report = Report::default();
    let mut history = History::new(variant, seed, &mut report);
    history.story = Some(Vec::new());
    let _ = history.run();
    history.story.unwrap_or_default()
}

// ---------------------------------------------------------------- one history

struct History<'a> {
    rng: Rng,
    variant: Option<Variant>,
    report: &'a mut Report,
    /// Lengths this history uses. A few only, so that old and new records come to lie alike.
    lengths: Vec<u64>,
    /// One event in so many is disturbed, and one in so many is a recovery.
    calm: u64,
    runs: u64,
    /// What happened in this life, if it is to be told.
    story: Option<Vec<String>>,
}

impl<'a> History<'a> {
    fn new(variant: Option<Variant>, seed: u64, report: &'a mut Report) -> Self {
        let mut rng = Rng::new(seed);
        let lengths = [0, 0, 1, 3, 8, 9, 16, 24, 32, 40];
        let lengths = (0..rng.between(1, 3)).map(|_| rng.pick(&lengths)).collect();
        let (calm, runs) = (rng.pick(&[2, 3, 4, 8]), rng.pick(&[4, 6, 12, 24]));
        History { rng, variant, report, lengths, calm, runs, story: None }
    }

    fn run(&mut self) -> Result<(), String> {
        let words = MIN_IMAGE_WORDS + self.rng.below(20);
        let steps = self.rng.between(6, 40);
        let mut contents: [Vec<u64>; MODULES + 1] = from_fn(|_| self.old_contents(words));
        // Each formatting finds what the life before it left.
        for _ in 0..self.rng.between(1, 3) {
            let [old @ .., working] = contents;
            let mut system = System::start(self.variant, old, working)
                .map_err(|refusal| format!("format is refused: {refusal:?}"))?;
            self.tell_anew(words);
            self.look(&system)?;
            for _ in 0..steps {
                self.step(&mut system)?;
                self.look(&system)?;
                if system.lone && self.rng.chance(1, 12) {
                    break;
                }
            }
            let [a, b, c] = system.modules.map(|module| crash_image(&mut self.rng, &module.device));
            contents = [a, b, c, system.working];
        }
        Ok(())
    }

    fn old_contents(&mut self, words: u64) -> Vec<u64> {
        let value = self.rng.next_u64();
        match self.rng.below(3) {
            0 => vec![0; words as usize],
            1 => vec![value; words as usize],
            _ => (0..words).map(|_| self.rng.next_u64()).collect(),
        }
    }

    // ------------------------------------------------------------ telling

    fn tell_anew(&mut self, words: u64) {
        if let Some(story) = &mut self.story {
            story.clear();
            story.push(format!("format, {words} words"));
        }
    }

    fn tell(&mut self, event: impl FnOnce() -> String) {
        if let Some(story) = &mut self.story {
            story.push(event());
        }
    }

    // ------------------------------------------------------------ events

    fn step(&mut self, system: &mut System) -> Result<(), String> {
        self.report.events += 1;
        let lost = system.state.capacity == 0;
        if system.down || self.rng.chance(1, if lost { 2 } else { self.runs }) {
            return self.recover(system);
        }
        if self.rng.chance(1, 20 * self.calm) {
            self.tell(|| "power fails".to_string());
            self.report.power_failures += 1;
            system.power_fails(&mut self.rng);
            return Ok(());
        }
        let call = self.choose(&system.state);
        match system.plan_call(&call) {
            Err(refusal) => self.tell(|| format!("{call:?}: refused {}", refusal.number())),
            Ok(plan) => {
                let weather = self.weather([plan.ops.len(); MODULES]);
                let in_step = system.modules.each_ref().map(|module| module.in_step);
                self.tell(|| {
                    format!("{call:?}: {} ops, {weather:?}, in step {in_step:?}", plan.ops.len())
                });
                system.call(&call, plan, weather, &mut self.rng);
            }
        }
        Ok(())
    }

    /// A recovery, in which modules may be absent, op buffers short, ops missed, and power may fail.
    fn recover(&mut self, system: &mut System) -> Result<(), String> {
        let present = self.present();
        let planned = system.plan_recover(present);
        let whole = (0..MODULES).filter(|&i| present[i] && !system.modules[i].half_repaired);
        let owed = whole.count() >= 2;
        let planned = planned.and_then(|plan| {
            plan.require_room(self.op_words(&plan))?;
            Ok(plan)
        });
        match planned {
            Ok(plan) => self.carry_out(system, plan),
            Err(refusal) => self.is_refused(system, refusal, owed),
        }
    }

    fn carry_out(&mut self, system: &mut System, plan: ThreePlan) -> Result<(), String> {
        let counts = plan.ops.each_ref().map(Vec::len);
        let weather = self.weather(counts);
        let ThreePlan { chosen, present, .. } = plan;
        self.tell(|| {
            format!("recover {present:?}: copy {chosen} is chosen, {counts:?} ops, {weather:?}")
        });
        self.report.taken_up += 1;
        for i in 0..MODULES {
            let repair = plan.repair_len(i);
            self.report.repairs += u64::from(repair > 0);
            self.report.cut_repairs += u64::from(weather.done[i] < repair);
        }
        self.look_inside(system, &plan)?;
        system.recover(plan, weather, &mut self.rng);
        if weather.power_fails {
            return Ok(());
        }
        for i in 0..MODULES {
            let carried_out = present[i] && weather.done[i] == counts[i];
            if carried_out && system.modules[i].device.newest() != system.working {
                return Err(format!("module {i} is not equal to the working image"));
            }
        }
        Ok(())
    }

    /// Nothing changes, but perhaps power fails, or the caller goes on with the state that a refused recovery returns.
    fn is_refused(
        &mut self,
        system: &mut System,
        refusal: Refusal,
        owed: bool,
    ) -> Result<(), String> {
        self.tell(|| format!("recover: refused {} {}", refusal.number(), refusal.detail()));
        match refusal {
            Refusal::TooFewCopies if !owed || self.variant.is_some() => self.report.too_few += 1,
            Refusal::OpBufferShort { .. } => self.report.short += 1,
            _ => return Err(format!("recover is refused: {refusal:?}")),
        }
        match self.rng.below(8) {
            0 => {
                self.report.power_failures += 1;
                system.power_fails(&mut self.rng);
            }
            1 => system.state = State::default(),
            _ => {}
        }
        Ok(())
    }

    fn present(&mut self) -> [bool; MODULES] {
        let absent = self.rng.below(MODULES as u64) as usize;
        match self.rng.below(8) {
            0..=2 => [true; MODULES],
            3..=6 => from_fn(|i| i != absent),
            _ => from_fn(|_| self.rng.chance(1, 2)),
        }
    }

    /// Seldom one is too short.
    fn op_words(&mut self, plan: &ThreePlan) -> [usize; MODULES] {
        let short = self.rng.below(24) as usize;
        from_fn(|i| {
            let needed = OP_WORDS * plan.ops[i].len();
            if i == short && needed > 0 {
                self.rng.below(needed as u64) as usize
            } else {
                needed
            }
        })
    }

    // ------------------------------------------------------------ disturbances

    /// Mostly all ops are carried out. Otherwise one module misses some, or two do, or power fails.
    fn weather(&mut self, counts: [usize; MODULES]) -> Weather {
        let mut weather = Weather { done: counts, power_fails: false };
        if !self.rng.chance(1, self.calm) {
            return weather;
        }
        let first = self.rng.below(MODULES as u64) as usize;
        let cut = match self.rng.below(8) {
            0..=3 => 1,
            4 => 2,
            _ => {
                weather.power_fails = true;
                self.report.power_failures += 1;
                self.rng.below(MODULES as u64 + 1) as usize
            }
        };
        for i in (first..first + cut).map(|i| i % MODULES) {
            weather.done[i] = self.part_of(counts[i]);
        }
        weather
    }

    /// Any number up to all, often near one end, or where a repair has stored the superline, or where it ends.
    fn part_of(&mut self, all: usize) -> usize {
        match self.rng.below(6) {
            0 => all.min(self.rng.below(4) as usize),
            1 => all - all.min(self.rng.below(11) as usize),
            2 => all.saturating_sub(RECOVER_OPS + self.rng.below(4) as usize),
            3 => all.min(self.rng.between(8, FIRST_RING_WORD + 4) as usize),
            _ => self.rng.below(all as u64 + 1) as usize,
        }
    }

    // ------------------------------------------------------------ choosing calls

    fn choose(&mut self, state: &State) -> Command {
        let in_stage = |stage: Stage| -> Vec<u64> {
            state.live().filter(|&lsn| state.entry(lsn).stage == stage).collect()
        };
        let (open, committed) = (in_stage(Stage::Open), in_stage(Stage::Committed));
        let uncommitted = state.committed_lsn + 1..state.next_lsn;
        let complete = |lsn: &u64| state.entry(*lsn).stage == Stage::Complete;
        let forceable: Vec<u64> = uncommitted.take_while(complete).collect();
        let rng = &mut self.rng;
        match rng.below(16) {
            0 if !open.is_empty() => {
                let lsn = rng.pick(&open);
                self.choose_copy(lsn, state)
            }
            1..=5 if !open.is_empty() => Command::Complete { lsn: rng.pick(&open) },
            6..=9 if !forceable.is_empty() => {
                let frequency = if rng.chance(3, 4) { 1 } else { rng.between(2, 4) };
                Command::Force { lsn: rng.pick(&forceable), frequency }
            }
            10 if !committed.is_empty() => {
                // Durable already, no ops.
                Command::Force { lsn: rng.pick(&committed), frequency: 1 }
            }
            11 if !committed.is_empty() => Command::Release { lsn: rng.pick(&committed) },
            12 if rng.chance(1, 4) => Command::ReleaseAll,
            _ => self.choose_record(state, &committed),
        }
    }

    /// A record, reserved or appended, or where there is no room the release of the oldest one.
    fn choose_record(&mut self, state: &State, committed: &[u64]) -> Command {
        let length = self.rng.pick(&self.lengths);
        let fits = state.used_words() + record_size(length) < state.capacity;
        let kind = self.rng.between(1, MAX_KIND);
        match committed {
            [oldest, ..] if !fits => Command::Release { lsn: *oldest },
            _ if self.rng.chance(1, 3) => {
                let mut bytes = self.rng.bytes(length);
                let (offset, part) = self.choose_part(state.next_lsn, length, state);
                bytes[offset as usize..][..part.len()].copy_from_slice(&part);
                let frequency = if self.rng.chance(1, 2) { 1 } else { self.rng.between(2, 4) };
                Command::Append { kind, frequency, bytes }
            }
            _ => Command::Reserve { kind, length },
        }
    }

    fn choose_copy(&mut self, lsn: u64, state: &State) -> Command {
        let (offset, bytes) = self.choose_part(lsn, state.entry(lsn).length, state);
        Command::Copy { lsn, offset, bytes }
    }

    /// A part of a record's payload: any bytes, or such as look like a committed record soon to come.
    fn choose_part(&mut self, lsn: u64, length: u64, state: &State) -> (u64, Vec<u8>) {
        let rng = &mut self.rng;
        if length >= 8 * HEADER_WORDS && rng.chance(1, 2) {
            let later = lsn + rng.between(1, 3);
            let kind = rng.between(1, MAX_KIND);
            let header = Header { length: 0, kind, mark: MARK_COMMITTED };
            let check = record_check(0, kind, later, std::iter::empty());
            let epoch = state.epoch + rng.below(2);
            let words = [header.word(), later, CheckWord { check, epoch }.word()];
            let offset = 8 * rng.below(length / 8 - HEADER_WORDS + 1);
            return (offset, words.into_iter().flat_map(u64::to_le_bytes).collect());
        }
        let offset = rng.below(length + 1);
        let count = rng.below(length - offset + 1);
        (offset, rng.bytes(count))
    }

    // ------------------------------------------------------------ judging

    /// The promise as things are, and as they may be if power fails now.
    fn look(&mut self, system: &System) -> Result<(), String> {
        self.judge(system, &system.newest())?;
        let rng = &mut self.rng;
        let left = system.modules.each_ref().map(|module| crash_image(rng, &module.device));
        self.judge(system, &left).map_err(|what| format!("if power fails now: {what}"))
    }

    /// The promise as things may be if power fails inside this recovery; more often if it repairs a module.
    fn look_inside(&mut self, system: &System, plan: &ThreePlan) -> Result<(), String> {
        let repairs = (0..MODULES).filter(|&i| plan.repair_len(i) > 0).count();
        for _ in 0..1 + 4 * repairs {
            let mut what_if = system.clone();
            let done = from_fn(|i| self.part_of(plan.ops[i].len()));
            let weather = Weather { done, power_fails: true };
            what_if.recover(plan.clone(), weather, &mut self.rng);
            self.judge(&what_if, &what_if.newest())
                .map_err(|what| format!("if power fails then, {done:?} ops done: {what}"))?;
        }
        Ok(())
    }

    /// Every choice of absent modules.
    fn judge(&mut self, system: &System, images: &[Vec<u64>; MODULES]) -> Result<(), String> {
        self.report.triples += 1;
        let walks = images.each_ref().map(|image| walk(image).ok());
        for (i, module) in system.modules.iter().enumerate() {
            // A variant has to break the promise itself.
            if self.variant.is_none() && !module.half_repaired && walks[i].is_none() {
                return Err(format!("module {i} is not readable"));
            }
        }
        if system.lone && self.variant != Some(Variant::LoneDropped) {
            self.report.lone += 1;
            return Ok(());
        }
        let copies = walks.each_ref().map(|walk| {
            let end = walk.as_ref()?.1;
            Some(Readable { epoch: end.superline_epoch, end_lsn: end.lsn })
        });
        let way = Variant::way(self.variant);
        let mut judged = [false; MODULES];
        for present in 0..1 << MODULES {
            let copies = from_fn(|i| copies[i].filter(|_| present >> i & 1 == 1));
            let Some(chosen) = choose(&way, &copies) else {
                continue;
            };
            self.report.recoveries += 1;
            if judged[chosen] {
                continue;
            }
            judged[chosen] = true;
            let records = walks[chosen].as_ref().map_or(&[][..], |(records, _)| records);
            let walked = walked(&images[chosen], records);
            system.log.check(&walked).map_err(|what| {
                format!("present {present:03b}, copy {chosen} is chosen: {what}")
            })?;
        }
        Ok(())
    }
}

/// The records with the bytes that fetch gives.
fn walked(image: &[u64], records: &[Record]) -> Vec<WalkedRecord> {
    let Some(ring) = Ring::of_image(image) else {
        return Vec::new();
    };
    let one = |&Record { position, lsn, kind, length, mark, epoch }: &Record| {
        let bytes_digest = digest(ring.payload(image, position, length).map(u64::from));
        WalkedRecord { position, lsn, kind, length, mark, epoch, bytes_digest }
    };
    records.iter().map(one).collect()
}
