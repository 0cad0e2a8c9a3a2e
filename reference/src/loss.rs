//! How many completed records a power failure loses (document 02, slip 10), measured.
//!
//! Random runs keep the slip's discipline: each record is completed and then forced with the same F before the next is reserved, call by
//! call or by one append with F. Any other call may stand anywhere. In every call power might fail: what the device may then hold is looked at, and the records completed
//! since the last recovery or the formatting, with no release begun, that its walk does not list are counted. They have to be at most F,
//! and the newest; at most F - 1 where the newest record's own force is over and the call completes none. Now and then power does fail.

use crate::abstract_log::AbstractLog;
use crate::calls::{plan_format, walk};
use crate::device::Device;
use crate::layout::{record_size, FIRST_RING_WORD, MARK_RELEASED, MAX_KIND, MIN_IMAGE_WORDS};
use crate::planned::{plan_call, store_all, Answer, PlannedCall};
use crate::rng::Rng;
use crate::script::Command;
use crate::state::{Stage, State};
use crate::three_system::crash_image;
use std::time::{Duration, Instant};

/// The greatest force frequency that is measured.
pub const MOST: usize = 16;

/// Crash images of one frequency after which F is expected to have been reached.
const ENOUGH: u64 = 20_000;

/// A rule of the slip that is broken on purpose: the count must find that out.
#[derive(Clone, Copy, Debug, PartialEq, Eq)]
pub enum Variant {
    /// One force of each life is left out.
    ForceLeftOut,
    /// Records are counted since the formatting, whatever recoveries came between.
    SinceFormatting,
    /// A record may be forced before it is completed.
    ForcedFirst,
    /// The force before the next record may have any frequency.
    AnyFrequency,
    /// F is 0, so that every force is refused.
    FrequencyZero,
    /// At most F - 1 are to be missing.
    OneFewer,
}

impl Variant {
    pub const ALL: [(&'static str, Variant); 6] = [
        ("force-left-out", Variant::ForceLeftOut),
        ("since-formatting", Variant::SinceFormatting),
        ("forced-first", Variant::ForcedFirst),
        ("any-frequency", Variant::AnyFrequency),
        ("frequency-zero", Variant::FrequencyZero),
        ("one-fewer", Variant::OneFewer),
    ];

    pub fn named(name: &str) -> Option<Variant> {
        Variant::ALL.into_iter().find(|&(its_name, _)| its_name == name).map(|(_, variant)| variant)
    }
}

/// What was seen of one F.
#[derive(Clone, Copy, Debug, Default, PartialEq, Eq)]
pub struct Measured {
    /// Images that were looked at.
    pub images: u64,
    /// The most records that one of them missed, and how many of them missed F.
    pub most_lost: usize,
    pub reached: u64,
}

#[derive(Clone, Debug, Default)]
pub struct Report {
    pub histories: u64,
    pub power_failures: u64,
    pub recoveries: u64,
    pub refused: u64,
    /// By F, from 1 on.
    pub measured: [Measured; MOST],
    pub failure: Option<Failure>,
}

#[derive(Clone, Debug)]
pub struct Failure {
    /// Starting with this seed meets the failure in its first history.
    pub seed: u64,
    pub what: String,
    /// The events of the life up to it.
    pub story: Vec<String>,
}

impl Report {
    pub fn images(&self) -> u64 {
        self.measured.iter().map(|it| it.images).sum()
    }

    /// The least F that was looked at often and never reached: then the runs show less than they should.
    pub fn unreached(&self) -> Option<usize> {
        let often = |it: &Measured| it.images >= ENOUGH && it.reached == 0;
        self.measured.iter().position(often).map(|index| index + 1)
    }
}

/// Runs histories with the seeds from `seed` on, until time is up or one fails.
pub fn measure_loss(variant: Option<Variant>, seed: u64, time: Duration) -> Report {
    let start = Instant::now();
    let mut report = Report::default();
    while report.failure.is_none() && start.elapsed() < time {
        let seed = seed.wrapping_add(report.histories);
        report.histories += 1;
        let mut history = History::new(variant, seed, &mut report);
        if let Err(what) = history.run() {
            let story = history.story;
            report.failure = Some(Failure { seed, what, story });
        }
    }
    report
}

// ---------------------------------------------------------------- what the slip speaks of

/// How far the record last reserved is.
#[derive(Clone, Copy, Debug, PartialEq, Eq)]
enum Turn {
    /// None was reserved since the last recovery, power failure or formatting; or it is completed, and then forced with F.
    Free,
    Open(u64),
    Complete(u64),
}

#[derive(Clone, Debug)]
struct Account {
    frequency: u64,
    turn: Turn,
    /// LSNs completed since the last recovery or the formatting, the newest last.
    since: Vec<u64>,
    log: AbstractLog,
}

impl Account {
    /// A granted call with so many of its ops carried out. Reserve and complete count even if power fails in them.
    fn feed(
        &mut self,
        variant: Option<Variant>,
        call: &Command,
        plan: &PlannedCall,
        done: usize,
        fails: bool,
    ) {
        match *call {
            Command::Reserve { kind, length } => {
                if let Answer::Reserved { lsn } = plan.answer {
                    self.log.reserve(lsn, kind, length);
                    self.turn = Turn::Open(lsn);
                }
            }
            Command::Complete { lsn } => {
                self.since.push(lsn);
                if self.turn == Turn::Open(lsn) {
                    self.turn = Turn::Complete(lsn);
                }
            }
            Command::Force { lsn, frequency } => {
                let same = frequency == self.frequency || variant == Some(Variant::AnyFrequency);
                let completed = self.turn == Turn::Complete(lsn)
                    || self.turn == Turn::Open(lsn) && variant == Some(Variant::ForcedFirst);
                if same && completed {
                    self.turn = Turn::Free;
                }
            }
            // Reserved, completed and forced at once.
            Command::Append { kind, frequency, ref bytes } => {
                if let Answer::Appended { lsn, .. } = plan.answer {
                    self.log.reserve(lsn, kind, bytes.len() as u64);
                    self.since.push(lsn);
                    let same =
                        frequency == self.frequency || variant == Some(Variant::AnyFrequency);
                    self.turn = if same { Turn::Free } else { Turn::Complete(lsn) };
                }
            }
            Command::Release { lsn } if done > 0 => self.log.begin_release(lsn),
            Command::ReleaseAll if done > 0 => self.log.begin_release_all(),
            Command::Recover if !fails => {
                self.turn = Turn::Free;
                if variant != Some(Variant::SinceFormatting) {
                    self.since.clear();
                }
            }
            _ => {}
        }
        if fails {
            self.turn = Turn::Free;
        }
    }

    /// Those of `since`, no release begun, that the walk of an image does not list.
    fn missing(&self, image: &[u64]) -> Result<Vec<u64>, String> {
        let (records, _end) =
            walk(image).map_err(|refusal| format!("the walk is refused: {refusal:?}"))?;
        let is_listed = |lsn: u64| {
            records.iter().any(|record| record.lsn == lsn && record.mark != MARK_RELEASED)
        };
        let is_missing = |lsn: &u64| !self.log.release_begun(*lsn) && !is_listed(*lsn);
        Ok(self.since.iter().copied().filter(is_missing).collect())
    }
}

// ---------------------------------------------------------------- one history

/// A log on one device.
struct Log {
    image: Vec<u64>,
    device: Device,
    state: State,
    /// Power failed, and no recovery has succeeded uncut since.
    down: bool,
}

struct History<'a> {
    rng: Rng,
    variant: Option<Variant>,
    report: &'a mut Report,
    lengths: Vec<u64>,
    /// One call in so many is not the next one of the discipline; power fails in one of so many.
    others: u64,
    failures: u64,
    /// Whether F stays the same over recoveries.
    steady: bool,
    /// Whether this life left a force out.
    left_out: bool,
    story: Vec<String>,
}

impl<'a> History<'a> {
    fn new(variant: Option<Variant>, seed: u64, report: &'a mut Report) -> Self {
        let mut rng = Rng::new(seed);
        let lengths = (0..rng.between(1, 2)).map(|_| rng.pick(&[0, 0, 1, 8, 9, 16])).collect();
        let (others, failures) = (rng.pick(&[3, 6, 20, 200]), rng.pick(&[10, 40, 100]));
        let steady = rng.chance(1, 2) || variant == Some(Variant::SinceFormatting);
        let (left_out, story) = (false, Vec::new());
        History { rng, variant, report, lengths, others, failures, steady, left_out, story }
    }

    fn run(&mut self) -> Result<(), String> {
        let frequency = self.frequency();
        let longest = self.lengths.iter().copied().max().unwrap_or(0);
        let records = frequency + self.rng.between(1, 12);
        let room = records * record_size(longest) + 1 + self.rng.below(8);
        let words = (FIRST_RING_WORD + room).max(MIN_IMAGE_WORDS);
        let mut image: Vec<u64> = (0..words).map(|_| self.rng.next_u64()).collect();
        // Each formatting finds what the life before it left.
        for _ in 0..self.rng.between(1, 3) {
            self.story = vec![format!("format, {words} words; F is {frequency}")];
            self.left_out = false;
            let mut log = format(&image)?;
            let (turn, since) = (Turn::Free, Vec::new());
            let mut account = Account { frequency, turn, since, log: AbstractLog::default() };
            for _ in 0..self.rng.between(20, 160) {
                self.step(&mut log, &mut account)?;
            }
            image = crash_image(&mut self.rng, &log.device);
        }
        Ok(())
    }

    fn frequency(&mut self) -> u64 {
        match self.variant {
            Some(Variant::FrequencyZero) => 0,
            _ => self.rng.between(1, MOST as u64),
        }
    }

    // ------------------------------------------------------------ events

    fn step(&mut self, log: &mut Log, account: &mut Account) -> Result<(), String> {
        let call = self.choose(log, account);
        let state = match call {
            Command::Recover => &State::default(),
            _ => &log.state,
        };
        let short = self.rng.chance(1, 30);
        let plan = match plan_call(&log.image, state, &call) {
            Ok(plan) if !(short && !plan.ops.is_empty()) => plan,
            refused => {
                self.refused(log, &call, refused.err().map_or(15, |refusal| refusal.number()));
                return Ok(());
            }
        };
        let record = matches!(call, Command::Reserve { .. } | Command::Append { .. });
        if record && account.turn != Turn::Free {
            return Ok(()); // it would be granted out of turn
        }
        let over = account.turn == Turn::Free && log.state.capacity > 0;
        let over = over && !matches!(call, Command::Complete { .. } | Command::Append { .. });
        self.look_inside(log, account, &call, &plan, over)?;
        if self.rng.chance(1, self.failures) {
            self.power_fails(log, account, &call, plan)
        } else {
            self.carry_out(log, account, &call, plan)
        }
    }

    /// Nothing changes, but perhaps the caller goes on with the state that a refused recovery returns.
    fn refused(&mut self, log: &mut Log, call: &Command, number: u64) {
        self.report.refused += 1;
        self.story.push(format!("{call:?}: refused {number}"));
        if *call == Command::Recover && self.rng.chance(1, 4) {
            log.state = State::default();
        }
    }

    fn carry_out(
        &mut self,
        log: &mut Log,
        account: &mut Account,
        call: &Command,
        plan: PlannedCall,
    ) -> Result<(), String> {
        let all = plan.ops.len();
        account.feed(self.variant, call, &plan, all, false);
        self.story.push(format!("{call:?}: {:?}, {all} ops", plan.answer));
        store_all(&mut log.image, &plan.ops);
        plan.ops.iter().for_each(|&op| log.device.carry_out(op));
        log.state = plan.state;
        if *call == Command::Recover {
            log.down = false;
            self.report.recoveries += 1;
            if !self.steady {
                account.frequency = self.frequency();
                self.story.push(format!("F is {}", account.frequency));
            }
        }
        let over = account.turn == Turn::Free && log.state.capacity > 0;
        self.judge(account, &log.image, over)
    }

    fn power_fails(
        &mut self,
        log: &mut Log,
        account: &mut Account,
        call: &Command,
        plan: PlannedCall,
    ) -> Result<(), String> {
        let done = self.rng.below(plan.ops.len() as u64 + 1) as usize;
        self.report.power_failures += 1;
        account.feed(self.variant, call, &plan, done, true);
        self.story.push(format!("{call:?}: power fails after {done} of {} ops", plan.ops.len()));
        plan.ops[..done].iter().for_each(|&op| log.device.carry_out(op));
        log.image = crash_image(&mut self.rng, &log.device);
        log.device = Device::new(&log.image);
        log.state = State::default();
        log.down = true;
        self.judge(account, &log.image, false)
    }

    // ------------------------------------------------------------ choosing calls

    fn choose(&mut self, log: &Log, account: &mut Account) -> Command {
        if log.down || log.state.capacity == 0 && self.rng.chance(1, 2) {
            return Command::Recover;
        }
        if self.rng.chance(1, self.others) {
            return self.choose_other(&log.state, account);
        }
        let frequency = account.frequency;
        match account.turn {
            Turn::Free => self.choose_record(&log.state, frequency),
            Turn::Open(lsn) if self.variant == Some(Variant::ForcedFirst) => {
                match self.rng.chance(1, 2) {
                    true => Command::Force { lsn, frequency },
                    false => Command::Complete { lsn },
                }
            }
            Turn::Open(lsn) => match log.state.entry(lsn).length {
                length @ 1.. if self.rng.chance(1, 4) => self.choose_copy(lsn, length),
                _ => Command::Complete { lsn },
            },
            Turn::Complete(_) if self.leaves_out() => {
                account.turn = Turn::Free;
                self.story.push("its force is left out".to_string());
                self.choose_record(&log.state, frequency)
            }
            Turn::Complete(lsn) => Command::Force { lsn, frequency },
        }
    }

    fn leaves_out(&mut self) -> bool {
        let may = self.variant == Some(Variant::ForceLeftOut) && !self.left_out;
        let leaves = may && self.rng.chance(1, 8);
        self.left_out |= leaves;
        leaves
    }

    /// A record, reserved or appended, or where there is no room what gives some: the oldest released, or all forced.
    fn choose_record(&mut self, state: &State, frequency: u64) -> Command {
        let length = self.rng.pick(&self.lengths);
        if state.used_words() + record_size(length) < state.capacity {
            let kind = self.rng.between(1, MAX_KIND);
            if self.rng.chance(1, 3) {
                return Command::Append { kind, frequency, bytes: self.rng.bytes(length) };
            }
            return Command::Reserve { kind, length };
        }
        match state.live().find(|&lsn| state.entry(lsn).stage == Stage::Committed) {
            Some(lsn) => Command::Release { lsn },
            None => Command::Force { lsn: state.next_lsn.saturating_sub(1), frequency: 1 },
        }
    }

    fn choose_copy(&mut self, lsn: u64, length: u64) -> Command {
        let offset = self.rng.below(length + 1);
        let count = self.rng.below(length - offset + 1);
        Command::Copy { lsn, offset, bytes: self.rng.bytes(count) }
    }

    /// Any call with any numbers, often refused. A record that would be granted out of turn is not made.
    fn choose_other(&mut self, state: &State, account: &Account) -> Command {
        let rng = &mut self.rng;
        let lsn = match rng.chance(7, 8) {
            true => rng.between(state.head_lsn, state.next_lsn),
            false => rng.below(100),
        };
        match rng.below(13) {
            12 => {
                let bytes = rng.bytes(0);
                Command::Append { kind: rng.below(2), frequency: rng.below(MOST as u64 + 2), bytes }
            }
            0..=2 => Command::Release { lsn },
            3 => Command::ReleaseAll,
            4 | 5 => Command::Force { lsn, frequency: rng.below(MOST as u64 + 2) },
            6 => Command::Force { lsn, frequency: account.frequency },
            7 => Command::Recover,
            8 => Command::Reserve { kind: rng.below(2), length: rng.pick(&[0, 8, 1_024, 1_025]) },
            9 => Command::Complete { lsn },
            _ => self.choose_copy(lsn, 16),
        }
    }

    // ------------------------------------------------------------ judging

    /// What may be left if power fails in a call: after none of its ops, after all of them, and somewhere between.
    fn look_inside(
        &mut self,
        log: &Log,
        account: &Account,
        call: &Command,
        plan: &PlannedCall,
        over: bool,
    ) -> Result<(), String> {
        let all = plan.ops.len();
        let looked_at = [0, self.rng.below(all as u64 + 1) as usize, all];
        let mut device = log.device.clone();
        for done in 0..=all {
            if looked_at.contains(&done) {
                let mut then = account.clone();
                then.feed(self.variant, call, plan, done, true);
                let flushed = device.crash_image(|_, _| 0);
                let mixed = crash_image(&mut self.rng, &device);
                for image in [flushed, mixed] {
                    self.judge(&then, &image, over).map_err(|what| {
                        format!("{call:?}, power failing after {done} of {all} ops: {what}")
                    })?;
                }
            }
            if let Some(&op) = plan.ops.get(done) {
                device.carry_out(op);
            }
        }
        Ok(())
    }

    /// `over`: the newest record's own force is over.
    fn judge(&mut self, account: &Account, image: &[u64], over: bool) -> Result<(), String> {
        let missing = account.missing(image)?;
        let (lost, frequency) = (missing.len(), account.frequency as usize);
        if let Some(measured) = frequency.checked_sub(1).map(|i| &mut self.report.measured[i]) {
            measured.images += 1;
            measured.most_lost = measured.most_lost.max(lost);
            measured.reached += u64::from(lost == frequency);
        }
        // A variant has to break the promise itself.
        let fewer = over && self.variant.is_none() || self.variant == Some(Variant::OneFewer);
        let bound = if fewer { frequency - 1 } else { frequency };
        let since = &account.since;
        if lost > bound {
            return Err(format!("F is {frequency}; of {since:?} {missing:?} are missing"));
        }
        if !since.ends_with(&missing) {
            return Err(format!("{missing:?} are missing, and not the newest of {since:?}"));
        }
        Ok(())
    }
}

/// A log freshly formatted, all ops carried out.
fn format(old: &[u64]) -> Result<Log, String> {
    let plan = plan_format(old).map_err(|refusal| format!("format is refused: {refusal:?}"))?;
    let (mut image, mut device) = (old.to_vec(), Device::new(old));
    store_all(&mut image, &plan.ops);
    plan.ops.iter().for_each(|&op| device.carry_out(op));
    Ok(Log { image, device, state: plan.state, down: false })
}
