//! The crash bench: random histories on a device that loses power.
//!
//! The log under test is a replay program (REPLAY.md) in a child process. The bench carries the ops that
//! its lines report out on a device of its own, cuts power after any number of a call's ops, and puts
//! images that the device may then hold back into the program. What the program recovers and reads
//! there has to satisfy demand 3, judged by the bench's own abstract log, and each record has to have the epoch of the state that
//! completed it.
//!
//! Between the calls there are ops that another unit made and that passed (slip 12): all carried out, or power fails after any of
//! them. The same is owed, and each image that is left has to read like one that power could have left just before them.
//!
//! Two children run the same program: the subject goes through the history, the prober is only given
//! crash images. So a history can be looked at after every op without being ended by it.

use crate::abstract_log::{AbstractLog, Completions, WalkedRecord};
use crate::calls::{fetch, walk, Cursor, Record};
use crate::device::Device;
use crate::gen::roomy_op_buffer;
use crate::layout::{
    record_check, record_size, CheckWord, Header, Ring, FIRST_RING_WORD, HEADER_WORDS,
    MARK_COMMITTED, MARK_RELEASED, MAX_KIND, NAMING_BYTES, OLD_TABLE_SIZE, REPLACEMENT_KIND,
    TABLE_SIZE,
};
use crate::ops::{Op, OP_WORDS};
use crate::refusal::Refusal;
use crate::replay::stage_numbered;
use crate::rng::Rng;
use crate::script::{digest, Answer, Command, Outcome};
use crate::state::{Entry, Stage, State};
use crate::vet::{free_words, ops_of, vet_by, Rule};
use std::collections::BTreeSet;
use std::io::{self, BufRead, BufReader, BufWriter, Write};
use std::path::PathBuf;
use std::process::{Child, ChildStdin, ChildStdout, Command as Process, Stdio};
use std::sync::mpsc;
use std::thread;
use std::time::{Duration, Instant};

/// Ops of a successful recover.
const RECOVER_OPS: usize = 11;
const RECOVER_WORDS: u64 = (OP_WORDS * RECOVER_OPS) as u64;

const FIRST_ANSWER_WITHIN: Duration = Duration::from_secs(10);

/// A program that speaks REPLAY.md on standard input and output.
#[derive(Clone, Debug)]
pub struct Program {
    pub path: PathBuf,
    pub args: Vec<String>,
}

#[derive(Clone, Debug, Default)]
pub struct Report {
    pub histories: u64,
    pub crashes: u64,
    /// How many of these were in an append, after at least one of its ops.
    pub append_crashes: u64,
    pub images: u64,
    /// The most records that a crash image held, and the most different epochs.
    pub most_records: usize,
    pub most_epochs: usize,
    /// Crash images with records from before slip 8 before others.
    pub with_stored: u64,
    /// Op buffers of another unit that passed, and how many of them power failed in, or might have.
    pub passed: u64,
    pub passed_crashes: u64,
    pub failure: Option<Failure>,
}

#[derive(Clone, Debug)]
pub struct Failure {
    /// Starting the bench with this seed meets the failure in its first history.
    pub seed: u64,
    pub what: String,
}

/// Runs histories with the seeds from `seed` on, until time is up or one fails.
pub fn crash_bench(program: &Program, seed: u64, time: Duration) -> io::Result<Report> {
    crash_bench_by(program, free_words, seed, time)
}

/// The same where another unit's ops pass by another rule.
pub fn crash_bench_by(
    program: &Program,
    rule: Rule,
    seed: u64,
    time: Duration,
) -> io::Result<Report> {
    let start = Instant::now();
    let mut subject = Replayer::start(program)?;
    let mut prober = Replayer::start(program)?;
    let mut report = Report::default();
    while report.failure.is_none() && start.elapsed() < time {
        let seed = seed.wrapping_add(report.histories);
        report.histories += 1;
        let mut history = History::new(seed, rule, &mut subject, &mut prober, &mut report);
        if let Err(what) = history.run() {
            report.failure = Some(Failure { seed, what });
        }
    }
    Ok(report)
}

// ---------------------------------------------------------------- the program under test

struct Replayer {
    process: Child,
    input: BufWriter<ChildStdin>,
    output: BufReader<ChildStdout>,
    /// What the program's image holds.
    image: Vec<u64>,
}

impl Replayer {
    fn start(program: &Program) -> io::Result<Replayer> {
        let mut process = Process::new(&program.path)
            .args(&program.args)
            .stdin(Stdio::piped())
            .stdout(Stdio::piped())
            .spawn()?;
        let missing = || io::Error::other("the child has no pipe");
        let mut input = process.stdin.take().ok_or_else(missing)?;
        let output = process.stdout.take().ok_or_else(missing)?;
        let Some(output) = first_answer(&mut input, output)? else {
            let _ = process.kill();
            let _ = process.wait();
            return Err(io::Error::other("the program does not answer each command at once"));
        };
        Ok(Replayer { process, input: BufWriter::new(input), output, image: Vec::new() })
    }

    /// Sends commands and reads the line of each that has one.
    fn ask(&mut self, commands: &[Command]) -> Result<Vec<String>, String> {
        let words = commands.iter().flat_map(Command::encode);
        let bytes: Vec<u8> = words.flat_map(u64::to_le_bytes).collect();
        let sent = self.input.write_all(&bytes).and_then(|()| self.input.flush());
        sent.map_err(|error| format!("the program takes no commands: {error}"))?;
        let mut lines = Vec::new();
        for _ in commands.iter().filter(|command| command.answers()) {
            let mut line = String::new();
            let read = self.output.read_line(&mut line);
            let count = read.map_err(|error| format!("the program gives no lines: {error}"))?;
            if count == 0 || line.pop() != Some('\n') {
                return Err("the program ended".to_string());
            }
            lines.push(line);
        }
        Ok(lines)
    }

    /// As `ask`, for calls only: gives their answers and keeps track of the image.
    fn calls(&mut self, commands: &[Command]) -> Result<Vec<Answer>, String> {
        let lines = self.ask(commands)?;
        let answers: Result<Vec<Answer>, String> = lines
            .iter()
            .map(|line| Answer::parse(line).ok_or_else(|| format!("not an answer: {line}")))
            .collect();
        let answers = answers?;
        for answer in &answers {
            self.follow(answer)?;
        }
        Ok(answers)
    }

    fn call(&mut self, command: &Command) -> Result<Answer, String> {
        let mut answers = self.calls(std::slice::from_ref(command))?;
        answers.pop().ok_or_else(|| format!("no answer: {command:?}"))
    }

    /// The ops must fit the image, and their stores must be what changed it.
    fn follow(&mut self, answer: &Answer) -> Result<(), String> {
        let name = &answer.name;
        let words = self.image.len() as u64;
        for op in &answer.ops {
            let inside = match *op {
                Op::Store { word, .. } => word < words,
                Op::Flush { first, count } => {
                    first.checked_add(count).is_some_and(|end| end <= words)
                }
            };
            if !inside {
                return Err(format!("{name}: {op:?} is not on the device"));
            }
            if let Op::Store { word, value } = *op {
                self.image[word as usize] = value;
            }
        }
        if answer.digests.first() != Some(&digest(self.image.iter().copied())) {
            return Err(format!("{name}: the working image is not what the ops make of it"));
        }
        Ok(())
    }

    /// Commands that put this image in.
    fn load(&mut self, image: &[u64]) -> Vec<Command> {
        let mut commands = Vec::new();
        if self.image.len() != image.len() {
            commands.push(Command::Image { words: image.len() as u64, value: 0 });
            self.image = vec![0; image.len()];
        }
        for (word, (&new, old)) in (0..).zip(image.iter().zip(&mut self.image)) {
            if new != *old {
                commands.push(Command::Poke { word, value: new });
                *old = new;
            }
        }
        commands
    }
}

/// Asks for the state and waits for it. `None` if the program waits too: for the end of its input.
fn first_answer(
    input: &mut ChildStdin,
    output: ChildStdout,
) -> io::Result<Option<BufReader<ChildStdout>>> {
    let words = Command::State.encode();
    let bytes: Vec<u8> = words.into_iter().flat_map(u64::to_le_bytes).collect();
    input.write_all(&bytes)?;
    let (sender, receiver) = mpsc::channel();
    thread::spawn(move || {
        let mut output = BufReader::new(output);
        if output.read_line(&mut String::new()).is_ok() {
            // Nobody may be waiting any more.
            let _ = sender.send(output);
        }
    });
    Ok(receiver.recv_timeout(FIRST_ANSWER_WITHIN).ok())
}

impl Drop for Replayer {
    fn drop(&mut self) {
        let _ = self.process.kill();
        let _ = self.process.wait();
    }
}

// ---------------------------------------------------------------- one history

/// What records are held against.
#[derive(Clone, Default)]
struct Promises {
    log: AbstractLog,
    completions: Completions,
}

impl Promises {
    fn feed(&mut self, call: &Command, answer: &Answer, ops_done: usize, epoch: u64) {
        self.log.feed(call, answer, ops_done);
        self.completions.feed(call, answer, ops_done, epoch);
    }

    fn check(&self, walked: &[WalkedRecord]) -> Result<(), String> {
        self.log.check(walked)?;
        self.completions.check(walked)
    }
}

struct History<'a> {
    rng: Rng,
    /// By which another unit's ops pass.
    rule: Rule,
    subject: &'a mut Replayer,
    prober: &'a mut Replayer,
    report: &'a mut Report,
    device: Device,
    promises: Promises,
    /// What the epoch of the subject's state has to be.
    epoch: u64,
    /// Lengths this history uses. A few only, so that old and new records come to lie alike.
    lengths: Vec<u64>,
    /// Whether records are seldom released and power fails more often, so that records of several runs stand behind one another.
    keeps: bool,
    /// Whether the log is still that of a program from before slip 8, up to a crash.
    begins_old: bool,
    /// Steps the last walk took, likely those the next one takes.
    usual_walk: usize,
}

impl<'a> History<'a> {
    fn new(
        seed: u64,
        rule: Rule,
        subject: &'a mut Replayer,
        prober: &'a mut Replayer,
        report: &'a mut Report,
    ) -> Self {
        History {
            rng: Rng::new(seed),
            rule,
            subject,
            prober,
            report,
            device: Device::new(&[]),
            promises: Promises::default(),
            epoch: 0,
            lengths: Vec::new(),
            keeps: false,
            begins_old: false,
            usual_walk: 1,
        }
    }

    fn run(&mut self) -> Result<(), String> {
        if self.rng.chance(1, 16) {
            return self.run_with_many_records();
        }
        self.keeps = self.rng.chance(1, 4);
        let words = if self.rng.chance(1, 16) {
            self.rng.between(100, 400)
        } else if self.keeps {
            self.rng.between(80, 160)
        } else {
            self.rng.between(40, 72)
        };
        let lengths = [0, 0, 1, 3, 8, 9, 12, 16, 24, 30, 32, 40, 64, 96];
        let lengths = if self.keeps { &lengths[..8] } else { &lengths[..] };
        self.lengths = (0..self.rng.between(1, 4)).map(|_| self.rng.pick(lengths)).collect();
        if words >= 200 {
            self.lengths.push(self.rng.pick(&[200, 500, 1_023, 1_024]));
        }
        let steps = self.rng.between(8, 50);

        self.start_over(words)?;
        // Each formatting finds what the life before it left.
        for _ in 0..self.rng.between(1, 4) {
            self.format()?;
            for _ in 0..steps {
                self.step(false)?;
                if self.rng.chance(1, 6) {
                    self.another_units_ops(Effort::FULL, Effort::SMALL)?;
                }
            }
        }
        Ok(())
    }

    /// Small records in a log of 300 to 1,100 words: more than the old table took, up to a full table, and again after all are
    /// released, so that the live ones go round the end of the table.
    fn run_with_many_records(&mut self) -> Result<(), String> {
        let (old, most) = (OLD_TABLE_SIZE as u64, TABLE_SIZE as u64);
        let wanted = match self.rng.below(4) {
            0 => most,
            1 => self.rng.between(old + 41, most - 1),
            _ => self.rng.between(old + 1, old + 40),
        };
        let longest = self.rng.pick(&[0, 8]);
        self.lengths = vec![0, longest];
        let room = record_size(longest) * wanted + 1;
        let words = (FIRST_RING_WORD + room + self.rng.below(20)).max(300);

        self.start_over(words)?;
        self.format()?;
        for _ in 0..self.rng.between(2, 3) {
            self.fill(wanted)?;
            for _ in 0..30 {
                self.step(true)?;
                if self.rng.chance(1, 24) {
                    self.another_units_ops(Effort::FEW, Effort::FEW)?;
                }
            }
        }
        Ok(())
    }

    /// Reserves and completes, or appends, until so many records are live, in calls that power does not fail in; mostly all others are
    /// given up before, if they can be, and now and then what there is is forced.
    fn fill(&mut self, wanted: u64) -> Result<(), String> {
        if self.rng.chance(2, 3) {
            self.undisturbed(&Command::ReleaseAll)?; // refused if some are not durable
        }
        let view = self.view()?;
        let live = view.state.next_lsn - view.state.head_lsn;
        for i in live..wanted {
            let length = self.rng.pick(&self.lengths);
            let kind = self.rng.between(1, MAX_KIND);
            if self.rng.chance(1, 4) {
                // Deferred up to a multiple of 256.
                let bytes = self.rng.bytes(length);
                let append = Command::Append { kind, frequency: TABLE_SIZE as u64, bytes };
                if self.undisturbed(&append)?.is_refused() {
                    break;
                }
                continue;
            }
            let answer = self.undisturbed(&Command::Reserve { kind, length })?;
            let Some(&[lsn, _position]) = answer.numbers("ok") else {
                break;
            };
            self.undisturbed(&Command::Complete { lsn })?;
            if self.rng.chance(1, 16) && i + 8 < wanted {
                self.undisturbed(&Command::Force { lsn, frequency: 1 })?;
            }
        }
        Ok(())
    }

    /// A call whose ops are all carried out.
    fn undisturbed(&mut self, call: &Command) -> Result<Answer, String> {
        let answer = self.call(call)?;
        self.carry_out(&answer.ops);
        self.promises.feed(call, &answer, answer.ops.len(), self.epoch);
        Ok(answer)
    }

    /// A call on the subject. Formatting starts its epochs at 1, and a recovery goes one beyond the superline's that it finds.
    fn call(&mut self, call: &Command) -> Result<Answer, String> {
        let found = superline_epoch(&self.subject.image);
        let answer = self.subject.call(call)?;
        match call {
            Command::Format if !answer.is_refused() => self.epoch = 1,
            Command::Recover if !answer.is_refused() => self.epoch = found.wrapping_add(1),
            _ => {}
        }
        Ok(answer)
    }

    fn view(&mut self) -> Result<StateView, String> {
        let state = self.subject.ask(&[Command::State])?;
        let view = StateView::parse(&state[0]);
        let view = view.ok_or_else(|| format!("not a state: {}", state[0]))?;
        if view.state.epoch != self.epoch {
            return Err(format!(
                "the state's epoch is {} instead of {}",
                view.state.epoch, self.epoch
            ));
        }
        Ok(view)
    }

    /// The same beginning for every history: any old image, no state.
    fn start_over(&mut self, words: u64) -> Result<(), String> {
        let value = self.rng.next_u64();
        let image = match self.rng.below(3) {
            0 => vec![0; words as usize],
            1 => vec![value; words as usize],
            _ => (0..words).map(|_| self.rng.next_u64()).collect(),
        };
        let mut commands: Vec<Command> =
            (0..8).map(|field| Command::Field { field, value: 0 }).collect();
        for index in 0..TABLE_SIZE as u64 {
            let (position, length, kind, stage, epoch) = (0, 0, 0, 0, 0);
            commands.push(Command::Entry { index, position, length, kind, stage, epoch });
        }
        commands.push(Command::Cursor(Cursor::default()));
        commands.push(Command::OpBuffer { words: roomy_op_buffer(words), value: 0 });
        for replayer in [&mut *self.subject, &mut *self.prober] {
            replayer.ask(&commands)?;
            let load = replayer.load(&image);
            replayer.ask(&load)?;
        }
        Ok(())
    }

    /// A cut inside formatting is promised nothing, so there is none.
    fn format(&mut self) -> Result<(), String> {
        self.begins_old = self.rng.chance(1, 3);
        self.device = Device::new(&self.subject.image);
        let answer = self.call(&Command::Format)?;
        if answer.is_refused() {
            return Err(format!("format is refused: {:?}", answer.outcome));
        }
        self.carry_out(&answer.ops);
        self.promises.feed(&Command::Format, &answer, answer.ops.len(), self.epoch);
        Ok(())
    }

    fn carry_out(&mut self, ops: &[Op]) {
        ops.iter().for_each(|&op| self.device.carry_out(op));
    }

    /// One call, which power may fail in.
    fn step(&mut self, many_records: bool) -> Result<(), String> {
        let view = self.view()?;
        let call = self.choose(&view);
        let answer = self.call(&call)?;
        let all = answer.ops.len();
        let some = self.rng.below(all as u64 + 1) as usize;
        // Many records take long to walk.
        let (seldom, full, small) = if many_records {
            (4, Effort::FEW, Effort::FEW)
        } else {
            (1, Effort::FULL, Effort::SMALL)
        };

        let in_append = u64::from(matches!(call, Command::Append { .. }) && some > 0);
        let every = if self.keeps { 9 } else { 12 };
        if self.rng.chance(1, every * seldom) {
            self.report.append_crashes += in_append;
            self.carry_out(&answer.ops[..some]);
            self.promises.feed(&call, &answer, some, self.epoch);
            return self.crash(full).map_err(|what| describe(&call, some, all, &what));
        }
        if self.rng.chance(2, 5 * seldom) {
            // What if it failed here?
            self.report.append_crashes += in_append;
            let mut device = self.device.clone();
            answer.ops[..some].iter().for_each(|&op| device.carry_out(op));
            let mut promises = self.promises.clone();
            promises.feed(&call, &answer, some, self.epoch);
            self.probe(&device, &promises, small)
                .map_err(|what| describe(&call, some, all, &what))?;
        }
        self.carry_out(&answer.ops);
        self.promises.feed(&call, &answer, all, self.epoch);
        Ok(())
    }

    /// Ops of another unit that pass, all carried out, or power fails in them.
    fn another_units_ops(&mut self, full: Effort, small: Effort) -> Result<(), String> {
        let state = self.view()?.state;
        let mut op_buffer = self.choose_ops(&state);
        // What does not pass is left out.
        while let Err(refusal) = vet_by(self.rule, &state, &self.subject.image, &op_buffer) {
            let Refusal::BadOp { number } = refusal else {
                return Err(format!("a state that calls left is refused: {refusal:?}"));
            };
            let first = OP_WORDS * number as usize;
            op_buffer.drain(first..op_buffer.len().min(first + OP_WORDS));
        }
        self.report.passed += 1;
        let ops = ops_of(&op_buffer);
        let all = ops.len();
        let some = self.rng.below(all as u64 + 1) as usize;
        let describe = |what: String| {
            format!("power fails after {some} of another unit's ops {ops:?}: {what}")
        };
        let before = self.device.clone();
        let fails = self.rng.chance(1, 4);
        if fails || self.rng.chance(1, 2) {
            self.report.passed_crashes += 1;
            let mut device = before.clone();
            ops[..some].iter().for_each(|&op| device.carry_out(op));
            let effort = if fails { full } else { small };
            let images = self.probe(&device, &self.promises.clone(), effort);
            for image in images.map_err(describe)? {
                reads_like_before(&before, &image).map_err(describe)?;
            }
        }
        if fails {
            self.carry_out(&ops[..some]);
            return self.crash(full).map_err(describe);
        }
        self.carry_out(&ops);
        let image = self.device.newest();
        let load = self.subject.load(&image);
        self.subject.ask(&load)?;
        Ok(())
    }

    /// Power fails, and perhaps again while recovering.
    fn crash(&mut self, effort: Effort) -> Result<(), String> {
        loop {
            let mut images = self.probe(&self.device.clone(), &self.promises.clone(), effort)?;
            let mut image = images.swap_remove(self.rng.below(images.len() as u64) as usize);
            if self.begins_old {
                self.begins_old = self.rng.chance(1, 2);
                self.forget_epochs(&mut image)?;
            }
            self.device = Device::new(&image);
            let load = self.subject.load(&image);
            self.subject.ask(&load)?;
            if self.rng.chance(1, 4) {
                self.recover_with_short_op_buffer_on_subject()?;
            }
            let answer = self.call(&Command::Recover)?;
            expect_recovered(&answer)?;
            let all = answer.ops.len();
            let cut = self.rng.chance(1, 3);
            let some = if cut { self.rng.below(all as u64 + 1) as usize } else { all };
            self.carry_out(&answer.ops[..some]);
            self.promises.feed(&Command::Recover, &answer, some, self.epoch);
            if !cut {
                return Ok(());
            }
        }
    }

    /// All that happened so far was the work of a program from before slip 8, which has the same words but for the epochs.
    fn forget_epochs(&mut self, image: &mut [u64]) -> Result<(), String> {
        let (records, _) = walk(image).map_err(|refusal| format!("no walk: {refusal:?}"))?;
        let ring = Ring::of_image(image).ok_or("not the size of an image")?;
        for record in records {
            let word = &mut image[ring.word(record.position, 2) as usize];
            *word = CheckWord { epoch: 0, ..CheckWord::of_word(*word) }.word();
        }
        self.promises.completions.forget_epochs();
        self.check_image(image, &self.promises.clone())
    }

    fn recover_with_short_op_buffer_on_subject(&mut self) -> Result<(), String> {
        let words = self.rng.below(RECOVER_WORDS);
        let roomy = roomy_op_buffer(self.subject.image.len() as u64);
        let answers = self.subject.calls(&[
            Command::OpBuffer { words, value: 1 },
            Command::Recover,
            Command::OpBuffer { words: roomy, value: 0 },
        ])?;
        expect_short(&answers[0])
    }

    /// Tries images that a crash of this device can leave, and gives them.
    fn probe(
        &mut self,
        device: &Device,
        promises: &Promises,
        effort: Effort,
    ) -> Result<Vec<Vec<u64>>, String> {
        self.report.crashes += 1;
        let images = crash_images(&mut self.rng, &device.crash_values(), effort);
        for image in &images {
            self.report.images += 1;
            self.check_image(image, promises)?;
        }
        Ok(images)
    }

    /// Demand 3 for one crash image, and its records' epochs.
    fn check_image(&mut self, image: &[u64], promises: &Promises) -> Result<(), String> {
        let load = self.prober.load(image);
        let (_, mut walked) = self.walk_after(load)?;

        let mut commands = fetches(&walked);
        let short_first = self.rng.chance(1, 4);
        if short_first {
            let words = self.rng.below(RECOVER_WORDS);
            commands.extend([Command::OpBuffer { words, value: 1 }, Command::Recover]);
        }
        commands.extend([Command::OpBuffer { words: RECOVER_WORDS, value: 2 }, Command::Recover]);
        let (answers, mut left) = self.walk_after(commands)?;
        let (fetched, recovered) = answers.split_at(walked.len());
        take_bytes(&mut walked, fetched)?;
        promises.check(&walked)?;
        self.report.most_records = self.report.most_records.max(walked.len());
        let epochs: BTreeSet<u64> = walked.iter().map(|record| record.epoch).collect();
        self.report.most_epochs = self.report.most_epochs.max(epochs.len());
        self.report.with_stored += u64::from(epochs.len() > 1 && epochs.contains(&0));
        if short_first {
            expect_short(&recovered[0])?;
        }
        expect_recovered(&recovered[recovered.len() - 1])?;

        // Recovering takes nothing away but leading released records.
        let fetched = self.prober.calls(&fetches(&left))?;
        take_bytes(&mut left, &fetched)?;
        let kept = walked.iter().skip_while(|record| record.mark == MARK_RELEASED);
        if !kept.eq(&left) {
            return Err(format!("walked before recover: {walked:?}, after: {left:?}"));
        }
        Ok(())
    }

    /// Sends `commands`, then walks from open on. Gives the answers of `commands` and the records
    /// walked, their bytes still to be fetched.
    fn walk_after(
        &mut self,
        mut commands: Vec<Command>,
    ) -> Result<(Vec<Answer>, Vec<WalkedRecord>), String> {
        let before = commands.iter().filter(|command| command.answers()).count();
        commands.push(Command::Open);
        // At the end next stays there, so some too many do no harm.
        commands.resize(commands.len() + self.usual_walk, Command::Next);
        let mut answers = self.prober.calls(&commands)?;
        let mut steps = answers.split_off(before);
        let opened = steps.remove(0);
        if opened.numbers("ok").is_none() {
            return Err(format!("open is refused: {:?}", opened.outcome));
        }
        let mut walked = Vec::new();
        loop {
            for answer in &steps {
                match (&answer.outcome, answer.numbers("record")) {
                    (_, Some(&[position, lsn, kind, length, mark, epoch])) => {
                        walked.push(WalkedRecord {
                            position,
                            lsn,
                            kind,
                            length,
                            mark,
                            epoch,
                            bytes_digest: 0,
                        });
                    }
                    (Outcome::Done { word, .. }, _) if word == "end" => {
                        self.usual_walk = walked.len() + 1;
                        return Ok((answers, walked));
                    }
                    (outcome, _) => return Err(format!("the walk ends with {outcome:?}")),
                }
            }
            if walked.len() > TABLE_SIZE {
                return Err("the walk does not end".to_string());
            }
            steps = self.prober.calls(&[Command::Next, Command::Next])?;
        }
    }

    // ------------------------------------------------------------ choosing calls

    fn choose(&mut self, view: &StateView) -> Command {
        let open = view.in_stage(Stage::Open);
        let committed = view.in_stage(Stage::Committed);
        let forceable = view.forceable();
        let keeps = self.keeps;
        let rng = &mut self.rng;
        match rng.below(20) {
            0..=3 if !open.is_empty() => {
                let lsn = rng.pick(&open);
                self.choose_copy(lsn, view)
            }
            4..=8 if keeps && !open.is_empty() => Command::Complete { lsn: open[0] },
            4..=8 if !open.is_empty() => Command::Complete { lsn: rng.pick(&open) },
            9..=11 if !forceable.is_empty() => {
                let lsn = rng.pick(&forceable);
                let frequency = if rng.chance(2, 3) { 1 } else { rng.between(1, 9) };
                Command::Force { lsn, frequency }
            }
            12..=15 if keeps && !forceable.is_empty() => {
                Command::Force { lsn: forceable[forceable.len() - 1], frequency: 1 }
            }
            12..=14 if !committed.is_empty() && (!keeps || rng.chance(1, 9)) => {
                Command::Release { lsn: rng.pick(&committed) }
            }
            15 if rng.chance(1, if keeps { 40 } else { 4 }) => Command::ReleaseAll,
            17 if rng.chance(1, 8) => Command::Recover, // without a crash
            18..=19 if keeps && !open.is_empty() => Command::Complete { lsn: open[0] },
            16 if rng.chance(1, 3) => {
                // Mostly refused.
                let lsn = rng.pick(&[
                    0,
                    view.state.head_lsn,
                    view.state.committed_lsn,
                    view.state.next_lsn,
                    u64::MAX,
                ]);
                match rng.below(4) {
                    0 => Command::Complete { lsn },
                    1 => Command::Force { lsn, frequency: 1 },
                    2 => Command::Release { lsn },
                    _ => Command::Copy { lsn, offset: 0, bytes: vec![1] },
                }
            }
            _ => {
                let length = rng.pick(&self.lengths);
                // Now and then even where there is no room.
                if record_size(length) < view.free_words() || rng.chance(1, 6) {
                    let replacement = length >= NAMING_BYTES && rng.chance(1, 3);
                    let kind =
                        if replacement { REPLACEMENT_KIND } else { rng.between(1, MAX_KIND) };
                    match rng.chance(1, 3) {
                        true => self.choose_append(kind, length, view),
                        false => Command::Reserve { kind, length },
                    }
                } else if !committed.is_empty() && !(keeps && (open.len() + forceable.len() > 0)) {
                    // The oldest, to make room.
                    Command::Release { lsn: committed[0] }
                } else if !open.is_empty() {
                    Command::Complete { lsn: open[0] }
                } else if let Some(&lsn) = forceable.last() {
                    Command::Force { lsn, frequency: 1 }
                } else {
                    Command::ReleaseAll
                }
            }
        }
    }

    /// Stores anywhere, mostly close to the records' edges, of values that might stand in a record, whole records among them; and
    /// flushes. Many do not pass.
    fn choose_ops(&mut self, state: &State) -> Vec<u64> {
        let rng = &mut self.rng;
        let words = FIRST_RING_WORD + state.capacity;
        let mut ops = Vec::new();
        for _ in 0..rng.between(1, 10) {
            let (kind, lsn) = (rng.between(1, MAX_KIND), state.next_lsn + rng.below(3));
            let mark = rng.pick(&[0, MARK_COMMITTED, MARK_COMMITTED, MARK_RELEASED]);
            let header = Header { length: 0, kind, mark };
            let check = record_check(0, kind, lsn, std::iter::empty());
            let last = CheckWord { check, epoch: rng.pick(&[0, state.epoch]) };
            let record = [header.word(), lsn, last.word()];
            let edge = rng.pick(&[state.head_position, state.next_position]);
            let position = match rng.below(3) {
                0 => rng.below(state.capacity),
                _ => edge + state.capacity - 3 + rng.below(6),
            };
            let word_at = |i: u64| FIRST_RING_WORD + (position + i) % state.capacity;
            match rng.below(8) {
                0 => (0..3).for_each(|i| ops.extend([1, word_at(i), record[i as usize]])),
                1 => ops.extend([1, rng.below(words), rng.next_u64()]),
                2..=4 => {
                    let any = rng.next_u64();
                    let value = rng.pick(&[0, any, record[0], record[1], record[2]]);
                    ops.extend([1, word_at(0), value]);
                }
                5 => ops.extend([2, 0, words]),
                _ => {
                    let first = rng.below(words);
                    ops.extend([2, first, rng.between(1, words - first)]);
                }
            }
        }
        ops
    }

    /// Mostly with a frequency that has its force due.
    fn choose_append(&mut self, kind: u64, length: u64, view: &StateView) -> Command {
        let mut bytes = self.rng.bytes(length);
        let (offset, part) = self.choose_part(view.state.next_lsn, length, view);
        bytes[offset as usize..][..part.len()].copy_from_slice(&part);
        let frequency = if self.rng.chance(1, 2) { 1 } else { self.rng.between(1, 9) };
        Command::Append { kind, frequency, bytes }
    }

    fn choose_copy(&mut self, lsn: u64, view: &StateView) -> Command {
        let (offset, bytes) = self.choose_part(lsn, view.length(lsn), view);
        Command::Copy { lsn, offset, bytes }
    }

    /// A part of a record's payload: any bytes, or such as look like a committed record soon to come, mostly with the state's epoch.
    fn choose_part(&mut self, lsn: u64, length: u64, view: &StateView) -> (u64, Vec<u8>) {
        let rng = &mut self.rng;
        if length >= NAMING_BYTES && rng.chance(1, 4) {
            // A live record, which a replacement then rests on.
            let named = rng.between(view.state.head_lsn, lsn);
            return (0, named.to_le_bytes().to_vec());
        }
        if length >= 8 * HEADER_WORDS && rng.chance(1, 2) {
            let later = lsn + rng.between(1, 3);
            let kind = rng.between(1, MAX_KIND);
            let header = Header { length: 0, kind, mark: MARK_COMMITTED };
            let check = record_check(0, kind, later, std::iter::empty());
            let epoch = rng.pick(&[
                0,
                view.state.epoch,
                view.state.epoch,
                view.state.epoch,
                view.state.epoch + 1,
            ]);
            let words = [header.word(), later, CheckWord { check, epoch }.word()];
            let offset = 8 * rng.below(length / 8 - HEADER_WORDS + 1);
            return (offset, words.into_iter().flat_map(u64::to_le_bytes).collect());
        }
        let offset = rng.below(length + 1);
        let count = rng.below(length - offset + 1);
        (offset, rng.bytes(count))
    }
}

/// How many of a crash's images to try.
#[derive(Clone, Copy)]
struct Effort {
    /// All, if there are at most this many,
    all_up_to: usize,
    /// else so many random ones.
    samples: usize,
}

impl Effort {
    /// For power that does fail.
    const FULL: Effort = Effort { all_up_to: 300, samples: 30 };
    /// For power that might have failed.
    const SMALL: Effort = Effort { all_up_to: 16, samples: 6 };
    /// For many records.
    const FEW: Effort = Effort { all_up_to: 4, samples: 3 };
}

/// All images, or some, that the words' values make possible.
fn crash_images(rng: &mut Rng, values: &[Vec<u64>], effort: Effort) -> Vec<Vec<u64>> {
    let total = values.iter().fold(1_usize, |total, values| total.saturating_mul(values.len()));
    if total <= effort.all_up_to {
        let image = |mut number: usize| {
            let word = |values: &Vec<u64>| {
                let digit = number % values.len();
                number /= values.len();
                values[digit]
            };
            values.iter().map(word).collect()
        };
        return (0..total).map(image).collect();
    }
    let sample = |_| {
        // Of 16 words with a choice, so many hold something newer than their flushed value.
        let newer = rng.pick(&[0, 2, 8, 8, 14, 16]);
        let newest = rng.chance(1, 3);
        let word = |values: &Vec<u64>| match values.len() as u64 {
            1 => values[0],
            _ if !rng.chance(newer, 16) => values[0],
            count if newest => values[count as usize - 1],
            count => values[rng.between(1, count - 1) as usize],
        };
        values.iter().map(word).collect()
    };
    (0..effort.samples).map(sample).collect()
}

/// An image reads like one that power could have left of this device: the same with the values that are not among the device's taken
/// back.
fn reads_like_before(before: &Device, image: &[u64]) -> Result<(), String> {
    let values = before.crash_values();
    let earlier = image.iter().zip(&values);
    let earlier: Vec<u64> = earlier
        .map(|(word, values)| if values.contains(word) { *word } else { values[0] })
        .collect();
    let (now, then) = (reading(image), reading(&earlier));
    if now != then {
        return Err(format!("reads {now:?}, and before the ops {then:?}"));
    }
    Ok(())
}

/// The records of an image with their bytes and the cursor behind them.
type Reading = (Vec<(Record, Vec<u8>)>, Cursor);

fn reading(image: &[u64]) -> Result<Reading, Refusal> {
    let (records, end) = walk(image)?;
    let with_bytes = |record: Record| {
        let mut bytes = vec![0; record.length as usize];
        fetch(image, record.position, record.length, &mut bytes)?;
        Ok((record, bytes))
    };
    let records: Result<Vec<_>, Refusal> = records.into_iter().map(with_bytes).collect();
    Ok((records?, end))
}

fn fetches(walked: &[WalkedRecord]) -> Vec<Command> {
    let fetch = |record: &WalkedRecord| {
        let &WalkedRecord { position, length, .. } = record;
        Command::Fetch { position, length, output: length }
    };
    walked.iter().map(fetch).collect()
}

/// Notes what the fetches gave.
fn take_bytes(walked: &mut [WalkedRecord], fetched: &[Answer]) -> Result<(), String> {
    for (record, answer) in walked.iter_mut().zip(fetched) {
        match answer.digests[..] {
            [_, _, _, output] if !answer.is_refused() => record.bytes_digest = output,
            _ => return Err(format!("fetch of record {} is refused", record.lsn)),
        }
    }
    Ok(())
}

fn expect_recovered(answer: &Answer) -> Result<(), String> {
    if answer.numbers("ok").is_none() || answer.ops.len() != RECOVER_OPS {
        let count = answer.ops.len();
        return Err(format!("take up answers {:?} with {count} ops", answer.outcome));
    }
    Ok(())
}

fn expect_short(answer: &Answer) -> Result<(), String> {
    let expected = Outcome::Refused { number: 15, detail: RECOVER_WORDS, test: None };
    if answer.outcome != expected || !answer.ops.is_empty() {
        return Err(format!("take up with too short an op buffer answers {:?}", answer.outcome));
    }
    Ok(())
}

/// What the selected copy has where its epoch stands.
fn superline_epoch(image: &[u64]) -> u64 {
    match image {
        [0, ..] => image[12],
        [1, ..] => image[20],
        _ => 0,
    }
}

fn describe(call: &Command, done: usize, all: usize, what: &str) -> String {
    format!("power fails after {done} of {all} ops of {call:?}: {what}")
}

// ---------------------------------------------------------------- what the state command says

/// Helps to choose calls and says which words are free; nothing but the epoch is judged by it.
struct StateView {
    state: State,
}

impl StateView {
    fn parse(line: &str) -> Option<StateView> {
        let line = line.strip_prefix("state ")?;
        let numbers: Option<Vec<u64>> = line
            .split([' ', '[', ']'])
            .filter(|token| !token.is_empty())
            .map(|token| token.parse().ok())
            .collect();
        let numbers = numbers?;
        if numbers.len() < 8 {
            return None;
        }
        let mut state = State {
            capacity: numbers[0],
            head_position: numbers[1],
            head_lsn: numbers[2],
            next_position: numbers[3],
            next_lsn: numbers[4],
            committed_lsn: numbers[5],
            copy_in_use: numbers[6],
            epoch: numbers[7],
            ..State::default()
        };
        for entry in numbers[8..].chunks(6) {
            let &[index, position, length, kind, stage, epoch] = entry else {
                return None;
            };
            let entry = Entry { position, length, kind, stage: stage_numbered(stage), epoch };
            *state.table.get_mut(index as usize)? = entry;
        }
        let live = state.next_lsn.checked_sub(state.head_lsn)?;
        (live <= TABLE_SIZE as u64).then_some(StateView { state })
    }

    fn length(&self, lsn: u64) -> u64 {
        self.state.entry(lsn).length
    }

    fn in_stage(&self, stage: Stage) -> Vec<u64> {
        self.state.live().filter(|&lsn| self.state.entry(lsn).stage == stage).collect()
    }

    /// Complete records with no open one before them.
    fn forceable(&self) -> Vec<u64> {
        (self.state.committed_lsn.saturating_add(1)..self.state.next_lsn)
            .take_while(|&lsn| self.state.entry(lsn).stage == Stage::Complete)
            .collect()
    }

    fn free_words(&self) -> u64 {
        let used: u64 = self.state.live().map(|lsn| record_size(self.length(lsn))).sum();
        self.state.capacity.saturating_sub(used)
    }
}
