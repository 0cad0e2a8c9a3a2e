//! The program replay: carries out a script of calls and prints what each did.

use crate::calls::{self, Appended, Cursor, Done, Forced, Next, Reserved};
use crate::layout::TABLE_SIZE;
use crate::ops::OP_WORDS;
use crate::refusal::Refusal;
use crate::script::{digest, Command, Parsed, LONGEST_COMMAND};
use crate::shortcut::{self, Shortcut};
use crate::state::{Entry, Stage, State};
use std::fmt::Write as _;
use std::io::{self, ErrorKind, Read, Write};

/// Each output byte before a fetch.
const OUTPUT_FILL: u8 = 238;

/// Image, op buffer, state and cursor that a script's calls work on.
#[derive(Clone, Default)]
pub struct Machine {
    pub image: Vec<u64>,
    pub op_buffer: Vec<u64>,
    pub state: State,
    pub cursor: Cursor,
    shortcut: Option<Shortcut>,
}

impl Machine {
    pub fn new(shortcut: Option<Shortcut>) -> Machine {
        Machine { shortcut, ..Machine::default() }
    }

    /// Carries one command out and gives the line it prints, without the line feed.
    pub fn run(&mut self, command: &Command) -> Option<String> {
        let Machine { image, op_buffer, state, cursor, shortcut } = self;
        let shortcut = *shortcut;
        match *command {
            Command::Image { words, value } => {
                *image = vec![value; words as usize];
                None
            }
            Command::Poke { word, value } => {
                let index = usize::try_from(word).ok();
                if let Some(target) = index.and_then(|index| image.get_mut(index)) {
                    *target = value;
                }
                None
            }
            Command::OpBuffer { words, value } => {
                *op_buffer = vec![value; words as usize];
                None
            }
            Command::Field { field, value } => {
                if let Some(target) = field_mut(state, field) {
                    *target = value;
                }
                None
            }
            Command::Entry { index, position, length, kind, stage, epoch } => {
                state.table[(index % TABLE_SIZE as u64) as usize] = Entry {
                    position: position % 65_536,
                    length: length % 65_536,
                    kind: kind % 65_536,
                    stage: stage_numbered(stage),
                    epoch: epoch % (1 << 32),
                };
                None
            }
            Command::Cursor(given) => {
                *cursor = given;
                None
            }

            Command::Format => {
                let result = calls::format(image, op_buffer);
                let result = result.map(|done| adopt(state, done));
                self.writing("format", result, |_| "ok".to_string())
            }
            Command::Reserve { kind, length } => {
                let result = calls::reserve(image, op_buffer, state, kind, length);
                self.writing("reserve", result, |Reserved { lsn, position }| {
                    format!("ok {lsn} {position}")
                })
            }
            Command::Copy { lsn, offset, ref bytes } => {
                let result = calls::copy(image, op_buffer, state, lsn, offset, bytes);
                self.writing("copy", result, |()| "ok".to_string())
            }
            Command::Complete { lsn } => {
                let result = calls::complete(image, op_buffer, state, lsn);
                self.writing("complete", result, |()| "ok".to_string())
            }
            Command::Force { lsn, frequency } => {
                let result = shortcut::force(shortcut, image, op_buffer, state, lsn, frequency);
                self.writing("force", result, |forced| {
                    match forced {
                        Forced::Durable => "kept",
                        Forced::Deferred => "putoff",
                    }
                    .to_string()
                })
            }
            Command::Release { lsn } => {
                let result = shortcut::release(shortcut, image, op_buffer, state, lsn);
                self.writing("release", result, |()| "ok".to_string())
            }
            Command::ReleaseAll => {
                let result = shortcut::release_all(shortcut, image, op_buffer, state);
                self.writing("releaseall", result, |()| "ok".to_string())
            }
            Command::Recover => {
                let result = shortcut::recover(shortcut, image, op_buffer);
                let result = result.map(|done| adopt(state, done));
                self.writing("takeup", result, |_| "ok".to_string())
            }
            Command::Append { kind, frequency, ref bytes } => {
                let result =
                    shortcut::append(shortcut, image, op_buffer, state, kind, bytes, frequency);
                self.writing("append", result, |Appended { lsn, forced }| {
                    format!("ok {lsn} {}", u64::from(forced == Forced::Durable))
                })
            }

            Command::Open => {
                let result = calls::open(image);
                let text = match result {
                    Ok(opened) => {
                        *cursor = opened;
                        let Cursor { position, lsn, used, count, last_epoch, superline_epoch } =
                            opened;
                        format!("ok {position} {lsn} {used} {count} {last_epoch} {superline_epoch}")
                    }
                    Err(refusal) => refused(refusal),
                };
                Some(format!("open {text} = {}", self.digests()))
            }
            Command::Next => {
                let text = match shortcut::next(shortcut, image, cursor) {
                    Ok(Next::Record { record, behind }) => {
                        *cursor = behind;
                        let calls::Record { position, lsn, kind, length, mark, epoch } = record;
                        format!("record {position} {lsn} {kind} {length} {mark} {epoch}")
                    }
                    Ok(Next::End { lsn }) => format!("end {lsn}"),
                    Err(refusal) => refused(refusal),
                };
                Some(format!("next {text} = {}", self.digests()))
            }
            Command::Fetch { position, length, output } => {
                let mut output = vec![OUTPUT_FILL; output as usize];
                let text = match calls::fetch(image, position, length, &mut output) {
                    Ok(()) => "ok".to_string(),
                    Err(refusal) => refused(refusal),
                };
                let output_digest = digest(output.into_iter().map(u64::from));
                Some(format!("fetch {text} = {} {output_digest}", self.digests()))
            }

            Command::Words { first, count } => {
                let mut line = "words".to_string();
                let first = usize::try_from(first).unwrap_or(usize::MAX);
                let count = usize::try_from(count).unwrap_or(usize::MAX);
                for word in image.iter().skip(first).take(count) {
                    let _ = write!(line, " {word}");
                }
                Some(line)
            }
            Command::State => {
                let mut line = "state".to_string();
                for field in fields(state) {
                    let _ = write!(line, " {field}");
                }
                for (i, entry) in state.table.iter().enumerate() {
                    if entry.stage != Stage::Free {
                        let [position, length, kind, stage, epoch] = entry_numbers(entry);
                        let _ = write!(line, " [{i} {position} {length} {kind} {stage} {epoch}]");
                    }
                }
                Some(line)
            }
        }
    }

    /// The line of a writing call.
    fn writing<A>(
        &self,
        name: &str,
        result: Result<Done<A>, Refusal>,
        answer: impl Fn(A) -> String,
    ) -> Option<String> {
        let (text, op_count) = match result {
            Ok(done) => (answer(done.answer), done.op_count),
            Err(refusal) => (refused(refusal), 0),
        };
        let mut line = format!("{name} {text} orders {op_count}");
        for op in self.op_buffer.chunks_exact(OP_WORDS).take(op_count) {
            let letter = if op[0] == 1 { 's' } else { 'f' };
            let _ = write!(line, " {letter} {} {}", op[1], op[2]);
        }
        let _ = write!(line, " = {}", self.digests());
        Some(line)
    }

    fn digests(&self) -> String {
        let image = digest(self.image.iter().copied());
        let op_buffer = digest(self.op_buffer.iter().copied());
        let entries = self.state.table.iter().flat_map(entry_numbers);
        let state = digest(fields(&self.state).into_iter().chain(entries));
        format!("{image} {op_buffer} {state}")
    }
}

fn refused(refusal: Refusal) -> String {
    let test = refusal.record_test().map_or(String::new(), |test| format!(" {}", test.word()));
    format!("refused {} {}{test}", refusal.number(), refusal.detail())
}

/// The state becomes the one the call gave.
fn adopt(state: &mut State, done: Done<State>) -> Done<()> {
    *state = done.answer;
    Done { answer: (), op_count: done.op_count }
}

fn field_mut(state: &mut State, field: u64) -> Option<&mut u64> {
    match field {
        0 => Some(&mut state.capacity),
        1 => Some(&mut state.head_position),
        2 => Some(&mut state.head_lsn),
        3 => Some(&mut state.next_position),
        4 => Some(&mut state.next_lsn),
        5 => Some(&mut state.committed_lsn),
        6 => Some(&mut state.copy_in_use),
        7 => Some(&mut state.epoch),
        _ => None,
    }
}

/// The eight fields in the order of the field command.
pub fn fields(state: &State) -> [u64; 8] {
    [
        state.capacity,
        state.head_position,
        state.head_lsn,
        state.next_position,
        state.next_lsn,
        state.committed_lsn,
        state.copy_in_use,
        state.epoch,
    ]
}

/// Position, length, kind, the stage's number and the epoch.
pub fn entry_numbers(entry: &Entry) -> [u64; 5] {
    let stage = match entry.stage {
        Stage::Free => 0,
        Stage::Open => 1,
        Stage::Complete => 2,
        Stage::Committed => 3,
        Stage::Released => 4,
    };
    [entry.position, entry.length, entry.kind, stage, entry.epoch]
}

pub fn stage_numbered(number: u64) -> Stage {
    match number {
        1 => Stage::Open,
        2 => Stage::Complete,
        3 => Stage::Committed,
        4 => Stage::Released,
        _ => Stage::Free,
    }
}

/// Runs a whole script.
pub fn replay(
    input: impl Read,
    mut output: impl Write,
    shortcut: Option<Shortcut>,
) -> io::Result<()> {
    let mut words = WordStream::new(input);
    let mut machine = Machine::new(shortcut);
    loop {
        // Whoever sends commands one by one waits for their answers.
        if words.buffered() < LONGEST_COMMAND {
            output.flush()?;
        }
        match Command::parse(&mut words) {
            Parsed::Command(command) => {
                if let Some(line) = machine.run(&command) {
                    writeln!(output, "{line}")?;
                }
            }
            Parsed::End => break,
            Parsed::Bad(number) => {
                writeln!(output, "bad {number}")?;
                break;
            }
        }
    }
    output.flush()
}

/// The whole little-endian words of a byte stream.
struct WordStream<R> {
    input: R,
    buffer: Vec<u8>,
    taken: usize,
}

impl<R: Read> WordStream<R> {
    fn new(input: R) -> Self {
        WordStream { input, buffer: Vec::new(), taken: 0 }
    }

    /// Bytes read but not yet taken.
    fn buffered(&self) -> usize {
        self.buffer.len() - self.taken
    }

    /// Reads some more bytes; false at the end of the input.
    fn refill(&mut self) -> bool {
        self.buffer.drain(..self.taken);
        self.taken = 0;
        let mut chunk = [0; 16_384];
        loop {
            match self.input.read(&mut chunk) {
                Ok(count) => {
                    self.buffer.extend_from_slice(&chunk[..count]);
                    return count > 0;
                }
                Err(error) if error.kind() == ErrorKind::Interrupted => {}
                Err(_) => return false,
            }
        }
    }
}

impl<R: Read> Iterator for WordStream<R> {
    type Item = u64;

    fn next(&mut self) -> Option<u64> {
        while self.buffered() < 8 {
            if !self.refill() {
                return None;
            }
        }
        let mut word = [0; 8];
        word.copy_from_slice(&self.buffer[self.taken..self.taken + 8]);
        self.taken += 8;
        Some(u64::from_le_bytes(word))
    }
}
