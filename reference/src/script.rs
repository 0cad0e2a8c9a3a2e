//! Scripts of the test program: commands as words, answers as lines. The format is REPLAY.md's.

use crate::calls::Cursor;
use crate::ops::Op;
use crate::refusal::RecordTest;

pub const MAX_SCRIPT_IMAGE: u64 = 9_000;
pub const MAX_SCRIPT_OP_BUFFER: u64 = 26_000;
pub const MAX_SCRIPT_BYTES: u64 = 2_048;
/// Bytes of the longest command, a copy or an append with its data.
pub const LONGEST_COMMAND: usize = 8 * 4 + MAX_SCRIPT_BYTES as usize;

#[derive(Clone, Debug, PartialEq, Eq)]
pub enum Command {
    Image { words: u64, value: u64 },
    Poke { word: u64, value: u64 },
    OpBuffer { words: u64, value: u64 },
    Field { field: u64, value: u64 },
    Entry { index: u64, position: u64, length: u64, kind: u64, stage: u64, epoch: u64 },
    Cursor(Cursor),
    Format,
    Reserve { kind: u64, length: u64 },
    Copy { lsn: u64, offset: u64, bytes: Vec<u8> },
    Complete { lsn: u64 },
    Force { lsn: u64, frequency: u64 },
    Release { lsn: u64 },
    ReleaseAll,
    Recover,
    Append { kind: u64, frequency: u64, bytes: Vec<u8> },
    Open,
    Next,
    Fetch { position: u64, length: u64, output: u64 },
    Words { first: u64, count: u64 },
    State,
}

/// What stands next in a script.
#[derive(Clone, Debug, PartialEq, Eq)]
pub enum Parsed {
    Command(Command),
    End,
    /// The script ends with the line `bad N`.
    Bad(u64),
}

impl Command {
    /// The command's words.
    pub fn encode(&self) -> Vec<u64> {
        match *self {
            Command::Image { words, value } => vec![1, words, value],
            Command::Poke { word, value } => vec![2, word, value],
            Command::OpBuffer { words, value } => vec![3, words, value],
            Command::Field { field, value } => vec![4, field, value],
            Command::Entry { index, position, length, kind, stage, epoch } => {
                vec![5, index, position, length, kind, stage, epoch]
            }
            Command::Cursor(cursor) => {
                let Cursor { position, lsn, used, count, last_epoch, superline_epoch } = cursor;
                vec![6, position, lsn, used, count, last_epoch, superline_epoch]
            }
            Command::Format => vec![10],
            Command::Reserve { kind, length } => vec![11, kind, length],
            Command::Copy { lsn, offset, ref bytes } => with_data(12, lsn, offset, bytes),
            Command::Complete { lsn } => vec![13, lsn],
            Command::Force { lsn, frequency } => vec![14, lsn, frequency],
            Command::Release { lsn } => vec![15, lsn],
            Command::ReleaseAll => vec![16],
            Command::Recover => vec![17],
            Command::Append { kind, frequency, ref bytes } => with_data(18, kind, frequency, bytes),
            Command::Open => vec![20],
            Command::Next => vec![21],
            Command::Fetch { position, length, output } => vec![22, position, length, output],
            Command::Words { first, count } => vec![30, first, count],
            Command::State => vec![31],
        }
    }

    /// Takes the next command off a stream of words.
    pub fn parse(words: &mut impl Iterator<Item = u64>) -> Parsed {
        // A command cut off by the end of the input counts as the end.
        Command::parse_whole(words).unwrap_or(Parsed::End)
    }

    fn parse_whole(words: &mut impl Iterator<Item = u64>) -> Option<Parsed> {
        let number = words.next()?;
        let mut arg = || words.next();
        let command = match number {
            0 => return Some(Parsed::End),
            1 => Command::Image { words: arg()?, value: arg()? },
            2 => Command::Poke { word: arg()?, value: arg()? },
            3 => Command::OpBuffer { words: arg()?, value: arg()? },
            4 => Command::Field { field: arg()?, value: arg()? },
            5 => Command::Entry {
                index: arg()?,
                position: arg()?,
                length: arg()?,
                kind: arg()?,
                stage: arg()?,
                epoch: arg()?,
            },
            6 => Command::Cursor(Cursor {
                position: arg()?,
                lsn: arg()?,
                used: arg()?,
                count: arg()?,
                last_epoch: arg()?,
                superline_epoch: arg()?,
            }),
            10 => Command::Format,
            11 => Command::Reserve { kind: arg()?, length: arg()? },
            12 | 18 => {
                let (first, second, count) = (arg()?, arg()?, arg()?);
                if count > MAX_SCRIPT_BYTES {
                    return Some(Parsed::Bad(number));
                }
                let data: Option<Vec<u64>> = (0..count.div_ceil(8)).map(|_| arg()).collect();
                let bytes = data?.into_iter().flat_map(u64::to_le_bytes).take(count as usize);
                let bytes = bytes.collect();
                if number == 12 {
                    Command::Copy { lsn: first, offset: second, bytes }
                } else {
                    Command::Append { kind: first, frequency: second, bytes }
                }
            }
            13 => Command::Complete { lsn: arg()? },
            14 => Command::Force { lsn: arg()?, frequency: arg()? },
            15 => Command::Release { lsn: arg()? },
            16 => Command::ReleaseAll,
            17 => Command::Recover,
            20 => Command::Open,
            21 => Command::Next,
            22 => Command::Fetch { position: arg()?, length: arg()?, output: arg()? },
            30 => Command::Words { first: arg()?, count: arg()? },
            31 => Command::State,
            _ => return Some(Parsed::Bad(number)),
        };
        let within_limits = match command {
            Command::Image { words, .. } => words <= MAX_SCRIPT_IMAGE,
            Command::OpBuffer { words, .. } => words <= MAX_SCRIPT_OP_BUFFER,
            Command::Fetch { output, .. } => output <= MAX_SCRIPT_BYTES,
            _ => true,
        };
        Some(if within_limits { Parsed::Command(command) } else { Parsed::Bad(number) })
    }

    /// Whether the command prints a line.
    pub fn answers(&self) -> bool {
        !matches!(
            self,
            Command::Image { .. }
                | Command::Poke { .. }
                | Command::OpBuffer { .. }
                | Command::Field { .. }
                | Command::Entry { .. }
                | Command::Cursor(_)
        )
    }
}

/// The words of a command with two arguments, a count of bytes, and the bytes.
fn with_data(number: u64, first: u64, second: u64, bytes: &[u8]) -> Vec<u64> {
    let mut words = vec![number, first, second, bytes.len() as u64];
    words.extend(bytes.chunks(8).map(|chunk| {
        let mut word = [0; 8];
        word[..chunk.len()].copy_from_slice(chunk);
        u64::from_le_bytes(word)
    }));
    words
}

/// What a call answered.
#[derive(Clone, Debug, PartialEq, Eq)]
pub enum Outcome {
    Refused {
        number: u64,
        detail: u64,
        /// The test that refusal 12 names.
        test: Option<RecordTest>,
    },
    /// `ok`, `kept`, `putoff`, `record` or `end`, with the numbers behind it.
    Done { word: String, numbers: Vec<u64> },
}

/// The line of a call, read back.
#[derive(Clone, Debug, PartialEq, Eq)]
pub struct Answer {
    pub name: String,
    pub outcome: Outcome,
    pub ops: Vec<Op>,
    /// Of image, op buffer, state and, for fetch, output.
    pub digests: Vec<u64>,
}

impl Answer {
    /// For a command that is no call.
    pub fn none() -> Answer {
        let outcome = Outcome::Done { word: String::new(), numbers: Vec::new() };
        Answer { name: String::new(), outcome, ops: Vec::new(), digests: Vec::new() }
    }

    /// `None` if the line is not of REPLAY.md's form.
    pub fn parse(line: &str) -> Option<Answer> {
        let mut tokens = line.split(' ').peekable();
        let name = tokens.next()?.to_string();
        let word = tokens.next()?.to_string();
        let mut numbers = Vec::new();
        while let Some(number) = tokens.peek().and_then(|token| token.parse().ok()) {
            numbers.push(number);
            tokens.next();
        }
        let outcome = match (word.as_str(), numbers.as_slice()) {
            ("refused", &[number, detail]) => {
                let test = tokens.peek().and_then(|token| RecordTest::of_word(token));
                if test.is_some() {
                    tokens.next();
                }
                // Refusal 12 has one, and no other has.
                if test.is_some() != (number == 12) {
                    return None;
                }
                Outcome::Refused { number, detail, test }
            }
            ("refused", _) => return None,
            ("ok" | "kept" | "putoff" | "record" | "end", _) => Outcome::Done { word, numbers },
            _ => return None,
        };

        let mut ops = Vec::new();
        if tokens.peek() == Some(&"orders") {
            tokens.next();
            let count: usize = tokens.next()?.parse().ok()?;
            for _ in 0..count {
                let letter = tokens.next()?;
                let first = tokens.next()?.parse().ok()?;
                let second = tokens.next()?.parse().ok()?;
                ops.push(match letter {
                    "s" => Op::Store { word: first, value: second },
                    "f" => Op::Flush { first, count: second },
                    _ => return None,
                });
            }
        }
        if tokens.next() != Some("=") {
            return None;
        }
        let digests: Option<Vec<u64>> = tokens.map(|token| token.parse().ok()).collect();
        Some(Answer { name, outcome, ops, digests: digests? })
    }

    /// The numbers behind `word`, if that is what the call answered.
    pub fn numbers(&self, expected: &str) -> Option<&[u64]> {
        match &self.outcome {
            Outcome::Done { word, numbers } if word == expected => Some(numbers),
            _ => None,
        }
    }

    pub fn is_refused(&self) -> bool {
        matches!(self.outcome, Outcome::Refused { .. })
    }
}

/// The digest of a list of values. Four steps are made at once, which saves three of four divisions by the prime that wait for each
/// other: most of what replay does is making digests.
pub fn digest(values: impl IntoIterator<Item = u64>) -> u64 {
    const PRIME: u64 = 2_147_483_647;
    let mut values = values.into_iter().map(|value| value % PRIME).fuse();
    let mut hash = 7;
    while let Some(a) = values.next() {
        hash = match (values.next(), values.next(), values.next()) {
            (Some(b), Some(c), Some(d)) => {
                hash * (31 * 31 * 31 * 31) + a * (31 * 31 * 31) + b * (31 * 31) + c * 31 + d
            }
            (b, c, _) => [b, c]
                .into_iter()
                .flatten()
                .fold(hash * 31 + a, |hash, value| hash % PRIME * 31 + value),
        } % PRIME;
    }
    hash
}
