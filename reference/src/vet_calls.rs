//! `vet` as a C program calls it, held against our own.
//!
//! The program is tests/c/vet.c, linked with another implementation; its head says how it is asked and what it prints. It runs once
//! for the case of each seed.

use crate::compare::{difference, output_and_status, Difference};
use crate::layout::{LSN_LIMIT, MAX_EPOCH};
use crate::refusal::Refusal;
use crate::rng::Rng;
use crate::state::{Entry, Stage, State};
use crate::three_calls::{state_words, STATE_WORDS};
use crate::vet::vet;
use crate::vet_cases::{case, op_buffers, Case};
use std::fmt::Write as _;
use std::io;
use std::path::Path;

const REPLY_WORDS: usize = 4;

/// What a run came to.
pub struct Report {
    pub cases: u64,
    pub calls: u64,
    /// The name of the case, and the line.
    pub difference: Option<(String, Difference)>,
}

/// Runs the program on the cases of `count` seeds, and stops at the first difference.
pub fn vet_calls(program: &Path, first_seed: u64, count: u64) -> io::Result<Report> {
    let mut report = Report { cases: 0, calls: 0, difference: None };
    for i in 0..count {
        let seed = first_seed.wrapping_add(i);
        let (name, case) = case(seed);
        let asked = ask(seed, &case);
        let (mut theirs, status) = output_and_status(program, &asked.input)?;
        // Also where every line was printed before.
        if !status.success() {
            theirs.extend_from_slice(format!("(ended with {status})\n").as_bytes());
        }
        report.cases += 1;
        report.calls += asked.answers.len() as u64;
        if let Some(found) = difference(seed, "vet", asked.text.as_bytes(), &theirs) {
            report.difference = Some((format!("'{name}'"), found));
            break;
        }
    }
    Ok(report)
}

/// What is asked of a case.
#[derive(Default)]
pub struct Asked {
    /// The program's input.
    pub input: Vec<u8>,
    /// What it owes.
    pub text: String,
    /// What each call answers: a number of ops, or a refusal.
    pub answers: Vec<Result<u64, Refusal>>,
}

/// The state that is lent.
enum Lent {
    Of(State),
    /// Words that are no sound state's, or not as many as a state has.
    Words(Vec<u64>),
}

impl Lent {
    fn words(&self) -> Vec<u64> {
        match self {
            Lent::Of(state) => state_words(state),
            Lent::Words(words) => words.clone(),
        }
    }

    /// Refusal 1 knows the state's capacity only if the state has its count of words.
    fn vet(&self, image: &[u64], op_buffer: &[u64]) -> Result<u64, Refusal> {
        let words = match self {
            Lent::Of(state) => return vet(state, image, op_buffer),
            Lent::Words(words) => words,
        };
        let good_size = (40..=8_192).contains(&image.len());
        let capacity_fits =
            words.len() != STATE_WORDS || words[0].checked_add(24) == Some(image.len() as u64);
        Err(if good_size && capacity_fits { Refusal::Unsound } else { Refusal::ImageSize })
    }
}

pub fn ask(seed: u64, case: &Case) -> Asked {
    let mut rng = Rng::new(seed);
    let rng = &mut rng;
    let mut asked = Asked::default();
    let Case { state, image, .. } = case;
    let good = Lent::Of(state.clone());
    let buffers = op_buffers(rng, case);
    asked.lend(&good, image);
    for ops in &buffers {
        let reply_words = REPLY_WORDS + rng.below(3) as usize;
        asked.call(rng, &good, image, ops, reply_words);
    }
    for reply_words in 0..=REPLY_WORDS + 2 {
        let ops = &buffers[rng.below(buffers.len() as u64) as usize];
        asked.call(rng, &good, image, ops, reply_words);
    }

    // Other lengths of the image, alone and with a state that is not sound; the op buffer may be bad too.
    let mut lent: Vec<(Lent, usize)> = Vec::new();
    let n = image.len();
    let lengths = [0, 1, 23, 24, 39, 40, 41, n - 1, n + 1, 8_191, 8_192, 8_193, 9_000];
    lent.extend(lengths.map(|length| (Lent::Of(state.clone()), length)));
    lent.extend(unsound(rng, state).into_iter().map(|state| (state, n)));
    for (state, length) in unsound(rng, state).into_iter().zip(lengths.into_iter().cycle()) {
        lent.push((state, length));
    }
    for (state, length) in &lent {
        let image: Vec<u64> = image.iter().copied().chain(0..).take(*length).collect();
        asked.lend(state, &image);
        for _ in 0..2 {
            let reply_words = rng.pick(&[3, 4, 4, 4, 5]);
            let ops = &buffers[rng.below(buffers.len() as u64) as usize];
            asked.call(rng, state, &image, ops, reply_words);
        }
    }
    asked
}

impl Asked {
    fn words(&mut self, words: impl IntoIterator<Item = u64>) {
        self.input.extend(words.into_iter().flat_map(u64::to_le_bytes));
    }

    fn lend(&mut self, state: &Lent, image: &[u64]) {
        let words = state.words();
        self.words([1, words.len() as u64, image.len() as u64]);
        self.words(words);
        self.words(image.iter().copied());
    }

    fn call(
        &mut self,
        rng: &mut Rng,
        state: &Lent,
        image: &[u64],
        ops: &[u64],
        reply_words: usize,
    ) {
        let (front, fill) = (rng.below(2), rng.next_u64());
        self.words([2, front, fill, reply_words as u64, ops.len() as u64]);
        self.words(ops.iter().copied());
        let answer = if reply_words < REPLY_WORDS {
            Err(Refusal::OutputShort)
        } else {
            state.vet(image, ops)
        };
        let mut reply: Vec<u64> = (0..reply_words as u64).map(|i| fill.wrapping_add(i)).collect();
        let (result, told) = match answer {
            Ok(count) => (count as i64, [0, 0, 0, 0]),
            Err(refusal) => {
                (-(refusal.number() as i64), [refusal.number(), refusal.detail(), 0, 0])
            }
        };
        if reply_words >= REPLY_WORDS {
            reply[..REPLY_WORDS].copy_from_slice(&told);
        }
        let _ = write!(self.text, "vet {result} reply");
        for word in reply {
            let _ = write!(self.text, " {word}");
        }
        self.text.push_str(" kept\n");
        self.answers.push(answer);
    }
}

/// States that are not sound, each for another reason, and words that are not as many as a state's.
fn unsound(rng: &mut Rng, good: &State) -> Vec<Lent> {
    let mut lent = Vec::new();
    let mut with = |change: &dyn Fn(&mut State)| {
        let mut state = good.clone();
        change(&mut state);
        assert!(!state.is_sound());
        lent.push(Lent::Of(state));
    };
    let capacity = good.capacity;
    with(&|state| state.capacity = 15);
    with(&|state| state.capacity = u64::MAX - 23);
    with(&|state| state.head_position = capacity);
    with(&|state| state.next_position = (state.next_position + 1) % capacity);
    with(&|state| state.next_position = u64::MAX);
    with(&|state| state.head_lsn = 0);
    with(&|state| state.next_lsn = LSN_LIMIT + 1);
    with(&|state| state.next_lsn = state.head_lsn - 1);
    with(&|state| state.committed_lsn = state.next_lsn);
    with(&|state| state.copy_in_use = 2);
    with(&|state| state.epoch = 0);
    with(&|state| state.epoch = MAX_EPOCH + 1);
    if !good.live().is_empty() {
        let (head, last) = (good.head_lsn, good.next_lsn - 1);
        with(&|state| state.entry_mut(last).position += 1);
        with(&|state| state.entry_mut(last).kind = 0);
        with(&|state| state.entry_mut(last).stage = Stage::Free);
        with(&|state| state.entry_mut(head).stage = Stage::Released);
        with(&|state| state.entry_mut(head).length += 8);
    }
    if good.live().count() < 256 {
        let free = good.next_lsn;
        with(&|state| *state.entry_mut(free) = Entry { kind: 1, ..Entry::FREE });
    }
    let words = state_words(good);
    for count in [0, 1, 8, STATE_WORDS - 1] {
        lent.push(Lent::Words(words[..count].to_vec()));
    }
    lent.push(Lent::Words([&words[..], &[0]].concat()));
    lent.push(Lent::Words(vec![0; STATE_WORDS]));
    lent.push(Lent::Words((0..STATE_WORDS).map(|_| rng.next_u64() | 1 << 63).collect()));
    lent
}
