//! The recovery of three modules as a C program makes it, held against our own.
//!
//! The program is tests/c/three.c, linked with another implementation; its head says how it is asked and what it prints. It runs once
//! for the images of each seed.

use crate::compare::{difference, output_and_status, Difference};
use crate::ops::OP_WORDS;
use crate::refusal::{require, Refusal};
use crate::rng::Rng;
use crate::state::{Entry, Stage, State};
use crate::three::{plan_recover_three, recover_three, Lent, Recovered, Way, MODULES};
use crate::triples::{triple, Images};
use std::array::from_fn;
use std::fmt::Write as _;
use std::io;
use std::path::Path;

/// Words of a state and of a reply, as C has them.
pub const STATE_WORDS: usize = 520;
const REPLY_WORDS: usize = 5;

/// What a run came to.
pub struct Report {
    pub triples: u64,
    pub calls: u64,
    /// The name of the images, and the line.
    pub difference: Option<(String, Difference)>,
}

/// Runs the program on the images of `count` seeds, and stops at the first difference.
pub fn three_calls(program: &Path, first_seed: u64, count: u64) -> io::Result<Report> {
    let mut report = Report { triples: 0, calls: 0, difference: None };
    for i in 0..count {
        let seed = first_seed.wrapping_add(i);
        let (name, images) = triple(seed);
        let asked = ask(seed, &images);
        let (mut theirs, status) = output_and_status(program, &asked.input)?;
        // Also where every line was printed before.
        if !status.success() {
            theirs.extend_from_slice(format!("(ended with {status})\n").as_bytes());
        }
        report.triples += 1;
        report.calls += asked.answers.len() as u64;
        if let Some(found) = difference(seed, "three", asked.text.as_bytes(), &theirs) {
            let request = asked.requests.get(found.line - 1);
            let request = request.map_or(String::new(), |request| format!(", {request:?}"));
            report.difference = Some((format!("'{name}'{request}"), found));
            break;
        }
    }
    Ok(report)
}

/// What is asked of three images.
pub struct Asked {
    /// The program's input.
    pub input: Vec<u8>,
    /// What it owes.
    pub text: String,
    pub requests: Vec<Request>,
    pub answers: Vec<Answer>,
}

pub fn ask(seed: u64, images: &Images) -> Asked {
    let requests = requests(&mut Rng::new(seed), images);
    let mut words = vec![1];
    words.extend(images.iter().map(|image| image.len() as u64));
    words.extend(images.iter().flatten());
    let mut text = String::new();
    let mut answers = Vec::new();
    for request in &requests {
        words.push(2);
        words.extend(request.words());
        let answer = request.answer(images);
        answer.write(request, &mut text);
        answers.push(answer);
    }
    let input = words.into_iter().flat_map(u64::to_le_bytes).collect();
    Asked { input, text, requests, answers }
}

/// One call.
#[derive(Clone, Copy, Debug)]
pub struct Request {
    /// On which side of what is lent a page is that nobody may touch.
    at_front: bool,
    pub present: u64,
    /// State, reply and op buffers hold numbers from this one on.
    fill: u64,
    pub state_words: usize,
    pub reply_words: usize,
    pub op_words: [usize; MODULES],
}

impl Request {
    fn words(&self) -> Vec<u64> {
        let mut words = vec![u64::from(self.at_front), self.present, self.fill];
        words.extend([self.state_words as u64, self.reply_words as u64]);
        words.extend(self.op_words.map(|words| words as u64));
        words
    }

    pub fn is_present(&self, module: usize) -> bool {
        self.present >> module & 1 == 1
    }

    /// What stands in the words lent, before the call: those of the state are lot 0, of the reply 1, of the op buffers 2 to 4.
    fn old_words(&self, lot: u64, count: usize) -> Vec<u64> {
        let first = self.fill.wrapping_add(lot << 32);
        (0..count as u64).map(|i| first.wrapping_add(i)).collect()
    }

    /// All that the call owes.
    fn answer(&self, images: &Images) -> Answer {
        let mut answer = Answer {
            result: 0,
            reply: self.old_words(1, self.reply_words),
            state: self.old_words(0, self.state_words),
            images: images.clone(),
            op_buffers: from_fn(|i| self.old_words(2 + i as u64, self.op_words[i])),
        };
        if self.reply_words < REPLY_WORDS {
            answer.result = -(Refusal::OutputShort.number() as i64);
            return answer;
        }
        let reply = match self.recover(&mut answer) {
            Ok(Recovered { chosen, state, op_counts }) => {
                answer.result = chosen as i64;
                answer.state = state_words(&state);
                let [a, b, c] = op_counts.map(|count| count as u64);
                [0, 0, a, b, c]
            }
            Err(refusal) => {
                answer.result = -(refusal.number() as i64);
                [refusal.number(), refusal.detail(), 0, 0, 0]
            }
        };
        answer.reply[..REPLY_WORDS].copy_from_slice(&reply);
        answer
    }

    /// Refusal 2 comes behind 1 and before the others.
    fn recover(&self, answer: &mut Answer) -> Result<Recovered, Refusal> {
        let sizes = answer.images.each_ref().map(Vec::as_slice);
        let nobody = [false; MODULES];
        if let Err(Refusal::ImageSize) = plan_recover_three(&Way::RIGHT, sizes, nobody) {
            return Err(Refusal::ImageSize);
        }
        require(self.state_words == STATE_WORDS, Refusal::Unsound)?;
        let mut lent = answer.images.iter_mut().zip(&mut answer.op_buffers);
        let mut modules = from_fn(|i| {
            let (image, op_buffer) = lent.next().expect("three modules");
            Lent { image, op_buffer, present: self.is_present(i) }
        });
        recover_three(&mut modules)
    }
}

/// What a call leaves.
pub struct Answer {
    pub result: i64,
    pub reply: Vec<u64>,
    state: Vec<u64>,
    images: Images,
    op_buffers: [Vec<u64>; MODULES],
}

impl Answer {
    /// The line that is due.
    fn write(&self, request: &Request, text: &mut String) {
        let _ = write!(text, "three {} reply", self.result);
        for word in &self.reply {
            let _ = write!(text, " {word}");
        }
        let _ = write!(text, " state {:016x}", digest(&self.state));
        for i in 0..MODULES {
            if request.is_present(i) {
                let (image, ops) = (digest(&self.images[i]), digest(&self.op_buffers[i]));
                let _ = write!(text, " module {image:016x} {ops:016x}");
            } else {
                text.push_str(" absent");
            }
        }
        text.push_str(" kept\n");
    }
}

/// All bits of all words count.
fn digest(words: &[u64]) -> u64 {
    words.iter().fold(words.len() as u64, |digest, word| {
        let product = (digest ^ word).wrapping_mul(0x9E37_79B9_7F4A_7C15);
        product ^ product >> 29
    })
}

/// A state as C has it.
pub fn state_words(state: &State) -> Vec<u64> {
    let State { capacity, head_position, head_lsn, next_position, next_lsn, .. } = *state;
    let State { committed_lsn, copy_in_use, epoch, .. } = *state;
    let mut words = vec![capacity, head_position, head_lsn, next_position, next_lsn];
    words.extend([committed_lsn, copy_in_use, epoch]);
    for &Entry { position, length, kind, stage, epoch } in &state.table {
        let stage = match stage {
            Stage::Free => 0,
            Stage::Open => 1,
            Stage::Complete => 2,
            Stage::Committed => 3,
            Stage::Released => 4,
        };
        words.extend([position | length << 16 | kind << 32 | stage << 48, epoch]);
    }
    words
}

// ---------------------------------------------------------------- what is asked

/// Every combination of absent modules with room for all, then lengths and flags at their edges.
fn requests(rng: &mut Rng, images: &Images) -> Vec<Request> {
    let mut requests: Vec<Request> = (0..1 << MODULES)
        .map(|present| {
            // Only the lowest three bits count.
            let high = if rng.chance(1, 2) { 0 } else { rng.next_u64() << MODULES };
            roomy(rng, images, high | present)
        })
        .collect();
    let most = (1 << MODULES) - 1;
    for present in [most, rng.below(most + 1)] {
        requests.extend(edges_of_op_buffers(rng, images, present));
    }
    for reply_words in 0..=REPLY_WORDS + 2 {
        requests.push(Request { reply_words, ..roomy(rng, images, most) });
    }
    for state_words in [0, 8, STATE_WORDS - 1, STATE_WORDS + 1] {
        let request = Request { state_words, ..roomy(rng, images, most) };
        requests.push(request);
        requests.push(Request { present: 0, op_words: [0; MODULES], ..request });
        requests.push(Request { reply_words: 4, ..request });
    }
    requests
}

/// Words enough for each op buffer, mostly more.
fn roomy(rng: &mut Rng, images: &Images, present: u64) -> Request {
    let op_words =
        from_fn(|i| OP_WORDS * (images[i].len() + 15) + rng.pick(&[0, 0, 1, 40]) as usize);
    Request {
        at_front: rng.chance(1, 2),
        present,
        fill: rng.next_u64(),
        state_words: STATE_WORDS,
        reply_words: REPLY_WORDS + rng.below(3) as usize,
        op_words,
    }
}

/// Each op buffer just long enough; one, two or all of them one word too short or empty; and those of absent modules empty.
fn edges_of_op_buffers(rng: &mut Rng, images: &Images, present: u64) -> Vec<Request> {
    let request = roomy(rng, images, present);
    let sizes = images.each_ref().map(Vec::as_slice);
    let flags = from_fn(|i| request.is_present(i));
    let Ok(plan) = plan_recover_three(&Way::RIGHT, sizes, flags) else {
        return vec![Request { op_words: [0; MODULES], ..request }];
    };
    let needed = plan.ops.each_ref().map(|ops| OP_WORDS * ops.len());
    let mut requests = vec![Request { op_words: needed, ..request }];
    for short in 1..1_u64 << MODULES {
        let mut op_words = needed;
        for (i, words) in op_words.iter_mut().enumerate().filter(|(i, _)| short >> i & 1 == 1) {
            let less = if rng.chance(1, 2) { 1 } else { rng.below(needed[i] as u64 + 1) };
            *words = words.saturating_sub(less as usize);
        }
        requests.push(Request { op_words, fill: rng.next_u64(), ..request });
    }
    requests
}
