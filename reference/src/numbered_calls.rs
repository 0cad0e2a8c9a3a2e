//! The calls of request 13 as a C program makes them, held against our own.
//!
//! The program is tests/c/crashes.c, linked with another implementation; its head says how it is asked and what it prints. It runs
//! once for the image and op buffer of each seed.

use crate::calls::format;
use crate::compare::{difference, output_and_status, Difference};
use crate::numbered_crashes::{crash, crash_count};
use crate::ops::{Op, OP_WORDS};
use crate::refusal::Refusal;
use crate::rng::Rng;
use std::fmt::Write as _;
use std::io;
use std::path::Path;

const REPLY_WORDS: usize = 4;

/// What a run came to.
pub struct Report {
    pub buffers: u64,
    pub calls: u64,
    /// The sort of the buffer, and the line.
    pub difference: Option<(&'static str, Difference)>,
}

/// Runs the program on the op buffers of `count` seeds, and stops at the first difference.
pub fn numbered_calls(program: &Path, first_seed: u64, count: u64) -> io::Result<Report> {
    let mut report = Report { buffers: 0, calls: 0, difference: None };
    for i in 0..count {
        let seed = first_seed.wrapping_add(i);
        let case = case(seed);
        let (input, text, calls) = ask(seed, &case);
        let (mut theirs, status) = output_and_status(program, &input)?;
        if !status.success() {
            theirs.extend_from_slice(format!("(ended with {status})\n").as_bytes());
        }
        report.buffers += 1;
        report.calls += calls;
        if let Some(found) = difference(seed, "crashes", text.as_bytes(), &theirs) {
            report.difference = Some((case.sort, found));
            break;
        }
    }
    Ok(report)
}

/// An image and an op buffer.
struct Case {
    sort: &'static str,
    image: Vec<u64>,
    buffer: Vec<u64>,
}

fn encode(ops: &[Op]) -> Vec<u64> {
    ops.iter().flat_map(|op| op.encode()).collect()
}

/// The sorts by turns, with numbers of their own.
fn case(seed: u64) -> Case {
    let mut rng = Rng::new(seed);
    let words = rng.pick(&[40, 40, 41, 64, 200]) as usize;
    let image: Vec<u64> = (0..words).map(|_| rng.below(3)).collect();
    match seed % 8 {
        0 => Case { sort: "flushes at the most", buffer: flushes(&mut rng, words, 4094 + seed / 8 % 3), image },
        1 => Case { sort: "stores at the most", buffer: stores_of_new(&mut rng, &image), image },
        2 => real_call(&mut rng),
        3 => Case { sort: "a bad op", buffer: bad(&mut rng, words), image },
        4 => {
            let words = rng.pick(&[0, 1, 39, 8193]) as usize;
            Case { sort: "another size", image: vec![0; words], buffer: few(&mut rng, 40, 6) }
        }
        5 => Case { sort: "a large image", image: vec![rng.below(2); 8192], buffer: few(&mut rng, 8192, 8) },
        6 => Case { sort: "many repeats", buffer: repeats(&mut rng), image },
        _ => Case { sort: "few", buffer: few(&mut rng, words, 12), image },
    }
}

fn flushes(rng: &mut Rng, words: usize, count: u64) -> Vec<u64> {
    let op = |rng: &mut Rng| {
        let first = rng.below(words as u64);
        Op::Flush { first, count: rng.between(1, words as u64 - first) }
    };
    encode(&(0..count).map(|_| op(rng)).collect::<Vec<_>>())
}

/// 11 or 12 words, each stored once with another value; and perhaps a flush of all, which makes 4,095 crashes 4,096.
fn stores_of_new(rng: &mut Rng, image: &[u64]) -> Vec<u64> {
    let count = rng.between(11, 12);
    let first = rng.below(image.len() as u64 - count);
    let store = |word: u64| Op::Store { word, value: image[word as usize] + 1 };
    let mut ops: Vec<Op> = (first..first + count).rev().map(store).collect();
    for _ in 0..rng.below(3) {
        ops.push(Op::Flush { first: 0, count: image.len() as u64 });
    }
    encode(&ops)
}

/// The ops of a call of the log, on the image before it.
fn real_call(rng: &mut Rng) -> Case {
    let mut image = vec![0; 40 + rng.below(30) as usize];
    let before = image.clone();
    let mut buffer = vec![0; 200];
    let count = format(&mut image, &mut buffer).map_or(0, |done| done.op_count);
    buffer.truncate(OP_WORDS * count);
    if rng.chance(1, 2) {
        return Case { sort: "a format", image: before, buffer };
    }
    let keep = rng.below(count as u64 + 1) as usize;
    buffer.truncate(OP_WORDS * keep);
    Case { sort: "a part of a format", image: before, buffer }
}

/// A few stores and flushes of few words, with few values.
fn few(rng: &mut Rng, words: usize, most: u64) -> Vec<u64> {
    let words = words as u64;
    let count = rng.below(most + 1);
    let span = rng.between(1, 9);
    let base = rng.below(words - span + 1);
    let op = |rng: &mut Rng| {
        if rng.chance(3, 4) {
            Op::Store { word: base + rng.below(span), value: rng.below(4) }
        } else {
            let first = base + rng.below(span);
            Op::Flush { first, count: rng.between(1, words - first) }
        }
    };
    encode(&(0..count).map(|_| op(rng)).collect::<Vec<_>>())
}

/// One word or two, with values that come again, and flushes between.
fn repeats(rng: &mut Rng) -> Vec<u64> {
    let op = |rng: &mut Rng| match rng.below(5) {
        0 => Op::Flush { first: 7, count: rng.between(1, 2) },
        _ => Op::Store { word: 7 + rng.below(2), value: rng.below(3) },
    };
    let count = rng.between(3, 60);
    encode(&(0..count).map(|_| op(rng)).collect::<Vec<_>>())
}

/// Ops of which one is none, or a last group that is short.
fn bad(rng: &mut Rng, words: usize) -> Vec<u64> {
    let mut buffer = few(rng, words, 6);
    let words = words as u64;
    let ends: [&[u64]; 12] = [
        &[1],
        &[2, 0],
        &[0, 0, 1],
        &[3, 0, 1],
        &[1, words, 0],
        &[1, u64::MAX, 0],
        &[2, 0, 0],
        &[2, 0, words + 1],
        &[2, words, 1],
        &[2, 1, u64::MAX],
        &[2, u64::MAX, 1],
        &[1 << 63, 0, 1],
    ];
    buffer.extend(rng.pick(&ends));
    if buffer.len() % OP_WORDS == 0 {
        buffer.extend(few(rng, 40, 3));
    }
    buffer
}

/// The program's input, what it owes, and how many calls there are.
fn ask(seed: u64, case: &Case) -> (Vec<u8>, String, u64) {
    let mut rng = Rng::new(seed ^ 0x5EED);
    let mut words = vec![1, case.image.len() as u64, case.buffer.len() as u64];
    words.extend(&case.image);
    words.extend(&case.buffer);
    let mut text = String::new();
    let mut calls = 0;
    for reply_words in [REPLY_WORDS, REPLY_WORDS + 2, 3, 0] {
        let fill = rng.next_u64();
        words.extend([2, rng.below(2), fill, reply_words as u64]);
        let answer = crash_count(&case.image, &case.buffer);
        write_answer(&mut text, "count", fill, reply_words, answer);
        text.push('\n');
        calls += 1;
    }
    let total = crash_count(&case.image, &case.buffer).unwrap_or(3);
    let room = case.image.len();
    let mut numbers: Vec<(u64, usize)> = if total <= 64 && room < 100 {
        (0..total).map(|i| (i, room)).collect()
    } else {
        (0..6).map(|_| (rng.below(total), room)).chain([(0, room), (total - 1, room)]).collect()
    };
    numbers.extend([(total, room), (1 << 63, room), (u64::MAX, room), (0, room + 1), (total, room.saturating_sub(1))]);
    for (number, room) in numbers {
        let fill = rng.next_u64();
        let reply_words = if rng.chance(1, 20) { rng.below(4) as usize } else { REPLY_WORDS };
        words.extend([3, rng.below(2), fill, reply_words as u64, number, room as u64]);
        let answer = crash(&case.image, &case.buffer, number, room);
        let mut output: Vec<u64> = (0..room as u64).map(|i| fill.wrapping_add(1 << 40).wrapping_add(i)).collect();
        if let (Ok(crash), true) = (&answer, reply_words >= REPLY_WORDS) {
            output.copy_from_slice(&crash.image);
        }
        write_answer(&mut text, "image", fill, reply_words, answer.map(|crash| crash.point as u64));
        let _ = writeln!(text, " output {:016x}", digest(&output));
        calls += 1;
    }
    (words.into_iter().flat_map(u64::to_le_bytes).collect(), text, calls)
}

/// What a call returns and replies.
fn write_answer(text: &mut String, name: &str, fill: u64, reply_words: usize, answer: Result<u64, Refusal>) {
    let answer = if reply_words < REPLY_WORDS { Err(Refusal::OutputShort) } else { answer };
    let result = answer.map_or_else(|refusal| -(refusal.number() as i64), |value| value as i64);
    let mut reply: Vec<u64> = (0..reply_words as u64).map(|i| fill.wrapping_add(i)).collect();
    if reply_words >= REPLY_WORDS {
        let head = answer.map_or_else(|refusal| [refusal.number(), refusal.detail()], |_| [0, 0]);
        reply[..2].copy_from_slice(&head);
        reply[2..4].fill(0);
    }
    let _ = write!(text, "{name} {result} reply");
    for word in reply {
        let _ = write!(text, " {word}");
    }
    text.push_str(" kept");
}

/// All bits of all words count.
fn digest(words: &[u64]) -> u64 {
    words.iter().fold(words.len() as u64, |digest, word| {
        let product = (digest ^ word).wrapping_mul(0x9E37_79B9_7F4A_7C15);
        product ^ product >> 29
    })
}
