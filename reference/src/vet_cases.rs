//! States and images for `vet`, as runs of our calls leave them, and op buffers of every sort for each.
//!
//! The seed chooses the sort of run in turn and the rest at random, so as many seeds in a row as there are sorts have one of each.

use crate::calls::{complete, copy, force, format, recover, release, release_all, reserve};
use crate::gen::roomy_op_buffer;
use crate::layout::{record_size, FIRST_RING_WORD, HEADER_WORDS, MAX_IMAGE_WORDS, MAX_LENGTH};
use crate::ops::OP_WORDS;
use crate::rng::Rng;
use crate::state::{Stage, State};
use crate::vet::free_words;

/// A log in use, and the ops of its last calls.
#[derive(Clone)]
pub struct Case {
    pub state: State,
    pub image: Vec<u64>,
    pub op_buffers: Vec<Vec<u64>>,
}

/// The name of a sort, and how a case of it is made.
pub type Sort = (&'static str, fn(&mut Rng) -> Case);

pub const SORTS: [Sort; 9] = [
    ("fresh", |rng| run(rng, 40, 90, 0, false)),
    ("smallest", |rng| run(rng, 40, 40, 60, false)),
    ("few records", |rng| run(rng, 41, 90, 20, false)),
    ("round the ring's end", |rng| run(rng, 44, 64, 150, false)),
    ("many records", |rng| run(rng, 400, 1_200, 900, false)),
    ("largest", |rng| run(rng, MAX_IMAGE_WORDS, MAX_IMAGE_WORDS, 120, false)),
    ("no free word", |rng| run(rng, 40, 90, 40, true)),
    ("no free word round the ring's end", |rng| run(rng, 44, 64, 150, true)),
    ("nothing live", |rng| {
        let mut log = run(rng, 44, 64, 60, false);
        let Case { state, image, .. } = &mut log;
        let last = state.next_lsn - 1;
        let mut ops = vec![0; roomy_op_buffer(image.len() as u64) as usize];
        for lsn in state.live() {
            let _ = complete(image, &mut ops, state, lsn);
        }
        let _ = force(image, &mut ops, state, last, 1);
        let _ = release_all(image, &mut ops, state);
        log
    }),
];

/// The case of a seed, and the name of its sort.
pub fn case(seed: u64) -> (&'static str, Case) {
    let (name, make) = SORTS[(seed % SORTS.len() as u64) as usize];
    (name, make(&mut Rng::new(seed ^ 0x12_12)))
}

/// So many random calls on an image of `least` to `most` words; at the end, if asked for, a record that takes all that is free.
fn run(rng: &mut Rng, least: u64, most: u64, steps: u64, fill: bool) -> Case {
    let words = rng.between(least, most);
    let mut image: Vec<u64> = (0..words).map(|_| rng.next_u64()).collect();
    let mut ops = vec![0; roomy_op_buffer(words) as usize];
    let mut op_buffers = Vec::new();
    let keep = |op_buffers: &mut Vec<Vec<u64>>, ops: &[u64], count: usize| {
        op_buffers.push(ops[..OP_WORDS * count].to_vec());
        if op_buffers.len() > 8 {
            op_buffers.remove(0);
        }
    };
    let done = format(&mut image, &mut ops).expect("a good size");
    let mut state = done.answer;
    keep(&mut op_buffers, &ops, done.op_count);
    let longest = rng.pick(&[0, 8, 17, 40, (words / 3) * 8]).min(MAX_LENGTH);
    for _ in 0..steps {
        let lsn = rng.between(state.head_lsn, state.next_lsn.max(state.head_lsn + 1) - 1);
        let (image, state) = (&mut image, &mut state);
        let count = match rng.below(20) {
            0..=7 => {
                let (kind, length) = (rng.between(1, 65_535), rng.below(longest + 1));
                match reserve(image, &mut ops, state, kind, length) {
                    Ok(done) => Some(done.op_count),
                    // The oldest makes room.
                    Err(_) => {
                        let head = state.head_lsn;
                        release(image, &mut ops, state, head).ok().map(|done| done.op_count)
                    }
                }
            }
            8..=9 => {
                let bytes = rng.bytes(state.entry(lsn).length);
                copy(image, &mut ops, state, lsn, 0, &bytes).ok().map(|done| done.op_count)
            }
            10..=14 => {
                // The oldest that is open, so that a force can follow.
                let open = state.live().find(|&lsn| state.entry(lsn).stage == Stage::Open);
                let done = open.and_then(|lsn| complete(image, &mut ops, state, lsn).ok());
                done.map(|done| done.op_count)
            }
            15..=17 => force(image, &mut ops, state, lsn, 1).ok().map(|done| done.op_count),
            18 => release(image, &mut ops, state, lsn).ok().map(|done| done.op_count),
            _ if rng.chance(1, 6) => recover(image, &mut ops).ok().map(|done| {
                *state = done.answer;
                done.op_count
            }),
            _ if rng.chance(1, 6) => {
                release_all(image, &mut ops, state).ok().map(|done| done.op_count)
            }
            _ => None,
        };
        if let Some(count) = count {
            keep(&mut op_buffers, &ops, count);
        }
    }
    if fill {
        // All but the terminator's word, if one record can take it.
        let left = state.capacity - state.used_words() - 1;
        if left >= HEADER_WORDS && 8 * (left - HEADER_WORDS) <= MAX_LENGTH {
            let length = 8 * (left - HEADER_WORDS);
            assert_eq!(record_size(length), left);
            if let Ok(done) = reserve(&mut image, &mut ops, &mut state, 9, length) {
                keep(&mut op_buffers, &ops, done.op_count);
            }
        }
    }
    Case { state, image, op_buffers }
}

// ---------------------------------------------------------------- op buffers

/// Ops at every edge, each alone; then several together, the bad ones anywhere, and groups of fewer than three words.
pub fn op_buffers(rng: &mut Rng, case: &Case) -> Vec<Vec<u64>> {
    let alone = edges(rng, case);
    let mut buffers = vec![Vec::new()];
    buffers.extend(alone.iter().map(|op| op.to_vec()));
    // What real calls left, once alone and once behind one another.
    buffers.extend(case.op_buffers.iter().cloned());
    buffers.push(case.op_buffers.concat());
    let good = good_ops(rng, case);
    for _ in 0..12 {
        let mut ops: Vec<[u64; OP_WORDS]> = (0..rng.below(20)).map(|_| rng.pick(&good)).collect();
        for _ in 0..rng.below(3) {
            let at = rng.below(ops.len() as u64 + 1) as usize;
            ops.insert(at, rng.pick(&alone));
        }
        let mut words = ops.concat();
        if rng.chance(1, 3) {
            // A group that is not whole: of a good op, or of anything.
            let group = if rng.chance(1, 2) { rng.pick(&good) } else { rng.pick(&alone) };
            words.extend(&group[..rng.between(1, 2) as usize]);
        }
        buffers.push(words);
    }
    for rest in [1, 2] {
        buffers.push(good[0][..rest].to_vec());
        buffers.push([1, FIRST_RING_WORD, 0][..rest].to_vec());
        buffers.push(vec![0; rest]);
    }
    buffers
}

/// Stores at each edge of the live records and of the image, flushes of each size, other codes.
fn edges(rng: &mut Rng, case: &Case) -> Vec<[u64; OP_WORDS]> {
    let words = case.image.len() as u64;
    let state = &case.state;
    let capacity = state.capacity;
    let word_at = |position: u64| FIRST_RING_WORD + position % capacity;
    let mut stores = vec![0, 8, 16, 22, 23, 24, 25, words - 2, words - 1, words, words + 1];
    stores.extend([8_191, 8_192, 1 << 32, 1 << 63, u64::MAX - 23, u64::MAX - 1, u64::MAX]);
    stores.push(24_u64.wrapping_sub(words));
    for lsn in state.live().step_by(1 + (state.live().count() / 20)) {
        let entry = state.entry(lsn);
        let (first, size) = (entry.position + capacity, entry.size());
        stores.extend([first - 1, first, first + 1, first + size - 1, first + size].map(word_at));
    }
    for position in [state.head_position, state.next_position] {
        stores.extend(
            [capacity - 1, capacity, capacity + 1, capacity + 2].map(|i| word_at(position + i)),
        );
    }
    let mut ops: Vec<[u64; OP_WORDS]> =
        stores.into_iter().map(|word| [1, word, rng.next_u64()]).collect();
    let near = u64::MAX;
    ops.extend(
        [
            (0, 0),
            (5, 0),
            (words, 0),
            (0, 1),
            (0, words),
            (0, words + 1),
            (1, words - 1),
            (1, words),
            (words - 1, 1),
            (words - 1, 2),
            (words, 1),
            (24, words - 24),
            (near, 1),
            (near, 2),
            (near - words + 2, words),
            (near, near),
            (1, near),
            (2, near),
            (words, near - words + 2),
            (1 << 63, 1 << 63),
            ((1 << 63) + 1, 1 << 63),
            (near, 0),
        ]
        .map(|(first, count)| [2, first, count]),
    );
    let (free, any) = (word_at(state.next_position + 1), rng.next_u64());
    for code in [0, 3, 4, 255, 1 << 32 | 1, 1 << 32 | 2, 1 << 63 | 1, near] {
        ops.push([code, free, any]);
        ops.push([code, 0, 1]);
    }
    ops
}

/// Ops that pass: stores to free words, if there are any, and flushes.
fn good_ops(rng: &mut Rng, case: &Case) -> Vec<[u64; OP_WORDS]> {
    let words = case.image.len() as u64;
    let free = free_words(&case.state, words);
    let free: Vec<u64> = (0..words).filter(|&word| free[word as usize]).collect();
    let mut ops: Vec<[u64; OP_WORDS]> = (0..10)
        .map(|_| {
            let first = rng.below(words);
            [2, first, rng.between(1, words - first)]
        })
        .collect();
    if !free.is_empty() {
        ops.extend((0..30).map(|_| [1, rng.pick(&free), rng.next_u64()]));
        ops.extend([free[0], free[free.len() - 1]].map(|word| [1, word, rng.next_u64()]));
    }
    rng.shuffle(&mut ops);
    ops
}
