//! The check of another unit's ops: worked examples on an image of 40 words, every edge, what the generator of the comparison through C
//! reaches, and wrong rules, each of which the crash bench catches.

use reference::calls::{complete, force, format, release, reserve, walk};
use reference::crash::{crash_bench_by, Program};
use reference::layout::FIRST_RING_WORD;
use reference::refusal::Refusal;
use reference::state::{Stage, State};
use reference::vet::{free_words, vet, Rule};
use reference::vet_calls::ask;
use reference::vet_cases::{case, SORTS};
use std::collections::BTreeSet;
use std::path::PathBuf;
use std::time::Duration;

const WORDS: u64 = 40;

/// C = 16: a durable record of five words at positions 0 to 4, an open one of three at 5 to 7, so the terminator is at 8.
fn log() -> (State, Vec<u64>) {
    let mut image = vec![0x7777; WORDS as usize];
    let mut ops = [0; 100];
    let mut state = format(&mut image, &mut ops).unwrap().answer;
    reserve(&mut image, &mut ops, &mut state, 17, 16).unwrap();
    complete(&mut image, &mut ops, &mut state, 1).unwrap();
    force(&mut image, &mut ops, &mut state, 1, 1).unwrap();
    reserve(&mut image, &mut ops, &mut state, 17, 0).unwrap();
    (state, image)
}

fn bad(number: u64) -> Result<u64, Refusal> {
    Err(Refusal::BadOp { number })
}

#[test]
fn stores_go_to_free_words_only() {
    let (state, image) = log();
    let passing: Vec<u64> =
        (0..60).filter(|&word| vet(&state, &image, &[1, word, 5]) == Ok(1)).collect();
    assert_eq!(passing, (33..40).collect::<Vec<u64>>());
    for word in [1 << 32, 1 << 63, u64::MAX] {
        assert_eq!(vet(&state, &image, &[1, word, 5]), bad(0));
    }
}

#[test]
fn flushes_are_of_one_word_or_more_inside_the_image() {
    let (state, image) = log();
    for (first, count) in [(0, 1), (0, 40), (39, 1), (1, 39), (24, 5)] {
        assert_eq!(vet(&state, &image, &[2, first, count]), Ok(1));
    }
    let max = u64::MAX;
    for (first, count) in [(0, 0), (39, 0), (40, 0), (0, 41), (1, 40), (40, 1), (max, 1), (max, 2)]
    {
        assert_eq!(vet(&state, &image, &[2, first, count]), bad(0));
    }
    for (first, count) in [(1, max), (2, max), (1 << 63, 1 << 63), (max, max)] {
        assert_eq!(vet(&state, &image, &[2, first, count]), bad(0));
    }
}

#[test]
fn the_lowest_op_that_does_not_pass() {
    let (state, image) = log();
    assert_eq!(vet(&state, &image, &[]), Ok(0));
    assert_eq!(vet(&state, &image, &[1, 33, 0, 2, 0, 40, 1, 39, 7]), Ok(3));
    assert_eq!(vet(&state, &image, &[1, 33, 0, 1, 24, 0, 2, 0, 0]), bad(1));
    assert_eq!(vet(&state, &image, &[1, 33, 0, 2, 0, 40, 2, 0, 0]), bad(2));
    assert_eq!(vet(&state, &image, &[3, 33, 0]), bad(0));
    assert_eq!(vet(&state, &image, &[0, 33, 0]), bad(0));
    // A group that is not whole is the last op.
    assert_eq!(vet(&state, &image, &[1, 33, 0, 2]), bad(1));
    assert_eq!(vet(&state, &image, &[1, 33, 0, 2, 0]), bad(1));
    assert_eq!(vet(&state, &image, &[1]), bad(0));
}

#[test]
fn image_and_state_come_first() {
    let (state, image) = log();
    let wrong = [3, 0, 0];
    assert_eq!(vet(&state, &image[1..], &wrong), Err(Refusal::ImageSize));
    assert_eq!(vet(&state, &[&image[..], &[0]].concat(), &wrong), Err(Refusal::ImageSize));
    let unsound = State { epoch: 0, ..state.clone() };
    assert_eq!(vet(&unsound, &image, &wrong), Err(Refusal::Unsound));
    assert_eq!(vet(&unsound, &image[1..], &wrong), Err(Refusal::ImageSize));
    // Of the image only the length counts.
    assert_eq!(vet(&state, &[0; WORDS as usize], &[1, 33, 0]), Ok(1));
}

/// A released record stays a live one until the head is past it.
#[test]
fn released_records_are_not_free() {
    let (mut state, mut image) = log();
    let mut ops = [0; 100];
    complete(&mut image, &mut ops, &mut state, 2).unwrap();
    force(&mut image, &mut ops, &mut state, 2, 1).unwrap();
    release(&mut image, &mut ops, &mut state, 2).unwrap();
    assert_eq!(vet(&state, &image, &[1, 29, 0]), bad(0));
    release(&mut image, &mut ops, &mut state, 1).unwrap();
    assert_eq!((state.head_lsn, state.next_position), (3, 8));
    assert_eq!(vet(&state, &image, &[1, 29, 0]), Ok(1));
    assert_eq!(vet(&state, &image, &[1, 32, 0]), bad(0));
}

/// What passed is to be carried out at once: a call in between makes it another matter.
#[test]
fn a_call_in_between() {
    let (mut state, mut image) = log();
    let ops_of_another = [1, 33, 0x0003_0001_0000_0000];
    assert_eq!(vet(&state, &image, &ops_of_another), Ok(1));
    let mut ops = [0; 100];
    complete(&mut image, &mut ops, &mut state, 2).unwrap();
    reserve(&mut image, &mut ops, &mut state, 17, 0).unwrap();
    assert_eq!(vet(&state, &image, &ops_of_another), bad(0));
    complete(&mut image, &mut ops, &mut state, 3).unwrap();
    force(&mut image, &mut ops, &mut state, 3, 1).unwrap();
    assert!(walk(&image).is_ok());
    image[33] = ops_of_another[2];
    assert!(walk(&image).is_err());
}

/// Every sort of case is reached, and with them every answer: passed op buffers, empty and long, and each refusal.
#[test]
fn the_comparison_reaches_every_answer() {
    let mut numbers = BTreeSet::new();
    let (mut passed, mut highest, mut none_free) = (0, 0, 0);
    for seed in 0..2 * SORTS.len() as u64 {
        let (name, case) = case(seed);
        assert!(case.state.is_sound(), "{name}");
        let words = case.image.len() as u64;
        none_free += u64::from(!free_words(&case.state, words).contains(&true));
        for answer in ask(seed, &case).answers {
            match answer {
                Ok(count) => passed = passed.max(count),
                Err(refusal) => {
                    numbers.insert(refusal.number());
                    highest = highest.max(refusal.detail());
                }
            }
        }
    }
    assert_eq!(numbers.into_iter().collect::<Vec<u64>>(), [1, 2, 14, 21]);
    assert!(passed >= 15 && highest >= 10 && none_free >= 2, "{passed} {highest} {none_free}");
}

// ---------------------------------------------------------------- wrong rules

fn with_free(mut free: Vec<bool>, words: impl Iterator<Item = u64>) -> Vec<bool> {
    words.for_each(|word| free[word as usize] = true);
    free
}

fn record_words(state: &State, lsn: u64) -> impl Iterator<Item = u64> {
    let (first, size, capacity) =
        (state.entry(lsn).position, state.entry(lsn).size(), state.capacity);
    (first..first + size).map(move |position| FIRST_RING_WORD + position % capacity)
}

fn in_stages(state: &State, words: u64, stages: &[Stage]) -> Vec<bool> {
    let live: Vec<u64> =
        state.live().filter(|&lsn| stages.contains(&state.entry(lsn).stage)).collect();
    with_free(free_words(state, words), live.into_iter().flat_map(|lsn| record_words(state, lsn)))
}

/// Which words a store may go to, each a little too many.
const WRONG: [(&str, Rule); 5] = [
    ("the terminator", |state, words| {
        with_free(free_words(state, words), [FIRST_RING_WORD + state.next_position].into_iter())
    }),
    ("uncommitted records", |state, words| {
        in_stages(state, words, &[Stage::Open, Stage::Complete])
    }),
    ("released records", |state, words| in_stages(state, words, &[Stage::Released])),
    ("the last word of a record", |state, words| {
        let last = state.live().filter_map(|lsn| record_words(state, lsn).last());
        with_free(free_words(state, words), last.collect::<Vec<u64>>().into_iter())
    }),
    ("the superline", |state, words| with_free(free_words(state, words), 0..FIRST_RING_WORD)),
];

#[test]
fn each_wrong_rule_is_caught() {
    let path = PathBuf::from(env!("CARGO_BIN_EXE_reference"));
    let program = Program { path, args: vec!["replay".to_string()] };
    for (name, rule) in WRONG {
        let report = crash_bench_by(&program, rule, 1, Duration::from_secs(60)).unwrap();
        let failure = report.failure.unwrap_or_else(|| panic!("{name} passes"));
        eprintln!("{name}: {} histories, {}", report.histories, failure.what);
    }
}

#[test]
fn the_right_rule_is_tried_often() {
    let path = PathBuf::from(env!("CARGO_BIN_EXE_reference"));
    let program = Program { path, args: vec!["replay".to_string()] };
    // Three seconds do; on a busy machine other histories follow, for a minute at most.
    let (mut passed, mut passed_crashes) = (0, 0);
    for round in 0..20 {
        let report = crash_bench_by(&program, free_words, 4_000 + 10_000 * round, Duration::from_secs(3)).unwrap();
        assert!(report.failure.is_none(), "{:?}", report.failure);
        passed += report.passed;
        passed_crashes += report.passed_crashes;
        if passed > 10 && passed_crashes > 5 {
            return;
        }
    }
    panic!("{passed} op buffers of another unit passed, {passed_crashes} crashes in them");
}
