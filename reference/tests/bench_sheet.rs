//! The bench sheet of document 01, row by row, and the published CRC-32 values.

use reference::calls::{
    complete, copy, force, format, release, reserve, walk, Done, Forced, Reserved,
};
use reference::layout::{
    crc32, record_check, record_size, CheckWord, Header, Superline, COPY_FIRST_WORD,
    MARK_COMMITTED, MARK_NONE,
};
use reference::loglist::loglist;
use reference::logwhy::logwhy;
use reference::ops::{Op, OP_WORDS};
use reference::refusal::Refusal;
use reference::state::State;

/// Image, op buffer and state, with calls that give answer and ops.
#[derive(Clone)]
struct Log {
    image: Vec<u64>,
    op_buffer: Vec<u64>,
    state: State,
}

type Answer<A> = Result<(A, Vec<Op>), Refusal>;

impl Log {
    /// A fresh log whose ring has `capacity` words.
    fn fresh(capacity: usize) -> Log {
        let mut image = vec![0x5555_5555; capacity + 24];
        let mut op_buffer = vec![0; 1_600];
        let state = format(&mut image, &mut op_buffer).unwrap().answer;
        Log { image, op_buffer, state }
    }

    fn with_ops<A>(&self, done: Done<A>) -> (A, Vec<Op>) {
        let ops = self.op_buffer.chunks(OP_WORDS).take(done.op_count).map(|op| match op {
            &[1, word, value] => Op::Store { word, value },
            &[2, first, count] => Op::Flush { first, count },
            other => panic!("no op: {other:?}"),
        });
        (done.answer, ops.collect())
    }

    fn reserve(&mut self, kind: u64, length: u64) -> Answer<Reserved> {
        let done = reserve(&mut self.image, &mut self.op_buffer, &mut self.state, kind, length)?;
        Ok(self.with_ops(done))
    }

    fn copy(&mut self, lsn: u64, offset: u64, bytes: &[u8]) -> Answer<()> {
        let done = copy(&mut self.image, &mut self.op_buffer, &mut self.state, lsn, offset, bytes)?;
        Ok(self.with_ops(done))
    }

    fn complete(&mut self, lsn: u64) -> Answer<()> {
        let done = complete(&mut self.image, &mut self.op_buffer, &mut self.state, lsn)?;
        Ok(self.with_ops(done))
    }

    fn force(&mut self, lsn: u64, frequency: u64) -> Answer<Forced> {
        let done = force(&mut self.image, &mut self.op_buffer, &mut self.state, lsn, frequency)?;
        Ok(self.with_ops(done))
    }

    fn release(&mut self, lsn: u64) -> Answer<()> {
        let done = release(&mut self.image, &mut self.op_buffer, &mut self.state, lsn)?;
        Ok(self.with_ops(done))
    }
}

fn store(word: u64, value: u64) -> Op {
    Op::Store { word, value }
}

fn flush(first: u64, count: u64) -> Op {
    Op::Flush { first, count }
}

/// C = 16 with one record of kind 17 and the bytes 41 42 43, still open.
fn abc() -> Log {
    let mut log = Log::fresh(16);
    log.reserve(17, 3).unwrap();
    log.copy(1, 0, &[0x41, 0x42, 0x43]).unwrap();
    log
}

#[test]
fn sizes() {
    assert_eq!([0, 1, 8, 9, 1_024].map(record_size), [3, 4, 4, 5, 131]);
}

#[test]
fn word_0() {
    let header = Header { length: 3, kind: 17, mark: MARK_NONE };
    assert_eq!(header.word(), 73_014_444_035);
    assert_eq!(Header { mark: MARK_COMMITTED, ..header }.word(), 281_547_991_154_691);
    assert_eq!(Header::of_word(73_014_444_035), header);
}

#[test]
fn first_word_of_a_copy() {
    assert_eq!(COPY_FIRST_WORD, 4_294_967_336);
    let superline = Superline { capacity: 16, head_position: 0, head_lsn: 1, epoch: 1 };
    assert_eq!(superline.words()[0], 4_294_967_336);
}

#[test]
fn formatting_40_words() {
    let old: Vec<u64> = (0..40).map(|i| 1_000 + i).collect();
    let mut image = old.clone();
    let mut op_buffer = vec![9; 34];
    let done = format(&mut image, &mut op_buffer).unwrap();
    assert_eq!(done.op_count, 11);
    assert_eq!(done.answer, State::fresh(16));
    let words = Superline { capacity: 16, head_position: 0, head_lsn: 1, epoch: 1 }.words();
    let mut ops: Vec<Op> = (8..).zip(words).map(|(word, value)| store(word, value)).collect();
    ops.extend([store(24, 0), flush(8, 6), flush(24, 1), store(0, 0), flush(0, 1)]);
    let encoded: Vec<u64> = ops.iter().flat_map(|op| op.encode()).collect();
    assert_eq!(op_buffer[..33], encoded);
    assert_eq!(op_buffer[33], 9);

    let mut expected = old.clone();
    expected[0] = 0;
    expected[8..14].copy_from_slice(&words);
    expected[24] = 0;
    assert_eq!(image, expected);

    let mut short = vec![9; 32];
    let mut image = old.clone();
    let refusal = format(&mut image, &mut short).unwrap_err();
    assert_eq!((refusal.number(), refusal.detail()), (15, 33));
    assert_eq!((image, short), (old.clone(), vec![9; 32]));

    let mut image = old[..39].to_vec();
    assert_eq!(format(&mut image, &mut op_buffer).unwrap_err().number(), 1);
}

#[test]
fn room_of_16_words() {
    assert!(Log::fresh(16).reserve(1, 96).is_ok());
    assert_eq!(Log::fresh(16).reserve(1, 97).unwrap_err().number(), 10);
}

#[test]
fn reserving_3_bytes() {
    let (reserved, ops) = Log::fresh(16).reserve(17, 3).unwrap();
    assert_eq!(reserved, Reserved { lsn: 1, position: 0 });
    let values = [73_014_444_035, 1, 0, 0, 0];
    let expected: Vec<Op> = (24..29).zip(values).map(|(word, value)| store(word, value)).collect();
    assert_eq!(ops, expected);
}

#[test]
fn copying_3_bytes() {
    let mut log = Log::fresh(16);
    log.reserve(17, 3).unwrap();
    let ((), ops) = log.copy(1, 0, &[0x41, 0x42, 0x43]).unwrap();
    assert_eq!(ops, [store(27, 0x43_42_41)]);
}

#[test]
fn complete_and_force() {
    let mut log = abc();
    let ((), ops) = log.complete(1).unwrap();
    // The check, and above it the epoch of a fresh log, 1.
    let check = record_check(3, 17, 1, b"ABC".iter().copied());
    assert_eq!(ops, [store(26, check + (1 << 32))]);
    assert_eq!(CheckWord::of_word(log.image[26]), CheckWord { check, epoch: 1 });
    let (forced, ops) = log.force(1, 1).unwrap();
    assert_eq!(forced, Forced::Durable);
    assert_eq!(ops, [flush(24, 5), store(24, 281_547_991_154_691), flush(24, 1)]);
}

#[test]
fn force_put_off() {
    let mut log = abc();
    log.complete(1).unwrap();
    assert_eq!(log.force(1, 8).unwrap(), (Forced::Deferred, vec![]));
}

#[test]
fn force_over_an_open_record() {
    let mut log = Log::fresh(16);
    log.reserve(1, 0).unwrap();
    log.reserve(1, 0).unwrap();
    log.complete(2).unwrap();
    let refusal = log.force(2, 1).unwrap_err();
    assert_eq!((refusal.number(), refusal.detail()), (11, 1));
}

#[test]
fn going_round() {
    let mut log = Log::fresh(16);
    log.reserve(1, 40).unwrap();
    log.complete(1).unwrap();
    log.force(1, 1).unwrap();
    let ((), ops) = log.release(1).unwrap();
    assert_eq!(ops.len(), 10);
    let (reserved, ops) = log.reserve(1, 72).unwrap();
    assert_eq!(reserved, Reserved { lsn: 2, position: 8 });
    assert_eq!(ops.last(), Some(&store(24 + 4, 0)));
    log.complete(2).unwrap();
    let (_, ops) = log.force(2, 1).unwrap();
    assert_eq!(ops[..2], [flush(32, 8), flush(24, 5)]);
}

#[test]
fn copies_into_12_bytes() {
    let mut log = Log::fresh(16);
    log.reserve(1, 12).unwrap();
    let ((), ops) = log.copy(1, 6, &[1, 2, 3, 4]).unwrap();
    assert_eq!(ops, [store(27, 0x0201_0000_0000_0000), store(28, 0x0403)]);
    assert_eq!(log.copy(1, 9, &[0; 4]).unwrap_err().number(), 7);
    assert_eq!(log.copy(1, 12, &[]).unwrap(), ((), vec![]));
}

#[test]
fn published_check_values() {
    assert_eq!(crc32(*b""), 0x0000_0000);
    assert_eq!(crc32(*b"a"), 0xE8B7_BE43);
    assert_eq!(crc32(*b"123456789"), 0xCBF4_3926);
    assert_eq!(crc32([0x00; 32]), 0x190A_55AD);
    assert_eq!(crc32([0xFF; 32]), 0xFF6C_AB0B);
    assert_eq!(crc32(0..32), 0x9126_7E8A);
}

/// The proved program crc_check owes the same values: the file `stdout` of its crate.
#[test]
fn the_expected_output_of_crc_check_is_the_published_values() {
    let values = [
        crc32(*b""),
        crc32(*b"a"),
        crc32(*b"123456789"),
        crc32([0x00; 32]),
        crc32([0xFF; 32]),
        crc32(0..32),
    ];
    let lines: String = values.iter().map(|value| format!("{value:08x}\n")).collect();
    assert_eq!(include_str!("../../crates/crc_check/stdout"), lines);
}

#[test]
fn forcing_every_eighth() {
    let mut log = Log::fresh(100);
    for lsn in 1..=9 {
        log.reserve(1, 5).unwrap();
        log.complete(lsn).unwrap();
    }
    assert_eq!(log.force(7, 8).unwrap(), (Forced::Deferred, vec![]));
    let keeps = |log: &Log, lsn: u64, first: u64| {
        let mut log = log.clone();
        let (forced, ops) = log.force(lsn, 8).unwrap();
        let kept = lsn - first + 1;
        assert_eq!(forced, Forced::Durable);
        assert_eq!(ops.len() as u64, 1 + 2 * kept);
        assert_eq!(ops[0], flush(24 + 4 * (first - 1), 4 * kept + 1));
        assert_eq!(log.state.committed_lsn, lsn);
        let (records, end) = walk(&log.image).unwrap();
        assert_eq!(records.len() as u64, lsn);
        assert_eq!(end.lsn, lsn + 1);
    };
    keeps(&log, 8, 1);
    // Change request 3: the eighth is in the stretch, so the ninth keeps nine.
    keeps(&log, 9, 1);
    // With 1 to 3 committed it keeps six, and the seventh is put off.
    log.force(3, 1).unwrap();
    assert_eq!(log.force(7, 8).unwrap(), (Forced::Deferred, vec![]));
    keeps(&log, 9, 4);
}

#[test]
fn a_multiple_at_the_committed_lsn_does_not_count() {
    let mut log = Log::fresh(100);
    for lsn in 1..=9 {
        log.reserve(1, 5).unwrap();
        log.complete(lsn).unwrap();
    }
    log.force(8, 8).unwrap();
    assert_eq!(log.force(9, 8).unwrap(), (Forced::Deferred, vec![]));
    assert_eq!(log.force(9, 1 << 62).unwrap(), (Forced::Deferred, vec![]));
    assert_eq!(log.force(9, u64::MAX).unwrap(), (Forced::Deferred, vec![]));
}

// ---------------------------------------------------------------- loglist

fn bytes(image: &[u64]) -> Vec<u8> {
    image.iter().flat_map(|word| word.to_le_bytes()).collect()
}

#[test]
fn loglist_sample() {
    let mut log = abc();
    log.complete(1).unwrap();
    log.force(1, 1).unwrap();
    assert_eq!(loglist(&bytes(&log.image)), "lsn kind length data\n1 17 3 414243\nend 2\n");
}

/// The stored image of the program loglist is that one, over old contents; that of logwhy has one bit of the check wrong, and LSN 7
/// is asked for.
#[test]
fn stored_images() {
    let old = (0..40).map(|i| 0xA5A5_A5A5_A5A5_A5A5 ^ i).collect();
    let mut log = Log { image: old, op_buffer: vec![0; 33], state: State::default() };
    log.state = format(&mut log.image, &mut log.op_buffer).unwrap().answer;
    log.reserve(17, 3).unwrap();
    log.copy(1, 0, b"ABC").unwrap();
    log.complete(1).unwrap();
    log.force(1, 1).unwrap();
    assert_eq!(bytes(&log.image), include_bytes!("../../crates/loglist/stdin"));
    let listing = include_str!("../../crates/loglist/stdout");
    assert_eq!(loglist(&bytes(&log.image)), listing);

    log.image[26] ^= 1;
    log.image.push(7);
    let input = bytes(&log.image);
    assert_eq!(input, include_bytes!("../../crates/logwhy/stdin"));
    assert_eq!(logwhy(&input), include_str!("../../crates/logwhy/stdout"));
}

#[test]
fn loglist_other_endings() {
    let mut log = Log::fresh(1_000);
    for lsn in 1..=3 {
        log.reserve(lsn, 0).unwrap();
        log.complete(lsn).unwrap();
    }
    log.force(3, 1).unwrap();
    log.release(2).unwrap();
    let heading = "lsn kind length data\n";
    assert_eq!(loglist(&bytes(&log.image)), format!("{heading}1 1 0 -\n3 3 0 -\nend 4\n"));

    let mut damaged = log.image.clone();
    damaged[24 + 7] = 9; // the LSN of record 3
    assert_eq!(loglist(&bytes(&damaged)), format!("{heading}1 1 0 -\ndamaged 3 LSN\n"));

    for lsn in 4..=256 {
        log.reserve(lsn, 0).unwrap();
        log.complete(lsn).unwrap();
    }
    log.force(256, 1).unwrap();
    log.image[24 + 256 * 3] = 1 << 48;
    assert!(loglist(&bytes(&log.image)).ends_with("\n256 256 0 -\ntoomany 257\n"));
}

#[test]
fn loglist_refusals() {
    let log = Log::fresh(16);
    let good = bytes(&log.image);
    assert_eq!(loglist(&good), "lsn kind length data\nend 1\n");
    assert_eq!(loglist(&[]), "refused 1\n");
    assert_eq!(loglist(&good[1..]), "refused 1\n");
    assert_eq!(loglist(&good[8..]), "refused 1\n");
    assert_eq!(loglist(&[0; 8 * 8_193]), "refused 1\n");
    assert_eq!(loglist(&[0; 8 * 40]), "refused 4\n");
}
