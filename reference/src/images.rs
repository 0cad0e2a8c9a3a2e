//! Images of every sort, as bytes: whole logs, each way in which a record or a superline can be wrong, every wrong size.
//!
//! The seed chooses the sort in turn and the rest at random, so as many seeds in a row as there are sorts have one of each. Where one
//! test is to fail, the check is made to fit and the epoch stays, so that no other test hides it.

use crate::gen;
use crate::layout::{
    record_check, record_size, CheckWord, Header, Superline, FIRST_RING_WORD, LSN_LIMIT,
    MARK_COMMITTED, MARK_RELEASED, MAX_CAPACITY, MAX_EPOCH, MAX_IMAGE_WORDS, MAX_KIND, MAX_LENGTH,
    MIN_CAPACITY, MIN_IMAGE_WORDS, OLD_TABLE_SIZE, TABLE_SIZE,
};
use crate::rng::Rng;
use crate::samples::{full_image_length, Record, Written};

/// The name of a sort, and how an image of it is made.
pub type Sort = (&'static str, fn(&mut Rng) -> Vec<u8>);

pub const SORTS: [Sort; 49] = [
    // Whole logs.
    ("few records", |rng| whole(rng, 0, 8, 0)),
    ("some released", |rng| whole(rng, 1, 20, 2)),
    ("all released", |rng| whole(rng, 1, 20, 1)),
    ("old table's neighbours", |rng| whole(rng, OLD_TABLE_SIZE - 1, OLD_TABLE_SIZE + 1, 5)),
    ("more than the old table", |rng| whole(rng, OLD_TABLE_SIZE + 2, TABLE_SIZE - 2, 5)),
    ("nearly full table", |rng| whole(rng, TABLE_SIZE - 1, TABLE_SIZE - 1, 5)),
    ("full table", |rng| whole(rng, TABLE_SIZE, TABLE_SIZE, 5)),
    ("full image of 64", |rng| full_image(rng, OLD_TABLE_SIZE)),
    ("full image of 256", |rng| full_image(rng, TABLE_SIZE)),
    ("longest payload", longest_payload),
    ("last LSNs", last_lsns),
    ("padding set", padding_set),
    ("epochs all 0", |rng| with_epochs(rng, |_, _, epochs| epochs.fill(0))),
    ("epochs all the superline's", |rng| {
        with_epochs(rng, |_, superline, epochs| epochs.fill(superline))
    }),
    ("a history's image", |rng| gen::image(rng.next_u64())),
    // Too many records.
    ("too many", |rng| too_many(rng).bytes()),
    ("too many, the 257th damaged", |rng| wreck(rng, too_many, TABLE_SIZE..TABLE_SIZE + 1)),
    ("damage before too many", |rng| wreck(rng, too_many, 0..TABLE_SIZE)),
    ("damage where the old table ended", |rng| {
        wreck(rng, many, OLD_TABLE_SIZE - 1..OLD_TABLE_SIZE + 2)
    }),
    // Damage in one record.
    ("mark", |rng| header(rng, |rng, good| Header { mark: rng.between(3, 65_535), ..good })),
    ("kind", |rng| header(rng, |_, good| Header { kind: 0, ..good })),
    ("length", |rng| {
        header(rng, |rng, good| Header { length: rng.pick(&[1_025, 8_192, 0xFFFF_FFFF]), ..good })
    }),
    ("fit", fit),
    ("LSN", |rng| word_1(rng, |rng, lsn| rng.pick(&[lsn - 1, lsn + 1, 0, u64::MAX]))),
    ("LSN above its range", lsn_above_range),
    ("check", |rng| flip(rng, 2..3, 0..32)),
    ("epoch falls", |rng| wrong_epoch(rng, false).0.bytes()),
    ("epoch passes the superline's", |rng| wrong_epoch(rng, true).0.bytes()),
    ("epochs mixed with 0", |rng| with_epochs(rng, mix_with_zero)),
    ("epoch of a released record", released_epoch),
    ("epoch and check", epoch_and_check),
    ("epoch, the superline's too low", superline_too_low),
    ("epoch, one bit", |rng| flip(rng, 2..3, 32..64)),
    ("LSN, check left", |rng| flip(rng, 1..2, 0..64)),
    ("kind, check left", |rng| flip(rng, 0..1, 32..48)),
    ("payload", |rng| flip(rng, 3..5, 0..64)),
    // Faults of the superline.
    ("selector", |rng| first_word(rng, 0, &[2, 3, 1 << 32, u64::MAX])),
    ("other copy", |rng| first_word(rng, 0, &[0])),
    ("first word", |rng| first_word(rng, 16, &[0, 40, 41 | 1 << 32, 40 | 1 << 32 | 1 << 48])),
    ("capacity", |rng| {
        superline(rng, |rng, good| Superline { capacity: near(rng, good.capacity), ..good })
    }),
    ("head position", |rng| {
        superline(rng, |rng, good| Superline {
            head_position: good.capacity + rng.pick(&[0, 1, 1 << 32]),
            ..good
        })
    }),
    ("head LSN", |rng| {
        superline(rng, |rng, good| Superline {
            head_lsn: rng.pick(&[0, LSN_LIMIT + 1, u64::MAX]),
            ..good
        })
    }),
    ("epoch", |rng| {
        superline(rng, |rng, good| Superline {
            epoch: rng.pick(&[0, MAX_EPOCH + 1, u64::MAX]),
            ..good
        })
    }),
    ("superline's check", |rng| {
        let mut log = some_log(rng);
        log.image[21] ^= 1 << rng.below(64);
        log.bytes()
    }),
    // Sizes.
    ("empty", |_| Vec::new()),
    ("odd byte count", odd_count),
    ("too short", |rng| {
        let words = rng.below(MIN_IMAGE_WORDS);
        some_log(rng).bytes()[..8 * words as usize].to_vec()
    }),
    ("too long", |rng| {
        let mut bytes = full_image(rng, OLD_TABLE_SIZE);
        bytes.resize(8 * rng.pick(&[MAX_IMAGE_WORDS + 1, MAX_IMAGE_WORDS + 100]) as usize, 0);
        bytes
    }),
    ("noise", |rng| {
        let words = rng.between(MIN_IMAGE_WORDS, 200);
        rng.bytes(8 * words)
    }),
];

/// The image of a seed, and the name of its sort.
pub fn image(seed: u64) -> (&'static str, Vec<u8>) {
    let (name, make) = SORTS[(seed % SORTS.len() as u64) as usize];
    (name, make(&mut Rng::new(seed ^ 0xC0DE)))
}

// ---------------------------------------------------------------- logs

/// So many records, all of them small if they are many; one in `released` is released, none if that is 0.
fn records(rng: &mut Rng, count: usize, released: u64) -> Vec<Record> {
    let one = |_| {
        let mark = match released {
            0 => MARK_COMMITTED,
            _ if rng.chance(1, released) => MARK_RELEASED,
            _ => MARK_COMMITTED,
        };
        let length = match rng.below(10) {
            0 => 0,
            1 if count <= OLD_TABLE_SIZE => rng.below(800),
            2 => rng.below(100),
            _ => rng.below(20),
        };
        let kind = rng.between(1, MAX_KIND);
        Record { kind, mark, epoch: 0, payload: rng.bytes(length) }
    };
    (0..count).map(one).collect()
}

/// The superline's epoch.
fn superline_epoch(rng: &mut Rng) -> u64 {
    match rng.below(4) {
        0 => rng.pick(&[1, MAX_EPOCH - 1, MAX_EPOCH]),
        1 => rng.between(1, MAX_EPOCH),
        _ => rng.between(1, 9),
    }
}

/// So many epochs that do not fall and do not pass the superline's; mostly some are 0 at first.
fn rising_epochs(rng: &mut Rng, count: usize, superline: u64) -> Vec<u64> {
    let first = rng.pick(&[0, 0, 0, 1, superline]);
    let mut epochs: Vec<u64> = (0..count).map(|_| rng.between(first, superline)).collect();
    epochs.sort();
    let stored = rng.below(count as u64 + 1).min(rng.below(count as u64 + 1));
    if first == 0 {
        epochs[..stored as usize].fill(0);
    }
    epochs
}

/// These records somewhere in a ring with so many words more than they need, if there is such a ring.
fn log(rng: &mut Rng, records: &[Record], spare: u64) -> Written {
    let last_head = LSN_LIMIT - records.len() as u64;
    let head_lsn = match rng.below(8) {
        0 => last_head,
        1 => rng.between(1 << 32, last_head),
        2 => 1,
        _ => rng.between(1, 1_000),
    };
    log_from(rng, head_lsn, records, spare)
}

fn log_from(rng: &mut Rng, head_lsn: u64, records: &[Record], spare: u64) -> Written {
    let used: u64 = records.iter().map(|record| record_size(record.payload.len() as u64)).sum();
    let capacity = (used + 1 + spare).clamp(MIN_CAPACITY, MAX_CAPACITY);
    let head_position = rng.below(capacity);
    let words = (FIRST_RING_WORD + capacity) as usize;
    let superline = superline_epoch(rng);
    let mut log = Written::in_epoch(superline, words, head_position, head_lsn, records);
    let epochs = rising_epochs(rng, records.len(), superline);
    set_epochs(&mut log, &epochs);
    log
}

/// The records' epochs, whatever they were.
fn set_epochs(log: &mut Written, epochs: &[u64]) {
    for (position, &epoch) in log.positions.clone().into_iter().zip(epochs) {
        let word = log.word(position, 2);
        *word = CheckWord { epoch, ..CheckWord::of_word(*word) }.word();
    }
}

/// A log of a few records, some of them released.
pub(crate) fn some_log(rng: &mut Rng) -> Written {
    let count = rng.between(1, 12) as usize;
    let records = records(rng, count, 4);
    let spare = rng.below(30);
    log(rng, &records, spare)
}

fn whole(rng: &mut Rng, least: usize, most: usize, released: u64) -> Vec<u8> {
    let count = rng.between(least as u64, most as u64) as usize;
    let records = records(rng, count, released);
    let spare = rng.pick(&[0, 1, 7, 300]);
    log(rng, &records, spare).bytes()
}

/// 8,192 words, as many of them as can be in so many records alike.
pub(crate) fn full_image(rng: &mut Rng, count: usize) -> Vec<u8> {
    let one = |_| Record {
        kind: rng.between(1, MAX_KIND),
        mark: MARK_COMMITTED,
        epoch: 0,
        payload: rng.bytes(full_image_length(count as u64)),
    };
    let records: Vec<Record> = (0..count).map(one).collect();
    log(rng, &records, MAX_CAPACITY).bytes()
}

fn longest_payload(rng: &mut Rng) -> Vec<u8> {
    let mut records = records(rng, 3, 4);
    let which = rng.below(3) as usize;
    records[which].payload = rng.bytes(MAX_LENGTH);
    log(rng, &records, 0).bytes()
}

/// The last record has the last LSN there is.
pub(crate) fn last_lsns(rng: &mut Rng) -> Vec<u8> {
    let count = rng.between(1, 5);
    let records = records(rng, count as usize, 4);
    log_from(rng, LSN_LIMIT - count, &records, 3).bytes()
}

/// Bytes of a last payload word that belong to no payload are not tested.
fn padding_set(rng: &mut Rng) -> Vec<u8> {
    let mut records = records(rng, 4, 4);
    let length = rng.between(1, 7);
    records[1].payload = rng.bytes(length);
    let mut log = log(rng, &records, 5);
    let position = log.positions[1];
    *log.word(position, 3) |= !0 << (8 * length);
    log.bytes()
}

// ---------------------------------------------------------------- too many

/// More records than the old table took, and not too many.
fn many(rng: &mut Rng) -> Written {
    let count = rng.between(OLD_TABLE_SIZE as u64 + 2, TABLE_SIZE as u64) as usize;
    let records = records(rng, count, 3);
    log(rng, &records, 9)
}

pub(crate) fn too_many(rng: &mut Rng) -> Written {
    let count = rng.between(TABLE_SIZE as u64 + 1, TABLE_SIZE as u64 + 6) as usize;
    let released = rng.pick(&[0, 1, 3]);
    let records = records(rng, count, released);
    log(rng, &records, 9)
}

/// Ruins one of these records: its check, kind or mark.
fn wreck(rng: &mut Rng, make: fn(&mut Rng) -> Written, which: std::ops::Range<usize>) -> Vec<u8> {
    let mut log = make(rng);
    let which = rng.between(which.start as u64, which.end as u64 - 1) as usize;
    let position = log.positions[which];
    match rng.below(3) {
        0 => *log.word(position, 2) ^= 1 << rng.below(32),
        1 => *log.word(position, 0) &= !(0xFFFF << 32),
        _ => *log.word(position, 0) |= 3 << 48,
    }
    log.bytes()
}

// ---------------------------------------------------------------- damage

/// A log, and where one of its records begins.
fn log_and_record(rng: &mut Rng) -> (Written, u64) {
    let log = some_log(rng);
    let position = rng.pick(&log.positions);
    (log, position)
}

/// Makes the check of the record that now stands here fit; its epoch stays.
pub(crate) fn check_again(log: &mut Written, position: u64) {
    let Header { length, kind, .. } = Header::of_word(*log.word(position, 0));
    let lsn = *log.word(position, 1);
    let payload = log.ring.payload(&log.image, position, length.min(2 * MAX_LENGTH));
    let check = record_check(length, kind, lsn, payload);
    let word = log.word(position, 2);
    *word = CheckWord { check, ..CheckWord::of_word(*word) }.word();
}

fn header(rng: &mut Rng, change: fn(&mut Rng, Header) -> Header) -> Vec<u8> {
    let (mut log, position) = log_and_record(rng);
    let good = Header::of_word(*log.word(position, 0));
    *log.word(position, 0) = change(rng, good).word();
    check_again(&mut log, position);
    log.bytes()
}

/// The last record is as long as can be, or one byte too long for its terminator.
fn fit(rng: &mut Rng) -> Vec<u8> {
    let mut records = records(rng, 3, 4);
    records[2].payload = rng.bytes(8);
    let spare = rng.below(20);
    let mut log = log(rng, &records, spare);
    let used: u64 =
        records[..2].iter().map(|record| record_size(record.payload.len() as u64)).sum();
    let most = 8 * (log.ring.capacity() - used - 1 - 3);
    let position = log.positions[2];
    let good = Header::of_word(*log.word(position, 0));
    let length = (most + rng.below(3)).min(MAX_LENGTH);
    *log.word(position, 0) = Header { length, ..good }.word();
    check_again(&mut log, position);
    // What just fits ends the log here.
    let behind = log.ring.advance(position, record_size(length));
    if length <= most {
        *log.word(behind, 0) = 0;
    }
    log.bytes()
}

fn word_1(rng: &mut Rng, change: fn(&mut Rng, u64) -> u64) -> Vec<u8> {
    let (mut log, position) = log_and_record(rng);
    let lsn = *log.word(position, 1);
    *log.word(position, 1) = change(rng, lsn);
    check_again(&mut log, position);
    log.bytes()
}

/// A record where 2^62 is expected.
fn lsn_above_range(rng: &mut Rng) -> Vec<u8> {
    let count = rng.between(1, 5);
    let records = records(rng, count as usize, 4);
    log_from(rng, LSN_LIMIT + 1 - count, &records, 3).bytes()
}

/// One bit of these words of a record, if it has them, is not what it was; nothing else changes.
fn flip(rng: &mut Rng, words: std::ops::Range<u64>, bits: std::ops::Range<u64>) -> Vec<u8> {
    let (mut log, position) = log_and_record(rng);
    let word = rng.between(words.start, words.end - 1);
    *log.word(position, word) ^= 1 << rng.between(bits.start, bits.end - 1);
    log.bytes()
}

// ---------------------------------------------------------------- epochs

/// A log of some records whose epochs do not fall and do not pass the superline's, and then are changed.
fn with_epochs(rng: &mut Rng, change: fn(&mut Rng, u64, &mut [u64])) -> Vec<u8> {
    let mut log = some_log(rng);
    let superline = superline_of(&log).epoch;
    let mut epochs = rising_epochs(rng, log.positions.len(), superline);
    change(rng, superline, &mut epochs);
    set_epochs(&mut log, &epochs);
    log.bytes()
}

/// Some are 0, wherever they stand.
fn mix_with_zero(rng: &mut Rng, _superline: u64, epochs: &mut [u64]) {
    epochs.iter_mut().filter(|_| rng.chance(1, 3)).for_each(|epoch| *epoch = 0);
}

/// A log of two records or more in which the epoch of one passes the superline's, or falls; and the number of that record.
fn wrong_epoch(rng: &mut Rng, passes: bool) -> (Written, usize) {
    let count = rng.between(2, 12) as usize;
    let records = records(rng, count, 4);
    let mut log = log(rng, &records, 9);
    let epoch = superline_epoch(rng).min(MAX_EPOCH - 1);
    let superline = Superline { epoch, ..superline_of(&log) };
    set_superline(&mut log, superline);
    let mut epochs = rising_epochs(rng, count, epoch);
    let which = rng.between(1 - u64::from(passes), count as u64 - 1) as usize;
    if passes {
        epochs[which] = rng.pick(&[epoch + 1, MAX_EPOCH]);
    } else {
        // Something to fall from.
        let last = epochs[which - 1].max(1);
        epochs[which - 1] = last;
        epochs[which] = rng.pick(&[0, last - 1, last / 2]);
    }
    set_epochs(&mut log, &epochs);
    (log, which)
}

/// The record whose epoch is wrong is released, or the one before it.
fn released_epoch(rng: &mut Rng) -> Vec<u8> {
    let passes = rng.chance(1, 2);
    let (mut log, which) = wrong_epoch(rng, passes);
    let released = which.saturating_sub(rng.below(2) as usize);
    let position = log.positions[released];
    let word = log.word(position, 0);
    *word = Header { mark: MARK_RELEASED, ..Header::of_word(*word) }.word();
    log.bytes()
}

/// Both halves of a record's word 2 are wrong.
fn epoch_and_check(rng: &mut Rng) -> Vec<u8> {
    let passes = rng.chance(1, 2);
    let (mut log, which) = wrong_epoch(rng, passes);
    let position = log.positions[which];
    *log.word(position, 2) ^= 1 << rng.below(32);
    log.bytes()
}

/// The superline's epoch is below the last record's, as if an older copy were active.
fn superline_too_low(rng: &mut Rng) -> Vec<u8> {
    let mut log = some_log(rng);
    let superline = superline_of(&log);
    let low = Superline { epoch: superline.epoch.max(2) - 1, ..superline };
    let mut epochs = rising_epochs(rng, log.positions.len(), superline.epoch);
    if let Some(last) = epochs.last_mut() {
        *last = low.epoch + 1;
    }
    set_epochs(&mut log, &epochs);
    set_superline(&mut log, low);
    log.bytes()
}

// ---------------------------------------------------------------- superline

pub(crate) fn superline_of(log: &Written) -> Superline {
    Superline::read(&log.image, 1).expect("copy 1 is right")
}

pub(crate) fn set_superline(log: &mut Written, superline: Superline) {
    let words = superline.words();
    log.image[16..16 + words.len()].copy_from_slice(&words);
}

fn first_word(rng: &mut Rng, word: usize, values: &[u64]) -> Vec<u8> {
    let mut log = some_log(rng);
    log.image[word] = rng.pick(values);
    log.bytes()
}

/// Another active copy, with a check that fits it.
fn superline(rng: &mut Rng, change: fn(&mut Rng, Superline) -> Superline) -> Vec<u8> {
    let mut log = some_log(rng);
    let changed = change(rng, superline_of(&log));
    set_superline(&mut log, changed);
    log.bytes()
}

fn near(rng: &mut Rng, value: u64) -> u64 {
    rng.pick(&[value - 1, value + 1, 0, value + (1 << 32)])
}

// ---------------------------------------------------------------- sizes

/// A good image with up to seven bytes more or fewer.
fn odd_count(rng: &mut Rng) -> Vec<u8> {
    let mut bytes = some_log(rng).bytes();
    let odd = rng.between(1, 7) as usize;
    let size = if rng.chance(1, 2) { bytes.len() + odd } else { bytes.len() - odd };
    bytes.resize(size, 0);
    bytes
}
