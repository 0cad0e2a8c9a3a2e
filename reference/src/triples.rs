//! Three images of every sort, for the recovery of three modules: equal and different ones, readable and not, of good and wrong lengths.
//!
//! The seed chooses the sort in turn and the rest at random, so as many seeds in a row as there are sorts have one of each. Which
//! module has which image is chosen at random too.

use crate::calls::{format, recover, walk};
use crate::crash_three::modules_of_a_run;
use crate::device::Device;
use crate::images::{
    check_again, full_image, last_lsns, set_superline, some_log, superline_of, too_many,
};
use crate::layout::{
    words_of_bytes, Header, Superline, MARK_RELEASED, MAX_EPOCH, MAX_IMAGE_WORDS, MIN_IMAGE_WORDS,
    OLD_TABLE_SIZE, TABLE_SIZE,
};
use crate::rng::Rng;
use crate::samples::Written;
use crate::three::{repair_ops, MODULES};
use crate::three_system::crash_image;
use std::array::from_fn;

pub type Images = [Vec<u64>; MODULES];

/// The name of a sort, and how images of it are made.
pub type Sort = (&'static str, fn(&mut Rng) -> Images);

pub const SORTS: [Sort; 38] = [
    // All readable.
    ("equal", |rng| equal(some_log(rng).image)),
    ("equal and fresh", |rng| equal(fresh(rng, false))),
    ("equal, the largest, 64 records", |rng| equal(large(rng, OLD_TABLE_SIZE))),
    ("equal, the largest, 256 records", |rng| equal(large(rng, TABLE_SIZE))),
    ("fresh over different contents", |rng| {
        let words = rng.between(MIN_IMAGE_WORDS, 60);
        from_fn(|_| fresh_of(rng, words, true))
    }),
    ("one epoch behind", |rng| later(rng, [0, 1, 1])),
    ("one epoch ahead", |rng| later(rng, [0, 0, 1])),
    ("three epochs", |rng| later(rng, [0, 1, 2])),
    ("one epoch far behind", |rng| later(rng, [0, 2, 2])),
    ("one end short", |rng| ends(rng, [1, 0, 0])),
    ("one end long", |rng| ends(rng, [1, 1, 0])),
    ("three ends", |rng| ends(rng, [0, 1, 2])),
    ("greater epoch, shorter end", |rng| {
        let [a, b, c] = ends(rng, [0, 0, 2]);
        [a, recovered(b), recovered(recovered(c))]
    }),
    ("one unused word", |rng| {
        one_word(rng, |rng, _| rng.pick(&[1, 2, 3, 4, 5, 6, 7, 14, 15, 22, 23]))
    }),
    ("one word of the spare copy", |rng| one_word(rng, |rng, _| rng.between(8, 13))),
    ("one word behind the terminator", |rng| {
        one_word(rng, |rng, log| {
            let (_, end) = walk(&log.image).expect("a good log");
            let behind = log.ring.capacity() - used_words(log) - 1;
            log.ring.word(end.position, 1 + rng.below(behind.max(1)))
        })
    }),
    ("terminator but for its mark", |rng| {
        let log = some_log(rng);
        let (_, end) = walk(&log.image).expect("a good log");
        let mut images = equal(log.image);
        images[0][log.ring.word(end.position, 0) as usize] = rng.next_u64() >> 16;
        images
    }),
    ("one record released", released_on_one),
    ("other copy in use", other_copy),
    ("last LSNs", |rng| {
        let bytes = last_lsns(rng);
        let mut images = equal(words_of_bytes(&bytes).expect("whole words"));
        images[0][1] = 3;
        images
    }),
    // Some not readable.
    ("selector", |rng| spoilt(rng, 1, selector)),
    ("check of the copy", |rng| spoilt(rng, 1, copy_check)),
    ("damaged record", |rng| spoilt(rng, 1, damage)),
    ("one too many", |rng| too_many_on(rng, 1)),
    ("two too many", |rng| too_many_on(rng, 2)),
    ("two spoilt", |rng| {
        let spoil = rng.pick(&[selector as fn(&mut Rng, &mut Written), copy_check, damage]);
        spoilt(rng, 2, spoil)
    }),
    ("all spoilt", |rng| spoilt(rng, 3, any_spoil)),
    ("spoilt and behind", |rng| {
        let [mut a, b, c] = later(rng, [1, 0, 1]);
        a[0] = 2;
        [a, b, c]
    }),
    ("one noise", |rng| {
        let [_, b, c] = equal(some_log(rng).image);
        [(0..b.len()).map(|_| rng.next_u64()).collect(), b, c]
    }),
    // In the middle of something.
    ("inside a repair", |rng| inside_repairs(rng, 1)),
    ("inside two repairs", |rng| inside_repairs(rng, 2)),
    ("a run's modules", |rng| modules_of_a_run(rng.next_u64())),
    ("a run's modules again", |rng| modules_of_a_run(rng.next_u64())),
    // Spent numbers.
    ("last epoch on one", |rng| last_epoch_on(rng, 1)),
    ("last epoch on two", |rng| last_epoch_on(rng, 2)),
    ("last epoch, not readable", |rng| {
        let [mut a, b, c] = last_epoch_on(rng, 1);
        a[0] = 2;
        [a, b, c]
    }),
    // Lengths.
    ("lengths differ", |rng| {
        let mut images = equal(some_log(rng).image);
        for image in images.iter_mut().take(rng.between(1, 2) as usize) {
            let words = rng.pick(&[0, 1, 39, 40, 41, image.len() - 1, image.len() + 1, 8_192]);
            image.resize(words, 0);
        }
        images
    }),
    ("wrong length", |rng| {
        let mut image = some_log(rng).image;
        image.resize(rng.pick(&[0, 1, 39, 8_193, 8_300]), 0);
        equal(image)
    }),
];

/// The images of a seed, and the name of their sort.
pub fn triple(seed: u64) -> (&'static str, Images) {
    let (name, make) = SORTS[(seed % SORTS.len() as u64) as usize];
    let mut rng = Rng::new(seed ^ 0x3333);
    let mut images = make(&mut rng);
    rng.shuffle(&mut images);
    (name, images)
}

// ---------------------------------------------------------------- readable

fn equal(image: Vec<u64>) -> Images {
    from_fn(|_| image.clone())
}

/// A formatted image over noise or zeros.
fn fresh(rng: &mut Rng, noise: bool) -> Vec<u64> {
    let words = rng.between(MIN_IMAGE_WORDS, 60);
    fresh_of(rng, words, noise)
}

fn fresh_of(rng: &mut Rng, words: u64, noise: bool) -> Vec<u64> {
    let mut image: Vec<u64> = (0..words).map(|_| if noise { rng.next_u64() } else { 0 }).collect();
    format(&mut image, &mut [0; 33]).expect("a good size");
    image
}

fn large(rng: &mut Rng, records: usize) -> Vec<u64> {
    let image = words_of_bytes(&full_image(rng, records)).expect("whole words");
    assert_eq!(image.len() as u64, MAX_IMAGE_WORDS);
    image
}

/// A log whose epoch is not among the last.
fn young_log(rng: &mut Rng) -> Written {
    loop {
        let log = some_log(rng);
        if superline_of(&log).epoch < MAX_EPOCH - 4 {
            return log;
        }
    }
}

fn recovered(mut image: Vec<u64>) -> Vec<u64> {
    // Refused where the epochs are spent: then it stays.
    let _ = recover(&mut image, &mut [0; 33]);
    image
}

/// The same log, so many recoveries later.
fn later(rng: &mut Rng, recoveries: [usize; MODULES]) -> Images {
    let image = young_log(rng).image;
    recoveries.map(|count| (0..count).fold(image.clone(), |image, _| recovered(image)))
}

/// The same log, the last so many records not marked.
fn ends(rng: &mut Rng, unmarked: [usize; MODULES]) -> Images {
    let log = loop {
        let log = young_log(rng);
        if log.positions.len() >= 3 {
            break log;
        }
    };
    unmarked.map(|count| {
        let mut image = log.image.clone();
        for &position in log.positions.iter().rev().take(count) {
            let word = &mut image[log.ring.word(position, 0) as usize];
            *word = Header { mark: 0, ..Header::of_word(*word) }.word();
        }
        image
    })
}

/// Three that differ in one word of one of them.
fn one_word(rng: &mut Rng, which: fn(&mut Rng, &Written) -> u64) -> Images {
    let log = some_log(rng);
    let word = which(rng, &log) as usize;
    let mut images = equal(log.image);
    images[0][word] ^= 1 << rng.below(64);
    images
}

fn used_words(log: &Written) -> u64 {
    let (_, end) = walk(&log.image).expect("a good log");
    end.used
}

fn released_on_one(rng: &mut Rng) -> Images {
    let mut log = some_log(rng);
    let good = log.image.clone();
    let position = rng.pick(&log.positions);
    let word = log.word(position, 0);
    *word = Header { mark: MARK_RELEASED, ..Header::of_word(*word) }.word();
    [log.image, good.clone(), good]
}

/// The same superline in the other copy.
fn other_copy(rng: &mut Rng) -> Images {
    let log = some_log(rng);
    let good = log.image.clone();
    let mut image = log.image;
    image[0] = 0;
    image.copy_within(16..22, 8);
    [image, good.clone(), good]
}

// ---------------------------------------------------------------- not readable

/// The same log three times, so many of them spoilt.
fn spoilt(rng: &mut Rng, count: usize, spoil: fn(&mut Rng, &mut Written)) -> Images {
    let log = some_log(rng);
    from_fn(|i| {
        let mut log = log.clone();
        if i < count {
            spoil(rng, &mut log);
        }
        log.image
    })
}

fn any_spoil(rng: &mut Rng, log: &mut Written) {
    let spoils = [selector as fn(&mut Rng, &mut Written), copy_check, damage];
    rng.pick(&spoils)(rng, log);
}

fn selector(rng: &mut Rng, log: &mut Written) {
    // Copy 0 of a log that is written word by word is no copy.
    log.image[0] = rng.pick(&[0, 2, 2, 3, 1 << 32, u64::MAX]);
}

/// A word of the copy in use, its check included.
fn copy_check(rng: &mut Rng, log: &mut Written) {
    log.image[rng.between(16, 21) as usize] ^= 1 << rng.below(64);
}

/// One record fails one of its tests; where it is not the check, that one is made to fit.
fn damage(rng: &mut Rng, log: &mut Written) {
    let position = rng.pick(&log.positions);
    let good = Header::of_word(*log.word(position, 0));
    let test = rng.below(6);
    match test {
        0 => *log.word(position, 0) = Header { mark: 3 + rng.below(9), ..good }.word(),
        1 => *log.word(position, 0) = Header { kind: 0, ..good }.word(),
        2 => *log.word(position, 0) = Header { length: 1_025, ..good }.word(),
        3 => *log.word(position, 1) ^= 1 << rng.below(64),
        4 => *log.word(position, 2) |= 0xFFFF_FFFF << 32,
        _ => {}
    }
    check_again(log, position);
    if test == 5 {
        *log.word(position, 2) ^= 1 << rng.below(32);
    }
}

/// A log of more than 256 marked records, so many times; where it is not, the 257th has no mark.
fn too_many_on(rng: &mut Rng, count: usize) -> Images {
    let log = too_many(rng);
    from_fn(|i| {
        let mut log = log.clone();
        if i >= count {
            let position = log.positions[TABLE_SIZE];
            *log.word(position, 0) &= !0 >> 16;
        }
        log.image
    })
}

// ---------------------------------------------------------------- in the middle of something

/// So many modules in whose repair power failed.
fn inside_repairs(rng: &mut Rng, count: usize) -> Images {
    let [old, chosen, other] =
        if rng.chance(1, 2) { later(rng, [0, 2, 1]) } else { ends(rng, [2, 0, 1]) };
    let mut images = [old, other, chosen.clone()];
    for image in images.iter_mut().take(count) {
        let ops = repair_ops(&chosen);
        let done = match rng.below(3) {
            0 => rng.below(4),
            1 => ops.len() as u64 - rng.below(4),
            _ => rng.below(ops.len() as u64 + 1),
        };
        let mut device = Device::new(image);
        ops[..done as usize].iter().for_each(|&op| device.carry_out(op));
        *image = crash_image(rng, &device);
    }
    images
}

// ---------------------------------------------------------------- spent numbers

fn last_epoch_on(rng: &mut Rng, count: usize) -> Images {
    let log = young_log(rng);
    from_fn(|i| {
        let mut log = log.clone();
        if i < count {
            let superline = Superline { epoch: MAX_EPOCH, ..superline_of(&log) };
            set_superline(&mut log, superline);
        }
        log.image
    })
}
