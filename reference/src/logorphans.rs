//! The program logorphans (document 02, slip 11): the replacements whose inspection is not listed before them.
//!
//! Beside it images for it, by hand with the text that is due, and by seed.

use crate::calls::{fetch, next, open, Next};
use crate::compare::{difference, output_and_status, Difference};
use crate::layout::{
    record_size, words_of_bytes, FIRST_RING_WORD, LSN_LIMIT, MARK_COMMITTED, MARK_RELEASED,
    MAX_IMAGE_WORDS, MIN_IMAGE_WORDS, TABLE_SIZE,
};
use crate::loglist::{end_line, stop_line};
use crate::refusal::Refusal;
use crate::rng::Rng;
use crate::samples::{samples, Record, Sample, Written};
use std::collections::BTreeSet;
use std::fmt::Write as _;
use std::io;
use std::path::Path;

/// The kind of a record that reports a replacement.
pub const REPLACEMENT: u64 = 600;

/// What logorphans prints for these bytes.
pub fn logorphans(bytes: &[u8]) -> String {
    orphans(bytes).unwrap_or_else(|refusal| format!("refused {}\n", refusal.number()))
}

fn orphans(bytes: &[u8]) -> Result<String, Refusal> {
    let image = words_of_bytes(bytes).ok_or(Refusal::ImageSize)?;
    let mut cursor = open(&image)?;
    let mut listed = BTreeSet::new();
    let mut text = String::new();
    let last_line = loop {
        match next(&image, &cursor) {
            Ok(Next::Record { record, behind }) => {
                if record.mark != MARK_RELEASED {
                    let mut payload = vec![0; record.length as usize];
                    fetch(&image, record.position, record.length, &mut payload)?;
                    if inspection(record.kind, &payload).is_some_and(|lsn| !listed.contains(&lsn)) {
                        let _ = writeln!(text, "{}", record.lsn);
                    }
                    listed.insert(record.lsn);
                }
                cursor = behind;
            }
            Ok(Next::End { lsn }) => break end_line(lsn),
            Err(refusal) => break stop_line(refusal)?,
        }
    };
    Ok(text + &last_line)
}

/// The number that a record of this kind and payload names: the LSN of the inspection it rests on.
fn inspection(kind: u64, payload: &[u8]) -> Option<u64> {
    let first = payload.first_chunk::<8>().filter(|_| kind == REPLACEMENT)?;
    Some(u64::from_le_bytes(*first)).filter(|&lsn| lsn != 0)
}

// ---------------------------------------------------------------- images by hand

fn replacement(mark: u64, named: u64) -> Record {
    Record { kind: REPLACEMENT, mark, epoch: 0, payload: named.to_le_bytes().to_vec() }
}

fn other(kind: u64, mark: u64, payload: &[u8]) -> Record {
    Record { kind, mark, epoch: 0, payload: payload.to_vec() }
}

/// Images with the text that is due. In each the head's LSN is 10.
pub fn orphan_samples() -> Vec<Sample> {
    let mut all = Vec::new();
    let mut sample = |name: &str, records: &[Record], text: &str| {
        let bytes = Written::new(80, 50, 10, records).bytes();
        all.push(Sample { name: name.to_string(), bytes, text: text.to_string() });
    };
    let inspected = || other(7, MARK_COMMITTED, b"seen");
    let lent = |named| replacement(MARK_COMMITTED, named);
    sample("none", &[], "end 10\n");
    sample("names none", &[inspected(), lent(0)], "end 12\n");
    sample("earlier", &[inspected(), inspected(), lent(10), lent(11)], "end 14\n");
    sample("earlier replacement", &[lent(0), lent(10), lent(11)], "end 13\n");
    sample("later", &[inspected(), lent(12), inspected()], "11\nend 13\n");
    sample("its own", &[lent(10), lent(11)], "10\n11\nend 12\n");
    sample("one below the head", &[inspected(), lent(9), lent(1)], "11\n12\nend 13\n");
    sample("past the end", &[inspected(), lent(13), lent(14)], "11\n12\nend 13\n");
    sample(
        "no LSN",
        &[inspected(), lent(LSN_LIMIT), lent(LSN_LIMIT + 10), lent(u64::MAX)],
        "11\n12\n13\nend 14\n",
    );
    sample("beside an LSN", &[inspected(), lent(10 | 1 << 32), lent(10 << 56)], "11\n12\nend 13\n");
    sample(
        "released inspection",
        &[inspected(), other(7, MARK_RELEASED, b"seen"), lent(11), lent(10)],
        "12\nend 14\n",
    );
    sample(
        "released replacement",
        &[inspected(), replacement(MARK_RELEASED, 9), lent(11), replacement(MARK_RELEASED, 12)],
        "12\nend 14\n",
    );
    sample(
        "other kinds",
        &[599, 601, 600 | 1 << 15, 1].map(|kind| other(kind, MARK_COMMITTED, &99u64.to_le_bytes())),
        "end 14\n",
    );
    let bytes = 0x0101_0101_0101_0101u64.to_le_bytes();
    let of_length = |length: usize| {
        let longer = [bytes, bytes].concat();
        other(REPLACEMENT, MARK_COMMITTED, &longer[..length])
    };
    let lengths = [0, 1, 6, 7, 8, 9, 16].map(of_length);
    sample("lengths 0 to 16", &lengths, "14\n15\n16\nend 17\n");

    // What was found before damage counts, and what stands behind it does not.
    let mut damaged = Written::new(80, 50, 10, &[inspected(), lent(10), lent(5), lent(6), lent(7)]);
    let position = damaged.positions[3];
    *damaged.word(position, 3) ^= 1;
    let text = "12\ndamaged 13 check\n".to_string();
    all.push(Sample { name: "damage".to_string(), bytes: damaged.bytes(), text });
    let many: Vec<Record> =
        (0..=TABLE_SIZE as u64).map(|i| lent(if i == 0 { 0 } else { 10 + i / 2 })).collect();
    let bytes = Written::new(1_100, 1_000, 10, &many).bytes();
    let text = "toomany 266\n".to_string();
    all.push(Sample { name: "too many".to_string(), bytes, text });
    all
}

// ---------------------------------------------------------------- images by seed

/// A number for the replacement at an index to name; `released` says of every record whether it is.
fn named(rng: &mut Rng, head: u64, released: &[bool], index: usize) -> u64 {
    let count = released.len() as u64;
    let own = head + index as u64;
    let earlier = head + rng.below(index as u64 + 1);
    let gone: Vec<u64> = (0..count).filter(|&i| released[i as usize]).map(|i| head + i).collect();
    match rng.below(10) {
        0 => 0,
        1 => own,
        2 => own + rng.between(1, count),
        3 if !gone.is_empty() => rng.pick(&gone),
        4 => head - 1,
        5 => rng.below(head),
        6 => rng.pick(&[LSN_LIMIT, LSN_LIMIT | earlier, 1 << 63, u64::MAX, earlier.swap_bytes()]),
        7 => head + count,
        _ => earlier,
    }
}

/// A log of this seed with replacements that name numbers of every sort; and its sort.
pub fn orphan_image(seed: u64) -> (&'static str, Vec<u8>) {
    let mut rng = Rng::new(seed ^ 0x0600);
    let rng = &mut rng;
    let sort = [
        "whole",
        "damaged",
        "whole",
        "full table",
        "whole",
        "too many",
        "whole",
        "superline",
        "whole",
        "size",
    ][(seed % 10) as usize];
    let count = match sort {
        "full table" => rng.between(TABLE_SIZE as u64 - 2, TABLE_SIZE as u64),
        "too many" => TABLE_SIZE as u64 + rng.between(1, 3),
        _ => rng.between(1, 24),
    };
    let head = match rng.below(4) {
        0 => 1,
        1 => rng.between(2, 1_000),
        2 => rng.between(1 << 32, 1 << 61),
        _ => LSN_LIMIT - count,
    };
    let one_in = rng.pick(&[2, 3, 6, 1_000]);
    let released: Vec<bool> = (0..count).map(|_| rng.chance(1, one_in)).collect();
    let records: Vec<Record> = (0..count as usize)
        .map(|index| {
            let kind = rng.pick(&[REPLACEMENT, REPLACEMENT, REPLACEMENT, 599, 601, 88]);
            let length = match rng.below(4) {
                0 => rng.below(10),
                1 => rng.below(30),
                _ => 8,
            };
            let mut payload = named(rng, head, &released, index).to_le_bytes().to_vec();
            payload.extend(rng.bytes(24));
            payload.truncate(length as usize);
            let mark = if released[index] { MARK_RELEASED } else { MARK_COMMITTED };
            Record { kind, mark, epoch: 0, payload }
        })
        .collect();
    let used: u64 = records.iter().map(|record| record_size(record.payload.len() as u64)).sum();
    let spare = rng.pick(&[1, 2, 20]);
    let words = (FIRST_RING_WORD + used + spare).max(MIN_IMAGE_WORDS);
    let position = rng.below(words - FIRST_RING_WORD);
    let mut log = Written::new(words as usize, position, head, &records);
    match sort {
        "damaged" => {
            let which = rng.below(count) as usize;
            let position = log.positions[which];
            let size = record_size(records[which].payload.len() as u64);
            *log.word(position, rng.below(size)) ^= 1 << rng.below(64);
        }
        "superline" => log.image[rng.pick(&[0, 16, 17, 18, 19, 20, 21])] ^= 1 << rng.between(1, 63),
        _ => {}
    }
    let mut bytes = log.bytes();
    if sort == "size" {
        let longest = 8 * MAX_IMAGE_WORDS as usize;
        let size = rng.pick(&[
            0,
            8,
            319,
            bytes.len() - 1,
            bytes.len() + 4,
            longest + 1,
            longest + 8,
            99_999,
        ]);
        bytes.resize(size, 0);
    }
    (sort, bytes)
}

// ---------------------------------------------------------------- beside another program

/// What a run came to: images, and lines with an LSN that were due.
pub struct Report {
    pub images: u64,
    pub lsns: u64,
    pub difference: Option<(String, Difference)>,
}

/// Runs another logorphans on the images by hand, on those of loglist's samples and on those of `count` seeds, and stops at the first difference.
pub fn compare_logorphans(program: &Path, first_seed: u64, count: u64) -> io::Result<Report> {
    let mut report = Report { images: 0, lsns: 0, difference: None };
    let by_hand =
        orphan_samples().into_iter().map(|sample| (0, sample.name, sample.bytes, sample.text));
    let listed = samples().into_iter().map(|sample| {
        let text = logorphans(&sample.bytes);
        (0, sample.name, sample.bytes, text)
    });
    let by_seed = (0..count).map(|i| {
        let seed = first_seed.wrapping_add(i);
        let (sort, bytes) = orphan_image(seed);
        let text = logorphans(&bytes);
        (seed, sort.to_string(), bytes, text)
    });
    for (seed, name, bytes, ours) in by_hand.chain(listed).chain(by_seed) {
        let (theirs, status) = output_and_status(program, &bytes)?;
        report.images += 1;
        report.lsns += ours.lines().count() as u64 - 1;
        let mut found = difference(seed, "logorphans", ours.as_bytes(), &theirs);
        if found.is_none() && !status.success() {
            let ended = format!("(ended with {status})");
            found = difference(seed, "logorphans", b"", ended.as_bytes());
        }
        if let Some(found) = found {
            report.difference = Some((name, found));
            break;
        }
    }
    Ok(report)
}
