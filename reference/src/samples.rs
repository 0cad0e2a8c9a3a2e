//! Images written word by word, one for each thing that a listing can meet, with the text that loglist owes.
//!
//! The text is put together here from the records that were written, and does not come from any program.

use crate::layout::{
    record_check, record_size, CheckWord, Header, Ring, Superline, FIRST_RING_WORD, LSN_LIMIT,
    MARK_COMMITTED, MARK_RELEASED, MAX_CAPACITY, MAX_EPOCH, MAX_IMAGE_WORDS, MAX_LENGTH,
    OLD_TABLE_SIZE, TABLE_SIZE,
};
use crate::loglist::HEADING;

/// An image's bytes under a name, and what loglist prints of them.
pub struct Sample {
    pub name: String,
    pub bytes: Vec<u8>,
    pub text: String,
}

pub(crate) struct Record {
    pub(crate) kind: u64,
    pub(crate) mark: u64,
    pub(crate) epoch: u64,
    pub(crate) payload: Vec<u8>,
}

/// A record from before slip 8.
fn record(kind: u64, mark: u64, payload: &[u8]) -> Record {
    Record { kind, mark, epoch: 0, payload: payload.to_vec() }
}

/// The superline's epoch, where nothing else is said.
const EPOCH: u64 = 3;

/// An image of so many words that holds these records from a head position and LSN on. Copy 1 of its superline is active.
#[derive(Clone)]
pub(crate) struct Written {
    pub(crate) image: Vec<u64>,
    pub(crate) ring: Ring,
    /// Where each record begins.
    pub(crate) positions: Vec<u64>,
    pub(crate) head_lsn: u64,
    lines: Vec<String>,
}

impl Written {
    pub(crate) fn new(
        words: usize,
        head_position: u64,
        head_lsn: u64,
        records: &[Record],
    ) -> Written {
        Written::in_epoch(EPOCH, words, head_position, head_lsn, records)
    }

    /// The same with this epoch in the superline.
    pub(crate) fn in_epoch(
        epoch: u64,
        words: usize,
        head_position: u64,
        head_lsn: u64,
        records: &[Record],
    ) -> Written {
        let mut image = vec![0x7777_7777_7777_7777; words];
        let ring = Ring::of_image(&image).expect("a good size");
        let capacity = ring.capacity();
        let superline = Superline { capacity, head_position, head_lsn, epoch };
        image[0] = 1;
        for (i, word) in superline.words().into_iter().enumerate() {
            image[16 + i] = word;
        }
        let mut written =
            Written { image, ring, positions: Vec::new(), head_lsn, lines: Vec::new() };
        let mut position = head_position;
        for (i, record) in records.iter().enumerate() {
            let lsn = head_lsn + i as u64;
            written.positions.push(position);
            written.put(position, lsn, record);
            if record.mark != MARK_RELEASED {
                written.lines.push(line(lsn, record));
            }
            position = ring.advance(position, record_size(record.payload.len() as u64));
        }
        *written.word(position, 0) = 0;
        written
    }

    pub(crate) fn put(&mut self, position: u64, lsn: u64, record: &Record) {
        let length = record.payload.len() as u64;
        let check = record_check(length, record.kind, lsn, record.payload.iter().copied());
        *self.word(position, 0) = Header { length, kind: record.kind, mark: record.mark }.word();
        *self.word(position, 1) = lsn;
        *self.word(position, 2) = CheckWord { check, epoch: record.epoch }.word();
        for (i, chunk) in record.payload.chunks(8).enumerate() {
            let mut bytes = [0; 8];
            bytes[..chunk.len()].copy_from_slice(chunk);
            *self.word(position, 3 + i as u64) = u64::from_le_bytes(bytes);
        }
    }

    pub(crate) fn word(&mut self, position: u64, words: u64) -> &mut u64 {
        let word = self.ring.word(position, words);
        &mut self.image[word as usize]
    }

    pub(crate) fn bytes(&self) -> Vec<u8> {
        self.image.iter().flat_map(|word| word.to_le_bytes()).collect()
    }

    /// The listing with its first so many lines and this last line, its LSN behind the first word of it.
    fn text(&self, lines: usize, last: &str, lsn: u64) -> String {
        let mut text = format!("{HEADING}\n");
        for line in &self.lines[..lines] {
            text += line;
            text.push('\n');
        }
        match last.split_once(' ') {
            None => text + &format!("{last} {lsn}\n"),
            Some((first, test)) => text + &format!("{first} {lsn} {test}\n"),
        }
    }

    fn ends(&self, records: usize) -> String {
        self.text(self.lines.len(), "end", self.head_lsn + records as u64)
    }
}

fn line(lsn: u64, record: &Record) -> String {
    let pairs: String = record.payload.iter().map(|byte| format!("{byte:02x}")).collect();
    let data = if pairs.is_empty() { "-".to_string() } else { pairs };
    format!("{lsn} {} {} {data}", record.kind, record.payload.len())
}

/// All samples.
pub fn samples() -> Vec<Sample> {
    let mut samples = listings();
    samples.extend(damage());
    samples.extend(epochs());
    samples.extend(superlines());
    samples.extend(sizes());
    samples
}

/// The longest payload, in bytes, of so many records alike in an image of 8,192 words that leaves a byte of each one's last word
/// unused: 991 for 64 records, 223 for 256.
pub fn full_image_length(records: u64) -> u64 {
    (8 * ((MAX_CAPACITY - 1) / records - 3) - 1).min(MAX_LENGTH)
}

/// An image of 8,192 words that is full of so many records, at most 256.
pub fn full_image(records: u64) -> Vec<u8> {
    let length = full_image_length(records) as usize;
    let records: Vec<Record> = (0..records)
        .map(|i| Record {
            epoch: EPOCH - 1,
            ..record(i + 1, MARK_COMMITTED, &vec![i as u8; length])
        })
        .collect();
    Written::new(MAX_IMAGE_WORDS as usize, 0, 1, &records).bytes()
}

fn sample(name: impl Into<String>, bytes: Vec<u8>, text: impl Into<String>) -> Sample {
    Sample { name: name.into(), bytes, text: text.into() }
}

fn listings() -> Vec<Sample> {
    let mut samples = Vec::new();
    let mut whole = |name: &str, words, position, lsn, records: Vec<Record>| {
        let written = Written::new(words, position, lsn, &records);
        samples.push(sample(name, written.bytes(), written.ends(records.len())));
    };
    // The first quarter from before slip 8, then one run behind another.
    let some = |count: usize| -> Vec<Record> {
        let epoch = |i: usize| (4 * i / count) as u64;
        (0..count)
            .map(|i| Record {
                epoch: epoch(i),
                ..record(1 + i as u64, MARK_COMMITTED, &[i as u8; 5])
            })
            .collect()
    };
    whole("none", 40, 0, 1, vec![]);
    whole("one", 40, 0, 1, some(1));
    // The old table's neighbours, and the most that are no longer too many.
    for count in [OLD_TABLE_SIZE - 1, OLD_TABLE_SIZE, OLD_TABLE_SIZE + 1] {
        whole(&format!("{count}-records"), 400, 7, 100, some(count));
    }
    for count in [TABLE_SIZE - 1, TABLE_SIZE] {
        whole(&format!("{count}-records"), 1_100, 1_000, 200, some(count));
    }
    whole("empty-payload", 40, 0, 1, vec![record(65_535, MARK_COMMITTED, &[])]);
    let long: Vec<u8> = (0..1024u32).map(|i| i as u8).collect();
    whole("longest-payload", 200, 3, 9, vec![record(2, MARK_COMMITTED, &long)]);
    whole("goes-round", 40, 13, 41, vec![record(600, MARK_COMMITTED, &[0xab; 20])]);
    let last_lsn = LSN_LIMIT - 1;
    whole("last-lsn", 40, 0, last_lsn, vec![record(1, MARK_COMMITTED, &[1])]);
    let released = |at: &[usize]| -> Vec<Record> {
        let mark = |i| if at.contains(&i) { MARK_RELEASED } else { MARK_COMMITTED };
        (0..4).map(|i| record(7, mark(i), &[i as u8, 9])).collect()
    };
    whole("released-head", 60, 0, 1, released(&[0]));
    whole("released-middle", 60, 0, 1, released(&[1, 2]));
    whole("all-released", 60, 0, 1, released(&[0, 1, 2, 3]));
    whole("largest-image", 8192, 8000, 5, some(40));

    let many = |count: usize| Written::new(1_100, 0, 100, &some(count));
    let too_many = |written: &Written| written.text(256, "toomany", 356);
    let one_more = many(257);
    samples.push(sample("257-records", one_more.bytes(), too_many(&one_more)));
    // The 257th is not looked at, the 256th and the 65th are.
    let mut damaged = |count: usize, which: usize| {
        let mut written = many(count);
        let position = written.positions[which - 1];
        *written.word(position, 2) ^= 1;
        let text = match which {
            257 => too_many(&written),
            _ => written.text(which - 1, "damaged check", 99 + which as u64),
        };
        let name = format!("{count}-records-{which}th-damaged");
        samples.push(sample(name, written.bytes(), text));
    };
    damaged(257, 257);
    damaged(257, 256);
    damaged(65, 65);
    damaged(100, 65);
    // The same with an epoch above the superline's.
    for which in [256, 257] {
        let mut written = many(257);
        let position = written.positions[which - 1];
        *written.word(position, 2) += 1 << 32;
        let text = match which {
            257 => too_many(&written),
            _ => written.text(which - 1, "damaged epoch", 99 + which as u64),
        };
        let name = format!("257-records-epoch-of-the-{which}th");
        samples.push(sample(name, written.bytes(), text));
    }
    samples
}

/// The second of three records fails each test alone, and each test with all behind it; and some more ways.
fn damage() -> Vec<Sample> {
    let records: Vec<Record> =
        (0..3).map(|i| Record { epoch: 2, ..record(5, MARK_COMMITTED, &[i; 9]) }).collect();
    let good = Header { length: 9, kind: 5, mark: MARK_COMMITTED };
    let mut samples = Vec::new();
    // 36 words of ring, used from position 0 on; 1,025 bytes fit only a longer one.
    let mut broken = |name: &str, words: usize, header: Header, lsn: u64, bits: u64, test: &str| {
        let mut written = Written::new(words, 0, 20, &records);
        let position = written.positions[1];
        *written.word(position, 0) = header.word();
        *written.word(position, 1) = lsn;
        // The check that is expected of this record and the last epoch, some bits of them changed.
        let length = header.length.min(2_000);
        let payload: Vec<u8> = written.ring.payload(&written.image, position, length).collect();
        let check = record_check(header.length, header.kind, 21, payload.into_iter());
        *written.word(position, 2) = CheckWord { check, epoch: 2 }.word() ^ bits;
        samples.push(sample(
            format!("damaged-{name}"),
            written.bytes(),
            written.text(1, &format!("damaged {test}"), 21),
        ));
    };
    let beyond = Header { length: 8 * (36 - 5 - 3), ..good }; // one word too many: no place for the terminator
    broken("mark-alone", 60, Header { mark: 3, ..good }, 21, 0, "mark");
    broken("kind-alone", 60, Header { kind: 0, ..good }, 21, 0, "kind");
    broken("length-alone", 300, Header { length: 1_025, ..good }, 21, 0, "length");
    broken("fit-alone", 60, beyond, 21, 0, "fit");
    broken("lsn-alone", 60, good, 22, 0, "LSN");
    broken("check-alone", 60, good, 21, 1, "check");
    // Epoch 0 behind epoch 2, epoch 6 above the superline's 3.
    let (below, above) = (2 << 32, 4 << 32);
    broken("epoch-alone-below", 60, good, 21, below, "epoch");
    broken("epoch-alone-above", 60, good, 21, above, "epoch");
    let all = Header { length: 4_000, kind: 0, mark: 3 };
    let both = 1 | above;
    broken("mark-and-all-behind", 60, all, 22, both, "mark");
    broken("kind-and-all-behind", 60, Header { mark: MARK_RELEASED, ..all }, 22, both, "kind");
    broken("length-and-all-behind", 60, Header { length: 4_000, ..good }, 22, both, "length");
    broken("fit-and-all-behind", 60, beyond, 22, both, "fit");
    broken("lsn-and-all-behind", 60, good, 0, both, "LSN");
    broken("check-and-epoch-below", 60, good, 21, 1 | below, "check");
    broken("check-and-epoch-above", 60, good, 21, both, "check");
    broken("largest-mark", 60, Header { mark: 65_535, ..good }, 21, 0, "mark");
    broken("largest-epoch", 60, good, 21, (2 ^ MAX_EPOCH) << 32, "epoch");
    let released = Header { mark: MARK_RELEASED, ..good };
    broken("released-epoch-below", 60, released, 21, below, "epoch");
    broken("released-epoch-above", 60, released, 21, above, "epoch");

    let mut written = Written::new(60, 0, 20, &records);
    let position = written.positions[1];
    *written.word(position, 3) = 1;
    samples.push(sample("damaged-payload", written.bytes(), written.text(1, "damaged check", 21)));

    // An LSN above its range, with a good check.
    let mut written = Written::new(40, 0, LSN_LIMIT, &[record(1, MARK_COMMITTED, &[])]);
    written.lines.clear();
    samples.push(sample(
        "damaged-lsn-range",
        written.bytes(),
        written.text(0, "damaged LSN", LSN_LIMIT),
    ));

    // Padding behind the payload is not tested.
    let mut written = Written::new(60, 0, 20, &records);
    let position = written.positions[1];
    *written.word(position, 4) |= 0xff00;
    samples.push(sample("padding-set", written.bytes(), written.ends(records.len())));
    samples
}

/// Records of these epochs under a superline's, some of them released; so many are fine, and the one behind them is damaged.
fn epochs() -> Vec<Sample> {
    let mut samples = Vec::new();
    let mut walked =
        |name: &str, superline: u64, epochs: &[u64], released: &[usize], good: usize| {
            let mark = |i| if released.contains(&i) { MARK_RELEASED } else { MARK_COMMITTED };
            let records: Vec<Record> = epochs
                .iter()
                .enumerate()
                .map(|(i, &epoch)| Record { epoch, ..record(9, mark(i), &[i as u8; 3]) })
                .collect();
            let written = Written::in_epoch(superline, 60, 30, 50, &records);
            let listed = (0..good).filter(|i| !released.contains(i)).count();
            let last = if good == epochs.len() { "end" } else { "damaged epoch" };
            let text = written.text(listed, last, 50 + good as u64);
            samples.push(sample(format!("epochs-{name}"), written.bytes(), text));
        };
    walked("all-zero", 3, &[0, 0, 0, 0], &[], 4);
    walked("zero-first", 3, &[0, 0, 2, 3], &[], 4);
    walked("rise", 9, &[1, 4, 5, 8], &[], 4);
    walked("all-the-superline's", 3, &[3, 3, 3, 3], &[], 4);
    walked("all-below-the-superline's", 3, &[2, 2, 2, 2], &[], 4);
    walked("first-and-only", 1, &[1, 1], &[], 2);
    walked("largest", MAX_EPOCH, &[0, 1, MAX_EPOCH - 1, MAX_EPOCH], &[], 4);
    walked("zero-behind", 3, &[0, 1, 0, 1], &[], 2);
    walked("zero-last", 3, &[3, 3, 0], &[], 2);
    walked("fall-by-one", 3, &[1, 3, 2, 3], &[], 2);
    walked("fall-from-the-first", MAX_EPOCH, &[MAX_EPOCH, 1], &[], 1);
    walked("pass-by-one", 3, &[3, 4, 4], &[], 1);
    walked("pass-at-the-first", 3, &[4, 4], &[], 0);
    walked("pass-after-zeros", 3, &[0, 0, 4], &[], 2);
    walked("pass-and-fall", 3, &[1, 9, 0], &[], 1);
    walked("largest-passes", MAX_EPOCH - 1, &[MAX_EPOCH - 1, MAX_EPOCH], &[], 1);
    // Released records count in both ways.
    walked("released-fine", 3, &[1, 2, 2, 3], &[0, 2], 4);
    walked("fall-behind-released", 3, &[1, 3, 2], &[1], 2);
    walked("zero-behind-released", 3, &[1, 0], &[0], 1);
    walked("released-falls", 3, &[2, 1, 2], &[1], 1);
    walked("released-passes", 3, &[2, 4, 3], &[1], 1);
    walked("released-zero-behind", 3, &[2, 0, 3], &[1], 1);
    samples
}

/// One fault of the superline each; all are refusal 4.
fn superlines() -> Vec<Sample> {
    let good = Superline { capacity: 16, head_position: 0, head_lsn: 1, epoch: 1 };
    let with = |superline: Superline| {
        let mut image = vec![0; 40];
        image[8..14].copy_from_slice(&superline.words());
        image
    };
    let mut samples = Vec::new();
    let mut wrong = |name: &str, image: Vec<u64>| {
        let bytes = image.iter().flat_map(|word| word.to_le_bytes()).collect();
        samples.push(sample(format!("superline-{name}"), bytes, "refused 4\n"));
    };
    let mut selector = with(good);
    selector[0] = 2;
    wrong("selector", selector);
    let mut other_copy = with(good);
    other_copy[0] = 1;
    wrong("other-copy", other_copy);
    let mut first_word = with(good);
    first_word[8] ^= 1 << 50;
    wrong("first-word", first_word);
    wrong("capacity", with(Superline { capacity: 17, ..good }));
    wrong("head-position", with(Superline { head_position: 16, ..good }));
    wrong("head-lsn-zero", with(Superline { head_lsn: 0, ..good }));
    wrong("head-lsn-high", with(Superline { head_lsn: LSN_LIMIT + 1, ..good }));
    wrong("epoch-zero", with(Superline { epoch: 0, ..good }));
    wrong("epoch-high", with(Superline { epoch: 1 << 32, ..good }));
    let mut check = with(good);
    check[13] ^= 1;
    wrong("check", check);
    samples
}

/// Sizes that no image has; all are refusal 1.
fn sizes() -> Vec<Sample> {
    let smallest = 8 * (FIRST_RING_WORD as usize + 16);
    [0, 7, smallest - 8, smallest - 1, smallest + 1, 65_536 + 1, 65_536 + 8, 200_000]
        .into_iter()
        .map(|size| sample(format!("size-{size}"), vec![0; size], "refused 1\n"))
        .collect()
}
