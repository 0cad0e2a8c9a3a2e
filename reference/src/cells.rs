//! What one bad cell can do (document 02, slip 14), tried out.
//!
//! Images of every sort whose open is not refused are listed; then one word is changed, any but the selector and the active copy, and
//! they are listed again. What is due follows from the list before and from which walked record holds the word: the slip's two claims,
//! and of each word of a record what the tests of next make of it. Nothing is due of what the slip leaves open: what stands behind the
//! records if the walk was refused there, and what follows a marked word where the walk ended.

use crate::calls::{next, open, Cursor, Next, Record};
use crate::compare::output_and_status;
use crate::images::image;
use crate::layout::{
    record_check, record_size, words_of_bytes, CheckWord, Header, Ring, Superline, COPY_WORDS,
    HEADER_WORDS, MARK_COMMITTED, MARK_NONE, MARK_RELEASED, MAX_EPOCH, MAX_KIND, MAX_LENGTH,
    SELECTOR_WORD, TABLE_SIZE,
};
use crate::loglist::{end_line, hex, loglist, stop_line, HEADING};
use crate::refusal::RecordTest;
use crate::rng::Rng;
use std::fmt::Write as _;
use std::io;
use std::ops::Range;
use std::path::Path;
use std::time::{Duration, Instant};

/// Neighbouring bits that a record's check sees for sure if they change.
const BURST: u32 = 32;
/// 33 of them that it does not see: the CRC's polynomial.
const UNSEEN: u64 = 0x1_DB71_0641;

/// Images of at most so many words have each word changed in turn.
const SMALL: usize = 160;
/// Further changes of such an image, over all kinds, and of a larger one.
const FURTHER: [u64; 2] = [10 * CHANGES.len() as u64, 3 * CHANGES.len() as u64];
/// One change in so many goes through the other program too; all do if a claim is too strong.
const SHARE: u64 = 4;

/// A claim made stronger than the slip does: the bench must find out that it is false.
#[derive(Clone, Copy, Debug, PartialEq, Eq)]
pub enum Variant {
    /// 33 neighbouring bits are always seen.
    ThirtyThreeBits,
    /// 32 neighbouring bits of any word of a record are always seen.
    AnyWord,
    /// The word where the walk ended may be changed too.
    EndWord,
    /// So may the selector.
    Selector,
    /// So may the active copy.
    ActiveCopy,
    /// The record that holds the word is listed unchanged too.
    Holder,
    /// A record holds as many words as its payload takes.
    ShortHolder,
    /// The whole list stays also where the walk was refused.
    Refused,
    /// Another mark is always seen.
    Mark,
    /// Another length is always seen.
    Length,
    /// Another epoch is always seen.
    Epoch,
}

impl Variant {
    pub const ALL: [(&'static str, Variant); 11] = [
        ("thirty-three-bits", Variant::ThirtyThreeBits),
        ("any-word", Variant::AnyWord),
        ("end-word", Variant::EndWord),
        ("selector", Variant::Selector),
        ("active-copy", Variant::ActiveCopy),
        ("holder", Variant::Holder),
        ("short-holder", Variant::ShortHolder),
        ("refused", Variant::Refused),
        ("mark", Variant::Mark),
        ("length", Variant::Length),
        ("epoch", Variant::Epoch),
    ];

    pub fn named(name: &str) -> Option<Variant> {
        Variant::ALL.into_iter().find(|&(its_name, _)| its_name == name).map(|(_, variant)| variant)
    }
}

/// How often each of some named things was met.
#[derive(Clone, Debug)]
pub struct Tally(pub Vec<(&'static str, u64)>);

impl Tally {
    fn new(names: impl IntoIterator<Item = &'static str>) -> Tally {
        Tally(names.into_iter().map(|name| (name, 0)).collect())
    }

    fn add(&mut self, name: &'static str) {
        match self.0.iter_mut().find(|(known, _)| *known == name) {
            Some((_, count)) => *count += 1,
            None => self.0.push((name, 1)),
        }
    }

    pub fn total(&self) -> u64 {
        self.0.iter().map(|(_, count)| count).sum()
    }

    /// A line for each.
    pub fn text(&self) -> String {
        self.0.iter().map(|(name, count)| format!("{count:>9} {name}\n")).collect()
    }
}

#[derive(Clone, Debug)]
pub struct Report {
    pub images: u64,
    /// By the kind of the change.
    pub changes: Tally,
    /// By what is due.
    pub due: Tally,
    /// How many of the changed images the other program listed too.
    pub through_program: u64,
    pub failure: Option<Failure>,
}

#[derive(Clone, Debug)]
pub struct Failure {
    /// Starting with this seed meets the failure in its first image.
    pub seed: u64,
    pub what: String,
    /// The image word by word in hex, one word to a line, the changed one with both its values.
    pub image: String,
}

/// Another program that lists an image's bytes.
pub type Lister<'a> = &'a mut dyn FnMut(&[u8]) -> io::Result<String>;

/// What that program writes.
pub fn lister(program: &Path) -> impl FnMut(&[u8]) -> io::Result<String> + '_ {
    move |bytes| Ok(String::from_utf8_lossy(&output_and_status(program, bytes)?.0).into_owned())
}

/// Changes words of the images of these seeds, until time is up or a list is not as it should be.
pub fn cells(
    program: Lister,
    variant: Option<Variant>,
    seeds: impl Iterator<Item = u64>,
    time: Duration,
) -> io::Result<Report> {
    let end = Instant::now() + time;
    let report = Report {
        images: 0,
        changes: Tally::new([IN_TURN].into_iter().chain(CHANGES.map(|(name, _)| name))),
        due: Tally::new(DUE),
        through_program: 0,
        failure: None,
    };
    let mut bench = Bench { program, variant, end, report };
    for seed in seeds {
        if bench.done() {
            break;
        }
        let (name, bytes) = image(seed);
        let log = words_of_bytes(&bytes).and_then(|words| Log::of_image(name, words));
        if let Some(log) = log.and_then(|log| log.with_two_lengths(seed)) {
            bench.report.images += 1;
            bench.image(seed, &log)?;
        }
    }
    Ok(bench.report)
}

// ---------------------------------------------------------------- an image and its list

/// A record that the walk found, and its line, listed or not.
struct Found {
    record: Record,
    line: String,
}

/// An image whose open is not refused, with what its walk finds.
struct Log {
    /// The sort of the image.
    name: &'static str,
    image: Vec<u64>,
    ring: Ring,
    superline_epoch: u64,
    records: Vec<Found>,
    /// Behind the last record found.
    end: Cursor,
    last_line: String,
    refused: bool,
}

impl Log {
    fn of_image(name: &'static str, image: Vec<u64>) -> Option<Log> {
        let ring = Ring::of_image(&image)?;
        let mut end = open(&image).ok()?;
        let superline_epoch = end.superline_epoch;
        let mut records = Vec::new();
        let (last_line, refused) = loop {
            match next(&image, &end) {
                Ok(Next::Record { record, behind }) => {
                    let payload = ring.payload(&image, record.position, record.length).collect();
                    records.push(Found { record, line: line(&record, payload) });
                    end = behind;
                }
                Ok(Next::End { lsn }) => break (end_line(lsn), false),
                Err(refusal) => break (stop_line(refusal).ok()?, true),
            }
        };
        Some(Log { name, image, ring, superline_epoch, records, end, last_line, refused })
    }

    /// The same with the last bytes of some records, as the seed has it, such that their checks fit another length too.
    fn with_two_lengths(mut self, seed: u64) -> Option<Log> {
        let mut rng = Rng::new(seed ^ 0x2E46);
        for Found { record, .. } in &self.records {
            if record.length >= SHORTER && rng.chance(1, 3) {
                fit_two_lengths(self.ring, &mut self.image, record);
            }
        }
        Log::of_image(self.name, self.image)
    }

    /// The number of the image's word that is so many behind the first of a record.
    fn word(&self, record: &Record, words: u64) -> usize {
        self.ring.word(record.position, words) as usize
    }

    fn end_word(&self) -> usize {
        self.ring.word(self.end.position, 0) as usize
    }

    /// The words of the copy that the selector names.
    fn active_copy(&self) -> Range<usize> {
        let first = Superline::first_word(self.image[SELECTOR_WORD as usize]) as usize;
        first..first + COPY_WORDS
    }

    /// Whether the claims speak of a change of this word.
    fn covers(&self, variant: Option<Variant>, word: usize) -> bool {
        if word == SELECTOR_WORD as usize {
            variant == Some(Variant::Selector)
        } else if self.active_copy().contains(&word) {
            variant == Some(Variant::ActiveCopy)
        } else {
            true
        }
    }

    /// The record that holds a word, and which of its words that is.
    fn holder(&self, variant: Option<Variant>, word: usize) -> Option<(usize, u64)> {
        let less = if variant == Some(Variant::ShortHolder) { HEADER_WORDS } else { 0 };
        let ring_word = |found: &Found| {
            let size = record_size(found.record.length) - less;
            (0..size).find(|&words| self.word(&found.record, words) == word)
        };
        self.records.iter().enumerate().find_map(|(j, found)| Some((j, ring_word(found)?)))
    }

    /// The list's text up to the first so many records found.
    fn before(&self, count: usize) -> String {
        let mut text = format!("{HEADING}\n");
        self.records[..count].iter().for_each(|found| text += found.listed());
        text
    }

    /// The list's text behind the first so many records found.
    fn rest(&self, count: usize) -> String {
        let listed: String = self.records[count..].iter().map(Found::listed).collect();
        listed + &self.last_line
    }
}

impl Found {
    fn listed(&self) -> &str {
        if self.record.mark == MARK_RELEASED {
            ""
        } else {
            &self.line
        }
    }
}

/// By how many bytes a record can be shorter with the same check: four can make up for any difference.
const SHORTER: u64 = 4;

/// Changes a record's last four bytes, and its check, so that the check fits it without them too.
fn fit_two_lengths(ring: Ring, image: &mut [u64], record: &Record) {
    let Record { position, lsn, kind, length, .. } = *record;
    let shorter = length - SHORTER;
    let start: Vec<u8> = ring.payload(image, position, shorter).collect();
    let check_of = |length| record_check(length, kind, lsn, start.iter().copied());
    let (check, before) = (check_of(shorter), check_of(length));
    // From the remainder that is wanted back over 32 bits of 0: where that differs from the one there is, the bytes have a 1.
    let mut remainder = !(check as u32);
    for _ in 0..32 {
        remainder = match remainder >> 31 {
            0 => remainder << 1,
            _ => (remainder ^ (UNSEEN >> 1) as u32) << 1 | 1,
        };
    }
    let last = (remainder ^ !(before as u32)).to_le_bytes();
    for (byte, at) in last.into_iter().zip(shorter..) {
        let word = &mut image[ring.word(position, HEADER_WORDS + at / 8) as usize];
        let shift = 8 * (at % 8);
        *word = *word & !(0xFF << shift) | u64::from(byte) << shift;
    }
    let word = &mut image[ring.word(position, 2) as usize];
    *word = CheckWord { check, ..CheckWord::of_word(*word) }.word();
}

fn line(record: &Record, payload: Vec<u8>) -> String {
    format!("{} {} {} {}\n", record.lsn, record.kind, record.length, hex(&payload))
}

// ---------------------------------------------------------------- what is due

/// What a list has to be after a change.
struct Due {
    name: &'static str,
    start: String,
    then: Then,
}

enum Then {
    /// One of these, and nothing more.
    OneOf(Vec<String>),
    /// Other lines than these.
    Not(String),
    /// Lines that start so.
    Starts(String),
}

impl Due {
    fn is(&self, text: &str) -> bool {
        let Some(rest) = text.strip_prefix(self.start.as_str()) else { return false };
        rest.ends_with('\n')
            && match &self.then {
                Then::OneOf(texts) => texts.iter().any(|text| text == rest),
                Then::Not(text) => rest != text,
                Then::Starts(text) => rest.starts_with(text),
            }
    }
}

// The names of what can be due.
const UNHELD: &str = "same: no record's word";
const UNHELD_REFUSED: &str = "records stay: no record's word of a refused walk";
const END_UNMARKED: &str = "same: end's word without a mark";
const END_MARKED: &str = "records stay: end's word with a mark";
const END_TOO_MANY: &str = "too many: end's word with a mark behind 256 records";
const PADDING: &str = "same: padding";
const PAYLOAD: &str = "check: 32 bits of a payload word";
const PAYLOAD_WIDE: &str = "check or not seen: more bits of it";
const PAYLOAD_UNSEEN: &str = "not seen: 33 bits of it";
const NO_MARK: &str = "end: no mark";
const RELEASED: &str = "left out: mark 2";
const LISTED_AGAIN: &str = "listed again: mark 1";
const MARK: &str = "mark";
const KIND: &str = "kind";
const LENGTH: &str = "length";
const FIT: &str = "fit";
const OTHER_KIND: &str = "check: another kind";
const OTHER_LENGTH: &str = "check: another length";
const LENGTH_UNSEEN: &str = "not seen: another length";
const LENGTH_AND_SIZE_UNSEEN: &str = "not seen here: another length and size";
const LSN: &str = "LSN";
const CHECK: &str = "check: word 2";
const EPOCH: &str = "epoch";
const NEXT_EPOCH: &str = "epoch of the next record";
const OTHER_EPOCH: &str = "same: another epoch";
pub const DUE: [&str; 25] = [
    UNHELD,
    UNHELD_REFUSED,
    END_UNMARKED,
    END_MARKED,
    END_TOO_MANY,
    PADDING,
    PAYLOAD,
    PAYLOAD_WIDE,
    PAYLOAD_UNSEEN,
    NO_MARK,
    RELEASED,
    LISTED_AGAIN,
    MARK,
    KIND,
    LENGTH,
    FIT,
    OTHER_KIND,
    OTHER_LENGTH,
    LENGTH_UNSEEN,
    LENGTH_AND_SIZE_UNSEEN,
    LSN,
    CHECK,
    EPOCH,
    NEXT_EPOCH,
    OTHER_EPOCH,
];

impl Log {
    /// What is due if this word is changed to this value, which it does not have.
    fn due(&self, variant: Option<Variant>, word: usize, value: u64) -> Due {
        let all = self.records.len();
        let same = |name| Due { name, start: self.before(all), then: one(self.rest(all)) };
        let Some((j, words)) = self.holder(variant, word) else {
            let at_end = word == self.end_word();
            let mark = Header::of_word(value).mark;
            return if self.refused && (at_end || variant != Some(Variant::Refused)) {
                Due { then: anything(), ..same(UNHELD_REFUSED) }
            } else if !at_end || variant == Some(Variant::EndWord) {
                same(UNHELD)
            } else if mark == MARK_NONE {
                same(END_UNMARKED)
            } else if all == TABLE_SIZE {
                let too_many = format!("toomany {}\n", self.end.lsn);
                Due { then: one(too_many), ..same(END_TOO_MANY) }
            } else {
                // The walk goes on, or it is refused here.
                Due { then: Then::Not(self.rest(all)), ..same(END_MARKED) }
            };
        };
        let burst = bits(self.image[word] ^ value) <= BURST;
        match variant {
            Some(Variant::AnyWord) if burst => {
                let damaged = |test: RecordTest| self.damaged(j, test.word());
                let texts = RecordTest::ALL.map(damaged).into_iter().chain([self.rest(j)]);
                let texts = texts.collect();
                Due { name: "damage or the same", start: self.before(j), then: Then::OneOf(texts) }
            }
            Some(Variant::Holder) => {
                Due { name: "holder stays", start: self.before(j + 1), then: anything() }
            }
            _ => {
                let (name, then) = match words {
                    0 => self.word_0_due(variant, j, value),
                    1 => (LSN, one(self.damaged(j, "LSN"))),
                    2 => self.word_2_due(variant, j, word, value),
                    _ => self.payload_due(variant, j, words, word, value),
                };
                Due { name, start: self.before(j), then }
            }
        }
    }

    /// The last line where the j-th record found is damaged.
    fn damaged(&self, j: usize, test: &str) -> String {
        format!("damaged {} {test}\n", self.records[j].record.lsn)
    }

    fn word_0_due(&self, variant: Option<Variant>, j: usize, value: u64) -> (&'static str, Then) {
        let found = &self.records[j];
        let Header { length, kind, mark } = Header::of_word(value);
        let Record { position, lsn, .. } = found.record;
        let behind = self.rest(j + 1);
        let used: u64 =
            self.records[..j].iter().map(|found| record_size(found.record.length)).sum();
        let fits = || {
            let payload = self.ring.payload(&self.image, position, length);
            let word = self.ring.read(&self.image, position, 2);
            CheckWord::of_word(word).check == record_check(length, kind, lsn, payload)
        };
        let (name, text) = if variant == Some(Variant::Mark) && mark != found.record.mark {
            (MARK, self.damaged(j, "mark"))
        } else if mark == MARK_NONE {
            (NO_MARK, end_line(lsn))
        } else if mark > MARK_RELEASED {
            (MARK, self.damaged(j, "mark"))
        } else if kind == 0 {
            (KIND, self.damaged(j, "kind"))
        } else if length > MAX_LENGTH {
            (LENGTH, self.damaged(j, "length"))
        } else if used + record_size(length) >= self.ring.capacity() {
            (FIT, self.damaged(j, "fit"))
        } else if length != found.record.length {
            if !fits() || variant == Some(Variant::Length) {
                (OTHER_LENGTH, self.damaged(j, "check"))
            } else {
                let record = Record { kind, length, mark, ..found.record };
                let payload = self.ring.payload(&self.image, position, length);
                let line = line(&record, payload.collect());
                let listed = Found { record, line }.listed().to_string();
                if record_size(length) != record_size(found.record.length) {
                    // What follows is read from another place.
                    return (LENGTH_AND_SIZE_UNSEEN, Then::Starts(listed));
                }
                (LENGTH_UNSEEN, listed + &behind)
            }
        } else if kind != found.record.kind {
            (OTHER_KIND, self.damaged(j, "check"))
        } else if mark == MARK_RELEASED {
            (RELEASED, behind)
        } else {
            (LISTED_AGAIN, found.line.clone() + &behind)
        };
        (name, one(text))
    }

    fn word_2_due(
        &self,
        variant: Option<Variant>,
        j: usize,
        word: usize,
        value: u64,
    ) -> (&'static str, Then) {
        let (old, new) = (CheckWord::of_word(self.image[word]), CheckWord::of_word(value));
        let epoch_of = |j: usize| self.records.get(j).map(|found| found.record.epoch);
        let before = j.checked_sub(1).and_then(epoch_of).unwrap_or(0);
        let stays = self.records[j].listed().to_string();
        match epoch_of(j + 1) {
            _ if new.check != old.check => (CHECK, one(self.damaged(j, "check"))),
            _ if !(before..=self.superline_epoch).contains(&new.epoch)
                || variant == Some(Variant::Epoch) =>
            {
                (EPOCH, one(self.damaged(j, "epoch")))
            }
            Some(behind) if behind < new.epoch => {
                (NEXT_EPOCH, one(stays + &self.damaged(j + 1, "epoch")))
            }
            // What was refused behind it may have been refused for its epoch.
            None if self.refused => (OTHER_EPOCH, anything()),
            _ => (OTHER_EPOCH, one(self.rest(j))),
        }
    }

    fn payload_due(
        &self,
        variant: Option<Variant>,
        j: usize,
        words: u64,
        word: usize,
        value: u64,
    ) -> (&'static str, Then) {
        let found = &self.records[j];
        let own_bytes = (found.record.length - 8 * (words - HEADER_WORDS)).min(8);
        let own = u64::MAX >> (64 - 8 * own_bytes);
        let difference = self.image[word] ^ value;
        let unseen = || {
            let mut changed = self.image.clone();
            changed[word] = value;
            let payload = self.ring.payload(&changed, found.record.position, found.record.length);
            let line = line(&found.record, payload.collect());
            Found { record: found.record, line }.listed().to_string() + &self.rest(j + 1)
        };
        let sure = if variant == Some(Variant::ThirtyThreeBits) { BURST + 1 } else { BURST };
        if difference & own == 0 {
            (PADDING, one(self.rest(j)))
        } else if bits(difference) <= sure {
            (PAYLOAD, one(self.damaged(j, "check")))
        } else if difference & !own == 0 && difference >> difference.trailing_zeros() == UNSEEN {
            (PAYLOAD_UNSEEN, one(unseen()))
        } else {
            (PAYLOAD_WIDE, Then::OneOf(vec![self.damaged(j, "check"), unseen()]))
        }
    }
}

fn anything() -> Then {
    Then::Starts(String::new())
}

fn one(text: String) -> Then {
    Then::OneOf(vec![text])
}

/// How many neighbouring bits a difference spans; there is one.
fn bits(difference: u64) -> u32 {
    64 - difference.leading_zeros() - difference.trailing_zeros()
}

// ---------------------------------------------------------------- changes

/// A word and its new value.
type Change = (usize, u64);

/// The first kind: each word in turn.
const IN_TURN: &str = "in turn";

/// The name of a kind, and how a change of it is made; none if the image has nothing of it.
type Kind = (&'static str, fn(&Log, &mut Rng) -> Option<Change>);

/// The other kinds.
const CHANGES: [Kind; 14] = [
    ("at will", |log, rng| Some((any_word(log, rng), rng.next_u64()))),
    ("bit", |log, rng| {
        let word = any_word(log, rng);
        Some((word, log.image[word] ^ 1 << rng.below(64)))
    }),
    ("another word's value", |log, rng| Some((any_word(log, rng), rng.pick(&log.image)))),
    ("burst", |log, rng| {
        let word = payload_word(log, rng)?;
        Some((word, log.image[word] ^ burst(rng)))
    }),
    ("33 bits", |log, rng| {
        let word = payload_word(log, rng)?;
        Some((word, log.image[word] ^ UNSEEN << rng.below(32)))
    }),
    ("last payload word", |log, rng| {
        let record = any_record(log, rng).filter(|record| record.length > 0)?;
        let word = log.word(&record, record_size(record.length) - 1);
        let padding = u64::MAX << (8 * (record.length % 8));
        let bits = [1 << rng.below(64), burst(rng), rng.next_u64()];
        Some((word, log.image[word] ^ rng.pick(&bits) & rng.pick(&[padding, u64::MAX])))
    }),
    ("mark", |log, rng| {
        let high = rng.between(MARK_RELEASED + 1, 65_535);
        let mark = rng.pick(&[MARK_NONE, MARK_COMMITTED, MARK_RELEASED, MARK_RELEASED + 1, high]);
        header(log, rng, |good| Header { mark, ..good })
    }),
    ("kind", |log, rng| {
        let kinds = [0, 1, MAX_KIND, rng.below(MAX_KIND + 1), 1 << rng.below(16)];
        let kind = rng.pick(&kinds);
        header(log, rng, |good| Header { kind, ..good })
    }),
    ("length", |log, rng| {
        let words = rng.below(log.ring.capacity() + 2);
        let any = [rng.below(MAX_LENGTH + 1), rng.below(1 << 32), 1 << rng.below(32), 8 * words];
        let by = rng.pick(&[1, 8, 9]);
        let which = rng.below(8) as usize;
        header(log, rng, |good| Header {
            length: match which {
                0 => good.length + by,
                1 => good.length.saturating_sub(by),
                2 => MAX_LENGTH,
                3 => MAX_LENGTH + 1,
                _ => any[which - 4],
            },
            ..good
        })
    }),
    ("length that may fit", |log, rng| {
        header(log, rng, |good| Header { length: good.length.saturating_sub(SHORTER), ..good })
    }),
    ("LSN", |log, rng| {
        let record = any_record(log, rng)?;
        let lsn = record.lsn;
        let any = rng.next_u64();
        let value = rng.pick(&[lsn - 1, lsn + 1, 0, u64::MAX, any, lsn ^ 1 << (any % 64)]);
        Some((log.word(&record, 1), value))
    }),
    ("check", |log, rng| {
        let record = any_record(log, rng)?;
        let word = log.word(&record, 2);
        let bits = [1 << rng.below(32), rng.below(1 << 32), rng.next_u64()];
        Some((word, log.image[word] ^ rng.pick(&bits)))
    }),
    ("epoch", |log, rng| {
        let j = rng.below(log.records.len().max(1) as u64) as usize;
        let record = log.records.get(j)?.record;
        let epoch_of = |j: usize| log.records.get(j).map_or(0, |found| found.record.epoch);
        let nears = [
            0,
            record.epoch,
            epoch_of(j.wrapping_sub(1)),
            epoch_of(j + 1),
            log.superline_epoch,
            rng.below(MAX_EPOCH + 1),
            rng.below(log.superline_epoch + 1),
        ];
        let near = rng.pick(&nears);
        let epoch = rng.pick(&[near.saturating_sub(1), near, (near + 1).min(MAX_EPOCH)]);
        let word = log.word(&record, 2);
        Some((word, CheckWord { epoch, ..CheckWord::of_word(log.image[word]) }.word()))
    }),
    ("end's word", |log, rng| {
        let limit = rng.pick(&[20, MAX_LENGTH + 2]);
        let length = rng.below(limit);
        let (kind, mark) = (rng.below(3), rng.below(4));
        let header = Header { length, kind, mark }.word();
        let values = [header, header, rng.pick(&log.image), 1 << rng.below(64)];
        Some((log.end_word(), rng.pick(&values)))
    }),
];

fn any_word(log: &Log, rng: &mut Rng) -> usize {
    rng.below(log.image.len() as u64) as usize
}

fn any_record(log: &Log, rng: &mut Rng) -> Option<Record> {
    let which = rng.below(log.records.len().max(1) as u64) as usize;
    log.records.get(which).map(|found| found.record)
}

fn payload_word(log: &Log, rng: &mut Rng) -> Option<usize> {
    let record = any_record(log, rng).filter(|record| record.length > 0)?;
    let words = rng.between(HEADER_WORDS, record_size(record.length) - 1);
    Some(log.word(&record, words))
}

/// Another word 0 of a record.
fn header(log: &Log, rng: &mut Rng, change: impl FnOnce(Header) -> Header) -> Option<Change> {
    let word = log.word(&any_record(log, rng)?, 0);
    Some((word, change(Header::of_word(log.image[word])).word()))
}

/// 1 to 32 neighbouring bits somewhere in a word, the first and the last of them changed.
fn burst(rng: &mut Rng) -> u64 {
    let width = rng.between(1, u64::from(BURST));
    let inside = rng.next_u64() & (u64::MAX >> (64 - width));
    (inside | 1 | 1 << (width - 1)) << rng.below(64 - width + 1)
}

// ---------------------------------------------------------------- the bench

struct Bench<'a> {
    program: Lister<'a>,
    variant: Option<Variant>,
    end: Instant,
    report: Report,
}

impl Bench<'_> {
    fn done(&self) -> bool {
        self.report.failure.is_some() || Instant::now() >= self.end
    }

    fn image(&mut self, seed: u64, log: &Log) -> io::Result<()> {
        // Only where the refused record's other words were looked at.
        if self.variant == Some(Variant::Refused) && !log.last_line.ends_with("check\n") {
            return Ok(());
        }
        let mut rng = Rng::new(seed ^ 0xCE11);
        let whole = Due { name: "unchanged", start: log.before(0), then: one(log.rest(0)) };
        let bytes = bytes_of(&log.image);
        self.lists(seed, log, None, &whole, &bytes, true)?;
        let small = log.image.len() <= SMALL;
        if small {
            for word in 0..log.image.len() {
                let old = log.image[word];
                let values = [rng.next_u64(), old ^ 1 << rng.below(64), rng.pick(&log.image), 0];
                let value = rng.pick(&values);
                self.change(seed, log, &mut rng, IN_TURN, (word, value))?;
            }
        }
        for i in 0..FURTHER[usize::from(!small)] {
            let (kind, make) = CHANGES[(i % CHANGES.len() as u64) as usize];
            let change = match self.variant {
                Some(Variant::Selector) => Some((SELECTOR_WORD as usize, rng.below(3))),
                Some(Variant::ActiveCopy) => {
                    let word = log.active_copy().start + rng.below(COPY_WORDS as u64) as usize;
                    Some((word, log.image[word] ^ 1 << rng.below(64)))
                }
                // A word of the damaged record, behind its first.
                Some(Variant::Refused) => {
                    let word = log.ring.word(log.end.position, rng.between(1, 2)) as usize;
                    Some((word, rng.next_u64()))
                }
                _ => make(log, &mut rng),
            };
            if let Some(change) = change {
                self.change(seed, log, &mut rng, kind, change)?;
            }
        }
        Ok(())
    }

    fn change(
        &mut self,
        seed: u64,
        log: &Log,
        rng: &mut Rng,
        kind: &'static str,
        (word, value): Change,
    ) -> io::Result<()> {
        let through_program = rng.chance(1, SHARE) || self.variant.is_some();
        if self.done() || value == log.image[word] || !log.covers(self.variant, word) {
            return Ok(());
        }
        let due = log.due(self.variant, word, value);
        let mut bytes = bytes_of(&log.image);
        bytes[8 * word..8 * word + 8].copy_from_slice(&value.to_le_bytes());
        self.report.changes.add(kind);
        self.report.due.add(due.name);
        self.lists(seed, log, Some((word, value)), &due, &bytes, through_program)
    }

    /// Holds our list, and the program's, to what is due.
    fn lists(
        &mut self,
        seed: u64,
        log: &Log,
        change: Option<Change>,
        due: &Due,
        bytes: &[u8],
        through_program: bool,
    ) -> io::Result<()> {
        let mut texts = Vec::new();
        if through_program {
            texts.push(("the program", (self.program)(bytes)?));
            self.report.through_program += u64::from(change.is_some());
        }
        texts.push(("the reference", loglist(bytes)));
        if let Some((who, text)) = texts.into_iter().find(|(_, text)| !due.is(text)) {
            let what = log.story(self.variant, change, due, who, &text);
            self.report.failure = Some(Failure { seed, what, image: log.dump(change) });
        }
        Ok(())
    }
}

impl Log {
    fn story(
        &self,
        variant: Option<Variant>,
        change: Option<Change>,
        due: &Due,
        who: &str,
        text: &str,
    ) -> String {
        let changed = match change {
            None => "nothing changed".to_string(),
            Some((word, value)) => {
                let place = match self.holder(variant, word) {
                    Some((j, words)) => {
                        format!("word {words} of record {}", self.records[j].record.lsn)
                    }
                    None if word == self.end_word() => "the end's word".to_string(),
                    None => "no record's word".to_string(),
                };
                format!("word {word}, {place}, from {:x} to {value:x}", self.image[word])
            }
        };
        // Of a list that is not refused, the first line and the last are no records.
        let told = |text: &str| {
            let last = text.lines().last().unwrap_or("(no line)");
            format!("{} records and '{last}'", text.lines().count().saturating_sub(2))
        };
        let before = self.before(0) + &self.rest(0);
        format!(
            "image '{}', {changed}: due is '{}', but {who} lists {}, before {}",
            self.name,
            due.name,
            told(text),
            told(&before)
        )
    }

    fn dump(&self, change: Option<Change>) -> String {
        let mut text = String::new();
        for (number, word) in self.image.iter().enumerate() {
            let _ = match change {
                Some((changed, value)) if changed == number => {
                    writeln!(text, "{word:016x} -> {value:016x}")
                }
                _ => writeln!(text, "{word:016x}"),
            };
        }
        text
    }
}

fn bytes_of(words: &[u64]) -> Vec<u8> {
    words.iter().flat_map(|word| word.to_le_bytes()).collect()
}
