//! The program logload (document 02, slip 7): the image of 8,192 words that lists what a text says.
//!
//! A text is the heading, record lines and the end line. Each line in turn is tested for refusals 17, 18, 3, 9 and 10 in that order,
//! and what is behind the end line last.

use crate::layout::{
    record_check, record_size, CheckWord, Header, Superline, FIRST_RING_WORD, LSN_LIMIT,
    MARK_COMMITTED, MAX_CAPACITY, MAX_IMAGE_WORDS, MAX_KIND, MAX_LENGTH, TABLE_SIZE,
};
use crate::loglist::HEADING;
use crate::refusal::{require, Refusal};
use std::io::{self, Read};

pub const MAX_TEXT_BYTES: usize = 262_144;

/// Reads a text, no further than needed to see that it is too long.
pub fn read_text(input: impl Read) -> io::Result<Vec<u8>> {
    let mut text = Vec::new();
    input.take(MAX_TEXT_BYTES as u64 + 1).read_to_end(&mut text)?;
    Ok(text)
}

/// What logload writes for this text: an image's bytes, or a line with the refusal's number.
pub fn output(text: &[u8]) -> Vec<u8> {
    match logload(text) {
        Ok(image) => image.into_iter().flat_map(u64::to_le_bytes).collect(),
        Err(refusal) => format!("refused {}\n", refusal.number()).into_bytes(),
    }
}

pub fn logload(text: &[u8]) -> Result<Vec<u64>, Refusal> {
    require(text.len() <= MAX_TEXT_BYTES, Refusal::BadLine)?;
    let (heading, mut rest) = first_line(text)?;
    require(heading == HEADING.as_bytes(), Refusal::BadLine)?;
    let mut records: Vec<Record> = Vec::new();
    let mut used = 0;
    let end_lsn = loop {
        let (line, behind) = first_line(rest)?;
        rest = behind;
        let line = Line::parse(line).ok_or(Refusal::BadLine)?;
        let is_next = records.last().is_none_or(|last| line.lsn() == last.lsn + 1);
        require(is_next, Refusal::NotNext)?;
        match line {
            Line::Record(record) => {
                let length = record.payload.len() as u64;
                let fits = (1..=MAX_KIND).contains(&record.kind) && length <= MAX_LENGTH;
                require(fits, Refusal::Argument)?;
                require(records.len() < TABLE_SIZE, Refusal::TableFull)?;
                used += record_size(length);
                require(used < MAX_CAPACITY, Refusal::NoRoom)?;
                records.push(record);
            }
            Line::End { lsn } => break lsn,
        }
    };
    require(rest.is_empty(), Refusal::BadLine)?;
    Ok(image_of(&records, end_lsn))
}

/// Copy 0 is active, and the records follow on from position 0. What neither fixes is 0.
fn image_of(records: &[Record], end_lsn: u64) -> Vec<u64> {
    let head_lsn = records.first().map_or(end_lsn, |first| first.lsn);
    let superline = Superline { capacity: MAX_CAPACITY, head_position: 0, head_lsn, epoch: 1 };
    let mut image = vec![0; Superline::first_word(0) as usize];
    image.extend(superline.words());
    image.resize(FIRST_RING_WORD as usize, 0);
    for record in records {
        image.extend(record.words());
    }
    image.resize(MAX_IMAGE_WORDS as usize, 0);
    image
}

// ---------------------------------------------------------------- lines

/// A text's first line without its line feed, and what is behind it. Refusal 17 if there is no line feed.
fn first_line(text: &[u8]) -> Result<(&[u8], &[u8]), Refusal> {
    let end = text.iter().position(|&byte| byte == b'\n').ok_or(Refusal::BadLine)?;
    Ok((&text[..end], &text[end + 1..]))
}

/// A line behind the heading.
enum Line {
    Record(Record),
    End { lsn: u64 },
}

struct Record {
    lsn: u64,
    /// At most 2^64 - 1, which stands for all that are more.
    kind: u64,
    payload: Vec<u8>,
}

impl Line {
    /// `None` if the line is not in the form of either.
    fn parse(line: &[u8]) -> Option<Line> {
        let fields: Vec<&[u8]> = line.split(|&byte| byte == b' ').collect();
        match fields[..] {
            [b"end", lsn] => {
                let lsn = number(lsn)?;
                (1..=LSN_LIMIT).contains(&lsn).then_some(Line::End { lsn })
            }
            [lsn, kind, length, data] => {
                let (lsn, kind, length) = (number(lsn)?, number(kind)?, number(length)?);
                let payload = bytes_of_hex(data)?;
                let right = (1..LSN_LIMIT).contains(&lsn) && payload.len() as u64 == length;
                right.then_some(Line::Record(Record { lsn, kind, payload }))
            }
            _ => None,
        }
    }

    fn lsn(&self) -> u64 {
        match *self {
            Line::Record(Record { lsn, .. }) | Line::End { lsn } => lsn,
        }
    }
}

impl Record {
    fn words(&self) -> Vec<u64> {
        let Record { lsn, kind, ref payload } = *self;
        let length = payload.len() as u64;
        let check = record_check(length, kind, lsn, payload.iter().copied());
        // A listing says no epochs.
        let check_word = CheckWord { check, epoch: 0 }.word();
        let mut words = vec![Header { length, kind, mark: MARK_COMMITTED }.word(), lsn, check_word];
        words.extend(payload.chunks(8).map(|bytes| {
            let mut word = [0; 8];
            word[..bytes.len()].copy_from_slice(bytes);
            u64::from_le_bytes(word)
        }));
        words
    }
}

/// A number of any length without leading zeros; 2^64 - 1 stands for all that are more, as every range ends below it.
fn number(digits: &[u8]) -> Option<u64> {
    let good = match digits {
        [] => false,
        [b'0', more @ ..] => more.is_empty(),
        _ => digits.iter().all(u8::is_ascii_digit),
    };
    let append =
        |value: u64, digit: &u8| value.saturating_mul(10).saturating_add(u64::from(digit - b'0'));
    good.then(|| digits.iter().fold(0, append))
}

/// The bytes of pairs of hex digits, none of them a capital; "-" is none at all.
fn bytes_of_hex(data: &[u8]) -> Option<Vec<u8>> {
    let (pairs, rest) = data.as_chunks();
    match data {
        [] => None,
        b"-" => Some(Vec::new()),
        _ if rest.is_empty() => pairs
            .iter()
            .map(|[high, low]| Some(hex_digit(*high)? << 4 | hex_digit(*low)?))
            .collect(),
        _ => None,
    }
}

fn hex_digit(digit: u8) -> Option<u8> {
    match digit {
        b'0'..=b'9' => Some(digit - b'0'),
        b'a'..=b'f' => Some(digit - b'a' + 10),
        _ => None,
    }
}
