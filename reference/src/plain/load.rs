//! What logload writes, in one pass over the text: the words of a record are made as its digits are read.

use super::crc32_of_words;
use super::scan::record_check;
use crate::layout::{
    COPY_FIRST_WORD, FIRST_RING_WORD, LSN_LIMIT, MARK_COMMITTED, MAX_CAPACITY, MAX_IMAGE_WORDS,
    MAX_KIND, MAX_LENGTH, TABLE_SIZE,
};
use crate::loglist::HEADING;
use crate::logload::MAX_TEXT_BYTES;
use crate::refusal::{require, Refusal};

const IMAGE_WORDS: usize = MAX_IMAGE_WORDS as usize;
const RING: usize = FIRST_RING_WORD as usize;

/// The value of each hex digit, 255 for a byte that is none.
static HEX_DIGITS: [u8; 256] = {
    let mut values = [255; 256];
    let mut value = 0;
    while value < 16 {
        values[b"0123456789abcdef"[value] as usize] = value as u8;
        value += 1;
    }
    values
};

/// Puts the image that lists this text in place of what `image` held. A refusal leaves any words there.
pub fn load(text: &[u8], image: &mut [u64; IMAGE_WORDS]) -> Result<(), Refusal> {
    require(text.len() <= MAX_TEXT_BYTES, Refusal::BadLine)?;
    let mut rest = Rest(text);
    rest.take(HEADING.as_bytes())?;
    rest.take(b"\n")?;
    image.fill(0);
    let (mut position, mut count) = (RING, 0);
    // The LSNs of the head and of the next line; any is right for the first line.
    let (mut head_lsn, mut next_lsn) = (0, 0);
    while !rest.0.starts_with(b"e") {
        let lsn = rest.number(b' ')?;
        let kind = rest.number(b' ')?;
        let length = rest.number(b' ')?;
        require((1..LSN_LIMIT).contains(&lsn), Refusal::BadLine)?;
        let digits = rest.data(length)?;
        // Refusals behind 17, which the digits may still meet.
        let refusal = if count > 0 && lsn != next_lsn {
            Some(Refusal::NotNext)
        } else if !(1..=MAX_KIND).contains(&kind) || length > MAX_LENGTH {
            Some(Refusal::Argument)
        } else if count == TABLE_SIZE {
            Some(Refusal::TableFull)
        } else if position + 3 + (length as usize).div_ceil(8) >= IMAGE_WORDS {
            Some(Refusal::NoRoom)
        } else {
            None
        };
        if let Some(refusal) = refusal {
            let good = digits.iter().all(|&digit| HEX_DIGITS[usize::from(digit)] < 16);
            return Err(if good { refusal } else { Refusal::BadLine });
        }
        let size = 3 + (length as usize).div_ceil(8);
        let record = &mut image[position..position + size];
        let (numbers, payload) = record.split_at_mut(3);
        decode(digits, payload)?;
        let header = length | kind << 32;
        numbers[0] = header | MARK_COMMITTED << 48;
        numbers[1] = lsn;
        // The upper half is epoch 0.
        numbers[2] = record_check(header, lsn, (payload, &[])).into();
        if count == 0 {
            head_lsn = lsn;
        }
        position += size;
        next_lsn = lsn + 1;
        count += 1;
    }
    rest.take(b"end ")?;
    let end_lsn = rest.number(b'\n')?;
    require((1..=LSN_LIMIT).contains(&end_lsn), Refusal::BadLine)?;
    require(count == 0 || end_lsn == next_lsn, Refusal::NotNext)?;
    require(rest.0.is_empty(), Refusal::BadLine)?;
    if count == 0 {
        head_lsn = end_lsn;
    }
    let copy = [COPY_FIRST_WORD, MAX_CAPACITY, 0, head_lsn, 1];
    image[8..13].copy_from_slice(&copy);
    image[13] = crc32_of_words(&copy);
    Ok(())
}

/// What is not read yet. Each step is refusal 17 if something else stands there.
struct Rest<'a>(&'a [u8]);

impl<'a> Rest<'a> {
    fn take(&mut self, bytes: &[u8]) -> Result<(), Refusal> {
        self.0 = self.0.strip_prefix(bytes).ok_or(Refusal::BadLine)?;
        Ok(())
    }

    /// A number without leading zeros and the byte behind it; 2^64 - 1 stands for all that are more.
    fn number(&mut self, behind: u8) -> Result<u64, Refusal> {
        let mut value = 0u64;
        let mut count = 0;
        while let Some(digit @ 0..10) = self.0.get(count).map(|byte| byte.wrapping_sub(b'0')) {
            // No number of nineteen digits is above 2^64 - 1.
            value = if count < 19 {
                10 * value + u64::from(digit)
            } else {
                value.saturating_mul(10).saturating_add(u64::from(digit))
            };
            count += 1;
        }
        let good = count == 1 || count > 1 && self.0[0] != b'0';
        require(good && self.0.get(count) == Some(&behind), Refusal::BadLine)?;
        self.0 = &self.0[count + 1..];
        Ok(value)
    }

    /// Two bytes for each of the payload and the line feed, or "-" and the line feed; whether they are hex digits is not tested.
    fn data(&mut self, length: u64) -> Result<&'a [u8], Refusal> {
        if length == 0 {
            self.take(b"-\n")?;
            return Ok(&[]);
        }
        require(length <= self.0.len() as u64, Refusal::BadLine)?;
        let (digits, rest) =
            self.0.split_at_checked(2 * length as usize).ok_or(Refusal::BadLine)?;
        self.0 = rest;
        self.take(b"\n")?;
        Ok(digits)
    }
}

/// Puts the bytes of these pairs of digits in words of zero, as many as they need. Refusal 17 if one is no hex digit.
fn decode(digits: &[u8], words: &mut [u64]) -> Result<(), Refusal> {
    let (whole, last) = digits.as_chunks::<16>();
    let mut seen = 0;
    for (word, digits) in words.iter_mut().zip(whole) {
        *word = word_of(digits, &mut seen);
    }
    if let ([.., word], false) = (words, last.is_empty()) {
        let mut digits = [b'0'; 16];
        digits[..last.len()].copy_from_slice(last);
        *word = word_of(&digits, &mut seen);
    }
    require(seen < 16, Refusal::BadLine)
}

/// The word of sixteen digits; their values are put together in `seen`, which is above 15 once one was no digit.
#[inline]
fn word_of(digits: &[u8; 16], seen: &mut u8) -> u64 {
    let mut bytes = [0; 8];
    for (byte, [high, low]) in bytes.iter_mut().zip(digits.as_chunks().0) {
        let (high, low) = (HEX_DIGITS[usize::from(*high)], HEX_DIGITS[usize::from(*low)]);
        *seen |= high | low;
        *byte = high << 4 | low;
    }
    u64::from_le_bytes(bytes)
}
