//! What loglist prints, in one pass over the image's bytes.

use super::scan::{require_size, superline, Record, Scan};
use crate::layout::MARK_RELEASED;
use crate::loglist::HEADING;
use crate::refusal::{require, Refusal};

/// Puts the text for an image's bytes in place of what `text` held.
pub fn list(bytes: &[u8], text: &mut Vec<u8>) {
    text.clear();
    if let Err(refusal) = list_records(bytes, text) {
        text.extend_from_slice(b"refused ");
        push_decimal(text, refusal.number());
        text.push(b'\n');
    }
}

/// Refusals 1 and 4 come before any text.
fn list_records(bytes: &[u8], text: &mut Vec<u8>) -> Result<(), Refusal> {
    let (image, rest) = bytes.as_chunks::<8>();
    require(rest.is_empty(), Refusal::ImageSize)?;
    require_size(image)?;
    let mut scan = Scan::new(image, &superline(image)?);
    text.extend_from_slice(HEADING.as_bytes());
    text.push(b'\n');
    let mut test = "";
    let last_line: &[u8] = loop {
        match scan.next() {
            Ok(Some(record)) if record.mark == MARK_RELEASED => {}
            Ok(Some(record)) => push_record(text, &record),
            Ok(None) => break b"end ",
            Err(Refusal::TooMany { .. }) => break b"toomany ",
            Err(refusal) => {
                test = refusal.record_test().map_or("", |test| test.word());
                break b"damaged ";
            }
        }
    };
    text.extend_from_slice(last_line);
    push_decimal(text, scan.lsn);
    if !test.is_empty() {
        text.push(b' ');
        text.extend_from_slice(test.as_bytes());
    }
    text.push(b'\n');
    Ok(())
}

fn push_record(text: &mut Vec<u8>, record: &Record<[u8; 8]>) {
    for number in [record.lsn, u64::from(record.kind), record.length as u64] {
        push_decimal(text, number);
        text.push(b' ');
    }
    let (before, behind) = record.payload;
    let before = before.as_flattened();
    let before = &before[..before.len().min(record.length)];
    push_hex(text, before);
    push_hex(text, &behind.as_flattened()[..record.length - before.len()]);
    text.extend_from_slice(if record.length == 0 { b"-\n" } else { b"\n" });
}

pub(super) fn push_hex(text: &mut Vec<u8>, bytes: &[u8]) {
    let digit = |four: u8| four + if four < 10 { b'0' } else { b'a' - 10 };
    let start = text.len();
    text.resize(start + 2 * bytes.len(), 0);
    let (pairs, _) = text[start..].as_chunks_mut();
    for (pair, byte) in pairs.iter_mut().zip(bytes) {
        *pair = [digit(byte >> 4), digit(byte & 15)];
    }
}

pub(super) fn push_decimal(text: &mut Vec<u8>, mut number: u64) {
    let mut digits = [0; 20];
    let mut start = digits.len();
    loop {
        start -= 1;
        digits[start] = b'0' + (number % 10) as u8;
        number /= 10;
        if number == 0 {
            break;
        }
    }
    text.extend_from_slice(&digits[start..]);
}
