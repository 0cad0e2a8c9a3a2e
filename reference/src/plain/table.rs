//! A log's rows of a table of many files, as CSV: the yardstick for the time that `drivelog export --csv` takes.

use super::list::{push_decimal, push_hex};
use super::scan::{require_size, superline, Record, Scan};
use crate::layout::MARK_RELEASED;
use crate::refusal::{require, Refusal};

/// The columns' names.
pub const TABLE_HEADING: &str = "file,what,lsn,epoch,kind,length,data,text\r\n";

/// Adds the rows of one file, all of whose log can be read, to `text`.
pub fn table(name: &str, bytes: &[u8], text: &mut Vec<u8>) -> Result<(), Refusal> {
    let (image, rest) = bytes.as_chunks::<8>();
    require(rest.is_empty(), Refusal::ImageSize)?;
    require_size(image)?;
    let superline = superline(image)?;
    let mut scan = Scan::new(image, &superline);
    while let Some(record) = scan.next()? {
        if record.mark != MARK_RELEASED {
            push_quoted(text, name);
            text.extend_from_slice(b",record,");
            push_record(text, &record);
        }
    }
    push_quoted(text, name);
    text.extend_from_slice(b",end,");
    push_decimal(text, scan.lsn);
    text.push(b',');
    push_decimal(text, superline.epoch);
    text.extend_from_slice(b",,,,\"whole: the next record gets LSN ");
    push_decimal(text, scan.lsn);
    text.extend_from_slice(b"\"\r\n");
    Ok(())
}

fn push_record(text: &mut Vec<u8>, record: &Record<[u8; 8]>) {
    for number in [record.lsn, u64::from(record.epoch), u64::from(record.kind), record.length as u64] {
        push_decimal(text, number);
        text.push(b',');
    }
    let (before, behind) = (record.payload.0.as_flattened(), record.payload.1.as_flattened());
    let joined;
    let payload = if behind.is_empty() {
        before
    } else {
        joined = [before, behind].concat();
        &joined
    };
    let payload = &payload[..record.length];
    push_hex(text, payload);
    text.push(b',');
    if let Some(words) = printable(payload) {
        push_quoted(text, words);
    }
    text.extend_from_slice(b"\r\n");
}

/// A payload as text, if it is UTF-8 with no control characters but tabs and ends of lines.
fn printable(payload: &[u8]) -> Option<&str> {
    let words = std::str::from_utf8(payload).ok()?;
    let plain = payload.iter().fold(true, |plain, byte| plain & (b' '..=b'~').contains(byte));
    let control = |letter: char| letter.is_control() && !matches!(letter, '\t' | '\n' | '\r');
    (plain || !words.contains(control)).then_some(words)
}

fn push_quoted(text: &mut Vec<u8>, words: &str) {
    text.push(b'"');
    let mut parts = words.split('"');
    text.extend_from_slice(parts.next().unwrap_or("").as_bytes());
    for part in parts {
        text.extend_from_slice(b"\"\"");
        text.extend_from_slice(part.as_bytes());
    }
    text.push(b'"');
}
