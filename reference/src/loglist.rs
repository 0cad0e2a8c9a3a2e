//! The program loglist: lists the records of an image.

use crate::calls::{fetch, next, open, Next};
use crate::layout::{words_of_bytes, MARK_RELEASED, MAX_IMAGE_WORDS};
use crate::refusal::Refusal;
use std::fmt::Write as _;
use std::io::{self, Read};

pub const HEADING: &str = "lsn kind length data";

/// Reads an image's bytes, no further than needed to see that there are too many.
pub fn read_image_bytes(input: impl Read) -> io::Result<Vec<u8>> {
    let mut bytes = Vec::new();
    input.take(8 * MAX_IMAGE_WORDS + 1).read_to_end(&mut bytes)?;
    Ok(bytes)
}

/// What loglist prints for these bytes.
pub fn loglist(bytes: &[u8]) -> String {
    list(bytes).unwrap_or_else(|refusal| format!("refused {}\n", refusal.number()))
}

fn list(bytes: &[u8]) -> Result<String, Refusal> {
    let image = words_of_bytes(bytes).ok_or(Refusal::ImageSize)?;
    let mut cursor = open(&image)?;
    let mut text = format!("{HEADING}\n");
    let last_line = loop {
        match next(&image, &cursor) {
            Ok(Next::Record { record, behind }) => {
                if record.mark != MARK_RELEASED {
                    let mut payload = vec![0; record.length as usize];
                    fetch(&image, record.position, record.length, &mut payload)?;
                    let data = hex(&payload);
                    let _ =
                        writeln!(text, "{} {} {} {data}", record.lsn, record.kind, record.length);
                }
                cursor = behind;
            }
            Ok(Next::End { lsn }) => break end_line(lsn),
            Err(refusal) => break stop_line(refusal)?,
        }
    };
    Ok(text + &last_line)
}

/// The last line where the walk reached the end.
pub fn end_line(lsn: u64) -> String {
    format!("end {lsn}\n")
}

/// The last line where damage or one record too many stopped the walk.
pub fn stop_line(refusal: Refusal) -> Result<String, Refusal> {
    match refusal {
        Refusal::Damaged { lsn, test } => Ok(format!("damaged {lsn} {}\n", test.word())),
        Refusal::TooMany { lsn } => Ok(format!("toomany {lsn}\n")),
        refusal => Err(refusal),
    }
}

/// Bytes as hex pairs, "-" if there are none.
pub fn hex(payload: &[u8]) -> String {
    if payload.is_empty() {
        return "-".to_string();
    }
    payload.iter().map(|byte| format!("{byte:02x}")).collect()
}
