//! The program logwhy (document 02, slip 5): why an LSN is listed or not.

use crate::c_calls::all_images;
use crate::calls::{next, open, Next};
use crate::compare::{difference, output_and_status, Difference};
use crate::layout::{words_of_bytes, LSN_LIMIT, MARK_RELEASED, MAX_IMAGE_WORDS};
use crate::refusal::Refusal;
use std::collections::BTreeSet;
use std::io::{self, Read};
use std::path::Path;

/// What logwhy prints for this input: an image's bytes, then the LSN in eight.
pub fn logwhy(input: &[u8]) -> String {
    let line = reason(input).unwrap_or_else(|refusal| format!("refused {}", refusal.number()));
    line + "\n"
}

/// Reads an input, no further than needed to see that it is too long.
pub fn read_input(input: impl Read) -> io::Result<Vec<u8>> {
    let mut bytes = Vec::new();
    input.take(8 * MAX_IMAGE_WORDS + 9).read_to_end(&mut bytes)?;
    Ok(bytes)
}

fn reason(input: &[u8]) -> Result<String, Refusal> {
    let (bytes, number) = input.split_last_chunk::<8>().ok_or(Refusal::ImageSize)?;
    let asked = u64::from_le_bytes(*number);
    let image = words_of_bytes(bytes).ok_or(Refusal::ImageSize)?;
    let mut cursor = open(&image)?;
    if asked < cursor.lsn {
        return Ok("below".to_string());
    }
    let word = loop {
        match next(&image, &cursor) {
            Ok(Next::Record { record, .. }) if record.lsn == asked => {
                break if record.mark == MARK_RELEASED { "released" } else { "listed" };
            }
            Ok(Next::Record { behind, .. }) => cursor = behind,
            Ok(Next::End { .. }) => break "end",
            Err(Refusal::Damaged { lsn, test }) => {
                return Ok(format!("damaged {lsn} {}", test.word()));
            }
            Err(Refusal::TooMany { .. }) => break "toomany",
            Err(refusal) => return Err(refusal),
        }
    };
    Ok(word.to_string())
}

/// Numbers worth asking an image for: around its head and its end, those of its records, and the ends of all numbers.
fn numbers(bytes: &[u8]) -> BTreeSet<u64> {
    let mut numbers = BTreeSet::from([0, 1, 1 << 62, u64::MAX, LSN_LIMIT - 1]);
    let Some(image) = words_of_bytes(bytes) else { return numbers };
    let Ok(mut cursor) = open(&image) else { return numbers };
    let head = cursor.lsn;
    let mut released = Vec::new();
    while let Ok(Next::Record { record, behind }) = next(&image, &cursor) {
        if record.mark == MARK_RELEASED {
            released.push(record.lsn);
        }
        cursor = behind;
    }
    let end = cursor.lsn;
    numbers.extend([head - 1, head, head + 1, (head + end) / 2]);
    numbers.extend([end - 1, end, end + 1, end.wrapping_add(1 << 32)]);
    numbers.extend(released.first().into_iter().chain(released.last()));
    numbers
}

/// The inputs made of an image.
fn inputs(bytes: &[u8]) -> Vec<Vec<u8>> {
    numbers(bytes).into_iter().map(|n| [bytes, &n.to_le_bytes()].concat()).collect()
}

/// What is due for the numbers that are asked of an image.
pub fn reasons_of(bytes: &[u8]) -> Vec<String> {
    inputs(bytes).iter().map(|input| logwhy(input).trim_end().to_string()).collect()
}

/// What a run came to.
pub struct Report {
    pub images: u64,
    pub inputs: u64,
    pub difference: Option<(String, Difference)>,
}

/// Runs another logwhy on inputs made of the samples' images and of those of `count` seeds, and stops at the first difference.
pub fn compare_logwhy(program: &Path, first_seed: u64, count: u64) -> io::Result<Report> {
    let mut report = Report { images: 0, inputs: 0, difference: None };
    let short = (0..16).map(|size| vec![1; size]).collect();
    let mut all = vec![(0, "a short input".to_string(), short)];
    all.extend(
        all_images(first_seed, count).map(|(seed, name, bytes)| (seed, name, inputs(&bytes))),
    );
    for (seed, name, inputs) in all {
        report.images += 1;
        for input in inputs {
            let ours = logwhy(&input);
            let (theirs, status) = output_and_status(program, &input)?;
            report.inputs += 1;
            let mut found = difference(seed, "logwhy", ours.as_bytes(), &theirs);
            if found.is_none() && !status.success() {
                found =
                    difference(seed, "logwhy", b"", format!("(ended with {status})").as_bytes());
            }
            if let Some(found) = found {
                report.difference = Some((name, found));
                return Ok(report);
            }
        }
    }
    Ok(report)
}
