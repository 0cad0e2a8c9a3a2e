//! Compares the output of other programs with ours, seed by seed.

use crate::gen;
use crate::loglist::loglist;
use crate::replay::replay;
use crate::samples::samples;
use std::io::{self, Read, Write};
use std::path::Path;
use std::process::{Command, ExitStatus, Stdio};

/// Where another program's output differs from ours.
pub struct Difference {
    pub seed: u64,
    pub what: &'static str,
    pub line: usize,
    pub ours: String,
    pub theirs: String,
}

/// What a run of comparisons came to.
pub struct Comparison {
    pub scripts: u64,
    pub lines: u64,
    pub difference: Option<Difference>,
}

/// Runs `loglist_program` on every sample and gives the first whose text differs.
pub fn compare_samples(loglist_program: &Path) -> io::Result<Result<usize, String>> {
    let all = samples();
    for sample in &all {
        let theirs = output_of(loglist_program, &sample.bytes)?;
        if theirs != sample.text.as_bytes() {
            let theirs = String::from_utf8_lossy(&theirs);
            return Ok(Err(format!("{}: expected\n{}but got\n{theirs}", sample.name, sample.text)));
        }
    }
    Ok(Ok(all.len()))
}

/// Runs the script of each seed through `replay_program` and the image of each seed through
/// `loglist_program`, and stops at the first difference.
pub fn compare(
    replay_program: &Path,
    loglist_program: &Path,
    first_seed: u64,
    count: u64,
) -> io::Result<Comparison> {
    let mut result = Comparison { scripts: 0, lines: 0, difference: None };
    for i in 0..count {
        let seed = first_seed.wrapping_add(i);
        let script = gen::script(seed);
        let mut ours = Vec::new();
        replay(&script[..], &mut ours, None)?;
        let theirs = output_of(replay_program, &script)?;
        result.lines += ours.iter().filter(|&&byte| byte == b'\n').count() as u64;
        result.difference = difference(seed, "replay", &ours, &theirs);
        if result.difference.is_none() {
            let image = gen::image(seed);
            let ours = loglist(&image).into_bytes();
            let theirs = output_of(loglist_program, &image)?;
            result.difference = difference(seed, "loglist", &ours, &theirs);
        }
        result.scripts += 1;
        if result.difference.is_some() {
            break;
        }
    }
    Ok(result)
}

/// What a program writes when it is given this input.
fn output_of(program: &Path, input: &[u8]) -> io::Result<Vec<u8>> {
    Ok(output_and_status(program, input)?.0)
}

/// The same, and how the program ended.
pub fn output_and_status(program: &Path, input: &[u8]) -> io::Result<(Vec<u8>, ExitStatus)> {
    let mut child = Command::new(program).stdin(Stdio::piped()).stdout(Stdio::piped()).spawn()?;
    let mut stdin = child.stdin.take().expect("stdin is piped");
    let mut stdout = child.stdout.take().expect("stdout is piped");
    let mut output = Vec::new();
    std::thread::scope(|scope| {
        // A program that stops reading early, as it may, breaks the pipe.
        scope.spawn(move || drop(stdin.write_all(input)));
        stdout.read_to_end(&mut output)
    })?;
    Ok((output, child.wait()?))
}

/// The first line in which two outputs differ.
pub fn difference(seed: u64, what: &'static str, ours: &[u8], theirs: &[u8]) -> Option<Difference> {
    if ours == theirs {
        return None;
    }
    let ours = String::from_utf8_lossy(ours);
    let theirs = String::from_utf8_lossy(theirs);
    let line = ours.lines().zip(theirs.lines()).take_while(|(a, b)| a == b).count();
    let nth = |text: &str| text.lines().nth(line).unwrap_or("(no line)").to_string();
    Some(Difference { seed, what, line: line + 1, ours: nth(&ours), theirs: nth(&theirs) })
}
