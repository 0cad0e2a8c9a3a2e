//! How long programs take to list a full image, or to load its listing, in turn, by the median of many rounds.

use crate::layout::OLD_TABLE_SIZE;
use crate::loglist::loglist;
use crate::samples::full_image;
use std::io::{self, Read, Write};
use std::path::Path;
use std::process::{Command, Stdio};
use std::time::{Duration, Instant};

/// The median time in which each program lists a full image.
pub fn list_times(programs: &[&Path], rounds: usize) -> io::Result<Vec<Duration>> {
    times(programs, rounds, &full_image(OLD_TABLE_SIZE as u64))
}

/// The median time in which each program loads the listing of a full image.
pub fn load_times(programs: &[&Path], rounds: usize) -> io::Result<Vec<Duration>> {
    times(programs, rounds, loglist(&full_image(OLD_TABLE_SIZE as u64)).as_bytes())
}

/// The median time of each program over so many rounds with this input; the programs take turns.
fn times(programs: &[&Path], rounds: usize, input: &[u8]) -> io::Result<Vec<Duration>> {
    let mut times = vec![Vec::new(); programs.len()];
    for _ in 0..rounds {
        for (program, times) in programs.iter().zip(&mut times) {
            let start = Instant::now();
            let mut child =
                Command::new(program).stdin(Stdio::piped()).stdout(Stdio::piped()).spawn()?;
            let mut stdin = child.stdin.take().expect("stdin is piped");
            stdin.write_all(input)?;
            drop(stdin);
            let mut output = Vec::new();
            child.stdout.take().expect("stdout is piped").read_to_end(&mut output)?;
            child.wait()?;
            times.push(start.elapsed());
        }
    }
    Ok(times
        .into_iter()
        .map(|mut times| {
            times.sort();
            times[times.len() / 2]
        })
        .collect())
}
