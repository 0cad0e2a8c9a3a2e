//! plain_export FILE..: the logs of many files as one table in CSV, in plain Rust for speed. It is the yardstick for the time of
//! `drivelog export --csv`, and prints the same of whole logs.

use reference::plain::{table, TABLE_HEADING};
use std::io::{self, Read, Write};
use std::{env, fs::File, process::ExitCode};

fn main() -> io::Result<ExitCode> {
    let mut out = io::stdout().lock();
    let mut bytes = Vec::with_capacity(65_537);
    let mut text = Vec::with_capacity(300_000);
    text.extend_from_slice(TABLE_HEADING.as_bytes());
    for name in env::args().skip(1) {
        bytes.clear();
        File::open(&name)?.take(65_537).read_to_end(&mut bytes)?;
        if table(&name, &bytes, &mut text).is_err() {
            return Ok(ExitCode::FAILURE);
        }
        out.write_all(&text)?;
        text.clear();
    }
    Ok(ExitCode::SUCCESS)
}
