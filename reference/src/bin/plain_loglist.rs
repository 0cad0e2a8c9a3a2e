//! loglist in plain Rust for speed: one pass, one write. It is the yardstick for the time that a listing takes, and is compared with
//! the others like any loglist.

use reference::plain::list;
use std::io::{self, Read, Write};

fn main() -> io::Result<()> {
    // One byte more than the largest image has.
    let mut bytes = Vec::with_capacity(65_537);
    io::stdin().lock().take(65_537).read_to_end(&mut bytes)?;
    let mut text = Vec::with_capacity(140_000);
    list(&bytes, &mut text);
    io::stdout().write_all(&text)
}
