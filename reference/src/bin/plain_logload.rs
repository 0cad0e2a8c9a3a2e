//! logload in plain Rust for speed: one pass, one write. It is the yardstick for the time that loading takes, and is compared with
//! the others like any logload.

use reference::plain::load;
use std::io::{self, Read, Write};

fn main() -> io::Result<()> {
    // One byte more than the longest text has.
    let mut text = Vec::with_capacity(262_145);
    io::stdin().lock().take(262_145).read_to_end(&mut text)?;
    let mut image = [0; 8_192];
    match load(&text, &mut image) {
        Ok(()) => io::stdout().write_all(image.map(u64::to_le_bytes).as_flattened()),
        Err(refusal) => writeln!(io::stdout(), "refused {}", refusal.number()),
    }
}
