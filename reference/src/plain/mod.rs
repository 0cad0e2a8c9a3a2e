//! The log once more, as one writes it in plain Rust for speed: the yardstick that the proved calls' times are held against.
//!
//! Each call makes the tests of [`crate::calls`] in their order, gives the same answer and leaves the same words, ops and state;
//! tests/plain.rs holds the two together. It differs in how: the state is changed in place and the ops go straight into the op
//! buffer once no refusal is left, nothing is allocated, the CRC goes by eight tables, the entries that have to be free are tested in
//! two runs, four at a time by wide loads, and the ring is stepped through without a division.

mod calls;
mod crashes;
mod crc;
mod list;
mod load;
mod query;
mod scan;
mod state;
mod table;
mod three;
mod vet;

pub use calls::{append, complete, copy, force, format, recover, release, reserve};
pub use crashes::{crash_count, crash_image};
pub use crc::{crc32_of_bytes, crc32_of_words};
pub use list::list;
pub use load::load;
pub use query::{listed, Listed};
pub use state::{Entry, Stage, State};
pub use table::{table, TABLE_HEADING};
pub use three::{recover_three, RecoveredThree};
pub use vet::vet;

/// `count` items of a ring from `start` on: those up to its end, and those that go round.
fn run<T>(ring: &[T], start: usize, count: usize) -> (&[T], &[T]) {
    let up_to_end = &ring[start..];
    match up_to_end.get(..count) {
        Some(all) => (all, &[]),
        None => (up_to_end, &ring[..count - up_to_end.len()]),
    }
}

/// A position less than one round beyond the end of the ring, brought back into it.
fn wrap(position: usize, capacity: usize) -> usize {
    // The difference is huge if it is below zero.
    position.min(position.wrapping_sub(capacity))
}
