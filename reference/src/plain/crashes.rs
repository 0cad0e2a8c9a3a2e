//! The numbered crashes: one pass over the ops, with a table of the few words that have more than one value.
//!
//! A word that is not in the table holds what was last stored to it, flushed or not: a store that is not flushed and adds no value
//! has stored the flushed one again.

use super::scan::require_size;
use crate::ops::OP_WORDS;
use crate::refusal::{require, Refusal};

/// More crashes than this are refused.
const MOST_CRASHES: u64 = 4_096;
/// With the n-th word that has two values there are 2^n crashes at a point: the twelfth makes too many.
const MOST_WORDS: usize = 12;
/// With the n-th value that is stored there are n + 1 crashes or more at a point: the ninetieth makes too many.
const MOST_STORED: usize = 90;

/// A value of a word.
#[derive(Clone, Copy, Default)]
struct Cell {
    word: u64,
    value: u64,
}

/// The values that a crash may leave, of the words that have more than one.
struct Choices {
    /// By rising word; of a word the flushed value, then those stored since, the oldest first.
    cells: [Cell; MOST_WORDS + MOST_STORED],
    cell_count: usize,
    /// In how many ways each word can have one of its values: 1 if no word has two.
    crashes: u64,
}

impl Choices {
    fn none() -> Choices {
        Choices { cells: [Cell::default(); MOST_WORDS + MOST_STORED], cell_count: 0, crashes: 1 }
    }

    fn cells(&self) -> &[Cell] {
        &self.cells[..self.cell_count]
    }

    /// The cells of each word.
    fn words(&self) -> impl Iterator<Item = &[Cell]> {
        self.cells().chunk_by(|a, b| a.word == b.word)
    }

    /// Puts new cells before the one at `index`.
    fn insert<const N: usize>(&mut self, index: usize, new: [Cell; N]) {
        self.cells.copy_within(index..self.cell_count, index + N);
        self.cells[index..index + N].copy_from_slice(&new);
        self.cell_count += N;
    }

    /// `flushed` finds the flushed value of a word that has no other.
    fn store(&mut self, new: Cell, flushed: impl FnOnce() -> u64) {
        let end = self.cells().partition_point(|cell| cell.word <= new.word);
        let start = self.cells[..end].partition_point(|cell| cell.word < new.word);
        let values = &self.cells[start..end];
        if values.is_empty() {
            let old = Cell { value: flushed(), ..new };
            if old.value != new.value {
                self.crashes *= 2;
                self.insert(end, [old, new]);
            }
        } else if values.iter().all(|cell| cell.value != new.value) {
            self.crashes += self.crashes / values.len() as u64;
            self.insert(end, [new]);
        }
    }

    #[inline(never)]
    fn flush(&mut self, first: u64, count: u64) {
        let mut left = 0;
        for i in 0..self.cell_count {
            let cell = self.cells[i];
            if cell.word.wrapping_sub(first) >= count {
                self.cells[left] = cell;
                left += 1;
            }
        }
        self.cell_count = left;
        self.crashes = self.words().map(|values| values.len() as u64).product();
    }

    /// Writes the values that crash `number` of this point leaves, and gives their count.
    fn choose(&self, mut number: u64, chosen: &mut [Cell; MOST_WORDS]) -> usize {
        let mut words = 0;
        for values in self.words() {
            let count = values.len() as u64;
            chosen[words] = values[(number % count) as usize];
            number /= count;
            words += 1;
        }
        words
    }
}

/// A crash point, on the way from no op done to all done.
struct Walk<'a> {
    image: &'a [u64],
    ops: &'a [[u64; OP_WORDS]],
    /// One or two words left over at the end.
    rest: &'a [u64],
    /// How many ops are done, and how many of them there are up to the last store.
    point: usize,
    stores_end: usize,
    /// How many crashes there are at the points before this one.
    before: u64,
    choices: Choices,
    /// A bit for each word, set if it had a store.
    stored: [u64; 8_192 / 64],
}

impl<'a> Walk<'a> {
    fn new(image: &'a [u64], op_buffer: &'a [u64]) -> Walk<'a> {
        let (ops, rest) = op_buffer.as_chunks();
        let choices = Choices::none();
        Walk { image, ops, rest, point: 0, stores_end: 0, before: 0, choices, stored: [0; 128] }
    }

    /// The number of a crash at this point, counted among those of the point, if it is one.
    fn at_point(&self, number: u64) -> Option<u64> {
        let number = number - self.before;
        (number < self.choices.crashes).then_some(number)
    }

    /// Goes on to the point of crash `number`, which is not before this one, or else to the last. Refusal 21 for the ops on the way.
    fn find(&mut self, number: u64) -> Result<(), Refusal> {
        let words = self.image.len() as u64;
        let (mut point, mut before, mut crashes) = (self.point, self.before, self.choices.crashes);
        while number - before >= crashes && point < self.ops.len() {
            before += crashes;
            match self.ops[point] {
                [1, word, value] if word < words => {
                    self.store(point, word, value);
                    crashes = self.choices.crashes;
                }
                [2, first, count] if first <= words && 1 <= count && count <= words - first => {
                    if crashes > 1 {
                        self.choices.flush(first, count);
                        crashes = self.choices.crashes;
                    }
                }
                _ => return Err(Refusal::BadOp { number: point as u64 }),
            }
            point += 1;
        }
        (self.point, self.before) = (point, before);
        Ok(())
    }

    #[inline(never)]
    fn store(&mut self, point: usize, word: u64, value: u64) {
        let bits = &mut self.stored[word as usize / 64];
        let again = *bits >> (word % 64) & 1 == 1;
        *bits |= 1 << (word % 64);
        let (image, before) = (self.image, &self.ops[..point]);
        self.choices.store(Cell { word, value }, || {
            let last = before.iter().rev().find(|op| again && op[..2] == [1, word]);
            last.map_or(image[word as usize], |op| op[2])
        });
        self.stores_end = point + 1;
    }

    /// How many crashes there are in all. Refusals 21, 22.
    fn total(&mut self) -> Result<u64, Refusal> {
        self.find(MOST_CRASHES)?;
        let too_many = self.at_point(MOST_CRASHES).is_some();
        let words = self.image.len() as u64;
        for i in self.point..self.ops.len() {
            let passes = match self.ops[i] {
                [1, word, _] => word < words,
                [2, first, count] => first <= words && 1 <= count && count <= words - first,
                _ => false,
            };
            require(passes, Refusal::BadOp { number: i as u64 })?;
        }
        require(self.rest.is_empty(), Refusal::BadOp { number: self.ops.len() as u64 })?;
        require(!too_many, Refusal::TooManyCrashes)?;
        Ok(self.before + self.choices.crashes)
    }
}

/// How many crashes there are. Refusals 1, 21, 22.
pub fn crash_count(image: &[u64], op_buffer: &[u64]) -> Result<u64, Refusal> {
    require_size(image)?;
    Walk::new(image, op_buffer).total()
}

/// The image of crash `number` in the output, and the crash point. Refusals 1, 21, 22, 23.
pub fn crash_image(
    image: &[u64],
    op_buffer: &[u64],
    number: u64,
    output: &mut [u64],
) -> Result<u64, Refusal> {
    require_size(image)?;
    require(output.len() == image.len(), Refusal::ImageSize)?;
    let mut walk = Walk::new(image, op_buffer);
    walk.find(number.min(MOST_CRASHES))?;
    let (point, stores) = (walk.point, &walk.ops[..walk.stores_end]);
    let mut chosen = [Cell::default(); MOST_WORDS];
    let found = walk.at_point(number).map(|number| walk.choices.choose(number, &mut chosen));
    walk.total()?;
    let count = found.ok_or(Refusal::NoCrash)?;
    output.copy_from_slice(image);
    for op in stores {
        if let [1, word, value] = *op {
            output[word as usize] = value;
        }
    }
    for cell in &chosen[..count] {
        output[cell.word as usize] = cell.value;
    }
    Ok(point as u64)
}
