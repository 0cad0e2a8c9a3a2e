//! The device (the document's module): what it holds, and what a crash leaves of it.

use crate::ops::Op;

/// One word: its flushed value and those stored since, oldest first.
#[derive(Clone, Debug)]
struct Cell {
    flushed: u64,
    stored: Vec<u64>,
}

impl Cell {
    fn newest(&self) -> u64 {
        self.stored.last().copied().unwrap_or(self.flushed)
    }
}

#[derive(Clone, Debug)]
pub struct Device {
    cells: Vec<Cell>,
}

impl Device {
    /// A device on which all of `image` is flushed.
    pub fn new(image: &[u64]) -> Device {
        let cells = image.iter().map(|&word| Cell { flushed: word, stored: Vec::new() });
        Device { cells: cells.collect() }
    }

    /// How many words it has.
    pub fn words(&self) -> u64 {
        self.cells.len() as u64
    }

    pub fn carry_out(&mut self, op: Op) {
        match op {
            Op::Store { word, value } => self.cells[word as usize].stored.push(value),
            Op::Flush { first, count } => {
                for cell in &mut self.cells[first as usize..(first + count) as usize] {
                    cell.flushed = cell.newest();
                    cell.stored.clear();
                }
            }
        }
    }

    /// What the working image holds, if the device got all ops.
    pub fn newest(&self) -> Vec<u64> {
        self.cells.iter().map(Cell::newest).collect()
    }

    /// For each word the different values a crash can leave there, the flushed one first.
    pub fn crash_values(&self) -> Vec<Vec<u64>> {
        let values = |cell: &Cell| {
            let mut values = vec![cell.flushed];
            for &value in &cell.stored {
                if !values.contains(&value) {
                    values.push(value);
                }
            }
            values
        };
        self.cells.iter().map(values).collect()
    }

    /// One of the images that a crash can leave. Of each word with values stored since its flush, `pick` is asked which one: it gets
    /// the word and their number; 0 stands for the flushed value, and they follow in turn.
    pub fn crash_image(&self, mut pick: impl FnMut(u64, usize) -> usize) -> Vec<u64> {
        let value = |(word, cell): (u64, &Cell)| match cell.stored.len() {
            0 => cell.flushed,
            count => match pick(word, count) {
                0 => cell.flushed,
                number => cell.stored[number - 1],
            },
        };
        (0..).zip(&self.cells).map(value).collect()
    }
}
