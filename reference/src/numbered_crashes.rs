//! Request 13: every crash over a small op buffer, numbered, and the image that each leaves.

use crate::device::Device;
use crate::ops::{Op, OP_WORDS};
use crate::refusal::{require, Refusal};

/// More crashes than this are refused.
pub const MOST_CRASHES: u64 = 4096;

/// One crash: how many ops were done, and what the module then holds.
#[derive(Clone, Debug, PartialEq, Eq)]
pub struct Crash {
    pub point: usize,
    pub image: Vec<u64>,
}

/// How many crashes there are in all.
pub fn crash_count(image: &[u64], op_buffer: &[u64]) -> Result<u64, Refusal> {
    let ops = tested_ops(image, image.len(), op_buffer)?;
    total(image, &ops)
}

/// Crash `number`, for a buffer of `room` words.
pub fn crash(image: &[u64], op_buffer: &[u64], number: u64, room: usize) -> Result<Crash, Refusal> {
    let ops = tested_ops(image, room, op_buffer)?;
    require(number < total(image, &ops)?, Refusal::NoCrash)?;
    let mut device = Device::new(image);
    let mut left = number;
    for point in 0.. {
        let choices = device.crash_values();
        let here = product(&choices).expect("below the most");
        if left < here {
            return Ok(Crash { point, image: choose(&choices, left) });
        }
        left -= here;
        device.carry_out(ops[point]);
    }
    unreachable!("the number is below the total")
}

/// Refusals 1 and 21, and the ops.
fn tested_ops(image: &[u64], room: usize, op_buffer: &[u64]) -> Result<Vec<Op>, Refusal> {
    require((40..=8192).contains(&image.len()) && room == image.len(), Refusal::ImageSize)?;
    let words = image.len() as u64;
    let op = |(number, group): (usize, &[u64])| match *group {
        [1, word, value] if word < words => Ok(Op::Store { word, value }),
        [2, first, count] if count >= 1 && first.checked_add(count).is_some_and(|end| end <= words) => {
            Ok(Op::Flush { first, count })
        }
        _ => Err(Refusal::BadOp { number: number as u64 }),
    };
    op_buffer.chunks(OP_WORDS).enumerate().map(op).collect()
}

/// The sum over the crash points; refusal 22 as soon as it passes the most.
fn total(image: &[u64], ops: &[Op]) -> Result<u64, Refusal> {
    let mut device = Device::new(image);
    let mut sum = 0;
    for point in 0..=ops.len() {
        sum += product(&device.crash_values()).unwrap_or(MOST_CRASHES);
        require(sum <= MOST_CRASHES, Refusal::TooManyCrashes)?;
        if let Some(&op) = ops.get(point) {
            device.carry_out(op);
        }
    }
    Ok(sum)
}

/// How many ways there are to take a value of each word; none if they are more than the most. One point of more than the most is
/// never the only one, so that its sum passes it too.
fn product(choices: &[Vec<u64>]) -> Option<u64> {
    let mut product = 1;
    for values in choices {
        product *= values.len() as u64;
        if product > MOST_CRASHES {
            return None;
        }
    }
    Some(product)
}

/// The lowest word changes fastest.
fn choose(choices: &[Vec<u64>], number: u64) -> Vec<u64> {
    let mut left = number;
    let value = |values: &Vec<u64>| {
        let count = values.len() as u64;
        let value = values[(left % count) as usize];
        left /= count;
        value
    };
    choices.iter().map(value).collect()
}

#[cfg(test)]
mod tests {
    use super::*;

    fn words(ops: &[Op]) -> Vec<u64> {
        ops.iter().flat_map(|op| op.encode()).collect()
    }

    /// READINGS 13's worked example: nine crashes, as words 3 and 5.
    #[test]
    fn nine_crashes() {
        let image = vec![0; 40];
        let buffer = words(&[
            Op::Store { word: 5, value: 7 },
            Op::Store { word: 3, value: 1 },
            Op::Flush { first: 5, count: 1 },
        ]);
        assert_eq!(crash_count(&image, &buffer), Ok(9));
        let seen: Vec<_> = (0..9)
            .map(|i| crash(&image, &buffer, i, 40).map(|c| (c.point, c.image[3], c.image[5])))
            .collect();
        let due = [(0, 0, 0), (1, 0, 0), (1, 0, 7), (2, 0, 0), (2, 1, 0), (2, 0, 7), (2, 1, 7), (3, 0, 7), (3, 1, 7)];
        assert_eq!(seen, due.map(Ok));
        assert_eq!(crash(&image, &buffer, 9, 40), Err(Refusal::NoCrash));
        assert_eq!(crash(&image, &buffer, 9, 41), Err(Refusal::ImageSize));
    }

    /// After store a, store b, store a the values end in b, and a flush leaves a.
    #[test]
    fn the_newest_is_flushed() {
        let image = vec![0; 40];
        let store = |value| Op::Store { word: 5, value };
        let buffer = words(&[store(7), store(8), store(7), Op::Flush { first: 5, count: 1 }]);
        assert_eq!(crash_count(&image, &buffer), Ok(10));
        assert_eq!(crash(&image, &buffer, 9, 40).map(|c| c.image[5]), Ok(7));
    }

    #[test]
    fn edges_of_the_most() {
        let image = vec![0; 40];
        let flushes = |count| words(&vec![Op::Flush { first: 0, count: 1 }; count]);
        assert_eq!(crash_count(&image, &flushes(4094)), Ok(4095));
        assert_eq!(crash_count(&image, &flushes(4095)), Ok(4096));
        assert_eq!(crash_count(&image, &flushes(4096)), Err(Refusal::TooManyCrashes));
        let stores = |count| words(&(0..count).map(|word| Op::Store { word, value: 1 }).collect::<Vec<_>>());
        assert_eq!(crash_count(&image, &stores(11)), Ok(4095));
        assert_eq!(crash_count(&image, &stores(12)), Err(Refusal::TooManyCrashes));
    }
}
