//! The history of the proved program `example`: records appended, power lost in the middle of a force, the log recovered.
//!
//! The expected output of that program is the listing of the image made here.

use crate::calls::{self, Done};
use crate::device::Device;
use crate::loglist::loglist;
use crate::ops::{Op, OP_WORDS};
use crate::refusal::Refusal;

/// The ops of the second force that are carried out before power fails.
const CARRIED_OUT: usize = 5;

/// The word whose unflushed value survives the power failure; all others fall back.
const SURVIVING_WORD: usize = 45;

const FORCED: [(u64, &[u8]); 3] = [
    (1, &[0x41, 0x20]),
    (2, &[0x08, 0x70]),
    (3, &[0x62, 0x05, 0x20, 0x41, 0x77, 0x33, 0x98, 0x12, 0x04]),
];

const CUT_SHORT: [(u64, &[u8]); 3] = [(1, &[0x41, 0x44]), (2, &[0x09, 0x12]), (1, &[0x41, 0x68])];

/// The words that the module holds at the end.
pub fn example() -> Result<Vec<u64>, Refusal> {
    let mut image = vec![0; 64];
    let mut buffer = vec![0; OP_WORDS * 32];
    let mut device = Device::new(&image);
    let formatted = calls::format(&mut image, &mut buffer)?;
    carry_out(&mut device, &buffer, formatted.op_count);
    let mut state = formatted.answer;
    for (records, carried_out) in [(FORCED, usize::MAX), (CUT_SHORT, CARRIED_OUT)] {
        for (kind, data) in records {
            let length = data.len() as u64;
            let reserved = calls::reserve(&mut image, &mut buffer, &mut state, kind, length)?;
            carry_out(&mut device, &buffer, reserved.op_count);
            let lsn = reserved.answer.lsn;
            let Done { op_count, .. } =
                calls::copy(&mut image, &mut buffer, &mut state, lsn, 0, data)?;
            carry_out(&mut device, &buffer, op_count);
            let Done { op_count, .. } = calls::complete(&mut image, &mut buffer, &mut state, lsn)?;
            carry_out(&mut device, &buffer, op_count);
        }
        let last = state.next_lsn - 1;
        let forced = calls::force(&mut image, &mut buffer, &mut state, last, 1)?;
        carry_out(&mut device, &buffer, forced.op_count.min(carried_out));
    }

    let mut left = crash(&device);
    let mut device = Device::new(&left);
    let recovered = calls::recover(&mut left, &mut buffer)?;
    carry_out(&mut device, &buffer, recovered.op_count);
    Ok(device.newest())
}

/// What `loglist` prints of these words.
pub fn listing(image: &[u64]) -> String {
    let bytes: Vec<u8> = image.iter().flat_map(|word| word.to_le_bytes()).collect();
    loglist(&bytes)
}

/// Carries out the first ops of an op buffer.
fn carry_out(device: &mut Device, buffer: &[u64], count: usize) {
    for words in buffer.chunks(OP_WORDS).take(count) {
        device.carry_out(match *words {
            [1, word, value] => Op::Store { word, value },
            [2, first, count] => Op::Flush { first, count },
            _ => panic!("no op: {words:?}"),
        });
    }
}

/// What the power failure leaves of a device.
fn crash(device: &Device) -> Vec<u64> {
    let values = device.crash_values().into_iter().enumerate();
    values
        .map(|(word, values)| match word {
            SURVIVING_WORD => values[values.len() - 1],
            _ => values[0],
        })
        .collect()
}
