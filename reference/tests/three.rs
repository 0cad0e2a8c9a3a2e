//! The recovery of three modules: worked examples on images of 40 words, every refusal with its detail, and what a repair leaves where
//! power fails in it.

use reference::calls::{complete, force, format, recover, reserve, walk};
use reference::device::Device;
use reference::ops::Op;
use reference::refusal::Refusal;
use reference::state::State;
use reference::three::{recover_three, repair_ops, Lent, Recovered, MODULES};
use std::array::from_fn;

const WORDS: usize = 40;
/// What stands in op buffers before a call.
const OLD: u64 = 0x0DD;
/// Words of the ops without a repair and with one: 3 · 11 and 3 · (40 + 15).
const PLAIN: u64 = 33;
const REPAIRED: u64 = 165;

/// A log with so many records of no bytes, all durable.
fn log(records: u64) -> Vec<u64> {
    let mut image = vec![0x7777; WORDS];
    let mut ops = [0; 100];
    let mut state = format(&mut image, &mut ops).unwrap().answer;
    for lsn in 1..=records {
        reserve(&mut image, &mut ops, &mut state, 17, 0).unwrap();
        complete(&mut image, &mut ops, &mut state, lsn).unwrap();
    }
    if records > 0 {
        force(&mut image, &mut ops, &mut state, records, 1).unwrap();
    }
    image
}

/// The same one recovery later, and the state.
fn recovered(mut image: Vec<u64>) -> (Vec<u64>, State) {
    let state = recover(&mut image, &mut [0; 33]).unwrap().answer;
    (image, state)
}

fn with_word(mut image: Vec<u64>, word: usize, value: u64) -> Vec<u64> {
    image[word] = value;
    image
}

/// Three images with their op buffers, and which of them are present.
#[derive(Clone, Debug, PartialEq, Eq)]
struct Three {
    images: [Vec<u64>; MODULES],
    op_buffers: [Vec<u64>; MODULES],
    present: [bool; MODULES],
}

impl Three {
    fn of(images: [Vec<u64>; MODULES]) -> Three {
        Three { images, op_buffers: from_fn(|_| vec![OLD; 170]), present: [true; MODULES] }
    }

    fn absent(mut self, module: usize) -> Three {
        self.present[module] = false;
        self
    }

    fn with_op_words(mut self, words: [u64; MODULES]) -> Three {
        self.op_buffers = words.map(|words| vec![OLD; words as usize]);
        self
    }

    fn recover(&mut self) -> Result<Recovered, Refusal> {
        let present = self.present;
        let mut lent = self.images.iter_mut().zip(&mut self.op_buffers).zip(present);
        let mut modules = from_fn(|_| {
            let ((image, op_buffer), present) = lent.next().unwrap();
            Lent { image, op_buffer, present }
        });
        recover_three(&mut modules)
    }

    /// The recovery chooses this copy and puts so many ops; all that it leaves is what the documents say.
    fn assert_chosen(&self, chosen: usize, op_counts: [usize; MODULES]) {
        let mut after = self.clone();
        let answer = after.recover().unwrap();
        assert_eq!((answer.chosen, answer.op_counts), (chosen, op_counts));
        let (image, state) = recovered(self.images[chosen].clone());
        assert_eq!(answer.state, state);
        let mut usual = vec![OLD; 33];
        recover(&mut self.images[chosen].clone(), &mut usual).unwrap();
        for (i, count) in op_counts.into_iter().enumerate() {
            if !self.present[i] {
                assert_eq!(after.images[i], self.images[i]);
                assert_eq!(after.op_buffers[i], self.op_buffers[i]);
                continue;
            }
            assert_eq!(after.images[i], image);
            let mut words = Vec::new();
            if count > 11 {
                words.extend(repair_words(&self.images[chosen]));
            }
            words.extend(&usual);
            assert_eq!(words.len(), 3 * count);
            words.resize(self.op_buffers[i].len(), OLD);
            assert_eq!(after.op_buffers[i], words);
        }
    }

    fn assert_refused(&self, number: u64, detail: u64) {
        let mut after = self.clone();
        let refusal = after.recover().unwrap_err();
        assert_eq!((refusal.number(), refusal.detail()), (number, detail));
        assert_eq!(after, *self, "a refusal alters something");
    }
}

/// A repair as the document tells it.
fn repair_words(chosen: &[u64]) -> Vec<u64> {
    let mut words = vec![1, 0, 2, 2, 0, 1];
    for (word, &value) in chosen.iter().enumerate().skip(1) {
        words.extend([1, word as u64, value]);
    }
    words.extend([2, 1, chosen.len() as u64 - 1, 1, 0, chosen[0], 2, 0, 1]);
    words
}

#[test]
fn three_equal_fresh_images() {
    let three = Three::of([log(0), log(0), log(0)]);
    three.assert_chosen(0, [11, 11, 11]);
    three.clone().with_op_words([PLAIN; 3]).assert_chosen(0, [11, 11, 11]);
    three.clone().with_op_words([PLAIN, 32, 32]).assert_refused(15, PLAIN);
    three.with_op_words([PLAIN, PLAIN, 0]).assert_refused(15, PLAIN);
}

#[test]
fn one_with_a_lower_epoch_is_repaired() {
    let (later, _) = recovered(log(1));
    let three = Three::of([log(1), later.clone(), later.clone()]);
    three.assert_chosen(1, [55, 11, 11]);
    three.clone().with_op_words([REPAIRED, PLAIN, PLAIN]).assert_chosen(1, [55, 11, 11]);
    three.clone().with_op_words([164, 0, 0]).assert_refused(15, REPAIRED);
    three.with_op_words([REPAIRED, 32, 0]).assert_refused(15, PLAIN);
    // The epoch counts before the end.
    Three::of([log(3), later.clone(), later]).assert_chosen(1, [55, 11, 11]);
}

#[test]
fn one_with_a_longer_end_is_chosen() {
    let three = Three::of([log(1), log(1), log(2)]);
    three.assert_chosen(2, [55, 55, 11]);
    three.clone().with_op_words([REPAIRED, 164, 0]).assert_refused(15, REPAIRED);
    three.with_op_words([REPAIRED, REPAIRED, 0]).assert_refused(15, PLAIN);
    Three::of([log(2), log(4), log(3)]).assert_chosen(1, [55, 11, 55]);
}

#[test]
fn released_records_are_walked_over() {
    // Of the first, record 1 is marked released: its end is that of the others.
    let released = with_word(log(2), 24, log(2)[24] + (1 << 48));
    assert_eq!(walk(&released).unwrap().0[0].mark, 2);
    Three::of([log(1), released, log(2)]).assert_chosen(1, [55, 11, 55]);
}

#[test]
fn of_equals_the_lowest_is_chosen() {
    // An unused word, one of the spare copy, one behind the terminator, and the terminator but for its mark.
    let end = 24 + 3;
    for word in [1, 7, 14, 15, 16, 21, 22, 23, end + 1, 39, end] {
        let other = with_word(log(1), word, 5);
        Three::of([log(1), other.clone(), log(1)]).assert_chosen(0, [11, 55, 11]);
        Three::of([other.clone(), log(1), log(1)]).assert_chosen(0, [11, 55, 55]);
        Three::of([log(1), other, log(1)]).absent(0).assert_chosen(1, [0, 11, 55]);
    }
}

#[test]
fn one_torn_in_its_repair_is_not_readable() {
    let torn = with_word(log(2), 0, 2);
    let three = Three::of([log(1), torn.clone(), log(1)]);
    three.assert_chosen(0, [11, 55, 11]);
    three.clone().absent(0).assert_refused(19, 0);
    three.absent(2).assert_refused(19, 0);
    Three::of([torn.clone(), torn.clone(), log(1)]).assert_refused(19, 0);
    Three::of([torn.clone(), torn.clone(), torn]).assert_refused(19, 0);
}

#[test]
fn every_refusal_of_a_walk_makes_a_copy_unreadable() {
    let good = log(1);
    for (word, value) in [
        (0, 3),                     // selector
        (13, good[13] ^ 1),         // the copy's check
        (24, good[24] | 3 << 48),   // mark
        (26, good[26] ^ 1),         // the record's check
        (26, good[26] + (1 << 32)), // its epoch
    ] {
        let bad = with_word(good.clone(), word, value);
        Three::of([bad.clone(), log(0), log(0)]).assert_chosen(1, [55, 11, 11]);
        Three::of([log(0), bad.clone(), bad]).assert_refused(19, 0);
    }
}

#[test]
fn an_absent_one_is_not_touched() {
    let (best, _) = recovered(log(3));
    Three::of([best, log(1), log(2)]).absent(0).assert_chosen(2, [0, 55, 11]);
    for module in 0..MODULES {
        let three = Three::of(from_fn(|_| log(1))).absent(module);
        let lowest = usize::from(module == 0);
        three.assert_chosen(lowest, from_fn(|i| if i == module { 0 } else { 11 }));
        // Its op buffer does not count.
        let room = from_fn(|i| if i == module { 0 } else { PLAIN });
        three
            .clone()
            .with_op_words(room)
            .assert_chosen(lowest, from_fn(|i| if i == module { 0 } else { 11 }));
        for other in (0..MODULES).filter(|&other| other != module) {
            three.clone().absent(other).assert_refused(19, 0);
        }
    }
    Three::of(from_fn(|_| log(1))).absent(0).absent(1).absent(2).assert_refused(19, 0);
}

#[test]
fn lengths_are_equal_and_good() {
    for module in 0..MODULES {
        for words in [0, 39, 41, 8_193] {
            let mut three = Three::of(from_fn(|_| log(1)));
            three.images[module].resize(words, 0);
            three.assert_refused(1, 0);
            // An absent one's length counts too.
            three.absent(module).assert_refused(1, 0);
        }
    }
    for words in [0, 39, 8_193] {
        Three::of(from_fn(|_| vec![0; words])).assert_refused(1, 0);
    }
    Three::of(from_fn(|_| vec![0; 8_192])).assert_refused(19, 0);
}

/// 1 before 19, 19 before 8, 8 before 15; and 8 is the chosen copy's.
#[test]
fn tests_come_in_their_order() {
    let last = |image: Vec<u64>| {
        let superline = [1 << 32 | 40, 16, 0, 1, u64::from(u32::MAX)];
        let check = reference::layout::crc32(superline.into_iter().flat_map(u64::to_le_bytes));
        let mut image = image;
        image[8..13].copy_from_slice(&superline);
        image[13] = u64::from(check);
        image
    };
    let spent = Three::of([log(1), last(log(1)), last(log(1))]);
    spent.assert_refused(8, 0);
    spent.clone().with_op_words([0; 3]).assert_refused(8, 0);
    Three::of([log(1), log(1), last(log(1))]).assert_refused(8, 0);
    Three::of([log(1), log(1), last(log(1))]).absent(2).assert_chosen(0, [11, 11, 0]);
    spent.clone().absent(0).absent(1).assert_refused(19, 0);
    let unreadable = with_word(last(log(1)), 0, 2);
    Three::of([log(1), log(1), unreadable.clone()]).assert_chosen(0, [11, 11, 55]);
    let mut short = Three::of([unreadable.clone(), unreadable, last(log(1))]);
    short.assert_refused(19, 0);
    short.images[1].pop();
    short.assert_refused(1, 0);
}

/// Wherever power fails in a repair, the module is not readable, or equal to the chosen image.
#[test]
fn a_cut_repair_is_not_readable() {
    let (chosen, old) = (recovered(log(3)).0, log(2));
    let ops = repair_ops(&chosen);
    assert_eq!(ops.len(), WORDS + 4);
    let words: Vec<u64> = ops.iter().flat_map(|op| op.encode()).collect();
    assert_eq!(words, repair_words(&chosen));
    for done in 0..=ops.len() {
        let mut device = Device::new(&old);
        ops[..done].iter().for_each(|&op: &Op| device.carry_out(op));
        for edge in 0..=WORDS as u64 {
            for newest_first in [false, true] {
                let image =
                    device.crash_image(
                        |word, count| {
                            if (word < edge) == newest_first {
                                count
                            } else {
                                0
                            }
                        },
                    );
                let whole = image == chosen || (done < 2 && image == old);
                assert_eq!(walk(&image).is_ok(), whole, "{done} ops, edge {edge}");
            }
        }
    }
}
