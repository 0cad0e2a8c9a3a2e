//! Append: the bench sheet's record in one call, each refusal with its place among the others, and beside the four calls that it is made
//! of what it answers, what it leaves, and what a crash may leave of it.

use reference::calls::{self, Appended, Forced};
use reference::device::Device;
use reference::gen::script;
use reference::layout::{record_size, LSN_LIMIT, TABLE_SIZE};
use reference::ops::{Op, OP_WORDS};
use reference::refusal::Refusal;
use reference::replay::Machine;
use reference::script::{Answer, Command, Parsed};
use reference::state::{Entry, Stage, State};

/// A fresh log of `capacity` words over old contents of sevens, and a roomy op buffer.
fn fresh(capacity: u64) -> Machine {
    let mut machine = Machine::default();
    machine.run(&Command::Image { words: capacity + 24, value: 7 });
    machine.run(&Command::OpBuffer { words: 2_000, value: 0 });
    machine.run(&Command::Format);
    machine
}

fn append(machine: &mut Machine, kind: u64, bytes: &[u8], frequency: u64) -> Answer {
    let command = Command::Append { kind, frequency, bytes: bytes.to_vec() };
    Answer::parse(&machine.run(&command).unwrap()).unwrap()
}

fn store(word: u64, value: u64) -> Op {
    Op::Store { word, value }
}

fn flush(first: u64, count: u64) -> Op {
    Op::Flush { first, count }
}

// ---------------------------------------------------------------- the bench sheet's record

/// Kind 17 with the bytes 41, 42, 43 on a log of 16 words. The sheet has the words that reserve, copy and complete leave, and what
/// force(1, 8) and force(1, 1) do.
#[test]
fn the_bench_sheet_s_record() {
    let words = [73_014_444_035, 1, 6_151_524_604, 4_407_873, 0];
    let stores: Vec<Op> = (24..).zip(words).map(|(word, value)| store(word, value)).collect();
    let mut deferred = fresh(16);
    let answer = append(&mut deferred, 17, &[0x41, 0x42, 0x43], 8);
    assert_eq!(answer.numbers("ok"), Some(&[1, 0][..]));
    assert_eq!(answer.ops, stores);
    assert_eq!(deferred.image[24..29], words);
    assert_eq!(deferred.image[29], 7);

    let mut durable = fresh(16);
    let answer = append(&mut durable, 17, &[0x41, 0x42, 0x43], 1);
    assert_eq!(answer.numbers("ok"), Some(&[1, 1][..]));
    let force = [flush(24, 5), store(24, 281_547_991_154_691), flush(24, 1)];
    assert_eq!(answer.ops, [&stores[..], &force].concat());
    assert_eq!(durable.state.committed_lsn, 1);
}

/// The second record is due with F = 2, and the first, which was deferred, is forced with it. The stretch goes round the ring's end.
#[test]
fn a_force_of_those_before_it_too() {
    let mut machine = fresh(16);
    machine.state.head_position = 10;
    machine.state.next_position = 10;
    assert_eq!(append(&mut machine, 1, &[], 2).numbers("ok"), Some(&[1, 0][..]));
    let answer = append(&mut machine, 2, &[9], 2);
    assert_eq!(answer.numbers("ok"), Some(&[2, 1][..]));
    // Words 37 to 39 and 24 are the record's, and 25 the terminator's.
    let words: Vec<u64> = answer.ops[..5].iter().map(|op| op.encode()[1]).collect();
    assert_eq!(words, [37, 38, 39, 24, 25]);
    let marked = |kind: u64, length: u64| length | kind << 32 | 1 << 48;
    assert_eq!(
        answer.ops[5..],
        [
            flush(34, 6),
            flush(24, 2),
            store(34, marked(1, 0)),
            store(37, marked(2, 1)),
            flush(34, 1),
            flush(37, 1)
        ]
    );
    assert_eq!(machine.state.committed_lsn, 2);
}

// ---------------------------------------------------------------- refusals

/// The call is refused so, and nothing is altered.
#[track_caller]
fn refused(machine: &Machine, kind: u64, bytes: &[u8], frequency: u64, refusal: Refusal) {
    let mut after = machine.clone();
    let Machine { image, op_buffer, state, .. } = &mut after;
    let answer = calls::append(image, op_buffer, state, kind, bytes, frequency);
    assert_eq!(answer.map(|done| done.answer), Err(refusal));
    assert!(after.image == machine.image && after.op_buffer == machine.op_buffer);
    assert_eq!(after.state, machine.state);
}

/// An older record that is open, the table full, no LSN left and no room: each refusal comes before those of greater numbers.
#[test]
fn refusals_in_their_order() {
    let long = [0; 1_025];
    let mut machine = fresh(16);
    append(&mut machine, 1, &[], 100);
    machine.run(&Command::Reserve { kind: 1, length: 0 });
    machine.op_buffer.clear();

    // 1, 2, 3.
    let mut other = machine.clone();
    other.image.pop();
    other.state.copy_in_use = 2;
    refused(&other, 0, &long, 0, Refusal::ImageSize);
    other.image.push(7);
    refused(&other, 0, &long, 0, Refusal::Unsound);
    other.state.copy_in_use = 0;
    for (kind, bytes, frequency) in [
        (0, &long[..1_024], 1),
        (65_536, &long[..0], 1),
        (u64::MAX, &long[..0], 1),
        (1, &long[..], 1),
        (1, &long[..0], 0),
        (600, &long[..7], 1),
        (600, &long[..0], 1),
    ] {
        refused(&other, kind, bytes, frequency, Refusal::Argument);
    }

    // 8, then 10. The records are those with the last LSNs.
    let spent = |next_lsn: u64| {
        let mut spent = machine.clone();
        let state = &mut spent.state;
        (state.head_lsn, state.next_lsn) = (next_lsn - 2, next_lsn);
        state.committed_lsn = next_lsn - 3;
        state.table = [Entry::FREE; TABLE_SIZE];
        for (lsn, (position, stage)) in
            (next_lsn - 2..).zip([(0, Stage::Complete), (3, Stage::Open)])
        {
            let entry = Entry { position, length: 0, kind: 1, stage, epoch: 0 };
            *state.entry_mut(lsn) = entry;
        }
        assert!(state.is_sound());
        spent
    };
    refused(&spent(LSN_LIMIT), 1, &long[..1_024], 1, Refusal::NumbersSpent);
    refused(&spent(LSN_LIMIT), 0, &long[..1_024], 1, Refusal::Argument);
    refused(&spent(LSN_LIMIT - 1), 1, &long[..1_024], 1, Refusal::NoRoom);

    // 10, 11, 15. Of the 16 words 6 are used, and the terminator takes one.
    refused(&machine, 1, &long[..49], 1, Refusal::NoRoom);
    refused(&machine, 1, &long[..48], 1, Refusal::NotReady { lsn: 2 });
    refused(&machine, 1, &long[..48], 3, Refusal::NotReady { lsn: 2 });
    refused(&machine, 1, &long[..48], 4, Refusal::OpBufferShort { needed: 3 * 10 });
    machine.run(&Command::OpBuffer { words: 29, value: 0 });
    refused(&machine, 1, &long[..48], 4, Refusal::OpBufferShort { needed: 3 * 10 });
    machine.run(&Command::OpBuffer { words: 30, value: 0 });
    assert_eq!(append(&mut machine, 1, &long[..48], 4).numbers("ok"), Some(&[3, 0][..]));
}

/// Due: the record's stores and the force's ops count together.
#[test]
fn refusal_15_of_a_force_that_is_due() {
    let mut machine = fresh(40);
    append(&mut machine, 1, &[], 4);
    // 3 + 1 stores and the terminator's; a flush, and a store and a flush for each of the two records.
    let needed = 3 * (5 + 1 + 4);
    for words in [0, 15, needed - 1] {
        machine.run(&Command::OpBuffer { words, value: 0 });
        refused(&machine, 1, &[1], 2, Refusal::OpBufferShort { needed });
    }
    machine.run(&Command::OpBuffer { words: needed, value: 0 });
    assert_eq!(append(&mut machine, 1, &[1], 2).numbers("ok"), Some(&[2, 1][..]));
}

#[test]
fn refusal_9_with_256_live() {
    let mut machine = fresh(8_000);
    for lsn in 1..=256 {
        assert_eq!(append(&mut machine, 1, &[], 1).numbers("ok"), Some(&[lsn, 1][..]));
    }
    refused(&machine, 1, &[], 1, Refusal::TableFull);
    // Before 10 and 11.
    let mut full = fresh(1_024);
    for _ in 1..=256 {
        full.run(&Command::Reserve { kind: 1, length: 0 });
    }
    refused(&full, 1, &[0; 1_024], 1, Refusal::TableFull);
}

/// The most ops of a call: 256 records, none committed, the last of them of 1,024 bytes, round the ring's end.
#[test]
fn the_most_ops() {
    let mut machine = fresh(8_168);
    machine.state.head_position = 8_160;
    machine.state.next_position = 8_160;
    for _ in 1..=255 {
        append(&mut machine, 1, &[], 256);
    }
    let answer = append(&mut machine, 1, &[5; 1_024], 256);
    assert_eq!(answer.numbers("ok"), Some(&[256, 1][..]));
    assert_eq!(answer.ops.len(), 132 + 514);
}

// ---------------------------------------------------------------- beside the four calls

/// What the four calls come to: their answer, and the ops of the first three and of the force.
fn four_calls(
    machine: &mut Machine,
    kind: u64,
    bytes: &[u8],
    frequency: u64,
) -> Result<(Appended, Vec<Op>, Vec<Op>), Refusal> {
    fn ops_of(op_buffer: &[u64], count: usize) -> Vec<Op> {
        let ops = op_buffer.chunks_exact(OP_WORDS).take(count);
        ops.map(|op| if op[0] == 1 { store(op[1], op[2]) } else { flush(op[1], op[2]) }).collect()
    }
    let Machine { image, op_buffer, state, .. } = machine;
    let reserved = calls::reserve(image, op_buffer, state, kind, bytes.len() as u64)?;
    let lsn = reserved.answer.lsn;
    let mut stores = ops_of(op_buffer, reserved.op_count);
    let copied = calls::copy(image, op_buffer, state, lsn, 0, bytes)?;
    stores.extend(ops_of(op_buffer, copied.op_count));
    let completed = calls::complete(image, op_buffer, state, lsn)?;
    stores.extend(ops_of(op_buffer, completed.op_count));
    let forced = calls::force(image, op_buffer, state, lsn, frequency)?;
    let force = ops_of(op_buffer, forced.op_count);
    Ok((Appended { lsn, forced: forced.answer }, stores, force))
}

/// Each word of `less` can show only what that of `more` can.
fn shows_less(less: &Device, more: &Device) -> bool {
    let pairs = less.crash_values().into_iter().zip(more.crash_values());
    pairs.into_iter().all(|(less, more)| less.iter().all(|value| more.contains(value)))
}

/// Every append of the generated scripts: granted where the four calls are, with the same answer, image and state, and fewer ops; what a
/// crash may leave of it, one of the four calls could have left.
#[test]
fn the_four_calls_one_behind_another() {
    let (mut deferred, mut durable, mut refused) = (0, 0, 0);
    for seed in 1..=300 {
        let bytes = script(seed);
        let mut words =
            bytes.chunks_exact(8).map(|word| u64::from_le_bytes(word.try_into().unwrap()));
        let mut machine = Machine::default();
        while let Parsed::Command(command) = Command::parse(&mut words) {
            if let Command::Append { kind, frequency, ref bytes } = command {
                let mut roomy = machine.clone();
                roomy.op_buffer = vec![0; 2_000];
                match beside_the_four(&roomy, kind, bytes, frequency) {
                    Ok(Forced::Deferred) => deferred += 1,
                    Ok(Forced::Durable) => durable += 1,
                    Err(_) => refused += 1,
                }
            }
            machine.run(&command);
        }
    }
    assert!(deferred > 100 && durable > 100 && refused > 100, "{deferred} {durable} {refused}");
}

fn beside_the_four(
    before: &Machine,
    kind: u64,
    bytes: &[u8],
    frequency: u64,
) -> Result<Forced, Refusal> {
    let (mut one, mut four) = (before.clone(), before.clone());
    let Machine { image, op_buffer, state, .. } = &mut one;
    let answer = calls::append(image, op_buffer, state, kind, bytes, frequency);
    let expected = four_calls(&mut four, kind, bytes, frequency);
    let (done, (appended, stores, force)) = match (answer, expected) {
        (Ok(done), Ok(expected)) => (done, expected),
        (answer, expected) => {
            let refusal = answer.map(|done| done.answer).expect_err("the four calls are refused");
            let theirs = expected.map(|(appended, ..)| appended).expect_err("append is refused");
            // With F = 0 a reserve may be refused before the force is.
            assert!(refusal == theirs || frequency == 0, "{refusal:?} {theirs:?}");
            return Err(refusal);
        }
    };
    assert_eq!(done.answer, appended);
    assert!(one.image == four.image && one.state == four.state);

    let length = bytes.len() as u64;
    let size = record_size(length) as usize;
    let own: Vec<Op> = one.op_buffer[..OP_WORDS * done.op_count]
        .chunks_exact(OP_WORDS)
        .map(|op| if op[0] == 1 { store(op[1], op[2]) } else { flush(op[1], op[2]) })
        .collect();
    let (own_stores, own_force) = own.split_at(size + 1);
    assert_eq!(own_force, force);
    assert_eq!(own_stores.len() + length.div_ceil(8) as usize + 1, stores.len());

    // All three calls carried out show more than any part of append's stores, and then the force's ops are the same.
    let mut more = Device::new(&before.image);
    stores.iter().for_each(|&op| more.carry_out(op));
    let mut less = Device::new(&before.image);
    assert!(shows_less(&less, &more));
    for &op in own_stores {
        less.carry_out(op);
        assert!(shows_less(&less, &more));
    }
    for &op in own_force {
        less.carry_out(op);
        more.carry_out(op);
        assert!(shows_less(&less, &more));
    }
    Ok(appended.forced)
}

/// A record that is appended reads as one that was reserved, filled, completed and forced.
#[test]
fn what_a_walk_finds() {
    let mut machine = fresh(60);
    append(&mut machine, 40, b"first", 1);
    append(&mut machine, 41, b"", 2);
    append(&mut machine, 42, b"not yet durable", 8);
    let (records, end) = calls::walk(&machine.image).unwrap();
    let found: Vec<_> = records.iter().map(|it| (it.lsn, it.kind, it.length, it.mark)).collect();
    assert_eq!(found, [(1, 40, 5, 1), (2, 41, 0, 1)]);
    assert_eq!(end.lsn, 3);
    let mut bytes = [0; 5];
    calls::fetch(&machine.image, records[0].position, 5, &mut bytes).unwrap();
    assert_eq!(&bytes, b"first");
    assert_eq!(State::fresh(60).epoch, records[0].epoch);
}
