//! The log written for speed does the same work as the clear one: answer or refusal, image, op buffer and state after each call.

use reference::calls::{self, Done};
use reference::images::{image, SORTS};
use reference::layout::{crc32, record_size, TABLE_SIZE};
use reference::loglist::loglist;
use reference::numbered_crashes::{crash, crash_count};
use reference::plain;
use reference::refusal::Refusal;
use reference::replay::Machine;
use reference::rng::Rng;
use reference::samples::{full_image, samples};
use reference::script::{Command, Parsed};
use reference::state::{Entry, Stage, State};
use reference::three::{recover_three, Lent, MODULES};
use reference::three_calls::{ask, Request};
use reference::triples::{self, triple, Images};
use reference::vet::vet;
use reference::vet_cases::{self, case, op_buffers};
use reference::{gen, query, replay};
use std::collections::BTreeSet;
use std::fmt::Debug;

/// The same state as the other log keeps it. Entries hold 16 bits a number and 32 of the epoch, as a script's do.
fn plain_state(state: &State) -> plain::State {
    plain::State {
        capacity: state.capacity,
        head_position: state.head_position,
        head_lsn: state.head_lsn,
        next_position: state.next_position,
        next_lsn: state.next_lsn,
        committed_lsn: state.committed_lsn,
        copy_in_use: state.copy_in_use,
        epoch: state.epoch,
        table: state.table.map(|entry| plain::Entry {
            position: entry.position.try_into().unwrap(),
            length: entry.length.try_into().unwrap(),
            kind: entry.kind.try_into().unwrap(),
            stage: match entry.stage {
                Stage::Free => plain::Stage::Free,
                Stage::Open => plain::Stage::Open,
                Stage::Complete => plain::Stage::Complete,
                Stage::Committed => plain::Stage::Committed,
                Stage::Released => plain::Stage::Released,
            },
            epoch: entry.epoch.try_into().unwrap(),
        }),
    }
}

/// What was met: a call's name and its count of ops, one for each range of 8, or its refusal.
#[derive(Default)]
struct Met {
    calls: usize,
    kinds: BTreeSet<(&'static str, Result<usize, u64>)>,
}

/// Runs a call on both logs. The machine goes on with what the clear one leaves.
fn run_both(machine: &mut Machine, command: &Command, met: &mut Met) {
    let mut image = machine.image.clone();
    let mut ops = machine.op_buffer.clone();
    let mut state = plain_state(&machine.state);
    let Machine { image: clear_image, op_buffer: clear_ops, state: clear, .. } = machine;

    // The answer of the two, once they have given the same.
    fn same<A: Debug + PartialEq>(
        name: &'static str,
        clear: Result<Done<A>, Refusal>,
        fast: Result<Done<A>, Refusal>,
        met: &mut Met,
    ) {
        assert_eq!(clear, fast, "{name}");
        met.calls += 1;
        met.kinds.insert((name, clear.map(|done| done.op_count / 8).map_err(Refusal::number)));
    }
    // A state that a call has made is compared below.
    fn adopt<S>(state: &mut S, result: Result<Done<S>, Refusal>) -> Result<Done<()>, Refusal> {
        result.map(|done| {
            *state = done.answer;
            Done { answer: (), op_count: done.op_count }
        })
    }
    match *command {
        Command::Format => same(
            "format",
            adopt(clear, calls::format(clear_image, clear_ops)),
            adopt(&mut state, plain::format(&mut image, &mut ops)),
            met,
        ),
        Command::Reserve { kind, length } => same(
            "reserve",
            calls::reserve(clear_image, clear_ops, clear, kind, length),
            plain::reserve(&mut image, &mut ops, &mut state, kind, length),
            met,
        ),
        Command::Copy { lsn, offset, ref bytes } => same(
            "copy",
            calls::copy(clear_image, clear_ops, clear, lsn, offset, bytes),
            plain::copy(&mut image, &mut ops, &mut state, lsn, offset, bytes),
            met,
        ),
        Command::Complete { lsn } => same(
            "complete",
            calls::complete(clear_image, clear_ops, clear, lsn),
            plain::complete(&mut image, &mut ops, &mut state, lsn),
            met,
        ),
        Command::Force { lsn, frequency } => same(
            "force",
            calls::force(clear_image, clear_ops, clear, lsn, frequency),
            plain::force(&mut image, &mut ops, &mut state, lsn, frequency),
            met,
        ),
        Command::Append { kind, frequency, ref bytes } => same(
            "append",
            calls::append(clear_image, clear_ops, clear, kind, bytes, frequency),
            plain::append(&mut image, &mut ops, &mut state, kind, bytes, frequency),
            met,
        ),
        Command::Release { lsn } => same(
            "release",
            calls::release(clear_image, clear_ops, clear, lsn),
            plain::release(&mut image, &mut ops, &mut state, lsn),
            met,
        ),
        Command::Recover => same(
            "recover",
            adopt(clear, calls::recover(clear_image, clear_ops)),
            adopt(&mut state, plain::recover(&mut image, &mut ops)),
            met,
        ),
        _ => {
            machine.run(command);
            return;
        }
    }
    assert!(machine.image == image, "image after {command:?}");
    assert!(machine.op_buffer == ops, "op buffer after {command:?}");
    assert_eq!(plain_state(&machine.state), state, "state after {command:?}");
}

fn same_list(bytes: &[u8]) {
    let mut text = b"old text".to_vec();
    plain::list(bytes, &mut text);
    assert_eq!(String::from_utf8(text).unwrap(), loglist(bytes));
}

/// One pass gives what the calls for the ordering program give record by record.
fn same_records(bytes: &[u8]) {
    let mut records = Vec::new();
    let result = plain::listed(bytes, |record| {
        let payload = [record.payload.0, record.payload.1].concat();
        records.push((i64::from(record.kind), record.lsn as i64, i64::from(record.epoch), payload));
    });
    match result {
        Err(refusal) => assert_eq!(query::count(bytes), -(refusal.number() as i64)),
        Ok(count) => {
            assert_eq!(query::count(bytes), count as i64);
            assert_eq!(records.len() as u64, count);
            // Each answer takes a walk of its own.
            let step = 1 + records.len() / 40;
            for (index, (kind, lsn, epoch, payload)) in (0..).zip(records).step_by(step) {
                let mut output = vec![0; payload.len()];
                assert_eq!(query::kind(bytes, index), kind);
                assert_eq!(query::lsn(bytes, index), lsn);
                assert_eq!(query::epoch(bytes, index), epoch);
                assert_eq!(query::payload(bytes, index, &mut output), payload.len() as i64);
                assert_eq!(output, payload);
            }
        }
    }
}

#[test]
fn images_of_every_sort() {
    for sample in samples() {
        same_records(&sample.bytes);
    }
    for seed in 0..4 * SORTS.len() as u64 {
        same_records(&image(seed).1);
    }
    same_records(&full_image(64));
    same_records(&full_image(256));
}

/// Histories that wrap around, full tables, unsound and forged states, all image sizes, damaged superlines and records, last
/// numbers, noise: the scripts of the generator reach every refusal of every call (tests/scripts.rs).
#[test]
fn generated_scripts() {
    let mut met = Met::default();
    for seed in 1..=300 {
        let bytes = gen::script(seed);
        let mut words =
            bytes.chunks_exact(8).map(|word| u64::from_le_bytes(word.try_into().unwrap()));
        let mut machine = Machine::default();
        while let Parsed::Command(command) = Command::parse(&mut words) {
            run_both(&mut machine, &command, &mut met);
        }
        same_list(&machine.image.iter().flat_map(|word| word.to_le_bytes()).collect::<Vec<u8>>());
        same_list(&gen::image(seed));
    }
    assert!(met.calls > 10_000, "{}", met.calls);
    let refusals = |name| -> Vec<u64> {
        let of_call = met.kinds.iter().filter(|(call, _)| *call == name);
        of_call.filter_map(|(_, answer)| answer.err()).collect()
    };
    assert_eq!(refusals("format"), [1, 15]);
    assert_eq!(refusals("reserve"), [1, 2, 3, 8, 9, 10, 15]);
    assert_eq!(refusals("copy"), [1, 2, 5, 6, 7, 15]);
    assert_eq!(refusals("complete"), [1, 2, 5, 6, 15]);
    assert_eq!(refusals("force"), [1, 2, 3, 5, 11, 15]);
    assert_eq!(refusals("append"), [1, 2, 3, 8, 9, 10, 11, 15]);
    assert_eq!(refusals("release"), [1, 2, 5, 6, 15, 20]);
    assert_eq!(refusals("recover"), [1, 4, 8, 12, 13, 15]);
}

/// Long histories of one image, many times round the ring, with up to a full table; in some, one number of the state is changed
/// before a call and put back behind it.
#[test]
fn long_histories() {
    let mut met = Met::default();
    for (seed, words) in (0..).zip([40, 41, 57, 100, 400, 1_024, 3_000, 8_192]) {
        let mut rng = Rng::new(seed);
        let mut machine = Machine::default();
        machine.run(&Command::Image { words, value: rng.next_u64() });
        machine.run(&Command::OpBuffer { words: 8_192, value: 7 });
        run_both(&mut machine, &Command::Format, &mut met);
        for _ in 0..3_000 {
            let command = next_call(&mut rng, &machine.state);
            if rng.chance(1, 4) {
                let mut other = machine.clone();
                change_a_number(&mut rng, &mut other);
                run_both(&mut other, &command, &mut met);
            }
            run_both(&mut machine, &command, &mut met);
        }
        assert!(machine.state.next_lsn > 100, "{words} words: {}", machine.state.next_lsn);
    }
    assert!(met.calls > 20_000, "{}", met.calls);
    // A head given back, and the longest record.
    assert!(met.kinds.contains(&("release", Ok(10 / 8))));
    assert!(met.kinds.contains(&("reserve", Ok(132 / 8))));
    assert!(met.kinds.contains(&("append", Ok(132 / 8))));
}

/// Tables filled, forced in one stretch, and given back in any order; in between, states in which one number is another.
#[test]
fn full_tables() {
    let mut met = Met::default();
    let mut rng = Rng::new(1);
    let mut machine = Machine::default();
    machine.run(&Command::Image { words: 1_900, value: 0 });
    machine.run(&Command::OpBuffer { words: 8_192, value: 7 });
    run_both(&mut machine, &Command::Format, &mut met);
    // One record before the first round, so that no round ends where the table does.
    for call in [
        Command::Reserve { kind: 1, length: 9 },
        Command::Complete { lsn: 1 },
        Command::Force { lsn: 1, frequency: 1 },
        Command::Release { lsn: 1 },
    ] {
        run_both(&mut machine, &call, &mut met);
    }
    for round in 0..6 {
        let mut lsns: Vec<u64> = (256 * round + 2..=256 * round + 257).collect();
        for &lsn in &lsns {
            let bytes = rng.bytes(lsn % 50);
            let length = bytes.len() as u64;
            run_both(&mut machine, &Command::Reserve { kind: 1_000 + lsn, length }, &mut met);
            run_both(&mut machine, &Command::Copy { lsn, offset: 0, bytes }, &mut met);
            run_both(&mut machine, &Command::Complete { lsn }, &mut met);
            if rng.chance(1, 2) {
                let mut other = machine.clone();
                change_a_number(&mut rng, &mut other);
                run_both(&mut other, &Command::Force { lsn, frequency: 1 }, &mut met);
            }
        }
        run_both(&mut machine, &Command::Reserve { kind: 1, length: 1 }, &mut met);
        run_both(&mut machine, &Command::Force { lsn: lsns[255], frequency: 1 }, &mut met);
        rng.shuffle(&mut lsns);
        for (i, &lsn) in lsns.iter().enumerate() {
            run_both(&mut machine, &Command::Release { lsn }, &mut met);
            if i % 8 == 0 {
                run_both(&mut machine.clone(), &Command::Recover, &mut met);
            }
        }
    }
    assert_eq!(machine.state.head_lsn, 6 * 256 + 2);
    assert!(met.kinds.contains(&("reserve", Err(9))));
    assert!(met.kinds.contains(&("force", Err(2))));
    assert!(met.kinds.contains(&("force", Ok(513 / 8))));
}

/// A state that is sound but for one length, kind, count of records or epoch.
#[test]
fn barely_unsound_states() {
    let mut met = Met::default();
    for (length, kind, more, epoch, refusal) in [
        (1_024, 1, 0, 0, None),
        (1_025, 1, 0, 0, Some(2)),
        (1_024, 0, 0, 0, Some(2)),
        (1_024, 1, 256, 0, Some(2)),
        (1_024, 1, 0, 1, Some(2)),
    ] {
        let mut machine = Machine::default();
        machine.run(&Command::Image { words: 400, value: 0 });
        machine.run(&Command::OpBuffer { words: 400, value: 7 });
        run_both(&mut machine, &Command::Format, &mut met);
        machine.state.next_lsn = 2 + more;
        machine.state.next_position = record_size(length);
        machine.state.table[1] = Entry { position: 0, length, kind, stage: Stage::Open, epoch };
        met.kinds.clear();
        run_both(&mut machine, &Command::Complete { lsn: 1 }, &mut met);
        let answer = refusal.map_or(Ok(0), Err);
        assert!(met.kinds.contains(&("complete", answer)), "{length} {kind} {more} {epoch}");
    }
}

/// Epochs of live entries in each stage at, below and above the state's, and of each entry that is free.
#[test]
fn epochs_of_entries() {
    let mut met = Met::default();
    let mut machine = Machine::default();
    machine.run(&Command::Image { words: 100, value: 0 });
    machine.run(&Command::OpBuffer { words: 400, value: 7 });
    run_both(&mut machine, &Command::Format, &mut met);
    // LSNs 250 to 259 go round the table's end: committed, released, complete and open.
    machine.state.epoch = 7;
    let State { head_lsn, next_lsn, committed_lsn, next_position, .. } = &mut machine.state;
    (*head_lsn, *next_lsn, *committed_lsn, *next_position) = (250, 260, 255, 30);
    for lsn in 250..260 {
        let stage = match lsn {
            250 | 252 | 254 => Stage::Committed,
            251 | 253 | 255 => Stage::Released,
            256 | 258 => Stage::Complete,
            _ => Stage::Open,
        };
        let epoch = if stage == Stage::Open { 0 } else { lsn % 8 };
        let position = 3 * (lsn - 250);
        *machine.state.entry_mut(lsn) = Entry { position, length: 0, kind: 1, stage, epoch };
    }
    let call = Command::Copy { lsn: 259, offset: 0, bytes: vec![] };
    let ask = |machine: &Machine| {
        let mut met = Met::default();
        run_both(&mut machine.clone(), &call, &mut met);
        met.kinds.contains(&("copy", Ok(0)))
    };
    assert!(ask(&machine));
    for index in 0..TABLE_SIZE as u64 {
        for epoch in [0, 1, 6, 7, 8, (1 << 32) - 1] {
            let mut machine = machine.clone();
            let entry = machine.state.entry_mut(index);
            entry.epoch = epoch;
            let sound = match entry.stage {
                Stage::Free | Stage::Open => epoch == 0,
                _ => epoch <= 7,
            };
            assert_eq!(ask(&machine), sound, "entry {index}, epoch {epoch}");
        }
    }
}

/// A call that mostly goes well.
fn next_call(rng: &mut Rng, state: &State) -> Command {
    let State { capacity, head_lsn, next_lsn, committed_lsn, .. } = *state;
    let lsn = rng.between(head_lsn - 1, next_lsn);
    let first_open = state.live().find(|&lsn| state.entry(lsn).stage == Stage::Open);
    let open = first_open.unwrap_or(lsn);
    match rng.below(37) {
        32.. => {
            let most = rng.pick(&[8, 40, 1_024.min(4 * capacity)]);
            let count = rng.between(0, most + 1);
            let (kind, frequency) = (rng.between(0, 65_536), rng.below(9));
            Command::Append { kind, frequency, bytes: rng.bytes(count) }
        }
        0..8 => {
            let most = rng.pick(&[8, 40, 1_024.min(4 * capacity)]);
            Command::Reserve { kind: rng.between(0, 65_536), length: rng.between(0, most + 1) }
        }
        8..14 => {
            let length = state.entry(open).length;
            let offset = rng.between(0, length);
            let beyond = u64::from(rng.chance(1, 9));
            let count = rng.between(0, length - offset + beyond);
            let lsn = if rng.chance(1, 9) { lsn } else { open };
            Command::Copy { lsn, offset, bytes: rng.bytes(count) }
        }
        14..21 => Command::Complete { lsn: if rng.chance(1, 9) { lsn } else { open } },
        21..23 => Command::Force { lsn, frequency: rng.below(4) },
        23..25 => Command::Force { lsn: first_open.unwrap_or(next_lsn) - 1, frequency: 1 },
        25..28 => Command::Release { lsn: rng.between(head_lsn, committed_lsn.max(head_lsn)) },
        28..31 => Command::Release { lsn: head_lsn },
        _ => Command::Recover,
    }
}

fn change_a_number(rng: &mut Rng, machine: &mut Machine) {
    let index = rng.below(TABLE_SIZE as u64) as usize;
    let entry = &mut machine.state.table[index];
    match rng.below(7) {
        0 => {
            let field = rng.below(8);
            let old = replay::fields(&machine.state)[field as usize];
            let near = old.wrapping_add(rng.between(0, 2)).wrapping_sub(1);
            let small = rng.below(9_000);
            let value = rng.pick(&[near, small, 0, 1, 1 << 32, 1 << 62, u64::MAX]);
            machine.run(&Command::Field { field, value });
        }
        1 => entry.position = rng.pick(&[0, 1, 65_535, entry.position ^ 1]),
        2 => entry.length = rng.pick(&[0, 1, 1_024, 1_025, 65_535, entry.length ^ 1]),
        3 => entry.kind = rng.pick(&[0, 1, 65_535]),
        4 => entry.epoch = rng.pick(&[0, 1, 2, 3, (1 << 32) - 1, entry.epoch ^ 1]),
        5 => {
            let stages =
                [Stage::Free, Stage::Open, Stage::Complete, Stage::Committed, Stage::Released];
            entry.stage = rng.pick(&stages);
        }
        _ => machine.image.truncate(machine.image.len() - 1),
    }
}

#[test]
fn listings() {
    for sample in samples() {
        same_list(&sample.bytes);
    }
    same_list(&full_image(64));
    same_list(&full_image(256));
}

#[test]
fn checks() {
    let mut rng = Rng::new(5);
    assert_eq!(plain::crc32_of_bytes(b"123456789"), 0xCBF4_3926);
    for count in 0..100 {
        let bytes = rng.bytes(count);
        assert_eq!(plain::crc32_of_bytes(&bytes), u64::from(crc32(bytes)));
        let words: Vec<u64> = (0..count).map(|_| rng.next_u64()).collect();
        let bytes = words.iter().flat_map(|word| word.to_le_bytes());
        assert_eq!(plain::crc32_of_words(&words), u64::from(crc32(bytes)));
    }
}

#[test]
fn sizes() {
    assert_eq!(size_of::<plain::Entry>(), 12);
    assert_eq!(size_of::<plain::State>(), 8 * 8 + 256 * 12);
}

/// Three images and op buffers, lent as a request says.
fn lend<'a>(
    request: &Request,
    images: &'a mut Images,
    op_buffers: &'a mut Images,
) -> [Lent<'a>; MODULES] {
    let mut lent = images.iter_mut().zip(op_buffers);
    std::array::from_fn(|i| {
        let (image, op_buffer) = lent.next().unwrap();
        Lent { image, op_buffer, present: request.is_present(i) }
    })
}

#[test]
fn three_modules() {
    let mut met = BTreeSet::new();
    for seed in 0..3 * triples::SORTS.len() as u64 {
        let (name, images) = triple(seed);
        for request in ask(seed, &images).requests {
            let op_buffers = request.op_words.map(|words| vec![seed; words]);
            let (mut clear_images, mut clear_ops) = (images.clone(), op_buffers.clone());
            let clear = recover_three(&mut lend(&request, &mut clear_images, &mut clear_ops));
            let (mut fast_images, mut fast_ops) = (images.clone(), op_buffers);
            let mut modules = lend(&request, &mut fast_images, &mut fast_ops);
            let fast = plain::recover_three(&mut modules);
            assert_eq!(
                clear.as_ref().map(|it| (it.chosen, plain_state(&it.state), it.op_counts)),
                fast.as_ref().map(|it| (it.chosen, it.state.clone(), it.op_counts)),
                "{name}"
            );
            assert!(clear_images == fast_images && clear_ops == fast_ops, "{name}");
            met.insert(clear.map(|it| it.chosen).map_err(Refusal::number));
        }
    }
    assert_eq!(met, BTreeSet::from([Ok(0), Ok(1), Ok(2), Err(1), Err(8), Err(15), Err(19)]));
}

/// The check of another unit's ops, on the op buffers of the comparison through C.
#[test]
fn vets_alike() {
    let (mut passed, mut refused) = (0, 0);
    for seed in 0..3 * vet_cases::SORTS.len() as u64 {
        let (name, case) = case(seed);
        let mut unsound = case.state.clone();
        unsound.committed_lsn = unsound.next_lsn;
        for op_buffer in op_buffers(&mut Rng::new(seed), &case) {
            let image = &case.image[..];
            for (state, image) in
                [(&case.state, image), (&unsound, image), (&case.state, &image[1..])]
            {
                let clear = vet(state, image, &op_buffer);
                assert_eq!(plain::vet(&plain_state(state), image, &op_buffer), clear, "{name}");
                passed += u64::from(clear.is_ok());
                refused += u64::from(matches!(clear, Err(Refusal::BadOp { .. })));
            }
        }
    }
    assert!(passed > 300 && refused > 1_000, "{passed} {refused}");
}

/// Stores and flushes of few words, with values that come again; the last op may be none, or a part of one.
fn few_ops(rng: &mut Rng, words: u64) -> Vec<u64> {
    let span = rng.between(1, 12).min(words);
    let base = rng.below(words - span + 1);
    let (values, stores) = (rng.between(2, 5), rng.below(9));
    let count = rng.pick(&[3, 8, 20, 60, 200]);
    let mut buffer = Vec::new();
    for _ in 0..rng.below(count + 1) {
        let word = base + rng.below(span);
        buffer.extend(match rng.below(9) < stores {
            true => [1, word, rng.below(values)],
            false => [2, word, rng.between(1, words - word)],
        });
    }
    if rng.chance(1, 6) {
        let ends: [&[u64]; 10] = [
            &[1],
            &[2, 0],
            &[0, 0, 1],
            &[3, 0, 1],
            &[1, words, 0],
            &[1, u64::MAX, 0],
            &[2, 0, 0],
            &[2, 0, words + 1],
            &[2, words, 1],
            &[2, 1, u64::MAX],
        ];
        buffer.extend(rng.pick(&ends));
    }
    buffer
}

/// The numbered crashes: count, point and image, or the refusal, which leaves the output.
#[test]
fn crashes_alike() {
    let mut met = BTreeSet::new();
    let mut images = 0;
    let mut same = |image: &[u64], buffer: &[u64], rng: &mut Rng| {
        let total = crash_count(image, buffer);
        assert_eq!(plain::crash_count(image, buffer), total);
        let most = total.unwrap_or(2);
        let room = image.len();
        let mut numbers: Vec<(u64, usize)> = if most <= 40 {
            (0..most).map(|number| (number, room)).collect()
        } else {
            (0..20).map(|_| (rng.below(most), room)).chain([(most - 1, room)]).collect()
        };
        numbers.extend([(most, room), (4_096, room), (u64::MAX, room), (0, room + 1)]);
        for (number, room) in numbers {
            let mut output = vec![7; room];
            let fast = plain::crash_image(image, buffer, number, &mut output);
            let clear = crash(image, buffer, number, room);
            assert_eq!(fast, clear.as_ref().map(|it| it.point as u64).map_err(|it| *it));
            met.insert(clear.as_ref().map_or_else(|refusal| refusal.number(), |_| 0));
            images += u64::from(clear.is_ok());
            assert!(output == clear.map_or(vec![7; room], |it| it.image), "crash {number}");
        }
    };
    for seed in 0..3_000 {
        let mut rng = Rng::new(seed);
        let words = rng.pick(&[39, 40, 40, 41, 64, 64, 100]);
        let image: Vec<u64> = (0..words).map(|_| rng.below(3)).collect();
        same(&image, &few_ops(&mut rng, words), &mut rng);
    }
    // The largest image and one that is too large, and both edges of the most crashes.
    let mut rng = Rng::new(1);
    for words in [8_192, 8_193] {
        same(&vec![1; words as usize], &few_ops(&mut rng, words), &mut rng);
    }
    for count in [4_094, 4_095, 4_096] {
        same(&[1; 40], &[2, 0, 1].repeat(count), &mut rng);
    }
    for count in [11, 12] {
        let stores: Vec<u64> = (0..count).flat_map(|i| [1, 39 - 3 * i, 5]).collect();
        same(&[1; 40], &stores, &mut rng);
        same(&[1; 40], &[&stores[..], &[2, 0, 40]].concat(), &mut rng);
        same(&[1; 40], &[&stores[..], &[2, 0, 40, 2, 0, 40]].concat(), &mut rng);
        same(&[1; 40], &[&stores[..], &[2, 0]].concat(), &mut rng);
    }
    // So many values of one word, and of one that is then flushed.
    for count in [88, 89, 90, 91] {
        let stores: Vec<u64> = (0..count).flat_map(|i| [1, 5, i + 2]).collect();
        same(&[1; 40], &stores, &mut rng);
        same(&[1; 40], &[&stores[..], &[2, 5, 1]].concat(), &mut rng);
    }
    assert_eq!(met, BTreeSet::from([0, 1, 21, 22, 23]));
    assert!(images > 20_000, "{images}");
}
