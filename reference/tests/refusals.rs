//! Each refusal of each call, with its detail; the order of the tests; and that a refused call changes
//! nothing.

use reference::calls::{self, Cursor, Next};
use reference::layout::{
    CheckWord, Header, Superline, LSN_LIMIT, MARK_COMMITTED, MAX_EPOCH, TABLE_SIZE,
};
use reference::refusal::{RecordTest, Refusal};
use reference::replay::Machine;
use reference::script::{Answer, Command, Outcome};
use reference::state::{Entry, Stage, State};

// ---------------------------------------------------------------- setting up

/// A machine with a fresh log of `capacity` words and op buffer enough.
fn fresh(capacity: u64) -> Machine {
    let mut machine = Machine::default();
    machine.run(&Command::Image { words: capacity + 24, value: 0x0102_0304_0506_0708 });
    machine.run(&Command::OpBuffer { words: 1_600, value: 9 });
    ok(&mut machine, Command::Format);
    machine
}

/// Records 1 committed, 2 released, 3 committed, 4 complete, 5 open; each of 12 bytes.
fn with_all_stages() -> Machine {
    let mut machine = fresh(100);
    for lsn in 1..=5 {
        ok(&mut machine, Command::Reserve { kind: 40 + lsn, length: 12 });
    }
    for lsn in 1..=4 {
        ok(&mut machine, Command::Complete { lsn });
    }
    ok(&mut machine, Command::Force { lsn: 3, frequency: 1 });
    ok(&mut machine, Command::Release { lsn: 2 });
    machine
}

fn run(machine: &mut Machine, call: &Command) -> Answer {
    Answer::parse(&machine.run(call).expect("calls answer")).expect("in REPLAY.md's form")
}

fn ok(machine: &mut Machine, call: Command) -> Answer {
    let answer = run(machine, &call);
    assert!(!answer.is_refused(), "{call:?}: {:?}", answer.outcome);
    answer
}

/// The call is refused so, and image, op buffer, state and cursor stay as they were.
#[track_caller]
fn refused(machine: &Machine, call: Command, number: u64, detail: u64) {
    refused_by(machine, call, number, detail, None);
}

/// The same, with the test that refusal 12 names.
#[track_caller]
fn refused_by(
    machine: &Machine,
    call: Command,
    number: u64,
    detail: u64,
    test: Option<RecordTest>,
) {
    let mut after = machine.clone();
    let answer = run(&mut after, &call);
    assert_eq!(answer.outcome, Outcome::Refused { number, detail, test }, "{call:?}");
    assert!(answer.ops.is_empty());
    assert_eq!(after.image, machine.image);
    assert_eq!(after.op_buffer, machine.op_buffer);
    assert_eq!(after.state, machine.state);
    assert_eq!(after.cursor, machine.cursor);
}

/// The machine changed by a closure.
fn but(machine: &Machine, change: impl FnOnce(&mut Machine)) -> Machine {
    let mut machine = machine.clone();
    change(&mut machine);
    machine
}

/// The calls with a state. On `with_all_stages` each succeeds, but for release all, refused with 11.
fn state_calls() -> Vec<Command> {
    vec![
        Command::Reserve { kind: 1, length: 8 },
        Command::Copy { lsn: 5, offset: 0, bytes: vec![1, 2, 3] },
        Command::Complete { lsn: 5 },
        Command::Force { lsn: 4, frequency: 1 },
        Command::Append { kind: 1, frequency: 100, bytes: vec![1, 2, 3] },
        Command::Release { lsn: 3 },
        Command::ReleaseAll,
    ]
}

fn reading_calls() -> Vec<Command> {
    vec![Command::Open, Command::Next, Command::Fetch { position: 0, length: 8, output: 8 }]
}

// ---------------------------------------------------------------- 1: image size

#[test]
fn refusal_1_size_out_of_range() {
    let mut calls = state_calls();
    calls.extend(reading_calls());
    calls.extend([Command::Format, Command::Recover]);
    for words in [0, 1, 24, 39, 8_193] {
        let machine = but(&with_all_stages(), |machine| {
            machine.image.resize(words, 0);
            machine.state.capacity = (words as u64).wrapping_sub(24);
        });
        for call in &calls {
            refused(&machine, call.clone(), 1, 0);
        }
    }
}

#[test]
fn refusal_1_size_is_not_the_states() {
    for capacity in [99, 101, 0, u64::MAX, u64::MAX - 23] {
        let machine = but(&with_all_stages(), |machine| machine.state.capacity = capacity);
        for call in state_calls() {
            refused(&machine, call, 1, 0);
        }
    }
}

// ---------------------------------------------------------------- 2: state and cursor

#[test]
fn refusal_2_unsound_states() {
    type Change = fn(&mut State);
    let unsound: [(&str, Change); 37] = [
        ("copy in use 2", |s| s.copy_in_use = 2),
        ("epoch 0", |s| s.epoch = 0),
        ("epoch 2^32", |s| s.epoch = MAX_EPOCH + 1),
        ("head LSN 0", |s| s.head_lsn = 0),
        ("head LSN above next LSN", |s| s.head_lsn = 7),
        ("head LSN 2^64 - 1", |s| s.head_lsn = u64::MAX),
        ("next LSN above its range", |s| s.next_lsn = LSN_LIMIT + 1),
        ("next LSN 2^64 - 1", |s| s.next_lsn = u64::MAX),
        ("next LSN one too high", |s| s.next_lsn += 1),
        ("next LSN one too low", |s| s.next_lsn -= 1),
        ("257 live", |s| s.next_lsn = s.head_lsn + 257),
        ("head place one too high", |s| s.head_position += 1),
        ("head place C", |s| s.head_position = s.capacity),
        ("head place 2^64 - 1", |s| s.head_position = u64::MAX),
        ("next place one too high", |s| s.next_position += 1),
        ("next place C", |s| s.next_position = s.capacity),
        ("committed LSN one too low", |s| s.committed_lsn -= 1),
        ("committed LSN one too high", |s| s.committed_lsn += 1),
        ("committed LSN at next LSN", |s| s.committed_lsn = s.next_lsn),
        ("committed LSN 2^64 - 1", |s| s.committed_lsn = u64::MAX),
        ("kind 0", |s| s.entry_mut(3).kind = 0),
        ("kind 65,536", |s| s.entry_mut(3).kind = 65_536),
        ("length 1,025", |s| s.entry_mut(5).length = 1_025),
        ("length of another size", |s| s.entry_mut(5).length = 17),
        ("length 2^64 - 1", |s| s.entry_mut(5).length = u64::MAX),
        ("place", |s| s.entry_mut(3).position += 1),
        ("live but free", |s| s.entry_mut(3).stage = Stage::Free),
        ("open but committed", |s| s.entry_mut(3).stage = Stage::Open),
        ("released but not committed", |s| s.entry_mut(4).stage = Stage::Released),
        ("head released", |s| s.entry_mut(1).stage = Stage::Released),
        ("not live, not free", |s| s.entry_mut(6).stage = Stage::Open),
        ("committed, epoch above the state's", |s| s.entry_mut(1).epoch = 2),
        ("released, epoch above the state's", |s| s.entry_mut(2).epoch = MAX_EPOCH),
        ("complete, epoch above the state's", |s| s.entry_mut(4).epoch = 2),
        ("open, epoch not 0", |s| s.entry_mut(5).epoch = 1),
        ("open, epoch above the state's", |s| s.entry_mut(5).epoch = 2),
        ("free, epoch not 0", |s| s.entry_mut(6).epoch = 1),
    ];
    for (what, change) in unsound {
        let machine = but(&with_all_stages(), |machine| change(&mut machine.state));
        assert!(!machine.state.is_sound(), "{what}");
        for call in state_calls() {
            refused(&machine, call, 2, 0);
        }
    }
    // A free entry is all zero.
    for entry in [
        Entry { position: 1, ..Entry::FREE },
        Entry { length: 1, ..Entry::FREE },
        Entry { kind: 1, ..Entry::FREE },
        Entry { epoch: 1, ..Entry::FREE },
    ] {
        let machine = but(&with_all_stages(), |machine| *machine.state.entry_mut(60) = entry);
        refused(&machine, Command::ReleaseAll, 2, 0);
    }
}

#[test]
fn refusal_2_capacity_and_used_words() {
    // C below 16 or above 8,168 is refusal 1 with an image; as a state it is not sound.
    for (capacity, sound) in [(15, false), (16, true), (8_168, true), (8_169, false)] {
        assert_eq!(State::fresh(capacity).is_sound(), sound, "C = {capacity}");
    }
    // Used words at most C - 1: 13 payload words leave no room for the terminator.
    for (length, sound) in [(96, true), (97, false), (104, false)] {
        let mut state = State::fresh(16);
        state.next_lsn = 2;
        let open = Entry { position: 0, length, kind: 1, stage: Stage::Open, epoch: 0 };
        *state.entry_mut(1) = open;
        state.next_position = state.entry(1).size() % 16;
        assert_eq!(state.is_sound(), sound, "L = {length}");
    }
}

#[test]
fn refusal_2_cursors() {
    let machine = with_all_stages();
    let good = calls::open(&machine.image).unwrap();
    for bad in [
        Cursor { position: 100, ..good },
        Cursor { position: u64::MAX, ..good },
        Cursor { lsn: 0, ..good },
        Cursor { lsn: LSN_LIMIT + 1, ..good },
        Cursor { used: 100, ..good },
        Cursor { used: u64::MAX, ..good },
        Cursor { count: 257, ..good },
        Cursor { count: u64::MAX, ..good },
        Cursor { last_epoch: 2, ..good },
        Cursor { last_epoch: u64::MAX, ..good },
        Cursor { last_epoch: u64::MAX, superline_epoch: u64::MAX - 1, ..good },
        Cursor { last_epoch: 1, superline_epoch: 0, ..good },
    ] {
        refused(&but(&machine, |machine| machine.cursor = bad), Command::Next, 2, 0);
    }
    // A count of 256 may be, and stands before the end or a record too many.
    for count in [64, 65, 255, 256] {
        let at_end = Cursor { position: 15, lsn: 4, used: 15, count, ..good };
        assert_eq!(calls::next(&machine.image, &at_end), Ok(Next::End { lsn: 4 }));
    }
    let full = but(&machine, |machine| machine.cursor = Cursor { count: 256, ..good });
    refused(&full, Command::Next, 13, 1);
    // The epochs may be any numbers, if the last does not pass the superline's. The record here has epoch 1.
    for (last_epoch, superline_epoch, fits) in [
        (0, 1, true),
        (1, 1, true),
        (1, u64::MAX, true),
        (0, 1 << 40, true),
        (0, 0, false),
        (2, 2, false),
        (2, u64::MAX, false),
        (u64::MAX, u64::MAX, false),
    ] {
        let cursor = Cursor { last_epoch, superline_epoch, ..good };
        match calls::next(&machine.image, &cursor) {
            Ok(Next::Record { record, behind }) => {
                assert!(fits, "{cursor:?}");
                assert_eq!(record.epoch, 1);
                assert_eq!((behind.last_epoch, behind.superline_epoch), (1, superline_epoch));
            }
            other => {
                let refusal = Refusal::Damaged { lsn: 1, test: RecordTest::Epoch };
                assert_eq!((other, fits), (Err(refusal), false), "{cursor:?}");
            }
        }
    }
}

/// Epochs that a state may have although no run of the calls leaves them.
#[test]
fn sound_epochs() {
    type Change = fn(&mut State);
    let sound: [(&str, Change); 5] = [
        ("none", |s| s.table.iter_mut().for_each(|entry| entry.epoch = 0)),
        ("complete without one", |s| s.entry_mut(4).epoch = 0),
        ("all below the state's", |s| s.epoch = 9),
        ("falling", |s| (s.epoch, s.entry_mut(1).epoch) = (9, 9)),
        ("largest", |s| (s.epoch, s.entry_mut(3).epoch) = (MAX_EPOCH, MAX_EPOCH)),
    ];
    for (what, change) in sound {
        let mut machine = but(&with_all_stages(), |machine| change(&mut machine.state));
        assert!(machine.state.is_sound(), "{what}");
        ok(&mut machine, Command::Complete { lsn: 5 });
        assert_eq!(machine.state.entry(5).epoch, machine.state.epoch, "{what}");
    }
}

/// Which calls set an entry's epoch, and which keep it.
#[test]
fn epochs_of_entries() {
    let mut machine = with_all_stages();
    let epochs = |machine: &Machine| {
        machine.state.live().map(|k| machine.state.entry(k).epoch).collect::<Vec<u64>>()
    };
    assert_eq!(epochs(&machine), [1, 1, 1, 1, 0]);
    assert_eq!(CheckWord::of_word(machine.image[24 + 20 + 2]), CheckWord { check: 0, epoch: 0 });
    ok(&mut machine, Command::Recover);
    // Records 4 and 5 are gone, and the next ones are of another run.
    assert_eq!((machine.state.epoch, epochs(&machine)), (2, vec![1, 1, 1]));
    ok(&mut machine, Command::Reserve { kind: 1, length: 12 });
    ok(&mut machine, Command::Copy { lsn: 4, offset: 0, bytes: vec![1] });
    assert_eq!(epochs(&machine), [1, 1, 1, 0]);
    ok(&mut machine, Command::Complete { lsn: 4 });
    assert_eq!(epochs(&machine), [1, 1, 1, 2]);
    ok(&mut machine, Command::Force { lsn: 4, frequency: 1 });
    assert_eq!(CheckWord::of_word(machine.image[24 + 15 + 2]).epoch, 2);
    ok(&mut machine, Command::Release { lsn: 4 });
    assert_eq!(epochs(&machine), [1, 1, 1, 2]);
    // The head and the released one behind it are freed.
    ok(&mut machine, Command::Release { lsn: 1 });
    assert_eq!(epochs(&machine), [1, 2]);
    assert_eq!([*machine.state.entry(1), *machine.state.entry(2)], [Entry::FREE; 2]);
    ok(&mut machine, Command::ReleaseAll);
    assert_eq!(machine.state.table, [Entry::FREE; TABLE_SIZE]);
}

// ---------------------------------------------------------------- 3: numbers handed in

#[test]
fn refusal_3_numbers() {
    let machine = with_all_stages();
    for kind in [0, 65_536, 70_000, u64::MAX] {
        refused(&machine, Command::Reserve { kind, length: 0 }, 3, 0);
    }
    for length in [1_025, u64::MAX] {
        refused(&machine, Command::Reserve { kind: 1, length }, 3, 0);
        refused(&machine, Command::Fetch { position: 0, length, output: 2_048 }, 3, 0);
    }
    for position in [100, u64::MAX] {
        refused(&machine, Command::Fetch { position, length: 0, output: 0 }, 3, 0);
    }
    // Before 5, before kept, before put off.
    for lsn in [0, 1, 4, 5] {
        refused(&machine, Command::Force { lsn, frequency: 0 }, 3, 0);
    }
}

// ---------------------------------------------------------------- 4: superline

#[test]
fn refusal_4_superline() {
    let machine = fresh(16);
    let good = Superline { capacity: 16, head_position: 0, head_lsn: 1, epoch: 1 };
    let mut images = Vec::new();
    for selector in [1, 2, u64::MAX] {
        images.push(but(&machine, |machine| machine.image[0] = selector));
    }
    for word in 8..14 {
        for bit in [0, 31, 32, 63] {
            images.push(but(&machine, |machine| machine.image[word] ^= 1 << bit));
        }
    }
    for wrong in [
        Superline { capacity: 15, ..good },
        Superline { capacity: 17, ..good },
        Superline { head_position: 16, ..good },
        Superline { head_position: u64::MAX, ..good },
        Superline { head_lsn: 0, ..good },
        Superline { head_lsn: LSN_LIMIT + 1, ..good },
        Superline { epoch: 0, ..good },
        Superline { epoch: MAX_EPOCH + 1, ..good },
    ] {
        images.push(but(&machine, |machine| {
            machine.image[8..14].copy_from_slice(&wrong.words());
        }));
    }
    for machine in images {
        refused(&machine, Command::Open, 4, 0);
        refused(&machine, Command::Recover, 4, 0);
    }
}

// ---------------------------------------------------------------- 5 to 7: records

#[test]
fn refusal_5_not_live() {
    let machine = with_all_stages();
    for lsn in [0, 6, 65, 257, LSN_LIMIT, u64::MAX] {
        refused(&machine, Command::Copy { lsn, offset: u64::MAX, bytes: vec![1] }, 5, 0);
        refused(&machine, Command::Complete { lsn }, 5, 0);
        refused(&machine, Command::Force { lsn, frequency: 7 }, 5, 0);
        refused(&machine, Command::Release { lsn }, 5, 0);
    }
}

#[test]
fn refusal_6_wrong_stage() {
    let machine = with_all_stages();
    for lsn in 1..=4 {
        refused(&machine, Command::Copy { lsn, offset: 0, bytes: vec![] }, 6, 0);
        refused(&machine, Command::Copy { lsn, offset: 13, bytes: vec![1] }, 6, 0);
        refused(&machine, Command::Complete { lsn }, 6, 0);
    }
    for lsn in [2, 4, 5] {
        refused(&machine, Command::Release { lsn }, 6, 0);
    }
}

#[test]
fn refusal_7_beyond_the_payload() {
    let machine = with_all_stages();
    for (offset, count) in [(12, 1), (9, 4), (13, 0), (0, 13), (u64::MAX, 0), (u64::MAX, 1)] {
        refused(&machine, Command::Copy { lsn: 5, offset, bytes: vec![1; count] }, 7, 0);
    }
}

// ---------------------------------------------------------------- 8 to 11

/// An empty log whose numbers are nearly spent.
fn with_numbers(head_lsn: u64, epoch: u64) -> Machine {
    but(&fresh(16), |machine| {
        let superline = Superline { capacity: 16, head_position: 0, head_lsn, epoch };
        machine.image[8..14].copy_from_slice(&superline.words());
        machine.state = State {
            head_lsn,
            next_lsn: head_lsn,
            committed_lsn: head_lsn - 1,
            epoch,
            ..State::fresh(16)
        };
    })
}

#[test]
fn refusal_8_numbers_spent() {
    let machine = with_numbers(LSN_LIMIT, 1);
    refused(&machine, Command::Reserve { kind: 1, length: 0 }, 8, 0);
    refused(&machine, Command::Reserve { kind: 1, length: 1_024 }, 8, 0); // before 10
    ok(&mut with_numbers(LSN_LIMIT - 1, 1), Command::Reserve { kind: 1, length: 0 });

    let machine = with_numbers(1, MAX_EPOCH);
    refused(&machine, Command::Recover, 8, 0);
    let damaged = but(&machine, |machine| machine.image[24] = 3 << 48);
    refused(&damaged, Command::Recover, 8, 0); // before 12
    refused(&but(&machine, |machine| machine.op_buffer.clear()), Command::Recover, 8, 0);
    ok(&mut with_numbers(1, MAX_EPOCH - 1), Command::Recover);
    ok(&mut with_numbers(LSN_LIMIT, 1), Command::Recover);
}

/// A full table of forced records without payload.
fn full_table(capacity: u64) -> Machine {
    let mut machine = fresh(capacity);
    for lsn in 1..=TABLE_SIZE as u64 {
        ok(&mut machine, Command::Reserve { kind: 1, length: 0 });
        ok(&mut machine, Command::Complete { lsn });
    }
    ok(&mut machine, Command::Force { lsn: TABLE_SIZE as u64, frequency: 1 });
    machine
}

#[test]
fn refusal_9_table_full() {
    refused(&full_table(1_000), Command::Reserve { kind: 1, length: 0 }, 9, 0);
    refused(&full_table(769), Command::Reserve { kind: 1, length: 0 }, 9, 0); // before 10
                                                                              // 256 live are sound, and with one fewer there is room for one more.
    let mut machine = full_table(1_000);
    assert!(machine.state.is_sound());
    ok(&mut machine, Command::Release { lsn: 1 });
    let answer = ok(&mut machine, Command::Reserve { kind: 1, length: 0 });
    assert_eq!(answer.numbers("ok"), Some(&[257, 768][..]));
    assert_eq!(machine.state.table[1].position, 768);
}

#[test]
fn refusal_10_no_room() {
    let machine = fresh(16);
    refused(&machine, Command::Reserve { kind: 1, length: 97 }, 10, 0);
    refused(&machine, Command::Reserve { kind: 1, length: 1_024 }, 10, 0);

    // Released room counts once the head is past it.
    let mut machine = fresh(16);
    for lsn in 1..=2 {
        ok(&mut machine, Command::Reserve { kind: 1, length: 24 });
        ok(&mut machine, Command::Complete { lsn });
    }
    ok(&mut machine, Command::Force { lsn: 2, frequency: 1 });
    ok(&mut machine, Command::Release { lsn: 2 });
    refused(&machine, Command::Reserve { kind: 1, length: 8 }, 10, 0);
    ok(&mut machine, Command::Release { lsn: 1 });
    ok(&mut machine, Command::Reserve { kind: 1, length: 96 });
}

#[test]
fn refusal_11_not_ready() {
    let machine = with_all_stages();
    refused(&machine, Command::Force { lsn: 5, frequency: 1 }, 11, 5);
    refused(&machine, Command::Force { lsn: 5, frequency: 5 }, 11, 5);
    refused(&machine, Command::ReleaseAll, 11, 4);

    let mut machine = machine;
    ok(&mut machine, Command::Reserve { kind: 1, length: 0 });
    ok(&mut machine, Command::Complete { lsn: 6 });
    refused(&machine, Command::Force { lsn: 6, frequency: 1 }, 11, 5);
    // Kept and put off come first.
    assert!(ok(&mut machine, Command::Force { lsn: 2, frequency: 1 }).numbers("kept").is_some());
    assert!(ok(&mut machine, Command::Force { lsn: 6, frequency: 7 }).numbers("putoff").is_some());
    // A multiple of the frequency before the LSN asks for the whole stretch.
    refused(&machine, Command::Force { lsn: 6, frequency: 4 }, 11, 5);
}

// ---------------------------------------------------------------- 12 and 13: walking

/// The walk on this image is refused so, by next and by recover.
#[track_caller]
fn walk_refused(machine: &Machine, number: u64, lsn: u64, test: Option<RecordTest>) {
    let mut cursor = calls::open(&machine.image).unwrap();
    let refusal = loop {
        match calls::next(&machine.image, &cursor) {
            Ok(Next::Record { behind, .. }) => cursor = behind,
            Ok(Next::End { lsn }) => panic!("end at {lsn}"),
            Err(refusal) => break refusal,
        }
    };
    assert_eq!((refusal.number(), refusal.detail(), refusal.record_test()), (number, lsn, test));
    let at_record = but(machine, |machine| machine.cursor = cursor);
    refused_by(&at_record, Command::Next, number, lsn, test);
    refused_by(machine, Command::Recover, number, lsn, test);
    // Damage hides a short op buffer.
    let short = but(machine, |machine| machine.op_buffer.clear());
    refused_by(&short, Command::Recover, number, lsn, test);
}

/// Sets word 0 of the record at `position` and the check that fits it.
fn set_header(machine: &mut Machine, position: usize, lsn: u64, header: Header) {
    let ring = reference::layout::Ring::of_image(&machine.image).unwrap();
    machine.image[24 + position] = header.word();
    machine.image[25 + position] = lsn;
    let payload = ring.payload(&machine.image, position as u64, header.length.min(4_000));
    let check = reference::layout::record_check(header.length, header.kind, lsn, payload);
    machine.image[26 + position] = CheckWord { check, epoch: 1 }.word();
}

#[test]
fn refusal_12_damaged() {
    let machine = with_all_stages();
    // Record 3 is at position 10, its header is of length 12 and kind 43.
    let good = Header { length: 12, kind: 43, mark: MARK_COMMITTED };
    assert_eq!(machine.image[24 + 10], good.word());
    for (header, test) in [
        (Header { mark: 3, ..good }, RecordTest::Mark),
        (Header { mark: 65_535, ..good }, RecordTest::Mark),
        (Header { kind: 0, ..good }, RecordTest::Kind),
        (Header { length: 1_025, ..good }, RecordTest::Length),
        // used + size + 1 = C + 1
        (Header { length: 8 * (100 - 10 - 1 - 3) + 1, ..good }, RecordTest::Fit),
    ] {
        let changed = but(&machine, |machine| set_header(machine, 10, 3, header));
        walk_refused(&changed, 12, 3, Some(test));
    }
    for lsn in [0, 2, 4, u64::MAX] {
        let changed = but(&machine, |machine| set_header(machine, 10, lsn, good));
        walk_refused(&changed, 12, 3, Some(RecordTest::Lsn));
    }
    // One bit of the LSN, of the check, of the epoch (1 before, as the superline's) or of the payload.
    for (word, bits, test) in [
        (35, 0..64, RecordTest::Lsn),
        (36, 0..32, RecordTest::Check),
        (36, 32..64, RecordTest::Epoch),
        (37, 0..64, RecordTest::Check),
        (38, 0..32, RecordTest::Check),
    ] {
        for bit in bits {
            let changed = but(&machine, |machine| machine.image[word] ^= 1 << bit);
            walk_refused(&changed, 12, 3, Some(test));
        }
    }
    // One bit of the length, 12 before, or of the kind, 43 before.
    for bit in 0..48 {
        let test = match bit {
            0..=9 if 12 ^ (1 << bit) < 700 => RecordTest::Check, // 86 payload words are left
            0..=9 => RecordTest::Fit,
            10..=31 => RecordTest::Length,
            _ => RecordTest::Check,
        };
        let changed = but(&machine, |machine| machine.image[34] ^= 1 << bit);
        walk_refused(&changed, 12, 3, Some(test));
    }
    // Padding is not looked at.
    let padded = but(&machine, |machine| machine.image[38] |= 1 << 40);
    assert!(calls::walk(&padded.image).is_ok());
}

/// The three records walked have these epochs under the superline's; the walk ends, or is refused at this LSN by this test.
#[test]
fn refusal_12_epochs() {
    let mut machine = with_all_stages();
    ok(&mut machine, Command::Recover);
    ok(&mut machine, Command::Recover);
    // The superline's is 3 now; record 2 is released.
    for (epochs, damaged) in [
        ([0, 0, 0], None),
        ([0, 1, 1], None),
        ([0, 0, 3], None),
        ([1, 2, 3], None),
        ([3, 3, 3], None),
        ([1, 0, 1], Some(2)),
        ([0, 1, 0], Some(3)),
        ([2, 1, 2], Some(2)),
        ([1, 3, 2], Some(3)),
        ([4, 4, 4], Some(1)),
        ([0, 4, 4], Some(2)),
        ([3, 3, 4], Some(3)),
        ([0, MAX_EPOCH, 0], Some(2)),
    ] {
        let changed = but(&machine, |machine| {
            for (word, epoch) in [26, 31, 36].into_iter().zip(epochs) {
                let old = CheckWord::of_word(machine.image[word]);
                machine.image[word] = CheckWord { epoch, ..old }.word();
            }
        });
        match damaged {
            Some(lsn) => walk_refused(&changed, 12, lsn, Some(RecordTest::Epoch)),
            None => {
                let (records, end) = calls::walk(&changed.image).unwrap();
                assert!(records.iter().map(|record| record.epoch).eq(epochs));
                assert_eq!((end.last_epoch, end.superline_epoch), (epochs[2], 3));
                let mut recovered = changed;
                ok(&mut recovered, Command::Recover);
                let state = &recovered.state;
                assert!(state.live().map(|lsn| state.entry(lsn).epoch).eq(epochs));
            }
        }
        // A wrong check is found first, and hides a wrong epoch.
        let lsn = damaged.unwrap_or(3);
        let word = 21 + 5 * lsn as usize;
        let both = but(&machine, |machine| {
            for (word, epoch) in [26, 31, 36].into_iter().zip(epochs) {
                let old = CheckWord::of_word(machine.image[word]);
                machine.image[word] = CheckWord { epoch, ..old }.word();
            }
            machine.image[word] ^= 1;
        });
        walk_refused(&both, 12, lsn, Some(RecordTest::Check));
    }
}

#[test]
fn refusal_12_lsn_above_its_range() {
    let marked = but(&with_numbers(LSN_LIMIT, 1), |machine| {
        set_header(machine, 0, LSN_LIMIT, Header { length: 0, kind: 1, mark: MARK_COMMITTED });
    });
    walk_refused(&marked, 12, LSN_LIMIT, Some(RecordTest::Lsn));
    let (records, end) = calls::walk(&with_numbers(LSN_LIMIT, 1).image).unwrap();
    assert!(records.is_empty());
    assert_eq!(end.lsn, LSN_LIMIT);
}

#[test]
fn refusal_13_too_many() {
    let machine = full_table(1_000);
    assert_eq!(calls::walk(&machine.image).unwrap().0.len(), 256);
    let good = Header { length: 0, kind: 1, mark: MARK_COMMITTED };
    walk_refused(&but(&machine, |machine| set_header(machine, 768, 257, good)), 13, 257, None);
    // Before 12, but not before the end.
    walk_refused(&but(&machine, |machine| machine.image[24 + 768] = u64::MAX), 13, 257, None);
    let unmarked = but(&machine, |machine| machine.image[24 + 768] = u64::MAX >> 16);
    assert!(calls::walk(&unmarked.image).is_ok());
}

// ---------------------------------------------------------------- 14 and 15: room to answer

#[test]
fn refusal_14_output_short() {
    let machine = with_all_stages();
    refused(&machine, Command::Fetch { position: 0, length: 12, output: 11 }, 14, 0);
    refused(&machine, Command::Fetch { position: 0, length: 1, output: 0 }, 14, 0);
    ok(&mut machine.clone(), Command::Fetch { position: 0, length: 12, output: 12 });
}

#[test]
fn refusal_15_op_buffer_short() {
    let machine = with_all_stages();
    let mut calls = vec![
        (Command::Format, 11),
        (Command::Reserve { kind: 1, length: 8 }, 5),
        (Command::Copy { lsn: 5, offset: 7, bytes: vec![1, 2] }, 2),
        (Command::Complete { lsn: 5 }, 1),
        (Command::Force { lsn: 4, frequency: 1 }, 3),
        (Command::Release { lsn: 3 }, 1),
        (Command::Release { lsn: 1 }, 10),
        (Command::Recover, 11),
    ];
    for (call, op_count) in calls.drain(..) {
        exact_op_buffer(&machine, call, op_count);
    }
    exact_op_buffer(&full_table(769), Command::ReleaseAll, 9);
}

/// Refused with one word less than needed, done with just enough.
fn exact_op_buffer(machine: &Machine, call: Command, op_count: usize) {
    let needed = 3 * op_count;
    for words in [0, needed - 1] {
        let short = but(machine, |machine| machine.op_buffer.truncate(words));
        refused(&short, call.clone(), 15, needed as u64);
    }
    let mut exact = but(machine, |machine| machine.op_buffer.truncate(needed));
    assert_eq!(ok(&mut exact, call.clone()).ops.len(), op_count);
    // Behind the ops the buffer stays as it was.
    let mut roomy = but(machine, |machine| machine.op_buffer.fill(77));
    ok(&mut roomy, call);
    assert!(roomy.op_buffer[needed..].iter().all(|&word| word == 77));
}

#[test]
fn no_op_needs_no_op_buffer() {
    let machine = but(&with_all_stages(), |machine| machine.op_buffer.clear());
    ok(&mut machine.clone(), Command::Copy { lsn: 5, offset: 12, bytes: vec![] });
    ok(&mut machine.clone(), Command::Force { lsn: 2, frequency: 9 });
    ok(&mut machine.clone(), Command::Force { lsn: 5, frequency: 9 });
    let mut empty = but(&fresh(16), |machine| machine.op_buffer.clear());
    ok(&mut empty, Command::ReleaseAll);
}
