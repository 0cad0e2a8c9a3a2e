//! The test program's script format, and what the generated scripts reach.

use reference::calls::{self, Cursor};
use reference::cover::Coverage;
use reference::gen::script;
use reference::layout::{CheckWord, Ring, TABLE_SIZE};
use reference::refusal::Refusal;
use reference::replay::{replay, Machine};
use reference::script::{Command, Parsed};
use reference::state::{Entry, Stage, State};
use std::collections::BTreeMap;

fn run(bytes: &[u8]) -> String {
    let mut output = Vec::new();
    replay(bytes, &mut output, None).unwrap();
    String::from_utf8(output).unwrap()
}

fn run_words(words: &[u64]) -> String {
    run(&words.iter().flat_map(|word| word.to_le_bytes()).collect::<Vec<u8>>())
}

#[test]
fn a_small_script() {
    // Image of 40 words, op buffer of 33, format, state, some words.
    let output = run_words(&[1, 40, 0, 3, 33, 0, 10, 31, 30, 0, 3, 30, 38, 9, 30, 40, 1, 20, 21]);
    let lines: Vec<&str> = output.lines().collect();
    assert!(lines[0]
        .starts_with("format ok orders 11 s 8 4294967336 s 9 16 s 10 0 s 11 1 s 12 1 s 13 "));
    assert_eq!(lines[1], "state 16 0 1 0 1 0 0 1");
    assert_eq!(lines[2..5], ["words 0 0 0", "words 0 0", "words"]);
    assert!(lines[5].starts_with("open ok 0 1 0 0 0 1 = "));
    assert!(lines[6].starts_with("next end 1 = "));
    assert_eq!(lines.len(), 7);
}

#[test]
fn digests() {
    // No words at all: 7 each for image and op buffer. The state: all zeros.
    let zeros = (0..8 + 5 * TABLE_SIZE).fold(7_u64, |hash, _| hash * 31 % 2_147_483_647);
    assert_eq!(run_words(&[10]), format!("format refused 1 0 orders 0 = 7 7 {zeros}\n"));
    let output = (0..2).fold(7_u64, |hash, _| hash * 31 + 238);
    assert_eq!(run_words(&[22, 0, 0, 2]), format!("fetch refused 1 0 = 7 7 {zeros} {output}\n"));
    let big = 7 * 31 + u64::MAX % 2_147_483_647; // below the prime already
    assert_eq!(run_words(&[1, 1, u64::MAX, 20]), format!("open refused 1 0 = {big} 7 {zeros}\n"));
}

#[test]
fn states_by_field_and_entry() {
    let output = run_words(&[
        4, 0, 5, 4, 7, 6, 4, 8, 9, 5, 258, 65_537, 2, 3, 4, 9, 5, 3, 1, 1, 1, 5, 9, 31,
    ]);
    assert_eq!(output, "state 5 0 0 0 0 0 0 6 [2 1 2 3 4 9]\n");
    // 66 and 255 are entries of their own. An epoch has 32 bits.
    let output = run_words(&[5, 66, 1, 2, 3, 4, u64::MAX, 5, 255, 1, 1, 1, 1, 1 << 32, 31]);
    assert_eq!(output, "state 0 0 0 0 0 0 0 0 [66 1 2 3 4 4294967295] [255 1 1 1 1 0]\n");
}

/// The digest goes over place, length, kind, stage and epoch, of an entry that is not printed too.
#[test]
fn digests_of_entries() {
    let mut values = vec![0; 8 + 5 * TABLE_SIZE];
    values[8 + 5 * 3..][..5].copy_from_slice(&[1, 2, 3, 0, 7]);
    values[8 + 5 * 4..][..5].copy_from_slice(&[5, 6, 7, 2, 9]);
    let digest = values.iter().fold(7_u64, |hash, value| (hash * 31 + value) % 2_147_483_647);
    let output = run_words(&[5, 3, 1, 2, 3, 5, 7, 5, 4, 5, 6, 7, 2, 9, 20]);
    assert_eq!(output, format!("open refused 1 0 = 7 7 {digest}\n"));
}

#[test]
fn cursors_have_six_numbers() {
    // Image of 40 words of 0, so that every place is the end.
    let at = |cursor: [u64; 6]| {
        let mut words = vec![1, 40, 0, 6];
        words.extend(cursor);
        words.push(21);
        run_words(&words).split(" = ").next().unwrap().to_string()
    };
    assert_eq!(at([3, 9, 0, 0, 0, 0]), "next end 9");
    assert_eq!(at([3, 9, 0, 0, 5, 5]), "next end 9");
    assert_eq!(at([3, 9, 0, 0, u64::MAX, u64::MAX]), "next end 9");
    assert_eq!(at([3, 9, 0, 0, 6, 5]), "next refused 2 0");
    assert_eq!(at([3, 9, 0, 0, u64::MAX, 0]), "next refused 2 0");
    // Cut off within the six.
    assert_eq!(run_words(&[6, 3, 9, 0, 0, 0]), "");
}

#[test]
fn ends_of_scripts() {
    let state = "state 0 0 0 0 0 0 0 0\n";
    assert_eq!(run_words(&[]), "");
    assert_eq!(run_words(&[31, 0, 31]), state);
    for word in [7, 19, 23, 32, u64::MAX] {
        assert_eq!(run_words(&[31, word, 31]), format!("{state}bad {word}\n"));
    }
    // Limits.
    assert_eq!(run_words(&[1, 9_001, 0, 31]), "bad 1\n");
    assert_eq!(run_words(&[3, 26_001, 0, 31]), "bad 3\n");
    assert_eq!(run_words(&[12, 0, 0, 2_049]), "bad 12\n");
    assert_eq!(run_words(&[18, 0, 0, 2_049]), "bad 18\n");
    assert_eq!(run_words(&[22, 0, 0, u64::MAX]), "bad 22\n");
    assert_eq!(run_words(&[1, 9_000, 0, 3, 26_000, 0, 31]), state);
    // Cut off: within the arguments, even if the limit is passed; within the data; within a word.
    assert_eq!(run_words(&[31, 1, 9_001]), state);
    assert_eq!(run_words(&[31, 12, 1, 0, 9, 5]), state);
    assert_eq!(run_words(&[31, 18, 1, 1, 9, 5]), state);
    assert_eq!(run(&[31, 0, 0, 0, 0, 0, 0, 0, 31, 0, 0]), state);
}

#[test]
fn scripts_are_repeatable() {
    for seed in [0, 1, u64::MAX] {
        assert_eq!(script(seed), script(seed));
    }
    assert_ne!(script(1), script(2));
}

/// More live records than the old table took, full tables, and live records that go round the end of the table.
#[test]
fn scripts_reach_many_live_records() {
    let (mut many, mut full, mut round) = (0, 0, 0);
    for seed in 1..=300 {
        let bytes = script(seed);
        let mut words =
            bytes.chunks_exact(8).map(|word| u64::from_le_bytes(word.try_into().unwrap()));
        let mut machine = Machine::default();
        let (mut most, mut goes_round) = (0, false);
        while let Parsed::Command(command) = Command::parse(&mut words) {
            machine.run(&command);
            let state = &machine.state;
            if matches!(command, Command::Reserve { .. } | Command::Release { .. })
                && state.is_sound()
            {
                let live = state.next_lsn - state.head_lsn;
                most = most.max(live);
                let table_size = TABLE_SIZE as u64;
                goes_round |= live > 64 && state.head_lsn % table_size + live > table_size;
            }
        }
        many += usize::from(most > 64);
        full += usize::from(most == 256);
        round += usize::from(goes_round);
    }
    assert!(many >= 30 && full >= 10 && round >= 10, "{many} {full} {round}");
}

#[test]
fn scripts_reach_every_refusal() {
    let coverage = Coverage::of_scripts(1, 300);
    assert_eq!(coverage.uncovered(), []);
    assert_eq!(coverage.uncovered_tests(), []);
    assert_eq!(coverage.uncovered_appends(), [""; 0]);
    assert_eq!(coverage.unexpected(), []);
}

/// States that are not sound for an epoch alone, cursors of which only the epochs are wrong, and walks that an epoch stops or does not,
/// each in every way.
#[test]
fn scripts_reach_every_sort_of_epoch() {
    let mut met = BTreeMap::new();
    let mut meet = |what: &'static str, met_now: bool| {
        if met_now {
            *met.entry(what).or_insert(0) += 1;
        }
    };
    for seed in 1..=300 {
        let bytes = script(seed);
        let mut words =
            bytes.chunks_exact(8).map(|word| u64::from_le_bytes(word.try_into().unwrap()));
        let mut machine = Machine::default();
        while let Parsed::Command(command) = Command::parse(&mut words) {
            let (before, cursor) = (machine.state.clone(), machine.cursor);
            let line = machine.run(&command).unwrap_or_default();
            match command {
                Command::Copy { .. } | Command::Complete { .. } | Command::Force { .. } => {
                    let live: Vec<Entry> =
                        before.live().take(256).map(|k| *before.entry(k)).collect();
                    if line.contains(" refused 2 ") {
                        let without = State { table: before.table.map(without_epoch), ..before };
                        let for_epochs = without.is_sound();
                        let above = live.iter().any(|entry| entry.epoch > before.epoch);
                        let open = |entry: &Entry| entry.stage == Stage::Open && entry.epoch != 0;
                        let free = |entry: &Entry| entry.stage == Stage::Free && entry.epoch != 0;
                        let open = live.iter().any(open);
                        meet("above the state's", for_epochs && above && !open);
                        meet("open with one", for_epochs && open && !above);
                        meet("free with one", for_epochs && before.table.iter().any(free));
                    } else if before.is_sound() {
                        meet(
                            "falls in a sound state",
                            live.windows(2).any(|pair| {
                                pair[0].epoch > pair[1].epoch && pair[1].stage != Stage::Open
                            }),
                        );
                        meet(
                            "the state's own",
                            live.iter().any(|entry| entry.epoch == before.epoch),
                        );
                        meet(
                            "complete without one",
                            live.iter()
                                .any(|entry| entry.stage == Stage::Complete && entry.epoch == 0),
                        );
                    }
                }
                Command::Next => {
                    let Cursor { last_epoch: last, superline_epoch: most, .. } = cursor;
                    let sound = Cursor { last_epoch: 0, superline_epoch: 0, ..cursor };
                    let others = calls::next(&machine.image, &sound);
                    let bounds =
                        others != Err(Refusal::Unsound) && others != Err(Refusal::ImageSize);
                    meet("cursor's last above", bounds && line.contains(" refused 2 "));
                    let answered = bounds && !line.contains(" refused 2 ");
                    meet("cursor's last equal", answered && last == most && last > 0);
                    meet("cursor's superline 0", answered && most == 0);
                    meet("cursor's superline above 2^32", answered && most > 1 << 32);
                    if line.contains(" epoch = ") {
                        let ring = Ring::of_image(&machine.image).unwrap();
                        let word = ring.read(&machine.image, cursor.position, 2);
                        let CheckWord { epoch, .. } = CheckWord::of_word(word);
                        meet("falls", epoch < last && epoch > 0);
                        meet("0 behind others", epoch < last && epoch == 0);
                        meet("passes", epoch > most);
                    } else if line.starts_with("next record ") {
                        let epoch = machine.cursor.last_epoch;
                        meet("0 before others", epoch == 0);
                        meet("rises from 0", last == 0 && epoch > 0 && cursor.count > 0);
                        meet("rises", 0 < last && last < epoch);
                        meet("is the last", last == epoch && epoch > 0);
                        meet("is the superline's", epoch == most);
                        meet("is below the superline's", epoch < most && epoch > 0);
                    }
                }
                _ => {}
            }
        }
    }
    assert_eq!(met.len(), 19, "{met:?}");
    assert!(met.values().all(|&times| times >= 3), "{met:?}");
}

fn without_epoch(entry: Entry) -> Entry {
    Entry { epoch: 0, ..entry }
}
