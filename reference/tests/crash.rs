//! The crash bench catches each short cut of document 01, and nothing without one.

use reference::crash::{crash_bench, Program, Report};
use reference::shortcut::Shortcut;
use std::path::PathBuf;
use std::time::Duration;

/// The seed of a history that fills the table.
const MANY_RECORDS: u64 = 175;
/// The seed of a history with records of four epochs or more in one image, 0 among them.
const SEVERAL_RUNS: u64 = 515;

fn bench(shortcut: Option<usize>, seed: u64, seconds: u64) -> Report {
    let mut args = vec!["replay".to_string()];
    if let Some(number) = shortcut {
        args.extend(["--shortcut".to_string(), number.to_string()]);
    }
    let program = Program { path: PathBuf::from(env!("CARGO_BIN_EXE_reference")), args };
    crash_bench(&program, seed, Duration::from_secs(seconds)).unwrap()
}

#[test]
fn no_failure_without_a_short_cut() {
    // Four seconds do for more than 100 images and 10 crashes in an append; on a busy machine other histories follow, for a
    // minute at most.
    let (mut images, mut append_crashes) = (0, 0);
    for round in 0..15 {
        let report = bench(None, 77 + 10_000 * round, 4);
        assert!(report.failure.is_none(), "{:?}", report.failure);
        images += report.images;
        append_crashes += report.append_crashes;
        if images > 100 && append_crashes > 10 {
            return;
        }
    }
    panic!("{images} images, {append_crashes} crashes in an append");
}

/// Records of several runs, and some from before slip 8, behind one another.
#[test]
fn records_of_several_epochs() {
    let report = bench(None, SEVERAL_RUNS, 1);
    assert!(report.failure.is_none(), "{:?}", report.failure);
    assert!(report.most_epochs >= 4, "{}", report.most_epochs);
    assert!(report.with_stored > 0);
}

/// The first history of this seed has many records.
#[test]
fn more_records_than_the_old_table_took() {
    let report = bench(None, MANY_RECORDS, 1);
    assert!(report.failure.is_none(), "{:?}", report.failure);
    assert_eq!(report.most_records, 256);
}

#[test]
fn each_short_cut_is_caught() {
    for number in 1..=Shortcut::ALL.len() {
        let report = bench(Some(number), 1, 60);
        let failure = report.failure.unwrap_or_else(|| panic!("short cut {number} passes"));
        // Its seed alone meets it again, in the same way.
        let again = bench(Some(number), failure.seed, 60);
        assert_eq!(again.histories, 1);
        assert_eq!(again.failure.unwrap().what, failure.what);
    }
}
