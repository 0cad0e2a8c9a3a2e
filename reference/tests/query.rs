//! The calls for the ordering program: on the images that are written word by word, on the worked image of docs/FORMAT.md, and where
//! the documents name a number.

use reference::c_calls::{all_images, ask};
use reference::example::example;
use reference::images::{self, SORTS};
use reference::query::{count, damage, epoch, kind, lsn, payload};
use reference::samples::{full_image, samples};
use std::collections::BTreeSet;

/// What a call can answer: 0 stands for a value, the others are refusals.
const REACHABLE: [(&str, &[u64]); 8] = [
    ("count", &[0, 1, 4, 12, 13]),
    ("damage", &[0, 1, 4, 13]),
    ("kind", &[0, 1, 4, 12, 13, 16]),
    ("lsn", &[0, 1, 4, 12, 13, 16]),
    ("epoch", &[0, 1, 4, 12, 13, 16]),
    ("payload", &[0, 1, 4, 12, 13, 14, 16]),
    ("list", &[0, 1, 4, 12, 13, 14]),
    ("payload_at", &[0, 1, 3, 14]),
];

/// What stands in an output before a call.
const OLD: u8 = 0xEE;

/// The payload call with an output of so many bytes: its result and the output.
fn payload_in(bytes: &[u8], index: u64, room: usize) -> (i64, Vec<u8>) {
    let mut output = vec![OLD; room];
    (payload(bytes, index, &mut output), output)
}

/// Each call gives this refusal and leaves the output.
fn assert_refused(name: &str, bytes: &[u8], index: u64, number: i64) {
    assert_eq!(kind(bytes, index), -number, "{name}");
    assert_eq!(lsn(bytes, index), -number, "{name}");
    assert_eq!(epoch(bytes, index), -number, "{name}");
    assert_eq!(payload_in(bytes, index, 1_100), (-number, vec![OLD; 1_100]), "{name}");
}

/// The four records of docs/FORMAT.md: LSN, kind, payload. All are of the first run.
const WORKED: [(i64, i64, &[u8]); 4] = [
    (1, 1, &[0x41, 0x20]),
    (2, 2, &[0x08, 0x70]),
    (3, 3, &[0x62, 0x05, 0x20, 0x41, 0x77, 0x33, 0x98, 0x12, 0x04]),
    (4, 1, &[0x41, 0x44]),
];

fn worked_image() -> Vec<u8> {
    let image = example().expect("no call is refused");
    image.iter().flat_map(|word| word.to_le_bytes()).collect()
}

#[test]
fn the_worked_image_has_its_records() {
    let bytes = worked_image();
    assert_eq!(count(&bytes), 4);
    for (index, (its_lsn, its_kind, its_payload)) in (0..).zip(WORKED) {
        assert_eq!(lsn(&bytes, index), its_lsn);
        assert_eq!(kind(&bytes, index), its_kind);
        assert_eq!(epoch(&bytes, index), 1);
        let length = its_payload.len();
        let (result, output) = payload_in(&bytes, index, length + 5);
        assert_eq!(result, length as i64);
        assert_eq!(output[..length], *its_payload);
        assert_eq!(output[length..], [OLD; 5]);
    }
}

#[test]
fn an_index_is_below_the_count_in_all_its_bits() {
    let bytes = worked_image();
    for index in [4, 5, 1 << 32, (1 << 32) + 1, 1 << 63, u64::MAX] {
        assert_refused("index", &bytes, index, 16);
        // 16 is tested before 14.
        assert_eq!(payload_in(&bytes, index, 0).0, -16);
    }
}

#[test]
fn an_output_is_short_below_the_length() {
    let bytes = worked_image();
    for room in [0, 1, 8] {
        assert_eq!(payload_in(&bytes, 2, room), (-14, vec![OLD; room]));
    }
    assert_eq!(payload_in(&bytes, 2, 9), (9, WORKED[2].2.to_vec()));
}

/// The text that loglist owes says what the calls owe.
#[test]
fn every_sample_is_answered_as_written() {
    for sample in samples() {
        let (name, bytes) = (&sample.name, &sample.bytes[..]);
        let lines: Vec<&str> = sample.text.lines().collect();
        let last: Vec<&str> = lines[lines.len() - 1].split(' ').collect();
        let refusal = match last[0] {
            "end" => None,
            "damaged" => Some(12),
            "toomany" => Some(13),
            _ => Some(last[1].parse().expect("a number")),
        };
        if let Some(number) = refusal {
            assert_eq!(count(bytes), -number, "{name}");
            for index in [0, 1, 64, u64::MAX] {
                assert_refused(name, bytes, index, number);
            }
            continue;
        }
        let records = &lines[1..lines.len() - 1];
        assert_eq!(count(bytes), records.len() as i64, "{name}");
        for (index, line) in (0..).zip(records) {
            let (result, output) = payload_in(bytes, index, 1_024);
            let pairs: String =
                output[..result as usize].iter().map(|byte| format!("{byte:02x}")).collect();
            let data = if pairs.is_empty() { "-" } else { &pairs };
            let found = format!("{} {} {result} {data}", lsn(bytes, index), kind(bytes, index));
            assert_eq!(found, *line, "{name}");
        }
        assert_refused(name, bytes, records.len() as u64, 16);
    }
}

/// Damage behind the record that is asked for refuses it too.
#[test]
fn damage_leaves_no_part_of_a_list() {
    let mut bytes = worked_image();
    // Word 40 is the payload of the last record.
    bytes[8 * 40] ^= 1;
    assert_eq!(count(&bytes), -12);
    assert_refused("damage", &bytes, 0, 12);
    // 12 is tested before 16.
    assert_refused("damage", &bytes, 9, 12);
}

#[test]
fn an_empty_payload_needs_no_room() {
    let all = samples();
    let sample = all.iter().find(|sample| sample.name == "empty-payload").expect("it is there");
    assert_eq!(payload_in(&sample.bytes, 0, 0), (0, vec![]));
}

#[test]
fn full_images_have_64_and_256() {
    for (records, length) in [(64, 991), (256, 223)] {
        let bytes = full_image(records);
        assert_eq!(bytes.len(), 8 * 8_192);
        assert_eq!(count(&bytes), records as i64);
        assert_eq!(lsn(&bytes, records - 1), records as i64);
        let owed = vec![(records - 1) as u8; length as usize];
        assert_eq!(payload_in(&bytes, records - 1, length as usize), (length, owed));
    }
}

/// What each sort of image owes to the counting call: a number, 1 for any value. Two of them where a sort has images of both.
#[test]
fn every_sort_of_image_is_what_its_name_says() {
    let owed = |name: &str| -> &[i64] {
        match name {
            "few records" | "some released" | "all released" | "old table's neighbours" => &[1],
            "more than the old table" | "nearly full table" | "full table" => &[1],
            "full image of 64" | "full image of 256" => &[1],
            "longest payload" | "last LSNs" | "padding set" => &[1],
            "epochs all 0" | "epochs all the superline's" => &[1],
            "too many" | "too many, the 257th damaged" => &[-13],
            // A bit may be padding, or one behind the end; and what just fits is no damage. Epochs that do not fall are none.
            "payload" | "fit" | "epochs mixed with 0" | "epoch, one bit" => &[1, -12],
            "selector" | "other copy" | "first word" | "capacity" | "head position" => &[-4],
            "head LSN" | "epoch" | "superline's check" | "noise" => &[-4],
            "empty" | "odd byte count" | "too short" | "too long" => &[-1],
            "a history's image" => &[1, -1, -4, -12, -13],
            _ => &[-12],
        }
    };
    for seed in 0..10 * SORTS.len() as u64 {
        let (name, bytes) = images::image(seed);
        let met = match count(&bytes) {
            0.. => 1,
            refused => refused,
        };
        assert!(owed(name).contains(&met), "seed {seed}, {name}: {met}");
    }
}

/// Images are damaged in each of the seven ways, and the counting call says no more than 12 of them.
#[test]
fn every_test_is_named() {
    let mut named = BTreeSet::new();
    for (_, name, bytes) in all_images(1, SORTS.len() as u64) {
        let test = damage(&bytes);
        assert_eq!(test > 0, count(&bytes) == -12, "{name}");
        assert_eq!(test == 0, count(&bytes) >= 0, "{name}");
        named.insert(test.max(0));
    }
    assert_eq!(named, (0..=7).collect());
}

/// The sorts whose name says that an epoch is wrong are stopped by that test, and by the check if that is wrong too.
#[test]
fn wrong_epochs_are_named() {
    for seed in 0..20 * SORTS.len() as u64 {
        let (name, bytes) = images::image(seed);
        let owed: &[i64] = match name {
            "epoch falls" | "epoch passes the superline's" => &[7],
            "epoch of a released record" | "epoch, the superline's too low" => &[7],
            "epoch and check" => &[6],
            "epochs mixed with 0" | "epoch, one bit" => &[0, 7],
            _ => continue,
        };
        assert!(owed.contains(&damage(&bytes)), "seed {seed}, {name}");
    }
}

/// The epochs that were written, in the order of the listed records.
#[test]
fn epochs_by_index() {
    let all = samples();
    let epochs = |name: &str| -> Vec<i64> {
        let name = format!("epochs-{name}");
        let sample = all.iter().find(|sample| sample.name == name).expect("it is there");
        (0..count(&sample.bytes)).map(|index| epoch(&sample.bytes, index as u64)).collect()
    };
    assert_eq!(epochs("all-zero"), [0, 0, 0, 0]);
    assert_eq!(epochs("zero-first"), [0, 0, 2, 3]);
    assert_eq!(epochs("rise"), [1, 4, 5, 8]);
    assert_eq!(epochs("largest"), [0, 1, (1 << 32) - 2, (1 << 32) - 1]);
    // Without the released ones, which have 1 and 2.
    assert_eq!(epochs("released-fine"), [2, 3]);
    assert_eq!(epochs("fall-by-one"), []);
}

/// As many seeds as there are sorts meet, with the samples, every answer of every call and no other.
#[test]
fn every_answer_of_every_call_is_asked_for() {
    let mut met = BTreeSet::new();
    for (seed, _, bytes) in all_images(1, SORTS.len() as u64) {
        met.extend(ask(seed, &bytes).answers);
    }
    let owed = REACHABLE.iter().flat_map(|(call, all)| all.iter().map(|answer| (*call, *answer)));
    assert_eq!(met, owed.collect());
}
