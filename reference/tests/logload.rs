//! Loading a listing: each refusal and its order, an image word by word, the round trip, and the plain loader beside the clear one.

use reference::calls;
use reference::images::{image, SORTS};
use reference::load::{all_texts, CHANGES};
use reference::loglist::loglist;
use reference::logload::{logload, output};
use reference::plain;
use reference::query;
use reference::refusal::Refusal;
use reference::samples::{full_image, samples};
use std::collections::BTreeSet;
use std::fs;
use std::path::Path;

const HEADING: &str = "lsn kind length data\n";

/// The number of the refusal of a text, 0 if it is granted; the plain loader has the same.
fn answer(text: impl AsRef<[u8]>) -> u64 {
    let text = text.as_ref();
    let clear = logload(text);
    let mut image = [7; 8_192];
    let plain = plain::load(text, &mut image).map(|()| image.to_vec());
    assert!(clear == plain, "the plain loader differs");
    clear.map_or_else(Refusal::number, |_| 0)
}

/// The answer to the heading and these lines.
fn lines(lines: &str) -> u64 {
    answer(format!("{HEADING}{lines}"))
}

/// Record lines with these numbers of payload bytes, from this LSN on.
fn records(first_lsn: u64, lengths: &[u64]) -> String {
    let line = |(lsn, length): (u64, &u64)| match length {
        0 => format!("{lsn} 7 0 -\n"),
        _ => format!("{lsn} 7 {length} {}\n", "c3".repeat(*length as usize)),
    };
    (first_lsn..).zip(lengths).map(line).collect()
}

// ---------------------------------------------------------------- refusals

#[test]
fn numbers_of_the_refusals() {
    assert_eq!((Refusal::BadLine.number(), Refusal::BadLine.detail()), (17, 0));
    assert_eq!((Refusal::NotNext.number(), Refusal::NotNext.detail()), (18, 0));
    assert_eq!(output(b""), b"refused 17\n");
    assert_eq!(output(format!("{HEADING}1 1 0 -\nend 3\n").as_bytes()), b"refused 18\n");
}

#[test]
fn the_heading() {
    for text in ["", "\n", "lsn kind length data", "LSN kind length data\nend 1\n", "end 1\n"] {
        assert_eq!(answer(text), 17, "{text:?}");
    }
    for text in ["lsn kind length data \nend 1\n", "lsn kind length data\r\nend 1\n", "refused 4\n"]
    {
        assert_eq!(answer(text), 17, "{text:?}");
    }
    assert_eq!(lines(&format!("{HEADING}end 1\n")), 17);
    assert_eq!(lines("end 1\n"), 0);
}

/// 7.1 and 7.2: what parts lines and fields.
#[test]
fn lines_and_fields() {
    assert_eq!(lines("4 5 1 0a\nend 5\n"), 0);
    for line in [
        "4 5 1 0a\r\n",
        "4 5 1 0a\0\n",
        "4 5 1 0a \n",
        " 4 5 1 0a\n",
        "4  5 1 0a\n",
        "4\t5 1 0a\n",
        "4 5 1  0a\n",
        "4 5 1\n",
        "4 5 1 \n",
        "4 5 1 0a 0\n",
        "\n",
    ] {
        assert_eq!(lines(&format!("{line}end 5\n")), 17, "{line:?}");
    }
    assert_eq!(lines("4 5 1 0a\nend 5\r\n"), 17);
}

/// 7.3 to 7.5: numbers of any length, and their ranges.
#[test]
fn numbers() {
    let thirty = "1".repeat(30);
    let above_64_bits = "18446744073709551620"; // 2^64 + 4
    for lsn in ["0", "00", "04", "+4", "-4", "", "x", "4611686018427387904", "4611686018427387905"]
    {
        assert_eq!(lines(&format!("{lsn} 5 1 0a\nend 5\n")), 17, "LSN {lsn}");
    }
    for lsn in [&thirty, above_64_bits] {
        assert_eq!(lines(&format!("{lsn} 5 1 0a\nend 5\n")), 17, "LSN {lsn}");
        // 17 and not 18, also where it is not the next one.
        assert_eq!(lines(&format!("3 5 1 0a\n{lsn} 5 1 0a\nend 5\n")), 17, "LSN {lsn}");
        assert_eq!(lines(&format!("4 {lsn} 1 0a\nend 5\n")), 3, "kind {lsn}");
        assert_eq!(lines(&format!("4 5 {lsn} 0a\nend 5\n")), 17, "L {lsn}");
        assert_eq!(lines(&format!("4 5 1 0a\nend {lsn}\n")), 17, "end {lsn}");
    }
    for kind in ["0", "65536", "65541", "4294967301", "18446744073709551621"] {
        assert_eq!(lines(&format!("4 {kind} 1 0a\nend 5\n")), 3, "kind {kind}");
    }
    for kind in ["1", "65535"] {
        assert_eq!(lines(&format!("4 {kind} 1 0a\nend 5\n")), 0, "kind {kind}");
    }
    for kind in ["", "00", "05", "+5", "-5", "5a"] {
        assert_eq!(lines(&format!("4 {kind} 1 0a\nend 5\n")), 17, "kind {kind}");
    }
    for end in ["0", "05", "+5", "", "4611686018427387905", "18446744073709551621"] {
        assert_eq!(lines(&format!("4 5 1 0a\nend {end}\n")), 17, "end {end}");
        assert_eq!(lines(&format!("end {end}\n")), 17, "end {end}");
    }
}

/// 7.7 and 7.8: exactly L pairs, judged before L's range.
#[test]
fn data() {
    for (length, data) in [(0, "-"), (1, "00"), (1, "ff"), (9, "0123456789abcdefff"), (3, "414243")]
    {
        assert_eq!(lines(&format!("4 5 {length} {data}\nend 5\n")), 0, "{length} {data}");
    }
    for (length, data) in [
        (0, ""),
        (0, "00"),
        (0, "--"),
        (1, "-"),
        (1, ""),
        (1, "0"),
        (1, "000"),
        (1, "0000"),
        (2, "00"),
        (1, "0A"),
        (1, "0g"),
        (1, "0/"),
        (1, "0:"),
        (1, "0`"),
    ] {
        assert_eq!(lines(&format!("4 5 {length} {data}\nend 5\n")), 17, "{length} {data}");
    }
    for (length, pairs, due) in [
        (1_024, 1_024, 0),
        (1_024, 1_025, 17),
        (1_024, 1_023, 17),
        (1_025, 1_025, 3),
        (1_025, 1_024, 17),
        (1_025, 1_026, 17),
        (130_000, 130_000, 3),
        (200_000, 1_024, 17),
    ] {
        let text = format!("4 5 {length} {}\nend 5\n", "5f".repeat(pairs));
        assert_eq!(lines(&text), due, "{length} {pairs}");
    }
    // L's low 32 bits or 64 bits are right.
    for length in ["4294967297", "18446744073709551617"] {
        assert_eq!(lines(&format!("4 5 {length} 0a\nend 5\n")), 17);
    }
}

/// 7.6 and 7.9: the end line, its line feed, other last lines.
#[test]
fn last_lines() {
    let one = "4 5 1 0a\n";
    for (last, due) in [
        ("end 5\n", 0),
        ("end 5", 17),
        ("end 6", 17),
        ("", 17),
        ("damaged 5 check\n", 17),
        ("toomany 5\n", 17),
        ("refused 4\n", 17),
        ("end\n", 17),
        ("end 5 \n", 17),
        ("END 5\n", 17),
        ("end 4\n", 18),
        ("end 6\n", 18),
        ("5 5 1 0a", 17),
        ("5 5 1 0a\n", 17),
        ("6 0 1 0a", 17),
        ("5 0 1 0a", 17),
    ] {
        assert_eq!(lines(&format!("{one}{last}")), due, "{last:?}");
    }
}

/// 7.10: 262,144 bytes are judged line by line.
#[test]
fn sizes() {
    for (text, due) in [("2 0 0 -\n", 3), ("2 1 0 -\n2 1 0 -\n", 18), ("2 1 0 -\nend 4\n", 18)] {
        let mut text = format!("{HEADING}{text}").into_bytes();
        text.resize(262_144, b'x');
        assert_eq!(answer(&text), due);
        text.push(b'x');
        assert_eq!(answer(&text), 17);
    }
    let mut text = format!("{HEADING}2 1").into_bytes();
    text.resize(262_144 - 5, b'0');
    text.extend(b" 0 -\n");
    assert_eq!(answer(&text), 3);
    text.insert(HEADING.len() + 2, b'1');
    assert_eq!(answer(&text), 17);
}

/// 7.11 and 7.12: the first line that meets a refusal decides, and in a line the first of 17, 18, 3, 9, 10.
#[test]
fn order_of_the_refusals() {
    // 256 records that leave no room: 54 * 131 + 201 * 5 + 88 words are 8,167.
    let full = records(5, &[&[1_024; 54][..], &[16; 201], &[680]].concat());
    assert_eq!(lines(&format!("{full}end 261\n")), 0);
    for (line, due) in [
        ("0261 0 0 -", 17),
        ("262 0 0 -", 18),
        ("261 0 0 -", 3),
        ("261 1 0 -", 9),
        ("262 65536 1 0A", 17),
    ] {
        assert_eq!(lines(&format!("{full}{line}\nend 262\n")), due, "{line}");
        // Behind it nothing is looked at.
        assert_eq!(lines(&format!("{full}{line}\nx\0")), due, "{line}");
        // Without its line feed it is not in the form.
        assert_eq!(lines(&format!("{full}{line}")), 17, "{line}");
    }
    // A wrong digit is 17 in a line that is refused anyway, too.
    for (line, due) in [("262 1 2 0a0", 18), ("261 0 2 0a0", 3), ("261 1 2 0a0", 9)] {
        assert_eq!(lines(&format!("{full}{line}a\n")), due, "{line}");
        assert_eq!(lines(&format!("{full}{line}A\n")), 17, "{line}");
    }
    let room = records(5, &[&[1_024; 62][..], &[336]].concat());
    assert_eq!(lines(&format!("{room}68 1 2 0a0a\n")), 10);
    assert_eq!(lines(&format!("{room}68 1 2 0a0A\n")), 17);
    let table = records(5, &[0; 256]);
    assert_eq!(lines(&format!("{table}end 261\n")), 0);
    assert_eq!(lines(&format!("{table}261 1 0 -\nend 262\n")), 9);
    // A line before it decides.
    assert_eq!(lines("2 1 0 -\n3 0 0 -\n9 1 0 -\nx\n"), 3);
    assert_eq!(lines("2 1 0 -\n9 1 0 -\n3 0 0 -\nx\n"), 18);
    assert_eq!(lines("2 1 0 -\nx\n9 1 0 -\n3 0 0 -\n"), 17);
}

/// 7.12: 8,167 words fit, 8,168 do not.
#[test]
fn room() {
    // 62 * 131 = 8,122 words, and 45 for 336 bytes.
    for (last, due) in [(328, 0), (336, 0), (337, 10), (1_024, 10)] {
        let text = records(1, &[&[1_024; 62][..], &[last]].concat());
        assert_eq!(lines(&format!("{text}end 64\n")), due, "{last}");
    }
    for (rest, due) in [(&[312, 0][..], 0), (&[313, 0], 10), (&[320, 0], 10), (&[336, 0], 10)] {
        let text = records(1, &[&[1_024; 62][..], rest].concat());
        assert_eq!(lines(&format!("{text}end 65\n")), due, "{rest:?}");
    }
    let text = records(1, &[&[232; 231][..], &[224; 25]].concat());
    assert_eq!(lines(&format!("{text}end 257\n")), 0);
    let text = records(1, &[&[232; 231][..], &[224; 24], &[225]].concat());
    assert_eq!(lines(&format!("{text}end 257\n")), 10);
}

/// 7.13: the end line meets 17 and 18 only, what is behind it comes last.
#[test]
fn behind_the_end() {
    for behind in ["\n", "\0", " ", "x", "end 5\n", "5 5 1 0a\nend 6\n"] {
        assert_eq!(lines(&format!("4 5 1 0a\nend 5\n{behind}")), 17, "{behind:?}");
        assert_eq!(lines(&format!("4 5 1 0a\nend 6\n{behind}")), 18, "{behind:?}");
        assert_eq!(lines(&format!("end 6\n{behind}")), 17, "{behind:?}");
    }
}

/// 7.14: the last LSNs there are.
#[test]
fn last_lsns() {
    assert_eq!(lines("end 4611686018427387904\n"), 0);
    assert_eq!(lines("end 4611686018427387905\n"), 17);
    assert_eq!(lines("4611686018427387903 1 0 -\nend 4611686018427387904\n"), 0);
    assert_eq!(lines("4611686018427387903 1 0 -\nend 4611686018427387903\n"), 18);
    assert_eq!(lines("4611686018427387903 1 0 -\n4611686018427387904 1 0 -\n"), 17);
    assert_eq!(lines("4611686018427387904 1 0 -\nend 4611686018427387905\n"), 17);
}

/// 7.15: the listing of an image with a released record is granted only if that is at its head.
#[test]
fn released_records() {
    for (name, due) in
        [("released-head", 0), ("released-middle", 18), ("all-released", 0), ("none", 0)]
    {
        let sample = samples().into_iter().find(|sample| sample.name == name).expect(name);
        assert_eq!(answer(&sample.text), due, "{name}");
    }
    assert_eq!(lines("4 1 0 -\nend 6\n"), 18);
    assert_eq!(lines("4 1 0 -\n6 1 0 -\nend 7\n"), 18);
}

// ---------------------------------------------------------------- the image

/// CRC-32 of ITU-T V.42 by its bits, once more.
fn crc(bytes: &[u8]) -> u64 {
    let mut register = 0xFFFF_FFFF_u64;
    for bit in bytes.iter().flat_map(|byte| (0..8).map(move |i| u64::from(byte >> i & 1))) {
        let low = (register ^ bit) & 1;
        register = register >> 1 ^ low * 0xEDB8_8320;
    }
    register ^ 0xFFFF_FFFF
}

/// The words that document 01 gives records 41 to 43 of kinds 17, 600 and 65,535, and no other.
#[test]
fn word_by_word() {
    assert_eq!(crc(b"123456789"), 0xCBF4_3926);
    let text = "41 17 0 -\n42 600 3 414243\n43 65535 9 00112233445566778f\nend 44\n";
    let mut due = vec![0u64; 8_192];
    // Copy 0: length 40 and kind 1, capacity, head position, head LSN, epoch, check.
    due[8] = 4_294_967_336;
    due[9] = 8_168;
    due[11] = 41;
    due[12] = 1;
    let first_40_bytes: Vec<u8> = due[8..13].iter().flat_map(|word| word.to_le_bytes()).collect();
    due[13] = crc(&first_40_bytes);
    // Record 41: three words.
    due[24] = 17 << 32 | 1 << 48;
    due[25] = 41;
    due[26] = crc(&[0, 0, 0, 0, 17, 0, 41, 0, 0, 0, 0, 0, 0, 0]);
    // Record 42: four words; 600 is 258 hex.
    due[27] = 3 | 600 << 32 | 1 << 48;
    due[28] = 42;
    due[29] = crc(&[3, 0, 0, 0, 0x58, 2, 42, 0, 0, 0, 0, 0, 0, 0, 0x41, 0x42, 0x43]);
    due[30] = 0x43_4241;
    // Record 43: five words.
    let payload = [0x00, 0x11, 0x22, 0x33, 0x44, 0x55, 0x66, 0x77, 0x8f];
    due[31] = 9 | 65_535 << 32 | 1 << 48;
    due[32] = 43;
    let numbers = [9, 0, 0, 0, 0xff, 0xff, 43, 0, 0, 0, 0, 0, 0, 0];
    due[33] = crc(&[&numbers[..], &payload].concat());
    due[34] = 0x7766_5544_3322_1100;
    due[35] = 0x8f;
    let text = format!("{HEADING}{text}");
    assert_eq!(logload(text.as_bytes()), Ok(due.clone()));
    let bytes: Vec<u8> = due.iter().flat_map(|word| word.to_le_bytes()).collect();
    assert_eq!(output(text.as_bytes()), bytes);
    assert_eq!(loglist(&bytes), text);
    assert_eq!(answer(&text), 0);
}

/// Loaded records have epoch 0 whatever the listed ones had, and those that are written behind them have the epoch of a later run.
#[test]
fn loaded_records_have_no_epoch() {
    let bytes = full_image(64);
    assert_eq!(query::epoch(&bytes, 63), 2);
    let text = loglist(&bytes);
    let mut image = logload(text.as_bytes()).unwrap();
    let mut ops = vec![0; 40];
    let mut state = calls::recover(&mut image, &mut ops).unwrap().answer;
    assert!(state.table.iter().all(|entry| entry.epoch == 0));
    calls::release(&mut image, &mut ops, &mut state, 1).unwrap();
    calls::reserve(&mut image, &mut ops, &mut state, 9, 0).unwrap();
    calls::complete(&mut image, &mut ops, &mut state, 65).unwrap();
    calls::force(&mut image, &mut ops, &mut state, 65, 1).unwrap();
    let bytes: Vec<u8> = image.iter().flat_map(|word| word.to_le_bytes()).collect();
    let epochs: Vec<i64> = (0..64).map(|index| query::epoch(&bytes, index)).collect();
    assert_eq!(epochs[..63], [0; 63]);
    assert_eq!(epochs[63], 2);
}

/// The head LSN is the one on the end line if there is no record.
#[test]
fn an_empty_listing() {
    let image = logload(format!("{HEADING}end 77\n").as_bytes()).expect("granted");
    let mut due = vec![0u64; 8_192];
    due[8..13].copy_from_slice(&[40 | 1 << 32, 8_168, 0, 77, 1]);
    due[13] = image[13];
    assert_eq!(image, due);
    assert_ne!(image[13], 0);
}

// ---------------------------------------------------------------- many texts

/// Whether a listing closes with an end line and leaves no record out behind the first.
fn has_no_gap(text: &str) -> bool {
    let lines: Vec<&str> = text.lines().collect();
    let [_, records @ .., last] = &lines[..] else { return false };
    let Some(end) = last.strip_prefix("end ") else { return false };
    let lsns = records.iter().map(|line| line.split(' ').next().expect("an LSN")).chain([end]);
    let lsns: Vec<u64> = lsns.map(|lsn| lsn.parse().expect("a number")).collect();
    lsns.windows(2).all(|pair| pair[1] == pair[0] + 1)
}

/// A granted text is the listing of its image, and refusals come as they should for listings of images.
#[test]
fn round_trip() {
    let images = (0..4 * SORTS.len() as u64).map(|seed| image(seed).1);
    let written = samples().into_iter().map(|sample| sample.bytes);
    let (mut granted, mut gaps) = (0, 0);
    for bytes in images.chain(written).chain([full_image(64), full_image(256)]) {
        let text = loglist(&bytes);
        let answer = answer(&text);
        if has_no_gap(&text) {
            assert_eq!(answer, 0);
            granted += 1;
        } else if text.starts_with("lsn") && text.contains("end ") {
            assert_eq!(answer, 18);
            gaps += 1;
        } else {
            assert!(answer == 17 || answer == 18);
        }
    }
    assert!(granted > 40 && gaps > 10, "{granted} granted, {gaps} with gaps");
}

/// 60 seeds meet every refusal and every change; each granted text is what its image lists; the plain loader agrees on all.
#[test]
fn generated_texts() {
    let mut met = BTreeSet::new();
    let mut names = BTreeSet::new();
    let (mut granted, mut granted_of_seeds) = (0, 0);
    for text in all_texts(1, 60) {
        let answer = answer(&text.bytes);
        met.insert(answer);
        if answer == 0 {
            assert!(loglist(&output(&text.bytes)).as_bytes() == text.bytes, "{}", text.name);
            granted += 1;
            granted_of_seeds += u64::from(text.seed != 0);
        }
        names.insert(text.name);
    }
    assert_eq!(met, BTreeSet::from([0, 3, 9, 10, 17, 18]));
    assert!(granted > 200 && granted_of_seeds > 100, "{granted}, {granted_of_seeds}");
    for (name, _) in CHANGES {
        assert!(names.contains(name), "{name}");
    }
}

/// What is stored for the proved program is what ours makes.
#[test]
fn stored_sample() {
    let folder = Path::new(env!("CARGO_MANIFEST_DIR")).join("../crates/logload");
    let text = fs::read(folder.join("stdin")).expect("the stored text");
    let bytes = fs::read(folder.join("stdout")).expect("the stored image");
    assert_eq!(answer(&text), 0);
    assert!(output(&text) == bytes);
    assert_eq!(loglist(&bytes).as_bytes(), text);
}
