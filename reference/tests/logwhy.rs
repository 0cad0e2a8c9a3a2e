//! Why an LSN is listed or not: each answer on the worked image of docs/FORMAT.md, changed for it, and the inputs that are refused.

use reference::example::example;
use reference::logwhy::{logwhy, reasons_of};
use reference::samples::samples;
use std::collections::BTreeSet;

/// 64 words, records 1 to 4 from word 24 on, the end at LSN 5.
fn worked_image() -> Vec<u64> {
    example().expect("no call is refused")
}

fn why(image: &[u64], lsn: u64) -> String {
    let input: Vec<u8> = image.iter().chain([&lsn]).flat_map(|word| word.to_le_bytes()).collect();
    logwhy(&input).trim_end().to_string()
}

#[test]
fn listed_below_end() {
    let image = worked_image();
    for (lsn, word) in [(0, "below"), (1, "listed"), (4, "listed"), (5, "end"), (6, "end")] {
        assert_eq!(why(&image, lsn), word, "{lsn}");
    }
    assert_eq!(why(&image, 1 << 62), "end");
    assert_eq!(why(&image, u64::MAX), "end");
}

#[test]
fn released_even_at_the_head() {
    let mut image = worked_image();
    for (word, lsn) in [(24, 1), (32, 3)] {
        image[word] = (image[word] & !(0xFFFF << 48)) | 2 << 48;
        assert_eq!(why(&image, lsn), "released");
    }
    assert_eq!(why(&image, 2), "listed");
}

#[test]
fn at_and_behind_damage() {
    let mut image = worked_image();
    image[30] ^= 1; // record 2's check
    assert_eq!(why(&image, 1), "listed");
    for lsn in [2, 3, 5, 1 << 62, u64::MAX] {
        assert_eq!(why(&image, lsn), "damaged 2 check", "{lsn}");
    }
    image[24] |= 3 << 48; // record 1's mark
    assert_eq!(why(&image, 0), "below");
    assert_eq!(why(&image, 1), "damaged 1 mark");
}

#[test]
fn at_and_behind_a_wrong_epoch() {
    // Record 3's word 2; the superline's epoch is 2, the records' 1.
    for (epoch, damaged) in [(0, true), (1, false), (2, true), (3, true), (u32::MAX, true)] {
        let mut image = worked_image();
        image[34] = image[34] & 0xFFFF_FFFF | u64::from(epoch) << 32;
        assert_eq!(why(&image, 2), "listed");
        // Epoch 2 is right for record 3, and record 4 falls behind it.
        let stop = if epoch == 2 { 4 } else { 3 };
        for lsn in [stop, 5, u64::MAX] {
            let word = match (damaged, lsn) {
                (true, _) => format!("damaged {stop} epoch"),
                (false, 3) => "listed".to_string(),
                (false, _) => "end".to_string(),
            };
            assert_eq!(why(&image, lsn), word, "epoch {epoch}, LSN {lsn}");
        }
        // A wrong check comes first.
        image[34] ^= 1;
        assert_eq!(why(&image, 3), "damaged 3 check");
    }
}

#[test]
fn refused_inputs() {
    let image = worked_image();
    for size in 0..16 {
        assert_eq!(logwhy(&vec![0; size]), "refused 1\n", "{size} bytes");
    }
    assert_eq!(why(&image[..39], 1), "refused 1");
    assert_eq!(why(&[0; 40], 1), "refused 4");
    assert_eq!(why(&[0; 8_192], 1), "refused 4");
    assert_eq!(why(&[0; 8_193], 1), "refused 1");
    let mut odd: Vec<u8> = image.iter().flat_map(|word| word.to_le_bytes()).collect();
    odd.extend([0; 9]);
    assert_eq!(logwhy(&odd), "refused 1\n");
}

/// What loglist owes of a sample says what is due for every LSN around its records.
#[test]
fn every_answer_agrees_with_the_listing() {
    let mut met = BTreeSet::new();
    for sample in samples() {
        met.extend(
            reasons_of(&sample.bytes)
                .into_iter()
                .map(|line| line.split(' ').next().expect("a word").to_string()),
        );
        let lines: Vec<&str> = sample.text.lines().collect();
        if lines.len() < 2 {
            continue;
        }
        let image: Vec<u64> =
            sample.bytes.as_chunks::<8>().0.iter().map(|word| u64::from_le_bytes(*word)).collect();
        for line in &lines[1..lines.len() - 1] {
            let lsn = line.split(' ').next().expect("an LSN").parse().expect("a number");
            assert_eq!(why(&image, lsn), "listed", "{}", sample.name);
        }
        let last: Vec<&str> = lines[lines.len() - 1].split(' ').collect();
        let lsn = last[1].parse().expect("a number");
        let due = if last[0] == "damaged" { lines[lines.len() - 1] } else { last[0] };
        assert_eq!(why(&image, lsn), due, "{}", sample.name);
    }
    let all = ["below", "damaged", "end", "listed", "refused", "released", "toomany"];
    assert_eq!(met, all.map(str::to_string).into());
}
