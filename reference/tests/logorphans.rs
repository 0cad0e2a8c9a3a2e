//! The replacements whose inspection is not listed before them: on images by hand, and what images by seed reach.

use reference::loglist::loglist;
use reference::logorphans::{logorphans, orphan_image, orphan_samples};
use reference::samples::samples;
use std::collections::BTreeSet;

#[test]
fn images_by_hand() {
    for sample in orphan_samples() {
        assert_eq!(logorphans(&sample.bytes), sample.text, "{}", sample.name);
    }
}

/// Its last line is loglist's, its other lines are LSNs that loglist lists with kind 600, in the same order.
#[test]
fn beside_the_listing() {
    let by_seed = (0..300).map(|seed| orphan_image(seed).1);
    let all = samples().into_iter().map(|sample| sample.bytes).chain(by_seed);
    let mut some = 0;
    for bytes in all {
        let (listing, text) = (loglist(&bytes), logorphans(&bytes));
        assert_eq!(listing.lines().last(), text.lines().last());
        let replacements: Vec<&str> = listing
            .lines()
            .filter_map(|line| line.split_once(' ').filter(|(_, rest)| rest.starts_with("600 ")))
            .map(|(lsn, _)| lsn)
            .collect();
        let lines: Vec<&str> = text.lines().collect();
        let mut at = replacements.iter();
        for lsn in &lines[..lines.len() - 1] {
            assert!(at.any(|replacement| replacement == lsn), "{lsn} in\n{listing}");
            some += 1;
        }
    }
    assert!(some > 500, "{some} LSNs");
}

#[test]
fn seeds_reach_every_last_line() {
    let mut met = BTreeSet::new();
    for seed in 0..400 {
        let text = logorphans(&orphan_image(seed).1);
        let last = text.lines().last().expect("a line").to_string();
        let words: Vec<&str> = last.split(' ').collect();
        met.insert(match words[..] {
            ["refused", number] => format!("refused {number}"),
            ["damaged", _, test] => format!("damaged {test}"),
            _ => words[0].to_string(),
        });
    }
    for due in
        ["end", "toomany", "refused 1", "refused 4", "damaged check", "damaged LSN", "damaged mark"]
    {
        assert!(met.contains(due), "{due} in {met:?}");
    }
}
