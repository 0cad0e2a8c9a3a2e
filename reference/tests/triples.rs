//! The triples of images, and the calls that are made on them, reach everything that the recovery of three modules can answer.

use reference::three::{choose, Readable, Way, MODULES};
use reference::three_calls::ask;
use reference::triples::{triple, Images, SORTS};
use std::array::from_fn;
use std::collections::{BTreeMap, BTreeSet};

const SEEDS: u64 = 4 * SORTS.len() as u64;

fn readable(images: &Images) -> [Option<Readable>; MODULES] {
    images.each_ref().map(|image| Readable::of_image(image))
}

/// The images of this sort, for a few seeds.
fn of_sort(name: &str) -> Vec<Images> {
    let made: Vec<Images> =
        (0..10 * SORTS.len() as u64).map(triple).filter(|it| it.0 == name).map(|it| it.1).collect();
    assert!(!made.is_empty(), "{name}");
    made
}

fn readable_counts(name: &str) -> BTreeSet<usize> {
    of_sort(name).iter().map(|images| readable(images).iter().flatten().count()).collect()
}

#[test]
fn every_answer_is_reached() {
    let mut results = BTreeSet::new();
    // How many ops modules got, for each module: none, eleven, a repair too.
    let mut ops = BTreeSet::new();
    // Which modules are present where it is granted, and whether other bits of the flags are set.
    let mut granted = BTreeSet::new();
    // The lowest short module of 15, and whether a repair is among what it needs.
    let mut short = BTreeSet::new();
    for seed in 0..SEEDS {
        let (name, images) = triple(seed);
        let asked = ask(seed, &images);
        assert_eq!(asked.text.lines().count(), asked.requests.len(), "{name}");
        // The ops that each module gets where there is room for all.
        let mut counts = BTreeMap::new();
        for (request, answer) in asked.requests.iter().zip(&asked.answers) {
            results.insert(answer.result);
            match answer.result {
                0.. => {
                    granted.insert((request.present & 7, request.present > 7));
                    counts.insert(request.present & 7, answer.reply[2..5].to_vec());
                    for i in 0..MODULES {
                        ops.insert((i, answer.reply[2 + i].min(12)));
                    }
                }
                -15 => {
                    let needed = |i: usize| 3 * counts[&(request.present & 7)][i];
                    let is_short = |&i: &usize| (request.op_words[i] as u64) < needed(i);
                    let lowest = (0..MODULES).find(is_short).expect("one is short");
                    assert_eq!(answer.reply[1], needed(lowest), "{name}");
                    short.insert((lowest, answer.reply[1] > 33));
                }
                _ => {}
            }
        }
    }
    assert_eq!(results, BTreeSet::from([-19, -15, -14, -8, -2, -1, 0, 1, 2]));
    let each = |values: &[u64]| -> BTreeSet<(usize, u64)> {
        (0..MODULES).flat_map(|i| values.iter().map(move |&value| (i, value))).collect()
    };
    assert_eq!(ops, each(&[0, 11, 12]));
    let pairs = [3, 5, 6, 7].into_iter().flat_map(|present| [(present, false), (present, true)]);
    assert_eq!(granted, pairs.collect());
    let lowest = (0..MODULES).flat_map(|i| [(i, false), (i, true)]);
    assert_eq!(short, lowest.collect());
}

#[test]
fn sorts_are_what_they_are_called() {
    for name in ["equal", "equal and fresh", "equal, the largest, 256 records"] {
        for images in of_sort(name) {
            assert!(readable(&images)[0].is_some(), "{name}");
            assert!(images[0] == images[1] && images[1] == images[2], "{name}");
        }
    }
    for name in ["one unused word", "one word behind the terminator", "other copy in use"] {
        for images in of_sort(name) {
            let copies = readable(&images);
            assert!(copies[0].is_some() && copies == [copies[0]; MODULES], "{name}");
            assert!(images[0] != images[1] || images[1] != images[2], "{name}");
        }
    }
    for images in of_sort("greater epoch, shorter end") {
        let copies = readable(&images).map(|copy| copy.expect("readable"));
        let chosen = choose(&Way::RIGHT, &copies.map(Some)).expect("three are readable");
        let longest = copies.iter().map(|copy| copy.end_lsn).max().expect("three");
        assert!(copies[chosen].end_lsn < longest);
    }
    for (name, count) in [
        ("selector", 2),
        ("check of the copy", 2),
        ("damaged record", 2),
        ("one too many", 2),
        ("two too many", 1),
        ("two spoilt", 1),
        ("all spoilt", 0),
        ("one noise", 2),
        ("last epoch, not readable", 2),
    ] {
        assert_eq!(readable_counts(name), BTreeSet::from([count]), "{name}");
    }
    assert!(readable_counts("inside a repair").contains(&2));
    assert!(readable_counts("inside two repairs").contains(&1));
    for images in of_sort("lengths differ") {
        let lengths: [usize; MODULES] = from_fn(|i| images[i].len());
        assert!(lengths != [lengths[0]; MODULES], "{lengths:?}");
    }
}
