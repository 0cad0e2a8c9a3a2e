//! One changed word does to a list what slip 14 says and no more; claims that say too much, and lists that say too little, are found out.

use reference::cells::{cells, Report, Variant};
use reference::images::SORTS;
use reference::loglist::loglist;
use std::time::Duration;

const LONG: Duration = Duration::from_secs(600);

fn run(
    mut lists: impl FnMut(&[u8]) -> String,
    variant: Option<Variant>,
    seeds: impl Iterator<Item = u64>,
) -> Report {
    cells(&mut |bytes| Ok(lists(bytes)), variant, seeds, LONG).expect("no program is run")
}

#[test]
fn lists_are_as_they_should_be() {
    let report = run(loglist, None, 0..SORTS.len() as u64);
    assert!(report.failure.is_none(), "{:?}", report.failure);
    assert!(report.images > 30, "{} images", report.images);
    assert!(report.through_program > report.changes.total() / 5);
    assert_eq!(report.due.total(), report.changes.total());
    // Every kind of change was made, and everything that can be due was due.
    for (name, count) in report.changes.0.into_iter().chain(report.due.0) {
        assert!(count > 0, "never: {name}");
    }
}

#[test]
fn each_variant_is_caught() {
    for (name, variant) in Variant::ALL {
        assert_eq!(Variant::named(name), Some(variant));
        let report = run(loglist, Some(variant), 1..);
        let failure = report.failure.unwrap_or_else(|| panic!("variant {name} passes"));
        // Its seed alone meets it again, in the same way, and the image is there with both values of the word.
        let again = run(loglist, Some(variant), failure.seed..).failure.unwrap();
        assert_eq!((again.what, &again.image), (failure.what, &failure.image));
        assert_eq!(failure.image.lines().filter(|line| line.contains(" -> ")).count(), 1);
    }
}

#[test]
fn wrong_lists_are_caught() {
    let lists: [(&str, fn(&[u8]) -> String); 4] = [
        ("another test", |bytes| loglist(bytes).replace(" check\n", " LSN\n")),
        ("damage is not told", |bytes| {
            let text = loglist(bytes);
            match text.strip_suffix(" check\n") {
                Some(start) => format!("{}\n", start.replace("damaged", "end")),
                None => text,
            }
        }),
        ("the last record before damage is left out", |bytes| {
            let text = loglist(bytes);
            let lines: Vec<&str> = text.lines().collect();
            match lines.as_slice() {
                [before @ .., _, last] if before.len() > 1 && last.starts_with("damaged") => {
                    format!("{}\n{last}\n", before.join("\n"))
                }
                _ => text,
            }
        }),
        ("the damaged record is another", |bytes| {
            let text = loglist(bytes);
            match text.rsplit_once("damaged ") {
                Some((start, rest)) => format!("{start}damaged 1{rest}"),
                None => text,
            }
        }),
    ];
    for (name, list) in lists {
        let failure = run(list, None, 1..).failure;
        let failure = failure.unwrap_or_else(|| panic!("not caught: {name}"));
        assert!(failure.what.contains("the program"), "{}", failure.what);
    }
}
