//! The worked image of docs/FORMAT.md: every word, number and line of it is what the reference computes.

use reference::calls::walk;
use reference::example::example;
use reference::layout::{crc32, record_size, CheckWord, Header, FIRST_RING_WORD, HEADER_WORDS};
use reference::loglist::loglist;
use std::fs;

const DOC: &str = concat!(env!("CARGO_MANIFEST_DIR"), "/../docs/FORMAT.md");

/// The words of one row, their value, and what is said of them.
#[derive(Debug, PartialEq)]
struct Row {
    first: usize,
    last: usize,
    value: u64,
    what: String,
}

fn image() -> Vec<u64> {
    example().expect("no call is refused")
}

/// The doc from the worked image on.
fn worked_image() -> String {
    let doc = fs::read_to_string(DOC).expect("the doc");
    let (_, section) = doc.split_once("\n## One image, word by word\n").expect("the heading");
    section.to_string()
}

/// The table as it stands in the doc.
fn table() -> Vec<Row> {
    let section = worked_image();
    let rows = section.lines().filter(|line| line.starts_with('|')).skip(2);
    rows.map(parse_row).collect()
}

fn parse_row(line: &str) -> Row {
    let cells: Vec<&str> = line.trim_matches('|').split('|').map(str::trim).collect();
    let [words, value, what] = cells[..] else { panic!("not three cells: {line}") };
    let (first, last) = words.split_once(" to ").unwrap_or((words, words));
    assert_eq!(value.len(), 16, "{line}");
    Row {
        first: first.parse().expect(line),
        last: last.parse().expect(line),
        value: u64::from_str_radix(value, 16).expect(line),
        what: what.to_string(),
    }
}

/// The fenced blocks, in order.
fn blocks() -> Vec<String> {
    worked_image().split("```\n").skip(1).step_by(2).map(String::from).collect()
}

#[test]
fn the_table_has_each_word_once_with_its_value() {
    let image = image();
    let mut next = 0;
    for row in table() {
        assert_eq!(row.first, next, "{row:?}");
        assert!(row.first <= row.last, "{row:?}");
        for word in row.first..=row.last {
            assert_eq!(row.value, image[word], "word {word}: {row:?}");
        }
        next = row.last + 1;
    }
    assert_eq!(next, image.len());
}

#[test]
fn the_table_says_what_each_word_is() {
    let said: Vec<String> = table().into_iter().map(|row| row.what).collect();
    assert_eq!(said, explained(&image()));
}

#[test]
fn the_bytes_are_those_of_the_first_check() {
    let bytes: Vec<u8> = blocks()[0]
        .split_whitespace()
        .map(|pair| u8::from_str_radix(pair, 16).expect("a hex pair"))
        .collect();
    let CheckWord { check, .. } = CheckWord::of_word(image()[FIRST_RING_WORD as usize + 2]);
    assert_eq!(u64::from(crc32(bytes)), check);
}

#[test]
fn the_listing_is_what_loglist_prints() {
    let bytes: Vec<u8> = image().iter().flat_map(|word| word.to_le_bytes()).collect();
    assert_eq!(blocks()[1], loglist(&bytes));
    assert_eq!(blocks().len(), 2);
}

#[test]
fn the_text_around_them_has_the_right_numbers() {
    let image = image();
    let (records, end) = walk(&image).expect("no damage");
    assert!(records.iter().all(|record| record.epoch == end.last_epoch));
    let terminator = FIRST_RING_WORD + end.position;
    let behind = terminator + record_size(2);
    let text = worked_image().replace('\n', " ");
    for sentence in [
        format!("at its end: {} words,", image.len()),
        format!(
            "Copy {} is what format wrote, copy {} what recover wrote.",
            1 - image[0],
            image[0]
        ),
        format!("The records have epoch {}:", end.last_epoch),
        format!("The state that it gave has epoch {},", end.superline_epoch),
        format!("Word {terminator} was the first word of record {}:", end.lsn),
        format!("The mark in word {behind} survived,"),
        "The check of record 1 is the CRC-32 of these bytes:".to_string(),
    ] {
        assert!(text.contains(&sentence), "{sentence}");
    }
}

/// What the rows of the table owe in words.
fn explained(image: &[u64]) -> Vec<String> {
    let mut rows = vec![format!("selector: copy {} is active", image[0])];
    for copy in 0..2 {
        let at = 8 + 8 * copy;
        let Header { length, kind, .. } = Header::of_word(image[at]);
        rows.push("unused".to_string());
        rows.push(format!("copy {copy}: length {length}, kind {kind}"));
        rows.push(format!("copy {copy}: C = {}", image[at + 1]));
        rows.push(format!("copy {copy}: head position {}", image[at + 2]));
        rows.push(format!("copy {copy}: head LSN {}", image[at + 3]));
        rows.push(format!("copy {copy}: epoch {}", image[at + 4]));
        rows.push(format!("copy {copy}: check of words {at} to {}", at + 4));
    }
    rows.push("unused".to_string());

    let (records, end) = walk(image).expect("no damage");
    for record in records {
        let at = (FIRST_RING_WORD + record.position) as usize;
        let (lsn, position) = (record.lsn, record.position);
        rows.push(format!("record {lsn}, position {position}: {}", header(image[at])));
        rows.extend(rest(image, at, record.length, &format!("record {lsn}")));
    }
    rows.push(format!("terminator, position {}: mark 0, the end", end.position));

    // Behind the end: record 5 without its word 0, of two bytes too, and record 6.
    let at = (FIRST_RING_WORD + end.position) as usize;
    let left = |lsn: u64| format!("not read; left of record {lsn}");
    rows.extend(rest(image, at, 2, &left(end.lsn)));
    let at = at + record_size(2) as usize;
    rows.push(format!("{}: {}", left(end.lsn + 1), header(image[at])));
    rows.extend(rest(image, at, Header::of_word(image[at]).length, &left(end.lsn + 1)));
    rows.push("not read; zero".to_string());
    rows
}

fn header(word: u64) -> String {
    let Header { length, kind, mark } = Header::of_word(word);
    format!("length {length}, kind {kind}, mark {mark}")
}

/// The words of a record behind its word 0, which stands at `at`.
fn rest(image: &[u64], at: usize, length: u64, whose: &str) -> Vec<String> {
    let CheckWord { epoch, .. } = CheckWord::of_word(image[at + 2]);
    let mut rows =
        vec![format!("{whose}: LSN {}", image[at + 1]), format!("{whose}: epoch {epoch}, check")];
    let first = at + HEADER_WORDS as usize;
    let bytes: Vec<u8> = image[first..].iter().flat_map(|word| word.to_le_bytes()).collect();
    for word in bytes[..length as usize].chunks(8) {
        let pairs: Vec<String> = word.iter().map(|byte| format!("{byte:02x}")).collect();
        rows.push(format!("{whose}: payload {}", pairs.join(" ")));
    }
    rows
}
