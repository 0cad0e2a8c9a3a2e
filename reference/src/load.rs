//! Texts for logload: listings of real images, every boundary, and listings changed in every way that its refusals name. Another
//! logload and another loglist are held against ours on them.

use crate::compare::{difference, output_and_status, Difference};
use crate::gen;
use crate::images;
use crate::layout::{record_size, LSN_LIMIT, MAX_CAPACITY, MAX_KIND, MAX_LENGTH, TABLE_SIZE};
use crate::loglist::{hex, loglist, HEADING};
use crate::logload::{output, MAX_TEXT_BYTES};
use crate::rng::Rng;
use crate::samples::samples;
use std::io;
use std::path::Path;

/// A text under a name, and the seed that it is from.
pub struct Text {
    pub seed: u64,
    pub name: String,
    pub bytes: Vec<u8>,
}

/// The fixed texts, and those of `count` seeds.
pub fn all_texts(first_seed: u64, count: u64) -> impl Iterator<Item = Text> {
    let fixed = fixed_texts().into_iter().map(|(name, bytes)| Text { seed: 0, name, bytes });
    fixed.chain((0..count).flat_map(move |i| texts_of_seed(first_seed.wrapping_add(i))))
}

// ---------------------------------------------------------------- lines

/// The lines of a text, each with its line feed if it has one.
type Lines = Vec<Vec<u8>>;

fn lines_of(text: &[u8]) -> Lines {
    text.split_inclusive(|&byte| byte == b'\n').map(<[u8]>::to_vec).collect()
}

fn record_line(lsn: u64, kind: u64, payload: &[u8]) -> Vec<u8> {
    format!("{lsn} {kind} {} {}\n", payload.len(), hex(payload)).into_bytes()
}

/// A listing in the form that is granted if its numbers are in range and it fits.
fn listing(first_lsn: u64, records: &[(u64, Vec<u8>)]) -> Lines {
    let mut lines = vec![format!("{HEADING}\n").into_bytes()];
    for (lsn, (kind, payload)) in (first_lsn..).zip(records) {
        lines.push(record_line(lsn, *kind, payload));
    }
    lines.push(format!("end {}\n", first_lsn + records.len() as u64).into_bytes());
    lines
}

/// Records of so many bytes.
fn records(lengths: &[u64]) -> Vec<(u64, Vec<u8>)> {
    let bytes = |length| (0..length).map(|i| (7 * i + length) as u8).collect();
    lengths.iter().enumerate().map(|(i, &length)| (i as u64 + 1, bytes(length))).collect()
}

/// The same line with another field; the line feed is no field.
fn set_field(line: &mut Vec<u8>, field: usize, value: &[u8]) {
    let text = line.strip_suffix(b"\n").unwrap_or(line);
    let mut fields: Vec<&[u8]> = text.split(|&byte| byte == b' ').collect();
    if field < fields.len() {
        fields[field] = value;
        *line = [&fields.join(&b' ')[..], b"\n"].concat();
    }
}

fn field(line: &[u8], field: usize) -> Vec<u8> {
    let text = line.strip_suffix(b"\n").unwrap_or(line);
    text.split(|&byte| byte == b' ').nth(field).unwrap_or(b"").to_vec()
}

// ---------------------------------------------------------------- wrong numbers

/// 2^128 and a number below 700,000, in decimal.
fn beyond_128_bits(number: u64) -> String {
    format!("340282366920938463463374607431768{}", 211_456 + number % 700_000)
}

/// What can stand for a number: others in range and out of it, such as are alike in their low bits, and such as are no numbers.
fn instead_of(number: &[u8]) -> Vec<Vec<u8>> {
    let text = String::from_utf8_lossy(number).into_owned();
    let value: u64 = text.parse().unwrap_or(7);
    let wide = u128::from(value);
    let mut numbers: Vec<u128> = [0, 1, 65_535, 65_536, 1_024, 1_025].into();
    numbers.extend([wide + 1, wide.saturating_sub(1), 10 * wide]);
    numbers.extend([16, 32, 62, 64, 96].map(|bits| wide + (1 << bits)));
    for power in [1u128 << 62, 1 << 64] {
        numbers.extend([power - 1, power, power + 1]);
    }
    let mut all: Vec<String> = numbers.iter().map(u128::to_string).collect();
    all.extend([beyond_128_bits(value), "9".repeat(20), "1".repeat(30), "8".repeat(300)]);
    all.extend(["00".into(), "01".into(), format!("0{text}"), format!("{}{text}", "0".repeat(20))]);
    all.extend([format!("+{text}"), format!("-{text}"), "".into(), "-".into(), "-0".into()]);
    all.extend([format!("{text}.0"), format!("{text}e0"), format!("1_{text}"), "0x1".into()]);
    all.extend([format!("{text}\t"), format!(" {text}"), format!("{text} ")]);
    all.extend([format!("{text}a"), "/".into(), format!("{text}:")]);
    let mut all: Vec<Vec<u8>> = all.into_iter().map(String::into_bytes).collect();
    // Arabic digits, a NUL byte, a digit with its top bit set.
    all.extend(["\u{661}".into(), [number, b"\0"].concat(), vec![b'1' | 0x80]]);
    all
}

// ---------------------------------------------------------------- fixed texts

/// Texts that are the same for all seeds: each boundary, and each field of each line of a small listing with each wrong number.
fn fixed_texts() -> Vec<(String, Vec<u8>)> {
    let mut texts = Vec::new();
    for sample in samples() {
        texts.push((format!("listing of {}", sample.name), sample.text.into_bytes()));
    }
    texts.extend(wrong_fields());
    texts.extend(lengths());
    texts.extend(limits());
    texts.extend(lsns());
    texts.extend(orders());
    texts.extend(last_lines());
    texts.extend(sizes());
    texts
}

fn named(name: impl Into<String>, lines: &Lines) -> (String, Vec<u8>) {
    (name.into(), lines.concat())
}

fn wrong_fields() -> Vec<(String, Vec<u8>)> {
    let good = listing(41, &records(&[0, 3, 9]));
    let mut texts = vec![named("three records", &good), named("no record", &listing(7, &[]))];
    for (line, fields) in [(1, 0..1), (2, 0..3), (4, 1..2)] {
        for which in fields {
            for value in instead_of(&field(&good[line], which)) {
                let mut lines = good.clone();
                set_field(&mut lines[line], which, &value);
                let shown = String::from_utf8_lossy(&value[..value.len().min(40)]).into_owned();
                texts.push(named(format!("line {line}, field {which}: {shown:?}"), &lines));
            }
        }
    }
    let mut empty = listing(7, &[]);
    for value in instead_of(b"7") {
        set_field(&mut empty[1], 1, &value);
        texts.push(named("no record, another end", &empty));
    }
    texts
}

/// L and the pairs of the data, alike and not.
fn lengths() -> Vec<(String, Vec<u8>)> {
    let mut texts = Vec::new();
    for length in [0, 1, 2, 8, 9, 1_024, 1_025, 65_539, 130_000] {
        for pairs in [length, length + 1, length - length.min(1), 0, 3] {
            let mut lines = listing(1, &records(&[3, pairs, 1]));
            set_field(&mut lines[2], 2, length.to_string().as_bytes());
            texts.push(named(format!("L {length}, {pairs} pairs"), &lines));
            // Half a pair more and less.
            for digits in [2 * pairs + 1, (2 * pairs).saturating_sub(1)] {
                set_field(&mut lines[2], 3, &vec![b'a'; digits as usize]);
                texts.push(named(format!("L {length}, {digits} digits"), &lines));
            }
        }
    }
    for data in ["-", "--", "", "- ", "-00", "00-", "0", "00", "0g", "0G", "0A", "A0", "aF", "0x"] {
        for length in ["0", "1", "2"] {
            let mut lines = listing(1, &records(&[3, 0, 1]));
            set_field(&mut lines[2], 2, length.as_bytes());
            set_field(&mut lines[2], 3, data.as_bytes());
            texts.push(named(format!("L {length}, data {data:?}"), &lines));
        }
    }
    // Neighbours of the digits, and bytes alike but for a bit.
    for byte in b"/09:@AFG`afg \n\0-\x10\x1f\xb0\xb9\xe1\xe6\xff" {
        let mut lines = listing(1, &records(&[2, 0]));
        set_field(&mut lines[1], 3, &[b'0', b'1', b'2', *byte]);
        texts.push(named(format!("byte {byte} for a hex digit"), &lines));
    }
    for byte in b" \n\r\0-+_0af\xad" {
        let mut lines = listing(1, &records(&[2, 0]));
        set_field(&mut lines[2], 3, &[*byte]);
        texts.push(named(format!("byte {byte} for no data"), &lines));
    }
    texts
}

/// Lengths of records that take just so many words of the ring.
fn lengths_for(words: u64) -> Vec<u64> {
    let most = record_size(MAX_LENGTH);
    let mut lengths = vec![MAX_LENGTH; (words / most) as usize];
    match words % most {
        0 => {}
        // Two records share the last words if one cannot have so few.
        rest @ 1..3 => {
            lengths.pop();
            lengths.extend([0, 8 * (most + rest - 6)]);
        }
        rest => lengths.push(8 * (rest - 3)),
    }
    lengths
}

/// The last record that fits and one more, 256 records and 257.
fn limits() -> Vec<(String, Vec<u8>)> {
    let mut texts = Vec::new();
    for words in MAX_CAPACITY - 5..=MAX_CAPACITY + 2 {
        let lengths = lengths_for(words);
        texts.push(named(format!("{words} words"), &listing(9, &records(&lengths))));
        texts.push(named(
            format!("{words} words and an empty record"),
            &listing(9, &records(&[&lengths[..], &[0]].concat())),
        ));
        // A byte less takes no word less, a byte more takes one more.
        let mut lengths = lengths;
        let last = lengths.len() - 1;
        for change in [1, 8] {
            let length = lengths[last];
            lengths[last] = length + change;
            texts.push(named(
                format!("{words} words and {change} bytes"),
                &listing(9, &records(&lengths)),
            ));
            lengths[last] = length;
        }
    }
    for count in [TABLE_SIZE - 1, TABLE_SIZE, TABLE_SIZE + 1, TABLE_SIZE + 2] {
        for length in [0, 1, 8, 223, 224] {
            let lines = listing(3, &records(&vec![length; count]));
            texts.push(named(format!("{count} records of {length}"), &lines));
        }
    }
    // 256 records that leave one word for the terminator, and none.
    for last in [224, 225] {
        let lengths = [&[232; 231][..], &[224; 24], &[last]].concat();
        texts.push(named(format!("a full table with {last}"), &listing(1, &records(&lengths))));
    }
    texts
}

fn lsns() -> Vec<(String, Vec<u8>)> {
    let mut texts = Vec::new();
    for lsn in [0, 1, 1 << 32, LSN_LIMIT - 2, LSN_LIMIT - 1, LSN_LIMIT, LSN_LIMIT + 1] {
        for count in 0..3 {
            let lines = listing(lsn, &records(&vec![1; count]));
            texts.push(named(format!("{count} records from {lsn}"), &lines));
            for end in [0, lsn, lsn + 1, LSN_LIMIT, LSN_LIMIT + 1] {
                let mut lines = lines.clone();
                set_field(&mut lines[count + 1], 1, end.to_string().as_bytes());
                texts.push(named(format!("{count} records from {lsn}, end {end}"), &lines));
            }
        }
    }
    texts
}

/// Lines that meet several refusals at once, a different set each: the first in the order 17, 18, 3, 9, 10 is due.
fn orders() -> Vec<(String, Vec<u8>)> {
    let mut texts = Vec::new();
    let bases = [
        ("one record", listing(5, &records(&[3]))),
        ("full table", listing(5, &records(&[0; TABLE_SIZE]))),
        ("full ring", listing(5, &records(&lengths_for(MAX_CAPACITY - 1)))),
        ("both full", listing(5, &records(&[&[1_024; 54][..], &[16; 201], &[680]].concat()))),
    ];
    // What is wrong with the form of a line.
    let forms: [(&str, fn(&mut Vec<u8>)); 7] = [
        ("nothing", |_| {}),
        ("leading zero", |line| line.insert(0, b'0')),
        ("last digit", |line| *line.iter_mut().nth_back(1).expect("a digit") = b'A'),
        ("a digit", |line| *line.iter_mut().nth_back(300).expect("a digit") = b'g'),
        ("pair more", |line| drop(line.splice(line.len() - 1.., *b"07\n"))),
        ("pair less", |line| drop(line.drain(line.len() - 3..line.len() - 1))),
        ("line feed", |line| line.truncate(line.len() - 1)),
    ];
    for (before, base) in bases {
        let next = 5 + base.len() as u64 - 2;
        for (gap, kind, length) in
            [(0, 1, 900), (1, 1, 900), (0, 0, 900), (0, 1, 1_025), (1, 0, 1_025)]
        {
            for (form, spoil) in forms {
                let mut line = record_line(next + gap, kind, &vec![7; length]);
                spoil(&mut line);
                let mut lines = base.clone();
                let end = lines.len() - 1;
                if form == "line feed" {
                    lines.pop();
                }
                lines.insert(end, line);
                let numbers = format!("{gap} further, kind {kind}, L {length}");
                texts.push(named(format!("{before}, then {numbers}, wrong: {form}"), &lines));
            }
        }
    }
    // A refusal, and a worse line behind it.
    for first in ["02 1 0 -\n", "9 1 0 -\n", "3 0 0 -\n", "3 1 0 -\n"] {
        for second in ["", "3", "x\n", "9 1 0 -\n", "4 0 0 -\n", "end 4\n", "end 5\n", "end 4\nx"] {
            let text = format!("{HEADING}\n2 1 0 -\n{first}{second}");
            texts.push((format!("{first:?}, then {second:?}"), text.into_bytes()));
        }
    }
    texts
}

/// What can stand where the end line is due, and behind it.
fn last_lines() -> Vec<(String, Vec<u8>)> {
    let mut texts = Vec::new();
    let last = [
        "end 44",
        "end 44\n",
        "end 44\n\n",
        "end 44\n\0",
        "end 44\n ",
        "end 44\nx",
        "end 44\nend 44\n",
        "end 44\n44 1 0 -\nend 45\n",
        "end 44\r\n",
        "end 44\r",
        "end 44 \n",
        " end 44\n",
        "end  44\n",
        "end\t44\n",
        "end\n",
        "end \n",
        "end44\n",
        "End 44\n",
        "END 44\n",
        "ends 44\n",
        "en 44\n",
        "end 44 x\n",
        "end 044\n",
        "end 45\n",
        "end 45\nx",
        "end 45",
        "end 43\n",
        "end 0\n",
        "end 4611686018427387904\n",
        "end 4611686018427387905\n",
        "damaged 44 check\n",
        "damaged 44 mark\n",
        "damaged 44\n",
        "toomany 44\n",
        "refused 4\n",
        "refused 17\n",
        "\n",
        "\n\n",
        "\r\n",
        "\0",
        "44\n",
        "44 \n",
        "44 1\n",
        "44 1 \n",
        "44 1 0\n",
        "44 1 0 \n",
        "44 1 0 -",
        "44 1 0 -\n",
        "44 1 0 - \n",
        "44 1 0 - -\n",
        " 44 1 0 -\nend 45\n",
        "44  1 0 -\nend 45\n",
        "44 1 0  -\nend 45\n",
        "44\t1\t0\t-\nend 45\n",
        "44 1 0 -\r\nend 45\n",
        "44 1 0 -\nend 45\n",
        "end 1 0 -\nend 45\n",
        "lsn kind length data\nend 44\n",
        "",
    ];
    for records in [records(&[]), records(&[0, 3, 9])] {
        let mut lines = listing(44 - records.len() as u64, &records);
        lines.pop();
        for last in last {
            texts.push(([&lines.concat(), last.as_bytes()].concat(), last));
        }
    }
    let mut texts: Vec<(String, Vec<u8>)> =
        texts.into_iter().map(|(text, last)| (format!("last line {last:?}"), text)).collect();
    // The heading, and every text that is cut short.
    let good = listing(41, &records(&[0, 3])).concat();
    for size in 0..good.len() {
        texts.push((format!("the first {size} bytes"), good[..size].to_vec()));
    }
    for place in 0..=HEADING.len() {
        for byte in [b'\n', good[place] ^ 0x20, good[place] ^ 0x80] {
            let mut text = good.clone();
            text[place] = byte;
            texts.push((format!("byte {place} of the heading is {byte}"), text));
        }
    }
    for heading in ["", "\n", "\u{feff}", "lsn kind length data\n", " ", "refused 4\n"] {
        let text = [heading.as_bytes(), &good].concat();
        texts.push((format!("{heading:?} before the heading"), text));
    }
    for text in ["refused 4\n", "refused 1\n", "end 1\n", "\n", "lsn kind length data\r\nend 1\n"] {
        texts.push((format!("only {text:?}"), text.as_bytes().to_vec()));
    }
    texts
}

/// Texts of 262,144 bytes and a few around that, which meet each refusal before their end.
fn sizes() -> Vec<(String, Vec<u8>)> {
    let mut texts = Vec::new();
    let start = |next: &str| [&listing(2, &records(&[3]))[..2].concat(), next.as_bytes()].concat();
    let full = |lengths: &[u64]| {
        let mut lines = listing(1, &records(lengths));
        lines.pop();
        lines.concat()
    };
    for size in [MAX_TEXT_BYTES - 1, MAX_TEXT_BYTES, MAX_TEXT_BYTES + 1, MAX_TEXT_BYTES + 900] {
        // Whatever is behind the line that is refused.
        let bases = [
            ("17", start("x\n")),
            ("18", start("4 1 0 -\n")),
            ("18 at the end", start("end 4\n")),
            ("3", start("3 0 0 -\n")),
            ("9", full(&[0; TABLE_SIZE + 1])),
            ("10", full(&[1_024; 63])),
            ("nothing", listing(2, &records(&[3])).concat()),
        ];
        for (name, mut text) in bases {
            text.resize(size, b'0');
            texts.push((format!("{name}, then zeros up to {size} bytes"), text));
        }
        // One line of that size, its end behind it or not.
        for (name, before, behind) in [
            ("LSN", "1", " 1 0 -\n"),
            ("kind", "3 1", " 0 -\n"),
            ("L", "3 1 1", " -\n"),
            ("data", "3 1 130000 ", "\n"),
            ("end", "end 3", "\n"),
            ("zeros", "3 0", " 0 -\n"),
        ] {
            for behind in [behind, &format!("{behind}end 4\n")] {
                let mut text = start(before);
                text.resize(size - behind.len(), b'0');
                text.extend(behind.as_bytes());
                texts.push((format!("{size} bytes by one {name}"), text));
            }
        }
        // As many pairs as go in.
        let mut text = start("");
        let pairs = (size - text.len() - "3 1 130000 \n".len()) / 2;
        text.extend(format!("3 1 {pairs} {}\n", "5f".repeat(pairs)).as_bytes());
        texts.push((format!("{pairs} pairs"), text));
    }
    texts
}

// ---------------------------------------------------------------- changes

/// The name of a change, and how it is made. It may leave a text as it is that has no place for it.
type Change = (&'static str, fn(&mut Rng, &mut Lines));

pub const CHANGES: [Change; 42] = [
    ("none", |_, _| {}),
    // Numbers.
    ("another LSN", |rng, lines| change_number(rng, lines, 0)),
    ("another kind", |rng, lines| change_number(rng, lines, 1)),
    ("another length", |rng, lines| change_number(rng, lines, 2)),
    ("another end", |rng, lines| {
        let last = lines.len() - 1;
        let value = pick_one(rng, instead_of(&field(&lines[last], 1)));
        set_field(&mut lines[last], 1, &value);
    }),
    ("end one further", |_, lines| {
        let last = lines.len() - 1;
        add_to_field(&mut lines[last], 1, 1);
    }),
    ("all LSNs from one on one further", |rng, lines| {
        let from = rng.between(2, lines.len() as u64) as usize;
        let last = lines.len() - 1;
        for (i, line) in lines.iter_mut().enumerate().skip(from) {
            add_to_field(line, usize::from(i == last), 1);
        }
    }),
    ("leading zero", |rng, lines| {
        let which = rng.below(3) as usize;
        change_field(rng, lines, which, |_, field| field.insert(0, b'0'));
    }),
    ("sign", |rng, lines| {
        let which = rng.below(3) as usize;
        change_field(rng, lines, which, |rng, field| field.insert(0, rng.pick(b"+-")));
    }),
    // Fields.
    ("an empty field", |rng, lines| {
        let which = rng.below(4) as usize;
        change_field(rng, lines, which, |_, field| field.clear());
    }),
    ("two blanks", |rng, lines| {
        let which = rng.between(1, 3) as usize;
        change_field(rng, lines, which, |_, field| field.insert(0, b' '));
    }),
    ("a blank before", |rng, lines| change_field(rng, lines, 0, |_, field| field.insert(0, b' '))),
    ("a blank behind", |rng, lines| insert_before_feed(rng, lines, b" ")),
    ("a tab for a blank", |rng, lines| {
        let line = any_line(rng, lines);
        if let Some(blank) = lines[line].iter().position(|&byte| byte == b' ') {
            lines[line][blank] = b'\t';
        }
    }),
    ("a field too many", |rng, lines| insert_before_feed(rng, lines, b" 0")),
    ("a field too few", |rng, lines| {
        let line = any_line(rng, lines);
        if let Some(blank) = lines[line].iter().rposition(|&byte| byte == b' ') {
            lines[line].truncate(blank);
            lines[line].push(b'\n');
        }
    }),
    // Data.
    ("capitals", |rng, lines| change_field(rng, lines, 3, |_, data| data.make_ascii_uppercase())),
    ("one capital", |rng, lines| {
        change_field(rng, lines, 3, |rng, data| {
            let at = rng.below(data.len().max(1) as u64) as usize;
            data[at..].iter_mut().take(1).for_each(u8::make_ascii_uppercase);
        });
    }),
    ("a digit too few", |rng, lines| {
        change_field(rng, lines, 3, |_, data| data.truncate(data.len().saturating_sub(1)));
    }),
    ("a digit too many", |rng, lines| change_field(rng, lines, 3, |_, data| data.push(b'0'))),
    ("a pair too few", |rng, lines| {
        change_field(rng, lines, 3, |_, data| data.truncate(data.len().saturating_sub(2)));
    }),
    ("a pair too many", |rng, lines| change_field(rng, lines, 3, |_, data| data.extend(b"5a"))),
    ("no data", |rng, lines| change_field(rng, lines, 3, |_, data| *data = b"-".to_vec())),
    ("data for none", |rng, lines| {
        change_field(rng, lines, 2, |_, length| *length = b"0".to_vec());
    }),
    // Line ends and bytes.
    ("no final line feed", |_, lines| {
        lines.last_mut().map(Vec::pop);
    }),
    ("a line feed missing", |rng, lines| {
        let line = any_line(rng, lines);
        lines[line].pop();
    }),
    ("a carriage return", |rng, lines| insert_before_feed(rng, lines, b"\r")),
    ("carriage returns", |_, lines| {
        for line in lines {
            line.insert(line.len().saturating_sub(1), b'\r');
        }
    }),
    ("a NUL byte", |rng, lines| insert_byte(rng, lines, |_| 0)),
    ("a byte more", |rng, lines| insert_byte(rng, lines, |rng| rng.next_u64() as u8)),
    ("a likely byte more", |rng, lines| insert_byte(rng, lines, |rng| rng.pick(b"0 \n-a9"))),
    ("a byte less", |rng, lines| {
        let line = any_line(rng, lines);
        let at = rng.below(lines[line].len().max(1) as u64) as usize;
        lines[line].remove(at);
    }),
    ("a byte changed", |rng, lines| {
        let line = any_line(rng, lines);
        let at = rng.below(lines[line].len() as u64) as usize;
        lines[line][at] =
            if rng.chance(1, 2) { rng.next_u64() as u8 } else { rng.pick(b"0 \n-f9") };
    }),
    // Lines.
    ("a line less", |rng, lines| {
        let line = any_line(rng, lines);
        lines.remove(line);
    }),
    ("a line twice", |rng, lines| {
        let line = any_line(rng, lines);
        lines.insert(line, lines[line].clone());
    }),
    ("lines swapped", |rng, lines| {
        let (a, b) = (any_line(rng, lines), any_line(rng, lines));
        lines.swap(a, b);
    }),
    ("a record more", |rng, lines| {
        let last = lines.len() - 1;
        let lsn = String::from_utf8_lossy(&field(&lines[last], 1)).parse().unwrap_or(1);
        let length = rng.pick(&[0, 1, 9, 1_024]);
        let payload = rng.bytes(length);
        lines.insert(last, record_line(lsn, rng.between(1, MAX_KIND), &payload));
        add_to_field(&mut lines[last + 1], 1, 1);
    }),
    ("an empty line", |rng, lines| {
        let line = rng.between(0, lines.len() as u64) as usize;
        lines.insert(line, b"\n".to_vec());
    }),
    ("another last line", |rng, lines| {
        let last = lines.len() - 1;
        let lsn = String::from_utf8_lossy(&field(&lines[last], 1)).into_owned();
        let word = rng.pick(&["damaged", "toomany", "refused", "End", "ends"]);
        let test = rng.pick(&["", " mark", " LSN", " check"]);
        lines[last] = format!("{word} {lsn}{test}\n").into_bytes();
    }),
    ("text behind", |rng, lines| {
        let bytes = rng.pick(&["\n", "x", "\0", " ", "end 1\n", "lsn kind length data\n"]);
        lines.push(bytes.as_bytes().to_vec());
    }),
    ("cut short", |rng, lines| {
        let mut text = lines.concat();
        text.truncate(rng.below(text.len() as u64) as usize);
        *lines = lines_of(&text);
    }),
    ("an end line between", |rng, lines| {
        let line = rng.between(1, lines.len() as u64 - 1) as usize;
        let which = usize::from(line == lines.len() - 1);
        let lsn = String::from_utf8_lossy(&field(&lines[line], which)).into_owned();
        lines.insert(line, format!("end {lsn}\n").into_bytes());
    }),
];

fn pick_one(rng: &mut Rng, mut values: Vec<Vec<u8>>) -> Vec<u8> {
    values.swap_remove(rng.below(values.len() as u64) as usize)
}

fn any_line(rng: &mut Rng, lines: &Lines) -> usize {
    rng.below(lines.len() as u64) as usize
}

/// Changes this field of any record line, if there is one.
fn change_field(
    rng: &mut Rng,
    lines: &mut Lines,
    which: usize,
    change: fn(&mut Rng, &mut Vec<u8>),
) {
    if lines.len() > 2 {
        let line = rng.between(1, lines.len() as u64 - 2) as usize;
        let mut value = field(&lines[line], which);
        change(rng, &mut value);
        set_field(&mut lines[line], which, &value);
    }
}

fn change_number(rng: &mut Rng, lines: &mut Lines, which: usize) {
    change_field(rng, lines, which, |rng, field| *field = pick_one(rng, instead_of(field)));
}

fn add_to_field(line: &mut Vec<u8>, which: usize, more: u64) {
    if let Ok(number) = String::from_utf8_lossy(&field(line, which)).parse::<u64>() {
        set_field(line, which, (number + more).to_string().as_bytes());
    }
}

fn insert_before_feed(rng: &mut Rng, lines: &mut Lines, bytes: &[u8]) {
    let line = any_line(rng, lines);
    let end = lines[line].len() - 1;
    lines[line].splice(end..end, bytes.iter().copied());
}

fn insert_byte(rng: &mut Rng, lines: &mut Lines, byte: fn(&mut Rng) -> u8) {
    let line = any_line(rng, lines);
    let at = rng.between(0, lines[line].len() as u64) as usize;
    let byte = byte(rng);
    lines[line].insert(at, byte);
}

// ---------------------------------------------------------------- texts of a seed

/// Changes of one seed's listing; the next seed goes on with the next ones.
const CHANGES_OF_SEED: u64 = 8;

fn texts_of_seed(seed: u64) -> Vec<Text> {
    let mut rng = Rng::new(seed ^ 0x10AD);
    let (sort, image) = images::image(seed);
    let mut texts = vec![
        (format!("listing of '{sort}'"), loglist(&image).into_bytes()),
        ("listing of a script's image".to_string(), loglist(&gen::image(seed)).into_bytes()),
    ];
    let good = some_listing(&mut rng);
    texts.push(named("a good listing", &good));
    for i in 0..CHANGES_OF_SEED {
        let number = seed.wrapping_mul(CHANGES_OF_SEED).wrapping_add(i) % CHANGES.len() as u64;
        let (name, change) = CHANGES[number as usize];
        let mut lines = good.clone();
        change(&mut rng, &mut lines);
        let mut name = name.to_string();
        // At times a second change, which shows only if it comes before the first or that one did nothing.
        if rng.chance(1, 6) && lines.len() > 1 && lines.iter().all(|line| line.len() > 1) {
            let (second, change) = rng.pick(&CHANGES);
            change(&mut rng, &mut lines);
            name = format!("{name}, {second}");
        }
        texts.push(named(name, &lines));
    }
    texts.into_iter().map(|(name, bytes)| Text { seed, name, bytes }).collect()
}

fn some_listing(rng: &mut Rng) -> Lines {
    let count = match rng.below(12) {
        0 => 0,
        1 => rng.between(60, 70),
        2 => rng.between(250, 256),
        _ => rng.between(1, 9),
    };
    let first_lsn = match rng.below(6) {
        0 => LSN_LIMIT - count,
        1 => rng.between(1, LSN_LIMIT - count),
        2 => 1,
        // The number of digits changes on the way.
        3 => 10u64.pow(rng.between(1, 18) as u32).saturating_sub(count / 2),
        _ => rng.between(1, 1_000),
    };
    let one = |_| {
        let length = match rng.below(8) {
            0 => 0,
            1 => rng.below(100),
            2 if count < 100 => rng.between(MAX_LENGTH - 30, MAX_LENGTH),
            _ => rng.below(20),
        };
        (rng.pick(&[1, 9, 10, 255, 600, MAX_KIND]), rng.bytes(length))
    };
    let records: Vec<(u64, Vec<u8>)> = (0..count).map(one).collect();
    listing(first_lsn.max(1), &records)
}

// ---------------------------------------------------------------- comparison

/// What a run came to.
pub struct Report {
    pub texts: u64,
    pub granted: u64,
    pub difference: Option<(String, Difference)>,
}

/// Runs another logload on the texts, and another loglist on the images that it writes, and stops at the first difference.
pub fn compare_load(
    logload_program: &Path,
    loglist_program: &Path,
    first_seed: u64,
    count: u64,
) -> io::Result<Report> {
    let mut report = Report { texts: 0, granted: 0, difference: None };
    for Text { seed, name, bytes: text } in all_texts(first_seed, count) {
        report.texts += 1;
        let ours = output(&text);
        let mut found = run(logload_program, seed, "logload", &text, &ours)?;
        if !ours.starts_with(b"refused") && found.is_none() {
            report.granted += 1;
            found = run(loglist_program, seed, "loglist", &ours, &text)?;
        }
        if let Some(found) = found {
            report.difference = Some((name, found));
            break;
        }
    }
    Ok(report)
}

/// Whether a program's output for an input differs from what is due, or it does not end well.
fn run(
    program: &Path,
    seed: u64,
    what: &'static str,
    input: &[u8],
    due: &[u8],
) -> io::Result<Option<Difference>> {
    let (theirs, status) = output_and_status(program, input)?;
    let differs = |ours: &[u8], theirs: &[u8]| {
        difference(seed, what, &shown(ours), &shown(theirs))
            // Alike as they are shown.
            .or_else(|| difference(seed, what, b"other bytes", theirs))
    };
    Ok(if theirs != due {
        differs(due, &theirs)
    } else if !status.success() {
        difference(seed, what, b"", format!("(ended with {status})").as_bytes())
    } else {
        None
    })
}

/// An image's bytes as a line for each word that is not 0, any other output as it is.
fn shown(output: &[u8]) -> Vec<u8> {
    let (words, rest) = output.as_chunks::<8>();
    if !rest.is_empty() || words.len() < 100 || output.starts_with(b"lsn") {
        return output.to_vec();
    }
    let words = words.iter().map(|word| u64::from_le_bytes(*word)).enumerate();
    let lines = words.filter(|(_, word)| *word != 0);
    lines.map(|(i, word)| format!("word {i} is {word:x} hex\n")).collect::<String>().into_bytes()
}
