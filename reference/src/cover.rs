//! Which answers and refusals of which calls a set of generated scripts reaches.

use crate::gen::script;
use crate::layout::{record_size, MAX_KIND, MAX_LENGTH, NAMING_BYTES, REPLACEMENT_KIND};
use crate::ops::OP_WORDS;
use crate::refusal::RecordTest;
use crate::replay::Machine;
use crate::script::{Answer, Command, Outcome, Parsed};
use std::fmt::Write as _;

/// Refusals of a script's calls are numbered 1 to 15, and 20.
const REFUSALS: usize = 20;

/// The calls, and which refusals of document 01's table each can meet. Refusal 1 is every call's. 2 goes
/// with a state or a cursor, 4 with reading the superline, 15 with an op buffer; the table names the
/// calls of 3 and 6 to 14, slip 11 that of 20. 5 is for calls that are handed an LSN, except those that make one. The walk
/// of take up meets 13 and 12. Append meets what its four calls do, but for those that a record in the making cannot meet.
pub const REACHABLE: [(&str, &[usize]); 12] = [
    ("format", &[1, 15]),
    ("reserve", &[1, 2, 3, 8, 9, 10, 15]),
    ("copy", &[1, 2, 5, 6, 7, 15]),
    ("complete", &[1, 2, 5, 6, 15]),
    ("force", &[1, 2, 3, 5, 11, 15]),
    ("release", &[1, 2, 5, 6, 20, 15]),
    ("releaseall", &[1, 2, 11, 15]),
    ("takeup", &[1, 4, 8, 12, 13, 15]),
    ("append", &[1, 2, 3, 8, 9, 10, 11, 15]),
    ("open", &[1, 4]),
    ("next", &[1, 2, 12, 13]),
    ("fetch", &[1, 3, 14]),
];

/// The calls that meet refusal 12, by each test that it can name.
const WALKING: [&str; 2] = ["takeup", "next"];

/// The sorts of an append that have to be met beside its refusals' numbers.
const APPENDS: [&str; 9] = [
    "deferred",
    "durable alone",
    "durable with others",
    "3 by kind",
    "3 by length",
    "3 by frequency",
    "3 by a short replacement",
    "15 by a word, deferred",
    "15 by a word, due",
];

/// Which of these an append is, made on this machine.
fn sort_of_append(before: &Machine, append: &Command, answer: &Answer) -> Option<&'static str> {
    let &Command::Append { kind, frequency, ref bytes } = append else {
        return None;
    };
    let length = bytes.len() as u64;
    let stores = 1 + record_size(length);
    match answer.outcome {
        Outcome::Done { ref numbers, .. } => Some(match numbers[..] {
            [_, 0] => "deferred",
            _ if before.state.committed_lsn + 1 == before.state.next_lsn => "durable alone",
            _ => "durable with others",
        }),
        // One reason, and no other.
        Outcome::Refused { number: 3, .. } => {
            let reasons = [
                (!(1..=MAX_KIND).contains(&kind), "3 by kind"),
                (length > MAX_LENGTH, "3 by length"),
                (frequency == 0, "3 by frequency"),
                (kind == REPLACEMENT_KIND && length < NAMING_BYTES, "3 by a short replacement"),
            ];
            let mut given = reasons.into_iter().filter(|(given, _)| *given);
            let (_, reason) = given.next()?;
            given.next().is_none().then_some(reason)
        }
        Outcome::Refused { number: 15, detail, .. } => {
            let by_a_word = detail == before.op_buffer.len() as u64 + 1;
            let deferred = detail == OP_WORDS as u64 * stores;
            by_a_word.then_some(match deferred {
                true => "15 by a word, deferred",
                false => "15 by a word, due",
            })
        }
        Outcome::Refused { .. } => None,
    }
}

/// Counts for each call: answers that are no refusal at 0, refusals at their numbers; for those that walk, refusal 12 by its test; and the
/// sorts of appends.
pub struct Coverage {
    counts: [[u64; REFUSALS + 1]; REACHABLE.len()],
    tests: [[u64; RecordTest::ALL.len()]; WALKING.len()],
    appends: [u64; APPENDS.len()],
}

impl Coverage {
    /// Of `count` scripts from `seed` on.
    pub fn of_scripts(seed: u64, count: u64) -> Coverage {
        let mut coverage = Coverage {
            counts: [[0; REFUSALS + 1]; REACHABLE.len()],
            tests: [[0; RecordTest::ALL.len()]; WALKING.len()],
            appends: [0; APPENDS.len()],
        };
        for i in 0..count {
            let bytes = script(seed.wrapping_add(i));
            let (words, _) = bytes.as_chunks();
            let mut words = words.iter().map(|word| u64::from_le_bytes(*word));
            let mut machine = Machine::default();
            while let Parsed::Command(command) = Command::parse(&mut words) {
                coverage.count(&mut machine, &command);
            }
        }
        coverage
    }

    /// Carries a command out, and counts what it answers.
    fn count(&mut self, machine: &mut Machine, command: &Command) {
        let is_append = matches!(command, Command::Append { .. });
        let before = is_append.then(|| machine.clone());
        let Some(answer) = machine.run(command).and_then(|line| Answer::parse(&line)) else {
            return;
        };
        if let Some(sort) = before.and_then(|before| sort_of_append(&before, command, &answer)) {
            let index = APPENDS.iter().position(|name| *name == sort);
            self.appends[index.expect("one of these")] += 1;
        }
        let call = REACHABLE.iter().position(|(name, _)| *name == answer.name);
        let call = call.expect("only calls have answers");
        let column = match answer.outcome {
            Outcome::Refused { number, .. } => number as usize,
            Outcome::Done { .. } => 0,
        };
        self.counts[call][column] += 1;
        if let Outcome::Refused { test: Some(test), .. } = answer.outcome {
            let call = WALKING.iter().position(|name| *name == answer.name);
            self.tests[call.expect("only these walk")][test as usize] += 1;
        }
    }

    /// Calls that walk, with the tests of refusal 12 that no script reached.
    pub fn uncovered_tests(&self) -> Vec<(&'static str, &'static str)> {
        let mut pairs = Vec::new();
        for (name, counts) in WALKING.into_iter().zip(&self.tests) {
            let unmet = RecordTest::ALL.into_iter().filter(|test| counts[*test as usize] == 0);
            pairs.extend(unmet.map(|test| (name, test.word())));
        }
        pairs
    }

    /// Sorts of appends that no script reached.
    pub fn uncovered_appends(&self) -> Vec<&'static str> {
        let sorts = APPENDS.into_iter().zip(&self.appends);
        sorts.filter(|(_, count)| **count == 0).map(|(name, _)| name).collect()
    }

    /// Reachable pairs of call and answer (0: no refusal) that no script reached.
    pub fn uncovered(&self) -> Vec<(&'static str, usize)> {
        let mut pairs = Vec::new();
        for ((name, refusals), counts) in REACHABLE.iter().zip(&self.counts) {
            let columns = std::iter::once(&0).chain(refusals.iter());
            pairs.extend(columns.filter(|&&column| counts[column] == 0).map(|&c| (*name, c)));
        }
        pairs
    }

    /// Pairs that were reached although document 01 has no place for them.
    pub fn unexpected(&self) -> Vec<(&'static str, usize)> {
        let mut pairs = Vec::new();
        for ((name, refusals), counts) in REACHABLE.iter().zip(&self.counts) {
            let columns = (1..=REFUSALS).filter(|column| !refusals.contains(column));
            pairs.extend(columns.filter(|&column| counts[column] > 0).map(|c| (*name, c)));
        }
        pairs
    }

    /// The table, a dot where a call cannot meet a refusal; refusal 12 by its test; the sorts of appends; and the line `uncovered: ...`.
    pub fn report(&self) -> String {
        let mut text = format!("{:<10} {:>7}", "call", "ok");
        for number in 1..=REFUSALS {
            let _ = write!(text, " {number:>6}");
        }
        text.push('\n');
        for ((name, refusals), counts) in REACHABLE.iter().zip(&self.counts) {
            let _ = write!(text, "{name:<10} {:>7}", counts[0]);
            for (number, &count) in counts.iter().enumerate().skip(1) {
                if refusals.contains(&number) || count > 0 {
                    let _ = write!(text, " {count:>6}");
                } else {
                    let _ = write!(text, " {:>6}", ".");
                }
            }
            text.push('\n');
        }
        let _ = write!(text, "\n{:<10}", "12 by test");
        for test in RecordTest::ALL {
            let _ = write!(text, " {:>6}", test.word());
        }
        text.push('\n');
        for (name, counts) in WALKING.into_iter().zip(&self.tests) {
            let _ = write!(text, "{name:<10}");
            for count in counts {
                let _ = write!(text, " {count:>6}");
            }
            text.push('\n');
        }
        text.push('\n');
        for (name, count) in APPENDS.into_iter().zip(&self.appends) {
            let _ = writeln!(text, "append {name:<24} {count:>6}");
        }
        if !self.unexpected().is_empty() {
            let _ = writeln!(text, "unexpected: {}", named(&self.unexpected()).join(", "));
        }
        let mut uncovered = named(&self.uncovered());
        let tests = self.uncovered_tests().into_iter();
        uncovered.extend(tests.map(|(name, test)| format!("{name} 12 {test}")));
        let appends = self.uncovered_appends().into_iter();
        uncovered.extend(appends.map(|name| format!("append {name}")));
        if uncovered.is_empty() {
            uncovered.push("none".to_string());
        }
        let _ = writeln!(text, "uncovered: {}", uncovered.join(", "));
        text
    }
}

fn named(pairs: &[(&str, usize)]) -> Vec<String> {
    let name = |(name, column): &(&str, usize)| match column {
        0 => format!("{name} ok"),
        number => format!("{name} {number}"),
    };
    pairs.iter().map(name).collect()
}
