//! How long the calls take: the proved programs beside plain Rust, the calls for C, zlib, a byte table in C and libpmemlog, in one run.
//!
//! Each program reads five words (job, bytes, live, count, words) and prints the microseconds of CPU time that its timed part took and
//! a digest of what it left. The programs of a case take turns, round by round, and have to leave the same; what counts is the median
//! of each. Jobs of the calls for C have the bytes of a full image behind the five words.

use crate::layout::{OLD_TABLE_SIZE, TABLE_SIZE};
use crate::numbered_crashes::MOST_CRASHES;
use crate::samples::{full_image, full_image_length};
use std::collections::BTreeMap;
use std::fmt;
use std::io::{self, Write};
use std::path::Path;
use std::process::{Command, Stdio};
use std::sync::OnceLock;

const APPEND: u64 = 1;
const CRC: u64 = 2;
const RECOVER: u64 = 3;
const LIST: u64 = 4;
const COUNT_RECORDS: u64 = 5;
const ONE_RECORD: u64 = 6;
const ALL_RECORDS: u64 = 7;
const ALL_BY_LIST: u64 = 8;
const RECOVER_ONE: u64 = 9;
const RECOVER_THREE: u64 = 10;
const REPAIR: u64 = 11;
const VET: u64 = 12;
const CRASHES_OF_STORES: u64 = 13;
const CRASHES_OF_FLUSHES: u64 = 14;
/// An append in one call, and releases as in [`APPEND`].
const ONE_CALL: u64 = 15;
/// Appends with no release, of [`TURN`] records and then of the same ones again: with frequency 8, and with frequency 1.
const RECORDS: u64 = 16;
const DURABLE: u64 = 17;
const TURN: u64 = 8;
/// Release of the head, plus the number of released records behind it.
const RELEASE: u64 = 1000;
/// The same with an LSN that is not live: refused right behind the soundness test.
const NOT_LIVE: u64 = 2000;

/// Words of the largest image.
const LARGEST: u64 = 8_192;
/// Records of the full images, and of the one that the calls for C are made on: 64, as many as there could be before slip 6.
const FEW: u64 = OLD_TABLE_SIZE as u64;
const MANY: u64 = TABLE_SIZE as u64;

/// A run takes at least so many microseconds, and seldom twice as many.
const RUN_TIME: u64 = 10_000;

/// The programs to time.
pub struct Programs<'a> {
    pub proved: &'a Path,
    pub plain: &'a Path,
    pub crc: &'a Path,
    /// These need not be there.
    pub pmemlog: Option<&'a Path>,
    pub calls: Option<&'a Path>,
    /// An append through the calls for C and through the handle, and the same with the driver that stands on libpmem.
    pub append: Option<&'a Path>,
    pub append_pmem: Option<&'a Path>,
    /// The driver that stands on libpmem, alone, with the ops of a durable append.
    pub carry: Option<&'a Path>,
    /// The recovery of three modules through the calls for C.
    pub three: Option<&'a Path>,
    /// The check of another unit's ops through the calls for C.
    pub vet: Option<&'a Path>,
    /// The numbered crashes through the calls for C.
    pub crashes: Option<&'a Path>,
}

pub enum Failure {
    Io(io::Error),
    /// Two programs left different things; the line says which.
    Difference(String),
}

impl From<io::Error> for Failure {
    fn from(error: io::Error) -> Failure {
        Failure::Io(error)
    }
}

/// A program with its arguments, and variables of its environment.
#[derive(Clone, Copy)]
struct Program<'a> {
    path: &'a Path,
    args: &'a [&'a str],
    variables: &'a [(&'a str, &'a str)],
}

impl<'a> Program<'a> {
    fn new(path: &'a Path) -> Program<'a> {
        Program { path, args: &[], variables: &[] }
    }

    /// The microseconds that it took and its digest.
    fn run(&self, case: Case, count: u64) -> io::Result<(u64, u64)> {
        let Case { job, bytes, live, words } = case;
        let mut input: Vec<u8> =
            [job, bytes, live, count, words].into_iter().flat_map(u64::to_le_bytes).collect();
        if (COUNT_RECORDS..=REPAIR).contains(&job) {
            static IMAGE: OnceLock<Vec<u8>> = OnceLock::new();
            input.extend_from_slice(IMAGE.get_or_init(|| full_image(FEW)));
        }
        let name = self.path.display();
        let mut child = Command::new(self.path)
            .args(self.args)
            .envs(self.variables.iter().copied())
            .stdin(Stdio::piped())
            .stdout(Stdio::piped())
            .spawn()
            .map_err(|error| io::Error::new(error.kind(), format!("{name}: {error}")))?;
        // A program that ends early breaks the pipe; its output then tells.
        let _ = child.stdin.take().expect("stdin is piped").write_all(&input);
        let output = String::from_utf8_lossy(&child.wait_with_output()?.stdout).into_owned();
        let numbers: Vec<Option<u64>> =
            output.split_whitespace().map(|number| number.parse().ok()).collect();
        match numbers[..] {
            [Some(time), Some(digest)] => Ok((time, digest)),
            _ => Err(io::Error::other(format!("{name} prints no two numbers for {case}"))),
        }
    }
}

#[derive(Clone, Copy, PartialEq, Eq, PartialOrd, Ord)]
struct Case {
    job: u64,
    bytes: u64,
    live: u64,
    words: u64,
}

impl Case {
    fn call(&self) -> &'static str {
        match self.job {
            APPEND => "append",
            CRC => "crc",
            RECOVER => "recover",
            LIST => "list",
            COUNT_RECORDS => "the number of records",
            ONE_RECORD => "kind, LSN and payload of one record",
            ALL_RECORDS => "number, then kind, LSN and payload of all",
            ALL_BY_LIST => "the list, then the payload of all",
            RECOVER_ONE => "one module",
            RECOVER_THREE => "three equal ones",
            REPAIR => "three, one to repair",
            VET => "vet of 1,000 ops",
            CRASHES_OF_STORES => "11 stores and a flush of all",
            CRASHES_OF_FLUSHES => "4,095 flushes of one word",
            ONE_CALL => "append in one call",
            RECORDS => "append without releases",
            DURABLE => "durable append without releases",
            RELEASE..NOT_LIVE => "release",
            _ => "release of no live LSN",
        }
    }
}

impl fmt::Display for Case {
    fn fmt(&self, f: &mut fmt::Formatter) -> fmt::Result {
        let Case { bytes, live, words, .. } = self;
        write!(f, "{}, bytes {bytes}, live {live}, words {words}", self.call())
    }
}

/// The median nanoseconds for one item, of each program of each case. Every round has all cases in it, so that a while in which the
/// machine is slow falls on all of them.
fn medians(cases: &[(Case, &[Program])], rounds: usize) -> Result<Vec<Vec<f64>>, Failure> {
    let mut counts = Vec::new();
    for (case, programs) in cases {
        // Each crash is asked for as often as every other.
        let crashes = [CRASHES_OF_STORES, CRASHES_OF_FLUSHES].contains(&case.job);
        let mut count = if crashes { MOST_CRASHES } else { 64 };
        while programs[0].run(*case, count)?.0 < RUN_TIME && count < 1 << 30 {
            count *= 2;
        }
        counts.push(count);
    }
    let mut times: Vec<Vec<Vec<u64>>> =
        cases.iter().map(|(_, programs)| vec![Vec::new(); programs.len()]).collect();
    for _ in 0..rounds {
        for (((case, programs), count), times) in cases.iter().zip(&counts).zip(&mut times) {
            for (times, time) in times.iter_mut().zip(one_round(*case, programs, *count)?) {
                times.push(time);
            }
        }
    }
    let median = |times: &mut Vec<u64>, count: u64| {
        times.sort();
        times[times.len() / 2] as f64 * 1_000.0 / count as f64
    };
    let of_case = |(mut times, count): (Vec<Vec<u64>>, u64)| {
        times.iter_mut().map(|times| median(times, count)).collect()
    };
    Ok(times.into_iter().zip(counts).map(of_case).collect())
}

/// Both programs do the same jobs, which are not timed, and leave the same. Tells how many jobs that were.
pub fn same_work(proved: &Path, plain: &Path) -> Result<usize, Failure> {
    let pair = [Program::new(proved), Program::new(plain)];
    let mut jobs = 0;
    // As long as so many fit.
    let few =
        [0, 8, 33, 60].into_iter().flat_map(|live| [8, 63, 64, 991].map(|bytes| (live, bytes)));
    let many = [65, 200, 250].into_iter().flat_map(|live| [8, 63, 64].map(|bytes| (live, bytes)));
    let full = [FEW, MANY].map(|live| (live, full_image_length(live)));
    for (live, bytes) in few.chain(many).chain(full) {
        for job in [APPEND, ONE_CALL, CRC, RECOVER, LIST] {
            one_round(Case { job, bytes, live, words: LARGEST }, &pair, 100)?;
            jobs += 1;
        }
    }
    for job in [RELEASE, NOT_LIVE] {
        for released in [0, 1, 8, 60, 250] {
            for live in [released + 1, released + 2, 252] {
                let case = Case { job: job + released, bytes: 8, live, words: LARGEST };
                one_round(case, &pair, 100)?;
                jobs += 1;
            }
        }
    }
    Ok(jobs)
}

/// The time of each program of a case, which have to leave the same.
fn one_round(case: Case, programs: &[Program], count: u64) -> Result<Vec<u64>, Failure> {
    let mut times = Vec::new();
    let mut digests = Vec::new();
    for program in programs {
        let (time, digest) = program.run(case, count)?;
        times.push(time);
        digests.push(digest);
    }
    if digests.iter().any(|digest| *digest != digests[0]) {
        let mut line = format!("digests differ for {case}, count {count}:");
        for (program, digest) in programs.iter().zip(digests) {
            line += &format!(" {digest} by {}", program.path.display());
        }
        return Err(Failure::Difference(line));
    }
    Ok(times)
}

/// Measures everything and prints the tables. `rounds` is not 0.
pub fn bench(programs: &Programs, rounds: usize, out: &mut impl Write) -> Result<(), Failure> {
    let cores = std::thread::available_parallelism()?;
    writeln!(out, "{cores} cores, {rounds} rounds, the programs by turns")?;
    writeln!(out, "CPU time, medians")?;
    out.flush()?;

    let append = |bytes, live, words| Case { job: APPEND, bytes, live, words };
    let appends: Vec<Case> = [0, 32, 60, 200, 250]
        .map(|live| append(64, live, LARGEST))
        .into_iter()
        .chain([0, 32, 60].map(|live| append(1_024, live, LARGEST)))
        .collect();
    let crcs = [64, 1_024].map(|bytes| Case { job: CRC, bytes, live: 0, words: LARGEST });
    let full = |job, live| Case { job, bytes: full_image_length(live), live, words: LARGEST };
    let full_images = [full(RECOVER, FEW), full(RECOVER, MANY), full(LIST, FEW), full(LIST, MANY)];
    let scan_growth: Vec<Case> = [RECOVER, LIST]
        .into_iter()
        .flat_map(|job| {
            [1_024, 2_048, 4_096, LARGEST].map(|words| {
                // The most whole words for each record that leave one for the terminator.
                let bytes = 8 * ((words - 24 - 1) / FEW - 3);
                Case { job, bytes, live: FEW, words }
            })
        })
        .collect();
    let append_growth: Vec<Case> = [1_024, 4_096]
        .map(|words| append(64, 0, words))
        .into_iter()
        .chain([0, 16, 32, 60, 100, 150, 200, 250].map(|live| append(64, live, LARGEST)))
        .collect();
    // The live records are as many whatever k is; then k is 0, with more and more live records behind the new head.
    let release_cases: Vec<Case> = [(0, 252), (60, 252), (250, 252), (0, 2), (0, 30), (0, 62)]
        .into_iter()
        .flat_map(|(released, live)| {
            [RELEASE, NOT_LIVE].map(|job| Case {
                job: job + released,
                bytes: 8,
                live,
                words: LARGEST,
            })
        })
        .collect();

    let c_calls = [COUNT_RECORDS, ONE_RECORD, ALL_RECORDS, ALL_BY_LIST].map(|job| full(job, FEW));

    let proved = Program::new(programs.proved);
    let plain = Program::new(programs.plain);
    let pair = [proved, plain];
    let crc = Program::new(programs.crc);
    let checks = [proved, Program { args: &["zlib"], ..crc }, Program { args: &["table"], ..crc }];
    let mut cases: Vec<(Case, &[Program])> = Vec::new();
    for case in [&appends[..], &crcs, &full_images, &scan_growth, &append_growth, &release_cases]
        .into_iter()
        .flatten()
    {
        // Some are in two tables, and what a program that is not there would do is left out.
        let there = case.job != CRC || programs.crc.exists();
        if there && !cases.iter().any(|(other, _)| other == case) {
            cases.push((*case, if case.job == CRC { &checks } else { &pair }));
        }
    }
    let calls = programs.calls.filter(|path| path.exists());
    let calls_and_plain = calls.map(|path| [Program::new(path), plain]);
    if let Some(programs) = &calls_and_plain {
        cases.extend(c_calls.iter().map(|case| (*case, &programs[..])));
    }
    let medians = medians(&cases, rounds)?;
    let times: Times = cases.iter().map(|(case, _)| *case).zip(medians).collect();

    print_appends(&appends, &times, out)?;
    if programs.crc.exists() {
        print_crcs(&crcs, &times, out)?;
    } else {
        skipped("the CRC-32", Some(programs.crc), "it is built where zlib's header is", out)?;
    }
    print_full_images(&full_images, &times, out)?;
    print_scan_growth(&scan_growth, &times, out)?;
    print_append_growth(&append_growth, &times, out)?;
    print_releases(&release_cases, &times, out)?;
    if calls.is_some() {
        print_c_calls(&c_calls, &times, out)?;
    } else {
        let built = "it is built where target/lib/libdrivelog.a is, which `make lib` writes";
        skipped("the calls for C", programs.calls, built, out)?;
    }
    boundary(programs, rounds, out)?;
    in_one_call(programs, rounds, out)?;
    three_modules(programs, rounds, out)?;
    another_units_ops(programs, rounds, out)?;
    numbered_crashes(programs, rounds, out)?;
    through_the_handle(programs, rounds, out)?;
    on_a_module(programs, rounds, out)?;
    drivers_share(programs, rounds, out)
}

/// The medians of each case's programs.
type Times = BTreeMap<Case, Vec<f64>>;

/// Proved, plain and the ratio of the two.
fn pair_cells(case: &Case, times: &Times) -> [String; 3] {
    let (proved, plain) = (times[case][0], times[case][1]);
    [ns(proved), ns(plain), ratio(proved / plain)]
}

fn print_appends(cases: &[Case], times: &Times, out: &mut impl Write) -> Result<(), Failure> {
    let mut table = Table::new(
        "Append with the state by value: reserve, copy, complete, force with frequency 8, release of the oldest. Image of 8,192 words.",
        &["bytes", "live", "proved ns", "plain Rust ns", "ratio", "bar", ""],
    );
    for case in cases {
        let mut row = vec![grouped(case.bytes), grouped(case.live)];
        row.extend(pair_cells(case, times));
        row.extend(bar(times[case][0] / times[case][1], if case.bytes == 64 { 1.3 } else { 1.6 }));
        table.row(row);
    }
    table.print(out)
}

fn print_crcs(cases: &[Case], times: &Times, out: &mut impl Write) -> Result<(), Failure> {
    let mut table = Table::new(
        "CRC-32.",
        &["bytes", "proved ns", "zlib ns", "C byte table ns", "to table", "to zlib", "bar", ""],
    );
    for case in cases {
        let [proved, zlib, byte_table] = times[case][..] else { continue };
        let mut row = vec![grouped(case.bytes), ns(proved), ns(zlib), ns(byte_table)];
        row.extend([ratio(proved / byte_table), ratio(proved / zlib)]);
        row.extend(bar(proved / zlib, if case.bytes == 64 { 0.6 } else { 2.0 }));
        table.row(row);
    }
    table.print(out)
}

fn print_full_images(cases: &[Case], times: &Times, out: &mut impl Write) -> Result<(), Failure> {
    let mut table = Table::new(
        "Full images of 8,192 words.",
        &["call", "records", "bytes", "proved ns", "plain Rust ns", "ratio", "bar", ""],
    );
    for case in cases {
        let mut row = vec![case.call().to_string(), grouped(case.live), grouped(case.bytes)];
        row.extend(pair_cells(case, times));
        row.extend(bar(times[case][0] / times[case][1], 1.1));
        table.row(row);
    }
    table.print(out)
}

fn print_scan_growth(cases: &[Case], times: &Times, out: &mut impl Write) -> Result<(), Failure> {
    let mut table = Table::new(
        "Growth of recover and list: images full of 64 records.",
        &[
            "call",
            "words",
            "bytes",
            "proved ns",
            "plain Rust ns",
            "ratio",
            "proved a word",
            "plain a word",
        ],
    );
    for case in cases {
        let mut row = vec![case.call().to_string(), grouped(case.words), grouped(case.bytes)];
        row.extend(pair_cells(case, times));
        row.extend(times[case].iter().map(|time| format!("{:.2}", time / case.words as f64)));
        table.row(row);
    }
    table.print(out)
}

fn print_append_growth(cases: &[Case], times: &Times, out: &mut impl Write) -> Result<(), Failure> {
    let mut table = Table::new(
        "Growth of append, 64 bytes: with the image, then with the live records.",
        &["words", "live", "proved ns", "plain Rust ns", "ratio"],
    );
    for case in cases {
        let mut row = vec![grouped(case.words), grouped(case.live)];
        row.extend(pair_cells(case, times));
        table.row(row);
    }
    table.print(out)
}

/// The cases stand in pairs: the release, and the one that is refused behind the soundness test.
fn print_releases(cases: &[Case], times: &Times, out: &mut impl Write) -> Result<(), Failure> {
    let mut table = Table::new(
        "Release of the head with k released records behind it; what is left without the soundness test.",
        &["k", "live", "proved ns", "refused ns", "left", "plain Rust ns", "refused ns", "left"],
    );
    for pair in cases.chunks_exact(2) {
        let (granted, refused) = (&times[&pair[0]], &times[&pair[1]]);
        let mut row = vec![grouped(pair[0].job % RELEASE), grouped(pair[0].live)];
        for (granted, refused) in granted.iter().zip(refused) {
            row.extend([ns(*granted), ns(*refused), ns(granted - refused)]);
        }
        table.row(row);
    }
    table.print(out)
}

fn print_c_calls(cases: &[Case], times: &Times, out: &mut impl Write) -> Result<(), Failure> {
    let mut table = Table::new(
        "The calls for C on a full image of 8,192 words, 64 records of 991 bytes. Plain Rust makes one pass for each row.",
        &["asked", "C calls", "C ns", "plain Rust ns", "ratio", "bar", ""],
    );
    for case in cases {
        let made = match case.job {
            COUNT_RECORDS => 1,
            ONE_RECORD => 3,
            ALL_RECORDS => 1 + 3 * FEW,
            _ => 1 + FEW,
        };
        let mut row = vec![case.call().to_string(), grouped(made)];
        row.extend(pair_cells(case, times));
        row.extend(match case.job {
            COUNT_RECORDS => bar(times[case][0] / times[case][1], 1.3),
            _ => [String::new(), String::new()],
        });
        table.row(row);
    }
    table.print(out)
}

/// Says that a program is not there.
fn skipped(
    what: &str,
    path: Option<&Path>,
    built: &str,
    out: &mut impl Write,
) -> Result<(), Failure> {
    let why = match path {
        Some(path) => format!("{} is not there; {built}", path.display()),
        None => "no program was named for it".to_string(),
    };
    writeln!(out, "\n{what}: skipped, {why}.")?;
    Ok(())
}

/// An append through the calls for C beside plain Rust, and beside the calls with the state by value.
fn boundary(programs: &Programs, rounds: usize, out: &mut impl Write) -> Result<(), Failure> {
    let Some(append) = programs.append.filter(|path| path.exists()) else {
        let built = "it is built where target/lib/libdrivelog.a is, which `make lib` writes";
        return skipped("append through the calls for C", programs.append, built, out);
    };
    let three =
        [Program::new(append), Program::new(programs.plain), Program::new(programs.proved)];
    let cases: Vec<(Case, &[Program])> = [0, 32, 60, 200, 250]
        .map(|live| (64, live))
        .into_iter()
        .chain([0, 32, 60].map(|live| (1_024, live)))
        .map(|(bytes, live)| (Case { job: APPEND, bytes, live, words: LARGEST }, &three[..]))
        .collect();
    let mut table = Table::new(
        "Append through the calls for C, with the state in lent words, beside plain Rust and the calls by value. Image of 8,192 words.",
        &["bytes", "live", "C ns", "plain Rust ns", "ratio", "bar", "", "by value ns", "ratio", "bar", ""],
    );
    for ((case, _), medians) in cases.iter().zip(medians(&cases, rounds)?) {
        let [words, plain, by_value] = medians[..] else { continue };
        let mut row = vec![grouped(case.bytes), grouped(case.live)];
        row.extend([ns(words), ns(plain), ratio(words / plain)]);
        row.extend(bar(words / plain, if case.bytes == 64 { 1.3 } else { 1.6 }));
        row.extend([ns(by_value), ratio(words / by_value)]);
        row.extend(bar(words / by_value, 1.25));
        table.row(row);
    }
    table.print(out)
}

/// The one call for an append through the calls for C beside the four calls, and beside the one of plain Rust.
fn in_one_call(programs: &Programs, rounds: usize, out: &mut impl Write) -> Result<(), Failure> {
    let Some(path) = programs.append.filter(|path| path.exists()) else {
        let built = "it is built where target/lib/libdrivelog.a is, which `make lib` writes";
        return skipped("append in one call", programs.append, built, out);
    };
    let once = Program { path, args: &["once"], variables: &[] };
    let three = [once, Program::new(path), Program::new(programs.plain)];
    let cases: Vec<(Case, &[Program])> = [(64, 0), (64, 56), (64, 248), (1_024, 0), (1_024, 48)]
        .map(|(bytes, live)| (Case { job: RECORDS, bytes, live, words: LARGEST }, &three[..]))
        .to_vec();
    let mut table = Table::new(
        "Append in one call through the calls for C, frequency 8, with no release: beside reserve, copy, complete and force, and beside the one call in plain Rust. Image of 8,192 words.",
        &["bytes", "live", "C, one call ns", "C, four calls ns", "ratio", "bar", "", "plain Rust, one call ns", "ratio", "bar", ""],
    );
    for ((case, _), medians) in cases.iter().zip(medians(&cases, rounds)?) {
        let [one, four, plain] = medians[..] else { continue };
        let mut row = vec![grouped(case.bytes), turn(case.live)];
        let no_bar = || [String::new(), String::new()];
        row.extend([ns(one), ns(four), ratio(one / four)]);
        row.extend(if case.bytes == 64 { bar(one / four, 0.5) } else { no_bar() });
        row.extend([ns(plain), ratio(one / plain)]);
        row.extend(if case.bytes == 64 { bar(one / plain, 1.15) } else { no_bar() });
        table.row(row);
    }
    table.print(out)
}

/// How many records are live while a turn is appended.
fn turn(live: u64) -> String {
    format!("{live} to {}", live + TURN)
}

/// The recovery of full images through the calls for C beside plain Rust: of one module, of three, and of three with a repair.
fn three_modules(programs: &Programs, rounds: usize, out: &mut impl Write) -> Result<(), Failure> {
    let Some(three) = programs.three.filter(|path| path.exists()) else {
        let built = "it is built where target/lib/libdrivelog.a is, which `make lib` writes";
        return skipped("the recovery of three modules", programs.three, built, out);
    };
    let pair = [Program::new(three), Program::new(programs.plain)];
    let cases = [RECOVER_ONE, RECOVER_THREE, REPAIR].map(|job| {
        let case = Case { job, bytes: full_image_length(FEW), live: FEW, words: LARGEST };
        (case, &pair[..])
    });
    let mut table = Table::new(
        "Recovery through the calls for C of full images of 8,192 words, 64 records of 991 bytes.",
        &["recovered", "C ns", "plain Rust ns", "ratio", "bar", "", "to one module", "bar", ""],
    );
    let medians = medians(&cases, rounds)?;
    for ((case, _), times) in cases.iter().zip(&medians) {
        let (c, plain, of_one) = (times[0], times[1], times[0] / medians[0][0]);
        let mut row = vec![case.call().to_string(), ns(c), ns(plain), ratio(c / plain)];
        let no_bar = || [String::new(), String::new()];
        row.extend(if case.job == RECOVER_ONE { no_bar() } else { bar(c / plain, 1.2) });
        row.push(ratio(of_one));
        row.extend(if case.job == RECOVER_THREE { bar(of_one, 3.3) } else { no_bar() });
        table.row(row);
    }
    table.print(out)
}

/// The check of 1,000 ops of another unit through the calls for C beside plain Rust.
fn another_units_ops(
    programs: &Programs,
    rounds: usize,
    out: &mut impl Write,
) -> Result<(), Failure> {
    let Some(vet) = programs.vet.filter(|path| path.exists()) else {
        let built = "it is built where target/lib/libdrivelog.a is, which `make lib` writes";
        return skipped("the check of another unit's ops", programs.vet, built, out);
    };
    let pair = [Program::new(vet), Program::new(programs.plain)];
    let cases: Vec<(Case, &[Program])> = [0, 250]
        .map(|live| (Case { job: VET, bytes: 64, live, words: LARGEST }, &pair[..]))
        .to_vec();
    let mut table = Table::new(
        "Vet through the calls for C of 1,000 ops, three of four of them stores. Image of 8,192 words, records of 64 bytes.",
        &["live", "C ns", "plain Rust ns", "ratio", "bar", ""],
    );
    for ((case, _), times) in cases.iter().zip(medians(&cases, rounds)?) {
        let (c, plain) = (times[0], times[1]);
        let mut row = vec![grouped(case.live), ns(c), ns(plain), ratio(c / plain)];
        row.extend(bar(c / plain, 1.2));
        table.row(row);
    }
    table.print(out)
}

/// All crashes of an op buffer that has 4,096, asked for by number through the calls for C, beside plain Rust.
fn numbered_crashes(
    programs: &Programs,
    rounds: usize,
    out: &mut impl Write,
) -> Result<(), Failure> {
    let Some(crashes) = programs.crashes.filter(|path| path.exists()) else {
        let built = "it is built where target/lib/libdrivelog.a is, which `make lib` writes";
        return skipped("the numbered crashes", programs.crashes, built, out);
    };
    let pair = [Program::new(crashes), Program::new(programs.plain)];
    let cases = [CRASHES_OF_STORES, CRASHES_OF_FLUSHES]
        .map(|job| (Case { job, bytes: 0, live: 0, words: LARGEST }, &pair[..]));
    let mut table = Table::new(
        "The image of a crash by its number through the calls for C, for each of the 4,096 crashes of an op buffer. Image of 8,192 words.",
        &["op buffer", "C ns", "plain Rust ns", "ratio", "bar", ""],
    );
    for ((case, _), times) in cases.iter().zip(medians(&cases, rounds)?) {
        let (c, plain) = (times[0], times[1]);
        let mut row = vec![case.call().to_string(), ns(c), ns(plain), ratio(c / plain)];
        row.extend(bar(c / plain, 1.3));
        table.row(row);
    }
    table.print(out)
}

/// An append through the handle on a module in /dev/shm, beside the calls that it makes, and on three modules.
fn through_the_handle(
    programs: &Programs,
    rounds: usize,
    out: &mut impl Write,
) -> Result<(), Failure> {
    let Some(path) = programs.append.filter(|path| path.exists()) else {
        let built = "it is built where target/lib/libdrivelog.a is, which `make lib` writes";
        return skipped("append through the handle", programs.append, built, out);
    };
    let modes: [&[&str]; 5] =
        [&["checked"], &["handle"], &["three"], &["carried"], &["carried-four"]];
    let five = modes.map(|args| Program { path, args, variables: &[] });
    let cases: Vec<(Case, &[Program])> = [(64, 0), (64, 60), (64, 250), (1_024, 0), (1_024, 60)]
        .map(|(bytes, live)| (Case { job: APPEND, bytes, live, words: LARGEST }, &five[..]))
        .to_vec();
    let mut table = Table::new(
        "Append through the handle on modules in /dev/shm, beside the calls that it makes: drivelog_append, driver_carry, and driver_check where it answers durable; frequency 8, release of the oldest.",
        &[
            "bytes", "live", "calls ns", "handle ns", "ratio", "bar", "", "three modules ns", "to one", "bar", "",
            "calls without driver_check ns", "the same with four calls ns",
        ],
    );
    for ((case, _), medians) in cases.iter().zip(medians(&cases, rounds)?) {
        let [calls, handle, three, unchecked, by_four] = medians[..] else { continue };
        let mut row = vec![grouped(case.bytes), grouped(case.live)];
        row.extend([ns(calls), ns(handle), ratio(handle / calls)]);
        row.extend(bar(handle / calls, 1.05));
        row.extend([ns(three), ratio(three / handle)]);
        row.extend(bar(three / handle, 3.2));
        row.extend([ns(unchecked), ns(by_four)]);
        table.row(row);
    }
    table.print(out)
}

/// A durable append with its ops carried out on a module in /dev/shm, beside libpmemlog's on a pool there. A program that is not there has
/// no number.
fn on_a_module(programs: &Programs, rounds: usize, out: &mut impl Write) -> Result<(), Failure> {
    const LINES: &[(&str, &str)] = &[("PMEM_IS_PMEM_FORCE", "1")];
    let columns: [(Option<&Path>, &[&str], &[(&str, &str)]); 5] = [
        (programs.append_pmem, &["carried"], LINES),
        (programs.pmemlog, &[], LINES),
        (programs.append_pmem, &["carried-four"], LINES),
        (programs.append, &["carried"], &[]),
        (programs.pmemlog, &[], &[]),
    ];
    let there = columns.map(|(path, args, variables)| {
        path.filter(|path| path.exists()).map(|path| [Program { path, args, variables }])
    });
    if there.iter().all(Option::is_none) {
        let built = "it is built where target/lib/libdrivelog.a is";
        return skipped("append on a module", programs.append, built, out);
    }
    let mut table = Table::new(
        "Durable append, frequency 1, with no release, its ops carried out on a module in /dev/shm, beside libpmemlog's append on a pool there. Image of 8,192 words.",
        &[
            "bytes",
            "live",
            "one call, libpmem ns",
            "libpmemlog, cache lines ns",
            "ratio",
            "bar",
            "",
            "four calls, libpmem ns",
            "one call, msync ns",
            "libpmemlog, msync ns",
        ],
    );
    let rows = [(64, 0), (1_024, 0), (64, 56), (64, 248)];
    let mut cases: Vec<(Case, &[Program])> = Vec::new();
    for (bytes, live) in rows {
        let case = Case { job: DURABLE, bytes, live, words: LARGEST };
        cases.extend(there.iter().flatten().map(|program| (case, &program[..])));
    }
    let mut medians = medians(&cases, rounds)?.into_iter().flatten();
    for (bytes, live) in rows {
        let times = there.each_ref().map(|program| program.as_ref().and_then(|_| medians.next()));
        let cells = times.map(|time| time.map_or("not there".to_string(), ns));
        let mut row = vec![grouped(bytes), turn(live), cells[0].clone(), cells[1].clone()];
        match (times[0], times[1], live) {
            (Some(one), Some(theirs), 0) => {
                row.push(ratio(one / theirs));
                row.extend(bar(one / theirs, if bytes == 64 { 1.0 } else { 2.2 }));
            }
            (Some(one), Some(theirs), _) => {
                row.extend([ratio(one / theirs), String::new(), String::new()]);
            }
            _ => row.extend([(); 3].map(|()| String::new())),
        }
        row.extend(cells[2..].iter().cloned());
        table.row(row);
    }
    table.print(out)
}

/// The ops of a durable append alone, carried out on a module in /dev/shm taken for persistent memory: the driver's share of the table above.
fn drivers_share(programs: &Programs, rounds: usize, out: &mut impl Write) -> Result<(), Failure> {
    let Some(path) = programs.carry.filter(|path| path.exists()) else {
        return skipped("the driver's share", programs.carry, "it is built where libpmem is", out);
    };
    let carry = [Program { path, args: &[], variables: &[("PMEM_IS_PMEM_FORCE", "1")] }];
    let lengths = [64, 1_024];
    let cases: Vec<(Case, &[Program])> = lengths
        .map(|bytes| (Case { job: APPEND, bytes, live: 0, words: LARGEST }, &carry[..]))
        .to_vec();
    let mut table = Table::new(
        "The driver's share: the ops of a durable append, carried out on a module in /dev/shm taken for persistent memory.",
        &["bytes", "driver_carry ns"],
    );
    for (bytes, median) in lengths.iter().zip(medians(&cases, rounds)?.into_iter().flatten()) {
        table.row(vec![grouped(*bytes), ns(median)]);
    }
    table.print(out)
}

// ---------------------------------------------------------------- text

/// A table in Markdown that can be read as it is.
struct Table {
    title: String,
    rows: Vec<Vec<String>>,
}

impl Table {
    fn new(title: &str, heading: &[&str]) -> Table {
        let heading = heading.iter().map(|cell| cell.to_string()).collect();
        Table { title: title.to_string(), rows: vec![heading] }
    }

    fn row(&mut self, cells: Vec<String>) {
        self.rows.push(cells);
    }

    fn print(&self, out: &mut impl Write) -> Result<(), Failure> {
        let columns = self.rows[0].len();
        let width = |i: usize| self.rows.iter().map(|row| row[i].len()).max().unwrap_or(0);
        let widths: Vec<usize> = (0..columns).map(width).collect();
        writeln!(out, "\n{}\n", self.title)?;
        for (i, row) in self.rows.iter().enumerate() {
            let cells = row.iter().zip(&widths).map(|(cell, width)| format!(" {cell:>width$} |"));
            writeln!(out, "|{}", cells.collect::<String>())?;
            if i == 0 {
                let rule = widths.iter().map(|width| format!("{}:|", "-".repeat(width + 1)));
                writeln!(out, "|{}", rule.collect::<String>())?;
            }
        }
        out.flush()?;
        Ok(())
    }
}

/// The bar that a ratio is held to, and whether it is met.
fn bar(value: f64, most: f64) -> [String; 2] {
    let verdict = if value <= most { "met" } else { "missed" };
    [format!("at most {most:?}"), verdict.to_string()]
}

fn ratio(value: f64) -> String {
    format!("{value:.2}")
}

/// Nanoseconds, whole from 1,000 on.
fn ns(time: f64) -> String {
    if time < 1_000.0 {
        format!("{time:.1}")
    } else {
        grouped(time.round() as u64)
    }
}

/// A number as 8,192.
fn grouped(number: u64) -> String {
    let digits = number.to_string();
    let mut text = String::new();
    for (i, digit) in digits.chars().enumerate() {
        if i > 0 && (digits.len() - i).is_multiple_of(3) {
            text.push(',');
        }
        text.push(digit);
    }
    text
}
