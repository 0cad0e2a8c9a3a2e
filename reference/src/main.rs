//! The command line. `reference` alone says what there is.

use reference::bench::{bench, same_work, Failure, Programs};
use reference::c_calls::c_calls;
use reference::cells::{self, cells, lister};
use reference::compare::{compare, compare_samples};
use reference::cover::Coverage;
use reference::crash::{crash_bench, Program};
use reference::crash_three::crash_three;
use reference::example::{example, listing};
use reference::gen;
use reference::layout::OLD_TABLE_SIZE;
use reference::load::compare_load;
use reference::loglist::{loglist, read_image_bytes};
use reference::logload::{output, read_text};
use reference::logorphans::{compare_logorphans, logorphans, orphan_image};
use reference::logwhy::{compare_logwhy, logwhy, read_input};
use reference::loss::{self, measure_loss, Measured};
use reference::numbered_calls::numbered_calls;
use reference::replay::replay;
use reference::samples::full_image;
use reference::shortcut::Shortcut;
use reference::stored_script::stored_script;
use reference::three_calls::three_calls;
use reference::three_system::Variant;
use reference::time::{list_times, load_times};
use reference::vet_calls::vet_calls;
use std::fs;
use std::io::{self, BufWriter, Write};
use std::path::{Path, PathBuf};
use std::process::ExitCode;
use std::time::{Duration, Instant};

const USAGE: &str = "\
usage: reference example                 print the listing that the program example prints
       reference loglist                 list the image on standard input
       reference replay [--shortcut K]   run the script on standard input
       reference stored-script           write the stored script of the program replay
       reference gen SEED                write one random script to standard output
       reference gen SEED N DIR          write N scripts as DIR/script-<seed>.bin
       reference image SEED              write an image from that script, perhaps damaged
       reference full-image [RECORDS]    write an image of 8,192 words full of 64 or so many records
       reference compare REPLAY LOGLIST SEED N
                                         compare two other programs with ours on N seeds
       reference c-calls DRIVER SEED N   compare the calls that a C program makes with ours, on N images
       reference three PROGRAM SEED N    compare the recovery of three modules that a C program makes with ours
       reference vet PROGRAM SEED N      compare the check of other units' ops that a C program makes with ours
       reference crashes PROGRAM SEED N  compare the numbered crashes that a C program finds with ours
       reference logwhy                  say why the LSN behind the image on standard input is listed or not
       reference why LOGWHY SEED N       run another logwhy on images of N seeds, each with many LSNs
       reference logorphans              list the replacements in the image on standard input whose inspection is not listed before them
       reference orphan-image SEED       write an image with replacements that name numbers of every sort
       reference orphans LOGORPHANS SEED N
                                         run another logorphans on images of N seeds
       reference logload                 write the image that the listing on standard input describes
       reference load LOGLOAD LOGLIST SEED N
                                         run two other programs on listings, good and changed, of N seeds
       reference samples LOGLIST         run another loglist on images written word by word
       reference time PROGRAM...         how long each takes to list a full image
       reference time-load PROGRAM...    how long each takes to load the listing of a full image
       reference same-work PROVED PLAIN  whether two bench programs leave the same
       reference bench PROVED PLAIN C_BENCH [PMEM] [--calls C_CALLS] [--append C_APPEND] [--append-pmem C_APPEND] [--carry C_CARRY] [--three C_THREE] [--vet C_VET] [--crashes C_CRASHES] [--rounds N]
                                         how long the calls take, case by case
       reference cover SEED N            count what N scripts reach
       reference crash SECONDS [--program PATH] [--seed S] [--shortcut K]
                                         cut power at random and check what is left
       reference crash-three SECONDS [--seed S] [--variant V]
                                         the same with three modules that are absent, miss ops and lose power
       reference crash-three-variants    the same with each rule broken on purpose: each has to be caught
       reference loss SECONDS [--seed S] [--variant V]
                                         how many completed records a power failure loses, for F of 1 to 16
       reference loss-variants           the same with each rule of the slip broken on purpose: each has to be caught
       reference cells LOGLIST SECONDS [--seed S] [--variant V]
                                         what one changed word does to the list of another loglist
       reference cells-variants LOGLIST  the same with claims that are too strong: each has to be caught
";

fn main() -> ExitCode {
    let args: Vec<String> = std::env::args().skip(1).collect();
    let args: Vec<&str> = args.iter().map(String::as_str).collect();
    match run(&args) {
        Ok(code) => code,
        // Whoever read our output has seen enough.
        Err(error) if error.kind() == io::ErrorKind::BrokenPipe => ExitCode::SUCCESS,
        Err(error) => {
            eprintln!("reference: {error}");
            ExitCode::from(2)
        }
    }
}

fn run(args: &[&str]) -> io::Result<ExitCode> {
    let mut stdout = BufWriter::with_capacity(1 << 16, io::stdout().lock());
    match args {
        ["example"] => match example() {
            Ok(image) => stdout.write_all(listing(&image).as_bytes())?,
            Err(refusal) => return Err(invalid(format!("a call is refused: {refusal:?}"))),
        },
        ["loglist"] => {
            let bytes = read_image_bytes(io::stdin().lock())?;
            stdout.write_all(loglist(&bytes).as_bytes())?;
        }
        ["replay"] => replay(io::stdin().lock(), &mut stdout, None)?,
        ["replay", "--shortcut", number] => {
            replay(io::stdin().lock(), &mut stdout, Some(shortcut(number)?))?;
        }
        ["stored-script"] => stdout.write_all(&stored_script())?,
        ["gen", seed] => stdout.write_all(&gen::script(parse(seed)?))?,
        ["gen", seed, count, directory] => {
            let first: u64 = parse(seed)?;
            for i in 0..parse(count)? {
                let seed = first.wrapping_add(i);
                let path = Path::new(directory).join(format!("script-{seed}.bin"));
                fs::write(path, gen::script(seed))?;
            }
        }
        ["image", seed] => stdout.write_all(&gen::image(parse(seed)?))?,
        ["full-image"] => stdout.write_all(&full_image(OLD_TABLE_SIZE as u64))?,
        ["full-image", records] => match parse(records)? {
            records @ 1..=256 => stdout.write_all(&full_image(records))?,
            _ => return Err(invalid(format!("not 1 to 256 records: {records}"))),
        },
        ["compare", replay, loglist, seed, count] => {
            let result =
                compare(Path::new(replay), Path::new(loglist), parse(seed)?, parse(count)?)?;
            if let Some(found) = &result.difference {
                writeln!(
                    stdout,
                    "seed {}: {} differs in line {}",
                    found.seed, found.what, found.line
                )?;
                writeln!(stdout, "reference: {}\nprogram:   {}", found.ours, found.theirs)?;
            }
            writeln!(
                stdout,
                "compare: {} scripts, {} lines, {} differences",
                result.scripts,
                result.lines,
                result.difference.iter().count()
            )?;
            stdout.flush()?;
            return Ok(if result.difference.is_none() {
                ExitCode::SUCCESS
            } else {
                ExitCode::FAILURE
            });
        }
        ["c-calls", driver, seed, count] => {
            let report = c_calls(Path::new(driver), parse(seed)?, parse(count)?)?;
            if let Some((image, found)) = &report.difference {
                writeln!(
                    stdout,
                    "seed {}, image '{image}': line {} differs",
                    found.seed, found.line
                )?;
                writeln!(stdout, "reference: {}\nprogram:   {}", found.ours, found.theirs)?;
            }
            writeln!(
                stdout,
                "c-calls: {} images, {} calls, {} differences",
                report.images,
                report.calls,
                report.difference.iter().count()
            )?;
            stdout.flush()?;
            return Ok(if report.difference.is_none() {
                ExitCode::SUCCESS
            } else {
                ExitCode::FAILURE
            });
        }
        ["crashes", program, seed, count] => {
            let report = numbered_calls(Path::new(program), parse(seed)?, parse(count)?)?;
            if let Some((sort, found)) = &report.difference {
                writeln!(stdout, "seed {}, {sort}: line {} differs", found.seed, found.line)?;
                writeln!(stdout, "reference: {}\nprogram:   {}", found.ours, found.theirs)?;
            }
            writeln!(
                stdout,
                "crashes: {} op buffers, {} calls, {} differences",
                report.buffers,
                report.calls,
                report.difference.iter().count()
            )?;
            stdout.flush()?;
            return Ok(if report.difference.is_none() {
                ExitCode::SUCCESS
            } else {
                ExitCode::FAILURE
            });
        }
        ["three", program, seed, count] => {
            let report = three_calls(Path::new(program), parse(seed)?, parse(count)?)?;
            if let Some((images, found)) = &report.difference {
                writeln!(
                    stdout,
                    "seed {}, images {images}: line {} differs",
                    found.seed, found.line
                )?;
                writeln!(stdout, "reference: {}\nprogram:   {}", found.ours, found.theirs)?;
            }
            writeln!(
                stdout,
                "three: {} triples, {} calls, {} differences",
                report.triples,
                report.calls,
                report.difference.iter().count()
            )?;
            stdout.flush()?;
            return Ok(if report.difference.is_none() {
                ExitCode::SUCCESS
            } else {
                ExitCode::FAILURE
            });
        }
        ["vet", program, seed, count] => {
            let report = vet_calls(Path::new(program), parse(seed)?, parse(count)?)?;
            if let Some((case, found)) = &report.difference {
                writeln!(stdout, "seed {}, case {case}: line {} differs", found.seed, found.line)?;
                writeln!(stdout, "reference: {}\nprogram:   {}", found.ours, found.theirs)?;
            }
            writeln!(
                stdout,
                "vet: {} cases, {} calls, {} differences",
                report.cases,
                report.calls,
                report.difference.iter().count()
            )?;
            stdout.flush()?;
            return Ok(if report.difference.is_none() {
                ExitCode::SUCCESS
            } else {
                ExitCode::FAILURE
            });
        }
        ["logwhy"] => stdout.write_all(logwhy(&read_input(io::stdin().lock())?).as_bytes())?,
        ["why", program, seed, count] => {
            let report = compare_logwhy(Path::new(program), parse(seed)?, parse(count)?)?;
            if let Some((image, found)) = &report.difference {
                writeln!(stdout, "seed {}, image '{image}': the lines differ", found.seed)?;
                writeln!(stdout, "reference: {}\nprogram:   {}", found.ours, found.theirs)?;
            }
            writeln!(
                stdout,
                "why: {} images, {} inputs, {} differences",
                report.images,
                report.inputs,
                report.difference.iter().count()
            )?;
            stdout.flush()?;
            return Ok(if report.difference.is_none() {
                ExitCode::SUCCESS
            } else {
                ExitCode::FAILURE
            });
        }
        ["logorphans"] => {
            let bytes = read_image_bytes(io::stdin().lock())?;
            stdout.write_all(logorphans(&bytes).as_bytes())?;
        }
        ["orphan-image", seed] => stdout.write_all(&orphan_image(parse(seed)?).1)?,
        ["orphans", program, seed, count] => {
            let report = compare_logorphans(Path::new(program), parse(seed)?, parse(count)?)?;
            if let Some((image, found)) = &report.difference {
                writeln!(
                    stdout,
                    "seed {}, image '{image}': line {} differs",
                    found.seed, found.line
                )?;
                writeln!(stdout, "reference: {}\nprogram:   {}", found.ours, found.theirs)?;
            }
            writeln!(
                stdout,
                "orphans: {} images, {} LSNs, {} differences",
                report.images,
                report.lsns,
                report.difference.iter().count()
            )?;
            stdout.flush()?;
            return Ok(if report.difference.is_none() {
                ExitCode::SUCCESS
            } else {
                ExitCode::FAILURE
            });
        }
        ["logload"] => stdout.write_all(&output(&read_text(io::stdin().lock())?))?,
        ["load", logload, loglist, seed, count] => {
            let (logload, loglist) = (Path::new(logload), Path::new(loglist));
            let report = compare_load(logload, loglist, parse(seed)?, parse(count)?)?;
            if let Some((text, found)) = &report.difference {
                writeln!(
                    stdout,
                    "seed {}, text '{text}': {} differs in line {}",
                    found.seed, found.what, found.line
                )?;
                writeln!(stdout, "reference: {}\nprogram:   {}", found.ours, found.theirs)?;
            }
            writeln!(
                stdout,
                "load: {} texts, {} granted, {} differences",
                report.texts,
                report.granted,
                report.difference.iter().count()
            )?;
            stdout.flush()?;
            return Ok(if report.difference.is_none() {
                ExitCode::SUCCESS
            } else {
                ExitCode::FAILURE
            });
        }
        ["samples", loglist] => match compare_samples(Path::new(loglist))? {
            Ok(count) => writeln!(stdout, "samples: {count} images listed as they should be")?,
            Err(difference) => {
                writeln!(stdout, "samples: {difference}")?;
                stdout.flush()?;
                return Ok(ExitCode::FAILURE);
            }
        },
        [what @ ("time" | "time-load"), programs @ ..] => {
            let paths: Vec<&Path> = programs.iter().map(Path::new).collect();
            let times = if *what == "time" { list_times } else { load_times };
            for (program, time) in programs.iter().zip(times(&paths, 200)?) {
                writeln!(stdout, "{:>8.1} us  {program}", time.as_secs_f64() * 1e6)?;
            }
        }
        ["bench", proved, plain, crc, options @ ..] => {
            let (pmemlog, options) = match options {
                [pmemlog, rest @ ..] if !pmemlog.starts_with('-') => {
                    (Some(Path::new(*pmemlog)), rest)
                }
                _ => (None, options),
            };
            let (mut calls, mut append, mut append_pmem) = (None, None, None);
            let (mut carry, mut three, mut vet, mut crashes) = (None, None, None, None);
            let mut rounds = 31;
            for option in options.chunks(2) {
                match *option {
                    ["--calls", path] => calls = Some(Path::new(path)),
                    ["--append", path] => append = Some(Path::new(path)),
                    ["--append-pmem", path] => append_pmem = Some(Path::new(path)),
                    ["--carry", path] => carry = Some(Path::new(path)),
                    ["--three", path] => three = Some(Path::new(path)),
                    ["--vet", path] => vet = Some(Path::new(path)),
                    ["--crashes", path] => crashes = Some(Path::new(path)),
                    ["--rounds", number] => rounds = parse(number)?,
                    _ => return Err(invalid(format!("not an option: {}", option.join(" ")))),
                }
            }
            if rounds == 0 {
                return Err(invalid("not a good number: 0".to_string()));
            }
            let (proved, plain, crc) = (Path::new(proved), Path::new(plain), Path::new(crc));
            let programs = Programs {
                proved,
                plain,
                crc,
                pmemlog,
                calls,
                append,
                append_pmem,
                carry,
                three,
                vet,
                crashes,
            };
            let done = bench(&programs, rounds, &mut stdout);
            return no_difference(done, &mut stdout);
        }
        ["same-work", proved, plain] => {
            let done = same_work(Path::new(proved), Path::new(plain))
                .and_then(|jobs| Ok(writeln!(stdout, "same-work: {jobs} jobs, 0 differences")?));
            return no_difference(done, &mut stdout);
        }
        ["cover", seed, count] => {
            let coverage = Coverage::of_scripts(parse(seed)?, parse(count)?);
            stdout.write_all(coverage.report().as_bytes())?;
        }
        ["crash", seconds, options @ ..] => return crash(seconds, options),
        ["crash-three", seconds, options @ ..] => return crash_in_three(seconds, options),
        ["crash-three-variants"] => return each_variant(&mut stdout),
        ["loss", seconds, options @ ..] => return loss(seconds, options),
        ["loss-variants"] => return each_loss_variant(&mut stdout),
        ["cells", loglist, seconds, options @ ..] => {
            return one_bad_cell(Path::new(loglist), seconds, options)
        }
        ["cells-variants", loglist] => return each_cell_variant(Path::new(loglist), &mut stdout),
        _ => {
            eprint!("{USAGE}");
            return Ok(ExitCode::from(2));
        }
    }
    stdout.flush()?;
    Ok(ExitCode::SUCCESS)
}

/// Status 1 and a line if two programs left different things.
fn no_difference(done: Result<(), Failure>, out: &mut impl Write) -> io::Result<ExitCode> {
    match done {
        Ok(()) => Ok(ExitCode::SUCCESS),
        Err(Failure::Io(error)) => Err(error),
        Err(Failure::Difference(line)) => {
            writeln!(out, "{line}")?;
            Ok(ExitCode::FAILURE)
        }
    }
}

fn crash(seconds: &str, options: &[&str]) -> io::Result<ExitCode> {
    let mut other_program = None;
    let mut replay_args = vec!["replay".to_string()];
    let mut seed = 1;
    for option in options.chunks(2) {
        match *option {
            ["--program", path] => other_program = Some(PathBuf::from(path)),
            ["--seed", number] => seed = parse(number)?,
            ["--shortcut", number] => {
                shortcut(number)?;
                replay_args.extend(["--shortcut".to_string(), number.to_string()]);
            }
            _ => return Err(invalid(format!("not an option: {}", option.join(" ")))),
        }
    }
    let program = match other_program {
        Some(_) if replay_args.len() > 1 => {
            return Err(invalid("another program takes no short cut".to_string()));
        }
        Some(path) => Program { path, args: Vec::new() },
        None => Program { path: std::env::current_exe()?, args: replay_args },
    };
    let report = crash_bench(&program, seed, Duration::from_secs(parse(seconds)?))?;
    if let Some(failure) = &report.failure {
        println!("seed {}: {}", failure.seed, failure.what);
    }
    println!(
        "crash: {} histories, {} crashes, {} of them in an append, {} images, {} failures",
        report.histories,
        report.crashes,
        report.append_crashes,
        report.images,
        report.failure.iter().count(),
    );
    Ok(if report.failure.is_none() { ExitCode::SUCCESS } else { ExitCode::FAILURE })
}

fn crash_in_three(seconds: &str, options: &[&str]) -> io::Result<ExitCode> {
    let (mut seed, mut variant) = (1, None);
    for option in options.chunks(2) {
        match *option {
            ["--seed", number] => seed = parse(number)?,
            ["--variant", name] => variant = Some(three_variant(name)?),
            _ => return Err(invalid(format!("not an option: {}", option.join(" ")))),
        }
    }
    let report = crash_three(variant, seed, Duration::from_secs(parse(seconds)?));
    if let Some(failure) = &report.failure {
        println!("seed {}: {}", failure.seed, failure.what);
        failure.story.iter().for_each(|event| println!("  {event}"));
    }
    println!(
        "crash-three: {} histories, {} events, {} power failures, {} triples, {} recoveries, {} failures",
        report.histories,
        report.events,
        report.power_failures,
        report.triples,
        report.recoveries,
        report.failure.iter().count(),
    );
    Ok(if report.failure.is_none() { ExitCode::SUCCESS } else { ExitCode::FAILURE })
}

/// Each variant has to be caught within a minute.
fn each_variant(out: &mut impl Write) -> io::Result<ExitCode> {
    let mut caught = 0;
    for (name, variant) in Variant::ALL {
        let start = Instant::now();
        let report = crash_three(Some(variant), 1, Duration::from_secs(60));
        let seconds = start.elapsed().as_secs_f64();
        let what = report.failure.as_ref().map_or("not caught", |failure| &failure.what);
        let histories = report.histories;
        writeln!(out, "{name}: {seconds:.2} s, {histories} histories: {what}")?;
        out.flush()?;
        caught += usize::from(report.failure.is_some());
    }
    let all = Variant::ALL.len();
    writeln!(out, "crash-three-variants: {caught} of {all} caught")?;
    out.flush()?;
    Ok(if caught == all { ExitCode::SUCCESS } else { ExitCode::FAILURE })
}

fn loss(seconds: &str, options: &[&str]) -> io::Result<ExitCode> {
    let (mut seed, mut variant) = (1, None);
    for option in options.chunks(2) {
        match *option {
            ["--seed", number] => seed = parse(number)?,
            ["--variant", name] => {
                let names = || loss::Variant::ALL.map(|(name, _)| name).join(", ");
                let named = loss::Variant::named(name);
                variant =
                    Some(named.ok_or_else(|| invalid(format!("the variants are {}", names())))?);
            }
            _ => return Err(invalid(format!("not an option: {}", option.join(" ")))),
        }
    }
    let report = measure_loss(variant, seed, Duration::from_secs(parse(seconds)?));
    if let Some(failure) = &report.failure {
        println!("seed {}: {}", failure.seed, failure.what);
        failure.story.iter().for_each(|event| println!("  {event}"));
    }
    for (frequency, measured) in (1..).zip(&report.measured) {
        let Measured { images, most_lost, reached } = measured;
        println!("F = {frequency:>2}: {images} images, {most_lost} lost at most, {reached} times {frequency}");
    }
    let unreached = report.unreached();
    if let Some(frequency) = unreached {
        println!("F = {frequency} is never reached");
    }
    println!(
        "loss: {} histories, {} power failures, {} recoveries, {} refused calls, {} images, {} failures",
        report.histories,
        report.power_failures,
        report.recoveries,
        report.refused,
        report.images(),
        report.failure.iter().count() + unreached.iter().count(),
    );
    let good = report.failure.is_none() && unreached.is_none();
    Ok(if good { ExitCode::SUCCESS } else { ExitCode::FAILURE })
}

/// Each variant has to be caught within a minute.
fn each_loss_variant(out: &mut impl Write) -> io::Result<ExitCode> {
    let mut caught = 0;
    for (name, variant) in loss::Variant::ALL {
        let start = Instant::now();
        let report = measure_loss(Some(variant), 1, Duration::from_secs(60));
        let seconds = start.elapsed().as_secs_f64();
        let what = report.failure.as_ref().map_or("not caught", |failure| &failure.what);
        let histories = report.histories;
        writeln!(out, "{name}: {seconds:.2} s, {histories} histories: {what}")?;
        out.flush()?;
        caught += usize::from(report.failure.is_some());
    }
    let all = loss::Variant::ALL.len();
    writeln!(out, "loss-variants: {caught} of {all} caught")?;
    out.flush()?;
    Ok(if caught == all { ExitCode::SUCCESS } else { ExitCode::FAILURE })
}

fn one_bad_cell(loglist: &Path, seconds: &str, options: &[&str]) -> io::Result<ExitCode> {
    let (mut seed, mut variant) = (1, None);
    for option in options.chunks(2) {
        match *option {
            ["--seed", number] => seed = parse(number)?,
            ["--variant", name] => {
                let names = || cells::Variant::ALL.map(|(name, _)| name).join(", ");
                let named = cells::Variant::named(name);
                variant =
                    Some(named.ok_or_else(|| invalid(format!("the variants are {}", names())))?);
            }
            _ => return Err(invalid(format!("not an option: {}", option.join(" ")))),
        }
    }
    let time = Duration::from_secs(parse(seconds)?);
    let report = cells(&mut lister(loglist), variant, seed.., time)?;
    if let Some(failure) = &report.failure {
        let path = std::env::temp_dir().join(format!("cells-{}.hex", failure.seed));
        fs::write(&path, &failure.image)?;
        println!("seed {}: {}", failure.seed, failure.what);
        println!("its words are in {}", path.display());
    }
    print!("changes:\n{}due:\n{}", report.changes.text(), report.due.text());
    println!(
        "cells: {} images, {} changes, {} of them through the program, {} failures",
        report.images,
        report.changes.total(),
        report.through_program,
        report.failure.iter().count(),
    );
    Ok(if report.failure.is_none() { ExitCode::SUCCESS } else { ExitCode::FAILURE })
}

/// Each variant has to be caught within a minute.
fn each_cell_variant(loglist: &Path, out: &mut impl Write) -> io::Result<ExitCode> {
    let mut caught = 0;
    for (name, variant) in cells::Variant::ALL {
        let start = Instant::now();
        let time = Duration::from_secs(60);
        let report = cells(&mut lister(loglist), Some(variant), 1.., time)?;
        let seconds = start.elapsed().as_secs_f64();
        let what = report.failure.as_ref().map_or("not caught", |failure| &failure.what);
        let changes = report.changes.total();
        writeln!(out, "{name}: {seconds:.2} s, {changes} changes: {what}")?;
        out.flush()?;
        caught += usize::from(report.failure.is_some());
    }
    let all = cells::Variant::ALL.len();
    writeln!(out, "cells-variants: {caught} of {all} caught")?;
    out.flush()?;
    Ok(if caught == all { ExitCode::SUCCESS } else { ExitCode::FAILURE })
}

fn three_variant(name: &str) -> io::Result<Variant> {
    let names = || Variant::ALL.map(|(name, _)| name).join(", ");
    Variant::named(name).ok_or_else(|| invalid(format!("the variants are {}", names())))
}

fn parse<T: std::str::FromStr>(text: &str) -> io::Result<T> {
    text.parse().map_err(|_| invalid(format!("not a good number: {text}")))
}

fn shortcut(text: &str) -> io::Result<Shortcut> {
    Shortcut::numbered(parse(text)?).ok_or_else(|| invalid("the short cuts are 1 to 5".to_string()))
}

fn invalid(message: String) -> io::Error {
    io::Error::new(io::ErrorKind::InvalidInput, message)
}
