//! The stored script of the proved program replay, and the lines that the program owes: its files `stdin` and `stdout`.

use reference::replay::replay;
use reference::stored_script::stored_script;

const STDIN: &[u8] = include_bytes!("../../crates/replay/stdin");
const STDOUT: &str = include_str!("../../crates/replay/stdout");

#[test]
fn the_stored_script_is_the_one_that_the_reference_writes() {
    assert!(stored_script() == STDIN, "reference stored-script > crates/replay/stdin");
}

#[test]
fn the_stored_lines_are_the_reference_s_answers() {
    let mut lines = Vec::new();
    replay(STDIN, &mut lines, None).unwrap();
    assert_eq!(String::from_utf8(lines).unwrap(), STDOUT);
}

/// Each row of the bench sheet that is about calls stands in the lines, with document 01's numbers.
#[test]
fn the_stored_lines_have_the_rows_of_the_bench_sheet() {
    let rows = [
        // Sizes 3, 4, 4, 5, 131, by the places of six records; a copy's first word.
        "format ok orders 11 s 8 4294967336 ",
        "reserve ok 1 0 ",
        "reserve ok 2 3 ",
        "reserve ok 3 7 ",
        "reserve ok 4 11 ",
        "reserve ok 5 16 ",
        "reserve ok 6 147 ",
        // Format.
        "format ok orders 11 ",
        "format refused 15 33 ",
        "format refused 1 0 ",
        // C = 16.
        "format ok ",
        "reserve refused 10 0 ",
        "reserve ok 1 0 ",
        "format ok ",
        "reserve ok 1 0 orders 5 s 24 73014444035 s 25 1 s 26 0 s 27 0 s 28 0 ",
        "copy ok orders 1 s 27 4407873 ",
        "complete ok ",
        "force putoff orders 0 ",
        "force kept orders 3 f 24 5 s 24 281547991154691 f 24 1 ",
        "words 281547991154691 1 6151524604 4407873 0",
        "format ok ",
        "reserve ok 1 0 ",
        "reserve ok 2 4 ",
        "complete ok ",
        "force refused 11 1 ",
        "format ok ",
        "reserve ok 1 0 ",
        "complete ok ",
        "force kept ",
        "release ok orders 10 ",
        "reserve ok 2 8 orders 13 ",
        "complete ok ",
        "force kept orders 4 f 32 8 f 24 5 ",
        "format ok ",
        "reserve ok 1 0 ",
        "copy ok orders 2 s ",
        "copy refused 7 0 ",
        "copy ok orders 0 ",
    ];
    let lines: Vec<&str> = STDOUT.lines().collect();
    let first = lines
        .windows(rows.len())
        .position(|part| part.iter().zip(rows).all(|(line, row)| line.starts_with(row)));
    let behind = first.expect("the rows stand one behind another") + rows.len();
    // 1 to 9 complete, three times: the format, nine reserves, nine completes, then forces and the state. Change request 3:
    // the ninth keeps nine, or the six behind the third; the seventh is put off.
    let nine = 1 + 9 + 9;
    let mut at = behind + nine;
    for starts in [
        &["force putoff orders 0 ", "force kept orders 17 f 24 33 s 24 ", "state 100 0 1 36 10 8 "]
            [..],
        &["force kept orders 19 f 24 37 s 24 ", "state 100 0 1 36 10 9 "],
        &[
            "force kept orders 7 f 24 13 s 24 ",
            "force putoff orders 0 ",
            "force kept orders 13 f 36 25 s 36 ",
            "state 100 0 1 36 10 9 ",
        ],
    ] {
        for start in starts {
            assert!(lines[at].starts_with(start), "{}", lines[at]);
            at += 1;
        }
        at += nine;
    }
}

/// Append: the sheet's record, each refusal, an op buffer with a word too few and with just enough, deferred and due.
#[test]
fn the_stored_lines_have_the_appends() {
    let lines: Vec<&str> = STDOUT.lines().collect();
    let run = |rows: &[&str]| {
        let fits = |part: &[&str]| part.iter().zip(rows).all(|(line, row)| line.starts_with(row));
        assert!(lines.windows(rows.len()).any(fits), "{rows:?}");
    };
    let stores = "s 24 73014444035 s 25 1 s 26 6151524604 s 27 4407873 s 28 0";
    run(&[
        &format!("append ok 1 0 orders 5 {stores} = "),
        "words 73014444035 1 6151524604 4407873 0",
        "format ok ",
        &format!("append ok 1 1 orders 8 {stores} f 24 5 s 24 281547991154691 f 24 1 = "),
        "words 281547991154691 1 6151524604 4407873 0",
        "state 16 0 1 4 2 1 0 1 [1 0 3 17 3 1]",
        "append refused 3 0 orders 0 = ",
        "append refused 3 0 orders 0 = ",
        "append refused 3 0 orders 0 = ",
        "append refused 3 0 orders 0 = ",
        "append refused 3 0 orders 0 = ",
        "append refused 10 0 orders 0 = ",
        "release ok ",
        "append refused 15 12 orders 0 = ",
        "append ok 2 0 orders 4 s 28 ",
        "append ok 3 0 orders 5 s 31 ",
        "append refused 15 33 orders 0 = ",
        "append ok 4 1 orders 11 s 35 ",
        "append ok 5 1 orders 9 s 38 21474836481 s 39 5 s 24 ",
        "state 16 4 2 2 6 5 ",
    ]);
    run(&[
        "append ok 1 0 ",
        "reserve ok 2 4 ",
        "append refused 11 2 ",
        "append ok 3 0 ",
        "append refused 11 2 ",
        "complete ok ",
        "append ok 4 1 ",
    ]);
    run(&["append refused 2 0 ", "append refused 1 0 ", "format ok ", "append refused 8 0 "]);
    run(&["reserve refused 9 0 ", "append refused 9 0 "]);
}

/// Epochs: of the state that completed a record, of one from before slip 8, falling, above the superline's, behind a wrong check.
#[test]
fn the_stored_lines_have_the_epochs() {
    let lines: Vec<&str> = STDOUT.lines().collect();
    let run = |rows: &[&str]| {
        let fits = |part: &[&str]| part.iter().zip(rows).all(|(line, row)| line.starts_with(row));
        assert!(lines.windows(rows.len()).any(fits), "{rows:?}");
    };
    run(&[
        "open ok 0 1 0 0 0 3 = ",
        "next record 0 1 11 3 1 0 = ",
        "next record 4 2 12 0 1 2 = ",
        "next record 7 3 13 0 1 2 = ",
        "next record 10 4 14 1 1 3 = ",
        "next end 5 = ",
        "state 40 0 1 14 5 4 0 3 [1 0 3 11 3 0] [2 4 0 12 3 2] [3 7 0 13 3 2] [4 10 1 14 3 3]",
    ]);
    run(&["state 40 0 1 10 4 1 1 2 [1 0 3 11 3 0] [2 4 0 12 1 0] [3 7 0 13 2 2]"]);
    let falls =
        ["open ok 7 3 0 0 0 3 = ", "next record 7 3 13 0 1 2 = ", "next refused 12 4 epoch = "];
    let fine =
        ["open ok 7 3 0 0 0 3 = ", "next record 7 3 13 0 1 2 = ", "next record 10 4 14 1 1 3 = "];
    run(&falls);
    run(&fine);
    run(&["next refused 12 4 check = "]);
    run(&[
        "takeup refused 12 4 check ",
        "takeup refused 12 4 epoch ",
        "takeup refused 12 4 epoch ",
        "takeup ok ",
    ]);
}
