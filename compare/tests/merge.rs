//! The reference's merge by itself, without the library: the worked case of Change 9 by its bytes, its table and its store.

#[allow(dead_code)]
#[path = "../src/reference/mod.rs"]
mod reference;

use reference::check::{check, verdict_line};
use reference::merge::{merge, Answer, Rooms, Split};

const PROGRAM: &str = "1 1 2 1 2 0 0\n1 0 0 0 2 1 2\n1 0 0 0 2 1 -2\n1 0 0 0 2 -1 2\n1 0 0 0 2 -1 -2\n";
const FIRST: &str = "b 3 -1;c 3;b 4 1 2;c 4;b 5 1 -2;c 5;e 6;a 2;d 2;a -2;a -1 2;a";
const SECOND: &str = "b 4 1;c 4;b 3 -1 2;c 3;b 7 -1 -2;c 7;b 9 2 1;e 5 9 -3;a 1 2;a 9 -1;a 5 2;c 9;d 5 2;a";
const MERGED: &str = "e 3 -1;b 4 1 2;c 4;b 5 1 -2;c 5;e 6;a 2 1;a -2 1;a 1;e 8 1;\
    b 10 -1 2;c 10;b 7 -1 -2;c 7;e 11 4 -10;a 4 -1;a 11 2 -1;c 4;a -1;a";

/// The words of the store: for each line its nogoods, with the line's number before each.
const STORE: [&[i32]; 20] = [
    &[1, 2, -1, -3, 1, 2, 1, 3],
    &[2, 3, 1, 2, -4, 2, 2, -1, 4, 2, 2, -2, 4],
    &[3, 1, 4],
    &[4, 3, 1, -2, -5, 4, 2, -1, 5, 4, 2, 2, 5],
    &[5, 1, 5],
    &[6, 1, -6],
    &[7, 2, 1, 2],
    &[8, 2, 1, -2],
    &[9, 1, 1],
    &[10, 2, 1, -8, 10, 2, -1, 8],
    &[11, 3, -1, 2, -10, 11, 2, 1, 10, 11, 2, -2, 10],
    &[12, 1, 10],
    &[13, 3, -1, -2, -7, 13, 2, 1, 7, 13, 2, 2, 7],
    &[14, 1, 7],
    &[15, 3, 4, -10, -11, 15, 2, -4, 11, 15, 2, 10, 11],
    &[16, 2, -1, 4],
    &[17, 3, -1, 2, 11],
    &[18, 1, 4],
    &[19, 1, -1],
    &[20, 0],
];

fn text(lines: &str) -> Vec<u8> {
    lines.split(';').flat_map(|line| format!("{line} 0\n").into_bytes()).collect()
}

fn worked() -> Split {
    Split { program: format!("asp 1 0 0\n{PROGRAM}0\n").into_bytes(), atom: 1, first: text(FIRST), second: text(SECOND) }
}

#[test]
fn worked_case_by_its_bytes_and_words() {
    let merging = merge(&worked(), Rooms { table: 31, store: 125, output: 168 });
    assert_eq!(merging.answer, Answer::Merged(167));
    assert_eq!(merging.output, [&text(MERGED)[..], &[0]].concat());
    assert_eq!(merging.store, [&STORE.concat()[..], &[0]].concat());
    let constraints = [[1, 2], [1, -2], [-1, 2], [-1, -2]].map(|body| [0, 0, 0, 2, body[0], body[1]]);
    assert_eq!(merging.table, [&[1, 2, 0, 0, 1, 2][..], &constraints.concat(), &[0]].concat());
    assert_eq!(verdict_line(&check(&worked().program, &text(MERGED), 30, 124).verdict), "inconsistent 2 5 20 32");
}

#[test]
fn refusals_of_the_worked_case() {
    let answer = |table, store, output| merge(&worked(), Rooms { table, store, output }).answer;
    assert_eq!(answer(30, 124, 167), Answer::Merged(167));
    assert_eq!(answer(29, 124, 167), Answer::RefusedProgram { number: 10, line: 6 });
    assert_eq!([83, 84, 123].map(|store| answer(30, store, 167)), [57, 59, 59].map(Answer::Refused));
    assert_eq!([123, 124].map(|store| answer(30, store, 166)), [58, 58].map(Answer::Refused));
}
