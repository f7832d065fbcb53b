//! Splits with the text or the refusal that document 02 asks for: worked cases of Change 9, and cases at the limits.

use inputs::lines::line_of;
use inputs::ROOM;

use super::fixed::program;
use super::limits;
use crate::reference::merge::Answer::{self, Merged, Refused, RefusedProgram};
use crate::reference::merge::{Rooms, Split};
use crate::reference::TEXT_LIMIT;

/// A split, what is lent, the answer, and where it is spelled out the text that is written.
pub struct Case {
    pub name: String,
    pub split: Split,
    pub rooms: Rooms,
    pub answer: Answer,
    pub text: Option<Vec<u8>>,
}

/// Enough for every case.
pub const PLENTY: Rooms = Rooms { table: ROOM, store: ROOM, output: TEXT_LIMIT };

/// A choice of two atoms of which every set is ruled out.
const RULES: [&str; 5] = ["1 1 2 1 2 0 0", "1 0 0 0 2 1 2", "1 0 0 0 2 1 -2", "1 0 0 0 2 -1 2", "1 0 0 0 2 -1 -2"];
const FIRST: [&str; 12] = ["b 3 -1", "c 3", "b 4 1 2", "c 4", "b 5 1 -2", "c 5", "e 6", "a 2", "d 2", "a -2", "a -1 2", "a"];
const SECOND: [&str; 14] =
    ["b 4 1", "c 4", "b 3 -1 2", "c 3", "b 7 -1 -2", "c 7", "b 9 2 1", "e 5 9 -3", "a 1 2", "a 9 -1", "a 5 2", "c 9", "d 5 2", "a"];
/// What the two come to, after the lines on the added body of the first.
const REST: [&str; 19] = [
    "b 4 1 2",
    "c 4",
    "b 5 1 -2",
    "c 5",
    "e 6",
    "a 2 1",
    "a -2 1",
    "a 1",
    "e 8 1",
    "b 10 -1 2",
    "c 10",
    "b 7 -1 -2",
    "c 7",
    "e 11 4 -10",
    "a 4 -1",
    "a 11 2 -1",
    "c 4",
    "a -1",
    "a",
];

/// Starred example 1's rule, and its halves with the names after N.
const RULE_1: &str = "1 0 1 1 0 1 -1";
const FIRST_1: [&str; 5] = ["b 2 -1", "c 2", "c 2 1", "s 1 2", "a"];
const SECOND_1: [&str; 6] = ["b 2 -1", "b 3 1", "c 3", "c 2 1", "s 1 2", "a"];
const MERGED_1: [&str; 9] = ["b 2 -1", "c 2 1", "s 1 2", "a 1", "e 3 1", "c 2 1", "s 1 2", "a -1", "a"];

/// The text of lines, each with its closing 0.
pub fn closed(lines: &[impl AsRef<str>]) -> Vec<u8> {
    lines.iter().flat_map(|line| format!("{} 0\n", line.as_ref()).into_bytes()).collect()
}

fn split(rules: &[&str], atom: u64, first: &[&str], second: &[&str]) -> Split {
    Split { program: program(rules), atom, first: closed(first), second: closed(second) }
}

fn case(name: impl Into<String>, split: Split, answer: Answer) -> Case {
    Case { name: name.into(), split, rooms: PLENTY, answer, text: None }
}

/// A case whose text is spelled out.
fn written(name: impl Into<String>, split: Split, lines: &[&str]) -> Case {
    let text = closed(lines);
    Case { text: Some(text.clone()), ..case(name, split, Merged(text.len())) }
}

/// Change 9's worked case.
pub fn worked() -> Split {
    split(&RULES, 1, &FIRST, &SECOND)
}

fn starred() -> Split {
    split(&[RULE_1], 1, &FIRST_1, &SECOND_1)
}

/// All cases.
pub fn cases() -> Vec<Case> {
    let mut cases = vec![written("worked", worked(), &[&["e 3 -1"][..], &REST].concat()), written("starred 1", starred(), &MERGED_1)];
    cases.extend(lengths());
    cases.extend(refused_halves());
    cases.extend(bodies_of_the_program());
    cases.extend(names());
    cases.extend(further_lines());
    cases.extend(refused_programs());
    cases.extend(line_limits());
    cases.extend(name_limits());
    cases.extend(rule_limits());
    cases.extend(text_limits());
    cases
}

/// Buffers at their least length and one less, and the order of the questions.
fn lengths() -> Vec<Case> {
    let with = |name: &str, split: Split, table, store, output, answer| {
        let name = format!("{name}: table {table}, store {store}, output {output}");
        Case { rooms: Rooms { table, store, output }, ..case(name, split, answer) }
    };
    let worked = |table, store, output, answer| with("worked", worked(), table, store, output, answer);
    let starred = |table, store, output, answer| with("starred 1", starred(), table, store, output, answer);
    let short = RefusedProgram { number: 10, line: 6 };
    vec![
        worked(30, 124, 167, Merged(167)),
        worked(29, 124, 167, short),
        worked(29, 0, 0, short),
        worked(30, 123, 167, Refused(59)),
        worked(30, 84, 167, Refused(59)),
        worked(30, 83, 167, Refused(57)),
        worked(30, 0, 167, Refused(57)),
        worked(30, 124, 166, Refused(58)),
        worked(30, 123, 166, Refused(58)),
        worked(30, 83, 166, Refused(57)),
        worked(30, 124, 0, Refused(58)),
        starred(6, 40, 66, Merged(66)),
        starred(6, 39, 66, Refused(59)),
        starred(6, 40, 65, Refused(58)),
        starred(5, 40, 66, RefusedProgram { number: 10, line: 2 }),
    ]
}

/// "A half that its check, with the lent store, refuses or finds open, or a foreign atom, is 57"
fn refused_halves() -> Vec<Case> {
    let refused = |name: &str, split| case(name, split, Refused(57));
    let Split { first, second, .. } = worked();
    let open = [&SECOND[..], &["d"]].concat();
    let not_ended = first[..first.len() - 1].to_vec();
    let mut cases = vec![
        refused("halves exchanged", Split { first: second.clone(), second: first.clone(), ..worked() }),
        refused("the first half twice", Split { second: first, ..worked() }),
        refused("the second half twice", Split { first: second, ..worked() }),
        refused("an open second half", split(&RULES, 1, &FIRST, &open)),
        refused("a first half without its last line", split(&RULES, 1, &FIRST[..11], &SECOND)),
        refused("no first half", split(&RULES, 1, &[], &SECOND)),
        refused("no second half", split(&RULES, 1, &FIRST, &[])),
        refused("a first half that does not end its line", Split { first: not_ended, ..worked() }),
        refused("a half of 65,536 bytes", Split { second: b"a 0\n".repeat(16_384), ..worked() }),
        refused("no atoms", split(&["1 0 0 0 0"], 1, &["b 1", "c 1", "a"], &["b 1", "c 1", "a"])),
    ];
    for atom in [0, 3, 8_191, 8_192, 1 << 32 | 1, u64::MAX] {
        cases.push(refused(&format!("atom {atom}"), Split { atom, ..worked() }));
    }
    cases
}

/// "A half's constraint body that the program lacks is defined by `e`", and `c` lines go "that only the added constraint allowed".
fn bodies_of_the_program() -> Vec<Case> {
    let first = |more: &[&'static str]| [&FIRST[..2], more, &FIRST[2..]].concat();
    let with = |name: &str, rule: &str, more: &[&'static str], front: &[&str]| {
        let rules = [&RULES[..], &[rule]].concat();
        written(name, split(&rules, 1, &first(more), &SECOND), &[front, &REST].concat())
    };
    let both = ["b 3 -1", "c 3"];
    vec![
        with("a constraint of the added body", "1 0 0 0 1 -1", &[], &both),
        with("a rule of the added body", "1 0 1 2 0 1 -1", &["c 3 2"], &["b 3 -1", "c 3 2"]),
        with("a choice of the added body", "1 1 1 2 0 1 -1", &[], &["b 3 -1"]),
        with("a weight constraint of the added body", "1 0 0 1 2 2 -1 2 2 1", &[], &both),
        with("a weight rule of the added body", "1 0 1 2 1 2 2 -1 2 2 1", &["c 3 2"], &["b 3 -1", "c 3 2"]),
        with("a weight constraint without it", "1 0 0 1 3 2 -1 2 2 1", &[], &["e 3 -1"]),
        with("a weight constraint that is not reached", "1 0 0 1 3 1 -1 2", &[], &["e 3 -1"]),
    ]
}

/// Names that are exchanged, used both ways, or given by `e` in one half and by `b` in the other.
fn names() -> Vec<Case> {
    let rest = ["b 5 -1 2", "c 5", "b 6 -1 -2", "c 6"];
    let numbers = |first: &[&'static str]| [first, &rest, &["a 1", "a"]].concat();
    let straight = numbers(&["b 3 1 2", "c 3", "b 4 1 -2", "c 4"]);
    let crossed = numbers(&["b 4 1 2", "c 4", "b 3 1 -2", "c 3"]);
    let named = [&straight[..8], &["a 1", "a 1"]].concat();
    let back = ["c 3", "c 4", "c 5", "c 6", "a -1", "a"];
    let merged = |added: &[&'static str]| [&named, added, &back].concat();
    let extended = [&["e 3 -2", "e 4 3 1"][..], &numbers(&["b 7 1 2", "c 7", "b 8 1 -2", "c 8"])].concat();
    vec![
        written("names exchanged", split(&RULES, 1, &straight, &crossed), &merged(&[])),
        written("the same names", split(&RULES, 1, &straight, &straight), &merged(&[])),
        written("names by `b` and by `e`", split(&RULES, 1, &straight, &extended), &merged(&["e 9 -2", "e 10 9 1"])),
    ]
}

/// Lines that stay as often as they stand, an atom that no rule uses, and lines after the empty nogood.
fn further_lines() -> Vec<Case> {
    let unused = [&RULES[..], &["1 0 0 1 9 1 4 0"]].concat();
    let half = ["b 5 1 2", "c 5", "c 5", "b 6 1 -2", "c 6", "b 7 -1 2", "c 7", "b 8 -1 -2", "c 8", "a 1", "a 1", "a"];
    let first = ["b 5 1 2", "c 5", "c 5", "b 6 1 -2", "c 6", "b 7 -1 2", "c 7", "b 8 -1 -2", "c 8", "a 1 3", "a 1 3", "a 3"];
    let second = ["c 5", "c 5", "c 6", "c 7", "c 8", "a 1 -3", "a 1 -3", "a -3", "a"];
    let after = [&FIRST[..], &["a", "a 1", "a -1", "d 4", "a 2 -6"]].concat();
    let front = [&["e 3 -1"][..], &REST[..8], &["a 1", "a 1", "a 2 -6 1"], &REST[8..]].concat();
    vec![
        written("an atom that no rule uses", split(&unused, 3, &half, &half), &[&first[..], &second].concat()),
        written("lines after the empty nogood", split(&RULES, 1, &after, &SECOND), &front),
    ]
}

/// Programs that are refused, with the number and the line; question 10 is about the table that is lent.
pub fn refused_texts() -> [(u8, usize, Vec<u8>); 12] {
    let of = |rule: &str| program(&[rule]);
    let many = format!("1 0 0 1 6 13{}", (1..=13).map(|atom| format!(" {atom} 1")).collect::<String>());
    [
        (1, 0, vec![b'\n'; 65_536]),
        (2, 1, Vec::new()),
        (3, 2, of("1 0 1 1 0 1 -0")),
        (4, 2, of("1 0 1 8192 0 0")),
        (5, 2, of("2 0 1 1 0 0")),
        (6, 2, of("1 0 1 1 0 1")),
        (7, 2, of("1 1 0 0 0")),
        (8, 2, of("1 0 1 1 0 2 2 -2")),
        (9, 1_026, program(&["1 0 0 0 0"; 1_025])),
        (11, 3, [program(&[RULE_1]), b"0\n".to_vec()].concat()),
        (54, 2, of("1 0 0 1 4096 1 1 1")),
        (55, 2, of(&many)),
    ]
}

/// Every refusal of a program, also where all else is wrong too.
fn refused_programs() -> Vec<Case> {
    let refused =
        |(number, line, program)| case(format!("program {number}"), Split { program, ..worked() }, RefusedProgram { number, line });
    let mut cases: Vec<Case> = refused_texts().into_iter().map(refused).collect();
    let bad = Split { program: Vec::new(), atom: 0, first: b"x".to_vec(), second: Vec::new() };
    cases.push(Case { rooms: Rooms { table: 0, store: 0, output: 0 }, ..case("nothing", bad, RefusedProgram { number: 2, line: 1 }) });
    cases
}

/// Example 1's rule, and another that is never reached and names the atom, so that N is the atom; its halves, with the names above N, and
/// further lines after the empty nogood of each.
fn widened(atoms: i32, first: &[String], second: &[String]) -> Split {
    let (one, two) = (atoms + 1, atoms + 2);
    let naming = [format!("b {one} -1"), format!("c {one}"), format!("c {one} 1"), format!("s 1 {one}"), String::from("a")];
    let mut other = naming.to_vec();
    other[1] = format!("b {two} 1");
    other.insert(2, format!("c {two}"));
    Split {
        program: program(&[RULE_1, &format!("1 0 0 1 1 1 {atoms} 0")]),
        atom: 1,
        first: closed(&[&naming[..], first].concat()),
        second: closed(&[&other[..], second].concat()),
    }
}

/// An `a` line of the numbers, without its closing 0.
fn addition(numbers: &[i32]) -> String {
    line_of(b'a', numbers).trim_end_matches(" 0\n").to_owned()
}

/// `a` lines of 64 and 65 numbers that have the literal, its complement or neither, in either half.
fn line_limits() -> Vec<Case> {
    let mut cases = Vec::new();
    let others = |last| (2..=last).collect::<Vec<i32>>();
    let without = |last| widened(80, &[addition(&others(last))], &[]);
    cases.push(case("64 numbers without the literal", without(65), Merged(262)));
    cases.push(case("65 numbers without the literal", without(66), Refused(58)));
    let either = |literal: i32, second: bool| {
        let line = [addition(&[&[literal][..], &others(65)].concat())];
        let (one, two) = if second { (&[][..], &line[..]) } else { (&line[..], &[][..]) };
        widened(80, one, two)
    };
    cases.push(case("65 numbers with the literal", either(1, false), Merged(262)));
    cases.push(case("65 numbers with its complement", either(-1, false), Merged(72)));
    cases.push(case("65 numbers with the second literal", either(-1, true), Merged(263)));
    cases.push(case("65 numbers with the second's complement", either(1, true), Merged(72)));
    let last = widened(80, &[], &[addition(&others(66))]);
    cases.push(case("65 numbers without the second literal", last, Refused(58)));
    cases
}

/// "the lowest number above N" that is left, and none.
fn name_limits() -> Vec<Case> {
    let clash = |atoms: i32, first: [i32; 3]| {
        let [a, b, c] = first;
        let rules = [RULE_1, &format!("1 0 0 1 1 1 {atoms} 0")].map(String::from);
        let (e, f) = (format!("e {b}"), format!("e {c} {b}"));
        let half = [format!("b {a} -1"), format!("c {a}"), format!("c {a} 1"), format!("s 1 {a}"), e, f, String::from("a")];
        let other = [format!("b {a} -1"), format!("b {b} 1"), format!("c {b}"), format!("c {a} 1"), format!("s 1 {a}"), String::from("a")];
        Split { program: program(&rules.each_ref().map(String::as_str)), atom: 1, first: closed(&half), second: closed(&other) }
    };
    let text = |new: i32| {
        let front = ["b 8189 -1", "c 8189 1", "s 1 8189", "e 8190", "e 8191 8190", "a 1"].map(String::from);
        let back = [&format!("e {new} 1"), "c 8189 1", "s 1 8189", "a -1", "a"].map(String::from);
        closed(&[&front[..], &back].concat())
    };
    let last = clash(8_187, [8_189, 8_190, 8_191]);
    vec![
        case("no name is left", clash(8_188, [8_189, 8_190, 8_191]), Refused(58)),
        Case { text: Some(text(8_188)), ..case("the last name", last, Merged(text(8_188).len())) },
        case("a name in a gap", clash(8_186, [8_187, 8_189, 8_191]), Merged(text(8_188).len())),
        case("no clash, no name left", widened(8_189, &[], &[]), Merged(84)),
    ]
}

/// As many rules as there may be with a full table, and as many bytes of program: nothing is asked of the added constraint.
fn rule_limits() -> Vec<Case> {
    let many = |count: usize| {
        let mut rules = vec![RULE_1];
        rules.resize(count, "1 0 0 0 1 3");
        split(&rules, 1, &FIRST_1.map(above), &SECOND_1.map(above))
    };
    let full = |table| Case { rooms: Rooms { table, ..PLENTY }, ..case(format!("1,024 rules, table {table}"), many(1_024), Merged(66)) };
    let short = Case { answer: RefusedProgram { number: 10, line: 1_025 }, ..full(5_120) };
    let half = closed(&["b 1064", "c 1064", "a"]);
    let of = |bytes| Split { program: limits::program_of_length(bytes), atom: 1_000, first: half.clone(), second: half.clone() };
    let merged = ["b 1064", "c 1064", "a 1000", "c 1064", "a -1000", "a"];
    vec![
        full(5_121),
        short,
        case("1,025 rules", many(1_025), RefusedProgram { number: 9, line: 1_026 }),
        written("65,535 bytes of program", of(TEXT_LIMIT), &merged),
        case("65,536 bytes of program", of(TEXT_LIMIT + 1), RefusedProgram { number: 1, line: 0 }),
    ]
}

/// The line of example 1's halves with the names above 3.
fn above(line: &str) -> &str {
    match line {
        "b 2 -1" => "b 4 -1",
        "b 3 1" => "b 5 1",
        "c 2" => "c 4",
        "c 3" => "c 5",
        "c 2 1" => "c 4 1",
        "s 1 2" => "s 1 4",
        _ => line,
    }
}

/// Texts of just as many bytes as a text may have, and one more.
fn text_limits() -> Vec<Case> {
    let of = |bytes: usize| widened(8_100, &filling(bytes - 84), &[]);
    let lent = |bytes: usize, output: usize, answer| {
        let name = format!("a text of {bytes} bytes, output {output}");
        Case { rooms: Rooms { output, ..PLENTY }, ..case(name, of(bytes), answer) }
    };
    vec![
        lent(65_535, 65_535, Merged(65_535)),
        lent(65_535, 70_000, Merged(65_535)),
        lent(65_535, 65_534, Refused(58)),
        lent(65_536, 65_535, Refused(58)),
        lent(65_536, 70_000, Refused(58)),
    ]
}

/// `a` lines that have so many bytes together once they are widened by atom 1.
fn filling(bytes: usize) -> Vec<String> {
    let widest: Vec<i32> = (8_001..=8_060).collect();
    let each = addition(&widest).len() + 5;
    let count = bytes / each - 1;
    let mut lines = vec![addition(&widest); count];
    let left = bytes - count * each;
    // the letter, the atom, the closing 0 and the newline take 6 bytes of each of two lines
    lines.extend([left / 2, left - left / 2].map(|share| addition(&of_bytes(share - 6))));
    lines
}

/// Different numbers above 1 that take so many bytes, at least 10, with a space before each.
fn of_bytes(bytes: usize) -> Vec<i32> {
    let small: &[i32] = [&[][..], &[2, 100], &[2], &[20], &[100]][bytes % 5];
    let taken: usize = small.iter().map(|number| number.to_string().len() + 1).sum();
    let large = (8_001..).take((bytes - taken) / 5);
    small.iter().copied().chain(large).collect()
}

#[cfg(test)]
mod tests {
    use super::*;
    use crate::reference::check::{check, verdict_line};
    use crate::reference::merge::merge;

    #[test]
    fn reference_merges_as_the_documents_ask() {
        for case in cases() {
            let found = merge(&case.split, case.rooms);
            assert_eq!(found.answer, case.answer, "{}", case.name);
            if let (Some(text), Merged(bytes)) = (case.text, found.answer) {
                assert_eq!(String::from_utf8_lossy(&found.output[..bytes]), String::from_utf8_lossy(&text), "{}", case.name);
            }
        }
    }

    #[test]
    fn worked_case_to_its_store() {
        let found = merge(&worked(), Rooms { table: 30, store: 124, output: 167 });
        let ending = check(&worked().program, &found.output, 30, 124);
        assert_eq!(verdict_line(&ending.verdict), "inconsistent 2 5 20 32");
        assert_eq!((found.table, found.store), (ending.table, ending.store));
    }

    /// Every length of the store by trying: 57 up to what a half needs, then 59 up to what the merged text needs.
    #[test]
    fn stores_by_trying() {
        for store in 0..130 {
            let expected = [Refused(57), Refused(59), Merged(167)][usize::from(store > 83) + usize::from(store > 123)];
            assert_eq!(merge(&worked(), Rooms { table: 30, store, output: 167 }).answer, expected, "{store}");
        }
    }
}
