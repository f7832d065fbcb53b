//! Trees of splits with the text or the refusal that document 02 asks for: worked cases of Change 14, and trees in which two things are at
//! fault.

use inputs::ROOM;

use super::fixed::program;
use super::merges::{closed, refused_texts, worked, PLENTY};
use crate::reference::merge::Answer::{self, Merged, Refused, RefusedProgram};
use crate::reference::merge::{Rooms, Split};
use crate::reference::tree::{Tree, DEEPEST};

/// A tree, what is lent, the answer, and where it is spelled out the text that is written.
pub struct Case {
    pub name: String,
    pub tree: Tree,
    pub rooms: Rooms,
    pub answer: Answer,
    pub text: Option<Vec<u8>>,
}

/// Program C, a choice of seven atoms of which the last is both ruled out and demanded, and an end for it under whatever constraints.
const C: [&str; 3] = ["1 1 7 1 2 3 4 5 6 7 0 0", "1 0 0 0 1 7", "1 0 0 0 1 -7"];
const END: [&str; 5] = ["b 8 7", "c 8", "b 9 -7", "c 9", "a"];

/// A tree with its ends.
pub fn lent(program: &[u8], numbers: &[u16], ends: &[impl AsRef<[u8]>]) -> Tree {
    Tree {
        program: program.to_vec(),
        numbers: numbers.to_vec(),
        texts: ends.iter().flat_map(|end| end.as_ref().to_vec()).collect(),
        lengths: ends.iter().map(|end| end.as_ref().len() as u64).collect(),
    }
}

fn case(name: impl Into<String>, tree: Tree, answer: Answer) -> Case {
    Case { name: name.into(), tree, rooms: PLENTY, answer, text: None }
}

/// A case whose text is spelled out.
fn written(name: impl Into<String>, tree: Tree, lines: &[impl AsRef<str>]) -> Case {
    let text = closed(lines);
    Case { text: Some(text.clone()), ..case(name, tree, Merged(text.len())) }
}

/// The case with other lengths of store and output.
fn within(case: Case, store: usize, output: usize, answer: Answer) -> Case {
    let name = format!("{}: store {store}, output {output}", case.name);
    Case { name, rooms: Rooms { store, output, ..PLENTY }, answer, text: None, ..case }
}

/// All cases.
pub fn cases() -> Vec<Case> {
    let mut cases = two_halves();
    cases.extend(no_trees());
    cases.extend(of_program_c());
    cases.extend(deep());
    cases.extend(orders());
    cases.extend(root_ends());
    cases.extend(refused_programs());
    cases
}

/// Change 9's worked case as a tree.
fn halves(numbers: &[u16]) -> Tree {
    let Split { program, first, second, .. } = worked();
    lent(&program, numbers, &[first, second])
}

/// "Change 9's result, 167 bytes"
fn two_halves() -> Vec<Case> {
    let good = || case("program A", halves(&[1, 0, 0]), Merged(167));
    let moved = |by: i64| {
        let mut tree = halves(&[1, 0, 0]);
        tree.lengths = [(0, by), (1, -by)].map(|(place, by)| tree.lengths[place].wrapping_add_signed(by)).to_vec();
        tree
    };
    vec![
        good(),
        within(good(), ROOM, 166, Refused(58)),
        within(good(), 124, 167, Merged(167)),
        within(good(), 123, 167, Refused(59)),
        within(good(), 84, 167, Refused(59)),
        within(good(), 83, 167, Refused(57)),
        case("the first length one less", moved(-1), Refused(57)),
        case("the first length one more", moved(1), Refused(57)),
    ]
}

/// "Deeper trees, a list that is no such tree or does not match the lengths, a foreign atom, or an atom split twice on a path"
fn no_trees() -> Vec<Case> {
    let lists: [&[u16]; 13] = [
        &[],
        &[1],
        &[1, 0],
        &[1, 0, 0, 0],
        &[0, 0],
        &[0],
        &[3, 0, 0],
        &[8_191, 0, 0],
        &[65_535, 0, 0],
        &[1, 0, 1, 0, 0],
        &[1, 1, 0, 0, 0],
        &[1, 0, 2, 1, 0, 0, 0],
        &[1, 0, 0, 1, 0, 0],
    ];
    let mut cases: Vec<Case> = lists.iter().map(|numbers| case(format!("list {numbers:?}"), halves(numbers), Refused(64))).collect();
    let twice = |numbers: &[u16], ends| lent(&program(&C), numbers, &vec![closed(&END); ends]);
    cases.push(case("an atom twice, three ends", twice(&[1, 0, 1, 0, 0], 3), Refused(64)));
    cases.push(case("an atom twice, four ends", twice(&[1, 0, 2, 1, 0, 0, 0], 4), Refused(64)));
    let other = |name: &str, change: fn(&mut Tree)| {
        let mut tree = halves(&[1, 0, 0]);
        change(&mut tree);
        case(name, tree, Refused(64))
    };
    cases.extend([
        other("a third length of 0", |tree| tree.lengths.push(0)),
        other("a length too few", |tree| tree.lengths.truncate(1)),
        other("no lengths", |tree| tree.lengths.clear()),
        other("a byte more", |tree| tree.texts.push(b'\n')),
        other("a byte less", |tree| tree.texts.truncate(tree.texts.len() - 1)),
        other("one length for both", |tree| tree.lengths = vec![tree.lengths.iter().sum()]),
        other("lengths that come round", |tree| tree.lengths = vec![u64::MAX, tree.lengths.iter().sum::<u64>() + 1]),
        other("lengths that come round by halves", |tree| tree.lengths = vec![1 << 63 | tree.lengths[0], 1 << 63 | tree.lengths[1]]),
    ]);
    cases
}

/// An end of C for each end of the tree.
fn tree_of_c(numbers: &[u16]) -> Tree {
    let ends = numbers.iter().filter(|number| **number == 0).count();
    lent(&program(&C), numbers, &vec![closed(&END); ends])
}

fn of_program_c() -> Vec<Case> {
    let front = &END[..4];
    let again = ["c 8", "c 9"];
    let right = [front, &["a 1"], &again, &["a 2 -1"], &again, &["a -2 -1", "a -1", "a"]].concat();
    let left = [front, &["a 2 1"], &again, &["a -2 1", "a 1"], &again, &["a -1", "a"]].concat();
    let both = [front, &["a 2 1"], &again, &["a -2 1", "a 1"], &again, &["a 2 -1"], &again, &["a -2 -1", "a -1", "a"]].concat();
    let reused = [front, &["a 3 2"], &again, &["a -3 2", "a 2"], &again, &["a 3 -2"], &again, &["a -3 -2", "a -2", "a"]].concat();
    vec![
        Case { answer: Merged(89), ..written("split where 1 is forbidden", tree_of_c(&[1, 0, 2, 0, 0]), &right) },
        Case { answer: Merged(87), ..written("split where 1 is demanded", tree_of_c(&[1, 2, 0, 0, 0]), &left) },
        written("the same atom on two paths", tree_of_c(&[1, 2, 0, 0, 2, 0, 0]), &both),
        written("atoms that descend", tree_of_c(&[2, 3, 0, 0, 3, 0, 0]), &reused),
        written("an end", tree_of_c(&[0]), &END),
    ]
}

/// A chain of so many splits.
fn chain(depth: u16) -> Vec<u16> {
    [(1..=depth).flat_map(|atom| [atom, 0]).collect(), vec![0]].concat()
}

/// "six splits deep", and seven.
fn deep() -> Vec<Case> {
    let mut lines: Vec<String> = END[..4].iter().map(|line| String::from(*line)).collect();
    let negated = |last: i32| (1..=last).rev().map(|atom| format!(" -{atom}")).collect::<String>();
    for atom in 1..=6 {
        lines.push(format!("a {atom}{}", negated(atom - 1)));
        lines.extend(["c 8", "c 9"].map(String::from));
    }
    lines.extend((0..=6).rev().map(|last| format!("a{}", negated(last))));
    let six = || written("six splits on a path", tree_of_c(&chain(6)), &lines);
    let last: Vec<u16> = [chain(6), vec![0]].concat();
    // all 64 ends
    let full: Vec<u16> = (0..DEEPEST as u16).rev().fold(vec![0], |below, atom| [&[atom + 1][..], &below, &below].concat());
    vec![
        Case { answer: Merged(273), ..six() },
        within(six(), ROOM, 273, Merged(273)),
        within(six(), ROOM, 272, Refused(58)),
        within(six(), 126, 273, Merged(273)),
        within(six(), 125, 273, Refused(59)),
        case("seven splits on a path", tree_of_c(&chain(7)), Refused(64)),
        case("six splits and an end more", tree_of_c(&last), Refused(64)),
        case("64 ends", tree_of_c(&full), Merged(FULL)),
    ]
}

/// The bytes of the merge of all ends under six splits: four lines on bodies, 63 times two further ones, an `a` line for each of 64 ends and 63
/// merges, each with the literals of the splits above it.
const FULL: usize = 29 + 63 * 12 + A_LINES;

/// An `a` line at depth k has k literals, half of them of three bytes and half of two, and four bytes else: 2^k lines at each depth, at depth 6
/// those of the ends.
const A_LINES: usize = {
    let mut bytes = 0;
    let mut depth = 0;
    while depth <= DEEPEST {
        bytes += (1 << depth) * 4 + (1 << depth) * depth * 5 / 2;
        depth += 1;
    }
    bytes
};

/// "The first refusal met decides, the demanding side before the other, also where it is an end"
fn orders() -> Vec<Case> {
    let bad_at = |numbers: &[u16], place: usize| {
        let mut ends = vec![closed(&END); 3];
        ends[place] = closed(&END[..4]);
        lent(&program(&C), numbers, &ends)
    };
    let (right, left) = ([1, 0, 2, 0, 0], [1, 2, 0, 0, 0]);
    let first = || case("a bad first end", bad_at(&right, 0), Refused(57));
    let last = || case("a bad last end", bad_at(&left, 2), Refused(57));
    let good = || case("all ends good", tree_of_c(&right), Merged(89));
    vec![
        within(first(), ROOM, 40, Refused(57)),
        within(good(), ROOM, 40, Refused(58)),
        within(last(), ROOM, 40, Refused(58)),
        within(last(), ROOM, 400, Refused(57)),
        within(last(), 24, 400, Refused(59)),
        within(last(), 23, 400, Refused(57)),
    ]
}

/// "an end that is the root alone is a plain proof, written as it stands"; "a root end that isn't accepted is 57, one longer than the output 58"
fn root_ends() -> Vec<Case> {
    let lines = ["b 2 -1", "c 2 1", "s 1 2", "a 1", "d 1 2", "a"];
    let rules = program(&["1 0 1 1 0 1 -1"]);
    let good = || written("example 1 with a deletion", lent(&rules, &[0], &[closed(&lines)]), &lines);
    let open = || case("open", lent(&rules, &[0], &[closed(&[&lines[..], &["d"]].concat())]), Refused(57));
    let long = vec![b'\n'; 65_536];
    vec![
        Case { answer: Merged(43), ..good() },
        within(good(), ROOM, 43, Merged(43)),
        within(good(), ROOM, 42, Refused(58)),
        within(good(), ROOM, 0, Refused(58)),
        within(good(), 19, 43, Merged(43)),
        within(good(), 18, 43, Refused(57)),
        within(good(), 18, 42, Refused(57)),
        open(),
        within(open(), ROOM, 0, Refused(57)),
        case("no bytes", lent(&rules, &[0], &[b""]), Refused(57)),
        case("65,536 bytes", lent(&rules, &[0], &[long]), Refused(57)),
    ]
}

/// "after the program's own questions": every refusal of a program, also where all else is wrong too.
fn refused_programs() -> Vec<Case> {
    let refused = |(number, line, program): (u8, usize, Vec<u8>)| {
        case(format!("program {number}"), Tree { program, ..halves(&[]) }, RefusedProgram { number, line })
    };
    let mut cases: Vec<Case> = refused_texts().into_iter().map(refused).collect();
    let mut cut = halves(&[]);
    cut.program.pop();
    cases.push(case("a cut program", cut, RefusedProgram { number: 3, line: 7 }));
    let short = Rooms { table: 29, store: 0, output: 0 };
    cases.push(Case { rooms: short, ..case("a table too short", halves(&[]), RefusedProgram { number: 10, line: 6 }) });
    let nothing = Tree { program: Vec::new(), numbers: Vec::new(), texts: Vec::new(), lengths: Vec::new() };
    let none = Rooms { table: 0, store: 0, output: 0 };
    cases.push(Case { rooms: none, ..case("nothing", nothing, RefusedProgram { number: 2, line: 1 }) });
    cases
}

/// What is lent to trees in which two things are at fault.
pub const SCARCE: Rooms = Rooms { table: ROOM, store: 400, output: 1_500 };

/// Every tree with two to four ends on the first atoms, and in every two places every two faults, or one.
pub fn faulty() -> Vec<Tree> {
    let lists: [&[u16]; 8] = [
        &[1, 0, 0],
        &[1, 2, 0, 0, 0],
        &[1, 0, 2, 0, 0],
        &[1, 2, 3, 0, 0, 0, 0],
        &[1, 2, 0, 3, 0, 0, 0],
        &[1, 2, 0, 0, 3, 0, 0],
        &[1, 0, 2, 3, 0, 0, 0],
        &[1, 0, 2, 0, 3, 0, 0],
    ];
    lists.iter().flat_map(|numbers| with_faults(numbers)).collect()
}

fn with_faults(numbers: &[u16]) -> Vec<Tree> {
    let count = numbers.iter().filter(|number| **number == 0).count();
    let (program, good, kinds) = (program(&C), closed(&END), faults());
    let mut trees = Vec::new();
    for (one, other) in (0..count).flat_map(|one| (one + 1..count).map(move |other| (one, other))) {
        for (first, second) in kinds.iter().flat_map(|first| kinds.iter().map(move |second| (first, second))) {
            let mut ends = vec![&good; count];
            (ends[one], ends[other]) = (first, second);
            if ends.iter().any(|end| **end != good) {
                trees.push(lent(&program, numbers, &ends));
            }
        }
    }
    trees
}

/// An end of C, and ends that are refused, open, or accepted with lines whose merge is longer than the output, or needs more words than the store
/// has: their deletions do not stay.
fn faults() -> [Vec<u8>; 5] {
    let after = |more: &[u8]| [&closed(&END)[..], more].concat();
    let (long, many) = (b"a 8 9 4 5 6 7 0\nd 8 9 4 5 6 7 0\n", b"c 8 0\nd 8 0\n");
    [closed(&END), after(b"x"), closed(&END[..4]), after(&long.repeat(100)), after(&many.repeat(140))]
}

#[cfg(test)]
mod tests {
    use super::*;
    use crate::reference::tree::merge_tree;
    use std::collections::BTreeMap;

    #[test]
    fn reference_merges_as_the_documents_ask() {
        for case in cases() {
            let found = merge_tree(&case.tree, case.rooms);
            assert_eq!(found.answer, case.answer, "{}", case.name);
            if let (Some(text), Merged(bytes)) = (case.text, found.answer) {
                assert_eq!(String::from_utf8_lossy(&found.output[..bytes]), String::from_utf8_lossy(&text), "{}", case.name);
            }
        }
    }

    /// Of two faults either can decide, each by any of its numbers.
    #[test]
    fn faults_are_met() {
        let mut met: BTreeMap<u8, usize> = BTreeMap::new();
        for tree in faulty() {
            let Refused(number) = merge_tree(&tree, SCARCE).answer else { panic!("{:?} is not refused", tree.numbers) };
            *met.entry(number).or_default() += 1;
        }
        assert!(met.keys().eq(&[57, 58, 59]) && met.values().all(|count| *count > 100), "{met:?}");
    }

    #[test]
    fn a_dead_nogood_stays_at_a_root_end() {
        let case = &root_ends()[0];
        let store = merge_tree(&case.tree, Rooms { store: 25, ..PLENTY }).store;
        assert_eq!(store[..12], [1, 2, -1, -2, -1, 2, 1, 2, 2, 2, -1, 2]);
    }
}
