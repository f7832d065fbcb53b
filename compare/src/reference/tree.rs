//! A tree of splits, Change 14 of document 02, with its question 64.

use std::collections::BTreeSet;

use super::filled;
use super::merge::{accepted, demanding, joined, Accepted, Answer, Merging, Rooms};
use super::program::{read, table_words, Program};

/// What is lent but for table, store and output.
#[derive(Clone, Debug, PartialEq, Eq)]
pub struct Tree {
    pub program: Vec<u8>,
    pub numbers: Vec<u16>,
    pub texts: Vec<u8>,
    pub lengths: Vec<u64>,
}

/// An end, or a split on an atom with its two sides, "the demanding side first".
#[derive(Clone, Debug, PartialEq, Eq)]
pub enum Shape {
    End,
    Split(i32, Box<Shape>, Box<Shape>),
}

/// "A tree up to six splits deep"
pub const DEEPEST: usize = 6;

impl Shape {
    /// How many ends it has.
    pub fn ends(&self) -> usize {
        match self {
            Shape::End => 1,
            Shape::Split(_, first, second) => first.ends() + second.ends(),
        }
    }
}

/// The service. "Output and refusals are as in Change 1": 0 past what is written, and 0 throughout where it is refused.
pub fn merge_tree(tree: &Tree, rooms: Rooms) -> Merging {
    let nothing = |answer| Merging {
        answer,
        table: vec![0; rooms.table],
        store: vec![0; rooms.store],
        output: vec![0; rooms.output],
        turns: BTreeSet::new(),
    };
    let program = match read(&tree.program, rooms.table) {
        Ok(program) => program,
        Err((number, line)) => return nothing(Answer::RefusedProgram { number, line }),
    };
    match judged(&program, tree, rooms) {
        Ok(proof) => Merging {
            answer: Answer::Merged(proof.text.len()),
            table: filled(table_words(&program.rules), rooms.table),
            store: filled(proof.state.store_words(), rooms.store),
            output: filled(proof.text, rooms.output),
            turns: BTreeSet::new(),
        },
        Err(number) => nothing(Answer::Refused(number)),
    }
}

/// "turned down with 64, after the program's own questions and before any end is read", then the sides; "a root end .. longer than the output
/// 58".
fn judged(program: &Program, tree: &Tree, rooms: Rooms) -> Result<Accepted, u8> {
    let shape = shape_of(&tree.numbers, program.atoms).ok_or(64)?;
    let ends = ends_of(&tree.texts, &tree.lengths).filter(|ends| ends.len() == shape.ends()).ok_or(64)?;
    let proof = side(program, &shape, &ends, rooms)?;
    if proof.text.len() > rooms.output {
        return Err(58);
    }
    Ok(proof)
}

/// The tree that the numbers are, over so many atoms; none for "a list that is no such tree".
pub fn shape_of(numbers: &[u16], atoms: i32) -> Option<Shape> {
    let (shape, rest) = front(numbers, atoms, &[])?;
    rest.is_empty().then_some(shape)
}

/// The tree at the front, and the numbers after it: "each split's atom before its two sides, the demanding side first, and 0 for an end". None
/// for "Deeper trees, .. a foreign atom, or an atom split twice on a path".
fn front<'a>(numbers: &'a [u16], atoms: i32, path: &[i32]) -> Option<(Shape, &'a [u16])> {
    let (first, rest) = numbers.split_first()?;
    let atom = i32::from(*first);
    if atom == 0 {
        return Some((Shape::End, rest));
    }
    if path.len() == DEEPEST || atom > atoms || path.contains(&atom) {
        return None;
    }
    let path = [path, &[atom]].concat();
    let (demanding, rest) = front(rest, atoms, &path)?;
    let (other, rest) = front(rest, atoms, &path)?;
    Some((Shape::Split(atom, Box::new(demanding), Box::new(other)), rest))
}

/// "the ends' texts are lent in that order with their lengths"; none where the lengths do not make up the bytes.
pub fn ends_of<'a>(texts: &'a [u8], lengths: &[u64]) -> Option<Vec<&'a [u8]>> {
    let sum: u128 = lengths.iter().map(|length| u128::from(*length)).sum();
    if sum != texts.len() as u128 {
        return None;
    }
    let mut from = 0;
    let mut next = |length: &u64| {
        let start = from;
        from += *length as usize;
        &texts[start..from]
    };
    Some(lengths.iter().map(&mut next).collect())
}

/// The proof of a side, for the program with the constraints on its path: "Merge it from the ends upward by Change 9". "The first refusal met
/// decides, the demanding side before the other, also where it is an end".
fn side(program: &Program, shape: &Shape, ends: &[&[u8]], rooms: Rooms) -> Result<Accepted, u8> {
    match shape {
        Shape::End => accepted(program, ends[0], rooms.store).ok_or(57),
        Shape::Split(atom, first, second) => {
            let (before, after) = ends.split_at(first.ends());
            let one = side(&demanding(program, *atom), first, before, rooms)?;
            let other = side(&demanding(program, -atom), second, after, rooms)?;
            joined(program, *atom, &one, &other, rooms).map(|(proof, _)| proof)
        }
    }
}

#[cfg(test)]
mod tests {
    use super::*;

    fn split(atom: i32, first: Shape, second: Shape) -> Shape {
        Shape::Split(atom, Box::new(first), Box::new(second))
    }

    #[test]
    fn shapes() {
        assert_eq!(shape_of(&[0], 0), Some(Shape::End));
        assert_eq!(shape_of(&[1, 0, 2, 0, 0], 2), Some(split(1, Shape::End, split(2, Shape::End, Shape::End))));
        assert_eq!(shape_of(&[1, 2, 0, 0, 2, 0, 0], 2).map(|shape| shape.ends()), Some(4));
        for numbers in
            [&[][..], &[1], &[1, 0], &[0, 0], &[1, 0, 0, 0], &[3, 0, 0], &[1, 1, 0, 0, 0], &[1, 0, 1, 0, 0], &[1, 0, 2, 1, 0, 0, 0]]
        {
            assert_eq!(shape_of(numbers, 2), None, "{numbers:?}");
        }
    }

    #[test]
    fn six_splits_on_a_path() {
        let chain = |depth: u16| [(1..=depth).flat_map(|atom| [atom, 0]).collect(), vec![0]].concat();
        assert_eq!(shape_of(&chain(6), 9).map(|shape| shape.ends()), Some(7));
        assert_eq!(shape_of(&chain(7), 9), None);
    }

    #[test]
    fn lengths_make_up_the_bytes() {
        assert_eq!(ends_of(b"abc", &[1, 0, 2]), Some(vec![&b"a"[..], b"", b"bc"]));
        assert_eq!(ends_of(b"", &[]), Some(vec![]));
        for lengths in [&[][..], &[2], &[4], &[u64::MAX, 4], &[1 << 63, 1 << 63, 3]] {
            assert_eq!(ends_of(b"abc", lengths), None, "{lengths:?}");
        }
    }
}
