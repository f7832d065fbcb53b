//! Proof lines, and proofs of them as text.

use crate::joined;

/// A proof line: its letter and its numbers, the closing 0 aside.
#[derive(Clone, Debug, PartialEq, Eq)]
pub struct Line {
    pub letter: u8,
    pub numbers: Vec<i32>,
}

impl Line {
    pub fn of(letter: u8, numbers: &[i32]) -> Line {
        Line { letter, numbers: numbers.to_vec() }
    }

    /// A letter, a number, and further numbers.
    pub fn with(letter: u8, first: i32, others: &[i32]) -> Line {
        Line { letter, numbers: [&[first], others].concat() }
    }
}

/// The text of a line, with its newline.
pub fn line_of(letter: u8, numbers: &[i32]) -> String {
    let closed = [numbers, &[0]].concat();
    format!("{} {}\n", char::from(letter), joined(&closed))
}

/// The text of lines.
pub fn proof_text(lines: &[Line]) -> String {
    lines.iter().map(|line| line_of(line.letter, &line.numbers)).collect()
}

/// Extensions with the names from the first to the last, each equal to the one before and the first to `start`: propagation from one end
/// to the other goes over all of them.
pub fn chain(start: i32, first: i32, last: i32) -> Vec<Line> {
    (first..=last).map(|name| Line::of(b'e', &[name, if name == first { start } else { name - 1 }])).collect()
}

#[cfg(test)]
mod tests {
    use super::*;

    #[test]
    fn text_of_lines() {
        assert_eq!(proof_text(&[Line::of(b'a', &[]), Line::with(b'b', 4, &[-1, 2])]), "a 0\nb 4 -1 2 0\n");
    }

    #[test]
    fn chains() {
        assert_eq!(proof_text(&chain(1, 5, 7)), "e 5 1 0\ne 6 5 0\ne 7 6 0\n");
        assert_eq!(chain(2, 3, 2002).len(), 2_000);
    }
}
