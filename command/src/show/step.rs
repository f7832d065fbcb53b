//! A line of a proof as a step, as far as it is one.

/// A letter and the numbers behind it, without the closing 0.
#[derive(Debug, Clone, PartialEq, Eq)]
pub struct Step {
    pub letter: u8,
    pub numbers: Vec<i32>,
}

/// The kinds by letter, as docs/FORMAT.md names them.
const KINDS: [(u8, &str); 7] = [
    (b'a', "addition"),
    (b'b', "body definition"),
    (b'c', "completion"),
    (b'd', "deletion"),
    (b'e', "extension"),
    (b'l', "loop"),
    (b's', "support"),
];

impl Step {
    /// The step of a line without its newline; none where it is no such line. The check asks more of it.
    pub fn of(line: &[u8]) -> Option<Step> {
        let (letter, rest) = line.split_first()?;
        kind(*letter)?;
        let words = std::str::from_utf8(rest).ok()?.strip_prefix(' ')?;
        let mut numbers: Vec<i32> = words.split(' ').map(|word| word.parse().ok()).collect::<Option<_>>()?;
        let closed = numbers.pop() == Some(0) && !numbers.contains(&0);
        closed.then_some(Step { letter: *letter, numbers })
    }

    pub fn kind(&self) -> &'static str {
        kind(self.letter).unwrap_or("")
    }

    /// The name that it introduces, and what that stands for.
    pub fn introduced(&self) -> Option<(i32, &[i32])> {
        let introduces = matches!(self.letter, b'b' | b'e');
        self.numbers.split_first().filter(|_| introduces).map(|(name, literals)| (*name, literals))
    }
}

fn kind(letter: u8) -> Option<&'static str> {
    KINDS.iter().find(|(of, _)| *of == letter).map(|(_, kind)| *kind)
}

/// Literals ascending by variable.
pub fn sorted(literals: impl IntoIterator<Item = i32>) -> Vec<i32> {
    let mut literals: Vec<i32> = literals.into_iter().collect();
    literals.sort_unstable_by_key(|literal| literal.unsigned_abs());
    literals
}

#[cfg(test)]
mod tests {
    use super::*;

    #[test]
    fn steps_of_lines() {
        let step = |line: &str| Step::of(line.as_bytes()).map(|step| (step.kind(), step.numbers));
        assert_eq!(step("a 0"), Some(("addition", vec![])));
        assert_eq!(step("b 4 1 -3 0"), Some(("body definition", vec![4, 1, -3])));
        for line in ["", "a", "a 1", "a 0 0", "u 1 0", "a  1 0", "a x 0", "a 99999999999 0", "\u{e9} 0"] {
            assert_eq!(step(line), None, "{line}");
        }
        assert_eq!(Step::of(b"e 7 0").unwrap().introduced(), Some((7, &[][..])));
        assert_eq!(Step::of(b"c 7 1 0").unwrap().introduced(), None);
        assert_eq!(sorted([3, -1, 2]), [-1, 2, 3]);
    }
}
