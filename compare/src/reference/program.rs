//! Ground programs: rules, the words of the table, and the program reader with its questions 1 to 11, 54 and 55.

use super::numbers::{line_at, numbers};
use super::weights::minimal_sets;
use super::{by_variable, variables_differ, LARGEST, PART_LIMIT, RULE_LIMIT, TEXT_LIMIT, WEIGHTED_LIMIT, WEIGHT_LARGEST};

/// A plain rule, its heads ascending and its body ascending by atom.
#[derive(Clone, Debug, PartialEq, Eq, Hash)]
pub struct Rule {
    pub choice: bool,
    pub heads: Vec<i32>,
    pub body: Vec<i32>,
}

/// A body as it is written, ascending by atom: literals, or a bound and literals each with a weight.
#[derive(Clone, Debug, PartialEq, Eq, Hash)]
pub enum Body {
    Plain(Vec<i32>),
    Weights { bound: i32, pairs: Vec<(i32, i32)> },
}

/// A rule as it is written, its heads ascending.
#[derive(Clone, Debug, PartialEq, Eq, Hash)]
pub struct InputRule {
    pub choice: bool,
    pub heads: Vec<i32>,
    pub body: Body,
}

/// A program that was read: N, the rules as written, and the plain rules that they stand for.
#[derive(Clone, Debug, PartialEq, Eq)]
pub struct Program {
    pub atoms: i32,
    pub rules: Vec<InputRule>,
    pub plain: Vec<Rule>,
}

/// A refusal's number, and its line counted from 1 (0 for the whole text).
pub type Refusal = (u8, usize);

impl Rule {
    pub fn is_constraint(&self) -> bool {
        !self.choice && self.heads.is_empty()
    }

    pub fn positive(&self) -> impl Iterator<Item = i32> + '_ {
        self.body.iter().copied().filter(|literal| *literal > 0)
    }

    pub fn negated(&self) -> impl Iterator<Item = i32> + '_ {
        self.body.iter().copied().filter(|literal| *literal < 0).map(|literal| -literal)
    }
}

impl InputRule {
    /// The literals of the body, those of weight 0 too.
    pub fn literals(&self) -> Vec<i32> {
        match &self.body {
            Body::Plain(literals) => literals.clone(),
            Body::Weights { pairs, .. } => pairs.iter().map(|(literal, _)| *literal).collect(),
        }
    }

    pub fn has_weights(&self) -> bool {
        matches!(self.body, Body::Weights { .. })
    }

    /// "such a rule stands for one plain rule of the same head for each subset-minimal set of literals that reaches the bound"
    pub fn plain(&self) -> Vec<Rule> {
        let bodies = match &self.body {
            Body::Plain(literals) => vec![literals.clone()],
            Body::Weights { bound, pairs } => minimal_sets(*bound, pairs),
        };
        bodies.into_iter().map(|body| Rule { choice: self.choice, heads: self.heads.clone(), body }).collect()
    }

    /// "head kind, head count, body count, heads ascending, body literals ascending by atom"; "a rule gains its body kind after the head
    /// count, and with kind 1 the bound after the body count and a weight after each literal"
    pub fn words(&self) -> Vec<i32> {
        let mut words = vec![i32::from(self.choice), self.heads.len() as i32];
        match &self.body {
            Body::Plain(literals) => {
                words.extend([0, literals.len() as i32]);
                words.extend(&self.heads);
                words.extend(literals);
            }
            Body::Weights { bound, pairs } => {
                words.extend([1, pairs.len() as i32, *bound]);
                words.extend(&self.heads);
                words.extend(pairs.iter().flat_map(|(literal, weight)| [literal, weight]));
            }
        }
        words
    }
}

impl Program {
    pub fn of(rules: Vec<InputRule>) -> Program {
        Program { atoms: largest_atom(&rules), plain: rules.iter().flat_map(InputRule::plain).collect(), rules }
    }
}

/// "N is the largest atom named, 0 if none"
pub fn largest_atom(rules: &[InputRule]) -> i32 {
    let named = rules.iter().flat_map(|rule| [rule.heads.clone(), rule.literals()].concat());
    named.map(|number| number.abs()).max().unwrap_or(0)
}

/// The words that the rules take in the table.
pub fn table_words(rules: &[InputRule]) -> Vec<i32> {
    rules.iter().flat_map(InputRule::words).collect()
}

/// The program reader, lent a table of `room` words.
pub fn read(text: &[u8], room: usize) -> Result<Program, Refusal> {
    rules_within(text, room, WEIGHTED_LIMIT).map(Program::of)
}

/// The rules that are read where question 55 is put with so many literals.
pub fn rules_within(text: &[u8], room: usize, most: usize) -> Result<Vec<InputRule>, Refusal> {
    if text.len() > TEXT_LIMIT {
        return Err((1, 0));
    }
    let header = b"asp 1 0 0\n";
    if !text.starts_with(header) {
        return Err((2, 1));
    }
    read_rules(text, header.len(), room, most)
}

fn read_rules(text: &[u8], start: usize, room: usize, most: usize) -> Result<Vec<InputRule>, Refusal> {
    let mut rules = Vec::new();
    let mut used = 0;
    let mut position = start;
    let mut line = 2;
    loop {
        let (row, next) = row_at(text, position).map_err(|number| (number, line))?;
        if row == [0] {
            return if next == text.len() { Ok(rules) } else { Err((11, line)) };
        }
        let rule = rule_of(&row, most).map_err(|number| (number, line))?;
        if rules.len() >= RULE_LIMIT {
            return Err((9, line));
        }
        used += rule.words().len();
        if used > room {
            return Err((10, line));
        }
        rules.push(rule);
        position = next;
        line += 1;
    }
}

/// Questions 3 and 4: the numbers of a line, and the position after it.
fn row_at(text: &[u8], position: usize) -> Result<(Vec<i32>, usize), u8> {
    let (line, next) = line_at(text, position).ok_or(3)?;
    let row = numbers(line).ok_or(3)?;
    if row.iter().all(|number| number.abs() <= LARGEST) {
        Ok((row, next))
    } else {
        Err(4)
    }
}

/// Questions 5 to 8, with 54 and 55 right after 6, reading left to right.
fn rule_of(row: &[i32], most: usize) -> Result<InputRule, u8> {
    let mut rest = row;
    if take(&mut rest) != Some(1) {
        return Err(5);
    }
    let choice = match take(&mut rest) {
        Some(0) => false,
        Some(1) => true,
        _ => return Err(5),
    };
    let count = take_count(&mut rest)?;
    let heads = take_numbers(&mut rest, count)?;
    let body = match take(&mut rest) {
        Some(0) => plain_body(&mut rest)?,
        Some(1) => weight_body(&mut rest)?,
        _ => return Err(5),
    };
    if !rest.is_empty() {
        return Err(6);
    }
    if let Body::Weights { bound, pairs } = &body {
        weights_good(*bound, pairs, most)?;
    }
    if !count_suits(choice, heads.len()) {
        return Err(7);
    }
    let rule = InputRule { choice, heads: by_variable(&heads), body: ascending(body) };
    let literals = rule.literals();
    if !heads.iter().all(|head| *head > 0) || !variables_differ(&heads) || literals.contains(&0) || !variables_differ(&literals) {
        return Err(8);
    }
    Ok(rule)
}

/// The body of kind 0.
fn plain_body(rest: &mut &[i32]) -> Result<Body, u8> {
    let count = take_count(rest)?;
    Ok(Body::Plain(take_numbers(rest, count)?))
}

/// The body of kind 1: the bound, the count, and the literals each with its weight. "a missing bound or weight is 6"
fn weight_body(rest: &mut &[i32]) -> Result<Body, u8> {
    let bound = take(rest).ok_or(6)?;
    let count = take_count(rest)?;
    let numbers = take_numbers(rest, 2 * count)?;
    Ok(Body::Weights { bound, pairs: numbers.chunks_exact(2).map(|pair| (pair[0], pair[1])).collect() })
}

/// "a weight or bound out of its range is 54, more than 12 literals 55", or more than the number given
fn weights_good(bound: i32, pairs: &[(i32, i32)], most: usize) -> Result<(), u8> {
    if !in_range(bound) || !pairs.iter().all(|(_, weight)| in_range(*weight)) {
        return Err(54);
    }
    if pairs.len() > most {
        return Err(55);
    }
    Ok(())
}

/// "Bound and weights are 0 to 4,095"
pub fn in_range(weight: i32) -> bool {
    (0..=WEIGHT_LARGEST).contains(&weight)
}

/// The body with its literals in ascending order of their variables.
fn ascending(body: Body) -> Body {
    match body {
        Body::Plain(literals) => Body::Plain(by_variable(&literals)),
        Body::Weights { bound, mut pairs } => {
            pairs.sort_by_key(|(literal, _)| literal.abs());
            Body::Weights { bound, pairs }
        }
    }
}

/// "A normal rule has 0 or 1 heads"; "A choice rule has 1 to 64."
fn count_suits(choice: bool, count: usize) -> bool {
    if choice {
        (1..=PART_LIMIT as usize).contains(&count)
    } else {
        count <= 1
    }
}

fn take(rest: &mut &[i32]) -> Option<i32> {
    let (first, others) = rest.split_first()?;
    *rest = others;
    Some(*first)
}

/// Question 6: a count from 0 to 64.
fn take_count(rest: &mut &[i32]) -> Result<usize, u8> {
    let count = take(rest).filter(|count| (0..=PART_LIMIT).contains(count)).ok_or(6)?;
    Ok(count as usize)
}

/// Question 6: so many numbers.
fn take_numbers(rest: &mut &[i32], count: usize) -> Result<Vec<i32>, u8> {
    let (numbers, others) = rest.split_at_checked(count).ok_or(6)?;
    *rest = others;
    Ok(numbers.to_vec())
}

#[cfg(test)]
mod tests {
    use super::*;

    fn refusal(rule: &str) -> Option<u8> {
        let text = format!("asp 1 0 0\n{rule}\n0\n");
        read(text.as_bytes(), 16_384).err().map(|(number, line)| {
            assert_eq!(line, 2);
            number
        })
    }

    #[test]
    fn order_of_questions_in_a_line() {
        for (rule, number) in [
            ("1 0 1 1 0 1 -1", None),
            ("", Some(5)),
            ("2 0 1", Some(5)),
            ("1", Some(5)),
            ("1 2 1 1 0 0", Some(5)),
            ("1 0", Some(6)),
            ("1 0 65 1 1 0", Some(6)),
            ("1 0 3 1 5", Some(6)),
            ("1 0 2 1 2", Some(5)),
            ("1 0 2 1 2 2 0", Some(5)),
            ("1 0 2 1 2 0", Some(6)),
            ("1 0 2 1 2 0 0 0", Some(6)),
            ("1 0 2 1 2 0 0", Some(7)),
            ("1 1 0 0 0", Some(7)),
            ("1 1 2 1 1 0 0", Some(8)),
            ("1 0 1 -1 0 0", Some(8)),
            ("1 0 0 0 2 1 -1", Some(8)),
            ("1 0 0 0 1 0", Some(8)),
            ("0 0", Some(5)),
            ("-0", Some(3)),
            ("5 8192 -0", Some(3)),
            ("5 8192", Some(4)),
            ("5 8191", Some(5)),
            ("0", Some(11)),
        ] {
            assert_eq!(refusal(rule), number, "{rule}");
        }
    }

    /// A normal rule of the head 70 whose body has so many literals of weight 1, the last of them given with its weight.
    fn many(count: i32, last: &str) -> String {
        let pairs: String = (1..count).map(|atom| format!("{atom} 1 ")).collect();
        format!("1 0 1 70 1 6 {count} {pairs}{last}")
    }

    #[test]
    fn order_of_questions_with_weights() {
        for (rule, number) in [
            ("1 0 1 1 1 3 2 2 2 3 2", None),
            ("1 0 1 1 1", Some(6)),
            ("1 0 1 1 1 3", Some(6)),
            ("1 0 1 1 1 3 2 2 2 3", Some(6)),
            ("1 0 1 1 1 3 1 2 2 3", Some(6)),
            ("1 0 1 1 1 3 -1", Some(6)),
            ("1 0 1 1 1 4095 1 2 4095", None),
            ("1 0 1 1 1 4096 1 2 4095", Some(54)),
            ("1 0 1 1 1 4095 1 2 8191", Some(54)),
            ("1 0 1 1 1 4095 1 2 8192", Some(4)),
            ("1 0 1 1 1 -1 1 2 4095", Some(54)),
            ("1 0 1 1 1 1 1 2 -1", Some(54)),
            ("1 0 2 1 2 1 -1 0", Some(54)),
            ("1 0 2 1 2 1 1 0", Some(7)),
            ("1 0 1 1 1 1 2 2 1 -2 1", Some(8)),
            ("1 0 1 1 1 1 1 0 1", Some(8)),
            ("1 0 1 1 2 1 0", Some(5)),
            ("1 1 2 7 6 1 1 1 2 1", None),
            ("1 0 1 1 1 0 0", None),
            ("1 0 1 1 1 1 2 2 1 9 0", None),
        ] {
            assert_eq!(refusal(rule), number, "{rule}");
        }
    }

    #[test]
    fn how_many_literals_with_weights() {
        for (count, last, number) in [
            (12, "12 1", None),
            (13, "13 1", Some(55)),
            (64, "64 1", Some(55)),
            (65, "65 1", Some(6)),
            (13, "13 -1", Some(54)),
            (13, "1 1", Some(55)),
            (12, "1 1", Some(8)),
        ] {
            assert_eq!(refusal(&many(count, last)), number, "{count} {last}");
        }
    }

    #[test]
    fn words_ascend() {
        let text = b"asp 1 0 0\n1 1 3 3 1 2 0 3 -2 4 1\n0\n";
        let program = read(text, 10).unwrap();
        assert_eq!(table_words(&program.rules), [1, 3, 0, 3, 1, 2, 3, 1, -2, 4]);
        assert_eq!(program.atoms, 4);
        assert_eq!(read(text, 9), Err((10, 2)));
    }

    #[test]
    fn words_with_weights() {
        for (rule, atoms, words) in [
            ("1 0 1 1 1 3 2 2 2 3 2", 3, &[0, 1, 1, 2, 3, 1, 2, 2, 3, 2][..]),
            ("1 0 0 1 5 3 4 3 -2 2 3 4", 4, &[0, 0, 1, 3, 5, -2, 2, 3, 4, 4, 3]),
            ("1 1 2 7 6 1 1 1 2 1", 7, &[1, 2, 1, 1, 1, 6, 7, 2, 1]),
            ("1 0 1 1 1 0 0", 1, &[0, 1, 1, 0, 0, 1]),
            ("1 0 1 1 1 1 2 2 1 9 0", 9, &[0, 1, 1, 2, 1, 1, 2, 1, 9, 0]),
        ] {
            let text = format!("asp 1 0 0\n{rule}\n0\n");
            let program = read(text.as_bytes(), words.len()).unwrap();
            assert_eq!((program.atoms, table_words(&program.rules)), (atoms, words.to_vec()), "{rule}");
            assert_eq!(read(text.as_bytes(), words.len() - 1), Err((10, 2)), "{rule}");
        }
    }
}
