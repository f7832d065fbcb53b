//! Programs whose long sums are split into short ones: a tree of partial sums, a new atom for each level of each of
//! them that makes a difference, and the rules that define the new atoms. The levels are found by trying every sum that
//! can be reached.

use super::program::{largest_atom, rules_within, table_words, Body, InputRule};
use super::{filled, LARGEST, PART_LIMIT, RULE_LIMIT, TEXT_LIMIT, WEIGHTED_LIMIT};

/// The words and bytes that are lent.
#[derive(Clone, Copy, Debug)]
pub struct Rooms {
    pub table: usize,
    pub output: usize,
}

#[derive(Clone, Copy, Debug, PartialEq, Eq)]
pub enum Answer {
    Split { bytes: usize, atoms: usize, rules: usize, old_atoms: usize },
    RefusedProgram { number: u8, line: usize },
    Refused(u8),
}

/// What question 66 asks of the split program.
#[derive(Clone, Copy, Debug, PartialEq, Eq)]
pub enum Limit {
    Rules,
    Atoms,
    Text,
    Output,
}

/// The answer, every word and byte that is left, the rules that were written, and which limits the split program is
/// over.
pub struct Splitting {
    pub answer: Answer,
    pub table: Vec<i32>,
    pub output: Vec<u8>,
    pub rules: Vec<InputRule>,
    pub over: Vec<Limit>,
}

/// "Refusals, asked in this order: the program's own (1 to 11, 54, 55 at 64); a group size outside 2 to 12: 65; .. 66."
pub fn split_sums(text: &[u8], group: usize, rooms: Rooms) -> Splitting {
    let refused = |answer, over| Splitting { answer, table: vec![0; rooms.table], output: vec![0; rooms.output], rules: Vec::new(), over };
    let rules = match rules_within(text, rooms.table, PART_LIMIT as usize) {
        Ok(rules) => rules,
        Err((number, line)) => return refused(Answer::RefusedProgram { number, line }, Vec::new()),
    };
    if !(2..=WEIGHTED_LIMIT).contains(&group) {
        return refused(Answer::Refused(65), Vec::new());
    }
    let split = split_rules(&rules, group);
    let written = text_of(&split);
    let over = limits_passed(&split, written.len(), rooms.output);
    if !over.is_empty() {
        return refused(Answer::Refused(66), over);
    }
    let [atoms, old_atoms] = [&split, &rules].map(|rules| largest_atom(rules) as usize);
    Splitting {
        answer: Answer::Split { bytes: written.len(), atoms, rules: split.len(), old_atoms },
        table: filled(table_words(&rules), rooms.table),
        output: filled(written, rooms.output),
        rules: split,
        over,
    }
}

/// "more than 1,024 rules, an atom above 8,191, or a text over 65,535 bytes or the lent output"
fn limits_passed(split: &[InputRule], bytes: usize, output: usize) -> Vec<Limit> {
    let passed = [
        (split.len() > RULE_LIMIT, Limit::Rules),
        (largest_atom(split) > LARGEST, Limit::Atoms),
        (bytes > TEXT_LIMIT, Limit::Text),
        (bytes > output, Limit::Output),
    ];
    passed.into_iter().filter(|(over, _)| *over).map(|(_, limit)| limit).collect()
}

/// The lines of the rules between the first and the last.
pub fn text_of(rules: &[InputRule]) -> Vec<u8> {
    let mut text = String::from("asp 1 0 0\n");
    for rule in rules {
        let mut row = vec![1, i32::from(rule.choice), rule.heads.len() as i32];
        row.extend(&rule.heads);
        match &rule.body {
            Body::Plain(literals) => {
                row.extend([0, literals.len() as i32]);
                row.extend(literals);
            }
            Body::Weights { bound, pairs } => {
                row.extend([1, *bound, pairs.len() as i32]);
                row.extend(pairs.iter().flat_map(|(literal, weight)| [literal, weight]));
            }
        }
        let words: Vec<String> = row.iter().map(i32::to_string).collect();
        text += &words.join(" ");
        text.push('\n');
    }
    text.push_str("0\n");
    text.into_bytes()
}

/// The rules with each long sum split; those after the 1,025th are left out.
fn split_rules(rules: &[InputRule], group: usize) -> Vec<InputRule> {
    let mut writer = Writer { next: largest_atom(rules) + 1, rules: Vec::new() };
    for rule in rules {
        match &rule.body {
            Body::Weights { bound, pairs } if pairs.len() > WEIGHTED_LIMIT => {
                let atom = writer.define(&root(*bound, pairs, group))[0].atom;
                writer.put(InputRule { body: Body::Plain(vec![atom]), ..rule.clone() });
            }
            _ => writer.put(rule.clone()),
        }
    }
    writer.rules
}

/// A partial sum: its literals with their weights, the levels that have an atom, and the two sums that it adds up, if
/// it is no group.
struct Node {
    pairs: Vec<(i32, i32)>,
    levels: Vec<i32>,
    sides: Option<Box<(Node, Node)>>,
}

/// The groups one after another, each added to those before it; at the last the bound alone is asked for.
fn root(bound: i32, pairs: &[(i32, i32)], group: usize) -> Node {
    let mut sorted = pairs.to_vec();
    sorted.sort_by_key(|(_, weight)| *weight);
    let groups = sorted.chunks(group).map(|chunk| {
        let mut chunk = chunk.to_vec();
        chunk.sort_by_key(|(literal, _)| literal.abs());
        chunk
    });
    let with_levels = |pairs: Vec<(i32, i32)>, sides| {
        let rest: Vec<(i32, i32)> = sorted.iter().copied().filter(|pair| !pairs.contains(pair)).collect();
        Node { levels: levels(bound, &pairs, &rest), pairs, sides }
    };
    let joined = |left: Node, right: Node| with_levels([&left.pairs[..], &right.pairs].concat(), Some(Box::new((left, right))));
    let all = groups.map(|pairs| with_levels(pairs, None)).reduce(joined);
    Node { levels: vec![bound], ..all.expect("a long sum has literals") }
}

/// Which numbers up to the bound the weights of some pairs can add up to, more than the bound counting as the bound.
fn reached(bound: i32, pairs: &[(i32, i32)]) -> Vec<bool> {
    let bound = bound as usize;
    let mut reached = vec![false; bound + 1];
    reached[0] = true;
    for (_, weight) in pairs {
        let mut with = reached.clone();
        for sum in (0..=bound).filter(|sum| reached[*sum]) {
            with[bound.min(sum + *weight as usize)] = true;
        }
        reached = with;
    }
    reached
}

/// The sums of the pairs above 0 that make a difference: with some sum of the rest no lower one reaches the bound.
fn levels(bound: i32, pairs: &[(i32, i32)], rest: &[(i32, i32)]) -> Vec<i32> {
    let (own, others) = (reached(bound, pairs), reached(bound, rest));
    let mut useful = vec![false; own.len()];
    let mut lowest = None;
    for sum in (0..own.len()).rev() {
        lowest = if own[sum] { Some(sum) } else { lowest };
        if let Some(level) = lowest.filter(|_| others[own.len() - 1 - sum]) {
            useful[level] = true;
        }
    }
    (1..own.len()).filter(|sum| useful[*sum]).map(|sum| sum as i32).collect()
}

/// An atom that says that a partial sum is at least the level.
#[derive(Clone, Copy)]
struct Share {
    level: i32,
    atom: i32,
}

/// The new atoms so far, and the rules.
struct Writer {
    next: i32,
    rules: Vec<InputRule>,
}

impl Writer {
    fn put(&mut self, rule: InputRule) {
        if self.rules.len() <= RULE_LIMIT {
            self.rules.push(rule);
        }
    }

    /// Writes the rules of a node after those below it, and answers its atoms.
    fn define(&mut self, node: &Node) -> Vec<Share> {
        let sides = node.sides.as_ref().map(|sides| (self.define(&sides.0), self.define(&sides.1)));
        let own: Vec<Share> = (self.next..).zip(&node.levels).map(|(atom, level)| Share { level: *level, atom }).collect();
        self.next += own.len() as i32;
        for share in &own {
            if self.rules.len() > RULE_LIMIT {
                break;
            }
            let bodies = match &sides {
                None => vec![Body::Weights { bound: share.level, pairs: node.pairs.clone() }],
                Some((left, right)) => joined_bodies(share.level, left, right),
            };
            for body in bodies {
                self.put(InputRule { choice: false, heads: vec![share.atom], body });
            }
        }
        own
    }
}

/// The bodies of a level: each two shares that are enough together, but not with the next lower one in place of either.
/// Level 0 of a side needs no atom.
fn joined_bodies(level: i32, left: &[Share], right: &[Share]) -> Vec<Body> {
    let with_none = |shares: &[Share]| [&[Share { level: 0, atom: 0 }], shares].concat();
    let (left, right) = (with_none(left), with_none(right));
    let mut bodies = Vec::new();
    for (place, one) in left.iter().enumerate() {
        let enough = right.partition_point(|other| one.level + other.level < level);
        let Some(other) = right.get(enough) else { continue };
        if place == 0 || left[place - 1].level + other.level < level {
            bodies.push(Body::Plain([one.atom, other.atom].into_iter().filter(|atom| *atom != 0).collect()));
        }
    }
    bodies
}

#[cfg(test)]
mod tests {
    use super::*;

    const ROOMS: Rooms = Rooms { table: 1_000, output: 10_000 };

    fn units(atoms: std::ops::RangeInclusive<i32>) -> String {
        atoms.map(|atom| format!(" {atom} 1")).collect()
    }

    fn split_of(rule: &str, group: usize) -> String {
        let splitting = split_sums(format!("asp 1 0 0\n{rule}\n0\n").as_bytes(), group, ROOMS);
        let Answer::Split { bytes, .. } = splitting.answer else { panic!("{rule}: {:?}", splitting.answer) };
        String::from_utf8(splitting.output[..bytes].to_vec()).unwrap()
    }

    /// Worked by hand: of 13 literals of weight 1, 7 stand in the first group. With the bound 12 these must be 6 or 7,
    /// and the others 6 or 5.
    #[test]
    fn thirteen_literals() {
        let (first, second) = (format!("7{}", units(1..=7)), format!("6{}", units(8..=13)));
        let all = split_of(&format!("1 0 0 1 13 13{}", units(1..=13)), 7);
        let rules = format!("1 0 1 14 1 7 {first}\n1 0 1 15 1 6 {second}\n1 0 1 16 0 2 14 15\n1 0 0 0 1 16\n");
        assert_eq!(all, format!("asp 1 0 0\n{rules}0\n"));
        let twelve = split_of(&format!("1 1 2 20 14 1 12 13{}", units(1..=13)), 7);
        let groups = format!("1 0 1 21 1 6 {first}\n1 0 1 22 1 7 {first}\n1 0 1 23 1 5 {second}\n1 0 1 24 1 6 {second}\n");
        let rules = format!("{groups}1 0 1 25 0 2 21 24\n1 0 1 25 0 2 22 23\n1 1 2 14 20 0 1 25\n");
        assert_eq!(twelve, format!("asp 1 0 0\n{rules}0\n"));
    }

    /// A bound that all sums reach, and one that none does.
    #[test]
    fn bounds_at_the_ends() {
        let none = split_of(&format!("1 0 0 1 0 13{}", units(1..=13)), 12);
        assert_eq!(none, "asp 1 0 0\n1 0 1 14 0 0\n1 0 0 0 1 14\n0\n");
        let over = split_of(&format!("1 0 0 1 14 13{}", units(1..=13)), 12);
        assert_eq!(over, "asp 1 0 0\n1 0 0 0 1 14\n0\n");
    }

    /// The counts of crates/sums: 13 literals of weight 1 and bound 7, and 14 of the weights 1, 2 and 5 by turns and
    /// bound 18.
    #[test]
    fn counts_as_computed() {
        let lines = |text: String| text.lines().count() - 2;
        assert_eq!(lines(split_of(&format!("1 0 1 14 1 7 13{}", units(1..=13)), 7)), 21);
        let mixed: String = (1..=14).map(|atom| format!(" {atom} {}", [5, 1, 2][atom % 3])).collect();
        assert_eq!(lines(split_of(&format!("1 0 1 15 1 18 14{mixed}"), 5)), 27);
    }

    #[test]
    fn refusals_in_order() {
        let text = format!("asp 1 0 0\n1 0 0 1 13 13{}\n0\n", units(1..=13));
        let answer = |group, table, output| split_sums(text.as_bytes(), group, Rooms { table, output }).answer;
        let bytes = split_of(&format!("1 0 0 1 13 13{}", units(1..=13)), 7).len();
        assert_eq!(answer(7, 31, bytes), Answer::Split { bytes, atoms: 16, rules: 4, old_atoms: 13 });
        assert_eq!(answer(7, 31, bytes - 1), Answer::Refused(66));
        assert_eq!([0, 1, 13].map(|group| answer(group, 31, 0)), [65; 3].map(Answer::Refused));
        assert_eq!(answer(13, 30, 0), Answer::RefusedProgram { number: 10, line: 2 });
    }
}
