//! Long sums split in the command itself, in the way of docs/FORMAT.md ('Splitting long sums') that the library has: for
//! sums of more literals than the library reads, and to say how large a program would be that it refuses to write.

use crate::rules::{Body, Rule};

/// Literals with weights.
type Pairs = Vec<(i32, i32)>;

/// Numbers that ascend: what weights of some literals add up to.
type Sums = Vec<i32>;

/// A part of a sum: its new atoms by level, the lowest first.
type Node = Vec<(i32, i32)>;

/// Writes the rules of sums that are split. New atoms count from `next` on.
pub struct Totalizer {
    pub next: i32,
    pub rules: Vec<Rule>,
    /// The most rules, and whether it would be more.
    most: usize,
    pub is_full: bool,
}

impl Totalizer {
    pub fn of(next: i32, most: usize) -> Totalizer {
        Totalizer { next, rules: Vec::new(), most, is_full: false }
    }

    /// A rule that stays as it is.
    pub fn keep(&mut self, rule: Rule) {
        self.rules.push(rule);
        self.is_full |= self.rules.len() > self.most;
    }

    /// Splits a rule with a sum into groups of so many literals; where that takes too many rules, not to the end.
    pub fn split(&mut self, rule: &Rule, bound: i32, pairs: &[(i32, i32)], group: usize) {
        let mut sorted = pairs.to_vec();
        sorted.sort_by_key(|(literal, weight)| (*weight, literal.abs()));
        let groups: Vec<Pairs> = sorted.chunks(group).map(<[_]>::to_vec).collect();
        // What the groups before one, and those behind it, come to.
        let before = running(bound, groups.iter());
        let mut behind = running(bound, groups.iter().rev());
        behind.reverse();
        let mut joined = Node::new();
        for (place, pairs) in groups.iter().enumerate() {
            if self.rules.len() > self.most {
                self.is_full = true;
                return;
            }
            let inside = with(bound, &[0], pairs);
            let right = self.group(pairs, &levels(bound, &inside, &together(bound, &before[place], &behind[place + 1])));
            joined = match place {
                0 => right,
                _ if place + 1 == groups.len() => self.join(&joined, &right, &[bound]),
                _ => self.join(&joined, &right, &levels(bound, &before[place + 1], &behind[place + 1])),
            };
        }
        let body = joined.iter().map(|(_, atom)| *atom).collect();
        self.keep(Rule { body: Body::Plain(body), ..rule.clone() });
    }

    /// A new atom for each level of a group, with its rule.
    fn group(&mut self, pairs: &[(i32, i32)], levels: &[i32]) -> Node {
        let mut ascending = pairs.to_vec();
        ascending.sort_by_key(|(literal, _)| literal.abs());
        let node = self.atoms(levels);
        let rule = |(level, atom): &(i32, i32)| defined(*atom, Body::Weights { bound: *level, pairs: ascending.clone() });
        self.rules.extend(node.iter().map(rule));
        node
    }

    /// A new atom for each level of two parts together, with a rule for each way to reach it.
    fn join(&mut self, left: &Node, right: &Node, levels: &[i32]) -> Node {
        let node = self.atoms(levels);
        let none = (0, 0);
        for (level, atom) in &node {
            if self.rules.len() > self.most {
                break;
            }
            let mut lower = None;
            for (of_left, first) in std::iter::once(&none).chain(left) {
                let Some((of_right, second)) = std::iter::once(&none).chain(right).find(|(of, _)| of_left + of >= *level) else { continue };
                let is_new = lower.is_none_or(|lower: i32| lower + of_right < *level);
                lower = Some(*of_left);
                if is_new {
                    let literals = [*first, *second].into_iter().filter(|atom| *atom > 0).collect();
                    self.rules.push(defined(*atom, Body::Plain(literals)));
                }
            }
        }
        node
    }

    fn atoms(&mut self, levels: &[i32]) -> Node {
        let first = self.next;
        self.next += levels.len() as i32;
        levels.iter().copied().zip(first..).collect()
    }
}

fn defined(atom: i32, body: Body) -> Rule {
    Rule { choice: false, heads: vec![atom], body }
}

/// Sums, ascending, with the weights of some of the pairs added; more than the bound counts as the bound.
fn with(bound: i32, sums: &[i32], pairs: &[(i32, i32)]) -> Sums {
    pairs
        .iter()
        .fold(sums.to_vec(), |sums, (_, weight)| ascending(sums.iter().copied().chain(sums.iter().map(|sum| bound.min(sum + weight)))))
}

fn ascending(sums: impl Iterator<Item = i32>) -> Sums {
    let mut sums: Sums = sums.collect();
    // Two lists that ascend, one behind the other, are put in order in one go.
    sums.sort();
    sums.dedup();
    sums
}

/// What the first so many groups come to, from none on.
fn running<'a>(bound: i32, groups: impl Iterator<Item = &'a Pairs>) -> Vec<Sums> {
    let mut all = vec![vec![0]];
    for pairs in groups {
        all.push(with(bound, &all[all.len() - 1], pairs));
    }
    all
}

/// What two parts come to together.
fn together(bound: i32, one: &[i32], other: &[i32]) -> Sums {
    let mut reached = vec![false; bound as usize + 1];
    one.iter().for_each(|sum| other.iter().for_each(|more| reached[bound.min(sum + more) as usize] = true));
    (0..=bound).filter(|sum| reached[*sum as usize]).collect()
}

/// The sums inside, above 0, that are the lowest with which a sum outside reaches the bound.
fn levels(bound: i32, inside: &[i32], outside: &[i32]) -> Vec<i32> {
    let lowest = |sum: &i32| inside.get(inside.partition_point(|level| level + sum < bound)).copied();
    ascending(outside.iter().filter_map(lowest).filter(|level| *level > 0))
}

#[cfg(test)]
mod tests {
    use super::*;
    use aspdrupe::Splitting;

    /// A sum of so many literals with weights and signs of every kind.
    fn sum(count: i32, seed: i32) -> Pairs {
        let weight = |place: i32| match seed % 4 {
            0 => 1,
            1 => 1 + place % 3,
            2 => (place * 7 + seed) % 11,
            _ => 480,
        };
        (1..=count).map(|atom| (if (atom * seed) % 5 == 1 { -atom } else { atom }, weight(atom))).collect()
    }

    #[test]
    fn as_the_library_splits() {
        for seed in 0..24 {
            for (count, group) in [(13, 2), (13, 12), (14, 7), (21, 3), (21, 4), (21, 5), (30, 6), (64, 7)] {
                let pairs = sum(count, seed);
                let total: i32 = pairs.iter().map(|(_, weight)| weight).sum();
                for bound in [0, 1, 5, total / 2, total, total + 1].map(|bound| bound.min(4_095)) {
                    let rule = Rule { choice: false, heads: vec![count + 1], body: Body::Weights { bound, pairs: pairs.clone() } };
                    let mut totalizer = Totalizer::of(count + 2, 100_000);
                    totalizer.split(&rule, bound, &pairs, group);
                    let lines: String = totalizer.rules.iter().map(|rule| format!("{}\n", rule.line())).collect();
                    let text = format!("asp 1 0 0\n{lines}0\n");
                    let (splitting, written) =
                        aspdrupe::split_program(format!("asp 1 0 0\n{}\n0\n", rule.line()).as_bytes(), group).unwrap();
                    match splitting {
                        Splitting::Split { atoms, .. } => {
                            assert_eq!((written, atoms as i32), (text.into_bytes(), totalizer.next - 1), "{seed} {count} {group} {bound}");
                        }
                        other => assert!(totalizer.rules.len() > 1_024 || text.len() > 65_535, "{seed} {count} {group} {bound}: {other:?}"),
                    }
                }
            }
        }
    }

    #[test]
    fn where_there_are_too_many_rules() {
        for count in [100, 3_000] {
            let pairs: Pairs = (1..=count).map(|atom| (atom, 1 + 97 * atom % 4_000)).collect();
            let rule = Rule { choice: false, heads: Vec::new(), body: Body::Weights { bound: 4_095, pairs: pairs.clone() } };
            let mut totalizer = Totalizer::of(count + 1, 1_024);
            totalizer.split(&rule, 4_095, &pairs, 7);
            assert!(totalizer.is_full && totalizer.rules.len() < 10_000, "{count}: {}", totalizer.rules.len());
        }
    }
}
