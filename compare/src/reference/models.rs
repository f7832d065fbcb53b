//! Reduct, least model and answer sets by definition, and the set test with its questions 41 to 43. "The verdict is judged on this expansion,
//! which is what the answer sets are of": all but the table and the number of a broken constraint is about plain rules.

use std::collections::BTreeSet;

use super::program::{in_range, Body, InputRule, Program, Rule};
use super::{LARGEST, MARKS, PART_LIMIT, RULE_LIMIT, WEIGHTED_LIMIT};

pub type Set = BTreeSet<i32>;

/// The reduct: pairs of a head and the positive atoms that it follows from.
fn reduct(rules: &[Rule], set: &Set) -> Vec<(i32, Vec<i32>)> {
    let mut given = Vec::new();
    for rule in rules.iter().filter(|rule| rule.negated().all(|atom| !set.contains(&atom))) {
        for head in rule.heads.iter().filter(|head| !rule.choice || set.contains(head)) {
            given.push((*head, rule.positive().collect()));
        }
    }
    given
}

/// The least model of the reduct for the set.
pub fn least_model(rules: &[Rule], set: &Set) -> Set {
    let given = reduct(rules, set);
    let mut model = Set::new();
    loop {
        let before = model.len();
        for (head, positive) in &given {
            if positive.iter().all(|atom| model.contains(atom)) {
                model.insert(*head);
            }
        }
        if model.len() == before {
            return model;
        }
    }
}

/// Whether the rule is a constraint that the set breaks.
fn breaks(rule: &Rule, set: &Set) -> bool {
    rule.is_constraint() && rule.positive().all(|atom| set.contains(&atom)) && rule.negated().all(|atom| !set.contains(&atom))
}

/// The lowest number, counted from 1, of a constraint that the set breaks. "Rule numbers [..] count the rules as written."
fn broken_constraint(rules: &[InputRule], set: &Set) -> Option<usize> {
    rules.iter().position(|rule| rule.plain().iter().any(|plain| breaks(plain, set))).map(|index| index + 1)
}

pub fn is_answer_set(rules: &[Rule], set: &Set) -> bool {
    least_model(rules, set) == *set && !rules.iter().any(|rule| breaks(rule, set))
}

/// Every set over the atoms, one after the other.
pub fn every_set(atoms: &[i32]) -> impl Iterator<Item = Set> + '_ {
    let chosen = |bits: u64| atoms.iter().enumerate().filter(|(place, _)| bits >> place & 1 == 1).map(|(_, atom)| *atom).collect();
    (0..1_u64 << atoms.len()).map(chosen)
}

/// An answer set among all sets over the atoms, if there is one.
pub fn answer_set_over(rules: &[Rule], atoms: &[i32]) -> Option<Set> {
    every_set(atoms).find(|set| is_answer_set(rules, set))
}

/// What the set test answers: of a set that differs from the least model, the atom shown.
#[derive(Clone, Copy, Debug, PartialEq, Eq)]
pub enum Answer {
    Yes,
    Differs(i32),
    Broken(usize),
    Refused(u8),
}

/// The set test: its answer and the marks that it leaves.
pub fn test_set(table: &[i32], rule_count: usize, listed: &[u16], marks: usize) -> (Answer, Vec<u8>) {
    match questions(table, rule_count, listed, marks) {
        Err(number) => (Answer::Refused(number), vec![0; marks]),
        Ok(program) => {
            let set: Set = listed.iter().map(|atom| i32::from(*atom)).collect();
            let least = least_model(&program.plain, &set);
            let marked = (0..MARKS as i32).map(|atom| u8::from(least.contains(&atom))).collect();
            (judged(&program.rules, &set, &least), marked)
        }
    }
}

/// "The atom shown becomes the lowest that lies in just one of the set and the least model."
fn lowest_apart(set: &Set, least: &Set) -> Option<i32> {
    set.symmetric_difference(least).copied().min()
}

fn judged(rules: &[InputRule], set: &Set, least: &Set) -> Answer {
    match lowest_apart(set, least) {
        Some(atom) => Answer::Differs(atom),
        None => broken_constraint(rules, set).map_or(Answer::Yes, Answer::Broken),
    }
}

fn questions(table: &[i32], rule_count: usize, listed: &[u16], marks: usize) -> Result<Program, u8> {
    let program = Program::of(rules_of(table, rule_count).ok_or(41)?);
    let within = listed.iter().all(|atom| (1..=program.atoms).contains(&i32::from(*atom)));
    if !within || !listed.windows(2).all(|pair| pair[0] < pair[1]) {
        return Err(42);
    }
    if marks != MARKS {
        return Err(43);
    }
    Ok(program)
}

/// Question 41: the rules whose words the table holds, where it is one that the program reader leaves.
pub fn rules_of(table: &[i32], rule_count: usize) -> Option<Vec<InputRule>> {
    if rule_count > RULE_LIMIT {
        return None;
    }
    let mut rest = table;
    let mut rules = Vec::new();
    for _ in 0..rule_count {
        let rule = rule_at_front(rest)?;
        rest = &rest[rule.words().len()..];
        rules.push(rule);
    }
    rest.iter().all(|word| *word == 0).then_some(rules)
}

/// The rule that the words begin with.
pub fn rule_at_front(words: &[i32]) -> Option<InputRule> {
    let (kind, head_count, body_kind, body_count) = (*words.first()?, *words.get(1)?, *words.get(2)?, *words.get(3)?);
    let heads_allowed = match kind {
        0 => 0..=1,
        1 => 1..=PART_LIMIT,
        _ => return None,
    };
    let literals_allowed = match body_kind {
        0 => 0..=PART_LIMIT,
        1 => 0..=WEIGHTED_LIMIT as i32,
        _ => return None,
    };
    if !heads_allowed.contains(&head_count) || !literals_allowed.contains(&body_count) {
        return None;
    }
    let (head_count, body_count) = (head_count as usize, body_count as usize);
    let front = if body_kind == 1 { 5 } else { 4 };
    let heads = words.get(front..front + head_count)?.to_vec();
    let rest = &words[front + head_count..];
    let body = match body_kind {
        0 => Body::Plain(rest.get(..body_count)?.to_vec()),
        _ => Body::Weights { bound: words[4], pairs: pairs_of(rest.get(..2 * body_count)?) },
    };
    let rule = InputRule { choice: kind == 1, heads, body };
    let good = rule.heads.iter().all(|head| *head > 0) && ascending(&rule.heads) && ascending(&rule.literals()) && weights_good(&rule);
    good.then_some(rule)
}

/// Literals and weights in turn, as pairs.
fn pairs_of(words: &[i32]) -> Vec<(i32, i32)> {
    words.chunks_exact(2).map(|pair| (pair[0], pair[1])).collect()
}

/// "Bound and weights are 0 to 4,095"
fn weights_good(rule: &InputRule) -> bool {
    match &rule.body {
        Body::Plain(_) => true,
        Body::Weights { bound, pairs } => in_range(*bound) && pairs.iter().all(|(_, weight)| in_range(*weight)),
    }
}

/// Whether the words are literals of atoms, strictly ascending by atom.
fn ascending(literals: &[i32]) -> bool {
    let sizes: Vec<u32> = literals.iter().map(|literal| literal.unsigned_abs()).collect();
    sizes.iter().all(|size| (1..=LARGEST as u32).contains(size)) && sizes.windows(2).all(|pair| pair[0] < pair[1])
}

#[cfg(test)]
mod tests {
    use super::*;

    fn rule(choice: bool, heads: &[i32], body: &[i32]) -> Rule {
        Rule { choice, heads: heads.to_vec(), body: body.to_vec() }
    }

    fn set(atoms: &[i32]) -> Set {
        atoms.iter().copied().collect()
    }

    #[test]
    fn starred_sets() {
        let six = [rule(false, &[1], &[2]), rule(false, &[2], &[1])];
        assert!(is_answer_set(&six, &set(&[])));
        assert!(!is_answer_set(&six, &set(&[1, 2])));
        let seven = [rule(true, &[1], &[])];
        assert!(is_answer_set(&seven, &set(&[])) && is_answer_set(&seven, &set(&[1])));
        let one = [rule(false, &[1], &[-1])];
        assert_eq!(answer_set_over(&one, &[1]), None);
        let eight = [rule(false, &[1], &[-1]), rule(false, &[1], &[])];
        assert_eq!(answer_set_over(&eight, &[1]), Some(set(&[1])));
    }

    #[test]
    fn lowest_of_those_apart() {
        assert_eq!(lowest_apart(&set(&[]), &set(&[])), None);
        assert_eq!(lowest_apart(&set(&[1, 3]), &set(&[1, 3])), None);
        assert_eq!(lowest_apart(&set(&[1, 3]), &set(&[1, 2])), Some(2));
        assert_eq!(lowest_apart(&set(&[1, 2]), &set(&[1, 3])), Some(2));
        assert_eq!(lowest_apart(&set(&[8_191]), &set(&[])), Some(8_191));
    }

    fn plain(heads: &[i32], body: &[i32]) -> InputRule {
        InputRule { choice: false, heads: heads.to_vec(), body: Body::Plain(body.to_vec()) }
    }

    /// What the set test answers for rules as written.
    fn tested(rules: &[InputRule], listed: &[u16]) -> Answer {
        let words: Vec<i32> = rules.iter().flat_map(InputRule::words).collect();
        test_set(&words, rules.len(), listed, MARKS).0
    }

    #[test]
    fn constraints_after_atoms() {
        let rules = [plain(&[2], &[]), plain(&[1], &[]), plain(&[], &[2])];
        assert_eq!(tested(&rules, &[2]), Answer::Differs(1));
        assert_eq!(tested(&rules, &[1, 2]), Answer::Broken(3));
        assert_eq!(tested(&rules[..2], &[1, 2]), Answer::Yes);
    }

    #[test]
    fn sets_with_weights() {
        let weights = |heads: &[i32], bound, pairs: &[(i32, i32)]| InputRule {
            choice: false,
            heads: heads.to_vec(),
            body: Body::Weights { bound, pairs: pairs.to_vec() },
        };
        let choice = |heads: &[i32]| InputRule { choice: true, heads: heads.to_vec(), body: Body::Plain(Vec::new()) };
        let sum = [choice(&[2, 3]), weights(&[1], 3, &[(2, 2), (3, 2), (4, 1)])];
        assert_eq!(tested(&sum, &[1, 2, 3]), Answer::Yes);
        assert_eq!(tested(&sum, &[2]), Answer::Yes);
        assert_eq!(tested(&sum, &[2, 3]), Answer::Differs(1));
        let itself = [choice(&[2]), weights(&[1], 3, &[(1, 2), (2, 2)])];
        assert_eq!(tested(&itself, &[1, 2]), Answer::Differs(1));
        let broken = [choice(&[1, 2, 3]), plain(&[], &[2, 3]), weights(&[], 4, &[(1, 3), (2, 2), (3, 2)])];
        assert_eq!(tested(&broken, &[1, 2]), Answer::Broken(3));
        assert_eq!(tested(&broken, &[2, 3]), Answer::Broken(2));
        assert_eq!(tested(&broken, &[1]), Answer::Yes);
    }

    #[test]
    fn tables() {
        assert!(rules_of(&[0, 0, 0, 0], 1).is_some());
        assert!(rules_of(&[0, 0, 0, 0], 0).is_some());
        assert!(rules_of(&[0, 0, 0], 1).is_none());
        assert!(rules_of(&[0, 1, 0, 0, 1, 7], 1).is_none());
        assert!(rules_of(&[0, 1, 0, 0, i32::MIN], 1).is_none());
        assert!(rules_of(&[0, 0, 0, 1, i32::MIN], 1).is_none());
        assert!(rules_of(&[0, 0, 0, 2, -1, 2], 1).is_some());
    }

    #[test]
    fn tables_with_weights() {
        let many = |count: i32| {
            let mut words = vec![0, 0, 1, count, 1];
            words.extend((1..=count).flat_map(|atom| [atom, 1]));
            words
        };
        assert!(rules_of(&many(12), 1).is_some() && rules_of(&many(13), 1).is_none());
        for (words, good) in [
            (&[0, 0, 1, 0, 0][..], true),
            (&[0, 0, 1, 0, 4_095], true),
            (&[0, 0, 1, 1, 4_095, 1, 4_095], true),
            (&[0, 0, 1, 1, 1, 1, -1], false),
            (&[0, 0, 1, 1, 1, 1, 4_096], false),
            (&[0, 0, 1, 1, -1, 1, 1], false),
            (&[0, 0, 1, 1, 4_096, 1, 1], false),
            (&[0, 0, 2, 1, 1, 1, 1], false),
            (&[0, 0, 1, 0], false),
            (&[0, 0, 1, 1, 1, 1], false),
            (&[0, 0, 1, 2, 1, 2, 1, 1, 1], false),
            (&[0, 0, 1, 2, 1, 1, 1, -1, 1], false),
            (&[0, 0, 1, 2, 1, 1, 0, -2, 1], true),
        ] {
            assert_eq!(rules_of(words, 1).is_some(), good, "{words:?}");
        }
    }
}
