//! Names for atoms that have none: sums that were split, by their literals and what they come to, and atoms that gringo
//! makes for sums and bounds, by the bodies of their rules.

use std::collections::{BTreeMap, HashMap, HashSet};

use crate::names::Names;
use crate::rules::{Body, Rule};
use crate::spelling::Spelling;

/// A sum or a part of one: literals with weights, and what they come to at least.
type Sum = (i32, BTreeMap<i32, i32>);

/// The names with one for each atom up to the largest; those above the told number are of sums that were split.
pub fn named(names: &Names, rules: &[Rule], told: usize, atoms: usize) -> Names {
    let mut all = names.clone();
    if names.is_empty() {
        (1..=told as i32).for_each(|atom| all.call(atom, atom.to_string()));
    }
    let split = (told as i32 + 1)..=atoms as i32;
    let sums = sums(rules, told);
    let spelled = |names: &Names, atoms: Vec<i32>| -> Vec<(i32, String)> {
        let spelling = Spelling::of(names, rules.iter());
        let sum = |atom: i32| sums.get(&atom).map(|(bound, pairs)| spelling.sum(*bound, pairs.clone().into_iter().collect()));
        atoms.into_iter().map(|atom| (atom, sum(atom).unwrap_or_else(|| spelling.atom(atom)))).collect()
    };
    for (atom, text) in spelled(&all, split.collect()) {
        all.call(atom, text);
    }
    let given: HashSet<i32> = rules.iter().flat_map(|rule| rule.heads.iter().copied()).collect();
    let (nameless, never): (Vec<i32>, Vec<i32>) = (1..=told as i32).filter(|atom| !all.has(*atom)).partition(|atom| given.contains(atom));
    never.into_iter().for_each(|atom| all.call(atom, String::from(NEVER)));
    for (atom, text) in spelled(&all, nameless) {
        all.call(atom, text);
    }
    all
}

/// The name of an atom that gringo makes where something always holds, and that no rule gives: it is negated.
const NEVER: &str = "#false";

/// A text in which that atom is negated.
pub fn tidied(text: &str) -> String {
    text.replace("not #false", "#true")
}

/// What each atom above the told number says: its node of a sum comes to its level. The rules of a node stand behind
/// those of its sides.
fn sums(rules: &[Rule], told: usize) -> HashMap<i32, Sum> {
    let mut sums: HashMap<i32, Sum> = HashMap::new();
    for rule in rules {
        let [head] = rule.heads[..] else { continue };
        if usize::try_from(head).is_ok_and(|head| head <= told) {
            continue;
        }
        let (level, pairs) = match &rule.body {
            Body::Weights { bound, pairs } => (*bound, pairs.iter().copied().collect()),
            Body::Plain(atoms) => {
                let sides = atoms.iter().filter_map(|atom| sums.get(atom));
                sides.fold((0, BTreeMap::new()), |(level, pairs), (more, others)| {
                    (level + more, pairs.into_iter().chain(others.clone()).collect::<BTreeMap<i32, i32>>())
                })
            }
        };
        let sum = sums.entry(head).or_insert((level, BTreeMap::new()));
        sum.0 = sum.0.min(level);
        sum.1.extend(pairs);
    }
    sums
}

#[cfg(test)]
mod tests {
    use super::*;

    #[test]
    fn sums_that_were_split() {
        // The example of docs/FORMAT.md, "Splitting long sums", with a head.
        let pairs = |from: i32, to: i32| (from..=to).map(|atom| format!(" {atom} 1")).collect::<String>();
        let lines = [
            format!("1 0 1 15 1 6 7{}", pairs(1, 7)),
            format!("1 0 1 16 1 7 7{}", pairs(1, 7)),
            format!("1 0 1 17 1 5 6{}", pairs(8, 13)),
            format!("1 0 1 18 1 6 6{}", pairs(8, 13)),
            String::from("1 0 1 19 0 2 15 18"),
            String::from("1 0 1 19 0 2 16 17"),
            String::from("1 0 1 14 0 1 19"),
        ];
        let rules: Vec<Rule> = lines.iter().filter_map(|line| Rule::of_line(line)).collect();
        let names = named(&Names::default(), &rules, 14, 19);
        assert_eq!(names.of(15), "6 { 1; 2; 3; 4; 5; 6; 7 }");
        assert_eq!(names.of(19), "12 { 1; 2; 3; 4; 5; 6; 7; 8; 9; 10; 11; 12; 13 }");
        assert_eq!(names.of(14), "14");
    }

    #[test]
    fn atoms_of_gringo() {
        let mut names = Names::default();
        ["4 1 a 1 1", "4 1 b 1 2", "4 1 m 1 5"].iter().for_each(|line| assert!(names.take(line.as_bytes())));
        let lines = ["1 0 1 3 1 2 2 1 1 2 1", "1 0 1 4 0 1 3", "1 0 1 5 0 1 4", "1 0 1 7 1 2 2 1 1 -6 1"];
        let rules: Vec<Rule> = lines.iter().filter_map(|line| Rule::of_line(line)).collect();
        let names = named(&names, &rules, 7, 7);
        assert_eq!(tidied(&names.of(7)), "2 { a; #true }");
        assert_eq!([3, 4, 5].map(|atom| names.of(atom)), ["2 { a; b }", "2 { a; b }", "m"]);
        assert_eq!(names.rule(&rules[2]), "m :- 2 { a; b }.");
    }
}
