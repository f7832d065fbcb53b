//! How often each answer was seen, and which of those that must be seen never was.

use std::collections::BTreeMap;

use crate::costs;
use crate::long;
use crate::one_rate;
use crate::packets;
use crate::reference::check::{verdict_line, Verdict};
use crate::reference::merge::Turn;
use crate::sums;
use crate::trees;
use crate::trims;

#[derive(Default)]
pub struct Tally {
    seen: BTreeMap<String, u64>,
}

impl Tally {
    pub fn count(&mut self, what: String) {
        *self.seen.entry(what).or_insert(0) += 1;
    }

    pub fn verdict(&mut self, service: &str, verdict: &Verdict) {
        self.count(format!("{service}: {}", kind(verdict)));
    }

    /// What became of dead nogoods in a check that went through.
    pub fn store(&mut self, dead_left: bool, closed_up: bool) {
        for (seen, what) in [(dead_left, DEAD_LEFT), (closed_up, CLOSED_UP), (dead_left && closed_up, BOTH)] {
            if seen {
                self.count(format!("check_texts: {what}"));
            }
        }
    }

    /// What a service of packets comes to: the word where it is good, or a refusal's number.
    pub fn packet(&mut self, service: &str, good: &str, refusal: Option<u8>) {
        self.count(refusal.map_or(format!("{service}: {good}"), |number| format!("{service}: refused {number}")));
    }

    /// What was never seen of all that a run has to see.
    pub fn missing(&self, with_binary: bool) -> Vec<String> {
        wanted(with_binary).into_iter().filter(|what| !self.seen.contains_key(what)).collect()
    }

    pub fn print(&self) {
        for (what, times) in &self.seen {
            println!("{times:>9}  {what}");
        }
    }
}

/// The verdict without its counts and places: the word, and a refusal's number.
fn kind(verdict: &Verdict) -> String {
    let words = match verdict {
        Verdict::Inconsistent(_) | Verdict::Open(_) => 1,
        _ => 3,
    };
    let line = verdict_line(verdict);
    let kept: Vec<String> = line.split(' ').take(words).map(padded).collect();
    kept.join(" ")
}

fn padded(word: &str) -> String {
    word.parse::<u8>().map_or(String::from(word), |number| format!("{number:02}"))
}

const DEAD_LEFT: &str = "dead nogoods are left";
const CLOSED_UP: &str = "the store was closed up";
const BOTH: &str = "the store was closed up, and dead nogoods are left";

/// The questions that a program can fail.
const PROGRAM_QUESTIONS: [u8; 13] = [1, 2, 3, 4, 5, 6, 7, 8, 9, 10, 11, 54, 55];

fn wanted(with_binary: bool) -> Vec<String> {
    let mut wanted = Vec::new();
    let services: &[&str] = if with_binary { &["check_texts", "verdict"] } else { &["check_texts"] };
    for service in services {
        wanted.extend(["inconsistent", "open"].map(|word| format!("{service}: {word}")));
        wanted.extend(PROGRAM_QUESTIONS.map(|number| format!("{service}: refused program {number:02}")));
        wanted.extend((21..=34).chain([56]).map(|number| format!("{service}: refused proof {number}")));
    }
    wanted.extend(long::WANTED.map(|what| format!("check_long: {what}")));
    wanted.extend(PROGRAM_QUESTIONS.map(|number| format!("check_long: refused program {number:02}")));
    wanted.extend((21..=34).chain([56]).map(|number| format!("check_long: refused proof {number}")));
    wanted.extend([DEAD_LEFT, CLOSED_UP, BOTH].map(|what| format!("check_texts: {what}")));
    wanted.push(String::from("read_program: read"));
    wanted.extend(PROGRAM_QUESTIONS.map(|number| format!("read_program: refused {number:02}")));
    wanted.extend("abcdels".chars().map(|letter| format!("read_line: {letter}")));
    wanted.push(String::from("read_line: end"));
    wanted.extend((21..=25).map(|number| format!("read_line: refused {number}")));
    wanted.extend(["yes", "broken", "refused 41", "refused 42", "refused 43"].map(|word| format!("test_set: {word}")));
    wanted.extend(["set", "model"].map(|which| format!("test_set: differs, in the {which} only")));
    wanted.extend(packets::WANTED.map(String::from));
    wanted.extend(["merged", "refused 57", "refused 58", "refused 59"].map(|word| format!("merge_halves: {word}")));
    wanted.extend(PROGRAM_QUESTIONS.map(|number| format!("merge_halves: refused program {number:02}")));
    wanted.extend(trims::WANTED.map(|what| format!("trim_proof: {what}")));
    wanted.extend(PROGRAM_QUESTIONS.map(|number| format!("trim_proof: refused program {number:02}")));
    wanted.extend(one_rate::WANTED.map(|what| format!("one rate: {what}")));
    wanted.extend(costs::WANTED.map(|what| format!("check_cheapest: {what}")));
    wanted.extend(PROGRAM_QUESTIONS.map(|number| format!("check_cheapest: refused program {number:02}")));
    wanted.extend(trees::WANTED.map(|what| format!("merge_tree: {what}")));
    wanted.extend(PROGRAM_QUESTIONS.map(|number| format!("merge_tree: refused program {number:02}")));
    wanted.extend(sums::WANTED.map(|what| format!("split_sums: {what}")));
    let asked = PROGRAM_QUESTIONS.iter().filter(|number| **number != 55);
    wanted.extend(asked.map(|number| format!("split_sums: refused program {number:02}")));
    wanted.extend(Turn::ALL.map(|turn| format!("merge_halves: {}", turn.told())));
    wanted.extend("abcdels".chars().map(|letter| format!("inconsistent by a proof with {letter}")));
    wanted.extend(["refuted", "answer set"].map(|word| format!("search: {word}")));
    wanted.extend(["program", "program with weights", "program with further constraints"].map(|what| format!("no answer set: {what}")));
    wanted
}

#[cfg(test)]
mod tests {
    use super::*;

    #[test]
    fn what_was_not_seen() {
        let mut tally = Tally::default();
        let all = tally.missing(false);
        tally.verdict("check_texts", &Verdict::RefusedProgram { number: 3, line: 2 });
        tally.verdict("verdict", &Verdict::RefusedProof { number: 33, step: 1 });
        let left = tally.missing(false);
        assert_eq!(left.len() + 1, all.len());
        assert!(!left.contains(&String::from("check_texts: refused program 03")));
        assert!(left.contains(&String::from("check_texts: refused program 11")));
        assert_eq!(tally.missing(true).len(), left.len() + 30 - 1);
    }

    #[test]
    fn atoms_of_both_sides_are_wanted() {
        let mut tally = Tally::default();
        let sides = ["test_set: differs, in the set only", "test_set: differs, in the model only"].map(String::from);
        assert!(sides.iter().all(|side| tally.missing(false).contains(side)));
        tally.count(sides[0].clone());
        assert!(!tally.missing(false).contains(&sides[0]) && tally.missing(false).contains(&sides[1]));
    }
}
