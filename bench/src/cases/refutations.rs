//! A small search for refutations: it splits on atoms that propagation leaves open, writes the nogood of each node once both
//! of its halves are refuted, and deletes some of the halves.

use super::completion::completion;
use crate::unverified::nogoods::{code_of, Nogoods};
use inputs::lines::Line;
use inputs::random::Random;
use inputs::rules::{largest_atom, Rule};

struct Search {
    nogoods: Nogoods,
    lines: Vec<Line>,
    /// The search gives up where the lines become more.
    most: usize,
    atoms: i32,
    random: Random,
    deletions: Deletions,
}

/// Which nogoods of halves are deleted once that of the whole is there.
#[derive(Clone, Copy, PartialEq, Eq)]
enum Deletions {
    /// Each or not, as a coin falls.
    Some,
    All,
}

/// A proof of at most so many lines that ends in the empty nogood; nothing where there is none to be found.
pub fn refute(rules: &[Rule], most: usize, seed: u64) -> Option<Vec<Line>> {
    let mut search = Search::of(rules, most, seed, Deletions::Some)?;
    search.node(&mut Vec::new()).then_some(search.lines)
}

/// The first lines of a proof, about so many or all of them. It deletes all that it needs no more.
pub fn first_lines(rules: &[Rule], most: usize, seed: u64) -> Vec<Line> {
    let Some(mut search) = Search::of(rules, most, seed, Deletions::All) else { return Vec::new() };
    search.node(&mut Vec::new());
    search.lines
}

fn codes_of(literals: &[i32]) -> Vec<u32> {
    literals.iter().map(|&literal| code_of(literal)).collect()
}

/// The nogoods of a line of the completion.
fn enter(nogoods: &mut Nogoods, line: &Line) {
    let mut codes = codes_of(&line.numbers);
    if line.letter != b'b' {
        codes[1..].iter_mut().for_each(|code| *code ^= 1);
        nogoods.add(&codes);
        return;
    }
    for &code in &codes[1..] {
        nogoods.add(&[codes[0], code ^ 1]);
    }
    codes[0] ^= 1;
    nogoods.add(&codes);
}

impl Search {
    /// The search at its start, behind the completion.
    fn of(rules: &[Rule], most: usize, seed: u64, deletions: Deletions) -> Option<Search> {
        let lines = completion(rules);
        let largest = lines.iter().flat_map(|line| &line.numbers).map(|n| n.unsigned_abs()).max()?;
        let mut nogoods = Nogoods::over(largest as usize);
        lines.iter().for_each(|line| enter(&mut nogoods, line));
        Some(Search { nogoods, lines, most, atoms: largest_atom(rules), random: Random::from_seed(seed), deletions })
    }

    /// Refutes the decisions; whether that succeeds.
    fn node(&mut self, decisions: &mut Vec<i32>) -> bool {
        if let Some(truths) = self.nogoods.closure(&codes_of(decisions)) {
            let Some(atom) = self.open_atom(&truths) else { return false };
            for literal in [atom, -atom] {
                decisions.push(literal);
                let refuted = self.node(decisions);
                decisions.pop();
                if !refuted {
                    return false;
                }
            }
            self.write(b'a', decisions);
            self.clear_halves(decisions, atom);
        } else {
            self.write(b'a', decisions);
        }
        self.lines.len() <= self.most
    }

    /// The first atom, from a random one on, that has no value.
    fn open_atom(&mut self, truths: &[bool]) -> Option<i32> {
        let start = self.random.below(self.atoms as usize) as i32;
        let is_open = |&atom: &i32| !truths[code_of(atom) as usize] && !truths[code_of(-atom) as usize];
        (0..self.atoms).map(|i| (start + i) % self.atoms + 1).find(is_open)
    }

    /// Deletes each half's nogood or leaves it.
    fn clear_halves(&mut self, decisions: &mut Vec<i32>, atom: i32) {
        for literal in [atom, -atom] {
            if self.deletions == Deletions::All || self.random.below(2) == 0 {
                decisions.push(literal);
                self.write(b'd', decisions);
                decisions.pop();
            }
        }
    }

    /// A line, and what it does.
    fn write(&mut self, letter: u8, literals: &[i32]) {
        let codes = codes_of(literals);
        match letter {
            b'a' => self.nogoods.add(&codes),
            _ => self.nogoods.delete(&codes),
        }
        self.lines.push(Line::of(letter, literals));
    }
}
