//! The certificate of an explanation: the program with a constraint for each assumption and one against the literal, and
//! a proof that it is inconsistent, written from the derivation, accepted by the check and trimmed.

use aspdrupe::{Trimming, Verdict};

use super::closure::{Assumption, Closure, Reason};
use super::program::Plain;
use crate::arguments::ROOM;
use crate::certify::{proof_of, Limits, Line, Proof, Refuted};
use crate::files::TEXT_LIMIT;
use crate::outcome::Failure;
use crate::progress::{Part, Progress};
use crate::rules::{Body, Rule};
use crate::{constrained, library};

/// The most literals of a plain body.
const MOST_LITERALS: usize = 64;

/// A certificate, or why there is none.
pub enum Certified {
    Yes(Certificate),
    Undecided(String),
    /// What the check says otherwise.
    No(Refuted),
}

pub struct Certificate {
    pub refuted: Refuted,
    /// The lines of the proof as they stand, those of `b` and the last one aside, which is the contradiction.
    pub lines: Vec<Line>,
    /// The assumptions that they take.
    pub assumptions: Vec<Assumption>,
    /// How many lines went; none where the proof is too long to be trimmed.
    pub trimmed: Option<usize>,
}

/// A literal, and what it is derived from.
pub struct Derivation<'a> {
    pub plain: &'a Plain,
    /// The program's text, its sums split.
    pub text: &'a [u8],
    pub literal: i32,
    pub assumptions: &'a [Assumption],
    pub closure: &'a Closure<'a>,
}

/// The constraint that breaks where an assumption does not hold.
pub fn constraint(assumption: Assumption, plain: &Plain) -> Vec<i32> {
    let Assumption::Taken { head, body } = assumption else { return vec![-assumption.literal()] };
    let mut literals = plain.bodies[body].clone();
    if literals.len() >= MOST_LITERALS {
        return vec![-head];
    }
    literals.push(-head);
    literals.sort_by_key(|literal| literal.abs());
    literals
}

impl Derivation<'_> {
    /// The constraints that are added for assumptions, and that against the literal.
    fn constraints(&self, assumptions: &[Assumption]) -> Vec<Rule> {
        let bodies = assumptions.iter().map(|assumption| constraint(*assumption, self.plain)).chain([vec![self.literal]]);
        bodies.map(|body| Rule { choice: false, heads: Vec::new(), body: Body::Plain(body) }).collect()
    }

    /// The program with a constraint for each of the assumptions and one against the literal.
    fn text(&self, assumptions: &[Assumption]) -> Vec<u8> {
        constrained::text(self.text, &self.constraints(assumptions).iter().map(Rule::line).collect::<Vec<_>>())
    }

    /// The lines of the proof: for each literal that is needed one, and the constraint against the literal.
    fn lines(&self) -> Vec<Line> {
        let given = |body: &[i32], head: Option<i32>| Line::Given { body: body.to_vec(), head };
        let line = |literal: i32| match self.closure.reason(literal)? {
            Reason::Rule(body) => Some(given(&self.plain.bodies[*body], Some(literal))),
            Reason::Taken(body) => Some(given(&constraint(Assumption::Taken { head: literal, body: *body }, self.plain), None)),
            Reason::Left => Some(given(&[-literal], None)),
            Reason::Unsupported => Some(Line::Support(-literal)),
            Reason::Loop(set) => {
                let others = set.iter().copied().filter(|atom| *atom != -literal);
                Some(Line::Loop([-literal].into_iter().chain(others).collect()))
            }
        };
        let needed = self.closure.needed(self.literal);
        needed.into_iter().filter_map(line).chain([given(&[self.literal], None)]).collect()
    }

    /// The certificate.
    pub fn certified(&self, limits: Limits, progress: &Progress) -> Result<Certified, Failure> {
        let text = self.text(self.assumptions);
        let rules: Vec<Rule> = self.plain.rules.iter().cloned().chain(self.constraints(self.assumptions)).collect();
        let proof = match proof_of(&rules, self.plain.atoms, &self.lines()) {
            Ok(proof) => proof,
            Err(why) => return Ok(Certified::Undecided(why)),
        };
        progress.begin(Part::Checking);
        let store = limits.store.unwrap_or(ROOM.max(proof.words));
        let checked = library::check(&text, proof.text.as_bytes(), limits.table, Some(store))?;
        match checked.verdict {
            Verdict::Inconsistent(_) => self.trimmed(Refuted { text, proof, checked }, limits.table, store, progress).map(Certified::Yes),
            Verdict::RefusedProgram(refusal) => {
                let why = format!("with a constraint for each assumption the program is beyond what the checker takes: {refusal}");
                Ok(Certified::Undecided(why))
            }
            _ => Ok(Certified::No(Refuted { text, proof, checked })),
        }
    }

    /// The certificate of an accepted proof, trimmed where it is not too long: what it needs, with the assumptions that
    /// are left.
    fn trimmed(&self, mut refuted: Refuted, table: usize, store: usize, progress: &Progress) -> Result<Certificate, Failure> {
        let mut trimmed = None;
        if refuted.checked.long.is_none() {
            progress.begin(Part::Trimming);
            trimmed = Some(trim(&refuted.text, &mut refuted.proof, table, store)?);
        }
        let lines = read(&refuted.proof.text).ok_or_else(|| Failure::misuse("a line of the trimmed proof is none that was written"))?;
        let is_left = |of: &&Assumption| lines.contains(&Line::Given { body: constraint(**of, self.plain), head: None });
        let assumptions: Vec<Assumption> = self.assumptions.iter().filter(is_left).copied().collect();
        refuted.text = self.text(&assumptions);
        refuted.checked = library::check(&refuted.text, refuted.proof.text.as_bytes(), table, Some(store))?;
        if refuted.counts().is_none() {
            return Err(Failure::misuse("what trimming leaves of the proof is not accepted"));
        }
        Ok(Certificate { refuted, lines, assumptions, trimmed })
    }
}

/// Trims an accepted proof; how many lines went.
fn trim(program: &[u8], proof: &mut Proof, table: usize, store: usize) -> Result<usize, Failure> {
    let mut bytes = proof.text.clone().into_bytes();
    debug_assert!(bytes.len() <= TEXT_LIMIT);
    match aspdrupe::trim_proof(program, &mut bytes, &mut library::lent(table)?, &mut library::lent(store)?)? {
        Trimming::Trimmed(length) => bytes.truncate(length),
        refused => return Err(Failure::misuse(format!("the library does not trim a proof that it accepts: {refused:?}"))),
    }
    let before = proof.lines;
    proof.text = String::from_utf8_lossy(&bytes).into_owned();
    proof.lines = proof.text.lines().count();
    Ok(before - proof.lines)
}

/// The lines of a proof, those of `b` and `a` aside, with bodies in the place of names.
fn read(proof: &str) -> Option<Vec<Line>> {
    let mut bodies: Vec<(i32, Vec<i32>)> = Vec::new();
    let mut lines = Vec::new();
    for line in proof.lines() {
        let (letter, numbers) = line.split_once(' ')?;
        let mut numbers: Vec<i32> = numbers.split(' ').map(|word| word.parse().ok()).collect::<Option<_>>()?;
        numbers.pop();
        match (letter, &numbers[..]) {
            // Names are given out in ascending order.
            ("b", [name, literals @ ..]) => bodies.push((*name, literals.to_vec())),
            ("c", [name, head @ ..]) => {
                let place = bodies.binary_search_by_key(name, |(name, _)| *name).ok()?;
                lines.push(Line::Given { body: bodies[place].1.clone(), head: head.first().copied() });
            }
            ("s", [atom, ..]) => lines.push(Line::Support(*atom)),
            ("l", set) => lines.push(Line::Loop(set.to_vec())),
            ("a", []) => {}
            _ => return None,
        }
    }
    Some(lines)
}

#[cfg(test)]
mod tests {
    use super::*;

    #[test]
    fn lines_of_a_proof() {
        let read_lines = read("b 6 -2 0\nc 6 1 0\nl 3 4 0\nb 8 5 0\nc 8 0\ns 2 0\na 0\n").unwrap();
        let given = |body: &[i32], head| Line::Given { body: body.to_vec(), head };
        assert_eq!(read_lines, [given(&[-2], Some(1)), Line::Loop(vec![3, 4]), given(&[5], None), Line::Support(2)]);
        assert_eq!((read("a 1 0\n"), read("c 6 1 0\n"), read("x\n")), (None, None, None));
    }
}
