//! A proof whose lines are told, without a search: those that give clauses, from which the contradiction follows by
//! propagation alone.

use std::collections::HashMap;

use super::clauses::Log;
use super::completion::{Completion, Origin};
use super::trim::Refutation;
use super::write::{write, Deletions, Proof};
use crate::rules::Rule;

/// A line that gives a clause; the `b` lines that it takes are written before it.
#[derive(Debug, Clone, PartialEq, Eq)]
pub enum Line {
    /// `c`: a body and the head that it gives, or none of a constraint.
    Given { body: Vec<i32>, head: Option<i32> },
    /// `s`
    Support(i32),
    /// `l`: the atoms of a loop, the clause's own first.
    Loop(Vec<i32>),
}

/// The proof with these lines, in their order, for the rules over so many atoms; a reason where one cannot be written.
pub fn proof_of(rules: &[Rule], atoms: usize, lines: &[Line]) -> Result<Proof, String> {
    let mut completion = Completion::of(rules, atoms);
    for line in lines {
        if let Line::Loop(set) = line {
            let mut ascending = set.clone();
            ascending.sort_unstable();
            completion.add_loop(&ascending);
        }
    }
    let bodies: HashMap<&[i32], usize> = completion.bodies.iter().enumerate().map(|(place, body)| (body.as_slice(), place)).collect();
    let mut places: HashMap<&Origin, u32> = HashMap::new();
    for (place, axiom) in completion.axioms.iter().enumerate() {
        places.entry(&axiom.origin).or_insert(place as u32);
    }
    let hint = |line: &Line| {
        let origin = match line {
            Line::Given { body, head } => Origin::Completion { body: *bodies.get(body.as_slice())?, head: *head },
            Line::Support(atom) => Origin::Support(*atom),
            Line::Loop(set) => {
                let mut others = set[1..].to_vec();
                others.sort_unstable();
                Origin::Loop([&set[..1], &others].concat())
            }
        };
        places.get(&origin).copied()
    };
    let hints: Option<Vec<u32>> = lines.iter().map(hint).collect();
    let hints = hints.ok_or_else(|| String::from("a line is asked for that no rule gives"))?;
    let mut log = Log::of(completion.clauses());
    log.learn([]);
    write(&completion, &Refutation { log, hints: vec![hints] }, Deletions::Few, usize::MAX)
}

#[cfg(test)]
mod tests {
    use super::super::completion::tests::program;
    use super::*;
    use crate::rules::rules;

    #[test]
    fn lines_as_told() {
        // 1 :- not 2. 3 :- 4. 4 :- 3. 5 :- 1, not 3. :- 5. :- 2.
        let lines = ["1 0 1 1 0 1 -2", "1 0 1 3 0 1 4", "1 0 1 4 0 1 3", "1 0 1 5 0 2 1 -3", "1 0 0 0 1 5", "1 0 0 0 1 2"];
        let program = program(&lines);
        let given = |body: &[i32], head| Line::Given { body: body.to_vec(), head };
        let told = [given(&[-2], Some(1)), Line::Loop(vec![3, 4]), given(&[1, -3], Some(5)), given(&[5], None), Line::Support(2)];
        let proof = proof_of(&rules(&program), program.atoms, &told).unwrap();
        assert_eq!(proof.text, "b 6 -2 0\nc 6 1 0\nl 3 4 0\nb 7 1 -3 0\nc 7 5 0\nb 8 5 0\nc 8 0\ns 2 0\na 0\n");
        let text = format!("asp 1 0 0\n{}\n0\n", lines.join("\n"));
        let verdict = crate::library::check_texts(text.as_bytes(), proof.text.as_bytes(), 1_000, proof.words).unwrap();
        assert_eq!(verdict.to_string(), "inconsistent 5 6 9 13");
        assert!(proof_of(&rules(&program), program.atoms, &[given(&[1], Some(5))]).is_err());
    }
}
