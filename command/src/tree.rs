//! `aspdrupe tree`: the proofs at the ends of a tree of splits into one proof of the program itself.

use aspdrupe::{MergeQuestion, Merging};

use crate::arguments::{Subcommand, Words};
use crate::files::{self, TEXT_LIMIT};
use crate::json::Json;
use crate::outcome::{Failure, Outcome, Status};
use crate::{constrained, library, merge};

pub const SUBCOMMAND: Subcommand = Subcommand {
    name: "tree",
    form: "PROGRAM TREE END.. [-o PROOF.drupe] [--table N] [--store N]",
    about: "Merges the proofs at the ends of a tree of splits, up to six on a path, into one proof of the program itself.",
    more: "TREE is numbers with commas between them: 0 for an end; for a split its atom, then the side that demands the atom, then the side that
forbids it. 1,0,2,0,0 is split on 1, and where 1 is forbidden on 2. The ENDs are proofs in the order of the tree, each for the program with the
constraints on its path added in order from the root: `1 0 0 0 1 -ATOM` where the atom is demanded, `1 0 0 0 1 ATOM` where it is forbidden. The
tree 0 is one end, a proof of the program itself, written as it stands. Prints the verdict on the merged proof, `inconsistent N R S K`, or
    refused program NUMBER LINE
    refused merge NUMBER      for 64 why it is no such tree, for 57 the end that is not accepted and what the check says of it, are on
                              the standard error
--table N and --store N are the words for rules and nogoods, 16384 each where nothing is said, as in `verdict`.",
    options: &["-o", "--table", "--store"],
    lists: &[],
    flags: &[],
    inputs: &INPUTS,
    operands: (2, usize::MAX),
    run,
};

/// The most splits on a path.
pub const MOST_SPLITS: usize = 6;

/// The most ends of a tree.
const MOST_ENDS: usize = 1 << MOST_SPLITS;

/// The program, and the ends behind the tree.
const INPUTS: [usize; 1 + MOST_ENDS] = {
    let mut places = [0; 1 + MOST_ENDS];
    let mut end = 1;
    while end <= MOST_ENDS {
        places[end] = 1 + end;
        end += 1;
    }
    places
};

fn run(words: &Words) -> Result<Outcome, Failure> {
    let (table, store) = (words.room("--table")?, words.room("--store")?);
    let numbers = numbers_of(&words.operand(1)?.to_string_lossy())?;
    let program = files::read(words.path(0)?, TEXT_LIMIT)?;
    let paths = words.paths_from(2);
    let ends: Vec<Vec<u8>> = paths.iter().map(|path| files::read(path, TEXT_LIMIT)).collect::<Result<_, _>>()?;
    let lengths: Vec<u64> = ends.iter().map(|end| end.len() as u64).collect();
    let mut output = vec![0; TEXT_LIMIT];
    let (mut rules, mut nogoods) = (library::lent(table)?, library::lent(store)?);
    let merging = aspdrupe::merge_tree(&program, &numbers, &ends.concat(), &lengths, &mut rules, &mut nogoods, &mut output)?;
    let outcome = merge::shown(words, merging, &program, output)?;
    match merging {
        Merging::Refused(MergeQuestion::Tree) => {
            let atoms = library::read_program(&program, library::EVERY_TABLE)?.map_or(0, |program| program.atoms);
            Ok(outcome.for_reason(fault_of(&numbers, atoms, ends.len())))
        }
        Merging::Refused(MergeQuestion::Halves) => {
            let sides = sides_of(&mut numbers.iter().copied(), &[]);
            explained(outcome, &program, &sides, &ends, store)
        }
        _ => Ok(outcome),
    }
}

/// The numbers between commas; none of an empty word.
fn numbers_of(text: &str) -> Result<Vec<u16>, Failure> {
    let number = |word: &str| word.trim().parse().map_err(|_| Failure::misuse(format!("`{word}` is no number of a tree, 0 to 65535")));
    if text.trim().is_empty() {
        return Ok(Vec::new());
    }
    text.split(',').map(number).collect()
}

/// Why the numbers are no tree over these atoms with so many ends: question 64 with what it does not say.
fn fault_of(numbers: &[u16], atoms: usize, proofs: usize) -> String {
    match ends_of(numbers, atoms, &mut Vec::new()) {
        Err(why) => why,
        Ok((_, rest)) if !rest.is_empty() => {
            format!("the tree ends after {} of its {} numbers", numbers.len() - rest.len(), numbers.len())
        }
        Ok((ends, _)) => format!("the tree has {ends} ends, and {proofs} proofs are given"),
    }
}

/// How many ends the tree at the front of the numbers has, and the numbers after it; or why there is none.
fn ends_of<'a>(numbers: &'a [u16], atoms: usize, path: &mut Vec<u16>) -> Result<(usize, &'a [u16]), String> {
    let Some((&atom, rest)) = numbers.split_first() else {
        return Err(String::from("the numbers end before the tree does: each split has two sides, and 0 is an end"));
    };
    if atom == 0 {
        return Ok((1, rest));
    }
    if usize::from(atom) > atoms {
        return Err(format!("{atom} is no atom of the program; its largest is {atoms}"));
    }
    if path.contains(&atom) {
        return Err(format!("atom {atom} is split twice on a path"));
    }
    if path.len() == MOST_SPLITS {
        return Err(format!("the split on {atom} is more than {MOST_SPLITS} deep"));
    }
    path.push(atom);
    let (demanding, rest) = ends_of(rest, atoms, path)?;
    let (other, rest) = ends_of(rest, atoms, path)?;
    path.pop();
    Ok((demanding + other, rest))
}

/// What is demanded on the path of each end of the tree at the front of the numbers, in the order of the ends.
pub fn sides_of(numbers: &mut impl Iterator<Item = u16>, path: &[i32]) -> Vec<Vec<i32>> {
    match numbers.next().map_or(0, i32::from) {
        0 => vec![path.to_vec()],
        atom => {
            let demanding = sides_of(numbers, &[path, &[atom]].concat());
            let other = sides_of(numbers, &[path, &[-atom]].concat());
            [demanding, other].concat()
        }
    }
}

/// The constraints that demand these literals.
pub fn demands(literals: &[i32]) -> Vec<String> {
    literals.iter().map(|literal| format!("1 0 0 0 1 {}", -literal)).collect()
}

/// Question 57 with what it does not say: which end is the first that is not accepted, what is demanded on its path, and what the check says of it.
fn explained(refusal: Outcome, program: &[u8], sides: &[Vec<i32>], ends: &[Vec<u8>], store: usize) -> Result<Outcome, Failure> {
    for (place, (side, end)) in sides.iter().zip(ends).enumerate() {
        match constrained::check(program, &demands(side), end, store)? {
            Ok(check) if check.status == Status::Good => {}
            Ok(check) => return Ok(of_end(refusal, place + 1, side, check)),
            Err(question) => {
                let why = "which end it is cannot be told: with the constraints on its path the program has too many bytes or rules for a check of its own";
                return Ok(refusal.for_reason(format!("{why} (question {})", question.number())));
            }
        }
    }
    Ok(refusal)
}

fn of_end(mut refusal: Outcome, place: usize, side: &[i32], check: Outcome) -> Outcome {
    let literals: Vec<String> = side.iter().map(i32::to_string).collect();
    let demanded = if side.is_empty() { String::new() } else { format!(" with {} demanded", literals.join(", ")) };
    let path = side.iter().map(|literal| Json::Number(i64::from(*literal))).collect();
    refusal.fields.extend([("end", Json::count(place)), ("path", Json::List(path))]);
    refusal.explained_by("check", &format!("the check of end {place} for the program{demanded}"), check)
}

#[cfg(test)]
mod tests {
    use super::*;

    #[test]
    fn numbers() {
        assert_eq!(numbers_of("1,0, 2,0,0"), Ok(vec![1, 0, 2, 0, 0]));
        assert_eq!(numbers_of(""), Ok(vec![]));
        for text in ["1,,0", "-1", "65536", "x", "1 0 0", ","] {
            assert!(numbers_of(text).is_err(), "{text}");
        }
    }

    #[test]
    fn sides_in_order() {
        let sides = |numbers: &[u16]| sides_of(&mut numbers.iter().copied(), &[]);
        assert_eq!(sides(&[0]), [vec![]]);
        assert_eq!(sides(&[1, 3, 0, 0, 2, 0, 0]), [[1, 3], [1, -3], [-1, 2], [-1, -2]]);
    }

    #[test]
    fn faults_of_a_tree() {
        for (numbers, why) in [
            (&[][..], "the numbers end before the tree does: each split has two sides, and 0 is an end"),
            (&[1, 0], "the numbers end before the tree does: each split has two sides, and 0 is an end"),
            (&[1, 0, 0, 0], "the tree ends after 3 of its 4 numbers"),
            (&[8, 0, 0], "8 is no atom of the program; its largest is 7"),
            (&[1, 0, 2, 1, 0, 0, 0], "atom 1 is split twice on a path"),
            (&[1, 2, 3, 4, 5, 6, 7, 0], "the split on 7 is more than 6 deep"),
            (&[1, 2, 0, 0, 2, 0, 0], "the tree has 4 ends, and 2 proofs are given"),
        ] {
            assert_eq!(fault_of(numbers, 7, 2), why, "{numbers:?}");
        }
    }

    #[test]
    fn constraints_demand_their_literals() {
        assert_eq!(demands(&[1, -2]), ["1 0 0 0 1 -1", "1 0 0 0 1 2"]);
    }

    #[test]
    fn inputs_are_the_program_and_the_ends() {
        assert_eq!((INPUTS[..3].to_vec(), INPUTS[MOST_ENDS]), (vec![0, 2, 3], 65));
    }
}
