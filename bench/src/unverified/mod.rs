//! A checker of the same format and rules as the verified one, written for speed and without proofs: what the verified check is
//! measured against. It keeps no table and no store, only their sizes, and answers the same verdict.

mod bodies;
mod hashing;
mod lines;
mod loops;
pub mod nogoods;
mod program;
mod steps;
mod weights;

use aspdrupe::{Counts, ProgramRefusal, ProofRefusal, UnknownAnswer, Verdict};
use steps::Checking;

/// The longest text, in bytes, and the longest proof for the check of any length.
const LONGEST: usize = 65_535;
const LONGEST_PROOF: usize = 2_147_483_647;

/// The largest variable.
const LARGEST: usize = 8_191;

/// The verdict on a proof text against a program text, for a table and a store of so many words.
pub fn check(program: &[u8], proof: &[u8], table_words: usize, store_words: usize) -> Result<Verdict, UnknownAnswer> {
    check_within(program, proof, table_words, store_words, LONGEST)
}

/// The same for a proof text of any length.
pub fn check_long(program: &[u8], proof: &[u8], table_words: usize, store_words: usize) -> Result<Verdict, UnknownAnswer> {
    check_within(program, proof, table_words, store_words, LONGEST_PROOF)
}

fn check_within(program: &[u8], proof: &[u8], table_words: usize, store_words: usize, longest: usize) -> Result<Verdict, UnknownAnswer> {
    let rules = match program::read(program, table_words) {
        Ok(rules) => rules,
        Err((number, line)) => return refused_program(number, line),
    };
    if proof.len() > longest {
        return refused_proof(21, 0);
    }
    let (atoms, count) = (rules.atoms, rules.count);
    let mut checking = Checking::start(rules, store_words);
    let steps = match run(&mut checking, proof) {
        Ok(steps) => steps,
        Err((number, step)) => return refused_proof(number, step),
    };
    let counts = Counts { atoms, rules: count, steps, nogoods: checking.live() };
    Ok(if checking.has_empty() { Verdict::Inconsistent(counts) } else { Verdict::Open(counts) })
}

fn refused_program(number: u8, line: usize) -> Result<Verdict, UnknownAnswer> {
    let question = u64::from(number).try_into()?;
    Ok(Verdict::RefusedProgram(ProgramRefusal { question, line }))
}

fn refused_proof(number: u8, step: usize) -> Result<Verdict, UnknownAnswer> {
    let question = u64::from(number).try_into()?;
    Ok(Verdict::RefusedProof(ProofRefusal { question, step }))
}

/// Every line's step in order: how many there were, or the refusal's number and the step.
fn run(checking: &mut Checking, proof: &[u8]) -> Result<usize, (u8, usize)> {
    let mut reader = lines::Reader::of(proof);
    let mut steps = 0;
    loop {
        let letter = match reader.next_line() {
            Ok(Some(letter)) => letter,
            Ok(None) => return Ok(steps),
            Err(number) => return Err((number, steps + 1)),
        };
        steps += 1;
        checking.step(letter, reader.numbers()).map_err(|number| (number, steps))?;
    }
}

#[cfg(test)]
mod tests {
    use super::*;

    const RULE: &str = "1 0 1 1 0 1 -1\n";
    const PROOF: &str = "b 2 -1 0\nc 2 1 0\ns 1 2 0\na 1 0\na 0\n";

    /// The line that a table and a store of so many words lead to.
    fn line(rules: &str, proof: &str, table: usize, store: usize) -> String {
        let program = format!("asp 1 0 0\n{rules}0\n");
        check(program.as_bytes(), proof.as_bytes(), table, store).unwrap().to_string()
    }

    #[test]
    fn starred_1_to_3() {
        assert_eq!(line(RULE, PROOF, 6, 21), "inconsistent 1 1 5 6");
        assert_eq!(line(RULE, PROOF, 6, 20), "refused proof 34 5");
        assert_eq!(line(RULE, PROOF, 5, 21), "refused program 10 2");
        assert_eq!(line(RULE, &format!("{PROOF}d 0\n"), 6, 21), "open 1 1 6 5");
        assert_eq!(line(RULE, &PROOF.replace("c 2 1 0", "e 1 2 0"), 6, 21), "refused proof 27 2");
    }

    #[test]
    fn words_of_the_store() {
        let again = "b 2 0\nc 2 1 0\nd -2 0\nc 2 1 0\nc 2 1 0\n";
        let extended = "b 2 0\ne 3 1 2 0\n";
        for (proof, store, expected) in [
            (again, 12, "open 1 1 5 3"),
            (again, 11, "refused proof 34 5"),
            (extended, 16, "open 1 1 2 4"),
            (extended, 15, "refused proof 34 2"),
        ] {
            assert_eq!(line("1 0 1 1 0 0\n", proof, 5, store), expected, "{proof}");
        }
    }

    #[test]
    fn starred_4_to_8() {
        let loops = "1 0 1 1 0 1 2\n1 0 1 2 0 1 1\n1 0 0 0 1 -1\n";
        assert_eq!(line("", "", 0, 0), "open 0 0 0 0");
        assert_eq!(line("", "a 0\n", 0, 1), "refused proof 33 1");
        assert_eq!(line(loops, "b 3 -1 0\nc 3 0\nl 1 2 0\na 0\n", 99, 99), "inconsistent 2 3 4 5");
        assert_eq!(line(loops, "b 3 -1 0\nc 3 0\na 0\n", 99, 99), "refused proof 33 3");
        assert_eq!(line("1 1 1 1 0 0\n", "b 2 0\nc 2 1 0\n", 99, 99), "refused proof 29 2");
        assert_eq!(line(&format!("{RULE}1 0 1 1 0 0\n"), PROOF, 99, 99), "refused proof 30 3");
    }

    #[test]
    fn weight_lines() {
        for (rule, expected) in [
            ("1 0 1 1 1 3 2 2 2 3 2", "open 3 1 0 0"),
            ("1 0 1 1 1 1 2 2 1 9 0", "open 9 1 0 0"),
            ("1 0 1 1 1", "refused program 6 2"),
            ("1 0 1 1 1 3", "refused program 6 2"),
            ("1 0 1 1 1 3 2 2 2 3", "refused program 6 2"),
            ("1 0 1 1 1 3 1 2 2 3", "refused program 6 2"),
            ("1 0 2 1 2 1 -1 0", "refused program 54 2"),
            ("1 0 2 1 2 1 1 0", "refused program 7 2"),
            ("1 0 1 1 1 1 2 2 1 -2 1", "refused program 8 2"),
            ("1 0 1 1 2 1 0", "refused program 5 2"),
            ("1 0 1 1 1 4095 1 8191 4095", "open 8191 1 0 0"),
            ("1 0 1 1 1 4096 1 2 1", "refused program 54 2"),
            ("1 0 1 1 1 1 1 2 8191", "refused program 54 2"),
            ("1 0 1 1 1 1 1 2 8192", "refused program 4 2"),
            ("1 0 1 8192 0 0", "refused program 4 2"),
        ] {
            assert_eq!(line(&format!("{rule}\n"), "", 10, 0), expected, "{rule}");
        }
        assert_eq!(line("1 0 1 1 1 3 2 2 2 3 2\n", "", 9, 0), "refused program 10 2");
        let many = |count: i32| format!("1 0 0 1 6 {count}{}\n", (1..=count).map(|atom| format!(" {atom} 1")).collect::<String>());
        let lines = [12, 13, 64, 65].map(|count| line(&many(count), "", 99, 0));
        assert_eq!(lines, ["open 12 1 0 0", "refused program 55 2", "refused program 55 2", "refused program 6 2"]);
    }

    #[test]
    fn weight_steps() {
        let sum = "1 0 1 1 1 3 3 2 2 3 2 4 1\n";
        let named = "b 5 2 3 0\nb 6 2 4 0\nb 7 3 4 0\n";
        assert_eq!(line(sum, "b 5 2 3 4 0\n", 99, 99), "refused proof 28 1");
        assert_eq!(line(sum, "b 5 2 3 0\nb 6 3 2 0\n", 99, 99), "refused proof 28 2");
        assert_eq!(line(sum, &format!("{named}s 1 5 6 7 0\n"), 99, 99), "open 4 1 4 10");
        assert_eq!(line(sum, &format!("{named}s 1 5 6 0\n"), 99, 99), "refused proof 30 4");
        assert_eq!(line("1 1 1 1 1 1 1 2 1\n", "b 3 2 0\nc 3 1 0\n", 99, 99), "refused proof 29 2");
        assert_eq!(line("1 0 1 1 1 2 3 1 1 2 1 3 1\n", "l 1 0\n", 99, 99), "refused proof 32 1");
        assert_eq!(line("1 0 1 1 1 2 3 1 1 2 1 3 1\n", "b 4 2 3 0\nl 1 0\n", 99, 99), "open 3 1 2 4");
        let rules = "1 1 3 1 2 3 0 0\n1 0 0 1 4 3 1 3 2 2 3 2\n1 0 0 0 1 -1\n1 0 0 0 1 -2\n";
        let proof = "b 4 1 2 0\nb 5 -1 0\nb 6 -2 0\nc 4 0\nc 5 0\nc 6 0\na 0\n";
        assert_eq!(line(rules, proof, 99, 99), "inconsistent 3 4 7 11");
    }

    #[test]
    fn loop_steps() {
        let pair = "1 0 1 1 0 1 2\n1 0 1 2 0 1 1\n";
        let ring = "1 0 1 2 0 1 1\n1 0 1 3 0 1 2\n1 0 1 1 0 1 3\n";
        for (rules, proof, expected) in [
            (pair, "l 2 1 0\n", "open 2 2 1 1"),
            (pair, "l 1 0\n", "refused proof 56 1"),
            (pair, "b 3 1 0\nl 1 3 0\n", "refused proof 31 2"),
            ("1 0 1 1 0 1 2\n1 0 1 2 0 1 1\n1 0 1 1 0 0\n", "l 1 2 0\n", "refused proof 32 1"),
            ("1 0 1 1 0 1 1\n", "l 1 0\n", "open 1 1 1 1"),
            ("1 0 1 1 0 1 1\n1 0 1 2 0 1 2\n", "l 1 2 0\n", "refused proof 56 1"),
            ("1 0 1 1 0 1 2\n1 0 1 2 0 1 2\n", "l 1 2 0\n", "refused proof 56 1"),
            (ring, "l 2 3 1 0\n", "open 3 3 1 1"),
            (ring, "l 1 2 0\n", "refused proof 56 1"),
            ("1 0 1 1 0 1 -2\n1 0 1 2 0 1 1\n", "l 1 2 0\n", "refused proof 56 1"),
            ("1 1 2 1 2 0 2 1 2\n", "l 1 2 0\n", "open 2 1 1 1"),
            ("1 0 0 0 2 1 2\n1 0 1 1 0 1 2\n", "l 1 2 0\n", "refused proof 56 1"),
            ("1 0 1 1 1 2 2 1 2 2 1\n", "l 1 0\n", "open 2 1 1 1"),
            ("1 0 1 1 1 3 2 1 1 2 2\n", "l 1 0\n", "open 2 1 1 1"),
            ("1 0 1 1 1 1 2 1 0 2 1\n", "l 1 0\n", "refused proof 56 1"),
            ("1 0 1 1 1 2 2 1 1 2 2\n", "l 1 0\n", "refused proof 56 1"),
            ("1 0 1 1 1 9 2 1 1 2 2\n", "l 1 0\n", "refused proof 56 1"),
            ("1 0 1 1 1 0 1 1 5\n", "l 1 0\n", "refused proof 56 1"),
        ] {
            assert_eq!(line(rules, proof, 99, 99), expected, "{rules}{proof}");
        }
    }

    #[test]
    fn largest_variables() {
        assert_eq!(line("1 0 1 1 0 0\n", "b 8191 0\n", 99, 99), "open 1 1 1 1");
        assert_eq!(line("1 0 1 1 0 0\n", "b 8192 0\n", 99, 99), "refused proof 23 1");
        assert_eq!(line("1 0 1 8191 0 0\n", "e 8191 0\n", 99, 99), "refused proof 27 1");
        let proof = "b 8191 -8190 0\nc 8191 8190 0\ns 8190 8191 0\na 8190 0\na 0\n";
        assert_eq!(line("1 0 1 8190 0 1 -8190\n", proof, 99, 99), "inconsistent 8190 1 5 6");
    }

    #[test]
    fn texts_that_are_too_long() {
        assert_eq!(line(&"1 0 0 0 0\n".repeat(7_000), "", 99, 99), "refused program 1 0");
        let proof = "d 0\n".repeat(17_000);
        assert_eq!(line(RULE, &proof, 99, 99), "refused proof 21 0");
        let program = format!("asp 1 0 0\n{RULE}0\n");
        assert_eq!(check_long(program.as_bytes(), proof.as_bytes(), 99, 99).unwrap().to_string(), "open 1 1 17000 0");
    }
}
