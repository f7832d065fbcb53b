//! Proofs beyond the limit of a text: the first so many bytes of long refutations of pigeons and of a random program, and proofs of plans that the
//! command finds with gringo and cadical. Each stands with its deletions and without them.

use super::{refutations, Goal, Input};
use inputs::lines::{proof_text, Line};
use inputs::programs;
use inputs::random::Random;
use inputs::rules::{choice, constraint, program_text, Rule};
use inputs::Pair;
use std::process::Command;

/// The lengths, in megabytes.
const LENGTHS: [f64; 5] = [0.1, 0.4, 1.0, 4.0, 16.0];

/// The holes of the pigeons; the atoms and constraints of the random program, and its seed. Their refutations are longer than all that is taken
/// of them.
const HOLES: i32 = 8;
const ATOMS: i32 = 180;
const CONSTRAINTS: usize = 900;
const SEED: u64 = 14;

/// So many bytes a line are reckoned with, of which half may be deletions.
const LINE: usize = 20;

/// A ratio of the least times that the long check is to reach.
const GOAL: Goal = Goal::Ratio(1.5);

/// The inputs of up to so many megabytes.
pub fn inputs(megabytes: f64) -> Vec<Input> {
    let lengths: Vec<f64> = LENGTHS.into_iter().filter(|length| *length <= megabytes).collect();
    let kinds: [(&str, Vec<Rule>); 2] = [("pigeons", programs::pigeons(HOLES)), ("random", crowded())];
    let mut inputs = Vec::new();
    for (name, rules) in kinds {
        let most = lengths.last().map_or(0, |longest| bytes_of(*longest)) / LINE;
        let lines = refutations::first_lines(&rules, most, SEED);
        for kept in [true, false] {
            let lines: Vec<Line> = lines.iter().filter(|line| kept || line.letter != b'd').cloned().collect();
            let whole = proof_text(&lines).into_bytes();
            let text = program_text(&rules);
            inputs.extend(lengths.iter().filter_map(|length| {
                first_bytes(&whole, bytes_of(*length))
                    .map(|proof| input(&format!("{name}-{length}{}", if kept { "" } else { "-no-d" }), Pair::of(&text, proof)))
            }));
        }
    }
    inputs
}

/// A choice over many atoms, and more constraints of three literals than leave an answer set.
fn crowded() -> Vec<Rule> {
    let mut random = Random::from_seed(SEED);
    let chosen: Vec<i32> = (1..=ATOMS).collect();
    let mut rules: Vec<Rule> = chosen.chunks(60).map(|atoms| choice(atoms, &[])).collect();
    rules.extend((0..CONSTRAINTS).map(|_| constraint(&random.literals(3, ATOMS))));
    rules
}

fn bytes_of(megabytes: f64) -> usize {
    (megabytes * 1e6) as usize
}

/// The lines within the first so many bytes of a text, where it has as many.
fn first_bytes(text: &[u8], bytes: usize) -> Option<&[u8]> {
    let end = text.get(..bytes)?.iter().rposition(|byte| *byte == b'\n')?;
    Some(&text[..=end])
}

fn input(name: &str, texts: Pair) -> Input {
    let store = aspdrupe::store_for(&texts.proof);
    Input { name: String::from(name), texts, store, packs: false, goal: Some(GOAL) }
}

/// The plans, from the repository's root.
const PLANS: [&str; 2] = ["week-five", "week-six"];

/// The proofs that the command finds of the plans. They depend on how much time it takes to shorten them.
pub fn plans(command: &str) -> Result<Vec<Input>, String> {
    let room = std::env::temp_dir().join(format!("bench-long-{}", std::process::id()));
    std::fs::create_dir_all(&room).map_err(|error| error.to_string())?;
    let inputs = PLANS.iter().map(|plan| proved(command, plan, &room)).collect::<Result<Vec<_>, _>>();
    let _ = std::fs::remove_dir_all(&room);
    Ok(inputs?.concat())
}

/// A plan's proof as it is, and without its deletions.
fn proved(command: &str, plan: &str, room: &std::path::Path) -> Result<Vec<Input>, String> {
    let (program, proof) = (room.join("case.aspif"), room.join("case.drupe"));
    let source = format!("examples/plans/{plan}.lp");
    for words in [
        ["ground".as_ref(), source.as_ref(), "-o".as_ref(), program.as_os_str()],
        ["prove".as_ref(), program.as_os_str(), "-o".as_ref(), proof.as_os_str()],
    ] {
        let ended = Command::new(command).args(words).output().map_err(|error| format!("{command}: {error}"))?;
        if !ended.status.success() {
            return Err(format!("{command} {words:?}: {}", String::from_utf8_lossy(&ended.stderr)));
        }
    }
    let read = |path| std::fs::read(path).map_err(|error| error.to_string());
    let texts = Pair::of(read(&program)?, read(&proof)?);
    let kept: Vec<&[u8]> = texts.proof.split_inclusive(|byte| *byte == b'\n').filter(|line| line[0] != b'd').collect();
    let without = Pair::of(&texts.program, kept.concat());
    Ok(vec![input(plan, texts), input(&format!("{plan}-no-d"), without)])
}

#[cfg(test)]
mod tests {
    use super::*;
    use crate::unverified::check_long;

    #[test]
    fn whole_lines() {
        assert_eq!(first_bytes(b"a 1 0\na 0\n", 9), Some(&b"a 1 0\n"[..]));
        assert_eq!(first_bytes(b"a 1 0\na 0\n", 10), Some(&b"a 1 0\na 0\n"[..]));
        assert_eq!(first_bytes(b"a 1 0\n", 7), None);
    }

    #[test]
    fn every_length_is_there() {
        let inputs = inputs(0.4);
        assert_eq!(inputs.len(), 8);
        for input in inputs {
            let verdict = check_long(&input.texts.program, &input.texts.proof, inputs::ROOM, input.store).unwrap().to_string();
            assert!(verdict.starts_with("open"), "{}: {verdict}", input.name);
        }
    }
}
