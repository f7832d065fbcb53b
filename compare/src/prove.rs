//! Runs `aspdrupe prove` on the programs of the random families and holds what it finds to the library and to every set of atoms: a proof that
//! the whole check accepts where there is no answer set, and a set that the set test passes where there is one.

use std::fs;
use std::io;
use std::path::{Path, PathBuf};
use std::process::{Command, Stdio};

use inputs::random::Random;
use inputs::{programs, ROOM};

use crate::brute;
use crate::comparison::Comparison;
use crate::families::{in_any_order, small_program};
use crate::reference::program::{table_words, Program};
use crate::reference::MARKS;
use crate::shrink::cut;

/// One program in so many is one with many weights; one in so many has more atoms, all of them chosen, and many constraints.
const WEIGHTS: u64 = 5;
const CROWDED: u64 = 20;

/// The command, in a folder of its own.
pub struct Prover {
    command: PathBuf,
    room: PathBuf,
    /// The splits of `--split`.
    split: Option<String>,
}

/// What the command says of a program.
enum Said {
    /// The proof that it wrote.
    Inconsistent(Vec<u8>),
    /// An answer set's atoms.
    AnswerSet(Vec<u16>),
}

impl Prover {
    pub fn of(command: &str, split: Option<String>) -> io::Result<Prover> {
        let room = std::env::temp_dir().join(format!("compare-prove-{}", std::process::id()));
        fs::create_dir_all(&room)?;
        Ok(Prover { command: Path::new(command).canonicalize()?, room, split })
    }

    /// Runs the command on a program; what it says, or how it ended otherwise.
    fn run(&self, program: &[u8]) -> Result<Said, String> {
        let from = self.room.join("case.aspif");
        // With a split -o names a folder.
        let out = self.room.join(if self.split.is_some() { "kept" } else { "case.drupe" });
        let to = if self.split.is_some() { out.join("program.drupe") } else { out.clone() };
        let told = |error: io::Error| error.to_string();
        fs::write(&from, program).map_err(told)?;
        if to.exists() {
            fs::remove_file(&to).map_err(told)?;
        }
        let split = self.split.iter().flat_map(|depth| ["--split", depth]);
        let ended = Command::new(&self.command)
            .arg("prove")
            .arg(&from)
            .arg("-o")
            .arg(&out)
            .args(split)
            .stdin(Stdio::null())
            .output()
            .map_err(told)?;
        let printed = String::from_utf8_lossy(&ended.stdout).into_owned();
        let otherwise = || format!("it printed {printed:?} and ended with {}: {}", ended.status, String::from_utf8_lossy(&ended.stderr));
        if !ended.status.success() {
            return Err(otherwise());
        }
        match printed.trim_end().strip_prefix("answer set:") {
            Some(atoms) => {
                atoms.split_whitespace().map(|atom| atom.parse().map_err(|_| otherwise())).collect::<Result<_, _>>().map(Said::AnswerSet)
            }
            None if printed.starts_with("inconsistent ") => fs::read(&to).map(Said::Inconsistent).map_err(told),
            None => Err(otherwise()),
        }
    }
}

impl Drop for Prover {
    fn drop(&mut self) {
        let _ = fs::remove_dir_all(&self.room);
    }
}

/// So many programs from a seed, or one of them.
pub fn run(comparison: &mut Comparison, prover: &Prover, seed: u64, indexes: std::ops::Range<u64>) {
    let count = indexes.end - indexes.start;
    for index in indexes {
        comparison.open(format!("prove/{index} --seed {seed}"), Random::of(seed, "prove", index));
        let (text, program) = any_program(index, &mut comparison.random);
        compare(comparison, prover, &text, &program);
    }
    println!("prove: {count} programs");
    comparison.tally.print();
}

fn any_program(index: u64, random: &mut Random) -> (Vec<u8>, Program) {
    let rules = match index {
        _ if index.is_multiple_of(WEIGHTS) => programs::weights(random),
        _ if index % CROWDED == 1 => programs::crowded(random),
        _ => return small_program(random),
    };
    in_any_order(rules, random)
}

fn compare(comparison: &mut Comparison, prover: &Prover, text: &[u8], program: &Program) {
    let there_is_one = brute::answer_set(program, program.atoms).is_some();
    let said = prover.run(text);
    let (kind, good) = match &said {
        Ok(Said::Inconsistent(proof)) => ("no answer set, with a proof that is accepted", !there_is_one && accepted(text, proof)),
        Ok(Said::AnswerSet(set)) => ("an answer set that the set test passes", there_is_one && passes(program, set)),
        Err(_) => ("left over", false),
    };
    comparison.tally.count(format!("prove: {kind}"));
    if let Ok(Said::Inconsistent(proof)) = &said {
        comparison.count_letters(proof);
    }
    comparison.settle(good, || format!("{kind}: {} {}", said.err().unwrap_or_default(), cut(text)));
}

fn accepted(program: &[u8], proof: &[u8]) -> bool {
    let (mut table, mut store) = (vec![0; ROOM], vec![0; ROOM]);
    matches!(aspdrupe::check_texts(program, proof, &mut table, &mut store), Ok(aspdrupe::Verdict::Inconsistent(_)))
}

fn passes(program: &Program, set: &[u16]) -> bool {
    let answer = aspdrupe::test_set(&table_words(&program.rules), program.rules.len(), set, &mut vec![0; MARKS]);
    answer == Ok(aspdrupe::SetAnswer::Yes)
}
