//! The library's calls with the memory that they are lent.

use aspdrupe::{ProgramReading, ProgramRefusal, ProofQuestion, SetAnswer, Verdict, MARKS};

use crate::arguments::ROOM;
use crate::files::TEXT_LIMIT;
use crate::outcome::Failure;

/// Words of a table that hold the rules of every program: none has more words than its text has bytes.
pub const EVERY_TABLE: usize = 65_536;

/// A program that the library has read.
pub struct Program {
    /// N, the largest atom.
    pub atoms: usize,
    /// The number of rules.
    pub rules: usize,
    /// The words of the rules, with 0 after them.
    pub table: Vec<i32>,
}

/// Reads a program with a table of so many words.
pub fn read_program(text: &[u8], words: usize) -> Result<Result<Program, ProgramRefusal>, Failure> {
    let mut table = lent(words)?;
    Ok(match aspdrupe::read_program(text, &mut table)? {
        ProgramReading::Read { atoms, rules } => Ok(Program { atoms, rules, table }),
        ProgramReading::Refused(refusal) => Err(refusal),
    })
}

/// Tests a set that is strictly ascending; the answer, and the least model's atoms.
pub fn test_set(program: &Program, set: &[u16]) -> Result<(SetAnswer, Vec<bool>), Failure> {
    let mut marks = vec![0; MARKS];
    let answer = aspdrupe::test_set(&program.table, program.rules, set, &mut marks)?;
    Ok((answer, marks.iter().map(|mark| *mark == 1).collect()))
}

/// A set of the first so many atoms with those of the others that the rules give, where no rule has one of these
/// negated.
pub fn extended(program: &Program, set: &[u16], told: usize) -> Result<Vec<u16>, Failure> {
    if told >= program.atoms {
        return Ok(set.to_vec());
    }
    let (_, least_model) = test_set(program, set)?;
    let given = |atom: &u16| least_model.get(usize::from(*atom)) == Some(&true);
    let others = (told + 1..=program.atoms).filter_map(|atom| u16::try_from(atom).ok()).filter(given);
    Ok(set.iter().copied().filter(|atom| usize::from(*atom) <= told).chain(others).collect())
}

/// The whole check, with a table and a store of so many words.
pub fn check_texts(program: &[u8], proof: &[u8], table: usize, store: usize) -> Result<Verdict, Failure> {
    let (mut table, mut store) = (lent(table)?, lent(store)?);
    Ok(aspdrupe::check_texts(program, proof, &mut table, &mut store)?)
}

/// What the check says that a proof of such a length goes to.
pub struct Checked {
    pub verdict: Verdict,
    /// The bytes of a proof that is beyond a text's limit and went to the long check.
    pub long: Option<usize>,
}

/// The whole check, or where the proof is beyond a text's limit the long one, with a table of so many words. The store has as many words as are
/// told; where none are, those of `verdict`, and for the long check as many as the proof can need.
pub fn check(program: &[u8], proof: &[u8], table: usize, store: Option<usize>) -> Result<Checked, Failure> {
    if proof.len() <= TEXT_LIMIT {
        return Ok(Checked { verdict: check_texts(program, proof, table, store.unwrap_or(ROOM))?, long: None });
    }
    let verdict = match store {
        None => aspdrupe::check_long_in(program, proof, &mut lent(table)?)?,
        Some(words) => check_long(program, proof, table, words)?.0,
    };
    Ok(Checked { verdict, long: Some(proof.len()) })
}

/// The same, with the store as the check leaves it.
pub fn check_keeping(program: &[u8], proof: &[u8], table: usize, store: Option<usize>) -> Result<(Checked, Vec<i32>), Failure> {
    if proof.len() <= TEXT_LIMIT {
        let (mut table, mut store) = (lent(table)?, lent(store.unwrap_or(ROOM))?);
        let verdict = aspdrupe::check_texts(program, proof, &mut table, &mut store)?;
        return Ok((Checked { verdict, long: None }, store));
    }
    // As many words as bytes do, save where `l` lines have many external bodies, and then twice as many and so on.
    let most = store.unwrap_or_else(|| aspdrupe::store_for(proof));
    let mut words = store.unwrap_or(most.min(proof.len()));
    loop {
        let (verdict, store) = check_long(program, proof, table, words)?;
        match verdict {
            Verdict::RefusedProof(refusal) if refusal.question == ProofQuestion::Store && words < most => words = most.min(2 * words),
            _ => return Ok((Checked { verdict, long: Some(proof.len()) }, store)),
        }
    }
}

/// The long check with a table and a store of so many words; its verdict, and the store.
fn check_long(program: &[u8], proof: &[u8], table: usize, words: usize) -> Result<(Verdict, Vec<i32>), Failure> {
    let (mut table, mut store) = (lent(table)?, lent(words)?);
    // Without it the check says the same, only later.
    let mut memory = lent(aspdrupe::memory_for(words)).unwrap_or_default();
    let verdict = aspdrupe::check_long_with(program, proof, &mut table, &mut store, &mut memory)?;
    Ok((verdict, store))
}

/// So many words, or a reason why there are none.
pub fn lent<T: Clone + Default>(length: usize) -> Result<Vec<T>, Failure> {
    let mut memory = Vec::new();
    memory.try_reserve_exact(length).map_err(|_| Failure::misuse(format!("there is no memory for {length} words")))?;
    memory.resize(length, T::default());
    Ok(memory)
}
