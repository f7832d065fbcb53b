//! The whole check for proofs of any length, and how much memory it is to be lent.

use std::fmt;

use crate::answers::Verdict;
use crate::questions::{ProofQuestion, UnknownAnswer};
use crate::{codes, raw};

/// The most bytes of a program text, so that as many words hold every table: no rule has more words than bytes.
const PROGRAM_LIMIT: usize = 65_535;

/// Checks a proof text of up to 2,147,483,647 bytes against a program text, with a table, a store and working memory that are as long as the
/// two texts can need: 10 is refused of no program, and 34 of no proof. Otherwise as [`check_long_with`].
///
/// ```
/// let program = b"asp 1 0 0\n1 0 1 1 0 1 -1\n0\n";
/// let proof = [b"b 2 -1 0\n", &b"d 1 0\n".repeat(20_000)[..], b"c 2 1 0\ns 1 2 0\na 1 0\na 0\n"].concat();
/// assert_eq!(aspdrupe::check_long(program, &proof)?.to_string(), "inconsistent 1 1 20005 6");
/// # Ok::<(), aspdrupe::LongFailure>(())
/// ```
pub fn check_long(program: &[u8], proof: &[u8]) -> Result<Verdict, LongFailure> {
    let mut table = zeroed(program.len().min(PROGRAM_LIMIT))?;
    check_long_in(program, proof, &mut table)
}

/// The same with a table that is lent. The store is twice as long each time that the check refuses 34, up to what the proof can need: an `l` line
/// can need thousands of words, and seldom does.
pub fn check_long_in(program: &[u8], proof: &[u8], table: &mut [i32]) -> Result<Verdict, LongFailure> {
    let most = store_for(proof);
    let mut words = reckoned(proof, FEW_EXTERNAL);
    loop {
        let mut store = zeroed(words)?;
        // What it is decides time and no answer.
        let mut memory = zeroed(memory_for(words)).unwrap_or_default();
        let verdict = check_long_with(program, proof, table, &mut store, &mut memory)?;
        match verdict {
            Verdict::RefusedProof(refusal) if refusal.question == ProofQuestion::Store && words < most => {
                words = words.saturating_mul(2).min(most);
            }
            _ => return Ok(verdict),
        }
    }
}

/// The whole check, which says what [`check_texts`](crate::check_texts) says and leaves the same words in table and store, save that question 21
/// is put with 2,147,483,647 bytes. The memory is working memory of any length, 0 too, and is 0 throughout afterwards: its length decides time,
/// never an answer. [`memory_for`] says how long it is to be.
///
/// ```
/// let program = b"asp 1 0 0\n1 0 1 1 0 1 -1\n0\n";
/// let proof = b"b 2 -1 0\nc 2 1 0\ns 1 2 0\na 1 0\na 0\n";
/// let (mut table, mut store, mut memory) = ([0; 6], [0; 21], vec![0; aspdrupe::memory_for(21)]);
/// let verdict = aspdrupe::check_long_with(program, proof, &mut table, &mut store, &mut memory)?;
/// assert_eq!(verdict.to_string(), "inconsistent 1 1 5 6");
/// # Ok::<(), aspdrupe::UnknownAnswer>(())
/// ```
pub fn check_long_with(
    program: &[u8],
    proof: &[u8],
    table: &mut [i32],
    store: &mut [i32],
    memory: &mut [u32],
) -> Result<Verdict, UnknownAnswer> {
    let mut answer = [0; 4];
    // SAFETY: as said of the calls in lib.rs.
    let code = unsafe {
        raw::aspdrupe_check_long(
            program.as_ptr(),
            program.len(),
            proof.as_ptr(),
            proof.len(),
            table.as_mut_ptr(),
            table.len(),
            store.as_mut_ptr(),
            store.len(),
            memory.as_mut_ptr(),
            memory.len(),
            answer.as_mut_ptr(),
            answer.len(),
        )
    };
    codes::verdict(code, answer)
}

/// The cells of memory that do not depend on the store, and those that each eight of its words take.
const FIXED_CELLS: usize = 49_287;
const CELLS: usize = 25;
const WORDS: usize = 8;

/// The words of memory with which a store of so many words is searched and kept without a pass over all of it. More
/// reach no further.
pub fn memory_for(store: usize) -> usize {
    store.div_ceil(WORDS).saturating_mul(CELLS).saturating_add(FIXED_CELLS)
}

/// The most bytes of a proof text.
const PROOF_LIMIT: usize = 2_147_483_647;

/// The words of a nogood beside its literals: its step and their count.
const NOGOOD: usize = 2;

/// The most numbers of a line, and the largest variable, so that no more bodies have names.
const MOST_NUMBERS: usize = 65;
const LARGEST: usize = 8_191;

/// The external bodies that an `l` line is first reckoned with.
const FEW_EXTERNAL: usize = 64;

/// The words of a store that holds all nogoods which a proof adds, so that nothing has to be closed up and 34 is never refused. They are
/// reckoned from the letters and the spaces of the text, up to a line that begins with no letter of a step or has too many numbers, where the
/// check ends at the latest.
pub fn store_for(proof: &[u8]) -> usize {
    reckoned(proof, LARGEST)
}

/// The same with no more than so many external bodies for each `l` line.
fn reckoned(proof: &[u8], external: usize) -> usize {
    if proof.len() > PROOF_LIMIT {
        return 0;
    }
    let (mut bodies, mut words, mut at) = (0usize, 0usize, 0);
    while let Some(letter @ (b'a'..=b'e' | b'l' | b's')) = proof.get(at) {
        let mut spaces = 0usize;
        while let Some(byte) = proof.get(at).filter(|byte| **byte != b'\n') {
            spaces += usize::from(*byte == b' ');
            at += 1;
        }
        at += 1;
        let numbers = spaces.saturating_sub(1);
        if spaces == 0 || numbers > MOST_NUMBERS {
            return words;
        }
        words = words.saturating_add(match letter {
            b'd' => 0,
            b'b' | b'e' => NOGOOD + numbers + (NOGOOD + 2) * numbers.saturating_sub(1),
            // One atom, and a name for each external body.
            b'l' => NOGOOD + 1 + bodies.min(external),
            _ => NOGOOD + numbers,
        });
        bodies += usize::from(*letter == b'b');
    }
    words
}

/// So many zeros.
fn zeroed<T: Clone + Default>(length: usize) -> Result<Vec<T>, LongFailure> {
    let mut words = Vec::new();
    words.try_reserve_exact(length).map_err(|_| LongFailure::Memory(length))?;
    words.resize(length, T::default());
    Ok(words)
}

/// Why [`check_long`] has no verdict.
#[derive(Debug, Clone, Copy, PartialEq, Eq)]
pub enum LongFailure {
    /// There is no memory for a table or a store of so many words.
    Memory(usize),
    /// The library and this crate do not belong together.
    Unknown(UnknownAnswer),
}

impl fmt::Display for LongFailure {
    fn fmt(&self, f: &mut fmt::Formatter) -> fmt::Result {
        match self {
            LongFailure::Memory(words) => write!(f, "there is no memory for {words} words"),
            LongFailure::Unknown(unknown) => unknown.fmt(f),
        }
    }
}

impl std::error::Error for LongFailure {}

impl From<UnknownAnswer> for LongFailure {
    fn from(unknown: UnknownAnswer) -> LongFailure {
        LongFailure::Unknown(unknown)
    }
}

#[cfg(test)]
mod tests {
    use super::*;

    #[test]
    fn words_that_a_proof_adds() {
        for (proof, words) in [
            ("", 0),
            ("b 2 -1 0\nc 2 1 0\ns 1 2 0\na 1 0\na 0\n", 21),
            ("a 1 0\nd 1 0\n", 3),
            ("e 3 0\ne 4 1 -2 3 0\n", 3 + 18),
            ("b 3 0\nb 4 1 0\nl 1 2 0\n", 3 + 8 + 5),
            ("l 1 0", 3),
            ("b\n\nb 3 0\n", 0),
            ("a 1 0\nnoise\na 1 0\n", 3),
        ] {
            assert_eq!(store_for(proof.as_bytes()), words, "{proof:?}");
        }
    }

    #[test]
    fn memory_that_covers_a_store() {
        assert_eq!([0, 1, 8, 9, 16_384].map(memory_for), [49_287, 49_312, 49_312, 49_337, 100_487]);
        assert_eq!(memory_for(usize::MAX), usize::MAX);
    }
}
