//! What the comparison (compare/) and the benchmark (bench/) both make their inputs from: random numbers from a seed, rules and proof lines
//! with their texts, and programs of several flavours. Nothing here reads or checks a text.

#![forbid(unsafe_code)]

pub mod lines;
pub mod programs;
pub mod random;
pub mod rules;

/// The most bytes of a text.
pub const TEXT_LIMIT: usize = 65_535;

/// The words of the table and of the store that the program `verdict` has.
pub const ROOM: usize = 16_384;

/// Two texts that go to the whole check together.
#[derive(Clone)]
pub struct Pair {
    pub program: Vec<u8>,
    pub proof: Vec<u8>,
}

impl Pair {
    pub fn of(program: impl AsRef<[u8]>, proof: impl AsRef<[u8]>) -> Pair {
        Pair { program: program.as_ref().to_vec(), proof: proof.as_ref().to_vec() }
    }
}

/// The numbers with a space between them.
pub fn joined(numbers: &[i32]) -> String {
    let words: Vec<String> = numbers.iter().map(i32::to_string).collect();
    words.join(" ")
}
