//! What the services answer.

use crate::questions::{
    CheapestQuestion, Letter, MergeQuestion, PacketQuestion, ProgramQuestion, ProofQuestion, SetQuestion, SplitQuestion, TrimQuestion,
};
use std::fmt;

/// Why a program text is refused. It is displayed as `refused program NUMBER LINE`.
#[derive(Debug, Clone, Copy, PartialEq, Eq, Hash)]
pub struct ProgramRefusal {
    /// The first question that is answered no.
    pub question: ProgramQuestion,
    /// The line, counted from 1; 0 where the whole text is at fault.
    pub line: usize,
}

/// Why a proof text is refused. It is displayed as `refused proof NUMBER STEP`.
#[derive(Debug, Clone, Copy, PartialEq, Eq, Hash)]
pub struct ProofRefusal {
    /// The first question that is answered no.
    pub question: ProofQuestion,
    /// The step, counted from 1; 0 where the whole text is at fault.
    pub step: usize,
}

/// What the program reader says of a text.
#[derive(Debug, Clone, Copy, PartialEq, Eq, Hash)]
pub enum ProgramReading {
    /// It is a program.
    Read {
        /// The largest atom.
        atoms: usize,
        /// The number of rules.
        rules: usize,
    },
    /// It is refused.
    Refused(ProgramRefusal),
}

/// What the set test says of a set.
#[derive(Debug, Clone, Copy, PartialEq, Eq, Hash)]
pub enum SetAnswer {
    /// It is an answer set.
    Yes,
    /// The lowest atom that lies in just one of the set and the least model.
    Differs(u16),
    /// The first broken constraint's rule number, counted from 1.
    Broken(usize),
    /// The test is refused.
    Refused(SetQuestion),
}

/// What stands at a position of a proof text.
#[derive(Debug, Clone, Copy, PartialEq, Eq, Hash)]
pub enum LineAnswer {
    /// A line.
    Line {
        /// Its letter.
        letter: Letter,
        /// How many numbers it has, the closing 0 aside.
        count: usize,
        /// The position after its newline.
        next: usize,
    },
    /// The text ends here.
    End,
    /// The line is refused, by one of the questions up to [`ProofQuestion::Distinct`].
    Refused(ProofQuestion),
}

/// The numbers of a verdict. They are displayed with a space between them.
#[derive(Debug, Clone, Copy, PartialEq, Eq, Hash)]
pub struct Counts {
    /// N, the largest atom.
    pub atoms: usize,
    /// R, the rules.
    pub rules: usize,
    /// S, the steps.
    pub steps: usize,
    /// K, the live nogoods after the last step.
    pub nogoods: usize,
}

/// What the whole check says. It is displayed as the line that the program `verdict` prints, without its newline.
#[derive(Debug, Clone, Copy, PartialEq, Eq, Hash)]
pub enum Verdict {
    /// The program has no answer set.
    Inconsistent(Counts),
    /// Every step is good, and the empty nogood is not live.
    Open(Counts),
    /// The program is refused.
    RefusedProgram(ProgramRefusal),
    /// The proof is refused.
    RefusedProof(ProofRefusal),
}

/// The version of a packet, which its writer and its reader are told.
#[derive(Debug, Clone, Copy, PartialEq, Eq, Hash)]
#[repr(u8)]
pub enum Version {
    /// Rules without weights, and variables up to 4,095.
    One = 1,
    /// Rules with weights too, and variables up to 8,191.
    Two = 2,
}

impl Version {
    /// Both versions.
    pub const ALL: [Version; 2] = [Version::One, Version::Two];

    /// The version's number.
    pub const fn number(self) -> u8 {
        self as u8
    }
}

/// What the writer of packets says of a table and a proof text, and a move of the packet that it is given.
#[derive(Debug, Clone, Copy, PartialEq, Eq, Hash)]
pub enum PacketWriting {
    /// The packet is written, and has so many bytes.
    Written(usize),
    /// It is refused: by the writer with [`PacketQuestion::Pair`] or for an output that is too short ([`PacketQuestion::Lengths`]), by a move
    /// for the packet given too, and by a move down with [`PacketQuestion::Old`].
    Refused(PacketQuestion),
}

/// What the reader of packets says of a packet.
#[derive(Debug, Clone, Copy, PartialEq, Eq, Hash)]
pub enum PacketReading {
    /// It is read back.
    Read {
        /// The number of rules.
        rules: usize,
        /// The bytes of the proof text.
        bytes: usize,
    },
    /// It is refused.
    Refused(PacketQuestion),
}

/// What the merge says of a program and the proofs of its two halves, or of the ends of a tree.
#[derive(Debug, Clone, Copy, PartialEq, Eq, Hash)]
pub enum Merging {
    /// The proof for the program is written, and has so many bytes: the program has no answer set.
    Merged(usize),
    /// The program is refused.
    RefusedProgram(ProgramRefusal),
    /// The merge is refused.
    Refused(MergeQuestion),
}

/// What trimming says of a program and a proof.
#[derive(Debug, Clone, Copy, PartialEq, Eq, Hash)]
pub enum Trimming {
    /// So many bytes are left of the proof: the program has no answer set.
    Trimmed(usize),
    /// The program is refused.
    RefusedProgram(ProgramRefusal),
    /// The proof is refused.
    Refused(TrimQuestion),
}

/// What is said of a set that is to be a cheapest answer set.
#[derive(Debug, Clone, Copy, PartialEq, Eq, Hash)]
pub enum Cheapest {
    /// The set is an answer set and costs so much, and no answer set costs less.
    Certified(usize),
    /// The program is refused.
    RefusedProgram(ProgramRefusal),
    /// The set, the costs or the proof are refused.
    Refused(CheapestQuestion),
}

/// What is said of a program whose long sums are to be split.
#[derive(Debug, Clone, Copy, PartialEq, Eq, Hash)]
pub enum Splitting {
    /// The program with its long sums split is written.
    Split {
        /// The bytes of its text.
        bytes: usize,
        /// Its largest atom.
        atoms: usize,
        /// The number of its rules.
        rules: usize,
        /// The largest atom of the program as written. An answer set of what is written has, up to there, the atoms of
        /// one of it.
        old_atoms: usize,
    },
    /// The program is refused.
    RefusedProgram(ProgramRefusal),
    /// The group size is refused, or the program that would be written.
    Refused(SplitQuestion),
}

impl fmt::Display for ProgramRefusal {
    fn fmt(&self, f: &mut fmt::Formatter) -> fmt::Result {
        write!(f, "refused program {} {}", self.question.number(), self.line)
    }
}

impl fmt::Display for ProofRefusal {
    fn fmt(&self, f: &mut fmt::Formatter) -> fmt::Result {
        write!(f, "refused proof {} {}", self.question.number(), self.step)
    }
}

impl fmt::Display for Counts {
    fn fmt(&self, f: &mut fmt::Formatter) -> fmt::Result {
        write!(f, "{} {} {} {}", self.atoms, self.rules, self.steps, self.nogoods)
    }
}

impl fmt::Display for Verdict {
    fn fmt(&self, f: &mut fmt::Formatter) -> fmt::Result {
        match self {
            Verdict::Inconsistent(counts) => write!(f, "inconsistent {counts}"),
            Verdict::Open(counts) => write!(f, "open {counts}"),
            Verdict::RefusedProgram(refusal) => refusal.fmt(f),
            Verdict::RefusedProof(refusal) => refusal.fmt(f),
        }
    }
}

#[cfg(test)]
mod tests {
    use super::*;

    #[test]
    fn verdicts_as_verdict_prints_them() {
        let counts = Counts { atoms: 1, rules: 20, steps: 300, nogoods: 4_000 };
        let program = ProgramRefusal { question: ProgramQuestion::End, line: 1_026 };
        let proof = ProofRefusal { question: ProofQuestion::Length, step: 0 };
        for (verdict, line) in [
            (Verdict::Inconsistent(counts), "inconsistent 1 20 300 4000"),
            (Verdict::Open(counts), "open 1 20 300 4000"),
            (Verdict::RefusedProgram(program), "refused program 11 1026"),
            (Verdict::RefusedProof(proof), "refused proof 21 0"),
        ] {
            assert_eq!(verdict.to_string(), line);
        }
    }
}
