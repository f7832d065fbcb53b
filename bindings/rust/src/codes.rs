//! From what a function of the library returns and leaves, a code and numbers, to the answer of its service.

use crate::answers::{
    Cheapest, Counts, LineAnswer, Merging, PacketReading, PacketWriting, ProgramReading, ProgramRefusal, ProofRefusal, SetAnswer,
    Splitting, Trimming, Verdict,
};
use crate::questions::{
    CheapestQuestion, Letter, MergeQuestion, PacketQuestion, ProgramQuestion, ProofQuestion, SetQuestion, SplitQuestion, TrimQuestion,
    UnknownAnswer,
};

/// What the program reader returns.
#[derive(Debug, Clone, Copy, PartialEq, Eq)]
enum ProgramCode {
    Read,
    Refused(ProgramQuestion),
}

/// What the set test returns.
#[derive(Debug, Clone, Copy, PartialEq, Eq)]
enum SetCode {
    Yes,
    Differs,
    Broken,
    Refused(SetQuestion),
}

/// What the proof-line reader returns.
#[derive(Debug, Clone, Copy, PartialEq, Eq)]
enum LineCode {
    End,
    Line(Letter),
    Refused(ProofQuestion),
}

/// What the whole check returns.
#[derive(Debug, Clone, Copy, PartialEq, Eq)]
enum CheckCode {
    Inconsistent,
    Open,
    RefusedProgram,
    RefusedProof,
}

/// What the writer of packets returns for a version that there is.
#[derive(Debug, Clone, Copy, PartialEq, Eq)]
enum WritingCode {
    Written,
    Refused(PacketQuestion),
}

/// What a move of a packet up returns.
#[derive(Debug, Clone, Copy, PartialEq, Eq)]
struct UpCode(WritingCode);

/// What a move of a packet down returns.
#[derive(Debug, Clone, Copy, PartialEq, Eq)]
struct DownCode(WritingCode);

/// What the reader of packets returns.
#[derive(Debug, Clone, Copy, PartialEq, Eq)]
enum ReadingCode {
    Read,
    Refused(PacketQuestion),
}

/// What the merge returns.
#[derive(Debug, Clone, Copy, PartialEq, Eq)]
enum MergeCode {
    Merged,
    RefusedProgram(ProgramQuestion),
    Refused(MergeQuestion),
}

/// What the merge of a tree returns.
#[derive(Debug, Clone, Copy, PartialEq, Eq)]
struct TreeCode(MergeCode);

/// What trimming returns.
#[derive(Debug, Clone, Copy, PartialEq, Eq)]
enum TrimCode {
    Trimmed,
    RefusedProgram(ProgramQuestion),
    Refused(TrimQuestion),
}

/// What the check of a cheapest answer set returns.
#[derive(Debug, Clone, Copy, PartialEq, Eq)]
enum CheapestCode {
    Certified,
    RefusedProgram(ProgramQuestion),
    Refused(CheapestQuestion),
}

/// What the splitting of long sums returns.
#[derive(Debug, Clone, Copy, PartialEq, Eq)]
enum SplitCode {
    Split,
    RefusedProgram(ProgramQuestion),
    Refused(SplitQuestion),
}

fn unknown(wanted: &'static str, code: u32) -> UnknownAnswer {
    UnknownAnswer { wanted, number: u64::from(code) }
}

impl TryFrom<u32> for ProgramCode {
    type Error = UnknownAnswer;

    fn try_from(code: u32) -> Result<Self, UnknownAnswer> {
        match code {
            0 => Ok(ProgramCode::Read),
            1..=11 | 54 | 55 => ProgramQuestion::try_from(u64::from(code)).map(ProgramCode::Refused),
            _ => Err(unknown("code of the program reader", code)),
        }
    }
}

impl TryFrom<u32> for SetCode {
    type Error = UnknownAnswer;

    fn try_from(code: u32) -> Result<Self, UnknownAnswer> {
        match code {
            0 => Ok(SetCode::Yes),
            1 => Ok(SetCode::Differs),
            2 => Ok(SetCode::Broken),
            41..=43 => SetQuestion::try_from(u64::from(code)).map(SetCode::Refused),
            _ => Err(unknown("code of the set test", code)),
        }
    }
}

impl TryFrom<u32> for LineCode {
    type Error = UnknownAnswer;

    fn try_from(code: u32) -> Result<Self, UnknownAnswer> {
        match code {
            0 => Ok(LineCode::End),
            21..=25 => ProofQuestion::try_from(u64::from(code)).map(LineCode::Refused),
            _ => {
                let letter = Letter::try_from(u64::from(code));
                letter.map(LineCode::Line).map_err(|_| unknown("code of the proof-line reader", code))
            }
        }
    }
}

impl TryFrom<u32> for CheckCode {
    type Error = UnknownAnswer;

    fn try_from(code: u32) -> Result<Self, UnknownAnswer> {
        match code {
            0 => Ok(CheckCode::Inconsistent),
            1 => Ok(CheckCode::Open),
            2 => Ok(CheckCode::RefusedProgram),
            3 => Ok(CheckCode::RefusedProof),
            _ => Err(unknown("code of the whole check", code)),
        }
    }
}

impl TryFrom<u32> for WritingCode {
    type Error = UnknownAnswer;

    fn try_from(code: u32) -> Result<Self, UnknownAnswer> {
        match code {
            0 => Ok(WritingCode::Written),
            52..=53 => PacketQuestion::try_from(u64::from(code)).map(WritingCode::Refused),
            _ => Err(unknown("code of the writer of packets", code)),
        }
    }
}

impl TryFrom<u32> for UpCode {
    type Error = UnknownAnswer;

    fn try_from(code: u32) -> Result<Self, UnknownAnswer> {
        match code {
            0 => Ok(UpCode(WritingCode::Written)),
            51..=53 => PacketQuestion::try_from(u64::from(code)).map(|question| UpCode(WritingCode::Refused(question))),
            _ => Err(unknown("code of a move up", code)),
        }
    }
}

impl TryFrom<u32> for DownCode {
    type Error = UnknownAnswer;

    fn try_from(code: u32) -> Result<Self, UnknownAnswer> {
        match code {
            61 => Ok(DownCode(WritingCode::Refused(PacketQuestion::Old))),
            _ => UpCode::try_from(code).map(|up| DownCode(up.0)).map_err(|_| unknown("code of a move down", code)),
        }
    }
}

impl TryFrom<u32> for ReadingCode {
    type Error = UnknownAnswer;

    fn try_from(code: u32) -> Result<Self, UnknownAnswer> {
        match code {
            0 => Ok(ReadingCode::Read),
            51..=53 => PacketQuestion::try_from(u64::from(code)).map(ReadingCode::Refused),
            _ => Err(unknown("code of the reader of packets", code)),
        }
    }
}

impl TryFrom<u32> for MergeCode {
    type Error = UnknownAnswer;

    fn try_from(code: u32) -> Result<Self, UnknownAnswer> {
        match code {
            0 => Ok(MergeCode::Merged),
            1..=11 | 54 | 55 => ProgramQuestion::try_from(u64::from(code)).map(MergeCode::RefusedProgram),
            57..=59 => MergeQuestion::try_from(u64::from(code)).map(MergeCode::Refused),
            _ => Err(unknown("code of the merge", code)),
        }
    }
}

impl TryFrom<u32> for TreeCode {
    type Error = UnknownAnswer;

    fn try_from(code: u32) -> Result<Self, UnknownAnswer> {
        match code {
            64 => Ok(TreeCode(MergeCode::Refused(MergeQuestion::Tree))),
            _ => MergeCode::try_from(code).map(TreeCode).map_err(|_| unknown("code of the merge of a tree", code)),
        }
    }
}

impl TryFrom<u32> for TrimCode {
    type Error = UnknownAnswer;

    fn try_from(code: u32) -> Result<Self, UnknownAnswer> {
        match code {
            0 => Ok(TrimCode::Trimmed),
            1..=11 | 54 | 55 => ProgramQuestion::try_from(u64::from(code)).map(TrimCode::RefusedProgram),
            60 => Ok(TrimCode::Refused(TrimQuestion::Accepted)),
            _ => Err(unknown("code of trimming", code)),
        }
    }
}

impl TryFrom<u32> for CheapestCode {
    type Error = UnknownAnswer;

    fn try_from(code: u32) -> Result<Self, UnknownAnswer> {
        match code {
            0 => Ok(CheapestCode::Certified),
            1..=11 | 54 | 55 => ProgramQuestion::try_from(u64::from(code)).map(CheapestCode::RefusedProgram),
            42 | 62 | 63 => CheapestQuestion::try_from(u64::from(code)).map(CheapestCode::Refused),
            _ => Err(unknown("code of the cheapest answer set", code)),
        }
    }
}

impl TryFrom<u32> for SplitCode {
    type Error = UnknownAnswer;

    fn try_from(code: u32) -> Result<Self, UnknownAnswer> {
        match code {
            0 => Ok(SplitCode::Split),
            1..=11 | 54 | 55 => ProgramQuestion::try_from(u64::from(code)).map(SplitCode::RefusedProgram),
            65 | 66 => SplitQuestion::try_from(u64::from(code)).map(SplitCode::Refused),
            _ => Err(unknown("code of the splitting of sums", code)),
        }
    }
}

/// The program reader's answer.
pub fn program_reading(code: u32, answer: [u64; 2]) -> Result<ProgramReading, UnknownAnswer> {
    let [first, second] = answer.map(|number| number as usize);
    Ok(match ProgramCode::try_from(code)? {
        ProgramCode::Read => ProgramReading::Read { atoms: first, rules: second },
        ProgramCode::Refused(question) => ProgramReading::Refused(ProgramRefusal { question, line: first }),
    })
}

/// The set test's answer.
pub fn set_answer(code: u32, answer: u64) -> Result<SetAnswer, UnknownAnswer> {
    Ok(match SetCode::try_from(code)? {
        SetCode::Yes => SetAnswer::Yes,
        SetCode::Differs => SetAnswer::Differs(atom(answer)?),
        SetCode::Broken => SetAnswer::Broken(answer as usize),
        SetCode::Refused(question) => SetAnswer::Refused(question),
    })
}

fn atom(number: u64) -> Result<u16, UnknownAnswer> {
    u16::try_from(number).map_err(|_| UnknownAnswer { wanted: "atom", number })
}

/// The proof-line reader's answer.
pub fn line_answer(code: u32, answer: [u64; 2]) -> Result<LineAnswer, UnknownAnswer> {
    let [count, next] = answer.map(|number| number as usize);
    Ok(match LineCode::try_from(code)? {
        LineCode::End => LineAnswer::End,
        LineCode::Line(letter) => LineAnswer::Line { letter, count, next },
        LineCode::Refused(question) => LineAnswer::Refused(question),
    })
}

/// The whole check's answer.
pub fn verdict(code: u32, answer: [u64; 4]) -> Result<Verdict, UnknownAnswer> {
    let [atoms, rules, steps, nogoods] = answer.map(|number| number as usize);
    let counts = Counts { atoms, rules, steps, nogoods };
    let [number, place, ..] = answer;
    let place = place as usize;
    Ok(match CheckCode::try_from(code)? {
        CheckCode::Inconsistent => Verdict::Inconsistent(counts),
        CheckCode::Open => Verdict::Open(counts),
        CheckCode::RefusedProgram => Verdict::RefusedProgram(ProgramRefusal { question: number.try_into()?, line: place }),
        CheckCode::RefusedProof => Verdict::RefusedProof(ProofRefusal { question: number.try_into()?, step: place }),
    })
}

/// The answer of the writer of packets.
pub fn packet_writing(code: u32, answer: u64) -> Result<PacketWriting, UnknownAnswer> {
    Ok(written(WritingCode::try_from(code)?, answer))
}

/// The answer of a move up.
pub fn packet_up(code: u32, answer: u64) -> Result<PacketWriting, UnknownAnswer> {
    Ok(written(UpCode::try_from(code)?.0, answer))
}

/// The answer of a move down.
pub fn packet_down(code: u32, answer: u64) -> Result<PacketWriting, UnknownAnswer> {
    Ok(written(DownCode::try_from(code)?.0, answer))
}

fn written(code: WritingCode, answer: u64) -> PacketWriting {
    match code {
        WritingCode::Written => PacketWriting::Written(answer as usize),
        WritingCode::Refused(question) => PacketWriting::Refused(question),
    }
}

/// The answer of the reader of packets.
pub fn packet_reading(code: u32, answer: [u64; 2]) -> Result<PacketReading, UnknownAnswer> {
    let [rules, bytes] = answer.map(|number| number as usize);
    Ok(match ReadingCode::try_from(code)? {
        ReadingCode::Read => PacketReading::Read { rules, bytes },
        ReadingCode::Refused(question) => PacketReading::Refused(question),
    })
}

/// The merge's answer.
pub fn merging(code: u32, answer: u64) -> Result<Merging, UnknownAnswer> {
    Ok(merged(MergeCode::try_from(code)?, answer))
}

/// The answer of the merge of a tree.
pub fn tree_merging(code: u32, answer: u64) -> Result<Merging, UnknownAnswer> {
    Ok(merged(TreeCode::try_from(code)?.0, answer))
}

fn merged(code: MergeCode, answer: u64) -> Merging {
    let number = answer as usize;
    match code {
        MergeCode::Merged => Merging::Merged(number),
        MergeCode::RefusedProgram(question) => Merging::RefusedProgram(ProgramRefusal { question, line: number }),
        MergeCode::Refused(question) => Merging::Refused(question),
    }
}

/// The answer of trimming.
pub fn trimming(code: u32, answer: u64) -> Result<Trimming, UnknownAnswer> {
    let number = answer as usize;
    Ok(match TrimCode::try_from(code)? {
        TrimCode::Trimmed => Trimming::Trimmed(number),
        TrimCode::RefusedProgram(question) => Trimming::RefusedProgram(ProgramRefusal { question, line: number }),
        TrimCode::Refused(question) => Trimming::Refused(question),
    })
}

/// The answer of the cheapest answer set.
pub fn cheapest(code: u32, answer: u64) -> Result<Cheapest, UnknownAnswer> {
    let number = answer as usize;
    Ok(match CheapestCode::try_from(code)? {
        CheapestCode::Certified => Cheapest::Certified(number),
        CheapestCode::RefusedProgram(question) => Cheapest::RefusedProgram(ProgramRefusal { question, line: number }),
        CheapestCode::Refused(question) => Cheapest::Refused(question),
    })
}

/// The answer of the splitting of long sums.
pub fn splitting(code: u32, answer: [u64; 4]) -> Result<Splitting, UnknownAnswer> {
    let [bytes, atoms, rules, old_atoms] = answer.map(|number| number as usize);
    Ok(match SplitCode::try_from(code)? {
        SplitCode::Split => Splitting::Split { bytes, atoms, rules, old_atoms },
        SplitCode::RefusedProgram(question) => Splitting::RefusedProgram(ProgramRefusal { question, line: bytes }),
        SplitCode::Refused(question) => Splitting::Refused(question),
    })
}

#[cfg(test)]
mod tests {
    use super::*;

    /// The codes up to 999 that are known, and that those above them are not.
    fn known<T: TryFrom<u32, Error = UnknownAnswer>>() -> Vec<u32> {
        for code in [1_000, 1 << 8 | 1, 1 << 16 | 1, u32::MAX] {
            assert_eq!(T::try_from(code).err().map(|unknown| unknown.number), Some(u64::from(code)));
        }
        (0..1_000).filter(|&code| T::try_from(code).is_ok()).collect()
    }

    #[test]
    fn known_codes() {
        assert_eq!(known::<ProgramCode>(), (0..=11).chain([54, 55]).collect::<Vec<_>>());
        assert_eq!(known::<SetCode>(), [0, 1, 2, 41, 42, 43]);
        assert_eq!(known::<LineCode>(), [0, 21, 22, 23, 24, 25, 97, 98, 99, 100, 101, 108, 115]);
        assert_eq!(known::<CheckCode>(), [0, 1, 2, 3]);
        assert_eq!(known::<WritingCode>(), [0, 52, 53]);
        assert_eq!(known::<ReadingCode>(), [0, 51, 52, 53]);
        assert_eq!(known::<UpCode>(), [0, 51, 52, 53]);
        assert_eq!(known::<DownCode>(), [0, 51, 52, 53, 61]);
        assert_eq!(known::<MergeCode>(), (0..=11).chain([54, 55, 57, 58, 59]).collect::<Vec<_>>());
        assert_eq!(known::<TreeCode>(), (0..=11).chain([54, 55, 57, 58, 59, 64]).collect::<Vec<_>>());
        assert_eq!(known::<TrimCode>(), (0..=11).chain([54, 55, 60]).collect::<Vec<_>>());
        assert_eq!(known::<CheapestCode>(), (0..=11).chain([42, 54, 55, 62, 63]).collect::<Vec<_>>());
        assert_eq!(known::<SplitCode>(), (0..=11).chain([54, 55, 65, 66]).collect::<Vec<_>>());
    }

    #[test]
    fn unknown_codes_are_errors() {
        assert_eq!(program_reading(12, [1, 1]), Err(UnknownAnswer { wanted: "code of the program reader", number: 12 }));
        assert_eq!(set_answer(3, 1), Err(UnknownAnswer { wanted: "code of the set test", number: 3 }));
        assert_eq!(line_answer(26, [1, 1]), Err(UnknownAnswer { wanted: "code of the proof-line reader", number: 26 }));
        assert_eq!(verdict(4, [0; 4]), Err(UnknownAnswer { wanted: "code of the whole check", number: 4 }));
        assert_eq!(packet_writing(51, 0), Err(UnknownAnswer { wanted: "code of the writer of packets", number: 51 }));
        assert_eq!(packet_up(61, 0), Err(UnknownAnswer { wanted: "code of a move up", number: 61 }));
        assert_eq!(packet_down(60, 0), Err(UnknownAnswer { wanted: "code of a move down", number: 60 }));
        assert_eq!(packet_reading(54, [0; 2]), Err(UnknownAnswer { wanted: "code of the reader of packets", number: 54 }));
        assert_eq!(merging(34, 0), Err(UnknownAnswer { wanted: "code of the merge", number: 34 }));
        assert_eq!(merging(64, 0), Err(UnknownAnswer { wanted: "code of the merge", number: 64 }));
        assert_eq!(tree_merging(63, 0), Err(UnknownAnswer { wanted: "code of the merge of a tree", number: 63 }));
        assert_eq!(trimming(57, 0), Err(UnknownAnswer { wanted: "code of trimming", number: 57 }));
        assert_eq!(splitting(64, [0; 4]), Err(UnknownAnswer { wanted: "code of the splitting of sums", number: 64 }));
    }

    #[test]
    fn unknown_numbers_are_errors() {
        assert_eq!(set_answer(1, 65_535), Ok(SetAnswer::Differs(65_535)));
        assert_eq!(set_answer(1, 65_536), Err(UnknownAnswer { wanted: "atom", number: 65_536 }));
        assert_eq!(verdict(2, [21, 1, 0, 0]).map_err(|unknown| unknown.number), Err(21));
        assert_eq!(verdict(3, [11, 1, 0, 0]).map_err(|unknown| unknown.number), Err(11));
    }

    #[test]
    fn numbers_have_their_places() {
        assert_eq!(program_reading(0, [7, 3]), Ok(ProgramReading::Read { atoms: 7, rules: 3 }));
        let refusal = ProgramRefusal { question: ProgramQuestion::Kinds, line: 7 };
        assert_eq!(program_reading(5, [7, 0]), Ok(ProgramReading::Refused(refusal)));
        assert_eq!(set_answer(2, 9), Ok(SetAnswer::Broken(9)));
        assert_eq!(line_answer(108, [2, 30]), Ok(LineAnswer::Line { letter: Letter::Loop, count: 2, next: 30 }));
        assert_eq!(packet_writing(0, 57), Ok(PacketWriting::Written(57)));
        assert_eq!(packet_reading(0, [1, 35]), Ok(PacketReading::Read { rules: 1, bytes: 35 }));
        assert_eq!(packet_writing(53, 9), Ok(PacketWriting::Refused(PacketQuestion::Pair)));
        assert_eq!(packet_reading(51, [9; 2]), Ok(PacketReading::Refused(PacketQuestion::Mark)));
        assert_eq!(packet_up(0, 61), Ok(PacketWriting::Written(61)));
        assert_eq!(packet_up(51, 9), Ok(PacketWriting::Refused(PacketQuestion::Mark)));
        assert_eq!(packet_down(0, 57), Ok(PacketWriting::Written(57)));
        assert_eq!(packet_down(61, 9), Ok(PacketWriting::Refused(PacketQuestion::Old)));
        assert_eq!(merging(0, 66), Ok(Merging::Merged(66)));
        assert_eq!(merging(5, 7), Ok(Merging::RefusedProgram(refusal)));
        assert_eq!(merging(59, 9), Ok(Merging::Refused(MergeQuestion::Store)));
        assert_eq!(tree_merging(0, 89), Ok(Merging::Merged(89)));
        assert_eq!(tree_merging(5, 7), Ok(Merging::RefusedProgram(refusal)));
        assert_eq!(tree_merging(64, 9), Ok(Merging::Refused(MergeQuestion::Tree)));
        assert_eq!(trimming(0, 35), Ok(Trimming::Trimmed(35)));
        assert_eq!(trimming(5, 7), Ok(Trimming::RefusedProgram(refusal)));
        assert_eq!(trimming(60, 9), Ok(Trimming::Refused(TrimQuestion::Accepted)));
        assert_eq!(cheapest(0, 3), Ok(Cheapest::Certified(3)));
        assert_eq!(cheapest(5, 7), Ok(Cheapest::RefusedProgram(refusal)));
        assert_eq!(cheapest(62, 9), Ok(Cheapest::Refused(CheapestQuestion::Costs)));
        assert_eq!(splitting(0, [130, 16, 4, 13]), Ok(Splitting::Split { bytes: 130, atoms: 16, rules: 4, old_atoms: 13 }));
        assert_eq!(splitting(5, [7, 0, 9, 9]), Ok(Splitting::RefusedProgram(refusal)));
        assert_eq!(splitting(65, [9; 4]), Ok(Splitting::Refused(SplitQuestion::Group)));
        assert_eq!(splitting(66, [9; 4]), Ok(Splitting::Refused(SplitQuestion::Room)));
        for (code, answer, line) in
            [(0, [1, 2, 3, 4], "inconsistent 1 2 3 4"), (1, [5, 6, 7, 8], "open 5 6 7 8"), (2, [10, 3, 0, 0], "refused program 10 3")]
        {
            assert_eq!(verdict(code, answer).map(|verdict| verdict.to_string()), Ok(String::from(line)));
        }
        assert_eq!(verdict(3, [33, 12, 9, 9]).map(|verdict| verdict.to_string()), Ok(String::from("refused proof 33 12")));
    }
}
