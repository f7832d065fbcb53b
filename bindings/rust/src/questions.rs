//! What the library says in numbers, as enums: the questions that documents 01 and 02 put to the inputs, and the letters of proof lines.

use std::fmt;

/// A code, or a number beside it, that the library's contracts do not allow. The library is proved never to answer one: it shows
/// that this crate and the library that it is linked with do not belong together.
#[derive(Debug, Clone, Copy, PartialEq, Eq)]
pub struct UnknownAnswer {
    /// What the number should have been.
    pub wanted: &'static str,
    /// The number.
    pub number: u64,
}

impl fmt::Display for UnknownAnswer {
    fn fmt(&self, f: &mut fmt::Formatter) -> fmt::Result {
        write!(f, "the library answered {}, which is no {}", self.number, self.wanted)
    }
}

impl std::error::Error for UnknownAnswer {}

/// An enum whose cases have numbers and texts; a case's text is its documentation and what it is displayed as.
macro_rules! numbered {
    ($(#[$about:meta])* $name:ident, $what:literal { $($case:ident = $number:literal, $text:literal;)* }) => {
        $(#[$about])*
        #[derive(Debug, Clone, Copy, PartialEq, Eq, Hash)]
        #[repr(u8)]
        pub enum $name {
            $(#[doc = $text] $case = $number,)*
        }

        impl $name {
            /// All cases: questions in the order in which they are asked, letters by the alphabet.
            pub const ALL: &'static [$name] = &[$($name::$case),*];

            /// The case's number.
            pub const fn number(self) -> u8 {
                self as u8
            }
        }

        impl TryFrom<u64> for $name {
            type Error = UnknownAnswer;

            fn try_from(number: u64) -> Result<Self, UnknownAnswer> {
                let found = $name::ALL.iter().find(|case| u64::from(case.number()) == number);
                found.copied().ok_or(UnknownAnswer { wanted: $what, number })
            }
        }

        impl fmt::Display for $name {
            fn fmt(&self, f: &mut fmt::Formatter) -> fmt::Result {
                f.write_str(match self {
                    $($name::$case => $text,)*
                })
            }
        }
    };
}

/// The same for questions: behind the question stands what to mend where it is answered no.
macro_rules! questions {
    ($(#[$about:meta])* $name:ident, $what:literal { $($case:ident = $number:literal, $text:literal, $mend:literal;)* }) => {
        numbered! {
            $(#[$about])*
            $name, $what { $($case = $number, $text;)* }
        }

        impl $name {
            /// What to mend where the question is answered no.
            pub const fn mend(self) -> &'static str {
                match self {
                    $($name::$case => $mend,)*
                }
            }
        }
    };
}

questions! {
    /// A question put to a program text. A refusal names the first that is answered no; 54 and 55 are asked right after 6.
    ProgramQuestion, "question put to a program text" {
        Length = 1, "Has the text at most 65,535 bytes?",
            "a smaller program";
        Header = 2, "Is line 1 `asp 1 0 0`?",
            "the header; to the program `verdict` an unreadable file is an empty one and ends here";
        Numbers = 3, "Is there a line, ended, of well-formed numbers?",
            "no line `0` or newline at the end, two spaces, `-0`, leading zeros, a carriage return";
        Range = 4, "Are all numbers from -8,191 to 8,191?",
            "fewer atoms; number them anew; divide weights and bound";
        Kinds = 5, "Is the statement kind 1, the head kind 0 or 1, and the body kind 0 or 1?",
            "drop other statements; an empty line";
        Counts = 6, "Are both counts and a bound there, the counts 0 to 64, and matched by what follows?",
            "the counts; split long rules; a missing bound or weight";
        Weights = 54, "Are bound and weights 0 to 4,095?",
            "divide a bound and its weights; a negative weight: take the complement of its literal and raise the bound";
        WeightCount = 55, "Has a body with weights at most 12 literals?",
            "split the sum";
        HeadCount = 7, "Does the head count suit the head kind?",
            "normal: 0 or 1 heads, choice: 1 to 64; disjunction is not taken";
        Literals = 8, "Are heads positive and distinct, literals nonzero with no atom twice?",
            "the rule; a plain body with `a, not a` never holds: drop the rule; in a sum add up the weights";
        RuleCount = 9, "Are there fewer than 1,024 rules before it?",
            "a smaller program";
        Table = 10, "Does the table hold the rule?",
            "a smaller program, or a longer table where you lend it";
        End = 11, "Does the text end after the line `0`?",
            "what follows it";
    }
}

questions! {
    /// A question put to a proof text. A refusal names the first that is answered no; 56 is asked right after 31.
    ProofQuestion, "question put to a proof text" {
        Length = 21, "Has the text at most 65,535 bytes, for the long check 2,147,483,647?",
            "a shorter proof, or up to 2,147,483,647 bytes the long check";
        Shape = 22, "Is the line a letter, a space, numbers, a closing `0` and a newline?",
            "the line's shape";
        Sizes = 23, "Are all numbers from -8,191 to 8,191, and at most 65 of them?",
            "the line's numbers";
        Signs = 24, "Is a first number there for `b c e l s`, and every sign as told?",
            "only `a`, `d` and the later numbers of `b`, `e` are signed";
        Distinct = 25, "Is no variable named twice in the line?",
            "the line";
        Known = 26, "Are all variables known, save the name introduced?",
            "introduce it with `b` or `e` first";
        Fresh = 27, "Is the name introduced unknown?",
            "take another number: a name is never new again, not even after `d`";
        Body = 28, "`b`: is it the body of a rule, and without a name?",
            "name each body once, as it stands in a rule; of weights, a minimal set";
        Completion = 29, "`c`: has a normal rule that body and that head?",
            "the name and the head; choice rules give no `c`";
        Support = 30, "`s`: is it an atom, with exactly the names of its bodies?",
            "the name of every body of a rule with it in its head, choice rules too; name those that lack one by `b` first";
        Atoms = 31, "`l`: are all of them atoms?",
            "names stand in no `l` line";
        Loop = 56, "`l`: does every atom reach every atom inside the set?",
            "name a loop; an atom without an edge to itself takes `s`";
        Externals = 32, "`l`: is each external body named?",
            "name the bodies first";
        Addition = 33, "`a`: does propagation come to a conflict?",
            "the solver's step does not follow; earlier lines are missing";
        Store = 34, "Do the live nogoods fit the store?",
            "delete with `d`, or lend a longer store; a nogood takes two words and its literals";
    }
}

questions! {
    /// A question put by the set test. A refusal names the first that is answered no.
    SetQuestion, "question put by the set test" {
        Table = 41, "Is the table one that the program reader leaves, with that rule count?",
            "read the program again";
        Set = 42, "Is the set strictly ascending within 1 to the largest atom?",
            "the set";
        Marks = 43, "Are there 8,192 marks?",
            "the call";
    }
}

questions! {
    /// A question put by the writer and the reader of packets, and by a move to the other version. A refusal names the first that is answered
    /// no; 61 is asked by a move down, before whether the output is long enough.
    PacketQuestion, "question put to a packet" {
        Mark = 51, "Does the packet begin with `RVP` and the version told, and is that 1 or 2?",
            "it is no packet, or one of the other version";
        Lengths = 52, "Do the lengths make up the bytes given, and do the outputs hold what is written?",
            "a file that was cut or padded; a longer output";
        Pair = 53, "Does the table pass question 41 and the proof text questions 21 to 25, in version 1 without weights and without a variable above 4,095?",
            "read the program again; the proof's lines; send version 2";
        Old = 61, "Down: has the pair no weights, and no variable above 4,095?",
            "it stays in version 2";
    }
}

questions! {
    /// A question put by the merge of two halves, after those put to the program. A refusal names the first that is answered no. 64 is asked by
    /// the merge of a tree, before any end is read; the others are then put to its ends and merges, a side that demands an atom before the
    /// other.
    MergeQuestion, "question put to two halves or a tree" {
        Tree = 64, "Tree: are the numbers a tree over the program's atoms, at most six splits deep and with no atom twice on a path, and the lengths those of its ends?",
            "the tree's numbers; the lengths; for a deeper tree, some of its sides merged first";
        Halves = 57, "Is the atom one of the program's, and each half, or end of a tree, inconsistent when it is checked with the store?",
            "the atom; the half's proof, by a check of its own; a longer store";
        Limits = 58, "Is every line and name within its limit, and the text within 65,535 bytes and the output?",
            "a longer output; shorter proofs; fewer names";
        Store = 59, "Do the live nogoods of the merged proof fit the store?",
            "a longer store";
    }
}

questions! {
    /// The question put by the trimming of a proof, after those put to the program.
    TrimQuestion, "question put to a proof that is trimmed" {
        Accepted = 60, "Is the proof inconsistent when it is checked with the store?",
            "the proof, by a check of its own; a zero byte after it; a longer store";
    }
}

questions! {
    /// A question put to a set that is to be a cheapest answer set, after those put to the program. A refusal names the first that is answered
    /// no.
    CheapestQuestion, "question put to a cheapest answer set" {
        Set = 42, "Is the set strictly ascending within 1 to the largest atom?",
            "the set";
        Costs = 62, "Are there at most 12 literals over the program's atoms, no atom twice, each with a cost of 0 to 4,095, and does the set cost at most 4,095?",
            "the costs; divide them";
        Certificate = 63, "Is the set an answer set, and where it costs more than 0 the proof inconsistent for the program restricted to lower costs?",
            "the set, by the set test; the proof, by a check of its own with the restriction as the last rule; a cheaper set; a longer store";
    }
}

questions! {
    /// A question put by the splitting of long sums, after those put to the program. A refusal names the first that is
    /// answered no.
    SplitQuestion, "question put by the splitting of sums" {
        Group = 65, "Is the group size from 2 to 12?",
            "the call";
        Room = 66, "Has the split program at most 1,024 rules, atoms up to 8,191, and a text within 65,535 bytes and the output?",
            "another group size, or a longer output; a smaller program; weights with fewer different sums";
    }
}

numbered! {
    /// The letter of a proof line; its number is its byte.
    Letter, "letter of a proof line" {
        Addition = b'a', "a";
        Body = b'b', "b";
        Completion = b'c', "c";
        Deletion = b'd', "d";
        Extension = b'e', "e";
        Loop = b'l', "l";
        Support = b's', "s";
    }
}

#[cfg(test)]
mod tests {
    use super::*;

    /// The numbers up to 1,000 that have a case, each of which has that number.
    fn known<T: TryFrom<u64>>(number: fn(T) -> u8) -> Vec<u64> {
        let of = |n: u64| T::try_from(n).ok().map(|case| u64::from(number(case)));
        (0..1_000).filter(|&n| of(n).inspect(|&own| assert_eq!(own, n)).is_some()).collect()
    }

    #[test]
    fn numbers_of_the_documents() {
        assert_eq!(known(ProgramQuestion::number), (1..=11).chain([54, 55]).collect::<Vec<_>>());
        assert_eq!(known(ProofQuestion::number), (21..=34).chain([56]).collect::<Vec<_>>());
        assert_eq!(known(SetQuestion::number), (41..=43).collect::<Vec<_>>());
        assert_eq!(known(PacketQuestion::number), [51, 52, 53, 61]);
        assert_eq!(known(MergeQuestion::number), [57, 58, 59, 64]);
        assert_eq!(known(TrimQuestion::number), [60]);
        assert_eq!(known(CheapestQuestion::number), [42, 62, 63]);
        assert_eq!(known(SplitQuestion::number), [65, 66]);
        assert_eq!(known(Letter::number), b"abcdels".map(u64::from));
        assert_eq!(Letter::ALL.iter().map(Letter::to_string).collect::<String>(), "abcdels");
    }

    #[test]
    fn other_numbers_are_errors() {
        for number in [0, 12, 21, 53, 56, 257, 1 << 32 | 1, u64::MAX] {
            let unknown = UnknownAnswer { wanted: "question put to a program text", number };
            assert_eq!(ProgramQuestion::try_from(number), Err(unknown));
        }
        let unknown = SetQuestion::try_from(44).unwrap_err();
        assert_eq!(unknown.to_string(), "the library answered 44, which is no question put by the set test");
    }

    /// The rows of the table of docs/FORMAT.md for one kind of question, the first with the kind before its number.
    fn rows<T: Copy + fmt::Display>(kind: &str, all: &[T], number: fn(T) -> u8, mend: fn(T) -> &'static str) -> String {
        let row = |(place, &case): (usize, &T)| {
            let before = if place == 0 { format!("{kind} ") } else { String::new() };
            format!("| {before}{} | {case} | {} |\n", number(case), mend(case))
        };
        all.iter().enumerate().map(row).collect()
    }

    #[test]
    fn format_has_this_table() {
        let table = rows("program", ProgramQuestion::ALL, ProgramQuestion::number, ProgramQuestion::mend)
            + &rows("proof", ProofQuestion::ALL, ProofQuestion::number, ProofQuestion::mend)
            + &rows("set test", SetQuestion::ALL, SetQuestion::number, SetQuestion::mend)
            + &rows("packet", PacketQuestion::ALL, PacketQuestion::number, PacketQuestion::mend)
            + &rows("merge", MergeQuestion::ALL, MergeQuestion::number, MergeQuestion::mend)
            + &rows("trim", TrimQuestion::ALL, TrimQuestion::number, TrimQuestion::mend)
            + &rows("cheapest", CheapestQuestion::ALL, CheapestQuestion::number, CheapestQuestion::mend)
            + &rows("sums", SplitQuestion::ALL, SplitQuestion::number, SplitQuestion::mend);
        let page = std::fs::read_to_string(concat!(env!("CARGO_MANIFEST_DIR"), "/../../docs/FORMAT.md")).unwrap();
        let head = "| number | question that is answered no | what to mend |\n|---|---|---|\n";
        let (_, after) = page.split_once(head).expect("the page has the table's head");
        let (stands, _) = after.split_once("\n\n").expect("the page goes on after the table");
        assert_eq!(format!("{stands}\n"), table, "the table of docs/FORMAT.md is to be:\n{table}");
    }
}
