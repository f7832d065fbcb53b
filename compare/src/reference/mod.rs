//! The slow and plain reference: every service of document 01, and the packets of both versions, the merges, the trimming and the cheapest
//! answer set of document 02, once more, written from their words; and the splitting of long sums.
//!
//! Where its words left room for doubt, this is how they are read here:
//! - A refused proof zeroes the table too: the whole check "is lent both texts and a table and a store to fill", and every refusal
//!   zeroes "the whole of the table, store or marks that the call was lent to fill".
//! - Question 7 comes after both counts and the body kind, although it is about the head count alone: the questions stand in that order.
//! - `c` with more than two numbers is refused with 29, after 25 and 26: "no more numbers" stands in the description of `c`, and
//!   "`c`?" is question 29.
//! - `s` of a name is 30 and not 24: that h is an atom depends on the program, which the line's signs do not.
//! - Equal nogoods are kept as often as they were added, and K counts each: `d` takes away "the oldest live nogood equal to L".
//! - Question 34 is asked of the words after the whole step, not between the nogoods that `b` and `e` add.
//! - The table of the set test may be of any length that holds its rules, with zeros after them; more than 1,024 rules are 41.
//! - A number of numbers above 65 leaves out the closing 0: "up to 65 nonzero numbers, a closing `0`".
//! - A packet with mark and version but not both lengths is 52: the lengths are what is missing.
//! - Lengths are the two counts at a packet's front and the count of each step; the head and body counts among the words are not. They
//!   make up the bytes given where just the stated words and steps stand in them, and no byte more.
//! - A packet does not send the rule count: it is the number of rules that its words fall into, with none left over.
//! - The writer has no mark to test, so its order is 53, 52.
//! - A weight body is one by its kind, also with no literals. What a version 2 packet cannot take down is asked of the pair: a body of kind 1,
//!   or a variable above 4,095 in a rule or a step. A packet moved up is refused for nothing that its reader takes but a short output.
//! - The packets' counts are of what stands inside: in version 2 the number of table words in use counts body kinds, bounds and weights.
//! - In the text of a weight body the count stands between bound and literals, as ASPIF has it; Change 3 leaves it out of its list.
//! - A weight body of 13 to 64 literals with all its numbers is 55; another count, or numbers too few or too many, 6.
//! - Only question 54 is put to what 4 lets pass: a bound or weight from 4,096 to 8,191 is 54, and a number above 8,191 is 4 wherever it stands.
//! - The bodies of one weight rule are counted with those of all other rules: "different bodies" are those of the whole expansion.
//! - A set of one atom is a loop where a rule has an edge from the atom to itself: an atom reaches itself "by one or more" edges.
//! - Edges are of the expansion: a literal that stands in no minimal set gives none.
//! - Change 6 moves no other limit than those that it names: bounds, weights and version 1 packets stay at 4,095, counts at 64.
//! - A step "would not fit otherwise" where the used words, the dead included, and all words of the step together exceed the store; filling
//!   it exactly is a fit. A `d` step adds nothing, so it never closes up; nor does the end of the check.
//! - A second `d` of the same set passes over the dead one and takes the next live one.
//! - A packet of version 1 holds the words of the base, without the body kind; its reader's table is too short where it does not hold the new words.
//! - The program's rules in Change 9 are the plain ones that they stand for: a weight constraint with the added body among its minimal sets
//!   keeps `b` and `c`. A `c n h` stays where a normal rule of the program has the body named n, be it the added one, and the head h.
//! - "that neither half uses" counts every name that a half introduces, also by a line that goes.
//! - Only `a` lines are widened or skipped. A line that is skipped is not asked for its length.
//! - All lines stay as often as they stand, but for the second `b` of a body that both halves name. `a 0` is added also after an `a 0`.
//! - A pass of Change 10 tries each step once, against what is left at that moment; after a removal it goes on with the step before. "accepted"
//!   is with the lent store, and the lent text is the proof to its last byte, zero bytes too.
//! - C of Change 12 is reckoned for the set as given, be it an answer set or not, since 62 is asked before 63. With C 0 the proof's length is not
//!   asked either. The restriction is counted by none of the questions 1, 9 and 10; literals of cost 0 stay in it.
//! - Change 14's depth is counted in splits on a path. The list does not match the lengths where their number is not that of the ends, or their
//!   sum not that of the bytes lent. Lengths that cut the texts at other places match: the ends are then what they are. An end under a split is
//!   not held to the output; every merge is, also inside the tree.

pub mod cheapest;
pub mod check;
pub mod closure;
pub mod lines;
pub mod loops;
pub mod merge;
pub mod models;
pub mod numbers;
pub mod packets;
pub mod program;
pub mod steps;
pub mod sums;
pub mod tree;
pub mod trim;
pub mod weights;

/// The largest variable and the largest atom: "The largest variable becomes 8,191".
pub const LARGEST: i32 = 8_191;
/// The largest variable in a packet of version 1: "packets of version 1 keep the old ones".
pub const PACKET_LARGEST: i32 = 4_095;
/// The largest bound and weight: "Bound and weights are 0 to 4,095".
pub const WEIGHT_LARGEST: i32 = 4_095;
/// The most bytes that a text may have.
pub const TEXT_LIMIT: usize = 65_535;
/// The most bytes that a proof may have which the check for proofs of any length is given.
pub const LONG_LIMIT: usize = 2_147_483_647;
/// The most heads of a choice rule and the most literals of a body.
pub const PART_LIMIT: i32 = 64;
/// The most numbers of a proof line, the closing 0 aside.
pub const LINE_LIMIT: usize = 65;
/// The most rules of a program.
pub const RULE_LIMIT: usize = 1_024;
/// The most literals of a body with weights.
pub const WEIGHTED_LIMIT: usize = 12;
/// The bytes of marks that the set test is lent: "the marks 8,192 bytes".
pub const MARKS: usize = 8_192;

/// The words or bytes, and zeros up to the length that was lent.
pub fn filled<T: Clone + Default>(mut words: Vec<T>, room: usize) -> Vec<T> {
    words.resize(room, T::default());
    words
}

/// Whether the numbers name no variable twice, whatever their signs.
pub fn variables_differ(numbers: &[i32]) -> bool {
    let mut variables: Vec<i32> = numbers.iter().map(|number| number.abs()).collect();
    variables.sort_unstable();
    variables.windows(2).all(|pair| pair[0] != pair[1])
}

/// The literals in ascending order of their variables.
pub fn by_variable(literals: &[i32]) -> Vec<i32> {
    let mut sorted = literals.to_vec();
    sorted.sort_by_key(|literal| literal.abs());
    sorted
}
