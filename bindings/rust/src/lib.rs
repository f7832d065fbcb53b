//! The fourteen services of the proof checker for Rust: the program reader, the set test, the proof-line reader, the
//! whole check over two texts, the same for proofs of any length, the writer and the reader of packets, their moves
//! from one version to the other, the merge of two halves' proofs, the trimming of a proof, the certificate of a
//! cheapest answer set, the merge of the proofs at the ends of a tree of splits, and the splitting of long sums. The
//! work is done by functions that are proved to meet their contracts on every input (`crates/exports`); here they are
//! declared and wrapped, and their codes become enums. No input panics.
//!
//! Each function answers an [`UnknownAnswer`] where the library returns what its contract does not allow, which a library of the
//! same version never does.
//!
//! ```
//! let program = b"asp 1 0 0\n1 0 1 1 0 1 -1\n0\n";
//! let proof = b"b 2 -1 0\nc 2 1 0\ns 1 2 0\na 1 0\na 0\n";
//! let (mut table, mut store) = ([0; 6], [0; 21]);
//! let verdict = aspdrupe::check_texts(program, proof, &mut table, &mut store)?;
//! assert_eq!(verdict.to_string(), "inconsistent 1 1 5 6");
//! # Ok::<(), aspdrupe::UnknownAnswer>(())
//! ```

#![warn(missing_docs)]

// A `usize` and a `u64` hold the same numbers there.
#[cfg(not(target_arch = "x86_64"))]
compile_error!("the static library that this crate links is for x86-64");

mod answers;
mod codes;
mod long;
mod questions;
mod raw;
mod sums;

pub use answers::{
    Cheapest, Counts, LineAnswer, Merging, PacketReading, PacketWriting, ProgramReading, ProgramRefusal, ProofRefusal, SetAnswer,
    Splitting, Trimming, Verdict, Version,
};
pub use long::{check_long, check_long_in, check_long_with, memory_for, store_for, LongFailure};
pub use questions::{
    CheapestQuestion, Letter, MergeQuestion, PacketQuestion, ProgramQuestion, ProofQuestion, SetQuestion, SplitQuestion, TrimQuestion,
    UnknownAnswer,
};
pub use sums::{split_program, split_sums};

/// The most numbers of a proof line.
pub const MOST_NUMBERS: usize = 65;

/// The marks that the set test asks for.
pub const MARKS: usize = 8192;

/// The bytes of stack with which a thread has enough for any call but [`merge_halves`], [`trim_proof`], [`check_cheapest`] and
/// [`merge_tree`], as `std::thread::Builder::stack_size` takes them. What your own code takes comes on top.
pub const STACK: usize = 786_432;

/// The same for [`merge_halves`].
pub const MERGE_STACK: usize = 1_179_648;

/// The same for [`trim_proof`].
pub const TRIM_STACK: usize = 1_310_720;

/// The same for [`check_cheapest`].
pub const CHEAPEST_STACK: usize = 1_048_576;

/// The same for [`merge_tree`]. Where nothing is said a thread has less.
pub const TREE_STACK: usize = 2_359_296;

// Each call below hands over what its slices point to, with their lengths. A slice is valid for its length, an empty one has a
// pointer that is aligned and not null, and Rust lets no other argument overlap one that is written: nothing more is asked.

/// Reads a program text into the table, which then holds the rules' words with 0 after them; 0 throughout where it is refused.
///
/// The words of a rule are the head kind, the head count, the body kind and the body count, with body kind 1 the bound, then the heads
/// ascending, and the literals ascending by atom, with body kind 1 each with its weight behind it.
///
/// ```
/// let mut table = [0; 10];
/// aspdrupe::read_program(b"asp 1 0 0\n1 0 1 1 1 3 2 3 2 -2 4\n0\n", &mut table)?;
/// assert_eq!(table, [0, 1, 1, 2, 3, 1, -2, 4, 3, 2]);
/// # Ok::<(), aspdrupe::UnknownAnswer>(())
/// ```
pub fn read_program(text: &[u8], table: &mut [i32]) -> Result<ProgramReading, UnknownAnswer> {
    let mut answer = [0; 2];
    // SAFETY: as said above.
    let code = unsafe {
        raw::aspdrupe_read_program(text.as_ptr(), text.len(), table.as_mut_ptr(), table.len(), answer.as_mut_ptr(), answer.len())
    };
    codes::program_reading(code, answer)
}

/// Tests whether an ascending set of atoms is an answer set of the program that a table holds. There must be [`MARKS`] marks, which
/// afterwards hold 1 at each atom of the least model and 0 elsewhere; 0 throughout where the test is refused.
pub fn test_set(table: &[i32], rules: usize, set: &[u16], marks: &mut [u8]) -> Result<SetAnswer, UnknownAnswer> {
    let mut answer = [0; 1];
    // SAFETY: as said above.
    let code = unsafe {
        raw::aspdrupe_test_set(
            table.as_ptr(),
            table.len(),
            rules as u64,
            set.as_ptr(),
            set.len(),
            marks.as_mut_ptr(),
            marks.len(),
            answer.as_mut_ptr(),
            answer.len(),
        )
    };
    codes::set_answer(code, answer[0])
}

/// Reads the proof line that begins at a position, and its numbers with 0 after them; all are 0 unless a line is answered.
pub fn read_line(text: &[u8], position: usize) -> Result<(LineAnswer, [i32; MOST_NUMBERS]), UnknownAnswer> {
    let mut numbers = [0; MOST_NUMBERS];
    let mut answer = [0; 2];
    // SAFETY: as said above.
    let code = unsafe {
        raw::aspdrupe_read_line(
            text.as_ptr(),
            text.len(),
            position as u64,
            numbers.as_mut_ptr(),
            numbers.len(),
            answer.as_mut_ptr(),
            answer.len(),
        )
    };
    Ok((codes::line_answer(code, answer)?, numbers))
}

/// Checks a proof text against a program text. The table then holds the program's rules and the store nogoods, oldest first,
/// each with 0 after them; both are 0 throughout where anything is refused.
///
/// A nogood's words are the step that added it, counted from 1, the literal count, and the literals ascending by variable. A nogood whose
/// first word is negative was deleted; [`Counts::nogoods`] counts the others. Deleted nogoods stay until a step would not fit otherwise; then
/// all that are there go, and the others close up:
///
/// ```
/// let program = b"asp 1 0 0\n1 0 1 1 0 0\n0\n";
/// let proof = b"b 2 0\nc 2 1 0\nc 2 1 0\nd -1 2 0\n";
/// let (mut table, mut store) = ([0; 5], [0; 12]);
/// aspdrupe::check_texts(program, proof, &mut table, &mut store)?;
/// // -2 of step 1; -1 and 2 of step 3, and before it that of step 2: the deletion took the older of two equal ones
/// assert_eq!(store, [1, 1, -2, -2, 2, -1, 2, 3, 2, -1, 2, 0]);
/// # Ok::<(), aspdrupe::UnknownAnswer>(())
/// ```
pub fn check_texts(program: &[u8], proof: &[u8], table: &mut [i32], store: &mut [i32]) -> Result<Verdict, UnknownAnswer> {
    let mut answer = [0; 4];
    // SAFETY: as said above.
    let code = unsafe {
        raw::aspdrupe_check_texts(
            program.as_ptr(),
            program.len(),
            proof.as_ptr(),
            proof.len(),
            table.as_mut_ptr(),
            table.len(),
            store.as_mut_ptr(),
            store.len(),
            answer.as_mut_ptr(),
            answer.len(),
        )
    };
    codes::verdict(code, answer)
}

/// Writes a packet of a version: a table that holds so many rules and a proof text, in one sequence of bytes with one form for each such
/// pair. The proof is not checked against the program. The output then begins with the packet and has 0 after it; it is 0 throughout where the
/// packet is refused. `13 + 4 * table.len() + proof.len()` bytes hold every packet. [`Version::One`] has no place for body kinds: a table with
/// a rule of body kind 1 is refused, and so is a variable above 4,095 in the table or in the text.
///
/// ```
/// use aspdrupe::{read_packet, write_packet, PacketReading, PacketWriting, Version};
///
/// let (table, proof) = ([0, 1, 0, 1, 1, -1], b"b 2 -1 0\nc 2 1 0\ns 1 2 0\na 1 0\na 0\n");
/// let mut packet = vec![0; 13 + 4 * table.len() + proof.len()];
/// for (version, bytes) in [(Version::One, 57), (Version::Two, 61)] {
///     assert_eq!(write_packet(version, &table, 1, proof, &mut packet)?, PacketWriting::Written(bytes));
///
///     let (mut table_back, mut proof_back) = ([0; 6], [0; 35]);
///     let reading = read_packet(version, &packet[..bytes], &mut table_back, &mut proof_back)?;
///     assert_eq!(reading, PacketReading::Read { rules: 1, bytes: 35 });
///     assert_eq!((table_back, &proof_back), (table, proof));
/// }
/// # Ok::<(), aspdrupe::UnknownAnswer>(())
/// ```
pub fn write_packet(
    version: Version,
    table: &[i32],
    rules: usize,
    proof: &[u8],
    packet: &mut [u8],
) -> Result<PacketWriting, UnknownAnswer> {
    let mut answer = [0; 1];
    // SAFETY: as said above.
    let code = unsafe {
        raw::aspdrupe_write_packet(
            u64::from(version.number()),
            table.as_ptr(),
            table.len(),
            rules as u64,
            proof.as_ptr(),
            proof.len(),
            packet.as_mut_ptr(),
            packet.len(),
            answer.as_mut_ptr(),
            answer.len(),
        )
    };
    codes::packet_writing(code, answer[0])
}

/// Reads a packet of a version back into a table and a proof text, which then hold the rules' words and the text, with 0 after them; both are 0
/// throughout where the packet is refused, as one of the other version is. The packet is all of the slice: zeros after it are none of it.
/// `packet.len() / 3` words hold the table of every packet.
pub fn read_packet(version: Version, packet: &[u8], table: &mut [i32], proof: &mut [u8]) -> Result<PacketReading, UnknownAnswer> {
    let mut answer = [0; 2];
    // SAFETY: as said above.
    let code = unsafe {
        raw::aspdrupe_read_packet(
            u64::from(version.number()),
            packet.as_ptr(),
            packet.len(),
            table.as_mut_ptr(),
            table.len(),
            proof.as_mut_ptr(),
            proof.len(),
            answer.as_mut_ptr(),
            answer.len(),
        )
    };
    codes::packet_reading(code, answer)
}

/// Moves a packet of [`Version::One`] to [`Version::Two`]: the output then begins with the packet of the same pair and has 0 after it; it is 0
/// throughout where the packet is refused. `packet.len() + packet.len() / 3` bytes hold every packet made. Moved down again it has its bytes
/// of before:
///
/// ```
/// use aspdrupe::{packet_down, packet_up, write_packet, PacketWriting, Version};
///
/// let (mut packet, mut moved, mut back) = ([0; 33], [0; 37], [0; 33]);
/// write_packet(Version::One, &[0, 1, 0, 1, 1, -1], 1, b"", &mut packet)?;
/// assert_eq!(packet_up(&packet, &mut moved)?, PacketWriting::Written(37));
/// assert_eq!(packet_down(&moved, &mut back)?, PacketWriting::Written(33));
/// assert_eq!(back, packet);
/// # Ok::<(), aspdrupe::UnknownAnswer>(())
/// ```
pub fn packet_up(packet: &[u8], output: &mut [u8]) -> Result<PacketWriting, UnknownAnswer> {
    let mut answer = [0; 1];
    // SAFETY: as said above.
    let code = unsafe {
        raw::aspdrupe_packet_up(packet.as_ptr(), packet.len(), output.as_mut_ptr(), output.len(), answer.as_mut_ptr(), answer.len())
    };
    codes::packet_up(code, answer[0])
}

/// Moves a packet of [`Version::Two`] to [`Version::One`], where that can hold its pair: a rule of body kind 1 or a variable above 4,095 is
/// refused with [`PacketQuestion::Old`]. The output then begins with the packet of the same pair and has 0 after it; it is 0 throughout
/// where the packet is refused. `packet.len()` bytes hold every packet made.
pub fn packet_down(packet: &[u8], output: &mut [u8]) -> Result<PacketWriting, UnknownAnswer> {
    let mut answer = [0; 1];
    // SAFETY: as said above.
    let code = unsafe {
        raw::aspdrupe_packet_down(packet.as_ptr(), packet.len(), output.as_mut_ptr(), output.len(), answer.as_mut_ptr(), answer.len())
    };
    codes::packet_down(code, answer[0])
}

/// Merges the proofs of two halves into one proof for the program itself. The program is split on one of its atoms: the first proof is for
/// the program with a constraint added that demands the atom, the second for the program with a constraint added that forbids it, and each
/// must be inconsistent when it is checked with the store. The output then begins with the merged text and has 0 after it, and table and store
/// are as [`check_texts`] leaves them for the program and that text; all three are 0 throughout where anything is refused. 65,535 bytes hold
/// every merged text. A thread needs [`MERGE_STACK`] bytes of stack.
///
/// ```
/// use aspdrupe::{check_texts, merge_halves, Merging};
///
/// // 1 where not 1
/// let program = b"asp 1 0 0\n1 0 1 1 0 1 -1\n0\n";
/// let demanded = b"b 2 -1 0\nc 2 0\nc 2 1 0\ns 1 2 0\na 0\n";
/// let forbidden = b"b 2 -1 0\nb 3 1 0\nc 3 0\nc 2 1 0\ns 1 2 0\na 0\n";
/// let (mut table, mut store, mut output) = ([0; 6], [0; 40], [0; 66]);
/// let merging = merge_halves(program, 1, demanded, forbidden, &mut table, &mut store, &mut output)?;
/// assert_eq!(merging, Merging::Merged(66));
/// assert_eq!(&output, b"b 2 -1 0\nc 2 1 0\ns 1 2 0\na 1 0\ne 3 1 0\nc 2 1 0\ns 1 2 0\na -1 0\na 0\n");
/// assert_eq!(check_texts(program, &output, &mut table, &mut store)?.to_string(), "inconsistent 1 1 9 11");
/// # Ok::<(), aspdrupe::UnknownAnswer>(())
/// ```
pub fn merge_halves(
    program: &[u8],
    atom: usize,
    first: &[u8],
    second: &[u8],
    table: &mut [i32],
    store: &mut [i32],
    output: &mut [u8],
) -> Result<Merging, UnknownAnswer> {
    let mut answer = [0; 2];
    // SAFETY: as said above.
    let code = unsafe {
        raw::aspdrupe_merge_halves(
            program.as_ptr(),
            program.len(),
            atom as u64,
            first.as_ptr(),
            first.len(),
            second.as_ptr(),
            second.len(),
            table.as_mut_ptr(),
            table.len(),
            store.as_mut_ptr(),
            store.len(),
            output.as_mut_ptr(),
            output.len(),
            answer.as_mut_ptr(),
            answer.len(),
        )
    };
    codes::merging(code, answer[0])
}

/// Leaves of a proof only what it needs. The text is the proof, all of it, and must be inconsistent when it is checked with the store. Steps
/// are tried for removal from the last to the first, and passes repeat until one removes none: without any single one of the steps that are
/// left, the proof is no longer inconsistent. The text then begins with them and has 0 after them, and table and store are as
/// [`check_texts`] leaves them for the program and what is left. Where anything is refused the text is as it was, and table and store are 0
/// throughout. A pass is a whole check for each step, and there can be as many passes as steps. A thread needs [`TRIM_STACK`] bytes of
/// stack.
///
/// ```
/// use aspdrupe::{trim_proof, Trimming};
///
/// // 1 where not 1
/// let program = b"asp 1 0 0\n1 0 1 1 0 1 -1\n0\n";
/// let mut text = *b"b 2 -1 0\nc 2 1 0\ns 1 2 0\ne 3 2 0\na 1 0\na 0\n";
/// let (mut table, mut store) = ([0; 6], [0; 40]);
/// assert_eq!(trim_proof(program, &mut text, &mut table, &mut store)?, Trimming::Trimmed(35));
/// assert_eq!(&text, b"b 2 -1 0\nc 2 1 0\ns 1 2 0\na 1 0\na 0\n\0\0\0\0\0\0\0\0");
/// # Ok::<(), aspdrupe::UnknownAnswer>(())
/// ```
pub fn trim_proof(program: &[u8], text: &mut [u8], table: &mut [i32], store: &mut [i32]) -> Result<Trimming, UnknownAnswer> {
    let mut answer = [0; 2];
    // SAFETY: as said above.
    let code = unsafe {
        raw::aspdrupe_trim_proof(
            program.as_ptr(),
            program.len(),
            text.as_mut_ptr(),
            text.len(),
            table.as_mut_ptr(),
            table.len(),
            store.as_mut_ptr(),
            store.len(),
            answer.as_mut_ptr(),
            answer.len(),
        )
    };
    codes::trimming(code, answer[0])
}

/// Certifies that a set is a cheapest answer set. The costs are literals over the program's atoms, each before its cost of 0 to 4,095: at most
/// 12 pairs, no atom twice, in any order. The set is ascending, and costs the sum of the costs whose literals it makes true, C. Where C is above
/// 0 the proof must be inconsistent when it is checked with the store for the program and one constraint more, its last rule, with a weight body:
/// the cost literals with their costs, and bound C. Where C is 0 no proof is read.
///
/// The table then holds the program's rules, and the store is as [`check_texts`] leaves it for the program with that constraint, 0 throughout
/// where C is 0; both are 0 throughout where anything is refused. A thread needs [`CHEAPEST_STACK`] bytes of stack.
///
/// ```
/// use aspdrupe::{check_cheapest, Cheapest};
///
/// // 1 or 2 or both; 1 costs 3 and 2 costs 5
/// let program = b"asp 1 0 0\n1 1 2 1 2 0 0\n1 0 0 0 2 -1 -2\n0\n";
/// let costs = [1, 3, 2, 5];
/// // for the program with `1 0 0 1 3 2 1 3 2 5`: each of 1 and 2 alone costs 3 or more
/// let proof = b"b 3 1 0\nc 3 0\nb 4 2 0\nc 4 0\nb 5 -1 -2 0\nc 5 0\na 0\n";
/// let (mut table, mut store) = ([0; 12], [0; 40]);
/// assert_eq!(check_cheapest(program, &[1], &costs, proof, &mut table, &mut store)?, Cheapest::Certified(3));
/// # Ok::<(), aspdrupe::UnknownAnswer>(())
/// ```
pub fn check_cheapest(
    program: &[u8],
    set: &[u16],
    costs: &[i16],
    proof: &[u8],
    table: &mut [i32],
    store: &mut [i32],
) -> Result<Cheapest, UnknownAnswer> {
    let mut answer = [0; 2];
    // SAFETY: as said above.
    let code = unsafe {
        raw::aspdrupe_check_cheapest(
            program.as_ptr(),
            program.len(),
            set.as_ptr(),
            set.len(),
            costs.as_ptr(),
            costs.len(),
            proof.as_ptr(),
            proof.len(),
            table.as_mut_ptr(),
            table.len(),
            store.as_mut_ptr(),
            store.len(),
            answer.as_mut_ptr(),
            answer.len(),
        )
    };
    codes::cheapest(code, answer[0])
}

/// Merges the proofs at the ends of a tree of splits into one proof for the program itself. The tree is numbers: 0 for an end; for a split its
/// atom, then the side that demands the atom, then the side that forbids it. No atom stands twice on a path, and a path has at most six splits.
/// The texts are the proofs of the ends in that order, one right after the other, and the lengths are the bytes of each. An end's proof is for
/// the program with a constraint added for each split on its path, as for [`merge_halves`], and must be inconsistent when it is checked with the
/// store. A tree of one end is a plain proof, which is written as it stands.
///
/// The output then begins with the merged text and has 0 after it, and table and store are as [`check_texts`] leaves them for the program and
/// that text; all three are 0 throughout where anything is refused. A list that is no such tree, or that the lengths do not fit, is refused with
/// [`MergeQuestion::Tree`] before any end is read. After that the first refusal that is met decides, the side that demands an atom whole before
/// the one that forbids it. Every merge is held to the whole output and store, those inside the tree too. A thread needs [`TREE_STACK`] bytes of
/// stack for the call, which is all that it has where nothing is said:
///
/// ```
/// use aspdrupe::{merge_tree, Merging, TREE_STACK};
///
/// // a choice over 1, 2 and 3, and 3 both ruled out and demanded
/// let program = b"asp 1 0 0\n1 1 3 1 2 3 0 0\n1 0 0 0 1 3\n1 0 0 0 1 -3\n0\n";
/// let end = b"b 4 3 0\nc 4 0\nb 5 -3 0\nc 5 0\na 0\n";
/// let merge = || {
///     let (mut table, mut store, mut output) = ([0; 17], [0; 64], [0; 89]);
///     // split on 1, and where 1 is forbidden on 2
///     let tree = [1, 0, 2, 0, 0];
///     let merging = merge_tree(program, &tree, &end.repeat(3), &[33; 3], &mut table, &mut store, &mut output);
///     assert_eq!(merging, Ok(Merging::Merged(89)));
///     assert!(output.ends_with(b"a 1 0\nc 4 0\nc 5 0\na 2 -1 0\nc 4 0\nc 5 0\na -2 -1 0\na -1 0\na 0\n"));
/// };
/// std::thread::Builder::new().stack_size(TREE_STACK).spawn(merge)?.join().unwrap();
/// # Ok::<(), std::io::Error>(())
/// ```
pub fn merge_tree(
    program: &[u8],
    tree: &[u16],
    texts: &[u8],
    lengths: &[u64],
    table: &mut [i32],
    store: &mut [i32],
    output: &mut [u8],
) -> Result<Merging, UnknownAnswer> {
    let mut answer = [0; 2];
    // SAFETY: as said above.
    let code = unsafe {
        raw::aspdrupe_merge_tree(
            program.as_ptr(),
            program.len(),
            tree.as_ptr(),
            tree.len(),
            texts.as_ptr(),
            texts.len(),
            lengths.as_ptr(),
            lengths.len(),
            table.as_mut_ptr(),
            table.len(),
            store.as_mut_ptr(),
            store.len(),
            output.as_mut_ptr(),
            output.len(),
            answer.as_mut_ptr(),
            answer.len(),
        )
    };
    codes::tree_merging(code, answer[0])
}
