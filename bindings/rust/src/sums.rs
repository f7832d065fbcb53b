//! The splitting of long sums, with buffers that are lent and with buffers of its own.

use crate::answers::Splitting;
use crate::questions::UnknownAnswer;
use crate::{codes, raw};

/// The most bytes of a program text. As many words hold every table: no rule has more words than bytes.
const TEXT_LIMIT: usize = 65_535;

/// Writes a program with its long sums split into short ones. A sum may have 64 literals; one of more than 12 is added
/// up in groups of so many literals, 2 to 12, those of like weight together, with new atoms above those of the program.
/// All other rules are written as they are read. What is written has the answer sets of the program: each of its answer
/// sets has, up to [`Splitting::Split::old_atoms`], the atoms of one of the program, and each of the program is found
/// so. So an 'inconsistent' for what is written is one for the program.
///
/// The output then begins with the text and has 0 after it, and the table holds the rules of the program as written, as
/// [`read_program`] would leave them; both are 0 throughout where anything is refused. 65,535 bytes hold every text
/// that is written.
///
/// [`read_program`]: crate::read_program
///
/// ```
/// use aspdrupe::{split_sums, Splitting};
///
/// // not all of 1 to 13
/// let program = b"asp 1 0 0\n1 0 0 1 13 13 1 1 2 1 3 1 4 1 5 1 6 1 7 1 8 1 9 1 10 1 11 1 12 1 13 1\n0\n";
/// let (mut table, mut output) = ([0; 31], [0; 130]);
/// let splitting = split_sums(program, 7, &mut table, &mut output)?;
/// assert_eq!(splitting, Splitting::Split { bytes: 130, atoms: 16, rules: 4, old_atoms: 13 });
/// // 14 where all of 1 to 7 hold, 15 where all of 8 to 13 do, 16 where both do
/// assert!(output.starts_with(b"asp 1 0 0\n1 0 1 14 1 7 7 1 1 2 1 3 1 4 1 5 1 6 1 7 1\n1 0 1 15 1 6 6 8 1 9 1 10 1"));
/// assert!(output.ends_with(b"13 1\n1 0 1 16 0 2 14 15\n1 0 0 0 1 16\n0\n"));
/// # Ok::<(), aspdrupe::UnknownAnswer>(())
/// ```
pub fn split_sums(program: &[u8], group: usize, table: &mut [i32], output: &mut [u8]) -> Result<Splitting, UnknownAnswer> {
    let mut answer = [0; 4];
    // SAFETY: as said of the calls in lib.rs.
    let code = unsafe {
        raw::aspdrupe_split_sums(
            program.as_ptr(),
            program.len(),
            group as u64,
            table.as_mut_ptr(),
            table.len(),
            output.as_mut_ptr(),
            output.len(),
            answer.as_mut_ptr(),
            answer.len(),
        )
    };
    codes::splitting(code, answer)
}

/// The same with a table and an output that are as long as any program needs, and the text that is written; it is empty
/// where anything is refused. So 10 is refused of no program.
///
/// ```
/// use aspdrupe::{split_program, Splitting};
///
/// let program = b"asp 1 0 0\n1 1 2 2 1 0 0\n0\n";
/// let (splitting, text) = split_program(program, 6)?;
/// assert_eq!(splitting, Splitting::Split { bytes: 26, atoms: 2, rules: 1, old_atoms: 2 });
/// assert_eq!(text, b"asp 1 0 0\n1 1 2 1 2 0 0\n0\n");
/// # Ok::<(), aspdrupe::UnknownAnswer>(())
/// ```
pub fn split_program(program: &[u8], group: usize) -> Result<(Splitting, Vec<u8>), UnknownAnswer> {
    let mut table = vec![0; program.len().min(TEXT_LIMIT)];
    let mut output = vec![0; TEXT_LIMIT];
    let splitting = split_sums(program, group, &mut table, &mut output)?;
    let written = if let Splitting::Split { bytes, .. } = splitting { bytes } else { 0 };
    output.truncate(written);
    Ok((splitting, output))
}
