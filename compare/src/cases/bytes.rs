//! A rule and a step with each of their bytes replaced by each value, so that every byte value stands in every place of a line.

use inputs::Pair;

use super::fixed::{program, proof, PROOF_1, RULE_1};

/// The bytes of line 1 of a program.
const HEADER: usize = 10;

/// Starred example 1 with one byte of its rule `1 0 1 1 0 1 -1`, or of its first step `b 2 -1 0`, replaced by the value: a pair for each
/// place in the two lines, their newlines too.
pub fn pairs(value: u8) -> Vec<Pair> {
    let (program, proof) = (program(RULE_1), proof(PROOF_1));
    let rule = HEADER..=HEADER + RULE_1[0].len();
    let step = 0..=PROOF_1[0].len();
    let programs = rule.map(|place| Pair::of(replaced(&program, place, value), &proof));
    let proofs = step.map(|place| Pair::of(&program, replaced(&proof, place, value)));
    programs.chain(proofs).collect()
}

fn replaced(text: &[u8], place: usize, value: u8) -> Vec<u8> {
    let mut text = text.to_vec();
    text[place] = value;
    text
}

#[cfg(test)]
mod tests {
    use super::*;

    #[test]
    fn a_pair_for_each_place() {
        let pairs = pairs(b'#');
        assert_eq!(pairs.len(), 15 + 9);
        assert_eq!(pairs[0].program, b"asp 1 0 0\n# 0 1 1 0 1 -1\n0\n");
        assert_eq!(pairs[14].program, b"asp 1 0 0\n1 0 1 1 0 1 -1#0\n");
        assert!(pairs[15].proof.starts_with(b"# 2 -1 0\nc 2 1 0\n"));
        assert!(pairs[23].proof.starts_with(b"b 2 -1 0#c 2 1 0\n"));
    }
}
