//! Random trees of splits: programs without an answer set, splits on their atoms, and a refutation for each end.

use inputs::random::Random;
use inputs::rules::program_text;

use super::changes;
use super::halves::{any_rules, refutation};
use super::trees::lent;
use crate::reference::merge::demanding;
use crate::reference::program::{read, Program};
use crate::reference::tree::{Tree, DEEPEST};

/// How often another program is tried where an end of one is not refuted.
const TRIES: usize = 200;

/// The most ends of a tree.
const ENDS: usize = 12;

/// A tree whose ends are refuted; nothing where none is found.
pub fn tree(random: &mut Random) -> Option<Tree> {
    (0..TRIES).find_map(|_| tree_of(random))
}

/// A tree as it grows: its numbers, and the proofs of its ends.
#[derive(Default)]
struct Growing {
    numbers: Vec<u16>,
    ends: Vec<Vec<u8>>,
    /// How many in a hundred sides are split again.
    share: usize,
}

fn tree_of(random: &mut Random) -> Option<Tree> {
    let text = program_text(&any_rules(random));
    let program = read(&text, usize::MAX).ok()?;
    let mut growing = Growing { share: *random.pick(&[20, 50, 80, 95]), ..Growing::default() };
    growing.grow(&program, &[], random)?;
    Some(lent(&text, &growing.numbers, &growing.ends))
}

impl Growing {
    /// A side for the program with the constraints on its path: most often a split at the root, on an atom that is not on the path.
    fn grow(&mut self, program: &Program, path: &[i32], random: &mut Random) -> Option<()> {
        let share = if path.is_empty() { 95 } else { self.share };
        let others: Vec<i32> = (1..=program.atoms).filter(|atom| !path.contains(atom)).collect();
        let splits = path.len() < DEEPEST && self.ends.len() + path.len() < ENDS && !others.is_empty() && random.percent(share);
        if !splits {
            self.numbers.push(0);
            self.ends.push(refutation(program, random)?);
            return Some(());
        }
        let atom = *random.pick(&others);
        let path = [path, &[atom]].concat();
        self.numbers.push(atom as u16);
        self.grow(&demanding(program, atom), &path, random)?;
        self.grow(&demanding(program, -atom), &path, random)
    }
}

/// The tree with other numbers or lengths, or with one of its texts changed.
pub fn damaged(tree: &Tree, random: &mut Random) -> Tree {
    let mut other = tree.clone();
    match random.below(12) {
        0..=3 => damage_numbers(&mut other.numbers, random),
        4..=6 => damage_lengths(&mut other.lengths, random),
        7 => other.texts = changes::changed(&tree.texts, random),
        8 => other.program = changes::changed(&tree.program, random),
        _ => change_end(&mut other, random),
    }
    other
}

/// A number more, less or another one, two exchanged, a side in another place, or none at all.
fn damage_numbers(numbers: &mut Vec<u16>, random: &mut Random) {
    let place = random.below(numbers.len());
    let number = *random.pick(&[0, 0, 1, 1, 2, 3, 5, 8_191, 65_535]);
    match random.below(8) {
        0 => numbers.push(number),
        1 => numbers.truncate(place),
        2 => numbers.insert(place, number),
        3 => drop(numbers.drain(place..place + 1)),
        4 => numbers.rotate_left(place),
        5 => {
            let other = random.below(numbers.len());
            numbers.swap(place, other);
        }
        _ => numbers[place] = number,
    }
}

/// A length more, less or another one, with the sum as it was or not, and one that comes round.
fn damage_lengths(lengths: &mut Vec<u64>, random: &mut Random) {
    let (place, other) = (random.below(lengths.len()), random.below(lengths.len()));
    let by = *random.pick(&[1, 1, 2, 9, 1 << 32, 1 << 63]);
    match random.below(8) {
        0 => lengths.push(*random.pick(&[0, 1])),
        1 => lengths.truncate(lengths.len() - 1),
        2 => lengths.insert(place, 0),
        3 => lengths[place] = lengths[place].wrapping_add(by),
        4 => lengths[place] = lengths[place].wrapping_sub(by),
        5 => lengths.swap(place, other),
        _ => {
            lengths[place] = lengths[place].wrapping_add(by);
            lengths[other] = lengths[other].wrapping_sub(by);
        }
    }
}

/// One of the ends changed, with its length.
fn change_end(tree: &mut Tree, random: &mut Random) {
    let place = random.below(tree.lengths.len());
    let from = tree.lengths[..place].iter().sum::<u64>() as usize;
    let to = from + tree.lengths[place] as usize;
    let end = match random.below(3) {
        0 => [&tree.texts[from..to], *random.pick(&[&b"d 0\n"[..], b"x", b"a 0\nd 0\n", b"a 1 0\n"])].concat(),
        _ => changes::changed(&tree.texts[from..to], random),
    };
    tree.lengths[place] = end.len() as u64;
    tree.texts.splice(from..to, end);
}

#[cfg(test)]
mod tests {
    use super::*;
    use crate::cases::merges::PLENTY;
    use crate::reference::merge::Answer;
    use crate::reference::tree::{merge_tree, shape_of};

    /// Trees of every depth are met, and all are merged.
    #[test]
    fn trees_are_merged() {
        let mut ends = [0; ENDS + DEEPEST + 1];
        for index in 0..60 {
            let tree = tree(&mut Random::of(1, "trees", index)).expect("some program has no answer set");
            let answer = merge_tree(&tree, PLENTY).answer;
            assert!(matches!(answer, Answer::Merged(_)), "{index}: {answer:?}");
            ends[tree.lengths.len()] += 1;
            assert_eq!(shape_of(&tree.numbers, 8_191).map(|shape| shape.ends()), Some(tree.lengths.len()));
        }
        assert!(ends[1] > 0 && ends[2] > 2 && ends[3..6].iter().sum::<usize>() > 5 && ends[6..].iter().sum::<usize>() > 5, "{ends:?}");
    }

    #[test]
    fn damage_is_met() {
        let mut seen = [0; 3];
        for index in 0..80 {
            let mut random = Random::of(1, "damage", index);
            let tree = tree(&mut random).expect("some program has no answer set");
            match merge_tree(&damaged(&tree, &mut random), PLENTY).answer {
                Answer::Refused(64) => seen[0] += 1,
                Answer::Merged(_) => seen[1] += 1,
                _ => seen[2] += 1,
            }
        }
        assert!(seen.iter().all(|count| *count > 5), "{seen:?}");
    }
}
