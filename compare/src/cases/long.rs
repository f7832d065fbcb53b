//! Proofs beyond the limit of a text, and proofs whose nogoods take many words.

use inputs::lines::line_of;
use inputs::random::Random;
use inputs::rules::{choice, normal, program_text};
use inputs::Pair;

/// The proof behind deletions of the empty nogood, which take nothing away, of so many bytes; of some more where that is no multiple of four.
pub fn behind(bytes: usize, proof: &[u8]) -> Vec<u8> {
    [&b"d 0\n".repeat(bytes.div_ceil(4)), proof].concat()
}

/// The words of the nogoods of the inputs.
const WORDS: [usize; 6] = [14_000, 18_000, 40_000, 66_000, 80_000, 120_000];

pub const COUNT: usize = 2 * WORDS.len();

/// The atoms that the definitions begin with, and the largest variable.
const ATOMS: i32 = 30;
const LARGEST: i32 = 8_191;

/// Definitions over atoms and earlier names, and between them additions that follow from one nogood or from two, nogoods once more, and
/// deletions; at the end a contradiction, or for some an addition that does not follow. Of every second input the definitions are long.
pub fn filled(index: usize, random: &mut Random) -> Pair {
    let (words, long) = (WORDS[index / 2], index % 2 == 1);
    let mut author = Filler { lines: Vec::new(), live: Vec::new(), words: 0, next: ATOMS + 2 };
    author.write(b'b', &[ATOMS + 1, -1], true);
    author.write(b'c', &[ATOMS + 1, 1], true);
    author.write(b's', &[1, ATOMS + 1], true);
    // Additions are dear to the reference, so that there are few of those that it has to search for.
    let most = if long { 12 } else { 5 };
    while author.words < words && author.next <= LARGEST {
        let length = random.between(1, most) as usize;
        let literals = random.literals(length, author.next - 1);
        let numbers: Vec<i32> = [author.next].into_iter().chain(literals).collect();
        author.next += 1;
        author.write(b'e', &numbers, true);
        match random.below(100) {
            0..=3 => author.add(random),
            4..=35 => author.delete(random),
            _ => {}
        }
    }
    for _ in 0..20 {
        author.add(random);
        author.delete(random);
    }
    if random.percent(15) {
        author.lines.push(line_of(b'a', &[ATOMS]));
    }
    // The completion's nogoods were never deleted.
    author.lines.extend([line_of(b'a', &[1]), line_of(b'a', &[])]);
    let others: Vec<i32> = (2..=ATOMS).collect();
    Pair::of(program_text(&[normal(1, &[-1]), choice(&others, &[])]), author.lines.concat())
}

/// A proof that is being written, with the live nogoods that may be deleted.
struct Filler {
    lines: Vec<String>,
    live: Vec<Vec<i32>>,
    words: usize,
    next: i32,
}

impl Filler {
    /// A line that is accepted, and the nogoods that it adds.
    fn write(&mut self, letter: u8, numbers: &[i32], kept: bool) {
        self.lines.push(line_of(letter, numbers));
        let name = numbers[0];
        let nogoods: Vec<Vec<i32>> = match letter {
            b'e' => {
                let whole = numbers[1..].iter().copied().chain([-name]).collect();
                std::iter::once(whole).chain(numbers[1..].iter().map(|literal| vec![name, -literal])).collect()
            }
            b'a' => vec![numbers.to_vec()],
            _ => Vec::new(),
        };
        self.words += nogoods.iter().map(|nogood| 2 + nogood.len()).sum::<usize>();
        if kept {
            self.live.extend(nogoods);
        }
    }

    /// An addition: a nogood once more, one with more literals, or what follows from two nogoods with a literal and its complement.
    fn add(&mut self, random: &mut Random) {
        let one = random.pick(&self.live).clone();
        let mut numbers = match random.below(3) {
            0 => one,
            1 => wider(one, random.literals(4, self.next - 1)),
            _ => self.resolvent(&one, random).unwrap_or(one),
        };
        numbers.truncate(65);
        random.shuffle(&mut numbers);
        self.write(b'a', &numbers, true);
    }

    fn resolvent(&self, one: &[i32], random: &mut Random) -> Option<Vec<i32>> {
        let pivot = *random.pick(one);
        let others: Vec<&[i32]> = self.live.iter().map(Vec::as_slice).filter(|other| other.contains(&-pivot)).collect();
        if others.is_empty() {
            return None;
        }
        let rest = |nogood: &[i32], without: i32| nogood.iter().copied().filter(|literal| *literal != without).collect::<Vec<i32>>();
        let (first, second) = (rest(one, pivot), rest(others[random.below(others.len())], -pivot));
        let clash = second.iter().any(|literal| first.contains(&-literal));
        (!clash).then(|| wider(first, second)).filter(|numbers| numbers.len() <= 65)
    }

    /// The deletion of a live nogood, the oldest or any, now and then once more, or of one that is not there.
    fn delete(&mut self, random: &mut Random) {
        let place = if random.percent(30) { random.below(20) } else { random.below(self.live.len()) };
        let mut nogood = self.live.remove(place.min(self.live.len() - 1));
        random.shuffle(&mut nogood);
        self.lines.push(line_of(b'd', &nogood));
        if random.percent(20) {
            // Where an equal one is live, that goes too.
            self.live.retain(|other| !same(other, &nogood));
            self.lines.push(line_of(b'd', &nogood));
        }
    }
}

fn same(one: &[i32], other: &[i32]) -> bool {
    one.len() == other.len() && one.iter().all(|literal| other.contains(literal))
}

/// The nogood with the literals of other variables.
fn wider(nogood: Vec<i32>, others: Vec<i32>) -> Vec<i32> {
    let mut numbers = nogood;
    for other in others {
        if !numbers.iter().any(|literal| literal.abs() == other.abs()) {
            numbers.push(other);
        }
    }
    numbers
}

#[cfg(test)]
mod tests {
    use super::*;
    use crate::reference::check::{check_long, Verdict};

    #[test]
    fn bytes_before_a_proof() {
        assert_eq!(behind(0, b"a 0\n"), b"a 0\n");
        assert_eq!(behind(5, b"a 0\n"), b"d 0\nd 0\na 0\n");
    }

    #[test]
    fn most_come_to_their_end() {
        let mut inconsistent = 0;
        for index in 0..4 {
            let pair = filled(index, &mut Random::of(1, "filled", index as u64));
            let ending = check_long(&pair.program, &pair.proof, 100, 1_000_000);
            assert!(!matches!(ending.verdict, Verdict::RefusedProgram { .. } | Verdict::Open(_)), "{:?}", ending.verdict);
            let counted = matches!(ending.verdict, Verdict::RefusedProof { number: 33, .. } | Verdict::Inconsistent(_));
            assert!(counted, "{:?}", ending.verdict);
            inconsistent += usize::from(matches!(ending.verdict, Verdict::Inconsistent(_)));
        }
        assert!(inconsistent > 0);
    }
}
