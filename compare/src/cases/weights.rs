//! Lines of rules with weight bodies: of every count of literals that matters, and damaged.

use inputs::programs::literals;
use inputs::random::Random;
use inputs::rules::{rule_row, weighted, Rule};
use inputs::{joined, Pair};

/// Numbers that matter to a count, a bound, a weight, a literal or a kind.
const NOTABLE: [i32; 20] = [-8_192, -8_191, -4_096, -4_095, -12, -1, 0, 1, 2, 3, 11, 12, 13, 64, 65, 4_094, 4_095, 4_096, 8_191, 8_192];

/// A program of a few such lines and a short proof.
pub fn pair(random: &mut Random) -> Pair {
    let mut text = String::from("asp 1 0 0\n");
    for _ in 0..random.between(1, 3) {
        let mut row = rule_row(&rule(random));
        if random.percent(60) {
            damage(&mut row, random);
        }
        text.push_str(&joined(&row));
        text.push('\n');
    }
    text.push_str("0\n");
    Pair::of(text, *random.pick(&["", "l 1 0\n", "s 1 0\n", "b 70 1 0\n", "b 70 0\nl 1 0\n"]))
}

/// A rule with weights, which may have more literals or heads than it should.
fn rule(random: &mut Random) -> Rule {
    let count = match random.below(10) {
        0 => *random.pick(&[11, 12, 12, 13, 14]),
        1 => *random.pick(&[63, 64, 65, 66]),
        _ => random.below(6),
    };
    let atoms = if count > 5 { 66 } else { 7 };
    let largest = *random.pick(&[1, 4, 4_095]);
    let pairs: Vec<(i32, i32)> = literals(random, count, atoms, 40).into_iter().map(|atom| (atom, random.between(0, largest))).collect();
    let sum: i32 = pairs.iter().map(|(_, weight)| weight).sum();
    let bound = (*random.pick(&[0, 1, sum / 2, sum, sum + 1])).min(4_095);
    let choice = random.percent(30);
    let heads = if choice { random.between(1, 3) } else { *random.pick(&[0, 0, 0, 1, 1, 1, 2]) } as usize;
    Rule { choice, ..weighted(&random.different(heads, 7), bound, &pairs) }
}

/// Changes a number, puts one in or takes one out, swaps two, or cuts the line, once or twice.
fn damage(row: &mut Vec<i32>, random: &mut Random) {
    for _ in 0..random.between(1, 2) {
        let place = random.below(row.len() + 1);
        match random.below(8) {
            0 => row.insert(place, *random.pick(&NOTABLE)),
            1 if place + 1 < row.len() => row.swap(place, place + 1),
            2 => row.truncate(place),
            3 if place < row.len() => {
                row.remove(place);
            }
            4 if place < row.len() => row[place] = -row[place],
            5 if place < row.len() => row[place] += *random.pick(&[-1, 1]),
            _ if place < row.len() => row[place] = *random.pick(&NOTABLE),
            _ => row.push(*random.pick(&NOTABLE)),
        }
    }
}

#[cfg(test)]
mod tests {
    use super::*;
    use crate::reference::program::read;

    #[test]
    fn every_answer_is_met() {
        let mut seen = [0; 56];
        for index in 0..4_000 {
            let pair = pair(&mut Random::of(1, "weight lines", index));
            let answer = read(&pair.program, 40).map_or_else(|(number, _)| number, |_| 0);
            seen[usize::from(answer)] += 1;
        }
        for number in [0, 4, 5, 6, 7, 8, 10, 54, 55] {
            assert!(seen[number] > 20, "{number} was seen {} times", seen[number]);
        }
    }
}
