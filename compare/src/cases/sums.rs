//! Programs with long sums: cases with the answer or the text that they must lead to, cases at the limits, and random
//! programs of which all answer sets can be found by trying.

use std::sync::OnceLock;

use inputs::programs::literals;
use inputs::random::Random;
use inputs::rules::{choice, constraint, normal, program_text, rule_line, Body, Rule};

use super::limits::program_of_length;
use super::merges::refused_texts;
use crate::reference::sums::Answer::{self, Refused, RefusedProgram, Split};
use crate::reference::sums::{split_sums, Rooms};
use crate::reference::TEXT_LIMIT;

/// Words and bytes that are enough for every case.
pub const PLENTY: Rooms = Rooms { table: 100_000, output: 70_000 };

/// A program text, the group size, what is lent, the answer, and where it is listed, the text that is written.
pub struct Case {
    pub name: String,
    pub text: Vec<u8>,
    pub group: usize,
    pub rooms: Rooms,
    pub answer: Answer,
    pub written: Option<Vec<u8>>,
}

/// All cases, made once.
pub fn cases() -> &'static [Case] {
    static CASES: OnceLock<Vec<Case>> = OnceLock::new();
    CASES.get_or_init(all_cases)
}

fn all_cases() -> Vec<Case> {
    let mut cases = worked();
    cases.extend(group_sizes());
    cases.extend(refused_programs());
    cases.extend(counts());
    cases.extend(at_the_limits());
    cases.extend(text_limits());
    cases
}

fn case(name: impl Into<String>, text: impl AsRef<[u8]>, group: usize, answer: Answer) -> Case {
    Case { name: name.into(), text: text.as_ref().to_vec(), group, rooms: PLENTY, answer, written: None }
}

/// Literals of one weight after their count: `3 1 5 2 5 3 5`.
fn units(atoms: std::ops::RangeInclusive<i32>, weight: i32) -> String {
    let count = atoms.clone().count();
    let pairs: String = atoms.map(|atom| format!(" {atom} {weight}")).collect();
    format!("{count}{pairs}")
}

fn text(lines: &[&str]) -> String {
    let lines: String = lines.iter().map(|line| format!("{line}\n")).collect();
    format!("asp 1 0 0\n{lines}0\n")
}

/// A case of which the text is listed, with its atoms, its rules and N.
fn written(name: &str, lines: &[&str], group: usize, split: &[&str], atoms: usize, old_atoms: usize) -> Case {
    let split_text = text(split);
    let answer = Split { bytes: split_text.len(), atoms, rules: split.len(), old_atoms };
    Case { written: Some(split_text.into_bytes()), ..case(name, text(lines), group, answer) }
}

/// Worked by hand.
fn worked() -> Vec<Case> {
    let (first, second) = (units(1..=7, 1), units(8..=13, 1));
    let thirteen = |front: &str, bound: i32| format!("{front} 1 {bound} {}", units(1..=13, 1));
    let of = |atom: i32, bound: i32, group: &str| format!("1 0 1 {atom} 1 {bound} {group}");
    let twelve = [of(21, 6, &first), of(22, 7, &first), of(23, 5, &second), of(24, 6, &second)];
    let twelve: Vec<&str> = twelve.iter().map(String::as_str).collect();
    let halves = ["1 0 1 25 0 2 21 24", "1 0 1 25 0 2 22 23", "1 1 2 14 20 0 1 25"];
    let scaled = format!("1 0 0 1 8190 {}", units(1..=13, 4_095)).replace("8190", "4095");
    let any = (1..=2).map(|place| {
        let (atoms, atom) = if place == 1 { (1..=7, 14) } else { (8..=13, 15) };
        format!("1 0 1 {atom} 1 4095 {}", units(atoms, 4_095))
    });
    let any: Vec<String> = any.collect();
    vec![
        written("no rules", &[], 7, &[], 0, 0),
        written(
            "no long sum, any order",
            &["1 1 2 5 3 0 2 4 -2", "1 0 0 1 3 2 9 1 -2 2"],
            2,
            &["1 1 2 3 5 0 2 -2 4", "1 0 0 1 3 2 -2 2 9 1"],
            9,
            9,
        ),
        written("twelve literals", &[&format!("1 0 0 1 6 {}", units(1..=12, 1))], 2, &[&format!("1 0 0 1 6 {}", units(1..=12, 1))], 12, 12),
        written(
            "all of thirteen",
            &[&thirteen("1 0 0", 13)],
            7,
            &[&of(14, 7, &first), &of(15, 6, &second), "1 0 1 16 0 2 14 15", "1 0 0 0 1 16"],
            16,
            13,
        ),
        written("twelve of thirteen", &[&thirteen("1 1 2 20 14", 12)], 7, &[&twelve[..], &halves].concat(), 25, 20),
        written("a bound of 0", &[&thirteen("1 0 1 3", 0)], 12, &["1 0 1 14 0 0", "1 0 1 3 0 1 14"], 14, 13),
        written("a bound that is not reached", &[&thirteen("1 0 1 3", 14)], 12, &["1 0 1 3 0 1 14"], 14, 13),
        written("one is enough", &[&scaled], 7, &[&any[0], &any[1], "1 0 1 16 0 1 15", "1 0 1 16 0 1 14", "1 0 0 0 1 16"], 16, 13),
    ]
}

/// Question 65.
fn group_sizes() -> Vec<Case> {
    let program = text(&["1 1 1 1 0 0"]);
    let good = Split { bytes: program.len(), atoms: 1, rules: 1, old_atoms: 1 };
    let sizes = [(0, false), (1, false), (2, true), (12, true), (13, false), (255, false), (258, false), (65_538, false)];
    let large = [((1 << 32) + 2, false), (usize::MAX, false)];
    let sized = |(group, is_good)| case(format!("groups of {group}"), &program, group, if is_good { good } else { Refused(65) });
    sizes.into_iter().chain(large).map(sized).collect()
}

/// Every refusal of a program, also where the group size is none and nothing is lent for the output. 55 is never given:
/// more than 64 literals are 6.
fn refused_programs() -> Vec<Case> {
    let mut texts: Vec<(u8, usize, Vec<u8>)> = refused_texts().into_iter().filter(|(number, ..)| *number != 55).collect();
    texts.push((6, 2, text(&[&format!("1 0 0 1 6 {}", units(1..=65, 1))]).into_bytes()));
    texts.push((54, 3, text(&["1 1 1 1 0 0", &format!("1 0 0 1 6 {}", units(1..=64, 4_096))]).into_bytes()));
    texts.push((8, 2, text(&[&format!("1 0 0 1 6 {}", units(1..=64, 1).replace(" 64 ", " -1 "))]).into_bytes()));
    let refused = |(number, line, text): (u8, usize, Vec<u8>)| {
        let answer = RefusedProgram { number, line };
        let lent = Rooms { output: 0, ..PLENTY };
        [
            case(format!("program {number}"), &text, 7, answer),
            Case { rooms: lent, ..case(format!("program {number}, and more"), &text, 1, answer) },
        ]
    };
    let mut cases: Vec<Case> = texts.into_iter().flat_map(refused).collect();
    let words = 5 + 2 * 13;
    let short = text(&[&format!("1 0 0 1 6 {}", units(1..=13, 1))]);
    let answer = RefusedProgram { number: 10, line: 2 };
    cases.push(Case { rooms: Rooms { table: words - 1, ..PLENTY }, ..case("a table that is too short", short, 13, answer) });
    cases
}

/// The four lines of all of the atoms 1 to 13, in groups of 7, with new atoms from one on.
fn all_of_thirteen(new: i32) -> Vec<String> {
    vec![
        format!("1 0 1 {new} 1 7 {}", units(1..=7, 1)),
        format!("1 0 1 {} 1 6 {}", new + 1, units(8..=13, 1)),
        format!("1 0 1 {} 0 2 {new} {}", new + 2, new + 1),
        format!("1 0 0 0 1 {}", new + 2),
    ]
}

/// Rules that are none and a sum that takes four, and a sum that takes three new atoms above N.
fn counts() -> Vec<Case> {
    let sum = format!("1 0 0 1 13 {}", units(1..=13, 1));
    let with_sum = |front: &[&str]| text(&[front, &[&sum[..]]].concat());
    let listed = |name: &str, front: &[&str], new: i32| {
        let lines = all_of_thirteen(new);
        let split: Vec<&str> = front.iter().copied().chain(lines.iter().map(String::as_str)).collect();
        let Case { answer, written, .. } = written(name, &[], 7, &split, new as usize + 2, new as usize - 1);
        Case { written, ..case(name, with_sum(front), 7, answer) }
    };
    vec![
        listed("1,024 rules", &["1 0 0 0 0"; 1_020], 14),
        case("1,025 rules", with_sum(&["1 0 0 0 0"; 1_021]), 7, Refused(66)),
        listed("atom 8,191", &["1 0 1 8188 0 0"], 8_189),
        case("atom 8,192", with_sum(&["1 0 1 8189 0 0"]), 7, Refused(66)),
        written("atom 8,191 without long sums", &["1 0 1 8191 0 0"], 7, &["1 0 1 8191 0 0"], 8_191, 8_191),
    ]
}

/// The lines of 64 literals of one weight, of which all are needed or one is enough: each group has one level, and each
/// node joins it to what stands before it.
fn by_groups(group: usize, weight: i32, bound: i32, all: bool) -> Vec<String> {
    let mut lines = Vec::new();
    let (mut next, mut before) = (65, None);
    let level = |literals: usize| if all { literals as i32 * weight } else { bound };
    for start in (0..64).step_by(group) {
        let end = (start + group).min(64);
        let own = next;
        lines.push(format!("1 0 1 {own} 1 {} {}", level(end - start), units(start as i32 + 1..=end as i32, weight)));
        next += 1;
        if let Some(left) = before {
            if all {
                lines.push(format!("1 0 1 {next} 0 2 {left} {own}"));
            } else {
                lines.extend([own, left].map(|side| format!("1 0 1 {next} 0 1 {side}")));
            }
            next += 1;
        }
        before = Some(next - 1);
    }
    lines.push(format!("1 0 0 0 1 {}", next - 1));
    lines
}

/// Sums of 64 literals with the largest weights and bounds, and many levels. What powers of two come to is taken from the
/// reference; all others are worked out by hand. Half of 64 literals are 829 rules in groups of 12, which is not listed.
fn at_the_limits() -> Vec<Case> {
    let mut cases = Vec::new();
    for group in [2, 6, 12] {
        let groups = 64_usize.div_ceil(group);
        for (bound, weight, lines) in [
            (4_095, 4_095, by_groups(group, 4_095, 4_095, false)),
            (1, 1, by_groups(group, 1, 1, false)),
            (4_095, 64, by_groups(group, 64, 4_095, true)),
            (64, 1, by_groups(group, 1, 64, true)),
            (4_095, 0, vec![String::from("1 0 0 0 1 65")]),
            (0, 0, vec![String::from("1 0 1 65 0 0"), String::from("1 0 0 0 1 65")]),
        ] {
            let name = format!("64 literals of weight {weight}, bound {bound}, groups of {group}");
            let split: Vec<&str> = lines.iter().map(String::as_str).collect();
            let atoms = if weight == 0 { 65 } else { 64 + 2 * groups - 1 };
            cases.push(written(&name, &[&format!("1 0 0 1 {bound} {}", units(1..=64, weight))], group, &split, atoms, 64));
        }
        if group < 12 {
            let half = text(&[&format!("1 0 0 1 32 {}", units(1..=64, 1))]);
            cases.push(case(format!("half of 64 literals, groups of {group}"), half, group, Refused(66)));
        }
        let weighed = |weight: fn(i32) -> i32| -> String {
            let pairs: String = (1..=64).map(|atom| format!(" {atom} {}", weight(atom))).collect();
            text(&[&format!("1 0 0 1 4095 64{pairs}")])
        };
        let powers = weighed(|atom| 1 << (atom % 12));
        let answer = split_sums(powers.as_bytes(), group, PLENTY).answer;
        cases.push(case(format!("powers of two, groups of {group}"), powers, group, answer));
        cases.push(case(format!("weights that all differ, groups of {group}"), weighed(|atom| atom * 997 % 1_009), group, Refused(66)));
    }
    cases.extend(made_slow());
    cases
}

/// Sums of 64 literals with many different sums and few levels: the bound is not reached, or by the heaviest alone.
fn made_slow() -> Vec<Case> {
    let sum = |bound: i32, heavy: &[i32]| -> String {
        let light = 64 - heavy.len() as i32;
        let weights = (1..=light).chain(heavy.iter().copied());
        let pairs: String = (1..=64).zip(weights).map(|(atom, weight)| format!(" {atom} {weight}")).collect();
        format!("1 0 0 1 {bound} 64{pairs}")
    };
    let group_of_last = |level: i32, heavy: [i32; 2]| format!("1 0 1 65 1 {level} 2 63 {} 64 {}", heavy[0], heavy[1]);
    let last = ["1 0 1 66 0 1 65", "1 0 0 0 1 66"];
    vec![
        written("a bound above all weights", &[&sum(2_081, &[])], 2, &["1 0 0 0 1 65"], 65, 64),
        written("one heavy literal", &[&sum(4_095, &[4_095])], 2, &[&group_of_last(4_095, [63, 4_095])[..], last[0], last[1]], 66, 64),
        written("two heavy literals", &[&sum(4_095, &[2_048; 2])], 2, &[&group_of_last(4_095, [2_048; 2])[..], last[0], last[1]], 66, 64),
    ]
}

/// A program with a long sum whose split text has just so many bytes.
fn splitting_into(bytes: usize) -> Vec<u8> {
    let sum = rule_line(&Rule {
        choice: false,
        heads: Vec::new(),
        body: Body::Weights { bound: 13, pairs: (1..=13).map(|atom| (atom, 1)).collect() },
    });
    let with_sum = |length| {
        let mut program = program_of_length(length);
        program.truncate(length - 2);
        [&program[..], sum.as_bytes(), b"0\n"].concat()
    };
    let lines: usize = all_of_thirteen(1_064).iter().map(|line| line.len() + 1).sum();
    with_sum(bytes - lines)
}

/// How many lines there are between the first and the last.
fn rule_count(text: &[u8]) -> usize {
    text.iter().filter(|byte| **byte == b'\n').count() - 2
}

/// "a text over 65,535 bytes or the lent output"
fn text_limits() -> Vec<Case> {
    let full = splitting_into(TEXT_LIMIT);
    let lent = |output| Rooms { output, ..PLENTY };
    let answer = Split { bytes: TEXT_LIMIT, atoms: 1_066, rules: rule_count(&full) + 3, old_atoms: 1_063 };
    let plain = program_of_length(TEXT_LIMIT);
    let plain_answer = Split { bytes: TEXT_LIMIT, atoms: 1_063, rules: rule_count(&plain), old_atoms: 1_063 };
    vec![
        Case { rooms: lent(TEXT_LIMIT), ..case("65,535 bytes", &full, 7, answer) },
        Case { rooms: lent(TEXT_LIMIT - 1), ..case("65,535 bytes and a byte less", &full, 7, Refused(66)) },
        case("65,536 bytes", splitting_into(TEXT_LIMIT + 1), 7, Refused(66)),
        Case { rooms: lent(TEXT_LIMIT), ..case("65,535 bytes without long sums", &plain, 7, plain_answer) },
        Case { rooms: lent(TEXT_LIMIT - 1), ..case("65,535 bytes without long sums and a byte less", &plain, 7, Refused(66)) },
    ]
}

/// A random program of 13 to 20 atoms: atoms that are chosen, facts, a few short rules, and sums of 13 literals or more.
/// Where there are more than 16, rules are given for 12 or 13 of them alone, and of the others some are facts: then there
/// are few sets to try.
pub fn random_rules(random: &mut Random) -> Vec<Rule> {
    let wide = random.percent(40);
    let atoms = if wide { random.between(17, 20) } else { random.between(13, 16) };
    let named = random.different(atoms as usize, atoms);
    let (open, closed) = named.split_at(if wide { random.between(12, 13) as usize } else { named.len() });
    let mut rules = vec![choice(&open[..random.between(open.len() as i32 / 2, open.len() as i32) as usize], &[])];
    rules.extend(closed.iter().filter(|_| random.percent(50)).map(|atom| normal(*atom, &[])));
    for _ in 0..random.below(3) {
        rules.push(normal(*random.pick(open), &[]));
    }
    for _ in 0..random.below(5) {
        let length = random.between(1, 3) as usize;
        let body = random.literals(length, atoms);
        rules.push(if random.percent(50) { constraint(&body) } else { normal(*random.pick(open), &body) });
    }
    for _ in 0..random.between(1, 3) {
        rules.push(long_rule(random, open, atoms));
    }
    random.shuffle(&mut rules);
    rules
}

/// A rule with a long sum: a constraint, a rule of one head or a choice, mostly of atoms that stand in the sum.
fn long_rule(random: &mut Random, open: &[i32], atoms: i32) -> Rule {
    let (choice, heads) = match random.below(10) {
        0..=3 => (false, Vec::new()),
        4..=7 => (false, vec![*random.pick(open)]),
        _ => {
            let places = random.different(2, open.len() as i32);
            (true, places.into_iter().map(|place| open[place as usize - 1]).collect())
        }
    };
    Rule { choice, heads, body: long_body(random, atoms) }
}

/// A sum of 13 literals or more: weights that are equal, small, of few kinds or large, some of them 0; a bound of 0,
/// one that is just reached or just not, or any between.
fn long_body(random: &mut Random, atoms: i32) -> Body {
    let length = random.between(13.max(atoms - 3), atoms) as usize;
    let negated = *random.pick(&[0, 0, 20, 50, 100]);
    let listed = literals(random, length, atoms, negated);
    let kind = random.below(15);
    let one = random.between(1, 9);
    let pairs: Vec<(i32, i32)> = listed
        .into_iter()
        .map(|literal| {
            let weight = match kind {
                0 | 1 => 1,
                2 | 3 => one,
                4 | 5 => random.between(0, 3),
                6 | 7 => *random.pick(&[1, 2, 5]),
                8 | 9 => random.between(0, 9),
                10 | 11 => *random.pick(&[0, 1, 100]),
                12 | 13 => *random.pick(&[1, 7, 300, 4_095]),
                _ => random.between(0, 400),
            };
            (literal, weight)
        })
        .collect();
    let sum: i32 = pairs.iter().map(|(_, weight)| weight).sum();
    let bound = match random.below(12) {
        0 => 0,
        1 => sum,
        2 => sum + 1,
        3 => pairs[0].1,
        4..=6 => sum / 2,
        _ => random.between(0, sum),
    };
    Body::Weights { bound: bound.min(4_095), pairs }
}

/// The text of a random program, with its numbers in any order.
pub fn random_text(random: &mut Random) -> Vec<u8> {
    let mut rules = random_rules(random);
    for rule in &mut rules {
        random.shuffle(&mut rule.heads);
        rule.body.shuffle(random);
    }
    program_text(&rules)
}

#[cfg(test)]
mod tests {
    use super::*;

    /// What the reference says of each case is what the case says, and every listed text is its text.
    #[test]
    fn cases_as_the_reference_has_them() {
        for case in cases() {
            let found = split_sums(&case.text, case.group, case.rooms);
            assert_eq!(found.answer, case.answer, "{}", case.name);
            if let (Some(written), Split { bytes, .. }) = (&case.written, found.answer) {
                assert_eq!(String::from_utf8_lossy(&found.output[..bytes]), String::from_utf8_lossy(written), "{}", case.name);
            }
        }
    }
}
