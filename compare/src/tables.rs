//! Tables and sets for the set test: changed tables, tables at the limits, and sets of every kind.

use inputs::random::Random;

use crate::reference::filled;

/// Words that matter in a table.
const NOTABLE: [i32; 27] = [
    0,
    1,
    -1,
    2,
    -2,
    3,
    12,
    13,
    63,
    64,
    65,
    -64,
    4_094,
    4_095,
    4_096,
    -4_095,
    -4_096,
    8_190,
    8_191,
    8_192,
    -8_191,
    -8_192,
    i32::MAX,
    i32::MIN,
    i32::MIN + 1,
    65_536,
    1 << 16 | 1,
];

/// The table of a program with a word changed, put in, taken out or doubled, or another rule count.
pub fn changed(words: &[i32], count: usize, random: &mut Random) -> (Vec<i32>, usize) {
    let room = random.below(6);
    let mut table = filled(words.to_vec(), words.len() + room);
    let mut rules = count;
    for _ in 0..random.below(3) {
        change_once(&mut table, &mut rules, random);
    }
    (table, rules)
}

fn change_once(table: &mut Vec<i32>, rules: &mut usize, random: &mut Random) {
    let place = random.below(table.len() + 1);
    match random.below(7) {
        0 => *rules = *random.pick(&[0, 1, rules.wrapping_add(1), rules.saturating_sub(1), 1_024, 1_025, usize::MAX, 1 << 32]),
        1 => table.insert(place, *random.pick(&NOTABLE)),
        2 if place < table.len() => {
            table.remove(place);
        }
        3 => table.truncate(place),
        4 if place < table.len() => table[place] = -table[place].checked_abs().unwrap_or(0),
        5 if place + 1 < table.len() => table.swap(place, place + 1),
        _ if place < table.len() => table[place] = *random.pick(&NOTABLE),
        _ => table.push(*random.pick(&NOTABLE)),
    }
}

/// A set of atoms, most often one that question 42 lets pass.
pub fn any_set(atoms: i32, random: &mut Random) -> Vec<u16> {
    let mut set: Vec<u16> = (1..=atoms as u16).filter(|_| random.percent(50)).collect();
    if random.percent(25) {
        let atom = *random.pick(&[0, 1, atoms as u16, atoms as u16 + 1, 4_095, 4_096, 8_191, 8_192, 65_535]);
        let place = random.below(set.len() + 1);
        set.insert(place, atom);
    }
    if random.percent(10) {
        random.shuffle(&mut set);
    }
    set
}

/// Tables at the limits, with their rule counts.
pub fn wide() -> Vec<(Vec<i32>, usize)> {
    let mut tables = Vec::new();
    for rules in [0, 1, 2, 1_023, 1_024, 1_025] {
        for words in [0, 3, 4, 6, 8, 4_092, 4_095, 4_096, 4_100, 100_000] {
            tables.push((vec![0; words], rules));
        }
    }
    for heads in [0, 1, 2, 63, 64, 65, 66] {
        for kind in [0, 1, 2, -1] {
            let mut table = vec![kind, heads, 0, 0];
            table.extend(1..=heads);
            tables.push((table, 1));
        }
    }
    for count in [0, 1, 12, 13, 63, 64, 65, 66] {
        let mut table = vec![0, 1, 0, count, 8_191];
        table.extend((1..=count).map(|atom| if atom % 2 == 0 { -atom } else { atom }));
        tables.push((table, 1));
    }
    for atom in [4_094, 4_095, 4_096, 4_097, 8_190, 8_191, 8_192, 8_193, 65_537, i32::MAX, 0] {
        tables.extend([atom, -atom].map(|head| (vec![0, 1, 0, 0, head], 1)));
        tables.extend([atom, -atom].map(|literal| (vec![0, 0, 0, 1, literal], 1)));
    }
    tables.extend([(vec![0, 1, 0, 0, i32::MIN], 1), (vec![0, 0, 0, 1, i32::MIN], 1)]);
    tables.extend([-1, 65, 4_096, i32::MIN, i32::MAX].map(|count| (vec![1, count, 0, 0, 1, 0, 0, 0, 0], 1)));
    tables.extend([-1, 65, 4_096, i32::MIN, i32::MAX].map(|count| (vec![0, 1, 0, count, 1, 0, 0, 0, 0], 1)));
    tables.extend([usize::MAX, usize::MAX / 3, 1 << 32, 1 << 63, (1 << 32) + 1].map(|rules| (vec![0; 12], rules)));
    tables.extend(with_weights());
    tables.extend(filled_with_rules());
    tables
}

/// Rules with weights: counts and body kinds at the limits, words at every limit in every place, words that are missing, and bounds that
/// nothing and that everything reaches.
fn with_weights() -> Vec<(Vec<i32>, usize)> {
    let even = |count: i32, bound: i32| {
        let mut table = vec![0, 1, 1, count, bound, 8_191];
        table.extend((1..=count).flat_map(|atom| [if atom % 2 == 0 { -atom } else { atom }, 1]));
        (table, 1)
    };
    let mut tables: Vec<(Vec<i32>, usize)> = [-1, 0, 1, 11, 12, 13, 64, 65].map(|count| even(count, 6)).into();
    tables.extend([0, 1, 12, 13, 4_095, 4_096].map(|bound| even(12, bound)));
    let good = [1, 2, 1, 2, 5, 3, 4, -1, 2, 4_095, 3];
    for word in NOTABLE {
        for place in 0..good.len() {
            let mut table = good.to_vec();
            table[place] = word;
            tables.push((table, 1));
        }
    }
    tables.extend((0..=good.len()).map(|count| (good[..count].to_vec(), 1)));
    tables.push((good.repeat(1_024), 1_024));
    tables
}

/// 1,024 rules with both heads and bodies: a chain of all atoms, and rules of 64 heads and 64 literals, which no text could hold.
fn filled_with_rules() -> Vec<(Vec<i32>, usize)> {
    let mut chain = vec![0, 1, 0, 0, 1_024];
    chain.extend((1..1_024).flat_map(|atom| [0, 1, 0, 1, atom, atom + 1]));
    let mut widest = vec![1, 64, 0, 64];
    widest.extend(8_128..=8_191);
    widest.extend((3_000..3_064).map(|atom| -atom));
    vec![(chain, 1_024), (widest.repeat(1_024), 1_024), (widest.repeat(1_025), 1_025)]
}
