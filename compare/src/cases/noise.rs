//! Noise: texts that nobody meant, from plain bytes to lines that are nearly rules or steps.

use inputs::random::Random;
use inputs::{joined, Pair};

pub fn pair(random: &mut Random) -> Pair {
    match random.below(6) {
        0 => Pair::of(bytes(random), bytes(random)),
        1 => Pair::of(header_and(letters(random)), letters(random)),
        2 => Pair::of(header_and(rule_rows(random)), step_rows(random)),
        _ => Pair::of("asp 1 0 0\n1 1 4 1 2 3 4 0 0\n1 0 1 1 0 2 2 -3\n1 0 0 0 1 4\n1 0 1 2 1 3 3 1 2 -3 1 4 2\n0\n", step_rows(random)),
    }
}

fn header_and(rest: Vec<u8>) -> Vec<u8> {
    [b"asp 1 0 0\n", rest.as_slice()].concat()
}

fn bytes(random: &mut Random) -> Vec<u8> {
    let count = random.below(300);
    (0..count).map(|_| random.below(256) as u8).collect()
}

fn letters(random: &mut Random) -> Vec<u8> {
    let count = random.below(60);
    (0..count).map(|_| *random.pick(b"00111234567899--    \n\n\nabcdels")).collect()
}

/// Lines that look like rules, with counts that often fit.
fn rule_rows(random: &mut Random) -> Vec<u8> {
    let mut text = String::new();
    for _ in 0..random.below(5) {
        let (heads, body) = (random.below(4), random.below(4));
        let mut row = vec![1, random.between(0, 1), heads as i32];
        row.extend((0..heads).map(|_| random.between(1, 5)));
        if random.percent(70) {
            row.extend([0, body as i32]);
            row.extend((0..body).map(|_| random.between(-5, 5)));
        } else {
            row.extend([1, random.between(-1, 5), body as i32]);
            row.extend((0..2 * body).map(|_| random.between(-2, 5)));
        }
        if random.percent(30) {
            let place = random.below(row.len());
            row[place] = *random.pick(&[-1, 0, 1, 2, 3, 64, 65, 4_095, 4_096, 8_191, 8_192]);
        }
        if random.percent(15) {
            row.truncate(random.below(row.len()));
        }
        text.push_str(&joined(&row));
        text.push('\n');
    }
    text.push_str("0\n");
    text.into_bytes()
}

/// Lines that look like steps, with few numbers of a small range.
fn step_rows(random: &mut Random) -> Vec<u8> {
    let mut text = String::new();
    for _ in 0..random.between(1, 4) {
        let letter = *random.pick(b"abcdelsabcdelsx") as char;
        let count = random.below(5);
        let least = if random.percent(30) { -6 } else { 1 };
        let mut row: Vec<i32> = (0..count).map(|_| random.between(least, 6)).collect();
        if random.percent(95) {
            row.push(0);
        }
        text.push_str(&format!("{letter} {}\n", joined(&row)));
    }
    text.into_bytes()
}
