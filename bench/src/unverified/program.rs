//! The program reader, questions 1 to 11, 54 and 55.

use super::bodies::Rules;
use super::weights::Weights;
use super::{LARGEST, LONGEST};

/// The most rules, the most heads or body literals of one, and the most literals with weights.
const MOST_RULES: usize = 1_024;
const MOST_PARTS: i32 = 64;
const MOST_WEIGHTED: usize = 12;

/// The largest bound and weight.
const MOST_WEIGHT: i32 = 4_095;

/// The rules of a program, or the refusal's number and the line.
pub fn read(text: &[u8], table_words: usize) -> Result<Rules, (u8, usize)> {
    if text.len() > LONGEST {
        return Err((1, 0));
    }
    let mut rest = text.strip_prefix(b"asp 1 0 0\n").ok_or((2, 1))?;
    let mut reading = Reading { rules: Rules::none(), words: 0, room: table_words, seen: vec![0; LARGEST + 1], stamp: 0 };
    let mut numbers = Vec::with_capacity(3 * MOST_PARTS as usize + 6);
    let mut line = 1;
    loop {
        line += 1;
        let end = rest.iter().position(|&b| b == b'\n').ok_or((3, line))?;
        read_numbers(&rest[..end], &mut numbers).map_err(|number| (number, line))?;
        rest = &rest[end + 1..];
        if numbers == [0] {
            return if rest.is_empty() { Ok(reading.rules) } else { Err((11, line)) };
        }
        reading.rule(&mut numbers).map_err(|number| (number, line))?;
    }
}

/// What was read so far.
struct Reading {
    rules: Rules,
    words: usize,
    room: usize,
    /// By atom, the last list that names it.
    seen: Vec<u32>,
    stamp: u32,
}

impl Reading {
    /// One rule's line, or the refusal's number.
    fn rule(&mut self, numbers: &mut [i32]) -> Result<(), u8> {
        let (kind, heads, body) = split(numbers)?;
        let suits = if kind == 0 { heads.len() <= 1 } else { !heads.is_empty() };
        if !suits {
            return Err(7);
        }
        if heads.iter().any(|&h| h <= 0) || !self.all_different(heads.iter().copied()) {
            return Err(8);
        }
        match body {
            Body::Plain(literals) => self.plain(kind == 0, heads, literals),
            Body::Weights(bound, pairs) => self.weights(kind == 0, heads, bound, pairs),
        }
    }

    fn plain(&mut self, normal: bool, heads: &[i32], literals: &mut [i32]) -> Result<(), u8> {
        if literals.contains(&0) || !self.all_different(literals.iter().copied()) {
            return Err(8);
        }
        self.take(4 + heads.len() + literals.len())?;
        literals.sort_unstable_by_key(|literal| literal.unsigned_abs());
        self.rules.add(normal, heads, literals);
        Ok(())
    }

    fn weights(&mut self, normal: bool, heads: &[i32], bound: i32, numbers: &[i32]) -> Result<(), u8> {
        let mut pairs: Vec<(i32, i32)> = numbers.chunks_exact(2).map(|pair| (pair[0], pair[1])).collect();
        let literals = || pairs.iter().map(|pair| pair.0);
        if literals().any(|literal| literal == 0) || !self.all_different(literals()) {
            return Err(8);
        }
        self.take(5 + heads.len() + numbers.len())?;
        pairs.sort_unstable_by_key(|pair| pair.0.unsigned_abs());
        self.rules.add_weights(normal, heads, Weights { bound, pairs: pairs.into() });
        Ok(())
    }

    /// Room for a rule of so many words, or the refusal's number.
    fn take(&mut self, words: usize) -> Result<(), u8> {
        if self.rules.count == MOST_RULES {
            return Err(9);
        }
        self.words += words;
        if self.words > self.room {
            return Err(10);
        }
        Ok(())
    }

    /// No atom is named twice.
    fn all_different(&mut self, literals: impl Iterator<Item = i32>) -> bool {
        self.stamp += 1;
        for literal in literals {
            let seen = &mut self.seen[literal.unsigned_abs() as usize];
            if *seen == self.stamp {
                return false;
            }
            *seen = self.stamp;
        }
        true
    }
}

/// The numbers of a body: literals, or a bound and literals each with its weight.
enum Body<'a> {
    Plain(&'a mut [i32]),
    Weights(i32, &'a mut [i32]),
}

/// The head kind, the heads and the body of a rule's numbers, or the refusal's number.
fn split(numbers: &mut [i32]) -> Result<(i32, &mut [i32], Body<'_>), u8> {
    let (kind, rest) = match numbers {
        [1, kind @ (0 | 1), rest @ ..] => (*kind, rest),
        _ => return Err(5),
    };
    let (heads, rest) = counted(rest, 1).ok_or(6)?;
    let (body, rest) = match rest {
        [0, rest @ ..] => {
            let (literals, rest) = counted(rest, 1).ok_or(6)?;
            (Body::Plain(literals), rest)
        }
        [1, bound, rest @ ..] => {
            let (pairs, rest) = counted(rest, 2).ok_or(6)?;
            (Body::Weights(*bound, pairs), rest)
        }
        [1] => return Err(6),
        _ => return Err(5),
    };
    if !rest.is_empty() {
        return Err(6);
    }
    if let Body::Weights(bound, pairs) = &body {
        weights_good(*bound, pairs)?;
    }
    Ok((kind, heads, body))
}

/// Bound and weights are in their range, and the literals not too many; or the refusal's number.
fn weights_good(bound: i32, pairs: &[i32]) -> Result<(), u8> {
    let in_range = |weight: i32| (0..=MOST_WEIGHT).contains(&weight);
    if !in_range(bound) || !pairs.chunks_exact(2).all(|pair| in_range(pair[1])) {
        return Err(54);
    }
    if pairs.len() > 2 * MOST_WEIGHTED {
        return Err(55);
    }
    Ok(())
}

/// A count, so many times as many numbers as it says, and what follows.
fn counted(numbers: &mut [i32], times: usize) -> Option<(&mut [i32], &mut [i32])> {
    let (count, rest) = numbers.split_first_mut()?;
    if !(0..=MOST_PARTS).contains(count) || rest.len() < times * *count as usize {
        return None;
    }
    Some(rest.split_at_mut(times * *count as usize))
}

/// The numbers of a line without its newline, or the refusal's number.
fn read_numbers(line: &[u8], numbers: &mut Vec<i32>) -> Result<(), u8> {
    numbers.clear();
    if line.is_empty() {
        return Ok(());
    }
    let mut in_range = true;
    for word in line.split(|&b| b == b' ') {
        let number = read_number(word).ok_or(3)?;
        in_range &= number.unsigned_abs() as usize <= LARGEST;
        numbers.push(number);
    }
    if in_range {
        Ok(())
    } else {
        Err(4)
    }
}

/// A well-formed number; one that is too large stays too large.
fn read_number(word: &[u8]) -> Option<i32> {
    let digits = word.strip_prefix(b"-").unwrap_or(word);
    let negative = digits.len() < word.len();
    let well_formed = match digits {
        [] => false,
        [b'0'] => !negative,
        [first, ..] => *first != b'0' && digits.iter().all(u8::is_ascii_digit),
    };
    if !well_formed {
        return None;
    }
    let size = digits.iter().fold(0i32, |sum, &d| (sum * 10 + i32::from(d - b'0')).min(100_000));
    Some(if negative { -size } else { size })
}
