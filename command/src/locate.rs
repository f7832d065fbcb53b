//! Where in a refused line the fault stands, as far as the line itself tells it. The library says only which line and which question; the byte
//! that is named here is for people, and nothing is decided by it.

use aspdrupe::{ProgramQuestion, ProofQuestion};

const HEADER: &[u8] = b"asp 1 0 0";
const LARGEST: i64 = 8_191;
const MOST_COUNT: i64 = 64;
const LARGEST_WEIGHT: i64 = 4_095;

/// A number of a line and the byte at which it begins. One that is too long to be told has the largest or the least value.
#[derive(Clone, Copy)]
struct Number {
    at: usize,
    value: i64,
}

/// The byte of a program's line that a question is about.
pub fn in_program(question: ProgramQuestion, line: &[u8], ended: bool) -> Option<usize> {
    let numbers = numbers(line, 0);
    let at = |place: usize| Some(numbers.get(place).map_or(line.len(), |number| number.at));
    match question {
        ProgramQuestion::Header => Some(common_bytes(line, HEADER)),
        ProgramQuestion::Numbers => malformed(line, 0).or(if ended { None } else { Some(line.len()) }),
        ProgramQuestion::Range => numbers.iter().find(|number| number.value.abs() > LARGEST).map(|number| number.at),
        ProgramQuestion::Kinds => at(wrong_kind(&numbers)),
        ProgramQuestion::Counts => at(wrong_count(&numbers)),
        ProgramQuestion::HeadCount => at(2),
        ProgramQuestion::Weights => wrong_weight(&numbers),
        ProgramQuestion::WeightCount => at(body_kind(&numbers) + 2),
        ProgramQuestion::Literals => wrong_literal(&numbers),
        ProgramQuestion::End => Some(line.len()),
        ProgramQuestion::Length | ProgramQuestion::RuleCount | ProgramQuestion::Table => None,
    }
}

/// The byte of a proof's line that a question is about, where so many atoms and these names are known.
pub fn in_proof(question: ProofQuestion, line: &[u8], ended: bool, atoms: usize, names: &[i64]) -> Option<usize> {
    let mut numbers = numbers(line, 2);
    numbers.pop();
    let introduces = matches!(line.first(), Some(b'b' | b'e'));
    let is_atom = |number: &Number| number.value.unsigned_abs() <= atoms as u64;
    match question {
        ProofQuestion::Shape => wrong_shape(line).or(if ended { None } else { Some(line.len()) }),
        ProofQuestion::Sizes => {
            let large = numbers.iter().find(|number| number.value.abs() > LARGEST);
            large.or(numbers.get(aspdrupe::MOST_NUMBERS)).map(|number| number.at)
        }
        ProofQuestion::Signs => {
            let signed = if introduces { 1 } else { numbers.len() };
            numbers.iter().take(signed).find(|number| number.value < 0).map_or(Some(2), |number| Some(number.at))
        }
        ProofQuestion::Distinct => repeated(&numbers),
        ProofQuestion::Known => {
            let known = |number: &Number| is_atom(number) || names.contains(&number.value.abs());
            numbers.iter().skip(usize::from(introduces)).find(|number| !known(number)).map(|number| number.at)
        }
        ProofQuestion::Fresh => numbers.first().map(|number| number.at),
        ProofQuestion::Atoms => numbers.iter().find(|number| !is_atom(number)).map(|number| number.at),
        _ => None,
    }
}

/// The name that a proof's line introduces.
pub fn introduced(line: &[u8]) -> Option<i64> {
    let introduces = matches!(line.first(), Some(b'b' | b'e'));
    numbers(line, 2).first().filter(|_| introduces).map(|number| number.value)
}

/// The numbers from a byte on.
fn numbers(line: &[u8], from: usize) -> Vec<Number> {
    let mut at = from;
    let mut numbers = Vec::new();
    for word in line.get(from..).unwrap_or(&[]).split(|byte| *byte == b' ') {
        let long = if word.first() == Some(&b'-') { i64::MIN + 1 } else { i64::MAX };
        let digits = std::str::from_utf8(word).ok().filter(|text| text.bytes().all(|byte| byte == b'-' || byte.is_ascii_digit()));
        if let Some(text) = digits.filter(|text| !text.is_empty()) {
            numbers.push(Number { at, value: text.parse().unwrap_or(long) });
        }
        at += word.len() + 1;
    }
    numbers
}

fn common_bytes(line: &[u8], other: &[u8]) -> usize {
    line.iter().zip(other).take_while(|(one, two)| one == two).count()
}

/// The first byte from which on a line is not numbers one space apart.
fn malformed(line: &[u8], from: usize) -> Option<usize> {
    let mut at = from;
    for word in line.get(from..)?.split(|byte| *byte == b' ') {
        let nothing = line.len() == from;
        if !nothing && !is_number(word) {
            let digits = word.strip_prefix(b"-").unwrap_or(word);
            let good = digits.iter().take_while(|byte| byte.is_ascii_digit()).count();
            return Some(if good < digits.len() { at + word.len() - digits.len() + good } else { at });
        }
        at += word.len() + 1;
    }
    None
}

fn is_number(word: &[u8]) -> bool {
    let digits = word.strip_prefix(b"-").unwrap_or(word);
    let zero = word == b"0";
    zero || (!digits.is_empty() && digits[0] != b'0' && digits.iter().all(u8::is_ascii_digit))
}

fn wrong_shape(line: &[u8]) -> Option<usize> {
    match line {
        [letter, b' ', ..] if b"abcdels".contains(letter) => malformed(line, 2).or_else(|| {
            let numbers = numbers(line, 2);
            let closing = numbers.iter().position(|number| number.value == 0);
            Some(closing.and_then(|place| numbers.get(place + 1)).map_or(line.len(), |after| after.at))
        }),
        [letter, ..] if b"abcdels".contains(letter) => Some(1),
        _ => Some(0),
    }
}

/// The place of the body kind among a rule's numbers.
fn body_kind(numbers: &[Number]) -> usize {
    let heads = numbers.get(2).map_or(0, |count| count.value.clamp(0, MOST_COUNT));
    3 + heads as usize
}

fn wrong_kind(numbers: &[Number]) -> usize {
    let value = |place: usize| numbers.get(place).map(|number| number.value);
    if value(0) != Some(1) {
        return 0;
    }
    if !matches!(value(1), Some(0 | 1)) {
        return 1;
    }
    body_kind(numbers)
}

fn wrong_count(numbers: &[Number]) -> usize {
    let kind = body_kind(numbers);
    let head_count = numbers.get(2).map(|number| number.value);
    if !head_count.is_some_and(|count| (0..=MOST_COUNT).contains(&count)) || numbers.len() < kind {
        return 2;
    }
    kind + if numbers.get(kind).is_some_and(|number| number.value == 1) { 2 } else { 1 }
}

fn wrong_weight(numbers: &[Number]) -> Option<usize> {
    let kind = body_kind(numbers);
    let weights = numbers.iter().skip(kind + 4).step_by(2);
    let mut asked = numbers.get(kind + 1).into_iter().chain(weights);
    asked.find(|number| !(0..=LARGEST_WEIGHT).contains(&number.value)).map(|number| number.at)
}

fn wrong_literal(numbers: &[Number]) -> Option<usize> {
    let kind = body_kind(numbers);
    let heads = numbers.get(3..kind)?;
    let weighted = numbers.get(kind)?.value == 1;
    let (skipped, step) = if weighted { (kind + 3, 2) } else { (kind + 2, 1) };
    let body: Vec<Number> = numbers.iter().skip(skipped).step_by(step).copied().collect();
    let head = heads.iter().find(|number| number.value <= 0).map(|number| number.at);
    let zero = body.iter().find(|number| number.value == 0).map(|number| number.at);
    head.or_else(|| repeated(heads)).or(zero).or_else(|| repeated(&body))
}

/// The first number whose variable stands before it.
fn repeated(numbers: &[Number]) -> Option<usize> {
    let variable = |number: &Number| number.value.abs();
    let again = |place: &usize| numbers[..*place].iter().any(|before| variable(before) == variable(&numbers[*place]));
    (0..numbers.len()).find(again).map(|place| numbers[place].at)
}

#[cfg(test)]
mod tests {
    use super::*;

    #[test]
    fn faults_of_programs() {
        use ProgramQuestion::*;
        for (question, line, at) in [
            (Header, "asp 1 1 0", Some(6)),
            (Header, "", Some(0)),
            (Numbers, "1 0  1", Some(4)),
            (Numbers, "1 0 01", Some(4)),
            (Numbers, "1 0 1x", Some(5)),
            (Numbers, "1 0 1\r", Some(5)),
            (Numbers, "1 0 -", Some(4)),
            (Range, "1 0 1 8192 0 0", Some(6)),
            (Range, "1 0 1 99999999999999999999 0 0", Some(6)),
            (Kinds, "4 1 2", Some(0)),
            (Kinds, "", Some(0)),
            (Kinds, "1 2 0", Some(2)),
            (Kinds, "1 0 1 7 2 0", Some(8)),
            (Counts, "1 0 1 7 0 2 1", Some(10)),
            (Counts, "1 0 9 7 0 2 1", Some(4)),
            (Counts, "1 0 0 1", Some(7)),
            (HeadCount, "1 0 2 1 2 0 0", Some(4)),
            (Weights, "1 0 0 1 3 1 1 -4", Some(14)),
            (Weights, "1 0 0 1 5000 0", Some(8)),
            (WeightCount, "1 0 1 7 1 3 13", Some(12)),
            (Literals, "1 0 1 1 0 2 3 -3", Some(14)),
            (Literals, "1 1 2 4 4 0 0", Some(8)),
            (Literals, "1 0 0 1 3 2 5 1 5 1", Some(16)),
            (Table, "1 0 0 0 0", None),
        ] {
            assert_eq!(in_program(question, line.as_bytes(), true), at, "{question:?} {line}");
        }
        assert_eq!(in_program(Numbers, b"1 0", false), Some(3));
    }

    #[test]
    fn faults_of_proofs() {
        use ProofQuestion::*;
        for (question, line, at) in [
            (Shape, "x 1 0", Some(0)),
            (Shape, "a0", Some(1)),
            (Shape, "a 1", Some(3)),
            (Shape, "a 0 1 0", Some(4)),
            (Shape, "a 1  0", Some(4)),
            (Sizes, "a 1 -8192 0", Some(4)),
            (Signs, "b -4 1 0", Some(2)),
            (Signs, "l 1 -2 0", Some(4)),
            (Signs, "b 0", Some(2)),
            (Distinct, "a 3 1 -3 0", Some(6)),
            (Known, "a 3 -9 0", Some(4)),
            (Known, "e 9 8 0", Some(4)),
            (Known, "e 9 7 0", None),
            (Fresh, "b 2 1 0", Some(2)),
            (Atoms, "l 1 7 0", Some(4)),
            (Addition, "a 1 0", None),
        ] {
            assert_eq!(in_proof(question, line.as_bytes(), true, 3, &[7]), at, "{question:?} {line}");
        }
        let long = format!("a {}0", "1 ".repeat(66));
        assert_eq!(in_proof(Sizes, long.as_bytes(), true, 3, &[]), Some(132));
        assert_eq!((introduced(b"b 4 1 0"), introduced(b"a 4 0"), introduced(b"e")), (Some(4), None, None));
    }

    #[test]
    fn noise_has_no_panic() {
        for line in [&b""[..], b"\xff\xfe", b"a", b"a ", b"- -- 0", b"1 0 -3 1 64 9 9", b"1 0 9223372036854775807", b"b 4", b"1 0 64"] {
            for question in ProgramQuestion::ALL {
                in_program(*question, line, false);
            }
            for question in ProofQuestion::ALL {
                in_proof(*question, line, false, 1, &[]);
            }
        }
    }
}
