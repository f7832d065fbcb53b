//! The proof-line reader, questions 22 to 25.

use super::LARGEST;

/// The most numbers of a line.
const MOST: usize = 65;

/// A proof text and the position of the next line, with the numbers of the last one.
pub struct Reader<'a> {
    text: &'a [u8],
    at: usize,
    numbers: Vec<i32>,
    /// By variable, the last line that names it.
    seen: Vec<u32>,
    lines: u32,
}

impl<'a> Reader<'a> {
    pub fn of(text: &'a [u8]) -> Self {
        Reader { text, at: 0, numbers: Vec::with_capacity(MOST + 1), seen: vec![0; LARGEST + 1], lines: 0 }
    }

    /// The numbers of the line read last, without the closing 0.
    pub fn numbers(&self) -> &[i32] {
        &self.numbers
    }

    /// The next line's letter, nothing at the end, or the refusal's number.
    pub fn next_line(&mut self) -> Result<Option<u8>, u8> {
        if self.at == self.text.len() {
            return Ok(None);
        }
        let letter = self.text[self.at];
        let fits = self.read_shape(letter).ok_or(22)?;
        if !fits {
            return Err(23);
        }
        if !signs_as_told(letter, &self.numbers) {
            return Err(24);
        }
        if !self.all_different() {
            return Err(25);
        }
        Ok(Some(letter))
    }

    fn byte(&self, at: usize) -> u8 {
        self.text.get(at).copied().unwrap_or(0)
    }

    /// Reads the line and goes past it; whether its numbers are small enough and not too many. Nothing where the shape is wrong.
    fn read_shape(&mut self, letter: u8) -> Option<bool> {
        if !b"abcdels".contains(&letter) {
            return None;
        }
        self.numbers.clear();
        let mut fits = true;
        let mut at = self.at + 1;
        loop {
            if self.byte(at) != b' ' {
                return None;
            }
            at += 1;
            if self.byte(at) == b'0' {
                break;
            }
            let (number, end) = self.read_number(at)?;
            fits &= number.unsigned_abs() as usize <= LARGEST && self.numbers.len() < MOST;
            if fits {
                self.numbers.push(number);
            }
            at = end;
        }
        if self.byte(at + 1) != b'\n' {
            return None;
        }
        self.at = at + 2;
        Some(fits)
    }

    /// A number that is not 0, and the position after it. One that is too large stays too large.
    fn read_number(&self, from: usize) -> Option<(i32, usize)> {
        let negative = self.byte(from) == b'-';
        let mut at = from + usize::from(negative);
        if !(b'1'..=b'9').contains(&self.byte(at)) {
            return None;
        }
        let mut size = 0i32;
        while self.byte(at).is_ascii_digit() {
            size = (size * 10 + i32::from(self.byte(at) - b'0')).min(100_000);
            at += 1;
        }
        Some((if negative { -size } else { size }, at))
    }

    /// No variable is named twice.
    fn all_different(&mut self) -> bool {
        self.lines += 1;
        for number in &self.numbers {
            let seen = &mut self.seen[number.unsigned_abs() as usize];
            if *seen == self.lines {
                return false;
            }
            *seen = self.lines;
        }
        true
    }
}

/// There is a first number where one is needed, and the numbers that must be positive are.
fn signs_as_told(letter: u8, numbers: &[i32]) -> bool {
    match letter {
        b'a' | b'd' => true,
        b'b' | b'e' => numbers.first().is_some_and(|&n| n > 0),
        _ => !numbers.is_empty() && numbers.iter().all(|&n| n > 0),
    }
}
