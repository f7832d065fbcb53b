//! The proof-line reader with its questions 21 to 25.

use super::numbers::{line_at, numbers};
use super::{variables_differ, LARGEST, LINE_LIMIT, TEXT_LIMIT};

/// A line that was read: its letter, its numbers without the closing 0, and the position after its newline.
#[derive(Clone, Debug, PartialEq, Eq)]
pub struct Line {
    pub letter: u8,
    pub numbers: Vec<i32>,
    pub next: usize,
}

#[derive(Clone, Debug, PartialEq, Eq)]
pub enum Answer {
    Line(Line),
    End,
    Refused(u8),
}

/// The line that starts at the position.
pub fn read_line(text: &[u8], position: usize) -> Answer {
    if text.len() > TEXT_LIMIT {
        return Answer::Refused(21);
    }
    line_from(text, position)
}

/// The same where 21 is not asked.
pub fn line_from(text: &[u8], position: usize) -> Answer {
    if position == text.len() {
        return Answer::End;
    }
    match questions(text, position) {
        Ok(line) => Answer::Line(line),
        Err(number) => Answer::Refused(number),
    }
}

/// The lines of a proof text that 21 to 25 let pass.
pub fn lines_of(text: &[u8]) -> Option<Vec<Line>> {
    let mut lines = Vec::new();
    let mut position = 0;
    loop {
        match read_line(text, position) {
            Answer::End => return Some(lines),
            Answer::Refused(_) => return None,
            Answer::Line(line) => {
                position = line.next;
                lines.push(line);
            }
        }
    }
}

fn questions(text: &[u8], position: usize) -> Result<Line, u8> {
    let (line, next) = line_at(text, position).ok_or(22)?;
    let (letter, numbers) = shape(line).ok_or(22)?;
    if numbers.iter().any(|number| number.abs() > LARGEST) || numbers.len() > LINE_LIMIT {
        return Err(23);
    }
    if !signs_good(letter, &numbers) {
        return Err(24);
    }
    if !variables_differ(&numbers) {
        return Err(25);
    }
    Ok(Line { letter, numbers, next })
}

/// "A line is the letter, a space, up to 65 nonzero numbers, a closing `0`, newline", apart from sizes and count.
fn shape(line: &[u8]) -> Option<(u8, Vec<i32>)> {
    let (letter, rest) = line.split_first()?;
    if !b"abcdels".contains(letter) {
        return None;
    }
    let mut written = numbers(rest.strip_prefix(b" ")?)?;
    if written.pop() != Some(0) || written.contains(&0) {
        return None;
    }
    Some((*letter, written))
}

/// "Is a first number there for `b c e l s`, and every sign as told?"
fn signs_good(letter: u8, numbers: &[i32]) -> bool {
    match letter {
        b'a' | b'd' => true,
        b'b' | b'e' => numbers.first().is_some_and(|name| *name > 0),
        _ => !numbers.is_empty() && numbers.iter().all(|number| *number > 0),
    }
}

#[cfg(test)]
mod tests {
    use super::*;

    fn refusal(line: &str) -> u8 {
        match read_line(format!("{line}\n").as_bytes(), 0) {
            Answer::Refused(number) => number,
            Answer::Line(_) => 0,
            Answer::End => 1,
        }
    }

    #[test]
    fn first_no_decides() {
        for (line, number) in [
            ("a 0", 0),
            ("", 22),
            ("a", 22),
            ("a ", 22),
            ("a0", 22),
            ("a 1", 22),
            ("a 0 0", 22),
            ("f 1 0", 22),
            ("a -8191 4096 0", 0),
            ("a 8192 0", 23),
            ("c -8192 0", 23),
            ("c 0", 24),
            ("c -1 0", 24),
            ("s 1 -1 0", 24),
            ("b 2 2 0", 25),
            ("b 2 -1 0", 0),
            ("d 3 1 -3 0", 25),
            ("c 1 2 3 0", 0),
        ] {
            assert_eq!(refusal(line), number, "{line}");
        }
    }

    #[test]
    fn positions() {
        assert_eq!(read_line(b"", 0), Answer::End);
        assert_eq!(read_line(b"", 1), Answer::Refused(22));
        assert_eq!(read_line(b"a 0", 0), Answer::Refused(22));
        assert_eq!(read_line(&[b'\n'; 65_536], 65_536), Answer::Refused(21));
    }
}
