//! Bytes to lines and numbers, as the section 'Program text' has them.

/// What a number of any larger size is read as. No question tells such sizes apart.
const BEYOND: i32 = 1_000_000;

/// "A number is an optional minus and decimal digits, without leading zeros; `-0` is no number."
pub fn number(word: &[u8]) -> Option<i32> {
    let (minus, digits) = match word.split_first() {
        Some((b'-', rest)) => (true, rest),
        _ => (false, word),
    };
    if digits.is_empty() || !digits.iter().all(|byte| byte.is_ascii_digit()) {
        return None;
    }
    if digits[0] == b'0' && (minus || digits.len() > 1) {
        return None;
    }
    let size = digits.iter().fold(0, |size: i32, digit| (size * 10 + i32::from(digit - b'0')).min(BEYOND));
    Some(if minus { -size } else { size })
}

/// "Numbers in a line stand one space apart, with none before or after." A line without a byte has no numbers.
pub fn numbers(line: &[u8]) -> Option<Vec<i32>> {
    if line.is_empty() {
        return Some(Vec::new());
    }
    line.split(|byte| *byte == b' ').map(number).collect()
}

/// The line that starts at the position, without its newline, and the position after the newline; none where it is not ended.
pub fn line_at(text: &[u8], position: usize) -> Option<(&[u8], usize)> {
    let rest = text.get(position..)?;
    let length = rest.iter().position(|byte| *byte == b'\n')?;
    Some((&rest[..length], position + length + 1))
}

#[cfg(test)]
mod tests {
    use super::*;

    #[test]
    fn well_formed() {
        for (word, value) in [("0", 0), ("7", 7), ("-7", -7), ("4096", 4096), ("10", 10)] {
            assert_eq!(number(word.as_bytes()), Some(value));
        }
        assert_eq!(number(b"-99999999999999999999999"), Some(-BEYOND));
    }

    #[test]
    fn malformed() {
        for word in ["", "-", "-0", "00", "01", "-01", "+1", "1-", "--1", "1a", "\r"] {
            assert_eq!(number(word.as_bytes()), None, "{word}");
        }
        for line in [" ", " 1", "1 ", "1  2", "1\t2"] {
            assert_eq!(numbers(line.as_bytes()), None, "{line}");
        }
    }

    #[test]
    fn lines() {
        assert_eq!(line_at(b"ab\nc", 0), Some((&b"ab"[..], 3)));
        assert_eq!(line_at(b"ab\nc", 2), Some((&b""[..], 3)));
        assert_eq!(line_at(b"ab\nc", 3), None);
        assert_eq!(line_at(b"ab\nc", 9), None);
    }
}
