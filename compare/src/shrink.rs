//! Makes failing inputs small enough to be read: texts by lines left out, and long texts cut when they are told.

use std::time::{Duration, Instant};

use inputs::Pair;

/// How long smaller inputs are tried.
const PATIENCE: Duration = Duration::from_secs(2);

/// The texts with every line left out that the failure does not need.
pub fn shrunk(pair: &Pair, fails: impl Fn(&Pair) -> bool) -> Pair {
    let mut small = pair.clone();
    let started = Instant::now();
    for of_program in [true, false] {
        let mut place = lines(&small, of_program).len();
        while place > 0 && started.elapsed() < PATIENCE {
            place -= 1;
            let smaller = without(&small, of_program, place);
            if fails(&smaller) {
                small = smaller;
            }
        }
    }
    small
}

fn lines(pair: &Pair, of_program: bool) -> Vec<&[u8]> {
    let text = if of_program { &pair.program } else { &pair.proof };
    text.split_inclusive(|byte| *byte == b'\n').collect()
}

fn without(pair: &Pair, of_program: bool, place: usize) -> Pair {
    let mut kept = lines(pair, of_program);
    kept.remove(place);
    let text = kept.concat();
    if of_program {
        Pair { program: text, proof: pair.proof.clone() }
    } else {
        Pair { program: pair.program.clone(), proof: text }
    }
}

/// The text with escapes, its middle left out where it is long.
pub fn cut(text: &[u8]) -> String {
    if text.len() <= 1_500 {
        return format!("b\"{}\"", text.escape_ascii());
    }
    format!("b\"{}\" .. {} bytes .. b\"{}\"", text[..500].escape_ascii(), text.len() - 1_000, text[text.len() - 500..].escape_ascii())
}

#[cfg(test)]
mod tests {
    use super::*;

    #[test]
    fn only_what_fails_is_left() {
        let pair = Pair::of("1\n2\n3\n", "a\nb\nc\nb\n");
        let fails = |pair: &Pair| pair.program.contains(&b'2') && pair.proof.contains(&b'b');
        let small = shrunk(&pair, fails);
        assert_eq!((small.program.as_slice(), small.proof.as_slice()), (b"2\n".as_slice(), b"b\n".as_slice()));
    }

    #[test]
    fn long_texts_are_cut() {
        assert_eq!(cut(b"a 0\n"), "b\"a 0\\n\"");
        assert!(cut(&[b'x'; 5_000]).contains(" .. 4000 bytes .. "));
    }
}
