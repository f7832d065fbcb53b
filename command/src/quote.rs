//! A line of a text quoted for people, with a mark under a column.

/// The most characters that are quoted.
const WIDTH: usize = 100;

/// The characters that are left of the marked one where the line is cut in front.
const BEFORE: usize = 60;

/// The line, bytes that are no printable ASCII escaped, and under it a mark at the byte that is named. A long line is cut around that byte.
pub fn quote(line: &[u8], marked: Option<usize>) -> Vec<String> {
    let first = marked.map_or(0, |at| if at < WIDTH { 0 } else { at - BEFORE });
    let mut shown = String::from(if first > 0 { ".. " } else { "" });
    let mut under = None;
    let mut at = first;
    while at < line.len() && shown.len() < WIDTH {
        if marked == Some(at) {
            under = Some(shown.len());
        }
        shown.extend(escaped(line[at]));
        at += 1;
    }
    if marked == Some(line.len()) && at == line.len() {
        under = Some(shown.len());
    }
    if at < line.len() {
        shown += " ..";
    }
    let mark = under.map(|place| format!("    {}^", " ".repeat(place)));
    std::iter::once(format!("    {shown}")).chain(mark).collect()
}

fn escaped(byte: u8) -> Vec<char> {
    match byte {
        b' '..=b'~' => vec![char::from(byte)],
        _ => std::ascii::escape_default(byte).map(char::from).collect(),
    }
}

#[cfg(test)]
mod tests {
    use super::*;

    #[test]
    fn marks_stand_under_their_bytes() {
        assert_eq!(quote(b"a 1 0", Some(2)), ["    a 1 0", "      ^"]);
        assert_eq!(quote(b"a\r\xffb", Some(3)), ["    a\\r\\xffb", "           ^"]);
        assert_eq!(quote(b"ab", Some(2)), ["    ab", "      ^"]);
        assert_eq!(quote(b"ab", Some(3)), ["    ab"]);
        assert_eq!(quote(b"", Some(0)), ["    ", "    ^"]);
        assert_eq!(quote(b"ab", None), ["    ab"]);
    }

    #[test]
    fn long_lines_are_cut() {
        let mut line = vec![b'x'; 1_000_000];
        line[5_000] = b'y';
        for at in [0, 99, 100, 5_000, 999_999, 1_000_000] {
            let quoted = quote(&line, Some(at));
            assert!(quoted.len() == 2 && quoted[0].len() < 120, "{quoted:?}");
            let under = quoted[1].len() - 1;
            assert_eq!(quoted[0].as_bytes().get(under).copied(), line.get(at).copied(), "{at}");
        }
    }
}
