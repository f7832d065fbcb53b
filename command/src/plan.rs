//! A plan's text by statements, as far as constraints, what is shown and what is included are concerned, and the text
//! with some of that changed. What a statement means is gringo's to say: here only its ends are found.

use std::fs;
use std::ops::Range;
use std::path::{Path, PathBuf};

use crate::files;
use crate::outcome::Failure;
use crate::statements::LIMIT;

/// What a statement is, by how it begins.
#[derive(Debug, Clone, Copy, PartialEq, Eq)]
pub enum Kind {
    /// `:-`
    Constraint,
    /// `#show`
    Show,
    /// `#include`
    Include,
    /// `#minimize`, `#maximize` or `:~`
    Minimize,
    Other,
}

/// A statement, with its line, counted from 1, and its text without comments, on one line.
#[derive(Debug, Clone, PartialEq, Eq)]
pub struct Statement {
    pub kind: Kind,
    pub line: usize,
    pub text: String,
    range: Range<usize>,
}

impl Statement {
    /// The file that it includes: where it is found from here, or else beside the plan.
    fn included(&self, folder: &Path) -> Option<PathBuf> {
        let (_, rest) = self.text.split_once('"')?;
        let (name, _) = rest.split_once('"')?;
        [PathBuf::from(name), folder.join(name)].into_iter().find(|path| path.exists())
    }
}

/// A plan.
pub struct Plan {
    bytes: Vec<u8>,
    pub statements: Vec<Statement>,
}

/// What stands before statements that are put behind a plan, which may end in a part that gringo does not ground.
const BASE: &[u8] = b"\n#program base.";

/// The priority of advice that says which atom a name is of.
pub const NAMES: i64 = 770_303_077;

/// A place in the text, and what is to stand there.
type Edit = (Range<usize>, Vec<u8>);

impl Plan {
    pub fn of(bytes: &[u8]) -> Plan {
        let mut reader = Reader { bytes, at: 0, line: 1 };
        let statements = std::iter::from_fn(|| reader.statement()).collect();
        Plan { bytes: bytes.to_vec(), statements }
    }

    /// The plan with constraints behind it that demand or forbid literals.
    pub fn with(&self, literals: &[String]) -> Result<Plan, Failure> {
        let mut bytes = self.bytes.clone();
        if !literals.is_empty() {
            bytes.extend(BASE);
        }
        for literal in literals {
            bytes.extend(format!("\n{}", assumption(literal)?).into_bytes());
        }
        bytes.push(b'\n');
        Ok(Plan::of(&bytes))
    }

    /// The plan with advice for a search behind it, which changes nothing and says which atom each of these names is of: it
    /// is told with the name's place in the list, and with a priority of its own.
    pub fn marking(&self, names: &[&str]) -> Plan {
        let mark = |(place, name): (usize, &&str)| format!("\n#heuristic {name}. [{place}@{NAMES},level]").into_bytes();
        let mut bytes = [&self.bytes[..], BASE].concat();
        bytes.extend(names.iter().enumerate().flat_map(mark));
        bytes.push(b'\n');
        Plan::of(&bytes)
    }

    pub fn shows(&self) -> bool {
        self.statements.iter().any(|statement| statement.kind == Kind::Show)
    }

    pub fn includes_others(&self) -> bool {
        self.statements.iter().any(|statement| statement.kind == Kind::Include)
    }

    pub fn minimizes(&self) -> bool {
        self.statements.iter().any(|statement| statement.kind == Kind::Minimize)
    }

    pub fn constraints(&self) -> impl Iterator<Item = &Statement> {
        self.statements.iter().filter(|statement| statement.kind == Kind::Constraint)
    }

    /// The text for gringo's standard input, where what the plan includes is looked for beside the plan too.
    pub fn text(&self, folder: &Path) -> Vec<u8> {
        self.edited(self.includes(folder))
    }

    /// The plan with the files that it includes in their places, each once, as far as they can be read. What gringo makes of it may differ.
    pub fn whole(&self, folder: &Path) -> Plan {
        Plan::of(&self.inlined(folder, &mut Vec::new()))
    }

    fn inlined(&self, folder: &Path, seen: &mut Vec<PathBuf>) -> Vec<u8> {
        let mut edits = Vec::new();
        for statement in self.statements.iter().filter(|statement| statement.kind == Kind::Include) {
            let Some((path, Ok(bytes))) =
                statement.included(folder).filter(|path| files::reads_again(path)).map(|path| (path.clone(), files::read(&path, LIMIT)))
            else {
                continue;
            };
            let place = fs::canonicalize(&path).unwrap_or(path.clone());
            let text = if seen.contains(&place) {
                Vec::new()
            } else {
                seen.push(place);
                Plan::of(&bytes).inlined(path.parent().unwrap_or(folder), seen)
            };
            edits.push((statement.range.clone(), text));
        }
        self.edited(edits)
    }

    /// The text without what is said about showing.
    pub fn text_without_shows(&self, folder: &Path) -> Vec<u8> {
        let shows = self.statements.iter().filter(|statement| statement.kind == Kind::Show);
        let blank = |range: &Range<usize>| self.bytes[range.clone()].iter().map(|byte| if *byte == b'\n' { b'\n' } else { b' ' }).collect();
        let blanked = shows.map(|statement| (statement.range.clone(), blank(&statement.range)));
        self.edited(self.includes(folder).into_iter().chain(blanked).collect())
    }

    /// The plan whose constraints each have an atom of their own in the body, which may be chosen; and these atoms. Where
    /// some atoms are shown only, here or in what is included, they have to be shown too, to be known by name.
    pub fn marked(&self, shown: bool) -> (Plan, Vec<String>) {
        let mark = self.unused_name();
        let name = |place: usize| format!("{mark}{place}");
        let edit = |(place, constraint): (usize, &Statement)| {
            let at = constraint.range.start + 2;
            let comma = if constraint.text[2..].trim() == "." { "" } else { "," };
            (at..at, format!(" {}{comma}", name(place)).into_bytes())
        };
        let mut bytes = self.edited(self.constraints().enumerate().map(edit).collect());
        let marks: Vec<String> = (0..self.constraints().count()).map(name).collect();
        let show = |mark: &String| if shown { format!(" #show {mark}/0.") } else { String::new() };
        bytes.extend(BASE);
        bytes.extend(marks.iter().flat_map(|mark| format!("\n{{ {mark} }}.{}", show(mark)).into_bytes()));
        bytes.push(b'\n');
        (Plan::of(&bytes), marks)
    }

    /// The beginning of names that the text has not.
    fn unused_name(&self) -> String {
        let text = String::from_utf8_lossy(&self.bytes);
        let mut name = String::from("aspdrupe_");
        while text.contains(&name) {
            name.push('_');
        }
        name
    }

    /// The names of included files, those that stand beside the plan with its folder.
    fn includes(&self, folder: &Path) -> Vec<Edit> {
        let included = self.statements.iter().filter(|statement| statement.kind == Kind::Include);
        let edit = |statement: &Statement| {
            let path = statement.included(folder)?;
            Some((statement.range.clone(), format!("#include \"{}\".", path.display()).into_bytes()))
        };
        included.filter_map(edit).collect()
    }

    fn edited(&self, mut edits: Vec<Edit>) -> Vec<u8> {
        edits.sort_by_key(|(range, _)| range.start);
        let (mut text, mut done) = (Vec::new(), 0);
        for (range, other) in edits {
            text.extend(&self.bytes[done..range.start]);
            text.extend(other);
            done = range.end;
        }
        text.extend(&self.bytes[done..]);
        text
    }
}

/// The constraint that demands a literal, or forbids the atom of one with `not `.
fn assumption(literal: &str) -> Result<String, Failure> {
    let text = match literal.trim().strip_prefix("not ") {
        Some(atom) => format!(":- {}.", atom.trim()),
        None => format!(":- not {}.", literal.trim()),
    };
    let whole = matches!(&Plan::of(text.as_bytes()).statements[..], [one] if one.text == text && one.kind == Kind::Constraint);
    if !whole || literal.trim().is_empty() || has_parts(literal) {
        return Err(Failure::misuse(format!("`{literal}` is no literal: an atom, or one with `not ` before it")));
    }
    Ok(text)
}

/// Whether a comma, a semicolon or a colon stands outside of parentheses and strings.
fn has_parts(literal: &str) -> bool {
    let (mut depth, mut quoted) = (0, false);
    literal.chars().any(|letter| {
        match letter {
            '"' => quoted = !quoted,
            '(' if !quoted => depth += 1,
            ')' if !quoted => depth -= 1,
            _ => {}
        }
        depth == 0 && !quoted && matches!(letter, ',' | ';' | ':' | '\n' | '%')
    })
}

/// Goes through a text.
struct Reader<'a> {
    bytes: &'a [u8],
    at: usize,
    line: usize,
}

impl Reader<'_> {
    /// The next statement; what is not ended by a point is none.
    fn statement(&mut self) -> Option<Statement> {
        self.skip_blanks();
        let (start, line) = (self.at, self.line);
        let mut text = Vec::new();
        let script = self.rest().starts_with(b"#script");
        while !self.rest().is_empty() {
            let piece = self.piece();
            let ends = piece == b"." && (!script || text.ends_with(b"#end"));
            text.extend(piece);
            if ends {
                self.take_annotation(&mut text);
                let text = String::from_utf8_lossy(&text).into_owned();
                return Some(Statement { kind: kind(&text), line, text, range: start..self.at });
            }
        }
        None
    }

    fn rest(&self) -> &[u8] {
        &self.bytes[self.at..]
    }

    fn step(&mut self, count: usize) {
        let to = (self.at + count).min(self.bytes.len());
        self.line += self.bytes[self.at..to].iter().filter(|byte| **byte == b'\n').count();
        self.at = to;
    }

    /// What comes next: a blank for blanks and comments, a string, two points or more, or a byte.
    fn piece(&mut self) -> Vec<u8> {
        let start = self.at;
        self.skip_blanks();
        if self.at > start {
            return vec![b' '];
        }
        let length = match self.rest() {
            [b'"', ..] => string_length(self.rest()),
            [b'.', ..] => self.rest().iter().take_while(|byte| **byte == b'.').count(),
            _ => 1,
        };
        let piece = self.bytes[start..(start + length).min(self.bytes.len())].to_vec();
        self.step(length);
        piece
    }

    fn skip_blanks(&mut self) {
        loop {
            let rest = self.rest();
            let length = match rest {
                [byte, ..] if byte.is_ascii_whitespace() => 1,
                [b'%', b'*', ..] => comment_length(rest),
                [b'%', ..] => rest.iter().position(|byte| *byte == b'\n').unwrap_or(rest.len()),
                _ => return,
            };
            self.step(length);
        }
    }

    /// The `[..]` behind the point of a weak constraint and the like.
    fn take_annotation(&mut self, text: &mut Vec<u8>) {
        let (at, line) = (self.at, self.line);
        self.skip_blanks();
        if !self.rest().starts_with(b"[") {
            (self.at, self.line) = (at, line);
            return;
        }
        text.push(b' ');
        while !self.rest().is_empty() {
            let piece = self.piece();
            let ends = piece == b"]";
            text.extend(piece);
            if ends {
                return;
            }
        }
    }
}

/// The bytes of the comment at the front, from `%*` to its `*%`: comments stand in comments, those of one line too.
fn comment_length(text: &[u8]) -> usize {
    let (mut depth, mut at) = (0, 0);
    while at < text.len() {
        match text[at..] {
            [b'%', b'*', ..] => (depth, at) = (depth + 1, at + 2),
            [b'*', b'%', ..] => (depth, at) = (depth - 1, at + 2),
            [b'%', ..] => at += text[at..].iter().take_while(|byte| **byte != b'\n').count(),
            _ => at += 1,
        }
        if depth == 0 {
            return at;
        }
    }
    text.len()
}

/// The bytes of the string at the front, with its quotation marks.
fn string_length(text: &[u8]) -> usize {
    let mut escaped = false;
    let end = text.iter().skip(1).position(|byte| {
        let ends = *byte == b'"' && !escaped;
        escaped = *byte == b'\\' && !escaped;
        ends
    });
    end.map_or(text.len(), |end| end + 2)
}

fn kind(text: &str) -> Kind {
    let begins =
        |word: &str| text.strip_prefix(word).is_some_and(|rest| !rest.starts_with(|next: char| next.is_alphanumeric() || next == '_'));
    if text.starts_with(":-") {
        Kind::Constraint
    } else if begins("#show") {
        Kind::Show
    } else if begins("#include") {
        Kind::Include
    } else if text.starts_with(":~") || ["#minimize", "#minimise", "#maximize", "#maximise"].into_iter().any(begins) {
        Kind::Minimize
    } else {
        Kind::Other
    }
}

#[cfg(test)]
mod tests {
    use super::*;

    const TEXT: &str = "a. % :- no.\n:- a,\n   b(1..2). {c}. %* :- d.\n *% :- c.\n:~ c. [1@2, \":- x.\"]\n:-. #show a/0.\n#script (lua) x.y = 1. #end.\nx(\"a.\\\"b\").";

    #[test]
    fn statements_of_a_plan() {
        let plan = Plan::of(TEXT.as_bytes());
        let found: Vec<(usize, &str)> = plan.statements.iter().map(|statement| (statement.line, statement.text.as_str())).collect();
        let expected = [
            (1, "a."),
            (2, ":- a, b(1..2)."),
            (3, "{c}."),
            (4, ":- c."),
            (5, ":~ c. [1@2, \":- x.\"]"),
            (6, ":-."),
            (6, "#show a/0."),
            (7, "#script (lua) x.y = 1. #end."),
            (8, "x(\"a.\\\"b\")."),
        ];
        assert_eq!(found, expected);
        assert_eq!(plan.constraints().map(|constraint| constraint.line).collect::<Vec<_>>(), [2, 4, 6]);
        assert!(plan.minimizes() && Plan::of(b"#maximize{1:a}.").minimizes() && !Plan::of(b"#minimizes. a :- b.").minimizes());
        let nested = Plan::of(b"%* :- a. %* x *%\n:- b. *% :- c.\n%* % *% :- d.\n*% :- e.");
        assert_eq!(nested.constraints().map(|constraint| constraint.line).collect::<Vec<_>>(), [2, 4]);
        for text in ["", "a", "\"", "%*", "%", "a. [", ":-", "..", "#script", "\"\\"] {
            assert!(Plan::of(text.as_bytes()).statements.len() <= 1, "{text}");
        }
    }

    #[test]
    fn texts_with_changes() {
        let plan = Plan::of(b":- a, b.\n#show\n a/0.:-.\nb.");
        assert_eq!(plan.text_without_shows(Path::new("")), b":- a, b.\n     \n     :-.\nb.");
        let (marked, marks) = plan.marked(true);
        assert_eq!(marks, ["aspdrupe_0", "aspdrupe_1"]);
        let rest = "\n#program base.\n{ aspdrupe_0 }. #show aspdrupe_0/0.\n{ aspdrupe_1 }. #show aspdrupe_1/0.\n";
        let text = format!(":- aspdrupe_0, a, b.\n#show\n a/0.:- aspdrupe_1.\nb.{rest}");
        assert_eq!(marked.text(Path::new("")), text.as_bytes());
        assert_eq!(Plan::of(b"aspdrupe_. :- a.").marked(false).1, ["aspdrupe__0"]);
        let assumed = Plan::of(b"a. #program foo.").with(&[String::from("b")]).unwrap();
        assert_eq!(assumed.text(Path::new("")), b"a. #program foo.\n#program base.\n:- not b.\n");
    }

    #[test]
    fn literals_that_are_assumed() {
        for (literal, text) in
            [("a", ":- not a."), (" not b(1, \"x,\")", ":- b(1, \"x,\")."), ("-a", ":- not -a."), ("a(1..2)", ":- not a(1..2).")]
        {
            assert_eq!(assumption(literal), Ok(String::from(text)));
        }
        for literal in ["", "a, b", "a. b", "a.", "a : b", "a % b", "a;b", "\""] {
            assert!(assumption(literal).is_err(), "{literal}");
        }
    }
}
