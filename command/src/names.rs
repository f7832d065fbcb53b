//! Names of atoms: the output statements of a ground program. They say which term is shown where a condition holds. They stand in a file beside the
//! program's, with `.names` behind its name; the first line says what it is, with a digest of the program that the names are of.

use std::collections::{HashMap, HashSet};
use std::ffi::OsString;
use std::path::{Path, PathBuf};
use std::str::FromStr;

use crate::files;
use crate::outcome::Failure;
use crate::rules::{holds, Body, Rule};

/// The most bytes of such a file.
const LIMIT: usize = 1 << 24;

/// How the first line of such a file begins; the digest stands behind it.
const FIRST: &str = "names of atoms, written by aspdrupe, of the program with digest ";

/// A term, and the literals under which it is shown.
#[derive(Debug, Clone, PartialEq, Eq)]
struct Term {
    text: String,
    condition: Vec<i32>,
}

/// All terms, in the order of the statements, and the atoms that are not shown and have a name all the same.
#[derive(Debug, Clone, Default, PartialEq, Eq)]
pub struct Names {
    shown: Vec<Term>,
    hidden: Vec<Term>,
    /// Whether it is said that only these are shown, even where there are none.
    only: bool,
}

/// The line that says so where there are none.
const ONLY: &[u8] = b"nothing is shown";

/// What stands before the statement of an atom that is not shown.
const HIDDEN: &[u8] = b"hidden ";

impl Names {
    /// Takes an output statement in: `4`, the term's bytes and the term, the count of literals and the literals. Whether it is one.
    pub fn take(&mut self, statement: &[u8]) -> bool {
        let term = term_of(statement);
        self.shown.extend(term.clone());
        term.is_some()
    }

    /// Takes in the names that another list has of atoms without one: they are known, and not shown.
    pub fn adopt(&mut self, all: &Names) {
        let named: HashSet<Vec<i32>> = self.terms().map(|term| term.condition.clone()).collect();
        let new = |term: &&Term| matches!(term.condition[..], [atom] if atom > 0) && !named.contains(&term.condition);
        self.hidden.extend(all.shown.iter().filter(new).cloned());
    }

    /// Forgets the names of these terms.
    pub fn forget(&mut self, texts: &[String]) {
        self.shown.retain(|term| !texts.contains(&term.text));
        self.hidden.retain(|term| !texts.contains(&term.text));
    }

    /// Those that are shown, and then the others.
    fn terms(&self) -> impl Iterator<Item = &Term> {
        self.shown.iter().chain(&self.hidden)
    }

    /// The names that stand beside a program's file; none where there are none of the program with these bytes, and why where there is such a file.
    pub fn beside(program: &Path, bytes: &[u8]) -> Result<(Names, Option<String>), Failure> {
        let path = Names::path(program);
        let mut names = Names::default();
        if !path.is_file() {
            return Ok((names, None));
        }
        let text = files::read(&path, LIMIT)?;
        let mut lines = text.split(|byte| *byte == b'\n');
        if lines.next() != Some(first_line(bytes).as_bytes()) {
            let why = format!("{} is not of this program, and its names are not used: `aspdrupe ground -o` writes both", path.display());
            return Ok((names, Some(why)));
        }
        lines.for_each(|line| match line.strip_prefix(HIDDEN) {
            Some(statement) => names.hidden.extend(term_of(statement)),
            None if line == ONLY => names.only = true,
            None => drop(names.take(line)),
        });
        Ok((names, None))
    }

    /// The file of the names of the program with these bytes, and where it is to stand: beside the program's. Another file is not overwritten.
    pub fn file_beside(&self, program: &Path, bytes: &[u8]) -> Result<(PathBuf, Vec<u8>), Failure> {
        let path = Names::path(program);
        if path.is_file() && !files::read(&path, FIRST.len())?.starts_with(FIRST.as_bytes()) {
            let why = "is no file of names that this command wrote, and is not overwritten: another place for -o";
            return Err(Failure::misuse(format!("{} {why}", path.display())));
        }
        Ok((path, format!("{}\n{}", first_line(bytes), self.text()).into_bytes()))
    }

    /// Where the names of a program's file stand.
    fn path(program: &Path) -> PathBuf {
        let mut path = OsString::from(program);
        path.push(".names");
        PathBuf::from(path)
    }

    /// The statements.
    fn text(&self) -> String {
        let statement = |term: &Term| {
            let literals: String = term.condition.iter().map(|literal| format!(" {literal}")).collect();
            format!("4 {} {} {}{literals}\n", term.text.len(), term.text, term.condition.len())
        };
        let hidden = self.hidden.iter().map(|term| format!("{}{}", String::from_utf8_lossy(HIDDEN), statement(term)));
        let nothing = self.only && self.terms().next().is_none();
        let nothing = nothing.then(|| format!("{}\n", String::from_utf8_lossy(ONLY)));
        self.shown.iter().map(statement).chain(hidden).chain(nothing).collect()
    }

    /// Whether there are none, so that atoms are told by number.
    pub fn is_empty(&self) -> bool {
        !self.only && self.terms().next().is_none()
    }

    /// Says that nothing else is shown.
    pub fn show_only(&mut self) {
        self.only = true;
    }

    /// How many terms are shown.
    pub fn count(&self) -> usize {
        self.shown.len()
    }

    /// The atom with that name.
    pub fn atom(&self, name: &str) -> Option<i32> {
        let named = |term: &&Term| term.text == name && matches!(term.condition[..], [atom] if atom > 0);
        self.terms().find(named).map(|term| term.condition[0])
    }

    /// The literals under which a term with that name is shown.
    pub fn condition(&self, name: &str) -> Option<&[i32]> {
        self.terms().find(|term| term.text == name).map(|term| &term.condition[..])
    }

    /// All atoms with a name, shown or not.
    pub fn atoms(&self) -> impl Iterator<Item = (&str, i32)> {
        self.terms().filter_map(|term| match term.condition[..] {
            [atom] if atom > 0 => Some((term.text.as_str(), atom)),
            _ => None,
        })
    }

    /// Says which atoms these names are of: a fact that is shown is one of them, and an atom without a name has one that is
    /// not shown.
    pub fn identify(&mut self, atoms: &[(&str, i32)]) {
        let numbers: HashMap<&str, i32> = atoms.iter().copied().collect();
        for term in self.shown.iter_mut().filter(|term| term.condition.is_empty()) {
            term.condition.extend(numbers.get(term.text.as_str()));
        }
        let mut named: HashSet<Vec<i32>> = self.terms().map(|term| term.condition.clone()).collect();
        for (text, atom) in atoms {
            if named.insert(vec![*atom]) {
                self.call(*atom, String::from(*text));
            }
        }
    }

    /// Gives an atom without a name one that is not shown.
    pub fn call(&mut self, atom: i32, text: String) {
        self.hidden.push(Term { text, condition: vec![atom] });
    }

    /// The number that a word is, or that of the atom with that name.
    pub fn number<T: FromStr + TryFrom<i32>>(&self, word: &str) -> Option<T> {
        word.parse().ok().or_else(|| T::try_from(self.atom(word)?).ok())
    }

    /// The terms that are shown whatever the set: facts, whose statements name no atom.
    pub fn facts(&self) -> impl Iterator<Item = &str> {
        self.shown.iter().filter(|term| term.condition.is_empty()).map(|term| term.text.as_str())
    }

    /// The terms that are shown under one literal, with the literal.
    pub fn literals(&self) -> impl Iterator<Item = (&str, i32)> {
        self.shown.iter().filter_map(|term| match term.condition[..] {
            [literal] => Some((term.text.as_str(), literal)),
            _ => None,
        })
    }

    /// Whether the atom has a name.
    pub fn has(&self, atom: i32) -> bool {
        self.terms().any(|term| term.condition[..] == [atom])
    }

    /// An atom's name, or its number where it has none.
    pub fn of(&self, atom: i32) -> String {
        let named = self.terms().find(|term| term.condition[..] == [atom]);
        named.map_or(format!("#{atom}"), |term| term.text.clone())
    }

    /// By atom, the name that [`Names::of`] gives.
    pub fn all(&self) -> HashMap<i32, &str> {
        let named = self.terms().filter_map(|term| match term.condition[..] {
            [atom] => Some((atom, term.text.as_str())),
            _ => None,
        });
        let mut all = HashMap::new();
        for (atom, name) in named {
            all.entry(atom).or_insert(name);
        }
        all
    }

    /// What a set shows: each term whose condition holds; without names the atoms' numbers.
    pub fn shown(&self, set: &[u16]) -> Vec<String> {
        if self.is_empty() {
            return set.iter().map(u16::to_string).collect();
        }
        let is_shown = |term: &&Term| term.condition.iter().all(|literal| holds(*literal, set));
        self.shown.iter().filter(is_shown).map(|term| term.text.clone()).collect()
    }

    /// A rule by names.
    pub fn rule(&self, rule: &Rule) -> String {
        let literal = |literal: &i32| format!("{}{}", if *literal < 0 { "not " } else { "" }, self.of(literal.saturating_abs()));
        let body = match &rule.body {
            Body::Plain(literals) => literals.iter().map(literal).collect::<Vec<_>>().join(", "),
            Body::Weights { bound, pairs } => {
                let element = |(of, weight): &(i32, i32)| format!("{weight}: {}", literal(of));
                format!("#sum {{ {} }} >= {bound}", pairs.iter().map(element).collect::<Vec<_>>().join("; "))
            }
        };
        let heads = rule.heads.iter().map(|head| self.of(*head)).collect::<Vec<_>>().join("; ");
        let head = if rule.choice { format!("{{{heads}}}") } else { heads };
        format!("{head} :- {body}.").trim_start().replace(" :- .", ".")
    }
}

/// The first line of the names of the program with these bytes.
fn first_line(program: &[u8]) -> String {
    format!("{FIRST}{:016x}", digest(program))
}

/// FNV-1a of 64 bits: it tells programs apart that were changed, not ones that were made to look alike.
fn digest(bytes: &[u8]) -> u64 {
    bytes.iter().fold(0xcbf2_9ce4_8422_2325, |sum, byte| (sum ^ u64::from(*byte)).wrapping_mul(0x0100_0000_01b3))
}

fn term_of(statement: &[u8]) -> Option<Term> {
    let (length, rest) = number_before_space(statement.strip_prefix(b"4 ")?)?;
    let (text, rest) = rest.split_at_checked(length)?;
    let words = std::str::from_utf8(rest.strip_prefix(b" ")?).ok()?;
    let mut numbers = words.split(' ').map(str::parse::<i32>);
    let count = numbers.next()?.ok()?;
    let condition: Vec<i32> = numbers.collect::<Result<_, _>>().ok()?;
    let whole = usize::try_from(count) == Ok(condition.len());
    whole.then(|| Term { text: String::from_utf8_lossy(text).into_owned(), condition })
}

fn number_before_space(text: &[u8]) -> Option<(usize, &[u8])> {
    let space = text.iter().position(|byte| *byte == b' ')?;
    let number = std::str::from_utf8(&text[..space]).ok()?.parse().ok()?;
    Some((number, &text[space + 1..]))
}

#[cfg(test)]
mod tests {
    use super::*;

    fn names() -> Names {
        let mut names = Names::default();
        for line in ["4 4 a(1) 1 1", "4 7 b(\"x y\" 1 2", "4 1 f 0", "4 1 t 2 3 -9"] {
            assert!(names.take(line.as_bytes()), "{line}");
        }
        names
    }

    #[test]
    fn terms_of_sets() {
        let names = names();
        assert_eq!(names.shown(&[1, 2, 3]), ["a(1)", "b(\"x y\"", "f", "t"]);
        assert_eq!(names.shown(&[9]), ["f"]);
        assert_eq!(Names::default().shown(&[3, 5]), ["3", "5"]);
        assert_eq!((names.atom("a(1)"), names.atom("f"), names.atom("t")), (Some(1), None, None));
        assert_eq!((names.number("a(1)"), names.number("-7"), names.number::<i16>("f")), (Some(1i16), Some(-7), None));
        assert_eq!([1, 3, 9].map(|atom| names.of(atom)), ["a(1)", "#3", "#9"]);
        assert_eq!(names.all(), HashMap::from([(1, "a(1)"), (2, "b(\"x y\"")]));
    }

    #[test]
    fn names_of_atoms_that_are_not_shown() {
        let mut names = names();
        let mut all = Names::default();
        for line in ["4 1 x 1 1", "4 4 c(1) 1 9", "4 1 g 0", "4 1 n 1 -4"] {
            assert!(all.take(line.as_bytes()));
        }
        names.adopt(&all);
        let mut none = Names::default();
        assert_eq!((none.shown(&[7]), none.text().as_str()), (vec![String::from("7")], ""));
        none.show_only();
        assert_eq!((none.shown(&[7]), none.text().as_str()), (vec![], "nothing is shown\n"));
        assert_eq!([1, 9, 4].map(|atom| names.of(atom)), ["a(1)", "c(1)", "#4"]);
        assert_eq!((names.atom("c(1)"), names.shown(&[1, 9]), names.count()), (Some(9), vec![String::from("a(1)"), String::from("f")], 4));
        assert!(names.text().ends_with("4 1 t 2 3 -9\nhidden 4 4 c(1) 1 9\n"), "{}", names.text());
    }

    #[test]
    fn names_that_are_told() {
        let mut names = names();
        names.identify(&[("a(1)", 1), ("f", 4), ("h", 5), ("c", 9)]);
        names.call(6, String::from("x + y"));
        let atoms = ["a(1)", "f", "h", "c", "t"].map(|name| names.atom(name));
        assert_eq!(atoms, [Some(1), Some(4), Some(5), Some(9), None]);
        assert_eq!((names.of(6), names.shown(&[4, 5, 6])), (String::from("x + y"), vec![String::from("f")]));
        assert_eq!((names.condition("t"), names.atoms().count()), (Some(&[3, -9][..]), 6));
    }

    #[test]
    fn statements_and_back() {
        let mut again = Names::default();
        for line in names().text().lines() {
            assert!(again.take(line.as_bytes()));
        }
        assert_eq!(again, names());
        for line in ["", "4", "4 9 a(1) 1 1", "4 4 a(1) 2 1", "4 4 a(1) x", "4 -1 a 0", "5 1 a 0", "4 1 a"] {
            assert!(!again.take(line.as_bytes()), "{line}");
        }
    }

    #[test]
    fn digests() {
        assert_eq!([&b""[..], b"a", b"foobar"].map(digest), [0xcbf2_9ce4_8422_2325, 0xaf63_dc4c_8601_ec8c, 0x8594_4171_f739_67e8]);
    }

    #[test]
    fn rules_by_name() {
        let names = names();
        let rule = |choice, heads: &[i32], body| names.rule(&Rule { choice, heads: heads.to_vec(), body });
        assert_eq!(rule(false, &[], Body::Plain(vec![1, -9])), ":- a(1), not #9.");
        assert_eq!(rule(true, &[1, 9], Body::Plain(Vec::new())), "{a(1); #9}.");
        assert_eq!(rule(false, &[9], Body::Weights { bound: 2, pairs: vec![(-1, 3)] }), "#9 :- #sum { 3: not a(1) } >= 2.");
    }
}
