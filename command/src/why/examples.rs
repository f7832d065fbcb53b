//! The worked examples of source 003 that have a ground program, with what it says of each. Its justifications are held to
//! what is printed here, line for line; each of them is certified on the way.

use std::collections::BTreeMap;

use super::assumptions::{candidates, minimal};
use super::closure::{Assumption, Closure, Lines};
use super::program::Plain;
use super::random::{answer_sets, explained};
use super::view::{indented, literal, View};
use crate::names::Names;
use crate::progress::Progress;

/// A ground program by names: `a :- b, not c.`, a choice `{a; b} :- c.`, a constraint `:- a.`
struct Example {
    text: String,
    names: Names,
    plain: Plain,
    /// The answer sets, by trying all.
    sets: Vec<Vec<u16>>,
}

impl Example {
    fn of(program: &str) -> Example {
        let mut numbers: BTreeMap<String, usize> = BTreeMap::new();
        // Atoms by the alphabet.
        let atoms =
            |part: &str| part.split([',', ';', '{', '}']).map(|word| String::from(word.trim().trim_start_matches("not "))).collect();
        for part in program.split('.').flat_map(|rule| rule.split(":-")) {
            let named: Vec<String> = atoms(part);
            numbers.extend(named.into_iter().filter(|name| !name.is_empty()).map(|name| (name, 0)));
        }
        let mut names = Names::default();
        for (place, (name, number)) in numbers.iter_mut().enumerate() {
            *number = place + 1;
            assert!(names.take(format!("4 {} {name} 1 {}", name.len(), place + 1).as_bytes()));
        }
        let number = |literal: &str| match literal.trim().strip_prefix("not ") {
            Some(name) => format!(" -{}", numbers[name]),
            None => format!(" {}", numbers[literal.trim()]),
        };
        let list = |part: &str| {
            let words: Vec<String> = part.split([',', ';']).filter(|word| !word.trim().is_empty()).map(number).collect();
            format!("{}{}", words.len(), words.concat())
        };
        let line = |rule: &str| {
            let (head, body) = rule.split_once(":-").unwrap_or((rule, ""));
            let choice = usize::from(head.contains('{'));
            format!("1 {choice} {} 0 {}\n", list(head.trim_matches([' ', '\n', '{', '}'])), list(body))
        };
        let lines: String = program.split('.').filter(|rule| !rule.trim().is_empty()).map(line).collect();
        let text = format!("asp 1 0 0\n{lines}0\n");
        let (plain, sets) = answer_sets(&text);
        Example { text, names, plain, sets }
    }

    fn atom(&self, name: &str) -> i32 {
        self.names.atom(name).unwrap()
    }

    /// The answer sets by name.
    fn shown(&self) -> Vec<String> {
        self.sets.iter().map(|set| self.names.shown(set).join(" ")).collect()
    }

    /// What holds and what does not in the well-founded model.
    fn well_founded(&self) -> (String, String) {
        let closure = Closure::of(&self.plain, &[], Lines::All);
        let of = |sign: i32| {
            let atoms = (1..=self.plain.atoms as i32).filter(|atom| closure.holds(sign * atom));
            atoms.map(|atom| self.names.of(atom)).collect::<Vec<_>>().join(" ")
        };
        (of(1), of(-1))
    }

    fn set(&self, shown: &str) -> &[u16] {
        let place = self.shown().iter().position(|set| set == shown);
        &self.sets[place.unwrap_or_else(|| panic!("{shown}, not of {:?}", self.shown()))]
    }

    /// The tentative assumptions of an answer set, and a minimal assumption of it.
    fn assumptions(&self, shown: &str) -> (String, String) {
        let set = self.set(shown);
        let all = candidates(&self.plain, set, &Closure::of(&self.plain, &[], Lines::All));
        let text = |list: &[Assumption]| list.iter().map(|of| literal(of.literal(), &self.names)).collect::<Vec<_>>().join(", ");
        (text(&all), text(&minimal(&self.plain, set, &all)))
    }

    /// The justification of a literal of an answer set, its assumptions before it.
    fn why(&self, shown: &str, text: &str) -> Vec<String> {
        let of = text.strip_prefix("not ").map_or_else(|| self.atom(text), |name| -self.atom(name));
        let (assumptions, _, tree) = explained(&self.plain, &self.text, self.set(shown), of, &Progress::start());
        let tree = tree.unwrap();
        let view = View { plain: &self.plain, names: &self.names, known: &self.names, told: self.plain.atoms, tree: &tree };
        let assumed: Vec<String> = assumptions.iter().map(|of| literal(of.literal(), &self.names)).collect();
        [vec![assumed.join(", ")], indented(&view.fold()).lines().map(String::from).collect()].concat()
    }
}

fn none() -> String {
    String::new()
}

fn texts(one: &str, other: &str) -> (String, String) {
    (String::from(one), String::from(other))
}

const P1: &str = "q :- a, not p. p :- a, not q. a :- b. b.";

#[test]
fn example_3_and_5() {
    let example = Example::of(P1);
    assert_eq!(example.text, "asp 1 0 0\n1 0 1 4 0 2 1 -3\n1 0 1 3 0 2 1 -4\n1 0 1 1 0 1 2\n1 0 1 2 0 0\n0\n");
    assert_eq!(example.shown(), ["a b p", "a b q"]);
    // Of NANT = {p, q} the one that is not in the set is assumed to be false.
    assert_eq!(example.assumptions("a b q"), texts("not p", "not p"));
    // The well-founded model is <{a, b}, {}>.
    assert_eq!(example.well_founded(), texts("a b", ""));
    assert_eq!(example.why("a b q", "a"), ["", "a: by a :- b.", "  b: a fact"]);
    assert_eq!(example.why("a b q", "q"), ["not p", "q: by q :- a, not p.", "  a: by a :- b.", "    b: a fact", "  not p: assumed"]);
}

#[test]
fn example_8() {
    let example = Example::of("p :- q, r. q. q :- r. r.");
    assert_eq!(example.shown(), ["p q r"]);
    // Local consistent explanations: {q, r} of p; of q {T} or {r}, and of these the fact is taken; {T} of r.
    assert_eq!(example.why("p q r", "p"), ["", "p: by p :- q, r.", "  q: a fact", "  r: a fact"]);
}

#[test]
fn example_9_and_13() {
    let example = Example::of("p :- not q. q :- not p.");
    assert_eq!(example.shown(), ["p", "q"]);
    // The partial interpretation <{p}, {}> is no answer set; <{p}, {q}> is one. {not q} explains p, and q is assumed.
    assert_eq!(example.why("p", "p"), ["not q", "p: by p :- not q.", "  not q: assumed"]);
    assert_eq!(example.why("p", "not q"), ["not q", "not q: assumed"]);
    // WF = <{}, {}>, TA = {q}, and {q} is the only assumption.
    assert_eq!((example.well_founded(), example.assumptions("p")), (texts("", ""), texts("not q", "not q")));
}

const EXAMPLE_10: &str = "a :- f, not b. b :- e, not a. e. f :- e. d :- c, e. c :- d, f.";

#[test]
fn example_10_11_and_15() {
    let example = Example::of(EXAMPLE_10);
    assert_eq!((example.shown(), example.well_founded()), (vec![String::from("a e f"), String::from("b e f")], texts("e f", "c d")));
    // Assumptions(P, M1) = {{a}} and Assumptions(P, M2) = {{b}}.
    assert_eq!((example.assumptions("b e f"), example.assumptions("a e f")), (texts("not a", "not a"), texts("not b", "not b")));
    // Figure 4: b+, f+, e+, c- and a- with regard to M1 and {a}.
    assert_eq!(example.why("b e f", "b"), ["not a", "b: by b :- not a, e.", "  not a: assumed", "  e: a fact"]);
    assert_eq!(example.why("b e f", "f"), ["", "f: by f :- e.", "  e: a fact"]);
    assert_eq!(example.why("b e f", "e"), ["", "e: a fact"]);
    assert_eq!(example.why("b e f", "not c"), ["", "not c: {c, d} hold only each other up"]);
    assert_eq!(example.why("b e f", "not a"), ["not a", "not a: assumed"]);
    // Figure 3: (ii) is the e-graph of a+ with regard to M2, f explained down to the fact; in M1 a does not hold.
    assert_eq!(example.why("a e f", "a"), ["not b", "a: by a :- not b, f.", "  not b: assumed", "  f: by f :- e.", "    e: a fact"]);
    assert_eq!(example.why("a e f", "not d"), ["", "not d: {c, d} hold only each other up"]);
}

#[test]
fn example_12() {
    let example = Example::of("p :- not q. q :- not p. r :- p, s. t :- q, u. s.");
    assert_eq!(example.shown(), ["q s", "p r s"]);
    assert_eq!(example.assumptions("p r s"), texts("not q", "not q"));
    // 003 says <{s}, {u}>. But the only rule for t leans on u, which no rule gives: t is false in the well-founded model
    // too, and explained without an assumption.
    assert_eq!(example.well_founded(), texts("s", "t u"));
    assert_eq!(example.why("q s", "not t"), ["", "not t: t :- q, u. fails", "  not u: no rule gives it"]);
    assert_eq!(example.why("p r s", "r"), ["not q", "r: by r :- p, s.", "  p: by p :- not q.", "    not q: assumed", "  s: a fact"]);
    assert_eq!(example.why("q s", "not r"), ["not p", "not r: r :- p, s. fails", "  not p: assumed"]);
}

#[test]
fn example_14() {
    let example = Example::of("a :- f, not b. b :- e, not a. e. f :- e. d :- c, e. c :- d, f, not k. k :- a.");
    assert_eq!((example.shown(), example.well_founded()), (vec![String::from("b e f"), String::from("a e f k")], texts("e f", "c d")));
    // TA = {a, k}; {a} is an assumption, and {a, k} is one that is not minimal.
    assert_eq!(example.assumptions("b e f"), texts("not a, not k", "not a"));
    assert_eq!(example.why("b e f", "not k"), ["not a", "not k: k :- a. fails", "  not a: assumed"]);
    assert_eq!(example.why("b e f", "not c"), ["", "not c: {c, d} hold only each other up"]);
    assert_eq!(example.why("a e f k", "k").first(), Some(&String::from("not b")));
}

#[test]
fn example_20() {
    // No answer set has p false; the computation of 003 for that comes to a conflict.
    let example = Example::of("p :- not q. q :- not p. r :- not p. p :- r.");
    assert_eq!((example.shown(), example.assumptions("p")), (vec![String::from("p")], texts("not q", "not q")));
    assert_eq!(example.why("p", "p"), ["not q", "p: by p :- not q.", "  not q: assumed"]);
    let r = example.why("p", "not r");
    assert_eq!(r, ["not q", "not r: r :- not p. fails", "  p: by p :- not q.", "    not q: assumed"]);
}

#[test]
fn example_21() {
    // Without the bounds, which are constraints: figure 7 has t+ and s+ by the choice, whose body p and q are, and r-
    // assumed.
    let example = Example::of("p. q. {r; s; t} :- p, q.");
    let why = example.why("p q s t", "s");
    assert_eq!(why, ["s", "s: chosen by {r; s; t} :- p, q.", "  p: a fact", "  q: a fact"]);
    assert_eq!(example.why("p q s t", "not r"), ["not r", "not r: left by {r; s; t} :- p, q."]);
    assert_eq!(example.assumptions("p q s t").1, "not r, s, t");
}

#[test]
fn example_24() {
    // The normal rules r1 and r2, with -a written n, have no answer set; with b of r3 there is one.
    let conflict = Example::of("a :- not b. n. :- a, n.");
    assert_eq!(conflict.shown(), Vec::<String>::new());
    let example = Example::of("a :- not b. n. :- a, n. b.");
    assert_eq!(example.shown(), ["b n"]);
    assert_eq!(example.why("b n", "not a"), [none(), String::from("not a: a :- not b. fails"), String::from("  b: a fact")]);
}

#[test]
fn by_the_contrary() {
    // None of 003: `not a` follows step by step by `not b` and `not d`. Trimming needs neither: a rule with `not a` in its
    // body gives no a.
    let example = Example::of("{a} :- b, not a. b :- d. c :- a.");
    let why = [
        "",
        "not c: otherwise all of this holds, which cannot be, as a needs a rule whose body holds",
        "  a: then it holds, as c needs a rule whose body holds",
        "    c: supposed, against what is asked about",
        "  not (not a, b): then it holds, as a body holds where its literals do",
        "    a: as above",
    ];
    assert_eq!(example.why("", "not c"), why);
    let supposed = ["", "not a: {a} :- not a, b. fails", "  a: supposed, against what is asked about"];
    assert_eq!(example.why("", "not a"), supposed);
}
