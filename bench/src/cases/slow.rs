//! Texts that were made to be slow; they are run with `--slow` only, and once. Those with weight bodies have as many rules of one head,
//! with twelve literals each, as the table holds beside a few plain rules that make a loop of it, and steps that go through all of them.
//! Some without have as many edges as the table holds, and `l` lines over all of them; the others are about the store.

mod propagation;

use super::completion::{bodies_of, definition_words, definitions, nogood_words};
use super::{Goal, Input};
use inputs::lines::{line_of, proof_text, Line};
use inputs::rules::{choice, largest_atom, normal, weighted, Rule};
use inputs::{ROOM, TEXT_LIMIT};

const MOST: i32 = 12;
const HEAD: i32 = MOST + 1;

pub fn inputs() -> Vec<Input> {
    let with_rules = [
        one_heavy(true),
        one_heavy(false),
        shared_bodies(5),
        shared_bodies(6),
        shared_by_support(),
        nothing_named(),
        in_no_body(),
        many_edges(60),
        many_edges(6),
        one_ring("ring-65", false),
        one_ring("ring-65-back", true),
    ];
    [propagation::inputs(), with_rules.map(|input| input.with_goal(Goal::Milliseconds(500))).into()].concat()
}

/// As many rules as the table holds, with these weights in the order of the atoms, and one by which the head is a loop.
fn rules(bound: i32, weight: impl Fn(i32) -> i32) -> Vec<Rule> {
    let pairs: Vec<(i32, i32)> = (1..=MOST).map(|atom| (atom, weight(atom))).collect();
    filled(weighted(&[HEAD], bound, &pairs), vec![normal(HEAD, &[HEAD])])
}

/// As many times the rule as the table holds before the others.
fn filled(rule: Rule, others: Vec<Rule>) -> Vec<Rule> {
    let room = ROOM - others.iter().map(Rule::words).sum::<usize>();
    [vec![rule.clone(); room / rule.words()], others].concat()
}

/// A proof as it grows, with the words that are live.
struct Writing {
    lines: Vec<Line>,
    bytes: usize,
    words: usize,
}

impl Writing {
    fn empty() -> Writing {
        Writing { lines: Vec::new(), bytes: 0, words: 0 }
    }

    /// Definitions of all bodies.
    fn of(rules: &[Rule]) -> Writing {
        let bodies = bodies_of(&rules[..1]);
        let lines = definitions(largest_atom(rules), &bodies);
        let bytes = proof_text(&lines).len();
        Writing { lines, bytes, words: bodies.iter().map(|body| definition_words(body)).sum() }
    }

    /// A line that adds a nogood of so many words; whether it fits.
    fn adds(&mut self, line: Line, words: usize) -> bool {
        let bytes = line_of(line.letter, &line.numbers).len();
        let fits = self.bytes + bytes <= TEXT_LIMIT && self.words + words <= ROOM;
        if fits {
            self.bytes += bytes;
            self.words += words;
            self.lines.push(line);
        }
        fits
    }

    /// A `d` line that frees the words of its nogood; whether it fits.
    fn deletes(&mut self, literals: &[i32]) -> bool {
        let freed = nogood_words(literals.len());
        let fits = self.adds(Line::of(b'd', literals), 0);
        self.words -= if fits { freed } else { 0 };
        fits
    }

    /// `l` lines over a set without external bodies, each with a deletion, until the text is full.
    fn looping(set: &[i32]) -> Writing {
        let mut writing = Writing::empty();
        while writing.adds(Line::of(b'l', set), nogood_words(1)) && writing.deletes(&set[..1]) {}
        writing
    }
}

/// Weight 1 eleven times and 4,095 once, the bound 4,095: a single body, which is found last or first in the order of atoms. Then `l` lines
/// until the store is full, and a deletion before each further one until the text is.
fn one_heavy(last: bool) -> Input {
    let heavy = if last { MOST } else { 1 };
    let rules = rules(4_095, |atom| if atom == heavy { 4_095 } else { 1 });
    let mut writing = Writing::of(&rules);
    let step = || Line::of(b'l', &[HEAD]);
    let words = nogood_words(2);
    while writing.adds(step(), words) || writing.deletes(&[HEAD, -(HEAD + 1)]) && writing.adds(step(), words) {}
    Input::of(if last { "heavy-last" } else { "heavy-first" }, &rules, &writing.lines)
}

/// Twelve weights of 1: the same bodies in every rule, 792 with the bound 5 and 924 with 6. They are named, their definitions deleted as far as
/// the text leaves room for it, and then there are `l` lines while they fit.
fn shared_bodies(bound: i32) -> Input {
    let rules = rules(bound, |_| 1);
    let bodies = bodies_of(&rules[..1]);
    let definitions = definitions(HEAD, &bodies);
    let room = TEXT_LIMIT - proof_text(&definitions).len() - 20 * line_of(b'l', &[HEAD]).len();
    let (mut writing, mut spent) = (Writing::empty(), 0);
    for (place, line) in definitions.into_iter().enumerate() {
        let (name, body) = (line.numbers[0], line.numbers[1..].to_vec());
        writing.adds(line, definition_words(&body));
        let nogoods = [vec![[&[-name], &body[..]].concat()], body.iter().map(|literal| vec![name, -literal]).collect()].concat();
        for nogood in nogoods {
            let bytes = line_of(b'd', &nogood).len();
            if spent + bytes <= room * (place + 1) / bodies.len() && writing.deletes(&nogood) {
                spent += bytes;
            }
        }
    }
    while writing.adds(Line::of(b'l', &[HEAD]), nogood_words(1 + bodies.len())) {}
    Input::of(format!("shared-{}", bodies.len()), &rules, &writing.lines)
}

/// Weight 1 eleven times and 2 once, the bound 2: the same 56 bodies in every rule, few enough for an `s` line. After the `s` line there are
/// `l` lines until the store is full, and a deletion before each further one until the text is.
fn shared_by_support() -> Input {
    let rules = rules(2, |atom| if atom == MOST { 2 } else { 1 });
    let mut writing = Writing::of(&rules);
    let mut names: Vec<i32> = writing.lines.iter().map(|line| line.numbers[0]).collect();
    let words = nogood_words(1 + names.len());
    let nogood: Vec<i32> = [HEAD].into_iter().chain(names.iter().map(|name| -name)).collect();
    // the support names the head's own body too
    names.push(HEAD + 1 + names.len() as i32);
    writing.adds(Line::of(b'b', &[names[names.len() - 1], HEAD]), definition_words(&[HEAD]));
    writing.adds(Line::with(b's', HEAD, &names), words + 1);
    let step = || Line::of(b'l', &[HEAD]);
    while writing.adds(step(), words) || writing.deletes(&nogood) && writing.adds(step(), words) {}
    Input::of("shared-56", &rules, &writing.lines)
}

/// The same 924 bodies in every rule, none of them named, and an `s` line, which is refused.
fn nothing_named() -> Input {
    Input::of("unnamed-924", &rules(6, |_| 1), &[Line::of(b's', &[HEAD])])
}

/// The weight 2,000, ten even weights near 200, and 1, with an even bound that only sets with the first reach, by half of the others: the
/// last stands in none, which takes long to find out. The first, the last and the head are a loop by plain rules, and no body is external.
fn in_no_body() -> Input {
    let (head, first, last) = (1, 2, 3);
    let pairs: Vec<(i32, i32)> = (0..10).map(|place| (4 + place, 200 + 2 * place)).chain([(first, 2_000), (last, 1)]).collect();
    let ring = vec![normal(head, &[last]), normal(first, &[head]), normal(last, &[first])];
    let rules = filled(weighted(&[head], 3_044, &pairs), ring);
    Input::of("in-no-body", &rules, &Writing::looping(&[head, first, last]).lines)
}

/// Choice rules of as many heads as literals, all of them in the set.
fn many_edges(count: i32) -> Input {
    let atoms: Vec<i32> = (1..=count).collect();
    let rules = filled(choice(&atoms, &atoms), Vec::new());
    Input::of(format!("edges-{count}"), &rules, &Writing::looping(&atoms).lines)
}

/// Rules of one head in the set and eleven literals, of which one is in it: a ring of as many atoms as a line holds, in the order of the
/// line or against it.
fn one_ring(name: &str, turned: bool) -> Input {
    let count = 65;
    let outside: Vec<i32> = (count + 1..=count + 10).map(|atom| if atom % 2 == 0 { atom } else { -atom }).collect();
    let link = |place: i32| {
        let (from, to) = (place % count + 1, (place + 1) % count + 1);
        let (from, to) = if turned { (to, from) } else { (from, to) };
        normal(to, &[&[from], &outside[..]].concat())
    };
    let rules: Vec<Rule> = (0..(ROOM / link(0).words()) as i32).map(link).collect();
    Input::of(name, &rules, &Writing::looping(&(1..=count).collect::<Vec<_>>()).lines)
}
