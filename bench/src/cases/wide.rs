//! As many rules and table words as there may be, and thousands of `l` and `s` lines until the store is full: each of them is a
//! question about the whole program. The `l` lines are over loops of one to three atoms.

use super::completion::{bodies_of, definition_words, definitions, edges, externals, nogood_words, supports};
use super::{Goal, Input};
use inputs::lines::{line_of, proof_text, Line};
use inputs::random::Random;
use inputs::rules::{largest_atom, normal, Rule};
use inputs::{ROOM, TEXT_LIMIT};

/// The rules; with one head and so many body literals each they fill the table.
const RULES: usize = 1_024;
const LITERALS: usize = ROOM / RULES - 5;

/// The different bodies, and the atoms that they are over.
const BODIES: usize = 64;
const INNER: i32 = 96;

pub fn input() -> Input {
    let rules = rules(&mut Random::from_seed(3));
    assert_eq!(rules.iter().map(Rule::words).sum::<usize>(), ROOM);
    Input::of("wide-1024", &rules, &proof(&rules, &mut Random::from_seed(4))).with_goal(Goal::Ratio(2.0))
}

/// A rule for each head and a second one for the inner atoms, each with one of a few bodies.
fn rules(random: &mut Random) -> Vec<Rule> {
    let bodies: Vec<Vec<i32>> = (0..BODIES).map(|_| random.literals(LITERALS, INNER)).collect();
    let heads = (1..=RULES as i32 - INNER).chain(1..=INNER);
    heads.map(|head| normal(head, &bodies[random.below(BODIES)])).collect()
}

/// The definitions of the bodies, and then `s` and `l` lines in turn while they fit.
fn proof(rules: &[Rule], random: &mut Random) -> Vec<Line> {
    let atoms = largest_atom(rules);
    let bodies = bodies_of(rules);
    let loops = small_loops(rules);
    let mut lines = definitions(atoms, &bodies);
    let mut bytes = proof_text(&lines).len();
    let mut words: usize = bodies.iter().map(|body| definition_words(body)).sum();
    for turn in 0.. {
        let (line, size) = match turn % 2 {
            0 => support_line(rules, atoms, &bodies, turn / 2),
            _ => loop_line(rules, atoms, &bodies, &loops, random),
        };
        bytes += line_of(line.letter, &line.numbers).len();
        words += size;
        if words > ROOM || bytes > TEXT_LIMIT {
            break;
        }
        lines.push(line);
    }
    lines
}

/// An `s` line, and the words of its nogood.
fn support_line(rules: &[Rule], atoms: i32, bodies: &[Vec<i32>], turn: usize) -> (Line, usize) {
    let atom = turn as i32 % atoms + 1;
    let names = supports(rules, atoms, bodies, atom);
    (Line::with(b's', atom, &names), nogood_words(1 + names.len()))
}

/// An `l` line for a loop of one to three atoms, and the words of its nogood.
fn loop_line(rules: &[Rule], atoms: i32, bodies: &[Vec<i32>], loops: &[Vec<Vec<i32>>; 3], random: &mut Random) -> (Line, usize) {
    let count = random.below(loops.len());
    let set = random.pick(&loops[count]);
    let names = externals(rules, atoms, bodies, set);
    (Line::of(b'l', set), nogood_words(1 + names.len()))
}

/// The loops of one, two and three inner atoms: edges to itself, to and fro, and round.
fn small_loops(rules: &[Rule]) -> [Vec<Vec<i32>>; 3] {
    let edges = edges(rules);
    let goes = |from: i32, to: i32| edges.contains(&(from, to));
    let mut loops = [Vec::new(), Vec::new(), Vec::new()];
    for first in (1..=INNER).filter(|&atom| goes(atom, atom)) {
        loops[0].push(vec![first]);
    }
    for &(first, second) in edges.iter().filter(|(from, to)| from != to && *to <= INNER) {
        if goes(second, first) {
            loops[1].push(vec![first, second]);
        }
        let round = |&third: &i32| third != first && third != second && goes(second, third) && goes(third, first);
        loops[2].extend((1..=INNER).filter(round).map(|third| vec![first, second, third]));
    }
    loops
}
