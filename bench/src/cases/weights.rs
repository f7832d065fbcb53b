//! Programs with weight bodies of twelve literals.
//!
//! `sums-12` has constraints on sums that no choice meets: what is chosen may not reach a bound, and what is left out may not reach what the
//! bound leaves of the whole. Nearly all of their bodies are named and completed, and a search refutes them. `sums-wide` has as many rules of
//! one head as the table holds beside two plain ones, by which the head is a loop, alone and with positive literals of the others; all bodies
//! are named, and then there are `s` and `l` lines in turn until the store is full. `costs-12` has a cheapest choice of twelve: what is chosen has to
//! reach a bound, and as many rules as there may be forbid others.

use super::completion::{bodies_of, definition_words, definitions, externals, nogood_words, supports};
use super::{refutations, Certificate, Input};
use inputs::lines::{line_of, proof_text, Line};
use inputs::random::Random;
use inputs::rules::{choice, constraint, largest_atom, normal, program_text, weighted, Rule};
use inputs::{ROOM, TEXT_LIMIT};

/// The most literals of a weight body.
const MOST: i32 = 12;

pub fn inputs() -> Vec<Input> {
    vec![sums(), wide()]
}

/// The seed of the weights and of the search.
const SEED: u64 = 5;

/// Twelve weights.
fn weights() -> Vec<i32> {
    let mut random = Random::from_seed(SEED);
    (0..MOST).map(|_| random.between(2, 9)).collect()
}

/// The weights on the atoms, or on their complements.
fn signed(weights: &[i32], sign: i32) -> Vec<(i32, i32)> {
    weights.iter().zip(1..).map(|(weight, atom)| (sign * atom, *weight)).collect()
}

/// A choice of twelve, two constraints on their sum that leave nothing, and a third one that is not named.
fn sums() -> Input {
    let weights = weights();
    let signed = |sign| signed(&weights, sign);
    let all: i32 = weights.iter().sum();
    let bound = all * 3 / 10;
    let mut rules = vec![choice(&(1..=MOST).collect::<Vec<_>>(), &[])];
    rules.push(weighted(&[], bound, &signed(1)));
    rules.push(weighted(&[], all - bound + 1, &signed(-1)));
    let lines = refutations::refute(&rules, 4_000, SEED).expect("no sum is both below the bound and not below it");
    rules.push(weighted(&[], all - 20, &signed(1)));
    Input::of("sums-12", &rules, &lines)
}

/// The most rules of a program, the restriction among them so that the restricted program can be checked as a text.
const RULES: usize = 1_024;

/// A choice of twelve that has to reach a bound, the set of them that costs least, and constraints against others.
pub fn certificate() -> Certificate {
    let weights = weights();
    let all: i32 = weights.iter().sum();
    let bound = all * 3 / 10;
    let (set, cost) = cheapest(&weights, bound);
    let mut rules = vec![choice(&(1..=MOST).collect::<Vec<_>>(), &[]), weighted(&[], all - bound + 1, &signed(&weights, -1))];
    let restriction = weighted(&[], cost, &signed(&weights, 1));
    let proof = refutations::refute(&[&rules[..], std::slice::from_ref(&restriction)].concat(), 4_000, SEED);
    let mut random = Random::from_seed(SEED);
    rules.extend((rules.len()..RULES - 1).map(|_| against_others(&set, &mut random)));
    Certificate {
        name: String::from("costs-12"),
        program: program_text(&rules),
        costs: signed(&weights, 1).into_iter().flat_map(|(atom, weight)| [atom as i16, weight as i16]).collect(),
        set: set.into_iter().map(|atom| atom as u16).collect(),
        cost: cost as usize,
        proof: proof.expect("none of those that reach the bound costs less"),
        restricted: program_text(&[&rules[..], &[restriction]].concat()),
    }
}

/// A set of atoms whose weights reach the bound and are least in sum, and that sum.
fn cheapest(weights: &[i32], bound: i32) -> (Vec<i32>, i32) {
    let set_of = |bits: u32| -> Vec<i32> { (1..=MOST).filter(|atom| bits >> (atom - 1) & 1 == 1).collect() };
    let sum_of = |set: &[i32]| -> i32 { set.iter().map(|atom| weights[*atom as usize - 1]).sum() };
    let sets = (0..1 << MOST).map(set_of).map(|set| (sum_of(&set), set));
    sets.filter(|(sum, _)| *sum >= bound).min().map(|(sum, set)| (set, sum)).expect("all weights together reach the bound")
}

/// A constraint of eleven literals, one of which is false in the set.
fn against_others(set: &[i32], random: &mut Random) -> Rule {
    let atoms = random.different(MOST as usize - 1, MOST);
    let mut body: Vec<i32> = atoms.into_iter().map(|atom| random.signed(atom)).collect();
    body[0] = if set.contains(&body[0].abs()) { -body[0].abs() } else { body[0].abs() };
    constraint(&body)
}

/// As many rules as the table holds.
fn wide() -> Input {
    let head = MOST + 1;
    let pairs: Vec<(i32, i32)> = (1..=MOST).map(|atom| (if atom % 4 == 0 { -atom } else { atom }, 1)).collect();
    let mut rules = vec![normal(head, &[head]), choice(&(1..=MOST).collect::<Vec<_>>(), &[head])];
    let (plain, each) = (rules.iter().map(Rule::words).sum::<usize>(), weighted(&[head], 1, &pairs).words());
    // in turn every single literal, and all literals but one
    let bounds = [1, MOST - 1].into_iter().cycle();
    rules.extend(bounds.take((ROOM - plain) / each).map(|bound| weighted(&[head], bound, &pairs)));
    Input::of("sums-wide", &rules, &wide_proof(&rules, &mut Random::from_seed(6)))
}

/// The definitions of the bodies, and then `s` and `l` lines in turn while they fit.
fn wide_proof(rules: &[Rule], random: &mut Random) -> Vec<Line> {
    // the first rules have all the bodies that there are
    let rules = &rules[..4];
    let (atoms, bodies) = (largest_atom(rules), bodies_of(rules));
    let mut others: Vec<i32> = rules[2].body.literals().into_iter().filter(|literal| *literal > 0).collect();
    let mut lines = definitions(atoms, &bodies);
    let mut bytes = proof_text(&lines).len();
    let mut words: usize = bodies.iter().map(|body| definition_words(body)).sum();
    for turn in 0.. {
        random.shuffle(&mut others);
        let set = if turn % 4 == 1 { vec![atoms] } else { [&[atoms], &others[..1 + turn % 3]].concat() };
        let (line, names) = match turn % 2 {
            0 => {
                let names = supports(rules, atoms, &bodies, atoms);
                (Line::with(b's', atoms, &names), names)
            }
            _ => (Line::of(b'l', &set), externals(rules, atoms, &bodies, &set)),
        };
        bytes += line_of(line.letter, &line.numbers).len();
        words += nogood_words(1 + names.len());
        if words > ROOM || bytes > TEXT_LIMIT {
            break;
        }
        lines.push(line);
    }
    lines
}
