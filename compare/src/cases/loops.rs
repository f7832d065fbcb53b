//! Sets of atoms for `l` lines, and programs with many loops, whose proofs name bodies and are `l` lines for the rest.

use inputs::programs::{literals, weight_body};
use inputs::random::Random;
use inputs::rules::{choice, constraint, normal, Rule};

use super::guided;
use super::refutations::Author;
use crate::reference::loops::{edges, reached};
use crate::reference::models::Set;
use crate::reference::program::Program;
use crate::reference::LINE_LIMIT;

/// Different atoms in any order: a third of the sets are loops, a third loops with one atom more or less, a third anything. Where the
/// search finds no loop it is anything too.
pub fn any_set(program: &Program, random: &mut Random) -> Vec<i32> {
    let kind = random.below(3);
    let found = if kind < 2 { some_loop(program, random) } else { None };
    let mut set: Vec<i32> = match found {
        Some(found) => found.into_iter().collect(),
        None => {
            let count = random.between(1, 4) as usize;
            random.different(count, program.atoms.max(1))
        }
    };
    random.shuffle(&mut set);
    if kind == 1 {
        move_one(&mut set, program.atoms, random);
    }
    set.truncate(LINE_LIMIT);
    set
}

/// Takes an atom out, or puts one in.
fn move_one(set: &mut Vec<i32>, atoms: i32, random: &mut Random) {
    if set.len() > 1 && random.percent(50) {
        set.pop();
        return;
    }
    let others: Vec<i32> = (1..=atoms).filter(|atom| !set.contains(atom)).collect();
    let place = random.below(set.len() + 1);
    set.insert(place, if others.is_empty() { atoms + 1 } else { *random.pick(&others) });
}

/// A loop inside a random share of the atoms: those that an atom reaches and that reach it.
fn some_loop(program: &Program, random: &mut Random) -> Option<Set> {
    let share = *random.pick(&[100, 100, 80, 50]);
    let among: Set = (1..=program.atoms).filter(|_| random.percent(share)).collect();
    let edges = edges(&program.plain, &among);
    let mut starts: Vec<i32> = among.into_iter().collect();
    random.shuffle(&mut starts);
    starts.into_iter().find_map(|atom| {
        let found: Set = reached(&edges, atom).into_iter().filter(|other| reached(&edges, *other).contains(&atom)).collect();
        Some(found).filter(|found| !found.is_empty())
    })
}

/// Rings over some of the atoms each, with rules of every kind on the way and across: edges by one literal of several, by choices of
/// several heads, by weights that may count for nothing, and rules that only look like edges.
pub fn rules(random: &mut Random) -> Vec<Rule> {
    let atoms = random.between(2, 9);
    let mut rules = Vec::new();
    for _ in 0..random.between(1, 3) {
        let length = random.between(1, atoms) as usize;
        let ring = random.different(length, atoms);
        for place in 0..ring.len() {
            rules.push(edge(ring[place], ring[(place + 1) % ring.len()], atoms, random));
        }
    }
    for _ in 0..random.below(4) {
        rules.push(edge(random.between(1, atoms), random.between(1, atoms), atoms, random));
    }
    if random.percent(40) {
        rules.push(constraint(&random.literals(2, atoms)));
    }
    random.shuffle(&mut rules);
    rules
}

/// A rule that has an edge from one atom to the other, or nearly so.
fn edge(from: i32, to: i32, atoms: i32, random: &mut Random) -> Rule {
    let others = |count: usize, negated: usize, random: &mut Random| -> Vec<i32> {
        literals(random, count, atoms, negated).into_iter().filter(|literal| literal.abs() != from).collect()
    };
    let more = random.below(3);
    let body = [vec![from], others(more, 50, random)].concat();
    match random.below(10) {
        0 => normal(to, &[-from]),
        1 => constraint(&body),
        2 | 3 => {
            let count = random.between(1, 3) as usize;
            let heads: Vec<i32> = random.different(count, atoms).into_iter().filter(|head| *head != to).collect();
            choice(&[vec![to], heads].concat(), &body)
        }
        4..=6 => {
            let body = [vec![from], others(4, 20, random)].concat();
            Rule { choice: random.percent(30), heads: vec![to], body: weight_body(&body, random) }
        }
        _ => normal(to, &body),
    }
}

/// Names for most bodies, and then `l` lines for the most part; a refused one is most often left out.
pub fn proof(program: &Program, random: &mut Random) -> Vec<u8> {
    let mut author = Author::of(program);
    let share = *random.pick(&[100, 100, 90, 30]);
    for rule in &program.plain {
        if random.percent(share) {
            author.named(random, &rule.body);
        }
    }
    for _ in 0..random.between(1, 12) {
        let (letter, numbers) = match random.percent(80) {
            true => (b'l', any_set(program, random)),
            false => guided::any_step(&author, random),
        };
        if !guided::write_or_end(&mut author, letter, &numbers, random, 25) {
            break;
        }
    }
    author.text()
}

#[cfg(test)]
mod tests {
    use super::*;
    use crate::reference::check::{check, Verdict};
    use crate::reference::loops::is_loop;
    use crate::reference::program::read;
    use inputs::programs;
    use inputs::rules::program_text;

    fn readable(rules: &[Rule]) -> Program {
        read(&program_text(rules), 16_384).unwrap()
    }

    #[test]
    fn a_third_are_loops() {
        let (mut loops, mut nearly, mut many) = (0, 0, 0);
        for index in 0..3_000 {
            let mut random = Random::of(1, "loops", index);
            let program = readable(&rules(&mut random));
            let set = any_set(&program, &mut random);
            let found = is_loop(&program.plain, &set);
            loops += usize::from(found);
            many += usize::from(found && set.len() > 2);
            let without = |place: usize| [&set[..place], &set[place + 1..]].concat();
            let near = |place: usize| is_loop(&program.plain, &without(place));
            nearly += usize::from(!found && set.len() > 1 && (0..set.len()).any(near));
        }
        assert!(loops > 1_000 && nearly > 200 && many > 150, "{loops} {nearly} {many}");
    }

    /// Of the small programs of other families too, so many sets are loops.
    #[test]
    fn small_programs_have_loops() {
        let mut loops = 0;
        for index in 0..1_000 {
            let mut random = Random::of(1, "small loops", index);
            let program = readable(&programs::small(&mut random));
            loops += usize::from(is_loop(&program.plain, &any_set(&program, &mut random)));
        }
        assert!(loops > 150, "{loops}");
    }

    #[test]
    fn every_answer_of_a_loop_line() {
        let mut seen = [0; 57];
        for index in 0..1_000 {
            let mut random = Random::of(1, "loop lines", index);
            let rules = rules(&mut random);
            let program = readable(&rules);
            match check(&program_text(&rules), &proof(&program, &mut random), 500, 500).verdict {
                Verdict::RefusedProof { number, .. } => seen[usize::from(number)] += 1,
                Verdict::RefusedProgram { .. } => panic!("a generated program is refused"),
                _ => seen[0] += 1,
            }
        }
        for number in [0, 32, 56] {
            assert!(seen[number] > 5, "{number} was seen {} times", seen[number]);
        }
    }
}
