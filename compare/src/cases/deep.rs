//! Programs of a few dozen atoms whose rules form long chains in a random order, with proofs that propagate far along them.

use inputs::lines::line_of;
use inputs::programs::literals;
use inputs::random::Random;
use inputs::rules::{choice, constraint, normal, Rule};

use super::refutations::Author;
use crate::reference::closure::closure;
use crate::reference::program::Program;

/// A chain of rules over atoms in a random order, with a few side conditions, choices and constraints.
pub fn rules(random: &mut Random) -> Vec<Rule> {
    let count = random.between(6, 50);
    let mut order: Vec<i32> = (1..=count).collect();
    random.shuffle(&mut order);
    let mut rules = vec![choice(&order[..1], &[])];
    for pair in order.windows(2) {
        rules.push(link(pair[0], pair[1], random));
        if random.percent(10) {
            rules.push(normal(pair[1], &literals(random, 2, count, 50)));
        }
    }
    for _ in 0..random.below(4) {
        rules.push(constraint(&literals(random, 2, count, 60)));
    }
    random.shuffle(&mut rules);
    rules
}

fn link(from: i32, to: i32, random: &mut Random) -> Rule {
    match random.below(10) {
        0 => choice(&[to], &[from]),
        1 => normal(to, &[-from]),
        _ => normal(to, &[from]),
    }
}

/// Completion in a random order, extensions over it, and additions that follow from far away; the last one may not follow.
pub fn proof(program: &Program, random: &mut Random) -> Vec<u8> {
    let mut author = Author::of(program);
    write_chain(&mut author, random);
    for _ in 0..random.between(3, 12) {
        if random.percent(20) {
            let name = author.fresh(random);
            let first = random.between(1, program.atoms);
            let _ = author.write(b'e', &[name, random.signed(first)]);
        }
        let numbers = far_addition(&author, random);
        if author.write(b'a', &numbers).is_err() && random.percent(30) {
            author.lines.push(line_of(b'a', &numbers));
            break;
        }
        if author.state.has_empty() {
            break;
        }
        if random.percent(25) {
            let nogood = random.pick(&author.state.live()).to_vec();
            let _ = author.write(b'd', &nogood);
        }
    }
    author.text()
}

/// Bodies, completion and support, the rules in a random order.
fn write_chain(author: &mut Author, random: &mut Random) {
    let program = author.program;
    let mut order: Vec<usize> = (0..program.plain.len()).collect();
    random.shuffle(&mut order);
    for index in order {
        let rule = &program.plain[index];
        let Some(name) = author.named(random, &rule.body) else { return };
        if !rule.choice {
            let mut numbers = vec![name];
            numbers.extend(&rule.heads);
            let _ = author.write(b'c', &numbers);
        }
    }
    let mut atoms: Vec<i32> = (1..=program.atoms).collect();
    random.shuffle(&mut atoms);
    for atom in atoms {
        author.write_support(random, atom);
    }
}

/// One or two literals, and the complement of one that follows from them or has nothing to do with them.
fn far_addition(author: &Author, random: &mut Random) -> Vec<i32> {
    let known: Vec<i32> = author.state.known.iter().copied().collect();
    let mut numbers: Vec<i32> = Vec::new();
    for _ in 0..random.between(1, 2) {
        let variable = *random.pick(&known);
        if !numbers.contains(&variable) && !numbers.contains(&-variable) {
            numbers.push(random.signed(variable));
        }
    }
    let reached = closure(&author.state.live(), &numbers);
    let new = |variable: &i32| !numbers.contains(variable) && !numbers.contains(&-variable);
    let followed = known.iter().copied().filter(|variable| new(variable) && (reached.holds(*variable) || reached.holds(-variable)));
    let followed: Vec<i32> = followed.map(|variable| if reached.holds(variable) { -variable } else { variable }).collect();
    if !followed.is_empty() && random.percent(90) {
        numbers.push(*random.pick(&followed));
    }
    random.shuffle(&mut numbers);
    numbers
}
