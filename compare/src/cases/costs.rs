//! Sets to be certified as cheapest: the worked cases of Changes 12 and 13 of document 02 with the answer of each, cases at the limits, and random
//! programs with random costs.

use inputs::random::Random;
use inputs::rules::program_text;
use inputs::ROOM;

use super::fixed::program;
use super::halves::any_rules;
use super::merges::{closed, refused_texts};
use crate::brute::{answer_set, is_small};
use crate::reference::cheapest::Answer::{self, Certified, Refused, RefusedProgram};
use crate::reference::cheapest::{Costs, Offer};
use crate::reference::program::{read, Program};
use crate::reference::WEIGHT_LARGEST;

/// What is lent, the words of table and store, and the answer.
pub struct Case {
    pub name: String,
    pub offer: Offer,
    pub table: usize,
    pub store: usize,
    pub answer: Answer,
}

/// Program B: {1}, {2} and {1, 2} are its answer sets.
const B: [&str; 2] = ["1 1 2 1 2 0 0", "1 0 0 0 2 -1 -2"];
/// Proof Q, for B where each of 1 and 2 alone breaks the restriction.
const Q: [&str; 7] = ["b 3 1", "c 3", "b 4 2", "c 4", "b 5 -1 -2", "c 5", "a"];

fn case(set: &[u16], costs: &[i16], proof: &[u8], answer: Answer) -> Case {
    let offer = Offer { program: program(&B), set: set.to_vec(), costs: costs.to_vec(), proof: proof.to_vec() };
    Case { name: format!("B, set {set:?}, costs {costs:?}"), offer, table: 20, store: 60, answer }
}

/// All cases.
pub fn cases() -> Vec<Case> {
    let mut cases = worked();
    cases.extend(bad_costs());
    cases.extend(dear());
    cases.extend(refused_programs());
    cases.extend(limits());
    cases.extend(without_atoms());
    cases
}

/// A program without an atom: over none there is a literal, and the empty set costs nothing.
fn without_atoms() -> Vec<Case> {
    let of = |set: &[u16], costs: &[i16], rules: &[&str], answer| {
        let offer = Offer { program: program(rules), set: set.to_vec(), costs: costs.to_vec(), proof: b"junk".to_vec() };
        Case { name: format!("no atom, set {set:?}, costs {costs:?}"), offer, table: 20, store: 60, answer }
    };
    vec![
        of(&[], &[], &[], Certified(0)),
        of(&[], &[1, 0], &[], Refused(62)),
        of(&[1], &[1, 0], &[], Refused(42)),
        of(&[], &[], &["1 0 0 0 0"], Refused(63)),
    ]
}

fn worked() -> Vec<Case> {
    let q = closed(&Q);
    let good = || case(&[1], &[1, 3, 2, 5], &q, Certified(3));
    let none = RefusedProgram { number: 10, line: 3 };
    vec![
        good(),
        case(&[1], &[2, 5, 1, 3], &q, Certified(3)),
        Case { store: 40, ..good() },
        Case { store: 39, answer: Refused(63), ..good() },
        Case { table: 12, ..good() },
        Case { table: 11, answer: none, ..good() },
        case(&[2], &[1, 3, 2, 5], &q, Refused(63)),
        case(&[1, 2], &[1, 3, 2, 5], &q, Refused(63)),
        case(&[], &[1, 3, 2, 5], &q, Refused(63)),
        case(&[], &[1, 3, 2, 5], b"", Refused(63)),
        case(&[1], &[2, 5], b"junk", Certified(0)),
        case(&[1], &[], b"junk", Certified(0)),
        case(&[1], &[1, 0, 2, 5], b"junk", Certified(0)),
        case(&[], &[], b"junk", Refused(63)),
        case(&[1], &[2, 5], &[b'a'; 65_536], Certified(0)),
        case(&[1], &[-2, 7], b"", Refused(63)),
        case(&[1], &[1, 3, 2, 5], b"", Refused(63)),
        case(&[1], &[1, 3, 2, 5], b"junk", Refused(63)),
        case(&[1], &[1, 3, 2, 5], &[b'a'; 65_536], Refused(63)),
        case(&[1], &[1, 3, 2, 5], &[&q[..], b"d 0\n"].concat(), Refused(63)),
    ]
}

/// The worked cases of Change 13: two cases of program B under lists that differ in one cost, and by how much that cost differs.
pub fn one_rate() -> Vec<([Case; 2], i32)> {
    let q = closed(&Q);
    let first = |costs: &[i16]| case(&[1], costs, &q, Certified(3));
    vec![
        ([first(&[1, 3, 2, 5]), first(&[1, 3, 2, 4])], 1),
        ([first(&[1, 3, 2, 5]), case(&[2], &[1, 7, 2, 5], &q, Certified(5))], 4),
        ([first(&[1, 3, 2, 5]), case(&[1], &[1, 0, 2, 5], &q, Certified(0))], 3),
        ([first(&[1, 3, 2, 3]), case(&[2], &[1, 4, 2, 3], &q, Certified(3))], 1),
    ]
}

/// "a cost list outside these bounds or of odd length", and before it question 42.
fn bad_costs() -> Vec<Case> {
    let q = closed(&Q);
    let lists: [&[i16]; 13] = [
        &[1],
        &[1, 3, 2],
        &[0, 1],
        &[3, 1],
        &[-3, 1],
        &[1, -1],
        &[1, 4_096],
        &[1, 1, -1, 1],
        &[1, 1, 1, 1],
        &[i16::MIN, 1],
        &[i16::MAX, 1],
        &[1, i16::MIN],
        &[1, i16::MAX],
    ];
    let sets: [(&[u16], u8); 7] = [(&[1], 62), (&[], 62), (&[3], 42), (&[2, 1], 42), (&[1, 1], 42), (&[0], 42), (&[65_535], 42)];
    lists.iter().flat_map(|costs| sets.map(|(set, number)| case(set, costs, &q, Refused(number)))).collect()
}

/// "or a C above 4,095": of the set as given.
fn dear() -> Vec<Case> {
    vec![
        case(&[1, 2], &[1, 4_000, 2, 96], b"", Refused(62)),
        case(&[1, 2], &[1, 4_000, 2, 95], b"", Refused(63)),
        case(&[], &[-1, 4_000, -2, 96], b"", Refused(62)),
        case(&[], &[-1, 4_000, -2, 95], b"", Refused(63)),
        case(&[1, 2], &[1, 4_095, 2, 4_095], b"", Refused(62)),
        case(&[1], &[1, 4_095, 2, 4_095], &closed(&Q), Certified(4_095)),
    ]
}

/// Every refusal of a program, also where all else is refused too.
fn refused_programs() -> Vec<Case> {
    let of = |(number, line, program): (u8, usize, Vec<u8>)| {
        let offer = Offer { program, set: vec![9, 9], costs: vec![1], proof: b"x".to_vec() };
        Case { name: format!("program {number}"), offer, table: ROOM, store: 99, answer: RefusedProgram { number, line } }
    };
    refused_texts().into_iter().map(of).collect()
}

/// So many facts, with costs on the first atoms, of which the last alone costs something.
fn facts(count: u16, costs: usize, cost: i16) -> Offer {
    let rules: Vec<String> = (1..=count).map(|atom| format!("1 0 1 {atom} 0 0")).collect();
    let rules: Vec<&str> = rules.iter().map(String::as_str).collect();
    let costs: Vec<i16> = (1..=costs as i16).flat_map(|atom| [atom, if atom == costs as i16 { cost } else { 0 }]).collect();
    let name = count + 1;
    let proof = closed(&[
        format!("b {name}"),
        format!("c {name} {}", costs.len() / 2),
        format!("b {} {}", name + 1, costs.len() / 2),
        format!("c {}", name + 1),
        String::from("a"),
    ]);
    Offer { program: program(&rules), set: (1..=count).collect(), costs, proof }
}

/// "on up to 12 literals"; and the restriction is "not asked" whether it would be the 1,025th rule, or fit a full table.
fn limits() -> Vec<Case> {
    let of = |name: &str, offer, answer| Case { name: String::from(name), offer, table: ROOM, store: 99, answer };
    let full = of("1,024 rules and a full table", facts(1_024, 1, 4_095), Certified(4_095));
    vec![
        of("12 pairs", facts(13, 12, 7), Certified(7)),
        of("13 pairs", facts(13, 13, 7), Refused(62)),
        of("13 pairs without cost", facts(13, 13, 0), Refused(62)),
        Case { table: 5 * 1_024, ..full },
    ]
}

/// A small program that has atoms, most often also answer sets, with costs on some of its literals.
pub fn with_costs(random: &mut Random) -> (Vec<u8>, Program, Costs) {
    let any = random.percent(15);
    loop {
        let text = program_text(&any_rules(random));
        let read = read(&text, usize::MAX).ok().filter(|program| program.atoms > 0 && is_small(program));
        if let Some(program) = read.filter(|program| any || answer_set(program, program.atoms).is_some()) {
            let costs = any_costs(&program, random);
            return (text, program, costs);
        }
    }
}

/// Costs on some literals of the program, most often on all of its atoms, of a random size; together they may be above 4,095.
fn any_costs(program: &Program, random: &mut Random) -> Costs {
    let count = if random.percent(60) { program.atoms as usize } else { random.below(program.atoms as usize + 1) };
    let largest = *random.pick(&[1, 2, 3, 5, 5, 9, 300, WEIGHT_LARGEST]);
    let negated = *random.pick(&[0, 20, 50]);
    let atoms = random.different(count, program.atoms);
    atoms.into_iter().map(|atom| (if random.percent(negated) { -atom } else { atom }, random.between(0, largest))).collect()
}

/// The costs as they are lent.
pub fn lent(costs: &[(i32, i32)]) -> Vec<i16> {
    costs.iter().flat_map(|(literal, cost)| [*literal as i16, *cost as i16]).collect()
}

/// A list that differs in one number, has one more or one less, or names an atom twice.
pub fn damaged(costs: &[i16], random: &mut Random) -> Vec<i16> {
    let mut changed = costs.to_vec();
    match random.below(6) {
        0 => changed.push(1),
        1 => drop(changed.pop()),
        2 => changed.extend([1, 1]),
        3 => random.shuffle(&mut changed),
        _ if changed.is_empty() => changed.push(0),
        _ => {
            let place = random.below(changed.len());
            changed[place] = *random.pick(&[0, 1, 2, -1, -2, 9, 4_095, 4_096, i16::MIN, i16::MAX]);
        }
    }
    changed
}
