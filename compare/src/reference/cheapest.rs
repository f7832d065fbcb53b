//! The cheapest answer set, Change 12 of document 02, with its questions 62 and 63.

use super::check::run;
use super::models::{every_set, is_answer_set, Set};
use super::program::{in_range, read, table_words, Body, InputRule, Program};
use super::{filled, variables_differ, WEIGHTED_LIMIT, WEIGHT_LARGEST};

/// What is lent but for table and store.
#[derive(Clone, Debug)]
pub struct Offer {
    pub program: Vec<u8>,
    pub set: Vec<u16>,
    pub costs: Vec<i16>,
    pub proof: Vec<u8>,
}

/// The set's cost, the program's refusal, or a refusal's number.
#[derive(Clone, Copy, Debug, PartialEq, Eq)]
pub enum Answer {
    Certified(i32),
    RefusedProgram { number: u8, line: usize },
    Refused(u8),
}

/// The answer with every word lent.
#[derive(Clone, Debug, PartialEq, Eq)]
pub struct Ending {
    pub answer: Answer,
    pub table: Vec<i32>,
    pub store: Vec<i32>,
}

/// Literals, each with its cost.
pub type Costs = Vec<(i32, i32)>;

/// The service, lent a table and a store of so many words.
pub fn certify(offer: &Offer, table_room: usize, store_room: usize) -> Ending {
    let nothing = |answer| Ending { answer, table: vec![0; table_room], store: vec![0; store_room] };
    let program = match read(&offer.program, table_room) {
        Ok(program) => program,
        Err((number, line)) => return nothing(Answer::RefusedProgram { number, line }),
    };
    match judged(&program, offer, store_room) {
        Ok((cost, store)) => Ending {
            answer: Answer::Certified(cost),
            table: filled(table_words(&program.rules), table_room),
            store: filled(store, store_room),
        },
        Err(number) => nothing(Answer::Refused(number)),
    }
}

/// "Once the program and the set (question 42; no marks are lent) are read, a cost list outside these bounds or of odd length, or a C above
/// 4,095, is refused with 62, and a set that is no answer set, or with C above 0 a proof that isn't accepted, is 63, in this order." The cost, and
/// the words of the store: "Where C is 0 no proof is read and the store ends zero."
fn judged(program: &Program, offer: &Offer, store_room: usize) -> Result<(i32, Vec<i32>), u8> {
    let set = listed(&offer.set, program.atoms).ok_or(42)?;
    let costs = costs_of(&offer.costs, program.atoms).ok_or(62)?;
    let cost = total(&set, &costs);
    if cost > WEIGHT_LARGEST {
        return Err(62);
    }
    if !is_answer_set(&program.plain, &set) {
        return Err(63);
    }
    if cost == 0 {
        return Ok((0, Vec::new()));
    }
    let ran = run(&restricted(program, &costs, cost), &offer.proof, store_room).map_err(|_| 63)?;
    if ran.state.has_empty() {
        Ok((cost, ran.state.store_words()))
    } else {
        Err(63)
    }
}

/// Question 42.
fn listed(atoms: &[u16], largest: i32) -> Option<Set> {
    let within = atoms.iter().all(|atom| (1..=largest).contains(&i32::from(*atom)));
    let good = within && atoms.windows(2).all(|pair| pair[0] < pair[1]);
    good.then(|| atoms.iter().map(|atom| i32::from(*atom)).collect())
}

/// "costs of 0 to 4,095 on up to 12 literals over the program's atoms, no atom twice (lent as 16-bit signed numbers, each literal before its
/// cost)"
pub fn costs_of(numbers: &[i16], atoms: i32) -> Option<Costs> {
    if numbers.len() % 2 == 1 {
        return None;
    }
    let costs: Costs = numbers.chunks_exact(2).map(|pair| (i32::from(pair[0]), i32::from(pair[1]))).collect();
    let literals: Vec<i32> = costs.iter().map(|(literal, _)| *literal).collect();
    let over_atoms = literals.iter().all(|literal| (1..=atoms).contains(&literal.abs()));
    let good = costs.len() <= WEIGHTED_LIMIT && over_atoms && variables_differ(&literals) && costs.iter().all(|(_, cost)| in_range(*cost));
    good.then_some(costs)
}

/// "the sum of the costs whose literals it makes true"
pub fn total(set: &Set, costs: &[(i32, i32)]) -> i32 {
    costs.iter().filter(|(literal, _)| set.contains(&literal.abs()) == (*literal > 0)).map(|(_, cost)| cost).sum()
}

/// "one constraint with a weight body: the cost literals with their costs, and bound C, so that a cost of C or more breaks it"
pub fn restricted(program: &Program, costs: &[(i32, i32)], bound: i32) -> Program {
    let mut pairs = costs.to_vec();
    pairs.sort_by_key(|(literal, _)| literal.abs());
    let constraint = InputRule { choice: false, heads: Vec::new(), body: Body::Weights { bound, pairs } };
    Program::of([&program.rules[..], &[constraint]].concat())
}

/// Every answer set with its total, of a program with few atoms.
pub fn answer_sets(program: &Program, costs: &[(i32, i32)]) -> Vec<(Set, i32)> {
    let atoms: Vec<i32> = (1..=program.atoms).collect();
    let sets = every_set(&atoms).filter(|set| is_answer_set(&program.plain, set));
    sets.map(|set| (set.clone(), total(&set, costs))).collect()
}

#[cfg(test)]
mod tests {
    use super::*;

    const PROGRAM: &[u8] = b"asp 1 0 0\n1 1 2 1 2 0 0\n1 0 0 0 2 -1 -2\n0\n";
    const PROOF: &[u8] = b"b 3 1 0\nc 3 0\nb 4 2 0\nc 4 0\nb 5 -1 -2 0\nc 5 0\na 0\n";

    fn offer(set: &[u16], costs: &[i16]) -> Offer {
        Offer { program: PROGRAM.to_vec(), set: set.to_vec(), costs: costs.to_vec(), proof: PROOF.to_vec() }
    }

    #[test]
    fn worked_case_by_its_words() {
        let ending = certify(&offer(&[1], &[2, 5, 1, 3]), 13, 41);
        assert_eq!(ending.answer, Answer::Certified(3));
        assert_eq!(ending.table, [1, 2, 0, 0, 1, 2, 0, 0, 0, 2, -1, -2, 0]);
        let words = [
            1, 2, 1, -3, 1, 2, -1, 3, 2, 1, 3, 3, 2, 2, -4, 3, 2, -2, 4, 4, 1, 4, 5, 3, -1, -2, -5, 5, 2, 1, 5, 5, 2, 2, 5, 6, 1, 5, 7, 0,
            0,
        ];
        assert_eq!(ending.store, words);
    }

    #[test]
    fn sums_of_what_is_true() {
        let set: Set = [1, 3].into_iter().collect();
        assert_eq!(total(&set, &[(1, 3), (2, 5), (-3, 7), (-4, 9)]), 12);
        assert_eq!(total(&set, &[]), 0);
        let program = read(PROGRAM, 99).unwrap();
        let totals: Vec<i32> = answer_sets(&program, &[(1, 3), (2, 5)]).iter().map(|(_, cost)| *cost).collect();
        assert_eq!(totals, [3, 5, 8]);
    }
}
