//! The starred examples of document 01, its 'Others', what it calls tempting, the worked example of source 000, the worked cases of weight
//! bodies, of loops and of the store's words, and the set test's worked cases, each with the line or the answer that the document asks for.

use inputs::{Pair, ROOM};

use crate::reference::models::Answer::{self, Broken, Differs, Yes};

/// Two texts and the line that a table and a store of so many words must lead to; and where they are listed, the words that the store then
/// holds, with 0 after them.
pub struct Case {
    pub name: &'static str,
    pub pair: Pair,
    pub table: usize,
    pub store: usize,
    pub line: String,
    pub words: Option<Vec<i32>>,
}

/// A program, a set of atoms, and the set test's answer.
pub struct SetCase {
    pub name: &'static str,
    pub program: Vec<u8>,
    pub set: &'static [u16],
    pub answer: Answer,
}

pub const RULE_1: &[&str] = &["1 0 1 1 0 1 -1"];
const RULES_5: &[&str] = &["1 0 1 1 0 1 2", "1 0 1 2 0 1 1", "1 0 0 0 1 -1"];
const RULES_6: &[&str] = &["1 0 1 1 0 1 2", "1 0 1 2 0 1 1"];
const RULES_7: &[&str] = &["1 1 1 1 0 0"];
const RULES_8: &[&str] = &["1 0 1 1 0 1 -1", "1 0 1 1 0 0"];
pub const PROOF_1: &[&str] = &["b 2 -1 0", "c 2 1 0", "s 1 2 0", "a 1 0", "a 0"];

/// The store's words of starred example 1, with the step before each nogood.
const STORE_1: [i32; 21] = [1, 2, -1, -2, 1, 2, 1, 2, 2, 2, -1, 2, 3, 2, 1, -2, 4, 1, 1, 5, 0];

pub fn program(rules: &[&str]) -> Vec<u8> {
    let mut text = String::from("asp 1 0 0\n");
    text.push_str(&proof_text(rules));
    text.push_str("0\n");
    text.into_bytes()
}

fn proof_text(lines: &[&str]) -> String {
    lines.iter().map(|line| format!("{line}\n")).collect()
}

pub fn proof(lines: &[&str]) -> Vec<u8> {
    proof_text(lines).into_bytes()
}

fn case(name: &'static str, rules: &[&str], steps: &[&str], line: &str) -> Case {
    Case { name, pair: Pair::of(program(rules), proof(steps)), table: ROOM, store: ROOM, line: String::from(line), words: None }
}

/// A case with a store of so many words, and what it then holds.
fn store_case(name: &'static str, rules: &[&str], steps: &[&str], store: usize, line: &str, words: &[i32]) -> Case {
    Case { store, words: Some(words.to_vec()), ..case(name, rules, steps, line) }
}

pub fn cases() -> Vec<Case> {
    let mut cases = starred();
    cases.extend(others());
    cases.extend(tempting());
    cases.extend(weight_lines());
    cases.extend(weight_steps());
    cases.extend(loop_steps());
    cases.extend(weight_loops());
    cases.extend(origins());
    cases.extend(marked_dead());
    cases.extend(closed_up());
    cases.push(source());
    cases
}

fn starred() -> Vec<Case> {
    let mut second = PROOF_1.to_vec();
    second.push("d 0");
    let mut third = PROOF_1.to_vec();
    third[1] = "e 1 2 0";
    let enough = Case { table: 6, ..store_case("starred 1, just enough", RULE_1, PROOF_1, 21, "inconsistent 1 1 5 6", &STORE_1) };
    vec![
        store_case("starred 1", RULE_1, PROOF_1, ROOM, "inconsistent 1 1 5 6", &STORE_1),
        enough,
        store_case("starred 1, a store of 20", RULE_1, PROOF_1, 20, "refused proof 34 5", &[]),
        store_case("starred 2", RULE_1, &second, 21, "open 1 1 6 5", &[&STORE_1[..19], &[-5, 0]].concat()),
        case("starred 3", RULE_1, &third, "refused proof 27 2"),
        case("starred 4", &[], &[], "open 0 0 0 0"),
        case("starred 4 with a proof", &[], &["a 0"], "refused proof 33 1"),
        case("starred 5", RULES_5, &["b 3 -1 0", "c 3 0", "l 1 2 0", "a 0"], "inconsistent 2 3 4 5"),
        case("starred 5 without the loop", RULES_5, &["b 3 -1 0", "c 3 0", "a 0"], "refused proof 33 3"),
        case("starred 7", RULES_7, &["b 2 0", "c 2 1 0"], "refused proof 29 2"),
        case("starred 8", RULES_8, PROOF_1, "refused proof 30 3"),
    ]
}

fn others() -> Vec<Case> {
    let over_4095 = &["b 4096 -4095 0", "c 4096 4095 0", "s 4095 4096 0", "a 4095 0", "a 0"];
    let over_8190 = &["b 8191 -8190 0", "c 8191 8190 0", "s 8190 8191 0", "a 8190 0", "a 0"];
    vec![
        case("literal -0", &["1 0 1 1 0 1 -0"], &[], "refused program 3 2"),
        case("atom 4,095", &["1 0 1 4095 0 0"], &[], "open 4095 1 0 0"),
        case("literal -4,095", &["1 0 1 1 0 1 -4095"], &[], "open 4095 1 0 0"),
        case("atom 4,096", &["1 0 1 4096 0 0"], &[], "open 4096 1 0 0"),
        case("literal -4,096", &["1 0 1 1 0 1 -4096"], &[], "open 4096 1 0 0"),
        case("atom 8,191", &["1 0 1 8191 0 0"], &[], "open 8191 1 0 0"),
        case("literal -8,191", &["1 0 1 1 0 1 -8191"], &[], "open 8191 1 0 0"),
        case("atom 8,192", &["1 0 1 8192 0 0"], &[], "refused program 4 2"),
        case("literal -8,192", &["1 0 1 1 0 1 -8192"], &[], "refused program 4 2"),
        case("name 8,191", &["1 0 1 1 0 0"], &["b 8191 0"], "open 1 1 1 1"),
        case("name 8,192", &["1 0 1 1 0 0"], &["b 8192 0"], "refused proof 23 1"),
        case("no name is left", &["1 0 1 8191 0 0"], &["e 1 0"], "refused proof 27 1"),
        case("no name is left, the last", &["1 0 1 8191 0 0"], &["e 8191 0"], "refused proof 27 1"),
        case("starred 1 over 4,095", &["1 0 1 4095 0 1 -4095"], over_4095, "inconsistent 4095 1 5 6"),
        case("starred 1 over 8,190", &["1 0 1 8190 0 1 -8190"], over_8190, "inconsistent 8190 1 5 6"),
        case(
            "a support that leaves out a body",
            &["1 0 1 1 0 1 2", "1 0 1 1 0 1 -2"],
            &["b 3 2 0", "b 4 -2 0", "s 1 3 0"],
            "refused proof 30 3",
        ),
        case(
            "a support that leaves out a choice body",
            &["1 0 1 1 0 1 2", "1 1 1 1 0 0"],
            &["b 3 2 0", "b 4 0", "s 1 3 0"],
            "refused proof 30 3",
        ),
        case("a support with both bodies", &["1 0 1 1 0 1 2", "1 1 1 1 0 0"], &["b 3 2 0", "b 4 0", "s 1 4 3 0"], "open 2 2 3 4"),
    ]
}

fn tempting() -> Vec<Case> {
    let with = |more: &[&'static str]| [PROOF_1, more].concat();
    let emptied = ["d -1 -2 0", "d 2 1 0", "d -1 2 0", "d 1 -2 0", "d 1 0", "a 1 0", "a -2 0"];
    let unnamed = &["1 0 1 1 0 1 2", "1 0 1 2 0 1 1", "1 0 1 1 0 1 -3"];
    vec![
        case("a body that leans on the set needs no name", RULES_6, &["l 1 2 0"], "open 2 2 1 1"),
        case("an external body without a name", unnamed, &["l 1 2 0"], "refused proof 32 1"),
        case("a fresh name that was an atom", RULE_1, &["e 1 0"], "refused proof 27 1"),
        case("a body's name that was an atom", RULE_1, &["b 1 0"], "refused proof 27 1"),
        case("a deleted name as fresh", RULE_1, &["e 3 1 0", "d -3 1 0", "d 3 -1 0", "e 3 0"], "refused proof 27 4"),
        case("a deleted body's name as fresh", RULE_1, &with(&["d -1 -2 0", "d 1 2 0", "b 2 -1 0"]), "refused proof 27 8"),
        case("a body named again", RULE_1, &with(&["d -1 -2 0", "d 1 2 0", "b 3 -1 0"]), "refused proof 28 8"),
        case("after the empty nogood everything follows", RULE_1, &with(&["a -1 0", "d 0"]), "open 1 1 7 6"),
        case("the empty nogood alone lets anything follow", RULE_1, &with(&emptied), "inconsistent 1 1 12 3"),
        case("nothing follows once it is deleted", RULE_1, &with(&[&emptied[..5], &["d 0", "a 1 0"]].concat()), "refused proof 33 12"),
        case("the empty nogood is looked for after the last step only", RULE_1, &with(&["d 0", "a 0"]), "inconsistent 1 1 7 6"),
    ]
}

/// Rule lines with weights, alone in a program.
fn weight_lines() -> Vec<Case> {
    let many = |count: i32, last: &str| {
        let pairs: String = (1..count).map(|atom| format!("{atom} 1 ")).collect();
        format!("1 0 0 1 6 {count} {pairs}{last}")
    };
    let mut cases: Vec<Case> = [
        ("1 0 1 1 1 3 2 2 2 3 2", "open 3 1 0 0"),
        ("1 0 0 1 5 3 4 3 -2 2 3 4", "open 4 1 0 0"),
        ("1 1 2 7 6 1 1 1 2 1", "open 7 1 0 0"),
        ("1 0 1 1 1 0 0", "open 1 1 0 0"),
        ("1 0 1 1 1 1 2 2 1 9 0", "open 9 1 0 0"),
        ("1 0 1 1 1", "refused program 6 2"),
        ("1 0 1 1 1 3", "refused program 6 2"),
        ("1 0 1 1 1 3 2 2 2 3", "refused program 6 2"),
        ("1 0 1 1 1 3 1 2 2 3", "refused program 6 2"),
        ("1 0 1 1 1 3 -1", "refused program 6 2"),
        ("1 0 1 1 1 4095 1 2 4095", "open 2 1 0 0"),
        ("1 0 1 1 1 4096 1 2 1", "refused program 54 2"),
        ("1 0 1 1 1 8191 1 2 4095", "refused program 54 2"),
        ("1 0 1 1 1 8192 1 2 4095", "refused program 4 2"),
        ("1 0 1 1 1 -1 1 2 4095", "refused program 54 2"),
        ("1 0 1 1 1 4095 1 2 -1", "refused program 54 2"),
        ("1 0 1 1 1 4095 1 2 4096", "refused program 54 2"),
        ("1 0 1 1 1 4095 1 2 8191", "refused program 54 2"),
        ("1 0 1 1 1 4095 1 2 8192", "refused program 4 2"),
        ("1 0 1 1 1 4095 1 8191 4095", "open 8191 1 0 0"),
        ("1 0 2 1 2 1 -1 0", "refused program 54 2"),
        ("1 0 2 1 2 1 1 0", "refused program 7 2"),
        ("1 0 1 1 1 1 2 2 1 -2 1", "refused program 8 2"),
        ("1 0 1 1 2 1 0", "refused program 5 2"),
        (&many(12, "12 1"), "open 12 1 0 0"),
        (&many(13, "13 1"), "refused program 55 2"),
        (&many(64, "64 1"), "refused program 55 2"),
        (&many(65, "65 1"), "refused program 6 2"),
        (&many(13, "13 -1"), "refused program 54 2"),
        (&many(13, "1 1"), "refused program 55 2"),
    ]
    .map(|(rule, line)| case("a rule with weights", &[rule], &[], line))
    .into();
    let table = |words, line| Case { table: words, ..case("the table of a rule with weights", &["1 0 1 1 1 3 2 2 2 3 2"], &[], line) };
    cases.extend([table(10, "open 3 1 0 0"), table(9, "refused program 10 2")]);
    cases
}

/// A rule with three minimal sets.
const SUM: &str = "1 0 1 1 1 3 3 2 2 3 2 4 1";

/// The choice over 1 to 3, and the constraint that the weights of those chosen stay below 4.
const CHOICE: &str = "1 1 3 1 2 3 0 0";
const SUM_BELOW_4: &str = "1 0 0 1 4 3 1 3 2 2 3 2";

/// Steps over rules with weights.
fn weight_steps() -> Vec<Case> {
    let named = ["b 5 2 3 0", "b 6 2 4 0", "b 7 3 4 0"];
    let circle = "1 0 1 1 1 2 3 1 1 2 1 3 1";
    let refuted = ["b 4 1 2 0", "b 5 -1 0", "b 6 -2 0", "c 4 0", "c 5 0", "c 6 0", "a 0"];
    let with = |step| [&named[..], &[step]].concat();
    vec![
        case("a minimal set is named", &[SUM], &["b 5 2 3 0"], "open 4 1 1 3"),
        case("all literals are no minimal set", &[SUM], &["b 5 2 3 4 0"], "refused proof 28 1"),
        case("one literal does not reach the bound", &[SUM], &["b 5 2 0"], "refused proof 28 1"),
        case("a minimal set twice", &[SUM], &["b 5 2 3 0", "b 6 3 2 0"], "refused proof 28 2"),
        case("support by all minimal sets", &[SUM], &with("s 1 5 6 7 0"), "open 4 1 4 10"),
        case("support that leaves out a minimal set", &[SUM], &with("s 1 5 6 0"), "refused proof 30 4"),
        case("completion by a minimal set", &[SUM], &with("c 6 1 0"), "open 4 1 4 10"),
        case("a bound that is not reached supports nothing", &["1 0 1 1 1 9 1 2 4"], &["s 1 0"], "open 2 1 1 1"),
        case("completion of a choice with weights", &["1 1 1 1 1 1 1 2 1"], &["b 3 2 0", "c 3 1 0"], "refused proof 29 2"),
        case("an external minimal set without a name", &[circle], &["l 1 0"], "refused proof 32 1"),
        case("an external minimal set with a name", &[circle], &["b 4 2 3 0", "l 1 0"], "open 3 1 2 4"),
        case("a refutation", &[CHOICE, SUM_BELOW_4, "1 0 0 0 1 -1", "1 0 0 0 1 -2"], &refuted, "inconsistent 3 4 7 11"),
        case("bound 0 is the empty body", &["1 0 1 1 1 0 1 2 4"], &["b 3 0", "c 3 1 0", "s 1 3 0"], "open 2 1 3 3"),
        case("weight 0 stands in no body", &["1 0 1 1 1 2 2 2 2 3 0"], &["b 4 2 0", "s 1 4 0"], "open 3 1 2 3"),
        case("weight 0 added to a body", &["1 0 1 1 1 2 2 2 2 3 0"], &["b 4 2 3 0"], "refused proof 28 1"),
        case("one body of two rules", &[SUM, "1 0 1 4 0 2 2 3"], &["b 5 3 2 0", "c 5 1 0", "c 5 4 0", "s 4 5 0"], "open 4 2 4 6"),
        case("an atom of weight 0 is known", &["1 0 0 1 9 1 7 0"], &["e 8 -7 0", "s 7 0", "s 6 0"], "open 7 1 3 4"),
    ]
}

/// Questions 31, 56 and 32 of `l` steps: the worked cases of Change 5 without weights, and a few more.
fn loop_steps() -> Vec<Case> {
    let founded = [RULES_6, &["1 0 1 1 0 0"]].concat();
    let ring = &["1 0 1 2 0 1 1", "1 0 1 3 0 1 2", "1 0 1 1 0 1 3"];
    let one_way = &["1 0 1 1 0 1 2", "1 0 1 2 0 1 2"];
    let apart = &["1 0 1 1 0 1 1", "1 0 1 2 0 1 2"];
    let joined = &["1 0 1 1 0 1 2", "1 0 1 2 0 1 1", "1 0 1 3 0 1 4", "1 0 1 4 0 1 3", "1 0 1 3 0 1 2"];
    vec![
        case("a loop", RULES_6, &["l 1 2 0"], "open 2 2 1 1"),
        case("the order of the numbers", RULES_6, &["l 2 1 0"], "open 2 2 1 1"),
        case("half of a loop", RULES_6, &["l 1 0"], "refused proof 56 1"),
        case("a name in the set, 31 before 56", RULES_6, &["b 3 1 0", "l 1 3 0"], "refused proof 31 2"),
        case("a name alone", RULES_6, &["b 3 1 0", "l 3 0"], "refused proof 31 2"),
        case("an unknown variable, 26 before 31", RULES_6, &["l 1 9 0"], "refused proof 26 1"),
        case("a loop with an external body", &founded, &["l 1 2 0"], "refused proof 32 1"),
        case("a loop with a named external body", &founded, &["b 3 0", "l 1 2 0"], "open 2 3 2 2"),
        case("no loop with an external body, 56 before 32", &founded, &["l 1 0"], "refused proof 56 1"),
        case("an atom with an edge to itself", &["1 0 1 1 0 1 1"], &["l 1 0"], "open 1 1 1 1"),
        case("an atom that no rule names", &["1 0 1 2 0 1 2"], &["l 1 0"], "refused proof 56 1"),
        case("a fact", &["1 0 1 1 0 0"], &["b 2 0", "l 1 0"], "refused proof 56 2"),
        case("two loops apart", apart, &["l 1 2 0"], "refused proof 56 1"),
        case("two loops apart, the other first", apart, &["l 2 1 0"], "refused proof 56 1"),
        case("one way only", one_way, &["l 1 2 0"], "refused proof 56 1"),
        case("one way only, the other first", one_way, &["l 2 1 0"], "refused proof 56 1"),
        case("two loops with an edge between", joined, &["l 1 2 3 4 0"], "refused proof 56 1"),
        case("two loops with an edge between, the other first", joined, &["l 3 4 1 2 0"], "refused proof 56 1"),
        case("a loop with an edge out of it", joined, &["l 1 2 0"], "open 4 5 1 1"),
        case("a loop with an edge into it", joined, &["l 3 4 0"], "refused proof 32 1"),
        case("a ring of three", ring, &["l 2 3 1 0"], "open 3 3 1 1"),
        case("the way back leaves the set", ring, &["l 1 2 0"], "refused proof 56 1"),
        case("a negated atom gives no edge", &["1 0 1 1 0 1 -2", "1 0 1 2 0 1 1"], &["l 1 2 0"], "refused proof 56 1"),
        case("a negated atom gives no edge to itself", RULE_1, &["b 2 -1 0", "l 1 0"], "refused proof 56 2"),
        case("a choice rule gives edges", &["1 1 2 1 2 0 2 1 2"], &["l 1 2 0"], "open 2 1 1 1"),
        case("a choice rule gives edges to itself", &["1 1 2 1 2 0 2 1 2"], &["l 2 0"], "open 2 1 1 1"),
        case("a constraint gives none", &["1 0 0 0 2 1 2", "1 0 1 1 0 1 2"], &["l 1 2 0"], "refused proof 56 1"),
    ]
}

/// `l 1 0` over a rule with weights and the head 1: whether 1 stands in a minimal set.
fn weight_loops() -> Vec<Case> {
    let one = |name, rule, line| case(name, &[rule], &["l 1 0"], line);
    let both = "1 1 2 1 2 1 2 3 1 1 2 1 3 2";
    vec![
        one("a literal that reaches the bound", "1 0 1 1 1 2 2 1 2 2 1", "open 2 1 1 1"),
        one("a literal of the one minimal set", "1 0 1 1 1 3 2 1 1 2 2", "open 2 1 1 1"),
        one("a literal of weight 0", "1 0 1 1 1 1 2 1 0 2 1", "refused proof 56 1"),
        one("a literal in no minimal set", "1 0 1 1 1 2 2 1 1 2 2", "refused proof 56 1"),
        one("a bound that is not reached", "1 0 1 1 1 9 2 1 1 2 2", "refused proof 56 1"),
        one("bound 0", "1 0 1 1 1 0 1 1 5", "refused proof 56 1"),
        one("a light literal where the heavy ones are enough", "1 0 1 1 1 6 3 1 1 2 4 3 4", "refused proof 56 1"),
        one("a light literal where one of them is", "1 0 1 1 1 5 3 1 1 2 5 3 5", "refused proof 56 1"),
        one("a light literal that fills a sum", "1 0 1 1 1 5 3 1 1 2 4 3 5", "refused proof 32 1"),
        one("a negated literal with a weight", "1 0 1 1 1 1 1 -1 1", "refused proof 56 1"),
        one("a constraint with weights", "1 0 0 1 1 1 1 1", "refused proof 56 1"),
        case("a choice with weights", &[both], &["l 1 2 0"], "refused proof 32 1"),
        case("a choice with weights, named", &[both], &["b 4 3 0", "l 2 1 0"], "open 3 1 2 3"),
        case("a literal that fills a sum, named", &["1 0 1 1 1 5 3 1 1 2 4 3 5"], &["b 4 3 0", "l 1 0"], "open 3 1 2 3"),
        case("a ring over weights", &["1 0 1 1 1 2 2 2 2 3 1", "1 0 1 2 1 2 2 1 1 3 1"], &["l 1 2 0"], "open 3 2 1 1"),
        case("a ring with a literal of weight 0", &["1 0 1 1 1 2 2 2 2 3 1", "1 0 1 2 1 1 2 1 0 3 1"], &["l 1 2 0"], "refused proof 56 1"),
    ]
}

const FACT: &[&str] = &["1 0 1 1 0 0"];

/// The worked cases of Change 7, and a few more: which step each nogood carries, and what a store must hold.
fn origins() -> Vec<Case> {
    let fact = FACT;
    let twice = &["b 2 0", "c 2 1 0", "c 2 1 0", "d -1 2 0"];
    let anew = &["b 2 0", "c 2 1 0", "d -2 0", "c 2 1 0", "c 2 1 0"];
    let extended = &["b 2 0", "e 3 1 2 0"];
    let thrice = &["b 2 0", "c 2 1 0", "c 2 1 0", "c 2 1 0", "d -1 2 0", "d 2 -1 0"];
    let again = [twice, &["d 2 -1 0", "c 2 1 0"][..]].concat();
    let empty = [PROOF_1, &["a 0", "a 0", "d 0", "d 1 2 0"]].concat();
    let idle = ["d 1 0"; 11];
    let late = [&idle[..], &["e 2 -1 0"]].concat();
    let vast = ROOM;
    vec![
        store_case("the older of two equal ones", fact, twice, vast, "open 1 1 4 2", &[1, 1, -2, -2, 2, -1, 2, 3, 2, -1, 2]),
        store_case("an idle deletion counts", fact, &["d 1 0", "b 2 0"], vast, "open 1 1 2 1", &[2, 1, -2]),
        store_case("a store of 12", fact, anew, 12, "open 1 1 5 3", &[2, 2, -1, 2, 4, 2, -1, 2, 5, 2, -1, 2]),
        store_case("a store of 11", fact, anew, 11, "refused proof 34 5", &[]),
        store_case("a store of 16", fact, extended, 16, "open 1 1 2 4", &[1, 1, -2, 2, 3, 1, 2, -3, 2, 2, -1, 3, 2, 2, -2, 3]),
        store_case("a store of 15", fact, extended, 15, "refused proof 34 2", &[]),
        store_case(
            "the two older of three equal ones",
            fact,
            thrice,
            vast,
            "open 1 1 6 2",
            &[1, 1, -2, -2, 2, -1, 2, -3, 2, -1, 2, 4, 2, -1, 2],
        ),
        store_case("deleted twice and added again", fact, &again, 7, "refused proof 34 3", &[]),
        store_case("deleted twice and added again", fact, &again, 11, "open 1 1 6 2", &[1, 1, -2, 6, 2, -1, 2]),
        store_case(
            "the oldest of three empty nogoods",
            RULE_1,
            &empty,
            25,
            "inconsistent 1 1 9 6",
            &[1, 2, -1, -2, -1, 2, 1, 2, 2, 2, -1, 2, 3, 2, 1, -2, 4, 1, 1, -5, 0, 6, 0, 7, 0],
        ),
        store_case("a store of 24 for three empty nogoods", RULE_1, &empty, 24, "refused proof 34 7", &[]),
        store_case("both nogoods of one step", RULE_1, &late, 8, "open 1 1 12 2", &[12, 2, -1, -2, 12, 2, 1, 2]),
        store_case("a store of 7 for them", RULE_1, &late, 7, "refused proof 34 12", &[]),
        store_case("a loop's nogood", RULES_6, &["d 0", "l 2 1 0"], 3, "open 2 2 2 1", &[2, 1, 2]),
        store_case("no steps, no store", fact, &[], 0, "open 1 1 0 0", &[]),
        store_case("idle deletions, no store", fact, &idle, 0, "open 1 1 11 0", &[]),
        store_case("one nogood, no store", fact, &["b 2 0"], 0, "refused proof 34 1", &[]),
        store_case("one nogood, two words", fact, &["b 2 0"], 2, "refused proof 34 1", &[]),
    ]
}

/// The worked cases of Change 8 without a closing up, and a few more: a deletion negates one word, and the dead are passed over.
fn marked_dead() -> Vec<Case> {
    let deleted = &["b 2 -1 0", "c 2 1 0", "d -1 -2 0", "s 1 2 0"];
    let twice = &["b 2 0", "c 2 1 0", "c 2 1 0", "d 2 -1 0", "d -1 2 0"];
    let thrice = [&twice[..], &["d -1 2 0"]].concat();
    let with = |more: &[&'static str]| [PROOF_1, more].concat();
    let left = [1, 1, -2, -2, 2, -1, 2, -3, 2, -1, 2];
    let in_part = [-1, 2, -1, -2, 1, 2, 1, 2, 2, 2, -1, 2, 4, 2, 1, -2];
    let last_dead = [&STORE_1[..19], &[-5, 0]].concat();
    let again = [&last_dead[..], &[7, 0]].concat();
    let both = [&STORE_1[..16], &[-4, 1, 1, 5, 0]].concat();
    vec![
        store_case("the empty nogood dead", RULE_1, &with(&["d 0"]), ROOM, "open 1 1 6 5", &last_dead),
        store_case("the empty nogood dead, `d` again", RULE_1, &with(&["d 0", "d 0"]), 21, "open 1 1 7 5", &last_dead),
        store_case("the empty nogood dead and added again", RULE_1, &with(&["d 0", "a 0"]), 23, "inconsistent 1 1 7 6", &again),
        store_case("a dead unit below the empty nogood", RULE_1, &with(&["d 1 0"]), 21, "inconsistent 1 1 6 5", &both),
        store_case("a definition in part dead", RULE_1, deleted, ROOM, "open 1 1 4 3", &in_part),
        store_case("two equal ones dead", FACT, twice, ROOM, "open 1 1 5 1", &left),
        store_case("none is left for a third `d`", FACT, &thrice, ROOM, "open 1 1 6 1", &left),
        store_case("the dead refute nothing", RULE_1, &with(&["d 0", "d 1 0", "a 0"]), ROOM, "refused proof 33 8", &[]),
        case("the dead empty nogood lets nothing follow", RULE_1, &with(&["d 0", "d 1 -2 0", "d 1 0", "a -2 0"]), "refused proof 33 9"),
        store_case(
            "a dead name is known",
            FACT,
            &["b 2 0", "d -2 0", "e 3 2 0"],
            11,
            "open 1 1 3 2",
            &[-1, 1, -2, 3, 2, 2, -3, 3, 2, -2, 3],
        ),
        case("a dead name is not fresh", FACT, &["b 2 0", "d -2 0", "e 2 0"], "refused proof 27 3"),
        case("a dead definition still names its body", FACT, &["b 2 0", "d -2 0", "b 3 0"], "refused proof 28 3"),
        store_case("all are dead", FACT, &["b 2 0", "d -2 0"], 3, "open 1 1 2 0", &[-1, 1, -2]),
    ]
}

/// The worked cases of Change 8 in which the store is closed up, or just not, and a few more.
fn closed_up() -> Vec<Case> {
    let anew = &["b 2 0", "c 2 1 0", "d -2 0", "c 2 1 0", "c 2 1 0"];
    let extended = &["b 2 0", "d -2 0", "e 3 1 2 0"];
    let often = &["b 2 0", "c 2 1 0", "d -2 0", "d -1 2 0", "c 2 1 0", "d -1 2 0", "c 2 1 0"];
    let still = &often[..6];
    let full = &["b 2 0", "d -2 0", "c 2 1 0", "d -1 2 0"];
    let added = [2, 2, -1, 2, 4, 2, -1, 2, 5, 2, -1, 2];
    let uncut = [&[-1, 1, -2], &added[..]].concat();
    let names = [3, 3, 1, 2, -3, 3, 2, -1, 3, 3, 2, -2, 3];
    let behind = [&[-1, 1, -2], &names[..]].concat();
    let fact = FACT;
    vec![
        store_case("exactly full is not closed", fact, anew, 15, "open 1 1 5 3", &uncut),
        store_case("a word short is closed", fact, anew, 14, "open 1 1 5 3", &added),
        store_case("just enough for the live ones", fact, anew, 12, "open 1 1 5 3", &added),
        store_case("too short for the live ones", fact, anew, 11, "refused proof 34 5", &[]),
        store_case("a definition behind a dead nogood", fact, extended, 16, "open 1 1 3 3", &behind),
        store_case("a definition is judged as a whole", fact, extended, 15, "open 1 1 3 3", &names),
        store_case("a definition, the first of which fits", fact, extended, 14, "open 1 1 3 3", &names),
        store_case("a definition that fills the store", fact, extended, 13, "open 1 1 3 3", &names),
        store_case("a definition that does not fit", fact, extended, 12, "refused proof 34 3", &[]),
        store_case("closed up once", fact, often, 8, "open 1 1 7 1", &[-5, 2, -1, 2, 7, 2, -1, 2]),
        store_case("closed up twice", fact, often, 7, "open 1 1 7 1", &[7, 2, -1, 2]),
        store_case("refused before anything is dead", fact, often, 6, "refused proof 34 2", &[]),
        store_case("closed up once, later", fact, often, 11, "open 1 1 7 1", &[7, 2, -1, 2]),
        store_case("closed up by the last step", fact, often, 14, "open 1 1 7 1", &[7, 2, -1, 2]),
        store_case("never closed up", fact, often, 15, "open 1 1 7 1", &[-1, 1, -2, -2, 2, -1, 2, -5, 2, -1, 2, 7, 2, -1, 2]),
        store_case("a deletion never closes up", fact, still, 7, "open 1 1 6 0", &[-5, 2, -1, 2]),
        store_case("nor does it in a full store", fact, full, 7, "open 1 1 4 0", &[-1, 1, -2, -3, 2, -1, 2]),
    ]
}

fn source() -> Case {
    Case {
        name: "worked example of source 000",
        pair: Pair::of(
            include_bytes!("../../../examples/source-000/case.aspif"),
            include_bytes!("../../../examples/source-000/case.drupe"),
        ),
        table: ROOM,
        store: ROOM,
        line: String::from(include_str!("../../../examples/source-000/expected").trim_end()),
        words: None,
    }
}

pub fn set_cases() -> Vec<SetCase> {
    let mut cases = starred_sets();
    cases.extend(lowest_atoms());
    cases.extend(weight_sets());
    cases
}

fn set_case(name: &'static str, rules: &[&str], set: &'static [u16], answer: Answer) -> SetCase {
    SetCase { name, program: program(rules), set, answer }
}

fn starred_sets() -> Vec<SetCase> {
    vec![
        set_case("starred 1, empty", RULE_1, &[], Differs(1)),
        set_case("starred 1, full", RULE_1, &[1], Differs(1)),
        set_case("starred 4", &[], &[], Yes),
        set_case("starred 5, empty", RULES_5, &[], Broken(3)),
        set_case("starred 6, empty", RULES_6, &[], Yes),
        set_case("starred 6, {1, 2}", RULES_6, &[1, 2], Differs(1)),
        set_case("starred 7, empty", RULES_7, &[], Yes),
        set_case("starred 7, {1}", RULES_7, &[1], Yes),
        set_case("starred 8, {1}", RULES_8, &[1], Yes),
        set_case("starred 8, empty", RULES_8, &[], Differs(1)),
    ]
}

/// The eight worked cases of Change 2, and one with an atom of the model below one of the set.
fn lowest_atoms() -> Vec<SetCase> {
    let unless_2 = &["1 0 1 1 0 0", "1 0 1 2 0 0", "1 0 1 3 0 1 -2"];
    let unless_1 = &["1 0 1 1 0 0", "1 0 1 2 0 0", "1 0 1 3 0 1 -1"];
    let broken_too = &["1 0 1 2 0 0", "1 0 1 1 0 0", "1 0 0 0 1 2"];
    vec![
        set_case("a loop, {1, 2}", RULES_6, &[1, 2], Differs(1)),
        set_case("a loop, {2}", RULES_6, &[2], Differs(2)),
        set_case("1, 2 and 3 all differ", &["1 0 1 3 0 0"], &[1, 2], Differs(1)),
        set_case("the lowest in the model only", &["1 0 1 1 0 0", "1 1 1 2 0 0"], &[2], Differs(1)),
        set_case("2 in the model only, 1 and 3 in both", unless_2, &[1, 3], Differs(2)),
        set_case("the highest atom alone", &["1 0 1 8191 0 1 8191"], &[8_191], Differs(8_191)),
        set_case("the highest atom, a fact", &["1 0 1 8191 0 0"], &[8_191], Yes),
        set_case("the highest atom, a fact that is missing", &["1 0 1 8191 0 0"], &[], Differs(8_191)),
        set_case("the highest atom before Change 6", &["1 0 1 4095 0 1 4095"], &[4_095], Differs(4_095)),
        set_case("the first atom after it", &["1 0 1 4096 0 0", "1 1 1 4095 0 0"], &[4_095], Differs(4_096)),
        set_case("an atom before a broken constraint", broken_too, &[2], Differs(1)),
        set_case("a broken constraint where nothing differs", &["1 1 3 1 2 3 0 0", "1 0 0 0 1 1"], &[1, 3], Broken(2)),
        set_case("2 in the model only, 3 in the set only", unless_1, &[1, 3], Differs(2)),
    ]
}

/// Sets of programs with weights.
fn weight_sets() -> Vec<SetCase> {
    let sum = &["1 1 2 2 3 0 0", SUM];
    let broken = &[CHOICE, "1 0 0 0 2 2 3", SUM_BELOW_4];
    vec![
        set_case("2 and 3 reach the bound", sum, &[1, 2, 3], Yes),
        set_case("2 does not reach the bound", sum, &[2], Yes),
        set_case("the head of a reached bound is missing", sum, &[2, 3], Differs(1)),
        set_case("a head that supports itself by its weight", &["1 1 1 2 0 0", "1 0 1 1 1 3 2 1 2 2 2"], &[1, 2], Differs(1)),
        set_case("a broken weight constraint", broken, &[1, 2], Broken(3)),
        set_case("a plain constraint before it", broken, &[2, 3], Broken(2)),
        set_case("no constraint is broken", broken, &[1], Yes),
        set_case("a bound that is never reached", &[CHOICE, "1 0 0 1 8 3 1 3 2 2 3 2"], &[1, 2, 3], Yes),
        set_case("bound 0", &["1 0 1 1 1 0 0"], &[1], Yes),
        set_case("bound 0 of a constraint", &["1 0 0 1 0 1 1 5"], &[], Broken(1)),
        set_case("negated literals", &["1 0 1 1 1 2 2 -2 1 -3 1"], &[1], Yes),
    ]
}

#[cfg(test)]
mod tests {
    use super::*;
    use crate::reference::check::{check, verdict_line};
    use crate::reference::models::test_set;
    use crate::reference::program::{read, table_words};
    use crate::reference::{filled, MARKS};

    #[test]
    fn reference_says_what_the_documents_ask() {
        for case in cases() {
            let ending = check(&case.pair.program, &case.pair.proof, case.table, case.store);
            assert_eq!(verdict_line(&ending.verdict), case.line, "{}: {}", case.name, String::from_utf8_lossy(&case.pair.program));
            if let Some(words) = case.words {
                assert_eq!(ending.store, filled(words, case.store), "{}", case.name);
            }
        }
    }

    #[test]
    fn reference_tests_sets_as_the_documents_ask() {
        for case in set_cases() {
            let program = read(&case.program, ROOM).unwrap();
            let (answer, _) = test_set(&table_words(&program.rules), program.rules.len(), case.set, MARKS);
            assert_eq!(answer, case.answer, "{}", case.name);
        }
    }
}
