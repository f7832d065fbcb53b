//! The families of inputs: each index of a family is one input, with random numbers of its own, so that it can be run again alone.

use inputs::random::Random;
use inputs::rules::{program_text, Rule};
use inputs::{programs, Pair, ROOM};

use crate::cases::refutations::{go_on, refute, Author, Found};
use crate::cases::{self, bytes, changes, deep, deletions, fixed, guided, limits, loops, noise, weights};
use crate::comparison::Comparison;
use crate::costs;
use crate::long;
use crate::merges;
use crate::one_rate;
use crate::packets;
use crate::reference::check::{check, store_lengths, verdict_line};
use crate::reference::models::{self, every_set};
use crate::reference::program::{read, table_words, Program};
use crate::reference::{filled, MARKS};
use crate::sums;
use crate::tables;
use crate::trees;
use crate::trims;

/// A family: its name, how many inputs it has for a count of 100, and what is done with one.
pub struct Family {
    pub name: &'static str,
    pub share: u64,
    pub fixed_count: Option<u64>,
    pub run: fn(&mut Comparison, u64),
}

pub fn families() -> Vec<Family> {
    let family = |name, share, run| Family { name, share, fixed_count: None, run };
    let listed = |name, count: usize, run| Family { name, share: 0, fixed_count: Some(count as u64), run };
    vec![
        listed("fixed", fixed::cases().len(), run_fixed),
        listed("sets", fixed::set_cases().len(), run_fixed_set),
        listed("files", 1, run_files),
        listed("limits", limits::cases().len(), run_limit),
        listed("wide-tables", 1, run_wide_tables),
        listed("byte-values", 256, run_byte_values),
        family("refutation", 100, run_refutation),
        family("weights", 60, run_weights),
        family("weight-lines", 300, run_weight_lines),
        family("guided", 200, run_guided),
        family("loops", 150, run_loops),
        family("deep", 60, run_deep),
        family("deletions", 40, run_deletions),
        family("noise", 300, run_noise),
        family("tables", 300, run_tables),
        family("lines", 200, run_lines),
        listed("hard", 7, run_hard),
        listed("long-refused", 1, long::run_refused),
        listed("long-filled", cases::long::COUNT, long::run_filled),
        family("long-shifted", 5, long::run_shifted),
        listed("packets", packets::worked_cases(), packets::run_worked),
        listed("packet-bytes", cases::packets::small_packets().len(), packets::run_bytes),
        listed("packet-limits", 1, packets::run_limits),
        listed("packet-limit-pairs", 1, packets::run_limit_pairs),
        family("packet-pairs", 100, packets::run_pairs),
        listed("merges", cases::merges::cases().len(), merges::run_worked),
        family("splits", 50, merges::run_random),
        listed("trims", cases::trims::cases().len(), trims::run_worked),
        family("trimmed", 10, trims::run_random),
        listed("costs", cases::costs::cases().len(), costs::run_worked),
        family("cheapest", 50, costs::run_random),
        listed("one-rate-cases", cases::costs::one_rate().len(), one_rate::run_worked),
        family("one-rate", 50, one_rate::run_random),
        listed("trees", cases::trees::cases().len(), trees::run_worked),
        listed("tree-faults", 1, trees::run_faulty),
        family("split-trees", 30, trees::run_random),
        listed("sums", cases::sums::cases().len(), sums::run_worked),
        family("long-sums", 5, sums::run_random),
    ]
}

/// A proof of so many bytes is tried with few lengths only.
const HEAVY: usize = 25_000;

/// The lengths of table and store that matter for the texts: none, one word too few, just enough, one more, many; and where the proof
/// deletes, those around the store that is never closed up, and one between.
fn rooms(pair: &Pair) -> Vec<(usize, usize)> {
    let many = ROOM;
    let Ok(program) = read(&pair.program, usize::MAX) else {
        // 1,024 constraints without a literal take 4,096 words.
        return vec![(many, many), (60, 20), (0, 0), (5, 3), (4_095, 3), (4_096, 0), (4_100, 9)];
    };
    let table = table_words(&program.rules).len();
    let (store, unclosed) = store_lengths(&program, &pair.proof);
    let mut rooms = vec![(many, many), (table, store), (table, store.saturating_sub(1))];
    if unclosed > store {
        rooms.extend([(table, unclosed), (table, unclosed - 1), (table, store.midpoint(unclosed))]);
    }
    if pair.proof.len() < HEAVY {
        rooms.extend([
            (table.saturating_sub(1), store),
            (0, store),
            (table, 0),
            (0, 0),
            (many, store / 2),
            (table + 1, store + 1),
            (100_000, 70_000),
        ]);
    }
    rooms
}

/// Everything there is to compare about two texts.
fn compare_all(comparison: &mut Comparison, pair: &Pair) {
    for (table, store) in rooms(pair) {
        comparison.check_texts(pair, table, store);
        comparison.read_program(&pair.program, table);
    }
    comparison.verdict(Some(&pair.program), Some(&pair.proof));
    compare_lines(comparison, &pair.proof, 200);
    for position in [pair.proof.len(), pair.proof.len() + 1, usize::MAX, 1, pair.proof.len() / 2] {
        comparison.read_line(&pair.proof, position);
    }
}

/// Some of the lengths, the program `verdict` for a share, and the lines where they are wanted.
fn compare_some(comparison: &mut Comparison, pair: &Pair, share_of_verdict: usize) {
    let rooms = rooms(pair);
    comparison.check_texts(pair, ROOM, ROOM);
    let (table, store) = rooms[comparison.random.below(rooms.len())];
    comparison.check_texts(pair, table, store);
    comparison.read_program(&pair.program, table);
    let (table, store) = rooms[1];
    let less = (comparison.random.below(table + 1), comparison.random.below(store + 1));
    comparison.check_texts(pair, table, less.1);
    comparison.read_program(&pair.program, less.0);
    if comparison.random.percent(share_of_verdict) {
        comparison.verdict(Some(&pair.program), Some(&pair.proof));
    }
}

/// The proof's lines one after the other, up to the first refusal.
fn compare_lines(comparison: &mut Comparison, proof: &[u8], most: usize) {
    let mut position = 0;
    for _ in 0..most {
        match comparison.read_line(proof, position) {
            Some(next) => position = next,
            None => return,
        }
    }
}

fn run_fixed(comparison: &mut Comparison, index: u64) {
    let case = &fixed::cases()[index as usize];
    let verdict = comparison.check_texts(&case.pair, case.table, case.store);
    let line = verdict_line(&verdict);
    comparison.settle(line == case.line, || format!("{}: the reference says {line:?}, document 01 {:?}", case.name, case.line));
    if let Some(words) = &case.words {
        compare_store(comparison, case, words);
    }
    compare_all(comparison, &case.pair);
    compare_store_lengths(comparison, &case.pair, usize::MAX);
}

/// The store lengths from the one that is too short by a word, over the least that fits, up to the one at which nothing is closed: all of
/// them, or so many at random with both ends.
fn compare_store_lengths(comparison: &mut Comparison, pair: &Pair, most: usize) {
    let Ok(program) = read(&pair.program, ROOM) else { return };
    let (least, unclosed) = store_lengths(&program, &pair.proof);
    let lengths: Vec<usize> = if unclosed - least <= most {
        (least.saturating_sub(1)..=unclosed + 1).collect()
    } else {
        let between = (0..most).map(|_| least + comparison.random.below(unclosed - least));
        between.chain([least.saturating_sub(1), least, unclosed - 1, unclosed]).collect()
    };
    for length in lengths {
        comparison.check_texts(pair, ROOM, length);
    }
}

/// The words that the document lists, with 0 after them, against every word that the reference and the library leave in the store.
fn compare_store(comparison: &mut Comparison, case: &fixed::Case, words: &[i32]) {
    let expected = filled(words.to_vec(), case.store);
    let ending = check(&case.pair.program, &case.pair.proof, case.table, case.store);
    let (mut table, mut store) = (vec![7; case.table], vec![7; case.store]);
    let answered = aspdrupe::check_texts(&case.pair.program, &case.pair.proof, &mut table, &mut store);
    for (whose, store) in [("the reference", &ending.store), ("the library", &store)] {
        let used = store.iter().rposition(|word| *word != 0).map_or(0, |last| last + 1);
        let good = answered.is_ok() && *store == expected;
        comparison.settle(good, || format!("{}: {whose} leaves {:?} in the store, not {words:?}", case.name, &store[..used]));
    }
}

fn run_fixed_set(comparison: &mut Comparison, index: u64) {
    let case = &fixed::set_cases()[index as usize];
    let Ok(program) = read(&case.program, ROOM) else {
        comparison.settle(false, || format!("{}: the program is refused", case.name));
        return;
    };
    let table = table_words(&program.rules);
    let (answer, _) = models::test_set(&table, program.rules.len(), case.set, MARKS);
    comparison.settle(answer == case.answer, || format!("{}: the reference says {answer:?}, not {:?}", case.name, case.answer));
    comparison.test_set(&table, program.rules.len(), case.set, MARKS);
    comparison.test_set(&filled(table, ROOM), program.rules.len(), case.set, MARKS);
}

/// "A file that cannot be read counts as empty."
fn run_files(comparison: &mut Comparison, _: u64) {
    let (program, proof) = (fixed::program(fixed::RULE_1), fixed::proof(fixed::PROOF_1));
    comparison.verdict(None, None);
    comparison.verdict(None, Some(&proof));
    comparison.verdict(Some(&program), None);
    comparison.verdict(Some(&program), Some(b""));
    comparison.verdict(Some(&program), Some(&proof.repeat(20_000)));
    comparison.verdict(Some(&limits::program_of_length(3_000_000)), Some(&proof));
}

fn run_limit(comparison: &mut Comparison, index: u64) {
    let case = &limits::cases()[index as usize];
    let verdict = comparison.check_texts(&case.pair, ROOM, ROOM);
    if let Some(expected) = &case.line {
        let line = verdict_line(&verdict);
        comparison.settle(line == *expected, || format!("{}: the reference says {line:?}, document 01 {expected:?}", case.name));
    }
    compare_all(comparison, &case.pair);
}

fn run_wide_tables(comparison: &mut Comparison, _: u64) {
    for (table, rules) in tables::wide() {
        for set in [vec![], vec![1], vec![4_095], vec![4_096], vec![8_191], vec![0], vec![1, 2, 8_191], vec![8_192], vec![65_535]] {
            comparison.test_set(&table, rules, &set, MARKS);
        }
    }
}

/// The value of the index in every place of a rule and of a step.
fn run_byte_values(comparison: &mut Comparison, index: u64) {
    for pair in bytes::pairs(index as u8) {
        comparison.check_texts(&pair, 20, 30);
        comparison.read_program(&pair.program, 20);
        comparison.read_line(&pair.proof, 0);
    }
}

/// A small program read from a text of its own, with its numbers in a random order; now and then some of its rules have weights.
pub fn small_program(random: &mut Random) -> (Vec<u8>, Program) {
    let mut rules = programs::small(random);
    if random.percent(30) {
        programs::weigh(&mut rules, random);
    }
    in_any_order(rules, random)
}

/// The rules read from a text, with their numbers in a random order.
pub fn in_any_order(mut rules: Vec<Rule>, random: &mut Random) -> (Vec<u8>, Program) {
    if random.percent(10) {
        programs::scatter(&mut rules, random);
    }
    for rule in &mut rules {
        random.shuffle(&mut rule.heads);
        rule.body.shuffle(random);
    }
    readable(&rules)
}

fn readable(rules: &[Rule]) -> (Vec<u8>, Program) {
    let text = program_text(rules);
    let program = read(&text, usize::MAX).unwrap_or_else(|refusal| panic!("a generated program is refused: {refusal:?}"));
    (text, program)
}

fn run_refutation(comparison: &mut Comparison, _: u64) {
    let (text, program) = small_program(&mut comparison.random);
    compare_refuted(comparison, text, &program);
}

/// A program whose rules have weights, with a refutation or, for one in three, with steps that know it.
fn run_weights(comparison: &mut Comparison, index: u64) {
    let rules = programs::weights(&mut comparison.random);
    let (text, program) = in_any_order(rules, &mut comparison.random);
    if !index.is_multiple_of(3) {
        compare_refuted(comparison, text, &program);
        return;
    }
    let pair = Pair::of(text, guided::proof(&program, &mut comparison.random, 60));
    compare_some(comparison, &pair, 20);
    compare_changed(comparison, &pair, 3);
}

/// Lines of rules with weights, damaged or at a limit.
fn run_weight_lines(comparison: &mut Comparison, _: u64) {
    let pair = weights::pair(&mut comparison.random);
    compare_some(comparison, &pair, 10);
}

/// A program with what the search wrote for it, and changes of both. All bodies are named, or some of them, or only those that are needed.
fn compare_refuted(comparison: &mut Comparison, text: Vec<u8>, program: &Program) {
    let mut author = Author::of(program);
    let at_first = if program.plain.len() > 100 { 0 } else { *comparison.random.pick(&[100, 100, 50, 0]) };
    let found = refute(&mut author, &mut comparison.random, at_first);
    comparison.tally.count(format!("search: {}", found.kind()));
    if found == Found::Refutation && comparison.random.percent(25) {
        go_on(&mut author, &mut comparison.random);
    }
    let pair = Pair::of(text, author.text());
    compare_some(comparison, &pair, 30);
    compare_lines(comparison, &pair.proof, 60);
    compare_sets(comparison, program);
    compare_changed(comparison, &pair, 12);
}

fn compare_changed(comparison: &mut Comparison, pair: &Pair, count: usize) {
    for _ in 0..count {
        let mut other = pair.clone();
        let program_too = comparison.random.percent(40);
        if program_too {
            other.program = changes::changed(&pair.program, &mut comparison.random);
        }
        if !program_too || comparison.random.percent(10) {
            other.proof = changes::changed(&pair.proof, &mut comparison.random);
        }
        compare_some(comparison, &other, 5);
    }
}

/// The set test on all sets of a small program.
fn compare_sets(comparison: &mut Comparison, program: &Program) {
    let room = comparison.random.below(20);
    let words = table_words(&program.rules);
    let table = filled(words.clone(), words.len() + room);
    let atoms: Vec<i32> = (1..=program.atoms.min(8)).collect();
    for set in every_set(&atoms) {
        let listed: Vec<u16> = set.iter().map(|atom| *atom as u16).collect();
        comparison.test_set(&table, program.rules.len(), &listed, MARKS);
    }
    for _ in 0..if program.atoms > 8 { 60 } else { 2 } {
        let set = tables::any_set(program.atoms, &mut comparison.random);
        comparison.test_set(&table, program.rules.len(), &set, MARKS);
    }
}

fn run_guided(comparison: &mut Comparison, _: u64) {
    let (text, program) = small_program(&mut comparison.random);
    let proof = guided::proof(&program, &mut comparison.random, 60);
    let pair = Pair::of(text, proof);
    compare_some(comparison, &pair, 20);
    compare_changed(comparison, &pair, 3);
}

/// A program with many loops, and mostly `l` lines over loops and over sets that nearly are.
fn run_loops(comparison: &mut Comparison, _: u64) {
    let rules = loops::rules(&mut comparison.random);
    let (text, program) = in_any_order(rules, &mut comparison.random);
    let pair = Pair::of(text, loops::proof(&program, &mut comparison.random));
    compare_some(comparison, &pair, 10);
    compare_changed(comparison, &pair, 2);
}

fn run_deep(comparison: &mut Comparison, _: u64) {
    let (text, program) = readable(&deep::rules(&mut comparison.random));
    let proof = deep::proof(&program, &mut comparison.random);
    let pair = Pair::of(text, proof);
    compare_some(comparison, &pair, 20);
    compare_changed(comparison, &pair, 2);
}

/// As many deletions as additions, with every length of the store that makes a difference, or many of them.
fn run_deletions(comparison: &mut Comparison, _: u64) {
    let (text, program) = small_program(&mut comparison.random);
    let pair = Pair::of(text, deletions::proof(&program, &mut comparison.random));
    compare_some(comparison, &pair, 20);
    compare_store_lengths(comparison, &pair, 40);
    compare_changed(comparison, &pair, 2);
}

fn run_noise(comparison: &mut Comparison, _: u64) {
    let pair = noise::pair(&mut comparison.random);
    compare_some(comparison, &pair, 10);
    compare_lines(comparison, &pair.proof, 20);
}

fn run_tables(comparison: &mut Comparison, _: u64) {
    let (_, program) = small_program(&mut comparison.random);
    let words = table_words(&program.rules);
    let count = program.rules.len();
    for _ in 0..6 {
        let (table, rules) = tables::changed(&words, count, &mut comparison.random);
        let set = tables::any_set(program.atoms, &mut comparison.random);
        let marks = if comparison.random.percent(85) {
            MARKS
        } else {
            *comparison.random.pick(&[0, 1, 4_095, 4_096, 4_097, 8_191, 8_193, 16_384, 10])
        };
        comparison.test_set(&table, rules, &set, marks);
    }
}

/// Single lines with every position in and after them.
fn run_lines(comparison: &mut Comparison, _: u64) {
    let pair = noise::pair(&mut comparison.random);
    let text = if comparison.random.percent(50) { pair.proof } else { changes::changed(&pair.proof, &mut comparison.random) };
    for position in (0..text.len().min(40) + 2).chain([usize::MAX, usize::MAX / 2, 1 << 32, 65_536]) {
        comparison.read_line(&text, position);
    }
}

/// Programs whose refutation takes a longer search.
fn run_hard(comparison: &mut Comparison, index: u64) {
    let rules = match index {
        0 => programs::pigeons(1),
        1 => programs::pigeons(2),
        2 => programs::pigeons(3),
        3 => programs::colours(),
        _ => programs::crowded(&mut comparison.random),
    };
    let (text, program) = readable(&rules);
    let mut author = Author::of(&program);
    let found = refute(&mut author, &mut comparison.random, 100);
    comparison.tally.count(format!("search: {}", found.kind()));
    let pair = Pair::of(text, author.text());
    compare_all(comparison, &pair);
    compare_changed(comparison, &pair, 10);
}
