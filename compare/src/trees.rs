//! The families of trees of splits: the cases of document 02, every two faults in every order, and random trees with damaged ones. A random tree
//! is also merged by hand, split after split, with the merge of two halves.

use inputs::Pair;

use crate::cases::ends;
use crate::cases::merges::PLENTY;
use crate::cases::trees::{cases, faulty, SCARCE};
use crate::comparison::{difference, Comparison};
use crate::merges::{in_reference_form, kind};
use crate::reference::check::{store_lengths, Verdict};
use crate::reference::merge::{Answer, Merging, Rooms, Split};
use crate::reference::program::{read, table_words};
use crate::reference::tree::{ends_of, merge_tree, shape_of, Shape, Tree};
use crate::shrink::cut;

/// What a run has to see of trees, other than programs that are refused.
pub const WANTED: [&str; 6] = ["merged", "refused 57", "refused 58", "refused 59", "refused 64", BY_HAND];

const BY_HAND: &str = "merged by hand too";

impl Comparison {
    /// The merge of a tree; answers what the reference says. Where that is a text, the whole check of it is compared too, and must say
    /// 'inconsistent'.
    pub fn merge_tree(&mut self, tree: &Tree, rooms: Rooms) -> Merging {
        let expected = merge_tree(tree, rooms);
        let (mut table, mut store) = (self.pattern(rooms.table), self.pattern(rooms.store));
        let mut output = vec![self.random.below(256) as u8; rooms.output];
        let Tree { program, numbers, texts, lengths } = tree;
        let answered = aspdrupe::merge_tree(program, numbers, texts, lengths, &mut table, &mut store, &mut output);
        let good = answered.as_ref().map(in_reference_form) == Ok(expected.answer);
        let good = good && table == expected.table && store == expected.store && output == expected.output;
        self.tally.count(format!("merge_tree: {}", kind(&expected.answer)));
        self.settle(good, || {
            let differences = (difference(&table, &expected.table), difference(&store, &expected.store));
            format!(
                "merge_tree, {rooms:?}: {answered:?}, not {:?}; table{}; store{}; output{}: {}",
                expected.answer,
                differences.0,
                differences.1,
                difference(&output, &expected.output),
                told(tree)
            )
        });
        expected
    }

    /// The whole check of the text that a tree came to. "The result is accepted whenever every merge fits"
    fn check_merged(&mut self, tree: &Tree, text: &[u8], table: usize, store: usize) {
        let verdict = self.check_texts(&Pair::of(&tree.program, text), table, store);
        let good = matches!(verdict, Verdict::Inconsistent(_));
        self.settle(good, || format!("a merged text is not accepted, {verdict:?}: {} for {}", cut(text), told(tree)));
    }

    /// The text of a side by the merge of two halves, for a program's text with the constraints on the path, with the longest of its merges and
    /// the largest of the stores that it needs; nothing where a merge is refused.
    fn by_hand(&mut self, program: &[u8], shape: &Shape, ends: &[&[u8]], least: &mut Rooms) -> Option<Vec<u8>> {
        let text = match shape {
            Shape::End => ends[0].to_vec(),
            Shape::Split(atom, first, second) => {
                let (before, after) = ends.split_at(first.ends());
                let first = self.by_hand(&with_constraint(program, -atom), first, before, least)?;
                let second = self.by_hand(&with_constraint(program, *atom), second, after, least)?;
                let split = Split { program: program.to_vec(), atom: *atom as u64, first, second };
                let found = self.merge_halves(&split, PLENTY);
                let Answer::Merged(bytes) = found.answer else { return None };
                least.output = least.output.max(bytes);
                found.output[..bytes].to_vec()
            }
        };
        least.store = least.store.max(store_lengths(&read(program, usize::MAX).ok()?, &text).0);
        Some(text)
    }
}

/// The program's text with a constraint of one literal as its last rule.
fn with_constraint(program: &[u8], literal: i32) -> Vec<u8> {
    let rules = program.strip_suffix(b"0\n").unwrap_or(program);
    [rules, format!("1 0 0 0 1 {literal}\n0\n").as_bytes()].concat()
}

/// The tree with long texts cut.
fn told(tree: &Tree) -> String {
    format!("program {} tree {:?} lengths {:?} texts {}", cut(&tree.program), tree.numbers, tree.lengths, cut(&tree.texts))
}

/// A case of document 02; other lengths are tried where it is not about lengths itself.
pub fn run_worked(comparison: &mut Comparison, index: u64) {
    let case = &cases()[index as usize];
    let found = comparison.merge_tree(&case.tree, case.rooms);
    let text = case.text.as_ref().is_none_or(|text| found.output.starts_with(text));
    comparison.settle(found.answer == case.answer && text, || format!("{}: the reference says {:?}", case.name, found.answer));
    if case.rooms == PLENTY {
        compare_lengths(comparison, &case.tree);
    }
}

/// Two faults in every order.
pub fn run_faulty(comparison: &mut Comparison, _: u64) {
    for tree in faulty() {
        comparison.merge_tree(&tree, SCARCE);
        comparison.merge_tree(&tree, PLENTY);
    }
}

/// The merge with plenty of everything and, where a text is written, by hand, and with every buffer at its least length and one less.
fn compare_lengths(comparison: &mut Comparison, tree: &Tree) {
    let found = comparison.merge_tree(tree, PLENTY);
    comparison.merge_tree(tree, Rooms { table: 0, store: 0, output: 0 });
    let Answer::Merged(bytes) = found.answer else { return };
    let text = &found.output[..bytes];
    let Some(least) = compare_by_hand(comparison, tree, text) else { return };
    let enough = comparison.merge_tree(tree, least).answer;
    comparison.settle(enough == found.answer, || format!("{enough:?} with {least:?} for {}", told(tree)));
    for (rooms, kinds) in one_less(least) {
        let answer = comparison.merge_tree(tree, rooms).answer;
        comparison.settle(kinds.contains(&kind(&answer).as_str()), || format!("{answer:?} with {rooms:?} for {}", told(tree)));
    }
    for rooms in further_lengths(comparison, least) {
        comparison.merge_tree(tree, rooms);
    }
    comparison.check_merged(tree, text, least.table, least.store);
}

/// The tree merged by hand comes to the same text; the least lengths with which that is so.
fn compare_by_hand(comparison: &mut Comparison, tree: &Tree, text: &[u8]) -> Option<Rooms> {
    let program = read(&tree.program, usize::MAX).ok()?;
    let shape = shape_of(&tree.numbers, program.atoms)?;
    let ends = ends_of(&tree.texts, &tree.lengths)?;
    let mut least = Rooms { table: table_words(&program.rules).len(), store: 0, output: text.len() };
    let merged = comparison.by_hand(&tree.program, &shape, &ends, &mut least);
    comparison.settle(merged.as_deref() == Some(text), || format!("by hand it comes to {:?}: {}", merged.as_deref().map(cut), told(tree)));
    comparison.tally.count(format!("merge_tree: {BY_HAND}"));
    merged.map(|_| least)
}

/// Each buffer one short of its least length, with the kinds that the answer may be of.
fn one_less(least: Rooms) -> [(Rooms, &'static [&'static str]); 3] {
    [
        (Rooms { table: least.table - 1, ..least }, &["refused program 10"]),
        (Rooms { store: least.store - 1, ..least }, &["refused 57", "refused 59"]),
        (Rooms { output: least.output - 1, ..least }, &["refused 58"]),
    ]
}

/// Two buffers that are short, some lengths below the least, and buffers that are longer than they need to be.
fn further_lengths(comparison: &mut Comparison, least: Rooms) -> [Rooms; 5] {
    let Rooms { table, store, output } = least;
    let (some_store, some_output) = (comparison.random.below(store), comparison.random.below(output));
    [
        Rooms { store: store - 1, output: output - 1, ..least },
        Rooms { store: some_store, ..least },
        Rooms { output: some_output, ..least },
        Rooms { store: some_store, output: some_output, ..least },
        Rooms { table: table + 1, store: store + 1, output: 70_000 },
    ]
}

/// A random tree with all lengths, and damaged ones with plenty or with little.
pub fn run_random(comparison: &mut Comparison, _: u64) {
    let Some(tree) = ends::tree(&mut comparison.random) else { return };
    compare_lengths(comparison, &tree);
    for _ in 0..12 {
        let other = ends::damaged(&tree, &mut comparison.random);
        let (store, output) = (comparison.random.below(600), comparison.random.below(2_000));
        let rooms = *comparison.random.pick(&[PLENTY, PLENTY, Rooms { output, ..PLENTY }, Rooms { store, ..PLENTY }]);
        comparison.merge_tree(&other, rooms);
    }
}

#[cfg(test)]
mod tests {
    use super::*;

    #[test]
    fn constraints_come_last() {
        assert_eq!(with_constraint(b"asp 1 0 0\n1 0 1 1 0 0\n0\n", -1), b"asp 1 0 0\n1 0 1 1 0 0\n1 0 0 0 1 -1\n0\n");
    }
}
