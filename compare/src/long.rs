//! The check for proofs of any length held to the reference: every answer and every word of table, store and memory, and the same with every
//! length of memory.

use inputs::{Pair, ROOM};

use crate::cases::refutations::{go_on, refute, Author, Found};
use crate::cases::{deletions, guided, long};
use crate::comparison::{difference, says, Comparison};
use crate::families::small_program;
use crate::reference::check::{check_long, store_lengths, Ending, Verdict};
use crate::reference::program::{read, table_words};
use crate::reference::{LONG_LIMIT, TEXT_LIMIT};
use crate::shrink::{cut, shrunk};

/// The words of memory that the index takes whatever the store.
const FIXED: usize = 49_287;

/// The lengths of memory that matter for a store of so many words: none, one, a few, those around the least of use and the least that covers
/// the store, and so many that watches stand in rows.
fn memories(store: usize) -> [usize; 10] {
    let enough = aspdrupe::memory_for(store);
    [0, 1, 7, FIXED - 1, FIXED, FIXED + 25, FIXED.midpoint(enough), enough - 1, enough, enough + 300_000]
}

impl Comparison {
    /// The long check with a table and a store of so many words, and with memories of these lengths.
    pub fn check_long(&mut self, pair: &Pair, table_room: usize, store_room: usize, memories: &[usize]) -> Verdict {
        let expected = check_long(&pair.program, &pair.proof, table_room, store_room);
        for length in memories {
            let (mut table, mut store) = (self.pattern(table_room), self.pattern(store_room));
            let mut memory: Vec<u32> = self.pattern(*length).into_iter().map(|word| word as u32).collect();
            let answered = aspdrupe::check_long_with(&pair.program, &pair.proof, &mut table, &mut store, &mut memory);
            let good = says(&answered, &expected.verdict) && table == expected.table && store == expected.store;
            let zero = memory.iter().all(|word| *word == 0);
            self.settle(good && zero, || told(pair, table_room, store_room, *length, zero));
        }
        self.tally.verdict("check_long", &expected.verdict);
        let beyond = if pair.proof.len() > TEXT_LIMIT { "beyond" } else { "within" };
        self.tally.count(format!("check_long: {beyond} a text"));
        self.count_words(&expected);
        expected.verdict
    }

    /// What is expected of the check of two texts within their limits is expected of the long check too.
    pub fn same_of_long(&mut self, pair: &Pair, expected: &Ending) {
        let (mut table, mut store) = (self.pattern(expected.table.len()), self.pattern(expected.store.len()));
        let length = memories(store.len())[pair.proof.len() % 10];
        let mut memory = vec![7; length];
        let answered = aspdrupe::check_long_with(&pair.program, &pair.proof, &mut table, &mut store, &mut memory);
        let good = says(&answered, &expected.verdict) && table == expected.table && store == expected.store;
        let zero = memory.iter().all(|word| *word == 0);
        self.settle(good && zero, || told(pair, table.len(), store.len(), length, zero));
        self.tally.count(String::from("check_long: the same as check_texts"));
    }

    fn count_words(&mut self, ending: &Ending) {
        let used = ending.store.iter().rposition(|word| *word != 0).map_or(0, |last| last + 1);
        for bound in BOUNDS.iter().filter(|bound| used > **bound) {
            for (seen, what) in [(true, "words"), (ending.dead_left, "words with dead nogoods"), (ending.closed_up, "words, closed up")] {
                if seen {
                    self.tally.count(format!("check_long: more than {bound} {what}"));
                }
            }
        }
    }
}

/// The words that an index of 16 bits and one of fixed length reached.
const BOUNDS: [usize; 2] = [16_384, 65_536];

/// What a run must see, the refusals aside.
pub const WANTED: [&str; 11] = [
    "the same as check_texts",
    "inconsistent",
    "open",
    "within a text",
    "beyond a text",
    "more than 16384 words",
    "more than 65536 words",
    "more than 16384 words with dead nogoods",
    "more than 65536 words with dead nogoods",
    "more than 16384 words, closed up",
    "more than 65536 words, closed up",
];

/// The account of a check that failed, for the smallest texts that still fail.
fn told(pair: &Pair, table_room: usize, store_room: usize, memory: usize, zero: bool) -> String {
    let small = shrunk(pair, |smaller| differs(smaller, table_room, store_room, memory).is_some());
    let where_ = differs(&small, table_room, store_room, memory).unwrap_or_default();
    let left = if zero { "" } else { "; a word is left in memory" };
    format!(
        "check_long, table {table_room}, store {store_room}, memory {memory}: {where_}{left}: program {} proof {}",
        cut(&small.program),
        cut(&small.proof)
    )
}

/// What the library and the reference say of the texts, and where the words differ; none where all is the same.
fn differs(pair: &Pair, table_room: usize, store_room: usize, memory: usize) -> Option<String> {
    let expected = check_long(&pair.program, &pair.proof, table_room, store_room);
    let (mut table, mut store, mut memory) = (vec![7; table_room], vec![7; store_room], vec![7; memory]);
    let answered = aspdrupe::check_long_with(&pair.program, &pair.proof, &mut table, &mut store, &mut memory);
    let same = says(&answered, &expected.verdict) && table == expected.table && store == expected.store;
    (!same || memory.iter().any(|word| *word != 0)).then(|| {
        let words = [difference(&table, &expected.table), difference(&store, &expected.store)];
        format!("{answered:?}, not {:?}; table{}; store{}", expected.verdict, words[0], words[1])
    })
}

/// A proof of any kind behind so many bytes of deletions that take nothing away, so that it stands around and beyond the limit of a text.
pub fn run_shifted(comparison: &mut Comparison, index: u64) {
    let (text, program) = small_program(&mut comparison.random);
    let random = &mut comparison.random;
    let proof = match index % 3 {
        0 => guided::proof(&program, random, 60),
        1 => deletions::proof(&program, random),
        _ => {
            let mut author = Author::of(&program);
            if refute(&mut author, random, 100) == Found::Refutation && random.percent(25) {
                go_on(&mut author, random);
            }
            author.text()
        }
    };
    let bytes = match random.below(4) {
        0 => 0,
        1 => TEXT_LIMIT.saturating_sub(proof.len()) + random.below(3),
        2 => TEXT_LIMIT + 1,
        _ => random.between(0, 100_000) as usize,
    };
    let pair = Pair::of(text, long::behind(bytes, &proof));
    let (least, unclosed) = store_lengths(&program, &pair.proof);
    let table = table_words(&program.rules).len();
    for store in [unclosed, least, least.saturating_sub(1), least.midpoint(unclosed)] {
        let some = memories(store);
        let picked: Vec<usize> = (0..3).map(|_| *comparison.random.pick(&some)).collect();
        comparison.check_long(&pair, table, store, &picked);
    }
    comparison.check_texts(&pair, table, least);
    // A table that is long enough, or too short by a word or two.
    let about = (table + 1).saturating_sub(comparison.random.below(4));
    comparison.check_long(&pair, about, unclosed, &[0, FIXED]);
}

/// Stores of many words, with deletions and equal nogoods in all of them.
pub fn run_filled(comparison: &mut Comparison, index: u64) {
    let pair = long::filled(index as usize, &mut comparison.random);
    let Ok(program) = read(&pair.program, ROOM) else {
        comparison.settle(false, || String::from("the program is refused"));
        return;
    };
    let (least, unclosed) = store_lengths(&program, &pair.proof);
    for store in [unclosed, least + (unclosed - least) / 8, least.saturating_sub(1)] {
        comparison.check_long(&pair, ROOM, store, &memories(store));
    }
}

/// Programs of every kind of refusal, and the length that is too much.
pub fn run_refused(comparison: &mut Comparison, _: u64) {
    for case in crate::cases::limits::cases() {
        comparison.check_long(&case.pair, ROOM, ROOM, &[0, aspdrupe::memory_for(ROOM)]);
    }
    for case in crate::cases::fixed::cases() {
        comparison.check_long(&case.pair, case.table, case.store, &memories(case.store));
    }
    // Zeros that nobody reads take no memory.
    let zeros = vec![0; LONG_LIMIT + 1];
    let pair = Pair { program: b"asp 1 0 0\n0\n".to_vec(), proof: zeros };
    comparison.check_long(&pair, 9, 9, &[0, 9]);
}
