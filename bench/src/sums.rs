//! Long sums split into short ones: how long it takes, and how many rules and bytes there are before and after.

use crate::measure::{timed, times_of, Times};
use aspdrupe::Splitting;
use inputs::rules::{choice, program_text, weighted, Rule};
use std::hint::black_box;
use std::time::Duration;

/// The most bytes of a text, and words that hold every table.
const TEXT: usize = 65_535;

/// A program, the group size, and the rules that must be written; none where there would be too many.
struct Case {
    name: &'static str,
    rules: Vec<Rule>,
    group: usize,
    written: Option<usize>,
}

/// A program whose sums were split, or refused: the group size, its bytes, the rules and bytes of what is written, and the times.
pub struct Split {
    pub name: &'static str,
    pub group: usize,
    pub bytes: usize,
    pub written: Option<(usize, usize)>,
    pub splitting: Times,
}

/// Literals of which each has a weight.
fn pairs(count: i32, weight: impl Fn(i32) -> i32) -> Vec<(i32, i32)> {
    (1..=count).map(|atom| (atom, weight(atom))).collect()
}

fn cases() -> Vec<Case> {
    let units = |head: i32| weighted(&[head], 11, &pairs(21, |_| 1));
    let wide: Vec<i32> = (1_000..1_064).collect();
    let mut cases = vec![
        Case { name: "10 sums of 21 literals", rules: (22..32).map(units).collect(), group: 6, written: Some(990) },
        Case {
            name: "64 literals of the weights 0 to 4",
            rules: vec![weighted(&[], 100, &pairs(64, |atom| atom % 5))],
            group: 6,
            written: Some(998),
        },
        Case { name: "64 KB without long sums", rules: vec![choice(&wide, &[]); 196], group: 6, written: Some(196) },
        Case {
            name: "64 weights that all differ",
            rules: vec![weighted(&[], 4_095, &pairs(64, |atom| atom * 997 % 1_009))],
            group: 2,
            written: None,
        },
    ];
    cases.extend(slow_cases());
    cases
}

/// Texts of nearly 64 KB that are made to be slow: sums of 64 literals with many different sums, in groups of each size.
/// The bound is not reached, or by the heaviest literals alone, so that few rules are written; or it is what all weights
/// add up to, or a little less.
fn slow_cases() -> Vec<Case> {
    let light = |atom: i32| atom.min(63);
    let heavy = |atom: i32| if atom < 63 { atom } else { 2_048 };
    let sums = |bound: i32, weight: fn(i32) -> i32| vec![weighted(&[], bound, &pairs(64, weight)); 150];
    [2, 5, 7, 12]
        .into_iter()
        .flat_map(|group| {
            [
                Case { name: "150 sums, not reached", rules: sums(4_095, light), group, written: Some(150) },
                Case { name: "150 sums, by two heavy", rules: sums(4_095, heavy), group, written: by_heavy(group) },
                Case { name: "150 sums, all weights", rules: sums(2_079, light), group, written: None },
                Case { name: "150 sums, nearly all", rules: sums(2_077, light), group, written: None },
            ]
        })
        .collect()
}

/// The rules of 150 sums that two literals of weight 2,048 reach: those of the last group are three a sum. With groups of
/// 7 the two stand in two groups, and there are five.
fn by_heavy(group: usize) -> Option<usize> {
    Some(150 * if group == 7 { 5 } else { 3 })
}

/// Splits each so many times; the name alone where other rules are written than must be.
pub fn measure(repetitions: usize) -> Vec<Result<Split, &'static str>> {
    cases().iter().map(|case| of(case, repetitions).ok_or(case.name)).collect()
}

fn of(case: &Case, repetitions: usize) -> Option<Split> {
    let text = program_text(&case.rules);
    let (mut table, mut output) = (vec![0; TEXT], vec![0; TEXT]);
    let mut times: Vec<Duration> = Vec::new();
    let mut written = None;
    for _ in 0..repetitions {
        let (splitting, time) = timed(|| aspdrupe::split_sums(black_box(&text), case.group, &mut table, &mut output));
        written = match splitting {
            Ok(Splitting::Split { bytes, rules, .. }) => Some((rules, bytes)),
            Ok(Splitting::Refused(_)) => None,
            _ => return None,
        };
        times.push(time);
    }
    let good = written.map(|(rules, _)| rules) == case.written;
    good.then(|| Split { name: case.name, group: case.group, bytes: text.len(), written, splitting: times_of(times) })
}
