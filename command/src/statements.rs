//! What a grounder writes (ASPIF), cut down to what the checker takes: rules stay, what decides nothing about which sets are answer sets goes,
//! and what does decide about it and is not taken is refused.

use std::collections::HashSet;

use crate::names::Names;
use crate::outcome::Failure;
use crate::sums;

/// The most bytes of a ground program, the statements that go included.
pub const LIMIT: usize = 1 << 24;

pub fn too_large() -> Failure {
    Failure::refused(format!("the program has more than {LIMIT} bytes: a smaller plan"))
}

/// A ground program.
#[derive(Debug, Default)]
pub struct Ground {
    /// The text that the library reads; cut down, it has the header, rules and the line `0`.
    pub text: Vec<u8>,
    /// For each of its lines, and for the place after the last, the line of the text that it came from, counted from 1.
    pub lines: Vec<usize>,
    /// Whether that text is what gringo made of a plan, and not the file's own.
    pub of_plan: bool,
    pub names: Names,
    /// What is to be minimized, and whether the plan has a statement that says so: gringo leaves nothing of one that
    /// counts nothing.
    pub costs: Vec<Minimize>,
    pub minimizes: bool,
    /// How many of its atoms, the last ones, are of sums that were split.
    pub added: usize,
    /// What was dropped or changed, and why that cannot matter.
    pub notes: Vec<String>,
}

/// A minimize statement: its priority, and literals with weights.
#[derive(Debug, Clone, PartialEq, Eq)]
pub struct Minimize {
    pub priority: i64,
    pub weights: Vec<(i32, i64)>,
}

impl Minimize {
    /// The statement with these words: `2`, the priority, the count of pairs, and literals each with its weight.
    fn of(words: &[&str]) -> Option<Minimize> {
        let numbers: Vec<i64> = words.iter().map(|word| word.parse().ok()).collect::<Option<_>>()?;
        let [2, priority, count, pairs @ ..] = &numbers[..] else { return None };
        let weights: Vec<(i32, i64)> =
            pairs.chunks_exact(2).map(|pair| Some((i32::try_from(pair[0]).ok()?, pair[1]))).collect::<Option<_>>()?;
        let whole = pairs.len() % 2 == 0 && usize::try_from(*count) == Ok(weights.len());
        whole.then_some(Minimize { priority: *priority, weights })
    }
}

impl Ground {
    /// The line of the text that a line, counted from 1, came from; 0 is the text as a whole.
    pub fn line(&self, line: usize) -> usize {
        line.checked_sub(1).and_then(|place| self.lines.get(place)).copied().unwrap_or(0)
    }

    /// What the lines are of, in words.
    pub fn called(&self) -> &'static str {
        if self.of_plan {
            "ground program"
        } else {
            "program"
        }
    }
}

/// What goes, by kind of statement: what it is, and why it cannot matter.
const DROPPED: [(&str, &str, &str); 6] = [
    ("2", "minimize statements", "they rank answer sets, and no set becomes one or ceases to be one by them"),
    ("3", "project statements", "they say which atoms to tell answer sets apart by"),
    ("4", "malformed output statements", "they say what is shown"),
    ("7", "heuristic statements", "they advise a search"),
    ("10", "comments", "they say nothing"),
    ("1", "rules with an atom and its negation in the body", "they never apply"),
];

/// The places of output statements and of such rules among them.
const OUTPUT: usize = 2;
const NEVER: usize = 5;

/// Statements that are refused, by kind.
const REFUSED: [(&str, &str); 4] = [
    ("5", "an external statement: whether its atom holds is decided outside of the program; state it as a fact or a choice"),
    ("6", "an assumption: it rules out answer sets; state it as a constraint"),
    ("8", "an edge: its acyclicity rules out answer sets; state it as rules"),
    ("9", "a theory statement: what it means is not in the program; state it as rules"),
];

/// The text's own bytes, which the library takes or refuses as they are.
pub fn as_it_is(text: &[u8]) -> Result<Ground, Failure> {
    let lines = 1..=text.split(|byte| *byte == b'\n').count() + 1;
    Ok(Ground { text: text.to_vec(), lines: lines.collect(), ..Ground::default() })
}

/// Cuts a text down. Lines that are no statements stay as they are: the library refuses them, and says which. Without a header there are none.
pub fn cut_down(text: &[u8]) -> Result<Ground, Failure> {
    if text.len() > LIMIT {
        return Err(too_large());
    }
    if !text.starts_with(b"asp ") {
        return as_it_is(text);
    }
    let mut ground = Ground::default();
    let mut dropped = [0; DROPPED.len()];
    let (mut shortened, mut cut) = (0, 0);
    let lines = text.split_inclusive(|byte| *byte == b'\n');
    for (place, line) in lines.clone().enumerate() {
        let statement = line.strip_suffix(b"\n").unwrap_or(line);
        let words = String::from_utf8_lossy(statement);
        let mut kept = line.to_vec();
        let words: Vec<&str> = words.split(' ').collect();
        match fate(&words, place + 1)? {
            Fate::Goes(OUTPUT) if ground.names.take(statement) => continue,
            Fate::Goes(which) => {
                dropped[which] += 1;
                ground.costs.extend(Minimize::of(&words));
                ground.minimizes |= !ground.costs.is_empty();
                continue;
            }
            Fate::Shorter(numbers) => {
                shortened += 1;
                kept = format!("{}\n", numbers.iter().map(i64::to_string).collect::<Vec<_>>().join(" ")).into_bytes();
            }
            Fate::Stays => {}
        }
        let pieces = choices(kept);
        cut += usize::from(pieces.len() > 1);
        ground.lines.extend(pieces.iter().map(|_| place + 1));
        ground.text.extend(pieces.concat());
    }
    ground.lines.push(lines.count() + 1);
    ground.notes = notes(dropped, shortened, cut);
    Ok(ground)
}

/// What is said of what was dropped, by its place in the list, and of rules and choices that were rewritten.
fn notes(dropped: [usize; DROPPED.len()], shortened: usize, cut: usize) -> Vec<String> {
    let counted = DROPPED.iter().zip(dropped).filter(|(_, count)| *count > 0);
    let said = counted.map(|((_, what, why), count)| format!("dropped, which cannot matter: {count} {what}; {why}"));
    let rewritten = format!("rewritten, which cannot matter: {shortened} rules that named a literal twice or had weights above 4095");
    let several =
        format!("rewritten, which cannot matter: {cut} choices among more than {MOST_HEADS} atoms, as several with the same body");
    said.chain((shortened > 0).then_some(rewritten)).chain((cut > 0).then_some(several)).collect()
}

/// The most atoms of a head.
const MOST_HEADS: usize = 64;

/// The line of a choice among more atoms than a rule may have as several lines; any other as it is.
fn choices(line: Vec<u8>) -> Vec<Vec<u8>> {
    let text = String::from_utf8_lossy(&line);
    let words: Vec<&str> = text.strip_suffix('\n').unwrap_or(&text).split(' ').collect();
    let ["1", "1", count, rest @ ..] = &words[..] else { return vec![line] };
    let count = count.parse().ok().filter(|count| *count > MOST_HEADS);
    let Some((heads, body)) = count.and_then(|count| rest.split_at_checked(count)) else { return vec![line] };
    let piece = |heads: &[&str]| format!("1 1 {} {} {}\n", heads.len(), heads.join(" "), body.join(" ")).into_bytes();
    heads.chunks(MOST_HEADS).map(piece).collect()
}

/// What becomes of a line.
enum Fate {
    Stays,
    /// A rule that is written without a literal's second mention, or with smaller weights.
    Shorter(Vec<i64>),
    /// It goes, by its place in the list of what goes.
    Goes(usize),
}

/// What becomes of the line with these words; the header stays.
fn fate(words: &[&str], line: usize) -> Result<Fate, Failure> {
    let kind = words.first().copied().unwrap_or("");
    if let Some((_, why)) = REFUSED.iter().find(|(refused, _)| *refused == kind) {
        return Err(Failure::refused(format!("line {line} of the ground program is {why}")));
    }
    match DROPPED.iter().position(|(dropped, _, _)| *dropped == kind) {
        _ if kind == "1" => rule(words, line),
        Some(which) => Ok(Fate::Goes(which)),
        None => Ok(Fate::Stays),
    }
}

/// A rule with a plain body is a set of literals: one that is written twice counts once, and with its complement the
/// body never holds. In a sum the weights of a literal that is written twice are added up. What is no rule but for that
/// stays, and is refused.
fn rule(words: &[&str], line: usize) -> Result<Fate, Failure> {
    let numbers = words.iter().map(|word| word.parse().ok().filter(|number: &i64| number.to_string() == *word));
    let Some(numbers) = numbers.collect::<Option<Vec<_>>>() else { return Ok(Fate::Stays) };
    let [1, kind @ (0 | 1), count, ..] = numbers[..] else { return Ok(Fate::Stays) };
    if kind == 0 && count > 1 {
        let why = "a rule with a disjunctive head, which the checker does not take; shift it, where that keeps its answer sets, or choose";
        return Err(Failure::refused(format!("line {line} of the ground program is {why}")));
    }
    let body = usize::try_from(count).ok().and_then(|count| count.checked_add(3));
    let Some((before, body)) = body.and_then(|at| numbers.split_at_checked(at)) else { return Ok(Fate::Stays) };
    let heads = &before[3..];
    if heads.iter().any(|head| *head < 1) || heads.len() < kind as usize {
        return Ok(Fate::Stays);
    }
    Ok(match body {
        [0, size, literals @ ..] if usize::try_from(*size) == Ok(literals.len()) && !literals.contains(&0) => plain(before, literals),
        [1, sum @ ..] => sums::smaller(sum).map_or(Fate::Stays, |sum| Fate::Shorter([before, &[1], &sum].concat())),
        _ => Fate::Stays,
    })
}

/// What becomes of a rule with a plain body; its words before the body, and the literals.
fn plain(before: &[i64], literals: &[i64]) -> Fate {
    let mut seen = HashSet::new();
    let once: Vec<i64> = literals.iter().copied().filter(|literal| seen.insert(*literal)).collect();
    if once.iter().any(|literal| literal.checked_neg().is_some_and(|other| seen.contains(&other))) {
        return Fate::Goes(NEVER);
    }
    if once.len() == literals.len() {
        return Fate::Stays;
    }
    Fate::Shorter([before, &[0, once.len() as i64], &once].concat())
}

#[cfg(test)]
mod tests {
    use super::*;

    #[test]
    fn rules_stay_and_names_are_kept() {
        let text = b"asp 1 0 0\n1 0 1 1 0 0\n2 0 1 6 1\n4 1 a 1 1\n1 0 1 8 0 2 2 2\n1 0 0 0 2 -2 2\n10 note\n1 0 0 1 2 1 3 2\n0\n";
        let ground = cut_down(text).unwrap();
        assert_eq!(ground.text, b"asp 1 0 0\n1 0 1 1 0 0\n1 0 1 8 0 1 2\n1 0 0 1 2 1 3 2\n0\n");
        assert_eq!(ground.lines, [1, 2, 5, 8, 9, 10]);
        assert_eq!([0, 3, 6, 7].map(|line| ground.line(line)), [0, 5, 10, 0]);
        assert_eq!(ground.names.of(1), "a");
        assert_eq!(ground.costs, [Minimize { priority: 0, weights: vec![(6, 1)] }]);
        let parts = ["1 minimize", "1 comments", "1 rules with an atom and its negation", "1 rules that named a literal twice"];
        assert!(ground.notes.iter().zip(parts).all(|(note, part)| note.contains(part)), "{:?}", ground.notes);
        assert_eq!(ground.notes.len(), parts.len());
    }

    #[test]
    fn choices_among_many_atoms() {
        let heads = |from: usize, to: usize| (from..=to).map(|atom| format!(" {atom}")).collect::<String>();
        let text = |lines: &[String]| format!("asp 1 0 0\n{}\n0\n", lines.join("\n")).into_bytes();
        let stays = text(&[format!("1 1 64{} 0 1 200", heads(1, 64)), format!("1 0 66{} 0 0", heads(1, 65))]);
        assert!(cut_down(&stays).is_err(), "a disjunction");
        let stays = text(&[format!("1 1 64{} 0 1 200", heads(1, 64)), format!("1 1 66{} 0 0", heads(1, 60))]);
        assert_eq!(cut_down(&stays).unwrap().text, stays);
        let ground = cut_down(&text(&[format!("1 1 130{} 1 2 1 200 3", heads(1, 130)), String::from("1 0 0 0 1 5")])).unwrap();
        let pieces = [(1, 64), (65, 128), (129, 130)].map(|(from, to)| format!("1 1 {}{} 1 2 1 200 3", to - from + 1, heads(from, to)));
        assert_eq!(ground.text, text(&[&pieces[..], &[String::from("1 0 0 0 1 5")]].concat()));
        assert_eq!(ground.lines, [1, 2, 2, 2, 3, 4, 5]);
        assert!(ground.notes[0].contains("1 choices among more than 64 atoms"), "{:?}", ground.notes);
    }

    #[test]
    fn output_statements() {
        let ground = cut_down(b"asp 1 0 0\n4 3 a\xe9b 1 1\n4 9 a 1 1\n1 0 1 1 0 0\n0\n").unwrap();
        assert_eq!((ground.names.count(), ground.lines), (1, vec![1, 4, 5, 6]));
        assert_eq!(ground.notes, ["dropped, which cannot matter: 1 malformed output statements; they say what is shown"]);
    }

    #[test]
    fn what_matters_is_refused() {
        for (line, part) in
            [("5 1 2", "external"), ("6 1 2", "assumption"), ("8 0 1 0", "edge"), ("9 0 1 2", "theory"), ("1 0 2 1 2 0 0", "disjunctive")]
        {
            let failure = cut_down(format!("asp 1 0 0\n{line}\n0\n").as_bytes()).unwrap_err();
            assert!(failure.message.contains(part) && failure.message.starts_with("line 2 "), "{}", failure.message);
        }
    }

    #[test]
    fn other_lines_stay() {
        for text in [
            &b""[..],
            b"\xff\n\xfe",
            b"5 1 2\n10 note\n1 0 1 1 0 0\n0\n",
            b"asp 1 0 0\n1 0 1 1 0 9 1\nnoise\n\n0\nmore",
            b"asp 1 0 0\n1 0 -1 0\n1 1 9223372036854775807 1\n1 0 0 0 1 -9223372036854775808\n1 1\n",
            // What would be shorter, or go, if it were a rule.
            b"asp 1 0 0\n1 0 1 8 0 2 02 +2\n1 7 1 8 0 2 2 2\n1 7 1 8 0 2 2 -2\n1 2 2 8 9 0 2 2 -2\n1 0 1 0 0 2 2 -2\n1 1 0 0 2 2 -2\n1 0 0 0 3 2 -2 0\n1 0 0 0 2 1 -01\n",
        ] {
            let ground = cut_down(text).unwrap();
            assert_eq!(ground.text, text);
        }
    }
}
