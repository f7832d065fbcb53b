//! Long sums: a ground program gets the form that the checker takes, its long sums split into short ones by the
//! library's service, which is proved to keep the answer sets. Sums of more literals than it reads are split here in the
//! same way first, which is said.

use std::collections::HashSet;

use aspdrupe::{ProgramQuestion, ProgramRefusal, Splitting};

use crate::files::TEXT_LIMIT;
use crate::library;
use crate::outcome::Failure;
use crate::rules::{Rule, SHORT};
use crate::sums::MOST;
use crate::totalizer::Totalizer;

/// The group sizes that are tried: which costs least hangs on weights and bounds. A sum of up to 7 literals has at most
/// 35 minimal bodies, so that an `s` line has room for them all. Larger groups, of which one of 12 can have 924, take
/// fewer rules, and are tried where these do not do.
const GROUPS: [&[usize]; 2] = [&[3, 4, 5, 6, 7], &[8, 9, 10, 11, 12]];

/// The most literals of a sum that the library splits, the most rules of a program, and the largest atom.
const LONG: usize = 64;
const MOST_RULES: usize = 1_024;
const LARGEST: i32 = 8_191;

/// A ground program with short sums only.
pub struct Split {
    pub text: Vec<u8>,
    /// How many rules and atoms it has more than before. The new atoms' numbers are above those of before, and no rule
    /// has one negated.
    pub rules: usize,
    pub atoms: usize,
    /// How many sums the library does not read, and were split here.
    pub unproved: usize,
}

impl Split {
    /// What is said where something was split.
    pub fn note(&self) -> Option<String> {
        let said = || format!("long sums are split, which adds {} rules and {} atoms", self.rules, self.atoms);
        (self.rules + self.atoms > 0).then(said)
    }

    /// A text that stays as it is.
    fn none(text: &[u8]) -> Split {
        Split { text: text.to_vec(), rules: 0, atoms: 0, unproved: 0 }
    }
}

/// What is said of so many sums that are not split by the library.
pub fn caution(unproved: usize) -> Option<String> {
    let what = format!("with more than {LONG} literals, more than the library reads,");
    let how = "split by this command: in a way that is proved to keep the answer sets, by code that is not proved";
    match unproved {
        0 => None,
        1 => Some(format!("one sum {what} is {how}")),
        many => Some(format!("{many} sums {what} are {how}")),
    }
}

/// The program whose long sums are split by the library, which has the same answer sets, the new atoms aside; or its
/// refusal, with a line of its own, which a sum of more literals than the library reads is. Of the group sizes that are
/// tried it is the one with the smallest bodies. Where it would be too large whatever the size, it is refused as it is.
pub fn split(text: &[u8]) -> Result<Result<Split, ProgramRefusal>, Failure> {
    let program = Lines::of(text);
    if program.has_beyond() {
        return Ok(library::read_program(text, library::EVERY_TABLE)?.map(|_| Split::none(text)));
    }
    program.in_groups(text)
}

/// The same of a program with sums of more literals too, which are split here first.
pub fn split_any(text: &[u8]) -> Result<Result<Split, ProgramRefusal>, Failure> {
    let program = Lines::of(text);
    if program.has_beyond() {
        program.in_groups(text)
    } else {
        split(text)
    }
}

/// What to mend where a program is refused for the sum of a line, which was not split; none where it is refused for
/// something else.
pub fn mend(text: &[u8], refusal: ProgramRefusal) -> Option<String> {
    let program = Lines::of(text);
    let rule = program.lines.get(refusal.line.checked_sub(1)?)?.1.as_ref()?;
    let (_, pairs) = rule.sum().filter(|(_, pairs)| pairs.len() > SHORT)?;
    if !is_long(rule) {
        return Some(format!(
            "weights and bound of a sum of {} literals have to be 0 to {MOST}, and no atom may stand in it twice",
            pairs.len()
        ));
    }
    let limits = |group: &usize| {
        let (text, totalizer) = program.written(*group, is_long);
        let over = [totalizer.is_full, totalizer.next > LARGEST + 1, text.len() > TEXT_LIMIT];
        (over, totalizer.rules.len())
    };
    let (over, _) = GROUPS.concat().iter().map(limits).min()?;
    let told = ["1,024 rules", "8,191 atoms", "65,535 bytes"].into_iter().zip(over).filter(|(_, over)| *over).map(|(limit, _)| limit);
    let limits = told.collect::<Vec<_>>().join(" and ");
    Some(format!("fewer or shorter sums, lower bounds, or a smaller plan: with its long sums split the program has more than {limits}"))
}

/// The literals and bodies of the rules that define atoms above the old ones.
fn cost(text: &[u8], old: i32) -> usize {
    let rules = String::from_utf8_lossy(text);
    let new = rules.lines().filter_map(Rule::of_line).filter(|rule| rule.heads.iter().any(|head| *head > old));
    new.flat_map(|rule| rule.bodies()).map(|body| 1 + body.len()).sum()
}

/// The lines of a program, with the rules that they are.
struct Lines<'a> {
    lines: Vec<(&'a [u8], Option<Rule>)>,
    /// The largest atom, and the most literals of a sum.
    atoms: i32,
    longest: usize,
}

impl Lines<'_> {
    fn of(text: &[u8]) -> Lines<'_> {
        let lines: Vec<(&[u8], Option<Rule>)> = text.split_inclusive(|byte| *byte == b'\n').map(|line| (line, rule_of(line))).collect();
        let rules = || lines.iter().filter_map(|(_, rule)| rule.as_ref());
        let atoms = rules().flat_map(Rule::atoms).max().unwrap_or(0);
        let longest = rules().filter_map(Rule::sum).map(|(_, pairs)| pairs.len()).max().unwrap_or(0);
        Lines { lines, atoms, longest }
    }

    /// Whether a sum has more literals than the library splits.
    fn has_beyond(&self) -> bool {
        self.lines.iter().any(|(_, rule)| rule.as_ref().is_some_and(is_beyond))
    }

    /// The program with its long sums in groups of the size that costs least.
    fn in_groups(&self, text: &[u8]) -> Result<Result<Split, ProgramRefusal>, Failure> {
        for groups in GROUPS.iter().filter(|_| self.longest > SHORT) {
            let mut best: Option<(usize, Split)> = None;
            for group in *groups {
                let split = match self.split(text, *group)? {
                    Ok(Some(split)) => split,
                    Ok(None) => continue,
                    Err(refusal) => return Ok(Err(refusal)),
                };
                let cost = cost(&split.text, self.atoms);
                if best.as_ref().is_none_or(|(least, _)| cost < *least) {
                    best = Some((cost, split));
                }
            }
            if let Some((_, split)) = best {
                return Ok(Ok(split));
            }
        }
        Ok(library::read_program(text, library::EVERY_TABLE)?.map(|_| Split::none(text)))
    }

    /// The rules, which are a program's header and end aside.
    fn count(&self) -> usize {
        self.lines.len().saturating_sub(2)
    }

    /// The program split by the library in groups of so many literals, sums that it does not read split before; none
    /// where it is too large, or its refusal.
    fn split(&self, text: &[u8], group: usize) -> Result<Result<Option<Split>, ProgramRefusal>, Failure> {
        let unproved = self.lines.iter().filter(|(_, rule)| rule.as_ref().is_some_and(is_beyond)).count();
        let (own, totalizer) = self.written(group, is_beyond);
        if totalizer.is_full && unproved > 0 {
            return Ok(Ok(None));
        }
        let (splitting, written) = aspdrupe::split_program(&own, group)?;
        Ok(match splitting {
            Splitting::Split { atoms, rules, .. } => {
                let added = atoms.saturating_sub(self.atoms as usize);
                Ok(Some(Split { text: written, rules: rules.saturating_sub(self.count()), atoms: added, unproved }))
            }
            Splitting::RefusedProgram(refusal) if self.is_own(text, refusal) => {
                let line = lines(text, &self.numbers(), &own).get(refusal.line.wrapping_sub(1)).copied().unwrap_or(refusal.line);
                Err(ProgramRefusal { line, ..refusal })
            }
            Splitting::RefusedProgram(_) | Splitting::Refused(_) => Ok(None),
        })
    }

    /// Whether a refusal is of the program as it was, and not of what splitting made of it.
    fn is_own(&self, text: &[u8], refusal: ProgramRefusal) -> bool {
        match refusal.question {
            ProgramQuestion::Length => text.len() > TEXT_LIMIT,
            ProgramQuestion::RuleCount => self.count() > MOST_RULES,
            ProgramQuestion::Range => self.atoms > LARGEST,
            _ => true,
        }
    }

    /// The numbers of its lines, and of the place after them.
    fn numbers(&self) -> Vec<usize> {
        (1..=self.lines.len() + 1).collect()
    }

    /// The text with sums of some kind split here, and what counts its rules and atoms: where that is full, the text is
    /// not all of it. Other lines stay as they are.
    fn written(&self, group: usize, is_split: fn(&Rule) -> bool) -> (Vec<u8>, Totalizer) {
        // A program with a larger atom is refused in any case.
        let mut totalizer = Totalizer::of(self.atoms.min(LARGEST) + 1, MOST_RULES);
        let mut text = Vec::new();
        for (line, rule) in &self.lines {
            let before = totalizer.rules.len();
            match rule.as_ref().filter(|rule| is_split(rule)).and_then(|rule| Some((rule, rule.sum()?))) {
                Some((rule, (bound, pairs))) if !totalizer.is_full => {
                    totalizer.split(rule, bound, pairs, group);
                    totalizer.rules[before..].iter().for_each(|rule| text.extend(format!("{}\n", rule.line()).into_bytes()));
                }
                _ => {
                    rule.iter().for_each(|rule| totalizer.keep(rule.clone()));
                    text.extend(*line);
                }
            }
        }
        (text, totalizer)
    }
}

/// The rule of a line, where it is written as the library reads it.
fn rule_of(line: &[u8]) -> Option<Rule> {
    let text = std::str::from_utf8(line.strip_suffix(b"\n")?).ok()?;
    let is_number = |word: &str| word.parse::<i32>().is_ok_and(|number| number.to_string() == word);
    text.split(' ').all(is_number).then(|| Rule::of_line(text)).flatten()
}

/// Whether a rule has a sum that can be split.
fn is_long(rule: &Rule) -> bool {
    let Some((bound, pairs)) = rule.sum().filter(|(_, pairs)| pairs.len() > SHORT) else { return false };
    let is_number = |number: i32| (0..=MOST).contains(&i64::from(number));
    let mut seen = HashSet::new();
    let is_pair = |(literal, weight): &(i32, i32)| is_number(*weight) && *literal != 0 && seen.insert(literal.saturating_abs());
    is_number(bound) && pairs.iter().all(is_pair)
}

/// Whether it has one with more literals than the library splits.
fn is_beyond(rule: &Rule) -> bool {
    rule.sum().is_some_and(|(_, pairs)| pairs.len() > LONG) && is_long(rule)
}

/// By line of the text after splitting, the line that it is of, where those before it are of these. A rule that is
/// split is several lines in its place.
pub fn lines(before: &[u8], from: &[usize], after: &[u8]) -> Vec<usize> {
    let read =
        |text: &[u8]| String::from_utf8_lossy(text).lines().map(|line| (Rule::of_line(line), String::from(line))).collect::<Vec<_>>();
    let same =
        |one: &(Option<Rule>, String), other: &(Option<Rule>, String)| if one.0.is_some() { one.0 == other.0 } else { one.1 == other.1 };
    let old = read(before);
    let mut at = 0;
    let mut lines = Vec::new();
    for line in read(after) {
        let is_at = |place: usize| old.get(place).is_some_and(|old| same(old, &line));
        if !is_at(at) && is_at(at + 1) {
            at += 1;
        }
        lines.push(from.get(at).copied().unwrap_or(0));
        at += usize::from(is_at(at));
    }
    lines.push(from.last().copied().unwrap_or(0));
    lines
}

#[cfg(test)]
mod tests {
    use super::*;

    /// A program with the constraint that not so many of the first atoms hold.
    fn counted(bound: usize, atoms: usize) -> Vec<u8> {
        let pairs: String = (1..=atoms).map(|atom| format!(" {atom} 1")).collect();
        format!("asp 1 0 0\n1 0 0 1 {bound} {atoms}{pairs}\n0\n").into_bytes()
    }

    #[test]
    fn long_sums() {
        let short = split(&counted(5, 12)).unwrap().unwrap();
        assert_eq!((short.text, short.rules, short.atoms), (counted(5, 12), 0, 0));
        let split_up = split(&counted(13, 13)).unwrap().unwrap();
        assert_eq!((split_up.rules, split_up.atoms), (3, 3));
        assert!(split_up.note().unwrap().ends_with("adds 3 rules and 3 atoms"));
        assert_eq!(split(b"asp 1 0 0\n1 0\n0\n").unwrap().err().map(|refusal| refusal.line), Some(2));
        // more literals than a sum may have
        assert!(split(&counted(5, 65)).unwrap().is_err());
        // groups of 3: with the 41 rules of groups of 7 a week of five people is not decided in a minute
        let week = split(&counted(5, 21)).unwrap().unwrap();
        assert_eq!((week.rules, week.atoms), (105, 46));
    }

    #[test]
    fn sums_beyond_what_the_library_splits() {
        let proved = split_any(&counted(3, 64)).unwrap().unwrap();
        let own = split_any(&counted(3, 65)).unwrap().unwrap();
        assert_eq!((proved.unproved, own.unproved), (0, 1));
        assert!(caution(0).is_none() && caution(1).unwrap().starts_with("one sum with more than 64 literals, "));
        // beside others, of which the library splits one and refuses another
        let lines = |count: usize| format!("1 0 0 1 3 {count}{}\n", (1..=count).map(|atom| format!(" {atom} 1")).collect::<String>());
        let text = |last: &str| format!("asp 1 0 0\n{}{}{last}0\n", lines(70), lines(20)).into_bytes();
        let both = split_any(&text("1 0 0 0 1 5\n")).unwrap().unwrap();
        assert_eq!((both.unproved, both.text.ends_with(b"\n1 0 0 0 1 5\n0\n")), (1, true));
        // what is not written as the library reads it stays so
        for other in ["1 0 0 0 1 05\n", "1 0 0 0 1 5\r\n", "1 0 0 0 1 5\n0\n"] {
            assert!(split_any(&text(other)).unwrap().is_err(), "{other}");
        }
        assert!(split_any(&text("1 0 0 0 1 2147483647\n")).unwrap().is_err() && split_any(&text("")[..200]).unwrap().is_err());
        assert_eq!(split_any(&text("1 0 0 0 1\n")).unwrap().err().map(|refusal| (refusal.question.number(), refusal.line)), Some((6, 4)));
    }

    #[test]
    fn what_cannot_be_split() {
        let refused = |text: &[u8]| {
            let refusal = split(text).unwrap().err().unwrap();
            (refusal.question.number(), refusal.line, mend(text, refusal).unwrap_or_default())
        };
        let sum = |count: usize, bound: usize| {
            let pairs: String = (1..=count).map(|atom| format!(" {atom} 1")).collect();
            format!("1 0 0 1 {bound} {count}{pairs}\n")
        };
        let (number, line, told) = refused(format!("asp 1 0 0\n1 0 0 0 0\n{}0\n", sum(21, 11).repeat(40)).as_bytes());
        assert_eq!((number, line), (55, 3));
        assert!(told.ends_with("with its long sums split the program has more than 1,024 rules"), "{told}");
        let (number, _, told) = refused(format!("asp 1 0 0\n{}1 0 1 8190 0 0\n0\n", sum(21, 11)).as_bytes());
        assert!(number == 55 && told.ends_with("more than 8,191 atoms"), "{told}");
        let wide = format!("1 0 0 0 64{}\n", (7_000..7_064).map(|atom| format!(" {atom}")).collect::<String>());
        let (number, _, told) = refused(format!("asp 1 0 0\n{}{}0\n", sum(64, 2), wide.repeat(196)).as_bytes());
        assert!(number == 55 && told.ends_with("more than 65,535 bytes"), "{told}");
        let (number, line, told) = refused(format!("asp 1 0 0\n{}0\n", sum(65, 4_096)).as_bytes());
        assert!((number, line) == (6, 2) && told.starts_with("weights and bound of a sum of 65 literals"), "{told}");
        // refused for something else
        assert_eq!(mend(b"asp 1 0 0\n1 0\n0\n", ProgramRefusal { question: ProgramQuestion::Counts, line: 2 }), None);
    }

    #[test]
    fn lines_after_splitting() {
        let before = b"asp 1 0 0\n1 0 1 2 0 2 3 1\n1 0 0 1 5 3 1 2 2 2 3 2\n1 0 0 0 1 4\n1 0 1 9 1 1 1 1 1\n0\n";
        let from = [1, 4, 6, 7, 9, 10, 11];
        assert_eq!(lines(before, &from, before), from);
        let after = b"asp 1 0 0\n1 0 1 2 0 2 1 3\n1 0 1 10 0 1 1\n1 0 1 11 0 1 2\n1 0 0 0 2 10 11\n1 0 0 0 1 4\n1 0 1 9 1 1 1 1 1\n0\n";
        assert_eq!(lines(before, &from, after), [1, 4, 6, 6, 6, 7, 9, 10, 11]);
        assert_eq!(lines(b"", &[], b"x\n"), [0, 0]);
    }
}
