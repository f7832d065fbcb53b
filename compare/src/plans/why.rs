//! Runs `aspdrupe why` on random plans: what it assumes holds in the answer set that is named, and in every answer set in
//! which it holds the literal does too. A set that is none is refused.

use std::fs;
use std::process::{Command, Stdio};

use super::{good, named, settle, Plan, Planner, NAMES};
use crate::comparison::Comparison;
use crate::reference::models::Set;
use crate::reference::program::InputRule;

/// How it ended, and what it printed.
struct Ended {
    status: i32,
    printed: String,
    said: String,
}

impl Planner {
    /// Asks why a literal holds in a set.
    fn why(&self, file: &str, text: &str, set: &[String], literal: &str) -> Result<Ended, String> {
        let path = self.room.join(file);
        fs::write(&path, text).map_err(|error| error.to_string())?;
        let mut command = Command::new(&self.command);
        command.arg("why").arg(&path).arg("--set").args(set).args(["--", literal]).stdin(Stdio::null());
        let ended = command.output().map_err(|error| error.to_string())?;
        let text = |bytes: &[u8]| String::from_utf8_lossy(bytes).into_owned();
        Ok(Ended { status: ended.status.code().unwrap_or(-1), printed: text(&ended.stdout), said: text(&ended.stderr) })
    }
}

/// A literal of an answer set is explained, and a set that no answer set shows is refused.
pub fn why(comparison: &mut Comparison, planner: &Planner, plan: &Plan, ground: bool) {
    let count = if ground { plan.constraints.len() } else { plan.constraints.len() / 3 };
    let (file, text) = if ground { ("p.aspif", plan.ground_text()) } else { ("p.lp", plan.text(count)) };
    let all: Vec<&InputRule> = plan.constraints[..count].iter().collect();
    let sets = plan.answer_sets(&all);
    let atom = comparison.random.between(1, NAMES.len() as i32);
    let other: Set = (1..=NAMES.len() as i32).filter(|_| comparison.random.percent(50)).collect();
    let place = comparison.random.below(sets.len().max(1));
    let said = match sets.get(place) {
        None => Ok("no answer set"),
        Some(set) => {
            let literal = if set.contains(&atom) { atom } else { -atom };
            let shown = plan.shows(set, ground);
            let ended = planner.why(file, &text, &shown, &told(literal, ground));
            ended.and_then(|ended| plan.fits_why(&ended, &sets, &shown, literal, ground))
        }
    };
    settle(comparison, "why", said, &text);
    let shown = plan.shows(&other, ground);
    let is_one = sets.iter().any(|set| plan.shows(set, ground) == shown);
    let ended = planner.why(file, &text, &shown, &told(atom, ground));
    let said = ended.and_then(|ended| {
        let unknown = ended.status == 2 && ended.said.contains("is neither an atom's number nor a name");
        let refused = ended.status == 20 && ended.printed.starts_with("refused set: ");
        let kind = if is_one { "another set" } else { "no set" };
        good(unknown || refused != is_one, kind, || format!("{shown:?}: {} {} {}", ended.status, ended.printed, ended.said))
    });
    settle(comparison, "why of any set", said, &text);
}

fn told(literal: i32, ground: bool) -> String {
    match (ground, literal < 0) {
        (false, _) => named(literal),
        (true, true) => format!("not {}", -literal),
        (true, false) => literal.to_string(),
    }
}

impl Plan {
    fn fits_why(&self, ended: &Ended, sets: &[Set], shown: &[String], literal: i32, ground: bool) -> Result<&'static str, String> {
        let otherwise = || format!("{shown:?} {literal}: {} {} {}", ended.status, ended.printed, ended.said);
        let holds = |set: &Set, literal: i32| set.contains(&literal.abs()) == (literal > 0);
        let unknown = ended.said.contains("is neither an atom's number nor a name");
        if ended.status == 2 && unknown {
            return good(sets.iter().all(|set| !set.contains(&literal.abs())), "an atom that no rule gives", otherwise);
        }
        let like = |set: &&Set| self.shows(set, ground) == shown;
        if ended.status == 10 && ended.printed.starts_with("no: ") {
            let hidden = sets.iter().filter(like).any(|set| !holds(set, literal));
            return good(hidden, "a hidden atom that is otherwise", otherwise);
        }
        let mut lines = ended.printed.lines();
        let first = lines.next().and_then(|line| line.strip_prefix(&format!("why {}: ", told(literal, ground))));
        let count = first.and_then(|rest| rest.split(' ').next()).map(|count| count.parse().unwrap_or(0)).ok_or_else(otherwise)?;
        let assumed: Option<Vec<i32>> = lines.by_ref().take(count).map(|line| assumed(line, ground)).collect();
        let assumed = assumed.ok_or_else(otherwise)?;
        let root = lines.next().is_some_and(|line| line.starts_with(&format!("{}: ", told(literal, ground))));
        let with = |set: &&Set| assumed.iter().all(|literal| holds(set, *literal));
        let named = sets.iter().filter(like).filter(with).any(|set| holds(set, literal));
        let follows = sets.iter().filter(with).all(|set| holds(set, literal));
        let kind = match assumed.len() {
            0 => "no assumption",
            1 => "one assumption",
            _ => "several assumptions",
        };
        good(ended.status == 0 && root && named && follows, kind, otherwise)
    }
}

/// The literal of a line that tells an assumption. An atom without a name is none of the plan's.
fn assumed(line: &str, ground: bool) -> Option<i32> {
    let (_, rest) = line.split_once(": ")?;
    let text = rest.split_once(", by ").map_or(rest, |(text, _)| text);
    let literals = (1..=NAMES.len() as i32).flat_map(|atom| [atom, -atom]);
    literals.into_iter().find(|literal| told(*literal, ground) == text)
}
