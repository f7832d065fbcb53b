//! A step in words: its kind and what it says, the rules that it is about, the chain that it follows by, and of a refused one what is missing. As
//! lines for people, and as a value for `--json`.

use std::collections::BTreeSet;

use aspdrupe::ProofQuestion;

use super::chain::Link;
use super::replay::{Effect, Replay};
use super::step::{sorted, Step};
use super::wording::Wording;
use crate::json::Json;

/// The rules that are told in full of a step that is about more of them.
const MOST_RULES: usize = 4;

/// The links that are told of a chain that comes to no conflict.
const MOST_LINKS: usize = 40;

/// A step in words.
pub struct Told {
    pub number: usize,
    /// The line of the proof.
    pub line: String,
    pub kind: &'static str,
    pub says: String,
    /// The question that the check refuses it by.
    pub refused: Option<ProofQuestion>,
    /// The rules that it is about, counted from 0.
    pub rules: Vec<usize>,
    pub adds: Vec<Vec<i32>>,
    /// The step that added the nogood which it deletes.
    pub removes: Option<usize>,
    pub chain: Vec<Link>,
    pub missing: Vec<String>,
}

impl Told {
    /// Of a step that the check has accepted, after it was gone through.
    pub fn accepted(step: &Step, effect: &Effect, chain: Vec<Link>, wording: &Wording, replay: &Replay) -> Told {
        let removes = effect.removed.map(|place| replay.origin(place));
        let says = match (step.letter, removes) {
            (b'd', Some(origin)) => format!("{}, which step {origin} added, goes", wording.set(&step.numbers, replay)),
            (b'd', None) => format!("{} is not live: nothing goes", wording.set(&step.numbers, replay)),
            _ => says(step, wording, replay),
        };
        let adds = effect.added.clone().map(|place| replay.nogood(place)).collect();
        Told { says, adds, removes, chain, ..Told::of(replay.steps, step, wording, replay) }
    }

    /// Of the step that the check refuses, before it is gone through.
    pub fn refused(question: ProofQuestion, step: &Step, wording: &Wording, replay: &Replay) -> Told {
        Told { refused: Some(question), ..Told::of(replay.steps + 1, step, wording, replay) }
    }

    fn of(number: usize, step: &Step, wording: &Wording, replay: &Replay) -> Told {
        let numbers: String = step.numbers.iter().map(|number| format!("{number} ")).collect();
        Told {
            number,
            line: format!("{} {numbers}0", char::from(step.letter)),
            kind: step.kind(),
            says: says(step, wording, replay),
            refused: None,
            rules: rules_of(step, wording, replay),
            adds: Vec::new(),
            removes: None,
            chain: Vec::new(),
            missing: Vec::new(),
        }
    }

    /// The lines for people, each ended.
    pub fn text(&self, wording: &Wording, replay: &Replay) -> String {
        let refused = self.refused.map_or(String::new(), |question| format!(", refused with {}", question.number()));
        let mut text = format!("step {}, {}{refused}: {}\n", self.number, self.kind, self.says);
        let told = if self.rules.len() > MOST_RULES { MOST_RULES - 1 } else { MOST_RULES };
        for rule in self.rules.iter().take(told) {
            text += &format!("    {}\n", wording.rule(*rule));
        }
        if self.rules.len() > told {
            let lines: Vec<String> = self.rules[told..].iter().map(|rule| wording.line(*rule).to_string()).collect();
            text += &format!("    and {} more, lines {}\n", lines.len(), lines.join(", "));
        }
        let most = if self.refused.is_some() { MOST_LINKS } else { usize::MAX };
        for link in self.chain.iter().take(most) {
            text += &format!("    {}\n", link_text(link, wording, replay));
        }
        if self.chain.len() > most {
            text += &format!("    and {} more\n", self.chain.len() - most);
        }
        self.missing.iter().for_each(|line| text += &format!("    {line}\n"));
        text
    }

    /// The names that stand in it and its chain, each with what it stands for.
    pub fn legend(&self, step: &Step, wording: &Wording, replay: &Replay) -> Vec<String> {
        let own = self.adds.iter().flatten().chain(&step.numbers);
        let used: BTreeSet<i32> =
            own.chain(self.chain.iter().flat_map(|link| &link.nogood)).map(|literal| literal.saturating_abs()).collect();
        let names = used.iter().filter_map(|variable| replay.names.get(variable).map(|name| (variable, name)));
        let told = names.filter(|(_, name)| name.step != self.number);
        told.map(|(variable, name)| {
            let rule = wording.rules_with(&name.literals).first().filter(|_| name.of_body);
            let rule = rule.map_or(String::new(), |rule| format!(", {}", wording.rule(*rule)));
            format!("{} is {}, by step {}{rule}", wording.literal(*variable, replay), wording.set(&name.literals, replay), name.step)
        })
        .collect()
    }

    pub fn json(&self, wording: &Wording, replay: &Replay) -> Json {
        let rule = |rule: &usize| {
            let (number, line) = (Json::count(rule + 1), Json::count(wording.line(*rule)));
            Json::Object(vec![("rule", number), ("line", line), ("text", Json::text(wording.rule_text(*rule)))])
        };
        let link = |link: &Link| {
            let mut fields = vec![("step", Json::count(link.step)), ("nogood", numbers(&link.nogood))];
            fields.push(("text", Json::text(&wording.set(&link.nogood, replay))));
            fields.extend(link.gives.map(|literal| ("gives", Json::Number(i64::from(literal)))));
            Json::Object(fields)
        };
        let mut fields = vec![("step", Json::count(self.number)), ("kind", Json::text(self.kind)), ("line", Json::text(&self.line))];
        fields.push(("says", Json::text(&self.says)));
        fields.extend(self.refused.map(|question| ("refused", Json::Number(i64::from(question.number())))));
        let mut list = |name, values: Vec<Json>| fields.extend((!values.is_empty()).then_some((name, Json::List(values))));
        list("rules", self.rules.iter().map(rule).collect());
        list("adds", self.adds.iter().map(|nogood| numbers(nogood)).collect());
        list("chain", self.chain.iter().map(link).collect());
        list("missing", self.missing.iter().map(|line| Json::text(line)).collect());
        fields.extend(self.removes.map(|step| ("removes", Json::count(step))));
        Json::Object(fields)
    }
}

fn numbers(literals: &[i32]) -> Json {
    Json::List(literals.iter().map(|literal| Json::Number(i64::from(*literal))).collect())
}

/// A nogood of a chain in words.
fn link_text(link: &Link, wording: &Wording, replay: &Replay) -> String {
    let nogood = wording.set(&link.nogood, replay);
    match link.gives {
        Some(literal) => format!("{nogood}, of step {}, gives {}", link.step, wording.literal(literal, replay)),
        None => format!("{nogood}, of step {}: all of it holds, a conflict", link.step),
    }
}

/// What a step says, a deletion aside.
fn says(step: &Step, wording: &Wording, replay: &Replay) -> String {
    let set = |literals: &[i32]| wording.set(literals, replay);
    let one = |literal: i32| wording.literal(literal, replay);
    let Some((&first, others)) = step.numbers.split_first() else {
        return String::from(if step.letter == b'a' { "the empty nogood: no set is an answer set" } else { "the empty nogood" });
    };
    let some_of = |names: &[i32]| match names {
        [] => format!("{} does not hold: nothing gives it", one(first)),
        [name] => format!("where {} holds, {} does", one(first), one(*name)),
        _ => format!("where {} holds, one of {} does", one(first), wording.list(names, replay)),
    };
    match step.letter {
        b'b' => format!("body#{first} is the body {}", set(&sorted(others.iter().copied()))),
        b'e' => format!("name#{first} stands for {}", set(&sorted(others.iter().copied()))),
        b'c' => match others {
            [head] => format!("where {} holds, {} does", one(first), one(*head)),
            [] => format!("{} does not hold", one(first)),
            _ => set(&step.numbers),
        },
        b's' => some_of(others),
        b'l' => {
            let externals: Vec<i32> = replay.nogoods(step)[0].iter().filter(|literal| **literal < 0).map(|literal| -literal).collect();
            format!("{} cannot hold itself up: {}", set(&sorted(step.numbers.iter().copied())), some_of(&externals))
        }
        _ => format!("{} is ruled out", set(&sorted(step.numbers.iter().copied()))),
    }
}

/// The rules that a `b`, `c`, `s` or `l` is about: those with the body; normal ones with the body and the head; those with the atom in the head; and
/// those that give an atom of the loop from outside.
fn rules_of(step: &Step, wording: &Wording, replay: &Replay) -> Vec<usize> {
    let Some((&first, others)) = step.numbers.split_first() else { return Vec::new() };
    let places = 0..wording.rules.len();
    match step.letter {
        b'b' => wording.rules_with(&sorted(others.iter().copied())).to_vec(),
        b'c' => {
            let body = replay.names.get(&first).filter(|name| name.of_body).map_or(&[][..], |name| wording.rules_with(&name.literals));
            let fits = |rule: &&usize| !wording.rules[**rule].choice && wording.rules[**rule].heads == others;
            body.iter().filter(fits).copied().collect()
        }
        b's' => places.filter(|rule| wording.rules[*rule].heads.contains(&first)).collect(),
        b'l' => {
            let bodies = replay.completion.external_bodies(&step.numbers);
            let rules: BTreeSet<usize> =
                bodies.iter().flat_map(|body| wording.rules_with(&replay.completion.bodies[*body])).copied().collect();
            let gives = |rule: &usize| wording.rules[*rule].heads.iter().any(|head| step.numbers.contains(head));
            rules.into_iter().filter(gives).collect()
        }
        _ => Vec::new(),
    }
}
