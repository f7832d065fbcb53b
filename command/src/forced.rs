//! `aspdrupe forced`: which shown atoms are in every answer set, which in none, and which in some.

use std::collections::BTreeSet;

use crate::arguments::{Subcommand, Words};
use crate::certify::{timed, Answer, AnswerSet, Certifier, Refuted, Times};
use crate::json::Json;
use crate::outcome::{Failure, Outcome, Status};
use crate::outputs::{self, Outputs};
use crate::page::{Mark, Page, Part};
use crate::progress::Progress;
use crate::prove::Asked;
use crate::rules::holds;
use crate::statements::{as_it_is, Ground};
use crate::{constrained, prove, source};

pub const SUBCOMMAND: Subcommand = Subcommand {
    name: "forced",
    form: "PLAN.lp|PROGRAM.aspif [--assume LITERAL..] [-o DIR] [--html FILE] [--table N] [--store N] [--time SECONDS]",
    about: "Says which shown atoms are in every answer set, which in none and which in some, each certified.",
    more: "Prints
    always: ATOM..           in every answer set
    never: ATOM..            in none
    open: ATOM..             in some, and not in others
    inconsistent N R S K     there is no answer set, as `prove` says it
    undecided                the reason is on the standard error
    refused program NUMBER LINE
Certified: answer sets, which the set test passes, show what is open; and for at most 64 of the others at a time a proof, which the check
accepts, that the program has no answer set in which they are not all as said. A fact is always there: gringo says so.
-o DIR keeps it: answer sets as set-I.aspif and set-I.set for `test`, proofs as always-I and never-I.aspif and .drupe for `check`, I from 1 on;
where there is no answer set, none.aspif and none.drupe. What an earlier run left in DIR under such names goes.
--assume, --html, --table, --store and --time are those of `prove`.",
    options: &["-o", "--html", "--table", "--store", "--time"],
    lists: &["--assume"],
    flags: &[],
    inputs: &[0],
    operands: (1, 1),
    run,
};

/// The most literals of a constraint.
const MOST_LITERALS: usize = 64;

fn run(words: &Words) -> Result<Outcome, Failure> {
    let limits = words.limits()?;
    let (path, assumed) = (words.path(0)?, words.texts("--assume"));
    let mut times = Times::default();
    let progress = Progress::start();
    let ground = timed(&mut times.grounding, || source::load_with(path, as_it_is, &assumed))?;
    let mut certifier = Certifier::of(limits, times, &progress);
    let mut outputs = Outputs::in_folder(words, &ground.names, &["set-", "always-", "never-", "none"]);
    let mut search = Search { ground: &ground, certifier: &mut certifier, progress: &progress, sets: Vec::new() };
    let (mut outcome, mut page) = match search.forced()? {
        Found::All { always, never } => {
            let forced = Forced { ground: &ground, sets: &search.sets, always: &always, never: &never };
            forced.keep(&mut outputs);
            forced.told(limits.table, words)
        }
        Found::Other(answer) => {
            let (outcome, mut page) = match prove::told(&answer, &ground, limits.table, (words, &ASKED)) {
                Ok(told) => told,
                Err(refusal) => return source::refused(refusal, &ground, path),
            };
            if let Some(refuted) = answer.accepted() {
                outputs.proof("none", refuted);
                page.again = outputs::again(words, &[String::from("none")], &[]);
            }
            (outcome, page)
        }
    };
    certifier.say(&ground.notes, &mut outcome, &mut page);
    outcome.fields.extend([("calls", Json::count(certifier.calls)), certifier.times.field()]);
    outputs.write(page, path, &mut outcome)?;
    Ok(outcome)
}

const ASKED: Asked = Asked { question: "What is in every answer set, what in none, and what is open?", unknown: "what is forced" };

/// Literals that hold in every answer set, with the proof of it.
struct Group {
    literals: Vec<i32>,
    refuted: Refuted,
}

/// What the search comes to.
enum Found {
    All { always: Vec<Group>, never: Vec<Group> },
    Other(Answer),
}

struct Search<'a, 'b> {
    ground: &'a Ground,
    certifier: &'a mut Certifier<'b>,
    progress: &'a Progress,
    /// The answer sets found so far.
    sets: Vec<AnswerSet>,
}

impl Search<'_, '_> {
    fn forced(&mut self) -> Result<Found, Failure> {
        let first = match self.certifier.answer(&self.ground.text)? {
            Answer::Set(set) => set,
            other => return Ok(Found::Other(other)),
        };
        let literals: BTreeSet<i32> = shown(self.ground, first.told).into_iter().map(|(_, literal)| literal).collect();
        let (held, not) = literals.into_iter().partition(|literal| holds(*literal, &first.atoms));
        self.sets.push(first);
        let always = match self.settled(held)? {
            Ok(groups) => groups,
            Err(other) => return Ok(Found::Other(other)),
        };
        let never = self.settled(BTreeSet::into_iter(not).map(|literal: i32| -literal).collect())?;
        Ok(never.map_or_else(Found::Other, |never| Found::All { always, never }))
    }

    /// Those of the literals that hold in every answer set, by groups. They hold in the first; each further set takes
    /// some away.
    fn settled(&mut self, literals: BTreeSet<i32>) -> Result<Result<Vec<Group>, Answer>, Failure> {
        let (mut groups, mut left) = (Vec::new(), literals);
        let total = left.len();
        loop {
            left.retain(|literal| self.sets.iter().all(|set| holds(*literal, &set.atoms)));
            self.progress.trial(total - left.len(), total);
            let asked: Vec<i32> = left.iter().copied().take(MOST_LITERALS).collect();
            if asked.is_empty() {
                return Ok(Ok(groups));
            }
            match self.certifier.answer(&constrained::text(&self.ground.text, &[not_all(&asked)]))? {
                Answer::Set(set) => self.sets.push(set),
                Answer::Refuted(refuted) if refuted.counts().is_some() => {
                    left.retain(|literal| !asked.contains(literal));
                    groups.push(Group { literals: asked, refuted });
                }
                other => return Ok(Err(other)),
            }
        }
    }
}

/// The constraint that not all of these literals hold.
fn not_all(literals: &[i32]) -> String {
    let words: String = literals.iter().map(|literal| format!(" {literal}")).collect();
    format!("1 0 0 0 {}{words}", literals.len())
}

/// What is shown under one literal, with the literal; without names all of so many atoms.
fn shown(ground: &Ground, atoms: usize) -> Vec<(String, i32)> {
    if !ground.names.is_empty() {
        return ground.names.literals().map(|(name, literal)| (String::from(name), literal)).collect();
    }
    (1..=atoms as i32).map(|atom| (atom.to_string(), atom)).collect()
}

/// The answer.
struct Forced<'a> {
    ground: &'a Ground,
    sets: &'a [AnswerSet],
    always: &'a [Group],
    never: &'a [Group],
}

/// The shown names by what is known of them.
struct Sorted {
    facts: usize,
    always: Vec<String>,
    never: Vec<String>,
    open: Vec<String>,
}

impl Forced<'_> {
    fn sorted(&self) -> Sorted {
        let literals = |groups: &[Group]| groups.iter().flat_map(|group| group.literals.clone()).collect::<BTreeSet<i32>>();
        let (held, not) = (literals(self.always), literals(self.never));
        let facts: Vec<String> = self.ground.names.facts().map(String::from).collect();
        let mut sorted = Sorted { facts: facts.len(), always: facts, never: Vec::new(), open: Vec::new() };
        for (name, literal) in shown(self.ground, self.sets.first().map_or(0, |set| set.told)) {
            if held.contains(&literal) {
                sorted.always.push(name);
            } else if not.contains(&-literal) {
                sorted.never.push(name);
            } else {
                sorted.open.push(name);
            }
        }
        sorted
    }

    fn told(&self, table: usize, words: &Words) -> (Outcome, Page) {
        let sorted = self.sorted();
        let line = |called: &str, names: &[String]| String::from(format!("{called}: {}", names.join(" ")).trim_end());
        let lines = [line("always", &sorted.always), line("never", &sorted.never), line("open", &sorted.open)];
        let proofs = [("always", self.always), ("never", self.never)];
        let proofs = proofs.iter().flat_map(|(of, groups)| groups.iter().map(|group| group.json(of, table))).collect();
        let fields = vec![
            ("answer", Json::text("forced")),
            ("always", Json::texts(&sorted.always)),
            ("never", Json::texts(&sorted.never)),
            ("open", Json::texts(&sorted.open)),
            ("facts", Json::count(sorted.facts)),
            ("sets", Json::List(self.sets.iter().map(|set| Json::atoms(&set.whole)).collect())),
            ("proofs", Json::List(proofs)),
        ];
        let outcome = Outcome { status: Status::Good, line: lines.join("\n"), words: self.sentences(sorted.facts, table), fields };
        let page = self.page(&sorted, words, outcome.words.clone());
        (outcome, page)
    }

    /// What it is certified by, in words.
    fn sentences(&self, facts: usize, table: usize) -> Vec<String> {
        let sentence = |group: &Group, what: &str| {
            let told = prove::refutation(&group.refuted, table);
            let count = group.literals.len();
            format!("certified: {} is the check's verdict on the proof for {count} that are {what}", told.line)
        };
        let mut words = vec![format!("certified: the set test says yes to {} answer sets, which show what is open", self.sets.len())];
        words.extend(self.always.iter().map(|group| sentence(group, "always there")));
        words.extend(self.never.iter().map(|group| sentence(group, "never there")));
        if facts > 0 {
            words.push(format!("{facts} are facts: gringo says so"));
        }
        let unseen = self.ground.names.count() - facts - self.ground.names.literals().count();
        if unseen > 0 {
            words.push(format!("{unseen} terms are shown under several literals together and are not looked at"));
        }
        words
    }

    fn page(&self, sorted: &Sorted, words: &Words, certified: Vec<String>) -> Page {
        let marked = |names: &[String], mark: Mark| names.iter().map(|name| (name.clone(), mark)).collect::<Vec<_>>();
        let atoms = [marked(&sorted.always, Mark::There), marked(&sorted.never, Mark::Never), marked(&sorted.open, Mark::Open)].concat();
        let answer = format!(
            "Of what is shown, {} are in every answer set, {} in none, and {} are open.",
            sorted.always.len(),
            sorted.never.len(),
            sorted.open.len()
        );
        let parts = vec![Part::Atoms { title: String::from("What is shown"), atoms }];
        let proofs: Vec<String> = self.proofs().map(|(name, _)| name).collect();
        Page { question: ASKED.question, answer, parts, certified, again: outputs::again(words, &proofs, &self.set_names()) }
    }

    /// The certificates by their names.
    fn proofs(&self) -> impl Iterator<Item = (String, &Group)> {
        let named =
            |name: &'static str, groups: &'_ [Group]| groups.iter().enumerate().map(move |(place, _)| (name, place)).collect::<Vec<_>>();
        let all = [named("always", self.always), named("never", self.never)].concat();
        all.into_iter().map(|(name, place)| {
            let groups = if name == "always" { self.always } else { self.never };
            (format!("{name}-{}", place + 1), &groups[place])
        })
    }

    fn set_names(&self) -> Vec<String> {
        (1..=self.sets.len()).map(|place| format!("set-{place}")).collect()
    }

    fn keep(&self, outputs: &mut Outputs) {
        self.set_names().iter().zip(self.sets).for_each(|(name, set)| outputs.set(name, set));
        self.proofs().for_each(|(name, group)| outputs.proof(&name, &group.refuted));
    }
}

impl Group {
    fn json(&self, of: &str, table: usize) -> Json {
        let literals = self.literals.iter().map(|literal| Json::Number(i64::from(*literal))).collect();
        let mut fields = vec![("of", Json::text(of)), ("literals", Json::List(literals))];
        fields.extend(prove::refutation(&self.refuted, table).fields);
        Json::Object(fields)
    }
}
