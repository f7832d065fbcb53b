//! `aspdrupe why`: why an atom is in an answer set, or why it is not. An off-line justification in the sense of source
//! 003: assumptions, and a derivation of the literal from the rules and these; certified by a proof that is made from it.

mod asked;
mod assumptions;
mod certificate;
mod closure;
mod contrary;
mod dot;
#[cfg(test)]
mod examples;
mod naming;
mod program;
#[cfg(test)]
mod random;
mod tree;
mod view;

use crate::arguments::{Subcommand, Words};
use crate::certify::{timed, Answer, AnswerSet, Certifier, Limits, Times};
use crate::json::Json;
use crate::library;
use crate::names::Names;
use crate::outcome::{Failure, Outcome, Status};
use crate::outputs::Outputs;
use crate::page::{Page, Part};
use crate::progress::Progress;
use crate::rules::{holds, rules};
use crate::source::Source;
use crate::statements::{as_it_is, Ground};
use crate::{outputs, prove, source};
use asked::{Finder, Found};
use certificate::{Certificate, Certified, Derivation};
use closure::Closure;
use program::Plain;
use view::View;

pub const SUBCOMMAND: Subcommand = Subcommand {
    name: "why",
    form: "PLAN.lp|PROGRAM.aspif [--set ATOM..] LITERAL [-o DIR] [--dot FILE] [--html FILE] [--table N] [--store N] [--time SECONDS]",
    about: "Says why an atom is in an answer set, or why it is not: by which rules, from which assumptions, certified.",
    more: "LITERAL is an atom, or \"not\" and one, by name or number. --set names the answer set: its atoms, by name or number; of a program with names those
that are shown, and what is hidden is found. Without it the set is the one that `prove` finds. Prints
    why LITERAL: K assumptions
    chosen: ATOM, by RULE    a choice that is taken
    left: not ATOM, by RULE  a choice that is left
    assumed: not ATOM        an atom that is false by assumption: others are there only because it is not
and the derivation, indented: of an atom the rule and why its body holds, of one that is not there the literal that fails of each rule for it, or
the set of atoms that hold only each other up. Or
    no: LITERAL              the literal does not hold in the set
    refused set: NO          the set is no answer set, as `test` says it
    inconsistent N R S K     there is no answer set, as `prove` says it
    undecided                the reason is on the standard error
    refused program NUMBER LINE
No assumption can go: without any one of them the literal does not follow by these rules of derivation. They are a part of a minimal assumption of
the whole set. Constraints explain nothing here: `forced` and `core --assume` do.
Certified: with a constraint for each assumption and one against the literal the program is inconsistent, by a proof made from the derivation,
which the check accepts; what trimming takes out of it is not shown.
-o DIR keeps why.aspif and why.drupe for `check`, and set.aspif and set.set for `test`. --dot FILE writes the graph for Graphviz, --html FILE a page.
--table, --store and --time are those of `prove`. A plan is grounded with gringo's --keep-facts.",
    options: &["-o", "--dot", "--html", "--table", "--store", "--time"],
    lists: &["--set"],
    flags: &[],
    inputs: &[0],
    operands: (1, 3),
    run,
};

const QUESTION: &str = "Why is it in the answer set, or why is it not?";

const ASKED: prove::Asked = prove::Asked { question: QUESTION, unknown: "whether there is an answer set" };

fn run(words: &Words) -> Result<Outcome, Failure> {
    let limits = words.limits()?;
    let asked = asked::asked(words)?;
    let path = words.path(0)?;
    let mut times = Times::default();
    let progress = Progress::start();
    let source = Source::of(path)?;
    let whole = timed(&mut times.grounding, || source.whole())?;
    let mut certifier = Certifier::of(limits, times, &progress);
    let ground = taken(&source, whole, &mut certifier)?;
    let found = Finder { source: &source, ground: &ground, certifier: &mut certifier }.find(asked.set.as_deref())?;
    let mut outputs = Outputs::in_folder(words, &ground.names, &["why", "set"]);
    let (mut outcome, mut page) = match found {
        Found::Set(set) => Asker { words, ground: &ground, limits, progress: &progress }.explain(&asked.literal, set, &mut outputs)?,
        Found::Told(outcome) => (outcome, Page::empty(QUESTION, "The set is no answer set.")),
        Found::Other(answer) => match prove::told(&answer, &ground, limits.table, (words, &ASKED)) {
            Ok((mut outcome, page)) => {
                outcome.words.extend(nothing(&answer));
                (outcome, page)
            }
            Err(refusal) => return source::refused(refusal, &ground, path),
        },
    };
    certifier.say(&ground.notes, &mut outcome, &mut page);
    outcome.fields.push(certifier.times.field());
    outputs.write(page, path, &mut outcome)?;
    Ok(outcome)
}

/// The program with its facts; where that is beyond what the checker takes and the program without them is not, that one.
fn taken(source: &Source, whole: Ground, certifier: &mut Certifier) -> Result<Ground, Failure> {
    if source.is_ground() || certifier.refusal(&whole.text)?.is_none() {
        return Ok(whole);
    }
    let mut plain = timed(&mut certifier.times.grounding, || source.load(as_it_is, &[]))?;
    if certifier.refusal(&plain.text)?.is_some() {
        return Ok(whole);
    }
    plain.notes.push(String::from(
        "with its facts the program is beyond what the checker takes: what gringo makes of it without them is explained",
    ));
    Ok(plain)
}

fn nothing(answer: &Answer) -> Option<String> {
    let said = "there is nothing to explain: `aspdrupe core` says why there is no answer set";
    matches!(answer, Answer::Refuted(_)).then(|| String::from(said))
}

/// What is asked about, and how.
struct Asker<'a> {
    words: &'a Words,
    ground: &'a Ground,
    limits: Limits,
    progress: &'a Progress,
}

/// What is told where there is no explanation, with its sentence for a page.
type Told = (Outcome, Page);

impl Asker<'_> {
    fn explain(&self, text: &str, set: AnswerSet, outputs: &mut Outputs) -> Result<Told, Failure> {
        let read = library::read_program(&set.text, self.limits.table)?;
        let program = read.map_err(|_| Failure::misuse("the program is tested once and then refused"))?;
        let literal = asked::literal(text, &self.ground.names, set.told)?;
        let plain = Plain::of(rules(&program), program.atoms);
        let names = naming::named(&self.ground.names, &plain.rules, set.told, program.atoms);
        let called = view::literal(literal, &names);
        if !holds(literal, &set.atoms) {
            return Ok(otherwise(literal, &names, &self.shown(&set)));
        }
        let basis = assumptions::basis(&plain, &set.whole, literal)
            .ok_or_else(|| Failure::misuse("an answer set is not what its assumptions come to"))?;
        let closure = Closure::of(&plain, &basis.assumptions, basis.lines);
        let derivation = Derivation { plain: &plain, text: &set.text, literal, assumptions: &basis.assumptions, closure: &closure };
        let certificate = match derivation.certified(self.limits, self.progress)? {
            Certified::Yes(certificate) => certificate,
            Certified::Undecided(why) => return Ok(undecided(&called, &why)),
            Certified::No(refuted) => {
                let told = prove::refutation(&refuted, self.limits.table);
                return Ok((told, Page::empty(QUESTION, "What was found is not certified.")));
            }
        };
        let tree = tree::tree(&plain, literal, &certificate.assumptions, &certificate.lines)
            .ok_or_else(|| Failure::misuse("what trimming leaves of the proof is no derivation"))?;
        let view = View { plain: &plain, names: &names, known: &self.ground.names, told: set.told, tree: &tree };
        outputs.proof("why", &certificate.refuted);
        outputs.set("set", &set);
        if let Some(path) = self.words.output("--dot") {
            outputs.file(&path, dot::text(&view).as_bytes());
        }
        Ok(self.told(&view, &certificate, &set))
    }

    /// What is shown of a set.
    fn shown(&self, set: &AnswerSet) -> Vec<String> {
        self.ground.names.shown(&set.atoms)
    }

    fn told(&self, view: &View, certificate: &Certificate, set: &AnswerSet) -> Told {
        let called = view::literal(view.tree.nodes.last().map_or(0, |root| root.literal), view.names);
        let assumed: Vec<(&str, String, Vec<String>)> = certificate.assumptions.iter().map(|of| view.assumption(*of)).collect();
        let fold = view.fold();
        let mut lines = vec![format!("why {called}: {}", counted(assumed.len()))];
        lines.extend(assumed.iter().map(|(kind, literal, rules)| assumed_line(kind, literal, rules)));
        lines.push(view::indented(&fold));
        let shown = self.shown(set);
        let certified = self.sentences(certificate, &shown);
        let entry = |(kind, literal, rules): &(&str, String, Vec<String>)| {
            Json::Object(vec![("by", Json::text(kind)), ("literal", Json::text(literal)), ("rules", Json::texts(rules))])
        };
        let mut fields = vec![
            ("answer", Json::text("why")),
            ("literal", Json::text(&called)),
            ("assumptions", Json::List(assumed.iter().map(entry).collect())),
            ("nodes", view.json()),
            ("set", Json::atoms(&set.whole)),
            ("shown", Json::texts(&shown)),
        ];
        fields.extend(prove::refutation(&certificate.refuted, self.limits.table).fields);
        let rows = assumed.iter().map(|(kind, literal, rules)| vec![String::from(*kind), literal.clone(), rules.join(" ")]).collect();
        let heads = vec!["assumption", "literal", "rule"];
        let mut parts = vec![Part::Tree { title: String::from("Why"), root: fold }];
        if !assumed.is_empty() {
            parts.insert(0, Part::Rows { title: String::from("What is assumed"), heads, rows });
        }
        parts.push(Part::set("The answer set", &shown));
        let answer = format!("{called}, by {}.", counted(assumed.len()));
        let page = Page {
            question: QUESTION,
            answer,
            parts,
            certified: certified.clone(),
            again: outputs::again(self.words, &[String::from("why")], &[String::from("set")]),
        };
        (Outcome { status: Status::Good, line: lines.join("\n"), words: certified, fields }, page)
    }

    /// What it is certified by, in words.
    fn sentences(&self, certificate: &Certificate, shown: &[String]) -> Vec<String> {
        let Certificate { refuted, trimmed, .. } = certificate;
        let verdict = refuted.checked.verdict;
        let proof = format!("the proof has {} lines, {} bytes", refuted.proof.lines, refuted.proof.text.len());
        let trimmed = match trimmed {
            Some(count) => format!("{proof}; trimming took {count} away"),
            None => format!("{proof}: too long to be trimmed, so that what is shown may be more than is needed"),
        };
        vec![
            String::from(format!("the set test says yes to the answer set: {}", shown.join(" ")).trim_end()),
            format!("certified: {verdict} is the check's verdict on the program with these assumptions and against the literal"),
            trimmed,
        ]
    }
}

fn counted(count: usize) -> String {
    match count {
        0 => String::from("no assumptions"),
        1 => String::from("1 assumption"),
        _ => format!("{count} assumptions"),
    }
}

fn assumed_line(kind: &str, literal: &str, rules: &[String]) -> String {
    let by = if rules.is_empty() { String::new() } else { format!(", by {}", rules.join(" ")) };
    format!("{kind}: {literal}{by}")
}

/// The literal does not hold.
fn otherwise(literal: i32, names: &Names, shown: &[String]) -> Told {
    let (asked, other) = (view::literal(literal, names), view::literal(-literal, names));
    let words = vec![format!("{asked} does not hold in the answer set, {other} does: {}", shown.join(" "))];
    let fields = vec![("answer", Json::text("no")), ("literal", Json::text(&asked)), ("shown", Json::texts(shown))];
    let page = Page::empty(QUESTION, "The literal does not hold in the answer set.");
    (Outcome { status: Status::No, line: format!("no: {asked}"), words, fields }, page)
}

fn undecided(called: &str, why: &str) -> Told {
    let words = vec![format!("{called} is not explained: {why}")];
    let fields = vec![("answer", Json::text("undecided")), ("reason", Json::text(why))];
    let page = Page::empty(QUESTION, "No explanation was found that is certified.");
    (Outcome { status: Status::No, line: String::from("undecided"), words, fields }, page)
}
