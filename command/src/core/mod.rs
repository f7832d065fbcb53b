//! `aspdrupe core`: why there is no answer set. A minimal set of constraints with which there is none.

mod minimal;
mod parts;

use crate::arguments::{Subcommand, Words};
use crate::certify::{timed, Answer, AnswerSet, Certifier, Times};
use crate::json::Json;
use crate::outcome::{Failure, Outcome};
use crate::outputs::{self, Outputs};
use crate::page::{Page, Part};
use crate::plan::Statement;
use crate::progress::Progress;
use crate::prove;
use crate::rules::Rule;
use crate::source::{self, Source};
use crate::spelling::Spelling;
use crate::statements::{as_it_is, Ground};
use minimal::{minimal, Core, Minimal};
use parts::{Parts, Place};

pub const SUBCOMMAND: Subcommand = Subcommand {
    name: "core",
    form: "PLAN.lp|PROGRAM.aspif [--assume LITERAL..] [--ground] [-o DIR] [--html FILE] [--table N] [--store N] [--time SECONDS]",
    about: "Says why there is no answer set: a minimal set of constraints with which there is none, certified both ways.",
    more: "Of a plan the constraints are its statements that begin with `:-`; rules stay, and so does what is included. Of a ground program, and with
--ground of a plan too, they are the ground constraints, those that gringo makes of the bounds of choices included. Prints
    core K of M              and a line for each of the K: its line in the file, and its text
    ground core K of M       the same for ground constraints, with --ground
    answer set: ATOM..       there is one, and so nothing to explain
    undecided                the reason is on the standard error
    refused program NUMBER LINE
On the standard error stands what becomes possible without each: what is shown of an answer set of the program with the others only. K is 0
where the rules alone have no answer set. Certified: a proof for the program with these constraints, which the check accepts, and which holds for the
whole program, since further constraints reopen nothing; and for each of them an answer set of the program without it, which the set test passes.
-o DIR keeps all of it: core.aspif and core.drupe for `check`, and without-I.aspif and without-I.set for `test`, I from 1 on; with --ground
also ground.aspif, ground.drupe, ground-without-I.aspif and ground-without-I.set. What an earlier run left in DIR under such names goes.
--assume LITERAL.. adds a constraint for each: \"on(2,1,night)\" demands the atom, \"not on(2,1,night)\" forbids it. They are members like others.
--html, --table, --store and --time are those of `prove`.",
    options: &["-o", "--html", "--table", "--store", "--time"],
    lists: &["--assume"],
    flags: &["--ground"],
    inputs: &[0],
    operands: (1, 1),
    run,
};

/// A program by constraints, and how each of them is told.
struct Asked {
    ground: Ground,
    parts: Parts,
    /// The texts of the constraints of a plan; those of ground constraints are spelled.
    texts: Vec<String>,
    /// Whether the plan includes other files.
    includes: bool,
}

fn run(words: &Words) -> Result<Outcome, Failure> {
    let limits = words.limits()?;
    let (path, assumed) = (words.path(0)?, words.texts("--assume"));
    let mut times = Times::default();
    let progress = Progress::start();
    let source = Source::of(path)?;
    // The program as it is first: what gringo says of it, and what the library refuses, is by its own lines.
    let of_plan = if source.is_ground() { &[][..] } else { &assumed };
    let plain = timed(&mut times.grounding, || source.load(as_it_is, of_plan))?;
    let mut certifier = Certifier::of(limits, times, &progress);
    if let Some(refusal) = certifier.refusal(&plain.text)? {
        return source::refused(refusal, &plain, path);
    }
    let asked = timed(&mut certifier.times.grounding, || asked(&source, plain, &assumed))?;
    let outputs = Outputs::in_folder(words, &asked.ground.names, &["core", "without-", "ground", "ground-without-"]);
    let mut told = Told { words, asked: &asked, table: limits.table, outputs };
    let (mut outcome, mut page) = told.of(&mut certifier, &progress)?;
    certifier.say(&asked.ground.notes, &mut outcome, &mut page);
    outcome.fields.extend([
        ("calls", Json::count(certifier.calls)),
        ("loops", Json::count(certifier.loop_count())),
        certifier.times.field(),
    ]);
    told.outputs.write(page, path, &mut outcome)?;
    Ok(outcome)
}

/// The program of a file, with its constraints, and with what was said of it as it is.
fn asked(source: &Source, plain: Ground, assumed: &[String]) -> Result<Asked, Failure> {
    let Some((mut ground, marked)) = source.marked(assumed)? else {
        return Ok(Asked { parts: Parts::of_ground(&plain, assumed)?, ground: plain, texts: Vec::new(), includes: false });
    };
    let parts = Parts::of_plan(&ground, &marked, assumed)?;
    ground.notes.splice(0..0, plain.notes);
    let (statements, marks): (Vec<Statement>, Vec<String>) = marked.into_iter().unzip();
    ground.names.forget(&marks);
    Ok(Asked { ground, parts, texts: statements.into_iter().map(|statement| statement.text).collect(), includes: source.includes_others() })
}

/// What is asked for, and where certificates are kept.
struct Told<'a> {
    words: &'a Words,
    asked: &'a Asked,
    table: usize,
    outputs: Outputs<'a>,
}

impl Told<'_> {
    fn of(&mut self, certifier: &mut Certifier, progress: &Progress) -> Result<(Outcome, Page), Failure> {
        let parts = &self.asked.parts;
        let core = match minimal(parts, &order(parts), certifier, progress)? {
            Minimal::Core(core) => core,
            Minimal::Other(other) => return self.other(&other),
        };
        let (mut outcome, mut page) = self.core(parts, &core, "core", parts.places.len());
        if self.words.has("--ground") && self.asked.ground.of_plan {
            let ground = parts.by_line(&core.owners());
            let core = match minimal(&ground, &order(&ground), certifier, progress)? {
                Minimal::Core(core) => core,
                Minimal::Other(other) => return self.other(&other),
            };
            let (told, more) = self.core(&ground, &core, "ground core", parts.constraint_count());
            outcome.line = format!("{}\n{}", outcome.line, told.line);
            outcome.words.extend(told.words);
            outcome.fields.push(("ground", Json::Object(told.fields)));
            page.parts.extend(more.parts);
            page.certified.extend(more.certified);
            page.again = page.again.and(more.again);
        }
        Ok((outcome, page))
    }

    /// What is told where there is no core.
    fn other(&self, answer: &Answer) -> Result<(Outcome, Page), Failure> {
        let refused = |_| Failure::misuse("a part of the program is refused, and the whole is not");
        let (mut outcome, page) = prove::told(answer, &self.asked.ground, self.table, (self.words, &ASKED)).map_err(refused)?;
        if matches!(answer, Answer::Set(_)) {
            outcome.words.push(String::from("there is nothing to explain: the constraints leave an answer set"));
        }
        Ok((outcome, page))
    }

    /// A core in words and on a page; its certificates are kept.
    fn core(&mut self, parts: &Parts, core: &Core, called: &str, of: usize) -> (Outcome, Page) {
        let by_plan = self.asked.ground.of_plan && called == "core";
        let members = self.members(parts, core, by_plan);
        keep(&mut self.outputs, core, called);
        let mut outcome = prove::refutation(&core.refuted, self.table);
        let verdict = std::mem::take(&mut outcome.line);
        outcome.line = format!("{called} {} of {of}", members.len());
        members.iter().for_each(|member| outcome.line += &format!("\n{}", member.line()));
        let certified = format!("certified: {verdict} is the check's verdict on the proof for the rules and these constraints");
        outcome.words.insert(0, certified);
        if !members.is_empty() {
            outcome.words.push(String::from("the set test says yes to an answer set without each of them"));
        }
        let page = self.page(&members, called, of, outcome.words.clone());
        let mut words: Vec<String> = members.iter().map(Member::without).collect();
        words.extend(members.iter().filter_map(Member::remark));
        if members.is_empty() {
            words.push(String::from("the rules alone have no answer set"));
        }
        if !by_plan && self.asked.ground.of_plan {
            words.push(String::from("in ground constraints gringo leaves out facts, and what always holds"));
        }
        outcome.words.splice(0..0, words);
        let fields =
            vec![("answer", Json::text("core")), ("core", Json::List(members.iter().map(Member::json).collect())), ("of", Json::count(of))];
        outcome.fields.splice(0..0, fields);
        (outcome, page)
    }

    /// The members of a core: those of a plan by their statements, ground ones spelled.
    fn members(&self, parts: &Parts, core: &Core, by_plan: bool) -> Vec<Member> {
        let Asked { ground, texts, includes, .. } = self.asked;
        let spelling = Spelling::of(&ground.names, parts.lines.iter().map(|line| &line.rule));
        let spelled = |owner: usize| parts.rule_of(owner).map_or(String::from("a fact is demanded"), |rule| spelling.constraint(rule));
        let member = |(number, (owner, set)): (usize, &(usize, AnswerSet))| Member {
            number: (!by_plan && ground.of_plan).then_some(number + 1),
            is_alone: true,
            place: parts.places[*owner].clone(),
            text: if by_plan { texts[*owner].clone() } else { spelled(*owner) },
            shown: ground.names.shown(&set.atoms),
            never: parts.rule_of(*owner).is_some_and(Rule::is_empty),
            origin: parts.rule_of(*owner).map_or("", |rule| parts::origin(rule, &ground.names, *includes)),
        };
        let mut members: Vec<Member> = core.members.iter().enumerate().map(member).collect();
        let places: Vec<Place> = members.iter().map(|member| member.place.clone()).collect();
        members.iter_mut().for_each(|member| member.is_alone = places.iter().filter(|place| **place == member.place).count() == 1);
        members
    }

    fn page(&self, members: &[Member], called: &str, of: usize, certified: Vec<String>) -> Page {
        let rows = members.iter().map(|member| vec![member.place(), member.text.clone()]).collect();
        let title = if called == "core" { "These constraints together leave nothing" } else { "The same, ground" };
        let mut parts = vec![Part::Rows { title: String::from(title), heads: vec!["where", "constraint"], rows }];
        if called == "core" {
            parts.extend(members.iter().map(|member| Part::set(format!("Possible without {}", member.called()), &member.shown)));
        }
        let answer = match members.len() {
            0 => String::from("There is no answer set, whatever the constraints: the rules alone have none."),
            1 => format!("There is no answer set, and one of {of} constraints is the reason."),
            count => format!("There is no answer set, and {count} of {of} constraints together are the reason."),
        };
        let names = FileNames::of(called);
        let again = outputs::again(self.words, &[String::from(names.core)], &names.without(members.len()));
        Page { question: ASKED.question, answer, parts, certified, again }
    }
}

const ASKED: prove::Asked =
    prove::Asked { question: "Why is there no answer set, no solution of the plan?", unknown: "which constraints are the reason" };

/// The order of the trials: first what is assumed.
fn order(parts: &Parts) -> Vec<usize> {
    let mut order: Vec<usize> = (0..parts.places.len()).collect();
    order.sort_by_key(|owner| !matches!(parts.places[*owner], Place::Assumed(_)));
    order
}

/// A constraint of a core.
struct Member {
    /// Its number, where its place does not say which it is, and whether no other has its place.
    number: Option<usize>,
    is_alone: bool,
    place: Place,
    text: String,
    /// What is shown of an answer set without it.
    shown: Vec<String>,
    /// Whether its body is empty, so that it alone leaves no answer set.
    never: bool,
    /// What makes it, where that is no constraint of the plan.
    origin: &'static str,
}

impl Member {
    fn place(&self) -> String {
        match &self.place {
            Place::Line(line) => format!("line {line}"),
            Place::Assumed(literal) => format!("assumed {literal}"),
            Place::Rule => String::from(self.origin),
        }
    }

    /// What it is called where it is left out.
    fn called(&self) -> String {
        match self.number {
            Some(number) => format!("{number}, {}", self.place()),
            None if self.is_alone => self.place(),
            None => format!("{}, {}", self.place(), self.text),
        }
    }

    fn line(&self) -> String {
        match &self.place {
            Place::Assumed(literal) => format!("assumed: {literal}"),
            _ => format!("{}: {}", self.place(), self.text),
        }
    }

    fn without(&self) -> String {
        String::from(format!("without {}: {}", self.called(), self.shown.join(" ")).trim_end())
    }

    /// What is said where a literal is assumed that never holds.
    fn remark(&self) -> Option<String> {
        match &self.place {
            Place::Assumed(literal) if self.never && literal.starts_with("not ") => Some(format!("{literal}: it is a fact")),
            Place::Assumed(literal) if self.never => Some(format!("{literal}: no rule gives it")),
            _ => None,
        }
    }

    fn json(&self) -> Json {
        let mut fields = match &self.place {
            Place::Line(line) => vec![("line", Json::count(*line))],
            Place::Assumed(literal) => vec![("assumed", Json::text(literal))],
            Place::Rule => vec![("from", Json::text(self.origin))],
        };
        fields.extend([("text", Json::text(&self.text)), ("without", Json::texts(&self.shown))]);
        Json::Object(fields)
    }
}

/// How the files of a core are called, and how those without a member begin.
struct FileNames {
    core: &'static str,
    without: &'static str,
}

impl FileNames {
    fn of(called: &str) -> FileNames {
        if called == "core" {
            FileNames { core: "core", without: "without-" }
        } else {
            FileNames { core: "ground", without: "ground-without-" }
        }
    }

    /// Those of so many members.
    fn without(&self, members: usize) -> Vec<String> {
        (1..=members).map(|place| format!("{}{place}", self.without)).collect()
    }
}

/// Keeps the certificates of a core.
fn keep(outputs: &mut Outputs, core: &Core, called: &str) {
    let names = FileNames::of(called);
    outputs.proof(names.core, &core.refuted);
    names.without(core.members.len()).iter().zip(&core.members).for_each(|(name, (_, set))| outputs.set(name, set));
}
