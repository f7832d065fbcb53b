//! `aspdrupe optimum`: an answer set of least cost, and that none costs less.

mod level;

use std::path::{Path, PathBuf};

use aspdrupe::{Cheapest, ProgramRefusal};

use crate::arguments::{Subcommand, Words, ROOM};
use crate::certify::{timed, Answer, AnswerSet, Certifier, Limits, Refuted, Times};
use crate::files::TEXT_LIMIT;
use crate::json::Json;
use crate::outcome::{Failure, Outcome, Status};
use crate::outputs::{self, Outputs};
use crate::page::{Again, Page, Part};
use crate::progress::Progress;
use crate::prove::Asked;
use crate::rules::{Rule, SHORT};
use crate::statements::{cut_down, Ground};
use crate::{constrained, library, prove, source, split};
use level::{levels, Level};

pub const SUBCOMMAND: Subcommand = Subcommand {
    name: "optimum",
    form: "PLAN.lp [-o PROOF.drupe] [--assume LITERAL..] [--html FILE] [--table N] [--store N] [--time SECONDS]",
    about: "Finds an answer set of least cost, by #minimize and #maximize, and certifies that none costs less.",
    more: "A plan is grounded with gringo; a ground program is taken with the minimize statements that it has. Prints
    optimum C: ATOM..        C is the least cost; of several priorities `optimum C1 C2 ..: ATOM..`, the highest first
    inconsistent N R S K     there is no answer set, as `prove` says it
    undecided                the reason is on the standard error
    refused program NUMBER LINE
#maximize counts as #minimize with all weights negated. A lower priority is minimized with the higher totals fixed. Certified, for each priority: by
the service of `cheapest` where costs stand on at most 12 literals, the total is at most 4095 and the proof has at most 65,535 bytes; otherwise by the
set test and the check of a proof for the program with the constraint that the total is lower. Which it is, is said. Weights are counted from the
cheapest that each atom can be, and divided by a common divisor; what is certified is that count, and C is reckoned from it.
-o PROOF.drupe keeps the proof, and PROOF.drupe.aspif the program that it is for; of several priorities PROOF-1.drupe and so on. The answer set is
PROOF.drupe.set, of the program PROOF.drupe.set.aspif, for `test`.
--assume, --html, --table, --store and --time are those of `prove`.",
    options: &["-o", "--html", "--table", "--store", "--time"],
    lists: &["--assume"],
    flags: &[],
    inputs: &[0],
    operands: (1, 1),
    run,
};

fn run(words: &Words) -> Result<Outcome, Failure> {
    let limits = words.limits()?;
    let path = words.path(0)?;
    let mut times = Times::default();
    let progress = Progress::start();
    let ground = timed(&mut times.grounding, || source::load_with(path, cut_down, &words.texts("--assume")))?;
    let levels = levels_of(&ground, path)?;
    let mut certifier = Certifier::of(limits, times, &progress);
    if let Some(refusal) = certifier.refusal(&ground.text)? {
        return source::refused(refusal, &ground, path);
    }
    let search = Search { ground: &ground, levels: &levels, limits };
    let mut outputs = Outputs::of(words, &ground.names);
    let (mut outcome, mut page) = match search.optimum(&mut certifier)? {
        Found::Optimum(optimum) => {
            optimum.files(words).for_each(|(path, refuted)| outputs.proof_at(&path, refuted));
            words.output("-o").iter().for_each(|path| outputs.set_at(path, &optimum.set));
            optimum.told(&ground, words)
        }
        Found::Other(answer) => {
            let (outcome, mut page) = match prove::told(&answer, &ground, limits.table, (words, &ASKED)) {
                Ok(told) => told,
                Err(refusal) => return source::refused(refusal, &ground, path),
            };
            if let (Some(output), Some(refuted)) = (words.output("-o"), answer.accepted()) {
                outputs.proof_at(&output, refuted);
                page.again = Again::Calls(vec![outputs::check_call(&outputs::behind(&output, ".aspif"), &output)]);
            }
            (outcome, page)
        }
    };
    // That they were dropped is not so here.
    let notes: Vec<String> = ground.notes.iter().filter(|note| !note.contains(" minimize statements; ")).cloned().collect();
    certifier.say(&notes, &mut outcome, &mut page);
    outcome.fields.extend([
        ("calls", Json::count(certifier.calls)),
        ("loops", Json::count(certifier.loop_count())),
        certifier.times.field(),
    ]);
    outputs.write(page, path, &mut outcome)?;
    Ok(outcome)
}

const ASKED: Asked = Asked { question: "Which answer set costs least?", unknown: "what the least cost is" };

/// What is to be minimized.
fn levels_of(ground: &Ground, path: &Path) -> Result<Vec<Level>, Failure> {
    if !ground.minimizes {
        return Err(Failure::refused(format!("{} has nothing to minimize: a #minimize or #maximize statement is missing", path.display())));
    }
    let given = String::from_utf8_lossy(&ground.text).lines().filter_map(Rule::of_line).flat_map(|rule| rule.heads).collect();
    levels(&ground.costs, &given).ok_or_else(|| Failure::refused("the costs add up to more than can be counted"))
}

/// What the search comes to.
enum Found {
    Optimum(Optimum),
    /// There is no answer set, or no answer.
    Other(Answer),
}

/// How a level is certified.
struct Certified {
    priority: i64,
    total: i64,
    /// The proof; none where nothing can cost less.
    refuted: Option<Refuted>,
    /// Whether the service for cheapest sets has certified it.
    by_cheapest: bool,
    /// Whether it is the highest.
    is_first: bool,
    /// The restriction, by names, and whether it has more literals than a sum that is not split.
    restriction: String,
    is_long: bool,
}

struct Optimum {
    set: AnswerSet,
    levels: Vec<Certified>,
}

struct Search<'a> {
    ground: &'a Ground,
    levels: &'a [Level],
    limits: Limits,
}

impl Search<'_> {
    fn optimum(&self, certifier: &mut Certifier) -> Result<Found, Failure> {
        let mut set = match certifier.answer(&self.ground.text)? {
            Answer::Set(set) => set,
            other => return Ok(Found::Other(other)),
        };
        let (mut fixed, mut proofs) = (Vec::new(), Vec::new());
        for level in self.levels {
            match self.least(level, &fixed, set, certifier)? {
                Least::Found(least, refuted) => {
                    let units = level.units(&least.atoms);
                    fixed.push(level.restriction(units + 1).line());
                    proofs.push((units, refuted));
                    set = least;
                }
                Least::Other(other) => return Ok(Found::Other(other)),
            }
        }
        let set = tested(&self.ground.text, &set, certifier)?;
        let mut levels = Vec::new();
        for (place, (units, refuted)) in proofs.into_iter().enumerate() {
            let with_fixed = tested(&constrained::text(&self.ground.text, &fixed[..place]), &set, certifier)?;
            levels.push(self.certified(place, units, refuted, &with_fixed)?);
        }
        Ok(Found::Optimum(Optimum { set, levels }))
    }

    /// An answer set that costs least by a level, with the higher ones fixed, from one that is known: cheaper and
    /// cheaper ones are asked for. Where the program with such a constraint is refused, as one with too many rules is,
    /// much cheaper ones are asked for first.
    fn least(&self, level: &Level, fixed: &[String], first: AnswerSet, certifier: &mut Certifier) -> Result<Least, Failure> {
        let (mut set, mut bound) = (first, None);
        // No answer set costs less than this.
        let mut low = 0;
        loop {
            let units = level.units(&set.atoms);
            if units == 0 {
                return Ok(Least::Found(set, None));
            }
            let below = bound.unwrap_or(units);
            let restriction = level.restriction(below);
            let text = constrained::text(&self.ground.text, &[fixed, &[restriction.line()]].concat());
            match certifier.answer(&text)? {
                Answer::Set(cheaper) => (set, bound) = (cheaper, None),
                Answer::Refuted(refuted) if refuted.counts().is_none() => return Ok(Least::Other(Answer::Refuted(refuted))),
                Answer::Refuted(refuted) if below == units => return Ok(Least::Found(set, Some(refuted))),
                Answer::Refuted(_) => (low, bound) = (below, Some((below + units + 1) / 2)),
                Answer::Refused(refusal) if below - low < 2 => return Err(self.refused(&restriction, &text, refusal)),
                Answer::Refused(_) => bound = Some((low + below) / 2),
                Answer::Undecided(why) => {
                    let found = format!("an answer set that costs {} by priority {} is known; {why}", level.total(units), level.priority);
                    return Ok(Least::Other(Answer::Undecided(found)));
                }
            }
        }
    }

    /// The refusal of a text that has a restriction.
    fn refused(&self, restriction: &Rule, text: &[u8], refusal: ProgramRefusal) -> Failure {
        let mend = split::mend(text, refusal).map_or(String::new(), |mend| format!("; to mend: {mend}"));
        let (rule, question) = (self.ground.names.rule(restriction), refusal.question);
        Failure::refused(format!("the library refuses the program with `{rule}`, question {}: {question}{mend}", question.number()))
    }

    /// The certificate of a level, of an answer set of the program with the higher ones fixed: by the service for
    /// cheapest sets where it takes it.
    fn certified(&self, place: usize, units: i64, refuted: Option<Refuted>, set: &AnswerSet) -> Result<Certified, Failure> {
        let level = &self.levels[place];
        let mut certified = Certified {
            priority: level.priority,
            total: level.total(units),
            by_cheapest: false,
            is_first: place == 0,
            restriction: self.ground.names.rule(&level.restriction(units)),
            is_long: level.costs.len() > SHORT,
            refuted,
        };
        let proof = certified.refuted.as_ref().map_or(&b""[..], |refuted| refuted.proof.text.as_bytes());
        if let Some(costs) = level.pairs().filter(|_| proof.len() <= TEXT_LIMIT) {
            let words = certified.refuted.as_ref().map_or(0, |refuted| refuted.proof.words);
            let (mut table, mut store) = (library::lent(self.limits.table)?, library::lent(self.limits.store.unwrap_or(words.max(ROOM)))?);
            let answer = aspdrupe::check_cheapest(&set.text, &set.whole, &costs, proof, &mut table, &mut store)?;
            certified.by_cheapest = matches!(answer, Cheapest::Certified(cost) if i64::try_from(cost) == Ok(units));
        }
        Ok(certified)
    }
}

/// A set that was found with restrictions, tested for a program with fewer.
fn tested(text: &[u8], set: &AnswerSet, certifier: &mut Certifier) -> Result<AnswerSet, Failure> {
    certifier.tested(text, set)?.ok_or_else(|| Failure::misuse("the set found with restrictions is none of the program"))
}

/// What a level comes to.
enum Least {
    Found(AnswerSet, Option<Refuted>),
    Other(Answer),
}

impl Optimum {
    fn told(&self, ground: &Ground, words: &Words) -> (Outcome, Page) {
        let shown = ground.names.shown(&self.set.atoms);
        let costs = self.levels.iter().map(|level| level.total.to_string()).collect::<Vec<_>>().join(" ");
        let line = format!("optimum {costs}: {}", shown.join(" "));
        let fields = vec![
            ("answer", Json::text("optimum")),
            ("costs", Json::List(self.levels.iter().map(|level| Json::Number(level.total)).collect())),
            ("set", Json::atoms(&self.set.whole)),
            ("shown", Json::texts(&shown)),
            ("levels", Json::List(self.levels.iter().map(Certified::json).collect())),
        ];
        let outcome = Outcome { status: Status::Good, line: String::from(line.trim_end()), words: self.sentences(), fields };
        (outcome, self.page(&shown, &costs, words))
    }

    fn sentences(&self) -> Vec<String> {
        let set = String::from("the set test says yes: this is an answer set of the program");
        std::iter::once(set).chain(self.levels.iter().map(Certified::sentence)).collect()
    }

    fn page(&self, shown: &[String], costs: &str, words: &Words) -> Page {
        let rows = self.levels.iter().map(|level| vec![level.priority.to_string(), level.total.to_string(), String::from(level.service())]);
        let heads = vec!["priority", "least cost", "certified by"];
        let parts = vec![
            Part::set("An answer set that costs least", shown),
            Part::Rows { title: String::from("What it costs"), heads, rows: rows.collect() },
        ];
        let certified = self.sentences();
        Page { question: ASKED.question, answer: format!("The least cost is {costs}."), parts, certified, again: self.again(words) }
    }

    /// How the proofs, and the set, that -o keeps are checked again.
    fn again(&self, words: &Words) -> Again {
        let Some(output) = words.output("-o").filter(|path| outputs::is_place(path)) else { return Again::With("-o PROOF.drupe") };
        let checks = self.files(words).map(|(proof, _)| outputs::check_call(&outputs::behind(&proof, ".aspif"), &proof));
        let test = outputs::test_call(&outputs::behind(&output, ".set.aspif"), &outputs::behind(&output, ".set"));
        Again::Calls(checks.chain([test]).collect())
    }

    /// The places of the proofs: by the name told, with a number where there are several priorities.
    fn files<'a>(&'a self, words: &Words) -> impl Iterator<Item = (PathBuf, &'a Refuted)> {
        let output = words.output("-o");
        // A device or a pipe takes them all.
        let several = self.levels.len() > 1 && output.as_ref().is_none_or(|path| outputs::is_place(path));
        let place = move |(place, level): (usize, &'a Certified)| {
            let output = output.as_ref()?;
            let ending = output.extension().map_or(String::new(), |ending| format!(".{}", ending.to_string_lossy()));
            let name = format!("{}-{}{ending}", output.file_stem()?.to_string_lossy(), place + 1);
            Some((if several { output.with_file_name(name) } else { output.clone() }, level.refuted.as_ref()?))
        };
        self.levels.iter().enumerate().filter_map(place)
    }
}

impl Certified {
    fn sentence(&self) -> String {
        let Certified { priority, total, restriction, .. } = self;
        let Some(refuted) = &self.refuted else {
            return format!("priority {priority}: {total} is the least that it can be, and needs no proof");
        };
        let among = if self.is_first { "no answer set" } else { "with the totals before it no answer set" };
        let size = format!("a proof of {} lines and {} bytes", refuted.proof.lines, refuted.proof.text.len());
        let by = match (self.by_cheapest, self.is_long) {
            (true, _) => String::from("as `cheapest` does"),
            (false, false) => format!("by the check of the program with `{restriction}`"),
            (false, true) => format!("by the check of the program with `{restriction}`, its sum split"),
        };
        format!("priority {priority}: {among} costs less than {total}: certified {by}, with {size}")
    }

    /// The service that certifies it.
    fn service(&self) -> &'static str {
        match (&self.refuted, self.by_cheapest) {
            (_, true) => "check_cheapest",
            (None, false) => "test_set",
            (Some(_), false) => "check",
        }
    }

    fn json(&self) -> Json {
        let service = Json::text(self.service());
        let mut fields = vec![("priority", Json::Number(self.priority)), ("cost", Json::Number(self.total)), ("service", service)];
        if let Some(refuted) = &self.refuted {
            fields.extend([
                ("lines", Json::count(refuted.proof.lines)),
                ("bytes", Json::count(refuted.proof.text.len())),
                ("store", Json::count(refuted.proof.words)),
            ]);
        }
        Json::Object(fields)
    }
}
