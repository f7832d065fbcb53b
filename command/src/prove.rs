//! `aspdrupe prove`: the whole way, from a plan to an answer set that the set test passes or to a proof that the whole
//! check accepts.

use std::path::Path;

use aspdrupe::{ProgramRefusal, ProofQuestion, Verdict};

use crate::arguments::{in_shell, Subcommand, Words, ROOM};
use crate::certify::{numbers, timed, Answer, AnswerSet, Certifier, Refuted, Times, TRY};
use crate::ends::{self, Divided};
use crate::json::Json;
use crate::names::Names;
use crate::outcome::{Failure, Outcome, Status};
use crate::outputs::Outputs;
use crate::page::{Again, Page, Part};
use crate::progress::Progress;
use crate::statements::{as_it_is, Ground};
use crate::{explain, outputs, source};

pub const SUBCOMMAND: Subcommand = Subcommand {
    name: "prove",
    form: "PLAN.lp|PROGRAM.aspif [-o PROOF.drupe] [--split D [--jobs N]] [--assume LITERAL..] [--html FILE] [--table N] [--store N] [--time SECONDS]",
    about: "Finds an answer set or a proof that there is none, and has the library test the one or check the other.",
    more: "A file that ends in `.lp` is a plan, one in `.aspif` a ground program, and of others one that begins with `asp 1 ` is ground.
A plan is grounded with gringo (package gringo); cadical (package cadical) solves the completion. Prints
    answer set: ATOM..       the set test says yes to it; by name where there are names
    inconsistent N R S K     the check's verdict on the proof, which -o writes
    inconsistent in K ends   with --split: every end has a proof that is accepted, and they are too long to be merged
    undecided                neither was found; the reason is on the standard error
    refused proof 34 STEP    the proof found needs a longer store
    refused program NUMBER LINE
--assume LITERAL.. adds a constraint for each: \"on(2,1,night)\" demands the atom, \"not on(2,1,night)\" forbids it.
A proof beyond 65,535 bytes goes to the check for proofs of any length; `verdict`, and a service of document 01, would refuse it with 21.
--table N and --store N are the words for rules and nogoods; where nothing is said 16384 each, as in `verdict`, and for a proof beyond 65,535 bytes
as long a store as it needs. --time N has cadical stop after about so many seconds. Shortening a proof takes as long as solving did, or a second.
--split D splits on up to D atoms, at most 6, where both sides are cut off most, those of choices first; solves the ends in N processes at a time,
the machine's cores without --jobs; stops at the first answer set; and otherwise has the library merge the ends' proofs into one. -o then names a
folder: program.aspif and program.drupe. Where the merged text would be beyond 65,535 bytes it keeps program.tree and end-I.aspif and end-I.drupe of each
end, for `check` and `tree`; certified is then that each end's program, the program with the constraints of its path, has no answer set.
--time holds for each end.
--html FILE writes a page for people: the question, the answer, the set as tables, and what it is certified by.
Status 0 for an answer set and for 'inconsistent', 10 for 'undecided', 20 for a refusal.",
    options: &["-o", "--split", "--jobs", "--html", "--table", "--store", "--time"],
    lists: &["--assume"],
    flags: &[],
    inputs: &[0],
    operands: (1, 1),
    run,
};

fn run(words: &Words) -> Result<Outcome, Failure> {
    let (limits, split) = (words.limits()?, ends::asked(words)?);
    let mut times = Times::default();
    let progress = Progress::start();
    let (path, assumed) = (words.path(0)?, words.texts("--assume"));
    let ground = timed(&mut times.grounding, || source::load_with(path, as_it_is, &assumed))?;
    let mut certifier = Certifier::of(limits, times, &progress);
    let mut outputs = Outputs::in_folder(words, &ground.names, if split.is_some() { &ends::KEPT } else { &[] });
    let divided = match &split {
        None => Divided::Answer(certifier.answer(&ground.text)?),
        Some(split) => split.answer(&ground.text, &mut certifier, limits, &progress)?,
    };
    let kept = words.output("-o");
    let told = match &divided {
        Divided::Ends(ends) => Ok(ends.told(ASKED.question, &ground.names, kept.as_deref())),
        Divided::Answer(answer) => told(answer, &ground, limits.table, (words, &ASKED)),
    };
    let (mut outcome, mut page) = match told {
        Ok(told) => told,
        Err(refusal) => return source::refused(refusal, &ground, path),
    };
    match &divided {
        Divided::Ends(ends) => ends.keep(&mut outputs),
        Divided::Answer(Answer::Refuted(refuted)) if refuted.counts().is_some() => {
            let proved = Proved { ground: &ground, path, assumed: &assumed, refuted, is_split: split.is_some() };
            outcome.words.extend(proved.words());
            page.again = kept.map_or(Again::With(option(split.is_some())), |place| proved.keep(&mut outputs, &place));
        }
        _ => {}
    }
    certifier.say(&ground.notes, &mut outcome, &mut page);
    outcome.fields.extend([("loops", Json::count(certifier.loop_count())), certifier.times.field()]);
    outputs.write(page, path, &mut outcome)?;
    Ok(outcome)
}

/// What is asked, and what is not known where there is no answer.
pub struct Asked {
    pub question: &'static str,
    pub unknown: &'static str,
}

const ASKED: Asked = Asked { question: "Is there an answer set, a solution of the plan?", unknown: "whether there is an answer set" };

/// An answer as it is told and shown on a page; the refusal of a program is told with its file.
pub fn told(answer: &Answer, ground: &Ground, table: usize, (words, asked): (&Words, &Asked)) -> Result<(Outcome, Page), ProgramRefusal> {
    let Asked { question, unknown } = asked;
    let page = |answer: &str, parts, again| Page { parts, again, ..Page::empty(question, answer) };
    let (outcome, page) = match answer {
        Answer::Refused(refusal) => return Err(*refusal),
        Answer::Undecided(why) => (undecided(unknown, why), page(&format!("It is not known {unknown}."), Vec::new(), Again::Nothing)),
        Answer::Set(set) => {
            let parts = vec![Part::set("The answer set", &ground.names.shown(&set.atoms))];
            (answer_set(set, &ground.names), page("There is an answer set.", parts, Again::Calls(set_again(set, words))))
        }
        Answer::Refuted(refuted) => {
            let (sentence, again) = match refuted.counts() {
                Some(_) => ("There is no answer set.", Again::With("-o PROOF.drupe")),
                None => ("It is not certified that there is no answer set.", Again::Nothing),
            };
            (refutation(refuted, table), page(sentence, Vec::new(), again))
        }
    };
    let certified = outcome.words.clone();
    Ok((outcome, Page { certified, ..page }))
}

/// The call of `ground` that writes the program of a plan.
fn grounding(path: &Path, assumed: &[String]) -> String {
    let more: String = assumed.iter().map(|literal| format!(" {}", in_shell(literal))).collect();
    let assume = if assumed.is_empty() { "" } else { " --assume" };
    format!("aspdrupe ground {}{assume}{more} -o OUT.aspif", in_shell(&path.to_string_lossy()))
}

/// The calls that test an answer set again, by numbers.
pub fn set_again(set: &AnswerSet, words: &Words) -> Vec<String> {
    let path = words.operand(0).map_or(String::new(), |path| path.to_string_lossy().into_owned());
    let assumed = words.texts("--assume");
    let test = |program: &str, atoms: &[u16]| String::from(format!("aspdrupe test {program} {}", numbers(atoms)).trim_end());
    if assumed.is_empty() {
        return vec![test(&in_shell(&path), &set.atoms)];
    }
    vec![grounding(Path::new(&path), &assumed), test("OUT.aspif", &set.whole)]
}

/// The option that keeps a proof.
fn option(is_split: bool) -> &'static str {
    if is_split {
        "-o DIR"
    } else {
        "-o PROOF.drupe"
    }
}

/// A proof that is accepted, and what it is of.
struct Proved<'a> {
    ground: &'a Ground,
    path: &'a Path,
    assumed: &'a [String],
    refuted: &'a Refuted,
    /// Whether it was merged, so that -o names a folder.
    is_split: bool,
}

impl Proved<'_> {
    /// What the proof of a plan is of, and how to keep that; and of one for a longer store than `verdict` has, how it is checked.
    fn words(&self) -> Option<String> {
        if self.is_split {
            return self.store().map(|option| format!("it takes a longer store than `verdict` has: `aspdrupe check`{option}"));
        }
        let program = || format!("the proof is of the ground program, which `{}` writes", grounding(self.path, self.assumed));
        self.ground.of_plan.then(program)
    }

    /// Keeps the proof where -o names a place, and where that is a folder its program too; the calls that check it again.
    fn keep(&self, outputs: &mut Outputs, place: &Path) -> Again {
        if self.is_split {
            outputs.proof("program", self.refuted);
            return Again::Calls(vec![self.check(&place.join("program.aspif"), &place.join("program.drupe"))]);
        }
        outputs.file(place, self.refuted.proof.text.as_bytes());
        if self.ground.of_plan || !self.assumed.is_empty() {
            return Again::Calls(vec![grounding(self.path, self.assumed), self.check(Path::new("OUT.aspif"), place)]);
        }
        Again::Calls(vec![self.check(self.path, place)])
    }

    /// The call that checks it.
    fn check(&self, program: &Path, proof: &Path) -> String {
        outputs::check_call(program, proof) + &self.store().unwrap_or_default()
    }

    /// The option that it takes where it was merged and `verdict` has too short a store.
    fn store(&self) -> Option<String> {
        let words = self.refuted.proof.words;
        (self.is_split && words > ROOM && self.refuted.checked.long.is_none()).then(|| format!(" --store {words}"))
    }
}

/// An answer set, shown by name.
fn answer_set(set: &AnswerSet, names: &Names) -> Outcome {
    let shown = names.shown(&set.atoms);
    let line = format!("answer set: {}", shown.join(" "));
    let fields = vec![("answer", Json::text("yes")), ("set", Json::atoms(&set.whole)), ("shown", Json::texts(&shown))];
    let words = vec![String::from("the set test says yes: this is an answer set of the program")];
    Outcome { status: Status::Good, line: String::from(line.trim_end()), words, fields }
}

fn undecided(unknown: &str, why: &str) -> Outcome {
    let words = vec![format!("it is not known {unknown}, and nothing is certified: {why}")];
    let fields = vec![("answer", Json::text("undecided")), ("reason", Json::text(why))];
    Outcome { status: Status::No, line: String::from("undecided"), words, fields }
}

/// The verdict on the proof. A proof that is too large is no fault of the user's: what to try is said.
pub fn refutation(refuted: &Refuted, table: usize) -> Outcome {
    let proof = &refuted.proof;
    let mut outcome = explain::checked(&refuted.checked, (&refuted.text, proof.text.as_bytes()), table);
    match refuted.checked.verdict {
        Verdict::Inconsistent(_) => outcome.words.push(format!(
            "the proof has {} lines, {} bytes and needs a store of {} words",
            proof.lines,
            proof.text.len(),
            proof.words
        )),
        Verdict::RefusedProof(refusal) => match refusal.question {
            ProofQuestion::Length => outcome.words.push(format!("the proof found has {} bytes; {TRY}", proof.text.len())),
            ProofQuestion::Store => outcome.words.push(format!("the store is too small for the proof found; try --store {}", proof.words)),
            _ => {}
        },
        _ => {}
    }
    outcome.fields.extend([
        ("lines", Json::count(proof.lines)),
        ("bytes", Json::count(proof.text.len())),
        ("store", Json::count(proof.words)),
    ]);
    outcome
}
