//! Where a program comes from: a plan in the input language, which gringo grounds, or a ground program.

use std::ffi::{OsStr, OsString};
use std::path::Path;

use aspdrupe::ProgramRefusal;

use crate::files;
use crate::names::Names;
use crate::outcome::{Failure, Outcome};
use crate::plan::{Plan, Statement, NAMES};
use crate::statements::{as_it_is, cut_down, too_large, Ground, LIMIT};
use crate::tools::Tool;
use crate::{constrained, explain, split};

const GRINGO: Tool = Tool { name: "gringo", package: "gringo", good: &[0] };

/// The program of a file. Of a plan it is what gringo makes of it, cut down; what is ground is taken as told, `as_it_is` or `cut_down`.
pub fn load(path: &Path, taken: fn(&[u8]) -> Result<Ground, Failure>) -> Result<Ground, Failure> {
    load_with(path, taken, &[])
}

/// The same with constraints that demand or forbid literals.
pub fn load_with(path: &Path, taken: fn(&[u8]) -> Result<Ground, Failure>, assumed: &[String]) -> Result<Ground, Failure> {
    Source::of(path)?.load(taken, assumed)
}

/// The program of a file that is ground, taken as told, with the names beside it.
pub fn load_ground(path: &Path, taken: fn(&[u8]) -> Result<Ground, Failure>) -> Result<Ground, Failure> {
    ground_file(path, &files::read(path, LIMIT)?, taken)
}

/// A file that was read once, since a pipe cannot be read twice.
pub struct Source<'a> {
    path: &'a Path,
    bytes: Vec<u8>,
}

/// A plan whose constraints are marked, as gringo grounds it, cut down, with the statement and the mark of each.
pub type Marked = (Ground, Vec<(Statement, String)>);

impl Source<'_> {
    pub fn of(path: &Path) -> Result<Source<'_>, Failure> {
        Ok(Source { path, bytes: files::read(path, LIMIT)? })
    }

    pub fn is_ground(&self) -> bool {
        is_ground(self.path, &self.bytes)
    }

    /// Whether it is a plan that includes other files.
    pub fn includes_others(&self) -> bool {
        !self.is_ground() && Plan::of(&self.bytes).includes_others()
    }

    /// The program, with constraints that demand or forbid literals.
    pub fn load(&self, taken: fn(&[u8]) -> Result<Ground, Failure>, assumed: &[String]) -> Result<Ground, Failure> {
        let Source { path, bytes } = self;
        if self.is_ground() {
            return with_constraints(ground_file(path, bytes, taken)?, assumed);
        }
        if bytes.len() > LIMIT {
            return Err(too_large());
        }
        let plan = Plan::of(bytes);
        if assumed.is_empty() {
            let handed = if files::reads_again(path) { Handed::File } else { Handed::Text(bytes) };
            return Ok(named(grounded(path, handed)?, &plan, path));
        }
        let plan = plan.with(assumed)?;
        let text = plan.text(folder(path));
        Ok(named(grounded(path, Handed::Text(&text))?, &plan, path))
    }

    /// The plan with marks. The constraints that demand or forbid literals are the last. None where the file is ground.
    pub fn marked(&self, assumed: &[String]) -> Result<Option<Marked>, Failure> {
        if self.is_ground() {
            return Ok(None);
        }
        let plan = Plan::of(&self.bytes).with(assumed)?;
        let (mut ground, marks) = match self.grounded_marked(&plan, false)? {
            Some(found) => found,
            None => self
                .grounded_marked(&plan, true)?
                .ok_or_else(|| Failure::misuse("gringo gives no name to a mark of the plan's constraints"))?,
        };
        // What gringo says of it is by other columns than the plan's.
        ground.notes.clear();
        if plan.includes_others() {
            ground.notes.push(String::from("the constraints of what the plan includes count as rules"));
        }
        Ok(Some((ground, plan.constraints().cloned().zip(marks).collect())))
    }

    /// The program with all that its rules say: of a plan gringo is told to keep facts in bodies, and all atoms that have a
    /// name in the plan have it, shown or not, facts too. What gringo says of it stands in the notes.
    pub fn whole(&self) -> Result<Ground, Failure> {
        if self.is_ground() {
            return self.load(as_it_is, &[]);
        }
        let (path, plan) = (self.path, Plan::of(&self.bytes));
        let (all, complaints) = ground_text(path, Handed::Text(&plan.text_without_shows(folder(path))), &KEEP)?;
        let all = cut_down(&all)?;
        let names: Vec<&str> = all.names.facts().chain(all.names.atoms().map(|(name, _)| name)).collect();
        let grounded = |plan: &Plan| ground_text(path, Handed::Text(&plan.text(folder(path))), &KEEP);
        // Where a name is none that gringo reads again, those stay that it gives itself.
        let (text, _) = grounded(&plan.marking(&names)).or_else(|_| grounded(&plan))?;
        let (text, places) = without_marks(&text);
        let mut ground = Ground { of_plan: true, minimizes: plan.minimizes(), ..cut_down(&text)? };
        if plan.shows() {
            ground.names.show_only();
        }
        let told = places.iter().filter_map(|(place, atom)| names.get(*place).map(|name| (*name, *atom)));
        ground.names.identify(&told.collect::<Vec<_>>());
        ground.notes = [all.notes, complaints].concat();
        Ok(ground)
    }

    /// The plan with marks, which are shown where that is told, as gringo grounds it; none where a mark has no name.
    fn grounded_marked(&self, plan: &Plan, shown: bool) -> Result<Option<(Ground, Vec<String>)>, Failure> {
        let (marked, marks) = plan.marked(shown);
        let text = marked.text(folder(self.path));
        let ground = named(grounded(self.path, Handed::Text(&text))?, &marked, self.path);
        let known = marks.iter().all(|mark| ground.names.atom(mark).is_some());
        Ok(known.then_some((ground, marks)))
    }
}

/// A ground program with constraints that demand or forbid literals.
fn with_constraints(mut ground: Ground, assumed: &[String]) -> Result<Ground, Failure> {
    let lines = assumed.iter().filter_map(|literal| constraint(literal, &ground.names).transpose());
    let lines: Vec<String> = lines.collect::<Result<_, _>>()?;
    if !lines.is_empty() {
        ground.text = constrained::text(&ground.text, &lines);
    }
    Ok(ground)
}

/// A file that is ground, with the names beside it.
fn ground_file(path: &Path, bytes: &[u8], taken: fn(&[u8]) -> Result<Ground, Failure>) -> Result<Ground, Failure> {
    let mut ground = taken(bytes)?;
    if ground.names.is_empty() {
        let (names, why) = Names::beside(path, bytes)?;
        ground.names = names;
        // Told at once, since it matters to every answer and to a name that is not found.
        why.iter().for_each(|line| crate::say(line));
    }
    Ok(ground)
}

/// A program that was loaded, its long sums split, which is said; where it is refused, as it was.
pub fn split(mut ground: Ground) -> Result<Ground, Failure> {
    if let Ok(split) = split::split_any(&ground.text)? {
        if let Some(note) = split.note() {
            ground.lines = split::lines(&ground.text, &ground.lines, &split.text);
            ground.notes.extend([Some(note), split::caution(split.unproved)].into_iter().flatten());
            ground.text = split.text;
            ground.added = split.atoms;
        }
    }
    Ok(ground)
}

/// The line of the constraint that demands or forbids a literal of a ground program; none where a fact is demanded.
pub fn constraint(literal: &str, names: &Names) -> Result<Option<String>, Failure> {
    let (atom, forbidden) = literal.trim().strip_prefix("not ").map_or((literal.trim(), false), |atom| (atom.trim(), true));
    if names.facts().any(|fact| fact == atom) && names.atom(atom).is_none() {
        return Ok(forbidden.then(|| String::from("1 0 0 0 0")));
    }
    let number = names.number::<i32>(atom).filter(|number| *number != 0);
    let number =
        number.ok_or_else(|| Failure::misuse(format!("`{literal}` is over neither an atom's number nor a name that the program has")))?;
    Ok(Some(format!("1 0 0 0 1 {}", if forbidden { number } else { -number })))
}

/// The ground program with the names of atoms that the plan, or what it includes, does not show. They are those of another
/// grounding, without what is said about showing, where that has the same rules.
fn named(mut ground: Ground, plan: &Plan, path: &Path) -> Ground {
    let whole = plan.whole(folder(path));
    ground.minimizes |= whole.minimizes();
    if whole.shows() {
        ground.names.show_only();
        let all = grounded(path, Handed::Text(&whole.text_without_shows(folder(path))));
        let rules = |text: &[u8]| text.strip_suffix(b"0\n").map(<[u8]>::to_vec);
        let same = |all: &Ground| rules(&all.text).is_some_and(|rules| ground.text.starts_with(&rules));
        if let Some(all) = all.ok().filter(same) {
            ground.names.adopt(&all.names);
        }
    }
    ground
}

fn folder(path: &Path) -> &Path {
    path.parent().unwrap_or(Path::new(""))
}

/// The refusal of a program that was loaded, and how it would be taken, where it is ground and has only to be cut down.
pub fn refused(refusal: ProgramRefusal, ground: &Ground, path: &Path) -> Result<Outcome, Failure> {
    let mut outcome = explain::ground(refusal, ground);
    let cut = if ground.of_plan { None } else { cut_down(&ground.text).ok() };
    if let Some(cut) = cut.filter(|cut| cut.text != ground.text) {
        if split::split_any(&cut.text)?.is_ok() {
            outcome
                .words
                .push(format!("`aspdrupe ground {} -o OUT.aspif` drops what cannot matter, and OUT.aspif is taken", path.display()));
        }
    }
    Ok(outcome)
}

/// The ending decides, `.aspif` or `.lp`; where it is another, how the text begins.
fn is_ground(path: &Path, bytes: &[u8]) -> bool {
    match path.extension().and_then(OsStr::to_str) {
        Some("aspif") => true,
        Some("lp") => false,
        _ => bytes.starts_with(b"asp 1 "),
    }
}

/// The lines of gringo's complaints about a plan that it grounds all the same that are told.
const MOST_COMPLAINTS: usize = 20;

/// What gringo reads: the plan's file, for the sake of what it includes, or a text.
enum Handed<'a> {
    File,
    Text(&'a [u8]),
}

/// Has gringo keep facts in the bodies of rules.
const KEEP: [&str; 1] = ["--keep-facts"];

/// A ground program without the advice that says which atoms names are of; and that, by the name's place.
fn without_marks(text: &[u8]) -> (Vec<u8>, Vec<(usize, i32)>) {
    let mut places = Vec::new();
    let mut kept = Vec::new();
    for line in text.split_inclusive(|byte| *byte == b'\n') {
        let numbers: Option<Vec<i64>> = String::from_utf8_lossy(line).split_whitespace().map(|word| word.parse().ok()).collect();
        match numbers.as_deref() {
            Some([7, 0, atom, place, NAMES, 0]) => {
                places.extend(usize::try_from(*place).ok().zip(i32::try_from(*atom).ok()));
            }
            _ => kept.extend_from_slice(line),
        }
    }
    (kept, places)
}

/// What gringo makes of a plan, cut down, with what it complains of.
fn grounded(path: &Path, handed: Handed) -> Result<Ground, Failure> {
    let (text, complaints) = ground_text(path, handed, &[])?;
    let mut ground = cut_down(&text)?;
    ground.of_plan = true;
    ground.notes.extend(complaints);
    Ok(ground)
}

/// What gringo makes of a plan, with further options, and what it complains of.
fn ground_text(path: &Path, handed: Handed, options: &[&str]) -> Result<(Vec<u8>, Vec<String>), Failure> {
    let (named, handed) = match handed {
        // So that no file's name is an option.
        Handed::File if !path.is_absolute() => (Path::new(".").join(path).into_os_string(), &b""[..]),
        Handed::File => (OsString::from(path), &b""[..]),
        Handed::Text(text) => (OsString::from("-"), text),
    };
    let mut text = Vec::new();
    let mut arguments: Vec<&OsStr> = vec!["--output=intermediate".as_ref()];
    arguments.extend(options.iter().map(OsStr::new));
    arguments.push(&named);
    let ended = GRINGO.run(&arguments, handed, |line| {
        text.extend_from_slice(line);
        text.push(b'\n');
        if text.len() > LIMIT {
            Err(too_large())
        } else {
            Ok(())
        }
    })?;
    let by_name = |line: &str| line.strip_prefix("-:").map_or(String::from(line), |rest| format!("{}:{rest}", path.display()));
    let mut complaints = ended.complaints.lines().filter(|line| !line.trim().is_empty()).map(|line| printable(&by_name(line)));
    if ended.code == Some(0) {
        return Ok((text, complaints.take(MOST_COMPLAINTS).map(|line| format!("gringo: {line}")).collect()));
    }
    let first = complaints.find(|line| line.to_lowercase().contains("error")).unwrap_or(String::from("it gives no reason"));
    Err(Failure::refused(format!("gringo does not ground {}: {first}", path.display())))
}

/// A line of another program's, without control characters and not too long.
fn printable(line: &str) -> String {
    line.chars().map(|letter| if letter.is_control() { '?' } else { letter }).take(300).collect()
}
