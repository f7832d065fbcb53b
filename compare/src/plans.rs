//! Runs `aspdrupe core`, `optimum`, `forced` and `why` on random plans and holds what they say to every set of atoms. A plan
//! has few atoms and no variables, so that its rules are known here too: gringo is the command's alone. Every third one
//! is given as a ground program.

mod why;

use std::collections::BTreeMap;
use std::fs;
use std::io;
use std::path::{Path, PathBuf};
use std::process::{Command, Stdio};

use inputs::random::Random;

use crate::comparison::Comparison;
use crate::reference::models::{every_set, is_answer_set, Set};
use crate::reference::program::{Body, InputRule, Program};

/// The atoms, 1 to 7, and their names.
const NAMES: [&str; 7] = ["a", "b(1)", "b(2)", "c(x,1)", "d", "e(f(1),\"u v\")", "-g"];

/// A random plan, its statements apart.
struct Plan {
    rules: Vec<InputRule>,
    constraints: Vec<InputRule>,
    /// Priorities, literals and weights.
    costs: Vec<(i32, i32, i32)>,
    /// The atoms that are shown.
    shown: Set,
    /// What is assumed.
    assumed: Option<i32>,
}

/// The command, in a folder of its own.
pub struct Planner {
    command: PathBuf,
    room: PathBuf,
}

/// What a run of the command printed.
struct Printed(String);

impl Planner {
    pub fn of(command: &str) -> io::Result<Planner> {
        let room = std::env::temp_dir().join(format!("compare-plans-{}", std::process::id()));
        fs::create_dir_all(&room)?;
        Ok(Planner { command: Path::new(command).canonicalize()?, room })
    }

    /// Runs a subcommand on a text; what it prints, or how it ended otherwise.
    fn run(&self, subcommand: &str, file: &str, text: &str, assumed: Option<i32>) -> Result<Printed, String> {
        let path = self.room.join(file);
        fs::write(&path, text).map_err(|error| error.to_string())?;
        let mut command = Command::new(&self.command);
        command.arg(subcommand).arg(&path).stdin(Stdio::null());
        if let Some(literal) = assumed {
            let literal = if file.ends_with(".lp") { named(literal) } else { literal.to_string() };
            command.arg("--assume").arg(literal);
        }
        let ended = command.output().map_err(|error| error.to_string())?;
        let printed = String::from_utf8_lossy(&ended.stdout).into_owned();
        if ended.status.success() {
            return Ok(Printed(printed));
        }
        Err(format!("it printed {printed:?} and ended with {}: {}", ended.status, String::from_utf8_lossy(&ended.stderr)))
    }
}

impl Drop for Planner {
    fn drop(&mut self) {
        let _ = fs::remove_dir_all(&self.room);
    }
}

/// So many plans from a seed, or one of them.
pub fn run(comparison: &mut Comparison, planner: &Planner, seed: u64, indexes: std::ops::Range<u64>) {
    let count = indexes.end - indexes.start;
    for index in indexes {
        comparison.open(format!("plans/{index} --seed {seed}"), Random::of(seed, "plans", index));
        let plan = Plan::random(&mut comparison.random);
        core(comparison, planner, &plan, index % 3 == 2);
        optimum(comparison, planner, &plan);
        forced(comparison, planner, &plan, index % 3 == 1);
        why::why(comparison, planner, &plan, index % 3 == 0);
    }
    println!("plans: {count} plans");
    comparison.tally.print();
}

fn settle(comparison: &mut Comparison, what: &str, said: Result<&'static str, String>, text: &str) {
    comparison.tally.count(format!("{what}: {}", said.as_ref().unwrap_or(&"left over")));
    let good = said.is_ok();
    comparison.settle(good, || format!("{what}: {}\n{text}", said.err().unwrap_or_default()));
}

/// The core is a set of constraints with which there is no answer set, and without any one of them there is one.
fn core(comparison: &mut Comparison, planner: &Planner, plan: &Plan, ground: bool) {
    let (file, text) = if ground { ("p.aspif", plan.ground_text()) } else { ("p.lp", plan.text(plan.constraints.len())) };
    let said = planner.run("core", file, &text, plan.assumed).and_then(|printed| plan.fits_core(&printed, ground));
    settle(comparison, if ground { "core of a ground program" } else { "core of a plan" }, said, &text);
}

/// The costs are those of enumeration, and the set is one of those that have them.
fn optimum(comparison: &mut Comparison, planner: &Planner, plan: &Plan) {
    let count = plan.constraints.len() / 3;
    let text = plan.text(count);
    let said = planner.run("optimum", "p.lp", &text, None).and_then(|printed| plan.fits_optimum(&printed, count));
    settle(comparison, "optimum", said, &text);
}

/// The shown atoms that are in all answer sets, in none and in some are those of enumeration.
fn forced(comparison: &mut Comparison, planner: &Planner, plan: &Plan, ground: bool) {
    let count = if ground { plan.constraints.len() } else { plan.constraints.len() / 3 };
    let (file, text) = if ground { ("p.aspif", plan.ground_text()) } else { ("p.lp", plan.text(count)) };
    let said = planner.run("forced", file, &text, None).and_then(|printed| plan.fits_forced(&printed, count, ground));
    settle(comparison, "forced", said, &text);
}

impl Plan {
    fn random(random: &mut Random) -> Plan {
        let rules = (0..random.between(2, 7)).map(|_| rule(random)).collect();
        let constraints = (0..random.between(0, 9)).map(|_| InputRule { choice: false, heads: Vec::new(), body: body(random) }).collect();
        let levels = random.between(1, 3);
        let atoms = NAMES.len() as i32;
        let cost = |random: &mut Random| {
            let atom = random.between(1, atoms);
            (random.between(1, levels), random.signed(atom), random.between(-4, 9) * if levels == 2 { 100 } else { 1 })
        };
        let costs = (0..random.between(1, 12)).map(|_| cost(random)).collect();
        let shown = (1..=atoms).filter(|_| random.percent(70)).collect();
        let assumed = random.percent(30).then(|| random.between(1, atoms)).map(|atom| random.signed(atom));
        Plan { rules, constraints, costs, shown, assumed }
    }

    /// The plan with the first constraints, a statement a line, the constraints before the rules.
    fn text(&self, constraints: usize) -> String {
        let statements = self.constraints[..constraints].iter().chain(&self.rules).map(|rule| format!("{}\n", written(rule)));
        let costs = self.costs.iter().enumerate();
        let costs = costs
            .map(|(place, (priority, literal, weight))| format!("#minimize {{ {weight}@{priority},{place} : {} }}.\n", named(*literal)));
        let shown = self.shown.iter().map(|atom| format!("#show {0} : {0}.\n", NAMES[*atom as usize - 1]));
        statements.chain(costs).chain(shown).chain([String::from("#show.\n")]).collect()
    }

    /// The ground program: header, rules, constraints, the line 0.
    fn ground_text(&self) -> String {
        let lines = self.rules.iter().chain(&self.constraints).map(|rule| format!("{}\n", line(rule)));
        format!("asp 1 0 0\n{}0\n", lines.collect::<String>())
    }

    /// The answer sets with some of the constraints.
    fn answer_sets(&self, constraints: &[&InputRule]) -> Vec<Set> {
        let rules = self.rules.iter().chain(constraints.iter().copied()).cloned().collect();
        let program = Program::of(rules);
        let atoms: Vec<i32> = (1..=NAMES.len() as i32).collect();
        every_set(&atoms).filter(|set| is_answer_set(&program.plain, set)).collect()
    }

    /// What is shown of a set: by name, or the atoms' numbers.
    fn shows(&self, set: &Set, ground: bool) -> Vec<String> {
        if ground {
            return set.iter().map(i32::to_string).collect();
        }
        let mut names: Vec<String> = set.intersection(&self.shown).map(|atom| String::from(NAMES[*atom as usize - 1])).collect();
        names.sort();
        names
    }

    fn fits_core(&self, printed: &Printed, ground: bool) -> Result<&'static str, String> {
        let demand = self.assumed.map(|literal| InputRule { choice: false, heads: Vec::new(), body: Body::Plain(vec![-literal]) });
        let all: Vec<&InputRule> = self.constraints.iter().chain(&demand).collect();
        let sets = self.answer_sets(&all);
        if let Some(shown) = printed.atoms("answer set") {
            return good(sets.iter().any(|set| self.shows(set, ground) == shown), "an answer set", || format!("{shown:?} is none"));
        }
        let mut lines = printed.0.lines();
        let first = lines.next().unwrap_or("");
        let members: Vec<usize> =
            lines.map(|line| self.member(line, ground)).collect::<Option<_>>().ok_or("a line of the core is of no constraint")?;
        let counts = format!("core {} of {}", members.len(), all.len());
        let core: Vec<&InputRule> = members.iter().map(|place| all[*place]).collect();
        let minimal = (0..core.len()).all(|out| !self.answer_sets(&[&core[..out], &core[out + 1..]].concat()).is_empty());
        let none = sets.is_empty() && self.answer_sets(&core).is_empty();
        let kind = match core.len() {
            0 => "no constraint",
            1 => "one constraint",
            _ => "several constraints",
        };
        good(first == counts && none && minimal, kind, || {
            format!("{} is no minimal core, {counts}: none {none}, minimal {minimal}", printed.0)
        })
    }

    /// The constraint that a line of a core is of.
    fn member(&self, line: &str, ground: bool) -> Option<usize> {
        if let Some(literal) = line.strip_prefix("assumed: ") {
            let assumed = self.assumed?;
            let told = if ground { assumed.to_string() } else { named(assumed) };
            return (literal == told).then_some(self.constraints.len());
        }
        let (number, text) = line.strip_prefix("line ")?.split_once(": ")?;
        let before = if ground { 2 + self.rules.len() } else { 1 };
        let place = number.parse::<usize>().ok()?.checked_sub(before)?;
        let constraint = self.constraints.get(place)?;
        (ground || text == written(constraint)).then_some(place)
    }

    fn fits_optimum(&self, printed: &Printed, count: usize) -> Result<&'static str, String> {
        let all: Vec<&InputRule> = self.constraints[..count].iter().collect();
        let ranked: Vec<(Vec<i32>, Set)> = self.answer_sets(&all).into_iter().map(|set| (self.total(&set), set)).collect();
        let Some(least) = ranked.iter().map(|(total, _)| total).min() else {
            return good(printed.0.starts_with("inconsistent "), "no answer set", || printed.0.clone());
        };
        let never: Vec<bool> = (0..least.len()).map(|level| ranked.iter().all(|(total, _)| total[level] == 0)).collect();
        let shown = lists(least, &never).iter().find_map(|list| printed.atoms(&format!("optimum {list}")));
        let shown = shown.ok_or_else(|| format!("{} is not optimum {least:?}", printed.0))?;
        let one = ranked.iter().any(|(total, set)| total == least && self.shows(set, false) == shown);
        let kind = if least.len() == 1 { "one priority" } else { "several priorities" };
        good(one, kind, || format!("{} is none that costs least", printed.0))
    }

    /// What a set costs, by falling priority.
    fn total(&self, set: &Set) -> Vec<i32> {
        let mut totals: BTreeMap<i32, i32> = BTreeMap::new();
        for (priority, literal, weight) in &self.costs {
            let held = set.contains(&literal.abs()) == (*literal > 0);
            *totals.entry(-priority).or_default() += if held { *weight } else { 0 };
        }
        totals.into_values().collect()
    }

    fn fits_forced(&self, printed: &Printed, count: usize, ground: bool) -> Result<&'static str, String> {
        let all: Vec<&InputRule> = self.constraints[..count].iter().collect();
        let sets = self.answer_sets(&all);
        if sets.is_empty() {
            return good(printed.0.starts_with("inconsistent "), "no answer set", || printed.0.clone());
        }
        let lines: Vec<&str> = printed.0.lines().collect();
        let [always, never, open] = lines[..] else { return Err(format!("{} has not three lines", printed.0)) };
        let told = [("always", always), ("never", never), ("open", open)].map(|(called, line)| Printed(String::from(line)).atoms(called));
        let [Some(always), Some(never), Some(open)] = told else { return Err(printed.0.clone()) };
        let shown: Set = if ground { (1..=NAMES.len() as i32).collect() } else { self.shown.clone() };
        let names = |held: &dyn Fn(usize) -> bool| {
            let atoms: Set = shown.iter().copied().filter(|atom| held(sets.iter().filter(|set| set.contains(atom)).count())).collect();
            self.shows(&atoms, ground)
        };
        // An atom that no rule gives may not be listed at all.
        let in_none = names(&|count| count == 0);
        let fits = always == names(&|count| count == sets.len())
            && open == names(&|count| count > 0 && count < sets.len())
            && never.iter().all(|name| in_none.contains(name));
        let kind = if open.is_empty() { "nothing open" } else { "something open" };
        good(fits, kind, || format!("{} is not as enumerated", printed.0))
    }
}

impl Printed {
    /// The atoms of the line, or of the first, that is called so, in order.
    fn atoms(&self, called: &str) -> Option<Vec<String>> {
        let list = self.0.lines().next()?.strip_prefix(called)?.strip_prefix(':')?;
        let mut atoms: Vec<String> = list.replace("u v", "u_v").split_whitespace().map(|atom| atom.replace("u_v", "u v")).collect();
        atoms.sort();
        Some(atoms)
    }
}

/// The lists of totals that may be printed: gringo leaves nothing of a priority that counts nothing, so that one with 0
/// in every answer set may be missing, and all of them together are 0.
fn lists(least: &[i32], never: &[bool]) -> Vec<String> {
    let kept = |out: usize| {
        (0..least.len()).filter(|level| !(never[*level] && out >> level & 1 == 1)).map(|level| least[level].to_string()).collect()
    };
    let lists: Vec<Vec<String>> = (0..1 << least.len()).map(kept).collect();
    lists.iter().map(|list| if list.is_empty() { String::from("0") } else { list.join(" ") }).collect()
}

fn good(is_so: bool, kind: &'static str, otherwise: impl FnOnce() -> String) -> Result<&'static str, String> {
    if is_so {
        Ok(kind)
    } else {
        Err(otherwise())
    }
}

/// A rule with a head: a choice of up to four atoms, or one atom.
fn rule(random: &mut Random) -> InputRule {
    let choice = random.percent(60);
    let count = if choice { 1 + random.below(4) } else { 1 };
    let mut heads = random.different(count, NAMES.len() as i32);
    heads.sort_unstable();
    let body = if choice && random.percent(60) { Body::Plain(Vec::new()) } else { body(random) };
    InputRule { choice, heads, body }
}

/// A body of up to three literals, or of up to four with weights.
fn body(random: &mut Random) -> Body {
    let literals = |random: &mut Random, count: usize| {
        let mut atoms = random.different(count, NAMES.len() as i32);
        atoms.sort_unstable();
        atoms.into_iter().map(|atom| random.signed(atom)).collect::<Vec<i32>>()
    };
    if random.percent(75) {
        let count = 1 + random.below(3);
        return Body::Plain(literals(random, count));
    }
    let count = 2 + random.below(3);
    let pairs = literals(random, count).into_iter().map(|literal| (literal, random.between(1, 5))).collect();
    Body::Weights { bound: random.between(1, 9), pairs }
}

/// A literal by name.
fn named(literal: i32) -> String {
    format!("{}{}", if literal < 0 { "not " } else { "" }, NAMES[literal.unsigned_abs() as usize - 1])
}

/// A rule as a statement of a plan.
fn written(rule: &InputRule) -> String {
    let heads: Vec<&str> = rule.heads.iter().map(|head| NAMES[*head as usize - 1]).collect();
    let head = if rule.choice { format!("{{ {} }}", heads.join("; ")) } else { heads.concat() };
    let body = match &rule.body {
        Body::Plain(literals) => literals.iter().map(|literal| named(*literal)).collect::<Vec<_>>().join(", "),
        Body::Weights { bound, pairs } => {
            let pair = |(place, (literal, weight)): (usize, &(i32, i32))| format!("{weight},{place} : {}", named(*literal));
            format!("#sum {{ {} }} >= {bound}", pairs.iter().enumerate().map(pair).collect::<Vec<_>>().join("; "))
        }
    };
    let arrow = if body.is_empty() { String::new() } else { format!(":- {body}") };
    String::from(format!("{head} {arrow}").trim()) + "."
}

/// A rule as a line of a ground program.
fn line(rule: &InputRule) -> String {
    let mut numbers = vec![1, i32::from(rule.choice), rule.heads.len() as i32];
    numbers.extend(&rule.heads);
    match &rule.body {
        Body::Plain(literals) => {
            numbers.extend([0, literals.len() as i32]);
            numbers.extend(literals);
        }
        Body::Weights { bound, pairs } => {
            numbers.extend([1, *bound, pairs.len() as i32]);
            numbers.extend(pairs.iter().flat_map(|(literal, weight)| [*literal, *weight]));
        }
    }
    numbers.iter().map(i32::to_string).collect::<Vec<_>>().join(" ")
}
