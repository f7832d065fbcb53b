//! Runs `aspdrupe show` on random programs and proofs and holds what it says to the reference: the verdict, what each step adds and deletes with its
//! origin, and of each addition the chain. Its nogoods are live, with their origins, and in the order given each but the last gives one literal by
//! unit propagation, which a later one needs; of the last all literals hold.

use std::collections::BTreeSet;
use std::fs;
use std::io;
use std::path::{Path, PathBuf};
use std::process::{Command, Output, Stdio};

use inputs::random::Random;
use inputs::{programs, Pair, ROOM};

use crate::cases::refutations::{go_on, refute, Author, Found};
use crate::cases::{changes, guided, loops};
use crate::comparison::Comparison;
use crate::families::{in_any_order, small_program};
use crate::json::Value;
use crate::reference::check::{check, verdict_line};
use crate::reference::lines::{read_line, Answer, Line};
use crate::reference::program::{read, Program};
use crate::reference::steps::{step, State};
use crate::shrink::cut;

/// The command, in a folder of its own.
pub struct Shower {
    command: PathBuf,
    room: PathBuf,
}

impl Shower {
    pub fn of(command: &str) -> io::Result<Shower> {
        let room = std::env::temp_dir().join(format!("compare-show-{}", std::process::id()));
        fs::create_dir_all(&room)?;
        Ok(Shower { command: Path::new(command).canonicalize()?, room })
    }

    fn run(&self, pair: &Pair, options: &[&str]) -> io::Result<Output> {
        let (program, proof) = (self.room.join("case.aspif"), self.room.join("case.drupe"));
        fs::write(&program, &pair.program)?;
        fs::write(&proof, &pair.proof)?;
        Command::new(&self.command).arg("show").args([program, proof]).args(options).stdin(Stdio::null()).output()
    }
}

impl Drop for Shower {
    fn drop(&mut self) {
        let _ = fs::remove_dir_all(&self.room);
    }
}

/// So many pairs from a seed, or one of them.
pub fn run(comparison: &mut Comparison, shower: &Shower, seed: u64, indexes: std::ops::Range<u64>) {
    let count = indexes.end - indexes.start;
    for index in indexes {
        comparison.open(format!("show/{index} --seed {seed}"), Random::of(seed, "show", index));
        let pair = any_pair(index, &mut comparison.random);
        let held = hold(comparison, shower, &pair);
        comparison.settle(held.is_ok(), || format!("{}: {} {}", held.unwrap_err(), cut(&pair.program), cut(&pair.proof)));
    }
    println!("show: {count} pairs");
    comparison.tally.print();
}

/// A program with a refutation or with steps that know it, whole or with a line changed.
fn any_pair(index: u64, random: &mut Random) -> Pair {
    let (text, program) = match index % 4 {
        0 => in_any_order(programs::weights(random), random),
        1 => in_any_order(loops::rules(random), random),
        _ => small_program(random),
    };
    let proof = match index % 4 {
        1 => loops::proof(&program, random),
        2 => guided::proof(&program, random, 60),
        _ => refutation(&program, random),
    };
    let pair = Pair::of(text, proof);
    if random.percent(25) {
        return Pair { proof: changes::changed(&pair.proof, random), ..pair };
    }
    pair
}

fn refutation(program: &Program, random: &mut Random) -> Vec<u8> {
    let mut author = Author::of(program);
    let at_first = if program.plain.len() > 100 { 0 } else { *random.pick(&[100, 50, 0]) };
    if refute(&mut author, random, at_first) == Found::Refutation && random.percent(25) {
        go_on(&mut author, random);
    }
    author.text()
}

/// Whether the command says of a pair what it should; otherwise what is wrong.
fn hold(comparison: &mut Comparison, shower: &Shower, pair: &Pair) -> Result<(), String> {
    let told = |error: io::Error| error.to_string();
    let expected = verdict_line(&check(&pair.program, &pair.proof, ROOM, ROOM).verdict);
    let output = shower.run(pair, &[]).map_err(told)?;
    let text = String::from_utf8_lossy(&output.stdout).into_owned();
    let last = text.lines().last().unwrap_or("");
    if last != expected.trim_end() {
        return Err(format!("it says {last:?}, not {expected:?}: {}", String::from_utf8_lossy(&output.stderr)));
    }
    let output = shower.run(pair, &["--json"]).map_err(told)?;
    let json = Value::of(&String::from_utf8_lossy(&output.stdout)).ok_or("what it prints is no object")?;
    let Ok(program) = read(&pair.program, ROOM) else { return Ok(()) };
    let mut state = State::start(&program);
    let mut at = 0;
    let steps = json.field("proof").map_or(&[][..], Value::list);
    for (place, told) in steps.iter().enumerate() {
        let refused = told.field("refused").is_some();
        let Answer::Line(line) = read_line(&pair.proof, at) else {
            return if refused { Ok(()) } else { Err(format!("step {} is none", place + 1)) };
        };
        at = line.next;
        let named = hold_step(&program, &mut state, &line, told, refused).map_err(|why| format!("step {}: {why}", place + 1))?;
        comparison.tally.count(format!("show: {named}"));
    }
    let all = expected.starts_with("refused") || at == pair.proof.len();
    all.then_some(()).ok_or_else(|| String::from("not all steps are shown"))
}

/// Holds a step to the reference, which takes it; what was seen.
fn hold_step(program: &Program, state: &mut State, line: &Line, told: &Value, refused: bool) -> Result<&'static str, String> {
    let chain: Vec<Link> =
        told.field("chain").map_or(&[][..], Value::list).iter().map(Link::of).collect::<Option<_>>().ok_or("no chain")?;
    if line.letter == b'a' {
        let open = open_after(state, line, &chain)?;
        let is_refused_by_33 = told.field("refused").and_then(Value::number) == Some(33);
        if open != (is_refused_by_33 || refused && chain.is_empty()) {
            return Err(format!("its chain {} to a conflict", if open { "does not come" } else { "comes" }));
        }
    }
    let dead_before: BTreeSet<usize> = dead(state);
    match (step(program, state, line), refused) {
        (Err(_), true) => return Ok("a refused step"),
        (Ok(()), true) => return Ok("a step refused for the store"),
        (Err(number), false) => return Err(format!("it is refused with {number}")),
        (Ok(()), false) => {}
    }
    let adds: Vec<Vec<i32>> =
        told.field("adds").map_or(&[][..], Value::list).iter().map(Value::numbers).collect::<Option<_>>().ok_or("no adds")?;
    let added: Vec<Vec<i32>> =
        state.stored.iter().filter(|stored| stored.origin == state.steps).map(|stored| stored.literals.clone()).collect();
    if adds != added {
        return Err(format!("it adds {added:?}, not {adds:?}"));
    }
    let removed = dead(state).difference(&dead_before).next().map(|place| state.stored[*place].origin as i64);
    if told.field("removes").and_then(Value::number) != removed {
        return Err(format!("what it deletes is of step {removed:?}"));
    }
    Ok(if line.letter == b'a' { "an addition with its chain" } else { "another step" })
}

fn dead(state: &State) -> BTreeSet<usize> {
    (0..state.stored.len()).filter(|place| state.stored[*place].dead).collect()
}

/// A nogood of a chain, as the command tells it.
struct Link {
    step: usize,
    nogood: Vec<i32>,
    gives: Option<i32>,
}

impl Link {
    fn of(value: &Value) -> Option<Link> {
        let gives = value.field("gives").and_then(Value::number).map(|literal| literal as i32);
        Some(Link { step: usize::try_from(value.field("step")?.number()?).ok()?, nogood: value.field("nogood")?.numbers()?, gives })
    }
}

/// Goes through a chain by unit propagation; whether no conflict is reached, or what is wrong with it.
fn open_after(state: &State, line: &Line, chain: &[Link]) -> Result<bool, String> {
    let mut held: BTreeSet<i32> = line.numbers.iter().copied().collect();
    for (place, link) in chain.iter().enumerate() {
        let is_there =
            |stored: &crate::reference::steps::Stored| !stored.dead && stored.origin == link.step && stored.literals == link.nogood;
        if !state.stored.iter().any(is_there) {
            return Err(format!("{:?} of step {} is not live", link.nogood, link.step));
        }
        let open: Vec<i32> = link.nogood.iter().copied().filter(|literal| !held.contains(literal)).collect();
        match (&open[..], link.gives) {
            ([], None) if place + 1 == chain.len() => {}
            ([literal], Some(gives)) if gives == -literal => {
                held.insert(gives);
            }
            _ => return Err(format!("{:?} of step {} leaves {open:?} open and is to give {:?}", link.nogood, link.step, link.gives)),
        }
    }
    let is_open = chain.last().is_none_or(|link| link.gives.is_some());
    let is_needed =
        |(place, link): (usize, &Link)| link.gives.is_none_or(|given| chain[place + 1..].iter().any(|later| later.nogood.contains(&given)));
    if !is_open && !chain.iter().enumerate().all(is_needed) {
        return Err(String::from("its chain has a nogood that the conflict does not need"));
    }
    Ok(is_open)
}
