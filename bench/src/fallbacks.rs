//! How often sweeps decided an `a`, since the replay of the search's path came to no conflict. The library does not tell, so the sources of its
//! crates are compiled as Rust, without their contracts and with counters around the replay, and that copy checks all inputs.

use crate::cases::{self, Input};
use inputs::ROOM;
use std::fs;
use std::io;
use std::path::{Path, PathBuf};
use std::process::Command;

/// Where the copy goes, from the repository's root.
const COPY: &str = "target/plain";

/// The crates of the whole check, each after those that it depends on.
const CRATES: [&str; 16] = [
    "words",
    "marks",
    "text",
    "weights",
    "aspif",
    "drupe",
    "watches",
    "search",
    "nogoods",
    "propagation",
    "names",
    "heads",
    "loops",
    "steps",
    "runs",
    "checker",
];

/// What follows the replay in crates/propagation/src/lib.rt, where it comes to a conflict and where it does not, and what stands there in the
/// copy.
const COUNTED: [(&str, &str); 2] = [
    (
        "            release(assignment, last);\n",
        "            REPLAYED.fetch_add(1, std::sync::atomic::Ordering::Relaxed);\n            release(assignment, last);\n",
    ),
    (
        "        None => exhaust(nogoods, assignment),\n",
        "        None => {
            SWEPT.fetch_add(1, std::sync::atomic::Ordering::Relaxed);
            exhaust(nogoods, assignment)
        }
",
    ),
];
const COUNTERS: &str = "
pub static REPLAYED: std::sync::atomic::AtomicUsize = std::sync::atomic::AtomicUsize::new(0);
pub static SWEPT: std::sync::atomic::AtomicUsize = std::sync::atomic::AtomicUsize::new(0);
";

/// Checks the texts at the two paths with a store of so many words; prints how often the replay decided and how often sweeps did, and the number
/// of the question that the proof fails, or 0.
const MAIN: &str = "
fn main() {
    let words: Vec<String> = std::env::args().collect();
    let (program, proof) = (std::fs::read(&words[1]).unwrap(), std::fs::read(&words[2]).unwrap());
    let (mut table, mut store) = (vec![0; 16384], vec![0; words[3].parse().unwrap()]);
    let number = match checker::check_texts(&program, &proof, &mut table, &mut store) {
        checker::Verdict::RefusedProof(refusal) => u8::from(refusal.fault),
        _ => 0,
    };
    let count = |n: &std::sync::atomic::AtomicUsize| n.load(std::sync::atomic::Ordering::Relaxed);
    println!(\"{} {} {number}\", count(&propagation::REPLAYED), count(&propagation::SWEPT));
}
";

/// What the copy says of an input: `a` steps that the replay decided, those that sweeps decided, and the question that the proof fails, or 0.
struct Decided {
    replayed: usize,
    swept: usize,
    number: usize,
}

/// Prints the counts of all inputs, the slow ones too. On how many inputs sweeps decided a step that was accepted, though the search reaches all of
/// the store, or the copy could not be made or run.
pub fn run() -> usize {
    match copied() {
        Ok(program) => {
            println!("{:<22} {:>9} {:>9} {:>8}", "input", "replay", "sweeps", "refused");
            cases::all().iter().chain(&cases::slow()).filter(|input| !is_shown(&program, input)).count()
        }
        Err(message) => {
            eprintln!("{message}");
            1
        }
    }
}

/// Prints what the copy says of an input; whether sweeps decided no more than the step that question 33 refused. Past ROOM words they may.
fn is_shown(program: &Path, input: &Input) -> bool {
    match decided(program, input) {
        Ok(of) => {
            println!("{:<22} {:>9} {:>9} {:>8}", input.name, of.replayed, of.swept, of.number);
            ROOM < input.store || of.swept == usize::from(of.number == 33)
        }
        Err(message) => {
            eprintln!("{}: {message}", input.name);
            false
        }
    }
}

fn decided(program: &Path, input: &Input) -> Result<Decided, String> {
    let (rules, steps) = (Path::new(COPY).join("program"), Path::new(COPY).join("proof"));
    fs::write(&rules, &input.texts.program).and_then(|()| fs::write(&steps, &input.texts.proof)).map_err(|error| error.to_string())?;
    let printed = printed(Command::new(program).arg(&rules).arg(&steps).arg(input.store.to_string()))?;
    let numbers: Vec<usize> = printed.split_whitespace().filter_map(|word| word.parse().ok()).collect();
    match numbers.as_slice() {
        [replayed, swept, number] => Ok(Decided { replayed: *replayed, swept: *swept, number: *number }),
        _ => Err(format!("the copy printed {printed:?}")),
    }
}

/// Makes the copy and compiles it; where its program is.
fn copied() -> Result<PathBuf, String> {
    for (place, name) in CRATES.iter().enumerate() {
        let folder = Path::new(COPY).join(name);
        copy(Path::new("crates").join(name).join("src").as_path(), &folder).map_err(|error| format!("{name}: {error}"))?;
        if *name == "propagation" {
            put_counters(&folder)?;
        }
        compile(&folder.join("lib.rs"), name, "rlib", &CRATES[..place])?;
    }
    let main = Path::new(COPY).join("main.rs");
    fs::write(&main, MAIN).map_err(|error| error.to_string())?;
    compile(&main, "plain", "bin", &CRATES)?;
    Ok(Path::new(COPY).join("plain"))
}

/// The sources of a crate without their contracts.
fn copy(from: &Path, to: &Path) -> io::Result<()> {
    fs::create_dir_all(to)?;
    for entry in fs::read_dir(from)? {
        let path = entry?.path();
        if let Some(name) = path.file_stem() {
            fs::write(to.join(name).with_extension("rs"), without_contracts(&fs::read_to_string(&path)?))?;
        }
    }
    Ok(())
}

/// A contract goes from a line that begins with `requires` or `ensures` to the one with the body's brace alone, and that of a trait's method without
/// a body is one line. Attributes are Rattle's own, and every type is copied and compared.
fn without_contracts(source: &str) -> String {
    let mut kept = String::new();
    let mut inside = false;
    for line in source.lines() {
        let words = line.trim_start();
        if words.starts_with("ensures ") && words.ends_with("};") {
            kept.push_str(";\n");
            continue;
        }
        inside = (inside && words != "{") || words.starts_with("requires ") || words.starts_with("ensures ");
        if inside || words.starts_with("ghost ") || words.starts_with('#') {
            continue;
        }
        if ["enum ", "struct ", "pub enum ", "pub struct "].iter().any(|start| words.starts_with(start)) {
            kept.push_str("#[derive(Clone, Copy, PartialEq, Eq)]\n");
        }
        kept.push_str(line);
        kept.push('\n');
    }
    kept
}

fn put_counters(folder: &Path) -> Result<(), String> {
    let path = folder.join("lib.rs");
    let mut source = fs::read_to_string(&path).map_err(|error| error.to_string())?;
    for (found, counted) in COUNTED {
        if source.matches(found).count() != 1 {
            return Err(String::from("the replay is not where it was looked for"));
        }
        source = source.replace(found, counted);
    }
    fs::write(path, source + COUNTERS).map_err(|error| error.to_string())
}

fn compile(source: &Path, name: &str, kind: &str, others: &[&str]) -> Result<(), String> {
    let rustc = Command::new("rustc")
        .args(["--edition", "2021", "-O", "--cap-lints", "allow", "-L", COPY, "--out-dir", COPY])
        .args(["--crate-type", kind, "--crate-name", name])
        .args(others.iter().flat_map(|other| ["--extern", other]))
        .arg(source)
        .output()
        .map_err(|error| error.to_string())?;
    if rustc.status.success() {
        return Ok(());
    }
    Err(format!("{name}: {}", String::from_utf8_lossy(&rustc.stderr)))
}

fn printed(command: &mut Command) -> Result<String, String> {
    let output = command.output().map_err(|error| error.to_string())?;
    if output.status.success() {
        return Ok(String::from_utf8_lossy(&output.stdout).into_owned());
    }
    Err(String::from_utf8_lossy(&output.stderr).into_owned())
}
