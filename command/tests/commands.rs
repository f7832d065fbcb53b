//! The command as it is called: answers and exit statuses on the examples, and bad inputs of every kind. No gringo and no cadical is needed: where
//! a tool is asked for, a script stands in its place.

use std::fs;
use std::io::Read;
use std::os::unix::fs::PermissionsExt;
use std::os::unix::process::{CommandExt, ExitStatusExt};
use std::path::{Path, PathBuf};
use std::process::{Child, Command, Output, Stdio};
use std::time::{Duration, Instant};

const EXAMPLES: &str = concat!(env!("CARGO_MANIFEST_DIR"), "/../examples");

/// A program with the answer set {1}, and one with none.
const GOOD: &str = "asp 1 0 0\n1 1 1 1 0 0\n1 0 0 0 1 -1\n0\n";
const NONE: &str = "asp 1 0 0\n1 0 1 1 0 1 -1\n0\n";

/// A folder that goes when the test ends, with a folder for tools in it.
struct Room(PathBuf);

impl Room {
    fn of(name: &str) -> Room {
        let path = std::env::temp_dir().join(format!("aspdrupe-{name}-{}", std::process::id()));
        fs::create_dir_all(path.join("tools")).unwrap();
        Room(path)
    }

    fn file(&self, name: &str, text: impl AsRef<[u8]>) -> PathBuf {
        let path = self.0.join(name);
        fs::write(&path, text).unwrap();
        path
    }

    /// A script in a tool's place.
    fn tool(&self, name: &str, script: &str) {
        let path = self.file(&format!("tools/{name}"), format!("#!/bin/sh\n{script}\n"));
        fs::set_permissions(path, fs::Permissions::from_mode(0o755)).unwrap();
    }

    /// The command, with the scripts for tools.
    fn command(&self, words: &[&str]) -> Command {
        let mut command = Command::new(env!("CARGO_BIN_EXE_aspdrupe"));
        command.args(words).current_dir(&self.0).env("PATH", self.0.join("tools")).stdin(Stdio::null());
        command
    }

    /// Runs it: status, standard output, standard error.
    fn run(&self, words: &[&str]) -> (i32, String, String) {
        ended(self.command(words).output().unwrap())
    }

    /// The files that are there, the tools aside.
    fn files(&self) -> Vec<String> {
        let names = fs::read_dir(&self.0).unwrap().map(|entry| entry.unwrap().file_name().into_string().unwrap());
        let mut names: Vec<String> = names.filter(|name| name != "tools").collect();
        names.sort();
        names
    }
}

impl Drop for Room {
    fn drop(&mut self) {
        let _ = fs::remove_dir_all(&self.0);
    }
}

fn ended(output: Output) -> (i32, String, String) {
    let text = |bytes: Vec<u8>| String::from_utf8(bytes).unwrap();
    (output.status.code().unwrap_or(-1), text(output.stdout), text(output.stderr))
}

/// One line for people, and nothing on the standard output.
fn assert_misuse(ended: (i32, String, String), part: &str) {
    let (status, out, said) = ended;
    assert!(status == 2 && out.is_empty() && said.lines().count() == 1 && said.contains(part), "{status} {out:?} {said:?}, not {part:?}");
}

/// 1 :- not 2. 2 :- not 1. 3 :- 4. 4 :- 3. {5} :- 1.
const PAIR: &str = "asp 1 0 0\n1 0 1 1 0 1 -2\n1 0 1 2 0 1 -1\n1 0 1 3 0 1 4\n1 0 1 4 0 1 3\n1 1 1 5 0 1 1\n0\n";

#[test]
fn why_an_atom_holds_or_not() {
    let room = Room::of("why");
    room.file("p.aspif", PAIR);
    let chosen =
        "why 5: 2 assumptions\nchosen: 5, by {5} :- 1.\nassumed: not 2\n5: chosen by {5} :- 1.\n  1: by 1 :- not 2.\n    not 2: assumed\n";
    let words = ["why", "p.aspif", "5", "--set", "5", "1", "-o", "kept", "--dot", "g.dot", "--html", "g.html"];
    let (status, out, said) = room.run(&words);
    assert_eq!((status, out.as_str()), (0, chosen), "{said}");
    assert!(said.contains("certified: inconsistent 5 8 "), "{said}");
    // What is kept is certified again: the program with two assumptions and one constraint against the literal.
    let program = fs::read_to_string(room.0.join("kept/why.aspif")).unwrap();
    assert_eq!(program, PAIR.replace("\n0\n", "\n1 0 0 0 2 1 -5\n1 0 0 0 1 2\n1 0 0 0 1 5\n0\n"));
    assert!(room.run(&["check", "kept/why.aspif", "kept/why.drupe"]).1.starts_with("inconsistent 5 8 "));
    assert_eq!(room.run(&["test", "kept/set.aspif", "1", "5"]).1, "yes\n");
    let dot = fs::read_to_string(room.0.join("g.dot")).unwrap();
    for line in [
        "\"5+\" [penwidth=2];",
        "\"5+\" -> \"{5} :- 1.\" [label=\"+\"];",
        "\"1+\" -> \"2-\" [label=\"-\"];",
        "\"2-\" -> assume [label=\"-\"];",
    ] {
        assert!(dot.contains(&format!("  {line}\n")), "{dot}");
    }
    let page = fs::read_to_string(room.0.join("g.html")).unwrap();
    assert!(
        page.contains("<h1>5, by 2 assumptions.</h1>")
            && page.contains("<details open><summary><span class=\"there\">1</span> by 1 :- not 2.")
    );
    assert!(page.contains("aspdrupe check kept/why.aspif kept/why.drupe\n") && !page.contains("http"));
    let looped = "why not 3: no assumptions\nnot 3: {3, 4} hold only each other up\n";
    for words in [&["not 3", "--set", "1"][..], &["--set", "1", "not", "3"], &["--set", "1", "--", "not 3"], &["not", "3", "--set", "1"]] {
        assert_eq!(room.run(&[&["why", "p.aspif"], words].concat()).1, looped, "{words:?}");
    }
    let (_, json, _) = room.run(&["why", "p.aspif", "--set", "2", "not 5", "--json"]);
    for part in [
        "\"command\": \"why\", \"status\": 0, \"answer\": \"why\", \"literal\": \"not 5\"",
        "\"assumptions\": [{\"by\": \"assumed\", \"literal\": \"not 1\", \"rules\": []}]",
        "{\"node\": 1, \"literal\": \"not 5\", \"number\": -5, \"by\": \"fails\", \"fails\": [{\"rule\": \"{5} :- 1.\", \"below\": [0]}]}",
        "\"verdict\": \"inconsistent\"",
    ] {
        assert!(json.contains(part), "{json}");
    }
}

#[test]
fn why_is_not_answered() {
    let room = Room::of("why-not");
    room.file("p.aspif", PAIR);
    let status_and_line = |words: &[&str]| {
        let (status, out, said) = room.run(&[&["why"], words].concat());
        (status, out, said)
    };
    let (status, out, said) = status_and_line(&["p.aspif", "2", "--set", "1"]);
    assert!((status, out.as_str()) == (10, "no: 2\n") && said.starts_with("2 does not hold in the answer set, not 2 does: 1"), "{said}");
    // A set that is no answer set is refused, whatever is asked of it.
    for (set, line) in [(&["1", "2"][..], "no atom 1"), (&[], "no atom 1"), (&["1", "3", "4"], "no atom 3"), (&["1", "6"], "42")] {
        let (status, out, _) = status_and_line(&[&["p.aspif", "1", "--set"], set].concat());
        assert_eq!((status, out), (20, format!("refused set: {line}\n")), "{set:?}");
    }
    room.file("broken.aspif", PAIR.replace("\n0\n", "\n1 0 0 0 1 5\n0\n"));
    assert_eq!(status_and_line(&["broken.aspif", "1", "--set", "1", "5"]).1, "refused set: no rule 6\n");
    for (words, part) in [
        (&["p.aspif"][..], "which literal?"),
        (&["p.aspif", "--set"], "which literal?"),
        (&["p.aspif", "6", "--set", "1"], "no rule of the ground program has it"),
        (&["p.aspif", "x", "--set", "1"], "`x` is neither"),
        (&["p.aspif", "1", "--set", "x"], "`x` is neither"),
        (&["p.aspif", "1", "--set", "1", "--dot", "p.aspif"], "another place"),
        (&["p.aspif", "1", "2", "3", "--set", "1"], "too many"),
        // Without a set cadical looks for one.
        (&["p.aspif", "1"], "cadical is not installed"),
    ] {
        assert_misuse(status_and_line(words), part);
    }
    room.file("bad.aspif", "asp 1 0 0\n1 0 2 1 2 0 0\n0\n");
    let (status, out, _) = status_and_line(&["bad.aspif", "1", "--set", "1"]);
    assert!(status == 20 && out.starts_with("refused program 7 2"), "{out}");
    assert_eq!(room.files(), ["bad.aspif", "broken.aspif", "p.aspif"]);
}

/// 65 rules for atom 1, and whether their bodies may be chosen.
fn many_bodies(chosen: bool) -> String {
    let rules: String = (2..=66).map(|atom| format!("1 0 1 1 0 1 {atom}\n")).collect();
    let choices: String = (2..=66).map(|atom| format!("1 1 1 {atom} 0 0\n")).collect();
    format!("asp 1 0 0\n{rules}{}1 0 1 67 0 1 -1\n0\n", if chosen { choices } else { String::new() })
}

#[test]
fn why_takes_a_line_that_cannot_be_written() {
    let room = Room::of("why-many");
    room.file("none.aspif", many_bodies(false));
    let (status, out, said) = room.run(&["why", "none.aspif", "67", "--set", "67"]);
    assert_eq!((status, out.as_str()), (10, "undecided\n"));
    assert!(said.contains("it takes an `s` line for atom 1, which has 65 bodies"), "{said}");
    // Where atom 1 may be assumed to be false, that takes no such line.
    room.file("some.aspif", many_bodies(true));
    let (status, out, _) = room.run(&["why", "some.aspif", "67", "--set", "67"]);
    assert_eq!((status, out.as_str()), (0, "why 67: 1 assumption\nassumed: not 1\n67: by 67 :- not 1.\n  not 1: assumed\n"));
}

#[test]
fn why_by_long_sums() {
    let room = Room::of("why-sums");
    let (atoms, pairs): (String, String) = (1..=14).map(|atom| (format!(" {atom}"), format!(" {atom} 1"))).unzip();
    room.file("p.aspif", format!("asp 1 0 0\n1 1 14{atoms} 0 0\n1 0 1 15 1 13 14{pairs}\n0\n"));
    let set: Vec<String> = (1..=15).filter(|atom| *atom != 14).map(|atom| atom.to_string()).collect();
    let set: Vec<&str> = set.iter().map(String::as_str).collect();
    let (status, out, said) = room.run(&[&["why", "p.aspif", "15", "--set"], &set[..]].concat());
    assert!(status == 0 && said.starts_with("long sums are split"), "{said}");
    let whole = (1..=14).map(|atom| atom.to_string()).collect::<Vec<_>>().join("; ");
    assert!(out.starts_with("why 15: 13 assumptions\nchosen: 1, by {1; 2; "), "{out}");
    assert!(
        out.contains(&format!("\n15: by 15 :- 13 {{ {whole} }}.\n")) && out.contains("\n  3 { 1; 2; 3 }: reached\n    1: chosen by"),
        "{out}"
    );
    // Two that are missing are enough, and the sum is named.
    let (status, out, _) = room.run(&["why", "p.aspif", "not 15", "--set", "1", "2", "3", "4", "5"]);
    assert!(status == 0 && out.starts_with("why not 15: 2 assumptions\nleft: not "), "{out}");
    assert!(out.contains(&format!("\nnot 15: 15 :- 13 {{ {whole} }}. fails\n  not 13 {{ {whole} }}: each rule for it fails\n")), "{out}");
}

#[test]
fn examples_as_verdict_says_them() {
    let room = Room::of("examples");
    let mut seen = [0; 3];
    for entry in fs::read_dir(EXAMPLES).unwrap() {
        let folder = entry.unwrap().path();
        let Ok(expected) = fs::read_to_string(folder.join("expected")) else { continue };
        let (program, proof) = (folder.join("case.aspif"), folder.join("case.drupe"));
        let (status, out, said) = room.run(&["check", program.to_str().unwrap(), proof.to_str().unwrap()]);
        assert_eq!(out, expected, "{}", folder.display());
        let word = ["inconsistent", "open", "refused"].iter().position(|word| expected.starts_with(word)).unwrap();
        assert_eq!(status, [0, 10, 20][word], "{}", folder.display());
        assert_eq!(said.contains("to mend: "), word == 2, "{said}");
        seen[word] += 1;
    }
    assert!(seen.iter().all(|count| *count > 1), "{seen:?}");
}

#[test]
fn a_refusal_with_its_line() {
    let room = Room::of("refusal");
    room.file("p", NONE);
    room.file("d", "b 2 -1 0\na 3 0\n");
    let (status, out, said) = room.run(&["check", "p", "d"]);
    assert_eq!((status, out.as_str()), (20, "refused proof 26 2\n"));
    assert!(said.starts_with("step 2 of the proof, column 3:\n    a 3 0\n      ^\nquestion 26, answered no: "), "{said}");
    let (_, out, _) = room.run(&["check", "p", "d", "--json"]);
    assert!(
        out.starts_with(
            r#"{"command": "check", "status": 20, "refused": "proof", "number": 26, "step": 2, "column": 3, "text": "a 3 0", "#
        ),
        "{out}"
    );
    let (_, out, said) = room.run(&["check", "p", "d", "--table", "5"]);
    assert!(out == "refused program 10 2\n" && said.contains("; --table 65536 holds every program\n"), "{said}");
    assert_eq!(room.run(&["check", "p", "d", "--store", "6"]).1, "refused proof 34 1\n");
}

#[test]
fn sets() {
    let room = Room::of("sets");
    room.file("raw.aspif", "asp 1 0 0\n1 1 2 1 2 0 0\n1 0 1 3 0 1 1\n1 0 0 0 2 2 -1\n4 1 a 1 1\n0\n");
    assert_eq!(room.run(&["ground", "raw.aspif", "-o", "p.aspif"]).0, 0);
    let test = |words: &[&str]| room.run(&[&["test", "p.aspif"], words].concat());
    assert_eq!(test(&["3", "a", "1"]).1, "yes\n");
    let (status, out, said) = test(&["1"]);
    assert_eq!((status, out.as_str()), (10, "no atom 3\n"));
    assert!(said.contains("in the least model only"), "{said}");
    assert!(test(&["3"]).2.contains("in the set only"));
    let (status, out, said) = test(&["2"]);
    assert_eq!((status, out.as_str()), (10, "no rule 3\n"));
    assert!(said.contains("line 4 of the program:\n    1 0 0 0 2 2 -1\n    :- not a, #2."), "{said}");
    assert_eq!((test(&["9"]).0, test(&["9"]).1.as_str()), (20, "refused set 42\n"));
    assert_misuse(test(&["b"]), "`b` is neither");
}

// gringo names no atom of a fact: the names of all facts stand for their atoms.
#[test]
fn sets_with_facts() {
    let room = Room::of("facts");
    room.file("raw.aspif", "asp 1 0 0\n1 0 1 1 0 0\n1 0 1 2 0 0\n1 1 1 3 0 0\n1 0 0 0 1 -3\n4 1 c 1 3\n4 1 a 0\n4 1 b 0\n0\n");
    assert_eq!(room.run(&["ground", "raw.aspif", "-o", "p.aspif"]).0, 0);
    let test = |words: &[&str]| room.run(&[&["test", "p.aspif"], words].concat());
    room.tool("cadical", "echo 's SATISFIABLE'; echo 'v 1 2 3 4 -5 0'; exit 10");
    let found = room.run(&["prove", "p.aspif"]).1;
    assert_eq!(found, "answer set: c a b\n");
    let (status, out, said) = test(&found.split_whitespace().skip(2).collect::<Vec<_>>());
    assert_eq!((status, out.as_str()), (0, "yes\n"));
    assert!(said.ends_with("the atoms of facts without a name are in it: 1 2\n"), "{said}");
    assert_eq!(test(&["1", "2", "3"]).2, "an answer set: c a b\n");
    assert_eq!(test(&["a", "b"]).1, "no rule 4\n");
    assert_eq!(test(&["c"]).1, "no atom 1\n");
    assert_misuse(test(&["c", "a"]), "`a` is a fact, and `b` is one too");
}

/// A proof of lines that stand without their closing 0, with two spaces or more between them.
fn proof(lines: &str) -> String {
    lines.split("  ").map(|line| format!("{} 0\n", line.trim())).collect()
}

// The examples of docs/FORMAT.md.
#[test]
fn packets() {
    let room = Room::of("packets");
    room.file("p", NONE);
    room.file("d", proof("b 2 -1  c 2 1  s 1 2  a 1  a"));
    assert_eq!(room.run(&["packet", "write", "p", "d", "-o", "packet"]).1, "packet 57\n");
    let (status, out, _) = room.run(&["packet", "read", "packet", "--program", "p2", "--proof", "d2"]);
    assert_eq!((status, out.as_str()), (0, "packet 1 35\n"));
    for (name, same) in [("p", "p2"), ("d", "d2")] {
        assert_eq!(fs::read(room.0.join(name)).unwrap(), fs::read(room.0.join(same)).unwrap());
    }
    room.file("p", "asp 1 0 0\n1 0 0 1 1 1 1 1\n0\n");
    let (status, out, said) = room.run(&["packet", "write", "p", "d", "-o", "other"]);
    assert_eq!((status, out.as_str()), (20, "refused packet 53\n"));
    assert!(said.ends_with("send version 2\n"), "{said}");
    assert_eq!(room.files(), ["d", "d2", "p", "p2", "packet"]);
}

#[test]
fn packets_of_both_versions() {
    let room = Room::of("versions");
    room.file("p", NONE);
    room.file("d", proof("b 2 -1  c 2 1  s 1 2  a 1  a"));
    assert_eq!(room.run(&["packet", "write", "p", "d", "-o", "one", "--version", "1"]).1, "packet 57\n");
    assert_eq!(room.run(&["packet", "write", "p", "d", "-o", "two", "--version", "2"]).1, "packet 61\n");
    assert_eq!(room.run(&["packet", "up", "one", "-o", "up"]).1, "packet 61\n");
    let (status, out, _) = room.run(&["packet", "down", "up", "-o", "down", "--json"]);
    assert_eq!((status, out.as_str()), (0, "{\"command\": \"packet\", \"status\": 0, \"bytes\": 57, \"version\": 1}\n"));
    for (name, same) in [("two", "up"), ("one", "down")] {
        assert_eq!(fs::read(room.0.join(name)).unwrap(), fs::read(room.0.join(same)).unwrap());
    }
    // Each is read as the version that it names, or as the one told.
    let read = |packet: &str, more: &[&str]| room.run(&[&["packet", "read", packet, "--program", "p2", "--proof", "d2"], more].concat());
    assert_eq!(read("one", &[]).1, "packet 1 35\n");
    assert_eq!(read("two", &[]).1, "packet 1 35\n");
    assert_eq!(read("two", &["--version", "2"]).1, "packet 1 35\n");
    assert_eq!(read("two", &["--version", "1"]).1, "refused packet 51\n");
    assert_eq!(room.run(&["packet", "up", "two", "-o", "other"]).1, "refused packet 51\n");
    assert_eq!(room.run(&["packet", "down", "one", "-o", "other"]).1, "refused packet 51\n");
    room.file("p", "asp 1 0 0\n1 0 0 1 1 1 1 1\n0\n");
    assert_eq!(room.run(&["packet", "write", "p", "d", "-o", "weights", "--version", "2"]).0, 0);
    let (status, out, said) = room.run(&["packet", "down", "weights", "-o", "other"]);
    assert_eq!((status, out.as_str()), (20, "refused packet 61\n"));
    assert!(said.ends_with("to mend: it stays in version 2\n"), "{said}");
    assert_misuse(room.run(&["packet", "write", "p", "d", "-o", "other", "--version", "3"]), "--version takes 1 or 2, not `3`");
    assert_misuse(room.run(&["packet", "up", "one", "-o", "other", "--version", "2"]), "take no --version");
    assert_eq!(room.files(), ["d", "d2", "down", "one", "p", "p2", "two", "up", "weights"]);
}

#[test]
fn trims() {
    let room = Room::of("trims");
    room.file("p", NONE);
    room.file("d", proof("b 2 -1  c 2 1  s 1 2  e 3 2  a 1  a"));
    let (status, out, said) = room.run(&["trim", "p", "d", "-o", "out"]);
    assert_eq!((status, out.as_str()), (0, "inconsistent 1 1 5 6\n"));
    assert!(said.ends_with("1 of 6 steps went; what is left has 35 bytes\n"), "{said}");
    assert_eq!(fs::read_to_string(room.0.join("out")).unwrap(), proof("b 2 -1  c 2 1  s 1 2  a 1  a"));
    assert_eq!(room.run(&["check", "p", "out"]).1, out);
    assert!(room.run(&["trim", "p", "out", "--json"]).1.ends_with("\"nogoods\": 6, \"removed\": 0, \"bytes\": 35}\n"));
    room.file("refused", proof("b 2 -1  a 3"));
    let (status, out, said) = room.run(&["trim", "p", "refused", "-o", "other"]);
    assert_eq!((status, out.as_str()), (20, "refused trim 60\n"));
    assert!(said.starts_with("question 60, answered no: "), "{said}");
    assert!(
        said.contains("\nthe check of the proof says: refused proof 26 2\nstep 2 of the proof, column 3:\n    a 3 0\n      ^\n"),
        "{said}"
    );
    assert!(room.run(&["trim", "p", "refused", "--json"]).1.contains(r#""check": {"refused": "proof", "number": 26, "step": 2, "#));
    room.file("open", proof("b 2 -1"));
    assert!(room.run(&["trim", "p", "open", "-o", "other"]).2.contains("\nthe check of the proof says: open 1 1 1 2\n"));
    assert!(room.run(&["trim", "p", "d", "--store", "6", "-o", "other"]).2.contains("says: refused proof 34 1\n"));
    assert_eq!(room.run(&["trim", "d", "d", "-o", "other"]).1, "refused program 2 1\n");
    assert_eq!(room.files(), ["d", "open", "out", "p", "refused"]);
}

#[test]
fn merges() {
    let room = Room::of("merges");
    room.file("p", "asp 1 0 0\n1 1 2 1 2 0 0\n1 0 0 0 2 1 2\n1 0 0 0 2 1 -2\n1 0 0 0 2 -1 2\n1 0 0 0 2 -1 -2\n0\n");
    room.file("1", proof("b 3 -1  c 3  b 4 1 2  c 4  b 5 1 -2  c 5  e 6  a 2  d 2  a -2  a -1 2  a"));
    room.file("2", proof("b 4 1  c 4  b 3 -1 2  c 3  b 7 -1 -2  c 7  b 9 2 1  e 5 9 -3  a 1 2  a 9 -1  a 5 2  c 9  d 5 2  a"));
    let (status, out, said) = room.run(&["merge", "p", "1", "1", "2", "-o", "out"]);
    assert_eq!((status, out.as_str()), (0, "inconsistent 2 5 20 32\n"));
    assert!(said.ends_with("the merged proof has 167 bytes\n"), "{said}");
    assert_eq!(room.run(&["check", "p", "out"]).1, out);
    assert_eq!(room.run(&["merge", "p", "1", "1", "2", "--store", "123", "-o", "other"]).1, "refused merge 59\n");
    assert_eq!(room.files(), ["1", "2", "out", "p"]);
}

/// A program with five rules and more, the proofs of its halves at atom 1, and proofs that are refused and open.
fn halves(name: &str, more: &str) -> Room {
    let room = Room::of(name);
    let rules = "1 1 2 1 2 0 0\n1 0 0 0 2 1 2\n1 0 0 0 2 1 -2\n1 0 0 0 2 -1 2\n1 0 0 0 2 -1 -2\n";
    room.file("p", format!("asp 1 0 0\n{rules}{more}0\n"));
    room.file("first", proof("b 3 -1  c 3  b 4 1 2  c 4  b 5 1 -2  c 5  a 2  a -2  a"));
    room.file("second", proof("b 3 1  c 3  b 4 -1 2  c 4  b 5 -1 -2  c 5  a 2  a -2  a"));
    room.file("wrong", proof("b 3 -1  c 4"));
    room.file("open", proof("b 3 1 2"));
    assert_eq!(room.run(&["merge", "p", "1", "first", "second"]).0, 0);
    room
}

/// What is said of halves for which question 57 is answered no.
fn not_accepted(room: &Room, atom: &str, first: &str, second: &str) -> String {
    let (status, out, said) = room.run(&["merge", "p", atom, first, second, "-o", "out"]);
    assert_eq!((status, out.as_str()), (20, "refused merge 57\n"));
    assert_eq!(room.files(), ["first", "open", "p", "second", "wrong"]);
    said
}

// Question 57 names neither the atom nor a half: the check of each half does.
#[test]
fn halves_that_are_not_accepted() {
    let room = halves("halves", "");
    let check = |half: &str, added: &str| format!("the check of the {half} half, the program with `{added}` added, says: ");
    let (of_first, of_second) = (check("first", "1 0 0 0 1 -1"), check("second", "1 0 0 0 1 1"));
    let said = not_accepted(&room, "1", "wrong", "second");
    assert!(said.contains(&format!("{of_first}refused proof 26 2\nstep 2 of the proof, column 3:\n    c 4 0\n")), "{said}");
    assert!(!said.contains(&of_second) && !said.contains("the other way round"), "{said}");
    let said = not_accepted(&room, "1", "first", "open");
    assert!(said.contains(&format!("{of_second}open 2 6 1 3\n")) && !said.contains(&of_first), "{said}");
    let said = not_accepted(&room, "1", "second", "first");
    let both = [of_first, of_second].map(|of| format!("{of}refused proof 28 1\n"));
    assert!(both.iter().all(|line| said.contains(line)), "{said}");
    assert!(said.ends_with("\nthe other way round both are accepted: FIRST is the half that demands the atom\n"), "{said}");
    let (_, out, _) = room.run(&["merge", "p", "1", "wrong", "second", "--json"]);
    assert!(out.contains(r#", "first": {"refused": "proof", "number": 26, "step": 2, "#) && !out.contains(r#""second""#), "{out}");
}

#[test]
fn halves_that_are_none() {
    let room = halves("none", "");
    for atom in ["0", "3"] {
        assert!(not_accepted(&room, atom, "first", "second").ends_with(&format!("\n{atom} is no atom of the program; its largest is 2\n")));
    }
    let (_, out, _) = room.run(&["merge", "p", "3", "first", "second", "--json"]);
    assert!(out.ends_with(", \"reason\": \"3 is no atom of the program; its largest is 2\"}\n"), "{out}");
    // With a constraint more it has 1,025 rules, which a check of its own refuses.
    let room = halves("many", &"1 0 0 0 1 2\n".repeat(1_019));
    assert!(not_accepted(&room, "1", "open", "second").contains("\nwhich half it is cannot be told: "));
}

/// A program with the answer sets {1}, {2} and {1, 2}, and the proof that none costs less than 3 where 1 costs 3 and 2 costs 5.
const EITHER: &str = "asp 1 0 0\n1 1 2 1 2 0 0\n1 0 0 0 2 -1 -2\n0\n";
const NONE_BELOW: &str = "b 3 1  c 3  b 4 2  c 4  b 5 -1 -2  c 5  a";

// The worked cases of Change 12.
#[test]
fn cheapest_sets() {
    let room = Room::of("cheapest");
    room.file("p", EITHER);
    room.file("q", proof(NONE_BELOW));
    room.file("bad.aspif", proof(NONE_BELOW));
    let cheapest = |words: &str| room.run(&["cheapest"].into_iter().chain(words.split(' ')).collect::<Vec<_>>());
    for (words, status, line) in [
        ("p q --set 1 --costs 1=3 2=5", 0, "cheapest 3\n"),
        ("p q --costs 2=5 1=3 --set 1 --store 40 --table 12", 0, "cheapest 3\n"),
        ("p q --set 1 --costs 1=3 2=5 --store 39", 20, "refused cheapest 63\n"),
        ("p q --set 1 --costs 1=3 2=5 --table 11", 20, "refused program 10 3\n"),
        ("p q --set 2 --costs 1=3 2=5", 20, "refused cheapest 63\n"),
        ("p q --set --costs 1=3 2=5", 20, "refused cheapest 63\n"),
        ("p --set 1 --costs 1=3 2=5", 20, "refused cheapest 63\n"),
        ("p --set 1 --costs 2=5", 0, "cheapest 0\n"),
        ("p --set 1", 0, "cheapest 0\n"),
        ("p p --set 1 --costs 1=0 2=5", 0, "cheapest 0\n"),
        ("p --set 1 --costs -2=7", 20, "refused cheapest 63\n"),
        ("p q --set 3 --costs 1=3", 20, "refused cheapest 42\n"),
        ("p q --set 1 --costs 3=1", 20, "refused cheapest 62\n"),
        ("p q --set 1 --costs 1=1 -1=1", 20, "refused cheapest 62\n"),
        ("p q --set 1 2 --costs 1=4000 2=96", 20, "refused cheapest 62\n"),
        ("p q --set 1 2 --costs 1=4000 2=95", 20, "refused cheapest 63\n"),
        ("bad.aspif q --set 1", 20, "refused program 2 1\n"),
    ] {
        let (ended, out, said) = cheapest(words);
        assert_eq!((ended, out.as_str()), (status, line), "{words}");
        assert_eq!(said.contains("to mend: "), status == 20, "{words}: {said}");
    }
    assert!(cheapest("p q --set 1 --costs 1=3 2=5").2.starts_with("an answer set: 1\nit costs 3, and no answer set costs less"));
    assert!(cheapest("p q --set 1 --costs 3=1").2.ends_with("\n3 is over no atom of the program, whose largest is 2\n"));
    assert!(cheapest("p q --set 1 2 --costs 1=4000 2=96").2.ends_with("\nthe set costs 4096\n"));
    let many = format!("p q --set 1 --costs {} --json", "1=32767 ".repeat(70_000).trim_end());
    assert!(cheapest(&many).1.ends_with("\"reason\": \"70000 literals have a cost\"}\n"));
    let json = cheapest("p q --set 1 --costs 1=3 2=5 --json").1;
    assert_eq!(json, "{\"command\": \"cheapest\", \"status\": 0, \"answer\": \"cheapest\", \"cost\": 3, \"shown\": [\"1\"]}\n");
    assert_eq!(room.files(), ["bad.aspif", "p", "q"]);
}

// 63 has several reasons: which of them it is, is told.
#[test]
fn why_a_set_is_not_certified() {
    let room = Room::of("uncertified");
    room.file("p", EITHER);
    room.file("q", proof(NONE_BELOW));
    room.file("open", proof("b 3 1"));
    let cheapest = |words: &str| room.run(&["cheapest"].into_iter().chain(words.split(' ')).collect::<Vec<_>>());
    let (_, _, said) = cheapest("p q --set --costs 1=3 -o r");
    assert!(said.contains("\nthe set test says: no rule 2\nno answer set: a constraint is broken, line 3 of the program:\n"), "{said}");
    assert!(said.ends_with("\nr is not written: the set is no answer set, or does not cost 1 to 4095\n"), "{said}");
    assert!(cheapest("p q --costs 1=3 --json").1.contains(r#""test": {"answer": "no", "rule": 2, "line": 3, "#));
    let (_, _, said) = cheapest("p q --set 2 --costs 1=3 2=5");
    assert!(said.contains("costs 5; the proof is for the program and this constraint:\n    :- #sum { 3: #1; 5: #2 } >= 5.\n"), "{said}");
    assert!(said.contains("\nthe check of the proof for them says: refused proof 28 1\nstep 1 of the proof:\n    b 3 1 0\n"), "{said}");
    assert!(cheapest("p open --set 1 --costs 1=3 2=5").2.contains(" says: open 2 3 1 2\n"));
    assert!(cheapest("p q --set 1 --costs 1=3 2=5 --store 39 --json")
        .1
        .contains(r#""cost": 3, "check": {"refused": "proof", "number": 34, "#));
    // With the restriction it would be a text with 1,025 rules.
    room.file("many", format!("asp 1 0 0\n1 1 1 1 0 0\n{}0\n", "1 0 0 0 2 1 2\n".repeat(1_023)));
    let (status, _, said) = cheapest("many q --set 1 --costs 1=3");
    assert!(
        status == 20 && said.contains("\nwhat is wrong with the proof cannot be told: ") && said.ends_with(" (question 9)\n"),
        "{said}"
    );
    assert_eq!(room.files(), ["many", "open", "p", "q"]);
}

// Without a proof the restricted program is written, of which `prove` finds one, or a set that costs less.
#[test]
fn from_costs_to_a_certificate() {
    let room = Room::of("costs");
    room.file("raw.aspif", EITHER.replace("\n0\n", "\n4 4 a(1) 1 1\n4 3 b=c 1 2\n4 1 f 0\n0\n"));
    assert_eq!(room.run(&["ground", "raw.aspif", "-o", "p.aspif"]).0, 0);
    let cheapest = |words: &[&str]| room.run(&[&["cheapest", "p.aspif"], words].concat());
    let of_a = ["--set", "a(1)", "--costs", "a(1)=3", "b=c=5"];
    let (status, out, said) = cheapest(&[&of_a[..], &["-o", "r.aspif"]].concat());
    assert_eq!((status, out.as_str()), (20, "refused cheapest 63\n"));
    assert!(said.contains("\n    :- #sum { 3: a(1); 5: b=c } >= 3.\nno PROOF is given: "), "{said}");
    assert!(said.ends_with("\nthe program restricted to less than 3 is r.aspif\n"), "{said}");
    let text = fs::read_to_string(room.0.join("r.aspif")).unwrap();
    assert_eq!(text, EITHER.replace("\n0\n", "\n1 0 0 1 3 2 1 3 2 5\n0\n"));
    room.file("q", proof(NONE_BELOW));
    assert_eq!(room.run(&["check", "r.aspif", "q"]).1, "inconsistent 2 3 7 11\n");
    let (status, out, said) = cheapest(&[&["q"][..], &of_a].concat());
    assert_eq!((status, out.as_str()), (0, "cheapest 3\n"));
    assert!(said.contains("an answer set: a(1) f\nit costs 3"), "{said}");
    // Of a set that is not cheapest the restricted program has a cheaper one, by name.
    let (status, _, _) = cheapest(&["--set", "b=c", "--costs", "a(1)=3", "b=c=5", "-o", "r.aspif"]);
    room.tool("cadical", "echo 's SATISFIABLE'; echo 'v 1 -2 3 -4 -5 0'; exit 10");
    assert_eq!((status, room.run(&["prove", "r.aspif"]).1.as_str()), (20, "answer set: a(1) f\n"));
    assert_eq!(cheapest(&["--set", "a(1)", "b=c", "--costs", "not b=c=5"]).1, "cheapest 0\n");
    assert_misuse(cheapest(&["--set", "c", "--costs", "a(1)=3"]), "`c` is neither");
    assert_misuse(cheapest(&["--set", "a(1)", "--costs", "-a(1)=3"]), "`-a(1)` in `-a(1)=3` is over neither");
    for (place, part) in [("r.names", "is a place for names"), ("no/such/folder", "cannot be written"), (".", "cannot be written")] {
        assert_misuse(cheapest(&[&of_a[..], &["-o", place]].concat()), part);
    }
    assert_eq!(room.files(), ["p.aspif", "p.aspif.names", "q", "r.aspif", "r.aspif.names", "raw.aspif"]);
}

#[test]
fn trees() {
    let room = Room::of("trees");
    room.file("p", "asp 1 0 0\n1 1 7 1 2 3 4 5 6 7 0 0\n1 0 0 0 1 7\n1 0 0 0 1 -7\n0\n");
    room.file("e", proof("b 8 7  c 8  b 9 -7  c 9  a"));
    room.file("bad", proof("b 8 7  c 8  b 9 -7  c 9"));
    let (status, out, said) = room.run(&["tree", "p", "1,0,2,0,0", "e", "e", "e", "-o", "out"]);
    assert_eq!((status, out.as_str()), (0, "inconsistent 7 3 13 15\n"));
    assert!(said.ends_with("the merged proof has 89 bytes\n"), "{said}");
    assert_eq!(fs::read(room.0.join("out")).unwrap().len(), 89);
    assert_eq!(room.run(&["check", "p", "out"]).1, out);
    // a tree of one end is written as it stands
    assert_eq!(room.run(&["tree", "p", "0", "e", "-o", "out"]).0, 0);
    assert_eq!(fs::read(room.0.join("out")).unwrap(), fs::read(room.0.join("e")).unwrap());
    for (words, line) in [
        (&["tree", "p", "1,0,2,0,0", "e", "e"][..], "refused merge 64\n"),
        (&["tree", "p", "", "e"], "refused merge 64\n"),
        (&["tree", "p", "0"], "refused merge 64\n"),
        (&["tree", "p", "9,0,0", "e", "e"], "refused merge 64\n"),
        (&["tree", "p", "1,0,2,0,0", "e", "e", "e", "--store", "49"], "refused merge 59\n"),
        (&["tree", "e", "", "bad"], "refused program 2 1\n"),
    ] {
        let (status, out, said) = room.run(&[words, &["-o", "other"]].concat());
        assert!(status == 20 && out == line && said.contains("to mend: "), "{words:?}: {status} {out} {said}");
    }
    let (_, _, said) = room.run(&["tree", "p", "1,0,2,0,0", "e", "e"]);
    assert!(said.ends_with("the tree has 3 ends, and 2 proofs are given\n"), "{said}");
    let (status, out, said) = room.run(&["tree", "p", "1,0,2,0,0", "e", "bad", "e", "-o", "other"]);
    assert_eq!((status, out.as_str()), (20, "refused merge 57\n"));
    assert!(said.contains("the check of end 2 for the program with -1, 2 demanded says: open 7 5 4 6\n"), "{said}");
    let (_, out, _) = room.run(&["tree", "p", "1,0,2,0,0", "e", "bad", "e", "--json"]);
    assert!(out.contains(r#""number": 57"#) && out.contains(r#""end": 2, "path": [-1, 2], "check": {"verdict": "open""#), "{out}");
    let (_, out, _) = room.run(&["tree", "p", "1,0,0", "e", "e", "--json"]);
    assert!(out.contains(r#""command": "tree", "status": 0, "verdict": "inconsistent""#) && out.contains(r#""bytes": "#), "{out}");
    assert_eq!(room.files(), ["bad", "e", "out", "p"]);
}

#[test]
fn misuse() {
    let room = Room::of("misuse");
    room.file("p", NONE);
    for (words, part) in [
        (&[][..], "which subcommand"),
        (&["prof"], "no subcommand `prof`"),
        (&["check"], "too few operands"),
        (&["check", "p", "p", "p"], "too many operands"),
        (&["check", "p", "p", "--stor", "1"], "no option `--stor`"),
        (&["check", "p", "p", "--store", "many"], "--store takes a number"),
        (&["check", "p", "missing"], "missing cannot be read: No such file"),
        (&["check", ".", "p"], ". cannot be read: Is a directory"),
        (&["prove", "."], ". cannot be read: Is a directory"),
        (&["ground", "missing.lp"], "missing.lp cannot be read"),
        (&["ground", "p", "-o", "out.names"], "out.names is a place for names"),
        (&["merge", "p", "x", "p", "p"], "`x` is no atom's number"),
        (&["tree", "p", "1,x,0", "p", "p"], "`x` is no number of a tree"),
        (&["tree", "p"], "too few operands"),
        (&["packet", "send", "p", "p"], "aspdrupe packet write"),
        (&["packet", "write", "p", "p"], "-o names the packet"),
        (&["packet", "up", "p"], "-o names the packet"),
        (&["packet", "down", "missing", "-o", "p"], "missing cannot be read"),
        (&["trim", "p"], "too few operands"),
        (&["cheapest", "--set", "p"], "too few operands"),
        (&["cheapest", "p", "p", "p"], "too many operands"),
        (&["cheapest", "p", "missing", "--set", "1"], "missing cannot be read"),
        (&["cheapest", "p", "--set", "1", "--costs", "1"], "`1` is no LITERAL=COST"),
        (&["cheapest", "p", "--set", "1", "--costs", "1=many"], "`many` in `1=many` is no cost"),
        (&["cheapest", "p", "--set", "1", "--set", "1"], "`--set` stands twice"),
        (&["check", "p", "p", "--set", "1"], "no option `--set`"),
    ] {
        assert_misuse(room.run(words), part);
    }
}

#[test]
fn json_and_help_everywhere() {
    let room = Room::of("everywhere");
    room.file("p", NONE);
    let (status, out, _) = room.run(&["check", "p", "missing", "--json"]);
    assert!(status == 2 && out.starts_with(r#"{"command": "check", "status": 2, "error": "missing cannot"#), "{out}");
    for (words, part) in [
        (&["--help"][..], "aspdrupe: from a program"),
        (&["help"], "aspdrupe: from a program"),
        (&["prove", "--help"], "aspdrupe prove PLAN.lp|PROGRAM.aspif "),
        (&["help", "prove"], "aspdrupe prove PLAN.lp|PROGRAM.aspif "),
        (&["packet", "x", "-h"], "aspdrupe packet write "),
        (&["--version"], "aspdrupe "),
        (&["--json", "--help"], r#"{"command": "", "status": 0, "text": "aspdrupe: from"#),
        (&["test", "--json", "--help"], r#"{"command": "test", "status": 0, "text": "aspdrupe test "#),
    ] {
        let (status, out, said) = room.run(words);
        assert!(status == 0 && out.starts_with(part) && said.is_empty(), "{words:?} {out}");
    }
    // Before the subcommand or behind it, but no operand.
    room.file("--json", "");
    assert!(room.run(&["--json", "check", "p", "missing"]).1.starts_with(r#"{"command": "check", "status": 2"#));
    assert_eq!(room.run(&["check", "--", "p", "--json"]).1, "open 1 1 0 0\n");
    assert_misuse(room.run(&["--table", "check"]), "no subcommand `--table`");
}

#[test]
fn noise_and_limits() {
    let room = Room::of("noise");
    let noise: Vec<u8> = (0..10_000_000u32).map(|place| (place.wrapping_mul(2_654_435_761) >> 13) as u8).collect();
    room.file("noise", &noise);
    room.file("noise.aspif", [b"noise\n5 1 2\n", &noise[..]].concat());
    room.file("p", NONE);
    let rules = "1 0 0 0 1 1\n".repeat(1_025);
    room.file("many", format!("asp 1 0 0\n{rules}0\n"));
    for (words, status, line) in [
        (&["check", "noise", "noise"][..], 20, "refused program 1 0\n"),
        (&["check", "p", "noise"], 20, "refused proof 22 1\n"),
        (&["check", "noise", "p"], 20, "refused program 1 0\n"),
        (&["test", "many"], 20, "refused program 9 1026\n"),
        (&["prove", "many"], 20, "refused program 9 1026\n"),
        (&["ground", "many", "-o", "out"], 20, "refused program 9 1026\n"),
        (&["prove", "noise.aspif", "-o", "out"], 20, "refused program 1 0\n"),
        (&["ground", "noise.aspif", "-o", "out"], 20, "refused program 1 0\n"),
        (&["cheapest", "p", "noise", "--set", "1"], 20, "refused cheapest 63\n"),
        (&["packet", "read", "noise", "--program", "out", "--proof", "out2"], 20, "refused packet 51\n"),
        (&["packet", "up", "noise", "-o", "out"], 20, "refused packet 51\n"),
        (&["packet", "down", "noise", "-o", "out"], 20, "refused packet 51\n"),
        (&["merge", "p", "1", "noise", "p", "-o", "out"], 20, "refused merge 57\n"),
        (&["tree", "p", "1,0,0", "noise", "p", "-o", "out"], 20, "refused merge 57\n"),
        (&["trim", "p", "noise", "-o", "out"], 20, "refused trim 60\n"),
        (&["trim", "noise", "p", "-o", "out"], 20, "refused program 1 0\n"),
    ] {
        let (ended, out, said) = room.run(words);
        assert_eq!((ended, out.as_str()), (status, line), "{words:?} {said}");
    }
    assert_eq!(room.files(), ["many", "noise", "noise.aspif", "p"]);
}

#[test]
fn tools_that_are_missing() {
    let room = Room::of("missing");
    room.file("plan.lp", "a.");
    room.file("p.aspif", NONE);
    assert_misuse(room.run(&["ground", "plan.lp", "-o", "out"]), "gringo is not installed: it is in the Debian package `gringo`");
    assert_misuse(room.run(&["prove", "p.aspif", "-o", "out"]), "cadical is not installed: it is in the Debian package `cadical`");
    assert_eq!(room.files(), ["p.aspif", "plan.lp"]);
}

#[test]
fn a_grounder_that_complains() {
    let room = Room::of("grounder");
    room.file("plan.lp", "a :- ");
    room.tool("gringo", "echo 'plan.lp:1:6-7: error: syntax error' >&2; echo 'more' >&2; exit 65");
    let (status, out, said) = room.run(&["prove", "plan.lp"]);
    assert_eq!((status, out.as_str()), (20, ""));
    assert_eq!(said, "gringo does not ground plan.lp: plan.lp:1:6-7: error: syntax error\n");
    room.tool("gringo", "echo 'more' >&2; echo '*** ERROR: (gringo): out of memory' >&2; exit 33");
    assert_eq!(room.run(&["prove", "plan.lp"]).2, "gringo does not ground plan.lp: *** ERROR: (gringo): out of memory\n");
    for (statement, part) in [("5 1 2", "external"), ("1 0 2 1 2 0 0", "disjunctive")] {
        room.tool("gringo", &format!("printf 'asp 1 0 0\\n{statement}\\n0\\n'"));
        let (status, _, said) = room.run(&["ground", "plan.lp", "-o", "out"]);
        assert!(status == 20 && said.contains(part), "{said}");
    }
    room.tool("gringo", "printf 'asp 1 0 0\\n0\\n'; printf 'plan.lp:1:6-7: info: no head:\\n  b\\n\\n' >&2");
    assert_eq!(room.run(&["ground", "plan.lp"]).2, "gringo: plan.lp:1:6-7: info: no head:\ngringo:   b\n");
    room.tool("gringo", "while :; do echo '10 again and again and again and again and again'; done");
    assert!(room.run(&["ground", "plan.lp"]).2.contains("more than 16777216 bytes"));
    assert_eq!(room.files(), ["plan.lp"]);
}

// A plan that can be read once only, or that gringo cannot open as the command does, is handed on as it was read.
#[test]
fn a_plan_that_is_no_regular_file() {
    let room = Room::of("pipes");
    let plan = room.file("plan.lp", "1 1 1 1 0 0");
    // As if gringo read rules: what it is given stands between header and end.
    room.tool("gringo", r#"shift; echo 'asp 1 0 0'; if [ "$1" = - ]; then read line; else read line < "$1"; fi; echo "$line"; echo 0"#);
    let expected = (0, String::from("asp 1 0 0\n1 1 1 1 0 0\n0\n"), String::new());
    let ground = |path: &str, input: Stdio| ended(room.command(&["ground", path]).stdin(input).output().unwrap());
    assert_eq!(ground("plan.lp", Stdio::null()), expected);
    assert_eq!(ground("/dev/stdin", fs::File::open(&plan).unwrap().into()), expected);
    let mut cat = Command::new("/bin/cat").arg(&plan).stdout(Stdio::piped()).spawn().unwrap();
    assert_eq!(ground("/dev/stdin", cat.stdout.take().unwrap().into()), expected);
    cat.wait().unwrap();
    assert!(Command::new("/usr/bin/mkfifo").arg(room.0.join("fifo")).status().unwrap().success());
    let mut cat = Command::new("/bin/sh").args(["-c", "/bin/cat plan.lp > fifo"]).current_dir(&room.0).spawn().unwrap();
    assert_eq!(ground("fifo", Stdio::null()), expected);
    cat.wait().unwrap();
    // What is not read whole is not handed on.
    room.file("plan.lp", vec![b' '; (1 << 24) + 1]);
    let (status, _, said) = ground("/dev/stdin", fs::File::open(&plan).unwrap().into());
    assert!(status == 20 && said.contains("more than 16777216 bytes"), "{said}");
}

// An empty ground program is refused, as by `check`; gringo is asked for plans only.
#[test]
fn the_ending_says_what_is_ground() {
    let room = Room::of("endings");
    room.tool("gringo", "echo 'asp 1 0 0'; echo 0");
    for text in ["", "a.", "asp 2 0 0\n0\n"] {
        room.file("p.aspif", text);
        for words in [
            &["prove", "p.aspif"][..],
            &["test", "p.aspif"],
            &["cheapest", "p.aspif"],
            &["ground", "p.aspif"],
            &["check", "p.aspif", "p.aspif"],
        ] {
            let (status, out, _) = room.run(words);
            assert_eq!((status, out.as_str()), (20, "refused program 2 1\n"), "{words:?} {text:?}");
        }
    }
    for (name, text, is_plan) in
        [("p.lp", GOOD, true), ("p.lp", "", true), ("p", "", true), ("p", GOOD, false), ("p.txt", "asp :- b.", true)]
    {
        room.file(name, text);
        let expected = if is_plan { "asp 1 0 0\n0\n" } else { GOOD };
        assert_eq!(room.run(&["ground", name]).1, expected, "{name} {text:?}");
    }
}

#[test]
fn what_is_ground() {
    let room = Room::of("ground");
    room.file("plan.lp", "");
    room.tool("gringo", "printf 'asp 1 0 0\\n1 1 1 1 0 0\\n2 0 1 1 1\\n4 1 a 1 1\\n0\\n'");
    let (status, out, said) = room.run(&["ground", "plan.lp", "-o", "out.aspif"]);
    assert_eq!((status, out.as_str()), (0, "ground 1 1\n"));
    assert!(said.starts_with("dropped, which cannot matter: 1 minimize statements; "), "{said}");
    assert!(said.ends_with("\n1 output statements, which name atoms, are kept beside it\n"), "{said}");
    assert_eq!(fs::read_to_string(room.0.join("out.aspif")).unwrap(), "asp 1 0 0\n1 1 1 1 0 0\n0\n");
    assert_eq!(room.run(&["test", "out.aspif", "a"]).2, "an answer set: a\n");
    for words in [&["ground", "plan.lp"][..], &["ground", "plan.lp", "-o", "/dev/stdout"]] {
        let (_, out, said) = room.run(words);
        assert!(out.starts_with("asp 1 0 0\n1 1 1 1 0 0\n0\n"), "{out}");
        assert!(said.contains("\ndropped, which cannot matter: 1 output statements; "), "{said}");
    }
    assert_eq!(room.files(), ["out.aspif", "out.aspif.names", "plan.lp"]);
}

#[test]
fn names_are_of_their_program() {
    let room = Room::of("names");
    room.file("plan.lp", "");
    for (name, term) in [("w.1", "a"), ("w.2", "b")] {
        room.tool("gringo", &format!("printf 'asp 1 0 0\\n1 1 1 1 0 0\\n4 1 {term} 1 1\\n0\\n'"));
        assert_eq!(room.run(&["ground", "plan.lp", "-o", name]).0, 0);
    }
    assert_eq!(room.run(&["test", "w.1", "a"]).2, "an answer set: a\n");
    assert_eq!(room.run(&["test", "w.2", "b"]).2, "an answer set: b\n");
    // Of another program the names are not used.
    room.file("w.1", GOOD);
    let (status, _, said) = room.run(&["test", "w.1", "1"]);
    assert_eq!(status, 0);
    assert!(said.starts_with("w.1.names is not of this program") && said.ends_with("\nan answer set: 1\n"), "{said}");
    assert!(room.run(&["prove", "w.1"]).2.starts_with("w.1.names is not of this program"));
    // Another file is not overwritten, and nothing is written beside it.
    room.file("own.names", "mine");
    assert_misuse(room.run(&["ground", "plan.lp", "-o", "own"]), "own.names is no file of names");
    assert_eq!(fs::read_to_string(room.0.join("own.names")).unwrap(), "mine");
    assert_eq!(room.run(&["ground", "plan.lp", "-o", "w.1"]).0, 0);
    assert_eq!(room.run(&["test", "w.1", "b"]).2, "an answer set: b\n");
    assert_eq!(room.files(), ["own.names", "plan.lp", "w.1", "w.1.names", "w.2", "w.2.names"]);
}

// Nothing is believed of what a solver says: a model is tested, a log is checked.
#[test]
fn a_solver_that_errs() {
    let room = Room::of("solver");
    room.file("good.aspif", GOOD);
    room.file("none.aspif", NONE);
    for (script, program, part) in [
        ("echo 0; exit 20", "good.aspif", "does not follow by propagation"),
        ("echo 's SATISFIABLE'; echo 'v -1 2 -3 0'; exit 10", "good.aspif", "model is none of the completion"),
        ("echo 's SATISFIABLE'; echo 'v 1 2 0'; exit 10", "none.aspif", "no loop of it is new"),
        ("echo 's SATISFIABLE'; echo 'v 9999999999 0'; exit 10", "none.aspif", "not understood"),
        ("echo noise; exit 20", "none.aspif", "not understood"),
        ("echo '9 0'; exit 20", "none.aspif", "not understood"),
        ("echo 'out of memory' >&2; exit 1", "none.aspif", "without an answer: out of memory"),
        ("exit 0", "none.aspif", "without an answer"),
    ] {
        room.tool("cadical", script);
        assert_misuse(room.run(&["prove", program, "-o", "out"]), part);
    }
    room.tool("cadical", "echo '-1 0'; echo 0; echo 's UNSATISFIABLE'; exit 20");
    assert_eq!(room.run(&["prove", "none.aspif", "-o", "out"]).1, "inconsistent 1 1 5 6\n");
    assert_eq!(room.run(&["check", "none.aspif", "out"]).1, "inconsistent 1 1 5 6\n");
    room.tool("cadical", "echo 's SATISFIABLE'; echo 'v 1 2 -3 0'; exit 10");
    assert_eq!(room.run(&["prove", "good.aspif"]).1, "answer set: 1\n");
    assert_eq!(room.files(), ["good.aspif", "none.aspif", "out"]);
}

#[test]
fn outputs_that_cannot_be_written() {
    let room = Room::of("outputs");
    room.file("p.aspif", NONE);
    room.tool("cadical", "echo '-1 0'; echo 0; exit 20");
    assert_misuse(room.run(&["ground", "p.aspif", "-o", "/dev/full"]), "/dev/full cannot be written: No space left on device");
    assert_misuse(room.run(&["ground", "p.aspif", "-o", "."]), ". cannot be written: is a directory");
    assert_misuse(room.run(&["ground", "p.aspif", "-o", "no/such/folder"]), "cannot be written: No such file");
    assert_misuse(room.run(&["prove", "p.aspif", "-o", "no/such/folder"]), "cannot be written: No such file");
    assert_eq!(room.files(), ["p.aspif"]);
    let full = fs::OpenOptions::new().write(true).open("/dev/full").unwrap();
    let (status, _, said) = ended(room.command(&["prove", "p.aspif"]).stdout(full).output().unwrap());
    assert_eq!((status, said.as_str()), (2, "the answer cannot be written: No space left on device\n"));
    // Of two outputs both are written or none.
    room.file("d", "a 0\n");
    assert_eq!(room.run(&["packet", "write", "p.aspif", "d", "-o", "packet"]).0, 0);
    for proof in ["no/such/folder", ".", "/dev/full"] {
        assert_misuse(room.run(&["packet", "read", "packet", "--program", "new", "--proof", proof]), "cannot be written");
    }
    assert_eq!(room.files(), ["d", "p.aspif", "packet"]);
}

// Where both go to one place, the result comes first.
#[test]
fn results_before_words() {
    let room = Room::of("order");
    room.file("p", NONE);
    room.file("d", "");
    let both = fs::File::create(room.0.join("both")).unwrap();
    let status = room.command(&["check", "p", "d"]).stdout(both.try_clone().unwrap()).stderr(both).status().unwrap();
    assert_eq!(status.code(), Some(10));
    assert!(fs::read_to_string(room.0.join("both")).unwrap().starts_with("open 1 1 0 0\nevery step is good"));
}

/// Atoms in rows: the first row is demanded, each row demands the next, and the last is forbidden. Every rule is needed.
fn rows(count: usize) -> String {
    const WIDTH: usize = 20;
    let row = |place: usize| (place * WIDTH + 1..=(place + 1) * WIDTH).map(|atom| atom.to_string()).collect::<Vec<_>>();
    let all: String = (0..=count).map(|place| format!("1 1 {WIDTH} {} 0 0\n", row(place).join(" "))).collect();
    let first: String = row(0).iter().map(|atom| format!("1 0 0 0 1 -{atom}\n")).collect();
    let demanded = |place: usize| -> String {
        row(place).iter().map(|atom| format!("1 0 0 0 {} {} -{atom}\n", WIDTH + 1, row(place - 1).join(" "))).collect()
    };
    let others: String = (1..=count).map(demanded).collect();
    format!("asp 1 0 0\n{all}{first}{others}1 0 0 0 {WIDTH} {}\n0\n", row(count).join(" "))
}

/// What is said of a proof that only the long check takes.
const LONG: &str = "`verdict`, and a service of document 01, would refuse it with 21";

// A proof beyond a text goes to the long check, and one beyond the store is the library's refusal, as docs/COMMAND.md and the help say.
#[test]
fn proofs_beyond_the_limits() {
    let room = Room::of("limits");
    room.file("p.aspif", rows(33));
    room.file("none.aspif", NONE);
    room.tool("cadical", "echo 0; exit 20");
    let line = "inconsistent 680 715 1363 15263\n";
    let (status, out, said) = room.run(&["prove", "p.aspif", "--table", "65536", "-o", "d"]);
    assert_eq!((status, out.as_str()), (0, line), "{said}");
    assert!(said.contains(LONG), "{said}");
    let (status, out, said) = room.run(&["check", "p.aspif", "d", "--table", "65536"]);
    assert_eq!((status, out.as_str()), (0, line), "{said}");
    assert!(said.contains(LONG), "{said}");
    let (_, json, _) = room.run(&["check", "p.aspif", "d", "--table", "65536", "--json"]);
    assert!(json.contains("\"verdict\": \"inconsistent\"") && json.contains("\"service\": \"check_long\""), "{json}");
    for command in ["check", "prove"] {
        let words =
            [&[command, "p.aspif"][..], if command == "check" { &["d"] } else { &[] }, &["--table", "65536", "--store", "9"]].concat();
        let (status, out, said) = room.run(&words);
        assert!(status == 20 && out.starts_with("refused proof 34 "), "{out} {said}");
    }
    fs::remove_file(room.0.join("d")).unwrap();
    room.tool("cadical", "echo '-1 0'; echo 0; exit 20");
    let (status, out, _) = room.run(&["prove", "none.aspif", "--store", "6", "-o", "d"]);
    assert_eq!((status, out.as_str()), (20, "refused proof 34 1\n"));
    assert_eq!(room.files(), ["none.aspif", "p.aspif"]);
    let page = fs::read_to_string(concat!(env!("CARGO_MANIFEST_DIR"), "/../docs/COMMAND.md")).unwrap().replace('\n', " ");
    assert!(page.contains("A proof beyond 65,535 bytes goes to the long check") && page.contains("beyond the store (34)"));
}

// The rest of the texts' questions is put to a long proof too, and a proof that is to certify stays within a text.
#[test]
fn long_proofs_that_do_not_do() {
    let room = Room::of("long");
    room.file("p", NONE);
    let idle = "d 1 0\n".repeat(11_000);
    for (name, end, status, line) in [
        ("open", "", 10, "open 1 1 11000 0\n"),
        ("bad", "a 1 0\n", 20, "refused proof 33 11001\n"),
        ("cut", "a 1", 20, "refused proof 22 11001\n"),
    ] {
        room.file(name, format!("{idle}{end}"));
        let (ended, out, said) = room.run(&["check", "p", name]);
        assert_eq!((ended, out.as_str()), (status, line), "{said}");
        assert!(said.contains(LONG), "{said}");
    }
    room.file("choice.aspif", "asp 1 0 0\n1 1 2 1 2 0 0\n1 0 0 0 2 -1 -2\n0\n");
    room.file("below", format!("{idle}b 3 1 0\nc 3 0\nb 4 2 0\nc 4 0\nb 5 -1 -2 0\nc 5 0\na 0\n"));
    let (status, out, said) = room.run(&["cheapest", "choice.aspif", "below", "--set", "1", "--costs", "1=3", "2=5"]);
    assert_eq!((status, out.as_str()), (20, "refused cheapest 63\n"));
    assert!(said.contains("at most 65535 bytes, and this one has") && said.contains("says: inconsistent 2 3 11007 11"), "{said}");
}

#[test]
fn a_search_that_is_stopped() {
    let room = Room::of("stopped");
    room.file("p.aspif", NONE);
    room.tool("cadical", "case \"$*\" in *'-t 3'*) echo '-1 0'; exit 0;; esac; exit 1");
    let (status, out, said) = room.run(&["prove", "p.aspif", "--time", "3"]);
    assert_eq!((status, out.as_str()), (10, "undecided\n"), "{said}");
    assert!(said.contains("stopped after the 3 seconds of --time, with 1 clauses learned"), "{said}");
    assert_misuse(room.run(&["prove", "p.aspif", "--time", "soon"]), "--time takes a number of seconds");
    assert_misuse(room.run(&["prove", "p.aspif"]), "cadical ended without an answer");
}

#[test]
fn what_a_proof_is_of() {
    let room = Room::of("proof-of");
    room.file("plan.lp", "a :- not a.");
    room.file("none.aspif", NONE);
    room.tool("gringo", "printf 'asp 1 0 0\\n1 0 1 1 0 1 -1\\n4 1 a 1 1\\n0\\n'");
    room.tool("cadical", "echo '-1 0'; echo 0; exit 20");
    for (name, of) in [
        ("plan.lp", "\nthe proof is of the ground program, which `aspdrupe ground plan.lp -o OUT.aspif` writes\n"),
        ("none.aspif", "and needs a store of 21 words\n"),
    ] {
        let (status, out, said) = room.run(&["prove", name, "-o", "d"]);
        assert_eq!((status, out.as_str()), (0, "inconsistent 1 1 5 6\n"));
        assert!(said.ends_with(of), "{said}");
    }
}

// What the library refuses of a ground file `prove`, `test` and `cheapest` refuse too, with the line that `check` prints.
#[test]
fn a_ground_file_is_taken_as_it_is() {
    let room = Room::of("as-it-is");
    room.file("d", "");
    for line in [
        "1 0 1 2 0 2 02 +2",
        "1 7 1 2 0 2 3 3",
        "1 7 1 2 0 2 3 -3",
        "1 0 1 2 0 2 3 -3",
        "1 0 1 2 0 2 3 3",
        "1 0 2 1 2 0 0",
        "2 0 1 6 1",
        "4 1 a 1 1",
        "5 1 2",
        "10 note",
        "noise",
    ] {
        room.file("p.aspif", format!("asp 1 0 0\n1 0 1 1 0 1 -1\n{line}\n0\n"));
        let (status, refused, _) = room.run(&["check", "p.aspif", "d"]);
        assert!(status == 20 && refused.starts_with("refused program ") && refused.ends_with(" 3\n"), "{line} {refused}");
        for words in [&["prove", "p.aspif"][..], &["test", "p.aspif", "1"], &["cheapest", "p.aspif", "--set", "1"]] {
            let (status, out, said) = room.run(words);
            assert_eq!((status, out), (20, refused.clone()), "{words:?} {line}");
            // `ground` mends some of them.
            let (mended, _, _) = room.run(&["ground", "p.aspif"]);
            let told = said.ends_with("\n`aspdrupe ground p.aspif -o OUT.aspif` drops what cannot matter, and OUT.aspif is taken\n");
            assert_eq!(mended == 0, told, "{line} {said}");
        }
    }
    for text in
        ["", "asp 1 0 0", "asp 1 0 0\n", "asp 1 0 0\n1 1 1 1 0 0\n", "asp 1 0 0\n0", "asp 1 0 0\n0\n0\n", "asp 1 0 0\n0\n4 1 a 1 1\n"]
    {
        room.file("p.aspif", text);
        let (_, refused, _) = room.run(&["check", "p.aspif", "d"]);
        assert!(refused.starts_with("refused program "), "{text:?}");
        assert_eq!(room.run(&["prove", "p.aspif"]).1, refused, "{text:?}");
    }
    room.file("long.aspif", vec![b' '; (1 << 24) + 2]);
    assert_eq!(room.run(&["prove", "long.aspif"]).1, "refused program 1 0\n");
    assert_eq!(room.files(), ["d", "long.aspif", "p.aspif"]);
}

// A refusal names the line of the file given, or of what gringo wrote.
#[test]
fn lines_of_the_text_given() {
    let room = Room::of("lines");
    let raw = "asp 1 0 0\n4 1 a 1 1\n10 note\n1 0 1 9000 0 0\n0\n";
    room.file("plan.lp", "a.");
    room.file("raw.aspif", raw);
    room.file("ends.aspif", "asp 1 0 0\n10 note\n1 0 1 1 0 0\n10 note\n");
    room.tool("gringo", &format!("printf '{}'", raw.replace('\n', "\\n")));
    let (status, out, said) = room.run(&["ground", "raw.aspif"]);
    assert_eq!((status, out.as_str()), (20, "refused program 4 4\n"));
    assert!(said.contains("line 4 of the program, column 7:\n    1 0 1 9000 0 0\n"), "{said}");
    assert_eq!(room.run(&["ground", "ends.aspif"]).1, "refused program 3 5\n");
    for way in ["prove", "test", "cheapest", "ground"] {
        let (_, out, said) = room.run(&[way, "plan.lp"]);
        assert_eq!(out, "refused program 4 4\n", "{way}");
        assert!(said.contains("line 4 of the ground program, column 7:\n"), "{said}");
    }
    assert!(room.run(&["test", "plan.lp", "--json"]).1.contains(r#""line": 4, "column": 7"#));
}

#[test]
fn inputs_are_not_written_over() {
    let room = Room::of("inputs");
    room.file("p.aspif", NONE);
    room.file("d", proof("b 2 -1  c 2 1  s 1 2  a 1  a"));
    assert_eq!(room.run(&["packet", "write", "p.aspif", "d", "-o", "packet"]).0, 0);
    std::os::unix::fs::symlink("p.aspif", room.0.join("link")).unwrap();
    fs::create_dir(room.0.join("folder")).unwrap();
    let before: Vec<_> = ["p.aspif", "d", "packet"].map(|name| fs::read(room.0.join(name)).unwrap()).into();
    for words in [
        &["ground", "p.aspif", "-o", "./p.aspif"][..],
        &["ground", "p.aspif", "-o", "link"],
        &["prove", "link", "-o", "p.aspif"],
        &["trim", "p.aspif", "d", "-o", "d"],
        &["trim", "p.aspif", "d", "-o", "folder/../p.aspif"],
        &["cheapest", "p.aspif", "d", "-o", "d"],
        &["cheapest", "p.aspif", "-o", "link"],
        &["merge", "p.aspif", "1", "d", "d", "-o", "d"],
        &["tree", "p.aspif", "1,0,0", "d", "d", "-o", "d"],
        &["tree", "p.aspif", "0", "d", "-o", "link"],
        &["packet", "write", "p.aspif", "d", "-o", "d"],
        &["packet", "up", "packet", "-o", "packet"],
        &["packet", "read", "packet", "--program", "packet", "--proof", "new"],
        &["packet", "read", "packet", "--program", "new", "--proof", "./new"],
        &["packet", "read", "packet", "--program", "new", "--proof", "folder/../new"],
    ] {
        assert_misuse(room.run(words), "is an input or another output");
    }
    let after: Vec<_> = ["p.aspif", "d", "packet"].map(|name| fs::read(room.0.join(name)).unwrap()).into();
    assert_eq!(before, after);
    // A device takes both, and an atom's number is no file.
    assert_eq!(room.run(&["packet", "read", "packet", "--program", "/dev/null", "--proof", "/dev/null"]).0, 0);
    room.file("1", "");
    assert_eq!(room.run(&["merge", "p.aspif", "1", "d", "d", "-o", "1"]).0, 0);
    assert_eq!(room.files(), ["1", "d", "folder", "link", "p.aspif", "packet"]);
}

/// The command as a process group of its own, with signals as a terminal's foreground has them, also where the tests are run in the background.
fn in_foreground(room: &Room, words: &[&str]) -> Child {
    let mut command = Command::new("/usr/bin/env");
    command.args(["--default-signal=HUP,INT,TERM", env!("CARGO_BIN_EXE_aspdrupe")]).args(words);
    command.current_dir(&room.0).env("PATH", room.0.join("tools")).process_group(0);
    command.stdin(Stdio::null()).stdout(Stdio::piped()).stderr(Stdio::piped()).spawn().unwrap()
}

extern "C" {
    fn kill(to: i32, signal: i32) -> i32;
}

const HUP: i32 = 1;
const INT: i32 = 2;
const TERM: i32 = 15;
const CONT: i32 = 18;
const STOP: i32 = 19;

/// Sends a signal to a process that was started here, or to its group.
fn send(signal: i32, running: &Child, to_group: bool) {
    let number = running.id() as i32;
    // SAFETY: it touches no memory of ours.
    assert_eq!(unsafe { kill(if to_group { -number } else { number }, signal) }, 0);
}

fn wait_until(is_so: impl Fn() -> bool) {
    let started = Instant::now();
    while !is_so() {
        assert!(started.elapsed() < Duration::from_secs(60));
        std::thread::sleep(Duration::from_micros(200));
    }
}

const INTERRUPTED: &str = "interrupted: there is no answer, and no file is left half-written\n";

#[test]
fn interrupted_while_a_tool_runs() {
    let room = Room::of("interrupted");
    room.file("p.aspif", NONE);
    room.file("plan.lp", "a.");
    let number = room.0.join("tools/number");
    for tool in ["gringo", "cadical"] {
        room.tool(tool, &format!("echo $$ >'{0}.new'; /bin/mv '{0}.new' '{0}'; exec /bin/sleep 60", number.display()));
    }
    // A ctrl-C at a terminal goes to the whole group.
    for (way, file, signal, to_group) in [
        ("prove", "p.aspif", INT, false),
        ("prove", "plan.lp", INT, false),
        ("prove", "p.aspif", INT, true),
        ("cheapest", "plan.lp", INT, true),
        ("prove", "plan.lp", TERM, true),
        ("prove", "p.aspif", HUP, false),
        ("core", "p.aspif", INT, false),
        ("core", "plan.lp", INT, true),
        ("optimum", "plan.lp", TERM, false),
        ("forced", "p.aspif", INT, true),
    ] {
        let running = in_foreground(&room, &[way, file, "-o", "out", "--json"]);
        wait_until(|| number.exists());
        let tool = fs::read_to_string(&number).unwrap();
        let started = Instant::now();
        send(signal, &running, to_group);
        let output = running.wait_with_output().unwrap();
        assert!(started.elapsed() < Duration::from_secs(30));
        assert_eq!(output.status.signal(), Some(signal), "{file}");
        let (_, out, said) = ended(output);
        assert_eq!(said, INTERRUPTED);
        let error = INTERRUPTED.trim_end();
        assert_eq!(out, format!("{{\"command\": \"{way}\", \"status\": {}, \"error\": \"{error}\"}}\n", 128 + signal));
        assert!(!Path::new("/proc").join(tool.trim()).exists(), "{file} {signal}");
        assert_eq!(room.files(), ["p.aspif", "plan.lp"]);
        fs::remove_file(&number).unwrap();
    }
}

// The names are long enough to be met while they are written.
#[test]
fn interrupted_while_writing() {
    let room = Room::of("writing");
    let names: String = (0..30_000).map(|place| format!("4 149 {} 1 1\n", format!("a{place:06}").repeat(22).split_at(149).0)).collect();
    room.file("raw.aspif", format!("asp 1 0 0\n1 1 1 1 0 0\n{names}0\n"));
    let hidden = |name: &String| name.starts_with('.');
    let mut met = 0;
    for _ in 0..20 {
        let mut running = in_foreground(&room, &["ground", "raw.aspif", "-o", "out"]);
        wait_until(|| room.files().iter().any(hidden) || has_ended(&running));
        send(STOP, &running, false);
        met += usize::from(room.files().iter().any(hidden));
        send(INT, &running, false);
        send(CONT, &running, false);
        running.wait().unwrap();
        let files = room.files();
        assert!(!files.iter().any(hidden), "{files:?}");
        for file in files.iter().filter(|file| *file != "raw.aspif") {
            fs::remove_file(room.0.join(file)).unwrap();
        }
        if met == 2 {
            return;
        }
    }
    panic!("it was met {met} times");
}

// Where an answer is being read, it is not said that there is none.
#[test]
fn interrupted_while_the_answer_is_shown() {
    let room = Room::of("shown");
    let rule = format!("1 1 11{} 0 0\n", (1_000..1_011).map(|atom| format!(" {atom}")).collect::<String>());
    room.file("p.aspif", format!("asp 1 0 0\n{}0\n", rule.repeat(990)));
    let mut running = in_foreground(&room, &["ground", "p.aspif", "--json"]);
    // It is longer than a pipe holds, so that it waits for its reader.
    let mut out = running.stdout.take().unwrap();
    out.read_exact(&mut [0]).unwrap();
    send(INT, &running, false);
    wait_until(|| has_ended(&running));
    let output = running.wait_with_output().unwrap();
    assert_eq!((output.status.signal(), output.stderr), (Some(INT), Vec::new()));
}

/// Whether a process has ended; it may still be waited for.
fn has_ended(running: &Child) -> bool {
    fs::read_to_string(format!("/proc/{}/stat", running.id())).map_or(true, |stat| stat.contains(") Z "))
}

// As `nohup` and the background of a script have it.
#[test]
fn a_signal_that_was_ignored_stays_so() {
    let room = Room::of("ignored");
    room.file("p.aspif", NONE);
    let (started, go_on) = (room.0.join("tools/started"), room.0.join("tools/go-on"));
    let script = format!(
        "echo >'{}'; until [ -e '{}' ]; do /bin/sleep 0.01; done; echo '-1 0'; echo 0; exit 20",
        started.display(),
        go_on.display()
    );
    room.tool("cadical", &script);
    let mut command = Command::new("/usr/bin/env");
    command.args(["--ignore-signal=HUP,INT", env!("CARGO_BIN_EXE_aspdrupe"), "prove", "p.aspif"]);
    command.current_dir(&room.0).env("PATH", room.0.join("tools")).stdin(Stdio::null()).stdout(Stdio::piped()).stderr(Stdio::piped());
    let running = command.spawn().unwrap();
    wait_until(|| started.exists());
    send(INT, &running, false);
    send(HUP, &running, false);
    fs::write(go_on, "").unwrap();
    assert_eq!(ended(running.wait_with_output().unwrap()).1, "inconsistent 1 1 5 6\n");
}

/// The example of docs/FORMAT.md with names, as a grounder writes it, and its proof.
const LOOP: &str =
    "asp 1 0 0\n1 1 1 1 0 0\n1 0 1 2 0 2 1 -3\n1 0 1 2 0 1 3\n1 0 1 3 0 1 2\n1 0 0 0 1 -2\n4 1 a 1 1\n4 1 b 1 2\n4 4 c(1) 1 3\n0\n";
const LOOP_PROOF: &str = "b 4  b 5 1 -3  b 6 3  b 7 2  b 8 -2  e 9 1 2  c 5 2  c 7 3  c 8  s 2 5 6  l 2 3  d 2 -5 -6  d 1 2  a -1  a";

#[test]
fn proofs_in_words() {
    let room = Room::of("words");
    room.file("raw.aspif", LOOP);
    room.file("d", proof(LOOP_PROOF));
    assert_eq!(room.run(&["ground", "raw.aspif", "-o", "p.aspif"]).0, 0);
    // By the program's own output statements, and by the names beside it.
    let (status, out, said) = room.run(&["show", "p.aspif", "d"]);
    assert_eq!(out, room.run(&["show", "raw.aspif", "d"]).1);
    assert_eq!((status, out.lines().last()), (0, Some("inconsistent 3 5 15 19")));
    assert_eq!(said, room.run(&["check", "p.aspif", "d"]).2);
    for step in [
        "step 1, body definition: body#4 is the body {}\n    rule 1, line 2: {a}.\n",
        "\nstep 2, body definition: body#5 is the body {a, not c(1)}\n    rule 2, line 3: b :- a, not c(1).\n",
        "\nstep 6, extension: name#9 stands for {a, b}\nstep 7, completion: where body#5 holds, b does\n    rule 2, line 3: b :- a, not c(1).\n",
        "\nstep 9, completion: body#8 does not hold\n    rule 5, line 6: :- not b.\n",
        "\nstep 10, support: where b holds, one of body#5, body#6 does\n    rule 2, line 3: b :- a, not c(1).\n    rule 3, line 4: b :- c(1).\n",
        "\nstep 11, loop: {b, c(1)} cannot hold itself up: where b holds, body#5 does\n    rule 2, line 3: b :- a, not c(1).\n",
        "\nstep 12, deletion: {b, not body#5, not body#6}, which step 10 added, goes\nstep 13, deletion: {a, b} is not live: nothing goes\n",
        "\nstep 14, addition: {not a} is ruled out\n    {body#8}, of step 9, gives not body#8\n    {not a, body#5}, of step 2, gives not body#5\n",
        "\nstep 15, addition: the empty nogood: no set is an answer set\n",
    ] {
        assert!(out.contains(step), "{step} {out}");
    }
    let (status, out, _) = room.run(&["show", "p.aspif", "d", "--step", "14"]);
    assert!(status == 0 && out.starts_with("step 14, addition: ") && out.ends_with(" of step 11: all of it holds, a conflict\n    body#5 is {a, not c(1)}, by step 2, rule 2, line 3: b :- a, not c(1).\n    body#8 is {not b}, by step 5, rule 5, line 6: :- not b.\ninconsistent 3 5 15 19\n"), "{out}");
    let (_, out, _) = room.run(&["--json", "show", "p.aspif", "d", "--step", "11"]);
    let json = r#"{"command": "show", "status": 0, "verdict": "inconsistent", "atoms": 3, "rules": 5, "steps": 15, "nogoods": 19, "proof": [{"step": 11, "kind": "loop", "line": "l 2 3 0", "says": "{b, c(1)} cannot hold itself up: where b holds, body#5 does", "rules": [{"rule": 2, "line": 3, "text": "b :- a, not c(1)."}], "adds": [[2, -5]]}]}"#;
    assert_eq!(out.trim_end(), json);
    let (_, out, _) = room.run(&["show", "p.aspif", "d", "--json", "--step", "14"]);
    assert!(out.contains(r#""adds": [[-1]], "chain": [{"step": 9, "nogood": [8], "text": "{body#8}", "gives": -8}, "#), "{out}");
    room.file("open", proof("b 4"));
    let (status, _, said) = room.run(&["show", "p.aspif", "open"]);
    assert!(status == 10 && said.ends_with("\nno step adds the empty nogood\n"), "{said}");
    room.file("open", proof(LOOP_PROOF) + "d 0\n");
    let (status, _, said) = room.run(&["show", "p.aspif", "open"]);
    assert!(status == 10 && said.ends_with("\nstep 15 adds the empty nogood, and step 16 deletes it\n"), "{said}");
    assert_misuse(room.run(&["show", "p.aspif", "d", "--step", "0"]), "counted from 1");
    assert_misuse(room.run(&["show", "p.aspif", "d", "--step", "16"]), "there is no step 16: the proof has 15");
    assert_misuse(room.run(&["show", "p.aspif", "d", "--step", "x"]), "--step takes a number");
    room.file("bad", "asp 1 0 0\n4 1 a 1 1\n5 1 2\n0\n");
    assert_eq!(room.run(&["show", "bad", "d"]).1, "refused program 3 2\n");
}

#[test]
fn refused_steps_in_words() {
    let room = Room::of("refused");
    room.file("p", LOOP);
    for (number, lines, parts) in [
        (24, "b 4  c -4", &["step 2, completion, refused with 24: "][..]),
        (
            26,
            "a 20  e 20 1",
            &["20 is not known: the atoms are 1 to 3, and no step before introduces it; step 2 introduces it, behind this one\n"],
        ),
        (27, "b 4  b 4 3", &["step 1 introduced body#4\n"]),
        (27, "e 2 1", &["2 is an atom of the program, b\n"]),
        (28, "b 4 1 3", &["no rule has the body {a, c(1)}; closest is rule 3, line 4: b :- c(1).\n    the rule lacks {a}\n"]),
        (28, "b 4 1", &["closest is rule 1, line 2: {a}.\n    the rule lacks {a}\n"]),
        (28, "b 4 3  b 5 3", &["the body has a name, body#4, by step 1: rule 3, line 4: b :- c(1).\n"]),
        (29, "e 9 1 2  c 9 2", &["name#9 is the name of no rule's body\n"]),
        (29, "b 4  c 4 1", &["body and the head a; with the body:\n    rule 1, line 2: {a}. (a choice, which forces nothing)\n"]),
        (29, "b 4  c 4 1 2", &["a `c` line has a body's name and at most one head\n"]),
        (30, "b 5 1 -3  s 2 5", &["the body {c(1)} has no name yet: rule 3, line 4: b :- c(1).\n"]),
        (
            30,
            "b 5 1 -3  b 6 3  b 7 2  s 2 5 7",
            &["body#6 is missing: rule 3", "body#7 is the name of no body of a rule with b in the head\n"],
        ),
        (30, "b 5 1 -3  s 5", &["body#5 is no atom of the program\n"]),
        (31, "b 5 3  l 2 5", &["body#5 is no atom of the program\n"]),
        (56, "l 1", &["no edges inside the set lead from a to a\n"]),
        (56, "l 2 3 1", &["no edges inside the set lead from b to a\n"]),
        (32, "l 2 3", &["the body {a, not c(1)} has no name yet: rule 2, line 3"]),
        (
            33,
            "b 8 -2  c 8  d 8  a -2",
            &[
                "{not b, not body#8}, of step 1, gives body#8\n",
                "would with what is missing here:\n    {body#8}, of step 2, which step 3 deleted\n",
            ],
        ),
        (33, "b 8 -2  a -2", &["would with what is missing here:\n    the `c` line of rule 5, line 6: :- not b.\n"]),
        (33, "a -2", &["\n    the `b` line of a body: rule 5, line 6: :- not b.\n    the `c` line of rule 5"]),
        (33, "e 9 1 2  a -1", &["{not a, name#9}, of step 1, gives not name#9\n    propagation comes to no conflict, nor would it"]),
        (33, "e 9 -1 2 -3  a -1 -9", &["one literal short: {not a, b, not c(1), not name#9}, of step 1; open are b, not c(1)\n"]),
    ] {
        room.file("d", proof(lines));
        let (status, out, said) = room.run(&["show", "p", "d"]);
        let line = out.lines().last().unwrap_or("");
        assert!(status == 20 && line.starts_with(&format!("refused proof {number} ")), "{lines}: {out}");
        assert!(parts.iter().all(|part| out.contains(part)), "{lines}: {out}");
        assert!(said.contains("\nto mend: ") && out.contains(&format!(", refused with {number}: ")), "{said}");
    }
    room.file("d", "b 4 0\nnoise\n");
    let (_, out, _) = room.run(&["show", "p", "d"]);
    assert!(out.contains("\nstep 2, no step, refused with 22: `noise`\n    the line's shape\nrefused proof 22 2\n"), "{out}");
    assert_misuse(room.run(&["show", "p", "d", "--step", "3"]), "step 3 is not reached: the check ends at step 2");
    room.file("d", proof("b 4  b 5 1 -3"));
    let (_, out, _) = room.run(&["show", "p", "d", "--store", "12"]);
    assert!(
        out.contains("the live nogoods take 3 of the store's 12 words, and the step adds 13: 4 are missing\nrefused proof 34 2\n"),
        "{out}"
    );
    let (_, out, _) = room.run(&["show", "p", "d", "--store", "12", "--json"]);
    assert!(
        out.contains(r#""refused": 34, "rules": [{"rule": 2, "line": 3, "text": "b :- a, not c(1)."}], "missing": ["the live"#),
        "{out}"
    );
}

#[test]
fn examples_in_words() {
    let room = Room::of("shown-examples");
    for entry in fs::read_dir(EXAMPLES).unwrap() {
        let folder = entry.unwrap().path();
        let Ok(expected) = fs::read_to_string(folder.join("expected")) else { continue };
        let [program, proof] = ["case.aspif", "case.drupe"].map(|name| folder.join(name).to_str().map(String::from).unwrap());
        let (status, out, said) = room.run(&["show", &program, &proof]);
        assert_eq!(out.lines().last().map(|line| format!("{line}\n")), Some(expected), "{program} {said}");
        assert_eq!(status, room.run(&["check", &program, &proof]).0, "{program}");
        let steps = out.lines().filter(|line| line.starts_with("step ")).count();
        let lines = fs::read(&proof).unwrap().split_inclusive(|byte| *byte == b'\n').count();
        assert!(status == 20 || steps == lines, "{program}");
    }
}

// As many cadicals run as there are processes, and all go with the command.
#[test]
fn interrupted_while_ends_are_solved() {
    let room = Room::of("ends");
    room.file("p.aspif", "asp 1 0 0\n1 1 4 1 2 3 4 0 0\n1 0 0 0 2 1 2\n1 0 0 0 2 3 4\n0\n");
    let numbers = room.0.join("tools/numbers");
    fs::create_dir(&numbers).unwrap();
    room.tool("cadical", &format!("echo >'{}'/$$; exec /bin/sleep 60", numbers.display()));
    let at_work = || fs::read_dir(&numbers).unwrap().map(|entry| entry.unwrap().file_name().into_string().unwrap()).collect::<Vec<_>>();
    for (jobs, to_group) in [("2", false), ("3", true)] {
        let running = in_foreground(&room, &["prove", "p.aspif", "--split", "2", "--jobs", jobs, "-o", "out"]);
        wait_until(|| at_work().len().to_string() == jobs);
        std::thread::sleep(Duration::from_millis(50));
        let tools = at_work();
        send(INT, &running, to_group);
        let output = running.wait_with_output().unwrap();
        assert_eq!((output.status.signal(), ended(output).2.as_str(), tools.len().to_string().as_str()), (Some(INT), INTERRUPTED, jobs));
        for tool in tools {
            assert!(!Path::new("/proc").join(&tool).exists(), "{tool}");
            fs::remove_file(numbers.join(tool)).unwrap();
        }
        assert_eq!(room.files(), ["p.aspif"]);
    }
}

// Where a solver errs, the one beside it is stopped.
#[test]
fn a_failure_ends_the_other_solvers() {
    let room = Room::of("failure");
    room.file("p.aspif", "asp 1 0 0\n1 1 4 1 2 3 4 0 0\n1 0 0 0 2 1 2\n1 0 0 0 2 3 4\n0\n");
    let (first, number) = (room.0.join("tools/first"), room.0.join("tools/number"));
    // The one that comes first waits; the other's model is none.
    let script =
        "if /bin/mkdir '{first}' 2>/dev/null; then echo $$ >'{number}.new'; /bin/mv '{number}.new' '{number}'; exec /bin/sleep 60; fi
until [ -e '{number}' ]; do /bin/sleep 0.01; done; echo 's SATISFIABLE'; echo 'v 0'; exit 10";
    room.tool("cadical", &script.replace("{first}", &first.to_string_lossy()).replace("{number}", &number.to_string_lossy()));
    let started = Instant::now();
    assert_misuse(room.run(&["prove", "p.aspif", "--split", "2", "--jobs", "2"]), "cadical's model is none of the completion");
    assert!(started.elapsed() < Duration::from_secs(50));
    let waited = fs::read_to_string(&number).unwrap();
    wait_until(|| !Path::new("/proc").join(waited.trim()).exists());
}

#[test]
fn splits_that_are_none() {
    let room = Room::of("splits");
    room.file("p.aspif", NONE);
    for (words, part) in [
        ("prove p.aspif --split 7", "--split takes a number of splits up to 6"),
        ("prove p.aspif --split 0", "take numbers from 1 on"),
        ("prove p.aspif --split 2 --jobs 0", "take numbers from 1 on"),
        ("prove p.aspif --jobs 2", "--jobs goes with --split"),
        ("prove p.aspif --split 2 -o p.aspif", "is an input"),
    ] {
        assert_misuse(room.run(&words.split(' ').collect::<Vec<_>>()), part);
    }
    room.file("out", "");
    assert_misuse(room.run(&["prove", "p.aspif", "--split", "2", "-o", "out"]), "out is no folder");
    room.file("bad.aspif", "asp 1 0 0\n1 0\n0\n");
    assert_eq!(room.run(&["prove", "bad.aspif", "--split", "2"]).1, "refused program 6 2\n");
}
