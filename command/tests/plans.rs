//! The command on plans, with gringo and cadical themselves. Where they are not installed nothing is run, and that is
//! said.

use std::fs;
use std::path::{Path, PathBuf};
use std::process::{Command, Stdio};

/// A folder that goes when the test ends.
struct Room(PathBuf);

impl Room {
    /// None where a tool is missing.
    fn of(name: &str) -> Option<Room> {
        let found =
            |tool: &str| std::env::split_paths(&std::env::var_os("PATH").unwrap_or_default()).any(|folder| folder.join(tool).is_file());
        if let Some(missing) = ["gringo", "cadical"].into_iter().find(|tool| !found(tool)) {
            eprintln!("not run: {name}, for want of {missing}");
            return None;
        }
        let path = std::env::temp_dir().join(format!("aspdrupe-plans-{name}-{}", std::process::id()));
        fs::create_dir_all(&path).unwrap();
        Some(Room(path))
    }

    fn file(&self, name: &str, text: &str) {
        fs::write(self.0.join(name), text).unwrap();
    }

    fn read(&self, name: &str) -> String {
        fs::read_to_string(self.0.join(name)).unwrap()
    }

    /// Runs the command: status, standard output, standard error without the lines on progress, which a busy machine has.
    fn run(&self, words: &[&str]) -> (i32, String, String) {
        let output = Command::new(env!("CARGO_BIN_EXE_aspdrupe")).args(words).current_dir(&self.0).stdin(Stdio::null()).output().unwrap();
        let text = |bytes: Vec<u8>| String::from_utf8(bytes).unwrap();
        let is_progress = |line: &&str| line.split_once(" s: ").is_some_and(|(seconds, _)| seconds.parse::<u32>().is_ok());
        let said: String = text(output.stderr).split_inclusive('\n').filter(|line| !is_progress(line)).collect();
        (output.status.code().unwrap_or(-1), text(output.stdout), said)
    }

    /// The same for words that stand apart by spaces, without the standard error; the status is to be this one.
    fn out(&self, status: i32, words: &str) -> String {
        let (ended, out, said) = self.run(&words.split(' ').collect::<Vec<_>>());
        assert_eq!(ended, status, "{words}: {out} {said}");
        out
    }

    /// The set of a file passes the set test for the program beside it.
    fn assert_tested(&self, name: &str) {
        let set = self.read(&format!("{name}.set"));
        let program = format!("{name}.aspif");
        let words = [&["test", &program][..], &set.split_whitespace().collect::<Vec<_>>()].concat();
        assert_eq!(self.run(&words).1, "yes\n", "{name}");
    }
}

impl Drop for Room {
    fn drop(&mut self) {
        let _ = fs::remove_dir_all(&self.0);
    }
}

/// Two people and three days, on each of which one works; what a constraint hides is not shown.
const DAYS: &str = "person(ann; bob). day(1..3).
1 { on(P, D) : person(P) } 1 :- day(D).
busy(P) :- on(P, D).
:- on(ann, 1). % not on Monday
:- on(P, 2), on(P, 3).
:- not busy(ann). :- on(bob, 1),
   on(bob, 2), on(ann, 3).
#show on/2.
";

#[test]
fn cores_of_a_plan() {
    let Some(room) = Room::of("cores") else { return };
    room.file("p.lp", DAYS);
    assert_eq!(room.out(0, "core p.lp"), "answer set: on(ann,2) on(bob,1) on(bob,3)\n");
    let (status, out, said) = room.run(&["core", "p.lp", "--assume", "on(bob,2)", "-o", "kept"]);
    let core = "core 4 of 5\nline 4: :- on(ann, 1).\nline 5: :- on(P, 2), on(P, 3).\nline 6: :- on(bob, 1), on(bob, 2), on(ann, 3).\nassumed: on(bob,2)\n";
    assert_eq!((status, out.as_str()), (0, core));
    assert!(said.starts_with("without line 4: on(ann,1) on(ann,3) on(bob,2)\nwithout line 5: on(bob,1) on(bob,2) on(bob,3)\n"), "{said}");
    assert!(said.contains("without assumed on(bob,2): on(ann,2) on(bob,1) on(bob,3)\n"), "{said}");
    assert!(room.out(0, "check kept/core.aspif kept/core.drupe").starts_with("inconsistent "));
    (1..=4).for_each(|place| room.assert_tested(&format!("kept/without-{place}")));
    assert!(!Path::new(&room.0.join("kept/without-5.set")).exists());
    // From the ground program that is kept it is the same, by ground constraints.
    let ground = room.out(0, "core kept/core.aspif");
    assert!(ground.starts_with("core 6 of 8\n") && ground.contains(": :- on(bob,2), on(ann,3), on(bob,1).\n"), "{ground}");
    assert!(room.run(&["core", "p.lp", "--assume", "on(carl,1)"]).2.contains("\non(carl,1): no rule gives it\n"));
    assert!(room.run(&["core", "p.lp", "--assume", "not day(1)"]).2.contains("\nnot day(1): it is a fact\n"));
    assert!(room.run(&["core", "p.lp", "--assume", "on(bob"]).2.starts_with("gringo does not ground p.lp: p.lp:"));
    for words in
        ["core kept/core.aspif -o kept", "core p.lp --assume a.b", "core p.lp --assume a;b", "core p.lp -o p.lp --assume on(bob,2)"]
    {
        room.out(2, words);
    }
}

/// Example 1 of source 003. It says that the answer sets are the round trips; but nothing asks that the first vertex is
/// reached again, so that a path will do.
const ROUND: &str = "vertex(a). vertex(b). vertex(c). vertex(d).
edge(a,b). edge(a,c). edge(b,d). edge(b,c). edge(c,d). edge(d,a).
in(U,V) :- edge(U,V), not nin(U,V).
nin(U,V) :- edge(U,V), not in(U,V).
:- vertex(U), vertex(V), vertex(W), V != W, in(U,V), in(U,W).
:- vertex(U), vertex(V), vertex(W), U != V, in(U,W), in(V,W).
reachable(U) :- vertex(U), in(a,U).
reachable(V) :- vertex(V), vertex(U), reachable(U), in(U,V).
:- vertex(U), U != a, not reachable(U).
#show in/2.
";

#[test]
fn why_a_path_is_let_through() {
    let Some(room) = Room::of("round") else { return };
    room.file("p.lp", ROUND);
    // The path from a to d, without the way back, is an answer set: a is not reached.
    let words = ["why", "p.lp", "--set", "in(a,b)", "in(b,c)", "in( c, d )", "not reachable(a)", "-o", "kept"];
    let (status, out, said) = room.run(&words);
    let why = "why not reachable(a): 1 assumption\nassumed: not in(d,a)\n\
               not reachable(a): reachable(a) :- vertex(a), vertex(d), in(d,a), reachable(d). fails\n  not in(d,a): assumed\n";
    assert_eq!((status, out.as_str()), (0, why), "{said}");
    assert!(room.out(0, "check kept/why.aspif kept/why.drupe").starts_with("inconsistent "));
    room.assert_tested("kept/set");
    // Facts are kept in bodies, and have names, though only one predicate is shown.
    let (_, out, _) = room.run(&["why", "p.lp", "reachable(b)", "--set", "in(a,b)", "in(b,c)", "in(c,d)"]);
    let because = "reachable(b): by reachable(b) :- vertex(b), in(a,b).\n  vertex(b): a fact\n  in(a,b): by in(a,b) :- edge(a,b), not nin(a,b).\n    edge(a,b): a fact\n    not nin(a,b): assumed\n";
    assert!(out.ends_with(because), "{out}");
    let (status, out, said) = room.run(&["why", "p.lp", "in(a,b)", "--set", "in(a,b)", "in(b,c)"]);
    assert!(status == 20 && out.starts_with("refused set: no ") && said.starts_with("no answer set shows just these"), "{out} {said}");
    // What is kept has the names.
    assert!(room.out(0, "why kept/set.aspif reachable(b)").contains("edge(a,b): a fact"));
}

#[test]
fn why_of_the_set_that_prove_finds() {
    let Some(room) = Room::of("found") else { return };
    // Example 21 of source 003, with its bounds, and what follows from how many there are.
    room.file("p.lp", "p. q. 2 { r; t; s } 2 :- p, q. few :- { r; t; s } 2. many :- 3 { r; t; s }. #show r/0. #show s/0. #show t/0.");
    let found = room.out(0, "prove p.lp");
    let shown: Vec<&str> = found.trim_end().trim_start_matches("answer set: ").split(' ').collect();
    assert_eq!(shown.len(), 2, "{found}");
    let (status, out, said) = room.run(&["why", "p.lp", shown[0]]);
    assert_eq!(status, 0, "{said}");
    assert!(said.contains(&format!("the set test says yes to the answer set: {}\n", shown.join(" "))), "{said}");
    assert!(out.contains(&format!("\n{}: chosen by {{", shown[0])) && out.ends_with("\n  p: a fact\n  q: a fact\n"), "{out}");
    let left = ["r", "s", "t"].into_iter().find(|atom| !shown.contains(atom)).unwrap();
    let out = room.run(&["why", "p.lp", &format!("not {left}")]).1;
    assert!(out.starts_with(&format!("why not {left}: 1 assumption\nleft: not {left}, by {{")), "{out}");
    // Hidden atoms are known by name, and sums by what they say.
    let out = room.run(&["why", "p.lp", "not many"]).1;
    assert!(out.contains("\nnot many: many :- 3 { r; s; t }. fails\n") || out.contains("\nnot many: many :- 3 {"), "{out}");
    assert!(out.contains("}: not reached\n") && out.contains(&format!("    not {left}: left by {{")), "{out}");
    assert!(room.run(&["why", "p.lp", "few"]).1.contains(&format!("not {left}: left by {{")));
    // What is shown by a condition is known too, and a fact that is shown so.
    room.file("q.lp", "a. b :- a. {c; d}. e :- c, not d, b. #show a : a. #show b : b. #show c : c. #show d : d. #show.");
    let out = room.run(&["why", "q.lp", "e", "--set", "a", "b", "c"]).1;
    assert!(out.contains("\n  b: by b :- a.\n    a: a fact\n") && out.contains("\ne: by e :- "), "{out}");
    assert_eq!(room.run(&["why", "q.lp", "e", "--set", "a", "b"]).1, "no: e\n");
    room.file("none.lp", "a :- not b. -a. b :- not b.");
    let (status, out, said) = room.run(&["why", "none.lp", "a"]);
    assert!(status == 0 && out.starts_with("inconsistent ") && said.contains("`aspdrupe core` says why"), "{out} {said}");
    let (status, _, said) = room.run(&["why", "p.lp", "not u"]);
    assert!(status == 2 && said.contains("no rule of the ground program has it"), "{said}");
}

#[test]
fn ground_cores_by_name() {
    let Some(room) = Room::of("ground") else { return };
    room.file("p.lp", "day(1..2).\n1 { on(ann, D); on(bob, D) } 1 :- day(D).\nbusy(P) :- on(P, 1).\n:- on(ann, 1).\n#show on/2.");
    let (_, out, said) = room.run(&["core", "p.lp", "--assume", "not busy(bob)", "--ground", "-o", "kept"]);
    let core = "core 2 of 2\nline 4: :- on(ann, 1).\nassumed: not busy(bob)\nground core 3 of 4\n";
    assert!(out.starts_with(core), "{out}");
    assert!(out.contains("\nline 4: :- on(ann,1).\n") && out.ends_with("bob,1) }, not 2 { on(ann,1); on(bob,1) }).\n"), "{out}");
    assert!(out.contains("\na rule's bounds: :- not (1 { on(ann,1); on(bob,1) }, not 2 { on(ann,1); on(bob,1) }).\n"), "{out}");
    assert!(said.contains("\nin ground constraints gringo leaves out facts"), "{said}");
    assert!(room.out(0, "check kept/ground.aspif kept/ground.drupe").starts_with("inconsistent "));
    (1..=3).for_each(|place| room.assert_tested(&format!("kept/ground-without-{place}")));
}

#[test]
fn cores_without_constraints() {
    let Some(room) = Room::of("rules") else { return };
    room.file("p.lp", "a :- not a. {b}. :- b. :- not b.");
    let (status, out, said) = room.run(&["core", "p.lp"]);
    assert_eq!((status, out.as_str()), (0, "core 0 of 2\n"));
    assert!(said.starts_with("the rules alone have no answer set\ncertified: inconsistent "), "{said}");
    room.file("p.lp", "{b}. :- b. :- not b. :-.");
    assert_eq!(room.out(0, "core p.lp"), "core 1 of 3\nline 1: :-.\n");
    // Of several on a line it is said which.
    room.file("p.lp", "{b}. :- b. :- not b.");
    assert!(room.run(&["core", "p.lp"]).2.starts_with("without line 1, :- b.: b\nwithout line 1, :- not b.:\n"));
    room.file("p.lp", "{b}. :- b. :- not b. :-.");
    assert!(room
        .out(0, "core p.lp --json")
        .starts_with(r#"{"command": "core", "status": 0, "answer": "core", "core": [{"line": 1, "text": ":-.", "without""#));
    room.file("p.lp", "");
    assert_eq!(room.out(0, "core p.lp"), "answer set:\n");
    room.file("p.lp", "{b}. :- b. :- not b.");
    assert_eq!(room.out(20, "core p.lp --store 3"), "refused proof 34 1\n");
    assert_eq!(room.out(20, "core p.lp --table 3"), "refused program 10 2\n");
    assert_eq!(room.out(2, "core p.lp --time 0x"), "");
}

// What a plan includes stands beside it, wherever it is called from, and its constraints count as rules.
#[test]
fn included_plans() {
    let Some(room) = Room::of("included") else { return };
    fs::create_dir(room.0.join("sub")).unwrap();
    room.file("sub/p.lp", "#include \"q.lp\".\n:- not b.\n#show b/0.");
    room.file("sub/q.lp", "{a; b}. :- a.");
    assert_eq!(room.out(0, "core sub/p.lp"), "answer set: b\n");
    assert_eq!(room.out(0, "core sub/p.lp --assume a"), "core 1 of 2\nassumed: a\n");
    assert!(room.run(&["core", "sub/p.lp"]).2.starts_with("the constraints of what the plan includes count as rules\n"));
    assert_eq!(room.out(0, "prove sub/p.lp --assume b"), "answer set: b\n");
    assert!(room.out(0, "prove sub/p.lp --assume a").starts_with("inconsistent "));
    // By ground constraints they are told from the bounds of choices, and from atoms and their opposites.
    room.file("q.lp", "{a; b}. :- a, b.\n#show a/0.");
    room.file("p.lp", "#include \"q.lp\".\n:- not a.\n:- not b.");
    let ground = room.out(0, "core p.lp --ground");
    assert!(ground.ends_with("\nan included file: :- a, b.\n") && ground.contains("\nline 3: :- not b.\n"), "{ground}");
    room.file("p.lp", "#include \"q.lp\".\n1 {c} 1.\n:- c.");
    assert!(room.out(0, "core p.lp --ground").ends_with("\nan included file or a rule's bounds: :- not c.\n"));
    room.file("p.lp", "{a; -a}.\n:- not a.\n:- not -a.");
    assert!(room.out(0, "core p.lp --ground").ends_with("\nan atom and its opposite: :- a, -a.\n"));
    assert!(room.out(0, "core p.lp --ground --json").contains(r#"{"from": "an atom and its opposite", "text": ":- a, -a.","#));
}

/// The names of the files in a folder.
fn listed(folder: &Path) -> Vec<String> {
    let mut names: Vec<String> = fs::read_dir(folder).unwrap().map(|entry| entry.unwrap().file_name().into_string().unwrap()).collect();
    names.sort();
    names
}

// What an earlier run left under names that this one would give goes, and nothing else.
#[test]
fn folders_that_are_used_again() {
    let Some(room) = Room::of("again") else { return };
    let kept = room.0.join("kept");
    room.file("two.lp", "{a; b}.\n:- not a.\n:- a.\n:- b.");
    room.file("none.lp", "a :- not a.");
    room.file("one.lp", "{a}.");
    room.out(0, "core two.lp -o kept --ground");
    fs::write(kept.join("without-x.set"), "mine").unwrap();
    fs::write(kept.join("set-1.set"), "of forced").unwrap();
    let others = ["set-1.set", "without-x.set"].map(String::from);
    assert!(listed(&kept).len() > 12);
    let (_, _, said) = room.run(&["core", "none.lp", "-o", "kept"]);
    assert!(
        said.contains("removed, since an earlier run left them: ground-without-1.aspif ") && said.ends_with(" without-2.set\n"),
        "{said}"
    );
    let core = ["core.aspif", "core.aspif.names", "core.drupe"].map(String::from);
    assert_eq!(listed(&kept), [&core[..], &others].concat());
    // An input is not removed, nor anything where there is no answer.
    room.out(0, "core two.lp -o kept");
    room.out(2, "core kept/without-1.aspif -o kept");
    let before = listed(&kept);
    let (status, _, said) = room.run(&["core", "two.lp", "-o", "kept", "--store", "3"]);
    assert!(status == 20 && said.contains("of an earlier run, and left as they are: core.aspif "), "{said}");
    assert_eq!(listed(&kept), before);
    let (_, _, said) = room.run(&["core", "one.lp", "-o", "kept"]);
    assert!(said.contains("there is nothing to keep, and nothing is written to kept\n"), "{said}");
    assert_eq!(listed(&kept), others);
    room.out(0, "forced one.lp -o kept");
    assert_eq!(
        listed(&kept),
        ["set-1.aspif", "set-1.aspif.names", "set-1.set", "set-2.aspif", "set-2.aspif.names", "set-2.set", "without-x.set"]
    );
    room.out(0, "forced none.lp -o kept");
    assert_eq!(listed(&kept), ["none.aspif", "none.aspif.names", "none.drupe", "without-x.set"]);
    // A proof is not removed, and it is said that it is not of this run.
    room.file("proof", "of before");
    let (_, _, said) = room.run(&["prove", "one.lp", "-o", "proof"]);
    assert!(said.ends_with("nothing is written to proof; what stands there is of an earlier run\n"), "{said}");
    assert_eq!(room.read("proof"), "of before");
}

#[test]
fn what_is_not_known() {
    let Some(room) = Room::of("unknown") else { return };
    room.file("p.lp", "{a}. #minimize {1 : a}.");
    for (subcommand, unknown) in [
        ("prove", "whether there is an answer set"),
        ("core", "which constraints are the reason"),
        ("optimum", "what the least cost is"),
        ("forced", "what is forced"),
    ] {
        let (status, out, said) = room.run(&[subcommand, "p.lp", "--time", "0", "--html", "page.html"]);
        assert_eq!((status, out.as_str()), (10, "undecided\n"));
        assert!(said.contains(&format!("it is not known {unknown}, and nothing is certified: cadical was stopped ")), "{said}");
        let page = room.read("page.html");
        assert!(page.contains(&format!("<h1>It is not known {unknown}.</h1>")) && !page.contains("To check it again"), "{page}");
    }
}

#[test]
fn nothing_is_assumed() {
    let Some(room) = Room::of("assumed") else { return };
    room.file("p.lp", "{a}.");
    for subcommand in ["prove", "core", "optimum", "forced", "ground"] {
        let (status, out, said) = room.run(&[subcommand, "p.lp", "--assume"]);
        assert!((status, out.as_str()) == (2, "") && said.starts_with("`--assume` needs a value; "), "{subcommand}: {said}");
    }
}

// The library splits sums of up to 64 literals. What the command splits itself is said to be, and what is too large by which limit.
#[test]
fn sums_of_any_length() {
    let Some(room) = Room::of("lengths") else { return };
    room.file("p.lp", "{a(1..64)}.\n:- 3 { a(X) : X = 1..64 }.\n:- not a(1).\n:- not a(2).\n:- not a(64).");
    let (status, out, said) = room.run(&["core", "p.lp"]);
    assert!((status, out.lines().next()) == (0, Some("core 4 of 4")) && !said.contains("not proved"), "{said}");
    room.file("p.lp", "{a(1..100)}.\n:- 3 { a(X) : X = 1..100 }.\n:- not a(1).\n:- not a(2).\n:- not a(100).");
    let (status, out, said) = room.run(&["core", "p.lp", "-o", "kept", "--html", "page.html"]);
    assert!((status, out.lines().next()) == (0, Some("core 4 of 4")), "{out}");
    let caution = "one sum with more than 64 literals, more than the library reads, is split by this command: ";
    assert!(said.contains(caution) && room.read("page.html").contains(&format!("<li>{caution}")), "{said}");
    assert!(room.out(0, "check kept/core.aspif kept/core.drupe").starts_with("inconsistent "));
    (1..=4).for_each(|place| room.assert_tested(&format!("kept/without-{place}")));
    assert!(room.out(0, "core p.lp --json").contains(r#", "unproved": 1"#));
    // A choice among more atoms than a head may have is several.
    room.file("p.lp", "{ a(1..70) }. :- #count { X : a(X) } < 69. :- not b. {b : a(70)}. :- a(3).");
    assert!(room.out(0, "prove p.lp").starts_with("answer set: a(1) a(2) a(4) "));
    // In the first program asked there is no such sum, and in the restricted one there is.
    room.file("p.lp", "1 {a(1..35)}.\n1 {a(36..70)}.\n:- 16 { a(X) : X = 1..16 }.\n#minimize {1,X : a(X), X > 1; 3 : a(1)}.");
    let (status, out, said) = room.run(&["optimum", "p.lp"]);
    assert!(status == 0 && out.starts_with("optimum 2: a(") && said.contains(caution), "{out}{said}");
    room.file("p.lp", "{a(1..900)}.\n:- 60 { a(X) : X = 1..900 }.");
    let (status, out, said) = room.run(&["prove", "p.lp"]);
    assert_eq!((status, out.as_str()), (20, "refused program 6 902\n"));
    let told = "\nto mend: fewer or shorter sums, lower bounds, or a smaller plan: with its long sums split the program has more than 1,024 rules\n";
    assert!(said.ends_with(told), "{said}");
    room.file("p.lp", "{a(1..40)}.\n:- 20 { a(X) : X = Y..40 }, Y = 1..5.");
    let (status, out, said) = room.run(&["core", "p.lp"]);
    assert!(status == 20 && out.starts_with("refused program 55 ") && said.ends_with(told), "{out}{said}");
    assert!(!said.contains("split the sum"), "{said}");
}

/// What the plan's own text does not show at first sight: a `#show` in what is included, a part that gringo does not
/// ground, comments in comments, and terms that are shown beside all atoms.
#[test]
fn plans_with_parts() {
    let Some(room) = Room::of("parts") else { return };
    room.file("shows.lp", "#show a/0.");
    room.file("shown.lp", "#include \"shows.lp\".\n{a; b; c}.\n:- not a.\n:- a, b.\n:- not b.\n:- c, a.");
    assert_eq!(room.out(0, "core shown.lp"), "core 3 of 4\nline 3: :- not a.\nline 4: :- a, b.\nline 5: :- not b.\n");
    room.file("part.lp", "{a; b}.\n:- not a.\n:- a.\n#program other.\nx.");
    assert_eq!(room.out(0, "core part.lp"), "core 2 of 2\nline 2: :- not a.\nline 3: :- a.\n");
    room.file("later.lp", "{a; b; c}.\n#minimize {1: c; 2: a}.\n#program other.\nx.");
    assert_eq!(room.out(0, "forced later.lp --assume a b"), "always: a b\nnever:\nopen: c\n");
    assert_eq!(room.out(0, "optimum later.lp --assume a b"), "optimum 2: a b\n");
    room.file("nested.lp", "{a; b}.\n%* old: %* x *%\n:- not b. *%\n:- a.\n:- not a.");
    assert_eq!(room.out(0, "core nested.lp"), "core 2 of 2\nline 4: :- a.\nline 5: :- not a.\n");
    room.file("terms.lp", "{a; b}.\n#show x(1): a.\n:- not a.\n:- a, b.\n:- not b.");
    let (_, _, said) = room.run(&["core", "terms.lp"]);
    assert!(said.contains("without line 4: a b x(1)\n"), "{said}");
}

// A pipe is read once.
#[test]
fn a_plan_from_a_pipe() {
    let Some(room) = Room::of("pipe") else { return };
    room.file("p.lp", DAYS);
    room.file("p.aspif", "asp 1 0 0\n1 1 1 1 0 0\n1 0 0 0 1 1\n0\n");
    for (file, words, line) in [
        ("p.lp", "core /dev/stdin --assume on(ann,1)", "core 2 of 5\nline 4: :- on(ann, 1).\nassumed: on(ann,1)\n"),
        ("p.lp", "prove /dev/stdin --assume on(ann,2)", "answer set: on(ann,2) on(bob,1) on(bob,3)\n"),
        ("p.aspif", "core /dev/stdin --assume 1", "core 2 of 2\nline 3: :- #1.\nassumed: 1\n"),
    ] {
        let mut cat = Command::new("cat").arg(room.0.join(file)).stdout(Stdio::piped()).spawn().unwrap();
        let mut command = Command::new(env!("CARGO_BIN_EXE_aspdrupe"));
        let output = command.args(words.split(' ')).current_dir(&room.0).stdin(cat.stdout.take().unwrap()).output().unwrap();
        cat.wait().unwrap();
        assert_eq!(String::from_utf8(output.stdout).unwrap(), line, "{words}");
    }
}

/// What to buy for ten: the worth first, then how many things.
const SHOP: &str = "item(tent, 6, 7). item(stove, 3, 4). item(lamp, 2, 2). item(rope, 4, 5). item(map, 1, 1).
{ buy(I) : item(I, _, _) }.
:- #sum { P, I : buy(I), item(I, P, _) } > 10.
#maximize { V@2, I : buy(I), item(I, _, V) }.
#minimize { 1@1, I : buy(I) }.
#show buy/1.
";

#[test]
fn optima() {
    let Some(room) = Room::of("optima") else { return };
    room.file("p.lp", SHOP);
    let (status, out, said) = room.run(&["optimum", "p.lp", "-o", "best.drupe"]);
    assert_eq!((status, out.as_str()), (0, "optimum -12 2: buy(tent) buy(rope)\n"));
    let sentences = [
        "priority 2: no answer set costs less than -12: certified as `cheapest` does, with a proof of ",
        "priority 1: with the totals before it no answer set costs less than 2: ",
    ];
    assert!(sentences.iter().all(|part| said.contains(part)), "{said}");
    for place in 1..=2 {
        let line = room.out(0, &format!("check best-{place}.drupe.aspif best-{place}.drupe"));
        assert!(line.starts_with("inconsistent "), "{line}");
    }
    let set = room.read("best.drupe.set");
    assert_eq!(room.out(0, &format!("test best.drupe.set.aspif {}", set.trim())), "yes\n");
    // A device has nothing beside it.
    room.out(0, "optimum p.lp -o /dev/null");
    assert!(!Path::new("/dev/null-1").exists() && !Path::new("/dev/null.set").exists());
    let json = room.out(0, "optimum p.lp --json");
    assert!(json.starts_with(r#"{"command": "optimum", "status": 0, "answer": "optimum", "costs": [-12, 2], "set": ["#), "{json}");
    assert!(json.contains(r#""levels": [{"priority": 2, "cost": -12, "service": "check_cheapest", "lines": "#), "{json}");
    assert_eq!(room.out(0, "optimum p.lp --assume buy(stove) buy(lamp)"), "optimum -12 4: buy(stove) buy(lamp) buy(rope) buy(map)\n");
    assert!(room.out(0, "optimum p.lp --assume buy(stove) buy(tent) buy(lamp)").starts_with("inconsistent "));
    // From what gringo writes it is the same, without names that are not shown.
    let ground = Command::new("gringo").args(["--output=intermediate", "p.lp"]).current_dir(&room.0).output().unwrap();
    room.file("p.aspif", &String::from_utf8(ground.stdout).unwrap());
    assert_eq!(room.out(0, "optimum p.aspif"), out);
}

#[test]
fn costs_of_every_kind() {
    let Some(room) = Room::of("kinds") else { return };
    for (plan, line) in [
        ("{a; b}. #minimize { 3: a; 3: b }.", "optimum 0:\n"),
        ("1 {a; b}. #minimize { 3,x: a; 5,y: b; -1,z: a }. f. #minimize { 7,f: f }.", "optimum 9: a f\n"),
        ("{a}. #maximize { 70000: a }.", "optimum -70000: a\n"),
        ("{a}. :~ not a. [4@2] :~ a. [-3@1, x] :~ a. [5@1, y]", "optimum 0 2: a\n"),
        ("{a; b}. :- not a. #minimize { 4095: a; 4096: b }.", "optimum 4095: a\n"),
        ("{a; b}. :- not a. #minimize { 20: a; 10: b }.", "optimum 20: a\n"),
        ("a. #minimize { 2: a; 3 : b }. {b}.", "optimum 2: a\n"),
    ] {
        room.file("p.lp", plan);
        assert_eq!(room.out(0, "optimum p.lp"), line, "{plan}");
    }
    room.file("p.lp", "{a; b}. :- not a. #minimize { 5003: a; 7: b }.");
    let (status, _, said) = room.run(&["optimum", "p.lp"]);
    assert!(
        status == 20 && said.contains("the library refuses the program with `:- #sum { 4096: a; 7: b } >= 4096.`, question 54: "),
        "{said}"
    );
    // Where the first set found is beyond the bounds, one below them is asked for.
    room.file("p.lp", "1 { a; b }. #minimize { 9001: a; 3: b }. :- not a, not c. {c}.");
    assert_eq!(room.out(0, "optimum p.lp"), "optimum 3: b c\n");
    room.file("p.lp", "{a}.");
    assert!(room.run(&["optimum", "p.lp"]).2.contains("has nothing to minimize"));
    room.out(20, "optimum p.lp");
}

#[test]
fn forced_atoms() {
    let Some(room) = Room::of("forced") else { return };
    room.file("p.lp", &DAYS.replace(", on(ann, 3).", ", on(bob, 3)."));
    let (status, out, said) = room.run(&["forced", "p.lp", "-o", "kept"]);
    assert_eq!((status, out.as_str()), (0, "always: on(bob,1)\nnever: on(ann,1)\nopen: on(ann,2) on(ann,3) on(bob,2) on(bob,3)\n"));
    assert!(said.starts_with("certified: the set test says yes to 2 answer sets, which show what is open\n"), "{said}");
    assert!(said.contains(" is the check's verdict on the proof for 1 that are always there\n"), "{said}");
    for name in ["always-1", "never-1"] {
        assert!(room.out(0, &format!("check kept/{name}.aspif kept/{name}.drupe")).starts_with("inconsistent "));
    }
    (1..=2).for_each(|place| room.assert_tested(&format!("kept/set-{place}")));
    assert_eq!(
        room.out(0, "forced p.lp --assume on(bob,3)"),
        "always: on(ann,2) on(bob,1) on(bob,3)\nnever: on(ann,1) on(ann,3) on(bob,2)\nopen:\n"
    );
    assert!(room.out(0, "forced p.lp --assume on(ann,1) -o kept").starts_with("inconsistent "));
    assert!(room.out(0, "check kept/none.aspif kept/none.drupe").starts_with("inconsistent "));
    assert!(room
        .out(0, "forced p.lp --json")
        .starts_with(r#"{"command": "forced", "status": 0, "answer": "forced", "always": ["on(bob,1)"], "#));
    // More than stand in one constraint, facts, and a program without names.
    room.file("p.lp", "f. {a(1..150)}. b(X) :- not a(X), X = 1..150. :- a(X), X > 2. :- not a(1).");
    let out = room.out(0, "forced p.lp");
    let lengths: Vec<usize> = out.lines().map(|line| line.split(' ').count() - 1).collect();
    assert_eq!(lengths, [150, 149, 2], "{out}");
    room.file("p.aspif", "asp 1 0 0\n1 1 2 1 3 0 0\n1 0 1 2 0 1 -1\n1 0 0 0 1 -1\n0\n");
    assert_eq!(room.out(0, "forced p.aspif"), "always: 1\nnever: 2\nopen: 3\n");
}

#[test]
fn pages() {
    let Some(room) = Room::of("pages") else { return };
    room.file("p.lp", DAYS);
    room.file("shop.lp", SHOP);
    for (words, parts) in [
        (
            "prove p.lp",
            &[
                "<h1>There is an answer set.</h1>",
                "<h3>on/2</h3>",
                "<td><span class=\"there\">\u{25cf}</span></td>",
                "<h2>To check it again</h2>\n<pre>aspdrupe test p.lp ",
            ][..],
        ),
        ("prove p.lp --assume on(ann,2)", &["aspdrupe ground p.lp --assume 'on(ann,2)' -o OUT.aspif\naspdrupe test OUT.aspif "]),
        ("prove p.lp --assume on(ann,1)", &["aspdrupe prove p.lp --assume 'on(ann,1)' --html page.html -o PROOF.drupe\n</pre>"]),
        ("core p.lp --assume on(ann,1)", &["The certificates were not kept.", " --html page.html -o DIR\n</pre>"]),
        ("forced p.lp", &["aspdrupe forced p.lp --html page.html -o DIR\n</pre>"]),
        ("optimum shop.lp", &["aspdrupe optimum shop.lp --html page.html -o PROOF.drupe\n</pre>"]),
        (
            "prove p.lp --assume on(ann,1) -o d",
            &["<h1>There is no answer set.</h1>", "aspdrupe ground p.lp --assume 'on(ann,1)' -o OUT.aspif\naspdrupe check OUT.aspif d"],
        ),
        (
            "core p.lp --assume on(ann,1) -o kept --ground",
            &[
                "<h1>There is no answer set, and 2 of 5 constraints together are the reason.</h1>",
                "<tr><td>line 4</td><td>:- on(ann, 1).</td></tr>",
                "<h2>Possible without line 4</h2>",
                "aspdrupe check kept/core.aspif kept/core.drupe\naspdrupe test kept/without-1.aspif $(cat kept/without-1.set)",
            ],
        ),
        ("core p.lp", &["<h1>There is an answer set.</h1>"]),
        (
            "optimum shop.lp -o best.drupe",
            &[
                "<h1>The least cost is -12 2.</h1>",
                "<tr><td>2</td><td>-12</td><td>check_cheapest</td></tr>",
                "aspdrupe check best-1.drupe.aspif best-1.drupe",
                "aspdrupe test best.drupe.set.aspif $(cat best.drupe.set)\n</pre>",
            ],
        ),
        (
            "forced p.lp -o forced",
            &[
                "<h1>Of what is shown, 3 are in every answer set, 3 in none, and 0 are open.</h1>",
                "<span class=\"never\">",
                "aspdrupe test forced/set-1.aspif $(cat forced/set-1.set)",
            ],
        ),
    ] {
        room.out(0, &format!("{words} --html page.html"));
        let page = room.read("page.html");
        assert!(page.starts_with("<!DOCTYPE html>\n<html lang=\"en\">") && page.ends_with("</html>\n"), "{words}");
        assert!(parts.iter().all(|part| page.contains(part)), "{words}: {page}");
        assert!(!page.contains("src=") && !page.contains("href=") && !page.contains("<script"), "{words}");
    }
    room.out(2, "prove p.lp --html p.lp");
    room.out(2, "prove p.lp --html x -o ./x --assume on(ann,1)");
    room.out(2, "core p.lp --html no/such/page.html");
    room.out(2, "core p.lp --html .");
    for words in
        ["prove p.lp --html /dev/full", "core p.lp --assume on(ann,1) -o full --html /dev/full", "forced p.lp -o full --html /dev/full"]
    {
        let (status, out, said) = room.run(&words.split(' ').collect::<Vec<_>>());
        assert!(
            status == 2 && out.is_empty() && said.ends_with("/dev/full cannot be written: No space left on device\n"),
            "{words}: {said}"
        );
    }
    assert_eq!(fs::read_dir(room.0.join("full")).unwrap().count(), 0);
}

/// A plan of `examples/plans`.
fn example(name: &str) -> String {
    format!("{}/../examples/plans/{name}.lp", env!("CARGO_MANIFEST_DIR"))
}

#[test]
fn splits_that_are_merged() {
    let Some(room) = Room::of("merged") else { return };
    for (name, depth) in [("pigeons", "1"), ("pigeons", "3"), ("cycle", "2"), ("colouring", "6"), ("week", "1")] {
        let (status, out, said) = room.run(&["prove", &example(name), "--split", depth, "-o", "kept"]);
        assert!(status == 0 && out.starts_with("inconsistent ") && !out.contains("ends"), "{name} {depth}: {out} {said}");
        assert_eq!(room.out(0, "check kept/program.aspif kept/program.drupe"), out, "{name} {depth}");
        fs::remove_dir_all(room.0.join("kept")).unwrap();
    }
    // The constraints of a path count as rules: with 1,022 there is room for two.
    let rows: String = (1..=1_021).map(|_| "1 0 0 0 2 1 -1000\n").collect();
    room.file("many.aspif", &format!("asp 1 0 0\n1 1 3 1 2 3 0 0\n{rows}0\n"));
    let (status, out, said) = room.run(&["prove", "many.aspif", "--split", "3"]);
    assert!(status == 0 && out.starts_with("answer set:") && said.starts_with("the program has room for 2 constraints more"), "{said}");
    // A program of which propagation leaves nothing is not split.
    room.file("p.lp", "a :- not a.");
    assert_eq!(room.out(0, "prove p.lp --split 6"), "inconsistent 1 1 5 6\n");
    assert!(room.out(0, &format!("prove {} --split 2 --json", example("pigeons"))).contains("\"verdict\": \"inconsistent\""));
    assert!(room.out(0, "prove p.lp --split 2 --html page.html -o out").starts_with("inconsistent "));
    assert!(room.read("page.html").contains("aspdrupe check out/program.aspif out/program.drupe"));
}

#[test]
fn splits_that_are_too_long_to_be_merged() {
    let Some(room) = Room::of("long-ends") else { return };
    let (status, out, said) =
        room.run(&["prove", &example("week-five"), "--split", "1", "--jobs", "2", "-o", "kept", "--html", "page.html"]);
    assert_eq!((status, out.as_str()), (0, "inconsistent in 2 ends\n"), "{said}");
    let tree = room.read("kept/program.tree");
    assert!(said.contains("\ncertified: of each of the 2 ends, that ") && said.contains("\nnot certified by the library: "), "{said}");
    let mut verdicts = String::new();
    for end in ["kept/end-1", "kept/end-2"] {
        let line = room.out(0, &format!("check {end}.aspif {end}.drupe"));
        assert!(said.contains(&format!(": {}, ", line.trim_end())), "{line} {said}");
        verdicts += &line;
    }
    assert_eq!(verdicts.matches("inconsistent ").count(), 2);
    let atom: u16 = tree.split(',').next().unwrap().parse().unwrap();
    let program = room.read("kept/program.aspif");
    for (end, constraint) in
        [("kept/end-1.aspif", format!("1 0 0 0 1 -{atom}\n0\n")), ("kept/end-2.aspif", format!("1 0 0 0 1 {atom}\n0\n"))]
    {
        assert_eq!(room.read(end), format!("{}{constraint}", program.strip_suffix("0\n").unwrap()));
    }
    // The merge is asked again, and says no: an end is beyond what it takes.
    let merge = format!("tree kept/program.aspif {} kept/end-1.drupe kept/end-2.drupe", tree.trim_end());
    assert_eq!(room.out(20, &merge), "refused merge 57\n");
    assert!(room.read("page.html").contains("aspdrupe check kept/end-2.aspif kept/end-2.drupe"));
}

// The first solver that is started waits; another finds an answer set, and then it is stopped.
#[test]
fn the_first_answer_set_ends_it() {
    let Some(room) = Room::of("first") else { return };
    fs::create_dir(room.0.join("tools")).unwrap();
    let script = "#!/bin/sh\nPATH=${PATH#*:}\nif mkdir first 2>/dev/null; then echo $$ >number; exec sleep 60; fi\nexec cadical \"$@\"\n";
    room.file("tools/cadical", script);
    fs::set_permissions(room.0.join("tools/cadical"), std::os::unix::fs::PermissionsExt::from_mode(0o755)).unwrap();
    let path = format!("{}:{}", room.0.join("tools").display(), std::env::var("PATH").unwrap());
    room.file("p.lp", "{a; b; c}. :- a, b.");
    let started = std::time::Instant::now();
    let mut command = Command::new(env!("CARGO_BIN_EXE_aspdrupe"));
    command.args(["prove", "p.lp", "--split", "1", "--jobs", "2"]).current_dir(&room.0).env("PATH", path);
    let output = command.stdin(Stdio::null()).output().unwrap();
    let out = String::from_utf8(output.stdout).unwrap();
    assert!(output.status.success() && out.starts_with("answer set:"), "{out}");
    assert!(started.elapsed().as_secs() < 50);
    let waited = room.read("number");
    while Path::new("/proc").join(waited.trim()).exists() {
        assert!(started.elapsed().as_secs() < 50);
    }
}
