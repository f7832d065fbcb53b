//! Subcommands, and the words of the command line that stand behind one.

use std::ffi::{OsStr, OsString};
use std::iter::Peekable;
use std::path::{Path, PathBuf};
use std::time::Duration;

use crate::certify::Limits;
use crate::files;
use crate::outcome::{Failure, Outcome};

/// A subcommand: how it is called, and what it does.
pub struct Subcommand {
    pub name: &'static str,
    /// What stands behind the name.
    pub form: &'static str,
    /// One sentence for the overview.
    pub about: &'static str,
    /// More of it, for the subcommand's own help.
    pub more: &'static str,
    /// The options with a value, beside `--json` and `--help`.
    pub options: &'static [&'static str],
    /// The options with any number of values: all words up to the next option.
    pub lists: &'static [&'static str],
    /// The options without a value.
    pub flags: &'static [&'static str],
    /// The places of the operands that are files to read.
    pub inputs: &'static [usize],
    /// The fewest and the most operands.
    pub operands: (usize, usize),
    pub run: fn(&Words) -> Result<Outcome, Failure>,
}

/// What is given behind a subcommand's name.
pub enum Given {
    Help,
    Work(Words),
}

/// Operands, and options with their values.
#[derive(Debug, Default, PartialEq, Eq)]
pub struct Words {
    /// The subcommand's name, and the words as they are written.
    name: &'static str,
    written: Vec<OsString>,
    operands: Vec<OsString>,
    values: Vec<(&'static str, OsString)>,
    lists: Vec<(&'static str, Vec<OsString>)>,
    flags: Vec<&'static str>,
}

/// The words of a table or a store that may be asked for: 4 GB.
const MOST_WORDS: usize = 1 << 30;

/// The lists that say something without a value: the empty set, and no costs.
const MAY_BE_EMPTY: [&str; 2] = ["--set", "--costs"];

/// The seconds that may be asked for.
const MOST_SECONDS: usize = 1_000_000;

/// The words of the table and of the store that the program `verdict` has.
pub const ROOM: usize = 16_384;

impl Words {
    /// The call as it can be written in a shell.
    pub fn call(&self) -> String {
        let words = self.written.iter().map(|word| in_shell(&word.to_string_lossy()));
        ["aspdrupe", self.name].map(String::from).into_iter().chain(words).collect::<Vec<_>>().join(" ")
    }

    /// An operand as a path.
    pub fn path(&self, place: usize) -> Result<&Path, Failure> {
        self.operand(place).map(Path::new)
    }

    pub fn operand(&self, place: usize) -> Result<&OsStr, Failure> {
        self.operands.get(place).map(OsString::as_os_str).ok_or_else(|| Failure::misuse("an operand is missing"))
    }

    /// The operands from a place on, as paths.
    pub fn paths_from(&self, place: usize) -> Vec<&Path> {
        self.operands.iter().skip(place).map(Path::new).collect()
    }

    /// The operands from a place on, as text.
    pub fn texts_from(&self, place: usize) -> Vec<String> {
        self.operands.iter().skip(place).map(|word| word.to_string_lossy().into_owned()).collect()
    }

    /// Whether an option without a value is given.
    pub fn has(&self, flag: &str) -> bool {
        self.flags.contains(&flag)
    }

    /// The value of an option, as text.
    pub fn text(&self, option: &str) -> Option<String> {
        self.value(option).map(|value| value.to_string_lossy().into_owned())
    }

    /// Whether an option that takes a list is given.
    pub fn given(&self, option: &str) -> bool {
        self.lists.iter().any(|(name, _)| *name == option)
    }

    /// The values of an option that takes a list, as text; none where it is not given.
    pub fn texts(&self, option: &str) -> Vec<String> {
        let list = self.lists.iter().find(|(name, _)| *name == option).map_or(&[][..], |(_, list)| list);
        list.iter().map(|word| word.to_string_lossy().into_owned()).collect()
    }

    /// The value of an option, as a path.
    pub fn output(&self, option: &str) -> Option<PathBuf> {
        self.value(option).map(PathBuf::from)
    }

    /// The number of an option, up to a most.
    pub fn count(&self, option: &str, most: usize, of: &str) -> Result<Option<usize>, Failure> {
        self.number(option, most, of)
    }

    /// The words of `--table` or `--store`, those of `verdict` where none are told.
    pub fn room(&self, option: &str) -> Result<usize, Failure> {
        self.room_told(option).map(|words| words.unwrap_or(ROOM))
    }

    /// The words of `--table` or `--store` that are told.
    pub fn room_told(&self, option: &str) -> Result<Option<usize>, Failure> {
        self.number(option, MOST_WORDS, "words")
    }

    /// What `--table`, `--store` and `--time` say.
    pub fn limits(&self) -> Result<Limits, Failure> {
        Ok(Limits { table: self.room("--table")?, store: self.room_told("--store")?, time: self.seconds("--time")? })
    }

    /// The seconds of an option.
    fn seconds(&self, option: &str) -> Result<Option<Duration>, Failure> {
        Ok(self.number(option, MOST_SECONDS, "seconds")?.map(|seconds| Duration::from_secs(seconds as u64)))
    }

    fn number(&self, option: &str, most: usize, of: &str) -> Result<Option<usize>, Failure> {
        let Some(value) = self.value(option) else { return Ok(None) };
        let number = value.to_str().and_then(|text| text.parse().ok()).filter(|number| *number <= most);
        let wrong = || Failure::misuse(format!("{option} takes a number of {of} up to {most}, not `{}`", value.to_string_lossy()));
        number.ok_or_else(wrong).map(Some)
    }

    fn value(&self, option: &str) -> Option<&OsStr> {
        self.values.iter().find(|(name, _)| *name == option).map(|(_, value)| value.as_os_str())
    }

    /// Takes an option in, with its value or its list.
    fn take<'a>(
        &mut self,
        subcommand: &Subcommand,
        text: &str,
        words: &mut Peekable<impl Iterator<Item = &'a OsString>>,
    ) -> Result<(), String> {
        let of = |known: &'static [&'static str]| known.iter().copied().find(|option| *option == text);
        let twice = || Err(format!("`{text}` stands twice"));
        if let Some(flag) = of(subcommand.flags) {
            self.flags.push(flag);
            return Ok(());
        }
        if let Some(option) = of(subcommand.lists) {
            if self.lists.iter().any(|(name, _)| *name == option) {
                return twice();
            }
            let list: Vec<OsString> = std::iter::from_fn(|| words.next_if(|word| !ends_list(subcommand, word)).cloned()).collect();
            if list.is_empty() && !MAY_BE_EMPTY.contains(&option) {
                return Err(format!("`{text}` needs a value"));
            }
            self.lists.push((option, list));
            return Ok(());
        }
        let option = of(subcommand.options).ok_or(format!("there is no option `{text}`"))?;
        let value = words.next().ok_or(format!("`{text}` needs a value"))?;
        if self.value(option).is_some() {
            return twice();
        }
        self.values.push((option, value.clone()));
        Ok(())
    }
}

/// A word with quotation marks where a shell would not take it as it is.
pub fn in_shell(word: &str) -> String {
    if !word.is_empty() && word.chars().all(|letter| letter.is_ascii_alphanumeric() || "-_./=,:@%+".contains(letter)) {
        return String::from(word);
    }
    format!("'{}'", word.replace('\'', "'\\''"))
}

/// Whether a word is an option, so that a list ends before it; a literal with its sign is none.
fn ends_list(subcommand: &Subcommand, word: &OsStr) -> bool {
    let text = word.to_str().unwrap_or("");
    text.starts_with("--") || text == "-h" || subcommand.options.contains(&text)
}

/// Reads the words behind a subcommand's name. `--` ends the options.
pub fn read(subcommand: &Subcommand, words: &[OsString]) -> Result<Given, String> {
    let mut given = Words { name: subcommand.name, written: words.to_vec(), ..Words::default() };
    let mut words = words.iter().peekable();
    while let Some(word) = words.next() {
        let text = word.to_str().unwrap_or("");
        match text {
            "--help" | "-h" => return Ok(Given::Help),
            "--json" => {}
            "--" => given.operands.extend(words.by_ref().cloned()),
            _ if text.starts_with('-') && text.len() > 1 => given.take(subcommand, text, &mut words)?,
            _ => given.operands.push(word.clone()),
        }
    }
    let (fewest, most) = subcommand.operands;
    match given.operands.len() {
        count if count < fewest => Err(format!("too few operands: aspdrupe {} {}", subcommand.name, subcommand.form)),
        count if count > most => Err(format!("too many operands: aspdrupe {} {}", subcommand.name, subcommand.form)),
        _ => Ok(Given::Work(given)),
    }
}

/// The options that name a file to write.
const OUTPUTS: [&str; 5] = ["-o", "--program", "--proof", "--html", "--dot"];

/// Refuses to write over what is read, and two outputs to one place.
pub fn keep_inputs(subcommand: &Subcommand, words: &Words) -> Result<(), Failure> {
    let mut taken: Vec<&Path> = subcommand.inputs.iter().filter_map(|place| words.path(*place).ok()).collect();
    for (option, value) in words.values.iter().filter(|(option, _)| OUTPUTS.contains(option)) {
        let path = Path::new(value);
        if taken.iter().any(|other| files::one_place(path, other)) {
            return Err(Failure::misuse(format!("{option} {} is an input or another output: another place for it", path.display())));
        }
        taken.push(path);
    }
    Ok(())
}

/// The help of the whole command.
pub fn overview(subcommands: &[&Subcommand]) -> String {
    let mut text = String::from("aspdrupe: from a program to a certified answer. What decides is a proved library.\n\n");
    for subcommand in subcommands {
        text += &format!("  aspdrupe {} {}\n      {}\n", subcommand.name, subcommand.form, subcommand.about);
    }
    text + "\n" + STATUS
}

/// The help of a subcommand.
pub fn help(subcommand: &Subcommand) -> String {
    format!("aspdrupe {} {}\n\n{}\n\n{}\n\n{STATUS}", subcommand.name, subcommand.form, subcommand.about, subcommand.more)
}

const STATUS: &str = "Everywhere: --help; --json prints one object. `--` ends the options.
Results go to the standard output, words for people to the standard error.
Exit status: 0 'inconsistent', 'yes' or 'cheapest', and where prove, core, optimum, forced or why answers; 10 'open', 'no' or 'undecided',
20 a refusal, 2 misuse (arguments, files, missing tools).
At ctrl-C no file is left half-written, and the command ends by the signal, which a shell shows as 130.\n";

#[cfg(test)]
mod tests {
    use super::*;

    const SAMPLE: Subcommand = Subcommand {
        name: "sample",
        form: "FILE..",
        about: "",
        more: "",
        options: &["-o", "--store"],
        lists: &["--set", "--assume"],
        flags: &["--all"],
        inputs: &[0],
        operands: (1, 2),
        run: |_| Err(Failure::misuse("")),
    };

    fn given(line: &str) -> Result<Words, String> {
        let words: Vec<OsString> = line.split_whitespace().map(OsString::from).collect();
        match read(&SAMPLE, &words)? {
            Given::Help => Err(String::from("help")),
            Given::Work(words) => Ok(words),
        }
    }

    #[test]
    fn options_and_operands() {
        let words = given("--json a -o out b").unwrap();
        assert_eq!(words.texts_from(0), ["a", "b"]);
        assert_eq!(words.output("-o"), Some(PathBuf::from("out")));
        assert_eq!(words.room("--store"), Ok(ROOM));
        assert_eq!(given("-- -o --help").unwrap().texts_from(0), ["-o", "--help"]);
        assert_eq!(given("a --store 7").unwrap().room("--store"), Ok(7));
        assert_eq!(given("- -").unwrap().texts_from(1), ["-"]);
        assert_eq!(given("a b(1) --set it's").unwrap().call(), "aspdrupe sample a 'b(1)' --set 'it'\\''s'");
    }

    #[test]
    fn lists() {
        let words = given("a --set -2=7 b - -o out --json").unwrap();
        assert_eq!(words.texts("--set"), ["-2=7", "b", "-"]);
        assert_eq!((words.texts_from(0), words.output("-o")), (vec![String::from("a")], Some(PathBuf::from("out"))));
        assert_eq!(given("--set b -- a").unwrap().texts_from(0), ["a"]);
        assert!(given("a --set").unwrap().texts("--set").is_empty() && given("a").unwrap().texts("--set").is_empty());
        assert!(given("a --set b --all").unwrap().has("--all") && !given("a --set b").unwrap().has("--all"));
    }

    #[test]
    fn misuse() {
        for (line, part) in [
            ("", "too few"),
            ("a b c", "too many"),
            ("a -x", "no option `-x`"),
            ("a -o", "needs a value"),
            ("a -o b -o c", "twice"),
            ("a --set b --set", "twice"),
            ("a --assume", "`--assume` needs a value"),
            ("a --assume --all", "`--assume` needs a value"),
            ("--set a b", "too few"),
            ("a --set b -h", "help"),
            ("a b --help", "help"),
        ] {
            assert!(given(line).unwrap_err().contains(part), "{line}");
        }
        for value in ["-1", "x", "1073741825", "99999999999999999999"] {
            assert!(given(&format!("a --store {value}")).unwrap().room("--store").is_err(), "{value}");
        }
    }
}
