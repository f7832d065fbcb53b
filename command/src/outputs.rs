//! What a subcommand leaves behind: certificates (programs with their names, proofs, answer sets) and a page, all
//! written together. In a folder they take the place of those of an earlier run.

use std::fs;
use std::path::{Path, PathBuf};

use crate::arguments::{in_shell, Words};
use crate::certify::{AnswerSet, Refuted};
use crate::files;
use crate::names::Names;
use crate::outcome::{Failure, Outcome, Status};
use crate::page::{Again, Page};

/// Files that are to be written together, all or none.
pub struct Outputs<'a> {
    words: &'a Words,
    names: &'a Names,
    files: Vec<(PathBuf, Vec<u8>)>,
    /// How the names of files begin that are kept in the folder of -o, where it names one; a number stands behind `-`.
    kept: &'static [&'static str],
}

/// What stands behind that in the names of files.
const ENDINGS: [&str; 5] = ["aspif", "aspif.names", "drupe", "set", "tree"];

impl<'a> Outputs<'a> {
    /// Outputs of a subcommand whose -o names a file.
    pub fn of(words: &'a Words, names: &'a Names) -> Outputs<'a> {
        Outputs::in_folder(words, names, &[])
    }

    /// Outputs of a subcommand whose -o names a folder, with how the names of its files begin.
    pub fn in_folder(words: &'a Words, names: &'a Names, kept: &'static [&'static str]) -> Outputs<'a> {
        Outputs { words, names, files: Vec::new(), kept }
    }

    /// A file of the folder that -o names; none where it names none.
    pub fn put(&mut self, name: &str, bytes: &[u8]) {
        self.files.extend(self.words.output("-o").map(|folder| (folder.join(name), bytes.to_vec())));
    }

    /// In the folder of -o, a program as NAME.aspif and its proof as NAME.drupe.
    pub fn proof(&mut self, name: &str, refuted: &Refuted) {
        self.put(&format!("{name}.aspif"), &refuted.text);
        self.put(&format!("{name}.drupe"), refuted.proof.text.as_bytes());
    }

    /// In the folder of -o, a program as NAME.aspif and the atoms of its answer set as NAME.set.
    pub fn set(&mut self, name: &str, set: &AnswerSet) {
        self.put(&format!("{name}.aspif"), &set.text);
        self.put(&format!("{name}.set"), set.line().as_bytes());
    }

    /// A proof as this file, and its program beside it, with `.aspif` behind the name.
    pub fn proof_at(&mut self, path: &Path, refuted: &Refuted) {
        self.file(path, refuted.proof.text.as_bytes());
        self.beside(path, ".aspif", &refuted.text);
    }

    /// An answer set beside this file, with `.set` behind the name, and its program, with `.set.aspif` behind it.
    pub fn set_at(&mut self, path: &Path, set: &AnswerSet) {
        self.beside(path, ".set", set.line().as_bytes());
        self.beside(path, ".set.aspif", &set.text);
    }

    /// A file beside another; a device or a pipe has nothing beside it.
    fn beside(&mut self, path: &Path, ending: &str, bytes: &[u8]) {
        if is_place(path) {
            self.file(&behind(path, ending), bytes);
        }
    }

    pub fn file(&mut self, path: &Path, bytes: &[u8]) {
        self.files.push((path.into(), bytes.to_vec()));
    }

    /// Writes everything, with the page where --html asks for one, but not over the input.
    pub fn write(mut self, page: Page, input: &Path, outcome: &mut Outcome) -> Result<(), Failure> {
        let programs: Vec<(PathBuf, Vec<u8>)> =
            self.files.iter().filter(|(path, _)| path.extension().is_some_and(|ending| ending == "aspif")).cloned().collect();
        for (path, bytes) in programs.iter().filter(|_| !self.names.is_empty()) {
            self.files.push(self.names.file_beside(path, bytes)?);
        }
        let nothing_kept = self.files.is_empty();
        if let Some(path) = self.words.output("--html") {
            let text = page.text(self.words);
            self.file(&path, text.as_bytes());
            outcome.words.push(format!("the page is {}", path.display()));
        }
        let earlier = self.earlier();
        if let Some(path) = self.files.iter().map(|(path, _)| path).chain(&earlier).find(|path| files::one_place(path, input)) {
            return Err(Failure::misuse(format!("{} is an input: another place for -o", path.display())));
        }
        if !self.kept.is_empty() && !nothing_kept {
            self.make_folder()?;
        }
        let files: Vec<(&Path, &[u8])> = self.files.iter().map(|(path, bytes)| (path.as_path(), bytes.as_slice())).collect();
        files::write_together(&files)?;
        if nothing_kept {
            outcome.words.extend(self.nothing_kept());
        }
        self.replaced(&earlier, outcome)
    }

    fn make_folder(&self) -> Result<(), Failure> {
        let Some(folder) = self.words.output("-o") else { return Ok(()) };
        let cannot = |error| Failure::misuse(format!("{} cannot be made: {}", folder.display(), files::reason(&error)));
        fs::create_dir_all(&folder).map_err(cannot)
    }

    /// What is said where -o names a place and there is nothing to keep.
    fn nothing_kept(&self) -> Option<String> {
        let path = self.words.output("-o")?;
        let there = if self.kept.is_empty() && path.is_file() { "; what stands there is of an earlier run" } else { "" };
        Some(format!("there is nothing to keep, and nothing is written to {}{there}", path.display()))
    }

    /// The files in the folder of -o that have names as this subcommand gives them, and are not written now.
    fn earlier(&self) -> Vec<PathBuf> {
        let Some(folder) = self.words.output("-o").filter(|_| !self.kept.is_empty()) else { return Vec::new() };
        let entries = fs::read_dir(&folder).into_iter().flatten().flatten();
        let files = entries.filter(|entry| entry.file_type().is_ok_and(|kind| kind.is_file()));
        let named = files.filter(|entry| entry.file_name().to_str().is_some_and(|name| is_kept(name, self.kept)));
        let mut earlier: Vec<PathBuf> = named.map(|entry| folder.join(entry.file_name())).collect();
        earlier.retain(|path| !self.files.iter().any(|(written, _)| files::one_place(path, written)));
        earlier.sort();
        earlier
    }

    /// Removes what an earlier run left, where this one has an answer, and says so.
    fn replaced(&self, earlier: &[PathBuf], outcome: &mut Outcome) -> Result<(), Failure> {
        if earlier.is_empty() {
            return Ok(());
        }
        let names = earlier.iter().filter_map(|path| path.file_name()).map(|name| name.to_string_lossy()).collect::<Vec<_>>().join(" ");
        if outcome.status != Status::Good {
            outcome.words.push(format!("of an earlier run, and left as they are: {names}"));
            return Ok(());
        }
        outcome.words.push(format!("removed, since an earlier run left them: {names}"));
        earlier.iter().try_for_each(|path| files::remove(path))
    }
}

/// How the proofs and the answer sets of these names that a folder keeps are checked again.
pub fn again(words: &Words, proofs: &[String], sets: &[String]) -> Again {
    let Some(folder) = words.output("-o") else { return Again::With("-o DIR") };
    let path = |name: &str, ending: &str| folder.join(format!("{name}.{ending}"));
    let checks = proofs.iter().map(|name| check_call(&path(name, "aspif"), &path(name, "drupe")));
    Again::Calls(checks.chain(sets.iter().map(|name| test_call(&path(name, "aspif"), &path(name, "set")))).collect())
}

/// The call that checks a proof.
pub fn check_call(program: &Path, proof: &Path) -> String {
    format!("aspdrupe check {} {}", in_shell(&program.to_string_lossy()), in_shell(&proof.to_string_lossy()))
}

/// The call that tests the set of a file.
pub fn test_call(program: &Path, set: &Path) -> String {
    format!("aspdrupe test {} $(cat {})", in_shell(&program.to_string_lossy()), in_shell(&set.to_string_lossy()))
}

/// Whether a path is a place for a file, and no device or pipe.
pub fn is_place(path: &Path) -> bool {
    !path.exists() || path.is_file()
}

/// A path with more behind its name.
pub fn behind(path: &Path, ending: &str) -> PathBuf {
    let mut whole = path.as_os_str().to_owned();
    whole.push(ending);
    PathBuf::from(whole)
}

/// Whether a file's name is one that begins so and has an ending as they are kept.
fn is_kept(name: &str, kept: &[&str]) -> bool {
    let Some((stem, ending)) = name.split_once('.') else { return false };
    let is_number = |rest: &str| rest.parse::<usize>().is_ok_and(|number| number > 0 && number.to_string() == rest);
    let begins = |begin: &&str| if begin.ends_with('-') { stem.strip_prefix(begin).is_some_and(is_number) } else { stem == *begin };
    ENDINGS.contains(&ending) && kept.iter().any(begins)
}

#[cfg(test)]
mod tests {
    use super::*;

    #[test]
    fn names_of_files_that_are_kept() {
        let kept = |name: &str| is_kept(name, &["core", "without-"]);
        for name in ["core.aspif", "core.aspif.names", "core.drupe", "without-1.set", "without-12.aspif"] {
            assert!(kept(name), "{name}");
        }
        for name in [
            "core",
            "core.lp",
            "core.set.aspif",
            "core-1.aspif",
            "without-.set",
            "without-0.set",
            "without-01.set",
            "without-x.set",
            ".set",
        ] {
            assert!(!kept(name), "{name}");
        }
    }
}
