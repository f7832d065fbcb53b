//! Runs other programs: what is handed to one, the lines that it writes, and how it ends.

use std::ffi::OsStr;
use std::io::{self, BufRead, BufReader, Read, Write};
use std::process::{Command, Stdio};

use crate::files::reason;
use crate::interrupt::Running;
use crate::outcome::Failure;

/// The bytes of a tool's complaints that are kept.
const COMPLAINTS: u64 = 65_536;

/// A program that has to be installed, by the name of its Debian package.
pub struct Tool {
    pub name: &'static str,
    pub package: &'static str,
    /// The exit statuses of a run that came to its end.
    pub good: &'static [i32],
}

/// How a tool ended.
pub struct Ended {
    /// Its exit status; none where a signal ended it.
    pub code: Option<i32>,
    /// What it wrote to its standard error, or the first of it.
    pub complaints: String,
}

impl Tool {
    /// Runs the tool on a text and goes through the lines that it writes, without their newlines. Where a line is not accepted, the tool is
    /// stopped.
    pub fn run(&self, arguments: &[&OsStr], text: &[u8], mut line: impl FnMut(&[u8]) -> Result<(), Failure>) -> Result<Ended, Failure> {
        let mut running = self.start(arguments)?;
        let (into, out, complaints) = (running.into.take(), running.out.take(), running.complaints.take());
        let (gone, complaints) = std::thread::scope(|scope| {
            // A tool that ends early does not read all of its input: how it ends says what was wrong.
            scope.spawn(move || into.map(|mut pipe| pipe.write_all(text)));
            let said = scope.spawn(move || complaints.map(first_of));
            let gone = out.map_or(Ok(Ok(())), |pipe| each_line(pipe, &mut line));
            if gone.is_err() {
                running.stop();
            }
            (gone, said.join().ok().flatten().unwrap_or_default())
        });
        let ended = running.ended(self.good).map_err(|error| self.failed(&error))?;
        gone?.map_err(|error| self.failed(&error))?;
        Ok(Ended { code: ended.code(), complaints })
    }

    fn start(&self, arguments: &[&OsStr]) -> Result<Running, Failure> {
        let mut command = Command::new(self.name);
        command.args(arguments).stdin(Stdio::piped()).stdout(Stdio::piped()).stderr(Stdio::piped());
        Running::start(&mut command).map_err(|error| match error.kind() {
            io::ErrorKind::NotFound => {
                Failure::misuse(format!("{} is not installed: it is in the Debian package `{}`", self.name, self.package))
            }
            _ => self.failed(&error),
        })
    }

    fn failed(&self, error: &io::Error) -> Failure {
        Failure::misuse(format!("{} cannot be run: {}", self.name, reason(error)))
    }
}

/// The first of what is written, to its end, so that the writer never waits.
fn first_of(pipe: impl Read) -> String {
    let mut kept = Vec::new();
    let mut pipe = pipe;
    let _ = pipe.by_ref().take(COMPLAINTS).read_to_end(&mut kept);
    let _ = io::copy(&mut pipe, &mut io::sink());
    String::from_utf8_lossy(&kept).into_owned()
}

/// Reads lines until the end, a fault or a line that is not accepted.
fn each_line(pipe: impl Read, line: &mut impl FnMut(&[u8]) -> Result<(), Failure>) -> Result<io::Result<()>, Failure> {
    let mut pipe = BufReader::new(pipe);
    let mut bytes = Vec::new();
    loop {
        bytes.clear();
        match pipe.read_until(b'\n', &mut bytes) {
            Ok(0) => return Ok(Ok(())),
            Ok(_) => line(bytes.strip_suffix(b"\n").unwrap_or(&bytes))?,
            Err(error) => return Ok(Err(error)),
        }
    }
}

#[cfg(test)]
mod tests {
    use super::*;

    const CAT: Tool = Tool { name: "cat", package: "coreutils", good: &[0] };

    #[test]
    fn lines_and_endings() {
        let mut lines = Vec::new();
        let ended = CAT.run(&[], b"one\n\ntwo", |line| {
            lines.push(String::from_utf8_lossy(line).into_owned());
            Ok(())
        });
        assert_eq!(ended.unwrap().code, Some(0));
        assert_eq!(lines, ["one", "", "two"]);
        let missing = CAT.run(&[OsStr::new("/nowhere/at/all")], b"", |_| Ok(())).unwrap();
        assert!(missing.code == Some(1) && missing.complaints.contains("/nowhere/at/all"));
    }

    #[test]
    fn a_line_that_is_not_accepted_stops_it() {
        let yes = Tool { name: "yes", package: "coreutils", good: &[0] };
        let mut count = 0;
        let stopped = yes.run(&[], b"", |_| {
            count += 1;
            if count < 5 {
                Ok(())
            } else {
                Err(Failure::refused("enough"))
            }
        });
        assert_eq!(stopped.err(), Some(Failure::refused("enough")));
    }

    #[test]
    fn a_tool_that_is_not_there() {
        let none = Tool { name: "no-such-tool-anywhere", package: "nothing", good: &[0] };
        let failure = none.run(&[], b"", |_| Ok(())).err().unwrap();
        assert_eq!(failure.message, "no-such-tool-anywhere is not installed: it is in the Debian package `nothing`");
    }
}
