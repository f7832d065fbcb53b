//! Interrupts: ctrl-C, and what else asks the command to end. Files that are being written go, tools that run are ended, one line is said, and
//! the command ends by the signal, which a shell shows as 130 for ctrl-C.

use std::fs::{self, File, OpenOptions};
use std::io;
use std::path::{Path, PathBuf};
use std::process::{Child, ChildStderr, ChildStdin, ChildStdout, Command, ExitStatus};
use std::sync::mpsc::{Receiver, RecvTimeoutError};
use std::sync::{Mutex, MutexGuard, PoisonError};
use std::time::Duration;

use crate::signals;

/// How often it is asked whether a signal came.
const TURN: Duration = Duration::from_millis(20);

/// How long a tool's end is held back that the same ctrl-C may have brought about.
const GRACE: Duration = Duration::from_millis(60);

/// What is at work when a signal comes.
struct AtWork {
    /// Files that are not whole yet.
    files: Vec<PathBuf>,
    tools: Vec<Child>,
    /// Whether no tool is to run any more.
    stopped: bool,
    /// Whether an answer is shown, or about to be.
    answered: bool,
}

static AT_WORK: Mutex<AtWork> = Mutex::new(AtWork { files: Vec::new(), tools: Vec::new(), stopped: false, answered: false });

fn locked() -> MutexGuard<'static, AtWork> {
    AT_WORK.lock().unwrap_or_else(PoisonError::into_inner)
}

/// What is at work, to change it. After a signal nothing changes any more: who asks waits for the end.
fn at_work() -> MutexGuard<'static, AtWork> {
    let work = locked();
    if signals::caught().is_none() {
        return work;
    }
    drop(work);
    loop {
        std::thread::park();
    }
}

/// Waits for what another thread sends, none where it sends nothing. Where a signal comes first, the command ends, after the last word where no
/// answer is shown yet.
pub fn wait_for<T>(answer: &Receiver<T>, last_word: impl Fn(i32)) -> Option<T> {
    loop {
        match answer.recv_timeout(TURN) {
            Ok(answer) => return Some(answer),
            Err(RecvTimeoutError::Disconnected) => return None,
            Err(RecvTimeoutError::Timeout) => {}
        }
        if let Some(signal) = signals::caught() {
            end(signal, &last_word);
        }
    }
}

/// Takes away what is at work, and ends the command.
fn end(signal: i32, last_word: impl Fn(i32)) {
    let mut work = locked();
    clear(&mut work);
    signals::let_through(signal);
    if !work.answered {
        last_word(signal);
    }
    signals::end_by(signal);
}

fn clear(work: &mut AtWork) {
    for file in work.files.drain(..) {
        let _ = fs::remove_file(file);
    }
    for tool in &mut work.tools {
        let _ = tool.kill();
        let _ = tool.wait();
    }
}

/// An answer is shown from now on.
pub fn answer() {
    at_work().answered = true;
}

/// Stops all tools that run; none is started any more.
pub fn stop_tools() {
    let mut work = at_work();
    work.stopped = true;
    for tool in &mut work.tools {
        let _ = tool.kill();
    }
}

/// Creates a file that is not whole yet.
pub fn create(path: &Path) -> io::Result<File> {
    let mut work = at_work();
    let file = OpenOptions::new().write(true).create_new(true).open(path)?;
    work.files.push(path.into());
    Ok(file)
}

/// Removes a file that was created here and will not be whole.
pub fn remove(path: &Path) {
    let mut work = at_work();
    work.files.retain(|file| file != path);
    let _ = fs::remove_file(path);
}

/// Does what takes a moment, where no signal came before it.
pub fn unless_ended<T>(work: impl FnOnce() -> T) -> T {
    let _at_work = at_work();
    work()
}

/// Renames files that were created here and are whole. Where one cannot be renamed, it and those after it are removed.
pub fn rename(places: &[(PathBuf, PathBuf)]) -> Result<(), (PathBuf, io::Error)> {
    let mut work = at_work();
    work.files.retain(|file| !places.iter().any(|(from, _)| from == file));
    for (place, (from, to)) in places.iter().enumerate() {
        if let Err(error) = fs::rename(from, to) {
            places[place..].iter().for_each(|(from, _)| drop(fs::remove_file(from)));
            return Err((to.clone(), error));
        }
    }
    Ok(())
}

/// A tool that runs: its number, and its pipes.
pub struct Running {
    id: u32,
    pub into: Option<ChildStdin>,
    pub out: Option<ChildStdout>,
    pub complaints: Option<ChildStderr>,
}

impl Running {
    pub fn start(command: &mut Command) -> io::Result<Running> {
        let mut work = at_work();
        if work.stopped {
            return Err(io::ErrorKind::Interrupted.into());
        }
        let mut tool = command.spawn()?;
        let running = Running { id: tool.id(), into: tool.stdin.take(), out: tool.stdout.take(), complaints: tool.stderr.take() };
        work.tools.push(tool);
        Ok(running)
    }

    /// Stops it before its end.
    pub fn stop(&self) {
        at_work().tools.iter_mut().filter(|tool| tool.id() == self.id).for_each(|tool| {
            let _ = tool.kill();
        });
    }

    /// Waits for its end. A ctrl-C at a terminal goes to the tool too and may end it first: where it ended by itself, but not as it should, the
    /// signal is waited for.
    pub fn ended(self, good: &[i32]) -> io::Result<ExitStatus> {
        let mut pause = Duration::from_micros(50);
        let ended = loop {
            if let Some(ended) = self.is_ended()? {
                break ended;
            }
            std::thread::sleep(pause);
            pause = TURN.min(2 * pause);
        };
        if !ended.code().is_some_and(|code| good.contains(&code)) {
            std::thread::sleep(GRACE);
        }
        Ok(ended)
    }

    fn is_ended(&self) -> io::Result<Option<ExitStatus>> {
        let mut work = at_work();
        let tool = work.tools.iter_mut().find(|tool| tool.id() == self.id).ok_or(io::ErrorKind::NotFound)?;
        let ended = tool.try_wait();
        if !matches!(ended, Ok(None)) {
            work.tools.retain(|tool| tool.id() != self.id);
        }
        ended
    }
}

#[cfg(test)]
mod tests {
    use super::*;

    #[test]
    fn what_is_at_work_goes() {
        let file = std::env::temp_dir().join(format!("aspdrupe-at-work-{}", std::process::id()));
        fs::write(&file, "half").unwrap();
        let tool = Command::new("sleep").arg("60").spawn().unwrap();
        let mut work = AtWork { files: vec![file.clone()], tools: vec![tool], stopped: false, answered: false };
        clear(&mut work);
        assert!(!file.exists());
        assert_eq!(work.tools[0].try_wait().unwrap().and_then(|ended| ended.code()), None);
        assert!(work.tools[0].try_wait().unwrap().is_some());
    }

    #[test]
    fn files_are_at_work_until_they_are_whole() {
        let folder = std::env::temp_dir().join(format!("aspdrupe-rename-{}", std::process::id()));
        fs::create_dir_all(folder.join("folder")).unwrap();
        let names = ["part", "more", "whole", "folder"].map(|name| folder.join(name));
        let [part, more, whole, taken] = &names;
        let is_there = || (locked().files.iter().any(|file| file == part || file == more), part.exists(), whole.exists());
        create(part).unwrap();
        assert!(create(part).is_err());
        assert_eq!(is_there(), (true, true, false));
        rename(&[(part.clone(), whole.clone())]).unwrap();
        assert_eq!(is_there(), (false, false, true));
        create(part).unwrap();
        remove(part);
        assert_eq!(is_there(), (false, false, true));
        create(part).unwrap();
        create(more).unwrap();
        assert_eq!(rename(&[(part.clone(), taken.clone()), (more.clone(), whole.clone())]).unwrap_err().0, *taken);
        assert!(is_there() == (false, false, true) && !more.exists());
        fs::remove_dir_all(folder).unwrap();
    }
}
