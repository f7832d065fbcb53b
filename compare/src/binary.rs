//! Runs the program `verdict` in a folder of its own.

use std::fs;
use std::io;
use std::path::{Path, PathBuf};
use std::process::{Command, Stdio};

pub struct Binary {
    program: PathBuf,
    room: PathBuf,
}

impl Binary {
    pub fn of(program: &str) -> io::Result<Binary> {
        let room = std::env::temp_dir().join(format!("compare-{}", std::process::id()));
        fs::create_dir_all(&room)?;
        Ok(Binary { program: Path::new(program).canonicalize()?, room })
    }

    /// All that the program prints for the two texts; a text that is none has no file. Other endings than a good one are told.
    pub fn printed(&self, program: Option<&[u8]>, proof: Option<&[u8]>) -> String {
        self.run(program, proof).unwrap_or_else(|error| format!("could not be run: {error}"))
    }

    fn run(&self, program: Option<&[u8]>, proof: Option<&[u8]>) -> io::Result<String> {
        self.place("case.aspif", program)?;
        self.place("case.drupe", proof)?;
        let ended = Command::new(&self.program).current_dir(&self.room).stdin(Stdio::null()).output()?;
        let printed = String::from_utf8_lossy(&ended.stdout).into_owned();
        if ended.status.success() && ended.stderr.is_empty() {
            return Ok(printed);
        }
        Ok(format!("{printed} and ended with {} and {:?}", ended.status, String::from_utf8_lossy(&ended.stderr)))
    }

    fn place(&self, name: &str, text: Option<&[u8]>) -> io::Result<()> {
        let path = self.room.join(name);
        match text {
            Some(bytes) => fs::write(path, bytes),
            None if path.exists() => fs::remove_file(path),
            None => Ok(()),
        }
    }
}

impl Drop for Binary {
    fn drop(&mut self) {
        let _ = fs::remove_dir_all(&self.room);
    }
}
