//! Files read whole, and files written whole or not at all.

use std::fs::{self, File, OpenOptions};
use std::io::{self, Read, Write};
use std::os::unix::fs::MetadataExt;
use std::path::{Path, PathBuf};
use std::sync::atomic::{AtomicUsize, Ordering};

use crate::interrupt;
use crate::outcome::Failure;

/// The most bytes of a text that the library takes, and of a proof that its long check does.
pub const TEXT_LIMIT: usize = 65_535;
pub const PROOF_LIMIT: usize = 2_147_483_647;

/// The file's bytes; of a longer file the first so many and one more, so that its length can be refused.
pub fn read(path: &Path, limit: usize) -> Result<Vec<u8>, Failure> {
    let mut bytes = Vec::new();
    let opened = File::open(path).and_then(|file| file.take(limit as u64 + 1).read_to_end(&mut bytes));
    opened.map_err(|error| Failure::misuse(format!("{} cannot be read: {}", path.display(), reason(&error))))?;
    Ok(bytes)
}

/// Whether another program that opens the path reads the same bytes again: it is a regular file, and not our standard input, which the other has not.
pub fn reads_again(path: &Path) -> bool {
    fs::metadata(path).is_ok_and(|about| about.is_file()) && !same(path, Path::new("/dev/stdin"))
}

/// Whether what is written to the one is written over the other: they are one regular file, or would be. A device or a pipe takes everything.
pub fn one_place(one: &Path, other: &Path) -> bool {
    let folder = |path: &Path| path.parent().map(|folder| if folder.as_os_str().is_empty() { PathBuf::from(".") } else { folder.into() });
    match (fs::metadata(one), fs::metadata(other)) {
        (Ok(about), Ok(_)) => about.is_file() && same(one, other),
        (Err(_), Err(_)) if one.file_name() == other.file_name() => {
            folder(one).zip(folder(other)).is_some_and(|(one, other)| same(&one, &other))
        }
        _ => false,
    }
}

/// Whether both are there, and one file.
fn same(one: &Path, other: &Path) -> bool {
    let place = |path: &Path| fs::metadata(path).map(|about| (about.dev(), about.ino())).ok();
    place(one).is_some_and(|found| place(other) == Some(found))
}

/// Writes a file whole or not at all.
pub fn write(path: &Path, bytes: &[u8]) -> Result<(), Failure> {
    write_together(&[(path, bytes)])
}

/// Writes all of the files or none: each beside its place, and when all are whole they are renamed, so that no half of one is ever there. What is
/// no regular file, like a device or a pipe, is written as it is.
pub fn write_together(files: &[(&Path, &[u8])]) -> Result<(), Failure> {
    let mut staged = Staged::default();
    for (path, bytes) in files {
        let written = match fs::metadata(path) {
            Ok(about) if about.is_dir() => Err(io::Error::from(io::ErrorKind::IsADirectory)),
            Ok(about) if !about.is_file() => OpenOptions::new().write(true).open(path).and_then(|mut file| file.write_all(bytes)),
            Ok(about) => fs::canonicalize(path).and_then(|place| staged.add(&place, bytes, Some(about.permissions()))),
            Err(_) => staged.add(path, bytes, None),
        };
        written.map_err(|error| unwritten(path, &error))?;
    }
    let places = std::mem::take(&mut staged.0);
    interrupt::rename(&places).map_err(|(path, error)| unwritten(&path, &error))
}

/// Removes a file.
pub fn remove(path: &Path) -> Result<(), Failure> {
    let removed = interrupt::unless_ended(|| fs::remove_file(path));
    removed.map_err(|error| Failure::misuse(format!("{} cannot be removed: {}", path.display(), reason(&error))))
}

fn unwritten(path: &Path, error: &io::Error) -> Failure {
    Failure::misuse(format!("{} cannot be written: {}", path.display(), reason(error)))
}

/// Files beside their places, with the places. Those that are left when this goes are removed.
#[derive(Default)]
struct Staged(Vec<(PathBuf, PathBuf)>);

impl Staged {
    fn add(&mut self, place: &Path, bytes: &[u8], permissions: Option<fs::Permissions>) -> io::Result<()> {
        let (beside, mut file) = beside(place)?;
        self.0.push((beside, place.into()));
        if let Some(permissions) = permissions {
            file.set_permissions(permissions)?;
        }
        file.write_all(bytes).and_then(|()| file.sync_all())
    }
}

impl Drop for Staged {
    fn drop(&mut self) {
        self.0.iter().for_each(|(beside, _)| interrupt::remove(beside));
    }
}

/// The names beside a place that are tried, from the one after the last that was taken.
const MOST_NAMES: usize = 100;
static NEXT_NAME: AtomicUsize = AtomicUsize::new(0);

/// A new file in the same folder, with a hidden name that no other run takes.
fn beside(place: &Path) -> io::Result<(PathBuf, File)> {
    place.file_name().ok_or(io::ErrorKind::InvalidInput)?;
    let number = || NEXT_NAME.fetch_add(1, Ordering::Relaxed);
    let mut names = (0..MOST_NAMES).map(|_| place.with_file_name(format!(".aspdrupe.{}.{}", std::process::id(), number())));
    let made = names.find_map(|path| match interrupt::create(&path) {
        // One that another run with this number was made to leave.
        Err(error) if error.kind() == io::ErrorKind::AlreadyExists => None,
        made => Some(made.map(|file| (path, file))),
    });
    made.unwrap_or(Err(io::ErrorKind::AlreadyExists.into()))
}

/// The system's words without its number.
pub fn reason(error: &io::Error) -> String {
    let words = error.to_string();
    words.split_once(" (os error").map_or(words.clone(), |(before, _)| String::from(before))
}

#[cfg(test)]
mod tests {
    use super::*;
    use std::os::unix::fs::PermissionsExt;

    #[test]
    fn written_whole_or_not_at_all() {
        let folder = std::env::temp_dir().join(format!("aspdrupe-files-{}", std::process::id()));
        fs::create_dir_all(&folder).unwrap();
        let path = folder.join("out");
        write(&path, b"one").unwrap();
        write(&path, b"two").unwrap();
        assert_eq!(read(&path, 9).unwrap(), b"two");
        assert_eq!(read(&path, 1).unwrap(), b"tw");
        assert_eq!(fs::read_dir(&folder).unwrap().count(), 1);
        let missing = write(&folder.join("no/out"), b"three").unwrap_err();
        assert!(missing.message.ends_with("cannot be written: No such file or directory"), "{}", missing.message);
        assert!(write(&folder, b"four").unwrap_err().message.ends_with("is a directory"));
        assert!(read(&folder, 9).unwrap_err().message.ends_with("cannot be read: Is a directory"));
        fs::remove_dir_all(folder).unwrap();
    }

    #[test]
    fn all_are_written_or_none() {
        let folder = std::env::temp_dir().join(format!("aspdrupe-together-{}", std::process::id()));
        fs::create_dir_all(folder.join("folder")).unwrap();
        let [one, two] = ["one", "two"].map(|name| folder.join(name));
        let count = || fs::read_dir(&folder).unwrap().count();
        for wrong in [folder.join("folder"), folder.join("no/such"), PathBuf::from("/dev/full")] {
            assert!(write_together(&[(&one, b"1"), (&wrong, b"2"), (&two, b"3")]).is_err());
            assert_eq!(count(), 1, "{}", wrong.display());
        }
        fs::write(&one, "").unwrap();
        fs::set_permissions(&one, fs::Permissions::from_mode(0o600)).unwrap();
        // As a run that was killed leaves it; other tests may take numbers too.
        let next = NEXT_NAME.load(Ordering::Relaxed);
        (next..next + 9).for_each(|number| fs::write(folder.join(format!(".aspdrupe.{}.{number}", std::process::id())), "").unwrap());
        write_together(&[(&one, b"1"), (&two, b"2")]).unwrap();
        assert_eq!((fs::read(&one).unwrap(), fs::read(&two).unwrap(), count()), (b"1".to_vec(), b"2".to_vec(), 12));
        assert_eq!(fs::metadata(&one).unwrap().permissions().mode() & 0o777, 0o600);
        fs::remove_dir_all(folder).unwrap();
    }

    #[test]
    fn devices_stay() {
        assert!(write(Path::new("/dev/full"), b"text").unwrap_err().message.ends_with("No space left on device"));
        assert!(!fs::metadata("/dev/full").unwrap().is_file());
        write(Path::new("/dev/null"), b"text").unwrap();
    }
}
