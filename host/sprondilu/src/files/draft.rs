//! A file that is written beside the one that it will be.

use super::{is_under, system};
use std::fs::{self, File, Metadata, OpenOptions};
use std::io::{self, ErrorKind, Write};
use std::os::unix::fs::OpenOptionsExt;
use std::path::{Path, PathBuf};
use std::process;

/// It goes again unless it takes its place.
pub struct Draft {
    path: PathBuf,
    file: File,
}

impl Drop for Draft {
    fn drop(&mut self) {
        // After a rename nothing is under this name, and after an exchange there may be what is somebody else's.
        if self.has_its_name() {
            let _ = fs::remove_file(&self.path);
        }
    }
}

impl Draft {
    /// Writes and syncs the bytes in the folder of `place`. What will replace another file has its rights before it has any bytes,
    /// and is locked, so that whoever finds it in its place waits until it is sure to stay there.
    pub fn write(place: &Path, bytes: &[u8], like: Option<&Metadata>) -> io::Result<Draft> {
        // As long as the rights of the old file are not given to it, it is nobody else's to open.
        let mode = if like.is_some() { 0o600 } else { 0o666 };
        let draft = Draft::open(place, mode)?;
        if let Some(old) = like {
            system::lock(&draft.file)?;
            system::give_rights(&draft.file, old)?;
        }
        (&draft.file).write_all(bytes)?;
        draft.file.sync_all()?;
        Ok(draft)
    }

    /// A new file under a name that nobody has. Another process has another number; what a broken run left is left alone.
    fn open(place: &Path, mode: u32) -> io::Result<Draft> {
        let name = place
            .file_name()
            .ok_or_else(|| io::Error::from(ErrorKind::InvalidInput))?;
        // The longest name that a file may have leaves no room for more.
        let name: String = name.to_string_lossy().chars().take(40).collect();
        let mut new = OpenOptions::new();
        new.write(true).create_new(true).mode(mode);
        let mut turn = 0;
        loop {
            let path = place.with_file_name(format!(".{}.{}-{}.new", name, process::id(), turn));
            match new.open(&path) {
                Ok(file) => return Ok(Draft { path, file }),
                Err(error) if error.kind() == ErrorKind::AlreadyExists && turn < 1000 => turn += 1,
                Err(error) => return Err(error),
            }
        }
    }

    fn has_its_name(&self) -> bool {
        let ours = self.file.metadata();
        ours.map_or(false, |ours| is_under(&self.path, &ours))
    }

    /// Puts it under a name that nobody has; false if somebody has it, also if he took it just now. A second name for a file can
    /// only be one that nobody has. Some file systems know no second names, and a few of these no such rename either: there the
    /// name is taken first, by an empty file.
    pub fn place_new(&self, place: &Path) -> io::Result<bool> {
        let is_taken = |error: &io::Error| error.kind() == ErrorKind::AlreadyExists;
        let mut placed = fs::hard_link(&self.path, place);
        if matches!(&placed, Err(error) if !is_taken(error)) {
            placed = system::rename_to_new(&self.path, place);
        }
        match placed {
            Err(error) if is_taken(&error) => Ok(false),
            Err(error) if system::is_unknown(&error) => self.place_over_empty(place),
            other => other.map(|()| true),
        }
    }

    fn place_over_empty(&self, place: &Path) -> io::Result<bool> {
        let empty = match OpenOptions::new().write(true).create_new(true).open(place) {
            Err(error) if error.kind() == ErrorKind::AlreadyExists => return Ok(false),
            other => other?,
        };
        let about = empty.metadata()?;
        // Whoever may replace an empty file waits for its lock, and then sees that it is gone.
        let locked = system::lock(&empty);
        let placed = locked.and_then(|()| self.place_over(place, |name| is_under(name, &about)));
        if placed.is_err() && is_under(place, &about) {
            let _ = fs::remove_file(place);
        }
        placed
    }

    /// Puts it in the place of what was looked at, which `is_old` knows again under any name; or changes nothing, and says false,
    /// if something else is there by now.
    ///
    /// Whoever holds no lock may put something else there between the last look and a rename. So the two names are exchanged, and
    /// what came out is looked at: if it is not the old file, they are exchanged again. Where that is not known, a rename has to do.
    pub fn place_over(&self, place: &Path, is_old: impl Fn(&Path) -> bool) -> io::Result<bool> {
        if !is_old(place) {
            return Ok(false);
        }
        match system::exchange(&self.path, place) {
            Err(error) if system::is_unknown(&error) => {
                return fs::rename(&self.path, place).map(|()| true);
            }
            // It was removed just now.
            Err(error) if error.kind() == ErrorKind::NotFound => return Ok(false),
            other => other?,
        }
        if is_old(&self.path) {
            let _ = fs::remove_file(&self.path);
            return Ok(true);
        }
        self.give_back(place).map(|()| false)
    }

    /// What came out of its place goes back there, and stays under the draft's name if yet another file has come there meanwhile.
    fn give_back(&self, place: &Path) -> io::Result<()> {
        match system::exchange(&self.path, place) {
            Ok(()) if self.has_its_name() => Ok(()),
            _ => Err(io::Error::new(
                ErrorKind::Other,
                format!(
                    "others put files there at the same time; one of them is now {}",
                    self.path.display()
                ),
            )),
        }
    }
}
