//! A table file that one run alone may change.

use super::draft::Draft;
use super::{cannot_write, system, trouble};
use super::{has_still, is_replaceable, is_under, open_to_change, read_open, sync_folder_of};
use crate::ends::Stop;
use std::fs::File;
use std::io::{self, ErrorKind};
use std::path::{Path, PathBuf};

/// It is held until this is dropped.
pub struct Held {
    /// Where it is, links followed, so that a link to it stays one.
    path: PathBuf,
    /// The lock is on the open file.
    file: File,
    is_writable: bool,
    pub bytes: Vec<u8>,
}

impl Held {
    /// Waits until no other run holds the file, and reads it.
    ///
    /// A run that changes the file puts another in its place, so that whoever waited has the lock of a file that is no longer
    /// under the name. So the name is looked up again under the lock, and if it is another file now, all begins anew.
    pub fn of(name: &Path) -> Result<Held, Stop> {
        let cannot = |error: io::Error| trouble("read", name, &error);
        loop {
            let path = name.canonicalize().map_err(cannot)?;
            let (file, is_writable) = open_to_change(&path).map_err(cannot)?;
            let ours = file.metadata().map_err(cannot)?;
            is_replaceable("read", &ours, name)?;
            system::lock(&file).map_err(|error| trouble("lock", name, &error))?;
            if !is_under(&path, &ours) {
                continue;
            }
            let bytes = read_open(&file, name)?;
            return Ok(Held {
                path,
                file,
                is_writable,
                bytes,
            });
        }
    }

    pub fn is(&self, other: &Path) -> bool {
        other
            .canonicalize()
            .map_or(false, |other| other == self.path)
    }

    /// Puts a file with these bytes in the place of the one that is held.
    pub fn replace(&self, bytes: &[u8]) -> Result<(), Stop> {
        let cannot = |error: io::Error| trouble("write", &self.path, &error);
        if !self.is_writable {
            return Err(cannot(io::Error::from(ErrorKind::PermissionDenied)));
        }
        let old = self.file.metadata().map_err(cannot)?;
        let draft = Draft::write(&self.path, bytes, Some(&old)).map_err(cannot)?;
        let is_old = |name: &Path| {
            is_under(name, &old) && has_still(&self.file, name, |bytes| bytes == self.bytes)
        };
        if !draft.place_over(&self.path, is_old).map_err(cannot)? {
            let why = "somebody changed, moved or removed it while the message was answered. Nothing is stored, and no reply is \
                       given: the message is to be answered again";
            return Err(cannot_write(&self.path, why));
        }
        sync_folder_of(&self.path).map_err(|error| {
            Stop::Trouble(format!(
                "cannot sync the folder of {}: {}. The new table has its place, but may not outlast a power cut: no reply is \
                 given, and the message is to be answered again",
                self.path.display(),
                error
            ))
        })
    }

    /// Sees to it that the table which was read is there after a power cut too: the run that put it in its place may have been
    /// stopped before it did, and a file that was copied there may not have been synced at all.
    pub fn sync(&self) -> Result<(), Stop> {
        let synced = self.file.sync_all();
        let synced = synced.and_then(|()| sync_folder_of(&self.path));
        synced.map_err(|error| trouble("sync", &self.path, &error))
    }

    /// Lets other runs at the file, and hands back the bytes that it had.
    pub fn let_go(self) -> Vec<u8> {
        self.bytes
    }
}
