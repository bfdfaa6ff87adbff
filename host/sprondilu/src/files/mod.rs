//! Files: read up to a limit, written so that a power cut loses nothing, and one run at a time on a table file.
//!
//! A file is never changed where it stands. What is new is written beside it, synced, and put in its place in one step, which
//! happens wholly or not at all; then the folder is synced. So there is at every moment the old file whole or the new one
//! whole under its name, and when a command says that it is done, the new one is on the disk.
//!
//! Nothing is put in the place of a file that was not looked at before: if somebody else puts another one there meanwhile, with
//! this program or without it, that one stays. A run that is killed right then may leave it, or the old file, under the hidden
//! name of the draft.
//!
//! - `draft`: what is new, until it has its place
//! - `held`: a table file that one run alone may change
//! - `system`: calls of the system that std has no words for

mod draft;
mod held;
mod system;

pub use held::Held;

use crate::ends::Stop;
use draft::Draft;
use std::fs::{self, File, Metadata, OpenOptions};
use std::io::{self, ErrorKind, Read, Seek};
use std::os::unix::ffi::OsStrExt;
use std::os::unix::fs::MetadataExt;
use std::path::Path;

/// No file that makes sense here is longer: the longest message has 49,181 bytes, a dump of a box's buffer not many more.
const LONGEST: u64 = 16 * 1024 * 1024;

fn trouble(doing: &str, path: &Path, error: &io::Error) -> Stop {
    Stop::Trouble(format!("cannot {} {}: {}", doing, path.display(), error))
}

fn cannot_write(path: &Path, why: &str) -> Stop {
    Stop::Trouble(format!("cannot write {}: {}", path.display(), why))
}

/// The bytes of a file.
pub fn read(path: &Path) -> Result<Vec<u8>, Stop> {
    let file = File::open(path).map_err(|error| trouble("read", path, &error))?;
    read_open(&file, path)
}

fn read_open(file: &File, path: &Path) -> Result<Vec<u8>, Stop> {
    let about = file
        .metadata()
        .map_err(|error| trouble("read", path, &error))?;
    if about.is_dir() {
        return Err(Stop::Trouble(format!(
            "cannot read {}: it is a folder",
            path.display()
        )));
    }
    let mut bytes = Vec::new();
    let taken = file.take(LONGEST + 1).read_to_end(&mut bytes);
    taken.map_err(|error| trouble("read", path, &error))?;
    if bytes.len() as u64 > LONGEST {
        return Err(Stop::Trouble(format!(
            "{} has more than {} bytes: no table, message or reply is so long",
            path.display(),
            LONGEST
        )));
    }
    Ok(bytes)
}

/// Whether an open file that was read before has such bytes now.
fn has_still(mut file: &File, path: &Path, is_one: impl Fn(&[u8]) -> bool) -> bool {
    let bytes = file.rewind().ok().and_then(|()| read_open(file, path).ok());
    bytes.map_or(false, |bytes| is_one(&bytes))
}

fn folder_of(path: &Path) -> &Path {
    match path.parent() {
        Some(folder) if !folder.as_os_str().is_empty() => folder,
        _ => Path::new("."),
    }
}

fn sync_folder_of(path: &Path) -> io::Result<()> {
    File::open(folder_of(path))?.sync_all()
}

/// Sees to it that a file which was read is there after a power cut too: whoever put it there may have been stopped before he did,
/// or may have been another program.
pub fn settle(path: &Path) -> Result<(), Stop> {
    let real = path.canonicalize();
    let synced = real.and_then(|real| {
        File::open(&real)?.sync_all()?;
        sync_folder_of(&real)
    });
    synced.map_err(|error| trouble("sync", path, &error))
}

/// Whether it is this that is under a name, and not another thing. No other file gets the number of one that is open. A link
/// cannot be kept open, and so it is at least a link that is there.
fn is_under(name: &Path, about: &Metadata) -> bool {
    let number = |of: &Metadata| (of.dev(), of.ino(), of.file_type());
    fs::symlink_metadata(name).map_or(false, |there| number(&there) == number(about))
}

/// What a new file may be written over.
#[derive(Clone, Copy)]
pub enum Over {
    Nothing,
    /// A file of the same kind, which is named, or an empty one.
    Same(&'static str, fn(&[u8]) -> bool),
}

/// Whether a new file may be written there: its folder is there, and nothing is under its name, or what may be replaced.
pub fn may_create(path: &Path, over: Over) -> Result<(), Stop> {
    look(path, over).map(|_| ())
}

/// Writes a new file, over nothing or over what may be replaced. If something else comes under the name meanwhile, all begins
/// anew, and that is judged.
pub fn create(path: &Path, bytes: &[u8], over: Over) -> Result<(), Stop> {
    for _ in 0..TURNS {
        let placed = match look(path, over)? {
            None => Draft::write(path, bytes, None).and_then(|draft| draft.place_new(path)),
            Some(seen) => seen.replaced(path, bytes),
        };
        if placed.map_err(|error| trouble("write", path, &error))? {
            let synced = sync_folder_of(path);
            return synced.map_err(|error| trouble("sync the folder of", path, &error));
        }
    }
    Err(cannot_write(path, "others put files there again and again"))
}

/// How often a run begins anew when something else has come under a name. It has never taken more than a few, and so a file
/// system that answers strangely ends with an error, and not never.
const TURNS: u32 = 1000;

/// What may be replaced there, if anything is there.
fn look(path: &Path, over: Over) -> Result<Option<Seen>, Stop> {
    is_place(path)?;
    let name = match fs::symlink_metadata(path) {
        Err(error) if error.kind() == ErrorKind::NotFound => return Ok(None),
        other => other.map_err(|error| trouble("write", path, &error))?,
    };
    let (what, is_one) = match over {
        Over::Nothing => return Err(exists(path)),
        Over::Same(what, is_one) => (what, is_one),
    };
    let seen = match Seen::of(path, &name, is_one) {
        // Whatever it was, it is gone by now.
        Err(_) if !is_under(path, &name) => return Ok(None),
        other => other?,
    };
    if seen.may_go(&read_open(&seen.file, path)?) {
        return Ok(Some(seen));
    }
    let why = format!("what is there is no {}, and is not written over", what);
    Err(cannot_write(path, &why))
}

/// Whether a file can have this name at all.
fn is_place(path: &Path) -> Result<(), Stop> {
    if path.is_dir() {
        return Err(cannot_write(path, "it is a folder"));
    }
    // A name that ends so is a folder's, or leads nowhere.
    let ends_as_folder = path.as_os_str().as_bytes().ends_with(b"/");
    if path.file_name().is_none() || ends_as_folder {
        return Err(Stop::Trouble(format!(
            "'{}' is no name for a file",
            path.display()
        )));
    }
    if !folder_of(path).is_dir() {
        return Err(cannot_write(path, "its folder is not there"));
    }
    Ok(())
}

fn exists(path: &Path) -> Stop {
    Stop::Trouble(format!(
        "{} is there already, and is not written over",
        path.display()
    ))
}

/// A file that may be replaced, as it was when it was looked at.
struct Seen {
    /// Of what is under the name itself. If that is a link, the link is replaced, and not what it leads to.
    about: Metadata,
    /// What the name leads to: this is judged.
    file: File,
    is_one: fn(&[u8]) -> bool,
}

impl Seen {
    fn of(path: &Path, name: &Metadata, is_one: fn(&[u8]) -> bool) -> Result<Seen, Stop> {
        let cannot = |error: io::Error| trouble("write", path, &error);
        // Before it is opened: whoever opens a pipe waits for its other end.
        let there = fs::metadata(path).map_err(cannot)?;
        is_replaceable("write", &there, path)?;
        let (file, is_writable) = open_to_change(path).map_err(cannot)?;
        if !is_writable {
            return Err(cannot(io::Error::from(ErrorKind::PermissionDenied)));
        }
        let about = if name.file_type().is_symlink() {
            name.clone()
        } else {
            file.metadata().map_err(cannot)?
        };
        Ok(Seen {
            about,
            file,
            is_one,
        })
    }

    /// Whatever a user types, what is no message or no reply may be somebody's season, whole or damaged.
    fn may_go(&self, bytes: &[u8]) -> bool {
        bytes.is_empty() || (self.is_one)(bytes)
    }

    /// Puts a file with these bytes in its place; false if something else is there by now.
    fn replaced(&self, path: &Path, bytes: &[u8]) -> io::Result<bool> {
        system::lock(&self.file)?;
        let draft = Draft::write(path, bytes, Some(&self.file.metadata()?))?;
        draft.place_over(path, |name| {
            is_under(name, &self.about) && has_still(&self.file, name, |bytes| self.may_go(bytes))
        })
    }
}

/// A folder, a pipe or a device is none: nothing can be put in their place.
fn is_replaceable(doing: &str, about: &Metadata, name: &Path) -> Result<(), Stop> {
    if about.is_file() {
        return Ok(());
    }
    let what = if about.is_dir() {
        "it is a folder"
    } else {
        "it is no file that another could take the place of"
    };
    Err(Stop::Trouble(format!(
        "cannot {} {}: {}",
        doing,
        name.display(),
        what
    )))
}

/// The file for reading and writing, or, if it is not ours to write, for reading alone. Nothing is written into it: whether it
/// might be is whether it may be replaced.
fn open_to_change(path: &Path) -> io::Result<(File, bool)> {
    match OpenOptions::new().read(true).write(true).open(path) {
        Ok(file) => Ok((file, true)),
        Err(_) => File::open(path).map(|file| (file, false)),
    }
}
