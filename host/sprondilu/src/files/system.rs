//! Functions of the C library that std of Rust 1.63 has no words for. `renameat2` is Linux's own, in glibc since 2.28.

use std::ffi::CString;
use std::fs::{File, Metadata, Permissions};
use std::io::{self, ErrorKind};
use std::os::raw::c_char;
use std::os::unix::ffi::OsStrExt;
use std::os::unix::fs::{MetadataExt, PermissionsExt};
use std::os::unix::io::AsRawFd;
use std::path::Path;

extern "C" {
    fn flock(file: i32, operation: i32) -> i32;
    fn fchown(file: i32, owner: u32, group: u32) -> i32;
    fn renameat2(from_in: i32, from: *const c_char, to_in: i32, to: *const c_char, how: u32)
        -> i32;
}

const LOCK_EX: i32 = 2;
/// In place of an owner: the one that the file has.
const AS_IT_IS: u32 = u32::MAX;
/// In place of an open folder: names are looked up as in every other call.
const AT_FDCWD: i32 = -100;
const RENAME_NOREPLACE: u32 = 1;
const RENAME_EXCHANGE: u32 = 2;

/// Waits for the lock of an open file. It ends with the file, also if this process is killed.
pub fn lock(file: &File) -> io::Result<()> {
    loop {
        // The file is open, and the call touches no memory of ours.
        if unsafe { flock(file.as_raw_fd(), LOCK_EX) } == 0 {
            return Ok(());
        }
        let error = io::Error::last_os_error();
        if error.kind() != ErrorKind::Interrupted {
            return Err(error);
        }
    }
}

/// Gives a file the owner, the group and the mode of another, as far as this user may, and lets nobody in whom the other's mode kept out.
///
/// Whoever may not give files away keeps it, and whoever is not in that group leaves it to his own. Then the mode has nothing for
/// the group, which is another one; and for others only what the old group had too, whose people are among them now.
pub fn give_rights(file: &File, old: &Metadata) -> io::Result<()> {
    let mode = old.mode() & 0o7777;
    let has_group = give_to(file, old.uid(), old.gid()) || give_to(file, AS_IT_IS, old.gid());
    let without_group = mode & 0o700 | mode & (mode >> 3) & 0o007;
    let mode = if has_group { mode } else { without_group };
    file.set_permissions(Permissions::from_mode(mode))
}

fn give_to(file: &File, owner: u32, group: u32) -> bool {
    // The file is open, and the call touches no memory of ours.
    unsafe { fchown(file.as_raw_fd(), owner, group) == 0 }
}

/// Gives a file another name, unless somebody has that name.
pub fn rename_to_new(from: &Path, to: &Path) -> io::Result<()> {
    rename(from, to, RENAME_NOREPLACE)
}

/// Exchanges what is under two names, at once.
pub fn exchange(one: &Path, other: &Path) -> io::Result<()> {
    rename(one, other, RENAME_EXCHANGE)
}

/// Whether such a rename failed because the system, or this file system, does not know it.
pub fn is_unknown(error: &io::Error) -> bool {
    matches!(
        error.kind(),
        ErrorKind::InvalidInput | ErrorKind::Unsupported
    )
}

fn rename(from: &Path, to: &Path, how: u32) -> io::Result<()> {
    let from = CString::new(from.as_os_str().as_bytes())?;
    let to = CString::new(to.as_os_str().as_bytes())?;
    // Both names end with a zero, and live until the call is over.
    match unsafe { renameat2(AT_FDCWD, from.as_ptr(), AT_FDCWD, to.as_ptr(), how) } {
        0 => Ok(()),
        _ => Err(io::Error::last_os_error()),
    }
}
