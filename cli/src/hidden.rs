//! The hidden files beside one that is written: its lock, and the new file before it is in place.

use std::collections::hash_map::RandomState;
use std::ffi::{OsStr, OsString};
use std::fs::{self, File, OpenOptions};
use std::hash::{BuildHasher, Hasher};
use std::io::{self, ErrorKind};
use std::os::unix::ffi::OsStrExt;
use std::os::unix::fs::{MetadataExt, OpenOptionsExt};
use std::path::{Path, PathBuf};

/// Endings of the hidden files beside a file that is written.
const LOCK: &str = ".gvdb-lock";
const TEMPORARY: &str = ".gvdb-tmp";
/// So many bytes of the file's name stand in theirs, since a name has at most 255. Files that share them take turns.
const NAME: usize = 200;

/// The folder of a file.
pub fn folder(place: &Path) -> &Path {
    place.parent().filter(|folder| !folder.as_os_str().is_empty()).unwrap_or(Path::new("."))
}

/// Whether a name is one that these files may have.
pub fn is_kept(name: &OsStr) -> bool {
    [LOCK, TEMPORARY].iter().any(|ending| name.as_bytes().ends_with(ending.as_bytes()))
}

fn name(place: &Path, ending: &str) -> OsString {
    let name = place.file_name().unwrap_or_default().as_bytes();
    let mut hidden = OsString::from(".");
    hidden.push(OsStr::from_bytes(&name[..name.len().min(NAME)]));
    hidden.push(ending);
    hidden
}

pub fn lock(place: &Path) -> PathBuf {
    place.with_file_name(name(place, LOCK))
}

/// A new file under a name that no other run has.
pub fn temporary(place: &Path, mode: u32) -> io::Result<(PathBuf, File)> {
    loop {
        let number = RandomState::new().build_hasher().finish();
        let beside = place.with_file_name(name(place, &format!(".{number:016x}{TEMPORARY}")));
        match OpenOptions::new().write(true).create_new(true).mode(mode).open(&beside) {
            Err(error) if error.kind() == ErrorKind::AlreadyExists => continue,
            opened => return Ok((beside, opened?)),
        }
    }
}

/// The mode of a new file, which only the making of one tells.
pub fn usual_mode(place: &Path) -> io::Result<u32> {
    let (beside, file) = temporary(place, 0o666)?;
    let mode = file.metadata().map(|made| made.mode() & 0o777);
    fs::remove_file(beside)?;
    mode
}

/// Removes what runs that ended early left beside the place. The lock is held, so none of them is at work.
pub fn sweep(place: &Path) {
    let prefix = name(place, "");
    for entry in fs::read_dir(folder(place)).into_iter().flatten().flatten() {
        let name = entry.file_name();
        let middle = name.as_bytes().strip_prefix(prefix.as_bytes()).and_then(|rest| rest.strip_suffix(TEMPORARY.as_bytes()));
        if middle.is_some_and(|middle| middle.len() == 17 && middle[0] == b'.' && middle[1..].iter().all(u8::is_ascii_hexdigit)) {
            let _ = fs::remove_file(entry.path());
        }
    }
}
