//! A file that is to be written: its place behind links, what it holds when the run begins, the turn to write it, and the last step, which puts the new file
//! there whole or not at all.

use crate::failure::{name, Failure};
use crate::hidden::{self, folder};
use crate::lock::Lock;
use crate::text;
use std::ffi::OsStr;
use std::fs::{self, File, Metadata, OpenOptions, Permissions};
use std::io::{self, ErrorKind, IsTerminal, Read, Write};
use std::os::unix::ffi::OsStrExt;
use std::os::unix::fs::{fchown, MetadataExt, PermissionsExt};
use std::path::{Path, PathBuf};

/// No file of ours is longer: 16 MiB of values in hex, twice, and keys.
const LONGEST: u64 = 128 << 20;

/// A place to write to.
pub struct Target {
    /// As it is printed.
    pub name: String,
    /// None is standard output.
    place: Option<PathBuf>,
    before: Option<Held>,
    lock: Option<Lock>,
}

/// What was at the place when the run began.
struct Held {
    bytes: Vec<u8>,
    metadata: Metadata,
}

impl Target {
    /// The place that a word names: standard output, or a file behind links and folders. Only a plain file is ever written over.
    pub fn find(word: &OsStr) -> Result<Target, Failure> {
        if word == "-" {
            return match io::stdout().is_terminal() {
                true => Err(Failure::usage("standard output is a terminal, and a file is not for reading there")),
                false => Ok(Target { name: "standard output".to_string(), place: None, before: None, lock: None }),
            };
        }
        Ok(Target { name: name(word), place: Some(resolved(Path::new(word))?), before: None, lock: None })
    }

    pub fn is_standard(&self) -> bool {
        self.place.is_none()
    }

    /// Whether a path leads to the same place.
    pub fn is_at(&self, path: &OsStr) -> bool {
        path != "-" && self.place.as_ref().is_some_and(|place| same_place(place, Path::new(path)))
    }

    /// Sees what is there as the run begins; a file that may not be written is refused.
    pub fn look(&mut self) -> Result<(), Failure> {
        let Some(place) = &self.place else { return Ok(()) };
        self.before = held(place, &self.name)?;
        match &self.before {
            Some(held) if protected(place, &held.metadata) => Err(Failure::usage(format!("{}: it is write-protected; nothing is written", self.name))),
            _ => Ok(()),
        }
    }

    /// The bytes that the run found, if there was a file.
    pub fn before(&self) -> Option<&[u8]> {
        self.before.as_ref().map(|held| &held.bytes[..])
    }

    /// Writes a file beside the place, for nobody else to read before it is in place.
    pub fn write(&self, bytes: Vec<u8>) -> Result<Pending<'_>, Failure> {
        let Some(place) = &self.place else { return Ok(Pending { target: self, state: State::Bytes(bytes) }) };
        let failed = |error| Failure::usage(format!("{}: {error}", self.name));
        let mode = match &self.before {
            Some(held) => held.metadata.mode() & 0o7777,
            None => hidden::usual_mode(place).map_err(failed)?,
        };
        let (beside, file) = hidden::temporary(place, 0o600).map_err(failed)?;
        let mut pending = Pending { target: self, state: State::Beside { place, beside, file, mode } };
        pending.add(&bytes).map_err(failed)?;
        Ok(pending)
    }

    /// Whether the place is as it was when the run began.
    fn unchanged(&self, place: &Path) -> Result<(), Failure> {
        let now = held(place, &self.name)?;
        match now.as_ref().map(|held| &held.bytes[..]) == self.before() {
            true => Ok(()),
            false => Err(changed(&self.name)),
        }
    }
}

/// Waits for the turn to write each file. All runs take their locks in one order, so that no two wait for each other.
pub fn take_turns<'t>(targets: impl IntoIterator<Item = &'t mut Target>) -> Result<(), Failure> {
    let with_lock = |target: &'t mut Target| target.place.clone().map(|place| (hidden::lock(&place), place, target));
    let mut targets: Vec<_> = targets.into_iter().filter_map(with_lock).collect();
    targets.sort_by(|(a, ..), (b, ..)| a.cmp(b));
    targets.dedup_by(|(a, ..), (b, ..)| a == b);
    for (lock, place, target) in targets {
        target.lock = Lock::take(lock, &target.name)?;
        if target.lock.is_some() {
            hidden::sweep(&place);
        }
    }
    Ok(())
}

/// A file that is written and not yet in its place. Dropped, it leaves nothing beside it.
pub struct Pending<'t> {
    target: &'t Target,
    state: State<'t>,
}

enum State<'t> {
    Beside {
        place: &'t Path,
        beside: PathBuf,
        file: File,
        mode: u32,
    },
    /// For standard output.
    Bytes(Vec<u8>),
}

impl Pending<'_> {
    /// The last step: puts the file in its place, if that is still as it was.
    pub fn put(&mut self) -> Result<(), Failure> {
        let failed = |error| Failure::usage(format!("{}: {error}", self.target.name));
        match &self.state {
            State::Bytes(bytes) => io::stdout().write_all(bytes).and_then(|()| io::stdout().flush()).map_err(failed),
            State::Beside { place, beside, file, mode } => {
                self.target.unchanged(place)?;
                dress(file, self.target.before.as_ref(), *mode);
                match self.target.before {
                    Some(_) => fs::rename(beside, place).map_err(failed)?,
                    None => place_new(beside, place).map_err(|error| match error.kind() {
                        ErrorKind::AlreadyExists => changed(&self.target.name),
                        _ => failed(error),
                    })?,
                }
                // The folder's entry is on the disk too, where the system can say so.
                let _ = File::open(folder(place)).and_then(|folder| folder.sync_all());
                Ok(())
            }
        }
    }

    /// Writes on at the end of a file, be it in its place or not, and has it on the disk.
    pub fn add(&mut self, bytes: &[u8]) -> io::Result<()> {
        match &mut self.state {
            State::Beside { file, .. } => file.write_all(bytes).and_then(|()| file.sync_all()),
            State::Bytes(all) => all.write_all(bytes),
        }
    }
}

impl Drop for Pending<'_> {
    fn drop(&mut self) {
        if let State::Beside { beside, .. } = &self.state {
            let _ = fs::remove_file(beside);
        }
    }
}

/// Gives a file the owner and mode of the one that it replaces, as far as the system allows it. Where its group cannot be kept, another one may do no more than
/// everybody.
fn dress(file: &File, before: Option<&Held>, mode: u32) {
    let kept = before.is_none_or(|Held { metadata, .. }| {
        let (owner, group) = (Some(metadata.uid()), Some(metadata.gid()));
        fchown(file, owner, group).or_else(|_| fchown(file, None, group)).is_ok()
    });
    let mode = if kept { mode } else { (mode & 0o707) | ((mode & 0o007) << 3 & mode) };
    let _ = file.set_permissions(Permissions::from_mode(mode));
}

/// Where nothing was, nothing is written over, not even what comes this very moment.
fn place_new(beside: &Path, place: &Path) -> io::Result<()> {
    match fs::hard_link(beside, place) {
        Err(error) if error.kind() != ErrorKind::AlreadyExists => fs::rename(beside, place),
        linked => linked,
    }
}

fn changed(name: &str) -> Failure {
    Failure::no(format!("{name}: another program has changed it since this run began; nothing is written"))
}

/// The place of a file, with no link on the way to it.
fn resolved(given: &Path) -> Result<PathBuf, Failure> {
    let failed = |error| Failure::system(given, error);
    let shown = || name(given.as_os_str());
    if fs::metadata(given).is_ok_and(|found| !found.is_file()) {
        return Err(Failure::usage(format!("{}: not a plain file, so it is not written over", shown())));
    }
    let file = given.file_name().filter(|file| given.as_os_str().as_bytes().ends_with(file.as_bytes()));
    let Some(file) = file else { return Err(Failure::usage(format!("{}: not the name of a file, so nothing is written", shown()))) };
    if hidden::is_kept(file) {
        return Err(Failure::usage(format!("{}: gvdb keeps such names for files of its own", shown())));
    }
    match fs::symlink_metadata(given) {
        Ok(found) if found.is_symlink() => fs::canonicalize(given).map_err(failed),
        _ => Ok(fs::canonicalize(folder(given)).map_err(failed)?.join(file)),
    }
}

/// Whether two paths lead to one place, be something there or not.
fn same_place(a: &Path, b: &Path) -> bool {
    fn place(path: &Path) -> PathBuf {
        let beside = || Some(fs::canonicalize(folder(path)).ok()?.join(path.file_name()?));
        fs::canonicalize(path).ok().or_else(beside).unwrap_or_else(|| path.to_path_buf())
    }
    place(a) == place(b)
}

/// What a place holds now.
fn held(place: &Path, name: &str) -> Result<Option<Held>, Failure> {
    let failed = |error| Failure::usage(format!("{name}: {error}"));
    let metadata = match fs::symlink_metadata(place) {
        Ok(found) if found.is_file() => found,
        Ok(_) => return Err(Failure::usage(format!("{name}: not a plain file, so it is not written over"))),
        Err(error) if error.kind() == ErrorKind::NotFound => return Ok(None),
        Err(error) => return Err(failed(error)),
    };
    let mut bytes = Vec::new();
    File::open(place).map_err(failed)?.take(LONGEST + 1).read_to_end(&mut bytes).map_err(failed)?;
    match bytes.len() as u64 > LONGEST {
        true => Err(Failure::usage(format!("{name}: longer than {} bytes, so it is not written over", text::grouped(LONGEST as usize)))),
        false => Ok(Some(Held { bytes, metadata })),
    }
}

/// Whether a file is not to be written: its mode says so, or the system does. A rename would not ask.
fn protected(place: &Path, metadata: &Metadata) -> bool {
    metadata.permissions().readonly() || OpenOptions::new().write(true).open(place).is_err()
}
