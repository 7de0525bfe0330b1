//! The lock that runs of `gvdb` share while one of them writes a file: an empty hidden file beside it, locked by the system. Whoever dies lets go of it, so one
//! that is left behind holds nobody up. Its holder removes it; who waited for a file that was removed sees that its name leads elsewhere, and takes the new one.

use crate::failure::Failure;
use crate::out;
use std::fs::{self, File, OpenOptions, Permissions, TryLockError};
use std::io::{self, ErrorKind};
use std::os::unix::fs::{MetadataExt, PermissionsExt};
use std::path::{Path, PathBuf};
use std::thread;
use std::time::{Duration, Instant};

/// Who waits longer is told.
const PATIENCE: Duration = Duration::from_secs(1);
const STEP: Duration = Duration::from_millis(20);

pub struct Lock {
    file: File,
    path: PathBuf,
}

impl Lock {
    /// Waits for the turn to write a file. None where the system gives no lock, which is said.
    pub fn take(path: PathBuf, name: &str) -> Result<Option<Lock>, Failure> {
        let begun = Instant::now();
        let mut told = false;
        loop {
            let file = match made(&path) {
                Ok(file) => file,
                Err(error) if error.kind() != ErrorKind::AlreadyExists => return Err(Failure::usage(format!("{name}: {error}"))),
                Err(_) => match opened(&path) {
                    Ok(file) => file,
                    Err(error) if error.kind() == ErrorKind::NotFound => continue,
                    // Another user makes it just now, and has not opened it for all.
                    Err(error) if error.kind() == ErrorKind::PermissionDenied && begun.elapsed() < PATIENCE => {
                        thread::sleep(STEP);
                        continue;
                    }
                    Err(error) => return Ok(without(name, error)),
                },
            };
            if let Err(error) = hold(&file, begun, &mut told, name) {
                return Ok(without(name, error));
            }
            if leads_to(&path, &file) {
                return Ok(Some(Lock { file, path }));
            }
        }
    }
}

impl Drop for Lock {
    /// The file goes while it is still locked: nobody else removes it then. One that is not empty is not ours.
    fn drop(&mut self) {
        if leads_to(&self.path, &self.file) && self.file.metadata().is_ok_and(|held| held.len() == 0) {
            let _ = fs::remove_file(&self.path);
        }
    }
}

/// A new file for the lock, which other users can lock too.
fn made(path: &Path) -> io::Result<File> {
    let file = OpenOptions::new().read(true).write(true).create_new(true).open(path)?;
    let _ = file.set_permissions(Permissions::from_mode(0o666));
    Ok(file)
}

/// The file that is there. To read it is enough, but on a file system over the network.
fn opened(path: &Path) -> io::Result<File> {
    if !fs::symlink_metadata(path)?.is_file() {
        return Err(io::Error::other("its lock is not a plain file"));
    }
    OpenOptions::new().read(true).write(true).open(path).or_else(|_| File::open(path))
}

fn hold(file: &File, begun: Instant, told: &mut bool, name: &str) -> io::Result<()> {
    while begun.elapsed() < PATIENCE {
        match file.try_lock() {
            Ok(()) => return Ok(()),
            Err(TryLockError::WouldBlock) => thread::sleep(STEP),
            Err(TryLockError::Error(error)) => return Err(error),
        }
    }
    if !*told && matches!(file.try_lock(), Err(TryLockError::WouldBlock)) {
        out::say(format!("{name}: another run of gvdb is writing it; waiting for it to end"));
        *told = true;
    }
    file.lock()
}

fn leads_to(path: &Path, file: &File) -> bool {
    match (fs::metadata(path), file.metadata()) {
        (Ok(there), Ok(held)) => (there.dev(), there.ino()) == (held.dev(), held.ino()),
        _ => false,
    }
}

/// Where there is no lock, the comparison before the last step still sees most of what another writer does.
fn without(name: &str, error: io::Error) -> Option<Lock> {
    out::say(format!("{name}: no lock can be had ({error}), so other runs of gvdb are not kept out, only noticed"));
    None
}
