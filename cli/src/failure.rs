//! How a command ends when it does not do what was asked: one line on standard error and an exit status.

use gvdb::Refusal;
use std::ffi::OsStr;
use std::io;
use std::os::unix::ffi::OsStrExt;
use std::path::Path;

use crate::{advice, text};

/// The answer is no: not sound, no such key, a conflict, a refusal of the builder.
pub const NO: u8 = 1;
/// Bad usage, or something that cannot be read or written.
pub const UNREADABLE: u8 = 2;

#[derive(Debug)]
pub struct Failure {
    pub status: u8,
    /// Empty: nothing is said (nobody reads any more).
    pub line: String,
    /// The number of a refusal, if that is what ended it.
    pub number: Option<u32>,
}

impl Failure {
    pub fn usage(line: impl Into<String>) -> Failure {
        Failure { status: UNREADABLE, line: line.into(), number: None }
    }

    pub fn no(line: impl Into<String>) -> Failure {
        Failure { status: NO, line: line.into(), number: None }
    }

    /// A refusal, with what was refused before it.
    pub fn refused(status: u8, what: &str, refusal: Refusal) -> Failure {
        Failure::advised(status, what, refusal.number(), &refusal.message(), advice::of(refusal.number()))
    }

    /// A key that was given and is not UTF-8: where, with the byte that stands there, and what to do.
    pub fn bad_key(what: &str, key: &[u8], at: usize, advice: &str) -> Failure {
        Failure::advised(NO, what, Refusal::KeyNotUtf8 { at }.number(), &text::bad_key(key, at), advice)
    }

    fn advised(status: u8, what: &str, number: u32, words: &str, advice: &str) -> Failure {
        match advice {
            "" => Failure::told(status, what, number, words),
            advice => Failure::told(status, what, number, &format!("{words}; {advice}")),
        }
    }

    /// What was refused, why and what to do in words, and the number last.
    pub fn told(status: u8, what: &str, number: u32, words: &str) -> Failure {
        Failure { status, line: format!("{what}: {words} ({number})"), number: Some(number) }
    }

    /// Whether nobody reads standard output any more.
    pub fn is_gone(&self) -> bool {
        self.line.is_empty()
    }

    /// The failure, with what it means for the file that was to be written; the number stays last. That nobody reads standard output any more is said too.
    pub fn so(self, meaning: &str) -> Failure {
        let line = if self.is_gone() { "standard output: nobody reads it any more" } else { &self.line };
        let (words, number) = line.split_at(self.number.and_then(|_| line.rfind(" (")).unwrap_or(line.len()));
        Failure { line: format!("{words}; {meaning}{number}"), ..self }
    }

    /// A file or folder that the system does not let us read or write.
    pub fn system(path: &Path, error: io::Error) -> Failure {
        Failure::usage(format!("{}: {error}", name(path.as_os_str())))
    }
}

/// Writing to standard output. A reader that has gone away is no news.
impl From<io::Error> for Failure {
    fn from(error: io::Error) -> Failure {
        match error.kind() {
            io::ErrorKind::BrokenPipe => Failure::usage(""),
            _ => Failure::usage(format!("standard output: {error}")),
        }
    }
}

/// The name of a file as it is printed: on one line, and so that it can be told back.
pub fn name(path: &OsStr) -> String {
    text::escaped_bytes(path.as_bytes())
}

/// The name of a file in a sentence, where `-` is said in words: a file of that name is `./-`.
pub fn in_words<'n>(name: &'n str, dash: &'n str) -> &'n str {
    if name == "-" {
        dash
    } else {
        name
    }
}
