//! The files that a command reads, of which one may be standard input, by the word `-`.

use crate::failure::{in_words, name, Failure};
use crate::source::Source;
use crate::text;
use std::ffi::OsStr;
use std::fs::File;
use std::io::{self, Read};
use std::sync::atomic::{AtomicBool, Ordering};

/// No text is longer: 16 MiB in hex, and keys.
const LONGEST: usize = 64 << 20;

/// Whether standard input was read. Who asks for it twice would get nothing the second time.
static TAKEN: AtomicBool = AtomicBool::new(false);

/// The name of an input, and its bytes up to a limit and one more.
pub fn read(word: &OsStr, limit: usize) -> Result<(String, Vec<u8>), Failure> {
    let shown = name(word);
    let shown = in_words(&shown, "standard input");
    if word == "-" && TAKEN.swap(true, Ordering::Relaxed) {
        return Err(Failure::usage("standard input (-) can be read once; give a file's name for the other"));
    }
    let failed = |error| Failure::usage(format!("{shown}: {error}"));
    let from: Box<dyn Read> = if word == "-" { Box::new(io::stdin()) } else { Box::new(File::open(word).map_err(failed)?) };
    let mut bytes = Vec::new();
    from.take(limit as u64 + 1).read_to_end(&mut bytes).map_err(failed)?;
    Ok((shown.to_string(), bytes))
}

/// An input that is text, with its name.
pub fn text(word: &OsStr) -> Result<(String, Vec<u8>), Failure> {
    let (name, bytes) = read(word, LONGEST)?;
    match bytes.len() > LONGEST {
        true => Err(Failure::usage(format!("{name}: longer than {} bytes", text::grouped(LONGEST)))),
        false => Ok((name, bytes)),
    }
}

/// Inputs of which standard input is read first.
pub struct Input {
    piped: Option<(String, Vec<u8>)>,
}

impl Input {
    /// Reads standard input to its end, if one of the words says so.
    pub fn of<'w>(words: impl IntoIterator<Item = &'w OsStr>) -> Result<Input, Failure> {
        Ok(Input { piped: words.into_iter().find(|word| *word == "-").map(text).transpose()? })
    }

    pub fn source(&mut self, word: &OsStr) -> Result<Source, Failure> {
        match self.piped.take_if(|_| word == "-") {
            Some((name, bytes)) => Ok(Source { path: word.into(), ..Source::of(&name, bytes, None)? }),
            None => Source::read(word, None),
        }
    }

    pub fn text(&mut self, word: &OsStr) -> Result<(String, Vec<u8>), Failure> {
        self.piped.take_if(|_| word == "-").map_or_else(|| text(word), Ok)
    }
}
