//! Where things are told: standard output, and progress on standard error.

use crate::failure::{Failure, NO};
use std::fs::File;
use std::io::{self, BufWriter, IsTerminal, Write};
use std::os::fd::AsFd;
use std::os::unix::fs::FileTypeExt;
use std::thread;
use std::time::Duration;

/// Files longer than this are worth a line of progress.
const LONG: usize = 1_000_000;
/// What a reader needs to end.
const MOMENT: Duration = Duration::from_millis(20);

#[derive(Clone, Copy)]
pub enum Colour {
    Red = 31,
    Green = 32,
    Yellow = 33,
    Blue = 34,
}

/// Standard output, with colours on a terminal only.
pub struct Out {
    pub stdout: BufWriter<Box<dyn Write>>,
    /// The same, where it is a pipe.
    pipe: Option<File>,
    terminal: bool,
    colours: bool,
}

impl Out {
    pub fn new() -> Out {
        Out::to(io::stdout())
    }

    /// Standard error, for what is told where standard output takes a file.
    pub fn error() -> Out {
        Out::to(io::stderr())
    }

    fn to(stream: impl Write + AsFd + IsTerminal + 'static) -> Out {
        let terminal = stream.is_terminal();
        let colours = terminal && std::env::var_os("NO_COLOR").is_none();
        let file = stream.as_fd().try_clone_to_owned().map(File::from).ok();
        let pipe = file.filter(|file| file.metadata().is_ok_and(|found| found.file_type().is_fifo()));
        Out { stdout: BufWriter::new(Box::new(stream)), pipe, terminal, colours }
    }

    pub fn is_terminal(&self) -> bool {
        self.terminal
    }

    pub fn paint(&self, colour: Colour, text: &str) -> String {
        match self.colours {
            true => format!("\x1b[{}m{text}\x1b[0m", colour as u8),
            false => text.to_string(),
        }
    }

    pub fn line(&mut self, line: impl AsRef<str>) -> Result<(), Failure> {
        Ok(writeln!(self.stdout, "{}", line.as_ref())?)
    }

    /// Writes text on its way, so that whoever goes on knows that it was taken.
    pub fn tell(&mut self, text: &str) -> Result<(), Failure> {
        self.stdout.write_all(text.as_bytes())?;
        Ok(self.stdout.flush()?)
    }

    /// Tells what is to be known before a file is put in its place. Where it cannot be told, the file is not written; that nobody wants to read on is an answer,
    /// and no trouble with writing.
    pub fn tell_before(&mut self, name: &str, text: &str) -> Result<(), Failure> {
        let told = if text.is_empty() { Ok(()) } else { self.tell(text).and_then(|()| self.still_read()) };
        told.map_err(|failure| Failure { status: if failure.is_gone() { NO } else { failure.status }, ..failure.so(&format!("{name} is not written")) })
    }

    /// Gives the reader of a pipe who wants no more the time to go, and fails if nobody reads it then. What a pipe holds it holds for nobody too.
    fn still_read(&self) -> Result<(), Failure> {
        let Some(mut pipe) = self.pipe.as_ref() else { return Ok(()) };
        thread::sleep(MOMENT);
        // Nothing is copied, since this one has ended; but before it sees that, the system asks whether the other has a reader.
        let (mut ended, writer) = io::pipe()?;
        drop(writer);
        io::copy(&mut ended, &mut pipe)?;
        Ok(())
    }
}

/// A line on standard error. That it cannot be written changes nothing.
pub fn say(line: impl AsRef<str>) {
    let _ = writeln!(io::stderr(), "gvdb: {}", line.as_ref());
}

/// A line of progress, where there is so much to do that one may wonder.
pub fn progress(bytes: usize, line: impl FnOnce() -> String) {
    if bytes > LONG {
        say(line());
    }
}
