//! What may be written over. A file that is there and is none of those merged is replaced only by `--replace`, and only if what is lost can be named.

use crate::content::{self, Content, Leaf, Place};
use crate::failure::Failure;
use crate::report::Report;
use crate::source::Source;
use crate::target::Target;
use crate::text;
use gvdb::ByteOrder;

/// The file that is at OUT's place, if it is to be written over.
pub fn old(target: &Target, replace: bool) -> Result<Option<Source>, Failure> {
    match target.before() {
        None => Ok(None),
        Some(_) if !replace => Err(Failure::no(format!("{}: it is there already; --replace writes over it, and names what is lost", target.name))),
        Some([]) => Ok(None),
        Some(bytes) => Source::of(&target.name, bytes.to_vec(), None).map(Some).map_err(unnamed),
    }
}

/// What the old file has and the new one does not. Bytes that are of another order are of another value.
pub fn lost<'o>(old: &'o Source, old_content: &'o Content, new: &Content, order: ByteOrder) -> Vec<(Place, Leaf<'o>)> {
    match old.header.order == order {
        true => content::missing(old_content, new),
        false => content::leaves(old_content),
    }
}

/// The content of the old file, all of which has to read.
pub fn read(old: &Source) -> Result<Content<'_>, Failure> {
    content::read(old).map_err(unnamed)
}

fn unnamed(failure: Failure) -> Failure {
    failure.so("what would be lost cannot be named, so it is not written over: move it away")
}

/// Whether a report may be written to its place: nothing is there, or with `--replace` a report. Which one is told, for the new report.
pub fn report(target: &Target, replace: bool) -> Result<Option<String>, Failure> {
    match target.before() {
        None => Ok(None),
        Some(_) if !replace => Err(Failure::no(format!("{}: it is there already; --replace writes over a report", target.name))),
        Some([]) => Ok(None),
        Some(bytes) if Report::begins(bytes) => {
            let old = String::from_utf8_lossy(bytes);
            let [first, last] = [old.lines().next(), old.lines().last()].map(|line| text::cut(&text::quoted(line.unwrap_or_default())));
            Ok(Some(format!("{}: this replaces the report that began {first} and ended {last}", target.name)))
        }
        Some(_) => Err(Failure::no(format!("{}: it is no report of a merge, so it is not written over", target.name))),
    }
}
