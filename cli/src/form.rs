//! The form of the hash: what `--form` names, and what a file is found to be in.

use crate::args::Args;
use crate::failure::Failure;
use crate::out;
use crate::source::{Source, Walk};
use gvdb::{Form, Pointer, Table};
use std::collections::HashMap;
use std::ffi::OsStr;

/// The form that `--form` names, or a command's own where it is not given; none is `auto`.
pub fn named(args: &Args, own: Option<Form>) -> Result<Option<Form>, Failure> {
    match args.value("--form").map(OsStr::as_encoded_bytes) {
        None => Ok(own),
        Some(b"auto") => Ok(None),
        Some(word) => match Form::BOTH.into_iter().find(|form| form.name().as_bytes() == word) {
            None => Err(Failure::usage("--form is plain, signed or auto")),
            form => Ok(form),
        },
    }
}

/// Tables that were found sound, each with the keys and pointers of those that are nested in it.
pub type Sound = HashMap<Pointer, Vec<(String, Pointer)>>;

/// A form, and the tables that were found sound in it.
#[derive(Default)]
pub struct Found {
    pub form: Form,
    pub sound: Sound,
}

/// The form in which the root table is sound and all that are nested in it; where there is none, the one in which the root table is. Plain comes first, and is
/// taken where it is sound in neither.
pub fn found(source: &Source) -> Found {
    let Ok(root) = source.root() else { return Found::default() };
    out::progress(source.bytes.len(), || format!("{}: finding out its form", source.name));
    let mut part = None;
    for form in Form::BOTH {
        let mut found = Found { form, ..Found::default() };
        if found.whole(&root.with_form(form), &mut Vec::new(), &mut source.walk()) {
            return found;
        }
        part = part.or(Some(found).filter(|found| found.sound.contains_key(&root.pointer())));
    }
    part.unwrap_or_default()
}

impl Found {
    /// Whether a table is sound, and all that are nested in it. Those that are, are noted.
    fn whole<'a>(&mut self, table: &Table<'a>, path: &mut Vec<String>, walk: &mut Walk) -> bool {
        if walk.enter(table, path).is_err() || table.check().is_err() {
            return false;
        }
        let held = |(key, nested): (String, Table<'a>)| walk.hold(key.len()).map(|()| (key, nested));
        let Ok(tables) = table.sound_tables().map(held).collect::<Result<Vec<_>, _>>() else { return false };
        self.sound.insert(table.pointer(), tables.iter().map(|(key, nested)| (key.clone(), nested.pointer())).collect());
        tables.into_iter().all(|(key, nested)| {
            path.push(key);
            let whole = self.whole(&nested, path, walk);
            path.pop();
            whole
        })
    }
}
