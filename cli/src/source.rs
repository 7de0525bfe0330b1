//! Files that are read, and the walk over their tables.

use crate::failure::{name, Failure, NO, UNREADABLE};
use crate::form::{self, Found, Sound};
use crate::json::Json;
use crate::{advice, filter, input, out, text};
use gvdb::{Entry, Form, Header, Item, Lookup, Pointer, Refusal, Table, Unsound, MAX_FILE};
use std::ffi::OsStr;
use std::path::PathBuf;

/// Tables nested deeper than this are not walked.
pub const DEEPEST: usize = 64;
/// The keys of one file that are held at a time, in bytes. Only a file made to be a trap has more.
const KEY_BYTES: usize = 256 << 20;
/// The values of one file that are taken, in bytes. Values that do not overlap are no longer than the file.
const VALUE_BYTES: usize = 64 << 20;

/// A file with its header, read.
pub struct Source {
    pub path: PathBuf,
    /// The path as it is printed.
    pub name: String,
    pub bytes: Vec<u8>,
    pub header: Header,
    /// The form that its tables are read in.
    pub form: Form,
    /// Tables that are known to be sound in that form, by the Rust's lookup.
    pub sound: Sound,
    /// The lookup that its tables are asked by.
    pub lookup: Lookup,
}

impl Source {
    /// The file at a path, or standard input for `-`, in a form; without one in that which it is found to be in.
    pub fn read(path: &OsStr, form: Option<Form>) -> Result<Source, Failure> {
        let (name, bytes) = input::read(path, MAX_FILE)?;
        out::progress(bytes.len(), || format!("{name}: {} read", text::count(bytes.len(), "byte")));
        Ok(Source { path: PathBuf::from(path), ..Source::of(&name, bytes, form)? })
    }

    /// Bytes that are read as a file of this name.
    pub fn of(name: &str, bytes: Vec<u8>, form: Option<Form>) -> Result<Source, Failure> {
        let header = Header::read(&bytes).map_err(|refusal| Failure::refused(UNREADABLE, name, refusal))?;
        let plain = Source { path: PathBuf::new(), name: name.to_string(), bytes, header, form: Form::Plain, sound: Sound::new(), lookup: Lookup::Rust };
        let Found { form, sound } = form.map_or_else(|| form::found(&plain), |form| Found { form, ..Found::default() });
        Ok(Source { form, sound, ..plain })
    }

    /// The same file, asked by a lookup. Its form was found out by the Rust's: a table that is sound by the strict one is sound by that too, in the same form.
    pub fn with_lookup(self, lookup: Lookup) -> Source {
        Source { lookup, ..self }
    }

    /// What the check says of a table of this file. One that was checked while the form was found out is not checked again, unless it has a filter and the lookup is
    /// the strict one.
    pub fn check(&self, table: &Table) -> Result<(), Unsound> {
        let one = self.lookup == Lookup::Rust || table.bloom_words() == 0;
        if one && self.sound.contains_key(&table.pointer()) {
            return Ok(());
        }
        table.check()
    }

    /// The tables that are nested in one of this file, which is sound or not: those that were met while the form was found out, or those that a walk meets. Either is
    /// by the Rust's lookup, so that a table is judged too whose key the strict one does not find.
    pub fn nested<'a>(&'a self, table: &Table<'a>, sound: bool) -> Box<dyn Iterator<Item = (String, Table<'a>)> + 'a> {
        match self.sound.get(&table.pointer()) {
            Some(nested) => Box::new(nested.iter().filter_map(|(key, at)| Some((key.clone(), self.open(*at).ok()?)))),
            None if sound => Box::new(table.sound_tables()),
            None => Box::new(table.with_lookup(Lookup::Rust).tables().map(|(key, nested)| (key, nested.with_lookup(self.lookup)))),
        }
    }

    /// The table at a pointer, in the form and by the lookup that the file is read in.
    fn open(&self, at: Pointer) -> Result<Table<'_>, Refusal> {
        Ok(Table::open(&self.bytes, at.start, at.end)?.with_form(self.form).with_lookup(self.lookup))
    }

    /// The path, for JSON: it can hold no byte that is not UTF-8.
    pub fn json_name(&self) -> Json {
        Json::text(name(self.path.as_os_str()))
    }

    /// What JSON says of the file before what is in it.
    pub fn json(&self) -> Vec<(&'static str, Json)> {
        vec![("file", self.json_name()), ("byte_order", Json::text(self.header.order.name())), ("form", Json::text(self.form.name()))]
    }

    pub fn root(&self) -> Result<Table<'_>, Failure> {
        self.open(self.header.root).map_err(|refusal| Failure::refused(UNREADABLE, &format!("{}: root table", self.name), refusal))
    }

    /// The table that is reached from the root by the keys of nested ones, given as `gvdb list` prints them; and those keys.
    pub fn table<'a>(&self, words: impl Iterator<Item = &'a OsStr>) -> Result<(Table<'_>, Vec<String>), Failure> {
        let mut table = self.root()?;
        let mut path = Vec::new();
        for word in words {
            let key = text::given(word)?;
            let what = format!("{}: table {}", self.name, text::quoted_bytes(&key));
            table = table.get_table(&key).map_err(|refusal| not_found(&what, &table, &key, refusal))?;
            path.push(String::from_utf8_lossy(&key).into_owned());
        }
        Ok((table, path))
    }

    pub fn walk(&self) -> Walk {
        Walk { name: self.name.clone(), table_bytes: self.bytes.len(), key_bytes: KEY_BYTES, value_bytes: VALUE_BYTES }
    }
}

/// Why a lookup is refused. Where something else stands under the key, it is said what that is and how to see it.
pub fn not_found(what: &str, table: &Table, key: &[u8], refusal: Refusal) -> Failure {
    match refusal {
        Refusal::OtherKind => {}
        Refusal::KeyNotUtf8 { at } => return Failure::bad_key(what, key, at, advice::of(refusal.number())),
        Refusal::KeyNotFound if filter::hides(table, key) => {
            let hidden = "a lookup finds it, but not the strict one; gvdb check --strict FILE says what is broken";
            return Failure::told(NO, what, refusal.number(), hidden);
        }
        _ => return Failure::refused(NO, what, refusal),
    }
    let there = match table.item(key) {
        Ok(Item::Value(_)) => "it is a value; gvdb get FILE KEY writes it",
        Ok(Item::Table(_)) => "it is a table; gvdb list FILE --table KEY shows what it holds",
        Ok(Item::Container) => "it is a container; gvdb list FILE KEY shows what is below",
        Err(Refusal::OtherKind) => "it is of an unknown kind; gvdb check FILE says what is broken",
        Err(_) => "it does not open; gvdb check FILE says what is broken",
    };
    Failure::told(NO, what, refusal.number(), there)
}

/// Bounds a walk over the tables of a file. Tables that do not overlap take no more bytes than the file, so a walk that takes more has met one
/// twice or in itself, and would grow without need.
pub struct Walk {
    name: String,
    table_bytes: usize,
    key_bytes: usize,
    value_bytes: usize,
}

impl Walk {
    /// Takes a table that is reached by the keys of those around it.
    pub fn enter(&mut self, table: &Table, path: &[String]) -> Result<(), Failure> {
        self.hold(path.iter().map(String::len).sum())?;
        if path.len() >= DEEPEST {
            return Err(Failure::no(format!("{}: tables are nested more than {DEEPEST} deep, and not followed", self.name)));
        }
        let pointer = table.pointer();
        let size = (pointer.end - pointer.start) as usize;
        let left = self.table_bytes.checked_sub(size);
        self.table_bytes = left.ok_or_else(|| Failure::no(format!("{}: tables overlap or hold each other, and are not followed", self.name)))?;
        Ok(())
    }

    /// All entries of a table: those whose keys read in ascending order, then the others by index. They are the same of a table that is known to be sound, and
    /// cost less.
    pub fn entries<'a>(&mut self, table: &Table<'a>, sound: bool) -> Result<Vec<Entry<'a>>, Failure> {
        let found: Box<dyn Iterator<Item = Entry>> = if sound { Box::new(table.sound_entries()) } else { Box::new(table.entries()) };
        let mut entries = Vec::new();
        for entry in found {
            self.hold(entry.key.as_ref().map_or(0, String::len))?;
            entries.push(entry);
        }
        entries.sort_by(|a, b| (a.key.is_err(), a.key.as_ref().ok(), a.index).cmp(&(b.key.is_err(), b.key.as_ref().ok(), b.index)));
        Ok(entries)
    }

    /// Takes the bytes of keys that are held.
    pub fn hold(&mut self, bytes: usize) -> Result<(), Failure> {
        self.key_bytes = spend(&self.name, "keys", self.key_bytes, bytes, KEY_BYTES)?;
        Ok(())
    }

    /// Takes a value. One small file could hold a long one under many keys.
    pub fn value(&mut self, bytes: &[u8]) -> Result<(), Failure> {
        self.value_bytes = spend(&self.name, "values", self.value_bytes, bytes.len(), VALUE_BYTES)?;
        Ok(())
    }
}

fn spend(name: &str, what: &str, left: usize, bytes: usize, limit: usize) -> Result<usize, Failure> {
    left.checked_sub(bytes).ok_or_else(|| Failure::no(format!("{name}: its {what} overlap: they take more than {} bytes", text::grouped(limit))))
}
