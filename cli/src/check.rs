//! `gvdb check`: every table of a file, nested ones too.

use crate::args::Args;
use crate::failure::{name, Failure, NO};
use crate::filter;
use crate::form;
use crate::json::Json;
use crate::out::{self, Colour, Out};
use crate::source::{Source, Walk};
use crate::text;
use gvdb::{Form, Lookup, Refusal, Table, Unsound};
use std::ffi::OsStr;
use std::io::Write;

/// What the check says of one table.
struct Verdict {
    /// The keys of the tables on the way to it; none for the root.
    path: Vec<String>,
    items: usize,
    filter_words: usize,
    broken: Option<Broken>,
    /// Whether it is sound in the signed form alone.
    signed: bool,
}

/// A rule that a table breaks.
pub struct Broken {
    unsound: Unsound,
    /// What that means for the item.
    meaning: &'static str,
    /// The item's key, or why it does not read: for rule 1 what the check says.
    key: Result<String, Refusal>,
}

pub fn run(args: &Args, out: &mut Out) -> Result<u8, Failure> {
    let (form, lookup) = (form::named(args, None)?, filter::lookup(args));
    let mut status = 0;
    let mut files = Vec::new();
    for file in args.words() {
        let mut checked = Checked { lookup, ..Checked::default() };
        if args.flag("--json") {
            checked.file(file, form, &mut |_, _| Ok(()))?;
            files.push(checked.json(file));
        } else {
            checked.file(file, form, &mut |source, verdict| verdict.print(source, out))?;
            checked.failure.iter().for_each(|failure| out::say(&failure.line));
        }
        status = status.max(checked.status());
    }
    if args.flag("--json") {
        Json::List(files).print(out)?;
    }
    Ok(status)
}

/// Is told each verdict as it comes.
type Tell<'t> = &'t mut dyn FnMut(&Source, &Verdict) -> Result<(), Failure>;

/// A file's tables, as far as they could be walked, and what ended the walk early.
#[derive(Default)]
struct Checked {
    /// The lookup that its tables are judged by.
    lookup: Lookup,
    /// The byte order and the form, once the header is read.
    read: Option<[&'static str; 2]>,
    tables: Vec<Verdict>,
    failure: Option<Failure>,
}

impl Checked {
    /// Checks a file. Only what `tell` says ends it early; what is wrong with the file is kept.
    fn file(&mut self, file: &OsStr, form: Option<Form>, tell: Tell) -> Result<(), Failure> {
        let source = match Source::read(file, form) {
            Ok(source) => source.with_lookup(self.lookup),
            Err(failure) => return self.ended(failure),
        };
        self.read = Some([source.header.order.name(), source.form.name()]);
        match source.root() {
            Ok(root) => self.table(&source, root, &mut Vec::new(), &mut source.walk(), tell),
            Err(failure) => self.ended(failure),
        }
    }

    fn ended(&mut self, failure: Failure) -> Result<(), Failure> {
        self.failure = Some(failure);
        Ok(())
    }

    /// Checks a table and those nested in it: each before those it holds.
    fn table<'a>(&mut self, source: &'a Source, table: Table<'a>, path: &mut Vec<String>, walk: &mut Walk, tell: Tell) -> Result<(), Failure> {
        if let Err(failure) = walk.enter(&table, path) {
            return self.ended(failure);
        }
        out::progress(source.bytes.len(), || format!("{}: {}: checking {}", source.name, table_name(path), text::count(table.len(), "item")));
        let broken = Broken::of(source, &table);
        let signed = source.form == Form::Signed && broken.is_none() && table.with_form(Form::Plain).check().is_err();
        let verdict = Verdict { path: path.clone(), items: table.len(), filter_words: table.bloom_words(), broken, signed };
        tell(source, &verdict)?;
        let sound = verdict.broken.is_none();
        self.tables.push(verdict);
        for (key, nested) in source.nested(&table, sound) {
            path.push(key);
            self.table(source, nested, path, walk, tell)?;
            path.pop();
            if self.failure.is_some() {
                break;
            }
        }
        Ok(())
    }

    fn status(&self) -> u8 {
        let broken = self.tables.iter().any(|table| table.broken.is_some());
        self.failure.as_ref().map_or(0, |failure| failure.status).max(if broken { NO } else { 0 })
    }

    fn json(&self, file: &OsStr) -> Json {
        let refusal = |failure: &Failure| Json::Object(vec![("number", Json::number(failure.number)), ("line", Json::text(&failure.line))]);
        Json::Object(vec![
            ("file", Json::text(name(file))),
            ("sound", Json::Bool(self.status() == 0)),
            ("status", Json::Number(self.status().into())),
            ("byte_order", self.read.map_or(Json::Null, |[order, _]| Json::text(order))),
            ("form", self.read.map_or(Json::Null, |[_, form]| Json::text(form))),
            ("tables", Json::List(self.tables.iter().map(Verdict::json).collect())),
            ("failure", self.failure.as_ref().map_or(Json::Null, refusal)),
        ])
    }
}

impl Verdict {
    /// The table's line, which is out before the next table is begun.
    fn print(&self, source: &Source, out: &mut Out) -> Result<(), Failure> {
        let said = match &self.broken {
            None => {
                let form = if self.signed { " in the signed form (GLib's)" } else { "" };
                format!("{}{form}, {}{}", out.paint(Colour::Green, "sound"), text::count(self.items, "item"), filter::count(self.filter_words))
            }
            Some(broken) => format!("{}: {} {}", out.paint(Colour::Red, "not sound"), broken.words(), broken.numbers()),
        };
        out.line(format!("{}: {}: {said}", source.name, table_name(&self.path)))?;
        Ok(out.stdout.flush()?)
    }

    fn json(&self) -> Json {
        let mut fields = vec![("path", Json::texts(&self.path)), ("items", Json::Number(self.items)), filter::json(self.filter_words)];
        fields.push(("sound", Json::Bool(self.broken.is_none())));
        fields.extend(self.broken.iter().flat_map(Broken::json));
        Json::Object(fields)
    }
}

/// Whether a table passes, as a failure that names what is broken.
pub fn sound(source: &Source, table: &Table, path: &[String]) -> Result<(), Failure> {
    Broken::of(source, table).map_or(Ok(()), |broken| Err(broken.failure(&source.name, path, "gvdb list FILE shows what reads")))
}

fn table_name(path: &[String]) -> String {
    match path.split_last() {
        None => "root table".to_string(),
        Some((key, tables)) => format!("table {}", text::path(tables, key)),
    }
}

impl Broken {
    /// The first rule that a table breaks, if it breaks one.
    pub fn of(source: &Source, table: &Table) -> Option<Broken> {
        let unsound = source.check(table).err()?;
        let key = unsound.why.map_or_else(|| table.key_at(unsound.item), Err);
        Some(Broken { unsound, meaning: filter::meaning(table, unsound), key })
    }

    /// Where a table breaks what, and what to do or to know, as a failure.
    pub fn failure(&self, name: &str, path: &[String], hint: &str) -> Failure {
        let line = format!("{name}: {}: not sound: {}; {hint} {}", table_name(path), self.words(), self.numbers());
        Failure { number: Some(Refusal::CheckBroken.number()), ..Failure::no(line) }
    }

    fn words(&self) -> String {
        let (item, meaning) = (self.unsound.item, self.meaning);
        match &self.key {
            Ok(key) => format!("item {item}, key {}: {meaning}", text::cut(&text::quoted(key))),
            Err(refusal) => format!("item {item}: {meaning}: {}", refusal.message()),
        }
    }

    fn numbers(&self) -> String {
        let refusal = self.key.as_ref().err().map_or(String::new(), |refusal| format!(", refusal {}", refusal.number()));
        format!("(rule {}{refusal})", self.unsound.rule)
    }

    pub fn json(&self) -> Vec<(&'static str, Json)> {
        vec![
            ("rule", Json::Number(self.unsound.rule as usize)),
            ("item", Json::Number(self.unsound.item)),
            ("key", self.key.as_ref().map_or(Json::Null, Json::text)),
            ("key_refusal", Json::number(self.key.as_ref().err().map(|refusal| refusal.number()))),
            ("why", Json::number(self.unsound.why.map(Refusal::number))),
            ("at", Json::offset(self.unsound.why.and_then(Refusal::at))),
            ("meaning", Json::text(self.meaning)),
        ]
    }
}
