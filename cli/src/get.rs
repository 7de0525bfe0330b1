//! `gvdb get`: one value, of a file or of a file over another.

use crate::args::Args;
use crate::failure::Failure;
use crate::filter;
use crate::form;
use crate::json::Json;
use crate::out::{self, Out};
use crate::source::{not_found, Source};
use crate::text;
use gvdb::{Form, Refusal};
use std::io::Write;

/// A value, the file that it is in, and the keys of the tables around it.
struct Found<'s> {
    source: &'s Source,
    path: Vec<String>,
    value: &'s [u8],
}

/// The value's bytes, as they are to a pipe or file, in hex to a terminal.
pub fn run(args: &Args, out: &mut Out) -> Result<u8, Failure> {
    let key = text::given(&args.words()[1])?;
    let tables = args.values("--table").map(text::given).collect::<Result<Vec<_>, _>>()?;
    // Keys below 128 are found alike in both forms: which one the file is in, which is found out by a check, is not asked then.
    let alike = tables.iter().chain([&key]).all(|key| key.is_ascii());
    let form = form::named(args, Some(Form::Plain).filter(|_| alike))?;
    let read = |word| Source::read(word, form).map(|source| source.with_lookup(filter::lookup(args)));
    let own = read(&args.words()[0])?;
    let under = args.value("--under").map(read).transpose()?;
    let found = match &under {
        None => alone(&own, args, &key)?,
        Some(under) => over(&own, under, args, &key)?,
    };
    let from = under.is_some().then(|| if std::ptr::eq(found.source, &own) { "own" } else { "under" });
    if args.flag("--json") {
        json(&found, from, &key).print(out)?;
        return Ok(0);
    }
    if from.is_some() {
        out::say(format!("from {}", found.source.name));
    }
    if args.flag("--hex") || (out.is_terminal() && !args.flag("--raw")) {
        out.line(text::hex(found.value))?;
    } else {
        out.stdout.write_all(found.value)?;
    }
    Ok(0)
}

fn alone<'s>(source: &'s Source, args: &Args, key: &[u8]) -> Result<Found<'s>, Failure> {
    let (table, path) = source.table(args.values("--table"))?;
    let value = table.get(key).map_err(|refusal| not_found(&named(source, key), &table, key, refusal))?;
    Ok(Found { source, path, value })
}

/// What the first file answers stands, but that it has no such key (12): then the other's answer does. The tables around the key are followed in each file by itself;
/// where the first has none of the name, that is 12 too, and where the other's does not open, that is told only if it is asked.
fn over<'s>(own: &'s Source, under: &'s Source, args: &Args, key: &[u8]) -> Result<Found<'s>, Failure> {
    let (Ok(above), Ok(below)) = (own.table(args.values("--table")), under.table(args.values("--table"))) else {
        let missing = |failure: &Failure| failure.number == Some(Refusal::KeyNotFound.number());
        return alone(own, args, key).or_else(|failure| if missing(&failure) { alone(under, args, key) } else { Err(failure) });
    };
    let found = above.0.get_over(&below.0, key);
    let (source, (table, path)) = match found.from {
        gvdb::Source::Owner => (own, above),
        gvdb::Source::District => (under, below),
    };
    let value = found.value.map_err(|refusal| not_found(&named(source, key), &table, key, refusal))?;
    Ok(Found { source, path, value })
}

fn named(source: &Source, key: &[u8]) -> String {
    format!("{}: key {}", source.name, text::quoted_bytes(key))
}

/// The file that the value is in and, of two, which one; then where the value stands, and all its bytes.
fn json(found: &Found, from: Option<&str>, key: &[u8]) -> Json {
    let mut fields = found.source.json();
    fields.extend(from.map(|from| ("from", Json::text(from))));
    let (key, size) = (Json::text(String::from_utf8_lossy(key)), Json::Number(found.value.len()));
    fields.extend([("table", Json::texts(&found.path)), ("key", key), ("size", size), ("value", Json::Text(text::hex(found.value)))]);
    Json::Object(fields)
}
