//! `gvdb list`: the keys of one table, with kind and size.

use crate::args::Args;
use crate::check::Broken;
use crate::failure::Failure;
use crate::filter;
use crate::form;
use crate::json::Json;
use crate::out::{self, Colour, Out};
use crate::source::{Source, Walk};
use crate::text;
use gvdb::{Entry, Form, Item, Refusal};

/// Values of so many bytes are shown by `--values`.
const SHORT: usize = 32;

/// One line of the list.
struct Row<'a> {
    entry: Entry<'a>,
    /// The items right below a container.
    below: usize,
}

pub fn run(args: &Args, out: &mut Out) -> Result<u8, Failure> {
    let prefix = args.words().get(1).map_or(Ok(Vec::new()), |prefix| text::given(prefix))?;
    let form = form::named(args, Some(Form::Plain).filter(|_| args.flag("--no-check")))?;
    let source = Source::read(&args.words()[0], form)?;
    let (table, path) = source.table(args.values("--table"))?;
    let checked = !args.flag("--no-check");
    let broken = Some(&table).filter(|_| checked).and_then(|table| Broken::of(&source, table));
    if let Some(broken) = &broken {
        out::say(broken.failure(&source.name, &path, "it is listed as lookups answer").line);
    }
    let mut walk = source.walk();
    let mut rows = rows(walk.entries(&table, checked && broken.is_none())?);
    rows.retain(|row| prefix.is_empty() || row.entry.key.as_ref().is_ok_and(|key| key.as_bytes().starts_with(&prefix)));
    if args.flag("--json") {
        let items = rows.iter().map(|row| row.json(&mut walk)).collect::<Result<_, _>>()?;
        let of_table = [("table", Json::texts(&path)), filter::json(table.bloom_words()), ("items", Json::List(items))];
        Json::Object(source.json().into_iter().chain(of_table).collect()).print(out)?;
        return Ok(0);
    }
    for row in &rows {
        out.line(row.line(out, args.flag("--values")))?;
    }
    Ok(0)
}

/// Rows with what stands below each container: the items for which it is the nearest container on the way.
fn rows(entries: Vec<Entry>) -> Vec<Row> {
    let mut rows: Vec<Row> = entries.into_iter().map(|entry| Row { entry, below: 0 }).collect();
    let mut above: Vec<usize> = Vec::new();
    for i in 0..rows.len() {
        let Ok(key) = &rows[i].entry.key else { break };
        while above.last().is_some_and(|&top| !rows[top].entry.key.as_ref().is_ok_and(|container| key.starts_with(container.as_str()))) {
            above.pop();
        }
        if let Some(&top) = above.last() {
            rows[top].below += 1;
        }
        if matches!(rows[i].entry.item, Ok(Item::Container)) {
            above.push(i);
        }
    }
    rows
}

impl Row<'_> {
    /// The bytes of a value, the items of a table, the items right below a container.
    fn size(&self) -> Option<usize> {
        match &self.entry.item {
            Ok(Item::Value(bytes)) => Some(bytes.len()),
            Ok(Item::Table(nested)) => Some(nested.len()),
            Ok(Item::Container) => Some(self.below),
            Err(_) => None,
        }
    }

    fn line(&self, out: &Out, values: bool) -> String {
        let key = match &self.entry.key {
            Ok(key) => text::escaped(key),
            Err(refusal) => out.paint(Colour::Red, &unread(self.entry.index, *refusal)),
        };
        let kind = match &self.entry.item {
            Ok(item) => {
                let colour = if matches!(item, Item::Value(_)) { Colour::Green } else { Colour::Blue };
                format!("{} {:>8}", out.paint(colour, &format!("{:<9}", kind(item))), text::grouped(self.size().unwrap_or(0)))
            }
            Err(refusal) => out.paint(Colour::Red, &format!("refused {:>10}", format!("({})", refusal.number()))),
        };
        match self.entry.item {
            Ok(Item::Value(bytes)) if values && bytes.len() <= SHORT => format!("{kind}  {key}\t{}", text::hex(bytes)),
            _ => format!("{kind}  {key}"),
        }
    }

    fn json(&self, walk: &mut Walk) -> Result<Json, Failure> {
        let mut fields = item_json(&self.entry);
        fields.extend(self.size().map(|size| ("size", Json::Number(size))));
        match self.entry.item {
            Ok(Item::Value(bytes)) => {
                walk.value(bytes)?;
                fields.push(("value", Json::Text(text::hex(bytes))));
            }
            Ok(Item::Table(nested)) => fields.push(filter::json(nested.bloom_words())),
            _ => {}
        }
        Ok(Json::Object(fields))
    }
}

/// Index, key and kind of an item; in place of what does not read, why.
pub fn item_json(entry: &Entry) -> Vec<(&'static str, Json)> {
    let mut fields = vec![("index", Json::Number(entry.index))];
    match &entry.key {
        Ok(key) => fields.push(("key", Json::text(key))),
        Err(refusal) => {
            fields.extend([("key", Json::Null), ("key_refusal", Json::number(Some(refusal.number()))), ("at", Json::offset(refusal.at()))]);
        }
    }
    match &entry.item {
        Ok(item) => fields.push(("kind", Json::text(kind(item)))),
        Err(refusal) => {
            let number = Json::number(Some(refusal.number()));
            fields.extend([("kind", Json::Null), ("refusal", number), ("sentence", Json::text(refusal.message()))]);
        }
    }
    fields
}

fn kind(item: &Item) -> &'static str {
    match item {
        Item::Value(_) => "value",
        Item::Table(_) => "table",
        Item::Container => "container",
    }
}

/// What stands in place of a key that does not read.
pub fn unread(index: usize, refusal: Refusal) -> String {
    format!("item {index}, whose key does not read: {} ({})", refusal.message(), refusal.number())
}
