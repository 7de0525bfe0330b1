//! `gvdb dump` and `gvdb build`: a file as lines of text and back. Each line says all: the keys of the tables around, the key, and the value in hex,
//! with a TAB between. `{}` in the value's place says that the key is a nested table's, `[]` that it is a container's which the separator does not make. A line
//! `big-endian`, without a TAB, says that the values are.

use crate::args::Args;
use crate::content::{self, Content, Node, Place};
use crate::failure::{Failure, NO};
use crate::filter;
use crate::form;
use crate::input;
use crate::json::Json;
use crate::lay::{lay, Layout};
use crate::order::Order;
use crate::out::Out;
use crate::report::{lost_line, told, why_unmade};
use crate::source::Source;
use crate::target::{self, Target};
use crate::{advice, replace, text};
use gvdb::{ByteOrder, Form, Refusal, WriteOptions, MAX_NESTING};
use std::borrow::Cow;
use std::collections::BTreeMap;
use std::ffi::OsStr;
use std::io::Write;

const TABLE: &str = "{}";
const CONTAINER: &str = "[]";
const BIG_ENDIAN: &str = "big-endian";
/// What editors may put in front of a text.
const MARK: &[u8] = b"\xef\xbb\xbf";

pub fn dump(args: &Args, out: &mut Out) -> Result<u8, Failure> {
    let source = Source::read(&args.words()[0], form::named(args, None)?)?;
    let content = content::read(&source)?;
    if args.flag("--json") {
        json(&source, &content).print(out)?;
        return Ok(0);
    }
    if source.header.order == ByteOrder::Big {
        out.line(BIG_ENDIAN)?;
    }
    let order = Order::of(&source, &content)?;
    let mut dumping = Dumping { out, order: &order, separator: content::separator(args.value("--separator"))?, path: Vec::new() };
    dumping.table(&content, "")?;
    Ok(0)
}

/// A file on its way into lines: in the order of its containers' children, so that what is built of them has it too.
struct Dumping<'d> {
    out: &'d mut Out,
    order: &'d Order,
    separator: Option<u8>,
    path: Vec<String>,
}

impl Dumping<'_> {
    fn table(&mut self, content: &Content, tables: &str) -> Result<(), Failure> {
        let unmade = content::unmade_here(content, self.separator);
        for key in self.order.depth_first(&self.path, content) {
            let fields = format!("{tables}{}\t", text::escaped(key));
            match content.get(key) {
                Some(Node::Value(bytes)) => writeln!(self.out.stdout, "{fields}{}", text::hex(bytes))?,
                Some(Node::Container) if unmade.contains(&key.to_string()) => writeln!(self.out.stdout, "{fields}{CONTAINER}")?,
                Some(Node::Container) | None => {}
                Some(Node::Table(nested)) => {
                    writeln!(self.out.stdout, "{fields}{TABLE}")?;
                    self.path.push(key.to_string());
                    self.table(nested, &fields)?;
                    self.path.pop();
                }
            }
        }
        Ok(())
    }
}

/// A file with every item of every table.
fn json(source: &Source, content: &Content) -> Json {
    fn items(content: &Content) -> Json {
        let item = |(key, node): (&String, &Node)| {
            let rest = match node {
                Node::Value(bytes) => vec![("kind", Json::text("value")), ("size", Json::Number(bytes.len())), ("value", Json::Text(text::hex(bytes)))],
                Node::Table(nested) => vec![("kind", Json::text("table")), ("size", Json::Number(nested.len())), ("items", items(nested))],
                Node::Container => vec![("kind", Json::text("container"))],
            };
            Json::Object([("key", Json::text(key))].into_iter().chain(rest).collect())
        };
        Json::List(content.iter().map(item).collect())
    }
    Json::Object(source.json().into_iter().chain([("items", items(content))]).collect())
}

pub fn build(args: &Args, out: &mut Out) -> Result<u8, Failure> {
    let mut target = Target::find(args.needed("-o")?)?;
    let separator = content::separator(args.value("--separator"))?;
    let form = form::named(args, Some(Form::Plain))?.ok_or_else(|| Failure::usage("build: lines have no form, so --form is plain or signed here"))?;
    let options = WriteOptions { form, filter_words: filter::words(args)? };
    // The lines may have been made from what is there: it has to be the same when they are laid.
    target.look()?;
    let old = replace::old(&target, args.flag("--replace"))?;
    let old_content = old.as_ref().map(replace::read).transpose()?.unwrap_or_default();
    let lines = Lines::parse(&input::text(OsStr::new("-"))?.1, args.flag("--empty"))?;
    let order = if args.flag("--big-endian") { ByteOrder::Big } else { lines.order };
    let unmade = content::unmade(&lines.content, separator);
    if !args.flag("--without-containers") {
        lines.all_laid(&unmade, separator)?;
    }
    target::take_turns([&mut target])?;
    let children = Order::of_lines(&lines.numbers, separator);
    let layout = Layout { separator, order, options, children: &children };
    let bytes = lay(&target.name, &lines.content, layout, &|path, key| lines.named(path, key))?;
    let size = bytes.len();
    let mut image = target.write(bytes)?;

    let mut error = Out::error();
    let out = if target.is_standard() { &mut error } else { out };
    let lost = old.as_ref().map_or(Vec::new(), |old| replace::lost(old, &old_content, &lines.content, order));
    let lost = lost.iter().map(|(place, leaf)| lost_line(place, leaf, usize::MAX)).collect();
    let lost = told(lost, Some(out));
    let left_out = unmade.iter().map(|(path, key)| format!("note container {} is left out: {}\n", text::path(path, key), why_unmade(key, separator, "")));
    out.tell_before(&target.name, &(lost + &left_out.collect::<String>()))?;
    image.put()?;
    let values = content::values(&lines.content).len();
    let last = format!("{}: {}, {}{}\n", target.name, text::count(values, "value"), text::count(size, "byte"), filter::laid(options));
    out.tell(&last).map_err(|failure| failure.so(&format!("{} is written", target.name)))?;
    Ok(0)
}

/// What the lines of an input say.
struct Lines {
    content: Content<'static>,
    order: ByteOrder,
    /// The line that each item comes from: the first, for a table.
    numbers: BTreeMap<Place, usize>,
}

impl Lines {
    /// Reads every line. Where a command in front fails there is nothing, or a line that is cut; a file laid from that would lack what nobody dropped.
    fn parse(input: &[u8], may_be_empty: bool) -> Result<Lines, Failure> {
        let mut lines = Lines { content: Content::new(), order: ByteOrder::Little, numbers: BTreeMap::new() };
        let (mark, rest) = input.split_at(if input.starts_with(MARK) { MARK.len() } else { 0 });
        let count = rest.split(|&byte| byte == b'\n').count();
        let mut empty = true;
        for (at, line) in rest.split(|&byte| byte == b'\n').enumerate() {
            let line = line.strip_suffix(b"\r").unwrap_or(line);
            if line.is_empty() {
                continue;
            }
            let bad = |why: &str| Err(Failure::usage(format!("line {}: {why}", at + 1)));
            match line {
                [0xff, 0xfe, ..] | [0xfe, 0xff, ..] if at == 0 => {
                    return bad("a byte order mark of UTF-16 is in front; the lines have to be UTF-8 without one")
                }
                _ if !mark.is_empty() => return bad("a byte order mark (ef bb bf) is in front; the lines have to be UTF-8 without one"),
                _ if at + 1 == count => return bad("it has no end, so it may be cut; nothing is written"),
                _ => lines.line(line, at + 1)?,
            }
            empty = false;
        }
        match empty && !may_be_empty {
            true => Err(Failure::usage(format!(
                "standard input: no line of content in {}, so nothing is written; --empty lays an empty table",
                text::count(count - 1, "line")
            ))),
            false => Ok(lines),
        }
    }

    fn line(&mut self, line: &[u8], number: usize) -> Result<(), Failure> {
        let what = format!("line {number}");
        let bad = |why: &str| Failure::usage(format!("{what}: {why}"));
        if line == BIG_ENDIAN.as_bytes() {
            self.order = ByteOrder::Big;
            return Ok(());
        }
        let mut fields: Vec<&[u8]> = line.split(|&byte| byte == b'\t').collect();
        let value = fields.pop().unwrap_or_default();
        let mut keys = Vec::new();
        for field in fields {
            let key = text::unescaped(field).map_err(bad)?;
            keys.push(String::from_utf8(key).map_err(|error| not_text(&what, field, error.as_bytes()))?);
        }
        let key = keys.pop().ok_or_else(|| bad("no TAB between key and value"))?;
        if keys.len() >= MAX_NESTING {
            return Err(Failure::refused(NO, &what, Refusal::NestedTooDeep));
        }
        let node = match value {
            value if value == TABLE.as_bytes() => Node::Table(Content::new()),
            value if value == CONTAINER.as_bytes() => Node::Container,
            hex => Node::Value(Cow::Owned(text::unhex(hex).ok_or_else(|| bad("the value is neither pairs of hex digits nor {} nor []"))?)),
        };
        self.item(keys, key, node, number)
    }

    /// Puts an item in its table, with the tables around it. What stands on a line already may only be a table again.
    fn item(&mut self, keys: Vec<String>, key: String, node: Node<'static>, number: usize) -> Result<(), Failure> {
        let Lines { content, numbers, .. } = self;
        let mut place = (Vec::new(), String::new());
        let mut table = content;
        for key in keys {
            place.1.clone_from(&key);
            let there = table.entry(key).or_insert_with(|| {
                numbers.insert(place.clone(), number);
                Node::Table(Content::new())
            });
            match there {
                Node::Table(nested) => table = nested,
                there => return Err(clash(&place, there, "a table", numbers, number)),
            }
            place.0.push(std::mem::take(&mut place.1));
        }
        place.1.clone_from(&key);
        match (table.get(&key), &node) {
            (None, _) => {
                table.insert(key, node);
                numbers.insert(place, number);
                Ok(())
            }
            (Some(Node::Table(_)), Node::Table(_)) => Ok(()),
            (Some(there), node) => Err(clash(&place, there, kind(node), numbers, number)),
        }
    }

    /// Refuses containers that cannot be laid: the first with the reason, the others by their lines.
    fn all_laid(&self, unmade: &[Place], separator: Option<u8>) -> Result<(), Failure> {
        let Some(((path, key), more)) = unmade.split_first() else { return Ok(()) };
        let lines: Vec<String> = more.iter().map(|place| self.number(place).to_string()).collect();
        let more = if lines.is_empty() { String::new() } else { format!(", nor can those of line {}", text::cut(&lines.join(", "))) };
        let why = why_unmade(key, separator, &format!("{more}; --without-containers leaves out what cannot"));
        Err(Failure::no(format!("{}: the container cannot be laid: {why}", self.named(path, key))))
    }

    fn number(&self, place: &Place) -> usize {
        self.numbers.get(place).copied().unwrap_or_default()
    }

    /// An item, for a message.
    fn named(&self, path: &[String], key: &str) -> String {
        let number = self.number(&(path.to_vec(), key.to_string()));
        format!("line {number}: key {}", text::cut(&text::path(path, key)))
    }
}

/// A key that is not UTF-8, and the field that it stands in. Bytes that stand there as they are may be those of another list; what escapes say does not change with
/// the list's encoding.
fn not_text(what: &str, field: &[u8], key: &[u8]) -> Failure {
    let at = gvdb::first_bad(key).unwrap_or(key.len());
    let advice = match (text::latin1(field), gvdb::first_bad(field)) {
        (true, _) => "if the list is in Latin-1, iconv -f latin1 -t utf8 turns it into UTF-8",
        (false, Some(_)) => advice::of(Refusal::KeyNotUtf8 { at }.number()),
        (false, None) => "its escapes give other bytes than UTF-8",
    };
    Failure::bad_key(what, key, at, advice)
}

fn kind(node: &Node) -> &'static str {
    match node {
        Node::Value(_) => "a value",
        Node::Table(_) => "a table",
        Node::Container => "a container",
    }
}

/// A key that is on a line already.
fn clash(place: &Place, there: &Node, here: &str, numbers: &BTreeMap<Place, usize>, number: usize) -> Failure {
    let named = text::cut(&text::path(&place.0, &place.1));
    let before = numbers.get(place).copied().unwrap_or_default();
    Failure::usage(match kind(there) {
        there if there == here => format!("line {number}: key {named} stands on line {before} too"),
        there => format!("line {number}: key {named} is {here} here and {there} on line {before}"),
    })
}
