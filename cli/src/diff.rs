//! `gvdb diff`: in what two files differ, key by key; and `gvdb same`: whether they do.

use crate::args::Args;
use crate::content::{self, Content, Node};
use crate::failure::{Failure, NO, UNREADABLE};
use crate::json::Json;
use crate::order::Order;
use crate::out::{Colour, Out};
use crate::source::Source;
use crate::text;
use std::collections::BTreeSet;

/// So many bytes of a value are printed, from where two begin to differ; JSON has all.
const SHORT: usize = 32;

pub fn run(args: &Args, out: &mut Out) -> Result<u8, Failure> {
    let [a, b] = read(args)?;
    let contents = [content(&a)?, content(&b)?];
    let diff = Diff::of([&a, &b], [&contents[0], &contents[1]])?;
    match args.flag("--json") {
        true => diff.json().print(out)?,
        false => diff.print(out)?,
    }
    Ok(diff.status())
}

/// The same question, and the status is the answer.
pub fn same(args: &Args, _: &mut Out) -> Result<u8, Failure> {
    let [a, b] = read(args)?;
    let contents = [content(&a)?, content(&b)?];
    Ok(Diff::of([&a, &b], [&contents[0], &contents[1]])?.status())
}

fn read(args: &Args) -> Result<[Source; 2], Failure> {
    Ok([Source::read(&args.words()[0], None)?, Source::read(&args.words()[1], None)?])
}

/// What a file holds. Of a table that is not sound something may not read, so no answer would be sure: the file counts as one that cannot be read.
fn content(source: &Source) -> Result<Content<'_>, Failure> {
    content::read(source).map_err(|failure| Failure { status: UNREADABLE, ..failure })
}

/// Two files, A and B, side by side.
struct Diff<'c> {
    files: [&'c Source; 2],
    /// How the children of their containers stand.
    orders: [Order; 2],
    /// In ascending key order, a table before what it holds.
    differences: Vec<Difference<'c>>,
    /// How many items stand alike in both.
    alike: usize,
}

/// A key that does not stand alike in both files.
struct Difference<'c> {
    path: Vec<String>,
    key: &'c str,
    what: What,
    /// What A and B hold there.
    held: [Option<&'c Node<'c>>; 2],
}

#[derive(Clone, Copy, PartialEq, Eq)]
enum What {
    OnlyA,
    OnlyB,
    Value,
    Kind,
    /// Of a container: the children that both have stand in another order.
    Order,
}

impl<'c> Diff<'c> {
    fn of(files: [&'c Source; 2], contents: [&'c Content<'c>; 2]) -> Result<Diff<'c>, Failure> {
        let orders = [Order::of(files[0], contents[0])?, Order::of(files[1], contents[1])?];
        let mut diff = Diff { files, orders, differences: Vec::new(), alike: 0 };
        diff.tables(contents.map(Some), &mut Vec::new());
        Ok(diff)
    }

    /// The children that a container has in both files, as they stand in each.
    fn children(&self, path: &[String], container: &str) -> [Vec<&String>; 2] {
        let [a, b] = self.orders.each_ref().map(|order| order.children(path, container));
        let there: BTreeSet<&String> = b.iter().collect();
        let both: BTreeSet<&String> = a.iter().filter(|child| there.contains(child)).collect();
        [a, b].map(|list| list.iter().filter(|child| both.contains(child)).collect())
    }

    /// The first of them that is another in each.
    fn reordered(&self, path: &[String], container: &str) -> Option<[String; 2]> {
        let [a, b] = self.children(path, container);
        a.into_iter().zip(b).find(|(a, b)| a != b).map(|(a, b)| [a.clone(), b.clone()])
    }

    /// Compares two tables, of which one may not be there.
    fn tables(&mut self, tables: [Option<&'c Content<'c>>; 2], path: &mut Vec<String>) {
        let keys: BTreeSet<&String> = tables.iter().flatten().flat_map(|table| table.keys()).collect();
        for key in keys {
            let held = tables.map(|table| table.and_then(|table| table.get(key)));
            let what = match held {
                [Some(_), None] => Some(What::OnlyA),
                [None, Some(_)] => Some(What::OnlyB),
                [Some(Node::Value(a)), Some(Node::Value(b))] => Some(What::Value).filter(|_| a != b),
                [Some(Node::Table(_)), Some(Node::Table(_))] => None,
                [Some(Node::Container), Some(Node::Container)] => self.reordered(path, key).map(|_| What::Order),
                _ => Some(What::Kind),
            };
            match what {
                None => self.alike += 1,
                Some(what) => self.differences.push(Difference { path: path.clone(), key, what, held }),
            }
            let nested = held.map(|node| match node {
                Some(Node::Table(nested)) => Some(nested),
                _ => None,
            });
            path.push(key.clone());
            self.tables(nested, path);
            path.pop();
        }
    }

    fn same_order(&self) -> bool {
        self.files[0].header.order == self.files[1].header.order
    }

    fn same_bytes(&self) -> bool {
        self.files[0].bytes == self.files[1].bytes
    }

    fn status(&self) -> u8 {
        if self.same_order() && self.differences.is_empty() {
            0
        } else {
            NO
        }
    }

    fn count(&self, what: What) -> usize {
        self.differences.iter().filter(|difference| difference.what == what).count()
    }

    fn print(&self, out: &mut Out) -> Result<(), Failure> {
        let [a, b] = self.files;
        out.line(format!("diff of A {} and B {}", a.name, b.name))?;
        if !self.same_order() {
            let said = format!("the values of A are {}-endian, those of B {}-endian", a.header.order.name(), b.header.order.name());
            out.line(format!("{}: {said}", out.paint(Colour::Red, "byte order")))?;
        }
        for difference in &self.differences {
            difference.print(out)?;
            let first = Some(difference).filter(|difference| difference.what == What::Order).and_then(|order| self.reordered(&order.path, order.key));
            for (side, child) in ["A", "B"].into_iter().zip(first.iter().flatten()) {
                out.line(format!("    {side}  the first that differs is {}", text::quoted(&child[difference.key.len()..])))?;
            }
        }
        let alike = text::count(self.alike, "item");
        if self.status() == 0 {
            let bytes = if self.same_bytes() { ", byte for byte" } else { "" };
            return out.line(format!("{}: {alike}{bytes}", out.paint(Colour::Green, "alike")));
        }
        let order = match self.count(What::Order) {
            0 => String::new(),
            count => format!(", {count} with children in another order"),
        };
        let [only_a, only_b, value, kind] = [What::OnlyA, What::OnlyB, What::Value, What::Kind].map(|what| self.count(what));
        let counts = format!("{only_a} only in A, {only_b} only in B, {value} with another value, {kind} of another kind{order}; {alike} alike");
        out.line(format!("{}: {counts}", out.paint(Colour::Red, "not alike")))
    }

    fn json(&self) -> Json {
        let [a, b] = self.files;
        let counts = vec![
            ("only_a", Json::Number(self.count(What::OnlyA))),
            ("only_b", Json::Number(self.count(What::OnlyB))),
            ("value", Json::Number(self.count(What::Value))),
            ("kind", Json::Number(self.count(What::Kind))),
            ("order", Json::Number(self.count(What::Order))),
            ("alike", Json::Number(self.alike)),
        ];
        let sides = |json: &dyn Fn(&Source) -> Json| Json::Object(vec![("a", json(a)), ("b", json(b))]);
        Json::Object(vec![
            ("files", sides(&Source::json_name)),
            ("alike", Json::Bool(self.status() == 0)),
            ("byte_order", sides(&|file| Json::text(file.header.order.name()))),
            ("same_bytes", Json::Bool(self.same_bytes())),
            ("same_children_order", Json::Bool(self.count(What::Order) == 0)),
            ("differences", Json::List(self.differences.iter().map(|difference| difference.json(self)).collect())),
            ("items", Json::Object(counts)),
        ])
    }
}

impl Difference<'_> {
    fn print(&self, out: &mut Out) -> Result<(), Failure> {
        let place = text::path(&self.path, self.key);
        let from = self.begins();
        let (word, colour, rest) = match (self.what, from) {
            (What::OnlyA, _) => ("only in A", Colour::Yellow, format!("{place}: {}", held(self.held[0], 0))),
            (What::OnlyB, _) => ("only in B", Colour::Blue, format!("{place}: {}", held(self.held[1], 0))),
            (What::Kind, _) => ("kind", Colour::Red, place),
            (What::Order, _) => ("order", Colour::Red, format!("{place}: its children stand in another order")),
            (What::Value, 0) => ("value", Colour::Red, place),
            (What::Value, from) => ("value", Colour::Red, format!("{place}: they differ from byte {} on", text::grouped(from))),
        };
        out.line(format!("{} {rest}", out.paint(colour, word)))?;
        if matches!(self.what, What::Value | What::Kind) {
            for (side, node) in ["A", "B"].into_iter().zip(self.held) {
                out.line(format!("    {side}  {}", held(node, from)))?;
            }
        }
        Ok(())
    }

    /// Where two values begin to differ, if one of them is not printed whole.
    fn begins(&self) -> usize {
        match self.held {
            [Some(Node::Value(a)), Some(Node::Value(b))] if a.len().max(b.len()) > SHORT => a.iter().zip(b.iter()).take_while(|(a, b)| a == b).count(),
            _ => 0,
        }
    }

    fn json(&self, diff: &Diff) -> Json {
        let what = match self.what {
            What::OnlyA => "only_a",
            What::OnlyB => "only_b",
            What::Value => "value",
            What::Kind => "kind",
            What::Order => "order",
        };
        let [a, b] = match self.what {
            What::Order => diff
                .orders
                .each_ref()
                .map(|order| Json::Object(vec![("kind", Json::text("container")), ("children", Json::texts(order.children(&self.path, self.key)))])),
            _ => self.held.map(held_json),
        };
        Json::Object(vec![("path", Json::texts(&self.path)), ("key", Json::text(self.key)), ("what", Json::text(what)), ("a", a), ("b", b)])
    }
}

/// What a file holds under a key; of a value the bytes from one on, as many as a line has room for.
fn held(node: Option<&Node>, from: usize) -> String {
    match node {
        None => "nothing".to_string(),
        Some(Node::Container) => "container".to_string(),
        Some(Node::Table(nested)) => format!("table of {}", text::count(nested.len(), "item")),
        Some(Node::Value(bytes)) => {
            let shown = &bytes[from.min(bytes.len())..(from + SHORT).min(bytes.len())];
            let dots = |cut: bool| if cut { "..." } else { "" };
            let (front, end) = (dots(from > 0), dots(from + SHORT < bytes.len()));
            format!("value of {}: {front}{}{end}", text::count(bytes.len(), "byte"), text::hex(shown)).trim_end().to_string()
        }
    }
}

fn held_json(node: Option<&Node>) -> Json {
    let Some(node) = node else { return Json::Null };
    Json::Object(match node {
        Node::Container => vec![("kind", Json::text("container"))],
        Node::Table(nested) => vec![("kind", Json::text("table")), ("size", Json::Number(nested.len()))],
        Node::Value(bytes) => vec![("kind", Json::text("value")), ("size", Json::Number(bytes.len())), ("value", Json::Text(text::hex(bytes)))],
    })
}
