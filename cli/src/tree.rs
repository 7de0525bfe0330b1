//! `gvdb tree`: containers and nested tables, drawn or as JSON.

use crate::args::Args;
use crate::check::Broken;
use crate::failure::Failure;
use crate::form;
use crate::json::Json;
use crate::list::{item_json, unread};
use crate::out::{Colour, Out};
use crate::source::{Source, Walk};
use crate::text;
use gvdb::{ByteOrder, Child, Entry, Item, Refusal, Table};
use std::collections::BTreeMap;

/// What stands deeper is counted, not shown.
const DEEPEST: usize = 64;

pub fn run(args: &Args, out: &mut Out) -> Result<u8, Failure> {
    let source = Source::read(&args.words()[0], form::named(args, None)?)?;
    let root = source.root()?;
    let mut growing = Growing { source: &source, walk: source.walk(), path: Vec::new(), depth: 0, ended: None, unsound: None };
    let below = growing.table(&root);
    if args.flag("--json") {
        let mut fields = source.json();
        fields.extend([("size", Json::Number(root.len()))].into_iter().chain(below.json()));
        Json::Object(fields).print(out)?;
    } else {
        let order = if source.header.order == ByteOrder::Big { ", big-endian values" } else { "" };
        out.line(format!("{}  {}{order}{}", source.name, text::count(root.len(), "item"), below.note(out)))?;
        below.draw(out, &mut Vec::new())?;
    }
    // What ended the walk is told before what is not sound: it is why something is missing.
    growing.ended.or(growing.unsound).map_or(Ok(0), Err)
}

/// An item, with what stands below it.
struct Branch<'a> {
    leaf: Leaf<'a>,
    below: Below<'a>,
}

/// What is drawn at a place.
enum Leaf<'a> {
    /// An item, with its fragment below its container; without one where it stands by its whole key.
    Item(Entry<'a>, Option<&'a str>),
    /// A child that is drawn elsewhere already.
    Again(Child<'a>),
    /// A child that is refused, by its position.
    Refused(usize, Refusal),
}

/// What stands below a container or in a table.
#[derive(Default)]
struct Below<'a> {
    branches: Vec<Branch<'a>>,
    /// How many items stand too deep to be shown.
    deeper: usize,
    /// What a table breaks.
    broken: Option<Broken>,
    /// Whether a table was not followed.
    stopped: bool,
}

/// A tree that grows while its file is walked.
struct Growing<'s> {
    source: &'s Source,
    walk: Walk,
    /// The keys of the tables around.
    path: Vec<String>,
    /// The levels around, of containers and of tables.
    depth: usize,
    /// What ended the walk: no table is followed behind it.
    ended: Option<Failure>,
    /// The first table that is not sound.
    unsound: Option<Failure>,
}

impl Growing<'_> {
    fn table<'a>(&mut self, table: &Table<'a>) -> Below<'a> {
        let stopped = || Below { stopped: true, ..Below::default() };
        if self.ended.is_some() {
            return stopped();
        }
        match self.walk.enter(table, &self.path).and_then(|()| self.entries(table)) {
            Ok((broken, entries)) => Below { broken, ..self.roots(table, entries) },
            Err(failure) => {
                self.ended = Some(failure);
                stopped()
            }
        }
    }

    /// What a table breaks, and what it holds.
    fn entries<'a>(&mut self, table: &Table<'a>) -> Result<(Option<Broken>, Vec<Entry<'a>>), Failure> {
        let broken = Broken::of(self.source, table);
        if let (Some(broken), None) = (&broken, &self.unsound) {
            self.unsound = Some(broken.failure(&self.source.name, &self.path, "it is drawn as far as it reads"));
        }
        let entries = self.walk.entries(table, broken.is_none())?;
        Ok((broken, entries))
    }

    /// The items of a table: first those that no container lists, then what nothing leads to, as in a ring of containers.
    fn roots<'a>(&mut self, table: &Table<'a>, entries: Vec<Entry<'a>>) -> Below<'a> {
        if self.depth == DEEPEST {
            return Below { deeper: entries.len(), ..Below::default() };
        }
        self.depth += 1;
        let mut items = Items::of(table, entries);
        let mut roots = Below::default();
        for listed in [false, true] {
            for at in 0..items.entries.len() {
                if items.listed[at] == listed {
                    let root = items.entries[at].take();
                    roots.branches.extend(root.map(|entry| self.item(&mut items, at, entry, None)));
                }
            }
        }
        self.depth -= 1;
        roots
    }

    /// One item, which was taken, with what is below it.
    fn item<'a>(&mut self, items: &mut Items<'a>, at: usize, entry: Entry<'a>, fragment: Option<&'a str>) -> Branch<'a> {
        let below = match (&entry.key, &entry.item) {
            (_, Ok(Item::Container)) if self.depth == DEEPEST => Below { deeper: items.below(at), ..Below::default() },
            (_, Ok(Item::Container)) => self.level(items, at),
            (Ok(key), Ok(Item::Table(nested))) => {
                self.path.push(key.clone());
                let inner = self.table(nested);
                self.path.pop();
                inner
            }
            _ => Below::default(),
        };
        Branch { leaf: Leaf::Item(entry, fragment), below }
    }

    /// The children of a container, in stored order.
    fn level<'a>(&mut self, items: &mut Items<'a>, container: usize) -> Below<'a> {
        let mut below = Below::default();
        self.depth += 1;
        for (position, child) in std::mem::take(&mut items.children[container]).into_iter().enumerate() {
            let branch = match child.map(|child| (child, items.take(child.index))) {
                Ok((child, Some((at, entry)))) => self.item(items, at, entry, Some(child.fragment)),
                Ok((child, None)) => Branch { leaf: Leaf::Again(child), below: Below::default() },
                Err(refusal) => Branch { leaf: Leaf::Refused(position, refusal), below: Below::default() },
            };
            below.branches.push(branch);
        }
        self.depth -= 1;
        below
    }
}

/// The items of one table, with the children of each container.
struct Items<'a> {
    /// Those that are not drawn yet.
    entries: Vec<Option<Entry<'a>>>,
    /// Where the entry of each index stands.
    places: BTreeMap<usize, usize>,
    children: Vec<Vec<Result<Child<'a>, Refusal>>>,
    listed: Vec<bool>,
}

impl<'a> Items<'a> {
    /// The lists of a sound table have each item once at most. Those of another are followed as long as they have no more than there are items.
    fn of(table: &Table<'a>, entries: Vec<Entry<'a>>) -> Items<'a> {
        let places: BTreeMap<usize, usize> = entries.iter().enumerate().map(|(at, entry)| (entry.index, at)).collect();
        let (mut children, mut listed) = (Vec::new(), vec![false; entries.len()]);
        let mut left = entries.len();
        for entry in &entries {
            let list: Vec<_> = match (&entry.key, &entry.item) {
                (Ok(key), Ok(Item::Container)) => table.children(key).take(left).collect(),
                _ => Vec::new(),
            };
            left -= list.len();
            list.iter().flatten().filter_map(|child| places.get(&child.index)).for_each(|&at| listed[at] = true);
            children.push(list);
        }
        Items { entries: entries.into_iter().map(Some).collect(), places, children, listed }
    }

    /// The item with an index, to be drawn, if it is not yet.
    fn take(&mut self, index: usize) -> Option<(usize, Entry<'a>)> {
        let at = *self.places.get(&index)?;
        self.entries[at].take().map(|entry| (at, entry))
    }

    /// How many items stand below a container, which are not drawn.
    fn below(&mut self, container: usize) -> usize {
        let mut count = 0;
        let mut left = vec![container];
        while let Some(at) = left.pop() {
            for child in std::mem::take(&mut self.children[at]) {
                count += 1;
                left.extend(child.ok().and_then(|child| self.take(child.index)).map(|(at, _)| at));
            }
        }
        count
    }
}

impl Below<'_> {
    /// Draws what is below, behind the lines of the levels above: for each, whether more follows on it.
    fn draw(&self, out: &mut Out, above: &mut Vec<bool>) -> Result<(), Failure> {
        for (at, branch) in self.branches.iter().enumerate() {
            let more = at + 1 < self.branches.len();
            leaf(out, above, more, &branch.label(out))?;
            above.push(more);
            branch.below.draw(out, above)?;
            above.pop();
        }
        match self.deeper {
            0 => Ok(()),
            deeper => leaf(out, above, false, &format!("({} deeper)", text::count(deeper, "item"))),
        }
    }

    /// What is said of a table behind its size.
    fn note(&self, out: &Out) -> String {
        match (&self.broken, self.stopped) {
            (Some(_), _) => format!(", {}", out.paint(Colour::Red, "not sound")),
            (None, true) => format!(", {}", out.paint(Colour::Red, "not followed")),
            (None, false) => String::new(),
        }
    }

    /// The fields of a table: whether it is sound, and what it holds.
    fn json(&self) -> Vec<(&'static str, Json)> {
        let broken = |broken: &Broken| ("broken", Json::Object(broken.json()));
        let mut fields = vec![("sound", if self.stopped { Json::Null } else { Json::Bool(self.broken.is_none()) })];
        fields.extend(self.broken.as_ref().map(broken));
        fields.extend(self.below());
        fields
    }

    fn below(&self) -> Vec<(&'static str, Json)> {
        let mut fields = vec![("below", Json::List(self.branches.iter().map(Branch::json).collect()))];
        if self.deeper > 0 {
            fields.push(("deeper", Json::Number(self.deeper)));
        }
        fields
    }
}

fn leaf(out: &mut Out, above: &[bool], more: bool, label: &str) -> Result<(), Failure> {
    let indent: String = above.iter().map(|more| if *more { "│   " } else { "    " }).collect();
    out.line(format!("{indent}{}{label}", if more { "├── " } else { "└── " }))
}

impl Branch<'_> {
    fn label(&self, out: &Out) -> String {
        let name = |name: &str| if name.is_empty() { "\"\"".to_string() } else { text::escaped(name) };
        let red = |said: &str| out.paint(Colour::Red, said);
        match &self.leaf {
            Leaf::Item(entry, fragment) => {
                let name = match (fragment, &entry.key) {
                    (Some(fragment), _) => name(fragment),
                    (None, Ok(key)) => name(key),
                    (None, Err(refusal)) => red(&unread(entry.index, *refusal)),
                };
                self.item_label(out, &entry.item, name)
            }
            Leaf::Again(child) => name(child.fragment) + "  " + &red("listed twice, and drawn elsewhere"),
            Leaf::Refused(position, refusal) => red(&format!("child {position}: {} ({})", refusal.message(), refusal.number())),
        }
    }

    fn item_label(&self, out: &Out, item: &Result<Item, Refusal>, name: String) -> String {
        match item {
            Ok(Item::Value(bytes)) => format!("{name}  {}", text::count(bytes.len(), "byte")),
            Ok(Item::Table(nested)) => format!("{}  table, {}{}", out.paint(Colour::Blue, &name), text::count(nested.len(), "item"), self.below.note(out)),
            Ok(Item::Container) => out.paint(Colour::Blue, &name),
            Err(refusal) => name + "  " + &out.paint(Colour::Red, &format!("{} ({})", refusal.message(), refusal.number())),
        }
    }

    fn json(&self) -> Json {
        let entry = match &self.leaf {
            Leaf::Item(entry, _) => entry,
            Leaf::Again(child) => {
                let index = ("index", Json::Number(child.index));
                return Json::Object(vec![index, ("fragment", Json::text(child.fragment)), ("again", Json::Bool(true))]);
            }
            Leaf::Refused(position, refusal) => {
                let number = Json::number(Some(refusal.number()));
                return Json::Object(vec![
                    ("child", Json::Number(*position)),
                    ("kind", Json::Null),
                    ("refusal", number),
                    ("sentence", Json::text(refusal.message())),
                ]);
            }
        };
        let mut fields = item_json(entry);
        match &entry.item {
            Ok(Item::Value(bytes)) => fields.push(("size", Json::Number(bytes.len()))),
            Ok(Item::Table(nested)) => fields.extend([("size", Json::Number(nested.len()))].into_iter().chain(self.below.json())),
            Ok(Item::Container) => fields.extend(self.below.below()),
            Err(_) => {}
        }
        Json::Object(fields)
    }
}
