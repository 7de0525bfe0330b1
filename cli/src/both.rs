//! One key of a merge: what each file holds there, what comes of it, and how that is told.

use crate::content::{self, Content, Leaf, Node, Place};
use crate::json::Json;
use crate::out::Colour;
use crate::text;

#[derive(Clone, Copy, PartialEq, Eq, Debug)]
pub enum Side {
    Own,
    Other,
}

impl Side {
    pub const BOTH: [Side; 2] = [Side::Own, Side::Other];

    pub fn name(self) -> &'static str {
        match self {
            Side::Own => "own",
            Side::Other => "other",
        }
    }

    pub fn named(word: &[u8]) -> Option<Side> {
        Side::BOTH.into_iter().find(|side| side.name().as_bytes() == word)
    }

    /// The side that is dropped where this one is kept.
    pub fn dropped(self) -> Side {
        match self {
            Side::Own => Side::Other,
            Side::Other => Side::Own,
        }
    }
}

#[derive(Clone, Copy, PartialEq, Eq, Debug)]
pub enum Outcome {
    /// Values that are equal.
    Same,
    /// Tables, merged key by key.
    Tables,
    /// A value or table of this side against a container of the other. It stands, and so does what is below the container.
    Kinds(Side),
    /// This side alone has changed or removed what the base has.
    Changed(Side),
    /// Both hold something else, or one has changed what the other removed. The side that is kept, once it is decided.
    Conflict(Option<Side>),
}

/// A key that stands in both files, or in the base and one of them.
pub struct Both<'a> {
    pub place: Place,
    pub base: Option<Node<'a>>,
    pub own: Option<Node<'a>>,
    pub other: Option<Node<'a>>,
    pub outcome: Outcome,
}

/// A line: its first word, which may have a colour, and the rest.
pub type Line = (&'static str, Option<Colour>, String);

/// How many bytes of a value are printed: of one that stands in OUT, and of one that does not.
#[derive(Clone, Copy)]
pub struct Room {
    pub standing: usize,
    pub dropped: usize,
}

/// The front of a line about what stands somewhere, and of those about what is in it.
struct Lead<'l> {
    word: &'static str,
    below: &'static str,
    colour: Option<Colour>,
    side: &'l str,
}

pub fn line(word: &'static str, colour: impl Into<Option<Colour>>, rest: impl Into<String>) -> Line {
    (word, colour.into(), rest.into())
}

impl Both<'_> {
    pub fn lines(&self, room: Room, lines: &mut Vec<Line>) {
        let key = self.key();
        match self.outcome {
            Outcome::Same => lines.push(line("same", Colour::Green, format!(" {key}: {}", held(self.node(Side::Own), room.standing)))),
            Outcome::Tables => lines.push(line("tables", Colour::Blue, format!(" {key}: in both, merged key by key"))),
            Outcome::Kinds(side) => {
                let stands = held(self.node(side), room.standing);
                let rest = format!(" {key}: a container in {}, which holds nothing; of {} stands: {stands}", side.dropped().name(), side.name());
                lines.push(line("note", Colour::Yellow, rest));
            }
            Outcome::Changed(side) => {
                let word = if self.held(side).is_some() { "changed" } else { "removed" };
                lines.push(line(word, Colour::Blue, format!(" {key} in {}", side.name())));
                self.holding(self.base.as_ref(), Lead { word: "    before", below: "    before", colour: None, side: "" }, room.dropped, lines);
                if self.held(side).is_some() {
                    self.holding(self.node(side), Lead { word: "    now   ", below: "    now   ", colour: None, side: "" }, room.standing, lines);
                }
            }
            Outcome::Conflict(kept) => {
                lines.push(line("conflict", Colour::Red, format!(" {key}{}", self.difference(room.standing))));
                Side::BOTH.into_iter().for_each(|side| self.side_lines(side, kept, room, lines));
            }
        }
    }

    /// What one side of a conflict holds, and whether it is kept. A side that is not decided has its name first, so that the report can be edited into decisions.
    fn side_lines(&self, side: Side, kept: Option<Side>, room: Room, lines: &mut Vec<Line>) {
        let name = format!(" {:<5} ", side.name());
        let (lead, room) = match kept {
            None => (Lead { word: "   ", below: "    holds ", colour: None, side: &name }, room.standing),
            Some(kept) if kept == side => (Lead { word: "    kept   ", below: "    kept   ", colour: Some(Colour::Green), side: &name }, room.standing),
            Some(_) => (Lead { word: "    dropped", below: "    dropped", colour: Some(Colour::Red), side: &name }, room.dropped),
        };
        self.holding(self.node(side), lead, room, lines);
    }

    /// What stands here by one side or the base: a line that says the key too, so that it stands for itself, and one for each value of a table.
    fn holding(&self, node: Option<&Node>, lead: Lead, room: usize, lines: &mut Vec<Line>) {
        let Lead { word, below, colour, side } = lead;
        lines.push(line(word, colour, format!("{side} {}: {}", self.key(), held(node, room))));
        for (place, leaf) in self.leaves(node).iter().filter(|_| matches!(node, Some(Node::Table(_)))) {
            lines.push(line(below, colour, format!("{side}   {}", leaf_text(place, leaf, room))));
        }
    }

    fn key(&self) -> String {
        text::path(&self.place.0, &self.place.1)
    }

    pub fn node(&self, side: Side) -> Option<&Node<'_>> {
        match side {
            Side::Own => self.own.as_ref(),
            Side::Other => self.other.as_ref(),
        }
    }

    fn held(&self, side: Side) -> Option<&Node<'_>> {
        content::held(self.node(side))
    }

    /// What is lost if a node here does not stand: its value, or what its table holds.
    pub fn leaves<'n>(&self, node: Option<&'n Node>) -> Vec<(Place, Leaf<'n>)> {
        match node {
            Some(Node::Value(bytes)) => vec![(self.place.clone(), Leaf::Value(bytes))],
            Some(Node::Table(nested)) => {
                let around: Vec<String> = self.place.0.iter().chain([&self.place.1]).cloned().collect();
                let inner = content::leaves(nested).into_iter();
                inner.map(|((path, key), leaf)| (([around.clone(), path].concat(), key), leaf)).collect()
            }
            Some(Node::Container) | None => Vec::new(),
        }
    }

    /// Where two values begin to differ, if one of them is not printed whole.
    fn difference(&self, room: usize) -> String {
        match (&self.own, &self.other) {
            (Some(Node::Value(a)), Some(Node::Value(b))) if a.len().max(b.len()) > room => {
                let same = a.iter().zip(b.iter()).take_while(|(a, b)| a == b).count();
                format!(": they differ from byte {} on", text::grouped(same))
            }
            _ => String::new(),
        }
    }

    pub fn json(&self) -> Json {
        let (outcome, side) = match self.outcome {
            Outcome::Same => ("same", None),
            Outcome::Tables => ("tables", None),
            Outcome::Kinds(side) => ("kinds", Some(side)),
            Outcome::Changed(side) if self.held(side).is_none() => ("removed", Some(side)),
            Outcome::Changed(side) => ("changed", Some(side)),
            Outcome::Conflict(kept) => ("conflict", kept),
        };
        let mut fields = place_json(&self.place);
        fields.extend([("outcome", Json::text(outcome)), ("side", side.map_or(Json::Null, |side| Json::text(side.name())))]);
        if self.outcome != Outcome::Tables {
            fields.extend([("base", &self.base), ("own", &self.own), ("other", &self.other)].map(|(name, node)| (name, self.node_json(node.as_ref()))));
        }
        Json::Object(fields)
    }

    fn node_json(&self, node: Option<&Node>) -> Json {
        match node {
            None => Json::Null,
            Some(Node::Container) => Json::Object(vec![("kind", Json::text("container"))]),
            Some(Node::Value(bytes)) => {
                Json::Object(vec![("kind", Json::text("value")), ("size", Json::Number(bytes.len())), ("value", Json::Text(text::hex(bytes)))])
            }
            Some(Node::Table(nested)) => {
                let values = self.leaves(node).iter().map(leaf_json).collect();
                Json::Object(vec![("kind", Json::text("table")), ("size", Json::Number(nested.len())), ("values", Json::List(values))])
            }
        }
    }
}

fn held(node: Option<&Node>, room: usize) -> String {
    match node {
        None => "not there, removed since the base".to_string(),
        Some(Node::Value(bytes)) => bytes_held(bytes, room),
        Some(Node::Table(nested)) => format!("table of {}", table_size(nested)),
        Some(Node::Container) => "container (what is below it stays)".to_string(),
    }
}

fn table_size(table: &Content) -> String {
    text::count(table.len(), "item")
}

fn bytes_held(bytes: &[u8], room: usize) -> String {
    let shown = &bytes[..bytes.len().min(room)];
    let more = if shown.len() < bytes.len() { "..." } else { "" };
    format!("value of {}: {}{more}", text::count(bytes.len(), "byte"), text::hex(shown)).trim_end().to_string()
}

pub fn leaf_text((path, key): &Place, leaf: &Leaf, room: usize) -> String {
    let what = match leaf {
        Leaf::Value(bytes) => bytes_held(bytes, room),
        Leaf::EmptyTable => "table without a value".to_string(),
    };
    format!("{}: {what}", text::path(path, key))
}

pub fn place_json((path, key): &Place) -> Vec<(&'static str, Json)> {
    vec![("path", Json::texts(path)), ("key", Json::text(key))]
}

/// A value that is null is a table without any.
pub fn leaf_json((place, leaf): &(Place, Leaf)) -> Json {
    let mut fields = place_json(place);
    fields.push(match leaf {
        Leaf::Value(bytes) => ("value", Json::Text(text::hex(bytes))),
        Leaf::EmptyTable => ("value", Json::Null),
    });
    Json::Object(fields)
}
