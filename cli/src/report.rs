//! What a merge tells: every key that stands in both files, and what OUT does not have.

use crate::both::{leaf_json, leaf_text, line, place_json, Both, Line, Outcome, Room, Side};
use crate::content::{self, Leaf, Node, Place};
use crate::failure::in_words;
use crate::filter;
use crate::json::Json;
use crate::out::{Colour, Out};
use crate::text;
use gvdb::{ByteOrder, WriteOptions};

/// Values of so many bytes are printed whole where they stand in OUT; the report's file and JSON have every byte.
const SHORT: usize = 32;
/// How each report begins, as lines and as JSON.
const BEGINS: [&[u8]; 2] = [b"merge of own ", b"{\"own\":"];

/// What is merged, and how: the names as JSON has them, and the options that the report repeats.
pub struct Heading {
    pub own: String,
    pub other: String,
    pub base: Option<String>,
    pub out: String,
    pub keep: Option<Side>,
    pub separator: Option<u8>,
    pub order: ByteOrder,
    pub options: WriteOptions,
}

pub struct Report<'a> {
    heading: Heading,
    both: Vec<Both<'a>>,
    /// The values that stand in one file alone, and are new since the base.
    only: [usize; 2],
    /// Lines of `--decide` that met no conflict, and a report that is replaced.
    pub notes: Vec<String>,
    /// The containers that cannot be in OUT.
    pub unmade: Vec<Place>,
    /// What the file that `--replace` writes over has and OUT does not.
    pub lost: Vec<(Place, Leaf<'a>)>,
    /// The values of OUT.
    pub values: usize,
}

/// How a merge ends.
pub enum End<'e> {
    Merged,
    /// What a dry run says.
    WouldBe,
    /// With the reason, where it is no conflict.
    Refused(Option<&'e str>),
}

/// What the report is told to.
#[derive(Clone, Copy)]
pub struct Listener<'o> {
    pub json: bool,
    /// Whether every byte of what is dropped is told, and of the rest.
    pub dropped_whole: bool,
    pub whole: bool,
    /// For its colours.
    pub out: Option<&'o Out>,
}

impl<'a> Report<'a> {
    pub fn new(heading: Heading) -> Report<'a> {
        Report { heading, both: Vec::new(), only: [0; 2], notes: Vec::new(), unmade: Vec::new(), lost: Vec::new(), values: 0 }
    }

    /// Whether bytes are a report, which another may replace.
    pub fn begins(bytes: &[u8]) -> bool {
        BEGINS.iter().any(|begin| bytes.starts_with(begin))
    }

    /// Counts what stands in one file alone.
    pub fn only(&mut self, side: Side, node: &Node) {
        self.only[side as usize] += match node {
            Node::Value(_) => 1,
            Node::Table(nested) => content::values(nested).len(),
            Node::Container => 0,
        };
    }

    pub fn both(&mut self, both: Both<'a>) {
        self.both.push(both);
    }

    /// The conflicts that nobody has decided.
    pub fn open_conflicts(&self) -> usize {
        self.count(|outcome| outcome == Outcome::Conflict(None))
    }

    fn count(&self, which: impl Fn(Outcome) -> bool) -> usize {
        self.both.iter().filter(|both| which(both.outcome)).count()
    }

    /// All that is known before OUT is in its place.
    pub fn body(&self, listener: Listener) -> String {
        if listener.json {
            return "{".to_string() + &inner(self.fields());
        }
        let room = |whole| if whole { usize::MAX } else { SHORT };
        let room = Room { standing: room(listener.whole), dropped: room(listener.dropped_whole) };
        let mut lines = vec![self.first_line()];
        if self.heading.order == ByteOrder::Big {
            lines.push(line("note", Colour::Yellow, " the values of both files are big-endian"));
        }
        self.both.iter().for_each(|both| both.lines(room, &mut lines));
        lines.extend(self.notes.iter().map(|note| line("note", Colour::Yellow, format!(" {note}"))));
        for (path, key) in &self.unmade {
            let rest = format!(" container {} is not in {}: {}", text::path(path, key), self.out(), why_unmade(key, self.heading.separator, ""));
            lines.push(line("note", Colour::Yellow, rest));
        }
        lines.extend(self.lost.iter().map(|(place, leaf)| lost_line(place, leaf, room.dropped)));
        told(lines, listener.out)
    }

    fn first_line(&self) -> Line {
        let Heading { own, other, base, .. } = &self.heading;
        let read = |name| in_words(name, "standard input");
        let (own, other) = (read(own), read(other));
        let base = base.as_ref().map_or(String::new(), |base| format!(" since base {}", read(base)));
        line("merge", None, format!(" of own {own} and other {other}{base}"))
    }

    /// The last line, or the last fields: they say what came of it.
    pub fn tail(&self, end: &End, listener: Listener) -> String {
        if listener.json {
            return format!(",{}}}\n", inner(self.end_fields(end)));
        }
        let out = self.out();
        let holds = text::count(self.values, "value") + &filter::laid(self.heading.options);
        let (word, colour, rest) = match end {
            End::Merged => ("merged", Colour::Green, format!(" into {out}: {holds}")),
            End::WouldBe => ("would", Colour::Green, format!(" be merged into {out}: {holds}")),
            End::Refused(None) => ("refused", Colour::Red, format!(": {out} is not written")),
            End::Refused(Some(why)) => ("refused", Colour::Red, format!(": {out} is not written ({why})")),
        };
        told(vec![line(word, colour, format!("{rest}; {}", self.counts()))], listener.out)
    }

    fn out(&self) -> &str {
        in_words(&self.heading.out, "standard output")
    }

    fn counts(&self) -> String {
        let [own, other] = self.only;
        let same = self.count(|outcome| outcome == Outcome::Same);
        let conflicts = text::count(self.count(|outcome| matches!(outcome, Outcome::Conflict(_))), "conflict");
        let changed = match &self.heading.base {
            Some(_) => format!(", {} changed in one", self.count(|outcome| matches!(outcome, Outcome::Changed(_)))),
            None => String::new(),
        };
        let kept: Vec<String> = Side::BOTH.into_iter().filter_map(|side| self.kept(side)).collect();
        let kept = if kept.is_empty() { String::new() } else { format!(" ({})", kept.join("; ")) };
        format!("{own} only in own, {other} only in other, {same} the same in both{changed}, {conflicts}{kept}")
    }

    /// How often a side of a conflict is kept, and what that drops.
    fn kept(&self, side: Side) -> Option<String> {
        let kept = self.count(|outcome| outcome == Outcome::Conflict(Some(side)));
        let dropped = self.dropped(side.dropped()).into_iter().filter(|(_, leaf)| matches!(leaf, Leaf::Value(_))).count();
        (kept > 0).then(|| format!("{} kept in {kept}, {} of {} dropped", side.name(), text::count(dropped, "value"), side.dropped().name()))
    }

    /// What of one side OUT does not have, since the other is kept.
    fn dropped(&self, side: Side) -> Vec<(Place, Leaf<'_>)> {
        let conflicts = self.both.iter().filter(|both| both.outcome == Outcome::Conflict(Some(side.dropped())));
        conflicts.flat_map(|both| both.leaves(both.node(side))).collect()
    }

    fn fields(&self) -> Vec<(&'static str, Json)> {
        let heading = &self.heading;
        let leaves = |leaves: Vec<(Place, Leaf)>| Json::List(leaves.iter().map(leaf_json).collect());
        vec![
            ("own", Json::text(&heading.own)),
            ("other", Json::text(&heading.other)),
            ("base", heading.base.as_ref().map_or(Json::Null, Json::text)),
            ("out", Json::text(&heading.out)),
            ("keep", heading.keep.map_or(Json::Null, |side| Json::text(side.name()))),
            ("byte_order", Json::text(heading.order.name())),
            ("form", Json::text(heading.options.form.name())),
            filter::json(heading.options.filter_words as usize),
            ("separator", heading.separator.map_or(Json::Null, |byte| Json::text(byte as char))),
            ("both", Json::List(self.both.iter().map(Both::json).collect())),
            ("dropped", leaves(Side::BOTH.into_iter().flat_map(|side| self.dropped(side)).collect())),
            ("lost", leaves(self.lost.clone())),
            ("containers_not_kept", Json::List(self.unmade.iter().map(|place| Json::Object(place_json(place))).collect())),
            ("notes", Json::texts(&self.notes)),
        ]
    }

    fn end_fields(&self, end: &End) -> Vec<(&'static str, Json)> {
        let out = match end {
            End::Merged | End::WouldBe => Json::Number(self.values),
            End::Refused(_) => Json::Null,
        };
        let values = vec![
            ("out", out),
            ("only_own", Json::Number(self.only[0])),
            ("only_other", Json::Number(self.only[1])),
            ("same", Json::Number(self.count(|outcome| outcome == Outcome::Same))),
            ("changed", Json::Number(self.count(|outcome| matches!(outcome, Outcome::Changed(_))))),
            ("conflicts", Json::Number(self.count(|outcome| matches!(outcome, Outcome::Conflict(_))))),
            ("undecided", Json::Number(self.open_conflicts())),
        ];
        let why = match end {
            End::Refused(Some(why)) => Json::text(*why),
            _ => Json::Null,
        };
        vec![("written", Json::Bool(matches!(end, End::Merged))), ("why", why), ("values", Json::Object(values))]
    }
}

/// A value of the file that is replaced, which the new one does not have.
pub fn lost_line(place: &Place, leaf: &Leaf, room: usize) -> Line {
    line("dropped", Colour::Red, format!(" from before {}", leaf_text(place, leaf, room)))
}

/// Why a container cannot be laid, and what else is to be said of that; the number of a refusal is last.
pub fn why_unmade(key: &str, separator: Option<u8>, more: &str) -> String {
    match separator {
        _ if key.is_empty() => format!("no item with the empty key can be laid{more} (30)"),
        Some(byte) => format!("the separator {:?} does not make it{more}", byte as char),
        None => format!("there is no separator{more}"),
    }
}

/// Lines with the colours of where they go.
pub fn told(lines: Vec<Line>, out: Option<&Out>) -> String {
    let paint = |word: &str, colour: Option<Colour>| match (out, colour) {
        (Some(out), Some(colour)) => out.paint(colour, word),
        _ => word.to_string(),
    };
    lines.into_iter().map(|(word, colour, rest)| format!("{}{rest}\n", paint(word, colour))).collect()
}

/// The fields of an object, without its braces.
fn inner(fields: Vec<(&'static str, Json)>) -> String {
    let object = Json::Object(fields).to_string();
    object[1..object.len() - 1].to_string()
}
