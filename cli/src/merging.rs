//! What stands in OUT at each key: a merge of two contents, against a base that may hold nothing.

use crate::both::{Both, Outcome, Side};
use crate::content::{alike, held, Content, Node};
use crate::decide::Decisions;
use crate::report::Report;
use std::collections::BTreeSet;

/// A merge on its way through the tables.
pub struct Merging<'m, 'a> {
    decisions: &'m Decisions,
    /// The side of a conflict that is kept where nothing else is decided.
    keep: Option<Side>,
    /// The keys of the tables around.
    path: Vec<String>,
    report: &'m mut Report<'a>,
}

/// What stands at one key.
#[derive(Clone, Copy)]
struct At<'n, 'a> {
    base: Option<&'n Node<'a>>,
    own: Option<&'n Node<'a>>,
    other: Option<&'n Node<'a>>,
}

impl<'n, 'a> At<'n, 'a> {
    fn side(&self, side: Side) -> Option<&'n Node<'a>> {
        match side {
            Side::Own => self.own,
            Side::Other => self.other,
        }
    }

    /// What comes of it. None: one side alone has it, and the base does not. Without a base nothing is in it.
    fn outcome(&self) -> (Side, Option<Outcome>) {
        // A side changed it that differs from the base, while the other does not.
        let changed = Side::BOTH.into_iter().find(|side| alike(self.side(side.dropped()), self.base));
        match (held(self.own), held(self.other), changed) {
            (Some(Node::Table(_)), Some(Node::Table(_)), _) => (Side::Own, Some(Outcome::Tables)),
            _ if alike(self.own, self.other) => (Side::Own, Some(Outcome::Same)),
            (_, _, None) => (Side::Own, Some(Outcome::Conflict(None))),
            (_, _, Some(side)) if held(self.base).is_some() => (side, Some(Outcome::Changed(side))),
            (_, _, Some(side)) => (side, self.side(side.dropped()).map(|_container| Outcome::Kinds(side))),
        }
    }
}

impl<'m, 'a> Merging<'m, 'a> {
    pub fn new(decisions: &'m Decisions, keep: Option<Side>, report: &'m mut Report<'a>) -> Merging<'m, 'a> {
        Merging { decisions, keep, path: Vec::new(), report }
    }

    pub fn tables(&mut self, base: &Content<'a>, own: &Content<'a>, other: &Content<'a>) -> Content<'a> {
        let keys: BTreeSet<&String> = own.keys().chain(other.keys()).collect();
        let stands = |key: &String| self.item(key, At { base: base.get(key), own: own.get(key), other: other.get(key) }).map(|node| (key.clone(), node));
        keys.into_iter().filter_map(stands).collect()
    }

    /// What stands at a key of OUT.
    fn item(&mut self, key: &str, at: At<'_, 'a>) -> Option<Node<'a>> {
        if held(at.own).is_none() && held(at.other).is_none() {
            let gone = matches!(at.base, Some(Node::Container)) && (at.own.is_none() || at.other.is_none());
            return (!gone).then_some(Node::Container);
        }
        let (side, outcome) = at.outcome();
        let decided = || self.decisions.side(&self.path, key).or(self.keep);
        let (side, outcome) = match outcome {
            Some(Outcome::Conflict(_)) => decided().map_or((side, outcome), |kept| (kept, Some(Outcome::Conflict(Some(kept))))),
            _ => (side, outcome),
        };
        let stands = at.side(side);
        if let Some(outcome) = outcome {
            let [base, own, other] = [at.base, at.own, at.other].map(|node| node.cloned());
            self.report.both(Both { place: (self.path.clone(), key.to_string()), base, own, other, outcome });
        }
        if let (None | Some(Outcome::Kinds(_)), Some(node)) = (outcome, stands) {
            self.report.only(side, node);
        }
        if let (Some(Outcome::Tables), Some(Node::Table(own)), Some(Node::Table(other))) = (outcome, at.own, at.other) {
            let none = Content::new();
            let base = if let Some(Node::Table(base)) = at.base { base } else { &none };
            self.path.push(key.to_string());
            let nested = self.tables(base, own, other);
            self.path.pop();
            return Some(Node::Table(nested));
        }
        stands.cloned()
    }
}
