//! What a file holds, and what a merge should make of two: written from the help text, for comparison.

use crate::harness::{hex, Dice};
use std::collections::{BTreeMap, BTreeSet};

#[derive(Clone, Debug, PartialEq)]
pub enum Node {
    Value(Vec<u8>),
    Table(Table),
}

pub type Table = BTreeMap<String, Node>;

/// The containers that `/` makes of a table's keys, but for those that are a value's or a table's own key.
pub fn containers(table: &Table) -> BTreeSet<String> {
    let mut found = BTreeSet::new();
    for key in table.keys() {
        for (at, _) in key.match_indices('/') {
            let prefix = &key[..at + 1];
            if prefix != key && !table.contains_key(prefix) {
                found.insert(prefix.to_string());
            }
        }
    }
    found
}

/// The lines of `gvdb dump`. The keys of the model need no escapes.
pub fn lines(table: &Table, around: &str) -> String {
    let mut text = String::new();
    for (key, node) in table {
        match node {
            Node::Value(bytes) => text += &format!("{around}{key}\t{}\n", hex(bytes)),
            Node::Table(nested) => {
                text += &format!("{around}{key}\t{{}}\n");
                text += &lines(nested, &format!("{around}{key}\t"));
            }
        }
    }
    text
}

/// Lines in ascending order, to compare without that of a container's children.
pub fn sorted(lines: &str) -> Vec<&str> {
    let mut lines: Vec<&str> = lines.lines().collect();
    lines.sort();
    lines
}

/// What a merge makes of two tables, by places (keys of tables, then the key): those in conflict, the same, a value or table against a container, and what is
/// dropped, where a table without values is None.
#[derive(Default, Debug)]
pub struct Merged {
    pub conflicts: BTreeSet<Vec<String>>,
    pub same: BTreeSet<Vec<String>>,
    pub kinds: BTreeSet<Vec<String>>,
    pub dropped: BTreeMap<Vec<String>, Option<Vec<u8>>>,
}

pub fn merge(own: &Table, other: &Table, keep_own: bool, path: &[String], merged: &mut Merged) -> Table {
    let mut out = Table::new();
    let (own_containers, other_containers) = (containers(own), containers(other));
    let keys: BTreeSet<&String> = own.keys().chain(other.keys()).collect();
    for key in keys {
        let place = [path, std::slice::from_ref(key)].concat();
        match (own.get(key), other.get(key)) {
            (Some(Node::Table(a)), Some(Node::Table(b))) => {
                out.insert(key.clone(), Node::Table(merge(a, b, keep_own, &place, merged)));
            }
            (Some(a), Some(b)) if a == b => {
                merged.same.insert(place);
                out.insert(key.clone(), a.clone());
            }
            (Some(a), Some(b)) => {
                let (kept, dropped) = if keep_own { (a, b) } else { (b, a) };
                drop_values(dropped, &place, merged);
                merged.conflicts.insert(place);
                out.insert(key.clone(), kept.clone());
            }
            (Some(node), None) | (None, Some(node)) => {
                if own_containers.contains(key) || other_containers.contains(key) {
                    merged.kinds.insert(place);
                }
                out.insert(key.clone(), node.clone());
            }
            (None, None) => unreachable!(),
        }
    }
    out
}

fn drop_values(node: &Node, place: &[String], merged: &mut Merged) {
    match node {
        Node::Value(bytes) => {
            merged.dropped.insert(place.to_vec(), Some(bytes.clone()));
        }
        Node::Table(nested) if nested.is_empty() => {
            merged.dropped.insert(place.to_vec(), None);
        }
        Node::Table(nested) => nested.iter().for_each(|(key, node)| drop_values(node, &[place, std::slice::from_ref(key)].concat(), merged)),
    }
}

/// What a merge since a base makes of two tables, and where it is in conflict.
pub fn merge_since(base: &Table, own: &Table, other: &Table, keep_own: bool, path: &[String], conflicts: &mut BTreeSet<Vec<String>>) -> Table {
    let mut out = Table::new();
    for key in own.keys().chain(other.keys()).collect::<BTreeSet<_>>() {
        let place = [path, std::slice::from_ref(key)].concat();
        let stands = match (base.get(key), own.get(key), other.get(key)) {
            (before, Some(Node::Table(a)), Some(Node::Table(b))) => {
                let nothing = Table::new();
                let before = if let Some(Node::Table(before)) = before { before } else { &nothing };
                Some(Node::Table(merge_since(before, a, b, keep_own, &place, conflicts)))
            }
            (_, a, b) if a == b => a.cloned(),
            (before, a, b) if a == before => b.cloned(),
            (before, a, b) if b == before => a.cloned(),
            (_, a, b) => {
                conflicts.insert(place);
                if keep_own { a } else { b }.cloned()
            }
        };
        out.extend(stands.map(|node| (key.clone(), node)));
    }
    out
}

/// A table with some keys removed, changed and new.
pub fn changed(table: &Table, dice: &mut Dice) -> Table {
    let mut out = random(dice, 1);
    out.retain(|_, _| dice.below(6) == 0);
    for (key, node) in table {
        match (node, dice.below(4)) {
            (_, 0) => {}
            (Node::Table(nested), 1 | 2) => drop(out.insert(key.clone(), Node::Table(changed(nested, dice)))),
            (_, 1) => drop(out.insert(key.clone(), Node::Value(vec![dice.below(3) as u8]))),
            (node, _) => drop(out.insert(key.clone(), node.clone())),
        }
    }
    out
}

/// A table of a few keys that often meet those of another.
pub fn random(dice: &mut Dice, depth: u32) -> Table {
    let mut table = Table::new();
    for _ in 0..dice.below(16) {
        let parts = ["a", "/", "é/", "b"];
        let key: String = (0..1 + dice.below(3)).map(|_| parts[dice.below(4) as usize]).collect();
        let node = if depth > 0 && dice.below(4) == 0 {
            Node::Table(random(dice, depth - 1))
        } else {
            Node::Value((0..dice.below(3)).map(|_| dice.below(2) as u8).collect())
        };
        table.insert(key, node);
    }
    table
}
