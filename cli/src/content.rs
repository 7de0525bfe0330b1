//! What a table holds, by key, read from a file that passes the check.

use crate::check;
use crate::failure::{Failure, NO};
use crate::source::{Source, Walk};
use gvdb::{Item, Refusal, Table};
use std::borrow::Cow;
use std::collections::{BTreeMap, BTreeSet};

/// A table's items in ascending key order.
pub type Content<'a> = BTreeMap<String, Node<'a>>;

#[derive(Clone, Debug)]
pub enum Node<'a> {
    Value(Cow<'a, [u8]>),
    Table(Content<'a>),
    /// Holds nothing itself, and is not laid: the separator makes the containers of a table.
    Container,
}

/// A key and the keys of the tables around it.
pub type Place = (Vec<String>, String);

/// Everything in a file. Each table has to pass the check, so that nothing stays unread.
pub fn read(source: &Source) -> Result<Content<'_>, Failure> {
    table(source, source.root()?, &mut Vec::new(), &mut source.walk())
}

fn table<'a>(source: &'a Source, from: Table<'a>, path: &mut Vec<String>, walk: &mut Walk) -> Result<Content<'a>, Failure> {
    walk.enter(&from, path)?;
    check::sound(source, &from, path)?;
    let mut content = Content::new();
    for entry in walk.entries(&from, true)? {
        let refused = |refusal| Failure::refused(NO, &format!("{}: item {}", source.name, entry.index), refusal);
        let key = entry.key.map_err(refused)?;
        let node = match entry.item.map_err(refused)? {
            Item::Value(bytes) => {
                walk.value(bytes)?;
                Node::Value(Cow::Borrowed(bytes))
            }
            Item::Container => Node::Container,
            Item::Table(nested) => {
                path.push(key.clone());
                let nested = table(source, nested, path, walk)?;
                path.pop();
                Node::Table(nested)
            }
        };
        content.insert(key, node);
    }
    Ok(content)
}

/// What can be lost of a table: a value, or a nested table that holds neither.
#[derive(Clone, Copy, PartialEq, Eq, Debug)]
pub enum Leaf<'c> {
    Value(&'c [u8]),
    EmptyTable,
}

/// The values of a table and of those nested in it, and the tables without any, each with its place.
pub fn leaves<'c>(content: &'c Content) -> Vec<(Place, Leaf<'c>)> {
    let mut found = Vec::new();
    collect(content, &mut Vec::new(), &mut found);
    found
}

fn collect<'c>(content: &'c Content, path: &mut Vec<String>, found: &mut Vec<(Place, Leaf<'c>)>) {
    for (key, node) in content {
        match node {
            Node::Value(bytes) => found.push(((path.clone(), key.clone()), Leaf::Value(bytes))),
            Node::Container => {}
            Node::Table(nested) => {
                path.push(key.clone());
                let before = found.len();
                collect(nested, path, found);
                path.pop();
                if found.len() == before {
                    found.push(((path.clone(), key.clone()), Leaf::EmptyTable));
                }
            }
        }
    }
}

/// The values in a table and those nested in it, each with its place.
pub fn values<'c>(content: &'c Content) -> Vec<(Place, &'c [u8])> {
    let value = |(place, leaf)| match leaf {
        Leaf::Value(bytes) => Some((place, bytes)),
        Leaf::EmptyTable => None,
    };
    leaves(content).into_iter().filter_map(value).collect()
}

/// What of an old file's content a new one does not have.
pub fn missing<'c>(old: &'c Content, new: &Content) -> Vec<(Place, Leaf<'c>)> {
    let stands = |((path, key), leaf): &(Place, Leaf)| {
        let within = path.iter().try_fold(new, |table, key| match table.get(key) {
            Some(Node::Table(nested)) => Some(nested),
            _ => None,
        });
        match (leaf, within.and_then(|table| table.get(key))) {
            (Leaf::Value(bytes), Some(Node::Value(now))) => *bytes == &now[..],
            (Leaf::EmptyTable, Some(Node::Table(_))) => true,
            _ => false,
        }
    };
    leaves(old).into_iter().filter(|leaf| !stands(leaf)).collect()
}

/// Whether two files hold the same at a key: nothing, equal values, or tables that hold the same. Containers hold nothing.
pub fn alike(a: Option<&Node>, b: Option<&Node>) -> bool {
    match (held(a), held(b)) {
        (None, None) => true,
        (Some(Node::Value(a)), Some(Node::Value(b))) => a == b,
        (Some(Node::Table(a)), Some(Node::Table(b))) => a.keys().chain(b.keys()).all(|key| alike(a.get(key), b.get(key))),
        _ => false,
    }
}

/// A value or table. A container holds nothing.
pub fn held<'n, 'a>(node: Option<&'n Node<'a>>) -> Option<&'n Node<'a>> {
    node.filter(|node| !matches!(node, Node::Container))
}

/// The containers that a separator does not make, of a table and those nested in it: no key of a value or table goes through them.
pub fn unmade(content: &Content, separator: Option<u8>) -> Vec<Place> {
    let mut found: Vec<Place> = unmade_here(content, separator).into_iter().map(|key| (Vec::new(), key.clone())).collect();
    for (key, node) in content {
        if let Node::Table(nested) = node {
            found.extend(unmade(nested, separator).into_iter().map(|(path, inner)| ([vec![key.clone()], path].concat(), inner)));
        }
    }
    found
}

/// Those of one table.
pub fn unmade_here<'c>(content: &'c Content, separator: Option<u8>) -> BTreeSet<&'c String> {
    let mut made: BTreeSet<&str> = BTreeSet::new();
    for (key, _) in content.iter().filter(|(_, node)| held(Some(node)).is_some()) {
        let ends = key.bytes().enumerate().filter(|(_, byte)| Some(*byte) == separator);
        made.extend(ends.map(|(at, _)| &key[..at + 1]));
    }
    content.iter().filter(|(key, node)| matches!(node, Node::Container) && !made.contains(key.as_str())).map(|(key, _)| key).collect()
}

/// The word of `--separator`: one byte from 1 to 127, or `none`; `/` where it is not given.
pub fn separator(word: Option<&std::ffi::OsStr>) -> Result<Option<u8>, Failure> {
    let Some(word) = word else { return Ok(Some(b'/')) };
    match word.as_encoded_bytes() {
        b"none" => Ok(None),
        [byte @ 1..=127] => Ok(Some(*byte)),
        _ => Err(Failure::refused(crate::failure::UNREADABLE, "--separator", Refusal::SeparatorOutside)),
    }
}
