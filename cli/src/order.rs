//! The order of a container's children, as they are stored, and as they are to be laid.

use crate::content::{Content, Node, Place};
use crate::failure::Failure;
use crate::source::Source;
use gvdb::{Table, MAX_KEY};
use std::collections::BTreeMap;

/// Where a child stands: the file that it is of, and the position there.
type Rank = (usize, usize);

/// What no list has stands behind all that one has.
const UNLISTED: Rank = (usize::MAX, usize::MAX);

/// The children of every container of a file, by the keys of the tables around.
#[derive(Default)]
pub struct Order {
    tables: BTreeMap<Vec<String>, Ranks>,
}

/// Those of one table: where each child stands in the list of its container.
#[derive(Default)]
pub struct Ranks {
    of: BTreeMap<String, Rank>,
    lists: BTreeMap<String, Vec<String>>,
}

impl Order {
    /// The stored order, of a file whose content was read: each of its tables passes the check.
    pub fn of(source: &Source, content: &Content) -> Result<Order, Failure> {
        let mut order = Order::default();
        order.table(&source.root()?, content, &mut Vec::new());
        Ok(order)
    }

    fn table(&mut self, table: &Table, content: &Content, path: &mut Vec<String>) {
        let mut ranks = Ranks::default();
        for (key, node) in content {
            match node {
                Node::Container => {
                    let list: Vec<String> = table.children(key).flatten().map(|child| [key.as_str(), child.fragment].concat()).collect();
                    ranks.of.extend(list.iter().enumerate().map(|(position, child)| (child.clone(), (0, position))));
                    ranks.lists.insert(key.clone(), list);
                }
                Node::Table(nested) => {
                    let Ok(inner) = table.get_table(key) else { continue };
                    path.push(key.clone());
                    self.table(&inner, nested, path);
                    path.pop();
                }
                Node::Value(_) => {}
            }
        }
        self.tables.insert(path.clone(), ranks);
    }

    /// The order of lines: a container arrives with the first key below it.
    pub fn of_lines(numbers: &BTreeMap<Place, usize>, separator: Option<u8>) -> Order {
        let mut order = Order::default();
        for ((path, key), number) in numbers.iter().filter(|((_, key), _)| key.len() <= MAX_KEY) {
            let ranks = order.tables.entry(path.clone()).or_default();
            for end in ends(key, separator).chain([key.len()]) {
                let rank = ranks.of.entry(key[..end].to_string()).or_insert(UNLISTED);
                *rank = (*rank).min((0, *number));
            }
        }
        order
    }

    /// Behind what is in this order, what only another has.
    pub fn then(mut self, other: Order) -> Order {
        for (path, ranks) in other.tables {
            let here = self.tables.entry(path).or_default();
            for (key, (_, position)) in ranks.of {
                here.of.entry(key).or_insert((1, position));
            }
        }
        self
    }

    /// The order of one table.
    fn ranks(&self, path: &[String]) -> Option<&Ranks> {
        self.tables.get(path)
    }

    /// The children of a container, by their keys.
    pub fn children(&self, path: &[String], container: &str) -> &[String] {
        self.ranks(path).and_then(|ranks| ranks.lists.get(container)).map_or(&[], Vec::as_slice)
    }

    /// A table's keys depth first: behind each container what is below it, its children in their order. What no list has stands in ascending order.
    pub fn depth_first<'c>(&self, path: &[String], content: &'c Content) -> Vec<&'c str> {
        let keys = content.iter().map(|(key, node)| (key.as_str(), matches!(node, Node::Container))).collect();
        self.walk(path, &keys)
    }

    /// The same for keys whose containers are those that a separator makes.
    pub fn to_be_laid<'c>(&self, path: &[String], keys: impl Iterator<Item = &'c str>, separator: Option<u8>) -> Vec<&'c str> {
        let mut all: BTreeMap<&str, bool> = BTreeMap::new();
        for key in keys {
            all.entry(key).or_insert(false);
            all.extend(ends(key, separator).map(|end| (&key[..end], true)));
        }
        self.walk(path, &all)
    }

    /// Keys, each with whether it is a container's.
    fn walk<'k>(&self, path: &[String], keys: &BTreeMap<&'k str, bool>) -> Vec<&'k str> {
        let rank = |key: &str| self.ranks(path).and_then(|ranks| ranks.of.get(key)).copied().unwrap_or(UNLISTED);
        let keys: Vec<(&str, bool)> = keys.iter().map(|(key, container)| (*key, *container)).collect();
        let mut below: Vec<Vec<usize>> = vec![Vec::new(); keys.len() + 1];
        let mut above: Vec<usize> = Vec::new();
        for (at, (key, container)) in keys.iter().enumerate() {
            while above.last().is_some_and(|&top| !key.starts_with(keys[top].0)) {
                above.pop();
            }
            below[above.last().copied().unwrap_or(keys.len())].push(at);
            if *container {
                above.push(at);
            }
        }
        // The last is taken first; of what has no rank the keys decide, which ascend with the numbers.
        below.iter_mut().for_each(|list| list.sort_by_key(|&at| std::cmp::Reverse((rank(keys[at].0), at))));
        let mut left = std::mem::take(&mut below[keys.len()]);
        // Roots are nobody's children: they ascend.
        left.sort_by_key(|&at| std::cmp::Reverse(at));
        let mut walked = Vec::new();
        while let Some(at) = left.pop() {
            walked.push(keys[at].0);
            left.append(&mut below[at]);
        }
        walked
    }
}

/// Where the prefixes of a key end that a separator makes containers of: all but the key itself.
fn ends(key: &str, separator: Option<u8>) -> impl Iterator<Item = usize> + '_ {
    let at = key.bytes().enumerate().filter(move |(_, byte)| Some(*byte) == separator).map(|(at, _)| at + 1);
    at.filter(move |end| *end < key.len())
}
