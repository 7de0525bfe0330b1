//! Content laid as a file, which is checked and read back before anyone can have it.

use crate::content::{leaves, read, unmade_here, values, Content, Node};
use crate::failure::{Failure, NO};
use crate::order::Order;
use crate::source::Source;
use crate::{out, text};
use gvdb::{Builder, ByteOrder, Inserted, Kind, Lookup, Refusal, TableNumber, WriteOptions, MAX_ITEMS, MAX_KEY};

/// Names an item for a message, by the keys of the tables around it and its own.
pub type Named<'n> = &'n dyn Fn(&[String], &str) -> String;

/// How a file is laid: the separator of its tables, the byte order of its values, the form and the filter words, and the order of its containers' children.
#[derive(Clone, Copy)]
pub struct Layout<'o> {
    pub separator: Option<u8>,
    pub order: ByteOrder,
    pub options: WriteOptions,
    pub children: &'o Order,
}

/// Lays content as a file and holds it to the check and to what was meant, before anyone can have it. Containers are left out that the separator does not make.
pub fn lay(name: &str, content: &Content, layout: Layout, named: Named) -> Result<Vec<u8>, Failure> {
    let Layout { separator, order, options, children } = layout;
    let size: usize = values(content).iter().map(|(_, bytes)| bytes.len()).sum();
    out::progress(size, || format!("{name}: laying {} of values", text::count(size, "byte")));
    let mut laying = Laying { builder: Builder::new(size + MAX_ITEMS * MAX_KEY), named, separator, children, path: Vec::new() };
    let root = laying.table(content)?;
    let file = laying.builder.write_as(root, options).and_then(|image| image.into_file(order));
    let file = file.map_err(|refusal| unlaid(name, content, named, refusal))?;
    // What the strict lookup finds, every lookup does.
    let laid = Source::of(name, file, Some(options.form))?.with_lookup(Lookup::Strict);
    if !compare(content, &read(&laid)?, separator) {
        return Err(Failure::no(format!("{name}: what was laid does not read back as it was meant; it is not written")));
    }
    Ok(laid.bytes)
}

/// Why a write is refused, with the item that it is for: the one with the empty key, or the longest value of an image that is too long.
fn unlaid(name: &str, content: &Content, named: Named, refusal: Refusal) -> Failure {
    let at = match refusal {
        Refusal::EmptyKey => leaves(content).into_iter().find_map(|((path, key), _)| {
            let empty = path.iter().position(String::is_empty);
            empty.map(|at| (path[..at].to_vec(), String::new())).or_else(|| key.is_empty().then_some((path, key)))
        }),
        Refusal::ImageTooLong => values(content).into_iter().max_by_key(|(_, bytes)| bytes.len()).map(|(place, _)| place),
        _ => None,
    };
    let what = at.map_or(name.to_string(), |(path, key)| named(&path, &key));
    Failure::refused(NO, &what, refusal)
}

/// Content on its way into a builder.
struct Laying<'n> {
    builder: Builder,
    named: Named<'n>,
    separator: Option<u8>,
    children: &'n Order,
    /// The keys of the tables around what is inserted.
    path: Vec<String>,
}

impl Laying<'_> {
    /// Makes a table with this content. Keys go depth first in the order of the children, who stand as they arrive. A key that also names a container of
    /// others waits for the end, where it replaces the container; what is below it then stands by itself.
    fn table(&mut self, content: &Content) -> Result<TableNumber, Failure> {
        let what = || self.path.split_last().map_or(String::new(), |(key, around)| (self.named)(around, key));
        let table = self.builder.new_table(self.separator).map_err(|refusal| Failure::refused(NO, &what(), refusal))?;
        let items: Vec<(&String, &Node)> = content.iter().filter(|(_, node)| !matches!(node, Node::Container)).collect();
        let waits = |at: usize| {
            let key = items[at].0;
            let ends = self.separator.is_some() && key.as_bytes().last().copied() == self.separator;
            ends && items.get(at + 1).is_some_and(|(next, _)| next.starts_with(key.as_str()))
        };
        let late: Vec<&str> = (0..items.len()).filter(|&at| waits(at)).map(|at| items[at].0.as_str()).collect();
        let mut keys = self.children.to_be_laid(&self.path, items.iter().map(|(key, _)| key.as_str()), self.separator);
        keys.retain(|key| late.binary_search(key).is_err());
        for key in keys.into_iter().chain(late.into_iter().rev()) {
            match content.get(key) {
                Some(node) => self.item(table, key, node)?,
                None => continue,
            }
        }
        Ok(table)
    }

    fn item(&mut self, table: TableNumber, key: &str, node: &Node) -> Result<(), Failure> {
        let inserted = match node {
            Node::Container => return Ok(()),
            Node::Value(bytes) => self.builder.insert(table, key, bytes),
            Node::Table(nested) => {
                self.path.push(key.to_string());
                let guest = self.table(nested)?;
                self.path.pop();
                self.builder.insert_table(table, key, guest)
            }
        };
        let what = || (self.named)(&self.path, key);
        match inserted.map_err(|refusal| Failure::refused(NO, &what(), refusal))? {
            Inserted::New | Inserted::Replaced(Kind::Container) => Ok(()),
            Inserted::Replaced(_) => Err(Failure::no(format!("{}: it would replace another; nothing is written", what()))),
        }
    }
}

/// Whether all that was meant, and nothing else, was laid. Of containers there may be more, and those are missing that the separator does not make.
fn compare(meant: &Content, laid: &Content, separator: Option<u8>) -> bool {
    let unmade = unmade_here(meant, separator);
    let more = laid.iter().any(|(key, node)| !matches!(node, Node::Container) && !meant.contains_key(key));
    let stands = |(key, node): (&String, &Node)| match (node, laid.get(key)) {
        (Node::Value(a), Some(Node::Value(b))) => a == b,
        (Node::Table(a), Some(Node::Table(b))) => compare(a, b, separator),
        (Node::Container, Some(Node::Container)) => true,
        (Node::Container, None) => unmade.contains(key),
        _ => false,
    };
    !more && meant.iter().all(stands)
}
