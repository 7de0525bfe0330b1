//! The children of a container, in stored order.

use crate::builder::Kind;
use crate::ffi;
use crate::refusal::{accepted_at, Refusal};
use crate::table::Table;
use std::iter::FusedIterator;

/// The greatest position: no container has so many children, so what is refused there but with 15 is the container.
const GREATEST: usize = usize::MAX;

/// A child of a container, as [`Table::children`] lists it.
#[derive(Clone, Copy, PartialEq, Eq, Hash, Debug)]
pub struct Child<'a> {
    /// The child's index.
    pub index: usize,
    /// Its kind.
    pub kind: Kind,
    /// Its fragment, a part of the file: in a table that passes the check, the container's key and this one joined are the child's key.
    pub fragment: &'a str,
}

/// The children of a container: [`Table::children`].
#[derive(Clone, Debug)]
pub struct Children<'a> {
    table: Table<'a>,
    key: Vec<u8>,
    /// None where the last was answered.
    position: Option<usize>,
}

impl<'a> Table<'a> {
    /// The children of the container under a key, in stored order: the index, the kind and the fragment of each. A refused child (10, 13, then 2 or 9 of its fragment) is
    /// passed over: the next is the one behind it. Where the container itself is refused (8, 12, 13 where it is none, 2 or 3 of its list, 13 where that has no whole
    /// words), that is the one answer. It is not asked whether a child names this container as its parent: [`check`](Table::check) does that.
    ///
    /// ```
    /// # use gvdb::{Builder, Kind, Refusal, Table};
    /// # fn main() -> Result<(), Refusal> {
    /// # let mut builder = Builder::new(4096);
    /// # let root = builder.new_table(Some(b'/'))?;
    /// # builder.insert(root, "a/c", [7])?;
    /// # builder.insert(root, "a/b/d", [8])?;
    /// # let image = builder.write(root)?;
    /// # let table = Table::open(&image.bytes, image.root.start, image.root.end)?;
    /// let mut children = table.children("a/");
    /// let child = children.next().unwrap()?;
    /// assert_eq!((child.kind, child.fragment), (Kind::Value, "c"));
    /// assert_eq!(table.key_at(child.index)?, "a/c");
    /// let child = children.next().unwrap()?;
    /// assert_eq!((child.kind, child.fragment), (Kind::Container, "b/"));
    /// assert_eq!(children.next(), None);
    ///
    /// let refused: Vec<_> = table.children("a/c").collect();
    /// assert_eq!(refused, [Err(Refusal::OtherKind)]); // a value
    /// # Ok(())
    /// # }
    /// ```
    pub fn children(&self, key: impl AsRef<[u8]>) -> Children<'a> {
        Children { table: *self, key: key.as_ref().to_vec(), position: Some(0) }
    }

    /// Whether a container stands under a key whose list opens.
    pub(crate) fn container(&self, key: &[u8]) -> Result<(), Refusal> {
        match self.child(key, GREATEST) {
            Err(Refusal::PastTheLast) => Ok(()),
            other => other.map(|_| ()),
        }
    }

    /// The child at a position: one lookup of the container's key.
    pub(crate) fn child(&self, key: &[u8], position: usize) -> Result<Child<'a>, Refusal> {
        let pointer = self.pointer();
        let child = ffi::next_child(self.file(), pointer.start, pointer.end, key, position, self.manner());
        accepted_at(child.number, child.at)?;
        let fragment = std::str::from_utf8(self.part(child.start, child.end)?);
        let fragment = fragment.map_err(|error| Refusal::FragmentNotUtf8 { at: error.valid_up_to() })?;
        let kind = Kind::of(child.kind).ok_or(Refusal::OtherKind)?;
        Ok(Child { index: child.index, kind, fragment })
    }
}

impl<'a> Iterator for Children<'a> {
    type Item = Result<Child<'a>, Refusal>;

    fn next(&mut self) -> Option<Self::Item> {
        let position = self.position.take()?;
        let child = self.table.child(&self.key, position);
        self.position = match child {
            Err(Refusal::PastTheLast) => return None,
            // Of a refused container that is the one answer.
            Err(_) if self.table.container(&self.key).is_err() => None,
            _ => position.checked_add(1),
        };
        Some(child)
    }
}

impl FusedIterator for Children<'_> {}
