//! Reading: a table of a file, its items, and the check.

use crate::ffi;
use crate::form::Form;
use crate::lookup::Lookup;
use crate::refusal::{accepted, accepted_at, Refusal, Unsound};
use std::fmt;

/// The longest key that a listing has room for. A longer one is refused with 14; only a file whose fragments overlap has one.
pub(crate) const KEY_ROOM: usize = crate::MAX_FILE;

/// A stretch of a file, from `start` to before `end`.
#[derive(Clone, Copy, PartialEq, Eq, Hash, Debug)]
pub struct Pointer {
    /// The first byte.
    pub start: u32,
    /// The byte after the last.
    pub end: u32,
}

/// A table of a file, opened. It borrows the file and copies nothing: values are parts of the file.
///
/// Any bytes and any pointer may be given; what cannot be read is refused with a number.
///
/// ```
/// use gvdb::{Builder, Refusal, Table};
///
/// # fn main() -> Result<(), Refusal> {
/// let mut builder = Builder::new(4096);
/// let root = builder.new_table(Some(b'/'))?;
/// builder.insert(root, "/parcel/12/year", [0xE9, 0x07])?;
/// let image = builder.write(root)?;
///
/// let table = Table::open(&image.bytes, image.root.start, image.root.end)?;
/// assert_eq!(table.get("/parcel/12/year"), Ok(&[0xE9, 0x07][..]));
/// assert_eq!(table.get("/parcel/13/year"), Err(Refusal::KeyNotFound));
/// assert_eq!(table.get("/parcel/12/"), Err(Refusal::OtherKind)); // a container
/// assert_eq!(table.get(b"/parcel/\xE9"), Err(Refusal::KeyNotUtf8 { at: 8 }));
/// assert_eq!(table.len(), 4); // "/", "/parcel/", "/parcel/12/" and the value
/// assert_eq!(table.check(), Ok(()));
///
/// assert_eq!(Table::open(&image.bytes, 25, 60).unwrap_err(), Refusal::Misaligned);
/// # Ok(())
/// # }
/// ```
#[derive(Clone, Copy)]
pub struct Table<'a> {
    file: &'a [u8],
    pointer: Pointer,
    items: u32,
    buckets: u32,
    blooms: u32,
    form: Form,
    lookup: Lookup,
}

impl<'a> Table<'a> {
    /// Opens the table at a pointer of the file, in the plain form and for the Rust's lookup: [`with_form`](Table::with_form) and
    /// [`with_lookup`](Table::with_lookup) take others. Refusals: 1 to 7.
    pub fn open(file: &'a [u8], start: u32, end: u32) -> Result<Table<'a>, Refusal> {
        let opened = ffi::open(file, start, end);
        accepted(opened.number)?;
        let pointer = Pointer { start, end };
        Ok(Table { file, pointer, items: opened.items, buckets: opened.buckets, blooms: opened.blooms, form: Form::Plain, lookup: Lookup::Rust })
    }

    /// The same table in a form of the hash, in which lookups and the check are made, and those of the tables nested in it. Listings ask for no hash.
    pub fn with_form(self, form: Form) -> Table<'a> {
        Table { form, ..self }
    }

    /// The form that lookups and the check are made in.
    pub fn form(&self) -> Form {
        self.form
    }

    /// The same table under a lookup, by which the check judges too, and those of the tables nested in it.
    pub fn with_lookup(self, lookup: Lookup) -> Table<'a> {
        Table { lookup, ..self }
    }

    /// The lookup that is asked by.
    pub fn lookup(&self) -> Lookup {
        self.lookup
    }

    /// The manner that the library is told.
    pub(crate) fn manner(&self) -> u32 {
        self.form.bit() | self.lookup.bit()
    }

    /// Where the table lies in its file.
    pub fn pointer(&self) -> Pointer {
        self.pointer
    }

    /// The number of items, containers included.
    pub fn len(&self) -> usize {
        self.items as usize
    }

    /// Whether the table has no items.
    pub fn is_empty(&self) -> bool {
        self.items == 0
    }

    /// The number of hash buckets.
    pub fn buckets(&self) -> usize {
        self.buckets as usize
    }

    /// The number of bloom words.
    pub fn bloom_words(&self) -> usize {
        self.blooms as usize
    }

    /// The value at a key: a part of the file. Refusals: 8, 12, 13, then 2 or 3 of the value's pointer.
    pub fn get(&self, key: impl AsRef<[u8]>) -> Result<&'a [u8], Refusal> {
        let place = ffi::get(self.file, self.pointer.start, self.pointer.end, key.as_ref(), self.manner());
        accepted_at(place.number, place.at)?;
        self.part(place.start, place.end)
    }

    /// The nested table at a key, in the form and under the lookup of this one. Refusals: 8, 12, 13, then 2 to 7 of the nested table.
    pub fn get_table(&self, key: impl AsRef<[u8]>) -> Result<Table<'a>, Refusal> {
        let place = ffi::get_table(self.file, self.pointer.start, self.pointer.end, key.as_ref(), self.manner());
        accepted_at(place.number, place.at)?;
        Ok(Table::open(self.file, place.start, place.end)?.with_form(self.form).with_lookup(self.lookup))
    }

    /// [`get_table`](Table::get_table) under the name that gvdb-rs gives it.
    pub fn get_hash_table(&self, key: impl AsRef<[u8]>) -> Result<Table<'a>, Refusal> {
        self.get_table(key)
    }

    /// What stands under a key, whichever kind it is. Refusals: 8, 12, 13 for an item of an unknown kind, and 2 to 7 of what does not open.
    ///
    /// ```
    /// # use gvdb::{Builder, Item, Refusal, Table};
    /// # fn main() -> Result<(), Refusal> {
    /// # let mut builder = Builder::new(4096);
    /// # let root = builder.new_table(Some(b'/'))?;
    /// # builder.insert(root, "a/b", [7])?;
    /// # let image = builder.write(root)?;
    /// # let table = Table::open(&image.bytes, image.root.start, image.root.end)?;
    /// assert!(matches!(table.item("a/b"), Ok(Item::Value([7]))));
    /// assert!(matches!(table.item("a/"), Ok(Item::Container)));
    /// assert!(matches!(table.item("a"), Err(Refusal::KeyNotFound)));
    /// # Ok(())
    /// # }
    /// ```
    pub fn item(&self, key: impl AsRef<[u8]>) -> Result<Item<'a>, Refusal> {
        match self.get(&key) {
            Err(Refusal::OtherKind) => self.nested(key.as_ref()),
            value => value.map(Item::Value),
        }
    }

    /// What stands under a key that is no value's: a container, or a table; what is neither is refused as the table that it is not.
    fn nested(&self, key: &[u8]) -> Result<Item<'a>, Refusal> {
        match self.container(key) {
            Ok(()) => Ok(Item::Container),
            Err(Refusal::OtherKind) => self.get_table(key).map(Item::Table),
            Err(refusal) => Err(refusal),
        }
    }

    /// The key of the item with this index, whether a lookup finds it or not. Refusals: 15, then 2, 9, 10 or 11, then 14.
    pub fn key_at(&self, index: usize) -> Result<String, Refusal> {
        self.key_in(index, &mut Vec::new())
    }

    /// The keys of all items in their order, of containers and nested tables too. A refused item is passed over: the next is the one behind it.
    ///
    /// ```
    /// # use gvdb::{Builder, Refusal, Table};
    /// # fn main() -> Result<(), Refusal> {
    /// # let mut builder = Builder::new(4096);
    /// # let root = builder.new_table(Some(b'/'))?;
    /// # builder.insert(root, "a/b", [7])?;
    /// # let image = builder.write(root)?;
    /// # let table = Table::open(&image.bytes, image.root.start, image.root.end)?;
    /// let keys: Result<Vec<String>, Refusal> = table.keys().collect();
    /// assert_eq!(keys?, ["a/b", "a/"]);
    /// # Ok(())
    /// # }
    /// ```
    pub fn keys(&self) -> Keys<'a> {
        Keys { table: *self, position: 0, buffer: Vec::new() }
    }

    /// The values of all items that are values, in their order. One whose pointer is refused (2 or 3) is passed over.
    ///
    /// ```
    /// # use gvdb::{Builder, Refusal, Table};
    /// # fn main() -> Result<(), Refusal> {
    /// # let mut builder = Builder::new(4096);
    /// # let root = builder.new_table(Some(b'/'))?;
    /// # builder.insert(root, "a/b", [7])?;
    /// # let image = builder.write(root)?;
    /// # let table = Table::open(&image.bytes, image.root.start, image.root.end)?;
    /// let values: Result<Vec<&[u8]>, Refusal> = table.values().collect();
    /// assert_eq!(values?, [&[7][..]]);
    /// # Ok(())
    /// # }
    /// ```
    pub fn values(&self) -> Values<'a> {
        Values { table: *self, position: 0 }
    }

    /// Every item with its index, key and content, in one pass.
    ///
    /// ```
    /// # use gvdb::{Builder, Item, Refusal, Table};
    /// # fn main() -> Result<(), Refusal> {
    /// # let mut builder = Builder::new(4096);
    /// # let root = builder.new_table(Some(b'/'))?;
    /// # builder.insert(root, "a/b", [7])?;
    /// # let image = builder.write(root)?;
    /// # let table = Table::open(&image.bytes, image.root.start, image.root.end)?;
    /// for entry in table.entries() {
    ///     match entry.item? {
    ///         Item::Value(bytes) => println!("{}: {} bytes", entry.key?, bytes.len()),
    ///         Item::Table(nested) => println!("{}: a table of {} items", entry.key?, nested.len()),
    ///         Item::Container => println!("{}: a container", entry.key?),
    ///     }
    /// }
    /// # Ok(())
    /// # }
    /// ```
    pub fn entries(&self) -> Entries<'a> {
        let mut values = self.value_places();
        let ahead = values.next();
        Entries { keys: self.keys(), values, ahead }
    }

    /// The nested tables, each with its key, in the order of their items. The keys of values are not read: of a large table that costs far less than
    /// [`entries`](Table::entries).
    ///
    /// ```
    /// # use gvdb::{Builder, Refusal, Table};
    /// # fn main() -> Result<(), Refusal> {
    /// # let mut builder = Builder::new(4096);
    /// # let root = builder.new_table(Some(b'/'))?;
    /// # builder.insert(root, "a/b", [7])?;
    /// # let notes = builder.new_table(None)?;
    /// # builder.insert_table(root, "notes", notes)?;
    /// # let image = builder.write(root)?;
    /// # let table = Table::open(&image.bytes, image.root.start, image.root.end)?;
    /// let tables: Vec<(String, usize)> = table.tables().map(|(key, nested)| (key, nested.len())).collect();
    /// assert_eq!(tables, [("notes".to_string(), 0)]);
    /// # Ok(())
    /// # }
    /// ```
    pub fn tables(&self) -> Tables<'a> {
        Tables { entries: self.entries() }
    }

    /// The table check: whether every item keeps the six rules; else the first item that breaks one, its first broken rule, and for rule 1 what listing that
    /// item refuses with. It covers this table; nested ones are checked by themselves.
    ///
    /// ```
    /// # use gvdb::{Builder, Refusal, Table, Unsound};
    /// # fn main() -> Result<(), Refusal> {
    /// # let mut builder = Builder::new(4096);
    /// # let root = builder.new_table(None)?;
    /// # builder.insert(root, "cafe", [1, 2])?;
    /// # let mut image = builder.write(root)?;
    /// image.bytes[50] = b'x'; // the kind of the first item
    /// let table = Table::open(&image.bytes, image.root.start, image.root.end)?;
    /// assert_eq!(table.check(), Err(Unsound { rule: 3, item: 0, why: None }));
    ///
    /// image.bytes[63] = 0xE9; // the last byte of its key, "cafe"
    /// let table = Table::open(&image.bytes, image.root.start, image.root.end)?;
    /// let why = Refusal::FragmentNotUtf8 { at: 3 };
    /// assert_eq!(table.check(), Err(Unsound { rule: 1, item: 0, why: Some(why) }));
    /// assert_eq!(table.key_at(0), Err(why));
    /// # Ok(())
    /// # }
    /// ```
    pub fn check(&self) -> Result<(), Unsound> {
        let checked = ffi::check(self.file, self.pointer.start, self.pointer.end, self.manner());
        match checked.number {
            0 => Ok(()),
            _ => Err(Unsound::of(&checked)),
        }
    }

    /// All of the file.
    pub(crate) fn file(&self) -> &'a [u8] {
        self.file
    }

    /// A place that the library has judged to lie in the file.
    pub(crate) fn part(&self, start: u32, end: u32) -> Result<&'a [u8], Refusal> {
        self.file.get(start as usize..end as usize).ok_or(Refusal::PointerOutside)
    }

    /// The values with the indices of their items.
    pub(crate) fn value_places(&self) -> ValuePlaces<'a> {
        ValuePlaces { table: *self, position: 0 }
    }

    /// The key at an index, by way of a buffer that grows until the key fits.
    pub(crate) fn key_in(&self, index: usize, buffer: &mut Vec<u8>) -> Result<String, Refusal> {
        loop {
            let key = ffi::next_key(self.file, self.pointer.start, self.pointer.end, index, buffer);
            match accepted_at(key.number, key.at) {
                Err(Refusal::BufferTooShort) if buffer.len() < KEY_ROOM => {
                    let room = (buffer.len() * 2).clamp(crate::MAX_KEY, KEY_ROOM);
                    buffer.resize(room, 0);
                }
                Err(refusal) => return Err(refusal),
                Ok(()) => {
                    let text = String::from_utf8(buffer[..key.length].to_vec());
                    return text.map_err(|error| Refusal::FragmentNotUtf8 { at: error.utf8_error().valid_up_to() });
                }
            }
        }
    }
}

impl fmt::Debug for Table<'_> {
    fn fmt(&self, f: &mut fmt::Formatter<'_>) -> fmt::Result {
        f.debug_struct("Table").field("pointer", &self.pointer).field("items", &self.items).finish_non_exhaustive()
    }
}

/// The keys of a table: [`Table::keys`].
#[derive(Clone, Debug)]
pub struct Keys<'a> {
    table: Table<'a>,
    position: usize,
    buffer: Vec<u8>,
}

impl Iterator for Keys<'_> {
    type Item = Result<String, Refusal>;

    fn next(&mut self) -> Option<Self::Item> {
        if self.position >= self.table.len() {
            return None;
        }
        let key = self.table.key_in(self.position, &mut self.buffer);
        self.position += 1;
        Some(key)
    }

    fn size_hint(&self) -> (usize, Option<usize>) {
        let left = self.table.len() - self.position;
        (left, Some(left))
    }
}

impl ExactSizeIterator for Keys<'_> {}

/// The values of a table: [`Table::values`].
#[derive(Clone, Debug)]
pub struct Values<'a> {
    table: Table<'a>,
    position: usize,
}

impl<'a> Iterator for Values<'a> {
    type Item = Result<&'a [u8], Refusal>;

    fn next(&mut self) -> Option<Self::Item> {
        let mut places = ValuePlaces { table: self.table, position: self.position };
        let (_, value) = places.next()?;
        self.position = places.position;
        Some(value)
    }
}

/// The values of a table, each with the index of its item.
#[derive(Clone, Debug)]
pub(crate) struct ValuePlaces<'a> {
    table: Table<'a>,
    position: usize,
}

impl<'a> Iterator for ValuePlaces<'a> {
    type Item = (usize, Result<&'a [u8], Refusal>);

    fn next(&mut self) -> Option<Self::Item> {
        let Table { file, pointer, .. } = self.table;
        if self.position >= self.table.len() {
            return None;
        }
        let value = ffi::next_value(file, pointer.start, pointer.end, self.position);
        let bytes = match accepted(value.number) {
            Err(Refusal::PastTheLast) => return None,
            Err(refusal) => Err(refusal),
            Ok(()) => self.table.part(value.start, value.end),
        };
        self.position = value.next.max(self.position + 1);
        Some((value.index, bytes))
    }
}

/// What an item holds.
#[derive(Clone, Copy, Debug)]
pub enum Item<'a> {
    /// A value: its bytes in the file.
    Value(&'a [u8]),
    /// A nested table.
    Table(Table<'a>),
    /// A container whose list opens: [`Table::children`] has the items below it. An item of an unknown kind is refused with 13.
    Container,
}

/// One item of a table, as [`Table::entries`] meets it.
#[derive(Clone, Debug)]
pub struct Entry<'a> {
    /// The item's index.
    pub index: usize,
    /// Its key, or why it does not read.
    pub key: Result<String, Refusal>,
    /// What it holds, or why that does not open. A value needs no readable key; of the others the lookup of the key decides.
    pub item: Result<Item<'a>, Refusal>,
}

/// The items of a table: [`Table::entries`].
#[derive(Clone, Debug)]
pub struct Entries<'a> {
    keys: Keys<'a>,
    values: ValuePlaces<'a>,
    ahead: Option<(usize, Result<&'a [u8], Refusal>)>,
}

impl<'a> Entries<'a> {
    /// The value of the next item, if it is one.
    fn value_here(&mut self) -> Option<Result<&'a [u8], Refusal>> {
        let (index, bytes) = self.ahead?;
        if index != self.keys.position {
            return None;
        }
        self.ahead = self.values.next();
        Some(bytes)
    }
}

impl<'a> Iterator for Entries<'a> {
    type Item = Entry<'a>;

    fn next(&mut self) -> Option<Self::Item> {
        let index = self.keys.position;
        let value = self.value_here();
        let key = self.keys.next()?;
        let item = match (value, &key) {
            (Some(bytes), _) => bytes.map(Item::Value),
            (None, Ok(key)) => self.keys.table.nested(key.as_bytes()),
            (None, Err(refusal)) => Err(*refusal),
        };
        Some(Entry { index, key, item })
    }

    fn size_hint(&self) -> (usize, Option<usize>) {
        self.keys.size_hint()
    }
}

impl ExactSizeIterator for Entries<'_> {}

/// The nested tables of a table: [`Table::tables`].
#[derive(Clone, Debug)]
pub struct Tables<'a> {
    entries: Entries<'a>,
}

impl<'a> Iterator for Tables<'a> {
    type Item = (String, Table<'a>);

    fn next(&mut self) -> Option<Self::Item> {
        loop {
            while self.entries.value_here().is_some() {
                self.entries.keys.position += 1;
            }
            let Ok(key) = self.entries.keys.next()? else { continue };
            if let Ok(nested) = self.entries.keys.table.get_table(&key) {
                return Some((key, nested));
            }
        }
    }
}
