//! Building and writing: tables in memory of their own, laid as an image.

use crate::ffi;
use crate::form::Form;
use crate::header::{ByteOrder, Header};
use crate::limits::{MAX_FILE, MAX_FILTER_WORDS, MAX_ITEMS, MAX_TABLES};
use crate::refusal::{accepted, accepted_at, Refusal};
use crate::table::Pointer;
use std::fmt;

/// Room beside keys and values in an image, and more: an item takes 24 bytes of record, 4 of bucket, 4 of child index and at most 7 of padding, a table 8.
const IMAGE_FRAME: usize = 64 * (MAX_ITEMS + MAX_TABLES);

/// The kind of an item.
#[derive(Clone, Copy, PartialEq, Eq, Hash, Debug)]
pub enum Kind {
    /// Bytes ('v').
    Value,
    /// A nested table ('H').
    Table,
    /// A container ('L').
    Container,
}

impl Kind {
    /// The kind that the library means by a byte.
    pub(crate) fn of(byte: u32) -> Option<Kind> {
        match u8::try_from(byte) {
            Ok(b'v') => Some(Kind::Value),
            Ok(b'H') => Some(Kind::Table),
            Ok(b'L') => Some(Kind::Container),
            _ => None,
        }
    }
}

/// What an insert did.
#[derive(Clone, Copy, PartialEq, Eq, Hash, Debug)]
#[must_use = "a replaced item is lost: look whether the key was new"]
pub enum Inserted {
    /// The key is new in its table.
    New,
    /// The key was there, and what it held is gone.
    Replaced(Kind),
}

/// A table of a builder, by its number.
#[derive(Clone, Copy, PartialEq, Eq, Hash, Debug)]
pub struct TableNumber(u32);

impl TableNumber {
    /// The number, counted from 0.
    pub fn number(self) -> u32 {
        self.0
    }
}

/// How a write lays its tables. The default is gvdb-rs's way; a [`Form`] alone will do in its place.
#[derive(Clone, Copy, PartialEq, Eq, Hash, Debug, Default)]
pub struct WriteOptions {
    /// The form of the hash.
    pub form: Form,
    /// The number of filter words in every table, at most [`MAX_FILTER_WORDS`]. Each takes four bytes. With one for two items, seven of eight lookups of a key
    /// that is not there end at the filter, and of strict ones nearly all.
    pub filter_words: u32,
}

impl From<Form> for WriteOptions {
    fn from(form: Form) -> WriteOptions {
        WriteOptions { form, ..WriteOptions::default() }
    }
}

/// What a write lays. Bytes 0 to 23 are zero: they are the file header's, which [`Header::lay`] lays over them.
#[derive(Clone, PartialEq, Eq, Debug)]
pub struct Image {
    /// The whole image.
    pub bytes: Vec<u8>,
    /// Where the written table lies in it.
    pub root: Pointer,
}

impl Image {
    /// A whole file: over the image the header with its root pointer and the byte order of the values, which are laid as they were inserted.
    ///
    /// ```
    /// # use gvdb::{Builder, ByteOrder, Form, Header};
    /// let mut builder = Builder::new(16);
    /// let root = builder.new_table(None).unwrap();
    /// builder.insert(root, "a", [1, 2]).unwrap();
    /// let file = builder.write_as(root, Form::Signed).unwrap().into_file(ByteOrder::Big).unwrap();
    /// assert_eq!(Header::read(&file).map(|header| header.order), Ok(ByteOrder::Big));
    /// ```
    pub fn into_file(self, order: ByteOrder) -> Result<Vec<u8>, Refusal> {
        let Image { mut bytes, root } = self;
        Header { order, root }.lay(&mut bytes)?;
        Ok(bytes)
    }
}

/// Tables in the making. A builder holds at most [`MAX_ITEMS`] items and [`MAX_TABLES`] tables, nested at most [`MAX_NESTING`](crate::MAX_NESTING) deep, with keys
/// of at most [`MAX_KEY`](crate::MAX_KEY) bytes.
///
/// Whoever inserts is told whether something was replaced:
///
/// ```
/// use gvdb::{Builder, Inserted, Kind, Refusal};
///
/// # fn main() -> Result<(), Refusal> {
/// let mut builder = Builder::new(4096);
/// let root = builder.new_table(Some(b'/'))?;
/// assert_eq!(builder.insert(root, "/parcel/12/year", [0xE8, 0x07])?, Inserted::New);
/// assert_eq!(builder.insert(root, "/parcel/12/year", [0xE9, 0x07])?, Inserted::Replaced(Kind::Value));
///
/// let stands = builder.new_table(None)?;
/// assert_eq!(builder.insert(stands, "oak", [3])?, Inserted::New);
/// assert_eq!(builder.insert_table(root, "stands", stands)?, Inserted::New);
/// assert_eq!(builder.insert(stands, "beech", [4]), Err(Refusal::TableUnknown)); // it is placed
///
/// assert_eq!(builder.item_count(root)?, 5);
/// let image = builder.write(root)?;
/// let table = gvdb::Table::open(&image.bytes, image.root.start, image.root.end)?;
/// assert_eq!(table.get_table("stands")?.get("oak")?, [3]);
/// # Ok(())
/// # }
/// ```
#[derive(Clone, PartialEq, Eq)]
pub struct Builder {
    words: Vec<usize>,
    arena: Vec<u8>,
}

impl Builder {
    /// An empty builder with an arena of so many bytes. The arena holds each item's whole key, containers included, and each accepted value,
    /// replaced ones too; it does not grow, and an insert that would pass it is refused with 23.
    ///
    /// `total of values + MAX_ITEMS * MAX_KEY` is enough for every history that replaces nothing.
    pub fn new(arena_bytes: usize) -> Builder {
        let mut words = vec![0; ffi::memory_words()];
        let mut arena = vec![0; arena_bytes];
        let number = ffi::fresh(&mut words, &mut arena);
        assert_eq!(number, 0, "a fresh start on words of the length asked is never refused");
        Builder { words, arena }
    }

    /// A new table. With a separator, an insert makes the containers on the key's path. Refusals: 28 (separator not 1 to 127), 27.
    pub fn new_table(&mut self, separator: Option<u8>) -> Result<TableNumber, Refusal> {
        let made = ffi::new_table(&mut self.words, &mut self.arena, separator.as_slice());
        accepted(made.number)?;
        Ok(TableNumber(made.table))
    }

    /// Inserts a value, already encoded. Refusals: 24, 8, 20, 21, 22, 23.
    pub fn insert(&mut self, table: TableNumber, key: impl AsRef<[u8]>, value: impl AsRef<[u8]>) -> Result<Inserted, Refusal> {
        outcome(ffi::insert(&mut self.words, &mut self.arena, table.0, key.as_ref(), value.as_ref()))
    }

    /// Puts a table of this builder under a key of another. It takes no more inserts then. Refusals: 24, 25, 8, 20, 21, 26, 22, 23.
    pub fn insert_table(&mut self, table: TableNumber, key: impl AsRef<[u8]>, guest: TableNumber) -> Result<Inserted, Refusal> {
        outcome(ffi::insert_table(&mut self.words, &mut self.arena, table.0, key.as_ref(), guest.0))
    }

    /// The number of items of a table, containers included. Refusal: 24 for a number of another builder.
    pub fn item_count(&self, table: TableNumber) -> Result<usize, Refusal> {
        let counted = ffi::item_count(&self.words, &self.arena, table.0);
        accepted(counted.number)?;
        Ok(counted.count as usize)
    }

    /// Lays a table and those nested in it as an image, in the plain form and with no filter. The builder stays as it was and usable. Refusals: 24, 30, 31 (over
    /// [`MAX_FILE`] bytes).
    ///
    /// ```
    /// # use gvdb::{Builder, Refusal};
    /// let mut builder = Builder::new(16);
    /// let root = builder.new_table(None).unwrap();
    /// builder.insert(root, "a", [1, 2]).unwrap();
    /// let image = builder.write(root).unwrap();
    /// assert_eq!((image.bytes.len(), image.root.start, image.root.end), (66, 24, 60));
    /// builder.insert(root, "", []).unwrap();
    /// assert_eq!(builder.write(root), Err(Refusal::EmptyKey));
    /// ```
    pub fn write(&mut self, table: TableNumber) -> Result<Image, Refusal> {
        self.write_as(table, WriteOptions::default())
    }

    /// [`write`](Builder::write) in a form of the hash and with a filter. A builder has neither itself: the same tables may be laid in each way. Refusals: 24, 33,
    /// 30, 31.
    ///
    /// ```
    /// # use gvdb::{Builder, Form, Refusal, WriteOptions};
    /// let mut builder = Builder::new(64);
    /// let root = builder.new_table(None).unwrap();
    /// builder.insert(root, "\u{E9}", [1, 2]).unwrap();
    /// let [plain, signed] = Form::BOTH.map(|form| builder.write_as(root, form).unwrap());
    /// assert_eq!((&plain.bytes[36..40], &signed.bytes[36..40]), (&[0x11, 0x84, 0x59, 0x00][..], &[0x11, 0x62, 0x59, 0x00][..]));
    /// assert_eq!((&plain.bytes[..36], &plain.bytes[40..]), (&signed.bytes[..36], &signed.bytes[40..]));
    ///
    /// let words = |filter_words| WriteOptions { filter_words, ..Form::Signed.into() };
    /// assert_eq!(builder.write_as(root, words(2)).map(|image| image.bytes.len() - signed.bytes.len()), Ok(4 * 2));
    /// assert_eq!(builder.write_as(root, words(1025)), Err(Refusal::TooManyFilterWords));
    /// ```
    pub fn write_as(&mut self, table: TableNumber, options: impl Into<WriteOptions>) -> Result<Image, Refusal> {
        let WriteOptions { form, filter_words } = options.into();
        // Keys and values of an image are in the arena, so this is room enough; a longer image is over the limit.
        let filters = 4 * MAX_TABLES * MAX_FILTER_WORDS.min(filter_words as usize);
        let room = self.arena.len().saturating_add(IMAGE_FRAME + filters).min(MAX_FILE);
        let mut bytes = vec![0; room];
        let written = ffi::write(&mut self.words, &self.arena, table.0, &mut bytes, form.bit(), filter_words);
        accepted(written.number)?;
        bytes.truncate(written.length as usize);
        bytes.shrink_to_fit();
        Ok(Image { bytes, root: Pointer { start: written.start, end: written.end } })
    }

    /// A whole file: [`write`](Builder::write) and [`into_file`](Image::into_file). Refusals: those of a write.
    ///
    /// ```
    /// # use gvdb::{Builder, ByteOrder, Header, Refusal};
    /// let mut builder = Builder::new(16);
    /// let root = builder.new_table(None).unwrap();
    /// builder.insert(root, "a", [1, 2]).unwrap();
    /// let file = builder.write_file(root, ByteOrder::Big).unwrap();
    /// assert_eq!((file.len(), &file[..8]), (66, &b"raVGtnai"[..]));
    /// assert_eq!(file[24..], builder.write(root).unwrap().bytes[24..]);
    /// assert_eq!(Header::read(&file).map(|header| header.order), Ok(ByteOrder::Big));
    /// ```
    pub fn write_file(&mut self, table: TableNumber, order: ByteOrder) -> Result<Vec<u8>, Refusal> {
        self.write(table)?.into_file(order)
    }
}

impl fmt::Debug for Builder {
    fn fmt(&self, f: &mut fmt::Formatter<'_>) -> fmt::Result {
        f.debug_struct("Builder").field("arena_bytes", &self.arena.len()).finish_non_exhaustive()
    }
}

fn outcome(answer: ffi::Inserted) -> Result<Inserted, Refusal> {
    accepted_at(answer.number, answer.at)?;
    Ok(match answer.replaced {
        0 => Inserted::New,
        byte => Inserted::Replaced(Kind::of(byte).unwrap_or(Kind::Value)),
    })
}
