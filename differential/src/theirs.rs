//! gvdb-rs's answers, with the documents' numbers for its errors. This is read twice: over gvdb-rs, and over its signed copy.

use super::rust::read::{oracle as raw, Error, File, HashTable};
use super::rust::write::{Error as WriteError, FileWriter, HashTableBuilder};
use crate::document::header::Headed;
use crate::tally::{Place, Why};
use std::borrow::Cow;

/// gvdb-rs has one error for bloom words (5) and for buckets (6) that do not fit.
pub const FIVE_OR_SIX: u32 = 56;

fn number(error: &Error) -> u32 {
    match error {
        Error::DataOffset => 2,
        Error::DataAlignment => 3,
        Error::Utf8(_) => 9,
        Error::KeyNotFound(_) => 12,
        Error::Data(text) if text == "Invalid GVDB header" => 16,
        Error::Data(text) if text.starts_with("Invalid GVDB header. Is this a GVDB file?") => 17,
        Error::Data(text) if text.starts_with("Unknown GVDB file format version") => 19,
        Error::Data(text) if text.starts_with("Invalid hash table header") => 4,
        Error::Data(text) if text.starts_with("Not enough bytes to fit hash table") => FIVE_OR_SIX,
        Error::Data(text) if text.starts_with("Hash item size invalid") => 7,
        Error::Data(text) if text.starts_with("Parent with invalid offset") => 10,
        Error::Data(text) if text.starts_with("Error finding all parent items") => 11,
        Error::Data(text) if text.starts_with("Invalid HashItemType") => 13,
        Error::Data(text) if text.starts_with("Unable to parse item for key") => 13,
        other => panic!("an error of gvdb-rs without a number: {other}"),
    }
}

/// A refusal of gvdb-rs. Of a fragment it says the offset too: its error has that of `str::from_utf8`.
fn why(error: Error) -> Why {
    let at = if let Error::Utf8(error) = &error { error.valid_up_to() } else { 0 };
    Why { number: number(&error), at }
}

/// Our answer with 5 and 6 as gvdb-rs has them.
pub fn as_theirs<T>(ours: Result<T, u32>) -> Result<T, u32> {
    ours.map_err(five_or_six)
}

fn five_or_six(number: u32) -> u32 {
    if number == 5 || number == 6 {
        FIVE_OR_SIX
    } else {
        number
    }
}

/// The same for the place of a nested table.
pub fn place_as_theirs(ours: Place) -> Place {
    ours.map_err(|why| Why { number: five_or_six(why.number), ..why })
}

/// What gvdb-rs makes of a header, which it does not hand out: the byte order is what a file prints of itself. A file prints its whole root table too, so this is asked
/// of a copy of the header that leads to none.
pub fn header(bytes: &[u8]) -> Headed {
    let file = File::from_bytes(Cow::Borrowed(bytes)).map_err(|error| number(&error))?;
    let (start, end) = raw::root(&file);
    let bare = [&bytes[..16], &[0; 8]].concat();
    let printed = format!("{:?}", File::from_bytes(Cow::Borrowed(&bare)).expect("the same header"));
    let big = match printed.strip_prefix("File { endianness: ") {
        Some(rest) if rest.starts_with("Little,") => 0,
        Some(rest) if rest.starts_with("Big,") => 1,
        _ => panic!("a file that prints no byte order: {printed}"),
    };
    Ok((big, start, end))
}

/// Opens the root table of a file, which has a header that gvdb-rs accepts and lies at a multiple of 8.
pub fn with_root<R>(bytes: &[u8], ask: impl FnOnce(Result<&HashTable<'_, '_>, u32>) -> R) -> R {
    let file = File::from_bytes(Cow::Borrowed(bytes)).expect("a header");
    let opened = file.hash_table();
    ask(opened.as_ref().map_err(number))
}

fn place(bytes: &[u8], at: usize, size: usize) -> (u32, u32) {
    let start = at - bytes.as_ptr() as usize;
    (start as u32, (start + size) as u32)
}

pub fn get(bytes: &[u8], table: &HashTable, key: &str) -> Place {
    raw::raw_value(table, key).map(|(at, size)| place(bytes, at, size)).map_err(why)
}

pub fn get_table(table: &HashTable, key: &str) -> Place {
    table.get_hash_table(key).map_err(why)?;
    let item = raw::item(table, key).expect("found before");
    let word = |at: usize| u32::from_le_bytes(item[at..at + 4].try_into().expect("four bytes"));
    Ok((word(16), word(20)))
}

/// A value of the root table, or why that does not open.
pub fn value(bytes: &[u8], key: &str) -> Place {
    with_root(bytes, |opened| opened.map_err(Why::from).and_then(|table| get(bytes, table, key)))
}

/// Both lookups of each key in the root table, if that opens.
pub fn lookups(bytes: &[u8], keys: &[&str]) -> Vec<[Place; 2]> {
    let answers = |table: &HashTable| keys.iter().map(|key| [get(bytes, table, key), get_table(table, key)]).collect();
    with_root(bytes, |opened| opened.map(answers).unwrap_or_default())
}

/// The bytes of the item that a lookup finds, of any kind.
pub fn item(table: &HashTable, key: &str) -> Option<[u8; 24]> {
    raw::item(table, key)
}

pub fn keys(table: &HashTable) -> Vec<Result<Vec<u8>, Why>> {
    table.keys().map(|key| key.map(String::into_bytes).map_err(why)).collect()
}

pub fn values(bytes: &[u8], table: &HashTable) -> Vec<Place> {
    raw::raw_values(table).into_iter().map(|value| value.map(|(at, size)| place(bytes, at, size)).map_err(why)).collect()
}

/// An accepted insert.
enum Insert {
    Value(String, Vec<u8>),
    Table(String, usize),
}

fn consistency(error: WriteError) -> u32 {
    match error {
        WriteError::Consistency(text) if text.contains("is not of type container") => 21,
        WriteError::Consistency(text) if text.contains("key is empty") => 30,
        other => panic!("an error of gvdb-rs without a number: {other}"),
    }
}

/// A builder table, with the inserts that it accepted: a write uses gvdb-rs's builder up, and there is no copy of one, so it is made again by the same calls.
pub struct Table {
    separator: Option<String>,
    inserts: Vec<Insert>,
    live: HashTableBuilder<'static>,
}

#[derive(Default)]
pub struct Builder {
    tables: Vec<Table>,
}

impl Builder {
    pub fn new_table(&mut self, separator: &[u8]) {
        let separator = separator.first().map(|byte| (*byte as char).to_string());
        let live = HashTableBuilder::with_path_separator(separator.as_deref());
        self.tables.push(Table { separator, inserts: Vec::new(), live });
    }

    /// The table made by its calls once more.
    fn again(&self, table: usize) -> HashTableBuilder<'static> {
        let mut builder = HashTableBuilder::with_path_separator(self.tables[table].separator.as_deref());
        for insert in &self.tables[table].inserts {
            match insert {
                Insert::Value(key, value) => builder.insert(key.as_str(), raw::RawIn(value.clone())),
                Insert::Table(key, guest) => builder.insert_table(key.as_str(), self.again(*guest)),
            }
            .expect("accepted before");
        }
        builder
    }

    /// The item count after an insert, or 21.
    pub fn insert(&mut self, table: usize, key: &str, value: &[u8]) -> Result<u32, u32> {
        let table = &mut self.tables[table];
        table.live.insert(key, raw::RawIn(value.to_vec())).map_err(consistency)?;
        table.inserts.push(Insert::Value(key.to_string(), value.to_vec()));
        Ok(table.live.len() as u32)
    }

    pub fn insert_table(&mut self, table: usize, key: &str, guest: usize) -> Result<u32, u32> {
        let held = self.again(guest);
        let table = &mut self.tables[table];
        table.live.insert_table(key, held).map_err(consistency)?;
        table.inserts.push(Insert::Table(key.to_string(), guest));
        Ok(table.live.len() as u32)
    }

    /// The file, or 30.
    pub fn write(&self, table: usize) -> Result<Vec<u8>, u32> {
        FileWriter::new().write_to_vec_with_table(self.again(table)).map_err(consistency)
    }

    /// The same for values that are big endian.
    pub fn write_big(&self, table: usize) -> Result<Vec<u8>, u32> {
        FileWriter::for_big_endian().write_to_vec_with_table(self.again(table)).map_err(consistency)
    }
}
