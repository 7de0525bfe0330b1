//! GVDB files, read, checked, built and laid by the proved library of Fikelutra (`libgvdb.a`), as safe Rust.
//!
//! - [`Header`] reads and lays a file's first 24 bytes: the byte order of its values, and the pointer to its root table.
//! - [`Table`] reads: [`get`](Table::get), [`get_table`](Table::get_table), [`item`](Table::item) of any kind, [`keys`](Table::keys),
//!   [`values`](Table::values), [`entries`](Table::entries), [`children`](Table::children) of one container, [`get_over`](Table::get_over) another table, and the
//!   [`check`](Table::check).
//! - [`Builder`] builds and lays: [`insert`](Builder::insert), [`insert_table`](Builder::insert_table),
//!   [`write`](Builder::write), and a whole file by [`write_file`](Builder::write_file).
//! - [`Form`] is how the bytes of a key count in the hash: as in gvdb-rs, unless [`with_form`](Table::with_form) and [`write_as`](Builder::write_as) say as in GLib.
//! - [`WriteOptions`] may ask for filter words, and [`Lookup`] is how a lookup goes by them: as in gvdb-rs, unless [`with_lookup`](Table::with_lookup) says strictly.
//! - [`Refusal`] says why a call was refused, by the number of documents 01 and 02, and where a text is not UTF-8, as [`first_bad`] does. No bytes, pointer, key or order of calls can make a call fail otherwise.
//!
//! ```
//! use gvdb::{Builder, ByteOrder, Header, Inserted, Table};
//!
//! # fn main() -> Result<(), gvdb::Refusal> {
//! let mut builder = Builder::new(4096);
//! let root = builder.new_table(Some(b'/'))?;
//! assert_eq!(builder.insert(root, "/parcel/12/year", 2025u32.to_le_bytes())?, Inserted::New);
//! let file = builder.write_file(root, ByteOrder::Little)?;
//!
//! let root = Header::read(&file)?.root;
//! let table = Table::open(&file, root.start, root.end)?;
//! assert_eq!(table.get("/parcel/12/year")?, 2025u32.to_le_bytes());
//! # Ok(())
//! # }
//! ```
//!
//! # For those who know gvdb-rs
//!
//! | gvdb-rs | here | differs in |
//! |---|---|---|
//! | `File::from_bytes` | [`Header::read`] | the caller reads the file; the answer keeps none of it |
//! | `File::hash_table` | [`Table::open`] | the caller gives the root pointer, which the header says |
//! | `HashTable::get`, `get_value` | [`Table::get`] | answers the encoded bytes; GVariant is the caller's |
//! | `HashTable::get_hash_table` | [`Table::get_hash_table`], [`Table::get_table`] | - |
//! | `HashTable::keys`, `values` | [`Table::keys`], [`Table::values`] | values are bytes |
//! | `HashTableBuilder::with_path_separator` | [`Builder::new_table`] | one builder holds all tables, each with a number |
//! | `HashTableBuilder::insert` and its kin | [`Builder::insert`] | takes encoded bytes, and says what was replaced |
//! | `HashTableBuilder::insert_table` | [`Builder::insert_table`] | says what was replaced |
//! | `HashTableBuilder::len` | [`Builder::item_count`] | - |
//! | `FileWriter::write_to_vec_with_table` | [`Builder::write_file`] | leaves the builder usable |
//! | `read::Error::Utf8` | [`Refusal::FragmentNotUtf8`], [`Refusal::KeyNotUtf8`] | keys are given as bytes, and may be bad too |
//! | `FileWriter::for_big_endian` | [`ByteOrder::Big`] | is said of the values, which are already encoded |
//!
//! # Building
//!
//! The build looks for `libgvdb.a` in the folder `GVDB_LIB_DIR`, or in `target/staticlib` of the root, where `tools/staticlib` writes it. It asks the library for
//! the number of its interface and refuses one that this crate is not written for.
#![deny(unsafe_code, missing_docs)]

#[cfg(not(all(any(target_arch = "x86_64", target_arch = "aarch64"), target_os = "linux")))]
compile_error!("libgvdb.a is made for Linux on x86-64 or Arm");

mod builder;
mod children;
mod ffi;
mod form;
mod header;
mod layered;
mod levels;
mod limits;
mod lookup;
mod refusal;
mod table;
mod text;

pub use builder::{Builder, Image, Inserted, Kind, TableNumber, WriteOptions};
pub use children::{Child, Children};
pub use ffi::{abi, ABI};
pub use form::Form;
pub use header::{ByteOrder, Header};
pub use layered::{Layered, Source};
pub use limits::{MAX_FILE, MAX_FILTER_WORDS, MAX_ITEMS, MAX_KEY, MAX_NESTING, MAX_TABLES};
pub use lookup::Lookup;
pub use refusal::{Refusal, Unsound};
pub use table::{Entries, Entry, Item, Keys, Pointer, Table, Tables, Values};
pub use text::first_bad;
