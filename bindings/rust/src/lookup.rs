//! The lookup that is asked by.

use crate::ffi;

/// How a lookup, and with it the check, goes by the filter of a table. A table without filter words has nothing to go by: both are one there, and so they are in every
/// table that [`Builder`](crate::Builder) lays. Elsewhere what the strict lookup finds, the Rust's finds too.
///
/// ```
/// use gvdb::{Builder, Lookup, Refusal, Table, WriteOptions};
///
/// # fn main() -> Result<(), Refusal> {
/// let mut builder = Builder::new(64);
/// let root = builder.new_table(None)?;
/// builder.insert(root, "a", [1, 2])?;
/// let mut image = builder.write_as(root, WriteOptions { filter_words: 1, ..WriteOptions::default() })?;
/// assert_eq!(image.bytes[32..36], [0x40, 0, 1, 0]); // both bits of "a"
/// image.bytes[34] = 0; // another desk laid the first alone
///
/// let table = Table::open(&image.bytes, image.root.start, image.root.end)?;
/// assert_eq!(table.get("a"), Ok(&[1, 2][..]));
/// assert_eq!(table.with_lookup(Lookup::Strict).get("a"), Err(Refusal::KeyNotFound));
/// # Ok(())
/// # }
/// ```
#[derive(Clone, Copy, PartialEq, Eq, Hash, Debug, Default)]
pub enum Lookup {
    /// One bit is asked for, as in gvdb-rs and in GLib.
    #[default]
    Rust,
    /// Two bits are asked for: the second by the shift that the table's first word says.
    Strict,
}

impl Lookup {
    /// Both, the Rust's first.
    pub const BOTH: [Lookup; 2] = [Lookup::Rust, Lookup::Strict];

    /// `rust` or `strict`.
    pub fn name(self) -> &'static str {
        match self {
            Lookup::Rust => "rust",
            Lookup::Strict => "strict",
        }
    }

    /// Its bit of the manner that the library is told.
    pub(crate) fn bit(self) -> u32 {
        match self {
            Lookup::Rust => 0,
            Lookup::Strict => ffi::STRICT,
        }
    }
}

#[cfg(test)]
mod tests {
    use super::*;

    #[test]
    fn its_bit_is_that_of_the_header() {
        let header = include_str!("../../c/gvdb.h");
        assert!(header.lines().any(|line| line.starts_with(&format!("#define GVDB_STRICT {}u ", Lookup::Strict.bit()))));
        assert_eq!(Lookup::Rust.bit(), 0);
    }
}
