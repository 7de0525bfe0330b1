//! The form of the hash.

use crate::ffi;

/// What a byte of a key counts in the hash that a table is ordered by. What is laid in one form is looked up and checked in that form; keys whose bytes are all below
/// 128 are found, checked and laid alike in both.
///
/// ```
/// use gvdb::{Builder, Form, Refusal, Table};
///
/// # fn main() -> Result<(), Refusal> {
/// let mut builder = Builder::new(64);
/// let root = builder.new_table(None)?;
/// builder.insert(root, "\u{E9}", [1, 2])?;
/// let image = builder.write_as(root, Form::Signed)?;
///
/// let table = Table::open(&image.bytes, image.root.start, image.root.end)?;
/// assert_eq!(table.get("\u{E9}"), Err(Refusal::KeyNotFound));
/// assert_eq!(table.with_form(Form::Signed).get("\u{E9}"), Ok(&[1, 2][..]));
/// # Ok(())
/// # }
/// ```
#[derive(Clone, Copy, PartialEq, Eq, Hash, Debug, Default)]
pub enum Form {
    /// A byte counts 0 to 255, as in gvdb-rs.
    #[default]
    Plain,
    /// A byte counts -128 to 127, as in GLib.
    Signed,
}

impl Form {
    /// Both, plain first.
    pub const BOTH: [Form; 2] = [Form::Plain, Form::Signed];

    /// `plain` or `signed`.
    pub fn name(self) -> &'static str {
        match self {
            Form::Plain => "plain",
            Form::Signed => "signed",
        }
    }

    /// Its bit of the manner that the library is told.
    pub(crate) fn bit(self) -> u32 {
        match self {
            Form::Plain => 0,
            Form::Signed => ffi::SIGNED,
        }
    }
}

#[cfg(test)]
mod tests {
    use super::*;

    #[test]
    fn its_bit_is_that_of_the_header() {
        let header = include_str!("../../c/gvdb.h");
        assert!(header.lines().any(|line| line.starts_with(&format!("#define GVDB_SIGNED {}u ", Form::Signed.bit()))));
        assert_eq!(Form::Plain.bit(), 0);
    }
}
