//! Document 01 and what document 02 has changed, read once more, in plain Rust over growing memory: what every call answers. It shares nothing with the library but its limits, and nothing with gvdb-rs.

pub mod build;
pub mod header;
pub mod read;

use crate::ffi::{SIGNED, STRICT};

/// What a byte of a key counts in its hash.
#[derive(Clone, Copy, PartialEq, Eq, Debug)]
pub enum Form {
    /// 0 to 255.
    Plain,
    /// -128 to 127.
    Signed,
}

impl Form {
    pub const BOTH: [Form; 2] = [Form::Plain, Form::Signed];

    fn counts(self, byte: u8) -> i64 {
        match self {
            Form::Plain => i64::from(byte),
            Form::Signed if byte < 128 => i64::from(byte),
            Form::Signed => i64::from(byte) - 256,
        }
    }
}

/// By how much the hash is shifted for the second bit of a filter word: by 0, or by the top five bits of the table's first word.
#[derive(Clone, Copy, PartialEq, Eq, Debug)]
pub enum Lookup {
    Rust,
    Strict,
}

/// How a table is read.
#[derive(Clone, Copy, PartialEq, Eq, Debug)]
pub struct Manner {
    pub form: Form,
    pub lookup: Lookup,
}

impl Manner {
    pub const STRICT: [Manner; 2] = [Manner { form: Form::Plain, lookup: Lookup::Strict }, Manner { form: Form::Signed, lookup: Lookup::Strict }];

    /// The number that names it.
    pub fn number(self) -> u32 {
        let form = if self.form == Form::Signed { SIGNED } else { 0 };
        let lookup = if self.lookup == Lookup::Strict { STRICT } else { 0 };
        form | lookup
    }
}

impl From<Form> for Manner {
    fn from(form: Form) -> Manner {
        Manner { form, lookup: Lookup::Rust }
    }
}

/// How a table is laid: in a form, and with so many filter words.
#[derive(Clone, Copy, PartialEq, Eq, Debug)]
pub struct Laid {
    pub form: Form,
    pub filter: u32,
}

impl From<Form> for Laid {
    fn from(form: Form) -> Laid {
        Laid { form, filter: 0 }
    }
}

/// The hash is modulo 2 to the 32.
pub fn hash(key: &[u8], form: Form) -> u32 {
    key.iter().fold(5381, |hash: i64, byte| (hash * 33 + form.counts(*byte)).rem_euclid(1 << 32)) as u32
}
