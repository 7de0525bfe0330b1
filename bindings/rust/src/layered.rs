//! A value looked up in two tables, one over the other.

use crate::ffi;
use crate::refusal::{accepted_at, Refusal};
use crate::table::Table;

/// Which of two tables answered.
#[derive(Clone, Copy, PartialEq, Eq, Hash, Debug)]
pub enum Source {
    /// The one that is asked first.
    Owner,
    /// The one under it.
    District,
}

/// What [`Table::get_over`] answers.
#[derive(Clone, Copy, PartialEq, Eq, Debug)]
pub struct Layered<'a> {
    /// The table that answered, or that refused.
    pub from: Source,
    /// The value: a part of that table's file.
    pub value: Result<&'a [u8], Refusal>,
}

impl<'a> Table<'a> {
    /// The value at a key of this table, the owner's, or of another under it. What this one answers stands, a refusal too; where it has no such key (12), and only there,
    /// the answer is the other's. Each table is read in its own form and under its own lookup, and both may be of one file.
    ///
    /// ```
    /// # use gvdb::{Builder, Refusal, Source, Table};
    /// # fn main() -> Result<(), Refusal> {
    /// # let mut builder = Builder::new(4096);
    /// # let district = builder.new_table(None)?;
    /// # builder.insert(district, "oak", [1])?;
    /// # builder.insert(district, "beech", [2])?;
    /// # let district = builder.write(district)?;
    /// # let owner = builder.new_table(None)?;
    /// # builder.insert(owner, "oak", [7])?;
    /// # let owner = builder.write(owner)?;
    /// # let district = Table::open(&district.bytes, district.root.start, district.root.end)?;
    /// # let owner = Table::open(&owner.bytes, owner.root.start, owner.root.end)?;
    /// let oak = owner.get_over(&district, "oak");
    /// assert_eq!((oak.from, oak.value), (Source::Owner, Ok(&[7][..])));
    /// let beech = owner.get_over(&district, "beech");
    /// assert_eq!((beech.from, beech.value), (Source::District, Ok(&[2][..])));
    /// let ash = owner.get_over(&district, "ash");
    /// assert_eq!((ash.from, ash.value), (Source::District, Err(Refusal::KeyNotFound)));
    /// # Ok(())
    /// # }
    /// ```
    pub fn get_over(&self, under: &Table<'a>, key: impl AsRef<[u8]>) -> Layered<'a> {
        let layered = ffi::get_layered(self.lent(), under.lent(), key.as_ref());
        let (from, table) = match layered.from {
            0 => (Source::Owner, self),
            _ => (Source::District, under),
        };
        let value = accepted_at(layered.number, layered.at).and_then(|()| table.part(layered.start, layered.end));
        Layered { from, value }
    }

    fn lent(&self) -> ffi::Lent<'a> {
        let pointer = self.pointer();
        ffi::Lent { file: self.file(), start: pointer.start, end: pointer.end, manner: self.manner() }
    }
}
