//! The first 24 bytes of a file.

use crate::ffi;
use crate::refusal::{accepted, Refusal};
use crate::table::Pointer;

/// The byte order of a file's values. Headers, tables and pointers are little-endian in every file.
#[derive(Clone, Copy, PartialEq, Eq, Hash, Debug)]
pub enum ByteOrder {
    /// The signature is "GVariant".
    Little,
    /// The signature is "raVGtnai".
    Big,
}

impl ByteOrder {
    /// `little` or `big`.
    pub fn name(self) -> &'static str {
        match self {
            ByteOrder::Little => "little",
            ByteOrder::Big => "big",
        }
    }
}

/// What the header of a file says. The root pointer is not judged here: [`Table::open`](crate::Table::open) does that.
///
/// ```
/// use gvdb::{Builder, ByteOrder, Header, Refusal, Table};
///
/// # fn main() -> Result<(), Refusal> {
/// let mut builder = Builder::new(4096);
/// let root = builder.new_table(Some(b'/'))?;
/// builder.insert(root, "/parcel/12/year", [0xE9, 0x07])?;
/// let file = builder.write_file(root, ByteOrder::Little)?;
///
/// let Header { order, root } = Header::read(&file)?;
/// assert_eq!(order, ByteOrder::Little);
/// assert_eq!(Table::open(&file, root.start, root.end)?.get("/parcel/12/year")?, [0xE9, 0x07]);
///
/// assert_eq!(Header::read(&file[..23]), Err(Refusal::HeaderTooShort));
/// assert_eq!(Header::read(&file[8..]), Err(Refusal::SignatureUnknown));
/// # Ok(())
/// # }
/// ```
#[derive(Clone, Copy, PartialEq, Eq, Hash, Debug)]
pub struct Header {
    /// The byte order of the values.
    pub order: ByteOrder,
    /// Where the root table lies.
    pub root: Pointer,
}

impl Header {
    /// Reads the header of a file. Its options are not looked at. Refusals: 1, 16, 17, 19.
    pub fn read(file: &[u8]) -> Result<Header, Refusal> {
        let said = ffi::read_header(file);
        accepted(said.number)?;
        let order = if said.big == 0 { ByteOrder::Little } else { ByteOrder::Big };
        Ok(Header { order, root: Pointer { start: said.start, end: said.end } })
    }

    /// Lays this header into the first 24 bytes of a target, with options 0; all other bytes stay. Refusals: 1, 16.
    ///
    /// ```
    /// use gvdb::{ByteOrder, Header, Pointer, Refusal};
    ///
    /// let header = Header { order: ByteOrder::Big, root: Pointer { start: 24, end: 60 } };
    /// let mut target = [0xAA; 25];
    /// assert_eq!(header.lay(&mut target), Ok(()));
    /// assert_eq!(target, *b"raVGtnai\0\0\0\0\0\0\0\0\x18\0\0\0\x3C\0\0\0\xAA");
    /// assert_eq!(Header::read(&target), Ok(header));
    /// assert_eq!(header.lay(&mut target[2..]), Err(Refusal::HeaderTooShort));
    /// ```
    pub fn lay(&self, target: &mut [u8]) -> Result<(), Refusal> {
        accepted(ffi::lay_header(target, u32::from(self.order == ByteOrder::Big), self.root.start, self.root.end))
    }
}
