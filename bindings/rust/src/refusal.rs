//! Why a call is refused: one variant for each number of documents 01 and 02.

use crate::ffi;
use std::error::Error;
use std::fmt;

macro_rules! refusals {
    ($($number:literal $name:ident $({ $at:ident })? $sentence:literal)*) => {
        /// Why a call is refused. The numbers are fixed, and each has one sentence; a refused call has changed nothing. 18, 32 and 34 are those of calls
        /// to come, and more may follow: a match has an arm for the rest.
        ///
        /// ```
        /// use gvdb::Refusal;
        /// let refusal = Refusal::KeyNotFound;
        /// assert_eq!(refusal.number(), 12);
        /// assert_eq!(refusal.name(), "KeyNotFound");
        /// assert_eq!(refusal.to_string(), "refusal 12: the table has no such key");
        /// assert_eq!(Refusal::from_number(12), Some(refusal));
        /// ```
        ///
        /// A text that is not UTF-8 is refused with the offset at which it is bad: where the first sequence begins that RFC 3629 does not allow. Two such refusals
        /// are equal when their offsets are too.
        ///
        /// ```
        /// use gvdb::{Builder, Refusal};
        /// let mut builder = Builder::new(64);
        /// let root = builder.new_table(None).unwrap();
        /// let refusal = builder.insert(root, b"caf\xE9", []).unwrap_err();
        /// assert_eq!(refusal, Refusal::KeyNotUtf8 { at: 3 });
        /// assert_ne!(refusal, Refusal::KeyNotUtf8 { at: 0 });
        /// assert_eq!((refusal.number(), refusal.at()), (8, Some(3)));
        /// assert_eq!(refusal.to_string(), "refusal 8: the given key is not UTF-8 at byte 3");
        /// ```
        #[derive(Clone, Copy, PartialEq, Eq, Hash, Debug)]
        #[non_exhaustive]
        pub enum Refusal {
            $(
                #[doc = concat!(stringify!($number), ": ", $sentence, ".")]
                $name $({
                    /// The offset of the first sequence that RFC 3629 does not allow, in the text that is refused.
                    $at: usize,
                })?,
            )*
            /// A number that this crate does not know, from a library that is newer than it.
            Unknown(u32),
        }

        impl Refusal {
            /// Every refusal that this crate knows, by number; those with an offset stand here with 0.
            pub const ALL: &'static [Refusal] = &[$(Refusal::$name $({ $at: 0 })?),*];

            /// The refusal with this number, if this crate knows one; one with an offset has 0.
            pub fn from_number(number: u32) -> Option<Refusal> {
                match number {
                    $($number => Some(Refusal::$name $({ $at: 0 })?),)*
                    _ => None,
                }
            }

            /// The number of documents 01 and 02.
            pub fn number(self) -> u32 {
                match self {
                    $(Refusal::$name { .. } => $number,)*
                    Refusal::Unknown(number) => number,
                }
            }

            /// Its name in the library's source.
            pub fn name(self) -> &'static str {
                match self {
                    $(Refusal::$name { .. } => stringify!($name),)*
                    Refusal::Unknown(_) => "Unknown",
                }
            }

            /// What it is given for, without an offset and without a full stop.
            pub fn sentence(self) -> &'static str {
                match self {
                    $(Refusal::$name { .. } => $sentence,)*
                    Refusal::Unknown(_) => "the library's answer has a number that this crate does not know",
                }
            }
        }
    };
}

refusals! {
    1 FileTooLong "the file is longer than 16,777,216 bytes"
    2 PointerOutside "a pointer starts above its end, or ends past the file"
    3 Misaligned "a pointer's start is not a multiple of the alignment asked"
    4 TableTooShort "the table is shorter than 8 bytes"
    5 BloomTooLong "the bloom words do not fit the table"
    6 BucketsTooLong "the buckets do not fit the table"
    7 ItemsUneven "the bytes after the buckets are not a multiple of 24"
    8 KeyNotUtf8 { at } "the given key is not UTF-8"
    9 FragmentNotUtf8 { at } "a stored key fragment is not UTF-8"
    10 ParentOutside "a parent index, or a child index, is not below the item count"
    11 ParentsEndless "the chain of parents never reaches a root"
    12 KeyNotFound "the table has no such key"
    13 OtherKind "the item's kind is unknown, or another than was asked for"
    14 BufferTooShort "the listed key is longer than the lent buffer"
    15 PastTheLast "the position is past the last item or child"
    16 HeaderTooShort "the file is shorter than a header of 24 bytes"
    17 SignatureUnknown "the file does not start with the signature of a GVDB file"
    18 ListBroken "the list is no export of a table, or the numbers given are not as many as its nested tables"
    19 VersionUnknown "the file's version is another than 0"
    20 KeyTooLong "the key is longer than 1,024 bytes"
    21 NotContainer "a parent on the key's path is not a container"
    22 TooManyItems "the builder would hold more than 1,024 items"
    23 ArenaFull "the arena has no room for the key and the value"
    24 TableUnknown "the table's number is unknown, or it is already placed"
    25 TableInItself "a table cannot be put into itself"
    26 NestedTooDeep "tables would be nested more than 8 deep"
    27 TooManyTables "the builder would hold more than 64 tables"
    28 SeparatorOutside "a separator is one byte from 1 to 127, or none"
    29 MemoryBroken "the builder's memory is too short, of another length than at the start, or breaks its rules"
    30 EmptyKey "an item has the empty key, which a table cannot be laid with"
    31 ImageTooLong "the image is longer than the lent buffer or than 16,777,216 bytes"
    32 HeadsTooFew "the lent head words are too few"
    33 TooManyFilterWords "more than 1,024 filter words are asked for"
    34 ReportTooShort "the report has room for fewer entries than the table has items"
    40 CheckBroken "the table is not sound"
}

impl Refusal {
    /// Where the text is bad, of the refusals that say so.
    pub fn at(self) -> Option<usize> {
        match self {
            Refusal::KeyNotUtf8 { at } | Refusal::FragmentNotUtf8 { at } => Some(at),
            _ => None,
        }
    }

    /// The sentence, with the offset where there is one.
    pub fn message(self) -> String {
        match self.at() {
            Some(at) => format!("{} at byte {at}", self.sentence()),
            None => self.sentence().to_string(),
        }
    }

    /// The refusal that the library means by a number, and by an offset that counts only with 8 and 9.
    pub(crate) fn of(number: u32, at: usize) -> Refusal {
        match Refusal::from_number(number) {
            Some(Refusal::KeyNotUtf8 { .. }) => Refusal::KeyNotUtf8 { at },
            Some(Refusal::FragmentNotUtf8 { .. }) => Refusal::FragmentNotUtf8 { at },
            Some(refusal) => refusal,
            None => Refusal::Unknown(number),
        }
    }
}

impl fmt::Display for Refusal {
    fn fmt(&self, f: &mut fmt::Formatter<'_>) -> fmt::Result {
        write!(f, "refusal {}: {}", self.number(), self.message())
    }
}

impl Error for Refusal {}

/// A number of the library as a result.
pub(crate) fn accepted(number: u32) -> Result<(), Refusal> {
    accepted_at(number, 0)
}

/// A number of the library as a result, with the offset beside it.
pub(crate) fn accepted_at(number: u32, at: usize) -> Result<(), Refusal> {
    match number {
        0 => Ok(()),
        number => Err(Refusal::of(number, at)),
    }
}

/// The first broken rule of the table check, and the item that breaks it.
///
/// ```
/// use gvdb::{Refusal, Unsound};
/// let unsound = Unsound { rule: 3, item: 7, why: None };
/// assert_eq!(unsound.to_string(), "item 7 breaks rule 3: its kind is none of value, table and container");
/// let unsound = Unsound { rule: 1, item: 7, why: Some(Refusal::FragmentNotUtf8 { at: 3 }) };
/// assert_eq!(unsound.to_string(), "item 7 breaks rule 1: its key does not read: a stored key fragment is not UTF-8 at byte 3");
/// ```
#[derive(Clone, Copy, PartialEq, Eq, Hash, Debug)]
pub struct Unsound {
    /// The rule, 1 to 6; 0 where the check does not answer, and `why` says so.
    pub rule: u32,
    /// The item's index.
    pub item: usize,
    /// With rule 1, what listing the item refuses with, given room: 2, 9 with its offset, 10 or 11. With rules 2 to 6 nothing.
    pub why: Option<Refusal>,
}

impl Unsound {
    /// What the check says with a number other than 0. The table is open: any other than 40 is none that this crate knows there.
    pub(crate) fn of(checked: &ffi::Checked) -> Unsound {
        let why = |number, at| (number != 0).then(|| Refusal::of(number, at));
        match Refusal::of(checked.number, 0) {
            Refusal::CheckBroken => Unsound { rule: checked.rule, item: checked.item, why: why(checked.why, checked.at) },
            _ => Unsound { rule: 0, item: 0, why: why(checked.number, 0) },
        }
    }

    /// What the broken rule means for the item, without a full stop.
    pub fn meaning(self) -> &'static str {
        match self.rule {
            0 => "the check does not answer",
            1 => "its key does not read",
            2 => "a lookup of its key does not find it",
            3 => "its kind is none of value, table and container",
            4 => "its value does not open: as bytes, as a table, or as a container of whole words",
            5 => "a child that it lists is not there, names another parent or stands twice",
            6 => "its parent is not a container that lists it",
            _ => "the rule is unknown",
        }
    }
}

impl fmt::Display for Unsound {
    fn fmt(&self, f: &mut fmt::Formatter<'_>) -> fmt::Result {
        write!(f, "item {} breaks rule {}: {}", self.item, self.rule, self.meaning())?;
        self.why.map_or(Ok(()), |why| write!(f, ": {}", why.message()))
    }
}

impl Error for Unsound {}

#[cfg(test)]
mod tests {
    use super::*;

    /// A number of a later library is an error like any other.
    #[test]
    fn a_number_that_is_not_known() {
        for number in [35, 39, 41, u32::MAX] {
            let refusal = accepted_at(number, 7).unwrap_err();
            assert_eq!((refusal, refusal.number(), refusal.at()), (Refusal::Unknown(number), number, None));
            assert_eq!(refusal.to_string(), format!("refusal {number}: the library's answer has a number that this crate does not know"));
            assert_eq!(Refusal::from_number(number), None);
            let unsound = Unsound::of(&ffi::Checked { number, rule: 2, item: 3, why: 4, at: 5 });
            assert_eq!(unsound, Unsound { rule: 0, item: 0, why: Some(Refusal::Unknown(number)) });
            let unsound = Unsound::of(&ffi::Checked { number: 40, rule: 7, item: 3, why: number, at: 5 });
            assert_eq!(unsound, Unsound { rule: 7, item: 3, why: Some(Refusal::Unknown(number)) });
        }
        assert_eq!(accepted_at(0, 7), Ok(()));
    }

    /// The offset counts with 8 and 9 alone.
    #[test]
    fn offsets_are_those_of_8_and_9() {
        for refusal in Refusal::ALL {
            let at = matches!(refusal.number(), 8 | 9).then_some(7);
            assert_eq!(Refusal::of(refusal.number(), 7).at(), at);
            assert_eq!(Refusal::of(refusal.number(), 0), *refusal);
        }
    }
}
