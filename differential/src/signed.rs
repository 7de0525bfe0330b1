//! The answers of a copy of gvdb-rs whose hash counts a byte -128 to 127, and which is gvdb-rs in all else.

use gvdb_signed as rust;

#[path = "theirs.rs"]
#[allow(clippy::duplicate_mod, dead_code)]
mod theirs;
pub use theirs::*;
