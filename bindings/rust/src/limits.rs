//! The limits of the library, named once for all that stands outside of it: this crate, the command line and the tests. tests/limits.rs holds them to its answers.

/// The longest file that is read, and the longest image that is laid, in bytes.
pub const MAX_FILE: usize = 16_777_216;
/// The most items that a builder holds, over all its tables.
pub const MAX_ITEMS: usize = 1024;
/// The most tables that a builder holds.
pub const MAX_TABLES: usize = 64;
/// The deepest that a builder's tables nest, the root at 1.
pub const MAX_NESTING: usize = 8;
/// The longest key that a builder takes, in bytes.
pub const MAX_KEY: usize = 1024;
/// The most filter words that a write lays in each table.
pub const MAX_FILTER_WORDS: usize = 1024;
