//! The functions of libgvdb.a and their limits as the Rust crate has them, and a builder over memory of its own.
#![allow(dead_code, unused_imports)]

#[path = "../../bindings/rust/src/ffi.rs"]
mod bound;
#[path = "../../bindings/rust/src/limits.rs"]
mod limits;
pub use bound::*;
pub use limits::*;

#[link(name = "gvdb", kind = "static")]
extern "C" {}

/// A builder over memory of its own.
#[derive(Clone, PartialEq, Eq)]
pub struct Builder {
    pub words: Vec<usize>,
    pub arena: Vec<u8>,
}

impl Builder {
    /// A fresh start on memory that held something else.
    pub fn fresh(room: usize) -> Builder {
        let mut builder = Builder { words: vec![0x5A5A_5A5A_5A5A; memory_words()], arena: vec![0xC3; room] };
        assert_eq!(builder.again(), 0);
        builder
    }

    /// A fresh start on the same memory.
    pub fn again(&mut self) -> u32 {
        fresh(&mut self.words, &mut self.arena)
    }

    pub fn new_table(&mut self, separator: &[u8]) -> Numbered {
        new_table(&mut self.words, &mut self.arena, separator)
    }

    pub fn insert(&mut self, table: u32, key: &[u8], value: &[u8]) -> Inserted {
        insert(&mut self.words, &mut self.arena, table, key, value)
    }

    pub fn insert_table(&mut self, table: u32, key: &[u8], guest: u32) -> Inserted {
        insert_table(&mut self.words, &mut self.arena, table, key, guest)
    }

    pub fn item_count(&self, table: u32) -> Counted {
        item_count(&self.words, &self.arena, table)
    }

    pub fn write(&mut self, table: u32, image: &mut [u8], manner: u32) -> Written {
        write(&mut self.words, &self.arena, table, image, manner, 0)
    }
}
