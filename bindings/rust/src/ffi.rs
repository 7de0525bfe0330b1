//! The functions of libgvdb.a, over slices. All of the crate's `unsafe` is here: each call lends pointers of slices with their lengths, and Rust's
//! borrows keep the lent buffers of one call apart.
#![allow(unsafe_code)]

/// The number of the interface that this crate is written for, `GVDB_ABI` of gvdb.h. The build holds it to that and to the library's.
pub const ABI: u32 = 7;

/// The bit of a manner for the signed form, `GVDB_SIGNED` of gvdb.h.
pub const SIGNED: u32 = 1;

/// The bit of a manner for the strict lookup, `GVDB_STRICT` of gvdb.h.
pub const STRICT: u32 = 2;

#[repr(C)]
pub struct Headed {
    pub number: u32,
    pub big: u32,
    pub start: u32,
    pub end: u32,
}

#[repr(C)]
pub struct Opened {
    pub number: u32,
    pub items: u32,
    pub buckets: u32,
    pub blooms: u32,
}

#[repr(C)]
pub struct Place {
    pub number: u32,
    pub start: u32,
    pub end: u32,
    pub at: usize,
}

#[repr(C)]
pub struct Layered {
    pub number: u32,
    pub from: u32,
    pub start: u32,
    pub end: u32,
    pub at: usize,
}

#[repr(C)]
pub struct Key {
    pub number: u32,
    pub length: usize,
    pub next: usize,
    pub at: usize,
}

#[repr(C)]
pub struct Value {
    pub number: u32,
    pub start: u32,
    pub end: u32,
    pub index: usize,
    pub next: usize,
}

#[repr(C)]
pub struct Child {
    pub number: u32,
    pub kind: u32,
    pub start: u32,
    pub end: u32,
    pub index: usize,
    pub next: usize,
    pub at: usize,
}

#[repr(C)]
pub struct Checked {
    pub number: u32,
    pub rule: u32,
    pub item: usize,
    pub why: u32,
    pub at: usize,
}

#[repr(C)]
pub struct Numbered {
    pub number: u32,
    pub table: u32,
}

#[repr(C)]
pub struct Inserted {
    pub number: u32,
    pub replaced: u32,
    pub at: usize,
}

#[repr(C)]
pub struct Counted {
    pub number: u32,
    pub count: u32,
}

#[repr(C)]
pub struct Written {
    pub number: u32,
    pub start: u32,
    pub end: u32,
    pub length: u32,
}

extern "C" {
    fn gvdb_abi() -> u32;
    fn gvdb_read_header(file: *const u8, size: usize) -> Headed;
    fn gvdb_lay_header(target: *mut u8, size: usize, big: u32, start: u32, end: u32) -> u32;
    fn gvdb_first_bad(text: *const u8, length: usize) -> usize;
    fn gvdb_open(file: *const u8, size: usize, start: u32, end: u32) -> Opened;
    fn gvdb_get(file: *const u8, size: usize, start: u32, end: u32, key: *const u8, length: usize, manner: u32) -> Place;
    fn gvdb_get_table(file: *const u8, size: usize, start: u32, end: u32, key: *const u8, length: usize, manner: u32) -> Place;
    #[rustfmt::skip]
    fn gvdb_get_layered(
        owner: *const u8,
        owner_size: usize,
        owner_start: u32,
        owner_end: u32,
        district: *const u8,
        district_size: usize,
        district_start: u32,
        district_end: u32,
        key: *const u8,
        length: usize,
        owner_manner: u32,
        district_manner: u32,
    ) -> Layered;
    fn gvdb_next_key(file: *const u8, size: usize, start: u32, end: u32, position: usize, out: *mut u8, room: usize) -> Key;
    fn gvdb_next_value(file: *const u8, size: usize, start: u32, end: u32, position: usize) -> Value;
    fn gvdb_next_child(file: *const u8, size: usize, start: u32, end: u32, key: *const u8, length: usize, position: usize, manner: u32) -> Child;
    fn gvdb_check(file: *const u8, size: usize, start: u32, end: u32, manner: u32) -> Checked;
    fn gvdb_memory_words() -> usize;
    fn gvdb_fresh(words: *mut usize, count: usize, arena: *mut u8, room: usize) -> u32;
    fn gvdb_new_table(words: *mut usize, count: usize, arena: *mut u8, room: usize, separator: *const u8, length: usize) -> Numbered;
    #[rustfmt::skip]
    fn gvdb_insert(
        words: *mut usize,
        count: usize,
        arena: *mut u8,
        room: usize,
        table: u32,
        key: *const u8,
        length: usize,
        value: *const u8,
        size: usize,
    ) -> Inserted;
    fn gvdb_insert_table(words: *mut usize, count: usize, arena: *mut u8, room: usize, table: u32, key: *const u8, length: usize, guest: u32) -> Inserted;
    fn gvdb_item_count(words: *const usize, count: usize, arena: *const u8, room: usize, table: u32) -> Counted;
    fn gvdb_write(words: *mut usize, count: usize, arena: *const u8, room: usize, table: u32, image: *mut u8, size: usize, manner: u32, filter: u32)
        -> Written;
}

/// The number of the interface of the library that is linked.
pub fn abi() -> u32 {
    unsafe { gvdb_abi() }
}

pub fn read_header(file: &[u8]) -> Headed {
    unsafe { gvdb_read_header(file.as_ptr(), file.len()) }
}

pub fn lay_header(target: &mut [u8], big: u32, start: u32, end: u32) -> u32 {
    unsafe { gvdb_lay_header(target.as_mut_ptr(), target.len(), big, start, end) }
}

pub fn first_bad(text: &[u8]) -> usize {
    unsafe { gvdb_first_bad(text.as_ptr(), text.len()) }
}

pub fn open(file: &[u8], start: u32, end: u32) -> Opened {
    unsafe { gvdb_open(file.as_ptr(), file.len(), start, end) }
}

pub fn get(file: &[u8], start: u32, end: u32, key: &[u8], manner: u32) -> Place {
    unsafe { gvdb_get(file.as_ptr(), file.len(), start, end, key.as_ptr(), key.len(), manner) }
}

pub fn get_table(file: &[u8], start: u32, end: u32, key: &[u8], manner: u32) -> Place {
    unsafe { gvdb_get_table(file.as_ptr(), file.len(), start, end, key.as_ptr(), key.len(), manner) }
}

/// A table of a lent file, with the manner that it is read in.
#[derive(Clone, Copy)]
pub struct Lent<'f> {
    pub file: &'f [u8],
    pub start: u32,
    pub end: u32,
    pub manner: u32,
}

#[rustfmt::skip]
pub fn get_layered(owner: Lent, district: Lent, key: &[u8]) -> Layered {
    unsafe {
        gvdb_get_layered(
            owner.file.as_ptr(), owner.file.len(), owner.start, owner.end,
            district.file.as_ptr(), district.file.len(), district.start, district.end,
            key.as_ptr(), key.len(), owner.manner, district.manner,
        )
    }
}

pub fn next_key(file: &[u8], start: u32, end: u32, position: usize, out: &mut [u8]) -> Key {
    unsafe { gvdb_next_key(file.as_ptr(), file.len(), start, end, position, out.as_mut_ptr(), out.len()) }
}

pub fn next_value(file: &[u8], start: u32, end: u32, position: usize) -> Value {
    unsafe { gvdb_next_value(file.as_ptr(), file.len(), start, end, position) }
}

pub fn next_child(file: &[u8], start: u32, end: u32, key: &[u8], position: usize, manner: u32) -> Child {
    unsafe { gvdb_next_child(file.as_ptr(), file.len(), start, end, key.as_ptr(), key.len(), position, manner) }
}

pub fn check(file: &[u8], start: u32, end: u32, manner: u32) -> Checked {
    unsafe { gvdb_check(file.as_ptr(), file.len(), start, end, manner) }
}

pub fn memory_words() -> usize {
    unsafe { gvdb_memory_words() }
}

pub fn fresh(words: &mut [usize], arena: &mut [u8]) -> u32 {
    unsafe { gvdb_fresh(words.as_mut_ptr(), words.len(), arena.as_mut_ptr(), arena.len()) }
}

pub fn new_table(words: &mut [usize], arena: &mut [u8], separator: &[u8]) -> Numbered {
    unsafe { gvdb_new_table(words.as_mut_ptr(), words.len(), arena.as_mut_ptr(), arena.len(), separator.as_ptr(), separator.len()) }
}

pub fn insert(words: &mut [usize], arena: &mut [u8], table: u32, key: &[u8], value: &[u8]) -> Inserted {
    let (count, room) = (words.len(), arena.len());
    unsafe { gvdb_insert(words.as_mut_ptr(), count, arena.as_mut_ptr(), room, table, key.as_ptr(), key.len(), value.as_ptr(), value.len()) }
}

pub fn insert_table(words: &mut [usize], arena: &mut [u8], table: u32, key: &[u8], guest: u32) -> Inserted {
    unsafe { gvdb_insert_table(words.as_mut_ptr(), words.len(), arena.as_mut_ptr(), arena.len(), table, key.as_ptr(), key.len(), guest) }
}

pub fn item_count(words: &[usize], arena: &[u8], table: u32) -> Counted {
    unsafe { gvdb_item_count(words.as_ptr(), words.len(), arena.as_ptr(), arena.len(), table) }
}

pub fn write(words: &mut [usize], arena: &[u8], table: u32, image: &mut [u8], manner: u32, filter: u32) -> Written {
    unsafe { gvdb_write(words.as_mut_ptr(), words.len(), arena.as_ptr(), arena.len(), table, image.as_mut_ptr(), image.len(), manner, filter) }
}
