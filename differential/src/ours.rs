//! The library's answers: a number for a refusal, whose other fields are held to be 0, or the values.

use crate::document::header::Headed;
use crate::document::{Laid, Manner};
use crate::ffi;
use crate::lent::{buffer, untouched, Memory};
use crate::tally::{Broken, Child, Place, Why};

pub fn header(file: &[u8]) -> Headed {
    let header = ffi::read_header(file);
    refused(header.number, (header.big, header.start, header.end), (0, 0, 0))
}

/// The number of laying a header over a copy of a target, and the copy.
pub fn lay_header(target: &[u8], big: u32, start: u32, end: u32) -> (u32, Vec<u8>) {
    buffer(target.len(), |lent| {
        lent.copy_from_slice(target);
        ffi::lay_header(lent, big, start, end)
    })
}

pub fn open(file: &[u8], start: u32, end: u32) -> Result<(u32, u32, u32), u32> {
    let opened = ffi::open(file, start, end);
    let parts = (opened.items, opened.buckets, opened.blooms);
    refused(opened.number, parts, (0, 0, 0))
}

/// A success with its values, or a refusal whose values are all 0.
fn refused<T: PartialEq + std::fmt::Debug>(number: u32, values: T, zeros: T) -> Result<T, u32> {
    if number == 0 {
        return Ok(values);
    }
    assert_eq!(values, zeros, "values beside a refusal");
    Err(number)
}

/// The same with an offset, which only these refusals may have.
fn refused_at<T: PartialEq + std::fmt::Debug>(number: u32, at: usize, said: &[u32], values: T, zeros: T) -> Result<T, Why> {
    assert!(at == 0 || said.contains(&number), "an offset beside {number}");
    refused(number, values, zeros).map_err(|number| Why { number, at })
}

fn place(place: ffi::Place) -> Place {
    refused_at(place.number, place.at, &[8], (place.start, place.end), (0, 0))
}

/// Where a text is bad, or its length.
pub fn first_bad(text: &[u8]) -> usize {
    ffi::first_bad(text)
}

pub fn get(file: &[u8], start: u32, end: u32, key: &[u8], manner: impl Into<Manner>) -> Place {
    place(ffi::get(file, start, end, key, manner.into().number()))
}

pub fn get_table(file: &[u8], start: u32, end: u32, key: &[u8], manner: impl Into<Manner>) -> Place {
    place(ffi::get_table(file, start, end, key, manner.into().number()))
}

/// A value in one of two tables, and whether it is in the second.
pub fn get_layered(own: ffi::Lent, under: ffi::Lent, key: &[u8]) -> (Place, bool) {
    let layered = ffi::get_layered(own, under, key);
    assert!(layered.from <= 1, "a table that is neither");
    (refused_at(layered.number, layered.at, &[8], (layered.start, layered.end), (0, 0)), layered.from == 1)
}

/// The key at a position, listed into a buffer of so many bytes.
pub fn key(file: &[u8], start: u32, end: u32, position: usize, room: usize) -> Result<Vec<u8>, Why> {
    let (listed, mut bytes) = buffer(room, |out| ffi::next_key(file, start, end, position, out));
    let size = refused_at(listed.number, listed.at, &[9], (listed.length, listed.next), (0, 0)).map(|(size, next)| {
        assert_eq!(next, position + 1, "the next position");
        size
    });
    assert!(untouched(&bytes[*size.as_ref().unwrap_or(&0)..]), "bytes past a key changed");
    bytes.truncate(size?);
    Ok(bytes)
}

/// All values of a table that opens.
pub fn values(file: &[u8], start: u32, end: u32) -> Vec<(usize, Place)> {
    let (mut position, mut values) = (0, Vec::new());
    loop {
        let value = ffi::next_value(file, start, end, position);
        if value.number == 15 {
            assert_eq!((value.start, value.end, value.index, value.next), (0, 0, 0, 0), "values beside a refusal");
            return values;
        }
        assert!(value.index >= position && value.next == value.index + 1, "the next position");
        values.push((value.index, refused(value.number, (value.start, value.end), (0, 0)).map_err(Why::from)));
        position = value.next;
    }
}

/// The child at a position of the container under a key.
pub fn child(file: &[u8], start: u32, end: u32, key: &[u8], position: usize, manner: impl Into<Manner>) -> Child {
    let child = ffi::next_child(file, start, end, key, position, manner.into().number());
    assert_eq!(child.next, if child.number == 0 { position + 1 } else { 0 }, "the next position");
    refused_at(child.number, child.at, &[8, 9], (child.kind, child.start, child.end, child.index), (0, 0, 0, 0))
}

/// None for a sound table, or the rule, the item and what is said of rule 1.
pub fn check(file: &[u8], start: u32, end: u32, manner: impl Into<Manner>) -> Result<Option<Broken>, u32> {
    let checked = ffi::check(file, start, end, manner.into().number());
    let why = Why { number: checked.why, at: checked.at };
    assert!(why.at == 0 || why.number == 9, "an offset beside {}", why.number);
    if checked.number == 40 {
        return Ok(Some((checked.rule, checked.item, Some(why).filter(|why| why.number != 0))));
    }
    assert_eq!((checked.rule, checked.item, why), (0, 0, Why::from(0)), "values beside no broken rule");
    refused(checked.number, None, None)
}

impl Memory {
    pub fn fresh(&mut self) -> u32 {
        self.lend(ffi::fresh)
    }

    pub fn new_table(&mut self, separator: &[u8]) -> Result<u32, u32> {
        let made = self.lend(|words, arena| ffi::new_table(words, arena, separator));
        refused(made.number, made.table, 0)
    }

    pub fn insert(&mut self, table: u32, key: &[u8], value: &[u8]) -> Result<u32, Why> {
        let news = self.lend(|words, arena| ffi::insert(words, arena, table, key, value));
        refused_at(news.number, news.at, &[8], news.replaced, 0)
    }

    pub fn insert_table(&mut self, table: u32, key: &[u8], guest: u32) -> Result<u32, Why> {
        let news = self.lend(|words, arena| ffi::insert_table(words, arena, table, key, guest));
        refused_at(news.number, news.at, &[8], news.replaced, 0)
    }

    pub fn item_count(&mut self, table: u32) -> Result<u32, u32> {
        let counted = self.lend(|words, arena| ffi::item_count(words, arena, table));
        refused(counted.number, counted.count, 0)
    }

    /// The image that is written into a buffer of so many bytes, with the end of its root pointer.
    pub fn write(&mut self, table: u32, room: usize, laid: impl Into<Laid>) -> Result<(Vec<u8>, u32), u32> {
        let Laid { form, filter } = laid.into();
        let manner = Manner::from(form).number();
        let (written, mut image) = buffer(room, |image| self.lend(|words, arena| ffi::write(words, arena, table, image, manner, filter)));
        let values = refused(written.number, (written.start, written.end, written.length), (0, 0, 0));
        assert!(untouched(&image[values.map_or(0, |(_, _, length)| length as usize)..]), "bytes past the image changed");
        let (start, end, length) = values?;
        assert_eq!(start, 24, "the root's start");
        image.truncate(length as usize);
        Ok((image, end))
    }
}
