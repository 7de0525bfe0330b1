//! Filter words, as document 02 says them: a file of gvdb-rs, which has none, laid again with them.

use crate::document::read::{open, word};
use crate::document::Form;
use crate::ffi::MAX_FILE;

/// A file that gvdb-rs laid, laid again with so many filter words in each of its tables: what it is with none is held to be the file itself. One over the limit,
/// of which no more than that is asked, stays as it is.
pub fn with_words(file: Vec<u8>, words: u32) -> Vec<u8> {
    if file.len() > MAX_FILE {
        return file;
    }
    let lay = |words: u32| {
        let mut laid = file[..24].to_vec();
        let (_, end) = lay_table(&file, word(&file, 16), word(&file, 20), words as usize, &mut laid);
        laid[20..24].copy_from_slice(&end.to_le_bytes());
        laid
    };
    assert!(lay(0) == file, "a file laid again is another");
    lay(words)
}

fn pad(laid: &mut Vec<u8>, alignment: usize) -> usize {
    laid.resize(laid.len().next_multiple_of(alignment), 0);
    laid.len()
}

fn put(laid: &mut [u8], at: usize, words: &[u32]) {
    words.iter().enumerate().for_each(|(i, word)| laid[at + 4 * i..at + 4 * i + 4].copy_from_slice(&word.to_le_bytes()));
}

/// Lays a table behind what is laid, and then for each item its key and its value. Answers where the table is.
fn lay_table(file: &[u8], start: u32, end: u32, words: usize, laid: &mut Vec<u8>) -> (u32, u32) {
    let table = open(file, start, end, Form::Plain).expect("a table");
    let at = pad(laid, 4);
    let items = at + 8 + 4 * words + 4 * table.buckets;
    laid.resize(items, 0);
    put(laid, at, &[5 << 27 | words as u32, table.buckets as u32]);
    let mut filter = vec![0u32; words];
    for hash in (0..table.count).map(|index| table.hash(index)).filter(|_| words > 0) {
        filter[hash as usize / 32 % words] |= 1 << (hash % 32) | 1 << ((hash >> 5) % 32);
    }
    put(laid, at + 8, &filter);
    laid[items - 4 * table.buckets..].copy_from_slice(&file[start as usize + 8..][..4 * table.buckets]);
    (0..table.count).for_each(|index| laid.extend(table.record(index)));
    let behind = laid.len() as u32;
    for index in 0..table.count {
        let record = items + 24 * index;
        let key = laid.len() as u32;
        put(laid, record + 8, &[key]);
        laid.extend(table.fragment(index).expect("a fragment"));
        let (from, to) = table.value(index);
        let value = if table.kind(index) == b'H' {
            lay_table(file, from, to, words, laid)
        } else {
            let from_here = pad(laid, if table.kind(index) == b'v' { 8 } else { 4 });
            laid.extend(&file[from as usize..to as usize]);
            (from_here as u32, laid.len() as u32)
        };
        put(laid, record + 16, &[value.0, value.1]);
    }
    (at as u32, behind)
}
