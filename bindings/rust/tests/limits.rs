//! Each limit is the library's: at it a call is accepted, and one above it is refused. What names a limit in words names it rightly.

use gvdb::{Builder, Inserted, Refusal, Table, TableNumber, WriteOptions, MAX_FILE, MAX_FILTER_WORDS, MAX_ITEMS, MAX_KEY, MAX_NESTING, MAX_TABLES};

/// A builder with room for all keys and so many bytes of values, and its first table.
fn builder(values: usize) -> (Builder, TableNumber) {
    let mut builder = Builder::new(MAX_ITEMS * MAX_KEY + values);
    let root = builder.new_table(None).unwrap();
    (builder, root)
}

#[test]
fn key_bytes() {
    let (mut builder, root) = builder(0);
    assert_eq!(builder.insert(root, "k".repeat(MAX_KEY), ""), Ok(Inserted::New));
    assert_eq!(builder.insert(root, "k".repeat(MAX_KEY + 1), ""), Err(Refusal::KeyTooLong));
}

/// The keys share nothing, and each value needs padding: the room that a write lends is enough for every image.
#[test]
fn items() {
    let (mut builder, root) = builder(MAX_ITEMS);
    for i in 0..MAX_ITEMS {
        assert_eq!(builder.insert(root, format!("{i:0MAX_KEY$}"), [1]), Ok(Inserted::New));
    }
    assert_eq!(builder.insert(root, "one more", ""), Err(Refusal::TooManyItems));
    assert_eq!(builder.item_count(root), Ok(MAX_ITEMS));
    assert!(builder.write(root).unwrap().bytes.len() > MAX_ITEMS * MAX_KEY);
}

/// Every table of a full builder gets all words, and the room that a write lends is enough.
#[test]
fn filter_words() {
    let (mut builder, root) = builder(0);
    for i in 1..MAX_TABLES {
        let guest = builder.new_table(None).unwrap();
        assert_eq!(builder.insert_table(root, format!("{i:0MAX_KEY$}"), guest), Ok(Inserted::New));
    }
    let words = |filter_words: usize| WriteOptions { filter_words: filter_words as u32, ..WriteOptions::default() };
    let bare = builder.write(root).unwrap().bytes.len();
    assert_eq!(builder.write_as(root, words(MAX_FILTER_WORDS)).map(|image| image.bytes.len() - bare), Ok(4 * MAX_TABLES * MAX_FILTER_WORDS));
    for many in [MAX_FILTER_WORDS + 1, u32::MAX as usize] {
        assert_eq!(builder.write_as(root, words(many)), Err(Refusal::TooManyFilterWords));
    }
}

#[test]
fn tables() {
    let (mut builder, _) = builder(0);
    for _ in 1..MAX_TABLES {
        builder.new_table(Some(b':')).unwrap();
    }
    assert_eq!(builder.new_table(None), Err(Refusal::TooManyTables));
}

#[test]
fn nesting() {
    let (mut builder, mut guest) = builder(0);
    for depth in 2..=MAX_NESTING + 1 {
        let host = builder.new_table(None).unwrap();
        let answer = if depth > MAX_NESTING { Err(Refusal::NestedTooDeep) } else { Ok(Inserted::New) };
        assert_eq!(builder.insert_table(host, "t", guest), answer);
        guest = host;
    }
}

#[test]
fn file_and_image_bytes() {
    let file = vec![0; MAX_FILE + 1];
    assert!(Table::open(&file[..MAX_FILE], 0, 8).is_ok());
    assert_eq!(Table::open(&file, 0, 8).err(), Some(Refusal::FileTooLong));

    // behind header, table and key the value lies at 64
    for (size, answer) in [(MAX_FILE - 64, Ok(MAX_FILE)), (MAX_FILE - 63, Err(Refusal::ImageTooLong))] {
        let (mut builder, root) = builder(size);
        assert_eq!(builder.insert(root, "a", vec![0xFF; size]), Ok(Inserted::New));
        assert_eq!(builder.write(root).map(|image| image.bytes.len()), answer);
    }
}

/// The sentence of each refusal at a limit, and the comment of its number in gvdb.h.
#[test]
fn words() {
    let header = include_str!("../../c/gvdb.h");
    for (refusal, limit) in [
        (Refusal::FileTooLong, MAX_FILE),
        (Refusal::KeyTooLong, MAX_KEY),
        (Refusal::TooManyItems, MAX_ITEMS),
        (Refusal::NestedTooDeep, MAX_NESTING),
        (Refusal::TooManyTables, MAX_TABLES),
        (Refusal::ImageTooLong, MAX_FILE),
    ] {
        let line = header.lines().find(|line| line.contains(&format!(" = {}, ", refusal.number()))).unwrap();
        for words in [refusal.sentence(), line] {
            assert!(words.replace(',', "").contains(&format!(" {limit} ")), "{words}");
        }
    }
}
