//! The crate from outside: growth of buffers, items that are passed over, and the refusals.

use gvdb::{Builder, Image, Inserted, Item, Kind, Refusal, Table, Unsound, MAX_KEY};

fn flat(entries: &[(&str, &[u8])]) -> Image {
    let mut builder = Builder::new(1 << 20);
    let root = builder.new_table(None).unwrap();
    for (key, value) in entries {
        assert_eq!(builder.insert(root, key, value), Ok(Inserted::New));
    }
    builder.write(root).unwrap()
}

fn open(image: &Image) -> Table<'_> {
    Table::open(&image.bytes, image.root.start, image.root.end).unwrap()
}

/// Where the record of an item lies in an image of ours: behind 8 bytes and a bucket word for each item.
fn record(image: &Image, index: usize) -> usize {
    image.root.start as usize + 8 + 4 * open(image).buckets() + 24 * index
}

fn put(image: &mut Image, at: usize, word: u32) {
    image.bytes[at..at + 4].copy_from_slice(&word.to_le_bytes());
}

#[test]
fn a_refused_item_is_passed_over() {
    let mut image = flat(&[("a", b"1"), ("b", b"2"), ("c", b"3")]);
    let whole: Vec<String> = open(&image).keys().map(Result::unwrap).collect();
    let (key, value) = (record(&image, 1) + 8, record(&image, 2) + 16);
    put(&mut image, key, 1 << 30);
    put(&mut image, value, 9);
    let keys: Vec<_> = open(&image).keys().collect();
    assert_eq!(keys, [Ok(whole[0].clone()), Err(Refusal::PointerOutside), Ok(whole[2].clone())]);
    assert_eq!(open(&image).values().map(|value| value.err()).collect::<Vec<_>>(), [None, None, Some(Refusal::Misaligned)]);
    let entries: Vec<_> = open(&image).entries().collect();
    assert!(matches!(entries[1].item, Ok(Item::Value(_))) && entries[1].key.is_err());
    assert!(matches!(entries[2].item, Err(Refusal::Misaligned)) && entries[2].key.is_ok());
    assert_eq!(open(&image).keys().len(), 3);
    assert_eq!(open(&image).key_at(3), Err(Refusal::PastTheLast));
}

/// The tables are those of the entries, wherever they stand among values, and past items that do not read.
#[test]
fn tables_are_those_of_the_entries() {
    let mut builder = Builder::new(1 << 16);
    let root = builder.new_table(Some(b'/')).unwrap();
    for i in 0..40 {
        let guest = builder.new_table(None).unwrap();
        assert_eq!(builder.insert(guest, "k", "1"), Ok(Inserted::New));
        assert_eq!(builder.insert_table(root, format!("t/{i}"), guest), Ok(Inserted::New));
        assert_eq!(builder.insert(root, format!("v/{i}"), "2"), Ok(Inserted::New));
    }
    let mut image = builder.write(root).unwrap();
    for damage in [None, Some((7, 8)), Some((20, 16)), Some((33, 4))] {
        if let Some((item, field)) = damage {
            let at = record(&image, item) + field;
            put(&mut image, at, 1 << 30);
        }
        let table = open(&image);
        let tables: Vec<_> = table.tables().map(|(key, nested)| (key, nested.pointer())).collect();
        let found = table.entries().filter_map(|entry| match (entry.key, entry.item) {
            (Ok(key), Ok(Item::Table(nested))) => Some((key, nested.pointer())),
            _ => None,
        });
        assert_eq!(tables, found.collect::<Vec<_>>());
        assert!(tables.len() > 30);
    }
}

#[test]
fn a_listed_key_longer_than_any_builder_takes() {
    let (long, longer) = ("a".repeat(1000), "b".repeat(MAX_KEY));
    let mut image = flat(&[(&long, b""), (&longer, b"")]);
    let child = open(&image).keys().position(|key| key.unwrap() == longer).unwrap();
    let parent = record(&image, child) + 4;
    put(&mut image, parent, 1 - child as u32);
    assert_eq!(open(&image).key_at(child), Ok(long + &longer));
}

#[test]
fn kinds_of_entries_and_of_replaced_items() {
    let mut builder = Builder::new(4096);
    let (root, guest) = (builder.new_table(Some(b'/')).unwrap(), builder.new_table(None).unwrap());
    assert_eq!(builder.insert(root, "a/b", "1"), Ok(Inserted::New));
    assert_eq!(builder.insert_table(root, "t", guest), Ok(Inserted::New));
    let image = builder.write(root).unwrap();
    let mut kinds: Vec<_> = open(&image)
        .entries()
        .map(|entry| {
            let kind = match entry.item.unwrap() {
                Item::Value(bytes) => format!("value of {}", bytes.len()),
                Item::Table(nested) => format!("table of {}", nested.len()),
                Item::Container => "container".to_string(),
            };
            (entry.key.unwrap(), kind)
        })
        .collect();
    kinds.sort();
    let expected = [("a/", "container"), ("a/b", "value of 1"), ("t", "table of 0")];
    assert_eq!(kinds, expected.map(|(key, kind)| (key.to_string(), kind.to_string())));
    assert_eq!(builder.insert(root, "a/", ""), Ok(Inserted::Replaced(Kind::Container)));
    assert_eq!(builder.insert(root, "a/", ""), Ok(Inserted::Replaced(Kind::Value)));
    assert_eq!(builder.insert(root, "t", ""), Ok(Inserted::Replaced(Kind::Table)));
    assert_eq!(builder.insert(root, "a/c", ""), Err(Refusal::NotContainer));
}

#[test]
fn other_refusals_of_the_builder() {
    let mut builder = Builder::new(3);
    let root = builder.new_table(Some(b'/')).unwrap();
    assert_eq!(builder.insert(root, b"\xC3", ""), Err(Refusal::KeyNotUtf8 { at: 0 }));
    assert_eq!(builder.insert(root, "a/b", ""), Err(Refusal::ArenaFull));
    assert_eq!(builder.insert_table(root, "1", root), Err(Refusal::TableInItself));
    for separator in [0, 128] {
        assert_eq!(builder.new_table(Some(separator)), Err(Refusal::SeparatorOutside));
    }
}

/// The offset comes with both lookups, both inserts, a listing and the check, of an item's own fragment and of one above.
#[test]
fn where_a_text_is_bad() {
    let worked: [(&[u8], usize); 7] =
        [(b"caf\xE9", 3), (b"\xE9t\xE9", 0), (b"a\xC3", 1), (b"\xED\xA0\x80", 0), (b"\xF0\x9F\x8C", 0), (b"ok\xC0\x80", 2), (b"\xC3\xA9\xFF", 2)];
    let mut builder = Builder::new(4096);
    let (root, guest) = (builder.new_table(Some(b'/')).unwrap(), builder.new_table(None).unwrap());
    assert_eq!(builder.insert(root, "wood/oaks", "1"), Ok(Inserted::New));
    let image = builder.write(root).unwrap();
    for (text, at) in worked {
        let refusal = Refusal::KeyNotUtf8 { at };
        assert_eq!(gvdb::first_bad(text), Some(at));
        assert_eq!((builder.insert(root, text, ""), builder.insert_table(root, text, guest)), (Err(refusal), Err(refusal)));
        assert_eq!((open(&image).get(text), open(&image).get_table(text).err()), (Err(refusal), Some(refusal)));
        for fragment in [&b"wood/"[..], b"oaks"] {
            let mut bad = image.clone();
            let from = bad.bytes.windows(fragment.len()).position(|part| part == fragment).unwrap();
            bad.bytes[from..from + fragment.len()].fill(b'.');
            bad.bytes[from..from + text.len()].copy_from_slice(text);
            let table = open(&bad);
            let why = Refusal::FragmentNotUtf8 { at };
            let item = table.keys().position(|key| key.is_err()).unwrap();
            assert!(table.keys().filter_map(Result::err).all(|refusal| refusal == why));
            assert_eq!(table.keys().filter(Result::is_err).count(), if fragment == b"oaks" { 1 } else { 2 });
            assert_eq!(table.check(), Err(Unsound { rule: 1, item, why: Some(why) }));
            assert_eq!(table.get("wood/oaks"), Err(Refusal::KeyNotFound));
        }
    }
}

/// The build has compared them where it could run the library.
#[test]
fn one_number_of_the_interface() {
    let header = include_str!("../../c/gvdb.h");
    assert!(header.lines().any(|line| line == format!("#define GVDB_ABI {}", gvdb::ABI)));
    assert_eq!(gvdb::abi(), gvdb::ABI);
}

#[test]
fn refusals_are_those_of_the_library() {
    let source = include_str!("../../../crates/layout/src/refusal.rt");
    let mut named = 0;
    for line in source.lines() {
        if let Some((name, number)) = line.trim().strip_prefix("Refusal::").and_then(|line| line.split_once(" => ")) {
            let Ok(number) = number.trim_end_matches(',').parse() else { continue };
            let refusal = Refusal::from_number(number).unwrap();
            assert_eq!(name.strip_suffix("(_)"), refusal.at().map(|_| refusal.name()));
            assert_eq!(name.trim_end_matches("(_)"), refusal.name());
            named += 1;
        }
    }
    assert_eq!(named, Refusal::ALL.len());
    assert!(Refusal::ALL.iter().all(|refusal| Refusal::from_number(refusal.number()) == Some(*refusal) && !refusal.sentence().is_empty()));
}
