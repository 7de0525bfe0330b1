//! Filter words, and the two lookups that go by them.

use gvdb::{Builder, Form, Image, Lookup, Refusal, Table, WriteOptions};

fn words(filter_words: u32) -> WriteOptions {
    WriteOptions { filter_words, ..WriteOptions::default() }
}

fn laid(separator: Option<u8>, items: &[(&str, &[u8])], filter_words: u32) -> Image {
    let mut builder = Builder::new(4096);
    let root = builder.new_table(separator).unwrap();
    for (key, value) in items {
        let _ = builder.insert(root, key, value).unwrap();
    }
    builder.write_as(root, words(filter_words)).unwrap()
}

fn open(image: &Image, lookup: Lookup) -> Table<'_> {
    Table::open(&image.bytes, image.root.start, image.root.end).unwrap().with_lookup(lookup)
}

/// The words that a table begins with.
fn front(image: &Image, count: usize) -> Vec<u32> {
    image.bytes[24..].chunks(4).take(count).map(|word| u32::from_le_bytes(word.try_into().unwrap())).collect()
}

#[test]
fn worked_images() {
    assert_eq!(laid(None, &[], 1).bytes[24..], [1, 0, 0, 0x28, 0, 0, 0, 0, 0, 0, 0, 0]);

    let one = laid(None, &[("a", &[1, 2])], 1);
    assert_eq!((one.bytes.len(), one.root.end, front(&one, 3)), (74, 64, vec![0x2800_0001, 1, 0x1_0040]));
    assert_eq!((one.bytes[64], &one.bytes[72..]), (b'a', &[1, 2][..]));
    let two = laid(None, &[("a", &[1, 2])], 2);
    assert_eq!((two.bytes.len(), two.root.end), (74, 68));
    let most = laid(None, &[("a", &[1, 2])], 1024);
    let filter = &front(&most, 2 + 1024)[2..];
    assert_eq!((most.bytes.len(), filter[432], filter.iter().filter(|word| **word == 0).count()), (4162, 0x1_0040, 1023));

    let path = laid(Some(b'/'), &[("a/b", &[7])], 1);
    assert_eq!((path.bytes.len(), path.root.end, &path.bytes[32..36]), (104, 92, &[0, 0x80, 0xA0, 0][..]));
    let three = laid(Some(b'/'), &[("a/b", &[7])], 3);
    assert_eq!((three.bytes.len(), &three.bytes[32..44]), (112, &[0, 0x80, 0x80, 0, 0, 0, 0xA0, 0, 0, 0, 0, 0][..]));

    let mut builder = Builder::new(64);
    let (root, guest) = (builder.new_table(None).unwrap(), builder.new_table(None).unwrap());
    let _ = (builder.insert(guest, "x", [9]).unwrap(), builder.insert_table(root, "t", guest).unwrap());
    let nested = builder.write_as(root, words(1)).unwrap();
    let pointer = open(&nested, Lookup::Strict).get_table("t").unwrap().pointer();
    assert_eq!((nested.bytes.len(), pointer.start, pointer.end), (113, 68, 108));
}

#[test]
fn no_words_are_the_image_without_filter() {
    for form in Form::BOTH {
        let mut builder = Builder::new(64);
        let root = builder.new_table(Some(b'/')).unwrap();
        let _ = builder.insert(root, "é/b", [7]).unwrap();
        assert_eq!(builder.write_as(root, WriteOptions { form, filter_words: 0 }), builder.write_as(root, form));
    }
}

/// The check by the strict lookup needs the second bit, where the first word says a shift; the Rust's never looks at it.
#[test]
fn a_bit_that_is_missing() {
    let mut image = laid(None, &[("a", &[1, 2])], 1);
    assert!(Lookup::BOTH.into_iter().all(|lookup| open(&image, lookup).check().is_ok()));
    image.bytes[34] = 0;
    assert_eq!((open(&image, Lookup::Rust).check(), open(&image, Lookup::Rust).get("a")), (Ok(()), Ok(&[1, 2][..])));
    let Err(broken) = open(&image, Lookup::Strict).check() else { panic!("the strict check passes") };
    assert_eq!((broken.rule, broken.item), (2, 0));
    assert_eq!(open(&image, Lookup::Strict).get("a"), Err(Refusal::KeyNotFound));
    // a shift of 0
    image.bytes[27] = 0;
    assert!(Lookup::BOTH.into_iter().all(|lookup| open(&image, lookup).check().is_ok() && open(&image, lookup).get("a").is_ok()));
}

#[test]
fn both_lookups_answer_alike_in_what_is_laid() {
    for count in [0, 1, 2, 3, 32, 1024] {
        let mut builder = Builder::new(1 << 16);
        let (root, guest) = (builder.new_table(Some(b'/')).unwrap(), builder.new_table(None).unwrap());
        for i in 0..100u8 {
            let _ = (builder.insert(root, format!("parcel/{i}/é"), [i]).unwrap(), builder.insert(guest, format!("{i}"), [i]).unwrap());
        }
        let _ = builder.insert_table(root, "t", guest).unwrap();
        for form in Form::BOTH {
            let image = builder.write_as(root, WriteOptions { form, filter_words: count }).unwrap();
            for lookup in Lookup::BOTH {
                let table = open(&image, lookup).with_form(form);
                let nested = table.get_table("t").unwrap();
                assert_eq!((table.bloom_words(), nested.bloom_words(), nested.lookup(), nested.form()), (count as usize, count as usize, lookup, form));
                assert_eq!((table.check(), nested.check()), (Ok(()), Ok(())));
                for i in 0..200u8 {
                    let value = if i < 100 { Ok(vec![i]) } else { Err(Refusal::KeyNotFound) };
                    assert_eq!(table.get(format!("parcel/{i}/é")).map(<[u8]>::to_vec), value);
                    assert_eq!(nested.get(format!("{i}")).map(<[u8]>::to_vec), value);
                }
            }
        }
    }
}

/// 33 comes behind 24 and before 30 and 31.
#[test]
fn order_of_refusals() {
    let mut builder = Builder::new(64);
    let (root, guest) = (builder.new_table(None).unwrap(), builder.new_table(None).unwrap());
    let _ = (builder.insert(root, "", []).unwrap(), builder.insert_table(root, "t", guest).unwrap());
    let before = builder.clone();
    for (table, filter_words, refusal) in
        [(guest, 1025, Refusal::TableUnknown), (root, 1025, Refusal::TooManyFilterWords), (root, 1024, Refusal::EmptyKey), (root, 0, Refusal::EmptyKey)]
    {
        assert_eq!(builder.write_as(table, words(filter_words)), Err(refusal));
    }
    assert!(builder == before);
}
