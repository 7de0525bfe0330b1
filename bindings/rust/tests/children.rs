//! The children of a container: order of arrival, what is passed over, and what ends the list at once.

use gvdb::{Builder, Child, Image, Inserted, Item, Kind, Refusal, Table};

/// "a/c", "a/b/d", "a/t", a table, and "v": the children of "a/" are "c", "b/" and "t".
fn wood() -> Image {
    let mut builder = Builder::new(4096);
    let (root, guest) = (builder.new_table(Some(b'/')).unwrap(), builder.new_table(None).unwrap());
    for key in ["a/c", "a/b/d", "v"] {
        assert_eq!(builder.insert(root, key, "1"), Ok(Inserted::New));
    }
    assert_eq!(builder.insert_table(root, "a/t", guest), Ok(Inserted::New));
    builder.write(root).unwrap()
}

fn open(image: &Image) -> Table<'_> {
    Table::open(&image.bytes, image.root.start, image.root.end).unwrap()
}

fn word(image: &Image, at: usize) -> u32 {
    u32::from_le_bytes(image.bytes[at..at + 4].try_into().unwrap())
}

fn put(image: &mut Image, at: usize, word: u32) {
    image.bytes[at..at + 4].copy_from_slice(&word.to_le_bytes());
}

/// Where the record of the item with a key lies: behind 8 bytes and a bucket word for each item.
fn record(image: &Image, key: &str) -> usize {
    let index = open(image).keys().position(|listed| listed.unwrap() == key).unwrap();
    image.root.start as usize + 8 + 4 * open(image).buckets() + 24 * index
}

fn listed(image: &Image, key: &str) -> Vec<Result<(Kind, String), Refusal>> {
    let table = open(image);
    let said = |child: Child| (child.kind, child.fragment.to_string());
    table.children(key).map(|child| child.map(said)).collect()
}

#[test]
fn children_in_the_order_of_arrival() {
    let image = wood();
    let table = open(&image);
    let children: Vec<Child> = table.children("a/").map(Result::unwrap).collect();
    assert_eq!(
        children.iter().map(|child| (child.kind, child.fragment)).collect::<Vec<_>>(),
        [(Kind::Value, "c"), (Kind::Container, "b/"), (Kind::Table, "t")]
    );
    for child in &children {
        assert_eq!(table.key_at(child.index), Ok(format!("a/{}", child.fragment)));
        let from = child.fragment.as_ptr() as usize - image.bytes.as_ptr() as usize;
        assert_eq!(&image.bytes[from..from + child.fragment.len()], child.fragment.as_bytes());
    }
    assert_eq!(listed(&image, "a/b/"), [Ok((Kind::Value, "d".to_string()))]);
    let mut none = table.children("a/b/").skip(1);
    assert_eq!((none.next(), none.next()), (None, None));
}

/// One answer, and then no more.
#[test]
fn a_container_that_is_refused() {
    let image = wood();
    for (key, why) in [("v", Refusal::OtherKind), ("a/t", Refusal::OtherKind), ("a", Refusal::KeyNotFound), ("", Refusal::KeyNotFound)] {
        assert_eq!(listed(&image, key), [Err(why)]);
    }
    assert_eq!(open(&image).children(b"a\xE9").collect::<Vec<_>>(), [Err(Refusal::KeyNotUtf8 { at: 1 })]);
    let item = record(&image, "a/");
    let (start, end) = (word(&image, item + 16), word(&image, item + 20));
    let broken = [
        (start + 1, end, Refusal::Misaligned),
        (end + 1, end, Refusal::PointerOutside),
        (start, 1 << 30, Refusal::PointerOutside),
        (start, end - 1, Refusal::OtherKind),
    ];
    for (start, end, why) in broken {
        let mut image = image.clone();
        put(&mut image, item + 16, start);
        put(&mut image, item + 20, end);
        assert_eq!(listed(&image, "a/"), [Err(why)]);
        let entry = open(&image).entries().find(|entry| entry.key == Ok("a/".to_string())).unwrap();
        assert_eq!(entry.item.err(), Some(why));
    }
}

/// 10, 13 and 9 of a child: the others are listed.
#[test]
fn a_child_that_is_refused_is_passed_over() {
    let image = wood();
    let whole = listed(&image, "a/");
    let list = word(&image, record(&image, "a/") + 16) as usize;
    let items = open(&image).len() as u32;
    for (damage, why) in [(0, Refusal::ParentOutside), (1, Refusal::OtherKind), (2, Refusal::FragmentNotUtf8 { at: 0 }), (3, Refusal::PointerOutside)] {
        let mut image = image.clone();
        let child = record(&image, "a/b/");
        match damage {
            0 => put(&mut image, list + 4, items),
            1 => image.bytes[child + 14] = b'x',
            2 => {
                let fragment = word(&image, child + 8) as usize;
                image.bytes[fragment] = 0xE9;
            }
            _ => put(&mut image, child + 8, 1 << 30),
        }
        assert_eq!(listed(&image, "a/"), [whole[0].clone(), Err(why), whole[2].clone()]);
        assert!(open(&image).check().is_err());
    }
}

#[test]
fn an_item_of_an_unknown_kind_is_no_container() {
    let mut image = wood();
    let item = record(&image, "a/b/");
    image.bytes[item + 14] = b'x';
    let entries: Vec<_> = open(&image).entries().collect();
    let of = |key: &str| entries.iter().find(|entry| entry.key == Ok(key.to_string())).unwrap();
    assert!(matches!(of("a/b/").item, Err(Refusal::OtherKind)));
    assert!(matches!(of("a/").item, Ok(Item::Container)));
    assert_eq!(listed(&image, "a/b/"), [Err(Refusal::OtherKind)]);
}
