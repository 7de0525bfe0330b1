//! Both forms of the hash: what is laid in one is looked up and checked in it, nested tables and containers too.

use gvdb::{Builder, ByteOrder, Child, Form, Header, Image, Inserted, Item, Kind, Refusal, Table, TableNumber, Unsound};

/// "café/ä" and "café/b" in the root, and under "forêt" a table with "chêne" and a container "é/" with "x".
fn woods() -> (Builder, TableNumber) {
    let mut builder = Builder::new(4096);
    let (root, guest) = (builder.new_table(Some(b'/')).unwrap(), builder.new_table(Some(b'/')).unwrap());
    for (table, key) in [(root, "café/ä"), (root, "café/b"), (guest, "chêne"), (guest, "é/x")] {
        assert_eq!(builder.insert(table, key, key), Ok(Inserted::New));
    }
    assert_eq!(builder.insert_table(root, "forêt", guest), Ok(Inserted::New));
    (builder, root)
}

fn open(image: &Image, form: Form) -> Table<'_> {
    Table::open(&image.bytes, image.root.start, image.root.end).unwrap().with_form(form)
}

/// Every item of a table and of those nested in it: its key, with whether it opens and its table is sound.
fn items(table: &Table, found: &mut Vec<(String, bool)>) {
    assert_eq!(table.tables().count(), table.entries().filter(|entry| matches!(entry.item, Ok(Item::Table(_)))).count());
    for entry in table.entries() {
        let sound = table.check().is_ok() && entry.item.is_ok();
        found.push((entry.key.unwrap(), sound));
        if let Ok(Item::Table(nested)) = entry.item {
            assert_eq!(nested.form(), table.form());
            items(&nested, found);
        }
    }
}

#[test]
fn nested_tables_keep_the_form() {
    let (mut builder, root) = woods();
    for form in Form::BOTH {
        let image = builder.write_as(root, form).unwrap();
        let table = open(&image, form);
        let mut found = Vec::new();
        items(&table, &mut found);
        found.sort();
        assert_eq!(found, ["café/", "café/b", "café/ä", "chêne", "forêt", "é/", "é/x"].map(|key| (key.to_string(), true)));
        assert_eq!((table.get("café/ä"), table.form()), (Ok("café/ä".as_bytes()), form));
        let nested = table.get_hash_table("forêt").unwrap();
        assert_eq!((nested.get("chêne"), nested.check()), (Ok("chêne".as_bytes()), Ok(())));
        let children: Vec<Child> = nested.children("é/").map(Result::unwrap).collect();
        assert_eq!(children.iter().map(|child| (child.kind, child.fragment)).collect::<Vec<_>>(), [(Kind::Value, "x")]);
    }
}

#[test]
fn the_other_form_does_not_find_it() {
    let (mut builder, root) = woods();
    for (laid, asked) in [(Form::Plain, Form::Signed), (Form::Signed, Form::Plain)] {
        let image = builder.write_as(root, laid).unwrap();
        let table = open(&image, asked);
        assert_eq!((table.get("café/ä"), table.get_table("forêt").err()), (Err(Refusal::KeyNotFound), Some(Refusal::KeyNotFound)));
        assert_eq!(table.children("café/").collect::<Vec<_>>(), [Err(Refusal::KeyNotFound)]);
        assert!(matches!(table.check(), Err(Unsound { rule: 2, why: None, .. })));
        let mut keys: Vec<String> = table.keys().map(Result::unwrap).collect();
        keys.sort();
        assert_eq!(keys, ["café/", "café/b", "café/ä", "forêt"]);
        assert_eq!(table.with_form(laid).check(), Ok(()));
    }
}

/// A builder has no form: it is as it was behind each write, and keys below 128 are laid alike.
#[test]
fn one_builder_is_written_in_both() {
    let (mut builder, root) = woods();
    let before = builder.clone();
    let [plain, signed] = Form::BOTH.map(|form| builder.write_as(root, form).unwrap());
    assert!(plain != signed && builder == before);
    assert_eq!((builder.write(root), builder.write_as(root, Form::Signed)), (Ok(plain), Ok(signed.clone())));
    let file = signed.clone().into_file(ByteOrder::Big).unwrap();
    assert_eq!((Header::read(&file), &file[24..]), (Ok(Header { order: ByteOrder::Big, root: signed.root }), &signed.bytes[24..]));

    let mut builder = Builder::new(4096);
    let root = builder.new_table(Some(b'/')).unwrap();
    for key in ["cafe/a", "\u{7f}", "foret"] {
        assert_eq!(builder.insert(root, key, "é"), Ok(Inserted::New));
    }
    let [plain, signed] = Form::BOTH.map(|form| builder.write_as(root, form).unwrap());
    assert_eq!(plain, signed);
    assert!(Form::BOTH.iter().all(|form| open(&plain, *form).check().is_ok() && open(&plain, *form).get("\u{7f}").is_ok()));
}
