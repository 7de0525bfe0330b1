//! One table over another: whose answer stands, and in which file a value lies.

use gvdb::{Builder, Form, Image, Inserted, Layered, Refusal, Source, Table};

/// An image of one table, whose keys are their own values; one that ends in `!` is a nested table's, without the mark.
fn laid(keys: &[&str], form: Form) -> Image {
    let mut builder = Builder::new(4096);
    let root = builder.new_table(Some(b'/')).unwrap();
    for key in keys {
        let made = match key.strip_suffix('!') {
            None => builder.insert(root, key, key),
            Some(key) => {
                let guest = builder.new_table(None).unwrap();
                builder.insert_table(root, key, guest)
            }
        };
        assert_eq!(made, Ok(Inserted::New));
    }
    builder.write_as(root, form).unwrap()
}

fn open(image: &Image) -> Table<'_> {
    Table::open(&image.bytes, image.root.start, image.root.end).unwrap()
}

/// Whether an answered slice lies in the bytes of a file, by its address.
fn lies_in(value: &[u8], file: &[u8]) -> bool {
    let (file, value) = (file.as_ptr_range(), value.as_ptr_range());
    file.start <= value.start && value.end <= file.end
}

fn owner<'a>(value: Result<&'a [u8], Refusal>) -> Layered<'a> {
    Layered { from: Source::Owner, value }
}

fn district<'a>(value: Result<&'a [u8], Refusal>) -> Layered<'a> {
    Layered { from: Source::District, value }
}

#[test]
fn the_owner_is_asked_first_and_12_alone_hands_on() {
    let (own, under) = (laid(&["both", "own", "table!", "a/b"], Form::Plain), laid(&["both", "under", "table", "a/"], Form::Plain));
    let (own, under) = (open(&own), open(&under));
    for (key, answer) in [
        ("own", owner(Ok(b"own"))),
        ("both", owner(Ok(b"both"))),
        ("under", district(Ok(b"under"))),
        ("table", owner(Err(Refusal::OtherKind))),
        ("a/", owner(Err(Refusal::OtherKind))),
        ("none", district(Err(Refusal::KeyNotFound))),
    ] {
        assert_eq!(own.get_over(&under, key), answer, "{key}");
    }
    assert_eq!(own.get_over(&under, b"a\xFF"), owner(Err(Refusal::KeyNotUtf8 { at: 1 })));
    assert_eq!(under.get_over(&own, "table"), owner(Ok(b"table")));
}

#[test]
fn a_value_lies_in_the_file_that_the_mark_names() {
    let (own, under) = (laid(&["both", "own"], Form::Plain), laid(&["both", "under"], Form::Plain));
    for (key, from) in [("own", Source::Owner), ("both", Source::Owner), ("under", Source::District)] {
        let found = open(&own).get_over(&open(&under), key);
        let value = found.value.unwrap();
        assert_eq!(found.from, from, "{key}");
        assert_eq!((lies_in(value, &own.bytes), lies_in(value, &under.bytes)), (from == Source::Owner, from == Source::District), "{key}");
        assert_eq!(value, key.as_bytes());
    }
}

#[test]
fn both_may_be_one_file() {
    let image = laid(&["oak", "table!"], Form::Plain);
    let table = open(&image);
    assert_eq!(table.get_over(&table, "oak"), owner(Ok(b"oak")));
    assert_eq!(table.get_over(&table, "ash"), district(Err(Refusal::KeyNotFound)));
    assert_eq!(table.get_over(&table, "table"), owner(Err(Refusal::OtherKind)));
    let nested = table.get_table("table").unwrap();
    let found = nested.get_over(&table, "oak");
    assert!(found == district(Ok(b"oak")) && lies_in(found.value.unwrap(), &image.bytes));
}

#[test]
fn each_table_is_read_in_its_own_form() {
    let (own, under) = (laid(&["é"], Form::Signed), laid(&["ä"], Form::Plain));
    for (form, answer) in [(Form::Signed, owner(Ok("é".as_bytes()))), (Form::Plain, district(Err(Refusal::KeyNotFound)))] {
        assert_eq!(open(&own).with_form(form).get_over(&open(&under), "é"), answer);
    }
    for (form, answer) in [(Form::Plain, Ok("ä".as_bytes())), (Form::Signed, Err(Refusal::KeyNotFound))] {
        assert_eq!(open(&own).with_form(Form::Signed).get_over(&open(&under).with_form(form), "ä"), district(answer));
    }
}

#[test]
fn a_damaged_value_of_the_owner_stands() {
    let (mut own, under) = (laid(&["oak"], Form::Plain), laid(&["oak"], Form::Plain));
    own.bytes[52] += 1; // the start of the value, behind the table's words and the item's first 16 bytes
    assert_eq!(open(&own).get_over(&open(&under), "oak"), owner(Err(Refusal::Misaligned)));
    assert_eq!(open(&under).get_over(&open(&own), "oak"), owner(Ok(b"oak")));
}
