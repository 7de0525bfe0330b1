//! Every limit of the builder from both sides, and a container that is replaced: calls with their answers beside them, which all three have to give. Where gvdb-rs has
//! no such limit it is shown to go on.

use crate::building::{Answer, Call, State};
use crate::document::{Form, Laid};
use crate::ffi::{MAX_FILE, MAX_FILTER_WORDS, MAX_ITEMS, MAX_KEY, MAX_NESTING, MAX_TABLES};
use crate::lent::File;
use crate::tally::{Outcome, Tally, Who};
use crate::theirs;

/// A builder with so much room, three times.
struct Limit<'t> {
    state: State,
    tally: &'t mut Tally,
}

fn new_table(separator: &[u8]) -> Call {
    Call::NewTable(separator.to_vec())
}

fn insert(table: u32, key: impl AsRef<[u8]>, value: &[u8]) -> Call {
    Call::Insert(table, key.as_ref().to_vec(), value.to_vec())
}

fn insert_table(table: u32, guest: u32) -> Call {
    Call::InsertTable(table, b"t".to_vec(), guest)
}

impl Limit<'_> {
    fn room(room: usize, tally: &mut Tally) -> Limit<'_> {
        Limit { state: State::fresh(room), tally }
    }

    /// A call and its answer.
    fn is(&mut self, call: Call, answer: Answer) -> Outcome {
        let ours = self.state.step(&call, self.tally)?;
        self.tally.same(Who::Document, "limits", &ours, &answer, || call.describe())
    }

    /// A write in both forms.
    fn write(&mut self, table: u32, answer: Answer) -> Outcome {
        Form::BOTH.into_iter().try_for_each(|form| self.is(Call::Write(table, form.into()), answer))
    }

    /// A call that is refused here, and that gvdb-rs takes.
    fn only_here(&mut self, call: Call, number: u32) -> Outcome {
        self.is(call.clone(), Err(number))?;
        let (rust, text) = (&mut self.state.rust, |key| String::from_utf8(key).expect("text"));
        let taken = match call {
            Call::NewTable(separator) => {
                rust.new_table(&separator);
                Ok(0)
            }
            Call::Insert(table, key, value) => rust.insert(table as usize, &text(key), &value),
            Call::InsertTable(table, key, guest) => rust.insert_table(table as usize, &text(key), guest as usize),
            Call::Count(_) | Call::Write(..) => panic!("no call that changes"),
        };
        self.tally.same(Who::Rust, "no limit", &taken.is_ok(), &true, || format!("{taken:?}"))
    }

    /// Each image is read by all three, and asked for some keys that it has not.
    fn read(self) -> Outcome {
        for mut image in self.state.images {
            image.keys.extend([&b""[..], b"a", b"one more"].map(<[u8]>::to_vec));
            image.compare(self.tally)?;
        }
        Ok(())
    }
}

/// Over 65,535 bytes gvdb-rs cuts a key's length to sixteen bits, and finds it under neither form.
fn key_bytes(tally: &mut Tally) -> Outcome {
    let mut limit = Limit::room(1 << 18, tally);
    let key = |size: usize| "k".repeat(size);
    limit.is(new_table(b""), Ok(0))?;
    limit.is(insert(0, key(MAX_KEY), b"v"), Ok(0))?;
    limit.is(insert(0, b"\xc3", b"v"), Err(8))?;
    limit.is(insert(1, "a", b"v"), Err(24))?;
    limit.write(0, Ok(0))?;
    for size in [MAX_KEY + 1, 65_535, 65_536, 65_537] {
        limit.only_here(insert(0, key(size), b"v"), 20)?;
    }
    let there = File::new(&limit.state.rust.write(0).expect("an image"));
    let found = |key: &str| theirs::with_root(there.bytes(), |opened| theirs::get(there.bytes(), opened.expect("opens"), key).err().map(|why| why.number));
    assert_eq!((found(&key(MAX_KEY + 1)), found(&key(65_537)), found("k")), (None, Some(12), Some(12)));
    limit.read()
}

fn items(tally: &mut Tally) -> Outcome {
    let mut limit = Limit::room(1 << 18, tally);
    limit.is(new_table(b""), Ok(0))?;
    for index in 0..MAX_ITEMS {
        limit.is(insert(0, index.to_string(), b"v"), Ok(0))?;
    }
    limit.is(insert(0, "7", b"w"), Ok(118))?;
    limit.is(Call::Count(0), Ok(MAX_ITEMS as u32))?;
    limit.write(0, Ok(0))?;
    limit.only_here(insert(0, "one more", b"v"), 22)?;
    limit.read()
}

/// An item that is replaced again and again is one.
fn items_replaced(tally: &mut Tally) -> Outcome {
    let mut limit = Limit::room(4096, tally);
    limit.is(new_table(b""), Ok(0))?;
    for index in 0..MAX_ITEMS + 6 {
        limit.is(insert(0, "a", b"v"), Ok(if index == 0 { 0 } else { 118 }))?;
    }
    limit.is(Call::Count(0), Ok(1))
}

fn arena(tally: &mut Tally) -> Outcome {
    let mut limit = Limit::room(6, tally);
    limit.is(new_table(b"/"), Ok(0))?;
    limit.only_here(insert(0, "a/b", b"12"), 23)?;
    limit.is(insert(0, "a/b", b"1"), Ok(0))?;
    limit.is(insert(0, "a/b", b""), Ok(118))?;
    limit.only_here(insert(0, "a/b", b"2"), 23)?;
    let mut none = Limit::room(0, tally);
    none.is(new_table(b""), Ok(0))?;
    none.is(insert(0, "a", b""), Err(23))?;
    none.is(insert(0, "", b""), Ok(0))?;
    none.write(0, Err(30))
}

fn tables(tally: &mut Tally) -> Outcome {
    let mut limit = Limit::room(64, tally);
    for separator in [&b"\x00"[..], b"\x80", b"ab", b"\xff"] {
        limit.is(new_table(separator), Err(28))?;
    }
    for table in 0..MAX_TABLES as u32 {
        limit.is(new_table(if table % 2 == 0 { b"\x01" } else { b"\x7f" }), Ok(table))?;
    }
    limit.is(new_table(b"ab"), Err(28))?;
    limit.only_here(new_table(b""), 27)
}

/// A chain of tables, each in the next: the highest can be written, and put nowhere until a value stands in place of what it holds.
fn nesting(tally: &mut Tally) -> Outcome {
    const NEXT: u32 = MAX_NESTING as u32;
    let mut limit = Limit::room(4096, tally);
    for table in 0..NEXT + 3 {
        limit.is(new_table(b""), Ok(table))?;
    }
    limit.is(insert_table(0, 0), Err(25))?;
    for table in 1..NEXT {
        limit.is(insert_table(table, table - 1), Ok(0))?;
    }
    limit.is(insert(3, "x", b"v"), Err(24))?;
    limit.is(insert_table(NEXT, 3), Err(24))?;
    limit.is(Call::Count(3), Ok(1))?;
    limit.write(NEXT - 1, Ok(0))?;
    limit.only_here(insert_table(NEXT, NEXT - 1), 26)?;
    assert!(limit.state.rust.write(MAX_NESTING).is_ok());
    limit.is(insert(NEXT - 1, "t", b"v"), Ok(72))?;
    limit.is(insert_table(NEXT, NEXT - 1), Ok(0))?;
    limit.write(NEXT - 1, Err(24))?;
    limit.write(NEXT, Ok(0))?;
    limit.read()
}

fn containers(tally: &mut Tally) -> Outcome {
    let mut limit = Limit::room(4096, tally);
    limit.is(new_table(b"/"), Ok(0))?;
    for key in ["a/b", "a/c", "/a//b", "a/d/e"] {
        limit.is(insert(0, key, key.as_bytes()), Ok(0))?;
    }
    limit.is(insert(0, "a/", b"now a value"), Ok(76))?;
    limit.is(insert(0, "a/z", b""), Err(21))?;
    limit.is(insert(0, "a/b", b"again"), Err(21))?;
    limit.write(0, Ok(0))?;
    limit.read()
}

/// An image of just the longest length, and one byte more; an empty key comes before that, deep in a nest too.
fn image_bytes(tally: &mut Tally) -> Outcome {
    let mut limit = Limit::room(2 * MAX_FILE, tally);
    for table in 0..3 {
        limit.is(new_table(b""), Ok(table))?;
    }
    limit.is(insert(0, "a", &vec![7; MAX_FILE - 64]), Ok(0))?;
    limit.write(0, Ok(0))?;
    assert_eq!(limit.state.images[0].file.len(), MAX_FILE);
    limit.is(insert(0, "a", &vec![7; MAX_FILE - 63]), Ok(118))?;
    limit.write(0, Err(31))?;
    assert_eq!(limit.state.rust.write(0).map(|image| image.len()), Ok(MAX_FILE + 1));
    limit.is(insert(2, "", b""), Ok(0))?;
    limit.is(insert_table(1, 2), Ok(0))?;
    limit.is(insert_table(0, 1), Ok(0))?;
    limit.write(0, Err(30))?;
    limit.write(1, Err(24))?;
    limit.write(3, Err(24))?;
    limit.read()
}

/// A nest of tables with none, few and all filter words that may be, and with more: 33 comes behind 24 and before 30.
fn filter_words(tally: &mut Tally) -> Outcome {
    const MOST: u32 = MAX_FILTER_WORDS as u32;
    let mut limit = Limit::room(4096, tally);
    limit.is(new_table(b"/"), Ok(0))?;
    limit.is(new_table(b""), Ok(1))?;
    for (table, key) in [(0, "a/b"), (0, "a/\u{e9}"), (0, "parcel/12/year"), (1, "x"), (1, "\u{e9}")] {
        limit.is(insert(table, key, key.as_bytes()), Ok(0))?;
    }
    limit.is(insert_table(0, 1), Ok(0))?;
    let mut write = |table: u32, filter: u32, answer| Form::BOTH.into_iter().try_for_each(|form| limit.is(Call::Write(table, Laid { form, filter }), answer));
    [0, 1, 2, 3, 32, MOST].into_iter().try_for_each(|filter| write(0, filter, Ok(0)))?;
    for filter in [MOST + 1, u32::MAX] {
        write(0, filter, Err(33))?;
        write(1, filter, Err(24))?;
        write(2, filter, Err(24))?;
    }
    limit.is(insert(0, "", b""), Ok(0))?;
    limit.is(Call::Write(0, Laid { form: Form::Plain, filter: MOST + 1 }), Err(33))?;
    limit.is(Call::Write(0, Laid { form: Form::Plain, filter: MOST }), Err(30))?;
    limit.read()
}

pub fn show(tally: &mut Tally) -> Outcome {
    let limits = [key_bytes, items, items_replaced, arena, tables, nesting, containers, filter_words, image_bytes];
    limits.iter().try_for_each(|limit| limit(tally))
}
