//! Histories of builder calls, answered by all three; the images that they write, with the header of both byte orders, byte for byte from 0.

use crate::dice::Dice;
use crate::document::build as document;
use crate::document::build::Held;
use crate::document::{Form, Laid, Lookup, Manner};
use crate::ffi::{memory_words, MAX_FILE, MAX_ITEMS, MAX_NESTING, MAX_TABLES};
use crate::filters;
use crate::lent::Memory;
use crate::make;
use crate::ours;
use crate::reading::{hex, Case};
use crate::signed;
use crate::tally::{number, Difference, Outcome, Tally, Who};
use crate::theirs;

/// The value of a call's answer, 0 for a write, or the number of a refusal.
pub type Answer = Result<u32, u32>;

#[derive(Clone, Debug)]
pub enum Call {
    NewTable(Vec<u8>),
    Insert(u32, Vec<u8>, Vec<u8>),
    InsertTable(u32, Vec<u8>, u32),
    Count(u32),
    Write(u32, Laid),
}

impl Call {
    pub fn describe(&self) -> String {
        match self {
            Call::NewTable(separator) => format!("new table, separator [{}]", hex(separator)),
            Call::Insert(table, key, value) => format!("insert into {table}: [{}] = [{}]", hex(key), hex(value)),
            Call::InsertTable(table, key, guest) => format!("insert table into {table}: [{}] = {guest}", hex(key)),
            Call::Count(table) => format!("count {table}"),
            Call::Write(table, laid) => format!("write {table} {laid:?}"),
        }
    }
}

/// A builder's room and the calls on it.
#[derive(Clone)]
pub struct History {
    pub room: usize,
    pub calls: Vec<Call>,
}

fn separator(dice: &Dice) -> Vec<u8> {
    match dice.below(40) {
        0 => dice.pick(&[&b"\0"[..], b"\x80", b"ab", b"\xff", b"//"]).to_vec(),
        1 => vec![1],
        2 => vec![127],
        3..=5 => b"a".to_vec(),
        6..=12 => Vec::new(),
        _ => b"/".to_vec(),
    }
}

impl History {
    pub fn random(dice: &Dice) -> History {
        let room = match dice.below(6) {
            0 => dice.below(60),
            1 => dice.below(400),
            _ => 1 << 17,
        };
        let many = dice.one_in(150);
        let length = if many { MAX_ITEMS + 376 } else { 2 + dice.below(*dice.pick(&[4, 10, 40])) };
        let mut history = History { room, calls: vec![Call::NewTable(separator(dice))] };
        let (mut tables, mut keys) = (1, Vec::new());
        let crowd = if dice.one_in(200) { MAX_TABLES + 6 } else { 4 };
        for _ in 0..length {
            let table = dice.below(tables + usize::from(dice.one_in(30))) as u32;
            let call = match dice.below(if many { 100 } else { 24 }) {
                0 | 1 if tables < crowd => {
                    tables += 1;
                    Call::NewTable(separator(dice))
                }
                2..=4 => Call::InsertTable(table, make::key(dice, Some(b'/'), &keys), dice.below(tables + 1) as u32),
                5 => Call::Write(table, make::laid(dice)),
                6 => Call::Count(table),
                _ => {
                    let size = *dice.pick(&[0, 0, 1, 2, 3, 7, 8, 9, 40]);
                    Call::Insert(table, fresh_key(dice, many, &keys), dice.bytes(size))
                }
            };
            if let Call::Insert(_, key, _) | Call::InsertTable(_, key, _) = &call {
                keys.push(key.clone());
            }
            history.calls.push(call);
        }
        history.calls.extend((0..tables as u32).flat_map(|table| written(dice, table)));
        history
    }

    /// A chain of tables that each hold the one before, as deep as is allowed and deeper.
    pub fn deep(dice: &Dice) -> History {
        const DEEP: u32 = MAX_NESTING as u32 + 2;
        let mut calls = vec![Call::NewTable(separator(dice))];
        for table in 1..DEEP {
            let size = dice.below(3);
            calls.push(Call::Insert(table - 1, make::key(dice, None, &[]), dice.bytes(size)));
            calls.push(Call::NewTable(separator(dice)));
            calls.push(Call::InsertTable(table, make::key(dice, Some(b'/'), &[]), table - 1));
            if dice.one_in(3) {
                calls.push(Call::Write(table, make::laid(dice)));
            }
        }
        calls.extend((0..DEEP).flat_map(|table| written(dice, table)));
        History { room: 1 << 17, calls }
    }

    pub fn describe(&self) -> String {
        format!("room {}: {}", self.room, described(&self.calls))
    }

    /// Answers the images that were written, for the runs of reading.
    pub fn compare(&self, tally: &mut Tally) -> Result<Vec<Case>, Difference> {
        let mut state = State::fresh(self.room);
        for call in &self.calls {
            let _answer = state.step(call, tally)?;
        }
        Ok(state.images)
    }
}

/// A table written in both forms, and once with filter words or without.
fn written(dice: &Dice, table: u32) -> [Call; 3] {
    [Form::Plain.into(), Form::Signed.into(), make::laid(dice)].map(|laid| Call::Write(table, laid))
}

pub fn described(calls: &[Call]) -> String {
    calls.iter().map(Call::describe).collect::<Vec<_>>().join("; ")
}

/// In a long history most keys are new.
fn fresh_key(dice: &Dice, many: bool, keys: &[Vec<u8>]) -> Vec<u8> {
    if many {
        return format!("{}/{}", dice.below(20), dice.below(5000)).into_bytes();
    }
    make::key(dice, Some(b'/'), keys)
}

/// The same builder three times, of gvdb-rs once for each form.
pub struct State {
    memory: Memory,
    paper: document::Builder,
    pub rust: theirs::Builder,
    signed: signed::Builder,
    pub images: Vec<Case>,
}

impl State {
    pub fn fresh(room: usize) -> State {
        let mut memory = Memory::new(&vec![0x5A5A_5A5A; memory_words() + room % 3], &vec![0xC3; room]);
        assert_eq!(memory.fresh(), 0);
        State { memory, paper: document::Builder::fresh(room), rust: theirs::Builder::default(), signed: signed::Builder::default(), images: Vec::new() }
    }

    /// One call; a refusal is held to change nothing.
    pub fn step(&mut self, call: &Call, tally: &mut Tally) -> Result<Answer, Difference> {
        let before = self.memory.clone();
        let ours = self.ask(call, tally).map_err(|mut difference| {
            difference.question = format!("{} ({})", difference.question, call.describe());
            difference
        })?;
        tally.number(ours.err().unwrap_or(0));
        let reads = matches!(call, Call::Count(_) | Call::Write(..));
        assert!((ours.is_ok() && !reads) || self.memory == before, "a refusal, a count or a write changed the builder");
        Ok(ours)
    }

    fn ask(&mut self, call: &Call, tally: &mut Tally) -> Result<Answer, Difference> {
        match call {
            Call::NewTable(separator) => self.new_table(separator, tally),
            Call::Insert(table, key, value) => self.insert(*table, key, value, tally),
            Call::InsertTable(table, key, guest) => self.insert_table(*table, key, *guest, tally),
            Call::Count(table) => self.count(*table, tally),
            Call::Write(table, laid) => self.write(*table, *laid, tally),
        }
    }

    fn new_table(&mut self, separator: &[u8], tally: &mut Tally) -> Result<Answer, Difference> {
        let (ours, paper) = (self.memory.new_table(separator), self.paper.new_table(separator));
        tally.same(Who::Document, "new table", &ours, &paper.map(|table| table as u32), String::new)?;
        if ours.is_ok() {
            self.rust.new_table(separator);
            self.signed.new_table(separator);
        }
        Ok(ours)
    }

    fn insert(&mut self, table: u32, key: &[u8], value: &[u8], tally: &mut Tally) -> Result<Answer, Difference> {
        let (ours, paper) = (self.memory.insert(table, key, value), self.paper.insert(table, key, value));
        tally.same(Who::Document, "insert", &ours, &paper, String::new)?;
        let ours = ours.map_err(|why| why.number);
        if ours.is_ok() || ours == Err(21) {
            let text = std::str::from_utf8(key).expect("accepted");
            let rust = [self.rust.insert(table as usize, text, value), self.signed.insert(table as usize, text, value)];
            self.with_rust("insert", table, ours, rust, tally)?;
        }
        Ok(ours)
    }

    fn insert_table(&mut self, table: u32, key: &[u8], guest: u32, tally: &mut Tally) -> Result<Answer, Difference> {
        let (ours, paper) = (self.memory.insert_table(table, key, guest), self.paper.insert_table(table, key, guest));
        tally.same(Who::Document, "insert table", &ours, &paper, String::new)?;
        let ours = ours.map_err(|why| why.number);
        if ours.is_ok() || ours == Err(21) {
            let text = std::str::from_utf8(key).expect("accepted");
            let rust = [self.rust.insert_table(table as usize, text, guest as usize), self.signed.insert_table(table as usize, text, guest as usize)];
            self.with_rust("insert table", table, ours, rust, tally)?;
        }
        Ok(ours)
    }

    /// gvdb-rs says nothing of what was replaced; its item count is compared, or 21.
    fn with_rust(&mut self, kind: &'static str, table: u32, ours: Answer, rust: [Answer; 2], tally: &mut Tally) -> Outcome {
        let counted = ours.and_then(|_| self.memory.item_count(table));
        Form::BOTH.into_iter().zip(rust).try_for_each(|(form, rust)| tally.same(Who::rust(form), kind, &counted, &rust, || "count or refusal".into()))
    }

    fn count(&mut self, table: u32, tally: &mut Tally) -> Result<Answer, Difference> {
        let (ours, paper) = (self.memory.item_count(table), self.paper.item_count(table));
        tally.same(Who::Document, "item count", &ours, &paper, String::new)?;
        Ok(ours)
    }

    /// A write into a buffer with room to spare, one that just fits and one a byte too short. Of an image over the limit gvdb-rs's is only measured. With filter
    /// words it is gvdb-rs's with the words laid in.
    fn write(&mut self, table: u32, laid: Laid, tally: &mut Tally) -> Result<Answer, Difference> {
        let paper = self.paper.write(table, laid.filter);
        let rust = match (paper, laid.form) {
            (Err(number @ (24 | 33)), _) => Err(number),
            (_, Form::Plain) => self.rust.write(table as usize),
            (_, Form::Signed) => self.signed.write(table as usize),
        };
        let rust = rust.map(|file| filters::with_words(file, laid.filter));
        let room = rust.as_ref().map_or(64, Vec::len);
        let expected = paper.and(if room > MAX_FILE { Err(31) } else { Ok(room) });
        let ours = self.memory.write(table, room + 40, laid);
        let length = ours.as_ref().map(|(image, _)| image.len()).map_err(|number| *number);
        tally.same(Who::Document, "write", &length, &expected, String::new)?;
        if let Err(24 | 31 | 33) = expected {
            return Ok(expected.map(|_| 0));
        }
        let (image, end) = match ours {
            Ok(written) => written,
            Err(number) => {
                tally.same(Who::rust(laid.form), "file", &Err(number), &rust, String::new)?;
                return Ok(Err(number));
            }
        };
        assert!(image[..24].iter().all(|byte| *byte == 0), "the header is not zero");
        self.files(table, &image, end, laid, rust, tally)?;
        assert!(self.memory.write(table, room, laid) == Ok((image.clone(), end)), "a second write differs");
        tally.number(31);
        tally.same(Who::Document, "write", &self.memory.write(table, room - 1, laid).map(|_| ()), &Err(31), || "a byte too few".into())?;
        let keys = self.reads_back(&image, 24, end, table as usize, laid.form.into(), tally)?;
        self.reads_back(&image, 24, end, table as usize, Manner { form: laid.form, lookup: Lookup::Strict }, tally)?;
        self.images.push(Case { file: image, start: 24, end, keys });
        Ok(Ok(0))
    }

    /// The file of an image, little endian and big, beside gvdb-rs's; its header reads back.
    fn files(&self, table: u32, image: &[u8], end: u32, laid: Laid, rust: Result<Vec<u8>, u32>, tally: &mut Tally) -> Outcome {
        let big = match laid.form {
            Form::Plain => self.rust.write_big(table as usize),
            Form::Signed => self.signed.write_big(table as usize),
        };
        let big = big.map(|file| filters::with_words(file, laid.filter));
        let who = if laid.filter == 0 { Who::rust(laid.form) } else { Who::Document };
        for (big, theirs) in (0..).zip([rust, big]) {
            let (number, file) = ours::lay_header(image, big, 24, end);
            tally.same(Who::Document, "lay header", &number, &0, || format!("table {table}, big {big}"))?;
            tally.same(Who::Document, "header", &ours::header(&file), &Ok((big, 24, end)), || format!("table {table}, big {big}"))?;
            tally.same(who, if laid.filter == 0 { "file" } else { "file with filter words" }, &Ok(file), &theirs, || format!("table {table}, big {big}"))?;
        }
        Ok(())
    }

    /// Each item of a table is found in the image as the builder holds it, nested ones too, and the tables pass the check.
    fn reads_back(&self, image: &[u8], start: u32, end: u32, table: usize, manner: Manner, tally: &mut Tally) -> Result<Vec<Vec<u8>>, Difference> {
        tally.same(Who::Document, "image passes", &ours::check(image, start, end, manner), &Ok(None), String::new)?;
        let items = &self.paper.tables[table].items;
        for (key, held) in items {
            let place = ours::get(image, start, end, key, manner);
            let found = match place {
                Ok((from, to)) => Ok(Held::Value(image[from as usize..to as usize].to_vec())),
                Err(_) => Err(number(&place)),
            };
            let expected = if matches!(held, Held::Value(_)) { Ok(held.clone()) } else { Err(13) };
            tally.same(Who::Document, "image reads back", &found, &expected, || hex(key))?;
            if let Held::Table(guest) = held {
                let nested = ours::get_table(image, start, end, key, manner);
                tally.same(Who::Document, "image reads back", &nested.is_ok(), &true, || hex(key))?;
                let (from, to) = nested.expect("compared");
                self.reads_back(image, from, to, *guest, manner, tally)?;
            }
        }
        Ok(items.keys().take(40).cloned().collect())
    }
}
