//! One table of one file, read by all three.

use crate::document::{read as document, Form, Manner};
use crate::lent::File;
use crate::ours;
use crate::signed;
use crate::tally::{number, Outcome, Tally, Who, Why};
use crate::theirs;
use gvdb::read::HashTable;

/// So many positions of a container are asked one by one, and the greatest.
const CHILDREN: usize = 12;

/// A file, the pointer to a table in it, and keys to ask for.
#[derive(Clone)]
pub struct Case {
    pub file: Vec<u8>,
    pub start: u32,
    pub end: u32,
    pub keys: Vec<Vec<u8>>,
}

pub fn hex(bytes: &[u8]) -> String {
    bytes.iter().map(|byte| format!("{byte:02x}")).collect()
}

impl Case {
    pub fn describe(&self) -> String {
        let file = if self.file.len() > 4096 { format!("{} ...", hex(&self.file[..4096])) } else { hex(&self.file) };
        format!("file of {} bytes, pointer {} to {}: {file}", self.file.len(), self.start, self.end)
    }

    /// The tables that items of this one hold, at most two.
    pub fn nested(&self) -> Vec<Case> {
        let Ok(table) = document::open(&self.file, self.start, self.end, Form::Plain) else { return Vec::new() };
        let held = (0..table.count).filter(|index| table.kind(*index) == b'H').take(2).map(|index| table.value(index));
        held.map(|(start, end)| Case { start, end, ..self.clone() }).collect()
    }

    /// The file starts with a header that gvdb-rs accepts, with the pointer as its root; no header fits into less than 24 bytes.
    pub fn with_header(&self) -> Vec<u8> {
        let mut file = self.file.clone();
        if file.len() >= 24 {
            file[..16].copy_from_slice(b"GVariant\0\0\0\0\0\0\0\0");
            file[16..20].copy_from_slice(&self.start.to_le_bytes());
            file[20..24].copy_from_slice(&self.end.to_le_bytes());
        }
        file
    }

    pub fn compare(&self, tally: &mut Tally) -> Outcome {
        let file = File::new(&self.with_header());
        let bytes = file.bytes();
        let keys = self.asked(bytes);
        self.opened_with_document(tally, bytes)?;
        let blooms = document::open(bytes, self.start, self.end, Form::Plain).map_or(0, |table| table.blooms);
        // without filter words there is nothing to be strict about
        let strict = Manner::STRICT.into_iter().filter(|_| blooms > 0);
        Form::BOTH.into_iter().map(Manner::from).chain(strict).try_for_each(|manner| self.with_document(tally, bytes, &keys, manner))?;
        if bytes.len() < 24 {
            tally.alone("files too short for a header", 1);
            return Ok(());
        }
        theirs::with_root(bytes, |opened| self.with_rust(tally, bytes, &keys, opened))?;
        Form::BOTH.into_iter().try_for_each(|form| self.lookups_with_rust(tally, bytes, &keys, form))?;
        self.at_odd_address(tally, bytes, &keys)?;
        assert!(bytes == self.with_header(), "a file that is only read has changed");
        Ok(())
    }

    /// The keys to ask for: those given, and some that the table lists.
    pub fn asked(&self, bytes: &[u8]) -> Vec<Vec<u8>> {
        let mut keys = self.keys.clone();
        if let Ok(table) = document::open(bytes, self.start, self.end, Form::Plain) {
            let step = table.count.div_ceil(24).max(1);
            keys.extend((0..table.count).step_by(step).filter_map(|index| table.key(index).ok()).filter(|key| key.len() < 5000));
        }
        keys
    }

    /// What looks at no hash.
    fn opened_with_document(&self, tally: &mut Tally, bytes: &[u8]) -> Outcome {
        let (start, end) = (self.start, self.end);
        let paper = document::open(bytes, start, end, Form::Plain);
        let parts = paper.as_ref().map(|table| (table.count as u32, table.buckets as u32, table.blooms as u32)).map_err(|number| *number);
        let ours = ours::open(bytes, start, end);
        tally.number(ours.err().unwrap_or(0));
        tally.same(Who::Document, "open", &ours, &parts, String::new)?;
        match paper {
            Ok(table) => self.lists_with_document(tally, bytes, &table),
            Err(number) => {
                tally.same(Who::Document, "keys", &ours::key(bytes, start, end, 0, 8), &Err(Why::from(number)), String::new)?;
                tally.same(Who::Document, "values", &crate::ffi::next_value(bytes, start, end, 0).number, &number, String::new)
            }
        }
    }

    /// The check, lookup of values and tables, and the children, in a manner.
    fn with_document(&self, tally: &mut Tally, bytes: &[u8], keys: &[Vec<u8>], manner: Manner) -> Outcome {
        let (start, end) = (self.start, self.end);
        let paper = document::open(bytes, start, end, manner);
        let check = ours::check(bytes, start, end, manner);
        match check {
            Ok(Some((rule, _, why))) => tally.rule(rule, why),
            Ok(None) => tally.number(0),
            Err(number) => tally.number(number),
        }
        tally.same(Who::Document, "check", &check, &paper.as_ref().map(|table| table.check()).map_err(|number| *number), String::new)?;
        for key in keys {
            let place = ours::get(bytes, start, end, key, manner);
            tally.number(number(&place));
            let other = paper.as_ref().map_err(|number| Why::from(*number));
            tally.same(Who::Document, "get", &place, &other.and_then(|table| table.get(key)), || hex(key))?;
            let nested = ours::get_table(bytes, start, end, key, manner);
            tally.number(number(&nested));
            tally.same(Who::Document, "get table", &nested, &other.and_then(|table| table.get_table(key)), || hex(key))?;
            self.children_with_document(tally, bytes, &paper, key, manner)?;
        }
        Ok(())
    }

    /// The child at the greatest position, which says whether the container is good, and then from the first on up to the one past the last.
    fn children_with_document(&self, tally: &mut Tally, bytes: &[u8], paper: &Result<document::Table, u32>, key: &[u8], manner: Manner) -> Outcome {
        let mut ask = |position: usize| {
            let ours = ours::child(bytes, self.start, self.end, key, position, manner);
            let other = paper.as_ref().map_err(|number| Why::from(*number)).and_then(|table| table.child(key, position));
            tally.number(number(&ours));
            tally.same(Who::Document, "children", &ours, &other, || format!("{} at {position}", hex(key))).map(|()| number(&ours))
        };
        let container = ask(usize::MAX)?;
        for position in 0..CHILDREN {
            if ask(position)? == 15 || container != 15 {
                break;
            }
        }
        Ok(())
    }

    /// Each key with room to spare, with room that just fits and with a byte too few; then the values.
    fn lists_with_document(&self, tally: &mut Tally, bytes: &[u8], table: &document::Table) -> Outcome {
        let ask = |index: usize, room: usize| ours::key(bytes, self.start, self.end, index, room);
        for index in 0..table.count {
            let key = table.key(index);
            let size = key.as_ref().map_or(0, Vec::len);
            let ours = ask(index, size + 16);
            tally.number(number(&ours));
            tally.same(Who::Document, "keys", &ours, &key, || format!("item {index}"))?;
            tally.same(Who::Document, "keys", &ask(index, size), &key, || format!("item {index}, exact room"))?;
            if size > 0 {
                tally.number(14);
                tally.same(Who::Document, "keys", &ask(index, size - 1), &Err(Why::from(14)), || format!("item {index}, a byte too few"))?;
            }
        }
        tally.number(15);
        tally.same(Who::Document, "keys", &ask(table.count, 64), &Err(Why::from(15)), || "past the last".into())?;
        tally.same(Who::Document, "keys", &ask(usize::MAX, 64), &Err(Why::from(15)), || "far past the last".into())?;
        tally.same(Who::Document, "values", &crate::ffi::next_value(bytes, self.start, self.end, usize::MAX).number, &15, || "far past the last".into())?;
        let values = ours::values(bytes, self.start, self.end);
        values.iter().for_each(|(_, place)| tally.number(number(place)));
        tally.same(Who::Document, "values", &values, &table.values(), String::new)
    }

    fn with_rust(&self, tally: &mut Tally, bytes: &[u8], keys: &[Vec<u8>], opened: Result<&HashTable<'_, '_>, u32>) -> Outcome {
        let ours = theirs::as_theirs(ours::open(bytes, self.start, self.end)).map(|(items, _, _)| items as usize);
        tally.same(Who::Rust, "open", &ours, &opened.map(|table| table.keys().len()), String::new)?;
        let Ok(table) = opened else { return Ok(()) };
        for (index, key) in theirs::keys(table).into_iter().enumerate() {
            let room = key.as_ref().map_or(0, Vec::len);
            tally.same(Who::Rust, "keys", &ours::key(bytes, self.start, self.end, index, room), &key, || format!("item {index}"))?;
        }
        let values: Vec<_> = ours::values(bytes, self.start, self.end).into_iter().map(|(_, place)| place).collect();
        tally.same(Who::Rust, "values", &values, &theirs::values(bytes, table), String::new)?;
        match document::open(bytes, self.start, self.end, Form::Plain) {
            Ok(paper) if ours::check(bytes, self.start, self.end, Form::Plain) == Ok(None) => self.joined(tally, bytes, keys, table, &paper),
            _ => Ok(()),
        }
    }

    /// Both lookups, as gvdb-rs makes them in the plain form and its copy in the signed one.
    fn lookups_with_rust(&self, tally: &mut Tally, bytes: &[u8], keys: &[Vec<u8>], form: Form) -> Outcome {
        let Ok(paper) = document::open(bytes, self.start, self.end, form) else { return Ok(()) };
        let mut texts = Vec::new();
        for key in keys {
            match std::str::from_utf8(key) {
                Err(_) => tally.alone("lookups of a key that is not UTF-8, which gvdb-rs cannot be given", 1),
                Ok(_) if paper.recurses(key) => tally.alone("lookups on which gvdb-rs recurses without end", 1),
                Ok(text) => texts.push(text),
            }
        }
        let answers = match form {
            Form::Plain => theirs::lookups(bytes, &texts),
            Form::Signed => signed::lookups(bytes, &texts),
        };
        assert_eq!(answers.len(), texts.len(), "a table that opens");
        for (text, [value, table]) in texts.into_iter().zip(answers) {
            let place = ours::get(bytes, self.start, self.end, text.as_bytes(), form);
            tally.same(Who::rust(form), "get", &place, &value, || hex(text.as_bytes()))?;
            let nested = theirs::place_as_theirs(ours::get_table(bytes, self.start, self.end, text.as_bytes(), form));
            tally.same(Who::rust(form), "get table", &nested, &table, || hex(text.as_bytes()))?;
        }
        Ok(())
    }

    /// In a sound table the container's key and a child's fragment, joined, are a key under which gvdb-rs finds that child.
    fn joined(&self, tally: &mut Tally, bytes: &[u8], keys: &[Vec<u8>], table: &HashTable<'_, '_>, paper: &document::Table) -> Outcome {
        for key in keys {
            for position in 0.. {
                let Ok((_, from, to, index)) = ours::child(bytes, self.start, self.end, key, position, Form::Plain) else { break };
                let joined = [key, &bytes[from as usize..to as usize]].concat();
                let text = std::str::from_utf8(&joined).expect("two texts");
                let found = theirs::item(table, text);
                tally.same(Who::Rust, "children", &Some(paper.record(index)), &found.as_ref().map(|item| &item[..]), || hex(&joined))?;
            }
        }
        Ok(())
    }

    /// The address of the file plays no part here; gvdb-rs refuses an odd one.
    fn at_odd_address(&self, tally: &mut Tally, bytes: &[u8], keys: &[Vec<u8>]) -> Outcome {
        let (start, end) = (self.start, self.end);
        let file = File::shifted(bytes, 1 + self.end as usize % 7);
        tally.same(Who::Document, "check", &ours::check(file.bytes(), start, end, Form::Signed), &ours::check(bytes, start, end, Form::Signed), || {
            "odd address".into()
        })?;
        if let Some(key) = keys.last() {
            let [odd, even] = [file.bytes(), bytes].map(|bytes| ours::get(bytes, start, end, key, Form::Plain));
            tally.same(Who::Document, "get", &odd, &even, || "odd address".into())?;
        }
        Ok(())
    }
}
