//! The questions of the oracle's lists, for all three.

#[path = "../../tests/outside/stored.rs"]
mod lists;

use crate::building::{Call, History};
use crate::document::Form;
use crate::reading::Case;
use lists::unhex;

/// Room that no list uses up.
const ROOM: usize = 1 << 17;

fn number(word: &str) -> u32 {
    word.parse().expect("a number")
}

/// A call on a builder, if the command is one.
fn call(words: &[&str]) -> Option<Call> {
    Some(match *words {
        ["new", "none"] => Call::NewTable(Vec::new()),
        ["new", separator] => Call::NewTable(unhex(separator)),
        ["insert", table, key, value] => Call::Insert(number(table), unhex(key), unhex(value)),
        ["inserttable", table, key, guest] => Call::InsertTable(number(table), unhex(key), number(guest)),
        ["write", table] => Call::Write(number(table), Form::Plain.into()),
        _ => return None,
    })
}

/// The histories of a list, and the tables that it reads, each with the keys that are looked up in it one after another.
pub fn read(list: &str) -> (Vec<History>, Vec<Case>) {
    let fresh = || History { room: ROOM, calls: Vec::new() };
    let (mut histories, mut cases): (_, Vec<Case>) = (vec![fresh()], Vec::new());
    lists::walk(list, |words, file| match *words {
        ["reset"] => histories.push(fresh()),
        ["open" | "get" | "gettable" | "keys" | "values", start, end, ref keys @ ..] => {
            let (start, end) = (number(start), number(end));
            if cases.last().is_none_or(|case| (&case.file[..], case.start, case.end) != (file, start, end)) {
                cases.push(Case { file: file.to_vec(), start, end, keys: Vec::new() });
            }
            cases.last_mut().expect("pushed").keys.extend(keys.iter().map(|key| unhex(key)));
        }
        _ => histories.last_mut().expect("one at least").calls.extend(call(words)),
    });
    (histories, cases)
}
