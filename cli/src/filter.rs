//! The filter of a table: how many words of it `--bloom` asks for, and the lookup that `--strict` names, which asks it for two bits.

use crate::args::Args;
use crate::failure::{Failure, UNREADABLE};
use crate::json::Json;
use crate::text;
use gvdb::{Lookup, Refusal, Table, Unsound, WriteOptions, MAX_FILTER_WORDS};

/// What rule 2 means where the strict lookup alone breaks it: of the two bits the Rust's asks for the first.
const HIDDEN: &str = "a lookup of its key finds it, but not the strict one: its second bit in the filter is not set";

/// The number that `--bloom` gives; 0 where it is not given.
pub fn words(args: &Args) -> Result<u32, Failure> {
    let Some(word) = args.value("--bloom") else { return Ok(0) };
    let number = word.to_str().filter(|word| !word.is_empty() && word.bytes().all(|byte| byte.is_ascii_digit()));
    let limit = text::grouped(MAX_FILTER_WORDS);
    let number = number.ok_or_else(|| Failure::usage(format!("--bloom is a number from 0 to {limit}; more filter words are refused (33)")))?;
    // A number that is too long to be held is too many too.
    match number.parse() {
        Ok(words) if words as usize <= MAX_FILTER_WORDS => Ok(words),
        _ => Err(Failure::refused(UNREADABLE, "--bloom", Refusal::TooManyFilterWords)),
    }
}

/// The lookup that a command asks by: the Rust's, unless `--strict` is given.
pub fn lookup(args: &Args) -> Lookup {
    match args.flag("--strict") {
        true => Lookup::Strict,
        false => Lookup::Rust,
    }
}

/// How many filter words a table has, behind a comma; nothing where it has none.
pub fn count(words: usize) -> String {
    match words {
        0 => String::new(),
        words => format!(", {}", text::count(words, "filter word")),
    }
}

/// The same of every table of a file that is laid.
pub fn laid(options: WriteOptions) -> String {
    match options.filter_words {
        0 => String::new(),
        words => format!("{} in each table", count(words as usize)),
    }
}

/// What JSON says of a table's filter.
pub fn json(words: usize) -> (&'static str, Json) {
    ("filter_words", Json::Number(words))
}

/// What a broken rule means, for the lookup that the table was checked by.
pub fn meaning(table: &Table, unsound: Unsound) -> &'static str {
    match table.lookup() {
        Lookup::Strict if unsound.rule == 2 && table.with_lookup(Lookup::Rust).check() != Err(unsound) => HIDDEN,
        _ => unsound.meaning(),
    }
}

/// Whether the strict lookup alone does not find a key that it was asked for.
pub fn hides(table: &Table, key: &[u8]) -> bool {
    table.lookup() == Lookup::Strict && !matches!(table.with_lookup(Lookup::Rust).item(key), Err(Refusal::KeyNotFound))
}
