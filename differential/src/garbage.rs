//! Memory that no history made: every call answers, a refusal changes nothing, and what is written passes the check. Each rule that a write judges, broken by one word.

use crate::building::Call;
use crate::dice::Dice;
use crate::document::{Form, Lookup, Manner};
use crate::ffi::{memory_words, MAX_ITEMS, MAX_KEY, MAX_NESTING, MAX_TABLES};
use crate::lent::Memory;
use crate::make;
use crate::ours;
use crate::tally::{number, Difference, Outcome, Tally, Who, Why};

/// Where the words of a builder's memory stand: header, tables of 4 words, heads of buckets, items of 12 words, links.
const TABLES: usize = 8;
const HEADS: usize = TABLES + 4 * MAX_TABLES;
const ITEMS: usize = HEADS + MAX_ITEMS;
const LINKS: usize = ITEMS + 12 * MAX_ITEMS;
const WORDS: usize = LINKS + MAX_ITEMS;

/// Where a changed word may be met: of the items, the first twenty.
const PARTS: [(usize, usize); 4] = [(0, HEADS), (HEADS, MAX_ITEMS), (ITEMS, 240), (LINKS, MAX_ITEMS)];

fn any_word(dice: &Dice) -> usize {
    match dice.below(6) {
        0 => dice.below(30),
        1 => usize::MAX - dice.below(3),
        2 => 0xFFFF_FFFF,
        3 => dice.next() as usize,
        4 => *dice.pick(&[72, 76, 118, MAX_ITEMS, MAX_ITEMS + 1, MAX_TABLES, MAX_TABLES + 1, 256, 0]),
        _ => dice.below(2000),
    }
}

/// A fresh builder with so much room and these tables.
fn fresh_tables(room: usize, separators: &[&[u8]]) -> Memory {
    let mut memory = Memory::new(&vec![0; memory_words()], &vec![0; room]);
    assert_eq!(memory.fresh(), 0);
    separators.iter().for_each(|separator| assert!(memory.new_table(separator).is_ok()));
    memory
}

/// A builder of two tables with a few items.
fn honest(dice: &Dice) -> Memory {
    let mut memory = fresh_tables(700, &[b"/", b""]);
    for index in 0..dice.below(14) {
        let _ = memory.insert((index % 2) as u32, format!("p/{}/{}", index % 3, dice.below(9)).as_bytes(), b"value");
    }
    if dice.one_in(2) {
        let _ = memory.insert_table(0, b"p/t", 1);
    }
    memory
}

/// Honest memory with some words changed.
fn tampered(dice: &Dice) -> Memory {
    let mut memory = honest(dice);
    for _ in 0..dice.below(4) {
        let (from, size) = *dice.pick(&PARTS);
        let at = from + dice.below(size);
        memory.words()[at] = any_word(dice);
    }
    memory
}

/// Words at random, in whose header only what every call judges is right; the arena is random too.
fn random(dice: &Dice) -> Memory {
    let room = dice.below(300);
    let mut words: Vec<usize> = (0..memory_words()).map(|_| any_word(dice)).collect();
    let header = [words.len(), room, dice.below(MAX_TABLES + 1), dice.below(*dice.pick(&[4, 40, MAX_ITEMS + 1])), dice.below(room + 1)];
    words[..5].copy_from_slice(&header);
    for table in 0..MAX_TABLES {
        if !dice.one_in(4) {
            words[TABLES + 4 * table] = *dice.pick(&[47, 256]);
            words[TABLES + 4 * table + 1] = dice.below(2);
        }
    }
    if dice.one_in(4) {
        let at = dice.below(5);
        words[at] = any_word(dice);
    }
    Memory::new(&words, &dice.bytes(room))
}

/// Memory of lengths that no fresh start had.
fn of_other_length(dice: &Dice) -> Memory {
    let mut honest = tampered(dice);
    let size = *dice.pick(&[0, 1, 4, TABLES, HEADS - 1, WORDS - 1]);
    let words = honest.words()[..size].to_vec();
    let room = dice.below(9);
    Memory::new(&words, &dice.bytes(room))
}

/// Honest memory with words changed that are mostly not used, with an arena that is a byte shorter than it was, or with small words alone.
pub fn slightly(dice: &Dice) -> Memory {
    let mut memory = honest(dice);
    match dice.below(4) {
        0 => memory.words().iter_mut().for_each(|word| *word = dice.below(3)),
        1 => return memory.lend(|words, arena| Memory::new(words, &arena[..arena.len() - 1])),
        _ => (0..dice.below(4)).for_each(|_| memory.words()[dice.below(WORDS)] = any_word(dice)),
    }
    memory
}

/// The kinds of memory that every seed has.
pub fn any(dice: &Dice) -> Memory {
    match dice.below(5) {
        0 => of_other_length(dice),
        1 | 2 => random(dice),
        _ => tampered(dice),
    }
}

fn any_call(dice: &Dice) -> Call {
    let table = if dice.one_in(9) { u32::MAX } else { dice.below(4) as u32 };
    match dice.below(8) {
        0 => Call::NewTable(dice.pick(&[&b""[..], b"/", b"\0", b"ab"]).to_vec()),
        1 | 2 => Call::Insert(table, make::key(dice, Some(b'/'), &[b"p/1/2".to_vec()]), b"value".to_vec()),
        3 => Call::InsertTable(table, make::key(dice, Some(b'/'), &[]), dice.below(4) as u32),
        4 => Call::Count(table),
        _ => Call::Write(table, make::laid(dice)),
    }
}

/// The number of a call's answer, and the image that it wrote.
fn answer(memory: &mut Memory, call: &Call, room: usize) -> (u32, Option<(Vec<u8>, u32)>) {
    let told = |answer: Result<u32, Why>| (number(&answer), None);
    match call {
        Call::NewTable(separator) => told(memory.new_table(separator).map_err(Why::from)),
        Call::Insert(table, key, value) => told(memory.insert(*table, key, value)),
        Call::InsertTable(table, key, guest) => told(memory.insert_table(*table, key, *guest)),
        Call::Count(table) => told(memory.item_count(*table).map_err(Why::from)),
        Call::Write(table, laid) => match memory.write(*table, room, *laid) {
            Ok(written) => (0, Some(written)),
            Err(number) => (number, None),
        },
    }
}

/// A few calls on one memory, which are noted before they are made.
pub fn compare(dice: &Dice, memory: fn(&Dice) -> Memory, tally: &mut Tally, calls: &mut Vec<Call>) -> Outcome {
    let mut memory = memory(dice);
    for _ in 0..1 + dice.below(6) {
        let call = any_call(dice);
        calls.push(call.clone());
        let _number = step(&mut memory, &call, *dice.pick(&[0, 24, 100, 4096]), tally)?;
    }
    fresh(dice, tally)
}

/// A fresh start on any words, too few or more than enough: 29, or an empty builder. Words past the least length and the arena stay.
fn fresh(dice: &Dice, tally: &mut Tally) -> Outcome {
    let least = memory_words();
    let size = (least + *dice.pick(&[0, 0, 1, 50])).saturating_sub(*dice.pick(&[0, 0, 1, 14_000, 20_000]));
    let words: Vec<usize> = (0..size).map(|_| any_word(dice)).collect();
    let mut memory = Memory::new(&words, &dice.bytes(dice.below(40)));
    let before = memory.clone();
    let number = memory.fresh();
    tally.number(number);
    tally.same(Who::Document, "fresh", &number, &if size < least { 29 } else { 0 }, || format!("{size} words"))?;
    assert!(number == 0 || memory == before, "a refused fresh start changed the words");
    assert!(memory.same_arena(&before) && memory.words().get(least..) == words.get(least..), "a fresh start changed the arena or words past the least length");
    if number == 0 {
        tally.same(Who::Document, "fresh", &memory.item_count(0), &Err(24), || "no table".into())?;
        tally.same(Who::Document, "fresh", &memory.new_table(b"/"), &Ok(0), || "the first table".into())?;
        tally.same(Who::Document, "fresh", &memory.write(0, 32, *dice.pick(&Form::BOTH)).map(|(image, end)| (image.len(), end)), &Ok((32, 32)), || {
            "an empty image".into()
        })?;
    }
    Ok(())
}

/// One call, and the number of its answer.
fn step(memory: &mut Memory, call: &Call, room: usize, tally: &mut Tally) -> Result<u32, Difference> {
    let before = memory.clone();
    let mut twin = memory.clone();
    let (number, image) = answer(memory, call, room);
    tally.number(number);
    tally.alone(if number == 29 { "calls on garbage memory, refused with 29" } else { "calls on garbage memory, else" }, 1);
    let reads = matches!(call, Call::Count(_) | Call::Write(..));
    assert!((number == 0 && !reads) || *memory == before, "a refusal, a count or a write changed garbage memory");
    assert!(answer(&mut twin, call, room) == (number, image.clone()) && twin == *memory, "the same call on the same memory differs");
    if let (Some((image, end)), Call::Write(_, laid)) = (image, call) {
        for lookup in [Lookup::Rust, Lookup::Strict] {
            let manner = Manner { form: laid.form, lookup };
            tally.same(Who::Document, "image passes", &ours::check(&image, 24, end, manner), &Ok(None), || "of garbage memory".into())?;
        }
    }
    Ok(number)
}

fn refused(mut memory: Memory, tally: &mut Tally, what: impl FnOnce() -> String) -> Outcome {
    let number = step(&mut memory, &Call::Write(0, Form::Plain.into()), 999, tally)?;
    tally.same(Who::Document, "a broken rule", &number, &29, what)
}

/// Where a word of an item and of a table stands.
const fn item(index: usize, word: usize) -> usize {
    ITEMS + 12 * index + word
}

const fn table(number: usize, word: usize) -> usize {
    TABLES + 4 * number + word
}

/// The item that holds table 1 in the memory of `one_word`.
const HOLDER: usize = 5;

/// Words of that memory that break a rule each: of items, tables, links and the header.
const BROKEN: [(usize, usize); 23] = [
    (item(0, 0), 2),
    (item(0, 1), 7),
    (item(1, 3), 4000),
    (item(1, 4), MAX_KEY + 1),
    (item(1, 3), usize::MAX),
    (item(0, 5), 2),
    (item(1, 5), 4),
    (item(2, 6), 0),
    (item(2, 7), 5000),
    (item(2, 8), usize::MAX),
    (item(HOLDER, 9), 2),
    (item(HOLDER, 9), 0),
    (item(2, 6), 72),
    (table(1, 1), 0),
    (table(1, 2), 0),
    (table(1, 2), MAX_NESTING),
    (LINKS, 0),
    (WORDS - 1, 1),
    (2, MAX_TABLES + 1),
    (3, MAX_ITEMS + 1),
    (4, 4097),
    (0, WORDS + 1),
    (1, 4095),
];

fn one_word(tally: &mut Tally) -> Outcome {
    let mut honest = fresh_tables(4096, &[b"/", b""]);
    for (table, key) in [(0, &b"a/b"[..]), (0, b"a/c"), (0, b"d"), (1, b"x")] {
        assert_eq!(honest.insert(table, key, b"value"), Ok(0));
    }
    assert_eq!(honest.insert_table(0, b"t", 1), Ok(0));
    assert!(honest.clone().write(0, 999, Form::Plain).is_ok());
    assert_eq!((honest.words().len(), honest.words()[item(HOLDER, 6)]), (WORDS, 72));
    for (at, word) in BROKEN {
        let mut memory = honest.clone();
        memory.words()[at] = word;
        refused(memory, tally, || format!("word {at} set to {word}"))?;
    }
    Ok(())
}

/// As many tables as may nest, each of whose items holds the next: refused at once, and not after 128^8 steps.
fn many_holders(tally: &mut Tally) -> Outcome {
    let mut memory = fresh_tables(1 << 16, &[&b""[..]; MAX_NESTING]);
    let each = MAX_ITEMS / MAX_NESTING;
    for index in 0..MAX_ITEMS {
        assert_eq!(memory.insert((index / each) as u32, (index % each).to_string().as_bytes(), b""), Ok(0));
    }
    let words = memory.words();
    for index in 0..MAX_ITEMS - each {
        words[item(index, 6)] = 72;
        words[item(index, 9)] = index / each + 1;
    }
    for number in 1..MAX_NESTING {
        words[table(number, 1)] = 1;
        words[table(number, 2)] = MAX_NESTING - number;
    }
    refused(memory, tally, || "items that hold one table".into())
}

pub fn rules(tally: &mut Tally) -> Outcome {
    one_word(tally)?;
    many_holders(tally)
}
