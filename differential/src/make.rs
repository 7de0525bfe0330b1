//! Keys and files to ask about: random bytes, tables made by hand, damaged copies of images.

use crate::dice::Dice;
use crate::document::read::{open, word, Table};
use crate::document::{hash, Form, Laid, Lookup, Manner};
use crate::ffi::MAX_KEY;
use crate::reading::Case;

/// "ab" and "bA" have one hash, and so have "Ez" and "FY", alone or within a key.
const SEGMENTS: [&str; 18] =
    ["a", "b", "ab", "bA", "Ez", "FY", "abab", "bAbA", "abbA", "\u{e9}", "", "x", "aa", "\u{20ac}", "\u{1F333}", "0", "\u{7f}", "\u{80}"];

const BROKEN: [&[u8]; 8] = [b"\xff", b"\xc3", b"\xe9", b"\xed\xa0\x80", b"\xf4\x90\x80\x80", b"\xc0\x80", b"\xe2\x82", b"\x80"];

/// A key for a table with this separator: now and then one that was there, or one above or below such a one.
pub fn key(dice: &Dice, separator: Option<u8>, known: &[Vec<u8>]) -> Vec<u8> {
    let separator = separator.unwrap_or(b'/');
    if !known.is_empty() && dice.one_in(3) {
        let like = dice.pick(known).clone();
        return near(dice, separator, like);
    }
    let mut key = Vec::new();
    for segment in 0..*dice.pick(&[1, 1, 1, 2, 2, 3, 4, 8]) {
        if segment > 0 {
            key.push(separator);
        }
        key.extend(dice.pick(&SEGMENTS).as_bytes());
    }
    match dice.below(60) {
        0..=6 => key.push(separator),
        7 => key.extend(*dice.pick(&BROKEN)),
        8 => key.extend(vec![b'k'; *dice.pick(&[MAX_KEY - 4, MAX_KEY - 1, MAX_KEY, MAX_KEY + 1, 70_000])]),
        _ => {}
    }
    if key.is_empty() && !dice.one_in(4) {
        key.push(b'q');
    }
    key
}

/// A key like another: the same, one below it, a container above it, one with the same hash, or one that is not UTF-8.
pub fn near(dice: &Dice, separator: u8, mut key: Vec<u8>) -> Vec<u8> {
    match dice.below(8) {
        0 => key.extend(dice.pick(&SEGMENTS).as_bytes()),
        1 => {
            if let Some(at) = key.iter().position(|byte| *byte == separator) {
                key.truncate(at + 1);
            }
        }
        2 => {
            key.push(separator);
            key.extend(dice.pick(&SEGMENTS).as_bytes());
        }
        3 => {
            if let Some(at) = key.windows(2).position(|pair| pair == b"ab") {
                key[at..at + 2].copy_from_slice(b"bA");
            }
        }
        4 if dice.one_in(4) => key.extend(*dice.pick(&BROKEN)),
        _ => {}
    }
    key
}

/// Small words, such as a table may have, with some that are out of every range.
fn odd_word(dice: &Dice, near: usize) -> u32 {
    match dice.below(8) {
        0 => u32::MAX,
        1 => *dice.pick(&[u32::MAX - 1, 0x8000_0000, 0x07FF_FFFF, 0x0800_0001, 0x2800_0000, 0x3FFF_FFFF, 0x4000_0000]),
        2 => dice.next() as u32,
        _ => (near + dice.below(5)).saturating_sub(2) as u32,
    }
}

/// Bytes at random, with a pointer that mostly opens.
pub fn random(dice: &Dice) -> Case {
    let size = dice.below(200);
    let mut file = dice.bytes(size);
    let start = *dice.pick(&[0, 0, 4, 24, 24, 23, 8]);
    for at in (start..size.saturating_sub(4)).step_by(4) {
        if !dice.one_in(4) {
            let word = *dice.pick(&[0, 0, 1, 2, 3, size as u32 - 1, u32::MAX, 24, 0x0001_0000, 0x0076_0001]);
            file[at..at + 4].copy_from_slice(&word.to_le_bytes());
        }
    }
    let end = if dice.one_in(3) { dice.below(size + 8) } else { (start + 8 + 4 * dice.below(4) + 24 * dice.below(5)).min(size) };
    Case { file, start: start as u32, end: end as u32, keys: vec![Vec::new(), b"a".to_vec()] }
}

/// What an item of a table made by hand says.
struct Made {
    fragment: Vec<u8>,
    parent: Option<usize>,
    kind: u8,
    hash: u32,
}

fn made_items(dice: &Dice, count: usize) -> Vec<Made> {
    let hollow = dice.one_in(6);
    let mut items: Vec<Made> = Vec::new();
    for index in 0..count {
        let mut fragment = if hollow && dice.one_in(2) { Vec::new() } else { dice.pick(&SEGMENTS).as_bytes().to_vec() };
        if dice.one_in(40) {
            fragment.extend(*dice.pick(&BROKEN));
        }
        let parent = match dice.below(8) {
            0..=2 => None,
            3..=5 if index > 0 => Some(dice.below(index)),
            _ if hollow || dice.one_in(4) => Some(dice.below(count + 1)),
            _ => None,
        };
        items.push(Made { fragment, parent, kind: *dice.pick(b"vvvvHLLx"), hash: 0 });
    }
    let form = *dice.pick(&Form::BOTH);
    for index in 0..count {
        items[index].hash = hash(&joined(&items, index), form);
    }
    items
}

/// The key of an item, if its parents end.
fn joined(items: &[Made], index: usize) -> Vec<u8> {
    let (mut key, mut at) = (items[index].fragment.clone(), items[index].parent);
    for _ in 0..items.len() {
        match at {
            Some(parent) if parent < items.len() => {
                key = [&items[parent].fragment[..], &key].concat();
                at = items[parent].parent;
            }
            _ => break,
        }
    }
    key
}

/// A form and a lookup.
pub fn manner(dice: &Dice) -> Manner {
    Manner { form: *dice.pick(&Form::BOTH), lookup: *dice.pick(&[Lookup::Rust, Lookup::Strict]) }
}

/// A form, and a number of filter words: often none or few, seldom all that may be or more.
pub fn laid(dice: &Dice) -> Laid {
    let filter = match dice.below(16) {
        0 => *dice.pick(&[1025, u32::MAX]),
        1 => *dice.pick(&[32, 1024]),
        2..=9 => 1 + dice.below(3) as u32,
        _ => 0,
    };
    Laid { form: *dice.pick(&Form::BOTH), filter }
}

/// A table made by hand: bloom words, few or many buckets, any parents, any kinds.
pub fn by_hand(dice: &Dice) -> Case {
    let count = dice.below(9);
    let (buckets, blooms) = (*dice.pick(&[0, 1, 1, 2, 3, 5, 8]), *dice.pick(&[0, 0, 0, 1, 2, 3]));
    let mut items = made_items(dice, count);
    let keys = (0..count).map(|index| joined(&items, index)).collect();
    let mut order: Vec<usize> = (0..count).collect();
    if buckets > 0 {
        order.sort_by_key(|index| items[*index].hash as usize % buckets);
    }
    if count > 0 && dice.one_in(8) {
        let at = dice.below(count);
        items[at].hash = dice.next() as u32;
    }
    let end = 24 + 8 + 4 * blooms + 4 * buckets + 24 * count;
    let mut file = vec![0; 24];
    let shift = *dice.pick(&[0u32, 5, 31]);
    file.extend((blooms as u32 | shift << 27).to_le_bytes());
    file.extend((buckets as u32).to_le_bytes());
    bloom_words(dice, &items, blooms, shift).iter().for_each(|word| file.extend(word.to_le_bytes()));
    for bucket in 0..buckets {
        let before = order.iter().filter(|index| items[**index].hash as usize % buckets < bucket).count();
        let word = if dice.one_in(30) { odd_word(dice, count) } else { before as u32 };
        file.extend(word.to_le_bytes());
    }
    lay_items(dice, &items, &order, end, &mut file);
    Case { file, start: 24, end: end as u32, keys }
}

/// Mostly with both bits of each item, or with the first alone, which is all that the Rust's lookup asks for.
fn bloom_words(dice: &Dice, items: &[Made], count: usize, shift: u32) -> Vec<u32> {
    let mut words = vec![0u32; count];
    if count > 0 && !dice.one_in(5) {
        let second = if dice.one_in(3) { 0 } else { shift };
        items.iter().for_each(|item| words[item.hash as usize / 32 % count] |= 1 << (item.hash % 32) | 1 << ((item.hash >> second) % 32));
    }
    if dice.one_in(5) {
        words.iter_mut().for_each(|word| *word ^= dice.next() as u32 & dice.next() as u32);
    }
    words
}

/// Lays items and, behind `end`, what they point to.
fn lay_items(dice: &Dice, items: &[Made], order: &[usize], end: usize, file: &mut Vec<u8>) {
    let place = |index: usize| order.iter().position(|at| *at == index).unwrap_or(index) as u32;
    let mut tail = Vec::new();
    for &index in order {
        let item = &items[index];
        let key = end + tail.len();
        tail.extend(&item.fragment);
        let alignment = if item.kind == b'v' { 8 } else { 4 };
        while !(end + tail.len()).is_multiple_of(alignment) {
            tail.push(0);
        }
        let start = end + tail.len();
        match item.kind {
            b'L' => {
                let children = (0..items.len()).filter(|child| items[*child].parent == Some(index) && !dice.one_in(20));
                tail.extend(children.flat_map(|child| place(child).to_le_bytes()));
            }
            b'H' => tail.extend(dice.pick(&[&b"\0\0\0\x28\0\0\0\0"[..], b"\0\0\0\x28", b"\x01\0\0\x28\0\0\0\0"]).iter()),
            _ => tail.extend(&b"\x01\x02\x03"[..dice.below(4)]),
        }
        let fields = [item.hash, item.parent.map_or(u32::MAX, place), key as u32];
        fields.iter().for_each(|field| file.extend(field.to_le_bytes()));
        file.extend((item.fragment.len() as u16).to_le_bytes());
        file.extend([item.kind, dice.next() as u8]);
        file.extend((start as u32).to_le_bytes());
        file.extend(((end + tail.len()) as u32).to_le_bytes());
    }
    file.extend(tail);
}

/// A changed copy of a file: bytes flipped, cut off, words and pointers shifted, items copied over others.
pub fn damaged(dice: &Dice, sound: &Case) -> Case {
    let mut case = sound.clone();
    let Ok(table) = open(&sound.file, sound.start, sound.end, Form::Plain) else { return case };
    for _ in 0..*dice.pick(&[1, 1, 1, 2, 3]) {
        damage(dice, sound, &table, &mut case);
    }
    case
}

fn damage(dice: &Dice, sound: &Case, table: &Table, case: &mut Case) {
    let (from, to) = (sound.start as usize, sound.end as usize);
    let mut put = |at: usize, bytes: &[u8]| {
        if at + bytes.len() <= case.file.len() {
            case.file[at..at + bytes.len()].copy_from_slice(bytes);
        }
    };
    match dice.below(if table.count == 0 { 5 } else { 12 }) {
        0 => {
            let at = from.min(24) + dice.below(sound.file.len() - from.min(24));
            put(at, &[sound.file[at] ^ (1 << dice.below(8))]);
        }
        1 => put(from, &odd_word(dice, 2).to_le_bytes()),
        2 => put(from + 4, &odd_word(dice, table.buckets).to_le_bytes()),
        3 => {
            let cut = case.file.len() - dice.below(case.file.len().min(60) + 1);
            case.file.truncate(if dice.one_in(4) { dice.below(cut + 1) } else { cut });
        }
        4 => {
            let by = *dice.pick(&[1u32, 2, 4, 8, 23, 24]);
            let side = if dice.one_in(2) { &mut case.start } else { &mut case.end };
            *side = if dice.one_in(2) { side.wrapping_add(by) } else { side.wrapping_sub(by) };
        }
        5 => {
            let at = from + 4 * dice.below((to - from) / 4);
            put(at, &odd_word(dice, word(&sound.file, at) as usize).to_le_bytes());
        }
        _ => damage_item(dice, sound, table, &mut put),
    }
}

/// One field of one item, or the item whole.
fn damage_item(dice: &Dice, sound: &Case, table: &Table, put: &mut impl FnMut(usize, &[u8])) {
    let item = dice.below(table.count);
    let at = table.item(item);
    let field = |at: usize| word(&sound.file, at) as usize;
    match dice.below(10) {
        0 => {
            let about = if dice.one_in(2) { item } else { table.count };
            put(at + 4, &odd_word(dice, about).to_le_bytes());
        }
        1 => put(at + 8, &odd_word(dice, field(at + 8)).to_le_bytes()),
        2 => put(at + 12, &dice.pick(&[0u16, 1, 2, 3, 255, 65535]).to_le_bytes()),
        3 => put(at + 14, &[*dice.pick(b"vHLx\0h\xff")]),
        4 => put(at + 16, &odd_word(dice, field(at + 16)).to_le_bytes()),
        5 => put(at + 20, &odd_word(dice, field(at + 20)).to_le_bytes()),
        6 => {
            let broken = *dice.pick(&BROKEN);
            put(field(at + 8), broken);
        }
        7 | 8 => damage_children(dice, sound, table, put),
        _ => {
            let other = table.item(dice.below(table.count));
            put(at, &sound.file[other..other + 24]);
        }
    }
}

/// A child word of a container: another one of its children again, or an odd word.
fn damage_children(dice: &Dice, sound: &Case, table: &Table, put: &mut impl FnMut(usize, &[u8])) {
    let containers: Vec<usize> = (0..table.count).filter(|item| table.kind(*item) == b'L').collect();
    if containers.is_empty() {
        return;
    }
    let (start, end) = table.value(*dice.pick(&containers));
    let children = (end as usize).saturating_sub(start as usize) / 4;
    if children == 0 || end as usize > sound.file.len() {
        return;
    }
    let at = start as usize + 4 * dice.below(children);
    let other = word(&sound.file, start as usize + 4 * dice.below(children));
    put(at, &if dice.one_in(2) { other } else { odd_word(dice, other as usize) }.to_le_bytes());
}
