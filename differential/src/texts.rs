//! Where texts are not UTF-8, as given keys and as stored fragments: every text of one to three bytes over the bytes at the edges of RFC 3629's ranges, and longer ones
//! by chance. The offset is that of Rust's `Utf8Error::valid_up_to`.

use crate::dice::Dice;
use crate::document::{hash, Form};
use crate::ffi::{memory_words, MAX_KEY};
use crate::lent::Memory;
use crate::ours;
use crate::reading::{hex, Case};
use crate::tally::{Outcome, Tally, Who, Why};

/// The first and the last byte of each range, and those beside them.
const EDGES: [u8; 24] =
    [0x00, 0x7F, 0x80, 0x8F, 0x90, 0x9F, 0xA0, 0xBF, 0xC0, 0xC1, 0xC2, 0xDF, 0xE0, 0xE1, 0xEC, 0xED, 0xEE, 0xEF, 0xF0, 0xF1, 0xF3, 0xF4, 0xF5, 0xFF];

const WORKED: [(&[u8], usize); 7] = [
    (b"\x63\x61\x66\xE9", 3),
    (b"\xE9\x74\xE9", 0),
    (b"\x61\xC3", 1),
    (b"\xED\xA0\x80", 0),
    (b"\xF0\x9F\x8C", 0),
    (b"\x6F\x6B\xC0\x80", 2),
    (b"\xC3\xA9\xFF", 2),
];

/// Where the table of `chain` is.
const TABLE: (u32, u32) = (24, 108);

fn bad(text: &[u8]) -> Option<usize> {
    std::str::from_utf8(text).err().map(|error| error.valid_up_to())
}

/// A builder with two tables and no room: it takes no key of any length, so that it can be asked again and again.
fn builder() -> Memory {
    let mut memory = Memory::new(&vec![0; memory_words()], &[]);
    assert_eq!((memory.fresh(), memory.new_table(b""), memory.new_table(b"")), (0, Ok(0), Ok(1)));
    memory
}

/// A table of three items, each the child of the next, with these fragments. Each has the hash of "a".
fn chain(fragments: [&[u8]; 3]) -> Vec<u8> {
    let mut file = vec![0; 24];
    let mut put = |words: &[u32]| file.extend(words.iter().flat_map(|word| word.to_le_bytes()));
    put(&[0x2800_0000, 1, 0]);
    let mut from = TABLE.1;
    for (fragment, (parent, kind)) in fragments.iter().zip([(1, b'v'), (2, b'L'), (u32::MAX, b'L')]) {
        let size = fragment.len() as u32;
        put(&[hash(b"a", Form::Plain), parent, from, size | u32::from(kind) << 16, 0, 0]);
        from += size;
    }
    file.extend(fragments.concat());
    file
}

/// A text as the key of a call: 8 with the offset, in both lookups and both inserts. A good one is not found in the table, and has no room in the builder or is too long.
fn given(text: &[u8], memory: &mut Memory, tally: &mut Tally) -> Outcome {
    let question = || hex(text);
    let said = |other: u32| bad(text).map_or(Why::from(other), |at| Why { number: 8, at });
    tally.same(Who::Std, "first bad", &ours::first_bad(text), &bad(text).unwrap_or(text.len()), question)?;
    let file = chain([b"", b"b", b"\xFF"]);
    let (start, end) = TABLE;
    tally.same(Who::Std, "get", &ours::get(&file, start, end, text, Form::Plain), &Err(said(12)), question)?;
    tally.same(Who::Std, "get table", &ours::get_table(&file, start, end, text, Form::Plain), &Err(said(12)), question)?;
    let room = if text.len() > MAX_KEY { 20 } else { 23 };
    tally.same(Who::Std, "insert", &memory.insert(0, text, b""), &Err(said(room)), question)?;
    tally.same(Who::Std, "insert table", &memory.insert_table(0, text, 1), &Err(said(room)), question)?;
    tally.number(said(room).number);
    Ok(())
}

/// Texts as the fragments of a chain: what listing each item says, and the check, of the first that is bad on the way to the root. No lookup finds an item with such a
/// chain. Then all of it is read by all three.
fn stored(fragments: [&[u8]; 3], tally: &mut Tally) -> Outcome {
    let (file, (start, end)) = (chain(fragments), TABLE);
    let question = || fragments.map(hex).join(" below ");
    let first = |item: usize| fragments[item..].iter().find_map(|fragment| bad(fragment)).map(|at| Why { number: 9, at });
    for item in 0..3 {
        let joined: Vec<u8> = fragments[item..].iter().rev().flat_map(|fragment| fragment.to_vec()).collect();
        let room = joined.len();
        tally.same(Who::Std, "keys", &ours::key(&file, start, end, item, room), &first(item).map_or(Ok(joined), Err), question)?;
    }
    if let Some(why) = first(0) {
        tally.same(Who::Std, "check", &ours::check(&file, start, end, Form::Plain), &Ok(Some((1, 0, Some(why)))), question)?;
    }
    if first(2).is_some() {
        tally.same(Who::Std, "get", &ours::get(&file, start, end, b"a", Form::Plain), &Err(Why::from(12)), question)?;
    }
    Case { file, start, end, keys: vec![b"a".to_vec(), fragments[0].to_vec()] }.compare(tally)
}

/// A text as an item's own fragment, as a parent's and as the root's; and below others that are bad elsewhere.
fn everywhere(text: &[u8], memory: &mut Memory, tally: &mut Tally) -> Outcome {
    given(text, memory, tally)?;
    for fragments in [[text, b"b", b"c"], [b"a", text, b"c"], [b"a", b"b", text], [text, b"ab\xFF", b"abc\xFF"], [b"", text, b"abc\xFF"]] {
        stored(fragments, tally)?;
    }
    Ok(())
}

pub fn show(tally: &mut Tally) -> Outcome {
    let mut memory = builder();
    let before = memory.clone();
    for (text, at) in WORKED {
        tally.same(Who::Document, "first bad", &ours::first_bad(text), &at, || hex(text))?;
        everywhere(text, &mut memory, tally)?;
    }
    let mut texts = vec![Vec::new()];
    for _ in 0..3 {
        texts = texts.iter().flat_map(|text| EDGES.map(|byte| [&text[..], &[byte]].concat())).collect();
        texts.iter().try_for_each(|text| everywhere(text, &mut memory, tally))?;
    }
    assert!(memory == before, "a refusal changed the builder");
    Ok(())
}

/// A character of any length, one at the edge of a range, an edge byte or any byte.
fn piece(dice: &Dice) -> Vec<u8> {
    let edge = ['\0', '\u{7F}', '\u{80}', '\u{7FF}', '\u{800}', '\u{D7FF}', '\u{E000}', '\u{FFFF}', '\u{10000}', '\u{10FFFF}'];
    let longest = *dice.pick(&[0x80, 0x800, 0x1_0000, 0x11_0000]);
    match dice.below(40) {
        0 => vec![*dice.pick(&EDGES)],
        1 => dice.bytes(1),
        2..=5 => dice.pick(&edge).to_string().into_bytes(),
        _ => char::from_u32(dice.below(longest) as u32).unwrap_or('\u{D7FF}').to_string().into_bytes(),
    }
}

fn text(dice: &Dice) -> Vec<u8> {
    let count = 1 + dice.below(*dice.pick(&[4, 20, 20, 100, 1500]));
    let mut text = (0..count).flat_map(|_| piece(dice)).collect::<Vec<u8>>();
    if dice.one_in(8) {
        text.truncate(text.len().saturating_sub(dice.below(4)).max(1));
    }
    text
}

/// Longer texts by chance.
pub fn random(dice: &Dice, tally: &mut Tally) -> Outcome {
    let texts = [(); 3].map(|()| text(dice));
    let mut memory = builder();
    texts.iter().try_for_each(|text| given(text, &mut memory, tally))?;
    let [own, parent, root] = &texts;
    stored([own, parent, root], tally)
}
