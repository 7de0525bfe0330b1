//! The children of a container: each refusal in its place, on a table made by hand; and of images that were written, the order of arrival.

use crate::dice::Dice;
use crate::document::{hash, Form};
use crate::ffi::memory_words;
use crate::lent::Memory;
use crate::ours;
use crate::reading::{hex, Case};
use crate::tally::{number, Outcome, Tally, Who, Why};
use std::collections::{BTreeMap, BTreeSet};

const ROOT: u32 = u32::MAX;
const COUNT: u32 = 7;
const START: u32 = 24;
const END: u32 = START + 12 + 24 * COUNT;
/// Where the fragments stand, and behind them the list of the container.
const TEXT: &[u8] = b"c/v\xFFfx..";
const LIST: u32 = END + 8;
const FILE: u32 = LIST + 4 * CHILDREN.len() as u32;
/// A value; an unknown kind with a fragment outside; a fragment that is no UTF-8; one outside; no item; the container itself; one that names another parent.
const CHILDREN: [u32; 7] = [1, 2, 3, 4, COUNT, 0, 6];

/// A container "c/" with these children, whose list is at a pointer, and a value "f" that points nowhere.
fn table(list: (u32, u32)) -> Vec<u8> {
    let mut file = vec![0; START as usize];
    let mut put = |words: &[u32]| file.extend(words.iter().flat_map(|word| word.to_le_bytes()));
    let item = |key: &[u8], parent: u32, fragment: (u32, u32), kind: u8| [hash(key, Form::Plain), parent, fragment.0, fragment.1 | u32::from(kind) << 16];
    put(&[0x2800_0000, 1, 0]);
    put(&item(b"c/", ROOT, (END, 2), b'L'));
    put(&[list.0, list.1]);
    for (key, fragment, kind) in [(&b"c/v"[..], (END + 2, 1), b'v'), (b"c/x", (1 << 30, 1), b'x'), (b"c/?", (END + 2, 2), b'H'), (b"c/p", (FILE, 1), b'L')] {
        put(&item(key, 0, fragment, kind));
        put(&[LIST, LIST]);
    }
    put(&item(b"f", ROOT, (END + 4, 1), b'v'));
    put(&[9, 3]);
    put(&item(b"x", ROOT, (END + 5, 1), b'v'));
    put(&[LIST, LIST]);
    file.extend(TEXT);
    file.extend(CHILDREN.iter().flat_map(|word| word.to_le_bytes()));
    assert_eq!((file.len(), file[END as usize]), (FILE as usize, b'c'));
    file
}

/// The children one by one, what comes before them, and what a bad list comes before.
pub fn show(tally: &mut Tally) -> Outcome {
    const GREATEST: usize = usize::MAX;
    let (good, last) = ((LIST, FILE), CHILDREN.len());
    let child = |kind: u8, from: u32, to: u32, index: usize| Ok((u32::from(kind), END + from, END + to, index));
    let no = |number: u32| Err(Why::from(number));
    let questions = [
        ("each child", good, &b"c/"[..], 0, child(b'v', 2, 3, 1)),
        ("13 before 2 of the fragment", good, b"c/", 1, no(13)),
        ("9 with its offset", good, b"c/", 2, Err(Why { number: 9, at: 1 })),
        ("2 of the fragment", good, b"c/", 3, no(2)),
        ("10 for the count", good, b"c/", 4, no(10)),
        ("the container itself, which names no parent", good, b"c/", 5, child(b'L', 0, 2, 0)),
        ("a child that names another parent", good, b"c/", 6, child(b'v', 5, 6, 6)),
        ("15 past the last", good, b"c/", last, no(15)),
        ("15 at the greatest", good, b"c/", GREATEST, no(15)),
        ("15 before 10", (LIST + 12, LIST + 16), b"c/", 1, no(15)),
        ("10 behind 15", (LIST + 16, LIST + 20), b"c/", 0, no(10)),
        ("a container without children", (LIST, LIST), b"c/", 0, no(15)),
        ("2 for start above end before 3", (LIST + 5, LIST + 4), b"c/", 0, no(2)),
        ("3 before 2 for end past the file", (LIST + 1, FILE + 1), b"c/", 0, no(3)),
        ("2 for end past the file before 13", (LIST, FILE + 1), b"c/", 0, no(2)),
        ("13 for no whole words before 15", (LIST, LIST + 3), b"c/", 1, no(13)),
        ("13 for no whole words, at the greatest", (LIST, FILE - 1), b"c/", GREATEST, no(13)),
        ("13 for a value before 2 and 3 of its pointer", good, b"f", 0, no(13)),
        ("13 for a value before 15", good, b"f", GREATEST, no(13)),
        ("12", good, b"c", 0, no(12)),
        ("8 before 12", good, b"c\xE9", GREATEST, Err(Why { number: 8, at: 1 })),
    ];
    for (what, list, key, position, said) in questions {
        let file = table(list);
        tally.same(Who::Document, "children", &ours::child(&file, START, END, key, position, Form::Plain), &said, || what.into())?;
        tally.number(number(&said));
        Case { file, start: START, end: END, keys: vec![key.to_vec()] }.compare(tally)?;
    }
    for (start, end, opening) in [(25, 24, 2), (25, END, 3), (24, FILE + 1, 2), (24, 28, 4)] {
        tally.same(Who::Document, "children", &ours::child(&table(good), start, end, b"\xE9", 0, Form::Plain), &no(opening), || "opening before 8".into())?;
    }
    worked(tally)
}

fn builder() -> Memory {
    let mut memory = Memory::new(&vec![0; memory_words()], &vec![0; 1 << 12]);
    assert_eq!((memory.fresh(), memory.new_table(b"/")), (0, Ok(0)));
    memory
}

/// "a/c", then "a/b": position 0 is "c", position 1 is "b", position 2 is 15.
fn worked(tally: &mut Tally) -> Outcome {
    let mut memory = builder();
    assert_eq!((memory.insert(0, b"a/c", b""), memory.insert(0, b"a/b", b"")), (Ok(0), Ok(0)));
    listed(&mut memory, &BTreeMap::from([("a/".to_string(), vec!["c".to_string(), "b".to_string()])]), tally)
}

/// Each container of an image has these children, in this order, and 15 behind them.
fn listed(memory: &mut Memory, meant: &BTreeMap<String, Vec<String>>, tally: &mut Tally) -> Outcome {
    Form::BOTH.into_iter().try_for_each(|form| listed_in(memory, meant, form, tally))
}

fn listed_in(memory: &mut Memory, meant: &BTreeMap<String, Vec<String>>, form: Form, tally: &mut Tally) -> Outcome {
    let (image, end) = memory.write(0, 1 << 14, form).expect("an image");
    for (container, fragments) in meant {
        let ask = |position: usize| ours::child(&image, START, end, container.as_bytes(), position, form);
        for (position, fragment) in fragments.iter().enumerate() {
            let (_, from, to, index) = ask(position).unwrap_or_default();
            let question = || format!("{} at {position}", hex(container.as_bytes()));
            tally.same(Who::Document, "children by arrival", &&image[from as usize..to as usize], &fragment.as_bytes(), question)?;
            let key = [container.as_str(), fragment].concat().into_bytes();
            tally.same(Who::Document, "children by arrival", &ours::key(&image, START, end, index, key.len()), &Ok(key), question)?;
        }
        tally.same(Who::Document, "children by arrival", &ask(fragments.len()), &Err(Why::from(15)), || "past the last".into())?;
    }
    Ok(())
}

/// Keys by chance, some of them twice: a child stands where its key first arrived.
pub fn arrival(dice: &Dice, tally: &mut Tally) -> Outcome {
    let mut memory = builder();
    let (mut meant, mut known) = (BTreeMap::<String, Vec<String>>::new(), BTreeSet::new());
    for _ in 0..dice.below(24) {
        let segments: Vec<&str> = (0..1 + dice.below(4)).map(|_| *dice.pick(&["a", "b", "\u{e9}", "", "ab", "bA"])).collect();
        let key = segments.join("/") + *dice.pick(&["x", "y", "z"]);
        assert!(memory.insert(0, key.as_bytes(), b"1").is_ok());
        let ends = key.match_indices('/').map(|(at, _)| at + 1).chain([key.len()]);
        let mut above = 0;
        for end in ends {
            if known.insert(key[..end].to_string()) && above > 0 {
                meant.entry(key[..above].to_string()).or_default().push(key[above..end].to_string());
            }
            above = end;
        }
    }
    listed(&mut memory, &meant, tally)
}
