//! Every difference that docs/DIFFERENCES.md lists, with its smallest input, as both sides have it; those of the limits are in limits.rs. What gvdb-rs cannot be asked is asked here alone.

use crate::document::{self, Form};
use crate::ffi::{memory_words, MAX_FILE};
use crate::lent::{File, Memory};
use crate::ours;
use crate::tally::{Outcome, Tally, Why};
use crate::theirs;
use gvdb::write::{FileWriter, HashTableBuilder};
use std::process::{Command, Stdio};
use std::time::Duration;

/// A header with this root, and what follows it.
fn file(start: u32, end: u32, body: &[u8]) -> Vec<u8> {
    [&b"GVariant\0\0\0\0\0\0\0\0"[..], &start.to_le_bytes(), &end.to_le_bytes(), body].concat()
}

fn opens_there(bytes: &[u8]) -> Result<usize, u32> {
    theirs::with_root(bytes, |opened| opened.map(|table| table.keys().len()))
}

fn file_length() {
    let mut bytes = file(24, 32, &[0; 8]);
    for (size, ours, header) in [(MAX_FILE, Ok((0, 0, 0)), Ok((0, 24, 32))), (MAX_FILE + 1, Err(1), Err(1))] {
        bytes.resize(size, 0);
        let lent = File::new(&bytes);
        assert_eq!((ours::open(lent.bytes(), 24, 32), opens_there(lent.bytes())), (ours, Ok(0)));
        assert_eq!((ours::header(lent.bytes()), theirs::header(lent.bytes())), (header, Ok((0, 24, 32))));
    }
}

fn bloom_words_and_buckets() {
    for (table, ours) in [(b"\x01\0\0\x28\0\0\0\0", 5), (b"\0\0\0\x28\x01\0\0\0", 6)] {
        let lent = File::new(&file(24, 32, table));
        assert_eq!((ours::open(lent.bytes(), 24, 32), opens_there(lent.bytes())), (Err(ours), Err(theirs::FIVE_OR_SIX)));
    }
}

/// A table is opened by its pointer, whatever stands in front; the header is read by a call of its own.
fn no_header() {
    assert_eq!((ours::open(&[0; 8], 0, 8), ours::header(&[0; 8]), theirs::header(&[0; 8])), (Ok((0, 0, 0)), Err(16), Err(16)));
    assert_eq!((ours::open(&[0; 24], 0, 8), ours::header(&[0; 24]), theirs::header(&[0; 24])), (Ok((0, 0, 0)), Err(17), Err(17)));
}

fn address() {
    let lent = File::shifted(&file(24, 32, &[0; 8]), 1);
    assert_eq!((ours::open(lent.bytes(), 24, 32), opens_there(lent.bytes())), (Ok((0, 0, 0)), Err(4)));
}

/// A table of one item that is its own parent, with this fragment.
fn own_parent(fragment: &[u8], hash: u32) -> Vec<u8> {
    let words = [0x2800_0000, 1, 0, hash, 0, 60, 0x0076_0000 + fragment.len() as u32, 0, 0];
    let body: Vec<u8> = words.iter().flat_map(|word: &u32| word.to_le_bytes()).chain(fragment.iter().copied()).collect();
    file(24, 60, &body)
}

/// gvdb-rs's lookup of "" in a table whose one item is its own parent, with an empty fragment.
pub fn recurse() {
    let empty = File::new(&own_parent(b"", 5381));
    let answer = theirs::with_root(empty.bytes(), |opened| theirs::get(empty.bytes(), opened.expect("opens"), ""));
    println!("{answer:?}");
}

/// Whether that lookup, in a process of its own, overflows the stack or has no answer after two seconds.
fn never_answers() -> bool {
    let program = std::env::current_exe().expect("this program");
    let mut child = Command::new(program).arg("--recurse").stdout(Stdio::null()).stderr(Stdio::null()).spawn().expect("a process");
    for _ in 0..20 {
        std::thread::sleep(Duration::from_millis(100));
        if let Some(status) = child.try_wait().expect("its state") {
            return status.code().is_none();
        }
    }
    child.kill().and_then(|()| child.wait()).expect("its end");
    true
}

fn loops_of_parents() {
    assert!(never_answers());
    let empty = File::new(&own_parent(b"", 5381));
    assert_eq!(empty.bytes().len(), 60);
    assert_eq!((ours::get(empty.bytes(), 24, 60, b"", Form::Plain), ours::key(empty.bytes(), 24, 60, 0, 9)), (Err(12.into()), Err(11.into())));
    assert_eq!(theirs::with_root(empty.bytes(), |opened| theirs::keys(opened.expect("opens"))), [Err(11.into())]);
    let full = File::new(&own_parent(b"a", document::hash(b"a", Form::Plain)));
    assert_eq!((ours::get(full.bytes(), 24, 60, b"a", Form::Plain), ours::key(full.bytes(), 24, 60, 0, 9)), (Err(12.into()), Err(11.into())));
    assert_eq!(theirs::with_root(full.bytes(), |opened| theirs::get(full.bytes(), opened.expect("opens"), "a")), Err(12.into()));
}

fn builder(room: usize) -> (Memory, theirs::Builder) {
    let mut memory = Memory::new(&vec![0; memory_words()], &vec![0; room]);
    assert_eq!((memory.fresh(), memory.new_table(b"")), (0, Ok(0)));
    let mut rust = theirs::Builder::default();
    rust.new_table(b"");
    (memory, rust)
}

/// 14, the news of a second insert, the empty arena, and a key that is not UTF-8.
fn small_ones() {
    let (mut memory, mut rust) = builder(2);
    assert_eq!((memory.insert(0, b"a", b""), rust.insert(0, "a", b"")), (Ok(0), Ok(1)));
    assert_eq!((memory.insert(0, b"a", b"v"), rust.insert(0, "a", b"v")), (Ok(118), Ok(1)));
    assert_eq!((memory.insert(0, b"a", b"v"), rust.insert(0, "a", b"v")), (Err(23.into()), Ok(1)));
    assert_eq!(memory.insert(0, b"\xff", b""), Err(Why { number: 8, at: 0 }));
    assert_eq!(memory.insert(0, b"caf\xe9", b""), Err(Why { number: 8, at: 3 }));
    let (image, end) = memory.write(0, 999, Form::Plain).expect("an image");
    assert_eq!((ours::key(&image, 24, end, 0, 1), ours::key(&image, 24, end, 0, 0)), (Ok(b"a".to_vec()), Err(14.into())));
    assert_eq!(ours::get(&image, 24, end, b"caf\xe9", Form::Plain), Err(Why { number: 8, at: 3 }));
}

/// The header of an image, which a call of its own lays, a buffer that is too short for it, and a builder that goes on after a write.
fn headers_and_buffers() {
    let (mut memory, mut rust) = builder(16);
    assert_eq!((memory.insert(0, b"a", b"\x01\x02"), rust.insert(0, "a", b"\x01\x02")), (Ok(0), Ok(1)));
    let there = rust.write(0).expect("an image");
    assert_eq!(memory.write(0, 65, Form::Plain), Err(31));
    let (here, end) = memory.write(0, 66, Form::Plain).expect("an image");
    assert_eq!((here.len(), there.len(), &here[24..]), (66, 66, &there[24..]));
    assert_eq!((&here[..24], &there[..8]), (&[0; 24][..], &b"GVariant"[..]));
    assert_eq!(ours::lay_header(&here, 0, 24, end), (0, there));
    assert_eq!((memory.insert(0, b"b", b""), memory.write(0, 999, Form::Plain).is_ok()), (Ok(0), true));
}

fn separators() {
    let mut memory = builder(9).0;
    let mut there = HashTableBuilder::with_path_separator(Some("::"));
    assert!(there.insert("a::b", gvdb::read::oracle::RawIn(Vec::new())).is_ok() && there.len() == 2);
    assert!(FileWriter::new().write_to_vec_with_table(there).is_ok());
    for separator in [&b"::"[..], b"\0", b"\x80"] {
        assert_eq!(memory.new_table(separator), Err(28));
    }
}

pub fn show(tally: &mut Tally) -> Outcome {
    let corners: [fn(); 8] = [file_length, bloom_words_and_buckets, no_header, address, loops_of_parents, small_ones, headers_and_buffers, separators];
    for corner in corners {
        corner();
        tally.alone("corners of docs/DIFFERENCES.md", 1);
    }
    Ok(())
}
