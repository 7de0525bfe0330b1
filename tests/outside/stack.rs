//! How much stack each call takes. bindings/c/gvdb.h says so many KiB of each; here every call is made on a thread that has just these, and on smaller
//! ones, down to the least with which it answers. An overflow ends its process, so each call is made in one of its own: `stack CALL KIB`.

mod ffi;

use ffi::{abi, check, first_bad, get, get_layered, get_table, lay_header, memory_words, next_child, next_key, next_value, open, read_header};
use ffi::{Builder, Lent, ABI, SIGNED};
use std::process::{Command, Stdio};

const HEADER: &str = include_str!("../../bindings/c/gvdb.h");

/// The smallest thread that is tried: the system gives none with much less.
const LEAST: usize = 16;

/// The functions that the header declares.
fn calls() -> Vec<&'static str> {
    let declared = HEADER.lines().filter(|line| line.starts_with(char::is_alphabetic));
    declared.filter_map(|line| line.split_once('(')?.0.rsplit(' ').next()).collect()
}

/// As much as a builder takes: tables to depth 8, 1,024 items, long keys with many containers.
fn full() -> Builder {
    let mut builder = Builder::fresh(1 << 20);
    for table in 0..8 {
        builder.new_table(b"/");
        if table > 0 {
            assert_eq!(builder.insert_table(table, b"t", table - 1).number, 0);
        }
    }
    for i in 0.. {
        let key = format!("a/b/c/d/{}/{i}", "k".repeat(500));
        let value = [7; 9];
        if builder.insert(7, key.as_bytes(), &value).number != 0 {
            break;
        }
    }
    assert_eq!(builder.item_count(7).number, 0);
    builder
}

/// Makes one call, on a thread with so many KiB; all that it needs stands ready before.
fn make(call: &str, kib: usize) {
    let mut builder = full();
    let mut image = vec![0; 4 << 20];
    let written = builder.write(7, &mut image, SIGNED);
    assert_eq!(written.number, 0);
    let (start, end) = (written.start, written.end);
    let mut out = vec![0; 2048];
    let mut empty = Builder::fresh(64);
    let mut two = Builder::fresh(64);
    two.new_table(b"/");
    two.new_table(b"/");
    let key = format!("a/b/c/d/{}/7", "k".repeat(500)).into_bytes();
    let call = call.to_string();
    assert_eq!(lay_header(&mut image, 0, start, end), 0);
    let made = move || match call.as_str() {
        "gvdb_abi" => u32::from(abi() != ABI),
        "gvdb_read_header" => read_header(&image).number,
        "gvdb_lay_header" => lay_header(&mut image, 1, start, end),
        "gvdb_first_bad" => u32::from(first_bad(&key) != key.len()),
        "gvdb_open" => open(&image, start, end).number,
        "gvdb_get" => get(&image, start, end, &key, SIGNED).number,
        "gvdb_get_table" => get_table(&image, start, end, b"t", SIGNED).number,
        "gvdb_get_layered" => {
            let above = get_table(&image, start, end, b"t", SIGNED);
            let [owner, district] = [(above.start, above.end), (start, end)].map(|(start, end)| Lent { file: &image, start, end, manner: SIGNED });
            let found = get_layered(owner, district, &key);
            found.number + 1 - found.from
        }
        "gvdb_next_key" => next_key(&image, start, end, 9, &mut out).number,
        "gvdb_next_value" => next_value(&image, start, end, 9).number,
        "gvdb_next_child" => next_child(&image, start, end, &key[..key.len() - 1], 9, SIGNED).number,
        "gvdb_check" => check(&image, start, end, SIGNED).number,
        "gvdb_memory_words" => u32::from(memory_words() == 0),
        "gvdb_fresh" => empty.again(),
        "gvdb_new_table" => empty.new_table(b"/").number,
        "gvdb_insert" => two.insert(0, b"a/b/c/d", b"value").number,
        "gvdb_insert_table" => two.insert_table(0, b"a/b/c/d", 1).number,
        "gvdb_item_count" => builder.item_count(7).number,
        "gvdb_write" => builder.write(7, &mut image, SIGNED).number,
        _ => panic!("{call} is not made here"),
    };
    let thread = std::thread::Builder::new().stack_size(kib << 10).spawn(made).expect("a thread");
    assert_eq!(thread.join().expect("an answer"), 0);
}

/// Whether the call answers on a thread with so many KiB.
fn answers(call: &str, kib: usize) -> bool {
    let this = std::env::current_exe().expect("this program");
    Command::new(this).args([call, &kib.to_string()]).stderr(Stdio::null()).status().expect("a process").success()
}

/// What the header says of a call, in a line of its own or as every other call.
fn said(call: &str) -> usize {
    let line = |name: &str| HEADER.lines().find_map(|line| line.trim().strip_prefix(&format!("*       {name}: "))?.strip_suffix(" KiB")?.parse().ok());
    line(call).or_else(|| line("every other call")).expect("the header's figure")
}

fn main() {
    let words: Vec<String> = std::env::args().skip(1).collect();
    if let [call, kib] = &words[..] {
        return make(call, kib.parse().expect("a number"));
    }
    for call in calls() {
        let most = said(call);
        assert!(answers(call, most), "{call} dies with the {most} KiB of gvdb.h");
        let least = (LEAST..most).step_by(4).find(|kib| answers(call, *kib)).unwrap_or(most);
        assert!(least == LEAST || most - least <= 16, "{call} takes {least} KiB, and gvdb.h says {most}");
        if least > LEAST {
            println!("{call}: {most} KiB of stack in gvdb.h, {least} are enough");
        }
    }
    println!("{} calls, each with the stack that gvdb.h says", calls().len());
}
