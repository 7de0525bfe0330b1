//! Walks GVDB files that GLib, dconf and gvdb-rs made, nested tables too, and writes one line for each: what its header says, what opens and lists; then for both forms
//! of the hash what is found and what the check says, by the Rust's lookup and by the strict one.
//! Use: real FOLDER

mod ffi;

use ffi::{check, get, get_table, next_child, next_key, next_value, open, read_header, Opened, SIGNED, STRICT};

#[derive(Default)]
struct Sum {
    tables: u32,
    items: u32,
    values: u32,
    found: u32,
    missed: u32,
    children: usize,
    refused: u32,
    broken: Vec<(u32, usize)>,
}

/// The indices of the children of a container. In a table whose keys list, the key and each fragment are the child's key.
fn children(file: &[u8], start: u32, end: u32, key: &[u8], manner: u32) -> Vec<usize> {
    let mut found = Vec::new();
    assert_eq!(next_child(file, start, end, key, usize::MAX, manner).number, 15);
    loop {
        let child = next_child(file, start, end, key, found.len(), manner);
        if child.number == 15 {
            return found;
        }
        assert_eq!((child.number, child.next), (0, found.len() + 1));
        let mut out = vec![0; 4096];
        let listed = next_key(file, start, end, child.index, &mut out);
        assert!(listed.number == 0 && out[..listed.length] == [key, &file[child.start as usize..child.end as usize]].concat());
        found.push(child.index);
    }
}

/// The items that name a parent, by the words of their records.
fn with_parent(file: &[u8], start: u32, opened: &Opened) -> Vec<usize> {
    let items = start as usize + 8 + 4 * (opened.blooms + opened.buckets) as usize;
    (0..opened.items as usize).filter(|item| file[items + 24 * item + 4..items + 24 * item + 8] != [0xFF; 4]).collect()
}

/// A table and those nested in it. Every key that lists is looked up; one that is found as a value lies where value listing has it. Of a sound table, the
/// children of all containers are all items with a parent, each once.
fn walk(file: &[u8], start: u32, end: u32, manner: u32, sum: &mut Sum) {
    let opened = open(file, start, end);
    if opened.number != 0 {
        sum.refused += 1;
        return;
    }
    sum.tables += 1;
    sum.items += opened.items;
    let checked = check(file, start, end, manner);
    if checked.number != 0 {
        sum.broken.push((checked.rule, checked.item));
    }
    let mut places = Vec::new();
    let mut position = 0;
    loop {
        let value = next_value(file, start, end, position);
        match value.number {
            0 => places.push((value.start, value.end)),
            15 => break,
            _ => sum.refused += 1,
        }
        position = value.next;
    }
    sum.values += places.len() as u32;
    let mut below = Vec::new();
    for i in 0..opened.items as usize {
        let mut out = vec![0; 4096];
        let key = next_key(file, start, end, i, &mut out);
        if key.number != 0 {
            sum.refused += 1;
            continue;
        }
        let place = get(file, start, end, &out[..key.length], manner);
        let nested = get_table(file, start, end, &out[..key.length], manner);
        match (place.number, nested.number) {
            (0, _) => {
                assert!(places.contains(&(place.start, place.end)));
                sum.found += 1;
            }
            (_, 0) => {
                sum.found += 1;
                walk(file, nested.start, nested.end, manner, sum);
            }
            (13, 13) if next_child(file, start, end, &out[..key.length], usize::MAX, manner).number == 15 => {
                sum.found += 1;
                below.extend(children(file, start, end, &out[..key.length], manner));
            }
            (13, 13) => sum.found += 1,
            (12, 12) => sum.missed += 1,
            _ => sum.refused += 1,
        }
    }
    sum.children += below.len();
    below.sort();
    assert!(checked.number != 0 || below == with_parent(file, start, &opened));
}

/// What a walk in one form found.
fn said(sum: &Sum) -> String {
    let sound = match sum.broken.first() {
        None => "sound".to_string(),
        Some((rule, item)) => format!("rule {rule} broken by item {item}"),
    };
    format!("found {}, not found {}, children {}, refused {}, {sound}", sum.found, sum.missed, sum.children, sum.refused)
}

fn main() {
    let folder = std::env::args().nth(1).expect("a folder");
    let mut paths: Vec<_> = std::fs::read_dir(folder).expect("the folder").map(|e| e.expect("an entry").path()).collect();
    paths.sort();
    for path in paths {
        let name = path.file_name().expect("a name").to_string_lossy().into_owned();
        let file = std::fs::read(&path).expect("the file");
        let header = read_header(&file);
        if header.number != 0 {
            println!("{name}: no header, {}", header.number);
            continue;
        }
        let order = if header.big == 0 { "little" } else { "big" };
        let walked = |manner: u32| {
            let mut sum = Sum::default();
            walk(&file, header.start, header.end, manner, &mut sum);
            sum
        };
        let [plain, signed] = [0, SIGNED].map(walked);
        let strict = [STRICT, SIGNED | STRICT].map(|manner| said(&walked(manner)));
        let [tables, items, values] = [signed.tables, signed.items, signed.values];
        let [plain, signed] = [said(&plain), said(&signed)];
        let strict = if strict == [&plain[..], &signed[..]] { "alike".to_string() } else { strict.join("; ") };
        println!("{name}: {order}, tables {tables}, items {items}, values {values}; plain: {plain}; signed: {signed}; strict: {strict}");
    }
}
