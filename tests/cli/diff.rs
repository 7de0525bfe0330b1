//! diff and same.

use crate::harness::*;
use crate::json::Json;
use crate::model::{self, random, Node, Table};
use std::collections::BTreeMap;
use std::ffi::OsStr;
use std::fs;
use std::path::{Path, PathBuf};

fn pair(name: &str, a: &str, b: &str) -> [PathBuf; 2] {
    let folder = folder(name);
    let files = ["a", "b"].map(|side| folder.join(side));
    build(&files[0], a);
    build(&files[1], b);
    files
}

fn diff(a: &Path, b: &Path, words: &[&str]) -> Ran {
    let words: Vec<&OsStr> = words.iter().map(OsStr::new).collect();
    gvdb([&["diff".as_ref(), a.as_os_str(), b.as_os_str()], &words[..]].concat())
}

/// Holds that `same` answers as `diff` does and prints nothing.
fn same(a: &Path, b: &Path, status: i32) {
    let ran = gvdb(["same".as_ref(), a.as_os_str(), b.as_os_str()]).ends(status);
    assert!(ran.stdout.is_empty() && ran.stderr.is_empty() == (status < 2));
}

#[test]
fn every_difference_is_named() {
    let long = "00".repeat(100);
    let a = format!("/p/1\t01\n/p/2\t02\nonly/a\taa\nt\tx\t01\nt\tsame\t07\nkind\t05\nlong\t{long}01{long}\n");
    let b = format!("/p/1\t01\n/p/2\t0203\nt\tx\t02\nt\tsame\t07\nt\tu\ty\tff\nkind\tz\t06\nlong\t{long}02{long}\nz\t\n");
    let [a, b] = pair("diff", &a, &b);
    let ran = diff(&a, &b, &[]).ends(1);
    let named = "
value \"/p/2\"
    A  value of 1 byte: 02
    B  value of 2 bytes: 0203
kind \"kind\"
    A  value of 1 byte: 05
    B  table of 1 item
only in B \"kind\" > \"z\": value of 1 byte: 06
value \"long\": they differ from byte 100 on
    A  value of 201 bytes: ...01{}...
    B  value of 201 bytes: ...02{}...
only in A \"only/\": container
only in A \"only/a\": value of 1 byte: aa
only in B \"t\" > \"u\": table of 1 item
only in B \"t\" > \"u\" > \"y\": value of 1 byte: ff
value \"t\" > \"x\"
    A  value of 1 byte: 01
    B  value of 1 byte: 02
only in B \"z\": value of 0 bytes:
not alike: 2 only in A, 4 only in B, 3 with another value, 1 of another kind; 5 items alike
";
    assert_eq!(ran.text().split_once('\n').unwrap().1, named.trim_start().replace("{}", &"00".repeat(31)));
    same(&a, &b, 1);
    let json = Json::parse(diff(&a, &b, &["--json"]).ends(1).text());
    let long_one = json.at("differences").list().iter().find(|difference| difference.at("key").text() == "long").unwrap();
    assert_eq!((long_one.at("a").at("value").text().len(), long_one.at("b").at("size")), (402, &Json::Number(201)));
}

#[test]
fn files_that_are_alike() {
    let [a, b] = pair("alike", "/p/1\t01\nt\tx\t02\n", "t\tx\t02\n/p/1\t01\n");
    diff(&a, &b, &[]).ends(0).prints("\nalike: 5 items, byte for byte\n");
    same(&a, &b, 0);
    // other bytes, the same content: something behind the last one
    fs::write(&b, [fs::read(&a).unwrap(), vec![0; 8]].concat()).unwrap();
    let ran = diff(&a, &b, &[]).ends(0);
    assert!(ran.text().ends_with("\nalike: 5 items\n"), "{}", ran.text());
    same(&a, &b, 0);
    let json = Json::parse(diff(&a, &b, &["--json"]).ends(0).text());
    assert_eq!((json.at("alike"), json.at("same_bytes"), json.at("same_children_order")), (&Json::Bool(true), &Json::Bool(false), &Json::Bool(true)));
}

#[test]
fn byte_orders_differ() {
    let [a, b] = pair("orders", "k\t01\n", "k\t01\n");
    let mut file = fs::read(&b).unwrap();
    file[..8].copy_from_slice(b"raVGtnai");
    fs::write(&b, file).unwrap();
    diff(&a, &b, &[]).ends(1).prints("byte order: the values of A are little-endian, those of B big-endian\nnot alike: 0 only in A");
    same(&a, &b, 1);
}

#[test]
fn what_cannot_be_read_is_2() {
    let [a, _] = pair("unread", "k\t01\n", "k\t01\n");
    for (file, said) in [
        (worked("rule_3.gvdb"), "root table: not sound: "),
        (worked("nested.gvdb"), "root table: not sound: "),
        (PathBuf::from("/nowhere"), "/nowhere: No such file"),
        (PathBuf::from("/dev/null"), "(16)"),
    ] {
        for (a, b) in [(&a, &file), (&file, &a), (&file, &file)] {
            for words in [&[][..], &["--json"]] {
                assert!(diff(a, b, words).ends(2).says(said).stdout.is_empty());
            }
            same(a, b, 2);
        }
    }
}

/// All that two tables do not have alike, by place: kinds and values as the program prints them in JSON, with the containers that `/` makes.
fn expected(a: &Table, b: &Table, path: &[String], found: &mut BTreeMap<Vec<String>, [String; 2]>) {
    let sides = [a, b].map(|table| {
        let mut items: BTreeMap<String, String> = model::containers(table).into_iter().map(|key| (key, "container".to_string())).collect();
        items.extend(table.iter().map(|(key, node)| match node {
            Node::Value(bytes) => (key.clone(), format!("value {}", hex(bytes))),
            Node::Table(_) => (key.clone(), "table".to_string()),
        }));
        items
    });
    let none = Table::new();
    for key in sides[0].keys().chain(sides[1].keys()) {
        let place = [path, std::slice::from_ref(key)].concat();
        let held = [0, 1].map(|side: usize| sides[side].get(key).cloned().unwrap_or_default());
        let nested = |table: &Table| match table.get(key) {
            Some(Node::Table(nested)) => nested.clone(),
            _ => none.clone(),
        };
        expected(&nested(a), &nested(b), &place, found);
        if held[0] != held[1] {
            found.insert(place, held);
        }
    }
}

#[test]
fn random_files() {
    let mut dice = Dice(0xD1FF_5EED_0000_0001);
    let mut statuses = [0; 2];
    for round in 0..60 {
        let a = random(&mut dice, 2);
        let b = if round % 6 == 0 { a.clone() } else { random(&mut dice, 2) };
        let files = pair("random-diff", &model::lines(&a, ""), &model::lines(&b, ""));
        let mut differences = BTreeMap::new();
        expected(&a, &b, &[], &mut differences);
        let status = i32::from(!differences.is_empty());
        let json = Json::parse(diff(&files[0], &files[1], &["--json"]).ends(status).text());
        let held = |side: &Json| match side {
            Json::Null => String::new(),
            side if side.at("kind").text() == "value" => format!("value {}", side.at("value").text()),
            side => side.at("kind").text().to_string(),
        };
        let place = |entry: &Json| entry.at("path").list().iter().chain([entry.at("key")]).map(|key| key.text().to_string()).collect();
        let told: BTreeMap<Vec<String>, [String; 2]> =
            json.at("differences").list().iter().map(|entry| (place(entry), [held(entry.at("a")), held(entry.at("b"))])).collect();
        assert_eq!(told, differences, "{a:?} {b:?}");
        let lines = diff(&files[0], &files[1], &[]).ends(status);
        let named = lines.text().lines().filter(|line| ["only in A ", "only in B ", "value ", "kind "].iter().any(|word| line.starts_with(word))).count();
        assert_eq!(named, differences.len());
        same(&files[0], &files[1], status);
        statuses[status as usize] += 1;
    }
    assert!(statuses.iter().all(|count| *count >= 10), "{statuses:?}");
}

/// Every real file that is sound is like itself, and unlike each other one.
#[test]
fn real_files() {
    let Some(real) = real() else { return };
    let sound = |file: &Path| gvdb(["check".as_ref(), file.as_os_str()]).status == 0;
    let files: Vec<PathBuf> = fs::read_dir(real).unwrap().map(|entry| entry.unwrap().path()).filter(|file| sound(file)).collect();
    assert!(files.len() > 10);
    for (at, file) in files.iter().enumerate() {
        diff(file, file, &[]).ends(0).prints(", byte for byte\n");
        let next = &files[(at + 1) % files.len()];
        let (there, back) = (diff(file, next, &["--json"]), diff(next, file, &["--json"]));
        assert_eq!(there.status, back.status);
        let (there, back) = (Json::parse(there.text()), Json::parse(back.text()));
        assert_eq!(there.at("items").at("only_a"), back.at("items").at("only_b"));
    }
}
