//! check, list, tree and get.

use crate::harness::*;
use crate::json::Json;
use std::ffi::{OsStr, OsString};
use std::fs;
use std::os::unix::ffi::OsStrExt;

#[test]
fn check_of_small_files() {
    for (name, status, said) in [
        ("one.gvdb", 0, "root table: sound, 1 item\n"),
        ("gvdbrs-test1.gvdb", 0, "root table: sound, 1 item\n"),
        ("gvdbrs-test2.gvdb", 0, "table \"table\": sound, 1 item\n"),
        ("gvdbrs-test3.gresource", 0, "root table: sound, 12 items\n"),
        ("rule_1.gvdb", 1, "not sound: item 0: its key does not read: a pointer starts above its end, or ends past the file (rule 1, refusal 2)\n"),
        ("rule_2.gvdb", 1, "not sound: item 0, key \"\": a lookup of its key does not find it (rule 2)\n"),
        ("rule_3.gvdb", 1, "not sound: item 0, key \"\": its kind is none of value, table and container (rule 3)\n"),
        ("rule_4.gvdb", 1, "not sound: item 0, key \"\": its value does not open"),
        ("rule_5.gvdb", 1, "not sound: item 0, key \"\": a child that it lists"),
        ("rule_6.gvdb", 1, "not sound: item 1, key \"a\": its parent is not a container"),
        ("nested.gvdb", 1, "table \"a\": sound, 1 item\n"),
    ] {
        let ran = gvdb(["check".as_ref(), worked(name).as_os_str()]).ends(status).prints(said);
        assert!(ran.stderr.is_empty());
    }
    gvdb(["check".as_ref(), worked("one.gvdb").as_os_str(), worked("rule_1.gvdb").as_os_str()]).ends(1).prints("one.gvdb: root table: sound");
    gvdb(["check".as_ref(), OsStr::new("/nowhere"), worked("rule_1.gvdb").as_os_str()]).ends(2).prints("rule 1").says("/nowhere: No such file");
}

/// The command line says of real files what tests/outside found.
#[test]
fn check_of_real_files() {
    let Some(real) = real() else { return };
    let stored = fs::read_to_string(root().join("tests/outside/real.txt")).unwrap();
    let mut files = 0;
    for line in stored.lines() {
        let (name, found) = line.split_once(": ").unwrap();
        let ran = gvdb(["check".as_ref(), real.join(name).as_os_str()]);
        files += 1;
        let Some((_, forms)) = found.split_once("; plain: ") else {
            let number = found.strip_prefix("no header, ").unwrap();
            ran.ends(2).says(&format!("no GVDB file ({number})"));
            continue;
        };
        let (plain, signed) = forms.split_once("; strict: ").and_then(|(forms, _)| forms.split_once("; signed: ")).unwrap();
        let said = match plain.split_once(", rule ").and_then(|(_, broken)| broken.split_once(" broken by item ")) {
            None => ": sound, ",
            Some(_) if signed.ends_with(", sound") => ": sound in the signed form (GLib's), ",
            Some((rule, item)) => {
                ran.ends(1).prints(&format!("not sound: item {item}, key ")).prints(&format!("(rule {rule})\n"));
                continue;
            }
        };
        let tables = found.split_once(", tables ").and_then(|(_, found)| found.split_once(',')).unwrap().0;
        assert_eq!(ran.ends(0).text().lines().filter(|line| line.contains(said)).count().to_string(), tables, "{name}");
    }
    assert!(files > 15);
}

#[test]
fn list_with_kinds_and_sizes() {
    let file = worked("gvdbrs-test3.gresource");
    let ran = gvdb(["list".as_ref(), file.as_os_str(), "/gvdb/rs/test/".as_ref()]).ends(0);
    let lines = "\
container        4  /gvdb/rs/test/
container        1  /gvdb/rs/test/icons/
container        1  /gvdb/rs/test/icons/scalable/
container        1  /gvdb/rs/test/icons/scalable/actions/
value          269  /gvdb/rs/test/icons/scalable/actions/send-symbolic.svg
container        1  /gvdb/rs/test/json/
value           49  /gvdb/rs/test/json/test.json
value        1,406  /gvdb/rs/test/online-symbolic.svg
value           59  /gvdb/rs/test/test.css
";
    assert_eq!(ran.text(), lines);
    let nested = gvdb(["list".as_ref(), worked("gvdbrs-test2.gvdb").as_os_str(), "--table".as_ref(), "table".as_ref(), "--values".as_ref()]).ends(0);
    assert_eq!(nested.text(), "value            6  int\t0000002a0075\n");
    gvdb(["list".as_ref(), file.as_os_str(), "--table".as_ref(), "/gvdb/".as_ref()])
        .ends(1)
        .says("it is a container; gvdb list FILE KEY shows what is below (13)\n");
    // a table that is not sound is listed as far as it reads, and it is said
    let ran = gvdb(["list".as_ref(), worked("refusals.gvdb").as_os_str()]).ends(0).says("not sound: item 0: its key does not read: ");
    assert!(
        ran.text().contains("item 1, whose key does not read: a stored key fragment is not UTF-8 at byte 0 (9)\n")
            && ran.text().contains("refused        (3)  a\n")
    );
}

#[test]
fn tree_of_containers_and_tables() {
    let folder = folder("tree");
    let file = folder.join("t.gvdb");
    build(&file, "/a/b\t01\n/a/c/d\t0102\n/e\t\ntable\tinner\tx/y\t00\ntable\tz\t00\n\\n\t00\n");
    let ran = gvdb(["tree".as_ref(), file.as_os_str()]).ends(0);
    let drawn = "
├── \\n  1 byte
├── /
│   ├── a/
│   │   ├── b  1 byte
│   │   └── c/
│   │       └── d  2 bytes
│   └── e  0 bytes
└── table  table, 2 items
    ├── inner  table, 2 items
    │   └── x/
    │       └── y  1 byte
    └── z  1 byte
";
    assert_eq!(ran.text().split_once("  8 items").unwrap().1, drawn);
}

#[test]
fn get_of_values_and_refusals() {
    let folder = folder("get");
    let file = folder.join("g.gvdb");
    build(&file, "a\t00ff0a0d\n-k\t01\nt\tu\tx\t02\n");
    let get = |words: &[&OsStr]| gvdb([&["get".as_ref(), file.as_os_str()], words].concat());
    assert_eq!(get(&["a".as_ref()]).ends(0).stdout, [0, 255, 10, 13]);
    assert_eq!(get(&["a".as_ref(), "--hex".as_ref()]).ends(0).stdout, b"00ff0a0d\n");
    assert_eq!(get(&["--".as_ref(), "-k".as_ref()]).ends(0).stdout, [1]);
    assert_eq!(get(&["--table".as_ref(), "t".as_ref(), "x".as_ref(), "--table=u".as_ref()]).ends(0).stdout, [2]);
    get(&["b".as_ref()]).ends(1).says("key \"b\": the table has no such key; gvdb list FILE shows those that are there (12)\n");
    get(&["t".as_ref()]).ends(1).says("key \"t\": it is a table; gvdb list FILE --table KEY shows what it holds (13)\n");
    get(&["x".as_ref(), "--table".as_ref(), "a".as_ref()]).ends(1).says("table \"a\": it is a value; gvdb get FILE KEY writes it (13)\n");
    get(&[OsStr::from_bytes(b"\xff")]).ends(1).says("key \"\\xff\": the key is not UTF-8 at byte 0 (FF); ");
}

#[test]
fn json_of_any_key_is_whole() {
    let folder = folder("json");
    let file = folder.join("j.gvdb");
    build(&file, "tab\\tquote\"back\\\\nl\\ncr\\rnul\\x00del\\x7fcsi\\xc2\\x9bé木\t0102\n\\x1b[31m\t{}\nlong\t000102030405060708090a0b0c0d0e0f101112131415161718191a1b1c1d1e1f20\n");
    let strange = "tab\tquote\"back\\nl\ncr\rnul\0del\u{7f}csi\u{9b}é木";
    let ran = gvdb(["list".as_ref(), file.as_os_str(), "--json".as_ref(), "--values".as_ref()]).ends(0);
    let json = Json::parse(ran.text());
    let items = json.at("items").list();
    let keys: Vec<&str> = items.iter().map(|item| item.at("key").text()).collect();
    assert_eq!(keys, ["\u{1b}[31m", "long", strange]);
    assert_eq!((items[2].at("value").text(), items[2].at("kind").text(), items[2].at("size")), ("0102", "value", &Json::Number(2)));
    assert_eq!((items[0].at("kind").text(), items[0].at("size")), ("table", &Json::Number(0)));
    assert_eq!(items[1].at("value").text(), (0..=32).map(|byte| format!("{byte:02x}")).collect::<String>(), "a long value is there whole");
    assert_eq!(gvdb(["list".as_ref(), file.as_os_str(), "--json".as_ref()]).ends(0).stdout, ran.stdout, "JSON has the values unasked");
    let check = gvdb(["check".as_ref(), file.as_os_str(), worked("rule_6.gvdb").as_os_str(), "/nowhere".as_ref(), "--json".as_ref()]).ends(2);
    let files = Json::parse(check.text());
    let [good, bad, missing] = files.list() else { panic!("three files") };
    assert_eq!((good.at("sound"), good.at("tables").list()[1].at("path").list()[0].text()), (&Json::Bool(true), "\u{1b}[31m"));
    let broken = &bad.at("tables").list()[0];
    assert_eq!((broken.at("rule"), broken.at("item"), broken.at("key").text()), (&Json::Number(6), &Json::Number(1), "a"));
    assert_eq!((missing.at("status"), missing.at("failure").at("number")), (&Json::Number(2), &Json::Null));
    // the lines on a terminal are kept apart from what keys say
    let list = gvdb(["list".as_ref(), file.as_os_str()]).ends(0);
    assert!(list.text().lines().count() == 3 && !list.text().chars().any(|c| c.is_control() && c != '\n'));
    let every = gvdb(["list".as_ref(), worked("refusals.gvdb").as_os_str(), "--json".as_ref()]).ends(0);
    assert_eq!(Json::parse(every.text()).at("items").list().len(), 12);
}

#[test]
fn a_file_name_of_any_bytes() {
    let folder = folder("names");
    let mut name = folder.as_os_str().to_os_string();
    name.push(OsStr::from_bytes(b"/line\nbreak\xff"));
    let words = |command: &str| [OsString::from(command), name.clone()];
    gvdb_fed([OsString::from("build"), OsString::from("-o"), name.clone()], b"a\t01\n").ends(0).prints("/line\\nbreak\\xff: 1 value, 65 bytes\n");
    assert_eq!(gvdb(words("check")).ends(0).text().lines().count(), 1);
    let list = Json::parse(gvdb([&words("list")[..], &["--json".into()]].concat()).ends(0).text());
    assert!(list.at("file").text().ends_with("/line\\nbreak\\xff"), "{list:?}");
    fs::write(&name, "short").unwrap();
    gvdb(words("check")).ends(2).says("/line\\nbreak\\xff: the file is shorter than a header of 24 bytes; it is empty or cut, or no GVDB file (16)\n");
}
