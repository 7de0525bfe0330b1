//! Where a key or a stored fragment is not UTF-8: the byte is said, by every command that meets one.

use crate::harness::*;
use crate::json::Json;
use std::ffi::OsStr;
use std::fs;
use std::os::unix::ffi::OsStrExt;
use std::path::{Path, PathBuf};

/// Lays a file from lines, and changes the byte behind so many of the first text that is found in it.
fn damaged(name: &str, lines: &str, text: &[u8], at: usize, byte: u8) -> PathBuf {
    let place = folder(name).join("f.gvdb");
    build(&place, lines);
    let mut file = fs::read(&place).unwrap();
    let found = (24..file.len()).find(|&from| file[from..].starts_with(text)).expect("the text");
    file[found + at] = byte;
    fs::write(&place, file).unwrap();
    place
}

fn fed(name: &str, lines: &[u8]) -> Ran {
    let place = folder(name).join("out.gvdb");
    let ran = gvdb_fed([OsStr::new("build"), "-o".as_ref(), place.as_os_str()], lines);
    assert!(!place.exists());
    ran
}

/// `why`, `at` and `key_refusal` of the first table, as `check --json` has them.
fn verdict(place: &Path) -> [Json; 3] {
    let json = Json::parse(gvdb(["check".as_ref(), place.as_os_str(), "--json".as_ref()]).ends(1).text());
    let table = &json.list()[0].at("tables").list()[0];
    ["why", "at", "key_refusal"].map(|name| table.at(name).clone())
}

fn said(why: Option<u64>, at: Option<u64>) -> [Json; 3] {
    [why, at, why].map(|number| number.map_or(Json::Null, Json::Number))
}

#[test]
fn a_given_key() {
    let file = worked("one.gvdb");
    for (key, words) in [
        (&b"caf\xe9"[..], "\"caf\\xe9\": the key is not UTF-8 at byte 3 (E9)"),
        (b"\xe9t\xe9", "\"\\xe9t\\xe9\": the key is not UTF-8 at byte 0 (E9)"),
        (b"a\xc3", "\"a\\xc3\": the key is not UTF-8 at byte 1 (C3)"),
        (b"ok\xc0\x80", "\"ok\\xc0\\x80\": the key is not UTF-8 at byte 2 (C0)"),
        (b"\xc3\xa9\\xff", "\"é\\xff\": the key is not UTF-8 at byte 2 (FF)"),
    ] {
        let said = format!("{words}; give it in UTF-8, or as gvdb list prints it (8)\n");
        gvdb(["get".as_ref(), file.as_os_str(), OsStr::from_bytes(key)]).ends(1).says(&format!("one.gvdb: key {said}"));
        gvdb(["list".as_ref(), file.as_os_str(), "--table".as_ref(), OsStr::from_bytes(key)]).ends(1).says(&format!("one.gvdb: table {said}"));
    }
}

#[test]
fn a_list_that_is_built() {
    let latin1 = "; if the list is in Latin-1, iconv -f latin1 -t utf8 turns it into UTF-8 (8)\n";
    let other = "; give it in UTF-8, or as gvdb list prints it (8)\n";
    let escapes = "; its escapes give other bytes than UTF-8 (8)\n";
    for (lines, place, advice) in [
        (&b"/parcel/1\t01\n/parcel/Gr\xfcn\t02\n"[..], "line 2: the key is not UTF-8 at byte 10 (FC)", latin1),
        (b"caf\xe9\tk\t01\n", "line 1: the key is not UTF-8 at byte 3 (E9)", latin1),
        (b"\n\nt\tk\xe9\xe8\t01\r\n", "line 3: the key is not UTF-8 at byte 1 (E9)", latin1),
        (b"a\\tb\xe9\t01\n", "line 1: the key is not UTF-8 at byte 3 (E9)", latin1),
        (b"caf\\xe9\t01\n", "line 1: the key is not UTF-8 at byte 3 (E9)", escapes),
        (b"2 \xd7 3\t01\n", "line 1: the key is not UTF-8 at byte 2 (D7)", other),
        (b"\xe9 \xa4\t01\n", "line 1: the key is not UTF-8 at byte 0 (E9)", other),
        (b"\xe2\x82\t01\n", "line 1: the key is not UTF-8 at byte 0 (E2)", other),
        (b"k\xc0\x80\t01\n", "line 1: the key is not UTF-8 at byte 1 (C0)", other),
    ] {
        fed("latin1", lines).ends(1).says(&format!("gvdb: {place}{advice}"));
    }
}

/// The words of the advice, done.
#[test]
fn a_list_in_latin1_is_turned() {
    let folder = folder("turned");
    fs::write(folder.join("list.txt"), b"/parcel/Gr\xfcn\t02\n").unwrap();
    if shell(&folder, "iconv -f latin1 -t utf8 < list.txt > good.txt").status != 0 {
        return skipped("no iconv, which the advice names");
    }
    shell(&folder, "\"$GVDB\" build -o f.gvdb < good.txt && \"$GVDB\" list f.gvdb /parcel/G").ends(0).prints("value            1  /parcel/Grün\n");
}

#[test]
fn what_check_says_of_rule_1() {
    let words = |at: usize| format!(": its key does not read: a stored key fragment is not UTF-8 at byte {at} (rule 1, refusal 9)\n");
    let own = damaged("own-fragment", "r/cafe\t01\n", b"cafe", 3, 0xE9);
    gvdb(["check".as_ref(), own.as_os_str()]).ends(1).prints(&words(3));
    assert_eq!(verdict(&own), said(Some(9), Some(3)));
    // the fragment of the container above: each item is told with the offset there
    let above = damaged("above", "woods/oak/1\t01\n", b"woods/", 2, 0xE9);
    gvdb(["check".as_ref(), above.as_os_str()]).ends(1).prints(&words(2));
    assert_eq!(verdict(&above), said(Some(9), Some(2)));
    let first = damaged("first-byte", "cafe\t01\n", b"cafe", 0, 0xFF);
    assert_eq!(verdict(&first), said(Some(9), Some(0)));
    for command in ["dump", "list", "tree"] {
        let ran = gvdb([command.as_ref(), own.as_os_str()]);
        assert!(ran.stderr.contains(": its key does not read: a stored key fragment is not UTF-8 at byte 3; "), "{}", ran.stderr);
    }
}

/// What else breaks rule 1 has a number and no byte; the other rules have neither.
#[test]
fn what_check_says_without_a_byte() {
    assert_eq!(verdict(&worked("rule_1.gvdb")), said(Some(2), None));
    for rule in 2..=6 {
        assert_eq!(verdict(&worked(&format!("rule_{rule}.gvdb"))), said(None, None));
    }
    // the parent of the one item, at byte 40: past the last item, and itself
    for (parent, why, words) in
        [(5u32, 10, "a parent index, or a child index, is not below the item count"), (0, 11, "the chain of parents never reaches a root")]
    {
        let place = folder("parents").join("f.gvdb");
        build(&place, "a\t01\n");
        let mut file = fs::read(&place).unwrap();
        file[40..44].copy_from_slice(&parent.to_le_bytes());
        fs::write(&place, file).unwrap();
        gvdb(["check".as_ref(), place.as_os_str()]).ends(1).prints(&format!("item 0: its key does not read: {words} (rule 1, refusal {why})\n"));
        assert_eq!(verdict(&place), said(Some(why), None));
    }
}

#[test]
fn what_list_and_tree_say() {
    let place = damaged("listed-bad", "cafe\t01\noak\t02\n", b"cafe", 3, 0xE9);
    let line = "whose key does not read: a stored key fragment is not UTF-8 at byte 3 (9)";
    gvdb(["list".as_ref(), place.as_os_str()]).ends(0).prints(line);
    gvdb(["tree".as_ref(), place.as_os_str()]).ends(1).prints(line);
    for (command, status, items) in [("list", 0, "items"), ("tree", 1, "below")] {
        let json = Json::parse(gvdb([command.as_ref(), place.as_os_str(), "--json".as_ref()]).ends(status).text());
        let bad = json.at(items).list().iter().find(|item| item.at("key") == &Json::Null).expect("the item");
        assert_eq!((bad.at("key_refusal"), bad.at("at")), (&Json::Number(9), &Json::Number(3)));
    }
    let json = Json::parse(gvdb(["list".as_ref(), worked("refusals.gvdb").as_os_str(), "--json".as_ref()]).ends(0).text());
    let unread = json.at("items").list().iter().filter(|item| item.at("key") == &Json::Null);
    let unread: Vec<_> = unread.map(|item| (item.at("key_refusal"), item.at("at"))).collect();
    assert!(unread.contains(&(&Json::Number(2), &Json::Null)) && unread.contains(&(&Json::Number(9), &Json::Number(0))), "{unread:?}");
}

#[test]
fn a_decision() {
    let folder = folder("decision");
    build(&folder.join("a.gvdb"), "k\t01\n");
    build(&folder.join("b.gvdb"), "k\t02\n");
    fs::write(folder.join("decisions.txt"), b"# a note\nown caf\xe9\n").unwrap();
    shell(&folder, "\"$GVDB\" merge a.gvdb b.gvdb -o c.gvdb --decide decisions.txt")
        .ends(2)
        .says("decisions.txt: line 2: the key is not UTF-8 at byte 3 (E9)\n");
}
