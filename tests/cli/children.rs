//! The order of a container's children: drawn, kept by dump, build and merge, and compared; and what a container is told by.

use crate::harness::*;
use crate::json::Json;
use crate::model::{self, random};
use std::ffi::OsStr;
use std::fs;
use std::path::{Path, PathBuf};

fn run(command: &str, file: &Path, words: &[&str]) -> Ran {
    let words = words.iter().map(OsStr::new);
    gvdb([OsStr::new(command), file.as_os_str()].into_iter().chain(words).collect::<Vec<_>>())
}

/// "/c/", then "/a": neither ascends.
fn unordered(name: &str) -> PathBuf {
    let file = folder(name).join("file");
    build(&file, "/c/y\t01\n/c/x\t02\n/a\t03\n/b/d\t04\n");
    file
}

/// The word at an offset of a file, and where the record of the item stands that `list --json` has under a key.
fn word(bytes: &[u8], at: usize) -> usize {
    u32::from_le_bytes(bytes[at..at + 4].try_into().unwrap()) as usize
}

fn record(file: &Path, key: &str) -> usize {
    let json = Json::parse(run("list", file, &["--json", "--no-check"]).ends(0).text());
    let item = json.at("items").list().iter().find(|item| *item.at("key") == Json::Text(key.to_string())).unwrap();
    let Json::Number(index) = item.at("index") else { panic!("no index") };
    let bytes = fs::read(file).unwrap();
    let start = word(&bytes, 16);
    start + 8 + 4 * word(&bytes, start + 4) + 24 * *index as usize
}

#[test]
fn a_tree_is_drawn_in_stored_order() {
    let file = unordered("stored-order");
    let drawn = "
└── /
    ├── c/
    │   ├── y  1 byte
    │   └── x  1 byte
    ├── a  1 byte
    └── b/
        └── d  1 byte
";
    assert_eq!(run("tree", &file, &[]).ends(0).text().split_once("  7 items").unwrap().1, drawn);
    let json = Json::parse(run("tree", &file, &["--json"]).ends(0).text());
    let keys = |below: &Json| below.at("below").list().iter().map(|item| item.at("key").text().to_string()).collect::<Vec<_>>();
    assert_eq!(keys(&json.at("below").list()[0]), ["/c/", "/a", "/b/"]);
}

#[test]
fn a_refused_child_is_drawn_in_its_place() {
    let file = unordered("refused-child");
    let list = word(&fs::read(&file).unwrap(), record(&file, "/") + 16);
    let (a, b) = (record(&file, "/a"), record(&file, "/b/"));
    for (at, byte, said, again) in [
        (list + 4, 7, "├── child 1: a parent index, or a child index, is not below the item count (10)\n", "a  1 byte"),
        (a + 14, b'x', "├── child 1: the item's kind is unknown, or another than was asked for (13)\n", "/a  the item's kind is unknown"),
        (a + 11, 0x40, "├── child 1: a pointer starts above its end, or ends past the file (2)\n", "whose key does not read"),
        (b + 14, b'v', "└── b/  4 bytes\n", "/b/d  1 byte"),
        (list + 4, 3, "", "listed twice, and drawn elsewhere"),
    ] {
        let mut bytes = fs::read(&file).unwrap();
        bytes[at] = byte;
        if byte == 3 {
            bytes.copy_within(list..list + 4, list + 4);
        }
        let bad = file.with_file_name("bad");
        fs::write(&bad, bytes).unwrap();
        let ran = run("tree", &bad, &[]).ends(1).says("not sound");
        assert!(ran.text().contains(said) && ran.text().contains(again), "{}", ran.text());
        run("tree", &bad, &["--json"]).ends(1);
    }
}

/// What is neither value nor table nor a container whose list opens is refused, in `list` too.
#[test]
fn an_unknown_kind_is_no_container() {
    let file = unordered("unknown-kind");
    let (at, list) = (record(&file, "/c/") + 14, record(&file, "/b/") + 16);
    let mut bytes = fs::read(&file).unwrap();
    bytes[at] = b'x';
    fs::write(&file, &bytes).unwrap();
    let ran = run("list", &file, &[]).ends(0).says("not sound");
    assert!(ran.text().contains("refused       (13)  /c/\n") && ran.text().contains("container        5  /\n"), "{}", ran.text());
    run("tree", &file, &[]).ends(1).prints("child 0: the item's kind is unknown, or another than was asked for (13)");
    // what `get` says of each does not hang on the rest of the table
    bytes[list] += 1;
    fs::write(&file, &bytes).unwrap();
    for (key, said) in [
        ("/", "it is a container; gvdb list FILE KEY shows what is below (13)\n"),
        ("/c/", "it is of an unknown kind; gvdb check FILE says what is broken (13)\n"),
        ("/b/", "it does not open; gvdb check FILE says what is broken (13)\n"),
    ] {
        run("get", &file, &[key]).ends(1).says(said);
        run("list", &file, &["--table", key]).ends(1).says(said);
    }
    if let Some(real) = real() {
        assert!(run("list", &real.join("dconf-empty.gvdb"), &[]).ends(0).text().starts_with("refused       (13)  "));
    }
}

#[test]
fn dump_and_build_keep_the_order() {
    let file = unordered("order-kept");
    let dump = run("dump", &file, &[]).ends(0);
    assert_eq!(dump.text(), "/c/y\t01\n/c/x\t02\n/a\t03\n/b/d\t04\n");
    let again = file.with_file_name("again");
    build(&again, dump.text());
    assert!(fs::read(&again).unwrap() == fs::read(&file).unwrap());
    // a container arrives with the first line below it, wherever its others stand
    build(&again, "/c/y\t01\n/a\t03\n/b/d\t04\n/c/x\t02\n");
    assert!(fs::read(&again).unwrap() == fs::read(&file).unwrap());
}

/// OWN's order first, what is only in OTHER behind it in OTHER's order.
#[test]
fn a_merge_keeps_the_order_of_own() {
    let own = unordered("merge-order");
    let folder = own.parent().unwrap().to_path_buf();
    build(&folder.join("other"), "/z\t09\n/b/e\t05\n/b/d\t04\n/a\t03\n/c/a\t06\n/new/b\t07\n/new/a\t08\n");
    shell(&folder, "\"$GVDB\" merge file other -o out").ends(0);
    let merged = "/c/y\t01\n/c/x\t02\n/c/a\t06\n/a\t03\n/b/d\t04\n/b/e\t05\n/z\t09\n/new/b\t07\n/new/a\t08\n";
    assert_eq!(run("dump", &folder.join("out"), &[]).ends(0).text(), merged);
    shell(&folder, "\"$GVDB\" merge other file -o turned").ends(0);
    let turned = "/z\t09\n/b/e\t05\n/b/d\t04\n/a\t03\n/c/a\t06\n/c/y\t01\n/c/x\t02\n/new/b\t07\n/new/a\t08\n";
    assert_eq!(run("dump", &folder.join("turned"), &[]).ends(0).text(), turned);
}

/// Where our writer laid OWN, a merge that adds nothing gives its bytes back.
#[test]
fn a_merge_that_adds_nothing() {
    let folder = folder("nothing-added");
    let mut dice = Dice(0x0C41_1D4E_4011_7E55);
    build(&folder.join("empty"), "");
    for _ in 0..40 {
        let table = random(&mut dice, 2);
        let text = model::lines(&table, "");
        let mut lines: Vec<&str> = text.lines().collect();
        for at in (1..lines.len()).rev() {
            lines.swap(at, dice.below(at as u64 + 1) as usize);
        }
        build(&folder.join("own"), &lines.iter().map(|line| format!("{line}\n")).collect::<String>());
        let some: String = lines.iter().rev().filter(|_| dice.below(2) == 0).map(|line| format!("{line}\n")).collect();
        build(&folder.join("part"), &some);
        for other in ["own", "empty", "part"] {
            shell(&folder, &format!("rm -f out; \"$GVDB\" merge own {other} -o out --without-containers")).ends(0);
            assert!(fs::read(folder.join("out")).unwrap() == fs::read(folder.join("own")).unwrap(), "{other} {table:?}");
        }
    }
}

#[test]
fn diff_tells_the_order() {
    let a = unordered("diff-order");
    let b = a.with_file_name("b");
    build(&b, "/a\t03\n/b/d\t04\n/c/y\t01\n/c/x\t02\n");
    let both = [OsStr::new("diff"), a.as_os_str(), b.as_os_str()];
    let told = "
order \"/\": its children stand in another order
    A  the first that differs is \"c/\"
    B  the first that differs is \"a\"
not alike: 0 only in A, 0 only in B, 0 with another value, 0 of another kind, 1 with children in another order; 6 items alike
";
    let ran = gvdb(both).ends(1);
    assert!(ran.text().ends_with(told), "{}", ran.text());
    gvdb(["same".as_ref(), a.as_os_str(), b.as_os_str()]).ends(1);
    let json = Json::parse(gvdb([&both[..], &["--json".as_ref()]].concat()).ends(1).text());
    assert_eq!((json.at("alike"), json.at("same_children_order")), (&Json::Bool(false), &Json::Bool(false)));
    let difference = &json.at("differences").list()[0];
    let children = difference.at("a").at("children").list().iter().map(|key| key.text().to_string()).collect::<Vec<_>>();
    assert_eq!((difference.at("what").text(), &children[..]), ("order", &["/c/", "/a", "/b/"].map(String::from)[..]));
    // only what both have is compared
    build(&b, "/c/x\t02\n/new\t05\n/b/d\t04\n");
    let ran = gvdb(both).ends(1);
    assert!(!ran.text().contains("order \""), "{}", ran.text());
}
