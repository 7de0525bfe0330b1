//! Both forms of the hash: what is named, what is found out of a file, and what is written.

use crate::harness::*;
use crate::json::Json;
use std::ffi::OsStr;
use std::fs;
use std::path::{Path, PathBuf};

const GLIB: &str = "sound in the signed form (GLib's), ";
/// Names with accents of a value, of containers and of a table; in the table too.
const WOODS: &str = "forêt/chêne\t01\nforêt/hêtre\t02\nnotes d'été\t{}\nnotes d'été\tplain\t04\nnotes d'été\té/x\t03\n";

fn build_as(place: &Path, form: &str, lines: &str) {
    gvdb_fed(["build".as_ref(), "--form".as_ref(), form.as_ref(), "-o".as_ref(), place.as_os_str()], lines.as_bytes()).ends(0);
}

/// A folder with the same lines laid in both forms, as `plain` and `signed`.
fn both(name: &str, lines: &str) -> PathBuf {
    let folder = folder(name);
    ["plain", "signed"].iter().for_each(|form| build_as(&folder.join(form), form, lines));
    folder
}

/// The file of one key differs in the four bytes of its hash; files of names below 128 do not differ.
#[test]
fn build_lays_both_forms() {
    let folder = both("form-build", "é\t0102\n");
    build(&folder.join("unsaid"), "é\t0102\n");
    let [plain, signed, unsaid] = ["plain", "signed", "unsaid"].map(|name| fs::read(folder.join(name)).unwrap());
    assert_eq!((&plain[36..40], &signed[36..40], plain.len()), (&b"\x11\x84\x59\0"[..], &b"\x11\x62\x59\0"[..], 66));
    assert_eq!((&plain[..36], &plain[40..], &plain), (&signed[..36], &signed[40..], &unsaid));
    let folder = both("form-ascii", "/a/b\té\nt\tk\t01\n".replace('é', "c3a9").as_str());
    assert_eq!(fs::read(folder.join("plain")).unwrap(), fs::read(folder.join("signed")).unwrap());
    run(&folder, "check plain --form signed").ends(0).prints("plain: root table: sound, 4 items\n");
}

#[test]
fn check_says_the_form() {
    let folder = both("form-check", WOODS);
    let ran = run(&folder, "check plain signed").ends(0);
    let lines: Vec<&str> = ran.text().lines().collect();
    assert_eq!(lines[..2], ["plain: root table: sound, 4 items", "plain: table \"notes d'été\": sound, 3 items"]);
    assert_eq!(lines[2..], [format!("signed: root table: {GLIB}4 items"), format!("signed: table \"notes d'été\": {GLIB}3 items")]);
    for (file, form, other) in [("plain", "plain", "signed"), ("signed", "signed", "plain")] {
        assert_eq!(run(&folder, &format!("check {file} --form {form}")).ends(0).stdout, run(&folder, &format!("check {file} --form auto")).ends(0).stdout);
        run(&folder, &format!("check {file} --form {other}")).ends(1).prints(" does not find it (rule 2)\n");
    }
    let json = Json::parse(run(&folder, "check plain signed nowhere --json").ends(2).text());
    let forms: Vec<&Json> = json.list().iter().map(|file| file.at("form")).collect();
    assert_eq!(forms, [&Json::Text("plain".into()), &Json::Text("signed".into()), &Json::Null]);
    assert!(json.list()[..2].iter().all(|file| file.at("sound") == &Json::Bool(true)));
}

/// The root table is sound in both forms, and what is nested in it in one: that decides. Each table is told by itself.
#[test]
fn nested_tables_decide_where_the_root_does_not() {
    let folder = both("form-nested", "a/b\t01\nt\té\t02\nt\tu\tê\t03\n");
    let ran = run(&folder, "check signed").ends(0);
    let said = format!("signed: root table: sound, 3 items\nsigned: table \"t\": {GLIB}2 items\nsigned: table \"t\" > \"u\": {GLIB}1 item\n");
    assert_eq!(ran.text(), said);
    run(&folder, "check plain").ends(0).prints("plain: table \"t\": sound, 2 items\n");
    assert_eq!(run(&folder, "dump signed").ends(0).stdout, run(&folder, "dump plain").ends(0).stdout);
    run(&folder, "get signed ê --table t --table u --hex").ends(0).prints("03\n");
}

/// Sound in neither form is told as it was: in the plain one.
#[test]
fn a_broken_file_is_told_in_the_plain_form() {
    let folder = both("form-broken", "é\t0102\n");
    for name in ["plain", "signed"] {
        let mut bytes = fs::read(folder.join(name)).unwrap();
        bytes[50] = b'?';
        fs::write(folder.join(name), bytes).unwrap();
    }
    let rule = |words: &str, rule: u8| run(&folder, words).ends(1).prints(&format!("(rule {rule})\n"));
    rule("check plain", 3);
    rule("check signed", 2);
    rule("check signed --form signed", 3);
    assert_eq!(Json::parse(run(&folder, "check signed --json").ends(1).text()).list()[0].at("form").text(), "plain");
}

#[test]
fn get_list_tree_and_dump() {
    let folder = both("form-read", WOODS);
    for (file, other) in [("plain", "signed"), ("signed", "plain")] {
        for form in ["", "--form auto", &format!("--form {file}")] {
            run(&folder, &format!("get {file} forêt/hêtre --hex {form}")).ends(0).prints("02\n");
            run(&folder, &format!("get {file} '\\xc3\\xa9/x' --table 'notes d'\\''\\xc3\\xa9t\\xc3\\xa9' --hex {form}")).ends(0).prints("03\n");
            let list = run(&folder, &format!("list {file} {form}")).ends(0);
            assert!(list.stderr.is_empty() && list.text().contains("container        2  forêt/\n"));
            run(&folder, &format!("list {file} é --table \"notes d'été\" {form}")).ends(0).prints("container        1  é/\nvalue            1  é/x\n");
            run(&folder, &format!("tree {file} {form}")).ends(0).prints("    └── é/\n        └── x  1 byte\n");
            assert_eq!(run(&folder, &format!("dump {file} {form}")).ends(0).text(), WOODS);
        }
        run(&folder, &format!("get {file} forêt/hêtre --form {other}")).ends(1).says("(12)\n");
        run(&folder, &format!("list {file} --form {other}")).ends(0).says("(rule 2)\n");
        run(&folder, &format!("tree {file} --form {other}")).ends(1).says("(rule 2)\n");
        run(&folder, &format!("dump {file} --form {other}")).ends(1).says("(rule 2)\n");
        for command in ["list", "tree", "dump"] {
            assert_eq!(Json::parse(run(&folder, &format!("{command} {file} --json")).ends(0).text()).at("form").text(), file);
        }
    }
}

/// What asks for no check asks for no form either: plain, unless one is named.
#[test]
fn no_check_is_plain_unless_named() {
    let folder = both("form-no-check", WOODS);
    run(&folder, "list signed --no-check").ends(0).prints("refused       (12)  forêt/\n");
    run(&folder, "list signed --no-check --form signed").ends(0).prints("container        2  forêt/\n");
    run(&folder, "list signed --no-check --form auto").ends(0).prints("container        2  forêt/\n");
    run(&folder, "list plain --no-check").ends(0).prints("container        2  forêt/\n");
}

#[test]
fn merge_reads_each_form_and_writes_the_one_named() {
    let folder = both("form-merge", "é\t01\n");
    build_as(&folder.join("other"), "signed", "è\t02\n");
    for (own, words, form) in [("plain", "", "plain"), ("signed", "", "plain"), ("signed", "--form signed", "signed"), ("signed", "--form auto", "signed")] {
        let ran = run(&folder, &format!("merge {own} other -o out {words}")).ends(0).prints("merged into out: 2 values; 1 only in own, 1 only in other");
        let note = |file: &str| format!("note {file} is in the signed form (GLib's), out in the plain one: --form signed keeps it\n");
        assert_eq!((ran.text().contains(&note(own)), ran.text().contains(&note("other"))), (own == "signed" && form == "plain", form == "plain"));
        assert_eq!(Json::parse(run(&folder, "check out --json").ends(0).text()).list()[0].at("form").text(), form, "{own} {words}");
        assert_eq!(run(&folder, "dump out").ends(0).text(), "è\t02\né\t01\n");
        fs::remove_file(folder.join("out")).unwrap();
    }
    let ran = run(&folder, "merge plain other -o out --form auto --json").ends(0);
    assert_eq!(Json::parse(ran.text()).at("form").text(), "plain");
    run(&folder, "merge signed plain -o out --replace --base other").ends(0).prints("dropped from before \"è\": value of 1 byte: 02\n");
    run(&folder, "diff plain signed").ends(0).prints("alike: 1 item\n");
    run(&folder, "same signed plain").ends(0);
}

/// What `--replace` writes over is read in its own form.
#[test]
fn what_is_replaced_is_named_in_either_form() {
    let folder = both("form-replace", "é\t01\n");
    let ran = shell(&folder, "printf 'a\\t02\\n' | \"$GVDB\" build -o signed --replace").ends(0);
    assert!(ran.text().starts_with("dropped from before \"é\": value of 1 byte: 01\n"), "{}", ran.text());
}

#[test]
fn bad_words_for_a_form() {
    for command in ["check f", "list f", "tree f", "get f k", "dump f", "merge f g -o out", "build -o out"] {
        let words = command.split(' ').chain(["--form", "glib"]);
        gvdb(words).ends(2).says("--form is plain, signed or auto");
    }
    gvdb(["build", "-o", "out", "--form", "auto"]).ends(2).says("build: lines have no form, so --form is plain or signed here");
    gvdb(["diff", "a", "b", "--form", "signed"]).ends(2).says("unknown option --form");
}

/// The files of the owners' desktops: every name with an accent is found, and they are dumped, laid again in their form and merged.
#[test]
fn files_of_glib_with_accents() {
    let Some(real) = real() else { return };
    let folder = folder("form-real");
    for (name, values) in [("dconf-accent.gvdb", 8), ("own-accent.gresource", 4)] {
        let file = real.join(name);
        let with = |words: &[&str]| gvdb([&[words[0].as_ref(), file.as_os_str()], &words[1..].iter().map(OsStr::new).collect::<Vec<_>>()[..]].concat());
        with(&["check"]).ends(0).prints(&format!("root table: {GLIB}"));
        with(&["check", "--form", "plain"]).ends(1).prints("(rule 2)\n");
        let list = Json::parse(with(&["list", "--json"]).ends(0).text());
        let keys: Vec<&Json> = list.at("items").list().iter().filter(|item| item.at("kind").text() == "value").collect();
        assert_eq!((keys.len(), keys.iter().any(|item| !item.at("key").text().is_ascii())), (values, true));
        for item in keys {
            assert_eq!(with(&["get", item.at("key").text(), "--hex"]).ends(0).text().trim_end(), item.at("value").text());
        }
        let dump = with(&["dump"]).ends(0);
        let again = folder.join(name);
        build_as(&again, "signed", dump.text());
        gvdb(["check".as_ref(), again.as_os_str()]).ends(0).prints(&format!("root table: {GLIB}"));
        gvdb(["same".as_ref(), again.as_os_str(), file.as_os_str()]).ends(0);
        let out = folder.join("out");
        gvdb(["merge".as_ref(), again.as_os_str(), file.as_os_str(), "-o".as_ref(), out.as_os_str(), "--form=auto".as_ref()]).ends(0);
        assert_eq!(fs::read(&again).unwrap(), fs::read(&out).unwrap());
        fs::remove_file(out).unwrap();
    }
}
