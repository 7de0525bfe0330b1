//! Keys as they are printed and given back, and what is never printed as it is.

use crate::harness::*;
use crate::json::Json;
use std::ffi::OsStr;
use std::fs;
use std::os::unix::ffi::OsStrExt;
use std::path::PathBuf;

/// Keys of all that a terminal does not show as it is, and the lines that lay them. Each value is the key's number.
const STRANGE: [&str; 14] = [
    "nul\0inside",
    "tab\tnewline\nreturn\r",
    "back\\slash\\x41\\",
    "\"quoted\"",
    " spaces ",
    "bell\u{7} del\u{7f} csi\u{9b}",
    "turned\u{202e}tnuoc\u{202c}",
    "isolated\u{2066}x\u{2069}",
    "zero\u{200b}width\u{200d}\u{feff}",
    "soft\u{ad}hyphen",
    "line\u{2028}paragraph\u{2029}",
    "tag\u{e0041}\u{e007f}",
    "variant\u{fe0f}",
    "é木/plain",
];

fn hexed(key: &str) -> String {
    key.bytes().map(|byte| format!("\\x{byte:02x}")).collect()
}

fn strange_file(name: &str) -> PathBuf {
    let file = folder(name).join("f.gvdb");
    let lines: String = STRANGE.iter().enumerate().map(|(i, key)| format!("{0}\t{i:02x}\nt{0}\tinner\t{i:02x}\n", hexed(key))).collect();
    build(&file, &lines);
    file
}

/// Every key that `list` prints is taken as it is printed: by `get`, as a prefix, and by `--table`.
#[test]
fn keys_are_taken_as_printed() {
    let file = strange_file("as-printed");
    let list = gvdb(["list".as_ref(), file.as_os_str(), "--values".as_ref()]).ends(0);
    let mut met = [0; 2];
    for line in list.text().lines() {
        let row = &line[20..];
        if let Some((key, value)) = row.split_once('\t') {
            let got = gvdb(["get".as_ref(), file.as_os_str(), "--hex".as_ref(), "--".as_ref(), OsStr::new(key)]).ends(0);
            assert_eq!(got.text().trim_end(), value, "{key}");
            let below = gvdb(["list".as_ref(), file.as_os_str(), "--values".as_ref(), "--".as_ref(), OsStr::new(key)]).ends(0);
            assert_eq!(below.text(), format!("{line}\n"), "{key}");
            met[0] += 1;
        } else if line.starts_with("table") {
            gvdb(["get".as_ref(), file.as_os_str(), "--table".as_ref(), OsStr::new(row), "inner".as_ref()]).ends(0);
            gvdb(["list".as_ref(), file.as_os_str(), "--table".as_ref(), OsStr::new(row)]).ends(0).prints("value            1  inner\n");
            met[1] += 1;
        }
    }
    assert_eq!(met, [STRANGE.len(); 2]);
    let get = |key: &str| gvdb(["get".as_ref(), file.as_os_str(), OsStr::new(key)]);
    assert_eq!(get("nul\\x00inside").ends(0).stdout, [0]);
    assert_eq!(get("\\\"quoted\\\"").ends(0).stdout, [3], "as a report quotes it");
    get("one\\slash").ends(2).says("key one\\slash: a backslash stands before one of \\ \" t n r x; give it as gvdb list prints it, a backslash as \\\\\n");
    gvdb(["list".as_ref(), file.as_os_str(), "cut\\x4".as_ref()]).ends(2).says("\\x wants two hex digits");
}

fn unseen(c: char) -> bool {
    let turns = ('\u{202a}'..='\u{202e}').contains(&c) || ('\u{2060}'..='\u{206f}').contains(&c);
    let ends_lines = matches!(c, '\u{2028}' | '\u{2029}');
    let no_room = matches!(c, '\u{200b}'..='\u{200f}' | '\u{feff}' | '\u{ad}' | '\u{fe00}'..='\u{fe0f}' | '\u{e0000}'..='\u{e0fff}');
    (c.is_control() && c != '\n' && c != '\t') || turns || ends_lines || no_room
}

/// No command prints an unseen character, in lines or JSON, on either output.
#[test]
fn what_is_not_seen_is_escaped_everywhere() {
    let file = strange_file("unseen");
    let other = file.with_file_name("turned\u{202e}name\u{200b}");
    build(&other, &STRANGE.iter().map(|key| format!("{}\tff\n", hexed(key))).collect::<String>());
    let (file, other) = (file.as_os_str(), other.as_os_str());
    let out = folder("unseen-out").join("o\u{2028}ut");
    let mut words: Vec<Vec<&OsStr>> = vec![vec!["check".as_ref(), file, other], vec!["dump".as_ref(), other], vec![OsStr::new("\u{202e}nope")]];
    words.push(vec!["merge".as_ref(), file, other, "-o".as_ref(), out.as_os_str()]);
    words.push(vec!["get".as_ref(), other, "no\u{202e}such".as_ref()]);
    words.push(vec!["list".as_ref(), other, "--table".as_ref(), "no\u{200b}such".as_ref()]);
    words.push(vec!["list".as_ref(), "no\u{200b}file".as_ref()]);
    words.push(vec!["list".as_ref(), file, "--\u{202e}".as_ref()]);
    for command in ["list", "tree"] {
        words.extend([vec![command.as_ref(), other], vec![command.as_ref(), file, "--json".as_ref()]]);
    }
    words.extend([vec!["diff".as_ref(), file, other], vec!["diff".as_ref(), file, other, "--json".as_ref()]]);
    for words in words {
        let ran = gvdb(&words);
        assert!(!ran.text().chars().chain(ran.stderr.chars()).any(unseen), "{words:?}: {}{}", ran.text(), ran.stderr);
        if words.contains(&OsStr::new("--json")) && ran.status < 2 {
            let json = format!("{:?}", Json::parse(ran.text()));
            assert!(STRANGE.iter().all(|key| json.contains(&format!("{key:?}"))), "{json}");
        }
    }
}

/// A name of any bytes is printed so that the escapes of keys, undone, give it back.
#[test]
fn names_can_be_told_back() {
    let folder = folder("told-back");
    for name in [&b"back\\slash"[..], b"caf\xe9.gvdb", b"cut\xe6\x9c", b"new\nline\xff\xfe", b"plain.gvdb"] {
        let file = folder.join(OsStr::from_bytes(name));
        fs::copy(worked("one.gvdb"), &file).unwrap();
        let ran = gvdb(["check".as_ref(), file.as_os_str()]).ends(0);
        let shown = ran.text().strip_suffix(": root table: sound, 1 item\n").unwrap().rsplit('/').next().unwrap().to_string();
        assert_eq!(unescaped(&shown), name, "{shown}");
        let json = Json::parse(gvdb(["check".as_ref(), file.as_os_str(), "--json".as_ref()]).ends(0).text());
        assert!(json.list()[0].at("file").text().ends_with(&shown));
        let words = ["merge".as_ref(), file.as_os_str(), file.as_os_str(), "-o".as_ref(), file.as_os_str(), "--dry-run".as_ref(), "--json".as_ref()];
        let json = Json::parse(gvdb(words).ends(0).text());
        assert!(["own", "other", "out"].iter().all(|field| json.at(field).text().ends_with(&format!("/{shown}"))), "{json:?}");
    }
}

fn unescaped(shown: &str) -> Vec<u8> {
    let mut bytes = Vec::new();
    let mut rest = shown.as_bytes();
    while let [byte, behind @ ..] = rest {
        (bytes, rest) = match (byte, behind) {
            (b'\\', [b'x', ..]) => ([bytes, unhex(&String::from_utf8_lossy(&behind[1..3]))].concat(), &behind[3..]),
            (b'\\', [b'n', rest @ ..]) => ([bytes, vec![b'\n']].concat(), rest),
            (b'\\', [b'\\', rest @ ..]) => ([bytes, vec![b'\\']].concat(), rest),
            _ => ([bytes, vec![*byte]].concat(), behind),
        };
    }
    bytes
}
