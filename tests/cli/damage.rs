//! Damaged files: no command fails otherwise than by a line and a status, and no merge or dump goes on with one that is not sound.

use crate::harness::*;
use crate::json::Json;
use std::ffi::OsStr;
use std::fs;
use std::path::Path;

/// Every command on a file; the status of the check.
fn all(folder: &Path, file: &Path) -> i32 {
    let check = gvdb(["check".as_ref(), file.as_os_str(), "--json".as_ref()]);
    assert!((0..=2).contains(&check.status), "{}", check.stderr);
    Json::parse(check.text());
    for command in ["list", "tree", "dump"] {
        let ran = gvdb([OsStr::new(command), file.as_os_str()]);
        assert!((0..=2).contains(&ran.status) && ran.stderr.lines().count() <= 1, "{command}: {}", ran.stderr);
        if command == "dump" {
            assert_eq!(ran.status == 0, check.status == 0, "{}", ran.stderr);
        }
    }
    for command in ["list", "tree"] {
        let ran = gvdb([OsStr::new(command), file.as_os_str(), "--json".as_ref()]);
        if ran.status < 2 {
            Json::parse(ran.text());
        }
        assert!(command == "list" || ran.status == check.status, "{}", ran.stderr);
    }
    gvdb(["same".as_ref(), file.as_os_str(), file.as_os_str()]).ends(if check.status == 0 { 0 } else { 2 });
    let out = folder.join("merged.gvdb");
    let merged = gvdb(["merge".as_ref(), file.as_os_str(), worked("one.gvdb").as_os_str(), "-o".as_ref(), out.as_os_str(), "--keep=own".as_ref()]);
    assert!((0..=2).contains(&merged.status), "{}", merged.stderr);
    assert!(merged.status != 0 || check.status == 0, "a file that is not sound was merged");
    assert_eq!(out.exists(), merged.status == 0);
    let _ = fs::remove_file(&out);
    check.status
}

#[test]
fn single_bytes_and_cuts() {
    let folder = folder("damage");
    let place = folder.join("f.gvdb");
    build(&place, "a/b\t01\nt\tx\t02\n");
    let whole = fs::read(&place).unwrap();
    let mut found = [0; 3];
    for at in 0..whole.len() {
        let mut bytes = whole.clone();
        bytes[at] = if at % 2 == 0 { bytes[at] ^ 0x5A } else { bytes[at].wrapping_add(1) };
        fs::write(&place, &bytes).unwrap();
        found[all(&folder, &place) as usize] += 1;
    }
    for cut in (0..whole.len()).step_by(5) {
        fs::write(&place, &whole[..cut]).unwrap();
        found[all(&folder, &place) as usize] += 1;
    }
    assert!(found.iter().all(|count| *count > 10), "{found:?}");
    assert_eq!(names(&folder), ["f.gvdb"]);
}

/// A table that holds itself: 24 bytes of header, a table of one item at 24, its key at 60.
fn holds_itself(padding: usize) -> Vec<u8> {
    let mut file = b"GVariant\0\0\0\0\0\0\0\0".to_vec();
    for word in [24u32, 60, 0x28000000, 1, 0, 177_670, u32::MAX, 60, 0x0048_0001, 24, 60] {
        file.extend(word.to_le_bytes());
    }
    file.push(b'a');
    file.resize(61 + padding, 0);
    file
}

#[test]
fn a_table_that_holds_itself_is_not_followed_without_end() {
    let folder = folder("itself");
    let place = folder.join("f.gvdb");
    for (padding, said) in [(0, "tables overlap or hold each other, and are not followed"), (1_000_000, "tables are nested more than 64 deep")] {
        fs::write(&place, holds_itself(padding)).unwrap();
        for command in ["check", "tree", "dump"] {
            let ran = gvdb([OsStr::new(command), place.as_os_str()]).ends(1);
            assert!(ran.stderr.lines().last().unwrap().contains(said), "{}", ran.stderr);
        }
        gvdb(["list".as_ref(), place.as_os_str()]).ends(0).prints("table            1  a\n");
    }
}

/// Ten keys that all hold one value of 8 MB: sound by the rules, and far more than the file when it is written out.
#[test]
fn values_that_overlap() {
    let folder = folder("overlap");
    let place = folder.join("f.gvdb");
    let short: String = (0..9).map(|i| format!("{i}\t00\n")).collect();
    build(&place, &format!("{short}long\t{}\n", "ab".repeat(8_000_000)));
    let mut file = fs::read(&place).unwrap();
    let record = |i: usize| 24 + 8 + 4 * 10 + 24 * i;
    let size = |file: &[u8], i: usize| {
        u32::from_le_bytes(file[record(i) + 20..][..4].try_into().unwrap()) - u32::from_le_bytes(file[record(i) + 16..][..4].try_into().unwrap())
    };
    let long = (0..10).find(|&i| size(&file, i) == 8_000_000).unwrap();
    let pointer = file[record(long) + 16..][..8].to_vec();
    (0..10).for_each(|i| file[record(i) + 16..][..8].copy_from_slice(&pointer));
    fs::write(&place, file).unwrap();
    gvdb(["check".as_ref(), place.as_os_str()]).ends(0);
    assert_eq!(gvdb(["list".as_ref(), place.as_os_str()]).ends(0).text().matches("8,000,000").count(), 10);
    let out = folder.join("out");
    let one = worked("one.gvdb");
    for words in [vec!["dump".as_ref(), place.as_os_str()], vec!["merge".as_ref(), place.as_os_str(), one.as_os_str(), "-o".as_ref(), out.as_os_str()]] {
        let ran = gvdb(words).ends(1);
        assert!(ran.stderr.lines().last().unwrap().contains("its values overlap: they take more than 67,108,864 bytes") && ran.stdout.is_empty());
    }
    assert_eq!(names(&folder), ["f.gvdb"]);
}

#[test]
fn what_is_no_file() {
    for (path, said) in [("/dev/null", "(16)"), ("/dev/zero", "(1)"), ("/", "Is a directory"), ("", "No such file"), ("/nowhere/at/all", "No such file")] {
        for command in ["check", "list", "tree", "dump"] {
            let ran = gvdb([command, path]).ends(2);
            assert!(ran.stderr.lines().last().unwrap().contains(said), "{}", ran.stderr);
        }
        gvdb(["get", path, "a"]).ends(2);
    }
}
