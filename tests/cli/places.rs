//! Where output goes: full, gone, unwritable or odd places.

use crate::harness::*;
use std::ffi::OsStr;
use std::fs;
use std::os::unix::fs::{symlink, FileTypeExt, PermissionsExt};
use std::path::Path;

fn build_at(place: &Path) -> Ran {
    gvdb_fed([OsStr::new("build"), OsStr::new("-o"), place.as_os_str()], b"a\t01\n")
}

#[test]
fn a_full_device() {
    let folder = folder("full");
    build(&folder.join("f.gvdb"), "a\t01\n");
    build(&folder.join("g.gvdb"), "b\t01\n");
    for line in [
        "check f.gvdb",
        "check --json f.gvdb",
        "list f.gvdb",
        "tree f.gvdb",
        "get f.gvdb a",
        "dump f.gvdb",
        "--help",
        "--version",
        "merge f.gvdb g.gvdb -o out.gvdb",
    ] {
        shell(&folder, &format!("\"$GVDB\" {line} > /dev/full")).ends(2).says("gvdb: standard output: No space left on device");
    }
    // a merge whose report cannot be told is not put in place
    assert_eq!(names(&folder), ["f.gvdb", "g.gvdb"]);
    shell(&folder, "\"$GVDB\" nope 2> /dev/full").ends(2);
    // the device itself is not replaced by a file
    build_at(Path::new("/dev/full")).ends(2).says("/dev/full: not a plain file");
    assert!(fs::metadata("/dev/full").unwrap().file_type().is_char_device());
}

#[test]
fn a_reader_that_goes_away() {
    let folder = folder("pipe");
    let lines: String = (0..900).map(|i| format!("{}{i:04}\t00\n", "k".repeat(1000))).collect();
    build(&folder.join("f.gvdb"), &lines);
    let ran = shell(&folder, "(\"$GVDB\" list f.gvdb; echo $? > status) | head -n 1");
    assert!(ran.stderr.is_empty() && ran.text().lines().count() == 1, "{}", ran.stderr);
    assert_eq!(fs::read_to_string(folder.join("status")).unwrap(), "2\n");
}

#[test]
fn places_that_cannot_be_written() {
    let folder = folder("unwritable");
    build_at(Path::new("/proc/nothing/here")).ends(2).says("/proc/nothing/here: ");
    build_at(Path::new("/proc/here")).ends(2).says("/proc/here: ");
    build_at(&folder.join("missing/out.gvdb")).ends(2).says("No such file or directory");
    build_at(&folder).ends(2).says("not a plain file");
    build_at(Path::new("/")).ends(2).says("not a plain file");
    build_at(Path::new("")).ends(2).says("gvdb: ");
    fs::write(folder.join("plain"), "x").unwrap();
    build_at(&folder.join("plain/out.gvdb")).ends(2).says("Not a directory");
    symlink("nowhere", folder.join("dangling")).unwrap();
    build_at(&folder.join("dangling")).ends(2).says("No such file");
    assert_eq!(names(&folder), ["dangling", "plain"]);
}

#[test]
fn a_file_that_is_there_is_replaced_whole() {
    let folder = folder("replaced");
    let place = folder.join("out.gvdb");
    build(&place, "old\t01\n");
    let old = fs::read(&place).unwrap();
    fs::set_permissions(&place, fs::Permissions::from_mode(0o640)).unwrap();
    symlink("out.gvdb", folder.join("link")).unwrap();
    let replace = |lines: &[u8]| gvdb_fed([OsStr::new("build"), "--replace".as_ref(), "-o".as_ref(), folder.join("link").as_os_str()], lines);
    // what is refused leaves it alone
    build_at(&folder.join("link")).ends(1).says("link: it is there already; --replace writes over it, and names what is lost");
    replace(b"\t01\n").ends(1).says("(30)\n");
    assert_eq!(fs::read(&place).unwrap(), old);
    replace(b"a\t01\n").ends(0).prints("dropped from before \"old\": value of 1 byte: 01\n");
    assert!(fs::symlink_metadata(folder.join("link")).unwrap().is_symlink());
    assert_eq!(fs::metadata(&place).unwrap().permissions().mode() & 0o777, 0o640);
    assert_eq!(names(&folder), ["link", "out.gvdb"]);
    gvdb(["get".as_ref(), place.as_os_str(), "a".as_ref()]).ends(0);
}
