//! What a merge says and what it has done agree, at whichever step it ends.

use crate::harness::*;
use crate::json::Json;
use std::fs::{self, Permissions};
use std::os::unix::fs::{chown, MetadataExt, PermissionsExt};
use std::path::{Path, PathBuf};
use std::process::Command;

/// A folder with `own`, `other` and `old`, which is at the place of OUT where a merge begins.
fn files(name: &str) -> PathBuf {
    let folder = folder(name);
    build(&folder.join("own"), "k\t01\na\t02\n");
    build(&folder.join("other"), "k\t03\nb\t04\n");
    build(&folder.join("old"), "k\t01\n");
    folder
}

/// Whether OUT is the merged file, and not still what it was; all that was told has to say the same.
#[track_caller]
fn agrees(folder: &Path, out: &str, ran: &Ran) -> bool {
    let merged = fs::read(folder.join(out)).is_ok_and(|bytes| bytes == fs::read(folder.join("merged")).unwrap());
    assert!(merged || fs::read(folder.join(out)).ok() == fs::read(folder.join("old")).ok(), "OUT is neither old nor new");
    let report = fs::read_to_string(folder.join("mnt/report")).or_else(|_| fs::read_to_string(folder.join("report"))).unwrap_or_default();
    for told in [ran.text(), &report] {
        assert!(merged || !told.contains("\nmerged into"), "{told}");
        assert!(!merged || !told.contains("not written"), "{told}");
    }
    assert!(ran.status == 0 || !ran.stderr.is_empty());
    assert!(ran.status != 0 || merged && ran.text().contains("\nmerged into"), "{}", ran.text());
    merged
}

#[test]
fn what_is_dropped_is_told_whole() {
    let folder = folder("whole");
    let long = |last: &str| format!("{}{last}", "ab".repeat(999));
    build(&folder.join("own"), &format!("k\t{}\nsame\t{}\n", long("01"), long("00")));
    build(&folder.join("other"), &format!("k\t{}\nsame\t{}\n", long("02"), long("00")));
    let merge = |words: &str| shell(&folder, &format!("rm -f out; \"$GVDB\" merge own other -o out {words}"));
    let ran = merge("--keep=own").ends(0).prints(&format!("    dropped other  \"k\": value of 1,000 bytes: {}\n", long("02")));
    // what stands is in OUT, and may be cut
    ran.prints(&format!("same \"same\": value of 1,000 bytes: {}...\n", "ab".repeat(32)));
    // where a report has it, standard output may be short
    let short = merge("--keep=own --report report").ends(0);
    assert!(short.text().len() < 1000 && fs::read_to_string(folder.join("report")).unwrap().contains(&long("02")));
    let whole = merge("--keep=own --report -").ends(0);
    assert_eq!(whole.text(), fs::read_to_string(folder.join("report")).unwrap());
}

#[test]
fn a_name_that_is_no_file_s() {
    let folder = files("slash");
    for place in ["out/", "own/", "out/.", "missing/../out/"] {
        let ran = shell(&folder, &format!("\"$GVDB\" merge own other -o {place} --keep=own")).ends(2);
        assert!(ran.stdout.is_empty() && ran.stderr.lines().count() == 1, "{} {}", ran.text(), ran.stderr);
        shell(&folder, &format!("\"$GVDB\" merge own other -o out --keep=own --report {place}")).ends(2);
        shell(&folder, &format!("printf 'a\\t01\\n' | \"$GVDB\" build -o {place}")).ends(2);
    }
    shell(&folder, "\"$GVDB\" merge own other -o out/ --keep=own").says("gvdb: out/: not the name of a file, so nothing is written");
    assert_eq!(names(&folder), ["old", "other", "own"]);
}

/// In a sticky folder nobody may rename over a file of someone else: the last step fails, or that of the report.
#[test]
fn a_sticky_folder() {
    let folder = files("sticky");
    if fs::metadata(&folder).unwrap().uid() != 0 || Command::new("setpriv").arg("--version").output().is_err() {
        skipped("a file of another owner needs the superuser, and setpriv");
        return;
    }
    let sticky = folder.join("mnt");
    fs::create_dir(&sticky).unwrap();
    fs::set_permissions(&sticky, Permissions::from_mode(0o1777)).unwrap();
    shell(&folder, "\"$GVDB\" merge own other -o merged --keep=own").ends(0);
    for theirs in ["out", "report"] {
        fs::copy(folder.join("old"), sticky.join("out")).unwrap();
        fs::write(sticky.join("report"), "merge of own an older one\n").unwrap();
        for name in ["out", "report"] {
            fs::set_permissions(sticky.join(name), Permissions::from_mode(0o666)).unwrap();
            chown(sticky.join(name), Some(if name == theirs { 12345 } else { 54321 }), None).unwrap();
        }
        let words = "merge own other -o mnt/out --replace --report mnt/report --keep=own";
        let ran = shell(&folder, &format!("setpriv --reuid=54321 --clear-groups \"$GVDB\" {words}")).ends(2);
        assert!(!agrees(&folder, "mnt/out", &ran));
        let why = format!("refused: mnt/out is not written (mnt/{theirs}: Operation not permitted");
        assert!(ran.text().lines().last().unwrap().starts_with(&why), "{}", ran.text());
        let report = fs::read_to_string(sticky.join("report")).unwrap();
        assert_eq!(report.lines().last().unwrap().starts_with(&why), theirs == "out", "{report}");
        assert_eq!(names(&sticky), ["out", "report"]);
    }
}

/// A disk with less and less room: the merge fails at every step, and each time says what it has done.
#[test]
fn a_full_disk_at_each_step() {
    let folder = files("full-disk");
    fs::create_dir(folder.join("mnt")).unwrap();
    let mount = |rest: &str| format!("unshare -m sh -c 'mount -t tmpfs -o size=32k,nr_inodes=12 none mnt && {rest}'");
    if shell(&folder, &mount("true")).status != 0 {
        skipped("no small file system can be mounted here");
        return;
    }
    build(&folder.join("other"), &format!("k\t03\nb\t{}\n", "04".repeat(5000)));
    shell(&folder, "\"$GVDB\" merge own other -o merged --keep=own").ends(0);
    let (mut written, mut refused) = (0, 0);
    for (pages, files) in (0..8).flat_map(|pages| (0..6).map(move |files| (pages, files))) {
        // what is on the small disk is copied out, since it goes with the run
        let fill = format!("cp old mnt/out; head -c {}k /dev/zero > mnt/filler; for i in $(seq 1 {files}); do : > mnt/$i; done 2>/dev/null", 4 * pages);
        let run = "\"$GVDB\" merge own other -o mnt/out --replace --report mnt/report --keep=own; s=$?; rm -rf kept; cp -r mnt kept; exit $s";
        let ran = shell(&folder, &mount(&format!("{fill}; {run}")));
        let _ = fs::remove_file(folder.join("report"));
        if folder.join("kept/report").exists() {
            fs::copy(folder.join("kept/report"), folder.join("report")).unwrap();
        }
        match agrees(&folder, "kept/out", &ran) {
            true => written += 1,
            false => refused += 1,
        }
        assert!(names(&folder.join("kept")).iter().all(|name| !name.starts_with('.')), "{:?}", names(&folder.join("kept")));
    }
    assert!(written > 5 && refused > 10, "{written} {refused}");
}

const GONE: &str = "gvdb: standard output: nobody reads it any more; out is not written\n";

/// A reader that goes when it has seen enough is given a moment to do so; then nothing is written, and that is said. Two files that share no key have a report
/// of two lines, of which the last comes behind OUT.
#[test]
fn a_reader_that_wants_one_line() {
    let folder = files("one-line");
    build(&folder.join("apart"), "z\t05\n");
    for other in ["other", "apart"] {
        let mut written = 0;
        for _ in 0..20 {
            let ran = shell(&folder, &format!("rm -f out; (\"$GVDB\" merge own {other} -o out --keep=own 2> err; echo $? > status) | head -n 1"));
            assert_eq!(ran.text(), format!("merge of own own and other {other}\n"));
            let [err, status] = ["err", "status"].map(|name| fs::read_to_string(folder.join(name)).unwrap());
            let out = folder.join("out").exists();
            // a machine that is busy may let go of it too late
            let late = "gvdb: standard output: nobody reads it any more; out is written, but the end of its report is not\n";
            assert_eq!((&err[..], &status[..]), if !out { (GONE, "1\n") } else { [(late, "2\n"), ("", "0\n")][usize::from(err.is_empty())] });
            written += usize::from(out);
        }
        assert!(written < 10, "{other}: {written} of 20");
    }
}

/// Who is gone before anything is told is always noticed, and so is who goes before the end of a report that a pipe does not hold.
#[test]
fn a_reader_that_is_gone() {
    let folder = files("no-reader");
    build(&folder.join("apart"), "z\t05\n");
    let lines: String = (0..200).map(|i| format!("{i}\t{}\n", "ab".repeat(500))).collect();
    build(&folder.join("long"), &lines);
    let before = names(&folder);
    for words in ["own other --keep=own", "own apart", "own apart --json", "own other --keep=own --report report", "own apart --dry-run", "own other"] {
        let (reader, writer) = std::io::pipe().unwrap();
        drop(reader);
        let mut merge = Command::new(program());
        merge.args(["merge", "-o", "out"]).args(words.split(' ')).current_dir(&folder).stdout(writer);
        let output = merge.output().unwrap();
        assert_eq!((String::from_utf8(output.stderr).unwrap(), output.status.code()), (GONE.to_string(), Some(1)), "{words}");
        assert_eq!(names(&folder), before);
    }
    for _ in 0..10 {
        let ran = shell(&folder, "(\"$GVDB\" merge long long -o out --report -; echo $? > ../no-reader-status) | head -n 1");
        assert_eq!((&ran.stderr[..], names(&folder)), (GONE, before.clone()));
        assert_eq!(fs::read_to_string(folder.with_file_name("no-reader-status")).unwrap(), "1\n");
    }
}

/// A build whose losses nobody reads writes nothing either.
#[test]
fn a_reader_of_what_a_build_drops() {
    let folder = files("build-reader");
    let old = fs::read(folder.join("old")).unwrap();
    for reader in ["true", "head -n 1 > /dev/null"] {
        let written = |_: &i32| {
            let ran = shell(&folder, &format!("cp old out; (sleep 0.02; printf 'new\\t01\\n' | \"$GVDB\" build -o out --replace) | {reader}"));
            let late = "gvdb: standard output: nobody reads it any more; out is written\n";
            assert_eq!(ran.stderr, if fs::read(folder.join("out")).unwrap() == old { GONE } else { late });
            ran.stderr != GONE
        };
        assert!((0..10).filter(written).count() < 5);
    }
}

/// JSON says at its end what came of the merge, and is whole for a refused one too.
#[test]
fn json_says_what_came_of_it() {
    let folder = files("json-end");
    let merge = |words: &str| shell(&folder, &format!("\"$GVDB\" merge own other -o out --json --report report --replace {words}"));
    let report = || fs::read_to_string(folder.join("report")).unwrap();
    let refused = merge("").ends(1);
    let json = Json::parse(refused.text());
    assert_eq!((json.at("written"), json.at("values").at("undecided"), refused.text()), (&Json::Bool(false), &Json::Number(1), &report()[..]));
    let merged = merge("--keep=own").ends(0);
    assert_eq!((Json::parse(merged.text()).at("written"), merged.text()), (&Json::Bool(true), &report()[..]));
    fs::write(folder.join("out"), "other things").unwrap();
    merge("--keep=own").ends(2).says("what would be lost cannot be named");
    let lines: String = (0..1024).map(|i| format!("{i}\t00\n")).collect();
    build(&folder.join("own"), &lines);
    fs::remove_file(folder.join("out")).unwrap();
    let refused = merge("--keep=own").ends(1);
    let json = Json::parse(refused.text());
    assert!(json.at("why").text().ends_with("(22)") && json.at("written") == &Json::Bool(false) && refused.text() == report());
}
