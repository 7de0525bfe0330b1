//! Writers that meet: nothing is lost to a second run, to another program, or to a slip of the one who runs it.

use crate::harness::*;
use std::fs::{self, File, OpenOptions, Permissions};
use std::io::Write;
use std::os::unix::fs::{MetadataExt, PermissionsExt};
use std::path::{Path, PathBuf};
use std::process::{Child, Command, Stdio};
use std::thread;
use std::time::{Duration, Instant};

/// Starts the program in a folder, with pipes.
fn start(folder: &Path, words: &[&str]) -> Child {
    let mut command = Command::new(program());
    command.args(words).current_dir(folder).stdin(Stdio::piped()).stdout(Stdio::piped()).stderr(Stdio::piped());
    command.spawn().expect("the program")
}

fn end(child: Child) -> Ran {
    let output = child.wait_with_output().expect("its output");
    Ran { status: output.status.code().unwrap_or(-1), stdout: output.stdout, stderr: String::from_utf8(output.stderr).unwrap() }
}

fn dump(place: &Path) -> String {
    gvdb(["dump".as_ref(), place.as_os_str()]).ends(0).text().to_string()
}

/// A folder with the register `r` of one value.
fn register(name: &str) -> (PathBuf, PathBuf) {
    let folder = folder(name);
    let place = folder.join("r");
    build(&place, "k\t00\n");
    (folder, place)
}

#[test]
fn merges_at_once_take_turns() {
    for round in 0..10 {
        let (folder, place) = register("turns");
        let mut expected = "k\t00\n".to_string();
        for i in 0..4 {
            build(&folder.join(format!("{i}")), &format!("n{i}\t0{i}\n"));
            expected += &format!("n{i}\t0{i}\n");
        }
        let runs: Vec<Child> = (0..4).map(|i| start(&folder, &["merge", "r", &i.to_string(), "-o", if i % 2 == 0 { "r" } else { "../turns/r" }])).collect();
        runs.into_iter().for_each(|run| drop(end(run).ends(0)));
        assert_eq!(dump(&place), expected, "round {round}");
        assert_eq!(names(&folder), ["0", "1", "2", "3", "r"]);
    }
}

#[test]
fn who_waits_is_told() {
    let (folder, place) = register("waits");
    build(&folder.join("a"), "a\t01\n");
    let lock = File::create(folder.join(".r.gvdb-lock")).unwrap();
    lock.lock().unwrap();
    let run = start(&folder, &["merge", "r", "a", "-o", "r"]);
    thread::sleep(Duration::from_millis(3000));
    assert_eq!(dump(&place), "k\t00\n");
    drop(lock);
    end(run).ends(0).says("gvdb: r: another run of gvdb is writing it; waiting for it to end");
    assert_eq!((dump(&place), names(&folder)), ("a\t01\nk\t00\n".to_string(), vec!["a".to_string(), "r".to_string()]));
}

/// A lock that a run left behind, one that nobody may write, and things in its place that are no lock: none refuses a run.
#[test]
fn what_lies_at_the_lock_refuses_nothing() {
    let (folder, place) = register("left-lock");
    let lock = folder.join(".r.gvdb-lock");
    for (round, mode) in [0o666, 0o444, 0o600].into_iter().enumerate() {
        fs::write(&lock, "").unwrap();
        fs::set_permissions(&lock, Permissions::from_mode(mode)).unwrap();
        build(&folder.join("a"), &format!("a{round}\t01\n"));
        let ran = end(start(&folder, &["merge", "r", "a", "-o", "r"])).ends(0);
        assert!(ran.stderr.is_empty() && !lock.exists(), "{}", ran.stderr);
    }
    for make in ["mkdir .r.gvdb-lock", "ln -s nowhere .r.gvdb-lock", "mkfifo .r.gvdb-lock"] {
        shell(&folder, &format!("rm -rf .r.gvdb-lock; {make}")).ends(0);
        let ran = end(start(&folder, &["merge", "r", "a", "-o", "r"])).ends(0);
        ran.says("r: no lock can be had (its lock is not a plain file), so other runs of gvdb are not kept out, only noticed");
    }
    assert_eq!(dump(&place), "a0\t01\na1\t01\na2\t01\nk\t00\n");
}

/// A run of `gvdb build` that has seen what is at its place and waits for more lines.
fn waiting_build(folder: &Path) -> Child {
    let mut child = start(folder, &["build", "-o", "r", "--replace"]);
    // more than a pipe holds, so the program is reading
    child.stdin.as_mut().unwrap().write_all(&vec![b'\n'; 200_000]).unwrap();
    child
}

/// What another program does to a file.
type Change = fn(&Path);

#[test]
fn what_another_program_changes_is_not_written_over() {
    let changes: [(&str, Change); 4] = [
        ("changed", |place| fs::write(place, "something else").unwrap()),
        ("one-byte", |place| {
            // of the same length and time
            let (mut bytes, time) = (fs::read(place).unwrap(), fs::metadata(place).unwrap().modified().unwrap());
            *bytes.last_mut().unwrap() ^= 1;
            let mut file = OpenOptions::new().write(true).open(place).unwrap();
            file.write_all(&bytes).unwrap();
            file.set_modified(time).unwrap();
        }),
        ("removed", |place| fs::remove_file(place).unwrap()),
        ("by-gvdb", |place| {
            build(&place.with_file_name("a"), "a\t01\n");
            end(start(place.parent().unwrap(), &["merge", "r", "a", "-o", "r"])).ends(0);
        }),
    ];
    for (name, change) in changes {
        let (folder, place) = register(&format!("meanwhile-{name}"));
        let mut run = waiting_build(&folder);
        change(&place);
        let (there, in_folder) = (fs::read(&place).ok(), names(&folder));
        run.stdin.as_mut().unwrap().write_all(b"new\t01\n").unwrap();
        drop(run.stdin.take());
        end(run).ends(1).says("gvdb: r: another program has changed it since this run began; nothing is written");
        assert_eq!((fs::read(&place).ok(), names(&folder)), (there, in_folder));
    }
}

#[test]
fn what_comes_where_nothing_was_is_not_written_over() {
    let folder = folder("came");
    let mut run = waiting_build(&folder);
    fs::write(folder.join("r"), "came").unwrap();
    run.stdin.as_mut().unwrap().write_all(b"new\t01\n").unwrap();
    drop(run.stdin.take());
    end(run).ends(1).says("another program has changed it since this run began");
    assert_eq!((fs::read(folder.join("r")).unwrap(), names(&folder)), (b"came".to_vec(), vec!["r".to_string()]));
}

/// A merge that waits for its other file, which is a pipe, while another program changes OWN.
#[test]
fn a_merge_sees_a_change_too() {
    let (folder, place) = register("merge-meanwhile");
    build(&folder.join("a"), "a\t01\n");
    shell(&folder, "mkfifo pipe").ends(0);
    let run = start(&folder, &["merge", "r", "pipe", "-o", "r", "--report", "report"]);
    let mut pipe = OpenOptions::new().write(true).open(folder.join("pipe")).unwrap();
    build(&folder.join("late"), "k\t00\nlate\t01\n");
    fs::copy(folder.join("late"), &place).unwrap();
    pipe.write_all(&fs::read(folder.join("a")).unwrap()).unwrap();
    drop(pipe);
    let ran = end(run).ends(1).says("r: another program has changed it since this run began; nothing is written");
    let last = "refused: r is not written (r: another program has changed it since this run began; nothing is written); ";
    assert!(ran.text().lines().last().unwrap().starts_with(last), "{}", ran.text());
    assert!(fs::read_to_string(folder.join("report")).unwrap().lines().last().unwrap().starts_with(last));
    assert_eq!(dump(&place), "k\t00\nlate\t01\n");
}

#[test]
fn replace_names_what_is_lost() {
    let (folder, place) = register("replace");
    let long = "ab".repeat(99);
    build(&place, &format!("gone\t{long}\nchanged\t01\nsame\t02\nt\te\t{{}}\nt\tx\t03\nu\t{{}}\n"));
    build(&folder.join("a"), "changed\t0f\nsame\t02\n");
    build(&folder.join("b"), "u\t05\n");
    let before = fs::read(&place).unwrap();
    let merge = |words: &str| shell(&folder, &format!("\"$GVDB\" merge a b -o r {words}"));
    merge("").ends(1).says("gvdb: r: it is there already; --replace writes over it, and names what is lost");
    assert_eq!(fs::read(&place).unwrap(), before);
    let lost = [
        "dropped from before \"changed\": value of 1 byte: 01".to_string(),
        format!("dropped from before \"gone\": value of 99 bytes: {long}"),
        "dropped from before \"t\" > \"e\": table without a value".to_string(),
        "dropped from before \"t\" > \"x\": value of 1 byte: 03".to_string(),
        "dropped from before \"u\": table without a value".to_string(),
    ];
    let named = |ran: &Ran| ran.text().lines().filter(|line| line.starts_with("dropped")).map(String::from).collect::<Vec<_>>();
    assert_eq!(named(&merge("--replace --dry-run").ends(0)), lost);
    assert_eq!(fs::read(&place).unwrap(), before);
    assert_eq!(named(&merge("--replace").ends(0)), lost);
    fs::write(&place, &before).unwrap();
    assert_eq!(named(&shell(&folder, "\"$GVDB\" dump b | \"$GVDB\" build --replace -o r").ends(0)).len(), 6);
    // bytes of the other order are other values
    fs::write(&place, &before).unwrap();
    assert_eq!(named(&shell(&folder, "(echo big-endian; \"$GVDB\" dump r) | \"$GVDB\" build --replace -o r").ends(0)).len(), 6);
    // what cannot be named is not replaced; an empty file holds nothing
    for (bytes, status, said) in [(&b"notes"[..], 2, "(16)\n"), (&fs::read(worked("rule_3.gvdb")).unwrap(), 1, "(rule 3)\n")] {
        fs::write(&place, bytes).unwrap();
        let ran = merge("--replace").ends(status).says(said);
        ran.says("what would be lost cannot be named, so it is not written over: move it away");
        assert_eq!(fs::read(&place).unwrap(), bytes);
    }
    fs::write(&place, "").unwrap();
    assert!(named(&merge("--replace").ends(0)).is_empty());
    assert_eq!(names(&folder), ["a", "b", "r"]);
}

#[test]
fn a_report_replaces_nothing_but_a_report() {
    let (folder, place) = register("replace-report");
    build(&folder.join("a"), "a\t01\n");
    let merge = |report: &str| shell(&folder, &format!("rm -f out; \"$GVDB\" merge r a -o out --report {report}"));
    merge("report").ends(0);
    let first = fs::read(folder.join("report")).unwrap();
    merge("report").ends(1).says("gvdb: report: it is there already; --replace writes over a report");
    assert_eq!(fs::read(folder.join("report")).unwrap(), first);
    let note = "note report: this replaces the report that began \"merge of own r and other a\" and ended \"merged into out: 2 values; ";
    merge("report --replace").ends(0).prints(note);
    assert!(fs::read_to_string(folder.join("report")).unwrap().contains(note));
    merge("report --replace --json").ends(0);
    merge("report --replace").ends(0).prints("note report: this replaces the report that began \"{\\\"own\\\":\\\"r\\\",");
    fs::write(folder.join("notes"), "my notes\n").unwrap();
    fs::copy(&place, folder.join("register")).unwrap();
    for slip in ["notes", "register"] {
        let before = fs::read(folder.join(slip)).unwrap();
        merge(&format!("{slip} --replace")).ends(1).says("it is no report of a merge, so it is not written over");
        assert_eq!(fs::read(folder.join(slip)).unwrap(), before);
        assert!(!folder.join("out").exists());
    }
}

#[test]
fn owner_and_mode_are_kept() {
    let (folder, place) = register("owner");
    build(&folder.join("a"), "a\t01\n");
    fs::set_permissions(&place, Permissions::from_mode(0o660)).unwrap();
    let root = fs::metadata(&place).unwrap().uid() == 0;
    if root {
        std::os::unix::fs::chown(&place, Some(12345), Some(12346)).unwrap();
    } else {
        skipped("only the superuser can give a file to another owner");
    }
    let before = fs::metadata(&place).unwrap();
    shell(&folder, "\"$GVDB\" merge r a -o r").ends(0);
    let after = fs::metadata(&place).unwrap();
    assert_ne!(before.ino(), after.ino());
    assert_eq!((before.uid(), before.gid(), before.mode()), (after.uid(), after.gid(), after.mode()));
    // a new file has the mode that any program would give it
    shell(&folder, "umask 027; \"$GVDB\" merge r a -o new --report report").ends(0);
    assert_eq!(["new", "report"].map(|name| fs::metadata(folder.join(name)).unwrap().mode() & 0o777), [0o640; 2]);
    // write-protected is refused, though a rename could do it, and the superuser may write
    fs::set_permissions(&place, Permissions::from_mode(0o440)).unwrap();
    let bytes = fs::read(&place).unwrap();
    shell(&folder, "\"$GVDB\" merge r a -o r").ends(2).says("gvdb: r: it is write-protected; nothing is written");
    shell(&folder, "printf 'a\\t01\\n' | \"$GVDB\" build -o r --replace").ends(2).says("gvdb: r: it is write-protected; nothing is written");
    assert_eq!((fs::read(&place).unwrap(), fs::metadata(&place).unwrap().mode() & 0o777), (bytes, 0o440));
}

/// Another user may write the file and its folder, and cannot give it away: the file stays as open as it was, and no more. A lock that the first user left is no
/// hindrance, though it cannot be removed in a sticky folder.
#[test]
fn another_user_writes_it() {
    let (folder, place) = register("another-user");
    if fs::metadata(&folder).unwrap().uid() != 0 || Command::new("setpriv").arg("--version").output().is_err() {
        skipped("another user needs the superuser, and setpriv");
        return;
    }
    build(&folder.join("a"), "a\t01\n");
    fs::set_permissions(&folder, Permissions::from_mode(0o777)).unwrap();
    fs::set_permissions(&place, Permissions::from_mode(0o676)).unwrap();
    fs::write(folder.join(".r.gvdb-lock"), "").unwrap();
    let merge = "umask 077; setpriv --reuid=54321 --regid=54321 --clear-groups \"$GVDB\" merge r a -o r";
    assert!(shell(&folder, merge).ends(0).stderr.is_empty());
    let after = fs::metadata(&place).unwrap();
    assert_eq!((after.uid(), after.gid(), after.mode() & 0o7777), (54321, 54321, 0o666));
    // what the system does not let them write is write-protected for them
    fs::set_permissions(&place, Permissions::from_mode(0o644)).unwrap();
    std::os::unix::fs::chown(&place, Some(0), Some(0)).unwrap();
    shell(&folder, merge).ends(2).says("gvdb: r: it is write-protected; nothing is written");
    assert_eq!(names(&folder), ["a", "r"]);
    fs::set_permissions(&place, Permissions::from_mode(0o666)).unwrap();
    fs::set_permissions(&folder, Permissions::from_mode(0o1777)).unwrap();
    fs::write(folder.join(".r.gvdb-lock"), "").unwrap();
    fs::set_permissions(folder.join(".r.gvdb-lock"), Permissions::from_mode(0o666)).unwrap();
    let ran = shell(&folder, merge).ends(2);
    assert!(ran.text().lines().last().unwrap().starts_with("refused: r is not written (r: Operation not permitted"), "{}", ran.text());
    assert_eq!(names(&folder), [".r.gvdb-lock", "a", "r"]);
}

/// A merge that stands before its last step, since nobody reads its report.
fn stuck(folder: &Path) -> Child {
    let lines: String = (0..200).map(|i| format!("{i}\t{}\n", "ab".repeat(1000))).collect();
    build(&folder.join("a"), &lines);
    build(&folder.join("b"), &lines);
    let run = start(folder, &["merge", "a", "b", "-o", "r", "--replace", "--report", "-"]);
    let begun = Instant::now();
    while temporary(folder).is_empty() || fs::metadata(folder.join(&temporary(folder)[0])).map_or(0, |found| found.len()) < 200_000 {
        assert!(begun.elapsed() < Duration::from_secs(20), "no file beside r");
        thread::sleep(Duration::from_millis(5));
    }
    thread::sleep(Duration::from_millis(50));
    run
}

fn temporary(folder: &Path) -> Vec<String> {
    names(folder).into_iter().filter(|name| name.ends_with(".gvdb-tmp")).collect()
}

#[test]
fn files_that_a_dead_run_leaves() {
    let (folder, place) = register("dead");
    fs::set_permissions(&place, Permissions::from_mode(0o664)).unwrap();
    let before = fs::read(&place).unwrap();
    let mut run = stuck(&folder);
    let [beside] = &temporary(&folder)[..] else { panic!("one file beside r") };
    assert_eq!(fs::metadata(folder.join(beside)).unwrap().mode() & 0o777, 0o600);
    run.kill().unwrap();
    run.wait().unwrap();
    assert_eq!((fs::read(&place).unwrap(), temporary(&folder).len()), (before, 1));
    // those of another file, and what is not ours, stay
    let others = [".q.0123456789abcdef.gvdb-tmp", ".r.0123.gvdb-tmp", ".r.tmp"];
    others.iter().for_each(|name| fs::write(folder.join(name), "").unwrap());
    build(&folder.join("c"), "c\t01\n");
    shell(&folder, "\"$GVDB\" merge r c -o r").ends(0);
    assert_eq!(names(&folder), [".q.0123456789abcdef.gvdb-tmp", ".r.0123.gvdb-tmp", ".r.tmp", "a", "b", "c", "r"]);
}

#[test]
fn names_of_any_length() {
    let folder = folder("long-name");
    let long = "n".repeat(255);
    build(&folder.join(&long), "a\t01\n");
    build(&folder.join("b"), "b\t01\n");
    // a report whose name begins alike takes no lock twice
    shell(&folder, &format!("\"$GVDB\" merge {long} b -o {long} --report {}x", &long[..254])).ends(0);
    assert_eq!(dump(&folder.join(&long)), "a\t01\nb\t01\n");
    assert_eq!(names(&folder).len(), 3);
    for kept in [".r.gvdb-lock", ".r.0123456789abcdef.gvdb-tmp"] {
        shell(&folder, &format!("\"$GVDB\" merge {long} b -o {kept}")).ends(2).says("gvdb keeps such names for files of its own");
    }
}
