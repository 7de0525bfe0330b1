//! The script `gvdb` of the root: what it proves and builds, and when. Scripts stand in for the kit and for cargo and note how they are called.

use crate::harness::*;
use std::fs::{self, File};
use std::os::unix::fs::{symlink, PermissionsExt};
use std::path::{Path, PathBuf};
use std::process::Command;
use std::time::{Duration, SystemTime};

const RT: &str = "#!/bin/sh
[ \"$1\" = version ] && { echo kit-of-the-test 1; exit; }
echo \"rt $* ${PWD##*/}\" >> ../../calls
mkdir -p out
[ \"$1\" != lib ] || cat ../*/src/* > out/libgvdb_c.a
";
const CARGO: &str = "#!/bin/sh
echo \"cargo $GVDB_KIT, $(echo \"$GVDB_COMMIT\" | sed 's/^[0-9a-f]\\{10\\}/commit/')\" >> calls
mkdir -p target/cargo/release
printf '#!/bin/sh\\necho \"ran $*\"\\nexit 7\\n' > target/cargo/release/gvdb
chmod +x target/cargo/release/gvdb
";
/// All that the script may call.
const TOOLS: [&str; 19] = [
    "sh",
    "git",
    "find",
    "sed",
    "cat",
    "dirname",
    "readlink",
    "touch",
    "sha256sum",
    "xargs",
    "tail",
    "mkdir",
    "chmod",
    "rm",
    "cp",
    "env",
    "grep",
    "echo",
    "uname",
];
/// The command, and the crate in whose folder it is called.
const PROVED: &str = "rt check words\nrt check text\nrt check gvdb\nrt lib gvdb_c\n";

struct Place {
    root: PathBuf,
    tools: PathBuf,
}

impl Place {
    /// A small repository, of five crates, and the tools beside it.
    fn new(name: &str) -> Place {
        let place = Place { root: folder(name).join("root"), tools: folder(&format!("{name}-tools")) };
        for (path, text) in [
            ("crates.txt", "# a line\nwords:\ntext: words\nother: words\ngvdb: text\ngvdb_c staticlib: gvdb\n"),
            ("crates/words/src/lib.rt", "words"),
            ("crates/text/src/lib.rt", "text"),
            ("crates/other/src/lib.rt", "other"),
            ("crates/gvdb/src/lib.rt", "gvdb"),
            ("crates/gvdb_c/src/lib.rt", "gvdb_c"),
            ("cli/Cargo.toml", "[package]"),
            ("bindings/rust/Cargo.toml", "[package]"),
            (".gitignore", "/target/\n/calls\nout/\n"),
        ] {
            place.write(path, text);
            dated(&place.root.join(path), SystemTime::now() - Duration::from_secs(60));
        }
        fs::create_dir_all(place.root.join("tools")).unwrap();
        for script in ["gvdb", "tools/staticlib"] {
            fs::copy(root().join(script), place.root.join(script)).unwrap();
        }
        for tool in TOOLS {
            let found = shell(&place.root, &format!("command -v {tool}"));
            match found.text().trim_end() {
                path if path.starts_with('/') => symlink(path, place.tools.join(tool)).unwrap(),
                _ => assert!(["git", "echo"].contains(&tool), "no {tool}"),
            }
        }
        for (name, text) in [("rt", RT), ("cargo", CARGO)] {
            fs::write(place.tools.join(name), text).unwrap();
            fs::set_permissions(place.tools.join(name), fs::Permissions::from_mode(0o755)).unwrap();
        }
        place
    }

    /// Where git is at hand, the same with a first commit.
    fn known(name: &str) -> Option<Place> {
        let place = Place::new(name);
        if !place.tools.join("git").exists() {
            skipped("no git");
            return None;
        }
        place.git("init -q && git add -A");
        place.commit();
        Some(place)
    }

    fn git(&self, words: &str) {
        shell(&self.root, &format!("git {words}")).ends(0);
    }

    fn commit(&self) {
        self.git("-c user.name=x -c user.email=x@x -c commit.gpgsign=false commit -qam x");
    }

    fn write(&self, path: &str, text: &str) {
        let path = self.root.join(path);
        fs::create_dir_all(path.parent().unwrap()).unwrap();
        fs::write(&path, text).unwrap();
    }

    fn run(&self) -> Ran {
        let words = ["check", "a b"];
        let output = Command::new(self.root.join("gvdb")).args(words).current_dir("/").env("PATH", &self.tools).output().unwrap();
        let stderr = String::from_utf8(output.stderr).unwrap();
        Ran { status: output.status.code().unwrap(), stdout: output.stdout, stderr }
    }

    /// The calls of a run that ends with the program's status, and prints what it prints.
    #[track_caller]
    fn calls(&self) -> String {
        let ran = self.run().ends(7);
        assert_eq!(ran.text(), "ran check a b\n");
        let calls = fs::read_to_string(self.root.join("calls")).unwrap_or_default();
        let _ = fs::remove_file(self.root.join("calls"));
        assert_eq!(calls.is_empty(), ran.stderr.is_empty(), "{}", ran.stderr);
        calls
    }
}

fn dated(path: &Path, time: SystemTime) {
    File::options().append(true).open(path).unwrap().set_modified(time).unwrap();
}

/// Has a file look as if it was written a minute from now.
fn later(path: &Path) {
    dated(path, SystemTime::now() + Duration::from_secs(60));
}

#[test]
fn the_first_call_says_what_is_proved() {
    let place = Place::new("first-call");
    let ran = place.run().ends(7);
    let said = "gvdb: the library is to be proved: minutes, the first time\ngvdb: proving words, crate 1 of 4\ngvdb: proving text, crate 2 of 4\n\
                gvdb: proving gvdb, crate 3 of 4\ngvdb: proving gvdb_c, crate 4 of 4\ngvdb: building the program\n";
    assert_eq!((ran.text(), ran.stderr.as_str()), ("ran check a b\n", said));
    // no repository knows these files, whatever lies around them
    assert_eq!(fs::read_to_string(place.root.join("calls")).unwrap(), PROVED.to_string() + "cargo kit-of-the-test 1, unknown\n");
}

#[test]
fn only_what_git_knows_is_proved_again() {
    let Some(place) = Place::known("known-to-git") else { return };
    let built = |commit: &str| format!("cargo kit-of-the-test 1, {commit}\n");
    assert_eq!(place.calls(), PROVED.to_string() + &built("commit"));
    assert_eq!(place.calls(), "");
    // what git does not know, and what looks newer and is the same
    place.write("crates/words/src/lib.rt~", "words");
    place.write("cli/notes", "x");
    for path in ["crates.txt", "crates/words/src/lib.rt", "cli/Cargo.toml"] {
        later(&place.root.join(path));
    }
    assert_eq!(place.calls(), "");
    place.write("crates/words/src/lib.rt", "others");
    assert_eq!(place.calls(), PROVED.to_string() + &built("commit with changes"));
    assert_eq!(place.calls(), "");
    // a commit alone changes no proof, and the program says it
    place.commit();
    assert_eq!(place.calls(), built("commit"));
    place.write("cli/Cargo.toml", "[packages]");
    assert_eq!(place.calls(), built("commit with changes"));
    fs::remove_file(place.root.join("crates/text/src/lib.rt")).unwrap();
    assert_eq!(place.calls(), PROVED.to_string() + &built("commit with changes"));
    // a file that git knows from now on; the library comes out the same, so the program stays
    place.git("add -f crates/words/src/lib.rt~");
    assert_eq!(place.calls(), PROVED);
    // a library that something else has laid is taken where it is newer than all sources; a program is not, since it does not know its commit
    later(&place.root.join("target/staticlib/libgvdb.a"));
    assert_eq!(place.calls(), "");
    later(&place.root.join("target/cargo/release/gvdb"));
    assert_eq!(place.calls(), built("commit with changes"));
    assert_eq!(place.calls(), "");
}

/// git sets its variables for what it runs; they mean another repository.
#[test]
fn run_by_git() {
    let Some(place) = Place::known("run-by-git") else { return };
    place.calls();
    place.write("crates/words/src/lib.rt~", "words");
    let words = format!("GIT_DIR=/nowhere GIT_INDEX_FILE=/nowhere PATH={} ./gvdb check", place.tools.display());
    let ran = shell(&place.root, &words).ends(7);
    assert!(ran.stderr.is_empty() && !place.root.join("calls").exists(), "{}", ran.stderr);
}

#[test]
fn without_git_what_is_newer_is_proved_again() {
    let place = Place::new("no-git");
    let _ = fs::remove_file(place.tools.join("git"));
    let built = "cargo kit-of-the-test 1, unknown\n";
    assert_eq!(place.calls(), PROVED.to_string() + built);
    assert_eq!(place.calls(), "");
    std::thread::sleep(Duration::from_millis(20));
    place.write("crates/words/src/lib.rt~", "words");
    assert_eq!(place.calls(), PROVED.to_string() + built);
}

#[test]
fn what_is_missing_is_named() {
    let place = Place::new("missing-tools");
    fs::rename(place.tools.join("rt"), place.tools.join("rt-away")).unwrap();
    let ran = place.run().ends(2).says("gvdb: the library is to be proved, and there is no command rt: install the Rattle kit (README.md, Needs)");
    assert!(ran.stdout.is_empty());
    fs::rename(place.tools.join("rt-away"), place.tools.join("rt")).unwrap();
    fs::remove_file(place.tools.join("cargo")).unwrap();
    let ran = place.run().ends(2);
    assert!(ran
        .stderr
        .ends_with("gvdb: the program is to be built, and there is no command cargo: install rustc and cargo (README.md, Needs) and put cargo on the path\n"));
}

#[test]
fn a_crate_that_is_not_proved_ends_it() {
    let place = Place::new("unproved");
    fs::write(place.tools.join("rt"), "#!/bin/sh\necho \"${PWD##*/} NOT PROVED\"\n[ \"${PWD##*/}\" != text ]\n").unwrap();
    let ran = place.run().ends(2);
    assert!(ran.stderr.ends_with("crate 2 of 4\ntext NOT PROVED\ngvdb: this failed: env -C crates/text rt check\n"), "{}", ran.stderr);
}

/// The program that is tested says which commit and which kit it is of.
#[test]
fn the_version_has_commit_and_kit() {
    let ran = gvdb(["--version"]).ends(0);
    let (version, kit) = ran.text().trim_end().split_once(", kit ").expect("the kit");
    let commit = version.strip_prefix("gvdb 0.1.0, commit ").expect("the commit");
    assert!(commit == "unknown" || commit.split(' ').next().unwrap().chars().all(|c| c.is_ascii_hexdigit()), "{commit}");
    assert!(!kit.is_empty());
}
