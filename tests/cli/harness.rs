//! Runs the program, and has a folder for each test.

use std::ffi::OsStr;
use std::io::Write;
use std::path::{Path, PathBuf};
use std::process::{Command, Stdio};
use std::{env, fs};

pub struct Ran {
    pub status: i32,
    pub stdout: Vec<u8>,
    pub stderr: String,
}

impl Ran {
    pub fn text(&self) -> &str {
        std::str::from_utf8(&self.stdout).expect("output that is UTF-8")
    }

    /// Holds the exit status; a failure has said one line, and nothing panics.
    #[track_caller]
    pub fn ends(self, status: i32) -> Ran {
        assert_eq!(self.status, status, "stdout: {}\nstderr: {}", String::from_utf8_lossy(&self.stdout), self.stderr);
        self
    }

    #[track_caller]
    pub fn says(self, part: &str) -> Ran {
        assert!(self.stderr.contains(part), "{part:?} is not in: {}", self.stderr);
        assert_eq!(self.stderr.lines().count(), 1, "{}", self.stderr);
        self
    }

    #[track_caller]
    pub fn prints(self, part: &str) -> Ran {
        assert!(self.text().contains(part), "{part:?} is not in: {}", self.text());
        self
    }
}

/// Says what cannot be tried here. A print would be seen only where a test fails.
pub fn skipped(why: &str) {
    let _ = writeln!(std::io::stderr(), "\nskipped: {why}");
}

pub fn program() -> PathBuf {
    PathBuf::from(env::var_os("GVDB").expect("GVDB"))
}

pub fn root() -> PathBuf {
    PathBuf::from(env::var_os("ROOT").expect("ROOT"))
}

/// The folder of real files, where there is one.
pub fn real() -> Option<PathBuf> {
    env::var_os("REAL").filter(|folder| !folder.is_empty()).map(PathBuf::from)
}

pub fn worked(name: &str) -> PathBuf {
    root().join("crates/worked/data").join(name)
}

pub fn gvdb<S: AsRef<OsStr>>(words: impl IntoIterator<Item = S>) -> Ran {
    gvdb_fed(words, b"")
}

pub fn gvdb_fed<S: AsRef<OsStr>>(words: impl IntoIterator<Item = S>, input: &[u8]) -> Ran {
    let mut command = Command::new(program());
    command.args(words).stdin(Stdio::piped()).stdout(Stdio::piped()).stderr(Stdio::piped());
    let mut child = command.spawn().expect("the program");
    let mut stdin = child.stdin.take().expect("its input");
    let input = input.to_vec();
    let feeder = std::thread::spawn(move || drop(stdin.write_all(&input)));
    let output = child.wait_with_output().expect("its output");
    feeder.join().expect("the feeder");
    let stderr = String::from_utf8(output.stderr).expect("errors that are UTF-8");
    Ran { status: output.status.code().expect("a status"), stdout: output.stdout, stderr }
}

/// A line for the shell, with `$GVDB` and the test's folder as the place.
pub fn shell(folder: &Path, line: &str) -> Ran {
    let output = Command::new("sh").args(["-c", line]).current_dir(folder).env("GVDB", program()).output().expect("sh");
    let stderr = String::from_utf8(output.stderr).expect("errors that are UTF-8");
    Ran { status: output.status.code().expect("a status"), stdout: output.stdout, stderr }
}

/// The program with a line of words, in a folder.
pub fn run(folder: &Path, words: &str) -> Ran {
    shell(folder, &format!("\"$GVDB\" {words}"))
}

/// An empty folder of this name.
pub fn folder(name: &str) -> PathBuf {
    let folder = root().join("target/cli").join(name);
    let _ = fs::remove_dir_all(&folder);
    fs::create_dir_all(&folder).expect("a folder");
    folder
}

/// The names in a folder, hidden ones too.
pub fn names(folder: &Path) -> Vec<String> {
    let mut names: Vec<String> = fs::read_dir(folder).expect("the folder").map(|entry| entry.unwrap().file_name().to_string_lossy().into_owned()).collect();
    names.sort();
    names
}

/// Lays a file from lines, where there may be one.
#[track_caller]
pub fn build(place: &Path, lines: &str) {
    let _ = fs::remove_file(place);
    gvdb_fed(["build".as_ref(), "--empty".as_ref(), OsStr::new("-o"), place.as_os_str()], lines.as_bytes()).ends(0);
}

pub fn hex(bytes: &[u8]) -> String {
    bytes.iter().map(|byte| format!("{byte:02x}")).collect()
}

pub fn unhex(digits: &str) -> Vec<u8> {
    (0..digits.len() / 2).map(|i| u8::from_str_radix(&digits[2 * i..2 * i + 2], 16).expect("hex")).collect()
}

/// Numbers that repeat from run to run.
pub struct Dice(pub u64);

impl Dice {
    pub fn below(&mut self, limit: u64) -> u64 {
        self.0 ^= self.0 << 13;
        self.0 ^= self.0 >> 7;
        self.0 ^= self.0 << 17;
        self.0 % limit
    }
}
