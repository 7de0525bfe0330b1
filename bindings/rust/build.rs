//! Finds libgvdb.a: in the folder GVDB_LIB_DIR, or where tools/staticlib writes it. It is asked for the number of its interface by a program of one line, which has to be
//! that of gvdb.h and of src/ffi.rs.
use std::path::{Path, PathBuf};
use std::process::{self, Command};
use std::{env, fs};

/// What declares the number, and the words in front of it there.
const DECLARED: [(&str, &str); 2] = [("../c/gvdb.h", "#define GVDB_ABI "), ("src/ffi.rs", "pub const ABI: u32 = ")];

const PROGRAM: &str = r#"#[link(name = "gvdb", kind = "static")] extern "C" { fn gvdb_abi() -> u32; } fn main() { println!("{}", unsafe { gvdb_abi() }) }"#;

fn main() {
    println!("cargo:rerun-if-env-changed=GVDB_LIB_DIR");
    let folder = match env::var_os("GVDB_LIB_DIR") {
        Some(folder) => PathBuf::from(folder),
        None => PathBuf::from(env::var_os("CARGO_MANIFEST_DIR").unwrap_or_default()).join("../../target/staticlib"),
    };
    let library = folder.join("libgvdb.a");
    println!("cargo:rerun-if-changed={}", library.display());
    if !library.is_file() {
        refuse(&format!("libgvdb.a is not in {}: run tools/staticlib in the root, or set GVDB_LIB_DIR to its folder", folder.display()));
    }
    let [header, here] = DECLARED.map(|(path, words)| declared(path, words));
    if header != here {
        refuse(&format!("gvdb.h is of number {header}, and src/ffi.rs of {here}"));
    }
    // An empty file stands for the library where nothing is linked (tests/clippy). A library for another machine does not run here; the crate's tests ask it there.
    if fs::metadata(&library).is_ok_and(|found| found.len() > 0) && env::var_os("HOST") == env::var_os("TARGET") {
        match answered(&folder) {
            Some(number) if number == here => {}
            Some(number) => refuse(&format!("{} is of number {number}, and gvdb.h of {header}: take both from one commit", library.display())),
            None => refuse(&format!("{} says no number, so it is older than gvdb.h, of number {header}, or does not link", library.display())),
        }
    }
    println!("cargo:rustc-link-search=native={}", folder.display());
    println!("cargo:rustc-link-lib=static=gvdb");
}

fn refuse(why: &str) -> ! {
    eprintln!("{why}");
    process::exit(1);
}

/// The number that a file declares.
fn declared(path: &str, words: &str) -> u32 {
    println!("cargo:rerun-if-changed={path}");
    let text = fs::read_to_string(path).unwrap_or_default();
    let number = text.lines().find_map(|line| line.strip_prefix(words)?.trim_end_matches(';').parse().ok());
    number.unwrap_or_else(|| refuse(&format!("{path} declares no number of the interface")))
}

/// The number that the library answers, if a program that asks for it links and runs.
fn answered(folder: &Path) -> Option<u32> {
    let made = PathBuf::from(env::var_os("OUT_DIR")?);
    let (source, program) = (made.join("asks.rs"), made.join("asks"));
    fs::write(&source, PROGRAM).ok()?;
    let mut rustc = Command::new(env::var_os("RUSTC")?);
    rustc.arg("-L").arg(folder).arg("-o").arg(&program).arg(&source);
    rustc.args(env::var("CARGO_ENCODED_RUSTFLAGS").unwrap_or_default().split('\x1f').filter(|flag| !flag.is_empty()));
    if let Ok(linker) = env::var("RUSTC_LINKER") {
        rustc.arg(format!("-Clinker={linker}"));
    }
    let linked = rustc.status().ok()?.success();
    let said = linked.then(|| Command::new(&program).output().ok())??;
    String::from_utf8(said.stdout).ok()?.trim().parse().ok()
}
