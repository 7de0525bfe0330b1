//! The build script of the packages that tests/beside builds: links target/staticlib/libgvdb.a, and again when it has changed.

fn main() {
    let folder = format!("{}/../../staticlib", std::env::var("CARGO_MANIFEST_DIR").expect("set by cargo"));
    println!("cargo:rustc-link-search=native={folder}");
    println!("cargo:rerun-if-changed={folder}/libgvdb.a");
}
