//! Writes what the check says of each table that the oracle's lists open: file, start, end, number, rule, item.
//! Use: opened LIST...

mod ffi;
mod stored;

use ffi::check;

fn hex(bytes: &[u8]) -> String {
    if bytes.is_empty() {
        return "-".into();
    }
    bytes.iter().map(|byte| format!("{byte:02x}")).collect()
}

fn main() {
    for path in std::env::args().skip(1) {
        let list = std::fs::read_to_string(&path).unwrap_or_else(|error| panic!("{path}: {error}"));
        stored::walk(&list, |words, file| {
            if let ["open", start, end] = words {
                let said = check(file, start.parse().expect("a start"), end.parse().expect("an end"), 0);
                println!("{} {start} {end} {} {} {}", hex(file), said.number, said.rule, said.item);
            }
        });
    }
}
