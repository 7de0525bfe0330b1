//! gvdb-rs, driven line by line.

use crate::harness::{hex, unhex};
use crate::model::{Node, Table};
use std::collections::BTreeMap;
use std::io::{BufRead, BufReader, Write};
use std::path::Path;
use std::process::{Child, ChildStdin, ChildStdout, Command, Stdio};

pub struct Oracle {
    child: Child,
    questions: ChildStdin,
    answers: BufReader<ChildStdout>,
}

fn field(bytes: &[u8]) -> String {
    if bytes.is_empty() {
        "-".to_string()
    } else {
        hex(bytes)
    }
}

impl Oracle {
    /// None where gvdb-rs is not at hand, which tests/cli/run says.
    pub fn start() -> Option<Oracle> {
        let program = std::env::var_os("ORACLE").filter(|program| !program.is_empty())?;
        let mut child = Command::new(program).stdin(Stdio::piped()).stdout(Stdio::piped()).spawn().expect("gvdb-rs");
        let (questions, answers) = (child.stdin.take().unwrap(), BufReader::new(child.stdout.take().unwrap()));
        Some(Oracle { child, questions, answers })
    }

    /// What gvdb-rs answers: `ok` or `err`, and more.
    pub fn answer(&mut self, question: &str) -> String {
        writeln!(self.questions, "{question}").expect("a question");
        let mut answer = String::new();
        self.answers.read_line(&mut answer).expect("an answer");
        answer.trim_end().to_string()
    }

    #[track_caller]
    pub fn ask(&mut self, question: &str) -> String {
        let answer = self.answer(question);
        answer.strip_prefix("ok").unwrap_or_else(|| panic!("gvdb-rs answers {answer:?} to {question:.200}")).trim().to_string()
    }

    /// Everything that gvdb-rs reads in a file, looked up key by key; containers are passed over.
    #[track_caller]
    pub fn read(&mut self, file: &Path) -> Table {
        let bytes = std::fs::read(file).expect("the file");
        let root = self.open(file);
        self.table(&bytes, &root)
    }

    /// Opens a file, and has the pointer of its root table.
    #[track_caller]
    pub fn open(&mut self, file: &Path) -> String {
        let opened = self.ask(&format!("path {}", file.display()));
        opened.split_once(' ').expect("a length and a pointer").1.to_string()
    }

    fn table(&mut self, file: &[u8], pointer: &str) -> Table {
        let mut table = Table::new();
        let mut items = 0;
        for key in self.ask(&format!("keys {pointer}")).split_whitespace().map(String::from).collect::<Vec<_>>() {
            assert!(!key.starts_with('!'), "a key that gvdb-rs does not read");
            let name = String::from_utf8(if key == "-" { Vec::new() } else { unhex(&key) }).unwrap();
            items += 1;
            if let Some(place) = self.try_ask(&format!("get {pointer} {key}")) {
                let (offset, length) = place.split_once(' ').unwrap();
                let (offset, length): (usize, usize) = (offset.parse().unwrap(), length.parse().unwrap());
                table.insert(name, Node::Value(file[offset..offset + length].to_vec()));
            } else if let Some(nested) = self.try_ask(&format!("gettable {pointer} {key}")) {
                let nested = self.table(file, &nested);
                table.insert(name, Node::Table(nested));
            }
        }
        assert!(items >= table.len());
        table
    }

    fn try_ask(&mut self, question: &str) -> Option<String> {
        let answer = self.answer(question);
        match answer.strip_prefix("ok ") {
            Some(answer) => Some(answer.to_string()),
            None => {
                assert_eq!(answer, "err kindother");
                None
            }
        }
    }

    /// The whole file that gvdb-rs lays, header and all, with keys inserted in ascending order, as `gvdb build` does with lines that ascend.
    pub fn lay(&mut self, table: &Table) -> Vec<u8> {
        self.lay_as(table, "")
    }

    /// The same with keys inserted depth first, each container's children in the order of lines as `gvdb dump` writes them.
    pub fn lay_as(&mut self, table: &Table, lines: &str) -> Vec<u8> {
        self.ask("reset");
        let places: BTreeMap<&str, usize> = lines.lines().enumerate().filter_map(|(at, line)| Some((line.rsplit_once('\t')?.0, at))).collect();
        let number = self.fill(table, "", &places);
        unhex(&self.ask(&format!("write {number}")))
    }

    fn fill(&mut self, table: &Table, around: &str, places: &BTreeMap<&str, usize>) -> String {
        let number = self.ask("new 2f");
        let is_late = |key: &str| key.ends_with('/') && table.keys().any(|other| other.len() > key.len() && other.starts_with(key));
        let mut early: Vec<(&String, &Node)> = table.iter().filter(|(key, _)| !is_late(key)).collect();
        // A container arrives with the first line at or below it.
        let place = |key: &str| places.get(format!("{around}{key}").as_str());
        let first = |prefix: &str| table.keys().filter(|key| key.starts_with(prefix)).filter_map(|key| place(key)).min();
        if !places.is_empty() {
            early.sort_by_cached_key(|(key, _)| key.match_indices('/').map(|(at, _)| first(&key[..at + 1])).chain([place(key)]).collect::<Vec<_>>());
        }
        let late = table.iter().rev().filter(|(key, _)| is_late(key));
        for (key, node) in early.into_iter().chain(late) {
            match node {
                Node::Value(bytes) => self.ask(&format!("insert {number} {} {}", field(key.as_bytes()), field(bytes))),
                Node::Table(nested) => {
                    let guest = self.fill(nested, &format!("{around}{key}\t"), places);
                    self.ask(&format!("inserttable {number} {} {guest}", field(key.as_bytes())))
                }
            };
        }
        number
    }
}

impl Drop for Oracle {
    fn drop(&mut self) {
        let _ = self.child.kill();
        let _ = self.child.wait();
    }
}
