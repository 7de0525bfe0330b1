//! What was compared, and what differs.

use crate::document::Form;
use std::collections::BTreeMap;
use std::fmt::Debug;

/// Whose answer ours is held against.
#[derive(Clone, Copy, PartialEq, Eq, PartialOrd, Ord)]
pub enum Who {
    Rust,
    /// gvdb-rs with a hash of signed bytes.
    SignedRust,
    Document,
    /// `Utf8Error::valid_up_to` of Rust's own library.
    Std,
}

impl Who {
    /// gvdb-rs, or its copy with the signed form.
    pub fn rust(form: Form) -> Who {
        match form {
            Form::Plain => Who::Rust,
            Form::Signed => Who::SignedRust,
        }
    }

    pub fn name(self) -> &'static str {
        match self {
            Who::Rust => "gvdb-rs",
            Who::SignedRust => "gvdb-rs with a hash of signed bytes",
            Who::Document => "the documents",
            Who::Std => "Rust's from_utf8",
        }
    }
}

/// Two answers to one question that are not the same.
pub struct Difference {
    pub question: String,
    pub ours: String,
    pub who: Who,
    pub theirs: String,
}

/// A refusal: its number, and with 8 and 9 where the text is bad.
#[derive(Clone, Copy, PartialEq, Eq, Debug)]
pub struct Why {
    pub number: u32,
    pub at: usize,
}

impl From<u32> for Why {
    fn from(number: u32) -> Why {
        Why { number, at: 0 }
    }
}

/// The number of an answer.
pub fn number<T>(answer: &Result<T, Why>) -> u32 {
    answer.as_ref().err().map_or(0, |why| why.number)
}

/// Start and end of a stretch of a file, or a refusal.
pub type Place = Result<(u32, u32), Why>;

/// A child: the byte of its kind, start and end of its fragment, and its index; or a refusal.
pub type Child = Result<(u32, u32, u32, usize), Why>;

/// The first broken rule of a table, the item that breaks it, and for rule 1 with what listing that item ends.
pub type Broken = (u32, usize, Option<Why>);

pub type Outcome = Result<(), Difference>;

#[derive(Default)]
pub struct Tally {
    counts: BTreeMap<(Who, &'static str), u64>,
    numbers: BTreeMap<u32, u64>,
    rules: BTreeMap<u32, u64>,
    whys: BTreeMap<u32, u64>,
    alone: BTreeMap<&'static str, u64>,
}

impl Tally {
    /// Compares two answers and counts them.
    pub fn same<T: PartialEq + Debug + ?Sized>(&mut self, who: Who, kind: &'static str, ours: &T, theirs: &T, question: impl FnOnce() -> String) -> Outcome {
        *self.counts.entry((who, kind)).or_default() += 1;
        if ours == theirs {
            return Ok(());
        }
        Err(Difference { question: format!("{kind}: {}", question()), ours: format!("{ours:?}"), who, theirs: format!("{theirs:?}") })
    }

    /// Counts an answer of ours by its number.
    pub fn number(&mut self, number: u32) {
        *self.numbers.entry(number).or_default() += 1;
    }

    /// Counts a rule of the check that was broken, and what is said of rule 1.
    pub fn rule(&mut self, rule: u32, why: Option<Why>) {
        self.number(40);
        *self.rules.entry(rule).or_default() += 1;
        if let Some(why) = why {
            *self.whys.entry(why.number).or_default() += 1;
        }
    }

    /// Counts a case that gvdb-rs cannot be asked.
    pub fn alone(&mut self, what: &'static str, count: u64) {
        *self.alone.entry(what).or_default() += count;
    }

    pub fn total(&self) -> u64 {
        self.counts.values().sum()
    }

    pub fn print(&self) {
        for who in [Who::Rust, Who::SignedRust, Who::Document, Who::Std] {
            let list: Vec<String> = self.counts.iter().filter(|((w, _), _)| *w == who).map(|((_, kind), count)| format!("{kind} {count}")).collect();
            println!("compared with {}: {}", who.name(), list.join(", "));
        }
        let list: Vec<String> = self.alone.iter().map(|(what, count)| format!("{what} {count}")).collect();
        println!("here alone: {}", list.join(", "));
        let listed = |map: &BTreeMap<u32, u64>| map.iter().map(|(number, count)| format!("{number}: {count}")).collect::<Vec<_>>().join(", ");
        println!("our answers by number: {}; rules broken with 40: {}; said of rule 1: {}", listed(&self.numbers), listed(&self.rules), listed(&self.whys));
    }
}
