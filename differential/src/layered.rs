//! One table over another: what is answered is what two lookups answer by the rule, those of the third reading and those of gvdb-rs.

use crate::dice::Dice;
use crate::document::{read as document, Form, Lookup, Manner};
use crate::ffi::Lent;
use crate::lent::File;
use crate::make;
use crate::ours;
use crate::reading::{hex, Case};
use crate::signed;
use crate::tally::{number, Outcome, Place, Tally, Who, Why};
use crate::theirs;

/// So many keys of each table are asked, and one that may be in neither.
const KEYS: usize = 6;

/// A table over another, each in a form of its own, and keys to ask for.
pub struct Pair {
    own: Case,
    under: Case,
    manners: [Manner; 2],
    keys: Vec<Vec<u8>>,
}

impl Pair {
    /// Two of these tables, or one over itself, or with a file of no bytes, or with a table of no items.
    pub fn random(dice: &Dice, tables: &[Case]) -> Pair {
        let empty = |file: Vec<u8>, end: u32| Case { file, start: 24.min(end), end, keys: Vec::new() };
        let one = || match dice.below(10) {
            0 => empty(Vec::new(), 0),
            1 => empty(vec![0; 32], 32),
            _ => dice.pick(tables).clone(),
        };
        let own = one();
        let under = if dice.one_in(8) { own.clone() } else { one() };
        let manners = [make::manner(dice), make::manner(dice)];
        let mut keys = vec![make::key(dice, None, &[])];
        for case in [&own, &under] {
            let asked = case.asked(&case.with_header());
            keys.extend((0..KEYS.min(asked.len())).map(|_| dice.pick(&asked).clone()));
        }
        Pair { own, under, manners, keys }
    }

    pub fn describe(&self) -> String {
        format!("own in {:?}: {}\n  under in {:?}: {}", self.manners[0], self.own.describe(), self.manners[1], self.under.describe())
    }

    /// As two files, and where they are equal as one memory too.
    pub fn compare(&self, tally: &mut Tally) -> Outcome {
        let [own, under] = [&self.own, &self.under].map(|case| File::new(&case.with_header()));
        self.ask(tally, own.bytes(), under.bytes())?;
        if own.bytes() == under.bytes() {
            tally.alone("pairs that are one memory", 1);
            self.ask(tally, own.bytes(), own.bytes())?;
        }
        Ok(())
    }

    fn ask(&self, tally: &mut Tally, own: &[u8], under: &[u8]) -> Outcome {
        for key in &self.keys {
            let lent = |case: &Case, manner: Manner, file| Lent { file, start: case.start, end: case.end, manner: manner.number() };
            let ours = ours::get_layered(lent(&self.own, self.manners[0], own), lent(&self.under, self.manners[1], under), key);
            tally.number(number(&ours.0));
            let read =
                |case: &Case, manner: Manner, file| document::open(file, case.start, case.end, manner).map_err(Why::from).and_then(|table| table.get(key));
            let paper = over(Some(read(&self.own, self.manners[0], own)), || Some(read(&self.under, self.manners[1], under)));
            tally.same(Who::Document, "get over another", &Some(ours), &paper, || hex(key))?;
            let rust = over(rust(&self.own, self.manners[0], own, key), || rust(&self.under, self.manners[1], under, key));
            match rust {
                Some(rust) => tally.same(Who::Rust, "get over another", &(theirs::place_as_theirs(ours.0), ours.1), &rust, || hex(key))?,
                None => tally.alone("lookups over another table that gvdb-rs cannot be asked", 1),
            }
        }
        Ok(())
    }
}

/// The rule: what the first answers stands, but 12; and whether the second answered.
fn over(own: Option<Place>, under: impl FnOnce() -> Option<Place>) -> Option<(Place, bool)> {
    match own? {
        Err(Why { number: 12, .. }) => under().map(|place| (place, true)),
        own => Some((own, false)),
    }
}

/// What gvdb-rs answers of one table, or its copy in the signed form; none where it cannot be asked, as by the strict lookup.
fn rust(case: &Case, manner: Manner, file: &[u8], key: &[u8]) -> Option<Place> {
    let text = std::str::from_utf8(key).ok().filter(|_| file.len() >= 24 && manner.lookup == Lookup::Rust)?;
    if document::open(file, case.start, case.end, manner).is_ok_and(|table| table.recurses(key)) {
        return None;
    }
    Some(match manner.form {
        Form::Plain => theirs::value(file, text),
        Form::Signed => signed::value(file, text),
    })
}
