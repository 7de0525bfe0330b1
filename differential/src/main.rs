//! This library, gvdb-rs and a third reading of the documents, asked the same questions in one process, in both forms of the hash: in the signed one a copy of gvdb-rs answers whose hash has it.
//! Use: differential [--lists FOLDER] [--seeds A..B] [--minutes N]. The lists are the oracle's stored questions. A seed is a history of builder calls with its images and damaged copies of them, tables made by hand and
//! at random, a header, texts that may be no UTF-8, keys whose order of arrival is that of the children, a builder on garbage memory, and pairs of all those tables, one over the other. With --minutes it goes on from the last seed for that long.

mod building;
mod children;
mod corners;
mod dice;
mod document;
#[path = "../../tests/outside/ffi.rs"]
mod ffi;
mod filters;
mod forms;
mod garbage;
mod headers;
mod layered;
mod lent;
mod limits;
mod make;
mod ours;
mod reading;
mod signed;
mod stored;
mod tally;
mod texts;
mod theirs;

use building::History;
use dice::Dice;
use gvdb as rust;
use layered::Pair;
use lent::Memory;
use reading::Case;
use std::io::{Seek, Write};
use std::panic::{catch_unwind, AssertUnwindSafe};
use std::process::ExitCode;
use std::time::{Duration, Instant};
use tally::{Difference, Outcome, Tally, Who};

/// As many seeds as take about two minutes.
const SEEDS: std::ops::Range<u64> = 0..25_000;

/// A difference is also what a guard or a rule of this program finds, by a panic.
fn caught<T>(run: impl FnOnce() -> Result<T, Difference>) -> Result<T, Difference> {
    catch_unwind(AssertUnwindSafe(run)).unwrap_or_else(|why| {
        let text = why.downcast_ref::<String>().cloned().or(why.downcast_ref::<&str>().map(|text| text.to_string()));
        Err(Difference { question: "a rule that holds for every call".into(), ours: text.unwrap_or_default(), who: Who::Document, theirs: "none".into() })
    })
}

/// Drops calls as long as the histories still differ.
fn smaller_history(history: &History) -> History {
    let mut small = history.clone();
    let mut at = small.calls.len();
    while at > 0 {
        at -= 1;
        let mut less = small.clone();
        less.calls.remove(at);
        if caught(|| less.compare(&mut Tally::default())).is_err() {
            small = less;
        }
    }
    small
}

/// Clears and cuts bytes as long as the readings still differ.
fn smaller_file(case: &Case) -> Case {
    let mut small = case.clone();
    for width in [256, 64, 16, 4, 1] {
        let mut at = small.file.len();
        while at > 0 {
            let from = at.saturating_sub(width);
            let mut cut = small.clone();
            cut.file.drain(from..);
            let mut clear = small.clone();
            clear.file[from..at].fill(0);
            for less in [cut, clear] {
                if less.file != small.file && from < small.file.len() && caught(|| less.compare(&mut Tally::default())).is_err() {
                    small = less;
                    break;
                }
            }
            at = from.min(small.file.len());
        }
    }
    small
}

fn say(seed: u64, difference: &Difference, input: &str) {
    let Difference { question, ours, who, theirs } = difference;
    println!("seed {seed}: {question}\n  here {ours:.2000}\n  {} {theirs:.2000}\n  {input:.20000}", who.name());
}

/// How many differences are made small and printed; the others are only counted.
const PRINTED: u64 = 20;

struct Run {
    tally: Tally,
    differences: u64,
}

impl Run {
    /// Counts a difference, and says whether it is to be printed.
    fn counted(&mut self) -> bool {
        self.differences += 1;
        self.differences <= PRINTED
    }

    /// A table, and those that it holds.
    fn read(&mut self, seed: u64, case: &Case) {
        self.read_one(seed, case);
        case.nested().iter().for_each(|nested| self.read_one(seed, nested));
    }

    fn read_one(&mut self, seed: u64, case: &Case) {
        let tally = &mut self.tally;
        let Err(first) = caught(|| case.compare(tally)) else { return };
        if self.counted() {
            let small = smaller_file(case);
            let difference = caught(|| small.compare(&mut Tally::default())).err().unwrap_or(first);
            say(seed, &difference, &small.describe());
        }
    }

    /// Answers the images that were written.
    fn build(&mut self, seed: u64, history: &History) -> Vec<Case> {
        let tally = &mut self.tally;
        let first = match caught(|| history.compare(tally)) {
            Ok(images) => return images,
            Err(first) => first,
        };
        if self.counted() {
            let small = smaller_history(history);
            let difference = caught(|| small.compare(&mut Tally::default())).err().unwrap_or(first);
            say(seed, &difference, &small.describe());
        }
        Vec::new()
    }

    /// What is no history of a seed.
    fn fixed(&mut self, show: fn(&mut Tally) -> Outcome, input: &str) {
        let tally = &mut self.tally;
        if let Err(difference) = caught(|| show(tally)) {
            self.counted();
            say(0, &difference, input);
        }
    }

    /// The questions of a list.
    fn stored(&mut self, list: &str) {
        let (histories, cases) = stored::read(list);
        for history in &histories {
            self.build(0, history).iter().for_each(|image| self.read(0, image));
        }
        cases.iter().for_each(|case| self.read_one(0, case));
        self.tally.alone("stored histories", histories.len() as u64);
        self.tally.alone("stored tables", cases.len() as u64);
    }

    fn garbage(&mut self, seed: u64, dice: &Dice, memory: fn(&Dice) -> Memory) {
        let (tally, mut calls) = (&mut self.tally, Vec::new());
        let Err(difference) = caught(|| garbage::compare(dice, memory, tally, &mut calls)) else { return };
        if self.counted() {
            say(seed, &difference, &format!("garbage memory: {}", building::described(&calls)));
        }
    }

    /// What a seed has once, by chance.
    fn chance(&mut self, seed: u64, dice: &Dice, random: fn(&Dice, &mut Tally) -> Outcome, input: &str) {
        let tally = &mut self.tally;
        let Err(difference) = caught(|| random(dice, tally)) else { return };
        if self.counted() {
            say(seed, &difference, input);
        }
    }

    /// Two of these tables, one over the other.
    fn layer(&mut self, seed: u64, dice: &Dice, tables: &[Case]) {
        let (tally, pair) = (&mut self.tally, Pair::random(dice, tables));
        let Err(difference) = caught(|| pair.compare(tally)) else { return };
        if self.counted() {
            say(seed, &difference, &pair.describe());
        }
    }

    fn seed(&mut self, seed: u64) {
        let dice = &Dice::new(seed);
        let history = if dice.one_in(15) { History::deep(dice) } else { History::random(dice) };
        let images = self.build(seed, &history);
        let mut tables = Vec::new();
        for image in images.iter().rev().take(3) {
            let mut asked = image.clone();
            asked.keys = image.keys.iter().take(8).map(|key| make::near(dice, b'/', key.clone())).collect();
            tables.extend((0..4).map(|_| make::damaged(dice, &asked)));
            tables.push(asked);
        }
        for _ in 0..3 {
            let made = make::by_hand(dice);
            tables.extend([make::damaged(dice, &made), make::random(dice), made]);
            self.garbage(seed, dice, garbage::any);
        }
        tables.iter().for_each(|table| self.read(seed, table));
        (0..6).for_each(|_| self.layer(seed, dice, &tables));
        if dice.one_in(12) {
            self.garbage(seed, dice, garbage::slightly);
        }
        self.chance(seed, dice, headers::random, "a header by chance");
        self.chance(seed, dice, texts::random, "texts by chance");
        self.chance(seed, dice, children::arrival, "children by order of arrival");
    }
}

struct Arguments {
    lists: Option<String>,
    seeds: std::ops::Range<u64>,
    time: Duration,
}

fn arguments() -> Option<Arguments> {
    let mut found = Arguments { lists: None, seeds: SEEDS, time: Duration::ZERO };
    let mut rest = std::env::args().skip(1);
    while let Some(flag) = rest.next() {
        let value = rest.next()?;
        match flag.as_str() {
            "--seeds" => {
                let (from, to) = value.split_once("..")?;
                found.seeds = from.parse().ok()?..to.parse().ok()?;
            }
            "--lists" => found.lists = Some(value),
            "--minutes" => found.time = Duration::from_secs_f64(60.0 * value.parse::<f64>().ok()?),
            _ => return None,
        }
    }
    Some(found)
}

/// The seeds one after another; each is noted in a file first, in case the process does not come back.
fn all(arguments: Arguments) -> Run {
    let start = Instant::now();
    let mut run = Run { tally: Tally::default(), differences: 0 };
    let mut note = std::env::var("SEED_NOTE").ok().map(|path| std::fs::File::create(path).expect("a file for the seed"));
    run.fixed(corners::show, "a difference of docs/DIFFERENCES.md is not as it stands there");
    run.fixed(limits::show, "a limit is not as it should be");
    run.fixed(headers::show, "a header is not read or laid as it should be");
    run.fixed(garbage::rules, "a write takes memory that breaks a rule");
    run.fixed(children::show, "the children of a container are not as they should be");
    run.fixed(texts::show, "a text is bad elsewhere than is said");
    run.fixed(forms::show, "a form of the hash is not as it should be");
    for list in arguments.lists.iter().flat_map(|folder| std::fs::read_dir(folder).expect("the lists")) {
        run.stored(&std::fs::read_to_string(list.expect("a list").path()).expect("a list"));
    }
    let mut seed = arguments.seeds.start;
    while seed < arguments.seeds.end || start.elapsed() < arguments.time {
        if let Some(file) = &mut note {
            file.rewind().and_then(|()| write!(file, "{seed:020}")).expect("a note");
        }
        run.seed(seed);
        seed += 1;
    }
    println!("seeds {} to {}, {} s", arguments.seeds.start, seed, start.elapsed().as_secs());
    run
}

fn main() -> ExitCode {
    if std::env::args().nth(1).as_deref() == Some("--recurse") {
        corners::recurse();
        return ExitCode::SUCCESS;
    }
    let Some(arguments) = arguments() else {
        println!("use: differential [--lists FOLDER] [--seeds A..B] [--minutes N]");
        return ExitCode::from(2);
    };
    std::panic::set_hook(Box::new(|_| {}));
    // a long chain of parents makes gvdb-rs recurse as deep
    let thread = std::thread::Builder::new().stack_size(1 << 30).spawn(move || all(arguments)).expect("a thread");
    let run = thread.join().expect("the run");
    run.tally.print();
    println!("{} answers compared, {} differ", run.tally.total(), run.differences);
    if run.differences == 0 && run.tally.total() > 0 {
        ExitCode::SUCCESS
    } else {
        ExitCode::FAILURE
    }
}
