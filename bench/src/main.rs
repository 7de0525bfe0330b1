//! Nanoseconds of processor time per operation of this library, of gvdb-rs and of GLib's reader, measured in turns in one run.
//! Use: bench [--glib LIBRARY] [--rounds N], with the library that bench/run makes of GLib's reader.
//! Each call is measured whole, as a user makes it: gvdb-rs takes its own copies of keys and values, and has its table open; so has GLib, which lists
//! all keys in one call. Ours is lent its memory, and opens the table and tests the key at each call.

#[path = "../../tests/outside/ffi.rs"]
mod ffi;
mod glib;

use ffi::{Builder, Lent};
use gvdb::read::{oracle as raw, File, HashTable};
use gvdb::write::{FileWriter, HashTableBuilder};
use std::borrow::Cow;
use std::hint::black_box;
use std::time::Duration;

const VALUE: [u8; 8] = *b"\x01\x02\x03\x04\x05\x06\x07\x08";
const ROOM: usize = 1 << 20;
/// How many operations a turn has at least.
const TURN: usize = 2000;

/// Keys of eight segments: seven containers stand above each, 22 above them all, so that 1,000 keys are 1,022 items.
fn keys(count: usize, leaf: &str) -> Vec<String> {
    (0..count).map(|i| format!("/parcel/12/stand/3/plot/{}/{leaf}-{:03}", i % 16, i / 16)).collect()
}

/// Puts things into another order, the same from run to run.
fn shuffle<T>(things: &mut [T], dice: &mut u64) {
    for i in (1..things.len()).rev() {
        *dice = dice.wrapping_mul(6_364_136_223_846_793_005).wrapping_add(1_442_695_040_888_963_407);
        things.swap(i, (*dice >> 33) as usize % (i + 1));
    }
}

const DICE: u64 = 0x9E37_79B9_7F4A_7C15;

/// The same keys in an order that is not that of the table.
fn shuffled(mut keys: Vec<String>) -> Vec<String> {
    shuffle(&mut keys, &mut DICE.clone());
    keys
}

/// Keys to be looked up, in another order at each pass: one that repeats is learned by the processor, which then foresees what each key decides.
struct Asked<T> {
    keys: Vec<T>,
    dice: u64,
}

impl<T> Asked<T> {
    fn new(keys: Vec<T>) -> Asked<T> {
        Asked { keys, dice: DICE }
    }

    /// The time that a pass over all of them takes.
    fn timed(&mut self, look: impl FnMut(&T)) -> Duration {
        shuffle(&mut self.keys, &mut self.dice);
        timed(|| self.keys.iter().for_each(look)).0
    }
}

fn asked(keys: &[String]) -> Asked<&str> {
    Asked::new(keys.iter().map(String::as_str).collect())
}

#[repr(C)]
struct Clock {
    seconds: i64,
    nanoseconds: i64,
}

extern "C" {
    fn clock_gettime(clock: i32, time: *mut Clock) -> i32;
}

/// The time that this thread has had the processor: what other processes take does not count.
fn processor_time() -> Duration {
    const OF_THIS_THREAD: i32 = 3;
    let mut time = Clock { seconds: 0, nanoseconds: 0 };
    assert_eq!(unsafe { clock_gettime(OF_THIS_THREAD, &mut time) }, 0);
    Duration::new(time.seconds as u64, time.nanoseconds as u32)
}

/// Times a call alone, whatever is made before it and dropped after it.
fn timed<T>(call: impl FnOnce() -> T) -> (Duration, T) {
    let start = processor_time();
    let made = call();
    (processor_time() - start, made)
}

/// Ours: a builder with a table, memory used anew.
fn start(builder: &mut Builder) {
    builder.again();
    assert_eq!(builder.new_table(b"/").number, 0);
}

fn fill(builder: &mut Builder, keys: &[String]) {
    for key in keys {
        assert_eq!(builder.insert(0, key.as_bytes(), &VALUE).number, 0);
    }
}

fn filled(keys: &[String]) -> HashTableBuilder<'static> {
    let mut builder = HashTableBuilder::new();
    fill_theirs(&mut builder, keys);
    builder
}

fn fill_theirs(builder: &mut HashTableBuilder<'static>, keys: &[String]) {
    for key in keys {
        builder.insert(key.as_str(), raw::RawIn(VALUE.to_vec())).expect("a new key");
    }
}

fn write_theirs(builder: HashTableBuilder<'static>) -> Vec<u8> {
    FileWriter::new().write_to_vec_with_table(builder).expect("an image")
}

/// What both sides work on: the keys, the image and a copy that gvdb-rs accepts.
struct Ground {
    keys: Vec<String>,
    absent: Vec<String>,
    builder: Builder,
    image: Vec<u8>,
    end: u32,
    theirs: Vec<u8>,
}

impl Ground {
    fn new(count: usize) -> Ground {
        Ground::with(count, "year", "none")
    }

    /// Keys that end with one word are there, those with the other are not.
    fn with(count: usize, there: &str, absent: &str) -> Ground {
        let keys = shuffled(keys(count, there));
        let mut builder = Builder::fresh(ROOM);
        start(&mut builder);
        fill(&mut builder, &keys);
        let mut image = vec![0; ROOM];
        let written = builder.write(0, &mut image, 0);
        assert_eq!(written.number, 0);
        image.truncate(written.length as usize);
        let theirs = write_theirs(filled(&keys));
        assert_eq!(image[24..], theirs[24..], "the images differ");
        Ground { keys, absent: shuffled(self::keys(count, absent)), builder, image, end: written.end, theirs }
    }

    fn lent(&self) -> Lent<'_> {
        Lent { file: &self.image, start: 24, end: self.end, manner: 0 }
    }

    fn items(&self) -> usize {
        ffi::open(&self.image, 24, self.end).items as usize
    }
}

/// A turn of one side: the time and how many operations it was.
type Turn<'a> = Box<dyn FnMut() -> (Duration, usize) + 'a>;

/// Repeats a pass until a turn has enough operations. What it takes to ask the clock is taken off.
fn turn<'a>(operations: usize, mut pass: impl FnMut() -> Duration + 'a) -> Turn<'a> {
    let passes = TURN.div_ceil(operations);
    let clock = (0..100).map(|_| timed(|| ()).0).min().unwrap_or_default();
    Box::new(move || ((0..passes).map(|_| pass().saturating_sub(clock)).sum(), passes * operations))
}

fn lookups<'a>(ground: &'a Ground, table: &'a HashTable<'a, 'a>, keys: &'a [String], there: bool) -> (Turn<'a>, Turn<'a>) {
    let (mut ours, mut theirs) = (asked(keys), asked(keys));
    (
        turn(keys.len(), move || ours.timed(|key| assert_eq!(ffi::get(&ground.image, 24, ground.end, key.as_bytes(), 0).number == 0, there))),
        turn(keys.len(), move || theirs.timed(|key| assert_eq!(raw::raw_value(black_box(table), black_box(key)).is_ok(), there))),
    )
}

fn list_ours(ground: &Ground, items: usize) -> Duration {
    let mut out = [0; ffi::MAX_KEY];
    timed(|| {
        for i in 0..items {
            assert_eq!(ffi::next_key(black_box(&ground.image), 24, ground.end, i, black_box(&mut out)).number, 0);
        }
    })
    .0
}

fn list_theirs(table: &HashTable) -> Duration {
    timed(|| {
        for key in black_box(table).keys() {
            black_box(key.expect("a key"));
        }
    })
    .0
}

fn inserts<'a>(ground: &'a Ground) -> (Turn<'a>, Turn<'a>) {
    let mut builder = ground.builder.clone();
    let ours = move || {
        start(&mut builder);
        timed(|| fill(&mut builder, black_box(&ground.keys))).0
    };
    let theirs = move || {
        let mut builder = HashTableBuilder::new();
        timed(|| fill_theirs(&mut builder, black_box(&ground.keys))).0
    };
    (turn(ground.keys.len(), ours), turn(ground.keys.len(), theirs))
}

fn writes<'a>(ground: &'a Ground) -> (Turn<'a>, Turn<'a>) {
    let (mut builder, mut image) = (ground.builder.clone(), vec![0; ROOM]);
    let ours = move || timed(|| assert_eq!(black_box(&mut builder).write(0, &mut image, 0).number, 0)).0;
    let theirs = move || {
        let builder = filled(&ground.keys);
        timed(|| write_theirs(builder)).0
    };
    (turn(ground.keys.len(), ours), turn(ground.keys.len(), theirs))
}

/// From nothing to an image.
fn both<'a>(ground: &'a Ground) -> (Turn<'a>, Turn<'a>) {
    let (mut builder, mut image) = (ground.builder.clone(), vec![0; ROOM]);
    let ours = move || {
        timed(|| {
            start(&mut builder);
            fill(&mut builder, black_box(&ground.keys));
            assert_eq!(builder.write(0, &mut image, 0).number, 0);
        })
        .0
    };
    let theirs = move || timed(|| write_theirs(filled(black_box(&ground.keys)))).0;
    (turn(ground.keys.len(), ours), turn(ground.keys.len(), theirs))
}

/// How many headers are read or laid between two looks at the clock, which takes longer than one of them.
const HEADERS: usize = 1000;

fn read_headers(file: &[u8]) -> (Turn<'_>, Turn<'_>) {
    let ours = move || timed(|| (0..HEADERS).for_each(|_| assert_eq!(ffi::read_header(black_box(file)).number, 0))).0;
    let theirs = move || timed(|| (0..HEADERS).for_each(|_| assert!(File::from_bytes(Cow::Borrowed(black_box(file))).is_ok()))).0;
    (turn(HEADERS, ours), turn(HEADERS, theirs))
}

/// Ours, little endian and big: gvdb-rs lays a header only with a whole file.
fn lay_headers() -> (Turn<'static>, Turn<'static>) {
    let lay = |big: u32| {
        let mut target = [0xAA; 64];
        turn(HEADERS, move || timed(|| (0..HEADERS).for_each(|_| assert_eq!(ffi::lay_header(black_box(&mut target), black_box(big), 24, 60), 0))).0)
    };
    (lay(0), lay(1))
}

/// Nanoseconds for a header that are wanted.
const HEADER_GOAL: f64 = 20.0;

fn print_headers(rounds: usize) {
    let (read, theirs) = measure(rounds, read_headers(&Ground::new(100).theirs));
    let (little, big) = measure(rounds, lay_headers());
    let verdict = if [read, little, big].iter().all(|time| *time < HEADER_GOAL) { "met" } else { "missed" };
    println!(
        "nanoseconds for a header: read {read:.1} here, {theirs:.1} by gvdb-rs; laid {little:.1} little endian, {big:.1} big; under {HEADER_GOAL}: {verdict}"
    );
}

/// A child, and a lookup of its container's key, which ends with 13: the containers that have the values right below them, at every position.
fn children(ground: &Ground) -> (Turn<'_>, Turn<'_>) {
    let containers: Vec<String> = (0..16).map(|i| format!("/parcel/12/stand/3/plot/{i}/")).collect();
    let asked: Vec<(String, usize)> = (0..ground.keys.len() / 16).flat_map(|at| containers.iter().map(move |key| (key.clone(), at))).collect();
    let count = asked.len();
    let keys = asked.clone();
    let child = move || {
        timed(|| {
            asked
                .iter()
                .for_each(|(key, at)| assert_eq!(ffi::next_child(black_box(&ground.image), 24, ground.end, black_box(key.as_bytes()), *at, 0).number, 0))
        })
        .0
    };
    let lookup = move || {
        timed(|| keys.iter().for_each(|(key, _)| assert_eq!(ffi::get(black_box(&ground.image), 24, ground.end, black_box(key.as_bytes()), 0).number, 13))).0
    };
    (turn(count, child), turn(count, lookup))
}

/// All children of one container as the Rust crate's iterator asks for them, and the check of that table. It has more items than our builder takes, so gvdb-rs lays it.
fn whole_container(file: &[u8], count: usize) -> (Turn<'_>, Turn<'_>) {
    let end = ffi::read_header(file).end;
    let next = move |position: usize| ffi::next_child(black_box(file), 24, end, black_box(b"/parcel/"), position, 0).number;
    let listing = move || {
        timed(|| {
            assert_eq!(next(usize::MAX), 15);
            assert_eq!((0..).take_while(|position| next(*position) != 15).count(), count);
        })
        .0
    };
    let check = move || timed(|| assert_eq!(ffi::check(black_box(file), 24, end, 0).number, 0)).0;
    (turn(count, listing), turn(count, check))
}

fn print_children(rounds: usize) {
    const COUNT: usize = 10_000;
    let (child, lookup) = measure(rounds, children(&Ground::new(1000)));
    println!("nanoseconds for a child: {child:.1}, for a lookup of its container {lookup:.1}: {:.1} more", child - lookup);
    let mut builder = HashTableBuilder::with_path_separator(Some("/"));
    fill_theirs(&mut builder, &(0..COUNT).map(|i| format!("/parcel/{i:05}")).collect::<Vec<_>>());
    let (listing, check) = measure(rounds, whole_container(&write_theirs(builder), COUNT));
    println!(
        "a container of {COUNT} children through the iterator: {listing:.1} for each, {:.2} ms; the check of its table {check:.1} for each",
        listing * COUNT as f64 / 1e6
    );
}

/// Lookups of keys that are not there in a table with a filter, in a manner, and without.
fn absent<'a>(ground: &'a Ground, filtered: &'a (Vec<u8>, u32), manner: u32) -> (Turn<'a>, Turn<'a>) {
    let pass = move |image: &'a [u8], end: u32, manner: u32| {
        let mut keys = asked(&ground.absent);
        move || keys.timed(|key| assert_eq!(ffi::get(image, 24, end, key.as_bytes(), manner).number, 12))
    };
    (turn(ground.absent.len(), pass(&filtered.0, filtered.1, manner)), turn(ground.absent.len(), pass(&ground.image, ground.end, 0)))
}

/// A write of all tables that may be, one in the other's items, with a number of filter words in each, and with none.
fn filter_writes(words: u32) -> (Turn<'static>, Turn<'static>) {
    let mut builder = Builder::fresh(ROOM);
    start(&mut builder);
    for guest in 1..ffi::MAX_TABLES as u32 {
        assert_eq!((builder.new_table(b"").number, builder.insert_table(0, guest.to_string().as_bytes(), guest).number), (0, 0));
    }
    let write = |filter: u32| {
        let (mut builder, mut image) = (builder.clone(), vec![0; ROOM]);
        turn(1, move || timed(|| assert_eq!(ffi::write(black_box(&mut builder.words), &builder.arena, 0, &mut image, 0, filter).number, 0)).0)
    };
    (write(words), write(0))
}

/// How much of the time of a lookup without a filter one with it may take, where the key is not there.
const FILTER_GOAL: f64 = 0.8;
/// Nanoseconds that all filter words of all tables may take to be laid.
const FILTERS_GOAL: f64 = 1e6;

fn print_filters(rounds: usize) {
    let ground = Ground::new(1000);
    let (words, mut image) = (ground.items() as u32 / 2, vec![0; ROOM]);
    let mut builder = ground.builder.clone();
    let written = ffi::write(&mut builder.words, &builder.arena, 0, &mut image, 0, words);
    image.truncate(written.length as usize);
    let filtered = (image, written.end);
    for (name, manner) in [("Rust's", 0), ("strict", ffi::STRICT)] {
        let (with, without) = measure(rounds, absent(&ground, &filtered, manner));
        let verdict = if with <= FILTER_GOAL * without { "met" } else { "missed" };
        println!(
            "nanoseconds for a key that is not there, {words} filter words, by the {name} lookup: {with:.1}, without a filter {without:.1}: {:.2}, at most {FILTER_GOAL}: {verdict}",
            with / without
        );
    }
    let (most, none) = measure(rounds, filter_writes(ffi::MAX_FILTER_WORDS as u32));
    let verdict = if most - none < FILTERS_GOAL { "met" } else { "missed" };
    println!(
        "{} filter words in each of {} tables take {:.3} ms to be laid, a write without them {:.3} ms; under {:.0} ms: {verdict}",
        ffi::MAX_FILTER_WORDS,
        ffi::MAX_TABLES,
        (most - none) / 1e6,
        none / 1e6,
        FILTERS_GOAL / 1e6
    );
}

/// A lookup in a table over another, and the plain lookups that it stands for: one where the first table has the key, both where only the other has.
fn layered<'a>(own: &'a Ground, under: &'a Ground, keys: &'a [String], from: u32) -> (Turn<'a>, Turn<'a>) {
    let (own, under) = (own.lent(), under.lent());
    assert!(keys.iter().all(|key| ffi::get_layered(own, under, key.as_bytes()).from == from));
    let (mut layered, mut plainly) = (asked(keys), asked(keys));
    // which table answered was asked before: both numbers of the answer, read as one, would wait until their two stores are done
    let over = move || layered.timed(|key| assert_eq!(ffi::get_layered(own, under, key.as_bytes()).number, 0));
    let plain = move || {
        plainly.timed(|key| {
            let get = |table: Lent| ffi::get(table.file, table.start, table.end, key.as_bytes(), table.manner).number;
            assert!(get(own) == 0 || get(under) == 0);
        })
    };
    (turn(keys.len(), over), turn(keys.len(), plain))
}

fn print_layered(rounds: usize) {
    let (own, under) = (Ground::new(1000), Ground::with(1000, "none", "year"));
    // a key of the first table's may take 1.05 of a plain lookup, one of the other's as long as both
    for (what, keys, from, goal) in [("the first table's", &own.keys, 0, 1.05), ("the other's", &own.absent, 1, 1.0)] {
        let (over, plain) = measure(rounds, layered(&own, &under, keys, from));
        let verdict = if over <= goal * plain { "met" } else { "missed" };
        println!("nanoseconds over another table, a key of {what}: {over:.1}, by plain lookups {plain:.1}: {:.2}, at most {goal}: {verdict}", over / plain);
    }
}

fn median(mut times: Vec<f64>) -> f64 {
    times.sort_by(f64::total_cmp);
    times[times.len() / 2]
}

/// The medians of all sides, whose turns alternate so that noise meets each; the first turn of each warms up.
fn medians<const SIDES: usize>(rounds: usize, mut sides: [Turn; SIDES]) -> [f64; SIDES] {
    let mut times = [const { Vec::new() }; SIDES];
    for round in 0..=rounds {
        for (side, times) in sides.iter_mut().zip(&mut times) {
            let (time, operations) = side();
            if round > 0 {
                times.push(time.as_nanos() as f64 / operations as f64);
            }
        }
    }
    times.map(median)
}

fn measure(rounds: usize, (ours, theirs): (Turn, Turn)) -> (f64, f64) {
    let [ours, theirs] = medians(rounds, [ours, theirs]);
    (ours, theirs)
}

/// One operation: ours, gvdb-rs's, and GLib's where it has the like and its reader is there.
struct Times {
    ours: f64,
    theirs: f64,
    glib: Option<f64>,
}

fn times(rounds: usize, (ours, theirs): (Turn, Turn), glib: Option<Turn>) -> Times {
    if let Some(glib) = glib {
        let [ours, theirs, glib] = medians(rounds, [ours, theirs, glib]);
        return Times { ours, theirs, glib: Some(glib) };
    }
    let (ours, theirs) = measure(rounds, (ours, theirs));
    Times { ours, theirs, glib: None }
}

/// What is measured, with the ratios that are wanted to gvdb-rs and to GLib.
const GOALS: [(&str, f64, Option<f64>); 7] = [
    ("insert", 0.2, None),
    ("write", 0.3, None),
    ("insert and write", 0.3, None),
    ("lookup, there", 0.5, Some(0.75)),
    ("lookup, not there", 0.6, Some(0.6)),
    ("key listing", 0.35, Some(1.3)),
    ("check / key listing", 1.0, None),
];

/// The times at one number of keys, in the order of GOALS.
fn column(rounds: usize, count: usize, reader: Option<glib::Reader>) -> Vec<Times> {
    let ground = Ground::new(count);
    let file = File::from_bytes(Cow::Borrowed(&ground.theirs)).expect("a file");
    let table = file.hash_table().expect("a table");
    let glib = reader.map(|reader| reader.table(&ground.theirs));
    let items = ground.items();
    let listing = || turn(items, || list_theirs(&table));
    vec![
        times(rounds, inserts(&ground), None),
        times(rounds, writes(&ground), None),
        times(rounds, both(&ground), None),
        times(rounds, lookups(&ground, &table, &ground.keys, true), glib.map(|glib| glib.lookups(&ground.keys, true))),
        times(rounds, lookups(&ground, &table, &ground.absent, false), glib.map(|glib| glib.lookups(&ground.absent, false))),
        times(rounds, (turn(items, || list_ours(&ground, items)), listing()), glib.map(|glib| glib.listing(&ground))),
        times(rounds, (turn(items, || timed(|| assert_eq!(ffi::check(black_box(&ground.image), 24, ground.end, 0).number, 0)).0), listing()), None),
    ]
}

/// A row of ratios, one for each number of keys, with the goal.
fn print_ratios(name: &str, ratios: &[f64], goal: f64) {
    let cells: Vec<String> = ratios.iter().map(|ratio| format!("{ratio:.2}")).collect();
    let verdict = if ratios.iter().all(|ratio| *ratio <= goal) { "met" } else { "missed" };
    println!("| {name} | {} | at most {goal}: {verdict} |", cells.join(" | "));
}

fn main() {
    let (mut rounds, mut reader) = (151, None);
    let mut arguments = std::env::args().skip(1);
    while let Some(flag) = arguments.next() {
        match (flag.as_str(), arguments.next()) {
            ("--rounds", Some(number)) => rounds = number.parse().expect("a number of rounds"),
            ("--glib", Some(path)) => reader = Some(glib::Reader::load(&path)),
            _ => panic!("use: bench [--glib LIBRARY] [--rounds N]"),
        }
    }
    let counts = [100, 300, 1000];
    let columns: Vec<_> = counts.iter().map(|count| column(rounds, *count, reader)).collect();
    println!("nanoseconds for each key (listing and check: each item), here / gvdb-rs / GLib, medians of {rounds} rounds");
    println!("| operation | {} keys | {} keys | {} keys |\n|---|---|---|---|", counts[0], counts[1], counts[2]);
    for (row, (name, ..)) in GOALS.iter().enumerate() {
        let cell = |t: &Times| format!("{:.0} / {:.0}", t.ours, t.theirs) + &t.glib.map_or(String::new(), |glib| format!(" / {glib:.0}"));
        println!("| {name} | {} |", columns.iter().map(|c| cell(&c[row])).collect::<Vec<_>>().join(" | "));
    }
    println!("ratios to gvdb-rs");
    for (row, (name, goal, _)) in GOALS.iter().enumerate() {
        print_ratios(name, &columns.iter().map(|c| c[row].ours / c[row].theirs).collect::<Vec<_>>(), *goal);
    }
    if reader.is_some() {
        println!("ratios to GLib's reader");
    }
    for (row, (name, _, goal)) in GOALS.iter().enumerate() {
        let ratios: Option<Vec<f64>> = columns.iter().map(|c| c[row].glib.map(|glib| c[row].ours / glib)).collect();
        if let (Some(ratios), Some(goal)) = (ratios, goal) {
            print_ratios(name, &ratios, *goal);
        }
    }
    print_headers(rounds);
    print_children(rounds);
    print_layered(rounds);
    print_filters(rounds);
}
