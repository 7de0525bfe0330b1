//! check as it goes along, and what list and tree say of tables that are not sound.

use crate::harness::*;
use crate::json::Json;
use std::ffi::{OsStr, OsString};
use std::fs;
use std::io::{BufRead, BufReader};
use std::path::Path;
use std::process::{Command, Stdio};
use std::sync::mpsc;
use std::time::Duration;

/// The line of a file is out before the next file is read: here that is standard input, which nobody has written yet.
#[test]
fn lines_come_as_they_are_found() {
    let file = worked("one.gvdb");
    let words = ["check".as_ref(), file.as_os_str(), "/dev/stdin".as_ref()];
    let mut child = Command::new(program()).args(words).stdin(Stdio::piped()).stdout(Stdio::piped()).stderr(Stdio::null()).spawn().unwrap();
    let mut lines = BufReader::new(child.stdout.take().unwrap());
    let (send, first) = mpsc::channel();
    let reader = std::thread::spawn(move || {
        let mut line = String::new();
        let _ = lines.read_line(&mut line);
        let _ = send.send(line);
    });
    let line = first.recv_timeout(Duration::from_secs(10));
    drop(child.stdin.take());
    assert_eq!(child.wait().unwrap().code(), Some(2));
    reader.join().unwrap();
    assert!(line.expect("a line while the program waits").ends_with("one.gvdb: root table: sound, 1 item\n"));
}

#[test]
fn errors_stand_in_their_place() {
    let folder = folder("in-place");
    for name in ["one.gvdb", "rule_3.gvdb"] {
        fs::copy(worked(name), folder.join(name)).unwrap();
    }
    let ran = shell(&folder, "\"$GVDB\" check one.gvdb no1 rule_3.gvdb no2 one.gvdb 2>&1").ends(2);
    let starts: Vec<&str> = ran.text().lines().map(|line| line.trim_start_matches("gvdb: ").split(':').next().unwrap()).collect();
    assert_eq!(starts, ["one.gvdb", "no1", "rule_3.gvdb", "no2", "one.gvdb"]);
}

/// Lays a chain of containers, each in the one before, and values in the last of them. Every fragment is one byte, but those of the values.
fn deep(place: &Path, depth: usize, values: usize, buckets: usize) {
    let count = depth + values;
    let value_key = |i: usize| format!("{:06}", i - depth);
    let hash = |from: u32, text: &str| text.bytes().fold(from, |hash, byte| hash.wrapping_mul(33).wrapping_add(u32::from(byte)));
    let mut hashes: Vec<u32> = (0..depth).scan(5381, |state, _| Some(hash(*state, "a")).inspect(|next| *state = *next)).collect();
    hashes.extend((depth..count).map(|i| hash(hashes[depth - 1], &value_key(i))).collect::<Vec<_>>());
    let bucket = |i: usize| hashes[i] as usize % buckets;
    let mut order: Vec<usize> = (0..count).collect();
    order.sort_by_key(|&i| bucket(i));
    let mut place_of = vec![0; count];
    order.iter().enumerate().for_each(|(at, &i)| place_of[i] = at as u32);
    let starts = (0..buckets).map(|b| order.partition_point(|&i| bucket(i) < b) as u32);

    let table_end = 24 + 8 + 4 * buckets + 24 * count;
    let (texts, lists) = (table_end, table_end + 8 * (1 + values));
    let mut file = [b"GVariant\0\0\0\0\0\0\0\0", &[24, table_end as u32, 0, buckets as u32].map(u32::to_le_bytes).concat()[..]].concat();
    file.extend(starts.flat_map(u32::to_le_bytes));
    let mut list = Vec::new();
    for &i in &order {
        let at = (lists + list.len()) as u32;
        let (key, size, kind, end) = match i.checked_sub(depth) {
            None => (texts, 1, b'L', at + 4 * if i + 1 < depth { 1 } else { values as u32 }),
            Some(value) => (texts + 8 * (1 + value), 6, b'v', at),
        };
        match i + 1 {
            next if next < depth => list.extend(place_of[next].to_le_bytes()),
            next if next == depth => list.extend(place_of[depth..].iter().flat_map(|place| place.to_le_bytes())),
            _ => {}
        }
        let parent = i.min(depth).checked_sub(1).map_or(u32::MAX, |parent| place_of[parent]);
        file.extend([hashes[i], parent, key as u32, size | u32::from(kind) << 16].into_iter().flat_map(u32::to_le_bytes));
        // a value of no bytes lies at the file's front, which is aligned to 8
        file.extend(if kind == b'v' { [0; 8] } else { [at.to_le_bytes(), end.to_le_bytes()].concat().try_into().unwrap() });
    }
    file.extend([*b"a       "].into_iter().chain((depth..count).map(|i| format!("{:<8}", value_key(i)).into_bytes().try_into().unwrap())).flatten());
    file.extend(list);
    fs::write(place, file).unwrap();
}

/// Seconds that a command takes on a processor.
fn seconds(folder: &Path, words: &str) -> f64 {
    let ran = shell(folder, &format!("\"$GVDB\" {words} > out && times")).ends(0);
    // the second line has those of what the shell has run: 0m0.150s 0m0.010s
    let user = ran.text().lines().nth(1).unwrap().split('s').next().unwrap().to_string();
    let (minutes, seconds) = user.split_once('m').unwrap();
    minutes.parse::<f64>().unwrap() * 60.0 + seconds.parse::<f64>().unwrap()
}

/// That one command takes at most so many times as long as another, by the least of each one's times. A busy machine has both tried again, 20 times at most.
fn takes_at_most(folder: &Path, words: &str, times: f64, other: &str) {
    let mut least = (f64::MAX, f64::MAX);
    for round in 0..20 {
        least = (seconds(folder, words).min(least.0), seconds(folder, other).min(least.1));
        if round > 1 && least.0 <= least.1 * times {
            return;
        }
    }
    panic!("{words}: {} s, {other}: {} s", least.0, least.1);
}

/// The check does not read the keys of values again, or it would take as long as `list`, which checks the file and then reads them.
#[test]
fn check_does_not_read_the_keys_of_values_again() {
    let folder = folder("values");
    deep(&folder.join("f.gvdb"), 1500, 12_000, 13_500);
    assert!(gvdb(["check".as_ref(), folder.join("f.gvdb").as_os_str()]).ends(0).text().ends_with("sound, 13,500 items\n"));
    takes_at_most(&folder, "check f.gvdb", 0.75, "list f.gvdb");
}

/// Behind the library's check a chain of containers is walked once more, and not three times. The library walks as far up from the values below a shorter chain,
/// of which nothing more is read.
#[test]
fn check_walks_a_chain_once() {
    let folder = folder("chain");
    deep(&folder.join("containers.gvdb"), 6000, 0, 6000);
    deep(&folder.join("values.gvdb"), 1500, 11_250, 12_750);
    takes_at_most(&folder, "check containers.gvdb", 2.7, "check values.gvdb");
}

/// In one bucket each lookup goes over all items: the check of all keys is slow, their listing is not.
#[test]
fn list_without_the_check_is_fast() {
    let folder = folder("one-bucket");
    deep(&folder.join("f.gvdb"), 1, 20_000, 1);
    takes_at_most(&folder, "list --no-check f.gvdb", 0.5, "list f.gvdb");
}

#[test]
fn list_without_the_check() {
    let file = worked("refusals.gvdb");
    let checked = gvdb(["list".as_ref(), file.as_os_str()]).ends(0).says("; it is listed as lookups answer (rule 1, refusal 2)\n");
    let ran = gvdb(["list".as_ref(), file.as_os_str(), "--no-check".as_ref()]).ends(0);
    assert!(ran.stderr.is_empty() && ran.stdout == checked.stdout);
}

#[test]
fn tree_says_what_is_not_sound() {
    let ran = gvdb(["tree".as_ref(), worked("rule_6.gvdb").as_os_str()]).ends(1);
    assert!(ran.text().contains("rule_6.gvdb  2 items, not sound\n"));
    ran.says("root table: not sound: item 1, key \"a\": its parent is not a container that lists it; it is drawn as far as it reads (rule 6)\n");
    // a nested table that is not sound, in one that is
    let place = folder("nested-unsound").join("f.gvdb");
    build(&place, "t\tk\t01\nu\tk\t02\n");
    let mut file = fs::read(&place).unwrap();
    let keys: Vec<usize> = (0..file.len()).filter(|&at| file[at..].starts_with(b"\x01\0v\0")).collect();
    file[keys[0] + 2] = b'?';
    fs::write(&place, file).unwrap();
    let ran = gvdb(["tree".as_ref(), place.as_os_str()]).ends(1).says(": table \"");
    assert!(ran.text().contains("f.gvdb  2 items\n") && ran.text().matches("  table, 1 item, not sound\n").count() == 1, "{}", ran.text());
    let json = Json::parse(gvdb(["tree".as_ref(), place.as_os_str(), "--json".as_ref()]).ends(1).text());
    assert_eq!(json.at("sound"), &Json::Bool(true));
    let broken: Vec<&Json> = json.at("below").list().iter().filter(|table| table.at("sound") == &Json::Bool(false)).map(|table| table.at("broken")).collect();
    assert_eq!(broken.iter().map(|broken| broken.at("rule")).collect::<Vec<_>>(), [&Json::Number(3)]);
}

#[test]
fn tree_as_json() {
    let place = folder("tree-json").join("f.gvdb");
    build(&place, "/a/b\t01\n/a/c/d\t0102\ntable\tinner\tx/y\t00\n\\n\t00\n");
    let json = Json::parse(gvdb(["tree".as_ref(), place.as_os_str(), "--json".as_ref()]).ends(0).text());
    /// An item's key, its kind, its size and what is below, on one line.
    fn line(item: &Json) -> String {
        let kind = item.at("kind").text();
        let size = if kind == "container" { String::new() } else { format!("{:?}", item.at("size")) };
        let below = if kind == "value" { String::new() } else { format!("[{}]", item.at("below").list().iter().map(line).collect::<Vec<_>>().join(" ")) };
        format!("{}:{}{size}{below}", item.at("key").text(), &kind[..1])
    }
    let lines: Vec<String> = json.at("below").list().iter().map(line).collect();
    let drawn = ["\n:vNumber(1)", "/:c[/a/:c[/a/b:vNumber(1) /a/c/:c[/a/c/d:vNumber(2)]]]", "table:tNumber(1)[inner:tNumber(2)[x/:c[x/y:vNumber(1)]]]"];
    assert_eq!(lines, drawn);
    assert_eq!((json.at("size"), json.at("byte_order").text(), json.at("sound")), (&Json::Number(7), "little", &Json::Bool(true)));
}

/// `-` is standard input wherever a file is read.
#[test]
fn standard_input_is_a_file() {
    let place = folder("dash").join("f.gvdb");
    build(&place, "/a/b\t01\nt\tk\t02\n");
    let bytes = fs::read(&place).unwrap();
    for words in [&["check"][..], &["check", "--json"], &["list", "--values"], &["list", "--json"], &["tree"], &["tree", "--json"], &["get", "/a/b"]] {
        let with = |file: &OsStr| {
            let mut all: Vec<OsString> = words.iter().map(OsString::from).collect();
            all.insert(1, file.to_os_string());
            all
        };
        let (input, file) = (gvdb_fed(with("-".as_ref()), &bytes).ends(0), gvdb(with(place.as_os_str())).ends(0));
        let name = if words.contains(&"--json") { "-" } else { "standard input" };
        assert_eq!(input.text(), file.text().replace(place.to_str().unwrap(), name), "{words:?}");
    }
    gvdb_fed(["diff".as_ref(), "-".as_ref(), place.as_os_str()], &bytes).ends(0).prints("diff of A standard input and B ");
    gvdb_fed(["same".as_ref(), place.as_os_str(), "-".as_ref()], &bytes).ends(0);
    gvdb_fed(["check", "-"], b"short").ends(2).says("standard input: the file is shorter than a header of 24 bytes");
    gvdb_fed(["diff", "-", "-"], &bytes).ends(2).says("standard input (-) can be read once");
    assert_eq!(names(place.parent().unwrap()), ["f.gvdb"]);
}
