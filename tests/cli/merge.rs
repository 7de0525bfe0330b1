//! The merge: nothing is lost unsaid.

use crate::harness::*;
use crate::json::Json;
use crate::limits::*;
use crate::model::{self, random, Merged, Node, Table};
use crate::oracle::Oracle;
use std::collections::BTreeSet;
use std::ffi::OsStr;
use std::fs;
use std::path::{Path, PathBuf};

struct Pair {
    folder: PathBuf,
}

impl Pair {
    fn new(name: &str, own: &str, other: &str) -> Pair {
        let folder = folder(name);
        build(&folder.join("own"), own);
        build(&folder.join("other"), other);
        Pair { folder }
    }

    fn out(&self) -> PathBuf {
        self.folder.join("out")
    }

    fn merge(&self, words: &[&str]) -> Ran {
        let _ = fs::remove_file(self.out());
        shell(&self.folder, &format!("\"$GVDB\" merge own other -o out {}", words.join(" ")))
    }

    fn dump(&self) -> String {
        gvdb(["check".as_ref(), self.out().as_os_str()]).ends(0);
        gvdb(["dump".as_ref(), self.out().as_os_str()]).ends(0).text().to_string()
    }

    fn refused(&self) {
        assert_eq!(names(&self.folder), ["other", "own"], "something was written");
    }
}

#[test]
fn a_conflict_refuses_and_names_both_values() {
    let pair = Pair::new("conflict", "/p/1\t01\n/p/2\t02\nsame\tff\n", "/p/2\t03\n/p/3\t04\nsame\tff\n");
    let ran = pair.merge(&[]).ends(1).says("out: 1 conflict, nothing is written");
    let report = "\
merge of own own and other other
conflict \"/p/2\"
    own    \"/p/2\": value of 1 byte: 02
    other  \"/p/2\": value of 1 byte: 03
same \"same\": value of 1 byte: ff
refused: out is not written; 1 only in own, 1 only in other, 1 the same in both, 1 conflict
";
    assert_eq!(ran.text(), report);
    pair.refused();
    for (keep, kept) in [("own", "02"), ("other", "03")] {
        let ran = pair.merge(&["--keep", keep]).ends(0).prints("conflict \"/p/2\"").prints("same \"same\"");
        let lines: Vec<&str> = ran.text().lines().filter(|line| line.starts_with("    ")).collect();
        let expected = match keep {
            "own" => ["    kept    own    \"/p/2\": value of 1 byte: 02", "    dropped other  \"/p/2\": value of 1 byte: 03"],
            _ => ["    dropped own    \"/p/2\": value of 1 byte: 02", "    kept    other  \"/p/2\": value of 1 byte: 03"],
        };
        assert_eq!(lines, expected);
        assert_eq!(pair.dump(), format!("/p/1\t01\n/p/2\t{kept}\n/p/3\t04\nsame\tff\n"));
    }
}

#[test]
fn without_conflict_it_merges() {
    let pair = Pair::new("plain", "/p/1\t01\nt\ta\t01\n", "/p/3\t04\nt\tb\t02\nu\t{}\n");
    pair.merge(&[])
        .ends(0)
        .prints("tables \"t\": in both, merged key by key\nmerged into out: 4 values; 2 only in own, 2 only in other, 0 the same in both, 0 conflicts\n");
    assert_eq!(pair.dump(), "/p/1\t01\n/p/3\t04\nt\t{}\nt\ta\t01\nt\tb\t02\nu\t{}\n");
}

#[test]
fn kinds_against_each_other() {
    let pair = Pair::new("kinds", "t\tx\t02\nt\tu\ty\t03\n", "t\t05\n");
    let ran = pair.merge(&[]).ends(1);
    ran.prints(
        "conflict \"t\"\n    own    \"t\": table of 2 items\n    holds  own      \"t\" > \"u\" > \"y\": value of 1 byte: 03\n    holds  own      \"t\" > \"x\": value of 1 byte: 02\n    other  \"t\": value of 1 byte: 05\n",
    );
    pair.refused();
    pair.merge(&["--keep", "own"]).ends(0).prints("    dropped other  \"t\": value of 1 byte: 05").prints("(own kept in 1, 1 value of other dropped)");
    assert_eq!(pair.dump(), "t\t{}\nt\tu\t{}\nt\tu\ty\t03\nt\tx\t02\n");
    let ran = pair.merge(&["--keep", "other"]).ends(0).prints("    dropped own      \"t\" > \"u\" > \"y\": value of 1 byte: 03\n");
    ran.prints("    dropped own    \"t\": table of 2 items\n").prints("(other kept in 1, 2 values of own dropped)");
    assert_eq!(pair.dump(), "t\t05\n");
}

/// A container holds nothing, so it displaces nothing, whichever side is kept; what is below it stays.
#[test]
fn a_container_displaces_nothing() {
    for (own, other, side) in [("a/\t01\nt/\tx\t02\n", "a/b\t03\nt/u\t04\n", "own"), ("a/b\t03\nt/u\t04\n", "a/\t01\nt/\tx\t02\n", "other")] {
        let pair = Pair::new("container", own, other);
        for keep in ["", "--keep=own", "--keep=other"] {
            let ran = pair.merge(&[keep]).ends(0).prints("merged into out: 4 values; 2 only in own, 2 only in other, 0 the same in both, 0 conflicts\n");
            assert!(
                ran.text().contains("note \"a/\": a container in ") && ran.text().contains(&format!("of {side} stands: value of 1 byte: 01\n")),
                "{}",
                ran.text()
            );
            assert_eq!(pair.dump(), "a/\t01\na/b\t03\nt/\t{}\nt/\tx\t02\nt/u\t04\n");
        }
    }
}

#[test]
fn empty_tables_in_a_dropped_table_are_named() {
    let pair = Pair::new("empty-tables", "t\tu\t{}\nt\tv\tw\t{}\nt\tx\t01\n", "t\t05\n");
    let ran = pair.merge(&["--keep=other"]).ends(0).prints("    dropped own      \"t\" > \"u\": table without a value\n");
    ran.prints("    dropped own      \"t\" > \"v\" > \"w\": table without a value\n").prints("1 value of own dropped");
    let json = pair.merge(&["--keep=other", "--json"]).ends(0);
    assert_eq!(places(Json::parse(json.text()).at("dropped"), None).len(), 3);
}

fn places(list: &Json, outcome: Option<&str>) -> BTreeSet<Vec<String>> {
    let chosen = list.list().iter().filter(|entry| outcome.is_none() || outcome == Some(entry.at("outcome").text()));
    let place = |entry: &Json| entry.at("path").list().iter().chain([entry.at("key")]).map(|key| key.text().to_string()).collect();
    chosen.map(place).collect()
}

/// Random pairs against the model, and against what gvdb-rs reads and lays.
#[test]
fn random_merges() {
    let mut oracle = Oracle::start();
    let mut dice = Dice(0x5EED_0F0A_4B1D_6E55);
    let (mut conflicts, mut plain) = (0, 0);
    for _ in 0..80 {
        let (own, other) = (random(&mut dice, 2), random(&mut dice, 2));
        let pair = Pair::new("random", &model::lines(&own, ""), &model::lines(&other, ""));
        for keep in ["own", "other"] {
            let mut merged = Merged::default();
            let expected = model::merge(&own, &other, keep == "own", &[], &mut merged);
            let json = pair.merge(&["--json", "--keep", keep]).ends(0);
            let json = Json::parse(json.text());
            assert_eq!(places(json.at("both"), Some("conflict")), merged.conflicts, "{own:?} {other:?}");
            assert_eq!(places(json.at("both"), Some("same")), merged.same);
            assert_eq!(places(json.at("both"), Some("kinds")), merged.kinds);
            assert_eq!(places(json.at("dropped"), None), merged.dropped.keys().cloned().collect());
            for entry in json.at("dropped").list() {
                let place: Vec<String> = entry.at("path").list().iter().chain([entry.at("key")]).map(|key| key.text().to_string()).collect();
                match entry.at("value") {
                    Json::Null => assert_eq!(merged.dropped[&place], None),
                    value => assert_eq!(Some(unhex(value.text())), merged.dropped[&place]),
                }
            }
            let dump = pair.dump();
            assert_eq!(model::sorted(&dump), model::sorted(&model::lines(&expected, "")));
            if let Some(oracle) = &mut oracle {
                assert_eq!(oracle.read(&pair.out()), expected);
                assert_eq!(hex(&fs::read(pair.out()).unwrap()), hex(&oracle.lay_as(&expected, &dump)), "{own:?} {other:?}");
            }
            let _ = fs::remove_file(pair.out());
            match merged.conflicts.is_empty() {
                true => plain += 1,
                false => {
                    pair.merge(&["--json"]).ends(1);
                    pair.refused();
                    conflicts += 1;
                }
            }
        }
    }
    assert!(conflicts > 20 && plain > 5, "{conflicts} {plain}");
}

/// Files that gvdb-rs laid, merged: gvdb-rs reads the values of both.
#[test]
fn files_of_gvdb_rs() {
    let folder = folder("gvdb-rs");
    let out = folder.join("out");
    let merge = |own: &Path, other: &Path| gvdb(["merge".as_ref(), own.as_os_str(), other.as_os_str(), "-o".as_ref(), out.as_os_str()]);
    merge(&worked("gvdbrs-test1.gvdb"), &worked("gvdbrs-test3.gresource")).ends(0).prints("5 values; 1 only in own, 4 only in other");
    let Some(mut oracle) = Oracle::start() else { return };
    let mut both = oracle.read(&worked("gvdbrs-test1.gvdb"));
    both.extend(oracle.read(&worked("gvdbrs-test3.gresource")));
    assert_eq!((oracle.read(&out), both.len()), (both, 5));
}

#[test]
fn real_files_with_themselves_and_each_other() {
    let Some(real) = real() else { return };
    let folder = folder("real-merge");
    let out = folder.join("out");
    let merge = |own: &str, other: &str| gvdb(["merge".as_ref(), real.join(own).as_os_str(), real.join(other).as_os_str(), "-o".as_ref(), out.as_os_str()]);
    merge("dconf-small.gvdb", "dconf-small.gvdb").ends(0).prints("3 values; 0 only in own, 0 only in other, 3 the same in both, 0 conflicts");
    fs::remove_file(&out).unwrap();
    // the container with the empty key that each table of a compiled schema has cannot be laid
    let schemas = |word: &str| {
        let files = ["schemas-nautilus-data.gvdb", "schemas-eog.gvdb"].map(|name| real.join(name));
        gvdb(["merge".as_ref(), files[0].as_os_str(), files[1].as_os_str(), "-o".as_ref(), out.as_os_str(), word.as_ref()])
    };
    let refused = schemas("--keep=own").ends(1).says("containers cannot be laid, nothing is written; --without-containers leaves out what the notes name");
    refused.prints("note container \"org.gnome.eog.ui\" > \"\" is not in ").prints("no item with the empty key can be laid (30)\n");
    assert!(names(&folder).is_empty());
    let Some(mut oracle) = Oracle::start() else { return };
    let (own, other) = (oracle.read(&real.join("schemas-nautilus-data.gvdb")), oracle.read(&real.join("schemas-eog.gvdb")));
    schemas("--without-containers").ends(0);
    assert_eq!(oracle.read(&out), model::merge(&own, &other, true, &[], &mut Merged::default()));
    fs::remove_file(&out).unwrap();
    for (own, other, said) in [
        ("dconf-empty.gvdb", "dconf-small.gvdb", ["dconf-empty.gvdb: root table: not sound: ", "(rule 3)\n"]),
        ("dconf-big.gvdb", "dconf-small.gvdb", ["the builder would hold more than 1,024 items; ", "(22)\n"]),
    ] {
        said.into_iter().fold(merge(own, other).ends(1), |ran, part| ran.says(part));
    }
    merge("dconf-small.gvdb", "dconftest-invalid_header").ends(2).says("(17)");
    assert!(names(&folder).is_empty());
}

#[test]
fn byte_orders() {
    let pair = Pair::new("orders", "a\t01\n", "b\t02\n");
    let big = |name: &str, lines: &[u8]| {
        gvdb_fed(["build".as_ref(), "--big-endian".as_ref(), "--replace".as_ref(), "-o".as_ref(), pair.folder.join(name).as_os_str()], lines).ends(0)
    };
    big("other", b"b\t02\n");
    pair.merge(&["--keep=own"]).ends(1).says("own has little-endian values, other big-endian ones: they cannot stand in one file");
    pair.refused();
    big("own", b"a\t01\n");
    pair.merge(&[]).ends(0).prints("note the values of both files are big-endian\n");
    let bytes = fs::read(pair.out()).unwrap();
    assert!(bytes.starts_with(b"raVGtnai\0\0\0\0\0\0\0\0\x18\0\0\0"));
    let little = Pair::new("orders-little", "a\t01\n", "b\t02\n");
    little.merge(&[]).ends(0);
    assert_eq!(bytes[8..], fs::read(little.out()).unwrap()[8..]);
    let Some(mut oracle) = Oracle::start() else { return };
    assert_eq!(oracle.read(&pair.out()), Table::from([("a".into(), Node::Value(vec![1])), ("b".into(), Node::Value(vec![2]))]));
}

#[test]
fn limits_end_the_merge_with_nothing_written() {
    let flat = |from: usize, count: usize| (from..from + count).map(|i| format!("{i}\t00\n")).collect::<String>();
    let tables = |from: usize, count: usize| (from..from + count).map(|i| format!("{i}\t{{}}\n")).collect::<String>();
    let value = |key: &str, size: usize| format!("{key}\t{}\n", "00".repeat(size));
    for (own, other, number) in [
        (flat(0, 600), flat(600, MAX_ITEMS - 599), 22),
        (tables(0, 40), tables(40, MAX_TABLES - 40), 27),
        (value("a", MAX_FILE / 2), value("b", MAX_FILE / 2), 31),
        (format!("{}k\t00\n", "t\t".repeat(MAX_NESTING - 1)), flat(0, MAX_ITEMS), 22),
    ] {
        let pair = Pair::new("limits", &own, &other);
        let ran = pair.merge(&["--keep=own"]).ends(1);
        assert!(ran.stderr.lines().last().unwrap().ends_with(&format!(" ({number})")), "{}", ran.stderr);
        assert!(ran.text().lines().last().unwrap().starts_with("refused: out is not written (out: key \""), "{}", ran.text());
        pair.refused();
    }
    let pair = Pair::new("fits", &flat(0, 600), &flat(600, MAX_ITEMS - 600));
    assert!(pair.merge(&[]).ends(0).text().replace(',', "").contains(&format!("{MAX_ITEMS} values")));
}

/// A key over 1,024 bytes, an item with the empty key and nine tables in each other can be in a file, but not in OUT.
#[test]
fn what_other_writers_lay_and_ours_refuses() {
    let Some(mut oracle) = Oracle::start() else { return };
    let mut deep = Table::from([("k".to_string(), Node::Value(vec![1]))]);
    for _ in 0..MAX_NESTING {
        deep = Table::from([("t".to_string(), Node::Table(deep))]);
    }
    let long = Table::from([("k".repeat(MAX_KEY + 1), Node::Value(vec![1]))]);
    for (table, number) in [(long, 20), (deep, 26)] {
        let pair = Pair::new("others", "a\t01\n", "");
        fs::write(pair.folder.join("other"), oracle.lay(&table)).unwrap();
        gvdb(["check".as_ref(), pair.folder.join("other").as_os_str()]).ends(0);
        let ran = pair.merge(&[]).ends(1).says(&format!("({number})"));
        assert!(ran.stderr.len() < 300);
        pair.refused();
    }
    // a value under the empty key: 24 bytes of header, one item with hash 5381 and no key, its value at 64
    let mut file = b"GVariant\0\0\0\0\0\0\0\0".to_vec();
    for word in [24u32, 60, 0x28000000, 1, 0, 5381, u32::MAX, 60, 0x0076_0000, 64, 65, 0] {
        file.extend(word.to_le_bytes());
    }
    file.push(7);
    let pair = Pair::new("empty-key", "a\t01\n", "");
    fs::write(pair.folder.join("other"), file).unwrap();
    gvdb(["check".as_ref(), pair.folder.join("other").as_os_str()]).ends(0);
    pair.merge(&[]).ends(1).says("(30)");
    pair.refused();
}

#[test]
fn the_report_has_every_byte() {
    let long = |last: &str| format!("k\t{}{last}\n", "ab".repeat(99));
    let pair = Pair::new("report", &long("01"), &long("02"));
    let ran = pair.merge(&["--report", "report", "--replace"]).ends(1).prints("conflict \"k\": they differ from byte 99 on\n");
    assert!(ran.prints(&format!("value of 100 bytes: {}...\n", "ab".repeat(32))).stderr.lines().count() == 1);
    assert_eq!(names(&pair.folder), ["other", "own", "report"]);
    let refused = fs::read_to_string(pair.folder.join("report")).unwrap();
    assert!(refused.contains(&format!("{}01\n", "ab".repeat(99))) && refused.contains(&format!("{}02\n", "ab".repeat(99))));
    assert!(refused.trim_end().lines().last().unwrap().starts_with("refused: out is not written"));
    pair.merge(&["--report=report", "--keep=other", "--replace"]).ends(0);
    let report = fs::read_to_string(pair.folder.join("report")).unwrap();
    assert!(report.contains(&format!("    dropped own    \"k\": value of 100 bytes: {}01\n", "ab".repeat(99))) && report.contains("merged into out: 1 value;"));
    let json = pair.merge(&["--report=report", "--keep=own", "--json", "--replace"]).ends(0);
    assert_eq!(fs::read_to_string(pair.folder.join("report")).unwrap(), json.text());
    assert_eq!(Json::parse(json.text()).at("dropped").list()[0].at("value").text(), format!("{}02", "ab".repeat(99)));
    fs::remove_file(pair.folder.join("report")).unwrap();
    // a report that cannot be written stops the merge, and one over the files themselves is no report
    for (place, said) in
        [("/proc/report", "/proc/report: "), ("own", "is one of the files merged"), ("./out", "is one of the files merged"), (".", "not a plain file")]
    {
        pair.merge(&["--keep=own", "--report", place]).ends(2).says(said);
        pair.refused();
    }
}

#[test]
fn own_may_be_out() {
    let pair = Pair::new("in-place", "a\t01\n", "b\t02\n");
    shell(&pair.folder, "\"$GVDB\" merge own other -o own").ends(0);
    assert_eq!(gvdb([OsStr::new("dump"), pair.folder.join("own").as_os_str()]).ends(0).text(), "a\t01\nb\t02\n");
    let before = fs::read(pair.folder.join("own")).unwrap();
    shell(&pair.folder, "\"$GVDB\" merge own other -o own").ends(0).prints("1 only in own, 0 only in other, 1 the same in both");
    assert_eq!(fs::read(pair.folder.join("own")).unwrap(), before);
    pair.refused();
}

#[test]
fn containers_are_not_lost() {
    let pair = Pair::new("containers", "a:b\t01\n", "c/d\t02\n");
    gvdb_fed(["build".as_ref(), "--replace".as_ref(), "-o".as_ref(), pair.folder.join("own").as_os_str(), "--separator=:".as_ref()], b"a:b\t01\n").ends(0);
    for (separator, note) in [
        ("/", "note container \"a:\" is not in out: the separator '/' does not make it\n"),
        (":", "note container \"c/\" is not in out: the separator ':' does not make it\n"),
        ("none", "note container \"c/\" is not in out: there is no separator\n"),
    ] {
        let ran = pair.merge(&["--separator", separator, "--keep=own"]).ends(1).prints(note);
        ran.says("cannot be laid, nothing is written; --without-containers leaves out what the notes name").prints("refused: out is not written (out: ");
        pair.refused();
        pair.merge(&["--separator", separator, "--without-containers"]).ends(0).prints(note);
        fs::remove_file(pair.out()).unwrap();
    }
    let json = pair.merge(&["--separator", ":", "--json", "--without-containers"]).ends(0);
    let json = Json::parse(json.text());
    assert_eq!((json.at("separator").text(), json.at("containers_not_kept").list()[0].at("key").text()), (":", "c/"));
}
