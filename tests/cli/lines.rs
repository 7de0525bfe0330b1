//! dump and build.

use crate::harness::*;
use crate::json::Json;
use crate::limits::*;
use crate::model::{self, random};
use crate::oracle::Oracle;
use std::ffi::OsStr;
use std::fs;

fn laid(name: &str, lines: &[u8]) -> (std::path::PathBuf, Ran) {
    let place = folder(name).join("out.gvdb");
    let ran = gvdb_fed([OsStr::new("build"), OsStr::new("-o"), place.as_os_str()], lines);
    (place, ran)
}

/// Every real file that is sound and within the builder's limits is dumped, laid and dumped again, alike.
#[test]
fn real_files_there_and_back() {
    let folder = folder("there-and-back");
    let mut files: Vec<_> =
        ["one.gvdb", "two.gvdb", "gvdbrs-test1.gvdb", "gvdbrs-test2.gvdb", "gvdbrs-test3.gresource", "gvdbrs-test4.gvdb"].map(worked).into();
    files.extend(real().into_iter().flat_map(|real| fs::read_dir(real).unwrap()).map(|entry| entry.unwrap().path()));
    let (mut back, mut refused, mut schemas) = (0, 0, 0);
    for file in files {
        let dump = gvdb(["dump".as_ref(), file.as_os_str()]);
        if dump.status != 0 {
            assert_eq!(dump.stderr.lines().count(), 1);
            refused += 1;
            continue;
        }
        let big = fs::read(&file).unwrap().starts_with(b"raVGtnai");
        assert!(dump.stderr.is_empty() && dump.text().starts_with("big-endian\n") == big, "{file:?}");
        let place = folder.join("again.gvdb");
        let built = |word: &str| {
            let _ = fs::remove_file(&place);
            gvdb_fed([OsStr::new("build"), "--empty".as_ref(), word.as_ref(), "-o".as_ref(), place.as_os_str()], &dump.stdout)
        };
        if file.ends_with("dconf-big.gvdb") {
            built("--separator=/").ends(1).says("(22)");
            continue;
        }
        let containers = dump.text().lines().filter(|line| line.ends_with("\t[]")).count();
        let mut expected = dump.text().to_string();
        if containers > 0 {
            built("--separator=/")
                .ends(1)
                .says("\"\": the container cannot be laid: no item with the empty key can be laid")
                .says("; --without-containers leaves out what cannot (30)\n");
            expected = expected.lines().filter(|line| !line.ends_with("\t[]")).map(|line| format!("{line}\n")).collect();
            schemas += 1;
        }
        let notes = built("--without-containers").ends(0);
        assert_eq!(notes.text().lines().filter(|line| line.starts_with("note container ")).count(), containers);
        gvdb(["check".as_ref(), place.as_os_str()]).ends(0);
        assert_eq!(fs::read(&place).unwrap().starts_with(b"raVGtnai"), big);
        let again = gvdb(["dump".as_ref(), place.as_os_str()]).ends(0);
        // What was in a container that is left out is nobody's child, and ascends.
        assert_eq!(model::sorted(again.text()), model::sorted(&expected), "{file:?}");
        assert!(containers > 0 || again.text() == expected, "{file:?}");
        back += 1;
    }
    assert!(back >= 6 && (real().is_none() || (back >= 20 && refused == 3 && schemas >= 4)), "{back} {refused} {schemas}");
}

#[test]
fn what_is_built_is_what_gvdb_rs_lays() {
    let Some(mut oracle) = Oracle::start() else { return };
    let folder = folder("built");
    let mut dice = Dice(0x0DDB_1A5E_5BAD_5EED);
    for round in 0..60 {
        let table = random(&mut dice, 2);
        let place = folder.join(format!("{round}.gvdb"));
        let mut lines: Vec<String> = model::lines(&table, "").lines().map(String::from).collect();
        if round % 2 == 0 {
            lines.reverse();
        }
        let lines = lines.join("\n") + "\n";
        build(&place, &lines);
        assert_eq!(hex(&fs::read(&place).unwrap()), hex(&oracle.lay_as(&table, &lines)), "{table:?}");
        assert_eq!(oracle.read(&place), table);
        let dump = gvdb(["dump".as_ref(), place.as_os_str()]).ends(0);
        assert_eq!(model::sorted(dump.text()), model::sorted(&model::lines(&table, "")));
        let again = folder.join("again");
        let _ = fs::remove_file(&again);
        build(&again, dump.text());
        assert_eq!(hex(&fs::read(&again).unwrap()), hex(&fs::read(&place).unwrap()), "{table:?}");
    }
}

#[test]
fn lines_that_are_refused() {
    for (lines, status, said) in [
        (&b"a\t01\na\t01\n"[..], 2, "line 2: key \"a\" stands on line 1 too"),
        (b"a\t01\n\na\t{}\n", 2, "line 3: key \"a\" is a table here and a value on line 1"),
        (b"t\t{}\nt\t01\n", 2, "line 2: key \"t\" is a value here and a table on line 1"),
        (b"a\t01\na\tb\t01\n", 2, "line 2: key \"a\" is a table here and a value on line 1"),
        (b"a\tb\t01\na\t01\n", 2, "line 2: key \"a\" is a value here and a table on line 1"),
        (b"a\t[]\na\t01\n", 2, "line 2: key \"a\" is a value here and a container on line 1"),
        (b"", 2, "standard input: no line of content in 0 lines, so nothing is written"),
        (b"\n\r\n\n", 2, "standard input: no line of content in 3 lines, so nothing is written"),
        (b"\xef\xbb\xbf", 2, "standard input: no line of content in 0 lines"),
        (b"\xef\xbb\xbf\n", 2, "standard input: no line of content in 1 line"),
        (b"\xef\xbb\xbfa\t01\n", 2, "line 1: a byte order mark (ef bb bf) is in front"),
        (b"\xff\xfea\0\t\x000\x001\0\n\0", 2, "line 1: a byte order mark of UTF-16 is in front"),
        (b"a\t0102\nb\t01", 2, "line 2: it has no end, so it may be cut"),
        (b"no tab\n", 2, "line 1: no TAB between key and value"),
        (b"a\t0\n", 2, "line 1: the value is neither"),
        (b"a\t0g\n", 2, "line 1: the value is neither"),
        (b"a\t 01\n", 2, "line 1: the value is neither"),
        (b"a\\q\t01\n", 2, "line 1: a backslash"),
        (b"a\\x1\t01\n", 2, "line 1: \\x wants"),
        (b"\xff\t01\n", 1, "line 1: the key is not UTF-8 at byte 0 (FF); if the list is in Latin-1"),
        (b"\\xff\t01\n", 1, "line 1: the key is not UTF-8 at byte 0 (FF); its escapes"),
        (b"a\t01\n\t01\n", 1, "line 2: key \"\": an item has the empty key"),
        (b"a\t01\nt\t\tx\t01\n", 1, "line 2: key \"t\" > \"\": an item has the empty key"),
        (
            b"a\t01\nb:\t[]\n",
            1,
            "line 2: key \"b:\": the container cannot be laid: the separator '/' does not make it; --without-containers leaves out what cannot\n",
        ),
        (b"a\t01\nt\t\t[]\n", 1, "line 2: key \"t\" > \"\": the container cannot be laid: no item with the empty key can be laid; --without-containers leaves out what cannot (30)\n"),
    ] {
        let (place, ran) = laid("refused-lines", lines);
        ran.ends(status).says(said);
        assert!(!place.exists() && names(place.parent().unwrap()).is_empty());
    }
    laid("crlf", b"a\t01\r\nb\t02\r\n").1.ends(0).prints("2 values");
    for blank in [&b""[..], b"\n", b"\xef\xbb\xbf\r\n"] {
        let place = folder("blank").join("out.gvdb");
        gvdb_fed([OsStr::new("build"), "--empty".as_ref(), "-o".as_ref(), place.as_os_str()], blank).ends(0).prints("0 values, 32 bytes");
    }
}

#[test]
fn limits_are_named() {
    let flat = |count: usize| (0..count).map(|i| format!("{i}\t00\n")).collect::<String>();
    laid("items", flat(MAX_ITEMS).as_bytes()).1.ends(0);
    laid("items", flat(MAX_ITEMS + 1).as_bytes()).1.ends(1).says("line 1000: key \"999\": ").says("(22)\n");
    let tables = |count: usize| (0..count).map(|i| format!("{i}\t{{}}\n")).collect::<String>();
    laid("tables", tables(MAX_TABLES - 1).as_bytes()).1.ends(0);
    laid("tables", tables(MAX_TABLES).as_bytes()).1.ends(1).says("line 10: key \"9\": ").says("(27)\n");
    let key = |length: usize| format!("{}\t00\n", "k".repeat(length));
    laid("keys", key(MAX_KEY).as_bytes()).1.ends(0);
    laid("keys", key(MAX_KEY + 1).as_bytes()).1.ends(1).says("line 1: key \"kkk").says("(20)\n");
    let nested = |tables: usize, last: &str| format!("{}{last}\n", "t\t".repeat(tables));
    laid("nested", nested(MAX_NESTING - 1, "k\t01").as_bytes()).1.ends(0);
    for (last, said) in [("k\t01", format!("line 1: tables would be nested more than {MAX_NESTING} deep")), ("{}", "(26)".into())] {
        let (place, ran) = laid("nested", nested(MAX_NESTING, last).as_bytes());
        ran.ends(1).says(&said);
        assert!(!place.exists() && names(place.parent().unwrap()).is_empty());
    }
    let long = |size: usize| format!("a\t{}\n", "00".repeat(size));
    let (place, ran) = laid("long", long(MAX_FILE - 64).as_bytes());
    let progress = ran.ends(0).stderr.replace(',', "");
    assert!(progress.contains(&format!("laying {} bytes of values", MAX_FILE - 64)) && fs::metadata(&place).unwrap().len() == MAX_FILE as u64);
    let check = gvdb(["check".as_ref(), place.as_os_str()]).ends(0).stderr.replace(',', "");
    assert!(check.contains(&format!("{MAX_FILE} bytes read")) && check.contains("root table: checking 1 item"));
    let ran = laid("long", long(MAX_FILE - 63).as_bytes()).1.ends(1);
    let last = ran.stderr.lines().last().unwrap();
    assert!(last.contains("line 1: key \"a\": ") && last.ends_with("(31)"), "{last}");
    let mut file = vec![0; MAX_FILE + 1];
    file[..8].copy_from_slice(b"GVariant");
    let place = folder("too-long").join("f");
    fs::write(&place, file).unwrap();
    let ran = gvdb(["check".as_ref(), place.as_os_str()]).ends(2);
    assert!(ran.stderr.lines().last().unwrap().contains("(1)"));
}

/// Values whose keys are containers of others, and of each other: all stand, and gvdb-rs lays the same.
#[test]
fn values_above_values() {
    let lines = "a/\t01\na/b/\t02\na/b/c\t03\na/b/d/e\t04\nt/\t{}\nt/\tx/\t05\nt/\tx/y\t06\nt/u\t07\n";
    let (place, ran) = laid("above", lines.as_bytes());
    ran.ends(0).prints("7 values");
    assert_eq!(gvdb(["dump".as_ref(), place.as_os_str()]).ends(0).text(), lines);
    let Some(mut oracle) = Oracle::start() else { return };
    let table = oracle.read(&place);
    assert_eq!(model::lines(&table, ""), lines);
    assert_eq!(hex(&fs::read(&place).unwrap()), hex(&oracle.lay(&table)));
}

#[test]
fn separators() {
    for (separator, containers) in [("/", vec!["a/"]), ("none", vec![]), (":", vec!["a/b:"])] {
        let folder = folder("separators");
        let place = folder.join("out.gvdb");
        gvdb_fed(["build".as_ref(), "-o".as_ref(), place.as_os_str(), "--separator".as_ref(), separator.as_ref()], b"a/b:c\t01\n").ends(0);
        let list = gvdb(["list".as_ref(), place.as_os_str()]).ends(0);
        let found: Vec<&str> = list.text().lines().filter(|line| line.starts_with("container")).map(|line| line.rsplit("  ").next().unwrap()).collect();
        assert_eq!(found, containers);
    }
}

/// Containers of another separator and big-endian values have lines, and come back byte for byte; what cannot be laid is refused by its name.
#[test]
fn containers_and_byte_order_survive() {
    let folder = folder("survive");
    let lines = "a:b\t01\nt\t{}\nt\tc:d\t02\n";
    gvdb_fed(["build".as_ref(), "-o".as_ref(), folder.join("f").as_os_str(), "--separator=:".as_ref(), "--big-endian".as_ref()], lines.as_bytes()).ends(0);
    let dump = shell(&folder, "\"$GVDB\" dump f").ends(0);
    assert_eq!(dump.text(), "big-endian\na:\t[]\na:b\t01\nt\t{}\nt\tc:\t[]\nt\tc:d\t02\n");
    assert_eq!(shell(&folder, "\"$GVDB\" dump f --separator :").ends(0).text(), format!("big-endian\n{lines}"));
    shell(&folder, "\"$GVDB\" dump f | \"$GVDB\" build --separator : -o g && cmp f g").ends(0);
    let refused = shell(&folder, "\"$GVDB\" dump f | \"$GVDB\" build -o h").ends(1);
    refused.says("line 2: key \"a:\": the container cannot be laid: the separator '/' does not make it, nor can those of line 5; --without-containers leaves out what cannot\n");
    let left_out = shell(&folder, "\"$GVDB\" dump f | \"$GVDB\" build --without-containers -o h").ends(0);
    left_out.prints("note container \"t\" > \"c:\" is left out: the separator '/' does not make it\n").prints("h: 2 values, ");
    assert_eq!(shell(&folder, "\"$GVDB\" dump h").ends(0).text(), format!("big-endian\n{lines}"));
}

#[test]
fn a_key_that_begins_like_a_byte_order_mark() {
    let folder = folder("mark");
    let lines = "\\xef\\xbb\\xbfk\t01\n";
    build(&folder.join("f"), lines);
    assert_eq!(shell(&folder, "\"$GVDB\" dump f").ends(0).text(), lines);
    shell(&folder, "\"$GVDB\" dump f | \"$GVDB\" build -o g && cmp f g").ends(0);
}

#[test]
fn a_dash_is_standard_input_or_output() {
    let folder = folder("dash");
    build(&folder.join("f"), "a\t01\nt\tb\t02\n");
    build(&folder.join("g"), "c\t03\n");
    for line in [
        "\"$GVDB\" dump - < f | \"$GVDB\" build -o - > out && cmp f out",
        "\"$GVDB\" merge f g -o expected && \"$GVDB\" merge - g -o - < f > out && cmp expected out",
        "cat g | \"$GVDB\" merge f - -o ./f && cmp expected f",
    ] {
        shell(&folder, line).ends(0);
    }
    let ran = shell(&folder, "\"$GVDB\" merge f g -o - > out").ends(0);
    assert!(ran.stderr.starts_with("merge of own f and other g\n") && ran.stderr.contains("\nmerged into standard output: 3 values;"), "{}", ran.stderr);
    // in JSON it is the word itself, which no file can have for a name
    let ran = shell(&folder, "\"$GVDB\" merge f - --base - -o - --json < g > out").ends(2);
    assert!(ran.stderr.contains("standard input (-) can be read once"), "{}", ran.stderr);
    let ran = shell(&folder, "\"$GVDB\" merge f - -o - --json < g > out").ends(0);
    assert!(ran.stderr.starts_with("{\"own\":\"f\",\"other\":\"-\",\"base\":null,\"out\":\"-\","), "{}", ran.stderr);
    shell(&folder, "\"$GVDB\" dump - --json < g").ends(0).prints("{\"file\":\"-\",");
    shell(&folder, "\"$GVDB\" merge - g -o out2 --dry-run < f").ends(0).prints("merge of own standard input and other g\n");
    shell(&folder, "\"$GVDB\" merge - - -o out2 < f").ends(2).says("standard input (-) can be read once");
    shell(&folder, "\"$GVDB\" merge f g -o - --report -").ends(2).says("OUT and the report cannot both be standard output");
    shell(&folder, "\"$GVDB\" merge f g -o - > /dev/full").ends(2);
    shell(&folder, "\"$GVDB\" dump - < /dev/null").ends(2).says("standard input: the file is shorter than a header of 24 bytes");
    assert_eq!(names(&folder), ["expected", "f", "g", "out"]);
}

#[test]
fn dump_as_json() {
    let folder = folder("dump-json");
    let long = "ab".repeat(50);
    build(&folder.join("f"), &format!("a/b\t{long}\nt\tx\t02\nt\tu\t{{}}\n"));
    let ran = shell(&folder, "\"$GVDB\" dump f --json").ends(0);
    let json = Json::parse(ran.text());
    assert_eq!((json.at("file").text(), json.at("byte_order").text()), ("f", "little"));
    let [container, value, table] = json.at("items").list() else { panic!("three items") };
    assert_eq!((container.at("key").text(), container.at("kind").text()), ("a/", "container"));
    assert_eq!((value.at("key").text(), value.at("value").text(), value.at("size")), ("a/b", &long[..], &Json::Number(50)));
    let [empty, inner] = table.at("items").list() else { panic!("two items") };
    assert_eq!((empty.at("key").text(), empty.at("items").list().len(), inner.at("value").text()), ("u", 0, "02"));
}
