//! The filter: `--bloom` lays one, `--strict` asks it for two bits, and JSON names its words.

use crate::harness::*;
use crate::json::Json;
use crate::limits::MAX_FILTER_WORDS;
use crate::model;
use crate::oracle::Oracle;
use std::fs;
use std::path::{Path, PathBuf};

/// What rule 2 says where the strict lookup alone breaks it.
const HIDDEN: &str = "a lookup of its key finds it, but not the strict one: its second bit in the filter is not set (rule 2)\n";
const NOT_STRICT: &str = "a lookup finds it, but not the strict one; gvdb check --strict FILE says what is broken (12)\n";

/// `build` with options, of lines that need no quotes.
fn build_as(folder: &Path, name: &str, options: &str, lines: &str) -> Ran {
    shell(folder, &format!("printf '{lines}' | \"$GVDB\" build -o {name} {options}"))
}

/// A folder with `laid`, lines with one filter word, and `bad`, where a byte of it is another.
fn damaged(name: &str, options: &str, lines: &str, at: usize, byte: u8) -> PathBuf {
    let folder = folder(name);
    build_as(&folder, "laid", &format!("--bloom 1 {options}"), lines).ends(0);
    let mut bytes = fs::read(folder.join("laid")).unwrap();
    assert_ne!(bytes[at], byte);
    bytes[at] = byte;
    fs::write(folder.join("bad"), bytes).unwrap();
    folder
}

fn json(ran: Ran) -> Json {
    Json::parse(ran.text())
}

fn number(json: &Json) -> u64 {
    match json.at("filter_words") {
        Json::Number(number) => *number,
        other => panic!("no number: {other:?}"),
    }
}

#[test]
fn build_lays_the_words() {
    let folder = folder("filter-build");
    for (words, size, said) in [(0, 66, "66 bytes\n"), (1, 74, "74 bytes, 1 filter word in each table\n"), (2, 74, "74 bytes, 2 filter words in each table\n")]
    {
        let ran = build_as(&folder, &format!("{words}"), &format!("--bloom {words}"), "a\\t0102\\n").ends(0);
        assert_eq!((ran.text(), fs::read(folder.join(words.to_string())).unwrap().len()), (format!("{words}: 1 value, {said}").as_str(), size));
    }
    build_as(&folder, "most", &format!("--bloom={MAX_FILTER_WORDS}"), "a\\t0102\\n").ends(0).prints("4,162 bytes, 1,024 filter words in each table\n");
    build_as(&folder, "unsaid", "", "a\\t0102\\n").ends(0).prints("unsaid: 1 value, 66 bytes\n");
    let [none, one, most, unsaid] = ["0", "1", "most", "unsaid"].map(|name| fs::read(folder.join(name)).unwrap());
    assert_eq!((&none, most.len(), &one[24..28], &one[32..36]), (&unsaid, 4162, &[1, 0, 0, 0x28][..], &[0x40, 0, 1, 0][..]));
    // leading zeros are a number still
    build_as(&folder, "zeros", "--bloom 0001", "a\\t0102\\n").ends(0);
    assert_eq!(fs::read(folder.join("zeros")).unwrap(), one);
    build_as(&folder, "empty", "--bloom 1 --empty", "").ends(0).prints("empty: 0 values, 36 bytes, 1 filter word in each table\n");
}

/// Refused before anything is read or written, with the limit and 33: what is there stays.
#[test]
fn too_many_words_or_no_number() {
    let folder = folder("filter-limit");
    ["own", "other"].iter().for_each(|name| drop(build_as(&folder, name, "", "a\\t0102\\n").ends(0)));
    let before = fs::read(folder.join("own")).unwrap();
    let refused = |words: &str, said: &str| {
        for command in ["build -o out", "build -o own --replace", "merge own other -o out --report report", "merge own other -o own"] {
            let ran = shell(&folder, &format!("printf 'b\\t01\\n' | \"$GVDB\" {command} --bloom {words}")).ends(2).says(said);
            assert!(ran.stdout.is_empty() && ran.stderr.ends_with(" (33)\n"), "{}", ran.stderr);
            assert_eq!((names(&folder), fs::read(folder.join("own")).unwrap()), (vec!["other".to_string(), "own".to_string()], before.clone()));
        }
    };
    for many in ["1025", "4294967296", "4294967297", "99999999999999999999999999"] {
        refused(many, "--bloom: more than 1,024 filter words are asked for; give a number from 0 to 1,024 (33)\n");
    }
    for none in ["-1", "+1", "1.0", "0x10", "1,024", "auto", "''", "'1 '", "\"$(printf '\\377')\""] {
        refused(none, "--bloom is a number from 0 to 1,024; more filter words are refused (33)\n");
    }
    for command in ["check own", "list own", "get own a", "dump own", "diff own other"] {
        run(&folder, &format!("{command} --bloom 1")).ends(2).says("unknown option --bloom");
    }
    build_as(&folder, "out", "--bloom", "").ends(2).says("--bloom wants a word behind it");
    build_as(&folder, "out", "--bloom 1 --bloom 1", "").ends(2).says("--bloom is given twice");
    run(&folder, "check own --strict=1").ends(2).says("--strict takes no word");
    run(&folder, "list own --strict").ends(2).says("unknown option --strict");
}

#[test]
fn help_names_the_limit() {
    for command in ["build", "merge"] {
        let help = gvdb(["help", command]).ends(0).text().replace(',', "").split_whitespace().collect::<Vec<_>>().join(" ");
        assert!(help.contains(&format!("N filter words 0 to {MAX_FILTER_WORDS}")), "{help}");
    }
}

/// Every table of a file has the words, and is named with them: the one that is listed, those in it, and each that is checked.
#[test]
fn json_names_the_number_of_each_table() {
    let folder = folder("filter-json");
    for words in [0, 3] {
        let options = format!("--replace --bloom {words}");
        build_as(&folder, "out", &options, "a/b\\t07\\nt\\tx\\t09\\nt\\tu\\t{}\\n").ends(0);
        let listed = json(run(&folder, "list out --json").ends(0));
        let tables: Vec<u64> = listed.at("items").list().iter().filter(|item| item.at("kind").text() == "table").map(number).collect();
        assert_eq!((number(&listed), tables), (words, vec![words]));
        assert!(listed.at("items").list().iter().all(|item| item.at("kind").text() == "table" || !item.has("filter_words")));
        assert_eq!(number(&json(run(&folder, "list out --table t --json").ends(0))), words);
        assert_eq!(number(&json(run(&folder, "list out --no-check --json").ends(0))), words);
        for check in ["check out --json", "check out --strict --json"] {
            let checked = json(run(&folder, check).ends(0));
            let tables: Vec<u64> = checked.list()[0].at("tables").list().iter().map(number).collect();
            assert_eq!(tables, [words; 3]);
        }
    }
    let said = "out: root table: sound, 3 items, 3 filter words\nout: table \"t\": sound, 2 items, 3 filter words\nout: table \"t\" > \"u\": sound, 0 items, 3 filter words\n";
    assert_eq!(run(&folder, "check out").ends(0).text(), said);
    assert_eq!(run(&folder, "check out --strict").ends(0).text(), said);
}

/// The second bit of "a" is cleared: it is found as ever, and not by the strict lookup. Where the first word says no shift, both ask for one bit.
#[test]
fn a_bit_that_is_missing() {
    let folder = damaged("filter-bit", "", "a\\t0102\\n", 34, 0);
    for words in ["check laid", "check laid --strict", "check bad", "check bad --form plain"] {
        run(&folder, words).ends(0).prints(": root table: sound, 1 item, 1 filter word\n");
    }
    for form in ["", "--form plain", "--form signed", "--form auto"] {
        let said = format!("bad: root table: not sound: item 0, key \"a\": {HIDDEN}");
        assert_eq!(run(&folder, &format!("check bad --strict {form}")).ends(1).text(), said);
        run(&folder, &format!("get laid a --hex --strict {form}")).ends(0).prints("0102\n");
        run(&folder, &format!("get bad a --hex {form}")).ends(0).prints("0102\n");
        run(&folder, &format!("get bad a --hex --strict {form}")).ends(1).says(&format!("bad: key \"a\": {NOT_STRICT}"));
        run(&folder, &format!("get bad b --strict {form}")).ends(1).says("bad: key \"b\": the table has no such key; ");
    }
    let checked = json(run(&folder, "check bad laid --strict --json").ends(1));
    let [bad, laid] = checked.list() else { panic!("{checked:?}") };
    let table = &bad.at("tables").list()[0];
    assert_eq!((bad.at("sound"), laid.at("sound"), table.at("rule")), (&Json::Bool(false), &Json::Bool(true), &Json::Number(2)));
    assert_eq!((format!("{} (rule 2)\n", table.at("meaning").text()).as_str(), number(table)), (HIDDEN, 1));
    // what asks for no strict lookup does not look at the bit
    assert_eq!(run(&folder, "dump bad").ends(0).text(), "a\t0102\n");
    run(&folder, "list bad").ends(0).prints("value            2  a\n");
    run(&folder, "same bad laid").ends(0);

    let mut bytes = fs::read(folder.join("bad")).unwrap();
    bytes[27] = 0;
    fs::write(folder.join("no-shift"), &bytes).unwrap();
    run(&folder, "check no-shift --strict").ends(0).prints("sound, 1 item, 1 filter word\n");
    run(&folder, "get no-shift a --strict --hex").ends(0).prints("0102\n");
}

/// Without the first bit no lookup finds it, and that is told as ever; so is a rule that has nothing to do with lookups.
#[test]
fn what_is_broken_for_every_lookup_is_told_as_ever() {
    let folder = damaged("filter-broken", "", "a\\t0102\\n", 32, 0);
    for words in ["check bad", "check bad --strict"] {
        let said = "bad: root table: not sound: item 0, key \"a\": a lookup of its key does not find it (rule 2)\n";
        assert_eq!(run(&folder, words).ends(1).text(), said);
    }
    run(&folder, "get bad a --strict").ends(1).says("bad: key \"a\": the table has no such key; ");
    let folder = damaged("filter-kind", "", "a\\t0102\\n", 54, b'?');
    for words in ["check bad", "check bad --strict"] {
        run(&folder, words).ends(1).prints("its kind is none of value, table and container (rule 3)\n");
    }
}

/// Nested tables are judged too, those whose own key the strict lookup does not find as well; whichever way the form comes about.
#[test]
fn nested_tables() {
    for form in ["", "--form plain"] {
        let folder = damaged("filter-nested", "", "t\\tx\\t09\\n", 78, 0);
        let check = |file: &str| run(&folder, &format!("check {file} --strict {form}"));
        run(&folder, &format!("check bad {form}")).ends(0).prints("bad: table \"t\": sound, 1 item, 1 filter word\n");
        check("laid").ends(0);
        let root = "bad: root table: sound, 1 item, 1 filter word\n";
        assert_eq!(check("bad").ends(1).text(), format!("{root}bad: table \"t\": not sound: item 0, key \"x\": {HIDDEN}"));
        run(&folder, &format!("get bad x --table t --hex {form}")).ends(0).prints("09\n");
        run(&folder, &format!("get bad x --table t --strict {form}")).ends(1).says(&format!("bad: key \"x\": {NOT_STRICT}"));

        let folder = damaged("filter-table", "", "t\\tx\\t09\\n", 34, 0);
        let said = format!("bad: root table: not sound: item 0, key \"t\": {HIDDEN}bad: table \"t\": sound, 1 item, 1 filter word\n");
        assert_eq!(run(&folder, &format!("check bad --strict {form}")).ends(1).text(), said);
        run(&folder, &format!("get bad x --table t --hex {form}")).ends(0).prints("09\n");
        run(&folder, &format!("get bad x --table t --strict {form}")).ends(1).says(&format!("bad: table \"t\": {NOT_STRICT}"));
        run(&folder, &format!("get laid x --table t --strict --hex {form}")).ends(0).prints("09\n");
        let mut bytes = fs::read(folder.join("bad")).unwrap();
        bytes[78] = 0;
        fs::write(folder.join("bad"), bytes).unwrap();
        let ran = run(&folder, &format!("check bad --strict {form}")).ends(1).prints(&format!("root table: not sound: item 0, key \"t\": {HIDDEN}"));
        ran.prints(&format!("table \"t\": not sound: item 0, key \"x\": {HIDDEN}"));
    }
}

/// The form is found out by the lookup of every day: it is told in GLib's form that the strict one does not find a name.
#[test]
fn both_forms() {
    let folder = damaged("filter-form", "--form signed", "é\\t0102\\n", 34, 2);
    let sound = "sound in the signed form (GLib's), 1 item, 1 filter word\n";
    run(&folder, "check laid").ends(0).prints(sound);
    run(&folder, "check laid --strict").ends(0).prints(sound);
    run(&folder, "check bad").ends(0).prints(sound);
    for form in ["", "--form signed"] {
        run(&folder, &format!("check bad --strict {form}")).ends(1).prints(&format!("key \"é\": {HIDDEN}"));
        run(&folder, &format!("get bad é --strict {form}")).ends(1).says(NOT_STRICT);
        run(&folder, &format!("get laid é --strict --hex {form}")).ends(0).prints("0102\n");
    }
    run(&folder, "check bad --strict --form plain").ends(1).prints("key \"é\": a lookup of its key does not find it (rule 2)\n");
}

/// With `--under` each file is asked by the strict lookup, for the key and for the tables on the way.
#[test]
fn one_file_over_another() {
    let folder = damaged("filter-under", "", "a\\t01\\nt\\tx\\t02\\n", 34, 0);
    build_as(&folder, "under", "--bloom 1", "a\\t11\\nt\\tx\\t12\\n").ends(0);
    for (words, own, under) in [("a", "01", "11"), ("x --table t", "02", "12")] {
        let get = |own: &str, options: &str| run(&folder, &format!("get {own} {words} --hex {options}"));
        get("bad", "--under under").ends(0).prints(&format!("{own}\n")).says("from bad");
        get("bad", "--under under --strict").ends(0).prints(&format!("{under}\n")).says("from under");
        get("laid", "--under under --strict").ends(0).prints(&format!("{own}\n")).says("from laid");
        get("bad", "--under bad --strict").ends(1).says(NOT_STRICT);
    }
    build_as(&folder, "empty", "--empty", "").ends(0);
    run(&folder, "get empty a --under bad --hex").ends(0).prints("01\n").says("from bad");
    run(&folder, "get empty a --under bad --hex --strict").ends(1).says(&format!("bad: key \"a\": {NOT_STRICT}"));
    assert_eq!(json(run(&folder, "get bad a --under under --strict --json").ends(0)).at("from").text(), "under");
}

#[test]
fn merge_lays_the_words_and_says_so() {
    let folder = folder("filter-merge");
    build_as(&folder, "own", "--bloom 2", "a\\t01\\nt\\tx\\t02\\n").ends(0);
    build_as(&folder, "other", "", "b\\t03\\n").ends(0);
    let counts = "; 2 only in own, 1 only in other, 0 the same in both, 0 conflicts\n";
    let ran = run(&folder, "merge own other -o out --bloom 5 --dry-run").ends(0);
    assert_eq!(ran.text(), format!("merge of own own and other other\nwould be merged into out: 3 values, 5 filter words in each table{counts}"));
    run(&folder, "merge own other -o out --bloom 5").ends(0).prints(&format!("\nmerged into out: 3 values, 5 filter words in each table{counts}"));
    run(&folder, "check out --strict").ends(0).prints("out: table \"t\": sound, 1 item, 5 filter words\n");
    shell(&folder, "\"$GVDB\" dump out | \"$GVDB\" build -o lines --bloom 5 && cmp lines out").ends(0);

    let note = "note own has 2 filter words, out none: --bloom 2 lays some\n";
    for (words, laid) in [("", 0), ("--bloom 0", 0), ("--bloom 1", 1), (&format!("--bloom {MAX_FILTER_WORDS}"), MAX_FILTER_WORDS as u64)] {
        let ran = run(&folder, &format!("merge own other -o out --replace {words}")).ends(0);
        assert_eq!((ran.text().contains(note), ran.text().contains("note ")), (laid == 0, laid == 0), "{}", ran.text());
        let report = json(run(&folder, &format!("merge own other -o out --replace --json {words}")).ends(0));
        assert_eq!((number(&report), report.at("notes").list().len()), (laid, usize::from(laid == 0)));
        assert_eq!(number(&json(run(&folder, "list out --json").ends(0))), laid);
    }
    // a merge that adds nothing gives the file back
    run(&folder, "merge own own -o again --bloom 2").ends(0);
    assert_eq!(fs::read(folder.join("again")).unwrap(), fs::read(folder.join("own")).unwrap());
}

/// A filter is no content: files are compared without it, lines do not have it, and what is replaced loses nothing by it.
#[test]
fn a_filter_is_no_content() {
    let folder = folder("filter-content");
    ["0", "7"].iter().for_each(|words| drop(build_as(&folder, words, &format!("--bloom {words}"), "a/b\\t01\\nt\\tx\\t02\\n").ends(0)));
    run(&folder, "same 0 7").ends(0);
    run(&folder, "diff 0 7").ends(0).prints("alike: ");
    assert_eq!(run(&folder, "dump 7").ends(0).text(), run(&folder, "dump 0").ends(0).text());
    let [none, seven] = ["0", "7"].map(|name| fs::read(folder.join(name)).unwrap());
    let ran = shell(&folder, "\"$GVDB\" dump 7 | \"$GVDB\" build -o again").ends(0);
    assert_eq!((ran.text(), fs::read(folder.join("again")).unwrap()), (format!("again: 2 values, {} bytes\n", none.len()).as_str(), none));
    let ran = shell(&folder, "\"$GVDB\" dump again | \"$GVDB\" build -o again --replace --bloom 7").ends(0);
    let said = format!("again: 2 values, {} bytes, 7 filter words in each table\n", seven.len());
    assert_eq!((ran.text(), fs::read(folder.join("again")).unwrap()), (said.as_str(), seven));
    // nor is the loss of one told
    let ran = shell(&folder, "\"$GVDB\" dump 7 | \"$GVDB\" build -o 7 --replace").ends(0);
    assert!(!ran.text().contains("dropped"), "{}", ran.text());
}

/// gvdb-rs reads every value of what is laid, counts the words, and does not find what is not there; without words it lays the same bytes.
#[test]
fn gvdb_rs_reads_what_is_laid() {
    let Some(mut oracle) = Oracle::start() else { return };
    let folder = folder("filter-gvdb-rs");
    let mut dice = Dice(11);
    for round in 0..8 {
        let table = model::random(&mut dice, 2);
        for words in [0, 1, 2, 3, 32, MAX_FILTER_WORDS] {
            let file = folder.join(format!("{round}-{words}"));
            let lines = model::lines(&table, "");
            let options = [words.to_string(), file.display().to_string()];
            gvdb_fed(["build", "--empty", "--bloom", &options[0], "-o", &options[1]], lines.as_bytes()).ends(0);
            run(&folder, &format!("check {round}-{words} --strict")).ends(0);
            assert_eq!(oracle.read(&file), table, "{round} {words}");
            let root = oracle.open(&file);
            assert_eq!(oracle.ask(&format!("open {root}")).rsplit(' ').next().unwrap(), words.to_string());
            for absent in ["c", "ca", "cab", "c/", "a/c"] {
                assert_eq!(oracle.answer(&format!("get {root} {}", hex(absent.as_bytes()))), "err notfound");
                run(&folder, &format!("get {round}-{words} {absent} --strict")).ends(1).says("the table has no such key");
            }
        }
        assert_eq!(oracle.lay(&table)[24..], fs::read(folder.join(format!("{round}-0"))).unwrap()[24..]);
    }
}

/// No file of the owners' desktops has filter words: both lookups are one there, sound or not.
#[test]
fn real_files_by_both_lookups() {
    let Some(real) = real() else { return };
    for file in fs::read_dir(real).unwrap().map(|entry| entry.unwrap().path()).filter(|file| file.is_file()) {
        let check = |option: &str| gvdb(["check".as_ref(), file.as_os_str(), option.as_ref()]);
        let [plain, strict] = [check("--form=auto"), check("--strict")];
        assert_eq!((plain.status, plain.text(), &plain.stderr), (strict.status, strict.text(), &strict.stderr), "{}", file.display());
        assert!(!plain.text().contains("filter word"));
    }
}
