//! `gvdb get --under`: one file over another.

use crate::harness::*;
use crate::json::Json;
use std::fs;
use std::path::{Path, PathBuf};

/// `own` over `under`: a value in each, one in both, and a table and a container of `own` whose keys are values of `under`.
fn layers(name: &str) -> PathBuf {
    let folder = folder(name);
    build(&folder.join("own"), "both\t01\nown\t02\ntable\t{}\ntable\tdeep\t03\na/b\t04\nempty\t{}\n");
    build(&folder.join("under"), "both\t11\nunder\t12\ntable\t13\na/\t14\nempty\tx\t15\nonly\tx\t16\nlist\t{}\n");
    folder
}

/// `gvdb get own WORDS --under under`, in hex.
fn get(folder: &Path, words: &str) -> Ran {
    shell(folder, &format!("\"$GVDB\" get own {words} --under under --hex"))
}

#[test]
fn the_value_and_the_file_that_it_is_from() {
    let folder = layers("layered");
    for (key, value, from) in [("own", "02", "own"), ("both", "01", "own"), ("a/b", "04", "own"), ("under", "12", "under")] {
        let ran = get(&folder, key).ends(0);
        assert_eq!((ran.text(), ran.stderr.as_str()), (format!("{value}\n").as_str(), format!("gvdb: from {from}\n").as_str()), "{key}");
    }
    let ran = shell(&folder, "\"$GVDB\" get own under --under under --raw").ends(0);
    assert_eq!(ran.stdout, [0x12]);
}

/// What the owner's file refuses stands, but 12: then the district's answer does, its own 12 too.
#[test]
fn a_refusal_names_the_file_that_refused() {
    let folder = layers("layered-refused");
    get(&folder, "table").ends(1).says("own: key \"table\": it is a table");
    get(&folder, "a/").ends(1).says("own: key \"a/\": it is a container");
    get(&folder, "list").ends(1).says("under: key \"list\": it is a table");
    get(&folder, "none").ends(1).says("under: key \"none\": the table has no such key");
    shell(&folder, "\"$GVDB\" get own \"$(printf 'a\\377')\" --under under").ends(1).says("own: key ");
}

#[test]
fn tables_are_followed_in_each_file() {
    let folder = layers("layered-tables");
    get(&folder, "deep --table table").ends(0).prints("03\n");
    get(&folder, "x --table empty").ends(0).prints("15\n").says("from under");
    get(&folder, "x --table only").ends(0).prints("16\n").says("from under");
    get(&folder, "y --table only").ends(1).says("under: key \"y\": ");
    get(&folder, "x --table nowhere").ends(1).says("under: table \"nowhere\": ");
    // the owner's key is a value's, so its answer stands
    get(&folder, "x --table both").ends(1).says("own: table \"both\": it is a value");
    // the district's is a value's, and is asked only where the owner's table has no such key
    get(&folder, "none --table table").ends(1).says("under: table \"table\": it is a value");
}

#[test]
fn json_tells_which_file() {
    let folder = layers("layered-json");
    let json = |words: &str| Json::parse(shell(&folder, &format!("\"$GVDB\" get {words} --json")).ends(0).text());
    for (words, file, from) in [("own own --under under", "own", "own"), ("own under --under under", "under", "under"), ("own both --under own", "own", "own")]
    {
        let found = json(words);
        assert_eq!((found.at("file").text(), found.at("from").text()), (file, from), "{words}");
    }
    assert_eq!(
        shell(&folder, "\"$GVDB\" get own x --table empty --under under --json").ends(0).text(),
        "{\"file\":\"under\",\"byte_order\":\"little\",\"form\":\"plain\",\"from\":\"under\",\"table\":[\"empty\"],\"key\":\"x\",\"size\":1,\"value\":\"15\"}\n"
    );
    assert_eq!(
        shell(&folder, "\"$GVDB\" get own own --json").ends(0).text(),
        "{\"file\":\"own\",\"byte_order\":\"little\",\"form\":\"plain\",\"table\":[],\"key\":\"own\",\"size\":1,\"value\":\"02\"}\n"
    );
}

/// The district's file is named, so it has to be there with a header; the tables in it are opened only where they are asked.
#[test]
fn a_district_that_cannot_be_read() {
    let folder = layers("layered-unread");
    fs::write(folder.join("text"), "no GVDB file, and longer than a header").unwrap();
    fs::create_dir(folder.join("place")).unwrap();
    let mut cut = fs::read(folder.join("under")).unwrap();
    cut.truncate(40);
    fs::write(folder.join("cut"), cut).unwrap();
    let under = |key: &str, file: &str| shell(&folder, &format!("\"$GVDB\" get own {key} --under {file} --hex"));
    for (file, said) in [("nowhere", "nowhere: "), ("text", "text: "), ("place", "place: ")] {
        under("own", file).ends(2).says(said);
        under("none", file).ends(2).says(said);
    }
    under("own", "cut").ends(0).prints("02\n").says("from own");
    under("table", "cut").ends(1).says("own: key \"table\"");
    under("none", "cut").ends(2).says("cut: root table: ");
    shell(&folder, "\"$GVDB\" get - own --under - < own").ends(2).says("standard input (-) can be read once");
    shell(&folder, "\"$GVDB\" get own under --under - --hex < under").ends(0).prints("12\n").says("from standard input");
    shell(&folder, "\"$GVDB\" get own own --under under --under under").ends(2).says("--under is given twice");
}

/// Each file is read in its own form.
#[test]
fn forms_may_differ() {
    let folder = folder("layered-forms");
    for (name, form, lines) in [("own", "signed", "forêt\t01\n"), ("under", "plain", "forêt\t02\nété\t03\n")] {
        gvdb_fed(["build", "--form", form, "-o", folder.join(name).to_str().unwrap()], lines.as_bytes()).ends(0);
    }
    get(&folder, "forêt").ends(0).prints("01\n").says("from own");
    get(&folder, "été").ends(0).prints("03\n").says("from under");
    get(&folder, "forêt --form plain").ends(0).prints("02\n").says("from under");
}
