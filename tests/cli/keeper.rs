//! A keeper's merge: a dry run, decisions key by key, and what changed since a base.

use crate::harness::*;
use crate::json::Json;
use crate::model::{self, changed, merge_since, random};
use crate::oracle::Oracle;
use std::collections::BTreeSet;
use std::fs::{self, Permissions};
use std::os::unix::fs::PermissionsExt;
use std::path::{Path, PathBuf};

const OWN: &str = "/parcel/12/owner\t01\n/parcel/12/stand/3/year\t02\n/parcel/13/owner\t03\nt\ta\t04\nt\tb\t05\n";
const OTHER: &str = "/parcel/12/owner\t11\n/parcel/12/stand/3/year\t12\n/parcel/13/owner\t13\nt\ta\t14\nt\tb\t15\n";

fn files(name: &str, own: &str, other: &str) -> PathBuf {
    let folder = folder(name);
    build(&folder.join("own"), own);
    build(&folder.join("other"), other);
    folder
}

fn merge(folder: &Path, words: &str) -> Ran {
    shell(folder, &format!("rm -f out; \"$GVDB\" merge own other -o out {words}"))
}

fn dump(folder: &Path) -> String {
    shell(folder, "\"$GVDB\" check out > /dev/null && \"$GVDB\" dump out").ends(0).text().to_string()
}

/// A report without its last line, which says what came of the merge.
fn body(ran: &Ran) -> String {
    ran.text().trim_end().rsplit_once('\n').unwrap().0.to_string()
}

#[test]
fn a_dry_run_tells_all_and_writes_nothing() {
    let folder = files("dry", OWN, OTHER);
    fs::set_permissions(&folder, Permissions::from_mode(0o555)).unwrap();
    let dry = merge(&folder, "--dry-run").ends(1).says("5 conflicts, nothing is written");
    assert!(dry.text().trim_end().lines().last().unwrap().starts_with("refused: out is not written; "));
    let dry = merge(&folder, "--dry-run --keep=own").ends(0);
    assert_eq!(names(&folder), ["other", "own"]);
    assert!(dry.stderr.is_empty());
    dry.prints(
        "\nwould be merged into out: 5 values; 0 only in own, 0 only in other, 0 the same in both, 5 conflicts (own kept in 5, 5 values of other dropped)\n",
    );
    fs::set_permissions(&folder, Permissions::from_mode(0o755)).unwrap();
    let dry = merge(&folder, "--dry-run --keep=own");
    assert_eq!(body(&merge(&folder, "--keep=own").ends(0)), body(&dry));
    let json = Json::parse(merge(&folder, "--dry-run --keep=own --json").ends(0).text());
    assert_eq!((json.at("written"), json.at("values").at("out")), (&Json::Bool(false), &Json::Number(5)));
    merge(&folder, "--dry-run --report report").ends(2).says("--dry-run writes nothing, so it takes no --report");
    // what would refuse the merge refuses the dry run
    fs::write(folder.join("there"), "x").unwrap();
    shell(&folder, "\"$GVDB\" merge own other -o there --keep=own --dry-run").ends(1).says("there: it is there already");
    assert_eq!(names(&folder), ["other", "own", "there"]);
}

#[test]
fn decisions_key_by_key() {
    let folder = files("decide", OWN, OTHER);
    fs::write(
        folder.join("d"),
        "# Anna knows her parcel\r\nown /parcel/12/\r\nother /parcel/12/stand/3/year\r\n\r\nother t\r\nown t\ta\r\nown /parcel/99/\r\n",
    )
    .unwrap();
    let ran = merge(&folder, "--decide d").ends(1).says("out: 1 conflict, nothing is written; --keep own, --keep other or --decide FILE decides\n");
    let ran = ran
        .prints("conflict \"/parcel/13/owner\"\n    own    \"/parcel/13/owner\": value of 1 byte: 03\n    other  \"/parcel/13/owner\": value of 1 byte: 13\n");
    ran.prints("    kept    other  \"/parcel/12/stand/3/year\": value of 1 byte: 12\n").prints("note d: line 7 meets no conflict: \"/parcel/99/\"\n");
    assert_eq!(names(&folder), ["d", "other", "own"]);
    let ran = merge(&folder, "--decide d --keep other").ends(0);
    ran.prints("5 conflicts (own kept in 2, 2 values of other dropped; other kept in 3, 3 values of own dropped)\n");
    assert_eq!(dump(&folder), "/parcel/12/owner\t01\n/parcel/12/stand/3/year\t12\n/parcel/13/owner\t13\nt\t{}\nt\ta\t04\nt\tb\t15\n");
    shell(&folder, "rm -f out; \"$GVDB\" merge own other -o out --decide - --keep own < d").ends(0);
    for (lines, said) in [
        ("onw /parcel/12/\n", "d: line 1: it begins neither with own nor with other"),
        ("own /a\nown\n", "d: line 2: no key behind the side"),
        ("own \"a\n", "d: line 1: a key in quotes has no end"),
        ("own a\\q\n", "d: line 1: a backslash stands before one of"),
    ] {
        fs::write(folder.join("d"), lines).unwrap();
        merge(&folder, "--decide d").ends(2).says(said);
    }
    merge(&folder, "--decide nowhere").ends(2).says("nowhere: No such file");
}

/// The report of a refused merge is a file of decisions: as it stands it decides nothing, and without one side's lines all for the other.
#[test]
fn a_report_becomes_decisions() {
    let strange = "quote\" back\\\\slash \\t: > \"x\"\t01\nkind\tx\t01\nkind\ty\tz\t02\n";
    let folder = files("edit", &(OWN.to_string() + strange), &(OTHER.to_string() + "quote\" back\\\\slash \\t: > \"x\"\t02\nkind\t03\n"));
    let refused = merge(&folder, "--report report").ends(1);
    assert_eq!(body(&merge(&folder, "--decide report").ends(1)), body(&refused));
    for (keep, drop) in [("own", "other"), ("other", "own")] {
        shell(&folder, &format!("grep -v '^    {drop} ' report > decisions")).ends(0);
        let decided = merge(&folder, "--decide decisions").ends(0);
        let dumped = dump(&folder);
        assert_eq!(body(&merge(&folder, &format!("--keep {keep}")).ends(0)), body(&decided));
        assert_eq!(dump(&folder), dumped);
    }
}

#[test]
fn what_one_side_changed_since_the_base_is_no_conflict() {
    let folder = files("base", "a\t02\nb\t01\nd\t01\nnew own\t09\nt\tx\t01\n", "a\t01\nb\t03\nc\t01\nnew other\t08\nu\tx\t01\nt\tx\t01\n");
    build(&folder.join("base"), "a\t01\nb\t01\nc\t01\nd\t01\nu\tx\t01\nu\te\t{}\nt\tx\t01\n");
    build(&folder.join("other"), "a\t01\nb\t03\nc\t01\nnew other\t08\nu\tx\t01\nu\te\t{}\nt\tx\t01\n");
    let ran = merge(&folder, "--base base").ends(0);
    let report = "\
merge of own own and other other since base base
changed \"a\" in own
    before \"a\": value of 1 byte: 01
    now    \"a\": value of 1 byte: 02
changed \"b\" in other
    before \"b\": value of 1 byte: 01
    now    \"b\": value of 1 byte: 03
removed \"c\" in own
    before \"c\": value of 1 byte: 01
removed \"d\" in other
    before \"d\": value of 1 byte: 01
tables \"t\": in both, merged key by key
same \"t\" > \"x\": value of 1 byte: 01
removed \"u\" in own
    before \"u\": table of 2 items
    before   \"u\" > \"e\": table without a value
    before   \"u\" > \"x\": value of 1 byte: 01
merged into out: 5 values; 1 only in own, 1 only in other, 1 the same in both, 5 changed in one, 0 conflicts
";
    assert_eq!(ran.text(), report);
    assert_eq!(dump(&folder), "a\t02\nb\t03\nnew other\t08\nnew own\t09\nt\t{}\nt\tx\t01\n");
}

#[test]
fn changed_and_removed_is_a_conflict() {
    let folder = files("base-conflict", "b\t02\nt\tx\t02\n", "a\t03\n");
    build(&folder.join("base"), "a\t01\nb\t01\nt\tx\t01\nt\ty\t01\n");
    let ran = merge(&folder, "--base base").ends(1).says("3 conflicts");
    ran.prints("conflict \"a\"\n    own    \"a\": not there, removed since the base\n    other  \"a\": value of 1 byte: 03\n");
    let own = merge(&folder, "--base base --keep own").ends(0).prints("    dropped other  \"a\": value of 1 byte: 03\n");
    own.prints("(own kept in 3, 1 value of other dropped)");
    assert_eq!(dump(&folder), "b\t02\nt\t{}\nt\tx\t02\n");
    merge(&folder, "--base base --keep other").ends(0).prints("    dropped own      \"t\" > \"x\": value of 1 byte: 02\n");
    assert_eq!(dump(&folder), "a\t03\n");
    // an empty base holds nothing; one of another byte order, or none, is refused
    fs::write(folder.join("base"), "").unwrap();
    merge(&folder, "--base base").ends(0).prints("0 changed in one");
    assert_eq!(dump(&folder), "a\t03\nb\t02\nt\t{}\nt\tx\t02\n");
    build(&folder.join("base"), "big-endian\na\t01\n");
    merge(&folder, "--base base").ends(1).says("own has little-endian values, base big-endian ones");
    fs::write(folder.join("base"), "notes").unwrap();
    merge(&folder, "--base base").ends(2).says("base: the file is shorter than a header of 24 bytes");
    merge(&folder, "--base nowhere").ends(2).says("nowhere: No such file");
}

/// A container whose keys were removed, some by each side, goes with them and refuses nothing.
#[test]
fn containers_go_with_what_was_below() {
    let folder = files("base-containers", "x/b\t01\n", "x/a\t01\n");
    build(&folder.join("base"), "x/a\t01\nx/b\t01\n");
    merge(&folder, "--base base").ends(0).prints("merged into out: 0 values;");
    assert_eq!(dump(&folder), "");
    // but one that no separator made is not lost
    shell(&folder, "rm own && printf 'x/b\\t01\\n' | \"$GVDB\" build --separator b -o own").ends(0);
    merge(&folder, "--base base").ends(0);
    shell(&folder, "rm own && printf 'y:b\\t01\\n' | \"$GVDB\" build --separator : -o own").ends(0);
    merge(&folder, "--base base").ends(1).says("1 container cannot be laid");
}

/// Random changes of random files against the model, and against what gvdb-rs reads and lays.
#[test]
fn random_merges_since_a_base() {
    let mut oracle = Oracle::start();
    let mut dice = Dice(0x0BA5_E0FA_11B1_7E55);
    let (mut conflicted, mut plain) = (0, 0);
    for _ in 0..60 {
        let base = random(&mut dice, 2);
        let (own, other) = (changed(&base, &mut dice), changed(&base, &mut dice));
        let folder = files("random-base", &model::lines(&own, ""), &model::lines(&other, ""));
        build(&folder.join("base"), &model::lines(&base, ""));
        for keep in ["own", "other"] {
            let mut conflicts = BTreeSet::new();
            let expected = merge_since(&base, &own, &other, keep == "own", &[], &mut conflicts);
            let ran = merge(&folder, &format!("--base base --json --keep {keep}")).ends(0);
            let json = Json::parse(ran.text());
            let found = json.at("both").list().iter().filter(|both| both.at("outcome").text() == "conflict");
            let place = |both: &Json| both.at("path").list().iter().chain([both.at("key")]).map(|key| key.text().to_string()).collect::<Vec<_>>();
            assert_eq!(found.map(place).collect::<BTreeSet<_>>(), conflicts, "{base:?}\n{own:?}\n{other:?}");
            let dump = dump(&folder);
            assert_eq!(model::sorted(&dump), model::sorted(&model::lines(&expected, "")), "{base:?}\n{own:?}\n{other:?}");
            if let Some(oracle) = &mut oracle {
                assert_eq!(hex(&fs::read(folder.join("out")).unwrap()), hex(&oracle.lay_as(&expected, &dump)));
            }
            match conflicts.is_empty() {
                true => plain += 1,
                false => conflicted += 1,
            }
        }
    }
    assert!(conflicted > 20 && plain > 5, "{conflicted} {plain}");
}
