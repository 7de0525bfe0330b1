//! Usage, help, bad words, colours.

use crate::harness::*;
use crate::limits::*;
use std::process::Command;

const COMMANDS: [&str; 9] = ["check", "list", "tree", "get", "diff", "same", "merge", "dump", "build"];

#[test]
fn usage_without_words() {
    let ran = gvdb([""; 0]).ends(2);
    assert!(ran.stdout.is_empty() && COMMANDS.iter().all(|command| ran.stderr.contains(&format!("gvdb {command} "))));
    shell(&folder("usage"), "\"$GVDB\" 2> /dev/full").ends(2);
    gvdb(["--help"]).ends(0).prints("gvdb merge OWN OTHER -o OUT");
    gvdb(["--version"]).ends(0).prints("gvdb 0.1.0, commit ");
}

#[test]
fn every_command_has_help_with_an_example() {
    for command in COMMANDS {
        for words in [vec![command, "--help"], vec!["help", command], vec![command, "x", "-h"]] {
            let ran = gvdb(words).ends(0).prints(&format!("gvdb {command} "));
            let example = ran.text().trim_end().lines().last().unwrap();
            assert!(example.starts_with("    ") && example.contains(&format!("gvdb {command} ")), "{example}");
        }
    }
}

#[test]
fn help_names_the_limits() {
    let help = gvdb(["help", "merge"]).ends(0).text().replace(',', "").split_whitespace().collect::<Vec<_>>().join(" ");
    let limits = format!(
        "{MAX_ITEMS} items (containers included) in {MAX_TABLES} tables nested {MAX_NESTING} deep with keys of {MAX_KEY} bytes in {} MiB:",
        MAX_FILE >> 20
    );
    assert!(help.contains(&format!("OUT holds at most {limits}")), "{help}");
}

#[test]
fn bad_usage_is_one_line_and_2() {
    for (words, said) in [
        (&["nope"][..], "no command nope"),
        (&["check"], "check: FILE is missing"),
        (&["list", "a", "b", "c"], "one word too many: c"),
        (&["list", "--json=x", "a"], "--json takes no word"),
        (&["get", "a"], "KEY is missing"),
        (&["get", "a", "-k"], "unknown option -k"),
        (&["tree", "--values", "a"], "unknown option --values (a key that begins with - stands behind --)"),
        (&["list", "--valeus", "a"], "list: unknown option --valeus; is --values meant? (see gvdb list --help)"),
        (&["list", "--no-c", "a"], "unknown option --no-c; is --no-check meant?"),
        (&["list", "--tabel=x", "a"], "unknown option --tabel=x; is --table meant?"),
        (&["merge", "a", "b", "--output", "x"], "unknown option --output (a key"),
        (&["same", "a"], "same: B is missing"),
        (&["chekc", "a"], "no command chekc; is check meant? (see gvdb --help)"),
        (&["help", "nosuch"], "no command nosuch (see gvdb --help)"),
        (&["--help", "lst"], "no command lst; is list meant?"),
        (&["merge", "a", "b"], "-o is missing"),
        (&["merge", "a", "-o", "x"], "OTHER is missing"),
        (&["merge", "a", "b", "-o"], "-o wants a word"),
        (&["merge", "a", "b", "-o", "x", "-o", "y"], "-o is given twice"),
        (&["merge", "a", "b", "-o", "x", "--keep", "both"], "--keep is own or other"),
        (&["build", "-o", "x", "--separator", "ab"], "(28)"),
        (&["build", "-o", "x", "--separator", "é"], "(28)"),
        (&["build", "-o", "x", "--separator="], "(28)"),
        (&["build"], "-o is missing"),
        (&["bad\nname"], "no command bad\\nname"),
    ] {
        let ran = gvdb(words).ends(2).says(said);
        assert!(ran.stdout.is_empty(), "{words:?}");
    }
}

#[test]
fn colours_on_a_terminal_only() {
    let file = worked("rule_3.gvdb");
    let piped = gvdb(["check".as_ref(), file.as_os_str()]).ends(1);
    assert!(!piped.text().contains('\x1b'));
    if Command::new("script").arg("--version").output().is_err() {
        skipped("no command `script` to make a terminal with");
        return;
    }
    let folder = folder("colours");
    let on_terminal = |line: &str| shell(&folder, &format!("script -qec '{line}' /dev/null < /dev/null"));
    let check = format!("\"$GVDB\" check {}", file.display());
    assert!(on_terminal(&check).text().contains("\x1b[31mnot sound\x1b[0m"));
    assert!(!on_terminal(&format!("NO_COLOR=1 {check}")).text().contains('\x1b'));
    let get = format!("\"$GVDB\" get {} a", worked("one.gvdb").display());
    assert_eq!(on_terminal(&get).text().trim_end(), "0102");
    assert_eq!(on_terminal(&format!("{get} --raw")).text(), "\u{1}\u{2}");
}
