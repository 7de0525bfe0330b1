//! docs/TOUR.md: every command of it is run, and prints what stands there.

use crate::harness::*;
use std::env;
use std::ffi::OsString;
use std::fs;
use std::path::Path;
use std::process::Command;

#[test]
fn the_tour_shows_what_is_printed() {
    let tour = fs::read_to_string(root().join("docs/TOUR.md")).unwrap();
    let (tour, git) = tour.split_once("\n## In git\n").expect("the part on git");
    let folder = folder("tour");
    assert!(run(&folder, tour) >= 15);
    if Command::new("git").arg("--version").output().is_err() {
        skipped("no git for the part of the tour on it");
        return;
    }
    assert!(run(&folder, git) >= 10);
}

/// Runs each command of a text in a shell of its own, and counts them. Nobody's own settings of git play a part.
fn run(folder: &Path, text: &str) -> usize {
    let mut path = OsString::from(program().parent().unwrap());
    path.push(":");
    path.push(env::var_os("PATH").unwrap());
    let mut ran = 0;
    for block in text.split("```console\n").skip(1).map(|rest| rest.split("```").next().unwrap()) {
        for step in block.split("$ ").skip(1) {
            let (command, shown) = step.split_once('\n').unwrap();
            let mut shell = Command::new("sh");
            shell.args(["-c", &format!("exec 2>&1; {command}")]).current_dir(folder).env("PATH", &path);
            shell.env("HOME", folder).env("GIT_CONFIG_NOSYSTEM", "1").env_remove("GIT_DIR").env("LC_ALL", "C");
            assert_eq!(String::from_utf8(shell.output().unwrap().stdout).unwrap(), shown, "{command}");
            ran += 1;
        }
    }
    ran
}
