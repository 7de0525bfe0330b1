//! The command line `gvdb`: a thin program over the crate. Each command is a module; this one picks it and ends with its status.

mod advice;
mod args;
mod both;
mod check;
mod content;
mod decide;
mod diff;
mod failure;
mod filter;
mod form;
mod get;
mod help;
mod hidden;
mod input;
mod json;
mod lay;
mod lines;
mod list;
mod lock;
mod merge;
mod merging;
mod order;
mod out;
mod replace;
mod report;
mod source;
mod target;
mod text;
mod tree;

use args::{Args, Spec};
use failure::{name, Failure};
use out::Out;
use std::ffi::OsString;
use std::io::Write;
use std::process::ExitCode;

struct Command {
    name: &'static str,
    help: &'static str,
    spec: Spec,
    run: fn(&Args, &mut Out) -> Result<u8, Failure>,
}

const COMMANDS: &[Command] = &[
    Command { name: "check", help: help::CHECK, spec: Spec { flags: &["--strict", "--json"], valued: &["--form"], words: &["FILE..."] }, run: check::run },
    Command {
        name: "list",
        help: help::LIST,
        spec: Spec { flags: &["--json", "--values", "--no-check"], valued: &["--table", "--form"], words: &["FILE", "[PREFIX]"] },
        run: list::run,
    },
    Command { name: "tree", help: help::TREE, spec: Spec { flags: &["--json"], valued: &["--form"], words: &["FILE"] }, run: tree::run },
    Command {
        name: "get",
        help: help::GET,
        spec: Spec { flags: &["--strict", "--hex", "--raw", "--json"], valued: &["--table", "--under", "--form"], words: &["FILE", "KEY"] },
        run: get::run,
    },
    Command { name: "diff", help: help::DIFF, spec: Spec { flags: &["--json"], valued: &[], words: &["A", "B"] }, run: diff::run },
    Command { name: "same", help: help::SAME, spec: Spec { flags: &[], valued: &[], words: &["A", "B"] }, run: diff::same },
    Command {
        name: "merge",
        help: help::MERGE,
        spec: Spec {
            flags: &["--json", "--replace", "--dry-run", "--without-containers"],
            valued: &["-o", "--keep", "--decide", "--base", "--report", "--separator", "--form", "--bloom"],
            words: &["OWN", "OTHER"],
        },
        run: merge::run,
    },
    Command { name: "dump", help: help::DUMP, spec: Spec { flags: &["--json"], valued: &["--separator", "--form"], words: &["FILE"] }, run: lines::dump },
    Command {
        name: "build",
        help: help::BUILD,
        spec: Spec {
            flags: &["--big-endian", "--empty", "--replace", "--without-containers"],
            valued: &["-o", "--separator", "--form", "--bloom"],
            words: &[],
        },
        run: lines::build,
    },
];

fn main() -> ExitCode {
    let mut out = Out::new();
    let status = run(std::env::args_os().skip(1).collect(), &mut out);
    // What is still in the buffer may fail too, and that is no success.
    let flushed = out.stdout.flush().map_err(Failure::from);
    match status.and_then(|status| flushed.map(|()| status)) {
        Ok(status) => ExitCode::from(status),
        Err(failure) => {
            if !failure.is_gone() {
                out::say(&failure.line);
            }
            ExitCode::from(failure.status)
        }
    }
}

fn run(words: Vec<OsString>, out: &mut Out) -> Result<u8, Failure> {
    let mut words = words.into_iter();
    let Some(first) = words.next() else {
        let _ = write!(std::io::stderr(), "{}", help::USAGE);
        return Ok(failure::UNREADABLE);
    };
    let rest: Vec<OsString> = words.collect();
    match first.to_str() {
        Some("--version" | "-V") => return version(out),
        Some("--help" | "-h" | "help") => return said(out, rest.first().map_or(Ok(help::USAGE), |word| command(word).map(|command| command.help))?),
        _ => {}
    }
    let command = command(&first)?;
    if rest.iter().take_while(|word| *word != "--").any(|word| word == "--help" || word == "-h") {
        return said(out, command.help);
    }
    let args =
        Args::parse(&command.spec, rest.into_iter()).map_err(|failure| Failure::usage(format!("{}: {} (see gvdb {0} --help)", command.name, failure.line)))?;
    (command.run)(&args, out)
}

fn command(word: &OsString) -> Result<&'static Command, Failure> {
    COMMANDS.iter().find(|command| word == command.name).ok_or_else(|| {
        let near = args::near(word.as_encoded_bytes(), COMMANDS.iter().map(|command| command.name));
        let hint = near.map_or(String::new(), |near| format!("; is {near} meant?"));
        Failure::usage(format!("no command {}{hint} (see gvdb --help)", name(word)))
    })
}

/// The version, with the commit and the kit that the script `gvdb` names when it builds this.
fn version(out: &mut Out) -> Result<u8, Failure> {
    let [commit, kit] = [option_env!("GVDB_COMMIT"), option_env!("GVDB_KIT")].map(|part| part.unwrap_or("unknown"));
    out.line(format!("gvdb {}, commit {commit}, kit {kit}", env!("CARGO_PKG_VERSION")))?;
    Ok(0)
}

fn said(out: &mut Out, text: &str) -> Result<u8, Failure> {
    write!(out.stdout, "{text}")?;
    Ok(0)
}
