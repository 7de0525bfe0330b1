//! The command line from outside, as processes. Built and run by tests/cli/run, which names the program and gvdb-rs by GVDB, ROOT, REAL and ORACLE.

mod checking;
mod children;
mod damage;
mod diff;
mod filter;
mod form;
mod harness;
mod json;
mod keeper;
mod keys;
mod layered;
#[path = "../../bindings/rust/src/limits.rs"]
mod limits;
mod lines;
mod merge;
mod model;
mod oracle;
mod outcome;
mod places;
mod reading;
mod script;
mod tour;
mod usage;
mod utf8;
mod writers;
