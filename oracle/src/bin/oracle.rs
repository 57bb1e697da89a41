//! Answers the lab's records by the Rust.
//!
//!     oracle [--figure] < RECORDS > LINES
//!
//! `--figure` lets a NAND have a capacity figure that the Rust would not compute itself; else such
//! an opening prints `skip figure`. Counts of what could not be compared go to standard error.

use std::io::{Read, Write, stdin, stdout};

use harness::run::{Options, check_build, run};

fn main() {
    let mut options = Options::default();
    for argument in std::env::args().skip(1) {
        if argument != "--figure" {
            eprintln!("usage: oracle [--figure] < RECORDS > LINES");
            std::process::exit(2);
        }
        options.figure = true;
    }
    check_build();
    let mut input = Vec::new();
    stdin().read_to_end(&mut input).expect("standard input");
    let mut out = Vec::new();
    let tally = run(&input, options, &mut out);
    stdout().write_all(&out).expect("standard output");
    for (why, count) in tally.skips {
        eprintln!(
            "oracle: {count} of {} openings skipped: {why}",
            tally.openings
        );
    }
    for (why, count) in tally.panics {
        eprintln!(
            "oracle: {count} of {} openings ended by a panic: {why}",
            tally.openings
        );
    }
}
