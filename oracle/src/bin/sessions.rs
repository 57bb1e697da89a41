//! Writes the lab's records for a number of sessions, each an opening and the calls behind it.
//!
//!     sessions SEED COUNT KIND [whole] > RECORDS
//!
//! KIND is storage, engine, packets, shapes, exhaustive or exhaustive-engine, with `:nor` or `:nand`
//! behind it for one device. The sessions follow from the seed; a larger COUNT only adds some at the
//! end. Those of the last two kinds are the same for every seed and count. `whole` leaves out the
//! sessions that the Rust can't answer whole, so that its lines can be kept for the lab program. A
//! session of the kind shapes ends the run, so only one of them is of use.

use std::io::{BufWriter, Write, stdout};

use harness::make::{Plan, session};
use harness::run::{Options, run};

fn main() {
    let arguments: Vec<String> = std::env::args().skip(1).collect();
    let arguments: Vec<&str> = arguments.iter().map(String::as_str).collect();
    let (numbers, whole) = match arguments.as_slice() {
        [numbers @ .., "whole"] => (numbers, true),
        numbers => (numbers, false),
    };
    let parsed = match numbers {
        [seed, count, kind] => seed
            .parse::<u64>()
            .ok()
            .zip(count.parse::<u64>().ok())
            .zip(Plan::parse(kind)),
        _ => None,
    };
    let Some(((seed, count), plan)) = parsed else {
        let kinds = "storage|engine|packets|shapes|exhaustive|exhaustive-engine";
        eprintln!("usage: sessions SEED COUNT {kinds} [whole] > RECORDS");
        std::process::exit(2);
    };
    let mut out = BufWriter::new(stdout().lock());
    for number in 0..plan.count(count) {
        let bytes = session(seed, number, plan);
        if whole {
            let tally = run(&bytes, Options { figure: true }, &mut vec![]);
            if !tally.skips.is_empty() || !tally.panics.is_empty() {
                continue;
            }
        }
        out.write_all(&bytes).expect("standard output");
    }
    out.flush().expect("standard output");
}
