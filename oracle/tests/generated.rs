//! Generated sessions are all answered, and the same each time. With the feature `peek` the held
//! address is checked against the storage's private fields after every call.

use std::sync::Mutex;

use harness::make::{Plan, session};
use harness::record::{Next, OPEN_STORAGE, PACKET, Reader};
use harness::run::{Options, run};

/// Two runs can't have scratch at the same address.
static ONE: Mutex<()> = Mutex::new(());

#[test]
fn every_record_is_answered() {
    let _one = ONE.lock();
    for name in ["storage", "engine", "packets", "storage:nor", "engine:nand"] {
        let plan = Plan::parse(name).unwrap();
        for number in 0..300 {
            let input = session(3, number, plan);
            assert_eq!(input, session(3, number, plan));
            let mut out = vec![];
            let tally = run(&input, Options { figure: true }, &mut out);
            assert!(tally.skips.is_empty(), "{name} {number}: skipped");
            assert_eq!(tally.openings, 1, "{name} {number}");
            let lines = String::from_utf8(out).unwrap();
            assert!(!lines.contains(" bad"), "{name} {number}: {lines}");
            if tally.panics.is_empty() {
                answered(&input, &lines);
            }
        }
    }
}

/// The kind exhaustive has as many sessions as docs/DIFFERENCES.md says, and the Rust answers all.
#[test]
fn the_short_ranges() {
    let _one = ONE.lock();
    let plan = Plan::parse("exhaustive").unwrap();
    let devices = ["exhaustive:nor", "exhaustive:nand"].map(|name| Plan::parse(name).unwrap());
    let [nor, nand] = devices.map(|plan| plan.count(1));
    assert_eq!((nor, nand, plan.count(1)), (215_510, 184_910, 400_420));
    assert_eq!(session(1, nor, plan), session(2, 0, devices[1]));
    for number in (0..nor + nand).step_by(397) {
        let input = session(1, number, plan);
        let mut out = vec![];
        let tally = run(&input, Options::default(), &mut out);
        let part = plan.part(number).unwrap();
        assert!(tally.skips.is_empty() && tally.panics.is_empty(), "{part}");
        answered(&input, &String::from_utf8(out).unwrap());
    }
}

/// The kind exhaustive-engine has no packets and no storages, and all the rest.
#[test]
fn the_short_ranges_of_engine_calls() {
    let _one = ONE.lock();
    let [all, calls] = ["exhaustive", "exhaustive-engine"].map(|name| Plan::parse(name).unwrap());
    assert_eq!(calls.count(1), 312_744);
    let engine_only = |plan: Plan, number: u64| {
        let input = session(1, number, plan);
        let mut reader = Reader::new(&input);
        while let Next::Record(record) = reader.next() {
            if matches!(record.kind, OPEN_STORAGE | PACKET) {
                return false;
            }
        }
        true
    };
    assert!((0..calls.count(1)).all(|number| engine_only(calls, number)));
    let count = (0..all.count(1))
        .filter(|&number| engine_only(all, number))
        .count();
    assert_eq!(count as u64, calls.count(1));
}

/// The line numbers go from 0 to the last record without a gap.
fn answered(input: &[u8], lines: &str) {
    let mut reader = Reader::new(input);
    let mut count = 0;
    while let Next::Record(_) = reader.next() {
        count += 1;
    }
    let mut next = 0;
    for line in lines.lines() {
        let number: u64 = line.split(' ').next().unwrap().parse().unwrap();
        assert!(number == next || number + 1 == next && line.contains(" in "));
        next = number + 1;
    }
    assert_eq!(next, count);
}
