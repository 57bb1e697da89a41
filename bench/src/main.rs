//! Speed of the proved engine against the Rust's: the same inputs, one driver, both sides in turn in
//! one run, so that only the ratio counts.
//!
//!     bench                  # every workload, as a table
//!     bench once SIDE WORK   # one workload on one side (`ours`, `theirs`), to count instructions: `update-512`,
//!                            # `update-4096`, `queries`, `crc`; `none` only opens, `payload` not even that
//!
//! The workloads: an update of 1 MiB in writes of 512 and of 4,096 bytes (metadata, SEND_FWC_DATA, the
//! payload, a read of the reply), 100,000 short queries (GET_MEM_BUF, each with a read of its reply),
//! and the CRC-32 of 1 MiB. Every engine is opened over a chip of 0xFF before the clock starts; rooms are
//! not cleared between writes. The answers and the flash of both sides are held against each other.

mod ours;
mod theirs;

use std::time::{Duration, Instant};

pub const CHIP: usize = 1 << 20;
pub const BASE: u32 = 0x4000_0000;
const QUERIES: usize = 100_000;
/// Enough that some of them are not disturbed by other work of the machine.
const ROUNDS: usize = 60;

/// An engine, whichever.
pub trait Side {
    fn write(&mut self, bytes: &[u8]) -> u8;
    fn read(&mut self, room: &mut [u8]) -> usize;
    fn flash(&self) -> Vec<u8>;
}

/// A request's header.
fn header(command: u8, length: u32) -> [u8; 16] {
    let magic = 0x4347_5055u32;
    let sum = magic
        .wrapping_add((command as u32) << 16 | 0x0101)
        .wrapping_add(length);
    let mut bytes = [0; 16];
    bytes[..4].copy_from_slice(&magic.to_le_bytes());
    bytes[4..8].copy_from_slice(&[1, 1, command, 0]);
    bytes[8..12].copy_from_slice(&length.to_le_bytes());
    bytes[12..].copy_from_slice(&sum.to_le_bytes());
    bytes
}

fn payload() -> Vec<u8> {
    (0..CHIP).map(|i| (i * 7 + i / 256) as u8).collect()
}

/// What a workload leaves to compare.
#[derive(PartialEq, Eq, Debug)]
struct Left {
    statuses: u64,
    reply: Vec<u8>,
}

/// An update in pieces of so many bytes. The frames are made before the clock starts.
fn update(side: &mut dyn Side, payload: &[u8], piece: usize) -> Left {
    let mut meta = vec![0; 512];
    meta[..4].copy_from_slice(b"META");
    meta[0x48..0x4B].copy_from_slice(b"app");
    let mut statuses = side.write(&[&header(0x10, 512)[..], &meta].concat()) as u64;
    statuses += side.write(&header(0x12, payload.len() as u32)) as u64;
    for part in payload.chunks(piece) {
        statuses += side.write(part) as u64;
    }
    let mut room = vec![0; 64];
    let count = side.read(&mut room);
    room.truncate(count);
    Left {
        statuses,
        reply: room,
    }
}

/// Short queries, each with a read of its reply.
fn queries(side: &mut dyn Side, count: usize) -> Left {
    let query = header(0x08, 0);
    let mut room = vec![0; 64];
    let (mut statuses, mut last) = (0, 0);
    for _ in 0..count {
        statuses += side.write(&query) as u64;
        last = side.read(&mut room);
    }
    room.truncate(last);
    Left {
        statuses,
        reply: room,
    }
}

fn timed<T>(work: impl FnOnce() -> T) -> (Duration, T) {
    let start = Instant::now();
    let left = work();
    (start.elapsed(), left)
}

/// The two sides in turn, so many times; the least time of each.
fn race(
    rounds: usize,
    mut ours: impl FnMut() -> Duration,
    mut theirs: impl FnMut() -> Duration,
) -> (Duration, Duration) {
    let (mut a, mut b) = (Duration::MAX, Duration::MAX);
    for _ in 0..rounds {
        a = a.min(ours());
        b = b.min(theirs());
    }
    (a, b)
}

fn row(name: &str, (ours, theirs): (Duration, Duration)) {
    let ratio = theirs.as_secs_f64() / ours.as_secs_f64();
    println!(
        "{name:<34} {:>10.3} ms {:>10.3} ms {ratio:>8.2}",
        ours.as_secs_f64() * 1e3,
        theirs.as_secs_f64() * 1e3
    );
}

fn once(side: &str, work: &str) {
    let payload = payload();
    if work == "payload" {
        return;
    }
    if work == "crc" {
        let sum = if side == "ours" {
            ours::crc32(&payload)
        } else {
            theirs::crc32(&payload)
        };
        println!("{sum:08x}");
        return;
    }
    let mut engine: Box<dyn Side> = match side {
        "ours" => Box::new(ours::Ours::open()),
        "theirs" => Box::new(theirs::Theirs::open(theirs::scratch())),
        _ => panic!("no side {side}"),
    };
    let left = match work {
        "none" => return,
        "update-512" => update(&mut *engine, &payload, 512),
        "update-4096" => update(&mut *engine, &payload, 4096),
        "queries" => queries(&mut *engine, QUERIES),
        _ => panic!("no workload {work}"),
    };
    println!("{left:?}");
}

fn main() {
    let words: Vec<String> = std::env::args().skip(1).collect();
    if let [first, side, work] = &words[..]
        && first == "once"
    {
        return once(side, work);
    }
    let (scratch, payload) = (theirs::scratch(), payload());
    println!(
        "{:<34} {:>13} {:>13} {:>8}",
        format!("the least of {ROUNDS} rounds"),
        "proved",
        "Rust",
        "ratio"
    );
    for piece in [512, 4096] {
        let mut answers = (None, None);
        let times = race(
            ROUNDS,
            || {
                let mut side = ours::Ours::open();
                let (time, left) = timed(|| update(&mut side, &payload, piece));
                answers.0 = Some((left, side.flash()));
                time
            },
            || {
                let mut side = theirs::Theirs::open(scratch);
                let (time, left) = timed(|| update(&mut side, &payload, piece));
                answers.1 = Some((left, side.flash()));
                time
            },
        );
        assert_eq!(answers.0, answers.1, "the sides differ");
        assert!(
            answers.0.unwrap().1 == payload,
            "the flash is not the payload"
        );
        row(&format!("update of 1 MiB, writes of {piece}"), times);
    }
    let mut answers = (None, None);
    let times = race(
        ROUNDS,
        || {
            let mut side = ours::Ours::open();
            let (time, left) = timed(|| queries(&mut side, QUERIES));
            answers.0 = Some(left);
            time
        },
        || {
            let mut side = theirs::Theirs::open(scratch);
            let (time, left) = timed(|| queries(&mut side, QUERIES));
            answers.1 = Some(left);
            time
        },
    );
    assert_eq!(answers.0, answers.1, "the sides differ");
    row("100,000 queries and reads", times);
    assert_eq!(
        ours::crc32(&payload),
        theirs::crc32(&payload),
        "the sides differ"
    );
    let times = race(
        ROUNDS,
        || timed(|| std::hint::black_box(ours::crc32(&payload))).0,
        || timed(|| std::hint::black_box(theirs::crc32(&payload))).0,
    );
    row("CRC-32 of 1 MiB", times);
}
