//! Answers the lab's records by the static library, with the lab's lines.
//!
//!     library < RECORDS > LINES
//!
//! Only for calls on an engine. The library has no storage by itself and no packets: a storage's
//! opening, and a packet to an open engine, end the run with exit status 2.

mod engine;

use std::io::{BufWriter, Read, Write, stdin, stdout};
use std::process::ExitCode;

use engine::Engine;
use harness::opening::Opening;
use harness::record::*;
use harness::run::with_hex;

fn main() -> ExitCode {
    let mut input = Vec::new();
    stdin().read_to_end(&mut input).expect("standard input");
    // What was printed before a panic gets out too.
    let mut out = BufWriter::new(stdout().lock());
    let end = run(&input, &mut out);
    out.flush().expect("standard output");
    match end {
        Ok(()) => ExitCode::SUCCESS,
        Err(why) => {
            eprintln!("library: {why}");
            ExitCode::from(2)
        }
    }
}

/// Prints the lines of an input. The error is a record that the library has no call for.
fn run(input: &[u8], out: &mut impl Write) -> Result<(), String> {
    let mut reader = Reader::new(input);
    let mut open = None;
    loop {
        let (number, line) = match reader.next() {
            Next::End => return Ok(()),
            Next::Bad(number) => (number, None),
            Next::Record(record) => (record.number, answer(&mut open, record)?),
        };
        let text = line.as_deref().unwrap_or("bad");
        writeln!(out, "{number} {text}").expect("standard output");
        if line.is_none() {
            return Ok(());
        }
    }
}

/// The line of a record, without its number. None for a poke beside scratch, which is bad.
fn answer(open: &mut Option<Engine>, record: Record<'_>) -> Result<Option<String>, String> {
    let Record { number, kind, body } = record;
    if kind == OPEN_STORAGE {
        return Err(format!("record {number} opens a storage"));
    }
    if kind == OPEN_ENGINE {
        let opening = Opening::parse(body).expect("the shape was tested");
        let (refusal, engine) = Engine::open(opening);
        *open = engine;
        return Ok(Some(format!("open {refusal}")));
    }
    let Some(engine) = open else {
        return Ok(Some("none".to_string()));
    };
    let line = match kind {
        WRITE => match engine.write(body) {
            Some(status) => format!("write {status}"),
            None => refused("write"),
        },
        READ => match engine.read(word(body)) {
            Some(bytes) => with_hex("read", &bytes),
            None => refused("read"),
        },
        RESET => match engine.reset() {
            true => "reset".to_string(),
            false => refused("reset"),
        },
        FLAGS => match engine.flags() {
            Some([upgrading, asked]) => format!("flags {upgrading} {asked}"),
            None => refused("flags"),
        },
        POKE => match engine.poke(long(body) as usize, &body[4..]) {
            true => "poke".to_string(),
            false => return Ok(None),
        },
        LOOK => engine.look(),
        PACKET => return Err(format!("record {number} is a packet")),
        _ => "none".to_string(),
    };
    Ok(Some(line))
}

fn refused(word: &str) -> String {
    format!("{word} refused 9")
}
