//! The lab's run over the Rust: records in, lines out.
//!
//! Two lines are not the lab's. `skip` and a reason stand in place of `open` for an opening that
//! can't be compared; `panic` stands in place of an answer where the Rust panics. Behind either
//! nothing is printed up to the next opening.

use std::cell::RefCell;
use std::collections::{BTreeMap, HashSet};
use std::rc::Rc;

use crate::aic_upg::protocol::Engine;
use crate::aic_upg::storage::{NandUpgStorage, NorUpgStorage, Partition, StorageBackend};
use crate::chip::{Chip, Nand, Nor, Shared};
use crate::crc::crc32;
use crate::opening::{NOR, Opening};
use crate::quiet::quietly;
use crate::record::*;
use crate::scratch::Scratch;
use crate::transport::{State, step};
use crate::wrap::{Peek, Wrapped};

/// How to run.
#[derive(Clone, Copy, Default)]
pub struct Options {
    /// Give the Rust's NAND storage the opening's capacity figure where the Rust would compute
    /// another one. Without this such an opening is skipped.
    pub figure: bool,
}

/// What happened beside the lines.
#[derive(Default)]
pub struct Tally {
    pub openings: u64,
    pub skips: BTreeMap<&'static str, u64>,
    pub panics: BTreeMap<String, u64>,
}

struct Run<'i, 'o> {
    reader: Reader<'i>,
    out: &'o mut Vec<u8>,
    options: Options,
    tally: Tally,
}

/// What ended a stretch of records.
enum After {
    End,
    Open(u64, bool, Opening),
}

/// Runs an input and appends the lines to `out`.
pub fn run(input: &[u8], options: Options, out: &mut Vec<u8>) -> Tally {
    let mut run = Run {
        reader: Reader::new(input),
        out,
        options,
        tally: Tally::default(),
    };
    let mut after = run.rest(Some("none"), None);
    while let After::Open(number, engine, opening) = after {
        run.tally.openings += 1;
        after = run.open(number, engine, &opening);
    }
    run.tally
}

/// Stops a build without overflow checks: there the Rust takes a write past 2^64-1.
pub fn check_build() {
    let opening = Opening {
        chip_len: 4096,
        buffer_len: 4096,
        scratch_base: 65_536,
        ..Opening::default()
    };
    let mut input = Vec::new();
    push(&mut input, OPEN_STORAGE, &opening.body());
    push(&mut input, PUT, &[0xFF; 9]);
    let mut out = Vec::new();
    run(&input, Options::default(), &mut out);
    assert_eq!(out, b"0 open 0\n1 panic\n", "built without overflow checks");
}

impl Run<'_, '_> {
    /// Prints one or more lines that belong to a record.
    fn print(&mut self, number: u64, lines: &str) {
        for line in lines.split('\n') {
            self.out.extend(number.to_string().as_bytes());
            self.out.push(b' ');
            self.out.extend(line.as_bytes());
            self.out.push(b'\n');
        }
    }

    /// The records up to the next opening, all answered with `word`, or with nothing. A poke beside
    /// the scratch of that length is still bad.
    fn rest(&mut self, word: Option<&str>, scratch: Option<usize>) -> After {
        loop {
            match self.reader.next() {
                Next::End => return After::End,
                Next::Bad(number) => {
                    self.print(number, "bad");
                    return After::End;
                }
                Next::Record(record) => {
                    if let Some(after) = opened(&record) {
                        return after;
                    }
                    if let Some(scratch) = scratch
                        && record.kind == POKE
                        && long(record.body) as usize + record.body.len() - 4 > scratch
                    {
                        self.print(record.number, "bad");
                        return After::End;
                    }
                    if let Some(word) = word {
                        self.print(record.number, word);
                    }
                }
            }
        }
    }

    fn skip(&mut self, number: u64, why: &'static str, opening: &Opening) -> After {
        *self.tally.skips.entry(why).or_default() += 1;
        self.print(number, &format!("skip {why}"));
        self.rest(None, Some(opening.scratch_len as usize))
    }

    /// An opening and the records behind it.
    fn open(&mut self, number: u64, engine: bool, opening: &Opening) -> After {
        let refusal = opening.refusal(engine);
        if refusal != 0 {
            self.print(number, &format!("open {refusal}"));
            return self.rest(Some("none"), None);
        }
        // A storage has no use for the table.
        let table = if engine { &opening.table[..] } else { &[] };
        let Ok(table) = str::from_utf8(table) else {
            return self.skip(number, "table", opening);
        };
        let nor = opening.device == NOR;
        let own = nor || opening.figure == opening.own_capacity();
        if !own && !self.options.figure {
            return self.skip(number, "figure", opening);
        }
        let Some(scratch) = Scratch::new(opening.scratch_base, opening.scratch_len) else {
            return self.skip(number, "scratch", opening);
        };
        // The storage below is the only one and is dropped first.
        let lent = unsafe { scratch.lend() };

        let names = opening.names().map(leaked);
        let partitions: Vec<Partition> = names
            .zip(opening.offsets.iter().zip(&opening.sizes))
            .map(|(name, (&offset, &size))| Partition { name, offset, size })
            .collect();
        let mut buffer = vec![0; opening.buffer_len as usize];
        let chip = Rc::new(RefCell::new(Chip {
            bytes: opening.chip_bytes(),
            calls: 0,
            held: None,
            faults: opening.faults.clone(),
            marks: opening.marks.clone(),
            page: opening.page as usize,
            pages: opening.pages as usize,
            blocks: opening.blocks as usize,
            figure: None,
            sector: buffer.as_ptr() as usize,
        }));
        self.print(number, "open 0");

        let own_stage = if nor { 2 } else { 1 };
        let boot_stage = (opening.boot_stage != own_stage).then_some(opening.boot_stage);
        let media_dev_id = (opening.media_dev_id != 0).then_some(opening.media_dev_id);
        if nor {
            let inner = NorUpgStorage::new(Nor(chip.clone()), &mut buffer, lent, &partitions);
            let wrapped = Wrapped {
                inner,
                chip: chip.clone(),
                boot_stage,
                media_dev_id,
                page: 0,
                lookup: None,
            };
            return self.opened(engine, wrapped, &chip, &scratch, table);
        }
        let flash = || Nand(chip.clone());
        let (inner, lookup) = if own {
            (NandUpgStorage::new(flash(), lent, &partitions), None)
        } else {
            // Made without partitions, by a chip that says the figure, the storage has the figure
            // for its capacity. A second storage, used for nothing else, looks names up.
            chip.borrow_mut().figure = Some(opening.figure);
            let inner = NandUpgStorage::new(flash(), lent, &[]);
            chip.borrow_mut().figure = None;
            let lookup = NandUpgStorage::new(flash(), &mut [], &partitions);
            let lookup: Box<dyn StorageBackend> = Box::new(lookup);
            (inner, Some(lookup))
        };
        let wrapped = Wrapped {
            inner,
            chip: chip.clone(),
            boot_stage,
            media_dev_id,
            page: opening.page as u64,
            lookup,
        };
        self.opened(engine, wrapped, &chip, &scratch, table)
    }

    fn opened<S: StorageBackend + Peek>(
        &mut self,
        engine: bool,
        mut storage: Wrapped<'_, S>,
        chip: &Shared,
        scratch: &Scratch,
        table: &str,
    ) -> After {
        if engine {
            let mut engine = Engine::new(&mut storage, leaked(table));
            let mut state = State::Cbw;
            self.calls(chip, scratch, |record| {
                on_engine(&mut engine, &mut state, record)
            })
        } else {
            self.calls(chip, scratch, |record| on_storage(&mut storage, record))
        }
    }

    /// The records behind an accepted opening. `answer` gives None for kinds that aren't for it.
    fn calls(
        &mut self,
        chip: &Shared,
        scratch: &Scratch,
        mut answer: impl FnMut(Record<'_>) -> Option<String>,
    ) -> After {
        loop {
            let record = match self.reader.next() {
                Next::End => return After::End,
                Next::Bad(number) => {
                    self.print(number, "bad");
                    return After::End;
                }
                Next::Record(record) => record,
            };
            if let Some(after) = opened(&record) {
                return after;
            }
            let lines = match record.kind {
                POKE => {
                    let (place, bytes) = (long(record.body), &record.body[4..]);
                    if !scratch.holds(place, bytes.len()) {
                        self.print(record.number, "bad");
                        return After::End;
                    }
                    scratch.poke(place, bytes);
                    Some("poke".to_string())
                }
                LOOK => Some(look(chip, scratch)),
                _ => match quietly(|| answer(record)) {
                    Ok(lines) => lines,
                    Err(why) => {
                        *self.tally.panics.entry(why).or_default() += 1;
                        self.print(record.number, "panic");
                        return self.rest(None, Some(scratch.len()));
                    }
                },
            };
            self.print(record.number, lines.as_deref().unwrap_or("none"));
        }
    }
}

fn opened(record: &Record<'_>) -> Option<After> {
    let engine = match record.kind {
        OPEN_STORAGE => false,
        OPEN_ENGINE => true,
        _ => return None,
    };
    let opening = Opening::parse(record.body)?;
    Some(After::Open(record.number, engine, opening))
}

fn look(chip: &Shared, scratch: &Scratch) -> String {
    let chip = chip.borrow();
    let held = match chip.held {
        Some(address) => address.to_string(),
        None => "none".to_string(),
    };
    let (of_chip, of_scratch) = (crc32(&chip.bytes), crc32(&scratch.copy()));
    format!("look {} {of_chip:08x} {of_scratch:08x} {held}", chip.calls)
}

/// Kinds 32 to 38.
fn on_storage(storage: &mut impl StorageBackend, record: Record<'_>) -> Option<String> {
    let body = record.body;
    let said = |ok| if ok { "ok" } else { "fail" };
    Some(match record.kind {
        FLUSH => format!("flush {}", said(storage.flush())),
        ERASE => {
            let ok = storage.erase(quad(body), quad(&body[8..]));
            format!("erase {}", said(ok))
        }
        PUT => format!("put {}", storage.write(quad(body), &body[8..])),
        GET => {
            let mut room = vec![0; word(&body[8..]) as usize];
            let count = storage.read(quad(body), &mut room);
            with_hex("get", &room[..count])
        }
        FROM | INTO => {
            let place = long(&body[8..]) as usize;
            let len = long(&body[12..]) as usize;
            if record.kind == FROM {
                let count = storage.write_from_scratch(quad(body), place, len);
                format!("from {count}")
            } else {
                let count = storage.read_into_scratch(quad(body), place, len);
                format!("into {count}")
            }
        }
        AT => {
            let found = str::from_utf8(body).ok();
            match found.and_then(|name| storage.partition_offset(name)) {
                Some(offset) => format!("at {offset}"),
                None => "at nothing".to_string(),
            }
        }
        _ => return None,
    })
}

/// Kinds 1 to 5.
fn on_engine(engine: &mut Engine<'_>, state: &mut State, record: Record<'_>) -> Option<String> {
    let body = record.body;
    Some(match record.kind {
        WRITE => format!("write {}", engine.transport_write(body)),
        READ => {
            let mut room = vec![0; word(body) as usize];
            let count = engine.transport_read(&mut room);
            with_hex("read", &room[..count])
        }
        RESET => {
            engine.reset();
            "reset".to_string()
        }
        PACKET => {
            if let State::Closed = state {
                return Some("closed".to_string());
            }
            let mut sent = Vec::new();
            *state = step(*state, engine, body, &mut sent);
            let mut lines = format!("packet {}", body.len());
            for packet in sent {
                lines += "\nin ";
                push_hex(&mut lines, &packet);
            }
            lines
        }
        FLAGS => {
            let flags = [engine.host_upgrading(), engine.reset_requested()];
            format!("flags {} {}", flags[0] as u8, flags[1] as u8)
        }
        _ => return None,
    })
}

/// A word, the count of bytes, and the bytes if any.
pub fn with_hex(word: &str, bytes: &[u8]) -> String {
    let mut line = format!("{word} {}", bytes.len());
    if !bytes.is_empty() {
        line.push(' ');
        push_hex(&mut line, bytes);
    }
    line
}

pub fn push_hex(line: &mut String, bytes: &[u8]) {
    const DIGITS: &[u8; 16] = b"0123456789abcdef";
    for byte in bytes {
        line.push(DIGITS[(byte >> 4) as usize] as char);
        line.push(DIGITS[(byte & 15) as usize] as char);
    }
}

/// The Rust wants names and the table text for ever: each text is kept once.
fn leaked(text: &str) -> &'static str {
    thread_local! {
        static KEPT: RefCell<HashSet<&'static str>> = RefCell::default();
    }
    KEPT.with_borrow_mut(|kept| match kept.get(text) {
        Some(text) => text,
        None => {
            let text: &'static str = Box::leak(text.into());
            kept.insert(text);
            text
        }
    })
}
