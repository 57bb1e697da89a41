//! The generator of records: a seed, a number and a kind give a session, that is an opening and the
//! calls behind it.

mod engine;
mod exhaustive;
mod frames;
mod lines;
mod openings;
mod packets;
mod rng;
mod shapes;
mod storage;

pub use frames::{SEND, cbw, frame, header, meta, shell};
pub use rng::Rng;

use crate::opening::{NAND, NOR, Opening};
use crate::record::*;

/// A kind of sessions, on any device or on one only.
#[derive(Clone, Copy, Debug)]
pub struct Plan {
    pub kind: Kind,
    pub device: Option<u8>,
}

/// The kinds of sessions.
#[derive(Clone, Copy, Debug, PartialEq, Eq)]
pub enum Kind {
    /// Calls on a storage.
    Storage,
    /// Calls on an engine.
    Engine,
    /// Packets to an engine, with some calls between.
    Packets,
    /// Any of these, then a malformed record that ends the run, and records behind it.
    Shapes,
    /// All of some short ranges, whatever the seed.
    Exhaustive,
    /// Those of them that are calls on an engine.
    ExhaustiveEngine,
}

impl Plan {
    /// A kind's name, with `:nor` or `:nand` behind it for one device.
    pub fn parse(name: &str) -> Option<Self> {
        let (name, device) = match name.split_once(':') {
            None => (name, None),
            Some((name, "nor")) => (name, Some(NOR)),
            Some((name, "nand")) => (name, Some(NAND)),
            Some(_) => return None,
        };
        let kind = match name {
            "storage" => Kind::Storage,
            "engine" => Kind::Engine,
            "packets" => Kind::Packets,
            "shapes" => Kind::Shapes,
            "exhaustive" => Kind::Exhaustive,
            "exhaustive-engine" => Kind::ExhaustiveEngine,
            _ => return None,
        };
        Some(Self { kind, device })
    }

    /// How many sessions there are where so many are asked for.
    pub fn count(self, asked: u64) -> u64 {
        match self.kind {
            Kind::Exhaustive | Kind::ExhaustiveEngine => exhaustive::count(self),
            _ => asked,
        }
    }

    /// What a session belongs to, for the kinds that have parts.
    pub fn part(self, number: u64) -> Option<String> {
        match self.kind {
            Kind::Exhaustive | Kind::ExhaustiveEngine => Some(exhaustive::name(self, number)),
            _ => None,
        }
    }
}

/// The records of one session.
pub fn session(seed: u64, number: u64, plan: Plan) -> Vec<u8> {
    let mut rng = Rng::of(&[seed, number, plan.kind as u64]);
    let mut input = Input {
        device: plan.device,
        ..Input::default()
    };
    match plan.kind {
        Kind::Exhaustive | Kind::ExhaustiveEngine => exhaustive::session(plan, number, &mut input),
        kind => fill(&mut rng, kind, &mut input),
    }
    input.bytes
}

fn fill(rng: &mut Rng, kind: Kind, input: &mut Input) {
    match kind {
        Kind::Storage => storage::session(rng, input),
        Kind::Engine => engine::session(rng, input),
        Kind::Packets => packets::session(rng, input),
        Kind::Shapes => shapes::session(rng, input),
        Kind::Exhaustive | Kind::ExhaustiveEngine => {
            unreachable!("nothing there is left to the seed")
        }
    }
}

/// Records in the making.
#[derive(Default)]
pub struct Input {
    pub bytes: Vec<u8>,
    /// The one device that openings have, if not any.
    pub device: Option<u8>,
}

impl Input {
    fn push(&mut self, kind: u16, parts: &[&[u8]]) {
        push(&mut self.bytes, kind, &parts.concat());
    }

    pub fn open_storage(&mut self, opening: &Opening) {
        self.push(OPEN_STORAGE, &[&opening.body()]);
    }

    pub fn open_engine(&mut self, opening: &Opening) {
        self.push(OPEN_ENGINE, &[&opening.body()]);
    }

    pub fn write(&mut self, bytes: &[u8]) {
        self.push(WRITE, &[bytes]);
    }

    pub fn read(&mut self, room: u16) {
        self.push(READ, &[&room.to_le_bytes()]);
    }

    pub fn reset(&mut self) {
        self.push(RESET, &[]);
    }

    pub fn packet(&mut self, bytes: &[u8]) {
        self.push(PACKET, &[bytes]);
    }

    pub fn flags(&mut self) {
        self.push(FLAGS, &[]);
    }

    pub fn flush(&mut self) {
        self.push(FLUSH, &[]);
    }

    pub fn erase(&mut self, start: u64, size: u64) {
        self.push(ERASE, &[&start.to_le_bytes(), &size.to_le_bytes()]);
    }

    pub fn put(&mut self, offset: u64, bytes: &[u8]) {
        self.push(PUT, &[&offset.to_le_bytes(), bytes]);
    }

    pub fn get(&mut self, offset: u64, room: u16) {
        self.push(GET, &[&offset.to_le_bytes(), &room.to_le_bytes()]);
    }

    pub fn from(&mut self, offset: u64, place: u32, len: u32) {
        let numbers = [place.to_le_bytes(), len.to_le_bytes()].concat();
        self.push(FROM, &[&offset.to_le_bytes(), &numbers]);
    }

    pub fn into(&mut self, offset: u64, place: u32, len: u32) {
        let numbers = [place.to_le_bytes(), len.to_le_bytes()].concat();
        self.push(INTO, &[&offset.to_le_bytes(), &numbers]);
    }

    pub fn at(&mut self, name: &[u8]) {
        self.push(AT, &[name]);
    }

    pub fn poke(&mut self, place: u32, bytes: &[u8]) {
        self.push(POKE, &[&place.to_le_bytes(), bytes]);
    }

    pub fn look(&mut self) {
        self.push(LOOK, &[]);
    }
}
