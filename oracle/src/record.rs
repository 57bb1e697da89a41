//! The lab's records: u32 body length, u16 kind, body.

use crate::opening::Opening;

pub const WRITE: u16 = 1;
pub const READ: u16 = 2;
pub const RESET: u16 = 3;
pub const PACKET: u16 = 4;
pub const FLAGS: u16 = 5;
pub const OPEN_STORAGE: u16 = 16;
pub const OPEN_ENGINE: u16 = 17;
pub const FLUSH: u16 = 32;
pub const ERASE: u16 = 33;
pub const PUT: u16 = 34;
pub const GET: u16 = 35;
pub const FROM: u16 = 36;
pub const INTO: u16 = 37;
pub const AT: u16 = 38;
pub const POKE: u16 = 39;
pub const LOOK: u16 = 40;

const LONGEST_BODY: usize = 131_072;

/// One record with its number.
#[derive(Clone, Copy, Debug)]
pub struct Record<'a> {
    pub number: u64,
    pub kind: u16,
    pub body: &'a [u8],
}

/// What stands next in the input.
pub enum Next<'a> {
    End,
    Bad(u64),
    Record(Record<'a>),
}

/// Walks over the records of an input.
pub struct Reader<'a> {
    rest: &'a [u8],
    number: u64,
}

impl<'a> Reader<'a> {
    pub fn new(input: &'a [u8]) -> Self {
        Self {
            rest: input,
            number: 0,
        }
    }

    pub fn next(&mut self) -> Next<'a> {
        if self.rest.is_empty() {
            return Next::End;
        }
        let number = self.number;
        self.number += 1;
        match self.take() {
            Some((kind, body)) if shaped(kind, body) => Next::Record(Record { number, kind, body }),
            _ => Next::Bad(number),
        }
    }

    fn take(&mut self) -> Option<(u16, &'a [u8])> {
        let (head, rest) = self.rest.split_at_checked(6)?;
        let len = u32::from_le_bytes(head[..4].try_into().unwrap()) as usize;
        let kind = u16::from_le_bytes(head[4..].try_into().unwrap());
        if len > LONGEST_BODY {
            return None;
        }
        let (body, rest) = rest.split_at_checked(len)?;
        self.rest = rest;
        Some((kind, body))
    }
}

/// Whether a body has the shape of its kind, whatever is open.
fn shaped(kind: u16, body: &[u8]) -> bool {
    let len = body.len();
    match kind {
        WRITE => len <= 4096,
        READ => len == 2 && word(body) <= 4112,
        RESET | FLAGS | FLUSH | LOOK => len == 0,
        PACKET => len <= 512,
        OPEN_STORAGE | OPEN_ENGINE => Opening::parse(body).is_some(),
        ERASE | FROM | INTO => len == 16,
        PUT => (8..=8 + 65_536).contains(&len),
        GET => len == 10,
        AT => true,
        POKE => len >= 4,
        _ => false,
    }
}

/// The u16 at the front.
pub fn word(bytes: &[u8]) -> u16 {
    u16::from_le_bytes(bytes[..2].try_into().unwrap())
}

/// The u32 at the front.
pub fn long(bytes: &[u8]) -> u32 {
    u32::from_le_bytes(bytes[..4].try_into().unwrap())
}

/// The u64 at the front.
pub fn quad(bytes: &[u8]) -> u64 {
    u64::from_le_bytes(bytes[..8].try_into().unwrap())
}

/// Appends a record to an input.
pub fn push(input: &mut Vec<u8>, kind: u16, body: &[u8]) {
    input.extend((body.len() as u32).to_le_bytes());
    input.extend(kind.to_le_bytes());
    input.extend(body);
}
