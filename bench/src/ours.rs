//! The proved engine, through its static library (include/lamjhotu.h).

use crate::{BASE, CHIP, Side};

/// The library's functions.
#[allow(dead_code)]
mod lamjhotu {
    include!("../../include/lamjhotu.rs");
}
use lamjhotu::*;

/// An engine over a NOR with the partition `app`, and all that is lent to it.
pub struct Ours {
    record: Vec<u8>,
    request: Vec<u8>,
    reply: Vec<u8>,
    chip: Vec<u8>,
    buffer: Vec<u8>,
    scratch: Vec<u8>,
}

const OFFSETS: [u64; 1] = [0];
const SIZES: [u64; 1] = [CHIP as u64];
const LENS: [u64; 1] = [3];
const NAMES: &[u8] = b"app";
const NONE: &[u8] = &[];

impl Ours {
    pub fn open() -> Self {
        let mut side = Ours {
            record: vec![0; record_len()],
            request: vec![0; REQUEST_LEN],
            reply: vec![0; REPLY_LEN],
            chip: vec![0xFF; CHIP],
            buffer: vec![0; BUFFER_LEN],
            scratch: vec![0; 4096],
        };
        let number = open_nor(
            &mut side.record,
            &side.request,
            &side.reply,
            &side.chip,
            &side.buffer,
            &OFFSETS,
            &SIZES,
            &LENS,
            NAMES,
            BASE,
            &side.scratch,
            0,
            0,
        );
        assert_eq!(number, DONE, "the opening is refused");
        side
    }
}

impl Side for Ours {
    fn write(&mut self, bytes: &[u8]) -> u8 {
        write(
            &mut self.record,
            &mut self.request,
            NONE,
            NONE,
            &OFFSETS,
            &SIZES,
            &LENS,
            NAMES,
            NONE,
            &mut self.chip,
            &mut self.buffer,
            &mut self.scratch,
            &mut self.reply,
            bytes,
        )
    }

    fn read(&mut self, room: &mut [u8]) -> usize {
        let count = read(
            &mut self.record,
            &self.request,
            &self.reply,
            &self.chip,
            &self.buffer,
            &self.scratch,
            NONE,
            &OFFSETS,
            &SIZES,
            &LENS,
            NAMES,
            room,
        );
        assert_ne!(count, NO_COUNT, "the read is refused");
        count as usize
    }

    fn flash(&self) -> Vec<u8> {
        self.chip.clone()
    }
}

/// The proved CRC-32.
pub fn crc32(bytes: &[u8]) -> u32 {
    lamjhotu::crc32(0, bytes)
}
