//! An engine of the static library (include/lamjhotu.h) and all that is lent to it.

use harness::crc;
use harness::opening::{NOR, Opening};
use harness::record::quad;

/// The library's functions.
#[allow(dead_code)]
mod lamjhotu {
    include!("../../../include/lamjhotu.rs");
}
use lamjhotu::*;

/// The shortest room for a sent packet.
const SENT_LEN: usize = 4125;
/// A record before its opening, and a room before a read, are full of this byte.
const FILL: u8 = 0xA5;
/// Where the record has the held address, the number of the next chip call, and whether one is held.
const HELD_ADDRESS: usize = 88;
const NEXT_CALL: usize = 104;
const HELD: usize = 137;

/// The opening has the lists, names, marks, faults and table.
#[derive(Clone, PartialEq)]
pub struct Engine {
    opening: Opening,
    record: Vec<u8>,
    request: Vec<u8>,
    reply: Vec<u8>,
    chip: Vec<u8>,
    buffer: Vec<u8>,
    scratch: Vec<u8>,
}

impl Engine {
    /// 0 and the engine, or the number of the refusal.
    pub fn open(opening: Opening) -> (u8, Option<Self>) {
        let [request, reply, sent] = opening.rooms.map(usize::from);
        // The library has no such room. The lab tests it with the other two.
        if sent < SENT_LEN {
            return (REFUSED, None);
        }
        assert_eq!(record_len(), RECORD_LEN);
        let nor = opening.device == NOR;
        let buffer = opening.buffer_len as usize;
        let mut engine = Self {
            record: vec![FILL; RECORD_LEN],
            request: vec![0; request],
            reply: vec![0; reply],
            chip: opening.chip_bytes(),
            buffer: vec![0; if nor { buffer } else { buffer.max(BUFFER_LEN) }],
            scratch: vec![0; opening.scratch_len as usize],
            opening,
        };
        let before = engine.clone();
        let number = if nor {
            engine.open_nor()
        } else {
            engine.open_nand()
        };
        if number != DONE {
            assert!(engine == before, "a refused opening changed bytes");
            return (number, None);
        }
        (number, Some(engine))
    }

    fn open_nor(&mut self) -> u8 {
        let o = &self.opening;
        open_nor(
            &mut self.record,
            &self.request,
            &self.reply,
            &self.chip,
            &self.buffer,
            &o.offsets,
            &o.sizes,
            &o.name_lens,
            &o.names,
            o.scratch_base,
            &self.scratch,
            o.boot_stage,
            o.media_dev_id,
        )
    }

    fn open_nand(&mut self) -> u8 {
        let o = &self.opening;
        open_nand(
            &mut self.record,
            &self.request,
            &self.reply,
            &self.chip,
            o.page.into(),
            o.pages.into(),
            o.blocks.into(),
            &o.marks,
            o.figure,
            &o.offsets,
            &o.sizes,
            &o.name_lens,
            &o.names,
            o.scratch_base,
            &self.scratch,
            o.boot_stage,
            o.media_dev_id,
        )
    }

    /// The status; None for a refusal.
    pub fn write(&mut self, bytes: &[u8]) -> Option<u8> {
        let before = self.clone();
        let o = &self.opening;
        let status = write(
            &mut self.record,
            &mut self.request,
            &o.faults,
            &o.marks,
            &o.offsets,
            &o.sizes,
            &o.name_lens,
            &o.names,
            &o.table,
            &mut self.chip,
            &mut self.buffer,
            &mut self.scratch,
            &mut self.reply,
            bytes,
        );
        if status == REFUSED {
            assert!(*self == before, "a refused write changed bytes");
            return None;
        }
        Some(status)
    }

    /// The bytes read; None for a refusal.
    pub fn read(&mut self, room: u16) -> Option<Vec<u8>> {
        let before = self.clone();
        let mut room = vec![FILL; room.into()];
        let o = &self.opening;
        let count = read(
            &mut self.record,
            &self.request,
            &self.reply,
            &self.chip,
            &self.buffer,
            &self.scratch,
            &o.marks,
            &o.offsets,
            &o.sizes,
            &o.name_lens,
            &o.names,
            &mut room,
        );
        let refused = count == NO_COUNT;
        let rest = room.split_off(if refused { 0 } else { count as usize });
        assert!(rest.iter().all(|&byte| byte == FILL), "bytes behind a read");
        if refused {
            assert!(*self == before, "a refused read changed bytes");
            return None;
        }
        Some(room)
    }

    /// False for a refusal.
    pub fn reset(&mut self) -> bool {
        reset(&mut self.record) == DONE
    }

    /// host_upgrading and reset_requested; None for a refusal.
    pub fn flags(&self) -> Option<[u8; 2]> {
        let flags = [host_upgrading(&self.record), reset_requested(&self.record)];
        (!flags.contains(&REFUSED)).then_some(flags)
    }

    /// Changes bytes of scratch. False if they are not inside.
    pub fn poke(&mut self, place: usize, bytes: &[u8]) -> bool {
        let Some(part) = self.scratch.get_mut(place..place + bytes.len()) else {
            return false;
        };
        part.copy_from_slice(bytes);
        true
    }

    /// The line of a look, by the record's bytes.
    pub fn look(&self) -> String {
        let calls = quad(&self.record[NEXT_CALL..]);
        let held = match self.record[HELD] {
            0 => "none".to_string(),
            _ => quad(&self.record[HELD_ADDRESS..]).to_string(),
        };
        let (chip, scratch) = (crc::crc32(&self.chip), crc::crc32(&self.scratch));
        format!("look {calls} {chip:08x} {scratch:08x} {held}")
    }
}
