//! Inputs that end with a malformed record, and inputs with nothing open.

use super::openings::opening;
use super::{Input, Kind, Rng, fill};
use crate::record::*;

pub fn session(rng: &mut Rng, input: &mut Input) {
    if rng.percent(10) {
        input.look();
        input.flags();
    }
    if rng.percent(70) {
        let kind = rng.pick(&[Kind::Storage, Kind::Engine, Kind::Packets]);
        fill(rng, kind, input);
    }
    let numbers = |count: u64, kind: u16, rng: &mut Rng| {
        let mut bytes = vec![];
        push(&mut bytes, kind, &rng.bytes(count as usize));
        bytes
    };
    let bytes = match rng.case(&[3, 3, 3, 5, 2, 3]) {
        // An unknown kind.
        0 => {
            let kind = rng.pick(&[0, 6, 15, 18, 31, 41, 256, 0x1000, 0xFFFF]);
            let len = rng.length(10);
            numbers(len, kind, rng)
        }
        // Too long or too short for its kind.
        1 => {
            let (kind, len) = rng.pick(&[
                (WRITE, 4097),
                (READ, 0),
                (READ, 1),
                (READ, 3),
                (RESET, 1),
                (PACKET, 513),
                (FLAGS, 1),
                (FLUSH, 1),
                (ERASE, 15),
                (ERASE, 17),
                (PUT, 7),
                (PUT, 65_545),
                (GET, 9),
                (GET, 11),
                (FROM, 15),
                (INTO, 17),
                (POKE, 3),
                (LOOK, 1),
                (AT, 131_073),
            ]);
            numbers(len, kind, rng)
        }
        // A room above the limit, a poke beside any scratch.
        2 => {
            let mut bytes = vec![];
            match rng.percent(50) {
                true => push(&mut bytes, READ, &4113u16.to_le_bytes()),
                false => push(&mut bytes, POKE, &65_537u32.to_le_bytes()),
            }
            bytes
        }
        3 => spoiled_opening(rng, input.device),
        // The largest bodies that are taken.
        4 => {
            let (kind, len) = rng.pick(&[(WRITE, 4096), (PACKET, 512), (PUT, 65_544)]);
            numbers(len, kind, rng)
        }
        // A cut record.
        _ => {
            let len = rng.length(20);
            let mut bytes = numbers(len, rng.pick(&[WRITE, PUT, AT, LOOK]), rng);
            let cut = rng.within(1, bytes.len() as u64) as usize;
            bytes.truncate(bytes.len() - cut);
            input.bytes.extend(bytes);
            return;
        }
    };
    input.bytes.extend(bytes);
    input.look();
    input.flush();
}

fn spoiled_opening(rng: &mut Rng, device: Option<u8>) -> Vec<u8> {
    let mut opening = opening(rng, device, true);
    let mut body = match rng.case(&[2, 2, 2, 2, 2, 2]) {
        0 => {
            opening.device = rng.pick(&[2, 3, 255]);
            opening.body()
        }
        1 => {
            opening.modes = rng.pick(&[0x8000, 0x4000]);
            opening.body()
        }
        2 => {
            match rng.case(&[1, 1, 1]) {
                0 => opening.chip_len = 1_048_577,
                1 => opening.buffer_len = 1_048_577,
                _ => opening.scratch_len = 65_537,
            }
            opening.body()
        }
        3 => {
            let room = rng.case(&[1, 1, 1]);
            opening.rooms[room] = 16_385;
            opening.body()
        }
        _ => opening.body(),
    };
    match rng.case(&[6, 1, 1, 1]) {
        0 => {}
        1 => drop(body.pop()),
        2 => body.push(0),
        _ => body.truncate(rng.pick(&[0, 1, 65, 66])),
    }
    let mut bytes = vec![];
    push(&mut bytes, rng.pick(&[OPEN_STORAGE, OPEN_ENGINE]), &body);
    bytes
}
