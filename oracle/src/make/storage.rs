//! Sessions over kind 16: calls on a storage.

use super::openings::{World, opening, spoil};
use super::{Input, Rng};

pub fn session(rng: &mut Rng, input: &mut Input) {
    let mut opening = opening(rng, input.device, false);
    if rng.percent(8) {
        for _ in 0..rng.pick(&[1, 1, 2]) {
            spoil(rng, &mut opening);
        }
    }
    input.open_storage(&opening);
    if opening.refusal(false) != 0 {
        for _ in 0..rng.within(0, 3) {
            match rng.case(&[1, 1, 1, 1]) {
                0 => input.look(),
                1 => input.flush(),
                2 => input.poke(70_000, b"z"),
                _ => input.write(b"none"),
            }
        }
        return;
    }
    let world = World::of(opening);
    input.look();
    let count = if world.small() {
        rng.within(5, 40)
    } else {
        rng.within(3, 10)
    };
    // Where the last write ended, so that writes follow one another.
    let mut end = world.offset(rng);
    for _ in 0..count {
        // Long at first, then short.
        let most = 10_000u64.saturating_sub(input.bytes.len() as u64).max(40);
        call(rng, &world, &mut end, most, input);
        if rng.percent(if world.small() { 70 } else { 30 }) {
            input.look();
        }
    }
    if rng.percent(2) {
        // The Rust panics if offset plus length passes 2^64-1.
        let offset = u64::MAX - rng.length(300);
        match rng.case(&[1, 1]) {
            0 => input.put(offset, &[1; 200]),
            _ => input.from(offset, 0, 300),
        }
    }
}

fn call(rng: &mut Rng, world: &World, end: &mut u64, most: u64, input: &mut Input) {
    let scratch = world.opening.scratch_len as u64;
    let offset = if rng.percent(45) {
        *end
    } else {
        world.offset(rng)
    };
    match rng.case(&[34, 14, 10, 10, 9, 10, 4, 8, 1]) {
        0 => {
            let len = world.length(rng, offset, most) as usize;
            let bytes = match rng.percent(80) {
                true => rng.bytes(len),
                false => vec![rng.pick(&[0xFF, 0x00]); len],
            };
            input.put(offset, &bytes);
            *end = offset + len as u64;
        }
        1 => {
            let offset = match rng.case(&[8, 1, 1]) {
                0 => offset,
                1 => u64::MAX - rng.length(5),
                _ => world.offset(rng),
            };
            let room = world.length(rng, offset, 9_000) as u16;
            input.get(offset, room);
        }
        2 => {
            let (place, len) = piece(rng, world, offset);
            input.from(offset, place, len);
            let moved = scratch.saturating_sub(place as u64).min(len as u64);
            *end = offset + moved;
        }
        3 => {
            let (place, len) = piece(rng, world, offset);
            input.into(offset, place, len);
        }
        4 => {
            let start = world.offset(rng);
            let size = match rng.case(&[2, 3, 2, 2, 1]) {
                0 => 0,
                1 => rng.within(0, 3) * world.block,
                2 => world.length(rng, start, 100_000),
                3 => world.capacity.saturating_sub(start),
                _ => rng.pick(&[u64::MAX, 1 << 31, u64::MAX - start, 1]),
            };
            input.erase(start, size);
        }
        5 => input.flush(),
        6 => input.at(&world.name(rng)),
        7 => {
            let place = rng.within(0, scratch);
            let len = rng.length(600.min(scratch - place)) as usize;
            let bytes = rng.bytes(len);
            input.poke(place as u32, &bytes);
        }
        // Not for a storage.
        _ => match rng.case(&[1, 1, 1]) {
            0 => input.read(16),
            1 => input.reset(),
            _ => input.packet(b"none"),
        },
    }
}

/// A place in scratch and a length.
fn piece(rng: &mut Rng, world: &World, offset: u64) -> (u32, u32) {
    let scratch = world.opening.scratch_len as u64;
    let place = match rng.case(&[5, 3, 1, 1]) {
        0 => 0,
        1 => rng.within(0, scratch),
        2 => scratch.saturating_add_signed(rng.pick(&[-1, 0, 1])),
        _ => rng.pick(&[u32::MAX as u64, 1 << 31]),
    };
    let len = match rng.case(&[4, 3, 2, 1]) {
        0 => world.length(rng, offset, 9_000),
        1 => rng.pick(&[0, 1, 255, 256, 257, 511, 512, 513, 768]),
        2 => scratch,
        _ => u32::MAX as u64,
    };
    (place as u32, len as u32)
}
