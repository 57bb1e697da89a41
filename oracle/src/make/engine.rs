//! Sessions over kind 17: what hosts send, good and bad, cut anyhow.

use super::frames::{SEND, frame, header, meta, shell};
use super::lines::line;
use super::openings::{World, opening, spoil};
use super::{Input, Rng};

/// One thing a host does.
pub enum Act {
    /// Bytes that belong together, cut by whoever sends them.
    Send(Vec<u8>),
    Reset,
    Poke(u32, Vec<u8>),
}

/// Opens an engine. None if the opening is refused.
pub fn open(rng: &mut Rng, input: &mut Input) -> Option<World> {
    let mut opening = opening(rng, input.device, true);
    if rng.percent(3) {
        for _ in 0..rng.pick(&[1, 1, 2]) {
            spoil(rng, &mut opening);
        }
    }
    input.open_engine(&opening);
    if opening.refusal(true) != 0 {
        for _ in 0..rng.within(0, 3) {
            match rng.case(&[1, 1, 1, 1, 1]) {
                0 => input.look(),
                1 => input.flags(),
                2 => input.packet(b"none"),
                3 => input.reset(),
                _ => input.write(b"none"),
            }
        }
        return None;
    }
    Some(World::of(opening))
}

pub fn session(rng: &mut Rng, input: &mut Input) {
    let Some(world) = open(rng, input) else {
        return;
    };
    let count = if world.small() {
        rng.within(2, 9)
    } else {
        rng.within(1, 3)
    };
    for _ in 0..count {
        for act in acts(rng, &world) {
            perform(rng, &world, act, input);
        }
    }
    match rng.case(&[97, 1, 2]) {
        0 => {}
        // Not for an engine.
        1 => {
            input.at(b"app");
            input.flush();
        }
        // The Rust panics if offset plus length passes 2^64-1.
        _ => {
            let base = world.opening.scratch_base;
            let line = format!(
                "bdwrite 0 0xffffffffffffff{:02x} 200 {base}",
                rng.next() as u8
            );
            input.reset();
            input.write(&shell(&line));
        }
    }
}

/// Hands an act to the engine by writes, with reads, flags and looks behind it.
pub fn perform(rng: &mut Rng, world: &World, act: Act, input: &mut Input) {
    match act {
        Act::Send(bytes) => writes(rng, &bytes, input),
        Act::Reset => input.reset(),
        Act::Poke(place, bytes) => input.poke(place, &bytes),
    }
    after(rng, world, input);
}

fn after(rng: &mut Rng, world: &World, input: &mut Input) {
    match rng.case(&[70, 10, 8, 12]) {
        0 => input.read(4112),
        1 => {
            input.read(rng.length(200) as u16);
            input.read(rng.pick(&[0, 16, 4, 4112]));
            input.read(4112);
        }
        // A room of any size, and what is left.
        2 => {
            input.read(rng.within(0, 4112) as u16);
            input.read(rng.length(4112) as u16);
            input.read(4112);
        }
        _ => {}
    }
    if rng.percent(35) {
        input.flags();
    }
    if rng.percent(if world.small() { 60 } else { 30 }) {
        input.look();
    }
}

fn writes(rng: &mut Rng, bytes: &[u8], input: &mut Input) {
    let mut rest = bytes;
    let size = match rng.case(&[50, 15, 10, 15, 10]) {
        0 => 4096,
        1 => 512,
        2 if bytes.len() < 60 => 1,
        2 => 100,
        3 => rng.within(1, bytes.len().clamp(1, 4096) as u64) as usize,
        _ => 0,
    };
    loop {
        let most = rest.len().min(4096) as u64;
        let take = match size {
            0 => rng.within(most.min(1 + most / 20), most) as usize,
            _ => size.min(most as usize),
        };
        input.write(&rest[..take]);
        rest = &rest[take..];
        if rest.is_empty() {
            return;
        }
        if rng.percent(8) {
            match rng.case(&[4, 2, 1, 1]) {
                0 => input.read(rng.pick(&[4112, 4112, 7])),
                1 => input.look(),
                2 => input.flags(),
                _ => input.write(&[]),
            }
        }
    }
}

/// The next things that a host does; several where they belong together.
pub fn acts(rng: &mut Rng, world: &World) -> Vec<Act> {
    let one = |bytes: Vec<u8>| vec![Act::Send(bytes)];
    match rng.case(&[26, 12, 10, 12, 20, 6, 3, 5, 4, 2, 4, 4, 3, 1]) {
        0 => update(rng, world),
        1 => one(frame(query(rng), &[])),
        2 => {
            let command = rng.within(0, 0x1F) as u8;
            let command = if rng.percent(5) {
                rng.next() as u8
            } else {
                command
            };
            one(frame(command, &short(rng)))
        }
        3 => one(memory(rng, world)),
        4 => one(shell_frame(rng, world)),
        5 => one(damaged(rng, world)),
        6 => one(oversize(rng)),
        7 => {
            let bytes = (0..rng.within(2, 4))
                .flat_map(|_| some_frame(rng, world))
                .collect();
            one(bytes)
        }
        8 => {
            // A frame that stops early; the rest never comes, or a reset does.
            let bytes = some_frame(rng, world);
            let cut = rng.within(0, bytes.len() as u64) as usize;
            let mut acts = one(bytes[..cut].to_vec());
            if rng.percent(80) {
                acts.push(Act::Reset);
            }
            acts
        }
        9 => vec![Act::Reset],
        10 => one(erase(rng, world)),
        11 => one(read_data(rng, world)),
        12 => {
            let scratch = world.opening.scratch_len as u64;
            let place = rng.within(0, scratch);
            let len = rng.length(700.min(scratch - place)) as usize;
            let bytes = rng.bytes(len);
            vec![Act::Poke(place as u32, bytes)]
        }
        _ => {
            let len = rng.length(2000) as usize;
            one(rng.bytes(len))
        }
    }
}

/// Up to 32 bytes: any, or numbers of which all but one byte are 0.
fn short(rng: &mut Rng) -> Vec<u8> {
    let len = rng.within(0, 32) as usize;
    if len == 0 || rng.percent(60) {
        return rng.bytes(len);
    }
    let mut data = vec![0; len];
    let place = rng.within(0, len as u64 - 1) as usize;
    data[place] = rng.pick(&[0, 1, 4, 24, 255]);
    data
}

/// Metadata, data and the queries behind them, mostly as a host would send them.
fn update(rng: &mut Rng, world: &World) -> Vec<Act> {
    let mut acts = vec![];
    if rng.percent(92) {
        acts.push(Act::Send(metadata(rng, world)));
    }
    if rng.percent(15) {
        let command = rng.pick(&[0x13, 0x14, 0x14, 0x15]);
        acts.push(Act::Send(frame(command, &[])));
    }
    let count = world.opening.offsets.len() as u64;
    let near = match count {
        0 => 0,
        _ => rng.pick(&world.opening.offsets),
    };
    let len = world.length(rng, near, 9_000) as usize;
    let payload = match rng.case(&[8, 1, 1]) {
        0 => rng.bytes(len),
        1 => vec![0xFF; len],
        _ => vec![0; len],
    };
    let mut said = len as u32;
    let mut send = payload;
    match rng.case(&[88, 4, 4, 2, 2]) {
        0 => {}
        // More is said than comes, and then a reset.
        1 => {
            said = rng.pick(&[said.saturating_add(1), said.saturating_add(5000), u32::MAX]);
            acts.push(Act::Send(
                [header(SEND, 0, said, 1, 1).to_vec(), send].concat(),
            ));
            acts.push(Act::Reset);
            return acts;
        }
        // Less is said than comes: the rest is read as a frame.
        2 => said = rng.within(0, said as u64) as u32,
        // The next frame stands right behind.
        3 => send.extend(some_frame(rng, world)),
        // More is said than comes, and the next frames are payload.
        _ => said = said.saturating_add(rng.within(1, 60) as u32),
    }
    let head = header(
        SEND,
        rng.pick(&[0, 0, 0, 7]),
        said,
        rng.pick(&[1, 1, 9]),
        rng.pick(&[1, 1, 0]),
    );
    if rng.percent(20) {
        acts.push(Act::Send(head.to_vec()));
        acts.push(Act::Send(send));
    } else {
        acts.push(Act::Send([head.to_vec(), send].concat()));
    }
    for command in [0x13, 0x14, 0x15] {
        if rng.percent(40) {
            acts.push(Act::Send(frame(command, &[])));
        }
    }
    if rng.percent(30) {
        let at = [near as u32, len.min(512) as u32];
        acts.push(Act::Send(pair(0x18, at, &[])));
    }
    if rng.percent(15) {
        acts.push(Act::Send(frame(0x0B, &[])));
    }
    acts
}

fn metadata(rng: &mut Rng, world: &World) -> Vec<u8> {
    let mut partition = match rng.case(&[86, 4, 4, 3, 3]) {
        0 => world.name(rng),
        1 => vec![],
        2 => vec![b'n'; rng.within(62, 64) as usize],
        3 => {
            let mut field = world.name(rng);
            field.push(0);
            field.extend(rng.bytes(20));
            field
        }
        _ => vec![rng.pick(&[0xFF, 0xC3, 0x80]); rng.within(1, 64) as usize],
    };
    partition.truncate(64);
    let mut data = meta(&partition);
    if rng.percent(50) {
        // What stands about the field doesn't matter.
        data[4..0x48].copy_from_slice(&rng.bytes(0x44));
        data[0x88..].copy_from_slice(&rng.bytes(0x178));
    }
    match rng.case(&[86, 4, 3, 3, 4]) {
        0 => {}
        1 => {
            let place = rng.within(0, 3) as usize;
            data[place] ^= 1 << rng.within(0, 7);
        }
        2 => drop(data.pop()),
        3 => {
            let len = rng.within(0, 511) as usize;
            data.truncate(len);
        }
        _ => {
            let len = rng.length(3000) as usize;
            data = [rng.bytes(len), data].concat();
        }
    }
    frame(0x10, &data)
}

/// Commands that need no data.
fn query(rng: &mut Rng) -> u8 {
    rng.pick(&[
        0x00, 0x01, 0x04, 0x06, 0x07, 0x08, 0x09, 0x0A, 0x0B, 0x0C, 0x0D, 0x0E, 0x11, 0x13, 0x14,
        0x15, 0x16, 0x17, 0x19, 0x1A, 0x1C, 0x1D, 0xFF,
    ])
}

/// Any one frame.
fn some_frame(rng: &mut Rng, world: &World) -> Vec<u8> {
    match rng.case(&[5, 2, 2, 2, 1, 1, 1]) {
        0 => frame(query(rng), &[]),
        1 => memory(rng, world),
        2 => shell_frame(rng, world),
        3 => metadata(rng, world),
        4 => erase(rng, world),
        5 => read_data(rng, world),
        _ => {
            let len = rng.length(100) as usize;
            let payload = rng.bytes(len);
            frame(SEND, &payload)
        }
    }
}

/// A frame whose data starts with two numbers.
fn pair(command: u8, numbers: [u32; 2], rest: &[u8]) -> Vec<u8> {
    let numbers = numbers.map(u32::to_le_bytes).concat();
    frame(command, &[&numbers, rest].concat())
}

/// WRITE and READ, with windows at the edges of scratch.
fn memory(rng: &mut Rng, world: &World) -> Vec<u8> {
    let base = world.opening.scratch_base;
    let len = world.opening.scratch_len;
    let place = match rng.case(&[4, 3, 2]) {
        0 => 0,
        1 => rng.within(0, len as u64) as u32,
        _ => rng.pick(&[len, len.wrapping_sub(1), len + 1, u32::MAX]),
    };
    let address = base.wrapping_add(place);
    if rng.percent(50) {
        let count = match rng.case(&[3, 4, 1]) {
            0 => len.saturating_sub(place) as u64,
            1 => rng.length(600),
            _ => len.saturating_sub(place) as u64 + 1,
        };
        let count = count.min(8184) as usize;
        let data = rng.bytes(count);
        let said = match rng.case(&[17, 1, 1, 1]) {
            0 => count as u32,
            1 => count as u32 + 1,
            2 => (count as u32).saturating_sub(1),
            _ => u32::MAX,
        };
        pair(0x02, [address, said], &data)
    } else {
        let count = match rng.case(&[3, 3, 3, 1]) {
            0 => len.saturating_sub(place),
            1 => rng.length(600) as u32,
            2 => rng.within(4095, 4114) as u32,
            _ => rng.pick(&[len.wrapping_add(1), u32::MAX, 0]),
        };
        pair(0x03, [address, count], &[])
    }
}

fn shell_frame(rng: &mut Rng, world: &World) -> Vec<u8> {
    let mut line = line(rng, world).into_bytes();
    if rng.percent(3) {
        let place = rng.within(0, line.len() as u64) as usize;
        line.insert(place, rng.pick(&[0xFF, 0x80, 0xC3]));
    }
    let len = line.len() as u32;
    let said = match rng.case(&[90, 3, 3, 1]) {
        0 => len,
        1 => len + 1,
        2 => rng.within(0, len as u64) as u32,
        _ => u32::MAX,
    };
    if rng.percent(5) {
        let more = rng.length(20) as usize;
        line.extend(rng.bytes(more));
    }
    frame(0x05, &[said.to_le_bytes().to_vec(), line].concat())
}

/// A frame with something wrong in its header, or merely odd.
fn damaged(rng: &mut Rng, world: &World) -> Vec<u8> {
    let mut bytes = some_frame(rng, world);
    match rng.case(&[6, 2, 1]) {
        0 => {
            let place = rng.within(0, 15) as usize;
            bytes[place] ^= 1 << rng.within(0, 7);
        }
        1 => {
            // A status and bytes 4 and 5 that don't matter.
            let (status, four, five) = (rng.next() as u8, rng.next() as u8, rng.next() as u8);
            let len = bytes.len() as u32 - 16;
            let head = header(bytes[6], status, len, four, five);
            bytes[..16].copy_from_slice(&head);
        }
        _ => {
            let place = rng.within(0, 15) as usize;
            bytes.insert(place, rng.next() as u8);
        }
    }
    bytes
}

/// Frames about 8,192 bytes of data, and far over.
fn oversize(rng: &mut Rng) -> Vec<u8> {
    let command = rng.pick(&[0x00, 0x02, 0x05, 0x0A, 0x10, 0x18]);
    let len = rng.pick(&[8191, 8192, 8192, 8193, 8200, 65_536, 1 << 31, u32::MAX]);
    let mut bytes = header(command, 0, len, 1, 1).to_vec();
    let count = if len <= 8192 {
        len as usize
    } else {
        rng.length(600) as usize
    };
    bytes.extend(rng.bytes(count));
    bytes
}

fn erase(rng: &mut Rng, world: &World) -> Vec<u8> {
    let start = world.offset(rng);
    let size = match rng.case(&[2, 3, 3, 1]) {
        0 => 0,
        1 => rng.within(0, 2) * world.block,
        2 => world.length(rng, start, 30_000),
        _ => rng.pick(&[u64::MAX, world.capacity.saturating_sub(start)]),
    };
    let mut data = [start.to_le_bytes(), size.to_le_bytes(), [0; 8]].concat();
    match rng.case(&[18, 1, 1]) {
        0 => {}
        1 => data.truncate(rng.pick(&[0, 8, 16, 23])),
        _ => data.extend(rng.bytes(9)),
    }
    frame(0x1B, &data)
}

fn read_data(rng: &mut Rng, world: &World) -> Vec<u8> {
    let offset = world.offset(rng);
    let len = match rng.case(&[3, 3, 1]) {
        0 => world.length(rng, offset, 700) as u32,
        1 => rng.pick(&[0, 1, 16, 511, 512, 513]),
        _ => u32::MAX,
    };
    pair(0x18, [offset as u32, len], &[])
}
