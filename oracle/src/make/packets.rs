//! Sessions of packets, kind 4: CBWs good and bad, data stages cut anyhow, reads, and some calls
//! between.

use super::engine::{Act, acts, open, perform};
use super::frames::{cbw, frame, shell};
use super::openings::World;
use super::{Input, Rng};

pub fn session(rng: &mut Rng, input: &mut Input) {
    let Some(world) = open(rng, input) else {
        return;
    };
    let count = if world.small() {
        rng.within(2, 8)
    } else {
        rng.within(1, 2)
    };
    for _ in 0..count {
        match rng.case(&[56, 18, 4, 10, 6, 5, 1]) {
            0 => {
                for act in acts(rng, &world) {
                    match act {
                        Act::Send(bytes) => {
                            write_stage(rng, &bytes, input);
                            if rng.percent(75) {
                                read_stage(rng, input);
                            }
                        }
                        Act::Reset => input.reset(),
                        Act::Poke(place, bytes) => input.poke(place, &bytes),
                    }
                    after(rng, &world, input);
                }
            }
            1 => wrong_cbw(rng, input),
            2 => {
                let line = rng.pick(&["reset", "reset 0", "reset2", "bdopen 0"]);
                write_stage(rng, &shell(line), input);
                read_stage(rng, input);
                after(rng, &world, input);
            }
            3 => read_stage(rng, input),
            4 => {
                // Calls past the transport.
                for act in acts(rng, &world) {
                    perform(rng, &world, act, input);
                }
            }
            5 => {
                // A reply of several packets, read in one stage or in some.
                let most = world.opening.scratch_len.min(4096) as u64;
                let len = most - rng.length(most);
                let numbers = [world.opening.scratch_base, len as u32].map(u32::to_le_bytes);
                write_stage(rng, &frame(0x03, &numbers.concat()), input);
                for _ in 0..rng.within(1, 3) {
                    read_stage(rng, input);
                }
            }
            _ => {
                asked(rng, input);
                if rng.percent(70) {
                    return;
                }
            }
        }
    }
}

fn after(rng: &mut Rng, world: &World, input: &mut Input) {
    if rng.percent(25) {
        input.flags();
    }
    if rng.percent(if world.small() { 40 } else { 20 }) {
        input.look();
    }
    if rng.percent(6) {
        input.read(rng.pick(&[4112, 5]));
    }
}

/// A CBW whose flags, LUN and lengths don't matter.
fn odd_cbw(rng: &mut Rng, len: u32, command: u8) -> Vec<u8> {
    let mut bytes = cbw(rng.next() as u32, len, command);
    if rng.percent(20) {
        let more = rng.bytes(15);
        bytes[16..31].copy_from_slice(&more);
        bytes[12] = rng.next() as u8;
        bytes[13] = rng.next() as u8;
        bytes[14] = rng.next() as u8;
    }
    bytes
}

/// A reset that is asked for, without the CSW that closes the session at once: the next CSW for a
/// valid CBW does, and a bad CBW or an over-long packet before it does not.
fn asked(rng: &mut Rng, input: &mut Input) {
    let line = shell("reset");
    if rng.percent(50) {
        input.write(&line);
    } else {
        let said = line.len() as u32 + 1;
        input.packet(&odd_cbw(rng, said, 1));
        input.packet(&line);
        input.packet(b"ab");
    }
    input.flags();
    for _ in 0..rng.within(0, 2) {
        wrong_cbw(rng, input);
    }
    read_stage(rng, input);
    input.packet(&[]);
}

fn write_stage(rng: &mut Rng, bytes: &[u8], input: &mut Input) {
    let len = bytes.len() as u32;
    let said = match rng.case(&[86, 4, 4, 3, 3]) {
        0 => len,
        1 => len + rng.within(1, 40) as u32,
        2 => rng.within(0, len as u64) as u32,
        3 => u32::MAX,
        _ => len + 512,
    };
    input.packet(&odd_cbw(rng, said, 1));
    if rng.percent(3) {
        // The stage ends before it moved anything, or a call comes first.
        match rng.case(&[3, 1]) {
            0 => {
                input.packet(&[]);
                return;
            }
            _ => input.write(&frame(0x13, &[])),
        }
    }
    let style = rng.case(&[60, 15, 15, 10]);
    let mut left = said as usize;
    let mut rest = bytes;
    while !rest.is_empty() {
        let size = match style {
            0 => 512,
            1 => rng.within(1, 512) as usize,
            2 => rng.length(512).max(1) as usize,
            _ => 64,
        };
        let mut take = size.min(rest.len());
        // Mostly keep to what was said.
        if left > 0 && take > left && rng.percent(80) {
            take = left;
        }
        input.packet(&rest[..take]);
        left = left.saturating_sub(take);
        rest = &rest[take..];
        if rng.percent(3) {
            match rng.case(&[3, 2, 2, 1, 1, 1, 1]) {
                0 => input.packet(&[]),
                1 => input.flags(),
                2 => input.look(),
                3 => input.reset(),
                4 => input.read(20),
                // Calls past the transport: a whole frame, and a piece of what comes.
                5 => input.write(&frame(0x14, &[])),
                _ => input.write(&rest[..rest.len().min(10)]),
            }
        }
        if left == 0 && rng.percent(70) {
            break;
        }
    }
    if left > 0 {
        match rng.case(&[6, 3, 1]) {
            0 => input.packet(&[]),
            1 => {
                // Longer than its room: a failed read.
                let len = if left < 512 {
                    rng.within(left as u64 + 1, 512)
                } else {
                    512
                };
                let packet = rng.bytes(len as usize);
                input.packet(&packet);
                input.packet(&[]);
            }
            _ => {}
        }
    }
}

fn read_stage(rng: &mut Rng, input: &mut Input) {
    let len = match rng.case(&[4, 2, 2, 2, 1, 1]) {
        0 => 4112,
        1 => 16,
        2 => rng.pick(&[20, 124, 512, 513, 528]),
        3 => rng.within(0, 4200) as u32,
        4 => u32::MAX,
        _ => 0,
    };
    input.packet(&odd_cbw(rng, len, 2));
}

fn wrong_cbw(rng: &mut Rng, input: &mut Input) {
    let mut bytes = odd_cbw(rng, 0, 1);
    let len = rng.length(5000) as u32;
    bytes[8..12].copy_from_slice(&len.to_le_bytes());
    match rng.case(&[3, 3, 3, 3, 1]) {
        0 => {
            let len = rng.pick(&[0, 1, 4, 15, 16, 30, 30]);
            bytes.truncate(len);
        }
        1 => {
            let more = rng.within(1, 40) as usize;
            bytes.extend(rng.bytes(more));
        }
        2 => {
            let place = rng.within(0, 3) as usize;
            bytes[place] ^= 1 << rng.within(0, 7);
        }
        3 => bytes[15] = rng.pick(&[0, 3, 0x12, 0x28, 0x2A, 0xFF]),
        _ => {
            let len = rng.within(0, 512) as usize;
            bytes = rng.bytes(len);
        }
    }
    input.packet(&bytes);
    if rng.percent(30) {
        input.look();
        input.flags();
    }
}
