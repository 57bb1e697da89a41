//! All of a short range instead of some of a long one: every command with every short length, every
//! cut of an update, every failing chip call, every damaged byte of a header and of a CBW. Nothing
//! here follows from a seed.

use std::sync::OnceLock;

use super::frames::{SEND, cbw, frame, header, meta, shell};
use super::{Input, Kind, Plan, Rng};
use crate::opening::{NAND, NOR, Opening};
use crate::run::{Options, run};

/// Sessions of one sort.
struct Family {
    name: &'static str,
    count: fn(u8) -> u64,
    make: fn(u8, u64, &mut Input),
}

/// Calls on an engine.
const CALLS: [Family; 14] = [
    Family {
        name: "commands, engine just opened",
        count: |_| COMMANDS,
        make: |device, n, input| commands(device, n, false, input),
    },
    Family {
        name: "commands, behind metadata",
        count: |_| COMMANDS,
        make: |device, n, input| commands(device, n, true, input),
    },
    Family {
        name: "cuts of the update of 5,000 bytes",
        count: |_| update().len() as u64 + 1,
        make: |device, n, input| cuts(device, update(), n, input),
    },
    Family {
        name: "cuts of an update of 4,096 bytes in all, two writes each",
        count: |_| LONGEST_WRITE as u64 + 1,
        make: |device, n, input| cuts(device, &one_write(), n, input),
    },
    Family {
        name: "one chip call fails",
        count: |device| (0..SCENES).map(|scene| calls(device, scene)).sum(),
        make: one_fails,
    },
    Family {
        name: "two of the first 20 chip calls fail",
        count: |_| SCENES * PAIRS,
        make: two_fail,
    },
    Family {
        name: "every chip call from one on fails",
        count: |device| (0..SCENES).map(|scene| calls(device, scene)).sum(),
        make: all_fail,
    },
    Family {
        name: "first writes of 0, 1 and 2 bytes",
        count: |_| 1 + 256 + 65_536,
        make: first_write,
    },
    Family {
        name: "headers with one byte changed",
        count: |_| 2 * 16 * 256,
        make: changed_header,
    },
    Family {
        name: "reads of a reply in two parts, by calls",
        count: |_| 601,
        make: |device, n, input| reads(device, n as u16, false, input),
    },
    Family {
        name: "windows of READ, WRITE, bdread and bdwrite about scratch",
        count: |_| 4 * 46 * 46,
        make: windows,
    },
    Family {
        name: "windows of get_bootdevice about scratch",
        count: |_| 105 * 104,
        make: tables,
    },
    Family {
        name: "frames with about 8,192 bytes of data",
        count: |_| LONG_COMMANDS.len() as u64 * 101,
        make: long_frames,
    },
    Family {
        name: "replies with about 4,096 bytes of data",
        count: |_| 2 * 61,
        make: long_replies,
    },
];

/// Packets to an engine, and calls on a storage.
const OTHERS: [Family; 4] = [
    Family {
        name: "CBWs with one byte changed",
        count: |_| 2 * 31 * 256,
        make: changed_cbw,
    },
    Family {
        name: "cuts of a short update in packets",
        count: |_| 3 * (short_update().len() as u64 + 1),
        make: packet_cuts,
    },
    Family {
        name: "reads of a reply in two parts, by packets",
        count: |_| 601,
        make: |device, n, input| reads(device, n as u16, true, input),
    },
    Family {
        name: "storage calls at every offset",
        count: |device| LENGTHS * (small(device).chip_len as u64 + 2),
        make: offsets,
    },
];

/// 256 commands, data of 0 to 32 bytes, three patterns.
const COMMANDS: u64 = 256 * 33 * 3;
/// Ways in which the update is sent where chip calls fail.
const SCENES: u64 = 6;
/// Pairs out of 20.
const PAIRS: u64 = 190;
/// Lengths tried at every offset of a storage.
const LENGTHS: u64 = 5;
/// Commands tried with about 8,192 bytes of data.
const LONG_COMMANDS: [u8; 6] = [0x00, 0x02, 0x05, 0x10, 0x18, 0x1B];
/// The longest write that the lab program takes.
const LONGEST_WRITE: usize = 4096;
const BASE: u32 = 0x4000_0000;
/// Where the partitions `app` and `odd` start.
const APP: u64 = 4096;
const ODD: u64 = 4196;

fn devices(device: Option<u8>) -> impl Iterator<Item = u8> {
    [NOR, NAND]
        .into_iter()
        .filter(move |&d| device.is_none_or(|only| only == d))
}

/// All families, or those of calls on an engine.
fn families(kind: Kind) -> impl Iterator<Item = &'static Family> {
    let others = match kind {
        Kind::ExhaustiveEngine => &[],
        _ => &OTHERS[..],
    };
    CALLS.iter().chain(others)
}

/// How many sessions there are.
pub fn count(plan: Plan) -> u64 {
    devices(plan.device)
        .flat_map(|device| families(plan.kind).map(move |family| (family.count)(device)))
        .sum()
}

/// The device, the family and the number inside it.
fn find(plan: Plan, mut number: u64) -> (u8, &'static Family, u64) {
    for device in devices(plan.device) {
        for family in families(plan.kind) {
            let count = (family.count)(device);
            if number < count {
                return (device, family, number);
            }
            number -= count;
        }
    }
    panic!("there are not so many sessions");
}

/// What a session belongs to.
pub fn name(plan: Plan, number: u64) -> String {
    let (device, family, _) = find(plan, number);
    let device = if device == NOR { "NOR" } else { "NAND" };
    format!("{device}, {}", family.name)
}

pub fn session(plan: Plan, number: u64, input: &mut Input) {
    let (device, family, number) = find(plan, number);
    (family.make)(device, number, input);
}

/// A box with two sectors, or two blocks of two pages.
fn small(device: u8) -> Opening {
    let mut opening = Opening {
        device,
        fill: 3,
        step: 5,
        boot_stage: 2,
        media_dev_id: 7,
        scratch_base: BASE,
        scratch_len: 40,
        rooms: [8208, 4112, 4125],
        offsets: vec![0],
        sizes: vec![512],
        name_lens: vec![3],
        names: b"app".to_vec(),
        table: b"app".to_vec(),
        ..Opening::default()
    };
    match device {
        NOR => nor(&mut opening, 2),
        _ => nand(&mut opening, 2, 2),
    }
    opening
}

/// A box for the update: partitions at a sector's edge and beside one, a chip of 16,384 bytes.
fn large(device: u8) -> Opening {
    let mut opening = Opening {
        offsets: vec![APP, ODD],
        sizes: vec![8192, 8192],
        name_lens: vec![3, 3],
        names: b"appodd".to_vec(),
        ..small(device)
    };
    match device {
        NOR => nor(&mut opening, 4),
        _ => nand(&mut opening, 4, 8),
    }
    opening
}

fn nor(opening: &mut Opening, sectors: u32) {
    opening.chip_len = sectors * 4096;
    opening.buffer_len = 4096;
}

fn nand(opening: &mut Opening, pages: u32, blocks: u32) {
    opening.page = 512;
    opening.pages = pages;
    opening.blocks = blocks;
    opening.chip_len = 512 * pages * blocks;
    opening.marks = vec![0xFF; blocks as usize];
    opening.figure = opening.own_capacity();
}

/// Sends bytes in writes of at most so many.
fn writes(bytes: &[u8], most: usize, input: &mut Input) {
    if bytes.is_empty() {
        input.write(bytes);
    }
    for piece in bytes.chunks(most) {
        input.write(piece);
    }
}

/// A frame in one write, and its reply.
fn ask(command: u8, data: &[u8], input: &mut Input) {
    input.write(&frame(command, data));
    input.read(4112);
}

fn pair(first: u32, second: u32) -> Vec<u8> {
    [first.to_le_bytes(), second.to_le_bytes()].concat()
}

/// Every command with every data length from 0 to 32: zeros, 0xFF, and data that the command takes.
fn commands(device: u8, n: u64, behind_metadata: bool, input: &mut Input) {
    let (pattern, len, command) = (n % 3, n / 3 % 33, (n / 99) as u8);
    let len = len as usize;
    let data = match pattern {
        0 => vec![0; len],
        1 => vec![0xFF; len],
        _ => sensible(command, len),
    };
    input.open_engine(&small(device));
    if behind_metadata {
        ask(0x10, &meta(b"app"), input);
    }
    ask(command, &data, input);
    input.flags();
    input.look();
}

/// Data of a length for a command: addresses inside scratch and flash, a shell line.
fn sensible(command: u8, len: usize) -> Vec<u8> {
    let mut data = match command {
        0x02 => pair(BASE + 3, len.saturating_sub(8) as u32),
        0x03 => pair(BASE + 3, 7),
        0x05 => {
            let line = b"bdread 0 1 9 1073741829 more";
            [&(len.saturating_sub(4) as u32).to_le_bytes(), &line[..]].concat()
        }
        0x18 => pair(5, 9),
        0x1B => [1u64.to_le_bytes(), 600u64.to_le_bytes()].concat(),
        _ => pair(BASE, 8),
    };
    let more = 1..=len as u8;
    data.extend(more);
    data.truncate(len);
    data
}

fn payload(len: usize) -> Vec<u8> {
    Rng::of(&[len as u64]).bytes(len)
}

/// Metadata and SEND_FWC_DATA with so many bytes.
fn update_of(name: &str, len: usize) -> Vec<u8> {
    [
        frame(0x10, &meta(name.as_bytes())),
        frame(SEND, &payload(len)),
    ]
    .concat()
}

/// The update of 5,000 bytes: 528 and 5,016 bytes.
fn update() -> &'static [u8] {
    static UPDATE: OnceLock<Vec<u8>> = OnceLock::new();
    UPDATE.get_or_init(|| update_of("app", 5000))
}

/// An update that fits one write, so that two pieces are two writes wherever the cut is.
fn one_write() -> Vec<u8> {
    update_of("odd", LONGEST_WRITE - 528 - 16)
}

fn cuts(device: u8, update: &[u8], n: u64, input: &mut Input) {
    input.open_engine(&large(device));
    let (first, second) = update.split_at(n as usize);
    for piece in [first, second] {
        writes(piece, LONGEST_WRITE, input);
        input.read(4112);
        input.look();
    }
    queries(input);
}

/// CRC and burn result, and the end.
fn queries(input: &mut Input) {
    ask(0x13, &[], input);
    ask(0x14, &[], input);
    input.flags();
    input.look();
}

/// The update under faults: sent in long, middle or short writes, to either partition, then both
/// queries, a look at what landed, and the end of the upgrade.
fn scene(device: u8, scene: u64, faults: Vec<u8>, input: &mut Input) {
    input.open_engine(&Opening {
        faults,
        ..large(device)
    });
    let (name, target) = [("app", APP), ("odd", ODD)][(scene % 2) as usize];
    let most = [LONGEST_WRITE, 512, 100][(scene / 2) as usize];
    writes(&update_of(name, 5000), most, input);
    input.read(4112);
    input.look();
    queries(input);
    ask(0x18, &pair(target as u32, 512), input);
    ask(0x0B, &[], input);
    input.look();
}

/// How many chip calls a scene makes without a fault, and four more for those that a fault adds.
fn calls(device: u8, number: u64) -> u64 {
    static CALLS: OnceLock<Vec<u64>> = OnceLock::new();
    let all = CALLS.get_or_init(|| {
        let count = |device, number| {
            let mut input = Input::default();
            scene(device, number, vec![], &mut input);
            let mut lines = vec![];
            run(&input.bytes, Options::default(), &mut lines);
            let lines = String::from_utf8(lines).expect("lines");
            let last = lines.lines().last().expect("a look");
            let calls = last.split(' ').nth(2).expect("the calls of a look");
            calls.parse::<u64>().expect("a number") + 4
        };
        [NOR, NAND]
            .into_iter()
            .flat_map(|device| (0..SCENES).map(move |number| count(device, number)))
            .collect()
    });
    all[(device as u64 * SCENES + number) as usize]
}

/// A scene and a number below its calls.
fn scene_and_call(device: u8, mut n: u64) -> (u64, usize) {
    for number in 0..SCENES {
        let count = calls(device, number);
        if n < count {
            return (number, n as usize);
        }
        n -= count;
    }
    panic!("there are not so many calls");
}

fn one_fails(device: u8, n: u64, input: &mut Input) {
    let (number, call) = scene_and_call(device, n);
    let mut faults = vec![0; call + 2];
    faults[call] = 1;
    scene(device, number, faults, input);
}

fn all_fail(device: u8, n: u64, input: &mut Input) {
    let (number, call) = scene_and_call(device, n);
    let mut faults = vec![0; call + 1];
    faults[call] = 1;
    scene(device, number, faults, input);
}

fn two_fail(device: u8, n: u64, input: &mut Input) {
    let mut pairs = (0..20).flat_map(|second| (0..second).map(move |first| (first, second)));
    let (first, second) = pairs.nth((n % PAIRS) as usize).unwrap();
    let mut faults = vec![0; 21];
    faults[first] = 1;
    faults[second] = 1;
    scene(device, n / PAIRS, faults, input);
}

/// The first bytes of a request, whatever they are, and then the rest of a good one.
fn first_write(device: u8, n: u64, input: &mut Input) {
    let bytes = match n {
        0 => vec![],
        1..=256 => vec![(n - 1) as u8],
        _ => ((n - 257) as u16).to_be_bytes().to_vec(),
    };
    input.open_engine(&small(device));
    input.write(&bytes);
    input.write(&frame(0x14, &[])[bytes.len()..]);
    input.read(64);
    input.flags();
}

/// Every value of every byte of READ_FWC_DATA's header, with the checksum as it was or put right.
fn changed_header(device: u8, n: u64, input: &mut Input) {
    let (value, place, mended) = (n as u8, (n / 256 % 16) as usize, n / 4096 == 1);
    let mut bytes = frame(0x18, &pair(2, 9));
    bytes[place] = value;
    if mended {
        let len = u32::from_le_bytes(bytes[8..12].try_into().unwrap());
        let right = header(bytes[6], bytes[7], len, bytes[4], bytes[5]);
        bytes[12..16].copy_from_slice(&right[12..]);
        // Of the checksum itself every value is tried above; here the data take the place.
        if place >= 12 {
            bytes[place + 4] = value;
        }
    }
    input.open_engine(&small(device));
    ask(0x10, &meta(b"app"), input);
    input.write(&bytes);
    input.read(4112);
    input.flags();
    input.look();
    ask(0x14, &[], input);
}

/// Every value of every byte of the CBW of a WRITE and of a READ.
fn changed_cbw(device: u8, n: u64, input: &mut Input) {
    let (value, place, which) = (n as u8, (n / 256 % 31) as usize, (n / 7936) as usize);
    let mut wrappers = [cbw(0x0102_0304, 16, 1), cbw(0x0506_0708, 124, 2)];
    wrappers[which][place] = value;
    input.open_engine(&small(device));
    input.packet(&wrappers[0]);
    input.packet(&frame(0x00, &[]));
    input.packet(&wrappers[1]);
    input.flags();
    input.look();
    input.packet(&[]);
    input.packet(&cbw(9, 4112, 2));
}

/// 528 and 56 bytes.
fn short_update() -> Vec<u8> {
    update_of("app", 40)
}

fn data_packets(bytes: &[u8], input: &mut Input) {
    for packet in bytes.chunks(512) {
        input.packet(packet);
    }
}

/// The update in two pieces: in one stage, in two stages, and in two of which the first is ended by
/// an empty packet.
fn packet_cuts(device: u8, n: u64, input: &mut Input) {
    let update = short_update();
    let (first, second) = update.split_at((n / 3) as usize);
    let (whole, rest) = (update.len() as u32, second.len() as u32);
    input.open_engine(&small(device));
    let said = if n % 3 == 1 {
        first.len() as u32
    } else {
        whole
    };
    input.packet(&cbw(1, said, 1));
    data_packets(first, input);
    match n % 3 {
        0 => {}
        1 => input.packet(&cbw(2, rest, 1)),
        _ => {
            input.packet(&[]);
            input.packet(&cbw(2, rest, 1));
        }
    }
    data_packets(second, input);
    input.packet(&cbw(3, 16, 2));
    for command in [0x13, 0x14] {
        input.packet(&cbw(4, 16, 1));
        input.packet(&frame(command, &[]));
        input.packet(&cbw(5, 20, 2));
    }
    input.flags();
    input.look();
}

/// A reply of 528 bytes, read by two calls or by two READs of every length up to 600 and the rest.
fn reads(device: u8, room: u16, packets: bool, input: &mut Input) {
    input.open_engine(&Opening {
        scratch_len: 512,
        ..small(device)
    });
    input.poke(0, &payload(512));
    input.write(&frame(0x03, &pair(BASE, 512)));
    if packets {
        input.packet(&cbw(1, room as u32, 2));
        input.packet(&cbw(2, 4112, 2));
        input.packet(&cbw(3, 4112, 2));
    } else {
        input.read(room);
        input.read(4112);
        input.read(4112);
    }
}

/// A write, a read, an erase and a flush at every offset up to one past the chip's end, with lengths
/// from 0 to a sector or page and one more than that.
fn offsets(device: u8, n: u64, input: &mut Input) {
    let unit = if device == NOR { 4096 } else { 512 };
    let len = [0, 1, 300, unit, unit + 1][(n % LENGTHS) as usize];
    let offset = n / LENGTHS;
    input.open_storage(&small(device));
    input.put(offset, &payload(len));
    input.look();
    input.get(offset, 40);
    input.put(offset, &[1, 2, 3]);
    input.erase(offset, len as u64);
    input.look();
    input.put(offset, &[4, 5, 6]);
    input.flush();
    input.look();
}

/// From three bytes below scratch, which has 40, to two past its end, with lengths from 0 to 45.
fn windows(device: u8, n: u64, input: &mut Input) {
    let (len, place, which) = ((n % 46) as u32, (n / 46 % 46) as u32, n / 2116);
    let address = BASE - 3 + place;
    input.open_engine(&small(device));
    input.poke(0, &payload(40));
    let bytes = match which {
        0 => frame(0x03, &pair(address, len)),
        1 => frame(
            0x02,
            &[pair(address, len), vec![0xA5; len as usize]].concat(),
        ),
        2 => shell(&format!("bdread 0 500 {len} {address:#x}")),
        _ => shell(&format!("bdwrite 0 500 {len} {address}")),
    };
    input.write(&bytes);
    input.read(4112);
    input.look();
}

/// The same for the device table, which fills 82 bytes: from two below a scratch of 100 to two past
/// its end, lengths from 0 to 103.
fn tables(device: u8, n: u64, input: &mut Input) {
    let (len, place) = ((n % 104) as u32, (n / 104) as u32);
    input.open_engine(&Opening {
        scratch_len: 100,
        ..small(device)
    });
    input.poke(0, &[0xEE; 100]);
    let address = BASE - 2 + place;
    input.write(&shell(&format!("get_bootdevice {address} {len}")));
    input.read(4112);
    input.look();
}

/// 8,142 to 8,242 bytes of data, all of them sent, and a query behind.
fn long_frames(device: u8, n: u64, input: &mut Input) {
    let (len, command) = (8142 + n as usize % 101, LONG_COMMANDS[n as usize / 101]);
    let mut data = payload(len);
    // For WRITE a window inside scratch; for the shell a line; for ERASE_STORAGE a range.
    let start = sensible(command, 16);
    data[..16].copy_from_slice(&start);
    if command == 0x10 {
        data[len - 512..].copy_from_slice(&meta(b"app"));
    }
    input.open_engine(&small(device));
    writes(&frame(command, &data), LONGEST_WRITE, input);
    input.read(4112);
    ask(0x15, &[], input);
    input.flags();
    input.look();
}

/// 4,070 to 4,130 bytes: READ of scratch, and the table text.
fn long_replies(device: u8, n: u64, input: &mut Input) {
    let len = 4070 + n as usize / 2;
    let mut opening = small(device);
    opening.scratch_len = 4200;
    if n.is_multiple_of(2) {
        opening.table = vec![b't'; len];
    }
    input.open_engine(&opening);
    input.poke(0, &payload(4200));
    let bytes = match n % 2 {
        0 => frame(0x17, &[]),
        _ => frame(0x03, &pair(BASE + 1, len as u32)),
    };
    input.write(&bytes);
    input.read(4112);
    input.read(4112);
    ask(0x15, &[], input);
}
