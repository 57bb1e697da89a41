//! Openings, mostly accepted, and what a session knows about the box that it opened.

use super::Rng;
use crate::opening::{NAND, NOR, Opening};

/// Sizes and places worth trying in the opened box.
pub struct World {
    pub opening: Opening,
    pub capacity: u64,
    pub chip: u64,
    /// A sector or a page.
    pub unit: u64,
    /// A sector or a block.
    pub block: u64,
}

const NAMES: [&str; 16] = [
    "app",
    "app",
    "boot",
    "os",
    "data",
    "env",
    "x",
    "",
    "app2",
    "\u{e4}\u{f6}",
    "a b",
    "two;parts",
    " app",
    "spl\t",
    "\u{2003}os",
    "\u{1f600}",
];

/// An opening, of one device or of any; `engine` says whether the rooms count.
pub fn opening(rng: &mut Rng, device: Option<u8>, engine: bool) -> Opening {
    let any = rng.pick(&[NOR, NAND]);
    let mut opening = Opening {
        device: device.unwrap_or(any),
        boot_stage: rng.pick(&[0, 1, 2, 255]),
        media_dev_id: rng.next() as u32 >> rng.pick(&[0, 16, 31]),
        rooms: [8208, 4112, rng.pick(&[4125, 4126, 5000, 16_384])],
        ..Opening::default()
    };
    (opening.fill, opening.step) = match rng.case(&[4, 1, 3, 2]) {
        0 => (0xFF, 0),
        1 => (0, 0),
        2 => (rng.next() as u8, 1),
        _ => (rng.next() as u8, rng.next() as u8),
    };
    if opening.device == NOR {
        let sectors = match rng.case(&[30, 25, 30, 14, 1]) {
            0 => 1,
            1 => 2,
            2 => rng.within(3, 4),
            3 => rng.within(5, 16),
            _ => rng.within(17, 256),
        };
        opening.chip_len = sectors as u32 * 4096;
        opening.buffer_len = rng.pick(&[4096, 4096, 4096, 4097, 8192]);
        // Fields that a NOR ignores.
        if rng.percent(20) {
            opening.page = rng.next() as u32;
            opening.pages = rng.pick(&[0, 3]);
            opening.figure = rng.next();
            let count = rng.within(0, 3) as usize;
            opening.marks = rng.bytes(count);
        }
    } else {
        nand(rng, &mut opening);
    }
    scratch(rng, &mut opening);
    partitions(rng, &mut opening);
    if opening.device == NAND {
        opening.figure = opening.own_capacity();
        if rng.percent(10) {
            opening.figure = other_figure(rng, &opening);
        }
    }
    opening.faults = faults(rng);
    if engine {
        opening.table = table(rng);
    } else if rng.percent(5) {
        let count = rng.within(0, 9) as usize;
        opening.table = rng.bytes(count);
    }
    opening
}

fn nand(rng: &mut Rng, opening: &mut Opening) {
    let page = rng.pick(&[512, 512, 512, 1024, 2048, 4096]);
    let pages = match rng.case(&[90, 8, 2]) {
        0 => rng.pick(&[1, 1, 2, 2, 4, 8]),
        1 => rng.pick(&[16, 32, 64]),
        _ => rng.pick(&[128, 256]),
    };
    let most = match rng.case(&[85, 14, 1]) {
        0 => 32_768,
        1 => 65_536,
        _ => 1_048_576,
    };
    let blocks = (most / (page * pages)).max(1);
    let blocks = match rng.case(&[9, 1]) {
        0 => rng.within(1, blocks.min(6) as u64) as u32,
        _ => rng.within(1, blocks as u64) as u32,
    };
    opening.page = page;
    opening.pages = pages;
    opening.blocks = blocks;
    opening.chip_len = page * pages * blocks;
    opening.buffer_len = rng.pick(&[0, 1, 4095, 4096, 5000]);
    opening.marks = vec![0xFF; blocks as usize];
    if rng.percent(35) {
        for _ in 0..rng.within(1, 2) {
            let block = rng.within(0, blocks as u64 - 1) as usize;
            opening.marks[block] = rng.pick(&[0x00, 0x00, 0xFE, 0x7F, 0xFF]);
        }
    }
}

fn scratch(rng: &mut Rng, opening: &mut Opening) {
    let len = match rng.case(&[50, 25, 24, 1]) {
        0 => rng.pick(&[4096, 4112, 4113, 4200]),
        1 => rng.pick(&[0, 1, 4, 40, 64, 81, 82, 100, 255, 256, 257]),
        2 => rng.within(0, 9000) as u32,
        _ => rng.pick(&[9001, 20_000, 65_535, 65_536]),
    };
    let top = (1u64 << 32) - len as u64;
    opening.scratch_len = len;
    opening.scratch_base = match rng.case(&[10, 1, 3, 3, 2]) {
        0 => 0x4000_0000,
        1 => 65_536,
        2 => rng.within(65_536, top - 1) as u32,
        3 => top.min(u32::MAX as u64) as u32,
        _ => rng.within(16, 0xFFFF) as u32 * 65_536 - 1,
    };
    if opening.scratch_base as u64 > top {
        opening.scratch_base = top as u32;
    }
}

fn partitions(rng: &mut Rng, opening: &mut Opening) {
    let chip = opening.chip_len as u64;
    let grain = match opening.device {
        NOR => 4096,
        _ => opening.page as u64,
    };
    let count = match rng.case(&[10, 60, 27, 3]) {
        0 => 0,
        1 => rng.within(1, 2),
        2 => rng.within(3, 5),
        _ => rng.within(31, 32),
    };
    for _ in 0..count {
        let offset = match rng.case(&[50, 15, 15, 5, 5]) {
            0 => rng.within(0, chip / grain) * grain,
            1 => rng.within(0, chip),
            2 => (rng.within(1, chip / grain) * grain).saturating_add_signed(near(rng)),
            3 => chip + rng.length(20_000),
            _ => 0,
        };
        let size = match rng.case(&[60, 15, 10, 12, 1, 1]) {
            0 => chip.saturating_sub(offset).min(grain * rng.within(0, 4)),
            1 => chip.saturating_sub(offset),
            2 => rng.within(0, grain),
            3 => rng.within(0, 30_000),
            4 => (1 << 31) - offset,
            _ => rng.within(0, (1 << 31) - offset),
        };
        let name = match rng.case(&[95, 3, 2]) {
            0 => rng.pick(&NAMES).to_string(),
            1 => "n".repeat(rng.within(62, 64) as usize),
            _ => "\u{2003}".repeat(rng.within(20, 21) as usize),
        };
        opening.offsets.push(offset);
        opening.sizes.push(size);
        opening.name_lens.push(name.len() as u64);
        opening.names.extend(name.as_bytes());
    }
}

fn other_figure(rng: &mut Rng, opening: &Opening) -> u64 {
    let chip = opening.chip_len as u64;
    match rng.case(&[3, 2, 3, 1, 1]) {
        0 => rng.within(0, chip),
        1 => rng.within(0, chip / opening.page as u64) * opening.page as u64,
        2 => chip + rng.length(10_000),
        3 => 1 << 31,
        _ => 0,
    }
}

fn faults(rng: &mut Rng) -> Vec<u8> {
    let mut faults = vec![];
    match rng.case(&[55, 15, 10, 10, 7, 3]) {
        0 => {}
        1 => {
            faults = vec![0; rng.length(30) as usize];
            faults.extend([1, 0]);
        }
        2 => {
            faults = vec![0; rng.length(25) as usize + 8];
            for _ in 0..2 {
                let call = rng.within(0, faults.len() as u64 - 2) as usize;
                faults[call] = rng.next() as u8 | 1;
            }
        }
        3 => {
            faults = vec![0; rng.length(30) as usize];
            faults.push(0x80);
        }
        4 => {
            let most = rng.pick(&[2, 4, 10]);
            for _ in 0..rng.within(1, 40) {
                faults.push((rng.within(0, most) == 0) as u8);
            }
        }
        _ => {
            faults = vec![1; rng.within(1, 6) as usize];
            faults.push(0);
        }
    }
    faults
}

fn table(rng: &mut Rng) -> Vec<u8> {
    let text = |len: usize| "spl,os:\u{e4},".bytes().cycle().take(len).collect();
    let mut table: Vec<u8> = match rng.case(&[40, 40, 8, 6, 6]) {
        0 => text(0),
        1 => text(rng.within(1, 60) as usize),
        2 => text(rng.within(4094, 4096) as usize),
        3 => text(rng.within(4097, 4113) as usize),
        _ => text(rng.within(61, 6000) as usize),
    };
    // A cut inside the two-byte letter would not be UTF-8.
    if str::from_utf8(&table).is_err() {
        *table.last_mut().unwrap() = b'.';
    }
    table
}

/// -1, 0 or 1, and sometimes a little more.
fn near(rng: &mut Rng) -> i64 {
    rng.pick(&[-1, 0, 1, -2, 2, -17, 100])
}

/// Makes an opening fail one refusal, or stand at its very edge.
pub fn spoil(rng: &mut Rng, opening: &mut Opening) {
    match rng.case(&[3, 3, 3, 8, 6, 2]) {
        0 => {
            let room = rng.case(&[1, 1, 1]);
            opening.rooms[room] = match room {
                0 => rng.pick(&[8207, 8209, 0, 16_384]),
                1 => rng.pick(&[4111, 4113, 0]),
                _ => rng.pick(&[4124, 0, 4125]),
            };
        }
        1 => opening.buffer_len = rng.pick(&[4095, 0, 4096, 2048, 1_048_576]),
        2 => opening.chip_len = rng.pick(&[0, 1, 4095, 4097, 8191, 6144, 2048, 1_048_576]),
        3 => spoil_partitions(rng, opening),
        4 => spoil_geometry(rng, opening),
        _ => {
            let top = (1u64 << 32) - opening.scratch_len as u64;
            let base = top.saturating_add_signed(rng.pick(&[-1, 0, 1, 2]));
            opening.scratch_base = base.min(u32::MAX as u64) as u32;
        }
    }
}

fn spoil_partitions(rng: &mut Rng, opening: &mut Opening) {
    let last = opening.offsets.len().min(opening.sizes.len());
    match rng.case(&[1, 1, 1, 1, 1, 2, 2, 1, 2, 1]) {
        0 => {
            // 32 are taken, 33 not.
            let count = rng.pick(&[32, 33, 33, 40]);
            opening.offsets.resize(count, 0);
            opening.sizes.resize(count, 0);
            opening.name_lens = vec![1; count];
            opening.names = vec![b'a'; count];
        }
        1 => opening.offsets.push(0),
        2 => drop(opening.sizes.pop()),
        3 => opening.name_lens.push(0),
        4 => match rng.percent(50) {
            true => opening.names.push(b'z'),
            false => drop(opening.names.pop()),
        },
        5 => {
            let len = rng.pick(&[63, 64, 65, 66]);
            opening.offsets.push(0);
            opening.sizes.push(0);
            opening.name_lens.push(len);
            opening.names.extend(vec![b'k'; len as usize]);
        }
        6 => {
            // Not UTF-8, or UTF-8 only across two names.
            let names: [&[u8]; 5] = [
                b"\xC3\xA4",
                b"\xE2\x82\xAC",
                b"\xED\xA0\x80\x41",
                b"a\xFF",
                b"\xF4\x8F\xBF\xBF",
            ];
            let name = rng.pick(&names);
            let cut = rng.within(0, name.len() as u64);
            opening.offsets.extend([0, 0]);
            opening.sizes.extend([0, 0]);
            opening.name_lens.extend([cut, name.len() as u64 - cut]);
            opening.names.extend(name);
        }
        7 => {
            // Lengths whose sum comes out right modulo 2^64.
            opening.offsets.extend([0, 0]);
            opening.sizes.extend([0, 0]);
            opening.name_lens.extend([u64::MAX, 1]);
        }
        _ if last == 0 => opening.sizes.push(1),
        8 => {
            let end = (1u64 << 31).saturating_add_signed(rng.pick(&[-1, 0, 1]));
            opening.sizes[last - 1] = end - opening.offsets[last - 1].min(end);
        }
        _ => {
            opening.offsets[last - 1] = rng.pick(&[u64::MAX, 1 << 63, (1 << 31) + 1]);
            opening.sizes[last - 1] = rng.pick(&[0, 1, 1 << 63, u64::MAX]);
        }
    }
}

fn spoil_geometry(rng: &mut Rng, opening: &mut Opening) {
    match rng.case(&[2, 2, 2, 1, 1, 2]) {
        0 => opening.page = rng.pick(&[0, 256, 511, 513, 768, 8192, 4096, 1 << 31]),
        1 => opening.pages = rng.pick(&[0, 3, 6, 255, 512, 1 << 31]),
        2 => opening.blocks = rng.pick(&[0, 4097, 1 << 31]),
        // A chip over the limit would be no opening at all.
        3 => {
            let len = opening.chip_len.saturating_add_signed(rng.pick(&[-1, 1]));
            opening.chip_len = len.min(1_048_576);
        }
        4 => match rng.percent(50) {
            true => opening.marks.push(0xFF),
            false => drop(opening.marks.pop()),
        },
        _ => {
            let figure = (1u64 << 31).saturating_add_signed(rng.pick(&[-1, 0, 1]));
            opening.figure = rng.pick(&[figure, figure, u64::MAX]);
        }
    }
    // The chip's size still fits, so that the one number is what is refused.
    let product = opening.page as u64 * opening.pages as u64;
    let product = product.saturating_mul(opening.blocks as u64);
    if opening.device == NAND && product <= 1_048_576 && rng.percent(70) {
        opening.chip_len = product as u32;
        // More marks than a body holds would be no opening at all.
        opening
            .marks
            .resize(opening.blocks.min(5000) as usize, 0xFF);
    }
}

impl World {
    /// For an opening that isn't refused.
    pub fn of(opening: Opening) -> Self {
        let nor = opening.device == NOR;
        let page = opening.page as u64;
        Self {
            capacity: if nor {
                opening.own_capacity()
            } else {
                opening.figure
            },
            chip: opening.chip_len as u64,
            unit: if nor { 4096 } else { page },
            block: if nor {
                4096
            } else {
                page * opening.pages as u64
            },
            opening,
        }
    }

    /// An offset at an edge or near one, mostly inside.
    pub fn offset(&self, rng: &mut Rng) -> u64 {
        let edge = match rng.case(&[10, 30, 20, 12, 8, 8, 10, 2]) {
            0 => 0,
            1 => rng.within(0, self.chip / self.unit) * self.unit,
            2 => rng.within(0, self.chip / self.block) * self.block,
            3 => self.chip,
            4 => self.capacity,
            5 => return rng.within(0, self.chip),
            6 if !self.opening.offsets.is_empty() => rng.pick(&self.opening.offsets),
            6 => 0,
            _ => rng.pick(&[1 << 31, 1 << 32, (1 << 32) + 4096, 1 << 63]),
        };
        match rng.case(&[5, 3, 2]) {
            0 => edge,
            1 => edge.saturating_add_signed(near(rng)),
            _ => edge.saturating_sub(rng.length(self.unit)),
        }
    }

    /// A length that suits an offset.
    pub fn length(&self, rng: &mut Rng, offset: u64, most: u64) -> u64 {
        let len = match rng.case(&[40, 15, 15, 10, 10, 10]) {
            0 => rng.length(700),
            1 => self.unit.saturating_add_signed(near(rng)),
            2 => (self.unit - offset % self.unit).saturating_add_signed(rng.pick(&[-1, 0, 0, 1])),
            3 => {
                let left = self.capacity.saturating_sub(offset);
                left.saturating_add_signed(rng.pick(&[-1, 0, 0, 1]))
            }
            4 => {
                let left = self.chip.saturating_sub(offset);
                left.saturating_add_signed(rng.pick(&[-1, 0, 0, 1]))
            }
            _ => rng.length(most),
        };
        len.min(most)
    }

    /// A name that may or may not be there, also with a rest behind `;` and white space.
    pub fn name(&self, rng: &mut Rng) -> Vec<u8> {
        let count = self.opening.offsets.len() as u64;
        let name = if count > 0 && rng.percent(75) {
            let number = rng.within(0, count - 1) as usize;
            self.opening.names().nth(number).unwrap().to_string()
        } else {
            rng.pick(&["nope", "", "APP", "ap", "app3", "two"])
                .to_string()
        };
        let text = match rng.case(&[60, 8, 8, 8, 6, 4, 6]) {
            0 => name,
            1 => format!(" {name} ;x"),
            2 => format!("{name};other;more"),
            3 => {
                let spaces = [
                    "\t", " \n", "\u{a0}", "\u{2003}", "\u{85}", "\u{3000}", "\u{1680}", "\u{2028}",
                ];
                format!("{}{name}{}", rng.pick(&spaces), rng.pick(&spaces))
            }
            4 => format!("{name}\u{200b}"),
            5 => format!(";{name}"),
            _ => rng.pick(&[" ", ";x", "", ";", " ; "]).to_string(),
        };
        let mut bytes = text.into_bytes();
        if rng.percent(4) {
            let place = rng.within(0, bytes.len() as u64) as usize;
            bytes.insert(place, rng.pick(&[0xFF, 0x80, 0xC0, 0xE2]));
        }
        bytes
    }

    /// Whether a look at this chip is cheap.
    pub fn small(&self) -> bool {
        self.chip <= 65_536
    }
}
