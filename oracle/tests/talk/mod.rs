//! Records and the lines that they must print, side by side.

use std::sync::Mutex;

use harness::crc::crc32;
use harness::make::Input;
use harness::opening::{NAND, NOR, Opening};
use harness::run::{Options, run};

/// Calls so far and the lines wanted. `chip` and `scratch` are what the next look must see.
pub struct Talk {
    input: Input,
    wanted: String,
    number: u64,
    pub chip: Vec<u8>,
    pub scratch: Vec<u8>,
    pub options: Options,
}

impl Talk {
    /// Nothing is open.
    pub fn none() -> Self {
        Self {
            input: Input::default(),
            wanted: String::new(),
            number: 0,
            chip: vec![],
            scratch: vec![],
            options: Options { figure: true },
        }
    }

    pub fn opened(engine: bool, opening: &Opening, answer: u8) -> Self {
        let mut talk = Self::none();
        talk.open(engine, opening, answer);
        talk
    }

    pub fn engine(opening: Opening) -> Self {
        Self::opened(true, &opening, 0)
    }

    pub fn storage(opening: Opening) -> Self {
        Self::opened(false, &opening, 0)
    }

    pub fn open(&mut self, engine: bool, opening: &Opening, answer: u8) {
        self.opening(engine, opening, &format!("open {answer}"));
    }

    pub fn skipped(&mut self, engine: bool, opening: &Opening, why: &str) {
        self.opening(engine, opening, &format!("skip {why}"));
    }

    fn opening(&mut self, engine: bool, opening: &Opening, line: &str) {
        self.chip = opening.chip_bytes();
        self.scratch = vec![0; opening.scratch_len as usize];
        let open = |input: &mut Input| match engine {
            true => input.open_engine(opening),
            false => input.open_storage(opening),
        };
        self.say(open, line);
    }

    /// One record and its lines.
    pub fn say(&mut self, call: impl FnOnce(&mut Input), lines: &str) {
        call(&mut self.input);
        for line in lines.split('\n') {
            self.wanted += &format!("{} {line}\n", self.number);
        }
        self.number += 1;
    }

    /// One record that prints nothing.
    pub fn unsaid(&mut self, call: impl FnOnce(&mut Input)) {
        call(&mut self.input);
        self.number += 1;
    }

    pub fn write(&mut self, bytes: &[u8], status: u8) {
        self.say(|input| input.write(bytes), &format!("write {status}"));
    }

    /// Reads the whole reply.
    pub fn reply(&mut self, bytes: &[u8]) {
        let mut line = format!("read {}", bytes.len());
        if !bytes.is_empty() {
            line += &format!(" {}", hex(bytes));
        }
        self.say(|input| input.read(4112), &line);
    }

    pub fn ask(&mut self, bytes: &[u8], status: u8, reply: &[u8]) {
        self.write(bytes, status);
        self.reply(reply);
    }

    pub fn packet(&mut self, bytes: &[u8], sent: &[&[u8]]) {
        let mut lines = format!("packet {}", bytes.len());
        for packet in sent {
            lines += &format!("\nin {}", hex(packet));
        }
        self.say(|input| input.packet(bytes), &lines);
    }

    pub fn look(&mut self, calls: u64, held: Option<u64>) {
        let held = held.map_or("none".to_string(), |address| address.to_string());
        let (chip, scratch) = (crc32(&self.chip), crc32(&self.scratch));
        let line = format!("look {calls} {chip:08x} {scratch:08x} {held}");
        self.say(|input| input.look(), &line);
    }

    /// Runs the Rust on all of it. One at a time: the scratch address is the same.
    pub fn check(&self) {
        static ONE: Mutex<()> = Mutex::new(());
        let _one = ONE.lock().unwrap_or_else(|poisoned| poisoned.into_inner());
        let mut out = vec![];
        run(&self.input.bytes, self.options, &mut out);
        assert_eq!(String::from_utf8(out).unwrap(), self.wanted);
    }
}

/// A NOR of 0xFF with scratch of 4,096 bytes at 0x40000000.
pub fn nor(chip_len: u32, partitions: &[(&str, u64, u64)]) -> Opening {
    let mut opening = Opening {
        device: NOR,
        fill: 0xFF,
        chip_len,
        buffer_len: 4096,
        scratch_base: 0x4000_0000,
        scratch_len: 4096,
        rooms: [8208, 4112, 4125],
        ..Opening::default()
    };
    for (name, offset, size) in partitions {
        opening.offsets.push(*offset);
        opening.sizes.push(*size);
        opening.name_lens.push(name.len() as u64);
        opening.names.extend(name.as_bytes());
    }
    opening
}

/// A NAND of zeros without marked blocks, its capacity the Rust's own.
pub fn nand(page: u32, pages: u32, blocks: u32, partitions: &[(&str, u64, u64)]) -> Opening {
    let mut opening = nor(page * pages * blocks, partitions);
    opening.device = NAND;
    opening.fill = 0;
    (opening.page, opening.pages, opening.blocks) = (page, pages, blocks);
    opening.marks = vec![0xFF; blocks as usize];
    opening.figure = opening.own_capacity();
    opening
}

/// A reply of the engine.
pub fn reply(command: u8, status: u8, data: &[u8]) -> Vec<u8> {
    let mut reply = b"UPGR\x01\x01".to_vec();
    reply.extend([command, status]);
    let len = data.len() as u32;
    let field = u32::from_le_bytes([1, 1, command, status]);
    let sum = 0x5247_5055u32.wrapping_add(field).wrapping_add(len);
    reply.extend(len.to_le_bytes());
    reply.extend(sum.to_le_bytes());
    reply.extend(data);
    reply
}

pub fn csw(tag: u32, status: u8, residue: u32) -> Vec<u8> {
    let numbers = [tag.to_le_bytes(), residue.to_le_bytes()].concat();
    [b"USBS".to_vec(), numbers, vec![status]].concat()
}

fn hex(bytes: &[u8]) -> String {
    bytes.iter().map(|byte| format!("{byte:02x}")).collect()
}
