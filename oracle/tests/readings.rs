//! Short sessions whose answers follow from 01 and from the readings of the Rust, written out.

mod talk;

use harness::make::{SEND, cbw, frame, header, meta, shell};
use talk::{Talk, csw, nand, nor, reply};

const OK: u8 = 0;
const FAIL: u8 = 1;

// ---- 01's own lines

#[test]
fn the_replay_pair() {
    let mut talk = Talk::engine(nor(32_768, &[("app", 8192, 8192)]));
    talk.write(
        b"\x55\x50\x47\x43\x01\x01\x13\x00\x00\x00\x00\x00\x56\x51\x5A\x43",
        0,
    );
    talk.say(
        |input| input.read(64),
        "read 20 5550475201011300040000005a515a5200000000",
    );
    talk.check();
}

#[test]
fn checksums_of_the_table() {
    let mut talk = Talk::engine(nor(32_768, &[("app", 8192, 8192)]));
    let sum_of = |reply: &[u8]| u32::from_le_bytes(reply[12..16].try_into().unwrap());
    // P2
    talk.ask(&frame(0x09, &[]), OK, &reply(0x09, OK, &[]));
    assert_eq!(sum_of(&reply(0x09, OK, &[])), 0x5250_5156);
    // P3
    talk.ask(&frame(0x06, &[]), OK, &reply(0x06, FAIL, &[0; 108]));
    assert_eq!(sum_of(&reply(0x06, FAIL, &[0; 108])), 0x534D_51C2);
    // P4
    talk.ask(&frame(0x03, &[]), FAIL, &reply(0x03, FAIL, &[]));
    assert_eq!(sum_of(&reply(0x03, FAIL, &[])), 0x534A_5156);
    // P6
    let send = header(SEND, 0, u32::MAX, 1, 1);
    assert_eq!(sum_of(&send), 0x4359_5155);
    talk.ask(&send, FAIL, &reply(SEND, FAIL, &[]));
    // P7
    let size = 4096u32.to_le_bytes();
    talk.ask(&frame(0x11, &[]), OK, &reply(0x11, OK, &size));
    assert_eq!(sum_of(&reply(0x11, OK, &size)), 0x5258_515A);
    talk.check();
}

#[test]
fn the_odd_reply() {
    let mut opening = nor(4096, &[]);
    opening.scratch_len = 4113;
    let mut talk = Talk::engine(opening);
    let base = 0x4000_0000u32.to_le_bytes();
    let read = |len: u32| frame(0x03, &[base, len.to_le_bytes()].concat());
    let odd = b"\0\0\0\0\x01\x01\x01\0\0\0\0\0\x01\x01\x01\0";
    talk.ask(&read(4096), OK, &reply(0x03, OK, &[0; 4096]));
    talk.ask(&read(4097), FAIL, odd);
    talk.ask(&read(4112), FAIL, odd);
    talk.ask(&read(4113), OK, &reply(0x03, OK, &[]));
    talk.check();
}

#[test]
fn table_texts() {
    for (len, fits) in [(0, false), (1, true), (4096, true), (4097, false)] {
        let mut opening = nor(4096, &[]);
        opening.table = vec![b't'; len];
        let text = opening.table.clone();
        let mut talk = Talk::engine(opening);
        let ask = frame(0x17, &[]);
        if fits {
            talk.ask(&ask, OK, &reply(0x17, OK, &text));
        } else if len == 0 {
            talk.ask(&ask, FAIL, &reply(0x17, FAIL, &[]));
        } else {
            let odd = b"\0\0\0\0\x01\x01\x01\0\0\0\0\0\x01\x01\x01\0";
            talk.ask(&ask, FAIL, odd);
        }
        talk.check();
    }
}

#[test]
fn sizes_of_frames() {
    let mut talk = Talk::engine(nor(4096, &[]));
    // P10
    let long = frame(0x0A, &[7; 8192]);
    talk.write(&long[..4096], 0);
    talk.write(&long[4096..8192], 0);
    talk.write(&long[8192..], 0);
    talk.reply(&reply(0x0A, OK, &[]));
    // P11; the rest of the call is dropped, a waiting reply stays, and a frame starts anew.
    talk.write(&frame(0x0B, &[]), 0);
    let refused = [&header(0x0A, 0, 8193, 1, 1)[..], b"dropped"].concat();
    talk.write(&refused, 1);
    talk.reply(&reply(0x0B, OK, &[]));
    talk.ask(&frame(0x09, &[]), OK, &reply(0x09, OK, &[]));
    talk.check();
}

#[test]
fn a_bad_header_keeps_the_reply() {
    let mut talk = Talk::engine(nor(4096, &[]));
    talk.write(&frame(0x09, &[]), 0);
    let mut bad = frame(0x0B, &[]);
    bad[12] ^= 1;
    talk.write(&[&bad[..], &frame(0x0B, &[])].concat(), 1);
    talk.reply(&reply(0x09, OK, &[]));
    // Bytes 4 and 5 don't count, the status does.
    talk.write(&header(0x09, 5, 0, 77, 88), 0);
    talk.reply(&reply(0x09, OK, &[]));
    talk.check();
}

#[test]
fn opening_numbers_in_replies() {
    let mut opening = nor(8192, &[("far", 8192, 100)]);
    opening.boot_stage = 9;
    opening.media_dev_id = 0x0403_0201;
    let mut talk = Talk::engine(opening);
    let mut info = [0; 108];
    info[..6].copy_from_slice(b"HWINFO");
    info[8..22].copy_from_slice(b"24-06-24 10:07");
    info[40] = 9;
    info[72..76].copy_from_slice(&[3, 0, 3, 0x16]);
    talk.ask(&frame(0x00, &[]), OK, &reply(0x00, OK, &info));
    let mut media = [0; 68];
    media[..7].copy_from_slice(b"spi-nor");
    media[64..].copy_from_slice(&[1, 2, 3, 4]);
    talk.ask(&frame(0x16, &[]), OK, &reply(0x16, OK, &media));
    let mut sizes = [0; 24];
    sizes[..8].copy_from_slice(&8292u64.to_le_bytes());
    sizes[8..12].copy_from_slice(&4096u32.to_le_bytes());
    sizes[12..16].copy_from_slice(&4096u32.to_le_bytes());
    talk.ask(&frame(0x1A, &[]), OK, &reply(0x1A, OK, &sizes));
    let base = 0x4000_0000u32.to_le_bytes();
    talk.ask(&frame(0x08, &[]), OK, &reply(0x08, OK, &base));
    talk.check();
}

// ---- refusals of openings

#[test]
fn refusals() {
    type Change = fn(&mut harness::opening::Opening);
    let on_nor: [(u8, Change); 18] = [
        (9, |o| o.rooms[0] = 8207),
        (9, |o| o.rooms[0] = 8209),
        (9, |o| o.rooms[1] = 4113),
        (9, |o| o.rooms[2] = 4124),
        (10, |o| o.buffer_len = 4095),
        (11, |o| o.chip_len = 0),
        (11, |o| o.chip_len = 4097),
        (12, |o| o.offsets.push(0)),
        (12, |o| o.sizes.push(0)),
        (12, |o| o.name_lens.push(0)),
        (12, |o| o.names.push(b'a')),
        (12, |o| o.names[1] = 0xFF),
        (12, |o| o.sizes[0] = (1 << 31) - 8191),
        (12, |o| o.sizes[0] = u64::MAX),
        (14, |o| o.scratch_base = u32::MAX - 4094),
        (0, |o| o.sizes[0] = (1 << 31) - 8192),
        (0, |o| o.scratch_base = u32::MAX - 4095),
        (0, |o| o.page = 7),
    ];
    for (number, change) in on_nor {
        let mut opening = nor(32_768, &[("app", 8192, 8192)]);
        change(&mut opening);
        Talk::opened(true, &opening, number).check();
        let number = if number == 9 { 0 } else { number };
        Talk::opened(false, &opening, number).check();
    }
    let on_nand: [(u8, Change); 15] = [
        (13, |o| o.page = 256),
        (13, |o| o.page = 768),
        (13, |o| o.page = 8192),
        (13, |o| o.pages = 0),
        (13, |o| o.pages = 3),
        (13, |o| o.pages = 512),
        (13, |o| o.blocks = 0),
        (13, |o| o.blocks = 4097),
        (13, |o| o.chip_len += 1),
        (13, |o| o.marks.push(0xFF)),
        (13, |o| o.marks.truncate(3)),
        (13, |o| o.figure = (1 << 31) + 1),
        (12, |o| {
            o.names.push(b'a');
            o.page = 0;
            o.scratch_base = u32::MAX;
        }),
        (0, |o| o.figure = 1 << 31),
        (0, |o| o.buffer_len = 0),
    ];
    for (number, change) in on_nand {
        let mut opening = nand(512, 2, 4, &[("app", 0, 512)]);
        change(&mut opening);
        Talk::opened(false, &opening, number).check();
    }
}

#[test]
fn limits_of_partitions() {
    let many: Vec<(&str, u64, u64)> = vec![("a", 0, 0); 33];
    Talk::opened(false, &nor(4096, &many[..32]), 0).check();
    Talk::opened(false, &nor(4096, &many), 12).check();
    let long = "k".repeat(65);
    Talk::opened(false, &nor(4096, &[(&long[..64], 0, 0)]), 0).check();
    Talk::opened(false, &nor(4096, &[(&long, 0, 0)]), 12).check();
    // UTF-8 only across two names.
    let mut opening = nor(4096, &[("a", 0, 0), ("b", 0, 0)]);
    opening.names = "\u{e4}".into();
    Talk::opened(false, &opening, 12).check();
    // Lengths whose sum is right modulo 2^64.
    opening.name_lens = vec![u64::MAX, 3];
    Talk::opened(false, &opening, 12).check();
}

// ---- the readings, by their numbers

#[test]
fn reading_2_the_probe_is_a_call() {
    let mut talk = Talk::engine(nor(4096, &[("a", 0, 9), ("end", 4096, 0)]));
    talk.ask(&frame(0x13, &[]), OK, &reply(0x13, OK, &[0; 4]));
    talk.look(0, None);
    talk.ask(&frame(0x10, &meta(b"a")), OK, &reply(0x10, OK, &[]));
    talk.ask(&frame(0x13, &[]), OK, &reply(0x13, OK, &[0; 4]));
    talk.look(1, None);
    talk.ask(&frame(0x10, &meta(b"end")), OK, &reply(0x10, OK, &[]));
    talk.ask(&frame(0x13, &[]), OK, &reply(0x13, OK, &[0; 4]));
    talk.look(1, None);
    talk.check();
}

#[test]
fn reading_3_erase_beyond_the_chip() {
    let mut talk = Talk::storage(nand(512, 1, 1, &[("far", 512, 512)]));
    talk.say(|input| input.erase(512, 1), "erase fail");
    talk.look(0, None);
    talk.say(|input| input.erase(0, 1024), "erase fail");
    talk.chip.fill(0xFF);
    talk.look(2, None);
    talk.check();
    let mut talk = Talk::storage(nor(4096, &[("far", 4096, 4096)]));
    talk.say(|input| input.erase(4096, 1), "erase fail");
    talk.look(1, None);
    talk.check();
}

#[test]
fn reading_6_a_full_sector_that_fails_to_flush() {
    for (faults, status, calls) in [
        (vec![], OK, 3),
        (vec![0, 1, 0], OK, 4),
        (vec![0, 0, 1, 0], OK, 5),
        (vec![0, 1, 1, 0], FAIL, 3),
    ] {
        let mut opening = nor(4096, &[("app", 0, 4096)]);
        opening.faults = faults;
        let mut talk = Talk::engine(opening);
        talk.ask(&frame(0x10, &meta(b"app")), OK, &reply(0x10, OK, &[]));
        talk.write(&header(SEND, 0, 4096, 1, 1), 0);
        talk.write(&[0x5A; 4096], 0);
        talk.reply(&reply(SEND, status, &[]));
        if status == OK {
            talk.chip.fill(0x5A);
            talk.look(calls, None);
        } else {
            talk.look(calls, Some(0));
        }
        let burn = (status as u32).to_le_bytes();
        talk.ask(&frame(0x14, &[]), OK, &reply(0x14, OK, &burn));
        talk.check();
    }
}

#[test]
fn reading_7_nand_flushes_on_leaving() {
    let mut talk = Talk::storage(nand(512, 4, 2, &[]));
    talk.say(|input| input.put(0, &[1; 512]), "put 512");
    talk.look(0, Some(0));
    // Leaving: bad-block query, erase, program.
    talk.say(|input| input.put(512, &[2; 3]), "put 3");
    talk.chip[..2048].fill(0xFF);
    talk.chip[..512].fill(1);
    talk.look(3, Some(512));
    // A read flushes (one program) and keeps the memory of the erased block.
    talk.say(|input| input.get(511, 3), "get 3 010202");
    talk.chip[512..515].fill(2);
    talk.look(5, None);
    talk.say(|input| input.put(1024, &[3]), "put 1");
    talk.say(|input| input.flush(), "flush ok");
    talk.chip[1024] = 3;
    talk.look(6, None);
    // The flush cleared it: the block is erased again.
    talk.say(|input| input.put(1536, &[4]), "put 1");
    talk.say(|input| input.flush(), "flush ok");
    talk.chip[..2048].fill(0xFF);
    talk.chip[1536] = 4;
    talk.look(9, None);
    // Size 0 at an unaligned start erases the whole block.
    talk.say(|input| input.erase(2048, 0), "erase ok");
    talk.look(9, None);
    talk.say(|input| input.erase(2049, 0), "erase ok");
    talk.chip[2048..].fill(0xFF);
    talk.look(11, None);
    talk.check();
}

#[test]
fn reading_7_tries_of_a_nand_flush() {
    // The first erase fails: query, erase, query, erase, program.
    let mut opening = nand(512, 1, 2, &[]);
    opening.faults = vec![0, 1, 0];
    let mut talk = Talk::storage(opening);
    talk.say(|input| input.put(0, &[9; 512]), "put 512");
    talk.say(|input| input.flush(), "flush ok");
    talk.chip[..512].fill(9);
    talk.look(5, None);
    talk.check();
    // A marked block costs two calls a flush, and its page stays held for ever.
    let mut opening = nand(512, 1, 2, &[("app", 512, 512)]);
    opening.marks[1] = 0;
    let mut talk = Talk::engine(opening);
    talk.ask(&frame(0x10, &meta(b"app")), OK, &reply(0x10, OK, &[]));
    talk.write(&frame(SEND, b"x"), 0);
    talk.reply(&reply(SEND, FAIL, &[]));
    talk.look(2, Some(512));
    talk.say(|input| input.reset(), "reset");
    talk.ask(&frame(0x10, &meta(b"app")), FAIL, &reply(0x10, FAIL, &[]));
    talk.look(4, Some(512));
    let read = frame(0x18, &[0, 0, 0, 0, 5, 0, 0, 0]);
    talk.ask(&read, OK, &reply(0x18, OK, &[]));
    talk.look(6, Some(512));
    talk.ask(&frame(0x1B, &[0; 24]), FAIL, &reply(0x1B, FAIL, &[]));
    talk.look(8, Some(512));
    talk.check();
}

#[test]
fn reading_7_a_program_that_keeps_bits() {
    // The page was programmed in this block since its erase: bits can't come back, so the second
    // try erases the block.
    let mut talk = Talk::storage(nand(512, 2, 1, &[]));
    talk.say(|input| input.put(0, &[0; 512]), "put 512");
    talk.say(|input| input.get(512, 0), "get 0");
    talk.chip.fill(0xFF);
    talk.chip[..512].fill(0);
    talk.look(3, None);
    talk.say(|input| input.put(0, &[1]), "put 1");
    talk.say(|input| input.flush(), "flush ok");
    talk.chip.fill(0xFF);
    talk.chip[0] = 1;
    talk.look(7, None);
    talk.check();
}

#[test]
fn reading_8_send_and_the_old_reply() {
    let mut talk = Talk::engine(nor(4096, &[("app", 0, 4096)]));
    talk.write(&frame(0x10, &meta(b"app")), 0);
    talk.write(&header(SEND, 0, 2, 1, 1), 0);
    talk.reply(&reply(0x10, OK, &[]));
    talk.write(b"ab", 0);
    talk.reply(&reply(SEND, OK, &[]));
    talk.say(|input| input.flags(), "flags 1 0");
    talk.check();
}

#[test]
fn reading_9_reads_that_never_fail() {
    let mut opening = nor(4096, &[("app", 4096, 100)]);
    opening.faults = vec![1, 0];
    let mut talk = Talk::engine(opening);
    let read = |offset: u32, len: u32| {
        let numbers = [offset.to_le_bytes(), len.to_le_bytes()].concat();
        frame(0x18, &numbers)
    };
    // Call 0 fails.
    talk.ask(&read(0, 4), OK, &reply(0x18, OK, &[]));
    talk.ask(&read(0, 4), OK, &reply(0x18, OK, &[0xFF; 4]));
    // It crosses the chip's end below capacity.
    talk.ask(&read(4090, 7), OK, &reply(0x18, OK, &[]));
    talk.look(3, None);
    // At most 512.
    talk.ask(&read(0, 513), OK, &reply(0x18, OK, &[0xFF; 512]));
    talk.look(4, None);
    // `bdread` fails there, after 256 bytes that stay in scratch.
    let line = "bdread 0 3840 0x101 0x40000000";
    talk.ask(&shell(line), FAIL, &reply(0x05, FAIL, &[]));
    talk.scratch[..256].fill(0xFF);
    talk.look(6, None);
    // With length 0 it makes no call.
    let line = "bdread 0 0 0 0x40000000";
    talk.ask(&shell(line), OK, &reply(0x05, OK, &[]));
    talk.look(6, None);
    talk.check();
}

#[test]
fn reading_10_pieces_against_the_capacity() {
    // 256 bytes fit, the next 256 don't: the sector stays held.
    let mut talk = Talk::engine(nor(4096, &[]));
    talk.say(|input| input.poke(0, &[7; 600]), "poke");
    talk.scratch[..600].fill(7);
    let line = "bdwrite 0 3800 300 0x40000000";
    talk.ask(&shell(line), FAIL, &reply(0x05, FAIL, &[]));
    talk.look(1, Some(0));
    // READ_FWC_DATA of length 0 flushes it.
    let read = frame(0x18, &[0; 8]);
    talk.ask(&read, OK, &reply(0x18, OK, &[]));
    talk.chip[3800..4056].fill(7);
    talk.look(3, None);
    talk.check();
    // The first 256 don't fit either.
    let mut talk = Talk::engine(nor(4096, &[]));
    let line = "bdwrite 0 4000 999 0x40000000";
    talk.ask(&shell(line), FAIL, &reply(0x05, FAIL, &[]));
    talk.look(0, None);
    talk.check();
    // In one call it is all or nothing.
    let mut talk = Talk::storage(nor(4096, &[]));
    talk.say(|input| input.put(3800, &[7; 300]), "put 0");
    talk.say(|input| input.put(3800, &[7; 296]), "put 296");
    talk.chip[3800..].fill(7);
    talk.look(3, None);
    talk.check();
}

#[test]
fn reading_11_names() {
    let parts = [("", 1, 1), ("app", 2, 1), ("app", 3, 1), ("a b", 4, 1)];
    let mut talk = Talk::storage(nor(4096, &parts));
    for (name, answer) in [
        ("", "at 1"),
        (";x", "at 1"),
        (" \t", "at 1"),
        ("app", "at 2"),
        (" app ;x", "at 2"),
        ("\u{2003}app\u{a0}", "at 2"),
        ("app\u{200b}", "at nothing"),
        ("a b", "at 4"),
        ("App", "at nothing"),
    ] {
        talk.say(|input| input.at(name.as_bytes()), answer);
    }
    talk.say(|input| input.at(b"app\xFF"), "at nothing");
    talk.check();

    // An empty field is no target, and so is one that isn't UTF-8; `;x` is the empty name.
    for (field, calls) in [(&b""[..], 0), (b"\xFF", 0), (b";x", 1)] {
        let mut talk = Talk::engine(nor(4096, &parts));
        talk.ask(&frame(0x10, &meta(field)), OK, &reply(0x10, OK, &[]));
        talk.ask(&frame(0x13, &[]), OK, &reply(0x13, OK, &[0; 4]));
        talk.look(calls, None);
        talk.check();
    }
    // An unknown name fails, and the old target stays.
    let mut talk = Talk::engine(nor(4096, &parts));
    talk.write(&frame(0x10, &meta(b"a b")), 0);
    let unknown = frame(0x10, &meta(b"nope"));
    talk.ask(&unknown, FAIL, &reply(0x10, FAIL, &[]));
    talk.ask(&frame(SEND, b"!"), OK, &reply(SEND, OK, &[]));
    talk.chip[4] = b'!';
    talk.look(3, None);
    talk.check();
}

#[test]
fn reading_12_the_shell() {
    let mut opening = nand(512, 1, 2, &[]);
    opening.scratch_len = 0x100;
    let mut talk = Talk::engine(opening);
    for (line, status) in [
        ("bdopen", OK),
        (" bdopen", FAIL),
        ("bdopen\t", FAIL),
        ("efuse any thing", OK),
        ("", FAIL),
        ("bderase  0 0", OK),
        ("bderase 0 0", FAIL),
        ("bderase 0 \t0\u{a0} 0x0 more", OK),
        ("bderase 0 +0 0x+0", OK),
        ("bderase 0 +0x1F 0", FAIL),
        ("bderase 0 0 18446744073709551616", FAIL),
        ("bdread 0 0 1 0x3FFFFFFF", FAIL),
        ("bdread 0 0 1 0x40000100", FAIL),
        ("get_bootdevice 0x400000FF 1", OK),
    ] {
        talk.ask(&shell(line), status, &reply(0x05, status, &[]));
    }
    // The table says spi-nor for NAND too.
    let line = "get_bootdevice 0x40000010 1000";
    talk.ask(&shell(line), OK, &reply(0x05, OK, &[]));
    let mut put = |place: usize, bytes: &[u8]| {
        talk.scratch[0x10 + place..][..bytes.len()].copy_from_slice(bytes);
    };
    put(0x00, &[1]);
    put(0x08, &[2]);
    put(0x18, &[0, 2]);
    put(0x1C, &[0, 2]);
    put(0x20, &[0, 4]);
    put(0x24, &0x4000_0050u32.to_le_bytes());
    put(0x40, b"artinchip spi-nor\0");
    talk.look(0, None);
    talk.check();
    // Malformed, it still raises host_upgrading.
    let mut talk = Talk::engine(nor(4096, &[]));
    talk.ask(&frame(0x00, &[])[..0], OK, &[]);
    talk.say(|input| input.flags(), "flags 0 0");
    talk.write(&frame(0x05, &[1, 0, 0]), 1);
    talk.reply(&reply(0x05, FAIL, &[]));
    talk.say(|input| input.flags(), "flags 1 0");
    talk.write(&shell("reset"), 0);
    talk.say(|input| input.flags(), "flags 1 1");
    talk.say(|input| input.reset(), "reset");
    talk.say(|input| input.flags(), "flags 1 1");
    talk.check();
}

#[test]
fn reading_13_sizes_on_nand() {
    let mut opening = nand(2048, 4, 2, &[]);
    opening.boot_stage = 1;
    let mut talk = Talk::engine(opening);
    let page = 2048u32.to_le_bytes();
    talk.ask(&frame(0x11, &[]), OK, &reply(0x11, OK, &page));
    let capacity = 16_384u64.to_le_bytes();
    let sizes = [&capacity[..], &page, &page, &[0; 8]].concat();
    talk.ask(&frame(0x1A, &[]), OK, &reply(0x1A, OK, &sizes));
    let mut media = [0; 68];
    media[..8].copy_from_slice(b"spi-nand");
    talk.ask(&frame(0x16, &[]), OK, &reply(0x16, OK, &media));
    talk.check();
}

#[test]
fn reading_14_packets() {
    let mut talk = Talk::engine(nor(4096, &[]));
    // A frame in two packets; the status is the last one's.
    talk.packet(&cbw(7, 20, 1), &[]);
    talk.packet(b"sixteen bad byte", &[]);
    talk.packet(b"more", &[&csw(7, 0, 0)]);
    // Four bytes of a header wait. An over-long packet resets and a CBW comes next.
    talk.packet(&[0; 32], &[]);
    let ask = frame(0x0B, &[]);
    talk.packet(&cbw(8, 16, 1), &[]);
    talk.packet(&ask, &[&csw(8, 0, 0)]);
    let done = reply(0x0B, OK, &[]);
    talk.packet(&cbw(9, 600, 2), &[&done, &csw(9, 0, 584)]);
    // Bad CBWs.
    talk.packet(&cbw(1, 0, 1)[..30], &[&csw(0, 1, 0)]);
    talk.packet(&[], &[&csw(0, 1, 0)]);
    talk.packet(&cbw(2, 77, 3), &[&csw(2, 1, 77)]);
    // An empty packet ends a data stage that got none: status 0, residue the whole length.
    talk.packet(&cbw(3, 40, 1), &[]);
    talk.packet(&[], &[&csw(3, 0, 40)]);
    talk.packet(&cbw(4, 0, 1), &[&csw(4, 0, 0)]);
    // `reset` in a stage that ends with an over-long packet.
    let line = shell("reset");
    talk.packet(&cbw(5, line.len() as u32 + 1, 1), &[]);
    talk.packet(&line, &[]);
    talk.say(|input| input.flags(), "flags 1 1");
    talk.packet(b"ab", &[]);
    // A bad CBW doesn't close, the next valid one does, whatever its status.
    talk.packet(b"ab", &[&csw(0, 1, 0)]);
    talk.packet(&cbw(6, 9, 99), &[&csw(6, 1, 9)]);
    talk.say(|input| input.packet(&[]), "closed");
    talk.write(&ask, 0);
    talk.reply(&done);
    talk.check();
}

#[test]
fn a_full_read_stage_has_no_empty_packet() {
    let mut opening = nor(4096, &[]);
    opening.table = vec![b't'; 1008];
    let text = opening.table.clone();
    let mut talk = Talk::engine(opening);
    talk.packet(&cbw(1, 16, 1), &[]);
    talk.packet(&frame(0x17, &[]), &[&csw(1, 0, 0)]);
    let reply = reply(0x17, OK, &text);
    let sent = [&reply[..512], &reply[512..], &csw(2, 0, 0)];
    talk.packet(&cbw(2, 1024, 2), &sent);
    talk.packet(&cbw(3, 5, 2), &[&csw(3, 0, 5)]);
    talk.check();
}

// ---- the harness itself

#[test]
fn kinds_and_shapes() {
    let mut talk = Talk::none();
    talk.say(|input| input.look(), "none");
    talk.say(|input| input.poke(9, b"z"), "none");
    talk.open(false, &nor(4096, &[]), 0);
    talk.say(|input| input.write(b""), "none");
    talk.say(|input| input.flags(), "none");
    talk.open(true, &nor(4096, &[]), 0);
    talk.say(|input| input.flush(), "none");
    talk.say(|input| input.at(b"a"), "none");
    talk.open(true, &nor(4095, &[]), 11);
    talk.say(|input| input.reset(), "none");
    talk.say(|input| input.write(&[0; 4097]), "bad");
    talk.unsaid(|input| input.look());
    talk.check();
    // A poke beside scratch, a cut record.
    let mut talk = Talk::storage(nor(4096, &[]));
    talk.say(|input| input.poke(4096, b""), "poke");
    talk.say(|input| input.poke(4096, b"z"), "bad");
    talk.unsaid(|input| input.look());
    talk.check();
    let mut talk = Talk::storage(nor(4096, &[]));
    talk.say(|input| input.bytes.extend([0, 0, 0, 0, 40]), "bad");
    talk.check();
}

#[test]
fn what_cannot_be_compared() {
    // A panic of the Rust silences the session, not the next one.
    let mut talk = Talk::storage(nor(4096, &[]));
    talk.say(|input| input.put(u64::MAX, b""), "put 0");
    talk.say(|input| input.put(u64::MAX, b"z"), "panic");
    talk.unsaid(|input| input.look());
    talk.open(false, &nor(4096, &[]), 0);
    talk.say(|input| input.from(u64::MAX, 0, 0), "from 0");
    talk.check();
    // No memory at address 0.
    let mut opening = nor(4096, &[]);
    opening.scratch_base = 0;
    let mut talk = Talk::none();
    talk.skipped(true, &opening, "scratch");
    talk.unsaid(|input| input.look());
    // A table that isn't UTF-8.
    opening = nor(4096, &[]);
    opening.table = vec![0xFF];
    talk.skipped(true, &opening, "table");
    talk.open(false, &opening, 0);
    talk.check();
}

#[test]
fn another_capacity_figure() {
    // The paper's example: figure 512 with a partition that ends at 1,024.
    let mut opening = nand(512, 1, 1, &[("far", 512, 512)]);
    let sizes = |capacity: u64| {
        let mut sizes = [0; 24];
        sizes[..8].copy_from_slice(&capacity.to_le_bytes());
        sizes[8..12].copy_from_slice(&512u32.to_le_bytes());
        sizes[12..16].copy_from_slice(&512u32.to_le_bytes());
        reply(0x1A, OK, &sizes)
    };
    let mut talk = Talk::engine(opening.clone());
    talk.ask(&frame(0x1A, &[]), OK, &sizes(1024));
    talk.check();
    opening.figure = 512;
    let mut talk = Talk::engine(opening.clone());
    talk.ask(&frame(0x1A, &[]), OK, &sizes(512));
    talk.ask(&frame(0x10, &meta(b"far")), OK, &reply(0x10, OK, &[]));
    talk.ask(&frame(0x13, &[]), OK, &reply(0x13, OK, &[0; 4]));
    talk.look(0, None);
    talk.ask(&frame(SEND, b"z"), OK, &reply(SEND, FAIL, &[]));
    talk.look(0, None);
    talk.check();
    // Without the option it is skipped.
    let mut talk = Talk::none();
    talk.options.figure = false;
    talk.skipped(true, &opening, "figure");
    talk.unsaid(|input| input.look());
    talk.check();
}
