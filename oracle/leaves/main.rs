//! Makes the stored input and output of crates/leaves: what the leaf functions are asked, and what
//! others answer. UTF-8, trimming, numbers and tokens are answered by Rust's standard library
//! (`str::from_utf8`, `str::trim`, `u64::from_str_radix`, `str::split`), words and headers by
//! `to_le_bytes` and `wrapping_add`, CRC-32 by gzip.
//!
//!     main STDIN STDOUT

use std::io::{Read, Write};
use std::process::{Command, Stdio};

/// The records and the lines so far.
struct Lists {
    input: Vec<u8>,
    output: String,
    count: usize,
}

impl Lists {
    fn add(&mut self, kind: u16, body: &[u8], answer: String) {
        self.input.extend((body.len() as u32).to_le_bytes());
        self.input.extend(kind.to_le_bytes());
        self.input.extend(body);
        self.output.push_str(&format!("{} {}\n", self.count, answer));
        self.count += 1;
    }

    // ---- UTF-8

    /// Every text of a first byte and `more` bytes from a set, the last place fastest.
    fn utf8_texts(&mut self, first: u8, more: usize, set: &[u8]) {
        let mut texts: Vec<Vec<u8>> = vec![vec![first]];
        for _ in 0..more {
            texts = texts
                .iter()
                .flat_map(|t| set.iter().map(move |&b| [t.as_slice(), &[b]].concat()))
                .collect();
        }
        let bits: Vec<u32> = texts
            .iter()
            .map(|t| std::str::from_utf8(t).is_ok() as u32)
            .collect();
        let digits: String = bits
            .chunks(4)
            .map(|c| (0..4).fold(0, |n, i| n * 2 + c.get(i).copied().unwrap_or(0)))
            .map(|n| char::from_digit(n, 16).unwrap())
            .collect();
        let body = [&[more as u8, first], set].concat();
        self.add(1, &body, format!("texts {} {}", bits.len(), digits));
    }

    fn utf8(&mut self, s: &[u8]) {
        let ok = std::str::from_utf8(s).is_ok();
        self.add(2, s, format!("utf8 {}", ok as u8));
    }

    // ---- text

    fn trim(&mut self, s: &str) {
        self.add(3, s.as_bytes(), with_hex("trim", s.trim().as_bytes()));
    }

    fn number(&mut self, s: &str) {
        // shell.rs `number`
        let t = s.trim();
        let n = match t.strip_prefix("0x").or_else(|| t.strip_prefix("0X")) {
            Some(hex) => u64::from_str_radix(hex, 16).ok(),
            None => t.parse().ok(),
        };
        let answer = n.map_or("number bad".to_string(), |n| format!("number {n}"));
        self.add(4, s.as_bytes(), answer);
    }

    fn tokens(&mut self, s: &str) {
        let all: Vec<String> = s.split(' ').map(|t| hex(t.as_bytes())).collect();
        self.add(5, s.as_bytes(), format!("tokens {}", all.join("|")));
    }

    fn cuts(&mut self, s: &str) {
        let first = s.split(';').next().unwrap();
        self.add(6, s.as_bytes(), with_hex("before", first.as_bytes()));
        let end = s.bytes().position(|b| b == 0).unwrap_or(s.len());
        self.add(7, s.as_bytes(), with_hex("before", &s.as_bytes()[..end]));
    }

    fn compare(&mut self, a: &[u8], b: &[u8]) {
        let body = [&[a.len() as u8], a, b].concat();
        self.add(8, &body, format!("same {}", (a == b) as u8));
        self.add(9, &body, format!("starts {}", a.starts_with(b) as u8));
    }

    // ---- wire

    fn crc(&mut self, before: &[u8], s: &[u8]) {
        let start = gzip_crc(before);
        let body = [&start.to_le_bytes(), s].concat();
        let end = gzip_crc(&[before, s].concat());
        self.add(16, &body, format!("crc {end:08x}"));
    }

    fn build(&mut self, magic: u32, command: u8, status: u8, length: u32) {
        let body = [
            &magic.to_le_bytes()[..],
            &[command, status],
            &length.to_le_bytes(),
        ]
        .concat();
        let answer = format!("header {}", hex(&header(magic, command, status, length)));
        self.add(17, &body, answer);
    }

    fn parse(&mut self, s: &[u8]) {
        let good = s.len() >= 16
            && &s[..4] == b"UPGC"
            && header(0x4347_5055, s[6], s[7], word(s, 8))[12..] == s[12..16];
        let answer = if good {
            format!("parsed {} {} {}", s[6], s[7], word(s, 8))
        } else {
            "parsed bad".to_string()
        };
        self.add(18, s, answer);
    }

    fn cbw(&mut self, s: &[u8]) {
        let answer = if s.len() >= 31 && &s[..4] == b"USBC" {
            format!("cbw {} {} {}", word(s, 4), word(s, 8), s[15])
        } else {
            "cbw bad".to_string()
        };
        self.add(19, s, answer);
    }

    fn csw(&mut self, tag: u32, status: u8, residue: u32) {
        let body = [
            &tag.to_le_bytes()[..],
            &[status],
            &residue.to_le_bytes(),
        ]
        .concat();
        let csw = [
            &b"USBS"[..],
            &tag.to_le_bytes(),
            &residue.to_le_bytes(),
            &[status],
        ]
        .concat();
        self.add(20, &body, format!("csw {}", hex(&csw)));
    }

    fn words(&mut self, at: u64, s: &[u8]) {
        let byte = |i: u64| {
            at.checked_add(i)
                .and_then(|i| s.get(usize::try_from(i).ok()?).copied())
                .unwrap_or(0) as u64
        };
        let number = |n: u64| (0..n).map(|i| byte(i) << (8 * i)).sum::<u64>();
        let answer = format!("words {} {} {}", number(2), number(4), number(8));
        self.add(21, &[&at.to_le_bytes(), s].concat(), answer);
    }

    fn put(&mut self, at: u64, xs: &[u8], room: &[u8]) {
        let mut after = room.to_vec();
        let end = at.checked_add(xs.len() as u64);
        if let Some(end) = end.filter(|&end| end <= room.len() as u64) {
            after[at as usize..end as usize].copy_from_slice(xs);
        }
        let body = [&at.to_le_bytes()[..], &[xs.len() as u8], xs, room].concat();
        self.add(22, &body, with_hex("put", &after));
    }

    fn laid(&mut self, n: u64) {
        let answer = format!("laid {} {}", hex(&(n as u32).to_le_bytes()), hex(&n.to_le_bytes()));
        self.add(23, &n.to_le_bytes(), answer);
    }
}

fn hex(s: &[u8]) -> String {
    s.iter().map(|b| format!("{b:02x}")).collect()
}

/// A word and the bytes behind it, if there are any.
fn with_hex(word: &str, s: &[u8]) -> String {
    if s.is_empty() {
        word.to_string()
    } else {
        format!("{word} {}", hex(s))
    }
}

fn word(s: &[u8], at: usize) -> u32 {
    u32::from_le_bytes(s[at..at + 4].try_into().unwrap())
}

fn header(magic: u32, command: u8, status: u8, length: u32) -> Vec<u8> {
    let field = u32::from_le_bytes([1, 1, command, status]);
    let sum = magic.wrapping_add(field).wrapping_add(length);
    [
        &magic.to_le_bytes()[..],
        &[1, 1, command, status],
        &length.to_le_bytes(),
        &sum.to_le_bytes(),
    ]
    .concat()
}

/// The CRC-32 that gzip writes behind the data.
fn gzip_crc(s: &[u8]) -> u32 {
    let mut gzip = Command::new("gzip")
        .args(["-1", "-c"])
        .stdin(Stdio::piped())
        .stdout(Stdio::piped())
        .spawn()
        .expect("gzip");
    let mut to = gzip.stdin.take().unwrap();
    let data = s.to_vec();
    let feeder = std::thread::spawn(move || to.write_all(&data).unwrap());
    let mut out = Vec::new();
    gzip.stdout.take().unwrap().read_to_end(&mut out).unwrap();
    feeder.join().unwrap();
    gzip.wait().unwrap();
    word(&out, out.len() - 8)
}

/// A seeded generator (xorshift64*), so that the lists are the same each time.
struct Seed(u64);

impl Seed {
    fn next(&mut self) -> u64 {
        self.0 ^= self.0 >> 12;
        self.0 ^= self.0 << 25;
        self.0 ^= self.0 >> 27;
        self.0.wrapping_mul(0x2545_F491_4F6C_DD1D)
    }

    fn bytes(&mut self, n: usize) -> Vec<u8> {
        (0..n).map(|_| self.next() as u8).collect()
    }

    fn below(&mut self, n: usize) -> usize {
        (self.next() % n as u64) as usize
    }
}

fn main() {
    let args: Vec<String> = std::env::args().collect();
    let mut l = Lists {
        input: vec![],
        output: String::new(),
        count: 0,
    };
    let mut seed = Seed(0x4C61_6D6A_686F_7475);
    let all: Vec<u8> = (0..=255).collect();
    let edges = [0x00, 0x7F, 0x80, 0x8F, 0x90, 0x9F, 0xA0, 0xBF, 0xC0, 0xFF];

    // UTF-8: every text of up to two bytes, every first byte with edges behind it for three and four
    l.utf8(b"");
    for &b in &all {
        l.utf8(&[b]);
        l.utf8_texts(b, 1, &all);
        l.utf8_texts(b, 2, &edges);
        l.utf8_texts(b, 3, &edges);
    }
    // characters at the ends of their ranges, in a row, whole and with a byte lost or changed
    let marks: String = "\u{0}\u{7F}\u{80}\u{7FF}\u{800}\u{FFF}\u{1000}\u{CFFF}\u{D000}\u{D7FF}\u{E000}\u{FFFF}\u{10000}\u{3FFFF}\u{40000}\u{FFFFF}\u{100000}\u{10FFFF}".into();
    l.utf8(marks.as_bytes());
    for i in 0..marks.len() {
        let mut less = marks.clone().into_bytes();
        less.remove(i);
        l.utf8(&less);
        let mut other = marks.clone().into_bytes();
        other[i] ^= 0x40;
        l.utf8(&other);
        l.utf8(&marks.as_bytes()[i..]);
        l.utf8(&marks.as_bytes()[..i]);
    }

    // trimming: every White_Space character alone, doubled, about a text, cut, and its neighbours
    let white: Vec<char> = (0..=0x10FFFF)
        .filter_map(char::from_u32)
        .filter(|c| c.is_whitespace())
        .collect();
    let near: Vec<char> = white
        .iter()
        .flat_map(|&c| [c as u32 - 1, c as u32, c as u32 + 1])
        .filter_map(char::from_u32)
        .chain(['\u{200B}', '\u{2060}', '\u{FEFF}', '\u{180E}', '\u{10FFFF}'])
        .collect();
    l.trim("");
    for &c in &near {
        for text in [
            format!("{c}"),
            format!("{c}{c}"),
            format!("{c}a{c}"),
            format!("a{c}b"),
            format!("{c} x{c}y \u{3000}{c}"),
            format!("\u{FF}{c}"),
            format!("{c}\u{10000}"),
        ] {
            l.trim(&text);
        }
    }
    // a White_Space character cut short is no text: the shell never trims it, so only UTF-8 is asked
    for &c in &white {
        let mut room = [0; 4];
        let s = c.encode_utf8(&mut room).as_bytes();
        for i in 0..s.len() {
            l.utf8(&s[..i]);
            l.utf8(&s[i..]);
        }
    }

    // numbers
    for n in [
        "", "+", "-", "0", "00", "1", "+1", "++1", "+-1", "-1", "1+", "9", "10", "0x", "0X", "0x0",
        "0xg", "0xG", "0x+1F", "0X+1f", "+0x1F", "0x-1", "0x 1", "0x0x1", "x1", "0xabcdef",
        "0XABCDEF", "0xaBcDeF", "a", "F", "1a", "1_000", "1.0", "1 2", " 7", "7 ", "\t7\n",
        "\u{3000}7\u{2028}\u{85}", "7\u{200B}", "\u{FF17}", "/", ":", "@", "G", "`", "g", "0x/",
        "0x:", "0x@", "0xG", "0x`", "0xg", "18446744073709551615", "18446744073709551616",
        "18446744073709551614", "+18446744073709551615", "18446744073709551620",
        "28446744073709551615", "99999999999999999999", "100000000000000000000",
        "000000000000000000000000000018446744073709551615", "0xFFFFFFFFFFFFFFFF",
        "0x10000000000000000", "0xFFFFFFFFFFFFFFFE", "0x0000000000000000000FFFFFFFFFFFFFFFF",
        "0x1FFFFFFFFFFFFFFFF", "0xFFFFFFFFFFFFFFFFF", "1844674407370955161",
        "1844674407370955162", "0x8000000000000000", "9223372036854775808", "4294967296",
        "\u{1F600}", "0x\u{3000}1", "\u{A0}0x+1F\u{A0}", "0x1F\0", "\0",
    ] {
        l.number(n);
    }
    for _ in 0..200 {
        let n = seed.next() >> seed.below(64);
        l.number(&format!("{n}"));
        l.number(&format!("0x{n:x}"));
        l.number(&format!(" 0X{n:X} "));
        l.number(&format!("{n}{}", seed.below(10)));
        l.number(&format!("0x{n:x}{:x}", seed.below(16)));
    }

    // tokens and cuts
    for s in [
        "", " ", "  ", "a", " a", "a ", "a b", "a  b", " a b ", "bdwrite 0 0x2000 256 0x40000000",
        "reset", "\t \t", "a\u{A0}b c", "  ab  cd  ",
    ] {
        l.tokens(s);
    }
    for s in ["", ";", "a;", ";a", "app;x", "app", " app ;b;c", "a\0b;c\0", "\0", "\0;", ";\0", "é;é"] {
        l.cuts(s);
    }
    for a in [&b""[..], b"a", b"ab", b"abc", b"abd", b"b", b"\0", b"a\0", b"bderase", b"bdwrite", b"bdwrit"] {
        for b in [&b""[..], b"a", b"ab", b"abc", b"abd", b"b", b"\0", b"a\0", b"bderase", b"bdwrite", b"bdwrit"] {
            l.compare(a, b);
        }
    }

    // CRC-32: every length about the eight bytes of a turn, and longer
    l.crc(b"", b"123456789");
    for n in 0..=40 {
        let s = seed.bytes(n);
        l.crc(b"", &s);
        let before = seed.bytes(n + 1);
        l.crc(&before, &s);
    }
    for n in [255, 256, 257, 511, 512, 513, 4095, 4096, 4097, 8192] {
        let s = seed.bytes(n);
        l.crc(b"", &s);
        l.crc(b"123456789", &s);
    }
    for b in [0x00, 0xFF, 0x80, 0x01] {
        l.crc(b"", &vec![b; 300]);
    }

    // headers: every command and status at some lengths, damaged ones at every bit
    for c in 0..=255 {
        let length = [0, 1, 255, 256, 65535, 65536, 0x7FFF_FFFF, 0xFFFF_FFFF][c % 8];
        l.build(0x5247_5055, c as u8, (c / 2) as u8, length);
        l.build(0x4347_5055, c as u8, 0, length);
        l.build(seed.next() as u32, c as u8, 255 - c as u8, seed.next() as u32);
        l.parse(&header(0x4347_5055, c as u8, (255 - c) as u8, length));
    }
    l.build(0, 1, 0, 0);
    let good = header(0x4347_5055, 0x12, 0, 0xFFFF_FFFF);
    for n in 0..=20 {
        l.parse(&[&good[..], &[7; 8]].concat()[..n]);
    }
    for bit in 0..128 {
        let mut bad = good.clone();
        bad[bit / 8] ^= 1 << (bit % 8);
        l.parse(&bad);
    }
    l.parse(&header(0x5247_5055, 0x12, 0, 4));

    // packets
    let mut cbw = b"USBC".to_vec();
    cbw.extend(seed.bytes(36));
    for n in 0..=40 {
        l.cbw(&cbw[..n]);
    }
    for bit in 0..40 {
        let mut bad = cbw[..31].to_vec();
        bad[bit / 8] ^= 1 << (bit % 8);
        l.cbw(&bad);
    }
    for _ in 0..40 {
        l.csw(seed.next() as u32, seed.next() as u8, seed.next() as u32);
    }
    l.csw(0, 1, 0);
    l.csw(0xFFFF_FFFF, 0, 0xFFFF_FFFF);

    // words
    for n in 0..=10 {
        let s = seed.bytes(n);
        for at in 0..=12 {
            l.words(at, &s);
        }
        l.words(u64::MAX, &s);
        l.words(u64::MAX - 3, &s);
    }
    for n in 0..=6 {
        let room = seed.bytes(n);
        for k in 0..=4 {
            let xs = seed.bytes(k);
            for at in 0..=7 {
                l.put(at, &xs, &room);
            }
            l.put(u64::MAX, &xs, &room);
            l.put(u64::MAX - 1, &xs, &room);
        }
    }
    for n in [0, 1, 255, 256, 65535, 65536, 0x0102_0304_0506_0708, u64::MAX, u64::MAX - 255] {
        l.laid(n);
    }
    for shift in 0..64 {
        l.laid(1 << shift);
    }

    std::fs::write(&args[1], &l.input).expect("STDIN");
    std::fs::write(&args[2], &l.output).expect("STDOUT");
}
