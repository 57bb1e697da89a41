//! Shell lines: every command with good and bad numbers.

use super::Rng;
use super::openings::World;

/// A line, mostly well formed.
pub fn line(rng: &mut Rng, world: &World) -> String {
    let word = rng.case(&[20, 24, 20, 12, 8, 1, 6]);
    let command = match word {
        0 => "bderase",
        1 => "bdwrite",
        2 => "bdread",
        3 => "get_bootdevice",
        4 => rng.pick(&["bdopen", "bdclose", "bdcfg", "efuse", "aicupg"]),
        5 => "reset",
        _ => rng.pick(&[
            "",
            "BDREAD",
            "bdwrite2",
            "bderase\t",
            "\tbdread",
            "reset2",
            "\u{a0}reset",
            "bd",
            "help",
            "bdwrit",
            "Reset",
        ]),
    };
    let (base, scratch) = (
        world.opening.scratch_base as u64,
        world.opening.scratch_len as u64,
    );
    let place = match rng.case(&[5, 3, 2]) {
        0 => base,
        1 => base + rng.within(0, scratch),
        _ => match rng.case(&[1, 1, 1, 1, 1]) {
            0 => base - 1,
            1 => base + scratch,
            2 => (base + scratch).saturating_sub(1),
            3 => base + scratch + 1,
            _ => rng.pick(&[0, 1 << 32, u64::MAX, base + (1 << 32)]),
        },
    };
    let offset = world.offset(rng);
    let len = match rng.case(&[4, 4, 2, 1]) {
        0 => world.length(rng, offset, 9_000),
        1 => rng.pick(&[0, 1, 255, 256, 257, 512, 513, 0x24, 0x28, 0x51, 0x52, 0x100]),
        2 => scratch,
        _ => rng.pick(&[scratch + 1, u64::MAX, 1 << 32]),
    };
    let numbers = match command {
        "bderase" => {
            let size = match rng.case(&[3, 2, 1]) {
                0 => rng.within(0, 3) * world.block,
                1 => len,
                _ => world.capacity.saturating_sub(offset),
            };
            vec![offset, size]
        }
        "bdwrite" | "bdread" => vec![offset, len, place],
        "get_bootdevice" => vec![place, len],
        _ => (0..rng.within(0, 3)).map(|_| rng.next() >> 40).collect(),
    };
    let mut tokens = vec![command.to_string()];
    if command != "get_bootdevice" {
        tokens.push(rng.pick(&["0", "0", "mtd0", "", "\u{e4}"]).to_string());
    }
    tokens.extend(numbers.into_iter().map(|value| number(rng, value)));
    match rng.case(&[80, 6, 6, 3, 5]) {
        0 => {}
        1 => drop(tokens.pop()),
        2 => tokens.push(rng.pick(&["more", "", "0", "\t"]).to_string()),
        3 => {
            let place = rng.within(0, tokens.len() as u64) as usize;
            tokens.insert(place, String::new());
        }
        _ => {
            let place = rng.within(0, tokens.len() as u64 - 1) as usize;
            tokens[place] = wrong(rng);
        }
    }
    tokens.join(" ")
}

/// A number as text, in one of the forms that are taken.
fn number(rng: &mut Rng, value: u64) -> String {
    let text = match rng.case(&[40, 40, 5, 5, 5, 5]) {
        0 => format!("{value}"),
        1 => format!("0x{value:x}"),
        2 => format!("0X{value:X}"),
        3 => format!("+{value}"),
        4 => format!("0x+{value:x}"),
        _ => format!("{value:025}"),
    };
    match rng.case(&[90, 4, 3, 3]) {
        0 => text,
        1 => format!("\t{text}\n"),
        2 => format!("\u{a0}{text}"),
        _ => format!("{text}\u{2003}\u{85}"),
    }
}

/// A token that is no number, or one at the end of the range.
fn wrong(rng: &mut Rng) -> String {
    rng.pick(&[
        "",
        "+",
        "-1",
        "0x",
        "0X",
        "0x+",
        "+0x1F",
        "0x-1",
        "0xG",
        "0x0x1",
        "1_000",
        "1e3",
        "x10",
        "++1",
        "- 1",
        "1\u{200b}",
        "\u{661}",
        "\u{ff11}",
        "18446744073709551616",
        "18446744073709551620",
        "99999999999999999999999",
        "0x10000000000000000",
        "0x0000000000000000000010",
        "000000000000000000000016",
        "0xffffFFFF",
        "\t",
    ])
    .to_string()
}
