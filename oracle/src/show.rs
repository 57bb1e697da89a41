//! A record as a line to read.

use crate::opening::{NOR, Opening};
use crate::record::*;

/// The kind in words, its numbers, and bytes in hex; a run of one byte is shown by its length.
pub fn show(record: &[u8]) -> String {
    let mut reader = Reader::new(record);
    let Next::Record(record) = reader.next() else {
        return format!("malformed {}", bytes(record));
    };
    let body = record.body;
    match record.kind {
        OPEN_STORAGE | OPEN_ENGINE => {
            let what = match record.kind {
                OPEN_STORAGE => "open a storage",
                _ => "open an engine",
            };
            format!("{what}: {}", opening(&Opening::parse(body).unwrap()))
        }
        WRITE => format!("write {} bytes: {}", body.len(), bytes(body)),
        READ => format!("read, room {}", word(body)),
        RESET => "reset".to_string(),
        PACKET => format!("packet of {} bytes: {}", body.len(), bytes(body)),
        FLAGS => "flags".to_string(),
        FLUSH => "flush".to_string(),
        ERASE => format!("erase at {}, size {}", quad(body), quad(&body[8..])),
        PUT => {
            let put = &body[8..];
            format!("put at {}, {} bytes: {}", quad(body), put.len(), bytes(put))
        }
        GET => format!("get at {}, room {}", quad(body), word(&body[8..])),
        FROM | INTO => {
            let what = if record.kind == FROM { "from" } else { "into" };
            let (place, len) = (long(&body[8..]), long(&body[12..]));
            format!(
                "{what} scratch: at {}, place {place}, length {len}",
                quad(body)
            )
        }
        AT => format!("at {}", bytes(body)),
        POKE => format!("poke at {}: {}", long(body), bytes(&body[4..])),
        _ => "look".to_string(),
    }
}

fn opening(opening: &Opening) -> String {
    let mut fields = vec![if opening.device == NOR { "NOR" } else { "NAND" }.to_string()];
    let numbers = [
        ("fill", opening.fill as u64),
        ("step", opening.step as u64),
        ("boot stage", opening.boot_stage as u64),
        ("device id", opening.media_dev_id as u64),
        ("chip", opening.chip_len as u64),
        ("page", opening.page as u64),
        ("pages a block", opening.pages as u64),
        ("blocks", opening.blocks as u64),
        ("capacity", opening.figure),
        ("sector buffer", opening.buffer_len as u64),
        ("scratch base", opening.scratch_base as u64),
        ("scratch", opening.scratch_len as u64),
    ];
    for (name, number) in numbers {
        if number != 0 {
            fields.push(format!("{name} {number}"));
        }
    }
    if opening.rooms != [0; 3] {
        fields.push(format!("rooms {:?}", opening.rooms));
    }
    let lists = [
        ("offsets", &opening.offsets),
        ("sizes", &opening.sizes),
        ("name lengths", &opening.name_lens),
    ];
    for (name, list) in lists {
        if !list.is_empty() {
            fields.push(format!("{name} {list:?}"));
        }
    }
    let runs = [
        ("names", &opening.names),
        ("marks", &opening.marks),
        ("faults", &opening.faults),
        ("table", &opening.table),
    ];
    for (name, run) in runs {
        if !run.is_empty() {
            fields.push(format!("{name} {}", bytes(run)));
        }
    }
    fields.join(", ")
}

fn bytes(bytes: &[u8]) -> String {
    if bytes.is_empty() {
        return "none".to_string();
    }
    let mut line = String::new();
    for run in bytes.chunk_by(|a, b| a == b) {
        if run.len() > 8 {
            line += &format!(" {:02x}*{} ", run[0], run.len());
        } else {
            crate::run::push_hex(&mut line, run);
        }
    }
    line.trim().to_string()
}

#[cfg(test)]
mod tests {
    use super::*;

    #[test]
    fn shown() {
        let line = |kind: u16, body: &[u8]| {
            let mut record = vec![];
            push(&mut record, kind, body);
            show(&record)
        };
        assert_eq!(line(WRITE, b"UPGC"), "write 4 bytes: 55504743");
        assert_eq!(line(PACKET, &[0; 31]), "packet of 31 bytes: 00*31");
        assert_eq!(line(LOOK, &[]), "look");
        assert_eq!(line(99, &[]), "malformed 000000006300");
        let opening = Opening {
            chip_len: 4096,
            faults: vec![0, 1],
            ..Opening::default()
        };
        assert_eq!(
            line(OPEN_STORAGE, &opening.body()),
            "open a storage: NOR, chip 4096, faults 0001"
        );
    }
}
