//! Makes a list of records smaller while something holds of it.

use std::time::{Duration, Instant};

use crate::make::header;
use crate::opening::{NAND, NOR, Opening};
use crate::record::*;

/// What has to hold of the records.
pub type Holds<'a> = dyn Fn(&[Vec<u8>]) -> bool + 'a;

/// The records in the making.
struct Shrink<'a> {
    records: Vec<Vec<u8>>,
    holds: &'a Holds<'a>,
    end: Instant,
}

/// Drops records, then simplifies the openings and shortens the bodies of those that are left, until
/// nothing more goes or the time is over. The first `keep` records stay.
pub fn shrink(
    records: Vec<Vec<u8>>,
    keep: usize,
    time: Duration,
    holds: &Holds<'_>,
) -> Vec<Vec<u8>> {
    let end = Instant::now() + time;
    let mut shrink = Shrink {
        records,
        holds,
        end,
    };
    loop {
        let mut smaller = shrink.drop_records(keep);
        for place in 0..shrink.records.len() {
            smaller |= match kind(&shrink.records[place]) {
                Some(OPEN_STORAGE | OPEN_ENGINE) => shrink.opening(place),
                Some(_) => shrink.body(place),
                None => false,
            };
        }
        if !smaller || Instant::now() >= end {
            return shrink.records;
        }
    }
}

/// Drops items only, the first `keep` excepted.
pub fn fewer(items: Vec<Vec<u8>>, keep: usize, holds: &Holds<'_>) -> Vec<Vec<u8>> {
    let end = Instant::now() + Duration::from_secs(3600);
    let mut shrink = Shrink {
        records: items,
        holds,
        end,
    };
    shrink.drop_records(keep);
    shrink.records
}

/// The kind of a whole record.
fn kind(record: &[u8]) -> Option<u16> {
    let head = record.get(..6)?;
    (long(head) as usize == record.len() - 6).then(|| word(&head[4..]))
}

impl Shrink<'_> {
    fn tries(&mut self, records: Vec<Vec<u8>>) -> bool {
        let taken = Instant::now() < self.end && (self.holds)(&records);
        if taken {
            self.records = records;
        }
        taken
    }

    /// The record at a place with another body.
    fn with(&mut self, place: usize, body: &[u8]) -> bool {
        let kind = word(&self.records[place][4..]);
        let mut records = self.records.clone();
        records[place].clear();
        push(&mut records[place], kind, body);
        self.tries(records)
    }

    /// Many at a time and then one by one, from the end: what stands behind the difference goes first.
    fn drop_records(&mut self, keep: usize) -> bool {
        let mut smaller = false;
        let count = self.records.len().saturating_sub(keep);
        for (start, end) in ranges(count, 1) {
            let (start, end) = (start + keep, end + keep);
            if end <= self.records.len() {
                let mut records = self.records.clone();
                records.drain(start..end);
                smaller |= self.tries(records);
            }
        }
        smaller
    }

    /// Makes bytes of a body 0, and drops bytes where the length is free. In a long body pieces of
    /// a 64th are the least; it may be shorter the next time.
    fn body(&mut self, place: usize) -> bool {
        let mut smaller = false;
        let len = self.records[place].len() - 6;
        for (start, end) in ranges(len, len / 64) {
            let mut now = self.records[place][6..].to_vec();
            if now[start..end].iter().any(|&byte| byte != 0) {
                now[start..end].fill(0);
                smaller |= self.with(place, &now);
            }
        }
        let free = match word(&self.records[place][4..]) {
            WRITE | PACKET | AT => 0,
            PUT => 8,
            POKE => 4,
            _ => len,
        };
        for (start, end) in ranges(len - free, len / 64) {
            let (start, end) = (start + free, end + free);
            let mut fewer = self.records[place][6..].to_vec();
            if end > fewer.len() {
                continue;
            }
            fewer.drain(start..end);
            // A frame that is cut but says so is a frame still.
            smaller |= match mended(&fewer) {
                Some(body) if self.with(place, &body) => true,
                _ => self.with(place, &fewer),
            };
        }
        smaller
    }

    /// Takes away what an opening has beside the least.
    fn opening(&mut self, place: usize) -> bool {
        let changes: [fn(&mut Opening); 14] = [
            |o| o.faults.clear(),
            |o| o.table.clear(),
            |o| (o.fill, o.step) = (0xFF, 0),
            |o| o.marks.fill(0xFF),
            |o| o.boot_stage = 0,
            |o| o.media_dev_id = 0,
            |o| o.rooms = [8208, 4112, 4125],
            |o| o.scratch_base = 0x4000_0000,
            |o| o.scratch_len = 0,
            |o| o.scratch_len /= 2,
            |o| o.table.truncate(o.table.len() / 2),
            |o| o.faults.truncate(o.faults.len() / 2),
            |o| {
                if o.device == NOR {
                    o.buffer_len = 4096;
                    (o.page, o.pages, o.figure, o.marks) = (0, 0, 0, vec![]);
                }
            },
            smaller_chip,
        ];
        let mut smaller = false;
        for change in changes {
            smaller |= self.opened(place, change);
        }
        for number in (0..self.opening_at(place).map_or(0, |o| o.offsets.len())).rev() {
            smaller |= self.opened(place, |o| drop_partition(o, number));
        }
        for number in (0..self.opening_at(place).map_or(0, |o| o.faults.len())).rev() {
            smaller |= self.opened(place, |o| {
                if let Some(fault) = o.faults.get_mut(number) {
                    *fault = 0;
                }
            });
        }
        smaller
    }

    fn opening_at(&self, place: usize) -> Option<Opening> {
        Opening::parse(&self.records[place][6..])
    }

    fn opened(&mut self, place: usize, change: impl Fn(&mut Opening)) -> bool {
        let Some(mut opening) = self.opening_at(place) else {
            return false;
        };
        change(&mut opening);
        let body = opening.body();
        body != self.records[place][6..] && self.with(place, &body)
    }
}

fn smaller_chip(opening: &mut Opening) {
    match opening.device {
        NOR => opening.chip_len = (opening.chip_len / 2).next_multiple_of(4096),
        _ if opening.blocks < 2 => {}
        _ => {
            let own = opening.figure == opening.own_capacity();
            opening.blocks /= 2;
            opening.marks.truncate(opening.blocks as usize);
            opening.chip_len = opening.page * opening.pages * opening.blocks;
            if own {
                opening.figure = opening.own_capacity();
            }
        }
    }
}

fn drop_partition(opening: &mut Opening, number: usize) {
    let lens = &opening.name_lens;
    let same = opening.offsets.len() == lens.len() && opening.sizes.len() == lens.len();
    if !same || lens.iter().sum::<u64>() != opening.names.len() as u64 {
        return;
    }
    let own = opening.device == NAND && opening.figure == opening.own_capacity();
    let start: u64 = lens[..number].iter().sum();
    let end = start + lens[number];
    opening.names.drain(start as usize..end as usize);
    opening.offsets.remove(number);
    opening.sizes.remove(number);
    opening.name_lens.remove(number);
    if own {
        opening.figure = opening.own_capacity();
    }
}

/// A frame with the length that it has and the checksum to it, and a shell line likewise.
fn mended(body: &[u8]) -> Option<Vec<u8>> {
    if body.len() < 16 || &body[..4] != b"UPGC" {
        return None;
    }
    let len = body.len() as u32 - 16;
    let head = header(body[6], body[7], len, body[4], body[5]);
    let mut frame = [&head, &body[16..]].concat();
    if frame[6] == 0x05 && len >= 4 {
        frame[16..20].copy_from_slice(&(len - 4).to_le_bytes());
    }
    Some(frame)
}

/// Pieces of a range from its end to its start: all of it, halves, and so on down to the least size.
fn ranges(len: usize, least: usize) -> Vec<(usize, usize)> {
    let mut ranges = vec![];
    let mut size = len;
    while size >= least.max(1) {
        let mut end = len;
        while end > 0 {
            let start = end.saturating_sub(size);
            ranges.push((start, end));
            end = start;
        }
        size /= 2;
    }
    ranges
}

#[cfg(test)]
mod tests {
    use super::*;
    use crate::make::{frame, shell};

    fn record(kind: u16, body: &[u8]) -> Vec<u8> {
        let mut bytes = vec![];
        push(&mut bytes, kind, body);
        bytes
    }

    /// What is needed stays: here an opening with a second fault, and a frame that holds a 7.
    #[test]
    fn to_the_least() {
        let opening = Opening {
            chip_len: 16_384,
            buffer_len: 5000,
            scratch_base: 70_000,
            scratch_len: 64,
            rooms: [8208, 4112, 5000],
            faults: vec![0, 1, 1],
            table: b"table".to_vec(),
            ..Opening::default()
        };
        let records = vec![
            record(OPEN_ENGINE, &opening.body()),
            record(READ, &16u16.to_le_bytes()),
            record(WRITE, &frame(0x02, &[1, 2, 7, 3, 4])),
            record(LOOK, &[]),
        ];
        let small = shrink(records, 1, Duration::from_secs(60), &|records| {
            let opening = Opening::parse(&records[0][6..]).unwrap();
            let seven = |r: &Vec<u8>| r.len() > 22 && &r[6..10] == b"UPGC" && r[22..].contains(&7);
            opening.faults.get(1) == Some(&1) && records.iter().any(seven)
        });
        assert_eq!(small.len(), 2);
        assert_eq!(small[1], record(WRITE, &small[1][6..]));
        assert_eq!(small[1][6 + 16..], [7]);
        let opening = Opening::parse(&small[0][6..]).unwrap();
        assert_eq!((opening.chip_len, opening.scratch_len), (4096, 0));
        assert_eq!((opening.faults, opening.table), (vec![0, 1, 0], vec![]));
    }

    #[test]
    fn cut_frames_are_mended() {
        let cut = &frame(0x10, &[5; 20])[..30];
        assert_eq!(mended(cut).unwrap(), frame(0x10, &[5; 14]));
        let line = shell("reset now");
        assert_eq!(mended(&line[..25]).unwrap(), shell("reset"));
        assert_eq!(mended(b"UPGC"), None);
    }
}
