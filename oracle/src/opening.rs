//! The body of an opening, kinds 16 and 17, and the refusals 9 to 14 by 01's table, which the Rust
//! doesn't have.

pub const NOR: u8 = 0;
pub const NAND: u8 = 1;

/// The fields in the order of the body. The lists and bytes carry their own numbers.
#[derive(Clone, Debug, Default, PartialEq, Eq)]
pub struct Opening {
    pub device: u8,
    pub fill: u8,
    pub step: u8,
    pub boot_stage: u8,
    pub media_dev_id: u32,
    pub chip_len: u32,
    pub page: u32,
    pub pages: u32,
    pub blocks: u32,
    pub figure: u64,
    pub buffer_len: u32,
    pub scratch_base: u32,
    pub scratch_len: u32,
    pub rooms: [u16; 3],
    pub modes: u16,
    pub offsets: Vec<u64>,
    pub sizes: Vec<u64>,
    pub name_lens: Vec<u64>,
    pub names: Vec<u8>,
    pub marks: Vec<u8>,
    pub faults: Vec<u8>,
    pub table: Vec<u8>,
}

/// Takes numbers and bytes off the front of a body.
struct Front<'a>(&'a [u8]);

impl<'a> Front<'a> {
    fn bytes(&mut self, count: usize) -> Option<&'a [u8]> {
        let (bytes, rest) = self.0.split_at_checked(count)?;
        self.0 = rest;
        Some(bytes)
    }

    fn array<const N: usize>(&mut self) -> Option<[u8; N]> {
        Some(self.bytes(N)?.try_into().unwrap())
    }

    fn u8(&mut self) -> Option<u8> {
        Some(self.array::<1>()?[0])
    }

    fn u16(&mut self) -> Option<u16> {
        Some(u16::from_le_bytes(self.array()?))
    }

    fn u32(&mut self) -> Option<u32> {
        Some(u32::from_le_bytes(self.array()?))
    }

    fn u64(&mut self) -> Option<u64> {
        Some(u64::from_le_bytes(self.array()?))
    }

    fn list(&mut self, count: u16) -> Option<Vec<u64>> {
        (0..count).map(|_| self.u64()).collect()
    }
}

impl Opening {
    /// None if the body hasn't the shape of an opening.
    pub fn parse(body: &[u8]) -> Option<Self> {
        let mut front = Front(body);
        let mut opening = Self {
            device: front.u8()?,
            fill: front.u8()?,
            step: front.u8()?,
            boot_stage: front.u8()?,
            media_dev_id: front.u32()?,
            chip_len: front.u32()?,
            page: front.u32()?,
            pages: front.u32()?,
            blocks: front.u32()?,
            figure: front.u64()?,
            buffer_len: front.u32()?,
            scratch_base: front.u32()?,
            scratch_len: front.u32()?,
            rooms: [front.u16()?, front.u16()?, front.u16()?],
            modes: front.u16()?,
            ..Self::default()
        };
        let lists = [front.u16()?, front.u16()?, front.u16()?];
        let bytes = [front.u16()?, front.u16()?, front.u16()?, front.u16()?];
        opening.offsets = front.list(lists[0])?;
        opening.sizes = front.list(lists[1])?;
        opening.name_lens = front.list(lists[2])?;
        opening.names = front.bytes(bytes[0] as usize)?.to_vec();
        opening.marks = front.bytes(bytes[1] as usize)?.to_vec();
        opening.faults = front.bytes(bytes[2] as usize)?.to_vec();
        opening.table = front.bytes(bytes[3] as usize)?.to_vec();
        let shaped = front.0.is_empty()
            && opening.device <= NAND
            && opening.modes == 0
            && opening.chip_len <= 1_048_576
            && opening.buffer_len <= 1_048_576
            && opening.scratch_len <= 65_536
            && opening.rooms.iter().all(|&room| room <= 16_384);
        shaped.then_some(opening)
    }

    /// The body again.
    pub fn body(&self) -> Vec<u8> {
        let mut body = vec![self.device, self.fill, self.step, self.boot_stage];
        for number in [
            self.media_dev_id,
            self.chip_len,
            self.page,
            self.pages,
            self.blocks,
        ] {
            body.extend(number.to_le_bytes());
        }
        body.extend(self.figure.to_le_bytes());
        for number in [self.buffer_len, self.scratch_base, self.scratch_len] {
            body.extend(number.to_le_bytes());
        }
        for number in self.rooms {
            body.extend(number.to_le_bytes());
        }
        body.extend(self.modes.to_le_bytes());
        for list in [&self.offsets, &self.sizes, &self.name_lens] {
            body.extend((list.len() as u16).to_le_bytes());
        }
        for bytes in [&self.names, &self.marks, &self.faults, &self.table] {
            body.extend((bytes.len() as u16).to_le_bytes());
        }
        for list in [&self.offsets, &self.sizes, &self.name_lens] {
            for number in list {
                body.extend(number.to_le_bytes());
            }
        }
        for bytes in [&self.names, &self.marks, &self.faults, &self.table] {
            body.extend(bytes);
        }
        body
    }

    /// 0, or the number of the refusal, tested in 01's order. The rooms count for an engine only.
    pub fn refusal(&self, engine: bool) -> u8 {
        let [request, reply, sent] = self.rooms;
        if engine && (request != 8208 || reply != 4112 || sent < 4125) {
            return 9;
        }
        if self.device == NOR {
            if self.buffer_len < 4096 {
                return 10;
            }
            let size = self.chip_len;
            if !size.is_multiple_of(4096) || size < 4096 || size > 16 << 20 {
                return 11;
            }
        }
        if !self.partitions_fit() {
            return 12;
        }
        if self.device == NAND && !self.geometry_fits() {
            return 13;
        }
        if self.scratch_base as u64 + self.scratch_len as u64 > 1 << 32 {
            return 14;
        }
        0
    }

    fn partitions_fit(&self) -> bool {
        let count = self.offsets.len();
        count <= 32
            && self.sizes.len() == count
            && self.name_lens.len() == count
            && self.name_lens.iter().all(|&len| len <= 64)
            && self.name_lens.iter().sum::<u64>() == self.names.len() as u64
            && self.name_parts().all(|name| str::from_utf8(name).is_ok())
            && self.ends().all(|end| end.is_some_and(|end| end <= 1 << 31))
    }

    fn geometry_fits(&self) -> bool {
        let (page, pages, blocks) = (self.page as u64, self.pages as u64, self.blocks as u64);
        (512..=4096).contains(&page)
            && page.is_power_of_two()
            && (1..=256).contains(&pages)
            && pages.is_power_of_two()
            && (1..=4096).contains(&blocks)
            && self.chip_len as u64 == page * pages * blocks
            && self.marks.len() as u64 == blocks
            && self.figure <= 1 << 31
    }

    fn name_parts(&self) -> impl Iterator<Item = &[u8]> {
        let mut rest = self.names.as_slice();
        self.name_lens.iter().map(move |&len| {
            let (name, more) = rest.split_at(len as usize);
            rest = more;
            name
        })
    }

    fn ends(&self) -> impl Iterator<Item = Option<u64>> {
        self.offsets
            .iter()
            .zip(&self.sizes)
            .map(|(offset, size)| offset.checked_add(*size))
    }

    /// The names of an opening that isn't refused.
    pub fn names(&self) -> impl Iterator<Item = &str> {
        self.name_parts().map(|name| str::from_utf8(name).unwrap())
    }

    /// What the Rust takes for the capacity of an opening that isn't refused.
    pub fn own_capacity(&self) -> u64 {
        let ends = self.ends().map(|end| end.unwrap()).max().unwrap_or(0);
        ends.max(self.chip_len as u64)
    }

    pub fn chip_bytes(&self) -> Vec<u8> {
        (0..self.chip_len)
            .map(|i| self.fill.wrapping_add((i as u8).wrapping_mul(self.step)))
            .collect()
    }
}

#[cfg(test)]
mod tests {
    use super::Opening;

    #[test]
    fn body_and_back() {
        let opening = Opening {
            device: 1,
            media_dev_id: 7,
            figure: 1 << 40,
            offsets: vec![1, 2],
            names: b"ab".to_vec(),
            faults: vec![0, 1],
            ..Opening::default()
        };
        let body = opening.body();
        assert_eq!(body.len(), 66 + 16 + 4);
        assert_eq!(Opening::parse(&body).unwrap().body(), body);
        assert!(Opening::parse(&body[1..]).is_none());
        assert!(Opening::parse(&[&body[..], &[0]].concat()).is_none());
    }
}
