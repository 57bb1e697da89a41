//! Numbers that follow from a seed (splitmix64).

pub struct Rng(u64);

impl Rng {
    /// A generator for a list of numbers.
    pub fn of(numbers: &[u64]) -> Self {
        let mut rng = Self(0);
        for number in numbers {
            rng.0 = rng.next() ^ number;
        }
        rng
    }

    pub fn next(&mut self) -> u64 {
        self.0 = self.0.wrapping_add(0x9E37_79B9_7F4A_7C15);
        let mut mixed = self.0;
        mixed = (mixed ^ (mixed >> 30)).wrapping_mul(0xBF58_476D_1CE4_E5B9);
        mixed = (mixed ^ (mixed >> 27)).wrapping_mul(0x94D0_49BB_1331_11EB);
        mixed ^ (mixed >> 31)
    }

    /// From `low` up to `high`, both included.
    pub fn within(&mut self, low: u64, high: u64) -> u64 {
        match (high - low).checked_add(1) {
            Some(count) => low + self.next() % count,
            None => self.next(),
        }
    }

    /// True in so many of a hundred cases.
    pub fn percent(&mut self, cases: u64) -> bool {
        self.next() % 100 < cases
    }

    pub fn pick<T: Clone>(&mut self, list: &[T]) -> T {
        list[(self.next() % list.len() as u64) as usize].clone()
    }

    /// The number of the case taken, each case with its weight.
    pub fn case(&mut self, weights: &[u64]) -> usize {
        let mut left = self.next() % weights.iter().sum::<u64>();
        for (case, &weight) in weights.iter().enumerate() {
            if left < weight {
                return case;
            }
            left -= weight;
        }
        unreachable!()
    }

    pub fn bytes(&mut self, count: usize) -> Vec<u8> {
        let mut bytes = Vec::with_capacity(count + 8);
        while bytes.len() < count {
            bytes.extend(self.next().to_le_bytes());
        }
        bytes.truncate(count);
        bytes
    }

    /// A length that is mostly short.
    pub fn length(&mut self, most: u64) -> u64 {
        let most = match self.case(&[2, 3, 3, 2]) {
            0 => most.min(4),
            1 => most.min(40),
            2 => most.min(700),
            _ => most,
        };
        self.within(0, most)
    }
}
