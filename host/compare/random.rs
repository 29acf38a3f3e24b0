//! Numbers that look random and are the same in every run with the same seed (splitmix64).

/// The seed where none is given.
const SEED: u64 = 1;

/// The seed of the environment variable ZB_SEED, or one that is always the same.
pub fn seed() -> Result<u64, String> {
    let text = std::env::var("ZB_SEED").unwrap_or_else(|_| SEED.to_string());
    text.parse()
        .map_err(|_| format!("ZB_SEED is no number: {}", text))
}

pub struct Random(u64);

impl Random {
    pub fn seeded(seed: u64) -> Random {
        Random(seed)
    }

    fn next(&mut self) -> u64 {
        self.0 = self.0.wrapping_add(0x9E37_79B9_7F4A_7C15);
        let mut mixed = self.0;
        mixed = (mixed ^ (mixed >> 30)).wrapping_mul(0xBF58_476D_1CE4_E5B9);
        mixed = (mixed ^ (mixed >> 27)).wrapping_mul(0x94D0_49BB_1331_11EB);
        mixed ^ (mixed >> 31)
    }

    /// From 0 up to and not including `limit`.
    pub fn below(&mut self, limit: usize) -> usize {
        (self.next() % limit as u64) as usize
    }

    /// From `low` up to and including `high`.
    pub fn between(&mut self, low: usize, high: usize) -> usize {
        low + self.below(high - low + 1)
    }

    pub fn one_in(&mut self, chances: usize) -> bool {
        self.below(chances) == 0
    }

    pub fn byte(&mut self) -> u8 {
        self.next() as u8
    }

    pub fn bytes(&mut self, count: usize) -> Vec<u8> {
        (0..count).map(|_| self.byte()).collect()
    }

    pub fn pick<T: Copy>(&mut self, from: &[T]) -> T {
        from[self.below(from.len())]
    }

    pub fn shuffle<T>(&mut self, list: &mut [T]) {
        for place in (1..list.len()).rev() {
            list.swap(place, self.below(place + 1));
        }
    }

    /// So many numbers up to `high`, rising strictly: some close together, some spread out, some up to the very end.
    pub fn rising(&mut self, count: usize, high: usize) -> Vec<usize> {
        match self.below(3) {
            0 => {
                let first = self.below(high + 2 - count);
                (first..first + count).collect()
            }
            1 => (high + 1 - count..=high).collect(),
            _ => {
                let mut found = std::collections::BTreeSet::new();
                while found.len() < count {
                    found.insert(self.below(high + 1));
                }
                found.into_iter().collect()
            }
        }
    }
}
