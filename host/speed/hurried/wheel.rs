//! Rows by a time that lies ahead: a set of rows for each of the next 64 times, and one for all that lie further off.

pub struct Wheel {
    near: [u32; 64],
    far: u32,
}

/// The rows of a set, rising.
pub struct Each(pub u32);

impl Iterator for Each {
    type Item = usize;

    #[inline(always)]
    fn next(&mut self) -> Option<usize> {
        if self.0 == 0 {
            return None;
        }
        let row = self.0.trailing_zeros() as usize;
        self.0 &= self.0 - 1;
        Some(row)
    }
}

impl Wheel {
    pub fn empty() -> Wheel {
        Wheel {
            near: [0; 64],
            far: 0,
        }
    }

    #[inline(always)]
    pub fn put(&mut self, row: usize, at: u32, now: u32) {
        if at - now < 64 {
            self.near[at as usize % 64] |= 1 << row;
        } else {
            self.far |= 1 << row;
        }
    }

    #[inline(always)]
    pub fn at(&self, time: u32) -> u32 {
        self.near[time as usize % 64]
    }

    #[inline(always)]
    pub fn take(&mut self, time: u32) -> u32 {
        std::mem::take(&mut self.near[time as usize % 64])
    }

    #[inline(always)]
    pub fn drop(&mut self, row: usize, at: u32) {
        self.near[at as usize % 64] &= !(1 << row);
        self.far &= !(1 << row);
    }

    /// Every 32 slots the rows that have come near are moved: before any of them is due.
    #[inline(always)]
    pub fn turn(&mut self, now: u32, at: impl Fn(usize) -> u32) {
        if now % 32 == 0 && self.far != 0 {
            for row in Each(std::mem::take(&mut self.far)) {
                self.put(row, at(row), now);
            }
        }
    }
}
