//! Sets of rows: bit i for row i.

/// The rows of a set, or other numbers below 64, the lowest first.
pub struct Each(pub u64);

impl Iterator for Each {
    type Item = usize;

    #[inline(always)]
    fn next(&mut self) -> Option<usize> {
        if self.0 == 0 {
            return None;
        }
        let lowest = self.0.trailing_zeros();
        self.0 &= self.0 - 1;
        Some(lowest as usize)
    }
}

/// So many of the rows, the lowest.
#[inline(always)]
pub fn lowest(rows: u32, count: u32) -> u32 {
    let mut others = rows;
    for _ in 0..count {
        others &= others.wrapping_sub(1);
    }
    rows & !others
}

/// A set with its size, which stands in the low half: one sum puts a row in and counts it.
#[derive(Clone, Copy, Default)]
pub struct Counted(u64);

impl Counted {
    pub const ROW_0: Counted = Counted(1 << 32);

    /// Of a single row, not counted yet: the same of the next row.
    #[inline(always)]
    pub fn next_row(self) -> Counted {
        Counted(self.0 << 1)
    }

    /// Puts a single row in, which is not in it.
    #[inline(always)]
    pub fn put(&mut self, row: Counted) {
        self.0 += row.0 + 1;
    }

    #[inline(always)]
    pub fn rows(self) -> u32 {
        (self.0 >> 32) as u32
    }

    #[inline(always)]
    pub fn size(self) -> u32 {
        self.0 as u32
    }
}
