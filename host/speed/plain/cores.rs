//! A core for each picked row.

use super::table::Table;

/// The rows of a slot, each with its core; 0 past the count.
#[derive(Clone, Copy, Default, PartialEq, Eq, Debug)]
pub struct Placement {
    pub count: u8,
    pub rows: [u8; 8],
    pub cores: [u8; 8],
}

impl Placement {
    /// A wild count is cut at 8.
    fn pairs(&self) -> impl Iterator<Item = (u8, u8)> + '_ {
        let pairs = self.rows.iter().copied().zip(self.cores);
        pairs.take(self.count.into())
    }

    /// Whether it has a row or a core that the table has not, a core twice, rows that do not rise, or more of them than there are cores. The
    /// table has no fault.
    pub fn is_faulty(&self, table: &Table) -> bool {
        let (mut least, mut cores) = (0, 0u32);
        for (row, core) in self.pairs() {
            if row >= table.count || core >= table.cores {
                return true;
            }
            if row < least || cores >> core & 1 == 1 {
                return true;
            }
            least = row + 1;
            cores |= 1 << core;
        }
        self.count > table.cores
    }

    /// The rows, as a set.
    pub fn rows(&self) -> u32 {
        self.pairs().fold(0, |rows, (row, _)| rows | 1 << row)
    }
}

/// The first k cores, as a set.
pub fn first(k: u8) -> u32 {
    let next = 1u32.checked_shl(k.into());
    next.map_or(u32::MAX, |next| next - 1)
}

/// A free core for each of the rows, which rise, with the fewest moves: a row that ran on a core that is free stays there, and each of the
/// others takes the lowest that is left.
pub fn place(last: &Placement, free: u32, rows: &[u8]) -> Placement {
    let mut own = [None; 32];
    for (row, core) in last.pairs() {
        if free >> core & 1 == 1 {
            own[usize::from(row)] = Some(core);
        }
    }
    let mut left = free;
    for &row in rows {
        if let Some(core) = own[usize::from(row)] {
            left &= !(1 << core);
        }
    }
    let mut placed = Placement {
        count: rows.len() as u8,
        ..Placement::default()
    };
    for (i, &row) in rows.iter().enumerate() {
        placed.rows[i] = row;
        placed.cores[i] = own[usize::from(row)].unwrap_or_else(|| take_lowest(&mut left));
    }
    placed
}

fn take_lowest(cores: &mut u32) -> u8 {
    let lowest = cores.trailing_zeros() as u8;
    *cores &= cores.wrapping_sub(1);
    lowest
}
