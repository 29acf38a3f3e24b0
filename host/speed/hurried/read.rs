//! The table check: all tests of all rows in one pass without a branch, and nothing kept. Only if one of them fails is the table read
//! again, for its number.

use crate::plain;

#[inline(never)]
pub fn table_check(bytes: &[u8]) -> u8 {
    if is_sound(bytes).unwrap_or(false) {
        return 0;
    }
    plain::table_check(bytes)
}

fn is_sound(bytes: &[u8]) -> Option<bool> {
    let head = bytes.get(..6)?;
    let cycle = u32::from_le_bytes([head[1], head[2], head[3], head[4]]);
    let cores = usize::from(head[5]);
    let boards = bytes.get(6..6 + cores)?;
    let count = usize::from(*bytes.get(6 + cores)?);
    let rows = bytes.get(7 + cores..)?;
    let unknown = head[0].wrapping_sub(1) >= 2;
    if unknown || cycle > 1_000_000 || cores > 8 || count > 32 || rows.len() != 9 * count {
        return None;
    }
    let mut sound = cycle != 0 && cores != 0;
    for pair in boards.windows(2) {
        sound &= pair[0] < pair[1];
    }
    let (mut last, mut sum) = (-1, 0);
    for row in rows.chunks_exact(9) {
        let half = |at: usize| u32::from(u16::from_le_bytes([row[at], row[at + 1]]));
        let (tank, cost, period) = (half(0) as i32, half(2), half(4));
        // no cost from 1 on is within a period of 0, so that is not sound whatever is divided by
        let jobs = cycle / period.max(1);
        sound &= (last < tank) & (cost != 0) & (cost <= period) & (row[8] <= 1);
        sound &= jobs * period == cycle;
        sum += u64::from(cost) * u64::from(jobs);
        last = tank;
    }
    Some(sound && sum <= cores as u64 * u64::from(cycle))
}
