//! What is remembered of the last slot, and a core for each picked row.

use super::set::Each;
use crate::plain::cores::Placement;
use crate::plain::slot::State;

/// Whether it has a row or a core that the table has not, a core twice, or rows that do not rise. The table has no fault. Cores below M of which none
/// is there twice are not more than M.
#[inline(always)]
pub fn is_faulty(last: &Placement, cores: u8, count: u8) -> bool {
    if last.count > 8 {
        return true;
    }
    let mut on = 0u64;
    for (_, core) in pairs(last) {
        on |= 1 << (core % 64);
    }
    // each core is below 64, below M, and there once: then there are as many marks as places
    has_64_or_more(last)
        || do_not_rise(last)
        || pairs(last).last().map_or(false, |(row, _)| row >= count)
        || on >> cores != 0
        || on.count_ones() != u32::from(last.count)
}

/// All places at once: those below the count have no mark for 64 or 128.
#[inline(always)]
fn has_64_or_more(last: &Placement) -> bool {
    let numbers = u64::from_le_bytes(last.rows) | u64::from_le_bytes(last.cores);
    numbers & below(last.count) & 0xC0C0_C0C0_C0C0_C0C0 != 0
}

/// All places at once: the row of each but the last, with one more, is taken from the row behind it. All are below 64, so that the mark for 128,
/// which is put there before, stays if and only if the row behind is above it.
#[inline(always)]
fn do_not_rise(last: &Placement) -> bool {
    const MARKS: u64 = 0x8080_8080_8080_8080;
    const ONES: u64 = 0x0101_0101_0101_0101;
    let pairs = below(last.count) >> 8;
    let rows = u64::from_le_bytes(last.rows);
    let (one, behind) = (rows & pairs, rows >> 8 & pairs);
    ((behind | MARKS) - one - ONES) & pairs & MARKS != pairs & MARKS
}

/// The bytes of so many places.
#[inline(always)]
fn below(count: u8) -> u64 {
    !u64::MAX.checked_shl(8 * u32::from(count)).unwrap_or(0)
}

#[inline(always)]
fn pairs(last: &Placement) -> impl Iterator<Item = (u8, u8)> + '_ {
    let pairs = last.rows.iter().copied().zip(last.cores);
    pairs.take(last.count.into())
}

/// The rows that go first among full ties: in format 2 those that ran in the last slot.
#[inline(always)]
pub fn favoured(state: &State) -> u32 {
    if state.table.format == 1 {
        return 0;
    }
    pairs(&state.last).fold(0, |rows, (row, _)| rows | 1 << (row % 32))
}

/// The cores on which picked rows stay, and those that are left for the others.
struct Homes {
    own: [u8; 32],
    left: u32,
}

/// A row that stays nowhere.
const NONE: u8 = 255;

impl Homes {
    /// The fewest moves: who ran on a core that is free stays there. What is remembered has no fault.
    #[inline(always)]
    fn of(last: &Placement, free: u32, picked: u32) -> Homes {
        let (mut own, mut left) = ([NONE; 32], free);
        for (row, core) in pairs(last) {
            let (row, core) = (row % 32, core % 32);
            if picked >> row & 1 == 1 && free >> core & 1 == 1 {
                own[usize::from(row)] = core;
                left &= !(1 << core);
            }
        }
        Homes { own, left }
    }

    /// A core for the next of the picked rows: its own, or the lowest that is left.
    #[inline(always)]
    fn core_of(&mut self, row: usize) -> u8 {
        if self.own[row] != NONE {
            return self.own[row];
        }
        let lowest = self.left.trailing_zeros();
        self.left &= self.left.wrapping_sub(1);
        lowest as u8
    }
}

/// A core and a quantum for each picked row, and its place in the record, which has one for each.
#[inline(never)]
pub fn give(
    last: &mut Placement,
    quanta: &mut [u64; 32],
    free: u32,
    picked: u32,
    record: &mut [u8],
) {
    let mut homes = Homes::of(last, free, picked);
    last.count = record.len() as u8;
    last.rows = [0; 8];
    last.cores = [0; 8];
    let places = last.rows.iter_mut().zip(&mut last.cores);
    for ((byte, (named, core)), row) in record.iter_mut().zip(places).zip(Each(picked.into())) {
        *byte = row as u8;
        *named = row as u8;
        *core = homes.core_of(row);
        quanta[row] += 1;
    }
}
