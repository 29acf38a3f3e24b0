//! Who is picked of the ready rows.

use super::cores::favoured;
use super::look::Ready;
use super::owed::{group_behind, has_bit, is_heavy};
use super::set::{lowest, Each};
use crate::plain::slot::State;

/// Some rows, and for how many more there are cores.
pub struct Picks {
    pub rows: u32,
    pub left: u32,
}

/// The first k of the ready rows, or all of them.
#[inline(always)]
pub fn picks(state: &State, ready: &Ready, k: u32) -> Picks {
    let mut picks = Picks { rows: 0, left: k };
    for class in Each(ready.classes) {
        let here = ready.near[class];
        if picks.left <= here.size() {
            return picks.end(state, here.rows(), here.size(), class as u32);
        }
        picks.rows |= here.rows();
        picks.left -= here.size();
    }
    if ready.far_count == 0 {
        return picks;
    }
    far(state, &ready.far[..ready.far_count.min(32)], picks)
}

impl Picks {
    /// The picks end in this class, with all of its rows or with some.
    #[inline(always)]
    fn end(self, state: &State, rows: u32, size: u32, class: u32) -> Picks {
        let last = if self.left == size {
            rows
        } else if has_bit(class) {
            by_group_deadline(state, rows, self.left)
        } else {
            first(rows, self.left, favoured(state))
        };
        Picks {
            rows: self.rows | last,
            left: 0,
        }
    }
}

/// So many of the rows, which are full ties: those that are favoured, then the lowest.
#[inline(always)]
fn first(rows: u32, count: u32, favoured: u32) -> u32 {
    let favoured = rows & favoured;
    if favoured == 0 {
        return lowest(rows, count);
    }
    let size = favoured.count_ones();
    if count <= size {
        return lowest(favoured, count);
    }
    favoured | lowest(rows & !favoured, count - size)
}

/// So many of the rows, the larger group deadline first. That of a light row is 0, so heavy rows go before light ones.
#[inline(never)]
fn by_group_deadline(state: &State, rows: u32, left: u32) -> u32 {
    let mut heavy = 0;
    for row in Each(rows.into()) {
        heavy |= u32::from(is_heavy(&state.table.rows[row])) << row;
    }
    let (count, favoured) = (heavy.count_ones(), favoured(state));
    if count <= left {
        return heavy | first(rows & !heavy, left - count, favoured);
    }
    let mut keys = [0; 32];
    let mut places = keys.iter_mut();
    for (rows, others) in [(heavy & favoured, 0), (heavy & !favoured, 32)] {
        for (row, key) in Each(rows.into()).zip(&mut places) {
            let behind = group_behind(&state.table.rows[row], state.quanta[row], state.time);
            *key = (65_535 - behind) << 6 | others | row as u32;
        }
    }
    let keys = &mut keys[..count as usize];
    keys.sort_unstable();
    let first = keys[..left as usize].iter();
    first.fold(0, |rows, key| rows | 1 << (key % 32))
}

/// Goes on with rows that are not near, class by class: 32·class + row of each.
#[inline(never)]
fn far(state: &State, keys: &[u32], mut picks: Picks) -> Picks {
    let mut least = 0;
    loop {
        let (mut class, mut rows, mut size) = (u32::MAX, 0, 0);
        for key in keys {
            let one = key >> 5;
            if one < class && one >= least {
                (class, rows, size) = (one, 0, 0);
            }
            if one == class {
                rows |= 1 << (key % 32);
                size += 1;
            }
        }
        if picks.left <= size {
            return picks.end(state, rows, size, class);
        }
        if size == 0 {
            return picks;
        }
        picks.rows |= rows;
        picks.left -= size;
        least = class + 1;
    }
}
