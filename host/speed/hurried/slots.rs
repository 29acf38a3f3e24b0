//! The slots: ready rows stand by their deadlines, the others by the time at which they become ready.

use super::row::{rows_of, Row};
use super::wheel::{Each, Wheel};
use crate::cases::Entry;

pub struct State {
    rows: [Row; 32],
    pub time: u32,
    late: bool,
    waiting: Wheel,
    /// the ready rows whose deadline is before the horizon, by it, and those deadlines as bits; in `far` all others
    due: [[u32; 2]; 64],
    times: u64,
    far: u32,
    /// format 2: the rows that ran in the last slot, which go first among full ties
    is_kind: bool,
    favoured: u32,
}

impl State {
    pub fn fresh(table: &[u8]) -> State {
        let mut state = State {
            rows: rows_of(table),
            time: 0,
            late: false,
            waiting: Wheel::empty(),
            due: [[0; 2]; 64],
            times: 0,
            far: 0,
            is_kind: table[0] == 2,
            favoured: 0,
        };
        for row in 0..usize::from(table[6 + usize::from(table[5])]) {
            state.waiting.put(row, state.rows[row].ready, 0);
        }
        state
    }

    /// One slot. After a late one nothing happens.
    #[inline(always)]
    pub fn slot(&mut self, k: u8, entry: &mut Entry) {
        if self.late {
            return;
        }
        self.wake();
        let picks = self.picks(k.into());
        if self.is_kind {
            self.favoured = picks;
        }
        self.time += 1;
        let mut count = 0;
        for row in Each(picks) {
            entry[2 + count] = row as u8;
            count += 1;
            self.rows[row].give();
            let ready = self.rows[row].ready.max(self.time);
            self.waiting.put(row, ready, self.time);
        }
        entry[0] = k;
        entry[1] = count as u8;
        // a row that is not ready is not late, so only those that were passed over can be
        self.late = self.times >> (self.time % 64) & 1 == 1;
    }

    #[inline(always)]
    fn wake(&mut self) {
        let time = self.time;
        let rows = &self.rows;
        self.waiting.turn(time, |row| rows[row].ready);
        let mut woken = self.waiting.take(time);
        if time % 32 == 0 {
            woken |= std::mem::take(&mut self.far);
        }
        // it moves with the rows in `far`, so that each of them goes behind all that are near
        let horizon = time / 32 * 32 + 64;
        for row in Each(woken) {
            let Row { deadline, bit, .. } = self.rows[row];
            if deadline < horizon {
                self.due[deadline as usize % 64][usize::from(!bit)] |= 1 << row;
                self.times |= 1 << (deadline % 64);
            } else {
                self.far |= 1 << row;
            }
        }
    }

    #[inline(always)]
    fn picks(&mut self, k: u32) -> u32 {
        let (mut picks, mut left) = (0, k);
        while left > 0 && self.times != 0 {
            let next = self.time + 1;
            let time = (next + self.times.rotate_right(next % 64).trailing_zeros()) % 64;
            for zero_bit in 0..2 {
                let class = self.due[time as usize][zero_bit];
                let first = self.first_of(class, left, zero_bit == 0);
                self.due[time as usize][zero_bit] = class & !first;
                picks |= first;
                left -= first.count_ones();
            }
            if self.due[time as usize] == [0; 2] {
                self.times &= !(1 << time);
            }
        }
        if left > 0 && self.far != 0 {
            picks |= self.first_far(left);
        }
        picks
    }

    /// The first of a class, at most so many: by group deadline if b = 1, then those that are favoured, then by row.
    #[inline(always)]
    fn first_of(&self, class: u32, left: u32, by_group: bool) -> u32 {
        if class.count_ones() <= left {
            return class;
        }
        let group = |row: usize| match by_group {
            true => self.rows[row].group_deadline(),
            false => 0,
        };
        self.first_by(class, left, |row| (0, u64::MAX - group(row)))
    }

    fn first_far(&mut self, left: u32) -> u32 {
        let first = self.first_by(self.far, left, |row| {
            let it = &self.rows[row];
            let group = if it.bit { it.group_deadline() } else { 0 };
            let class = 2 * it.deadline + u32::from(!it.bit);
            (class, u64::MAX - group)
        });
        self.far &= !first;
        first
    }

    #[inline(never)]
    fn first_by(&self, rows: u32, left: u32, key: impl Fn(usize) -> (u32, u64)) -> u32 {
        let mut order = [((0, 0), 0); 32];
        let mut count = 0;
        for (rows, others) in [(rows & self.favoured, 0), (rows & !self.favoured, 32)] {
            for row in Each(rows) {
                order[count] = (key(row), others | row);
                count += 1;
            }
        }
        order[..count].sort_unstable();
        let first = order[..count].iter().take(left as usize);
        first.fold(0, |set, it| set | 1 << (it.1 % 32))
    }
}
