//! The state, and one slot of it.

use super::cores::{self, Placement};
use super::picks::{picks, Picks};
use super::table::{self, Table};

pub const TIME_LIMIT: u64 = 1_000_000_000_000;

#[derive(Clone, Copy, PartialEq, Eq, Debug)]
pub struct State {
    pub table: Table,
    pub time: u64,
    pub stopped: bool,
    pub quanta: [u64; 32],
    /// the rows of the last slot, with their cores
    pub last: Placement,
}

#[derive(Clone, Copy, PartialEq, Eq, Debug)]
pub enum Answer {
    Done,
    Late { row: u8, time: u64 },
    Broken,
    Stopped,
    AtLimit,
    NoSuchCore,
    NoRoom,
}

impl State {
    pub fn fresh(table: Table) -> State {
        State {
            table,
            time: 0,
            stopped: false,
            quanta: [0; 32],
            last: Placement::default(),
        }
    }

    /// One slot with a set of free cores, bit c for core c: its record stands at the given place in the buffer, and the rows that are picked
    /// have their cores in `last`.
    pub fn slot(&mut self, free: u32, buffer: &mut [u8], place: usize) -> Answer {
        if self.is_broken() {
            return Answer::Broken;
        }
        if self.stopped {
            return Answer::Stopped;
        }
        if self.time >= TIME_LIMIT {
            return Answer::AtLimit;
        }
        if free >> self.table.cores != 0 {
            return Answer::NoSuchCore;
        }
        let k = free.count_ones() as u8;
        let picks = picks(self, k);
        if !write(&picks, k, buffer, place) {
            return Answer::NoRoom;
        }
        self.last = cores::place(&self.last, free, picks.rows());
        for &row in picks.rows() {
            self.quanta[usize::from(row)] += 1;
        }
        self.time += 1;
        self.judge()
    }

    fn is_broken(&self) -> bool {
        table::fault(&self.table).is_err()
            || self.time > TIME_LIMIT
            || self.quanta[..self.table.named().len()]
                .iter()
                .any(|&given| given > self.time)
            || (!self.stopped && self.is_outside_share())
            || self.last.is_faulty(&self.table)
    }

    fn is_outside_share(&self) -> bool {
        let rows = self.table.named().iter().zip(&self.quanta);
        rows.into_iter()
            .any(|(row, &given)| !row.is_within_share(given, self.time))
    }

    fn judge(&mut self) -> Answer {
        match lowest_late(&self.table, &self.quanta, self.time) {
            Some(row) => {
                self.stopped = true;
                let time = self.time;
                Answer::Late { row, time }
            }
            None => Answer::Done,
        }
    }
}

/// The lowest row that is late at this time.
pub fn lowest_late(table: &Table, quanta: &[u64; 32], time: u64) -> Option<u8> {
    let mut rows = table.named().iter().zip(quanta);
    let late = rows.position(|(row, &given)| row.is_late(given, time));
    late.map(|row| row as u8)
}

/// Writes the record, if it has room.
fn write(picks: &Picks, k: u8, buffer: &mut [u8], place: usize) -> bool {
    let rows = picks.rows();
    match buffer.get_mut(place..) {
        Some(part) if 2 + rows.len() <= part.len() => {
            part[0] = k;
            part[1] = rows.len() as u8;
            part[2..2 + rows.len()].copy_from_slice(rows);
            true
        }
        _ => false,
    }
}
