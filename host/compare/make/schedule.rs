//! Schedules: what the second program's dispatcher picks, slot after slot, on random tables without a fault.

use crate::make::sound;
use crate::make::written::{written, Record, Written};
use crate::random::Random;
use second::slot::{fresh, slot, State};
use second::table::read;

pub struct Schedule {
    pub table: Vec<u8>,
    pub trace: Written,
    /// a row is late at the end of the last slot
    pub late: bool,
    /// before the last slot, and after it
    pub before: State,
    pub after: State,
}

const MOST_SLOTS: usize = 24;

/// The record of the state's next slot with k free cores, and whether a row is late at its end; or it is refused, which only a slip brings about.
pub fn record(state: &mut State, k: u8) -> (Record, bool) {
    let mut buffer = [0; 2 + 8];
    let answer = slot(state, k, &mut buffer, 0);
    let [k, c, rows @ ..] = buffer;
    let rows = rows[..usize::from(c)].to_vec();
    (Record { k, c, rows }, answer.number != 0)
}

pub fn schedule(random: &mut Random) -> Schedule {
    let table = match random.below(16) {
        0 => sound::any(random),
        _ => sound::short(random),
    };
    let slots = random.below(MOST_SLOTS + 1);
    of_table(random, table.bytes(), slots)
}

/// Up to so many slots. From slot to slot all cores are free, or mostly all, or any number of them.
pub fn of_table(random: &mut Random, table: Vec<u8>, slots: usize) -> Schedule {
    let any_one_in = random.pick(&[usize::MAX, usize::MAX, 6, 1]);
    run(table, slots, |cores| free(random, any_one_in, cores))
}

/// All cores, or, one time of so many, any number of them.
pub fn free(random: &mut Random, any_one_in: usize, cores: u8) -> u8 {
    match random.one_in(any_one_in) {
        true => random.below(usize::from(cores) + 1) as u8,
        false => cores,
    }
}

/// Slots up to one that leaves row 31 late, the last row that a table may have, and no row before it. In half of them no core is free.
pub fn last_late(random: &mut Random) -> Schedule {
    let table = sound::last_row_first(random).bytes();
    run(table, usize::MAX, |cores| {
        let any = free(random, 1, cores);
        random.pick(&[0, any])
    })
}

/// Up to so many slots of a table, each with as many free cores as are said of M, and no slot after one that leaves a row late.
fn run(table: Vec<u8>, slots: usize, mut free: impl FnMut(u8) -> u8) -> Schedule {
    let read = read(&table).expect("a sound table is taken");
    let mut state = fresh(read);
    let (mut before, mut records, mut late) = (state, Vec::new(), false);
    while records.len() < slots && !late {
        before = state;
        let (next, leaves_late) = record(&mut state, free(read.cores));
        records.push(next);
        late = leaves_late;
    }
    Schedule {
        table,
        trace: written(records),
        late,
        before,
        after: state,
    }
}
