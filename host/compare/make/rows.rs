//! 32 rows with their quanta, of which those below n are asked, at a time. Most fit each other as in a state, some are wild.

use crate::make::reach::{limit, REACH};
use crate::make::states;
use crate::make::values::rows_value;
use crate::make::weight::{phase, weight};
use crate::message::Message;
use crate::random::Random;
use second::questions::{ask_row, RowAnswer};
use second::slot::State;
use second::table::Row;
use std::ops::Range;

#[derive(Clone)]
pub struct Rows {
    pub rows: [Row; 32],
    pub quanta: [u64; 32],
    pub n: u64,
    pub time: u64,
}

/// Those of a state, where every row has about what is due to it; then some of them get another value.
pub fn rows(random: &mut Random) -> Rows {
    let state = state(random);
    let (table, time) = (state.table, state.time);
    let mut rows = Rows {
        rows: table.rows,
        quanta: state.quanta,
        n: count(random, table.count),
        time,
    };
    let wild_one_in = random.pick(&[4, 16, 1_000]);
    for number in 0..32 {
        if random.one_in(wild_one_in) {
            disturb(random, &mut rows, number);
        }
    }
    if time == REACH {
        // so that a row is ready by the largest quanta that are answered
        let number = random.below(usize::from(table.count).max(1));
        make_whole(random, &mut rows, number);
    }
    rows
}

/// Mostly as early as a dispatcher's, at times at the limit of what is answered.
fn state(random: &mut Random) -> State {
    if !random.one_in(6) {
        return states::state(random);
    }
    let table = states::table(random);
    let time = random.pick(&[REACH - 1, REACH, REACH, REACH + 1]);
    states::inside_shares(random, table, time)
}

/// n itself, or what a table cannot count.
fn count(random: &mut Random, n: u8) -> u64 {
    let n = u64::from(n);
    match random.below(12) {
        0 => 32,
        1 => random.pick(&[33, 255, 256]),
        2 => random.pick(&[1 << 32, (1 << 32) + n]),
        3 => u64::MAX,
        4 => random.pick(&[0, n / 2]),
        _ => n,
    }
}

/// One row gets another value.
fn disturb(random: &mut Random, rows: &mut Rows, number: usize) {
    let (row, quanta) = (&mut rows.rows[number], &mut rows.quanta[number]);
    match random.below(9) {
        0 => row.cost = 0,
        1 => row.cost = row.period,
        2 => make_whole(random, rows, number),
        3 => row.cost = row.period.saturating_add(1),
        4 => *quanta = limit(random),
        5 => *quanta = quanta.saturating_sub(random.between(1, 3) as u64),
        6 => *row = wild_row(random),
        _ => row.kind = random.pick(&[2, 3, 128, 255]),
    }
}

pub fn wild_row(random: &mut Random) -> Row {
    let (cost, period) = weight(random);
    let (small, any) = (random.below(40) as u16, phase(random, period));
    Row {
        tank: random.below(65_536) as u16,
        cost: if random.one_in(8) { period } else { cost },
        period,
        phase: random.pick(&[0, small, any]),
        kind: random.pick(&[0, 0, 1, 1, 2, 3, 128, 255]),
    }
}

/// e = p with all that is due to it, and ready; or one quantum ahead, and ready in most slots of its jobs.
fn make_whole(random: &mut Random, rows: &mut Rows, number: usize) {
    let row = &mut rows.rows[number];
    let (kind, ahead) = random.pick(&[(row.kind, 0), (1, 1)]);
    row.cost = row.period;
    row.phase = 0;
    row.kind = kind;
    rows.quanta[number] = rows.time + ahead;
}

impl Rows {
    /// 32 rows, 32 quanta, n (8), time (8).
    pub fn asked<'a>(&mut self, to: &'a mut Message) -> &'a mut Message {
        rows_value(to, &mut self.rows)
            .each("quanta of row", &mut self.quanta)
            .part("n", &mut self.n)
            .part("time", &mut self.time)
    }

    /// Those below n, all 32 where n is above.
    pub fn numbers(&self) -> Range<usize> {
        0..self.n.min(32) as usize
    }

    /// What the second program says of one of them.
    pub fn ask(&self, row: usize) -> Option<RowAnswer> {
        ask_row(&self.rows[row], self.quanta[row], self.time)
    }
}
