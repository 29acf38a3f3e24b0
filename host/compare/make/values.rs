//! Table values, states and their parts in messages, and how several numbers of them are made smaller together.

use crate::message::Message;
use second::cores::Placement;
use second::slot::{fresh, State};
use second::table::{Row, Table};

/// The format (1), L (4), M (1), 8 board numbers (1 each), n (1), 32 rows of 9 bytes as in 01.
pub fn table_value<'a>(to: &'a mut Message, table: &mut Table) -> &'a mut Message {
    if let Some(row) = to.turn(table.named_rows().len()) {
        drop_row(table, row);
    }
    to.part("format", &mut table.format)
        .part("L", &mut table.cycle)
        .part("M", &mut table.cores)
        .each("board of core", &mut table.boards)
        .part("n", &mut table.count);
    rows_value(to, &mut table.rows)
}

pub fn rows_value<'a>(to: &'a mut Message, rows: &mut [Row]) -> &'a mut Message {
    for (number, row) in rows.iter_mut().enumerate() {
        let of = Some(number);
        to.part_of(of, "tank of row", &mut row.tank)
            .part_of(of, "e of row", &mut row.cost)
            .part_of(of, "p of row", &mut row.period)
            .part_of(of, "f of row", &mut row.phase)
            .part_of(of, "kind of row", &mut row.kind);
    }
    to
}

/// A table value, time (8), stopped (1), 32 quanta (8 each), what is remembered of the last slot.
pub fn state<'a>(to: &'a mut Message, state: &mut State) -> &'a mut Message {
    if let Some(way) = to.turn(ways_of_state(state)) {
        make_smaller(state, way);
    }
    table_value(to, &mut state.table)
        .part("time of the state", &mut state.time)
        .part("stopped", &mut state.stopped)
        .each("quanta of row", &mut state.quanta);
    placement(to, REMEMBERED, &mut state.last)
}

/// How the parts of a placement are called: of a state, and of an answer.
pub const REMEMBERED: [&str; 3] = ["remembered", "row remembered at", "core remembered at"];
pub const PLACED: [&str; 3] = ["placed", "row placed at", "core placed at"];

/// A count (1), 8 rows (1 each), 8 cores (1 each).
pub fn placement<'a>(
    to: &'a mut Message,
    [count, row, core]: [&'static str; 3],
    placement: &mut Placement,
) -> &'a mut Message {
    to.part(count, &mut placement.count)
        .each(row, &mut placement.rows)
        .each(core, &mut placement.cores)
}

/// In how many ways several numbers of a state can be made smaller together.
pub fn ways_of_state(state: &State) -> usize {
    4 + state.table.named_rows().len() + state.last.named_rows().len()
}

/// A fresh state, earlier by all cycles or by one, nobody remembered, a row less, a remembered one less. The row that is lost, if one is.
pub fn make_smaller(state: &mut State, way: usize) -> Option<u8> {
    let n = state.table.named_rows().len();
    match way {
        0 => *state = fresh(state.table),
        1 => cycles_earlier(state, u64::MAX),
        2 => cycles_earlier(state, 1),
        3 => state.last = Placement::nobody(),
        _ if way < 4 + n => {
            drop_row(&mut state.table, way - 4);
            state.quanta[way - 4..].rotate_left(1);
            state.quanta[31] = 0;
            forget_row(&mut state.last, (way - 4) as u8);
            return Some((way - 4) as u8);
        }
        _ => drop_place(&mut state.last, way - 4 - n),
    }
    None
}

/// The rows after it get the number before their own.
fn drop_row(table: &mut Table, row: usize) {
    table.rows[row..].rotate_left(1);
    table.rows[31] = Row::zero();
    table.count -= 1;
}

/// What is remembered of a row that is dropped goes with it.
fn forget_row(last: &mut Placement, row: u8) {
    let place = last.named_rows().iter().position(|&other| other == row);
    if let Some(place) = place {
        drop_place(last, place);
    }
    for other in last.rows.iter_mut().filter(|other| **other > row) {
        *other -= 1;
    }
}

fn drop_place(last: &mut Placement, place: usize) {
    last.rows[place..].rotate_left(1);
    last.cores[place..].rotate_left(1);
    last.rows[7] = 0;
    last.cores[7] = 0;
    last.count -= 1;
}

/// Windows come again after each cycle: as many cycles as every row has had whole are taken away, up to so many.
fn cycles_earlier(state: &mut State, most: u64) {
    let cycle = u64::from(state.table.cycle).max(1);
    let table = state.table;
    let rows = table.named_rows().iter();
    let in_cycle: Vec<u64> = rows.map(|row| quanta_in_cycle(row, cycle)).collect();
    let whole = state.quanta.iter().zip(&in_cycle);
    let whole = whole.map(|(quanta, in_cycle)| quanta / in_cycle).min();
    let cycles = most.min(state.time / cycle).min(whole.unwrap_or(most));
    state.time -= cycles * cycle;
    for (quanta, in_cycle) in state.quanta.iter_mut().zip(&in_cycle) {
        *quanta -= cycles * in_cycle;
    }
}

/// Of a row without a fault; at least 1 of any other.
fn quanta_in_cycle(row: &Row, cycle: u64) -> u64 {
    let jobs = cycle / u64::from(row.period).max(1);
    (u64::from(row.cost) * jobs).max(1)
}
