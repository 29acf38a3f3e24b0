//! States that are not broken: a broken one shows no more of a slot than its 30.

use crate::make::memory::{self, memory};
use crate::make::rows::wild_row;
use crate::make::{schedule, sound};
use crate::random::Random;
use second::slot::{fresh, State, LAST_TIME};
use second::table::{write, Row, Table};

const MOST_SLOTS: usize = 40;

/// The time limit before 02, Seven.
pub const LIMIT_OF_01: u64 = 1_000_000_000;

pub fn state(random: &mut Random) -> State {
    let table = table(random);
    let mut state = match random.below(3) {
        0 => after_slots(random, table),
        _ => {
            let time = time(random, u64::from(table.cycle));
            let state = inside_shares(random, table, time);
            let last = memory(random, &state);
            State { last, ..state }
        }
    };
    if random.one_in(2) {
        fill_unused(random, &mut state);
    }
    state
}

/// One that is broken by its time alone, in which every row is inside its share.
pub fn past_limit(random: &mut Random) -> State {
    let table = table(random);
    inside_shares(random, table, LAST_TIME + 1)
}

/// A table without a fault.
pub fn table(random: &mut Random) -> Table {
    let draft = match random.below(12) {
        0 => sound::any(random),
        1..=5 => sound::short(random),
        6 | 7 => sound::all_rows(random),
        _ => sound::heavy(random),
    };
    draft.value()
}

/// The state that the second program itself has after some slots; one that is stopped by them only at times.
fn after_slots(random: &mut Random, table: Table) -> State {
    let slots = random.below(MOST_SLOTS);
    let ran = schedule::of_table(random, write(&table), slots);
    match ran.late && !random.one_in(4) {
        true => ran.before,
        false => ran.after,
    }
}

/// A state at this time, in which every row is inside its share: most of these no run of slots comes to.
pub fn inside_shares(random: &mut Random, table: Table, time: u64) -> State {
    let mut state = fresh(table);
    state.time = time;
    for (number, row) in table.named_rows().iter().enumerate() {
        state.quanta[number] = quanta(random, row, time);
    }
    state
}

/// Early, just past the largest phase, where 01 had its limit, where 32 bits end, late, at the very end; often where jobs begin.
fn time(random: &mut Random, cycle: u64) -> u64 {
    let any = random.below(LAST_TIME as usize) as u64;
    match random.below(14) {
        0 => LAST_TIME,
        1 | 2 => LAST_TIME - random.between(1, 4) as u64,
        3 => any,
        4 | 5 => any / cycle * cycle,
        6 => 65_535 + random.below(120) as u64,
        7 => random.pick(&[1, 2, 3]) * cycle,
        8 => LIMIT_OF_01 - 1 + random.below(3) as u64,
        9 => (1 << 32) - 1 + random.below(3) as u64,
        _ => random.below(120) as u64,
    }
}

/// A count between the limits of the row's share.
fn quanta(random: &mut Random, row: &Row, time: u64) -> u64 {
    let (e, p) = (u64::from(row.cost), u64::from(row.period));
    let a = time.saturating_sub(u64::from(row.phase));
    let least = e * a / p;
    let most = match row.kind {
        0 => (e * a + p - 1) / p,
        _ => (e * ((a + p - 1) / p)).min(time),
    };
    let between = random.between(least as usize, most as usize) as u64;
    random.pick(&[least, most, between])
}

/// What no rule asks for: rows and quanta past n, boards past M, what is remembered past its count.
fn fill_unused(random: &mut Random, state: &mut State) {
    fill(random, &mut state.table);
    memory::fill(random, &mut state.last);
    for quanta in &mut state.quanta[usize::from(state.table.count)..] {
        *quanta = random.pick(&[0, 1, state.time, LAST_TIME + 1, u64::MAX]);
    }
}

/// Those of a table.
pub fn fill(random: &mut Random, table: &mut Table) {
    let cores = usize::from(table.cores).min(table.boards.len());
    table.boards[cores..].fill_with(|| random.byte());
    let n = table.named_rows().len();
    table.rows[n..].fill_with(|| wild_row(random));
}
