//! Two passes over the rows: their tests as rows of a table; then their quanta and shares, and which of them are ready, by classes. In one pass
//! there would not be registers enough.

use super::owed::{class, stands, Stands};
use super::set::Counted;
use crate::plain::slot::{State, TIME_LIMIT};
use crate::plain::table::{Row, Table};

/// Classes below this have a place each: rows that are due within 32 slots.
pub const NEAR: usize = 64;

/// The ready rows, by class.
pub struct Ready {
    /// those of each near class
    pub near: [Counted; NEAR],
    /// the near classes that have any, bit c for class c
    pub classes: u64,
    /// the others, 32·class + row, and how many they are
    pub far: [u32; 32],
    pub far_count: usize,
}

impl Ready {
    #[inline(always)]
    pub fn none() -> Ready {
        Ready {
            near: [Counted::default(); NEAR],
            classes: 0,
            far: [0; 32],
            far_count: 0,
        }
    }
}

/// Finds the ready rows of a state that is not stopped; false if its time, its table, its quanta or a share breaks it. A function of its own, so that
/// the passes have the machine's registers to themselves.
#[inline(never)]
pub fn look(state: &State, ready: &mut Ready) -> bool {
    let table = &state.table;
    if has_bad_head(table) || state.time > TIME_LIMIT {
        return false;
    }
    let rows = &table.rows[..usize::from(table.count)];
    if rows_are_bad(rows, table.cycle, u32::from(table.cores) * table.cycle) {
        return false;
    }
    let (mut classes, mut far_count, mut one) = (0u64, 0, Counted::ROW_0);
    for (row, &given) in rows.iter().zip(&state.quanta) {
        if given > state.time {
            return false;
        }
        match stands(row, given, state.time) {
            Stands::Outside => return false,
            Stands::Waits => (),
            Stands::Ready(to_come) => {
                let class = class(to_come, row.cost);
                if let Some(near) = ready.near.get_mut(class as usize) {
                    near.put(one);
                    classes |= 1 << class;
                } else {
                    ready.far[far_count % 32] = class << 5 | one.rows().trailing_zeros();
                    far_count += 1;
                }
            }
        }
        one = one.next_row();
    }
    ready.classes = classes;
    ready.far_count = far_count;
    true
}

/// Faults 11 to 15 of a table value.
#[inline(always)]
fn has_bad_head(table: &Table) -> bool {
    let cores = usize::from(table.cores);
    if table.format.wrapping_sub(1) >= 2 {
        return true;
    }
    if table.cycle.wrapping_sub(1) >= 1_000_000 || cores.wrapping_sub(1) >= 8 || table.count > 32 {
        return true;
    }
    (1..cores).any(|core| table.boards[core - 1] >= table.boards[core])
}

/// Faults 16 to 20 and 22. A row takes at most a cycle's slots, so that the sum of 32 fits.
#[inline(always)]
fn rows_are_bad(rows: &[Row], cycle: u32, most: u32) -> bool {
    let (mut last, mut sum) = (-1, 0);
    for row in rows {
        let tank = i32::from(row.tank);
        let (cost, period) = (u32::from(row.cost), u32::from(row.period));
        // a cost of 0, less 1, is above every period; so past this no period is 0
        let wrong_cost = cost.wrapping_sub(1) >= period;
        if tank <= last || wrong_cost || row.kind > 1 || cycle % period != 0 {
            return true;
        }
        last = tank;
        sum += cost * (cycle / period);
    }
    sum > most
}
