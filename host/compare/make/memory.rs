//! What a state remembers of its last slot: sound, and damaged in each way that breaks the state.

use crate::random::Random;
use second::cores::Placement;
use second::slot::{ready_rows, Next, State};
use second::table::Table;

/// Rows of the table, rising, on cores of it, each once: mostly of rows that the next slot may pick, since others neither stay nor move, and have
/// no part in the order.
pub fn memory(random: &mut Random, state: &State) -> Placement {
    let ready = ready_rows(state);
    let mut rows: Vec<u8> = ready.iter().map(|next| next.row).collect();
    rows.truncate(usize::from(state.table.cores) + 1);
    match random.below(4) {
        0 => rows = (0..state.table.count).collect(),
        1 => {
            let lost = due_with_the_next(random, &ready);
            rows.retain(|&row| Some(row) != lost);
        }
        _ => (),
    }
    let most = rows.len().min(usize::from(state.table.cores));
    let any = random.below(most + 1);
    let count = random.pick(&[most, any]);
    of(random, rows, state.table.cores, count)
}

/// A row that is due together with the next in the order, if there is one. Where that one ran and this one did not, it goes first in a full tie of
/// format 2, and must not in format 1 or against an earlier rule.
fn due_with_the_next(random: &mut Random, ready: &[Next]) -> Option<u8> {
    let pairs = || ready.windows(2).filter(|pair| pair[0].deadline == pair[1].deadline);
    let any: Vec<u8> = pairs().map(|pair| pair[0].row).collect();
    // two with another D, where it is asked, are rare
    let by_group = pairs().filter(|pair| pair[1].bit == 1 && pair[0].group != pair[1].group);
    let by_group: Vec<u8> = by_group.map(|pair| pair[0].row).collect();
    let found = [by_group, any].into_iter().find(|rows| !rows.is_empty())?;
    Some(random.pick(&found))
}

/// So many of the rows, rising, on cores below M.
fn of(random: &mut Random, mut rows: Vec<u8>, cores: u8, count: usize) -> Placement {
    let mut cores: Vec<u8> = (0..cores).collect();
    random.shuffle(&mut rows);
    rows[..count].sort_unstable();
    random.shuffle(&mut cores);
    let mut last = Placement::nobody();
    last.count = count as u8;
    last.rows[..count].copy_from_slice(&rows[..count]);
    last.cores[..count].copy_from_slice(&cores[..count]);
    last
}

/// What stands past the count.
pub fn fill(random: &mut Random, last: &mut Placement) {
    let places = last.named_rows().len();
    last.rows[places..].fill_with(|| random.byte());
    last.cores[places..].fill_with(|| random.below(12) as u8);
}

/// One part of it gets another value: mostly one that breaks the state.
pub fn damage(random: &mut Random, table: &Table, last: &mut Placement) {
    let (cores, n) = (table.cores, table.count);
    if random.one_in(4) {
        return damage_count(random, table, last);
    }
    // of a memory of nobody, what stands at its first place
    last.count = last.count.max(1);
    let places = last.named_rows().len();
    let one = random.below(places);
    // side by side, so that two equal rows do not fall as well
    let other = one.checked_sub(1).unwrap_or(places - 1);
    let (row, core) = (last.rows[other], last.cores[other]);
    match random.below(8) {
        0 => last.cores[one] = cores,
        1 => last.cores[one] = random.pick(&[cores.wrapping_add(1), 31, 32, 255]),
        2 => last.cores[one] = core,
        3 => last.rows[one] = random.pick(&[n, n, n.wrapping_add(1), 32, 255]),
        4 => last.rows[one] = row,
        5 => (last.rows[one], last.cores[one]) = (row, core),
        _ => last.rows.swap(one, other),
    }
}

/// One place more or less, or more than there are; then the places that are there have no fault.
fn damage_count(random: &mut Random, table: &Table, last: &mut Placement) {
    let count = last.count;
    if random.one_in(2) {
        last.count = random.pick(&[count.wrapping_add(1), count.wrapping_sub(1)]);
        return;
    }
    let rows: Vec<u8> = (0..table.count).collect();
    let most = rows.len().min(usize::from(table.cores)).min(8);
    *last = of(random, rows, table.cores, most);
    last.count = random.pick(&[9, 16, 255]);
}
