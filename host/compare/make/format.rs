//! What is met of formats: 1 and 2 are taken, and any other is refused with 11 (02, Eight).

use crate::tally::{Group, Tally};
use second::slot::{ready_rows, State};
use second::table::{fault, Table};

/// Those that are refused.
pub const REFUSED: Group = "11 by format (1 in 1000): 0 | 3 | 255 | another";

pub fn count_refused(format: u8, tally: &mut Tally) {
    let known = [0, 3, 255].map(|other| format == other);
    let another = !known.contains(&true);
    tally.saw_each("11 by format", [known[0], known[1], known[2], another]);
}

/// What a value that is refused with 11 would be refused with if its format were 1.
pub const BEFORE: Group = "11 ahead of (1 in 1000): no other fault | 12 | a later fault";

pub fn count_before(table: &Table, tally: &mut Tally) {
    let other = fault(&Table { format: 1, ..*table });
    tally.saw_each("11 ahead of", [other == 0, other == 12, other > 12]);
}

/// Slots in which the order of the other format would pick other rows: in format 2 those that ran go first, in format 1 they are only remembered.
pub const OTHERS: Group = "the other format would pick others (1 in 100): in format 1 | in format 2";

/// A slot of this state with k free cores.
pub fn count_others(state: &State, k: u8, tally: &mut Tally) {
    let others = picked(1, state, k) != picked(2, state, k);
    let met = [1, 2].map(|format| others && state.table.format == format);
    tally.saw_each("the other format would pick others", met);
}

/// The rows that the order of this format picks, rising.
fn picked(format: u8, state: &State, k: u8) -> Vec<u8> {
    let table = Table { format, ..state.table };
    let ready = ready_rows(&State { table, ..*state });
    let first = ready.iter().take(usize::from(k));
    let mut rows: Vec<u8> = first.map(|next| next.row).collect();
    rows.sort_unstable();
    rows
}
