//! Who is picked in a slot.

use super::slot::State;

/// The rows that are picked, rising.
pub struct Picks {
    rows: [u8; 32],
    count: usize,
}

impl Picks {
    pub fn rows(&self) -> &[u8] {
        &self.rows[..self.count]
    }
}

/// A ready row, and what decides first: its deadline, then b = 1 before b = 0. Both are in one number, the class. The row's own number is 32 more
/// unless it is favoured, so that among equals those that are go first.
type Candidate = (u64, u8);

fn row_of(candidate: &Candidate) -> u8 {
    candidate.1 % 32
}

/// The rows that go first among full ties: in format 2 those of the last slot.
fn favoured(state: &State) -> u32 {
    match state.table.format {
        2 => state.last.rows(),
        _ => 0,
    }
}

pub fn picks(state: &State, k: u8) -> Picks {
    let mut all = [(0, 0); 32];
    let mut count = 0;
    let favoured = favoured(state);
    for (i, row) in state.table.named().iter().enumerate() {
        let given = state.quanta[i];
        if row.is_ready(given, state.time) {
            let (deadline, bit) = row.due(given + 1);
            let number = if favoured >> i & 1 == 1 { i } else { 32 + i };
            all[count] = (2 * deadline + (1 - bit), number as u8);
            count += 1;
        }
    }
    let ready = &mut all[..count];
    ready.sort_unstable();
    let k = usize::from(k).min(count);
    order_cut_class(state, ready, k);
    let mut picks = Picks {
        rows: [0; 32],
        count: k,
    };
    for (row, candidate) in picks.rows.iter_mut().zip(&ready[..k]) {
        *row = row_of(candidate);
    }
    picks.rows[..k].sort_unstable();
    picks
}

/// Group deadlines are needed only in a class of b = 1 that is picked in part.
fn order_cut_class(state: &State, ready: &mut [Candidate], k: usize) {
    if k == 0 || k == ready.len() || ready[k - 1].0 != ready[k].0 || ready[k].0 % 2 == 1 {
        return;
    }
    let class = ready[k].0;
    let group = |candidate: &Candidate| {
        let row = usize::from(row_of(candidate));
        state.table.rows[row].group_deadline(state.quanta[row] + 1)
    };
    let first = ready.iter().position(|it| it.0 == class).unwrap_or(0);
    let behind = ready.iter().rposition(|it| it.0 == class).unwrap_or(0) + 1;
    // the largest first; among equals the order that they have is kept
    ready[first..behind].sort_by_cached_key(|it| std::cmp::Reverse(group(it)));
}
