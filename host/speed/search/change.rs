//! A small change of a box.

use super::candidate::Candidate;
use crate::random::Random;
use second::table::Row;

/// The same box but for a row or some: another weight, phase or kind, or that of another row.
pub fn changed(random: &mut Random, it: &Candidate) -> Candidate {
    let mut changed = it.clone();
    let times = random.pick(&[1, 1, 2, 4, 8]);
    for _ in 0..times {
        let (one, other) = (random.below(32), random.below(32));
        change(random, &mut changed, one, other);
    }
    if random.one_in(30) {
        changed.k = 15 - changed.k;
    }
    changed
}

fn change(random: &mut Random, it: &mut Candidate, one: usize, other: usize) {
    let model = it.rows[other];
    let row = &mut it.rows[one];
    let little = random.between(1, 8) as u16;
    match random.below(10) {
        0 => row.cost = row.cost.saturating_add(little).min(row.period),
        1 => row.cost = row.cost.saturating_sub(little).max(1),
        2 => row.cost += (row.period - row.cost) / (4 * little),
        3 => row.cost -= row.cost / (4 * little),
        4 => row.cost = random.between(1, usize::from(row.period)) as u16,
        5 => row.phase = random.between(0, 12) as u16,
        6 => row.kind = 1 - row.kind,
        7 => {
            (row.cost, row.period) = (model.cost, model.period);
            row.cost += u16::from(row.cost < row.period);
        }
        8 => {
            let tank = row.tank;
            *row = Row { tank, ..model };
        }
        _ => {
            it.rows.swap(one, other);
            let (tank, swapped) = (it.rows[one].tank, it.rows[other].tank);
            it.rows[one].tank = swapped;
            it.rows[other].tank = tank;
        }
    }
}
