//! Random tables without a fault, of all sizes: from empty boxes to full ones.

use crate::make::written::{draft, Draft};
use crate::random::Random;
use second::table::Row;

const LONGEST_CYCLE: usize = 1_000_000;
const BORDERS: [usize; 11] = [
    1, 2, 3, 4, 6, 12, 65_535, 65_536, 720_720, 999_999, 1_000_000,
];

/// Cycles in which rows have several jobs within a few slots.
const SHORT_CYCLES: [usize; 12] = [2, 3, 4, 5, 6, 8, 10, 12, 24, 30, 60, 120];

/// A cycle: a border, a number with many divisors, or any.
fn cycle(random: &mut Random) -> usize {
    match random.below(6) {
        0 => random.pick(&BORDERS),
        1 => random.between(1, LONGEST_CYCLE),
        _ => {
            let mut cycle = 1;
            loop {
                let longer = cycle * random.pick(&[2, 2, 2, 3, 3, 5, 5, 7, 11, 13]);
                if longer > LONGEST_CYCLE || random.one_in(16) {
                    return cycle;
                }
                cycle = longer;
            }
        }
    }
}

/// The periods that a row may have in this cycle, rising: its divisors that fit into two bytes.
fn periods(cycle: usize) -> Vec<usize> {
    let mut found = Vec::new();
    let mut small = 1;
    while small * small <= cycle {
        if cycle % small == 0 {
            found.extend([small, cycle / small]);
        }
        small += 1;
    }
    found.sort_unstable();
    found.dedup();
    found.retain(|&period| period <= 65_535);
    found
}

/// Those above 1, if there are any: a row with a period of 1 needs a core in every slot.
fn above_1(periods: &[usize]) -> &[usize] {
    match periods {
        [1, longer @ ..] if !longer.is_empty() => longer,
        _ => periods,
    }
}

/// 1 or 2 (02, Eight).
fn format(random: &mut Random) -> u8 {
    random.pick(&[1, 2])
}

fn boards(random: &mut Random) -> Vec<u8> {
    let cores = random.between(1, 8);
    let boards = random.rising(cores, 255).into_iter();
    boards.map(|board| board as u8).collect()
}

/// Tanks, phases and kinds for rows of these weights (e, p).
fn rows(random: &mut Random, weights: &[(usize, usize)]) -> Vec<Row> {
    let tanks = random.rising(weights.len(), 65_535).into_iter();
    let of_tank = |(tank, &(e, p)): (usize, &(usize, usize))| Row {
        tank: tank as u16,
        cost: e as u16,
        period: p as u16,
        phase: random.pick(&[0, 0, 1, p as u16, 65_535]),
        kind: random.below(2) as u8,
    };
    tanks.zip(weights).map(of_tank).collect()
}

/// A table that is taken.
pub fn any(random: &mut Random) -> Draft {
    let cycle = cycle(random);
    any_of(random, cycle)
}

/// The same with this cycle.
pub fn any_of(random: &mut Random, cycle: usize) -> Draft {
    let wanted = random.between(0, 32);
    of_rows(random, cycle, wanted)
}

/// With a short cycle, and in half of them full.
pub fn short(random: &mut Random) -> Draft {
    let cycle = random.pick(&SHORT_CYCLES);
    match random.below(2) {
        0 => full_of(random, cycle, 0).expect("a short cycle can be filled"),
        _ => any_of(random, cycle),
    }
}

/// So many rows, or fewer where the cycle has no room for them.
fn of_rows(random: &mut Random, cycle: usize, wanted: usize) -> Draft {
    let periods = periods(cycle);
    of_weights(random, cycle, |random, rows, room| {
        if rows == wanted {
            return None;
        }
        if random.one_in(24) && room >= cycle {
            let p = random.pick(&periods);
            return Some((p, p));
        }
        let p = random.pick(above_1(&periods));
        let most = p.min(room / (cycle / p));
        // about twice its part of the room, so that the rows after it find some
        let part = 2 * room / (wanted - rows) / (cycle / p);
        let e = random.between(1, most.min(part).max(1));
        Some((e, p)).filter(|_| most > 0)
    })
}

/// Mostly of heavy rows, as many as M cores take: their windows often end together, and then the group deadline decides.
pub fn heavy(random: &mut Random) -> Draft {
    let cycle = random.pick(&[12, 20, 24, 30, 60, 120]);
    let periods = periods(cycle);
    of_weights(random, cycle, |random, _, room| {
        // no weight between one half and one has a period of 1 or 2
        let p = random.pick(&periods[2..]);
        let least = if random.one_in(4) { 1 } else { p / 2 + 1 };
        let e = random.between(least, p);
        Some((e, p)).filter(|_| e * (cycle / p) <= room)
    })
}

/// Rows one after another until there is no next weight (e, p), which is said of how many there are and of the room that is left.
fn of_weights(
    random: &mut Random,
    cycle: usize,
    next: impl Fn(&mut Random, usize, usize) -> Option<(usize, usize)>,
) -> Draft {
    let boards = boards(random);
    let mut room = boards.len() * cycle;
    let mut weights = Vec::new();
    while let Some((e, p)) = next(random, weights.len(), room) {
        room -= e * (cycle / p);
        weights.push((e, p));
    }
    draft(format(random), cycle as u32, &boards, &rows(random, &weights))
}

/// Of 32 rows, the most that a table may have.
pub fn all_rows(random: &mut Random) -> Draft {
    loop {
        let cycle = random.pick(&[60, 120, 720]);
        let table = of_rows(random, cycle, 32);
        if table.rows.len() == 32 {
            return table;
        }
    }
}

/// The last of 32 rows has its windows within a few slots; every other row has one as long as the cycle. One core takes them all.
pub fn last_row_first(random: &mut Random) -> Draft {
    let mut weights = [(1, 120); 32];
    weights[31] = random.pick(&[(1, 2), (1, 3), (2, 3), (2, 4), (3, 5)]);
    let (boards, mut rows) = (boards(random), rows(random, &weights));
    for row in &mut rows {
        row.phase = random.pick(&[0, 0, 1, 7]);
    }
    draft(format(random), 120, &boards, &rows)
}

/// A table whose sum of e·(L/p) is exactly M·L, or one less or one more as asked for (`by` is 0, -1 or 1).
pub fn full(random: &mut Random, by: isize) -> Draft {
    loop {
        let cycle = cycle(random);
        if let Some(table) = full_of(random, cycle, by) {
            return table;
        }
    }
}

/// The same with this cycle, if it can be had.
pub fn full_of(random: &mut Random, cycle: usize, by: isize) -> Option<Draft> {
    let periods = periods(cycle);
    let boards = boards(random);
    let mut weights = Vec::new();
    for _ in 0..boards.len() {
        weights.extend(whole(random, &periods));
    }
    random.shuffle(&mut weights);
    if by != 0 && !moved(&mut weights, cycle, by) {
        return None;
    }
    Some(draft(format(random), cycle as u32, &boards, &rows(random, &weights)))
}

/// Up to four weights that make 1, at times one alone, written with different periods of the cycle.
fn whole(random: &mut Random, periods: &[usize]) -> Vec<(usize, usize)> {
    let p = random.pick(above_1(periods));
    let count = if p == 1 || random.one_in(8) { 1 } else { random.between(2, p.min(4)) };
    let mut ends: Vec<usize> = Vec::new();
    while ends.len() < count - 1 {
        let end = random.between(1, p - 1);
        if !ends.contains(&end) {
            ends.push(end);
        }
    }
    ends.extend([0, p]);
    ends.sort_unstable();
    let mut multiples = periods.to_vec();
    multiples.retain(|other| other % p == 0);
    let weight = |pair: &[usize]| {
        let longer = random.pick(&multiples);
        ((pair[1] - pair[0]) * (longer / p), longer)
    };
    ends.windows(2).map(weight).collect()
}

/// Writes one weight with the whole cycle as its period and changes its e by this much, if there is such a weight.
fn moved(weights: &mut [(usize, usize)], cycle: usize, by: isize) -> bool {
    for weight in weights.iter_mut() {
        let e = (weight.0 * (cycle / weight.1)) as isize + by;
        if cycle <= 65_535 && 0 < e && e <= cycle as isize {
            *weight = (e as usize, cycle);
            return true;
        }
    }
    false
}
