//! The boxes that are looked at first: equal rows, rows of which each goes before those below it, heavy rows that are due together, random full boxes.

use super::candidate::Candidate;
use crate::make::sound;
use crate::random::Random;
use second::table::Row;

/// A cycle with 240 divisors, and the longest period in it.
const CYCLE: u32 = 720_720;
const LONGEST: u16 = 65_520;

/// All of them also with other phases and with 7 cores free.
pub fn all(random: &mut Random) -> Vec<Candidate> {
    let mut found = equal_rows();
    found.extend(falling_deadlines());
    found.extend(heavy_behind_light());
    found.extend((0..20).map(|_| any(random)));
    let phased = found.iter().flat_map(with_phases);
    let fewer = found.iter().cloned().map(|it| Candidate { k: 7, ..it });
    let others: Vec<Candidate> = phased.chain(fewer).collect();
    found.extend(others);
    found.retain(Candidate::is_sound);
    found
}

/// Classes with b = 0 and with b = 1, of rows that fill the cores or that leave them room to run ahead.
fn equal_rows() -> Vec<Candidate> {
    const WEIGHTS: [(u16, u16); 12] = [
        (1, 4),
        (5, 20),
        (5, 21),
        (3, 13),
        (7, 29),
        (2, 9),
        (16_383, 65_535),
        (1, 5),
        (1, 65_535),
        (5, 40),
        (5, 41),
        (50, 401),
    ];
    let of = |(e, p): (u16, u16)| {
        [0, 1].map(|kind| Candidate::of(p.into(), [(e, p); 32].into_iter(), kind))
    };
    WEIGHTS.into_iter().flat_map(of).collect()
}

/// Each row has a shorter window than the one before: its key goes before all others. With a last eight that are so much heavier, these run in several slots
/// one after the other.
fn falling_deadlines() -> Vec<Candidate> {
    const STEPS: [(u16, u16); 7] = [
        (1, 1),
        (20, 1),
        (100, 3),
        (700, 20),
        (1_000, 30),
        (4_000, 200),
        (9_000, 450),
    ];
    let mut found = Vec::new();
    for (least, step) in STEPS {
        for period in [LONGEST, 5_040, 30_030] {
            for (kind, times) in [(0, 1), (1, 1), (1, 2), (1, 3)] {
                let times = |row: u16| if row < 24 { 1 } else { times };
                let cost = |row: u16| (least + step * row).saturating_mul(times(row));
                let weights = (0..32).map(|row| (cost(row), period));
                found.push(Candidate::of(CYCLE, weights, kind));
            }
        }
    }
    found
}

/// Light rows with falling deadlines, then heavy ones, often due together with b = 1: of one weight, or of weights that grow, and their group deadlines
/// with them.
fn heavy_behind_light() -> Vec<Candidate> {
    const PERIOD: u16 = 30_030;
    let mut found = Vec::new();
    for heavy in [1, 2, 4, 8, 9, 12, 15] {
        for (least, step) in [
            (15_016, 0),
            (15_600, 0),
            (15_600, 500),
            (18_018, 300),
            (20_020, 1_000),
        ] {
            for kind in [0, 1] {
                let light = (0..32 - heavy).map(|row| (100 + 3 * row, PERIOD));
                let behind = (0..heavy).map(|row| (least + step * row, PERIOD));
                found.push(Candidate::of(CYCLE, light.chain(behind), kind));
            }
        }
    }
    found
}

/// The same rows with phases that rise or fall.
fn with_phases(it: &Candidate) -> Vec<Candidate> {
    let moved = |phase: fn(usize) -> u16| {
        let mut moved = it.clone();
        for (number, row) in moved.rows.iter_mut().enumerate() {
            row.phase = phase(number);
        }
        moved
    };
    vec![
        moved(|row| (31 - row as u16) / 4),
        moved(|row| row as u16 / 8),
    ]
}

/// A random full box of 8 cores: a row is split in two until there are 32.
fn any(random: &mut Random) -> Candidate {
    let cycle = random.pick(&[60, 420, 2_520, 27_720]);
    let mut rows = loop {
        let full = sound::full_of(random, cycle, 0).expect("such a cycle can be filled");
        if full.boards.len() == 8 && full.rows.iter().any(|row| row.cost >= 32) {
            break full.rows;
        }
    };
    while rows.len() < 32 {
        let place = random.below(rows.len());
        let whole = rows[place].cost;
        if whole > 1 {
            rows[place].cost = random.between(1, usize::from(whole) - 1) as u16;
            let cost = whole - rows[place].cost;
            rows.push(Row {
                cost,
                ..rows[place]
            });
        }
    }
    for (row, tank) in rows.iter_mut().zip(0..) {
        row.tank = tank;
        row.phase %= 8;
    }
    Candidate {
        cycle: cycle as u32,
        rows,
        k: 8,
    }
}
