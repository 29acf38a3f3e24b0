//! Tables for the comparison: sound ones, full ones, and damaged ones that reach every refusal of 01.

use crate::make::sound;
use crate::make::written::Draft;
use crate::random::Random;
use second::table::{Row, Table};

/// Numbers of two bytes at the borders of something.
const BORDERS: [u16; 10] = [0, 1, 2, 255, 256, 257, 32_767, 32_768, 65_534, 65_535];

const BOARDS: [u8; 4] = [0, 1, 254, 255];

/// The bytes of a table, and bytes that stand after it in memory.
pub fn table(random: &mut Random) -> (Vec<u8>, Vec<u8>) {
    let bytes = draft(random).bytes();
    if random.one_in(4) {
        return damage_bytes(random, bytes);
    }
    (bytes, random.bytes(9))
}

/// One table in six stays as it is, and one in four of the others has more than one fault.
pub fn draft(random: &mut Random) -> Draft {
    let mut draft = match random.below(12) {
        0 => sound::full(random, 0),
        1 => sound::full(random, 1),
        2 => sound::full(random, -1),
        3 => sound::all_rows(random),
        _ => sound::any(random),
    };
    if random.one_in(6) {
        return draft;
    }
    damage(random, &mut draft);
    while random.one_in(4) {
        damage(random, &mut draft);
    }
    draft
}

/// One part of the table gets another value: often one that is wrong, sometimes one that is only rare.
fn damage(random: &mut Random, draft: &mut Draft) {
    match random.below(9) {
        0 => draft.format = other_format(random),
        1 => draft.cycle = other_cycle(random, draft.cycle),
        2 => {
            draft.cores = other_count(random, draft.cores, 8);
            if random.one_in(2) {
                draft.boards = (0..draft.cores).collect();
            }
        }
        3 => damage_rising(random, &mut draft.boards, &BOARDS),
        4 => {
            draft.count = other_count(random, draft.count, 32);
            if random.one_in(2) && !draft.rows.is_empty() {
                let last = draft.rows[draft.rows.len() - 1];
                draft.rows.resize(usize::from(draft.count), last);
            }
        }
        5 => {
            let count = random.between(1, 12);
            draft.after = random.bytes(count);
        }
        _ => damage_rows(random, &mut draft.rows),
    }
}

/// The same with a table value.
pub fn damage_value(random: &mut Random, table: &mut Table) {
    let n = table.named_rows().len();
    match random.below(11) {
        0 => table.format = other_format(random),
        1 => table.cycle = other_cycle(random, table.cycle),
        2 => table.cores = other_count(random, table.cores, 8),
        3 => damage_rising(random, &mut table.boards, &BOARDS),
        4..=6 => table.count = other_count(random, table.count, 32),
        _ => damage_rows(random, &mut table.rows[..n]),
    }
}

/// Mostly neither 1 nor 2.
fn other_format(random: &mut Random) -> u8 {
    let any = random.byte();
    random.pick(&[0, 0, 1, 2, 3, 3, 129, 255, any])
}

fn other_cycle(random: &mut Random, cycle: u32) -> u32 {
    match random.below(3) {
        0 => random.pick(&[0, 1_000_001, 1 << 24, 1 << 31, u32::MAX]),
        1 => random.pick(&[1, 2, 65_536, 999_999, 1_000_000]),
        _ => random.pick(&[
            cycle.wrapping_sub(1),
            cycle.wrapping_add(1),
            cycle.wrapping_mul(2),
            cycle / 2,
            cycle | 1 << 31,
        ]),
    }
}

fn other_count(random: &mut Random, count: u8, most: u8) -> u8 {
    let (less, more) = (count.wrapping_sub(1), count.wrapping_add(1));
    random.pick(&[0, 1, most - 1, most, most + 1, 255, less, more])
}

/// One of some numbers that rise gets another place or value, at times one of these.
pub fn damage_rising(random: &mut Random, numbers: &mut [u8], others: &[u8]) {
    if numbers.is_empty() {
        return;
    }
    let one = random.below(numbers.len());
    let other = random.below(numbers.len());
    match random.below(6) {
        0 => numbers.swap(one, other),
        1 => numbers[one] = numbers[other],
        2 => numbers[one] = numbers[other].wrapping_sub(1),
        3 => numbers[one] = numbers[other].wrapping_add(1),
        _ => numbers[one] = random.pick(others),
    }
}

fn damage_rows(random: &mut Random, rows: &mut [Row]) {
    if rows.is_empty() {
        return;
    }
    let one = random.below(rows.len());
    let other = random.below(rows.len());
    let (tank, border) = (rows[other].tank, random.pick(&BORDERS));
    let row = &mut rows[one];
    match random.below(18) {
        0 => rows.swap(one, other),
        1 => row.tank = tank,
        2 => row.tank = tank.wrapping_sub(1),
        3 => row.tank = border,
        4 | 5 => row.cost = 0,
        6 => row.cost = row.period,
        7 => row.cost = row.period.wrapping_sub(1),
        8 => row.cost = row.period.wrapping_add(1),
        9 => row.cost = border,
        10 => row.period = row.cost,
        11 => row.period = row.cost.wrapping_add(1),
        12 => row.period = row.period.wrapping_add(1),
        13 => row.period = border,
        14 => row.phase = border,
        15 => row.kind = 1 - row.kind.min(1),
        16 => row.kind = 2,
        _ => row.kind = random.pick(&[3, 128, 254, 255]),
    }
}

/// The bytes are cut, or one of them is changed, lost or doubled; and bytes that stand after them in memory: after a cut, the lost part.
pub fn damage_bytes(random: &mut Random, mut bytes: Vec<u8>) -> (Vec<u8>, Vec<u8>) {
    let place = random.below(bytes.len());
    match random.below(5) {
        0 | 1 => {
            let lost = bytes.split_off(place);
            return (bytes, lost);
        }
        2 => bytes[place] = random.byte(),
        3 => {
            bytes.remove(place);
        }
        _ => bytes.insert(place, bytes[place]),
    }
    (bytes, random.bytes(9))
}
