//! The boxes that are measured, and the trace of a million slots. All are of format 1, unless it is said that they are not.

use crate::make::hex::bytes_of;
use crate::make::schedule::record;
use crate::make::written::{draft, written};
use second::table::Row;

/// A full box: 8 cores, and 32 rows whose sum is exactly 8·L. 18 rows are plain and 14 early release, 6 heavy and 26 light; periods 7 to
/// 5,040, some fractions not reduced, phases 0 to 459. First L, the boards and n, then the rows: tank, e, p, f, kind.
const FULL: &str = "01 50FF0A00 08 0001020308090A0B 20\
    | 6400 EC04 B013 0000 00 | 6500 0C00 3C00 0000 00 | 6700 0400 5B00 A101 00 | 6800 0300 1400 2401 00\
    | 6A00 1405 B013 1801 00 | 6B00 0300 0C00 0300 01 | 6D00 0100 0C00 0300 01 | 6F00 1400 F000 0000 00\
    | 7000 0400 0700 0400 01 | 7200 0800 2100 1C00 00 | 7300 0B00 1400 0000 01 | 7400 0600 2100 0000 00\
    | 7600 0400 F000 0100 01 | 7D00 BC02 E903 0000 01 | 8400 2500 F000 0000 00 | 8600 1200 4200 9100 01\
    | 8800 9700 E903 0300 01 | 8900 3200 E903 0300 00 | 8A00 0500 3C00 0000 00 | 9100 4200 5B00 0300 00\
    | 9200 6400 E903 CB01 01 | 9300 0800 5B00 3700 01 | 9A00 0200 1400 0300 00 | 9B00 0100 0700 0000 00\
    | 9C00 8200 8E03 0C00 00 | 9E00 0100 0700 0000 01 | A000 0B00 4D00 0000 00 | A700 D804 B013 0300 01\
    | AE00 0A00 2100 F600 01 | AF00 0700 0C00 0000 01 | B000 D804 B013 9001 00 | B100 B300 F000 0000 00";

pub fn full() -> Vec<u8> {
    bytes_of(FULL)
}

/// Its first rows alone: n stands behind 14 bytes, and each row has nine.
pub fn full_to(n: u8) -> Vec<u8> {
    let mut table = full();
    table[14] = n;
    table.truncate(15 + 9 * usize::from(n));
    table
}

/// The same box in this format (02, Eight), which stands first.
pub fn in_format(format: u8, mut table: Vec<u8>) -> Vec<u8> {
    table[0] = format;
    table
}

/// The box of the worst slot that `host/bench worst` has found, in the layout of the full box, with so many cores free, and the slot. All rows are early
/// release, and 9 are heavy. In that slot all are ready and ahead of their shares, and 25 of them go before every row below them.
const WORST: &str = "01 50FF0A00 08 0001020304050607 20\
    | 0000 6500 4E75 0000 01 | 0100 6700 4E75 0000 01 | 0200 6A00 4E75 0000 01 | 0300 6D00 4E75 0000 01\
    | 0400 7000 4E75 0000 01 | 0500 7300 4E75 0000 01 | 0600 7600 4E75 0000 01 | 0700 7900 4E75 0000 01\
    | 0800 7C00 4E75 0100 01 | 0900 8000 4E75 0100 01 | 0A00 8000 4E75 0100 01 | 0B00 8500 4E75 0100 01\
    | 0C00 8800 4E75 0100 01 | 0D00 8B00 4E75 0100 01 | 0E00 8900 4E75 0100 01 | 0F00 9100 4E75 0100 01\
    | 1000 9400 4E75 0200 01 | 1100 9700 4E75 0200 01 | 1200 9A00 4E75 0200 01 | 1300 9D00 4E75 0200 01\
    | 1400 A000 4E75 0200 01 | 1500 A300 4E75 0200 01 | 1600 A600 4E75 0200 01 | 1700 7946 4E75 0200 01\
    | 1800 8A47 4E75 0300 01 | 1900 E046 4E75 0300 01 | 1A00 7643 4E75 0300 01 | 1B00 124B 4E75 0300 01\
    | 1C00 3E4C 4E75 0300 01 | 1D00 6A4D 4E75 0300 01 | 1E00 964E 4E75 0900 01 | 1F00 C14F 4E75 0300 01";
pub const WORST_K: u8 = 8;
pub const WORST_SLOT: u64 = 10;

pub fn worst() -> Vec<u8> {
    bytes_of(WORST)
}

/// A plain row of phase 0.
fn row(tank: u16, cost: u16, period: u16) -> Row {
    Row {
        tank,
        cost,
        period,
        ..Row::zero()
    }
}

/// Rows of these weights (e, p), with phase 0, on 8 cores.
fn rows(cycle: u32, weights: impl Iterator<Item = (u16, u16)>, early: bool) -> Vec<u8> {
    let kind = early.into();
    let rows: Vec<Row> = weights
        .zip(0..)
        .map(|((e, p), tank)| Row {
            kind,
            ..row(tank, e, p)
        })
        .collect();
    draft(1, cycle, &BOARDS, &rows).bytes()
}

/// 8 rows that each take a core but for one slot in 65,535, and 8 that fill the cores: a full box. Each of the 8 would be walked for over 65,534
/// windows, if D were found by a walk: the most that was found in one slot.
pub fn longest_walks() -> Vec<u8> {
    let weights = [(65_534, 65_535), (1, 65_535)];
    rows(65_535, weights.into_iter().flat_map(|it| [it; 8]), false)
}

/// A farm of so many equal tanks: at first each row has the deadline and the bit of every other.
pub fn equal(n: u8, e: u16, p: u16, early: bool) -> Vec<u8> {
    rows(p.into(), (0..n).map(|_| (e, p)), early)
}

pub const BOARDS: [u8; 8] = [0, 1, 2, 3, 4, 5, 6, 7];

pub const TRACE_SLOTS: usize = 1_000_000;
const CYCLE: usize = 420;

/// A period and four costs that make it whole: a core each, 8 in all, from light rows to heavy ones.
const CORES: [(u16, [u16; 4]); 8] = [
    (4, [1, 1, 1, 1]),
    (6, [3, 1, 1, 1]),
    (10, [6, 2, 1, 1]),
    (12, [7, 3, 1, 1]),
    (60, [31, 17, 11, 1]),
    (84, [43, 25, 13, 3]),
    (105, [60, 30, 10, 5]),
    (420, [211, 113, 71, 25]),
];

/// A full box of a short cycle: 32 rows, plain and early release in turn.
pub fn short() -> Vec<u8> {
    let weights = CORES
        .iter()
        .flat_map(|(p, costs)| costs.iter().map(move |e| (*e, *p)));
    let rows: Vec<Row> = weights
        .zip(0..)
        .map(|((e, p), tank)| Row {
            kind: (tank % 2) as u8,
            ..row(tank, e, p)
        })
        .collect();
    draft(1, CYCLE as u32, &BOARDS, &rows).bytes()
}

/// The dispatcher's records of one cycle of the short box, again and again. In a full box every row has its whole share at the
/// end of a cycle, neither more nor less, so that the next cycle is as the first.
pub fn million() -> Vec<u8> {
    let table = second::table::read(&short()).expect("a full box is taken");
    let mut state = second::slot::fresh(table);
    let cycle: Vec<_> = (0..CYCLE).map(|_| record(&mut state, 8).0).collect();
    written(cycle.into_iter().cycle().take(TRACE_SLOTS).collect()).bytes()
}
