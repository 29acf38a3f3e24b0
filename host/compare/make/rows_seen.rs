//! What is met among 32 rows of which those below n are asked.

use crate::make::reach::REACH;
use crate::make::rows::Rows;
use crate::make::whole_core::is_whole;
use crate::tally::{Group, Tally};
use second::table::Row;

pub const COUNTS: Group = "n (1 in 200): 0 | 1 to 31 | 32 | 33 to 256 | 2^32 | above 2^32 | \
    2^64 - 1";

/// The first five of rows whose question is answered, the others of rows whose question is not.
pub const ROWS: Group = "a row (1 in 200): of kind 0 | of kind 1 | of a kind above 1 | of e = p | \
    answered at time 2^40 | of e = 0 | of e above p | of too many quanta";

pub fn count(rows: &Rows, tally: &mut Tally) {
    tally.saw("n", count_name(rows.n));
    let (answered, others): (Vec<usize>, Vec<usize>) =
        rows.numbers().partition(|&row| rows.ask(row).is_some());
    let has = |test: fn(&Row) -> bool| answered.iter().any(|&row| test(&rows.rows[row]));
    let lacks = |test: fn(&Row) -> bool| others.iter().any(|&row| test(&rows.rows[row]));
    let met = [
        has(|row| row.kind == 0),
        has(|row| row.kind == 1),
        has(|row| row.kind > 1),
        has(is_whole),
        rows.time == REACH && !answered.is_empty(),
        lacks(|row| row.cost == 0),
        lacks(|row| row.cost > row.period),
        others.iter().any(|&row| rows.quanta[row] > REACH),
    ];
    tally.saw_each("a row", met);
}

/// Something that may be said of a row with so many quanta at a time.
type Said = fn(&Row, u64, u64) -> bool;

/// Is it said of a row that is not answered only because its quanta are one too many?
pub fn said_but_for_quanta(rows: &Rows, said: Said) -> bool {
    rows.time <= REACH && said_with(rows, said, |quanta| quanta == REACH + 1)
}

/// Is it said of a row that is not answered only because the time is one too late?
pub fn said_but_for_time(rows: &Rows, said: Said) -> bool {
    rows.time == REACH + 1 && said_with(rows, said, |quanta| quanta <= REACH)
}

fn said_with(rows: &Rows, said: Said, right_quanta: fn(u64) -> bool) -> bool {
    rows.numbers().any(|number| {
        let (row, quanta) = (&rows.rows[number], rows.quanta[number]);
        let right_weight = 0 < row.cost && row.cost <= row.period;
        right_weight && right_quanta(quanta) && said(row, quanta, rows.time)
    })
}

pub fn count_name(n: u64) -> &'static str {
    match n {
        0 => "0",
        1..=31 => "1 to 31",
        32 => "32",
        33..=256 => "33 to 256",
        0x1_0000_0000 => "2^32",
        u64::MAX => "2^64 - 1",
        _ => "above 2^32",
    }
}
