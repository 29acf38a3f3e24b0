//! The trace check.

use super::slot::lowest_late;
use super::table::{self, Table};

const SLOT_LIMIT: u32 = 1_000_000_000;

/// The first fault of the table, or of the trace.
pub fn check(table: &[u8], trace: &[u8]) -> Result<(), u8> {
    let table = table::read(table)?;
    let (slots, mut rest) = count(trace)?;
    let mut quanta = [0; 32];
    for slot in 0..u64::from(slots) {
        let (rows, behind) = record(&table, rest)?;
        rest = behind;
        for &row in rows {
            let row = usize::from(row);
            if !table.rows[row].is_ready(quanta[row], slot) {
                return Err(44);
            }
        }
        for &row in rows {
            quanta[usize::from(row)] += 1;
        }
        if lowest_late(&table, &quanta, slot + 1).is_some() {
            return Err(45);
        }
    }
    if rest.is_empty() {
        Ok(())
    } else {
        Err(46)
    }
}

/// How many slots the trace has, and the bytes behind.
fn count(trace: &[u8]) -> Result<(u32, &[u8]), u8> {
    if trace.len() < 4 {
        return Err(40);
    }
    let (count, rest) = trace.split_at(4);
    let slots = u32::from_le_bytes([count[0], count[1], count[2], count[3]]);
    if slots > SLOT_LIMIT {
        return Err(47);
    }
    Ok((slots, rest))
}

/// The rows of the next record, and the bytes behind it.
fn record<'a>(table: &Table, rest: &'a [u8]) -> Result<(&'a [u8], &'a [u8]), u8> {
    if rest.len() < 2 {
        return Err(40);
    }
    let (k, c, rest) = (rest[0], rest[1], &rest[2..]);
    if k > table.cores {
        return Err(41);
    }
    if c > k {
        return Err(42);
    }
    if rest.len() < usize::from(c) {
        return Err(40);
    }
    let (rows, behind) = rest.split_at(usize::from(c));
    let mut least = 0;
    for &row in rows {
        if row >= table.count || row < least {
            return Err(43);
        }
        least = row + 1;
    }
    Ok((rows, behind))
}
