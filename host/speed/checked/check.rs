//! The trace check.

use super::held::Held;
use super::table;

const SLOT_LIMIT: u32 = 1_000_000_000;

/// The number for a table and a trace, as `zb_trace_check` gives it.
#[inline(never)]
pub fn trace_check(table: &[u8], trace: &[u8]) -> u8 {
    match check(table, trace) {
        Ok(()) => 0,
        Err(number) => number,
    }
}

#[inline(always)]
fn check(table: &[u8], trace: &[u8]) -> Result<(), u8> {
    let table = table::read(table)?;
    let (slots, mut rest) = match *trace {
        [a, b, c, d, ref rest @ ..] => (u32::from_le_bytes([a, b, c, d]), rest),
        _ => return Err(40),
    };
    if slots > SLOT_LIMIT {
        return Err(47);
    }
    let mut rows = [Held::default(); 32];
    // signed, since that is what the machine compares several of at once; a place without a row is never due
    let mut dues = [i32::MAX; 32];
    for ((row, due), bytes) in rows
        .iter_mut()
        .zip(&mut dues)
        .zip(table.rows.chunks_exact(9))
    {
        (*row, *due) = Held::first(bytes);
    }
    for slot in 0..slots {
        let (named, behind) = record(table.cores, rest)?;
        rest = behind;
        give(table.count, named, slot, &mut rows, &mut dues)?;
        let end = slot as i32 + 1;
        if dues.iter().fold(false, |late, &due| late | (due <= end)) {
            return Err(45);
        }
    }
    if rest.is_empty() {
        Ok(())
    } else {
        Err(46)
    }
}

/// The rows that the next record names, not judged yet, and the bytes behind it.
#[inline(always)]
fn record(cores: u8, rest: &[u8]) -> Result<(&[u8], &[u8]), u8> {
    let (k, c, rest) = match *rest {
        [k, c, ref rest @ ..] => (k, c, rest),
        _ => return Err(40),
    };
    if k > cores {
        return Err(41);
    }
    if c > k {
        return Err(42);
    }
    if rest.len() < usize::from(c) {
        return Err(40);
    }
    Ok(rest.split_at(usize::from(c)))
}

/// A quantum for each of the rows. A row that is given one too early is told of only behind the last, since 43 of a later row goes before it.
#[inline(always)]
fn give(
    count: u8,
    named: &[u8],
    slot: u32,
    rows: &mut [Held; 32],
    dues: &mut [i32; 32],
) -> Result<(), u8> {
    let (mut least, mut early) = (0, false);
    for &number in named {
        if number >= count || number < least {
            return Err(43);
        }
        least = number + 1;
        let number = usize::from(number % 32);
        early |= rows[number].ready > slot;
        dues[number] = rows[number].give();
    }
    if early {
        return Err(44);
    }
    Ok(())
}
