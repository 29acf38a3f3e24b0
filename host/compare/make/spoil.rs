//! Damaged traces that reach every number that 01 gives to a trace.

use crate::make::damage::{damage_bytes, damage_rising};
use crate::make::schedule::Schedule;
use crate::make::written::{Record, Written};
use crate::random::Random;

/// The bytes of the schedule's trace with a fault or more, and bytes that stand after it in memory.
pub fn trace(random: &mut Random, schedule: &Schedule) -> (Vec<u8>, Vec<u8>) {
    let mut trace = schedule.trace.clone();
    while random.one_in(4) {
        spoil(random, schedule, &mut trace);
    }
    if random.one_in(4) {
        return damage_bytes(random, trace.bytes());
    }
    spoil(random, schedule, &mut trace);
    (trace.bytes(), random.bytes(9))
}

/// One part of the trace gets another value: often one that is wrong, sometimes one that is only rare.
fn spoil(random: &mut Random, schedule: &Schedule, trace: &mut Written) {
    match random.below(16) {
        0 => trace.count = other_count(random, trace.count),
        1 => {
            let count = random.between(1, 12);
            trace.after = random.bytes(count);
        }
        2 => drop_or_double(random, trace),
        3..=5 => move_a_quantum(random, trace),
        _ => {
            if !trace.records.is_empty() {
                let place = random.below(trace.records.len());
                spoil_record(random, schedule, &mut trace.records[place]);
            }
        }
    }
}

fn other_count(random: &mut Random, count: u32) -> u32 {
    const MOST: u32 = 1_000_000_000;
    let (less, more) = (count.wrapping_sub(1), count.wrapping_add(1));
    let high = count | 1 << 31;
    random.pick(&[0, less, more, MOST - 1, MOST, MOST + 1, high, u32::MAX])
}

/// A record is lost or doubled; the count goes with it or not.
fn drop_or_double(random: &mut Random, trace: &mut Written) {
    if trace.records.is_empty() {
        return;
    }
    let place = random.below(trace.records.len());
    if random.one_in(2) {
        trace.records.remove(place);
    } else {
        trace.records.insert(place, trace.records[place].clone());
    }
    if !random.one_in(4) {
        trace.count = trace.records.len() as u32;
    }
}

/// A quantum of one slot is given in another, where its row may not be ready, or may be late before it comes.
fn move_a_quantum(random: &mut Random, trace: &mut Written) {
    if trace.records.is_empty() {
        return;
    }
    let from = random.below(trace.records.len());
    let to = random.below(trace.records.len());
    if let Some(row) = take(random, &mut trace.records[from]) {
        give(&mut trace.records[to], row);
    }
}

/// Takes a row out of a record, if it names one.
fn take(random: &mut Random, record: &mut Record) -> Option<u8> {
    if record.rows.is_empty() {
        return None;
    }
    let place = random.below(record.rows.len());
    record.c = record.c.wrapping_sub(1);
    Some(record.rows.remove(place))
}

/// Puts a row where it belongs in a record. Where no core is left for it, k rises with c.
fn give(record: &mut Record, row: u8) {
    let place = record.rows.partition_point(|&other| other < row);
    record.rows.insert(place, row);
    record.c = record.c.wrapping_add(1);
    record.k = record.k.max(record.c);
}

fn spoil_record(random: &mut Random, schedule: &Schedule, record: &mut Record) {
    let (cores, n) = (schedule.after.table.cores, schedule.after.table.count);
    let (k, c) = (record.k, record.c);
    match random.below(8) {
        0 => record.k = random.pick(&[0, cores, cores + 1, 255, k.wrapping_sub(1)]),
        1 => record.k = random.pick(&[c, c.wrapping_sub(1), c.wrapping_add(1)]),
        2 => record.c = random.pick(&[0, k, k.wrapping_add(1), 255]),
        3 => record.c = random.pick(&[c.wrapping_sub(1), c.wrapping_add(1)]),
        4 => {
            take(random, record);
        }
        5 => give(record, random.below(usize::from(n) + 1) as u8),
        _ => {
            let any = random.below(usize::from(n).max(1)) as u8;
            let others = [any, any, any, n, n.wrapping_sub(1), n + 1, 32, 128, 255];
            damage_rising(random, &mut record.rows, &others);
        }
    }
}
