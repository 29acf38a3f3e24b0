//! The library that C links, as a program that is asked like the probe: one request after another on standard input until it ends, one
//! answer for each on standard output.
//!
//! | request | |
//! |---|---|
//! | `T` length (4), table, length (4), bytes after it | zb_table_check |
//! | `C` length (4), table, length (4), trace, length (4), bytes after it | zb_trace_check |
//!
//! Answer: the number (1), the number with NULL for what has length 0 (1), whether a byte of these or around them was changed (1).

#[path = "../c/firmware.rs"]
mod firmware;

use firmware::{zb_table_check, zb_trace_check};
use std::io::{Read, Write};
use std::ptr::null;

fn main() -> std::io::Result<()> {
    let mut input = Vec::new();
    std::io::stdin().read_to_end(&mut input)?;
    let mut requests = &input[..];
    let mut answers = Vec::new();
    while let [letter, rest @ ..] = requests {
        requests = rest;
        let table = counted(&mut requests);
        let trace = match letter {
            b'T' => None,
            b'C' => Some(counted(&mut requests)),
            _ => panic!("no such request: {}", letter),
        };
        answers.extend(answer(table, trace, counted(&mut requests)));
    }
    std::io::stdout().write_all(&answers)
}

/// Bytes after their length (4); the requests then begin behind them.
fn counted<'a>(requests: &mut &'a [u8]) -> &'a [u8] {
    let (length, rest) = requests.split_at(4);
    let length = u32::from_le_bytes(length.try_into().expect("four bytes"));
    let (bytes, rest) = rest.split_at(length as usize);
    *requests = rest;
    bytes
}

fn answer(table: &[u8], trace: Option<&[u8]>, after: &[u8]) -> [u8; 3] {
    let (number, changed) = call(table, trace, after, false);
    let (with_null, also_changed) = call(table, trace, after, true);
    [number, with_null, u8::from(changed || also_changed)]
}

/// The number, and whether a byte is changed. Table and trace begin at even or uneven addresses; what is empty may be NULL.
fn call(table: &[u8], trace: Option<&[u8]>, after: &[u8], may_be_null: bool) -> (u8, bool) {
    let mut memory = vec![0xEE; table.len() % 8];
    let table_start = memory.len();
    memory.extend_from_slice(table);
    let gap = trace.map_or(0, |trace| trace.len() % 8);
    memory.resize(memory.len() + gap, 0xEE);
    let trace_start = memory.len();
    memory.extend_from_slice(trace.unwrap_or(&[]));
    memory.extend_from_slice(after);
    let found = memory.clone();
    // the pointers have the right to write, so that the compiler cannot suppose that nothing is written
    let begin = memory.as_mut_ptr();
    let lent = |start, bytes: &[u8]| match may_be_null && bytes.is_empty() {
        true => null(),
        false => unsafe { begin.add(start) as *const u8 },
    };
    let number = match trace {
        None => unsafe { zb_table_check(lent(table_start, table), table.len()) },
        Some(trace) => unsafe {
            let (table_at, trace_at) = (lent(table_start, table), lent(trace_start, trace));
            zb_trace_check(table_at, table.len(), trace_at, trace.len())
        },
    };
    (number, memory != found)
}
