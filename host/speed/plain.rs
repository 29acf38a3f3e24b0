//! Plain Rust that does what the proved code does, on every input, and is measured beside it: straightforward code, with the tests that 01
//! asks for and no tricks. Nothing is kept between slots but the state.

#[path = "plain/check.rs"]
pub mod check;
#[path = "plain/cores.rs"]
pub mod cores;
#[path = "plain/picks.rs"]
mod picks;
#[path = "plain/slot.rs"]
pub mod slot;
#[path = "plain/table.rs"]
pub mod table;
#[path = "plain/windows.rs"]
mod windows;

use crate::cases::Entry;
use slot::State;
use std::arch::asm;

/// The number for the bytes of a table, as `zb_table_check` gives it. The table is read into its place, as ours is: the compiler would leave
/// that out, since nobody looks at it here.
#[inline(never)]
pub fn table_check(bytes: &[u8]) -> u8 {
    match table::read(bytes) {
        Ok(table) => {
            look_at(&table);
            0
        }
        Err(number) => number,
    }
}

/// No instruction, but one that might read the table, so that it must be there. std's own, `black_box`, is not in Debian's compiler yet.
fn look_at(table: &table::Table) {
    unsafe { asm!("/* {0} */", in(reg) table, options(nostack, preserves_flags)) }
}

/// The number for a table and a trace, as `zb_trace_check` gives it.
#[inline(never)]
pub fn trace_check(table: &[u8], trace: &[u8]) -> u8 {
    match check::check(table, trace) {
        Ok(()) => 0,
        Err(number) => number,
    }
}

/// So many slots with the first k cores free, and the time at the end, as `zb_slots` gives it.
#[inline(never)]
pub fn slots(bytes: &[u8], k: u8, slots: u64, entry: &mut Entry) -> u64 {
    let mut state = State::fresh(table::read(bytes).unwrap_or_default());
    for _ in 0..slots {
        state.slot(cores::first(k), entry, 0);
    }
    state.time
}
