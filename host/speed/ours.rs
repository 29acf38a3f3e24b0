//! The proved code, through its C calls.

use crate::cases::Entry;
use crate::firmware::{zb_table_check, zb_trace_check};

extern "C" {
    /// The crate slots_run.
    fn zb_slots(
        table: *const u8,
        length: usize,
        k: u8,
        slots: u64,
        entry: *mut u8,
        entry_length: usize,
    ) -> u64;
}

pub fn table_check(table: &[u8]) -> u8 {
    unsafe { zb_table_check(table.as_ptr(), table.len()) }
}

pub fn trace_check(table: &[u8], trace: &[u8]) -> u8 {
    unsafe { zb_trace_check(table.as_ptr(), table.len(), trace.as_ptr(), trace.len()) }
}

pub fn slots(table: &[u8], k: u8, slots: u64, entry: &mut Entry) -> u64 {
    let start = entry.as_mut_ptr();
    unsafe { zb_slots(table.as_ptr(), table.len(), k, slots, start, entry.len()) }
}
