//! The two C calls of the firmware, as in zbrojomir.h, for the Rust programs that link it.

extern "C" {
    pub fn zb_table_check(table: *const u8, length: usize) -> u8;
    pub fn zb_trace_check(
        table: *const u8,
        table_length: usize,
        trace: *const u8,
        trace_length: usize,
    ) -> u8;
}
