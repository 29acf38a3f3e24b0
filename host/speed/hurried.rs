//! The fastest plain Rust that the same numbers could be had with: it keeps each row's next window between slots, finds rows by their time
//! instead of asking each, and tests nothing that these inputs do not need. It places nobody: no row gets a core, and all that is remembered of
//! the last slot is which rows ran, in format 2. Not fit for a board: a wild table or state is not noticed. And it is for short runs: its times
//! have 32 bits, and a deadline is doubled, so that it cannot follow the others to their time limit; a run that is too long for it is refused.

#[path = "hurried/check.rs"]
mod check;
#[path = "hurried/read.rs"]
mod read;
#[path = "hurried/row.rs"]
pub mod row;
#[path = "hurried/slots.rs"]
pub mod slots;
#[path = "hurried/wheel.rs"]
mod wheel;

use crate::cases::Entry;
pub use check::trace_check;
pub use read::table_check;

/// So far a run goes: twice a deadline that lies a phase and two periods ahead is below 2^32. A trace, of at most 1,000,000,000 slots, ends before.
const FURTHEST: u64 = (1 << 31) - 3 * 65_536;

/// So many slots with k cores free, and the time at the end.
#[inline(never)]
pub fn slots(table: &[u8], k: u8, slots: u64, entry: &mut Entry) -> u64 {
    assert!(
        slots <= FURTHEST,
        "hurried has times of 32 bits, and {} slots are too many",
        slots
    );
    let mut state = slots::State::fresh(table);
    for _ in 0..slots {
        state.slot(k, entry);
    }
    state.time.into()
}
