//! Rust with all the promises of the proved code, on every input, wild or not, in the fewest instructions that we could find. As in plain nothing is
//! kept between slots but the state, which is plain's own.
//!
//! Four facts make a slot short. With x = e·a - p·q, what a row is owed after a slots past its phase and with q quanta:
//! - a ready row has t = f + a, so its deadline is t + ceil((p - x)/e), and its bit is whether that division has a rest: no window is asked for;
//! - whether a row is ready hangs on x too, but for an early-release row that is ahead of its share;
//! - the group deadline of a heavy row with b = 1 is d + ceil((e - rest)/(p - e)), with the rest of that division;
//! - a row that is late at the end of a slot was ready in it and was not picked, so that lateness needs no pass of its own.

#[path = "checked/check.rs"]
mod check;
#[path = "checked/choice.rs"]
mod choice;
#[path = "checked/cores.rs"]
mod cores;
#[path = "checked/held.rs"]
mod held;
#[path = "checked/look.rs"]
mod look;
#[path = "checked/owed.rs"]
mod owed;
#[path = "checked/set.rs"]
mod set;
#[path = "checked/slot.rs"]
pub mod slot;
#[path = "checked/table.rs"]
mod table;

use crate::cases::Entry;
use crate::plain;
pub use check::trace_check;
pub use table::table_check;

/// So many slots with the first k cores free, and the time at the end, as `zb_slots` gives it.
#[inline(never)]
pub fn slots(bytes: &[u8], k: u8, slots: u64, entry: &mut Entry) -> u64 {
    let mut state = plain::slot::State::fresh(plain::table::read(bytes).unwrap_or_default());
    let free = plain::cores::first(k);
    for _ in 0..slots {
        slot::slot(&mut state, free, entry, 0);
    }
    state.time
}
