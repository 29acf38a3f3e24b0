//! What cases are made of, and what several kinds of case have in common.

pub mod cores_seen;
pub mod damage;
pub mod format;
pub mod hex;
pub mod lent;
pub mod marks;
pub mod memory;
pub mod reach;
pub mod room;
pub mod rows;
pub mod rows_seen;
pub mod schedule;
pub mod slot_seen;
pub mod sound;
pub mod spoil;
pub mod states;
pub mod values;
pub mod weight;
pub mod whole_core;
pub mod why_seen;
pub mod written;
