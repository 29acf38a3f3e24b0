//! One slot.

use super::choice::picks;
use super::cores::{give, is_faulty};
use super::look::{look, Ready};
use crate::plain::slot::{Answer, State, TIME_LIMIT};
use crate::plain::table;

/// One slot with a set of free cores, bit c for core c: its record stands at the given place in the buffer, and the rows that are picked have
/// their cores in `last`.
#[inline(never)]
pub fn slot(state: &mut State, free: u32, buffer: &mut [u8], place: usize) -> Answer {
    if state.stopped {
        return stopped(state);
    }
    let mut ready = Ready::none();
    if !look(state, &mut ready) || remembers_wrongly(state) {
        return Answer::Broken;
    }
    if state.time == TIME_LIMIT {
        return Answer::AtLimit;
    }
    if free >> state.table.cores != 0 {
        return Answer::NoSuchCore;
    }
    // no core is past 7
    let k = (free as u8).count_ones();
    let picks = picks(state, &ready, k);
    let count = k - picks.left;
    let part = match buffer.get_mut(place..) {
        Some(part) if part.len() >= 2 + count as usize => &mut part[..2 + count as usize],
        _ => return Answer::NoRoom,
    };
    part[0] = k as u8;
    part[1] = count as u8;
    give(
        &mut state.last,
        &mut state.quanta,
        free,
        picks.rows,
        &mut part[2..],
    );
    state.time += 1;
    judge(state, &ready, picks.rows)
}

#[inline(always)]
fn remembers_wrongly(state: &State) -> bool {
    is_faulty(&state.last, state.table.cores, state.table.count)
}

/// A row that is due at the new time is late if it was not picked. Such rows are in the first two classes.
#[inline(always)]
fn judge(state: &mut State, ready: &Ready, picked: u32) -> Answer {
    let late = (ready.near[1].rows() | ready.near[2].rows()) & !picked;
    if late == 0 {
        return Answer::Done;
    }
    state.stopped = true;
    Answer::Late {
        row: late.trailing_zeros() as u8,
        time: state.time,
    }
}

/// A stopped state is tested for all but shares.
#[cold]
#[inline(never)]
fn stopped(state: &State) -> Answer {
    let time = state.time;
    let is_broken = table::fault(&state.table).is_err()
        || time > TIME_LIMIT
        || state.quanta[..state.table.named().len()]
            .iter()
            .any(|&given| given > time)
        || remembers_wrongly(state);
    if is_broken {
        Answer::Broken
    } else {
        Answer::Stopped
    }
}
