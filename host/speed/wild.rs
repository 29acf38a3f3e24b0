//! Wild and sound states, tables and traces, with what hands a slot its free cores and its buffer: for the comparison of checked with plain.

use crate::make::{damage, memory, schedule, spoil, states};
use crate::random::Random;
use second::slot::{State, LAST_TIME};
use second::table::Row;

/// A slot that is asked for.
pub struct Slot {
    pub state: State,
    pub free: u32,
    pub buffer: Vec<u8>,
    pub place: usize,
}

pub fn slot(random: &mut Random) -> Slot {
    let state = state(random);
    let (buffer, place) = buffer(random);
    Slot {
        state,
        free: free(random, state.table.cores),
        buffer,
        place,
    }
}

/// One that is not broken, or one of which something has another value.
fn state(random: &mut Random) -> State {
    let mut state = states::state(random);
    while random.one_in(3) {
        disturb(random, &mut state);
    }
    state
}

fn disturb(random: &mut Random, state: &mut State) {
    match random.below(12) {
        0..=2 => state.time = other(random, state.time, LAST_TIME),
        3..=5 => state.stopped = !state.stopped,
        6 | 7 => {
            let row = random.below(32);
            state.quanta[row] = other(random, state.quanta[row], state.time);
        }
        8 | 9 => memory::damage(random, &state.table, &mut state.last),
        _ => damage::damage_value(random, &mut state.table),
    }
}

/// A number beside this one, at or beside a limit, or far away.
fn other(random: &mut Random, number: u64, limit: u64) -> u64 {
    let (less, more) = (number.wrapping_sub(1), number.wrapping_add(1));
    let past = limit.wrapping_add(1);
    random.pick(&[less, less, more, more, 0, limit, past, 1 << 32, u64::MAX])
}

/// Mostly cores below M, at times a core past it, even far past.
fn free(random: &mut Random, cores: u8) -> u32 {
    let all = second::cores::first_cores(cores);
    let any = u32::from_le_bytes([(); 4].map(|_| random.byte()));
    match random.below(8) {
        0 => all & any | 1 << random.pick(&[u32::from(cores) % 32, 8, 31]),
        1..=3 => all,
        4 => any,
        _ => all & any,
    }
}

/// Mostly with room for any record.
fn buffer(random: &mut Random) -> (Vec<u8>, usize) {
    let place = random.below(4);
    let size = match random.below(10) {
        0 => random.below(14),
        _ => place + 10,
    };
    let place = match random.one_in(20) {
        true => random.pick(&[size, size + 1, usize::MAX - 1, usize::MAX]),
        false => place,
    };
    (random.bytes(size), place)
}

/// What stands past row n, where no rule asks for it.
pub fn wild_row(random: &mut Random) -> Row {
    let mut number = || u16::from_le_bytes([random.byte(), random.byte()]);
    Row {
        tank: number(),
        cost: number(),
        period: number(),
        phase: number(),
        kind: number() as u8,
    }
}

/// Sound, full or damaged.
pub fn table(random: &mut Random) -> Vec<u8> {
    damage::table(random).0
}

/// A table and a trace for it, as a dispatcher wrote it or spoilt.
pub fn check(random: &mut Random) -> (Vec<u8>, Vec<u8>) {
    let schedule = schedule::schedule(random);
    match random.below(8) {
        0 => (table(random), schedule.trace.bytes()),
        1 | 2 => (schedule.table.clone(), schedule.trace.bytes()),
        _ => {
            let spoilt = spoil::trace(random, &schedule).0;
            (schedule.table, spoilt)
        }
    }
}
