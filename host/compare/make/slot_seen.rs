//! What is met in single slots.

use crate::kinds::slot::{Case, Free};
use crate::make::states::LIMIT_OF_01;
use crate::make::whole_core::is_whole;
use crate::make::{cores_seen, format};
use crate::tally::{Group, Tally};
use second::share::inside;
use second::slot::{broken, deciding_rule, ready_rows, Next, Rule, State, LAST_TIME};
use second::table::{fault, Row, Table};

pub const CAUSES_OF_30: Group = "the only cause of 30 (1 in 2000): \
    the format | table fault 12 | table fault 13 | table fault 14 | table fault 15 | table fault 16 | \
    table fault 17 | table fault 18 | table fault 19 | table fault 20 | table fault 22 | \
    time above the limit | quanta above time | outside the share | \
    core M | a core above M | a core of two rows | row n | a row above n | a row on two cores | \
    a row and its core twice | falling rows in format 1 | falling rows in format 2 | a count above M";

/// Rows inside their shares, and a memory without a fault; with 30 the time is the only cause.
pub const LIMIT: Group = "answered at the time limit (1 in 150): \
    0 or 1 in the last slot | 32 | 30 one past it";

/// With what is counted of the way in which the free cores are told.
pub const fn groups(free: Group) -> [Group; 24] {
    [
        "answer (1 in 100): 0 | 1 | 30..32 | 34..35",
        CAUSES_OF_30,
        "decided by (1 in 150): deadline | bit | group deadline | ran in the slot before | row number",
        "done in format (1 in 10): 1 | 2",
        format::OTHERS,
        "in format 2 one that did not run goes before one that did, by (1 in 600): \
         deadline | bit | group deadline",
        "picked (1 in 50): plain | early release | phase above 0",
        "a row with e = p (1 in 150): picked | late | ready, and one with b = 1 is picked",
        "done at a time (1 in 60): below 1,000 | above 900,000,000,000",
        "done at a time of (1 in 250): 999,999,999 | 1,000,000,000 | 1,000,000,001 | \
         2^32 - 1 | 2^32 | 2^32 + 1",
        LIMIT,
        "done with (1 in 100): k of 0 | M of 8 | n of 32 | a row not yet begun",
        "late row (1 in 200): above 0 | 31",
        "refused by a place (1 in 500): right in its low 4 bytes alone",
        "30 by a time (1 in 1000): right in its low 4 bytes alone",
        "moves (1 in 100): 0 | 1 | 2 or more",
        "a picked row (1 in 20): stays | moves | is new",
        "cores that are not (1 in 50): the lowest | each row's own or the lowest",
        "nobody is picked, and before (1 in 100): nobody was | somebody was",
        "refused, and somebody is remembered (1 in 100): 30..32 | 34..35",
        "30 by its memory alone, in place of (1 in 1000): 0 | 1 | 31..32 | 34..35",
        "past the count of what is remembered, not 0 (1 in 20): done | refused",
        "a core past the last, answered (1 in 1000): 30..32 | 35 with room | 35 without room",
        free,
    ]
}

/// A slot whose answer has these bytes.
pub fn count<F: Free>(case: &Case<F>, answer: &[u8], tally: &mut Tally) {
    let number = answer[0];
    tally.saw("answer", number);
    cores_seen::count(case, number, tally);
    if number <= 1 {
        count_done(case, tally);
    }
    count_cause_of_30(&case.state, number, tally);
    count_limit(&case.state, number, tally);
    let low_right = number == 34 && low_place_right(case);
    tally.saw_each("refused by a place", [low_right]);
    let low_time = number == 30 && low_time_right(&case.state);
    tally.saw_each("30 by a time", [low_time]);
    let late = |met| number == 1 && met;
    tally.saw_each("late row", [late(answer[1] > 0), late(answer[1] == 31)]);
    if number <= 1 {
        let such = late(is_whole(&case.state.table.rows[usize::from(answer[1])]));
        count_whole_core(&case.state, case.free.set().count_ones() as u8, such, tally);
    }
}

pub fn count_cause_of_30(state: &State, number: u8, tally: &mut Tally) {
    if let (30, Some(cause)) = (number, only_cause(state)) {
        tally.saw("the only cause of 30", cause);
    }
}

/// Where the time limit is met, with an answer of this number.
pub fn count_limit(state: &State, number: u8, tally: &mut Tally) {
    let past = number == 30 && state.time == LAST_TIME + 1;
    let met = [
        number <= 1 && state.time == LAST_TIME - 1,
        number == 32,
        past && only_cause(state).is_some(),
    ];
    tally.saw_each("answered at the time limit", met);
}

/// The name of the cause for which a state is broken, if there is one alone: a slot answers 30 for each, so a cause shows only without another.
fn only_cause(state: &State) -> Option<String> {
    // a fault behind an unknown format would be another cause
    let number = fault(&Table { format: 1, ..state.table });
    let rows = || state.table.named_rows().iter().zip(&state.quanta);
    let outside = |(row, &quanta)| !inside(row, state.time, quanta);
    let table = format!("table fault {}", number);
    let causes = [
        ("the format", ![1, 2].contains(&state.table.format)),
        (&table[..], number != 0),
        ("time above the limit", state.time > LAST_TIME),
        ("quanta above time", rows().any(|(_, &q)| q > state.time)),
        ("outside the share", !state.stopped && rows().any(outside)),
    ];
    let of_memory = cores_seen::causes(state);
    let mut met = causes.iter().chain(&of_memory).filter(|(_, met)| *met);
    let first = met.next().filter(|_| met.next().is_none());
    first.map(|(name, _)| name.to_string())
}

fn count_done<F: Free>(case: &Case<F>, tally: &mut Tally) {
    let (state, k) = (&case.state, case.free.set().count_ones() as u8);
    if let Some(rule) = deciding_rule(state, k) {
        tally.saw("decided by", rule_name(rule));
        count_against_ran(state, k, rule, tally);
    }
    tally.saw("done in format", state.table.format);
    format::count_others(state, k, tally);
    let picked = picked(state, k);
    let has = |kind: fn(&Row) -> bool| picked.iter().any(kind);
    let met = [
        has(|row| row.kind == 0),
        has(|row| row.kind == 1),
        has(|row| row.phase > 0),
    ];
    tally.saw_each("picked", met);
    let (early, late) = (state.time < 1_000, state.time > 900_000_000_000);
    tally.saw_each("done at a time", [early, late]);
    let (old, wide) = (LIMIT_OF_01, 1 << 32);
    let times = [old - 1, old, old + 1, wide - 1, wide, wide + 1];
    tally.saw_each("done at a time of", times.map(|time| state.time == time));
    let begins_later = |row: &Row| state.time < u64::from(row.phase);
    let met = [
        k == 0,
        state.table.cores == 8,
        state.table.count == 32,
        state.table.named_rows().iter().any(begins_later),
    ];
    tally.saw_each("done with", met);
}

/// Where the last row that is picked goes before the first that is not by an earlier rule, though that one alone ran in the slot before.
fn count_against_ran(state: &State, k: u8, rule: Rule, tally: &mut Tally) {
    let ready = ready_rows(state);
    let [picked, left] = [k - 1, k].map(|place| ready[usize::from(place)]);
    let against = state.table.format == 2 && left.ran && !picked.ran;
    let rules = [Rule::Deadline, Rule::Bit, Rule::GroupDeadline];
    let met = rules.map(|other| against && rule == other);
    tally.saw_each("in format 2 one that did not run goes before one that did, by", met);
}

/// Rows with e = p in a slot that is done: they have windows of one slot, and yet a row that is due with them goes first if its b is 1.
fn count_whole_core(state: &State, k: u8, late: bool, tally: &mut Tally) {
    let ready = ready_rows(state);
    let (picked, left) = ready.split_at(usize::from(k).min(ready.len()));
    let such = |next: &Next| is_whole(&state.table.rows[usize::from(next.row)]);
    let behind = |next: &Next| {
        let due = |other: &Next| other.deadline == next.deadline && other.bit == 1;
        such(next) && picked.iter().any(due)
    };
    let met = [picked.iter().any(such), late, left.iter().any(behind)];
    tally.saw_each("a row with e = p", met);
}

fn picked(state: &State, k: u8) -> Vec<Row> {
    let ready = ready_rows(state).into_iter();
    let first = ready.take(usize::from(k));
    first
        .map(|next| state.table.rows[usize::from(next.row)])
        .collect()
}

/// With the rest of its place 0, the slot is done.
fn low_place_right<F: Free>(case: &Case<F>) -> bool {
    let mut low = case.clone();
    low.place = u64::from(case.place as u32);
    case.place != low.place && low.slot().answer.number <= 1
}

/// With the rest of its time 0, the state is not broken.
fn low_time_right(state: &State) -> bool {
    let time = u64::from(state.time as u32);
    state.time != time && !broken(&State { time, ..*state })
}

pub fn rule_name(rule: Rule) -> &'static str {
    match rule {
        Rule::Deadline => "deadline",
        Rule::Bit => "bit",
        Rule::GroupDeadline => "group deadline",
        Rule::RanBefore => "ran in the slot before",
        Rule::RowNumber => "row number",
    }
}
