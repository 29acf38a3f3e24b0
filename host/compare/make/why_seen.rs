//! What is met in questions why a row waits.

use crate::kinds::why::Case;
use crate::make::slot_seen::{count_cause_of_30, count_limit, rule_name, CAUSES_OF_30, LIMIT};
use crate::make::whole_core::is_whole;
use crate::tally::{Group, Tally};
use second::slot::{broken, ready, ready_rows, rule_between, Next, Rule, LAST_TIME};
use second::table::Row;
use second::why::{why, Reason};

pub const GROUPS: [Group; 20] = [
    "answer (1 in 80): 0 | 30..33 | 36",
    CAUSES_OF_30,
    LIMIT,
    "refused, and there is cause for another (1 in 2000): 30 before 31 | 30 before 32 | \
     30 before 33 | 30 before 36 | 31 before 32 | 31 before 33 | 31 before 36 | 32 before 33 | \
     32 before 36 | 33 before 36",
    "33 by k of (1 in 200): M + 1 | 32 | 255",
    "36 by row (1 in 400): n | n + 1 | 31 | 32 | 255",
    "36 with (1 in 500): n of 0 | n of 32 | something at the row's place",
    "reason (1 in 50): picked | not ready | no core free | passed over",
    "asked about a row with e = p (1 in 200): picked | not ready | no core free | passed over",
    "answered with (1 in 250): row 31 | k of M | k of 8 | time above 900,000,000,000",
    "k of 0, and the row is (1 in 150): ready | not ready",
    "not ready (1 in 80): plain | early release | before its phase | after a phase above 0",
    "first slot (1 in 1000): the next | a later one | the time limit | past the time limit",
    "before its start, by early release (1 in 1500): picked | no core free | passed over",
    "passed over by (1 in 250): deadline | bit | group deadline | ran in the slot before | row number",
    "passed over by row number, and the row asked about alone has run (1 in 250): in format 1",
    "passed over, and (1 in 80): the named row is not the lowest of the picked | \
     it is not the highest | it is not the first in the order | \
     another of the picked goes before by another rule | \
     the named row goes before the first left out by another rule",
    "passed over against a later rule (1 in 500): deadline against bit | \
     deadline against group deadline | deadline against ran | deadline against row number | \
     bit against ran | bit against row number | group deadline against ran | \
     group deadline against row number | ran against row number",
    "passed over by the bit (1 in 2500): against a larger group deadline",
    "passed over by row number, both bits 0, the larger group deadline (1 in 500): \
     of the row asked about | of the named row",
];

pub fn count(case: &Case, tally: &mut Tally) {
    match why(&case.state, case.k, case.row) {
        Err(number) => count_refused(case, number, tally),
        Ok(reason) => count_answered(case, reason, tally),
    }
}

fn count_refused(case: &Case, number: u8, tally: &mut Tally) {
    let (state, table) = (&case.state, &case.state.table);
    tally.saw("answer", number);
    count_cause_of_30(state, number, tally);
    count_limit(state, number, tally);
    let causes = [
        (30, broken(state)),
        (31, state.stopped),
        (32, state.time == LAST_TIME),
        (33, case.k > table.cores),
        (36, case.row >= table.count),
    ];
    for (other, met) in causes {
        let name = format!("{} before {}", number, other);
        let title = "refused, and there is cause for another";
        tally.saw_if(met && other > number, title, name);
    }
    let by = |k| number == 33 && case.k == k;
    let past = table.cores.wrapping_add(1);
    tally.saw_each("33 by k of", [by(past), by(32), by(255)]);
    if number == 36 {
        count_no_row(case.row, &table.rows, table.count, tally);
    }
}

/// Of n rows there is none of this number.
fn count_no_row(row: u8, rows: &[Row], n: u8, tally: &mut Tally) {
    let met = [n, n + 1, 31, 32, 255].map(|other| row == other);
    tally.saw_each("36 by row", met);
    let place = rows.get(usize::from(row));
    let stands = place.map_or(false, |place| *place != Row::zero());
    tally.saw_each("36 with", [n == 0, n == 32, stands]);
}

fn count_answered(case: &Case, reason: Reason, tally: &mut Tally) {
    let (state, k, cores) = (&case.state, case.k, case.state.table.cores);
    let number = usize::from(case.row);
    let (row, quanta) = (&state.table.rows[number], state.quanta[number]);
    tally.saw("answer", 0);
    count_limit(state, 0, tally);
    tally.saw("reason", name(reason));
    tally.saw_if(is_whole(row), "asked about a row with e = p", name(reason));
    let met = [
        case.row == 31,
        k == cores,
        k == 8,
        state.time > 900_000_000_000,
    ];
    tally.saw_each("answered with", met);
    let is_ready = ready(row, quanta, state.time);
    let none_free = [k == 0 && is_ready, k == 0 && !is_ready];
    tally.saw_each("k of 0, and the row is", none_free);
    let plain = Row { kind: 0, ..*row };
    let early = is_ready && !ready(&plain, quanta, state.time);
    tally.saw_if(early, "before its start, by early release", name(reason));
    match reason {
        Reason::NotReady { first_slot } => count_not_ready(state.time, row, first_slot, tally),
        Reason::PassedOver { row, rule } => count_passed_over(case, row, rule, tally),
        _ => (),
    }
}

/// A row that has to wait for a slot.
fn count_not_ready(time: u64, row: &Row, first_slot: u64, tally: &mut Tally) {
    let phase = u64::from(row.phase);
    let met = [
        row.kind == 0,
        row.kind == 1,
        time < phase,
        0 < phase && phase <= time,
    ];
    tally.saw_each("not ready", met);
    let is_next = first_slot == time + 1;
    let met = [
        is_next,
        !is_next,
        first_slot == LAST_TIME,
        first_slot > LAST_TIME,
    ];
    tally.saw_each("first slot", met);
}

/// A row that has to wait for another, which goes before it by a rule.
fn count_passed_over(case: &Case, named: u8, rule: Rule, tally: &mut Tally) {
    tally.saw("passed over by", rule_name(rule));
    let format = case.state.table.format;
    let ready = ready_rows(&case.state);
    let (picked, left) = ready.split_at(usize::from(case.k));
    let of = |number| {
        let found = ready.iter().find(|next| next.row == number);
        found.expect("a ready row")
    };
    let (asked, named) = (of(case.row), of(named));
    let rows = || picked.iter().map(|next| next.row);
    let met = [
        rows().min() != Some(named.row),
        rows().max() != Some(named.row),
        picked[0] != *named,
        picked.iter().any(|one| rule_between(format, one, asked) != rule),
        rule_between(format, named, &left[0]) != rule,
    ];
    tally.saw_each("passed over, and", met);
    count_against(format, asked, named, rule, tally);
}

/// The rules that are not asked any more, where they would speak for the row asked about; and D, where it is not asked at all.
fn count_against(format: u8, asked: &Next, named: &Next, rule: Rule, tally: &mut Tally) {
    let (bit, number) = (asked.bit > named.bit, asked.row < named.row);
    let alone_ran = asked.ran && !named.ran;
    let ran = format == 2 && alone_ran;
    let (larger, smaller) = (asked.group > named.group, asked.group < named.group);
    let by = |other| rule == other;
    let met = [
        by(Rule::Deadline) && bit,
        by(Rule::Deadline) && larger,
        by(Rule::Deadline) && ran,
        by(Rule::Deadline) && number,
        by(Rule::Bit) && ran,
        by(Rule::Bit) && number,
        by(Rule::GroupDeadline) && ran,
        by(Rule::GroupDeadline) && number,
        by(Rule::RanBefore) && number,
    ];
    tally.saw_each("passed over against a later rule", met);
    tally.saw_each("passed over by the bit", [by(Rule::Bit) && larger]);
    let title = "passed over by row number, and the row asked about alone has run";
    tally.saw_each(title, [by(Rule::RowNumber) && alone_ran && format == 1]);
    let met = [larger, smaller].map(|met| by(Rule::RowNumber) && met);
    let title = "passed over by row number, both bits 0, the larger group deadline";
    tally.saw_each(title, met);
}

fn name(reason: Reason) -> &'static str {
    match reason {
        Reason::Picked => "picked",
        Reason::NotReady { .. } => "not ready",
        Reason::NoCoreFree => "no core free",
        Reason::PassedOver { .. } => "passed over",
    }
}
