//! Traces, checked against tables: schedules of the second program, as they are, cut and damaged.

use crate::kind::*;
use crate::make::lent::{given, Given, Maker};
use crate::make::schedule::{free, last_late, schedule};
use crate::make::whole_core::is_whole;
use crate::make::written::add_many_rows;
use crate::make::{damage, spoil};
use second::checker::check;
use second::table::read;

#[derive(Clone)]
pub struct Checks;

/// One schedule of so many is cut at every byte; one that is damaged is damaged so many times.
const CUT_ONE_IN: usize = 85;
const SPOILED: usize = 4;

impl Maker for Checks {
    const GROUPS: &'static [Group] = &[
        "answer (1 in 140): 0 | 40..47",
        "table refused (1 in 2000): 10..22",
        "table of length (1 in 300): 0",
        "whole schedule ends (1 in 140): late | on time | cut short",
        "passes, of a table of format (1 in 20): 1 | 2",
        "passes, has 12 slots or more and both kinds of row (1 in 140): 0",
        "late row (1 in 200): above 0 | 31",
        "of a table with a row of e = p (1 in 100): passes | 44 | 45 for such a row | 45 for another",
        "more than 32 rows in a record (1 in 300): 42",
    ];

    fn wild(random: &mut Random) -> Given {
        some(random).swap_remove(0)
    }

    fn cases(mut random: Random) -> Box<dyn Iterator<Item = Given>> {
        Box::new((0..).flat_map(move |turn| match turn % CUT_ONE_IN {
            0 => cut_at_every_byte(&mut random),
            _ => some(&mut random),
        }))
    }

    fn count(given: &Given, number: u8, tally: &mut Tally) {
        let refused = (10..=22).contains(&number);
        let title = if refused { "table refused" } else { "answer" };
        tally.saw(title, number);
        tally.saw_if(given.table.is_empty(), "table of length", 0);
        match given.made {
            "" => (),
            "many rows" => tally.saw_if(number == 42, "more than 32 rows in a record", 42),
            whole => tally.saw("whole schedule ends", whole),
        }
        if number == 0 {
            tally.saw("passes, of a table of format", given.table[0]);
        }
        let long = given.made == "on time" && is_long(given);
        tally.saw_each("passes, has 12 slots or more and both kinds of row", [long]);
        let late = (number == 45).then(|| late_row(given));
        let met = [late > Some(0), late == Some(31)];
        tally.saw_each("late row", met);
        if [0, 44, 45].contains(&number) {
            count_whole_core(given, number, late, tally);
        }
    }
}

/// The row that a trace with 45 leaves late.
fn late_row(given: &Given) -> u8 {
    check(&given.table, given.trace.as_deref().unwrap_or(&[])).row
}

/// What a trace that is judged to its end is answered, if a row of its table has e = p.
fn count_whole_core(given: &Given, number: u8, late: Option<u8>, tally: &mut Tally) {
    let table = read(&given.table).expect("the table is taken");
    if table.named_rows().iter().any(is_whole) {
        let such = late.map(|row| is_whole(&table.rows[usize::from(row)]));
        let met = [number == 0, number == 44, such == Some(true), such == Some(false)];
        tally.saw_each("of a table with a row of e = p", met);
    }
}

fn some(random: &mut Random) -> Vec<Given> {
    match random.below(16) {
        0..=3 => vec![with_damaged_table(random)],
        4 => vec![with_many_rows(random)],
        5 => {
            let late = last_late(random);
            vec![given(&late.table, Some(&late.trace.bytes()))]
        }
        6..=9 => vec![whole(random)],
        _ => spoiled(random),
    }
}

fn spoiled(random: &mut Random) -> Vec<Given> {
    let schedule = schedule(random);
    let spoiled = |_| {
        let (trace, after) = spoil::trace(random, &schedule);
        given(&schedule.table, Some(&trace)).before(&after)
    };
    (0..SPOILED).map(spoiled).collect()
}

/// A table with a fault, mostly; at times one of no bytes.
fn with_damaged_table(random: &mut Random) -> Given {
    let trace = schedule(random).trace.bytes();
    let damaged = damage::table(random).0;
    let table = if random.one_in(8) { vec![] } else { damaged };
    given(&table, Some(&trace))
}

fn with_many_rows(random: &mut Random) -> Given {
    let mut schedule = schedule(random);
    let k = free(random, 1, schedule.after.table.cores);
    add_many_rows(random, &mut schedule.trace, k);
    given(&schedule.table, Some(&schedule.trace.bytes())).made("many rows")
}

/// The dispatcher has said whether a row is late at the end.
fn whole(random: &mut Random) -> Given {
    let schedule = schedule(random);
    let whole = given(&schedule.table, Some(&schedule.trace.bytes()));
    match schedule.late {
        true => whole.known(45, "a late schedule").made("late"),
        false => whole.known(0, "a schedule").made("on time"),
    }
}

/// The rest follows in memory.
fn cut_at_every_byte(random: &mut Random) -> Vec<Given> {
    let schedule = schedule(random);
    let whole = schedule.trace.bytes();
    let cut = |length| {
        let cut = given(&schedule.table, Some(&whole[..length])).before(&whole[length..]);
        cut.known(40, "a schedule cut short").made("cut short")
    };
    (0..whole.len()).map(cut).collect()
}

/// At least 12 slots, of a table with both kinds of row. The kind is the last of the nine bytes of a row, and the rows stand last in a table.
fn is_long(given: &Given) -> bool {
    let count = given.trace.as_ref().map_or(0, |trace| trace[0]);
    let rows = usize::from(given.table[6 + usize::from(given.table[5])]);
    let last = given.table.rchunks(9).take(rows);
    let early = last.filter(|row| row[8] == 1).count();
    count >= 12 && 0 < early && early < rows
}
