//! Table values, sound or with a fault or more, as they would be handed to a dispatcher, not read from bytes: their faults, and the states that
//! are fresh from them.

use crate::kind::*;
use crate::make::states::fill;
use crate::make::{damage, format, values, whole_core};
use crate::number::Number;
use second::slot::fresh;
use second::table::{fault, Row, Table};

/// Asked for its fault, or for the fresh state.
#[derive(Clone)]
pub struct Case<const FRESH: bool>(Table);

impl<const FRESH: bool> Kind for Case<FRESH> {
    const GROUPS: &'static [Group] = match FRESH {
        false => &[
            "fault (1 in 150): 0 | 11..20 | 22",
            format::REFUSED,
            format::BEFORE,
            "without a fault, format (1 in 20): 1 | 2",
            "without a fault, rows with e = p (1 in 100): none | some | all",
        ],
        true => &[
            "fault of the value (1 in 300): 0 | 11..20 | 22",
            "without a fault, format (1 in 20): 1 | 2",
            "without a fault, rows with e = p (1 in 100): none | some | all",
            "past n, all places (1 in 10): 0 | not 0",
        ],
    };

    fn wild(random: &mut Random) -> Self {
        Case(any(random))
    }

    fn asked(&mut self, to: &mut Message) {
        let letter = if FRESH { b'F' } else { b'V' };
        values::table_value(to.letter(letter), &mut self.0);
    }

    fn answered(&self, to: &mut Message) {
        match FRESH {
            false => to.number("fault", fault(&self.0)),
            true => values::state(to, &mut fresh(self.0)),
        };
    }

    fn count(&self, _answer: &[u8], tally: &mut Tally) {
        let fault = fault(&self.0);
        let name = whole_core::name(&self.0);
        tally.saw_if(fault == 0, "without a fault, rows with e = p", name);
        tally.saw_if(fault == 0, "without a fault, format", self.0.format);
        if !FRESH {
            return count_fault(&self.0, fault, tally);
        }
        tally.saw("fault of the value", fault);
        count_past_rows(&self.0, "past n, all places", tally);
    }
}

fn count_fault(table: &Table, fault: u8, tally: &mut Tally) {
    tally.saw("fault", fault);
    if fault == 11 {
        format::count_refused(table.format, tally);
        format::count_before(table, tally);
    }
}

/// Whether all that stands past n is 0.
pub fn count_past_rows(table: &Table, title: &'static str, tally: &mut Tally) {
    count_past(&table.rows[table.named_rows().len()..], &Row::zero(), title, tally);
}

/// Whether all that stands past M is 0.
pub fn count_past_boards(table: &Table, title: &'static str, tally: &mut Tally) {
    let past = table.boards.get(usize::from(table.cores)..);
    count_past(past.unwrap_or_default(), &0, title, tally);
}

fn count_past<T: PartialEq>(past: &[T], zero: &T, title: &'static str, tally: &mut Tally) {
    if !past.is_empty() {
        let all = past.iter().all(|part| part == zero);
        tally.saw_each(title, [all, !all]);
    }
}

/// Any table value; what stands past n and M is often not 0.
pub fn any(random: &mut Random) -> Table {
    let mut table = match random.below(12) {
        0 => unfit(random),
        _ => damage::draft(random).value(),
    };
    if random.one_in(2) {
        fill(random, &mut table);
    }
    table
}

/// Nothing in it fits anything else.
fn unfit(random: &mut Random) -> Table {
    let mut table = Table::zero();
    fill(random, &mut table);
    table.format = random.pick(&[1, 2, 3]);
    table.cycle = u32::read(&random.bytes(4));
    table.cores = random.byte();
    table.count = random.byte();
    table
}
