//! Table values written into a lent buffer, whose length is most often around that of the table's bytes.

use super::value;
use crate::kind::*;
use crate::make::{format, room, values, whole_core};
use second::table::{fault, Table};
use second::writing::write_table;

#[derive(Clone)]
pub struct Case {
    table: Table,
    buffer: Vec<u8>,
}

impl Kind for Case {
    const GROUPS: &'static [Group] = &[
        "number (1 in 200): 0 | 11..20 | 22 | 37",
        format::BEFORE,
        "written, format (1 in 20): 1 | 2",
        "of a value with a fault, room (1 in 50): none | too little | one byte less | exact | more | much more",
        "of a value without a fault, room (1 in 50): none | too little | one byte less | exact | more | much more",
        "written, M (1 in 500): 1..8",
        "written, n (1 in 2500): 0..32",
        "written, rows with e = p (1 in 200): none | some | all",
        "written, past M (1 in 20): 0 | not 0",
        "written, past n (1 in 20): 0 | not 0",
        "too short, M (1 in 1000): 1..8",
        "too short, n (1 in 5000): 0..32",
    ];

    fn wild(random: &mut Random) -> Case {
        let table = value::any(random);
        let length = room::length(random, needed(&table));
        let buffer = random.bytes(length);
        Case { table, buffer }
    }

    fn asked(&mut self, to: &mut Message) {
        values::table_value(to.letter(b'P'), &mut self.table).counted("buffer", &mut self.buffer);
    }

    fn answered(&self, to: &mut Message) {
        let mut buffer = self.buffer.clone();
        let answer = write_table(&self.table, &mut buffer);
        to.number("number", answer.number)
            .number("bytes written", answer.written)
            .fixed("buffer", &buffer);
    }

    fn count(&self, answer: &[u8], tally: &mut Tally) {
        tally.saw("number", answer[0]);
        let title = match fault(&self.table) {
            0 => "of a value without a fault, room",
            _ => "of a value with a fault, room",
        };
        tally.saw(title, room::name(self.buffer.len(), needed(&self.table)));
        match answer[0] {
            0 => {
                tally.saw("written, format", self.table.format);
                tally.saw("written, M", self.table.cores);
                tally.saw("written, n", self.table.count);
                tally.saw("written, rows with e = p", whole_core::name(&self.table));
                value::count_past_boards(&self.table, "written, past M", tally);
                value::count_past_rows(&self.table, "written, past n", tally);
            }
            11 => format::count_before(&self.table, tally),
            37 => {
                tally.saw("too short, M", self.table.cores);
                tally.saw("too short, n", self.table.count);
            }
            _ => {}
        }
    }
}

/// How many bytes the value's table has, by its counts: format and cycle 1 + 4, the cores 1 + M, the rows 1 + 9n.
fn needed(table: &Table) -> usize {
    1 + 4 + 1 + usize::from(table.cores) + 1 + 9 * usize::from(table.count)
}
