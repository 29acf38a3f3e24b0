//! The lowest late row of 32.

use crate::kind::*;
use crate::make::reach::REACH;
use crate::make::rows::{rows, Rows};
use crate::make::rows_seen::{self, count_name, said_but_for_time};
use crate::make::{sound, states};
use second::questions::lowest_late;
use second::slot::late;

#[derive(Clone)]
pub struct Case(Rows);

impl Kind for Case {
    const GROUPS: &'static [Group] = &[
        "lowest late row (1 in 50): none | 0 | 1 to 30 | 31",
        rows_seen::COUNTS,
        "some late, n (1 in 200): 33 to 256 | 2^32 | above 2^32 | 2^64 - 1",
        "some late at (1 in 200): time 2^40",
        "none late, told by (1 in 100): 0 | 1 to 31 | 32",
        "late but for the reach, at (1 in 300): time 2^40 + 1",
        rows_seen::ROWS,
    ];

    fn wild(random: &mut Random) -> Case {
        if random.one_in(8) {
            return Case(last_late(random));
        }
        let mut rows = rows(random);
        if random.one_in(2) {
            let any = random.below(32);
            let row = random.pick(&[0, any]);
            rows.quanta[row] = rows.quanta[row].saturating_sub(random.between(1, 3) as u64);
        }
        if random.one_in(4) {
            rows.time += random.between(1, 3) as u64;
        }
        Case(rows)
    }

    fn asked(&mut self, to: &mut Message) {
        self.0.asked(to.letter(b'L'));
    }

    fn answered(&self, to: &mut Message) {
        let Case(rows) = self;
        let row = lowest_late(&rows.rows, &rows.quanta, rows.n, rows.time);
        to.number("row", row);
    }

    fn count(&self, answer: &[u8], tally: &mut Tally) {
        let Case(rows) = self;
        rows_seen::count(rows, tally);
        let past = said_but_for_time(rows, late);
        tally.saw_each("late but for the reach, at", [past]);
        let row = u64::from(answer[0]);
        let none = row == rows.n.min(32);
        let met = [row == 0, 0 < row && row < 31, row == 31].map(|met| met && !none);
        tally.saw_each("lowest late row", [none, met[0], met[1], met[2]]);
        if none {
            return tally.saw("none late, told by", count_name(row));
        }
        tally.saw_if(rows.n > 32, "some late, n", count_name(rows.n));
        tally.saw_each("some late at", [rows.time == REACH]);
    }
}

/// Every row has what is due to it, but the last has less.
fn last_late(random: &mut Random) -> Rows {
    let table = sound::all_rows(random).value();
    let time = random.between(80_000, 90_000) as u64;
    let mut state = states::inside_shares(random, table, time);
    state.quanta[31] -= 3;
    Rows {
        rows: table.rows,
        quanta: state.quanta,
        n: random.pick(&[32, 32, 33, 1 << 32, u64::MAX]),
        time,
    }
}
