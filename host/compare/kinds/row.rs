//! A row asked alone: is it ready, is it late, is it inside its share?

use crate::kind::*;
use crate::make::reach::{self, limit, widest, CAUSES, LIMITS, REACH};
use crate::make::rows::wild_row;
use crate::make::values::rows_value;
use second::questions::ask_row;
use second::table::Row;
use std::slice::from_mut;

#[derive(Clone)]
pub struct Case {
    row: Row,
    quanta: u64,
    time: u64,
}

impl Kind for Case {
    /// A part of the answer is 0, 1 or 2: no, yes, not answered.
    const GROUPS: &'static [Group] = &[
        "ready (1 in 20): 0..2",
        "late (1 in 20): 0..2",
        "inside its share (1 in 20): 0..2",
        "answered with (1 in 600): kind 0 | kind 1 | a kind above 1 | \
         a kind above 1, where early release has another answer | e = p | a phase above 0 | \
         a time before the phase | p of 65,535, 2^40 quanta, time 0 | \
         p of 65,535, no quanta, time 2^40",
        CAUSES,
        LIMITS,
    ];

    fn wild(random: &mut Random) -> Case {
        let mut row = wild_row(random);
        if random.one_in(40) {
            let (quanta, time) = random.pick(&[(0, REACH), (REACH, 0), (REACH, REACH)]);
            (row.cost, row.period) = widest(random);
            return Case { row, quanta, time };
        }
        let (quanta, time) = match random.below(8) {
            0 => (limit(random), REACH - random.below(2) as u64),
            1 => at_time(random, &row, limit),
            2 => at_time(random, &row, |random| random.below(1 << 40) as u64),
            _ => at_time(random, &row, |random| random.below(200) as u64),
        };
        Case { row, quanta, time }
    }

    fn asked(&mut self, to: &mut Message) {
        rows_value(to.letter(b'A'), from_mut(&mut self.row))
            .part("quanta", &mut self.quanta)
            .part("time", &mut self.time);
    }

    fn answered(&self, to: &mut Message) {
        let [ready, late, within] = self.told(&self.row);
        to.number("ready", ready)
            .number("late", late)
            .number("inside its share", within)
            .number("origin", u64::from(self.row.phase));
    }

    fn count(&self, answer: &[u8], tally: &mut Tally) {
        for (title, told) in ["ready", "late", "inside its share"].iter().zip(answer) {
            tally.saw(title, told);
        }
        if answer[0] != 2 {
            tally.saw_each("answered with", self.met());
        }
        let weight = (self.row.cost, self.row.period);
        reach::count(weight, self.quanta, self.time, tally);
    }
}

impl Case {
    /// What the answer would say of this row with the same numbers.
    fn told(&self, row: &Row) -> [u8; 3] {
        ask_row(row, self.quanta, self.time).map_or([2; 3], |answer| {
            [answer.ready, answer.late, answer.within].map(u8::from)
        })
    }

    /// For each thing that is counted of an answered question, whether it is met.
    fn met(&self) -> [bool; 9] {
        let row = self.row;
        let early = Row { kind: 1, ..row };
        let widest = |numbers| row.period == u16::MAX && (self.quanta, self.time) == numbers;
        [
            row.kind == 0,
            row.kind == 1,
            row.kind > 1,
            row.kind > 1 && self.told(&early) != self.told(&row),
            row.cost == row.period,
            row.phase > 0,
            self.time < u64::from(row.phase),
            widest((REACH, 0)),
            widest((0, REACH)),
        ]
    }
}

/// Quanta about as many as are due at the time, which is at times counted from the row's phase.
fn at_time(random: &mut Random, row: &Row, time: fn(&mut Random) -> u64) -> (u64, u64) {
    let after = time(random);
    let (e, p) = (u128::from(row.cost), u128::from(row.period).max(1));
    let due = (u128::from(after) * e / p).min(u128::from(u64::MAX)) as u64;
    let wrong = random.below(5) as u64;
    let (more, less) = (due.saturating_add(wrong), due.saturating_sub(wrong));
    let quanta = random.pick(&[due, due, more, less]);
    let begun = after.saturating_add(u64::from(row.phase));
    let time = random.pick(&[begun, begun, after, begun.saturating_add(1)]);
    (quanta, time)
}
