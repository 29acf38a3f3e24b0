//! The rows that are picked out of 32.

use crate::kind::*;
use crate::make::reach::REACH;
use crate::make::rows::{rows, Rows};
use crate::make::rows_seen::{self, count_name, said_but_for_quanta, said_but_for_time};
use crate::make::slot_seen::rule_name;
use second::questions::{next_window, picks};
use second::slot::{order, ready, rule_between, Next, Rule};

#[derive(Clone)]
pub struct Case {
    rows: Rows,
    k: u8,
}

/// The questions are asked of no table: their order is that of format 1, in which nobody goes first for having run.
const FORMAT: u8 = 1;

impl Kind for Case {
    const GROUPS: &'static [Group] = &[
        "picked (1 in 100): 0..8",
        "decided by (1 in 200): deadline | bit | group deadline | row number",
        rows_seen::COUNTS,
        "some picked, n (1 in 200): 33 to 256 | 2^32 | above 2^32 | 2^64 - 1",
        "some picked at (1 in 300): time 2^40 | 2^40 quanta",
        "ready but for the reach, at (1 in 300): time 2^40 + 1 | 2^40 + 1 quanta",
        "k (1 in 25): 0 to 8 | above 8",
        "k above 8, ready rows (1 in 100): up to 8 | above 8",
        rows_seen::ROWS,
    ];

    fn wild(random: &mut Random) -> Case {
        let rows = rows(random);
        let k = match random.below(6) {
            0 => random.pick(&[9, 32, 255]),
            _ => random.below(9) as u8,
        };
        Case { rows, k }
    }

    fn asked(&mut self, to: &mut Message) {
        self.rows.asked(to.letter(b'P')).part("k", &mut self.k);
    }

    fn answered(&self, to: &mut Message) {
        let (rows, k) = (&self.rows, self.k);
        let mut marks = picks(&rows.rows, &rows.quanta, rows.n, rows.time, k);
        to.each("pick of row", &mut marks);
    }

    fn count(&self, answer: &[u8], tally: &mut Tally) {
        let (rows, n) = (&self.rows, self.rows.n);
        let picked: u8 = answer.iter().sum();
        tally.saw("picked", picked);
        rows_seen::count(rows, tally);
        let past = [
            said_but_for_time(rows, ready),
            said_but_for_quanta(rows, ready),
        ];
        tally.saw_each("ready but for the reach, at", past);
        tally.saw_if(n > 32 && picked > 0, "some picked, n", count_name(n));
        let mut given = rows.quanta.iter().zip(answer);
        let at_quanta = given.any(|row| row == (&REACH, &1));
        let at_limit = [picked > 0 && rows.time == REACH, at_quanta];
        tally.saw_each("some picked at", at_limit);
        let ready = self.ready();
        if let Some(rule) = decided_by(&ready, answer) {
            tally.saw("decided by", rule_name(rule));
        }
        let (above, many) = (self.k > 8, ready.len() > 8);
        tally.saw_each("k", [!above, above]);
        tally.saw_each("k above 8, ready rows", [above && !many, above && many]);
    }
}

impl Case {
    /// The rows that are ready, as the order sees them.
    fn ready(&self) -> Vec<Next> {
        let is_ready = |row: &usize| self.rows.ask(*row).map_or(false, |told| told.ready);
        let ready = self.rows.numbers().filter(is_ready);
        ready.filter_map(|row| self.next(row)).collect()
    }

    fn next(&self, number: usize) -> Option<Next> {
        let row = &self.rows.rows[number];
        let origin = u64::from(row.phase);
        let window = next_window(row.cost, row.period, origin, self.rows.quanta[number])?;
        Some(Next {
            row: number as u8,
            deadline: u128::from(window.deadline),
            bit: window.bit,
            group: u128::from(window.group_deadline),
            ran: false,
        })
    }
}

/// The rule between the last row that is picked and the first that is not.
fn decided_by(ready: &[Next], marks: &[u8]) -> Option<Rule> {
    let is_picked = |next: &&Next| marks[usize::from(next.row)] == 1;
    let (picked, left): (Vec<&Next>, Vec<&Next>) = ready.iter().partition(is_picked);
    let last_picked = picked.into_iter().max_by(|one, other| order(FORMAT, one, other))?;
    let first_left = left.into_iter().min_by(|one, other| order(FORMAT, one, other))?;
    Some(rule_between(FORMAT, last_picked, first_left))
}
