//! A box of 32 rows on 8 cores that may have a slow slot. All are of format 1: boxes of format 2 are not searched.

use crate::boxes::BOARDS;
use crate::make::written::draft;
use second::table::Row;

/// A box, and how many of its cores are free.
#[derive(Clone)]
pub struct Candidate {
    pub cycle: u32,
    pub rows: Vec<Row>,
    pub k: u8,
}

impl Candidate {
    /// Rows of these weights (e, p) with phase 0.
    pub fn of(cycle: u32, weights: impl Iterator<Item = (u16, u16)>, kind: u8) -> Candidate {
        let row = |((cost, period), tank)| Row {
            tank,
            cost,
            period,
            phase: 0,
            kind,
        };
        Candidate {
            cycle,
            rows: weights.zip(0..).map(row).collect(),
            k: 8,
        }
    }

    pub fn table(&self) -> Vec<u8> {
        draft(1, self.cycle, &BOARDS, &self.rows).bytes()
    }

    pub fn is_sound(&self) -> bool {
        self.rows.len() == 32 && second::table::read(&self.table()).is_ok()
    }
}
