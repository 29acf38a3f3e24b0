//! A table and a trace as they are written, right or wrong: each count stands beside what it counts, so that the two may differ.

use crate::random::Random;
use second::table::{Row, Table};

pub struct Draft {
    pub format: u8,
    pub cycle: u32,
    pub cores: u8,
    pub boards: Vec<u8>,
    pub count: u8,
    pub rows: Vec<Row>,
    pub after: Vec<u8>,
}

/// A table of this format, whose counts are right.
pub fn draft(format: u8, cycle: u32, boards: &[u8], rows: &[Row]) -> Draft {
    Draft {
        format,
        cycle,
        cores: boards.len() as u8,
        boards: boards.to_vec(),
        count: rows.len() as u8,
        rows: rows.to_vec(),
        after: Vec::new(),
    }
}

impl Draft {
    /// As it would be handed to a dispatcher, with as many boards and rows as there are places.
    pub fn value(&self) -> Table {
        let mut table = Table {
            format: self.format,
            cycle: self.cycle,
            cores: self.cores,
            count: self.count,
            ..Table::zero()
        };
        let (boards, rows) = (self.boards.len().min(8), self.rows.len().min(32));
        table.boards[..boards].copy_from_slice(&self.boards[..boards]);
        table.rows[..rows].copy_from_slice(&self.rows[..rows]);
        table
    }

    pub fn bytes(&self) -> Vec<u8> {
        let mut bytes = vec![self.format];
        bytes.extend_from_slice(&self.cycle.to_le_bytes());
        bytes.push(self.cores);
        bytes.extend_from_slice(&self.boards);
        bytes.push(self.count);
        for row in &self.rows {
            for number in [row.tank, row.cost, row.period, row.phase] {
                bytes.extend_from_slice(&number.to_le_bytes());
            }
            bytes.push(row.kind);
        }
        bytes.extend_from_slice(&self.after);
        bytes
    }
}

#[derive(Clone)]
pub struct Record {
    pub k: u8,
    pub c: u8,
    pub rows: Vec<u8>,
}

#[derive(Clone)]
pub struct Written {
    pub count: u32,
    pub records: Vec<Record>,
    pub after: Vec<u8>,
}

/// A trace whose count is right.
pub fn written(records: Vec<Record>) -> Written {
    Written {
        count: records.len() as u32,
        records,
        after: Vec::new(),
    }
}

impl Written {
    pub fn bytes(&self) -> Vec<u8> {
        let mut bytes = self.count.to_le_bytes().to_vec();
        for record in &self.records {
            bytes.extend_from_slice(&[record.k, record.c]);
            bytes.extend_from_slice(&record.rows);
        }
        bytes.extend_from_slice(&self.after);
        bytes
    }
}

/// One record more, with this k and more than 32 rows; the count goes with it. A record may say up to 255 of them; what it says is judged by
/// the checker alone.
pub fn add_many_rows(random: &mut Random, trace: &mut Written, k: u8) {
    let any = random.between(33, 255) as u8;
    let c = random.pick(&[33, 128, 255, 255, any]);
    let rows = match random.below(2) {
        0 => (0..c).collect(),
        _ => random.bytes(usize::from(c)),
    };
    let place = random.below(trace.records.len() + 1);
    trace.records.insert(place, Record { k, c, rows });
    trace.count += 1;
}
