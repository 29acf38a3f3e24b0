//! The cases: what is measured, for each of the programs.

use crate::boxes::{self, WORST_K, WORST_SLOT};
use crate::{checked, hurried, ours, plain};

/// Room for the record of 8 rows, one for each core.
pub type Entry = [u8; 10];

/// One of the programs that are measured: its calls.
pub struct Program {
    pub slots: fn(&[u8], u8, u64, &mut Entry) -> u64,
    pub trace_check: fn(&[u8], &[u8]) -> u8,
    pub table_check: fn(&[u8]) -> u8,
}

pub const NAMES: [&str; 4] = ["ours", "plain", "checked", "hurried"];

pub fn program(name: &str) -> Result<Program, String> {
    match name {
        "ours" => Ok(Program {
            slots: ours::slots,
            trace_check: ours::trace_check,
            table_check: ours::table_check,
        }),
        "plain" => Ok(Program {
            slots: plain::slots,
            trace_check: plain::trace_check,
            table_check: plain::table_check,
        }),
        "checked" => Ok(Program {
            slots: checked::slots,
            trace_check: checked::trace_check,
            table_check: checked::table_check,
        }),
        "hurried" => Ok(Program {
            slots: hurried::slots,
            trace_check: hurried::trace_check,
            table_check: hurried::table_check,
        }),
        _ => Err(format!("no program is called {}", name)),
    }
}

/// A case: does its work for a program and a number, and answers whether every answer was right.
pub type Case = Box<dyn Fn(&Program, u64) -> bool>;

/// `trace`, `table`, or what is done with a box, and which box: `slots_BOX`, `first_BOX`, `fresh_BOX`; `kind` is the full box in format 2. The number is
/// that of checks, of tables read, of slots, of fresh states with their first slot, or of fresh states without, to be taken off. `through_worst` and
/// `before_worst` are fresh states with their slots through the worst one, and without it.
pub fn case(name: &str) -> Result<Case, String> {
    match name {
        "trace" => {
            let (short, trace) = (boxes::short(), boxes::million());
            Ok(Box::new(move |program, number| {
                (0..number).all(|_| (program.trace_check)(&short, &trace) == 0)
            }))
        }
        "table" => {
            let full = boxes::full();
            Ok(Box::new(move |program, number| {
                (0..number).all(|_| (program.table_check)(&full) == 0)
            }))
        }
        "through_worst" => Ok(first_slots(boxes::worst(), WORST_K, WORST_SLOT + 1)),
        "before_worst" => Ok(first_slots(boxes::worst(), WORST_K, WORST_SLOT)),
        _ => of_a_box(name).ok_or(format!("no case is called {}", name)),
    }
}

fn of_a_box(name: &str) -> Option<Case> {
    let (what, which) = name.split_once('_')?;
    let (table, k) = match which {
        "walks" => (boxes::longest_walks(), 7),
        "kind" => (boxes::in_format(2, boxes::full()), 8),
        rows => (some_rows(rows)?, 8),
    };
    match what {
        "slots" => Some(slots(table, k)),
        "first" => Some(first_slots(table, k, 1)),
        "fresh" => Some(first_slots(table, k, 0)),
        _ => None,
    }
}

/// 32 equal rows: `1/4`, or, of early release, `1/4e`; 9 of them, `8/9x9`; the full box, `full`; its first 9 rows, `fullx9`.
fn some_rows(name: &str) -> Option<Vec<u8>> {
    let (which, n) = name.split_once('x').unwrap_or((name, "32"));
    let n = n.parse().ok()?;
    if which == "full" {
        return Some(boxes::full_to(n));
    }
    let (e, rest) = which.split_once('/')?;
    let p = rest.trim_end_matches('e');
    Some(boxes::equal(n, e.parse().ok()?, p.parse().ok()?, rest != p))
}

/// So many slots.
fn slots(table: Vec<u8>, k: u8) -> Case {
    Box::new(move |program, number| (program.slots)(&table, k, number, &mut [0; 10]) == number)
}

/// So many times a fresh state, and so many slots of it.
fn first_slots(table: Vec<u8>, k: u8, slots: u64) -> Case {
    Box::new(move |program, number| {
        (0..number).all(|_| (program.slots)(&table, k, slots, &mut [0; 10]) == slots)
    })
}
