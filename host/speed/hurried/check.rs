//! The trace check, for a table that is known to be sound: readiness by each row's next window, lateness by the rows' deadlines on a wheel. Its times
//! have 32 bits, as in a run, and it does not test whether there are more slots than a trace may have.

use super::row::rows_of;
use super::wheel::Wheel;

#[inline(never)]
pub fn trace_check(table: &[u8], trace: &[u8]) -> u8 {
    let cores = table[5];
    let count = table[6 + usize::from(cores)];
    let mut rows = rows_of(table);
    let mut due = Wheel::empty();
    for row in 0..usize::from(count) {
        due.put(row, rows[row].deadline, 0);
    }
    let slots = u32::from_le_bytes([trace[0], trace[1], trace[2], trace[3]]);
    let mut at = 4;
    for slot in 0..slots {
        if trace.len() < at + 2 {
            return 40;
        }
        let (k, c) = (trace[at], usize::from(trace[at + 1]));
        if k > cores || c > usize::from(k) {
            return 41 + u8::from(k <= cores);
        }
        at += 2;
        let named = match trace.get(at..at + c) {
            Some(named) => named,
            None => return 40,
        };
        at += c;
        due.turn(slot, |row| rows[row].deadline);
        let mut least = 0;
        for &row in named {
            if row < least || row >= count {
                return 43;
            }
            least = row + 1;
            let number = usize::from(row);
            let row = &mut rows[number % 32];
            if row.ready > slot {
                return 44;
            }
            due.drop(number, row.deadline);
            row.give();
            due.put(number, row.deadline, slot);
        }
        if due.at(slot + 1) != 0 {
            return 45;
        }
    }
    if at < trace.len() {
        return 46;
    }
    0
}
