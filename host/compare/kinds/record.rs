//! The record of a slot, asked of a trace.

use crate::kind::*;
use crate::make::schedule::schedule;
use crate::make::spoil;
use crate::make::written::add_many_rows;
use second::trace::record;

#[derive(Clone)]
pub struct Case {
    slot: u64,
    trace: Vec<u8>,
}

impl Kind for Case {
    const GROUPS: &'static [Group] = &[
        "record (1 in 15): found | not found",
        "not found, slot (1 in 300): right in its low 4 bytes alone",
        "found, of rows (1 in 300): 0 to 32 | 33 to 254 | 255",
        "found, with an equal one (1 in 50): before it | after it",
    ];

    fn wild(random: &mut Random) -> Case {
        let mut schedule = schedule(random);
        while random.one_in(4) {
            let k = random.byte();
            add_many_rows(random, &mut schedule.trace, k);
        }
        let trace = match random.below(4) {
            0 => schedule.trace.bytes(),
            _ => spoil::trace(random, &schedule).0,
        };
        let slot = wild_slot(random, schedule.trace.count);
        Case { slot, trace }
    }

    fn asked(&mut self, to: &mut Message) {
        to.letter(b'R')
            .part("slot", &mut self.slot)
            .counted("trace", &mut self.trace);
    }

    fn answered(&self, to: &mut Message) {
        let (begin, length) = record(&self.trace, self.slot);
        to.number("begin", begin as u64)
            .number("length", length as u64)
            .fixed("record", self.part(self.slot));
    }

    fn count(&self, _answer: &[u8], tally: &mut Tally) {
        let low = u64::from(self.slot as u32);
        let rows = match self.part(self.slot).len() {
            0 => {
                tally.saw("record", "not found");
                let low_right = !self.part(low).is_empty();
                return tally.saw_each("not found, slot", [low_right]);
            }
            length => length - 2,
        };
        tally.saw("record", "found");
        let counts = [rows <= 32, rows > 32 && rows < 255, rows == 255];
        tally.saw_each("found, of rows", counts);
        let (before, after) = (0..self.slot, self.slot + 1..);
        let equal = [self.equal_among(before), self.equal_among(after)];
        tally.saw_each("found, with an equal one", equal);
    }
}

impl Case {
    /// The record of a slot, as the second program finds it.
    fn part(&self, slot: u64) -> &[u8] {
        let (begin, length) = record(&self.trace, slot);
        &self.trace[begin..begin + length]
    }

    /// Has one of these slots an equal record? Only by its place it is then another one.
    fn equal_among(&self, slots: impl Iterator<Item = u64>) -> bool {
        let here = self.part(self.slot);
        let parts = slots.map(|slot| self.part(slot));
        let mut found = parts.take_while(|part| !part.is_empty());
        found.any(|part| part == here)
    }
}

/// Mostly one of the trace's slots, at times at its end or far past it.
fn wild_slot(random: &mut Random, count: u32) -> u64 {
    let count = u64::from(count);
    let any = random.below(count.max(1) as usize) as u64;
    match random.below(8) {
        0 => random.pick(&[count, count + 1, 1 << 32, (1 << 32) + any, u64::MAX]),
        1 => count.max(1) - 1,
        _ => any,
    }
}
