//! The window of a row's next subtask, counted from any origin.

use crate::kind::*;
use crate::make::reach::{self, limit, widest, CAUSES, LIMITS, REACH};
use crate::make::weight::{self, weight};
use second::questions::{next_window, NextWindow};

#[derive(Clone)]
pub struct Case {
    e: u16,
    p: u16,
    origin: u64,
    quanta: u64,
}

impl Kind for Case {
    const GROUPS: &'static [Group] = &[
        "answered (1 in 20): 0 | 1",
        "weight (1 in 40): e = p | heavy | one half | light",
        "bit (1 in 10): 0 | 1",
        CAUSES,
        LIMITS,
        "all of the largest, e (1 in 500): 1 | above half of p",
    ];

    fn wild(random: &mut Random) -> Case {
        let largest = random.one_in(40);
        let (e, p) = match random.below(10) {
            _ if largest => widest(random),
            0 => whole(random),
            _ => weight(random),
        };
        let (origin, quanta) = match largest {
            true => (REACH, REACH),
            false => (origin(random), quanta(random, e)),
        };
        Case {
            e,
            p,
            origin,
            quanta,
        }
    }

    fn asked(&mut self, to: &mut Message) {
        to.letter(b'N')
            .part("e", &mut self.e)
            .part("p", &mut self.p)
            .part("origin", &mut self.origin)
            .part("quanta", &mut self.quanta);
    }

    fn answered(&self, to: &mut Message) {
        let found = next_window(self.e, self.p, self.origin, self.quanta);
        let answered = found.is_some();
        let number = |part: fn(NextWindow) -> u64| found.map_or(0, part);
        to.number("d and b answered", answered)
            .number("d", number(|window| window.deadline))
            .number("b", found.map_or(0, |window| window.bit))
            .number("r answered", answered)
            .number("r", number(|window| window.start))
            .number("job's start answered", answered)
            .number("job's start", number(|window| window.job_start))
            .number("D answered", answered)
            .number("D", number(|window| window.group_deadline));
    }

    fn count(&self, answer: &[u8], tally: &mut Tally) {
        let (e, p, quanta, other) = (self.e, self.p, self.quanta, self.origin);
        tally.saw("answered", answer[0]);
        if answer[0] == 1 {
            tally.saw("weight", weight::name(e, p));
            tally.saw("bit", answer[1 + 8]);
            let largest = p == u16::MAX && other == REACH && quanta == REACH;
            let largest = [largest && e == 1, largest && e > 1];
            tally.saw_each("all of the largest, e", largest);
        }
        reach::count((e, p), quanta, other, tally);
    }
}

/// e = p, from the shortest to the longest period.
fn whole(random: &mut Random) -> (u16, u16) {
    let any = random.between(1, 40) as u16;
    let p = random.pick(&[1, 2, any, 65_535]);
    (p, p)
}

fn origin(random: &mut Random) -> u64 {
    let any = random.below(1 << 40) as u64;
    match random.below(8) {
        0 => limit(random),
        1 => any,
        2 => 1 << 32,
        3 => random.below(65_536) as u64,
        _ => random.below(40) as u64,
    }
}

/// Within a few jobs, mostly.
fn quanta(random: &mut Random, e: u16) -> u64 {
    let jobs = random.below(4) as u64 * u64::from(e);
    match random.below(10) {
        0 => limit(random),
        1 => random.below(1 << 40) as u64,
        2 => u64::from(u32::MAX) + random.below(3) as u64,
        3 => jobs,
        _ => jobs + random.below(usize::from(e).max(1)) as u64,
    }
}
