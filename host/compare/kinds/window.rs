//! Windows asked for alone: with D by the formula, or by the walk. What ours finds by one of them, the second program is asked for by the
//! other, so that formula and walk are held to each other as well: a slip in its walk shows here in `W`, one in its formula in `G`.

use crate::kind::*;
use crate::make::weight::{self, phase, weight};
use second::windows::{heavy, window, window_by_walk};

#[derive(Clone)]
pub struct Case<const BY_WALK: bool> {
    e: u16,
    p: u16,
    f: u16,
    i: u64,
}

const LAST: u64 = 1_000_000_000_001;

/// The last one before 02, Seven.
const LAST_OF_01: u64 = 1_000_000_001;

impl<const BY_WALK: bool> Kind for Case<BY_WALK> {
    /// The last i is refused by all of its 8 bytes, and would not be by the lower 4 of them.
    const GROUPS: &'static [Group] = &[
        "answer (1 in 20): 0 | 50",
        "weight (1 in 30): e = p | heavy | one half | light",
        "bit (1 in 15): 0 | 1",
        "of a heavy row with bit 1, phase (1 in 15): 0 | above 0",
        "of a heavy row, slots from d to D (1 in 500): 0 | 1 to 9 | 10 to 999 | 1,000 or more",
        "of a right row, i (1 in 300): 0 | 1,000,000,001 | 1,000,000,002 | 2^32 | \
         1,000,000,000,001 | 1,000,000,000,002 | right in its low 4 bytes alone",
        "answered with i (1 in 50): below 2^32 | 2^32 or more",
    ];

    fn wild(random: &mut Random) -> Self {
        let (e, p) = weight(random);
        Case {
            e,
            p,
            f: phase(random, p),
            i: subtask(random, e),
        }
    }

    fn asked(&mut self, to: &mut Message) {
        let smaller = self.smaller();
        if let Some(way) = to.turn(smaller.len()) {
            *self = smaller[way].clone();
        }
        to.letter(if BY_WALK { b'G' } else { b'W' })
            .part("e", &mut self.e)
            .part("p", &mut self.p)
            .part("f", &mut self.f)
            .part("i", &mut self.i);
    }

    fn answered(&self, to: &mut Message) {
        let other_way = if BY_WALK { window } else { window_by_walk };
        let answer = other_way(self.e, self.p, self.f, self.i);
        to.number("number", answer.number)
            .number("r", answer.start)
            .number("d", answer.deadline)
            .number("b", answer.bit)
            .number("D", answer.group);
    }

    fn count(&self, answer: &[u8], tally: &mut Tally) {
        let Case { e, p, f, i } = *self;
        tally.saw("answer", answer[0]);
        if answer[0] == 0 {
            let found = window(e, p, f, i);
            tally.saw("weight", weight::name(e, p));
            tally.saw("bit", found.bit);
            tally.saw_each("answered with i", [i < 1 << 32, i >= 1 << 32]);
            if heavy(e, p) {
                let phase = if f == 0 { "0" } else { "above 0" };
                tally.saw_if(found.bit == 1, "of a heavy row with bit 1, phase", phase);
                let slots = found.group.saturating_sub(found.deadline);
                let ranges = [0..=0, 1..=9, 10..=999, 1_000..=u64::MAX];
                let met = ranges.map(|range| range.contains(&slots));
                tally.saw_each("of a heavy row, slots from d to D", met);
            }
        }
        let low = u64::from(i as u32);
        let low_right = i > LAST && low > 0;
        if 0 < e && e <= p {
            let ends = [LAST_OF_01, LAST_OF_01 + 1, 1 << 32, LAST, LAST + 1];
            let [old, past_old, wide, last, past] = ends.map(|end| i == end);
            let met = [i == 0, old, past_old, wide, last, past, low_right];
            tally.saw_each("of a right row, i", met);
        }
    }
}

impl<const BY_WALK: bool> Case<BY_WALK> {
    /// In the first job, or of nearly the same weight.
    fn smaller(&self) -> [Self; 4] {
        let first = self.i.saturating_sub(1) % u64::from(self.e).max(1) + 1;
        let i = self.i.min(first);
        let (e, p) = (self.e.saturating_sub(1), self.p.saturating_sub(1));
        let of_weight = |e, p| Case { e, p, ..*self };
        [
            Case { i, ..*self },
            of_weight(self.e / 2, self.p / 2),
            of_weight(e, p),
            of_weight(e, p.saturating_sub(1)),
        ]
    }
}

fn subtask(random: &mut Random, e: u16) -> u64 {
    let job = u64::from(e);
    let jobs = random.below(4) as u64;
    let any = random.between(1, LAST as usize) as u64;
    let low = random.between(1, u32::MAX as usize) as u64;
    let high = random.pick(&[1 << 9, 1 << 31, u64::from(u32::MAX)]) << 32;
    match random.below(10) {
        0 => random.pick(&[0, LAST + 1, u64::MAX, high + low, high + 1]),
        1 => random.pick(&[1, LAST - 1, LAST]),
        2 => random.pick(&[LAST_OF_01, LAST_OF_01 + 1, 1 << 32, (1 << 32) + low]),
        3 => any,
        4 => jobs * job + random.pick(&[0, 1]),
        _ => jobs * job + random.between(1, usize::from(e).max(1)) as u64,
    }
}
