//! A row in a check: its next window is kept, and the one after it is had by sums. A trace has at most 1,000,000,000 slots, so that its times
//! are numbers of 32 bits.

use super::table::half;

#[derive(Clone, Copy, Default)]
pub struct Held {
    /// the first slot in which the next subtask may have its quantum
    pub ready: u32,
    /// f + floor(i·p/e) of the next subtask i, and the rest of that division
    whole: u32,
    part: u32,
    cost: u32,
    /// p / e, and its rest
    step: u32,
    rest: u32,
    period: u32,
    /// early release: how many quanta of the job are left; 0 in a plain row
    left: u32,
}

impl Held {
    /// The row of these nine bytes, at its first subtask, and the deadline of that.
    pub fn first(bytes: &[u8]) -> (Held, i32) {
        let (cost, period, phase) = (half(bytes, 2), half(bytes, 4), half(bytes, 6));
        let mut held = Held {
            ready: phase,
            whole: phase,
            part: 0,
            cost,
            step: period / cost,
            rest: period % cost,
            period,
            left: if bytes[8] == 1 { cost } else { 0 },
        };
        let due = held.forward();
        (held, due)
    }

    /// A quantum is given: the deadline of the subtask that is next then.
    #[inline(always)]
    pub fn give(&mut self) -> i32 {
        if self.left == 0 {
            self.ready = self.whole;
        } else {
            self.left -= 1;
            if self.left == 0 {
                self.left = self.cost;
                self.ready += self.period;
            }
        }
        self.forward()
    }

    #[inline(always)]
    fn forward(&mut self) -> i32 {
        self.whole += self.step;
        self.part += self.rest;
        if self.part >= self.cost {
            self.part -= self.cost;
            self.whole += 1;
        }
        (self.whole + u32::from(self.part != 0)) as i32
    }
}
