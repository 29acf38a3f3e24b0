//! A row with its next window. The next one follows by sums: no division.

#[derive(Clone, Copy, Default)]
pub struct Row {
    cost: u32,
    period: u32,
    phase: u32,
    /// period / cost and period % cost
    step: u32,
    rest: u32,
    /// i·period / cost and i·period % cost of the next subtask i
    whole: u32,
    part: u32,
    /// early release: the start of the job, and how many of its quanta are left
    early: bool,
    job: u32,
    left: u32,
    pub ready: u32,
    pub deadline: u32,
    pub bit: bool,
}

/// All rows of a table that is known to be sound.
pub fn rows_of(table: &[u8]) -> [Row; 32] {
    let mut rows = [Row::default(); 32];
    let first = 7 + usize::from(table[5]);
    for (row, bytes) in rows.iter_mut().zip(table[first..].chunks_exact(9)) {
        let half = |at: usize| u32::from(u16::from_le_bytes([bytes[at], bytes[at + 1]]));
        let (cost, period, phase) = (half(2), half(4), half(6));
        *row = Row {
            cost,
            period,
            phase,
            step: period / cost,
            rest: period % cost,
            early: bytes[8] == 1,
            job: phase,
            left: cost,
            ready: phase,
            ..Row::default()
        };
        row.forward();
    }
    rows
}

impl Row {
    /// The window of the next subtask: its end, from that of the one before.
    fn forward(&mut self) {
        self.whole += self.step;
        self.part += self.rest;
        if self.part >= self.cost {
            self.part -= self.cost;
            self.whole += 1;
        }
        self.bit = self.part != 0;
        self.deadline = self.phase + self.whole + u32::from(self.bit);
    }

    /// One quantum more.
    #[inline(always)]
    pub fn give(&mut self) {
        if self.early {
            self.left -= 1;
            if self.left == 0 {
                self.left = self.cost;
                self.job += self.period;
            }
            self.ready = self.job;
        } else {
            self.ready = self.phase + self.whole;
        }
        self.forward();
    }

    /// The group deadline where b = 1, so that cost is below period. A heavy row leaves period - cost slots of each period empty. The group ends
    /// where the first empty slot, evenly spread, that is due at or after the deadline is due.
    pub fn group_deadline(&self) -> u64 {
        if 2 * self.cost < self.period {
            return 0;
        }
        let (period, empty) = (u64::from(self.period), u64::from(self.period - self.cost));
        let due = u64::from(self.deadline - self.phase);
        let number = (due * empty + period - 1) / period;
        u64::from(self.phase) + (number * period + empty - 1) / empty
    }
}
