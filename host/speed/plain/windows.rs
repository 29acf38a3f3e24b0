//! The windows of a row's next quantum, and what they say of it at a time.

use super::table::Row;

impl Row {
    fn elapsed(&self, time: u64) -> u64 {
        time.saturating_sub(self.phase.into())
    }

    /// What the row would have had by now in exact shares, and what it has been given: both times the period.
    fn share(&self, given: u64, time: u64) -> (u64, u64) {
        let (cost, period) = (u64::from(self.cost), u64::from(self.period));
        (self.elapsed(time) * cost, given * period)
    }

    pub fn is_late(&self, given: u64, time: u64) -> bool {
        let (share, had) = self.share(given, time);
        share >= had + u64::from(self.period)
    }

    /// Whether so many quanta are not too many by this time.
    fn may_have(&self, given: u64, time: u64) -> bool {
        if self.kind == 1 {
            let period = u64::from(self.period);
            let jobs = (self.elapsed(time) + period - 1) / period;
            return given <= jobs * u64::from(self.cost);
        }
        let (share, had) = self.share(given, time);
        had < share + u64::from(self.period)
    }

    pub fn is_within_share(&self, given: u64, time: u64) -> bool {
        !self.is_late(given, time) && self.may_have(given, time)
    }

    pub fn is_ready(&self, given: u64, slot: u64) -> bool {
        self.may_have(given + 1, slot + 1)
    }

    /// The deadline and the bit of subtask i.
    pub fn due(&self, i: u64) -> (u64, u64) {
        let (cost, whole) = (u64::from(self.cost), i * u64::from(self.period));
        let bit = u64::from(whole % cost != 0);
        (u64::from(self.phase) + whole / cost + bit, bit)
    }

    /// The group deadline of subtask i. Past the test of the bit, cost is below period.
    pub fn group_deadline(&self, i: u64) -> u64 {
        let (cost, period) = (u64::from(self.cost), u64::from(self.period));
        if 2 * cost < period {
            return 0;
        }
        let (deadline, bit) = self.due(i);
        if bit == 0 {
            return deadline;
        }
        let (phase, rest) = (u64::from(self.phase), period - cost);
        let gaps = rounded_up((deadline - phase) * rest, period);
        phase + rounded_up(gaps * period, rest)
    }
}

fn rounded_up(number: u64, divisor: u64) -> u64 {
    (number + divisor - 1) / divisor
}
