//! How far the questions reach: a question about a row is answered if its weight is right and its numbers are at or below 2^40.

use crate::random::Random;
use crate::tally::{Group, Tally};

pub const REACH: u64 = 1 << 40;

/// A number at the limit, or far past it.
pub fn limit(random: &mut Random) -> u64 {
    let (at, past) = (REACH, REACH + 1);
    random.pick(&[REACH - 1, at, at, at, past, past, past, 1 << 41, u64::MAX])
}

/// A weight that makes the numbers of a window as large as they get.
pub fn widest(random: &mut Random) -> (u16, u16) {
    const MOST: u16 = u16::MAX;
    random.pick(&[(1, MOST), (32_768, MOST), (MOST - 1, MOST), (MOST, MOST)])
}

/// The causes for which a question is not answered, where no other is met.
pub const CAUSES: Group = "not answered only by (1 in 150): e of 0 | e above p | quanta | \
    origin or time";

/// The numbers that are met at the limit: answered with the first two, not with the others, for this cause alone.
pub const LIMITS: Group = "limit (1 in 200): quanta of 2^40 | origin or time of 2^40 | \
    quanta of 2^40 + 1 | origin or time of 2^40 + 1";

/// Counts why a question about a row of this weight is not answered, and which of its numbers are at the limit.
pub fn count((e, p): (u16, u16), quanta: u64, other: u64, tally: &mut Tally) {
    let causes = [e == 0, e > p, quanta > REACH, other > REACH];
    let met = causes.iter().filter(|&&met| met).count();
    let limits = [
        met == 0 && quanta == REACH,
        met == 0 && other == REACH,
        met == 1 && quanta == REACH + 1,
        met == 1 && other == REACH + 1,
    ];
    tally.saw_each("limit", limits);
    let only = causes.map(|cause| cause && met == 1);
    tally.saw_each("not answered only by", only);
}
