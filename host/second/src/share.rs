//! Share.
//!
//! "At time t let a be 0 before f and t - f after. The exact share is e·a/p. ... These are
//! whole numbers; no fraction is formed."
//!
//! With e = p (02, Six) the exact share is a, and the lines are the same. A plain row has a quanta,
//! no more and no less; an early-release row has at least a, and at most its jobs begun in full.
//!
//! All is reckoned in 128 bits. Times go up to 1,000,000,000,000 (02, Seven), and a state that is
//! yet to be judged may have any number of 64 bits as its time and as its quanta.

use crate::table::Row;

/// "let a be 0 before f and t - f after"
fn active_time(row: &Row, time: u64) -> u64 {
    time.saturating_sub(u64::from(row.phase))
}

/// e·a - p·q
pub fn behind(row: &Row, time: u64, quanta: u64) -> i128 {
    let (e, p) = (i128::from(row.cost), i128::from(row.period));
    e * i128::from(active_time(row, time)) - p * i128::from(quanta)
}

/// "e·a - p·q < p", for both kinds: the row is not short of its share.
pub fn not_short(row: &Row, time: u64, quanta: u64) -> bool {
    behind(row, time, quanta) < i128::from(row.period)
}

/// "Plain row: quanta q with -p < e·a - p·q ... Early-release row: ... q is at most e·ceil(a/p)":
/// the row has not more than its share. (p = 0 is no row; it has nothing.)
pub fn not_over(row: &Row, time: u64, quanta: u64) -> bool {
    let p = i128::from(row.period);
    if p == 0 {
        return false;
    }
    if row.early_release() {
        let a = i128::from(active_time(row, time));
        let jobs = (a + p - 1) / p;
        i128::from(quanta) <= i128::from(row.cost) * jobs
    } else {
        -p < behind(row, time, quanta)
    }
}

/// Is a row with q quanta inside its share at time t?
pub fn inside(row: &Row, time: u64, quanta: u64) -> bool {
    not_short(row, time, quanta) && not_over(row, time, quanta)
}

#[cfg(test)]
mod tests {
    use super::*;

    fn row(cost: u16, period: u16, phase: u16, kind: u8) -> Row {
        Row {
            tank: 0,
            cost,
            period,
            phase,
            kind,
        }
    }

    fn allowed(row: Row, time: u64) -> Vec<u64> {
        (0..20).filter(|&q| inside(&row, time, q)).collect()
    }

    #[test]
    fn plain_2_6() {
        // -6 < 2t - 6q < 6
        let row = row(2, 6, 0, 0);
        assert_eq!(allowed(row, 0), [0]);
        assert_eq!(allowed(row, 1), [0, 1]);
        assert_eq!(allowed(row, 2), [0, 1]);
        assert_eq!(allowed(row, 3), [1]);
        assert_eq!(allowed(row, 4), [1, 2]);
        assert_eq!(allowed(row, 6), [2]);
    }

    #[test]
    fn early_release_2_6() {
        // 2t - 6q < 6, and q at most 2·ceil(t/6)
        let row = row(2, 6, 0, 1);
        assert_eq!(allowed(row, 0), [0]);
        assert_eq!(allowed(row, 1), [0, 1, 2]);
        assert_eq!(allowed(row, 2), [0, 1, 2]);
        assert_eq!(allowed(row, 3), [1, 2]);
        assert_eq!(allowed(row, 6), [2]);
        assert_eq!(allowed(row, 7), [2, 3, 4]);
        assert_eq!(allowed(row, 12), [4]);
    }

    #[test]
    fn plain_with_e_equal_to_p() {
        // -3 < 3a - 3q < 3
        for time in 0..=9 {
            assert_eq!(allowed(row(3, 3, 0, 0), time), [time]);
            assert_eq!(allowed(row(1, 1, 0, 0), time), [time]);
            assert_eq!(allowed(row(1, 1, 2, 0), time + 2), [time]);
        }
        assert_eq!(allowed(row(3, 3, 2, 0), 1), [0]);
    }

    #[test]
    fn early_release_with_e_equal_to_p() {
        // 3a - 3q < 3, and q at most 3·ceil(a/3)
        for phase in [0, 4] {
            let row = row(3, 3, phase, 1);
            let after = |a| allowed(row, u64::from(phase) + a);
            assert_eq!(after(0), [0]);
            assert_eq!(after(1), [1, 2, 3]);
            assert_eq!(after(2), [2, 3]);
            assert_eq!(after(3), [3]);
            assert_eq!(after(4), [4, 5, 6]);
        }
        // jobs of one quantum
        for time in 0..=9 {
            assert_eq!(allowed(row(1, 1, 0, 1), time), [time]);
        }
    }

    #[test]
    fn nothing_is_due_up_to_the_phase() {
        for kind in 0..2 {
            let row = row(2, 3, 4, kind);
            for time in 0..=4 {
                assert_eq!(allowed(row, time), [0]);
            }
        }
        // one slot after the phase: 2 - 3q
        assert_eq!(allowed(row(2, 3, 4, 0), 5), [0, 1]);
        assert_eq!(allowed(row(2, 3, 4, 1), 5), [0, 1, 2]);
    }

    /// The lowest and the highest count of quanta inside the share, sought around one that is.
    fn limits(row: Row, time: u64, quanta: u64) -> (u64, u64) {
        assert!(inside(&row, time, quanta));
        let (mut lowest, mut highest) = (quanta, quanta);
        while inside(&row, time, lowest - 1) {
            lowest -= 1;
        }
        while inside(&row, time, highest + 1) {
            highest += 1;
        }
        (lowest, highest)
    }

    #[test]
    fn at_the_last_time() {
        let last = 1_000_000_000_000;
        // 1/2 has half of it, and 2/3 two thirds, 2,000,000,000,000 - 3q being 2 or -1
        let half = 500_000_000_000;
        assert_eq!(limits(row(1, 2, 0, 0), last, half), (half, half));
        let thirds = 666_666_666_666;
        assert_eq!(limits(row(2, 3, 0, 0), last, thirds), (thirds, thirds + 1));
        // with e = p it has all of it, or all from the phase on
        assert_eq!(limits(row(1, 1, 0, 0), last, last), (last, last));
        let since = 999_999_934_465;
        let whole = |kind| row(65535, 65535, 65535, kind);
        assert_eq!(limits(whole(0), last, since), (since, since));
        // early release: 15,259,020 jobs are done and the next has begun
        let given = 15_259_021 * 65_535;
        assert_eq!(limits(whole(1), last, since), (since, given));
        // 1,000,000,000,000 is 15,259,021 periods of 65,535 and 58,765 slots more: of 1/65535 the
        // next quantum may be given or not
        let periods = 15_259_021;
        let light = row(1, 65535, 0, 0);
        assert_eq!(limits(light, last, periods), (periods, periods + 1));
        // 65,535·1,000,000,000,000
        assert_eq!(behind(&whole(0), last + 65_535, 0), 65_535_000_000_000_000);
        assert_eq!(behind(&light, 0, last), -65_535_000_000_000_000);
    }

    #[test]
    fn around_2_to_the_32nd() {
        // 2/3: 2t - 3q; 2^32 - 1 is a multiple of 3, and 2/3 of it are 2,863,311,530
        let (row, given) = (row(2, 3, 0, 0), 2_863_311_530);
        assert_eq!(limits(row, 4_294_967_295, given), (given, given));
        assert_eq!(limits(row, 4_294_967_296, given), (given, given + 1));
        let given = given + 2;
        assert_eq!(limits(row, 4_294_967_297, given), (given - 1, given));
        assert_eq!(limits(row, 4_294_967_298, given), (given, given));
    }

    #[test]
    fn wild_numbers() {
        for &kind in &[0, 1, 255] {
            for &(e, p) in &[(0, 0), (65535, 1), (65535, 65535), (1, 65535)] {
                for &number in &[0, 1, u64::MAX] {
                    inside(&row(e, p, 65535, kind), number, u64::MAX - number);
                    inside(&row(e, p, 0, kind), number, number);
                }
            }
        }
        assert!(!inside(&row(1, 2, 0, 0), 0, u64::MAX));
        assert!(!inside(&row(1, 2, 0, 0), u64::MAX, 0));
        // 65,535·(2^64 - 1)
        let most = 1_208_907_372_870_555_465_154_560 - 65_535;
        assert_eq!(behind(&row(65535, 65535, 0, 0), u64::MAX, 0), most);
        assert_eq!(behind(&row(65535, 65535, 0, 0), 0, u64::MAX), -most);
    }
}
