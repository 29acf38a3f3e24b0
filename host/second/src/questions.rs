//! The questions: single rules of 01, each asked alone, after the protocol of that name.
//!
//! "Nothing is judged before: rows, quanta and numbers may be wild." The rules themselves stand in
//! the other modules; what is here is which numbers they are asked with, and what is said of those
//! that go without an answer. (The state that is fresh from a table value is `slot::fresh`.)
//!
//! D of a next window is found by 01's walk, not by the formula of 02, Four, so that a program that
//! reckons it can be checked by one that walks. The picks have the order of a slot, and with it the
//! formula. It is "01's order", that of format 1: neither a format nor a memory is asked with, so
//! that 02, Eight changes nothing here.

use crate::share;
use crate::slot;
use crate::table::Row;
use crate::windows;

/// "the numbers asked with it (quanta, and origin or time) are each at or below 2^40 =
/// 1,099,511,627,776"
const REACH: u64 = 1_099_511_627_776;

/// "the first min(k, 8) in 01's order are picked"
const MOST_PICKED: u8 = 8;

/// What comes back of the next subtask of a row.
#[derive(Clone, Copy, PartialEq, Eq, Debug)]
pub struct NextWindow {
    /// r
    pub start: u64,
    /// d
    pub deadline: u64,
    /// b
    pub bit: u8,
    /// The start of the job that holds the subtask.
    pub job_start: u64,
    /// D
    pub group_deadline: u64,
}

/// What comes back of a row with so many quanta at a time.
#[derive(Clone, Copy, PartialEq, Eq, Debug)]
pub struct RowAnswer {
    /// Ready in the slot that begins at the time.
    pub ready: bool,
    /// Late at the time.
    pub late: bool,
    /// Inside its share at the time.
    pub within: bool,
}

// ---- one row ----

fn in_reach(number: u64) -> bool {
    // slip: 2^40 itself is not answered
    if cfg!(slip = "reach_one_less") {
        return number < REACH;
    }
    number <= REACH
}

/// "A question about one row is answered if 0 < e, e is at or below p, and the numbers asked with
/// it (quanta, and origin or time) are each at or below 2^40". Since 02, Six the first two are what
/// 17 and 18 leave to a table as well.
fn answered(e: u16, p: u16, quanta: u64, origin_or_time: u64) -> bool {
    0 < e && e <= p && in_reach(quanta) && in_reach(origin_or_time)
}

/// "the next subtask (number quanta + 1) of a row e/p whose windows are counted from origin (as
/// 01's formulas with origin for f)". None: not answered.
pub fn next_window(e: u16, p: u16, origin: u64, quanta: u64) -> Option<NextWindow> {
    if !answered(e, p, quanta, origin) {
        return None;
    }
    let i = slot::next_subtask(quanta);
    // i·p is at most about 2^56 and the origin 2^40, so that every time fits in 64 bits
    Some(NextWindow {
        start: windows::start(e, p, origin, i) as u64,
        deadline: windows::deadline(e, p, origin, i) as u64,
        bit: windows::bit(e, p, i),
        job_start: windows::job_start(e, p, origin, i) as u64,
        group_deadline: windows::walked_group_deadline(e, p, origin, i) as u64,
    })
}

/// "ready in slot `time`, late at time `time`, inside its share at time `time`". None: not
/// answered.
pub fn ask_row(row: &Row, quanta: u64, time: u64) -> Option<RowAnswer> {
    if !answered(row.cost, row.period, quanta, time) {
        return None;
    }
    Some(RowAnswer {
        ready: slot::ready(row, quanta, time),
        late: slot::late(row, quanta, time),
        within: share::inside(row, time, quanta),
    })
}

// ---- many rows ----

/// "Rows are those below n (all 32 where n is above 32)."
fn rows_below(rows: &[Row; 32], n: u64) -> &[Row] {
    &rows[..n.min(32) as usize]
}

/// "A row counts as ready if its question is answered and it is ready in slot `time`".
fn counts_as_ready(row: &Row, quanta: u64, time: u64) -> bool {
    ask_row(row, quanta, time).map_or(false, |answer| answer.ready)
}

/// "whose question is answered and which is late at `time`"
fn counts_as_late(row: &Row, quanta: u64, time: u64) -> bool {
    ask_row(row, quanta, time).map_or(false, |answer| answer.late)
}

/// "32 marks: the rows picked": of those that count as ready "the first min(k, 8) in 01's order
/// are picked, or all if fewer".
pub fn picks(rows: &[Row; 32], quanta: &[u64; 32], n: u64, time: u64, k: u8) -> [bool; 32] {
    // "01's order" is that of format 1, in which it does not matter who ran before
    let in_order = slot::in_order(1, rows_below(rows, n), quanta, &[], |row, quanta| {
        counts_as_ready(row, quanta, time)
    });
    let mut picked = [false; 32];
    for next in in_order.iter().take(usize::from(k.min(MOST_PICKED))) {
        picked[usize::from(next.row)] = true;
    }
    picked
}

/// "the lowest row below n (below 32 where n is above 32) whose question is answered and which is
/// late at `time`; where there is none: min(n, 32)"
pub fn lowest_late(rows: &[Row; 32], quanta: &[u64; 32], n: u64, time: u64) -> u64 {
    let rows = rows_below(rows, n);
    for (number, row) in rows.iter().enumerate() {
        if counts_as_late(row, quanta[number], time) {
            return number as u64;
        }
    }
    rows.len() as u64
}

// ---- after the choice ----

/// "each marked one has one more, but the largest number, 2^64 - 1, stays"
pub fn give(quanta: &[u64; 32], marks: &[bool; 32]) -> [u64; 32] {
    let mut after = *quanta;
    for (count, &marked) in after.iter_mut().zip(marks) {
        if marked {
            *count = count.saturating_add(1);
        }
    }
    after
}

/// "0 written, 34 no room": "with 0 the record of the slot (k, how many rows are marked, their
/// numbers rising) stands at its front and every other byte is as before; with 34, if the record is
/// longer than the part, it is as it came".
pub fn write(part: &mut [u8], k: u8, marks: &[bool; 32]) -> u8 {
    let marked: Vec<u8> = (0..32).filter(|&row| marks[usize::from(row)]).collect();
    if slot::write_record(part, 0, k, &marked) {
        0
    } else {
        34
    }
}

#[cfg(test)]
mod tests {
    use super::*;

    const REACHED: u64 = 1 << 40;

    fn row(cost: u16, period: u16, phase: u16, kind: u8) -> Row {
        Row {
            tank: 9,
            cost,
            period,
            phase,
            kind,
        }
    }

    /// Rows by (e, p, f, kind); the places after them hold no row that is answered.
    fn rows_of(rows: &[(u16, u16, u16, u8)]) -> [Row; 32] {
        let mut all = [Row::zero(); 32];
        for (place, &(e, p, f, kind)) in rows.iter().enumerate() {
            all[place] = row(e, p, f, kind);
        }
        all
    }

    fn quanta_of(given: &[u64]) -> [u64; 32] {
        let mut quanta = [0; 32];
        quanta[..given.len()].copy_from_slice(given);
        quanta
    }

    fn marks_of(rows: &[usize]) -> [bool; 32] {
        let mut marks = [false; 32];
        for &place in rows {
            marks[place] = true;
        }
        marks
    }

    /// (r, d, b, start of the job, D)
    fn asked(e: u16, p: u16, origin: u64, quanta: u64) -> (u64, u64, u8, u64, u64) {
        let next = next_window(e, p, origin, quanta).unwrap();
        (
            next.start,
            next.deadline,
            next.bit,
            next.job_start,
            next.group_deadline,
        )
    }

    #[test]
    fn the_reach_is_2_to_the_40th() {
        assert_eq!(REACH, REACHED);
    }

    #[test]
    fn next_windows_of_the_bench() {
        // with no quanta subtask 1 is next, with two subtask 3, with five subtask 6
        assert_eq!(asked(8, 11, 0, 0), (0, 2, 1, 0, 4));
        assert_eq!(asked(8, 11, 0, 2), (2, 5, 1, 0, 8));
        assert_eq!(asked(8, 11, 0, 5), (6, 9, 1, 0, 11));
        assert_eq!(asked(5, 16, 0, 1), (3, 7, 1, 0, 0));
        assert_eq!(asked(5, 16, 0, 4), (12, 16, 0, 0, 0));
        assert_eq!(asked(1, 2, 0, 0), (0, 2, 0, 0, 2));
        assert_eq!(asked(2, 3, 4, 0), (4, 6, 1, 4, 7));
    }

    #[test]
    fn the_next_window_of_the_next_job() {
        // the second job of 8/11 is its first, 11 later; that of 5/16 likewise, 16 later
        assert_eq!(asked(8, 11, 0, 8), (11, 13, 1, 11, 15));
        assert_eq!(asked(8, 11, 1_000, 10), (1_013, 1_016, 1, 1_011, 1_019));
        assert_eq!(asked(5, 16, 0, 6), (19, 23, 1, 16, 0));
        // jobs of 2/6 are two quanta, those of 1/3 one
        assert_eq!(asked(2, 6, 0, 1), (3, 6, 0, 0, 0));
        assert_eq!(asked(1, 3, 0, 1), (3, 6, 0, 3, 0));
    }

    #[test]
    fn every_window_of_a_row_with_e_equal_to_p_is_one_slot() {
        // r = origin + q, d one more, b = 0 always, so D = d
        assert_eq!(asked(1, 1, 0, 0), (0, 1, 0, 0, 1));
        assert_eq!(asked(1, 1, 7, 9), (16, 17, 0, 16, 17));
        // the fifth subtask of 3/3 is the second of the second job
        assert_eq!(asked(3, 3, 10, 4), (14, 15, 0, 13, 15));
        assert_eq!(
            asked(65535, 65535, 0, 65534),
            (65_534, 65_535, 0, 0, 65_535)
        );
        assert_eq!(
            asked(65535, 65535, 0, 65535),
            (65_535, 65_536, 0, 65_535, 65_536)
        );
    }

    #[test]
    fn next_windows_at_the_end_of_the_reach() {
        // 2^40 + 2^40·65,535 = 2^56
        let far = 72_057_594_037_927_936;
        assert_eq!(
            asked(1, 65535, REACHED, REACHED),
            (far, far + 65_535, 0, far, 0)
        );
        // 2^40 quanta are 2^39 whole jobs of 2/3: 2^40 + 3·2^39 = 5·2^39
        let job = 2_748_779_069_440;
        assert_eq!(
            asked(2, 3, REACHED, REACHED),
            (job, job + 2, 1, job, job + 3)
        );
        // 2^40 - 2^10 = (2^16 - 2)·(2^24 + 2^9): so many whole jobs of 65,534, 1,024 quanta more
        let job = 65_535 * 16_777_728;
        assert_eq!(
            asked(65534, 65535, 0, REACHED),
            (job + 1_024, job + 1_026, 1, job, job + 65_535)
        );
        // with 1,024 quanta less the whole job is walked, here from the last origin
        let job = REACHED + job;
        assert_eq!(
            asked(65534, 65535, REACHED, REACHED - 1_024),
            (job, job + 2, 1, job, job + 65_535)
        );
        // 2^40 = 65,535·j + 256: with e = p so many quanta into the job
        let far = 2 * REACHED;
        assert_eq!(
            asked(65535, 65535, REACHED, REACHED),
            (far, far + 1, 0, far - 256, far + 1)
        );
    }

    /// D of the next window, which is walked to, is what the formula of 02, Four gives.
    fn walk_and_formula_agree(e: u16, p: u16, origin: u64, quanta: u64) {
        let walked = next_window(e, p, origin, quanta).unwrap().group_deadline;
        let reckoned = windows::group_deadline(e, p, origin, quanta + 1);
        assert_eq!(
            u128::from(walked),
            reckoned,
            "{}/{} from {}, {} quanta",
            e,
            p,
            origin,
            quanta
        );
    }

    #[test]
    fn walk_and_formula_agree_for_all_rows_of_short_periods() {
        // light rows, heavy ones, and e = p
        for p in 1..=40 {
            for e in 1..=p {
                for quanta in 0..=2 * u64::from(e) {
                    for &origin in &[0, 1, 7, 65_536, 4_294_967_296, REACHED] {
                        walk_and_formula_agree(e, p, origin, quanta);
                    }
                }
            }
        }
    }

    #[test]
    fn walk_and_formula_agree_at_the_end_of_the_reach() {
        for p in 1..=40 {
            for e in 1..=p {
                for back in 0..=u64::from(e) {
                    walk_and_formula_agree(e, p, REACHED - 1, REACHED - back);
                    walk_and_formula_agree(e, p, REACHED, REACHED - back);
                }
            }
        }
    }

    #[test]
    fn walk_and_formula_agree_for_long_rows() {
        for &p in &[4_096, 65_519, 65_534, 65_535u16] {
            for &rest in &[0, 1, 2, 3, 7, 100, p / 3, p / 2, p / 2 + 1, p - 1] {
                let job = u64::from(p - rest);
                for &quanta in &[0, 1, job / 2, job - 1, job, REACHED - 1, REACHED] {
                    for &origin in &[0, 65_536, REACHED] {
                        walk_and_formula_agree(p - rest, p, origin, quanta);
                    }
                }
            }
        }
    }

    #[test]
    fn the_limits_of_02_seven_mean_nothing_here() {
        // 2/3: after 1,000,000,000,000 quanta, 500,000,000,000 whole jobs, subtask
        // 1,000,000,000,001 is next; the one after it may not be asked for alone
        let (quanta, job) = (1_000_000_000_000, 1_500_000_000_000);
        assert_eq!(asked(2, 3, 0, quanta), (job, job + 2, 1, job, job + 3));
        assert_eq!(
            asked(2, 3, 0, quanta + 1),
            (job + 1, job + 3, 0, job, job + 3)
        );
        // from 1,000,000,000,000 on, and one job later
        let far = 2_500_000_000_003;
        assert_eq!(
            asked(2, 3, quanta, quanta + 2),
            (far, far + 2, 1, far, far + 3)
        );
        // 1/1 at the last time of a state, and after it
        let whole = row(1, 1, 0, 0);
        for time in quanta - 1..=quanta + 2 {
            assert_eq!(told(whole, time, time), (true, false, true));
            assert_eq!(told(whole, time - 1, time), (true, true, false));
            let rows = rows_of(&[(1, 1, 0, 0), (1, 1, 0, 0)]);
            let given = quanta_of(&[time + 1, time]);
            assert_eq!(picks(&rows, &given, 2, time, 8), marks_of(&[1]));
            assert_eq!(lowest_late(&rows, &given, 2, time + 1), 1);
        }
    }

    #[test]
    fn next_windows_that_are_not_answered() {
        for &(e, p) in &[(0, 0), (0, 1), (0, 65535), (1, 0), (2, 1), (65535, 65534)] {
            assert_eq!(next_window(e, p, 0, 0), None);
        }
        for &beyond in &[REACHED + 1, 1 << 41, u64::MAX] {
            assert_eq!(next_window(2, 3, beyond, 0), None);
            assert_eq!(next_window(2, 3, 0, beyond), None);
            assert_eq!(next_window(3, 3, beyond, beyond), None);
        }
        assert!(next_window(2, 3, REACHED, 0).is_some());
        assert!(next_window(2, 3, 0, REACHED).is_some());
    }

    /// (ready, late, within)
    fn told(row: Row, quanta: u64, time: u64) -> (bool, bool, bool) {
        let answer = ask_row(&row, quanta, time).unwrap();
        (answer.ready, answer.late, answer.within)
    }

    #[test]
    fn a_plain_row_2_6() {
        // windows 0 to 3 and 3 to 6; share -6 < 2t - 6q < 6
        let row = row(2, 6, 0, 0);
        assert_eq!(told(row, 0, 0), (true, false, true));
        assert_eq!(told(row, 0, 2), (true, false, true));
        assert_eq!(told(row, 0, 3), (true, true, false));
        assert_eq!(told(row, 1, 0), (false, false, false));
        assert_eq!(told(row, 1, 1), (false, false, true));
        assert_eq!(told(row, 1, 2), (false, false, true));
        assert_eq!(told(row, 1, 3), (true, false, true));
        assert_eq!(told(row, 1, 6), (true, true, false));
    }

    #[test]
    fn an_early_release_row_2_6() {
        // ready from 0 for two quanta, from 6 for two more; share 2t - 6q < 6, q at most
        // 2·ceil(t/6)
        let row = row(2, 6, 0, 1);
        assert_eq!(told(row, 0, 0), (true, false, true));
        assert_eq!(told(row, 1, 0), (true, false, false));
        assert_eq!(told(row, 1, 1), (true, false, true));
        assert_eq!(told(row, 2, 1), (false, false, true));
        assert_eq!(told(row, 2, 5), (false, false, true));
        assert_eq!(told(row, 2, 6), (true, false, true));
        assert_eq!(told(row, 3, 6), (true, false, false));
        assert_eq!(told(row, 1, 6), (true, true, false));
    }

    #[test]
    fn any_other_kind_is_plain() {
        for &kind in &[0, 2, 3, 128, 255] {
            let row = row(2, 6, 0, kind);
            // early release has (true, false, true) and (false, false, true)
            assert_eq!(told(row, 1, 1), (false, false, true));
            assert_eq!(told(row, 2, 1), (false, false, false));
        }
    }

    #[test]
    fn a_row_with_a_phase() {
        // 2/3 from 4 on: 4 to 6; before it nothing is due
        for &kind in &[0, 1] {
            let row = row(2, 3, 4, kind);
            assert_eq!(told(row, 0, 0), (false, false, true));
            assert_eq!(told(row, 0, 3), (false, false, true));
            assert_eq!(told(row, 0, 4), (true, false, true));
            assert_eq!(told(row, 0, 5), (true, false, true));
            assert_eq!(told(row, 0, 6), (true, true, false));
        }
    }

    #[test]
    fn a_row_with_e_equal_to_p() {
        // plain: in every slot one quantum, its share exactly t
        let plain = row(3, 3, 0, 0);
        assert_eq!(told(plain, 5, 4), (false, false, false));
        assert_eq!(told(plain, 5, 5), (true, false, true));
        assert_eq!(told(plain, 5, 6), (true, true, false));
        // early release: the second job may begin whole at 3; 3t - 3q < 3, q at most 3·ceil(t/3)
        let early = row(3, 3, 0, 1);
        assert_eq!(told(early, 4, 2), (false, false, false));
        assert_eq!(told(early, 4, 3), (true, false, false));
        assert_eq!(told(early, 4, 4), (true, false, true));
        assert_eq!(told(early, 6, 4), (false, false, true));
        assert_eq!(told(early, 4, 5), (true, true, false));
    }

    #[test]
    fn rows_at_the_end_of_the_reach() {
        let whole = row(1, 1, 0, 0);
        assert_eq!(told(whole, REACHED, REACHED), (true, false, true));
        assert_eq!(told(whole, REACHED, REACHED - 1), (false, false, false));
        assert_eq!(told(whole, REACHED - 1, REACHED), (true, true, false));
        let long = row(1, 65535, 65535, 1);
        assert_eq!(told(long, 0, REACHED), (true, true, false));
        assert_eq!(told(long, REACHED, 0), (false, false, false));
    }

    #[test]
    fn rows_that_are_not_answered() {
        for &(e, p) in &[(0, 0), (0, 5), (5, 0), (5, 4), (65535, 1)] {
            for kind in 0..3 {
                assert_eq!(ask_row(&row(e, p, 0, kind), 0, 0), None);
            }
        }
        for &beyond in &[REACHED + 1, u64::MAX] {
            assert_eq!(ask_row(&row(1, 2, 0, 0), beyond, 0), None);
            assert_eq!(ask_row(&row(1, 2, 0, 0), 0, beyond), None);
            assert_eq!(ask_row(&row(2, 2, 0, 1), beyond, beyond), None);
        }
    }

    #[test]
    fn picks_of_the_bench() {
        let rows = rows_of(&[(1, 2, 0, 0), (1, 2, 0, 0), (2, 3, 0, 0)]);
        assert_eq!(picks(&rows, &[0; 32], 3, 0, 2), marks_of(&[0, 2]));
        let rows = rows_of(&[(2, 3, 0, 0), (2, 3, 0, 0), (3, 4, 0, 0)]);
        assert_eq!(picks(&rows, &[0; 32], 3, 0, 1), marks_of(&[2]));
        assert_eq!(picks(&rows, &[0; 32], 3, 0, 0), marks_of(&[]));
        assert_eq!(picks(&rows, &[0; 32], 3, 0, 8), marks_of(&[0, 1, 2]));
    }

    #[test]
    fn rows_from_n_on_are_not_picked() {
        let rows = rows_of(&[(2, 3, 0, 0), (2, 3, 0, 0), (3, 4, 0, 0)]);
        assert_eq!(picks(&rows, &[0; 32], 0, 0, 8), marks_of(&[]));
        assert_eq!(picks(&rows, &[0; 32], 2, 0, 1), marks_of(&[0]));
        assert_eq!(picks(&rows, &[0; 32], 2, 0, 8), marks_of(&[0, 1]));
        let mut rows = [Row::zero(); 32];
        rows[31] = row(1, 2, 0, 0);
        assert_eq!(picks(&rows, &[0; 32], 31, 0, 1), marks_of(&[]));
        for &n in &[32, 33, 256, 1 << 32, u64::MAX] {
            assert_eq!(picks(&rows, &[0; 32], n, 0, 1), marks_of(&[31]));
        }
    }

    #[test]
    fn at_most_eight_are_picked() {
        let rows = [row(1, 2, 0, 0); 32];
        let eight = marks_of(&[0, 1, 2, 3, 4, 5, 6, 7]);
        let seven = marks_of(&[0, 1, 2, 3, 4, 5, 6]);
        assert_eq!(picks(&rows, &[0; 32], 32, 0, 7), seven);
        for &k in &[8, 9, 32, 255] {
            assert_eq!(picks(&rows, &[0; 32], 32, 0, k), eight);
        }
    }

    #[test]
    fn picks_of_wild_rows() {
        // row 0 has no cost, row 1 more than its period; row 2 is plain, its second quantum not
        // ready before 3; row 3 is early release; row 4 is due at 1 already, and late
        let rows = rows_of(&[
            (0, 5, 0, 0),
            (5, 4, 0, 0),
            (2, 6, 0, 7),
            (2, 6, 0, 1),
            (1, 1, 0, 200),
        ]);
        let quanta = quanta_of(&[0, 0, 1, 1, 0]);
        assert_eq!(picks(&rows, &quanta, 5, 1, 1), marks_of(&[4]));
        assert_eq!(picks(&rows, &quanta, 5, 1, 8), marks_of(&[3, 4]));
        assert_eq!(picks(&rows, &quanta, 5, 3, 8), marks_of(&[2, 3, 4]));
    }

    #[test]
    fn picks_know_no_slot_before() {
        // four rows 1/2 at time 2, of which rows 2 and 3 ran in slot 1: the lower numbers all the
        // same, as "01's order" has it
        let rows = rows_of(&[(1, 2, 0, 0); 4]);
        let quanta = quanta_of(&[1, 1, 1, 1]);
        assert_eq!(picks(&rows, &quanta, 4, 2, 2), marks_of(&[0, 1]));
    }

    #[test]
    fn rows_with_e_equal_to_p_have_b_0_in_the_order() {
        // slot 0: 1/1 is due at 1, 2/3 at 2
        let rows = rows_of(&[(2, 3, 0, 0), (1, 1, 0, 0)]);
        assert_eq!(picks(&rows, &[0; 32], 2, 0, 1), marks_of(&[1]));
        // slot 1: 1/1 with phase 1 is due at 2 with b = 0, 2/3 at 2 with b = 1
        let rows = rows_of(&[(1, 1, 1, 0), (2, 3, 0, 0)]);
        assert_eq!(picks(&rows, &[0; 32], 2, 1, 1), marks_of(&[1]));
        // 2/2 with phase 2 and 1/3 are both due at 3 with b = 0: D (3 and 0) is not asked
        let rows = rows_of(&[(1, 3, 0, 0), (2, 2, 2, 0)]);
        assert_eq!(picks(&rows, &[0; 32], 2, 2, 1), marks_of(&[0]));
    }

    #[test]
    fn picks_at_the_end_of_the_reach() {
        // 2^40 = 65,535·j + 256 (2^16 leaves 1): the job that holds the next quantum of row 0,
        // and of row 1 with one quantum more, has begun; but row 1 is not answered
        let rows = rows_of(&[(65535, 65535, 0, 1), (65535, 65535, 0, 1)]);
        let quanta = quanta_of(&[REACHED, REACHED + 1]);
        assert_eq!(picks(&rows, &quanta, 2, REACHED, 8), marks_of(&[0]));
        assert_eq!(picks(&rows, &quanta, 2, REACHED - 256, 8), marks_of(&[0]));
        assert_eq!(picks(&rows, &quanta, 2, REACHED - 257, 8), marks_of(&[]));
        assert_eq!(picks(&rows, &quanta, 2, REACHED + 1, 8), marks_of(&[]));
        let rows = [row(1, 2, 0, 0); 32];
        assert_eq!(picks(&rows, &[0; 32], 32, u64::MAX, 8), marks_of(&[]));
    }

    #[test]
    fn the_lowest_late_row() {
        // 1/4 is due at 4, 1/2 at 2
        let rows = rows_of(&[(1, 4, 0, 0), (1, 2, 0, 0), (1, 2, 0, 1)]);
        assert_eq!(lowest_late(&rows, &[0; 32], 3, 1), 3);
        assert_eq!(lowest_late(&rows, &[0; 32], 3, 2), 1);
        assert_eq!(lowest_late(&rows, &[0; 32], 3, 4), 0);
        assert_eq!(lowest_late(&rows, &quanta_of(&[0, 1, 0]), 3, 2), 2);
        assert_eq!(lowest_late(&rows, &quanta_of(&[1, 1, 1]), 3, 3), 3);
        // rows from n on are not asked
        assert_eq!(lowest_late(&rows, &[0; 32], 1, 2), 1);
        assert_eq!(lowest_late(&rows, &[0; 32], 0, 4), 0);
    }

    #[test]
    fn no_late_row_among_wild_ones() {
        // e = 0, and e above p: not answered, at no time
        let rows = rows_of(&[(0, 0, 0, 0), (0, 4, 0, 1), (4, 3, 0, 0)]);
        for &time in &[0, 1, 100, REACHED, REACHED + 1, u64::MAX] {
            assert_eq!(lowest_late(&rows, &[0; 32], 3, time), 3);
            for &n in &[32, 33, 256, 1 << 32, u64::MAX] {
                assert_eq!(lowest_late(&rows, &[0; 32], n, time), 32);
            }
        }
        // the last row, due at 1; past the reach nothing is answered
        let mut rows = rows;
        rows[31] = row(7, 7, 0, 9);
        assert_eq!(lowest_late(&rows, &[0; 32], 33, 1), 31);
        assert_eq!(lowest_late(&rows, &[0; 32], u64::MAX, REACHED), 31);
        assert_eq!(lowest_late(&rows, &[0; 32], 32, REACHED + 1), 32);
        assert_eq!(lowest_late(&rows, &[0; 32], 30, 1), 30);
    }

    #[test]
    fn each_marked_row_has_one_more() {
        let quanta = quanta_of(&[0, 7, u64::MAX, u64::MAX - 1, 4_294_967_295]);
        assert_eq!(give(&quanta, &[false; 32]), quanta);
        let given = give(&quanta, &marks_of(&[1, 2, 3, 4, 31]));
        assert_eq!(given[..6], [0, 8, u64::MAX, u64::MAX, 4_294_967_296, 0],);
        assert_eq!(given[31], 1);
        assert_eq!(give(&[41; 32], &[true; 32]), [42; 32]);
    }

    #[test]
    fn the_record_stands_at_the_front() {
        let mut part = [0xEE; 7];
        assert_eq!(write(&mut part, 3, &marks_of(&[31, 0, 5])), 0);
        assert_eq!(part, [3, 3, 0, 5, 31, 0xEE, 0xEE]);
        // nobody is marked, k is any byte
        let mut part = [0xEE; 3];
        assert_eq!(write(&mut part, 255, &[false; 32]), 0);
        assert_eq!(part, [255, 0, 0xEE]);
        // all are, and there is just room for them
        let mut part = [0xEE; 34];
        assert_eq!(write(&mut part, 0, &[true; 32]), 0);
        assert_eq!(part[..3], [0, 32, 0]);
        assert_eq!(part[33], 31);
        assert!((0..32).all(|row| part[2 + row] == row as u8));
    }

    #[test]
    fn no_room_for_the_record() {
        for &(length, marked) in &[(0, 0), (1, 0), (0, 1), (2, 1), (4, 3), (33, 32)] {
            let rows: Vec<usize> = (0..marked).collect();
            let mut part = vec![0xEE; length];
            assert_eq!(write(&mut part, 1, &marks_of(&rows)), 34);
            assert!(part.iter().all(|&byte| byte == 0xEE));
            part.resize(2 + marked, 0xEE);
            assert_eq!(write(&mut part, 1, &marks_of(&rows)), 0);
        }
    }
}
