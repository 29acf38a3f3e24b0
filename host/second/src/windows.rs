//! Windows.
//!
//! "Time is cut into slots; time t is the start of slot t. A row has cost e, period p, phase f.
//! Its quanta are numbered from 1; the papers call them subtasks. ... The fraction is never
//! reduced."
//!
//! The functions with a phase of 64 bits serve every other part; `window` is the one "asked for
//! alone". D is found in two ways, so that each can be checked by the other. `group_deadline`
//! reckons it, by the formula of 02, Four, where the row is below weight one, for `window` and for
//! the order. `walked_group_deadline` walks over the windows as 01 has it, for `window_by_walk` and
//! for `questions::next_window`. Times are reckoned in 128 bits, where nothing below can overflow.
//!
//! A row may have the whole core. 02, Six: "The new camera link needs e = p. ... Such a row has
//! windows of one slot, b = 0, and D = d." 01's lines say the same of it: with e = p subtask i
//! starts at f + (i-1) and ends at f + i, and e divides i·p.

/// The last subtask whose window may be asked for alone. 01 has "i is not in 1 to 1,000,000,001";
/// 02, Seven: "The time limit rises to 1,000,000,000,000, and the window question takes subtasks up
/// to one past that." slip: the old limit
const LAST_SUBTASK: u64 = if cfg!(slip = "old_last_subtask") {
    1_000_000_001
} else {
    1_000_000_000_001
};

/// What comes back when a window is asked for alone. `number` is 0 or 50.
#[derive(Clone, Copy, PartialEq, Eq, Debug)]
pub struct Window {
    pub number: u8,
    /// r
    pub start: u64,
    /// d
    pub deadline: u64,
    /// b
    pub bit: u8,
    /// D
    pub group: u64,
}

/// "A window may be asked for alone, by e, p, f (each 0 to 65,535) and i. It is refused if
/// e = 0, if e is not below p, or if i is not in 1 to 1,000,000,001; then r, d, b and D come
/// back as 0." Of "not below p" 02, Six leaves "e above p", and with 02, Seven i may go up to
/// 1,000,000,000,001.
pub fn window(e: u16, p: u16, f: u16, i: u64) -> Window {
    window_with(group_deadline, e, p, f, i)
}

/// The same "with D found by the walk", letter `G` of the probe's protocol: "number, r, d, b as
/// `W`; D 0 for a light row; 50 with zeros for a refused window."
pub fn window_by_walk(e: u16, p: u16, f: u16, i: u64) -> Window {
    window_with(walked_group_deadline, e, p, f, i)
}

/// The window asked for alone. `group` finds its D; it is not asked of a window that is refused.
fn window_with(group: fn(u16, u16, u64, u64) -> u128, e: u16, p: u16, f: u16, i: u64) -> Window {
    // slip: i cut to 32 bits
    #[cfg(slip = "subtask_as_4_bytes")]
    let i = u64::from(i as u32);
    if refused(e, p, i) {
        return Window {
            number: 50,
            start: 0,
            deadline: 0,
            bit: 0,
            group: 0,
        };
    }
    let phase = u64::from(f);
    // i is below 2^40 and p below 2^16 here, so that every time fits in 64 bits
    Window {
        number: 0,
        start: start(e, p, phase, i) as u64,
        deadline: deadline(e, p, phase, i) as u64,
        bit: bit(e, p, i),
        group: group(e, p, phase, i) as u64,
    }
}

/// 50: "if e = 0, if e is not below p, or if i is not in 1 to 1,000,000,001", the second as 02, Six
/// has it: "Refusals: 18 narrowed, in the table and in 50", and "18 means e above p". The third as
/// 02, Seven has it: "30, 32 and 50 use the new limit."
fn refused(e: u16, p: u16, i: u64) -> bool {
    // slip: e = p is still refused
    if cfg!(slip = "whole_core_window_refused") && e == p {
        return true;
    }
    e == 0 || e > p || i < 1 || i > LAST_SUBTASK
}

/// "start r = f + floor((i-1)·p/e)". With e = 0 or i = 0, where 01 knows no window, 0.
pub fn start(e: u16, p: u16, f: u64, i: u64) -> u128 {
    if e == 0 || i == 0 {
        return 0;
    }
    u128::from(f) + start_after_phase(u128::from(e), u128::from(p), u128::from(i))
}

/// "deadline d = f + ceil(i·p/e)". With e = 0 or i = 0, where 01 knows no window, 0.
pub fn deadline(e: u16, p: u16, f: u64, i: u64) -> u128 {
    if e == 0 || i == 0 {
        return 0;
    }
    u128::from(f) + deadline_after_phase(u128::from(e), u128::from(p), u128::from(i))
}

/// "bit b = 0 if e divides i·p, else 1." With e = 0 or i = 0, where 01 knows no window, 0.
pub fn bit(e: u16, p: u16, i: u64) -> u8 {
    if e == 0 || i == 0 {
        return 0;
    }
    bit_of(u128::from(e), u128::from(p), u128::from(i))
}

/// A row is heavy when e/p is at least one half. 02, Three: "001 says heavy is at least one half;
/// we had followed 000. Mend the definition". With e = 0, where 01 knows no row, it is not.
pub fn heavy(e: u16, p: u16) -> bool {
    // slip: 1/2 counted light
    if cfg!(slip = "half_is_light") {
        return 2 * u32::from(e) > u32::from(p);
    }
    e != 0 && 2 * u32::from(e) >= u32::from(p)
}

/// "the start of the job that holds it, f + floor((i-1)/e)·p". With e = 0 or i = 0, where 01
/// knows no job, 0.
pub fn job_start(e: u16, p: u16, f: u64, i: u64) -> u128 {
    if e == 0 || i == 0 {
        return 0;
    }
    // slip: 2/6 treated as 1/3
    #[cfg(slip = "fraction_reduced")]
    let (e, p) = reduced(e, p);
    u128::from(f) + u128::from((i - 1) / u64::from(e)) * u128::from(p)
}

/// slip: e/p in its lowest terms (e is not 0)
#[cfg(slip = "fraction_reduced")]
fn reduced(e: u16, p: u16) -> (u16, u16) {
    let (mut common, mut rest) = (e, p);
    while rest != 0 {
        let left = common % rest;
        common = rest;
        rest = left;
    }
    (e / common, p / common)
}

/// "group deadline D: 0 for a light row. For a heavy row it is the smallest time at or after d
/// that is the deadline of a subtask of this row with b = 0, or one less than the deadline of a
/// subtask of this row whose window is 3 slots long."
///
/// These words stay "as the text people read"; D is reckoned, not sought. 02, Four: "For heavy
/// rows, with d counted from the phase, D is f + ceil(g·p/(p-e)) where g = ceil(d·(p-e)/p). What
/// the answer promises stays."
///
/// It stays for this reason. With e < p the windows of a heavy row start one or two slots apart,
/// and a time t is of the sort that 01 seeks exactly when none starts in slot t - 1: then one
/// starts at t - 2 and the next at t, which is its "d - b", so that it ends at t with b = 0, or at
/// t + 1 and is 3 slots long; and of both sorts of window the next starts at t. The slots in which
/// none starts are those before the deadlines of a row of p - e in p. So says 001: "D can be
/// calculated by using (8) to determine the deadlines of a task of weight 1 - wt(T)".
///
/// Of that row's deadlines the first at or after d is that of its subtask g, the first subtask with
/// g·p at or above d·(p-e): its own is at or after d, and those before it are at most d. None of
/// these is d itself: then no window would start in slot d - 1, b would be 0, d·(p-e) would be
/// (d-i)·p, and the deadline of g, then d - i, would be d as well; but deadlines rise strictly.
///
/// With e = p a window starts in every slot, p - e is 0 and the formula has no value. 02, Six: "The
/// formula of request Four is used only below weight one", and such a row has "D = d". So 01 has it
/// too: d itself is "the deadline of a subtask of this row with b = 0".
///
/// Without a window (e = 0, e above p, i = 0) D is 0.
pub fn group_deadline(e: u16, p: u16, f: u64, i: u64) -> u128 {
    if e == 0 || e > p || i == 0 || !heavy(e, p) {
        return 0;
    }
    let (e, p, f) = (u128::from(e), u128::from(p), u128::from(f));
    // "with d counted from the phase"
    let d = deadline_after_phase(e, p, u128::from(i));
    if e == p {
        // slip: no D without the formula
        if cfg!(slip = "whole_core_no_group") {
            return 0;
        }
        // 02, Six: "D = d"
        return f + d;
    }
    // slip: d counted from time 0
    #[cfg(slip = "phase_counted_twice")]
    let d = f + d;
    let g = rounded_up(d * (p - e), p);
    f + rounded_up(g * p, p - e)
}

/// ceil(dividend/divisor); the divisor is not 0.
fn rounded_up(dividend: u128, divisor: u128) -> u128 {
    (dividend + divisor - 1) / divisor
}

/// D again, with the formula nowhere in it: "The bench must be able to follow it: walk the row's
/// windows forward and stop at the first that fits."
///
/// The walk begins with subtask i itself, since the windows before it end before d, and it ends
/// with the job at the latest, whose last window has b = 0; with e = p (02, Six) every window has
/// b = 0, and it ends at once.
///
/// It may be asked for every e, p and f, and for i up to 2^40 + 1, the next subtask after the most
/// quanta that a question is answered for; the last subtask it can meet is i + e - 1. Without a
/// window (e = 0, e above p, i = 0) D is 0, whatever the other numbers.
pub(crate) fn walked_group_deadline(e: u16, p: u16, f: u64, i: u64) -> u128 {
    // "0 for a light row", and without a window
    if e == 0 || e > p || i == 0 || !heavy(e, p) {
        return 0;
    }
    // "the smallest time at or after d that is"
    let d = deadline(e, p, f, i);
    let mut subtask = i;
    loop {
        let end = deadline(e, p, f, subtask);
        // "one less than the deadline of a subtask of this row whose window is 3 slots long"
        let is_3_slots_long = end - start(e, p, f, subtask) == 3;
        // slip: whether that is "at or after d" is not asked
        if is_3_slots_long && (end - 1 >= d || cfg!(slip = "walk_stops_before_d")) {
            return end - 1;
        }
        // "the deadline of a subtask of this row with b = 0"
        if bit(e, p, subtask) == 0 {
            return end;
        }
        subtask += 1;
    }
}

// ---- the same for phase 0; the callers have seen that e is not 0 and i is not 0 ----

fn start_after_phase(e: u128, p: u128, i: u128) -> u128 {
    // slip: the window starts at the next one's start
    #[cfg(slip = "start_of_next")]
    let i = i + 1;
    (i - 1) * p / e
}

fn deadline_after_phase(e: u128, p: u128, i: u128) -> u128 {
    // slip: rounded down
    if cfg!(slip = "deadline_rounded_down") {
        return i * p / e;
    }
    (i * p + e - 1) / e
}

fn bit_of(e: u128, p: u128, i: u128) -> u8 {
    if i * p % e == 0 {
        0
    } else {
        1
    }
}

#[cfg(test)]
mod tests {
    use super::*;

    /// What is answered with D by the formula and, the same, with D by the walk.
    fn agreed(e: u16, p: u16, f: u16, i: u64) -> Window {
        let reckoned = window(e, p, f, i);
        let walked = window_by_walk(e, p, f, i);
        assert_eq!(reckoned, walked, "{}/{} from {}, subtask {}", e, p, f, i);
        reckoned
    }

    fn asked(e: u16, p: u16, f: u16, i: u64) -> (u64, u64, u8, u64) {
        let answer = agreed(e, p, f, i);
        assert_eq!(answer.number, 0);
        (answer.start, answer.deadline, answer.bit, answer.group)
    }

    #[test]
    fn bench_5_16() {
        assert_eq!(asked(5, 16, 0, 2), (3, 7, 1, 0));
        assert_eq!(asked(5, 16, 0, 5), (12, 16, 0, 0));
    }

    #[test]
    fn bench_8_11() {
        assert_eq!(asked(8, 11, 0, 1), (0, 2, 1, 4));
        assert_eq!(asked(8, 11, 0, 3), (2, 5, 1, 8));
        assert_eq!(asked(8, 11, 0, 6), (6, 9, 1, 11));
    }

    #[test]
    fn bench_1_2() {
        // 02, Three: "1/2, i = 1 has D 2"
        assert_eq!(asked(1, 2, 0, 1), (0, 2, 0, 2));
    }

    #[test]
    fn bench_2_3_with_phase_4() {
        assert_eq!(asked(2, 3, 4, 1), (4, 6, 1, 7));
    }

    #[test]
    fn all_windows_of_8_11_in_two_jobs() {
        // by hand: 3-slot windows are those of 3 and 6, bit 0 is 8's: 4, 8, 11, then 11 more
        let job = [
            (0, 2, 1, 4),
            (1, 3, 1, 4),
            (2, 5, 1, 8),
            (4, 6, 1, 8),
            (5, 7, 1, 8),
            (6, 9, 1, 11),
            (8, 10, 1, 11),
            (9, 11, 0, 11),
        ];
        for (place, &(r, d, b, group)) in job.iter().enumerate() {
            let i = place as u64 + 1;
            assert_eq!(asked(8, 11, 0, i), (r, d, b, group));
            assert_eq!(asked(8, 11, 0, i + 8), (r + 11, d + 11, b, group + 11));
            assert_eq!(
                asked(8, 11, 65535, i),
                (r + 65535, d + 65535, b, group + 65535)
            );
        }
    }

    #[test]
    fn heavy_is_at_least_one_half() {
        // 3/5: 0-2, 1-4 (3 slots: 3), 3-5 b 0
        assert_eq!(asked(3, 5, 0, 1), (0, 2, 1, 3));
        assert_eq!(asked(3, 5, 0, 2), (1, 4, 1, 5));
        assert_eq!(asked(3, 5, 0, 3), (3, 5, 0, 5));
        // one half, however written, is heavy; what is less is light
        assert_eq!(asked(2, 4, 0, 1), (0, 2, 0, 2));
        assert_eq!(asked(32767, 65534, 0, 1), (0, 2, 0, 2));
        assert_eq!(asked(32767, 65535, 0, 1), (0, 3, 1, 0));
        assert!(heavy(32768, 65535));
        assert!(heavy(32767, 65534));
        assert!(!heavy(32766, 65534));
        assert!(!heavy(32767, 65535));
        // so is e = p, and e above p; without a cost nothing is heavy
        assert!(heavy(1, 1));
        assert!(heavy(1, 0));
        assert!(!heavy(0, 1));
        assert!(!heavy(0, 0));
    }

    #[test]
    fn such_a_row_s_b_is_always_0() {
        // with p = 2e, i·p/e is 2i: every window is two slots long and has b = 0, so that D is its
        // own deadline
        for e in 1..=32_767u16 {
            let job = u64::from(e);
            for i in (1..=20).chain([job, job + 1, 2 * job, 1_000_000_000_001]) {
                let end = 65_535 + 2 * i;
                assert_eq!(asked(e, 2 * e, 65_535, i), (end - 2, end, 0, end));
            }
            assert_eq!(bit(e, 2 * e, u64::MAX), 0);
        }
    }

    #[test]
    fn the_fraction_is_never_reduced() {
        assert_eq!(asked(2, 6, 0, 1), (0, 3, 0, 0));
        assert_eq!(asked(2, 6, 0, 2), (3, 6, 0, 0));
        // the second quantum of 2/6 belongs to the first job, that of 1/3 to the second
        assert_eq!(job_start(2, 6, 0, 2), 0);
        assert_eq!(job_start(1, 3, 0, 2), 3);
        assert_eq!(job_start(2, 6, 7, 3), 13);
        assert_eq!(job_start(2, 6, 7, 4), 13);
    }

    #[test]
    fn the_longest_walk() {
        // 65534/65535: i starts at i-1 and ends at i+1 within the job; only the last has b = 0
        assert_eq!(asked(65534, 65535, 0, 1), (0, 2, 1, 65535));
        assert_eq!(asked(65534, 65535, 0, 65533), (65532, 65534, 1, 65535));
        assert_eq!(asked(65534, 65535, 0, 65534), (65533, 65535, 0, 65535));
        assert_eq!(asked(65534, 65535, 0, 65535), (65535, 65537, 1, 131070));
        // from the middle half a job is walked; with the latest phase all is 65,535 later
        assert_eq!(asked(65534, 65535, 0, 32767), (32766, 32768, 1, 65535));
        assert_eq!(asked(65534, 65535, 65535, 1), (65535, 65537, 1, 131070));
        assert_eq!(asked(65534, 65535, 65535, 32767), (98301, 98303, 1, 131070));
        assert_eq!(
            asked(65534, 65535, 65535, 65534),
            (131068, 131070, 0, 131070)
        );
    }

    #[test]
    fn the_longest_walk_at_the_last_subtasks_that_may_be_asked() {
        // 15,259,254 jobs of 65,534 are 999,999,951,636 subtasks and 1,000,015,210,890 slots;
        // 1,000,000,000,001 is subtask 48,365 of the next job, which ends at time 1,000,015,276,425
        assert_eq!(
            asked(65534, 65535, 0, 1_000_000_000_001),
            (1_000_015_259_254, 1_000_015_259_256, 1, 1_000_015_276_425)
        );
        assert_eq!(
            asked(65534, 65535, 65535, 1_000_000_000_001),
            (1_000_015_324_789, 1_000_015_324_791, 1, 1_000_015_341_960)
        );
        assert_eq!(
            asked(65534, 65535, 0, 999_999_951_636),
            (1_000_015_210_888, 1_000_015_210_890, 0, 1_000_015_210_890)
        );
        assert_eq!(
            asked(65534, 65535, 0, 999_999_951_637),
            (1_000_015_210_890, 1_000_015_210_892, 1, 1_000_015_276_425)
        );
    }

    #[test]
    fn the_longest_walk_at_the_old_last_subtask() {
        // 15,259 jobs of 65,534 are 999,983,306 subtasks and 999,998,565 slots; 1,000,000,001 is
        // subtask 16,695 of the next job, which ends at time 1,000,064,100
        assert_eq!(
            asked(65534, 65535, 0, 1_000_000_001),
            (1_000_015_259, 1_000_015_261, 1, 1_000_064_100)
        );
        assert_eq!(
            asked(65534, 65535, 65535, 1_000_000_001),
            (1_000_080_794, 1_000_080_796, 1, 1_000_129_635)
        );
        assert_eq!(
            asked(65534, 65535, 0, 999_983_306),
            (999_998_563, 999_998_565, 0, 999_998_565)
        );
        assert_eq!(
            asked(65534, 65535, 0, 999_983_307),
            (999_998_565, 999_998_567, 1, 1_000_064_100)
        );
    }

    #[test]
    fn d_is_counted_from_the_phase() {
        // 02, Four, by hand for 8/11, i = 3: d 5, g = ceil(15/11) = 2, ceil(22/3) = 8; with d
        // counted from time 0 and f = 7 it would be g = ceil(36/11) = 4, 7 + ceil(44/3) = 22
        assert_eq!(asked(8, 11, 7, 3), (9, 12, 1, 15));
        for f in 0..=65_535u16 {
            let phase = u64::from(f);
            assert_eq!(asked(8, 11, f, 3), (phase + 2, phase + 5, 1, phase + 8));
        }
    }

    #[test]
    fn the_group_deadline_moves_by_the_origin() {
        for &origin in &[1, 65_536, 1_099_511_627_776, u64::MAX] {
            for &(e, p) in &[(1, 2), (2, 3), (8, 11), (65_534, 65_535), (9, 9)] {
                for i in 1..=20 {
                    let moved = group_deadline(e, p, origin, i) - u128::from(origin);
                    assert_eq!(moved, group_deadline(e, p, 0, i));
                }
            }
        }
    }

    #[test]
    fn a_window_of_3_slots_does_not_end_its_own_walk() {
        // 8/11, subtask 3: 2 to 5, and 4 is before its d; subtask 6, 6 to 9, ends the walk
        assert_eq!(asked(8, 11, 0, 3).3, 8);
        // 3/4 has no window of 3 slots: 0-2, 1-3, 2-4 with b 0
        assert_eq!(asked(3, 4, 0, 1), (0, 2, 1, 4));
        // 32768/65535: subtask 2, 1 to 4, is one, and so is the next
        assert_eq!(asked(32768, 65535, 0, 2), (1, 4, 1, 5));
        assert_eq!(asked(32768, 65535, 0, 3), (3, 6, 1, 7));
    }

    #[test]
    fn a_window_with_b_0_ends_its_own_walk() {
        for p in 2..200u16 {
            for e in (p + 1) / 2..p {
                let last = asked(e, p, 5, u64::from(e));
                assert_eq!(
                    last,
                    (5 + u64::from(p) - 2, 5 + u64::from(p), 0, 5 + u64::from(p))
                );
            }
        }
    }

    #[test]
    fn borders_of_i() {
        assert_eq!(agreed(1, 2, 0, 0).number, 50);
        assert_eq!(agreed(1, 2, 0, 1).number, 0);
        assert_eq!(agreed(1, 2, 0, 1_000_000_001).number, 0);
        assert_eq!(agreed(1, 2, 0, 1_000_000_002).number, 0);
        assert_eq!(agreed(1, 2, 0, 1_000_000_000_000).number, 0);
        assert_eq!(agreed(1, 2, 0, 1_000_000_000_001).number, 0);
        assert_eq!(agreed(1, 2, 0, 1_000_000_000_002).number, 50);
        assert_eq!(agreed(1, 2, 0, u64::MAX).number, 50);
        // their last five bytes alone are 0, 1 and 1,000,000,000,001
        assert_eq!(agreed(1, 2, 0, 1_099_511_627_776).number, 50);
        assert_eq!(agreed(1, 2, 0, 1_099_511_627_777).number, 50);
        assert_eq!(agreed(1, 2, 0, 2_099_511_627_777).number, 50);
        // 65535·1,000,000,000,001 and 65535·1,000,000,000,002
        assert_eq!(
            asked(1, 65535, 65535, 1_000_000_000_001),
            (65_535_000_000_065_535, 65_535_000_000_131_070, 0, 0)
        );
        // 2/3: start 3,000,000,000,000/2; the next subtask, past what may be asked, ends the group
        assert_eq!(
            asked(2, 3, 0, 1_000_000_000_001),
            (1_500_000_000_000, 1_500_000_000_002, 1, 1_500_000_000_003)
        );
    }

    #[test]
    fn refused_windows_are_all_0() {
        let refused = Window {
            number: 50,
            start: 0,
            deadline: 0,
            bit: 0,
            group: 0,
        };
        // e = 0, also where it is p
        assert_eq!(agreed(0, 0, 0, 1), refused);
        assert_eq!(agreed(0, 0, 65535, 1_000_000_000_001), refused);
        assert_eq!(agreed(0, 5, 3, 1), refused);
        // e above p, also above p = 0
        assert_eq!(agreed(2, 1, 3, 1), refused);
        assert_eq!(agreed(5, 4, 3, 1), refused);
        assert_eq!(agreed(65535, 65534, 65535, 1), refused);
        assert_eq!(agreed(1, 0, 3, 1), refused);
        assert_eq!(agreed(65535, 0, 0, 1), refused);
        // i
        assert_eq!(agreed(2, 3, 4, 0), refused);
        assert_eq!(agreed(2, 3, 4, 1_000_000_000_002), refused);
        assert_eq!(agreed(2, 3, 4, u64::MAX), refused);
        // of a light row too, of the longest walk, and with e = p
        assert_eq!(agreed(1, 3, 4, 0), refused);
        assert_eq!(agreed(65534, 65535, 0, 1_000_000_000_002), refused);
        assert_eq!(agreed(1, 1, 0, 0), refused);
        assert_eq!(agreed(1, 1, 0, 1_000_000_000_002), refused);
        assert_eq!(agreed(65535, 65535, 0, u64::MAX), refused);
    }

    #[test]
    fn the_parts_stand_wild_numbers() {
        for &(e, p) in &[(0, 0), (0, 9), (9, 0), (9, 9), (9, 3), (65535, 65535)] {
            for &i in &[0, 1, u64::MAX] {
                start(e, p, u64::MAX, i);
                deadline(e, p, u64::MAX, i);
                bit(e, p, i);
                job_start(e, p, u64::MAX, i);
                let group = group_deadline(e, p, u64::MAX, i);
                if e == 0 || e > p || i == 0 {
                    assert_eq!(group, 0);
                    assert_eq!(walked_group_deadline(e, p, u64::MAX, i), 0);
                } else {
                    // e = p: subtask i ends i after the phase with b = 0
                    assert_eq!(group, u128::from(u64::MAX) + u128::from(i));
                }
            }
        }
        // 2/3 at a large origin: subtask 1 ends 2 after it, its group 3 after it
        let origin = u64::MAX;
        assert_eq!(deadline(2, 3, origin, 1), u128::from(origin) + 2);
        assert_eq!(group_deadline(2, 3, origin, 1), u128::from(origin) + 3);
        assert!(group_deadline(65534, 65535, u64::MAX, u64::MAX) > u128::from(u64::MAX));
    }

    #[test]
    fn the_next_start_is_d_less_b() {
        for p in 1..40u16 {
            for e in 1..=p {
                for i in 1..=2 * u64::from(e) + 2 {
                    let here = window(e, p, 9, i);
                    let next = window(e, p, 9, i + 1);
                    assert_eq!(next.start, here.deadline - u64::from(here.bit));
                }
            }
        }
    }

    /// The definition again over a list of all windows of the row, none left out.
    fn group_by_list(e: u16, p: u16, d: u64) -> u64 {
        let mut best = u64::MAX;
        for j in 1..=4 * u64::from(e) + 4 {
            let j_start = (j - 1) * u64::from(p) / u64::from(e);
            let j_end = (j * u64::from(p) + u64::from(e) - 1) / u64::from(e);
            if j * u64::from(p) % u64::from(e) == 0 && j_end >= d {
                best = best.min(j_end);
            }
            if j_end - j_start == 3 && j_end - 1 >= d {
                best = best.min(j_end - 1);
            }
        }
        best
    }

    /// "D can be calculated by using (8) to determine the deadlines of a task of weight
    /// 1 - wt(T)" (001): the smallest ceil(j·p/(p-e)) at or after d.
    fn group_by_rest(e: u16, p: u16, d: u64) -> u64 {
        let (p, rest) = (u64::from(p), u64::from(p - e));
        let mut j = 1;
        loop {
            let end = (j * p + rest - 1) / rest;
            if end >= d {
                return end;
            }
            j += 1;
        }
    }

    #[test]
    fn the_group_deadline_is_the_smallest_time_and_001_agrees() {
        for p in 1..40u16 {
            for e in 1..=p {
                for i in 1..=2 * u64::from(e) + 2 {
                    let here = agreed(e, p, 0, i);
                    if 2 * e >= p {
                        assert_eq!(here.group, group_by_list(e, p, here.deadline));
                        // a row of weight one leaves none to be calculated by
                        if e < p {
                            assert_eq!(here.group, group_by_rest(e, p, here.deadline));
                        }
                    } else {
                        assert_eq!(here.group, 0);
                    }
                }
            }
        }
    }

    #[test]
    fn the_group_deadline_of_long_rows() {
        for &p in &[997u16, 4_096, 65_519, 65_534, 65_535] {
            for &rest in &[1, 2, 3, 7, 100, p / 4, p / 3, p / 2 - 1, p / 2] {
                let e = p - rest;
                let last = u64::from(e);
                for &i in &[1, 2, last / 2, last - 1, last, last + 1, 3 * last] {
                    let here = agreed(e, p, 0, i);
                    assert_eq!(here.group, group_by_rest(e, p, here.deadline));
                }
            }
        }
    }

    #[test]
    fn formula_and_walk_agree_for_all_heavy_rows_of_short_periods() {
        // with e = p it is d, in place of the formula
        for p in 1..=72u16 {
            for e in (p + 1) / 2..=p {
                for i in 1..=u64::from(e) + 1 {
                    for &f in &[0, 1, 2, 5, p - 1, p, 1_000, 65_535] {
                        let here = agreed(e, p, f, i);
                        assert!(here.group >= here.deadline);
                    }
                }
            }
        }
    }

    #[test]
    fn formula_and_walk_agree_at_the_last_subtasks_that_may_be_asked() {
        for p in 1..=40u16 {
            for e in (p + 1) / 2..=p {
                for back in 0..=u64::from(e) {
                    agreed(e, p, 65_535, 1_000_000_000_001 - back);
                }
            }
        }
    }

    #[test]
    fn a_light_row_has_no_group_deadline() {
        for p in 3..=60u16 {
            for e in 1..(p + 1) / 2 {
                for i in 1..=u64::from(e) + 1 {
                    assert_eq!(agreed(e, p, 9, i).group, 0);
                }
            }
        }
        for &i in &[1, 2, 32_767, 32_768, 1_000_000_000_001] {
            assert_eq!(agreed(32_767, 65_535, 65_535, i).group, 0);
            assert_eq!(agreed(1, 65_535, 0, i).group, 0);
        }
    }

    // ---- whole-core rows (02, Six) ----

    #[test]
    fn bench_1_1() {
        // floor((i-1)·1/1) and ceil(i·1/1); "windows of one slot, b = 0, and D = d"
        assert_eq!(asked(1, 1, 0, 1), (0, 1, 0, 1));
        assert_eq!(asked(1, 1, 0, 2), (1, 2, 0, 2));
        assert_eq!(asked(1, 1, 0, 3), (2, 3, 0, 3));
        assert_eq!(asked(1, 1, 9, 7), (15, 16, 0, 16));
    }

    #[test]
    fn windows_of_5_5_with_phase_3() {
        // the first job is subtasks 1 to 5 in slots 3 to 7, the second 6 to 10 in slots 8 to 12
        assert_eq!(asked(5, 5, 3, 1), (3, 4, 0, 4));
        assert_eq!(asked(5, 5, 3, 2), (4, 5, 0, 5));
        assert_eq!(asked(5, 5, 3, 5), (7, 8, 0, 8));
        assert_eq!(asked(5, 5, 3, 6), (8, 9, 0, 9));
        assert_eq!(asked(5, 5, 3, 10), (12, 13, 0, 13));
        // "The fraction is never reduced": 1/1 has the same windows, but a job in each slot
        for i in 1..=10 {
            assert_eq!(asked(5, 5, 3, i), asked(1, 1, 3, i));
        }
        assert_eq!(job_start(5, 5, 3, 5), 3);
        assert_eq!(job_start(5, 5, 3, 6), 8);
        assert_eq!(job_start(1, 1, 3, 5), 7);
        assert_eq!(job_start(1, 1, 3, 6), 8);
    }

    #[test]
    fn the_largest_whole_core_row_at_the_last_subtask() {
        // r is f + (i-1), with f = 65,535 and i = 1,000,000,000,001
        assert_eq!(
            asked(65535, 65535, 65535, 1_000_000_000_001),
            (1_000_000_065_535, 1_000_000_065_536, 0, 1_000_000_065_536)
        );
        assert_eq!(
            asked(65535, 65535, 0, 1_000_000_000_001),
            (1_000_000_000_000, 1_000_000_000_001, 0, 1_000_000_000_001)
        );
        // the last subtask of the first job, and the first of the second
        assert_eq!(asked(65535, 65535, 0, 65535), (65534, 65535, 0, 65535));
        assert_eq!(asked(65535, 65535, 0, 65536), (65535, 65536, 0, 65536));
    }

    #[test]
    fn the_formula_ends_just_below_weight_one() {
        // 65534/65535 has one slot in 65,535 without a start, and D there; 65535/65535 has none
        assert_eq!(asked(65534, 65535, 7, 1), (7, 9, 1, 7 + 65535));
        assert_eq!(asked(65535, 65535, 7, 1), (7, 8, 0, 8));
        assert_eq!(asked(65534, 65535, 7, 65534).3, 7 + 65535);
        assert_eq!(asked(65535, 65535, 7, 65534).3, 7 + 65534);
        // 1/2 and 2/2
        assert_eq!(asked(1, 2, 7, 1), (7, 9, 0, 9));
        assert_eq!(asked(2, 2, 7, 1), (7, 8, 0, 8));
    }

    #[test]
    fn every_window_of_a_whole_core_row_is_one_slot() {
        for e in (1..=500u16).chain(65_036..=65_535) {
            let job = u64::from(e);
            for i in [1, 2, job, job + 1, 2 * job, 1_000_000_000_001] {
                let end = 65_535 + i;
                assert_eq!(asked(e, e, 65_535, i), (end - 1, end, 0, end));
            }
            assert_eq!(bit(e, e, u64::MAX), 0);
        }
    }

    #[test]
    fn with_e_equal_to_p_the_group_deadline_is_the_deadline() {
        // windows are one slot long, and e divides i·e; of the parts alone i may be anything
        for &e in &[1, 2, 3, 65_535] {
            for &i in &[1, 2, 3, 65_535, 65_536, 1_000_000_000_002, u64::MAX] {
                assert_eq!(start(e, e, 9, i), 8 + u128::from(i));
                assert_eq!(deadline(e, e, 9, i), 9 + u128::from(i));
                assert_eq!(bit(e, e, i), 0);
                assert_eq!(group_deadline(e, e, 9, i), 9 + u128::from(i));
                assert_eq!(walked_group_deadline(e, e, 9, i), 9 + u128::from(i));
            }
        }
    }

    // ---- shorter slots (02, Seven) ----

    #[test]
    fn windows_of_2_3_up_to_the_last_that_may_be_asked() {
        // subtask 2m + 1 is 3m to 3m + 2, b 1; subtask 2m + 2 is 3m + 1 to 3m + 3, b 0; D is 3m + 3
        // for both. The old last subtask and the next: m = 500,000,000
        let third = 1_500_000_000;
        assert_eq!(
            asked(2, 3, 0, 1_000_000_001),
            (third, third + 2, 1, third + 3)
        );
        assert_eq!(
            asked(2, 3, 0, 1_000_000_002),
            (third + 1, third + 3, 0, third + 3)
        );
        // 2^32 - 1 and 2^32: m = 2^31 - 1; 2^32 + 1: m = 2^31, and 3·2^31 = 6,442,450,944
        assert_eq!(
            asked(2, 3, 0, 4_294_967_295),
            (6_442_450_941, 6_442_450_943, 1, 6_442_450_944)
        );
        assert_eq!(
            asked(2, 3, 0, 4_294_967_296),
            (6_442_450_942, 6_442_450_944, 0, 6_442_450_944)
        );
        assert_eq!(
            asked(2, 3, 0, 4_294_967_297),
            (6_442_450_944, 6_442_450_946, 1, 6_442_450_947)
        );
        // 1,000,000,000,000 less 1, and itself: m = 499,999,999,999; one more: 500,000,000,000
        assert_eq!(
            asked(2, 3, 0, 999_999_999_999),
            (1_499_999_999_997, 1_499_999_999_999, 1, 1_500_000_000_000)
        );
        assert_eq!(
            asked(2, 3, 0, 1_000_000_000_000),
            (1_499_999_999_998, 1_500_000_000_000, 0, 1_500_000_000_000)
        );
        assert_eq!(
            asked(2, 3, 65535, 1_000_000_000_001),
            (1_500_000_065_535, 1_500_000_065_537, 1, 1_500_000_065_538)
        );
    }

    #[test]
    fn windows_of_8_11_up_to_the_last_that_may_be_asked() {
        // the windows of a job, of 8 quanta and 11 slots, are those of the bench
        let job = 1_375_000_000;
        assert_eq!(asked(8, 11, 0, 1_000_000_001), (job, job + 2, 1, job + 4));
        assert_eq!(
            asked(8, 11, 0, 1_000_000_002),
            (job + 1, job + 3, 1, job + 4)
        );
        // 2^32 ends job 2^29; 11·2^29 = 5,905,580,032
        let job = 5_905_580_032;
        assert_eq!(asked(8, 11, 0, 4_294_967_295), (job - 3, job - 1, 1, job));
        assert_eq!(asked(8, 11, 0, 4_294_967_296), (job - 2, job, 0, job));
        assert_eq!(asked(8, 11, 0, 4_294_967_297), (job, job + 2, 1, job + 4));
        // 1,000,000,000,000 ends job 125,000,000,000
        let job = 1_375_000_000_000;
        assert_eq!(asked(8, 11, 0, 1_000_000_000_000), (job - 2, job, 0, job));
        assert_eq!(
            asked(8, 11, 0, 1_000_000_000_001),
            (job, job + 2, 1, job + 4)
        );
    }

    #[test]
    fn windows_of_a_light_row_up_to_the_last_that_may_be_asked() {
        // 5/16: subtask 1 of a job is 0 to 4, b 1, and 5 is 12 to 16, b 0. 2^32 is 5·858,993,459
        // and 1 more, 16·858,993,459 = 13,743,895,344
        assert_eq!(
            asked(5, 16, 0, 4_294_967_296),
            (13_743_895_344, 13_743_895_348, 1, 0)
        );
        // 1,000,000,000,000 ends job 200,000,000,000
        assert_eq!(
            asked(5, 16, 0, 1_000_000_000_000),
            (3_199_999_999_996, 3_200_000_000_000, 0, 0)
        );
        assert_eq!(
            asked(5, 16, 0, 1_000_000_000_001),
            (3_200_000_000_000, 3_200_000_000_004, 1, 0)
        );
        // 1/65535 from 65,535 on: r = 65,535·i; the last end is far past every time of a state
        assert_eq!(
            asked(1, 65535, 65535, 1_000_000_000_000),
            (65_535_000_000_000_000, 65_535_000_000_065_535, 0, 0)
        );
    }

    #[test]
    fn a_subtask_is_not_its_last_four_bytes() {
        // 1/2: 2i - 2 to 2i. Of 2^32, 2^32 + 1 and 5,294,967,297 they are 0, 1 and 1,000,000,001
        for i in [4_294_967_296, 4_294_967_297, 5_294_967_297] {
            assert_eq!(asked(1, 2, 0, i), (2 * i - 2, 2 * i, 0, 2 * i));
        }
        // those of 996,432,412,672 are 0, and those of the last are 3,567,587,329
        let due = |i| asked(1, 2, 0, i).1;
        assert_eq!(due(996_432_412_672), 1_992_864_825_344);
        assert_eq!(due(3_567_587_329), 7_135_174_658);
        assert_eq!(due(1_000_000_000_001), 2_000_000_000_002);
    }

    #[test]
    fn past_the_last_subtask_every_window_is_refused() {
        let beyond = [
            1_000_000_000_002,
            1_000_000_000_003,
            1_099_511_627_776,
            1 << 63,
            u64::MAX - 1,
            u64::MAX,
        ];
        for i in beyond {
            for (e, p) in [(1, 1), (1, 2), (2, 3), (1, 65_535), (65_534, 65_535)] {
                for f in [0, 65_535] {
                    let answer = agreed(e, p, f, i);
                    assert_eq!(answer.number, 50);
                    assert_eq!((answer.start, answer.deadline), (0, 0));
                    assert_eq!((answer.bit, answer.group), (0, 0));
                }
            }
        }
    }

    /// So many jobs later every window is the same, later by so many periods.
    #[test]
    fn windows_are_the_same_so_many_jobs_later() {
        // up to the last subtask that may be asked, and across 1,000,000,001 and 2^32
        for &last in &[1_000_000_000_001, 4_294_967_300, 1_000_000_004] {
            for p in 1..=40u16 {
                for e in 1..=p {
                    let jobs = last / u64::from(e) - 2;
                    let (given, later) = (u64::from(e) * jobs, u64::from(p) * jobs);
                    // of the two jobs that follow, and of what is left of the third
                    for i in 1..=last - given {
                        let (r, d, b, group) = asked(e, p, 9, i);
                        let group = if group == 0 { 0 } else { group + later };
                        let expected = (r + later, d + later, b, group);
                        assert_eq!(asked(e, p, 9, given + i), expected);
                    }
                }
            }
        }
    }
}
