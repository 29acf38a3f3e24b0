//! Adding a slot at the end of a trace, and to its summary. After 02, Ten.
//!
//! "Adding a slot at the end of such a trace and to its summary, from a state over its table,
//! raises the count, gives what building afresh gives, and touches no older entry. Refusals: ...
//! for an added slot those of a slot, 40, 47 if the count is at its limit or above, 60 if bytes
//! follow the records or the state's time is not the count, then 65 if a due entry has no room."
//!
//! The order is "30, 31, 32, 35, 34, 40, 47, 60, 65". The trace is the first `used` bytes of the
//! buffer that is lent for it. What its records hold, whether the state has given the quanta that
//! they name, and what the summary held before is not judged.
//!
//! The probe's protocol has two letters for this, `A` and `E`; both have the same answer.

use crate::checker;
use crate::cores::Placement;
use crate::slot::{self, Answer, State};
use crate::summary::{self, Entry, ENTRY_BYTES, SLOTS_TO_AN_ENTRY};

/// Makes one slot's choice with a set of free cores, bit c for core c, and adds it to the trace and
/// to the summary. With 0 and 1 the record stands at `used`, `used` is 2 + c higher, the count at
/// the buffer's front one, and an entry that is due stands at its place; every other byte of both
/// buffers is as before. With a refusal nothing changes, and nobody is placed. Any state, numbers
/// and bytes may be asked with.
pub fn add(
    state: &mut State,
    free: u32,
    used: &mut u64,
    buffer: &mut [u8],
    summary: &mut [u8],
) -> (Answer, Placement) {
    let refused = |number| (Answer::plain(number), Placement::nobody());
    // "those of a slot", which is made with copies: what is refused after it changes nothing
    let mut next = *state;
    let mut longer = buffer.to_vec();
    let (answer, placement) = slot::slot_on(&mut next, free, &mut longer, *used);
    if answer.number > 1 {
        return refused(answer.number);
    }
    // "`used` past the buffer is 34": the slot has said so already, since the record stands there
    if *used > buffer.len() as u64 {
        return refused(34);
    }
    let end = *used as usize;
    // 40, 47, 60 and 65
    let count = match count_of(&buffer[..end], state.time, summary.len()) {
        Ok(count) => count,
        Err(number) => return refused(number),
    };

    // "raises the count"; behind the trace stands the record: k, c and c row numbers
    let raised = count + 1;
    longer[..4].copy_from_slice(&(raised as u32).to_le_bytes());
    let longer_end = end + 2 + usize::from(longer[end + 1]);
    if let Some(begin) = due(raised) {
        let entry = due_entry(&longer[..longer_end], raised);
        // slip: the counts are the state's quanta
        #[cfg(slip = "entry_from_state")]
        let entry = Entry {
            counts: next.quanta.map(|quanta| quanta as u32),
            ..entry
        };
        let begin = begin as usize;
        summary[begin..begin + 136].copy_from_slice(&entry.bytes());
    }
    *state = next;
    *used = longer_end as u64;
    buffer.copy_from_slice(&longer);
    (answer, placement)
}

/// The slot count of the trace that a slot is to be added to at this time, or 40, 47, 60 or 65, in
/// this order.
fn count_of(trace: &[u8], time: u64, summary_length: usize) -> Result<u64, u8> {
    // 40: "trace ends inside its count"
    let count = summary::slot_count(trace).ok_or(40)?;
    // slip: 47 before the records are walked
    if cfg!(slip = "limit_before_cut") && at_its_limit(count) {
        return Err(47);
    }
    // 40: "or a record". "40 is asked of all records, before 47"
    let end = summary::counted(trace, count).ok_or(40)?.place;
    if at_its_limit(count) {
        return Err(47);
    }
    // "60 if bytes follow the records or the state's time is not the count"
    if end != trace.len() as u64 || time != count {
        return Err(60);
    }
    // "then 65 if a due entry has no room"
    if let Some(begin) = due(count + 1) {
        if begin + ENTRY_BYTES > summary_length as u64 {
            return Err(65);
        }
    }
    Ok(count)
}

/// "47 if the count is at its limit or above": a trace of one slot more there is not. The limit is
/// that of a trace, 1,000,000,000, not that of a state's time.
fn at_its_limit(count: u64) -> bool {
    count >= checker::MOST_SLOTS
}

/// Where in the summary the entry goes that is due with the raised count, if one is: "A due entry
/// goes to byte 136·((count + 1)/1,024)".
fn due(raised: u64) -> Option<u64> {
    if raised % SLOTS_TO_AN_ENTRY != 0 {
        return None;
    }
    Some(ENTRY_BYTES * (raised / SLOTS_TO_AN_ENTRY))
}

/// The due entry: "counted from slot 0 of the longer trace, whatever the summary held". (All its
/// records are inside: those before were asked for 40, and the last was written just now.)
fn due_entry(longer: &[u8], raised: u64) -> Entry {
    let nothing = Entry {
        place: 0,
        counts: [0; 32],
    };
    summary::counted(longer, raised).unwrap_or(nothing)
}

#[cfg(test)]
mod tests {
    use super::*;
    use crate::cores::first_cores;
    use crate::cores::tests::placement_of;
    use crate::never_late::Chance;
    use crate::slot::fresh;
    use crate::slot::tests::table_by_chance;
    use crate::summary::tests::{cycling, entry_of, example_of, trace_by_list};
    use crate::summary::{build, check_summary};
    use crate::table::tests::{value_of, EXAMPLE};
    use crate::table::{read, write, Table};
    use crate::trace;

    /// All that goes in and comes back: the state, how much of the buffer is used, both buffers.
    #[derive(Clone, PartialEq, Eq, Debug)]
    struct Kept {
        state: State,
        used: u64,
        buffer: Vec<u8>,
        summary: Vec<u8>,
    }

    impl Kept {
        /// This trace with room for so many bytes EE behind it, and a summary of so many bytes EE.
        fn new(state: State, trace: &[u8], room: usize, summary: usize) -> Kept {
            Kept {
                state,
                used: trace.len() as u64,
                buffer: [trace, &vec![0xEE; room][..]].concat(),
                summary: vec![0xEE; summary],
            }
        }

        fn add(&mut self, free: u32) -> (Answer, Placement) {
            add(
                &mut self.state,
                free,
                &mut self.used,
                &mut self.buffer,
                &mut self.summary,
            )
        }

        /// A slot that must be refused: the number, with all else as it was.
        fn refused(&self, free: u32) -> u8 {
            let mut after = self.clone();
            let (answer, placement) = after.add(free);
            assert!(answer.number > 1, "{:?}", answer);
            assert_eq!(answer, Answer::plain(answer.number));
            assert_eq!(placement, Placement::nobody());
            assert_eq!(after, *self);
            answer.number
        }

        /// A slot that must be done, and nobody late.
        fn done(&mut self, free: u32) -> Placement {
            let (answer, placement) = self.add(free);
            assert_eq!(answer, Answer::plain(0));
            placement
        }

        fn trace(&self) -> &[u8] {
            &self.buffer[..self.used as usize]
        }
    }

    fn example() -> Table {
        read(&EXAMPLE).unwrap()
    }

    /// The state of a table after so many slots with all cores free.
    fn state_at(table: &Table, time: u64) -> State {
        let mut state = fresh(*table);
        for _ in 0..time {
            let answer = slot::slot(&mut state, table.cores, &mut [0; 10], 0);
            assert_eq!(answer, Answer::plain(0));
        }
        state
    }

    /// The example after so many slots: its trace is that of `example_of`.
    fn example_at(slots: u32, room: usize, summary: usize) -> Kept {
        let state = state_at(&example(), u64::from(slots));
        Kept::new(state, &example_of(slots), room, summary)
    }

    // ---- the slot ----

    #[test]
    fn the_example_s_trace_slot_by_slot() {
        let mut kept = Kept::new(fresh(example()), &[0, 0, 0, 0], 14, 0);
        assert_eq!(kept.done(0b11), placement_of(&[(0, 0), (1, 1)]));
        assert_eq!(kept.used, 8);
        assert_eq!(kept.buffer[..8], [1, 0, 0, 0, 2, 2, 0, 1]);
        assert_eq!(kept.buffer[8..], [0xEE; 10]);
        assert_eq!(
            (kept.state.time, kept.state.quanta[..3].to_vec()),
            (1, vec![1, 1, 0])
        );
        // row 0 stays on its core
        assert_eq!(kept.done(0b11), placement_of(&[(0, 0), (2, 1)]));
        assert_eq!(kept.used, 12);
        kept.done(0b11);
        assert_eq!(
            kept.trace(),
            [3, 0, 0, 0, 2, 2, 0, 1, 2, 2, 0, 2, 2, 2, 1, 2]
        );
        // bytes past the trace are as before, and too few for one more
        assert_eq!(kept.buffer[16..], [0xEE; 2]);
        assert_eq!(kept.refused(0b11), 34);
    }

    #[test]
    fn a_slot_that_picks_nobody_is_added() {
        let mut kept = Kept::new(fresh(value_of(1, 1, &[])), &[0, 0, 0, 0], 4, 0);
        assert_eq!(kept.done(1), Placement::nobody());
        assert_eq!(kept.done(0), Placement::nobody());
        assert_eq!(kept.buffer, [2, 0, 0, 0, 1, 0, 0, 0]);
        assert_eq!((kept.used, kept.state.time), (8, 2));
    }

    #[test]
    fn a_late_slot_is_added() {
        // no core twice: row 0 is late at 2
        let mut kept = Kept::new(fresh(example()), &[0, 0, 0, 0], 9, 0);
        kept.done(0);
        let (answer, placement) = kept.add(0);
        let late = Answer {
            number: 1,
            row: 0,
            time: 2,
        };
        assert_eq!((answer, placement), (late, Placement::nobody()));
        assert_eq!(kept.trace(), [2, 0, 0, 0, 0, 0, 0, 0]);
        assert!(kept.state.stopped);
        assert_eq!(kept.refused(0), 31);
    }

    #[test]
    fn a_late_slot_with_a_due_entry() {
        // 1/1 in each of 1,023 slots, then in none
        let table = value_of(1, 1, &[(1, 1, 0, 0)]);
        let trace = cycling(&[&[1, 1, 0]], 1_023);
        let mut kept = Kept::new(state_at(&table, 1_023), &trace, 2, 272);
        let (answer, _) = kept.add(0);
        let late = Answer {
            number: 1,
            row: 0,
            time: 1_024,
        };
        assert_eq!(answer, late);
        assert_eq!(kept.used, 4 + 3 * 1_023 + 2);
        assert_eq!(kept.summary[136..], entry_of(3_075, &[1_023])[..]);
        assert!(kept.state.stopped);
    }

    // ---- the due entry ----

    #[test]
    fn an_entry_is_due_at_each_multiple_of_1_024() {
        let mut kept = example_at(1_022, 16, 0);
        // 1,023: none is due, and no room for one is asked for
        kept.done(0b11);
        // 1,024: one is
        for length in [0, 1, 136, 137, 271] {
            kept.summary = vec![0xEE; length];
            assert_eq!(kept.refused(0b11), 65, "length {}", length);
        }
        for length in [272, 273, 408] {
            let mut kept = kept.clone();
            kept.summary = vec![0xEE; length];
            kept.done(0b11);
            // "touches no older entry", and none behind it
            assert_eq!(kept.summary[..136], [0xEE; 136]);
            // 1,024 = 3·341 + 1
            assert_eq!(
                kept.summary[136..272],
                entry_of(4_100, &[683, 683, 682])[..]
            );
            assert!(kept.summary[272..].iter().all(|&byte| byte == 0xEE));
            // 1,025: none is due
            let summary = kept.summary.clone();
            kept.done(0b11);
            assert_eq!(kept.summary, summary);
            kept.summary.clear();
            kept.done(0b11);
            assert_eq!(kept.trace(), example_of(1_026));
        }
        // the next one
        let mut kept = example_at(2_047, 4, 407);
        assert_eq!(kept.refused(0b11), 65);
        kept.summary.push(0xEE);
        kept.done(0b11);
        assert_eq!(kept.summary[..272], [0xEE; 272]);
        assert_eq!(
            kept.summary[272..],
            entry_of(8_196, &[1_366, 1_365, 1_365])[..]
        );
    }

    #[test]
    fn where_an_entry_is_due() {
        for raised in [1, 1_023, 1_025, 2_047, 999_999_999, 1_000_000_000] {
            assert_eq!(due(raised), None);
        }
        assert_eq!(due(1_024), Some(136));
        assert_eq!(due(2_048), Some(272));
        // 999,999,488 = 1,024·976,562
        assert_eq!(due(999_999_488), Some(132_812_432));
        // 2^32, which no count can be
        assert_eq!(due(4_294_967_296), Some(570_425_344));
    }

    #[test]
    fn the_due_entry_is_counted_from_the_trace() {
        // a state without quanta, early release 1/2 from 2,000 on, over a trace that names row 0 in
        // each slot
        let state = state_at(&value_of(2, 1, &[(1, 2, 2_000, 1)]), 1_023);
        assert_eq!(state.quanta, [0; 32]);
        let trace = cycling(&[&[1, 1, 0]], 1_023);
        let mut kept = Kept::new(state, &trace, 2, 272);
        kept.done(1);
        assert_eq!(kept.state.quanta, [0; 32]);
        assert_eq!(kept.summary[136..], entry_of(3_075, &[1_023])[..]);
        // quanta that stand past n are no row's
        let mut kept = example_at(1_023, 4, 272);
        kept.state.quanta[3] = 7;
        kept.state.quanta[31] = u64::MAX;
        let expected = kept.state.quanta;
        kept.done(0b11);
        assert_eq!(kept.state.quanta[3..], expected[3..]);
        assert_eq!(kept.summary[136..], entry_of(4_100, &[683, 683, 682])[..]);
    }

    #[test]
    fn what_the_summary_held_is_not_asked() {
        // no row at all: whatever the entries are, they stay, and the due one is right
        for byte in [0, 0x55, 0xFF] {
            let trace = cycling(&[&[1, 0]], 2_047);
            let state = state_at(&value_of(1, 1, &[]), 2_047);
            let mut kept = Kept::new(state, &trace, 2, 0);
            kept.summary = vec![byte; 500];
            kept.done(1);
            assert_eq!(kept.summary[272..408], entry_of(4_100, &[])[..]);
            assert!(kept.summary[..272].iter().all(|&b| b == byte));
            assert!(kept.summary[408..].iter().all(|&b| b == byte));
        }
    }

    #[test]
    fn what_the_records_hold_is_not_judged() {
        // k and c above M, rows not below n, falling, named three times, and 32 and 200
        let records: [&[u8]; 3] = [&[200, 6, 7, 31, 0, 7, 7, 0], &[0, 2, 32, 200], &[9, 1, 5]];
        let trace = cycling(&records, 1_023);
        let mut kept = Kept::new(state_at(&example(), 1_023), &trace, 4, 272);
        kept.done(0b11);
        // 341 rounds of 8 + 4 + 3 bytes, then rows 0 and 1: 1,023 = 3·341
        let mut counts = [0; 32];
        for (row, count) in [(0, 342), (1, 1), (5, 341), (7, 341), (31, 341)] {
            counts[row] = count;
        }
        assert_eq!(kept.used, 4 + 341 * 15 + 4);
        assert_eq!(kept.summary[136..], entry_of(kept.used, &counts)[..]);
    }

    // ---- the refusals ----

    #[test]
    fn no_room_for_the_record() {
        // 2 + c = 4 bytes
        for room in 0..8 {
            let mut kept = example_at(3, room, 0);
            if room < 4 {
                assert_eq!(kept.refused(0b11), 34, "room {}", room);
            } else {
                kept.done(0b11);
                assert_eq!(kept.trace(), example_of(4));
            }
        }
        // with no core free 2 bytes are enough
        assert_eq!(example_at(3, 1, 0).refused(0), 34);
        example_at(3, 2, 0).done(0);
    }

    #[test]
    fn used_past_the_buffer() {
        let mut kept = example_at(3, 4, 0);
        let length = kept.buffer.len() as u64;
        for used in [
            length - 3,
            length,
            length + 1,
            1 << 32,
            (1 << 32) + 16,
            1 << 63,
            u64::MAX - 3,
            u64::MAX,
        ] {
            kept.used = used;
            assert_eq!(kept.refused(0b11), 34, "used {}", used);
        }
        // bytes of the buffer that are not used are no trace
        kept.used = 12;
        assert_eq!(kept.refused(0b11), 40);
        kept.used = 16;
        kept.done(0b11);
    }

    #[test]
    fn a_trace_that_is_cut() {
        let kept = example_at(3, 40, 0);
        for used in 0..16 {
            let mut cut = kept.clone();
            cut.used = used;
            assert_eq!(cut.refused(0b11), 40, "used {}", used);
        }
        // a count above the records, at the limit and above it too: 40 goes before 47 and 60
        for count in [
            4,
            1_023,
            999_999_999,
            1_000_000_000,
            1_000_000_001,
            u32::MAX,
        ] {
            let mut more = kept.clone();
            more.buffer[..4].copy_from_slice(&count.to_le_bytes());
            assert_eq!(more.refused(0b11), 40, "count {}", count);
        }
        // the longest record, one byte short
        let mut trace = vec![3, 0, 0, 0, 0, 0, 0, 0, 0, 255];
        trace.extend([0; 255]);
        let mut kept = Kept::new(state_at(&example(), 3), &trace, 9, 0);
        kept.used -= 1;
        assert_eq!(kept.refused(0b11), 40);
        kept.used += 1;
        kept.done(0b11);
        // no buffer for a count: the record of 2 bytes would have room, or not
        let none = value_of(1, 1, &[]);
        assert_eq!(Kept::new(fresh(none), &[], 2, 0).refused(1), 40);
        assert_eq!(Kept::new(fresh(none), &[], 1, 0).refused(1), 34);
    }

    #[test]
    fn the_count_at_its_limit() {
        for (count, expected) in [
            (0, false),
            (999_999_999, false),
            (1_000_000_000, true),
            (1_000_000_001, true),
            (4_294_967_295, true),
        ] {
            assert_eq!(at_its_limit(count), expected, "count {}", count);
        }
    }

    #[test]
    fn bytes_that_follow_the_records() {
        let kept = example_at(3, 12, 0);
        for more in 1..=8 {
            let mut longer = kept.clone();
            longer.used += more;
            assert_eq!(longer.refused(0b11), 60, "{} more", more);
        }
        // a count below the records; the time is not the count then either
        for count in 0..3 {
            let mut fewer = kept.clone();
            fewer.buffer[0] = count;
            assert_eq!(fewer.refused(0b11), 60);
            // nor if it is
            fewer.state = state_at(&example(), u64::from(count));
            assert_eq!(fewer.refused(0b11), 60);
        }
    }

    #[test]
    fn a_time_that_is_not_the_count() {
        for time in 0..8 {
            let trace = example_of(3);
            let mut kept = Kept::new(state_at(&example(), time), &trace, 4, 0);
            if time == 3 {
                kept.done(0b11);
            } else {
                assert_eq!(kept.refused(0b11), 60, "time {}", time);
            }
        }
        // no row: any time is inside its shares; 3 + 2^32 is not 3
        for time in [0, 4, (1 << 32) + 3, 999_999_999_999] {
            let mut state = fresh(value_of(1, 1, &[]));
            state.time = time;
            let mut kept = Kept::new(state, &cycling(&[&[1, 0]], 3), 2, 0);
            assert_eq!(kept.refused(1), 60, "time {}", time);
            kept.state.time = 3;
            kept.done(1);
        }
    }

    /// Everything amiss, and what mends one thing after the other: the number before each.
    #[test]
    fn the_first_refusal_in_their_order() {
        let mut kept = example_at(1_023, 0, 271);
        kept.state.time = 1_000_000_000_001;
        kept.state.stopped = true;
        kept.buffer.truncate(7);
        kept.used = 8;
        let mut set = 0b111;
        assert_eq!(kept.refused(set), 30);
        kept.state.time = 1_000_000_000_000;
        assert_eq!(kept.refused(set), 31);
        // without rows any time is inside the shares
        let rows = kept.state.table.count;
        kept.state.table.count = 0;
        kept.state.stopped = false;
        kept.state.last = Placement::nobody();
        assert_eq!(kept.refused(set), 32);
        kept.state.time = 1_022;
        assert_eq!(kept.refused(set), 35);
        set = 0b11;
        assert_eq!(kept.refused(set), 34);
        // room for the record
        kept.buffer = [&example_of(1_023)[..], &[0xEE; 9]].concat();
        kept.buffer[..4].copy_from_slice(&u32::MAX.to_le_bytes());
        kept.used = 4 + 4 * 1_023 + 1;
        assert_eq!(kept.refused(set), 40);
        // all records, and a byte behind them; the time is one too low
        kept.buffer[..4].copy_from_slice(&1_023u32.to_le_bytes());
        assert_eq!(kept.refused(set), 60);
        kept.used -= 1;
        assert_eq!(kept.refused(set), 60);
        kept.state = state_at(&example(), 1_023);
        assert_eq!(kept.state.table.count, rows);
        assert_eq!(kept.refused(set), 65);
        kept.summary.push(0xEE);
        kept.done(set);
    }

    #[test]
    fn those_of_a_slot_go_before_all_others() {
        // nothing to add to at all
        let nothing = |state: State| Kept::new(state, &[], 0, 0);
        let mut state = fresh(example());
        assert_eq!(nothing(state).refused(0b100), 35);
        assert_eq!(nothing(state).refused(0x8000_0000), 35);
        assert_eq!(nothing(state).refused(0b11), 34);
        state.last.count = 9;
        assert_eq!(nothing(state).refused(0b100), 30);
        let mut state = fresh(example());
        state.stopped = true;
        assert_eq!(nothing(state).refused(0b100), 31);
        state.table.format = 3;
        assert_eq!(nothing(state).refused(0b100), 30);
        assert_eq!(nothing(fresh(Table::zero())).refused(0), 30);
    }

    // ---- over runs by chance ----

    #[test]
    fn adding_gives_what_building_afresh_gives() {
        let mut chance = Chance(0x02_0013);
        for _ in 0..8 {
            let table = table_by_chance(&mut chance);
            let bytes = write(&table);
            let mut kept = Kept::new(fresh(table), &[0, 0, 0, 0], 12_000, 0);
            kept.summary = [&entry_of(4, &[])[..], &[0xEE; 300]].concat();
            let mut alone = fresh(table);
            let mut records: Vec<Vec<u8>> = Vec::new();
            for time in 0..1_100u64 {
                let mut record = [0; 10];
                let set = first_cores(table.cores);
                let expected = slot::slot_on(&mut alone, set, &mut record, 0);
                records.push(record[..2 + usize::from(record[1])].to_vec());
                let before = kept.clone();
                assert_eq!(kept.add(set), expected);
                assert_eq!(kept.state, alone);
                assert_eq!(kept.trace(), trace_by_list(&records));
                // past the trace nothing is touched, nor any other entry
                let used = kept.used as usize;
                assert_eq!(kept.buffer[used..], before.buffer[used..]);
                assert_eq!(kept.summary[..136], before.summary[..136]);
                assert_eq!(kept.summary[272..], before.summary[272..]);
                if time != 1_023 {
                    assert_eq!(kept.summary, before.summary);
                }
                if time > 1_015 && time < 1_030 || time % 100 == 0 {
                    let entries = 1 + (time as usize + 1) / 1_024;
                    let mut afresh = vec![0; 136 * entries];
                    let answer = build(&bytes, kept.trace(), &mut afresh);
                    assert_eq!((answer.outcome, answer.entries as usize), (0, entries));
                    assert_eq!(kept.summary[..136 * entries], afresh[..]);
                    assert!(check_summary(&bytes, kept.trace(), &afresh).right);
                }
            }
            let longest = &kept.summary[..272];
            assert!(check_summary(&bytes, kept.trace(), longest).right);
        }
    }

    #[test]
    fn runs_with_any_set_until_one_is_late() {
        let mut chance = Chance(0x02_0014);
        let mut lates = 0;
        for _ in 0..100 {
            let table = table_by_chance(&mut chance);
            let bytes = write(&table);
            let mut kept = Kept::new(fresh(table), &[0, 0, 0, 0], 1_000, 0);
            let mut alone = fresh(table);
            for _ in 0..60 {
                let set = chance.below(1 << table.cores) as u32;
                let expected = slot::slot_on(&mut alone, set, &mut [0; 10], 0);
                assert_eq!(kept.add(set), expected);
                assert_eq!(kept.state, alone);
                assert!(check_summary(&bytes, kept.trace(), &entry_of(4, &[])).right);
                if expected.0.number == 1 {
                    lates += 1;
                    break;
                }
            }
        }
        assert!(lates > 30, "{}", lates);
    }

    /// What comes after the slot's own refusals, in another way: the last record is asked for, and
    /// each record is counted by its number.
    fn expected_after(kept: &Kept, free: u32) -> (Answer, Placement, Kept) {
        let mut after = kept.clone();
        let (answer, placement) =
            slot::slot_on(&mut after.state, free, &mut after.buffer, kept.used);
        let refused = |number| (Answer::plain(number), Placement::nobody(), kept.clone());
        if answer.number > 1 {
            return refused(answer.number);
        }
        let trace = kept.trace();
        if trace.len() < 4 {
            return refused(40);
        }
        let count = u64::from(u32::from_le_bytes([trace[0], trace[1], trace[2], trace[3]]));
        let mut end = 4;
        if count > 0 {
            let (begin, length) = trace::record(trace, count - 1);
            if length == 0 {
                return refused(40);
            }
            end = begin + length;
        }
        if count >= 1_000_000_000 {
            return refused(47);
        }
        if end < trace.len() || kept.state.time != count {
            return refused(60);
        }
        let x = (count + 1) as usize / 1_024;
        let is_due = (count + 1) % 1_024 == 0;
        if is_due && kept.summary.len() < 136 * x + 136 {
            return refused(65);
        }
        after.buffer[..4].copy_from_slice(&(count as u32 + 1).to_le_bytes());
        after.used = kept.used + 2 + u64::from(placement.count);
        if is_due {
            let mut counts = [0; 32];
            for slot in 0..=count {
                let (begin, length) = trace::record(after.trace(), slot);
                let rows = &after.buffer[begin + 2..begin + length];
                for (row, named) in counts.iter_mut().enumerate() {
                    *named += u64::from(rows.contains(&(row as u8)));
                }
            }
            let entry = entry_of(after.used, &counts);
            after.summary[136 * x..136 * x + 136].copy_from_slice(&entry);
        }
        (answer, placement, after)
    }

    #[test]
    fn wild_slots_are_added_or_refused() {
        let mut chance = Chance(0x02_0015);
        let mut numbers = [0; 66];
        let mut dues = 0;
        // states of a few tables at a few times
        let mut states = Vec::new();
        for _ in 0..6 {
            let table = table_by_chance(&mut chance);
            for time in [0, 1, 3, 5, 1_022, 1_023, 1_024] {
                states.push(state_at(&table, time));
            }
        }
        for turn in 0..6_000 {
            // at a time below 6, mostly, or near the first due entry, mostly at it
            let which = match turn % 16 {
                0 => 4 + chance.below(3),
                1 => 5,
                _ => chance.below(4),
            };
            let state = states[(7 * chance.below(6) + which) as usize];
            let slots = match chance.below(8) {
                0 => state.time + 1,
                1 => state.time.saturating_sub(1),
                _ => state.time,
            };
            // records of any contents
            let mut records: Vec<Vec<u8>> = Vec::new();
            for _ in 0..slots {
                let rows = chance.below(4) as usize;
                let limit = if chance.below(10) == 0 { 256 } else { 34 };
                let mut record = vec![chance.below(256) as u8, rows as u8];
                record.extend((0..rows).map(|_| chance.below(limit) as u8));
                records.push(record);
            }
            let trace = trace_by_list(&records);
            let room = if chance.below(8) == 0 { 5 } else { 20 };
            let mut kept = Kept::new(state, &trace, chance.below(room) as usize + 2, 0);
            kept.summary = vec![chance.below(256) as u8; 265 + chance.below(300) as usize];
            match chance.below(12) {
                0 => kept.used = chance.below(kept.buffer.len() as u64 + 3),
                1 => kept.used += chance.below(3),
                2 => kept.used = u64::MAX - chance.below(20),
                3 => kept.buffer[chance.below(4) as usize] = chance.below(256) as u8,
                4 => {
                    let at = chance.below(trace.len() as u64) as usize;
                    kept.buffer[at] = chance.below(8) as u8;
                }
                5 => kept.state.stopped = true,
                6 => kept.state.time = chance.below(1_100),
                7 => kept.state.quanta[31] = chance.below(u64::MAX),
                8 | 9 => kept.summary.truncate(chance.below(280) as usize),
                _ => {}
            }
            let mut set = chance.below(1 << state.table.cores) as u32;
            if chance.below(16) == 0 {
                set |= 1 << chance.below(32);
            }
            let (answer, placement, after) = expected_after(&kept, set);
            let (given, placed) = kept.add(set);
            assert_eq!((given, placed), (answer, placement));
            assert_eq!(kept, after);
            dues += u32::from(answer.number < 2 && kept.state.time == 1_024);
            numbers[usize::from(answer.number)] += 1;
        }
        for number in [0, 1, 30, 31, 34, 35, 40, 60, 65] {
            assert!(numbers[number] > 20, "{}: {}", number, numbers[number]);
        }
        assert!(dues > 100, "{}", dues);
    }
}
