//! The checker of traces from any origin.
//!
//! "The checker judges the table first and answers its refusal without reading the trace. Then
//! the trace from the front: 40 for the count, 47, and for each record 40 (its first two bytes),
//! 41, 42, 40 (its rows), 43, 44 for the lowest row, and 45 for the lowest late row at the
//! slot's end. Last 46."
//!
//! Tables of both formats are taken, and what is then said of a trace is the same: 02, Eight parts
//! them in the order alone, and who goes first is not asked of a trace.

use crate::share;
use crate::slot::{self, Answer};
use crate::table::{self, Table};

/// The most slots a trace may count: the same as ever, though states go on. 02, Seven: "Each trace
/// still covers at most 1,000,000,000 slots from slot 0." slip: the time limit of a state
pub(crate) const MOST_SLOTS: u64 = if cfg!(slip = "one_limit_for_both") {
    slot::LAST_TIME
} else {
    1_000_000_000
};

/// The slot count and the bytes after it, or 40 or 47.
fn read_count(trace: &[u8]) -> Result<(u64, &[u8]), u8> {
    // 40: "trace ends inside its count"
    if trace.len() < 4 {
        return Err(40);
    }
    let (count, rest) = trace.split_at(4);
    let count = u64::from(u32::from_le_bytes([count[0], count[1], count[2], count[3]]));
    // 47: "slot count above 1,000,000,000"
    if count > MOST_SLOTS {
        return Err(47);
    }
    Ok((count, rest))
}

/// The row numbers of the next record and the bytes after it, or 40 to 43.
fn read_record<'a>(table: &Table, rest: &'a [u8]) -> Result<(&'a [u8], &'a [u8]), u8> {
    // 40: "trace ends inside ... a record" (its first two bytes)
    if rest.len() < 2 {
        return Err(40);
    }
    let (k, c, rest) = (rest[0], rest[1], &rest[2..]);
    // 41: "k above M"
    if k > table.cores {
        return Err(41);
    }
    // 42: "c above k"
    if c > k {
        return Err(42);
    }
    // 40 (its rows)
    if rest.len() < usize::from(c) {
        return Err(40);
    }
    let (rows, rest) = rest.split_at(usize::from(c));
    // 43: "row number not below n, or not rising"
    let mut last = None;
    for &row in rows {
        if row >= table.count {
            return Err(43);
        }
        if let Some(before) = last {
            if row <= before {
                return Err(43);
            }
        }
        last = Some(row);
    }
    Ok((rows, rest))
}

/// Judges the table's bytes, then the trace's: 0, 10 to 22, or 40 to 47.
pub fn check(table: &[u8], trace: &[u8]) -> Answer {
    match judge(table, trace) {
        Ok(()) => Answer::plain(0),
        Err(answer) => answer,
    }
}

fn judge(table: &[u8], trace: &[u8]) -> Result<(), Answer> {
    // "judges the table first and answers its refusal without reading the trace"
    let table = table::read(table).map_err(Answer::plain)?;
    let (count, mut rest) = read_count(trace).map_err(Answer::plain)?;
    let mut quanta = [0u64; 32];
    for time in 0..count {
        let (rows, after) = read_record(&table, rest).map_err(Answer::plain)?;
        rest = after;
        // 44: "quantum before its row was ready (row, slot)"; rows rise, the lowest is met first
        for &number in rows {
            let place = usize::from(number);
            if !slot::ready(&table.rows[place], quanta[place], time) {
                return Err(Answer {
                    number: 44,
                    row: number,
                    time,
                });
            }
        }
        for &number in rows {
            quanta[usize::from(number)] += 1;
        }
        // 45: "row late (row, time)", at the slot's end
        let end = time + 1;
        #[cfg(not(slip = "late_only_if_picked"))]
        let late = slot::lowest_late(&table, &quanta, end);
        // slip: lateness tested only for rows that were picked
        #[cfg(slip = "late_only_if_picked")]
        let late = slot::lowest_late_picked(&table, &quanta, end, rows);
        if let Some(row) = late {
            return Err(Answer {
                number: 45,
                row,
                time: end,
            });
        }
    }
    // 46: "bytes after the last record"
    if !rest.is_empty() {
        return Err(Answer::plain(46));
    }
    Ok(())
}

/// "A trace is well formed for a table that is taken when its bytes give no cause for 40 to 43,
/// 46 or 47 anywhere, leaving 44 and 45 aside." For a table that is refused, false.
pub fn well_formed(table: &[u8], trace: &[u8]) -> bool {
    match table::read(table) {
        Ok(table) => quanta_at_each_time(&table, trace, |_, _| true) == Ok(true),
        Err(_) => false,
    }
}

/// Is each row inside its share at each time the trace covers, from 0 to its slot count? For a
/// table that is refused, or a trace that is not well formed for it, false.
pub fn within_shares(table: &[u8], trace: &[u8]) -> bool {
    let table = match table::read(table) {
        Ok(table) => table,
        Err(_) => return false,
    };
    let all_inside = |time: u64, quanta: &[u64; 32]| {
        table
            .named_rows()
            .iter()
            .zip(quanta)
            .all(|(row, &q)| share::inside(row, time, q))
    };
    quanta_at_each_time(&table, trace, all_inside) == Ok(true)
}

/// Walks a trace and asks `holds` at each time 0 to the slot count, with the quanta given up to
/// then. `Err` is a cause for 40 to 43, 46 or 47; otherwise whether it held at all times.
fn quanta_at_each_time<F>(table: &Table, trace: &[u8], holds: F) -> Result<bool, u8>
where
    F: Fn(u64, &[u64; 32]) -> bool,
{
    let (count, mut rest) = read_count(trace)?;
    let mut quanta = [0u64; 32];
    let mut held = holds(0, &quanta);
    for time in 1..=count {
        let (rows, after) = read_record(table, rest)?;
        rest = after;
        for &number in rows {
            quanta[usize::from(number)] += 1;
        }
        held = held && holds(time, &quanta);
    }
    if !rest.is_empty() {
        return Err(46);
    }
    Ok(held)
}

#[cfg(test)]
mod tests {
    use super::*;
    use crate::never_late::Chance;
    use crate::slot::tests::table_by_chance;
    use crate::slot::{fresh, slot};
    use crate::table::tests::{bytes_of, in_format, value_of, EXAMPLE};
    use crate::table::write;

    const TRACE: [u8; 16] = [3, 0, 0, 0, 2, 2, 0, 1, 2, 2, 0, 2, 2, 2, 1, 2];

    fn named(number: u8, row: u8, time: u64) -> Answer {
        Answer { number, row, time }
    }

    /// The example table's answer for a count and record bytes.
    fn example(count: u32, records: &[u8]) -> Answer {
        let mut trace = count.to_le_bytes().to_vec();
        trace.extend_from_slice(records);
        check(&EXAMPLE, &trace)
    }

    #[test]
    fn bench_the_trace_passes() {
        assert_eq!(check(&EXAMPLE, &TRACE), named(0, 0, 0));
        assert!(well_formed(&EXAMPLE, &TRACE));
        assert!(within_shares(&EXAMPLE, &TRACE));
    }

    #[test]
    fn the_table_is_judged_first() {
        assert_eq!(check(&EXAMPLE[..35], &TRACE), named(10, 0, 0));
        assert_eq!(check(&EXAMPLE[..35], &[]), named(10, 0, 0));
        let mut more = EXAMPLE.to_vec();
        more.push(0);
        assert_eq!(check(&more, &[9]), named(21, 0, 0));
        let rows = [(1, 2, 3, 0, 0), (2, 2, 3, 0, 0)];
        assert_eq!(check(&bytes_of(3, 1, &rows), &TRACE), named(22, 0, 0));
        assert_eq!(check(&bytes_of(0, 1, &[]), &TRACE), named(12, 0, 0));
        assert!(!well_formed(&EXAMPLE[..35], &TRACE));
        assert!(!within_shares(&EXAMPLE[..35], &TRACE));
    }

    // ---- formats (02, Eight) ----

    #[test]
    fn the_format_is_judged_with_the_table() {
        for format in 0..=255 {
            let expected = if format == 1 || format == 2 { 0 } else { 11 };
            let table = in_format(format, &EXAMPLE);
            assert_eq!(check(&table, &TRACE), named(expected, 0, 0));
            assert_eq!(well_formed(&table, &TRACE), expected == 0);
            assert_eq!(within_shares(&table, &TRACE), expected == 0);
            // before anything of the trace
            if expected == 11 {
                assert_eq!(check(&table, &[]), named(11, 0, 0));
                assert_eq!(check(&[format], &TRACE), named(11, 0, 0));
            }
        }
    }

    #[test]
    fn a_trace_is_judged_alike_in_both_formats() {
        // six slots of the example as format 1 picks, and as format 2 does: rows 1 and 2 ran in
        // slot 2, and are picked in slot 3
        let first = [2, 2, 0, 1, 2, 2, 0, 2, 2, 2, 1, 2].repeat(2);
        let mut second = first.clone();
        second[12..].copy_from_slice(&[2, 2, 1, 2, 2, 2, 0, 1, 2, 2, 0, 2]);
        for records in [first, second] {
            let mut trace = vec![6, 0, 0, 0];
            trace.extend_from_slice(&records);
            for format in 1..=2 {
                let table = in_format(format, &EXAMPLE);
                assert_eq!(check(&table, &trace), named(0, 0, 0));
                assert!(within_shares(&table, &trace));
            }
        }
        // 1/2 and 2/3 on two cores: every trace of five slots, most of which do not pass
        let table = write(&value_of(6, 2, &[(1, 2, 0, 0), (2, 3, 0, 1)]));
        for trace in all_traces(2, 2, 5) {
            let kind = in_format(2, &table);
            assert_eq!(check(&kind, &trace), check(&table, &trace));
            assert_eq!(well_formed(&kind, &trace), well_formed(&table, &trace));
            assert_eq!(within_shares(&kind, &trace), within_shares(&table, &trace));
        }
    }

    #[test]
    fn the_count() {
        for length in 0..4 {
            assert_eq!(check(&EXAMPLE, &TRACE[..length]), named(40, 0, 0));
        }
        assert_eq!(example(0, &[]), named(0, 0, 0));
        assert_eq!(example(1_000_000_000, &[]), named(40, 0, 0));
        assert_eq!(example(1_000_000_001, &[]), named(47, 0, 0));
        assert_eq!(example(u32::MAX, &[2, 2, 0, 1]), named(47, 0, 0));
    }

    #[test]
    fn a_trace_still_covers_at_most_1_000_000_000_slots() {
        // 02, Seven: no record is there, or one that is wrong by itself
        for records in [&[][..], &[2], &[2, 2, 0]] {
            assert_eq!(example(1_000_000_000, records), named(40, 0, 0));
        }
        assert_eq!(example(1_000_000_000, &[3, 0]), named(41, 0, 0));
        assert_eq!(example(1_000_000_000, &[2, 3]), named(42, 0, 0));
        assert_eq!(example(1_000_000_000, &[2, 1, 3]), named(43, 0, 0));
        assert_eq!(example(1_000_000_000, &[0, 0, 0, 0]), named(45, 0, 2));
        // one slot more, and the most that four bytes can say: 47 before all these
        for count in [1_000_000_001, 1_000_000_002, 3_567_587_328, u32::MAX] {
            for records in [&[][..], &[2], &[3, 0], &[2, 3], &[2, 1, 3], &[0, 0, 0, 0]] {
                assert_eq!(example(count, records), named(47, 0, 0));
            }
        }
        // but after the table
        let trace = 1_000_000_001u32.to_le_bytes();
        assert_eq!(check(&EXAMPLE[..35], &trace), named(10, 0, 0));
        assert_eq!(check(&EXAMPLE, &trace), named(47, 0, 0));
        assert!(!well_formed(&EXAMPLE, &trace));
        assert!(!within_shares(&EXAMPLE, &trace));
    }

    #[test]
    fn every_shorter_trace_is_40() {
        for length in 0..16 {
            assert_eq!(check(&EXAMPLE, &TRACE[..length]), named(40, 0, 0));
            assert!(!well_formed(&EXAMPLE, &TRACE[..length]));
            assert!(!within_shares(&EXAMPLE, &TRACE[..length]));
        }
    }

    #[test]
    fn one_record_in_the_order_of_its_tests() {
        // its first two bytes before k
        assert_eq!(example(1, &[3]), named(40, 0, 0));
        // k before c
        assert_eq!(example(1, &[3, 4]), named(41, 0, 0));
        assert_eq!(example(1, &[255, 0]), named(41, 0, 0));
        // c before the rows are missed
        assert_eq!(example(1, &[2, 3]), named(42, 0, 0));
        assert_eq!(example(1, &[0, 1, 0]), named(42, 0, 0));
        // the rows' bytes before the rows
        assert_eq!(example(1, &[2, 2, 9]), named(40, 0, 0));
        // the rows
        assert_eq!(example(1, &[2, 1, 3]), named(43, 0, 0));
        assert_eq!(example(1, &[2, 2, 0, 255]), named(43, 0, 0));
        assert_eq!(example(1, &[2, 2, 1, 1]), named(43, 0, 0));
        assert_eq!(example(1, &[2, 2, 1, 0]), named(43, 0, 0));
        // fewer rows than free cores is no cause
        assert_eq!(example(1, &[2, 1, 2]), named(0, 0, 0));
        assert_eq!(example(1, &[2, 0]), named(0, 0, 0));
    }

    #[test]
    fn a_quantum_too_early() {
        // row 0 (2/3) has two by slot 2; its third starts at 3
        let records = [2, 2, 0, 1, 2, 2, 0, 2, 2, 2, 0, 1];
        assert_eq!(example(3, &records), named(44, 0, 2));
        // row 1 has phase 5, row 0 is ready
        let table = bytes_of(6, 2, &[(1, 1, 2, 0, 0), (2, 1, 3, 5, 0), (3, 1, 3, 1, 1)]);
        assert_eq!(check(&table, &[1, 0, 0, 0, 2, 2, 0, 1]), named(44, 1, 0));
        // of two that are early the lowest
        assert_eq!(check(&table, &[1, 0, 0, 0, 2, 2, 1, 2]), named(44, 1, 0));
        assert_eq!(check(&table, &[1, 0, 0, 0, 2, 1, 2]), named(44, 2, 0));
        // 43 of the same record goes before 44
        assert_eq!(check(&table, &[1, 0, 0, 0, 2, 2, 1, 3]), named(43, 0, 0));
    }

    #[test]
    fn slip_early_release_by_whole_jobs() {
        let early = bytes_of(6, 1, &[(1, 2, 6, 0, 1)]);
        let plain = bytes_of(6, 1, &[(1, 2, 6, 0, 0)]);
        let trace = [2, 0, 0, 0, 1, 1, 0, 1, 1, 0];
        assert_eq!(check(&early, &trace), named(0, 0, 0));
        assert_eq!(check(&plain, &trace), named(44, 0, 1));
        let trace = [3, 0, 0, 0, 1, 1, 0, 1, 1, 0, 1, 1, 0];
        assert_eq!(check(&early, &trace), named(44, 0, 2));
        // reduced to 1/3 the second quantum would be early
        let reduced = bytes_of(6, 1, &[(1, 1, 3, 0, 1)]);
        assert_eq!(check(&reduced, &trace), named(44, 0, 1));
    }

    #[test]
    fn a_late_row() {
        // no core twice: all three are late at 2, row 0 is the lowest
        assert_eq!(example(2, &[0, 0, 0, 0]), named(45, 0, 2));
        // rows 0 and 1 served at once, row 2 not
        assert_eq!(example(2, &[2, 2, 0, 1, 0, 0]), named(45, 2, 2));
        // a quantum in the last slot is in time
        assert_eq!(example(2, &[2, 2, 0, 1, 1, 1, 2]), named(0, 0, 0));
        // 45 before what is wrong after it, and before 46
        assert_eq!(example(3, &[0, 0, 0, 0, 9]), named(45, 0, 2));
        assert_eq!(example(2, &[0, 0, 0, 0, 9]), named(45, 0, 2));
        // 44 before 45 of the same slot: row 1 (phase 9) is early, row 0 late at 2
        let table = bytes_of(6, 1, &[(1, 1, 2, 0, 0), (2, 1, 3, 9, 0)]);
        let trace = [2, 0, 0, 0, 0, 0, 1, 1, 1];
        assert_eq!(check(&table, &trace), named(44, 1, 1));
        let trace = [2, 0, 0, 0, 0, 0, 1, 0];
        assert_eq!(check(&table, &trace), named(45, 0, 2));
    }

    // ---- whole-core rows (02, Six) ----

    /// The answer for a table by (e, p, f, kind) and the records of so many slots.
    fn checked(cores: u8, rows: &[(u16, u16, u16, u8)], records: &[&[u8]]) -> Answer {
        let table = write(&value_of(30, cores, rows));
        let mut trace = (records.len() as u32).to_le_bytes().to_vec();
        trace.extend(records.concat());
        let answer = check(&table, &trace);
        assert!(well_formed(&table, &trace));
        assert_eq!(within_shares(&table, &trace), answer.number == 0);
        answer
    }

    #[test]
    fn a_whole_core_row_with_a_quantum_in_each_slot_passes() {
        let (one, none): (&[u8], &[u8]) = (&[1, 1, 0], &[1, 0]);
        for kind in 0..2 {
            for p in [1, 2, 3] {
                let row = [(p, p, 0, kind)];
                assert_eq!(checked(1, &row, &[]), named(0, 0, 0));
                assert_eq!(checked(1, &row, &[one; 7]), named(0, 0, 0));
                // a missed slot is late at once, whether a core was free or not
                assert_eq!(checked(1, &row, &[none]), named(45, 0, 1));
                assert_eq!(checked(1, &row, &[&[0, 0]]), named(45, 0, 1));
                assert_eq!(checked(1, &row, &[one, one, none, one]), named(45, 0, 3));
                assert_eq!(checked(1, &row, &[one, one, one, none]), named(45, 0, 4));
            }
        }
    }

    #[test]
    fn a_whole_core_row_with_a_phase() {
        let (one, none): (&[u8], &[u8]) = (&[1, 1, 0], &[1, 0]);
        for kind in 0..2 {
            // from 2 on: slots 0 and 1 are too early
            let row = [(5, 5, 2, kind)];
            assert_eq!(checked(1, &row, &[none, none, one, one]), named(0, 0, 0));
            assert_eq!(checked(1, &row, &[one]), named(44, 0, 0));
            assert_eq!(checked(1, &row, &[none, one, one]), named(44, 0, 1));
            assert_eq!(checked(1, &row, &[none, none, none]), named(45, 0, 3));
            let missed = [none, none, one, none, one];
            assert_eq!(checked(1, &row, &missed), named(45, 0, 4));
        }
    }

    #[test]
    fn a_whole_core_row_beside_another() {
        // 1/1 and 2/3, whose windows are 0 to 2, 1 to 3 and 3 to 5
        let rows = [(1, 1, 0, 0), (2, 3, 0, 0)];
        let (both, camera, other): (&[u8], &[u8], &[u8]) = (&[2, 2, 0, 1], &[2, 1, 0], &[2, 1, 1]);
        assert_eq!(checked(2, &rows, &[both, both, camera]), named(0, 0, 0));
        assert_eq!(checked(2, &rows, &[camera, both, both]), named(0, 0, 0));
        // the dispatcher's own choice with one core in slot 1: row 0 is late at 2
        assert_eq!(checked(2, &rows, &[camera, other]), named(45, 0, 2));
        // and the choice it does not make: row 1 is
        assert_eq!(checked(2, &rows, &[camera, camera]), named(45, 1, 2));
        // both miss slot 1: of both the lowest
        assert_eq!(checked(2, &rows, &[camera, &[2, 0]]), named(45, 0, 2));
        // 2/3 too early in slot 2: 44 goes before 45
        assert_eq!(checked(2, &rows, &[both, both, other]), named(44, 1, 2));
    }

    #[test]
    fn whole_core_tables_that_are_refused() {
        let trace = [1, 0, 0, 0, 1, 1, 0];
        let number = |cores, rows: &[(u16, u16, u16, u16, u8)]| {
            check(&bytes_of(1, cores, rows), &trace).number
        };
        assert_eq!(number(1, &[(0, 1, 1, 0, 0)]), 0);
        assert_eq!(number(1, &[(0, 2, 1, 0, 0)]), 18);
        assert_eq!(number(1, &[(0, 1, 0, 0, 0)]), 18);
        assert_eq!(number(1, &[(0, 0, 0, 0, 0)]), 17);
        assert_eq!(number(1, &[(0, 1, 1, 0, 0), (1, 1, 1, 0, 0)]), 22);
        // the second row of two is not named and is late at 1
        assert_eq!(number(2, &[(0, 1, 1, 0, 0), (1, 1, 1, 0, 0)]), 45);
    }

    /// A row gets at most one quantum a slot, so that a whole-core row is never ahead in a trace.
    #[test]
    fn plain_and_early_release_are_the_same_with_e_equal_to_p() {
        for (p, f) in [(1, 0), (3, 0), (2, 1), (3, 2)] {
            let table = |kind| write(&value_of(6, 2, &[(p, p, f, kind), (1, 2, 0, 0)]));
            for trace in all_traces(2, 2, 5) {
                assert_eq!(check(&table(0), &trace), check(&table(1), &trace));
            }
        }
    }

    #[test]
    fn bytes_after_the_last_record() {
        let mut more = TRACE.to_vec();
        more.push(0);
        assert_eq!(check(&EXAMPLE, &more), named(46, 0, 0));
        assert!(!well_formed(&EXAMPLE, &more));
        assert!(!within_shares(&EXAMPLE, &more));
        assert_eq!(example(0, &[0]), named(46, 0, 0));
    }

    #[test]
    fn any_origin_may_pick_in_another_order() {
        // the example's choice mirrored: rows 1 and 2 first
        let records = [2, 2, 1, 2, 2, 2, 0, 2, 2, 2, 0, 1];
        assert_eq!(example(3, &records), named(0, 0, 0));
    }

    #[test]
    fn well_formed_leaves_44_and_45_aside_but_nothing_after_them() {
        let formed = |count: u32, records: &[u8]| {
            let mut trace = count.to_le_bytes().to_vec();
            trace.extend_from_slice(records);
            (
                well_formed(&EXAMPLE, &trace),
                within_shares(&EXAMPLE, &trace),
            )
        };
        // late at 2
        assert_eq!(formed(2, &[0, 0, 0, 0]), (true, false));
        // row 0 early in slot 2 (44), the others late
        let early = [1, 1, 0, 1, 1, 0, 1, 1, 0];
        assert_eq!(formed(3, &early), (true, false));
        // the same, and wrong after it: 41, 42, 43, 40, 46
        let after = |bytes: &[u8]| {
            let mut records = early.to_vec();
            records.extend_from_slice(bytes);
            formed(4, &records)
        };
        assert_eq!(after(&[3, 0]), (false, false));
        assert_eq!(after(&[0, 1, 0]), (false, false));
        assert_eq!(after(&[1, 1, 3]), (false, false));
        assert_eq!(after(&[1, 1]), (false, false));
        assert_eq!(after(&[1]), (false, false));
        assert_eq!(after(&[]), (false, false));
        assert_eq!(after(&[1, 0, 0]), (false, false));
        assert_eq!(after(&[1, 0]), (true, false));
        assert_eq!(formed(1_000_000_001, &[]), (false, false));
        assert_eq!(formed(0, &[]), (true, true));
        assert_eq!(formed(1, &[0, 0]), (true, true));
    }

    /// Every trace of so many slots whose records are well formed for M cores and n rows.
    fn all_traces(cores: u8, n: u8, slots: u32) -> Vec<Vec<u8>> {
        let mut records: Vec<Vec<u8>> = Vec::new();
        for set in 0..1u32 << n {
            let rows: Vec<u8> = (0..n).filter(|row| set >> row & 1 == 1).collect();
            if rows.len() <= usize::from(cores) {
                let mut record = vec![cores, rows.len() as u8];
                record.extend_from_slice(&rows);
                records.push(record);
            }
        }
        let mut traces = vec![slots.to_le_bytes().to_vec()];
        for _ in 0..slots {
            let mut longer = Vec::new();
            for trace in &traces {
                for record in &records {
                    let mut next = trace.clone();
                    next.extend_from_slice(record);
                    longer.push(next);
                }
            }
            traces = longer;
        }
        traces
    }

    #[test]
    fn a_trace_passes_exactly_when_it_is_well_formed_and_within_shares() {
        let tables = [
            value_of(12, 2, &[(1, 2, 0, 0), (2, 3, 0, 0)]),
            value_of(12, 2, &[(2, 4, 1, 1), (3, 4, 0, 1)]),
            value_of(12, 1, &[(2, 6, 0, 1), (1, 3, 2, 0)]),
            value_of(12, 2, &[(2, 4, 0, 0), (2, 4, 0, 1)]),
            value_of(12, 2, &[(1, 1, 0, 0), (2, 3, 0, 0)]),
            value_of(12, 2, &[(3, 3, 2, 1), (4, 4, 1, 0)]),
        ];
        for table in tables {
            let bytes = write(&table);
            let mut passed = 0;
            for trace in all_traces(table.cores, table.count, 6) {
                assert!(well_formed(&bytes, &trace));
                let passes = check(&bytes, &trace).number == 0;
                assert_eq!(passes, within_shares(&bytes, &trace));
                passed += u32::from(passes);
            }
            assert!(passed > 0);
        }
    }

    #[test]
    fn the_dispatcher_s_trace_gets_the_dispatcher_s_answer() {
        let mut chance = Chance(0xA5A5_1234_0F0F_9876);
        let (mut good, mut lates) = (0, 0);
        for _ in 0..200 {
            let table = table_by_chance(&mut chance);
            let bytes = write(&table);
            let mut state = fresh(table);
            let mut records = Vec::new();
            let mut named_in_records = [0u64; 32];
            let mut last = named(0, 0, 0);
            let always_full = chance.below(2) == 0;
            for _ in 0..table.cycle {
                let k = if always_full || chance.below(4) > 0 {
                    table.cores
                } else {
                    chance.below(u64::from(table.cores) + 1) as u8
                };
                let mut buffer = [0; 10];
                last = slot(&mut state, k, &mut buffer, 0);
                let end = 2 + usize::from(buffer[1]);
                for &row in &buffer[2..end] {
                    named_in_records[usize::from(row)] += 1;
                }
                records.extend_from_slice(&buffer[..end]);
                if last.number != 0 {
                    break;
                }
            }
            // "quanta counts that do not equal the records naming the row" are shut out
            assert_eq!(state.quanta, named_in_records);
            let mut trace = (state.time as u32).to_le_bytes().to_vec();
            trace.extend_from_slice(&records);
            let expected = match last.number {
                0 => named(0, 0, 0),
                _ => named(45, last.row, last.time),
            };
            assert_eq!(check(&bytes, &trace), expected);
            assert!(well_formed(&bytes, &trace));
            assert_eq!(within_shares(&bytes, &trace), last.number == 0);
            if last.number == 0 {
                good += 1;
            } else {
                lates += 1;
            }
        }
        assert!(good > 20 && lates > 20);
    }

    #[test]
    fn wild_bytes() {
        let mut chance = Chance(77);
        for _ in 0..20_000 {
            let mut trace: Vec<u8> = vec![chance.below(4) as u8, 0, 0, 0];
            for _ in 0..chance.below(14) {
                let limit = if chance.below(10) == 0 { 256 } else { 3 };
                trace.push(chance.below(limit) as u8);
            }
            let answer = check(&EXAMPLE, &trace).number;
            let formed = well_formed(&EXAMPLE, &trace);
            let shares = within_shares(&EXAMPLE, &trace);
            assert_eq!(answer == 0, formed && shares);
            if answer != 0 && answer != 44 && answer != 45 {
                assert!(!formed);
            }
        }
    }
}
