//! Finding a tank's count quickly: the summary that is kept beside a trace. After 02, Ten.
//!
//! "Keep a summary beside the trace, one entry for time 0 and for each multiple of 1,024 up to the
//! slot count: the place where the next record begins, and the quanta of each row before it. A
//! question for row and time counts on from the last entry at or before that time. A separate check
//! says yes exactly if the summary is the one a well-formed trace yields; with such a summary the
//! answer is what counting from slot 0 gives."
//!
//! And the probe's protocol, of the bytes: "A summary is entries of 136 bytes, entry x at byte
//! 136·x: the place (8), 32 counts (4 each)." Little-endian.
//!
//! The question reads one entry and at most 1,023 records. Whatever else needs a count here counts
//! from slot 0, each time anew. Adding a slot is in `adding`.

use crate::checker;
use crate::table;

/// "for each multiple of 1,024"
pub(crate) const SLOTS_TO_AN_ENTRY: u64 = 1_024;

/// "entries of 136 bytes"
pub(crate) const ENTRY_BYTES: u64 = 136;

/// "the place where the next record begins, and the quanta of each row before it"
#[derive(Clone, Copy, PartialEq, Eq, Debug)]
pub struct Entry {
    /// Counted from the front of the trace, the 4 bytes of its count included.
    pub place: u64,
    /// Of each number below 32, also of those that are no row of the table.
    pub counts: [u32; 32],
}

impl Entry {
    /// "the place (8), 32 counts (4 each)", little-endian.
    pub fn bytes(&self) -> [u8; 136] {
        let mut bytes = [0; 136];
        bytes[..8].copy_from_slice(&self.place.to_le_bytes());
        for (row, count) in self.counts.iter().enumerate() {
            let at = 8 + 4 * row;
            bytes[at..at + 4].copy_from_slice(&count.to_le_bytes());
        }
        bytes
    }
}

/// Entry x of a summary, if all its bytes are there: "entry x at byte 136·x".
pub fn entry(summary: &[u8], x: u64) -> Option<Entry> {
    let whole_entries = summary.len() as u64 / ENTRY_BYTES;
    if x >= whole_entries {
        return None;
    }
    let begin = (ENTRY_BYTES * x) as usize;
    let bytes = &summary[begin..begin + 136];
    let mut place = [0; 8];
    place.copy_from_slice(&bytes[..8]);
    let mut counts = [0; 32];
    for (row, count) in counts.iter_mut().enumerate() {
        let at = 8 + 4 * row;
        *count = u32::from_le_bytes([bytes[at], bytes[at + 1], bytes[at + 2], bytes[at + 3]]);
    }
    Some(Entry {
        place: u64::from_le_bytes(place),
        counts,
    })
}

// ---- counting ----

/// The slot count of a trace, None if its 4 bytes are not there. Any number may stand there.
pub(crate) fn slot_count(trace: &[u8]) -> Option<u64> {
    if trace.len() < 4 {
        return None;
    }
    let count = u32::from_le_bytes([trace[0], trace[1], trace[2], trace[3]]);
    Some(u64::from(count))
}

/// What begins at a place of the trace, read as a record: its row numbers, and the place after it.
/// None if it is not wholly inside the trace. Its contents are not judged.
fn record_at(trace: &[u8], place: u64) -> Option<(&[u8], u64)> {
    if place > trace.len() as u64 {
        return None;
    }
    let after = &trace[place as usize..];
    if after.len() < 2 {
        return None;
    }
    let length = 2 + usize::from(after[1]);
    if after.len() < length {
        return None;
    }
    Some((&after[2..length], place + length as u64))
}

/// The entry for a time, counted from slot 0: where the record of the slot of this number begins,
/// or would begin, and in how many records before it each number below 32 is named. "A record that
/// names the row more than once counts once." None if one of those records is not wholly inside
/// the trace; how many slots the trace counts is not asked.
pub fn counted(trace: &[u8], time: u64) -> Option<Entry> {
    let mut found = Entry {
        place: 4,
        counts: [0; 32],
    };
    for _ in 0..time {
        let (rows, after) = record_at(trace, found.place)?;
        for (at, &row) in rows.iter().enumerate() {
            let named_before = rows[..at].contains(&row);
            if row < 32 && counts_here(named_before) {
                found.counts[usize::from(row)] += 1;
            }
        }
        found.place = after;
    }
    Some(found)
}

/// Does it count that a row is named, where the same record may have named it before?
fn counts_here(named_before: bool) -> bool {
    // slip: each time counts
    if cfg!(slip = "named_twice_counts_twice") {
        return true;
    }
    !named_before
}

// ---- the question ----

/// What the question for row and time is answered, as the probe's protocol has it for `Q`.
#[derive(Clone, Copy, PartialEq, Eq, Debug)]
pub struct CountAnswer {
    /// 0, "done", or the refusal: 36, 38 or 39
    pub number: u8,
    /// How many quanta the row has before the time; 0 with a refusal.
    pub quanta: u64,
}

impl CountAnswer {
    /// "number (1), quanta (8)", little-endian.
    pub fn bytes(&self) -> [u8; 9] {
        let mut bytes = [0; 9];
        bytes[0] = self.number;
        bytes[1..].copy_from_slice(&self.quanta.to_le_bytes());
        bytes
    }
}

/// "A question for row and time counts on from the last entry at or before that time." Any bytes
/// and numbers may be asked with; whether trace and summary belong together is not judged.
pub fn question(n: u8, row: u8, time: u64, trace: &[u8], summary: &[u8]) -> CountAnswer {
    match quanta_before(n, row, time, trace, summary) {
        Ok(quanta) => CountAnswer { number: 0, quanta },
        Err(number) => CountAnswer { number, quanta: 0 },
    }
}

/// The quanta, or 36, 38 or 39, in this order.
fn quanta_before(n: u8, row: u8, time: u64, trace: &[u8], summary: &[u8]) -> Result<u64, u8> {
    // "36 for a row not below n", and by the probe's protocol "not below 32 where n is above 32"
    if row >= n.min(32) {
        return Err(36);
    }
    // "38 if the count is cut or the time past it"
    let count = slot_count(trace).ok_or(38)?;
    if past(time, count) {
        return Err(38);
    }
    // "the last entry at or before that time": its number, and its own time
    let x = time / SLOTS_TO_AN_ENTRY;
    let entry_time = SLOTS_TO_AN_ENTRY * x;
    // "39 if the entry is missing"
    let entry = entry(summary, x).ok_or(39)?;
    // "its quanta of the row exceed its time"
    let mut quanta = u64::from(entry.counts[counted_at(row)]);
    if quanta > entry_time {
        return Err(39);
    }
    // slip: the place must be inside the trace also where no record is read from it
    if cfg!(slip = "place_always_asked") && entry.place > trace.len() as u64 {
        return Err(39);
    }
    // "or a record from its place up to the time is not inside the trace". "At a multiple of 1,024
    // no record is read."
    let mut place = entry.place;
    for _ in entry_time..time {
        let (rows, after) = record_at(trace, place).ok_or(39)?;
        quanta += quanta_of(row, rows);
        place = after;
    }
    Ok(quanta)
}

/// Is the time past the slot count? The count itself is the end of the last slot, and is not.
fn past(time: u64, count: u64) -> bool {
    // slip: a time equal to the count is refused
    if cfg!(slip = "time_at_count_refused") {
        return time >= count;
    }
    time > count
}

/// At which of an entry's 32 counts the row's own stands.
fn counted_at(row: u8) -> usize {
    // slip: the next row's; row 31 has none after it
    if cfg!(slip = "next_row_of_entry") {
        return usize::from(row + 1).min(31);
    }
    usize::from(row)
}

/// The quanta that a record gives a row: "A record that names the row more than once counts once."
fn quanta_of(row: u8, rows: &[u8]) -> u64 {
    // slip: each time counts
    if cfg!(slip = "named_twice_counts_twice") {
        return rows.iter().filter(|&&named| named == row).count() as u64;
    }
    u64::from(rows.contains(&row))
}

// ---- the summary that a trace yields ----

/// "one entry for time 0 and for each multiple of 1,024 up to the slot count", the count itself
/// among them.
pub fn entries(count: u64) -> u64 {
    // slip: only those below the count
    if cfg!(slip = "entry_too_few") {
        return 1 + count.saturating_sub(1) / SLOTS_TO_AN_ENTRY;
    }
    1 + count / SLOTS_TO_AN_ENTRY
}

/// The bytes of the summary that the trace yields, for a table that is taken; None if the trace is
/// not well formed for it. Each entry is counted from slot 0.
fn yielded(table: &[u8], trace: &[u8]) -> Option<Vec<u8>> {
    if !checker::well_formed(table, trace) {
        return None;
    }
    let count = slot_count(trace)?;
    let mut summary = Vec::new();
    for x in 0..entries(count) {
        let entry = counted(trace, SLOTS_TO_AN_ENTRY * x)?;
        summary.extend_from_slice(&entry.bytes());
    }
    Some(summary)
}

/// What the check of a summary answers, as the probe's protocol has it for `U`.
#[derive(Clone, Copy, PartialEq, Eq, Debug)]
pub struct SummaryCheck {
    /// "number of the table": 0, or 10 to 22
    pub table: u8,
    /// Is the summary the one that the trace yields? Never with a refused table.
    pub right: bool,
}

impl SummaryCheck {
    /// "number of the table (1), 1 if the summary is right, else 0 (1)"
    pub fn bytes(&self) -> [u8; 2] {
        [self.table, u8::from(self.right)]
    }
}

/// "A separate check says yes exactly if the summary is the one a well-formed trace yields". By the
/// probe's protocol "0 with a refused table, a trace not well formed, or a length that is not 136 ·
/// entries".
pub fn check_summary(table: &[u8], trace: &[u8], summary: &[u8]) -> SummaryCheck {
    match table::read(table) {
        Err(number) => SummaryCheck {
            table: number,
            right: false,
        },
        Ok(_) => SummaryCheck {
            table: 0,
            right: yielded(table, trace).map_or(false, |expected| summary == &expected[..]),
        },
    }
}

/// What building a summary answers beside the buffer, as the probe's protocol has it for `B`.
#[derive(Clone, Copy, PartialEq, Eq, Debug)]
pub struct BuildAnswer {
    /// "number of the table": 0, or 10 to 22
    pub table: u8,
    /// "0 built, 1 trace not well formed, 2 no room"; 0 too with a refused table
    pub outcome: u8,
    /// How many entries were written; 0 if it was not built.
    pub entries: u32,
}

impl BuildAnswer {
    /// "number of the table (1), 0 built, 1 trace not well formed, 2 no room (1), entries (4)",
    /// little-endian.
    pub fn bytes(&self) -> [u8; 6] {
        let entries = self.entries.to_le_bytes();
        [
            self.table,
            self.outcome,
            entries[0],
            entries[1],
            entries[2],
            entries[3],
        ]
    }
}

/// Writes the summary that the trace yields to the front of the buffer. "with a refused table the
/// second byte and the entries are 0 ...; 1 goes before 2; with 1 and 2 entries are 0 and the
/// buffer as it came; bytes past the entries stay."
pub fn build(table: &[u8], trace: &[u8], buffer: &mut [u8]) -> BuildAnswer {
    let not_built = |table, outcome| BuildAnswer {
        table,
        outcome,
        entries: 0,
    };
    if let Err(number) = table::read(table) {
        return not_built(number, 0);
    }
    let summary = match yielded(table, trace) {
        Some(summary) => summary,
        None => return not_built(0, 1),
    };
    if buffer.len() < summary.len() {
        return not_built(0, 2);
    }
    buffer[..summary.len()].copy_from_slice(&summary);
    BuildAnswer {
        table: 0,
        outcome: 0,
        entries: (summary.len() as u64 / ENTRY_BYTES) as u32,
    }
}

#[cfg(test)]
pub(crate) mod tests {
    use super::*;
    use crate::never_late::Chance;
    use crate::slot::tests::table_by_chance;
    use crate::table::tests::{bytes_of, in_format, value_of, EXAMPLE};
    use crate::table::write;
    use crate::trace;

    const TRACE: [u8; 16] = [3, 0, 0, 0, 2, 2, 0, 1, 2, 2, 0, 2, 2, 2, 1, 2];

    /// The bytes of a number, the low one first.
    fn low_first(mut number: u64, length: usize) -> Vec<u8> {
        let mut bytes = Vec::new();
        for _ in 0..length {
            bytes.push((number % 256) as u8);
            number /= 256;
        }
        bytes
    }

    /// An entry's bytes by its place and the first of its counts; the others are 0.
    pub(crate) fn entry_of(place: u64, counts: &[u64]) -> Vec<u8> {
        let mut bytes = low_first(place, 8);
        for row in 0..32 {
            let count = counts.get(row).copied().unwrap_or(0);
            bytes.extend(low_first(count, 4));
        }
        bytes
    }

    /// A trace of so many slots, whose records come again and again in this order.
    pub(crate) fn cycling(records: &[&[u8]], slots: u32) -> Vec<u8> {
        let mut trace = low_first(u64::from(slots), 4);
        for slot in 0..slots as usize {
            trace.extend_from_slice(records[slot % records.len()]);
        }
        trace
    }

    /// The example's records again and again: 4 bytes each, and in three slots two quanta a row.
    pub(crate) fn example_of(slots: u32) -> Vec<u8> {
        cycling(&[&[2, 2, 0, 1], &[2, 2, 0, 2], &[2, 2, 1, 2]], slots)
    }

    /// What the example's trace yields, by hand: at 1,024 = 3·341 + 1 row 0 and row 1 have 683 and
    /// row 2 has 682; at 2,048 = 3·682 + 2 row 0 has 1,366 and the others have 1,365.
    fn summary_of(entries: usize) -> Vec<u8> {
        let all = [
            entry_of(4, &[]),
            entry_of(4 + 4 * 1_024, &[683, 683, 682]),
            entry_of(4 + 4 * 2_048, &[1_366, 1_365, 1_365]),
        ];
        all[..entries].concat()
    }

    fn counts(quanta: u64) -> CountAnswer {
        CountAnswer { number: 0, quanta }
    }

    fn refused(number: u8) -> CountAnswer {
        CountAnswer { number, quanta: 0 }
    }

    fn is_right(table: &[u8], trace: &[u8], summary: &[u8]) -> bool {
        let answer = check_summary(table, trace, summary);
        assert_eq!(answer.table, 0);
        answer.right
    }

    /// The answer with a buffer of so many bytes EE, and the buffer after it.
    fn built_in(table: &[u8], trace: &[u8], length: usize) -> (BuildAnswer, Vec<u8>) {
        let mut buffer = vec![0xEE; length];
        let answer = build(table, trace, &mut buffer);
        (answer, buffer)
    }

    fn built(entries: u32) -> BuildAnswer {
        BuildAnswer {
            table: 0,
            outcome: 0,
            entries,
        }
    }

    fn not_built(table: u8, outcome: u8) -> BuildAnswer {
        BuildAnswer {
            table,
            outcome,
            entries: 0,
        }
    }

    // ---- the bytes of an entry ----

    #[test]
    fn an_entry_in_bytes() {
        let mut counts = [0; 32];
        counts[0] = 1;
        counts[1] = 0x0102_0304;
        counts[31] = 0xFFFF_FFFE;
        let place = 0x1122_3344_5566_7788;
        let bytes = Entry { place, counts }.bytes();
        assert_eq!(bytes.len(), 136);
        let front = [0x88, 0x77, 0x66, 0x55, 0x44, 0x33, 0x22, 0x11];
        assert_eq!(bytes[..8], front);
        assert_eq!(bytes[8..16], [1, 0, 0, 0, 4, 3, 2, 1]);
        assert!(bytes[16..132].iter().all(|&byte| byte == 0));
        assert_eq!(bytes[132..], [0xFE, 0xFF, 0xFF, 0xFF]);
        assert_eq!(entry(&bytes, 0), Some(Entry { place, counts }));
    }

    #[test]
    fn an_entry_is_there_with_all_its_bytes() {
        let summary = summary_of(3);
        for length in 0..=summary.len() {
            let cut = &summary[..length];
            for x in 0..5 {
                let there = length as u64 >= 136 * (x + 1);
                assert_eq!(entry(cut, x).is_some(), there, "{} of {}", x, length);
            }
        }
        let second = entry(&summary, 1).unwrap();
        assert_eq!(second.place, 4_100);
        assert_eq!(second.counts[..4], [683, 683, 682, 0]);
        // 136·x is past 2^64
        let past = [u64::MAX / 136, u64::MAX / 136 + 1, 1 << 61, u64::MAX];
        for x in past {
            assert_eq!(entry(&summary, x), None);
        }
    }

    // ---- counting from slot 0 ----

    #[test]
    fn the_example_counted_from_slot_0() {
        let at = |time| {
            let entry = counted(&TRACE, time).unwrap();
            assert!(entry.counts[3..].iter().all(|&count| count == 0));
            (entry.place, [0, 1, 2].map(|row: usize| entry.counts[row]))
        };
        assert_eq!(at(0), (4, [0, 0, 0]));
        assert_eq!(at(1), (8, [1, 1, 0]));
        assert_eq!(at(2), (12, [2, 1, 1]));
        assert_eq!(at(3), (16, [2, 2, 2]));
        // no record more is there, whatever the count says
        for time in [4, 1_024, u64::MAX] {
            assert_eq!(counted(&TRACE, time), None);
        }
        for length in 0..16 {
            assert_eq!(counted(&TRACE[..length], 3), None);
        }
        let no_slot = [0, 0, 0, 0, 2, 2, 0, 1];
        assert_eq!(counted(&no_slot, 1).map(|entry| entry.place), Some(8));
        // without a record there is nothing to read, count bytes or not
        assert_eq!(counted(&[], 0).map(|entry| entry.place), Some(4));
        assert_eq!(counted(&[], 1), None);
    }

    #[test]
    fn a_row_named_more_than_once_in_a_record_counts_once() {
        let trace = [2, 0, 0, 0, 9, 5, 1, 1, 0, 1, 31, 0, 4, 32, 255, 1, 32];
        let entry = counted(&trace, 2).unwrap();
        assert_eq!(entry.place, 17);
        assert_eq!((entry.counts[0], entry.counts[1]), (1, 2));
        assert_eq!(entry.counts[31], 1);
        assert_eq!(entry.counts.iter().sum::<u32>(), 4);
    }

    // ---- how many entries ----

    #[test]
    fn one_entry_for_time_0_and_for_each_multiple_up_to_the_count() {
        for (count, expected) in [
            (0, 1),
            (1, 1),
            (1_023, 1),
            (1_024, 2),
            (1_025, 2),
            (2_047, 2),
            (2_048, 3),
            (2_049, 3),
            // 1,000,000,000 = 1,024·976,562 + 512
            (999_999_487, 976_562),
            (999_999_488, 976_563),
            (1_000_000_000, 976_563),
            (4_294_967_295, 4_194_304),
        ] {
            assert_eq!(entries(count), expected, "count {}", count);
        }
    }

    // ---- building ----

    #[test]
    fn the_summary_of_the_example() {
        let (answer, buffer) = built_in(&EXAMPLE, &TRACE, 136);
        assert_eq!(answer, built(1));
        let mut expected = [0; 136];
        expected[0] = 4;
        assert_eq!(buffer, expected);
        assert!(is_right(&EXAMPLE, &TRACE, &expected));
        // of no slot it is the same
        let (answer, buffer) = built_in(&EXAMPLE, &[0, 0, 0, 0], 136);
        assert_eq!((answer, &buffer[..]), (built(1), &expected[..]));
    }

    #[test]
    fn summaries_about_the_multiples_of_1_024() {
        for (slots, entries) in [
            (0, 1),
            (1, 1),
            (1_022, 1),
            (1_023, 1),
            (1_024, 2),
            (1_025, 2),
            (2_047, 2),
            (2_048, 3),
            (2_049, 3),
        ] {
            let trace = example_of(slots);
            let expected = summary_of(entries);
            let (answer, buffer) = built_in(&EXAMPLE, &trace, 136 * entries);
            assert_eq!(answer, built(entries as u32), "{} slots", slots);
            assert_eq!(buffer, expected, "{} slots", slots);
            // an entry too few, as many as there are, one too many
            for given in 1..=3 {
                let right = is_right(&EXAMPLE, &trace, &summary_of(given));
                assert_eq!(right, given == entries, "{} slots, {}", slots, given);
            }
            assert!(!is_right(&EXAMPLE, &trace, &[]));
        }
    }

    #[test]
    fn the_last_of_32_rows_and_records_of_every_length() {
        // 32 rows of 1/32 on eight cores; 2, 10 and 3 bytes, row 31 in two of three records
        let table = write(&value_of(32, 8, &[(1, 32, 0, 0); 32]));
        let records: [&[u8]; 3] = [&[8, 0], &[8, 8, 0, 1, 2, 3, 4, 5, 30, 31], &[1, 1, 31]];
        let trace = cycling(&records, 1_024);
        // 341 whole rounds and [8, 0]
        let mut named = [0; 32];
        for row in [0, 1, 2, 3, 4, 5, 30] {
            named[row] = 341;
        }
        named[31] = 682;
        let expected = [entry_of(4, &[]), entry_of(4 + 341 * 15 + 2, &named)].concat();
        let (answer, buffer) = built_in(&table, &trace, 300);
        assert_eq!(answer, built(2));
        assert_eq!(buffer[..272], expected[..]);
        assert_eq!(buffer[272..], [0xEE; 28]);
        assert!(is_right(&table, &trace, &expected));
        assert_eq!(question(32, 31, 1_024, &trace, &expected), counts(682));
        assert_eq!(question(32, 31, 1_023, &trace, &expected), counts(682));
        assert_eq!(question(32, 31, 1_022, &trace, &expected), counts(681));
    }

    #[test]
    fn room_for_exactly_the_entries() {
        let trace = example_of(2_048);
        for length in [0, 1, 135, 136, 272, 407] {
            let (answer, buffer) = built_in(&EXAMPLE, &trace, length);
            assert_eq!(answer, not_built(0, 2), "length {}", length);
            assert_eq!(buffer, vec![0xEE; length]);
        }
        for length in [408, 409, 543, 544] {
            let (answer, buffer) = built_in(&EXAMPLE, &trace, length);
            assert_eq!(answer, built(3), "length {}", length);
            assert_eq!(buffer[..408], summary_of(3)[..]);
            assert!(buffer[408..].iter().all(|&byte| byte == 0xEE));
        }
    }

    /// Traces that the example table does not take: each cause of 40 to 43, 46 and 47.
    fn not_well_formed() -> Vec<Vec<u8>> {
        let mut traces: Vec<Vec<u8>> = (0..16).map(|length| TRACE[..length].to_vec()).collect();
        // k above M, c above k, a row not below n, rows not rising, a byte more
        for (at, byte) in [(4, 3), (4, 1), (7, 3), (7, 0), (6, 1)] {
            let mut trace = TRACE.to_vec();
            trace[at] = byte;
            traces.push(trace);
        }
        traces.push([&TRACE[..], &[0]].concat());
        for count in [2, 4, 1_000_000_000, 1_000_000_001, 4_294_967_295] {
            traces.push([&low_first(count, 4)[..], &TRACE[4..]].concat());
        }
        traces
    }

    #[test]
    fn a_trace_that_is_not_well_formed_has_no_summary() {
        for trace in not_well_formed() {
            assert!(!checker::well_formed(&EXAMPLE, &trace));
            for entries in 1..=3 {
                assert!(!is_right(&EXAMPLE, &trace, &summary_of(entries)));
            }
            assert!(!is_right(&EXAMPLE, &trace, &[]));
            // 1 goes before 2
            for length in [0, 135, 136, 1_000] {
                let (answer, buffer) = built_in(&EXAMPLE, &trace, length);
                assert_eq!(answer, not_built(0, 1));
                assert_eq!(buffer, vec![0xEE; length]);
            }
        }
    }

    #[test]
    fn too_early_and_late_are_left_aside() {
        // no core in any slot: every row is late from 2 on; row 0 in each slot: too early in 2
        for (records, row_0) in [([0u8, 0].to_vec(), 0), ([2, 1, 0].to_vec(), 1_024)] {
            let trace = cycling(&[&records], 1_024);
            assert!(matches!(checker::check(&EXAMPLE, &trace).number, 44 | 45));
            let place = 4 + 1_024 * records.len() as u64;
            let expected = [entry_of(4, &[]), entry_of(place, &[row_0])].concat();
            assert!(is_right(&EXAMPLE, &trace, &expected));
            assert_eq!(
                built_in(&EXAMPLE, &trace, 272),
                (built(2), expected.clone())
            );
            assert_eq!(question(3, 0, 1_024, &trace, &expected), counts(row_0));
        }
    }

    #[test]
    fn a_refused_table() {
        let summary = summary_of(1);
        let tables = [
            (10, EXAMPLE[..35].to_vec()),
            (10, Vec::new()),
            (11, in_format(3, &EXAMPLE)),
            (12, bytes_of(0, 1, &[])),
            (21, [&EXAMPLE[..], &[0]].concat()),
            (22, bytes_of(3, 1, &[(1, 2, 3, 0, 0), (2, 2, 3, 0, 0)])),
        ];
        for (number, table) in tables {
            // before anything of the trace and of the room
            for trace in [&TRACE[..], &TRACE[..3], &[]] {
                let answer = check_summary(&table, trace, &summary);
                assert_eq!(answer.bytes(), [number, 0]);
                for length in [0, 136] {
                    let (answer, buffer) = built_in(&table, trace, length);
                    assert_eq!(answer, not_built(number, 0));
                    assert_eq!(buffer, vec![0xEE; length]);
                }
            }
        }
        // both formats are taken, and a trace yields the same in both
        let kind = in_format(2, &EXAMPLE);
        assert!(is_right(&kind, &TRACE, &summary));
        assert_eq!(built_in(&kind, &TRACE, 136), (built(1), summary));
    }

    // ---- the check ----

    #[test]
    fn every_byte_of_a_summary_is_held_against_the_trace() {
        let trace = example_of(1_030);
        let summary = summary_of(2);
        assert!(is_right(&EXAMPLE, &trace, &summary));
        // also the counts of numbers that are no row, 3 to 31
        for at in 0..summary.len() {
            for change in [1, 128, 255] {
                let mut other = summary.clone();
                other[at] ^= change;
                assert!(!is_right(&EXAMPLE, &trace, &other), "byte {}", at);
            }
        }
    }

    #[test]
    fn a_summary_of_another_length_is_not_right() {
        let trace = example_of(1_030);
        let summary = summary_of(3);
        for length in 0..=summary.len() {
            let right = is_right(&EXAMPLE, &trace, &summary[..length]);
            assert_eq!(right, length == 272, "length {}", length);
        }
        let mut more = summary_of(2);
        more.push(0);
        assert!(!is_right(&EXAMPLE, &trace, &more));
        more.extend([0; 135]);
        assert!(!is_right(&EXAMPLE, &trace, &more));
    }

    #[test]
    fn the_same_summary_is_not_right_for_another_trace() {
        // slot 1,023 of the example names rows 0 and 1: 1,023 = 3·341
        let mut trace = example_of(1_030);
        let last_before = 4 + 4 * 1_023;
        assert_eq!(trace[last_before..last_before + 4], [2, 2, 0, 1]);
        trace[last_before + 3] = 2;
        assert!(!is_right(&EXAMPLE, &trace, &summary_of(2)));
        // one slot later it makes no difference to the entries
        let mut trace = example_of(1_030);
        assert_eq!(trace[last_before + 4..last_before + 8], [2, 2, 0, 2]);
        trace[last_before + 6] = 1;
        assert!(is_right(&EXAMPLE, &trace, &summary_of(2)));
    }

    // ---- the question ----

    #[test]
    fn the_example_s_counts() {
        let summary = summary_of(1);
        let of = |row| [0, 1, 2, 3].map(|time| question(3, row, time, &TRACE, &summary));
        assert_eq!(of(0), [0, 1, 2, 2].map(counts));
        assert_eq!(of(1), [0, 1, 1, 2].map(counts));
        assert_eq!(of(2), [0, 0, 1, 2].map(counts));
    }

    #[test]
    fn counts_about_the_multiples_of_1_024() {
        let trace = example_of(2_050);
        let summary = summary_of(3);
        let of = |time| [0, 1, 2].map(|row| question(3, row, time, &trace, &summary));
        // 1,023 = 3·341, then rows 0 and 1, 0 and 2, 1 and 2
        assert_eq!(of(1_023), [682, 682, 682].map(counts));
        assert_eq!(of(1_024), [683, 683, 682].map(counts));
        assert_eq!(of(1_025), [684, 683, 683].map(counts));
        assert_eq!(of(1_026), [684, 684, 684].map(counts));
        // 2,046 = 3·682
        assert_eq!(of(2_046), [1_364, 1_364, 1_364].map(counts));
        assert_eq!(of(2_047), [1_365, 1_365, 1_364].map(counts));
        assert_eq!(of(2_048), [1_366, 1_365, 1_365].map(counts));
        assert_eq!(of(2_049), [1_366, 1_366, 1_366].map(counts));
        assert_eq!(of(2_050), [1_367, 1_367, 1_366].map(counts));
        assert_eq!(of(2_051), [refused(38); 3]);
    }

    #[test]
    fn the_time_at_and_past_the_count() {
        for slots in [0, 1, 3, 1_023, 1_024, 1_025] {
            let trace = example_of(slots);
            let summary = summary_of(3);
            let count = u64::from(slots);
            let at = question(3, 0, count, &trace, &summary);
            assert_eq!(at, counts(2 * (count / 3) + count % 3), "{} slots", slots);
            for time in [count + 1, 1 << 32, u64::MAX - 1, u64::MAX] {
                assert_eq!(question(3, 0, time, &trace, &summary), refused(38));
            }
        }
    }

    #[test]
    fn the_row_is_below_n_and_below_32() {
        let trace = [1, 0, 0, 0, 8, 6, 0, 2, 3, 31, 32, 200];
        let summary = summary_of(1);
        for n in 0..=255u8 {
            for row in 0..=255u8 {
                let expected = if row >= n || row >= 32 {
                    refused(36)
                } else {
                    counts(u64::from([0, 2, 3, 31].contains(&row)))
                };
                let answer = question(n, row, 1, &trace, &summary);
                assert_eq!(answer, expected, "row {} of {}", row, n);
            }
        }
    }

    #[test]
    fn a_count_that_is_cut() {
        let summary = summary_of(1);
        for length in 0..4 {
            for time in [0, 1, u64::MAX] {
                let answer = question(3, 0, time, &TRACE[..length], &summary);
                assert_eq!(answer, refused(38));
            }
        }
        assert_eq!(question(3, 0, 0, &TRACE[..4], &summary), counts(0));
    }

    #[test]
    fn the_first_refusal_in_the_order_36_38_39() {
        assert_eq!(question(3, 3, 9, &[], &[]), refused(36));
        assert_eq!(question(0, 0, 9, &[], &[]), refused(36));
        assert_eq!(question(3, 2, 9, &[], &[]), refused(38));
        assert_eq!(question(3, 2, 4, &TRACE, &[]), refused(38));
        assert_eq!(question(3, 2, 3, &TRACE, &[]), refused(39));
        assert_eq!(question(3, 2, 3, &TRACE, &summary_of(1)), counts(2));
    }

    #[test]
    fn a_missing_entry() {
        let trace = example_of(2_050);
        let summary = summary_of(3);
        for length in 0..=408 {
            let cut = &summary[..length];
            for (time, needed) in [
                (0, 136),
                (1_023, 136),
                (1_024, 272),
                (2_047, 272),
                (2_048, 408),
            ] {
                let answer = question(3, 0, time, &trace, cut);
                let expected = if length < needed {
                    refused(39)
                } else {
                    question(3, 0, time, &trace, &summary)
                };
                assert_eq!(answer, expected, "time {}, length {}", time, length);
                assert_eq!(answer.number == 0, length >= needed);
            }
        }
        // entries that no time needs do no harm, nor does a part of one
        let mut more = summary_of(1);
        more.extend([0xFF; 271]);
        assert_eq!(question(3, 0, 3, &TRACE, &more), counts(2));
    }

    #[test]
    fn a_count_of_the_entry_above_its_time() {
        let trace = example_of(2_050);
        let with = |x: usize, row: usize, count: u64, asked: u8, time: u64| {
            let mut summary = summary_of(3);
            let at = 136 * x + 8 + 4 * row;
            summary[at..at + 4].copy_from_slice(&low_first(count, 4));
            question(3, asked, time, &trace, &summary)
        };
        // at time 0 there is no quantum
        for count in [1, 2, 0x0100_0000, 0xFFFF_FFFF] {
            assert_eq!(with(0, 1, count, 1, 0), refused(39));
            assert_eq!(with(0, 1, count, 1, 1), refused(39));
        }
        assert_eq!(with(0, 1, 0, 1, 1), counts(1));
        // at 1,024 as many as there are slots, though it is not what the trace yields
        assert_eq!(with(1, 1, 1_024, 1, 1_024), counts(1_024));
        assert_eq!(with(1, 1, 1_024, 1, 1_026), counts(1_025));
        for count in [1_025, 0xFFFF_FFFF] {
            assert_eq!(with(1, 1, count, 1, 1_024), refused(39));
            // also where the time asked for is as high
            assert_eq!(with(1, 1, count, 1, 2_047), refused(39));
        }
        assert_eq!(with(2, 1, 2_048, 1, 2_048), counts(2_048));
        assert_eq!(with(2, 1, 2_049, 1, 2_048), refused(39));
        // of another row, and in another entry, it is not asked
        assert_eq!(with(1, 1, 0xFFFF_FFFF, 0, 1_024), counts(683));
        assert_eq!(with(1, 1, 0xFFFF_FFFF, 2, 1_025), counts(683));
        assert_eq!(with(1, 1, 0xFFFF_FFFF, 1, 2_048), counts(1_365));
        assert_eq!(with(1, 1, 0xFFFF_FFFF, 1, 1_023), counts(682));
    }

    #[test]
    fn a_wild_place_at_a_multiple_and_one_past_it() {
        let trace = example_of(1_025);
        let length = trace.len() as u64;
        assert_eq!(length, 4_104);
        let with = |place: u64, time: u64| {
            let summary = [entry_of(place, &[]), entry_of(place, &[683])].concat();
            question(3, 0, time, &trace, &summary)
        };
        let past = [
            length - 1,
            length,
            length + 1,
            1 << 32,
            u64::MAX - 255,
            u64::MAX - 1,
            u64::MAX,
        ];
        for place in past {
            // no record is read
            assert_eq!(with(place, 0), counts(0));
            assert_eq!(with(place, 1_024), counts(683));
            // one is
            assert_eq!(with(place, 1), refused(39));
            assert_eq!(with(place, 1_025), refused(39));
        }
        // the last record, 2 2 0 2, from its front; from the 2 after k, read as k 2 and c 0; and
        // from c on: k 0 and c 2, which has no room
        assert_eq!(with(4_100, 1), counts(1));
        assert_eq!(with(4_100, 1_025), counts(684));
        assert_eq!(with(4_101, 1), counts(0));
        assert_eq!(with(4_102, 1), refused(39));
        // the one before it, 2 2 0 1, and both
        assert_eq!(with(4_096, 1), counts(1));
        assert_eq!(with(4_096, 2), counts(2));
        assert_eq!(with(4_096, 3), refused(39));
    }

    #[test]
    fn a_place_in_the_bytes_of_the_count() {
        // 3 0 and 0 0, then the first record
        let with =
            |place| [1, 2, 3].map(|time| question(3, 0, time, &TRACE, &entry_of(place, &[])));
        assert_eq!(with(0), [0, 0, 1].map(counts));
        // 0 0, then 0 2 with rows 2 and 0, then 1 2 with rows 2 and 0
        assert_eq!(with(1), [0, 1, 2].map(counts));
        // 0 0, then the first two records
        assert_eq!(with(2), [0, 1, 2].map(counts));
        // 0 2 with rows 2 and 0, then 1 2 with rows 2 and 0, then 2 2 with rows 2 and 1
        assert_eq!(with(3), [1, 2, 2].map(counts));
        assert_eq!(with(4), [1, 2, 2].map(counts));
    }

    #[test]
    fn a_trace_that_is_cut_in_a_record() {
        let summary = summary_of(1);
        for length in 4..=16 {
            let cut = &TRACE[..length];
            for time in 0..=3 {
                let answer = question(3, 0, time, cut, &summary);
                let expected = if length as u64 >= 4 + 4 * time {
                    counts([0, 1, 2, 2][time as usize])
                } else {
                    refused(39)
                };
                assert_eq!(answer, expected, "time {}, length {}", time, length);
            }
        }
        // past the count it is 38, cut or not
        assert_eq!(question(3, 0, 4, &TRACE[..9], &summary), refused(38));
    }

    #[test]
    fn contents_are_not_judged_and_bytes_behind_are_not_read() {
        // a count of 2^32 - 1; k 200, c above k, rows falling, row 1 three times; then a byte
        let trace = [255, 255, 255, 255, 200, 5, 9, 1, 1, 0, 1, 0, 0, 7];
        let summary = summary_of(1);
        assert_eq!(question(2, 1, 1, &trace, &summary), counts(1));
        assert_eq!(question(2, 0, 2, &trace, &summary), counts(1));
        assert_eq!(question(10, 9, 2, &trace, &summary), counts(1));
        assert_eq!(question(10, 8, 2, &trace, &summary), counts(0));
        assert_eq!(question(2, 0, 3, &trace, &summary), refused(39));
        assert_eq!(question(2, 0, 1_024, &trace, &summary), refused(39));
        assert_eq!(question(2, 0, 4_294_967_295, &trace, &summary), refused(39));
        assert_eq!(question(2, 0, 4_294_967_296, &trace, &summary), refused(38));
        // the longest record there is names row 31 in its last byte
        let mut trace = vec![1, 0, 0, 0, 0, 255];
        trace.extend([32; 254]);
        assert_eq!(question(32, 31, 1, &trace, &summary), refused(39));
        trace.push(31);
        assert_eq!(question(32, 31, 1, &trace, &summary), counts(1));
    }

    #[test]
    fn far_entries_are_read() {
        // entry 1,000 of 1,001 at time 1,024,000; of the trace the last two records alone are there
        let trace = [&low_first(1_024_002, 4)[..], &[1, 1, 0, 1, 0]].concat();
        let mut summary = vec![0xFF; 136 * 1_000];
        summary.extend(entry_of(4, &[1_024_000, 1_024_001]));
        assert_eq!(
            question(2, 0, 1_024_000, &trace, &summary),
            counts(1_024_000)
        );
        assert_eq!(
            question(2, 0, 1_024_001, &trace, &summary),
            counts(1_024_001)
        );
        assert_eq!(
            question(2, 0, 1_024_002, &trace, &summary),
            counts(1_024_001)
        );
        assert_eq!(question(2, 0, 1_024_003, &trace, &summary), refused(38));
        assert_eq!(question(2, 1, 1_024_000, &trace, &summary), refused(39));
        assert_eq!(question(2, 0, 1_023_999, &trace, &summary), refused(39));
    }

    // ---- the answers in plain numbers ----

    #[test]
    fn the_answers_in_bytes() {
        assert_eq!(refused(36).bytes(), [36, 0, 0, 0, 0, 0, 0, 0, 0]);
        // 1,000,000,000 is 3B9ACA00 in base 16
        let most = counts(1_000_000_000).bytes();
        assert_eq!(most, [0, 0x00, 0xCA, 0x9A, 0x3B, 0, 0, 0, 0]);
        let check = |summary: &[u8]| check_summary(&EXAMPLE, &TRACE, summary).bytes();
        assert_eq!(check(&summary_of(1)), [0, 1]);
        assert_eq!(check(&summary_of(2)), [0, 0]);
        assert_eq!(built(3).bytes(), [0, 0, 3, 0, 0, 0]);
        // 976,563 is 0EE6B3 in base 16
        assert_eq!(built(976_563).bytes(), [0, 0, 0xB3, 0xE6, 0x0E, 0]);
        assert_eq!(not_built(0, 2).bytes(), [0, 2, 0, 0, 0, 0]);
        assert_eq!(not_built(22, 0).bytes(), [22, 0, 0, 0, 0, 0]);
    }

    // ---- against a second way of counting, by chance ----

    /// Records by chance that are well formed for M cores and n rows.
    pub(crate) fn records_by_chance(
        chance: &mut Chance,
        cores: u8,
        n: u8,
        slots: usize,
    ) -> Vec<Vec<u8>> {
        let mut records = Vec::new();
        for _ in 0..slots {
            let k = chance.below(u64::from(cores) + 1) as u8;
            let mut rows = Vec::new();
            for row in 0..n {
                if rows.len() < usize::from(k) && chance.below(3) == 0 {
                    rows.push(row);
                }
            }
            let mut record = vec![k, rows.len() as u8];
            record.extend_from_slice(&rows);
            records.push(record);
        }
        records
    }

    /// The entry for a time, from the list of the records.
    pub(crate) fn entry_by_list(records: &[Vec<u8>], time: usize) -> Vec<u8> {
        let before = &records[..time];
        let place = 4 + before.iter().map(Vec::len).sum::<usize>();
        let named = |row: u8| {
            let naming = before.iter().filter(|record| record[2..].contains(&row));
            naming.count() as u64
        };
        let counts: Vec<u64> = (0..32).map(named).collect();
        entry_of(place as u64, &counts)
    }

    /// The summary of these records, from their list.
    pub(crate) fn summary_by_list(records: &[Vec<u8>]) -> Vec<u8> {
        let times = (0..=records.len()).filter(|time| time % 1_024 == 0);
        times
            .flat_map(|time| entry_by_list(records, time))
            .collect()
    }

    pub(crate) fn trace_by_list(records: &[Vec<u8>]) -> Vec<u8> {
        let mut trace = low_first(records.len() as u64, 4);
        trace.extend(records.concat());
        trace
    }

    #[test]
    fn well_formed_traces_by_chance() {
        let mut chance = Chance(0x02_0010);
        for turn in 0..60 {
            let table = table_by_chance(&mut chance);
            let bytes = write(&table);
            let n = table.count;
            let near = [0, 1, 1_023, 1_024, 1_025, 2_047, 2_048, 2_049];
            let slots = match turn % 4 {
                0 => chance.below(2_300) as usize,
                1 => chance.below(30) as usize,
                _ => near[chance.below(8) as usize],
            };
            let records = records_by_chance(&mut chance, table.cores, n, slots);
            let trace = trace_by_list(&records);
            let expected = summary_by_list(&records);
            assert!(is_right(&bytes, &trace, &expected));
            let entries = expected.len() / 136;
            let (answer, buffer) = built_in(&bytes, &trace, expected.len() + 3);
            assert_eq!(answer, built(entries as u32));
            assert_eq!(buffer, [&expected[..], &[0xEE; 3]].concat());
            // "with such a summary the answer is what counting from slot 0 gives"
            for _ in 0..40 {
                let row = chance.below(u64::from(n) + 1) as u8;
                let time = chance.below(slots as u64 + 2);
                let answer = question(n, row, time, &trace, &expected);
                let wanted = if row >= n {
                    refused(36)
                } else if time > slots as u64 {
                    refused(38)
                } else {
                    let before = records[..time as usize].iter();
                    counts(before.filter(|record| record[2..].contains(&row)).count() as u64)
                };
                assert_eq!(answer, wanted);
                if wanted.number == 0 {
                    let entry = counted(&trace, time).unwrap();
                    assert_eq!(u64::from(entry.counts[usize::from(row)]), wanted.quanta);
                    assert_eq!(
                        entry.bytes()[..],
                        entry_by_list(&records, time as usize)[..]
                    );
                }
            }
            // a byte of the summary or of the trace changed: right exactly if it is yielded still
            for _ in 0..10 {
                let (mut trace, mut summary) = (trace.clone(), expected.clone());
                let spoilt = if chance.below(2) == 0 {
                    &mut trace
                } else {
                    &mut summary
                };
                let at = chance.below(spoilt.len() as u64) as usize;
                spoilt[at] = chance.below(4) as u8;
                let mut yields = vec![0; expected.len()];
                let answer = build(&bytes, &trace, &mut yields);
                let formed = checker::well_formed(&bytes, &trace);
                assert_eq!(answer.outcome == 0, formed);
                let right = is_right(&bytes, &trace, &summary);
                assert_eq!(right, formed && yields == summary);
            }
        }
    }

    /// The question in another way: what stands from the entry's place on is put behind the count
    /// of a trace of its own, whose records are asked for one by one.
    fn asked_of_a_trace(n: u8, row: u8, time: u64, trace: &[u8], summary: &[u8]) -> CountAnswer {
        if row >= n || row > 31 {
            return refused(36);
        }
        let count = match trace.get(..4) {
            Some(bytes) => bytes
                .iter()
                .rev()
                .fold(0, |sum, &b| 256 * sum + u64::from(b)),
            None => return refused(38),
        };
        if time > count {
            return refused(38);
        }
        let entry = match summary.chunks_exact(136).nth((time / 1_024) as usize) {
            Some(entry) => entry,
            None => return refused(39),
        };
        let number = |bytes: &[u8]| {
            let sum = bytes
                .iter()
                .rev()
                .fold(0, |sum, &b| 256 * sum + u128::from(b));
            sum as u64
        };
        let mut quanta = number(&entry[8..][4 * usize::from(row)..][..4]);
        if quanta > time - time % 1_024 {
            return refused(39);
        }
        let mut own = vec![255; 4];
        let place = number(&entry[..8]);
        if place < trace.len() as u64 {
            own.extend_from_slice(&trace[place as usize..]);
        }
        for slot in 0..time % 1_024 {
            let (begin, length) = trace::record(&own, slot);
            if length == 0 {
                return refused(39);
            }
            quanta += u64::from(own[begin..begin + length][2..].contains(&row));
        }
        counts(quanta)
    }

    #[test]
    fn wild_questions() {
        let mut chance = Chance(0x02_0011);
        let mut numbers = [0; 40];
        for _ in 0..60_000 {
            let mut trace = low_first(chance.below(9), 4);
            match chance.below(12) {
                0 => trace[chance.below(4) as usize] = chance.below(256) as u8,
                1 => trace.truncate(chance.below(4) as usize),
                2 => trace = low_first(1_020 + chance.below(10), 4),
                3 => trace = vec![255; 4],
                _ => {}
            }
            for _ in 0..chance.below(24) {
                let limit = if chance.below(12) == 0 { 256 } else { 4 };
                trace.push(chance.below(limit) as u8);
            }
            let mut summary = Vec::new();
            for x in 0..chance.below(4) {
                let place = match chance.below(10) {
                    0 => u64::MAX - chance.below(300),
                    1 => trace.len() as u64 + chance.below(3),
                    _ => chance.below(trace.len() as u64 + 1),
                };
                let most = 1_024 * x;
                let mut counts = [0; 32];
                for count in &mut counts {
                    *count = match chance.below(8) {
                        0 => most + chance.below(2),
                        1 => chance.below(1 << 32),
                        _ => chance.below(most + 1),
                    };
                }
                summary.extend(entry_of(place, &counts));
            }
            match chance.below(8) {
                0 => summary.truncate(chance.below(summary.len() as u64 + 1) as usize),
                1 => summary.push(0),
                _ => {}
            }
            let (n, row) = match chance.below(10) {
                0 => (chance.below(256) as u8, chance.below(256) as u8),
                1 => (32, 28 + chance.below(6) as u8),
                _ => (4, chance.below(5) as u8),
            };
            let time = match chance.below(10) {
                0 => u64::MAX - chance.below(2),
                1 => 1_023 + chance.below(3),
                2 => 1_024 * chance.below(5) + chance.below(3),
                _ => chance.below(9),
            };
            let answer = question(n, row, time, &trace, &summary);
            assert_eq!(answer, asked_of_a_trace(n, row, time, &trace, &summary));
            numbers[usize::from(answer.number)] += 1;
        }
        for number in [0, 36, 38, 39] {
            assert!(numbers[number] > 2_000, "{}: {}", number, numbers[number]);
        }
    }

    #[test]
    fn wild_bytes_are_stood() {
        let mut chance = Chance(0x02_0012);
        let mut rights = 0;
        for _ in 0..5_000 {
            let mut trace: Vec<u8> = vec![chance.below(4) as u8, 0, 0, 0];
            for _ in 0..chance.below(12) {
                let limit = if chance.below(12) == 0 { 256 } else { 3 };
                trace.push(chance.below(limit) as u8);
            }
            let mut table = EXAMPLE.to_vec();
            if chance.below(4) == 0 {
                let at = chance.below(36) as usize;
                table[at] = chance.below(256) as u8;
            }
            let number = table::read(&table).err().unwrap_or(0);
            let formed = checker::well_formed(&table, &trace);
            // of so few slots it is always the same
            let answer = check_summary(&table, &trace, &summary_of(1));
            assert_eq!((answer.table, answer.right), (number, formed));
            let length = 130 + chance.below(12) as usize;
            let (answer, buffer) = built_in(&table, &trace, length);
            let (expected, written) = if number != 0 {
                (not_built(number, 0), 0)
            } else if !formed {
                (not_built(0, 1), 0)
            } else if length < 136 {
                (not_built(0, 2), 0)
            } else {
                (built(1), 136)
            };
            assert_eq!(answer, expected);
            assert_eq!(buffer[..written], summary_of(1)[..written]);
            assert!(buffer[written..].iter().all(|&byte| byte == 0xEE));
            rights += u32::from(answer.outcome == 0 && answer.table == 0);
        }
        assert!(rights > 50, "{}", rights);
    }
}
