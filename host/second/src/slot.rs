//! Who is ready, who goes first, and the dispatcher that makes one slot's choice.

use crate::cores::{self, Placement};
use crate::share;
use crate::table::{self, Row, Table};
use crate::windows;
use std::cmp::Ordering;

pub use crate::cores::first_cores;

/// The last time a state can have. 01 has "32: time is already 1,000,000,000"; 02, Seven: "The time
/// limit rises to 1,000,000,000,000". slip: the old limit
pub const LAST_TIME: u64 = if cfg!(slip = "old_time_limit") {
    1_000_000_000
} else {
    1_000_000_000_000
};

/// "The dispatcher's state holds the table, the time, a stopped mark and the quanta given to
/// each row." And 02, One: "The state remembers which row ran on which core in the last slot". The
/// same memory serves 02, Eight: "The state remembers the last slot's rows".
#[derive(Clone, Copy, PartialEq, Eq, Debug)]
pub struct State {
    pub table: Table,
    pub time: u64,
    pub stopped: bool,
    pub quanta: [u64; 32],
    pub last: Placement,
}

/// The answer of a slot and of the checker: "row and time are 0 except with 1, 44 and 45".
#[derive(Clone, Copy, PartialEq, Eq, Debug)]
pub struct Answer {
    pub number: u8,
    pub row: u8,
    pub time: u64,
}

impl Answer {
    /// An answer that names neither row nor time.
    pub fn plain(number: u8) -> Answer {
        Answer {
            number,
            row: 0,
            time: 0,
        }
    }
}

/// "A fresh state can be made from any table value: time 0, not stopped, all quanta 0". And of what
/// is remembered of the last slot 02, One: "fresh, none", and 02, Eight: "fresh, there are none".
pub fn fresh(table: Table) -> State {
    State {
        table,
        time: 0,
        stopped: false,
        quanta: [0; 32],
        last: Placement::nobody(),
    }
}

// ---- who is ready, who is late ----

/// "Subtask i is next when i-1 quanta have been given."
pub(crate) fn next_subtask(quanta: u64) -> u64 {
    quanta.saturating_add(1)
}

/// Is the row ready in slot t?
pub fn ready(row: &Row, quanta: u64, time: u64) -> bool {
    u128::from(time) >= ready_from(row, quanta)
}

/// The slot from which on the row is ready, while no quantum more is given to it.
pub(crate) fn ready_from(row: &Row, quanta: u64) -> u128 {
    let i = next_subtask(quanta);
    let phase = u64::from(row.phase);
    if row.early_release() {
        // "An early-release row is ready if t is at or past the start of the job that holds it"
        windows::job_start(row.cost, row.period, phase, i)
    } else {
        // "A plain row is ready in slot t if t is at or past r of its next subtask."
        windows::start(row.cost, row.period, phase, i)
    }
}

/// "A row is late at time t if its next subtask has d at or before t."
pub fn late(row: &Row, quanta: u64, time: u64) -> bool {
    let i = next_subtask(quanta);
    let d = windows::deadline(row.cost, row.period, u64::from(row.phase), i);
    d <= u128::from(time)
}

/// The lowest late row at a time, of the rows 0 to n-1.
pub fn lowest_late(table: &Table, quanta: &[u64; 32], time: u64) -> Option<u8> {
    for (number, row) in table.named_rows().iter().enumerate() {
        if late(row, quanta[number], time) {
            return Some(number as u8);
        }
    }
    None
}

/// slip: the lowest late row of those that were picked (row numbers, rising)
#[cfg(slip = "late_only_if_picked")]
pub fn lowest_late_picked(
    table: &Table,
    quanta: &[u64; 32],
    time: u64,
    picked: &[u8],
) -> Option<u8> {
    for &number in picked {
        let place = usize::from(number);
        if late(&table.rows[place], quanta[place], time) {
            return Some(number);
        }
    }
    None
}

// ---- who goes first ----

/// A row's next subtask, as the order sees it.
#[derive(Clone, Copy, PartialEq, Eq, Debug)]
pub struct Next {
    pub row: u8,
    /// d
    pub deadline: u128,
    /// b
    pub bit: u8,
    /// D
    pub group: u128,
    /// Was the row picked in the slot before?
    pub ran: bool,
}

/// The rules of the order, in their turn.
#[derive(Clone, Copy, PartialEq, Eq, Debug)]
pub enum Rule {
    /// "smaller d"
    Deadline,
    /// "then b = 1 before b = 0"
    Bit,
    /// "if both have b = 1, larger D"
    GroupDeadline,
    /// 02, Eight, in format 2: "among full ties, a row picked in the previous slot goes first"
    RanBefore,
    /// "then the lower row number"
    RowNumber,
}

/// Which rule decides between two rows of a table of this format. (A row with e = p, 02, Six, has
/// b = 0 in every window: it stands behind any with the same d and b = 1, and its D is never
/// asked.)
pub fn rule_between(format: u8, one: &Next, other: &Next) -> Rule {
    if one.deadline != other.deadline {
        return Rule::Deadline;
    }
    // slip: who ran is asked before the bit
    if cfg!(slip = "ran_before_bit") && one_alone_ran(format, one, other) {
        return Rule::RanBefore;
    }
    // slip: b left out of the order
    if one.bit != other.bit && !cfg!(slip = "bit_left_out") {
        return Rule::Bit;
    }
    // slip: who ran is asked before the group deadline
    if cfg!(slip = "ran_before_group") && one_alone_ran(format, one, other) {
        return Rule::RanBefore;
    }
    if one.bit == 1 && other.bit == 1 && one.group != other.group {
        return Rule::GroupDeadline;
    }
    // slip: the lower row number is asked before who ran; no two rows have the same
    if cfg!(slip = "row_before_ran") && one.row != other.row {
        return Rule::RowNumber;
    }
    // nothing above parts them: a "full tie"
    if one_alone_ran(format, one, other) {
        return Rule::RanBefore;
    }
    Rule::RowNumber
}

/// Was one of two rows picked in the slot before and the other not? It is asked in format 2 alone.
fn one_alone_ran(format: u8, one: &Next, other: &Next) -> bool {
    // slip: in format 1 too
    if cfg!(slip = "kind_in_format_1") {
        return one.ran != other.ran;
    }
    // slip: in neither format
    if cfg!(slip = "kindness_forgotten") {
        return false;
    }
    format == 2 && one.ran != other.ran
}

/// The order of two rows of a table of this format: `Less` when `one` goes first.
pub fn order(format: u8, one: &Next, other: &Next) -> Ordering {
    match rule_between(format, one, other) {
        // "smaller d"
        Rule::Deadline => one.deadline.cmp(&other.deadline),
        // "b = 1 before b = 0"
        Rule::Bit => other.bit.cmp(&one.bit),
        // slip: smaller D first
        Rule::GroupDeadline if cfg!(slip = "smaller_group_first") => one.group.cmp(&other.group),
        // "larger D"
        Rule::GroupDeadline => other.group.cmp(&one.group),
        // "a row picked in the previous slot goes first"
        Rule::RanBefore => other.ran.cmp(&one.ran),
        // "the lower row number"
        Rule::RowNumber => one.row.cmp(&other.row),
    }
}

/// The ready rows of a state in its slot, first those that go first.
pub fn ready_rows(state: &State) -> Vec<Next> {
    let (rows, ran) = (state.table.named_rows(), state.last.named_rows());
    in_order(
        state.table.format,
        rows,
        &state.quanta,
        ran,
        |row, quanta| ready(row, quanta, state.time),
    )
}

/// Of rows numbered from 0 in a table of this format, with the quanta of each, those that
/// `is_ready` says are ready, first those that go first. `ran` has the numbers of those that were
/// picked in the slot before.
pub(crate) fn in_order(
    format: u8,
    rows: &[Row],
    quanta: &[u64; 32],
    ran: &[u8],
    is_ready: impl Fn(&Row, u64) -> bool,
) -> Vec<Next> {
    let mut found = Vec::new();
    for (number, row) in rows.iter().enumerate() {
        if is_ready(row, quanta[number]) {
            let next = next_of(number as u8, row, quanta[number], ran);
            put_in_order(format, &mut found, next);
        }
    }
    found
}

/// A row's next subtask, as the order sees it, with the numbers of the rows that were picked in the
/// slot before.
pub(crate) fn next_of(number: u8, row: &Row, quanta: u64, ran: &[u8]) -> Next {
    let (e, p, f) = (row.cost, row.period, u64::from(row.phase));
    let i = next_subtask(quanta);
    Next {
        row: number,
        deadline: windows::deadline(e, p, f, i),
        bit: windows::bit(e, p, i),
        group: windows::group_deadline(e, p, f, i),
        ran: ran.contains(&number),
    }
}

/// Puts a row before the first of the others that it goes before. (Not a library's sort: with the
/// slip of leaving b out three rows can go round in a circle, and what a sort then does is its
/// own affair. This way there is one answer then too.)
fn put_in_order(format: u8, others: &mut Vec<Next>, next: Next) {
    let goes_first = |other: &Next| order(format, &next, other) == Ordering::Less;
    match others.iter().position(goes_first) {
        Some(place) => others.insert(place, next),
        None => others.push(next),
    }
}

/// "The first min(free cores, ready rows) are picked." First those that go first.
pub(crate) fn picked_in_order(state: &State, k: u8) -> Vec<Next> {
    let mut picked = ready_rows(state);
    picked.truncate(usize::from(k));
    picked
}

/// The rows that are picked: their numbers, rising.
fn pick(state: &State, k: u8) -> Vec<u8> {
    let in_order = picked_in_order(state, k);
    let mut picked: Vec<u8> = in_order.iter().map(|next| next.row).collect();
    picked.sort_unstable();
    picked
}

/// What decided the slot: the rule between the last row picked with k free cores and the first
/// row left out. None where nobody is picked (k = 0) or nobody is left out. The state is not
/// judged here; what a slot would refuse is its own matter.
pub fn deciding_rule(state: &State, k: u8) -> Option<Rule> {
    let ready = ready_rows(state);
    let left_out = ready.get(usize::from(k))?;
    let last_picked = ready.get(usize::from(k.checked_sub(1)?))?;
    Some(rule_between(state.table.format, last_picked, left_out))
}

// ---- one slot ----

/// "A state is broken (30) if its table has a fault 12 to 20 or 22, if time is above
/// 1,000,000,000, if a row's quanta exceed time, or if it is not stopped and some row is outside
/// its share at its time." "Places past row n ... are ignored." And by 02, One and Eight "30 also"
/// for what it misremembers. 18 is the table's own: since 02, Six a state may have rows with e = p.
/// For the time the limit is that of 02, Seven: "30, 32 and 50 use the new limit." 11 is among the
/// faults since 02, Eight: "30 also for such a format", which is "neither 1 nor 2".
pub fn broken(state: &State) -> bool {
    // slip: the format of a state is not asked
    #[cfg(slip = "format_of_value_not_asked")]
    let state = &State {
        table: Table {
            format: 1,
            ..state.table
        },
        ..*state
    };
    if table::fault(&state.table) != 0 {
        return true;
    }
    if state.time > LAST_TIME {
        return true;
    }
    for (number, row) in state.table.named_rows().iter().enumerate() {
        let quanta = state.quanta[number];
        if quanta > state.time {
            return true;
        }
        if !state.stopped && !share::inside(row, state.time, quanta) {
            return true;
        }
    }
    misremembers(state)
}

/// 02, One: "30 also for a remembered core not below M or given to two rows, or a remembered row
/// not below n or on two cores". 02, Eight, and in both formats: "30 also ... for remembered rows
/// not below n or not rising, or a count of them above M". And the probe's protocol: "A count above
/// 8 ...: the state is broken (30), whatever else. Each place counts for itself". Nothing else of
/// the state is looked at, and M and n may be wild.
pub fn misremembers(state: &State) -> bool {
    let last = &state.last;
    // "A count above 8"
    if usize::from(last.count) > last.rows.len() {
        return true;
    }
    // "or a count of them above M" (so many different cores below M there are not: what 02, One
    // says of cores is then amiss as well)
    if last.count > state.table.cores {
        return true;
    }
    let (rows, cores) = (last.named_rows(), last.named_cores());
    // "a remembered core not below M"
    if cores.iter().any(|&core| !is_core(&state.table, core)) {
        return true;
    }
    // "or a remembered row not below n"
    if rows.iter().any(|&row| row >= state.table.count) {
        return true;
    }
    // a core "given to two rows", a row "on two cores"; rows "not rising"
    one_twice(cores) || one_twice(rows) || not_rising(rows)
}

/// Is there a core of this number? 02, One: "numbered 0 to M - 1".
fn is_core(table: &Table, core: u8) -> bool {
    // slip: a remembered core equal to M is no fault
    if cfg!(slip = "core_m_allowed") {
        return core <= table.cores;
    }
    core < table.cores
}

/// Is one of the numbers not above the one before it?
fn not_rising(numbers: &[u8]) -> bool {
    // slip: rows may be remembered in any order
    if cfg!(slip = "falling_rows_remembered") {
        return false;
    }
    numbers.windows(2).any(|pair| pair[1] <= pair[0])
}

/// Does one of the numbers stand at two places?
fn one_twice(numbers: &[u8]) -> bool {
    let mut rest = numbers;
    while let Some((number, others)) = rest.split_first() {
        if others.contains(number) {
            return true;
        }
        rest = others;
    }
    false
}

/// The part of the buffer from `place` on that takes a record of `length` bytes, if it is there.
fn room(buffer: &mut [u8], place: u64, length: usize) -> Option<&mut [u8]> {
    if place > buffer.len() as u64 {
        return None;
    }
    let after = &mut buffer[place as usize..];
    if after.len() < length {
        return None;
    }
    Some(&mut after[..length])
}

/// Writes a slot's record at `place` in the buffer, every other byte as before: "cores free k (1),
/// rows picked c (1), and c row numbers rising strictly (1 each)". False where there is no room for
/// it; then the buffer is untouched.
pub(crate) fn write_record(buffer: &mut [u8], place: u64, k: u8, picked: &[u8]) -> bool {
    let record = match room(buffer, place, 2 + picked.len()) {
        Some(part) => part,
        None => return false,
    };
    record[0] = k;
    record[1] = picked.len() as u8;
    record[2..].copy_from_slice(picked);
    true
}

/// The refusals that hang on the state alone, in the order "30, 31, 32".
pub(crate) fn state_refusal(state: &State) -> Option<u8> {
    // slip: the time cut to 32 bits
    #[cfg(slip = "time_as_4_bytes")]
    let state = &State {
        time: u64::from(state.time as u32),
        ..*state
    };
    // 30: "broken state"
    if broken(state) {
        return Some(30);
    }
    // 31: "state stopped by an earlier 1"
    if state.stopped {
        return Some(31);
    }
    // 32: "time is already 1,000,000,000", or what 02, Seven has in its place
    if state.time == LAST_TIME {
        return Some(32);
    }
    None
}

/// The refusals that are given before any row is picked, in the order "30, 31, 32, 33", with 35 "in
/// the place of 33" (02, One). `None` if the slot may go on.
fn refusal(state: &State, free: u32) -> Option<u8> {
    if let Some(number) = state_refusal(state) {
        return Some(number);
    }
    // 02, One: "35 for a set naming a core not below M"
    if free & !first_cores(state.table.cores) != 0 {
        return Some(35);
    }
    None
}

/// Makes one slot's choice with the first k cores free, and writes its record at `place` in the
/// buffer. Of a k above M the last core is not below M: 35, as 02, One wants it for "a printer's k
/// above M".
pub fn slot(state: &mut State, k: u8, buffer: &mut [u8], place: u64) -> Answer {
    slot_on(state, first_cores(k), buffer, place).0
}

/// Makes one slot's choice with a set of free cores, bit c for core c, and writes its record at
/// `place` in the buffer. 02, One: "For each slot we hand in which cores are free, as a set of
/// cores, ... and want a core for each picked row." The order for a slot is now 30, 31, 32, 35, 34;
/// with each of them "the state returns equal and the buffer is untouched", and nobody is placed.
pub fn slot_on(state: &mut State, free: u32, buffer: &mut [u8], place: u64) -> (Answer, Placement) {
    // slip: the place cut to 32 bits
    #[cfg(slip = "place_as_4_bytes")]
    let place = u64::from(place as u32);
    // slip: the set cut to its low 8 bits
    #[cfg(slip = "set_as_8_bits")]
    let free = free & 0xFF;
    if let Some(number) = refusal(state, free) {
        return (Answer::plain(number), Placement::nobody());
    }
    // 02, One: "k becomes the size of the set; picks, shares and traces stay as they are". Which
    // cores they are chooses no row; which rows ran in the slot before does in format 2 (02, Eight)
    let k = free.count_ones() as u8;
    let picked = pick(state, k);
    // 34: "the place is past the buffer's end, or fewer than 2 + c bytes remain after it"
    if !write_record(buffer, place, k, &picked) {
        return (Answer::plain(34), Placement::nobody());
    }
    let placement = cores::place(&state.last, free, &picked);
    // 02, One: "The state remembers which row ran on which core in the last slot"; the picked rise,
    // and so do the rows remembered
    // slip: a slot that picks nobody keeps the old memory
    if !cfg!(slip = "memory_kept") || !picked.is_empty() {
        state.last = placement;
    }
    (give_quanta(state, &picked), placement)
}

/// The time after a slot.
fn one_higher(time: u64) -> u64 {
    // slip: a time judged by its last four bytes may be the largest number; after that comes 0
    if cfg!(slip = "time_as_4_bytes") {
        return time.wrapping_add(1);
    }
    time + 1
}

/// The end of a slot that picked these rows, and its answer, 0 or 1.
fn give_quanta(state: &mut State, picked: &[u8]) -> Answer {
    // "time is one higher, each picked row has one quantum more"
    state.time = one_higher(state.time);
    for &row in picked {
        state.quanta[usize::from(row)] += 1;
    }

    // 1: "slot done, and some row is late at the new time; names the lowest such row and that
    // time"; "with 1 the state is also stopped"
    #[cfg(not(slip = "late_only_if_picked"))]
    let late = lowest_late(&state.table, &state.quanta, state.time);
    // slip: lateness tested only for rows that were picked
    #[cfg(slip = "late_only_if_picked")]
    let late = lowest_late_picked(&state.table, &state.quanta, state.time, picked);
    if let Some(row) = late {
        state.stopped = true;
        return Answer {
            number: 1,
            row,
            time: state.time,
        };
    }
    Answer::plain(0)
}

#[cfg(test)]
pub(crate) mod tests {
    use super::*;
    use crate::cores::tests::{placement_of, set_of};
    use crate::never_late::Chance;
    use crate::table::tests::{in_format, value_of, value_of_2, EXAMPLE};

    const DONE: Answer = Answer {
        number: 0,
        row: 0,
        time: 0,
    };

    /// One slot into a buffer of its own; the picked rows.
    fn picks(state: &mut State, k: u8) -> Vec<u8> {
        let mut buffer = [0xEE; 10];
        let answer = slot(state, k, &mut buffer, 0);
        assert_eq!(answer, DONE);
        assert_eq!(buffer[0], k);
        let c = usize::from(buffer[1]);
        assert!(buffer[2 + c..].iter().all(|&byte| byte == 0xEE));
        buffer[2..2 + c].to_vec()
    }

    /// A slot that must be refused: the number, with state and buffer as they were.
    fn refused(state: &State, k: u8, room: usize, place: u64) -> u8 {
        let mut after = *state;
        let mut buffer = vec![0xEE; room];
        let answer = slot(&mut after, k, &mut buffer, place);
        assert_eq!(after, *state);
        assert!(buffer.iter().all(|&byte| byte == 0xEE));
        assert_eq!((answer.row, answer.time), (0, 0));
        answer.number
    }

    #[test]
    fn bench_1_2_and_1_2_and_2_3_on_two_cores() {
        // also the slip of leaving b out of the order: that picks rows 0 and 1
        let mut state = fresh(value_of(6, 2, &[(1, 2, 0, 0), (1, 2, 0, 0), (2, 3, 0, 0)]));
        assert_eq!(picks(&mut state, 2), [0, 2]);
        assert_eq!(state.time, 1);
        assert_eq!(state.quanta[..4], [1, 0, 1, 0]);
    }

    fn thirds_and_quarters() -> State {
        fresh(value_of(12, 3, &[(2, 3, 0, 0), (2, 3, 0, 0), (3, 4, 0, 0)]))
    }

    #[test]
    fn bench_2_3_and_2_3_and_3_4_with_one_free_core() {
        // also the slip of taking the smaller D first: that picks row 0
        assert_eq!(picks(&mut thirds_and_quarters(), 1), [2]);
    }

    #[test]
    fn bench_no_core_twice_is_late() {
        // also the slip of testing lateness only for rows that were picked
        let mut state = thirds_and_quarters();
        assert_eq!(picks(&mut state, 0), []);
        let mut buffer = [0xEE; 3];
        let answer = slot(&mut state, 0, &mut buffer, 1);
        let expected = Answer {
            number: 1,
            row: 0,
            time: 2,
        };
        assert_eq!(answer, expected);
        assert_eq!(buffer, [0xEE, 0, 0]);
        assert!(state.stopped);
        assert_eq!(state.time, 2);
        assert_eq!(state.quanta, [0; 32]);
        assert_eq!(refused(&state, 0, 9, 0), 31);
    }

    #[test]
    fn bench_no_core_then_three_is_not_late() {
        let mut state = thirds_and_quarters();
        assert_eq!(picks(&mut state, 0), []);
        assert_eq!(picks(&mut state, 3), [0, 1, 2]);
        assert!(!state.stopped);
    }

    fn slots_of_one_row(e: u16, p: u16, f: u16, kind: u8, slots: u64) -> Vec<u64> {
        let mut state = fresh(value_of(u32::from(p), 1, &[(e, p, f, kind)]));
        (0..slots)
            .filter(|_| !picks(&mut state, 1).is_empty())
            .collect()
    }

    #[test]
    fn bench_early_release() {
        // also the slip of reducing 2/6 to 1/3: that loses slot 1
        assert_eq!(slots_of_one_row(2, 6, 0, 1, 7), [0, 1, 6]);
        assert_eq!(slots_of_one_row(1, 3, 0, 1, 7), [0, 3, 6]);
    }

    #[test]
    fn plain_rows_wait_for_their_windows() {
        // 2/6 starts 0, 3, 6, 9; 8/11 starts 0, 1, 2, 4, 5, 6, 8, 9
        assert_eq!(slots_of_one_row(2, 6, 0, 0, 10), [0, 3, 6, 9]);
        assert_eq!(slots_of_one_row(2, 6, 5, 0, 10), [5, 8]);
        assert_eq!(slots_of_one_row(8, 11, 0, 0, 11), [0, 1, 2, 4, 5, 6, 8, 9]);
        assert_eq!(slots_of_one_row(2, 6, 5, 1, 14), [5, 6, 11, 12]);
    }

    #[test]
    fn the_example_runs_as_listed() {
        let mut state = fresh(table::read(&EXAMPLE).unwrap());
        let mut trace = [0xEE; 16];
        trace[..4].copy_from_slice(&[3, 0, 0, 0]);
        for place in [4, 8, 12] {
            assert_eq!(slot(&mut state, 2, &mut trace, place), DONE);
        }
        assert_eq!(trace, [3, 0, 0, 0, 2, 2, 0, 1, 2, 2, 0, 2, 2, 2, 1, 2]);
        assert_eq!(state.time, 3);
        assert_eq!(state.quanta[..4], [2, 2, 2, 0]);
    }

    #[test]
    fn the_order_of_two_rows() {
        let next = |row, deadline, bit, group| Next {
            row,
            deadline,
            bit,
            group,
            ran: false,
        };
        let cases = [
            // smaller d, whatever else
            (next(5, 3, 0, 0), next(1, 4, 1, 9), Rule::Deadline),
            // b = 1 before b = 0
            (next(5, 4, 1, 0), next(1, 4, 0, 9), Rule::Bit),
            // both b = 1: larger D; a light row's D is 0
            (next(5, 4, 1, 9), next(1, 4, 1, 8), Rule::GroupDeadline),
            (next(5, 4, 1, 5), next(1, 4, 1, 0), Rule::GroupDeadline),
            // then the lower row number; with b = 0 D is not asked
            (next(1, 4, 1, 9), next(5, 4, 1, 9), Rule::RowNumber),
            (next(1, 4, 0, 4), next(5, 4, 0, 9), Rule::RowNumber),
        ];
        for (mut first, mut second, rule) in cases {
            // who ran is asked in format 2 alone, and there of full ties alone
            for (format, ran, ran_too) in [
                (1, false, false),
                (1, true, false),
                (1, false, true),
                (1, true, true),
                (2, false, false),
                (2, true, true),
            ] {
                first.ran = ran;
                second.ran = ran_too;
                in_this_order(format, &first, &second, rule);
            }
            let rule_of_ties = match rule {
                Rule::RowNumber => Rule::RanBefore,
                other => other,
            };
            first.ran = true;
            second.ran = false;
            in_this_order(2, &first, &second, rule_of_ties);
            first.ran = false;
            second.ran = true;
            if rule == Rule::RowNumber {
                in_this_order(2, &second, &first, Rule::RanBefore);
            } else {
                in_this_order(2, &first, &second, rule);
            }
        }
    }

    /// The rule puts the first of them first, whichever is named first.
    fn in_this_order(format: u8, first: &Next, second: &Next, rule: Rule) {
        assert_eq!(rule_between(format, first, second), rule);
        assert_eq!(rule_between(format, second, first), rule);
        assert_eq!(order(format, first, second), Ordering::Less);
        assert_eq!(order(format, second, first), Ordering::Greater);
        assert_eq!(order(format, first, first), Ordering::Equal);
        assert_eq!(order(format, second, second), Ordering::Equal);
    }

    /// Slot 0 of 2/3 (0 to 2, b 1, D 3), 1/2 (0 to 2, b 0, D 2), 1/4 (0 to 4, b 0, D 0), 3/4 (0 to
    /// 2, b 1, D 4), 1/2 (as row 1), and 2/3 with phase 1 (1 to 3, b 1, D 4). The order is 3, 0, 1,
    /// 4, 2; row 5 is not ready.
    pub(crate) fn six_rows() -> State {
        let rows = [
            (2, 3, 0, 0),
            (1, 2, 0, 0),
            (1, 4, 0, 0),
            (3, 4, 0, 0),
            (1, 2, 0, 0),
            (2, 3, 1, 0),
        ];
        fresh(value_of(12, 4, &rows))
    }

    #[test]
    fn ready_rows_stand_in_their_order() {
        let mut state = six_rows();
        let next = |row, deadline, bit, group| Next {
            row,
            deadline,
            bit,
            group,
            ran: false,
        };
        let expected = [
            next(3, 2, 1, 4),
            next(0, 2, 1, 3),
            next(1, 2, 0, 2),
            next(4, 2, 0, 2),
            next(2, 4, 0, 0),
        ];
        // nobody ran before, so that both formats have the same order
        for format in 1..=2 {
            state.table.format = format;
            assert_eq!(ready_rows(&state), expected);
            in_any_arrival(format, &expected);
        }
    }

    /// Every arrival of these rows, each swapped with each, leaves them in this order.
    fn in_any_arrival(format: u8, expected: &[Next]) {
        for one in 0..expected.len() {
            for other in 0..expected.len() {
                let mut arriving = expected.to_vec();
                arriving.swap(one, other);
                let mut ordered = Vec::new();
                for next in arriving {
                    put_in_order(format, &mut ordered, next);
                }
                assert_eq!(ordered, expected);
            }
        }
    }

    #[test]
    fn what_decided_the_bench() {
        // row 2 (b = 1), then row 0, then row 1: with two cores rows 0 and 1 part by their number
        let state = fresh(value_of(6, 2, &[(1, 2, 0, 0), (1, 2, 0, 0), (2, 3, 0, 0)]));
        assert_eq!(deciding_rule(&state, 1), Some(Rule::Bit));
        assert_eq!(deciding_rule(&state, 2), Some(Rule::RowNumber));
        // row 2 (D 4), then row 0 and row 1 (D 3 both)
        let state = thirds_and_quarters();
        assert_eq!(deciding_rule(&state, 1), Some(Rule::GroupDeadline));
        assert_eq!(deciding_rule(&state, 2), Some(Rule::RowNumber));
        // 1/2 is due at 2, 1/3 at 3
        let state = fresh(value_of(6, 1, &[(1, 3, 0, 0), (1, 2, 0, 0)]));
        assert_eq!(deciding_rule(&state, 1), Some(Rule::Deadline));
    }

    #[test]
    fn nothing_decides_where_nobody_is_picked_or_left_out() {
        let state = thirds_and_quarters();
        assert_eq!(deciding_rule(&state, 0), None);
        assert_eq!(deciding_rule(&state, 3), None);
        assert_eq!(deciding_rule(&state, 255), None);
        assert_eq!(deciding_rule(&fresh(value_of(1, 1, &[])), 1), None);
        // of two rows only row 1 is ready in slot 0
        let mut state = fresh(value_of(6, 2, &[(1, 2, 1, 0), (2, 3, 0, 0)]));
        assert_eq!(deciding_rule(&state, 1), None);
        // in slot 1, nothing given yet: row 1 (0 to 2) before row 0 (1 to 3)
        state.time = 1;
        assert_eq!(deciding_rule(&state, 1), Some(Rule::Deadline));
        assert_eq!(deciding_rule(&state, 2), None);
    }

    #[test]
    fn what_decided_between_heavy_and_light() {
        // time 2, as in the test below: 3/8 with phase 1 (1 to 4, b 1, D 0), 2/3 with phase 2
        // (2 to 4, b 1, D 5)
        let mut state = fresh(value_of(24, 2, &[(3, 8, 1, 0), (2, 3, 2, 0)]));
        state.time = 2;
        assert_eq!(deciding_rule(&state, 1), Some(Rule::GroupDeadline));
        // 1/4 (0 to 4) and 3/4 (2 to 4) at 2, both with b = 0: D (0 and 4) is not asked
        let mut state = fresh(value_of(4, 2, &[(1, 4, 0, 0), (3, 4, 0, 0)]));
        state.time = 2;
        state.quanta[1] = 2;
        assert_eq!(deciding_rule(&state, 1), Some(Rule::RowNumber));
    }

    #[test]
    fn what_decided_stands_wild_states() {
        let mut wild = fresh(Table::zero());
        wild.table.count = 255;
        wild.time = u64::MAX;
        wild.quanta = [u64::MAX; 32];
        for k in [0, 1, 31, 32, 255] {
            deciding_rule(&wild, k);
        }
    }

    #[test]
    fn with_both_bits_0_the_group_deadline_is_not_asked() {
        // time 2: plain 1/4 (light, i = 1: 0 to 4, b 0, D 0) and 3/4 (heavy, i = 3: 2 to 4,
        // b 0, D 4); one core free, row 0 goes though its D is smaller
        let mut state = fresh(value_of(4, 2, &[(1, 4, 0, 0), (3, 4, 0, 0)]));
        state.time = 2;
        state.quanta[1] = 2;
        assert_eq!(picks(&mut state, 1), [0]);
    }

    #[test]
    fn heavy_goes_before_light_by_its_group_deadline() {
        // time 2: light 3/8 with phase 1 (1 to 4, b 1, D 0), heavy 2/3 with phase 2 (2 to 4,
        // b 1, D 5)
        let mut state = fresh(value_of(24, 2, &[(3, 8, 1, 0), (2, 3, 2, 0)]));
        state.time = 2;
        assert_eq!(picks(&mut state, 1), [1]);
    }

    #[test]
    fn an_early_release_row_keeps_the_deadline_of_its_window() {
        // time 1: early release 2/6 has one quantum, its second (3 to 6) is ready since 0 and
        // due at 6; plain 1/5 is due at 5 and goes first
        let mut state = fresh(value_of(30, 1, &[(2, 6, 0, 1), (1, 5, 0, 0)]));
        assert_eq!(picks(&mut state, 1), [0]);
        assert_eq!(picks(&mut state, 1), [1]);
        assert_eq!(picks(&mut state, 1), [0]);
        assert_eq!(picks(&mut state, 1), []);
    }

    #[test]
    fn table_faults_break_the_state() {
        let good = value_of(6, 2, &[(1, 2, 0, 0), (1, 3, 0, 0)]);
        let number = |change: &dyn Fn(&mut Table)| {
            let mut table = good;
            change(&mut table);
            refused(&fresh(table), 0, 9, 0)
        };
        assert_eq!(number(&|t| t.format = 0), 30);
        assert_eq!(number(&|t| t.format = 3), 30);
        assert_eq!(number(&|t| t.cycle = 0), 30);
        assert_eq!(number(&|t| t.cores = 0), 30);
        assert_eq!(number(&|t| t.cores = 200), 30);
        assert_eq!(number(&|t| t.boards[1] = 0), 30);
        assert_eq!(number(&|t| t.count = 255), 30);
        assert_eq!(number(&|t| t.rows[1].tank = 1), 30);
        assert_eq!(number(&|t| t.rows[1].cost = 0), 30);
        // e above p; with e = p the table has no fault
        assert_eq!(number(&|t| t.rows[1].period = 0), 30);
        assert_eq!(number(&|t| t.rows[1].cost = 4), 30);
        assert_eq!(number(&|t| t.rows[1].period = 4), 30);
        assert_eq!(number(&|t| t.rows[1].kind = 2), 30);
        let full = value_of(2, 1, &[(1, 2, 0, 0), (1, 2, 0, 0), (1, 2, 0, 0)]);
        assert_eq!(refused(&fresh(full), 0, 9, 0), 30);
        assert_eq!(refused(&fresh(Table::zero()), 0, 9, 0), 30);
    }

    #[test]
    fn time_and_quanta_break_the_state() {
        let mut state = fresh(value_of(6, 2, &[(2, 6, 0, 0), (2, 6, 0, 1)]));
        let mut number = |stopped, time, first, second| {
            state.stopped = stopped;
            state.time = time;
            state.quanta[0] = first;
            state.quanta[1] = second;
            let mut after = state;
            slot(&mut after, 2, &mut [0; 9], 0).number
        };
        // plain 2/6: at 2 one at most, at 3 exactly one
        assert_eq!(number(false, 2, 1, 1), 0);
        assert_eq!(number(false, 2, 2, 1), 30);
        assert_eq!(number(false, 3, 0, 1), 30);
        assert_eq!(number(false, 3, 2, 1), 30);
        // early release 2/6: up to two in the first six slots, at least one at 3
        assert_eq!(number(false, 2, 1, 2), 0);
        assert_eq!(number(false, 3, 1, 2), 0);
        assert_eq!(number(false, 3, 1, 0), 30);
        assert_eq!(number(false, 3, 1, 3), 30);
        // quanta may not exceed time, though two would be inside the share at 1
        assert_eq!(number(false, 1, 1, 1), 0);
        assert_eq!(number(false, 1, 1, 2), 30);
        // a stopped state may be outside its share, but no more
        assert_eq!(number(true, 3, 0, 0), 31);
        assert_eq!(number(true, 3, 3, 3), 31);
        assert_eq!(number(true, 3, 4, 0), 30);
        assert_eq!(number(true, 3, 0, 4), 30);
        assert_eq!(number(true, 1_000_000_000_000, 0, 0), 31);
        assert_eq!(number(true, 1_000_000_000_001, 0, 0), 30);
        assert_eq!(number(false, u64::MAX, u64::MAX, u64::MAX), 30);
        assert_eq!(number(true, 5, u64::MAX, 0), 30);
    }

    #[test]
    fn places_past_n_are_ignored_and_returned_as_they_came() {
        let mut state = fresh(value_of(6, 2, &[(1, 2, 0, 0)]));
        state.table.boards[5] = 200;
        state.table.rows[9].cost = 7;
        state.quanta[1] = u64::MAX;
        state.quanta[31] = 77;
        let mut expected = state;
        expected.time = 1;
        expected.quanta[0] = 1;
        expected.last = placement_of(&[(0, 0)]);
        assert_eq!(picks(&mut state, 2), [0]);
        assert_eq!(state, expected);
    }

    #[test]
    fn the_last_slots() {
        // no row at all
        let mut state = fresh(value_of(1, 1, &[]));
        state.time = 999_999_999_999;
        assert_eq!(picks(&mut state, 1), []);
        assert_eq!(state.time, 1_000_000_000_000);
        assert_eq!(refused(&state, 1, 9, 0), 32);
        // 32 goes before 35 and 34
        assert_eq!(refused(&state, 2, 0, 0), 32);

        // 1/2 with 499,999,999,999 quanta: its next subtask is due at 1,000,000,000,000
        let mut state = fresh(value_of(2, 1, &[(1, 2, 0, 0)]));
        state.time = 999_999_999_999;
        state.quanta[0] = 499_999_999_999;
        let mut missed = state;
        assert_eq!(picks(&mut state, 1), [0]);
        assert_eq!(state.quanta[0], 500_000_000_000);
        assert_eq!(refused(&state, 1, 9, 0), 32);
        let expected = Answer {
            number: 1,
            row: 0,
            time: 1_000_000_000_000,
        };
        assert_eq!(slot(&mut missed, 0, &mut [0; 2], 0), expected);
        // 31 goes before 32
        assert_eq!(refused(&missed, 0, 2, 0), 31);
    }

    #[test]
    fn too_many_free_cores() {
        let state = fresh(value_of(6, 2, &[(1, 2, 0, 0)]));
        for k in 3..=255 {
            assert_eq!(refused(&state, k, 9, 0), 35);
        }
        // 35 goes before 34
        assert_eq!(refused(&state, 3, 0, 0), 35);
        // M = 8 is the most there is
        let state = fresh(value_of(6, 8, &[(1, 2, 0, 0)]));
        assert_eq!(refused(&state, 9, 9, 0), 35);
        assert_eq!(refused(&state, 255, 9, 0), 35);
        assert_eq!(picks(&mut state.clone(), 8), [0]);
    }

    #[test]
    fn room_for_the_record() {
        // one row ready: 3 bytes with a free core, 2 without
        let state = fresh(value_of(6, 2, &[(1, 2, 0, 0)]));
        assert_eq!(refused(&state, 2, 0, 0), 34);
        assert_eq!(refused(&state, 2, 2, 0), 34);
        assert_eq!(refused(&state, 2, 3, 1), 34);
        assert_eq!(refused(&state, 2, 3, 3), 34);
        assert_eq!(refused(&state, 2, 3, 4), 34);
        assert_eq!(refused(&state, 2, 3, u64::MAX), 34);
        // its last four bytes alone are 0
        assert_eq!(refused(&state, 2, 3, 4_294_967_296), 34);
        assert_eq!(refused(&state, 0, 1, 0), 34);
        assert_eq!(refused(&state, 0, 2, 1), 34);
        let mut buffer = [0xEE; 5];
        assert_eq!(slot(&mut state.clone(), 2, &mut buffer, 2), DONE);
        assert_eq!(buffer, [0xEE, 0xEE, 2, 1, 0]);
        let mut buffer = [0xEE; 2];
        assert_eq!(slot(&mut state.clone(), 0, &mut buffer, 0), DONE);
        assert_eq!(buffer, [0, 0]);
    }

    #[test]
    fn the_lowest_late_row_is_named() {
        // 1/4 is not due at 2, both rows 1/2 are; row 1 is the lower of them
        let mut state = fresh(value_of(4, 2, &[(1, 4, 0, 0), (1, 2, 0, 0), (1, 2, 0, 1)]));
        assert_eq!(picks(&mut state, 0), []);
        let expected = Answer {
            number: 1,
            row: 1,
            time: 2,
        };
        assert_eq!(slot(&mut state, 0, &mut [0; 9], 0), expected);
        // with one core in the second slot row 1 goes and row 2 is named; its quantum stands
        let mut state = fresh(value_of(4, 2, &[(1, 4, 0, 0), (1, 2, 0, 0), (1, 2, 0, 1)]));
        assert_eq!(picks(&mut state, 0), []);
        let expected = Answer {
            number: 1,
            row: 2,
            time: 2,
        };
        let mut buffer = [0; 3];
        assert_eq!(slot(&mut state, 1, &mut buffer, 0), expected);
        assert_eq!(buffer, [1, 1, 1]);
        assert_eq!(state.quanta[..3], [0, 1, 0]);
    }

    // ---- whole-core rows (02, Six) ----

    fn late_at(row: u8, time: u64) -> Answer {
        Answer {
            number: 1,
            row,
            time,
        }
    }

    #[test]
    fn a_whole_core_row_runs_in_every_slot_from_its_phase_on() {
        // r = f + (i-1); early release has its jobs' starts, and never more than a quantum a slot
        for kind in 0..2 {
            assert_eq!(slots_of_one_row(1, 1, 0, kind, 5), [0, 1, 2, 3, 4]);
            assert_eq!(slots_of_one_row(3, 3, 0, kind, 5), [0, 1, 2, 3, 4]);
            assert_eq!(slots_of_one_row(1, 1, 2, kind, 6), [2, 3, 4, 5]);
            assert_eq!(slots_of_one_row(5, 5, 2, kind, 8), [2, 3, 4, 5, 6, 7]);
        }
    }

    #[test]
    fn a_whole_core_row_that_misses_a_slot_is_late_at_once() {
        // two of them and one core: both are due at 1 with b = 0, row 0 goes by its number
        let two = fresh(value_of(2, 2, &[(1, 1, 0, 0), (2, 2, 0, 0)]));
        let (mut state, mut buffer) = (two, [0; 3]);
        assert_eq!(slot(&mut state, 1, &mut buffer, 0), late_at(1, 1));
        assert_eq!(buffer, [1, 1, 0]);
        assert_eq!((state.time, state.stopped), (1, true));
        assert_eq!(state.quanta[..2], [1, 0]);
        assert_eq!(refused(&state, 2, 9, 0), 31);
        // without a core the lowest of both is named
        assert_eq!(slot(&mut two.clone(), 0, &mut [0; 2], 0), late_at(0, 1));
        // with phase 2 nothing is missed before; slot 2 is the first
        for kind in 0..2 {
            let mut state = fresh(value_of(5, 1, &[(5, 5, 2, kind)]));
            assert_eq!(picks(&mut state, 0), []);
            assert_eq!(picks(&mut state, 0), []);
            let mut missed = state;
            assert_eq!(slot(&mut missed, 0, &mut [0; 2], 0), late_at(0, 3));
            assert_eq!(picks(&mut state, 1), [0]);
            assert_eq!(picks(&mut state, 1), [0]);
            assert_eq!(slot(&mut state, 0, &mut [0; 2], 0), late_at(0, 5));
        }
    }

    /// 1/1 and 2/3 on two cores, 3 + 2 of 6. In slot 1, after a slot with one core: subtask 2 of
    /// 1/1 is 1 to 2, b 0, D 2; subtask 1 of 2/3 is 0 to 2, b 1, D 3.
    fn camera_and_2_3_in_slot_1() -> State {
        let mut state = fresh(value_of(3, 2, &[(1, 1, 0, 0), (2, 3, 0, 0)]));
        // slot 0: 1/1 is due at 1, 2/3 at 2
        assert_eq!(deciding_rule(&state, 1), Some(Rule::Deadline));
        assert_eq!(picks(&mut state, 1), [0]);
        state
    }

    #[test]
    fn a_whole_core_row_stands_behind_one_with_b_1_and_the_same_deadline() {
        let mut state = camera_and_2_3_in_slot_1();
        let next = |row, bit, group, ran| Next {
            row,
            deadline: 2,
            bit,
            group,
            ran,
        };
        // that 1/1 ran in slot 0 does not help it, in format 2 either
        let expected = [next(1, 1, 3, false), next(0, 0, 2, true)];
        for format in 1..=2 {
            state.table.format = format;
            assert_eq!(ready_rows(&state), expected);
            assert_eq!(deciding_rule(&state, 1), Some(Rule::Bit));
        }
        state.table.format = 1;
        // with both cores nobody waits
        let mut both = state;
        assert_eq!(picks(&mut both, 2), [0, 1]);
        // with one 2/3 goes, though its number is higher, and 1/1 is late at 2
        let mut buffer = [0; 3];
        assert_eq!(slot(&mut state, 1, &mut buffer, 0), late_at(0, 2));
        assert_eq!(buffer, [1, 1, 1]);
        assert_eq!(state.quanta[..2], [1, 1]);
        // without a core both are
        let mut none = camera_and_2_3_in_slot_1();
        assert_eq!(slot(&mut none, 0, &mut [0; 2], 0), late_at(0, 2));
    }

    #[test]
    fn a_larger_group_deadline_does_not_help_a_whole_core_row() {
        // time 3: 1/1 with three quanta (3 to 4, b 0, D 4); light 3/8 with phase 1 (1 to 4, b 1,
        // D 0). "if both have b = 1" is not so
        let rows = [(1, 1, 0, 0), (3, 8, 1, 0)];
        let mut state = fresh(value_of(8, 2, &rows));
        state.time = 3;
        state.quanta[0] = 3;
        assert_eq!(deciding_rule(&state, 1), Some(Rule::Bit));
        let mut buffer = [0; 3];
        assert_eq!(slot(&mut state, 1, &mut buffer, 0), late_at(0, 4));
        assert_eq!(buffer, [1, 1, 1]);
    }

    #[test]
    fn between_a_whole_core_row_and_another_with_b_0_the_number_decides() {
        // time 2: 1/1 with two quanta (2 to 3, b 0, D 3) and light 1/3 without one (0 to 3, b 0,
        // D 0)
        let (camera, light) = ((1, 1, 0, 0), (1, 3, 0, 0));
        let mut first = fresh(value_of(3, 2, &[camera, light]));
        first.time = 2;
        first.quanta[0] = 2;
        assert_eq!(deciding_rule(&first, 1), Some(Rule::RowNumber));
        let mut buffer = [0; 3];
        assert_eq!(slot(&mut first, 1, &mut buffer, 0), late_at(1, 3));
        assert_eq!(buffer, [1, 1, 0]);
        let mut last = fresh(value_of(3, 2, &[light, camera]));
        last.time = 2;
        last.quanta[1] = 2;
        assert_eq!(deciding_rule(&last, 1), Some(Rule::RowNumber));
        assert_eq!(slot(&mut last, 1, &mut buffer, 0), late_at(1, 3));
        assert_eq!(buffer, [1, 1, 0]);
    }

    #[test]
    fn the_share_of_a_whole_core_row() {
        let number = |phase, kind, time, quanta| {
            let mut state = fresh(value_of(5, 1, &[(5, 5, phase, kind)]));
            state.time = time;
            state.quanta[0] = quanta;
            slot(&mut state, 1, &mut [0; 3], 0).number
        };
        // plain: -5 < 5·a - 5·q < 5, so that q is a
        for kind in 0..2 {
            assert_eq!(number(0, kind, 4, 4), 0);
            assert_eq!(number(0, kind, 4, 3), 30);
            assert_eq!(number(0, kind, 4, 5), 30);
            assert_eq!(number(2, kind, 2, 0), 0);
            assert_eq!(number(2, kind, 2, 1), 30);
            assert_eq!(number(2, kind, 4, 2), 0);
            assert_eq!(number(2, kind, 4, 1), 30);
        }
        // early release: q is at least a and at most 5·ceil(a/5), and not above time: with a phase
        // there is room between, where no run comes
        assert_eq!(number(2, 0, 4, 4), 30);
        assert_eq!(number(2, 1, 4, 3), 0);
        assert_eq!(number(2, 1, 4, 4), 0);
        assert_eq!(number(2, 1, 4, 5), 30);
        assert_eq!(number(2, 1, 6, 5), 0);
        assert_eq!(number(2, 1, 6, 6), 30);
    }

    #[test]
    fn an_early_release_whole_core_row_that_is_ahead() {
        // 5/5 with phase 2 and four quanta at 4: its fifth, 6 to 7, is ready since 2, due at 7
        let mut state = fresh(value_of(5, 1, &[(5, 5, 2, 1)]));
        state.time = 4;
        state.quanta[0] = 4;
        let mut waiting = state;
        for _ in 4..6 {
            assert_eq!(picks(&mut waiting, 0), []);
        }
        assert_eq!(slot(&mut waiting, 0, &mut [0; 2], 0), late_at(0, 7));
        // with it the job is done; the next starts at 7, and there nothing is ahead any more
        assert_eq!(picks(&mut state, 1), [0]);
        assert_eq!(picks(&mut state, 1), []);
        assert_eq!(picks(&mut state, 1), []);
        assert_eq!(picks(&mut state, 1), [0]);
        assert_eq!((state.time, state.quanta[0]), (8, 6));
        assert_eq!(slot(&mut state, 0, &mut [0; 2], 0), late_at(0, 9));
    }

    #[test]
    fn the_last_slots_of_a_whole_core_row() {
        for kind in 0..2 {
            let mut state = fresh(value_of(1, 1, &[(1, 1, 0, kind)]));
            state.time = 999_999_999_999;
            state.quanta[0] = 999_999_999_999;
            let mut missed = state;
            assert_eq!(
                slot(&mut missed, 0, &mut [0; 2], 0),
                late_at(0, 1_000_000_000_000)
            );
            // its next subtask is 1,000,000,000,001, the last whose window may be asked for alone
            assert_eq!(picks(&mut state, 1), [0]);
            assert_eq!(state.time, 1_000_000_000_000);
            assert_eq!(state.quanta[0], 1_000_000_000_000);
            assert_eq!(refused(&state, 1, 9, 0), 32);
        }
    }

    #[test]
    fn a_whole_core_row_keeps_its_core_while_it_is_free() {
        // row 0 is 2/3 (0 to 2, 1 to 3, 3 to 5), row 1 is 1/1
        let mut state = fresh(value_of(3, 2, &[(2, 3, 0, 0), (1, 1, 0, 0)]));
        assert_eq!(placed(&mut state, &[0, 1]), [(0, 0), (1, 1)]);
        assert_eq!(placed(&mut state, &[0, 1]), [(0, 0), (1, 1)]);
        // alone it stays, though core 0 is smaller
        assert_eq!(placed(&mut state, &[0, 1]), [(1, 1)]);
        // it goes before row 0, due at 5, and must move
        assert_eq!(placed(&mut state, &[0]), [(1, 0)]);
        assert_eq!(placed(&mut state, &[0, 1]), [(0, 1), (1, 0)]);
    }

    #[test]
    fn eight_whole_core_rows_on_eight_cores() {
        let mut state = fresh(value_of(12, 8, &[(4, 4, 0, 0); 8]));
        for _ in 0..12 {
            assert_eq!(picks(&mut state, 8), [0, 1, 2, 3, 4, 5, 6, 7]);
        }
        assert_eq!(state.quanta[..9], [12, 12, 12, 12, 12, 12, 12, 12, 0]);
        assert_eq!(slot(&mut state, 7, &mut [0; 9], 0), late_at(7, 13));
        // a ninth row is one too many
        let nine = fresh(value_of(12, 8, &[(4, 4, 0, 0); 9]));
        assert_eq!(refused(&nine, 0, 9, 0), 30);
    }

    // ---- shorter slots (02, Seven) ----

    /// A state of rows by (e, p, f, kind), with so many quanta each, at a time; M = 2.
    fn at(cycle: u32, rows: &[(u16, u16, u16, u8)], time: u64, quanta: &[u64]) -> State {
        let mut state = fresh(value_of(cycle, 2, rows));
        state.time = time;
        state.quanta[..quanta.len()].copy_from_slice(quanta);
        state
    }

    /// The slot's number, with both cores free.
    fn number_of(state: &State) -> u8 {
        slot(&mut state.clone(), 2, &mut [0; 4], 0).number
    }

    #[test]
    fn the_old_last_time_is_a_time_like_any_other() {
        // no row at all
        let mut state = at(1, &[], 999_999_999, &[]);
        for time in 999_999_999..1_000_000_009 {
            assert_eq!(state.time, time);
            assert_eq!(picks(&mut state, 2), []);
        }
        // 1/2, whose subtask 500,000,001 is 1,000,000,000 to 1,000,000,002
        let half = [(1, 2, 0, 0)];
        let mut state = at(2, &half, 999_999_999, &[499_999_999]);
        assert_eq!(picks(&mut state, 1), [0]);
        let mut missed = state;
        assert_eq!(picks(&mut state, 1), [0]);
        assert_eq!(picks(&mut state, 1), []);
        assert_eq!(picks(&mut state, 1), [0]);
        assert_eq!((state.time, state.quanta[0]), (1_000_000_003, 500_000_002));
        assert_eq!(picks(&mut missed, 0), []);
        assert_eq!(
            slot(&mut missed, 0, &mut [0; 2], 0),
            late_at(0, 1_000_000_002)
        );
        assert_eq!(refused(&missed, 0, 2, 0), 31);
        // it has a share there: t - 2q is -1, 0 or 1
        for (time, quanta) in [(1_000_000_000, 500_000_000), (1_000_000_001, 500_000_001)] {
            let given = |quanta| number_of(&at(2, &half, time, &[quanta]));
            assert_eq!(given(quanta - 2), 30);
            assert_eq!(given(quanta), 0);
            assert_eq!(given(quanta + 1), 30);
        }
        assert_eq!(number_of(&at(2, &half, 1_000_000_000, &[499_999_999])), 30);
        assert_eq!(number_of(&at(2, &half, 1_000_000_001, &[500_000_000])), 0);
    }

    /// 01's example, about to run the slot at a multiple of 3, with its whole jobs given.
    fn example_at(time: u64) -> State {
        let mut state = fresh(table::read(&EXAMPLE).unwrap());
        state.time = time;
        for quanta in state.quanta.iter_mut().take(3) {
            *quanta = time / 3 * 2;
        }
        state
    }

    #[test]
    fn the_example_runs_across_the_old_limit_and_2_to_the_32nd() {
        // 999,999,999 and 2^32 - 1 are multiples of 3
        for time in [999_999_999, 4_294_967_295] {
            let mut state = example_at(time);
            assert_eq!(picks(&mut state, 2), [0, 1]);
            assert_eq!(picks(&mut state, 2), [0, 2]);
            assert_eq!(picks(&mut state, 2), [1, 2]);
            let mut expected = example_at(time + 3);
            expected.last = state.last;
            assert_eq!(state, expected);
        }
        assert_eq!(example_at(4_294_967_298).quanta[0], 2_863_311_532);
    }

    #[test]
    fn the_example_runs_to_the_last_time() {
        // 999,999,999,996 is a multiple of 3
        let mut state = example_at(999_999_999_996);
        assert_eq!(placed(&mut state, &[0, 1]), [(0, 0), (1, 1)]);
        assert_eq!(placed(&mut state, &[0, 1]), [(0, 0), (2, 1)]);
        assert_eq!(placed(&mut state, &[0, 1]), [(1, 0), (2, 1)]);
        // the last slot is the first of a cycle; row 1 stays
        assert_eq!(placed(&mut state, &[0, 1]), [(0, 1), (1, 0)]);
        assert_eq!(state.time, 1_000_000_000_000);
        let given = [666_666_666_667, 666_666_666_667, 666_666_666_666, 0];
        assert_eq!(state.quanta[..4], given);
        assert_eq!(refused_on(&state, 0b11, 9, 0), 32);
        assert_eq!(refused_on(&state, 0b100, 0, 0), 32);
    }

    #[test]
    fn a_time_is_not_its_last_four_bytes() {
        let half = [(1, 2, 0, 0)];
        // those of 2^32 and of 2^33 are 0, where no quantum would be due
        for time in [4_294_967_296, 8_589_934_592] {
            for back in [0, 1] {
                let time = time - back;
                assert_eq!(number_of(&at(2, &half, time, &[time / 2])), 0);
                assert_eq!(number_of(&at(2, &half, time, &[0])), 30);
                assert_eq!(number_of(&at(2, &half, time, &[time / 2 - 1])), 30);
                assert_eq!(number_of(&at(2, &half, time, &[(time + 1) / 2 + 1])), 30);
            }
            assert_eq!(number_of(&at(2, &half, time + 1, &[time / 2])), 0);
            assert_eq!(number_of(&at(2, &half, time + 1, &[time / 2 + 1])), 0);
            assert_eq!(number_of(&at(2, &half, time + 1, &[0])), 30);
            assert_eq!(number_of(&at(2, &half, time + 1, &[1])), 30);
        }
        // those of the last time are 3,567,587,328, those of 996,432,412,672 are 0
        assert_eq!(number_of(&at(1, &[], 3_567_587_328, &[])), 0);
        assert_eq!(number_of(&at(1, &[], 996_432_412_672, &[])), 0);
        assert_eq!(number_of(&at(1, &[], 1_000_000_000_000, &[])), 32);
        let last = [500_000_000_000];
        assert_eq!(number_of(&at(2, &half, 1_000_000_000_000, &last)), 32);
        assert_eq!(number_of(&at(2, &half, 3_567_587_328, &last)), 30);
        // those of 1,000,000,000,001 and of 2^64 - 1 would be times of a state
        assert_eq!(number_of(&at(1, &[], 1_000_000_000_001, &[])), 30);
        assert_eq!(number_of(&at(1, &[], u64::MAX, &[])), 30);
    }

    #[test]
    fn quanta_across_2_to_the_32nd() {
        // 1/1 has as many as there were slots
        for kind in 0..2 {
            let whole = [(1, 1, 0, kind)];
            let mut state = at(1, &whole, 4_294_967_294, &[4_294_967_294]);
            for given in 4_294_967_295..4_294_967_300 {
                assert_eq!(picks(&mut state, 1), [0]);
                assert_eq!((state.time, state.quanta[0]), (given, given));
            }
            assert_eq!(
                slot(&mut state, 0, &mut [0; 2], 0),
                late_at(0, 4_294_967_300)
            );
            // the last four bytes of 2^32 are 0
            assert_eq!(number_of(&at(1, &whole, 4_294_967_296, &[0])), 30);
            assert_eq!(number_of(&at(1, &whole, 0, &[4_294_967_296])), 30);
        }
    }

    #[test]
    fn the_share_in_the_last_slots() {
        // 65534/65535 at 999,999,999,999: 15,259,021 periods, which are 999,999,941,235 slots and
        // 999,984,682,214 quanta, and 58,764 slots more: 65,534·58,764 - 65,535·q is inside with
        // 58,764 quanta (-58,764) and with one less (6,771)
        let (long, jobs) = ([(65534, 65535, 0, 0)], 999_984_682_214);
        let given = |time, more: u64| number_of(&at(65_535, &long, time, &[jobs + more]));
        assert_eq!(given(999_999_999_999, 58_762), 30);
        assert_eq!(given(999_999_999_999, 58_763), 0);
        assert_eq!(given(999_999_999_999, 58_764), 0);
        assert_eq!(given(999_999_999_999, 58_765), 30);
        // at the last time it is one slot and one quantum more: 6,770 and -58,765
        assert_eq!(given(1_000_000_000_000, 58_763), 30);
        assert_eq!(given(1_000_000_000_000, 58_764), 32);
        assert_eq!(given(1_000_000_000_000, 58_765), 32);
        assert_eq!(given(1_000_000_000_000, 58_766), 30);
        // early release 2/6 at 999,999,999,999, three slots into its job 166,666,666,667
        let early = [(2, 6, 0, 1)];
        let given = |quanta| number_of(&at(6, &early, 999_999_999_999, &[quanta]));
        assert_eq!(given(333_333_333_332), 30);
        assert_eq!(given(333_333_333_333), 0);
        assert_eq!(given(333_333_333_334), 0);
        assert_eq!(given(333_333_333_335), 30);
        // 65535/65535 from 65,535 on: as many as slots since then, or for early release up to the
        // end of the job that holds the next, 999,999,941,235
        for kind in 0..2 {
            let whole = [(65535, 65535, 65535, kind)];
            let given = |q| number_of(&at(65_535, &whole, 1_000_000_000_000, &[q]));
            let ahead = if kind == 1 { 32 } else { 30 };
            assert_eq!(given(999_999_934_464), 30);
            assert_eq!(given(999_999_934_465), 32);
            assert_eq!(given(999_999_934_466), ahead);
            assert_eq!(given(999_999_941_235), ahead);
            assert_eq!(given(999_999_941_236), 30);
        }
    }

    #[test]
    fn ready_or_not_in_the_last_slot() {
        // 65534/65535 as above: subtask 58,764 of its job is 999,999,999,998 to the last time,
        // subtask 58,765 is one later, and subtask 58,766 starts with the last time
        let long = [(65534, 65535, 0, 0)];
        let mut behind = at(65_535, &long, 999_999_999_999, &[999_984_740_977]);
        let mut missed = behind;
        assert_eq!(picks(&mut behind, 1), [0]);
        assert_eq!(
            slot(&mut missed, 0, &mut [0; 2], 0),
            late_at(0, 1_000_000_000_000)
        );
        let mut even = at(65_535, &long, 999_999_999_999, &[999_984_740_978]);
        let mut waits = even;
        assert_eq!(picks(&mut even, 1), [0]);
        assert_eq!(picks(&mut waits, 0), []);
        // early release 2/6: the second quantum of the job is ready, the next job is not
        let early = [(2, 6, 0, 1)];
        let mut state = at(6, &early, 999_999_999_998, &[333_333_333_333]);
        assert_eq!(picks(&mut state, 1), [0]);
        assert_eq!(picks(&mut state, 1), []);
        assert_eq!(refused(&state, 1, 9, 0), 32);
    }

    /// The last slot of seven rows on eight cores. Row 0, light 3/8 with phase 6, is
    /// 999,999,999,998 to 1,000,000,000,001, b 1, D 0. The next ones are 999,999,999,999 to
    /// 1,000,000,000,001: 1/2 with phase 1 (b 0), 2/3 (b 1, D one later), 65534/65535 (b 1, D
    /// 1,000,000,006,770, the end of its job), and 1/2 as row 1. Row 5, 1/1, is due at the last
    /// time. Row 6, 1/2, is ready with the last time. The order is 5, 3, 2, 0, 1, 4.
    pub(crate) fn the_last_slot_of_seven_rows() -> State {
        let rows = [
            (3, 8, 6, 0),
            (1, 2, 1, 0),
            (2, 3, 0, 0),
            (65534, 65535, 0, 0),
            (1, 2, 1, 0),
            (1, 1, 0, 0),
            (1, 2, 0, 0),
        ];
        let mut state = fresh(value_of(524_280, 8, &rows));
        state.time = 999_999_999_999;
        let quanta = [
            374_999_999_997,
            499_999_999_999,
            666_666_666_666,
            999_984_740_978,
            499_999_999_999,
            999_999_999_999,
            500_000_000_000,
        ];
        state.quanta[..7].copy_from_slice(&quanta);
        state
    }

    #[test]
    fn the_order_in_the_last_slot() {
        let state = the_last_slot_of_seven_rows();
        let last = 1_000_000_000_000;
        let next = |row, deadline, bit, group| Next {
            row,
            deadline,
            bit,
            group,
            ran: false,
        };
        let expected = [
            next(5, last, 0, last),
            next(3, last + 1, 1, 1_000_000_006_770),
            next(2, last + 1, 1, last + 2),
            next(0, last + 1, 1, 0),
            next(1, last + 1, 0, last + 1),
            next(4, last + 1, 0, last + 1),
        ];
        assert_eq!(ready_rows(&state), expected);
        let rules = [
            Rule::Deadline,
            Rule::GroupDeadline,
            Rule::GroupDeadline,
            Rule::Bit,
            Rule::RowNumber,
        ];
        for (k, rule) in (1..).zip(rules) {
            assert_eq!(deciding_rule(&state, k), Some(rule));
        }
        assert_eq!(picks(&mut state.clone(), 1), [5]);
        assert_eq!(picks(&mut state.clone(), 2), [3, 5]);
        assert_eq!(picks(&mut state.clone(), 3), [2, 3, 5]);
        assert_eq!(picks(&mut state.clone(), 4), [0, 2, 3, 5]);
        assert_eq!(picks(&mut state.clone(), 5), [0, 1, 2, 3, 5]);
        assert_eq!(picks(&mut state.clone(), 6), [0, 1, 2, 3, 4, 5]);
        // without a core row 5 alone is late
        let mut none = state;
        let expected = late_at(5, 1_000_000_000_000);
        assert_eq!(slot(&mut none, 0, &mut [0; 2], 0), expected);
        assert_eq!(refused(&none, 0, 2, 0), 31);
    }

    #[test]
    fn broken_stopped_or_at_the_last_time() {
        let mut state = the_last_slot_of_seven_rows();
        assert_eq!(picks(&mut state, 8), [0, 1, 2, 3, 4, 5]);
        let given = [
            374_999_999_998,
            500_000_000_000,
            666_666_666_667,
            999_984_740_979,
            500_000_000_000,
            1_000_000_000_000,
            500_000_000_000,
        ];
        assert_eq!(state.quanta[..7], given);
        assert_eq!(state.time, 1_000_000_000_000);
        // 32, or 31 where it is stopped
        let number = |change: &dyn Fn(&mut State)| {
            let mut changed = state;
            change(&mut changed);
            let number = refused(&changed, 8, 9, 0);
            changed.stopped = true;
            (number, refused(&changed, 8, 9, 0))
        };
        assert_eq!(number(&|_| ()), (32, 31));
        // outside a share: 1/1 has one less; 2/3 one more
        assert_eq!(number(&|s| s.quanta[5] -= 1), (30, 31));
        assert_eq!(number(&|s| s.quanta[2] += 1), (30, 31));
        // quanta above time, in each row; places past n are ignored
        for place in 0..7 {
            assert_eq!(number(&|s| s.quanta[place] = 1_000_000_000_001), (30, 30));
            assert_eq!(number(&|s| s.quanta[place] = u64::MAX), (30, 30));
        }
        assert_eq!(number(&|s| s.quanta[7] = u64::MAX), (32, 31));
        // time above its limit, whatever the quanta; with one more for 1/1 every row is inside its
        // share at 1,000,000,000,001
        assert_eq!(number(&|s| s.time += 1), (30, 30));
        let both = |s: &mut State| {
            s.time += 1;
            s.quanta[5] += 1;
        };
        let mut beyond = state;
        both(&mut beyond);
        for (row, quanta) in beyond.table.named_rows().iter().zip(beyond.quanta) {
            assert!(share::inside(row, 1_000_000_000_001, quanta));
        }
        assert_eq!(number(&both), (30, 30));
        assert_eq!(number(&|s| s.time = u64::MAX), (30, 30));
        // memory and table
        assert_eq!(number(&|s| s.last.count = 9), (30, 30));
        assert_eq!(number(&|s| s.table.cycle += 1), (30, 30));
        // 32 goes before 35 and 34
        assert_eq!(refused(&state, 9, 9, 0), 32);
        assert_eq!(refused(&state, 8, 0, 1), 32);
    }

    #[test]
    fn wild_numbers_are_judged_without_a_fault_of_their_own() {
        let wild = [
            1_000_000_000_001,
            1_099_511_627_776,
            1 << 63,
            u64::MAX - 1,
            u64::MAX,
        ];
        // rows of both kinds whose e·a, p·q and jobs are the largest
        let rows = [(65535, 65535, 0, 0), (65534, 65535, 65535, 1)];
        for time in wild {
            for quanta in [0, 1, time - 1, time, u64::MAX] {
                for stopped in [false, true] {
                    let mut state = at(65_535, &rows, time, &[quanta, quanta]);
                    state.stopped = stopped;
                    assert_eq!(refused(&state, 2, 9, 0), 30);
                    // without rows the time alone breaks it
                    state.table.count = 0;
                    assert_eq!(refused(&state, 2, 9, 0), 30);
                }
            }
            // a count of quanta alone
            for known in [0, 999_999_999_999, 1_000_000_000_000] {
                let mut state = at(65_535, &rows, known, &[known, time]);
                assert_eq!(refused(&state, 2, 9, 0), 30);
                state.stopped = true;
                assert_eq!(refused(&state, 2, 9, 0), 30);
            }
        }
    }

    // ---- format 2 (02, Eight) ----

    #[test]
    fn four_halves_on_two_cores() {
        // subtask i of 1/2 is 2i-2 to 2i, b 0: in every second slot all four are ready, full ties,
        // and in the slot after it those that were not picked
        let rows = [(1, 2, 0, 0); 4];
        let (low, high) = ([0, 1], [2, 3]);
        let mut state = fresh(value_of(2, 2, &rows));
        for expected in [low, high, low, high, low, high, low, high] {
            assert_eq!(picks(&mut state, 2), expected);
        }
        // nobody ran before slot 0; before slot 2 rows 2 and 3 did, before slot 4 rows 0 and 1
        let mut state = fresh(value_of_2(2, 2, &rows));
        for expected in [low, high, high, low, low, high, high, low, low] {
            assert_eq!(picks(&mut state, 2), expected);
        }
    }

    #[test]
    fn two_halves_on_one_core() {
        let rows = [(1, 2, 0, 0); 2];
        let mut state = fresh(value_of(2, 1, &rows));
        for expected in [0, 1, 0, 1, 0, 1] {
            assert_eq!(picks(&mut state, 1), [expected]);
        }
        let mut state = fresh(value_of_2(2, 1, &rows));
        // in slot 0 the number decides, in the other even ones who ran; in the odd ones one alone
        // is ready
        for (time, expected) in (0..).zip([0, 1, 1, 0, 0, 1, 1, 0]) {
            let rule = match time {
                0 => Some(Rule::RowNumber),
                _ if time % 2 == 0 => Some(Rule::RanBefore),
                _ => None,
            };
            assert_eq!(deciding_rule(&state, 1), rule);
            assert_eq!(picks(&mut state, 1), [expected]);
        }
    }

    #[test]
    fn the_example_in_format_2() {
        let mut state = fresh(table::read(&in_format(2, &EXAMPLE)).unwrap());
        // slots 0 to 2 are those of 01: in slot 1 row 2 is due first, and of the others both ran
        assert_eq!(placed(&mut state, &[0, 1]), [(0, 0), (1, 1)]);
        assert_eq!(placed(&mut state, &[0, 1]), [(0, 0), (2, 1)]);
        assert_eq!(placed(&mut state, &[0, 1]), [(1, 0), (2, 1)]);
        // slot 3: all are 3 to 5, b 1, D 6; rows 1 and 2 ran, and stay where they were
        assert_eq!(placed(&mut state, &[0, 1]), [(1, 0), (2, 1)]);
        // row 0 is due at 5; rows 1 and 2 are due at 6, and both ran
        assert_eq!(placed(&mut state, &[0, 1]), [(0, 1), (1, 0)]);
        // row 1 has its four quanta
        assert_eq!(placed(&mut state, &[0, 1]), [(0, 1), (2, 0)]);
        // slot 6: rows 0 and 2 ran
        assert_eq!(placed(&mut state, &[0, 1]), [(0, 1), (2, 0)]);
        assert_eq!(placed(&mut state, &[0, 1]), [(0, 1), (1, 0)]);
        assert_eq!(placed(&mut state, &[0, 1]), [(1, 0), (2, 1)]);
        assert_eq!(state.quanta[..4], [6, 6, 6, 0]);
    }

    #[test]
    fn thirty_two_rows_in_format_2() {
        // 1/4 on eight cores: in slots 0, 4 and 8 all are ready; eight at a time
        let mut state = fresh(value_of_2(4, 8, &[(1, 4, 0, 0); 32]));
        for eight in [0, 1, 2, 3, 3, 0, 1, 2, 2, 0, 1, 3, 3, 0] {
            let expected: Vec<u8> = (8 * eight..8 * eight + 8).collect();
            assert_eq!(picks(&mut state, 8), expected);
        }
    }

    /// Two rows on two cores, one of them free: who goes, and by which rule, where nobody ran in
    /// the slot before, where row 0 did, where row 1 did, and where both did.
    fn by_who_ran(format: u8, state: &State) -> [(u8, Rule); 4] {
        let memories = [vec![], vec![(0, 0)], vec![(1, 0)], vec![(0, 1), (1, 0)]];
        memories.map(|pairs| {
            let mut state = *state;
            state.table.format = format;
            state.last = placement_of(&pairs);
            let rule = deciding_rule(&state, 1).unwrap();
            let mut buffer = [0; 3];
            assert!(slot(&mut state, 1, &mut buffer, 0).number < 2);
            assert_eq!(buffer[..2], [1, 1]);
            (buffer[2], rule)
        })
    }

    #[test]
    fn among_full_ties_a_row_that_ran_goes_first() {
        let ties = [
            // both b = 1 and the same D: 2/3 is 0 to 2, D 3; 2/5 is 0 to 3, D 0
            at(3, &[(2, 3, 0, 0), (2, 3, 0, 0)], 0, &[]),
            at(5, &[(2, 5, 0, 0), (2, 5, 0, 0)], 0, &[]),
            // both b = 0: 1/2 is 0 to 2, of either kind
            at(2, &[(1, 2, 0, 0), (1, 2, 0, 0)], 0, &[]),
            at(2, &[(1, 2, 0, 1), (1, 2, 0, 0)], 0, &[]),
            // both b = 0, where D is not asked: 1/4 (0 to 4, D 0), 3/4 with two quanta (2 to 4,
            // D 4)
            at(4, &[(1, 4, 0, 0), (3, 4, 0, 0)], 2, &[0, 2]),
            at(4, &[(3, 4, 0, 0), (1, 4, 0, 0)], 2, &[2, 0]),
            // an early-release row has its window's deadline: 2/6 with one quantum is 3 to 6, as
            // 1/6 is 0 to 6
            at(6, &[(2, 6, 0, 1), (1, 6, 0, 0)], 1, &[1, 0]),
            // two whole-core rows, 0 to 1
            at(2, &[(1, 1, 0, 0), (2, 2, 0, 1)], 0, &[]),
        ];
        let (number, ran) = (Rule::RowNumber, Rule::RanBefore);
        for state in &ties {
            assert_eq!(by_who_ran(1, state), [(0, number); 4]);
            let expected = [(0, number), (0, ran), (1, ran), (0, number)];
            assert_eq!(by_who_ran(2, state), expected);
        }
    }

    #[test]
    fn who_ran_is_asked_after_deadline_bit_and_group_deadline() {
        let cases = [
            // 1/3 is due at 3, 1/2 at 2
            (at(6, &[(1, 3, 0, 0), (1, 2, 0, 0)], 0, &[]), Rule::Deadline),
            // 1/2 has b = 0, 2/3 has b = 1
            (at(6, &[(1, 2, 0, 0), (2, 3, 0, 0)], 0, &[]), Rule::Bit),
            // 2/3 has D 3, 3/4 has D 4
            (
                at(12, &[(2, 3, 0, 0), (3, 4, 0, 0)], 0, &[]),
                Rule::GroupDeadline,
            ),
            // light 3/8 with phase 1 (1 to 4, b 1, D 0), heavy 2/3 with phase 2 (2 to 4, b 1, D 5)
            (
                at(24, &[(3, 8, 1, 0), (2, 3, 2, 0)], 2, &[]),
                Rule::GroupDeadline,
            ),
        ];
        for (state, rule) in &cases {
            for format in 1..=2 {
                assert_eq!(by_who_ran(format, state), [(1, *rule); 4]);
            }
        }
    }

    #[test]
    fn six_rows_of_which_two_ran() {
        // rows 1 and 4 are full ties and row 4 ran; row 2, due at 4, ran as well and stays last
        let mut state = six_rows();
        state.table.format = 2;
        state.last = placement_of(&[(2, 3), (4, 0)]);
        let next = |row, deadline, bit, group, ran| Next {
            row,
            deadline,
            bit,
            group,
            ran,
        };
        let expected = [
            next(3, 2, 1, 4, false),
            next(0, 2, 1, 3, false),
            next(4, 2, 0, 2, true),
            next(1, 2, 0, 2, false),
            next(2, 4, 0, 0, true),
        ];
        assert_eq!(ready_rows(&state), expected);
        in_any_arrival(2, &expected);
        let rules = [
            Rule::GroupDeadline,
            Rule::Bit,
            Rule::RanBefore,
            Rule::Deadline,
        ];
        for (k, rule) in (1..).zip(rules) {
            assert_eq!(deciding_rule(&state, k), Some(rule));
        }
        assert_eq!(picks(&mut state.clone(), 2), [0, 3]);
        assert_eq!(picks(&mut state.clone(), 3), [0, 3, 4]);
        assert_eq!(picks(&mut state.clone(), 4), [0, 1, 3, 4]);
        // in format 1 row 1 goes by its number
        state.table.format = 1;
        assert_eq!(deciding_rule(&state, 3), Some(Rule::RowNumber));
        assert_eq!(picks(&mut state.clone(), 3), [0, 1, 3]);
    }

    /// Three early-release rows 4/16 on three cores, in format 2: d is 4 for the first quantum, 8
    /// for the second, 12, 16, and b is 0. After three slots with one core each has one quantum,
    /// and row 2 ran in the slot before.
    fn one_quantum_each() -> State {
        let mut state = fresh(value_of_2(16, 3, &[(4, 16, 0, 1); 3]));
        for row in 0..3 {
            assert_eq!(picks(&mut state, 1), [row]);
        }
        state
    }

    #[test]
    fn the_slot_before_is_the_one_just_before() {
        let mut state = one_quantum_each();
        // all are due at 8
        assert_eq!(picks(&mut state.clone(), 2), [0, 2]);
        assert_eq!(picks(&mut state, 1), [2]);
        assert_eq!(picks(&mut state, 1), [0]);
        assert_eq!(picks(&mut state, 1), [1]);
        // all are due at 12: row 1 ran, row 2 three slots ago
        assert_eq!(deciding_rule(&state, 1), Some(Rule::RanBefore));
        assert_eq!(picks(&mut state.clone(), 2), [0, 1]);
        assert_eq!(picks(&mut state, 1), [1]);
        // in format 1 it is row 0, whoever ran
        let mut plain = one_quantum_each();
        plain.table.format = 1;
        assert_eq!(picks(&mut plain, 1), [0]);
    }

    #[test]
    fn after_a_slot_that_picks_nobody_nobody_ran() {
        let mut state = one_quantum_each();
        assert_eq!(picks(&mut state, 0), []);
        assert_eq!(deciding_rule(&state, 1), Some(Rule::RowNumber));
        assert_eq!(picks(&mut state, 1), [0]);
        // nobody is ready in slots 2 and 3 of four rows 1/4 on two cores
        let mut state = fresh(value_of_2(4, 2, &[(1, 4, 0, 0); 4]));
        let expected: [&[u8]; 6] = [&[0, 1], &[2, 3], &[], &[], &[0, 1], &[2, 3]];
        for rows in expected {
            assert_eq!(picks(&mut state, 2), rows);
        }
    }

    #[test]
    fn a_refused_slot_is_no_slot_before() {
        let mut state = one_quantum_each();
        assert_eq!(refused(&state, 4, 9, 0), 35);
        assert_eq!(refused(&state, 1, 2, 0), 34);
        assert_eq!(picks(&mut state, 1), [2]);
    }

    #[test]
    fn what_is_remembered_is_who_ran() {
        // whoever was really picked; what stands past the count was not
        let mut state = one_quantum_each();
        state.last = Placement {
            count: 1,
            rows: [1, 2, 0, 0, 0, 0, 0, 0],
            cores: [2, 1, 0, 0, 0, 0, 0, 0],
        };
        assert_eq!(picks(&mut state.clone(), 2), [0, 1]);
        assert_eq!(picks(&mut state, 1), [1]);
        // at time 0, where no slot was before, and of a row that is not ready
        let mut state = fresh(value_of_2(
            4,
            2,
            &[(1, 4, 1, 0), (1, 4, 0, 0), (1, 4, 0, 0)],
        ));
        state.last = placement_of(&[(0, 0), (2, 1)]);
        assert_eq!(picks(&mut state, 1), [2]);
    }

    #[test]
    fn a_row_that_ran_goes_first_whether_its_core_is_free_or_not() {
        // four rows 1/2 on three cores, two of them free in slots 0 and 1
        let mut state = fresh(value_of_2(2, 3, &[(1, 2, 0, 0); 4]));
        assert_eq!(placed(&mut state, &[0, 1]), [(0, 0), (1, 1)]);
        assert_eq!(placed(&mut state, &[0, 1]), [(2, 0), (3, 1)]);
        // slot 2: rows 2 and 3 ran; one stays and one moves, or the one that goes moves
        assert_eq!(placed(&mut state.clone(), &[0, 2]), [(2, 0), (3, 2)]);
        assert_eq!(placed(&mut state.clone(), &[2]), [(2, 2)]);
        // in format 1 row 0 goes
        state.table.format = 1;
        assert_eq!(placed(&mut state, &[2]), [(0, 2)]);
    }

    #[test]
    fn a_whole_core_row_that_ran_goes_before_a_full_tie() {
        // light 1/3 (0 to 3, b 0) and 1/1, due at 1, 2, 3; one core of two is free
        let rows = [(1, 3, 0, 0), (1, 1, 0, 0)];
        for (format, picked, late) in [(1, 0, 1), (2, 1, 0)] {
            let mut state = at(3, &rows, 0, &[]);
            state.table.format = format;
            assert_eq!(picks(&mut state, 1), [1]);
            assert_eq!(picks(&mut state, 1), [1]);
            let mut buffer = [0; 3];
            assert_eq!(slot(&mut state, 1, &mut buffer, 0), late_at(late, 3));
            assert_eq!(buffer, [1, 1, picked]);
        }
    }

    #[test]
    fn who_ran_before_the_last_slot() {
        // rows 1 and 4 differ in nothing but that row 4 ran
        let mut state = the_last_slot_of_seven_rows();
        state.table.format = 2;
        state.last = placement_of(&[(4, 0), (6, 1)]);
        assert_eq!(deciding_rule(&state, 5), Some(Rule::RanBefore));
        assert_eq!(picks(&mut state.clone(), 4), [0, 2, 3, 5]);
        assert_eq!(picks(&mut state.clone(), 5), [0, 2, 3, 4, 5]);
        assert_eq!(picks(&mut state.clone(), 6), [0, 1, 2, 3, 4, 5]);
    }

    #[test]
    fn a_format_that_is_neither_breaks_the_state() {
        let mut sound = fresh(value_of(2, 2, &[(1, 2, 0, 0)]));
        let mut last = fresh(value_of(1, 1, &[]));
        last.time = 1_000_000_000_000;
        for format in 0..=255 {
            let neither = format != 1 && format != 2;
            let number = |other| if neither { 30 } else { other };
            sound.table.format = format;
            last.table.format = format;
            assert_eq!(broken(&sound), neither);
            assert_eq!(number_of(&sound), number(0));
            // before 31, 32, 35 and 34
            let stopped = State {
                stopped: true,
                ..sound
            };
            assert_eq!(refused(&stopped, 2, 9, 0), number(31));
            assert_eq!(refused(&last, 1, 9, 0), number(32));
            assert_eq!(refused(&sound, 3, 9, 0), number(35));
            assert_eq!(refused(&sound, 2, 2, 0), number(34));
            // it has nothing to do with the memory
            assert!(!misremembers(&sound));
        }
    }

    #[test]
    fn a_count_above_m_is_amiss_whatever_the_cores() {
        // eight rows on M cores, as many remembered as one likes
        for cores in 1..=8 {
            for format in 1..=2 {
                let mut state = fresh(value_of(8, cores, &[(1, 8, 0, 0); 8]));
                state.table.format = format;
                for count in 0..=8 {
                    // on cores that are there, as far as they go, and on others
                    let pairs: Vec<(u8, u8)> = (0..count).map(|row| (row, row)).collect();
                    state.last = placement_of(&pairs);
                    assert_eq!(misremembers(&state), count > cores);
                    let pairs: Vec<(u8, u8)> = (0..count).map(|row| (row, row % cores)).collect();
                    state.last = placement_of(&pairs);
                    assert_eq!(misremembers(&state), count > cores);
                }
            }
        }
    }

    #[test]
    fn rows_that_do_not_rise_are_amiss_at_any_place() {
        // eight rows on eight cores; two neighbours, and the first and the last, change places
        let rising: Vec<(u8, u8)> = (0..8).map(|row| (row, 7 - row)).collect();
        for format in 1..=2 {
            let mut state = fresh(value_of(8, 8, &[(1, 8, 0, 0); 8]));
            state.table.format = format;
            state.last = placement_of(&rising);
            assert_eq!(slot_on(&mut state.clone(), 0xFF, &mut [0; 10], 0).0, DONE);
            for (one, other) in [(0, 1), (1, 2), (3, 4), (5, 6), (6, 7), (0, 7)] {
                let mut pairs = rising.clone();
                pairs.swap(one, other);
                state.last = placement_of(&pairs);
                assert_eq!(refused_on(&state, 0xFF, 10, 0), 30);
                // stopped, too; and not if they stand past the count
                state.stopped = true;
                assert_eq!(refused_on(&state, 0xFF, 10, 0), 30);
                state.last.count = other as u8;
                let expected = if other - one == 1 { 31 } else { 30 };
                assert_eq!(refused_on(&state, 0xFF, 10, 0), expected);
                state.stopped = false;
            }
        }
    }

    // ---- a core for each picked row ----

    /// One slot with these cores free, into a buffer of its own; (row, core) of each picked row.
    fn placed(state: &mut State, free: &[u8]) -> Vec<(u8, u8)> {
        let mut buffer = [0xEE; 10];
        let (answer, placement) = slot_on(state, set_of(free), &mut buffer, 0);
        assert_eq!(answer, DONE);
        // "k becomes the size of the set"
        assert_eq!(buffer[0], free.len() as u8);
        let c = usize::from(buffer[1]);
        assert_eq!(placement.named_rows(), &buffer[2..2 + c]);
        assert_eq!(state.last, placement);
        let rows = placement.named_rows().iter().copied();
        let pairs: Vec<(u8, u8)> = rows.zip(placement.named_cores().iter().copied()).collect();
        // 0 past the count
        assert_eq!(placement, placement_of(&pairs));
        pairs
    }

    /// A slot that must be refused: the number, with state and buffer as they were, and nobody
    /// placed.
    fn refused_on(state: &State, free: u32, room: usize, place: u64) -> u8 {
        let mut after = *state;
        let mut buffer = vec![0xEE; room];
        let (answer, placement) = slot_on(&mut after, free, &mut buffer, place);
        assert_eq!(after, *state);
        assert!(buffer.iter().all(|&byte| byte == 0xEE));
        assert_eq!((answer.row, answer.time), (0, 0));
        assert_eq!(placement, Placement::nobody());
        answer.number
    }

    #[test]
    fn the_cores_of_the_example() {
        let mut state = fresh(table::read(&EXAMPLE).unwrap());
        assert_eq!(state.last, Placement::nobody());
        assert_eq!(placed(&mut state, &[0, 1]), [(0, 0), (1, 1)]);
        // row 0 stays
        assert_eq!(placed(&mut state, &[0, 1]), [(0, 0), (2, 1)]);
        // row 2 stays; row 1 was on core 1 two slots ago, which is no slot "before"
        assert_eq!(placed(&mut state, &[0, 1]), [(1, 0), (2, 1)]);
    }

    /// Three early-release rows 4/8 on three cores: ready while they have less than 4 quanta, d is
    /// 2 for the first, 4 for the second, 6, 8.
    fn three_halves() -> State {
        fresh(value_of(8, 3, &[(4, 8, 0, 1), (4, 8, 0, 1), (4, 8, 0, 1)]))
    }

    #[test]
    fn cores_from_slot_to_slot() {
        let mut state = three_halves();
        assert_eq!(placed(&mut state, &[1, 2]), [(0, 1), (1, 2)]);
        // row 2 is due at 2, then rows 0 and 1 at 4; row 0 stays though core 0 is free
        assert_eq!(placed(&mut state, &[0, 1]), [(0, 1), (2, 0)]);
        // rows 1 and 2 are due at 4, row 0 at 6; row 1 did not run in the slot before
        assert_eq!(placed(&mut state, &[0, 2]), [(1, 2), (2, 0)]);
        // rows 1 and 2 stay, row 0 gets what is left
        assert_eq!(placed(&mut state, &[0, 1, 2]), [(0, 1), (1, 2), (2, 0)]);
        // all have three; row 0 goes by its number and must move
        assert_eq!(placed(&mut state, &[2]), [(0, 2)]);
        // row 0 has its four quanta; rows 1 and 2 did not run in the slot before
        assert_eq!(placed(&mut state, &[0, 1, 2]), [(1, 0), (2, 1)]);
        // nobody is ready: nobody is remembered
        assert_eq!(placed(&mut state, &[0, 1, 2]), []);
        assert_eq!(state.last, Placement::nobody());
    }

    #[test]
    fn after_a_slot_that_picks_nobody_nobody_is_remembered() {
        let mut state = three_halves();
        assert_eq!(placed(&mut state, &[0, 1, 2]), [(0, 0), (1, 1), (2, 2)]);
        // in the next slot row 1 would stay and row 0 move
        let mut next = state;
        assert_eq!(placed(&mut next, &[1, 2]), [(0, 2), (1, 1)]);
        // after a slot without a free core there is none to stay on
        assert_eq!(placed(&mut state, &[]), []);
        assert_eq!(state.last, Placement::nobody());
        assert_eq!(placed(&mut state, &[1, 2]), [(0, 1), (1, 2)]);
        // the same with a single row
        let mut state = fresh(value_of(8, 2, &[(2, 8, 0, 1)]));
        assert_eq!(placed(&mut state, &[1]), [(0, 1)]);
        let mut next = state;
        assert_eq!(placed(&mut next, &[0, 1]), [(0, 1)]);
        assert_eq!(placed(&mut state, &[]), []);
        assert_eq!(placed(&mut state, &[0, 1]), [(0, 0)]);
    }

    #[test]
    fn cores_are_numbered_in_board_order() {
        // boards 5 and 9 are cores 0 and 1
        let mut state = fresh(value_of(8, 2, &[(2, 8, 0, 1), (2, 8, 0, 1)]));
        state.table.boards[..2].copy_from_slice(&[5, 9]);
        assert_eq!(refused_on(&state, 1 << 5 | 1 << 9, 9, 0), 35);
        assert_eq!(refused_on(&state, 1 << 5, 9, 0), 35);
        assert_eq!(placed(&mut state, &[0, 1]), [(0, 0), (1, 1)]);
        state.last = placement_of(&[(0, 5)]);
        assert_eq!(refused_on(&state, 0b11, 9, 0), 30);
    }

    #[test]
    fn a_late_slot_places_and_remembers_too() {
        let mut state = thirds_and_quarters();
        assert_eq!(placed(&mut state, &[]), []);
        let mut buffer = [0xEE; 3];
        let (answer, placement) = slot_on(&mut state, 0b10, &mut buffer, 0);
        let expected = Answer {
            number: 1,
            row: 0,
            time: 2,
        };
        assert_eq!(answer, expected);
        assert_eq!(placement, placement_of(&[(2, 1)]));
        assert_eq!(buffer, [1, 1, 2]);
        assert!(state.stopped);
        assert_eq!(state.last, placement);
        assert_eq!(refused_on(&state, 0b10, 9, 0), 31);
    }

    #[test]
    fn a_set_naming_a_core_not_below_m() {
        for cores in 1..=8 {
            let state = fresh(value_of(6, cores, &[(1, 2, 0, 0)]));
            for core in 0..32 {
                let expected = if core < cores { 0 } else { 35 };
                let mut after = state;
                let number = slot_on(&mut after, 1 << core, &mut [0; 9], 0).0.number;
                assert_eq!(number, expected, "core {} of {}", core, cores);
                if core >= cores {
                    assert_eq!(refused_on(&state, 1 << core, 9, 0), 35);
                    // a core below M does not mend it
                    assert_eq!(refused_on(&state, 1 << core | 1, 9, 0), 35);
                    // 35 goes before 34
                    assert_eq!(refused_on(&state, 1 << core, 0, 0), 35);
                }
            }
            assert_eq!(refused_on(&state, u32::MAX, 9, 0), 35);
        }
        // 30, 31 and 32 go before it
        let mut state = fresh(value_of(6, 2, &[]));
        state.time = 1_000_000_000_000;
        assert_eq!(refused_on(&state, 0b100, 9, 0), 32);
        state.stopped = true;
        assert_eq!(refused_on(&state, 0b100, 9, 0), 31);
        state.time += 1;
        assert_eq!(refused_on(&state, 0b100, 9, 0), 30);
    }

    #[test]
    fn room_for_the_record_of_a_set() {
        let state = fresh(value_of(6, 2, &[(1, 2, 0, 0)]));
        assert_eq!(refused_on(&state, 0b10, 2, 0), 34);
        assert_eq!(refused_on(&state, 0b10, 3, 1), 34);
        assert_eq!(refused_on(&state, 0b00, 1, 0), 34);
        let mut buffer = [0xEE; 5];
        let (answer, placement) = slot_on(&mut state.clone(), 0b10, &mut buffer, 1);
        assert_eq!(answer, DONE);
        assert_eq!(placement, placement_of(&[(0, 1)]));
        assert_eq!(buffer, [0xEE, 1, 1, 0, 0xEE]);
    }

    /// 01's example table at its start, remembering these (row, core): the slot's number, the same
    /// in both formats.
    fn remembering(pairs: &[(u8, u8)]) -> u8 {
        let numbers = [1, 2].map(|format| {
            let mut state = fresh(table::read(&in_format(format, &EXAMPLE)).unwrap());
            state.last = placement_of(pairs);
            assert_eq!(broken(&state), misremembers(&state));
            if misremembers(&state) {
                return refused_on(&state, 0b11, 9, 0);
            }
            slot_on(&mut state, 0b11, &mut [0; 9], 0).0.number
        });
        assert_eq!(numbers[0], numbers[1]);
        numbers[0]
    }

    #[test]
    fn what_is_remembered_amiss_breaks_the_state() {
        // three rows on two cores
        assert_eq!(remembering(&[]), 0);
        assert_eq!(remembering(&[(0, 0)]), 0);
        assert_eq!(remembering(&[(0, 0), (2, 1)]), 0);
        assert_eq!(remembering(&[(0, 1), (2, 0)]), 0);
        // "a remembered core not below M"
        assert_eq!(remembering(&[(0, 2)]), 30);
        assert_eq!(remembering(&[(0, 0), (1, 2)]), 30);
        assert_eq!(remembering(&[(0, 255)]), 30);
        // "or given to two rows"
        assert_eq!(remembering(&[(0, 0), (1, 0)]), 30);
        assert_eq!(remembering(&[(0, 1), (1, 0), (2, 1)]), 30);
        // "or a remembered row not below n"
        assert_eq!(remembering(&[(3, 0)]), 30);
        assert_eq!(remembering(&[(0, 0), (255, 1)]), 30);
        // "or on two cores"
        assert_eq!(remembering(&[(1, 0), (1, 1)]), 30);
        // "one pair standing twice is 30"
        assert_eq!(remembering(&[(1, 0), (1, 0)]), 30);
        // 02, Eight: "not rising", whatever the cores
        assert_eq!(remembering(&[(2, 1), (0, 0)]), 30);
        assert_eq!(remembering(&[(2, 0), (0, 1)]), 30);
        assert_eq!(remembering(&[(1, 1), (0, 0)]), 30);
        // "or a count of them above M"
        assert_eq!(remembering(&[(0, 0), (1, 1), (2, 2)]), 30);
        assert_eq!(remembering(&[(0, 0), (1, 1), (2, 0)]), 30);
    }

    #[test]
    fn what_is_remembered_is_held_against_nothing_else() {
        // at time 0, of rows that have no quantum, of rows that are not ready (phase 5)
        let mut state = fresh(value_of(6, 2, &[(1, 2, 0, 0), (1, 3, 5, 0)]));
        state.last = placement_of(&[(0, 1), (1, 0)]);
        assert_eq!(placed(&mut state, &[0, 1]), [(0, 1)]);
        // a stopped state's memory is judged as well, before 31
        let mut stopped = state;
        stopped.stopped = true;
        assert_eq!(refused_on(&stopped, 0b11, 9, 0), 31);
        stopped.last = placement_of(&[(0, 2)]);
        assert_eq!(refused_on(&stopped, 0b11, 9, 0), 30);
        // and before 32
        let mut state = fresh(value_of(1, 1, &[]));
        state.time = 1_000_000_000_000;
        assert_eq!(refused_on(&state, 0b1, 9, 0), 32);
        state.last.count = 1;
        assert_eq!(refused_on(&state, 0b1, 9, 0), 30);
    }

    #[test]
    fn a_count_above_8_breaks_the_state_whatever_else() {
        let mut state = fresh(value_of(8, 8, &[(1, 8, 0, 0); 8]));
        let cores = [
            (0, 0),
            (1, 1),
            (2, 2),
            (3, 3),
            (4, 4),
            (5, 5),
            (6, 6),
            (7, 7),
        ];
        state.last = placement_of(&cores);
        assert!(!misremembers(&state));
        for count in 9..=255 {
            state.last.count = count;
            assert!(misremembers(&state));
            assert_eq!(refused_on(&state, 0xFF, 10, 0), 30);
        }
    }

    #[test]
    fn what_stands_past_the_count_is_ignored() {
        let mut state = three_halves();
        state.last = Placement {
            count: 1,
            rows: [2, 2, 99, 255, 0, 0, 0, 1],
            cores: [0, 0, 99, 3, 255, 1, 1, 1],
        };
        assert!(!misremembers(&state));
        // with a refusal it comes back as it came
        assert_eq!(refused_on(&state, 0b1000, 9, 0), 35);
        assert_eq!(refused_on(&state, 0b111, 4, 0), 34);
        // row 2 alone was there; afterwards 0 stands past the count
        assert_eq!(placed(&mut state, &[0, 1, 2]), [(0, 1), (1, 2), (2, 0)]);
        assert_eq!(state.last.rows[3..], [0; 5]);
        assert_eq!(state.last.cores[3..], [0; 5]);
    }

    #[test]
    fn memories_of_wild_tables() {
        let mut state = fresh(Table::zero());
        // M = 0 and n = 0: nothing can be remembered
        assert!(!misremembers(&state));
        state.last = placement_of(&[(0, 0)]);
        assert!(misremembers(&state));
        state.table.cores = 255;
        assert!(misremembers(&state));
        state.table.count = 255;
        assert!(!misremembers(&state));
        state.last = placement_of(&[(0, 254), (254, 0)]);
        assert!(!misremembers(&state));
        // the table breaks it all the same
        assert!(broken(&state));
        assert_eq!(refused_on(&state, 0, 9, 0), 30);
        state.last = placement_of(&[(254, 0), (0, 254)]);
        assert!(misremembers(&state));
        state.last = placement_of(&[(0, 255), (254, 0)]);
        assert!(misremembers(&state));
        state.last = placement_of(&[(0, 254), (255, 0)]);
        assert!(misremembers(&state));
        state.last = placement_of(&[(254, 0), (254, 254)]);
        assert!(misremembers(&state));
        state.last = placement_of(&[(253, 9), (254, 9)]);
        assert!(misremembers(&state));
        state.table.count = 0;
        state.last = placement_of(&[(0, 9)]);
        assert!(misremembers(&state));
    }

    // ---- tables by chance, for the statements over all runs ----

    /// A table without fault, of either format, as full as its rows by chance allow. One row in
    /// eight that is tried has e = p.
    pub(crate) fn table_by_chance(chance: &mut Chance) -> Table {
        let cycles = [6, 12, 24, 30, 60];
        let cycle = cycles[chance.below(5) as usize];
        let cores = 1 + chance.below(4) as u8;
        let mut rows: Vec<(u16, u16, u16, u8)> = Vec::new();
        for _ in 0..40 {
            let whole_core = chance.below(8) == 0;
            let shortest = if whole_core { 1 } else { 2 };
            let p = shortest + chance.below(u64::from(cycle) + 1 - u64::from(shortest)) as u16;
            if cycle % u32::from(p) != 0 || rows.len() == 32 {
                continue;
            }
            let e = if whole_core {
                p
            } else {
                1 + chance.below(u64::from(p) - 1) as u16
            };
            let f = if chance.below(2) == 0 {
                0
            } else {
                chance.below(20) as u16
            };
            rows.push((e, p, f, chance.below(2) as u8));
            if table::fault(&value_of(cycle, cores, &rows)) != 0 {
                rows.pop();
            }
        }
        Table {
            format: 1 + chance.below(2) as u8,
            ..value_of(cycle, cores, &rows)
        }
    }

    fn has_the_whole_core(row: &Row) -> bool {
        row.cost == row.period
    }

    #[test]
    fn with_all_cores_free_no_row_is_ever_late() {
        let mut chance = Chance(0x1234_5678_9ABC_DEF1);
        let mut with_whole_cores = 0;
        for _ in 0..150 {
            let table = table_by_chance(&mut chance);
            let mut state = fresh(table);
            for _ in 0..3 * table.cycle + 20 {
                let answer = slot(&mut state, table.cores, &mut [0; 10], 0);
                assert_eq!(answer, DONE);
            }
            let rows = table.named_rows();
            with_whole_cores += u32::from(rows.iter().any(has_the_whole_core));
        }
        assert!(with_whole_cores >= 30 && with_whole_cores <= 90);
    }

    /// With all cores free and every row begun at once, whole-core rows and the others do not meet:
    /// as many cores less, and without them, the others are picked in the same slots.
    #[test]
    fn the_others_run_as_they_would_without_the_whole_core_rows() {
        let mut chance = Chance(0x02_0008);
        let mut beside = 0;
        for _ in 0..150 {
            let mut table = table_by_chance(&mut chance);
            for row in table.rows.iter_mut() {
                row.phase = 0;
            }
            let (mut others, mut numbers) = (Table::zero(), Vec::new());
            for (number, row) in table.named_rows().iter().enumerate() {
                if !has_the_whole_core(row) {
                    others.rows[numbers.len()] = *row;
                    numbers.push(number as u8);
                }
            }
            let whole = table.count - numbers.len() as u8;
            others.format = table.format;
            others.cycle = table.cycle;
            others.cores = table.cores - whole;
            others.boards = table.boards;
            others.count = numbers.len() as u8;
            if others.cores == 0 {
                continue;
            }
            beside += u32::from(whole > 0);
            let (mut all, mut apart) = (fresh(table), fresh(others));
            for _ in 0..table.cycle {
                let is_other = |number: &u8| numbers.contains(number);
                let picked = picks(&mut all, table.cores).into_iter().filter(is_other);
                let alone = picks(&mut apart, others.cores).into_iter();
                let alone = alone.map(|number| numbers[usize::from(number)]);
                assert!(picked.eq(alone));
            }
        }
        assert!(beside > 20, "{}", beside);
    }

    #[test]
    fn the_share_holds_up_to_the_first_late_time() {
        let mut chance = Chance(0x0FED_CBA9_8765_4321);
        let mut lates = 0;
        for _ in 0..300 {
            let table = table_by_chance(&mut chance);
            let mut state = fresh(table);
            for time in 1..=2 * u64::from(table.cycle) {
                let k = if chance.below(4) == 0 {
                    chance.below(u64::from(table.cores) + 1) as u8
                } else {
                    table.cores
                };
                let answer = slot(&mut state, k, &mut [0; 10], 0);
                assert_eq!(state.time, time);
                for (number, row) in table.named_rows().iter().enumerate() {
                    let q = state.quanta[number];
                    // "at that one the upper limits still hold"
                    assert!(share::not_over(row, time, q));
                    if answer.number == 0 {
                        assert!(share::not_short(row, time, q));
                    }
                }
                if answer.number == 1 {
                    // "and the named row has e·a - p·q at least p"
                    let number = usize::from(answer.row);
                    let row = &table.rows[number];
                    let short = share::behind(row, time, state.quanta[number]);
                    assert!(short >= i128::from(row.period));
                    assert_eq!(answer.time, time);
                    lates += 1;
                    break;
                }
                assert_eq!(answer, DONE);
            }
        }
        assert!(lates > 50);
    }

    /// The same state so many slots later, a multiple of the cycle, with the whole jobs given to
    /// each row in between. Every phase must be past.
    pub(crate) fn later(state: &State, slots: u64) -> State {
        let mut after = *state;
        after.time += slots;
        for (row, quanta) in state.table.named_rows().iter().zip(&mut after.quanta) {
            *quanta += u64::from(row.cost) * (slots / u64::from(row.period));
        }
        after
    }

    /// Multiples of each cycle of `table_by_chance`, so that times 20 to 160 come to lie across
    /// 1,000,000,000 and 2^32, and end with 1,000,000,000,000.
    pub(crate) const LATER: [u64; 3] = [999_999_960, 4_294_967_160, 999_999_999_840];

    /// A table of `table_by_chance` after 20 slots with all cores free, when every row has begun.
    pub(crate) fn begun_by_chance(chance: &mut Chance) -> State {
        let table = table_by_chance(chance);
        let mut state = fresh(table);
        for _ in 0..20 {
            assert_eq!(slot(&mut state, table.cores, &mut [0; 10], 0), DONE);
        }
        state
    }

    #[test]
    fn a_run_is_the_same_so_many_cycles_later() {
        let mut chance = Chance(0x02_000A);
        for slots in LATER {
            let (mut lates, mut ends) = (0, 0);
            for _ in 0..100 {
                let mut state = begun_by_chance(&mut chance);
                let cores = state.table.cores;
                let always_full = chance.below(2) == 0;
                let mut far = later(&state, slots);
                for time in 20..160 {
                    assert_eq!((state.time, far.time), (time, time + slots));
                    let set = if always_full || chance.below(8) > 0 {
                        first_cores(cores)
                    } else {
                        chance.below(1 << cores) as u32
                    };
                    let (mut record, mut expected) = ([0xEE; 10], [0xEE; 10]);
                    let (near_answer, near) = slot_on(&mut state, set, &mut expected, 0);
                    let (mut answer, placement) = slot_on(&mut far, set, &mut record, 0);
                    assert_eq!((record, placement), (expected, near));
                    assert_eq!(far, later(&state, slots));
                    if answer.number == 1 {
                        answer.time -= slots;
                    }
                    assert_eq!(answer, near_answer);
                    if answer.number == 1 {
                        lates += 1;
                        break;
                    }
                    assert_eq!(answer, DONE);
                }
                if far.time == 1_000_000_000_000 {
                    let expected = if far.stopped { 31 } else { 32 };
                    assert_eq!(refused(&far, cores, 10, 0), expected);
                    ends += 1;
                }
            }
            assert!(lates > 20 && lates < 60, "{}", lates);
            assert_eq!(ends > 30, slots == LATER[2], "{}", ends);
        }
    }

    /// Does one row go before the other? The papers' words, with the windows that may be asked for
    /// alone.
    fn goes_before(state: &State, one: u8, other: u8) -> bool {
        let asked = |number: u8| {
            let place = usize::from(number);
            let row = &state.table.rows[place];
            windows::window(row.cost, row.period, row.phase, state.quanta[place] + 1)
        };
        let (a, b) = (asked(one), asked(other));
        // "smaller d; then b = 1 before b = 0; if both have b = 1, larger D"
        if a.deadline != b.deadline {
            return a.deadline < b.deadline;
        }
        if a.bit != b.bit {
            return a.bit == 1;
        }
        if a.bit == 1 && a.group != b.group {
            return a.group > b.group;
        }
        // "among full ties, a row picked in the previous slot goes first, then the lower row
        // number"
        let picked = |number: u8| state.last.named_rows().contains(&number);
        match (state.table.format, picked(one), picked(other)) {
            (2, true, false) => true,
            (2, false, true) => false,
            _ => one < other,
        }
    }

    /// The ready rows before which fewer than k others go, by rising number.
    fn first_by_the_words(state: &State, k: u8) -> Vec<u8> {
        let is_ready = |&number: &u8| {
            let place = usize::from(number);
            ready(&state.table.rows[place], state.quanta[place], state.time)
        };
        let ready: Vec<u8> = (0..state.table.count).filter(is_ready).collect();
        let is_first = |&one: &u8| {
            let before = ready
                .iter()
                .filter(|&&other| goes_before(state, other, one));
            before.count() < usize::from(k)
        };
        ready.iter().copied().filter(is_first).collect()
    }

    #[test]
    fn the_picks_are_the_first_by_the_words() {
        let mut chance = Chance(0x02_000C);
        // how often the picks of a slot would be others in the other format
        let mut others = [0; 3];
        for _ in 0..300 {
            let table = table_by_chance(&mut chance);
            let mut state = fresh(table);
            for _ in 0..2 * table.cycle {
                for k in 0..=table.cores {
                    let expected = first_by_the_words(&state, k);
                    assert_eq!(pick(&state, k), expected);
                    let mut turned = state;
                    turned.table.format = 3 - table.format;
                    let differs = pick(&turned, k) != expected;
                    others[usize::from(table.format)] += u32::from(differs);
                }
                let k = table.cores - u8::from(chance.below(8) == 0);
                if slot(&mut state, k, &mut [0; 10], 0).number != 0 {
                    break;
                }
            }
        }
        assert!(others[1] > 100 && others[2] > 100, "{:?}", others);
    }

    /// The same rows remembered, by rising number on the first cores.
    fn on_the_first_cores(last: &Placement) -> Placement {
        let rows = last.named_rows().iter().copied();
        let pairs: Vec<(u8, u8)> = rows.zip(0..).collect();
        placement_of(&pairs)
    }

    /// "picks, shares and traces stay as they are": a slot with any set against one with the first
    /// cores, as many, and with another memory. In format 1 that remembers nobody; in format 2
    /// (02, Eight) it must have the same rows, on whatever cores.
    #[test]
    fn the_set_and_the_cores_remembered_choose_no_row() {
        let mut chance = Chance(0x0123_4567_89AB_CDEF);
        let (mut lates, mut moved, mut formats) = (0, 0, [0; 3]);
        for _ in 0..300 {
            let table = table_by_chance(&mut chance);
            formats[usize::from(table.format)] += 1;
            let (mut state, mut plain) = (fresh(table), fresh(table));
            for _ in 0..2 * table.cycle {
                let set =
                    chance.below(1 << table.cores) as u32 | chance.below(1 << table.cores) as u32;
                let before = state.last;
                let (mut record, mut expected) = ([0xEE; 10], [0xEE; 10]);
                let (answer, placement) = slot_on(&mut state, set, &mut record, 0);
                let k = set.count_ones() as u8;
                assert_eq!(slot(&mut plain, k, &mut expected, 0), answer);
                assert_eq!(record, expected);
                assert_eq!(record[0], k);
                // a core of the set for each picked row, no core twice
                let (rows, cores) = (placement.named_rows(), placement.named_cores());
                assert_eq!(rows, &record[2..2 + usize::from(record[1])]);
                assert_eq!(set_of(cores) & !set, 0);
                assert_eq!(set_of(cores).count_ones() as usize, cores.len());
                // none of the rows moves whose core is free
                for (row, core) in before.named_rows().iter().zip(before.named_cores()) {
                    if let Some(place) = rows.iter().position(|named| named == row) {
                        let free = set >> core & 1 == 1;
                        assert_eq!(cores[place] == *core, free);
                        moved += u32::from(!free);
                    }
                }
                assert_eq!(state.last, placement);
                plain.last = placement;
                assert_eq!(state, plain);
                plain.last = match table.format {
                    1 => Placement::nobody(),
                    _ => on_the_first_cores(&placement),
                };
                if answer.number == 1 {
                    lates += 1;
                    break;
                }
                assert_eq!(answer, DONE);
            }
        }
        assert!(lates > 50 && moved > 50);
        assert!(formats[1] > 100 && formats[2] > 100, "{:?}", formats);
    }

    // ---- half is heavy (02, Three) ----

    /// A table without fault, of either format, in which many rows are one half, however written.
    fn table_with_halves(chance: &mut Chance) -> Table {
        let periods = [2, 3, 4, 6, 8, 12, 24];
        let cores = 1 + chance.below(8) as u8;
        let mut rows: Vec<(u16, u16, u16, u8)> = Vec::new();
        for _ in 0..32 {
            let p = periods[chance.below(7) as usize];
            let e = if p % 2 == 0 && chance.below(2) == 0 {
                p / 2
            } else {
                1 + chance.below(u64::from(p) - 1) as u16
            };
            rows.push((e, p, chance.below(4) as u16, chance.below(2) as u8));
            if table::fault(&value_of(24, cores, &rows)) != 0 {
                rows.pop();
            }
        }
        Table {
            format: 1 + chance.below(2) as u8,
            ..value_of(24, cores, &rows)
        }
    }

    /// A row's e/p against one half.
    fn against_one_half(row: &Row) -> Ordering {
        (2 * row.cost).cmp(&row.period)
    }

    /// The ready rows as `ready_rows` has them, but with D as it was before 02, Three: "a row is
    /// heavy when e/p is more than one half (000)", and D is 0 for all others.
    fn ready_rows_before(state: &State) -> Vec<Next> {
        let mut ready = ready_rows(state);
        // put in by rising number, as `in_order` does: in a circle (see `put_in_order`) that counts
        ready.sort_unstable_by_key(|next| next.row);
        let mut found = Vec::new();
        for mut next in ready {
            if against_one_half(&state.table.rows[usize::from(next.row)]) != Ordering::Greater {
                next.group = 0;
            }
            put_in_order(state.table.format, &mut found, next);
        }
        found
    }

    /// "Show that no pick changes": the picks with D as it is now against those with D as it was.
    #[test]
    fn half_is_heavy_changes_no_pick() {
        let mut chance = Chance(0x02_0005);
        let (mut slots, mut with_another_d) = (0, 0);
        // where the last row picked and the first left out are due at the same time and one of them
        // alone is one half: the other is lighter, or heavier, and is left out, is picked by its
        // number or since it ran before, or is picked by its bit
        let mut ties = [[0; 3]; 2];
        for _ in 0..300 {
            let table = table_with_halves(&mut chance);
            let mut state = fresh(table);
            for _ in 0..2 * table.cycle {
                let (now, before) = (ready_rows(&state), ready_rows_before(&state));
                for k in 0..=table.cores {
                    let first = before.iter().take(usize::from(k));
                    let mut picked: Vec<u8> = first.map(|next| next.row).collect();
                    picked.sort_unstable();
                    assert_eq!(pick(&state, k), picked);
                }
                slots += 1;
                let another_d = |next: &Next| !before.contains(next);
                with_another_d += u32::from(now.iter().any(another_d));
                // the pairs that part picked and left out with 1, 2 and so on to M cores
                for pair in now.windows(2).take(usize::from(table.cores)) {
                    let weight = |next: &Next| against_one_half(&table.rows[usize::from(next.row)]);
                    let (other, place) = match (weight(&pair[0]), weight(&pair[1])) {
                        (Ordering::Equal, other) => (other, 0),
                        (other, Ordering::Equal) => (other, 1 + usize::from(pair[0].bit)),
                        _ => continue,
                    };
                    if other != Ordering::Equal && pair[0].deadline == pair[1].deadline {
                        ties[usize::from(other == Ordering::Greater)][place] += 1;
                    }
                }
                let k = table.cores - u8::from(chance.below(8) == 0);
                if slot(&mut state, k, &mut [0; 10], 0).number != 0 {
                    break;
                }
            }
        }
        assert!(2 * with_another_d > slots);
        assert!(ties.iter().flatten().all(|&met| met > 100), "{:?}", ties);
    }
}
