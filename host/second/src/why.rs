//! Why did tank 14 wait? After 02, Two.
//!
//! "Support staff on the phone want to ask, for a row in the slot about to run, with its state and
//! k: picked; not ready, with the first slot in which it will be; no core free; or passed over."
//!
//! What the slot will do is asked of `slot`, where it is done; here the reason is named. The state
//! stays as it is. 02, Eight: "In request Two the list of rules gains 'ran in the slot before'"; it
//! is asked in tables of format 2.

use crate::slot::{self, Next, Rule, State};

/// Why a row is picked or waits.
#[derive(Clone, Copy, PartialEq, Eq, Debug)]
pub enum Reason {
    /// "picked"
    Picked,
    /// "not ready, with the first slot in which it will be"
    NotReady { first_slot: u64 },
    /// "no core free"
    NoCoreFree,
    /// "passed over. For the last they get the lowest-ranked picked row and the rule that put it
    /// ahead (deadline, bit, group deadline, row number)", or "ran in the slot before".
    PassedOver { row: u8, rule: Rule },
}

/// The whole answer in plain numbers, as the probe's protocol has it for `Y`. A part that the
/// reason does not name is 0; with a refusal all but the number are.
#[derive(Clone, Copy, PartialEq, Eq, Debug)]
pub struct WhyAnswer {
    /// 0, or the refusal: 30, 31, 32, 33 or 36
    pub number: u8,
    /// "0 refused, 1 picked, 2 not ready, 3 no core free, 4 passed over"
    pub reason: u8,
    /// with "not ready" the first slot in which the row will be
    pub slot: u64,
    /// with "passed over" the lowest-ranked picked row
    pub row: u8,
    /// "0 none, 1 deadline, 2 bit, 3 group deadline, 4 row number, 5 ran in the slot before"
    pub rule: u8,
}

/// The reason for a row in the slot about to run, with k cores free. `Err` is the refusal's number.
pub fn why(state: &State, k: u8, row: u8) -> Result<Reason, u8> {
    match refusal(state, k, row) {
        Some(number) => Err(number),
        None => Ok(reason(state, k, row)),
    }
}

/// "Refusals: 30 to 33 as in 01, then 36 for a row number not below n." None if there is a reason
/// to give.
fn refusal(state: &State, k: u8, row: u8) -> Option<u8> {
    // 30 with what 02, One and Eight add to it: the slot of such a state would be refused as well
    if let Some(number) = slot::state_refusal(state) {
        return Some(number);
    }
    let no_such_row = row >= state.table.count;
    // slip: 36 before 33
    if cfg!(slip = "row_before_cores") && no_such_row {
        return Some(36);
    }
    // 33: "k above M". k is a number here, not a set of cores, so that 35 has no place
    if k > state.table.cores {
        return Some(33);
    }
    if no_such_row {
        return Some(36);
    }
    None
}

/// The reason. The state is not refused, and the row is below n.
fn reason(state: &State, k: u8, number: u8) -> Reason {
    let place = usize::from(number);
    let (row, quanta) = (&state.table.rows[place], state.quanta[place]);
    // slip: at k = 0 no core is free for any row, ready or not
    if cfg!(slip = "no_core_before_ready") && k == 0 {
        return Reason::NoCoreFree;
    }
    if !slot::ready(row, quanta, state.time) {
        // the row gets no quantum before, so that its next subtask stays the same until then.
        // Quanta are below 2^40 here and p and f below 2^16: the slot fits in 64 bits
        let first_slot = slot::ready_from(row, quanta) as u64;
        return Reason::NotReady { first_slot };
    }
    let picked = slot::picked_in_order(state, k);
    if picked.iter().any(|next| next.row == number) {
        return Reason::Picked;
    }
    let asked = slot::next_of(number, row, quanta, state.last.named_rows());
    match named_of(&picked) {
        Some(ahead) => Reason::PassedOver {
            row: ahead.row,
            rule: slot::rule_between(state.table.format, ahead, &asked),
        },
        // a row is ready and nobody is picked: k = 0. "no core free being said only of a ready row
        // with k = 0"
        None => Reason::NoCoreFree,
    }
}

/// "the lowest-ranked picked row": of the picked, first those that go first, the last.
fn named_of(picked: &[Next]) -> Option<&Next> {
    // slip: the first of them
    if cfg!(slip = "best_in_place_of_lowest") {
        return picked.first();
    }
    picked.last()
}

// ---- the answer in plain numbers ----

/// Asks `why` and gives the whole answer in plain numbers.
pub fn answer(state: &State, k: u8, row: u8) -> WhyAnswer {
    let nothing = WhyAnswer {
        number: 0,
        reason: 0,
        slot: 0,
        row: 0,
        rule: 0,
    };
    match why(state, k, row) {
        Err(number) => WhyAnswer { number, ..nothing },
        Ok(Reason::Picked) => WhyAnswer {
            reason: 1,
            ..nothing
        },
        Ok(Reason::NotReady { first_slot }) => WhyAnswer {
            reason: 2,
            slot: first_slot,
            ..nothing
        },
        Ok(Reason::NoCoreFree) => WhyAnswer {
            reason: 3,
            ..nothing
        },
        Ok(Reason::PassedOver { row, rule }) => WhyAnswer {
            reason: 4,
            row,
            rule: rule_number(rule),
            ..nothing
        },
    }
}

/// "1 deadline, 2 bit, 3 group deadline, 4 row number, 5 ran in the slot before"
fn rule_number(rule: Rule) -> u8 {
    match rule {
        Rule::Deadline => 1,
        Rule::Bit => 2,
        Rule::GroupDeadline => 3,
        Rule::RowNumber => 4,
        // slip: told as the row number, the last of the rules before 02, Eight
        Rule::RanBefore if cfg!(slip = "why_row_number_for_ran") => 4,
        Rule::RanBefore => 5,
    }
}

impl WhyAnswer {
    /// "number (1), reason (1), first slot (8), row (1), rule (1)", little-endian.
    pub fn bytes(&self) -> [u8; 12] {
        let mut bytes = [0; 12];
        bytes[0] = self.number;
        bytes[1] = self.reason;
        bytes[2..10].copy_from_slice(&self.slot.to_le_bytes());
        bytes[10] = self.row;
        bytes[11] = self.rule;
        bytes
    }
}

#[cfg(test)]
mod tests {
    use super::*;
    use crate::cores::tests::placement_of;
    use crate::never_late::{self, Chance};
    use crate::slot::tests::{begun_by_chance, later, LATER};
    use crate::slot::tests::{six_rows, table_by_chance, the_last_slot_of_seven_rows};
    use crate::slot::{fresh, slot};
    use crate::table::tests::{in_format, value_of, value_of_2, EXAMPLE};
    use crate::table::{self, Row, Table};
    use crate::windows;

    const PICKED: Result<Reason, u8> = Ok(Reason::Picked);
    const NO_CORE_FREE: Result<Reason, u8> = Ok(Reason::NoCoreFree);

    fn not_ready(first_slot: u64) -> Result<Reason, u8> {
        Ok(Reason::NotReady { first_slot })
    }

    fn passed_over(row: u8, rule: Rule) -> Result<Reason, u8> {
        Ok(Reason::PassedOver { row, rule })
    }

    /// The reasons of the rows 0 to n-1.
    fn reasons(state: &State, k: u8) -> Vec<Result<Reason, u8>> {
        (0..state.table.count)
            .map(|row| why(state, k, row))
            .collect()
    }

    /// A state of rows by (e, p, f, kind), with so many quanta each, at a time.
    fn state_of(
        cycle: u32,
        cores: u8,
        rows: &[(u16, u16, u16, u8)],
        time: u64,
        quanta: &[u64],
    ) -> State {
        let mut state = fresh(value_of(cycle, cores, rows));
        state.time = time;
        state.quanta[..quanta.len()].copy_from_slice(quanta);
        state
    }

    #[test]
    fn the_example_slot_by_slot() {
        // three rows 2/3 on two cores: subtask 1 is 0 to 2, b 1, D 3; subtask 2 is 1 to 3, b 0;
        // subtask 3 is 3 to 5
        let mut state = fresh(table::read(&EXAMPLE).unwrap());
        let by_number = passed_over(1, Rule::RowNumber);
        assert_eq!(reasons(&state, 2), [PICKED, PICKED, by_number]);
        let by_number = passed_over(0, Rule::RowNumber);
        assert_eq!(reasons(&state, 1), [PICKED, by_number, by_number]);
        assert_eq!(reasons(&state, 0), [NO_CORE_FREE; 3]);
        // slot 1: row 2 is due at 2, rows 0 and 1 at 3
        slot(&mut state, 2, &mut [0; 4], 0);
        assert_eq!(reasons(&state, 2), [PICKED, by_number, PICKED]);
        let by_deadline = passed_over(2, Rule::Deadline);
        assert_eq!(reasons(&state, 1), [by_deadline, by_deadline, PICKED]);
        assert_eq!(reasons(&state, 0), [NO_CORE_FREE; 3]);
        // slot 2: row 0 has its two quanta
        slot(&mut state, 2, &mut [0; 4], 0);
        assert_eq!(reasons(&state, 2), [not_ready(3), PICKED, PICKED]);
        let by_number = passed_over(1, Rule::RowNumber);
        assert_eq!(reasons(&state, 1), [not_ready(3), PICKED, by_number]);
        let none_free = [not_ready(3), NO_CORE_FREE, NO_CORE_FREE];
        assert_eq!(reasons(&state, 0), none_free);
        // slot 3 is slot 0 again
        slot(&mut state, 2, &mut [0; 4], 0);
        let by_number = passed_over(1, Rule::RowNumber);
        assert_eq!(reasons(&state, 2), [PICKED, PICKED, by_number]);
    }

    // ---- passed over: by whom ----

    #[test]
    fn the_lowest_ranked_is_the_last_of_the_picked_in_the_order() {
        let state = six_rows();
        let waits = not_ready(1);
        let by_3 = |rule| passed_over(3, rule);
        let expected = [
            by_3(Rule::GroupDeadline),
            by_3(Rule::Bit),
            by_3(Rule::Deadline),
            PICKED,
            by_3(Rule::Bit),
            waits,
        ];
        assert_eq!(reasons(&state, 1), expected);
        // rows 3 and 0 are picked: row 0 is the lower of them in rank, though not in number
        let by_0 = |rule| passed_over(0, rule);
        let (bit, deadline) = (by_0(Rule::Bit), by_0(Rule::Deadline));
        let expected = [PICKED, bit, deadline, PICKED, bit, waits];
        assert_eq!(reasons(&state, 2), expected);
        // rows 3, 0 and 1 are picked: row 1 has neither the lowest nor the highest number of them
        let (number, deadline) = (
            passed_over(1, Rule::RowNumber),
            passed_over(1, Rule::Deadline),
        );
        let expected = [PICKED, PICKED, deadline, PICKED, number, waits];
        assert_eq!(reasons(&state, 3), expected);
        // rows 3, 0, 1 and 4 are picked
        let deadline = passed_over(4, Rule::Deadline);
        let expected = [PICKED, PICKED, deadline, PICKED, PICKED, waits];
        assert_eq!(reasons(&state, 4), expected);
        // none is
        let mut expected = [NO_CORE_FREE; 6];
        expected[5] = waits;
        assert_eq!(reasons(&state, 0), expected);
    }

    #[test]
    fn the_rule_is_between_the_named_row_and_the_row_asked_about() {
        // rows 1 and 4 part picked and left out by their number; row 2 waits for its deadline
        let state = six_rows();
        assert_eq!(slot::deciding_rule(&state, 3), Some(Rule::RowNumber));
        assert_eq!(why(&state, 3, 2), passed_over(1, Rule::Deadline));
        // before row 4 go rows 3 and 0 by their bit, but row 1, the named one, by its number
        assert_eq!(why(&state, 2, 4), passed_over(0, Rule::Bit));
        assert_eq!(why(&state, 3, 4), passed_over(1, Rule::RowNumber));
    }

    // ---- passed over: by which rule ----

    #[test]
    fn passed_over_by_the_deadline() {
        // 1/3 is due at 3, 1/2 at 2
        let state = fresh(value_of(6, 1, &[(1, 3, 0, 0), (1, 2, 0, 0)]));
        let by_deadline = passed_over(1, Rule::Deadline);
        assert_eq!(reasons(&state, 1), [by_deadline, PICKED]);
        // time 1: 2/3 with phase 1 (1 to 3, b 1, D 4) and 1/2 (0 to 2, b 0, D 2): bit, D and
        // number speak for row 0, and are not asked
        let state = state_of(6, 2, &[(2, 3, 1, 0), (1, 2, 0, 0)], 1, &[0, 0]);
        assert_eq!(reasons(&state, 1), [by_deadline, PICKED]);
        assert_eq!(reasons(&state, 2), [PICKED, PICKED]);
    }

    #[test]
    fn passed_over_by_the_bit() {
        // 1/2, 1/2 and 2/3 are due at 2, the last with b = 1
        let state = fresh(value_of(6, 2, &[(1, 2, 0, 0), (1, 2, 0, 0), (2, 3, 0, 0)]));
        let by_bit = passed_over(2, Rule::Bit);
        assert_eq!(reasons(&state, 1), [by_bit, by_bit, PICKED]);
        let by_number = passed_over(0, Rule::RowNumber);
        assert_eq!(reasons(&state, 2), [PICKED, by_number, PICKED]);
        // time 2: heavy 3/4 with two quanta (2 to 4, b 0, D 4) and light 3/8 with phase 1 (1 to 4,
        // b 1, D 0): the larger D of row 0 is not asked
        let state = state_of(8, 2, &[(3, 4, 0, 0), (3, 8, 1, 0)], 2, &[2, 0]);
        assert_eq!(reasons(&state, 1), [passed_over(1, Rule::Bit), PICKED]);
    }

    #[test]
    fn passed_over_by_the_group_deadline() {
        // all are 0 to 2 with b = 1; D is 3, 3 and 4
        let state = fresh(value_of(12, 3, &[(2, 3, 0, 0), (2, 3, 0, 0), (3, 4, 0, 0)]));
        let by_group = passed_over(2, Rule::GroupDeadline);
        assert_eq!(reasons(&state, 1), [by_group, by_group, PICKED]);
        // row 0 is the lowest-ranked then, and its D is that of row 1
        let by_number = passed_over(0, Rule::RowNumber);
        assert_eq!(reasons(&state, 2), [PICKED, by_number, PICKED]);
        assert_eq!(reasons(&state, 3), [PICKED; 3]);
        // time 2: light 3/8 with phase 1 (1 to 4, b 1, D 0) and heavy 2/3 with phase 2 (2 to 4,
        // b 1, D 5)
        let state = state_of(24, 2, &[(3, 8, 1, 0), (2, 3, 2, 0)], 2, &[0, 0]);
        let by_group = passed_over(1, Rule::GroupDeadline);
        assert_eq!(reasons(&state, 1), [by_group, PICKED]);
    }

    #[test]
    fn passed_over_by_the_row_number() {
        // time 2: light 1/4 without a quantum (0 to 4, b 0, D 0) and heavy 3/4 with two (2 to 4,
        // b 0, D 4): with both bits 0 the group deadline is not asked
        let state = state_of(4, 2, &[(1, 4, 0, 0), (3, 4, 0, 0)], 2, &[0, 2]);
        let by_number = passed_over(0, Rule::RowNumber);
        assert_eq!(reasons(&state, 1), [PICKED, by_number]);
        // both bits 1 and D 0 in both: 2/5 is 0 to 3
        let state = fresh(value_of(5, 1, &[(2, 5, 0, 0), (2, 5, 0, 0)]));
        assert_eq!(reasons(&state, 1), [PICKED, by_number]);
        // 32 rows 1/4 on eight cores: row 7 is the last of the picked
        let state = fresh(value_of(4, 8, &[(1, 4, 0, 0); 32]));
        for row in 0..8 {
            assert_eq!(why(&state, 8, row), PICKED);
        }
        for row in 8..32 {
            assert_eq!(why(&state, 8, row), passed_over(7, Rule::RowNumber));
        }
    }

    #[test]
    fn an_early_release_row_is_passed_over_by_its_window_s_deadline() {
        // time 1: early release 2/6 with one quantum is ready, its window is 3 to 6; 1/5 is due at
        // 5. With the deadline of its job's first subtask, 3, it would go first
        let rows = [(2, 6, 0, 1), (1, 5, 0, 0)];
        let state = state_of(30, 1, &rows, 1, &[1, 0]);
        let by_deadline = passed_over(1, Rule::Deadline);
        assert_eq!(reasons(&state, 1), [by_deadline, PICKED]);
        assert_eq!(reasons(&state, 0), [NO_CORE_FREE, NO_CORE_FREE]);
    }

    #[test]
    fn the_reason_of_a_row_that_will_be_late() {
        // rows 0 and 1 (2/3) and row 2 (3/4), all due at 2, after a slot without a core
        let rows = [(2, 3, 0, 0), (2, 3, 0, 0), (3, 4, 0, 0)];
        let mut state = fresh(value_of(12, 3, &rows));
        slot(&mut state, 0, &mut [0; 2], 0);
        assert_eq!(reasons(&state, 0), [NO_CORE_FREE; 3]);
        let by_group = passed_over(2, Rule::GroupDeadline);
        assert_eq!(reasons(&state, 1), [by_group, by_group, PICKED]);
        assert_eq!(slot(&mut state, 1, &mut [0; 3], 0).number, 1);
        assert_eq!(reasons(&state, 1), [Err(31); 3]);
    }

    // ---- whole-core rows (02, Six) ----

    #[test]
    fn why_a_whole_core_row_waited() {
        // 1/1 and 2/3 on two cores; in slot 0 they are due at 1 and at 2
        let mut state = fresh(value_of(3, 2, &[(1, 1, 0, 0), (2, 3, 0, 0)]));
        let by_deadline = passed_over(0, Rule::Deadline);
        assert_eq!(reasons(&state, 2), [PICKED, PICKED]);
        assert_eq!(reasons(&state, 1), [PICKED, by_deadline]);
        assert_eq!(reasons(&state, 0), [NO_CORE_FREE; 2]);
        slot(&mut state, 1, &mut [0; 3], 0);
        // slot 1: 1/1 is 1 to 2, b 0; 2/3 is 0 to 2, b 1
        let by_bit = passed_over(1, Rule::Bit);
        assert_eq!(reasons(&state, 2), [PICKED, PICKED]);
        assert_eq!(reasons(&state, 1), [by_bit, PICKED]);
        assert_eq!(reasons(&state, 0), [NO_CORE_FREE; 2]);
        let bytes = answer(&state, 1, 0).bytes();
        assert_eq!(bytes, [0, 4, 0, 0, 0, 0, 0, 0, 0, 0, 1, 2]);
        // and so it is late at 2
        assert_eq!(slot(&mut state, 1, &mut [0; 3], 0).number, 1);
        assert_eq!(reasons(&state, 1), [Err(31); 2]);
    }

    #[test]
    fn a_whole_core_row_is_passed_over_by_its_bit_or_its_number() {
        // time 3: 1/1 with three quanta (3 to 4, b 0, D 4), light 3/8 with phase 1 (1 to 4, b 1,
        // D 0): the larger D is not asked
        let state = state_of(8, 2, &[(1, 1, 0, 0), (3, 8, 1, 0)], 3, &[3, 0]);
        assert_eq!(reasons(&state, 1), [passed_over(1, Rule::Bit), PICKED]);
        // time 2: light 1/3 (0 to 3, b 0, D 0) and 3/3 with two quanta (2 to 3, b 0, D 3)
        let state = state_of(3, 2, &[(1, 3, 0, 0), (3, 3, 0, 0)], 2, &[0, 2]);
        let by_number = passed_over(0, Rule::RowNumber);
        assert_eq!(reasons(&state, 1), [PICKED, by_number]);
        // the other way round 1/3 waits for its number
        let state = state_of(3, 2, &[(3, 3, 0, 0), (1, 3, 0, 0)], 2, &[2, 0]);
        assert_eq!(reasons(&state, 1), [PICKED, by_number]);
        // three whole-core rows on three cores: D is 1 in all, and is not asked
        let rows = [(1, 1, 0, 0), (2, 2, 0, 1), (1, 1, 0, 0)];
        let state = fresh(value_of(2, 3, &rows));
        assert_eq!(reasons(&state, 1), [PICKED, by_number, by_number]);
        let by_number = passed_over(1, Rule::RowNumber);
        assert_eq!(reasons(&state, 2), [PICKED, PICKED, by_number]);
    }

    #[test]
    fn a_whole_core_row_that_is_not_ready() {
        for kind in 0..2 {
            // before its phase, and never again
            let at = |time, given| why(&state_of(5, 1, &[(5, 5, 2, kind)], time, &[given]), 1, 0);
            assert_eq!(at(0, 0), not_ready(2));
            assert_eq!(at(1, 0), not_ready(2));
            assert_eq!(at(2, 0), PICKED);
            assert_eq!(at(3, 1), PICKED);
            assert_eq!(at(7, 5), PICKED);
        }
        // early release with its whole job given by 5, which no run does: the next starts at 7
        let ahead = state_of(5, 1, &[(5, 5, 2, 1)], 5, &[5]);
        assert_eq!(why(&ahead, 1, 0), not_ready(7));
        assert_eq!(why(&ahead, 0, 0), not_ready(7));
        // with four by 4 its fifth, 6 to 7, waits behind 1/3 with phase 3 (3 to 6)
        let rows = [(5, 5, 2, 1), (1, 3, 3, 0)];
        let ahead = state_of(15, 2, &rows, 4, &[4, 0]);
        let by_deadline = passed_over(1, Rule::Deadline);
        assert_eq!(reasons(&ahead, 1), [by_deadline, PICKED]);
    }

    // ---- ran in the slot before (02, Eight) ----

    #[test]
    fn four_halves_slot_by_slot() {
        // on four cores: subtask i of 1/2 is 2i-2 to 2i, b 0
        let mut state = fresh(value_of_2(2, 4, &[(1, 2, 0, 0); 4]));
        let number = |row| passed_over(row, Rule::RowNumber);
        let ran = |row| passed_over(row, Rule::RanBefore);
        // nobody ran before slot 0
        assert_eq!(reasons(&state, 2), [PICKED, PICKED, number(1), number(1)]);
        slot(&mut state, 2, &mut [0; 4], 0);
        let waits = not_ready(2);
        assert_eq!(reasons(&state, 1), [waits, waits, PICKED, number(2)]);
        slot(&mut state, 2, &mut [0; 4], 0);
        // slot 2: the order is 2, 3, 0, 1
        assert_eq!(reasons(&state, 0), [NO_CORE_FREE; 4]);
        // both ran, and between them it is the number
        assert_eq!(reasons(&state, 1), [ran(2), ran(2), PICKED, number(2)]);
        assert_eq!(reasons(&state, 2), [ran(3), ran(3), PICKED, PICKED]);
        // row 0 is the lowest-ranked now, and did not run, nor did row 1
        assert_eq!(reasons(&state, 3), [PICKED, number(0), PICKED, PICKED]);
        assert_eq!(reasons(&state, 4), [PICKED; 4]);
        // format 1 has the numbers alone
        state.table.format = 1;
        assert_eq!(reasons(&state, 2), [PICKED, PICKED, number(1), number(1)]);
    }

    #[test]
    fn who_ran_is_the_rule_also_where_the_number_is_lower() {
        // two rows 1/2, of which row 0 ran
        let mut state = fresh(value_of_2(2, 1, &[(1, 2, 0, 0); 2]));
        state.last = placement_of(&[(0, 0)]);
        assert_eq!(
            reasons(&state, 1),
            [PICKED, passed_over(0, Rule::RanBefore)]
        );
        state.table.format = 1;
        assert_eq!(
            reasons(&state, 1),
            [PICKED, passed_over(0, Rule::RowNumber)]
        );
        // of which both ran
        let mut state = fresh(value_of_2(2, 2, &[(1, 2, 0, 0); 2]));
        state.last = placement_of(&[(0, 1), (1, 0)]);
        assert_eq!(
            reasons(&state, 1),
            [PICKED, passed_over(0, Rule::RowNumber)]
        );
    }

    #[test]
    fn who_ran_is_no_rule_before_the_others() {
        // the row that waits ran, the row that goes did not
        let waits_by = |cycle, rows: &[(u16, u16, u16, u8)], rule| {
            let mut state = fresh(value_of_2(cycle, 2, rows));
            for pairs in [vec![(0, 0)], vec![(1, 0)], vec![(0, 0), (1, 1)]] {
                state.last = placement_of(&pairs);
                assert_eq!(reasons(&state, 1), [passed_over(1, rule), PICKED]);
            }
        };
        waits_by(6, &[(1, 3, 0, 0), (1, 2, 0, 0)], Rule::Deadline);
        waits_by(6, &[(1, 2, 0, 0), (2, 3, 0, 0)], Rule::Bit);
        waits_by(12, &[(2, 3, 0, 0), (3, 4, 0, 0)], Rule::GroupDeadline);
        // with both bits 0 D is not asked: light 1/4 without a quantum (0 to 4, D 0), heavy 3/4
        // with two (2 to 4, D 4), at time 2
        let mut state = state_of(4, 2, &[(1, 4, 0, 0), (3, 4, 0, 0)], 2, &[0, 2]);
        state.table.format = 2;
        state.last = placement_of(&[(1, 0)]);
        assert_eq!(
            reasons(&state, 1),
            [passed_over(1, Rule::RanBefore), PICKED]
        );
    }

    #[test]
    fn six_rows_of_which_row_4_ran() {
        // rows 1 and 4 are full ties; the order is 3, 0, 4, 1, 2
        let mut state = six_rows();
        state.table.format = 2;
        state.last = placement_of(&[(2, 0), (4, 3)]);
        let waits = not_ready(1);
        let (bit, deadline) = (passed_over(0, Rule::Bit), passed_over(0, Rule::Deadline));
        let expected = [PICKED, bit, deadline, PICKED, bit, waits];
        assert_eq!(reasons(&state, 2), expected);
        let (ran, deadline) = (
            passed_over(4, Rule::RanBefore),
            passed_over(4, Rule::Deadline),
        );
        let expected = [PICKED, ran, deadline, PICKED, PICKED, waits];
        assert_eq!(reasons(&state, 3), expected);
        let deadline = passed_over(1, Rule::Deadline);
        let expected = [PICKED, PICKED, deadline, PICKED, PICKED, waits];
        assert_eq!(reasons(&state, 4), expected);
    }

    #[test]
    fn the_example_in_format_2_says_who_ran() {
        let mut state = fresh(table::read(&in_format(2, &EXAMPLE)).unwrap());
        for _ in 0..3 {
            slot(&mut state, 2, &mut [0; 4], 0);
        }
        // slot 3: all are 3 to 5, b 1, D 6; rows 1 and 2 ran in slot 2
        let ran = passed_over(2, Rule::RanBefore);
        assert_eq!(reasons(&state, 2), [ran, PICKED, PICKED]);
        let (ran, number) = (
            passed_over(1, Rule::RanBefore),
            passed_over(1, Rule::RowNumber),
        );
        assert_eq!(reasons(&state, 1), [ran, PICKED, number]);
        let bytes = answer(&state, 1, 0).bytes();
        assert_eq!(bytes, [0, 4, 0, 0, 0, 0, 0, 0, 0, 0, 1, 5]);
        let bytes = answer(&state, 1, 2).bytes();
        assert_eq!(bytes, [0, 4, 0, 0, 0, 0, 0, 0, 0, 0, 1, 4]);
        // after a slot without a core nobody ran: the number again
        slot(&mut state, 0, &mut [0; 2], 0);
        let number = passed_over(1, Rule::RowNumber);
        assert_eq!(reasons(&state, 2), [PICKED, PICKED, number]);
    }

    // ---- not ready ----

    #[test]
    fn a_plain_row_waits_for_its_next_window() {
        // 2/6 starts 0, 3, 6
        let one_given = |time| state_of(6, 1, &[(2, 6, 0, 0)], time, &[1]);
        assert_eq!(why(&one_given(1), 1, 0), not_ready(3));
        assert_eq!(why(&one_given(2), 1, 0), not_ready(3));
        assert_eq!(why(&one_given(3), 1, 0), PICKED);
        // 8/11 starts 0, 1, 2, 4: the fourth at floor(33/8)
        let state = state_of(11, 1, &[(8, 11, 0, 0)], 3, &[3]);
        assert_eq!(why(&state, 1, 0), not_ready(4));
        // the eighth at floor(77/8) = 9, the ninth with the next job at 11
        let state = state_of(11, 1, &[(8, 11, 0, 0)], 10, &[8]);
        assert_eq!(why(&state, 1, 0), not_ready(11));
    }

    #[test]
    fn an_early_release_row_waits_for_its_next_job() {
        // 2/6: the second quantum has the job's start, 0, and not its window's, 3
        let state = |time, given| state_of(6, 1, &[(2, 6, 0, 1)], time, &[given]);
        assert_eq!(why(&state(1, 1), 1, 0), PICKED);
        assert_eq!(why(&state(1, 1), 0, 0), NO_CORE_FREE);
        for time in 2..6 {
            assert_eq!(why(&state(time, 2), 1, 0), not_ready(6));
            assert_eq!(why(&state(time, 2), 0, 0), not_ready(6));
        }
        assert_eq!(why(&state(6, 2), 1, 0), PICKED);
        // 1/3, which 2/6 is not reduced to, has jobs of one quantum
        let state = state_of(3, 1, &[(1, 3, 0, 1)], 1, &[1]);
        assert_eq!(why(&state, 1, 0), not_ready(3));
    }

    #[test]
    fn rows_of_both_kinds_wait_for_their_phase() {
        for kind in 0..2 {
            let row = [(2, 6, 5, kind)];
            for time in 0..5 {
                for k in 0..2 {
                    assert_eq!(why(&state_of(6, 1, &row, time, &[]), k, 0), not_ready(5));
                }
            }
            assert_eq!(why(&state_of(6, 1, &row, 5, &[]), 1, 0), PICKED);
            assert_eq!(why(&state_of(6, 1, &row, 5, &[]), 0, 0), NO_CORE_FREE);
            let longest = state_of(6, 1, &[(2, 6, 65535, kind)], 0, &[]);
            assert_eq!(why(&longest, 1, 0), not_ready(65_535));
        }
        // with phase 5 the second window of 2/6 starts at 8, the second job at 11
        let plain = state_of(6, 1, &[(2, 6, 5, 0)], 6, &[1]);
        assert_eq!(why(&plain, 1, 0), not_ready(8));
        let early = state_of(6, 1, &[(2, 6, 5, 1)], 7, &[2]);
        assert_eq!(why(&early, 1, 0), not_ready(11));
    }

    #[test]
    fn without_a_core_a_row_that_is_not_ready_is_not_ready() {
        // 1/2 is ready; 1/3 with phase 4 and 1/6 with its quantum are not
        let rows = [(1, 2, 0, 0), (1, 3, 4, 1), (1, 6, 0, 0)];
        let state = state_of(6, 2, &rows, 1, &[0, 0, 1]);
        let expected = [NO_CORE_FREE, not_ready(4), not_ready(6)];
        assert_eq!(reasons(&state, 0), expected);
        // and with cores left over
        let expected = [PICKED, not_ready(4), not_ready(6)];
        assert_eq!(reasons(&state, 2), expected);
    }

    #[test]
    fn the_first_slot_may_be_past_the_last_time() {
        const LAST_SLOT: u64 = 999_999_999_999;
        // 1/2 with 500,000,000,000 quanta: the next window starts at 2·500,000,000,000
        let state = state_of(2, 1, &[(1, 2, 0, 0)], LAST_SLOT, &[500_000_000_000]);
        assert_eq!(why(&state, 1, 0), not_ready(1_000_000_000_000));
        // 1/50,000 with phase 40,000 and 20,000,000 quanta
        let row = [(1, 50_000, 40_000, 0)];
        let state = state_of(50_000, 1, &row, LAST_SLOT, &[20_000_000]);
        assert_eq!(why(&state, 1, 0), not_ready(1_000_000_040_000));
        assert_eq!(why(&state, 0, 0), not_ready(1_000_000_040_000));
        // early release 60,000/65,535: in 999,999,999,999 slots 15,259,021 periods and a part of
        // the next, whose job has been given in full; the job after it starts at 15,259,022·65,535
        let given = 15_259_022 * 60_000;
        let state = state_of(65_535, 1, &[(60_000, 65_535, 0, 1)], LAST_SLOT, &[given]);
        assert_eq!(why(&state, 1, 0), not_ready(1_000_000_006_770));
        // 1/65,535 with phase 58,763, in the slot after the first of its window 15,259,022: no row
        // waits longer. In that first slot itself so many quanta are outside the share
        let row = [(1, 65_535, 58_763, 0)];
        let state = state_of(65_535, 1, &row, LAST_SLOT, &[15_259_022]);
        assert_eq!(why(&state, 1, 0), not_ready(LAST_SLOT + 65_534));
        let state = state_of(65_535, 1, &row, LAST_SLOT - 1, &[15_259_022]);
        assert_eq!(why(&state, 1, 0), Err(30));
    }

    // ---- shorter slots (02, Seven) ----

    #[test]
    fn why_in_the_last_slot() {
        // the order is 5, 3, 2, 0, 1, 4; row 6 is ready with the last time
        let state = the_last_slot_of_seven_rows();
        let waits = not_ready(1_000_000_000_000);
        let by = passed_over;
        // row 5 alone is due at the last time
        let mut expected = [by(5, Rule::Deadline); 7];
        expected[5] = PICKED;
        expected[6] = waits;
        assert_eq!(reasons(&state, 1), expected);
        // row 3 has the latest group deadline
        let expected = [
            by(3, Rule::GroupDeadline),
            by(3, Rule::Bit),
            by(3, Rule::GroupDeadline),
            PICKED,
            by(3, Rule::Bit),
            PICKED,
            waits,
        ];
        assert_eq!(reasons(&state, 2), expected);
        // row 2 is heavy and row 0 light
        let expected = [
            by(2, Rule::GroupDeadline),
            by(2, Rule::Bit),
            PICKED,
            PICKED,
            by(2, Rule::Bit),
            PICKED,
            waits,
        ];
        assert_eq!(reasons(&state, 3), expected);
        let bit = by(0, Rule::Bit);
        let expected = [PICKED, bit, PICKED, PICKED, bit, PICKED, waits];
        assert_eq!(reasons(&state, 4), expected);
        // rows 1 and 4 differ in nothing
        let mut expected = [PICKED; 7];
        expected[4] = by(1, Rule::RowNumber);
        expected[6] = waits;
        assert_eq!(reasons(&state, 5), expected);
        expected[4] = PICKED;
        assert_eq!(reasons(&state, 6), expected);
        assert_eq!(reasons(&state, 8), expected);
        let mut expected = [NO_CORE_FREE; 7];
        expected[6] = waits;
        assert_eq!(reasons(&state, 0), expected);
        assert_eq!(why(&state, 9, 0), Err(33));
        assert_eq!(why(&state, 8, 7), Err(36));
    }

    #[test]
    fn why_at_the_last_time() {
        // after that slot nothing is about to run any more
        let mut state = the_last_slot_of_seven_rows();
        assert_eq!(slot(&mut state, 8, &mut [0; 8], 0).number, 0);
        assert_eq!(state.time, 1_000_000_000_000);
        for (k, row) in [(0, 0), (8, 6), (9, 0), (8, 7), (255, 255)] {
            let mut state = state;
            assert_eq!(why(&state, k, row), Err(32));
            state.stopped = true;
            assert_eq!(why(&state, k, row), Err(31));
            // one slot later there is no state
            state.time += 1;
            assert_eq!(why(&state, k, row), Err(30));
            state.stopped = false;
            assert_eq!(why(&state, k, row), Err(30));
        }
        // without a core in that slot row 5 is late
        let mut state = the_last_slot_of_seven_rows();
        assert_eq!(slot(&mut state, 0, &mut [0; 2], 0).number, 1);
        assert_eq!(reasons(&state, 0), [Err(31); 7]);
    }

    #[test]
    fn why_at_the_old_last_time() {
        // 1/2 and 1/3 with all that was due: subtask 500,000,001 is 1,000,000,000 to 1,000,000,002,
        // subtask 333,333,334 is 999,999,999 to 1,000,000,002, both with b = 0
        let rows = [(1, 2, 0, 0), (1, 3, 0, 0)];
        let given = [500_000_000, 333_333_333];
        let state = state_of(6, 2, &rows, 1_000_000_000, &given);
        let by_number = passed_over(0, Rule::RowNumber);
        assert_eq!(reasons(&state, 2), [PICKED, PICKED]);
        assert_eq!(reasons(&state, 1), [PICKED, by_number]);
        assert_eq!(reasons(&state, 0), [NO_CORE_FREE; 2]);
        // one slot later, after that choice
        let given = [500_000_001, 333_333_333];
        let state = state_of(6, 2, &rows, 1_000_000_001, &given);
        assert_eq!(reasons(&state, 1), [not_ready(1_000_000_002), PICKED]);
    }

    #[test]
    fn why_across_2_to_the_32nd() {
        // three rows 2/3 as in 01's example: 2^32 - 1 is a multiple of 3
        let mut state = fresh(table::read(&EXAMPLE).unwrap());
        state.time = 4_294_967_295;
        state.quanta[..3].copy_from_slice(&[2_863_311_530; 3]);
        let by_number = passed_over(1, Rule::RowNumber);
        assert_eq!(reasons(&state, 2), [PICKED, PICKED, by_number]);
        slot(&mut state, 2, &mut [0; 4], 0);
        let by_deadline = passed_over(2, Rule::Deadline);
        assert_eq!(reasons(&state, 1), [by_deadline, by_deadline, PICKED]);
        slot(&mut state, 2, &mut [0; 4], 0);
        let waits = not_ready(4_294_967_298);
        assert_eq!(reasons(&state, 2), [waits, PICKED, PICKED]);
        // as if at 1 and 2, with the quanta of then
        for (time, quanta) in [(4_294_967_297, [1, 1, 0]), (4_294_967_298, [2, 1, 1])] {
            state.time = time;
            state.quanta[..3].copy_from_slice(&quanta);
            assert_eq!(reasons(&state, 2), [Err(30); 3]);
        }
    }

    #[test]
    fn the_reason_is_the_same_so_many_cycles_later() {
        let mut chance = Chance(0x02_000B);
        let mut counts = [0; 5];
        for slots in LATER {
            for _ in 0..60 {
                let mut state = begun_by_chance(&mut chance);
                let cores = state.table.cores;
                for _ in 20..160 {
                    let far = later(&state, slots);
                    let k = chance.below(u64::from(cores) + 1) as u8;
                    for row in 0..state.table.count {
                        let mut expected = answer(&state, k, row);
                        if expected.reason == 2 {
                            expected.slot += slots;
                        }
                        assert_eq!(answer(&far, k, row), expected);
                        counts[usize::from(expected.reason)] += 1;
                    }
                    assert_eq!(slot(&mut state, cores, &mut [0; 10], 0).number, 0);
                }
                let at_the_end = u8::from(slots == LATER[2]) * 32;
                let far = later(&state, slots);
                // nobody waits where there is no row
                if state.table.count > 0 {
                    assert_eq!(answer(&far, cores, 0).number, at_the_end);
                }
            }
        }
        assert_eq!(counts[0], 0);
        assert!(counts[1..].iter().all(|&count| count > 500), "{:?}", counts);
    }

    // ---- refusals ----

    /// Two rows on two cores, about to run slot 0.
    fn two_rows() -> State {
        fresh(value_of(6, 2, &[(1, 2, 0, 0), (1, 3, 0, 0)]))
    }

    #[test]
    fn too_many_cores() {
        let state = two_rows();
        assert_eq!(why(&state, 2, 0), PICKED);
        for k in 3..=255 {
            assert_eq!(why(&state, k, 0), Err(33));
            assert_eq!(why(&state, k, 1), Err(33));
            // 33 goes before 36
            assert_eq!(why(&state, k, 2), Err(33));
            assert_eq!(why(&state, k, 255), Err(33));
        }
        let state = fresh(value_of(6, 8, &[(1, 2, 0, 0)]));
        assert_eq!(why(&state, 8, 0), PICKED);
        assert_eq!(why(&state, 9, 0), Err(33));
        assert_eq!(why(&state, 9, 1), Err(33));
    }

    #[test]
    fn no_such_row() {
        let mut state = two_rows();
        // what stands past n is no row
        state.table.rows[2] = state.table.rows[1];
        for k in 0..=2 {
            assert!(why(&state, k, 1).is_ok());
            for row in 2..=255 {
                assert_eq!(why(&state, k, row), Err(36));
            }
        }
        // n = 0 and n = 32
        let state = fresh(value_of(6, 2, &[]));
        for row in [0, 1, 255] {
            assert_eq!(why(&state, 0, row), Err(36));
        }
        let state = fresh(value_of(32, 1, &[(1, 32, 0, 0); 32]));
        assert_eq!(why(&state, 1, 31), passed_over(0, Rule::RowNumber));
        assert_eq!(why(&state, 0, 31), NO_CORE_FREE);
        for row in [32, 33, 255] {
            assert_eq!(why(&state, 0, row), Err(36));
        }
    }

    /// The number for a sound question, and for each sort of question that is itself refused.
    fn refused_in_all_ways(state: &State) -> [u8; 4] {
        let number = |k, row| why(state, k, row).unwrap_err();
        [number(0, 0), number(3, 0), number(0, 2), number(255, 255)]
    }

    #[test]
    fn the_state_is_judged_before_the_question() {
        let sound = two_rows();
        // 32 before 33 and 36
        let mut state = sound;
        state.time = 1_000_000_000_000;
        state.quanta[0] = 500_000_000_000;
        state.quanta[1] = 333_333_333_333;
        assert_eq!(refused_in_all_ways(&state), [32; 4]);
        // 31 before 32
        state.stopped = true;
        assert_eq!(refused_in_all_ways(&state), [31; 4]);
        // 30 before 31
        state.time = 1_000_000_000_001;
        assert_eq!(refused_in_all_ways(&state), [30; 4]);
        // 31 alone, also of a state that is inside its shares
        let mut state = sound;
        state.stopped = true;
        assert_eq!(refused_in_all_ways(&state), [31; 4]);
        // 30 alone: quanta above time; outside the share (1/2 without a quantum at 2)
        let mut state = sound;
        state.quanta[1] = 1;
        assert_eq!(refused_in_all_ways(&state), [30; 4]);
        state.stopped = true;
        assert_eq!(refused_in_all_ways(&state), [30; 4]);
        let mut state = sound;
        state.time = 2;
        assert_eq!(refused_in_all_ways(&state), [30; 4]);
        state.stopped = true;
        assert_eq!(refused_in_all_ways(&state), [31; 4]);
        // 30 before 32: 1/2 has one quantum too few at 1,000,000,000,000
        let mut state = sound;
        state.time = 1_000_000_000_000;
        state.quanta[0] = 499_999_999_999;
        state.quanta[1] = 333_333_333_333;
        assert_eq!(refused_in_all_ways(&state), [30; 4]);
    }

    #[test]
    fn what_is_remembered_amiss_is_30_as_well() {
        let mut state = two_rows();
        state.last = placement_of(&[(0, 1), (1, 0)]);
        assert_eq!(why(&state, 1, 0), PICKED);
        let amiss = [
            vec![(0, 2)],
            vec![(2, 0)],
            vec![(0, 0), (1, 0)],
            vec![(0, 0), (0, 1)],
            // 02, Eight: "not rising"
            vec![(1, 0), (0, 1)],
        ];
        for pairs in &amiss {
            state.last = placement_of(pairs);
            for format in 1..=2 {
                state.table.format = format;
                assert_eq!(refused_in_all_ways(&state), [30; 4]);
            }
        }
        state.last.count = 9;
        assert_eq!(refused_in_all_ways(&state), [30; 4]);
        state.stopped = true;
        assert_eq!(refused_in_all_ways(&state), [30; 4]);
    }

    #[test]
    fn what_is_remembered_changes_no_reason_without_a_full_tie() {
        // row 2 alone is due at 4, row 5 is not ready: the same in both formats
        let plain = six_rows();
        let mut state = plain;
        state.last = placement_of(&[(2, 0), (5, 3)]);
        for format in 1..=2 {
            state.table.format = format;
            for k in 0..=4 {
                assert_eq!(reasons(&state, k), reasons(&plain, k));
            }
        }
        // rows 1 and 4 are full ties, which format 1 leaves to their number
        state.table.format = 1;
        state.last = placement_of(&[(4, 3)]);
        for k in 0..=4 {
            assert_eq!(reasons(&state, k), reasons(&plain, k));
        }
        state.table.format = 2;
        assert_ne!(reasons(&state, 3), reasons(&plain, 3));
    }

    #[test]
    fn table_faults_are_30() {
        let changes: [&dyn Fn(&mut Table); 13] = [
            &|t| t.format = 0,
            &|t| t.format = 3,
            &|t| t.format = 255,
            &|t| t.cycle = 0,
            &|t| t.cores = 0,
            &|t| t.cores = 255,
            &|t| t.boards[1] = 0,
            &|t| t.count = 33,
            &|t| t.count = 255,
            &|t| t.rows[1].tank = 1,
            &|t| t.rows[1].cost = 0,
            &|t| t.rows[1].period = 0,
            &|t| t.rows[1].kind = 2,
        ];
        for change in changes {
            let mut state = two_rows();
            change(&mut state.table);
            assert_eq!(refused_in_all_ways(&state), [30; 4]);
        }
        let full = value_of(2, 1, &[(1, 2, 0, 0), (1, 2, 0, 0), (1, 2, 0, 0)]);
        assert_eq!(refused_in_all_ways(&fresh(full)), [30; 4]);
    }

    #[test]
    fn wild_states_are_stood() {
        let mut wild = fresh(Table::zero());
        assert_eq!(refused_in_all_ways(&wild), [30; 4]);
        wild.table.format = 255;
        wild.table.cycle = u32::MAX;
        wild.table.cores = 255;
        wild.table.count = 255;
        wild.time = u64::MAX;
        wild.quanta = [u64::MAX; 32];
        wild.last.count = 255;
        assert_eq!(refused_in_all_ways(&wild), [30; 4]);
        // a table that is right, and nothing else
        let mut wild = two_rows();
        for (time, quanta) in [(0, u64::MAX), (u64::MAX, 0), (u64::MAX, u64::MAX)] {
            wild.time = time;
            wild.quanta = [quanta; 32];
            assert_eq!(refused_in_all_ways(&wild), [30; 4]);
        }
    }

    // ---- the answer in plain numbers ----

    #[test]
    fn the_answer_in_bytes() {
        let bytes = |state: &State, k, row| answer(state, k, row).bytes();
        // slot 0 of 1/2, 1/3, and 1/2 with phase 258 = 1·256 + 2
        let rows = [(1, 2, 0, 0), (1, 3, 0, 0), (1, 2, 258, 0)];
        let mut state = fresh(value_of(6, 2, &rows));
        assert_eq!(bytes(&state, 2, 1), [0, 1, 0, 0, 0, 0, 0, 0, 0, 0, 0, 0]);
        assert_eq!(bytes(&state, 2, 2), [0, 2, 2, 1, 0, 0, 0, 0, 0, 0, 0, 0]);
        assert_eq!(bytes(&state, 0, 1), [0, 3, 0, 0, 0, 0, 0, 0, 0, 0, 0, 0]);
        assert_eq!(bytes(&state, 1, 1), [0, 4, 0, 0, 0, 0, 0, 0, 0, 0, 0, 1]);
        assert_eq!(bytes(&state, 3, 1), [33, 0, 0, 0, 0, 0, 0, 0, 0, 0, 0, 0]);
        assert_eq!(bytes(&state, 2, 3), [36, 0, 0, 0, 0, 0, 0, 0, 0, 0, 0, 0]);
        state.stopped = true;
        assert_eq!(bytes(&state, 2, 1), [31, 0, 0, 0, 0, 0, 0, 0, 0, 0, 0, 0]);
        state.time = u64::MAX;
        assert_eq!(bytes(&state, 2, 1), [30, 0, 0, 0, 0, 0, 0, 0, 0, 0, 0, 0]);
        let mut state = fresh(value_of(1, 1, &[]));
        state.time = 1_000_000_000_000;
        assert_eq!(bytes(&state, 1, 0), [32, 0, 0, 0, 0, 0, 0, 0, 0, 0, 0, 0]);
        // 1,000,040,000 is 3B9B6640 in base 16
        let rows = [(1, 50_000, 40_000, 0)];
        let state = state_of(50_000, 1, &rows, 999_999_999, &[20_000]);
        let expected = [0, 2, 0x40, 0x66, 0x9B, 0x3B, 0, 0, 0, 0, 0, 0];
        assert_eq!(bytes(&state, 1, 0), expected);
        // 1,000,000,040,000 is E8D4A5AC40
        let state = state_of(50_000, 1, &rows, 999_999_999_999, &[20_000_000]);
        let expected = [0, 2, 0x40, 0xAC, 0xA5, 0xD4, 0xE8, 0, 0, 0, 0, 0];
        assert_eq!(bytes(&state, 1, 0), expected);
    }

    #[test]
    fn the_numbers_of_the_rules() {
        let state = six_rows();
        let passed = |k, asked| {
            let given = answer(&state, k, asked);
            assert_eq!((given.number, given.reason, given.slot), (0, 4, 0));
            assert_eq!(given.bytes()[10..], [given.row, given.rule]);
            (given.row, given.rule)
        };
        assert_eq!(passed(1, 2), (3, 1));
        assert_eq!(passed(1, 1), (3, 2));
        assert_eq!(passed(1, 0), (3, 3));
        assert_eq!(passed(3, 4), (1, 4));
        assert_eq!(passed(2, 2), (0, 1));
        assert_eq!(passed(2, 1), (0, 2));
        // in format 2, where row 4 ran and row 1 did not
        let mut kind = state;
        kind.table.format = 2;
        kind.last = placement_of(&[(4, 0)]);
        let given = answer(&kind, 3, 1);
        assert_eq!((given.number, given.reason, given.slot), (0, 4, 0));
        assert_eq!((given.row, given.rule), (4, 5));
        assert_eq!(given.bytes()[10..], [4, 5]);
    }

    // ---- the reasons over runs by chance, held against the slot itself ----

    /// The first slot from a time on in which the row is ready, sought slot by slot.
    fn sought(state: &State, row: u8) -> u64 {
        let place = usize::from(row);
        let mut time = state.time;
        while !slot::ready(&state.table.rows[place], state.quanta[place], time) {
            time += 1;
        }
        time
    }

    /// (d, b, D) of a row's next subtask, by the windows that may be asked for alone.
    fn asked_alone(state: &State, row: u8) -> (u64, u8, u64) {
        let place = usize::from(row);
        let row = &state.table.rows[place];
        let next = windows::window(row.cost, row.period, row.phase, state.quanta[place] + 1);
        (next.deadline, next.bit, next.group)
    }

    /// The number of the rule by which `one` goes before `other`, 0 if it does not. The words of 01
    /// and of 02, Eight, one after the other.
    fn ahead(state: &State, one: u8, other: u8) -> u8 {
        let (d, b, group) = asked_alone(state, one);
        let (d2, b2, group2) = asked_alone(state, other);
        let ran = |row| state.last.named_rows().contains(&row);
        let (rule, goes_first) = if d != d2 {
            (1, d < d2)
        } else if b != b2 {
            (2, b == 1)
        } else if b == 1 && group != group2 {
            (3, group > group2)
        } else if state.table.format == 2 && ran(one) != ran(other) {
            (5, ran(one))
        } else {
            (4, one < other)
        };
        rule * u8::from(goes_first)
    }

    /// The answer for a row, with the rows that the slot will pick.
    fn expected(state: &State, k: u8, row: u8, picked: &[u8]) -> WhyAnswer {
        let mut answer = WhyAnswer {
            number: 0,
            reason: 0,
            slot: 0,
            row: 0,
            rule: 0,
        };
        let first_slot = sought(state, row);
        if picked.contains(&row) {
            answer.reason = 1;
        } else if first_slot != state.time {
            answer.reason = 2;
            answer.slot = first_slot;
        } else if k == 0 {
            answer.reason = 3;
        } else {
            answer.reason = 4;
            // the one that goes before none of the others picked
            let before_none = |&&one: &&u8| {
                picked
                    .iter()
                    .all(|&other| one == other || ahead(state, one, other) == 0)
            };
            let lowest: Vec<u8> = picked.iter().filter(before_none).copied().collect();
            assert_eq!(lowest.len(), 1);
            answer.row = lowest[0];
            answer.rule = ahead(state, lowest[0], row);
            assert!(answer.rule != 0);
        }
        answer
    }

    /// The rows that the slot picks, of a copy of the state.
    fn rows_picked(state: &State, k: u8) -> Vec<u8> {
        let mut record = [0; 10];
        assert!(slot(&mut state.clone(), k, &mut record, 0).number < 2);
        record[2..2 + usize::from(record[1])].to_vec()
    }

    #[test]
    fn the_reason_is_what_the_slot_will_do() {
        let mut chance = Chance(0x02_0002);
        let (mut reasons, mut rules) = ([0; 5], [0; 6]);
        for _ in 0..300 {
            let table = table_by_chance(&mut chance);
            let mut state = fresh(table);
            for _ in 0..table.cycle {
                for k in 0..=table.cores {
                    let picked = rows_picked(&state, k);
                    for row in 0..table.count {
                        let given = answer(&state, k, row);
                        assert_eq!(given, expected(&state, k, row, &picked));
                        reasons[usize::from(given.reason)] += 1;
                        rules[usize::from(given.rule)] += 1;
                    }
                }
                let k = table.cores - u8::from(chance.below(8) == 0);
                if slot(&mut state, k, &mut [0; 10], 0).number != 0 {
                    break;
                }
            }
        }
        // each reason and each rule often
        for counts in [&reasons[1..], &rules[1..]] {
            assert!(counts.iter().all(|&count| count > 500), "{:?}", counts);
        }
    }

    #[test]
    fn the_first_slot_comes_true() {
        let mut chance = Chance(0x02_0003);
        let mut kept = 0;
        for _ in 0..150 {
            let table = table_by_chance(&mut chance);
            let mut state = fresh(table);
            let mut promised: [Option<u64>; 32] = [None; 32];
            for _ in 0..2 * table.cycle {
                for row in 0..table.count {
                    let said = match why(&state, 0, row) {
                        Ok(Reason::NotReady { first_slot }) => Some(first_slot),
                        other => {
                            assert_eq!(other, NO_CORE_FREE);
                            None
                        }
                    };
                    let before = &mut promised[usize::from(row)];
                    match *before {
                        // until then the same slot is named, and in that slot none any more
                        Some(first_slot) if first_slot > state.time => assert_eq!(said, *before),
                        Some(first_slot) => {
                            assert_eq!((first_slot, said), (state.time, None));
                            kept += 1;
                        }
                        None => {}
                    }
                    *before = said;
                }
                let k = table.cores - u8::from(chance.below(8) == 0);
                if slot(&mut state, k, &mut [0; 10], 0).number != 0 {
                    break;
                }
            }
        }
        assert!(kept > 1_000);
    }

    fn has_the_whole_core(row: &Row) -> bool {
        row.cost == row.period
    }

    /// What a whole-core row waits for in a run, with k cores free, one at least: 0 its phase, 1
    /// its bit, 2 its number, 3 that another ran before; None if it is picked. Once begun it is due
    /// at the end of the slot, so that only rows that are due then too can go before it, and D is
    /// not asked of its b = 0. It runs in every slot, so that in its first alone another can have
    /// run in the slot before and it not.
    fn waits_for(state: &State, k: u8, number: u8) -> Option<usize> {
        let phase = u64::from(state.table.rows[usize::from(number)].phase);
        let reason = why(state, k, number);
        if phase > state.time {
            assert_eq!(reason, not_ready(phase));
            return Some(0);
        }
        match reason {
            Ok(Reason::Picked) => None,
            Ok(Reason::PassedOver { rule, .. }) if rule == Rule::Bit => Some(1),
            Ok(Reason::PassedOver { rule, .. }) if rule == Rule::RowNumber => Some(2),
            Ok(Reason::PassedOver { rule, .. }) if rule == Rule::RanBefore => {
                assert_eq!((state.table.format, state.time), (2, phase));
                Some(3)
            }
            other => panic!("{:?}", other),
        }
    }

    #[test]
    fn what_a_whole_core_row_waits_for_in_a_run() {
        let mut chance = Chance(0x02_0009);
        // in format 1, and in format 2, where it may wait for who ran
        let mut met = [[0; 4]; 2];
        for made in 0..600 {
            let mut table = never_late::full_box(&mut chance);
            table.format = 1 + (made % 2) as u8;
            let rows = table.named_rows();
            if table.cycle > 60 || rows.iter().all(has_the_whole_core) {
                continue;
            }
            let mut state = fresh(table);
            for _ in 0..3 * table.cycle {
                for number in 0..table.count {
                    if !has_the_whole_core(&rows[usize::from(number)]) {
                        continue;
                    }
                    for k in 1..=table.cores {
                        if let Some(cause) = waits_for(&state, k, number) {
                            met[usize::from(table.format - 1)][cause] += 1;
                        }
                    }
                }
                // all cores free, and nobody late
                assert_eq!(slot(&mut state, table.cores, &mut [0; 10], 0).number, 0);
            }
        }
        for in_format in &met {
            assert!(in_format[..3].iter().all(|&count| count > 50), "{:?}", met);
        }
        assert!(met[0][3] == 0 && met[1][3] > 0, "{:?}", met);
    }

    /// A state by chance, with which something may be amiss.
    fn spoilt(chance: &mut Chance) -> State {
        let mut state = fresh(table_by_chance(chance));
        let wild = [0, 1, 2, u64::MAX][chance.below(4) as usize];
        match chance.below(8) {
            0 => state.time = wild,
            1 => state.quanta[0] = wild,
            2 => state.last.count = wild as u8,
            3 => state.table.count = wild as u8,
            6 => state.table.format = wild as u8,
            // near the last time no row has its share by chance
            4 | 5 => {
                state.table.count = 0;
                state.time = 999_999_999_999 + chance.below(3);
            }
            _ => {}
        }
        state.stopped = chance.below(4) == 0;
        state
    }

    #[test]
    fn refused_where_the_slot_is_refused() {
        let mut chance = Chance(0x02_0004);
        let mut numbers = [0; 37];
        for _ in 0..20_000 {
            let state = spoilt(&mut chance);
            let (k, row) = (chance.below(6) as u8, chance.below(12) as u8);
            let expected = match slot(&mut state.clone(), k, &mut [0; 10], 0).number {
                // the slot has 35 "in the place of 33"
                35 => 33,
                0 | 1 if row >= state.table.count => 36,
                0 | 1 => 0,
                of_the_state => of_the_state,
            };
            let given = answer(&state, k, row);
            assert_eq!(given.number, expected);
            assert_eq!(given.reason == 0, expected != 0);
            numbers[usize::from(expected)] += 1;
        }
        for number in [0, 30, 31, 32, 33, 36] {
            assert!(numbers[number] > 100, "{}: {}", number, numbers[number]);
        }
    }
}
