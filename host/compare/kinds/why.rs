//! Why a row is picked in the slot about to run, or waits: of the states and the free cores that slots are asked with.

use super::by_hand;
use super::slot::{free_cores, where_one_alone_ran, wild_state};
use crate::kind::*;
use crate::make::whole_core::is_whole;
use crate::make::{values, why_seen};
use second::slot::{broken, ready_rows, rule_between, Next, Rule, State};
use second::why::answer;
use std::iter::repeat_with;

#[derive(Clone)]
pub struct Case {
    pub state: State,
    pub k: u8,
    pub row: u8,
    /// the answer and of what it is, where it was made by hand
    pub known: Option<(Vec<u8>, String)>,
}

impl Kind for Case {
    const GROUPS: &'static [Group] = &why_seen::GROUPS;

    fn wild(random: &mut Random) -> Case {
        let state = wild_state(random);
        let telling = match random.below(6) {
            0 | 1 if !broken(&state) => where_groups_differ(random, &state),
            2 => first_left_where_one_ran(random, &state),
            _ => None,
        };
        let (k, row) = telling.unwrap_or_else(|| any_question(random, &state));
        Case {
            state,
            k,
            row,
            known: None,
        }
    }

    fn cases(mut random: Random) -> Box<dyn Iterator<Item = Case>> {
        let wild = repeat_with(move || Case::wild(&mut random));
        Box::new(by_hand::questions().into_iter().chain(wild))
    }

    fn asked(&mut self, to: &mut Message) {
        // where a row less will do, a free core less may have to go with it, or must not
        for cores_less in [1, 0] {
            if let Some(way) = to.turn(values::ways_of_state(&self.state)) {
                self.make_smaller(way, cores_less);
            }
        }
        values::state(to.letter(b'Y'), &mut self.state)
            .part("k", &mut self.k)
            .part("row", &mut self.row);
    }

    fn answered(&self, to: &mut Message) {
        let answer = answer(&self.state, self.k, self.row);
        to.number("number", answer.number)
            .number("reason", answer.reason)
            .number("first slot", answer.slot)
            .number("row", answer.row)
            .number("rule", answer.rule);
    }

    fn known(&self) -> Option<(&[u8], &str)> {
        let known = self.known.as_ref();
        known.map(|(answer, words)| (&answer[..], &words[..]))
    }

    fn count(&self, _answer: &[u8], tally: &mut Tally) {
        why_seen::count(self, tally);
    }
}

impl Case {
    /// The same row is asked about: where one before it is lost, it has the number before its own.
    fn make_smaller(&mut self, way: usize, cores_less: u8) {
        let lost = values::make_smaller(&mut self.state, way);
        if lost.map_or(false, |lost| lost < self.row) {
            self.row -= 1;
        }
        self.k = self.k.saturating_sub(cores_less);
    }
}

/// k and a row that is then passed over by a row with another D, if there are such: by D, or by a rule with which it is not asked. The state is not
/// broken.
fn where_groups_differ(random: &mut Random, state: &State) -> Option<(u8, u8)> {
    let other = random.pick(&[Rule::GroupDeadline, Rule::RowNumber]);
    // the rarest first
    let found = [Rule::Bit, other].map(|rule| passed_over_by(rule, state));
    let found = found.iter().find(|found| !found.is_empty())?;
    Some(random.pick(found))
}

/// k and the first row that is then not picked, where it or the last one that is picked alone ran in the slot before, if there is such a k.
fn first_left_where_one_ran(random: &mut Random, state: &State) -> Option<(u8, u8)> {
    let k = where_one_alone_ran(random, state)?;
    Some((k, ready_rows(state)[usize::from(k)].row))
}

/// All such by this rule; by the bit, only those whose own D is the larger.
fn passed_over_by(rule: Rule, state: &State) -> Vec<(u8, u8)> {
    let ready = ready_rows(state);
    let mut found = Vec::new();
    for (k, named) in (1..=state.table.cores).zip(&ready) {
        let differs = |asked: &&Next| match rule {
            Rule::Bit => asked.group > named.group,
            _ => asked.group != named.group,
        };
        let left = ready.iter().skip(usize::from(k)).filter(differs);
        let by_rule = left.filter(|asked| rule_between(state.table.format, named, asked) == rule);
        found.extend(by_rule.map(|asked| (k, asked.row)));
    }
    found
}

fn any_question(random: &mut Random, state: &State) -> (u8, u8) {
    let k = match random.below(12) {
        0 => 0,
        _ => free_cores(random, state.table.cores),
    };
    (k, row(random, state, k))
}

/// Any row of the table, the last, one that is not there, one that is picked or passed over by little, or one with e = p.
fn row(random: &mut Random, state: &State, k: u8) -> u8 {
    let n = state.table.count;
    let whole = whole_core_rows(state);
    match random.below(12) {
        0 => random.pick(&[n, n.wrapping_add(1), 31, 32, 255]),
        1 => n.wrapping_sub(1),
        2..=6 if !broken(state) => near_the_last_picked(random, state, k),
        7 if !whole.is_empty() => random.pick(&whole),
        _ => random.below(usize::from(n).max(1)) as u8,
    }
}

fn whole_core_rows(state: &State) -> Vec<u8> {
    (0..state.table.count.min(32)).filter(|&row| is_whole(&state.table.rows[usize::from(row)])).collect()
}

/// The row that is picked last, or one of the two after it; row 0 where nobody is ready.
fn near_the_last_picked(random: &mut Random, state: &State, k: u8) -> u8 {
    let ready = ready_rows(state);
    let place = (usize::from(k) + random.below(3)).saturating_sub(1);
    let place = place.min(ready.len().saturating_sub(1));
    ready.get(place).map_or(0, |next| next.row)
}
