//! Single slots, of wild states: with k free cores, the first k; and what they have in common with those of cores.rs, which have a set of them, and
//! with the questions of why.rs.

use super::by_hand;
use crate::kind::*;
use crate::make::damage::damage_value;
use crate::make::schedule::{last_late, record};
use crate::make::{memory, slot_seen, states, values};
use crate::number::Number;
use second::cores::Placement;
use second::slot::{broken, first_cores, ready_rows, rule_between, slot_on};
use second::slot::{Answer, Rule, State, LAST_TIME};
use std::iter::repeat_with;

#[derive(Clone)]
pub struct Case<F> {
    pub state: State,
    pub free: F,
    pub place: u64,
    pub buffer: Vec<u8>,
    /// the answer and of what it is, where it was made by hand
    pub known: Option<(Vec<u8>, String)>,
}

/// How a slot is told which cores are free.
pub trait Free: Number + 'static {
    const LETTER: u8;
    const NAME: &'static str;
    /// whether the answer says which row has which core
    const PLACES: bool;
    /// what is counted of it
    const GROUP: Group;

    /// So many cores, or more than there are.
    fn wild(random: &mut Random, k: u8, state: &State) -> Self;

    fn set(self) -> u32;

    fn one_less(self) -> Self;

    /// Counts it, in a slot of a box with so many cores that has this number.
    fn count(self, cores: u8, number: u8, tally: &mut Tally);
}

impl Free for u8 {
    const LETTER: u8 = b'S';
    const NAME: &'static str = "k";
    const PLACES: bool = false;
    const GROUP: Group = "35 by k of (1 in 500): M + 1 | 32 | 255";

    fn wild(_random: &mut Random, k: u8, _state: &State) -> u8 {
        k
    }

    fn set(self) -> u32 {
        first_cores(self)
    }

    fn one_less(self) -> u8 {
        self.saturating_sub(1)
    }

    fn count(self, cores: u8, number: u8, tally: &mut Tally) {
        let by = |k| number == 35 && self == k;
        tally.saw_each("35 by k of", [by(cores.wrapping_add(1)), by(32), by(255)]);
    }
}

impl<F: Free> Kind for Case<F> {
    const GROUPS: &'static [Group] = &slot_seen::groups(F::GROUP);

    fn wild(random: &mut Random) -> Self {
        if random.one_in(40) {
            let late = last_late(random);
            let k = late.trace.records.last().map_or(0, |record| record.k);
            return with_room(random, late.before, k);
        }
        let state = wild_state(random);
        let k = match random.below(3) {
            0 => where_one_alone_ran(random, &state),
            _ => None,
        };
        let k = k.unwrap_or_else(|| free_cores(random, state.table.cores));
        with_room(random, state, k)
    }

    fn cases(mut random: Random) -> Box<dyn Iterator<Item = Self>> {
        let wild = repeat_with(move || Self::wild(&mut random));
        Box::new(by_hand::slots().into_iter().chain(wild))
    }

    fn asked(&mut self, to: &mut Message) {
        // where a row less will do, a free core less may have to go with it
        if let Some(way) = to.turn(values::ways_of_state(&self.state)) {
            values::make_smaller(&mut self.state, way);
            self.free = self.free.one_less();
        }
        values::state(to.letter(F::LETTER), &mut self.state)
            .part(F::NAME, &mut self.free)
            .part("place", &mut self.place)
            .counted("buffer", &mut self.buffer);
    }

    fn answered(&self, to: &mut Message) {
        self.slot().tell::<F>(to);
    }

    fn known(&self) -> Option<(&[u8], &str)> {
        let known = self.known.as_ref();
        known.map(|(answer, words)| (&answer[..], &words[..]))
    }

    fn count(&self, answer: &[u8], tally: &mut Tally) {
        slot_seen::count(self, answer, tally);
    }
}

impl<F: Free> Case<F> {
    /// What the second program makes of it.
    pub fn slot(&self) -> Outcome {
        let (mut state, mut buffer) = (self.state, self.buffer.clone());
        let (answer, placed) = slot_on(&mut state, self.free.set(), &mut buffer, self.place);
        Outcome {
            answer,
            placed,
            state,
            buffer,
        }
    }
}

/// A slot's answer, and what it leaves.
pub struct Outcome {
    pub answer: Answer,
    pub placed: Placement,
    pub state: State,
    pub buffer: Vec<u8>,
}

impl Outcome {
    pub fn tell<F: Free>(mut self, to: &mut Message) {
        to.number("number", self.answer.number)
            .number("row", self.answer.row)
            .number("time", self.answer.time);
        if F::PLACES {
            values::placement(to, values::PLACED, &mut self.placed);
        }
        values::state(to, &mut self.state).fixed("buffer", &self.buffer);
    }
}

/// With a place in a lent buffer: with room for the record of the slot, with a little less, or with none.
fn with_room<F: Free>(random: &mut Random, state: State, k: u8) -> Case<F> {
    let last = Placement::nobody();
    // whatever is remembered, since it has no part in how many are picked
    let length = 2 + record(&mut State { last, ..state }, k).0.rows.len();
    let before = random.pick(&[0, 0, 1, 4, 9]);
    let exact = before + length;
    let end = exact + random.pick(&[0, 0, 1, 7]);
    // its low 4 bytes alone would be a place with room
    let far = before as u64 + (random.pick(&[1, 2, 1 << 31, u64::from(u32::MAX)]) << 32);
    let past = [end as u64, end as u64 + 1, far, far, u64::MAX - 1, u64::MAX];
    let near = before as u64;
    let (place, size) = match random.below(20) {
        0 => (near, exact - 1),
        1 => (near, before + random.below(length)),
        2 => (random.pick(&past), end),
        3 => (near, 0),
        _ => (near, end),
    };
    Case {
        state,
        free: F::wild(random, k, &state),
        place,
        buffer: random.bytes(size),
        known: None,
    }
}

/// One that is not broken, or one of which something has another value.
pub fn wild_state(random: &mut Random) -> State {
    if random.one_in(40) {
        return states::past_limit(random);
    }
    let mut state = states::state(random);
    if random.one_in(3) {
        disturb(random, &mut state);
    }
    while random.one_in(12) {
        disturb(random, &mut state);
    }
    if random.one_in(10) {
        memory::damage(random, &state.table, &mut state.last);
    }
    state
}

pub fn free_cores(random: &mut Random, cores: u8) -> u8 {
    match random.below(12) {
        0 => random.pick(&[cores.wrapping_add(1), 32, 255]),
        1 => 0,
        2 => cores,
        _ => random.between(1, usize::from(cores).max(1)) as u8,
    }
}

/// k with which the last row that is picked and the first that is not are due together, and one of them alone ran in the slot before; if there is
/// one, and if the slot is not refused whatever k is. By the group deadline, if it can be: that is the rarest.
pub fn where_one_alone_ran(random: &mut Random, state: &State) -> Option<u8> {
    if broken(state) || state.stopped || state.time == LAST_TIME {
        return None;
    }
    let ready = ready_rows(state);
    let (mut by_group, mut by_others) = (vec![], vec![]);
    for (k, pair) in (1..=state.table.cores).zip(ready.windows(2)) {
        if pair[0].deadline == pair[1].deadline && pair[0].ran != pair[1].ran {
            match rule_between(state.table.format, &pair[0], &pair[1]) {
                Rule::GroupDeadline => by_group.push(k),
                _ => by_others.push(k),
            }
        }
    }
    let found = [by_group, by_others].into_iter().find(|found| !found.is_empty())?;
    Some(random.pick(&found))
}

/// One thing of a state gets another value: often one that breaks it, sometimes one that is only rare.
fn disturb(random: &mut Random, state: &mut State) {
    match random.below(12) {
        0..=2 => state.time = other_time(random, state.time),
        3..=5 => state.stopped = !state.stopped,
        6 | 7 => disturb_quanta(random, state),
        8 => spoil_cost(random, state),
        _ => {
            damage_value(random, &mut state.table);
            // a memory of more rows or cores than are left would be a fault beside the table's
            if random.one_in(2) {
                state.last = Placement::nobody();
            }
        }
    }
}

/// A row without a cost and without quanta, or one that costs more than its period has slots and has had each of them: inside its share, for some time at least, were it a
/// row. At times one that costs just as many, which is a row.
fn spoil_cost(random: &mut Random, state: &mut State) {
    let n = usize::from(state.table.count).clamp(1, 32);
    let number = random.below(n);
    let row = &mut state.table.rows[number];
    let begun = state.time.saturating_sub(u64::from(row.phase));
    let more = row.period.saturating_add(1);
    let (cost, quanta) = random.pick(&[(0, 0), (more, begun), (more, begun), (row.period, begun)]);
    row.cost = cost;
    state.quanta[number] = quanta;
}

fn other_time(random: &mut Random, time: u64) -> u64 {
    let (less, more) = (time.wrapping_sub(1), time.wrapping_add(1));
    let (last, past) = (LAST_TIME, LAST_TIME + 1);
    // right in its low 4 bytes alone
    let high = time.wrapping_add(1 << 32);
    random.pick(&[less, less, more, more, 0, last, past, high, u64::MAX])
}

fn disturb_quanta(random: &mut Random, state: &mut State) {
    let n = usize::from(state.table.count).clamp(1, 32);
    let quanta = &mut state.quanta[random.below(n)];
    let (less, more) = (quanta.wrapping_sub(1), quanta.wrapping_add(1));
    let wild = random.pick(&[0, state.time, state.time.wrapping_add(1), 1 << 32, u64::MAX]);
    *quanta = random.pick(&[less, less, more, more, wild]);
}
