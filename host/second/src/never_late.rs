//! Never late: full boxes by chance, run with all cores free.
//!
//! 01 takes its order from 001, and 001's Theorem 18 says of it that it "generates a valid
//! schedule for any feasible asynchronous task system"; feasible (its Theorem 29) is what 01 asks
//! of a table: "The sum of e·(L/p) is at most M·L." So no row may be late while all M cores are
//! free. A full box, with the sum exactly M·L, has no idle core that could mend a wrong choice: a
//! slip in the order shows there.
//!
//! Of a row with e = p (02, Six) Theorem 18 does not speak: 001 assumes that "each task's weight is
//! strictly less than one", for "a task with weight one would require a dedicated processor, and
//! thus is quite easily scheduled". 01 dedicates none: such a row stands in the order like any
//! other, behind those with the same d and b = 1. Nobody is late all the same. While nobody is,
//! each of the w such rows that have begun is due at the end of the slot, and nobody earlier. By
//! Theorem 18 no more than M - w of the others are due then too, so that all who are due are
//! picked, whatever their order, and the cores that are left go to the others by the order: they
//! run as they would alone on M - w cores. Before a whole-core row begins they have more cores than
//! that. Then nothing comes later: what has been given with fewer cores has been given with more by
//! the same time, since the rows that go before it in the order are then the same or fewer.
//!
//! In format 2 (02, Eight) who goes first among full ties hangs on the slot before. 001's proof has
//! one order of all subtasks, "obtained by arbitrarily breaking any ties left", that stays the same
//! for the whole run. It comes to the same: of the subtasks that are full ties let those go first
//! that the run gave earlier. With the order so fixed, afterwards, each slot picks the rows that it
//! picked in the run, since of the full ties that were ready in it those it picked were given
//! before those it left out. So what is said above holds of format 2 as well. Boxes are run in
//! format 1 and in format 2 by turns.

use crate::slot::{self, Answer};
use crate::table::{self, Row, Table};
use crate::windows;

/// Makes so many full boxes and runs each with all M cores free, for its longest phase and two
/// cycles more. `Ok` counts what was run, in one line. `Err` tells the first slot that answered
/// anything but 0; tables, like slots and rows, are numbered from 0. Those with an odd number are
/// of format 2.
pub fn full_boxes(seed: u64, tables: u32) -> Result<String, String> {
    let mut chance = Chance(seed);
    let mut counts = Counts::default();
    for number in 0..tables {
        let mut table = full_box(&mut chance);
        table.format = 1 + (number % 2) as u8;
        let slots = slots_to_run(&table);
        if let Some((at, answer)) = first_not_done(&table, table.cores, slots) {
            let text = not_done_text(&table, at, &answer);
            return Err(format!("seed {}, table {}: {}", seed, number, text));
        }
        counts.add(&table, slots);
    }
    Ok(counts.text(seed))
}

// ---- running a box ----

/// The longest phase, after which every row has begun, and two cycles.
fn slots_to_run(table: &Table) -> u64 {
    let phases = table.named_rows().iter().map(|row| row.phase);
    u64::from(phases.max().unwrap_or(0)) + 2 * u64::from(table.cycle)
}

/// Runs a table from its fresh state with k cores free: the first slot that answers anything but
/// 0 ("done"), with its answer.
fn first_not_done(table: &Table, k: u8, slots: u64) -> Option<(u64, Answer)> {
    let mut state = slot::fresh(*table);
    for number in 0..slots {
        let answer = slot::slot(&mut state, k, &mut [0; 2 + 8], 0);
        if answer.number != 0 {
            return Some((number, answer));
        }
    }
    None
}

fn not_done_text(table: &Table, at: u64, answer: &Answer) -> String {
    let bytes = table::write(table);
    let hex: String = bytes.iter().map(|byte| format!("{:02X}", byte)).collect();
    format!(
        "slot {} answers {}, row {}, time {}, of table {}",
        at, answer.number, answer.row, answer.time, hex
    )
}

/// What was run.
#[derive(Default)]
struct Counts {
    tables: u64,
    of_format_2: u64,
    slots: u64,
    plain: u64,
    early: u64,
    heavy: u64,
    whole_core: u64,
    full_width: u64,
    full_width_of_32: u64,
}

impl Counts {
    fn add(&mut self, table: &Table, slots: u64) {
        self.tables += 1;
        self.of_format_2 += u64::from(table.format == 2);
        self.slots += slots;
        for row in table.named_rows() {
            self.plain += u64::from(row.kind == 0);
            self.early += u64::from(row.kind == 1);
            self.heavy += u64::from(windows::heavy(row.cost, row.period));
            self.whole_core += u64::from(row.cost == row.period);
        }
        self.full_width += u64::from(table.cores == 8);
        self.full_width_of_32 += u64::from(table.cores == 8 && table.count == 32);
    }

    fn text(&self, seed: u64) -> String {
        format!(
            "never late: {} tables, {} of format 2, {} slots, {} plain rows, \
             {} early-release rows, {} heavy rows, {} whole-core rows, \
             {} full-width boxes (M = 8), {} of them with 32 rows, seed {}",
            self.tables,
            self.of_format_2,
            self.slots,
            self.plain,
            self.early,
            self.heavy,
            self.whole_core,
            self.full_width,
            self.full_width_of_32,
            seed
        )
    }
}

// ---- chance ----

/// A plain generator of numbers, the same ones for the same seed; every seed serves, 0 too.
pub(crate) struct Chance(pub u64);

impl Chance {
    pub(crate) fn below(&mut self, limit: u64) -> u64 {
        self.0 = self.0.wrapping_add(0x9E37_79B9_7F4A_7C15);
        let mut mixed = self.0;
        mixed = (mixed ^ (mixed >> 30)).wrapping_mul(0xBF58_476D_1CE4_E5B9);
        mixed = (mixed ^ (mixed >> 27)).wrapping_mul(0x94D0_49BB_1331_11EB);
        (mixed ^ (mixed >> 31)) % limit
    }

    fn one_of<T: Copy>(&mut self, things: &[T]) -> T {
        things[self.below(things.len() as u64) as usize]
    }
}

// ---- making a full box ----

/// Cycles with many divisors, or with those of 001's counterexamples (9, 14, 22). The long ones
/// come seldom, as two cycles of each are run.
const SHORT: [u32; 22] = [
    2, 4, 6, 9, 10, 12, 14, 15, 18, 20, 22, 24, 28, 30, 36, 40, 42, 45, 48, 60, 66, 72,
];
const MIDDLE: [u32; 14] = [
    84, 90, 96, 120, 126, 140, 154, 168, 180, 210, 240, 252, 300, 360,
];
const LONG: [u32; 8] = [420, 504, 630, 720, 840, 1260, 2520, 5040];

/// A table without fault whose sum of e·(L/p) is exactly M·L, in format 1.
pub(crate) fn full_box(chance: &mut Chance) -> Table {
    let mut table = Table::zero();
    table.format = 1;
    table.cycle = match chance.below(16) {
        0 => chance.one_of(&LONG),
        1..=5 => chance.one_of(&MIDDLE),
        _ => chance.one_of(&SHORT),
    };
    table.cores = 1 + chance.below(8) as u8;
    put_boards(chance, &mut table);
    let whole = whole_cores(chance, table.cores);
    if whole == table.cores && chance.below(4) == 0 {
        // a cycle of one slot has whole-core rows only
        table.cycle = 1;
    }
    let rest = Rest {
        cores: table.cores - whole,
        cycle: table.cycle,
        most_rows: 32 - u32::from(whole),
    };
    let mut fractions = full_fractions(chance, rest);
    for _ in 0..whole {
        fractions.push(whole_core(chance, table.cycle));
    }
    if chance.below(3) == 0 {
        shuffle(chance, &mut fractions);
    } else {
        // where a wrong order leaves it to the row number, the lighter rows go first; whole-core
        // rows then have the last numbers
        fractions.sort_by_key(|fraction| fraction.quanta_in(table.cycle));
    }
    put_rows(chance, &mut table, &fractions);
    table
}

fn put_boards(chance: &mut Chance, table: &mut Table) {
    let mut board = chance.below(3) as u8;
    for place in 0..usize::from(table.cores) {
        table.boards[place] = board;
        board += 1 + chance.below(4) as u8;
    }
}

fn put_rows(chance: &mut Chance, table: &mut Table, fractions: &[Fraction]) {
    let kinds = chance.one_of(&[&[0, 1][..], &[0], &[0], &[1]]);
    let beginning = chance.one_of(&[
        Beginning::AtOnce,
        Beginning::AtOnce,
        Beginning::InItsPeriod,
        Beginning::Anywhere,
    ]);
    let mut tank = chance.below(3) as u16;
    table.count = fractions.len() as u8;
    for (place, fraction) in fractions.iter().enumerate() {
        table.rows[place] = Row {
            tank,
            cost: fraction.cost,
            period: fraction.period,
            phase: phase(chance, beginning, fraction.period, table.cycle),
            kind: chance.one_of(kinds),
        };
        tank += 1 + chance.below(9) as u16;
    }
}

/// When the rows of a box begin.
#[derive(Clone, Copy)]
enum Beginning {
    AtOnce,
    InItsPeriod,
    /// some at once, the others within a cycle and a half
    Anywhere,
}

fn phase(chance: &mut Chance, beginning: Beginning, period: u16, cycle: u32) -> u16 {
    match beginning {
        // 1/1, whose period is one slot, within six
        Beginning::InItsPeriod if period == 1 => chance.below(6) as u16,
        Beginning::InItsPeriod => chance.below(u64::from(period)) as u16,
        Beginning::Anywhere if chance.below(2) == 0 => {
            chance.below(u64::from(cycle) * 3 / 2 + 1) as u16
        }
        _ => 0,
    }
}

fn shuffle(chance: &mut Chance, fractions: &mut [Fraction]) {
    for place in (1..fractions.len()).rev() {
        fractions.swap(place, chance.below(place as u64 + 1) as usize);
    }
}

// ---- rows with e = p ----

/// How many rows of a box have a whole core each: in one box of twelve all, M of them, and there is
/// no other row; in four of twelve fewer than M, which may be none; else none.
fn whole_cores(chance: &mut Chance, cores: u8) -> u8 {
    match chance.below(12) {
        0 => cores,
        1..=4 => chance.below(u64::from(cores)) as u8,
        _ => 0,
    }
}

/// 1/1 as often as not, else p/p with any p that divides the cycle.
fn whole_core(chance: &mut Chance, cycle: u32) -> Fraction {
    let periods: Vec<u32> = match chance.below(2) {
        0 => vec![1],
        _ => (1..=cycle).filter(|p| cycle % p == 0).collect(),
    };
    let period = chance.one_of(&periods) as u16;
    Fraction {
        cost: period,
        period,
    }
}

// ---- fractions below the whole core that fill the rest ----

/// e/p, "never reduced".
#[derive(Clone, Copy, PartialEq, Eq, Debug)]
struct Fraction {
    cost: u16,
    period: u16,
}

impl Fraction {
    /// e·(L/p)
    fn quanta_in(self, cycle: u32) -> u32 {
        u32::from(self.cost) * (cycle / u32::from(self.period))
    }
}

/// What share of a core the rows of a box like to have.
#[derive(Clone, Copy)]
enum Taste {
    Any,
    /// more than one half: D decides only where one of the rows is so heavy (of one half b is 0)
    Heavy,
    /// at most a quarter: boxes of many rows
    Small,
    /// the first window is so many slots long: many rows with the same d, and b decides
    Alike(u16),
}

const TASTES: [Taste; 8] = [
    Taste::Any,
    Taste::Heavy,
    Taste::Heavy,
    Taste::Small,
    Taste::Alike(2),
    Taste::Alike(3),
    Taste::Alike(3),
    Taste::Alike(4),
];

/// What is to be filled: the cores that no row has as a whole, with so many rows at most.
#[derive(Clone, Copy)]
struct Rest {
    cores: u8,
    cycle: u32,
    most_rows: u32,
}

impl Rest {
    /// M·L, without the cores that a row has as a whole
    fn quanta(self) -> u32 {
        u32::from(self.cores) * self.cycle
    }
}

/// Fractions that fill the rest exactly.
fn full_fractions(chance: &mut Chance, rest: Rest) -> Vec<Fraction> {
    if rest.cores == 0 {
        return Vec::new();
    }
    let taste = chance.one_of(&TASTES);
    if chance.below(2) == 0 {
        if let Some(fractions) = of_two_weights(chance, taste, rest) {
            return fractions;
        }
    }
    of_many_weights(chance, taste, rest)
}

/// "a set A of tasks of one weight and a set B of tasks of another weight": what 001 says of its
/// counterexamples. None if in eight attempts no two fractions are met that fill the cores.
fn of_two_weights(chance: &mut Chance, taste: Taste, rest: Rest) -> Option<Vec<Fraction>> {
    for _ in 0..8 {
        let a = fraction(chance, taste, rest.cycle);
        let b = fraction(chance, taste, rest.cycle);
        let (a_quanta, b_quanta) = (a.quanta_in(rest.cycle), b.quanta_in(rest.cycle));
        let ways = ways_to_fill(rest.quanta(), rest.most_rows, a_quanta, b_quanta);
        if a_quanta == b_quanta || ways.is_empty() {
            continue;
        }
        let (a_rows, b_rows) = chance.one_of(&ways);
        let mut fractions = vec![a; a_rows];
        fractions.resize(a_rows + b_rows, b);
        return Some(fractions);
    }
    None
}

/// The numbers of rows, so many in all at most, of two kinds (so many quanta in a cycle each) that
/// together have as many quanta as wanted.
fn ways_to_fill(wanted: u32, most_rows: u32, a: u32, b: u32) -> Vec<(usize, usize)> {
    let mut ways = Vec::new();
    for a_rows in 1..most_rows {
        for b_rows in 1..=most_rows - a_rows {
            if a_rows * a + b_rows * b == wanted {
                ways.push((a_rows as usize, b_rows as usize));
            }
        }
    }
    ways
}

/// Rows by chance while they fit, then rows for what is left.
fn of_many_weights(chance: &mut Chance, taste: Taste, rest: Rest) -> Vec<Fraction> {
    let mut filling = Filling::new(chance, rest);
    while filling.unfilled > 0 {
        let taste = match chance.below(12) {
            0 => chance.one_of(&TASTES),
            _ => taste,
        };
        let fraction = filling.fitting(chance, taste);
        filling.push(fraction);
        // and some more rows of the same fraction
        for _ in 0..chance.below(4) {
            if filling.fits(fraction) {
                filling.push(fraction);
            }
        }
    }
    filling.fractions
}

/// A box on its way to being full. What is unfilled never exceeds what the rows it may still get
/// can take, so that it can always be filled.
struct Filling {
    cycle: u32,
    /// what is to be filled less the sum of e·(L/p) so far
    unfilled: u32,
    rows_left: u32,
    fractions: Vec<Fraction>,
}

impl Filling {
    fn new(chance: &mut Chance, rest: Rest) -> Filling {
        let unfilled = rest.quanta();
        let heaviest = heaviest(rest.cycle).quanta_in(rest.cycle);
        let least_rows = (unfilled + heaviest - 1) / heaviest;
        let most_more = rest.most_rows - least_rows;
        let more_rows = match chance.below(2) {
            0 => chance.below(u64::from(most_more) + 1) as u32,
            _ => most_more,
        };
        Filling {
            cycle: rest.cycle,
            unfilled,
            rows_left: least_rows + more_rows,
            fractions: Vec::new(),
        }
    }

    /// May the box get this row, and can what is unfilled after it still be filled?
    fn fits(&self, fraction: Fraction) -> bool {
        let quanta = fraction.quanta_in(self.cycle);
        let heaviest = heaviest(self.cycle).quanta_in(self.cycle);
        self.rows_left > 0
            && quanta <= self.unfilled
            && self.unfilled - quanta <= (self.rows_left - 1) * heaviest
    }

    fn push(&mut self, fraction: Fraction) {
        self.unfilled -= fraction.quanta_in(self.cycle);
        self.rows_left -= 1;
        self.fractions.push(fraction);
    }

    /// A fraction to one's taste that fits. If in eight attempts none is met: all that is
    /// unfilled if one row can take it, else as much as one row is counted on to take.
    fn fitting(&self, chance: &mut Chance, taste: Taste) -> Fraction {
        for _ in 0..8 {
            let fraction = fraction(chance, taste, self.cycle);
            if self.fits(fraction) {
                return fraction;
            }
        }
        let heaviest = heaviest(self.cycle);
        if self.unfilled > heaviest.quanta_in(self.cycle) {
            return heaviest;
        }
        the_rest(chance, self.unfilled, self.cycle)
    }
}

/// The heaviest row a filling counts on (of a cycle of two slots or more): by choice 59/60 of a
/// core, rounded up to whole quanta, but always below the whole core; the rows with e = p stand
/// beside what is filled. Rows met by chance may be heavier.
fn heaviest(cycle: u32) -> Fraction {
    Fraction {
        cost: (cycle - (cycle / 60).max(1)) as u16,
        period: cycle as u16,
    }
}

/// So many quanta in a cycle (less than the cycle has slots), as e and p = L or both divided by
/// the same number.
fn the_rest(chance: &mut Chance, quanta: u32, cycle: u32) -> Fraction {
    let divides_both = |by: &u32| quanta % by == 0 && cycle % by == 0;
    let divisors: Vec<u32> = (1..=quanta).filter(divides_both).collect();
    let by = chance.one_of(&divisors);
    Fraction {
        cost: (quanta / by) as u16,
        period: (cycle / by) as u16,
    }
}

/// A fraction to one's taste, below the whole core, whose p divides the cycle (of two slots or
/// more); where the taste leaves no cost, 1.
fn fraction(chance: &mut Chance, taste: Taste, cycle: u32) -> Fraction {
    let periods: Vec<u32> = (2..=cycle).filter(|p| cycle % p == 0).collect();
    let period = chance.one_of(&periods) as u16;
    let (lowest, highest) = match taste {
        Taste::Any => (1, period - 1),
        Taste::Heavy => (period / 2 + 1, period - 1),
        Taste::Small => (1, period / 4),
        // as often as not b = 0 in every window
        Taste::Alike(length) if period % length == 0 && chance.below(2) == 0 => {
            (period / length, period / length)
        }
        // ceil(p/e) is the length
        Taste::Alike(length) => ((period + length - 1) / length, (period - 1) / (length - 1)),
    };
    let cost = if lowest <= highest {
        lowest + chance.below(u64::from(highest - lowest) + 1) as u16
    } else {
        1
    };
    Fraction { cost, period }
}

#[cfg(test)]
mod tests {
    use super::*;
    use crate::slot::Next;
    use crate::table::tests::{value_of, value_of_2, EXAMPLE};

    const LATE_AT_2: Answer = Answer {
        number: 1,
        row: 0,
        time: 2,
    };

    #[test]
    fn boxes_by_chance_are_never_late() {
        let text = full_boxes(7, 60).unwrap();
        let front = "never late: 60 tables, 30 of format 2, ";
        assert!(text.starts_with(front), "{}", text);
        assert!(text.ends_with(" rows, seed 7"), "{}", text);
        assert!(!text.contains(" 0 whole-core rows, "), "{}", text);
        assert!(!text.contains('\n'));
        // the seed alone decides
        assert_eq!(full_boxes(7, 60).unwrap(), text);
        assert_ne!(full_boxes(8, 60).unwrap(), text);
    }

    /// A slip in the order must show in 2,000 full boxes. (`ran_before_group` makes rows late too,
    /// but not in every 2,000 boxes one; the other slips in who ran before change full ties alone.)
    #[cfg(any(
        slip = "bit_left_out",
        slip = "smaller_group_first",
        slip = "ran_before_bit"
    ))]
    #[test]
    fn the_planted_slip_makes_a_row_late() {
        for seed in 0..4 {
            let text = full_boxes(seed, 2_000).unwrap_err();
            assert!(text.contains(" answers 1, row "), "{}", text);
        }
    }

    #[test]
    fn no_box_at_all() {
        let expected = "never late: 0 tables, 0 of format 2, 0 slots, 0 plain rows, \
                        0 early-release rows, 0 heavy rows, 0 whole-core rows, \
                        0 full-width boxes (M = 8), \
                        0 of them with 32 rows, seed 5";
        assert_eq!(full_boxes(5, 0).unwrap(), expected);
    }

    #[test]
    fn the_counts() {
        let mut counts = Counts::default();
        // 2/3, 1/2 and 3/4 are heavy, 3 rows here and 16 in the next; 1/4 is not
        counts.add(
            &value_of(12, 2, &[(2, 3, 0, 0), (1, 2, 0, 1), (3, 4, 0, 1)]),
            24,
        );
        counts.add(&value_of(2, 8, &[(1, 2, 0, 0); 16]), 4);
        counts.add(&value_of_2(4, 8, &[(1, 4, 0, 1); 32]), 8);
        // two whole-core rows are two heavy rows more
        counts.add(&value_of(2, 2, &[(1, 1, 0, 0), (2, 2, 0, 1)]), 4);
        let expected = "never late: 4 tables, 1 of format 2, 40 slots, 18 plain rows, \
                        35 early-release rows, 21 heavy rows, 2 whole-core rows, \
                        2 full-width boxes (M = 8), \
                        1 of them with 32 rows, seed 9";
        assert_eq!(counts.text(9), expected);
    }

    /// 01's bench: "Plain rows 2/3, 2/3, 3/4, three cores".
    fn bench() -> Table {
        value_of(12, 3, &[(2, 3, 0, 0), (2, 3, 0, 0), (3, 4, 0, 0)])
    }

    #[test]
    fn the_first_slot_that_is_not_done() {
        // "k = 0 twice: the second slot answers 1, row 0, time 2"
        assert_eq!(first_not_done(&bench(), 0, 24), Some((1, LATE_AT_2)));
        assert_eq!(first_not_done(&bench(), 0, 1), None);
        assert_eq!(first_not_done(&bench(), 3, 24), None);
        // a fault: "its first slot answers 30"
        let over = value_of(2, 1, &[(1, 2, 0, 0), (1, 2, 0, 0), (1, 2, 0, 0)]);
        assert_eq!(first_not_done(&over, 1, 4), Some((0, Answer::plain(30))));
    }

    #[test]
    fn the_text_of_a_slot_that_is_not_done() {
        let table = table::read(&EXAMPLE).unwrap();
        let expected = "slot 1 answers 1, row 0, time 2, of table 010300000002000103\
                        0A0002000300000000\
                        0B0002000300000000\
                        140002000300000000";
        assert_eq!(not_done_text(&table, 1, &LATE_AT_2), expected);
    }

    #[test]
    fn the_longest_phase_and_two_cycles() {
        let rows = [(1, 2, 0, 0), (1, 3, 7, 0), (1, 6, 3, 1)];
        assert_eq!(slots_to_run(&value_of(6, 1, &rows)), 19);
        assert_eq!(slots_to_run(&value_of(6, 1, &[])), 12);
    }

    /// Every cyclic order of the rows of one table is never late, as plain rows, as early-release
    /// rows, and with every second row early-release, in both formats.
    fn never_late_in_any_turn(cycle: u32, cores: u8, fractions: &[(u16, u16)]) {
        for turn in 0..fractions.len() {
            for kinds in [[0, 0], [1, 1], [0, 1]] {
                let mut rows: Vec<_> = fractions
                    .iter()
                    .enumerate()
                    .map(|(place, &(e, p))| (e, p, 0, kinds[place % 2]))
                    .collect();
                rows.rotate_left(turn);
                let first = value_of(cycle, cores, &rows);
                let second = value_of_2(cycle, cores, &rows);
                for table in [first, second] {
                    assert_eq!(first_not_done(&table, cores, 3 * u64::from(cycle)), None);
                }
            }
        }
    }

    #[test]
    fn slip_the_counterexamples_of_001() {
        // Theorem 1, without b: eight of 1/3 and three of 4/9, 24/9 + 12/9 = 4
        let mut rows = vec![(1, 3); 8];
        rows.extend([(4, 9); 3]);
        never_late_in_any_turn(9, 4, &rows);
        // Theorem 2, light rows not last in D: five of 5/11 and two of 19/22, 50/22 + 38/22 = 4
        let mut rows = vec![(5, 11); 5];
        rows.extend([(19, 22); 2]);
        never_late_in_any_turn(22, 4, &rows);
        // Theorem 3, without D between heavy rows: three of 5/7 and two of 13/14,
        // 30/14 + 26/14 = 4
        let mut rows = vec![(5, 7); 3];
        rows.extend([(13, 14); 2]);
        never_late_in_any_turn(14, 4, &rows);
    }

    // ---- rows with e = p (02, Six) ----

    fn has_the_whole_core(row: &Row) -> bool {
        row.cost == row.period
    }

    fn whole_core_rows(table: &Table) -> usize {
        let rows = table.named_rows().iter();
        rows.filter(|row| has_the_whole_core(row)).count()
    }

    /// Whole-core rows, and others.
    fn is_mixed(table: &Table) -> bool {
        let whole = whole_core_rows(table);
        whole > 0 && whole < usize::from(table.count)
    }

    /// Whole-core rows, and no others.
    fn is_whole(table: &Table) -> bool {
        whole_core_rows(table) == usize::from(table.count)
    }

    #[test]
    fn whole_core_rows_stand_in_three_boxes_of_ten() {
        let mut chance = Chance(12);
        let boxes: Vec<Table> = (0..600).map(|_| full_box(&mut chance)).collect();
        let boxes_where =
            |holds: &dyn Fn(&Table) -> bool| boxes.iter().filter(|table| holds(table)).count();
        let share = boxes_where(&|table| whole_core_rows(table) > 0);
        assert!(share > 150 && share < 210, "{}", share);
        // of both kinds, p = 1 and larger, with and without a phase
        let with_row = |holds: &dyn Fn(&Row) -> bool| {
            boxes_where(&|table| {
                let mut rows = table.named_rows().iter();
                rows.any(|row| has_the_whole_core(row) && holds(row))
            })
        };
        for kind in 0..2 {
            assert!(with_row(&|row| row.kind == kind && row.period == 1 && row.phase == 0) > 20);
            assert!(with_row(&|row| row.kind == kind && row.period == 1 && row.phase > 0) > 15);
            assert!(with_row(&|row| row.kind == kind && row.period > 1 && row.phase == 0) > 20);
            assert!(with_row(&|row| row.kind == kind && row.period > 1 && row.phase > 0) > 15);
        }
        // one on a box and several, beside others and alone; a cycle of one slot
        assert!(boxes_where(&|table| is_mixed(table) && whole_core_rows(table) == 1) > 20);
        assert!(boxes_where(&|table| is_mixed(table) && whole_core_rows(table) > 1) > 50);
        assert!(boxes_where(&|table| is_whole(table) && table.count == 1) > 0);
        assert!(boxes_where(&|table| is_whole(table) && table.count > 1) > 20);
        assert!(boxes_where(&|table| is_whole(table) && table.count == 8) > 0);
        assert!(boxes_where(&|table| table.cycle == 1) > 5);
    }

    /// Is a whole-core row ready beside one with the same deadline and b = 1? Then it stands behind
    /// that one in the order.
    fn is_tie(table: &Table, ready: &[Next]) -> bool {
        let mut tie = false;
        for (place, next) in ready.iter().enumerate() {
            if has_the_whole_core(&table.rows[usize::from(next.row)]) {
                let goes_first = |other: &Next| other.deadline == next.deadline && other.bit == 1;
                tie = tie || ready[..place].iter().any(goes_first);
                assert!(!ready[place..].iter().any(goes_first));
            }
        }
        tie
    }

    /// Runs a box as `full_boxes` does; nobody is late. In how many slots there is such a tie.
    fn slots_with_a_tie(table: &Table) -> u64 {
        let mut state = slot::fresh(*table);
        let mut met = 0;
        for _ in 0..slots_to_run(table) {
            met += u64::from(is_tie(table, &slot::ready_rows(&state)));
            let answer = slot::slot(&mut state, table.cores, &mut [0; 2 + 8], 0);
            assert_eq!(answer, Answer::plain(0));
        }
        met
    }

    #[test]
    fn whole_core_rows_beside_rows_with_b_1_at_an_equal_deadline() {
        let mut chance = Chance(0x02_000A);
        let (mut boxes, mut with_ties, mut ties) = (0, 0, 0);
        while boxes < 60 {
            let table = full_box(&mut chance);
            if !is_mixed(&table) || table.cycle > 100 {
                continue;
            }
            let met = slots_with_a_tie(&table);
            boxes += 1;
            with_ties += u64::from(met > 0);
            ties += met;
        }
        assert!(with_ties > 10 && ties > 100, "{}, {}", with_ties, ties);
    }

    #[test]
    fn made_boxes_are_full_and_of_every_sort() {
        let mut chance = Chance(11);
        let mut boxes = Vec::new();
        for _ in 0..600 {
            let table = full_box(&mut chance);
            assert_eq!(table::read(&table::write(&table)), Ok(table));
            let mut sum = 0;
            for row in table.named_rows() {
                sum += u32::from(row.cost) * (table.cycle / u32::from(row.period));
            }
            assert_eq!(sum, u32::from(table.cores) * table.cycle);
            boxes.push(table);
        }
        let with_row = |holds: &dyn Fn(&Table, &Row) -> bool| {
            let one_holds = |table: &&Table| table.named_rows().iter().any(|row| holds(table, row));
            boxes.iter().filter(one_holds).count()
        };
        let boxes_where =
            |holds: &dyn Fn(&Table) -> bool| boxes.iter().filter(|table| holds(table)).count();
        for cores in 1..=8 {
            assert!(boxes_where(&|table| table.cores == cores) > 30);
        }
        // M rows of less than a core cannot fill M cores: two such rows are the fewest
        assert!(boxes_where(&|table| table.count == 1) > 0);
        assert!(boxes_where(&|table| table.count == 2) > 0);
        assert!(boxes_where(&|table| table.count == 32 && table.cores == 8) > 0);
        assert!(boxes_where(&|table| table.cycle > 1_000) > 0);
        assert!(with_row(&|_, row| row.kind == 0) > 200);
        assert!(with_row(&|_, row| row.kind == 1) > 200);
        assert!(with_row(&|_, row| 2 * row.cost > row.period) > 200);
        assert!(with_row(&|_, row| 2 * row.cost == row.period) > 200);
        assert!(with_row(&|_, row| 2 * row.cost < row.period) > 200);
        assert!(with_row(&|_, row| row.cost == row.period) > 150);
        assert!(with_row(&|_, row| row.phase > 0) > 100);
        assert!(with_row(&|_, row| row.phase == 0) > 300);
        assert!(with_row(&|table, row| u32::from(row.phase) > table.cycle) > 20);
        // not reduced, and early release: job borders count
        assert!(with_row(&|_, row| row.kind == 1 && row.cost == 2 && row.period == 6) > 0);
    }

    #[test]
    fn the_counterexamples_of_001_beside_whole_cores() {
        // one whole core, and two, beside the tables of `slip_the_counterexamples_of_001`
        let beside = |cycle, whole: &[(u16, u16)], fractions: &[((u16, u16), usize)]| {
            let mut rows = whole.to_vec();
            for &(fraction, count) in fractions {
                rows.extend(vec![fraction; count]);
            }
            never_late_in_any_turn(cycle, 4 + whole.len() as u8, &rows);
        };
        for whole in [&[(1, 1)][..], &[(1, 1), (1, 1)]] {
            beside(9, whole, &[((1, 3), 8), ((4, 9), 3)]);
            beside(22, whole, &[((5, 11), 5), ((19, 22), 2)]);
            beside(14, whole, &[((5, 7), 3), ((13, 14), 2)]);
        }
        beside(9, &[(9, 9)], &[((1, 3), 8), ((4, 9), 3)]);
        beside(22, &[(22, 22), (1, 1)], &[((5, 11), 5), ((19, 22), 2)]);
        beside(14, &[(7, 7), (2, 2)], &[((5, 7), 3), ((13, 14), 2)]);
    }

    /// How often, in a run of format 2, a slot picks other rows than it would in format 1.
    fn slots_of_kindness(table: &Table) -> u64 {
        let mut state = slot::fresh(*table);
        let mut met = 0;
        for _ in 0..slots_to_run(table) {
            let mut plain = state;
            plain.table.format = 1;
            let (mut record, mut other) = ([0; 2 + 8], [0; 2 + 8]);
            let answer = slot::slot(&mut state, table.cores, &mut record, 0);
            slot::slot(&mut plain, table.cores, &mut other, 0);
            assert_eq!(answer, Answer::plain(0));
            met += u64::from(record != other);
        }
        met
    }

    #[test]
    fn who_ran_decides_in_many_full_boxes() {
        let mut chance = Chance(0x02_000D);
        let (mut boxes, mut with_kindness, mut slots) = (0, 0, 0);
        while boxes < 100 {
            let mut table = full_box(&mut chance);
            if table.cycle > 100 {
                continue;
            }
            table.format = 2;
            let met = slots_of_kindness(&table);
            boxes += 1;
            with_kindness += u64::from(met > 0);
            slots += met;
        }
        assert!(
            with_kindness > 20 && slots > 200,
            "{}, {}",
            with_kindness,
            slots
        );
    }

    #[test]
    fn boxes_of_whole_cores_alone() {
        never_late_in_any_turn(1, 1, &[(1, 1)]);
        never_late_in_any_turn(6, 1, &[(6, 6)]);
        never_late_in_any_turn(6, 4, &[(1, 1), (2, 2), (3, 3), (6, 6)]);
        never_late_in_any_turn(5, 8, &[(5, 5); 8]);
        // beginning one after the other
        let rows: Vec<_> = (0..8).map(|place| (3, 3, 7 - place, 0)).collect();
        let table = value_of(3, 8, &rows);
        assert_eq!(first_not_done(&table, 8, 30), None);
        // with one core less the last of them is late, as soon as it misses a slot: row 0 begins
        // with slot 7, in which rows 0 to 7 are due and row 7 has the highest number
        let late = Answer {
            number: 1,
            row: 7,
            time: 8,
        };
        assert_eq!(first_not_done(&table, 7, 30), Some((7, late)));
    }

    #[test]
    fn a_whole_core_row_that_begins_beside_full_cores() {
        // three rows of 2/3 fill two cores of three; the third is free until the phase
        for kind in 0..2 {
            for p in [1, 3] {
                for phase in 0..7 {
                    let mut rows = vec![(2, 3, 0, kind); 3];
                    rows.insert(usize::from(phase) % 4, (p, p, phase, 1 - kind));
                    let table = value_of(3, 3, &rows);
                    assert_eq!(first_not_done(&table, 3, 30), None);
                }
            }
        }
    }

    #[test]
    fn whole_cores_of_a_box() {
        assert_eq!(met(|chance| whole_core(chance, 1)), [(1, 1)]);
        let all = [(1, 1), (2, 2), (3, 3), (6, 6)];
        assert_eq!(met(|chance| whole_core(chance, 6)), all);
        // all of M, fewer, or none
        let mut chance = Chance(5);
        for cores in 1..=8 {
            let mut met = [0; 9];
            for _ in 0..1_200 {
                met[usize::from(whole_cores(&mut chance, cores))] += 1;
            }
            assert!(met[0] > 600 && met[usize::from(cores)] > 60, "{:?}", met);
            let (up_to_m, above_m) = met.split_at(usize::from(cores) + 1);
            assert!(up_to_m.iter().all(|&count| count > 20), "{:?}", met);
            assert!(above_m.iter().all(|&count| count == 0));
        }
        // no core is left to fill
        let rest = Rest {
            cores: 0,
            cycle: 1,
            most_rows: 24,
        };
        assert_eq!(full_fractions(&mut chance, rest), []);
    }

    /// Every fraction met in many attempts, sorted by p, then e.
    fn met<F: FnMut(&mut Chance) -> Fraction>(mut make: F) -> Vec<(u16, u16)> {
        let mut chance = Chance(3);
        let mut found = Vec::new();
        for _ in 0..500 {
            let fraction = make(&mut chance);
            found.push((fraction.period, fraction.cost));
        }
        found.sort_unstable();
        found.dedup();
        found.iter().map(|&(period, cost)| (cost, period)).collect()
    }

    #[test]
    fn fractions_to_taste() {
        let of = |taste, cycle| met(|chance| fraction(chance, taste, cycle));
        assert_eq!(of(Taste::Any, 4), [(1, 2), (1, 4), (2, 4), (3, 4)]);
        // more than one half; 2 has none
        assert_eq!(of(Taste::Heavy, 6), [(1, 2), (2, 3), (4, 6), (5, 6)]);
        // at most a quarter; 2 has none
        assert_eq!(of(Taste::Small, 8), [(1, 2), (1, 4), (1, 8), (2, 8)]);
        // ceil(p/e) = 3: 3/1, 9/3, and 9/4 = 2.25; 2 has none
        assert_eq!(of(Taste::Alike(3), 9), [(1, 3), (3, 9), (4, 9)]);
        // ceil(p/e) = 2: 2/1, 3/2, and 6/3, 6/4, 6/5
        let two = [(1, 2), (2, 3), (3, 6), (4, 6), (5, 6)];
        assert_eq!(of(Taste::Alike(2), 6), two);
    }

    #[test]
    fn the_rest_of_a_box() {
        let of = |quanta, cycle| met(|chance| the_rest(chance, quanta, cycle));
        assert_eq!(of(6, 12), [(1, 2), (2, 4), (3, 6), (6, 12)]);
        assert_eq!(of(7, 12), [(7, 12)]);
        assert_eq!(of(1, 2), [(1, 2)]);
    }

    #[test]
    fn ways_to_fill_with_two_weights() {
        // 001's Theorem 1 in a cycle of 9: 3a + 4b = 36
        assert_eq!(ways_to_fill(36, 32, 3, 4), [(4, 6), (8, 3)]);
        assert_eq!(ways_to_fill(36, 10, 3, 4), [(4, 6)]);
        assert_eq!(ways_to_fill(36, 9, 3, 4), []);
        // one row of each, 31 of one and one of the other, and one row too many
        assert_eq!(ways_to_fill(3, 32, 1, 2), [(1, 1)]);
        assert_eq!(ways_to_fill(31 + 40, 32, 1, 40), [(31, 1)]);
        assert_eq!(ways_to_fill(32 + 40, 32, 1, 40), []);
        assert_eq!(ways_to_fill(7, 32, 2, 4), []);
    }

    #[test]
    fn a_row_fits_if_the_rest_can_still_be_filled() {
        let heaviest_of = |cycle| (heaviest(cycle).cost, heaviest(cycle).period);
        assert_eq!(heaviest_of(2), (1, 2));
        assert_eq!(heaviest_of(60), (59, 60));
        assert_eq!(heaviest_of(5_040), (4_956, 5_040));

        let row = |cost| Fraction { cost, period: 6 };
        let mut filling = Filling {
            cycle: 6,
            unfilled: 11,
            rows_left: 3,
            fractions: Vec::new(),
        };
        // two rows of 5/6 could take 10 of the 11
        assert!(filling.fits(row(1)));
        filling.unfilled = 12;
        assert!(!filling.fits(row(1)));
        assert!(filling.fits(row(2)));
        filling.push(row(2));
        assert_eq!((filling.unfilled, filling.rows_left), (10, 2));
        assert!(!filling.fits(row(4)));
        filling.push(row(5));
        // the last row takes all there is
        assert!(!filling.fits(row(4)));
        assert!(filling.fits(row(5)));
        filling.push(row(5));
        assert_eq!((filling.unfilled, filling.rows_left), (0, 0));
        assert!(!filling.fits(row(1)));
        assert_eq!(filling.fractions, [row(2), row(5), row(5)]);
    }
}
