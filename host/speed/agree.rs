//! Before anything is measured: on several boxes, and some thousand slots of each, all programs do the same.

use crate::cases::{program, Entry, NAMES};
use crate::make::sound;
use crate::make::written::{written, Record};
use crate::plain::cores::{first, Placement};
use crate::random::Random;
use crate::{boxes, checked, hurried, ours, plain};
use second::slot::{fresh, slot_on, State};

const SLOTS: u64 = 2_000;
/// So many records of the proved code are compared too. Each needs a run from the first slot on, since only the last one is there.
const RECORDS: usize = 100;
const RANDOM_BOXES: usize = 30;
/// Cycles with many divisors, short and long.
const CYCLES: [usize; 6] = [12, 60, 420, 2_520, 5_040, 27_720];

/// The boxes that are measured, and random ones, full or not; each in both formats.
fn all_boxes() -> Vec<Vec<u8>> {
    let mut random = Random::seeded(0x5107);
    let mut tables = vec![
        boxes::full(),
        boxes::short(),
        boxes::longest_walks(),
        boxes::equal(32, 1, 4, false),
        boxes::equal(32, 5, 20, true),
        boxes::equal(32, 5, 21, false),
        boxes::equal(32, 5, 21, true),
        boxes::worst(),
        boxes::equal(8, 1, 1, false),
        boxes::equal(8, 5, 5, true),
    ];
    for number in 0..RANDOM_BOXES {
        let cycle = random.pick(&CYCLES);
        let table = match number % 2 {
            0 => sound::any_of(&mut random, cycle),
            _ => sound::full_of(&mut random, cycle, 0).expect("such a cycle can be filled"),
        };
        tables.push(table.bytes());
    }
    let in_both = |table: Vec<u8>| [1, 2].map(|format| boxes::in_format(format, table.clone()));
    tables.into_iter().flat_map(in_both).collect()
}

/// With all cores free, and with one less; and without ours, which is told only their number, with other cores free in each slot.
pub fn run() -> Result<String, String> {
    let tables = all_boxes();
    let mut random = Random::seeded(0xC04E);
    let (mut slots, mut slots_of_sets) = (0, 0);
    for table in &tables {
        let cores = table[5];
        for k in [cores, cores - 1] {
            let compared = one(table, k);
            slots += compared.map_err(|what| format!("{}: {:02X?}, k {}", what, table, k))?;
        }
        let lacks_one_in = random.pick(&[4, 20, 100]);
        let compared = by_rust(table, || some(&mut random, cores, lacks_one_in));
        let (_, state) = compared.map_err(|what| format!("{}: {:02X?}, sets", what, table))?;
        slots_of_sets += state.time;
    }
    Ok(format!(
        "all programs agree on {} slots of {} boxes, and all but ours on {} with any cores free",
        slots,
        tables.len(),
        slots_of_sets
    ))
}

/// A set of cores, each of which is lacking one time of so many.
fn some(random: &mut Random, cores: u8, lacks_one_in: usize) -> u32 {
    let free = (0..cores).filter(|_| !random.one_in(lacks_one_in));
    free.fold(0, |set, core| set | 1 << core)
}

/// How many slots were compared: up to the first late one.
fn one(table: &[u8], k: u8) -> Result<u64, String> {
    let (records, state) = by_rust(table, || first(k))?;
    by_ours(table, k, &records)?;
    times(table, k, state.time)?;
    checks(table, &trace(&records), state.stopped)?;
    Ok(state.time)
}

/// The records with these cores free from slot to slot, up to the first late one, and the state at the end: of the second program, and the
/// same of plain, checked and hurried; in each slot plain and checked have the same rows on the same cores.
fn by_rust(table: &[u8], mut free: impl FnMut() -> u32) -> Result<(Vec<Entry>, State), String> {
    let mut state =
        fresh(second::table::read(table).map_err(|number| format!("refused {}", number))?);
    let mut plain = plain::slot::State::fresh(plain::table::read(table).unwrap_or_default());
    let mut checked = plain;
    let mut hurried = hurried::slots::State::fresh(table);
    let mut records = Vec::new();
    while state.time < SLOTS && !state.stopped {
        let [mut by_second, mut by_plain, mut by_checked, mut by_hurried] = [[0; 10]; 4];
        let free = free();
        let (_, placed) = slot_on(&mut state, free, &mut by_second, 0);
        plain.slot(free, &mut by_plain, 0);
        checked::slot::slot(&mut checked, free, &mut by_checked, 0);
        hurried.slot(free.count_ones() as u8, &mut by_hurried);
        let picks = [by_plain, by_checked, by_hurried];
        if picks != [by_second; 3] {
            return Err(format!(
                "the records at time {} are {:?}, not {:?}",
                state.time, picks, by_second
            ));
        }
        let placed = Placement {
            count: placed.count,
            rows: placed.rows,
            cores: placed.cores,
        };
        if [plain.last, checked.last] != [placed; 2] {
            return Err(format!(
                "the cores at time {} are {:?} and {:?}, not {:?}",
                state.time, plain.last, checked.last, placed
            ));
        }
        records.push(by_second);
    }
    Ok((records, state))
}

/// The records of the proved code are these.
fn by_ours(table: &[u8], k: u8, records: &[Entry]) -> Result<(), String> {
    for (number, record) in records.iter().enumerate().take(RECORDS) {
        let mut entry = [0; 10];
        let time = ours::slots(table, k, number as u64 + 1, &mut entry);
        let length = 2 + usize::from(record[1]);
        if time != number as u64 + 1 || entry[..length] != record[..length] {
            return Err(format!(
                "the record {} is {:?}, not {:?}",
                number, entry, record
            ));
        }
    }
    Ok(())
}

/// All come to the same time.
fn times(table: &[u8], k: u8, time: u64) -> Result<(), String> {
    for name in NAMES {
        let got = (program(name)?.slots)(table, k, SLOTS, &mut [0; 10]);
        if got != time {
            return Err(format!("{} comes to time {}, not {}", name, got, time));
        }
    }
    Ok(())
}

fn trace(records: &[Entry]) -> Vec<u8> {
    let record = |entry: &Entry| {
        let [k, c, rows @ ..] = *entry;
        let rows = rows[..usize::from(c)].to_vec();
        Record { k, c, rows }
    };
    written(records.iter().map(record).collect()).bytes()
}

/// All checks take the table, and the trace unless a row is late at its end.
fn checks(table: &[u8], trace: &[u8], late: bool) -> Result<(), String> {
    let right = if late { 45 } else { 0 };
    for name in NAMES {
        let program = program(name)?;
        let got = (
            (program.table_check)(table),
            (program.trace_check)(table, trace),
        );
        if got != (0, right) {
            return Err(format!("{} answers {:?}, not 0 and {}", name, got, right));
        }
    }
    Ok(())
}
