//! Checked, plain and the second program answer alike on wild and sound states, tables and traces, and every answer occurs.

use crate::plain::cores::Placement;
use crate::plain::slot::{Answer, State};
use crate::plain::table::{Row, Table};
use crate::random::Random;
use crate::wild::{self, Slot};
use crate::{checked, plain};
use std::collections::BTreeSet;

const STATES: usize = 60_000;
const TABLES: usize = 60_000;
const TRACES: usize = 40_000;

pub fn run() -> Result<String, String> {
    let mut random = Random::seeded(0xA11E);
    let slot_numbers = (0..STATES).map(|_| slot(wild::slot(&mut random)));
    all_of(slot_numbers, [0, 1, 30, 31, 32, 34, 35].into_iter())?;
    let table_numbers = (0..TABLES).map(|_| table(&wild::table(&mut random)));
    all_of(table_numbers, [0].into_iter().chain(10..=22))?;
    let check_numbers = (0..TRACES).map(|_| check(wild::check(&mut random)));
    all_of(check_numbers, [0].into_iter().chain(10..=22).chain(40..=47))?;
    Ok(format!(
        "checked and plain agree with the second program on {} wild and sound states, {} tables and {} traces",
        STATES, TABLES, TRACES
    ))
}

/// Every one of these numbers is answered, and no other.
fn all_of(
    answers: impl Iterator<Item = Result<u8, String>>,
    expected: impl Iterator<Item = u8>,
) -> Result<(), String> {
    let seen: BTreeSet<u8> = answers.collect::<Result<_, _>>()?;
    let expected: BTreeSet<u8> = expected.collect();
    match seen == expected {
        true => Ok(()),
        false => Err(format!("the answers are {:?}, not {:?}", seen, expected)),
    }
}

/// The number of a slot: answer, state and buffer are the same for all.
fn slot(asked: Slot) -> Result<u8, String> {
    let Slot {
        state,
        free,
        buffer,
        place,
    } = asked;
    let mut after = state;
    let mut written = buffer.clone();
    let (answer, _) = second::slot::slot_on(&mut after, free, &mut written, place as u64);
    let right = (
        (answer.number, answer.row, answer.time),
        of_second(&after),
        written,
    );
    let by = |slot: fn(&mut State, u32, &mut [u8], usize) -> Answer| {
        let (mut state, mut buffer) = (of_second(&state), buffer.clone());
        let answer = slot(&mut state, free, &mut buffer, place);
        (told(answer), state, buffer)
    };
    for (name, got) in [
        ("plain", by(State::slot)),
        ("checked", by(checked::slot::slot)),
    ] {
        if got != right {
            return Err(format!(
                "{}: {:?}, not {:?}, in {:?}, free {:08X}, place {}",
                name, got, right, state, free, place
            ));
        }
    }
    Ok(right.0 .0)
}

/// The number of an answer, and the row and the time that it names.
fn told(answer: Answer) -> (u8, u8, u64) {
    match answer {
        Answer::Done => (0, 0, 0),
        Answer::Late { row, time } => (1, row, time),
        Answer::Broken => (30, 0, 0),
        Answer::Stopped => (31, 0, 0),
        Answer::AtLimit => (32, 0, 0),
        Answer::NoRoom => (34, 0, 0),
        Answer::NoSuchCore => (35, 0, 0),
    }
}

/// The second program's state as plain has it.
fn of_second(state: &second::slot::State) -> State {
    let (table, last) = (&state.table, &state.last);
    State {
        table: Table {
            format: table.format,
            cycle: table.cycle,
            cores: table.cores,
            boards: table.boards,
            count: table.count,
            rows: table.rows.map(|row| Row {
                tank: row.tank,
                cost: row.cost,
                period: row.period,
                phase: row.phase,
                kind: row.kind,
            }),
        },
        time: state.time,
        stopped: state.stopped,
        quanta: state.quanta,
        last: Placement {
            count: last.count,
            rows: last.rows,
            cores: last.cores,
        },
    }
}

fn table(bytes: &[u8]) -> Result<u8, String> {
    let right = second::table::read(bytes).err().unwrap_or(0);
    let got = [plain::table_check(bytes), checked::table_check(bytes)];
    match got == [right; 2] {
        true => Ok(right),
        false => Err(format!(
            "plain and checked answer {:?}, not {}, to {:02X?}",
            got, right, bytes
        )),
    }
}

fn check((table, trace): (Vec<u8>, Vec<u8>)) -> Result<u8, String> {
    let right = second::checker::check(&table, &trace).number;
    let got = [
        plain::trace_check(&table, &trace),
        checked::trace_check(&table, &trace),
    ];
    match got == [right; 2] {
        true => Ok(right),
        false => Err(format!(
            "plain and checked answer {:?}, not {}, to {:02X?} and {:02X?}",
            got, right, table, trace
        )),
    }
}
