//! Cases made by hand, each with the number that 01 gives it: those of by_hand.txt, and what lies around the example of 01.

use super::slot::{Case, Free, Outcome};
use super::why;
use crate::kind::*;
use crate::make::hex::bytes_of;
use crate::make::lent::{given, Given, Maker};
use crate::number::Number;
use second::cores::Placement;
use second::slot::{fresh, Answer, State};
use second::table::{read, Table};
use std::collections::BTreeMap;

#[derive(Clone)]
pub struct ByHand;

impl Maker for ByHand {
    /// At least two of each number are listed, of some 13,500 cases.
    const GROUPS: &'static [Group] = &[
        "made (1 in 500): listed | a prefix | another byte",
        "table listed with (1 in 7000): 0 | 10..22",
        "trace listed with (1 in 7000): 0 | 10 | 21 | 40..47",
    ];

    fn wild(random: &mut Random) -> Given {
        let (_, mut listed) = listed();
        listed.swap_remove(random.below(listed.len()))
    }

    fn cases(_random: Random) -> Box<dyn Iterator<Item = Given>> {
        let (names, mut cases) = listed();
        let (table, trace) = (&names["A"], &names["T"]);
        cases.extend(around(table, 10, |bytes| given(bytes, None)));
        cases.extend(around(trace, 40, |bytes| given(table, Some(bytes))));
        Box::new(cases.into_iter())
    }

    fn count(given: &Given, number: u8, tally: &mut Tally) {
        tally.saw("made", given.made);
        let title = match given.trace {
            None => "table listed with",
            Some(_) => "trace listed with",
        };
        tally.saw_if(given.made == "listed", title, number);
    }
}

/// So many bytes follow the number in the answer to a question why a row waits.
const TOLD: usize = 11;

type Names = BTreeMap<&'static str, Vec<u8>>;

/// A number, words, and parts with a slash between two.
struct Line {
    number: u8,
    words: &'static str,
    parts: Vec<Vec<u8>>,
}

fn lines() -> (Names, Vec<Line>) {
    let mut names = Names::new();
    let mut lines = Vec::new();
    for line in include_str!("../by_hand.txt").lines() {
        match line.split_once(" =") {
            _ if line.is_empty() || line.starts_with('#') => (),
            Some((name, bytes)) if name.len() == 1 => {
                let bytes = bytes_with(bytes, &names);
                names.entry(name).or_default().extend(bytes);
            }
            _ => lines.push(of_text(line, &names)),
        }
    }
    (names, lines)
}

fn of_text(line: &'static str, names: &Names) -> Line {
    let (number, rest) = line.split_once(' ').expect("words after the number");
    let (words, bytes) = rest.split_once(':').expect("bytes after the words");
    let parts = bytes.split('/').map(|part| bytes_with(part, names));
    let parts: Vec<Vec<u8>> = parts.collect();
    let right = match &parts[..] {
        [_] | [_, _] => true,
        [_, _, free, room, _] => [1, 4].contains(&free.len()) && room.len() == 1,
        [_, _, asked, told] => asked.len() == 2 && [0, TOLD].contains(&told.len()),
        _ => false,
    };
    assert!(right, "no table, no trace, no slot and no question: {}", line);
    Line {
        number: number.parse().expect("a line begins with its number"),
        words,
        parts,
    }
}

/// Those of a table and perhaps a trace.
fn listed() -> (Names, Vec<Given>) {
    let (names, lines) = lines();
    let given = |line: &Line| {
        let (table, trace) = match &line.parts[..] {
            [table] => (table, None),
            [table, trace] => (table, Some(&trace[..])),
            _ => return None,
        };
        let listed = given(table, trace).made("listed");
        Some(listed.known(line.number, line.words))
    };
    let cases = lines.iter().filter_map(given).collect();
    (names, cases)
}

/// The slots whose free cores are told in this way, by as many bytes.
pub fn slots<F: Free>() -> Vec<Case<F>> {
    let slot = |line: &Line| match &line.parts[..] {
        [table, state, free, room, placed] if free.len() == F::WIDTH => {
            let case = Case {
                state: state_of(table, state),
                free: F::read(free),
                place: 0,
                buffer: vec![0xEE; usize::from(room[0])],
                known: None,
            };
            Some(known(case, line, placement_of(placed)))
        }
        _ => None,
    };
    lines().1.iter().filter_map(slot).collect()
}

/// The questions why a row waits.
pub fn questions() -> Vec<why::Case> {
    let question = |line: &Line| match &line.parts[..] {
        [table, state, asked, told] => {
            let mut answer = vec![line.number];
            answer.extend(told);
            answer.resize(1 + TOLD, 0);
            Some(why::Case {
                state: state_of(table, state),
                k: asked[0],
                row: asked[1],
                known: Some((answer, line.words.to_string())),
            })
        }
        _ => None,
    };
    lines().1.iter().filter_map(question).collect()
}

/// Time (8), stopped (1), the quanta of each row (8 each), and what is remembered.
fn state_of(table: &[u8], bytes: &[u8]) -> State {
    let mut state = fresh(value_of(table));
    let (time, rest) = bytes.split_at(u64::WIDTH);
    let (quanta, last) = rest[1..].split_at(u64::WIDTH * usize::from(state.table.count));
    state.time = u64::read(time);
    state.stopped = bool::read(&rest[..1]);
    for (of_row, quanta) in state.quanta.iter_mut().zip(quanta.chunks(u64::WIDTH)) {
        *of_row = u64::read(quanta);
    }
    state.last = placement_of(last);
    state
}

/// Of any format; but for that it is a table that is taken.
fn value_of(table: &[u8]) -> Table {
    let in_format_1 = [&[1], &table[1..]].concat();
    let value = read(&in_format_1).expect("a table that is taken");
    Table { format: table[0], ..value }
}

/// A row and its core (1 each), again and again. Those for which there is no place are counted all the same.
fn placement_of(pairs: &[u8]) -> Placement {
    let mut placement = Placement::nobody();
    placement.count = (pairs.len() / 2) as u8;
    for (place, pair) in pairs.chunks(2).take(8).enumerate() {
        placement.rows[place] = pair[0];
        placement.cores[place] = pair[1];
    }
    placement
}

/// With its whole answer, by what 01 says of a slot that is refused, or done while no row is late.
fn known<F: Free>(case: Case<F>, line: &Line, placed: Placement) -> Case<F> {
    let mut outcome = Outcome {
        answer: Answer::plain(line.number),
        placed,
        state: case.state,
        buffer: case.buffer.clone(),
    };
    if line.number == 0 {
        let rows = placed.named_rows();
        let record = [&[case.free.set().count_ones() as u8, placed.count], rows].concat();
        outcome.buffer[..record.len()].copy_from_slice(&record);
        outcome.state.time += 1;
        outcome.state.last = placed;
        for &row in rows {
            outcome.state.quanta[usize::from(row)] += 1;
        }
    }
    let mut answer = Message::default();
    outcome.tell::<F>(&mut answer);
    let known = Some((answer.bytes, line.words.to_string()));
    Case { known, ..case }
}

fn bytes_with(text: &str, names: &Names) -> Vec<u8> {
    let bytes = |word: &str| match (names.get(word), word.split_once('*'), word.strip_prefix("8:")) {
        (Some(bytes), ..) => bytes.clone(),
        (_, Some((byte, times)), _) => bytes_of(byte).repeat(times.parse().expect("a number")),
        (_, _, Some(number)) => number.parse::<u64>().expect("a number").to_le_bytes().to_vec(),
        _ => bytes_of(word),
    };
    text.split_whitespace().flat_map(bytes).collect()
}

/// Each proper prefix of the example, which has this number, while the rest follows in memory; and every other value of every byte.
fn around(example: &[u8], number: u8, with: impl Fn(&[u8]) -> Given) -> Vec<Given> {
    let prefix = |place| {
        let prefix = with(&example[..place]).before(&example[place..]);
        let prefix = prefix.made("a prefix");
        prefix.known(number, "a prefix of the example")
    };
    let other = |(place, more): (usize, u8)| {
        let mut bytes = example.to_vec();
        bytes[place] = bytes[place].wrapping_add(more);
        with(&bytes).made("another byte")
    };
    let places = 0..example.len();
    let others = places
        .clone()
        .flat_map(|place| (1..=255).map(move |more: u8| (place, more)));
    places.map(prefix).chain(others.map(other)).collect()
}
