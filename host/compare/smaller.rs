//! What is smaller than something else by one step. What is much smaller comes first.

use crate::kind::{request, Kind};
use crate::message::Message;
use std::iter::successors;
use std::ops::Range;

/// Those that have one part of the request smaller, or several parts that stand together.
pub fn cases<'a, C: Kind>(case: &'a C) -> impl Iterator<Item = C> + 'a {
    let here = request(case);
    let all = turns(&here.ways).into_iter().map(move |(parts, way)| {
        let mut other = case.clone();
        other.asked(&mut Message::changing(parts, way));
        other
    });
    all.filter(move |other| request(other).bytes != here.bytes)
}

/// The first way of all parts, of half of them, and so on; then the first way of every part, then the second of every part, and so on.
fn turns(ways: &[usize]) -> Vec<(Range<usize>, usize)> {
    let (all, most) = (ways.len(), ways.iter().copied().max().unwrap_or(0));
    let widths = successors(Some(all), |width| Some(width / 2)).take_while(|&width| width > 1);
    let of_width = |width| {
        let firsts = (0..all).step_by(width);
        firsts.map(move |part| (part..part + width, 0))
    };
    let of_way = |way| {
        let parts = (0..all).filter(move |&part| way < ways[part]);
        parts.map(move |part| (part..part + 1, way))
    };
    let together = widths.flat_map(of_width);
    together.chain((0..most).flat_map(of_way)).collect()
}

/// In how many ways a number can be made smaller.
pub fn ways_of_number(worth: u64) -> usize {
    worth.min(3) as usize
}

pub fn number(worth: u64, way: usize) -> u64 {
    [0, worth / 2, worth.saturating_sub(1)][way]
}

/// In how many ways bytes, which may be a table's, can be made smaller.
pub fn ways_of_bytes(bytes: &[u8]) -> usize {
    match bytes.len() {
        0 => 0,
        length => 3 + rows(bytes).1 + 2 * length,
    }
}

/// None of them, half of them, all of them 0, a row less, with which the row count falls, one of them lost, one of them 0.
pub fn bytes(bytes: &[u8], way: usize) -> Vec<u8> {
    let (length, (count, rows)) = (bytes.len(), rows(bytes));
    let mut other = bytes.to_vec();
    match way {
        0..=1 => other.truncate(way * length / 2),
        2 => other.fill(0),
        _ if way < 3 + rows => {
            let row = count + 1 + 9 * (way - 3);
            other.drain(row..row + 9);
            other[count] = other[count].wrapping_sub(1);
        }
        _ if way < 3 + rows + length => {
            other.remove(2 + rows + length - way);
        }
        _ => other[way - 3 - rows - length] = 0,
    }
    other
}

/// Where a table has its row count, and how many whole rows follow it.
fn rows(table: &[u8]) -> (usize, usize) {
    let count = 6 + table.get(5).map_or(0, |&cores| usize::from(cores));
    (count, table.len().saturating_sub(count + 1) / 9)
}
