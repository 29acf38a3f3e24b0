//! What is met of cores in single slots: of those that are free, of those on which rows ran in the last slot, and of those that rows get.

use crate::kinds::slot::{Case, Free};
use crate::tally::Tally;
use second::cores::{moves, Placement};
use second::slot::{first_cores, State};

/// The causes for which a memory breaks a state, by their names.
pub fn causes(state: &State) -> [(&'static str, bool); 10] {
    let (rows, cores) = (state.last.named_rows(), state.last.named_cores());
    let (m, n) = (state.table.cores, state.table.count);
    let twice = |row: bool, core: bool| {
        let alike = |one: usize, other: usize| {
            (rows[one] == rows[other], cores[one] == cores[other]) == (row, core)
        };
        (0..rows.len()).any(|one| (0..one).any(|other| alike(one, other)))
    };
    let fall = rows.windows(2).any(|pair| pair[1] < pair[0]);
    let format_1 = state.table.format == 1;
    [
        ("core M", cores.contains(&m)),
        ("a core above M", cores.iter().any(|&core| core > m)),
        ("a core of two rows", twice(false, true)),
        ("row n", rows.contains(&n)),
        ("a row above n", rows.iter().any(|&row| row > n)),
        ("a row on two cores", twice(true, false)),
        ("a row and its core twice", twice(true, true)),
        ("falling rows in format 1", fall && format_1),
        // in any other, which is a cause itself
        ("falling rows in format 2", fall && !format_1),
        // unless M is 8, one of them has no core below M of its own
        ("a count above M", state.last.count > m),
    ]
}

/// A slot that has this number.
pub fn count<F: Free>(case: &Case<F>, number: u8, tally: &mut Tally) {
    let (last, done) = (&case.state.last, number <= 1);
    match done {
        true => count_done(last, case.free.set(), &case.slot().placed, tally),
        false => count_refused(case, number, tally),
    }
    let unused = last.named_rows().len()..;
    let unused = [&last.rows[unused.clone()], &last.cores[unused]].concat();
    let filled = unused.iter().any(|&byte| byte != 0);
    let met = [filled && done, filled && !done];
    tally.saw_each("past the count of what is remembered, not 0", met);
    case.free.count(case.state.table.cores, number, tally);
}

/// A row is new that did not run in the last slot, where others did.
fn count_done(last: &Placement, free: u32, placed: &Placement, tally: &mut Tally) {
    let (rows, cores) = (placed.named_rows(), placed.named_cores());
    let moves = moves(last, rows, cores);
    tally.saw_each("moves", [moves == 0, moves == 1, moves > 1]);
    let ran_on = |row: &u8| {
        let place = last.named_rows().iter().position(|other| other == row);
        place.map(|place| last.cores[place])
    };
    let before: Vec<Option<u8>> = rows.iter().map(ran_on).collect();
    let stays = cores
        .iter()
        .zip(&before)
        .any(|(&core, &own)| own == Some(core));
    let is_new = last.count > 0 && before.contains(&None);
    tally.saw_each("a picked row", [stays, moves > 0, is_new]);
    let lowest = in_turn(free, &vec![None; rows.len()]);
    let own_or_lowest = in_turn(free, &before);
    tally.saw_each(
        "cores that are not",
        [lowest != cores, own_or_lowest != cores],
    );
    if rows.is_empty() {
        let before = [last.count == 0, last.count > 0];
        tally.saw_each("nobody is picked, and before", before);
    }
}

/// Row after row takes its own core, if that is still free, and else the lowest: this looks right, and takes cores from rows that would stay.
fn in_turn(mut free: u32, own: &[Option<u8>]) -> Vec<u8> {
    let mut taken = Vec::new();
    for core in own {
        let core = core.filter(|core| free >> core & 1 == 1);
        let core = core.unwrap_or(free.trailing_zeros() as u8);
        free &= !(1 << core);
        taken.push(core);
    }
    taken
}

fn count_refused<F: Free>(case: &Case<F>, number: u8, tally: &mut Tally) {
    let somebody = case.state.last.count > 0;
    tally.saw_if(somebody, "refused, and somebody is remembered", number);
    if number == 30 {
        let mut other = case.clone();
        other.state.last = Placement::nobody();
        let other = other.slot().answer.number;
        tally.saw_if(other != 30, "30 by its memory alone, in place of", other);
    }
    let room = (case.buffer.len() as u64).saturating_sub(case.place);
    let answered = match number {
        35 if room < 2 => "35 without room".to_string(),
        35 => "35 with room".to_string(),
        _ => number.to_string(),
    };
    let past = case.free.set() & !first_cores(case.state.table.cores) != 0;
    tally.saw_if(past, "a core past the last, answered", answered);
}
