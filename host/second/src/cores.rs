//! A core for each picked row, after 02, One.
//!
//! "For each slot we hand in which cores are free, as a set of cores, numbered 0 to M - 1 in board
//! order, and want a core for each picked row. The number of moves (a row picked in this slot and
//! the one before, on another core) is the fewest any placement can have. Among such placements
//! the answer is the one whose cores, read by rising row number, are smaller at the first
//! difference."
//!
//! A set of cores is a number of 32 bits: bit c is core c. What a slot refuses is judged in
//! `slot`; here a core for each row is found.

/// Which row is on which core in one slot: at each place below the count, the row and its core.
/// What stands past the count is ignored; in an answer it is 0.
#[derive(Clone, Copy, PartialEq, Eq, Debug)]
pub struct Placement {
    pub count: u8,
    pub rows: [u8; 8],
    pub cores: [u8; 8],
}

impl Placement {
    /// "fresh, none": no row is on any core.
    pub fn nobody() -> Placement {
        Placement {
            count: 0,
            rows: [0; 8],
            cores: [0; 8],
        }
    }

    /// The places below the count. (A wild count is cut at 8.)
    fn places(&self) -> usize {
        usize::from(self.count).min(self.rows.len())
    }

    /// The rows that have a core.
    pub fn named_rows(&self) -> &[u8] {
        &self.rows[..self.places()]
    }

    /// Their cores, place by place.
    pub fn named_cores(&self) -> &[u8] {
        &self.cores[..self.places()]
    }

    /// The core that the row is on, if it is on one. (The first, where a row stands twice: no state
    /// with such a memory is taken.)
    fn core_of(&self, row: u8) -> Option<u8> {
        let place = self.named_rows().iter().position(|&named| named == row)?;
        Some(self.named_cores()[place])
    }
}

/// "the first k cores": all 32 bits where k is 32 or more.
pub fn first_cores(k: u8) -> u32 {
    match 1u32.checked_shl(u32::from(k)) {
        Some(next) => next - 1,
        None => u32::MAX,
    }
}

// ---- moves ----

/// Is it a move to be on this core, after that one in the slot before? A row that was on none then
/// makes no move.
fn is_move(before: Option<u8>, core: u8) -> bool {
    before.map_or(false, |old| old != core)
}

/// "The number of moves (a row picked in this slot and the one before, on another core)": `last`
/// is the slot before; in this slot each of the rows is on the core at its place.
pub fn moves(last: &Placement, rows: &[u8], cores: &[u8]) -> usize {
    rows.iter()
        .zip(cores)
        .filter(|&(&row, &core)| is_move(last.core_of(row), core))
        .count()
}

// ---- the placement ----

/// A core of the set for each of the rows (rising, at most 8), no core twice: with no move if any
/// placement has none, else with one if any has one, and so on: "the fewest any placement can
/// have". Where there is no placement, because the rows are more than the free cores or more than
/// 8, nobody.
pub fn place(last: &Placement, free: u32, rows: &[u8]) -> Placement {
    let mut placement = Placement::nobody();
    if rows.len() > placement.rows.len() || rows.len() > free.count_ones() as usize {
        return placement;
    }
    let before: Vec<Option<u8>> = rows.iter().map(|&row| last.core_of(row)).collect();
    // slip: any number of moves is allowed at once: each row in turn takes the lowest free core
    let fewest = if cfg!(slip = "lowest_core_first") {
        rows.len()
    } else {
        0
    };
    // at the latest with as many moves as rows there is one
    for allowed in fewest..=rows.len() {
        if first_with(allowed, &before, free, &mut placement.cores) {
            break;
        }
    }
    placement.count = rows.len() as u8;
    placement.rows[..rows.len()].copy_from_slice(rows);
    placement
}

/// Tries every placement of the rows that were on the cores `before`, in the order of the request:
/// all those with a smaller core of the first row go before those with a larger one, and among
/// those with the same core of the first row the second row decides, and so on ("smaller at the
/// first difference"). Ends at the first that has no more moves than allowed, and then its cores
/// stand in `cores`. Placements that have more moves already in their first rows are passed over
/// together.
fn first_with(allowed: usize, before: &[Option<u8>], free: u32, cores: &mut [u8]) -> bool {
    let (first, others) = match before.split_first() {
        Some(split) => split,
        None => return true,
    };
    let mut untried = free;
    while untried != 0 {
        let core = untried.trailing_zeros() as u8;
        untried &= untried - 1;
        let made = usize::from(is_move(*first, core));
        if made > allowed {
            continue;
        }
        cores[0] = core;
        let left_free = free & !(1 << core);
        if first_with(allowed - made, others, left_free, &mut cores[1..]) {
            return true;
        }
    }
    false
}

#[cfg(test)]
pub(crate) mod tests {
    use super::*;
    use crate::never_late::Chance;

    /// The placement of rows on cores, by (row, core).
    pub(crate) fn placement_of(pairs: &[(u8, u8)]) -> Placement {
        let mut placement = Placement::nobody();
        placement.count = pairs.len() as u8;
        for (place, &(row, core)) in pairs.iter().enumerate() {
            placement.rows[place] = row;
            placement.cores[place] = core;
        }
        placement
    }

    /// The set of these cores.
    pub(crate) fn set_of(cores: &[u8]) -> u32 {
        cores.iter().map(|&core| 1u32 << core).sum()
    }

    /// The cores that the rows get, and how many moves that is.
    fn placed(last: &[(u8, u8)], free: &[u8], rows: &[u8]) -> (Vec<u8>, usize) {
        let last = placement_of(last);
        let placement = place(&last, set_of(free), rows);
        assert_eq!(placement.named_rows(), rows);
        let cores = placement.named_cores();
        (cores.to_vec(), moves(&last, rows, cores))
    }

    #[test]
    fn the_first_cores() {
        assert_eq!(first_cores(0), 0);
        assert_eq!(first_cores(1), 0b1);
        assert_eq!(first_cores(3), 0b111);
        assert_eq!(first_cores(8), 0xFF);
        assert_eq!(first_cores(9), 0x1FF);
        assert_eq!(first_cores(31), 0x7FFF_FFFF);
        for k in 32..=255 {
            assert_eq!(first_cores(k), 0xFFFF_FFFF);
        }
    }

    #[test]
    fn moves_are_rows_of_both_slots_on_another_core() {
        let last = placement_of(&[(1, 0), (4, 2), (9, 1)]);
        assert_eq!(moves(&last, &[], &[]), 0);
        // each stays
        assert_eq!(moves(&last, &[1, 4, 9], &[0, 2, 1]), 0);
        // row 4 stays, the two others change places
        assert_eq!(moves(&last, &[1, 4, 9], &[1, 2, 0]), 2);
        assert_eq!(moves(&last, &[1, 4, 9], &[2, 1, 0]), 3);
        // rows that did not run in the slot before, on cores that others had then
        assert_eq!(moves(&last, &[0, 2, 3], &[0, 1, 2]), 0);
        assert_eq!(moves(&last, &[0, 4, 5], &[0, 1, 2]), 1);
        // nobody ran in the slot before
        assert_eq!(moves(&Placement::nobody(), &[0, 1], &[5, 3]), 0);
    }

    #[test]
    fn what_stands_past_the_count_was_not_there() {
        let mut last = placement_of(&[(1, 0), (4, 2), (9, 1)]);
        last.count = 1;
        assert_eq!(moves(&last, &[1, 4, 9], &[1, 1, 1]), 1);
        assert_eq!(
            place(&last, 0b111, &[4, 9]),
            placement_of(&[(4, 0), (9, 1)])
        );
        // row 0 on core 0 is what nobody is filled with
        assert_eq!(moves(&Placement::nobody(), &[0], &[1]), 0);
        assert_eq!(
            place(&Placement::nobody(), 0b11, &[0, 1]),
            placement_of(&[(0, 0), (1, 1)])
        );
    }

    #[test]
    fn where_nobody_ran_before_the_lowest_cores_go_by_row_number() {
        assert_eq!(placed(&[], &[0, 1, 2], &[0, 1]), (vec![0, 1], 0));
        assert_eq!(placed(&[], &[1, 4, 6], &[3, 8, 31]), (vec![1, 4, 6], 0));
        assert_eq!(placed(&[], &[5, 7], &[2]), (vec![5], 0));
        // the same if others ran before
        assert_eq!(placed(&[(1, 0), (2, 1)], &[0, 1], &[3, 4]), (vec![0, 1], 0));
        assert_eq!(placed(&[(1, 0)], &[], &[]), (vec![], 0));
    }

    #[test]
    fn a_row_that_ran_before_stays() {
        // row 1 stays on core 1, row 2 gets the other
        assert_eq!(placed(&[(0, 0), (1, 1)], &[0, 1], &[1, 2]), (vec![1, 0], 0));
        // a lower row does not drive it out
        assert_eq!(placed(&[(1, 0)], &[0, 1], &[0, 1]), (vec![1, 0], 0));
        assert_eq!(
            placed(&[(1, 0), (2, 1)], &[0, 1, 2], &[0, 1, 2]),
            (vec![2, 0, 1], 0)
        );
        // lower cores are free, it stays all the same
        assert_eq!(placed(&[(6, 7)], &[0, 1, 7], &[6]), (vec![7], 0));
        // the others fill what is left, lowest first
        assert_eq!(
            placed(&[(5, 3)], &[1, 3, 4], &[2, 5, 7]),
            (vec![1, 3, 4], 0)
        );
        assert_eq!(
            placed(
                &[(3, 5), (7, 0), (20, 2)],
                &[0, 1, 2, 3, 4, 5, 6, 7],
                &[0, 3, 4, 7, 9]
            ),
            (vec![1, 5, 2, 0, 3], 0)
        );
    }

    #[test]
    fn a_row_whose_core_is_not_free_moves() {
        // core 0 is gone: row 0 moves, and not to core 1, where row 1 stays
        assert_eq!(placed(&[(0, 0), (1, 1)], &[1, 2], &[0, 1]), (vec![2, 1], 1));
        // both are gone: two moves at least, and then the smaller cores first
        assert_eq!(placed(&[(0, 0), (1, 1)], &[2, 3], &[0, 1]), (vec![2, 3], 2));
        assert_eq!(placed(&[(0, 1), (1, 0)], &[2, 3], &[0, 1]), (vec![2, 3], 2));
        // it moves to the lowest core that nobody stays on, before the rows after it
        assert_eq!(
            placed(&[(0, 6), (2, 0)], &[0, 1, 2, 3], &[0, 1, 2, 3]),
            (vec![1, 2, 0, 3], 1)
        );
        // a row that did not run before goes before it where its number is lower
        assert_eq!(
            placed(&[(1, 6), (2, 0)], &[0, 1, 2, 3], &[0, 1, 2, 3]),
            (vec![1, 2, 0, 3], 1)
        );
    }

    #[test]
    fn eight_rows_on_eight_cores() {
        let rows = [0, 1, 2, 3, 4, 5, 6, 7];
        let last = [
            (7, 0),
            (6, 1),
            (5, 2),
            (4, 3),
            (3, 4),
            (2, 5),
            (1, 6),
            (0, 7),
        ];
        assert_eq!(
            placed(&last, &rows, &rows),
            (vec![7, 6, 5, 4, 3, 2, 1, 0], 0)
        );
        // the last row alone ran before
        assert_eq!(
            placed(&last[..1], &rows, &rows),
            (vec![1, 2, 3, 4, 5, 6, 7, 0], 0)
        );
        assert_eq!(
            placed(&last[..2], &rows, &rows),
            (vec![2, 3, 4, 5, 6, 7, 1, 0], 0)
        );
    }

    #[test]
    fn where_there_is_no_placement_nobody_is_placed() {
        let last = placement_of(&[(0, 0), (1, 1)]);
        assert_eq!(place(&last, 0, &[0]), Placement::nobody());
        assert_eq!(place(&last, 0b101, &[0, 1, 2]), Placement::nobody());
        assert_eq!(
            place(&last, u32::MAX, &[0, 1, 2, 3, 4, 5, 6, 7, 8]),
            Placement::nobody()
        );
    }

    #[test]
    fn wild_memories_are_stood() {
        let mut wild = placement_of(&[(3, 200), (3, 1), (255, 255)]);
        wild.count = 255;
        assert_eq!(wild.named_rows(), wild.rows);
        assert_eq!(wild.named_cores(), wild.cores);
        assert_eq!(moves(&wild, &[3, 255], &[1, 255]), 1);
        assert_eq!(
            place(&wild, 0b11, &[3, 255]),
            placement_of(&[(3, 0), (255, 1)])
        );
        // the highest bit is a core like any other
        assert_eq!(place(&wild, 1 << 31, &[9]), placement_of(&[(9, 31)]));
    }

    // ---- against a plain comparison of all placements ----

    /// Every placement of so many rows on different cores, in no order that matters.
    fn all_placements(free: &[u8], rows: usize) -> Vec<Vec<u8>> {
        if rows == 0 {
            return vec![Vec::new()];
        }
        let mut all = Vec::new();
        for &core in free.iter().rev() {
            let others: Vec<u8> = free.iter().copied().filter(|&c| c != core).collect();
            for mut placement in all_placements(&others, rows - 1) {
                placement.push(core);
                all.push(placement);
            }
        }
        all
    }

    /// "a row picked in this slot and the one before, on another core": pair by pair.
    fn counted(last: &[(u8, u8)], rows: &[u8], cores: &[u8]) -> usize {
        let mut count = 0;
        for &(row_before, core_before) in last {
            for (&row, &core) in rows.iter().zip(cores) {
                if row == row_before && core != core_before {
                    count += 1;
                }
            }
        }
        count
    }

    /// "whose cores, read by rising row number, are smaller at the first difference"
    fn smaller(one: &[u8], other: &[u8]) -> bool {
        for (a, b) in one.iter().zip(other) {
            if a != b {
                return a < b;
            }
        }
        false
    }

    /// The answer, found by holding each placement against the best before it.
    fn compared(last: &[(u8, u8)], free: &[u8], rows: &[u8]) -> (Vec<u8>, usize) {
        let mut best: Option<(Vec<u8>, usize)> = None;
        for cores in all_placements(free, rows.len()) {
            let count = counted(last, rows, &cores);
            let better = match &best {
                None => true,
                Some((other, fewest)) => {
                    count < *fewest || count == *fewest && smaller(&cores, other)
                }
            };
            if better {
                best = Some((cores, count));
            }
        }
        best.unwrap()
    }

    /// The numbers 0 to 31 whose bits are set.
    fn numbers_of(set: u32) -> Vec<u8> {
        (0..32).filter(|&number| set >> number & 1 == 1).collect()
    }

    /// Every memory of rows below n on cores below m, rows rising.
    fn all_memories(n: u8, m: u8) -> Vec<Vec<(u8, u8)>> {
        let cores = numbers_of(first_cores(m));
        let mut all = Vec::new();
        for set in 0..1 << n {
            let rows = numbers_of(set);
            for placement in all_placements(&cores, rows.len()) {
                all.push(rows.iter().copied().zip(placement).collect());
            }
        }
        all
    }

    #[test]
    fn all_cases_of_four_rows_on_three_cores() {
        let memories = all_memories(4, 3);
        // none; four rows on three cores each; six pairs of rows and of cores in order; four
        // triples of rows
        assert_eq!(memories.len(), 1 + 12 + 36 + 24);
        let mut cases = 0;
        for last in &memories {
            for set in 0..1 << 3 {
                let free = numbers_of(set);
                for picked in 0..1 << 4 {
                    let rows = numbers_of(picked);
                    if rows.len() <= free.len() {
                        assert_eq!(placed(last, &free, &rows), compared(last, &free, &rows));
                        cases += 1;
                    }
                }
            }
        }
        // of so many free cores 1, 3, 3, 1 sets; rows picked at most as many: 1, 5, 11, 15
        assert_eq!(cases, 73 * (1 + 3 * 5 + 3 * 11 + 15));
    }

    /// So many of the numbers, by chance, in no order.
    fn some_of(chance: &mut Chance, numbers: &[u8], count: usize) -> Vec<u8> {
        let mut left = numbers.to_vec();
        let mut taken = Vec::new();
        for _ in 0..count {
            taken.push(left.swap_remove(chance.below(left.len() as u64) as usize));
        }
        taken
    }

    /// As often as not the most there can be, else fewer.
    fn up_to(chance: &mut Chance, most: usize) -> usize {
        match chance.below(2) {
            0 => most,
            _ => chance.below(most as u64 + 1) as usize,
        }
    }

    /// A memory, free cores and rows by chance, on m cores, with rows below n.
    fn by_chance(chance: &mut Chance, m: u8, n: u8) -> (Vec<(u8, u8)>, Vec<u8>, Vec<u8>) {
        let (all_cores, all_rows) = (numbers_of(first_cores(m)), numbers_of(first_cores(n)));
        let most = all_cores.len().min(all_rows.len());
        let ran = up_to(chance, most);
        let (rows, cores) = (
            some_of(chance, &all_rows, ran),
            some_of(chance, &all_cores, ran),
        );
        let last = rows.into_iter().zip(cores).collect();
        let size = up_to(chance, all_cores.len());
        let mut free = some_of(chance, &all_cores, size);
        free.sort_unstable();
        let picked = up_to(chance, most.min(size));
        let mut rows = some_of(chance, &all_rows, picked);
        rows.sort_unstable();
        (last, free, rows)
    }

    #[test]
    fn cases_by_chance_against_all_placements() {
        let mut chance = Chance(0xC0DE_0001);
        for _ in 0..1_500 {
            let m = 1 + chance.below(6) as u8;
            let n = [4, 8, 32][chance.below(3) as usize];
            let (last, free, rows) = by_chance(&mut chance, m, n);
            assert_eq!(placed(&last, &free, &rows), compared(&last, &free, &rows));
        }
        for _ in 0..20 {
            let (last, free, rows) = by_chance(&mut chance, 8, 12);
            assert_eq!(placed(&last, &free, &rows), compared(&last, &free, &rows));
        }
    }

    #[test]
    fn only_rows_whose_core_is_not_free_move() {
        // each row whose core is free can stay there, for no two had the same; the others find
        // cores enough
        let mut chance = Chance(0xC0DE_0002);
        let (mut moved, mut stayed) = (0, 0);
        for _ in 0..4_000 {
            let (last, free, rows) = by_chance(&mut chance, 8, 10);
            let (cores, count) = placed(&last, &free, &rows);
            assert!(cores.iter().all(|core| free.contains(core)));
            for (place, core) in cores.iter().enumerate() {
                assert!(!cores[..place].contains(core));
            }
            let ran_too = last.iter().filter(|&(row, _)| rows.contains(row));
            let of_both = ran_too.clone().count();
            let must_move = ran_too.filter(|&(_, core)| !free.contains(core)).count();
            assert_eq!(count, must_move);
            moved += must_move;
            stayed += of_both - must_move;
            // whatever the order in which the memory names them (in a state the rows rise since
            // 02, Eight; asked alone they need not)
            let mut turned = last.clone();
            turned.reverse();
            assert_eq!(placed(&turned, &free, &rows), (cores, count));
        }
        assert!(moved > 1_000 && stayed > 1_000);
    }
}
