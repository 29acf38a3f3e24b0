//! The slot printer.
//!
//! "Reads standard input, at most 65,536 bytes: table length (2), table, slots to run (2, at
//! most 4,096), count of k values (2, at most the slots), those k bytes."
//!
//! The slots are run one after the other, so that with a table of format 2 (02, Eight) each knows
//! who ran in the slot before; before slot 0 nobody did.
//!
//! 02, Nine: "Since the link stack moved onto the box, the slot printer's assumption of all M cores
//! is wrong." A slot that the k list does not reach has one core held back; a slot that it reaches
//! has the k that stands there, M too. So who wants what was printed before writes the list in
//! full: "The night bench must write its k list in full and print as before."

use crate::slot;
use crate::table;

/// "slots to run (2, at most 4,096)"; slip: one more
const MOST_SLOTS: u16 = if cfg!(slip = "slots_limit_4097") {
    4_097
} else {
    4_096
};

/// What stands in the input, its numbers within their limits.
struct Input<'a> {
    table: &'a [u8],
    slots: u16,
    free: &'a [u8],
}

/// The next `length` bytes, if they are there.
fn take<'a>(rest: &mut &'a [u8], length: usize) -> Option<&'a [u8]> {
    if rest.len() < length {
        return None;
    }
    let (taken, left) = rest.split_at(length);
    *rest = left;
    Some(taken)
}

/// The next number of two bytes, little-endian, if it is there.
fn take_number(rest: &mut &[u8]) -> Option<u16> {
    let two = take(rest, 2)?;
    Some(u16::from_le_bytes([two[0], two[1]]))
}

/// None for "missing or extra bytes, input beyond 65,536 bytes, or a number above its limit
/// here".
fn read_input(input: &[u8]) -> Option<Input<'_>> {
    // slip: only the first 65,536 bytes are judged
    #[cfg(slip = "input_read_short")]
    let input = &input[..input.len().min(65_536)];
    if input.len() > 65_536 {
        return None;
    }
    let mut rest = input;
    let table_length = take_number(&mut rest)?;
    let table = take(&mut rest, usize::from(table_length))?;
    let slots = take_number(&mut rest)?;
    if slots > MOST_SLOTS {
        return None;
    }
    let free_count = take_number(&mut rest)?;
    if free_count > slots {
        return None;
    }
    let free = take(&mut rest, usize::from(free_count))?;
    if !rest.is_empty() {
        return None;
    }
    Some(Input { table, slots, free })
}

/// The k of a slot: the byte that the k list has for it, as it stands there, or what the slots past
/// the list use.
fn k_of(list: &[u8], number: u16, cores: u8) -> u8 {
    match list.get(usize::from(number)) {
        // slip: one core held back of a listed k too; 0, 1 and a k above M stay
        Some(&k) if cfg!(slip = "held_back_of_the_list") && (2..=cores).contains(&k) => k - 1,
        Some(&k) => k,
        None => past_the_list(cores),
    }
}

/// The k of the slots past the k list. 01 has "Slots past the k list use all M cores." 02, Nine:
/// "Slots past the k list now use M - 1, and 1 if M is 1." As the first k cores these are all but
/// core M - 1, and the only one where there is but one. M is that of a table that is taken, 1 to 8.
fn past_the_list(cores: u8) -> u8 {
    // slip: all M cores, as 01 has it
    if cfg!(slip = "all_cores_past_the_list") {
        return cores;
    }
    // slip: one core held back where there is but one
    if cores == 1 && !cfg!(slip = "no_core_of_one") {
        return 1;
    }
    cores - 1
}

/// The whole output for a whole input.
pub fn print(input: &[u8]) -> Vec<u8> {
    match read_input(input) {
        // "print `input` alone, before the table is judged"
        None => b"input\n".to_vec(),
        Some(input) => run(&input).into_bytes(),
    }
}

fn run(input: &Input) -> String {
    // "A refused table prints `refused N` alone, without the header."
    let table = match table::read(input.table) {
        Ok(table) => table,
        Err(number) => return format!("refused {}\n", number),
    };
    // "A header line"
    let mut output = String::from("slot free tanks\n");
    let mut state = slot::fresh(table);
    for number in 0..input.slots {
        // 02, One: "the printer's k means the first k cores"; "35 for ... a printer's k above M"
        let k = k_of(input.free, number, table.cores);
        let mut record = [0; 2 + 8];
        let answer = slot::slot(&mut state, k, &mut record, 0);
        // "A refused slot prints `refused N` in place of its line and ends."
        if answer.number != 0 && answer.number != 1 {
            output.push_str(&format!("refused {}\n", answer.number));
            return output;
        }
        // "per slot its number, k, and the picked tanks in row order, one space between"
        output.push_str(&format!("{} {}", number, k));
        let c = usize::from(record[1]);
        for &row in record.iter().skip(2).take(c) {
            output.push_str(&format!(" {}", table.rows[usize::from(row)].tank));
        }
        output.push('\n');
        // "or `late T TANK` after the late slot's line"
        if answer.number == 1 {
            let tank = table.rows[usize::from(answer.row)].tank;
            output.push_str(&format!("late {} {}\n", answer.time, tank));
            return output;
        }
    }
    // "last `end N` with N the slots run"
    output.push_str(&format!("end {}\n", input.slots));
    output
}

#[cfg(test)]
mod tests {
    use super::*;
    use crate::never_late::Chance;
    use crate::slot::tests::table_by_chance;
    use crate::table::tests::{bytes_of, in_format, EXAMPLE};
    use crate::table::Table;

    fn input_of(table: &[u8], slots: u16, free: &[u8]) -> Vec<u8> {
        let mut input = (table.len() as u16).to_le_bytes().to_vec();
        input.extend_from_slice(table);
        input.extend_from_slice(&slots.to_le_bytes());
        input.extend_from_slice(&(free.len() as u16).to_le_bytes());
        input.extend_from_slice(free);
        input
    }

    fn printed(input: &[u8]) -> String {
        String::from_utf8(print(input)).unwrap()
    }

    #[test]
    fn the_example() {
        // 02, Nine: "01's listing gets a k list of three 2s."
        assert_eq!(
            printed(&input_of(&EXAMPLE, 3, &[2, 2, 2])),
            "slot free tanks\n0 2 10 11\n1 2 10 20\n2 2 11 20\nend 3\n"
        );
    }

    #[test]
    fn no_slots() {
        assert_eq!(
            printed(&input_of(&EXAMPLE, 0, &[])),
            "slot free tanks\nend 0\n"
        );
    }

    #[test]
    fn fewer_cores_in_the_first_slot() {
        // slot 0 with one core: row 0; slot 1: rows 1 and 2 are due at 2; slot 2: all three have
        // d = 3 and b = 0, rows 0 and 1 go and row 2 is late at 3
        assert_eq!(
            printed(&input_of(&EXAMPLE, 4, &[1, 2, 2, 2])),
            "slot free tanks\n0 1 10\n1 2 11 20\n2 2 10 11\nlate 3 20\n"
        );
    }

    #[test]
    fn a_late_slot() {
        let rows = [(7, 2, 3, 0, 0), (8, 2, 3, 0, 0), (9, 3, 4, 0, 0)];
        let table = bytes_of(12, 3, &rows);
        assert_eq!(
            printed(&input_of(&table, 5, &[0, 0, 3, 3, 3])),
            "slot free tanks\n0 0\n1 0\nlate 2 7\n"
        );
        assert_eq!(
            printed(&input_of(&table, 2, &[0, 3])),
            "slot free tanks\n0 0\n1 3 7 8 9\nend 2\n"
        );
        // late in the last slot: no end line
        assert_eq!(
            printed(&input_of(&table, 2, &[0, 0])),
            "slot free tanks\n0 0\n1 0\nlate 2 7\n"
        );
    }

    #[test]
    fn a_refused_slot() {
        let rows = [(7, 2, 3, 0, 0), (8, 2, 3, 0, 0), (9, 3, 4, 0, 0)];
        let table = bytes_of(12, 3, &rows);
        assert_eq!(
            printed(&input_of(&table, 4, &[1, 4, 3, 3])),
            "slot free tanks\n0 1 9\nrefused 35\n"
        );
        assert_eq!(
            printed(&input_of(&table, 1, &[255])),
            "slot free tanks\nrefused 35\n"
        );
        let table = bytes_of(12, 8, &rows);
        assert_eq!(
            printed(&input_of(&table, 2, &[8, 9])),
            "slot free tanks\n0 8 7 8 9\nrefused 35\n"
        );
    }

    #[test]
    fn a_refused_table() {
        assert_eq!(printed(&input_of(&EXAMPLE[..35], 3, &[])), "refused 10\n");
        assert_eq!(printed(&input_of(&[], 3, &[])), "refused 10\n");
        let mut more = EXAMPLE.to_vec();
        more.push(0);
        assert_eq!(printed(&input_of(&more, 3, &[9])), "refused 21\n");
        // e above p
        let rows = [(1, 2, 1, 0, 0)];
        assert_eq!(
            printed(&input_of(&bytes_of(3, 2, &rows), 3, &[])),
            "refused 18\n"
        );
        let rows = [(1, 1, 0, 0, 0)];
        assert_eq!(
            printed(&input_of(&bytes_of(3, 2, &rows), 3, &[])),
            "refused 18\n"
        );
        // three whole cores of two
        let rows = [(1, 1, 1, 0, 0), (2, 3, 3, 0, 0), (3, 1, 1, 0, 1)];
        assert_eq!(
            printed(&input_of(&bytes_of(3, 2, &rows), 3, &[])),
            "refused 22\n"
        );
    }

    /// Tanks 7 and 8, 1/1 and 2/3 on two cores.
    fn camera_and_2_3() -> Vec<u8> {
        bytes_of(3, 2, &[(7, 1, 1, 0, 0), (8, 2, 3, 0, 0)])
    }

    #[test]
    fn a_table_with_a_whole_core_row() {
        // 2/3 starts 0, 1, 3
        assert_eq!(
            printed(&input_of(&camera_and_2_3(), 4, &[2; 4])),
            "slot free tanks\n0 2 7 8\n1 2 7 8\n2 2 7\n3 2 7 8\nend 4\n"
        );
        // alone, 3/3 early release from 2 on
        let alone = bytes_of(3, 1, &[(9, 3, 3, 2, 1)]);
        assert_eq!(
            printed(&input_of(&alone, 4, &[1; 4])),
            "slot free tanks\n0 1\n1 1\n2 1 9\n3 1 9\nend 4\n"
        );
    }

    #[test]
    fn a_late_whole_core_row() {
        // slot 1 with one core: both are due at 2, and 2/3 has b = 1
        assert_eq!(
            printed(&input_of(&camera_and_2_3(), 4, &[1, 1, 2, 2])),
            "slot free tanks\n0 1 7\n1 1 8\nlate 2 7\n"
        );
        // 2/3 could wait once more after slot 0, 1/1 cannot
        assert_eq!(
            printed(&input_of(&camera_and_2_3(), 4, &[0, 2, 2, 2])),
            "slot free tanks\n0 0\nlate 1 7\n"
        );
        assert_eq!(
            printed(&input_of(&camera_and_2_3(), 2, &[1, 2])),
            "slot free tanks\n0 1 7\n1 2 7 8\nend 2\n"
        );
    }

    // ---- formats (02, Eight) ----

    #[test]
    fn four_halves_in_both_formats() {
        let rows = [
            (1, 1, 2, 0, 0),
            (2, 1, 2, 0, 0),
            (3, 1, 2, 0, 0),
            (4, 1, 2, 0, 0),
        ];
        let table = bytes_of(2, 2, &rows);
        assert_eq!(
            printed(&input_of(&table, 6, &[2; 6])),
            "slot free tanks\n0 2 1 2\n1 2 3 4\n2 2 1 2\n3 2 3 4\n4 2 1 2\n5 2 3 4\nend 6\n"
        );
        assert_eq!(
            printed(&input_of(&in_format(2, &table), 6, &[2; 6])),
            "slot free tanks\n0 2 1 2\n1 2 3 4\n2 2 3 4\n3 2 1 2\n4 2 1 2\n5 2 3 4\nend 6\n"
        );
    }

    #[test]
    fn the_example_in_format_2() {
        // the three slots of 01's listing are the same; in slot 3 tanks 11 and 20 ran before
        let table = in_format(2, &EXAMPLE);
        assert_eq!(
            printed(&input_of(&table, 3, &[2; 3])),
            printed(&input_of(&EXAMPLE, 3, &[2; 3]))
        );
        assert_eq!(
            printed(&input_of(&table, 6, &[2; 6])),
            "slot free tanks\n0 2 10 11\n1 2 10 20\n2 2 11 20\n\
             3 2 11 20\n4 2 10 11\n5 2 10 20\nend 6\n"
        );
        // slot 2 with one core: rows 1 and 2 are due at 3, row 2 ran in slot 1, and row 1 is late
        assert_eq!(
            printed(&input_of(&table, 6, &[2, 2, 1, 2, 2, 2])),
            "slot free tanks\n0 2 10 11\n1 2 10 20\n2 1 20\nlate 3 11\n"
        );
        // in format 1 row 1 goes by its number, and row 2 is late
        assert_eq!(
            printed(&input_of(&EXAMPLE, 6, &[2, 2, 1, 2, 2, 2])),
            "slot free tanks\n0 2 10 11\n1 2 10 20\n2 1 11\nlate 3 20\n"
        );
    }

    #[test]
    fn a_format_that_is_neither() {
        for format in [0, 3, 4, 128, 255] {
            let table = in_format(format, &EXAMPLE);
            assert_eq!(printed(&input_of(&table, 3, &[])), "refused 11\n");
        }
    }

    #[test]
    fn missing_and_extra_bytes() {
        let whole = input_of(&EXAMPLE, 3, &[2, 2]);
        for length in 0..whole.len() {
            assert_eq!(printed(&whole[..length]), "input\n", "length {}", length);
        }
        let mut more = whole;
        more.push(0);
        assert_eq!(printed(&more), "input\n");
        // before the table is judged
        let mut bad_table = input_of(&[9], 3, &[]);
        assert_eq!(printed(&bad_table), "refused 11\n");
        bad_table.push(0);
        assert_eq!(printed(&bad_table), "input\n");
    }

    #[test]
    fn limits_of_the_numbers() {
        let full = printed(&input_of(&EXAMPLE, 4_096, &[2; 4_096]));
        assert!(full.ends_with("\n4095 2 10 11\nend 4096\n"));
        assert_eq!(full.lines().count(), 4_098);
        assert_eq!(printed(&input_of(&EXAMPLE, 4_097, &[])), "input\n");
        assert_eq!(printed(&input_of(&EXAMPLE, 1, &[2, 2])), "input\n");
        assert_eq!(printed(&input_of(&[9], 4_097, &[])), "input\n");
        assert_eq!(printed(&input_of(&[9], 0, &[0])), "input\n");
    }

    #[test]
    fn limit_of_the_input() {
        // 2 + 65,530 + 2 + 2 = 65,536 bytes are read; the table has bytes after its last row
        let mut table = EXAMPLE.to_vec();
        table.resize(65_530, 0);
        let most = input_of(&table, 0, &[]);
        assert_eq!(most.len(), 65_536);
        assert_eq!(printed(&most), "refused 21\n");
        // one more, after bytes that would be an input without it
        let mut beyond = most;
        beyond.push(0);
        assert_eq!(printed(&beyond), "input\n");
        // one more, though every byte has its place
        table.push(0);
        let beyond = input_of(&table, 0, &[]);
        assert_eq!(beyond.len(), 65_537);
        assert_eq!(printed(&beyond), "input\n");
        assert_eq!(printed(&vec![0; 100_000]), "input\n");
    }

    #[test]
    fn a_slot_without_a_ready_row() {
        // 1/3 early release with phase 1 on one core: slot 1 of the first three
        let table = bytes_of(3, 1, &[(65535, 1, 3, 1, 1)]);
        assert_eq!(
            printed(&input_of(&table, 3, &[1; 3])),
            "slot free tanks\n0 1\n1 1 65535\n2 1\nend 3\n"
        );
        let none = bytes_of(1, 1, &[]);
        assert_eq!(
            printed(&input_of(&none, 2, &[1; 2])),
            "slot free tanks\n0 1\n1 1\nend 2\n"
        );
    }

    // ---- one core held back (02, Nine) ----
    //
    // By 01's formulas: the windows of 2/3 are 0 to 2 (b 1), 1 to 3 (b 0), then 3 to 5 and 4 to 6,
    // and so on by threes. Those of 1/2 are 0 to 2, 2 to 4, 4 to 6 and of 1/3 0 to 3, 3 to 6, all
    // with b 0. 1/1 has one slot for each.

    #[test]
    fn the_example_without_a_k_list() {
        // M - 1 = 1. Slot 0: three full ties, due at 2: row 0. Slot 1: rows 1 and 2 are due at 2,
        // row 0 at 3: row 1. At 2 row 2 is late
        let late = "slot free tanks\n0 1 10\n1 1 11\nlate 2 20\n";
        assert_eq!(printed(&input_of(&EXAMPLE, 3, &[])), late);
        // late in the last slot, and long before it
        assert_eq!(printed(&input_of(&EXAMPLE, 2, &[])), late);
        assert_eq!(printed(&input_of(&EXAMPLE, 4_096, &[])), late);
        assert_eq!(
            printed(&input_of(&EXAMPLE, 1, &[])),
            "slot free tanks\n0 1 10\nend 1\n"
        );
    }

    #[test]
    fn the_example_with_a_k_list_of_one() {
        // 2, which is M. Slot 0: rows 0 and 1. Slot 1 has one core: row 2, due at 2, before rows 0
        // and 1, due at 3. Slot 2: all three are due at 3 with b 0: row 0. At 3 rows 1 and 2 are
        // late, and the lowest is told
        assert_eq!(
            printed(&input_of(&EXAMPLE, 3, &[2])),
            "slot free tanks\n0 2 10 11\n1 1 20\n2 1 10\nlate 3 11\n"
        );
        // 1, which is M - 1: as without a list
        assert_eq!(
            printed(&input_of(&EXAMPLE, 3, &[1])),
            "slot free tanks\n0 1 10\n1 1 11\nlate 2 20\n"
        );
    }

    #[test]
    fn the_example_with_a_k_list_of_two() {
        // slots 0 and 1 are those of 01's listing; slot 2 has one core: rows 1 and 2 are due at 3
        // with b 0, row 0 starts at 3: row 1. At 3 row 2 is late
        assert_eq!(
            printed(&input_of(&EXAMPLE, 3, &[2, 2])),
            "slot free tanks\n0 2 10 11\n1 2 10 20\n2 1 11\nlate 3 20\n"
        );
        // slot 0: row 0; slot 1: rows 1 and 2, due at 2; slot 2 has one core: all three are due at
        // 3 with b 0: row 0. At 3 rows 1 and 2 are late
        assert_eq!(
            printed(&input_of(&EXAMPLE, 3, &[1, 2])),
            "slot free tanks\n0 1 10\n1 2 11 20\n2 1 10\nlate 3 11\n"
        );
    }

    /// Tanks 4 and 5, 1/2 and 1/3.
    fn half_and_third(cores: u8) -> Vec<u8> {
        bytes_of(6, cores, &[(4, 1, 2, 0, 0), (5, 1, 3, 0, 0)])
    }

    #[test]
    fn one_core_and_two_cores_both_leave_one() {
        // slots 0, 2 and 4 are row 0's, due first in slot 0 and alone in the others; row 1 has
        // slots 1 and 3; in slot 5 nobody is ready
        let by_one = "slot free tanks\n0 1 4\n1 1 5\n2 1 4\n3 1 5\n4 1 4\n5 1\nend 6\n";
        assert_eq!(printed(&input_of(&half_and_third(1), 6, &[])), by_one);
        assert_eq!(printed(&input_of(&half_and_third(2), 6, &[])), by_one);
        // three leave two: slot 0 has both
        assert_eq!(
            printed(&input_of(&half_and_third(3), 6, &[])),
            "slot free tanks\n0 2 4 5\n1 2\n2 2 4\n3 2 5\n4 2 4\n5 2\nend 6\n"
        );
        // 1/1 and 2/3: slot 1 has both due at 2, and 2/3 has b 1
        assert_eq!(
            printed(&input_of(&camera_and_2_3(), 4, &[])),
            "slot free tanks\n0 1 7\n1 1 8\nlate 2 7\n"
        );
    }

    #[test]
    fn one_core_with_a_list_shorter_than_the_slots() {
        // slot 1: row 0, due at 2; slot 2: row 1, due at 3, before row 0's next, due at 4; slot 3:
        // that, before row 1's next, due at 6; slot 4: both are due at 6 with b 0, row 0; slot 5:
        // row 1, as row 0 starts at 6
        let after_0 = "slot free tanks\n0 0\n1 1 4\n2 1 5\n3 1 4\n4 1 4\n5 1 5\nend 6\n";
        for list in [&[0][..], &[0, 1], &[0, 1, 1, 1, 1], &[0, 1, 1, 1, 1, 1]] {
            assert_eq!(
                printed(&input_of(&half_and_third(1), 6, list)),
                after_0,
                "{:?}",
                list
            );
        }
        // two of the core's own k change nothing
        assert_eq!(
            printed(&input_of(&half_and_third(1), 6, &[1, 1])),
            "slot free tanks\n0 1 4\n1 1 5\n2 1 4\n3 1 5\n4 1 4\n5 1\nend 6\n"
        );
        // slot 0 of two cores has both rows; after it as above
        assert_eq!(
            printed(&input_of(&half_and_third(2), 6, &[2])),
            "slot free tanks\n0 2 4 5\n1 1\n2 1 4\n3 1 5\n4 1 4\n5 1\nend 6\n"
        );
    }

    #[test]
    fn eight_cores_leave_seven() {
        let rows: Vec<(u16, u16, u16, u16, u8)> = (1..9).map(|tank| (tank, 1, 2, 0, 0)).collect();
        let table = bytes_of(2, 8, &rows);
        // eight halves: in slots 0 and 2 all are ready, and rows 0 to 6 go; the last has slots 1
        // and 3 for itself
        assert_eq!(
            printed(&input_of(&table, 4, &[])),
            "slot free tanks\n0 7 1 2 3 4 5 6 7\n1 7 8\n2 7 1 2 3 4 5 6 7\n3 7 8\nend 4\n"
        );
        // slot 0 with all eight leaves nobody for slot 1
        assert_eq!(
            printed(&input_of(&table, 4, &[8])),
            "slot free tanks\n0 8 1 2 3 4 5 6 7 8\n1 7\n2 7 1 2 3 4 5 6 7\n3 7 8\nend 4\n"
        );
    }

    #[test]
    fn whole_core_rows_on_each_count_of_cores() {
        // M rows of 1/1 on M cores: with M - 1 of them rows 0 to M - 2 go in slot 0, and the last
        // is late at 1. With M = 1 nobody is
        let past_the_list = [
            "0 1 1\n1 1 1\nend 2\n",
            "0 1 1\nlate 1 2\n",
            "0 2 1 2\nlate 1 3\n",
            "0 3 1 2 3\nlate 1 4\n",
            "0 4 1 2 3 4\nlate 1 5\n",
            "0 5 1 2 3 4 5\nlate 1 6\n",
            "0 6 1 2 3 4 5 6\nlate 1 7\n",
            "0 7 1 2 3 4 5 6 7\nlate 1 8\n",
        ];
        for (m, expected) in (1..9u8).zip(past_the_list) {
            let tanks = 1..u16::from(m) + 1;
            let rows: Vec<(u16, u16, u16, u16, u8)> = tanks.map(|t| (t, 1, 1, 0, 0)).collect();
            let table = bytes_of(1, m, &rows);
            let expected = format!("slot free tanks\n{}", expected);
            assert_eq!(printed(&input_of(&table, 2, &[])), expected);
            // with M in the list, in full, all of them go in each slot
            let all = &"1 2 3 4 5 6 7 8"[..2 * usize::from(m) - 1];
            assert_eq!(
                printed(&input_of(&table, 2, &[m, m])),
                format!("slot free tanks\n0 {0} {1}\n1 {0} {1}\nend 2\n", m, all)
            );
        }
    }

    #[test]
    fn a_listed_k_above_m_and_slots_past_it() {
        // M itself is no k above M; what follows a refused slot is not run
        assert_eq!(
            printed(&input_of(&EXAMPLE, 4, &[2, 3])),
            "slot free tanks\n0 2 10 11\nrefused 35\n"
        );
        assert_eq!(
            printed(&input_of(&EXAMPLE, 4, &[3])),
            "slot free tanks\nrefused 35\n"
        );
        assert_eq!(
            printed(&input_of(&half_and_third(1), 4, &[1, 2])),
            "slot free tanks\n0 1 4\nrefused 35\n"
        );
        assert_eq!(
            printed(&input_of(&bytes_of(1, 8, &[]), 4, &[8, 7, 9])),
            "slot free tanks\n0 8\n1 7\nrefused 35\n"
        );
    }

    #[test]
    fn a_refused_table_and_slots_past_the_list() {
        // there is no M - 1 of M = 0: 13 comes first
        for m in [0, 9, 255] {
            assert_eq!(
                printed(&input_of(&bytes_of(3, m, &[]), 3, &[])),
                "refused 13\n"
            );
        }
        assert_eq!(
            printed(&input_of(&bytes_of(3, 0, &[]), 3, &[1])),
            "refused 13\n"
        );
        // "Three rows 2/3 on two cores: 6 of 6, taken. A fourth row of 1/3: 22": M·L has all M
        let thirds = [(1, 2, 3, 0, 0), (2, 2, 3, 0, 0), (3, 2, 3, 0, 0)];
        assert_eq!(
            printed(&input_of(&bytes_of(3, 2, &thirds), 1, &[])),
            "slot free tanks\n0 1 1\nend 1\n"
        );
        let mut four = thirds.to_vec();
        four.push((4, 1, 3, 0, 0));
        assert_eq!(
            printed(&input_of(&bytes_of(3, 2, &four), 1, &[])),
            "refused 22\n"
        );
    }

    #[test]
    fn a_table_without_rows_and_slots_past_the_list() {
        let lines = |m: u8, list: &[u8]| printed(&input_of(&bytes_of(1, m, &[]), 2, list));
        assert_eq!(lines(1, &[]), "slot free tanks\n0 1\n1 1\nend 2\n");
        assert_eq!(lines(2, &[]), "slot free tanks\n0 1\n1 1\nend 2\n");
        assert_eq!(lines(3, &[]), "slot free tanks\n0 2\n1 2\nend 2\n");
        assert_eq!(lines(3, &[3]), "slot free tanks\n0 3\n1 2\nend 2\n");
        assert_eq!(lines(3, &[0]), "slot free tanks\n0 0\n1 2\nend 2\n");
        assert_eq!(lines(8, &[]), "slot free tanks\n0 7\n1 7\nend 2\n");
    }

    #[test]
    fn no_slots_whatever_m() {
        for m in 1..9 {
            assert_eq!(
                printed(&input_of(&half_and_third(m), 0, &[])),
                "slot free tanks\nend 0\n"
            );
        }
    }

    #[test]
    fn zeros_and_slots_past_them() {
        // slot 1 has one core: three full ties, due at 2: row 0. At 2 rows 1 and 2 are late
        assert_eq!(
            printed(&input_of(&EXAMPLE, 3, &[0])),
            "slot free tanks\n0 0\n1 1 10\nlate 2 11\n"
        );
        // at 2 all three are late, before any slot past the list
        assert_eq!(
            printed(&input_of(&EXAMPLE, 3, &[0, 0])),
            "slot free tanks\n0 0\n1 0\nlate 2 10\n"
        );
        // three of 1/6 on three cores, due at 6: slot 3 has two cores, rows 0 and 1; slot 4 row 2
        let rows = [(1, 1, 6, 0, 0), (2, 1, 6, 0, 0), (3, 1, 6, 0, 0)];
        assert_eq!(
            printed(&input_of(&bytes_of(6, 3, &rows), 6, &[0, 0, 0])),
            "slot free tanks\n0 0\n1 0\n2 0\n3 2 1 2\n4 2 3\n5 2\nend 6\n"
        );
    }

    #[test]
    fn format_2_and_slots_past_the_list() {
        let halves = [
            (1, 1, 2, 0, 0),
            (2, 1, 2, 0, 0),
            (3, 1, 2, 0, 0),
            (4, 1, 2, 0, 0),
        ];
        // three cores, so two in each slot. Slot 1: rows 2 and 3, as the others start at 2. In
        // slots 2 and 4 all four are full ties, and those go first that ran in slots 1 and 3
        let of_1 = bytes_of(2, 3, &halves);
        let of_2 = in_format(2, &of_1);
        assert_eq!(
            printed(&input_of(&of_2, 6, &[])),
            "slot free tanks\n0 2 1 2\n1 2 3 4\n2 2 3 4\n3 2 1 2\n4 2 1 2\n5 2 3 4\nend 6\n"
        );
        assert_eq!(
            printed(&input_of(&of_1, 6, &[])),
            "slot free tanks\n0 2 1 2\n1 2 3 4\n2 2 1 2\n3 2 3 4\n4 2 1 2\n5 2 3 4\nend 6\n"
        );
        // slot 0 with all three: row 3 alone is left for slot 1. Slot 2: row 3 ran, and of the
        // others row 0 has the lowest number; slot 3: rows 1 and 2; slot 4: these, as they ran
        assert_eq!(
            printed(&input_of(&of_2, 6, &[3])),
            "slot free tanks\n0 3 1 2 3\n1 2 4\n2 2 1 4\n3 2 2 3\n4 2 2 3\n5 2 1 4\nend 6\n"
        );
        // 01's table with [2, 2]: in slot 2 rows 1 and 2 are due at 3 with b 0, and row 2 ran in
        // slot 1; at 3 row 1 is late. In format 1 it is row 2 that is late
        assert_eq!(
            printed(&input_of(&in_format(2, &EXAMPLE), 3, &[2, 2])),
            "slot free tanks\n0 2 10 11\n1 2 10 20\n2 1 20\nlate 3 11\n"
        );
    }

    #[test]
    fn the_last_slot_alone_past_the_list() {
        // with two cores rows 0 and 1 go when they start, row 0 in each even slot and row 1 in
        // each third one; 4,095 is the latter. With one core in it nothing is left out
        let lines = printed(&input_of(&half_and_third(2), 4_096, &[2; 4_095]));
        assert!(lines.ends_with("\n4092 2 4 5\n4093 2\n4094 2 4\n4095 1 5\nend 4096\n"));
        // with one core throughout row 1 waits once in six slots: in slot 0 of them row 0 goes
        let lines = printed(&input_of(&half_and_third(2), 4_096, &[]));
        assert!(lines.ends_with("\n4092 1 4\n4093 1 5\n4094 1 4\n4095 1 5\nend 4096\n"));
    }

    /// What is to be printed of a table that is taken with a k for each slot: the slots run here,
    /// one by one.
    fn slot_by_slot(table: &Table, ks: &[u8]) -> String {
        let mut lines = vec![String::from("slot free tanks")];
        let mut state = slot::fresh(*table);
        let mut last = format!("end {}", ks.len());
        for (number, &k) in ks.iter().enumerate() {
            let mut record = [0; 10];
            let answer = slot::slot(&mut state, k, &mut record, 0);
            if answer.number > 1 {
                last = format!("refused {}", answer.number);
                break;
            }
            let mut line = vec![number.to_string(), k.to_string()];
            for &row in &record[2..2 + usize::from(record[1])] {
                line.push(table.rows[usize::from(row)].tank.to_string());
            }
            lines.push(line.join(" "));
            if answer.number == 1 {
                let tank = table.rows[usize::from(answer.row)].tank;
                last = format!("late {} {}", answer.time, tank);
                break;
            }
        }
        lines.push(last);
        lines.join("\n") + "\n"
    }

    /// A k for each of up to 80 slots: mostly M, or mostly any from 0 to M, and seldom M + 1.
    fn ks_by_chance(chance: &mut Chance, m: u8) -> Vec<u8> {
        let one_in = 1 + chance.below(20);
        let slots = chance.below(81);
        let mut ks = Vec::new();
        for _ in 0..slots {
            let k = match (chance.below(100), chance.below(one_in)) {
                (0, _) => m + 1,
                (_, 0) => chance.below(u64::from(m) + 1) as u8,
                _ => m,
            };
            ks.push(k);
        }
        ks
    }

    /// How many end with each of the three: `end`, `late`, `refused`.
    fn count_the_end(lines: &str, counts: &mut [u32; 3]) {
        let last = lines.lines().last().unwrap();
        let ends = ["end ", "late ", "refused "];
        let which = ends.iter().position(|end| last.starts_with(end)).unwrap();
        counts[which] += 1;
    }

    /// "The night bench must write its k list in full and print as before": what slots past the
    /// list use is not asked then.
    #[test]
    fn a_list_in_full_by_chance() {
        let mut chance = Chance(0x02_000E);
        let mut counts = [0; 3];
        for _ in 0..600 {
            let table = table_by_chance(&mut chance);
            let bytes = table::write(&table);
            let ks = ks_by_chance(&mut chance, table.cores);
            let lines = printed(&input_of(&bytes, ks.len() as u16, &ks));
            assert_eq!(lines, slot_by_slot(&table, &ks));
            count_the_end(&lines, &mut counts);
            // with M in each place, which was 01's assumption, nobody is late
            let all = vec![table.cores; ks.len()];
            let lines = printed(&input_of(&bytes, ks.len() as u16, &all));
            assert_eq!(lines, slot_by_slot(&table, &all));
            assert!(lines.ends_with(&format!("\nend {}\n", ks.len())));
        }
        assert!(counts.iter().all(|&count| count > 60), "{:?}", counts);
    }

    /// A list cut anywhere, against the same with what Nine says written out behind it.
    #[test]
    fn a_list_cut_by_chance() {
        // "M - 1, and 1 if M is 1", for M = 1 to 4
        let past = [1, 1, 2, 3];
        let mut chance = Chance(0x02_000F);
        let (mut counts, mut of_m) = ([0; 3], [0; 4]);
        for _ in 0..600 {
            let table = table_by_chance(&mut chance);
            let bytes = table::write(&table);
            let mut ks = ks_by_chance(&mut chance, table.cores);
            let slots = ks.len() as u16;
            let kept = chance.below(u64::from(slots) + 1) as usize;
            let m = usize::from(table.cores);
            ks[kept..].fill(past[m - 1]);
            let lines = printed(&input_of(&bytes, slots, &ks[..kept]));
            assert_eq!(lines, slot_by_slot(&table, &ks));
            assert_eq!(lines, printed(&input_of(&bytes, slots, &ks)));
            count_the_end(&lines, &mut counts);
            // the slots past the list that are printed
            of_m[m - 1] += lines.lines().count().saturating_sub(2 + kept);
        }
        assert!(counts.iter().all(|&count| count > 40), "{:?}", counts);
        assert!(of_m.iter().all(|&slots| slots > 200), "{:?}", of_m);
    }
}
