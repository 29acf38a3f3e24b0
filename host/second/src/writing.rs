//! Writing tables. After 02, Five, and of both formats since 02, Eight.
//!
//! "Given a cycle, cores and rows, write the table bytes into a lent buffer. What is written reads
//! back as the same table in all places below n and M; what reads back and is written gives the
//! same bytes; the buffer past them stays as it was; a table that the reader would refuse is
//! refused with that number."
//!
//! The format is given with them: "11 means neither 1 nor 2, for a table to be written too, ahead
//! of 12" (02, Eight).
//!
//! The faults of a table value and its bytes are asked of `table`; here is what comes first of the
//! refusals, and what becomes of the buffer.

use crate::table::{self, Table};

/// What comes back beside the buffer, as the probe's protocol has it for `P`.
#[derive(Clone, Copy, PartialEq, Eq, Debug)]
pub struct WriteAnswer {
    /// 0, "done", or the refusal: 11 to 20, 22 or 37
    pub number: u8,
    /// How many bytes of the buffer, from its front, the table takes. "`P` refused: 0 bytes
    /// written."
    pub written: u64,
}

/// Writes a table value to the front of the buffer. With 0 the bytes stand there and "the buffer
/// past them stays as it was"; with a refusal nothing is written, and all of it does. Any value and
/// any buffer may be asked with.
pub fn write_table(table: &Table, buffer: &mut [u8]) -> WriteAnswer {
    // "in all places below n and M": what stands past them is not written
    let bytes = table::write(table);
    match refusal(table, bytes.len(), buffer.len()) {
        Some(number) => {
            // slip: what the buffer holds is written before it is found too short
            if cfg!(slip = "written_with_37") && number == 37 {
                put(buffer, &bytes);
            }
            WriteAnswer { number, written: 0 }
        }
        None => {
            put(buffer, &bytes);
            WriteAnswer {
                number: 0,
                written: bytes.len() as u64,
            }
        }
    }
}

/// "Refusals: 12 to 20 in reading order, 22, then 37 if the buffer is too short for exactly the
/// bytes needed", and since 02, Eight 11 "ahead of 12". None if there is no fault and room. 18 is
/// the reader's own, since 02, Six "e above p". (Of a table with a fault the bytes needed mean
/// nothing, and are not looked at.)
fn refusal(table: &Table, needed: usize, room: usize) -> Option<u8> {
    let fault = table::fault(table);
    // slip: 37 before 22
    if cfg!(slip = "room_before_sum") && fault == 22 && too_short(needed, room) {
        return Some(37);
    }
    if fault != 0 {
        return Some(fault);
    }
    if too_short(needed, room) {
        return Some(37);
    }
    None
}

/// "if the buffer is too short for exactly the bytes needed": a buffer just as long is not.
fn too_short(needed: usize, room: usize) -> bool {
    // slip: one byte more is wanted
    if cfg!(slip = "room_one_more") {
        return room <= needed;
    }
    room < needed
}

/// Puts the bytes at the front of the buffer, as far as it reaches; "past them" it stays.
fn put(buffer: &mut [u8], bytes: &[u8]) {
    for (place, &byte) in buffer.iter_mut().zip(bytes) {
        *place = byte;
    }
}

impl WriteAnswer {
    /// "number (1), bytes written (8)", little-endian.
    pub fn bytes(&self) -> [u8; 9] {
        let mut bytes = [0; 9];
        bytes[0] = self.number;
        bytes[1..].copy_from_slice(&self.written.to_le_bytes());
        bytes
    }
}

#[cfg(test)]
mod tests {
    use super::*;
    use crate::never_late::Chance;
    use crate::slot::tests::table_by_chance;
    use crate::table::tests::{in_format, value_of, EXAMPLE};
    use crate::table::{read, Row};

    fn done(written: u64) -> WriteAnswer {
        WriteAnswer { number: 0, written }
    }

    fn refused(number: u8) -> WriteAnswer {
        WriteAnswer { number, written: 0 }
    }

    /// The answer with a buffer of so many bytes EE, and the buffer after it.
    fn written_in(table: &Table, length: usize) -> (WriteAnswer, Vec<u8>) {
        let mut buffer = vec![0xEE; length];
        let answer = write_table(table, &mut buffer);
        (answer, buffer)
    }

    /// The number with a buffer that has room for any table. With a refusal no byte is written.
    fn number_of(table: &Table) -> u8 {
        let (answer, buffer) = written_in(table, 400);
        if answer.number != 0 {
            assert_eq!(answer.written, 0);
            assert!(buffer.iter().all(|&byte| byte == 0xEE));
        }
        answer.number
    }

    fn number_with(table: &Table, change: &dyn Fn(&mut Table)) -> u8 {
        let mut table = *table;
        change(&mut table);
        number_of(&table)
    }

    /// 01's example table: three rows 2/3, tanks 10, 11, 20, boards 0 and 1.
    fn example() -> Table {
        let mut table = value_of(3, 2, &[(2, 3, 0, 0); 3]);
        table.rows[0].tank = 10;
        table.rows[1].tank = 11;
        table.rows[2].tank = 20;
        table
    }

    /// Boards 4 and 9; tank 10 with early release 1/3 from 5 on, tank 20 with 3/4. The sum is
    /// 1·4 + 3·3 = 13 of 24.
    fn two_rows() -> Table {
        let mut table = value_of(12, 2, &[(1, 3, 5, 1), (3, 4, 0, 0)]);
        table.boards = [4, 9, 0, 0, 0, 0, 0, 0];
        table.rows[0].tank = 10;
        table.rows[1].tank = 20;
        table
    }

    const TWO_ROWS: [u8; 27] = [
        0x01, 0x0C, 0x00, 0x00, 0x00, 0x02, 0x04, 0x09, 0x02, //
        0x0A, 0x00, 0x01, 0x00, 0x03, 0x00, 0x05, 0x00, 0x01, //
        0x14, 0x00, 0x03, 0x00, 0x04, 0x00, 0x00, 0x00, 0x00,
    ];

    /// 32 rows of 1/4, which fill eight cores of 4 slots.
    fn full_width() -> Table {
        value_of(4, 8, &[(1, 4, 0, 0); 32])
    }

    // ---- the bytes ----

    #[test]
    fn the_example_is_written() {
        let (answer, buffer) = written_in(&example(), 36);
        assert_eq!(answer, done(36));
        assert_eq!(buffer, EXAMPLE);
        let (answer, buffer) = written_in(&two_rows(), 27);
        assert_eq!(answer, done(27));
        assert_eq!(buffer, TWO_ROWS);
    }

    #[test]
    fn every_field_little_endian() {
        // 1,000,000 is 0F4240 in base 16 and 50,000 is C350; 0x1234·20 + 500,000 is below 2,000,000
        let mut table = value_of(
            1_000_000,
            2,
            &[(0x1234, 50_000, 0xABCD, 1), (1, 2, 0x00FF, 0)],
        );
        table.boards = [3, 200, 0, 0, 0, 0, 0, 0];
        table.rows[0].tank = 0x0102;
        table.rows[1].tank = 0xFFFE;
        let (answer, buffer) = written_in(&table, 27);
        assert_eq!(answer, done(27));
        let expected = [
            0x01, 0x40, 0x42, 0x0F, 0x00, 0x02, 0x03, 0xC8, 0x02, //
            0x02, 0x01, 0x34, 0x12, 0x50, 0xC3, 0xCD, 0xAB, 0x01, //
            0xFE, 0xFF, 0x01, 0x00, 0x02, 0x00, 0xFF, 0x00, 0x00,
        ];
        assert_eq!(buffer, expected);
    }

    #[test]
    fn the_shortest_and_the_longest_table() {
        // one core and no row: 1 + 4 + 2 + 1 bytes
        let mut table = value_of(1, 1, &[]);
        table.boards[0] = 255;
        let (answer, buffer) = written_in(&table, 9);
        assert_eq!(answer, done(8));
        assert_eq!(buffer, [1, 1, 0, 0, 0, 1, 255, 0, 0xEE]);
        // eight cores and 32 rows: 1 + 4 + 9 + 1 + 288 bytes
        let (answer, buffer) = written_in(&full_width(), 304);
        assert_eq!(answer, done(303));
        let head = [1, 4, 0, 0, 0, 8, 0, 1, 2, 3, 4, 5, 6, 7, 32];
        assert_eq!(buffer[..15], head);
        for row in 0..32 {
            let nine = [row as u8 + 1, 0, 1, 0, 4, 0, 0, 0, 0];
            assert_eq!(buffer[15 + 9 * row..][..9], nine, "row {}", row);
        }
        assert_eq!(buffer[303], 0xEE);
    }

    #[test]
    fn nothing_is_put_in_order_or_made_smaller() {
        // 2/6 is not 1/3, and a phase above its period stays
        let table = value_of(6, 1, &[(2, 6, 65535, 1)]);
        let (answer, buffer) = written_in(&table, 17);
        assert_eq!(answer, done(17));
        let expected = [
            1, 6, 0, 0, 0, 1, 0, 1, //
            1, 0, 2, 0, 6, 0, 255, 255, 1,
        ];
        assert_eq!(buffer, expected);
        // rows and boards that fall are refused
        let swapped = |t: &mut Table| t.rows.swap(0, 1);
        assert_eq!(number_with(&two_rows(), &swapped), 16);
        let swapped = |t: &mut Table| t.boards.swap(0, 1);
        assert_eq!(number_with(&two_rows(), &swapped), 14);
    }

    /// What no place below n and M may have, in all the places past them.
    fn with_rubbish(table: &Table) -> Table {
        let mut table = *table;
        for board in table.boards.iter_mut().skip(usize::from(table.cores)) {
            *board = 0;
        }
        for row in table.rows.iter_mut().skip(usize::from(table.count)) {
            *row = Row {
                tank: 0,
                cost: 9,
                period: 0,
                phase: 77,
                kind: 255,
            };
        }
        table
    }

    #[test]
    fn places_past_n_and_m_are_not_written() {
        let (answer, buffer) = written_in(&with_rubbish(&two_rows()), 40);
        assert_eq!(answer, done(27));
        assert_eq!(buffer[..27], TWO_ROWS);
        assert_eq!(buffer[27..], [0xEE; 13]);
        // they read back as 0
        assert_eq!(read(&buffer[..27]), Ok(two_rows()));
        // a row more or a core more is judged
        let rubbish = with_rubbish(&two_rows());
        assert_eq!(number_with(&rubbish, &|t| t.count = 3), 16);
        assert_eq!(number_with(&rubbish, &|t| t.cores = 3), 14);
        // a row less is not written
        let (answer, buffer) = written_in(
            &Table {
                count: 1,
                ..two_rows()
            },
            18,
        );
        assert_eq!(answer, done(18));
        assert_eq!(buffer[..8], TWO_ROWS[..8]);
        assert_eq!(buffer[8], 1);
        assert_eq!(buffer[9..], TWO_ROWS[9..18]);
    }

    // ---- formats (02, Eight) ----

    #[test]
    fn both_formats_are_written() {
        for table in [example(), two_rows(), full_width(), value_of(1, 1, &[])] {
            let (first, bytes) = written_in(&table, 400);
            let other = Table { format: 2, ..table };
            let (second, other_bytes) = written_in(&other, 400);
            // "keep the bytes of format 1": all but the first
            assert_eq!(first, second);
            assert_eq!(bytes[0], 1);
            assert_eq!(other_bytes, in_format(2, &bytes));
            assert_eq!(read(&other_bytes[..second.written as usize]), Ok(other));
        }
        let kind = Table {
            format: 2,
            ..two_rows()
        };
        assert_eq!(written_in(&kind, 27), (done(27), in_format(2, &TWO_ROWS)));
        assert_eq!(written_in(&kind, 26), (refused(37), vec![0xEE; 26]));
    }

    #[test]
    fn a_format_that_is_neither_is_refused_first() {
        for format in 0..=255 {
            let neither = format != 1 && format != 2;
            let number = |other| if neither { 11 } else { other };
            let with = |table: Table| number_of(&Table { format, ..table });
            assert_eq!(with(example()), number(0));
            // ahead of 12 and of all that comes after it
            assert_eq!(with(value_of(0, 1, &[])), number(12));
            assert_eq!(with(value_of(1, 9, &[])), number(13));
            assert_eq!(with(value_of(2, 1, &[(0, 0, 0, 2)])), number(17));
            assert_eq!(with(value_of(2, 1, &[(1, 2, 0, 0); 3])), number(22));
            // and of 37
            let table = Table {
                format,
                ..example()
            };
            let expected = (refused(number(37)), vec![0xEE; 35]);
            assert_eq!(written_in(&table, 35), expected);
            assert_eq!(write_table(&table, &mut []), refused(number(37)));
        }
    }

    // ---- whole-core rows (02, Six) ----

    #[test]
    fn a_whole_core_row_is_written() {
        // tank 1, 1/1 from 0 on, one core: format, L, M and its board, n, the row
        let table = value_of(1, 1, &[(1, 1, 0, 0)]);
        let (answer, buffer) = written_in(&table, 18);
        assert_eq!(answer, done(17));
        let expected = [
            1, 1, 0, 0, 0, 1, 0, 1, //
            1, 0, 1, 0, 1, 0, 0, 0, 0, //
            0xEE,
        ];
        assert_eq!(buffer, expected);
        assert_eq!(read(&buffer[..17]), Ok(table));
        assert_eq!(written_in(&table, 16), (refused(37), vec![0xEE; 16]));
        // 65535/65535 early release from 258 on, in a cycle of 65,535
        let table = value_of(65_535, 1, &[(65535, 65535, 258, 1)]);
        let (answer, buffer) = written_in(&table, 17);
        assert_eq!(answer, done(17));
        let expected = [
            1, 255, 255, 0, 0, 1, 0, 1, //
            1, 0, 255, 255, 255, 255, 2, 1, 1,
        ];
        assert_eq!(buffer, expected);
        assert_eq!(read(&buffer), Ok(table));
    }

    #[test]
    fn whole_core_rows_that_are_refused() {
        // e above p, also above p = 0; e = p = 0 is without a cost
        assert_eq!(number_of(&value_of(1, 1, &[(2, 1, 0, 0)])), 18);
        assert_eq!(number_of(&value_of(1, 1, &[(1, 0, 0, 0)])), 18);
        assert_eq!(number_of(&value_of(1, 1, &[(0, 0, 0, 0)])), 17);
        // 2/2 in a cycle of 3
        assert_eq!(number_of(&value_of(3, 1, &[(2, 2, 0, 0)])), 19);
        // one on one core, two on two, three on two; 22 goes before 37
        assert_eq!(number_of(&value_of(1, 2, &[(1, 1, 0, 0); 2])), 0);
        let three = value_of(1, 2, &[(1, 1, 0, 0); 3]);
        assert_eq!(number_of(&three), 22);
        assert_eq!(write_table(&three, &mut []), refused(22));
        let two = value_of(1, 2, &[(1, 1, 0, 0); 2]);
        assert_eq!(write_table(&two, &mut []), refused(37));
    }

    // ---- the buffer ----

    #[test]
    fn room_for_exactly_the_bytes_needed() {
        for length in 0..60 {
            let (answer, buffer) = written_in(&example(), length);
            if length < 36 {
                assert_eq!(answer, refused(37), "length {}", length);
                assert_eq!(buffer, vec![0xEE; length]);
            } else {
                assert_eq!(answer, done(36), "length {}", length);
                assert_eq!(buffer[..36], EXAMPLE);
                assert_eq!(buffer[36..], vec![0xEE; length - 36][..]);
            }
        }
    }

    #[test]
    fn the_bytes_needed_for_each_m_and_n() {
        // format 1, cycle 4, cores 1 + M, rows 1 + 9n; rows of 1/32 fit on one core
        for cores in 1..=8u8 {
            for n in 0..=32 {
                let table = value_of(32, cores, &vec![(1, 32, 0, 0); n]);
                let needed = 1 + 4 + (1 + usize::from(cores)) + (1 + 9 * n);
                let (answer, buffer) = written_in(&table, needed - 1);
                assert_eq!(answer, refused(37), "M {}, n {}", cores, n);
                assert_eq!(buffer, vec![0xEE; needed - 1]);
                let (answer, buffer) = written_in(&table, needed);
                assert_eq!(answer, done(needed as u64), "M {}, n {}", cores, n);
                assert_eq!(read(&buffer), Ok(table));
                let (answer, buffer) = written_in(&table, needed + 1);
                assert_eq!(answer, done(needed as u64), "M {}, n {}", cores, n);
                assert_eq!(buffer[needed], 0xEE);
            }
        }
    }

    #[test]
    fn a_shorter_table_over_a_longer_one() {
        let mut buffer = [0xEE; 40];
        assert_eq!(write_table(&example(), &mut buffer), done(36));
        assert_eq!(write_table(&value_of(258, 3, &[]), &mut buffer), done(10));
        assert_eq!(buffer[..10], [1, 2, 1, 0, 0, 3, 0, 1, 2, 0]);
        assert_eq!(buffer[10..36], EXAMPLE[10..]);
        assert_eq!(buffer[36..], [0xEE; 4]);
        // a refused one over both
        let before = buffer;
        assert_eq!(write_table(&full_width(), &mut buffer), refused(37));
        assert_eq!(buffer, before);
        assert_eq!(write_table(&Table::zero(), &mut buffer), refused(11));
        assert_eq!(buffer, before);
    }

    #[test]
    fn no_buffer_at_all() {
        assert_eq!(write_table(&example(), &mut []), refused(37));
        assert_eq!(write_table(&value_of(1, 1, &[]), &mut []), refused(37));
        assert_eq!(write_table(&value_of(0, 1, &[]), &mut []), refused(12));
        assert_eq!(write_table(&Table::zero(), &mut []), refused(11));
    }

    // ---- the refusals ----

    #[test]
    fn refused_for_the_cycle() {
        let none = value_of(1, 1, &[]);
        assert_eq!(number_of(&none), 0);
        assert_eq!(number_with(&none, &|t| t.cycle = 1_000_000), 0);
        for cycle in [0, 1_000_001, 16_777_216, u32::MAX] {
            assert_eq!(number_with(&none, &|t| t.cycle = cycle), 12);
        }
    }

    #[test]
    fn refused_for_the_cores() {
        let mut none = value_of(1, 1, &[]);
        none.boards = [0, 1, 2, 3, 4, 5, 6, 255];
        for cores in 0..=255 {
            let expected = if cores >= 1 && cores <= 8 { 0 } else { 13 };
            assert_eq!(number_with(&none, &|t| t.cores = cores), expected);
        }
    }

    #[test]
    fn refused_for_the_boards() {
        let table = two_rows();
        assert_eq!(number_with(&table, &|t| t.boards[1] = 4), 14);
        assert_eq!(number_with(&table, &|t| t.boards[1] = 3), 14);
        assert_eq!(number_with(&table, &|t| t.boards[1] = 5), 0);
        assert_eq!(number_with(&table, &|t| t.boards[0] = 0), 0);
        assert_eq!(number_with(&table, &|t| t.boards[0] = 9), 14);
        // the last of eight
        let table = full_width();
        assert_eq!(number_with(&table, &|t| t.boards[7] = 255), 0);
        assert_eq!(number_with(&table, &|t| t.boards[7] = 6), 14);
    }

    #[test]
    fn refused_for_the_count() {
        let table = full_width();
        assert_eq!(number_of(&table), 0);
        for count in 0..=255 {
            let expected = if count <= 32 { 0 } else { 15 };
            assert_eq!(number_with(&table, &|t| t.count = count), expected);
        }
    }

    #[test]
    fn refused_for_the_tanks() {
        let table = two_rows();
        assert_eq!(number_with(&table, &|t| t.rows[1].tank = 10), 16);
        assert_eq!(number_with(&table, &|t| t.rows[1].tank = 0), 16);
        assert_eq!(number_with(&table, &|t| t.rows[1].tank = 11), 0);
        assert_eq!(number_with(&table, &|t| t.rows[1].tank = 65535), 0);
        assert_eq!(number_with(&table, &|t| t.rows[0].tank = 256), 16);
        // "0 is a tank like any other", and the first has none before it
        assert_eq!(number_with(&table, &|t| t.rows[0].tank = 0), 0);
    }

    #[test]
    fn refused_for_cost_and_period() {
        let with = |e, p| {
            number_with(&two_rows(), &|t| {
                t.rows[1].cost = e;
                t.rows[1].period = p;
            })
        };
        for p in [0, 1, 4, 65535] {
            assert_eq!(with(0, p), 17);
        }
        for (e, p) in [(1, 0), (65535, 0), (2, 1), (5, 4), (65535, 65534)] {
            assert_eq!(with(e, p), 18);
        }
        // 12 has the divisors 1, 2, 3, 4, 6 and 12
        for p in [5, 7, 8, 9, 10, 11, 13, 24, 65535] {
            assert_eq!(with(1, p), 19);
            assert_eq!(with(p, p), 19);
        }
        // with 1/3 beside it there is room for a whole core
        for p in [1, 2, 3, 4, 6, 12] {
            assert_eq!(with(1, p), 0);
            assert_eq!(with(p, p), 0);
            assert_eq!(with(p + 1, p), 18);
        }
    }

    #[test]
    fn refused_for_the_kind() {
        for kind in 0..=255 {
            let expected = if kind <= 1 { 0 } else { 20 };
            for row in 0..2 {
                let change = |t: &mut Table| t.rows[row].kind = kind;
                assert_eq!(number_with(&two_rows(), &change), expected);
            }
        }
        assert_eq!(number_with(&full_width(), &|t| t.rows[31].kind = 2), 20);
    }

    #[test]
    fn refused_for_the_sum() {
        // "Three rows 2/3 on two cores: 6 of 6, taken. A fourth row of 1/3: 22."
        let mut rows = vec![(2, 3, 0, 0); 3];
        assert_eq!(number_of(&value_of(3, 2, &rows)), 0);
        rows.push((1, 3, 0, 0));
        assert_eq!(number_of(&value_of(3, 2, &rows)), 22);
        assert_eq!(number_of(&value_of(3, 3, &rows)), 0);
        // 13 of 12
        assert_eq!(number_with(&two_rows(), &|t| t.cores = 1), 22);
        // the last of 32 rows counts
        assert_eq!(number_with(&full_width(), &|t| t.rows[31].cost = 2), 22);
        assert_eq!(number_with(&full_width(), &|t| t.cores = 7), 22);
    }

    // ---- their order ----

    /// A table with everything amiss, and what mends one fault after the other: the number before
    /// each. At the end it is without fault and needs 1 + 4 + 3 + 28 = 36 bytes.
    fn mended_one_by_one() -> Vec<(u8, Table)> {
        let mut table = value_of(0, 9, &[(1, 2, 0, 0), (0, 0, 0, 2), (5, 6, 0, 0)]);
        table.format = 3;
        table.boards = [7; 8];
        table.count = 33;
        table.rows[0].tank = 5;
        table.rows[1].tank = 5;
        table.rows[2].tank = 6;
        // 1·3 + 5·1 + 5·1 = 13 of 12, then 12 of 12
        let mends: [(u8, &dyn Fn(&mut Table)); 12] = [
            (11, &|t| t.format = 2),
            (12, &|t| t.cycle = 6),
            (13, &|t| t.cores = 2),
            (14, &|t| t.boards[1] = 8),
            (15, &|t| t.count = 3),
            (16, &|t| t.rows[1].tank = 6),
            (17, &|t| t.rows[1].cost = 5),
            (18, &|t| t.rows[1].period = 8),
            (19, &|t| t.rows[1].period = 6),
            (20, &|t| t.rows[1].kind = 1),
            // row 2 comes after row 1
            (16, &|t| t.rows[2].tank = 7),
            (22, &|t| t.rows[1].cost = 4),
        ];
        let mut steps = Vec::new();
        for &(number, mend) in &mends {
            steps.push((number, table));
            mend(&mut table);
        }
        steps.push((0, table));
        steps
    }

    #[test]
    fn the_first_fault_in_reading_order_is_answered_then_the_sum_then_the_room() {
        for (number, table) in mended_one_by_one() {
            for length in [0, 1, 35, 36, 37, 400] {
                let (answer, buffer) = written_in(&table, length);
                if number != 0 {
                    assert_eq!(answer, refused(number), "length {}", length);
                } else if length < 36 {
                    assert_eq!(answer, refused(37), "length {}", length);
                } else {
                    assert_eq!(answer, done(36));
                    continue;
                }
                assert_eq!(buffer, vec![0xEE; length]);
            }
        }
    }

    #[test]
    fn an_earlier_row_goes_before_a_later_one() {
        let table = two_rows();
        // each fault of row 0 before the first of row 1
        let spoilt = |change: &dyn Fn(&mut Table)| {
            number_with(&table, &|t| {
                t.rows[1].tank = 0;
                change(t);
            })
        };
        assert_eq!(spoilt(&|t| t.rows[0].cost = 0), 17);
        assert_eq!(spoilt(&|t| t.rows[0].cost = 4), 18);
        assert_eq!(spoilt(&|t| t.rows[0].period = 5), 19);
        assert_eq!(spoilt(&|t| t.rows[0].kind = 2), 20);
        assert_eq!(spoilt(&|t| t.cores = 1), 16);
    }

    #[test]
    fn a_wild_count_goes_before_what_it_counts() {
        let mut table = two_rows();
        table.boards = [9; 8];
        table.rows = [Row::zero(); 32];
        for count in [33, 255] {
            table.count = count;
            for cores in [0, 9, 255] {
                table.cores = cores;
                assert_eq!(number_of(&table), 13);
            }
            table.cores = 2;
            assert_eq!(number_of(&table), 14);
            table.cores = 1;
            assert_eq!(number_of(&table), 15);
        }
    }

    #[test]
    fn wild_values_are_stood() {
        let row = Row {
            tank: u16::MAX,
            cost: u16::MAX,
            period: u16::MAX,
            phase: u16::MAX,
            kind: u8::MAX,
        };
        let wild = Table {
            format: u8::MAX,
            cycle: u32::MAX,
            cores: u8::MAX,
            boards: [u8::MAX; 8],
            count: u8::MAX,
            rows: [row; 32],
        };
        for length in [0, 1, 302, 303, 304] {
            for value in [wild, Table::zero()] {
                assert_eq!(written_in(&value, length).0, refused(11));
                // of a format there is the cycle is the first
                let value = Table { format: 2, ..value };
                assert_eq!(written_in(&value, length).0, refused(12));
            }
        }
    }

    // ---- the answer in plain numbers ----

    #[test]
    fn the_answer_in_bytes() {
        let bytes = |table: &Table, length| written_in(table, length).0.bytes();
        assert_eq!(bytes(&example(), 36), [0, 36, 0, 0, 0, 0, 0, 0, 0]);
        // 303 is 1·256 + 47
        assert_eq!(bytes(&full_width(), 303), [0, 47, 1, 0, 0, 0, 0, 0, 0]);
        assert_eq!(bytes(&full_width(), 302), [37, 0, 0, 0, 0, 0, 0, 0, 0]);
        assert_eq!(bytes(&Table::zero(), 400), [11, 0, 0, 0, 0, 0, 0, 0, 0]);
        let no_cycle = value_of(0, 1, &[]);
        assert_eq!(bytes(&no_cycle, 400), [12, 0, 0, 0, 0, 0, 0, 0, 0]);
    }

    // ---- both round trips, and the reader's numbers, over tables by chance ----

    /// Two bytes, the low one first.
    fn push_pair(bytes: &mut Vec<u8>, number: u16) {
        bytes.push((number % 256) as u8);
        bytes.push((number / 256) as u8);
    }

    /// 01's table in bytes, part after part. Of a wild M or n the reader sees no more than the
    /// count.
    fn bytes_by_hand(table: &Table) -> Vec<u8> {
        let mut bytes = vec![table.format];
        push_pair(&mut bytes, (table.cycle % 65_536) as u16);
        push_pair(&mut bytes, (table.cycle / 65_536) as u16);
        bytes.push(table.cores);
        for m in 0..8 {
            if m < table.cores {
                bytes.push(table.boards[usize::from(m)]);
            }
        }
        bytes.push(table.count);
        for n in 0..32 {
            if n < table.count {
                let row = &table.rows[usize::from(n)];
                push_pair(&mut bytes, row.tank);
                push_pair(&mut bytes, row.cost);
                push_pair(&mut bytes, row.period);
                push_pair(&mut bytes, row.phase);
                bytes.push(row.kind);
            }
        }
        bytes
    }

    /// A table without fault, of either format, with boards, tanks and phases by chance, and more
    /// cores at times.
    fn sound(chance: &mut Chance) -> Table {
        let mut table = table_by_chance(chance);
        table.cores += chance.below(5) as u8;
        let mut board = chance.below(8) as u8;
        for m in 0..usize::from(table.cores) {
            table.boards[m] = board;
            board += 1 + chance.below(30) as u8;
        }
        let mut tank = chance.below(1_000) as u16;
        for n in 0..usize::from(table.count) {
            table.rows[n].tank = tank;
            tank += 1 + chance.below(2_000) as u16;
            if chance.below(2) == 0 {
                table.rows[n].phase = chance.below(65_536) as u16;
            }
        }
        table
    }

    #[test]
    fn what_is_written_reads_back_as_the_same_table() {
        let mut chance = Chance(0x02_0005);
        for _ in 0..500 {
            let table = sound(&mut chance);
            let (answer, buffer) = written_in(&with_rubbish(&table), 400);
            let length = 7 + usize::from(table.cores) + 9 * usize::from(table.count);
            assert_eq!(answer, done(length as u64));
            // in all places below n and M; past them the reader has 0
            assert_eq!(read(&buffer[..length]), Ok(table));
            assert_eq!(buffer[..length], bytes_by_hand(&table)[..]);
            assert!(buffer[length..].iter().all(|&byte| byte == 0xEE));
        }
    }

    #[test]
    fn what_reads_back_and_is_written_gives_the_same_bytes() {
        let mut chance = Chance(0x02_0006);
        let mut taken = 0;
        for _ in 0..20_000 {
            // a byte by chance in a table without fault; often the reader takes it still
            let mut bytes = bytes_by_hand(&sound(&mut chance));
            let at = chance.below(bytes.len() as u64) as usize;
            bytes[at] = chance.below(256) as u8;
            if let Ok(table) = read(&bytes) {
                let (answer, buffer) = written_in(&table, bytes.len());
                assert_eq!(answer, done(bytes.len() as u64));
                assert_eq!(buffer, bytes);
                taken += 1;
            }
        }
        assert!(taken > 2_000, "{}", taken);
    }

    /// One number of the table changed, near its borders or wild.
    fn spoil(table: &mut Table, chance: &mut Chance) {
        let wild = chance.below(65_536) as u16;
        let m = chance.below(8) as usize;
        // mostly a row that counts
        let row = chance.below(u64::from(table.count.min(31)) + 1) as usize;
        let row = &mut table.rows[row];
        match chance.below(12) {
            0 => table.cycle = [0, 1, 1_000_000, 1_000_001][usize::from(wild % 4)],
            1 => table.cycle += u32::from(wild),
            2 => table.cores = [0, 1, 8, 9, 255][usize::from(wild % 5)],
            3 => table.boards[m] = wild as u8,
            4 => table.count = [0, 32, 33, 255][usize::from(wild % 4)],
            5 => row.tank = wild,
            6 => row.cost = 0,
            // one less than p, p, one more
            7 => row.cost = row.period.saturating_add(wild % 3).saturating_sub(1),
            8 => row.period = [0, 1, 7, wild][usize::from(wild % 4)],
            9 => row.kind = wild as u8 % 3,
            10 => row.phase = wild,
            _ => table.format = wild as u8 % 4,
        }
    }

    #[test]
    fn a_table_that_the_reader_would_refuse_is_refused_with_that_number() {
        let mut chance = Chance(0x02_0007);
        let mut numbers = [0; 38];
        for _ in 0..20_000 {
            let mut table = sound(&mut chance);
            for _ in 0..1 + chance.below(3) {
                spoil(&mut table, &mut chance);
            }
            let bytes = bytes_by_hand(&table);
            // a buffer near the bytes needed
            let length = (bytes.len() as u64 + chance.below(9)).saturating_sub(4) as usize;
            let before: Vec<u8> = (0..length).map(|_| chance.below(256) as u8).collect();
            let mut buffer = before.clone();
            let answer = write_table(&table, &mut buffer);
            let expected = match read(&bytes) {
                Err(number) => refused(number),
                Ok(_) if length < bytes.len() => refused(37),
                Ok(_) => done(bytes.len() as u64),
            };
            assert_eq!(answer, expected);
            let after = if expected.number == 0 {
                [&bytes[..], &before[bytes.len()..]].concat()
            } else {
                before
            };
            assert_eq!(buffer, after);
            numbers[usize::from(expected.number)] += 1;
        }
        for number in [0, 11, 12, 13, 14, 15, 16, 17, 18, 19, 20, 22, 37] {
            assert!(numbers[number] > 100, "{}: {}", number, numbers[number]);
        }
    }
}
