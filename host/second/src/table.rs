//! The table, in bytes.
//!
//! "Reading goes from the front. A field is tested as soon as its bytes are there, a row once
//! all its nine are, and then in the order of the numbers below; after the last row come 21,
//! then 22; the first fault met is answered."
//!
//! There are two formats. 02, Eight: "Tables of format 2 keep the bytes of format 1 but end PD2's
//! order differently". So they are read, judged and written alike; what parts them is in `slot`.

/// "A row: tank (2, rising strictly from row to row; 0 is a tank like any other), e (2), p (2),
/// f (2; 0 is a phase), kind (1: 0 plain, 1 early release)."
#[derive(Clone, Copy, PartialEq, Eq, Debug)]
pub struct Row {
    pub tank: u16,
    /// e
    pub cost: u16,
    /// p
    pub period: u16,
    /// f
    pub phase: u16,
    /// 0 plain, 1 early release
    pub kind: u8,
}

/// A table value. "A table that is taken has 0 in every place past n and past M."
#[derive(Clone, Copy, PartialEq, Eq, Debug)]
pub struct Table {
    /// 1, or since 02, Eight 2: how the order ends
    pub format: u8,
    /// L
    pub cycle: u32,
    /// M
    pub cores: u8,
    pub boards: [u8; 8],
    /// n
    pub count: u8,
    pub rows: [Row; 32],
}

impl Row {
    pub fn zero() -> Row {
        Row {
            tank: 0,
            cost: 0,
            period: 0,
            phase: 0,
            kind: 0,
        }
    }

    /// "kind (1: 0 plain, 1 early release)". A table with another kind has a fault; the questions
    /// alone ask of such rows, and "any other kind is plain" there.
    pub fn early_release(&self) -> bool {
        // slip: any kind above 0 is early release
        if cfg!(slip = "kinds_above_1_early") {
            return self.kind > 0;
        }
        self.kind == 1
    }
}

impl Table {
    pub fn zero() -> Table {
        Table {
            format: 0,
            cycle: 0,
            cores: 0,
            boards: [0; 8],
            count: 0,
            rows: [Row::zero(); 32],
        }
    }

    /// The rows 0 to n-1. "Places past row n ... are ignored." (A wild n is cut at 32.)
    pub fn named_rows(&self) -> &[Row] {
        let n = usize::from(self.count).min(self.rows.len());
        &self.rows[..n]
    }
}

// ---- the tests of single fields, each with its number ----

/// 11: 01 has "format is not 1"; 02, Eight: "11 means neither 1 nor 2"
fn test_format(format: u8) -> Result<(), u8> {
    if format != 1 && format != 2 {
        return Err(11);
    }
    Ok(())
}

/// 12: "L outside 1 to 1,000,000"
fn test_cycle(cycle: u32) -> Result<(), u8> {
    if cycle < 1 || cycle > 1_000_000 {
        return Err(12);
    }
    Ok(())
}

/// 13: "M outside 1 to 8"
fn test_cores(cores: u8) -> Result<(), u8> {
    if cores < 1 || cores > 8 {
        return Err(13);
    }
    Ok(())
}

/// 14: "board numbers not rising" (strictly). The first board has none before it.
fn test_board(before: Option<u8>, board: u8) -> Result<(), u8> {
    match before {
        Some(last) if board <= last => Err(14),
        _ => Ok(()),
    }
}

/// 15: "n above 32"
fn test_count(count: u8) -> Result<(), u8> {
    if count > 32 {
        return Err(15);
    }
    Ok(())
}

/// A row's faults, "in the order of the numbers".
fn test_row(before: Option<u16>, row: &Row, cycle: u32) -> Result<(), u8> {
    // 16: "tanks not rising" (strictly from row to row)
    if let Some(last) = before {
        if row.tank <= last {
            return Err(16);
        }
    }
    // 17: "e = 0"
    if row.cost == 0 {
        return Err(17);
    }
    // 18: 01's "e not below p", narrowed by 02, Six
    if above_its_period(row) {
        return Err(18);
    }
    // 19: "p does not divide L" (p is at least e here, and e at least 1)
    if cycle % u32::from(row.period) != 0 {
        return Err(19);
    }
    // 20: "kind above 1"
    if row.kind > 1 {
        return Err(20);
    }
    Ok(())
}

/// 02, Six: "The new camera link needs e = p. From then on 18 means e above p." (Where p = 0, every
/// e but 0, which is 17, is above it.)
fn above_its_period(row: &Row) -> bool {
    // slip: e = p is still refused
    if cfg!(slip = "whole_core_refused") {
        return row.cost >= row.period;
    }
    row.cost > row.period
}

/// 22: "The sum of e·(L/p) is at most M·L." Whole numbers; L/p leaves no rest. 02, Six: "the sum
/// test included"; a row with e = p has L of the M·L.
#[cfg(not(slip = "weights_in_floats"))]
fn test_sum(table: &Table) -> Result<(), u8> {
    let cycle = u64::from(table.cycle);
    let mut sum: u64 = 0;
    for row in table.named_rows() {
        sum += u64::from(row.cost) * (cycle / u64::from(row.period));
    }
    if sum > u64::from(table.cores) * cycle {
        return Err(22);
    }
    Ok(())
}

/// slip: the weights e/p added up in floats, row after row, and held against M
#[cfg(slip = "weights_in_floats")]
fn test_sum(table: &Table) -> Result<(), u8> {
    let mut sum: f32 = 0.0;
    for row in table.named_rows() {
        sum += f32::from(row.cost) / f32::from(row.period);
    }
    if sum > f32::from(table.cores) {
        return Err(22);
    }
    Ok(())
}

// ---- reading bytes ----

/// Takes the next `length` bytes, or 10: "table ends inside a field or row".
fn take<'a>(rest: &mut &'a [u8], length: usize) -> Result<&'a [u8], u8> {
    if rest.len() < length {
        return Err(10);
    }
    let (taken, left) = rest.split_at(length);
    *rest = left;
    Ok(taken)
}

/// Two bytes, little-endian, of a row already taken.
fn pair(bytes: &[u8], at: usize) -> u16 {
    u16::from_le_bytes([bytes[at], bytes[at + 1]])
}

/// Reads a table from its bytes; `Err` is the refusal's number, 10 to 22.
pub fn read(bytes: &[u8]) -> Result<Table, u8> {
    let mut rest = bytes;
    let mut table = Table::zero();

    // "format, 1", or 2, which keeps "the bytes of format 1" (02, Eight)
    table.format = take(&mut rest, 1)?[0];
    // slip: format 2 is still refused
    if cfg!(slip = "format_2_refused") && table.format == 2 {
        return Err(11);
    }
    test_format(table.format)?;

    // "cycle L, 1 to 1,000,000": 4 bytes
    let cycle = take(&mut rest, 4)?;
    table.cycle = u32::from_le_bytes([cycle[0], cycle[1], cycle[2], cycle[3]]);
    test_cycle(table.cycle)?;

    // "core count M, 1 to 8, then M board numbers rising strictly, each a field"
    table.cores = take(&mut rest, 1)?[0];
    test_cores(table.cores)?;
    let mut last_board = None;
    for m in 0..usize::from(table.cores) {
        let board = take(&mut rest, 1)?[0];
        test_board(last_board, board)?;
        table.boards[m] = board;
        last_board = Some(board);
    }

    // "row count n, 0 to 32, then n rows"
    table.count = take(&mut rest, 1)?[0];
    test_count(table.count)?;
    let mut last_tank = None;
    for n in 0..usize::from(table.count) {
        let nine = take(&mut rest, 9)?;
        let row = Row {
            tank: pair(nine, 0),
            cost: pair(nine, 2),
            period: pair(nine, 4),
            phase: pair(nine, 6),
            kind: nine[8],
        };
        test_row(last_tank, &row, table.cycle)?;
        table.rows[n] = row;
        last_tank = Some(row.tank);
    }

    // "after the last row come 21, then 22"
    if !rest.is_empty() {
        return Err(21);
    }
    test_sum(&table)?;
    Ok(table)
}

// ---- writing bytes ----

/// The bytes a table value is read from, unjudged; a wild format is written as it is. (A wild M is
/// cut at 8, a wild n at 32.) Judged, and in a lent buffer, they are written by
/// `writing::write_table`.
pub fn write(table: &Table) -> Vec<u8> {
    let mut bytes = vec![table.format];
    bytes.extend_from_slice(&table.cycle.to_le_bytes());
    bytes.push(table.cores);
    bytes.extend(table.boards.iter().take(usize::from(table.cores)));
    bytes.push(table.count);
    for row in table.named_rows() {
        for number in [row.tank, row.cost, row.period, row.phase] {
            bytes.extend_from_slice(&number.to_le_bytes());
        }
        bytes.push(row.kind);
    }
    bytes
}

// ---- judging a table value ----

/// The fault 11 to 20 or 22 that any table value has, first met in reading order, else 0.
/// "Places past row n, and board numbers past M, are ignored." 11 is there since 02, Eight made the
/// format a part of the value; it goes "ahead of 12", as in reading.
pub fn fault(table: &Table) -> u8 {
    match faultless(table) {
        Ok(()) => 0,
        Err(number) => number,
    }
}

fn faultless(table: &Table) -> Result<(), u8> {
    // slip: format 0, which a value without a table has, is no fault
    if !cfg!(slip = "format_0_taken") || table.format != 0 {
        test_format(table.format)?;
    }
    test_cycle(table.cycle)?;
    test_cores(table.cores)?;
    let mut last_board = None;
    for board in table.boards.iter().take(usize::from(table.cores)) {
        test_board(last_board, *board)?;
        last_board = Some(*board);
    }
    test_count(table.count)?;
    let mut last_tank = None;
    for row in table.named_rows() {
        test_row(last_tank, row, table.cycle)?;
        last_tank = Some(row.tank);
    }
    test_sum(table)
}

#[cfg(test)]
pub(crate) mod tests {
    use super::*;

    /// 01's example table (36 bytes): three rows 2/3, tanks 10, 11, 20, boards 0 and 1.
    pub(crate) const EXAMPLE: [u8; 36] = [
        0x01, 0x03, 0x00, 0x00, 0x00, 0x02, 0x00, 0x01, 0x03, //
        0x0A, 0x00, 0x02, 0x00, 0x03, 0x00, 0x00, 0x00, 0x00, //
        0x0B, 0x00, 0x02, 0x00, 0x03, 0x00, 0x00, 0x00, 0x00, //
        0x14, 0x00, 0x02, 0x00, 0x03, 0x00, 0x00, 0x00, 0x00,
    ];

    /// The bytes of a table of format 1 with boards 0 to M-1 and rows (tank, e, p, f, kind),
    /// unjudged.
    pub(crate) fn bytes_of(cycle: u32, cores: u8, rows: &[(u16, u16, u16, u16, u8)]) -> Vec<u8> {
        let mut bytes = vec![1];
        bytes.extend_from_slice(&cycle.to_le_bytes());
        bytes.push(cores);
        for board in 0..cores {
            bytes.push(board);
        }
        bytes.push(rows.len() as u8);
        for &(tank, e, p, f, kind) in rows {
            for number in [tank, e, p, f] {
                bytes.extend_from_slice(&number.to_le_bytes());
            }
            bytes.push(kind);
        }
        bytes
    }

    /// The same bytes in another format: the first byte alone.
    pub(crate) fn in_format(format: u8, bytes: &[u8]) -> Vec<u8> {
        let mut bytes = bytes.to_vec();
        bytes[0] = format;
        bytes
    }

    /// Plain and early-release rows by (e, p, f, kind), tanks 1, 2, 3 and so on, in format 2;
    /// unjudged.
    pub(crate) fn value_of_2(cycle: u32, cores: u8, rows: &[(u16, u16, u16, u8)]) -> Table {
        Table {
            format: 2,
            ..value_of(cycle, cores, rows)
        }
    }

    /// Plain and early-release rows by (e, p, f, kind), tanks 1, 2, 3 and so on, in format 1;
    /// unjudged.
    pub(crate) fn value_of(cycle: u32, cores: u8, rows: &[(u16, u16, u16, u8)]) -> Table {
        let mut table = Table::zero();
        table.format = 1;
        table.cycle = cycle;
        table.cores = cores;
        for m in 0..8u8 {
            if m < cores {
                table.boards[usize::from(m)] = m;
            }
        }
        table.count = rows.len() as u8;
        for (place, &(e, p, f, kind)) in rows.iter().enumerate() {
            table.rows[place] = Row {
                tank: place as u16 + 1,
                cost: e,
                period: p,
                phase: f,
                kind,
            };
        }
        table
    }

    fn changed(at: usize, byte: u8) -> Vec<u8> {
        let mut bytes = EXAMPLE.to_vec();
        bytes[at] = byte;
        bytes
    }

    #[test]
    fn the_example_is_taken() {
        let table = read(&EXAMPLE).unwrap();
        assert_eq!(table.format, 1);
        assert_eq!(table.cycle, 3);
        assert_eq!(table.cores, 2);
        assert_eq!(table.boards, [0, 1, 0, 0, 0, 0, 0, 0]);
        assert_eq!(table.count, 3);
        let row = |tank| Row {
            tank,
            cost: 2,
            period: 3,
            phase: 0,
            kind: 0,
        };
        assert_eq!(table.rows[0], row(10));
        assert_eq!(table.rows[1], row(11));
        assert_eq!(table.rows[2], row(20));
        for place in 3..32 {
            assert_eq!(table.rows[place], Row::zero());
        }
        assert_eq!(fault(&table), 0);
    }

    #[test]
    fn bench_35_of_36_bytes_is_10_and_one_more_is_21() {
        assert_eq!(read(&EXAMPLE[..35]), Err(10));
        let mut more = EXAMPLE.to_vec();
        more.push(0);
        assert_eq!(read(&more), Err(21));
    }

    #[test]
    fn every_shorter_part_is_10() {
        for length in 0..36 {
            assert_eq!(read(&EXAMPLE[..length]), Err(10), "length {}", length);
        }
    }

    #[test]
    fn bench_full_box_is_taken_and_a_fourth_row_is_22() {
        let mut rows = vec![(10, 2, 3, 0, 0), (11, 2, 3, 0, 0), (20, 2, 3, 0, 0)];
        assert!(read(&bytes_of(3, 2, &rows)).is_ok());
        rows.push((21, 1, 3, 0, 0));
        assert_eq!(read(&bytes_of(3, 2, &rows)), Err(22));
    }

    #[test]
    fn bench_e_1_p_1_is_taken_and_e_0_p_0_is_17() {
        // 02, Six: "the bench line for e = 1, p = 1 becomes a taken row"
        let table = read(&bytes_of(3, 2, &[(0, 1, 1, 0, 0)])).unwrap();
        let row = Row {
            tank: 0,
            cost: 1,
            period: 1,
            phase: 0,
            kind: 0,
        };
        assert_eq!(table.rows[0], row);
        assert_eq!(read(&bytes_of(3, 2, &[(0, 0, 0, 0, 0)])), Err(17));
        // 1 divides every L, and one core is enough
        for cycle in [1, 2, 3, 7, 999_983, 1_000_000] {
            for kind in 0..2 {
                assert!(read(&bytes_of(cycle, 1, &[(0, 1, 1, 65535, kind)])).is_ok());
            }
        }
    }

    #[test]
    fn e_above_p_is_18_and_e_equal_to_p_is_not() {
        let number = |e, p| read(&bytes_of(12, 8, &[(0, e, p, 0, 0)])).map(|_| ());
        for p in [1, 2, 3, 4, 6, 12] {
            assert_eq!(number(p, p), Ok(()));
            assert_eq!(number(p + 1, p), Err(18));
            assert_eq!(number(65535, p), Err(18));
        }
        // every e but 0 is above p = 0; nothing is divided by it
        assert_eq!(number(1, 0), Err(18));
        assert_eq!(number(65535, 0), Err(18));
        assert_eq!(number(0, 0), Err(17));
        assert_eq!(number(0, 1), Err(17));
        // e = p that does not divide L
        for p in [5, 7, 13, 24, 65535] {
            assert_eq!(number(p, p), Err(19));
            assert_eq!(number(p, p - 1), Err(18));
        }
    }

    #[test]
    fn whole_core_rows_fill_the_cores() {
        let taken = |cycle, cores, fractions: &[(u16, u16)]| {
            let mut rows = Vec::new();
            for &(e, p) in fractions {
                rows.push((rows.len() as u16, e, p, 0, 0));
            }
            read(&bytes_of(cycle, cores, &rows)).map(|table| table.count)
        };
        // each has L of the M·L
        assert_eq!(taken(1, 1, &[(1, 1)]), Ok(1));
        assert_eq!(taken(3, 1, &[(1, 1)]), Ok(1));
        assert_eq!(taken(3, 2, &[(1, 1), (1, 1)]), Ok(2));
        assert_eq!(taken(3, 2, &[(1, 1), (1, 1), (1, 1)]), Err(22));
        assert_eq!(taken(6, 3, &[(1, 1), (2, 2), (6, 6)]), Ok(3));
        assert_eq!(taken(6, 2, &[(1, 1), (2, 2), (6, 6)]), Err(22));
        assert_eq!(taken(1, 8, &[(1, 1); 8]), Ok(8));
        assert_eq!(taken(1, 8, &[(1, 1); 9]), Err(22));
        assert_eq!(taken(1, 8, &[(1, 1); 32]), Err(22));
        // beside others: 12 + 4 + 8 = 24 of 24, and 1 more
        assert_eq!(taken(12, 2, &[(4, 4), (1, 3), (2, 3)]), Ok(3));
        assert_eq!(taken(12, 2, &[(4, 4), (1, 3), (2, 3), (1, 12)]), Err(22));
        // the largest; 1,000,000 is 15·65,535 + 16,975
        assert_eq!(taken(65_535, 1, &[(65535, 65535)]), Ok(1));
        assert_eq!(taken(983_025, 1, &[(65535, 65535)]), Ok(1));
        assert_eq!(taken(65_535, 1, &[(65535, 65535), (1, 65535)]), Err(22));
        assert_eq!(taken(65_535, 2, &[(65535, 65535), (65535, 65535)]), Ok(2));
    }

    #[test]
    fn format() {
        assert_eq!(read(&[]), Err(10));
        for format in 0..=255 {
            let neither = format != 1 && format != 2;
            assert_eq!(read(&changed(0, format)).is_ok(), !neither);
            // tested as soon as its byte is there
            assert_eq!(read(&[format]), Err(if neither { 11 } else { 10 }));
            // ahead of 12, and of all that comes after it
            let all_0 = [format, 0, 0, 0, 0, 0, 0, 0];
            assert_eq!(read(&all_0), Err(if neither { 11 } else { 12 }));
        }
    }

    // ---- format 2 (02, Eight) ----

    #[test]
    fn format_2_keeps_the_bytes_of_format_1() {
        let table = read(&changed(0, 2)).unwrap();
        assert_eq!(table.format, 2);
        // in all else it is the example
        let example = read(&EXAMPLE).unwrap();
        assert_eq!(Table { format: 1, ..table }, example);
        assert_eq!(fault(&table), 0);
        assert_eq!(write(&table), changed(0, 2));
    }

    #[test]
    fn format_2_is_refused_where_format_1_is() {
        let alike = |bytes: &[u8]| {
            let expected = read(&in_format(1, bytes)).map(|table| Table { format: 2, ..table });
            assert_eq!(read(&in_format(2, bytes)), expected);
            expected.is_ok()
        };
        // every byte of the example but the format, changed to every other; shorter, and longer
        let mut taken = 0;
        for at in 1..36 {
            for byte in 0..=255 {
                taken += u32::from(alike(&changed(at, byte)));
            }
        }
        // tanks, phases and board numbers may be others
        assert!(taken > 1_000, "{}", taken);
        for length in 1..36 {
            assert!(!alike(&EXAMPLE[..length]));
            assert_eq!(read(&changed(0, 2)[..length]), Err(10));
        }
        let mut more = changed(0, 2);
        more.push(0);
        assert_eq!(read(&more), Err(21));
        // the sum, and a whole-core row
        let four = [
            (1, 2, 3, 0, 0),
            (2, 2, 3, 0, 0),
            (3, 2, 3, 0, 0),
            (4, 1, 3, 0, 0),
        ];
        assert_eq!(read(&in_format(2, &bytes_of(3, 2, &four))), Err(22));
        assert!(alike(&bytes_of(3, 2, &four[..3])));
        assert!(alike(&bytes_of(1, 1, &[(0, 1, 1, 0, 1)])));
    }

    #[test]
    fn a_value_s_format_is_a_fault_ahead_of_all_others() {
        let good = value_of(3, 2, &[(2, 3, 0, 0); 3]);
        for format in 0..=255 {
            let neither = format != 1 && format != 2;
            let number = |other| if neither { 11 } else { other };
            assert_eq!(fault(&Table { format, ..good }), number(0));
            assert_eq!(
                fault(&Table {
                    format,
                    cycle: 0,
                    ..good
                }),
                number(12)
            );
            assert_eq!(
                fault(&Table {
                    format,
                    cores: 200,
                    ..good
                }),
                number(13)
            );
            assert_eq!(
                fault(&Table {
                    format,
                    count: 255,
                    ..good
                }),
                number(15)
            );
            assert_eq!(
                fault(&Table {
                    format,
                    cores: 1,
                    ..good
                }),
                number(22)
            );
            assert_eq!(
                fault(&Table {
                    format,
                    ..Table::zero()
                }),
                number(12)
            );
        }
    }

    #[test]
    fn cycle_borders() {
        assert_eq!(read(&bytes_of(0, 1, &[])), Err(12));
        assert!(read(&bytes_of(1, 1, &[])).is_ok());
        assert!(read(&bytes_of(1_000_000, 1, &[])).is_ok());
        assert_eq!(read(&bytes_of(1_000_001, 1, &[])), Err(12));
        assert_eq!(read(&bytes_of(u32::MAX, 1, &[])), Err(12));
        // tested as soon as its bytes are there; three of its bytes are not enough
        assert_eq!(read(&[1, 0, 0, 0, 0]), Err(12));
        assert_eq!(read(&[1, 0, 0, 0]), Err(10));
        // little-endian: 01 00 00 00 is 1, 00 00 00 01 is 16,777,216
        assert_eq!(read(&[1, 0, 0, 0, 1]), Err(12));
    }

    #[test]
    fn core_borders() {
        assert_eq!(read(&[1, 3, 0, 0, 0, 0]), Err(13));
        assert_eq!(read(&[1, 3, 0, 0, 0, 9]), Err(13));
        assert_eq!(read(&[1, 3, 0, 0, 0, 255]), Err(13));
        assert!(read(&bytes_of(3, 1, &[])).is_ok());
        assert!(read(&bytes_of(3, 8, &[])).is_ok());
    }

    #[test]
    fn each_board_number_is_a_field() {
        assert_eq!(read(&[1, 3, 0, 0, 0, 3, 5]), Err(10));
        // the second is tested before the third is missed
        assert_eq!(read(&[1, 3, 0, 0, 0, 3, 5, 5]), Err(14));
        assert_eq!(read(&[1, 3, 0, 0, 0, 3, 5, 4]), Err(14));
        assert_eq!(read(&[1, 3, 0, 0, 0, 3, 5, 6]), Err(10));
        assert_eq!(read(&[1, 3, 0, 0, 0, 3, 5, 6, 6]), Err(14));
        assert_eq!(read(&[1, 3, 0, 0, 0, 3, 5, 6, 255]), Err(10));
        let table = read(&[1, 3, 0, 0, 0, 3, 5, 6, 255, 0]).unwrap();
        assert_eq!(table.boards, [5, 6, 255, 0, 0, 0, 0, 0]);
        assert_eq!(table.count, 0);
    }

    #[test]
    fn count_borders() {
        assert_eq!(read(&[1, 3, 0, 0, 0, 1, 0, 33]), Err(15));
        assert_eq!(read(&[1, 3, 0, 0, 0, 1, 0, 255]), Err(15));
        assert_eq!(read(&[1, 3, 0, 0, 0, 1, 0, 32]), Err(10));
        let rows: Vec<_> = (0..32).map(|tank| (tank, 1, 4, 0, 0)).collect();
        // 32 rows of 1/4 fill eight cores
        let table = read(&bytes_of(4, 8, &rows)).unwrap();
        assert_eq!(table.count, 32);
        assert_eq!(table.rows[31].tank, 31);
        assert_eq!(read(&bytes_of(4, 7, &rows)), Err(22));
    }

    #[test]
    fn tanks_rise_strictly_and_0_is_a_tank() {
        assert!(read(&bytes_of(3, 2, &[(0, 1, 3, 0, 0), (1, 1, 3, 0, 0)])).is_ok());
        assert!(read(&bytes_of(3, 2, &[(0, 1, 3, 0, 0), (65535, 1, 3, 0, 0)])).is_ok());
        assert_eq!(
            read(&bytes_of(3, 2, &[(0, 1, 3, 0, 0), (0, 1, 3, 0, 0)])),
            Err(16)
        );
        assert_eq!(
            read(&bytes_of(3, 2, &[(256, 1, 3, 0, 0), (255, 1, 3, 0, 0)])),
            Err(16)
        );
    }

    #[test]
    fn row_faults_come_in_the_order_of_their_numbers() {
        let second = |tank, e, p, kind| {
            let rows = [(5, 1, 3, 0, 0), (tank, e, p, 0, kind)];
            read(&bytes_of(6, 8, &rows)).map(|_| ())
        };
        assert_eq!(second(5, 0, 0, 9), Err(16));
        assert_eq!(second(6, 0, 0, 9), Err(17));
        assert_eq!(second(6, 1, 0, 9), Err(18));
        assert_eq!(second(6, 5, 4, 9), Err(18));
        assert_eq!(second(6, 4, 4, 9), Err(19));
        assert_eq!(second(6, 6, 6, 9), Err(20));
        assert_eq!(second(6, 6, 6, 1), Ok(()));
        assert_eq!(second(6, 1, 4, 9), Err(19));
        assert_eq!(second(6, 1, 6, 9), Err(20));
        assert_eq!(second(6, 1, 6, 2), Err(20));
        assert_eq!(second(6, 1, 6, 1), Ok(()));
        // p above L cannot divide it
        assert_eq!(second(6, 1, 12, 0), Err(19));
    }

    #[test]
    fn a_row_is_judged_once_all_its_nine_bytes_are_there() {
        let bytes = bytes_of(3, 2, &[(5, 0, 0, 0, 9)]);
        assert_eq!(read(&bytes[..bytes.len() - 1]), Err(10));
        assert_eq!(read(&bytes), Err(17));
    }

    #[test]
    fn an_earlier_row_is_judged_before_a_later_one() {
        // row 0 has 20, row 1 has 16: reading meets 20 first
        assert_eq!(
            read(&bytes_of(3, 2, &[(5, 1, 3, 0, 2), (5, 1, 3, 0, 0)])),
            Err(20)
        );
        // row 0 has 19, row 1 is cut
        let bytes = bytes_of(3, 2, &[(5, 1, 2, 0, 0), (6, 1, 3, 0, 0)]);
        assert_eq!(read(&bytes[..bytes.len() - 1]), Err(19));
    }

    #[test]
    fn bytes_after_the_last_row_come_before_the_sum() {
        let mut bytes = bytes_of(2, 1, &[(1, 1, 2, 0, 0), (2, 1, 2, 0, 0), (3, 1, 2, 0, 0)]);
        assert_eq!(read(&bytes), Err(22));
        bytes.push(0);
        assert_eq!(read(&bytes), Err(21));
        // and a row's fault before both
        bytes[16] = 2; // kind of row 0
        assert_eq!(read(&bytes), Err(20));
    }

    #[test]
    fn slip_weights_are_not_added_in_floats() {
        // 1/10 + 2/10 + 3/10 + 4/10 = 1; 49 parts of 1/49 likewise, in six rows
        let tenths = [
            (1, 1, 10, 0, 0),
            (2, 2, 10, 0, 0),
            (3, 3, 10, 0, 0),
            (4, 4, 10, 0, 0),
        ];
        assert!(read(&bytes_of(10, 1, &tenths)).is_ok());
        let parts = [
            (1, 1, 49, 0, 0),
            (2, 3, 49, 0, 0),
            (3, 5, 49, 0, 0),
            (4, 9, 49, 0, 0),
            (5, 11, 49, 0, 0),
            (6, 20, 49, 0, 0),
        ];
        assert!(read(&bytes_of(49, 1, &parts)).is_ok());
        // 2/7 + 4/7 + 1/7 = 1. In floats of 24 bits 1/7 is 9,586,981 parts of 2^26, 3/7 of a part
        // too many; 2/7 + 4/7 is a tie and goes up; the sum is 2^26 + 5 parts, and the next float
        // after 1 is 2^26 + 8
        let sevenths = [(1, 2, 7, 0, 0), (2, 4, 7, 0, 0), (3, 1, 7, 0, 0)];
        assert!(read(&bytes_of(7, 1, &sevenths)).is_ok());
        // ten rows of 1/10
        let tenth: Vec<_> = (1..=10).map(|tank| (tank, 1, 10, 0, 0)).collect();
        assert!(read(&bytes_of(10, 1, &tenth)).is_ok());
        // 28·7·21,840 + 3,971·11 = 4,324,321, one above 6·720,720; in floats it is 6
        let mut rows: Vec<_> = (1..=28).map(|tank| (tank, 7, 33, 0, 0)).collect();
        rows.push((29, 3_971, 65_520, 0, 0));
        assert_eq!(read(&bytes_of(720_720, 6, &rows)), Err(22));
        rows[28].1 = 3_970;
        assert!(read(&bytes_of(720_720, 6, &rows)).is_ok());
        // one quantum in a cycle of a million too many
        let full = [(1, 49_999, 50_000, 0, 0), (2, 1, 50_000, 0, 0)];
        assert!(read(&bytes_of(1_000_000, 1, &full)).is_ok());
        let over = [(1, 49_999, 50_000, 0, 0), (2, 2, 50_000, 0, 0)];
        assert_eq!(read(&bytes_of(1_000_000, 1, &over)), Err(22));
    }

    #[test]
    fn a_value_has_the_fault_that_reading_meets_first() {
        let good = read(&EXAMPLE).unwrap();
        let fault_with = |change: &dyn Fn(&mut Table)| {
            let mut table = good;
            change(&mut table);
            fault(&table)
        };
        assert_eq!(fault_with(&|t| t.format = 0), 11);
        assert_eq!(fault_with(&|t| t.format = 2), 0);
        assert_eq!(fault_with(&|t| t.format = 3), 11);
        assert_eq!(fault_with(&|t| t.cycle = 0), 12);
        assert_eq!(fault_with(&|t| t.cycle = 1_000_001), 12);
        assert_eq!(fault_with(&|t| t.cores = 0), 13);
        assert_eq!(fault_with(&|t| t.cores = 9), 13);
        assert_eq!(fault_with(&|t| t.cores = 200), 13);
        assert_eq!(fault_with(&|t| t.boards[1] = 0), 14);
        assert_eq!(fault_with(&|t| t.cores = 3), 14); // the third board is 0
        assert_eq!(fault_with(&|t| t.count = 33), 15);
        assert_eq!(fault_with(&|t| t.count = 255), 15);
        assert_eq!(fault_with(&|t| t.rows[1].tank = 10), 16);
        assert_eq!(fault_with(&|t| t.count = 4), 16); // row 3 has tank 0
        assert_eq!(fault_with(&|t| t.rows[2].cost = 0), 17);
        assert_eq!(fault_with(&|t| t.rows[2].cost = 4), 18);
        assert_eq!(fault_with(&|t| t.rows[2].period = 1), 18);
        assert_eq!(fault_with(&|t| t.rows[2].period = 0), 18);
        // 3/3 is a row: 2 + 2 + 3 is above 2·3, and is not above 3·3
        assert_eq!(fault_with(&|t| t.rows[2].cost = 3), 22);
        assert_eq!(
            fault_with(&|t| {
                t.rows[2].cost = 3;
                t.cores = 3;
                t.boards[2] = 2;
            }),
            0
        );
        assert_eq!(fault_with(&|t| t.cycle = 4), 19);
        assert_eq!(fault_with(&|t| t.rows[0].kind = 2), 20);
        assert_eq!(fault_with(&|t| t.rows[0].kind = 255), 20);
        assert_eq!(
            fault_with(&|t| {
                t.cores = 1;
            }),
            22
        );
        // "the order of the numbers" holds inside a row, the reading order between rows
        assert_eq!(
            fault_with(&|t| {
                t.rows[0].kind = 2;
                t.rows[1].tank = 0;
            }),
            20
        );
        assert_eq!(
            fault_with(&|t| {
                t.cycle = 0;
                t.cores = 200;
                t.count = 255;
            }),
            12
        );
        assert_eq!(fault(&Table::zero()), 11);
    }

    #[test]
    fn a_wild_count_is_a_fault_before_what_it_counts() {
        // M = 9 before boards that fall, n = 33 after them and before rows without cost
        let mut table = read(&EXAMPLE).unwrap();
        table.boards = [8, 7, 6, 5, 4, 3, 2, 1];
        table.count = 33;
        table.rows = [Row::zero(); 32];
        table.cores = 9;
        assert_eq!(fault(&table), 13);
        table.cores = 8;
        assert_eq!(fault(&table), 14);
        table.boards = [1, 2, 3, 4, 5, 6, 7, 7];
        assert_eq!(fault(&table), 14);
        table.boards[7] = 8;
        assert_eq!(fault(&table), 15);
        table.count = 32;
        assert_eq!(fault(&table), 17);
        table.count = 0;
        assert_eq!(fault(&table), 0);
    }

    #[test]
    fn the_last_of_32_rows_counts() {
        // 32 rows of 1/4 fill eight cores of 4 slots
        let mut table = value_of(4, 8, &[(1, 4, 0, 1); 32]);
        assert_eq!(fault(&table), 0);
        table.rows[31].kind = 2;
        assert_eq!(fault(&table), 20);
        table.rows[31].kind = 0;
        table.rows[31].cost = 2;
        assert_eq!(fault(&table), 22);
        table.rows[31].tank = 31;
        assert_eq!(fault(&table), 16);
        table.count = 31;
        assert_eq!(fault(&table), 0);
    }

    #[test]
    fn places_past_n_and_past_m_are_ignored() {
        let mut table = read(&EXAMPLE).unwrap();
        table.boards[2] = 0;
        table.boards[7] = 255;
        for place in 3..32 {
            table.rows[place] = Row {
                tank: 0,
                cost: 9,
                period: 0,
                phase: 1,
                kind: 77,
            };
        }
        assert_eq!(fault(&table), 0);
    }

    #[test]
    fn writing_a_table_value() {
        assert_eq!(write(&read(&EXAMPLE).unwrap()), EXAMPLE);
        // boards 3 and 200; tank 0x0102, 0x0304/0x0506, phase 0x0708, early release; what stands
        // past M and past n is not written
        let mut table = value_of(0x0102_0304, 2, &[(0x0304, 0x0506, 0x0708, 1)]);
        table.boards = [3, 200, 9, 9, 9, 9, 9, 9];
        table.rows[0].tank = 0x0102;
        table.rows[1].tank = 7;
        let expected = [
            1, 0x04, 0x03, 0x02, 0x01, 2, 3, 200, 1, //
            0x02, 0x01, 0x04, 0x03, 0x06, 0x05, 0x08, 0x07, 1,
        ];
        assert_eq!(write(&table), expected);
        // the format in front, whatever it is
        for format in [0, 2, 3, 255] {
            let other = Table { format, ..table };
            assert_eq!(write(&other), in_format(format, &expected));
        }
        // wild M and n: all that is there
        table.cores = 255;
        table.count = 255;
        assert_eq!(write(&table).len(), 1 + 4 + 1 + 8 + 1 + 9 * 32);
    }

    #[test]
    fn a_table_that_is_taken_is_a_value_without_fault_and_reads_back() {
        let tables = [
            value_of(3, 2, &[(2, 3, 0, 0), (2, 3, 5, 1), (2, 3, 65535, 0)]),
            value_of(1, 8, &[]),
            value_of(1_000_000, 1, &[(1, 50_000, 9, 1)]),
            value_of(1, 1, &[(1, 1, 0, 0)]),
            value_of(6, 3, &[(1, 1, 0, 1), (6, 6, 5, 0), (2, 3, 0, 0)]),
            value_of_2(3, 2, &[(2, 3, 0, 0), (2, 3, 5, 1), (2, 3, 65535, 0)]),
            value_of_2(1, 8, &[]),
        ];
        for table in tables {
            assert_eq!(fault(&table), 0);
            assert_eq!(read(&write(&table)), Ok(table));
        }
    }
}
