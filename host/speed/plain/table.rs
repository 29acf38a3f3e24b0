//! The table: its reader, and the fault of a table value.

#[derive(Clone, Copy, Default, PartialEq, Eq, Debug)]
pub struct Row {
    pub tank: u16,
    pub cost: u16,
    pub period: u16,
    pub phase: u16,
    pub kind: u8,
}

#[derive(Clone, Copy, Default, PartialEq, Eq, Debug)]
pub struct Table {
    pub format: u8,
    pub cycle: u32,
    pub cores: u8,
    pub boards: [u8; 8],
    pub count: u8,
    pub rows: [Row; 32],
}

impl Table {
    /// The rows below n. A wild n is cut at 32.
    pub fn named(&self) -> &[Row] {
        &self.rows[..usize::from(self.count).min(32)]
    }
}

/// The bytes that are left to read.
struct Rest<'a>(&'a [u8]);

impl<'a> Rest<'a> {
    fn take(&mut self, length: usize) -> Result<&'a [u8], u8> {
        if self.0.len() < length {
            return Err(10);
        }
        let (taken, left) = self.0.split_at(length);
        self.0 = left;
        Ok(taken)
    }

    fn byte(&mut self) -> Result<u8, u8> {
        Ok(self.take(1)?[0])
    }

    fn row(&mut self) -> Result<Row, u8> {
        let bytes = self.take(9)?;
        let half = |at: usize| u16::from_le_bytes([bytes[at], bytes[at + 1]]);
        Ok(Row {
            tank: half(0),
            cost: half(2),
            period: half(4),
            phase: half(6),
            kind: bytes[8],
        })
    }
}

/// The table in these bytes, or the number of the first fault met.
pub fn read(bytes: &[u8]) -> Result<Table, u8> {
    let mut rest = Rest(bytes);
    let mut table = Table::default();
    table.format = rest.byte()?;
    test_format(table.format)?;
    let cycle = rest.take(4)?;
    table.cycle = u32::from_le_bytes([cycle[0], cycle[1], cycle[2], cycle[3]]);
    test_cycle(table.cycle)?;
    table.cores = rest.byte()?;
    test_cores(table.cores)?;
    let mut last = None;
    for board in &mut table.boards[..usize::from(table.cores)] {
        *board = rest.byte()?;
        refuse(last >= Some(*board), 14)?;
        last = Some(*board);
    }
    table.count = rest.byte()?;
    refuse(table.count > 32, 15)?;
    let (mut last, mut sum) = (None, 0);
    for row in &mut table.rows[..usize::from(table.count)] {
        *row = rest.row()?;
        sum += test_row(row, last, table.cycle)?;
        last = Some(row.tank);
    }
    refuse(!rest.0.is_empty(), 21)?;
    test_sum(&table, sum)?;
    Ok(table)
}

/// The first fault 11 to 20 or 22 of a table value.
pub fn fault(table: &Table) -> Result<(), u8> {
    test_format(table.format)?;
    test_cycle(table.cycle)?;
    test_cores(table.cores)?;
    let boards = &table.boards[..usize::from(table.cores)];
    refuse(boards.windows(2).any(|pair| pair[0] >= pair[1]), 14)?;
    refuse(table.count > 32, 15)?;
    let (mut last, mut sum) = (None, 0);
    for row in table.named() {
        sum += test_row(row, last, table.cycle)?;
        last = Some(row.tank);
    }
    test_sum(table, sum)
}

fn refuse(fault: bool, number: u8) -> Result<(), u8> {
    if fault {
        return Err(number);
    }
    Ok(())
}

fn test_format(format: u8) -> Result<(), u8> {
    refuse(!(1..=2).contains(&format), 11)
}

fn test_cycle(cycle: u32) -> Result<(), u8> {
    refuse(!(1..=1_000_000).contains(&cycle), 12)
}

fn test_cores(cores: u8) -> Result<(), u8> {
    refuse(!(1..=8).contains(&cores), 13)
}

/// The quanta that a row takes in a cycle, or its first fault.
fn test_row(row: &Row, last: Option<u16>, cycle: u32) -> Result<u64, u8> {
    refuse(last >= Some(row.tank), 16)?;
    refuse(row.cost == 0, 17)?;
    refuse(row.cost > row.period, 18)?;
    let period = u32::from(row.period);
    refuse(cycle % period != 0, 19)?;
    refuse(row.kind > 1, 20)?;
    Ok(u64::from(row.cost) * u64::from(cycle / period))
}

fn test_sum(table: &Table, sum: u64) -> Result<(), u8> {
    refuse(sum > u64::from(table.cores) * u64::from(table.cycle), 22)
}
