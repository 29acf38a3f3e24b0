//! The table check. Each field is tested once its bytes are there, and nothing is kept: what is promised is the number alone.

#[inline(never)]
pub fn table_check(bytes: &[u8]) -> u8 {
    match read(bytes) {
        Ok(_) => 0,
        Err(number) => number,
    }
}

/// What a table has, beside its head: M, n, and the bytes of the rows.
pub struct Parts<'a> {
    pub cores: u8,
    pub count: u8,
    pub rows: &'a [u8],
}

/// The parts of a table, or the number of the first fault met.
#[inline(always)]
pub fn read(bytes: &[u8]) -> Result<Parts<'_>, u8> {
    let (cycle, rest) = cycle(bytes)?;
    let (&cores, rest) = rest.split_first().ok_or(10)?;
    if cores.wrapping_sub(1) >= 8 {
        return Err(13);
    }
    let rest = behind_boards(cores, rest)?;
    let (&count, rest) = rest.split_first().ok_or(10)?;
    if count > 32 {
        return Err(15);
    }
    let length = 9 * usize::from(count);
    let rows = &rest[..length.min(rest.len())];
    let sum = quanta_in_cycle(rows, cycle)?;
    if rows.len() < length {
        return Err(10);
    }
    if rest.len() > length {
        return Err(21);
    }
    if sum > u32::from(cores) * cycle {
        return Err(22);
    }
    Ok(Parts { cores, count, rows })
}

/// L, and the bytes behind it.
#[inline(always)]
fn cycle(bytes: &[u8]) -> Result<(u32, &[u8]), u8> {
    match *bytes {
        [] => Err(10),
        [1 | 2, a, b, c, d, ref rest @ ..] => {
            let cycle = u32::from_le_bytes([a, b, c, d]);
            if cycle.wrapping_sub(1) >= 1_000_000 {
                return Err(12);
            }
            Ok((cycle, rest))
        }
        [1 | 2, ..] => Err(10),
        _ => Err(11),
    }
}

#[inline(always)]
fn behind_boards(cores: u8, bytes: &[u8]) -> Result<&[u8], u8> {
    let cores = usize::from(cores);
    let (boards, rest) = bytes.split_at(cores.min(bytes.len()));
    let mut least = 0;
    for &board in boards {
        if u32::from(board) < least {
            return Err(14);
        }
        least = u32::from(board) + 1;
    }
    if boards.len() < cores {
        return Err(10);
    }
    Ok(rest)
}

/// The quanta that the rows take in a cycle, of those whose nine bytes are there. Each takes at most a cycle's slots, so that 32 of them fit.
#[inline(always)]
fn quanta_in_cycle(rows: &[u8], cycle: u32) -> Result<u32, u8> {
    let (mut last, mut sum) = (-1, 0);
    for row in rows.chunks_exact(9) {
        let (tank, cost, period) = (half(row, 0) as i32, half(row, 2), half(row, 4));
        if tank <= last {
            return Err(16);
        }
        last = tank;
        if cost == 0 {
            return Err(17);
        }
        if cost > period {
            return Err(18);
        }
        if cycle % period != 0 {
            return Err(19);
        }
        if row[8] > 1 {
            return Err(20);
        }
        sum += cost * (cycle / period);
    }
    Ok(sum)
}

/// The number of two bytes that stands there.
#[inline(always)]
pub fn half(bytes: &[u8], at: usize) -> u32 {
    u32::from(u16::from_le_bytes([bytes[at], bytes[at + 1]]))
}
