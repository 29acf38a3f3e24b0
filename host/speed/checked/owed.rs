//! What a row is owed at a time, and what follows from it: whether it is inside its share, whether it is ready, and when it is due.

use crate::plain::table::Row;

/// Where a row stands in a slot.
pub enum Stands {
    Outside,
    Waits,
    /// ready, and so many e-ths of a slot from its deadline: p - x. That is at least 1, and below 2^32 since no row is ahead by more than a job.
    Ready(u32),
}

/// Of a row without a fault that has at most as many quanta as slots have gone by.
#[inline(always)]
pub fn stands(row: &Row, given: u64, time: u64) -> Stands {
    let (e, p) = (u64::from(row.cost), u64::from(row.period));
    let phase = u64::from(row.phase);
    if time < phase {
        return too_many(given, 1);
    }
    let a = time - phase;
    let (share, next) = (e * a, p * (given + 1));
    if next <= share {
        return Stands::Outside;
    }
    let to_come = next - share;
    if to_come > p {
        if row.kind != 0 {
            // a row with all quanta of the jobs before one that begins now is not ahead, and not asked here
            let most = e * ((a + p - 1) / p);
            if given >= most {
                return too_many(given, most + 1);
            }
        } else if to_come >= p + e {
            return too_many(to_come, 2 * p);
        }
    }
    Stands::Ready(to_come as u32)
}

/// Not ready, and outside its share from a limit on.
#[inline(always)]
fn too_many(number: u64, limit: u64) -> Stands {
    if number < limit {
        Stands::Waits
    } else {
        Stands::Outside
    }
}

/// Deadline and bit of a ready row in one number, the smaller of which goes first: 2·(d - t) - b.
#[inline(always)]
pub fn class(to_come: u32, cost: u16) -> u32 {
    let cost = u32::from(cost);
    2 * (to_come / cost) + 1 - u32::from(to_come % cost == 0)
}

pub fn has_bit(class: u32) -> bool {
    class % 2 == 1
}

pub fn is_heavy(row: &Row) -> bool {
    2 * u32::from(row.cost) >= u32::from(row.period)
}

/// How far the group deadline is behind the deadline, of a heavy row that is ready and has b = 1.
#[inline(always)]
pub fn group_behind(row: &Row, given: u64, time: u64) -> u32 {
    let (e, p) = (u64::from(row.cost), u64::from(row.period));
    let to_come = p * (given + 1) - e * (time - u64::from(row.phase));
    let (cost, gap) = (u32::from(row.cost), u32::from(row.period - row.cost));
    let rest = to_come as u32 % cost;
    (cost - rest + gap - 1) / gap
}
