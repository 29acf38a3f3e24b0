//! The search for the worst slot of ours: many boxes, and of each its first slots, one by one; then small changes of the worst ones, for as long as
//! there is time.

#[path = "search/candidate.rs"]
mod candidate;
#[path = "search/change.rs"]
mod change;
#[path = "search/counted.rs"]
mod counted;
#[path = "search/families.rs"]
mod families;

use crate::random::Random;
use candidate::Candidate;
use change::changed;
pub use counted::children;
use std::time::{Duration, Instant};

/// So long the whole search may take, to a box.
const TIME: Duration = Duration::from_secs(270);
/// So many slots of a box are looked at, and of a changed box so many behind the worst one.
const SLOTS: u64 = 14;
const BEHIND: u64 = 4;
/// So many boxes are changed in turn.
const KEPT: usize = 6;

#[derive(Clone)]
struct Found {
    instructions: i64,
    slot: u64,
    candidate: Candidate,
}

pub fn run(counter: &[&str]) -> Result<String, String> {
    let begin = Instant::now();
    let mut random = Random::seeded(0x3051);
    let (mut looked_at, mut found) = (0, Vec::new());
    for candidate in families::all(&mut random) {
        looked_at += 1;
        found.push(worst_slot(counter, candidate, SLOTS)?);
    }
    sort(&mut found);
    found.truncate(KEPT);
    let first = found[0].clone();
    while begin.elapsed() < TIME {
        let place = random.below(found.len());
        let candidate = changed(&mut random, &found[place].candidate);
        if !candidate.is_sound() {
            continue;
        }
        looked_at += 1;
        let slots = (found[place].slot + 1 + BEHIND).min(40);
        let other = worst_slot(counter, candidate, slots)?;
        if other.instructions >= found[place].instructions {
            found[place] = other;
        }
    }
    sort(&mut found);
    Ok(format!(
        "the worst slot of {} boxes: {}\nbefore any was changed: {}",
        looked_at,
        found[0].shown(),
        first.shown()
    ))
}

/// The slowest first.
fn sort(found: &mut [Found]) {
    found.sort_by_key(|it| -it.instructions);
}

fn worst_slot(counter: &[&str], candidate: Candidate, slots: u64) -> Result<Found, String> {
    let counts = counted::each(counter, &candidate.table(), candidate.k, slots)?;
    let worst = counts.into_iter().zip(0..).max_by_key(|it| it.0);
    let (instructions, slot) = worst.ok_or("no slot was counted")?;
    Ok(Found {
        instructions,
        slot,
        candidate,
    })
}

impl Found {
    /// The table as boxes.rs has it.
    fn shown(&self) -> String {
        let table = self.candidate.table();
        let hex =
            |bytes: &[u8]| -> String { bytes.iter().map(|it| format!("{:02X}", it)).collect() };
        let (head, rows) = table.split_at(15);
        let parts = [
            &head[..1],
            &head[1..5],
            &head[5..6],
            &head[6..14],
            &head[14..],
        ];
        let mut shown = format!(
            "{} instructions in slot {} with {} cores free\n    {}",
            self.instructions,
            self.slot,
            self.candidate.k,
            parts.map(hex).join(" ")
        );
        for (number, row) in rows.chunks(9).enumerate() {
            let begin = if number % 4 == 0 { "\n    |" } else { " |" };
            let parts = [&row[..2], &row[2..4], &row[4..6], &row[6..8], &row[8..]];
            shown += &format!("{} {}", begin, parts.map(hex).join(" "));
        }
        shown
    }
}
