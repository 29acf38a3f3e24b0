//! One of our programs against the second program, on cases of one kind.

use crate::difference::difference;
use crate::find::{batch, find, Asked};
use crate::kind::{answer, Kind};
use crate::program::Program;
use crate::random::Random;
use crate::shown::shown;
use crate::tally::tally;
use std::sync::atomic::{AtomicBool, Ordering};

/// A difference was found, of whatever kind.
pub static FOUND: AtomicBool = AtomicBool::new(false);

/// Compares on so many cases. Says how often each thing was met; an error if one is too rare, or if there is a difference.
pub fn compare<C: Kind>(program: &Program, seed: u64, count: usize) -> Result<String, String> {
    let mut cases = C::cases(Random::seeded(seed)).take(count);
    let mut seen = tally(C::GROUPS);
    loop {
        let batch = batch(program, &mut cases);
        if batch.is_empty() {
            return seen.words();
        }
        if let Some(place) = find(program, &batch)? {
            FOUND.store(true, Ordering::SeqCst);
            return Err(difference(program, &batch[place].case)?);
        }
        // not before: a difference says more, and what is no answer at all cannot be counted
        batch.iter().try_for_each(as_known)?;
        for asked in &batch {
            seen.case();
            asked.case.count(&asked.answer, &mut seen);
        }
    }
}

/// The second program is held to what is known beforehand.
fn as_known<C: Kind>(asked: &Asked<C>) -> Result<(), String> {
    match asked.case.known() {
        Some((begin, words)) if !asked.answer.starts_with(begin) => {
            let mut second = answer(&asked.case);
            second.cut(second.bytes.len().saturating_sub(begin.len()));
            Err(format!(
                "{}: 01, unlike the second program, has {}: {}",
                words,
                second.unlike(begin).join("; "),
                shown(&asked.request)
            ))
        }
        _ => Ok(()),
    }
}
