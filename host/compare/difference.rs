//! A case that is answered differently: made as small as may be, and told.

use crate::find::{batch, find};
use crate::kind::{answer, request, Kind};
use crate::program::Program;
use crate::shown::shown;
use crate::smaller;
use std::time::{Duration, Instant};

/// For so long smaller cases are looked for.
const PATIENCE: Duration = Duration::from_secs(20);

/// So many of them are tried at once, since the first that will do is taken.
const AT_ONCE: usize = 100;

/// So many fields that differ are told.
const MOST_FIELDS: usize = 6;

/// What is said of it.
pub fn difference<C: Kind>(program: &Program, found: &C) -> Result<String, String> {
    let small = shrunk(program, found)?;
    let (asked, answered) = (request(&small), answer(&small));
    let output = program.run(asked.bytes.clone())?;
    let (name, said) = (program.ours.0, &output.stdout);
    let known = found.known().map_or(String::new(), |(begin, words)| {
        format!(", of which 01 says {}: {}", begin[0], words)
    });
    let lines = [
        format!("{} differs from the second program", name),
        format!("as found: {}{}", shown(&request(found).bytes), known),
        format!("as small as may be: {}", shown(&asked.bytes)),
        format!("that is: {}", asked.words()),
        format!("{} answers: {} ({})", name, shown(said), output.status),
        format!("the second program: {}", shown(&answered.bytes)),
        format!("{} has {}", name, first(answered.unlike(said))),
    ];
    Ok(lines.join("\n  "))
}

/// The smallest case that was found of those that are answered differently.
fn shrunk<C: Kind>(program: &Program, found: &C) -> Result<C, String> {
    let until = Instant::now() + PATIENCE;
    let mut small = found.clone();
    while let Some(next) = smaller(program, &small, until)? {
        small = next;
    }
    Ok(small)
}

/// One step: the first of the smaller cases that is answered differently.
fn smaller<C: Kind>(program: &Program, case: &C, until: Instant) -> Result<Option<C>, String> {
    let mut cases = smaller::cases(case);
    while Instant::now() < until {
        let mut batch = batch(program, &mut cases.by_ref().take(AT_ONCE));
        if batch.is_empty() {
            break;
        }
        if let Some(place) = find(program, &batch)? {
            return Ok(Some(batch.swap_remove(place).case));
        }
    }
    Ok(None)
}

/// Some of the words, and how many more there are.
fn first(mut words: Vec<String>) -> String {
    let more = words.len().saturating_sub(MOST_FIELDS);
    words.truncate(MOST_FIELDS);
    if more > 0 {
        words.push(format!("and {} more", more));
    }
    words.join("; ")
}
