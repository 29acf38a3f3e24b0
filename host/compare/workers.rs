//! All kinds of case, as many at a time as the machine has cores.

use crate::compare::FOUND;
use crate::kinds::{Line, KINDS, LIBRARY, PRINTER, PROBE, QUESTIONS};
use crate::program::{Ours, Program};
use crate::random::seed;
use second::never_late::full_boxes;
use std::collections::BTreeMap;
use std::panic::{catch_unwind, AssertUnwindSafe};
use std::path::Path;
use std::sync::atomic::{AtomicUsize, Ordering};
use std::sync::Mutex;
use std::thread::{available_parallelism, scope};

/// Tables that the second program alone runs, to see that nobody is late: in a short run, and in a long one.
const FULL_BOXES: [u32; 2] = [300, 3_000];

/// Each kind says a line, in the order of the list, up to the first that fails.
pub fn run(long: bool, runner: &Path) -> Result<(), String> {
    let seed = seed()?;
    for ours in [PROBE, QUESTIONS, PRINTER, LIBRARY] {
        program(runner, ours).test()?;
    }
    for outcome in by_all(&|kind| {
        let count = kind.short.saturating_mul(if long { 10 } else { 1 });
        let named = |words| format!("{} (seed {}): {}", kind.name, seed, words);
        let outcome = (kind.compare)(&program(runner, kind.ours), seed, count);
        outcome.map(named).map_err(named)
    }) {
        println!("{}", outcome?);
    }
    println!("{}", full_boxes(seed, FULL_BOXES[usize::from(long)])?);
    Ok(())
}

fn program(runner: &Path, ours: Ours) -> Program {
    let runner = runner.to_path_buf();
    Program { runner, ours }
}

type Outcome = Result<String, String>;

/// What is said of the kinds. Once something is found no other is begun; those before it were, and are ended.
fn by_all(compare: &(dyn Fn(&Line) -> Outcome + Sync)) -> Vec<Outcome> {
    let next = AtomicUsize::new(0);
    let said = Mutex::new(BTreeMap::new());
    let taken = || match FOUND.load(Ordering::SeqCst) {
        true => None,
        false => KINDS
            .iter()
            .enumerate()
            .nth(next.fetch_add(1, Ordering::SeqCst)),
    };
    let work = || {
        while let Some((place, kind)) = taken() {
            // a second program with a slip may refuse what a case is made of
            let outcome = catch_unwind(AssertUnwindSafe(|| compare(kind)));
            let outcome = outcome.unwrap_or_else(|_| Err(format!("{} has failed", kind.name)));
            let mut said = said.lock().expect("no worker has failed");
            said.insert(place, outcome);
        }
    };
    scope(|scope| {
        for _ in 0..available_parallelism().map_or(1, usize::from) {
            scope.spawn(work);
        }
    });
    let said = said.into_inner().expect("no worker has failed");
    said.into_values().collect()
}
