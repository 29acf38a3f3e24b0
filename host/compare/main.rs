//! Our programs, each answer held to the second program's, byte for byte: on cases made by hand, and on wild ones.
//!
//!     compare short RUNNER    as many cases as the gate has time for
//!     compare long RUNNER     ten times as many
//!
//! RUNNER is a command that runs the program named by its one argument, as host/run does. The seed is that of the environment
//! variable ZB_SEED, or one that is always the same. Exit status 0 if all answers are equal and nothing was met too rarely;
//! otherwise what is wrong is shown, and 1. A new kind of case is a file in kinds/ and a line in kinds.rs.

mod compare;
mod difference;
mod find;
mod kind;
mod kinds;
mod make;
mod message;
mod number;
mod program;
mod random;
mod shown;
mod smaller;
mod tally;
mod workers;

use std::path::Path;

fn main() {
    let words: Vec<String> = std::env::args().skip(1).collect();
    let outcome = match words.iter().map(String::as_str).collect::<Vec<_>>()[..] {
        ["short", runner] => workers::run(false, Path::new(runner)),
        ["long", runner] => workers::run(true, Path::new(runner)),
        _ => Err("usage: compare short RUNNER | compare long RUNNER".to_string()),
    };
    if let Err(words) = outcome {
        println!("{}", words);
        std::process::exit(1);
    }
}
