//! What a slot costs: the proved code, plain Rust, checked Rust and hurried Rust, on the same work. The script host/bench builds it, runs it and
//! prints the table.
//!
//!     bench agree                     whether all programs do the same, with the second program as judge
//!     bench run CASE WHO NUMBER       the work of a case, so much of it, by WHO: ours, plain, checked or hurried; for counting instructions
//!     bench time CASE NUMBER          the same in turn, three times: how long ours and hurried take, with plain as 1
//!     bench files TABLE TRACE         writes the box of many slots, and a trace for it, to these files
//!     bench worst COUNTER..           searches for the worst slot of ours, with a command that runs this program and counts its instructions
//!     bench children TABLE K SLOTS    what that counts
//!
//! Exit status 0 if every answer is right; otherwise what is wrong is shown, and 1.

#[path = "speed/agree.rs"]
mod agree;
#[path = "speed/alike.rs"]
mod alike;
#[path = "speed/boxes.rs"]
mod boxes;
#[path = "speed/cases.rs"]
mod cases;
#[path = "speed/checked.rs"]
mod checked;
#[path = "c/firmware.rs"]
mod firmware;
#[path = "speed/hurried.rs"]
mod hurried;
#[path = "compare/make"]
#[allow(dead_code)]
mod make {
    pub mod damage;
    pub mod hex;
    pub mod memory;
    pub mod schedule;
    pub mod sound;
    pub mod spoil;
    pub mod states;
    pub mod written;
    /// `states` asks for a row that no rule looks at; compare's own file of this name is made for its messages
    pub mod rows {
        pub use crate::wild::wild_row;
    }
}
#[path = "speed/ours.rs"]
mod ours;
#[path = "speed/plain.rs"]
mod plain;
#[path = "compare/random.rs"]
#[allow(dead_code)]
mod random;
#[path = "speed/search.rs"]
mod search;
#[path = "speed/wild.rs"]
mod wild;

use cases::Program;
use std::time::Instant;

fn agree() -> Result<String, String> {
    Ok(format!("{}\n{}", agree::run()?, alike::run()?))
}

fn run(case: &str, who: &str, number: &str) -> Result<String, String> {
    let number = number
        .parse()
        .map_err(|_| format!("no number: {}", number))?;
    match cases::case(case)?(&cases::program(who)?, number) {
        true => Ok(String::new()),
        false => Err(format!("{}: {} answers wrongly", case, who)),
    }
}

fn median(mut three: [f64; 3]) -> String {
    three.sort_unstable_by(f64::total_cmp);
    let digits = if three[1] < 0.01 { 5 } else { 2 };
    format!("{:.*}", digits, three[1])
}

fn time(case: &str, number: &str) -> Result<String, String> {
    let number = number
        .parse()
        .map_err(|_| format!("no number: {}", number))?;
    let case = cases::case(case)?;
    let programs = [
        cases::program("ours")?,
        cases::program("plain")?,
        cases::program("hurried")?,
    ];
    let turns = [(); 3].map(|_| {
        let spent = |program: &Program| {
            let begin = Instant::now();
            case(program, number);
            begin.elapsed().as_secs_f64()
        };
        let [ours, plain, hurried] = [
            spent(&programs[0]),
            spent(&programs[1]),
            spent(&programs[2]),
        ];
        [ours / plain, hurried / plain]
    });
    Ok(format!(
        "{} {}",
        median(turns.map(|it| it[0])),
        median(turns.map(|it| it[1]))
    ))
}

fn files(table: &str, trace: &str) -> Result<String, String> {
    let write = |name, bytes: Vec<u8>| {
        std::fs::write(name, bytes).map_err(|why| format!("{}: {}", name, why))
    };
    write(table, boxes::short())?;
    write(trace, boxes::million())?;
    Ok(String::new())
}

fn main() {
    let words: Vec<String> = std::env::args().skip(1).collect();
    let outcome = match words.iter().map(String::as_str).collect::<Vec<_>>()[..] {
        ["agree"] => agree(),
        ["run", case, who, number] => run(case, who, number),
        ["time", case, number] => time(case, number),
        ["files", table, trace] => files(table, trace),
        ["worst", ref counter @ ..] => search::run(counter),
        ["children", table, k, slots] => search::children(table, k, slots),
        _ => Err("usage: see the head of speed.rs".to_string()),
    };
    match outcome {
        Ok(words) => println!("{}", words),
        Err(words) => {
            println!("{}", words);
            std::process::exit(1);
        }
    }
}
