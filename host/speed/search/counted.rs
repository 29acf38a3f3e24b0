//! The instructions of each of the first slots of a box, by our program: it runs from a fresh state for t slots and for t + 1, and the difference is slot t.
//!
//! Both runs are children of one process under the emulator, forked one after the other, since starting the emulator costs a hundred times what a slot
//! does. The counter writes its line at the end of each child, with what the parent had done so far in it; what the parent does from one child to
//! the next is always the same, and two children that run no slot tell how much.

use crate::cases::Entry;
use crate::make::hex::bytes_of;
use crate::ours;
use std::process::Command;

extern "C" {
    fn fork() -> i32;
    fn waitpid(child: i32, status: *mut i32, options: i32) -> i32;
    fn _exit(status: i32) -> !;
}

/// The first child differs from the others by what the C library does once.
const IDLE: usize = 3;

/// For each of these slots its instructions. The counter is a command that runs this program and counts.
pub fn each(counter: &[&str], table: &[u8], k: u8, slots: u64) -> Result<Vec<i64>, String> {
    let hex: String = table.iter().map(|byte| format!("{:02X}", byte)).collect();
    let (program, words) = counter.split_first().ok_or("no counter is named")?;
    let run = Command::new(program)
        .args(words)
        .args(["children", &hex, &k.to_string(), &slots.to_string()])
        .output()
        .map_err(|why| format!("{}: {}", program, why))?;
    let lines = String::from_utf8_lossy(&run.stderr);
    let counts = lines
        .lines()
        .filter_map(|line| line.strip_prefix("instructions "));
    let counts: Vec<i64> = counts.filter_map(|count| count.parse().ok()).collect();
    // the last is the parent's own
    if !run.status.success() || counts.len() != IDLE + 1 + slots as usize + 1 {
        return Err(format!("{:?} counts wrongly: {}", counter, lines));
    }
    let parent = counts[IDLE - 1] - counts[IDLE - 2];
    let ends = &counts[IDLE..counts.len() - 1];
    Ok(ends
        .windows(2)
        .map(|pair| pair[1] - pair[0] - parent)
        .collect())
}

/// To be counted: children that run no slot, and then 0, 1, 2 and so on, up to so many.
pub fn children(table: &str, k: &str, slots: &str) -> Result<String, String> {
    let table = bytes_of(table);
    let (k, slots) = match (k.parse(), slots.parse::<u64>()) {
        (Ok(k), Ok(slots)) => (k, slots),
        _ => return Err(format!("no numbers: {} {}", k, slots)),
    };
    let mut entry: Entry = [0; 10];
    // what the emulator has translated once, the children have
    ours::slots(&table, k, slots, &mut entry);
    let idle = [0; IDLE].into_iter();
    let runs: Vec<u64> = idle.chain(0..=slots).collect();
    for number in runs {
        unsafe {
            let child = fork();
            if child == 0 {
                ours::slots(&table, k, number, &mut entry);
                _exit(0);
            }
            let mut status = 0;
            if child < 0 || waitpid(child, &mut status, 0) != child {
                return Err("no child".to_string());
            }
        }
    }
    Ok(String::new())
}
