//! One of our programs as a child process: it reads requests from its standard input and answers on its standard output.

use std::io::Write;
use std::path::PathBuf;
use std::process::{Command, Output, Stdio};
use std::thread;

/// A program's name, and how many requests one run is asked at most.
#[derive(Clone, Copy, PartialEq)]
pub struct Ours(pub &'static str, pub usize);

pub struct Program {
    /// host/run, or what stands in for it
    pub runner: PathBuf,
    pub ours: Ours,
}

/// A run of the probe or of the questions reads 1 MiB at most. No request that goes with others is longer than what is left of it.
const MOST_BYTES: usize = 900_000;

impl Program {
    /// Says why it does not run at all, if so: what it answers would then be of no use.
    pub fn test(&self) -> Result<(), String> {
        let status = self.run(vec![])?.status;
        if status.success() {
            return Ok(());
        }
        Err(format!("{} cannot be run: {}", self.ours.0, status))
    }

    /// What it says, and how it ends, for this input.
    pub fn run(&self, input: Vec<u8>) -> Result<Output, String> {
        let failed = |error| format!("{} {}: {}", self.runner.display(), self.ours.0, error);
        let mut child = Command::new(&self.runner)
            .arg(self.ours.0)
            .stdin(Stdio::piped())
            .stdout(Stdio::piped())
            .spawn()
            .map_err(failed)?;
        let mut pipe = child.stdin.take().expect("it was asked for");
        // beside the reading, since neither pipe holds a whole batch; the program may end before it has read all of it
        let writer = thread::spawn(move || pipe.write_all(&input));
        let output = child.wait_with_output().map_err(failed);
        let _ = writer.join();
        output
    }

    /// Has a batch of so many requests and bytes room for another?
    pub fn takes_more(&self, requests: usize, bytes: usize) -> bool {
        requests < self.ours.1 && bytes < MOST_BYTES
    }
}
