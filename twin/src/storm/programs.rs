//! Asks programs, has work done on all processors, and counts what came of it. For tests/storm,
//! tests/dumps and tests/sketches.

use std::io::{self, Write};
use std::num::NonZero;
use std::ops::AddAssign;
use std::path::Path;
use std::process::{Command, Stdio};
use std::sync::atomic::{AtomicU64, Ordering};
use std::thread;

/// How many seconds a program has. One that takes longer ends with the status of `timeout`, which
/// is 124.
const SECONDS: &str = "10";

/// What a program answered.
#[derive(PartialEq)]
pub struct Answer {
    pub status: Option<i32>,
    pub output: Vec<u8>,
    pub error: Vec<u8>,
}

/// Asks a program with these arguments, and this on standard input.
pub fn ask(program: &Path, arguments: &[&str], input: &[u8]) -> io::Result<Answer> {
    let mut child = Command::new("timeout")
        .arg(SECONDS)
        .arg(program)
        .args(arguments)
        .stdin(Stdio::piped())
        .stdout(Stdio::piped())
        .stderr(Stdio::piped())
        .spawn()?;
    let pipe = child.stdin.take();
    thread::scope(|scope| {
        // A program that ends before it has read all is judged by what it answers.
        scope.spawn(move || pipe.map(|mut pipe| pipe.write_all(input)));
        let ended = child.wait_with_output()?;
        Ok(Answer {
            status: ended.status.code(),
            output: ended.stdout,
            error: ended.stderr,
        })
    })
}

/// Does something for each of this many seeds, from the first on, on all processors: each as soon
/// as one is free.
pub fn for_each_seed(
    count: u64,
    first: u64,
    work: impl Fn(u64) -> io::Result<()> + Sync,
) -> io::Result<()> {
    let next = AtomicU64::new(0);
    let work_all = || -> io::Result<()> {
        loop {
            let number = next.fetch_add(1, Ordering::Relaxed);
            if number >= count {
                return Ok(());
            }
            work(first.wrapping_add(number))?;
        }
    };
    let threads = thread::available_parallelism().map_or(1, NonZero::get);
    thread::scope(|scope| {
        let running: Vec<_> = (0..threads).map(|_| scope.spawn(work_all)).collect();
        running.into_iter().try_for_each(|thread| {
            let ended = thread.join();
            ended.unwrap_or_else(|_| Err(io::Error::other("a thread panicked")))
        })
    })
}

/// What came of all: what was counted, and how many passed and failed.
#[derive(Default)]
pub struct Report<Counts> {
    pub counts: Counts,
    pub passed: u64,
    pub failed: u64,
}

impl<Counts: AddAssign> Report<Counts> {
    /// Adds what came of the one of this name, and says what is wrong.
    pub fn add(&mut self, name: &str, counts: Counts, faults: &[String]) {
        self.counts += counts;
        if faults.is_empty() {
            self.passed += 1;
            return;
        }
        self.failed += 1;
        for fault in faults {
            println!("FAILED: {name}: {fault}");
        }
    }
}
