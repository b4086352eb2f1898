//! Single runs of programs, and what they take.
//!
//! It is made for 64-bit Linux, whose `wait4` tells what a single process used.

use std::fs::{self, File};
use std::io;
use std::os::unix::process::{CommandExt, ExitStatusExt};
use std::path::{Path, PathBuf};
use std::process::{Command, ExitStatus};
use std::time::{Duration, Instant};

/// A program with the arguments that it is called with, and the files that it reads and writes.
pub struct Contender {
    pub program: PathBuf,
    arguments: &'static [&'static str],
    input: PathBuf,
    output: PathBuf,
    error: PathBuf,
}

/// What a run answered.
#[derive(PartialEq)]
pub struct Answer {
    pub status: ExitStatus,
    output: Vec<u8>,
    error: Vec<u8>,
}

/// What a run took.
#[derive(Clone, Copy)]
pub struct Cost {
    /// From before the process was made until it had ended.
    pub wall_ms: f64,
    /// The process's time in its own code and in the kernel.
    pub processor_ms: f64,
    /// The most memory that the process held at once.
    pub memory_kib: f64,
    /// The page faults for which nothing had to be read.
    pub faults: i64,
}

impl Contender {
    /// The program of this name: all read the same input in the folder, and each has files of its
    /// own for what it writes.
    pub fn new(
        program: &Path,
        arguments: &'static [&'static str],
        name: &str,
        folder: &Path,
    ) -> Contender {
        Contender {
            program: program.to_owned(),
            arguments,
            input: folder.join("input"),
            output: folder.join(format!("{name}.output")),
            error: folder.join(format!("{name}.error")),
        }
    }

    /// Gives all that read from this folder another input.
    pub fn write_input(&self, input: &[u8]) -> io::Result<()> {
        fs::write(&self.input, input)
    }

    /// The program, reading its input, with new files for what it writes. The arguments before it
    /// are a command that runs it.
    pub fn command(&self, before: &[&str]) -> io::Result<Command> {
        let mut arguments = before
            .iter()
            .map(PathBuf::from)
            .chain([self.program.clone()]);
        let mut command = Command::new(arguments.next().expect("the program is the last of them"));
        command
            .args(arguments)
            .args(self.arguments)
            .stdin(File::open(&self.input)?)
            .stdout(new_file(&self.output)?)
            .stderr(new_file(&self.error)?);
        Ok(command)
    }

    /// Runs the program once, to measure its time.
    pub fn timed_run(&self) -> io::Result<(Answer, Cost)> {
        self.run(self.command(&[])?)
    }

    /// Runs the program once, to measure its memory.
    ///
    /// Linux also counts what the process held before the program was loaded into it. Until then it
    /// usually shares all memory of this comparer, and could never show less. A process that has a
    /// step to do before gets a copy instead, of what little was written: that takes longer, but
    /// shows what the program itself holds.
    pub fn memory_run(&self) -> io::Result<(Answer, Cost)> {
        let mut command = self.command(&[])?;
        // SAFETY: the step does nothing at all.
        unsafe { command.pre_exec(|| Ok(())) };
        self.run(command)
    }

    /// Runs a command of this program. Neither opening the files nor reading the answer is timed.
    fn run(&self, mut command: Command) -> io::Result<(Answer, Cost)> {
        let start = Instant::now();
        let child = command.spawn()?;
        let (status, usage) = wait_for(child.id())?;
        let cost = Cost {
            wall_ms: milliseconds(start.elapsed()),
            processor_ms: milliseconds(usage.user.duration() + usage.system.duration()),
            memory_kib: usage.most_memory as f64,
            faults: usage.faults,
        };
        let answer = Answer {
            status,
            output: fs::read(&self.output)?,
            error: fs::read(&self.error)?,
        };
        Ok((answer, cost))
    }
}

/// A new file in place of an old one. Emptying the old one would be slower: its bytes may have to
/// reach the disk.
fn new_file(path: &Path) -> io::Result<File> {
    if path.exists() {
        fs::remove_file(path)?;
    }
    File::create_new(path)
}

fn milliseconds(duration: Duration) -> f64 {
    duration.as_secs_f64() * 1000.0
}

// --- Waiting for a process ---

/// The kernel's `timeval` on 64-bit Linux.
#[repr(C)]
#[derive(Default)]
struct Time {
    seconds: i64,
    microseconds: i64,
}

impl Time {
    fn duration(&self) -> Duration {
        Duration::from_secs(self.seconds as u64) + Duration::from_micros(self.microseconds as u64)
    }
}

/// The kernel's `rusage` on 64-bit Linux.
#[repr(C)]
#[derive(Default)]
struct Usage {
    user: Time,
    system: Time,
    most_memory: i64,
    unused: [i64; 3],
    faults: i64,
    others: [i64; 9],
}

unsafe extern "C" {
    fn wait4(process: i32, status: *mut i32, options: i32, usage: *mut Usage) -> i32;
}

/// Waits until a child has ended. The standard library's own wait doesn't tell what the child used.
fn wait_for(process: u32) -> io::Result<(ExitStatus, Usage)> {
    let mut status = 0;
    let mut usage = Usage::default();
    // SAFETY: both pointers are to values that live through the call, laid out as 64-bit Linux has
    // them.
    let ended = unsafe { wait4(process as i32, &mut status, 0, &mut usage) };
    if ended < 0 {
        return Err(io::Error::last_os_error());
    }
    Ok((ExitStatus::from_raw(status), usage))
}
