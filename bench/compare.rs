//! Compares the proved program with its plain twin: the same inputs, many times, one program after
//! the other.
//!
//! `compare ROWS PROVED PLAIN FOLDER` runs the programs on each row's input, checks that they write
//! the same and end with the row's status each time, and prints a table. ROWS is `dvg`, `play`,
//! `picture`, `sketch` or `parts`. It makes the inputs itself and keeps its files in FOLDER.
//!
//! `compare ROWS PROVED PLAIN FOLDER --instructions` counts instructions and page faults instead;
//! `--functions` also names those of the proved program that take most.

#[allow(dead_code)]
mod inputs;
mod instructions;
mod rows;
mod runs;

use rows::Row;
use rows::{DVG_ROWS, PART_ROWS, PICTURE_ROWS, PLAY_ROWS, SKETCH_ROWS};
use runs::{Answer, Contender, Cost};
use std::io;
use std::path::Path;
use std::process::ExitCode;
use std::time::{Duration, Instant};

/// How long all rows together are timed; each gets the same part.
const TIMED: Duration = Duration::from_secs(25);

/// The runs of each program before the first that counts, after which files and processor are warm.
const WARM_UP_RUNS: usize = 10;

/// The least number of timed runs of each program, however long they take.
const LEAST_TIMED_RUNS: usize = 11;

/// The runs of each program whose memory is measured. It hardly changes from run to run.
const MEMORY_RUNS: usize = 11;

/// The programs that are compared, and the folder for their files.
struct Programs<'a> {
    proved: &'a Path,
    plain: &'a Path,
    folder: &'a Path,
}

impl Programs<'_> {
    /// Those that a row compares: the proved one, and what it is compared with.
    fn contenders(&self, row: &Row) -> Vec<Contender> {
        let (other, arguments) = match row.against_itself {
            Some(arguments) => (self.proved, arguments),
            None => (self.plain, row.arguments),
        };
        vec![
            Contender::new(self.proved, row.arguments, "proved", self.folder),
            Contender::new(other, arguments, "other", self.folder),
        ]
    }
}

/// What a row's runs took of each program: their times, and their memory.
struct Measures {
    timed: Measured,
    memory: Measured,
}

/// One way to run a program.
type Run = fn(&Contender) -> io::Result<(Answer, Cost)>;

/// The costs of the runs of each program.
type Measured = Vec<Vec<Cost>>;

/// Runs each program once, beginning with one of them, and keeps their costs. Their answers must be
/// the same, and the status the row's: an input that was refused for another cause would be no
/// measure of the work.
fn run_each(
    row: &Row,
    run: Run,
    contenders: &[Contender],
    first: usize,
    costs: &mut Measured,
) -> io::Result<()> {
    let mut answers: Vec<Answer> = Vec::new();
    for turn in 0..contenders.len() {
        let number = (first + turn) % contenders.len();
        let (answer, cost) = run(&contenders[number])?;
        answers.push(answer);
        costs[number].push(cost);
    }
    if answers.iter().any(|answer| *answer != answers[0]) {
        let fault = format!("the programs answer differently: {}", row.name);
        return Err(io::Error::other(fault));
    }
    if answers[0].status.code() != Some(row.status) {
        let fault = format!("the programs end with another status: {}", row.name);
        return Err(io::Error::other(fault));
    }
    Ok(())
}

/// Measures a row: times for so long, and memory.
fn measure(row: &Row, programs: &Programs, time: Duration) -> io::Result<Measures> {
    let contenders = programs.contenders(row);
    let nothing = || vec![Vec::new(); contenders.len()];
    let (mut warm, mut timed, mut memory) = (nothing(), nothing(), nothing());
    contenders[0].write_input(&(row.input)())?;
    for _ in 0..WARM_UP_RUNS {
        run_each(row, Contender::timed_run, &contenders, 0, &mut warm)?;
    }
    let start = Instant::now();
    while timed[0].len() < LEAST_TIMED_RUNS || start.elapsed() < time {
        // The order changes each time, so that whatever else the machine does meets all alike.
        let first = timed[0].len() % contenders.len();
        run_each(row, Contender::timed_run, &contenders, first, &mut timed)?;
    }
    for _ in 0..MEMORY_RUNS {
        run_each(row, Contender::memory_run, &contenders, 0, &mut memory)?;
    }
    Ok(Measures { timed, memory })
}

/// The median and the least of some numbers.
fn median_and_least(numbers: impl Iterator<Item = f64>) -> (f64, f64) {
    let mut numbers: Vec<f64> = numbers.collect();
    numbers.sort_by(f64::total_cmp);
    (numbers[numbers.len() / 2], numbers[0])
}

/// Prints a measure: medians, and the ratios of proved and plain.
fn print_measure(
    name: &str,
    measure: &str,
    decimals: usize,
    runs: &Measured,
    of: fn(&Cost) -> f64,
) {
    let numbers: Vec<(f64, f64)> = runs
        .iter()
        .map(|costs| median_and_least(costs.iter().map(of)))
        .collect();
    let (ratio, least) = (numbers[0].0 / numbers[1].0, numbers[0].1 / numbers[1].1);
    print!("{name:<48} {measure:<13}");
    for (median, _) in &numbers {
        print!(" {median:>9.decimals$}");
    }
    println!(" {ratio:>7.2} {least:>7.2}");
}

/// Prints the three lines of a row.
fn print_row(row: &Row, measures: &Measures) {
    let timed = &measures.timed;
    print_measure(row.name, "wall ms", 3, timed, |cost| cost.wall_ms);
    let runs = format!("  {} runs each", timed[0].len());
    print_measure(&runs, "processor ms", 3, timed, |cost| cost.processor_ms);
    print_measure("", "memory KiB", 0, &measures.memory, |cost| {
        cost.memory_kib
    });
}

/// Measures all rows and prints the table.
fn compare(rows: &[Row], programs: &Programs) -> io::Result<()> {
    println!("Medians of each program's runs; proved / plain of the medians and of the least.\n");
    println!(
        "{:<48} {:<13} {:>9} {:>9} {:>7} {:>7}",
        "row", "measure", "proved", "plain", "ratio", "least"
    );
    let time = TIMED / rows.len() as u32;
    for row in rows {
        print_row(row, &measure(row, programs, time)?);
    }
    Ok(())
}

/// Says how the program is called.
fn misuse() -> ExitCode {
    eprintln!("usage: compare ROWS PROVED PLAIN FOLDER [--instructions | --functions]");
    eprintln!("ROWS is dvg, play, picture, sketch or parts");
    ExitCode::from(64)
}

fn main() -> ExitCode {
    let arguments: Vec<String> = std::env::args().skip(1).collect();
    let arguments: Vec<&str> = arguments.iter().map(String::as_str).collect();
    let [name, proved, plain, folder, others @ ..] = arguments.as_slice() else {
        return misuse();
    };
    let rows = match *name {
        "dvg" => DVG_ROWS,
        "play" => PLAY_ROWS,
        "picture" => PICTURE_ROWS,
        "sketch" => SKETCH_ROWS,
        "parts" => PART_ROWS,
        _ => return misuse(),
    };
    let (proved, plain, folder) = (Path::new(proved), Path::new(plain), Path::new(folder));
    let parts = *name == "parts";
    let programs = Programs {
        proved,
        plain,
        folder,
    };
    let done = match others {
        [] => compare(rows, &programs),
        [what @ ("--instructions" | "--functions")] => {
            let programs = [proved, plain];
            instructions::count(rows, &programs, folder, parts, *what == "--functions")
        }
        _ => return misuse(),
    };
    match done {
        Ok(()) => ExitCode::SUCCESS,
        Err(fault) => {
            eprintln!("compare: {fault}");
            ExitCode::FAILURE
        }
    }
}
