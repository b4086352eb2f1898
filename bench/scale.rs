//! How the time and the memory of the program grow with its input: a table by sizes.
//!
//! `scale PROGRAM FOLDER` runs the program twice on each input: by valgrind's tool callgrind, which
//! counts its instructions, and for the most memory that it holds. It keeps its files in FOLDER.
//!
//! `scale ROW SIZE` writes the input of a row, by its place in the table. Each input is made by a
//! process of its own, so that this one stays small: Linux counts what it holds as the program's.

#![allow(dead_code, reason = "modules of compare.rs")]

mod inputs;
mod instructions;
mod rows;
mod runs;

use inputs::small_pictures;
use inputs::{dense_frames, dump_of_words, frames_of_vectors, game_log, names_of_rom};
use instructions::counted;
use runs::Contender;
use std::env;
use std::fs::File;
use std::io::{self, Write};
use std::path::Path;
use std::process::{Command, ExitCode};

/// What is run, by the numbers of something that is in its input.
struct Growth {
    name: &'static str,
    arguments: &'static [&'static str],
    unit: &'static str,
    sizes: [usize; 3],
    input: fn(usize) -> Vec<u8>,
}

const fn row(
    name: &'static str,
    arguments: &'static [&'static str],
    unit: &'static str,
    sizes: [usize; 3],
    input: fn(usize) -> Vec<u8>,
) -> Growth {
    Growth {
        name,
        arguments,
        unit,
        sizes,
        input,
    }
}

const RENDERED: [usize; 3] = [10, 100, 1000];
const DENSE: [usize; 3] = [1, 5, 20];
const DRAWN: [usize; 3] = [50, 500, 5000];
const FETCHED: [usize; 3] = [100, 1000, 65_536];
const JUDGED: [usize; 3] = [1_000_000, 10_000_000, 100_000_000];

/// All rows. A picture of `play` is eleven events, of which a text has 65,536.
const ROWS: &[Growth] = &[
    row("render", &["render"], "frames", RENDERED, frames_of_vectors),
    row("render, dense", &["render"], "frames", DENSE, dense_frames),
    row(
        "render --check",
        &["render", "--check"],
        "frames",
        RENDERED,
        frames_of_vectors,
    ),
    row("lay", &["lay"], "frames", RENDERED, frames_of_vectors),
    row(
        "lay --rom",
        &["lay", "--rom"],
        "names",
        RENDERED,
        names_of_rom,
    ),
    row("play", &["play"], "pictures", DRAWN, small_pictures),
    row(
        "play --svg",
        &["play", "--svg"],
        "pictures",
        DRAWN,
        small_pictures,
    ),
    row("picture", &["picture"], "words", FETCHED, dump_of_words),
    row(
        "picture --all",
        &["picture", "--all"],
        "words",
        FETCHED,
        dump_of_words,
    ),
    row("torn", &["torn"], "bytes", JUDGED, game_log),
];

/// Has a process of its own write the input of a row.
fn write_input(row: usize, size: usize, folder: &Path) -> io::Result<()> {
    let made = Command::new(env::current_exe()?)
        .args([row.to_string(), size.to_string()])
        .stdout(File::create(folder.join("input"))?)
        .status()?;
    if made.success() {
        Ok(())
    } else {
        Err(io::Error::other("an input can't be made"))
    }
}

/// Prints the lines of a row: its instructions in all and for each unit, both without those of a
/// start, and the most memory.
fn print_row(number: usize, program: &Path, folder: &Path, start: f64) -> io::Result<()> {
    let row = &ROWS[number];
    let contender = Contender::new(program, row.arguments, "scale", folder);
    for size in row.sizes {
        write_input(number, size, folder)?;
        let own = counted(&contender, folder)? - start;
        let (_, cost) = contender.memory_run()?;
        println!(
            "{:<16} {size:>11} {:<8} {own:>12.0} {:>10.1} {:>9.0}",
            row.name,
            row.unit,
            own / size as f64,
            cost.memory_kib
        );
    }
    Ok(())
}

/// Prints the table.
fn print_table(program: &Path, folder: &Path) -> io::Result<()> {
    let starter = Contender::new(program, &["list"], "scale", folder);
    starter.write_input(&[])?;
    let start = counted(&starter, folder)?;
    println!("A start is taken off: {start:.0} instructions.\n");
    println!(
        "{:<16} {:>11} {:<8} {:>12} {:>10} {:>9}",
        "row", "size", "", "instructions", "for each", "KiB"
    );
    (0..ROWS.len()).try_for_each(|row| print_row(row, program, folder, start))
}

/// Writes the input of a row on standard output.
fn print_input(row: usize, size: usize) -> io::Result<()> {
    io::stdout().write_all(&(ROWS[row].input)(size))
}

fn main() -> ExitCode {
    let arguments: Vec<String> = env::args().skip(1).collect();
    let [first, second] = arguments.as_slice() else {
        eprintln!("usage: scale PROGRAM FOLDER");
        return ExitCode::from(64);
    };
    let done = match (first.parse(), second.parse()) {
        (Ok(row), Ok(size)) => print_input(row, size),
        _ => print_table(Path::new(first), Path::new(second)),
    };
    match done {
        Ok(()) => ExitCode::SUCCESS,
        Err(fault) => {
            eprintln!("scale: {fault}");
            ExitCode::FAILURE
        }
    }
}
