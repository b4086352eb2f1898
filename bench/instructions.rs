//! Instructions that programs take for a unit of a row, by valgrind's tool callgrind: in their own
//! code, without the kernel's. Where times waver, these hardly do. Beside them stand page faults.

use crate::rows::{Row, START_UP, Unit};
use crate::runs::Contender;
use std::collections::HashMap;
use std::fs;
use std::io;
use std::path::{Path, PathBuf};
use std::process::Command;

/// The runs of which the least page faults count.
const FAULT_RUNS: usize = 11;

/// The functions that are named, of each row.
const FUNCTIONS: usize = 4;

/// What a run takes, or what a row takes beyond a start.
#[derive(Clone, Copy)]
struct Taken {
    instructions: f64,
    faults: i64,
}

/// Where callgrind leaves what it counted.
fn counts_of(folder: &Path) -> PathBuf {
    folder.join("callgrind.out")
}

/// How many instructions a run takes.
pub fn counted(contender: &Contender, folder: &Path) -> io::Result<f64> {
    let output = counts_of(folder);
    let out = format!("--callgrind-out-file={}", output.display());
    contender
        .command(&["valgrind", "--quiet", "--tool=callgrind", &out])?
        .status()?;
    let text = fs::read_to_string(&output)?;
    text.lines()
        .find_map(|line| line.strip_prefix("summary: ")?.trim().parse().ok())
        .ok_or_else(|| io::Error::other("callgrind tells no sum"))
}

/// What a run takes of both.
fn taken(contender: &Contender, folder: &Path) -> io::Result<Taken> {
    let mut faults = i64::MAX;
    for _ in 0..FAULT_RUNS {
        faults = faults.min(contender.timed_run()?.1.faults);
    }
    Ok(Taken {
        instructions: counted(contender, folder)?,
        faults,
    })
}

/// The instructions of each function, of those that were counted last: of the program and of the C
/// library.
fn functions_of(folder: &Path) -> io::Result<HashMap<String, f64>> {
    let text = Command::new("callgrind_annotate")
        .arg("--threshold=100")
        .arg(counts_of(folder))
        .output()?
        .stdout;
    let text = String::from_utf8_lossy(&text);
    let counted = text.lines().filter_map(|line| {
        let (count, name) = line.split_once('(')?;
        let (name, _) = name.split_once(':')?.1.rsplit_once(" [")?;
        Some((
            name.trim().to_owned(),
            count.replace([',', ' '], "").parse().ok()?,
        ))
    });
    Ok(counted.collect())
}

/// Prints the functions of a program that took most of the instructions that were counted last,
/// without those of a start, and how many a unit.
fn print_functions(unit: &Unit, folder: &Path, start: &HashMap<String, f64>) -> io::Result<()> {
    let mut all: Vec<(String, f64)> = functions_of(folder)?
        .into_iter()
        .map(|(name, count)| {
            let beyond = count - start.get(&name).unwrap_or(&0.0);
            (name, beyond / unit.count as f64)
        })
        .collect();
    all.sort_by(|one, other| other.1.total_cmp(&one.1));
    for (name, each) in all.iter().take(FUNCTIONS) {
        println!("    {each:>10.2}  {name}");
    }
    Ok(())
}

/// Makes an input and counts what each program takes. The proved one is the last, so that its
/// counts stay where callgrind left them.
fn count_all(row: &Row, input: &[u8], programs: &[&Path], folder: &Path) -> io::Result<Vec<Taken>> {
    let mut all = programs
        .iter()
        .rev()
        .map(|program| {
            let contender = Contender::new(program, row.arguments, "counted", folder);
            contender.write_input(input)?;
            taken(&contender, folder)
        })
        .collect::<io::Result<Vec<Taken>>>()?;
    all.reverse();
    Ok(all)
}

/// Prints a row: instructions a unit of each program, and the page faults of the proved one beyond
/// a start.
fn print_row(row: &Row, unit: &Unit, all: &[Taken], starts: &[Taken]) {
    let beyond: Vec<Taken> = all
        .iter()
        .zip(starts)
        .map(|(all, start)| Taken {
            instructions: (all.instructions - start.instructions) / unit.count as f64,
            faults: all.faults - start.faults,
        })
        .collect();
    print!("{:<48} {:<10}", row.name, unit.name);
    for taken in &beyond {
        print!(" {:>10.2}", taken.instructions);
    }
    println!(" {:>7}", beyond[0].faults);
}

/// Counts what all rows take that have a unit, and prints the table. The programs are the proved
/// one and its twin. With `functions` those of the proved one that take most are named.
pub fn count(
    rows: &[Row],
    programs: &[&Path; 2],
    folder: &Path,
    parts: bool,
    functions: bool,
) -> io::Result<()> {
    let nothing = Taken {
        instructions: 0.0,
        faults: 0,
    };
    let starts = if parts {
        vec![nothing; 2]
    } else {
        count_all(&START_UP, &[], programs, folder)?
    };
    let start = match functions {
        true => functions_of(folder)?,
        false => HashMap::new(),
    };
    let start_up: Vec<f64> = starts.iter().map(|start| start.instructions).collect();
    println!(
        "Instructions in all of a start, {start_up:.0?}, are taken off, then a unit of each;\n\
         and the page faults of the proved one beyond a start.\n"
    );
    println!(
        "{:<48} {:<10} {:>10} {:>10} {:>7}",
        "row", "unit", "proved", "plain", "faults"
    );
    for row in rows {
        let Some(unit) = &row.unit else { continue };
        let input = unit.input.unwrap_or(row.input)();
        let all = count_all(row, &input, programs, folder)?;
        print_row(row, unit, &all, &starts);
        if functions {
            print_functions(unit, folder, &start)?;
        }
    }
    Ok(())
}
