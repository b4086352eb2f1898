//! Plays random schedules on several programs, and compares and recounts what they write. See
//! tests/storm.
//!
//! `storm COUNT SEED PROGRAM TWIN JUDGE`

use std::io;
use std::path::Path;
use std::process::ExitCode;
use std::sync::{Mutex, PoisonError};
use twin::storm::programs::{Answer, Report, ask, for_each_seed};
use twin::storm::recount::{Counts, recount};
use twin::storm::schedules::Schedule;

/// How many failures are printed with their traces. Of the others the seed is printed.
const PRINTED_WHOLE: u64 = 5;

/// The programs that play and judge.
struct Players<'a> {
    program: &'a Path,
    twin: &'a Path,
    /// Whether the program keeps its RAM in banks where it is asked to.
    has_banks: bool,
    judge: Option<&'a Path>,
}

impl Players<'_> {
    /// Plays a schedule, and answers what happened, and all that is wrong.
    fn play(&self, schedule: &Schedule) -> io::Result<(Counts, Vec<String>)> {
        let trace = schedule.text.as_bytes();
        let answer = ask(self.program, &["play", "--all"], trace)?;
        let mut faults = Vec::new();
        let twin = ask(self.twin, &["play", "--all"], trace)?;
        faults.extend(difference("the twin", &answer, &twin));
        if self.has_banks {
            let banked = ask(self.program, &["play", "--all", "--banked"], trace)?;
            faults.extend(difference("the program with --banked", &answer, &banked));
        }
        let counts = recount(schedule, &String::from_utf8_lossy(&answer.output));
        let counts = counts.unwrap_or_else(|fault| {
            faults.push(format!("the recount finds that {fault}"));
            Counts::default()
        });
        if let Some(judge) = self.judge {
            let wanted = Answer {
                status: Some(0),
                output: b"not torn\n".to_vec(),
                error: Vec::new(),
            };
            let judged = ask(judge, &["judge"], trace)?;
            faults.extend(difference("the judge", &wanted, &judged));
        }
        Ok((counts, faults))
    }
}

/// How another answer differs from the wanted one, if it does.
fn difference(name: &str, wanted: &Answer, found: &Answer) -> Option<String> {
    if wanted == found {
        return None;
    }
    let [one, other] = [wanted, found].map(|answer| {
        let text = [answer.output.as_slice(), &answer.error].concat();
        String::from_utf8_lossy(&text).into_owned()
    });
    let (one, other) = first_difference(&one, &other);
    Some(format!(
        "{name} writes '{other}', and not '{one}', and ends with status {:?}, where {:?} is wanted",
        found.status, wanted.status
    ))
}

/// The first line of each of two texts that the other hasn't there.
fn first_difference<'a>(one: &'a str, other: &'a str) -> (&'a str, &'a str) {
    let (mut one, mut other) = (one.lines(), other.lines());
    loop {
        match (one.next(), other.next()) {
            (None, None) => return ("nothing more", "nothing more"),
            (line, same) if line == same => {}
            (line, same) => return (line.unwrap_or("nothing"), same.unwrap_or("nothing")),
        }
    }
}

/// Writes what all schedules came to.
fn print_totals(counts: &Counts) {
    println!(
        "{} events; {} schedules finish {} pictures of {} frames; \
         of the offers {} accepted, {} refused, {} busy; {} writes amid runs; \
         strobes and resets: {} amid runs, {} between a flip and its strobe; \
         {} events between the two bytes of a word, {} of them flips amid word zero; \
         {} strobes sent in time",
        counts.events,
        counts.showing,
        counts.pictures,
        counts.frames_shown,
        counts.accepted,
        counts.refused,
        counts.busy,
        counts.writes_amid_runs,
        counts.blows_amid_runs,
        counts.blows_behind_flips,
        counts.between_bytes,
        counts.flips_amid_word_zero,
        counts.sent_in_time
    );
}

/// Plays schedules on all processors, each as soon as one is free.
fn storm(count: u64, seed: u64, players: &Players) -> io::Result<Report<Counts>> {
    let report = Mutex::new(Report::default());
    for_each_seed(count, seed, |seed| {
        let schedule = Schedule::random(seed);
        let (counts, faults) = players.play(&schedule)?;
        let mut report = report.lock().unwrap_or_else(PoisonError::into_inner);
        report.add(&format!("the schedule of seed {seed}"), counts, &faults);
        if !faults.is_empty() && report.failed <= PRINTED_WHOLE {
            println!("its trace:\n{}", schedule.text);
        }
        Ok(())
    })?;
    Ok(report.into_inner().unwrap_or_else(PoisonError::into_inner))
}

/// Finds out who can be asked, and says who can't.
fn find_players<'a>(program: &'a Path, twin: &'a Path, judge: &'a Path) -> io::Result<Players<'a>> {
    for player in [program, twin] {
        let status = ask(player, &["play"], b"")?.status;
        if status != Some(0) {
            let fault = format!("{} ends with status {status:?}", player.display());
            return Err(io::Error::other(fault));
        }
    }
    let has_banks = ask(program, &["play", "--banked"], b"")?.status == Some(0);
    if !has_banks {
        println!("skipped: the program has no option --banked");
    }
    let has_judge = judge.exists();
    if !has_judge {
        println!("skipped: there is no judge {}", judge.display());
    }
    Ok(Players {
        program,
        twin,
        has_banks,
        judge: has_judge.then_some(judge),
    })
}

fn main() -> ExitCode {
    let arguments: Vec<String> = std::env::args().collect();
    let [_, count, seed, program, twin, judge] = arguments.as_slice() else {
        eprintln!("usage: storm COUNT SEED PROGRAM TWIN JUDGE");
        return ExitCode::from(64);
    };
    let (Ok(count), Ok(seed)) = (count.parse(), seed.parse()) else {
        eprintln!("storm: COUNT and SEED are numbers");
        return ExitCode::from(64);
    };
    let [program, twin, judge] = [program, twin, judge].map(Path::new);
    let report =
        find_players(program, twin, judge).and_then(|players| storm(count, seed, &players));
    let report = match report {
        Ok(report) => report,
        Err(fault) => {
            println!("FAILED: a program could not be asked: {fault}");
            println!("0 passed, 1 failed");
            return ExitCode::FAILURE;
        }
    };
    print_totals(&report.counts);
    println!("{} passed, {} failed", report.passed, report.failed);
    if report.failed == 0 {
        ExitCode::SUCCESS
    } else {
        ExitCode::FAILURE
    }
}
