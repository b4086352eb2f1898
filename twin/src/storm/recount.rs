//! A recount of what `play --all` wrote of a schedule, for the storm.
//!
//! It goes by the lines and the schedule's events alone, and knows nothing of a driver or a memory.
//! Of each log it says whether a line breaks one of these:
//!
//! - No run breaks.
//! - No byte is written in the half that the open run draws.
//! - Each finished run drew exactly the picture of the frame newest published when the run fetched
//!   word zero, in as many words.
//! - No frame that is shown was published before one that was shown earlier.
//! - After a flip, with no reset of the processor or of the whole system, the first tick that finds
//!   no run open reads `halted`, and the next one sends the strobe.
//! - An open run that shows a frame of n words in all has had fewer than 2n fetches.
//! - A run that was begun ends by fetch number 2n, or by a strobe or a reset, and each fetch while
//!   it is open is one of its own.

use crate::storm::drafts::Op;
use crate::storm::pictures::picture;
use crate::storm::schedules::{Event, Schedule};
use std::ops::AddAssign;
use std::str::Lines;

/// What happened in schedules.
#[derive(Clone, Copy, Default)]
pub struct Counts {
    pub events: u64,
    /// Schedules that finished a picture.
    pub showing: u64,
    pub pictures: u64,
    /// Frames of which a picture was the first.
    pub frames_shown: u64,
    pub accepted: u64,
    pub refused: u64,
    pub busy: u64,
    /// Strobes and resets while a run was open.
    pub blows_amid_runs: u64,
    /// Strobes and resets after a flip, before the strobe that shows it.
    pub blows_behind_flips: u64,
    /// Writes while a run was open that drew a half.
    pub writes_amid_runs: u64,
    /// Flips between the two bytes of word zero.
    pub flips_amid_word_zero: u64,
    /// Events other than fetches between the two bytes of a word.
    pub between_bytes: u64,
    /// Strobes that were sent after a flip by the tick that had to.
    pub sent_in_time: u64,
}

impl AddAssign for Counts {
    fn add_assign(&mut self, more: Counts) {
        self.events += more.events;
        self.showing += more.showing;
        self.pictures += more.pictures;
        self.frames_shown += more.frames_shown;
        self.accepted += more.accepted;
        self.refused += more.refused;
        self.busy += more.busy;
        self.blows_amid_runs += more.blows_amid_runs;
        self.blows_behind_flips += more.blows_behind_flips;
        self.writes_amid_runs += more.writes_amid_runs;
        self.flips_amid_word_zero += more.flips_amid_word_zero;
        self.between_bytes += more.between_bytes;
        self.sent_in_time += more.sent_in_time;
    }
}

/// A frame that was published, with the number of the event that did it.
#[derive(Clone, Copy)]
struct Publication<'a> {
    number: usize,
    draft: &'a [Op],
}

/// A run that is open.
#[derive(Clone, Copy, Default)]
struct Run<'a> {
    /// How many whole words it fetched.
    words: usize,
    /// How many fetches it has had.
    fetches: usize,
    draws: Option<u8>,
    shows: Option<Publication<'a>>,
    /// How many words the run of the frame that it shows fetches in all.
    bound: Option<usize>,
}

/// What the next ticks must do for the strobe of a frame that was published.
#[derive(Clone, Copy, PartialEq, Eq)]
enum Sending {
    Nothing,
    /// The first one that finds no run open reads that the generator is halted.
    Read,
    /// The next one sends.
    Send,
}

/// What is known after some lines.
struct Recount<'a> {
    schedule: &'a Schedule,
    lines: Lines<'a>,
    /// The draft of the last frame that was accepted.
    accepted: Option<&'a [Op]>,
    published: Option<Publication<'a>>,
    run: Option<Run<'a>>,
    /// The address of the word whose low byte alone was fetched.
    half_fetched: Option<u16>,
    /// A flip has no strobe after it.
    flipped: bool,
    sending: Sending,
    /// The number of the publication that was shown last.
    shown: Option<usize>,
    counts: Counts,
}

/// The half that a word of the RAM is in.
fn half_of(word: u16) -> Option<u8> {
    match word {
        0x001..=0x1FF => Some(0),
        0x201..=0x3FF => Some(1),
        _ => None,
    }
}

fn hexadecimal(digits: &str) -> Result<u16, String> {
    u16::from_str_radix(digits, 16).map_err(|_| format!("'{digits}' is no number"))
}

/// Counts what the lines show, or reports the first line that is wrong.
pub fn recount(schedule: &Schedule, output: &str) -> Result<Counts, String> {
    let mut recount = Recount {
        schedule,
        lines: output.lines(),
        accepted: None,
        published: None,
        run: None,
        half_fetched: None,
        flipped: false,
        sending: Sending::Nothing,
        shown: None,
        counts: Counts::default(),
    };
    for (number, event) in schedule.events.iter().enumerate() {
        recount
            .take(number, event)
            .map_err(|fault| format!("at event {number}: {fault}"))?;
    }
    if recount.lines.next().is_some() {
        return Err("there are lines after the last event".to_owned());
    }
    recount.counts.events = schedule.events.len() as u64;
    recount.counts.showing = u64::from(recount.counts.pictures > 0);
    Ok(recount.counts)
}

impl<'a> Recount<'a> {
    /// Takes the lines of an event.
    fn take(&mut self, number: usize, event: &'a Event) -> Result<(), String> {
        let line = self.lines.next().ok_or("there is no line")?;
        let mut parts = line.split(' ');
        if parts.next() != Some(number.to_string().as_str()) {
            return Err(format!("the line is '{line}'"));
        }
        self.count_weather(event);
        if matches!(event, Event::ResetGenerator | Event::ResetAll) {
            self.run = None;
            self.half_fetched = None;
        }
        if matches!(event, Event::ResetAll) {
            self.published = None;
        }
        let parts: Vec<&str> = parts.collect();
        self.follow(event, &parts)?;
        match (parts.as_slice(), event) {
            (["offered"], Event::Offer(draft)) => {
                self.accepted = Some(draft);
                self.counts.accepted += 1;
            }
            (["refused", ..], _) => self.counts.refused += 1,
            (["busy"], Event::Offer(_)) => self.counts.busy += 1,
            (["wrote", address, _], _) => self.wrote(number, hexadecimal(address)?)?,
            (["started"], _) => self.started(),
            (["low", address, _], _) => self.half_fetched = Some(hexadecimal(address)?),
            (["fetched", address, word], _) => {
                self.fetched(hexadecimal(address)?, hexadecimal(word)?)?;
            }
            (["done", _, _, strokes], _) => self.done(strokes)?,
            (["broke", ..], _) => return Err("a run broke".to_owned()),
            _ => {}
        }
        self.halts_in_time()
    }

    /// Follows what must come in time, before an event's line is taken.
    fn follow(&mut self, event: &Event, entry: &[&str]) -> Result<(), String> {
        match event {
            Event::Tick => self.send(entry)?,
            Event::ResetProcessor | Event::ResetAll => self.sending = Sending::Nothing,
            Event::Fetch => {
                if (entry == ["still"]) == self.run.is_some() {
                    return Err(format!("a fetch is answered by {entry:?}"));
                }
                if let Some(run) = &mut self.run {
                    run.fetches += 1;
                }
            }
            _ => {}
        }
        Ok(())
    }

    /// A tick after a flip, which must lead to its strobe.
    fn send(&mut self, entry: &[&str]) -> Result<(), String> {
        let (wanted, next): (&[&str], _) = match self.sending {
            Sending::Read if self.run.is_none() => (&["read", "halted"], Sending::Send),
            Sending::Send => (&["sent"], Sending::Nothing),
            _ => return Ok(()),
        };
        if entry != wanted {
            return Err(format!("a tick does {entry:?}, and not {wanted:?}"));
        }
        self.counts.sent_in_time += u64::from(self.sending == Sending::Send);
        self.sending = next;
        Ok(())
    }

    /// Whether the run that is open has had fewer fetches than it needs.
    fn halts_in_time(&self) -> Result<(), String> {
        match self.run {
            Some(Run {
                fetches,
                bound: Some(words),
                ..
            }) if fetches >= 2 * words => Err(format!(
                "a run of {words} words is open after {fetches} fetches"
            )),
            _ => Ok(()),
        }
    }

    /// Counts what an event falls amid.
    fn count_weather(&mut self, event: &Event) {
        if event.is_blow() {
            self.counts.blows_amid_runs += u64::from(self.run.is_some());
            self.counts.blows_behind_flips += u64::from(self.flipped);
        }
        if self.half_fetched.is_some() && !matches!(event, Event::Fetch) {
            self.counts.between_bytes += 1;
        }
    }

    /// A byte was written.
    fn wrote(&mut self, number: usize, address: u16) -> Result<(), String> {
        let drawn = self.run.and_then(|run| run.draws);
        self.counts.writes_amid_runs += u64::from(drawn.is_some());
        if drawn.is_some() && half_of(address / 2) == drawn {
            return Err(format!(
                "byte {address:03X} is written in the half being drawn"
            ));
        }
        if address == 1 {
            let draft = self
                .accepted
                .ok_or("nothing was accepted before the flip")?;
            self.published = Some(Publication { number, draft });
            self.flipped = true;
            self.sending = Sending::Read;
            self.counts.flips_amid_word_zero += u64::from(self.half_fetched == Some(0));
        }
        Ok(())
    }

    /// A run was begun.
    fn started(&mut self) {
        self.run = Some(Run::default());
        self.half_fetched = None;
        self.flipped = false;
    }

    /// A whole word was fetched.
    fn fetched(&mut self, address: u16, word: u16) -> Result<(), String> {
        self.half_fetched = None;
        let run = self.run.as_mut().ok_or("no run is open")?;
        if run.words == 0 && address == 0 {
            run.shows = self.published;
            if let Some(publication) = self.published {
                let whole = picture(publication.draft, &self.schedule.rom)?;
                run.bound = Some(1 + whole.words);
            }
            if word >> 12 == 0xE {
                run.draws = half_of(word & 0xFFF);
            }
        }
        run.words += 1;
        Ok(())
    }

    /// A run was finished, with this many strokes.
    fn done(&mut self, strokes: &str) -> Result<(), String> {
        self.half_fetched = None;
        let run = self.run.take().ok_or("no run is open")?;
        let publication = run.shows.ok_or("nothing was published")?;
        let count: usize = strokes.parse().map_err(|_| "no number of strokes")?;
        let drawn: Vec<&str> = self.lines.by_ref().take(count).collect();
        let wanted = picture(publication.draft, &self.schedule.rom)?;
        if drawn != wanted.strokes || run.words != wanted.words {
            return Err(format!(
                "the picture isn't that of the frame published at event {}: {} words {:?}, \
                 and not {} words {drawn:?}",
                publication.number, wanted.words, wanted.strokes, run.words
            ));
        }
        if run.fetches != 2 * (1 + wanted.words) {
            return Err(format!("it is done by fetch {}", run.fetches));
        }
        if self.shown > Some(publication.number) {
            return Err("an older frame is shown again".to_owned());
        }
        self.counts.pictures += 1;
        self.counts.frames_shown += u64::from(self.shown != Some(publication.number));
        self.shown = Some(publication.number);
        Ok(())
    }
}
