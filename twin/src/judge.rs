//! The judge of a log in plain Rust, for the plain twin of single parts: where it first shows a
//! torn picture.

use crate::driver::Action;
use crate::run::Run;
use crate::world::{Entry, Event};

/// What is drawn after an event.
fn after(run: Run, event: &Event, entry: &Entry) -> Run {
    let before = match event {
        Event::ResetGen | Event::ResetAll(_) => Run::Closed,
        _ => run,
    };
    match entry {
        Entry::Started => Run::Begun,
        Entry::Done(..) | Entry::Broke(..) => Run::Closed,
        Entry::Fetched(address, word) => before.after_fetch(*address, *word),
        _ => before,
    }
}

/// The least number of an entry that is a write in the half that the open run draws.
pub fn first_torn(events: &[Event], entries: &[Entry]) -> Option<usize> {
    let mut run = Run::Closed;
    for (number, (event, entry)) in events.iter().zip(entries).enumerate() {
        run = after(run, event, entry);
        if let Entry::Acted(Action::Wrote(address, _)) = entry
            && run.is_torn_by(*address)
        {
            return Some(number);
        }
    }
    None
}
