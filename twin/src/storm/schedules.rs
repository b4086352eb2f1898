//! Random schedules for the storm.

use crate::storm::drafts::{Op, Random, Rom, random_draft};

/// What can happen.
pub enum Event {
    Offer(Vec<Op>),
    Redraw,
    Tick,
    Strobe,
    Fetch,
    ResetGenerator,
    ResetProcessor,
    ResetAll,
}

impl Event {
    /// Whether it ends or begins a run, or the driver's work, at once.
    pub fn is_blow(&self) -> bool {
        matches!(
            self,
            Event::Strobe | Event::ResetGenerator | Event::ResetProcessor | Event::ResetAll
        )
    }
}

/// Events over a ROM, and the text of the trace that gives both.
pub struct Schedule {
    pub rom: Rom,
    pub events: Vec<Event>,
    pub text: String,
}

/// What a schedule is made of.
#[derive(Clone, Copy)]
enum Kind {
    Tick,
    Ticks,
    Fetch,
    Fetches,
    Strobe,
    Offer,
    Redraw,
    ResetGenerator,
    ResetProcessor,
    ResetAll,
    /// An offer with the ticks, the strobe and the fetches that a picture takes, and blows amid
    /// them.
    Picture,
    /// A run that goes on slowly, while the driver publishes frames and is reset.
    SlowRun,
}

/// How often each kind comes.
type Weights = [(Kind, usize); 12];

/// How a schedule is mixed.
struct Weather {
    weights: Weights,
    /// How seldom something else falls amid the ticks and fetches of a picture.
    rarity: usize,
}

/// Resets are seldom, and pictures are finished.
const CALM: Weather = Weather {
    weights: weights(2, 60),
    rarity: 40,
};

const ROUGH: Weather = Weather {
    weights: weights(12, 70),
    rarity: 10,
};

const WILD: Weather = Weather {
    weights: weights(45, 140),
    rarity: 4,
};

const fn weights(reset: usize, strobe: usize) -> Weights {
    [
        (Kind::Tick, 300),
        (Kind::Ticks, 60),
        (Kind::Fetch, 250),
        (Kind::Fetches, 50),
        (Kind::Strobe, strobe),
        (Kind::Offer, 50),
        (Kind::Redraw, 20),
        (Kind::ResetGenerator, reset),
        (Kind::ResetProcessor, reset),
        (Kind::ResetAll, reset),
        (Kind::Picture, 40),
        (Kind::SlowRun, 12),
    ]
}

impl Weather {
    fn random_kind(&self, random: &mut Random) -> Kind {
        let mut left = random.below(self.weights.iter().map(|(_, weight)| weight).sum());
        for (kind, weight) in self.weights {
            if left < weight {
                return kind;
            }
            left -= weight;
        }
        Kind::Tick
    }
}

impl Schedule {
    /// The schedule of a seed.
    pub fn random(seed: u64) -> Schedule {
        let mut random = Random::new(seed);
        let rom = Rom::random(&mut random);
        let mut schedule = Schedule {
            text: rom.text.clone(),
            rom,
            events: Vec::new(),
        };
        let weather = random.one_of(&[&CALM, &CALM, &ROUGH, &ROUGH, &WILD]);
        let length = match random.below(20) {
            0 => 600 + random.below(2400),
            _ => 50 + random.below(550),
        };
        if !random.once_in(5) {
            schedule.ticks(2);
        }
        while schedule.events.len() < length {
            match weather.random_kind(&mut random) {
                Kind::Picture => schedule.picture(weather, &mut random),
                Kind::SlowRun => schedule.slow_run(&mut random),
                kind => schedule.add(kind, &mut random),
            }
        }
        schedule
    }

    fn ticks(&mut self, count: usize) {
        self.repeat("tick", || Event::Tick, count);
    }

    fn fetches(&mut self, count: usize) {
        self.repeat("fetch", || Event::Fetch, count);
    }

    fn repeat(&mut self, name: &str, event: fn() -> Event, count: usize) {
        self.text += &format!("{name} {count}\n");
        self.events.extend((0..count).map(|_| event()));
    }

    /// Adds an event that its name alone gives.
    fn one(&mut self, name: &str, event: Event) {
        self.text += name;
        self.text.push('\n');
        self.events.push(event);
    }

    fn offer(&mut self, draft: Vec<Op>) {
        self.text += "offer\n";
        for op in &draft {
            self.text += &format!("{op}\n");
        }
        self.one("end", Event::Offer(draft));
    }

    fn reset_all(&mut self, random: &mut Random) {
        let byte = match random.below(5) {
            4 => random.below(256),
            common => [0x00, 0xE0, 0xE2, 0xFF][common],
        };
        self.one(&format!("resetall {byte:02X}"), Event::ResetAll);
    }

    /// Adds what a kind is made of; nothing of a picture or a slow run.
    fn add(&mut self, kind: Kind, random: &mut Random) {
        match kind {
            Kind::Tick => self.one("tick", Event::Tick),
            Kind::Ticks => self.ticks(1 + random.below(20)),
            Kind::Fetch => self.one("fetch", Event::Fetch),
            Kind::Fetches => self.fetches(1 + random.below(20)),
            Kind::Strobe => self.one("strobe", Event::Strobe),
            Kind::Offer => {
                self.offer_random(random);
            }
            Kind::Redraw => self.one("redraw", Event::Redraw),
            Kind::ResetGenerator => self.one("resetgen", Event::ResetGenerator),
            Kind::ResetProcessor => self.one("resetcpu", Event::ResetProcessor),
            Kind::ResetAll => self.reset_all(random),
            Kind::Picture | Kind::SlowRun => {}
        }
    }

    /// Offers a draft, and answers how many words it has.
    fn offer_random(&mut self, random: &mut Random) -> usize {
        let draft = random_draft(&self.rom, random);
        let words = draft.iter().map(|op| op.words()).sum();
        self.offer(draft);
        words
    }

    /// Begins a run, and lets the driver do much between a few of its fetches.
    fn slow_run(&mut self, random: &mut Random) {
        self.one("strobe", Event::Strobe);
        for _ in 0..=random.below(3) {
            self.fetches(1 + random.below(4));
            let words = self.offer_random(random);
            self.ticks(1 + 2 * words + random.below(4));
            match random.below(8) {
                0 => self.one("redraw", Event::Redraw),
                1 => self.one("strobe", Event::Strobe),
                2..6 => {
                    self.one("resetcpu", Event::ResetProcessor);
                    self.ticks(2);
                }
                _ => {}
            }
        }
    }

    /// Adds an offer and what its picture takes, about, with something else amid it. Often the next
    /// frame is offered and written while this one is drawn.
    fn picture(&mut self, weather: &Weather, random: &mut Random) {
        let words = self.offer_random(random);
        self.amid(weather, random, 2 * words + 5, |schedule, piece, _| {
            schedule.ticks(piece);
        });
        self.one("strobe", Event::Strobe);
        let bytes = 2 * words + 2;
        if random.once_in(2) {
            self.add(Kind::Offer, random);
            self.amid(weather, random, 3 * bytes, Schedule::ticks_or_fetches);
        } else {
            let more = random.below(2) * bytes;
            self.amid(weather, random, bytes + more, |schedule, piece, _| {
                schedule.fetches(piece);
            });
        }
    }

    fn ticks_or_fetches(&mut self, count: usize, random: &mut Random) {
        if random.once_in(2) {
            self.ticks(count);
        } else {
            self.fetches(count);
        }
    }

    /// Adds this many events in pieces, and something else between two of them now and then.
    fn amid(
        &mut self,
        weather: &Weather,
        random: &mut Random,
        count: usize,
        add: fn(&mut Schedule, usize, &mut Random),
    ) {
        let mut left = count;
        while left > 0 {
            let piece = (1 + random.below(12)).min(left);
            add(self, piece, random);
            left -= piece;
            if random.once_in(weather.rarity) {
                let kind = weather.random_kind(random);
                self.add(kind, random);
            }
        }
    }
}
