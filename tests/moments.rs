//! Random logs of arbitrary systems: the judge of the plain form beside the definition, read
//! naively. Every line's readings and what was told are looked up in the whole log, and every
//! moment of a run is tried in turn. See tests/moments.
//!
//! Some worked logs come first, with the verdict that each must have. Each random log is spelled as
//! a text, and the engines of `dvg torn --moments`, with `--all` and without, and their twins must
//! write of it what the definition says. `dvg torn` alone must write the same of it with a base as
//! without.
//!
//! `moments COUNT SEED`: the last line is 'N passed, M failed'.
use dvg_io::Watched;
use dvg_logs::{torn, torn_all, torn_moments};
use dvg_moment::MomentJudge;
use std::process::ExitCode;
use twin::torn::judge_moments;

/// The bytes of the RAM.
const RAM_BYTES: usize = 0x800;

/// The bytes of the words that have an address of 12 bits.
const ALL_BYTES: usize = 0x2000;

/// How many failures are printed with their logs.
const PRINTED: u64 = 5;

/// A line of a log.
#[derive(Clone, Copy, Debug, PartialEq, Eq)]
enum Line {
    Started,
    Low(u16, u8),
    Fetched(u16, u16),
    /// A HALT, with its word.
    Done(u16, u16),
    /// A run ends of which no more is told.
    Ended,
    Wrote(u16, u8),
    /// The whole system is reset.
    Reset,
}

use Line::{Done, Ended, Fetched, Low, Reset, Started, Wrote};

/// A number by chance, by Marsaglia's xorshift with a multiplication.
struct Chance(u64);

impl Chance {
    fn below(&mut self, limit: u64) -> u64 {
        self.0 ^= self.0 >> 12;
        self.0 ^= self.0 << 25;
        self.0 ^= self.0 >> 27;
        (self.0.wrapping_mul(0x2545_F491_4F6C_DD1D) >> 32) % limit
    }
}

/// The low byte that waits before a line, after its word address.
fn waiting(log: &[Line]) -> Option<(u16, u8)> {
    for line in log.iter().rev() {
        match line {
            Low(address, byte) => return Some((*address, *byte)),
            Wrote(..) => {}
            _ => return None,
        }
    }
    None
}

/// The bytes that line `at` reads, with their byte addresses.
fn reads(log: &[Line], at: usize) -> Vec<(usize, u8)> {
    match log[at] {
        Low(address, byte) => vec![(2 * usize::from(address), byte)],
        Fetched(address, word) | Done(address, word) => {
            let [low, high] = word.to_le_bytes();
            let first = 2 * usize::from(address);
            if waiting(&log[..at]).is_some_and(|waits| waits.0 == address) {
                vec![(first + 1, high)]
            } else {
                vec![(first, low), (first + 1, high)]
            }
        }
        _ => Vec::new(),
    }
}

/// A log with the readings of each line.
struct Naive<'a> {
    log: &'a [Line],
    reads: Vec<Vec<(usize, u8)>>,
    changed: Vec<Option<usize>>,
}

impl Naive<'_> {
    fn new(log: &[Line]) -> Naive<'_> {
        let reads = (0..log.len()).map(|at| reads(log, at)).collect();
        let mut naive = Naive {
            log,
            reads,
            changed: Vec::new(),
        };
        naive.changed = (0..log.len()).map(|at| naive.change(at)).collect();
        naive
    }

    /// What the lines before line `at` tell of a byte.
    fn told(&self, at: usize, byte_address: usize) -> Option<u8> {
        for line in (0..at).rev() {
            match self.log[line] {
                Reset => return None,
                Wrote(address, byte)
                    if usize::from(address) == byte_address && byte_address < RAM_BYTES =>
                {
                    return Some(byte);
                }
                _ => {}
            }
            for (address, byte) in &self.reads[line] {
                if *address == byte_address {
                    return Some(*byte);
                }
            }
        }
        None
    }

    /// The byte that line `at` changes.
    fn change(&self, at: usize) -> Option<usize> {
        let Wrote(address, byte) = self.log[at] else {
            return None;
        };
        let address = usize::from(address);
        (address < RAM_BYTES && self.told(at, address) != Some(byte)).then_some(address)
    }

    /// Whether line `at` reads a byte as another than was told, of the RAM or of the ROM, or a word
    /// of another low byte than the one that waits.
    fn contradicts(&self, at: usize) -> bool {
        let parted = match (self.log[at], waiting(&self.log[..at])) {
            (Fetched(address, word) | Done(address, word), Some((waits, byte))) => {
                waits == address && u16::from(byte) != word % 0x100
            }
            _ => false,
        };
        parted
            || self.reads[at].iter().any(|(address, byte)| {
                *address < ALL_BYTES && self.told(at, *address).is_some_and(|told| told != *byte)
            })
    }

    /// The line that began the run which is open after so many lines.
    fn open_run(&self, lines: usize) -> Option<usize> {
        let ends = |line: &Line| matches!(line, Done(..) | Ended | Reset);
        let last = self.log[..lines]
            .iter()
            .rposition(|line| *line == Started || ends(line))?;
        (self.log[last] == Started).then_some(last)
    }

    /// Whether some of these lines reads this byte.
    fn is_read(&self, from: usize, to: usize, address: usize) -> bool {
        self.reads[from..to]
            .iter()
            .flatten()
            .any(|read| read.0 == address)
    }

    /// Whether the moment after `moment` lines is one of the run that line `start` began, up to
    /// line `lines`: what is read before doesn't change up to there, and what is read since hasn't
    /// changed since.
    fn is_moment(&self, start: usize, moment: usize, lines: usize) -> bool {
        let stands = (start..moment).all(|line| {
            self.changed[line].is_none_or(|address| !self.is_read(start, line, address))
        });
        let reads_then = (moment..lines).all(|line| {
            self.reads[line]
                .iter()
                .all(|(address, _)| !self.changed[moment..line].contains(&Some(*address)))
        });
        stands && reads_then
    }

    /// Whether the run that line `start` began has no moment, up to line `lines`.
    fn is_torn(&self, start: usize, lines: usize) -> bool {
        !(start + 1..=lines).any(|moment| self.is_moment(start, moment, lines))
    }
}

/// What a random system is like.
struct System {
    /// The words that it writes and reads.
    words: u64,
    /// How many values a byte has.
    values: u64,
    /// Of 100 lines, how many write.
    writes: u64,
    /// Of 100 words, how many are fetched a byte at a time.
    apart: u64,
    /// Of 100 readings, how many are of the next word, as in a display list.
    in_order: u64,
    /// Of 100 readings, how many aren't of what stands there.
    wrong: u64,
}

fn system(chance: &mut Chance) -> System {
    System {
        words: [1, 2, 3, 6, 12][chance.below(5) as usize],
        values: [2, 3, 200][chance.below(3) as usize],
        writes: [10, 30, 45, 70][chance.below(4) as usize],
        apart: [0, 50, 100][chance.below(3) as usize],
        in_order: [0, 80, 100][chance.below(3) as usize],
        wrong: [0, 0, 0, 10][chance.below(4) as usize],
    }
}

/// A log of a system. Some addresses are those of the last words of the RAM and the first after it.
fn log(chance: &mut Chance) -> Vec<Line> {
    let system = system(chance);
    let base = [0, 0x3FE, 0x200][chance.below(3) as usize];
    let mut memory = [0u8; 0x1000];
    for byte in &mut memory {
        *byte = chance.below(system.values) as u8;
    }
    let mut log = Vec::new();
    let mut next = 0;
    for _ in 0..3 + chance.below(60) {
        let kind = chance.below(100);
        if kind < system.writes {
            let address = 2 * base + chance.below(2 * system.words) as usize;
            let byte = chance.below(system.values) as u8;
            if address < RAM_BYTES {
                memory[address] = byte;
            }
            log.push(Wrote(address as u16, byte));
        } else if kind < system.writes + 5 {
            log.push([Started, Started, Started, Ended, Reset][chance.below(5) as usize]);
        } else {
            let word = if chance.below(100) < system.in_order {
                next
            } else {
                chance.below(system.words)
            };
            next = (word + 1) % system.words;
            read(chance, &system, &memory, base + word as usize, &mut log);
        }
    }
    log
}

/// A word is fetched, at once or a byte at a time, with writes between or without.
fn read(chance: &mut Chance, system: &System, memory: &[u8], word: usize, log: &mut Vec<Line>) {
    let mut bytes = [memory[2 * word], memory[2 * word + 1]];
    if chance.below(100) < system.wrong {
        bytes[chance.below(2) as usize] ^= 1;
    }
    if let Some((address, byte)) = waiting(log)
        && chance.below(8) > 0
    {
        let first = 2 * usize::from(address);
        let low = if chance.below(100) < system.wrong {
            [byte ^ 1, memory[first]][chance.below(2) as usize]
        } else {
            byte
        };
        log.push(Fetched(address, u16::from_le_bytes([low, memory[first + 1]])));
    } else if chance.below(100) < system.apart {
        log.push(Low(word as u16, bytes[0]));
    } else if chance.below(8) == 0 {
        log.push(Done(word as u16, u16::from_le_bytes(bytes)));
    } else {
        log.push(Fetched(word as u16, u16::from_le_bytes(bytes)));
    }
}

/// A worked log: what it shows, its lines, whether the run of its last line is torn, and whether
/// that line contradicts.
struct Worked(&'static str, &'static [Line], bool, bool);

/// Words 1 and 2 are a display list in one buffer, at bytes 2 to 5.
const WORKED: [Worked; 23] = [
    Worked(
        "both words change between their readings",
        &[
            Started,
            Fetched(1, 0x0101),
            Wrote(2, 5),
            Wrote(4, 7),
            Done(2, 0x0107),
        ],
        true,
        false,
    ),
    Worked(
        "all is written ahead of the reading",
        &[
            Started,
            Wrote(2, 5),
            Wrote(4, 7),
            Fetched(1, 0x0105),
            Done(2, 0x0107),
        ],
        false,
        false,
    ),
    Worked(
        "all is written after its reading",
        &[Started, Fetched(1, 0x0101), Wrote(2, 5), Done(2, 0x0101)],
        false,
        false,
    ),
    Worked(
        "one word is written ahead, while the other stands",
        &[Started, Fetched(1, 0x0101), Wrote(4, 7), Done(2, 0x0107)],
        false,
        false,
    ),
    Worked(
        "a word is read twice, and changes between",
        &[Started, Fetched(1, 0x0101), Wrote(2, 5), Done(1, 0x0105)],
        true,
        false,
    ),
    Worked(
        "what was told is written again",
        &[Started, Fetched(1, 0x0101), Wrote(2, 1), Done(1, 0x0101)],
        false,
        false,
    ),
    Worked(
        "a byte comes back to what it was, which is two changes",
        &[
            Started,
            Fetched(1, 0x0101),
            Wrote(2, 5),
            Wrote(2, 1),
            Done(1, 0x0101),
        ],
        true,
        false,
    ),
    Worked(
        "a byte of which nothing was told is written, maybe as it was: called torn",
        &[
            Started,
            Fetched(1, 0x0101),
            Wrote(2, 5),
            Wrote(4, 1),
            Done(2, 0x0101),
        ],
        true,
        false,
    ),
    Worked(
        "the same, where it was told: a run has read it before",
        &[
            Started,
            Fetched(2, 0x0101),
            Ended,
            Started,
            Fetched(1, 0x0101),
            Wrote(2, 5),
            Wrote(4, 1),
            Done(2, 0x0101),
        ],
        false,
        false,
    ),
    Worked(
        "the same, but what was told is void since a reset",
        &[
            Started,
            Fetched(2, 0x0101),
            Reset,
            Started,
            Fetched(1, 0x0101),
            Wrote(2, 5),
            Wrote(4, 1),
            Done(2, 0x0101),
        ],
        true,
        false,
    ),
    Worked(
        "the high byte is written, then the low one, between their readings: both stood there",
        &[
            Started,
            Low(1, 1),
            Wrote(3, 5),
            Wrote(2, 5),
            Done(1, 0x0501),
        ],
        false,
        false,
    ),
    Worked(
        "the low byte is written, then the high one, between their readings: they never did",
        &[
            Started,
            Low(1, 1),
            Wrote(2, 5),
            Wrote(3, 5),
            Done(1, 0x0501),
        ],
        true,
        false,
    ),
    Worked(
        "what is written outside the RAM changes nothing",
        &[
            Started,
            Fetched(1, 0x0101),
            Wrote(2, 5),
            Wrote(0x800, 7),
            Done(0x400, 0x0107),
        ],
        false,
        false,
    ),
    Worked(
        "a HALT of which no word is told: the log before it is judged",
        &[
            Started,
            Fetched(1, 0x0101),
            Wrote(2, 5),
            Wrote(4, 7),
            Fetched(2, 0x0107),
            Ended,
        ],
        true,
        false,
    ),
    Worked(
        "what was read can't be what was written",
        &[Started, Wrote(2, 5), Done(1, 0x0101)],
        false,
        true,
    ),
    Worked(
        "what is read tells, too",
        &[Started, Fetched(1, 0x0101), Done(1, 0x0102)],
        false,
        true,
    ),
    Worked(
        "a word isn't of the low byte that was read of it",
        &[Started, Low(1, 0x00), Done(1, 0xB001)],
        false,
        true,
    ),
    Worked(
        "it is, though another was written since",
        &[Started, Low(1, 0x00), Wrote(2, 0x01), Done(1, 0xB000)],
        false,
        false,
    ),
    Worked(
        "it is of the byte that was written since",
        &[Started, Low(1, 0x00), Wrote(2, 0x01), Done(1, 0xB001)],
        false,
        true,
    ),
    Worked(
        "a word of the ROM is read as two things",
        &[Started, Fetched(0x900, 0x0001), Done(0x900, 0x0002)],
        false,
        true,
    ),
    Worked(
        "the same, with a reset of the whole system between",
        &[
            Started,
            Fetched(0x900, 0x0001),
            Reset,
            Started,
            Done(0x900, 0x0002),
        ],
        false,
        false,
    ),
    Worked(
        "what is written outside the RAM tells nothing",
        &[
            Started,
            Fetched(0x400, 0x0101),
            Wrote(0x800, 5),
            Done(0x400, 0x0101),
        ],
        false,
        false,
    ),
    Worked(
        "of a word address past FFF nothing is kept",
        &[Started, Fetched(0x1000, 0x0001), Done(0x1000, 0x0002)],
        false,
        false,
    ),
];

/// What is wrong with a worked log's verdict, or with the definition's.
fn misjudged(Worked(_, log, torn, contradicts): &Worked) -> Option<String> {
    let mut judge = MomentJudge::new();
    let mut last = (false, None);
    for line in *log {
        last = tell(&mut judge, *line);
    }
    if last != (*contradicts, Some(*torn)) {
        return Some(format!("contradicts {}, torn {:?}", last.0, last.1));
    }
    agree(log, &mut Seen::default()).err()
}

/// What was seen.
#[derive(Default)]
struct Seen {
    lines: u64,
    halted: u64,
    torn: u64,
    contradictions: u64,
}

/// Tells the judge a line. Answers whether it contradicts, and whether a run that it ends is torn.
fn tell(judge: &mut MomentJudge, line: Line) -> (bool, Option<bool>) {
    match line {
        Started => judge.started(),
        Low(address, byte) => {
            let contradicts = judge.contradicts_low(address, byte);
            judge.low(address, byte);
            return (contradicts, None);
        }
        Fetched(address, word) => {
            let contradicts = judge.contradicts_word(address, word);
            judge.fetched(address, word);
            return (contradicts, None);
        }
        Done(address, word) => {
            let contradicts = judge.contradicts_word(address, word);
            return (contradicts, Some(judge.done(address, word)));
        }
        Ended => {
            let torn = judge.is_torn();
            judge.ended();
            return (false, Some(torn));
        }
        Wrote(address, byte) => judge.wrote(address, byte),
        Reset => judge.reset(),
    }
    (false, None)
}

/// Whether the judge says of a log what the definition says.
fn agree(log: &[Line], seen: &mut Seen) -> Result<(), String> {
    let naive = Naive::new(log);
    let mut judge = MomentJudge::new();
    for (at, line) in log.iter().enumerate() {
        let (contradicts, torn) = tell(&mut judge, *line);
        let lines = if *line == Ended { at } else { at + 1 };
        let wanted = naive
            .open_run(at)
            .is_some_and(|start| naive.is_torn(start, lines));
        if torn.is_some_and(|torn| torn != wanted) {
            return Err(format!(
                "line {at}: torn {torn:?}, and {wanted} by the definition"
            ));
        }
        if contradicts != naive.contradicts(at) {
            return Err(format!("line {at}: contradicts {contradicts}"));
        }
        seen.lines += 1;
        seen.halted += u64::from(torn.is_some());
        seen.torn += u64::from(torn == Some(true));
        seen.contradictions += u64::from(contradicts);
    }
    let wanted = naive
        .open_run(log.len())
        .is_some_and(|start| naive.is_torn(start, log.len()));
    if judge.is_torn() != wanted {
        return Err(format!("the end: torn {}", judge.is_torn()));
    }
    Ok(())
}

/// How a log is spelled.
struct Spelling {
    base: Option<u16>,
    capitals: bool,
    end: &'static str,
}

fn spelling(chance: &mut Chance) -> Spelling {
    Spelling {
        base: [None, Some(0x4000), Some(0xF9), Some(0xF800)][chance.below(4) as usize],
        capitals: chance.below(2) == 0,
        end: ["", "\r"][chance.below(2) as usize],
    }
}

impl Spelling {
    /// The texts of a line: a HALT with its word has two. What is written outside the RAM is a
    /// comment.
    fn texts(&self, line: Line) -> Vec<String> {
        let texts = match line {
            Started => vec!["started".to_string()],
            Low(address, byte) => vec![format!("low {address:03x} {byte:02x}")],
            Fetched(address, word) => vec![format!("fetched {address:03x} {word:04x}")],
            Done(address, word) => {
                vec![
                    format!("fetched {address:03x} {word:04x}"),
                    "halted".to_string(),
                ]
            }
            Ended => vec!["halted".to_string()],
            Wrote(address, byte) => vec![self.wrote(address, byte)],
            Reset => vec!["reset".to_string()],
        };
        texts.into_iter().map(|text| self.spelled(text)).collect()
    }

    fn wrote(&self, address: u16, byte: u8) -> String {
        if usize::from(address) >= RAM_BYTES {
            return "# outside".to_string();
        }
        match self.base {
            Some(base) => format!("wrote {:04x} {byte:02x}", base + address),
            None => format!("wrote {address:03x} {byte:02x}"),
        }
    }

    /// The text of a log, of which the last line may have no end.
    fn text(&self, log: &[Line], ends: bool) -> String {
        let lines: Vec<String> = log.iter().flat_map(|line| self.texts(*line)).collect();
        lines.join("\n") + if ends { "\n" } else { "" }
    }

    fn spelled(&self, text: String) -> String {
        let text = if self.capitals {
            text.to_ascii_uppercase()
        } else {
            text
        };
        text + self.end
    }
}

/// What is counted in a log.
#[derive(Default)]
struct Counts {
    /// The runs that began.
    runs: usize,
    /// The runs that came to their HALT.
    halted: usize,
    /// Those of them that had fetched past word zero, which is bytes 0 and 1.
    judged: usize,
}

/// What is found in a log: each line of the text, whether a run is torn there or else it
/// contradicts, and what is counted.
fn to_find(log: &[Line]) -> (Vec<(usize, bool)>, Counts) {
    let naive = Naive::new(log);
    let (mut found, mut counts) = (Vec::new(), Counts::default());
    let mut numbers = Vec::new();
    let mut number = 0;
    for (at, line) in log.iter().enumerate() {
        numbers.push(number + 1);
        number += if matches!(line, Done(..)) { 2 } else { 1 };
        counts.runs += usize::from(*line == Started);
        if naive.contradicts(at) {
            found.push((numbers[at], false));
        }
        let lines = match line {
            Done(..) => at + 1,
            Ended => at,
            _ => continue,
        };
        let Some(start) = naive.open_run(at) else {
            continue;
        };
        counts.halted += 1;
        counts.judged += usize::from(
            naive.reads[start..lines]
                .iter()
                .flatten()
                .any(|(address, _)| *address > 1),
        );
        if let Some(tear) = (start + 1..=lines).find(|lines| naive.is_torn(start, *lines)) {
            found.push((numbers[tear - 1], true));
        }
    }
    (found, counts)
}

/// What a line reads, as it is written.
fn shown(line: &str) -> String {
    let (name, numbers) = line.split_once(' ').unwrap_or((line, ""));
    format!("{name} {}", numbers.to_uppercase())
}

/// What must be written of a log: of its first torn run, or of all.
fn to_write(log: &[Line], all: bool) -> String {
    let (found, counts) = to_find(log);
    let plain = Spelling {
        base: None,
        capitals: false,
        end: "",
    };
    let lines: Vec<String> = log.iter().flat_map(|line| plain.texts(*line)).collect();
    let mut written = String::new();
    let mut torn = 0;
    for (number, is_torn) in found {
        let reads = shown(&lines[number - 1]);
        if !is_torn {
            return format!("{written}line {number} reads what was not written: {reads}\n");
        }
        written += &format!("torn at line {number}: {reads}\n");
        torn += 1;
        if !all {
            return written;
        }
    }
    let Counts {
        runs,
        halted,
        judged,
    } = counts;
    written
        + &match (torn, judged) {
            (0, 0) => format!("no run to judge: {runs} runs, {halted} halted\n"),
            (0, _) => format!("whole: {runs} runs, {halted} halted, {judged} judged\n"),
            _ => format!("in all: {runs} runs, {halted} halted, {torn} torn\n"),
        }
}

/// What an engine writes of a text.
fn engine_writes(text: &str, base: Option<u16>, all: bool) -> Result<Vec<u8>, String> {
    let mut reader = Watched::new(text.as_bytes());
    let mut writer = Watched::new(Vec::new());
    let answer = if all {
        torn_all(&mut reader, &mut writer, base)
    } else {
        torn_moments(&mut reader, &mut writer, base)
    };
    match answer {
        Ok(_) => Ok(writer.into_inner()),
        Err(fault) => Err(format!("the engine answers {fault:?}")),
    }
}

/// What its twin does.
fn twin_writes(text: &str, base: Option<u16>, all: bool) -> Result<Vec<u8>, String> {
    let mut written = Vec::new();
    match judge_moments(&mut text.as_bytes(), &mut written, base, all) {
        Ok(_) => Ok(written),
        Err(_) => Err("the twin answers a fault".to_string()),
    }
}

/// Whether the engines and their twins write of a log, as it is spelled, what they must.
fn moments_agree(log: &[Line], text: &str, base: Option<u16>) -> Result<(), String> {
    for all in [false, true] {
        let wanted = to_write(log, all);
        for (who, written) in [
            ("engine", engine_writes(text, base, all)?),
            ("twin", twin_writes(text, base, all)?),
        ] {
            if written != wanted.as_bytes() {
                let written = String::from_utf8_lossy(&written);
                return Err(format!(
                    "the {who} writes {written:?}, and must write {wanted:?}"
                ));
            }
        }
    }
    Ok(())
}

/// What the engine of `dvg torn` writes of a text.
fn halves(text: &str, base: Option<u16>) -> Result<Vec<u8>, String> {
    let mut reader = Watched::new(text.as_bytes());
    let mut writer = Watched::new(Vec::new());
    match torn(&mut reader, &mut writer, base) {
        Ok(_) => Ok(writer.into_inner()),
        Err(fault) => Err(format!("the engine of halves answers {fault:?}")),
    }
}

/// Whether a log says the same by all rules, as it is spelled.
fn texts_agree(log: &[Line], spelling: &Spelling, ends: bool) -> Result<(), String> {
    let plain = Spelling {
        base: None,
        capitals: false,
        end: "",
    };
    let text = spelling.text(log, ends);
    if halves(&text, spelling.base)? != halves(&plain.text(log, true), None)? {
        return Err("with a base another verdict by halves".to_string());
    }
    moments_agree(log, &text, spelling.base)
}

fn main() -> ExitCode {
    let words: Vec<u64> = std::env::args()
        .skip(1)
        .filter_map(|word| word.parse().ok())
        .collect();
    let [count, seed] = words[..] else {
        eprintln!("usage: moments COUNT SEED");
        return ExitCode::from(64);
    };
    let mut seen = Seen::default();
    let mut failed = 0;
    for worked in &WORKED {
        if let Some(why) = misjudged(worked) {
            failed += 1;
            println!("FAILED: {}: {why}", worked.0);
        }
    }
    for number in 0..count {
        let mut chance = Chance(0x9E37_79B9_7F4A_7C15 ^ (seed + number + 1));
        for _ in 0..8 {
            chance.below(2);
        }
        let log = log(&mut chance);
        let spelling = spelling(&mut chance);
        let ends = chance.below(2) == 0;
        let agreed =
            agree(&log, &mut seen).and_then(|()| texts_agree(&log, &spelling, ends));
        if let Err(why) = agreed {
            failed += 1;
            if failed <= PRINTED {
                println!("FAILED: the log of {}: {why}: {log:?}", seed + number);
            }
        }
    }
    let Seen {
        lines,
        halted,
        torn,
        contradictions,
    } = seen;
    println!("{lines} lines, {halted} runs ended, {torn} torn, {contradictions} contradictions");
    if count >= 1000 && (torn == 0 || torn == halted || contradictions == 0) {
        failed += 1;
        println!("FAILED: these logs show too little");
    }
    let all = count + WORKED.len() as u64;
    println!("{} passed, {failed} failed", all.saturating_sub(failed));
    ExitCode::from(u8::from(failed > 0))
}
