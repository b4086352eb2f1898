//! What a page calls: the device, as `include/dvg.h` has it, each command of `dvg` over bytes, the
//! map of the memory, and the judge of halves.
//!
//! The page owes what C owes: a device comes from `dvg_new`, and is used by one call at a time, and
//! no more once `dvg_free` got it.
use dvg_device::Device;
use dvg_explain::{Explained, UNENDED, UnreadLog, explain_line};
use dvg_tool::{
    Done, Job, LayForm, LogRule, PictureForm, Show, TextFault, ToolFault, Watched, finish, perform,
    status,
};
use plain_std::alloc::Global;
use std::cell::RefCell;

mod halves;
mod map;

/// How a moving picture is shown: in percent of a pixel for each unit, and pictures a second.
const SHOW: Show = Show {
    percent: 100,
    rate: 30,
};

/// What the page hands in, and what the newest command wrote.
#[derive(Default)]
struct Texts {
    input: Vec<u8>,
    output: Vec<u8>,
    error: Vec<u8>,
}

thread_local! {
    static TEXTS: RefCell<Texts> = RefCell::new(Texts::default());
}

/// A new device, in which nothing is open.
#[unsafe(no_mangle)]
pub extern "C" fn dvg_new() -> *mut Device {
    Box::into_raw(Box::new(Device::new(Global)))
}

/// One request, and its answer.
///
/// # Safety
/// The device comes from `dvg_new`, and wasn't freed.
#[unsafe(no_mangle)]
pub unsafe extern "C" fn dvg_turn(device: *mut Device, request: u64) -> u64 {
    unsafe { (*device).turn(request) }
}

/// The same by numbers as a script has them, which is quicker: of the request 53 bits, and of its
/// answer the low 53.
///
/// # Safety
/// The device comes from `dvg_new`, and wasn't freed.
#[unsafe(no_mangle)]
pub unsafe extern "C" fn dvg_ask(device: *mut Device, request: f64) -> f64 {
    let answer = unsafe { (*device).turn(request as u64) };
    (answer & ((1 << 53) - 1)) as f64
}

/// Frees a device, with all that it has.
///
/// # Safety
/// The device comes from `dvg_new`, and wasn't freed.
#[unsafe(no_mangle)]
pub unsafe extern "C" fn dvg_free(device: *mut Device) {
    drop(unsafe { Box::from_raw(device) });
}

/// Makes room for so many bytes of input, and tells where it is.
#[unsafe(no_mangle)]
pub extern "C" fn dvg_input(length: usize) -> *mut u8 {
    TEXTS.with_borrow_mut(|texts| {
        texts.input = vec![0; length];
        texts.input.as_mut_ptr()
    })
}

/// The command of a number: 0 list, 1 rom, 2 picture, 3 check, 4 play, 5 torn, 6 the SVG of a
/// sketch, 7 the ROM of a sketch, 16 its frames as a table, 17 game. With 8 more it has its option:
/// `--all`, `--bound`, `--moments`, `--check`, of the ROM `--equates`, and of the frames `--draft`.
fn job_of(number: u32) -> Option<Job> {
    let option = number & 8 != 0;
    match (number & !8, option) {
        (0, false) => Some(Job::List),
        (1, false) => Some(Job::Rom),
        (2, all) => Some(Job::Picture {
            form: PictureForm {
                all,
                ..PictureForm::PLAIN
            },
        }),
        (3, bound) => Some(Job::Check { bound }),
        (4, all) => Some(Job::Play { all, banked: false }),
        (5, moments) => {
            let rule = if moments {
                LogRule::Moments
            } else {
                LogRule::Halves
            };
            Some(Job::Torn { rule, base: None })
        }
        (6, false) => Some(Job::Render { show: SHOW }),
        (6, true) => Some(Job::RenderCheck),
        (7, false) => Some(Job::Lay { form: LayForm::Rom }),
        (7, true) => Some(Job::Lay {
            form: LayForm::Equates,
        }),
        (16, false) => Some(Job::Lay {
            form: LayForm::Table,
        }),
        (16, true) => Some(Job::Lay {
            form: LayForm::Draft,
        }),
        (17, false) => Some(Job::Game { notes: false }),
        _ => None,
    }
}

/// Whether a job reads a sketch.
fn reads_sketch(job: Job) -> bool {
    matches!(
        job,
        Job::Render { .. } | Job::RenderCheck | Job::Lay { .. }
    )
}

/// The most bytes of a line of a log. One with more is at fault before its end was seen.
const MOST_LINE_BYTES: usize = 64;

/// What is known of the lines of a log before one that isn't read, by this rule.
fn known_before(rule: LogRule) -> Option<&'static str> {
    match rule {
        LogRule::Halves => Some("no line before it tears a picture"),
        LogRule::Moments => Some("no run that ended before it is torn"),
        LogRule::AllMoments => None,
    }
}

/// What standard error gets of a log, the input, whose line of this number isn't read.
fn said_of_log(input: &[u8], number: usize, rule: LogRule, base: Option<u16>) -> String {
    let fault = TextFault::Syntax(number);
    let Some(unread) = UnreadLog::of(input, number, base) else {
        return format!("dvg: {fault}\n");
    };
    let line = unread.line();
    let mut text = format!("dvg: {fault}: {line}\ndvg: {unread}\n");
    if unread.is_unended() && line.bytes.len() <= MOST_LINE_BYTES {
        text += &format!("dvg: {UNENDED}\n");
    }
    if let (Some(known), before @ 1..) = (known_before(rule), number - 1) {
        text += &format!("dvg: {known}; for the counts, judge only head -n {before}\n");
    }
    text
}

/// What standard error gets of a sketch, the input, that has this fault.
fn said_of_sketch(input: &[u8], fault: TextFault) -> String {
    let small = input.to_ascii_lowercase();
    match explain_line(fault, input, &small) {
        Some(Explained { line, expected }) => {
            format!("dvg: {fault}: {line}\ndvg: expected {expected}\n")
        }
        None => format!("dvg: {fault}\n"),
    }
}

/// What standard error gets of a job over this input.
fn said(answer: &Result<Done<Global>, ToolFault>, job: Job, input: &[u8]) -> Vec<u8> {
    let text = match (answer, job) {
        (Err(ToolFault::Text(TextFault::Syntax(number))), Job::Torn { rule, base }) => {
            said_of_log(input, *number, rule, base)
        }
        (Err(ToolFault::Text(fault)), _) if reads_sketch(job) => said_of_sketch(input, *fault),
        (Err(fault), _) => format!("dvg: {fault}\n"),
        (Ok(Done::Refused(refusal)), _) => format!("dvg: {refusal}\n"),
        (Ok(_), _) => String::new(),
    };
    text.into_bytes()
}

/// Runs a command over the input, and tells its exit status; 64 where the number is of none.
#[unsafe(no_mangle)]
pub extern "C" fn dvg_run(number: u32) -> u32 {
    let Some(job) = job_of(number) else {
        return 64;
    };
    TEXTS.with_borrow_mut(|texts| {
        texts.output.clear();
        texts.error.clear();
        let mut reader = Watched::new(texts.input.as_slice());
        let mut writer = Watched::new(&mut texts.output);
        let answer = perform(Global, job, &mut reader, &mut writer);
        let answer = finish(answer, &mut writer);
        texts.error = said(&answer, job, &texts.input);
        u32::from(status(&answer))
    })
}

/// Looks at what the newest command wrote on standard output, or on standard error.
fn with_written<T>(on_error: u32, look: impl FnOnce(&Vec<u8>) -> T) -> T {
    TEXTS.with_borrow(|texts| look(if on_error == 0 { &texts.output } else { &texts.error }))
}

/// Where that is.
#[unsafe(no_mangle)]
pub extern "C" fn dvg_written(on_error: u32) -> *const u8 {
    with_written(on_error, |text| text.as_ptr())
}

/// How long that is.
#[unsafe(no_mangle)]
pub extern "C" fn dvg_written_length(on_error: u32) -> usize {
    with_written(on_error, |text| text.len())
}
