//! The arguments of the program `dvg`: its subcommands and options, their help texts, and what the
//! arguments ask for, which is a job of `dvg_job`.
//!
//! The arguments are read by `clap`, with a command that `specs/Arguments.antt` shows whole. A job
//! is returned only where clap's own matching gives it, and an error only of a kind that the
//! arguments can come to; help that was asked for is such an error, too. That options exclude each
//! other, which needs which, and which values they take, are this crate's own rules, after the
//! matching.
//!
//! Of `help` clap says only that it is help or an unknown subcommand, so tests show which. This is
//! a crate apart, as to check what clap says costs much memory.
#![no_std]

extern crate plain_std as std;

mod arguments {
//! What the arguments of the program ask for.
use crate::command::command;
use crate::common::common_job;
use crate::drawing::{picture_job, play_job, render_job};
use crate::laying::lay_job;
use crate::listing::list_job;
use crate::logging::torn_job;
use crate::misuse::misuse;
use crate::options::is_set;
use clap::error::ErrorKind;
use clap::{ArgMatches, Error};
use dvg_job::Job;
use std::alloc::Global;

// Returns the job of the subcommand `name`, whose options in `found` can't be refused. Returns
// `None` where `name` is none of these subcommands.
fn plain_job(name: &str, found: &ArgMatches) -> Option<Job> {
    if name == "rom" {
        Some(Job::Rom)
    } else if name == "check" {
        Some(Job::Check {
            bound: is_set(found, "bound"),
        })
    } else if name == "explain" {
        Some(Job::Explain)
    } else if name == "game" {
        Some(Job::Game {
            notes: is_set(found, "notes"),
        })
    } else {
        None
    }
}

// Returns the job that the subcommand `name` asks for with the options in `found`, or the kind of
// error by which they are refused.
fn asked(name: &str, found: &ArgMatches) -> Result<Job, ErrorKind> {
    if name == "list" {
        return list_job(found);
    }
    if name == "picture" {
        return picture_job(found);
    }
    if name == "play" {
        return play_job(found);
    }
    if name == "render" {
        return render_job(found);
    }
    if name == "lay" {
        return lay_job(found);
    }
    if name == "torn" {
        return torn_job(found);
    }
    match plain_job(name, found) {
        Some(job) => Ok(job),
        None => unreachable!(),
    }
}

// Returns the job of the subcommand that `matches` entered, or the kind of error by which its
// options are refused.
fn entered(matches: &ArgMatches) -> Result<Job, ErrorKind> {
    let Some(entered) = matches.subcommand() else {
        unreachable!()
    };
    asked(entered.0, entered.1)
}

// Matches `arguments`. Arguments that are taken enter a subcommand.
fn matched<'a>(alloc: Global, arguments: &'a [&'a str]) -> Result<ArgMatches<'a>, Error> {
    command(alloc)?.try_get_matches_from(arguments)
}

/// Returns what `arguments` ask for: the subcommand and the options that they match. The first
/// argument is the program's name, and may be anything.
///
/// An error is help or the version that `arguments` ask for (`DisplayHelp`, `DisplayVersion`), a
/// refusal of arguments that ask for nothing the program can do, or a failed allocation
/// (`OutOfMemory`). Its text is its `Display`.
pub fn job<'a>(alloc: Global, arguments: &'a [&'a str]) -> Result<Job, Error> {
    if let Some(job) = common_job(arguments) {
        return Ok(job);
    }
    let matches = match matched(alloc, arguments) {
        Ok(matches) => matches,
        Err(error) => return Err(error),
    };
    match entered(&matches) {
        Ok(job) => Ok(job),
        Err(kind) => Err(misuse(alloc, &matches, kind)),
    }
}
}
mod command {
//! The program's command, as `clap` reads it. A subcommand whose options may be refused stands in a
//! file with what its options ask for. `render`, `lay`, `explain` and `--svg` are for authors of
//! pictures, and `game` for those of games; there is no `draw`.
use crate::drawing::{picture_command, play_command, render_command};
use crate::help;
use crate::laying::lay_command;
use crate::listing::list_command;
use crate::logging::torn_command;
use clap::{Arg, ArgAction, Command};
use std::alloc::{AllocError, Global};

/// Returns the command `name` with its help: `about` says what it does, `usage` how it is called,
/// and `details` what it reads and writes.
pub(crate) fn helped<'a>(
    alloc: Global,
    name: &'a str,
    about: &'a str,
    usage: &'a str,
    details: &'a str,
) -> Command<'a> {
    Command::new(alloc, name)
        .about(about)
        .override_usage(usage)
        .after_help(details)
}

// Returns the option `--option`, which is given or not. `details` is its help.
fn flag<'a>(alloc: Global, option: &'a str, details: &'a str) -> Arg<'a> {
    Arg::new(alloc, option)
        .long(option)
        .help(details)
        .action(ArgAction::SetTrue)
}

// Returns the option `--option`, which takes a value. The help calls that `value`, and says
// `details`.
fn valued<'a>(alloc: Global, option: &'a str, value: &'a str, details: &'a str) -> Arg<'a> {
    Arg::new(alloc, option)
        .long(option)
        .value_name(value)
        .help(details)
        .action(ArgAction::Set)
}

/// Returns the command `part` with one more option, `--option`, which is given or not. Returns
/// `AllocError` where an allocation fails.
pub(crate) fn with_flag<'a>(
    alloc: Global,
    part: Command<'a>,
    option: &'a str,
    details: &'a str,
) -> Result<Command<'a>, AllocError> {
    part.arg(flag(alloc, option, details))
}

/// Returns the command `part` with one more option, `--option`, which takes a value. Returns
/// `AllocError` where an allocation fails.
pub(crate) fn with_value<'a>(
    alloc: Global,
    part: Command<'a>,
    option: &'a str,
    value: &'a str,
    details: &'a str,
) -> Result<Command<'a>, AllocError> {
    part.arg(valued(alloc, option, value, details))
}

// Returns the subcommand `check`.
fn check_command<'a>(alloc: Global) -> Result<Command<'a>, AllocError> {
    let about = "Say whether a draft may be drawn";
    let usage = "dvg check [--bound] < DRAFT";
    let check = helped(alloc, "check", about, usage, help::CHECK);
    let bound = "Also tell how many words the whole run of a good draft fetches";
    with_flag(alloc, check, "bound", bound)
}

// Returns the subcommand `game`.
fn game_command<'a>(alloc: Global) -> Result<Command<'a>, AllocError> {
    let about = "Say whether a run of a game's bytes may tear a picture";
    let game = helped(alloc, "game", about, help::GAME_USAGE, help::GAME);
    let notes = "Also tell what was noted of each instruction";
    with_flag(alloc, game, "notes", notes)
}

// Returns the program's command without its subcommands.
fn program<'a>(alloc: Global) -> Command<'a> {
    let about = "List, check, draw and play display lists of the Digital Vector Generator (DVG)";
    helped(alloc, "dvg", about, help::USAGE, help::PROGRAM)
        .version(help::VERSION)
        .subcommand_required(true)
}

// Returns the command `program` with `part` as one more subcommand.
fn with_part<'a>(program: Command<'a>, part: Command<'a>) -> Result<Command<'a>, AllocError> {
    program.subcommand(part)
}

/// Returns the program's command, with its memory from `alloc`. Returns `AllocError` where an
/// allocation fails.
pub(crate) fn command<'a>(alloc: Global) -> Result<Command<'a>, AllocError> {
    let rom_usage = "dvg rom < ROM";
    let rom = helped(alloc, "rom", "Write a ROM as text", rom_usage, help::ROM);
    let with_list = with_part(program(alloc), list_command(alloc)?)?;
    let with_rom = with_part(with_list, rom)?;
    let with_picture = with_part(with_rom, picture_command(alloc)?)?;
    let with_check = with_part(with_picture, check_command(alloc)?)?;
    let with_play = with_part(with_check, play_command(alloc)?)?;
    let with_torn = with_part(with_play, torn_command(alloc)?)?;
    let with_render = with_part(with_torn, render_command(alloc)?)?;
    let with_lay = with_part(with_render, lay_command(alloc)?)?;
    let about = "Say what an input is, what is wrong with it, and what to do";
    let explain_usage = "dvg explain < INPUT";
    let explain = helped(alloc, "explain", about, explain_usage, help::EXPLAIN);
    let with_explain = with_part(with_lay, explain)?;
    with_part(with_explain, game_command(alloc)?)
}
}
mod common {
//! Common arguments, whose job is known by their words alone: the matching takes longer than a
//! small job. A law names each of them.
use crate::showing::{USUAL_PERCENT, USUAL_RATE};
use dvg_job::{Job, LayForm, LogRule, PictureForm, Show};
use dvg_mem::Half;

// Returns the job of the subcommand `name` without an option, where it is one that reads no sketch.
fn bare_text_job(name: &str) -> Option<Job> {
    if name == "list" {
        return Some(Job::List);
    }
    if name == "rom" {
        return Some(Job::Rom);
    }
    if name == "picture" {
        return Some(Job::Picture {
            form: PictureForm::PLAIN,
        });
    }
    if name == "check" {
        return Some(Job::Check { bound: false });
    }
    if name == "play" {
        return Some(Job::Play {
            all: false,
            banked: false,
        });
    }
    if name == "torn" {
        return Some(Job::Torn {
            rule: LogRule::Halves,
            base: None,
        });
    }
    if name == "explain" {
        return Some(Job::Explain);
    }
    if name == "game" {
        return Some(Job::Game { notes: false });
    }
    None
}

// Returns the job of the subcommand `name` without an option.
fn bare_job(name: &str) -> Option<Job> {
    if name == "render" {
        return Some(Job::Render {
            show: Show {
                percent: USUAL_PERCENT,
                rate: USUAL_RATE,
            },
        });
    }
    if name == "lay" {
        return Some(Job::Lay {
            form: LayForm::Bytes(Half::H0),
        });
    }
    bare_text_job(name)
}

// Returns the job of `picture` with the option `flag`, where that is `--all`, `--moves` or `--svg`.
fn picture_job(flag: &str) -> Option<Job> {
    if flag == "--svg" {
        return Some(Job::PictureSvg {
            percent: USUAL_PERCENT,
        });
    }
    if flag == "--moves" {
        return Some(Job::Picture {
            form: PictureForm {
                all: false,
                moves: true,
                units: false,
            },
        });
    }
    if flag == "--all" {
        return Some(Job::Picture {
            form: PictureForm {
                all: true,
                moves: false,
                units: false,
            },
        });
    }
    None
}

// Returns the job of `play` with the option `flag`, where that is `--all`, `--banked` or `--svg`.
fn play_job(flag: &str) -> Option<Job> {
    if flag == "--all" {
        return Some(Job::Play {
            all: true,
            banked: false,
        });
    }
    if flag == "--banked" {
        return Some(Job::Play {
            all: false,
            banked: true,
        });
    }
    if flag == "--svg" {
        return Some(Job::PlaySvg {
            banked: false,
            show: Show {
                percent: USUAL_PERCENT,
                rate: USUAL_RATE,
            },
        });
    }
    None
}

// Returns the form of `lay` with the option `flag`, where that takes no value.
fn lay_job(flag: &str) -> Option<Job> {
    if flag == "--table" {
        return Some(Job::Lay {
            form: LayForm::Table,
        });
    }
    if flag == "--rom" {
        return Some(Job::Lay { form: LayForm::Rom });
    }
    if flag == "--equates" {
        return Some(Job::Lay {
            form: LayForm::Equates,
        });
    }
    if flag == "--draft" {
        return Some(Job::Lay {
            form: LayForm::Draft,
        });
    }
    None
}

// Returns the job of the subcommand `name` with the option `flag`, where that takes no value.
fn flag_job(name: &str, flag: &str) -> Option<Job> {
    if name == "picture" {
        return picture_job(flag);
    }
    if name == "play" {
        return play_job(flag);
    }
    if name == "lay" {
        return lay_job(flag);
    }
    if name == "check" && flag == "--bound" {
        return Some(Job::Check { bound: true });
    }
    if name == "render" && flag == "--check" {
        return Some(Job::RenderCheck);
    }
    if name == "torn" && flag == "--moments" {
        return Some(Job::Torn {
            rule: LogRule::Moments,
            base: None,
        });
    }
    if name == "game" && flag == "--notes" {
        return Some(Job::Game { notes: true });
    }
    None
}

// Returns the job of the subcommand `name` with two options, where these are the rule of `torn`.
fn two_flags_job(name: &str, first: &str, second: &str) -> Option<Job> {
    if name == "torn" && first == "--moments" && second == "--all" {
        return Some(Job::Torn {
            rule: LogRule::AllMoments,
            base: None,
        });
    }
    None
}

/// Returns what `arguments` ask for, where they are common ones. `None` says nothing of them.
pub(crate) fn common_job(arguments: &[&str]) -> Option<Job> {
    match arguments {
        [_, name] => bare_job(name),
        [_, name, flag] => flag_job(name, flag),
        [_, name, first, second] => two_flags_job(name, first, second),
        _ => None,
    }
}
}
mod drawing {
//! The subcommands `picture`, `play` and `render`, and what their options ask for. That some
//! exclude each other is this project's own choice.
use crate::command::{helped, with_flag};
use crate::help;
use crate::options::{is_given, is_set};
use crate::showing::{read_show, with_scale, with_show};
use clap::error::ErrorKind;
use clap::{ArgMatches, Command};
use dvg_job::{Job, PictureForm, Show};
use std::alloc::{AllocError, Global};

// Returns the size and the rate that the options in `found` give, or the defaults. Refused are two
// options that `clash` (`ArgumentConflict`), a size or a rate without `--svg`
// (`MissingRequiredArgument`), and a number out of range (`InvalidValue`).
fn svg_show(found: &ArgMatches, clash: bool) -> Result<Show, ErrorKind> {
    let svg = is_set(found, "svg");
    let scale = is_given(found, "scale");
    let rate = is_given(found, "rate");
    if clash {
        return Err(ErrorKind::ArgumentConflict);
    }
    if !svg && (scale || rate) {
        return Err(ErrorKind::MissingRequiredArgument);
    }
    match read_show(found) {
        Some(show) => Ok(show),
        None => Err(ErrorKind::InvalidValue),
    }
}

/// Returns the subcommand `picture`.
pub(crate) fn picture_command<'a>(alloc: Global) -> Result<Command<'a>, AllocError> {
    let about = "Draw what a dump of the vector memory draws";
    let usage = help::PICTURE_USAGE;
    let picture = helped(alloc, "picture", about, usage, help::PICTURE);
    let each = "Print each instruction that is run, too";
    let with_all = with_flag(alloc, picture, "all", each)?;
    let moves = "Print each move of the beam, too, also one that isn't seen";
    let with_moves = with_flag(alloc, with_all, "moves", moves)?;
    let units = "Print positions in whole screen units, as hardware counts them";
    let with_units = with_flag(alloc, with_moves, "units", units)?;
    let with_svg = with_flag(alloc, with_units, "svg", "Write the picture as SVG")?;
    with_scale(alloc, with_svg)
}

/// Returns what the options of `picture` in `found` ask for. Refused are two of `--svg`, `--all`
/// and either of `--moves` and `--units` (`ArgumentConflict`), a size without `--svg`
/// (`MissingRequiredArgument`), and a size out of range (`InvalidValue`).
pub(crate) fn picture_job(found: &ArgMatches) -> Result<Job, ErrorKind> {
    let svg = is_set(found, "svg");
    let all = is_set(found, "all");
    let moves = is_set(found, "moves");
    let units = is_set(found, "units");
    let clash = (svg && all) || ((svg || all) && (moves || units));
    let show = match svg_show(found, clash) {
        Ok(show) => show,
        Err(kind) => return Err(kind),
    };
    if svg {
        return Ok(Job::PictureSvg {
            percent: show.percent,
        });
    }
    Ok(Job::Picture {
        form: PictureForm { all, moves, units },
    })
}

/// Returns the subcommand `play`.
pub(crate) fn play_command<'a>(alloc: Global) -> Result<Command<'a>, AllocError> {
    let play = helped(alloc, "play", "Play a trace", help::PLAY_USAGE, help::PLAY);
    let all = "Print each entry, not the finished pictures alone";
    let with_all = with_flag(alloc, play, "all", all)?;
    let banked = "Keep the RAM in banks, not in one piece";
    let with_banked = with_flag(alloc, with_all, "banked", banked)?;
    let svg = "Write the finished pictures as one SVG";
    let with_svg = with_flag(alloc, with_banked, "svg", svg)?;
    with_show(alloc, with_svg)
}

/// Returns what the options of `play` in `found` ask for. Refused are `--svg` with `--all`
/// (`ArgumentConflict`), a size or a rate without `--svg` (`MissingRequiredArgument`), and one out
/// of range (`InvalidValue`).
pub(crate) fn play_job(found: &ArgMatches) -> Result<Job, ErrorKind> {
    let svg = is_set(found, "svg");
    let all = is_set(found, "all");
    let show = match svg_show(found, svg && all) {
        Ok(show) => show,
        Err(kind) => return Err(kind),
    };
    let banked = is_set(found, "banked");
    if svg {
        return Ok(Job::PlaySvg { banked, show });
    }
    Ok(Job::Play { all, banked })
}

/// Returns the subcommand `render`.
pub(crate) fn render_command<'a>(alloc: Global) -> Result<Command<'a>, AllocError> {
    let about = "Draw the frames of a sketch";
    let render = helped(alloc, "render", about, help::RENDER_USAGE, help::RENDER);
    let check = "Say of each frame whether it may be drawn, and draw none";
    let with_check = with_flag(alloc, render, "check", check)?;
    with_show(alloc, with_check)
}

/// Returns what the options of `render` in `found` ask for. A size or a rate that is out of range
/// is refused (`InvalidValue`), even with `--check`, which they don't concern.
pub(crate) fn render_job(found: &ArgMatches) -> Result<Job, ErrorKind> {
    let Some(show) = read_show(found) else {
        return Err(ErrorKind::InvalidValue);
    };
    if is_set(found, "check") {
        return Ok(Job::RenderCheck);
    }
    Ok(Job::Render { show })
}
}
mod help {
//! The help texts, and the version.
/// The program's version, and that it was proved before it was built. In the plain form of the
/// sources the stand-in of clap prints that it wasn't.
pub(crate) const VERSION: &str = "0.9.0 (proved)";

/// How the program is called.
pub(crate) const USAGE: &str = "dvg COMMAND [OPTIONS] < INPUT";

/// What the program's help prints after its commands.
pub(crate) const PROGRAM: &str =
    "Each command reads standard input and writes standard output. `dvg help COMMAND`
tells what a command reads and writes, with its limits and an example.
A fault of the input is printed on standard error, after `dvg: `.

Exit status:
   0  done, or a help text or the version that was asked for
   1  a fault of the input, or the answer is no: an invalid draft or frame, a dump
      that draws no picture, a log with a torn picture, one that contradicts
      itself, or one that has nothing to judge; a game that is refused
   2  a failing read or write, or out of memory
   3  a game of which not all that it offers and puts is seen
  64  arguments that ask for nothing the program can do: a file is no argument,
      it is read by `<`

Example:
  $ printf 'labs 512 400 0\\nvctr 9 -100 100 7\\nhalt\\n' | dvg check
  ok 5 words";

/// How `list` is called.
pub(crate) const LIST_USAGE: &str = "dvg list [--at HHH] < WORDS";

/// The input and output of `list`.
pub(crate) const LIST: &str =
    "Standard input: words, the low byte of each first, at most 8,192 bytes.

Standard output: one line per instruction: the place of its first word, counted
in words from 000, its name and its numbers. Places and addresses are
hexadecimal, other numbers decimal. A `*` ends the line of words that aren't the
canonical spelling. With `--at HHH` the first word stands at this address, and
places count on from it: 000 comes after FFF.

Faults: `too long` for more than 8,192 bytes, `odd length` for an odd number of
them, and `cut at HHH` where the last word begins an instruction of two words.

Example:
  $ printf '\\144\\220\\144\\164' | dvg list
  000 VCTR 9 -100 100 7
  $ printf '\\144\\220\\144\\164' | dvg list --at 201
  201 VCTR 9 -100 100 7

What is wrong with an input, and what to do: `dvg explain < INPUT`.";

/// The input and output of `rom`.
pub(crate) const ROM: &str =
    "Standard input: the 2,048 or 4,096 bytes of a ROM, the low byte of each word
first.

Standard output: of 2,048 bytes 128 lines `rom HHH HHHH ..`, each with a word
address and the eight words that stand from there on, in hexadecimal. The first
address is 800, the last BF8. Of 4,096 bytes the line `map 4096` and 256 lines
`rom HHH HHHH ..`, from 400 on. `check` and `play` read such lines.

Fault: `rom size` for any other number of bytes.

Example:
  $ head -c 2048 /dev/zero | dvg rom | tail -n 1
  rom BF8 0000 0000 0000 0000 0000 0000 0000 0000

What is wrong with an input, and what to do: `dvg explain < INPUT`.";

/// How `picture` is called.
pub(crate) const PICTURE_USAGE: &str =
    "dvg picture [--all | [--moves] [--units] | --svg [--scale N]] < DUMP";

/// The input and output of `picture`.
pub(crate) const PICTURE: &str =
    "Standard input: a dump of the vector memory, the low byte of each word first: the
2,048 bytes of its RAM (words 000 to 3FF), and then the 2,048 bytes of a ROM
(800 to BFF) or the 4,096 of the larger one (400 to BFF).

The generator is started once over this memory, which doesn't change, with the
beam at 0 0 and scale 0. Standard output is one of these:

  picture W N       W words were fetched up to the HALT. N lines `x0 y0 x1 y1 z`
                    follow, one per stroke: from where to where, in 1/512 of a
                    screen unit, and the intensity
  broke HHH F       the run broke at the word fetched from HHH, where F is
                    1 for a call inside of four calls, 2 for a return outside of
                    any call, 3 for an address where there is no memory
  endless           neither happened within 65,536 words

With `--all` there is first one line per instruction that is run, in order: its
address, its name and its numbers as `dvg list` writes them, and after `at` the
beam after it: x, y and scale. Where it draws a stroke, its line follows.

With `--moves` there is first one line `HHH x0 y0 x1 y1 z` per move, in order: the
address of its VCTR, SVEC or LABS, from where to where, and the intensity, which is
0 where nothing is seen and of each LABS. A run that broke or is endless has them
up to its last whole instruction.

With `--units` moves and strokes are in whole units, 0 to 4095, as hardware counts
them: along each axis a vector of d in 1/512 counts (|d| + 256) / 512, rounded down,
with the sign of d, also where nothing is seen, and a LABS sets the count.

With `--svg` standard output is the picture as SVG, in which at 100 percent a
screen unit is a pixel. If the run breaks or never ends, the SVG has the strokes
so far; its title, also on standard error, says why: `broke HHH F` or `endless`.
The status is 1 wherever there is no picture.

Fault: `dump size N: wanted are 4096 or 6144 bytes` for N bytes, any other number;
N is `6145 or more` for more than 6,144.

Example:
  $ printf '\\001\\340\\220\\241\\000\\002\\144\\220\\144\\164\\000\\260' >dump
  $ head -c 4084 /dev/zero >>dump
  $ dvg picture <dump
  picture 6 1
  262144 204800 210944 256000 7

What is wrong with an input, and what to do: `dvg explain < INPUT`.";

/// The input and output of `check`.
pub(crate) const CHECK: &str =
    "Standard input: a draft as text, at most 1,048,576 bytes. First may come a line
`map 2048` or `map 4096`, the number of the ROM's bytes: its words are those of
800 to BFF, or of 400 to BFF; 2048 holds where there is no such line. Then lines
`rom HHH HHHH ..`: one to eight words of the ROM from one of these addresses on,
in hexadecimal. A word that no line gives is D000. Then a line an operation, at
most 511, which are numbered from 0:

  labs X Y S        put the beam at X Y and set the global scale
                    (X and Y 0 to 4095, S 0 to 15)
  vctr S DX DY Z    move the beam by DX and DY, with local scale S, and draw
                    with intensity Z, where 0 draws nothing
                    (S 0 to 9, DX and DY -1023 to 1023, Z 0 to 15)
  svec S DX DY Z    the same in one word, with moves of 256 times DX and DY
                    (S 2 to 5, DX and DY -3 to 3, Z 0 to 15)
  call N            call operation N (0 to 65535)
  jump N            go on at operation N (0 to 65535)
  callrom HHH       call the ROM word at this address
  jumprom HHH       go on at the ROM word at this address
  return            return from the newest call
  halt              end the picture

With scales that add up to 9, moves are in units of the screen; each step less
halves them, and from 10 to 15 nothing moves (scales add up modulo 16).

Parts of a line are separated by one space, and numbers have no leading zeros.
An empty line and a line that begins with `#` are passed over.

Standard output: `ok W words` for a draft that may be drawn, and with `--bound`
`ok W words N fetches`, where N is how many words the generator fetches in the
whole run, word zero included. Else one of these, where I is an operation and
PLACE is `op I` or `word HHH`:

  fault 1 empty              there is no operation
  fault 2 no labs            operation 0 is no labs
  fault 3 too long           the operations take more than 511 words: labs and
                             vctr two, others one
  fault 4 target I           I names an operation that isn't there
  fault 5 runs off I         I is the last operation, and one must come after it
  fault 6 out of rom PLACE   this leads out of the ROM's words
  fault 7 too deep PLACE     this calls inside of four calls
  fault 8 no caller PLACE    this returns outside of any call
  fault 9 loops              a place leads back to itself, with as many calls
                             open, so the picture may have no end

Faults of the text: `too long` for more than 1,048,576 bytes, `syntax at line N`
for a line that is none of these or stands where it may not, and `full at line N`
for operation 512. Lines are numbered from 1.

Example:
  $ printf 'labs 512 400 0\\nvctr 9 -100 100 7\\nhalt\\n' | dvg check
  ok 5 words
  $ printf 'labs 512 400 0\\nvctr 9 -100 100 7\\nhalt\\n' | dvg check --bound
  ok 5 words 6 fetches

What is wrong with an input, and what to do: `dvg explain < INPUT`.";

/// How `play` is called.
pub(crate) const PLAY_USAGE: &str =
    "dvg play [--all | --svg [--scale N] [--rate N]] [--banked] < TRACE";

/// The input and output of `play`.
pub(crate) const PLAY: &str =
    "Standard input: a trace as text, at most 1,048,576 bytes. Lines `map` and `rom`
may come first, as `dvg rom` writes them and `dvg help check` tells them; a word
that no line gives is D000. Then events, at most 65,536, which are numbered from
0:

  offer         offer a frame to the driver: this line, a line for each of its
  ..            operations (`dvg help check` tells them, at most 511), and `end`
  end
  redraw        ask for the published frame once more
  tick [N]      a step of the driver
  strobe [N]    a strobe that the driver sent arrives at the generator
  fetch [N]     the generator fetches a byte: a word's low one, then its high one
  resetgen      reset the generator
  resetcpu      reset the driver
  resetall HH   reset both, with a RAM of bytes HH

N is 1 to 9999 and repeats the event. The RAM holds zeros at first. A driver is
busy at first, for two ticks and until the generator is halted, and then from
an offer or a redraw until it sends the strobe. An empty line and a line that
begins with `#` are passed over.

Standard output: for each finished picture a line `picture EVENT STROKES`, with
the event that finished it and the number of its strokes, and then a line
`x0 y0 x1 y1 z` a stroke: from where to where, in 1/512 of a screen unit, and
the intensity. With `--all` a line for each event instead, with what came of it,
and a picture's strokes after the event that finished it.

With `--svg` standard output is one SVG, in which the finished pictures are shown
in turn, and then from the first one again. At 100 percent a screen unit is a
pixel.

With `--banked` the RAM is kept in banks, of which none has bytes of both
halves. The same is written, so one sees that no picture depends on how the RAM
is kept.

Faults: `too long` for more than 1,048,576 bytes, `syntax at line N` for a line
that is none of these or stands where it may not, `full at line N` for operation
512 of a frame, `too many events at line N` for event 65,537, and
`offer without end`. Lines are numbered from 1.

Example:
  $ printf 'tick 2\\noffer\\nlabs 512 400 0\\nvctr 9 -100 100 7\\nhalt\\nend\\n' >trace
  $ printf 'tick 14\\nstrobe\\nfetch 12\\n' >>trace
  $ dvg play <trace
  picture 29 1
  262144 204800 210944 256000 7

What is wrong with an input, and what to do: `dvg explain < INPUT`.";

/// How `torn` is called.
pub(crate) const TORN_USAGE: &str = "dvg torn [--moments [--all]] [--base HHHH] < LOG";

/// The input and output of `torn`.
pub(crate) const TORN: &str =
    "Standard input: a log of what a system of any kind did, as text of any length, one
line per event:

  started           a strobe began a run of the generator
  low HHH HH        the generator fetched the low byte of the word at HHH
  fetched HHH HHHH  it fetched the word at HHH, or the high byte of it
  halted            the run ended
  reset             the generator was reset, so the run is over
  wrote HHH HH      a byte was written in the RAM, at this byte address, 000
                    to 7FF

A line has at most 64 bytes. Numbers are hexadecimal, with as many digits as
here. Capitals, and a CR at the end, are read, too. An empty line and a line that
begins with `#` are passed over.

With `--base HHHH` it is `wrote HHHH HH`, at an address of the processor: the RAM
lies there from the base on, and a line that writes elsewhere is at fault. Words
have the addresses of the generator all the same.

Take `torn` alone for a system that draws one half of the RAM while it writes the
other: it names the first byte that breaks this. Take `torn --moments` for any
other system, with one buffer or many: it says whether each run is consistent, or
mixes two states of memory.

A half of the RAM is being drawn from the first word that a run fetched on, if
that is word 000, a jump to the half, until the run ends. Half 0 is bytes 002 to
3FF, half 1 is bytes 402 to 7FF.

Standard output: `torn at line N: wrote HHH HH` for the first byte that is
written in the half being drawn, and on a line of its own what was seen so far;
else `not torn: R runs, D drew a half, H halted, W writes`. Where no run drew a
half, nothing could be torn, and it is `no run drew a half: ..`. Usual causes: the
log omits word zero after `started`, or swaps its bytes. Lines are numbered from 1.
Nothing is judged after the first line that is torn or at fault.

With `--moments` it is `torn at line N: ..` for the first finished run that is
mixed: at no moment had memory all that it read, with none of it changed between
that moment and its reading. A byte that comes back has changed. Line N, which is
shown, is the read that ruled out the last moment. It is
`line N reads what was not written: ..` for the first line that reads another byte
than the log told last of it: of the RAM, of the ROM, or of the low byte that was
told of this very word. Else it is `whole: R runs, H halted, J judged`, where H
runs came to a line `halted`, and J of these had fetched past word zero: a low byte
or a word at another word address than 000. Where none had, it is `no run to judge:
..`, as word zero alone doesn't show what was drawn. `halted` tells no word, so the
log before it is judged. After `reset`, which may be one of the whole system,
nothing is known of memory. A byte that is written before the log tells what stood
there counts as changed.

With `--moments --all` there is a line `torn at line N: ..` for each such run, and
at the end `in all: R runs, H halted, T torn`, or what is said where none is torn.
It stops at a read that contradicts the log: something unlogged wrote that byte.
At a fault the lines before it are written.

Fault: `syntax at line N`. After the number stands the text of the line, and further
lines tell what was expected and what is known of the lines before it. The status is
0 for `not torn` and `whole`, and 1 for all else that is said of a log.

Example:
  $ printf 'started\\nfetched 000 E201\\nwrote 402 90\\n' | dvg torn
  torn at line 3: wrote 402 90
  so far: 1 runs, 1 drew a half, 0 halted, 1 writes
  $ printf 'started\\nfetched 000 E201\\nwrote 4402 90\\n' | dvg torn --base 4000
  torn at line 3: wrote 402 90
  so far: 1 runs, 1 drew a half, 0 halted, 1 writes
  $ printf 'started\\nfetched 000 E201\\nhalted\\nwrote 402 90\\n' | dvg torn
  not torn: 1 runs, 1 drew a half, 1 halted, 1 writes
  $ printf 'started\\nlow 1FF 05\\nhalted\\n' | dvg torn --moments
  whole: 1 runs, 1 halted, 1 judged

What is wrong with an input, and what to do: `dvg explain < INPUT`.";

/// How `render` is called.
pub(crate) const RENDER_USAGE: &str = "dvg render [--check] [--scale N] [--rate N] < SKETCH";

/// The input and output of `render`.
pub(crate) const RENDER: &str =
    "Standard input: a sketch as text, at most 1,048,576 bytes, with the operations of
its ROM and of its frames; `dvg help lay` tells it. A draft is a sketch, too.

Standard output: one SVG, in which the frames are shown in turn, and then from the
first one again. At 100 percent a screen unit is a pixel.

With `--check` it is a line for each frame instead, as `dvg check --bound` writes
it of a draft, after the frame's name and a colon, if it has one. Where the run of
the frame fetches at most 65,536 words, the line goes on with its vectors, its other
instructions, and how many microseconds the arcade emulator counts for all of them:
2^(s+1) * 8 / 12.096 + 4 for a vector of an effective scale s of 0 to 9, and 4 for
each other instruction and vector. Nothing is said of real hardware. `--scale` and
`--rate` have no effect then. The status is 1 where a frame may not be drawn.

Without `--check` nothing is written of a sketch with such a frame: standard error
tells the line at fault, or the word of the ROM and the name before it, with the
fault, and the status is 1. The same happens if a frame takes more than 65,536
words to draw.

Faults of the text: those that `dvg help lay` tells.

Example:
  $ printf 'labs 512 400 0\\nvctr 9 -100 100 7\\nhalt\\n' | dvg render --check
  ok 5 words 6 fetches, 1 vectors, 3 other instructions, 693 microseconds in the emulator
  $ printf 'labs 512 400 0\\nvctr 9 -100 100 7\\nhalt\\n' | dvg render | grep path
  <path d=\"M262144 204800l-51200 51200\" opacity=\".60\"/>

What is wrong with an input, and what to do: `dvg explain < INPUT`.";

/// How `lay` is called.
pub(crate) const LAY_USAGE: &str =
    "dvg lay [--half 0|1 | --table | --rom | --equates | --draft] < SKETCH";

/// The input and output of `lay`.
pub(crate) const LAY: &str = "Standard input: a sketch as text, at most 1,048,576 bytes: a draft, as
`dvg help check` tells it, with names, several frames and operations of the ROM.

  map N             as in a draft; such lines stand before all others
  rom HHH HHHH ..
  .frame [NAME]     begins a frame, which may have a name. What stands before
                    the first `.frame` and `.rom` is a frame, too
  .rom [HHH]        begins operations of the ROM at this word, or at the first
                    word after all that were given; the ROM's first is 400 with
                    `map 4096`, and else 800
  NAME:             names the next operation; one may stand on the same line
  labs X Y S ..     an operation as in a draft, at most 511 in a frame
  call NAME         call an operation of this frame; below `.rom`, of the ROM.
  call N            A frame may also tell its number
  jump NAME         go on there
  jump N
  callrom NAME      call an operation of the ROM, or the word at an address
  callrom HHH
  jumprom NAME      go on there
  jumprom HHH

A name is a letter and then letters, digits and `_`, at most 32 bytes, and not
three hexadecimal digits. Each stands once in its frame, in the ROM, or among the
frames. Spaces and tabs part words, a `#` begins a comment, and capitals are
small letters.

Standard output, by one option at most:

  --half 0|1        the bytes of each frame as it lies in this half, the low byte
                    of each word first, one frame after the other; half 0 begins
                    at word 001, half 1 at 201. Without an option it is half 0
  --table           text for the assembler ca65: of each frame its name as a
                    label, or `frame_N` with its number from 0, the number of its
                    words, and the words of each operation as it lies in half 0
  --rom             the 2,048 or 4,096 bytes of the ROM, where D000 is each word
                    that the sketch doesn't give
  --equates         a line `NAME = $HHH` for each name of the ROM: its address
  --draft           the lines of the ROM, with eight words each, but for lines of
                    D000 alone, and each frame as a draft without names. One frame
                    stands as `check` reads it, and several as `play` does, each
                    between `offer` and `end`

Nothing is written of a sketch with a frame that may not be drawn: standard error
tells the line at fault, or the word of the ROM and the name before it, with the
fault that `dvg check` would tell, and the status is 1. So it is with `--table`
where a frame calls a word below 400 by `callrom`, or jumps there. With `--draft`
no frame is checked: `check` and `play` do that.

Faults of the text: `too long` for more than 1,048,576 bytes, and of the first
line at fault the first of these:

  syntax at line N             it is none of these, or stands where it may not
  name given again at line N   its name is given before
  full at line N               it has operation 512 of its frame
  out of rom at line N         it begins before the ROM's first word, or goes past
                               C00
  overlap at line N            it lies on a word of another `.rom`
  unknown name at line N       it uses a name that isn't given in its frame or in
                               the ROM; reported only if no line has another fault

Lines are numbered from 1. After the number stands the text of the line, and a
second line tells what was expected.

Example:
  $ printf 'labs 512 400 0\\nvctr 9 -100 100 7\\nhalt\\n' | dvg lay --table
  frame_0:
          .word 5
          .word $A190, $0200 ; labs 512 400 0
          .word $9064, $7464 ; vctr 9 -100 100 7
          .word $B000 ; halt
  $ printf '.rom 8A0\\ndash: svec 2 1 1 7\\nreturn\\n' | dvg lay --equates
  dash = $8A0
  $ printf 'labs 512 400 0\\nagain: jump over\\nover: halt\\n' | dvg lay --draft
  labs 512 400 0
  jump 2
  halt

What is wrong with an input, and what to do: `dvg explain < INPUT`.";

/// The input and output of `explain`.
pub(crate) const EXPLAIN: &str = "Standard input: any input of `dvg`, at most 1,048,576 bytes.

Standard output: what is wrong first, with its line, what was expected there, and
what to do; or what is odd, and which commands take the input. The last line is
`kind: KIND, ..`, where KIND is words, draft, sketch, trace, dump or log, and
`accepted` or `something is wrong` follows; or `kind: none`.

An input is accepted if the command takes it that reads this kind, and of a log,
if `dvg torn` says that it isn't torn. The status is 0 then, and else 1.

Example:
  $ printf 'labs 512 400 0\\nvctr 9 -100 100 7\\n' | dvg explain
  line 2: vctr 9 -100 100 7
  it is the last operation, and one must come after it
  do: end with halt, return or a jump
  fault 5 runs off 1
  kind: draft, something is wrong";

/// How `game` is called.
pub(crate) const GAME_USAGE: &str = "dvg game [--notes] < GAME";

/// The input and output of `game`.
pub(crate) const GAME: &str =
    "Standard input: a game for the board of Asteroids, 8,192 bytes: the 2,048 of its
vector ROM, and then the 6,144 of its program, from 6800 to 7FFF.

Standard output: one of three verdicts.
  no run of these bytes tears a picture             status 0
  refused: and a line for each instruction that breaks a rule, with its address,
  the rule, and what to do, the causes first        status 1
  keeps to the rules, but not all that it offers and puts is seen   status 3
With `--notes` the notes of the program follow, a line for each instruction, and
then each table that it offers, and each word that it puts. A note has the level;
how many bytes it has pushed, and may still push; how many instructions the NMI
may still do; what A, X, Y and the bytes that it pushed hold of the registers
where the NMI came; and `awake`, where dvg_reset was called, `blank`, where a
frame may be empty, and `ends`, where it may be so at the RTS.

Faults: `game size N` for another number of bytes.

Example:
  $ cat build/rom build/game.program | dvg game";
}
mod laying {
//! The subcommand `lay`, and what its options ask for. They exclude each other, which is this
//! project's own choice.
use crate::command::{helped, with_flag, with_value};
use crate::help;
use crate::options::is_set;
use clap::error::ErrorKind;
use clap::{ArgMatches, Command};
use dvg_job::{Job, LayForm};
use dvg_mem::Half;
use std::alloc::{AllocError, Global};

/// Which values `--half` takes.
pub(crate) const HALF_TAKES: &str = "'--half' takes 0 or 1";

/// Returns the subcommand `lay`.
pub(crate) fn lay_command<'a>(alloc: Global) -> Result<Command<'a>, AllocError> {
    let about = "Lay out the frames of a sketch";
    let lay = helped(alloc, "lay", about, help::LAY_USAGE, help::LAY);
    let half = "Write the frames as they lie in this half [default: 0]";
    let with_half = with_value(alloc, lay, "half", "0|1", half)?;
    let table = "Write the frames as text for the assembler ca65";
    let with_table = with_flag(alloc, with_half, "table", table)?;
    let rom = "Write the bytes of the ROM";
    let with_rom = with_flag(alloc, with_table, "rom", rom)?;
    let equates = "Write the names of the ROM with their addresses";
    let with_equates = with_flag(alloc, with_rom, "equates", equates)?;
    let draft = "Write the frames as drafts without names, as check and play read them";
    with_flag(alloc, with_equates, "draft", draft)
}

// Returns how many forms are asked for, by `half`, `table`, `rom`, `equates` and `draft`. One is
// the most that `lay` takes.
fn forms_wanted(half: bool, table: bool, rom: bool, equates: bool, draft: bool) -> u8 {
    u8::from(half) + u8::from(table) + u8::from(rom) + u8::from(equates) + u8::from(draft)
}

// Returns the form for the half that `number` names, `0` or `1`. Returns `None` for any other text.
fn half_form(number: &str) -> Option<LayForm> {
    if number == "0" {
        Some(LayForm::Bytes(Half::H0))
    } else if number == "1" {
        Some(LayForm::Bytes(Half::H1))
    } else {
        None
    }
}

// Returns the form for the first of `table`, `rom`, `equates` and `draft` that is set, or else for
// `half`, the value of `--half`, or else for half 0. Returns `None` where `half` decides and is
// neither `0` nor `1`.
fn form_by(
    table: bool,
    rom: bool,
    equates: bool,
    draft: bool,
    half: Option<&str>,
) -> Option<LayForm> {
    if table {
        return Some(LayForm::Table);
    }
    if rom {
        return Some(LayForm::Rom);
    }
    if equates {
        return Some(LayForm::Equates);
    }
    if draft {
        return Some(LayForm::Draft);
    }
    match half {
        Some(number) => half_form(number),
        None => Some(LayForm::Bytes(Half::H0)),
    }
}

// Returns the form that the options in `found` ask for: bytes in half 0 where none is given.
// Refused are two options (`ArgumentConflict`) and another half than 0 or 1 (`InvalidValue`).
fn lay_form(found: &ArgMatches) -> Result<LayForm, ErrorKind> {
    let half = found.get_str("half");
    let table = is_set(found, "table");
    let rom = is_set(found, "rom");
    let equates = is_set(found, "equates");
    let draft = is_set(found, "draft");
    if forms_wanted(half.is_some(), table, rom, equates, draft) > 1 {
        return Err(ErrorKind::ArgumentConflict);
    }
    match form_by(table, rom, equates, draft, half) {
        Some(form) => Ok(form),
        None => Err(ErrorKind::InvalidValue),
    }
}

/// Returns what the options of `lay` in `found` ask for. Refused are two options
/// (`ArgumentConflict`), and a half that is neither 0 nor 1 (`InvalidValue`).
pub(crate) fn lay_job(found: &ArgMatches) -> Result<Job, ErrorKind> {
    match lay_form(found) {
        Ok(form) => Ok(Job::Lay { form }),
        Err(kind) => Err(kind),
    }
}
}
mod listing {
//! The subcommand `list`, and what its option asks for.
use crate::command::{helped, with_value};
use crate::help;
use crate::options::hex_in;
use clap::error::ErrorKind;
use clap::{ArgMatches, Command};
use dvg_job::Job;
use std::alloc::{AllocError, Global};

/// Which values `--at` takes.
pub(crate) const AT_TAKES: &str = "'--at' takes an address of three hexadecimal digits";

/// Returns the subcommand `list`.
pub(crate) fn list_command<'a>(alloc: Global) -> Result<Command<'a>, AllocError> {
    let about = "List the instructions of words";
    let list = helped(alloc, "list", about, help::LIST_USAGE, help::LIST);
    let at = "Count addresses from this one, three hexadecimal digits";
    with_value(alloc, list, "at", "HHH", at)
}

/// Returns what the option of `list` in `found` asks for. A value that isn't three hexadecimal
/// digits is refused (`InvalidValue`).
pub(crate) fn list_job(found: &ArgMatches) -> Result<Job, ErrorKind> {
    let Some(text) = found.get_str("at") else {
        return Ok(Job::List);
    };
    match hex_in(3, text) {
        Some(address) => Ok(Job::ListAt { address }),
        None => Err(ErrorKind::InvalidValue),
    }
}
}
mod logging {
//! The subcommand `torn`, and what its options ask for.
use crate::command::{helped, with_flag, with_value};
use crate::help;
use crate::options::{hex_in, is_set};
use clap::error::ErrorKind;
use clap::{ArgMatches, Command};
use dvg_job::{Job, LogRule};
use std::alloc::{AllocError, Global};

/// Which values `--base` takes.
pub(crate) const BASE_TAKES: &str = "'--base' takes an address of four hexadecimal digits";

/// Returns the subcommand `torn`.
pub(crate) fn torn_command<'a>(alloc: Global) -> Result<Command<'a>, AllocError> {
    let about = "Say whether a log tears a picture, and where";
    let torn = helped(alloc, "torn", about, help::TORN_USAGE, help::TORN);
    let moments = "Say whether each run is consistent, for any system";
    let with_moments = with_flag(alloc, torn, "moments", moments)?;
    let all = "With --moments, tell each torn run, not the first alone";
    let with_all = with_flag(alloc, with_moments, "all", all)?;
    let base = "Bytes are written at the processor's addresses, of a RAM from here on";
    with_value(alloc, with_all, "base", "HHHH", base)
}

// Returns the rule that the flags `--moments` and `--all` ask for.
fn rule_of(moments: bool, all: bool) -> LogRule {
    if !moments {
        LogRule::Halves
    } else if all {
        LogRule::AllMoments
    } else {
        LogRule::Moments
    }
}

// Returns the base that `found` gives, if it gives one. Returns `None` where its value isn't four
// hexadecimal digits.
fn read_base(found: &ArgMatches) -> Option<Option<u16>> {
    let Some(text) = found.get_str("base") else {
        return Some(None);
    };
    match hex_in(4, text) {
        Some(base) => Some(Some(base)),
        None => None,
    }
}

/// Returns what the options of `torn` in `found` ask for. Refused are `--all` without `--moments`
/// (`MissingRequiredArgument`), and a base that isn't four hexadecimal digits (`InvalidValue`).
pub(crate) fn torn_job(found: &ArgMatches) -> Result<Job, ErrorKind> {
    let moments = is_set(found, "moments");
    let all = is_set(found, "all");
    if all && !moments {
        return Err(ErrorKind::MissingRequiredArgument);
    }
    match read_base(found) {
        Some(base) => Ok(Job::Torn {
            rule: rule_of(moments, all),
            base,
        }),
        None => Err(ErrorKind::InvalidValue),
    }
}
}
mod misuse {
//! The error of options that are refused after the matching.
use crate::help;
use crate::laying::HALF_TAKES;
use crate::listing::AT_TAKES;
use crate::logging::BASE_TAKES;
use crate::showing::{RATE_TAKES, SCALE_TAKES, has_scale};
use clap::error::ErrorKind;
use clap::{ArgMatches, Command, Error};
use std::alloc::Global;

// Returns how the subcommand `name` is called. For any other name it is how the program is called.
fn usage_of(name: &str) -> &'static str {
    if name == "list" {
        help::LIST_USAGE
    } else if name == "picture" {
        help::PICTURE_USAGE
    } else if name == "play" {
        help::PLAY_USAGE
    } else if name == "render" {
        help::RENDER_USAGE
    } else if name == "lay" {
        help::LAY_USAGE
    } else if name == "torn" {
        help::TORN_USAGE
    } else {
        help::USAGE
    }
}

// Returns which options of the subcommand `name` exclude each other.
fn clash_of(name: &str) -> &'static str {
    if name == "lay" {
        "one of '--half', '--table', '--rom', '--equates' and '--draft' may be given"
    } else if name == "picture" {
        "'--all', '--svg', and '--moves' or '--units' exclude each other"
    } else {
        "'--all' and '--svg' exclude each other"
    }
}

// Returns which values the option takes by which those in `found`, of the subcommand `name`, are
// refused.
fn range_of(name: &str, found: Option<&ArgMatches>) -> &'static str {
    if name == "list" {
        return AT_TAKES;
    }
    if name == "torn" {
        return BASE_TAKES;
    }
    if name == "lay" {
        return HALF_TAKES;
    }
    match found {
        Some(found) if has_scale(found) => RATE_TAKES,
        _ => SCALE_TAKES,
    }
}

// Returns the text for the `kind` of error by which the options in `found`, of the subcommand
// `name`, are refused.
fn described(name: &str, found: Option<&ArgMatches>, kind: ErrorKind) -> &'static str {
    match kind {
        ErrorKind::ArgumentConflict => clash_of(name),
        ErrorKind::MissingRequiredArgument if name == "torn" => "'--all' wants '--moments'",
        ErrorKind::MissingRequiredArgument => "'--scale' and '--rate' want '--svg'",
        _ => range_of(name, found),
    }
}

/// Returns the error of this `kind`, which says why the options in `matches` are refused. Where an
/// allocation fails, it is `OutOfMemory` instead.
pub(crate) fn misuse(alloc: Global, matches: &ArgMatches, kind: ErrorKind) -> Error {
    let (name, found) = match matches.subcommand() {
        Some(entered) => (entered.0, Some(entered.1)),
        None => ("", None),
    };
    let mut command = Command::new(alloc, "dvg").override_usage(usage_of(name));
    match command.error(kind, described(name, found, kind)) {
        Ok(error) => error,
        Err(want) => Error::from(want),
    }
}
}
mod options {
//! What the options of a subcommand say.
use clap::ArgMatches;

/// Whether `found` sets the flag `id`.
pub(crate) fn is_set(found: &ArgMatches, id: &str) -> bool {
    match found.get_str(id) {
        Some(text) => text == "true",
        None => false,
    }
}

/// Whether `found` gives the option `id` a value.
pub(crate) fn is_given(found: &ArgMatches, id: &str) -> bool {
    found.get_str(id).is_some()
}

// Returns the number that `text` writes in decimal, if it is from `least` to `most`.
fn number_in(least: u16, most: u16, text: &str) -> Option<u16> {
    let Ok(number) = text.parse::<u16>() else {
        return None;
    };
    if number < least || most < number {
        return None;
    }
    Some(number)
}

/// Returns the number that `found` gives for the option `id`, or `default` where it isn't given.
/// Returns `None` where the value isn't a number from `least` to `most`.
pub(crate) fn number_of(
    found: &ArgMatches,
    id: &str,
    least: u16,
    most: u16,
    default: u16,
) -> Option<u16> {
    match found.get_str(id) {
        Some(text) => number_in(least, most, text),
        None => Some(default),
    }
}

/// Returns the number that `text` writes, if it is so many hexadecimal `digits` of either case, 1
/// to 4.
pub(crate) fn hex_in(digits: usize, text: &str) -> Option<u16> {
    let bytes = text.as_bytes();
    if bytes.len() != digits || bytes[0] == b'+' {
        return None;
    }
    match u16::from_str_radix(text, 16) {
        Ok(address) => Some(address),
        Err(_) => None,
    }
}
}
mod refusal {
//! How the program ends where its arguments give no job.
use clap::Error;
use clap::error::ErrorKind;

/// The exit status of arguments that ask for nothing the program can do.
pub const MISUSE: u8 = 64;

/// Returns the exit status for the `error` of arguments that give no job: 0 where they ask for help
/// or the version, 2 where an allocation failed, and `MISUSE` where they ask for nothing that the
/// program can do (this project's own choice).
pub fn arguments_status(error: &Error) -> u8 {
    match error.kind() {
        ErrorKind::DisplayHelp | ErrorKind::DisplayVersion => 0,
        ErrorKind::OutOfMemory => 2,
        _ => MISUSE,
    }
}
}
mod showing {
//! The options `--scale` and `--rate`, how large pictures are shown, and how fast: their names,
//! helps and ranges (this project's own choice).
use crate::command::with_value;
use crate::options::number_of;
use clap::{ArgMatches, Command};
use dvg_job::Show;
use std::alloc::{AllocError, Global};

/// The least size, in percent.
pub(crate) const LEAST_PERCENT: u16 = 10;

/// The greatest size.
pub(crate) const MOST_PERCENT: u16 = 400;

/// The size where none is given.
pub(crate) const USUAL_PERCENT: u16 = 100;

/// Which sizes are taken.
pub(crate) const SCALE_TAKES: &str = "'--scale' takes a number from 10 to 400";

/// The help of `--scale`.
const SCALE: &str = "Show pictures in this size in percent, 10 to 400 [default: 100]";

/// The least rate, in pictures a second.
pub(crate) const LEAST_RATE: u16 = 1;

/// The greatest rate.
pub(crate) const MOST_RATE: u16 = 60;

/// The rate where none is given.
pub(crate) const USUAL_RATE: u16 = 30;

/// Which rates are taken.
pub(crate) const RATE_TAKES: &str = "'--rate' takes a number from 1 to 60";

/// The help of `--rate`.
const RATE: &str = "Show so many pictures a second, 1 to 60 [default: 30]";

/// Returns the command `part` with the size of pictures as one more option.
pub(crate) fn with_scale<'a>(alloc: Global, part: Command<'a>) -> Result<Command<'a>, AllocError> {
    with_value(alloc, part, "scale", "N", SCALE)
}

/// Returns the command `part` with the size and the rate of pictures as further options.
pub(crate) fn with_show<'a>(alloc: Global, part: Command<'a>) -> Result<Command<'a>, AllocError> {
    let scaled = with_scale(alloc, part)?;
    with_value(alloc, scaled, "rate", "N", RATE)
}

// Returns the size that `found` gives, or else the usual one. Returns `None` where it is none.
fn read_percent(found: &ArgMatches) -> Option<u16> {
    number_of(found, "scale", LEAST_PERCENT, MOST_PERCENT, USUAL_PERCENT)
}

/// Whether the size that `found` gives is in range, or none is given.
pub(crate) fn has_scale(found: &ArgMatches) -> bool {
    read_percent(found).is_some()
}

/// Returns the size and the rate that `found` gives, or else the usual ones. Returns `None` where
/// one of them is out of range.
pub(crate) fn read_show(found: &ArgMatches) -> Option<Show> {
    let Some(percent) = read_percent(found) else {
        return None;
    };
    let Some(rate) = number_of(found, "rate", LEAST_RATE, MOST_RATE, USUAL_RATE) else {
        return None;
    };
    Some(Show { percent, rate })
}
}

pub use arguments::job;
pub use refusal::{MISUSE, arguments_status};
