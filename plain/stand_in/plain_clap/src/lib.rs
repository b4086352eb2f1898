//! What the sources use of Rattle's port of `clap`: commands with subcommands, and flags and
//! options with a long name. Help, refusals and tips are spelled as `clap` spells them. Where
//! memory is refused, that is answered.
#![no_std]

extern crate alloc;

use alloc::string::String;
use alloc::vec::Vec;
use core::fmt;
use plain_std::alloc::{AllocError, AllocFailed, Box, Global};
use strsim::jaro;

/// What an error is about.
pub mod error {
    /// The kinds that the sources tell apart.
    #[derive(Clone, Copy, Debug, PartialEq, Eq)]
    pub enum ErrorKind {
        /// A help text was asked for.
        DisplayHelp,
        /// The version was asked for.
        DisplayVersion,
        /// Memory was refused.
        OutOfMemory,
        /// Options that may not stand together.
        ArgumentConflict,
        /// An option without another that it wants.
        MissingRequiredArgument,
        /// A value that an option doesn't take.
        InvalidValue,
        /// The arguments match nothing.
        Refused,
    }
}

use error::ErrorKind;

/// What is done with an argument.
pub enum ArgAction {
    /// It is set where it is given.
    SetTrue,
    /// It takes one value.
    Set,
}

/// A flag, or an option with a value.
pub struct Arg<'a> {
    id: &'a str,
    long: &'a str,
    /// What the help text calls its value.
    value_name: &'a str,
    takes_value: bool,
    help: &'a str,
}

impl<'a> Arg<'a> {
    /// A flag, whose long name is that which it is asked for by.
    pub fn new(_alloc: Global, id: &'a str) -> Arg<'a> {
        Arg {
            id,
            long: id,
            value_name: id,
            takes_value: false,
            help: "",
        }
    }

    /// What the help text calls its value.
    pub fn value_name(self, value_name: &'a str) -> Arg<'a> {
        Arg { value_name, ..self }
    }

    /// Its long name, without the dashes.
    pub fn long(self, long: &'a str) -> Arg<'a> {
        Arg { long, ..self }
    }

    /// What the help text says of it.
    pub fn help(self, help: &'a str) -> Arg<'a> {
        Arg { help, ..self }
    }

    /// What is done with it.
    pub fn action(self, action: ArgAction) -> Arg<'a> {
        let takes_value = matches!(action, ArgAction::Set);
        Arg {
            takes_value,
            ..self
        }
    }
}

/// As texts show it.
impl fmt::Display for Arg<'_> {
    fn fmt(&self, f: &mut fmt::Formatter<'_>) -> fmt::Result {
        write!(f, "--{}", self.long)?;
        if self.takes_value {
            write!(f, " <{}>", self.value_name)?;
        }
        Ok(())
    }
}

/// A command.
#[derive(Default)]
pub struct Command<'a> {
    name: &'a str,
    about: &'a str,
    usage: &'a str,
    after: &'a str,
    version: Option<&'a str>,
    needs_part: bool,
    args: Vec<Arg<'a>>,
    parts: Vec<Command<'a>>,
}

impl<'a> Command<'a> {
    /// A command of this name.
    pub fn new(_alloc: Global, name: &'a str) -> Command<'a> {
        Command {
            name,
            ..Command::default()
        }
    }

    /// What the help text says of it.
    pub fn about(self, about: &'a str) -> Command<'a> {
        Command { about, ..self }
    }

    /// The line that tells how it is used.
    pub fn override_usage(self, usage: &'a str) -> Command<'a> {
        Command { usage, ..self }
    }

    /// What stands at the end of its help text.
    pub fn after_help(self, after: &'a str) -> Command<'a> {
        Command { after, ..self }
    }

    /// The version, which `--version` shows. Where `(proved)` stands in it, that is true of the
    /// proved program alone, and `(plain Rust, not proved)` is shown.
    pub fn version(self, version: &'a str) -> Command<'a> {
        Command {
            version: Some(version),
            ..self
        }
    }

    /// Whether one of its subcommands must be given.
    pub fn subcommand_required(self, needs_part: bool) -> Command<'a> {
        Command { needs_part, ..self }
    }

    /// One flag or option more.
    pub fn arg(mut self, arg: Arg<'a>) -> Result<Command<'a>, AllocError> {
        add(&mut self.args, arg)?;
        Ok(self)
    }

    /// One subcommand more.
    pub fn subcommand(mut self, part: Command<'a>) -> Result<Command<'a>, AllocError> {
        add(&mut self.parts, part)?;
        Ok(self)
    }

    /// What the arguments of a command line match, of which the first is the program's name.
    pub fn try_get_matches_from(self, arguments: &'a [&'a str]) -> Result<ArgMatches<'a>, Error> {
        self.matched(arguments.get(1..).unwrap_or(&[]))
    }

    /// What arguments match, without the name of the command.
    fn matched(&self, arguments: &[&'a str]) -> Result<ArgMatches<'a>, Error> {
        let flags = self.args.iter().filter(|arg| !arg.takes_value);
        let mut found = ArgMatches {
            set: Vec::new(),
            flags: gathered(flags.map(|arg| arg.id))?,
            part: None,
        };
        let mut escaped = false;
        let mut arguments = arguments;
        while let [argument, rest @ ..] = arguments {
            arguments = rest;
            match argument.strip_prefix("--").filter(|_| !escaped) {
                Some("") => escaped = true,
                Some(long) => arguments = self.flag(long, rest, &mut found)?,
                None if is_short(argument) && !escaped => {
                    return Err(self.short(argument)?);
                }
                None if *argument == "help" && !self.parts.is_empty() => {
                    return Err(self.helped(rest)?);
                }
                None => {
                    let Some(part) = self.part(argument) else {
                        return Err(self.stray(argument)?);
                    };
                    found.part = Some((part.name, Box::new(Global, part.matched(rest)?)?));
                    return Ok(found);
                }
            }
        }
        if self.needs_part {
            return Err(self.without_part()?);
        }
        Ok(found)
    }

    /// What comes of an argument that begins with a dash and a letter.
    fn short(&self, argument: &str) -> Result<Error, AllocError> {
        let end = argument
            .char_indices()
            .nth(2)
            .map_or(argument.len(), |(k, _)| k);
        match &argument[..end] {
            "-h" => Error::help(self),
            "-V" if self.version.is_some() => Error::version(self),
            flag => self.refused(format_args!("unexpected argument '{flag}' found"), ""),
        }
    }

    /// What comes of the argument `help`, with the arguments after it.
    fn helped(&self, rest: &[&str]) -> Result<Error, AllocError> {
        match rest.first() {
            None => Error::help(self),
            Some(name) => self
                .part(name)
                .map_or_else(|| self.unknown(name), Error::help),
        }
    }

    /// What comes of an argument that is no flag and no subcommand.
    fn stray(&self, argument: &str) -> Result<Error, AllocError> {
        if self.parts.is_empty() {
            self.refused(format_args!("unexpected argument '{argument}' found"), "")
        } else {
            self.unknown(argument)
        }
    }

    /// What comes of arguments without a subcommand, where one must be given.
    fn without_part(&self) -> Result<Error, AllocError> {
        let names = gathered(self.parts.iter().map(|part| part.name))?;
        let why = "requires a subcommand but one was not provided";
        let (name, names) = (self.name, Joined(&names, ", "));
        self.refused(
            format_args!("'{name}' {why}\n  [subcommands: {names}, help]"),
            "",
        )
    }

    /// Takes a flag or an option with a long name, without its dashes. The arguments after it may
    /// have its value, or give a tip. Answers those that are left.
    fn flag<'w>(
        &self,
        long: &'a str,
        rest: &'w [&'a str],
        found: &mut ArgMatches<'a>,
    ) -> Result<&'w [&'a str], Error> {
        let (name, value) = long
            .split_once('=')
            .map_or((long, None), |(name, value)| (name, Some(value)));
        match name {
            "help" => return Err(Error::help(self)?),
            "version" if self.version.is_some() => return Err(Error::version(self)?),
            _ => {}
        }
        let Some(arg) = self.args.iter().find(|arg| arg.long == name) else {
            let tip = self.tip(name, rest)?;
            return Err(self.refused(format_args!("unexpected argument '--{name}' found"), &tip)?);
        };
        let (value, rest) = self.value(arg, value, rest)?;
        if found.set.iter().any(|(id, _)| *id == arg.id) {
            let why = format_args!("the argument '{arg}' cannot be used multiple times");
            return Err(Error {
                kind: ErrorKind::ArgumentConflict,
                ..self.refused(why, "")?
            });
        }
        add(&mut found.set, (arg.id, value))?;
        Ok(rest)
    }

    /// The value of a flag or an option, of which one may stand after `=`, and the arguments that
    /// are left.
    fn value<'w>(
        &self,
        arg: &Arg,
        attached: Option<&'a str>,
        rest: &'w [&'a str],
    ) -> Result<(&'a str, &'w [&'a str]), Error> {
        match (arg.takes_value, attached, rest) {
            (false, None, _) => Ok(("true", rest)),
            (false, Some(value), _) => {
                let more = "no more were expected";
                let why = format_args!("unexpected value '{value}' for '{arg}' found; {more}");
                Err(self.refused(why, "")?)
            }
            (true, Some(value), _) => Ok((value, rest)),
            (true, None, [value, rest @ ..]) if !is_short(value) => Ok((*value, rest)),
            (true, None, _) => {
                let text = text(format_args!(
                    "error: a value is required for '{arg}' but none was supplied\n\n\
                     For more information, try '--help'.\n"
                ))?;
                Err(Error {
                    kind: ErrorKind::InvalidValue,
                    text,
                })
            }
        }
    }

    /// What is said of a flag that isn't known: one that is like it, or a subcommand after it that
    /// has it.
    fn tip(&self, name: &str, rest: &[&str]) -> Result<String, AllocError> {
        let own = self.args.iter().map(|arg| arg.long);
        let longs = own.chain(["help"]).chain(self.version.map(|_| "version"));
        if let Some(like) = similar(name, longs)?.last() {
            return text(format_args!(
                "  tip: a similar argument exists: '--{like}'\n\n"
            ));
        }
        let has_it = |part: &&Command<'_>| part.args.iter().any(|arg| arg.long == name);
        rest.iter()
            .find_map(|argument| self.part(argument).filter(has_it))
            .map_or(Ok(String::new()), |part| {
                text(format_args!("  tip: '{} --{name}' exists\n\n", part.name))
            })
    }

    fn part(&self, name: &str) -> Option<&Command<'a>> {
        self.parts.iter().find(|part| part.name == name)
    }

    /// What comes of an argument where a subcommand must stand, which none is called.
    fn unknown(&self, argument: &str) -> Result<Error, AllocError> {
        let like = similar(argument, self.parts.iter().map(|part| part.name))?;
        let like_it = match like.as_slice() {
            [] => "",
            [_] => "a similar subcommand exists",
            _ => "some similar subcommands exist",
        };
        let tip = match like_it {
            "" => String::new(),
            _ => text(format_args!(
                "  tip: {like_it}: '{}'\n\n",
                Joined(&like, "', '")
            ))?,
        };
        self.refused(format_args!("unrecognized subcommand '{argument}'"), &tip)
    }

    /// An error of this command, in the form of those of arguments.
    pub fn error(&mut self, kind: ErrorKind, why: &str) -> Result<Error, AllocError> {
        Ok(Error {
            kind,
            ..self.refused(format_args!("{why}"), "")?
        })
    }

    fn refused(&self, why: fmt::Arguments<'_>, tip: &str) -> Result<Error, AllocError> {
        let text = text(format_args!(
            "error: {why}\n\n{tip}Usage: {}\n\nFor more information, try '--help'.\n",
            self.usage
        ))?;
        Ok(Error {
            kind: ErrorKind::Refused,
            text,
        })
    }
}

/// Whether an argument is one of flags: it begins with a dash, and goes on.
fn is_short(argument: &str) -> bool {
    argument.len() > 1 && argument.starts_with('-')
}

/// One item more.
fn add<T>(items: &mut Vec<T>, item: T) -> Result<(), AllocError> {
    items.try_reserve(1).map_err(|_| AllocError)?;
    items.push(item);
    Ok(())
}

/// All items.
fn gathered<T>(items: impl Iterator<Item = T>) -> Result<Vec<T>, AllocError> {
    let mut all = Vec::new();
    for item in items {
        add(&mut all, item)?;
    }
    Ok(all)
}

/// A text that grows.
struct Growing(String);

impl fmt::Write for Growing {
    fn write_str(&mut self, part: &str) -> fmt::Result {
        self.0.try_reserve(part.len()).map_err(|_| fmt::Error)?;
        self.0.push_str(part);
        Ok(())
    }
}

impl Growing {
    fn add(&mut self, parts: fmt::Arguments<'_>) -> Result<(), AllocError> {
        fmt::write(self, parts).map_err(|_| AllocError)
    }
}

/// A text of these parts.
fn text(parts: fmt::Arguments<'_>) -> Result<String, AllocError> {
    let mut text = Growing(String::new());
    text.add(parts)?;
    Ok(text.0)
}

/// Some names, with a text between each two.
struct Joined<'n>(&'n [&'n str], &'n str);

impl fmt::Display for Joined<'_> {
    fn fmt(&self, f: &mut fmt::Formatter<'_>) -> fmt::Result {
        for (k, name) in self.0.iter().enumerate() {
            f.write_str(if k == 0 { "" } else { self.1 })?;
            f.write_str(name)?;
        }
        Ok(())
    }
}

/// Those of some names that are like an argument, the most alike last.
fn similar<'n>(
    argument: &str,
    names: impl Iterator<Item = &'n str>,
) -> Result<Vec<&'n str>, AllocError> {
    let mut like: Vec<(f64, &str)> = Vec::new();
    for name in names {
        let how = jaro(Global, argument, name)?;
        if how > 0.7 {
            let place = like.partition_point(|(other, _)| *other <= how);
            add(&mut like, (how, name))?;
            like[place..].rotate_right(1);
        }
    }
    gathered(like.into_iter().map(|(_, name)| name))
}

/// What arguments matched.
pub struct ArgMatches<'a> {
    /// The flags and options that were given, with their values.
    set: Vec<(&'a str, &'a str)>,
    /// All flags of the command.
    flags: Vec<&'a str>,
    part: Option<(&'a str, Box<ArgMatches<'a>>)>,
}

impl<'a> ArgMatches<'a> {
    /// The subcommand that was given, and what its arguments match.
    pub fn subcommand(&self) -> Option<(&'a str, &ArgMatches<'a>)> {
        self.part.as_ref().map(|(name, part)| (*name, &**part))
    }

    /// Whether a flag was given, `true` or `false`; or the value of an option, if it was given.
    pub fn get_str(&self, id: &str) -> Option<&'a str> {
        match self.set.iter().find(|(set, _)| *set == id) {
            Some((_, value)) => Some(value),
            None if self.flags.contains(&id) => Some("false"),
            None => None,
        }
    }
}

/// A text that was asked for, or why arguments matched nothing.
#[derive(Debug)]
pub struct Error {
    kind: ErrorKind,
    text: String,
}

impl Error {
    /// What it is about.
    pub fn kind(&self) -> ErrorKind {
        self.kind
    }

    fn version(command: &Command) -> Result<Error, AllocError> {
        let version = command.version.unwrap_or("");
        let name = command.name;
        Ok(Error {
            kind: ErrorKind::DisplayVersion,
            text: match version.strip_suffix(" (proved)") {
                Some(number) => text(format_args!("{name} {number} (plain Rust, not proved)\n"))?,
                None => text(format_args!("{name} {version}\n"))?,
            },
        })
    }

    fn help(command: &Command) -> Result<Error, AllocError> {
        let mut text = Growing(String::new());
        text.add(format_args!(
            "{}\n\nUsage: {}\n",
            command.about, command.usage
        ))?;
        if !command.parts.is_empty() {
            text.add(format_args!("\nCommands:\n"))?;
            add_table(&mut text, &parts_of(command)?)?;
        }
        text.add(format_args!("\nOptions:\n"))?;
        add_table(&mut text, &options_of(command)?)?;
        text.add(format_args!("\n{}\n", command.after.trim_end_matches('\n')))?;
        Ok(Error {
            kind: ErrorKind::DisplayHelp,
            text: text.0,
        })
    }
}

/// A name, and what the help text says of it.
type Row<'a> = (String, &'a str);

/// A row of a name.
fn row<'a>(name: fmt::Arguments<'_>, about: &'a str) -> Result<Row<'a>, AllocError> {
    Ok((text(name)?, about))
}

/// The subcommands of a command, and `help`.
fn parts_of<'a>(command: &Command<'a>) -> Result<Vec<Row<'a>>, AllocError> {
    let mut rows = Vec::new();
    for part in &command.parts {
        add(&mut rows, row(format_args!("{}", part.name), part.about)?)?;
    }
    let about = "Print this message or the help of the given subcommand(s)";
    add(&mut rows, row(format_args!("help"), about)?)?;
    Ok(rows)
}

/// The flags and options of a command, and those for help and its version.
fn options_of<'a>(command: &Command<'a>) -> Result<Vec<Row<'a>>, AllocError> {
    let mut rows = Vec::new();
    for arg in &command.args {
        add(&mut rows, row(format_args!("    {arg}"), arg.help)?)?;
    }
    add(&mut rows, row(format_args!("-h, --help"), "Print help")?)?;
    if command.version.is_some() {
        add(
            &mut rows,
            row(format_args!("-V, --version"), "Print version")?,
        )?;
    }
    Ok(rows)
}

/// Adds names, and what is said of each after the longest one.
fn add_table(text: &mut Growing, rows: &[Row<'_>]) -> Result<(), AllocError> {
    let width = rows.iter().map(|(name, _)| name.len()).max().unwrap_or(0);
    for (name, about) in rows {
        text.add(format_args!("  {name:width$}  {about}\n"))?;
    }
    Ok(())
}

impl fmt::Display for Error {
    fn fmt(&self, f: &mut fmt::Formatter<'_>) -> fmt::Result {
        f.write_str(&self.text)
    }
}

impl From<AllocError> for Error {
    fn from(_refused: AllocError) -> Error {
        Error {
            kind: ErrorKind::OutOfMemory,
            text: String::new(),
        }
    }
}

impl<T> From<AllocFailed<T>> for Error {
    fn from(_refused: AllocFailed<T>) -> Error {
        AllocError.into()
    }
}
