//! The eraser: takes the contracts away from Rattle sources. What is left is Rust, over plain_std.
//!
//! ```text
//! erase FROM TO CRATE..            writes TO/CRATE/src/lib.rs of FROM/CRATE/src/*.rt
//! erase --check FROM TO CRATE..    compares instead, and names each file that differs: status 1
//! ```
//!
//! Each crate becomes one file: `lib.rs`, or `main.rs` of a program. A file beside that is removed,
//! or named by `--check`.
//!
//! It does four things, and refuses what it doesn't know: status 2.
//!
//! 1. It takes away: `ghost` items, fields and uses; the clauses `requires` and `ensures`; `impl
//!    Model` and the use of `Model`; `tactic` attributes; `Drop` among derives; `derive_where` with
//!    a parameter; the module `laws`, also that of another crate; the `use` of laws, and their
//!    calls, each a statement; modules of tests; and names that are imported for contracts alone. A
//!    comment right before one of these items goes with it.
//! 2. It writes otherwise: `derive_where(X)` as `derive(X)`; `rattlefmt::skip` as `rustfmt::skip`;
//!    the signature of `Display::fmt`, and of functions that a `Formatter<W>` is handed to; `main`,
//!    which gets its runtime by a line of its own; `to_ascii_lowercase` with an allocator, which
//!    Rust's slices have without one, as `to_ascii_lowercase_in`; `clone`, which returns a `Result`
//!    in the sources, as `try_clone`; and `step` as `_step`, where a loop's number has this name,
//!    or any other, for its proof alone.
//! 3. It puts in: the lines of `HEAD` at the head of a crate; `PRELUDE` in a module that names one
//!    of its words; a `use` of the `MACROS` that a module calls; `Clone` and `Debug` at each type
//!    of `COPIED` that derives them not, as Rattle has no copy that takes memory without a refusal;
//!    `Hash` where `Eq` is derived; what `KEPT` has of serde at each of its types;
//!    `non_exhaustive` at each of `GROWING`; `must_use` at each public function that may refuse by
//!    an `Option`, or by a `bool` and is one of `REFUSING`; and `BESIDE` at the end of a library
//!    that has a file `rust.rs`, by hand, beside its sources.
//! 4. It joins: where the sources say `mod NAME;`, it writes `mod NAME {`, what is left of that
//!    module's source, and `}`. This source is `NAME.rt` or `NAME/mod.rt`, and its own modules are
//!    in the folder `NAME`. No line is indented for that, and no source may be left over.
//!
//! All else stays as it is, letter by letter, with its comments.
use std::collections::{BTreeMap, BTreeSet};
use std::path::{Path, PathBuf};
use std::process::ExitCode;
use std::{env, fs};

/// What stands at the head of a library.
const HEAD: &str = "#![no_std]\n\nextern crate plain_std as std;\n\n";

/// What stands at the head of a program, which keeps Rust's own std.
const PROGRAM_HEAD: &str = "extern crate plain_std as std;\n\n";

/// What stands in a module that names one of `PRELUDE_WORDS`.
const PRELUDE: &str = "use std::prelude::*;\n\n";

/// The words that a Rattle source has without a `use`, and that mean something else in Rust.
const PRELUDE_WORDS: [&str; 7] = [
    "Box",
    "Clone",
    "Drop",
    "HostRuntime",
    "String",
    "Vec",
    LOWERCASE_IN,
];

/// What makes a text in small letters in memory of an allocator.
const LOWERCASE_IN: &str = "to_ascii_lowercase_in";

/// The macros whose first word is the runtime, as in Rattle.
const MACROS: [&str; 3] = ["eprint", "eprintln", "println"];

/// The types that Rust's users copy and print, where the sources don't: what users hold, and what
/// that is made of.
const COPIED: [&str; 44] = [
    "struct Alike",
    "struct Banked",
    "struct Chain",
    "struct Checked",
    "struct Checker",
    "struct Counted",
    "struct Cursor",
    "struct Desk",
    "struct DraftText",
    "struct Drawn",
    "struct Driver",
    "struct Dump",
    "enum Ending",
    "struct Entries",
    "struct EntryRun",
    "struct EntryRuns",
    "struct Flat",
    "struct Found",
    "struct Frame",
    "struct Generator",
    "struct GeneratorRefused",
    "struct GeneratorState",
    "struct Image",
    "struct Judge",
    "struct Listing",
    "struct Logged",
    "struct Note",
    "struct Pair",
    "struct PairList",
    "enum Phase",
    "struct Picture",
    "struct Rom",
    "struct Run",
    "struct Runs",
    "struct Stopped",
    "struct Table",
    "enum Taken",
    "struct Traced",
    "struct WordBytes",
    "struct Worklist",
    "struct World",
    "struct WorldRefused",
    "struct WorldState",
    "struct WrappingGenerator",
];

/// What serde has of a type of `KEPT`, where its user asks for that.
const SERDE: &str =
    "#[cfg_attr(feature = \"serde\", derive(serde::Serialize, serde::Deserialize))]\n";

/// The types that serde writes and reads, and by which other type it does: that is checked when it
/// is read. One in `crate::rust` is read alone, and has the form of the type itself. Where none is
/// named, each value of the type is one.
const KEPT: [(&str, &str); 25] = [
    ("enum Action", "crate::rust::ActionForm"),
    ("enum Area", ""),
    ("struct Beam", "crate::rust::BeamForm"),
    ("struct Code", "Instr"),
    ("enum CodeFault", ""),
    ("struct Counters", "crate::rust::CountersForm"),
    ("struct DraftFull", ""),
    ("enum DriverFault", ""),
    ("enum DriverStateFault", ""),
    ("enum Entry", "crate::rust::EntryForm<S>"),
    ("enum Event", ""),
    ("enum FrameFault", "crate::rust::FrameFaultForm"),
    ("enum GenFault", ""),
    ("enum GeneratorStateFault", ""),
    ("enum Half", ""),
    ("enum Instr", ""),
    ("enum Listed", ""),
    ("enum MemFault", ""),
    ("struct Move", "crate::rust::MoveForm"),
    ("struct Op", "OpKind"),
    ("enum OpKind", ""),
    ("struct OutOfMemory", ""),
    ("enum Place", "crate::rust::PlaceForm"),
    ("struct Stroke", "crate::rust::StrokeForm"),
    ("enum WorldStateFault", ""),
];

/// The types to which a later version may add a variant.
const GROWING: [&str; 3] = [
    "enum DriverStateFault",
    "enum GeneratorStateFault",
    "enum WorldStateFault",
];

/// What stands above one of them.
const NON_EXHAUSTIVE: &str = "#[non_exhaustive]\n";

/// How public functions begin that refuse by `false`.
const REFUSING: [&str; 2] = [
    "fn take(&mut self, line: &[u8]) -> bool",
    "fn take(&mut self, tokens: &[&[u8]]) -> bool",
];

/// What stands above a function whose refusal must be looked at.
const MUST_USE: &str = "#[must_use]\n";

/// What stands at the end of a library with a file `rust.rs` beside its sources.
const BESIDE: &str = "\n#[path = \"../rust.rs\"]\nmod rust;\n";

/// What stands below that, where the file has a public item.
const USE_OF_BESIDE: &str = "pub use rust::*;\n";

/// The attributes that stay as they are.
const KEPT_ATTRIBUTES: [&str; 6] = ["error", "from", "inline", "must_use", "repr", "unsafe"];

/// Words of Rattle that must not be left over.
const RATTLE_WORDS: [&str; 5] = ["Model", "decreases", "invariant", "proof", "tactic"];

/// The modules that have no code.
const ERASED_MODULES: [&str; 2] = ["laws", "tests"];

/// Why a source is refused, and at which byte.
#[derive(Debug, PartialEq, Eq)]
struct Refused {
    at: usize,
    why: String,
}

impl Refused {
    fn new(at: usize, why: impl Into<String>) -> Refused {
        let why = why.into();
        Refused { at, why }
    }
}

// --- Tokens ---

/// What begins at a place of a source.
#[derive(Clone, Copy, Debug, PartialEq, Eq)]
enum Kind {
    Word,
    /// A text in quotes, or a letter in quotes.
    Literal,
    /// To the end of its line, without that.
    Comment,
    /// A blank, a bracket or another mark: one byte.
    Mark,
}

fn is_of_word(byte: u8) -> bool {
    byte.is_ascii_alphanumeric() || byte == b'_' || byte >= 0x80
}

/// The end of a text in quotes that begins at a place.
fn end_of_text(text: &[u8], from: usize) -> Result<usize, Refused> {
    let mut at = from + 1;
    while at < text.len() {
        match text[at] {
            b'"' => return Ok(at + 1),
            b'\\' => at += 2,
            _ => at += 1,
        }
    }
    Err(Refused::new(from, "a text without an end"))
}

/// The end of what begins with a single quote: a letter, or the quote of a lifetime alone.
fn end_of_quote(text: &[u8], from: usize) -> (Kind, usize) {
    let first = from + 1;
    if text.get(first) == Some(&b'\\') {
        let rest = text.get(first + 2..).unwrap_or(&[]);
        let end = rest.iter().position(|byte| *byte == b'\'');
        return (Kind::Literal, end.map_or(text.len(), |k| first + 2 + k + 1));
    }
    let letter = (first + 1..text.len().min(first + 5)).find(|at| text[*at] == b'\'');
    match letter {
        Some(end) if end == first + 1 || text[first] >= 0x80 => (Kind::Literal, end + 1),
        _ => (Kind::Mark, first),
    }
}

/// What begins at a place, and where it ends.
fn token(text: &[u8], from: usize) -> Result<(Kind, usize), Refused> {
    let rest = &text[from..];
    let until = |end: Option<usize>| end.map_or(text.len(), |k| from + k);
    match rest[0] {
        b'"' => Ok((Kind::Literal, end_of_text(text, from)?)),
        b'\'' => Ok(end_of_quote(text, from)),
        b'/' if rest.starts_with(b"//") => {
            let end = rest.iter().position(|byte| *byte == b'\n');
            Ok((Kind::Comment, until(end)))
        }
        b'/' if rest.starts_with(b"/*") => Err(Refused::new(from, "a comment between /* and */")),
        byte if is_of_word(byte) => {
            let end = until(rest.iter().position(|byte| !is_of_word(*byte)));
            let is_raw = matches!(&text[from..end], b"r" | b"br" | b"cr");
            match text.get(end) {
                Some(b'"' | b'#') if is_raw => Err(Refused::new(from, "a raw text")),
                _ => Ok((Kind::Word, end)),
            }
        }
        _ => Ok((Kind::Mark, from + 1)),
    }
}

/// Whether a text is `mod NAME;`, where `NAME` is any name.
fn is_module(text: &[u8]) -> bool {
    let name = text
        .strip_prefix(b"mod ")
        .and_then(|text| text.strip_suffix(b";"));
    name.is_some_and(|name| !name.is_empty() && name.iter().all(|byte| is_of_word(*byte)))
}

/// The place after blanks.
fn after_blanks(text: &[u8], from: usize) -> usize {
    let blanks = text[from..]
        .iter()
        .position(|byte| !byte.is_ascii_whitespace());
    blanks.map_or(text.len(), |k| from + k)
}

/// The place after the bracket that closes the one at a place. In what a clause says nothing but
/// brackets and texts in quotes counts.
fn after_bracket(text: &[u8], from: usize) -> Result<usize, Refused> {
    let (open, close) = match text.get(from) {
        Some(b'{') => (b'{', b'}'),
        Some(b'[') => (b'[', b']'),
        _ => return Err(Refused::new(from, "no bracket where one must stand")),
    };
    let (mut at, mut depth) = (from, 0_usize);
    while at < text.len() {
        match text[at] {
            b'"' => at = end_of_text(text, at)? - 1,
            byte if byte == open => depth += 1,
            byte if byte == close && depth == 1 => return Ok(at + 1),
            byte if byte == close => depth -= 1,
            _ => {}
        }
        at += 1;
    }
    Err(Refused::new(from, "a bracket that isn't closed"))
}

// --- The eraser ---

/// A source, how far it was read, what is left of it, the words of code that are left, the laws of
/// other crates that are called, and what the type that comes next derives.
struct Eraser<'a> {
    text: &'a [u8],
    at: usize,
    out: Vec<u8>,
    words: BTreeSet<&'a str>,
    laws: BTreeSet<&'a str>,
    derived: &'a str,
}

impl<'a> Eraser<'a> {
    fn new(text: &'a str) -> Eraser<'a> {
        Eraser {
            text: text.as_bytes(),
            at: 0,
            out: Vec::new(),
            words: BTreeSet::new(),
            laws: BTreeSet::new(),
            derived: "",
        }
    }

    fn refuse<T>(&self, why: impl Into<String>) -> Result<T, Refused> {
        Err(Refused::new(self.at, why))
    }

    fn slice(&self, from: usize, end: usize) -> &'a str {
        std::str::from_utf8(&self.text[from..end]).unwrap_or("")
    }

    fn begins(&self, with: &str) -> bool {
        self.text[self.at..].starts_with(with.as_bytes())
    }

    /// The place of a byte, from a place on.
    fn find(&self, byte: u8, from: usize, why: &str) -> Result<usize, Refused> {
        match self.text[from..].iter().position(|other| *other == byte) {
            Some(k) => Ok(from + k),
            None => self.refuse(why),
        }
    }

    fn copy_to(&mut self, end: usize) {
        self.out.extend_from_slice(&self.text[self.at..end]);
        self.at = end;
    }

    fn put(&mut self, text: &str, end: usize) {
        self.out.extend_from_slice(text.as_bytes());
        self.at = end;
    }

    // --- Taking away ---

    /// Where the last line of what is left begins, but for an empty one at the end.
    fn last_line(&self) -> usize {
        let end = self.out.strip_suffix(b"\n").unwrap_or(&self.out).len();
        self.out[..end]
            .iter()
            .rposition(|byte| *byte == b'\n')
            .map_or(0, |k| k + 1)
    }

    /// Whether nothing but blanks stands on the last line of what is left.
    fn is_line_begun(&self) -> bool {
        let mut line = self.out.rsplit(|byte| *byte == b'\n');
        line.next().is_none_or(|line| line.trim_ascii().is_empty())
    }

    /// Takes the blanks back that stand before an item, and the comments on the lines above it.
    fn take_back_comments(&mut self) {
        loop {
            while self.out.last() == Some(&b' ') {
                self.out.pop();
            }
            let start = self.last_line();
            let line = self.out[start..].trim_ascii_start();
            if !line.starts_with(b"//") || line.starts_with(b"//!") {
                return;
            }
            self.out.truncate(start);
        }
    }

    /// The same before a clause, which stands on a line of its own below a signature.
    fn take_back_to_signature(&mut self) {
        loop {
            self.out.truncate(self.out.trim_ascii_end().len());
            let start = self.last_line();
            if !self.out[start..].trim_ascii_start().starts_with(b"//") {
                return;
            }
            self.out.truncate(start);
        }
    }

    /// Takes the rest of a line away up to a place, with the line's end and the blanks before it.
    /// The comments above belong to the next line.
    fn drop_line(&mut self, end: usize) {
        while self.out.last() == Some(&b' ') {
            self.out.pop();
        }
        self.at = end;
        if self.begins("\n") {
            self.at += 1;
        }
    }

    /// Takes an item away, with its comments. No blank line is left twice, or at the edge of a
    /// block.
    fn drop_item(&mut self, end: usize) {
        self.take_back_comments();
        self.drop_line(end);
        if self.out.is_empty() || self.out.ends_with(b"\n\n") || self.out.ends_with(b"{\n") {
            while self.begins("\n") {
                self.at += 1;
            }
        }
        let next = self.text.get(after_blanks(self.text, self.at));
        while next.is_none_or(|byte| *byte == b'}') && self.out.ends_with(b"\n\n") {
            self.out.pop();
        }
    }

    /// `ghost use ..;`, or an item or a field with a body.
    fn drop_ghost(&mut self) -> Result<(), Refused> {
        let from = after_blanks(self.text, self.at + "ghost".len());
        let end = if self.text[from..].starts_with(b"use ") {
            self.find(b';', from, "a ghost use without an end")? + 1
        } else {
            let brace = self.find(b'{', from, "a ghost item without a body")?;
            let end = after_bracket(self.text, brace)?;
            end + usize::from(matches!(self.text.get(end), Some(b';' | b',')))
        };
        self.drop_item(end);
        Ok(())
    }

    /// The place after the clauses, and the comments between them, that begin at a place.
    fn after_clauses(&self) -> Result<usize, Refused> {
        let mut at = self.at;
        loop {
            at = after_blanks(self.text, at);
            if at == self.text.len() {
                return self.refuse("a clause that nothing follows");
            }
            let (kind, end) = token(self.text, at)?;
            match (kind, self.slice(at, end)) {
                (Kind::Comment, _) => at = end,
                (Kind::Word, "requires" | "ensures" | "ghost") => {
                    let brace = self.find(b'{', at, "a clause without a body")?;
                    at = after_bracket(self.text, brace)?;
                }
                (_, "{" | ";") => return Ok(at),
                _ => return self.refuse("a clause that no body follows"),
            }
        }
    }

    /// The clauses of a function. What follows goes on the line of the signature; where that ends
    /// with the comma of a `where`, it stays on a line of its own.
    fn drop_clauses(&mut self) -> Result<(), Refused> {
        let end = self.after_clauses()?;
        self.take_back_to_signature();
        if self.out.ends_with(b",") {
            let start = self.text[..end].iter().rposition(|byte| *byte == b'\n');
            let start = start.unwrap_or(end);
            self.put("", start);
            self.copy_to(end);
        } else {
            self.put(if self.text[end] == b'{' { " " } else { "" }, end);
        }
        Ok(())
    }

    /// `impl Model for ..`. Other blocks stay.
    fn implementation(&mut self, end: usize) -> Result<(), Refused> {
        let brace = self.find(b'{', self.at, "an implementation without a body")?;
        if self
            .slice(self.at, brace)
            .split_whitespace()
            .any(|word| word == "Model")
        {
            self.drop_item(after_bracket(self.text, brace)?);
        } else {
            self.copy_word(end);
        }
        Ok(())
    }

    /// A module, or a visibility. A module of laws has no code, and nor has that of another crate.
    fn module(&mut self, end: usize) -> Result<(), Refused> {
        let mut lines = self.text[self.at..].split_inclusive(|byte| *byte == b';');
        let line = lines.next().unwrap_or_default();
        let is_theirs = line.starts_with(b"pub use ") && line.ends_with(b"::laws;");
        if is_theirs || line == b"pub mod laws;" || line == b"mod laws;" {
            self.drop_line(self.at + line.len());
        } else if self.slice(self.at, end) == "mod" && !is_module(line) {
            return self.refuse("a module that isn't in a file of its own");
        } else {
            self.copy_word(end);
        }
        Ok(())
    }

    /// A `use`. That of `Model` goes, and that of laws.
    fn usage(&mut self, end: usize) {
        let model = "use std::marker::Model;";
        if self.begins(model) {
            self.drop_line(self.at + model.len());
        } else if let Some((laws, end)) = self.used_laws() {
            self.laws.extend(laws);
            self.drop_line(end);
        } else {
            self.copy_word(end);
        }
    }

    /// The laws of `use dvg_dump::laws::one_end;`, or several in braces, where all names are any,
    /// also `crate`, and where that ends.
    fn used_laws(&self) -> Option<(Vec<&'a str>, usize)> {
        let end = self.find(b';', self.at, "a use without an end").ok()?;
        if !self.is_line_begun() {
            return None;
        }
        let (of, laws) = self
            .slice(self.at, end)
            .strip_prefix("use ")?
            .split_once("::laws::")?;
        let several = laws
            .strip_prefix('{')
            .and_then(|laws| laws.strip_suffix('}'));
        let laws: Vec<&str> = several.unwrap_or(laws).split(',').map(str::trim).collect();
        let is_name = |name: &&str| name.bytes().all(is_of_word);
        (is_name(&of) && laws.iter().all(is_name)).then_some((laws, end + 1))
    }

    /// The call of a law, which is a statement.
    fn law(&mut self, end: usize) -> Result<(), Refused> {
        if !self.is_line_begun() || !self.text[end..].starts_with(b"();") {
            return self.refuse("a law that no statement calls");
        }
        self.drop_line(end + "();".len());
        Ok(())
    }

    // --- Attributes ---

    fn attribute(&mut self) -> Result<(), Refused> {
        let bracket = self.find(b'[', self.at, "an attribute without a bracket")?;
        let end = after_bracket(self.text, bracket)?;
        let inside = self.slice(bracket + 1, end - 1);
        let (name, words) = inside.split_once('(').unwrap_or((inside, ""));
        let words = words.strip_suffix(')').unwrap_or(words);
        match name {
            "tactic" if self.begins("#!") => self.drop_item(end),
            "tactic" => self.drop_line(end),
            "rattlefmt::skip" => self.put("#[rustfmt::skip]", end),
            "derive_where" if words.contains(';') => self.drop_line(end),
            "derive" | "derive_where" => self.derive(words, end),
            "cfg" if words == "test" => self.drop_tests(end)?,
            _ if KEPT_ATTRIBUTES.contains(&name) => self.copy_to(end),
            _ => return self.refuse(format!("the attribute '{name}'")),
        }
        Ok(())
    }

    /// A derive, without `Drop`, and with `Hash` beside `Eq`.
    fn derive(&mut self, words: &'a str, end: usize) {
        self.derived = words;
        let mut kept: Vec<&str> = words.split(", ").filter(|word| *word != "Drop").collect();
        if kept.contains(&"Eq") && !kept.contains(&"Hash") {
            kept.push("Hash");
        }
        if kept.is_empty() {
            self.drop_line(end);
        } else {
            self.put(&format!("#[derive({})]", kept.join(", ")), end);
        }
    }

    /// A struct or an enum. One of `COPIED` derives `Clone` and `Debug`, too, and one of `KEPT`
    /// what serde has; one of `GROWING` is `non_exhaustive`.
    fn structure(&mut self, end: usize) {
        let name = after_blanks(self.text, end);
        let after = self.text[name..]
            .iter()
            .take_while(|byte| is_of_word(**byte));
        let head = self.slice(self.at, name + after.count());
        let derived = std::mem::take(&mut self.derived);
        let grows = if GROWING.contains(&head) { NON_EXHAUSTIVE } else { "" };
        let lines = copied(head, derived) + &kept(head) + grows;
        let end_of_last = self.out.iter().rposition(|byte| *byte == b'\n');
        let start = end_of_last.map_or(0, |k| k + 1);
        self.out.splice(start..start, lines.into_bytes());
        self.copy_word(end);
    }

    /// A module of tests, which has a file of its own.
    fn drop_tests(&mut self, end: usize) -> Result<(), Refused> {
        let module = after_blanks(self.text, end);
        let end = self.find(b';', module, "a test without an end")?;
        match self.slice(module, end) {
            "mod tests" => self.drop_item(end + 1),
            _ => return self.refuse("a test that is no module 'tests' with a file of its own"),
        }
        Ok(())
    }

    // --- Functions ---

    /// A function's head. Those of `Display::fmt`, of what it hands its `Formatter` to, and of
    /// `main` are written otherwise.
    fn function(&mut self, end: usize) -> Result<(), Refused> {
        self.refusing();
        if self.takes_formatter() {
            self.formatting()
        } else if self.begins("fn main(") {
            self.main()
        } else {
            self.copy_word(end);
            Ok(())
        }
    }

    /// Puts `MUST_USE` above a public function that may refuse.
    fn refusing(&mut self) {
        let start = self.out.iter().rposition(|byte| *byte == b'\n').map_or(0, |k| k + 1);
        let line = String::from_utf8_lossy(&self.out[start..]).into_owned();
        let visible = line.trim_start();
        if visible == "pub " && self.may_refuse() {
            let indent = &line[..line.len() - visible.len()];
            self.out.splice(start..start, format!("{indent}{MUST_USE}").into_bytes());
        }
    }

    /// Whether a function returns an `Option` without changing what it is called of, or is one of
    /// `REFUSING`.
    fn may_refuse(&self) -> bool {
        if REFUSING.iter().any(|head| self.begins(head)) {
            return true;
        }
        let rest = self.slice(self.at, self.text.len());
        let ends = ["{", ";", "requires", "ensures", "decreases", "where"];
        let end = ends.iter().filter_map(|end| rest.find(end)).min();
        let head = &rest[..end.unwrap_or(rest.len())];
        head.contains(") -> Option<") && !head.contains("&mut self")
    }

    /// Whether a function begins as `fn fmt<`, or as `fn write_text<W: fmt::Write>(`, where
    /// `write_text` is any name.
    fn takes_formatter(&self) -> bool {
        let name = after_blanks(self.text, self.at + "fn".len());
        let is_generic = token(self.text, name)
            .is_ok_and(|(_, end)| self.text[end..].starts_with(b"<W: fmt::Write>("));
        is_generic || self.begins("fn fmt<")
    }

    /// `fn write_text<W: fmt::Write>(f: &mut fmt::Formatter<W>, ..)`, where both are any names.
    fn formatting(&mut self) -> Result<(), Refused> {
        let end = self.find(b')', self.at, "a signature without an end")?;
        let parts = self.slice(self.at, end).split_once("<W: fmt::Write>(");
        match parts.and_then(|(name, rest)| Some((name, rest.split_once("fmt::Formatter<W>")?))) {
            Some((name, (before, after))) if !after.contains('W') => {
                self.put(&format!("{name}({before}fmt::Formatter<'_>{after}"), end);
            }
            _ => return self.refuse("a writer of texts without a Formatter of it"),
        }
        Ok(())
    }

    /// `to_ascii_lowercase`, which is written otherwise where it has a parameter.
    fn lowercase(&mut self, end: usize) {
        let rest = self.text.get(end..).unwrap_or_default();
        if rest.starts_with(b"(") && !rest.starts_with(b"()") {
            self.words.insert(LOWERCASE_IN);
            self.put(LOWERCASE_IN, end);
        } else {
            self.copy_word(end);
        }
    }

    /// `fn main(rt: HostRuntime) -> ExitCode {`, where `rt` is any name.
    fn main(&mut self) -> Result<(), Refused> {
        let brace = self.find(b'{', self.at, "a main without a body")?;
        let head = self.slice(self.at, brace);
        let name = head
            .strip_prefix("fn main(")
            .and_then(|rest| rest.strip_suffix(": HostRuntime) -> ExitCode "));
        let Some(name) = name else {
            return self.refuse("another signature of 'main' than from HostRuntime to ExitCode");
        };
        self.words.insert("HostRuntime");
        let line = format!("fn main() -> ExitCode {{\n    let {name} = HostRuntime::new();");
        self.put(&line, brace + 1);
        Ok(())
    }

    // --- All of it ---

    fn copy_word(&mut self, end: usize) {
        self.words.insert(self.slice(self.at, end));
        self.copy_to(end);
    }

    fn word(&mut self, end: usize) -> Result<(), Refused> {
        match self.slice(self.at, end) {
            "ghost" => self.drop_ghost()?,
            "requires" | "ensures" => self.drop_clauses()?,
            "impl" => self.implementation(end)?,
            "pub" | "mod" => self.module(end)?,
            "use" => self.usage(end),
            "fn" => self.function(end)?,
            "struct" | "enum" => self.structure(end),
            "to_ascii_lowercase" => self.lowercase(end),
            "clone" => self.put("try_clone", end),
            word if self.laws.contains(word) => self.law(end)?,
            word if RATTLE_WORDS.contains(&word) => {
                return self.refuse(format!("the word '{word}' where no rule takes it away"));
            }
            _ => self.copy_word(end),
        }
        Ok(())
    }

    fn step(&mut self) -> Result<(), Refused> {
        let (kind, end) = token(self.text, self.at)?;
        match kind {
            Kind::Word => self.word(end)?,
            Kind::Mark if self.begins("#[") || self.begins("#![") => self.attribute()?,
            _ => self.copy_to(end),
        }
        Ok(())
    }

    fn run(mut self) -> Result<(String, BTreeSet<&'a str>), Refused> {
        while self.at < self.text.len() {
            self.step()?;
        }
        let text = String::from_utf8(self.out).map_err(|_| Refused::new(0, "no text is left"))?;
        Ok((text, self.words))
    }
}

// --- What contracts alone name ---

/// The words of a text, in comments and in quotes, too.
fn all_words(text: &str) -> Vec<&str> {
    text.split(|letter: char| !letter.is_alphanumeric() && letter != '_')
        .filter(|word| !word.is_empty())
        .collect()
}

/// The words of the code of a text, and where each stands: those in quotes, too, as `{step}` asks
/// for a variable, where the quote stands.
fn words_of_code(text: &str) -> Result<Vec<(usize, &str)>, Refused> {
    let mut words = Vec::new();
    let mut at = 0;
    while at < text.len() {
        let (kind, end) = token(text.as_bytes(), at)?;
        match kind {
            Kind::Word => words.push((at, &text[at..end])),
            Kind::Literal => words.extend(all_words(&text[at..end]).iter().map(|word| (at, *word))),
            Kind::Comment | Kind::Mark => {}
        }
        at = end;
    }
    Ok(words)
}

/// How many of these words are this one.
fn count_of(word: &str, words: &[&str]) -> usize {
    words.iter().filter(|other| **other == word).count()
}

/// What is left of a source, with the words of its code and its imports: where the text after `use`
/// begins, and its end.
struct Left<'a> {
    source: Vec<&'a str>,
    text: &'a str,
    words: Vec<&'a str>,
    code: Vec<(usize, &'a str)>,
    imports: Vec<(usize, usize)>,
}

impl<'a> Left<'a> {
    fn new(source: &'a str, text: &'a str) -> Result<Left<'a>, Refused> {
        let code = words_of_code(text)?;
        let begins_line = |at: usize| {
            text[..at]
                .rsplit('\n')
                .next()
                .is_some_and(|l| l.trim() == "")
        };
        let uses = code
            .iter()
            .filter(|(at, word)| *word == "use" && begins_line(*at));
        let imports = uses.filter_map(|(at, _)| Some((at + 4, at + text[*at..].find(';')?)));
        Ok(Left {
            source: all_words(source),
            text,
            words: all_words(text),
            imports: imports.collect(),
            code,
        })
    }

    /// In how many places a name stands in the code, but for its imports.
    fn places(&self, name: &str) -> usize {
        let is_import = |at| {
            self.imports
                .iter()
                .any(|(from, end)| (*from..*end).contains(&at))
        };
        let named = self.code.iter().filter(|(_, word)| *word == name);
        named.filter(|(at, _)| !is_import(*at)).count()
    }

    /// Whether a name, the last one of a path, stands in the code, or in no contract either: so the
    /// name of a trait stays, of which the code has the calls alone.
    fn is_kept(&self, path: &str) -> bool {
        let name = path.rsplit([':', ' ']).next().unwrap_or("");
        self.places(name) > 0 || count_of(name, &self.source) <= count_of(name, &self.words)
    }

    /// What is left of an import, which is `a::B` or `a::{B, C}`. None if that is nothing.
    fn import(&self, names: &str) -> Option<String> {
        let Some((path, rest)) = names.split_once('{') else {
            return self.is_kept(names).then(|| names.to_owned());
        };
        let listed = rest.trim_end_matches('}').split(',').map(str::trim);
        let listed: Vec<&str> = listed.filter(|name| !name.is_empty()).collect();
        if rest.contains('{') || listed.iter().all(|name| self.is_kept(name)) {
            return Some(names.to_owned());
        }
        let kept: Vec<&str> = listed
            .into_iter()
            .filter(|name| self.is_kept(name))
            .collect();
        match kept.as_slice() {
            [] => None,
            [one] => Some(format!("{path}{one}")),
            some => Some(format!("{path}{{{}}}", some.join(", "))),
        }
    }

    /// The text without the imports for contracts alone.
    fn with_imports(&self) -> String {
        let mut text = String::new();
        let mut at = 0;
        for (from, end) in &self.imports {
            match self.import(&self.text[*from..*end]) {
                Some(names) => {
                    text += &self.text[at..*from];
                    text += &names;
                    at = *end;
                }
                None => {
                    text += &self.text[at..from - "use ".len()];
                    at = end + ";\n".len();
                }
            }
        }
        text + &self.text[at..]
    }

    /// The text without what contracts alone name. The number of a loop, by `for step in`, gets
    /// another name where the loop's code doesn't ask for it.
    fn without_names(&self) -> String {
        let mut text = self.with_imports();
        for words in self.code.windows(3) {
            let [(_, "for"), (at, name), (_, "in")] = words else {
                continue;
            };
            let is_code = self.text[*at..].starts_with(name);
            if is_code && !name.starts_with('_') && self.places(name) == 1 {
                text = text.replacen(&format!("for {name} in "), &format!("for _{name} in "), 1);
            }
        }
        text
    }
}

// --- What is put in ---

/// What a source is to its crate.
#[derive(Clone, Copy, Debug, PartialEq, Eq)]
enum Role {
    Library,
    Program,
    Module,
}

impl Role {
    fn head(self) -> &'static str {
        match self {
            Role::Library => HEAD,
            Role::Program => PROGRAM_HEAD,
            Role::Module => "",
        }
    }
}

/// The line by which a type derives `Clone` and `Debug`, if it is one of `COPIED` and lacks one.
fn copied(head: &str, derived: &str) -> String {
    let missing: Vec<&str> = ["Clone", "Debug"]
        .into_iter()
        .filter(|word| !derived.split(", ").any(|other| other == *word))
        .collect();
    if COPIED.contains(&head) && !missing.is_empty() {
        format!("#[derive({})]\n", missing.join(", "))
    } else {
        String::new()
    }
}

/// The lines by which serde writes and reads a type, if it is one of `KEPT`.
fn kept(head: &str) -> String {
    match KEPT.iter().find(|(kept, _)| *kept == head) {
        None => String::new(),
        Some((_, "")) => SERDE.to_owned(),
        Some((_, by)) if by.starts_with("crate::") => {
            format!("{SERDE}#[cfg_attr(feature = \"serde\", serde(try_from = \"{by}\"))]\n")
        }
        Some((_, by)) => {
            let by = format!("serde(try_from = \"{by}\", into = \"{by}\")");
            format!("{SERDE}#[cfg_attr(feature = \"serde\", {by})]\n")
        }
    }
}

/// The line that brings in the macros that a module calls.
fn use_of_macros(words: &BTreeSet<&str>) -> String {
    let called: Vec<&str> = MACROS
        .into_iter()
        .filter(|word| words.contains(word))
        .collect();
    match called.as_slice() {
        [] => String::new(),
        [one] => format!("use std::{one};\n\n"),
        some => format!("use std::{{{}}};\n\n", some.join(", ")),
    }
}

/// What is left of a source. Lines are put in after the comments of the source itself.
fn erased(text: &str, role: Role) -> Result<String, Refused> {
    let (body, words) = Eraser::new(text).run()?;
    let body = Left::new(text, &body)?.without_names();
    let about: usize = body
        .lines()
        .take_while(|line| line.starts_with("//!"))
        .map(|line| line.len() + 1)
        .sum();
    let (about, rest) = body.split_at(about.min(body.len()));
    let needs_prelude = PRELUDE_WORDS.iter().any(|word| words.contains(word));
    let prelude = if needs_prelude { PRELUDE } else { "" };
    let macros = use_of_macros(&words);
    Ok(format!(
        "{about}{}{prelude}{macros}{}",
        role.head(),
        rest.trim_start_matches('\n')
    ))
}

// --- Modules ---

/// The modules that a text names, and where the semicolon after each name stands.
fn modules_of(text: &str) -> Result<Vec<(&str, usize)>, Refused> {
    let words = words_of_code(text)?;
    let modules = words.windows(2).filter_map(|words| {
        let [(at, "mod"), (from, name)] = words else {
            return None;
        };
        let end = from + name.len();
        is_module(text.as_bytes().get(*at..=end)?).then_some((*name, end))
    });
    Ok(modules.collect())
}

/// The sources of a crate that aren't written yet: the text of each by its name in their folder,
/// without the ending.
struct Sources {
    folder: PathBuf,
    texts: BTreeMap<String, String>,
}

impl Sources {
    fn read(folder: &Path) -> Result<Sources, String> {
        let mut texts = BTreeMap::new();
        for file in files_of(folder)? {
            let name = name_within(&file, folder)?;
            if !ERASED_MODULES.contains(&name.rsplit('/').next().unwrap_or_default()) {
                let text = fs::read_to_string(&file);
                texts.insert(name, text.map_err(|e| format!("{}: {e}", file.display()))?);
            }
        }
        let folder = folder.to_owned();
        Ok(Sources { folder, texts })
    }

    /// A message about a source.
    fn told(&self, name: &str, why: &str) -> String {
        format!("{}{why}", self.folder.join(name).with_extension("rt").display())
    }

    /// The name of the source that is a module's.
    fn of_module(&self, path: &str) -> Result<String, String> {
        let names = [path.to_owned(), format!("{path}/mod")];
        let mut found = names.into_iter().filter(|name| self.texts.contains_key(name));
        match (found.next(), found.next()) {
            (Some(name), None) => Ok(name),
            (None, _) => Err(self.told(path, ": no source of this module, or it is named twice")),
            (Some(_), Some(_)) => Err(self.told(path, ": two sources of this module")),
        }
    }

    /// What is left of a source, with its modules in it. Their sources are in the folder `within`,
    /// which ends with a slash or is the crate's own, "".
    fn joined(&mut self, name: &str, role: Role, within: &str) -> Result<String, String> {
        let source = self.texts.remove(name).unwrap_or_default();
        let told = |refused: Refused| {
            let place = format!(":{}: {}", line_of(&source, refused.at), refused.why);
            self.told(name, &place)
        };
        let plain = erased(&source, role).map_err(told)?;
        let modules = modules_of(&plain).map_err(told)?;
        let mut joined = String::new();
        let mut at = 0;
        for (module, end) in modules {
            let path = format!("{within}{module}");
            let text = self.joined(&self.of_module(&path)?, Role::Module, &format!("{path}/"))?;
            joined += &format!("{} {{\n{text}}}", &plain[at..end]);
            at = end + 1;
        }
        // The brace after a module is on a line of its own.
        let line_end = if plain.is_empty() || plain.ends_with('\n') { "" } else { "\n" };
        Ok(joined + &plain[at..] + line_end)
    }

    /// The file that these sources become: its name, and its text. `beside` is the file `rust.rs`
    /// that lies beside it, if there is one.
    fn into_file(mut self, beside: Option<&str>) -> Result<(&'static str, String), String> {
        let roots = (self.texts.contains_key("lib"), self.texts.contains_key("main"));
        let (name, role, file) = match roots {
            (true, false) => ("lib", Role::Library, "lib.rs"),
            (false, true) => ("main", Role::Program, "main.rs"),
            _ => return Err(self.told("lib", ": one of this and main.rt must be there")),
        };
        let mut plain = self.joined(name, role, "")?;
        if let (Some(beside), Role::Library) = (beside, role) {
            plain.push_str(&end_by(beside));
        }
        match self.texts.keys().next() {
            Some(name) => Err(self.told(name, ": a source of which no module has the name")),
            None => Ok((file, plain)),
        }
    }
}

// --- Files ---

/// The files of a folder and of those in it, in order.
fn files_of(folder: &Path) -> Result<Vec<PathBuf>, String> {
    let why = |error| format!("{}: {error}", folder.display());
    let mut files = Vec::new();
    for entry in fs::read_dir(folder).map_err(why)? {
        let path = entry.map_err(why)?.path();
        if path.is_dir() {
            files.append(&mut files_of(&path)?);
        } else {
            files.push(path);
        }
    }
    files.sort();
    Ok(files)
}

/// The name of a source within a folder, without its ending.
fn name_within(file: &Path, folder: &Path) -> Result<String, String> {
    let within = file.strip_prefix(folder).ok().and_then(Path::to_str);
    let name = within.and_then(|name| name.strip_suffix(".rt"));
    let why = || format!("{}: no source, whose name ends with .rt", file.display());
    name.map(str::to_owned).ok_or_else(why)
}

/// The line of a text at which a byte stands.
fn line_of(text: &str, at: usize) -> usize {
    1 + text.bytes().take(at).filter(|byte| *byte == b'\n').count()
}

/// The first line in which two texts differ.
fn differing_line(one: &str, other: &str) -> usize {
    let lines = one.split('\n').zip(other.split('\n'));
    1 + lines.take_while(|(one, other)| one == other).count()
}

/// What stands at the end of a library, beside whose sources this file lies.
fn end_by(beside: &str) -> String {
    let has_public = beside.lines().any(|line| line.starts_with("pub "));
    format!("{BESIDE}{}", if has_public { USE_OF_BESIDE } else { "" })
}

/// The files of a folder that are too many, beside the one of this name.
fn strays(folder: &Path, name: &str) -> Vec<PathBuf> {
    let files = files_of(folder).unwrap_or_default();
    files
        .into_iter()
        .filter(|file| *file != folder.join(name))
        .collect()
}

/// Says which files of a folder aren't the one that was made. Answers whether there are any.
fn differs(folder: &Path, name: &str, text: &str) -> bool {
    let path = folder.join(name);
    let strays = strays(folder, name);
    for path in &strays {
        println!("{} stands for no crate", path.display());
    }
    let found = fs::read_to_string(&path).ok();
    if found.as_deref() == Some(text) {
        return !strays.is_empty();
    }
    let line = differing_line(&found.unwrap_or_default(), text);
    println!("{}:{line}: this isn't what is left of the sources", path.display());
    true
}

/// Writes the file that was made, if it isn't so already, and removes those that are too many, with
/// their folders.
fn write(folder: &Path, name: &str, text: &str) -> Result<(), String> {
    let why = |error| format!("{}: {error}", folder.display());
    let path = folder.join(name);
    fs::create_dir_all(folder).map_err(why)?;
    if fs::read_to_string(&path).ok().as_deref() != Some(text) {
        fs::write(path, text).map_err(why)?;
    }
    for path in strays(folder, name) {
        fs::remove_file(&path).map_err(why)?;
        // One in which there is something else stays.
        let _ = path.parent().map(fs::remove_dir);
    }
    Ok(())
}

/// Does what the words ask for. Answers whether all is as it must be.
fn run(words: &[String]) -> Result<bool, String> {
    let (checks, words) = match words {
        [first, rest @ ..] if first == "--check" => (true, rest),
        _ => (false, words),
    };
    let [from, to, crates @ ..] = words else {
        return Err("usage: erase [--check] FROM TO CRATE..".to_owned());
    };
    let mut is_right = true;
    for name in crates {
        let plain = Path::new(to).join(name);
        let folder = plain.join("src");
        let beside = fs::read_to_string(plain.join("rust.rs")).ok();
        let sources = Sources::read(&Path::new(from).join(name).join("src"))?;
        let (file, text) = sources.into_file(beside.as_deref())?;
        if checks {
            is_right &= !differs(&folder, file, &text);
        } else {
            write(&folder, file, &text)?;
        }
    }
    Ok(is_right)
}

fn main() -> ExitCode {
    let words: Vec<String> = env::args().skip(1).collect();
    match run(&words) {
        Ok(true) => ExitCode::SUCCESS,
        Ok(false) => ExitCode::FAILURE,
        Err(why) => {
            eprintln!("erase: {why}");
            ExitCode::from(2)
        }
    }
}

#[cfg(test)]
mod tests {
    use super::{Role, SERDE, Sources, differing_line, end_by, erased};

    /// What is left of a module's source is this.
    #[track_caller]
    fn leaves(source: &str, wanted: &str) {
        assert_eq!(erased(source, Role::Module), Ok(wanted.to_owned()));
    }

    /// A source is refused at the place where this text stands.
    #[track_caller]
    fn refuses(source: &str, place: &str) {
        let refused = erased(source, Role::Module).expect_err("it is refused");
        assert_eq!(Some(refused.at), source.find(place), "{}", refused.why);
    }

    /// A source stays as it is.
    #[track_caller]
    fn stays(source: &str) {
        leaves(source, source);
    }

    /// The file of a crate with these sources, each with its name.
    fn file_of(sources: &[(&str, &str)]) -> Result<(&'static str, String), String> {
        let texts = sources.iter().map(|(name, text)| (name.to_string(), text.to_string()));
        let (folder, texts) = ("src".into(), texts.collect());
        Sources { folder, texts }.into_file(None)
    }

    /// A crate is refused for its sources: so its message begins.
    #[track_caller]
    fn refuses_crate(sources: &[(&str, &str)], why: &str) {
        let told = file_of(sources).expect_err("it is refused");
        assert!(told.starts_with(why), "{told}");
    }

    #[test]
    fn plain_code_stays() {
        stays("/// A sum.\npub fn sum(a: u8, b: u8) -> u8 {\n    a + b // of two\n}\n");
        stays("impl<A: Allocator> Rom<A> {\n    fn first<'a>(&'a self) -> &'a u8 { &self.0 }\n}\n");
        stays("pub mod lawsuits;\nmod draft;\npub use draft::Draft;\n");
    }

    #[test]
    fn words_of_contracts_in_texts_and_comments_stay() {
        stays("// It requires { nothing.\nlet text = \"ensures { ghost \\\" use\";\n");
        stays(
            "let letters = ['{', '\"', '\\'', '\\\\', 'é', b'{', b'\\n', '\\u{7b}'];\nfn f() {}\n",
        );
        stays("fn ghostly(requirements: u8) {}\n");
    }

    #[test]
    fn clauses_go() {
        let source =
            "fn f(a: u8) -> u8\n    requires { a < 9 }\n    ensures one { r { x } }\n{\n    a\n}\n";
        leaves(source, "fn f(a: u8) -> u8 {\n    a\n}\n");
        leaves(
            "fn f()\n    requires* { sem 𝓛 at }\n    ensures* { x }\n{\n}\n",
            "fn f() {\n}\n",
        );
        leaves(
            "fn f()\n    ghost d: { Held }\n    // Why.\n    ensures { \"}\" }\n{\n}\n",
            "fn f() {\n}\n",
        );
        leaves(
            "fn f()\n    // Why.\n    ensures { x }\n{\n}\n",
            "fn f() {\n}\n",
        );
    }

    #[test]
    fn clauses_of_a_call_without_a_body_go() {
        leaves(
            "trait T {\n    fn f();\n    fn g()\n        ensures { x };\n}\n",
            "trait T {\n    fn f();\n    fn g();\n}\n",
        );
    }

    #[test]
    fn clauses_after_a_where_go() {
        let source = "fn f<T>(t: T)\nwhere\n    T: Copy,\n    ensures { x }\n{\n}\n";
        leaves(source, "fn f<T>(t: T)\nwhere\n    T: Copy,\n{\n}\n");
    }

    #[test]
    fn ghosts_go() {
        leaves(
            "//! About.\nghost use Rattle.std.{◌≡◌, IfSome};\n\nuse a::B;\n",
            "//! About.\nuse a::B;\n",
        );
        leaves(
            "struct S {\n    a: u8,\n    ghost b: { x },\n}\n",
            "struct S {\n    a: u8,\n}\n",
        );
        leaves(
            "impl I for S {\n    // Why.\n    ghost view = { λ s. s };\n\n    fn f() {}\n}\n",
            "impl I for S {\n    fn f() {}\n}\n",
        );
        leaves(
            "struct S {\n    a: u8,\n\n    ghost b: { x },\n}\n",
            "struct S {\n    a: u8,\n}\n",
        );
    }

    #[test]
    fn models_go() {
        let source = "use std::marker::Model;\nuse a::B;\n\n\
            // How.\nimpl<A: X> Model for S<A> {\n    ghost Value = { a };\n}\n\nfn f() {}\n";
        leaves(source, "use a::B;\n\nfn f() {}\n");
        stays("impl Modelled for S {\n}\n");
    }

    #[test]
    fn laws_and_tests_go() {
        leaves("mod a;\npub mod laws;\nmod b;\n", "mod a;\nmod b;\n");
        leaves("pub use a::B;\npub use b::laws;\n", "pub use a::B;\n");
        stays("pub use a::laws::B;\npub use a::outlaws;\n");
        leaves("mod a;\n\n#[cfg(test)]\nmod tests;\n", "mod a;\n");
    }

    #[test]
    fn attributes() {
        leaves("#![tactic(auto)]\n\nfn f() {}\n", "fn f() {}\n");
        leaves(
            "/// F.\n#[tactic(auto, using(a::b))]\nfn f() {}\n",
            "/// F.\nfn f() {}\n",
        );
        leaves("#[derive(Drop)]\nstruct S;\n", "struct S;\n");
        leaves(
            "#[derive(Debug, Drop, Eq)]\nstruct S;\n",
            "#[derive(Debug, Eq, Hash)]\nstruct S;\n",
        );
        leaves(
            "#[derive_where(Debug, Eq)]\nstruct S;\n",
            "#[derive(Debug, Eq, Hash)]\nstruct S;\n",
        );
        leaves(
            "/// S.\n#[derive_where(Clone; A)]\nstruct S;\n",
            "/// S.\nstruct S;\n",
        );
        leaves(
            "#[rattlefmt::skip]\nfn f() {}\n",
            "#[rustfmt::skip]\nfn f() {}\n",
        );
        stays("#[inline(always)]\n#[error(\"{0} is ] wrong\")]\n#[unsafe(no_mangle)]\nfn f() {}\n");
    }

    #[test]
    fn laws_that_are_used_go() {
        leaves(
            "use a::laws::law;\nuse b::C;\nfn f() {\n    law();\n    // one\n    let a = 1;\n}\n",
            "use b::C;\nfn f() {\n    // one\n    let a = 1;\n}\n",
        );
        refuses("use a::laws::law;\nfn f() {\n    law(b)\n}\n", "law(b)");
        refuses(
            "use a::laws::law;\nfn f() {\n    let b = law();\n}\n",
            "law();",
        );
        leaves(
            "use crate::laws::{one, other};\nfn f() {\n    one();\n    other();\n}\n",
            "fn f() {\n}\n",
        );
        stays("use a::laws::{one, inner::other};\nfn law() {}\n");
    }

    #[test]
    fn signatures() {
        leaves(
            "    fn fmt<W: fmt::Write>(&self, out: &mut fmt::Formatter<W>) -> fmt::Result {\n",
            "    fn fmt(&self, out: &mut fmt::Formatter<'_>) -> fmt::Result {\n",
        );
        leaves(
            "fn write<W: fmt::Write>(f: &mut fmt::Formatter<W>, text: &[u8]) -> fmt::Result {}\n",
            "fn write(f: &mut fmt::Formatter<'_>, text: &[u8]) -> fmt::Result {}\n",
        );
        refuses("fn write<W: fmt::Write>(f: &mut W) {}\n", "fn write");
        refuses(
            "fn write<W: fmt::Write>(f: &mut fmt::Formatter<W>, to: &mut W) {}\n",
            "fn write",
        );
        let program = erased(
            "//! P.\nfn main(rt: HostRuntime) -> ExitCode {\n    f(&rt)\n}\n",
            Role::Program,
        );
        let wanted = "//! P.\nextern crate plain_std as std;\n\nuse std::prelude::*;\n\n\
            fn main() -> ExitCode {\n    let rt = HostRuntime::new();\n    f(&rt)\n}\n";
        assert_eq!(program.as_deref(), Ok(wanted));
    }

    #[test]
    fn what_is_put_in() {
        let library = erased(
            "//! L.\n//! M.\n#![tactic(auto)]\n\nmod a;\n",
            Role::Library,
        );
        let wanted = "//! L.\n//! M.\n#![no_std]\n\nextern crate plain_std as std;\n\nmod a;\n";
        assert_eq!(library.as_deref(), Ok(wanted));
        leaves(
            "fn f() -> Vec<u8> {}\n",
            "use std::prelude::*;\n\nfn f() -> Vec<u8> {}\n",
        );
        leaves(
            "fn f() { read.to_ascii_lowercase(alloc) }\n",
            "use std::prelude::*;\n\nfn f() { read.to_ascii_lowercase_in(alloc) }\n",
        );
        stays("fn f() { b'A'.to_ascii_lowercase() }\n");
        leaves(
            "/// As `clone`.\nfn f() { read.clone()? }\n",
            "/// As `clone`.\nfn f() { read.try_clone()? }\n",
        );
        leaves(
            "fn f() { println!(rt; \"\"); }\n",
            "use std::println;\n\nfn f() { println!(rt; \"\"); }\n",
        );
        let source = "fn f() { eprint!(rt; \"\"); eprintln!(rt; \"\"); }\n";
        leaves(
            source,
            &format!("use std::{{eprint, eprintln}};\n\n{source}"),
        );
        stays("// A Vec.\nlet text = \"Box\";\n#[error(\"Drop\")]\nfn f() {}\n");
        leaves(
            "/// W.\npub struct World {\n}\n",
            "/// W.\n#[derive(Clone, Debug)]\npub struct World {\n}\n",
        );
        leaves(
            "#[derive(Clone, Copy)]\nenum Phase {\n}\n",
            "#[derive(Clone, Copy)]\n#[derive(Debug)]\nenum Phase {\n}\n",
        );
        stays("#[derive(Debug, Clone)]\npub(crate) struct World {\n}\n");
        leaves(
            "#[derive(Debug)]\npub enum Area {\n}\n",
            &format!("#[derive(Debug)]\n{SERDE}pub enum Area {{\n}}\n"),
        );
        leaves(
            "pub enum WorldStateFault {\n}\n",
            &format!("{SERDE}#[non_exhaustive]\npub enum WorldStateFault {{\n}}\n"),
        );
        let by = "serde(try_from = \"crate::rust::StrokeForm\")";
        let by = format!("#[cfg_attr(feature = \"serde\", {by})]\n");
        leaves("struct Stroke;\n", &format!("{SERDE}{by}struct Stroke;\n"));
        let by = "serde(try_from = \"Instr\", into = \"Instr\")";
        let by = format!("#[cfg_attr(feature = \"serde\", {by})]\n");
        leaves("struct Code;\n", &format!("{SERDE}{by}struct Code;\n"));
        leaves(
            "/// A.\npub fn of(part: &[u8]) -> Option<u8>\n    ensures { part }\n{\n}\n",
            "/// A.\n#[must_use]\npub fn of(part: &[u8]) -> Option<u8> {\n}\n",
        );
        leaves(
            "    #[inline]\n    pub fn take(&mut self, line: &[u8]) -> bool {\n",
            "    #[inline]\n    #[must_use]\n    pub fn take(&mut self, line: &[u8]) -> bool {\n",
        );
        stays("pub fn step(&mut self) -> Option<u8> {\n}\n");
        stays("fn of(part: &[u8]) -> Option<u8> {\n}\npub fn is_of(part: u8) -> bool {\n}\n");
        stays("#[derive(Eq, Hash)]\nstruct Codes;\n");
        stays("enum World {}\nstruct Worlds {}\n");
    }

    #[test]
    fn names_for_contracts_go() {
        leaves(
            "use a::{B, C};\nuse a::D;\n\nfn f(b: B)\n    requires { C × D }\n{\n}\n",
            "use a::B;\n\nfn f(b: B) {\n}\n",
        );
        leaves(
            "use a::{B, C, d as e};\nfn f(b: B) -> C\n    ensures { e }\n{\n}\n",
            "use a::{B, C};\nfn f(b: B) -> C {\n}\n",
        );
        stays("use a::{B, C};\npub use a::D;\nfn f() {}\n");
        leaves(
            "pub use a::D;\nfn f()\n    ensures { D }\n{\n}\n",
            "pub use a::D;\nfn f() {\n}\n",
        );
        leaves(
            "fn f() {\n    for i in 0..2 {}\n    for j in 0..2 { g(j) }\n}\n",
            "fn f() {\n    for _i in 0..2 {}\n    for j in 0..2 { g(j) }\n}\n",
        );
        stays("fn f() {\n    for _i in 0..2 {}\n    g(\"for i in 2\")\n}\nimpl T for U {}\n");
        stays("fn f() {\n    for i in 0..2 { g(\"{i}\") }\n}\n");
    }

    #[test]
    fn modules_are_joined() {
        let library = [
            ("lib", "//! L.\n\n/// A.\npub mod a;\nmod b; // B.\n\npub use a::A;\n"),
            ("a", "//! Of A.\n\npub struct A(Vec<u8>);\n"),
            ("b/mod", "mod c;\nfn g() {}\n"),
            ("b/c", "const C: &str = \"mod d;\"; // mod e;"),
        ];
        let wanted = "//! L.\n#![no_std]\n\nextern crate plain_std as std;\n\n\
            /// A.\npub mod a {\n//! Of A.\nuse std::prelude::*;\n\npub struct A(Vec<u8>);\n}\n\
            mod b {\nmod c {\nconst C: &str = \"mod d;\"; // mod e;\n}\nfn g() {}\n} // B.\n\n\
            pub use a::A;\n";
        assert_eq!(file_of(&library), Ok(("lib.rs", wanted.to_owned())));
        let wanted = "extern crate plain_std as std;\n\nmod a {\n}\n".to_owned();
        assert_eq!(file_of(&[("main", "mod a;\n"), ("a", "")]), Ok(("main.rs", wanted)));
    }

    #[test]
    fn modules_with_other_sources_are_refused() {
        let (lib, one) = (("lib", "mod a;\n"), ("a", "fn f() {}\n"));
        refuses_crate(&[lib], "src/a.rt: no source of this module");
        refuses_crate(&[("lib", "mod a;\nmod a;\n"), one], "src/a.rt: no source of this module");
        refuses_crate(&[lib, one, ("a/mod", "")], "src/a.rt: two sources of this module");
        refuses_crate(&[lib, one, ("a/b", "")], "src/a/b.rt: a source of which no module");
        refuses_crate(&[lib, one, ("main", "")], "src/lib.rt: one of this and main.rt");
        refuses_crate(&[one], "src/lib.rt: one of this and main.rt");
        refuses_crate(&[lib, ("a", "\n\ninvariant\n")], "src/a.rt:3: the word 'invariant'");
        refuses_crate(&[lib, ("a/mod", "mod b;"), ("b", "")], "src/a/b.rt: no source");
        refuses("pub mod a {\n}\n", "mod a");
        refuses("mod a\n;\n", "mod a");
    }

    #[test]
    fn what_differs_has_a_line() {
        assert_eq!(differing_line("a\nb\nc\n", "a\nc\n"), 2);
        assert_eq!(differing_line("", "a\n"), 1);
        assert_eq!(differing_line("a\n", "a\nb\n"), 2);
    }

    #[test]
    fn what_lies_beside() {
        assert!(end_by("mod a;\npub fn f() {}\n").ends_with("mod rust;\npub use rust::*;\n"));
        assert!(end_by("impl A {\n    pub fn f() {}\n}\n").ends_with("mod rust;\n"));
    }

    #[test]
    fn what_is_unknown_is_refused() {
        refuses(
            "fn f()\n    requires { x }\n    decreases { y }\n{\n}\n",
            "requires",
        );
        refuses("fn f() {\n    while a decreases { b } {}\n}\n", "decreases");
        refuses("fn f() {\n    invariant { b }\n}\n", "invariant");
        refuses("fn f(m: Model) {}\n", "Model");
        refuses("#[proof]\nfn f() {}\n", "#[proof]");
        refuses("#[cfg(test)]\nmod tests {\n}\nfn f();\n", "#[cfg");
        refuses("#[cfg(unix)]\nfn f() {}\n", "#[cfg");
        refuses("fn fmt<W>(&self, f: &mut F<W>) {}\n", "fn fmt");
        refuses("fn main(rt: Other) -> ExitCode {}\n", "fn main");
    }

    #[test]
    fn what_has_no_end_is_refused() {
        refuses("fn f()\n    ensures { x \n", "{ x");
        refuses("fn f()\n    ensures { x }\n", "ensures");
        refuses("fn f()\n    ensures\n", "ensures");
        refuses("ghost use a::b\n", "ghost");
        refuses("ghost view\n", "ghost");
        refuses("let text = \"abc;\n", "\"abc");
        refuses("#[derive(Debug\n", "[derive");
        refuses("impl Model for S\n", "impl");
    }

    #[test]
    fn what_could_be_misread_is_refused() {
        refuses("let text = r\"\\\";\n", "r\"");
        refuses("let text = br#\"\"#;\n", "br#");
        refuses("fn f() { /* ghost */ }\n", "/*");
    }
}
