//! What a program is handed.
use crate::alloc::Global;
use heap::vec::Vec;
use host::fs::File;
use host::io::{ErrorKind, Read, Result, Write};
use host::mem::ManuallyDrop;

/// What a program may use of its host.
pub struct HostRuntime(());

impl HostRuntime {
    /// The runtime of this program.
    #[allow(clippy::new_without_default)]
    pub fn new() -> HostRuntime {
        HostRuntime(())
    }

    /// The allocator.
    pub fn alloc(&self) -> Global {
        Global
    }

    /// Standard input.
    pub fn stdin(&self) -> Stream {
        Stream::of(0)
    }

    /// Standard output.
    pub fn stdout(&self) -> Stream {
        Stream::of(1)
    }

    /// Standard error.
    pub fn stderr(&self) -> Stream {
        Stream::of(2)
    }
}

/// A standard stream as the system gives it, with no buffer of its own, that isn't closed.
pub struct Stream(ManuallyDrop<File>, i32);

impl Stream {
    #[cfg(unix)]
    pub(crate) fn of(number: i32) -> Stream {
        use host::os::fd::FromRawFd;
        // SAFETY: the three standard streams are open for the time of the program, and are never
        // closed by it.
        Stream(
            ManuallyDrop::new(unsafe { File::from_raw_fd(number) }),
            number,
        )
    }
}

/// What the caller handed over, as it is before Rust's runtime begins: that opens /dev/null in the
/// place of each closed stream, and copies the words in memory that mustn't be refused.
#[cfg(target_os = "linux")]
mod start {
    use core::ffi::{CStr, c_char, c_int};
    use core::sync::atomic::{AtomicBool, AtomicPtr, AtomicUsize, Ordering::Relaxed};

    static CLOSED: [AtomicBool; 3] = [const { AtomicBool::new(false) }; 3];
    static COUNT: AtomicUsize = AtomicUsize::new(0);
    static WORDS: AtomicPtr<*const c_char> = AtomicPtr::new(core::ptr::null_mut());

    unsafe extern "C" {
        fn fcntl(number: c_int, command: c_int, ...) -> c_int;
    }

    extern "C" fn look(count: c_int, words: *mut *const c_char) {
        for (number, closed) in CLOSED.iter().enumerate() {
            // SAFETY: F_GETFD, which is 1, changes nothing.
            closed.store(unsafe { fcntl(number as c_int, 1) } == -1, Relaxed);
        }
        // No other C library says here what the words are.
        if cfg!(target_env = "gnu") {
            COUNT.store(count as usize, Relaxed);
            WORDS.store(words, Relaxed);
        }
    }

    #[used]
    #[unsafe(link_section = ".init_array")]
    static LOOK: extern "C" fn(c_int, *mut *const c_char) = look;

    /// Whether the caller had closed a standard stream.
    pub fn was_closed(number: i32) -> bool {
        CLOSED[number as usize].load(Relaxed)
    }

    /// The words of the command line, where the C library says what they are.
    pub fn words() -> Option<impl Iterator<Item = &'static CStr>> {
        let words = WORDS.load(Relaxed);
        if words.is_null() {
            return None;
        }
        // SAFETY: there are as many texts of C as were counted, which stay for the time of the
        // program, and which nothing changes.
        let words = unsafe { core::slice::from_raw_parts(words, COUNT.load(Relaxed)) };
        Some(words.iter().map(|word| unsafe { CStr::from_ptr(*word) }))
    }
}

#[cfg(not(target_os = "linux"))]
mod start {
    pub fn was_closed(_number: i32) -> bool {
        false
    }

    pub fn words() -> Option<core::iter::Empty<&'static core::ffi::CStr>> {
        None
    }
}

impl Stream {
    fn open(&mut self) -> Result<&mut File> {
        if start::was_closed(self.1) {
            return Err(ErrorKind::Other.into());
        }
        Ok(&mut self.0)
    }
}

impl Read for Stream {
    fn read(&mut self, into: &mut [u8]) -> Result<usize> {
        self.open()?.read(into)
    }
}

impl Write for Stream {
    fn write(&mut self, part: &[u8]) -> Result<usize> {
        self.open()?.write(part)
    }

    fn flush(&mut self) -> Result<()> {
        Ok(())
    }
}

/// What may be a terminal.
pub trait IsTerminal {
    /// Whether it is one.
    fn is_terminal(&self) -> bool;
}

impl IsTerminal for Stream {
    fn is_terminal(&self) -> bool {
        !start::was_closed(self.1) && host::io::IsTerminal::is_terminal(&*self.0)
    }
}

/// Standard output.
pub fn writer(_rt: &HostRuntime) -> Stream {
    Stream::of(1)
}

/// A writer with a buffer, as that of Rust's std is, but that one's buffer mustn't be refused.
pub struct BufWriter<W: Write> {
    writer: W,
    kept: Vec<u8>,
}

impl<W: Write> BufWriter<W> {
    /// A writer with a buffer of this many bytes.
    pub fn with_capacity(_alloc: Global, capacity: usize, writer: W) -> Result<BufWriter<W>> {
        let mut kept = Vec::new();
        kept.try_reserve_exact(capacity)
            .map_err(|_| ErrorKind::OutOfMemory)?;
        Ok(BufWriter { writer, kept })
    }

    /// Hands on what is kept. What wasn't taken where that fails is still kept.
    fn hand_on(&mut self) -> Result<()> {
        let mut taken = 0;
        let mut answer = Ok(());
        while taken < self.kept.len() && answer.is_ok() {
            match self.writer.write(&self.kept[taken..]) {
                Ok(0) => answer = Err(ErrorKind::WriteZero.into()),
                Ok(count) => taken += count,
                Err(error) if error.kind() == ErrorKind::Interrupted => {}
                Err(error) => answer = Err(error),
            }
        }
        self.kept.drain(..taken);
        answer
    }
}

impl<W: Write> Write for BufWriter<W> {
    fn write(&mut self, part: &[u8]) -> Result<usize> {
        if self.kept.len() + part.len() > self.kept.capacity() {
            self.hand_on()?;
        }
        if part.len() >= self.kept.capacity() {
            return self.writer.write(part);
        }
        self.kept.extend_from_slice(part);
        Ok(part.len())
    }

    fn flush(&mut self) -> Result<()> {
        self.hand_on()?;
        self.writer.flush()
    }
}

impl<W: Write> Drop for BufWriter<W> {
    fn drop(&mut self) {
        let _ = self.hand_on();
    }
}

/// The words of the command line.
pub mod env {
    use crate::alloc::{Global, Vec};
    use crate::io::{ErrorKind, Result};
    use crate::runtime::{HostRuntime, start};
    use heap::string::String;

    /// The words, each of which is a text.
    pub struct Args(Vec<String>);

    /// The words of the command line; an error where one is no text, or memory is refused.
    pub fn args(_rt: &HostRuntime) -> Result<Args> {
        let mut words = Vec::new(Global);
        match start::words() {
            Some(given) => {
                for word in given {
                    words.push(copy_of(
                        word.to_str().map_err(|_| ErrorKind::InvalidInput)?,
                    )?)?;
                }
            }
            None => {
                for word in host::env::args_os() {
                    words.push(word.into_string().map_err(|_| ErrorKind::InvalidInput)?)?;
                }
            }
        }
        Ok(Args(words))
    }

    /// A text of the same letters.
    fn copy_of(word: &str) -> Result<String> {
        let mut text = String::new();
        text.try_reserve_exact(word.len())
            .map_err(|_| ErrorKind::OutOfMemory)?;
        text.push_str(word);
        Ok(text)
    }

    impl Args {
        /// All of them.
        pub fn collect(self, _alloc: Global) -> Result<Vec<String>> {
            Ok(self.0)
        }
    }
}

/// Writes on standard error.
#[macro_export]
macro_rules! eprint {
    ($rt:expr; $($text:tt)*) => {{
        let _: &$crate::prelude::HostRuntime = $rt;
        $crate::runtime::complain(format_args!($($text)*))
    }};
}

/// Writes a line on standard error.
#[macro_export]
macro_rules! eprintln {
    ($rt:expr; $text:literal) => {
        $crate::eprint!($rt; "{}\n", format_args!($text))
    };
}

/// Writes on standard error.
pub fn complain(text: core::fmt::Arguments<'_>) -> crate::io::Result<()> {
    use host::io::Write;
    host::io::stderr().write_fmt(text)
}

/// Writes a line on standard output.
#[macro_export]
macro_rules! println {
    ($rt:expr; $text:literal $($more:tt)*) => {{
        use $crate::io::Write;
        $crate::io::writer(&$rt).write_fmt(format_args!("{}\n", format_args!($text $($more)*)))
    }};
}
