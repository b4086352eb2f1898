//! The clock.
use crate::io::Result;
use crate::runtime::HostRuntime;
pub use host::time::Duration;

/// A reading of the clock that never goes back.
#[derive(Clone, Copy)]
pub struct Instant(host::time::Instant);

impl Instant {
    /// What the clock reads.
    pub fn now(_rt: &HostRuntime) -> Result<Instant> {
        Ok(Instant(host::time::Instant::now()))
    }

    /// The time since an earlier reading.
    pub fn duration_since(&self, earlier: Instant) -> Duration {
        self.0.duration_since(earlier.0)
    }
}
