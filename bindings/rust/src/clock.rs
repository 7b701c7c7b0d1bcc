//! A clock for a board that counts microseconds in 32 bits.

use crate::answer::{refusal, Refusal};
use crate::raw;

/// The time since the first reading of a counter of microseconds that has 32 bits and starts again from zero.
///
/// The time is the true one where readings are less than 4,294,967,296 microseconds apart, which is about 71 minutes and
/// 35 seconds. A gap of 4,294,967,296 microseconds or longer is not seen: every whole round of the counter in it is lost.
/// So a host reads the board more often than that, also when it has nothing else to do. Time never falls.
#[derive(Clone, Copy, Debug, Default, PartialEq, Eq)]
pub struct Clock(raw::Clock);

impl Clock {
    /// A clock of which no reading was taken yet.
    #[must_use]
    pub fn new() -> Clock {
        Clock::default()
    }

    /// A reading of the counter: gives the time in nanoseconds, as a gate takes it, 0 at the first. Document 02, K13:
    /// "elapsed time is the difference of the two readings across the wrap, times 1,000".
    ///
    /// # Errors
    ///
    /// [`Refusal::TimeAboveCeiling`] where the time would pass [`crate::CEILING`]. The clock is then as it was.
    pub fn read(&mut self, reading: u32) -> Result<u64, Refusal> {
        // SAFETY: the record is ours alone, and any bits are good.
        let told = unsafe { raw::sgq_clock_read(&raw mut self.0, reading) };
        match told.refusal {
            0 => Ok(told.time),
            number => Err(refusal(number)),
        }
    }

    /// The time of the last accepted reading in nanoseconds, if one was taken.
    #[must_use]
    pub fn time(&self) -> Option<u64> {
        (self.0.started != 0).then_some(self.0.time)
    }

    /// The record, as to keep it.
    #[must_use]
    pub fn record(&self) -> raw::Clock {
        self.0
    }
}

/// Any record is good.
impl From<raw::Clock> for Clock {
    fn from(record: raw::Clock) -> Clock {
        Clock(record)
    }
}
