//! A recorder board with a short clock (document 02, K13): it counts
//! microseconds in 32 bits and starts again from zero.

use crate::numbers::CEILING;

/// The clock record. It is right where two readings are less than
/// 4,294,967,296 microseconds apart: a whole round more is not seen.
#[derive(Clone, Copy, Debug, Default, PartialEq, Eq)]
pub struct Clock {
    /// Nanoseconds since the first reading.
    pub time: u64,
    /// The last reading.
    pub last: u32,
    /// 0 before the first reading, any other number after it.
    pub started: u32,
}

/// Nanoseconds in a microsecond.
const MICROSECOND: u64 = 1_000;

/// Moves the record on to a reading. Answers 0 and the time, or 5 and 0 where
/// it would pass the ceiling; then the record stays.
pub fn clock_read(record: &mut Clock, reading: u32) -> (u8, u64) {
    let time = if record.started == 0 {
        record.started = 1;
        0
    } else {
        let elapsed = reading.wrapping_sub(record.last) as u64 * MICROSECOND;
        // The record may hold any number.
        match record.time.checked_add(elapsed) {
            Some(time) if time <= CEILING => time,
            _ => return (5, 0),
        }
    };
    record.time = time;
    record.last = reading;
    (0, time)
}
