//! The moves of a trace from one version to the other.

use crate::answer::{refusal, Refusal};
use crate::raw::{self, Moved};
use std::fmt;

/// Why a trace was not moved. Nothing was written.
#[derive(Clone, Copy, Debug, PartialEq, Eq, Hash)]
pub struct NotMoved {
    /// The documents' number.
    pub refusal: Refusal,
    /// The event that refused it, counted from 1: for [`Refusal::EventKind`], [`Refusal::TraceEventCut`], and
    /// [`Refusal::NoWayBack`] where it is a cost.
    pub event: Option<u64>,
}

impl fmt::Display for NotMoved {
    fn fmt(&self, f: &mut fmt::Formatter<'_>) -> fmt::Result {
        match self.event {
            Some(event) => write!(f, "{}, event {event}", self.refusal),
            None => self.refusal.fmt(f),
        }
    }
}

impl std::error::Error for NotMoved {
    fn source(&self) -> Option<&(dyn std::error::Error + 'static)> {
        Some(&self.refusal)
    }
}

/// Writes a trace of version 1 as one of version 2, with "rule 1, credit 0, cost 1", at the beginning of the room, and
/// gives how many bytes that are: at most [`crate::MOST_GROWTH`] more than the trace has. Document 02, K9: "The printed
/// decisions of a moved trace are the same." The room past them is unchanged.
///
/// ```
/// let mut one = b"SGQ\x01\x00\x04\x01\x08\x00".to_vec(); // version 1, depth 4, one guest, capacity 8
/// one.extend([100, 0, 0, 0, 250, 0, 0, 0, 1, 0, 0, 0]);
/// let mut two = vec![0; one.len() + sgq::MOST_GROWTH];
/// let written = sgq::trace_up(&one, &mut two)?;
/// let mut again = vec![0; written];
/// let length = sgq::trace_back(&two[..written], &mut again)?;
/// assert_eq!(again[..length], one);
/// # Ok::<(), sgq::NotMoved>(())
/// ```
///
/// # Errors
///
/// The first that holds of: [`Refusal::TraceHeaderCut`], [`Refusal::TraceMark`], [`Refusal::TraceVersion`], which a trace
/// of another version is, [`Refusal::Setting`], in the order of the header; the first event that is
/// [`Refusal::EventKind`] or [`Refusal::TraceEventCut`]; [`Refusal::ShortRoom`].
pub fn trace_up(trace: &[u8], room: &mut [u8]) -> Result<usize, NotMoved> {
    let (length, room_length) = (trace.len(), room.len());
    // SAFETY: two slices, which do not overlap, with their lengths.
    named(unsafe { raw::sgq_trace_up(trace.as_ptr(), length, room.as_mut_ptr(), room_length) })
}

/// Writes a trace of version 2 as one of version 1, likewise. The result is shorter than the trace.
///
/// # Errors
///
/// As [`trace_up`], and before [`Refusal::ShortRoom`] [`Refusal::NoWayBack`], for what version 1 cannot say: first another
/// rule or a credit, then the first event with another cost.
pub fn trace_back(trace: &[u8], room: &mut [u8]) -> Result<usize, NotMoved> {
    let (length, room_length) = (trace.len(), room.len());
    // SAFETY: two slices, which do not overlap, with their lengths.
    named(unsafe { raw::sgq_trace_back(trace.as_ptr(), length, room.as_mut_ptr(), room_length) })
}

fn named(moved: Moved) -> Result<usize, NotMoved> {
    if moved.refusal == 0 {
        return Ok(usize::try_from(moved.written).expect("no more than the room has"));
    }
    Err(NotMoved {
        refusal: refusal(moved.refusal),
        event: (moved.event != 0).then_some(moved.event),
    })
}
