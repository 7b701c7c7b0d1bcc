//! The salvage of a torn trace.

use crate::answer::{refusal, Refusal};
use crate::raw::{self, Dropped};
use crate::EVENT_BYTES;
use std::fmt;

/// Why an event was dropped, with document 02's number. Where several hold it is the first of them; a cut event has only
/// its own.
#[derive(Clone, Copy, Debug, PartialEq, Eq, Hash)]
#[repr(u64)]
pub enum Reason {
    /// "kind or spare part": whatever is 14 when a trace is read.
    Kind = 1,
    /// "time above the ceiling".
    TimeAboveCeiling = 2,
    /// "time behind the last kept".
    TimeBehind = 3,
    /// "time more than 3,600 seconds ahead of the last kept".
    TimeAhead = 4,
    /// "cut short".
    Cut = 5,
}

impl Reason {
    /// All of them, in the order in which they are judged.
    pub const ALL: &'static [Reason] = &[
        Reason::Kind,
        Reason::TimeAboveCeiling,
        Reason::TimeBehind,
        Reason::TimeAhead,
        Reason::Cut,
    ];

    /// The reason of this number, if there is one.
    #[must_use]
    pub fn of(number: u64) -> Option<Reason> {
        let all = Reason::ALL.iter().copied();
        all.into_iter().find(|reason| reason.number() == number)
    }

    /// Its number in the list.
    #[must_use]
    pub fn number(self) -> u64 {
        self as u64
    }

    /// Document 02's words.
    #[must_use]
    pub fn words(self) -> &'static str {
        match self {
            Reason::Kind => "kind or spare part",
            Reason::TimeAboveCeiling => "time above the ceiling",
            Reason::TimeBehind => "time behind the last kept",
            Reason::TimeAhead => "time more than 3,600 seconds ahead of the last kept",
            Reason::Cut => "cut short",
        }
    }
}

impl fmt::Display for Reason {
    fn fmt(&self, f: &mut fmt::Formatter<'_>) -> fmt::Result {
        f.write_str(self.words())
    }
}

/// What a salvage has kept and dropped, in the room and the list that were lent.
#[derive(Clone, Copy, Debug, PartialEq, Eq)]
pub struct Salvage<'a> {
    /// The trace of the events that were kept.
    pub trace: &'a [u8],
    /// Those that were dropped, in the order of the trace.
    pub dropped: &'a [Dropped],
}

/// How many rows the list of a trace of this length has at the most: one for each event.
#[must_use]
pub fn most_dropped(trace_length: usize) -> usize {
    trace_length / EVENT_BYTES
}

/// Keeps the good events of a torn trace and writes them as a trace of the same version at the beginning of the room, and
/// those that it drops, each with its [`Reason`], at the beginning of the list. Document 02, K12: "The first kept event is
/// free of the last two time tests. A trace in which no event meets a reason comes out byte for byte, with an empty list;
/// a second pass drops nothing." Room and list past the results are unchanged. Room as long as the trace is always enough,
/// and [`most_dropped`] rows.
///
/// ```
/// let mut torn = b"SGQ\x01\x00\x04\x01\x08\x00".to_vec(); // version 1, depth 4, one guest, capacity 8
/// torn.extend([100, 0, 0, 0, 250, 0, 0, 0, 1, 0, 0, 0]);
/// torn.extend([2, 0, 0, 0, 0, 0, 9, 0, 0, 0, 0, 0, 0, 0]); // a tick at 9 ns
/// torn.extend([0xff; 14]); // rubbish
/// let mut room = vec![0; torn.len()];
/// let mut list = vec![sgq::Dropped::default(); sgq::most_dropped(torn.len())];
/// let salvage = sgq::salvage(&torn, &mut room, &mut list)?;
/// assert_eq!(salvage.trace, &torn[..9 + 12 + 14]);
/// for dropped in salvage.dropped {
///     let why = dropped.why().expect("a row of the list");
///     println!("event {} is dropped: {why}", dropped.event); // event 2 is dropped: kind or spare part
/// }
/// # Ok::<(), sgq::Refusal>(())
/// ```
///
/// # Errors
///
/// The first that holds of: [`Refusal::TraceHeaderCut`], [`Refusal::TraceMark`], [`Refusal::TraceVersion`] and
/// [`Refusal::Setting`], in the order of the header; [`Refusal::ShortRoom`], of the room or of the list. Nothing was written.
pub fn salvage<'a>(
    trace: &[u8],
    room: &'a mut [u8],
    list: &'a mut [Dropped],
) -> Result<Salvage<'a>, Refusal> {
    let (room_length, rows) = (room.len(), list.len());
    // SAFETY: three slices, which do not overlap, with their lengths; a row is numbers alone, for which any bits are good.
    let found = unsafe {
        raw::sgq_salvage(
            trace.as_ptr(),
            trace.len(),
            room.as_mut_ptr(),
            room_length,
            list.as_mut_ptr().cast(),
            rows * raw::DROPPED_NUMBERS,
        )
    };
    if found.refusal != 0 {
        return Err(refusal(found.refusal));
    }
    let length = |number| usize::try_from(number).expect("no more than was lent");
    Ok(Salvage {
        trace: &room[..length(found.written)],
        dropped: &list[..length(found.rows)],
    })
}
