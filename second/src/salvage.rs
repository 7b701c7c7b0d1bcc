//! Salvage of a torn trace (document 02, K12): the good events are kept, and a
//! list says why each of the others was dropped.

use crate::numbers::{CEILING, SECOND};
use crate::trace::{Header, Next, EVENT_BYTES};

/// A row of the list: the number of the event, from 1, and the reason.
pub const ROW_NUMBERS: usize = 2;

/// How far ahead of the last kept event the next may lie: an hour.
pub const MOST_AHEAD: u64 = 3_600 * SECOND;

/// Why an event is dropped, in the order in which the reasons are tried. The
/// last is the only one of a cut event.
#[derive(Clone, Copy, Debug, PartialEq, Eq)]
pub enum Reason {
    KindOrSpare = 1,
    AboveCeiling = 2,
    Behind = 3,
    FarAhead = 4,
    CutShort = 5,
}

/// What a salvage answers: the refusal or 0, the bytes it wrote, and the rows
/// of its list.
#[derive(Clone, Copy, Debug, PartialEq, Eq)]
pub struct Salvaged {
    pub refusal: u64,
    pub bytes: u64,
    pub rows: u64,
}

impl Salvaged {
    fn refused(number: u8) -> Salvaged {
        Salvaged {
            refusal: number as u64,
            bytes: 0,
            rows: 0,
        }
    }
}

/// Writes the good events of a trace as a trace of the same version, and a
/// row for each event that was dropped. A refusal writes nothing: a fault of
/// the header, then 21 where one of the two has too little room.
pub fn salvage(trace: &[u8], room: &mut [u8], list: &mut [u64]) -> Salvaged {
    let header = match Header::read(trace) {
        Ok(header) => header,
        Err(number) => return Salvaged::refused(number),
    };
    let (kept, dropped) = parted(&header, trace);
    if room.len() < kept.len() || list.len() < dropped.len() {
        return Salvaged::refused(21);
    }
    room[..kept.len()].copy_from_slice(&kept);
    list[..dropped.len()].copy_from_slice(&dropped);
    Salvaged {
        refusal: 0,
        bytes: kept.len() as u64,
        rows: (dropped.len() / ROW_NUMBERS) as u64,
    }
}

/// The trace that is left, with all its bytes as they stood, and the list.
fn parted(header: &Header, trace: &[u8]) -> (Vec<u8>, Vec<u64>) {
    let (start, events) = trace.split_at(header.length());
    let mut kept = start.to_vec();
    let mut dropped = Vec::new();
    let mut last = None;
    for (number, bytes) in (1..).zip(events.chunks(EVENT_BYTES)) {
        match kept_time(Next::from_bytes(header.version, bytes), last) {
            Ok(time) => {
                kept.extend(bytes);
                last = Some(time);
            }
            Err(reason) => dropped.extend([number, reason as u64]),
        }
    }
    (kept, dropped)
}

/// The time of a good event, or the first reason to drop it. The last two
/// time tests want an event kept before it.
fn kept_time(next: Next, last: Option<u64>) -> Result<u64, Reason> {
    let Next::Event(event) = next else {
        return Err(Reason::CutShort);
    };
    let time = event.time;
    if !event.well_formed() {
        Err(Reason::KindOrSpare)
    } else if time > CEILING {
        Err(Reason::AboveCeiling)
    } else if last.is_some_and(|last| time < last) {
        Err(Reason::Behind)
    } else if last.is_some_and(|last| time > last + MOST_AHEAD) {
        Err(Reason::FarAhead)
    } else {
        Ok(time)
    }
}
