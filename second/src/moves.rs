//! The moves of a trace from version 1 to version 2 and back (document 02,
//! K9), over a lent trace and lent room.

use crate::numbers::RULE_1;
use crate::trace::{events, version_of, Event, Header, Next, Version, ARRIVAL};

/// What a move answers: the refusal or 0, how many bytes it wrote, and the
/// number of the event that refused it (14, 15, and 19 for a cost), else 0.
pub type Moved = (u8, usize, u64);

/// A refusal and the number of its event, or 0.
type Refusal = (u8, u64);

/// From version 1 to version 2: rule 1, credit 0, cost 1.
pub fn up(trace: &[u8], room: &mut [u8]) -> Moved {
    moved(trace, room, Version::One, Version::Two)
}

/// From version 2 to version 1, where nothing is lost by it.
pub fn back(trace: &[u8], room: &mut [u8]) -> Moved {
    moved(trace, room, Version::Two, Version::One)
}

fn moved(trace: &[u8], room: &mut [u8], from: Version, to: Version) -> Moved {
    match rewritten(trace, from, to) {
        Err((number, event)) => (number, 0, event),
        Ok(result) if room.len() < result.len() => (21, 0, 0),
        Ok(result) => {
            room[..result.len()].copy_from_slice(&result);
            (0, result.len(), 0)
        }
    }
}

/// The trace in the other version. A header of version 1 is read with rule 1
/// and credits of 0, an event with an upper part of 0, which is cost 1.
fn rewritten(trace: &[u8], from: Version, to: Version) -> Result<Vec<u8>, Refusal> {
    let of_header = |number| (number, 0);
    if version_of(trace).map_err(of_header)? != from {
        return Err((12, 0));
    }
    let header = Header::read(trace).map_err(of_header)?;
    let events = well_formed(&header, trace)?;
    if to == Version::One {
        fits_version_1(&header, &events)?;
    }
    let header = Header {
        version: to,
        ..header
    };
    let mut result = header.bytes();
    result.extend(events.iter().flat_map(|event| event.bytes(to)));
    Ok(result)
}

/// The events, or the first that is 14 or 15.
fn well_formed(header: &Header, trace: &[u8]) -> Result<Vec<Event>, Refusal> {
    let judged = (1..)
        .zip(events(header, trace))
        .map(|(number, next)| match next {
            Next::Event(event) if event.well_formed() => Ok(event),
            Next::Event(_) => Err((14, number)),
            Next::Cut => Err((15, number)),
        });
    judged.collect()
}

/// 19: version 1 cannot say another rule, credit or cost.
fn fits_version_1(header: &Header, events: &[Event]) -> Result<(), Refusal> {
    let credited = header.settings.iter().any(|s| s.credit != 0);
    if header.rule as u64 != RULE_1 || credited {
        return Err((19, 0));
    }
    match events
        .iter()
        .position(|e| e.kind == ARRIVAL && e.cost() != 1)
    {
        Some(place) => Err((19, place as u64 + 1)),
        None => Ok(()),
    }
}
