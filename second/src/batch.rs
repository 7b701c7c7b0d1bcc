//! Many events in one call (document 02, K5): really one call for each.

use crate::calls::{arrive, complete, tick, Reply};
use crate::tables::Tables;
use crate::trace::{ARRIVAL, COMPLETION, TICK};

/// The most events a batch may have.
pub const MOST_EVENTS: usize = 256;

/// An event in a batch: kind, guest, id, time, cost, delta, rho.
pub const EVENT_NUMBERS: usize = 7;

/// An answer in a batch: kind, guest, id, refusal, time to wake.
pub const ANSWER_NUMBERS: usize = 5;

/// Plays the events one by one and writes an answer for each. Numbers
/// behind the last whole row of events are no event; answer places past
/// the last event stay. Gives 0, or the refusal of the whole call, with
/// nothing done: 16 where the room for answers is too short, 17 where
/// there are too many events.
pub fn batch(lent: &mut Tables, events: &[u64], answers: &mut [u64]) -> u8 {
    let count = events.len() / EVENT_NUMBERS;
    if answers.len() < count * ANSWER_NUMBERS {
        return 16;
    }
    if count > MOST_EVENTS {
        return 17;
    }
    let events = events.chunks_exact(EVENT_NUMBERS);
    for (event, answer) in events.zip(answers.chunks_exact_mut(ANSWER_NUMBERS)) {
        answer.copy_from_slice(&single(lent, event).numbers());
    }
    0
}

/// One event as a single call. What cannot be one is 14, before the tables
/// are looked at: also what has a cost, a delta or a rho and is no arrival.
/// Those of an arrival are the call's to judge.
fn single(lent: &mut Tables, event: &[u64]) -> Reply {
    let [kind, guest, id, time] = [event[0], event[1], event[2], event[3]];
    let [cost, delta, rho] = [event[4], event[5], event[6]];
    let Ok(id) = u32::try_from(id) else {
        return Reply::refused(14);
    };
    let bare = [cost, delta, rho] == [0, 0, 0];
    match u8::try_from(kind) {
        Ok(ARRIVAL) => arrive(lent, guest, id, time, cost, delta, rho),
        Ok(COMPLETION) if bare => complete(lent, guest, id, time),
        Ok(TICK) if bare && guest == 0 && id == 0 => tick(lent, time),
        _ => Reply::refused(14),
    }
}
