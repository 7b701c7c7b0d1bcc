//! When to wake the host (document 02, K2), found by trying.

use crate::rules::{Answer, State};

/// The earliest time, the gate's or later, at which a tick alone would send
/// something; none where no place is free or nothing waits.
pub fn wake(state: &State) -> Option<u64> {
    if state.flight.len() == state.depth || state.waiting.is_empty() {
        return None;
    }
    let times = candidates(state);
    times.into_iter().find(|t| tick_sends(state, *t))
}

/// The times worth trying, in order. The choice compares the time with
/// reservation and limit tags and reads it nowhere else; so between one
/// such tag and the next, nothing can become due.
fn candidates(state: &State) -> Vec<u64> {
    let tags = state.waiting.iter().flat_map(|w| [w.rtag, w.ltag]);
    let mut times: Vec<u64> = tags.filter(|tag| *tag >= state.time).collect();
    times.push(state.time);
    times.sort();
    times
}

/// Tried on a copy.
fn tick_sends(state: &State, t: u64) -> bool {
    matches!(state.clone().tick(t), Answer::Sent { .. })
}
