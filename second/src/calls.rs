//! The library calls on lent tables. Lengths and soundness are judged at
//! every call; a refusal changes no lent number. The reply to an accepted
//! event says when to wake the host.

use crate::numbers::{counts_good, rule_good};
use crate::rules::{Answer, State};
use crate::sound::first_broken;
use crate::tables::{
    settings_at, Gate, Guest, Tables, View, FLIGHT_NUMBERS, GATE_NUMBERS, GUEST_NUMBERS,
    SETTINGS_NUMBERS, WAITING_NUMBERS,
};
use crate::wake::wake;

/// The answer to a call, and the time to wake the host at the tables as the
/// call leaves them. A refusal has none.
#[derive(Clone, Copy, Debug, PartialEq, Eq)]
pub struct Reply {
    pub answer: Answer,
    pub wake: Option<u64>,
}

/// No time to wake, as a number. No time is as large.
pub const NEVER: u64 = u64::MAX;

impl Reply {
    pub(crate) fn refused(number: u8) -> Reply {
        Reply {
            answer: Answer::Refused(number),
            wake: None,
        }
    }

    /// The time to wake as one number, which in a refusal means nothing
    /// and is 0.
    pub fn wake_number(self) -> u64 {
        match self.answer {
            Answer::Refused(_) => 0,
            _ => self.wake.unwrap_or(NEVER),
        }
    }

    /// The reply as numbers: those of the answer, and the time to wake.
    pub fn numbers(self) -> [u64; 5] {
        let [kind, guest, id, refusal] = self.answer.numbers();
        [kind, guest, id, refusal, self.wake_number()]
    }
}

/// Opens a gate under a rule for limits. The settings are reservation, limit,
/// shares and credit of each guest. Nothing waits in a fresh table, so there is no time to wake.
pub fn open(
    depth: u64,
    guests: u64,
    capacity: u64,
    rule: u64,
    settings: &[u64],
    lent: &mut Tables,
) -> Reply {
    if !counts_good(depth, guests, capacity) || !rule_good(rule) {
        return Reply::refused(1);
    }
    let listed = settings.len() >= guests as usize * SETTINGS_NUMBERS;
    if !listed || !lent.view().long_enough(depth, guests, capacity) {
        return Reply::refused(2);
    }
    let settings_of = |guest| settings_at(settings, guest);
    if !(0..guests as usize).all(|guest| settings_of(guest).good()) {
        return Reply::refused(1);
    }
    let settings: Vec<_> = (0..guests as usize).map(settings_of).collect();
    let fresh = State::fresh_under(rule, depth as usize, capacity as usize, &settings);
    write_back(&fresh, lent);
    Reply {
        answer: Answer::Nothing,
        wake: None,
    }
}

/// A house with one array has 1 for delta and for rho.
pub fn arrive(
    lent: &mut Tables,
    guest: u64,
    id: u32,
    time: u64,
    cost: u64,
    delta: u64,
    rho: u64,
) -> Reply {
    play(lent, |state| {
        state.arrive_spread(guest, id, time, cost, delta, rho)
    })
}

pub fn complete(lent: &mut Tables, guest: u64, id: u32, time: u64) -> Reply {
    play(lent, |state| state.complete(guest, id, time))
}

pub fn tick(lent: &mut Tables, time: u64) -> Reply {
    play(lent, |state| state.tick(time))
}

/// Judges the tables, plays one event on the state they hold and writes
/// the state back if the event was accepted.
fn play(lent: &mut Tables, event: impl FnOnce(&mut State) -> Answer) -> Reply {
    if let Some(number) = table_refusal(&lent.view()) {
        return Reply::refused(number);
    }
    let mut state = read(&lent.view());
    let answer = event(&mut state);
    if let Answer::Refused(number) = answer {
        return Reply::refused(number);
    }
    write_back(&state, lent);
    let wake = wake(&state);
    Reply { answer, wake }
}

/// 2, 3. Without guests, depth and capacity in their ranges the lengths
/// needed are not known, so these give 3 at once; no length depends on the
/// rule, which is judged with the rest of soundness.
pub fn table_refusal(lent: &View) -> Option<u8> {
    if lent.gate.len() < GATE_NUMBERS {
        return Some(2);
    }
    let Gate {
        depth,
        guests,
        capacity,
        ..
    } = lent.gate();
    if !counts_good(depth, guests, capacity) {
        Some(3)
    } else if !lent.long_enough(depth, guests, capacity) {
        Some(2)
    } else if first_broken(lent).is_some() {
        Some(3)
    } else {
        None
    }
}

/// The state that sound tables hold.
pub fn read(lent: &View) -> State {
    let gate = lent.gate();
    let guest = |place| -> Guest { lent.guest(place) };
    State {
        depth: gate.depth as usize,
        capacity: gate.capacity as usize,
        time: gate.time,
        rule: gate.rule,
        guests: (0..gate.guests as usize).map(guest).collect(),
        waiting: (0..gate.waiting as usize)
            .map(|place| lent.waiting(place))
            .collect(),
        flight: (0..gate.flight as usize)
            .map(|place| lent.flight(place))
            .collect(),
    }
}

/// Writes every place the settings need: the records, then zeros. Places
/// beyond are left alone.
fn write_back(state: &State, lent: &mut Tables) {
    let gate = Gate {
        depth: state.depth as u64,
        guests: state.guests.len() as u64,
        capacity: state.capacity as u64,
        time: state.time,
        waiting: state.waiting.len() as u64,
        flight: state.flight.len() as u64,
        rule: state.rule,
    };
    lent.gate[..GATE_NUMBERS].copy_from_slice(&gate.numbers());
    let guests = state.guests.iter().map(|g| g.numbers());
    write_records(lent.guests, guests, state.guests.len() * GUEST_NUMBERS);
    let waiting = state.waiting.iter().map(|w| w.numbers());
    write_records(lent.waiting, waiting, state.capacity * WAITING_NUMBERS);
    let flight = state.flight.iter().map(|f| f.numbers());
    write_records(lent.flight, flight, state.depth * FLIGHT_NUMBERS);
}

fn write_records<const N: usize>(
    table: &mut [u64],
    records: impl Iterator<Item = [u64; N]>,
    needed: usize,
) {
    let mut at = 0;
    for record in records {
        table[at..at + N].copy_from_slice(&record);
        at += N;
    }
    table[at..needed].fill(0);
}
