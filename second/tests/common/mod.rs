//! Shared by the tests.
#![allow(dead_code)]

pub mod mirror;
pub mod old;

use second::sample::Owned;
use second::tables::{FLIGHT_NUMBERS, GATE_NUMBERS, GUEST_NUMBERS, WAITING_NUMBERS};
use second::trace::{events, run, Event, Header, Next};
use second::{open, Answer, Phase, Reply, Settings, State, Tables};

pub const MS: u64 = 1_000_000;

pub fn guest(reservation: u64, limit: u64, shares: u64) -> Settings {
    Settings {
        reservation,
        limit,
        shares,
        credit: 0,
    }
}

pub fn credited(credit: u64, settings: Settings) -> Settings {
    Settings { credit, ..settings }
}

pub fn reservation(guest: u64, id: u64) -> Answer {
    Answer::Sent {
        phase: Phase::Reservation,
        guest,
        id,
    }
}

pub fn weight(guest: u64, id: u64) -> Answer {
    Answer::Sent {
        phase: Phase::Weight,
        guest,
        id,
    }
}

pub fn share_tags(state: &State) -> Vec<u64> {
    state.waiting.iter().map(|w| w.stag).collect()
}

pub fn reservation_tags(state: &State) -> Vec<u64> {
    state.waiting.iter().map(|w| w.rtag).collect()
}

/// Where a number of the guest, the waiting request or the request in
/// flight at a place stands in its table.
pub fn guest_at(place: usize, column: usize) -> usize {
    place * GUEST_NUMBERS + column
}

pub fn waiting_at(place: usize, column: usize) -> usize {
    place * WAITING_NUMBERS + column
}

pub fn flight_at(place: usize, column: usize) -> usize {
    place * FLIGHT_NUMBERS + column
}

/// Writes the record at a place of a table.
pub fn put<const N: usize>(table: &mut [u64], place: usize, record: [u64; N]) {
    table[place * N..][..N].copy_from_slice(&record);
}

/// Tables with so many places, and some numbers beyond them, each place
/// holding a number that says nothing.
pub fn dusty(depth: usize, guests: usize, capacity: usize, beyond: usize) -> Owned {
    Owned::dusty(
        GATE_NUMBERS + beyond,
        guests * GUEST_NUMBERS + beyond,
        capacity * WAITING_NUMBERS + beyond,
        depth * FLIGHT_NUMBERS + beyond,
    )
}

/// Tables of just the lengths needed, opened with rule 1.
pub fn opened(depth: u64, capacity: u64, settings: &[Settings]) -> Owned {
    opened_under(1, depth, capacity, settings)
}

pub fn opened_under(rule: u64, depth: u64, capacity: u64, settings: &[Settings]) -> Owned {
    let guests = settings.len();
    let mut owned = dusty(depth as usize, guests, capacity as usize, 0);
    let list: Vec<u64> = settings
        .iter()
        .flat_map(|s| [s.reservation, s.limit, s.shares, s.credit])
        .collect();
    let count = guests as u64;
    let reply = open(depth, count, capacity, rule, &list, &mut owned.lend());
    assert_eq!(reply.answer, Answer::Nothing);
    owned
}

/// An event without an upper part.
pub fn event(kind: u8, guest: u8, id: u32, time: u64) -> Event {
    Event {
        kind,
        upper: 0,
        guest,
        id,
        time,
    }
}

/// The good header of a trace, and its whole events.
pub fn taken_apart(trace: &[u8]) -> (Header, Vec<Event>) {
    let header = Header::read(trace).unwrap();
    let whole = events(&header, trace).filter_map(|next| match next {
        Next::Event(event) => Some(event),
        Next::Cut => None,
    });
    let whole = whole.collect();
    (header, whole)
}

/// The call an event stands for that is not 14.
pub fn call_of(e: Event) -> Call {
    match e.kind {
        0 => arrive(e.guest as u64, e.id, e.time, e.cost()),
        1 => Call::Complete(e.guest as u64, e.id, e.time),
        _ => Call::Tick(e.time),
    }
}

/// Tables opened as a header says.
pub fn opened_by(header: &Header) -> Owned {
    let (depth, capacity) = (header.depth as u64, header.capacity as u64);
    opened_under(header.rule as u64, depth, capacity, &header.settings)
}

/// What the program prints for a trace.
pub fn printed(trace: &[u8]) -> String {
    let mut out = Vec::new();
    run(trace, &mut out).unwrap();
    String::from_utf8(out).unwrap()
}

/// Guest, id, time, and of an arrival the cost, then delta and rho.
#[derive(Clone, Copy, Debug)]
pub enum Call {
    Arrive(u64, u32, u64, u64, [u64; 2]),
    Complete(u64, u32, u64),
    Tick(u64),
}

/// An arrival with a delta and rho of 1.
pub fn arrive(guest: u64, id: u32, time: u64, cost: u64) -> Call {
    Call::Arrive(guest, id, time, cost, [1, 1])
}

/// The answer to a call, for tests that do not look at the time to wake.
pub fn call(lent: &mut Tables, call: Call) -> Answer {
    reply(lent, call).answer
}

pub fn reply(lent: &mut Tables, call: Call) -> Reply {
    match call {
        Call::Arrive(guest, id, time, cost, [delta, rho]) => {
            second::arrive(lent, guest, id, time, cost, delta, rho)
        }
        Call::Complete(guest, id, time) => second::complete(lent, guest, id, time),
        Call::Tick(time) => second::tick(lent, time),
    }
}

/// The same call on a state that is known to be sound.
pub fn play(state: &mut State, call: Call) -> Answer {
    match call {
        Call::Arrive(guest, id, time, cost, [delta, rho]) => {
            state.arrive_spread(guest, id, time, cost, delta, rho)
        }
        Call::Complete(guest, id, time) => state.complete(guest, id, time),
        Call::Tick(time) => state.tick(time),
    }
}

pub fn refused(answer: Answer) -> bool {
    matches!(answer, Answer::Refused(_))
}
