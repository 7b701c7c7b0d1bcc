//! Sound tables through many calls: a gate is opened and the events of a random trace are played on it. A trace cannot
//! say a rule, a credit, a cost, a delta or a rho, so the rule is named by who plays, and each guest is given a credit here
//! and each arrival the others. So other requests are in flight than the trace knows of, and most completions are of those.

use crate::calls::{hold, Call, Fences, Opening};
use crate::damage::{cost, spread};
use crate::tally::Seen;
use second::kinds::{fixed, trace};
use second::numbers::{MOST_COST, MOST_CREDIT};
use second::sample::{Owned, Prng};
use second::tables::{FLIGHT_NUMBERS, GATE_NUMBERS, GUEST_NUMBERS, WAITING_NUMBERS};
use second::trace::{Event, Header, Version, EVENT_BYTES};
use second::Settings;

/// Numbers past the need of each table, which must stay as they are.
const REST: usize = 3;

/// How many requests wait in a fixed trace, where places at the array are free too.
const WAITING: usize = 1_000;

/// Plays the opening under a rule and the first events of a trace; gives the tables then, or what differs first.
pub fn play(
    rule: u64,
    kind: &str,
    seed: u64,
    most: usize,
    fences: &mut Fences,
    seen: &mut Seen,
) -> Result<Owned, String> {
    let bytes = match kind {
        "fixed" => fixed(WAITING, most as u64),
        _ => trace(kind, seed).ok_or("there is no such kind of trace")?,
    };
    let mut rng = Prng::new(seed);
    let loads = (dearest(kind, seed), Spread::of(kind, seed));
    let opening = opening(rule, &bytes, &mut rng);
    let events = &bytes[header_of(&bytes).length()..];
    let mut tables = dusty(&opening);
    let mut make = |call: &Call, number: usize, tables: &mut Owned| {
        let answer = hold(call, tables, fences).map_err(|why| format!("event {number}, {why}"))?;
        seen.note(answer, tables.view().gate().time);
        Ok::<(), String>(())
    };
    make(&Call::Open(opening), 0, &mut tables)?;
    for (number, event) in events.chunks_exact(EVENT_BYTES).take(most).enumerate() {
        let call = call(event, loads, &tables, &mut rng);
        make(&call, number + 1, &mut tables)?;
    }
    Ok(tables)
}

fn header_of(bytes: &[u8]) -> Header {
    Header::read(bytes).expect("a good header")
}

/// What the header of a good trace asks for, under this rule and with any credits.
fn opening(rule: u64, bytes: &[u8], rng: &mut Prng) -> Opening {
    let header = header_of(bytes);
    let row = |rates: &Settings| {
        let credit = rng.pick(&[0, 0, 1, 2, 30, MOST_CREDIT]);
        [rates.reservation, rates.limit, rates.shares, credit]
    };
    Opening {
        depth: header.depth.into(),
        guests: header.settings.len() as u64,
        capacity: header.capacity.into(),
        rule,
        settings: header.settings.iter().flat_map(row).collect(),
    }
}

fn dusty(opening: &Opening) -> Owned {
    Owned::dusty(
        GATE_NUMBERS,
        opening.guests as usize * GUEST_NUMBERS + REST,
        opening.capacity as usize * WAITING_NUMBERS + REST,
        opening.depth as usize * FLIGHT_NUMBERS + REST,
    )
}

/// The most that a request costs in a run. Where many cost much, limits let few of them go, so in some runs all cost
/// little or 1; in the large ones they cost anything.
fn dearest(kind: &str, seed: u64) -> u64 {
    match (kind, seed % 3) {
        ("large", _) | (_, 0) => MOST_COST,
        (_, 1) => 4,
        _ => 1,
    }
}

/// What the arrivals of a run are told of other arrays. A large delta holds a limited guest back for long, so in some runs
/// there is no other array, and in some they do little; in the large ones they do anything.
#[derive(Clone, Copy)]
enum Spread {
    None,
    Little,
    Any,
}

impl Spread {
    fn of(kind: &str, seed: u64) -> Spread {
        match (kind, seed / 3 % 3) {
            ("large", _) | (_, 0) => Spread::Any,
            (_, 1) => Spread::Little,
            _ => Spread::None,
        }
    }

    /// Delta and rho.
    fn pick(self, rng: &mut Prng) -> [u64; 2] {
        match self {
            Spread::None => [1, 1],
            Spread::Little => {
                let delta = rng.between(1, 4);
                [delta, rng.below(delta + 1)]
            }
            Spread::Any => spread(rng, 4),
        }
    }
}

/// The call that an event of a trace is; an arrival costs up to so much, a few of them what none may.
fn call(bytes: &[u8], (dearest, spread): (u64, Spread), tables: &Owned, rng: &mut Prng) -> Call {
    let event = Event::from_bytes(Version::One, bytes.try_into().expect("a whole event"));
    let (guest, id, time) = (event.guest as u64, event.id, event.time);
    match event.kind {
        0 => {
            let cost = cost(rng, 4, dearest);
            let [delta, rho] = spread.pick(rng);
            Call::Arrive {
                guest,
                id,
                time,
                cost,
                delta,
                rho,
            }
        }
        1 => {
            let (guest, id) = flown(tables, rng).unwrap_or((guest, id));
            Call::Complete { guest, id, time }
        }
        _ => Call::Tick { time },
    }
}

/// A request in flight, if there is one, and most often then.
fn flown(tables: &Owned, rng: &mut Prng) -> Option<(u64, u32)> {
    let view = tables.view();
    let flight = view.gate().flight;
    if flight == 0 || rng.chance(20) {
        return None;
    }
    let row = view.flight(rng.below(flight) as usize);
    Some((row.guest, row.id as u32))
}
