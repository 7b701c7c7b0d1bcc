//! Houses with several arrays. A call of an array is made of the library and of the second program on the same numbers, and
//! what differs afterwards is told: first on houses of which most are damaged, then through whole runs of a house.

use crate::all_but;
use crate::calls::{
    in_numbers, judgement, numbers_differ, tables_differ, taken_back, Call, Fences, Lent, Opening,
};
use crate::damage;
use crate::fence;
use crate::seeds::Seeds;
use crate::tally::{Seen, Tally};
use second::arrays::{self, COUNTER_NUMBERS, DELTA, MOST_ARRAYS, RHO};
use second::sample::{any_counters, sound_house, spoil_house, Owned, OwnedHouse, Prng};
use second::tables::{FLIGHT_NUMBERS, GATE_NUMBERS, GUEST_NUMBERS, WAITING_NUMBERS};
use sgq::{raw, Refusal};

/// Seeds of houses as a call is lent them, with four calls each.
const SEEDS: usize = 6_000;

/// Runs of whole houses, small ones of every number of arrays and large ones, and how many events each has.
const RUNS: usize = 240;
const LARGE_RUNS: usize = 2;
const EVENTS: usize = 250;

/// What the calls of arrays never give: those of batches, and what a gate says of a delta that they never hand over.
const NEVER: [Refusal; 4] = [
    Refusal::EventKind,
    Refusal::ShortAnswers,
    Refusal::TooManyEvents,
    Refusal::Delta,
];

const MS: u64 = 1_000_000;

pub fn test(seeds: Seeds, fences: &mut Fences, tally: &mut Tally) {
    damaged(seeds, fences, tally);
    runs(seeds, fences, tally);
}

// One call.

/// Makes the call of both, the house being left as the second program leaves it. Gives its answer, or what differs. An
/// arrival's delta and rho are not handed over: the house counts them.
fn hold(call: &Call, house: &mut OwnedHouse, fences: &mut Fences) -> Result<raw::Answer, String> {
    let before = house.clone();
    let mut ours = before.clone();
    let named = |why: &str| {
        let (array, arrays) = (before.array, before.arrays);
        format!("{call:?} at array {array} of {arrays}: {why}")
    };
    let answer = of_library(call, &mut ours, fences).map_err(named)?;
    let expected = of_second(call, house);
    let mut differs = tables_differ(&before.tables, &ours.tables, &house.tables);
    let (counters, phases) = (&before.counters, &before.phases);
    differs.extend(numbers_differ(
        "counter",
        counters,
        &ours.counters,
        &house.counters,
    ));
    differs.extend(numbers_differ("phase", phases, &ours.phases, &house.phases));
    if answer != expected {
        differs.push(format!(
            "the library answers {answer:?}, second {expected:?}"
        ));
    }
    match differs.is_empty() {
        true => Ok(expected),
        false => Err(named(&differs.join("; ")) + &judgement(call, &before.tables)),
    }
}

/// The library's answer, or which memory beside what it was lent it changed.
fn of_library(
    call: &Call,
    house: &mut OwnedHouse,
    fences: &mut Fences,
) -> Result<raw::Answer, &'static str> {
    let answer = lent_call(call, house, fences);
    taken_back(call, &mut house.tables, fences)?;
    let marks = [
        fences.counters.take(&mut house.counters),
        fences.phases.take(&mut house.phases),
    ];
    match marks.contains(&false) {
        true => Err("the library wrote before the beginning of counters or phases"),
        false => Ok(answer),
    }
}

fn lent_call(call: &Call, house: &OwnedHouse, fences: &mut Fences) -> raw::Answer {
    let (n, a) = (house.arrays, house.array);
    let l = Lent::put(&house.tables, fences);
    let (counters, c) = (fences.counters.put(&house.counters), house.counters.len());
    let (phases, p) = (fences.phases.put(&house.phases), house.phases.len());
    // SAFETY: all numbers of the gate, and all else as long as it is, each in memory of its own.
    unsafe {
        match call {
            Call::Open(o) => {
                let (settings, s) = (fences.settings.put(&o.settings), o.settings.len());
                raw::sgq_arrays_open(
                    l.gate, n, a, o.depth, o.guests, o.capacity, o.rule, settings, s, l.guests,
                    l.g, l.waiting, l.w, l.flight, l.f, counters, c, phases, p,
                )
            }
            &Call::Arrive {
                guest,
                id,
                time,
                cost,
                ..
            } => raw::sgq_arrays_arrive(
                l.gate, n, a, l.guests, l.g, l.waiting, l.w, l.flight, l.f, counters, c, phases, p,
                guest, id, time, cost,
            ),
            &Call::Complete { guest, id, time } => raw::sgq_arrays_complete(
                l.gate, n, a, l.guests, l.g, l.waiting, l.w, l.flight, l.f, counters, c, phases, p,
                guest, id, time,
            ),
            &Call::Tick { time } => raw::sgq_arrays_tick(
                l.gate, n, a, l.guests, l.g, l.waiting, l.w, l.flight, l.f, counters, c, phases, p,
                time,
            ),
        }
    }
}

fn of_second(call: &Call, house: &mut OwnedHouse) -> raw::Answer {
    let mut lent = house.lend();
    in_numbers(match call {
        Call::Open(o) => {
            let (depth, guests, capacity) = (o.depth, o.guests, o.capacity);
            arrays::open(depth, guests, capacity, o.rule, &o.settings, &mut lent)
        }
        &Call::Arrive {
            guest,
            id,
            time,
            cost,
            ..
        } => arrays::arrive(&mut lent, guest, id, time, cost),
        &Call::Complete { guest, id, time } => arrays::complete(&mut lent, guest, id, time),
        &Call::Tick { time } => arrays::tick(&mut lent, time),
    })
}

// Damaged houses.

fn damaged(seeds: Seeds, fences: &mut Fences, tally: &mut Tally) {
    let mut seen = Seen::default();
    for seed in seeds.of(SEEDS) {
        let result = four_calls(seed, fences, &mut seen);
        tally.add(&format!("house of seed {seed}"), result);
    }
    println!("damaged houses: {} calls", seen.calls);
    seen.print();
    tally.add_seen("damaged houses", seen.all_seen(&all_but(&NEVER)));
    tally.add("refusals of damaged houses", seen.never_seen(&NEVER));
}

/// Each of the four calls on the same house.
fn four_calls(seed: u64, fences: &mut Fences, seen: &mut Seen) -> Result<(), String> {
    fence::playing(seed);
    let mut rng = Prng::new(seed);
    let house = house(&mut rng);
    for call in damage::calls(&mut rng, &house.tables) {
        let mut house = house.clone();
        let answer = hold(&call, &mut house, fences)?;
        seen.note(answer, house.tables.view().gate().time);
    }
    Ok(())
}

/// A house with no damage or up to three. The gate keeps its numbers, which the C interface always lends.
fn house(rng: &mut Prng) -> OwnedHouse {
    let mut house = sound_house(rng);
    house.tables.gate.truncate(GATE_NUMBERS);
    for _ in 0..rng.pick(&[0, 0, 0, 1, 1, 1, 2, 3]) {
        if rng.chance(30) {
            damage::damage(rng, &mut house.tables);
            continue;
        }
        let gate = house.tables.gate.clone();
        spoil_house(rng, &mut house);
        if house.tables.gate.len() < gate.len() {
            house.tables.gate = gate;
        }
    }
    house
}

// Whole runs.

/// What the accepted arrivals of the runs took to their gates: how many a delta above 1, how many a rho between 0 and it,
/// and how many a rho of 0.
#[derive(Default)]
struct Taken {
    spread: u64,
    between: u64,
    none: u64,
}

fn runs(seeds: Seeds, fences: &mut Fences, tally: &mut Tally) {
    let (mut seen, mut taken) = (Seen::default(), Taken::default());
    for (kind, count) in [(Kind::Small, RUNS), (Kind::Large, LARGE_RUNS)] {
        for seed in seeds.of(count) {
            fence::playing(seed);
            let result = run(kind, seed, fences, &mut seen, &mut taken);
            tally.add(&format!("{kind:?} house, run of seed {seed}"), result);
        }
    }
    println!("runs of houses: {} calls", seen.calls);
    seen.print();
    let Taken {
        spread,
        between,
        none,
    } = taken;
    println!(
        "  delta above 1 at {spread} arrivals, rho between 0 and delta at {between}, 0 at {none}"
    );
    let enough = [spread, between, none].iter().all(|&times| times > 500);
    let few = || "too few arrivals of one kind".to_string();
    tally.add_seen("runs of houses", enough.then_some(()).ok_or_else(few));
    tally.add_seen("answers in runs of houses", seen.all_seen(&[]));
}

#[derive(Clone, Copy, Debug)]
enum Kind {
    Small,
    Large,
}

/// A whole house: the counters, and of each array the tables and the phases.
struct Whole {
    counters: Vec<u64>,
    arrays: Vec<(Owned, Vec<u64>)>,
}

/// Opens every array, and plays events at them, most of them such as are accepted.
fn run(
    kind: Kind,
    seed: u64,
    fences: &mut Fences,
    seen: &mut Seen,
    taken: &mut Taken,
) -> Result<(), String> {
    let mut rng = Prng::new(seed);
    let (openings, mut whole) = closed(kind, seed, &mut rng);
    for (array, opening) in (0..).zip(&openings) {
        whole.call(array, &Call::Open(opening.clone()), fences, seen)?;
    }
    if rng.chance(30) {
        whole.counted_before(&mut rng);
    }
    let mut now = 0;
    for event in 0..EVENTS {
        now += rng.pick(&[0, 0, MS, 3 * MS, 10 * MS]);
        let (array, call) = asked(&mut rng, &whole, &openings, now);
        let counted = whole.counted(array, &call);
        let accepted = whole
            .call(array, &call, fences, seen)
            .map_err(|why| format!("event {event}, {why}"))?;
        if let (true, Some([delta, rho])) = (accepted, counted) {
            taken.spread += u64::from(delta > 1);
            taken.between += u64::from(rho > 0 && rho < delta);
            taken.none += u64::from(rho == 0);
        }
    }
    Ok(())
}

/// An array, now and then one that is not there, and what is asked of it: an event, or that it be opened again.
fn asked(rng: &mut Prng, whole: &Whole, openings: &[Opening], now: u64) -> (u64, Call) {
    let place = rng.below(openings.len() as u64) as usize;
    let call = if rng.chance(1) {
        Call::Open(openings[place].clone())
    } else {
        likely(rng, &whole.arrays[place].0, now)
    };
    let array = if rng.chance(2) { openings.len() } else { place };
    (array as u64, call)
}

/// A house that is not open yet, with its openings: the guests are the same at each array, places may differ.
fn closed(kind: Kind, seed: u64, rng: &mut Prng) -> (Vec<Opening>, Whole) {
    let (arrays, guests) = match kind {
        Kind::Small => (seed % MOST_ARRAYS + 1, rng.between(1, 4)),
        Kind::Large => (MOST_ARRAYS, 64),
    };
    let settings: Vec<u64> = (0..guests).flat_map(|_| lively(rng)).collect();
    let rule = rng.between(1, 2);
    let opening = |rng: &mut Prng| Opening {
        depth: rng.between(1, 4),
        guests,
        capacity: rng.between(4, 12),
        rule,
        settings: settings.clone(),
    };
    let mut openings: Vec<_> = (0..arrays).map(|_| opening(rng)).collect();
    if let Kind::Large = kind {
        openings[0].depth = 64;
        openings[0].capacity = 1_024;
    }
    let rest = rng.pick(&[0, 0, 5]);
    let dusty = |o: &Opening| {
        let tables = Owned::dusty(
            GATE_NUMBERS,
            o.guests as usize * GUEST_NUMBERS + rest,
            o.capacity as usize * WAITING_NUMBERS + rest,
            o.depth as usize * FLIGHT_NUMBERS + rest,
        );
        (tables, vec![77; o.depth as usize + rest])
    };
    let whole = Whole {
        counters: vec![77; (arrays * guests) as usize * COUNTER_NUMBERS + rest],
        arrays: openings.iter().map(dusty).collect(),
    };
    (openings, whole)
}

/// Settings that let much go by either phase within milliseconds, and some from the whole range.
fn lively(rng: &mut Prng) -> [u64; 4] {
    if rng.chance(20) {
        return damage::settings(rng);
    }
    let reservation = rng.pick(&[0, 100, 300, 1_000]);
    let limit = rng.pick(&[0, 0, 1_000, 3_000]);
    [
        reservation,
        limit,
        rng.pick(&[100, 500]),
        rng.pick(&[0, 0, 4]),
    ]
}

/// A call on these tables that is most often accepted.
fn likely(rng: &mut Prng, tables: &Owned, now: u64) -> Call {
    let late = rng.chance(4);
    let time = if late { now.saturating_sub(MS) } else { now };
    let gate = tables.view().gate();
    let known = rng.below(gate.guests);
    let guest = if rng.chance(2) { gate.guests } else { known };
    let id = rng.below(40) as u32;
    match rng.below(20) {
        0..=8 => Call::Arrive {
            guest,
            id,
            time,
            cost: damage::cost(rng, 2, 4),
            delta: 0,
            rho: 0,
        },
        9..=16 if gate.flight > 0 => {
            let row = tables.view().flight(rng.below(gate.flight) as usize);
            let (guest, id) = (row.guest, row.id as u32);
            Call::Complete { guest, id, time }
        }
        17 => Call::Complete { guest, id, time },
        _ => Call::Tick { time },
    }
}

impl Whole {
    /// As if much had been counted before, up to where counting stops.
    fn counted_before(&mut self, rng: &mut Prng) {
        let guests = self.arrays[0].0.view().gate().guests as usize;
        let rows = guests * self.arrays.len();
        for row in self.counters.chunks_exact_mut(COUNTER_NUMBERS).take(rows) {
            row.copy_from_slice(&any_counters(rng));
        }
    }

    /// Delta and rho that an arrival takes with it, if the call is one of a guest and an array that are there.
    fn counted(&self, array: u64, call: &Call) -> Option<[u64; 2]> {
        let &Call::Arrive { guest, .. } = call else {
            return None;
        };
        let guests = self.arrays.get(array as usize)?.0.view().gate().guests;
        let row = (array * guests + guest) as usize;
        let counted = self.counters.chunks_exact(COUNTER_NUMBERS).nth(row)?;
        Some([counted[DELTA].max(1), counted[RHO]])
    }

    /// Holds a call at an array; one that is not there is lent the last one's numbers. Gives whether it was accepted.
    fn call(
        &mut self,
        array: u64,
        call: &Call,
        fences: &mut Fences,
        seen: &mut Seen,
    ) -> Result<bool, String> {
        let place = (array as usize).min(self.arrays.len() - 1);
        let (tables, phases) = self.arrays[place].clone();
        let mut house = OwnedHouse {
            arrays: self.arrays.len() as u64,
            array,
            counters: self.counters.clone(),
            tables,
            phases,
        };
        let answer = hold(call, &mut house, fences)?;
        seen.note(answer, house.tables.view().gate().time);
        self.counters = house.counters;
        self.arrays[place] = (house.tables, house.phases);
        Ok(answer.kind != raw::REFUSED)
    }
}
