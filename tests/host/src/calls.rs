//! One call, made of the library and of the second program on the same tables, and what differs afterwards.

use crate::fence::Fenced;
use second::calls::table_refusal;
use second::sample::Owned;
use second::{first_broken, Answer, Phase, Reply, Rule};
use sgq::raw;

#[derive(Clone, Debug)]
pub enum Call {
    Open(Opening),
    Arrive {
        guest: u64,
        id: u32,
        time: u64,
        cost: u64,
        delta: u64,
        rho: u64,
    },
    Complete {
        guest: u64,
        id: u32,
        time: u64,
    },
    Tick {
        time: u64,
    },
}

#[derive(Clone, Debug)]
pub struct Opening {
    pub depth: u64,
    pub guests: u64,
    pub capacity: u64,
    pub rule: u64,
    pub settings: Vec<u64>,
}

/// Where the tables stand while they are lent to the library.
pub struct Fences {
    pub gate: Fenced,
    pub settings: Fenced,
    pub guests: Fenced,
    pub waiting: Fenced,
    pub flight: Fenced,
    pub events: Fenced,
    pub answers: Fenced,
    pub counters: Fenced,
    pub phases: Fenced,
}

impl Fences {
    pub fn new() -> Fences {
        Fences {
            gate: Fenced::new(),
            settings: Fenced::new(),
            guests: Fenced::new(),
            waiting: Fenced::new(),
            flight: Fenced::new(),
            events: Fenced::new(),
            answers: Fenced::new(),
            counters: Fenced::new(),
            phases: Fenced::new(),
        }
    }
}

/// Makes the call of both, the tables being left as the second program leaves them. Gives its answer, or what differs.
pub fn hold(call: &Call, tables: &mut Owned, fences: &mut Fences) -> Result<raw::Answer, String> {
    let before = tables.clone();
    let mut ours = before.clone();
    let answer = of_library(call, &mut ours, fences).map_err(|why| format!("{call:?}: {why}"))?;
    let expected = of_second(call, tables);
    match difference(answer, expected, &before, &ours, tables) {
        None => Ok(expected),
        Some(why) => Err(format!("{call:?}: {why}{}", judgement(call, &before))),
    }
}

/// The library's answer, or which memory beside the tables it changed.
fn of_library(
    call: &Call,
    tables: &mut Owned,
    fences: &mut Fences,
) -> Result<raw::Answer, &'static str> {
    let l = Lent::put(tables, fences);
    // SAFETY: all numbers of the gate and the tables as long as they are, each in memory of its own.
    let answer = unsafe {
        match call {
            Call::Open(o) => {
                let (settings, s) = (fences.settings.put(&o.settings), o.settings.len());
                raw::sgq_open(
                    l.gate, o.depth, o.guests, o.capacity, o.rule, settings, s, l.guests, l.g,
                    l.waiting, l.w, l.flight, l.f,
                )
            }
            &Call::Arrive {
                guest,
                id,
                time,
                cost,
                delta,
                rho,
            } => raw::sgq_arrive(
                l.gate, l.guests, l.g, l.waiting, l.w, l.flight, l.f, guest, id, time, cost, delta,
                rho,
            ),
            &Call::Complete { guest, id, time } => raw::sgq_complete(
                l.gate, l.guests, l.g, l.waiting, l.w, l.flight, l.f, guest, id, time,
            ),
            &Call::Tick { time } => {
                raw::sgq_tick(l.gate, l.guests, l.g, l.waiting, l.w, l.flight, l.f, time)
            }
        }
    };
    taken_back(call, tables, fences)?;
    Ok(answer)
}

/// The gate and the tables while they are lent: where each begins, and how long the tables are.
pub struct Lent {
    pub gate: *mut u64,
    pub guests: *mut u64,
    pub g: usize,
    pub waiting: *mut u64,
    pub w: usize,
    pub flight: *mut u64,
    pub f: usize,
}

impl Lent {
    pub fn put(tables: &Owned, fences: &mut Fences) -> Lent {
        Lent {
            gate: fences.gate.put(&tables.gate),
            guests: fences.guests.put(&tables.guests),
            g: tables.guests.len(),
            waiting: fences.waiting.put(&tables.waiting),
            w: tables.waiting.len(),
            flight: fences.flight.put(&tables.flight),
            f: tables.flight.len(),
        }
    }
}

/// Takes back what was lent, or gives which memory beside it has changed.
pub fn taken_back(
    call: &Call,
    tables: &mut Owned,
    fences: &mut Fences,
) -> Result<(), &'static str> {
    let marks = [
        fences.gate.take(&mut tables.gate),
        fences.guests.take(&mut tables.guests),
        fences.waiting.take(&mut tables.waiting),
        fences.flight.take(&mut tables.flight),
    ];
    if marks.contains(&false) {
        return Err("the library wrote before the beginning of a table");
    }
    if let Call::Open(opening) = call {
        let mut settings = opening.settings.clone();
        if !fences.settings.take(&mut settings) || settings != opening.settings {
            return Err("the library changed the settings");
        }
    }
    Ok(())
}

fn of_second(call: &Call, tables: &mut Owned) -> raw::Answer {
    let mut lent = tables.lend();
    in_numbers(match call {
        Call::Open(o) => {
            let (depth, guests, capacity) = (o.depth, o.guests, o.capacity);
            second::open(depth, guests, capacity, o.rule, &o.settings, &mut lent)
        }
        &Call::Arrive {
            guest,
            id,
            time,
            cost,
            delta,
            rho,
        } => second::arrive(&mut lent, guest, id, time, cost, delta, rho),
        &Call::Complete { guest, id, time } => second::complete(&mut lent, guest, id, time),
        &Call::Tick { time } => second::tick(&mut lent, time),
    })
}

/// The second program's reply as the C interface gives it.
pub fn in_numbers(reply: Reply) -> raw::Answer {
    let (kind, guest, id, refusal) = match reply.answer {
        Answer::Nothing => (raw::NOTHING, 0, 0, 0),
        Answer::Sent { phase, guest, id } => match phase {
            Phase::Reservation => (raw::SENT_BY_RESERVATION, guest, id, 0),
            Phase::Weight => (raw::SENT_BY_WEIGHT, guest, id, 0),
        },
        Answer::Refused(number) => (raw::REFUSED, 0, 0, number as u64),
    };
    raw::Answer {
        kind,
        guest,
        id,
        refusal,
        wake: reply.wake_number(),
    }
}

/// What differs between the two.
fn difference(
    answer: raw::Answer,
    expected: raw::Answer,
    before: &Owned,
    ours: &Owned,
    theirs: &Owned,
) -> Option<String> {
    let mut found = tables_differ(before, ours, theirs);
    if answer != expected {
        found.push(format!(
            "the library answers {answer:?}, second {expected:?}"
        ));
    }
    (!found.is_empty()).then(|| found.join("; "))
}

/// What differs between the two in the gate and the tables, the first number of each.
pub fn tables_differ(before: &Owned, ours: &Owned, theirs: &Owned) -> Vec<String> {
    let mut found = Vec::new();
    let tables = [
        ("gate", &before.gate, &ours.gate, &theirs.gate),
        ("guest table", &before.guests, &ours.guests, &theirs.guests),
        ("waiting", &before.waiting, &ours.waiting, &theirs.waiting),
        ("flight", &before.flight, &ours.flight, &theirs.flight),
    ];
    for (name, before, ours, theirs) in tables {
        found.extend(numbers_differ(name, before, ours, theirs));
    }
    found
}

/// The first number that differs between the two.
pub fn numbers_differ(name: &str, before: &[u64], ours: &[u64], theirs: &[u64]) -> Option<String> {
    let at = (0..ours.len()).find(|&at| ours[at] != theirs[at])?;
    let (was, has, wants) = (before[at], ours[at], theirs[at]);
    Some(format!(
        "{name} number {at} was {was}, the library leaves {has}, second {wants}"
    ))
}

/// How the second program judges the tables that were handed over.
pub fn judgement(call: &Call, before: &Owned) -> String {
    match (call, broken_rule(before)) {
        (Call::Open(_), _) | (_, None) => String::new(),
        (_, Some(rule)) => format!("; second finds broken: {rule:?}"),
    }
}

/// The first rule of soundness that lent tables break, where they are long enough to ask.
pub fn broken_rule(tables: &Owned) -> Option<Rule> {
    match table_refusal(&tables.view()) {
        Some(3) => first_broken(&tables.view()),
        _ => None,
    }
}
