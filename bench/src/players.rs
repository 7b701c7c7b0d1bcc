//! The two that play events on lent tables: the library through its C calls, and the second program through its own.

use crate::trace::Trace;
use second::sample::Owned;
use second::tables::{Gate as Row, FLIGHT_NUMBERS, WAITING_NUMBERS};
use second::trace::{Event, ARRIVAL};
use second::State;
use sgq::{raw, MOST_ARRAYS};

pub trait Player {
    /// Plays one event. The number stands for the answer, the same for both players.
    fn play(&mut self, event: &Event) -> u64;

    /// Plays all events. Gives the answers folded into one number.
    fn play_all(&mut self, events: &[Event]) -> u64 {
        events
            .iter()
            .fold(0, |so_far, event| join(so_far, self.play(event)))
    }
}

fn join(so_far: u64, answer: u64) -> u64 {
    so_far.wrapping_mul(31).wrapping_add(answer)
}

/// A number for each answer: kind, guest and id, or the refusal; and the time to wake.
fn folded(kind: u64, guest: u64, id: u64, wake: u64) -> u64 {
    (kind << 60 | guest << 32 | id) ^ wake.rotate_left(17)
}

/// The row of an event. A trace of version 1 says no cost, delta or rho: in each arrival all are 1.
fn row(event: &Event) -> raw::Event {
    let one = u64::from(event.kind == ARRIVAL);
    raw::Event {
        kind: event.kind as u64,
        guest: event.guest as u64,
        id: event.id as u64,
        time: event.time,
        cost: one,
        delta: one,
        rho: one,
    }
}

/// The tables as they stand after these events. The second program plays them without the test of soundness, which is
/// the quickest.
pub fn after(trace: &Trace, events: &[Event]) -> Owned {
    let (depth, capacity) = (trace.depth as usize, trace.capacity as usize);
    let mut state = State::fresh(depth, capacity, &trace.settings);
    for &event in events {
        second::trace::play(&mut state, event);
    }
    tables(&state)
}

fn tables(state: &State) -> Owned {
    let gate = Row {
        depth: state.depth as u64,
        guests: state.guests.len() as u64,
        capacity: state.capacity as u64,
        time: state.time,
        waiting: state.waiting.len() as u64,
        flight: state.flight.len() as u64,
        rule: state.rule,
    };
    let mut waiting: Vec<u64> = state.waiting.iter().flat_map(|w| w.numbers()).collect();
    waiting.resize(state.capacity * WAITING_NUMBERS, 0);
    let mut flight: Vec<u64> = state.flight.iter().flat_map(|f| f.numbers()).collect();
    flight.resize(state.depth * FLIGHT_NUMBERS, 0);
    Owned {
        gate: gate.numbers().to_vec(),
        guests: state.guests.iter().flat_map(|g| g.numbers()).collect(),
        waiting,
        flight,
    }
}

#[derive(Clone)]
pub struct Library(pub Owned);

impl Player for Library {
    fn play(&mut self, event: &Event) -> u64 {
        let Owned {
            gate,
            guests,
            waiting,
            flight,
        } = &mut self.0;
        let (g, w, f) = (guests.len(), waiting.len(), flight.len());
        let (gate, guests) = (gate.as_mut_ptr(), guests.as_mut_ptr());
        let (waiting, flight) = (waiting.as_mut_ptr(), flight.as_mut_ptr());
        let (guest, id, time) = (event.guest as u64, event.id, event.time);
        // SAFETY: all numbers of the gate, and the tables as long as they are, each in memory of its own.
        let answer = unsafe {
            match event.kind {
                0 => raw::sgq_arrive(
                    gate, guests, g, waiting, w, flight, f, guest, id, time, 1, 1, 1,
                ),
                1 => raw::sgq_complete(gate, guests, g, waiting, w, flight, f, guest, id, time),
                _ => raw::sgq_tick(gate, guests, g, waiting, w, flight, f, time),
            }
        };
        of_library(answer)
    }
}

/// The library with so many events in one call, or each in its own where that is 0.
#[derive(Clone)]
pub struct Batches {
    library: Library,
    size: usize,
    events: Vec<raw::Event>,
    answers: Vec<raw::Answer>,
}

impl Batches {
    pub fn new(library: Library, size: usize) -> Batches {
        Batches {
            library,
            size,
            events: Vec::with_capacity(size),
            answers: vec![raw::Answer::default(); size],
        }
    }

    /// The rows as a driver fills them, then one call.
    fn play_batch(&mut self, events: &[Event]) {
        self.events.clear();
        self.events.extend(events.iter().map(row));
        let Owned {
            gate,
            guests,
            waiting,
            flight,
        } = &mut self.library.0;
        let (g, w, f) = (guests.len(), waiting.len(), flight.len());
        let (gate, guests) = (gate.as_mut_ptr(), guests.as_mut_ptr());
        let (waiting, flight) = (waiting.as_mut_ptr(), flight.as_mut_ptr());
        let e = self.events.len() * raw::EVENT_NUMBERS;
        let a = self.answers.len() * raw::ANSWER_NUMBERS;
        let (events, answers) = (self.events.as_ptr(), self.answers.as_mut_ptr());
        // SAFETY: all numbers of the gate, and all else as long as it is, each in memory of its own.
        let found = unsafe {
            raw::sgq_batch(
                gate,
                guests,
                g,
                waiting,
                w,
                flight,
                f,
                events.cast(),
                e,
                answers.cast(),
                a,
            )
        };
        assert_eq!(found, 0, "the batch was refused");
    }
}

impl Player for Batches {
    fn play(&mut self, event: &Event) -> u64 {
        self.library.play(event)
    }

    fn play_all(&mut self, events: &[Event]) -> u64 {
        if self.size == 0 {
            return self.library.play_all(events);
        }
        let mut so_far = 0;
        for part in events.chunks(self.size) {
            self.play_batch(part);
            let answers = self.answers[..part.len()].iter();
            so_far = answers.fold(so_far, |so_far, &answer| join(so_far, of_library(answer)));
        }
        so_far
    }
}

fn of_library(answer: raw::Answer) -> u64 {
    let named = answer.id | answer.refusal;
    folded(answer.kind, answer.guest, named, answer.wake)
}

/// The library at the first array of a house that has the most. Of events only ticks mean something there: what else a
/// trace names, another gate has sent.
#[derive(Clone)]
pub struct Arrays {
    tables: Owned,
    counters: Vec<u64>,
    phases: Vec<u64>,
}

impl Arrays {
    /// On tables with nothing in flight.
    pub fn new(tables: Owned) -> Arrays {
        let Row { guests, depth, .. } = tables.view().gate();
        let rows = (MOST_ARRAYS * guests) as usize;
        Arrays {
            tables,
            counters: vec![0; rows * raw::COUNTER_NUMBERS],
            phases: vec![0; depth as usize],
        }
    }
}

impl Player for Arrays {
    fn play(&mut self, event: &Event) -> u64 {
        let Owned {
            gate,
            guests,
            waiting,
            flight,
        } = &mut self.tables;
        // SAFETY: all numbers of the gate, and all else as long as it is, each in memory of its own.
        of_library(unsafe {
            raw::sgq_arrays_tick(
                gate.as_mut_ptr(),
                MOST_ARRAYS,
                0,
                guests.as_mut_ptr(),
                guests.len(),
                waiting.as_mut_ptr(),
                waiting.len(),
                flight.as_mut_ptr(),
                flight.len(),
                self.counters.as_mut_ptr(),
                self.counters.len(),
                self.phases.as_mut_ptr(),
                self.phases.len(),
                event.time,
            )
        })
    }
}

#[derive(Clone)]
pub struct Second(pub Owned);

impl Player for Second {
    fn play(&mut self, event: &Event) -> u64 {
        let guest = event.guest as u64;
        let mut lent = self.0.lend();
        let reply = match event.kind {
            0 => second::arrive(&mut lent, guest, event.id, event.time, 1, 1, 1),
            1 => second::complete(&mut lent, guest, event.id, event.time),
            _ => second::tick(&mut lent, event.time),
        };
        let wake = reply.wake_number();
        match reply.answer {
            second::Answer::Nothing => folded(raw::NOTHING, 0, 0, wake),
            second::Answer::Sent { phase, guest, id } => match phase {
                second::Phase::Reservation => folded(raw::SENT_BY_RESERVATION, guest, id, wake),
                second::Phase::Weight => folded(raw::SENT_BY_WEIGHT, guest, id, wake),
            },
            second::Answer::Refused(number) => folded(raw::REFUSED, 0, number as u64, wake),
        }
    }
}
