//! The sale-day sheet (document 02, K1): a line of figures for each guest,
//! counted from the events and the decisions of a trace.

use crate::rules::{Answer, Phase, State};
use crate::tables::Waiting;
use crate::trace::{print_refused, take, Event, Header, Input, Next, ARRIVAL, COMPLETION};
use std::io::{self, Read, Write};

/// The figures of one guest.
#[derive(Clone, Copy, Debug, Default, PartialEq, Eq)]
pub struct Line {
    pub arrivals: u64,
    pub completions: u64,
    pub by_reservation: u64,
    pub by_weight: u64,
    /// Reservation sends whose limit tag lay after the time of the event.
    pub ahead: u64,
    pub longest: u64,
    /// It may pass 64 bits, since one wait alone may have 62.
    pub summed: u128,
    pub waiting: u64,
    pub flight: u64,
}

/// An accepted request that was not sent yet, and when it arrived.
struct Held {
    guest: u64,
    id: u64,
    since: u64,
}

/// The sheet in the making.
pub struct Sheet {
    pub lines: Vec<Line>,
    held: Vec<Held>,
}

/// Reads a whole trace and writes its sheet.
pub fn run(input: impl Read, output: &mut impl Write) -> io::Result<()> {
    let mut input = Input::new(input);
    match input.header()? {
        Ok(header) => {
            let sheet = read_events(&mut input, &header)?;
            let mut lines = sheet.lines.iter().enumerate();
            lines.try_for_each(|(guest, line)| print_line(output, guest, line))
        }
        Err(number) => print_refused(output, number),
    }
}

/// A cut last event is the last, and passed over.
fn read_events<R: Read>(input: &mut Input<R>, header: &Header) -> io::Result<Sheet> {
    let mut state = header.fresh();
    let mut sheet = Sheet::new(state.guests.len());
    while let Some(Next::Event(event)) = input.next(header.version)? {
        sheet.play(&mut state, event);
    }
    Ok(sheet)
}

fn print_line(output: &mut impl Write, guest: usize, line: &Line) -> io::Result<()> {
    let Line {
        arrivals,
        completions,
        by_reservation,
        by_weight,
        ahead,
        longest,
        summed,
        waiting,
        flight,
    } = line;
    let (upper, lower) = (summed >> 64, *summed as u64);
    write!(output, "{guest} {arrivals} {completions} ")?;
    write!(output, "{by_reservation} {by_weight} {ahead} ")?;
    writeln!(output, "{longest} {upper} {lower} {waiting} {flight}")
}

impl Sheet {
    pub fn new(guests: usize) -> Sheet {
        Sheet {
            lines: vec![Line::default(); guests],
            held: Vec::new(),
        }
    }

    /// Plays one event on the gate and notes it, and what it sent. A
    /// refused event is passed over.
    pub fn play(&mut self, state: &mut State, event: Event) -> Answer {
        if let Err(number) = take(state, event) {
            return Answer::Refused(number);
        }
        self.note_event(event);
        // The requests as the choice finds them.
        let found = state.waiting.clone();
        let answer = state.choose();
        if let Answer::Sent { phase, guest, id } = answer {
            self.note_send(phase, guest, id, event.time);
            if phase == Phase::Reservation && limit_ahead(state, &found, guest, id, event.time) {
                self.lines[guest as usize].ahead += 1;
            }
        }
        answer
    }

    /// An accepted event.
    fn note_event(&mut self, event: Event) {
        // A tick names no guest: its 0 is not guest 0.
        let line = &mut self.lines[event.guest as usize];
        if event.kind == ARRIVAL {
            line.arrivals += 1;
            line.waiting += 1;
            self.held.push(Held {
                guest: event.guest as u64,
                id: event.id as u64,
                since: event.time,
            });
        } else if event.kind == COMPLETION {
            line.completions += 1;
            line.flight -= 1;
        }
    }

    fn note_send(&mut self, phase: Phase, guest: u64, id: u64, t: u64) {
        let waited = t - self.let_go(guest, id).since;
        let line = &mut self.lines[guest as usize];
        match phase {
            Phase::Reservation => line.by_reservation += 1,
            Phase::Weight => line.by_weight += 1,
        }
        line.longest = line.longest.max(waited);
        line.summed += waited as u128;
        line.waiting -= 1;
        line.flight += 1;
    }

    /// Takes out the request of this guest and id. There is one: what is
    /// sent was accepted, and an id is not accepted again while it waits.
    fn let_go(&mut self, guest: u64, id: u64) -> Held {
        let named = |held: &Held| held.guest == guest && held.id == id;
        let place = self.held.iter().position(named);
        self.held.remove(place.expect("what is sent was waiting"))
    }
}

/// Has this request a limit tag, and does it lie after t?
fn limit_ahead(state: &State, found: &[Waiting], guest: u64, id: u64, t: u64) -> bool {
    let named = |w: &&Waiting| w.guest == guest && w.id == id;
    let later = |w: &Waiting| w.ltag > t;
    state.guests[guest as usize].settings.has_limit() && found.iter().find(named).is_some_and(later)
}
