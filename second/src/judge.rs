//! Is the other gate right (document 02, K10)? Its trace and its printed lines
//! are judged: it may break ties between guests as it likes, and all else is
//! as with us. Also the lines of gates that break ties in other ways than ours.

use crate::rules::{Answer, Phase, State};
use crate::sample::Prng;
use crate::tables::Waiting;
use crate::trace::{events, print_heading, print_line, print_refused, take, Header, Next};

/// The first wrong, missing or surplus line, the header line being 1, and what
/// our rules answer there at the other gate's tables, in the numbers of an
/// answer. All are 0 where the lines are accepted.
#[derive(Clone, Copy, Debug, Default, PartialEq, Eq)]
pub struct Judged {
    pub line: u64,
    pub kind: u64,
    pub guest: u64,
    pub id: u64,
    pub refusal: u64,
}

/// The kind where no line is due any more.
pub const SURPLUS: u64 = 4;

impl Judged {
    fn wrong(line: u64, ours: Answer) -> Judged {
        let [kind, guest, id, refusal] = ours.numbers();
        Judged {
            line,
            kind,
            guest,
            id,
            refusal,
        }
    }

    fn surplus(line: u64) -> Judged {
        Judged {
            line,
            kind: SURPLUS,
            ..Judged::default()
        }
    }
}

/// Judges the lines of another gate for a trace.
pub fn judge(trace: &[u8], lines: &[u8]) -> Judged {
    // Each with its byte 10, which the last may lack: then it is like no
    // printed line.
    let lines: Vec<&[u8]> = lines.split_inclusive(|byte| *byte == b'\n').collect();
    let begins = |line: Vec<u8>| lines.first() == Some(&&line[..]);
    match Header::read(trace) {
        Err(number) if begins(refused_line(number)) => ended(&lines, 1),
        Err(number) => Judged::wrong(1, Answer::Refused(number)),
        Ok(header) if begins(heading()) => judge_events(&header, trace, &lines),
        Ok(_) => Judged::wrong(1, Answer::Nothing),
    }
}

/// The state follows the other gate's choices. The line of an event is the
/// one at its number, for the header line is the one at 0.
fn judge_events(header: &Header, trace: &[u8], lines: &[&[u8]]) -> Judged {
    let mut state = header.fresh();
    let mut number = 0;
    for next in events(header, trace) {
        number += 1;
        let line = lines.get(number);
        let ways = ways(&mut state, next);
        let is_line = |way: &&Way| {
            let right = answer_line(number as u64, way.answer(&state));
            line == Some(&&right[..])
        };
        match ways.iter().find(is_line) {
            Some(way) => way.go(&mut state),
            None => return Judged::wrong(number as u64 + 1, ways[0].answer(&state)),
        };
    }
    ended(lines, number + 1)
}

/// So many lines were due, and right.
fn ended(lines: &[&[u8]], due: usize) -> Judged {
    if lines.len() > due {
        Judged::surplus(due as u64 + 1)
    } else {
        Judged::default()
    }
}

/// One right way to go on, once an event was taken up to the choice.
#[derive(Clone, Copy)]
pub(crate) enum Way {
    Refuse(u8),
    Rest,
    /// In this phase, from this place among the waiting.
    Send(Phase, usize),
}

impl Way {
    pub(crate) fn answer(self, state: &State) -> Answer {
        match self {
            Way::Refuse(number) => Answer::Refused(number),
            Way::Rest => Answer::Nothing,
            Way::Send(phase, place) => {
                let Waiting { guest, id, .. } = state.waiting[place];
                Answer::Sent { phase, guest, id }
            }
        }
    }

    pub(crate) fn go(self, state: &mut State) -> Answer {
        match self {
            Way::Send(phase, place) => state.send(place, phase),
            _ => self.answer(state),
        }
    }

    /// The guest of a send.
    fn guest(self, state: &State) -> Option<u64> {
        match self {
            Way::Send(_, place) => Some(state.waiting[place].guest),
            _ => None,
        }
    }
}

/// Takes an event up to the choice, and gives every right way to go on, ours
/// first: there are several where guests tie.
pub(crate) fn ways(state: &mut State, next: Next) -> Vec<Way> {
    let Next::Event(event) = next else {
        return vec![Way::Refuse(15)];
    };
    if let Err(number) = take(state, event) {
        return vec![Way::Refuse(number)];
    }
    if state.flight.len() == state.depth {
        return vec![Way::Rest];
    }
    let due = |w: &Waiting| state.due(w);
    let open = |w: &Waiting| state.open(w);
    if state.waiting.iter().any(due) {
        sends(state, Phase::Reservation, due, |w| w.rtag)
    } else if state.waiting.iter().any(open) {
        sends(state, Phase::Weight, open, |w| w.stag)
    } else {
        vec![Way::Rest]
    }
}

/// The sends of a smallest tag among those that may go, each the first waiting
/// of its guest, in order of acceptance.
fn sends(
    state: &State,
    phase: Phase,
    may: impl Fn(&Waiting) -> bool,
    tag: impl Fn(&Waiting) -> u64,
) -> Vec<Way> {
    let may_go = state.waiting.iter().filter(|w| may(w));
    let smallest = may_go.map(&tag).min();
    let places = 0..state.waiting.len();
    let right = places.filter(|place| {
        let w = &state.waiting[*place];
        may(w) && Some(tag(w)) == smallest && first_of_its_guest(state, *place)
    });
    right.map(|place| Way::Send(phase, place)).collect()
}

fn first_of_its_guest(state: &State, place: usize) -> bool {
    let guest = state.waiting[place].guest;
    !state.waiting[..place].iter().any(|w| w.guest == guest)
}

pub(crate) fn heading() -> Vec<u8> {
    written(print_heading)
}

fn refused_line(number: u8) -> Vec<u8> {
    written(|line| print_refused(line, number))
}

pub(crate) fn answer_line(number: u64, answer: Answer) -> Vec<u8> {
    written(|line| print_line(line, number, answer))
}

fn written(print: impl FnOnce(&mut Vec<u8>) -> std::io::Result<()>) -> Vec<u8> {
    let mut line = Vec::new();
    print(&mut line).expect("memory takes all that is written");
    line
}

/// How a gate breaks ties between guests.
#[derive(Clone, Copy, Debug, PartialEq, Eq)]
pub enum Ties {
    /// To the earlier accepted, as document 01 says.
    Earlier,
    LowGuest,
    HighGuest,
    /// By a throw, from this seed on.
    Random(u64),
}

/// What a gate goes by that breaks ties its own way.
#[derive(Clone)]
pub struct Breaker {
    ties: Ties,
    rng: Prng,
}

impl Breaker {
    pub fn new(ties: Ties) -> Breaker {
        let seed = match ties {
            Ties::Random(seed) => seed,
            _ => 0,
        };
        Breaker {
            ties,
            rng: Prng::new(seed),
        }
    }

    /// Plays one event.
    pub fn play(&mut self, state: &mut State, next: Next) -> Answer {
        let ways = ways(state, next);
        self.pick(state, &ways).go(state)
    }

    pub(crate) fn pick(&mut self, state: &State, ways: &[Way]) -> Way {
        let by_guest = ways.iter().copied();
        let picked = match self.ties {
            Ties::Earlier => ways.first().copied(),
            Ties::LowGuest => by_guest.min_by_key(|way| way.guest(state)),
            Ties::HighGuest => by_guest.max_by_key(|way| way.guest(state)),
            Ties::Random(_) => Some(self.rng.pick(ways)),
        };
        picked.expect("there is always a way to go on")
    }
}

/// What a gate prints for a trace that breaks ties this way.
pub fn lines_of(trace: &[u8], ties: Ties) -> Vec<u8> {
    let header = match Header::read(trace) {
        Ok(header) => header,
        Err(number) => return refused_line(number),
    };
    let mut lines = heading();
    let (mut state, mut breaker) = (header.fresh(), Breaker::new(ties));
    for (number, next) in (1..).zip(events(&header, trace)) {
        let answer = breaker.play(&mut state, next);
        lines.extend(answer_line(number, answer));
    }
    lines
}
