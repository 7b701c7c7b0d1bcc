//! Names for the library's answers.

use crate::raw;
use std::fmt;

/// What an accepted event led to, and when to tick. The compiler warns where it is thrown away:
///
/// ```compile_fail
/// #![deny(unused_must_use)]
/// fn lost(gate: &mut sgq::Gate) -> Result<(), sgq::Refusal> {
///     gate.tick(0)?;
///     Ok(())
/// }
/// ```
///
/// ```
/// #![deny(unused_must_use)]
/// fn kept(gate: &mut sgq::Gate) -> Result<(), sgq::Refusal> {
///     println!("{}", gate.tick(0)?);
///     Ok(())
/// }
/// ```
#[must_use = "an answer may name a request that now goes to the array"]
#[derive(Clone, Copy, Debug, PartialEq, Eq, Hash)]
pub struct Outcome {
    /// What goes to the array now.
    pub answer: Answer,
    /// When to tick. Document 02, K2: "the earliest time, now or later, at which a tick alone would send something", or
    /// none "when no place is free or nothing waits". It is judged after the event: what the answer sends does not wait
    /// any more. Where it is the event's own time, a tick at once sends another request. It stands until the next
    /// accepted event; a refused one carries nothing, and what was said last still stands.
    pub wake: Option<u64>,
}

/// Whether an accepted event sends a request, and which.
#[must_use = "an answer may name a request that now goes to the array"]
#[derive(Clone, Copy, Debug, PartialEq, Eq, Hash)]
pub enum Answer {
    /// Nothing goes to the array now.
    Nothing,
    /// This request goes to the array now. It need not be the one that arrived.
    Sent {
        /// In which phase it was chosen.
        phase: Phase,
        /// The guest's number, from 0.
        guest: u64,
        /// The request's id.
        id: u32,
    },
}

/// The phase in which a request was chosen.
#[derive(Clone, Copy, Debug, PartialEq, Eq, Hash)]
pub enum Phase {
    /// "of the waiting requests with a reservation tag at or before t, the one with the smallest, ties to the earlier
    /// accepted"; under [`crate::Rule::Two`] of those of them that are unlimited or have a limit tag at or before t.
    Reservation,
    /// "of those that are unlimited or have a limit tag at or before t, the one with the smallest share tag, same tie
    /// rule."
    Weight,
}

/// Why a call or an event of a batch was refused, with the documents' number. "Every refusal changes no lent number and not the time."
///
/// The numbers of those that the calls give need not follow each other, and more may come.
#[derive(Clone, Copy, Debug, PartialEq, Eq, Hash)]
#[non_exhaustive]
#[repr(u64)]
pub enum Refusal {
    /// "a setting is out of range, when opening"; of a call on a trace, in its header.
    Setting = 1,
    /// "a lent table, or at opening the lent list of guest settings, is shorter than the settings need". A
    /// [`crate::Gate`] lends tables of the right length, and [`crate::Arrays`] likewise, so they never give this.
    ShortTable = 2,
    /// "the table is not sound". A [`crate::Gate`] and [`crate::Arrays`] keep their tables to themselves, so they never
    /// give this.
    NotSound = 3,
    /// "unknown guest".
    UnknownGuest = 4,
    /// "time above the ceiling".
    TimeAboveCeiling = 5,
    /// "time before the last accepted time".
    TimeBeforeLast = 6,
    /// "arrival: guest has this id waiting or in flight".
    IdInUse = 7,
    /// "arrival: waiting count equals capacity".
    WaitingFull = 8,
    /// "arrival: a tag given, or a share tag moved, would pass the ceiling".
    TagAboveCeiling = 9,
    /// "completion: guest has no such id in flight".
    NotInFlight = 10,
    /// Of a call on a trace: "trace mark". It does not begin with the letters `SGQ`.
    TraceMark = 11,
    /// Of a call on a trace: "trace version". It is not of the version that is moved; else it is neither 1 nor 2.
    TraceVersion = 12,
    /// Of a call on a trace: "trace header cut short".
    TraceHeaderCut = 13,
    /// "event kind above 2, or a tick with non-zero guest or id", or an id of more than 32 bits, or a completion or tick
    /// with a cost, a delta or a rho: an event of a batch that is none. The makers of [`crate::Event`] make no such one.
    EventKind = 14,
    /// Of a move, and in what a judge says was due: "last event cut short".
    TraceEventCut = 15,
    /// Of a whole batch; document 02, K5: "answer buffer short".
    ShortAnswers = 16,
    /// Of a whole batch; document 02, K5: "more than 256 events".
    TooManyEvents = 17,
    /// Of an arrival; document 02, K8: "a cost outside 1 to 64".
    Cost = 18,
    /// Of a move; document 02, K9: "a version 2 trace that has another rule, credit or cost cannot go back".
    NoWayBack = 19,
    /// Of an arrival; document 02, K14: "delta outside 1 to 65,535 or rho above delta". [`crate::Arrays`] counts them, so it
    /// never gives this.
    Delta = 20,
    /// Of a move; document 02, K9: "room too short". Of a salvage; K12: "lent room for trace or list too short".
    ShortRoom = 21,
    /// Of a house with several arrays; document 02, K14: "1 to 8 arrays, else 22"; "an array not there".
    Array = 22,
}

impl Refusal {
    /// All that the calls give.
    pub const ALL: &'static [Refusal] = &[
        Refusal::Setting,
        Refusal::ShortTable,
        Refusal::NotSound,
        Refusal::UnknownGuest,
        Refusal::TimeAboveCeiling,
        Refusal::TimeBeforeLast,
        Refusal::IdInUse,
        Refusal::WaitingFull,
        Refusal::TagAboveCeiling,
        Refusal::NotInFlight,
        Refusal::TraceMark,
        Refusal::TraceVersion,
        Refusal::TraceHeaderCut,
        Refusal::EventKind,
        Refusal::TraceEventCut,
        Refusal::ShortAnswers,
        Refusal::TooManyEvents,
        Refusal::Cost,
        Refusal::NoWayBack,
        Refusal::Delta,
        Refusal::ShortRoom,
        Refusal::Array,
    ];

    /// The refusal of this number, if the calls give it.
    #[must_use]
    pub fn of(number: u64) -> Option<Refusal> {
        let all = Refusal::ALL.iter().copied();
        all.into_iter().find(|refusal| refusal.number() == number)
    }

    /// The documents' number.
    #[must_use]
    pub fn number(self) -> u64 {
        self as u64
    }

    /// The documents' words.
    #[must_use]
    pub fn words(self) -> &'static str {
        match self {
            Refusal::Setting => "a setting is out of range",
            Refusal::ShortTable => "a lent table is shorter than the settings need",
            Refusal::NotSound => "the table is not sound",
            Refusal::UnknownGuest => "unknown guest",
            Refusal::TimeAboveCeiling => "time above the ceiling",
            Refusal::TimeBeforeLast => "time before the last accepted time",
            Refusal::IdInUse => "guest has this id waiting or in flight",
            Refusal::WaitingFull => "waiting count equals capacity",
            Refusal::TagAboveCeiling => "a tag given, or a share tag moved, would pass the ceiling",
            Refusal::NotInFlight => "guest has no such id in flight",
            Refusal::TraceMark => "trace mark",
            Refusal::TraceVersion => "trace version",
            Refusal::TraceHeaderCut => "trace header cut short",
            Refusal::EventKind => "event kind above 2, or a tick with non-zero guest or id",
            Refusal::TraceEventCut => "last event cut short",
            Refusal::ShortAnswers => "answer buffer short",
            Refusal::TooManyEvents => "more than 256 events",
            Refusal::Cost => "a cost outside 1 to 64",
            Refusal::NoWayBack => {
                "a version 2 trace that has another rule, credit or cost cannot go back"
            }
            Refusal::Delta => "delta outside 1 to 65,535 or rho above delta",
            Refusal::ShortRoom => "room too short",
            Refusal::Array => "not 1 to 8 arrays, or an array not there",
        }
    }
}

impl fmt::Display for Refusal {
    fn fmt(&self, f: &mut fmt::Formatter<'_>) -> fmt::Result {
        write!(f, "refused {}: {}", self.number(), self.words())
    }
}

impl std::error::Error for Refusal {}

impl fmt::Display for Phase {
    fn fmt(&self, f: &mut fmt::Formatter<'_>) -> fmt::Result {
        f.write_str(match self {
            Phase::Reservation => "reservation",
            Phase::Weight => "weight",
        })
    }
}

impl fmt::Display for Answer {
    fn fmt(&self, f: &mut fmt::Formatter<'_>) -> fmt::Result {
        match self {
            Answer::Nothing => f.write_str("nothing sent"),
            Answer::Sent { phase, guest, id } => {
                write!(f, "guest {guest}, id {id} sent by {phase}")
            }
        }
    }
}

impl fmt::Display for Outcome {
    fn fmt(&self, f: &mut fmt::Formatter<'_>) -> fmt::Result {
        match self.wake {
            Some(time) => write!(f, "{}, wake at {time}", self.answer),
            None => write!(f, "{}, no time to wake", self.answer),
        }
    }
}

/// The library's answer by name.
pub(crate) fn named(given: raw::Answer) -> Result<Outcome, Refusal> {
    let answer = match given.kind {
        raw::NOTHING => Answer::Nothing,
        raw::SENT_BY_RESERVATION => sent(Phase::Reservation, given.guest, given.id),
        raw::SENT_BY_WEIGHT => sent(Phase::Weight, given.guest, given.id),
        _ => return Err(refusal(given.refusal)),
    };
    let wake = (given.wake != raw::NEVER).then_some(given.wake);
    Ok(Outcome { answer, wake })
}

/// The refusal of a number that the library gives.
pub(crate) fn refusal(number: u64) -> Refusal {
    Refusal::of(number).expect("library and wrapper are of one version")
}

/// A send of a guest and an id that the library gives.
pub(crate) fn sent(phase: Phase, guest: u64, id: u64) -> Answer {
    Answer::Sent {
        phase,
        guest,
        id: u32::try_from(id).expect("an id has 32 bits"),
    }
}
