//! The proved disc gate, for a host in Rust.
//!
//! The gate holds the requests of 1 to 64 guests for one disc array and decides, after each event, whether one goes to
//! the array: at most one. Up to 256 events go in one call. Each answer also says when to tick. [`Gate`] owns the tables
//! that the library is lent; its methods are the library's calls. The rules are document 01's, as
//! document 02 has changed them; words in quotes are document 01's own, where no other is named.
//!
//! ```
//! use sgq::{Answer, Gate, Outcome, Phase, Refusal, Rule, Settings};
//!
//! # fn main() -> Result<(), Refusal> {
//! const MS: u64 = 1_000_000;
//! let sent = |phase, id| Answer::Sent { phase, guest: 0, id };
//! let by = |phase, id, wake| Outcome { answer: sent(phase, id), wake };
//! let nothing = |wake| Outcome { answer: Answer::Nothing, wake };
//!
//! let guests = [Settings { reservation: 100, limit: 250, shares: 1, credit: 0 }];
//! let mut gate = Gate::open(4, 8, Rule::One, &guests)?;
//! // Guest, id, time and cost.
//! assert_eq!(gate.arrive(0, 1, 0, 1)?, by(Phase::Reservation, 1, None));
//! assert_eq!(gate.arrive(0, 2, 0, 1)?, nothing(Some(4 * MS)));
//! assert_eq!(gate.tick(4 * MS)?, by(Phase::Weight, 2, None));
//! assert_eq!(gate.complete(0, 1, 10 * MS)?, nothing(None));
//! assert_eq!(gate.complete(0, 1, 10 * MS), Err(Refusal::NotInFlight));
//! # Ok(())
//! # }
//! ```
//!
//! A host's loop around it, where `send` hands a request to the array and `now` reads the clock. It gives the time at
//! which to tick next, if nothing arrives or completes before:
//!
//! ```
//! use sgq::{Answer, Gate, Outcome, Refusal};
//!
//! fn follow(
//!     gate: &mut Gate,
//!     mut outcome: Outcome,
//!     mut send: impl FnMut(u64, u32),
//!     now: impl Fn() -> u64,
//! ) -> Result<Option<u64>, Refusal> {
//!     loop {
//!         if let Answer::Sent { guest, id, .. } = outcome.answer {
//!             send(guest, id);
//!         }
//!         let time = now();
//!         match outcome.wake {
//!             Some(wake) if wake <= time => outcome = gate.tick(time)?,
//!             later_or_none => return Ok(later_or_none),
//!         }
//!     }
//! }
//! ```
//!
//! The events of one interrupt go in one call, [`Gate::batch`], each answered as if it had come alone:
//!
//! ```
//! use sgq::{raw, Event, Gate, Refusal, Rule, Settings};
//!
//! # fn main() -> Result<(), Refusal> {
//! let guests = [Settings { reservation: 0, limit: 0, shares: 1, credit: 0 }];
//! let mut gate = Gate::open(1, 8, Rule::One, &guests)?;
//! let mut room = [raw::Answer::default(); 3];
//! let events = [Event::arrival(0, 1, 5, 1), Event::arrival(0, 2, 5, 1), Event::completion(0, 1, 9)];
//! for outcome in gate.batch(&events, &mut room)? {
//!     println!("{}", outcome?); // id 1 goes, nothing goes, id 2 goes
//! }
//! # Ok(())
//! # }
//! ```
//!
//! Where guests are spread over several arrays, [`Arrays`] owns the gates of all of them and counts between them, so that a
//! guest's reservation, limit and shares are those of all arrays together:
//!
//! ```
//! use sgq::{Answer, Arrays, Counter, Phase, Refusal, Rule, Settings, Size};
//!
//! # fn main() -> Result<(), Refusal> {
//! let guests = [Settings { reservation: 100, limit: 0, shares: 1, credit: 0 }];
//! let mut arrays = Arrays::open(&[Size { depth: 4, capacity: 8 }; 2], Rule::One, &guests)?;
//! // The array, and then as at a gate: guest, id, time and cost.
//! let sent = Answer::Sent { phase: Phase::Reservation, guest: 0, id: 1 };
//! assert_eq!(arrays.arrive(0, 0, 1, 0, 1)?.answer, sent);
//! println!("{}", arrays.complete(0, 0, 1, 5)?);
//! // What array 1 will be told of it.
//! assert_eq!(arrays.counter(1, 0), Some(Counter { delta: 1, rho: 1 }));
//! # Ok(())
//! # }
//! ```
//!
//! A trace of events goes from one version to the other by [`trace_up`] and [`trace_back`], and what a torn one still has
//! is kept by [`salvage`](fn@salvage); they know no gate. [`judge`](fn@judge) tells whether another maker's gate printed the
//! right lines for a trace.
//!
//! A board that counts microseconds in 32 bits has a [`Clock`], which tells the time that a gate takes:
//!
//! ```
//! use sgq::{Clock, Refusal};
//!
//! # fn main() -> Result<(), Refusal> {
//! let mut clock = Clock::new();
//! assert_eq!(clock.read(u32::MAX - 99)?, 0); // the first reading
//! assert_eq!(clock.read(400)?, 500_000); // 500 microseconds later, across the wrap
//! # Ok(())
//! # }
//! ```
//!
//! # Linking
//!
//! The build script links the archive that the environment variable `SGQ_LIB` names, or else target/staticlib/libhost.a
//! of the repository around this package, which `tools/build host` writes, or else the one that `make install` has
//! installed and pkg-config knows. The library is for x86-64 Linux.
//!
//! # What is proved
//!
//! The library's calls are. This wrapper is not: it keeps the tables, passes them on as pointers and lengths, and gives
//! the answers names. Its `unsafe` blocks are those fourteen calls.

#![deny(missing_docs, unsafe_op_in_unsafe_fn)]

mod answer;
mod arrays;
mod clock;
mod gate;
mod judge;
mod moves;
pub mod raw;
mod salvage;

pub use answer::{Answer, Outcome, Phase, Refusal};
pub use arrays::{Arrays, Size};
pub use clock::Clock;
pub use gate::{Answers, Gate, Rule};
pub use judge::{judge, Due, Wrong};
pub use moves::{trace_back, trace_up, NotMoved};
pub use raw::{Counter, Dropped, Event, Flight, Guest, Request, Settings};
pub use salvage::{most_dropped, salvage, Reason, Salvage};

/// "Time and tags are whole nanoseconds, 0 to 4,611,686,018,427,387,903 (2^62 − 1, the ceiling)."
pub const CEILING: u64 = (1 << 62) - 1;

/// "Depth (places at the array) 1 to 64".
pub const MOST_DEPTH: u64 = 64;

/// "requests of 1 to 64 guests".
pub const MOST_GUESTS: u64 = 64;

/// "Capacity (waiting places) 1 to 1,024."
pub const MOST_CAPACITY: u64 = 1_024;

/// The most events of one call. Document 02, K5: "up to 256 events at a time".
pub const MOST_EVENTS: u64 = 256;

/// The largest reservation, limit and number of shares.
pub const MOST_RATE: u64 = 1_000_000;

/// The most credit of a guest. Document 02, K6: "Each guest record gains a credit c from 0 to 256."
pub const MOST_CREDIT: u64 = 256;

/// The most that a request costs. Document 02, K8: "An arrival now carries a cost from 1 to 64, worked out by the
/// driver." A request of cost c counts as c requests of cost 1 against its guest's reservation, limit and shares.
pub const MOST_COST: u64 = 64;

/// The largest delta and rho of an arrival, where counting stops.
pub const MOST_DELTA: u64 = 65_535;

/// The most arrays of a house. Document 02, K14: "Larger houses spread a guest over up to 8 arrays".
pub const MOST_ARRAYS: u64 = 8;

/// By how many bytes a trace grows at the most when it goes up: the rule, and a credit for each of 64 guests.
pub const MOST_GROWTH: usize = 129;

/// How many bytes an event of a trace has.
pub const EVENT_BYTES: usize = 14;
