//! A gate that owns its tables.

use crate::answer::{named, refusal, Outcome, Refusal};
use crate::raw::{self, Event, Flight, Guest, Numbers, Request, Settings};
use crate::{MOST_CAPACITY, MOST_DEPTH};
use std::slice;

/// The rule for limits, chosen at opening.
#[derive(Clone, Copy, Debug, PartialEq, Eq, Hash)]
pub enum Rule {
    /// Document 01's: in the reservation phase "the limit is not looked at", so a request that is due by reservation goes
    /// though its limit lies ahead.
    One,
    /// For houses that bill by limit. Document 02, K7: "Under rule 2 the reservation phase also wants the request
    /// unlimited or its limit tag at or before t." So no request goes before its limit tag.
    Two,
}

impl Rule {
    /// The number that the gate keeps.
    #[must_use]
    pub fn number(self) -> u64 {
        match self {
            Rule::One => raw::RULE_1,
            Rule::Two => raw::RULE_2,
        }
    }
}

/// An open gate with its tables.
#[derive(Clone, Debug, PartialEq, Eq)]
pub struct Gate {
    numbers: Numbers,
    guests: Vec<Guest>,
    waiting: Vec<Request>,
    flight: Vec<Flight>,
}

impl Gate {
    /// Opens a gate for these guests, numbered from 0: `depth` places at the array, `capacity` waiting places, and the
    /// rule for limits that it keeps. Nothing waits, so there is no time to wake.
    ///
    /// # Errors
    ///
    /// [`Refusal::Setting`] where depth, capacity, the number of guests or a guest's settings are out of range.
    pub fn open(
        depth: u64,
        capacity: u64,
        rule: Rule,
        guests: &[Settings],
    ) -> Result<Gate, Refusal> {
        let mut gate = Gate::with_room(depth, capacity, guests.len());
        gate.call_open(depth, capacity, rule, guests).map(|_| gate)
    }

    /// Tables that are not open yet, with room for so much. Counts out of range are refused before the lengths are looked
    /// at, so no table need be longer than the most.
    pub(crate) fn with_room(depth: u64, capacity: u64, guests: usize) -> Gate {
        Gate {
            numbers: Numbers::default(),
            guests: vec![Guest::default(); guests],
            waiting: vec![Request::default(); places(capacity, MOST_CAPACITY)],
            flight: vec![Flight::default(); places(depth, MOST_DEPTH)],
        }
    }

    fn call_open(
        &mut self,
        depth: u64,
        capacity: u64,
        rule: Rule,
        settings: &[Settings],
    ) -> Result<Outcome, Refusal> {
        let count = settings.len() as u64;
        let lent = self.lend();
        // SAFETY: see `lend`; the settings are rows of numbers too.
        named(unsafe {
            raw::sgq_open(
                lent.gate,
                depth,
                count,
                capacity,
                rule.number(),
                settings.as_ptr().cast(),
                numbers_in(settings),
                lent.guests,
                lent.guests_length,
                lent.waiting,
                lent.waiting_length,
                lent.flight,
                lent.flight_length,
            )
        })
    }

    /// A request arrives of a guest that has one array, at a cost from 1 to [`crate::MOST_COST`]: it gets its tags, waits,
    /// and then the choice is made. Document 02, K8: "A next number becomes tag plus cost times spacing, and after a weight send the
    /// guest's reservation tags drop by the sent request's cost times the spacing." So a request's own tags do not read
    /// its cost; those of the guest's next requests do.
    ///
    /// # Errors
    ///
    /// The first that holds of [`Refusal::UnknownGuest`], [`Refusal::TimeAboveCeiling`], [`Refusal::TimeBeforeLast`],
    /// [`Refusal::Cost`], [`Refusal::IdInUse`], [`Refusal::WaitingFull`], [`Refusal::TagAboveCeiling`]. The gate is then
    /// as it was.
    pub fn arrive(
        &mut self,
        guest: u64,
        id: u32,
        time: u64,
        cost: u64,
    ) -> Result<Outcome, Refusal> {
        self.arrive_spread(guest, id, time, cost, 1, 1)
    }

    /// A request arrives of a guest that is spread over several arrays. Delta is 1 to [`crate::MOST_DELTA`] and rho at most
    /// delta; they say what the other arrays have done for the guest since its last request to this one, and
    /// [`crate::Arrays`] counts them. Document 02, K14: "limit and share next numbers are first raised by (delta − 1)
    /// spacings; the reservation's by (rho − 1) spacings, so for rho 0 it falls by one, never below 0." "One and one give
    /// the old gate."
    ///
    /// # Errors
    ///
    /// As [`Gate::arrive`], and [`Refusal::Delta`] after [`Refusal::Cost`]. The gate is then as it was.
    pub fn arrive_spread(
        &mut self,
        guest: u64,
        id: u32,
        time: u64,
        cost: u64,
        delta: u64,
        rho: u64,
    ) -> Result<Outcome, Refusal> {
        let lent = self.lend();
        // SAFETY: see `lend`.
        named(unsafe {
            raw::sgq_arrive(
                lent.gate,
                lent.guests,
                lent.guests_length,
                lent.waiting,
                lent.waiting_length,
                lent.flight,
                lent.flight_length,
                guest,
                id,
                time,
                cost,
                delta,
                rho,
            )
        })
    }

    /// A request in flight is done: it is taken out, and then the choice is made. Its id may be used again.
    ///
    /// # Errors
    ///
    /// The first that holds of [`Refusal::UnknownGuest`], [`Refusal::TimeAboveCeiling`], [`Refusal::TimeBeforeLast`],
    /// [`Refusal::NotInFlight`]. The gate is then as it was.
    pub fn complete(&mut self, guest: u64, id: u32, time: u64) -> Result<Outcome, Refusal> {
        let lent = self.lend();
        // SAFETY: see `lend`.
        named(unsafe {
            raw::sgq_complete(
                lent.gate,
                lent.guests,
                lent.guests_length,
                lent.waiting,
                lent.waiting_length,
                lent.flight,
                lent.flight_length,
                guest,
                id,
                time,
            )
        })
    }

    /// "A tick only sets the time and makes the choice." Tick once the clock has reached [`Outcome::wake`] of the last
    /// accepted event, at once where it has. A tick before that sends nothing; from then on it sends a request.
    ///
    /// # Errors
    ///
    /// The first that holds of [`Refusal::TimeAboveCeiling`], [`Refusal::TimeBeforeLast`]. The gate is then as it was.
    pub fn tick(&mut self, time: u64) -> Result<Outcome, Refusal> {
        let lent = self.lend();
        // SAFETY: see `lend`.
        named(unsafe {
            raw::sgq_tick(
                lent.gate,
                lent.guests,
                lent.guests_length,
                lent.waiting,
                lent.waiting_length,
                lent.flight,
                lent.flight_length,
                time,
            )
        })
    }

    /// Up to [`crate::MOST_EVENTS`] events in one call. Document 02, K5: "exactly as if they came one by one, a bad kind
    /// being 14, refused ones passed over". The answers stand in the room that is lent, one for each event from its
    /// front on, and are given by name; places past them stay as they are. When to tick is in the last that was accepted.
    ///
    /// # Errors
    ///
    /// [`Refusal::ShortAnswers`] where there is no room for as many answers as events, or else
    /// [`Refusal::TooManyEvents`]: the whole call. Gate and room are then as they were.
    pub fn batch<'a>(
        &mut self,
        events: &[Event],
        room: &'a mut [raw::Answer],
    ) -> Result<Answers<'a>, Refusal> {
        let lent = self.lend();
        // SAFETY: see `lend`; events and answers are rows of numbers too, and the answers' memory is lent to us alone.
        let found = unsafe {
            raw::sgq_batch(
                lent.gate,
                lent.guests,
                lent.guests_length,
                lent.waiting,
                lent.waiting_length,
                lent.flight,
                lent.flight_length,
                events.as_ptr().cast(),
                numbers_in(events),
                room.as_mut_ptr().cast(),
                numbers_in(room),
            )
        };
        match found {
            0 => Ok(Answers(room[..events.len()].iter())),
            number => Err(refusal(number)),
        }
    }

    /// Places at the array.
    #[must_use]
    pub fn depth(&self) -> u64 {
        self.numbers.depth
    }

    /// Waiting places.
    #[must_use]
    pub fn capacity(&self) -> u64 {
        self.numbers.capacity
    }

    /// The rule for limits.
    #[must_use]
    pub fn rule(&self) -> Rule {
        match self.numbers.rule {
            raw::RULE_2 => Rule::Two,
            _ => Rule::One,
        }
    }

    /// The time of the last accepted event.
    #[must_use]
    pub fn time(&self) -> u64 {
        self.numbers.time
    }

    /// The guests with their next numbers.
    #[must_use]
    pub fn guests(&self) -> &[Guest] {
        &self.guests
    }

    /// The waiting requests, in order of acceptance.
    #[must_use]
    pub fn waiting(&self) -> &[Request] {
        first(&self.waiting, self.numbers.waiting)
    }

    /// The requests in flight, in order of sending.
    #[must_use]
    pub fn flight(&self) -> &[Flight] {
        first(&self.flight, self.numbers.flight)
    }

    /// How many places at the array are free. Where none is, no call sends anything.
    #[must_use]
    pub fn free_places(&self) -> u64 {
        self.numbers.depth - self.numbers.flight
    }

    /// How many waiting places are free. Where none is, an arrival is refused, [`Refusal::WaitingFull`].
    #[must_use]
    pub fn free_waiting(&self) -> u64 {
        self.numbers.capacity - self.numbers.waiting
    }

    /// How many requests of a guest wait, as for a quota of waiting places.
    #[must_use]
    pub fn waiting_of(&self, guest: u64) -> usize {
        let own = |request: &&Request| request.guest == guest;
        self.waiting().iter().filter(own).count()
    }

    /// How many requests of a guest are in flight.
    #[must_use]
    pub fn flight_of(&self, guest: u64) -> usize {
        let own = |request: &&Flight| request.guest == guest;
        self.flight().iter().filter(own).count()
    }

    /// The tables as the library takes them. Each is its own memory, as long as is said, and no one else has it while
    /// the gate is borrowed here; every row is 64-bit numbers alone, for which any bits are good.
    pub(crate) fn lend(&mut self) -> Lent {
        Lent {
            gate: (&raw mut self.numbers).cast(),
            guests_length: numbers_in(&self.guests),
            guests: self.guests.as_mut_ptr().cast(),
            waiting_length: numbers_in(&self.waiting),
            waiting: self.waiting.as_mut_ptr().cast(),
            flight_length: numbers_in(&self.flight),
            flight: self.flight.as_mut_ptr().cast(),
        }
    }
}

/// The answers to a batch, in the order of its events.
#[must_use = "an answer may name a request that now goes to the array"]
#[derive(Clone, Debug)]
pub struct Answers<'a>(slice::Iter<'a, raw::Answer>);

impl Iterator for Answers<'_> {
    type Item = Result<Outcome, Refusal>;

    fn next(&mut self) -> Option<Self::Item> {
        self.0.next().copied().map(named)
    }

    fn size_hint(&self) -> (usize, Option<usize>) {
        self.0.size_hint()
    }
}

impl ExactSizeIterator for Answers<'_> {}

/// Pointers and lengths, in the order of the calls.
pub(crate) struct Lent {
    pub gate: *mut u64,
    pub guests: *mut u64,
    pub guests_length: usize,
    pub waiting: *mut u64,
    pub waiting_length: usize,
    pub flight: *mut u64,
    pub flight_length: usize,
}

/// How many 64-bit numbers the records have.
pub(crate) fn numbers_in<T>(records: &[T]) -> usize {
    size_of_val(records) / size_of::<u64>()
}

pub(crate) fn places(wanted: u64, most: u64) -> usize {
    usize::try_from(wanted.min(most)).expect("the most fits")
}

/// As many records as the library counts; its tables have the room.
fn first<T>(records: &[T], count: u64) -> &[T] {
    let count = usize::try_from(count).expect("at most the records");
    &records[..count]
}
