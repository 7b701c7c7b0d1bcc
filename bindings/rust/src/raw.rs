//! The library's symbols as they are linked, and the rows of its tables. [`crate::Gate`] is the safe way to them.
//!
//! A table is a pointer to 64-bit numbers and how many there are. Whoever calls owes the library what the references in
//! its own signatures say: pointers that are aligned and not null, true lengths, and tables that do not overlap and
//! that nobody else reads or writes during the call. Nothing is asked of the numbers: any tables may be lent.

use crate::salvage::Reason;

/// How many numbers the gate is.
pub const GATE_NUMBERS: usize = 7;
/// How many numbers a guest's settings are.
pub const SETTINGS_NUMBERS: usize = 4;
/// How many numbers a guest is.
pub const GUEST_NUMBERS: usize = 7;
/// How many numbers a waiting request is.
pub const REQUEST_NUMBERS: usize = 6;
/// How many numbers a request in flight is.
pub const FLIGHT_NUMBERS: usize = 2;
/// How many numbers an event of a batch is.
pub const EVENT_NUMBERS: usize = 7;
/// How many numbers an answer is.
pub const ANSWER_NUMBERS: usize = 5;
/// How many numbers a counter of a house with several arrays is.
pub const COUNTER_NUMBERS: usize = 2;
/// How many numbers a row of the list of a salvage is.
pub const DROPPED_NUMBERS: usize = 2;

// The records are the rows, with nothing between the numbers: these lines do not compile where that fails.
const _: () = assert!(numbers_of::<Numbers>() == GATE_NUMBERS);
const _: () = assert!(numbers_of::<Settings>() == SETTINGS_NUMBERS);
const _: () = assert!(numbers_of::<Guest>() == GUEST_NUMBERS);
const _: () = assert!(numbers_of::<Request>() == REQUEST_NUMBERS);
const _: () = assert!(numbers_of::<Flight>() == FLIGHT_NUMBERS);
const _: () = assert!(numbers_of::<Event>() == EVENT_NUMBERS);
const _: () = assert!(numbers_of::<Answer>() == ANSWER_NUMBERS);
const _: () = assert!(numbers_of::<Counter>() == COUNTER_NUMBERS);
const _: () = assert!(numbers_of::<Dropped>() == DROPPED_NUMBERS);

const fn numbers_of<T>() -> usize {
    size_of::<T>() / size_of::<u64>()
}

/// Document 01's rule for limits; [`crate::Rule::One`].
pub const RULE_1: u64 = 1;
/// The rule for houses that bill by limit; [`crate::Rule::Two`].
pub const RULE_2: u64 = 2;

/// The gate: what it was opened with, the time and the counts.
#[repr(C)]
#[derive(Clone, Copy, Debug, Default, PartialEq, Eq)]
pub struct Numbers {
    /// Places at the array.
    pub depth: u64,
    /// How many guests; they are numbered from 0.
    pub guests: u64,
    /// Waiting places.
    pub capacity: u64,
    /// The time of the last accepted event.
    pub time: u64,
    /// How many requests wait.
    pub waiting: u64,
    /// How many requests are in flight.
    pub flight: u64,
    /// The rule for limits, [`RULE_1`] or [`RULE_2`].
    pub rule: u64,
}

/// A guest's settings. "A reservation above a non-zero limit is bad; equal is good."
#[repr(C)]
#[derive(Clone, Copy, Debug, Default, PartialEq, Eq)]
pub struct Settings {
    /// Requests of cost 1 per second, "0 meaning none".
    pub reservation: u64,
    /// Requests of cost 1 per second, "0 meaning unlimited".
    pub limit: u64,
    /// Of what is left when the reservations are served, 1 to 1,000,000.
    pub shares: u64,
    /// How many requests of cost 1 the guest may send by weight, after a quiet time, ahead of those that were busy
    /// meanwhile: 0 to 256. Document 02, K6: "Reservations and limits do not read the credit."
    pub credit: u64,
}

/// "A guest record holds its settings and three next numbers: the tag its next request would get were time not looked
/// at."
#[repr(C)]
#[derive(Clone, Copy, Debug, Default, PartialEq, Eq)]
pub struct Guest {
    /// Requests of cost 1 per second, "0 meaning none".
    pub reservation: u64,
    /// Requests of cost 1 per second, "0 meaning unlimited".
    pub limit: u64,
    /// Of what is left when the reservations are served.
    pub shares: u64,
    /// The next reservation number; 0 and without meaning where there is no reservation.
    pub rnext: u64,
    /// The next limit number; 0 and without meaning where there is no limit.
    pub lnext: u64,
    /// The next share number.
    pub snext: u64,
    /// The credit, as the settings have it.
    pub credit: u64,
}

/// A waiting request with its tags, which are times in nanoseconds, and its cost.
#[repr(C)]
#[derive(Clone, Copy, Debug, Default, PartialEq, Eq)]
pub struct Request {
    /// The guest's number, from 0.
    pub guest: u64,
    /// The id, 32 bits.
    pub id: u64,
    /// Reservation tag: at or before the time the request is due. 0 and without meaning where there is no reservation.
    pub rtag: u64,
    /// Limit tag: at or before the time it may go by weight, under rule 2 also by reservation. 0 and without meaning where
    /// there is no limit.
    pub ltag: u64,
    /// Share tag: by weight the smallest goes first.
    pub stag: u64,
    /// The cost, 1 to 64: how many spacings further on its guest's next tags lie.
    pub cost: u64,
}

/// A request in flight, that is at the array.
#[repr(C)]
#[derive(Clone, Copy, Debug, Default, PartialEq, Eq)]
pub struct Flight {
    /// The guest's number, from 0.
    pub guest: u64,
    /// The id, 32 bits.
    pub id: u64,
}

/// The kind of an event: a request arrives.
pub const ARRIVAL: u64 = 0;
/// The kind of an event: a request in flight is done.
pub const COMPLETION: u64 = 1;
/// The kind of an event: time has gone on.
pub const TICK: u64 = 2;

/// An event of a batch. Any numbers may be handed over; what is no event is refused, number 14.
#[repr(C)]
#[derive(Clone, Copy, Debug, Default, PartialEq, Eq)]
pub struct Event {
    /// [`ARRIVAL`], [`COMPLETION`] or [`TICK`].
    pub kind: u64,
    /// The guest's number, from 0; 0 in a tick.
    pub guest: u64,
    /// The id, 32 bits; 0 in a tick.
    pub id: u64,
    /// In nanoseconds.
    pub time: u64,
    /// 1 to 64 in an arrival, else 0.
    pub cost: u64,
    /// 1 to 65,535 in an arrival, else 0.
    pub delta: u64,
    /// 0 to delta.
    pub rho: u64,
}

impl Event {
    /// A request arrives of a guest that has one array, at this cost: delta and rho are 1.
    #[must_use]
    pub fn arrival(guest: u64, id: u32, time: u64, cost: u64) -> Event {
        Event::arrival_spread(guest, id, time, cost, 1, 1)
    }

    /// A request arrives of a guest that is spread over several arrays; see [`crate::Gate::arrive_spread`].
    #[must_use]
    pub fn arrival_spread(
        guest: u64,
        id: u32,
        time: u64,
        cost: u64,
        delta: u64,
        rho: u64,
    ) -> Event {
        Event {
            kind: ARRIVAL,
            guest,
            id: id.into(),
            time,
            cost,
            delta,
            rho,
        }
    }

    /// A request in flight is done.
    #[must_use]
    pub fn completion(guest: u64, id: u32, time: u64) -> Event {
        Event {
            kind: COMPLETION,
            guest,
            id: id.into(),
            time,
            ..Event::default()
        }
    }

    /// Time has gone on.
    #[must_use]
    pub fn tick(time: u64) -> Event {
        Event {
            kind: TICK,
            time,
            ..Event::default()
        }
    }
}

/// The kind of an answer: accepted (at opening: opened), and nothing is sent.
pub const NOTHING: u64 = 0;
/// The kind of an answer: accepted, and a request is sent by reservation.
pub const SENT_BY_RESERVATION: u64 = 1;
/// The kind of an answer: accepted, and a request is sent by weight.
pub const SENT_BY_WEIGHT: u64 = 2;
/// The kind of an answer: refused, and nothing has changed.
pub const REFUSED: u64 = 3;

/// The kind of what a judge says was due: no line any more.
pub const NONE_DUE: u64 = 4;

/// No time to wake, in an answer: all bits one, which is later than any time.
pub const NEVER: u64 = u64::MAX;

/// What a call answers; [`crate::Outcome`] and [`crate::Refusal`] have names for it.
#[must_use = "an answer may name a request that now goes to the array"]
#[repr(C)]
#[derive(Clone, Copy, Debug, Default, PartialEq, Eq)]
pub struct Answer {
    /// [`NOTHING`], [`SENT_BY_RESERVATION`], [`SENT_BY_WEIGHT`] or [`REFUSED`].
    pub kind: u64,
    /// The guest of the request sent, or 0.
    pub guest: u64,
    /// The id of the request sent, or 0.
    pub id: u64,
    /// The refusal number, or 0.
    pub refusal: u64,
    /// When to tick: a time, or [`NEVER`]; 0 in a refusal, where what was said last still stands.
    pub wake: u64,
}

/// What is counted for a guest at an array of a house with several; [`crate::Arrays`] keeps them.
#[repr(C)]
#[derive(Clone, Copy, Debug, Default, PartialEq, Eq, Hash)]
pub struct Counter {
    /// The guest's completions at any array since its last accepted request to this one, or since the start.
    pub delta: u64,
    /// Those of them that were sent by reservation.
    pub rho: u64,
}

/// What the move of a trace answers; [`crate::NotMoved`] has names for it.
#[must_use = "a move may be refused"]
#[repr(C)]
#[derive(Clone, Copy, Debug, Default, PartialEq, Eq)]
pub struct Moved {
    /// The refusal number, or 0.
    pub refusal: u64,
    /// How many bytes were written at the beginning of the room; 0 in a refusal.
    pub written: u64,
    /// The number of the event that refused it, counted from 1, or 0.
    pub event: u64,
}

/// A row of the list of a salvage: an event that was dropped.
#[repr(C)]
#[derive(Clone, Copy, Debug, Default, PartialEq, Eq, Hash)]
pub struct Dropped {
    /// Its number in the trace, from 1.
    pub event: u64,
    /// The number of the reason; [`crate::Reason`] has names for it.
    pub reason: u64,
}

impl Dropped {
    /// The reason by name, if this is a row that a salvage wrote.
    #[must_use]
    pub fn why(&self) -> Option<Reason> {
        Reason::of(self.reason)
    }
}

/// What a salvage answers; [`crate::Salvage`] has names for it.
#[must_use = "a salvage may be refused"]
#[repr(C)]
#[derive(Clone, Copy, Debug, Default, PartialEq, Eq)]
pub struct Salvaged {
    /// The refusal number, or 0.
    pub refusal: u64,
    /// How many bytes were written at the beginning of the room; 0 in a refusal.
    pub written: u64,
    /// How many rows were written at the beginning of the list, [`DROPPED_NUMBERS`] each; 0 in a refusal.
    pub rows: u64,
}

/// What a judge answers; [`crate::Wrong`] has names for it.
#[must_use = "the lines may be wrong"]
#[repr(C)]
#[derive(Clone, Copy, Debug, Default, PartialEq, Eq)]
pub struct Judged {
    /// The number of the first line that is wrong, missing or surplus, from 1; 0 where the lines are accepted.
    pub line: u64,
    /// What was due there: the kind of an answer, or [`NONE_DUE`].
    pub kind: u64,
    /// The guest of the request to send, or 0.
    pub guest: u64,
    /// The id of the request to send, or 0.
    pub id: u64,
    /// The refusal number, or 0.
    pub refusal: u64,
}

/// A clock for a board that counts microseconds in 32 bits; [`crate::Clock`] keeps one.
#[repr(C)]
#[derive(Clone, Copy, Debug, Default, PartialEq, Eq)]
pub struct Clock {
    /// In nanoseconds since the first reading.
    pub time: u64,
    /// The last reading, in microseconds.
    pub last: u32,
    /// 0: no reading was taken yet; any other number: one was.
    pub started: u32,
}

/// What a reading of a clock is told.
#[must_use = "a reading that is refused tells no time"]
#[repr(C)]
#[derive(Clone, Copy, Debug, Default, PartialEq, Eq)]
pub struct Told {
    /// The refusal number, or 0.
    pub refusal: u64,
    /// The clock's time; 0 in a refusal.
    pub time: u64,
}

extern "C" {
    /// Opens a gate under a rule, [`RULE_1`] or [`RULE_2`]; settings are [`SETTINGS_NUMBERS`] a guest.
    pub fn sgq_open(
        gate: *mut u64,
        depth: u64,
        guests: u64,
        capacity: u64,
        rule: u64,
        settings: *const u64,
        settings_length: usize,
        guest_table: *mut u64,
        guest_table_length: usize,
        waiting: *mut u64,
        waiting_length: usize,
        flight: *mut u64,
        flight_length: usize,
    ) -> Answer;

    /// A request arrives, at a cost from 1 to [`crate::MOST_COST`], a delta from 1 to [`crate::MOST_DELTA`] and a rho up to
    /// delta; any others are refused.
    pub fn sgq_arrive(
        gate: *mut u64,
        guest_table: *mut u64,
        guest_table_length: usize,
        waiting: *mut u64,
        waiting_length: usize,
        flight: *mut u64,
        flight_length: usize,
        guest: u64,
        id: u32,
        time: u64,
        cost: u64,
        delta: u64,
        rho: u64,
    ) -> Answer;

    /// A request in flight is done.
    pub fn sgq_complete(
        gate: *mut u64,
        guest_table: *mut u64,
        guest_table_length: usize,
        waiting: *mut u64,
        waiting_length: usize,
        flight: *mut u64,
        flight_length: usize,
        guest: u64,
        id: u32,
        time: u64,
    ) -> Answer;

    /// Time has gone on.
    pub fn sgq_tick(
        gate: *mut u64,
        guest_table: *mut u64,
        guest_table_length: usize,
        waiting: *mut u64,
        waiting_length: usize,
        flight: *mut u64,
        flight_length: usize,
        time: u64,
    ) -> Answer;

    /// Up to [`crate::MOST_EVENTS`] events, [`EVENT_NUMBERS`] each, answered by [`ANSWER_NUMBERS`] each. Gives 0, or 16
    /// or 17 with nothing done.
    #[must_use]
    pub fn sgq_batch(
        gate: *mut u64,
        guest_table: *mut u64,
        guest_table_length: usize,
        waiting: *mut u64,
        waiting_length: usize,
        flight: *mut u64,
        flight_length: usize,
        events: *const u64,
        events_length: usize,
        answers: *mut u64,
        answers_length: usize,
    ) -> u64;

    /// Opens the gate of an array, one of `arrays`. Counters are [`COUNTER_NUMBERS`] for each guest at each array, phases
    /// one number for each place of the depth: [`SENT_BY_RESERVATION`] or [`SENT_BY_WEIGHT`], 0 where it is not used.
    pub fn sgq_arrays_open(
        gate: *mut u64,
        arrays: u64,
        array: u64,
        depth: u64,
        guests: u64,
        capacity: u64,
        rule: u64,
        settings: *const u64,
        settings_length: usize,
        guest_table: *mut u64,
        guest_table_length: usize,
        waiting: *mut u64,
        waiting_length: usize,
        flight: *mut u64,
        flight_length: usize,
        counters: *mut u64,
        counters_length: usize,
        phases: *mut u64,
        phases_length: usize,
    ) -> Answer;

    /// A request arrives at an array, with what was counted for its guest there.
    pub fn sgq_arrays_arrive(
        gate: *mut u64,
        arrays: u64,
        array: u64,
        guest_table: *mut u64,
        guest_table_length: usize,
        waiting: *mut u64,
        waiting_length: usize,
        flight: *mut u64,
        flight_length: usize,
        counters: *mut u64,
        counters_length: usize,
        phases: *mut u64,
        phases_length: usize,
        guest: u64,
        id: u32,
        time: u64,
        cost: u64,
    ) -> Answer;

    /// A request in flight at an array is done.
    pub fn sgq_arrays_complete(
        gate: *mut u64,
        arrays: u64,
        array: u64,
        guest_table: *mut u64,
        guest_table_length: usize,
        waiting: *mut u64,
        waiting_length: usize,
        flight: *mut u64,
        flight_length: usize,
        counters: *mut u64,
        counters_length: usize,
        phases: *mut u64,
        phases_length: usize,
        guest: u64,
        id: u32,
        time: u64,
    ) -> Answer;

    /// Time has gone on at an array.
    pub fn sgq_arrays_tick(
        gate: *mut u64,
        arrays: u64,
        array: u64,
        guest_table: *mut u64,
        guest_table_length: usize,
        waiting: *mut u64,
        waiting_length: usize,
        flight: *mut u64,
        flight_length: usize,
        counters: *mut u64,
        counters_length: usize,
        phases: *mut u64,
        phases_length: usize,
        time: u64,
    ) -> Answer;

    /// A trace of version 1 as one of version 2. Trace and room are bytes, and do not overlap.
    pub fn sgq_trace_up(
        trace: *const u8,
        trace_length: usize,
        room: *mut u8,
        room_length: usize,
    ) -> Moved;

    /// A trace of version 2 as one of version 1, likewise.
    pub fn sgq_trace_back(
        trace: *const u8,
        trace_length: usize,
        room: *mut u8,
        room_length: usize,
    ) -> Moved;

    /// The good events of a trace as a trace, and the list of those that are dropped, in numbers. Trace, room and list do
    /// not overlap.
    pub fn sgq_salvage(
        trace: *const u8,
        trace_length: usize,
        room: *mut u8,
        room_length: usize,
        list: *mut u64,
        list_length: usize,
    ) -> Salvaged;

    /// Whether the lines that another gate printed for a trace are right. Both are bytes, and nothing is written.
    pub fn sgq_judge(
        trace: *const u8,
        trace_length: usize,
        lines: *const u8,
        lines_length: usize,
    ) -> Judged;

    /// A reading of a board's counter, which moves the clock on.
    pub fn sgq_clock_read(clock: *mut Clock, reading: u32) -> Told;
}
