//! The names beside the numbers of the library, and the calls on tables that a `Gate` never lends.

use sgq::raw::{self, FLIGHT_NUMBERS, GUEST_NUMBERS, REQUEST_NUMBERS};
use sgq::{Answer, Arrays, Flight, Gate, Guest, Outcome, Phase, Refusal, Request, Rule};
use sgq::{CEILING, MOST_COST, MOST_CREDIT};

#[test]
fn refusals_by_number() {
    for &refusal in Refusal::ALL {
        assert_eq!(Refusal::of(refusal.number()), Some(refusal));
    }
    let given = (0..100).filter(|&number| Refusal::of(number).is_some());
    assert!(given.eq(Refusal::ALL.iter().map(|refusal| refusal.number())));
    assert_eq!(Refusal::of(u64::MAX), None);
}

#[test]
fn refusals_are_errors() {
    let error: Box<dyn std::error::Error> = Box::new(Refusal::IdInUse);
    let said = "refused 7: guest has this id waiting or in flight";
    assert_eq!(error.to_string(), said);
}

#[test]
fn answers_in_words() {
    let sent = |phase| Answer::Sent {
        phase,
        guest: 3,
        id: 17,
    };
    let said = |phase| sent(phase).to_string();
    assert_eq!(
        said(Phase::Reservation),
        "guest 3, id 17 sent by reservation"
    );
    assert_eq!(said(Phase::Weight), "guest 3, id 17 sent by weight");
    let answer = Answer::Nothing;
    assert_eq!(answer.to_string(), "nothing sent");
    let told = |wake| Outcome { answer, wake }.to_string();
    assert_eq!(told(Some(5)), "nothing sent, wake at 5");
    assert_eq!(told(None), "nothing sent, no time to wake");
}

#[test]
fn gates_go_to_another_thread() {
    fn goes<T: Send + Sync>() {}
    goes::<Gate>();
    goes::<Arrays>();
}

/// A guest with one share and this credit, to which nothing has happened.
fn guest(credit: u64) -> Guest {
    Guest {
        shares: 1,
        credit,
        ..Guest::default()
    }
}

/// What a tick answers on this gate, with the tables of one guest, depth 1 and capacity 1 lent to these lengths.
fn tick(gate: raw::Numbers, guests: usize, waiting: usize, flight: usize) -> raw::Answer {
    tick_of(gate, guest(0), Request::default(), guests, waiting, flight)
}

/// The same of any guest and any row of the waiting table.
fn tick_of(
    gate: raw::Numbers,
    guest: Guest,
    request: Request,
    guests: usize,
    waiting: usize,
    flight: usize,
) -> raw::Answer {
    let mut gate = gate;
    let mut guest_table = [guest];
    let mut waiting_table = [request];
    let mut flight_table = [Flight::default()];
    assert!(guests <= GUEST_NUMBERS && waiting <= REQUEST_NUMBERS && flight <= FLIGHT_NUMBERS);
    // SAFETY: four tables of their own, of which at most as much is lent as there is.
    unsafe {
        raw::sgq_tick(
            (&raw mut gate).cast(),
            guest_table.as_mut_ptr().cast(),
            guests,
            waiting_table.as_mut_ptr().cast(),
            waiting,
            flight_table.as_mut_ptr().cast(),
            flight,
            0,
        )
    }
}

/// A refusal carries no time to wake: the number is 0.
fn refused(refusal: Refusal) -> raw::Answer {
    raw::Answer {
        kind: raw::REFUSED,
        refusal: refusal.number(),
        ..raw::Answer::default()
    }
}

const SOUND: raw::Numbers = raw::Numbers {
    depth: 1,
    guests: 1,
    capacity: 1,
    time: 0,
    waiting: 0,
    flight: 0,
    rule: raw::RULE_1,
};

#[test]
fn short_tables() {
    let (g, w, f) = (GUEST_NUMBERS, REQUEST_NUMBERS, FLIGHT_NUMBERS);
    let nothing_waits = raw::Answer {
        wake: raw::NEVER,
        ..raw::Answer::default()
    };
    assert_eq!(tick(SOUND, g, w, f), nothing_waits);
    for (guests, waiting, flight) in [(g - 1, w, f), (g, w - 1, f), (g, w, f - 1), (0, 0, 0)] {
        let answer = tick(SOUND, guests, waiting, flight);
        assert_eq!(answer, refused(Refusal::ShortTable));
    }
}

/// A batch on the tables of one guest, depth 1 and capacity 1 that `SOUND` is the gate of; its answers, and the number
/// of the whole call.
fn batch(gate: raw::Numbers, events: &[u64], room: &mut [u64]) -> u64 {
    let mut gate = gate;
    let mut guests = [guest(0)];
    let mut waiting = [Request::default()];
    let mut flight = [Flight::default()];
    // SAFETY: the tables, the events and the room are each their own memory, lent whole.
    unsafe {
        raw::sgq_batch(
            (&raw mut gate).cast(),
            guests.as_mut_ptr().cast(),
            GUEST_NUMBERS,
            waiting.as_mut_ptr().cast(),
            REQUEST_NUMBERS,
            flight.as_mut_ptr().cast(),
            FLIGHT_NUMBERS,
            events.as_ptr(),
            events.len(),
            room.as_mut_ptr(),
            room.len(),
        )
    }
}

/// Numbers behind the last whole row are no event, and take no room.
#[test]
fn rows_of_a_batch() {
    let tick = [raw::TICK, 0, 0, 7, 0, 0, 0];
    let more = [raw::TICK, 0, 0, 7, 0, 0];
    let events: Vec<u64> = tick.into_iter().chain(more).collect();
    let mut room = [77; 9];
    assert_eq!(batch(SOUND, &events, &mut room[..4]), 16);
    assert_eq!(room, [77; 9]);
    assert_eq!(batch(SOUND, &events, &mut room), 0);
    assert_eq!(room, [0, 0, 0, 0, raw::NEVER, 77, 77, 77, 77]);
    assert_eq!(batch(SOUND, &events[raw::EVENT_NUMBERS..], &mut []), 0);
}

/// What is no event is 14 before the tables are looked at; what is one is refused for them.
#[test]
fn a_batch_on_unsound_tables() {
    let unsound = raw::Numbers { depth: 0, ..SOUND };
    let mut room = [77; 30];
    let kind_3 = [3, 0, 0, 0, 0, 0, 0];
    let costly = [raw::TICK, 0, 0, 0, 1, 0, 0];
    let spread = [raw::TICK, 0, 0, 0, 0, 1, 0];
    let tick = [raw::TICK, 0, 0, 0, 0, 0, 0];
    let free = [raw::ARRIVAL, 0, 1, 0, 0, 1, 1];
    let bare = [raw::ARRIVAL, 0, 1, 0, 1, 0, 0];
    let events = [kind_3, costly, spread, tick, free, bare].concat();
    assert_eq!(batch(unsound, &events, &mut room), 0);
    let told = [14, 14, 14, 3, 3, 3].map(|refusal| [raw::REFUSED, 0, 0, refusal, 0]);
    assert_eq!(room, *told.concat());
    assert_eq!(batch(unsound, &[], &mut room), 0);
}

#[test]
fn unsound_tables() {
    let no_depth = raw::Numbers { depth: 0, ..SOUND };
    let late = raw::Numbers {
        time: CEILING + 1,
        ..SOUND
    };
    let too_many = raw::Numbers {
        waiting: 2,
        ..SOUND
    };
    for unsound in [no_depth, late, too_many] {
        let answer = tick(unsound, GUEST_NUMBERS, REQUEST_NUMBERS, FLIGHT_NUMBERS);
        assert_eq!(answer, refused(Refusal::NotSound));
    }
}

/// No length depends on the rule, so a table that is short is told before it.
#[test]
fn rules_in_an_open_table() {
    let (g, w, f) = (GUEST_NUMBERS, REQUEST_NUMBERS, FLIGHT_NUMBERS);
    let ruled = |rule| raw::Numbers { rule, ..SOUND };
    for rule in [raw::RULE_1, raw::RULE_2] {
        assert_eq!(tick(ruled(rule), g, w, f).kind, raw::NOTHING);
    }
    for rule in [0, 3, 1 << 32 | 1, u64::MAX] {
        assert_eq!(tick(ruled(rule), g, w, f), refused(Refusal::NotSound));
        let short = tick(ruled(rule), g, w, f - 1);
        assert_eq!(short, refused(Refusal::ShortTable));
    }
}

/// What opening answers to a rule, for one guest, depth 1 and capacity 1, with tables for these or with none.
fn open_under(rule: u64, long: bool) -> (raw::Answer, raw::Numbers) {
    let mut gate = raw::Numbers::default();
    let mut settings = [raw::Settings::default()];
    settings[0].shares = 1;
    let mut guests = [Guest::default()];
    let mut waiting = [Request::default()];
    let mut flight = [Flight::default()];
    let length = |numbers| if long { numbers } else { 0 };
    // SAFETY: five tables of their own, of which at most as much is lent as there is.
    let answer = unsafe {
        raw::sgq_open(
            (&raw mut gate).cast(),
            1,
            1,
            1,
            rule,
            settings.as_ptr().cast(),
            length(raw::SETTINGS_NUMBERS),
            guests.as_mut_ptr().cast(),
            length(GUEST_NUMBERS),
            waiting.as_mut_ptr().cast(),
            length(REQUEST_NUMBERS),
            flight.as_mut_ptr().cast(),
            length(FLIGHT_NUMBERS),
        )
    };
    (answer, gate)
}

/// The rule is judged with the counts, before the lengths.
#[test]
fn rules_at_opening() {
    for rule in [Rule::One, Rule::Two] {
        let (answer, gate) = open_under(rule.number(), true);
        assert_eq!((answer.kind, gate.rule), (raw::NOTHING, rule.number()));
        let (answer, _) = open_under(rule.number(), false);
        assert_eq!(answer, refused(Refusal::ShortTable));
    }
    for rule in [0, 3, 1 << 32 | 2, u64::MAX] {
        for long in [true, false] {
            let left = raw::Numbers::default();
            let found = open_under(rule, long);
            assert_eq!(found, (refused(Refusal::Setting), left));
        }
    }
}

/// The share spacing of one share.
const SECOND: u64 = 1_000_000_000;

/// A kept cost is a part of what makes a table sound, and the next number follows it.
#[test]
fn costs_in_an_open_table() {
    let waits = |cost, snext| {
        let gate = raw::Numbers {
            waiting: 1,
            ..SOUND
        };
        let guest = Guest { snext, ..guest(0) };
        let request = Request {
            cost,
            ..Request::default()
        };
        let (g, w, f) = (GUEST_NUMBERS, REQUEST_NUMBERS, FLIGHT_NUMBERS);
        tick_of(gate, guest, request, g, w, f)
    };
    for cost in [1, 2, MOST_COST] {
        assert_eq!(waits(cost, cost * SECOND).kind, raw::SENT_BY_WEIGHT);
        for snext in [cost * SECOND - 1, cost * SECOND + 1, 0] {
            assert_eq!(waits(cost, snext), refused(Refusal::NotSound));
        }
    }
    for cost in [0, MOST_COST + 1, 1 << 32 | 1, u64::MAX] {
        let snext = cost.wrapping_mul(SECOND);
        assert_eq!(waits(cost, snext), refused(Refusal::NotSound));
    }
}

/// Where nothing waits, a row with a cost is no unused place, and a next number is at most what cost 64 leaves.
#[test]
fn costs_where_nothing_waits() {
    let idle = |snext, cost| {
        let guest = Guest { snext, ..guest(0) };
        let request = Request {
            cost,
            ..Request::default()
        };
        let (g, w, f) = (GUEST_NUMBERS, REQUEST_NUMBERS, FLIGHT_NUMBERS);
        tick_of(SOUND, guest, request, g, w, f)
    };
    let most = CEILING + 64_000_000_000;
    assert_eq!(idle(most, 0).kind, raw::NOTHING);
    assert_eq!(idle(most + 1, 0), refused(Refusal::NotSound));
    assert_eq!(idle(0, 1), refused(Refusal::NotSound));
}

#[test]
fn credit_in_an_open_table() {
    let tick = |credit| {
        let (g, w, f) = (GUEST_NUMBERS, REQUEST_NUMBERS, FLIGHT_NUMBERS);
        tick_of(SOUND, guest(credit), Request::default(), g, w, f)
    };
    assert_eq!(tick(MOST_CREDIT).kind, raw::NOTHING);
    assert_eq!(tick(MOST_CREDIT + 1), refused(Refusal::NotSound));
    assert_eq!(tick(u64::MAX), refused(Refusal::NotSound));
}
