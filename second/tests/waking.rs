//! The time to wake the host: document 02, K2.

mod common;
use common::*;
use second::calls::read;
use second::kinds::trace;
use second::numbers::SECOND;
use second::sample::{any_settings, sound_tables, Prng};
use second::{wake, Answer, Flight, State, CEILING, NEVER};

fn sends(state: &State, t: u64) -> bool {
    matches!(state.clone().tick(t), Answer::Sent { .. })
}

#[test]
fn the_example_is_woken_for_each_send() {
    let mut t = opened(4, 8, &[guest(100, 250, 1)]);
    let mut wakes = Vec::new();
    let mut told = |c| wakes.push(reply(&mut t.lend(), c).wake_number());
    for id in 1..=4 {
        told(arrive(0, id, 0, 1));
    }
    for ms in [4, 8, 10, 9] {
        told(Call::Tick(ms * MS));
    }
    told(Call::Complete(0, 1, 10 * MS));
    told(Call::Complete(0, 1, 10 * MS));
    // By limit at 4 and 8 ms, then by reservation at 10 ms; the tick at 9
    // is refused, and so is the second completion.
    let (first, second, third) = (4 * MS, 8 * MS, 10 * MS);
    let wanted = [
        NEVER, first, first, first, second, third, NEVER, 0, NEVER, 0,
    ];
    assert_eq!(wakes, wanted);
}

#[test]
fn none_when_nothing_waits_or_no_place_is_free() {
    let mut state = State::fresh(1, 4, &[guest(0, 0, 1), guest(10, 10, 1)]);
    assert_eq!(wake(&state), None);
    state.arrive(0, 1, 7, 1);
    assert_eq!(wake(&state), None);
    state.arrive(0, 2, 7, 1);
    state.arrive(1, 1, 7, 1);
    assert_eq!(state.flight.len(), 1);
    assert_eq!(wake(&state), None);
    state.flight.clear();
    assert_eq!(wake(&state), Some(7));
}

#[test]
fn now_where_more_is_due_than_one_event_sends() {
    let mut state = State::fresh(4, 8, &[guest(0, 0, 1), guest(0, 1_000, 1)]);
    state.flight = (10..14).map(|id| Flight { guest: 0, id }).collect();
    for id in 1..=3 {
        state.arrive(0, id, 5, 1);
    }
    assert_eq!(state.complete(0, 10, 5), weight(0, 1));
    assert_eq!(wake(&state), None);
    state.flight.pop();
    state.flight.pop();
    assert_eq!(wake(&state), Some(5));
    assert_eq!(state.tick(5), weight(0, 2));
    assert_eq!(wake(&state), Some(5));
    assert_eq!(state.tick(5), weight(0, 3));
    assert_eq!(wake(&state), None);
}

#[test]
fn the_earlier_of_reservation_and_limit_tags_of_all_guests() {
    let settings = [guest(1, 4, 1), guest(3, 3, 1), guest(2, 2, 1)];
    let mut state = State::fresh(8, 8, &settings);
    for number in 0..3 {
        state.arrive(number, 1, 0, 1);
    }
    state.arrive(2, 2, 0, 1);
    assert_eq!(wake(&state), Some(SECOND / 2));
    // Its reservation tag, which is one before its limit tag.
    state.arrive(1, 2, 0, 1);
    assert_eq!(wake(&state), Some(333_333_333));
    state.arrive(0, 2, 0, 1);
    assert_eq!(wake(&state), Some(SECOND / 4));
    // The share tags have no say in when.
    for w in &mut state.waiting {
        w.stag = 0;
    }
    assert_eq!(wake(&state), Some(SECOND / 4));
}

#[test]
fn tags_that_mean_nothing_wake_nobody() {
    // At time 0 a meaningless 0 looks like a tag that is due.
    let mut state = State::fresh(2, 4, &[guest(0, 1, 1)]);
    state.arrive(0, 1, 0, 1);
    state.arrive(0, 2, 0, 1);
    assert_eq!(state.waiting[0].rtag, 0);
    assert_eq!(wake(&state), Some(SECOND));
}

#[test]
fn at_the_ceiling() {
    let mut state = State::fresh(2, 4, &[guest(0, 1, 1)]);
    state.arrive(0, 1, CEILING - SECOND, 1);
    assert_eq!(state.arrive(0, 2, CEILING - SECOND, 1), Answer::Nothing);
    assert_eq!(wake(&state), Some(CEILING));
    assert_eq!(state.tick(CEILING), weight(0, 2));
}

/// Every nanosecond in turn, on tables whose tags lie close.
#[test]
fn no_earlier_nanosecond_sends() {
    let mut rng = Prng::new(51);
    let (mut now, mut later) = (0, 0);
    for _ in 0..1_000 {
        let state = close_tags(&mut rng);
        let t = wake(&state).unwrap();
        assert!(t >= state.time && sends(&state, t));
        assert!(!(state.time..t).any(|earlier| sends(&state, earlier)));
        now += (t == state.time) as u32;
        later += (t > state.time) as u32;
    }
    assert!(now > 200 && later > 200, "{now} {later}");
}

/// A place free, and up to three requests with tags that are due soon.
fn close_tags(rng: &mut Prng) -> State {
    let guests = rng.between(1, 3);
    let settings: Vec<_> = (0..guests).map(|_| any_settings(rng)).collect();
    let mut state = State::fresh(1, 6, &settings);
    state.time = rng.below(1_000);
    for guest in &mut state.guests {
        let has = guest.settings;
        guest.rnext = has.has_reservation() as u64 * rng.below(3_000);
        guest.lnext = has.has_limit() as u64 * rng.below(3_000);
    }
    // The array is full while they arrive.
    state.flight.push(Flight { guest: 0, id: 9 });
    for id in 1..=rng.between(1, 3) as u32 {
        let time = state.time;
        state.arrive(rng.below(guests), id, time, 1);
    }
    state.flight.clear();
    state
}

/// What is due stays due while nothing happens, so the nanosecond before
/// speaks for all before it.
fn is_earliest(state: &State, woken: Option<u64>) -> bool {
    match woken {
        None => state.waiting.is_empty() || state.flight.len() == state.depth,
        Some(t) => {
            let first = t == state.time || !sends(state, t - 1);
            t >= state.time && t <= CEILING && sends(state, t) && first
        }
    }
}

#[test]
fn random_sound_tables_are_woken_in_time() {
    let mut rng = Prng::new(52);
    let (mut now, mut later, mut never) = (0, 0, 0);
    for _ in 0..5_000 {
        let state = read(&sound_tables(&mut rng).view());
        let woken = wake(&state);
        assert!(is_earliest(&state, woken));
        match woken {
            None => never += 1,
            Some(t) if t == state.time => now += 1,
            Some(t) => {
                later += 1;
                // Any time before, also far from the tags.
                let before = state.time + rng.below(t - state.time);
                assert!(!sends(&state, before));
            }
        }
    }
    assert!(now > 500 && later > 200 && never > 500);
}

/// Over whole traces: every accepted call carries the time to wake at the
/// tables it leaves, a refusal carries none and the number 0.
#[test]
fn each_accepted_call_carries_it() {
    let (mut carried, mut none, mut zero) = (0, 0, 0);
    for kind in ["small", "ceiling", "jumps", "waits", "small2", "waits2"] {
        for seed in 0..40 {
            let (header, events) = taken_apart(&trace(kind, seed).unwrap());
            let mut t = opened_by(&header);
            for e in events {
                let said = reply(&mut t.lend(), call_of(e));
                let (told, numbered) = (said.wake, said.wake_number());
                if refused(said.answer) {
                    assert_eq!((told, numbered), (None, 0));
                    zero += 1;
                    continue;
                }
                let state = read(&t.view());
                assert!(is_earliest(&state, told));
                assert_eq!(numbered, told.unwrap_or(u64::MAX));
                carried += told.is_some() as u32;
                none += told.is_none() as u32;
            }
        }
    }
    let many = carried > 1_000 && none > 1_000 && zero > 1_000;
    assert!(many, "{carried} {none} {zero}");
}

/// A host that ticks only when it is woken sends what one sends that ticks
/// all the time, each request at the same time.
#[test]
fn ticking_only_when_woken_misses_nothing() {
    let mut rng = Prng::new(53);
    let mut sent = 0;
    for _ in 0..300 {
        let mut lazy = whole_microseconds(&mut rng);
        let mut eager = lazy.clone();
        let mut of_eager = Vec::new();
        for half in 0..200 {
            while let Answer::Sent { guest, id, .. } = eager.tick(500 * half) {
                of_eager.push((500 * half, guest, id));
            }
        }
        let mut of_lazy = Vec::new();
        while let Some(t) = wake(&lazy) {
            match lazy.tick(t) {
                Answer::Sent { guest, id, .. } => of_lazy.push((t, guest, id)),
                _ => panic!("woken for nothing"),
            }
        }
        assert_eq!(of_eager, of_lazy);
        sent += of_lazy.len();
    }
    assert!(sent > 2_000, "{sent}");
}

/// Requests at time 0, all of whose tags are whole microseconds.
fn whole_microseconds(rng: &mut Prng) -> State {
    let rates = [200_000, 250_000, 500_000, 1_000_000];
    let settings: Vec<_> = (0..3)
        .map(|_| {
            let (one, other) = (rng.pick(&rates), rng.pick(&rates));
            let limit = rng.pick(&[0, one.max(other), one.max(other)]);
            guest(one.min(other), limit, rng.pick(&rates))
        })
        .collect();
    let mut state = State::fresh(32, 32, &settings);
    for id in 0..rng.between(5, 25) as u32 {
        state.arrive(rng.below(3), id, 0, 1);
    }
    state
}
