//! Properties over random runs, from fresh and from random sound tables.

mod common;
use common::*;
use second::calls::read;
use second::kinds::trace;
use second::sample::{any_cost, any_settings, any_spread, sound_tables, Owned, Prng};
use second::tables::*;
use second::trace::play;
use second::{first_broken, Answer, Phase, Settings, State, CEILING};

/// Tables to start from: fresh ones or random sound ones.
fn start(rng: &mut Prng) -> Owned {
    if rng.chance(40) {
        let guests = rng.between(1, 4);
        let settings: Vec<_> = (0..guests).map(|_| any_settings(rng)).collect();
        let (depth, capacity) = (rng.between(1, 3), rng.between(1, 10));
        opened_under(rng.pick(&[1, 2]), depth, capacity, &settings)
    } else {
        sound_tables(rng)
    }
}

/// A call that is most often accepted.
fn likely_call(rng: &mut Prng, t: &Owned) -> Call {
    let state = read(&t.view());
    let time = likely_time(rng, &state);
    let guest = rng.below(state.guests.len() as u64);
    match rng.below(10) {
        0..=4 => {
            let (id, cost) = (rng.sized(12) as u32, any_cost(rng));
            Call::Arrive(guest, id, time, cost, any_spread(rng))
        }
        5..=7 if !state.flight.is_empty() => {
            let f = rng.pick(&state.flight);
            Call::Complete(f.guest, f.id as u32, time)
        }
        8 => Call::Complete(guest, rng.sized(3) as u32, time),
        _ => Call::Tick(time),
    }
}

fn likely_time(rng: &mut Prng, state: &State) -> u64 {
    let last = state.time;
    let time = match rng.below(10) {
        0..=4 => last,
        5 if !state.waiting.is_empty() => {
            let w = rng.pick(&state.waiting);
            rng.pick(&[w.rtag, w.ltag, w.stag]).max(last)
        }
        6 => last.saturating_sub(rng.sized(4)),
        _ => last + rng.sized(34),
    };
    if rng.chance(95) {
        time.min(CEILING)
    } else {
        time
    }
}

/// Plays calls on many tables; `look` sees each call with the tables
/// before and after it.
fn runs(seed: u64, tables: u64, calls: u64, mut look: impl FnMut(&Owned, Call, Answer, &Owned)) {
    let mut rng = Prng::new(seed);
    for _ in 0..tables {
        let mut t = start(&mut rng);
        for _ in 0..calls {
            let before = t.clone();
            let c = likely_call(&mut rng, &t);
            let answer = call(&mut t.lend(), c);
            look(&before, c, answer, &t);
        }
    }
}

#[test]
fn accepted_events_keep_soundness_and_refused_ones_everything() {
    let (mut accepted, mut sent) = (0, 0);
    runs(31, 400, 60, |before, c, answer, after| {
        if refused(answer) {
            assert_eq!(before, after, "{c:?}");
            return;
        }
        accepted += 1;
        sent += matches!(answer, Answer::Sent { .. }) as u32;
        assert_eq!(first_broken(&after.view()), None, "{c:?} {answer:?}");
        assert!(after.gate[FLIGHT] <= after.gate[DEPTH]);
        let time = match c {
            Call::Arrive(_, _, time, ..) | Call::Complete(_, _, time) | Call::Tick(time) => time,
        };
        assert_eq!(after.gate[TIME], time);
    });
    assert!(accepted > 10_000 && sent > 2_000, "{accepted} {sent}");
}

#[test]
fn places_beyond_the_need_and_settings_stay() {
    runs(32, 300, 40, |before, _, _, after| {
        let (depth, guests, capacity) = (
            before.gate[DEPTH] as usize,
            before.gate[GUESTS] as usize,
            before.gate[CAPACITY] as usize,
        );
        assert_eq!(before.gate[..TIME], after.gate[..TIME]);
        assert_eq!(before.gate[RULE], after.gate[RULE]);
        assert_eq!(before.gate[GATE_NUMBERS..], after.gate[GATE_NUMBERS..]);
        assert_eq!(
            before.guests[guest_at(guests, 0)..],
            after.guests[guest_at(guests, 0)..]
        );
        assert_eq!(
            before.waiting[waiting_at(capacity, 0)..],
            after.waiting[waiting_at(capacity, 0)..]
        );
        assert_eq!(
            before.flight[flight_at(depth, 0)..],
            after.flight[flight_at(depth, 0)..]
        );
        let settings = |t: &Owned| -> Vec<Settings> {
            let records = (0..guests).map(|place| t.view().guest(place));
            records.map(|g| g.settings).collect()
        };
        assert_eq!(settings(before), settings(after));
    });
}

#[test]
fn requests_of_one_guest_leave_in_order_of_acceptance() {
    runs(33, 400, 60, |before, c, answer, _| {
        let Answer::Sent { guest, id, .. } = answer else {
            return;
        };
        let state = read(&before.view());
        let first = state.waiting.iter().find(|w| w.guest == guest);
        match first {
            Some(w) => assert_eq!(w.id, id),
            // Nothing of it waited: it is the one that just arrived.
            None => match c {
                Call::Arrive(g, i, ..) => assert_eq!((g, i as u64), (guest, id)),
                _ => panic!("sent from nowhere"),
            },
        }
    });
}

/// How many waiting requests stand before this one in the reservation
/// phase: a smaller reservation tag, or an equal one accepted earlier.
fn before_it(state: &State, place: usize) -> usize {
    let tag = state.waiting[place].rtag;
    let stands = |(other, w): &(usize, &second::Waiting)| {
        state.guests[w.guest as usize].settings.has_reservation()
            && (w.rtag < tag || (w.rtag == tag && *other < place))
    };
    state.waiting.iter().enumerate().filter(stands).count()
}

/// Was a place free when the choice of this accepted event was made?
fn place_was_free(before: &State, c: Call) -> bool {
    let freed = matches!(c, Call::Complete(..)) as usize;
    before.flight.len() - freed < before.depth
}

/// Demand 3: a waiting request whose reservation tag is due, and under rule
/// 2 its limit tag too, with k others before it, their limits due or not, is
/// sent at the latest by the (k+1)th accepted event that finds a place free,
/// and no send before it is by weight.
#[test]
fn a_due_reservation_is_sent_in_its_turn() {
    let mut rng = Prng::new(35);
    let mut followed = [0, 0];
    for _ in 0..4_000 {
        let mut t = start(&mut rng);
        // Some way into a run, which may be no way at all.
        for _ in 0..rng.below(30) {
            let c = likely_call(&mut rng, &t);
            call(&mut t.lend(), c);
        }
        let state = read(&t.view());
        let due = |w: &second::Waiting| {
            let has = state.guests[w.guest as usize].settings;
            let open = !has.has_limit() || w.ltag <= state.time;
            w.rtag <= state.time && has.has_reservation() && (state.rule == 1 || open)
        };
        let places: Vec<usize> = (0..state.waiting.len())
            .filter(|place| due(&state.waiting[*place]))
            .collect();
        if places.is_empty() {
            continue;
        }
        let place = rng.pick(&places);
        followed[state.rule as usize - 1] += 1;
        follow(&mut rng, t, place, before_it(&state, place));
    }
    assert!(followed.iter().all(|count| *count > 300), "{followed:?}");
}

fn follow(rng: &mut Prng, mut t: Owned, place: usize, k: usize) {
    let wanted = read(&t.view()).waiting[place];
    let mut left = k + 1;
    for _ in 0..40 * (k + 10) {
        let before = read(&t.view());
        let c = likely_call(rng, &t);
        let answer = call(&mut t.lend(), c);
        if refused(answer) || !place_was_free(&before, c) {
            continue;
        }
        left -= 1;
        match answer {
            Answer::Sent { phase, guest, id } => {
                assert_eq!(phase, Phase::Reservation);
                if guest == wanted.guest && id == wanted.id {
                    return;
                }
            }
            _ => panic!("a place was free and a reservation due, but nothing was sent"),
        }
        assert!(left > 0, "not sent in its turn");
    }
}

/// The program's state and the calls on lent tables go alike.
#[test]
fn calls_and_program_agree() {
    for kind in ["small", "ceiling", "jumps", "small2", "ceiling2", "jumps2"] {
        for seed in 0..40 {
            let (header, events) = taken_apart(&trace(kind, seed).unwrap());
            let mut state = header.fresh();
            let mut t = opened_by(&header);
            for e in events {
                assert_eq!(call(&mut t.lend(), call_of(e)), play(&mut state, e));
                assert_eq!(read(&t.view()), state);
            }
        }
    }
}
