//! Guests that are spread over several arrays, the gate's side: document 02,
//! K14.

mod common;
use common::old::Old;
use common::*;
use second::batch::EVENT_NUMBERS;
use second::calls::read;
use second::kinds::trace;
use second::numbers::SECOND;
use second::sample::{
    any_cost, any_settings, any_spread, bad_spread, batch, good_spread, sound_tables, spoil, Batch,
    Prng,
};
use second::tables::*;
use second::Answer::{Nothing, Refused};
use second::{first_broken, Answer, Flight, Phase, Settings, State, CEILING};
use std::collections::BTreeSet;

/// A gate with one guest and a full array, so that what arrives stays to be
/// looked at.
fn full(settings: Settings) -> State {
    let mut state = State::fresh(1, 8, &[settings]);
    state.flight.push(Flight { guest: 0, id: 99 });
    state
}

/// Spacings of 10, 5 and 1 ms, and one waiting that came at 1,000 ms and cost
/// 4: the next numbers are 1,040, 1,020 and 1,004 ms.
fn busy() -> State {
    let mut state = full(guest(100, 200, 1_000));
    assert_eq!(state.arrive(0, 1, 1_000 * MS, 4), Nothing);
    assert_eq!(
        next_numbers(&state),
        [1_040, 1_020, 1_004].map(|ms| ms * MS)
    );
    state
}

fn next_numbers(state: &State) -> [u64; 3] {
    let g = state.guests[0];
    [g.rnext, g.lnext, g.snext]
}

fn last_tags(state: &State) -> [u64; 3] {
    let w = state.waiting[state.waiting.len() - 1];
    [w.rtag, w.ltag, w.stag]
}

#[test]
fn next_numbers_are_first_raised() {
    for (delta, rho, tags) in [
        (1, 1, [1_040, 1_020, 1_004]),
        (2, 1, [1_040, 1_025, 1_005]),
        (2, 2, [1_050, 1_025, 1_005]),
        (9, 4, [1_070, 1_060, 1_012]),
        // For a rho of 0 the reservation's falls by one spacing.
        (1, 0, [1_030, 1_020, 1_004]),
        (9, 0, [1_030, 1_060, 1_012]),
        (65_535, 65_535, [656_380, 328_690, 66_538]),
        (65_535, 0, [1_030, 328_690, 66_538]),
    ] {
        // By plain spacings, whatever the request costs.
        for cost in [1, 7, 64] {
            let mut state = busy();
            let answer = state.arrive_spread(0, 2, 1_000 * MS, cost, delta, rho);
            assert_eq!(answer, Nothing);
            assert_eq!(last_tags(&state), tags.map(|ms| ms * MS));
            let [r, l, s] = tags;
            let next = [r + 10 * cost, l + 5 * cost, s + cost];
            assert_eq!(next_numbers(&state), next.map(|ms| ms * MS));
        }
    }
}

#[test]
fn what_was_raised_is_not_kept() {
    // The time is later than the raised numbers: nothing is left of them.
    let mut state = busy();
    let t = 2_000 * MS;
    assert_eq!(state.arrive_spread(0, 2, t, 3, 9, 4), Nothing);
    assert_eq!(last_tags(&state), [t; 3]);
    let steps = [30, 15, 3].map(|ms| t + ms * MS);
    assert_eq!(next_numbers(&state), steps);
    // Nor in a refusal.
    let before = state.clone();
    assert_eq!(state.arrive_spread(0, 2, t, 3, 9, 4), Refused(7));
    assert_eq!(state, before);
}

#[test]
fn the_tags_are_still_the_larger_of_next_number_and_time() {
    // Raised to 1,045 ms: before, at and after it.
    for (t, tag) in [(1_044, 1_045), (1_045, 1_045), (1_046, 1_046)] {
        let mut state = busy();
        state.arrive_spread(0, 2, t * MS, 1, 6, 1);
        assert_eq!(state.waiting[1].ltag, tag * MS);
    }
    // Fallen to 1,030 ms.
    for (t, tag) in [(1_029, 1_030), (1_030, 1_030), (1_031, 1_031)] {
        let mut state = busy();
        state.arrive_spread(0, 2, t * MS, 1, 6, 0);
        assert_eq!(state.waiting[1].rtag, tag * MS);
    }
}

#[test]
fn a_reservation_number_does_not_fall_below_0() {
    let spacing = 10 * MS;
    for (rnext, tag) in [
        (0, 0),
        (1, 0),
        (spacing - 1, 0),
        (spacing, 0),
        (spacing + 1, 1),
    ] {
        let mut state = full(guest(100, 0, 1));
        state.guests[0].rnext = rnext;
        assert_eq!(state.arrive_spread(0, 1, 0, 2, 1, 0), Nothing);
        assert_eq!(state.waiting[0].rtag, tag);
        assert_eq!(state.guests[0].rnext, tag + 2 * spacing);
    }
}

#[test]
fn numbers_that_mean_nothing_stay_0() {
    for settings in [guest(0, 0, 1), guest(0, 1, 1), guest(1, 0, 1)] {
        for [delta, rho] in [[1, 0], [1, 1], [9, 9], [65_535, 65_535]] {
            let mut state = full(settings);
            assert_eq!(state.arrive_spread(0, 1, 5, 1, delta, rho), Nothing);
            let (w, g) = (state.waiting[0], state.guests[0]);
            if !settings.has_reservation() {
                assert_eq!([w.rtag, g.rnext], [0, 0]);
            }
            if !settings.has_limit() {
                assert_eq!([w.ltag, g.lnext], [0, 0]);
            }
        }
    }
}

/// An idle guest's share tag is not later than the time, so that its raise
/// goes no further than that.
#[test]
fn at_an_idle_guest_the_share_raise_ends_at_the_time() {
    let t = 1_000 * MS;
    for (credit, snext, delta, tag) in [
        (0, 0, 65_535, t),
        (0, t + 7, 5, t),
        // From the next number up to the time, where credit reaches back.
        (30, t - 30 * MS, 1, t - 30 * MS),
        (30, t - 30 * MS, 11, t - 20 * MS),
        (30, t - 30 * MS, 31, t),
        (30, t - 30 * MS, 32, t),
        // A raise that ends before b is lost.
        (30, 0, 900, t - 30 * MS),
        (30, 0, 972, t - 29 * MS),
    ] {
        let mut state = full(credited(credit, guest(0, 0, 1_000)));
        state.guests[0].snext = snext;
        assert_eq!(state.arrive_spread(0, 1, t, 2, delta, 0), Nothing);
        assert_eq!(share_tags(&state), [tag]);
        assert_eq!(state.guests[0].snext, tag + 2 * MS);
    }
    // Its limit tag has the whole of it.
    let mut state = full(guest(0, 200, 1_000));
    assert_eq!(state.arrive_spread(0, 1, 0, 1, 11, 0), Nothing);
    assert_eq!([state.waiting[0].ltag, state.waiting[0].stag], [50 * MS, 0]);
}

#[test]
fn others_are_not_raised() {
    let mut state = State::fresh(1, 8, &[guest(1, 1, 1), guest(100, 100, 100)]);
    state.flight.push(Flight { guest: 0, id: 99 });
    state.arrive(1, 1, 0, 1);
    let before = state.clone();
    state.arrive_spread(0, 1, 0, 1, 7, 3);
    assert_eq!(state.waiting[0], before.waiting[0]);
    assert_eq!(state.guests[1], before.guests[1]);
}

#[test]
fn a_guest_that_was_served_elsewhere_has_fewer_turns() {
    // Equal shares; what the first asks for had two others done elsewhere.
    let mut state = State::fresh(1, 32, &[guest(0, 0, 1), guest(0, 0, 1)]);
    state.flight.push(Flight { guest: 0, id: 99 });
    for id in 0..4 {
        state.arrive_spread(0, id, 0, 1, 3, 0);
    }
    for id in 0..12 {
        state.arrive(1, id, 0, 1);
    }
    let mut turns = Vec::new();
    let mut flies = (0, 99);
    for _ in 0..14 {
        let Answer::Sent { guest, id, .. } = state.complete(flies.0, flies.1, 0) else {
            panic!("nothing sent");
        };
        flies = (guest, id as u32);
        turns.push(guest);
    }
    // Its first has the time as its tag, like any idle guest's.
    assert_eq!(turns, [0, 1, 1, 1, 0, 1, 1, 1, 0, 1, 1, 1, 0, 1]);
}

/// One guest with a reservation spacing of 10 ms and no limit at 1 ms, with one
/// place free: what is not due goes by weight.
fn free(tags: &[(u64, u64)]) -> State {
    let mut state = State::fresh(1, 8, &[guest(100, 0, 1)]);
    state.time = MS;
    for (place, (ms, cost)) in tags.iter().enumerate() {
        let (rtag, cost) = (ms * MS, *cost);
        let stag = place as u64 * 64 * SECOND;
        state.guests[0].rnext = rtag + cost * 10 * MS;
        state.guests[0].snext = stag + cost * SECOND;
        state.waiting.push(Waiting {
            guest: 0,
            id: place as u64,
            rtag,
            ltag: 0,
            stag,
            cost,
        });
    }
    state
}

#[test]
fn a_drop_stops_at_0_and_the_next_number_follows_the_last_tag() {
    for (tags, dropped, next) in [
        // As far apart as ever: the old drop.
        (&[(4, 3), (34, 2), (54, 1)][..], &[4, 24][..], 34),
        (&[(4, 3), (34, 2)][..], &[4][..], 24),
        // Closer: to the time or before it.
        (&[(11, 3), (31, 2), (51, 1)][..], &[1, 21][..], 31),
        (&[(11, 3), (31, 2), (41, 1)][..], &[1, 11][..], 21),
        // Below 0 it would be: the first, then the last too.
        (&[(4, 3), (6, 2), (35, 1)][..], &[0, 5][..], 15),
        (&[(4, 3), (6, 2), (29, 7)][..], &[0, 0][..], 70),
        (&[(4, 3), (30, 2)][..], &[0][..], 20),
        (&[(4, 64), (4, 64)][..], &[0][..], 640),
        // None is left waiting.
        (&[(4, 3)][..], &[][..], 4),
        (&[(2, 64)][..], &[][..], 2),
    ] {
        let mut state = free(tags);
        assert_eq!(state.tick(MS), weight(0, 0));
        let dropped: Vec<u64> = dropped.iter().map(|ms| ms * MS).collect();
        assert_eq!(reservation_tags(&state), dropped);
        assert_eq!(state.guests[0].rnext, next * MS);
    }
}

#[test]
fn with_none_waiting_the_next_number_drops_not_below_0() {
    // No sound table has this, but the rule is plain.
    let mut state = free(&[(4, 3)]);
    state.guests[0].rnext = 7 * MS;
    assert_eq!(state.tick(MS), weight(0, 0));
    assert_eq!(state.guests[0].rnext, 0);
}

#[test]
fn other_guests_do_not_drop() {
    let mut state = State::fresh(1, 8, &[guest(100, 0, 100), guest(100, 0, 1)]);
    state.flight.push(Flight { guest: 0, id: 99 });
    for number in 0..2 {
        state.arrive(number, 1, 0, 1);
        state.arrive_spread(number, 2, 0, 1, 1, 0);
        state.guests[number as usize].rnext = 30 * MS;
    }
    for w in &mut state.waiting {
        w.rtag = 20 * MS;
    }
    assert_eq!(state.complete(0, 99, 0), weight(0, 1));
    assert_eq!(reservation_tags(&state), [10, 20, 20].map(|ms| ms * MS));
    assert_eq!(state.guests[0].rnext, 20 * MS);
    assert_eq!(state.guests[1].rnext, 30 * MS);
}

#[test]
fn after_a_reservation_send_nothing_drops() {
    let mut state = free(&[(1, 3), (1, 2), (1, 1)]);
    assert_eq!(state.tick(MS), reservation(0, 0));
    assert_eq!(reservation_tags(&state), [MS, MS]);
    assert_eq!(state.guests[0].rnext, 11 * MS);
}

/// After a rho of 0 a weight send may make the next one due.
#[test]
fn after_a_rho_of_0_tags_may_come_to_the_time() {
    let mut state = State::fresh(1, 8, &[guest(100, 0, 1)]);
    let t = 3 * MS;
    assert_eq!(state.arrive(0, 1, t, 1), reservation(0, 1));
    assert_eq!(state.arrive(0, 2, t, 1), Nothing);
    assert_eq!(state.arrive_spread(0, 3, t, 1, 1, 0), Nothing);
    assert_eq!(reservation_tags(&state), [t + 10 * MS; 2]);
    assert_eq!(state.complete(0, 1, t), weight(0, 2));
    assert_eq!(reservation_tags(&state), [t]);
    assert_eq!(state.complete(0, 2, t), reservation(0, 3));
}

#[test]
fn equal_reservation_tags_of_one_guest_leave_in_order() {
    let mut state = full(guest(100, 0, 1));
    for id in 1..=3 {
        assert_eq!(state.arrive_spread(0, id, 0, 1, 1, 0), Nothing);
    }
    assert_eq!(reservation_tags(&state), [0; 3]);
    assert_eq!(state.complete(0, 99, 0), reservation(0, 1));
    assert_eq!(state.complete(0, 1, 0), reservation(0, 2));
    assert_eq!(state.complete(0, 2, 0), reservation(0, 3));
}

#[test]
fn delta_outside_1_to_65535_or_rho_above_it_is_20() {
    let large = 1 << 32;
    for [delta, rho] in [
        [0, 0],
        [0, 1],
        [65_536, 0],
        [65_536, 65_536],
        [large, 1],
        [large + 1, 1],
        [u64::MAX, u64::MAX],
        [1, 2],
        [65_534, 65_535],
        [65_535, 65_536],
        [1, large],
        [1, large + 1],
        [65_535, u64::MAX],
    ] {
        let mut state = busy();
        let before = state.clone();
        let answer = state.arrive_spread(0, 2, 1_000 * MS, 1, delta, rho);
        assert_eq!(answer, Refused(20));
        assert_eq!(state, before);
    }
    for [delta, rho] in [[1, 0], [1, 1], [65_535, 0], [65_535, 65_535]] {
        let answer = busy().arrive_spread(0, 2, 1_000 * MS, 1, delta, rho);
        assert_eq!(answer, Nothing);
    }
}

#[test]
fn at_the_ceiling_only_the_tags_given_count() {
    let arrives = |state: &State, t, delta, rho| {
        let mut state = state.clone();
        let answer = state.arrive_spread(0, 2, t, 1, delta, rho);
        (answer, state)
    };
    // A spacing of 1 s in each; raised just to the ceiling, and past it.
    let t = CEILING - 7 * SECOND;
    let mut limited = full(guest(0, 1, 1));
    limited.guests[0].lnext = CEILING - 5 * SECOND;
    assert_eq!(arrives(&limited, t, 6, 0).0, Nothing);
    assert_eq!(arrives(&limited, t, 7, 0).0, Refused(9));
    let mut reserved = full(guest(1, 0, 1));
    reserved.guests[0].rnext = CEILING - 5 * SECOND;
    assert_eq!(arrives(&reserved, t, 65_535, 6).0, Nothing);
    assert_eq!(arrives(&reserved, t, 65_535, 7).0, Refused(9));
    let mut shared = full(guest(0, 0, 1));
    assert_eq!(shared.arrive(0, 1, t, 1), Nothing);
    assert_eq!(arrives(&shared, t, 7, 0).0, Nothing);
    assert_eq!(arrives(&shared, t, 8, 0).0, Refused(9));
    // The largest numbers there are.
    let mut high = full(guest(1, 1, 1));
    let g = &mut high.guests[0];
    [g.rnext, g.lnext, g.snext] = [CEILING + 64 * SECOND; 3];
    assert_eq!(arrives(&high, CEILING, 65_535, 65_535).0, Refused(9));
    // At an idle guest the share number may be anything.
    let mut idle = full(guest(0, 0, 1));
    idle.guests[0].snext = CEILING + 64 * SECOND;
    let (answer, after) = arrives(&idle, CEILING, 65_535, 65_535);
    assert_eq!(answer, Nothing);
    assert_eq!(share_tags(&after), [CEILING]);
}

/// The second arrival at 2^62 - 1 is refused 9 where rho is at least 1; for a
/// rho of 0 the reservation tag stands at the ceiling again.
#[test]
fn a_second_arrival_at_the_ceiling_with_a_rho_of_0() {
    let second_time = |settings: Settings, waits: bool, rho| {
        let mut state = State::fresh(1, 4, &[settings]);
        if waits {
            state.flight.push(Flight { guest: 0, id: 99 });
        }
        assert!(!refused(state.arrive(0, 1, CEILING, 1)));
        state.arrive_spread(0, 2, CEILING, 1, 1, rho)
    };
    assert_eq!(second_time(guest(1, 0, 1), false, 1), Refused(9));
    assert_eq!(second_time(guest(1, 0, 1), false, 0), Nothing);
    // The limit, and while the first waits the shares, do not read rho.
    assert_eq!(second_time(guest(1, 1, 1), false, 0), Refused(9));
    assert_eq!(second_time(guest(1, 0, 1), true, 0), Refused(9));
    let credit = credited(1, guest(1, 0, 1));
    assert_eq!(second_time(credit, true, 1), Refused(9));
    assert_eq!(second_time(credit, true, 0), Nothing);
}

fn some_call(rng: &mut Prng, state: &State, spread: [u64; 2]) -> Call {
    let last = state.time;
    let time = match rng.below(12) {
        0..=5 => last,
        6..=7 if !state.waiting.is_empty() => {
            let w = rng.pick(&state.waiting);
            rng.pick(&[w.rtag, w.ltag, w.stag]).max(last)
        }
        8 => last.saturating_sub(1),
        9 if rng.chance(20) => rng.sized(64),
        _ => last + rng.sized(33),
    };
    let guest = rng.below(state.guests.len() as u64 + 1);
    match rng.below(10) {
        0..=4 => Call::Arrive(guest, rng.sized(9) as u32, time, any_cost(rng), spread),
        5..=7 if !state.flight.is_empty() => {
            let f = rng.pick(&state.flight);
            Call::Complete(f.guest, f.id as u32, time)
        }
        8 => Call::Complete(guest, rng.sized(3) as u32, time),
        _ => Call::Tick(time),
    }
}

fn same(old: &Old, state: &State) -> bool {
    *old == Old::of(state)
}

/// One and one give the old gate, from every table that was sound then.
#[test]
fn one_and_one_give_the_old_answers() {
    let mut rng = Prng::new(101);
    let (mut runs, mut sent, mut by_weight) = (0, 0, 0);
    while runs < 600 {
        let mut state = read(&sound_tables(&mut rng).view());
        let mut old = Old::of(&state);
        if !old.sound() {
            continue;
        }
        runs += 1;
        for _ in 0..60 {
            let c = some_call(&mut rng, &state, [1, 1]);
            let answer = play(&mut state, c);
            assert_eq!(answer, old.play(c), "{c:?}");
            assert!(same(&old, &state) && old.sound(), "{c:?} {answer:?}");
            if let Answer::Sent { phase, .. } = answer {
                sent += 1;
                by_weight += (phase == Phase::Weight) as u32;
            }
        }
    }
    assert!(sent > 4_000 && by_weight > 1_000, "{sent} {by_weight}");
}

/// A trace is of one array.
#[test]
fn traces_are_played_as_ever() {
    for kind in ["small", "ceiling", "waits", "small2", "ceiling2", "waits2"] {
        for seed in 0..60 {
            let (header, events) = taken_apart(&trace(kind, seed).unwrap());
            let mut state = header.fresh();
            let mut old = Old::of(&state);
            for e in events.into_iter().filter(|e| e.well_formed()) {
                let answer = second::trace::play(&mut state, e);
                assert_eq!(answer, old.play(call_of(e)));
                assert!(same(&old, &state));
            }
        }
    }
}

/// Whether a weight send brought tags of its guest to the time or before it, or
/// its next reservation number.
fn brought_due(state: &State, answer: Answer) -> bool {
    let Answer::Sent {
        phase: Phase::Weight,
        guest,
        ..
    } = answer
    else {
        return false;
    };
    let record = state.guests[guest as usize];
    let due = |w: &Waiting| w.guest == guest && w.rtag <= state.time;
    record.settings.has_reservation()
        && (record.rnext <= state.time || state.waiting.iter().any(due))
}

/// Where every rho is at least 1 and the table was sound by the old rule, it
/// stays so, and tags stay above the time after a weight send as document 01
/// says.
#[test]
fn without_a_rho_of_0_tags_stay_apart_and_above_the_time() {
    let mut rng = Prng::new(102);
    let (mut runs, mut by_weight) = (0, 0);
    while runs < 600 {
        let mut state = read(&sound_tables(&mut rng).view());
        if !Old::of(&state).sound() {
            continue;
        }
        runs += 1;
        for _ in 0..60 {
            let [delta, rho] = any_spread(&mut rng);
            let c = some_call(&mut rng, &state, [delta, rho.max(1)]);
            let answer = play(&mut state, c);
            assert!(!brought_due(&state, answer), "{c:?} {answer:?}");
            assert!(Old::of(&state).sound(), "{c:?} {answer:?}");
            let weight = Phase::Weight;
            by_weight += matches!(answer, Answer::Sent { phase, .. } if phase == weight) as u32;
        }
    }
    assert!(by_weight > 1_000, "{by_weight}");
}

/// With them it does not, and the random runs reach every case: tags at the
/// time and before it, tags stopped at 0, a next number that did not drop
/// alike. Each call keeps the tables sound.
#[test]
fn with_a_rho_of_0_every_case_comes_up() {
    let mut rng = Prng::new(103);
    let (mut due, mut stopped, mut not_alike, mut close) = (0, 0, 0, 0);
    for _ in 0..4_000 {
        let mut t = sound_tables(&mut rng);
        for _ in 0..8 {
            let before = read(&t.view());
            let spread = any_spread(&mut rng);
            let c = some_call(&mut rng, &before, spread);
            let answer = call(&mut t.lend(), c);
            assert_eq!(first_broken(&t.view()), None, "{c:?} {answer:?}");
            let state = read(&t.view());
            close += !Old::of(&state).sound() as u32;
            due += brought_due(&state, answer) as u32;
            let Answer::Sent {
                phase: Phase::Weight,
                guest,
                id,
            } = answer
            else {
                continue;
            };
            let sent = before
                .waiting
                .iter()
                .find(|w| (w.guest, w.id) == (guest, id));
            let (Some(sent), false) = (sent, matches!(c, Call::Arrive(..))) else {
                continue;
            };
            let was = before.guests[guest as usize];
            if was.settings.has_reservation() {
                let drop = sent.cost * was.settings.reservation_spacing();
                let own = |w: &&Waiting| w.guest == guest;
                let fell = before.waiting.iter().filter(own).any(|w| w.rtag < drop);
                let waits = state
                    .waiting
                    .iter()
                    .any(|w| w.guest == guest && w.rtag == 0);
                stopped += (fell && waits) as u32;
                let now = state.guests[guest as usize].rnext;
                not_alike += (now != was.rnext.saturating_sub(drop)) as u32;
            }
        }
    }
    let all = [due, stopped, not_alike, close];
    assert!(all.iter().all(|count| *count > 20), "{all:?}");
}

/// From a fresh table no drop would pass 0: there the next number drops alike.
#[test]
fn from_a_fresh_table_no_drop_would_pass_0() {
    let mut rng = Prng::new(105);
    let (mut dropped, mut due) = (0, 0);
    for _ in 0..1_500 {
        let guests = rng.between(1, 3);
        let settings: Vec<_> = (0..guests).map(|_| any_settings(&mut rng)).collect();
        let mut state = State::fresh_under(rng.between(1, 2), 2, 12, &settings);
        for _ in 0..40 {
            let any = good_spread(&mut rng);
            let spread = rng.pick(&[[1, 0], any]);
            let c = some_call(&mut rng, &state, spread);
            if taken(&mut state, c).is_err() {
                continue;
            }
            let before = state.clone();
            let answer = state.choose();
            due += brought_due(&state, answer) as u32;
            let Answer::Sent {
                phase: Phase::Weight,
                guest,
                id,
            } = answer
            else {
                continue;
            };
            let (was, now) = (&before.guests, &state.guests);
            let (was, now) = (was[guest as usize], now[guest as usize]);
            if was.settings.has_reservation() {
                let own = |w: &&Waiting| w.guest == guest;
                let sent = before.waiting.iter().find(|w| own(w) && w.id == id);
                let drop = sent.unwrap().cost * was.settings.reservation_spacing();
                let mut left = before.waiting.iter().filter(own).skip(1);
                assert!(left.all(|w| w.rtag >= drop), "{c:?}");
                assert_eq!(was.rnext - drop, now.rnext, "{c:?}");
                dropped += 1;
            }
        }
    }
    assert!(dropped > 1_000 && due > 10, "{dropped} {due}");
}

/// A call up to the choice.
fn taken(state: &mut State, c: Call) -> Result<(), u8> {
    match c {
        Call::Arrive(guest, id, t, cost, [delta, rho]) => {
            state.take_spread(guest, id, t, cost, delta, rho)
        }
        Call::Complete(guest, id, t) => state.take_completion(guest, id, t),
        Call::Tick(t) => state.take_tick(t),
    }
}

/// Deltas and rhos of all kinds come up where the samples make them, and
/// tables in which only the order of reservation tags is wrong.
#[test]
fn the_samples_have_deltas_and_rhos_of_all_kinds() {
    let mut rng = Prng::new(104);
    let good: BTreeSet<[u64; 2]> = (0..4_000).map(|_| good_spread(&mut rng)).collect();
    for [delta, rho] in &good {
        assert!((1..=65_535).contains(delta) && rho <= delta);
    }
    for ends in [[1, 0], [1, 1], [65_535, 0], [65_535, 65_535]] {
        assert!(good.contains(&ends), "{ends:?}");
    }
    let bad: BTreeSet<[u64; 2]> = (0..4_000).map(|_| bad_spread(&mut rng)).collect();
    for [delta, rho] in &bad {
        assert!(*delta == 0 || *delta > 65_535 || rho > delta);
    }
    for ends in [[0, 0], [65_536, 0], [1, 2], [65_535, 65_536]] {
        assert!(bad.contains(&ends), "{ends:?}");
    }
    let (mut asked, mut elsewhere) = (BTreeSet::new(), BTreeSet::new());
    let (mut close, mut fallen) = (0, 0);
    for _ in 0..3_000 {
        let mut t = sound_tables(&mut rng);
        close += !Old::of(&read(&t.view())).sound() as u32;
        let Batch { events, .. } = batch(&mut rng, &t);
        for row in events.chunks_exact(EVENT_NUMBERS) {
            let spread = [row[5], row[6]];
            if row[0] == 0 {
                asked.insert(spread);
            } else {
                elsewhere.insert(spread);
            }
        }
        spoil(&mut rng, &mut t);
        let broken = second::calls::table_refusal(&t.view()) == Some(3)
            && first_broken(&t.view()) == Some(second::Rule::TagsSpaced);
        fallen += broken as u32;
    }
    for ends in [[1, 0], [1, 1], [0, 0], [65_535, 0], [1, 2], [65_536, 0]] {
        assert!(asked.contains(&ends), "{ends:?}");
    }
    assert!(elsewhere.contains(&[0, 0]) && elsewhere.contains(&[1, 1]));
    assert!(elsewhere.contains(&[0, 1]) && elsewhere.contains(&[1, 0]));
    assert!(close > 300 && fallen > 20, "{close} {fallen}");
}
