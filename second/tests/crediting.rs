//! Credit for bursts: document 02, K6.

mod common;
use common::*;
use second::calls::read;
use second::numbers::SECOND;
use second::sample::{sound_tables, Prng};
use second::Answer::{Nothing, Refused};
use second::{Flight, Guest, Settings, State, Waiting, CEILING};

/// One guest with shares 1,000, a spacing of 1 ms, and this credit; the
/// array is full, so that what arrives stays to be looked at.
fn full(credit: u64, snext: u64) -> State {
    let mut state = State::fresh(1, 8, &[credited(credit, guest(0, 0, 1_000))]);
    state.flight.push(Flight { guest: 0, id: 99 });
    state.guests[0].snext = snext;
    state
}

fn wait(state: &mut State, stag: u64) {
    state.waiting.push(Waiting {
        guest: 0,
        id: 98,
        rtag: 0,
        ltag: 0,
        stag,
        cost: 1,
    });
}

/// The share tag of an arrival, whose next number follows it.
fn tag_given(mut state: State, t: u64) -> u64 {
    assert_eq!(state.arrive(0, 1, t, 1), Nothing);
    let tag = state.waiting[state.waiting.len() - 1].stag;
    assert_eq!(state.guests[0].snext, tag + MS);
    tag
}

#[test]
fn at_an_idle_guest_between_b_and_the_time() {
    let t = 1_000 * MS;
    for (credit, snext, tag) in [
        // The next number lies before b, at it, behind it, at t, behind t.
        (30, 0, t - 30 * MS),
        (30, t - 30 * MS, t - 30 * MS),
        (30, t - 30 * MS + 1, t - 30 * MS + 1),
        (30, t, t),
        (30, t + 1, t),
        (30, CEILING + SECOND, t),
        (256, 0, t - 256 * MS),
        (1, 0, t - MS),
        // Without credit it is the time.
        (0, 0, t),
        (0, t + 5, t),
    ] {
        assert_eq!(tag_given(full(credit, snext), t), tag);
    }
}

#[test]
fn at_a_busy_guest_the_larger_of_next_number_and_b() {
    let t = 1_000 * MS;
    for (credit, snext, tag) in [
        (30, MS, t - 30 * MS),
        (30, t - 30 * MS, t - 30 * MS),
        (30, t - 29 * MS, t - 29 * MS),
        (30, t, t),
        // It may be later than t.
        (30, t + 7, t + 7),
        (0, MS, t),
        (0, t + 7, t + 7),
    ] {
        let mut state = full(credit, snext);
        wait(&mut state, snext - MS);
        assert_eq!(tag_given(state, t), tag);
    }
}

#[test]
fn b_does_not_fall_below_0() {
    assert_eq!(tag_given(full(256, 0), 256 * MS + 1), 1);
    for t in [256 * MS, 256 * MS - 1, 1, 0] {
        assert_eq!(tag_given(full(256, 0), t), 0);
    }
    // The largest credit of the largest spacing.
    let mut state = State::fresh(1, 4, &[credited(256, guest(0, 0, 1))]);
    assert_eq!(state.arrive(0, 1, 256 * SECOND + 3, 1), weight(0, 1));
    assert_eq!(state.guests[0].snext, SECOND + 3);
}

#[test]
fn reservations_and_limits_do_not_read_it() {
    let settings = credited(256, guest(100, 200, 1_000));
    let mut state = State::fresh(1, 4, &[settings]);
    state.flight.push(Flight { guest: 0, id: 99 });
    let t = 1_000 * MS;
    state.arrive(0, 1, t, 1);
    state.arrive(0, 2, t, 1);
    let tags: Vec<_> = state.waiting.iter().map(|w| [w.rtag, w.ltag]).collect();
    assert_eq!(tags, [[t, t], [t + 10 * MS, t + 5 * MS]]);
    assert_eq!(share_tags(&state), [t - 256 * MS, t - 255 * MS]);
}

/// The telephone desk: quiet for minutes, then thirty bids. The archive has
/// waited all along.
fn desk(credit: u64) -> usize {
    let settings = [credited(credit, guest(0, 0, 1_000)), guest(0, 0, 1_000)];
    let mut state = State::fresh(1, 200, &settings);
    let t = 120 * SECOND;
    for id in 0..100 {
        state.arrive(1, id, t, 1);
    }
    for id in 0..30 {
        state.arrive(0, id, t, 1);
    }
    // How many bids go before the archive has another turn but one.
    let mut flies = state.flight[0];
    let mut bids = 0;
    let mut turns = 0;
    while turns < 2 {
        state.complete(flies.guest, flies.id as u32, t);
        flies = state.flight[0];
        match flies.guest {
            0 => bids += 1,
            _ => turns += 1,
        }
    }
    bids
}

#[test]
fn a_burst_goes_ahead_as_far_as_the_credit_reaches() {
    // Without credit they take turns; with it the bids lie back.
    assert_eq!(desk(0), 1);
    assert_eq!(desk(10), 11);
    assert_eq!(desk(29), 30);
    assert_eq!(desk(256), 30);
}

#[test]
fn others_move_to_the_time_and_not_to_b() {
    let settings = [credited(5, guest(0, 0, 1_000)), guest(0, 0, 1_000)];
    let mut state = State::fresh(1, 8, &settings);
    state.flight.push(Flight { guest: 0, id: 99 });
    state.arrive(1, 1, 0, 1);
    state.arrive(1, 2, 0, 1);
    let t = 100 * MS;
    state.arrive(0, 1, t, 1);
    assert_eq!(share_tags(&state), [t, t + MS, t - 5 * MS]);
    assert_eq!(state.guests[1].snext, t + 2 * MS);
}

#[test]
fn a_move_starts_from_a_tag_that_lies_back() {
    let settings = [credited(5, guest(0, 0, 1_000)), guest(0, 0, 1_000)];
    let mut state = State::fresh(1, 8, &settings);
    state.flight.push(Flight { guest: 0, id: 99 });
    let t = 100 * MS;
    state.arrive(0, 1, t, 1);
    state.arrive(0, 2, t, 1);
    assert_eq!(share_tags(&state), [t - 5 * MS, t - 4 * MS]);
    state.arrive(1, 1, t, 1);
    assert_eq!(share_tags(&state), [t, t + MS, t]);
    assert_eq!(state.guests[0].snext, t + 2 * MS);
}

/// K3's case of 2^62 - 1 is for credit 0: with credit more may wait there.
#[test]
fn at_the_ceiling() {
    let second_waits = |settings: Settings| {
        let mut state = State::fresh(1, 4, &[settings]);
        state.flight.push(Flight { guest: 0, id: 99 });
        assert_eq!(state.arrive(0, 1, CEILING, 1), Nothing);
        state.arrive(0, 2, CEILING, 1)
    };
    assert_eq!(second_waits(guest(0, 0, 1)), Refused(9));
    assert_eq!(second_waits(credited(1, guest(0, 0, 1))), Nothing);
    assert_eq!(second_waits(credited(256, guest(0, 1, 1))), Refused(9));
    assert_eq!(second_waits(credited(256, guest(1, 0, 1))), Refused(9));
}

/// Credit 0 is the rule of K3, on any sound table.
#[test]
fn credit_0_is_the_old_rule() {
    let mut rng = Prng::new(71);
    let (mut idle, mut busy) = (0, 0);
    for _ in 0..3_000 {
        let mut state = read(&sound_tables(&mut rng).view());
        let number = rng.below(state.guests.len() as u64);
        let record: &mut Guest = &mut state.guests[number as usize];
        record.settings.credit = 0;
        let snext = record.snext;
        let waits = state.waiting.iter().any(|w| w.guest == number);
        let t = (state.time + rng.sized(34)).min(CEILING);
        if state.take_arrival(number, 1 << 20, t, 1).is_err() {
            continue;
        }
        let tag = state.waiting[state.waiting.len() - 1].stag;
        assert_eq!(tag, if waits { snext.max(t) } else { t });
        idle += !waits as u32;
        busy += waits as u32;
    }
    assert!(idle > 500 && busy > 500, "{idle} {busy}");
}

/// With any credit the share tag lies between b and what K3 would give, and
/// the random tables reach every case.
#[test]
fn every_case_comes_up() {
    let mut rng = Prng::new(72);
    let (mut by_next, mut by_b, mut by_time, mut by_zero) = (0, 0, 0, 0);
    for _ in 0..6_000 {
        let mut state = read(&sound_tables(&mut rng).view());
        let number = rng.below(state.guests.len() as u64);
        let Guest {
            settings, snext, ..
        } = state.guests[number as usize];
        let waits = state.waiting.iter().any(|w| w.guest == number);
        let t = (state.time + rng.sized(34)).min(CEILING);
        if settings.credit == 0 || state.take_arrival(number, 1 << 20, t, 1).is_err() {
            continue;
        }
        let b = t as i128 - settings.credit as i128 * settings.share_spacing() as i128;
        let tag = state.waiting[state.waiting.len() - 1].stag;
        let old = if waits { snext.max(t) } else { t };
        assert!(b.max(0) <= tag as i128 && tag <= old);
        by_next += (tag == snext) as u32;
        by_b += (tag as i128 == b) as u32;
        by_time += (!waits && tag == t && snext > t) as u32;
        by_zero += (b < 0 && tag == 0) as u32;
    }
    let all = [by_next, by_b, by_time, by_zero];
    assert!(all.iter().all(|count| *count > 10), "{all:?}");
}
