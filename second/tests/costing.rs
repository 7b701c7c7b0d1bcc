//! Big reads cost more: document 02, K8.

mod common;
use common::*;
use second::batch::EVENT_NUMBERS;
use second::calls::read;
use second::numbers::SECOND;
use second::sample::{
    any_cost, bad_cost, batch, good_cost, sound_tables, spoil, Batch, Owned, Prng,
};
use second::tables::*;
use second::Answer::{Nothing, Refused};
use second::{wake, Answer, Flight, Phase, State, CEILING};
use std::collections::BTreeSet;

/// Spacings of 10, 5 and 1 ms; the array is full, so that what arrives stays
/// to be looked at.
fn full() -> State {
    let mut state = State::fresh(1, 8, &[guest(100, 200, 1_000)]);
    state.flight.push(Flight { guest: 0, id: 99 });
    state
}

fn next_numbers(state: &State) -> [u64; 3] {
    let g = state.guests[0];
    [g.rnext, g.lnext, g.snext]
}

#[test]
fn a_next_number_lies_the_cost_in_spacings_behind_the_tag() {
    let t = 1_000 * MS;
    for cost in [1, 2, 7, 63, 64] {
        let mut state = full();
        assert_eq!(state.arrive(0, 1, t, cost), Nothing);
        // Its own tags do not read it.
        let w = state.waiting[0];
        assert_eq!([w.rtag, w.ltag, w.stag, w.cost], [t, t, t, cost]);
        let steps = [10, 5, 1].map(|ms| t + cost * ms * MS);
        assert_eq!(next_numbers(&state), steps);
        // The next one stands there, whatever it costs.
        assert_eq!(state.arrive(0, 2, t, 3), Nothing);
        let w = state.waiting[1];
        assert_eq!([w.rtag, w.ltag, w.stag], steps);
        assert_eq!(
            next_numbers(&state),
            [10, 5, 1].map(|ms| t + (cost + 3) * ms * MS)
        );
    }
}

#[test]
fn a_cost_outside_1_to_64_is_18() {
    for cost in [0, 65, 256, 257, 1 << 32, 1 << 58, u64::MAX] {
        let mut state = full();
        let before = state.clone();
        assert_eq!(state.arrive(0, 1, 5, cost), Refused(18));
        assert_eq!(state, before);
    }
    for cost in [1, 64] {
        assert_eq!(full().arrive(0, 1, 5, cost), Nothing);
    }
}

#[test]
fn after_a_weight_send_the_reservation_drops_by_its_cost() {
    // No limit: what is not due by reservation goes by weight.
    let mut state = State::fresh(1, 8, &[guest(100, 0, 1)]);
    assert_eq!(state.arrive(0, 1, 0, 4), reservation(0, 1));
    // No drop after a reservation send.
    assert_eq!(state.guests[0].rnext, 40 * MS);
    for (id, cost) in [(2, 3), (3, 5), (4, 1)] {
        assert_eq!(state.arrive(0, id, 0, cost), Nothing);
    }
    assert_eq!(reservation_tags(&state), [40, 70, 120].map(|ms| ms * MS));
    assert_eq!(state.guests[0].rnext, 130 * MS);
    // The sent one's own cost counts: 3, then 5.
    assert_eq!(state.complete(0, 1, MS), weight(0, 2));
    assert_eq!(reservation_tags(&state), [40, 90].map(|ms| ms * MS));
    assert_eq!(state.guests[0].rnext, 100 * MS);
    assert_eq!(state.complete(0, 2, MS), weight(0, 3));
    assert_eq!(reservation_tags(&state), [40 * MS]);
    assert_eq!(state.guests[0].rnext, 50 * MS);
    // With none left waiting the next number drops alone.
    assert_eq!(state.complete(0, 3, MS), weight(0, 4));
    assert_eq!(state.guests[0].rnext, 40 * MS);
}

#[test]
fn a_limit_counts_the_cost() {
    let mut state = State::fresh(4, 8, &[guest(0, 100, 1)]);
    assert_eq!(state.arrive(0, 1, 0, 64), weight(0, 1));
    assert_eq!(state.arrive(0, 2, 0, 1), Nothing);
    assert_eq!(wake(&state), Some(640 * MS));
    assert_eq!(state.tick(640 * MS - 1), Nothing);
    assert_eq!(state.tick(640 * MS), weight(0, 2));
    assert_eq!(state.guests[0].lnext, 650 * MS);
}

#[test]
fn shares_count_the_cost() {
    // Equal shares: one read of cost 4 weighs as much as four of cost 1.
    let mut state = State::fresh(1, 32, &[guest(0, 0, 1), guest(0, 0, 1)]);
    state.flight.push(Flight { guest: 0, id: 99 });
    for id in 0..3 {
        state.arrive(0, id, 0, 4);
    }
    for id in 0..12 {
        state.arrive(1, id, 0, 1);
    }
    let mut turns = Vec::new();
    let mut flies = (0, 99);
    for _ in 0..15 {
        let Answer::Sent { guest, id, .. } = state.complete(flies.0, flies.1, 0) else {
            panic!("nothing sent");
        };
        flies = (guest, id as u32);
        turns.push(guest);
    }
    assert_eq!(turns, [0, 1, 1, 1, 1].repeat(3));
}

#[test]
fn at_the_ceiling_only_the_next_numbers_pass() {
    let mut state = State::fresh(1, 8, &[guest(1, 1, 1)]);
    state.flight.push(Flight { guest: 0, id: 99 });
    assert_eq!(state.arrive(0, 1, CEILING - 64 * SECOND, 64), Nothing);
    assert_eq!(next_numbers(&state), [CEILING; 3]);
    assert_eq!(state.arrive(0, 2, CEILING, 64), Nothing);
    assert_eq!(next_numbers(&state), [CEILING + 64 * SECOND; 3]);
    assert_eq!(state.arrive(0, 3, CEILING, 1), Refused(9));
    // One nanosecond later the second would have passed.
    let mut state = State::fresh(1, 8, &[guest(0, 1, 1)]);
    state.flight.push(Flight { guest: 0, id: 99 });
    assert_eq!(state.arrive(0, 1, CEILING - 64 * SECOND + 1, 64), Nothing);
    assert_eq!(state.arrive(0, 2, CEILING, 1), Refused(9));
}

#[test]
fn a_credit_is_counted_in_spacings() {
    let t = 1_000 * MS;
    for cost in [1, 64] {
        let mut state = State::fresh(1, 8, &[credited(30, guest(0, 0, 1_000))]);
        state.flight.push(Flight { guest: 0, id: 99 });
        state.arrive(0, 1, t, cost);
        state.arrive(0, 2, t, 1);
        let first = t - 30 * MS;
        assert_eq!(share_tags(&state), [first, first + cost * MS]);
    }
}

/// The gate before there were costs, from the same tables: the next numbers
/// one spacing on, the drop one spacing.
#[test]
fn cost_1_is_the_old_gate() {
    let mut rng = Prng::new(91);
    let (mut arrived, mut dropped) = (0, 0);
    for _ in 0..4_000 {
        let before = all_cost_1(&mut rng);
        let mut state = before.clone();
        let number = rng.below(state.guests.len() as u64);
        let t = (state.time + rng.sized(34)).min(CEILING);
        if state.take_arrival(number, 1 << 20, t, 1).is_err() {
            continue;
        }
        arrived += 1;
        let (g, w) = (
            state.guests[number as usize],
            state.waiting[state.waiting.len() - 1],
        );
        let s = g.settings;
        assert_eq!(g.snext, w.stag + s.share_spacing());
        if s.has_limit() {
            assert_eq!(g.lnext, w.ltag + s.limit_spacing());
        }
        if s.has_reservation() {
            assert_eq!(g.rnext, w.rtag + s.reservation_spacing());
        }
        let found = state.clone();
        if let Answer::Sent {
            phase: Phase::Weight,
            guest,
            ..
        } = state.choose()
        {
            let s = state.guests[guest as usize].settings;
            if s.has_reservation() {
                let was = found.guests[guest as usize].rnext;
                let now = state.guests[guest as usize].rnext;
                assert_eq!(was - now, s.reservation_spacing());
                dropped += 1;
            }
        }
    }
    assert!(arrived > 1_000 && dropped > 50, "{arrived} {dropped}");
}

/// A sound state, brought about by arrivals of cost 1.
fn all_cost_1(rng: &mut Prng) -> State {
    let mut state = read(&sound_tables(rng).view());
    state.waiting.clear();
    for id in 0..rng.below(6) as u32 {
        let guest = rng.below(state.guests.len() as u64);
        let t = state.time;
        let _ = state.take_arrival(guest, 1 << 21 | id, t, 1);
    }
    state
}

/// Costs of all kinds come up where the samples make them.
#[test]
fn the_samples_have_costs_of_all_kinds() {
    let mut rng = Prng::new(92);
    let costs: BTreeSet<u64> = (0..2_000).map(|_| good_cost(&mut rng)).collect();
    assert!(costs.iter().copied().eq(1..=64));
    let costs: BTreeSet<u64> = (0..2_000).map(|_| bad_cost(&mut rng)).collect();
    assert!(costs.iter().all(|cost| *cost == 0 || *cost > 64));
    assert!(costs.contains(&0) && costs.contains(&65) && costs.contains(&u64::MAX));
    let bad = (0..2_000).filter(|_| !(1..65).contains(&any_cost(&mut rng)));
    assert!((20..400).contains(&bad.count()));
    let (mut kept, mut spoiled, mut asked) = (BTreeSet::new(), BTreeSet::new(), BTreeSet::new());
    let kept_in = |t: &Owned| -> Vec<u64> {
        let rows = t.waiting.chunks_exact(WAITING_NUMBERS);
        let used = rows.take(t.gate.get(WAITING).map_or(0, |n| (*n).min(1_024) as usize));
        used.map(|row| row[COST]).collect()
    };
    for _ in 0..4_000 {
        let mut t = sound_tables(&mut rng);
        kept.extend(kept_in(&t));
        let Batch { events, .. } = batch(&mut rng, &t);
        let arrivals = events.chunks_exact(EVENT_NUMBERS);
        let arrivals = arrivals.filter(|row| row[0] == 0);
        asked.extend(arrivals.map(|row| row[4]));
        spoil(&mut rng, &mut t);
        spoiled.extend(kept_in(&t));
    }
    assert!(kept.iter().copied().eq(1..=64));
    assert!(spoiled.contains(&0) && spoiled.contains(&65) && spoiled.last() == Some(&u64::MAX));
    assert!(asked.contains(&0) && asked.contains(&65) && asked.last() == Some(&u64::MAX));
}
