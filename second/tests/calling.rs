//! The library calls: opening, lengths, the order of refusals, and what is
//! left alone.

mod common;
use common::*;
use second::numbers::SECOND;
use second::sample::{any_cost, any_spread, sound_tables, spoil, Owned, Prng};
use second::tables::*;
use second::Answer::{Nothing, Refused};
use second::{first_broken, Answer, Tables, CEILING, NEVER};

const SETTINGS: [u64; 2 * SETTINGS_NUMBERS] = [100, 250, 1, 9, 0, 0, 7, 256];

/// The answer to an opening with rule 1.
fn open(depth: u64, guests: u64, capacity: u64, settings: &[u64], lent: &mut Tables) -> Answer {
    open_under(1, [depth, guests, capacity], settings, lent)
}

/// The answer to an opening, which never has a time to wake.
fn open_under(rule: u64, counts: [u64; 3], settings: &[u64], lent: &mut Tables) -> Answer {
    let [depth, guests, capacity] = counts;
    let reply = second::open(depth, guests, capacity, rule, settings, lent);
    assert_eq!(reply.wake, None);
    let number = if refused(reply.answer) { 0 } else { NEVER };
    assert_eq!(reply.wake_number(), number);
    reply.answer
}

/// Depth 2, two guests, capacity 3, and one place more in every table.
fn room() -> Owned {
    dusty(2, 2, 3, 1)
}

#[test]
fn opening_writes_a_fresh_table_and_nothing_beyond() {
    let mut t = room();
    assert_eq!(open(2, 2, 3, &SETTINGS, &mut t.lend()), Nothing);
    assert_eq!(t.gate, [2, 2, 3, 0, 0, 0, 1, 77]);
    assert_eq!(
        t.guests,
        [100, 250, 1, 0, 0, 0, 9, 0, 0, 7, 0, 0, 0, 256, 77]
    );
    let mut waiting = vec![0; 3 * WAITING_NUMBERS];
    waiting.push(77);
    assert_eq!(t.waiting, waiting);
    assert_eq!(t.flight, [0, 0, 0, 0, 77]);
    assert_eq!(first_broken(&t.view()), None);
}

#[test]
fn opening_counts_then_lengths_then_settings() {
    let mut t = room();
    let before = t.clone();
    for (depth, guests, capacity) in [
        (0, 2, 3),
        (65, 2, 3),
        (2, 0, 3),
        (2, 65, 3),
        (2, 2, 0),
        (2, 2, 1_025),
        (u64::MAX, u64::MAX, u64::MAX),
    ] {
        let answer = open(depth, guests, capacity, &[], &mut t.lend());
        assert_eq!(answer, Refused(1));
    }
    for rule in [0, 3, 256, u64::MAX] {
        let answer = open_under(rule, [2, 2, 3], &[], &mut t.lend());
        assert_eq!(answer, Refused(1));
    }
    for rule in [1, 2] {
        let answer = open_under(rule, [2, 2, 3], &[], &mut t.lend());
        assert_eq!(answer, Refused(2));
    }
    let bad = [9, 8, 1, 0, 0, 0, 0, 0];
    assert_eq!(
        open(2, 2, 3, &bad[..2 * SETTINGS_NUMBERS - 1], &mut t.lend()),
        Refused(2)
    );
    assert_eq!(open(2, 2, 4, &bad, &mut t.lend()), Refused(2));
    assert_eq!(open(3, 2, 3, &bad, &mut t.lend()), Refused(2));
    assert_eq!(
        open(2, 3, 3, &[1; 3 * SETTINGS_NUMBERS], &mut t.lend()),
        Refused(2)
    );
    assert_eq!(open(2, 2, 3, &bad, &mut t.lend()), Refused(1));
    // The last guest's settings are judged too, numbers of any size.
    for bad in [
        [100, 250, 1, 0, 0, 0, 0, 0],
        [100, 250, 1, 0, 0, 0, 1_000_001, 0],
        [100, 250, 1, 0, 1_000_001, 0, 1, 0],
        [100, 250, 1, 0, 0, u64::MAX, 1, 0],
        [100, 250, 1, 0, 3, 2, 1, 0],
        [100, 250, 1, 257, 0, 0, 1, 0],
        [100, 250, 1, 0, 0, 0, 1, 257],
        [100, 250, 1, 0, 0, 0, 1, u64::MAX],
    ] {
        assert_eq!(open(2, 2, 3, &bad, &mut t.lend()), Refused(1));
    }
    assert_eq!(t, before);
    t.gate.truncate(GATE_NUMBERS - 1);
    assert_eq!(open(2, 2, 3, &SETTINGS, &mut t.lend()), Refused(2));
}

#[test]
fn opening_reads_no_settings_beyond_the_guests() {
    let mut t = room();
    let mut settings = SETTINGS.to_vec();
    settings.extend([u64::MAX; 4]);
    assert_eq!(open(2, 2, 3, &settings, &mut t.lend()), Nothing);
}

fn calls(guest: u64, id: u32, time: u64) -> [Call; 3] {
    [
        arrive(guest, id, time, 1),
        Call::Complete(guest, id, time),
        Call::Tick(time),
    ]
}

#[test]
fn short_tables_and_counts_out_of_range() {
    let full = opened(2, 3, &[guest(1, 1, 1), guest(0, 0, 7)]);
    let with = |change: &dyn Fn(&mut Owned)| {
        let mut t = full.clone();
        change(&mut t);
        let before = t.clone();
        let answers = calls(9, 1, u64::MAX).map(|c| call(&mut t.lend(), c));
        assert_eq!(t, before);
        assert!(answers[0] == answers[1] && answers[1] == answers[2]);
        answers[0]
    };
    assert_eq!(with(&|t| t.gate.truncate(GATE_NUMBERS - 1)), Refused(2));
    assert_eq!(with(&|t| t.gate.clear()), Refused(2));
    assert_eq!(with(&|t| t.guests.truncate(guest_at(2, 0) - 1)), Refused(2));
    assert_eq!(
        with(&|t| t.waiting.truncate(waiting_at(3, 0) - 1)),
        Refused(2)
    );
    assert_eq!(
        with(&|t| t.flight.truncate(flight_at(2, 0) - 1)),
        Refused(2)
    );
    // Out of range gives 3 at once, though the lengths would not do.
    for (place, most) in [(DEPTH, 64), (GUESTS, 64), (CAPACITY, 1_024)] {
        for number in [0, most + 1, u64::MAX] {
            let short = |t: &mut Owned| {
                t.gate[place] = number;
                t.guests.clear();
                t.waiting.clear();
                t.flight.clear();
            };
            assert_eq!(with(&short), Refused(3));
        }
        // In range, lengths come before the rest of soundness.
        let needs_more = |t: &mut Owned| {
            t.gate[place] = most;
            t.gate[TIME] = u64::MAX;
        };
        assert_eq!(with(&needs_more), Refused(2));
    }
    assert_eq!(with(&|t| t.gate[TIME] = u64::MAX), Refused(3));
    // A rule that is none comes after the lengths.
    for rule in [0, 3, u64::MAX] {
        let short = |t: &mut Owned| {
            t.gate[RULE] = rule;
            t.flight.pop();
        };
        assert_eq!(with(&|t| t.gate[RULE] = rule), Refused(3));
        assert_eq!(with(&short), Refused(2));
    }
}

/// One guest waits with id 1 and has id 0 in flight; capacity 1.
fn busy() -> Owned {
    let mut t = opened(1, 1, &[guest(0, 0, 1), guest(0, 1, 1)]);
    call(&mut t.lend(), arrive(0, 0, 10, 1));
    call(&mut t.lend(), arrive(0, 1, 10, 1));
    t
}

fn answer_of(t: &Owned, c: Call) -> second::Answer {
    let mut t = t.clone();
    let before = t.clone();
    let answer = call(&mut t.lend(), c);
    assert_eq!(refused(answer), t == before);
    answer
}

#[test]
fn refusals_come_in_order() {
    let t = busy();
    let mut high = t.clone();
    // Guest 1's next limit number lies past the ceiling: 9 for any arrival.
    high.guests[guest_at(1, LNEXT)] = CEILING + SECOND;
    let mut unsound = high.clone();
    unsound.gate[TIME] = CEILING + 1;
    let past = CEILING + 1;
    for c in calls(2, 0, past) {
        assert_eq!(answer_of(&unsound, c), Refused(3));
    }
    assert_eq!(answer_of(&high, arrive(2, 0, past, 1)), Refused(4));
    assert_eq!(answer_of(&high, Call::Complete(2, 9, 0)), Refused(4));
    assert_eq!(answer_of(&high, arrive(0, 0, past, 1)), Refused(5));
    assert_eq!(answer_of(&high, Call::Complete(0, 9, past)), Refused(5));
    assert_eq!(answer_of(&high, Call::Tick(past)), Refused(5));
    assert_eq!(answer_of(&high, arrive(0, 0, 9, 1)), Refused(6));
    assert_eq!(answer_of(&high, Call::Complete(0, 9, 9)), Refused(6));
    assert_eq!(answer_of(&high, Call::Tick(9)), Refused(6));
    // A bad cost comes before a repeated id and a full table.
    for cost in [0, 65, 256 + 1, u64::MAX] {
        assert_eq!(answer_of(&high, arrive(2, 0, past, cost)), Refused(4));
        assert_eq!(answer_of(&high, arrive(0, 0, past, cost)), Refused(5));
        assert_eq!(answer_of(&high, arrive(0, 0, 9, cost)), Refused(6));
        assert_eq!(answer_of(&high, arrive(0, 0, 10, cost)), Refused(18));
        assert_eq!(answer_of(&high, arrive(1, 0, 10, cost)), Refused(18));
        assert_eq!(answer_of(&unsound, arrive(1, 0, 10, cost)), Refused(3));
    }
    // A bad delta or rho comes right behind it.
    for spread in [[0, 0], [1, 2], [65_536, 1], [u64::MAX, 0], [1, u64::MAX]] {
        let spread_at = |guest, time, cost| Call::Arrive(guest, 0, time, cost, spread);
        assert_eq!(answer_of(&unsound, spread_at(1, 10, 1)), Refused(3));
        assert_eq!(answer_of(&high, spread_at(2, past, 1)), Refused(4));
        assert_eq!(answer_of(&high, spread_at(0, past, 1)), Refused(5));
        assert_eq!(answer_of(&high, spread_at(0, 9, 1)), Refused(6));
        assert_eq!(answer_of(&high, spread_at(0, 10, 65)), Refused(18));
        assert_eq!(answer_of(&high, spread_at(0, 10, 1)), Refused(20));
        assert_eq!(answer_of(&high, spread_at(1, 10, 1)), Refused(20));
    }
    // In flight and waiting; the table is full.
    assert_eq!(answer_of(&high, arrive(0, 0, 10, 1)), Refused(7));
    assert_eq!(answer_of(&high, arrive(0, 1, 10, 1)), Refused(7));
    // Full, and it would pass the ceiling.
    assert_eq!(answer_of(&high, arrive(1, 0, 10, 1)), Refused(8));
    // Waiting is not in flight; another guest's id is not one's own.
    assert_eq!(answer_of(&high, Call::Complete(0, 1, 10)), Refused(10));
    assert_eq!(answer_of(&high, Call::Complete(1, 0, 10)), Refused(10));
    assert_eq!(answer_of(&high, Call::Complete(0, 0, 10)), weight(0, 1));
    let mut freed = high.clone();
    call(&mut freed.lend(), Call::Complete(0, 0, 10));
    assert_eq!(answer_of(&freed, arrive(1, 0, 10, 1)), Refused(9));
    assert_eq!(answer_of(&freed, arrive(0, 0, 10, 1)), Nothing);
}

#[test]
fn a_send_closes_up_and_leaves_zeros() {
    let mut t = opened(2, 3, &[guest(0, 0, 1), guest(0, 0, 1)]);
    t.waiting.push(5);
    t.flight.push(6);
    for id in 1..=4 {
        call(&mut t.lend(), arrive(0, id, 0, 1));
    }
    call(&mut t.lend(), arrive(1, 1, 0, 1));
    assert_eq!(t.gate, [2, 2, 3, 0, 3, 2, 1]);
    assert_eq!(t.flight, [0, 1, 0, 2, 6]);
    assert_eq!(
        t.waiting,
        [0, 3, 0, 0, 0, 1, 0, 4, 0, 0, SECOND, 1, 1, 1, 0, 0, 0, 1, 5]
    );
    assert_eq!(call(&mut t.lend(), Call::Complete(0, 1, 0)), weight(0, 3));
    assert_eq!(t.gate, [2, 2, 3, 0, 2, 2, 1]);
    assert_eq!(t.flight, [0, 2, 0, 3, 6]);
    assert_eq!(
        t.waiting,
        [0, 4, 0, 0, SECOND, 1, 1, 1, 0, 0, 0, 1, 0, 0, 0, 0, 0, 0, 5]
    );
    // A later one is sent and those before it stay.
    assert_eq!(call(&mut t.lend(), Call::Complete(0, 2, 0)), weight(1, 1));
    assert_eq!(
        t.waiting[..waiting_at(2, 0)],
        [0, 4, 0, 0, SECOND, 1, 0, 0, 0, 0, 0, 0]
    );
    assert_eq!(call(&mut t.lend(), Call::Complete(1, 1, 7)), weight(0, 4));
    assert_eq!(call(&mut t.lend(), Call::Complete(0, 4, 7)), Nothing);
    assert_eq!(t.gate, [2, 2, 3, 7, 0, 1, 1]);
    assert_eq!(t.flight, [0, 3, 0, 0, 6]);
}

fn any_call(rng: &mut Prng) -> Call {
    let guest = if rng.chance(80) {
        rng.below(3)
    } else {
        rng.sized(64)
    };
    let time = match rng.below(3) {
        0 => rng.sized(64),
        1 => CEILING - rng.sized(34),
        _ => rng.pick(&[0, CEILING, CEILING + 1, u64::MAX]),
    };
    let id = rng.sized(32) as u32;
    let (cost, spread) = (any_cost(rng), any_spread(rng));
    rng.pick(&[
        Call::Arrive(guest, id, time, cost, spread),
        Call::Complete(guest, id, time),
        Call::Tick(time),
    ])
}

fn any_numbers(rng: &mut Prng) -> Vec<u64> {
    let length = rng.below(30);
    let bits = rng.pick(&[1, 3, 64]);
    (0..length).map(|_| rng.sized(bits)).collect()
}

#[test]
fn tables_of_any_length_and_content_are_judged() {
    let mut rng = Prng::new(21);
    for _ in 0..20_000 {
        let mut t = Owned {
            gate: any_numbers(&mut rng),
            guests: any_numbers(&mut rng),
            waiting: any_numbers(&mut rng),
            flight: any_numbers(&mut rng),
        };
        let before = t.clone();
        let c = any_call(&mut rng);
        let answer = call(&mut t.lend(), c);
        if refused(answer) {
            assert_eq!(t, before);
        } else {
            assert_eq!(first_broken(&before.view()), None);
            assert_eq!(first_broken(&t.view()), None);
        }
    }
}

#[test]
fn spoiled_tables_are_refused_unchanged_or_stay_sound() {
    let mut rng = Prng::new(22);
    for _ in 0..6_000 {
        let mut t = sound_tables(&mut rng);
        for _ in 0..rng.below(3) {
            spoil(&mut rng, &mut t);
        }
        let before = t.clone();
        let c = any_call(&mut rng);
        let answer = call(&mut t.lend(), c);
        if refused(answer) {
            assert_eq!(t, before);
        } else {
            assert_eq!(first_broken(&t.view()), None);
        }
    }
}

#[test]
fn opening_with_anything_is_refused_unchanged_or_fresh() {
    let mut rng = Prng::new(23);
    for _ in 0..20_000 {
        let mut t = Owned {
            gate: any_numbers(&mut rng),
            guests: any_numbers(&mut rng),
            waiting: any_numbers(&mut rng),
            flight: any_numbers(&mut rng),
        };
        let before = t.clone();
        let settings = any_numbers(&mut rng);
        let bits = rng.pick(&[2, 7, 64]);
        let counts = [rng.sized(bits), rng.sized(bits), rng.sized(bits)];
        let [depth, guests, capacity] = counts;
        let rule = rng.between(0, 3);
        let answer = open_under(rule, counts, &settings, &mut t.lend());
        if refused(answer) {
            assert_eq!(t, before);
        } else {
            assert_eq!(first_broken(&t.view()), None);
            let gate = [depth, guests, capacity, 0, 0, 0, rule];
            assert_eq!(t.gate[..GATE_NUMBERS], gate);
            assert_eq!(
                t.waiting[waiting_at(capacity as usize, 0)..],
                before.waiting[waiting_at(capacity as usize, 0)..]
            );
        }
    }
}
