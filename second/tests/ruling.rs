//! The slides' rule for limits: document 02, K7.

mod common;
use common::*;
use second::calls::read;
use second::sample::{sound_tables, Prng};
use second::tables::RULE;
use second::Answer::{self, Nothing, Refused};
use second::{wake, Flight, Phase, Reply, State, CEILING};

/// The replies to document 01's example under a rule.
fn example(rule: u64) -> Vec<Reply> {
    let mut t = opened_under(rule, 4, 8, &[guest(100, 250, 1)]);
    let mut calls: Vec<Call> = (1..=4).map(|id| arrive(0, id, 0, 1)).collect();
    calls.extend([4, 8, 10, 9].map(|ms| Call::Tick(ms * MS)));
    calls.extend([Call::Complete(0, 1, 10 * MS); 2]);
    calls.push(Call::Tick(12 * MS - 1));
    calls.push(Call::Tick(12 * MS));
    let replies = calls.into_iter().map(|c| reply(&mut t.lend(), c)).collect();
    assert_eq!(t.gate[RULE], rule);
    replies
}

#[test]
fn event_seven_waits_for_its_limit_under_rule_2() {
    let replies = example(2);
    let answers: Vec<Answer> = replies.iter().map(|r| r.answer).collect();
    let wanted = [
        reservation(0, 1),
        Nothing,
        Nothing,
        Nothing,
        weight(0, 2),
        weight(0, 3),
        Nothing,
        Refused(6),
        Nothing,
        Refused(10),
        Nothing,
        // Both are due then: it goes by reservation.
        reservation(0, 4),
    ];
    assert_eq!(answers, wanted);
    // By neither phase before its limit: woken at 12 ms, not at 10 ms.
    let woken: Vec<_> = replies[5..11].iter().map(|r| r.wake).collect();
    let limit = Some(12 * MS);
    assert_eq!(woken, [limit, limit, None, limit, None, limit]);
}

#[test]
fn under_rule_1_it_does_not() {
    let replies = example(1);
    assert_eq!(replies[5].wake, Some(10 * MS));
    assert_eq!(replies[6].answer, reservation(0, 4));
}

/// Three guests with reservations, the array full.
fn three() -> State {
    let settings = [guest(10, 0, 1), guest(10, 10, 1), guest(10, 20, 1)];
    let mut state = State::fresh_under(2, 1, 8, &settings);
    state.flight.push(Flight { guest: 0, id: 9 });
    for number in 0..3 {
        state.arrive(number, 1, 0, 1);
    }
    state
}

#[test]
fn the_smallest_among_the_open() {
    let mut state = three();
    state.waiting[0].rtag = 7;
    state.waiting[1].ltag = 21;
    state.waiting[1].rtag = 5;
    state.waiting[2].rtag = 6;
    state.waiting[2].ltag = 20;
    // Guest 1 has the smallest reservation tag, but its limit lies ahead.
    let sent_at = |t| state.clone().complete(0, 9, t);
    assert_eq!(sent_at(19), reservation(0, 1));
    assert_eq!(sent_at(20), reservation(2, 1));
    assert_eq!(sent_at(21), reservation(1, 1));
    state.rule = 1;
    assert_eq!(state.clone().complete(0, 9, 19), reservation(1, 1));
}

#[test]
fn with_its_limit_ahead_another_may_go_by_weight() {
    let mut state = three();
    state.waiting[0].rtag = 50;
    state.waiting[1].ltag = 40;
    state.waiting[2].ltag = 40;
    assert_eq!(state.complete(0, 9, 30), weight(0, 1));
    // Due by reservation, but closed: no weight send of theirs either.
    state.flight.clear();
    assert_eq!(state.tick(39), Nothing);
    assert_eq!(wake(&state), Some(40));
    assert_eq!(state.tick(40), reservation(1, 1));
}

#[test]
fn ties_still_go_to_the_earlier_accepted() {
    let mut state = three();
    state.waiting.swap(0, 2);
    assert_eq!(state.complete(0, 9, 0), reservation(2, 1));
}

/// Under rule 2 no send passes its limit tag, by either phase; and where no
/// limit lies ahead of a due reservation, the rules do the same.
#[test]
fn no_send_passes_its_limit() {
    let mut rng = Prng::new(81);
    let (mut sent, mut alike, mut apart) = (0, 0, 0);
    for _ in 0..5_000 {
        let mut two = read(&sound_tables(&mut rng).view());
        two.rule = 2;
        let t = (two.time + rng.sized(34)).min(CEILING);
        let mut one = two.clone();
        one.rule = 1;
        let found = two.clone();
        let (of_one, of_two) = (one.tick(t), two.tick(t));
        let ahead = |guest: u64, id: u64| {
            let w = found
                .waiting
                .iter()
                .find(|w| (w.guest, w.id) == (guest, id));
            found.guests[guest as usize].settings.has_limit() && w.unwrap().ltag > t
        };
        if let Answer::Sent { guest, id, .. } = of_two {
            sent += 1;
            assert!(!ahead(guest, id));
        }
        match of_one {
            Answer::Sent { guest, id, phase } if ahead(guest, id) => {
                assert_eq!(phase, Phase::Reservation);
                assert!(of_one != of_two);
                apart += 1;
            }
            _ => {
                assert_eq!(of_one, of_two);
                one.rule = 2;
                assert_eq!(one, two);
                alike += 1;
            }
        }
    }
    let many = sent > 1_000 && alike > 1_000 && apart > 100;
    assert!(many, "{sent} {alike} {apart}");
}
