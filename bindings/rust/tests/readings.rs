//! Document 01's example and edge readings, each refusal, when to tick, credit for bursts, the two rules for limits,
//! costs, delta and rho, and many events in one call, through the wrapper.

#![allow(clippy::unnecessary_wraps)] // what a call must give is compared as it is given

use sgq::{raw, Answer, Event, Flight, Gate, Guest, Outcome, Phase, Refusal, Request, Rule};
use sgq::{Settings, MOST_COST, MOST_DELTA};
use sgq::{CEILING, MOST_CAPACITY, MOST_CREDIT, MOST_DEPTH, MOST_EVENTS, MOST_GUESTS, MOST_RATE};

const MS: u64 = 1_000_000;

fn settings(reservation: u64, limit: u64, shares: u64) -> Settings {
    Settings {
        reservation,
        limit,
        shares,
        credit: 0,
    }
}

/// A guest without reservation and limit.
fn credited(shares: u64, credit: u64) -> Settings {
    let plain = settings(0, 0, shares);
    Settings { credit, ..plain }
}

/// An outcome with no time to wake.
fn never(answer: Answer) -> Result<Outcome, Refusal> {
    Ok(Outcome { answer, wake: None })
}

fn by_reservation(guest: u64, id: u32) -> Result<Outcome, Refusal> {
    let phase = Phase::Reservation;
    never(Answer::Sent { phase, guest, id })
}

fn by_weight(guest: u64, id: u32) -> Result<Outcome, Refusal> {
    let phase = Phase::Weight;
    never(Answer::Sent { phase, guest, id })
}

const NOTHING: Result<Outcome, Refusal> = Ok(Outcome {
    answer: Answer::Nothing,
    wake: None,
});

/// The same outcome with a time to wake.
fn until(time: u64, outcome: Result<Outcome, Refusal>) -> Result<Outcome, Refusal> {
    let wake = Some(time);
    outcome.map(|outcome| Outcome { wake, ..outcome })
}

/// A gate under rule 1.
fn open(depth: u64, capacity: u64, guests: &[Settings]) -> Gate {
    Gate::open(depth, capacity, Rule::One, guests).expect("good settings")
}

/// Holds a refused call to its refusal, and the gate to what it was.
fn refused(
    gate: &mut Gate,
    refusal: Refusal,
    call: impl FnOnce(&mut Gate) -> Result<Outcome, Refusal>,
) {
    let before = gate.clone();
    assert_eq!(call(gate), Err(refusal));
    assert_eq!(*gate, before);
}

#[test]
fn example() {
    let mut gate = open(4, 8, &[settings(100, 250, 1)]);
    assert_eq!(gate.arrive(0, 1, 0, 1), by_reservation(0, 1));
    assert_eq!(gate.arrive(0, 2, 0, 1), until(4 * MS, NOTHING));
    assert_eq!(gate.arrive(0, 3, 0, 1), until(4 * MS, NOTHING));
    assert_eq!(gate.arrive(0, 4, 0, 1), until(4 * MS, NOTHING));
    assert_eq!(gate.tick(4 * MS), until(8 * MS, by_weight(0, 2)));
    assert_eq!(gate.tick(8 * MS), until(10 * MS, by_weight(0, 3)));
    assert_eq!(gate.tick(10 * MS), by_reservation(0, 4));
    refused(&mut gate, Refusal::TimeBeforeLast, |gate| gate.tick(9 * MS));
    assert_eq!(gate.complete(0, 1, 10 * MS), NOTHING);
    refused(&mut gate, Refusal::NotInFlight, |gate| {
        gate.complete(0, 1, 10 * MS)
    });
}

/// The same under rule 2: id 4 is due by reservation at 10 ms, its limit tag is 12 ms, and it waits until then.
#[test]
fn example_under_rule_2() {
    let guests = [settings(100, 250, 1)];
    let mut gate = Gate::open(4, 8, Rule::Two, &guests).expect("good settings");
    assert_eq!(gate.rule(), Rule::Two);
    assert_eq!(gate.arrive(0, 1, 0, 1), by_reservation(0, 1));
    for id in [2, 3, 4] {
        assert_eq!(gate.arrive(0, id, 0, 1), until(4 * MS, NOTHING));
    }
    assert_eq!(gate.tick(4 * MS), until(8 * MS, by_weight(0, 2)));
    assert_eq!(gate.tick(8 * MS), until(12 * MS, by_weight(0, 3)));
    assert_eq!(gate.tick(10 * MS), until(12 * MS, NOTHING));
    refused(&mut gate, Refusal::TimeBeforeLast, |gate| gate.tick(9 * MS));
    assert_eq!(gate.complete(0, 1, 10 * MS), until(12 * MS, NOTHING));
    refused(&mut gate, Refusal::NotInFlight, |gate| {
        gate.complete(0, 1, 10 * MS)
    });
    assert_eq!(gate.tick(12 * MS), by_reservation(0, 4));
}

/// At 10 ms A's id 4 and B's id 2 are due by reservation, A's accepted first, and A's limit lies 2 ms ahead.
#[test]
fn another_goes_under_rule_2() {
    let guests = [settings(100, 250, 1), settings(100, 0, 1)];
    for (rule, sent) in [(Rule::One, (0, 4)), (Rule::Two, (1, 2))] {
        let mut gate = Gate::open(4, 8, rule, &guests).expect("good settings");
        assert_eq!(gate.rule(), rule);
        assert_eq!(gate.arrive(0, 1, 0, 1), by_reservation(0, 1));
        for id in [2, 3, 4] {
            assert_eq!(gate.arrive(0, id, 0, 1), until(4 * MS, NOTHING));
        }
        assert_eq!(gate.arrive(1, 1, 0, 1), until(4 * MS, by_reservation(1, 1)));
        assert_eq!(gate.tick(4 * MS), until(8 * MS, by_weight(0, 2)));
        assert_eq!(gate.tick(8 * MS), by_weight(0, 3));
        assert_eq!(gate.arrive(1, 2, 9 * MS, 1), NOTHING);
        let (guest, id) = sent;
        let answer = gate.complete(0, 1, 10 * MS);
        assert_eq!(answer, by_reservation(guest, id));
    }
}

/// A with shares 1 and B with shares 2 at depth 1; A's ids 1, 2, 3 at 0.
fn two_guests() -> Gate {
    let mut gate = open(1, 8, &[settings(0, 0, 1), settings(0, 0, 2)]);
    assert_eq!(gate.arrive(0, 1, 0, 1), by_weight(0, 1));
    assert_eq!(gate.arrive(0, 2, 0, 1), NOTHING);
    assert_eq!(gate.arrive(0, 3, 0, 1), NOTHING);
    assert_eq!(share_tags(&gate), [0, 1_000 * MS]);
    gate
}

fn share_tags(gate: &Gate) -> Vec<u64> {
    gate.waiting().iter().map(|request| request.stag).collect()
}

#[test]
fn shares_at_100_ms() {
    let mut gate = two_guests();
    assert_eq!(gate.arrive(1, 1, 100 * MS, 1), NOTHING);
    assert_eq!(share_tags(&gate), [100 * MS, 1_100 * MS, 100 * MS]);
    assert_eq!(gate.complete(0, 1, 100 * MS), by_weight(0, 2));
    assert_eq!(gate.complete(0, 2, 100 * MS), by_weight(1, 1));
}

#[test]
fn shares_at_1500_ms() {
    let mut gate = two_guests();
    assert_eq!(gate.arrive(1, 1, 1_500 * MS, 1), NOTHING);
    assert_eq!(share_tags(&gate), [1_500 * MS, 2_500 * MS, 1_500 * MS]);
}

#[test]
fn spacings() {
    let mut gate = open(1, 8, &[settings(3, 3, 300)]);
    assert_eq!(gate.arrive(0, 1, 0, 1), by_reservation(0, 1));
    let guest = gate.guests()[0];
    let expected = Guest {
        reservation: 3,
        limit: 3,
        shares: 300,
        rnext: 333_333_333,
        lnext: 333_333_334,
        snext: 3_333_333,
        credit: 0,
    };
    assert_eq!(guest, expected);
}

#[test]
fn ceiling() {
    let mut gate = open(1, 8, &[settings(0, 0, 1)]);
    refused(&mut gate, Refusal::TimeAboveCeiling, |gate| {
        gate.tick(CEILING + 1)
    });
    assert_eq!(gate.arrive(0, 1, CEILING, 1), by_weight(0, 1));
    assert_eq!(gate.arrive(0, 2, CEILING, 1), NOTHING);
    refused(&mut gate, Refusal::TagAboveCeiling, |gate| {
        gate.arrive(0, 3, CEILING, 1)
    });
    assert_eq!(gate.time(), CEILING);
}

#[test]
fn ceiling_with_a_reservation_or_a_limit() {
    for (guest, first) in [
        (settings(1, 0, 1), by_reservation(0, 1)),
        (settings(0, 1, 1), by_weight(0, 1)),
    ] {
        let mut gate = open(2, 8, &[guest]);
        assert_eq!(gate.arrive(0, 1, CEILING, 1), first);
        refused(&mut gate, Refusal::TagAboveCeiling, |gate| {
            gate.arrive(0, 2, CEILING, 1)
        });
    }
}

#[test]
fn capacity_1_depth_1() {
    let mut gate = open(1, 1, &[settings(0, 0, 1)]);
    assert_eq!(gate.arrive(0, 1, 0, 1), by_weight(0, 1));
    assert_eq!(gate.arrive(0, 2, 0, 1), NOTHING);
    refused(&mut gate, Refusal::WaitingFull, |gate| {
        gate.arrive(0, 3, 0, 1)
    });
    assert_eq!(gate.complete(0, 1, 0), by_weight(0, 2));
    assert_eq!(gate.arrive(0, 3, 0, 1), NOTHING);
}

#[test]
fn guest_64_of_64() {
    let mut gate = open(2, 2, &[settings(0, 0, 1); 64]);
    assert_eq!(gate.arrive(63, 1, 0, 1), by_weight(63, 1));
    refused(&mut gate, Refusal::UnknownGuest, |gate| {
        gate.arrive(64, 1, 0, 1)
    });
    refused(&mut gate, Refusal::UnknownGuest, |gate| {
        gate.complete(u64::MAX, 1, 0)
    });
}

#[test]
fn an_id_in_use() {
    let mut gate = open(1, 4, &[settings(0, 0, 1)]);
    assert_eq!(gate.arrive(0, u32::MAX, 0, 1), by_weight(0, u32::MAX));
    assert_eq!(gate.arrive(0, 2, 0, 1), NOTHING);
    for id in [u32::MAX, 2] {
        refused(&mut gate, Refusal::IdInUse, |gate| gate.arrive(0, id, 0, 1));
    }
    assert_eq!(gate.complete(0, u32::MAX, 0), by_weight(0, 2));
    assert_eq!(gate.arrive(0, u32::MAX, 0, 1), NOTHING);
}

#[test]
fn bad_settings() {
    let good = settings(5, 5, 1);
    let opened =
        |depth, capacity, guests: &[Settings]| Gate::open(depth, capacity, Rule::Two, guests).err();
    let most = usize::try_from(MOST_GUESTS).expect("it fits");
    let guests = vec![good; most + 1];
    assert_eq!(opened(MOST_DEPTH, MOST_CAPACITY, &guests[..most]), None);
    for depth in [0, MOST_DEPTH + 1, u64::MAX] {
        assert_eq!(opened(depth, 1, &[good]), Some(Refusal::Setting));
    }
    for capacity in [0, MOST_CAPACITY + 1, u64::MAX] {
        assert_eq!(opened(1, capacity, &[good]), Some(Refusal::Setting));
    }
    assert_eq!(opened(1, 1, &[]), Some(Refusal::Setting));
    assert_eq!(opened(1, 1, &guests), Some(Refusal::Setting));
    for bad in [
        settings(6, 5, 1),
        settings(0, 0, 0),
        settings(0, MOST_RATE + 1, 1),
        credited(1, MOST_CREDIT + 1),
        credited(1, u64::MAX),
    ] {
        assert_eq!(opened(1, 1, &[good, bad]), Some(Refusal::Setting));
    }
    assert_eq!(opened(1, 1, &[credited(1, MOST_CREDIT)]), None);
}

/// A's two wait since 0. B, with shares 10 and credit 3, comes at 1,000 ms with five: the first three lie back.
#[test]
fn a_burst() {
    let mut gate = open(1, 8, &[settings(0, 0, 1), credited(10, 3)]);
    assert_eq!(gate.arrive(0, 1, 0, 1), by_weight(0, 1));
    for (guest, id, time) in [(0, 2, 0), (0, 3, 0)] {
        assert_eq!(gate.arrive(guest, id, time, 1), NOTHING);
    }
    for id in 1..=5 {
        assert_eq!(gate.arrive(1, id, 1_000 * MS, 1), NOTHING);
    }
    let tags = [1_000, 2_000, 700, 800, 900, 1_000, 1_100];
    assert_eq!(share_tags(&gate), tags.map(|tag| tag * MS));
    let mut done = (0, 1);
    for next in [(1, 1), (1, 2), (1, 3), (0, 2), (1, 4), (1, 5), (0, 3)] {
        let sent = by_weight(next.0, next.1);
        assert_eq!(gate.complete(done.0, done.1, 1_000 * MS), sent);
        done = next;
    }
}

/// Each goes at once, so the guest is idle again: credit is used up one spacing at a time, and then the tag is the time.
#[test]
fn credit_of_an_idle_guest() {
    let mut gate = open(8, 8, &[credited(1, 2)]);
    let mut nexts = Vec::new();
    for id in 1..=4 {
        assert_eq!(gate.arrive(0, id, 5_000 * MS, 1), by_weight(0, id));
        nexts.push(gate.guests()[0].snext / MS);
    }
    assert_eq!(nexts, [4_000, 5_000, 6_000, 6_000]);
    assert_eq!(gate.guests()[0].credit, 2);
}

/// Before c spacings have passed the first tag is 0; and what stood in line for long lies no further back than the credit.
#[test]
fn where_credit_ends() {
    let mut gate = open(1, 8, &[settings(0, 0, 1), credited(10, 3)]);
    assert_eq!(gate.arrive(0, 1, 0, 1), by_weight(0, 1));
    assert_eq!(gate.arrive(1, 1, 200 * MS, 1), NOTHING);
    assert_eq!(gate.arrive(1, 2, 9_000 * MS, 1), NOTHING);
    assert_eq!(share_tags(&gate), [0, 8_700 * MS]);
}

/// The second at 2^62 - 1, the first still waiting, is refused without credit. With two it is not: there is room below.
#[test]
fn ceiling_with_credit() {
    for (credit, last) in [(0, 3), (1, 3), (2, 4)] {
        let mut gate = open(1, 8, &[credited(1, credit)]);
        assert_eq!(gate.arrive(0, 1, CEILING, 1), by_weight(0, 1));
        for id in 2..last {
            assert_eq!(gate.arrive(0, id, CEILING, 1), NOTHING);
        }
        refused(&mut gate, Refusal::TagAboveCeiling, |gate| {
            gate.arrive(0, last, CEILING, 1)
        });
    }
}

/// A next number lies as many spacings behind the tag as the request costs; the tags do not read it.
#[test]
fn next_numbers_by_cost() {
    for cost in [1, 2, 63, MOST_COST] {
        let mut gate = open(1, 8, &[settings(3, 3, 300)]);
        assert_eq!(gate.arrive(0, 1, 5, cost), by_reservation(0, 1));
        let guest = gate.guests()[0];
        let nexts = [333_333_333, 333_333_334, 3_333_333].map(|spacing| 5 + cost * spacing);
        assert_eq!([guest.rnext, guest.lnext, guest.snext], nexts);
        assert_eq!(gate.arrive(0, 2, 5, MOST_COST), NOTHING);
        let request = gate.waiting()[0];
        let [rtag, ltag, _] = nexts;
        assert_eq!((request.rtag, request.ltag), (rtag, ltag));
        assert_eq!((request.stag, request.cost), (5, MOST_COST));
    }
}

/// Two guests of the same shares: A's plates cost 4, B's bids 1. Behind each plate four bids go.
#[test]
fn shares_by_cost() {
    let mut gate = open(1, 16, &[settings(0, 0, 10), settings(0, 0, 10)]);
    assert_eq!(gate.arrive(0, 0, 0, 4), by_weight(0, 0));
    for id in 1..=2 {
        assert_eq!(gate.arrive(0, id, 0, 4), NOTHING);
    }
    for id in 1..=8 {
        assert_eq!(gate.arrive(1, id, 0, 1), NOTHING);
    }
    assert_eq!(share_tags(&gate)[..3], [0, 400 * MS, 0]);
    let mut done = (0, 0);
    let bids = |from| (from..from + 4).map(|id| (1, id));
    let order = [(0, 1)].into_iter().chain(bids(1));
    for (guest, id) in order.chain([(0, 2)]).chain(bids(5)) {
        let sent = by_weight(guest, id);
        assert_eq!(gate.complete(done.0, done.1, 0), sent);
        done = (guest, id);
    }
}

/// One in 100 ms reserved. Id 2 costs 3 and goes by weight: the reservation of what is behind it drops by 300 ms.
#[test]
fn drop_by_cost() {
    let mut gate = open(1, 8, &[settings(10, 0, 1)]);
    assert_eq!(gate.arrive(0, 1, 0, 1), by_reservation(0, 1));
    for (id, cost) in [(2, 3), (3, 2), (4, 1)] {
        assert_eq!(gate.arrive(0, id, 0, cost), NOTHING);
    }
    let tags = |gate: &Gate| -> Vec<u64> {
        let waiting = gate.waiting().iter();
        waiting.map(|request| request.rtag / MS).collect()
    };
    assert_eq!(tags(&gate), [100, 400, 600]);
    assert_eq!(gate.complete(0, 1, 0), by_weight(0, 2));
    assert_eq!(tags(&gate), [100, 300]);
    assert_eq!(gate.guests()[0].rnext, 400 * MS);
}

/// One in 100 ms is the limit. Behind a request of cost 3 the next may go after 300 ms.
#[test]
fn limit_by_cost() {
    let mut gate = open(4, 8, &[settings(0, 10, 1)]);
    assert_eq!(gate.arrive(0, 1, 0, 3), by_weight(0, 1));
    assert_eq!(gate.arrive(0, 2, 0, 1), until(300 * MS, NOTHING));
    assert_eq!(gate.tick(300 * MS), by_weight(0, 2));
}

/// Document 02, K8: "a cost outside 1 to 64 is 18, after 6 and before 7".
#[test]
fn bad_costs() {
    let mut gate = open(1, 1, &[settings(0, 0, 1)]);
    assert_eq!(gate.arrive(0, 1, 5, MOST_COST), by_weight(0, 1));
    assert_eq!(gate.arrive(0, 2, 5, 1), NOTHING);
    for cost in [0, MOST_COST + 1, 1 << 32 | 1, u64::MAX] {
        for (guest, id, time, refusal) in [
            (1, 1, 5, Refusal::UnknownGuest),
            (0, 1, CEILING + 1, Refusal::TimeAboveCeiling),
            (0, 1, 4, Refusal::TimeBeforeLast),
            (0, 1, 5, Refusal::Cost),
            (0, 3, 5, Refusal::Cost),
        ] {
            refused(&mut gate, refusal, |gate| {
                gate.arrive(guest, id, time, cost)
            });
        }
    }
    refused(&mut gate, Refusal::IdInUse, |gate| gate.arrive(0, 1, 5, 64));
    refused(&mut gate, Refusal::WaitingFull, |gate| {
        gate.arrive(0, 3, 5, 64)
    });
}

/// At 2^62 - 1 a request of any cost is taken: its tags are the time, and only a next number passes the ceiling.
#[test]
fn ceiling_by_cost() {
    let mut gate = open(1, 8, &[settings(1, 1, 1)]);
    assert_eq!(gate.arrive(0, 1, CEILING, MOST_COST), by_reservation(0, 1));
    let guest = gate.guests()[0];
    let far = CEILING + MOST_COST * 1_000 * MS;
    assert_eq!([guest.rnext, guest.lnext, guest.snext], [far; 3]);
    assert_eq!(gate.complete(0, 1, CEILING), NOTHING);
}

/// Spacings of 100, 50 and 10 ms. Id 2 waits from 0 with all of them, so that id 3 has next numbers of 200, 100 and 10 ms,
/// and they are raised first: by delta those of limit and shares, by rho that of the reservation.
#[test]
fn raised_by_delta_and_rho() {
    for (delta, rho, tags) in [
        (1, 1, [200, 100, 10]),
        (1, 0, [100, 100, 10]),
        (4, 0, [100, 250, 40]),
        (4, 1, [200, 250, 40]),
        (4, 4, [500, 250, 40]),
        (MOST_DELTA, MOST_DELTA, [6_553_600, 3_276_800, 655_350]),
    ] {
        let mut gate = open(1, 8, &[settings(10, 20, 100)]);
        assert_eq!(gate.arrive(0, 1, 0, 1), by_reservation(0, 1));
        assert_eq!(gate.arrive(0, 2, 0, 1), NOTHING);
        assert_eq!(gate.arrive_spread(0, 3, 0, 5, delta, rho), NOTHING);
        let Request {
            rtag, ltag, stag, ..
        } = gate.waiting()[1];
        assert_eq!([rtag, ltag, stag], tags.map(|tag| tag * MS));
        let guest = gate.guests()[0];
        let next = [tags[0] + 500, tags[1] + 250, tags[2] + 50].map(|tag| tag * MS);
        assert_eq!([guest.rnext, guest.lnext, guest.snext], next);
    }
}

/// One in 100 ms reserved. With a rho of 0 id 3 has the reservation tag of id 2, and when id 2 goes by weight both lie
/// 100 ms earlier; the next number is set from the last.
#[test]
fn drop_of_equal_tags() {
    let mut gate = open(1, 8, &[settings(10, 0, 1)]);
    assert_eq!(gate.arrive(0, 1, 0, 1), by_reservation(0, 1));
    assert_eq!(gate.arrive(0, 2, 0, 1), NOTHING);
    for (id, cost) in [(3, 1), (4, 2)] {
        assert_eq!(gate.arrive_spread(0, id, 0, cost, 1, 0), NOTHING);
    }
    let tags = |gate: &Gate| -> Vec<u64> {
        let waiting = gate.waiting().iter();
        waiting.map(|request| request.rtag / MS).collect()
    };
    assert_eq!(tags(&gate), [100, 100, 100]);
    assert_eq!(gate.guests()[0].rnext, 300 * MS);
    assert_eq!(gate.complete(0, 1, 0), by_weight(0, 2));
    assert_eq!(tags(&gate), [0, 0]);
    assert_eq!(gate.guests()[0].rnext, 200 * MS);
    // What is due now goes by reservation, and nothing drops.
    assert_eq!(gate.complete(0, 2, 0), by_reservation(0, 3));
    assert_eq!(gate.complete(0, 3, 0), by_reservation(0, 4));
}

/// Document 02, K14: "delta outside 1 to 65,535 or rho above delta is 20, after 18".
#[test]
fn bad_deltas() {
    let mut gate = open(1, 1, &[settings(0, 0, 1)]);
    let most = [MOST_DELTA; 2];
    assert_eq!(
        gate.arrive_spread(0, 1, 5, 1, most[0], most[1]),
        by_weight(0, 1)
    );
    assert_eq!(gate.arrive(0, 2, 5, 1), NOTHING);
    for [delta, rho] in [
        [0, 0],
        [0, 1],
        [1, 2],
        [MOST_DELTA, MOST_DELTA + 1],
        [MOST_DELTA + 1, 0],
        [1 << 32 | 1, 1],
        [u64::MAX, u64::MAX],
        [1, u64::MAX],
    ] {
        for (guest, id, time, cost, refusal) in [
            (1, 1, 5, 0, Refusal::UnknownGuest),
            (0, 1, CEILING + 1, 0, Refusal::TimeAboveCeiling),
            (0, 1, 4, 0, Refusal::TimeBeforeLast),
            (0, 1, 5, 0, Refusal::Cost),
            (0, 1, 5, 1, Refusal::Delta),
            (0, 3, 5, 1, Refusal::Delta),
        ] {
            refused(&mut gate, refusal, |gate| {
                gate.arrive_spread(guest, id, time, cost, delta, rho)
            });
        }
    }
    refused(&mut gate, Refusal::IdInUse, |gate| {
        gate.arrive_spread(0, 1, 5, 1, most[0], 0)
    });
}

/// A raise may bring a tag past the ceiling: 9, and what was raised is not kept.
#[test]
fn raised_past_the_ceiling() {
    let mut gate = open(1, 8, &[settings(0, 1, 1)]);
    let early = CEILING - 10_000 * MS;
    assert_eq!(gate.arrive(0, 1, early, 1), by_weight(0, 1));
    refused(&mut gate, Refusal::TagAboveCeiling, |gate| {
        gate.arrive_spread(0, 2, early, 1, 11, 0)
    });
    assert_eq!(gate.arrive_spread(0, 2, early, 1, 10, 0), NOTHING);
    assert_eq!(gate.waiting()[0].ltag, CEILING);
}

#[test]
fn what_a_gate_shows() {
    let mut gate = open(2, 3, &[settings(0, 1, 1)]);
    assert_eq!((gate.depth(), gate.capacity(), gate.time()), (2, 3, 0));
    assert_eq!((gate.waiting(), gate.flight()), (&[][..], &[][..]));
    assert_eq!((gate.free_places(), gate.free_waiting()), (2, 3));
    assert_eq!(gate.arrive(0, 7, 5, 1), by_weight(0, 7));
    assert_eq!(gate.arrive(0, 8, 6, 1), until(1_000 * MS + 5, NOTHING));
    assert_eq!((gate.free_places(), gate.free_waiting()), (1, 2));
    assert_eq!((gate.flight_of(0), gate.waiting_of(0)), (1, 1));
    assert_eq!((gate.flight_of(1), gate.waiting_of(1)), (0, 0));
    assert_eq!(gate.flight(), [Flight { guest: 0, id: 7 }]);
    assert_eq!((gate.waiting().len(), gate.waiting()[0].id), (1, 8));
    assert_eq!((gate.time(), gate.guests().len()), (6, 1));
}

/// A gate at which `count` requests of a guest with this limit arrive at 0; the first goes at once.
fn limited(depth: u64, limit: u64, count: u32) -> Gate {
    let mut gate = open(depth, 8, &[settings(0, limit, 1)]);
    assert_eq!(gate.arrive(0, 1, 0, 1), by_weight(0, 1));
    for id in 2..=count {
        let wake = (depth > 1).then_some(1_000 * MS / limit);
        let answer = Answer::Nothing;
        assert_eq!(gate.arrive(0, id, 0, 1), Ok(Outcome { answer, wake }));
    }
    gate
}

#[test]
fn woken_at_once() {
    let mut gate = limited(4, 10, 3);
    let late = 250 * MS;
    assert_eq!(gate.tick(late), until(late, by_weight(0, 2)));
    assert_eq!(gate.tick(late), by_weight(0, 3));
}

#[test]
fn woken_after_a_completion() {
    let mut gate = limited(1, 10, 3);
    let place_free = until(100 * MS, NOTHING);
    assert_eq!(gate.complete(0, 1, 5), place_free);
    assert_eq!(gate.tick(100 * MS), by_weight(0, 2));
    refused(&mut gate, Refusal::NotInFlight, |gate| {
        gate.complete(0, 1, 100 * MS)
    });
}

#[test]
fn woken_at_the_ceiling() {
    let mut gate = open(2, 2, &[settings(0, 1, 1)]);
    let early = CEILING - 1_000 * MS;
    assert_eq!(gate.arrive(0, 1, early, 1), by_weight(0, 1));
    assert_eq!(gate.arrive(0, 2, early, 1), until(CEILING, NOTHING));
    assert_eq!(gate.tick(CEILING), by_weight(0, 2));
}

/// A host that ticks only when it is woken: every tick sends, and a nanosecond before nothing would go.
#[test]
fn every_tick_sends() {
    let mut gate = open(4, 8, &[settings(100, 250, 1), settings(0, 30, 9)]);
    let mut wake = None;
    for id in 0..4 {
        for guest in [0, 1] {
            wake = gate.arrive(guest, id, 0, 1).expect("there is room").wake;
        }
    }
    let mut ticks = 0;
    while let Some(time) = wake {
        if time > gate.time() {
            let before = gate.clone().tick(time - 1);
            assert_eq!(before, until(time, NOTHING));
        }
        let Outcome { answer, wake: next } = gate.tick(time).expect("a good time");
        let Answer::Sent { guest, id, .. } = answer else {
            panic!("nothing was sent at {time}");
        };
        wake = gate.complete(guest, id, time).expect("it is there").wake;
        assert_eq!(wake, next, "one place more changes nothing");
        ticks += 1;
    }
    assert_eq!((ticks, gate.waiting().len()), (6, 0));
}

/// What a batch answers, with room for just as many answers.
fn batch(gate: &mut Gate, events: &[Event]) -> Vec<Result<Outcome, Refusal>> {
    let mut room = vec![raw::Answer::default(); events.len()];
    let answers = gate.batch(events, &mut room).expect("there is room");
    assert_eq!(answers.len(), events.len());
    answers.collect()
}

/// Document 01's example in one call.
#[test]
fn example_in_one_call() {
    let mut gate = open(4, 8, &[settings(100, 250, 1)]);
    let arrivals = (1..=4).map(|id| Event::arrival(0, id, 0, 1));
    let ticks = [4, 8, 10, 9].map(|time| Event::tick(time * MS));
    let ends = [Event::completion(0, 1, 10 * MS); 2];
    let events: Vec<_> = arrivals.chain(ticks).chain(ends).collect();
    let answers = batch(&mut gate, &events);
    let expected = [
        by_reservation(0, 1),
        until(4 * MS, NOTHING),
        until(4 * MS, NOTHING),
        until(4 * MS, NOTHING),
        until(8 * MS, by_weight(0, 2)),
        until(10 * MS, by_weight(0, 3)),
        by_reservation(0, 4),
        Err(Refusal::TimeBeforeLast),
        NOTHING,
        Err(Refusal::NotInFlight),
    ];
    assert_eq!(answers, expected);
    assert_eq!((gate.time(), gate.flight().len()), (10 * MS, 3));
}

/// A batch leaves what the same events leave one by one.
#[test]
fn one_by_one() {
    let mut gate = limited(2, 10, 3);
    let mut alone = gate.clone();
    let events = [
        Event::arrival(0, 9, 7, 1),
        Event::arrival(1, 9, 7, 1),
        Event::completion(0, 1, 100 * MS),
        Event::tick(100 * MS),
    ];
    let single = vec![
        alone.arrive(0, 9, 7, 1),
        alone.arrive(1, 9, 7, 1),
        alone.complete(0, 1, 100 * MS),
        alone.tick(100 * MS),
    ];
    assert_eq!(batch(&mut gate, &events), single);
    assert_eq!(gate, alone);
}

#[test]
fn what_is_no_event() {
    let mut gate = limited(2, 10, 3);
    let before = gate.clone();
    let spread = |kind, guest, id, [cost, delta, rho]: [u64; 3]| Event {
        kind,
        guest,
        id,
        time: 0,
        cost,
        delta,
        rho,
    };
    let event = |kind, guest, id, cost| spread(kind, guest, id, [cost, 0, 0]);
    let none = [
        event(3, 0, 0, 0),
        event(3, 0, 0, 1),
        event(u64::MAX, 0, 0, 0),
        event(raw::TICK, 1, 0, 0),
        event(raw::TICK, 0, 1, 0),
        event(raw::TICK, 0, 0, 1),
        event(raw::ARRIVAL, 0, 1 << 32, 1),
        event(raw::COMPLETION, 9, u64::MAX, 0),
        event(raw::COMPLETION, 0, 1, 1),
        event(raw::COMPLETION, 0, 1, u64::MAX),
        spread(raw::TICK, 0, 0, [0, 1, 0]),
        spread(raw::TICK, 0, 0, [0, 0, u64::MAX]),
        spread(raw::COMPLETION, 0, 1, [0, 0, 1]),
        spread(raw::COMPLETION, 0, 1, [0, 1, 1]),
    ];
    let answers = batch(&mut gate, &none);
    assert_eq!(answers, vec![Err(Refusal::EventKind); none.len()]);
    let far = event(raw::ARRIVAL, u64::MAX, 1, 0);
    let free = event(raw::ARRIVAL, 0, 1, 0);
    let bare = event(raw::ARRIVAL, 0, 1, 1);
    let answers = batch(&mut gate, &[far, free, bare]);
    let expected = [Refusal::UnknownGuest, Refusal::Cost, Refusal::Delta].map(Err);
    assert_eq!(answers, expected);
    assert_eq!(gate, before);
}

/// 16 before 17, nothing done; room past the answers stays.
#[test]
fn room_for_answers() {
    let mut gate = open(1, 1, &[settings(0, 0, 1)]);
    let before = gate.clone();
    let most = usize::try_from(MOST_EVENTS).expect("it fits");
    let events = vec![Event::tick(1); most + 1];
    let dust = raw::Answer {
        kind: 77,
        ..raw::Answer::default()
    };
    let mut room = vec![dust; most + 2];
    for (events, places, refusal) in [
        (&events[..2], 1, Refusal::ShortAnswers),
        (&events[..], most, Refusal::ShortAnswers),
        (&events[..], most + 1, Refusal::TooManyEvents),
    ] {
        let found = gate.batch(events, &mut room[..places]).map(|_| ());
        assert_eq!(found, Err(refusal));
        assert_eq!(gate, before);
        assert!(room.iter().all(|&answer| answer == dust));
    }
    let answers = gate.batch(&events[..most], &mut room).expect("just enough");
    assert!(answers.eq(vec![NOTHING; most]));
    assert_eq!(room[most..], [dust, dust]);
    assert_eq!(gate.batch(&[], &mut []).expect("no event").len(), 0);
}
