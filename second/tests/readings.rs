//! The example, the edge readings and the plausible errors of document 01,
//! with the share tags of document 02, K3.

mod common;
use common::*;
use second::numbers::SECOND;
use second::trace::{header_bytes, Version};
use second::Answer::{Nothing, Refused};
use second::{Answer, Flight, State, Waiting, CEILING};

#[test]
fn the_example_is_printed_whole() {
    let mut bytes = header_bytes(4, 1, 8, &[guest(100, 250, 1)]);
    let mut push = |kind, id, ms: u64| {
        let event = event(kind, 0, id, ms * MS);
        bytes.extend(event.bytes(Version::One))
    };
    for id in 1..=4 {
        push(0, id, 0);
    }
    for ms in [4, 8, 10, 9] {
        push(2, 0, ms);
    }
    push(1, 1, 10);
    push(1, 1, 10);
    let wanted =
        "event answer\n1 R 0 1\n2 -\n3 -\n4 -\n5 W 0 2\n6 W 0 3\n7 R 0 4\n8 X 6\n9 -\n10 X 10\n";
    assert_eq!(printed(&bytes), wanted);
}

#[test]
fn event_seven_goes_by_reservation_before_its_limit_tag() {
    let mut state = State::fresh(4, 8, &[guest(100, 250, 1)]);
    for id in 1..=4 {
        state.arrive(0, id, 0, 1);
    }
    state.tick(4 * MS);
    state.tick(8 * MS);
    assert_eq!(state.waiting.len(), 1);
    assert_eq!(state.waiting[0].ltag, 12 * MS);
    // Dropped twice, from 30 to 10 ms.
    assert_eq!(state.waiting[0].rtag, 10 * MS);
    assert_eq!(state.tick(10 * MS), reservation(0, 4));
    // No drop after a reservation send.
    assert_eq!(state.guests[0].rnext, 20 * MS);
}

#[test]
fn spacings() {
    assert_eq!(guest(3, 0, 1).reservation_spacing(), 333_333_333);
    assert_eq!(guest(0, 3, 1).limit_spacing(), 333_333_334);
    assert_eq!(guest(0, 0, 300).share_spacing(), 3_333_333);
    assert_eq!(guest(0, 0, 1_000_000).share_spacing(), 1_000);
    assert_eq!(guest(1, 1, 1).limit_spacing(), SECOND);
    assert_eq!(guest(1, 1_000_000, 1).limit_spacing(), 1_000);
}

/// Next numbers 10 of a guest, and a full array, so that a request stays to
/// be looked at.
fn next_is_10() -> State {
    let mut state = State::fresh(1, 2, &[guest(3, 3, 300)]);
    state.guests[0].rnext = 10;
    state.guests[0].lnext = 10;
    state.guests[0].snext = 10;
    state.flight.push(Flight { guest: 0, id: 9 });
    state
}

/// The last request's tags are these, and the next numbers follow.
fn last_tags(state: &State, tags: [u64; 3]) {
    let w = state.waiting[state.waiting.len() - 1];
    assert_eq!([w.rtag, w.ltag, w.stag], tags);
    let g = state.guests[0];
    let [r, l, s] = tags;
    let spaced = [r + 333_333_333, l + 333_333_334, s + 3_333_333];
    assert_eq!([g.rnext, g.lnext, g.snext], spaced);
}

#[test]
fn a_tag_is_the_larger_of_next_number_and_time() {
    for (time, tag) in [(10, 10), (9, 10), (11, 11)] {
        let mut state = next_is_10();
        // It makes the guest busy.
        state.waiting.push(Waiting {
            guest: 0,
            id: 8,
            rtag: 0,
            ltag: 0,
            stag: 0,
            cost: 1,
        });
        assert_eq!(state.arrive(0, 1, time, 1), Nothing);
        last_tags(&state, [tag; 3]);
    }
}

#[test]
fn at_an_idle_guest_the_share_tag_is_the_time() {
    for (time, tag) in [(10, 10), (9, 10), (11, 11)] {
        let mut state = next_is_10();
        assert_eq!(state.arrive(0, 1, time, 1), Nothing);
        last_tags(&state, [tag, tag, time]);
    }
}

/// Depth 1, A with shares 1 and B with shares 2; A's ids 1, 2, 3 at 0.
fn two_guests() -> State {
    let mut state = State::fresh(1, 8, &[guest(0, 0, 1), guest(0, 0, 2)]);
    assert_eq!(state.arrive(0, 1, 0, 1), weight(0, 1));
    assert_eq!(state.arrive(0, 2, 0, 1), Nothing);
    assert_eq!(state.arrive(0, 3, 0, 1), Nothing);
    // A was idle when its id 2 came: id 1 was sent.
    assert_eq!(share_tags(&state), [0, 1_000 * MS]);
    state
}

#[test]
fn share_tags_move_down() {
    let mut state = two_guests();
    assert_eq!(state.arrive(1, 1, 100 * MS, 1), Nothing);
    assert_eq!(share_tags(&state), [100 * MS, 1_100 * MS, 100 * MS]);
    // A's next number moved along, B's is its own tag plus its spacing.
    assert_eq!(state.guests[0].snext, 2_100 * MS);
    assert_eq!(state.guests[1].snext, 600 * MS);
    assert_eq!(state.complete(0, 1, 100 * MS), weight(0, 2));
    assert_eq!(state.complete(0, 2, 100 * MS), weight(1, 1));
}

#[test]
fn share_tags_move_up() {
    let mut state = two_guests();
    assert_eq!(state.arrive(1, 1, 1_500 * MS, 1), Nothing);
    assert_eq!(share_tags(&state), [1_500 * MS, 2_500 * MS, 1_500 * MS]);
}

#[test]
fn times_at_the_ceiling() {
    let mut state = State::fresh(1, 4, &[guest(0, 0, 1)]);
    assert_eq!(state.arrive(0, 1, CEILING + 1, 1), Refused(5));
    assert_eq!(state.arrive(0, 1, CEILING, 1), weight(0, 1));
    assert_eq!(state.guests[0].snext, CEILING + SECOND);
    // The first was sent, so the second has the time as its tag; it waits,
    // so a third is refused.
    assert_eq!(state.arrive(0, 2, CEILING, 1), Nothing);
    assert_eq!(share_tags(&state), [CEILING]);
    assert_eq!(state.arrive(0, 3, CEILING, 1), Refused(9));
    assert_eq!(state.tick(CEILING), Nothing);
    assert_eq!(state.tick(CEILING + 1), Refused(5));
    assert_eq!(state.complete(0, 1, u64::MAX), Refused(5));
    assert_eq!(state.complete(0, 1, CEILING), weight(0, 2));
    assert_eq!(state.arrive(0, 3, CEILING, 1), Nothing);
}

#[test]
fn with_a_reservation_or_a_limit_it_is_refused_though_the_first_was_sent() {
    for settings in [
        guest(1_000_000, 0, 1),
        guest(0, 1_000_000, 1),
        guest(1, 1, 1),
    ] {
        let mut state = State::fresh(1, 4, &[settings]);
        assert!(matches!(
            state.arrive(0, 1, CEILING, 1),
            Answer::Sent { .. }
        ));
        let before = state.clone();
        assert_eq!(state.arrive(0, 2, CEILING, 1), Refused(9));
        assert_eq!(state, before);
    }
}

#[test]
fn a_second_arrival_at_the_ceiling_is_refused_while_the_first_waits() {
    for settings in [
        guest(0, 0, 1),
        guest(1, 0, 1_000_000),
        guest(1_000_000, 1_000_000, 1),
    ] {
        let mut state = State::fresh(1, 4, &[settings]);
        state.flight.push(Flight { guest: 0, id: 9 });
        assert_eq!(state.arrive(0, 1, CEILING, 1), Nothing);
        let before = state.clone();
        assert_eq!(state.arrive(0, 2, CEILING, 1), Refused(9));
        assert_eq!(state, before);
    }
}

#[test]
fn a_share_tag_moved_past_the_ceiling_is_refused() {
    let mut state = State::fresh(1, 8, &[guest(0, 0, 1), guest(0, 0, 1_000_000)]);
    for id in 1..=3 {
        state.arrive(0, id, 0, 1);
    }
    // Tags 0 and 1 s: the second lands 1 s after the time.
    let before = state.clone();
    assert_eq!(state.arrive(1, 1, CEILING - SECOND + 1, 1), Refused(9));
    assert_eq!(state, before);
    assert_eq!(state.arrive(1, 1, CEILING - SECOND, 1), Nothing);
    let (first, last) = (CEILING - SECOND, CEILING);
    assert_eq!(share_tags(&state), [first, last, first]);
    // Only the next number passes the ceiling, and it may.
    assert_eq!(state.guests[0].snext, CEILING + SECOND);
}

#[test]
fn one_place_to_wait_and_one_at_the_array() {
    let mut state = State::fresh(1, 1, &[guest(0, 0, 1)]);
    assert_eq!(state.arrive(0, 1, 0, 1), weight(0, 1));
    assert_eq!(state.arrive(0, 2, 0, 1), Nothing);
    assert_eq!(state.arrive(0, 3, 0, 1), Refused(8));
    assert_eq!(state.complete(0, 1, 0), weight(0, 2));
    assert_eq!(state.arrive(0, 3, 0, 1), Nothing);
}

#[test]
fn guest_63_of_64_is_known() {
    let mut state = State::fresh(1, 1, &[guest(0, 0, 1); 64]);
    assert_eq!(state.arrive(63, 1, 0, 1), weight(63, 1));
    assert_eq!(state.arrive(64, 1, 0, 1), Refused(4));
    assert_eq!(state.complete(64, 1, 0), Refused(4));
    assert_eq!(state.arrive(u64::MAX, 1, 0, 1), Refused(4));
}

#[test]
fn an_id_may_be_used_again_after_its_completion() {
    let mut state = State::fresh(1, 2, &[guest(0, 0, 1), guest(0, 0, 1)]);
    assert_eq!(state.arrive(0, 5, 0, 1), weight(0, 5));
    assert_eq!(state.arrive(0, 5, 0, 1), Refused(7));
    // Another guest may have the same id.
    assert_eq!(state.arrive(1, 5, 0, 1), Nothing);
    assert_eq!(state.arrive(1, 5, 0, 1), Refused(7));
    assert_eq!(state.complete(0, 5, 0), weight(1, 5));
    assert_eq!(state.complete(1, 6, 0), Refused(10));
    assert_eq!(state.arrive(0, 5, 0, 1), Nothing);
    assert_eq!(state.complete(0, 5, 0), Refused(10));
}

#[test]
fn after_a_weight_send_the_reservation_tags_drop() {
    let mut state = State::fresh(2, 8, &[guest(100, 0, 1)]);
    assert_eq!(state.arrive(0, 1, 0, 1), reservation(0, 1));
    assert_eq!(state.guests[0].rnext, 10 * MS);
    assert_eq!(state.arrive(0, 2, 0, 1), weight(0, 2));
    assert_eq!(state.guests[0].rnext, 10 * MS);
    assert_eq!(state.arrive(0, 3, 0, 1), Nothing);
    assert_eq!(state.arrive(0, 4, 0, 1), Nothing);
    assert_eq!(reservation_tags(&state), [10 * MS, 20 * MS]);
    assert_eq!(state.complete(0, 1, 5 * MS), weight(0, 3));
    assert_eq!(reservation_tags(&state), [10 * MS]);
    assert_eq!(state.guests[0].rnext, 20 * MS);
}

#[test]
fn moving_share_tags_leaves_reservation_and_limit_tags() {
    let mut state = State::fresh(1, 8, &[guest(1, 1, 1), guest(0, 0, 1)]);
    state.arrive(0, 1, 0, 1);
    state.arrive(0, 2, 0, 1);
    state.arrive(1, 1, 100 * MS, 1);
    let w = state.waiting[0];
    assert_eq!([w.rtag, w.ltag, w.stag], [SECOND, SECOND, 100 * MS]);
    let g = state.guests[0];
    assert_eq!(
        [g.rnext, g.lnext, g.snext],
        [2 * SECOND, 2 * SECOND, 1_100 * MS]
    );
}

#[test]
fn requests_in_flight_do_not_make_a_guest_busy() {
    let mut state = State::fresh(2, 8, &[guest(0, 0, 1), guest(0, 0, 1)]);
    state.arrive(0, 1, 0, 1);
    state.arrive(1, 1, 0, 1);
    state.arrive(1, 2, 0, 1);
    // Guest 0 has one in flight and none waiting: idle, so tags move, and
    // its own is the time.
    state.arrive(0, 2, 10 * MS, 1);
    assert_eq!(share_tags(&state), [10 * MS, 10 * MS]);
}

#[test]
fn an_arrival_at_a_busy_guest_moves_nothing() {
    let mut state = State::fresh(1, 8, &[guest(0, 0, 1), guest(0, 0, 1)]);
    state.arrive(0, 1, 0, 1);
    state.arrive(0, 2, 0, 1);
    // Guest 0 waits itself, so a third arrival moves nothing, and its tag
    // is a spacing further on.
    state.arrive(0, 3, 10 * MS, 1);
    assert_eq!(share_tags(&state), [0, SECOND]);
}

/// K3: the guest that ran alone, paused and came back.
#[test]
fn a_guest_that_comes_back_has_its_share_at_once() {
    let mut state = State::fresh(1, 64, &[guest(0, 0, 1), guest(0, 0, 1)]);
    // All morning ten wait: its next share number runs far ahead.
    for id in 0..10 {
        state.arrive(0, id, 0, 1);
    }
    for id in 10..1_000 {
        let t = id as u64 * MS;
        state.complete(0, id - 10, t);
        state.arrive(0, id, t, 1);
    }
    for id in 990..1_000 {
        state.complete(0, id, 1_000 * MS);
    }
    assert!(state.waiting.is_empty() && state.flight.is_empty());
    assert!(state.guests[0].snext > 900 * SECOND);
    // In the afternoon the archive waits, then the guest comes back.
    for id in 0..20 {
        state.arrive(1, id, 2_000 * MS, 1);
    }
    let t = 2_001 * MS;
    for id in 0..4 {
        state.arrive(0, id, t, 1);
    }
    assert_eq!(state.waiting[19].stag, t);
    let sent = |(guest, id)| weight(guest, id);
    // Equal shares: they take turns from the start.
    let turns = [
        (1, 1),
        (0, 0),
        (1, 2),
        (0, 1),
        (1, 3),
        (0, 2),
        (1, 4),
        (0, 3),
    ];
    let mut flies = (1, 0);
    for turn in turns {
        assert_eq!(state.complete(flies.0, flies.1, t), sent(turn));
        flies = (turn.0, turn.1 as u32);
    }
}

#[test]
fn reservation_and_limit_tags_of_an_idle_guest_keep_the_old_rule() {
    let mut state = State::fresh(1, 4, &[guest(2, 2, 2)]);
    state.arrive(0, 1, 0, 1);
    state.arrive(0, 2, 100 * MS, 1);
    let w = state.waiting[0];
    assert_eq!([w.rtag, w.ltag, w.stag], [500 * MS, 500 * MS, 100 * MS]);
}

#[test]
fn ties_go_to_the_earlier_accepted_not_to_the_lower_guest() {
    let mut state = State::fresh(1, 8, &[guest(10, 0, 1), guest(10, 0, 1), guest(0, 0, 7)]);
    assert_eq!(state.arrive(2, 1, 0, 1), weight(2, 1));
    state.arrive(1, 1, MS, 1);
    state.arrive(0, 1, MS, 1);
    assert_eq!(state.complete(2, 1, MS), reservation(1, 1));
    assert_eq!(state.complete(1, 1, MS), reservation(0, 1));

    let mut state = State::fresh(1, 8, &[guest(0, 0, 1), guest(0, 0, 1), guest(0, 0, 7)]);
    assert_eq!(state.arrive(2, 1, 0, 1), weight(2, 1));
    state.arrive(1, 1, MS, 1);
    state.arrive(0, 1, MS, 1);
    assert_eq!(state.complete(2, 1, MS), weight(1, 1));
}

#[test]
fn a_limit_holds_though_the_array_is_empty() {
    let mut state = State::fresh(4, 8, &[guest(0, 2, 1)]);
    assert_eq!(state.arrive(0, 1, 0, 1), weight(0, 1));
    assert_eq!(state.complete(0, 1, 0), Nothing);
    assert_eq!(state.arrive(0, 2, 0, 1), Nothing);
    assert_eq!(state.tick(500 * MS - 1), Nothing);
    assert_eq!(state.tick(500 * MS), weight(0, 2));
}

#[test]
fn no_reservation_is_never_due_by_reservation() {
    let mut state = State::fresh(1, 8, &[guest(0, 1, 1)]);
    assert_eq!(state.arrive(0, 1, 0, 1), weight(0, 1));
    assert_eq!(state.arrive(0, 2, 0, 1), Nothing);
    assert_eq!(state.complete(0, 1, 1), Nothing);
    assert_eq!(state.waiting[0].rtag, 0);
}

#[test]
fn at_most_one_is_sent_for_each_event() {
    let mut state = State::fresh(2, 8, &[guest(0, 1_000, 1), guest(0, 1_000, 1)]);
    state.arrive(0, 1, 0, 1);
    state.arrive(1, 1, 0, 1);
    state.arrive(0, 2, 0, 1);
    state.arrive(1, 2, 0, 1);
    // Both limits are due at 1 ms, but each event sends one.
    assert_eq!(state.complete(0, 1, 0), Nothing);
    assert_eq!(state.complete(1, 1, 0), Nothing);
    assert_eq!(state.tick(MS), weight(0, 2));
    assert_eq!(state.tick(MS), weight(1, 2));
    assert_eq!(state.tick(MS), Nothing);
}
