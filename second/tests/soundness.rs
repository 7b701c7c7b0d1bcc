//! Soundness, rule by rule: for each rule a table that breaks it first.

mod common;
use common::*;
use second::calls::table_refusal;
use second::numbers::SECOND;
use second::sample::{sound_tables, spoil, Owned, Prng};
use second::tables::*;
use second::{first_broken, Rule, CEILING};

/// Depth 2, capacity 4. Guest 0 has all three tags and two waiting of costs
/// 2 and 3, guest 1 has shares only and one waiting of cost 64, guest 2 is
/// idle with all three. One request is in flight.
fn table() -> Owned {
    let settings = [guest(10, 10, 10), guest(0, 0, 1), guest(3, 3, 3)];
    let mut t = opened(2, 4, &settings);
    let tenth = SECOND / 10;
    t.gate[TIME..=FLIGHT].copy_from_slice(&[500, 3, 1]);
    t.guests[RNEXT..=SNEXT].copy_from_slice(&[tenth * 6, tenth * 7, tenth * 8]);
    t.guests[guest_at(1, SNEXT)] = 64 * SECOND + 7;
    let waits = [
        (0, 1, [tenth, tenth * 2, tenth * 3], 2),
        (1, 1, [0, 0, 7], 64),
        (0, 2, [tenth * 3, tenth * 4, tenth * 5], 3),
    ];
    for (place, (guest, id, [rtag, ltag, stag], cost)) in waits.into_iter().enumerate() {
        let w = Waiting {
            guest,
            id,
            rtag,
            ltag,
            stag,
            cost,
        };
        put(&mut t.waiting, place, w.numbers());
    }
    put(&mut t.flight, 0, flown(0, 3));
    t
}

fn flown(guest: u64, id: u64) -> [u64; FLIGHT_NUMBERS] {
    Flight { guest, id }.numbers()
}

fn broken(change: impl FnOnce(&mut Owned)) -> Option<Rule> {
    let mut t = table();
    change(&mut t);
    let rule = first_broken(&t.view());
    assert_eq!(table_refusal(&t.view()), rule.map(|_| 3));
    rule
}

#[test]
fn the_table_itself_is_sound() {
    assert_eq!(broken(|_| {}), None);
}

#[test]
fn settings_lie_in_the_ranges() {
    let rule = Some(Rule::SettingsInRange);
    assert_eq!(broken(|t| t.guests[RESERVATION] = 1_000_001), rule);
    assert_eq!(broken(|t| t.guests[LIMIT] = 1_000_001), rule);
    assert_eq!(broken(|t| t.guests[LIMIT] = u64::MAX), rule);
    assert_eq!(broken(|t| t.guests[SHARES] = 0), rule);
    assert_eq!(broken(|t| t.guests[SHARES] = 1_000_001), rule);
    assert_eq!(broken(|t| t.guests[CREDIT] = 257), rule);
    assert_eq!(broken(|t| t.guests[guest_at(2, CREDIT)] = u64::MAX), rule);
    assert_eq!(broken(|t| t.guests[guest_at(2, CREDIT)] = 256), None);
    // A reservation above the limit.
    let last = guest_at(2, RESERVATION);
    assert_eq!(broken(|t| t.guests[last] = 4), rule);
    assert_eq!(broken(|t| t.guests[last] = 2), None);
    for place in [DEPTH, GUESTS, CAPACITY] {
        assert_eq!(broken(|t| t.gate[place] = 0), rule);
        assert_eq!(broken(|t| t.gate[place] = u64::MAX), rule);
    }
    for number in [0, 3, 257, u64::MAX] {
        assert_eq!(broken(|t| t.gate[RULE] = number), rule);
    }
    assert_eq!(broken(|t| t.gate[RULE] = 2), None);
}

#[test]
fn counts_do_not_exceed_capacity_and_depth() {
    let rule = Some(Rule::CountsFit);
    assert_eq!(broken(|t| t.gate[WAITING] = 5), rule);
    assert_eq!(broken(|t| t.gate[WAITING] = u64::MAX), rule);
    assert_eq!(broken(|t| t.gate[FLIGHT] = 3), rule);
    assert_eq!(broken(|t| t.gate[FLIGHT] = u64::MAX), rule);
}

#[test]
fn the_time_is_at_most_the_ceiling() {
    assert_eq!(broken(|t| t.gate[TIME] = CEILING), None);
    let rule = Some(Rule::TimeAtMostCeiling);
    assert_eq!(broken(|t| t.gate[TIME] = CEILING + 1), rule);
    assert_eq!(broken(|t| t.gate[TIME] = u64::MAX), rule);
}

#[test]
fn every_entrys_guest_exists() {
    let rule = Some(Rule::GuestsExist);
    let second = waiting_at(1, GUEST);
    assert_eq!(broken(|t| t.waiting[second] = 3), rule);
    assert_eq!(broken(|t| t.waiting[second] = u64::MAX), rule);
    assert_eq!(broken(|t| t.flight[GUEST] = 3), rule);
    assert_eq!(broken(|t| t.flight[GUEST] = 1 << 32), rule);
}

#[test]
fn ids_fit_32_bits() {
    let rule = Some(Rule::IdsFit);
    let second = waiting_at(1, ID);
    assert_eq!(broken(|t| t.waiting[second] = u32::MAX as u64), None);
    assert_eq!(broken(|t| t.waiting[second] = 1 << 32), rule);
    assert_eq!(broken(|t| t.waiting[second] = (1 << 32) + 1), rule);
    assert_eq!(broken(|t| t.flight[ID] = u64::MAX), rule);
}

#[test]
fn no_guest_has_one_id_twice() {
    let rule = Some(Rule::NoIdTwice);
    // Among the waiting, between waiting and in flight, in flight.
    assert_eq!(broken(|t| t.waiting[waiting_at(2, ID)] = 1), rule);
    assert_eq!(broken(|t| t.flight[ID] = 2), rule);
    let twice = |t: &mut Owned| {
        t.gate[FLIGHT] = 2;
        put(&mut t.flight, 1, flown(0, 3));
    };
    assert_eq!(broken(twice), rule);
    // Another guest may have it.
    assert_eq!(broken(|t| put(&mut t.flight, 0, flown(2, 1))), None);
}

#[test]
fn costs_lie_between_1_and_64() {
    let rule = Some(Rule::CostsInRange);
    for place in [0, 1, 2].map(|place| waiting_at(place, COST)) {
        for cost in [0, 65, 1 << 32, u64::MAX] {
            assert_eq!(broken(|t| t.waiting[place] = cost), rule);
        }
    }
    // Its spacing times any cost, and a tag on top, is no small number.
    let far = |t: &mut Owned| {
        t.waiting[waiting_at(0, COST)] = u64::MAX;
        t.waiting[waiting_at(0, STAG)] = u64::MAX;
    };
    assert_eq!(broken(far), rule);
}

#[test]
fn tags_are_at_most_the_ceiling() {
    let rule = Some(Rule::TagsAtMostCeiling);
    let first = [RTAG, LTAG, STAG].map(|kind| waiting_at(0, kind));
    let third = [RTAG, LTAG, STAG].map(|kind| waiting_at(2, kind));
    let second = waiting_at(1, STAG);
    for place in first.into_iter().chain([second]).chain(third) {
        assert_eq!(broken(|t| t.waiting[place] = CEILING + 1), rule);
        assert_eq!(broken(|t| t.waiting[place] = u64::MAX), rule);
    }
    let high = |t: &mut Owned| {
        t.waiting[second] = CEILING;
        t.guests[guest_at(1, SNEXT)] = CEILING + 64 * SECOND;
    };
    assert_eq!(broken(high), None);
}

#[test]
fn later_limit_and_share_tags_are_the_cost_in_spacings_further_on() {
    let rule = Some(Rule::TagsSpaced);
    for kind in [LTAG, STAG] {
        let (first, third) = (waiting_at(0, kind), waiting_at(2, kind));
        assert_eq!(broken(|t| t.waiting[first] += 1), rule);
        assert_eq!(broken(|t| t.waiting[first] -= 1), None);
        assert_eq!(broken(|t| t.waiting[third] -= 1), rule);
    }
    // The earlier one's cost counts, and it may be less than the room is.
    let first = waiting_at(0, COST);
    assert_eq!(broken(|t| t.waiting[first] = 3), rule);
    assert_eq!(broken(|t| t.waiting[first] = 64), rule);
    assert_eq!(broken(|t| t.waiting[first] = 1), None);
}

#[test]
fn reservation_tags_do_not_fall() {
    let rule = Some(Rule::TagsSpaced);
    let (first, third) = (waiting_at(0, RTAG), waiting_at(2, RTAG));
    let tenth = SECOND / 10;
    // The earlier one may lie anywhere before the later, or at it.
    for tag in [0, tenth + 1, 3 * tenth - 1, 3 * tenth] {
        assert_eq!(broken(|t| t.waiting[first] = tag), None);
    }
    assert_eq!(broken(|t| t.waiting[first] = 3 * tenth + 1), rule);
    // The later one too, and the next number lies its cost behind it.
    for (tag, found) in [
        (tenth, None),
        (tenth + 1, None),
        (tenth - 1, rule),
        (0, rule),
    ] {
        let lower = |t: &mut Owned| {
            t.waiting[third] = tag;
            t.guests[RNEXT] = tag + 3 * tenth;
        };
        assert_eq!(broken(lower), found);
    }
    assert_eq!(
        broken(|t| t.waiting[third] = tenth),
        Some(Rule::NextFollowsLast)
    );
}

#[test]
fn a_busy_guests_next_numbers_follow_its_last_tags() {
    let rule = Some(Rule::NextFollowsLast);
    for place in [RNEXT, LNEXT, SNEXT, guest_at(1, SNEXT)] {
        assert_eq!(broken(|t| t.guests[place] += 1), rule);
        assert_eq!(broken(|t| t.guests[place] -= 1), rule);
        assert_eq!(broken(|t| t.guests[place] = u64::MAX), rule);
    }
    assert_eq!(broken(|t| t.waiting[waiting_at(2, RTAG)] += 1), rule);
    for place in [1, 2].map(|place| waiting_at(place, COST)) {
        assert_eq!(broken(|t| t.waiting[place] -= 1), rule);
    }
    assert_eq!(broken(|t| t.waiting[waiting_at(2, COST)] += 1), rule);
}

#[test]
fn an_idle_guests_next_numbers_are_bounded() {
    let rule = Some(Rule::IdleNextBounded);
    for place in [RNEXT, LNEXT, SNEXT].map(|next| guest_at(2, next)) {
        let most = CEILING + 64 * SECOND;
        assert_eq!(broken(|t| t.guests[place] = most), None);
        assert_eq!(broken(|t| t.guests[place] = most + 1), rule);
        assert_eq!(broken(|t| t.guests[place] = u64::MAX), rule);
    }
}

#[test]
fn meaningless_numbers_are_zero() {
    let rule = Some(Rule::MeaninglessZero);
    for place in [RNEXT, LNEXT].map(|next| guest_at(1, next)) {
        assert_eq!(broken(|t| t.guests[place] = 1), rule);
        assert_eq!(broken(|t| t.guests[place] = u64::MAX), rule);
    }
    for place in [RTAG, LTAG].map(|tag| waiting_at(1, tag)) {
        assert_eq!(broken(|t| t.waiting[place] = 1), rule);
    }
}

#[test]
fn unused_places_are_zero() {
    let rule = Some(Rule::UnusedZero);
    for place in waiting_at(3, 0)..waiting_at(4, 0) {
        assert_eq!(broken(|t| t.waiting[place] = 1), rule);
    }
    for place in flight_at(1, 0)..flight_at(2, 0) {
        assert_eq!(broken(|t| t.flight[place] = 1), rule);
    }
}

#[test]
fn places_beyond_what_the_settings_need_are_not_read() {
    let longer = |t: &mut Owned| {
        t.gate.push(9);
        t.guests.push(u64::MAX);
        t.waiting.push(1);
        t.flight.extend([1, 2, 3]);
    };
    assert_eq!(broken(longer), None);
}

#[test]
fn random_sound_tables_are_sound() {
    let mut rng = Prng::new(11);
    for _ in 0..2_000 {
        let t = sound_tables(&mut rng);
        assert_eq!(table_refusal(&t.view()), None);
        assert_eq!(first_broken(&t.view()), None);
    }
}

/// Rule by rule in signed wide numbers over all pairs, as a second opinion.
fn plainly_sound(t: &Owned) -> bool {
    let n = |x: u64| x as i128;
    let ceiling = n(CEILING);
    let (guests, waiting, flight) = (
        &t.guests[..guest_at(t.gate[GUESTS] as usize, 0)],
        &t.waiting[..waiting_at(t.gate[CAPACITY] as usize, 0)],
        &t.flight[..flight_at(t.gate[DEPTH] as usize, 0)],
    );
    let million = 1_000_000;
    let ranges = guests.chunks(GUEST_NUMBERS).all(|g| {
        g[RESERVATION] <= million
            && g[LIMIT] <= million
            && g[SHARES] >= 1
            && g[SHARES] <= million
            && (g[LIMIT] == 0 || g[RESERVATION] <= g[LIMIT])
            && g[CREDIT] <= 256
    });
    let roomy = t.gate[WAITING] <= t.gate[CAPACITY] && t.gate[FLIGHT] <= t.gate[DEPTH];
    if !ranges || !roomy || n(t.gate[TIME]) > ceiling {
        return false;
    }
    let spacing = |g: &[u64], kind: usize| match kind {
        RESERVATION if g[RESERVATION] != 0 => Some(n(SECOND) / n(g[RESERVATION])),
        LIMIT if g[LIMIT] != 0 => Some((n(SECOND) + n(g[LIMIT]) - 1) / n(g[LIMIT])),
        SHARES => Some(n(SECOND) / n(g[SHARES])),
        _ => None,
    };
    let (waits, spare) = waiting.split_at(waiting_at(t.gate[WAITING] as usize, 0));
    let (flies, free) = flight.split_at(flight_at(t.gate[FLIGHT] as usize, 0));
    if spare.iter().chain(free).any(|x| *x != 0) {
        return false;
    }
    let waits: Vec<&[u64]> = waits.chunks(WAITING_NUMBERS).collect();
    let mut named: Vec<(u64, u64)> = waits.iter().map(|w| (w[GUEST], w[ID])).collect();
    named.extend(flies.chunks(FLIGHT_NUMBERS).map(|f| (f[GUEST], f[ID])));
    let named_good = |(g, id): &(u64, u64)| *g < t.gate[GUESTS] && *id < 1 << 32;
    let costs_good = waits.iter().all(|w| (1..65).contains(&w[COST]));
    if !named.iter().all(named_good) || !costs_good {
        return false;
    }
    named.sort();
    if named.windows(2).any(|pair| pair[0] == pair[1]) {
        return false;
    }
    for (number, g) in guests.chunks(GUEST_NUMBERS).enumerate() {
        let own: Vec<&&[u64]> = waits.iter().filter(|w| w[GUEST] == number as u64).collect();
        for (kind, tag, next) in [
            (RESERVATION, RTAG, RNEXT),
            (LIMIT, LTAG, LNEXT),
            (SHARES, STAG, SNEXT),
        ] {
            let tags: Vec<i128> = own.iter().map(|w| n(w[tag])).collect();
            let costs: Vec<i128> = own.iter().map(|w| n(w[COST])).collect();
            let next = n(g[next]);
            let good = match (spacing(g, kind), tags.last()) {
                (None, _) => next == 0 && tags.iter().all(|tag| *tag == 0),
                (Some(_), None) => next <= ceiling + 64 * n(SECOND),
                (Some(apart), Some(_)) => {
                    let room = |i: usize| tags[i] + costs[i] * apart;
                    let least = |i: usize| match kind {
                        RESERVATION => tags[i],
                        _ => room(i),
                    };
                    let last = tags.len() - 1;
                    let spaced = (0..=last).all(|j| (0..j).all(|i| tags[j] >= least(i)));
                    next == room(last) && spaced && tags.iter().all(|tag| *tag <= ceiling)
                }
            };
            if !good {
                return false;
            }
        }
    }
    true
}

#[test]
fn spoiled_tables_are_judged_as_a_plain_reading_does() {
    let mut rng = Prng::new(12);
    let (mut sound, mut unsound) = (0, 0);
    for _ in 0..6_000 {
        let mut t = sound_tables(&mut rng);
        spoil(&mut rng, &mut t);
        match table_refusal(&t.view()) {
            Some(2) => {}
            refusal => {
                let in_range = (1..=64).contains(&t.gate[DEPTH])
                    && (1..=64).contains(&t.gate[GUESTS])
                    && (1..=1_024).contains(&t.gate[CAPACITY])
                    && (1..=2).contains(&t.gate[RULE]);
                let good = in_range && plainly_sound(&t);
                assert_eq!(refusal, if good { None } else { Some(3) });
                if good {
                    sound += 1
                } else {
                    unsound += 1
                }
            }
        }
    }
    assert!(sound > 500 && unsound > 2_000, "{sound} {unsound}");
}
