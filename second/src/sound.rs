//! When a table is sound: document 01's rules, in its order. The numbers
//! may be anything here, so sums are made in 128 bits.

use crate::numbers::{cost_good, counts_good, rule_good, CEILING, MOST_GUESTS, MOST_STEP};
use crate::tables::{Guest, View, Waiting, FLIGHT_NUMBERS, WAITING_NUMBERS};

/// The rules, in the order in which they are tested.
#[derive(Clone, Copy, Debug, PartialEq, Eq)]
pub enum Rule {
    SettingsInRange,
    CountsFit,
    TimeAtMostCeiling,
    GuestsExist,
    IdsFit,
    NoIdTwice,
    CostsInRange,
    TagsAtMostCeiling,
    TagsSpaced,
    NextFollowsLast,
    IdleNextBounded,
    MeaninglessZero,
    UnusedZero,
}

/// Whether a rule holds, when all rules before it do.
type Test = fn(&View) -> bool;

/// The first broken rule, or none: then the table is sound. To be asked
/// only when the lengths have been judged, as `table_refusal` does.
pub fn first_broken(t: &View) -> Option<Rule> {
    let tests: [(Rule, Test); 13] = [
        (Rule::SettingsInRange, settings_in_range),
        (Rule::CountsFit, counts_fit),
        (Rule::TimeAtMostCeiling, time_at_most_ceiling),
        (Rule::GuestsExist, guests_exist),
        (Rule::IdsFit, ids_fit),
        (Rule::NoIdTwice, no_id_twice),
        (Rule::CostsInRange, costs_in_range),
        (Rule::TagsAtMostCeiling, tags_at_most_ceiling),
        (Rule::TagsSpaced, tags_spaced),
        (Rule::NextFollowsLast, next_follows_last),
        (Rule::IdleNextBounded, idle_next_bounded),
        (Rule::MeaninglessZero, meaningless_zero),
        (Rule::UnusedZero, unused_zero),
    ];
    for (rule, holds) in tests {
        if !holds(t) {
            return Some(rule);
        }
    }
    None
}

fn settings_in_range(t: &View) -> bool {
    let g = t.gate();
    counts_good(g.depth, g.guests, g.capacity)
        && rule_good(g.rule)
        && (0..g.guests as usize).all(|i| t.guest(i).settings.good())
}

fn counts_fit(t: &View) -> bool {
    let g = t.gate();
    g.waiting <= g.capacity && g.flight <= g.depth
}

fn time_at_most_ceiling(t: &View) -> bool {
    t.gate().time <= CEILING
}

fn guests_exist(t: &View) -> bool {
    let guests = t.gate().guests;
    entries(t).all(|(guest, _)| guest < guests)
}

/// An id is a 32-bit number, though its place would hold more.
fn ids_fit(t: &View) -> bool {
    entries(t).all(|(_, id)| id <= u32::MAX as u64)
}

fn no_id_twice(t: &View) -> bool {
    let all: Vec<(u64, u64)> = entries(t).collect();
    for later in 1..all.len() {
        for earlier in 0..later {
            if all[earlier] == all[later] {
                return false;
            }
        }
    }
    true
}

fn costs_in_range(t: &View) -> bool {
    waiting(t).all(|w| cost_good(w.cost))
}

fn tags_at_most_ceiling(t: &View) -> bool {
    waiting(t).all(|w| w.rtag <= CEILING && w.ltag <= CEILING && w.stag <= CEILING)
}

/// Next neighbours of one guest are enough: if each is spaced from the one
/// before it, it is from all earlier ones.
fn tags_spaced(t: &View) -> bool {
    let mut last: [Option<Waiting>; MOST_GUESTS as usize] = [None; MOST_GUESTS as usize];
    for w in waiting(t) {
        let guest = w.guest as usize;
        if let Some(earlier) = last[guest] {
            if !spaced(&t.guest(guest), &earlier, &w) {
                return false;
            }
        }
        last[guest] = Some(w);
    }
    true
}

/// Reservation tags only do not fall (document 02, K14); limit and share tags
/// lie the earlier one's cost apart.
fn spaced(guest: &Guest, earlier: &Waiting, later: &Waiting) -> bool {
    let s = guest.settings;
    let apart = |tag, spacing| after(tag, earlier.cost, spacing);
    (!s.has_reservation() || earlier.rtag <= later.rtag)
        && (!s.has_limit() || apart(earlier.ltag, s.limit_spacing()) <= wide(later.ltag))
        && apart(earlier.stag, s.share_spacing()) <= wide(later.stag)
}

fn next_follows_last(t: &View) -> bool {
    guests(t).all(|(number, guest)| match last_waiting(t, number) {
        Some(last) => follows(&guest, &last),
        None => true,
    })
}

fn follows(guest: &Guest, last: &Waiting) -> bool {
    let s = guest.settings;
    let next = |tag, spacing| after(tag, last.cost, spacing);
    (!s.has_reservation() || wide(guest.rnext) == next(last.rtag, s.reservation_spacing()))
        && (!s.has_limit() || wide(guest.lnext) == next(last.ltag, s.limit_spacing()))
        && wide(guest.snext) == next(last.stag, s.share_spacing())
}

fn idle_next_bounded(t: &View) -> bool {
    guests(t).all(|(number, guest)| last_waiting(t, number).is_some() || bounded(&guest))
}

fn bounded(guest: &Guest) -> bool {
    let most = CEILING + MOST_STEP;
    (!guest.settings.has_reservation() || guest.rnext <= most)
        && (!guest.settings.has_limit() || guest.lnext <= most)
        && guest.snext <= most
}

/// Reservation numbers of a guest without one, limit numbers of an
/// unlimited guest.
fn meaningless_zero(t: &View) -> bool {
    let guests_good = guests(t).all(|(_, g)| {
        (g.settings.has_reservation() || g.rnext == 0) && (g.settings.has_limit() || g.lnext == 0)
    });
    guests_good
        && waiting(t).all(|w| {
            let s = t.guest(w.guest as usize).settings;
            (s.has_reservation() || w.rtag == 0) && (s.has_limit() || w.ltag == 0)
        })
}

fn unused_zero(t: &View) -> bool {
    let g = t.gate();
    let waiting = g.waiting as usize * WAITING_NUMBERS..g.capacity as usize * WAITING_NUMBERS;
    let flight = g.flight as usize * FLIGHT_NUMBERS..g.depth as usize * FLIGHT_NUMBERS;
    t.waiting[waiting].iter().all(|&n| n == 0) && t.flight[flight].iter().all(|&n| n == 0)
}

/// The guests with their numbers.
fn guests<'a>(t: &'a View<'a>) -> impl Iterator<Item = (u64, Guest)> + 'a {
    (0..t.gate().guests).map(|number| (number, t.guest(number as usize)))
}

/// The waiting requests, in order of acceptance.
fn waiting<'a>(t: &'a View<'a>) -> impl Iterator<Item = Waiting> + 'a {
    (0..t.gate().waiting as usize).map(|place| t.waiting(place))
}

/// Guest and id of each request, waiting and in flight.
fn entries<'a>(t: &'a View<'a>) -> impl Iterator<Item = (u64, u64)> + 'a {
    let flying = (0..t.gate().flight as usize).map(|place| t.flight(place));
    waiting(t)
        .map(|w| (w.guest, w.id))
        .chain(flying.map(|f| (f.guest, f.id)))
}

fn last_waiting(t: &View, guest: u64) -> Option<Waiting> {
    waiting(t).filter(|w| w.guest == guest).last()
}

fn wide(n: u64) -> u128 {
    n as u128
}

/// So many spacings behind a tag.
fn after(tag: u64, cost: u64, spacing: u64) -> u128 {
    wide(tag) + wide(cost) * wide(spacing)
}
