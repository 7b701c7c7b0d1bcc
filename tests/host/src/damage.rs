//! Random tables, most of them damaged, and random calls on them.

use crate::calls::{Call, Opening};
use second::calls::{read, table_refusal};
use second::numbers::{Settings, CEILING, MOST_CAPACITY, MOST_COST, MOST_CREDIT, MOST_DEPTH};
use second::numbers::{MOST_GUESTS, MOST_RATE, RULE_1, RULE_2};
use second::sample::{
    bad_cost, bad_spread, good_cost, good_spread, sound_tables, spoil, spoil_reservation, Owned,
    Prng,
};
use second::tables::{Flight, Guest, Waiting};
use second::tables::{
    CREDIT, FLIGHT_NUMBERS, GATE_NUMBERS, GUEST_NUMBERS, RULE, SETTINGS_CREDIT, SETTINGS_NUMBERS,
    WAITING_NUMBERS,
};

/// Credits at the end of their range and out of it.
const CREDITS: [u64; 5] = [0, MOST_CREDIT, MOST_CREDIT + 1, 1 << 32, u64::MAX];

/// The rules, and numbers that are none.
const RULES: [u64; 7] = [
    RULE_1,
    RULE_2,
    0,
    RULE_2 + 1,
    1 << 32 | 1,
    1 << 63,
    u64::MAX,
];

/// Tables with no damage or up to three.
pub fn tables(rng: &mut Prng) -> Owned {
    let mut tables = sound_tables(rng);
    tables.gate.truncate(GATE_NUMBERS);
    for _ in 0..rng.pick(&[0, 0, 0, 1, 1, 1, 2, 3]) {
        damage(rng, &mut tables);
    }
    tables
}

/// One damage, or none that can be seen.
pub fn damage(rng: &mut Prng, tables: &mut Owned) {
    match rng.below(16) {
        0 => rubbish(rng, tables),
        1 => cut(rng, tables),
        2..=3 => repeat_id(rng, tables),
        4 => another_credit(rng, tables),
        5 => tables.gate[RULE] = rng.pick(&RULES),
        6..=7 => another_cost(rng, tables),
        // Tags of a guest that fall, or are the same, or closer than its spacing.
        8..=9 => spoil_reservation(rng, tables),
        _ => spoil_lent(rng, tables),
    }
}

/// A guest gets another credit, or one that none may have. Nothing else is wrong then.
fn another_credit(rng: &mut Prng, tables: &mut Owned) {
    let guests = (tables.guests.len() / GUEST_NUMBERS) as u64;
    if guests > 0 {
        let at = rng.below(guests) as usize * GUEST_NUMBERS + CREDIT;
        tables.guests[at] = rng.pick(&CREDITS);
    }
}

/// A waiting request gets another cost, or one that none may have. Where it is the last of its guest the next numbers
/// follow, so that nothing else is wrong then.
fn another_cost(rng: &mut Prng, tables: &mut Owned) {
    let rows = (tables.waiting.len() / WAITING_NUMBERS) as u64;
    let waits = rows.min(tables.view().gate().waiting) as usize;
    if waits == 0 {
        return;
    }
    let place = rng.below(waits as u64) as usize;
    let mut row = tables.view().waiting(place);
    row.cost = cost(rng, 50, MOST_COST);
    overwrite(&mut tables.waiting, place, row.numbers());
    let last = !(place + 1..waits).any(|other| tables.view().waiting(other).guest == row.guest);
    let known = (tables.guests.len() / GUEST_NUMBERS) as u64;
    if last && row.guest < known {
        let owner = row.guest as usize;
        let guest = followed(tables.view().guest(owner).settings, &row);
        overwrite(&mut tables.guests, owner, guest.numbers());
    }
}

/// Whether sound tables have reservation tags of a guest that stand closer than its spacing, or are the same.
pub fn has_closer_tags(tables: &Owned) -> bool {
    if table_refusal(&tables.view()).is_some() {
        return false;
    }
    let state = read(&tables.view());
    let closer = |(at, later): (usize, &Waiting)| {
        let settings = state.guests[later.guest as usize].settings;
        let mut before = state.waiting[..at].iter();
        let last = before.rfind(|earlier| earlier.guest == later.guest);
        let apart = |last: &Waiting| last.rtag + last.cost * settings.reservation_spacing();
        settings.has_reservation() && last.is_some_and(|last| later.rtag < apart(last))
    };
    state.waiting.iter().enumerate().any(closer)
}

/// A guest of these settings, which may be any, with the next numbers that its last request leaves.
fn followed(settings: Settings, last: &Waiting) -> Guest {
    let next = |tag: u64, apart: u64| tag.wrapping_add(last.cost.wrapping_mul(apart));
    let mut guest = Guest::fresh(settings);
    if settings.has_reservation() {
        guest.rnext = next(last.rtag, settings.reservation_spacing());
    }
    if settings.has_limit() {
        guest.lnext = next(last.ltag, settings.limit_spacing());
    }
    if settings.shares != 0 {
        guest.snext = next(last.stag, settings.share_spacing());
    }
    guest
}

/// A cost: so often in a hundred a bad one, which is 0, 65 or huge, else one from 1 to `dearest`, both ends often.
pub fn cost(rng: &mut Prng, bad: u64, dearest: u64) -> u64 {
    if rng.chance(bad) {
        bad_cost(rng)
    } else {
        good_cost(rng).min(dearest)
    }
}

/// Delta and rho: so often in a hundred such as none may have, a delta of 0 or 65,536, a rho above it or huge; else any
/// that an arrival may have, 1 and 1, a rho of 0 and both ends often.
pub fn spread(rng: &mut Prng, bad: u64) -> [u64; 2] {
    if rng.chance(bad) {
        bad_spread(rng)
    } else {
        good_spread(rng)
    }
}

/// Any number of any table or of the gate changed, or a table cut anywhere. The gate keeps its numbers, which the C
/// interface always lends.
fn spoil_lent(rng: &mut Prng, tables: &mut Owned) {
    let gate = tables.gate.clone();
    spoil(rng, tables);
    if tables.gate.len() < gate.len() {
        tables.gate = gate;
    }
}

/// Places past the need filled with rubbish.
fn rubbish(rng: &mut Prng, tables: &mut Owned) {
    let table = some_table(rng, tables);
    for _ in 0..rng.between(1, 20) {
        table.push(rng.sized(64));
    }
}

/// A table cut by one number, by a row or so, or to nothing.
fn cut(rng: &mut Prng, tables: &mut Owned) {
    let table = some_table(rng, tables);
    let rows = [FLIGHT_NUMBERS, WAITING_NUMBERS, GUEST_NUMBERS];
    let gone = rng.pick(&[1, 1, rows[0], rows[1], rows[2], table.len()]);
    table.truncate(table.len().saturating_sub(gone));
}

fn some_table<'a>(rng: &mut Prng, tables: &'a mut Owned) -> &'a mut Vec<u64> {
    match rng.below(3) {
        0 => &mut tables.guests,
        1 => &mut tables.waiting,
        _ => &mut tables.flight,
    }
}

/// One request gets the id of another of its guest; one in flight also the guest. Nothing else is wrong then.
fn repeat_id(rng: &mut Prng, tables: &mut Owned) {
    let all = rows(tables);
    if all.is_empty() {
        return;
    }
    match rng.pick(&all) {
        Row::Waiting(place) => {
            let mut row = tables.view().waiting(place);
            let like = all
                .into_iter()
                .filter(|other| other.guest(tables) == row.guest);
            let like: Vec<_> = like.collect();
            row.id = rng.pick(&like).id(tables);
            overwrite(&mut tables.waiting, place, row.numbers());
        }
        Row::Flight(place) => {
            let from = rng.pick(&all);
            let (guest, id) = (from.guest(tables), from.id(tables));
            overwrite(&mut tables.flight, place, Flight { guest, id }.numbers());
        }
    }
}

fn overwrite<const WIDTH: usize>(table: &mut [u64], place: usize, row: [u64; WIDTH]) {
    table[place * WIDTH..][..WIDTH].copy_from_slice(&row);
}

/// The place of a request in its table.
#[derive(Clone, Copy)]
enum Row {
    Waiting(usize),
    Flight(usize),
}

impl Row {
    fn guest(self, tables: &Owned) -> u64 {
        match self {
            Row::Waiting(place) => tables.view().waiting(place).guest,
            Row::Flight(place) => tables.view().flight(place).guest,
        }
    }

    fn id(self, tables: &Owned) -> u64 {
        match self {
            Row::Waiting(place) => tables.view().waiting(place).id,
            Row::Flight(place) => tables.view().flight(place).id,
        }
    }
}

/// The requests that the gate counts, as far as the tables reach.
fn rows(tables: &Owned) -> Vec<Row> {
    let gate = tables.view().gate();
    let places = |length: usize, width: usize, count: u64| 0..(length / width).min(count as usize);
    let waiting = places(tables.waiting.len(), WAITING_NUMBERS, gate.waiting);
    let flight = places(tables.flight.len(), FLIGHT_NUMBERS, gate.flight);
    waiting
        .map(Row::Waiting)
        .chain(flight.map(Row::Flight))
        .collect()
}

/// The four calls, each with numbers that have to do with the tables.
pub fn calls(rng: &mut Prng, tables: &Owned) -> [Call; 4] {
    let (guest, id) = named(rng, tables);
    let time = time(rng, tables);
    let cost = cost(rng, 12, MOST_COST);
    let [delta, rho] = spread(rng, 12);
    let arrive = Call::Arrive {
        guest,
        id,
        time,
        cost,
        delta,
        rho,
    };
    let (guest, id) = named(rng, tables);
    let time = self::time(rng, tables);
    let complete = Call::Complete { guest, id, time };
    let time = self::time(rng, tables);
    let tick = Call::Tick { time };
    [Call::Open(opening(rng, tables)), arrive, complete, tick]
}

/// A guest and an id, often of a request that the tables hold.
fn named(rng: &mut Prng, tables: &Owned) -> (u64, u32) {
    let guests = tables.view().gate().guests;
    let any_id = rng.sized(10) as u32;
    let rows = rows(tables);
    match rng.below(10) {
        0 => {
            let unknown = [guests, MOST_GUESTS, u64::MAX, guests | 1 << 32];
            (rng.pick(&unknown), any_id)
        }
        1..=4 if !rows.is_empty() => {
            let row = rng.pick(&rows);
            (row.guest(tables), row.id(tables) as u32)
        }
        _ => (rng.below(guests.clamp(1, MOST_GUESTS)), any_id),
    }
}

/// A time near the gate's, near a tag, near the ceiling, or any.
fn time(rng: &mut Prng, tables: &Owned) -> u64 {
    let last = tables.view().gate().time;
    match rng.below(16) {
        0 => last.wrapping_sub(rng.between(1, 3)),
        1 => rng.pick(&[CEILING, CEILING + 1, u64::MAX, CEILING - 1]),
        2 => rng.sized(64),
        3..=5 => last,
        6..=9 if !tables.waiting.is_empty() => {
            let tag = rng.pick(&tables.waiting);
            tag.wrapping_add(rng.pick(&[0, 0, 1])).max(last)
        }
        _ => last.saturating_add(rng.sized(34)),
    }
}

/// An opening for which the tables are just long enough, then often something wrong with it.
fn opening(rng: &mut Prng, tables: &Owned) -> Opening {
    let fits = |length: usize, width: usize, most: u64| ((length / width) as u64).clamp(1, most);
    let guests = fits(tables.guests.len(), GUEST_NUMBERS, MOST_GUESTS);
    let mut opening = Opening {
        depth: fits(tables.flight.len(), FLIGHT_NUMBERS, MOST_DEPTH),
        guests,
        capacity: fits(tables.waiting.len(), WAITING_NUMBERS, MOST_CAPACITY),
        rule: rng.pick(&[RULE_1, RULE_2]),
        settings: (0..guests).flat_map(|_| settings(rng)).collect(),
    };
    for _ in 0..rng.pick(&[0, 1, 1, 2]) {
        spoil_opening(rng, &mut opening);
    }
    opening
}

pub fn settings(rng: &mut Prng) -> [u64; SETTINGS_NUMBERS] {
    let settings = second::sample::any_settings(rng);
    [
        settings.reservation,
        settings.limit,
        settings.shares,
        settings.credit,
    ]
}

fn spoil_opening(rng: &mut Prng, opening: &mut Opening) {
    // The most guests are as many as the most depth.
    let out = [0, MOST_DEPTH + 1, MOST_CAPACITY + 1, u64::MAX, 1 << 32 | 1];
    let listed = opening.settings.len();
    match rng.below(13) {
        0 => opening.depth = rng.pick(&out),
        1 => opening.guests = rng.pick(&out),
        2 => opening.capacity = rng.pick(&out),
        // One more than a table has room for.
        3 => opening.depth += 1,
        4 => opening.guests += 1,
        5 => opening.capacity += 1,
        6 => opening.settings.truncate(listed.saturating_sub(1)),
        7 => opening.settings.push(rng.sized(64)),
        8..=9 => opening.rule = rng.pick(&RULES),
        10 if listed >= SETTINGS_NUMBERS => {
            let row = rng.below((listed / SETTINGS_NUMBERS) as u64) as usize;
            opening.settings[row * SETTINGS_NUMBERS + SETTINGS_CREDIT] = rng.pick(&CREDITS);
        }
        _ if listed > 0 => {
            let at = rng.below(listed as u64) as usize;
            opening.settings[at] = rng.pick(&[0, 1, MOST_RATE, MOST_RATE + 1, u64::MAX]);
        }
        _ => {}
    }
}
