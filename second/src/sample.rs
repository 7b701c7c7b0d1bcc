//! Random numbers, settings, tables, batches and lines, and damage to them and
//! to traces, for tests and for the traces.

use crate::arrays::{House, BY_RESERVATION, BY_WEIGHT, COUNTER_NUMBERS, MOST_ARRAYS};
use crate::batch::{ANSWER_NUMBERS, EVENT_NUMBERS, MOST_EVENTS};
use crate::calls::{read, table_refusal};
use crate::clock::Clock;
use crate::judge::{answer_line, heading, lines_of, ways, Breaker, Ties};
use crate::numbers::{
    Settings, CEILING, MOST_COST, MOST_CREDIT, MOST_DELTA, MOST_RATE, MOST_STEP, RULE_1, RULE_2,
    SECOND,
};
use crate::rules::{Answer, Phase, State};
use crate::salvage::MOST_AHEAD;
use crate::tables::{
    Flight, Gate, Guest, Tables, View, Waiting, FLIGHT_NUMBERS, GUEST_NUMBERS, WAITING_NUMBERS,
};
use crate::trace::{events, Header, ARRIVAL, COMPLETION, EVENT_BYTES, TICK};

/// A small generator of numbers (splitmix64): the same seed, the same run.
#[derive(Clone)]
pub struct Prng(u64);

impl Prng {
    pub fn new(seed: u64) -> Prng {
        Prng(seed)
    }

    pub fn any(&mut self) -> u64 {
        self.0 = self.0.wrapping_add(0x9E37_79B9_7F4A_7C15);
        let mut z = self.0;
        z = (z ^ (z >> 30)).wrapping_mul(0xBF58_476D_1CE4_E5B9);
        z = (z ^ (z >> 27)).wrapping_mul(0x94D0_49BB_1331_11EB);
        z ^ (z >> 31)
    }

    /// 0 to n - 1.
    pub fn below(&mut self, n: u64) -> u64 {
        ((self.any() as u128 * n as u128) >> 64) as u64
    }

    /// Low to high, both included.
    pub fn between(&mut self, low: u64, high: u64) -> u64 {
        low + self.below(high - low + 1)
    }

    pub fn chance(&mut self, percent: u64) -> bool {
        self.below(100) < percent
    }

    pub fn pick<T: Copy>(&mut self, from: &[T]) -> T {
        from[self.below(from.len() as u64) as usize]
    }

    /// A number of random size: small ones are as likely as large ones.
    pub fn sized(&mut self, bits: u64) -> u64 {
        let bits = self.below(bits + 1);
        match bits {
            0 => 0,
            _ => self.any() >> (64 - bits),
        }
    }
}

/// Settings from the whole range, extremes often.
pub fn any_settings(rng: &mut Prng) -> Settings {
    Settings {
        credit: any_credit(rng),
        ..any_rates(rng)
    }
}

pub fn any_credit(rng: &mut Prng) -> u64 {
    match rng.below(3) {
        0 => 0,
        1 => rng.pick(&[1, 2, 3, 30, MOST_CREDIT - 1, MOST_CREDIT]),
        _ => rng.between(1, MOST_CREDIT),
    }
}

/// A cost from 1 to 64, both ends often.
pub fn good_cost(rng: &mut Prng) -> u64 {
    match rng.below(6) {
        0..=2 => 1,
        3 => MOST_COST,
        _ => rng.between(1, MOST_COST),
    }
}

/// A cost that is none: 0, 65, huge.
pub fn bad_cost(rng: &mut Prng) -> u64 {
    let large = 65 | rng.sized(64);
    let huge = [256, 257, 1 << 32, (1 << 32) + 1, 1 << 58, u64::MAX, large];
    match rng.below(3) {
        0 => 0,
        1 => MOST_COST + 1,
        _ => rng.pick(&huge),
    }
}

/// A cost of any kind, most often a good one.
pub fn any_cost(rng: &mut Prng) -> u64 {
    if rng.chance(4) {
        bad_cost(rng)
    } else {
        good_cost(rng)
    }
}

/// Delta and rho that an arrival may have: often 1 and 1, both ends of each.
pub fn good_spread(rng: &mut Prng) -> [u64; 2] {
    let any = rng.between(1, MOST_DELTA);
    let small = rng.between(1, 9);
    let delta = match rng.below(8) {
        0..=1 => return [1, 1],
        2..=3 => 1,
        4..=5 => small,
        6 => rng.pick(&[2, 64, MOST_DELTA - 1, MOST_DELTA]),
        _ => any,
    };
    let rho = rng.below(delta + 1);
    [delta, rng.pick(&[0, 0, 1, rho, delta])]
}

/// Delta and rho that no arrival may have: a delta of 0, of 65,536, a huge
/// one; a rho just above delta, or huge.
pub fn bad_spread(rng: &mut Prng) -> [u64; 2] {
    let [delta, rho] = good_spread(rng);
    let large = MOST_DELTA + 1 + rng.sized(63);
    let huge = [
        MOST_DELTA + 2,
        1 << 32,
        (1 << 32) + 1,
        1 << 63,
        u64::MAX,
        large,
    ];
    match rng.below(6) {
        0 => [0, 0],
        1 => [0, rng.pick(&[1, rho, MOST_DELTA, u64::MAX])],
        2 => [MOST_DELTA + 1, rng.pick(&[0, 1, rho, MOST_DELTA + 1])],
        3 => [rng.pick(&huge), rng.pick(&[0, 1, rho, u64::MAX])],
        4 => [delta, delta + 1],
        _ => [delta, rng.pick(&huge)],
    }
}

/// Delta and rho of any kind, most often good ones.
pub fn any_spread(rng: &mut Prng) -> [u64; 2] {
    if rng.chance(4) {
        bad_spread(rng)
    } else {
        good_spread(rng)
    }
}

/// The same without a credit, as a trace has them.
pub fn any_rates(rng: &mut Prng) -> Settings {
    let rates = [1, 2, 3, 7, 300, 1_000, 999_999, MOST_RATE];
    let mut rate = |none: u64| {
        if rng.chance(none) {
            0
        } else if rng.chance(60) {
            rng.pick(&rates)
        } else {
            rng.between(1, MOST_RATE)
        }
    };
    let (reservation, limit, shares) = (rate(40), rate(40), rate(0));
    Settings {
        reservation,
        limit: if limit == 0 {
            0
        } else {
            limit.max(reservation)
        },
        shares,
        credit: 0,
    }
}

/// The four tables, owned.
#[derive(Clone, Debug, PartialEq, Eq)]
pub struct Owned {
    pub gate: Vec<u64>,
    pub guests: Vec<u64>,
    pub waiting: Vec<u64>,
    pub flight: Vec<u64>,
}

impl Owned {
    /// Tables of these lengths, each place holding a number that says
    /// nothing.
    pub fn dusty(gate: usize, guests: usize, waiting: usize, flight: usize) -> Owned {
        Owned {
            gate: vec![77; gate],
            guests: vec![77; guests],
            waiting: vec![77; waiting],
            flight: vec![77; flight],
        }
    }

    pub fn lend(&mut self) -> Tables<'_> {
        Tables {
            gate: &mut self.gate,
            guests: &mut self.guests,
            waiting: &mut self.waiting,
            flight: &mut self.flight,
        }
    }

    pub fn view(&self) -> View<'_> {
        View {
            gate: &self.gate,
            guests: &self.guests,
            waiting: &self.waiting,
            flight: &self.flight,
        }
    }
}

/// Random sound tables, also such as no run of events would leave. Some
/// have places beyond what the settings need, with any content.
pub fn sound_tables(rng: &mut Prng) -> Owned {
    let guests = small_or(rng, 5, 64);
    let depth = small_or(rng, 4, 64);
    let capacity = small_or(rng, 8, 200);
    let time = table_time(rng);
    let mut records: Vec<Guest> = (0..guests).map(|_| idle_guest(rng, time)).collect();
    let waiting = waiting_requests(rng, &mut records, capacity, time);
    let flight = flight_requests(rng, &waiting, guests, depth);
    let gate = Gate {
        depth,
        guests,
        capacity,
        time,
        waiting: waiting.len() as u64,
        flight: flight.len() as u64,
        rule: rng.pick(&[RULE_1, RULE_2]),
    };
    Owned {
        gate: with_rest(rng, gate.numbers().to_vec()),
        guests: with_rest(rng, records.iter().flat_map(|g| g.numbers()).collect()),
        waiting: padded(
            rng,
            waiting.iter().flat_map(|w| w.numbers()).collect(),
            capacity as usize * WAITING_NUMBERS,
        ),
        flight: padded(
            rng,
            flight.iter().flat_map(|f| f.numbers()).collect(),
            depth as usize * FLIGHT_NUMBERS,
        ),
    }
}

fn small_or(rng: &mut Prng, small: u64, large: u64) -> u64 {
    if rng.chance(80) {
        rng.between(1, small)
    } else {
        rng.between(1, large)
    }
}

fn table_time(rng: &mut Prng) -> u64 {
    match rng.below(4) {
        0 => rng.below(4),
        1 => CEILING - rng.sized(34),
        _ => rng.sized(62),
    }
}

/// A number not far from the time, in 0 to the ceiling.
fn near(rng: &mut Prng, time: u64) -> u64 {
    let away = rng.sized(34);
    let number = if rng.chance(50) {
        time.saturating_sub(away)
    } else {
        time + away
    };
    number.min(CEILING)
}

fn idle_guest(rng: &mut Prng, time: u64) -> Guest {
    let settings = any_settings(rng);
    let mut next = || near(rng, time) + rng.sized(36).min(MOST_STEP);
    let (rnext, lnext, snext) = (next(), next(), next());
    Guest {
        settings,
        rnext: if settings.has_reservation() { rnext } else { 0 },
        lnext: if settings.has_limit() { lnext } else { 0 },
        snext,
    }
}

/// Requests with tags as far apart as soundness wants or further, reservation
/// tags also closer, and the next numbers that follow from them.
fn waiting_requests(
    rng: &mut Prng,
    guests: &mut [Guest],
    capacity: u64,
    time: u64,
) -> Vec<Waiting> {
    let count = if rng.chance(20) {
        capacity
    } else {
        rng.below(capacity + 1)
    };
    // Only some guests wait, so that others are idle.
    let active = rng.between(1, guests.len() as u64);
    // In some tables no reservation is due, so that what goes, goes by weight.
    let none_due = rng.chance(30);
    let mut all: Vec<Waiting> = Vec::new();
    for _ in 0..count {
        let number = rng.below(active);
        let guest = guests[number as usize];
        let last = all.iter().rfind(|w| w.guest == number);
        let mut request = waiting_request(rng, number, &guest, last, time);
        if none_due && last.is_none() && guest.settings.has_reservation() {
            request.rtag = time + 1 + rng.sized(34);
        }
        let past = request.rtag.max(request.ltag).max(request.stag) > CEILING;
        let twice = all.iter().any(|w| w.guest == number && w.id == request.id);
        if !past && !twice {
            guests[number as usize] = followed(guest, &request);
            all.push(request);
        }
    }
    all
}

fn waiting_request(
    rng: &mut Prng,
    number: u64,
    guest: &Guest,
    last: Option<&Waiting>,
    time: u64,
) -> Waiting {
    let s = guest.settings;
    // What the guest's last left as its next reservation number, or closer.
    let rnext = match last {
        Some(last) if rng.chance(40) => closer(rng, last.rtag, guest.rnext),
        _ => guest.rnext,
    };
    let apart = if rng.chance(50) { 0 } else { 32 };
    let mut tag = |has: bool, next: u64| match (has, last) {
        (false, _) => 0,
        (true, None) => near(rng, time),
        (true, Some(_)) => next + rng.sized(apart),
    };
    Waiting {
        guest: number,
        rtag: tag(s.has_reservation(), rnext),
        ltag: tag(s.has_limit(), guest.lnext),
        stag: tag(true, guest.snext),
        id: some_id(rng),
        cost: good_cost(rng),
    }
}

/// A number from low to high, the low end often.
fn closer(rng: &mut Prng, low: u64, high: u64) -> u64 {
    let any = rng.between(low, high);
    rng.pick(&[low, low, any, any])
}

fn some_id(rng: &mut Prng) -> u64 {
    if rng.chance(5) {
        u32::MAX as u64
    } else {
        rng.sized(10)
    }
}

fn followed(guest: Guest, last: &Waiting) -> Guest {
    let s = guest.settings;
    Guest {
        settings: s,
        rnext: if s.has_reservation() {
            last.rtag + last.cost * s.reservation_spacing()
        } else {
            0
        },
        lnext: if s.has_limit() {
            last.ltag + last.cost * s.limit_spacing()
        } else {
            0
        },
        snext: last.stag + last.cost * s.share_spacing(),
    }
}

fn flight_requests(rng: &mut Prng, waiting: &[Waiting], guests: u64, depth: u64) -> Vec<Flight> {
    let count = if rng.chance(20) {
        depth
    } else {
        rng.below(depth + 1)
    };
    let mut all: Vec<Flight> = Vec::new();
    for _ in 0..count {
        let guest = rng.below(guests);
        let id = some_id(rng);
        let waits = waiting.iter().any(|w| w.guest == guest && w.id == id);
        let flies = all.iter().any(|f| f.guest == guest && f.id == id);
        if !waits && !flies {
            all.push(Flight { guest, id });
        }
    }
    all
}

fn padded(rng: &mut Prng, mut numbers: Vec<u64>, needed: usize) -> Vec<u64> {
    numbers.resize(needed, 0);
    with_rest(rng, numbers)
}

/// Sometimes with places beyond what is needed.
fn with_rest(rng: &mut Prng, mut numbers: Vec<u64>) -> Vec<u64> {
    if rng.chance(30) {
        for _ in 0..rng.between(1, 7) {
            numbers.push(rng.sized(64));
        }
    }
    numbers
}

/// Numbers at the ends of ranges, and next to them.
const EDGES: [u64; 10] = [
    CEILING,
    CEILING + 1,
    CEILING + SECOND,
    CEILING + SECOND + 1,
    CEILING + MOST_STEP,
    CEILING + MOST_STEP + 1,
    MOST_COST,
    MOST_COST + 1,
    MOST_CREDIT,
    MOST_CREDIT + 1,
];

/// Changes one number of one table, or cuts a table: most often what
/// comes out is not sound, sometimes it still is.
pub fn spoil(rng: &mut Prng, tables: &mut Owned) {
    if rng.chance(8) {
        return spoil_reservation(rng, tables);
    }
    let table = match rng.below(4) {
        0 => &mut tables.gate,
        1 => &mut tables.guests,
        2 => &mut tables.waiting,
        _ => &mut tables.flight,
    };
    if table.is_empty() {
        return;
    }
    let at = rng.below(table.len() as u64) as usize;
    let old = table[at];
    match rng.below(8) {
        0 => table.truncate(at),
        1 => table[at] = 0,
        2 => table[at] = old.wrapping_sub(1),
        3 => table[at] = old.wrapping_add(1),
        4 => table[at] = u64::MAX,
        5 => table[at] = old | 1 << 32,
        6 => table[at] = rng.pick(&EDGES),
        _ => table[at] = rng.sized(64),
    }
}

/// A waiting request gets about the reservation tag of its guest's one before
/// it, or of the time. Where it is the guest's last, the next number follows,
/// so that most often nothing but the order of tags can be wrong.
pub fn spoil_reservation(rng: &mut Prng, tables: &mut Owned) {
    if table_refusal(&tables.view()).is_some() {
        return;
    }
    let mut state = read(&tables.view());
    let pairs: Vec<(usize, usize)> = neighbours(&state);
    if pairs.is_empty() {
        return;
    }
    let (earlier, later) = rng.pick(&pairs);
    let (tag, time) = (state.waiting[earlier].rtag, state.time);
    let below = tag.saturating_sub(rng.sized(34));
    let picked = rng.pick(&[tag, tag + 1, tag.saturating_sub(1), below, time, 0]);
    let w = &mut state.waiting[later];
    w.rtag = picked;
    let (row, guest) = (*w, w.guest as usize);
    tables.waiting[later * WAITING_NUMBERS..][..WAITING_NUMBERS].copy_from_slice(&row.numbers());
    let last = state.waiting.iter().rposition(|w| w.guest == row.guest);
    if last == Some(later) && rng.chance(80) {
        let record = followed(state.guests[guest], &row);
        tables.guests[guest * GUEST_NUMBERS..][..GUEST_NUMBERS].copy_from_slice(&record.numbers());
    }
}

/// The places of one guest's next neighbours, where it has a reservation.
fn neighbours(state: &State) -> Vec<(usize, usize)> {
    let mut pairs = Vec::new();
    for (later, w) in state.waiting.iter().enumerate() {
        let before = &state.waiting[..later];
        let earlier = before.iter().rposition(|other| other.guest == w.guest);
        if state.guests[w.guest as usize].settings.has_reservation() {
            pairs.extend(earlier.map(|earlier| (earlier, later)));
        }
    }
    pairs
}

/// What a call of a house is lent, owned.
#[derive(Clone, Debug, PartialEq, Eq)]
pub struct OwnedHouse {
    pub arrays: u64,
    pub array: u64,
    pub counters: Vec<u64>,
    pub tables: Owned,
    pub phases: Vec<u64>,
}

impl OwnedHouse {
    pub fn lend(&mut self) -> House<'_> {
        House {
            arrays: self.arrays,
            array: self.array,
            counters: &mut self.counters,
            tables: self.tables.lend(),
            phases: &mut self.phases,
        }
    }
}

/// A random house of 1 to 8 arrays as a call is lent it: random sound tables,
/// a phase for each request in flight, counters from the whole range. Some have
/// places beyond what the settings need.
pub fn sound_house(rng: &mut Prng) -> OwnedHouse {
    let tables = sound_tables(rng);
    let gate = tables.view().gate();
    let arrays = rng.between(1, MOST_ARRAYS);
    let rows = arrays * gate.guests;
    let counters = (0..rows).flat_map(|_| any_counters(rng)).collect();
    let phases = (0..gate.flight).map(|_| rng.pick(&[BY_RESERVATION, BY_WEIGHT]));
    let phases = phases.collect();
    OwnedHouse {
        arrays,
        array: rng.below(arrays),
        counters: with_rest(rng, counters),
        tables,
        phases: padded(rng, phases, gate.depth as usize),
    }
}

/// Delta and rho of a guest at an array: nothing counted, few, or many up to
/// where counting stops.
pub fn any_counters(rng: &mut Prng) -> [u64; COUNTER_NUMBERS] {
    let (few, any) = (rng.below(9), rng.below(MOST_DELTA + 1));
    let delta = rng.pick(&[0, 0, few, few, any, MOST_DELTA - 1, MOST_DELTA]);
    let some = rng.below(delta + 1);
    [delta, rng.pick(&[0, some, delta.saturating_sub(1), delta])]
}

/// Changes one thing that a call of a house is lent, or which array it names:
/// most often it is then refused.
pub fn spoil_house(rng: &mut Prng, house: &mut OwnedHouse) {
    match rng.below(10) {
        0 => house.arrays = rng.pick(&[0, 1, MOST_ARRAYS, MOST_ARRAYS + 1, 1 << 32, u64::MAX]),
        1 => house.array = rng.pick(&[house.arrays, MOST_ARRAYS, 1 << 32, u64::MAX]),
        2..=4 => spoil_counters(rng, &mut house.counters),
        5..=7 => spoil_phases(rng, &mut house.phases),
        _ => spoil(rng, &mut house.tables),
    }
}

fn spoil_counters(rng: &mut Prng, counters: &mut Vec<u64>) {
    let rows = counters.len() / COUNTER_NUMBERS;
    if rows == 0 {
        return;
    }
    let row = rng.below(rows as u64) as usize;
    let numbers = &mut counters[row * COUNTER_NUMBERS..][..COUNTER_NUMBERS];
    match rng.below(6) {
        0 => counters.truncate(rng.below(counters.len() as u64) as usize),
        1 => drop(counters.pop()),
        2 => numbers[0] = rng.pick(&[MOST_DELTA, MOST_DELTA + 1, 1 << 32, u64::MAX]),
        3 => numbers[1] = rng.pick(&[MOST_DELTA, MOST_DELTA + 1, 1 << 32, u64::MAX]),
        4 => numbers[1] = numbers[0].wrapping_add(1),
        _ => numbers.swap(0, 1),
    }
}

fn spoil_phases(rng: &mut Prng, phases: &mut Vec<u64>) {
    if phases.is_empty() {
        return;
    }
    let at = rng.below(phases.len() as u64) as usize;
    // The last that is used, or the first that is not.
    let end = phases.iter().position(|phase| *phase == 0).unwrap_or(at);
    match rng.below(6) {
        0 => phases.truncate(at),
        1 => drop(phases.pop()),
        2 => phases[end] = rng.pick(&[BY_RESERVATION, BY_WEIGHT]),
        3 => phases[end.saturating_sub(1)] = 0,
        4 => phases[at] = rng.pick(&[3, 1 << 32, (1 << 32) + 1, u64::MAX]),
        _ => phases[at] = rng.pick(&[0, BY_RESERVATION, BY_WEIGHT]),
    }
}

/// A clock record of any numbers, and a reading for it.
pub fn any_clock(rng: &mut Prng) -> (Clock, u32) {
    let last = rng.sized(32) as u32;
    let time = match rng.below(6) {
        0 => rng.pick(&[CEILING, CEILING + 1, u64::MAX]),
        1 => CEILING - rng.sized(44),
        2 => rng.sized(64),
        _ => rng.sized(62),
    };
    let record = Clock {
        time,
        last,
        started: rng.pick(&[0, 1, 1, 1, 1, 2, 256, u32::MAX]),
    };
    let step = rng.sized(32) as u32;
    let any = rng.any() as u32;
    let reading = match rng.below(4) {
        0 => rng.pick(&[last, last.wrapping_add(1), last.wrapping_sub(1), any]),
        // On to the ceiling, or just past it.
        1 => {
            let left = CEILING.saturating_sub(time) / 1_000;
            last.wrapping_add(left as u32).wrapping_add(step % 2)
        }
        _ => last.wrapping_add(step),
    };
    (record, reading)
}

/// A batch of events for some tables, and room for its answers.
#[derive(Clone, Debug, PartialEq, Eq)]
pub struct Batch {
    pub events: Vec<u64>,
    pub answers: Vec<u64>,
}

/// A random batch of 0 to 300 events that mean something to these tables,
/// some of them damaged, sometimes with numbers behind the last; the room
/// for answers is now and then too short, often longer than needed, and
/// holds any numbers.
pub fn batch(rng: &mut Prng, tables: &Owned) -> Batch {
    let count = batch_length(rng);
    let mut events = batch_events(rng, tables, count);
    if rng.chance(30) {
        for _ in 0..rng.between(1, EVENT_NUMBERS as u64 - 1) {
            events.push(rng.sized(64));
        }
    }
    let room = batch_room(rng, count);
    let answers = (0..room).map(|_| rng.pick(&[77, 0, u64::MAX])).collect();
    Batch { events, answers }
}

fn batch_length(rng: &mut Prng) -> u64 {
    let most = MOST_EVENTS as u64;
    match rng.below(20) {
        0 => 0,
        1 => 1,
        2 => most,
        3 => most + 1,
        4 => rng.between(most + 1, 300),
        5..=6 => rng.below(301),
        _ => rng.between(2, 40),
    }
}

fn batch_room(rng: &mut Prng, count: u64) -> usize {
    let (row, most) = (ANSWER_NUMBERS as u64, MOST_EVENTS as u64);
    let needed = count * row;
    let room = match rng.below(20) {
        0 => needed.saturating_sub(1),
        1 => rng.below(needed + 1),
        // Enough for as many as a batch may have.
        2 => most * row,
        3..=5 => needed + rng.between(1, 3 * row),
        _ => needed,
    };
    room as usize
}

/// The events are played along where the tables are sound, so that they go
/// on from each other.
fn batch_events(rng: &mut Prng, tables: &Owned, count: u64) -> Vec<u64> {
    let mut state = match table_refusal(&tables.view()) {
        None => read(&tables.view()),
        Some(_) => State::fresh(2, 4, &[any_settings(rng), any_settings(rng)]),
    };
    let damaged = rng.pick(&[0, 0, 5, 20]);
    let mut events = Vec::new();
    for _ in 0..count {
        let mut event = batch_event(rng, &state);
        let [kind, guest, id, time, cost, delta, rho] = event;
        if rng.chance(damaged) {
            damage(rng, &mut event);
        } else if kind == ARRIVAL as u64 {
            state.arrive_spread(guest, id as u32, time, cost, delta, rho);
        } else if kind == COMPLETION as u64 {
            state.complete(guest, id as u32, time);
        } else {
            state.tick(time);
        }
        events.extend(event);
    }
    events
}

/// An event that is most often accepted.
fn batch_event(rng: &mut Prng, state: &State) -> [u64; EVENT_NUMBERS] {
    let time = batch_time(rng, state);
    let guests = state.guests.len() as u64;
    let guest = match rng.below(30) {
        0 => rng.pick(&[guests, 64, 1 << 32, u64::MAX]),
        _ => rng.below(guests),
    };
    let (arrival, completion) = (ARRIVAL as u64, COMPLETION as u64);
    match rng.below(10) {
        0..=4 => {
            let [delta, rho] = any_spread(rng);
            let id = some_id(rng);
            [arrival, guest, id, time, any_cost(rng), delta, rho]
        }
        5..=7 if !state.flight.is_empty() => {
            let f = rng.pick(&state.flight);
            [completion, f.guest, f.id, time, 0, 0, 0]
        }
        8 => [completion, guest, some_id(rng), time, 0, 0, 0],
        _ => [TICK as u64, 0, 0, time, 0, 0, 0],
    }
}

fn batch_time(rng: &mut Prng, state: &State) -> u64 {
    let last = state.time;
    match rng.below(20) {
        0 => last.saturating_sub(rng.between(1, 3)),
        1 if rng.chance(30) => rng.pick(&[CEILING, CEILING + 1, u64::MAX]),
        2..=4 if !state.waiting.is_empty() => {
            let w = rng.pick(&state.waiting);
            rng.pick(&[w.rtag, w.ltag, w.rtag, w.ltag, w.stag])
                .max(last)
        }
        5..=8 => (last + rng.sized(34)).min(CEILING),
        _ => last,
    }
}

/// An event that is often none.
fn damage(rng: &mut Prng, event: &mut [u64; EVENT_NUMBERS]) {
    let tick = TICK as u64;
    let [_, _, _, time, cost, delta, rho] = *event;
    let guest = rng.pick(&[1, 64, 256, 1 << 32]);
    let id = rng.pick(&[1, 256, 1 << 32, u64::MAX]);
    match rng.below(11) {
        0 => event[0] = rng.pick(&[3, 4, 255, 256, 257, 258, 1 << 32, u64::MAX]),
        1 => event[2] |= 1 << 32,
        2 => event[2] = rng.pick(&[1 << 32, (1 << 32) + 1, u64::MAX]),
        3 => *event = [tick, guest, 0, time, cost, delta, rho],
        4 => *event = [tick, 0, id, time, 0, 0, 0],
        // A cost where none may be, a bad one in an arrival.
        5 => event[4] = bad_cost(rng),
        6 => *event = [tick, 0, 0, time, any_cost(rng), 0, 0],
        // So with delta and rho, both or one of them.
        7 => event[5..].copy_from_slice(&bad_spread(rng)),
        8 => event[rng.pick(&[5, 6])] = rng.pick(&[0, 1, 1 << 32, u64::MAX]),
        9 => event[5..].copy_from_slice(&good_spread(rng)),
        _ => *event = [3, 64, 64, 64, 64, 64, 64].map(|bits| rng.sized(bits)),
    }
}

/// Where the time stands in the bytes of an event.
const TIME_AT: usize = 6;

/// Hurts so many in a hundred whole events: another first byte, a tick that
/// has a guest, another time.
pub fn tear_events(rng: &mut Prng, percent: u64, events: &mut [u8]) {
    for event in events.chunks_exact_mut(EVENT_BYTES) {
        if rng.chance(percent) {
            match rng.below(10) {
                0 => event[0] = rng.any() as u8,
                1 => event[0] |= rng.pick(&[3, 4, 128]),
                2 => event[..3].copy_from_slice(&[TICK, rng.below(2) as u8, 1]),
                _ => tear_time(rng, event),
            }
        }
    }
}

/// A time an hour ahead or more, before its own, or above the ceiling.
fn tear_time(rng: &mut Prng, event: &mut [u8]) {
    let mut bytes = [0; 8];
    bytes.copy_from_slice(&event[TIME_AT..EVENT_BYTES]);
    let time = u64::from_le_bytes(bytes);
    let away = rng.sized(44);
    let other = match rng.below(12) {
        0 => time.saturating_add(MOST_AHEAD),
        1 => time.saturating_add(MOST_AHEAD + 1),
        2..=3 => time.saturating_add(MOST_AHEAD + away),
        4 => time.saturating_sub(1),
        5..=6 => time.saturating_sub(away),
        7 => rng.pick(&[CEILING, CEILING + 1, u64::MAX]),
        8..=10 => CEILING + 1 + rng.sized(63),
        _ => rng.sized(64),
    };
    event[TIME_AT..].copy_from_slice(&other.to_le_bytes());
}

/// One tear behind a place of a trace: bytes lost, a page that is zeros, bits
/// flipped, rubbish, or bytes written twice.
pub fn tear(rng: &mut Prng, start: usize, bytes: &mut Vec<u8>) {
    let length = (bytes.len() - start) as u64;
    if length == 0 {
        return;
    }
    let at = start + rng.below(length) as usize;
    // Where whole events are lost, those behind the gap can still be read.
    let whole = EVENT_BYTES as u64 * rng.between(1, 20);
    let some = rng.between(1, 200);
    let size = rng.pick(&[whole, whole, some, 64]) as usize;
    let end = bytes.len().min(at + size);
    match rng.below(8) {
        0..=2 => drop(bytes.drain(at..end)),
        3..=4 => bytes[at..end].fill(0),
        5 => {
            for _ in 0..rng.between(1, 8) {
                let at = at + rng.below((end - at) as u64) as usize;
                bytes[at] ^= 1 << rng.below(8);
            }
        }
        6 => bytes[at..end].fill_with(|| rng.any() as u8),
        _ => {
            let twice = bytes[at..end].to_vec();
            bytes.splice(end..end, twice);
        }
    }
}

pub fn any_ties(rng: &mut Prng) -> Ties {
    let thrown = Ties::Random(rng.any());
    rng.pick(&[Ties::Earlier, Ties::LowGuest, Ties::HighGuest, thrown])
}

/// What another gate prints for a trace: one that breaks ties in another way
/// than ours.
pub fn bent_lines(trace: &[u8], rng: &mut Prng) -> Vec<u8> {
    let thrown = Ties::Random(rng.any());
    let ties = rng.pick(&[Ties::LowGuest, Ties::HighGuest, thrown]);
    lines_of(trace, ties)
}

/// What a gate prints that answers one event by a throw, most often with a
/// request that waits.
pub fn erring_lines(trace: &[u8], rng: &mut Prng) -> Vec<u8> {
    let ties = any_ties(rng);
    let Ok(header) = Header::read(trace) else {
        return lines_of(trace, ties);
    };
    let (mut state, mut breaker) = (header.fresh(), Breaker::new(ties));
    let errs = rng.below(events(&header, trace).count() as u64 + 1) + 1;
    let mut lines = heading();
    for (number, next) in (1..).zip(events(&header, trace)) {
        let ways = ways(&mut state, next);
        let way = breaker.pick(&state, &ways);
        let answer = if number == errs {
            thrown_answer(rng, &state)
        } else {
            way.answer(&state)
        };
        lines.extend(answer_line(number, answer));
        way.go(&mut state);
    }
    lines
}

fn thrown_answer(rng: &mut Prng, state: &State) -> Answer {
    let phase = rng.pick(&[Phase::Reservation, Phase::Weight]);
    let (guest, id) = match rng.below(8) {
        0 => return Answer::Nothing,
        1 => return Answer::Refused(rng.between(1, 22) as u8),
        2 if !state.flight.is_empty() => {
            let f = rng.pick(&state.flight);
            (f.guest, f.id)
        }
        _ if !state.waiting.is_empty() => {
            let w = rng.pick(&state.waiting);
            (w.guest, w.id)
        }
        _ => (rng.below(65), some_id(rng)),
    };
    Answer::Sent { phase, guest, id }
}

/// How printed lines are damaged.
#[derive(Clone, Copy, Debug, PartialEq, Eq, PartialOrd, Ord)]
pub enum Damage {
    /// One byte is another.
    Byte,
    /// A number is another, perhaps one that is equal in fewer bits.
    Number,
    /// A line has the answer of another.
    Answer,
    /// A line is rubbish.
    Rubbish,
    Dropped,
    Doubled,
    Swapped,
    /// A line too many, empty or rubbish.
    Inserted,
    /// The last byte of all is gone.
    LastByte,
    /// All is gone behind a place.
    Cut,
    /// A carriage return before the end of a line.
    Return,
    /// A space is doubled, or one stands at an end of a line.
    Space,
    /// A number has a zero before it, or a sign.
    Zero,
}

pub const DAMAGES: [Damage; 13] = [
    Damage::Byte,
    Damage::Number,
    Damage::Answer,
    Damage::Rubbish,
    Damage::Dropped,
    Damage::Doubled,
    Damage::Swapped,
    Damage::Inserted,
    Damage::LastByte,
    Damage::Cut,
    Damage::Return,
    Damage::Space,
    Damage::Zero,
];

/// Damages printed lines in one way, and says in which. Where lines are equal
/// they may come out as they were, and what comes out may be right.
pub fn spoil_lines(lines: &mut Vec<u8>, rng: &mut Prng) -> Damage {
    let damage = rng.pick(&DAMAGES);
    spoil_lines_by(damage, lines, rng);
    damage
}

pub fn spoil_lines_by(damage: Damage, lines: &mut Vec<u8>, rng: &mut Prng) {
    if lines.is_empty() {
        lines.extend(rubbish_line(rng));
        return;
    }
    match damage {
        Damage::Byte => spoil_byte(rng, lines),
        Damage::LastByte => drop(lines.pop()),
        Damage::Cut => lines.truncate(rng.below(lines.len() as u64) as usize),
        _ => {
            let parted = lines.split_inclusive(|byte| *byte == b'\n');
            let mut parted: Vec<Vec<u8>> = parted.map(<[u8]>::to_vec).collect();
            spoil_parted(damage, &mut parted, rng);
            *lines = parted.concat();
        }
    }
}

fn spoil_byte(rng: &mut Prng, lines: &mut [u8]) {
    let at = rng.below(lines.len() as u64) as usize;
    lines[at] = match rng.below(4) {
        0 => rng.any() as u8,
        1 => rng.pick(b"0123456789 -RWX\n"),
        // A letter in the other case, among others.
        2 => lines[at] ^ 32,
        _ => lines[at] ^ 1 << rng.below(8),
    };
}

/// Damage to one of the lines, of which there is one at least.
fn spoil_parted(damage: Damage, lines: &mut Vec<Vec<u8>>, rng: &mut Prng) {
    let at = rng.below(lines.len() as u64) as usize;
    let other = rng.below(lines.len() as u64) as usize;
    let next = (at + 1).min(lines.len() - 1);
    let other = rng.pick(&[next, other]);
    match damage {
        Damage::Answer => {
            let answer = answer_of(&lines[other]).to_vec();
            let kept = lines[at].len() - answer_of(&lines[at]).len();
            lines[at].truncate(kept);
            lines[at].extend(answer);
        }
        Damage::Rubbish => lines[at] = rubbish_line(rng),
        Damage::Dropped => drop(lines.remove(at)),
        Damage::Doubled => lines.insert(at, lines[at].clone()),
        Damage::Swapped => lines.swap(at, other),
        Damage::Inserted => {
            let place = rng.pick(&[at, lines.len()]);
            lines.insert(place, rubbish_line(rng));
        }
        _ => spoil_line(damage, &mut lines[at], rng),
    }
}

/// What follows the number of a line.
fn answer_of(line: &[u8]) -> &[u8] {
    let behind = line.iter().position(|byte| *byte == b' ');
    &line[behind.unwrap_or(0)..]
}

fn rubbish_line(rng: &mut Prng) -> Vec<u8> {
    let any = (0..rng.below(12)).map(|_| rng.any() as u8).collect();
    let mut line = match rng.below(4) {
        0 => Vec::new(),
        1 => any,
        2 => format!("{} -", rng.sized(8)).into_bytes(),
        _ => rng
            .pick(&["event answer", "trace refused 13", " ", "-"])
            .into(),
    };
    line.push(b'\n');
    line
}

/// Damage within a line.
fn spoil_line(damage: Damage, line: &mut Vec<u8>, rng: &mut Prng) {
    let end = line.len() - 1;
    match damage {
        Damage::Return => line.insert(end, b'\r'),
        Damage::Space => {
            let spaces = (0..=end).filter(|at| line[*at] == b' ');
            let mut places: Vec<usize> = spaces.collect();
            places.extend([0, end]);
            line.insert(rng.pick(&places), b' ');
        }
        _ => {
            let ended = line.pop();
            let text = String::from_utf8_lossy(line).into_owned();
            let mut fields: Vec<String> = text.split(' ').map(String::from).collect();
            let at = rng.below(fields.len() as u64) as usize;
            fields[at] = spoil_field(damage, &fields[at], rng);
            *line = fields.join(" ").into_bytes();
            line.extend(ended);
        }
    }
}

/// A field that is no number gets a number or a zero before it as well.
fn spoil_field(damage: Damage, field: &str, rng: &mut Prng) -> String {
    if damage == Damage::Zero {
        return format!("{}{field}", rng.pick(&["0", "0", "00", "+", "-"]));
    }
    let number: u128 = field.parse().unwrap_or(0);
    let other = match rng.below(10) {
        0..=2 => number.saturating_add(1),
        3 => number.saturating_sub(1),
        4 => number.saturating_mul(10),
        5 => number / 10,
        // Equal in 8 bits, in 32, in 64.
        6..=8 => number.saturating_add(1 << rng.pick(&[8, 32, 64])),
        _ => rng.sized(64) as u128,
    };
    other.to_string()
}

/// Lines of any kind for a trace: our own, another gate's, those of a gate that
/// errs, damaged ones, and some that mean nothing.
pub fn any_lines(trace: &[u8], rng: &mut Prng) -> Vec<u8> {
    let mut lines = match rng.below(8) {
        0..=1 => lines_of(trace, Ties::Earlier),
        2..=4 => bent_lines(trace, rng),
        5..=6 => return erring_lines(trace, rng),
        _ => (0..rng.below(4)).flat_map(|_| rubbish_line(rng)).collect(),
    };
    for _ in 0..rng.pick(&[0, 1, 1, 1, 2, 4]) {
        spoil_lines(&mut lines, rng);
    }
    lines
}
