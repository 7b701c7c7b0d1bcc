//! Houses with several arrays (document 02, K14): the host side. Each array has
//! a gate of its own. Here is counted, for each guest and array, what the house
//! did for the guest since its last request to that array, and handed to that
//! array's gate, of which only the calls are used.

use crate::calls::{self, Reply};
use crate::numbers::{counts_good, rule_good, MOST_DELTA};
use crate::rules::{Answer, Phase};
use crate::tables::{Gate, Tables, FLIGHT_NUMBERS, GATE_NUMBERS, GUEST, ID};

pub const MOST_ARRAYS: u64 = 8;

/// A guest's counters at an array: how many of its requests were completed, at
/// any array, since its last accepted request to this one or since the start;
/// and how many of those had been sent by reservation.
pub const COUNTER_NUMBERS: usize = 2;
pub const DELTA: usize = 0;
pub const RHO: usize = 1;

/// By which phase a request in flight was sent; 0 where a place is not used.
pub const BY_RESERVATION: u64 = 1;
pub const BY_WEIGHT: u64 = 2;

/// What a call is lent, and which array it names, of how many: the counters of
/// all arrays, and that array's tables and phases. Counters stand array by
/// array, and in each guest by guest; phases as the requests in flight stand.
pub struct House<'a> {
    pub arrays: u64,
    pub array: u64,
    pub counters: &'a mut [u64],
    pub tables: Tables<'a>,
    pub phases: &'a mut [u64],
}

/// Opens the gate of an array, whose counters are then 0. Those of the other
/// arrays may hold anything, and stay.
pub fn open(
    depth: u64,
    guests: u64,
    capacity: u64,
    rule: u64,
    settings: &[u64],
    house: &mut House,
) -> Reply {
    if !arrays_good(house.arrays) || house.array >= house.arrays {
        return Reply::refused(22);
    }
    if !counts_good(depth, guests, capacity) || !rule_good(rule) {
        return Reply::refused(1);
    }
    if !house.long_enough(depth, guests) {
        return Reply::refused(2);
    }
    let lent = &mut house.tables;
    let reply = calls::open(depth, guests, capacity, rule, settings, lent);
    if accepted(reply) {
        for guest in 0..guests {
            house.counters_of(house.array, guest).fill(0);
        }
        house.phases[..depth as usize].fill(0);
    }
    reply
}

/// A request arrives at an array, and with it what was counted.
pub fn arrive(house: &mut House, guest: u64, id: u32, time: u64, cost: u64) -> Reply {
    if let Some(number) = refusal(house, Some(guest)) {
        return Reply::refused(number);
    }
    let flying = house.flying();
    let counted = house.counters_of(house.array, guest);
    // Where nothing was completed, none was by reservation: rho is 0.
    let (delta, rho) = (counted[DELTA].max(1), counted[RHO]);
    let reply = calls::arrive(&mut house.tables, guest, id, time, cost, delta, rho);
    if accepted(reply) {
        house.counters_of(house.array, guest).fill(0);
        house.note_flight(flying, reply.answer);
    }
    reply
}

/// A request is completed at an array: it counts for its guest at all arrays.
pub fn complete(house: &mut House, guest: u64, id: u32, time: u64) -> Reply {
    if let Some(number) = refusal(house, Some(guest)) {
        return Reply::refused(number);
    }
    let mut flying = house.flying();
    let place = house.place_in_flight(guest, id);
    let reply = calls::complete(&mut house.tables, guest, id, time);
    if accepted(reply) {
        let phase = flying.remove(place.expect("what is completed was in flight"));
        for array in 0..house.arrays {
            let counted = house.counters_of(array, guest);
            count(&mut counted[DELTA]);
            if phase == BY_RESERVATION {
                count(&mut counted[RHO]);
            }
        }
        house.note_flight(flying, reply.answer);
    }
    reply
}

/// A tick at an array.
pub fn tick(house: &mut House, time: u64) -> Reply {
    if let Some(number) = refusal(house, None) {
        return Reply::refused(number);
    }
    let flying = house.flying();
    let reply = calls::tick(&mut house.tables, time);
    if accepted(reply) {
        house.note_flight(flying, reply.answer);
    }
    reply
}

fn accepted(reply: Reply) -> bool {
    !matches!(reply.answer, Answer::Refused(_))
}

fn arrays_good(arrays: u64) -> bool {
    (1..=MOST_ARRAYS).contains(&arrays)
}

/// One more, but it stops.
fn count(number: &mut u64) {
    *number = (*number + 1).min(MOST_DELTA);
}

/// 22, 2, 3, 4, 22. What else there is to refuse is the gate's.
fn refusal(house: &House, guest: Option<u64>) -> Option<u8> {
    if let Some(number) = house_refusal(house) {
        Some(number)
    } else if guest.is_some_and(|guest| guest >= house.gate().guests) {
        Some(4)
    } else if house.array >= house.arrays {
        Some(22)
    } else {
        None
    }
}

/// 22 for a number of arrays that none may have; 2 and 3 for counters and
/// phases. Their lengths are not known without the counts in the gate record,
/// so these are judged here as the gate judges them.
pub fn house_refusal(house: &House) -> Option<u8> {
    if !arrays_good(house.arrays) {
        return Some(22);
    }
    if house.tables.gate.len() < GATE_NUMBERS {
        return Some(2);
    }
    let gate = house.gate();
    if !counts_good(gate.depth, gate.guests, gate.capacity) {
        Some(3)
    } else if !house.long_enough(gate.depth, gate.guests) {
        Some(2)
    } else if !house.counters_good() || !house.phases_good() {
        Some(3)
    } else {
        None
    }
}

impl House<'_> {
    fn gate(&self) -> Gate {
        self.tables.view().gate()
    }

    /// Counters and phases, for settings that are in their ranges.
    fn long_enough(&self, depth: u64, guests: u64) -> bool {
        let rows = (self.arrays * guests) as usize;
        self.counters.len() >= rows * COUNTER_NUMBERS && self.phases.len() >= depth as usize
    }

    /// Is none of them past its stop, and rho, which counts some of the same,
    /// not above delta?
    fn counters_good(&self) -> bool {
        let rows = (self.arrays * self.gate().guests) as usize;
        let mut counters = self.counters.chunks_exact(COUNTER_NUMBERS).take(rows);
        counters.all(|counted| counted[DELTA] <= MOST_DELTA && counted[RHO] <= counted[DELTA])
    }

    /// Have just the requests in flight a phase?
    fn phases_good(&self) -> bool {
        let gate = self.gate();
        if gate.flight > gate.depth {
            return false;
        }
        let places = &self.phases[..gate.depth as usize];
        let (used, unused) = places.split_at(gate.flight as usize);
        let phases = [BY_RESERVATION, BY_WEIGHT];
        used.iter().all(|phase| phases.contains(phase)) && unused.iter().all(|phase| *phase == 0)
    }

    fn counters_of(&mut self, array: u64, guest: u64) -> &mut [u64] {
        let row = (array * self.gate().guests + guest) as usize;
        &mut self.counters[row * COUNTER_NUMBERS..][..COUNTER_NUMBERS]
    }

    /// The phases of the requests in flight.
    fn flying(&self) -> Vec<u64> {
        self.phases[..self.gate().flight as usize].to_vec()
    }

    fn place_in_flight(&self, guest: u64, id: u32) -> Option<usize> {
        let rows = self.tables.flight.chunks_exact(FLIGHT_NUMBERS);
        let mut flying = rows.take(self.gate().flight as usize);
        flying.position(|row| row[GUEST] == guest && row[ID] == id as u64)
    }

    /// Writes the phases of those that were in flight before the choice, and of
    /// what it sent, then zeros.
    fn note_flight(&mut self, mut flying: Vec<u64>, answer: Answer) {
        if let Answer::Sent { phase, .. } = answer {
            flying.push(match phase {
                Phase::Reservation => BY_RESERVATION,
                Phase::Weight => BY_WEIGHT,
            });
        }
        let depth = self.gate().depth as usize;
        flying.resize(depth, 0);
        self.phases[..depth].copy_from_slice(&flying);
    }
}
