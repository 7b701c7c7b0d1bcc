//! The rules of the gate on a sound state: the events with their refusals,
//! the raise, the adjustment, the stamping, the choice and the drop.
//!
//! Soundness is not tested here. In a sound state every sum below fits 64
//! bits: a tag is below 2^62, a next number at most 2^62 + 64 * 10^9, and one
//! that is raised at most 65,535 * 10^9 more.

use crate::numbers::{cost_good, spread_good, Settings, CEILING, RULE_1, RULE_2};
use crate::tables::{Flight, Guest, Waiting};

#[derive(Clone, Copy, Debug, PartialEq, Eq)]
pub enum Phase {
    Reservation,
    Weight,
}

/// The answer to an event or to a call.
#[derive(Clone, Copy, Debug, PartialEq, Eq)]
pub enum Answer {
    Nothing,
    Sent { phase: Phase, guest: u64, id: u64 },
    Refused(u8),
}

impl Answer {
    /// Kind (0 nothing, 1 sent by reservation, 2 sent by weight, 3 refused),
    /// guest and id sent, refusal. What an answer does not have is 0.
    pub fn numbers(self) -> [u64; 4] {
        match self {
            Answer::Nothing => [0, 0, 0, 0],
            Answer::Sent { phase, guest, id } => match phase {
                Phase::Reservation => [1, guest, id, 0],
                Phase::Weight => [2, guest, id, 0],
            },
            Answer::Refused(number) => [3, 0, 0, number as u64],
        }
    }
}

/// A gate with the requests it holds. Waiting requests stand in order of
/// acceptance, those in flight in order of sending.
#[derive(Clone, Debug, PartialEq, Eq)]
pub struct State {
    pub depth: usize,
    pub capacity: usize,
    pub time: u64,
    /// The rule for limits, 1 or 2.
    pub rule: u64,
    pub guests: Vec<Guest>,
    pub waiting: Vec<Waiting>,
    pub flight: Vec<Flight>,
}

/// The three tags of one request; 0 where the guest has no such tag.
#[derive(Clone, Copy)]
struct Tags {
    rtag: u64,
    ltag: u64,
    stag: u64,
}

impl State {
    /// A fresh gate under rule 1.
    pub fn fresh(depth: usize, capacity: usize, settings: &[Settings]) -> State {
        State::fresh_under(RULE_1, depth, capacity, settings)
    }

    pub fn fresh_under(rule: u64, depth: usize, capacity: usize, settings: &[Settings]) -> State {
        State {
            depth,
            capacity,
            time: 0,
            rule,
            guests: settings.iter().copied().map(Guest::fresh).collect(),
            waiting: Vec::with_capacity(capacity),
            flight: Vec::with_capacity(depth),
        }
    }

    /// An arrival in a house with one array: delta and rho are 1.
    pub fn arrive(&mut self, guest: u64, id: u32, t: u64, cost: u64) -> Answer {
        self.arrive_spread(guest, id, t, cost, 1, 1)
    }

    /// An arrival of a guest that is spread over several arrays.
    pub fn arrive_spread(
        &mut self,
        guest: u64,
        id: u32,
        t: u64,
        cost: u64,
        delta: u64,
        rho: u64,
    ) -> Answer {
        match self.take_spread(guest, id, t, cost, delta, rho) {
            Ok(()) => self.choose(),
            Err(number) => Answer::Refused(number),
        }
    }

    pub fn complete(&mut self, guest: u64, id: u32, t: u64) -> Answer {
        match self.take_completion(guest, id, t) {
            Ok(()) => self.choose(),
            Err(number) => Answer::Refused(number),
        }
    }

    pub fn tick(&mut self, t: u64) -> Answer {
        match self.take_tick(t) {
            Ok(()) => self.choose(),
            Err(number) => Answer::Refused(number),
        }
    }

    /// An arrival up to the choice, or its refusal; delta and rho are 1.
    pub fn take_arrival(&mut self, guest: u64, id: u32, t: u64, cost: u64) -> Result<(), u8> {
        self.take_spread(guest, id, t, cost, 1, 1)
    }

    /// An arrival with its delta and rho up to the choice, or its refusal.
    pub fn take_spread(
        &mut self,
        guest: u64,
        id: u32,
        t: u64,
        cost: u64,
        delta: u64,
        rho: u64,
    ) -> Result<(), u8> {
        let id = id as u64;
        if let Some(number) = self.named_refusal(guest, t) {
            return Err(number);
        }
        if let Some(number) = asked_refusal(cost, delta, rho) {
            return Err(number);
        }
        if let Some(number) = self.room_refusal(guest, id) {
            return Err(number);
        }
        // Judged before anything is changed: 9 is the last refusal.
        let from = self.adjusted_from(guest);
        let raised = raised(self.guests[guest as usize], delta, rho);
        let tags = stamp(&raised, self.idle(guest), t);
        if self.would_pass(from, tags, t) {
            return Err(9);
        }
        if let Some(m) = from {
            self.adjust(m, t);
        }
        self.accept(guest, id, tags, cost);
        self.time = t;
        Ok(())
    }

    /// A completion up to the choice, or its refusal.
    pub fn take_completion(&mut self, guest: u64, id: u32, t: u64) -> Result<(), u8> {
        if let Some(number) = self.named_refusal(guest, t) {
            return Err(number);
        }
        let id = id as u64;
        let named = Flight { guest, id };
        let Some(place) = self.flight.iter().position(|f| *f == named) else {
            return Err(10);
        };
        self.flight.remove(place);
        self.time = t;
        Ok(())
    }

    /// A tick up to the choice, or its refusal.
    pub fn take_tick(&mut self, t: u64) -> Result<(), u8> {
        if let Some(number) = self.time_refusal(t) {
            return Err(number);
        }
        self.time = t;
        Ok(())
    }

    /// 5, 6.
    fn time_refusal(&self, t: u64) -> Option<u8> {
        if t > CEILING {
            Some(5)
        } else if t < self.time {
            Some(6)
        } else {
            None
        }
    }

    /// 4, 5, 6: the refusals of any event that names a guest.
    fn named_refusal(&self, guest: u64, t: u64) -> Option<u8> {
        if guest >= self.guests.len() as u64 {
            Some(4)
        } else {
            self.time_refusal(t)
        }
    }

    /// 7, 8.
    fn room_refusal(&self, guest: u64, id: u64) -> Option<u8> {
        if self.holds(guest, id) {
            Some(7)
        } else if self.waiting.len() == self.capacity {
            Some(8)
        } else {
            None
        }
    }

    fn holds(&self, guest: u64, id: u64) -> bool {
        self.waiting.iter().any(|w| w.guest == guest && w.id == id)
            || self.flight.iter().any(|f| f.guest == guest && f.id == id)
    }

    /// Requests in flight do not count.
    fn idle(&self, guest: u64) -> bool {
        !self.waiting.iter().any(|w| w.guest == guest)
    }

    /// The smallest share tag waiting, if an arrival of this guest adjusts
    /// the share tags. At an idle guest all that wait are others'.
    fn adjusted_from(&self, guest: u64) -> Option<u64> {
        if self.idle(guest) {
            self.waiting.iter().map(|w| w.stag).min()
        } else {
            None
        }
    }

    /// Would a tag given or a share tag moved pass the ceiling? A next
    /// number may pass it.
    fn would_pass(&self, from: Option<u64>, tags: Tags, t: u64) -> bool {
        let given = tags.rtag > CEILING || tags.ltag > CEILING || tags.stag > CEILING;
        let moves_past = |m| self.waiting.iter().any(|w| moved(w.stag, m, t) > CEILING);
        given || from.is_some_and(moves_past)
    }

    /// Moves every waiting share tag, and the next share number of every
    /// guest with something waiting, by t - m.
    fn adjust(&mut self, m: u64, t: u64) {
        let mut waits = [false; 64];
        for w in &mut self.waiting {
            w.stag = moved(w.stag, m, t);
            waits[w.guest as usize] = true;
        }
        for (guest, waits) in self.guests.iter_mut().zip(waits) {
            if waits {
                guest.snext = moved(guest.snext, m, t);
            }
        }
    }

    /// Sets the next numbers, which lie as many spacings on as the request
    /// costs, and places it last.
    fn accept(&mut self, guest: u64, id: u64, tags: Tags, cost: u64) {
        let Tags { rtag, ltag, stag } = tags;
        let record = &mut self.guests[guest as usize];
        let s = record.settings;
        if s.has_reservation() {
            record.rnext = rtag + cost * s.reservation_spacing();
        }
        if s.has_limit() {
            record.lnext = ltag + cost * s.limit_spacing();
        }
        record.snext = stag + cost * s.share_spacing();
        self.waiting.push(Waiting {
            guest,
            id,
            rtag,
            ltag,
            stag,
            cost,
        });
    }

    /// The choice at the gate's time.
    pub fn choose(&mut self) -> Answer {
        if self.flight.len() == self.depth {
            return Answer::Nothing;
        }
        if let Some(place) = self.due_by_reservation() {
            return self.send(place, Phase::Reservation);
        }
        if let Some(place) = self.due_by_weight() {
            return self.send(place, Phase::Weight);
        }
        Answer::Nothing
    }

    /// Is the request unlimited, or its limit tag at or before the time?
    pub fn open(&self, w: &Waiting) -> bool {
        w.ltag <= self.time || !self.guests[w.guest as usize].settings.has_limit()
    }

    /// Is its reservation tag at or before the time, under rule 2 of an open
    /// one?
    pub fn due(&self, w: &Waiting) -> bool {
        w.rtag <= self.time
            && self.guests[w.guest as usize].settings.has_reservation()
            && (self.rule != RULE_2 || self.open(w))
    }

    /// The smallest reservation tag among the due. `min_by_key` gives the
    /// first of equals, so ties go to the earlier accepted.
    fn due_by_reservation(&self) -> Option<usize> {
        let waiting = self.waiting.iter().enumerate();
        let due = waiting.filter(|(_, w)| self.due(w));
        let first = due.min_by_key(|(_, w)| w.rtag);
        first.map(|(place, _)| place)
    }

    /// The smallest share tag among the open; same tie rule.
    fn due_by_weight(&self) -> Option<usize> {
        let waiting = self.waiting.iter().enumerate();
        let open = waiting.filter(|(_, w)| self.open(w));
        let first = open.min_by_key(|(_, w)| w.stag);
        first.map(|(place, _)| place)
    }

    /// Takes the request out of the waiting, those behind it move down,
    /// and places it last in flight.
    pub(crate) fn send(&mut self, place: usize, phase: Phase) -> Answer {
        let sent = self.waiting.remove(place);
        let Waiting { guest, id, .. } = sent;
        self.flight.push(Flight { guest, id });
        if phase == Phase::Weight {
            self.drop_reservation(guest, sent.cost);
        }
        Answer::Sent { phase, guest, id }
    }

    /// After a weight send of this cost: the guest does not pay its
    /// reservation for spare service. Where an arrival had a rho of 0 what is
    /// left may lie less than the cost behind the sent one, so it may fall to
    /// the time or before it, and stops at 0 (document 02, K14). The next
    /// number follows the last that waits.
    fn drop_reservation(&mut self, guest: u64, cost: u64) {
        let record = &mut self.guests[guest as usize];
        if !record.settings.has_reservation() {
            return;
        }
        let spacing = record.settings.reservation_spacing();
        let dropped = |number: u64| number.saturating_sub(cost * spacing);
        record.rnext = dropped(record.rnext);
        for w in self.waiting.iter_mut().filter(|w| w.guest == guest) {
            w.rtag = dropped(w.rtag);
            record.rnext = w.rtag + w.cost * spacing;
        }
    }
}

/// 18, 20: what an arrival says of itself.
fn asked_refusal(cost: u64, delta: u64, rho: u64) -> Option<u8> {
    if !cost_good(cost) {
        Some(18)
    } else if !spread_good(delta, rho) {
        Some(20)
    } else {
        None
    }
}

/// A guest as an arrival finds it, for what its other arrays did for it since
/// its last request to this one (document 02, K14): delta - 1 spacings on in
/// limit and shares, rho - 1 in the reservation. So for a rho of 0 that falls
/// by one, but not below 0.
fn raised(guest: Guest, delta: u64, rho: u64) -> Guest {
    let s = guest.settings;
    let mut raised = guest;
    if s.has_reservation() {
        let spacing = s.reservation_spacing();
        raised.rnext = (guest.rnext + rho * spacing).saturating_sub(spacing);
    }
    if s.has_limit() {
        raised.lnext += (delta - 1) * s.limit_spacing();
    }
    raised.snext += (delta - 1) * s.share_spacing();
    raised
}

/// Each tag the guest has is the larger of its next number and t; but for
/// the share tag.
fn stamp(guest: &Guest, idle: bool, t: u64) -> Tags {
    let s = guest.settings;
    Tags {
        rtag: if s.has_reservation() {
            guest.rnext.max(t)
        } else {
            0
        },
        ltag: if s.has_limit() { guest.lnext.max(t) } else { 0 },
        stag: share_tag(guest, idle, t),
    }
}

/// The larger of the next number and b, which lies the guest's credit before
/// t, so that a guest that was quiet may have a burst (document 02, K6); but
/// at an idle guest not later than t, so that one that comes back does not
/// pay for what it got while it was alone (K3).
fn share_tag(guest: &Guest, idle: bool, t: u64) -> u64 {
    let s = guest.settings;
    let b = t.saturating_sub(s.credit * s.share_spacing());
    let tag = guest.snext.max(b);
    if idle {
        tag.min(t)
    } else {
        tag
    }
}

/// A share number moved by t - m, up or down. It is at least m, the
/// smallest share tag waiting, so the move goes no lower than t.
fn moved(number: u64, m: u64, t: u64) -> u64 {
    number - m + t
}
