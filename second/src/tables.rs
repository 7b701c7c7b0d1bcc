//! "The tables": the numbers the host lends, and the records they hold.
//!
//! A record is a row of numbers; here stand how many each kind has, and
//! which number stands where.

use crate::numbers::Settings;

pub const GATE_NUMBERS: usize = 7;
pub const DEPTH: usize = 0;
pub const GUESTS: usize = 1;
pub const CAPACITY: usize = 2;
pub const TIME: usize = 3;
pub const WAITING: usize = 4;
pub const FLIGHT: usize = 5;
pub const RULE: usize = 6;

/// A guest's rates, in a list of settings and in its record.
pub const RESERVATION: usize = 0;
pub const LIMIT: usize = 1;
pub const SHARES: usize = 2;

/// The credit is the last of a guest's settings and of its record.
pub const SETTINGS_NUMBERS: usize = 4;
pub const SETTINGS_CREDIT: usize = 3;

pub const GUEST_NUMBERS: usize = 7;
pub const RNEXT: usize = 3;
pub const LNEXT: usize = 4;
pub const SNEXT: usize = 5;
pub const CREDIT: usize = 6;

/// Guest and id of a request, waiting or in flight.
pub const GUEST: usize = 0;
pub const ID: usize = 1;

pub const WAITING_NUMBERS: usize = 6;
pub const RTAG: usize = 2;
pub const LTAG: usize = 3;
pub const STAG: usize = 4;
pub const COST: usize = 5;

pub const FLIGHT_NUMBERS: usize = 2;

/// A guest record: its settings and its three next numbers.
#[derive(Clone, Copy, Debug, PartialEq, Eq)]
pub struct Guest {
    pub settings: Settings,
    pub rnext: u64,
    pub lnext: u64,
    pub snext: u64,
}

/// A waiting request with its reservation, limit and share tag and its cost.
#[derive(Clone, Copy, Debug, PartialEq, Eq)]
pub struct Waiting {
    pub guest: u64,
    pub id: u64,
    pub rtag: u64,
    pub ltag: u64,
    pub stag: u64,
    pub cost: u64,
}

/// A request in flight.
#[derive(Clone, Copy, Debug, PartialEq, Eq)]
pub struct Flight {
    pub guest: u64,
    pub id: u64,
}

impl Guest {
    pub fn fresh(settings: Settings) -> Guest {
        Guest {
            settings,
            rnext: 0,
            lnext: 0,
            snext: 0,
        }
    }

    pub fn numbers(self) -> [u64; GUEST_NUMBERS] {
        let s = self.settings;
        [
            s.reservation,
            s.limit,
            s.shares,
            self.rnext,
            self.lnext,
            self.snext,
            s.credit,
        ]
    }
}

impl Waiting {
    pub fn numbers(self) -> [u64; WAITING_NUMBERS] {
        [
            self.guest, self.id, self.rtag, self.ltag, self.stag, self.cost,
        ]
    }
}

impl Flight {
    pub fn numbers(self) -> [u64; FLIGHT_NUMBERS] {
        [self.guest, self.id]
    }
}

/// The gate record.
#[derive(Clone, Copy, Debug, PartialEq, Eq)]
pub struct Gate {
    pub depth: u64,
    pub guests: u64,
    pub capacity: u64,
    pub time: u64,
    pub waiting: u64,
    pub flight: u64,
    pub rule: u64,
}

impl Gate {
    pub fn numbers(self) -> [u64; GATE_NUMBERS] {
        [
            self.depth,
            self.guests,
            self.capacity,
            self.time,
            self.waiting,
            self.flight,
            self.rule,
        ]
    }
}

/// The four tables, lent to be read. Their lengths have been judged before
/// a record is taken out.
#[derive(Clone, Copy)]
pub struct View<'a> {
    pub gate: &'a [u64],
    pub guests: &'a [u64],
    pub waiting: &'a [u64],
    pub flight: &'a [u64],
}

/// The four tables, lent to be written.
pub struct Tables<'a> {
    pub gate: &'a mut [u64],
    pub guests: &'a mut [u64],
    pub waiting: &'a mut [u64],
    pub flight: &'a mut [u64],
}

impl Tables<'_> {
    pub fn view(&self) -> View<'_> {
        View {
            gate: self.gate,
            guests: self.guests,
            waiting: self.waiting,
            flight: self.flight,
        }
    }
}

impl View<'_> {
    pub fn gate(&self) -> Gate {
        let g = self.gate;
        Gate {
            depth: g[DEPTH],
            guests: g[GUESTS],
            capacity: g[CAPACITY],
            time: g[TIME],
            waiting: g[WAITING],
            flight: g[FLIGHT],
            rule: g[RULE],
        }
    }

    pub fn guest(&self, place: usize) -> Guest {
        let n = &self.guests[place * GUEST_NUMBERS..][..GUEST_NUMBERS];
        Guest {
            settings: settings_from(n, n[CREDIT]),
            rnext: n[RNEXT],
            lnext: n[LNEXT],
            snext: n[SNEXT],
        }
    }

    pub fn waiting(&self, place: usize) -> Waiting {
        let n = &self.waiting[place * WAITING_NUMBERS..][..WAITING_NUMBERS];
        Waiting {
            guest: n[GUEST],
            id: n[ID],
            rtag: n[RTAG],
            ltag: n[LTAG],
            stag: n[STAG],
            cost: n[COST],
        }
    }

    pub fn flight(&self, place: usize) -> Flight {
        let n = &self.flight[place * FLIGHT_NUMBERS..][..FLIGHT_NUMBERS];
        Flight {
            guest: n[GUEST],
            id: n[ID],
        }
    }

    /// Long enough for these settings, which are in their ranges?
    pub fn long_enough(&self, depth: u64, guests: u64, capacity: u64) -> bool {
        self.gate.len() >= GATE_NUMBERS
            && self.guests.len() >= guests as usize * GUEST_NUMBERS
            && self.waiting.len() >= capacity as usize * WAITING_NUMBERS
            && self.flight.len() >= depth as usize * FLIGHT_NUMBERS
    }
}

/// The settings of one guest in a list of settings.
pub fn settings_at(list: &[u64], guest: usize) -> Settings {
    let n = &list[guest * SETTINGS_NUMBERS..][..SETTINGS_NUMBERS];
    settings_from(n, n[SETTINGS_CREDIT])
}

/// Settings whose rates stand first in a row.
fn settings_from(row: &[u64], credit: u64) -> Settings {
    Settings {
        reservation: row[RESERVATION],
        limit: row[LIMIT],
        shares: row[SHARES],
        credit,
    }
}
