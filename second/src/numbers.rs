//! "Numbers": ranges, the ceiling, the settings of a guest and its spacings.

/// Times and tags are whole nanoseconds, 0 to 2^62 - 1.
pub const CEILING: u64 = (1 << 62) - 1;

/// Nanoseconds in a second; also the largest spacing there is.
pub const SECOND: u64 = 1_000_000_000;

pub const MOST_DEPTH: u64 = 64;
pub const MOST_GUESTS: u64 = 64;
pub const MOST_CAPACITY: u64 = 1_024;
/// The largest reservation, limit and number of shares.
pub const MOST_RATE: u64 = 1_000_000;
/// The largest credit, in requests.
pub const MOST_CREDIT: u64 = 256;
/// The largest cost of a request; the smallest is 1.
pub const MOST_COST: u64 = 64;
/// The largest delta and rho of an arrival; the smallest delta is 1.
pub const MOST_DELTA: u64 = 65_535;
/// How far a next number may lie behind the last tag.
pub const MOST_STEP: u64 = MOST_COST * SECOND;

/// Are depth, guests and capacity in their ranges?
pub fn counts_good(depth: u64, guests: u64, capacity: u64) -> bool {
    (1..=MOST_DEPTH).contains(&depth)
        && (1..=MOST_GUESTS).contains(&guests)
        && (1..=MOST_CAPACITY).contains(&capacity)
}

/// The rules for limits: under rule 1 the reservation phase does not look at
/// the limit, under rule 2 it does.
pub const RULE_1: u64 = 1;
pub const RULE_2: u64 = 2;

pub fn rule_good(rule: u64) -> bool {
    rule == RULE_1 || rule == RULE_2
}

pub fn cost_good(cost: u64) -> bool {
    (1..=MOST_COST).contains(&cost)
}

/// Is delta in its range, and rho, which counts some of the same, not above?
pub fn spread_good(delta: u64, rho: u64) -> bool {
    (1..=MOST_DELTA).contains(&delta) && rho <= delta
}

/// What a guest is opened with. Reservation 0 is none, limit 0 is unlimited.
/// The credit is how many share spacings before the time a share tag may lie.
#[derive(Clone, Copy, Debug, PartialEq, Eq)]
pub struct Settings {
    pub reservation: u64,
    pub limit: u64,
    pub shares: u64,
    pub credit: u64,
}

impl Settings {
    /// In the ranges, and no reservation above a non-zero limit.
    pub fn good(self) -> bool {
        self.reservation <= MOST_RATE
            && self.limit <= MOST_RATE
            && (1..=MOST_RATE).contains(&self.shares)
            && (self.limit == 0 || self.reservation <= self.limit)
            && self.credit <= MOST_CREDIT
    }

    pub fn has_reservation(self) -> bool {
        self.reservation != 0
    }

    pub fn has_limit(self) -> bool {
        self.limit != 0
    }

    /// Rounded down. Only for a guest that has a reservation.
    pub fn reservation_spacing(self) -> u64 {
        SECOND / self.reservation
    }

    /// Rounded up. Only for a guest that has a limit.
    pub fn limit_spacing(self) -> u64 {
        SECOND.div_ceil(self.limit)
    }

    /// Rounded down. Every guest has shares.
    pub fn share_spacing(self) -> u64 {
        SECOND / self.shares
    }
}
