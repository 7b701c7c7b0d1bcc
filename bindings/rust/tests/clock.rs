//! Readings of a short clock, through the wrapper.

use sgq::raw;
use sgq::{Clock, Gate, Refusal, Rule, Settings, CEILING};

/// A clock that is started, with this time and this last reading.
fn started(time: u64, last: u32) -> Clock {
    Clock::from(raw::Clock {
        time,
        last,
        started: 1,
    })
}

#[test]
fn first_reading_sets_time_0() {
    let mut clock = Clock::new();
    assert_eq!(clock.time(), None);
    assert_eq!(clock.read(77), Ok(0));
    assert_eq!(clock.time(), Some(0));
    assert_eq!(clock, started(0, 77));
}

#[test]
fn first_reading_whatever_the_record_holds() {
    let mut clock = Clock::from(raw::Clock {
        time: u64::MAX,
        last: 5,
        started: 0,
    });
    assert_eq!(clock.time(), None);
    assert_eq!(clock.read(6), Ok(0));
    assert_eq!(clock, started(0, 6));
}

#[test]
fn microseconds_are_a_thousand_nanoseconds() {
    let mut clock = Clock::new();
    let told = [10, 10, 11, 2_011].map(|reading| clock.read(reading));
    assert_eq!(told, [Ok(0), Ok(0), Ok(1_000), Ok(2_001_000)]);
}

#[test]
fn across_the_wrap() {
    let mut clock = Clock::new();
    let told = [u32::MAX, 0, u32::MAX].map(|reading| clock.read(reading));
    assert_eq!(
        told,
        [Ok(0), Ok(1_000), Ok(u64::from(u32::MAX) * 1_000 + 1_000)]
    );
}

#[test]
fn a_whole_round_is_not_seen() {
    let mut clock = started(9, 3);
    assert_eq!(clock.read(3), Ok(9));
}

#[test]
fn the_ceiling_is_a_time_and_past_it_none_is() {
    let mut clock = started(CEILING - 1_000, 4);
    assert_eq!(clock.read(5), Ok(CEILING));
    let before = clock;
    for reading in [6, 4, u32::MAX] {
        assert_eq!(clock.read(reading), Err(Refusal::TimeAboveCeiling));
        assert_eq!(clock, before);
    }
    assert_eq!(clock.read(5), Ok(CEILING));
}

#[test]
fn a_time_above_the_ceiling_is_refused_at_every_reading() {
    for time in [CEILING + 1, u64::MAX] {
        let mut clock = started(time, 8);
        let before = clock;
        for reading in [0, 8, 9, u32::MAX] {
            assert_eq!(clock.read(reading), Err(Refusal::TimeAboveCeiling));
            assert_eq!(clock, before);
        }
    }
}

#[test]
fn any_other_number_is_started() {
    for number in [1, 2, u32::MAX] {
        let record = raw::Clock {
            time: 7,
            last: 1,
            started: number,
        };
        let mut clock = Clock::from(record);
        assert_eq!(clock.read(2), Ok(1_007));
        assert_eq!(clock.record().started, number);
    }
}

#[test]
fn a_gate_takes_its_times() -> Result<(), Refusal> {
    let guests = [Settings {
        reservation: 0,
        limit: 0,
        shares: 1,
        credit: 0,
    }];
    let mut gate = Gate::open(1, 8, Rule::One, &guests)?;
    let mut clock = Clock::new();
    for reading in [u32::MAX - 1, 0, 1] {
        let _ = gate.tick(clock.read(reading)?)?;
    }
    assert_eq!(gate.time(), 3_000);
    Ok(())
}
