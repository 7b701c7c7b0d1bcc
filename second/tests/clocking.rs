//! A board with a short clock: document 02, K13.

use second::clock::{clock_read, Clock};
use second::sample::{any_clock, Prng};
use second::CEILING;

fn clock(time: u64, last: u32) -> Clock {
    Clock {
        time,
        last,
        started: 1,
    }
}

#[test]
fn the_first_reading_sets_time_0() {
    for reading in [0, 1, 7, u32::MAX] {
        // Whatever else an unused record holds.
        for (time, last) in [(0, 0), (5, 9), (u64::MAX, u32::MAX)] {
            let mut record = Clock {
                time,
                last,
                started: 0,
            };
            assert_eq!(clock_read(&mut record, reading), (0, 0));
            assert_eq!(record, clock(0, reading));
        }
    }
    assert_eq!(Clock::default().started, 0);
}

#[test]
fn each_reading_moves_it_on() {
    let mut record = Clock::default();
    let readings = [100, 100, 101, 1_101, u32::MAX, 0, 4, 4];
    let mut times = Vec::new();
    for reading in readings {
        let (refusal, time) = clock_read(&mut record, reading);
        assert_eq!((refusal, record.time, record.last), (0, time, reading));
        times.push(time);
    }
    let far = (u32::MAX as u64 - 100) * 1_000;
    let wanted = [
        0,
        0,
        1_000,
        1_001_000,
        far,
        far + 1_000,
        far + 5_000,
        far + 5_000,
    ];
    assert_eq!(times, wanted);
}

#[test]
fn across_the_wrap() {
    // One back is nearly a whole round on.
    let mut record = clock(0, 1);
    assert_eq!(clock_read(&mut record, 0), (0, 4_294_967_295_000));
    let mut record = clock(0, u32::MAX);
    assert_eq!(
        clock_read(&mut record, u32::MAX - 1),
        (0, 4_294_967_295_000)
    );
    let mut record = clock(3, 1 << 31);
    assert_eq!(clock_read(&mut record, 0), (0, 2_147_483_648_003));
    // A whole round is not seen.
    let mut record = clock(3, 77);
    assert_eq!(clock_read(&mut record, 77), (0, 3));
}

#[test]
fn past_the_ceiling_is_5_and_leaves_the_record() {
    let mut record = clock(CEILING - 1_000, 9);
    assert_eq!(clock_read(&mut record, 10), (0, CEILING));
    assert_eq!(clock_read(&mut record, 10), (0, CEILING));
    for reading in [11, 9, 0, u32::MAX] {
        assert_eq!(clock_read(&mut record, reading), (5, 0));
        assert_eq!(record, clock(CEILING, 10));
    }
    let mut record = clock(CEILING - 999, 9);
    assert_eq!(clock_read(&mut record, 10), (5, 0));
    assert_eq!(record, clock(CEILING - 999, 9));
}

#[test]
fn any_record_is_taken() {
    // Times above the ceiling are past it with any reading.
    for time in [CEILING + 1, u64::MAX] {
        for reading in [9, 10, 8] {
            let mut record = clock(time, 9);
            assert_eq!(clock_read(&mut record, reading), (5, 0));
            assert_eq!(record, clock(time, 9));
        }
    }
    // Any number but 0 is a reading taken, and stays.
    for started in [2, 1 << 31, u32::MAX] {
        let mut record = Clock {
            started,
            ..clock(5, 9)
        };
        assert_eq!(clock_read(&mut record, 10), (0, 1_005));
        assert_eq!(record.started, started);
    }
}

/// Readings of a counter that really runs, less than a round apart.
#[test]
fn it_follows_a_counter() {
    let mut rng = Prng::new(111);
    for _ in 0..200 {
        let start = rng.sized(40);
        let mut count = start;
        let mut record = Clock::default();
        for _ in 0..100 {
            let (refusal, time) = clock_read(&mut record, count as u32);
            assert_eq!((refusal, time), (0, (count - start) * 1_000));
            count += rng.sized(32);
        }
    }
}

/// In signed wide numbers, on any record.
#[test]
fn random_records_as_a_plain_reading_has_them() {
    let mut rng = Prng::new(112);
    let (mut taken, mut first, mut past) = (0, 0, 0);
    for _ in 0..20_000 {
        let (mut record, reading) = any_clock(&mut rng);
        let before = record;
        let answer = clock_read(&mut record, reading);
        let round = 1i128 << 32;
        let apart = (reading as i128 - before.last as i128 + round) % round;
        let time = before.time as i128 + apart * 1_000;
        if before.started == 0 {
            assert_eq!((answer, record), ((0, 0), clock(0, reading)));
            first += 1;
        } else if time > CEILING as i128 {
            assert_eq!((answer, record), ((5, 0), before));
            past += 1;
        } else {
            let time = time as u64;
            let started = before.started;
            assert_eq!(answer, (0, time));
            assert_eq!(
                record,
                Clock {
                    time,
                    last: reading,
                    started
                }
            );
            taken += 1;
        }
    }
    assert!(taken > 5_000 && first > 1_000 && past > 1_000);
}
