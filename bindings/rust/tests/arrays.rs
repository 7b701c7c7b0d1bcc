//! A house with several arrays through the wrapper: what is counted, what it does to tags, and what is refused.

use sgq::{raw, Answer, Arrays, Counter, Outcome, Phase, Refusal, Rule, Settings, Size};
use sgq::{MOST_ARRAYS, MOST_DELTA};

const MS: u64 = 1_000_000;
const SMALL: Size = Size {
    depth: 1,
    capacity: 4,
};

fn settings(reservation: u64, limit: u64, shares: u64) -> Settings {
    Settings {
        reservation,
        limit,
        shares,
        credit: 0,
    }
}

/// So many arrays with one place each.
fn open(arrays: usize, guests: &[Settings]) -> Arrays {
    Arrays::open(&vec![SMALL; arrays], Rule::One, guests).expect("good settings")
}

/// Guest 0 is sent this request, and no place is free then.
fn sent(phase: Phase, id: u32) -> Result<Outcome, Refusal> {
    let answer = Answer::Sent {
        phase,
        guest: 0,
        id,
    };
    Ok(Outcome { answer, wake: None })
}

fn nothing(wake: Option<u64>) -> Result<Outcome, Refusal> {
    let answer = Answer::Nothing;
    Ok(Outcome { answer, wake })
}

fn counters(arrays: &Arrays, guest: u64) -> Vec<(u64, u64)> {
    let all = (0..arrays.count()).filter_map(|array| arrays.counter(array, guest));
    all.map(|Counter { delta, rho }| (delta, rho)).collect()
}

/// Holds a refused call to its refusal, and the house to what it was.
fn refused(
    arrays: &mut Arrays,
    refusal: Refusal,
    call: impl Fn(&mut Arrays) -> Result<Outcome, Refusal>,
) {
    let before = arrays.clone();
    assert_eq!(call(arrays), Err(refusal));
    assert_eq!(*arrays, before);
}

/// One in 100 ms reserved, one in 50 ms the limit, both over two arrays. What one array does, the other's next tags pay.
#[test]
fn counted_at_all_arrays() {
    use Phase::{Reservation, Weight};
    let mut arrays = open(2, &[settings(10, 20, 100)]);
    assert_eq!(arrays.arrive(0, 0, 1, 0, 1), sent(Reservation, 1));
    assert_eq!(arrays.arrive(1, 0, 2, 0, 1), sent(Reservation, 2));
    assert_eq!(counters(&arrays, 0), [(0, 0), (0, 0)]);
    assert_eq!(arrays.complete(0, 0, 1, 10 * MS), nothing(None));
    assert_eq!(counters(&arrays, 0), [(1, 1), (1, 1)]);
    assert_eq!(arrays.complete(1, 0, 2, 20 * MS), nothing(None));
    // Delta 2 and rho 2: one spacing more than the next numbers.
    let wake = Some(100 * MS);
    assert_eq!(arrays.arrive(0, 0, 3, 20 * MS, 1), nothing(wake));
    assert_eq!(counters(&arrays, 0), [(0, 0), (2, 2)]);
    let request = arrays.gate(0).expect("it is there").waiting()[0];
    assert_eq!((request.rtag, request.ltag), (200 * MS, 100 * MS));
    // What goes by weight counts in delta alone.
    assert_eq!(arrays.tick(0, 100 * MS), sent(Weight, 3));
    assert_eq!(arrays.complete(0, 0, 3, 110 * MS), nothing(None));
    assert_eq!(counters(&arrays, 0), [(1, 0), (3, 2)]);
    let wake = Some(150 * MS);
    assert_eq!(arrays.arrive(1, 0, 4, 110 * MS, 1), nothing(wake));
    let request = arrays.gate(1).expect("it is there").waiting()[0];
    assert_eq!((request.rtag, request.ltag), (200 * MS, 150 * MS));
}

/// Each guest has its own counters, and those of one array are not another's.
#[test]
fn counted_for_its_guest() {
    let mut arrays = open(3, &[settings(0, 0, 1), settings(0, 0, 1)]);
    let id_1 = |guest| {
        let phase = Phase::Weight;
        let answer = Answer::Sent {
            phase,
            guest,
            id: 1,
        };
        Ok(Outcome { answer, wake: None })
    };
    assert_eq!(arrays.arrive(2, 1, 1, 0, 1), id_1(1));
    assert_eq!(arrays.complete(2, 1, 1, 0), nothing(None));
    assert_eq!(counters(&arrays, 0), [(0, 0); 3]);
    assert_eq!(counters(&arrays, 1), [(1, 0); 3]);
    assert_eq!(arrays.arrive(1, 1, 1, 0, 1), id_1(1));
    assert_eq!(arrays.arrive(0, 0, 1, 0, 1), id_1(0));
    assert_eq!(counters(&arrays, 1), [(1, 0), (0, 0), (1, 0)]);
    assert_eq!(arrays.counter(3, 0), None);
    assert_eq!(arrays.counter(0, 2), None);
    assert_eq!(arrays.counter(u64::MAX, u64::MAX), None);
}

/// "both stop at 65,535": what array 0 does is counted at array 1, which is asked for nothing.
#[test]
fn where_counting_stops() {
    let mut arrays = open(2, &[settings(1_000_000, 0, 1)]);
    for count in 1..=MOST_DELTA + 2 {
        let time = count * MS;
        let id = u32::try_from(count).expect("it fits");
        assert_eq!(
            arrays.arrive(0, 0, id, time, 1),
            sent(Phase::Reservation, id)
        );
        assert_eq!(arrays.complete(0, 0, id, time), nothing(None));
        let most = count.min(MOST_DELTA);
        assert_eq!(counters(&arrays, 0), [(1, 1), (most, most)]);
    }
}

#[test]
fn what_is_refused_counts_nothing() {
    let mut arrays = open(2, &[settings(0, 0, 1)]);
    assert_eq!(arrays.arrive(0, 0, 1, 5, 1), sent(Phase::Weight, 1));
    assert_eq!(arrays.complete(0, 0, 1, 5), nothing(None));
    assert_eq!(arrays.arrive(0, 0, 2, 5, 1), sent(Phase::Weight, 2));
    for (array, guest, id, time, cost, refusal) in [
        (2, 1, 2, 0, 0, Refusal::UnknownGuest),
        (2, 0, 2, 0, 0, Refusal::Array),
        (u64::MAX, 0, 2, 0, 0, Refusal::Array),
        (0, 0, 2, u64::MAX, 0, Refusal::TimeAboveCeiling),
        (0, 0, 2, 0, 0, Refusal::TimeBeforeLast),
        (0, 0, 2, 5, 0, Refusal::Cost),
        (0, 0, 2, 5, 1, Refusal::IdInUse),
    ] {
        refused(&mut arrays, refusal, |arrays| {
            arrays.arrive(array, guest, id, time, cost)
        });
    }
    for (array, guest, id, time, refusal) in [
        (2, 1, 2, 0, Refusal::UnknownGuest),
        (2, 0, 2, 0, Refusal::Array),
        (0, 0, 2, 0, Refusal::TimeBeforeLast),
        (0, 0, 1, 5, Refusal::NotInFlight),
        (1, 0, 2, 5, Refusal::NotInFlight),
    ] {
        refused(&mut arrays, refusal, |arrays| {
            arrays.complete(array, guest, id, time)
        });
    }
    for (array, time, refusal) in [
        (2, 0, Refusal::Array),
        (0, 0, Refusal::TimeBeforeLast),
        (1, u64::MAX, Refusal::TimeAboveCeiling),
    ] {
        refused(&mut arrays, refusal, |arrays| arrays.tick(array, time));
    }
}

/// "1 to 8 arrays, else 22", before the settings of any; arrays may differ in size.
#[test]
fn numbers_of_arrays() {
    let guests = [settings(0, 0, 1)];
    let none = Size {
        depth: 0,
        capacity: 4,
    };
    let most = usize::try_from(MOST_ARRAYS).expect("it fits");
    let opened = |sizes: &[Size]| Arrays::open(sizes, Rule::Two, &guests).err();
    assert_eq!(opened(&[]), Some(Refusal::Array));
    assert_eq!(opened(&vec![none; most + 1]), Some(Refusal::Array));
    assert_eq!(opened(&vec![SMALL; most]), None);
    assert_eq!(opened(&[SMALL, none]), Some(Refusal::Setting));
    assert_eq!(
        Arrays::open(&[SMALL], Rule::One, &[]).err(),
        Some(Refusal::Setting)
    );
    let large = Size {
        depth: 64,
        capacity: 1_024,
    };
    let arrays = Arrays::open(&[SMALL, large], Rule::Two, &guests).expect("good settings");
    let depths = [0, 1].map(|array| arrays.gate(array).map(sgq::Gate::depth));
    assert_eq!(depths, [Some(1), Some(64)]);
    assert_eq!((arrays.count(), arrays.gate(2)), (2, None));
}

/// Counters and phases of two arrays, one guest and depth 2, of which one request is in flight, sent by weight.
const COUNTERS: [u64; 4] = [2, 1, 65_535, 65_535];
const PHASES: [u64; 2] = [raw::SENT_BY_WEIGHT, 0];

/// What a tick at array 0 of so many answers on sound tables, with these counters and phases.
fn tick(arrays: u64, counters: &[u64], phases: &[u64]) -> u64 {
    let mut gate = raw::Numbers {
        depth: 2,
        guests: 1,
        capacity: 1,
        flight: 1,
        rule: raw::RULE_1,
        ..raw::Numbers::default()
    };
    let mut guests = [raw::Guest {
        shares: 1,
        ..raw::Guest::default()
    }];
    let mut waiting = [raw::Request::default()];
    let mut flight = [raw::Flight::default(); 2];
    let (mut counters, mut phases) = (counters.to_vec(), phases.to_vec());
    // SAFETY: six tables of their own, lent whole.
    let answer = unsafe {
        raw::sgq_arrays_tick(
            (&raw mut gate).cast(),
            arrays,
            0,
            guests.as_mut_ptr().cast(),
            raw::GUEST_NUMBERS,
            waiting.as_mut_ptr().cast(),
            raw::REQUEST_NUMBERS,
            flight.as_mut_ptr().cast(),
            2 * raw::FLIGHT_NUMBERS,
            counters.as_mut_ptr(),
            counters.len(),
            phases.as_mut_ptr(),
            phases.len(),
            0,
        )
    };
    answer.refusal
}

/// What `Arrays` never lends: counters and phases that are short, out of range or out of step.
#[test]
fn counters_and_phases() {
    let good = |at: usize, number: u64| {
        let mut counters = COUNTERS;
        counters[at] = number;
        counters
    };
    assert_eq!(tick(2, &COUNTERS, &PHASES), 0);
    assert_eq!(tick(2, &good(1, 0), &[raw::SENT_BY_RESERVATION, 0]), 0);
    for arrays in [0, 9, 1 << 32, u64::MAX] {
        assert_eq!(tick(arrays, &[], &[]), Refusal::Array.number());
    }
    for (counters, phases) in [
        (&COUNTERS[..3], &PHASES[..]),
        (&COUNTERS[..], &PHASES[..1]),
        (&[], &[3, 3]),
    ] {
        assert_eq!(tick(2, counters, phases), Refusal::ShortTable.number());
    }
    for (at, number) in [(0, 0), (1, 3), (2, 65_536), (3, 65_536), (2, 65_534)] {
        let found = tick(2, &good(at, number), &PHASES);
        assert_eq!(found, Refusal::NotSound.number());
    }
    for phases in [[0, 0], [3, 0], [1, 1], [0, 1], [u64::MAX, 0], [1, 1 << 32]] {
        let found = tick(2, &COUNTERS, &phases);
        assert_eq!(found, Refusal::NotSound.number());
    }
    // Places beyond the need are not read.
    assert_eq!(tick(1, &[0, 0, 9, 9], &[1, 0, 9]), 0);
}
