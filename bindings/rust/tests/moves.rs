//! Traces moved from version 1 to version 2 and back, through the wrapper.

use sgq::{trace_back, trace_up, NotMoved, Refusal, MOST_GROWTH};

type Move = fn(&[u8], &mut [u8]) -> Result<usize, NotMoved>;

const ARRIVAL: [u8; 14] = [0, 1, 7, 0, 0, 0, 3, 0, 0, 0, 0, 0, 0, 0];
const COMPLETION: [u8; 14] = [1, 9, 7, 0, 0, 0, 2, 0, 0, 0, 0, 0, 0, 0];
const TICK: [u8; 14] = [2, 0, 0, 0, 0, 0, 9, 9, 9, 9, 9, 9, 9, 9];

/// Where the events begin in `one` and in `two`.
const EVENTS_1: usize = 9 + 2 * 12;
const EVENTS_2: usize = 10 + 2 * 14;

/// Version 1, depth 2, two guests, capacity 3, an event of each kind.
fn one() -> Vec<u8> {
    let mut trace = b"SGQ\x01\0\x02\x02\x03\0".to_vec();
    trace.extend([5, 0, 0, 0, 5, 0, 0, 0, 1, 0, 0, 0]);
    trace.extend([0, 0, 0, 0, 0, 0, 0, 0, 1, 1, 0, 0]);
    trace.extend([ARRIVAL, COMPLETION, TICK].concat());
    trace
}

/// The same in version 2.
fn two() -> Vec<u8> {
    let mut trace = b"SGQ\x02\0\x02\x02\x03\0\x01".to_vec();
    trace.extend([5, 0, 0, 0, 5, 0, 0, 0, 1, 0, 0, 0, 0, 0]);
    trace.extend([0, 0, 0, 0, 0, 0, 0, 0, 1, 1, 0, 0, 0, 0]);
    trace.extend([ARRIVAL, COMPLETION, TICK].concat());
    trace
}

fn changed(mut trace: Vec<u8>, at: usize, byte: u8) -> Vec<u8> {
    trace[at] = byte;
    trace
}

/// A move into room of this length; what is not written must be as it was.
fn into(room: usize, to: Move, trace: &[u8]) -> Result<Vec<u8>, NotMoved> {
    let mut lent = vec![77; room];
    let moved = to(trace, &mut lent);
    let written = moved.unwrap_or(0);
    assert!(lent[written..].iter().all(|&byte| byte == 77));
    moved.map(|written| lent[..written].to_vec())
}

fn by(to: Move, trace: &[u8]) -> Result<Vec<u8>, NotMoved> {
    into(trace.len() + MOST_GROWTH, to, trace)
}

fn refused(refusal: Refusal, event: Option<u64>) -> Result<Vec<u8>, NotMoved> {
    Err(NotMoved { refusal, event })
}

#[test]
fn there_and_back() {
    assert_eq!(by(trace_up, &one()), Ok(two()));
    assert_eq!(by(trace_back, &two()), Ok(one()));
    assert_eq!(
        by(trace_up, &one()[..EVENTS_1]),
        Ok(two()[..EVENTS_2].to_vec())
    );
    assert_eq!(
        by(trace_back, &two()[..EVENTS_2]),
        Ok(one()[..EVENTS_1].to_vec())
    );
}

/// The longest header grows by the most.
#[test]
fn most_growth() {
    let mut trace = b"SGQ\x01\0\x01\x40\x01\0".to_vec();
    trace.extend([0, 0, 0, 0, 0, 0, 0, 0, 1, 0, 0, 0].repeat(64));
    let moved = by(trace_up, &trace).expect("a good trace");
    assert_eq!(moved.len(), trace.len() + MOST_GROWTH);
    assert_eq!(into(trace.len(), trace_back, &moved), Ok(trace));
}

#[test]
fn headers() {
    for (to, good, start) in [(trace_up as Move, one(), 9), (trace_back, two(), 10)] {
        let cut = refused(Refusal::TraceHeaderCut, None);
        assert_eq!(by(to, &[]), cut);
        assert_eq!(by(to, b"sgq"), cut);
        assert_eq!(by(to, &good[..start]), cut);
        assert_eq!(
            by(to, &changed(good.clone(), 0, b's')),
            refused(Refusal::TraceMark, None)
        );
        for version in [0, 3 - good[3], 3] {
            let other = changed(good.clone(), 3, version);
            assert_eq!(by(to, &other), refused(Refusal::TraceVersion, None));
            assert_eq!(by(to, &other[..9]), refused(Refusal::TraceVersion, None));
        }
        assert_eq!(
            by(to, &changed(good, 5, 0)),
            refused(Refusal::Setting, None)
        );
    }
    assert_eq!(
        by(trace_back, &two()[..9]),
        refused(Refusal::TraceHeaderCut, None)
    );
    assert_eq!(
        by(trace_back, &changed(two(), 9, 3)),
        refused(Refusal::Setting, None)
    );
    let credit_257 = changed(changed(two(), 22, 1), 23, 1);
    assert_eq!(by(trace_back, &credit_257), refused(Refusal::Setting, None));
}

#[test]
fn events() {
    let kind = |event| refused(Refusal::EventKind, Some(event));
    assert_eq!(by(trace_up, &changed(one(), EVENTS_1 + 14, 3)), kind(2));
    assert_eq!(by(trace_up, &changed(one(), EVENTS_1, 4)), kind(1));
    assert_eq!(by(trace_up, &changed(one(), EVENTS_1 + 28 + 1, 1)), kind(3));
    assert_eq!(by(trace_back, &changed(two(), EVENTS_2, 3)), kind(1));
    assert_eq!(by(trace_back, &changed(two(), EVENTS_2 + 14, 5)), kind(2));
    assert_eq!(
        by(trace_back, &changed(two(), EVENTS_2 + 28, 0x82)),
        kind(3)
    );
    let cut = refused(Refusal::TraceEventCut, Some(3));
    assert_eq!(by(trace_up, &one()[..EVENTS_1 + 29]), cut);
    assert_eq!(by(trace_back, &two()[..EVENTS_2 + 41]), cut);
}

/// The rule and the credits come before the costs, and all of them after every event.
#[test]
fn no_way_back() {
    let costly = changed(two(), EVENTS_2, 63 << 2);
    assert_eq!(
        by(trace_back, &costly),
        refused(Refusal::NoWayBack, Some(1))
    );
    for at in [9, 10 + 12, 10 + 14 + 12] {
        let other = changed(costly.clone(), at, 2);
        assert_eq!(by(trace_back, &other), refused(Refusal::NoWayBack, None));
        let bad = changed(other.clone(), EVENTS_2 + 28, 3);
        assert_eq!(by(trace_back, &bad), refused(Refusal::EventKind, Some(3)));
        assert_eq!(
            into(0, trace_back, &other),
            refused(Refusal::NoWayBack, None)
        );
    }
}

#[test]
fn room() {
    for (to, from, result) in [(trace_up as Move, one(), two()), (trace_back, two(), one())] {
        for short in [0, 1, result.len() - 1] {
            assert_eq!(into(short, to, &from), refused(Refusal::ShortRoom, None));
        }
        for enough in [0, 1, 100] {
            assert_eq!(into(result.len() + enough, to, &from), Ok(result.clone()));
        }
    }
    let bad = changed(one(), EVENTS_1, 9);
    assert_eq!(
        into(0, trace_up, &bad),
        refused(Refusal::EventKind, Some(1))
    );
}

#[test]
fn in_words() {
    let said = |refusal, event| NotMoved { refusal, event }.to_string();
    assert_eq!(
        said(Refusal::TraceEventCut, Some(3)),
        "refused 15: last event cut short, event 3"
    );
    assert_eq!(said(Refusal::ShortRoom, None), "refused 21: room too short");
}
