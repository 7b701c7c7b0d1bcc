//! Torn traces salvaged through the wrapper.

use sgq::{most_dropped, salvage, Dropped, Reason, Refusal, CEILING};

const HOUR: u64 = 3_600_000_000_000;

/// Headers of version 1 and 2 with one guest.
const HEADS: [&[u8]; 2] = [
    b"SGQ\x01\0\x04\x01\x08\0\x64\0\0\0\xfa\0\0\0\x01\0\0\0",
    b"SGQ\x02\0\x04\x01\x08\0\x02\x64\0\0\0\xfa\0\0\0\x01\0\0\0\x05\0",
];

/// An event of this first byte, guest and id, at this time.
fn event(first: u8, guest: u8, id: u32, time: u64) -> Vec<u8> {
    let mut bytes = vec![first, guest];
    bytes.extend(id.to_le_bytes());
    bytes.extend(time.to_le_bytes());
    bytes
}

fn tick(time: u64) -> Vec<u8> {
    event(2, 0, 0, time)
}

fn trace(head: &[u8], events: &[Vec<u8>]) -> Vec<u8> {
    [head, &events.concat()].concat()
}

/// The trace and the list that are kept, or the refusal; what is not written must be as it was.
type Kept = Result<(Vec<u8>, Vec<(u64, Reason)>), Refusal>;

fn into(trace: &[u8], room: usize, rows: usize) -> Kept {
    let mark = Dropped {
        event: 77,
        reason: 77,
    };
    let (mut room, mut list) = (vec![77; room], vec![mark; rows]);
    let kept = salvage(trace, &mut room, &mut list).map(|found| {
        let named = |row: &Dropped| (row.event, row.why().expect("a reason"));
        let dropped: Vec<_> = found.dropped.iter().map(named).collect();
        (found.trace.to_vec(), dropped)
    });
    let (written, rows) = kept
        .as_ref()
        .map_or((0, 0), |(trace, list)| (trace.len(), list.len()));
    assert!(room[written..].iter().all(|&byte| byte == 77));
    assert!(list[rows..].iter().all(|&row| row == mark));
    kept
}

fn of(trace: &[u8]) -> Kept {
    into(trace, trace.len(), most_dropped(trace.len()))
}

/// Of these events, each dropped for its reason or kept.
fn judged(head: &[u8], events: &[(Vec<u8>, Option<Reason>)]) {
    let all: Vec<_> = events.iter().map(|(event, _)| event.clone()).collect();
    let kept = events.iter().filter(|(_, reason)| reason.is_none());
    let kept: Vec<_> = kept.map(|(event, _)| event.clone()).collect();
    let list = (1..)
        .zip(events)
        .filter_map(|(at, (_, why))| Some((at, (*why)?)));
    let expected = (trace(head, &kept), list.collect::<Vec<_>>());
    assert_eq!(of(&trace(head, &all)), Ok(expected.clone()));
    assert_eq!(of(&expected.0), Ok((expected.0.clone(), vec![])));
}

#[test]
fn nothing_to_drop() {
    for head in HEADS {
        for count in 0..4 {
            let good = trace(head, &vec![tick(5); count]);
            assert_eq!(of(&good), Ok((good.clone(), vec![])));
        }
    }
}

#[test]
fn kinds_and_spare_parts() {
    let bad = Some(Reason::Kind);
    let both = [
        (event(3, 0, 0, CEILING + 1), bad), // the first reason that fits
        (event(0, 9, 9, 1), None),
        (event(1, 9, 9, 1), None),
        (tick(1), None),
        (event(3, 0, 0, 1), bad),
        (event(2, 1, 0, 1), bad),
        (event(2, 0, 1, 1), bad),
    ];
    for head in HEADS {
        judged(head, &both);
    }
    // The upper six bits are an arrival's cost in version 2, and a part of the kind in version 1.
    for first in [4, 5, 6, 7, 252, 255] {
        let cost = if first % 4 == 0 { None } else { bad };
        judged(HEADS[0], &[(event(first, 0, 0, 1), bad)]);
        judged(HEADS[1], &[(event(first, 0, 0, 1), cost)]);
    }
}

#[test]
fn times() {
    let (ahead, behind) = (Some(Reason::TimeAhead), Some(Reason::TimeBehind));
    let above = Some(Reason::TimeAboveCeiling);
    for head in HEADS {
        // The first kept is free of both, however late it comes.
        judged(head, &[(tick(CEILING), None), (tick(CEILING - 1), behind)]);
        judged(head, &[(tick(CEILING + 1), above), (tick(0), None)]);
        judged(
            head,
            &[
                (event(3, 0, 0, 0), Some(Reason::Kind)),
                (tick(CEILING), None),
            ],
        );
        // An hour ahead is kept, and a nanosecond more is not; what is dropped does not move the time on.
        judged(
            head,
            &[
                (tick(5), None),
                (tick(5 + HOUR + 1), ahead),
                (tick(5 + HOUR + 2), ahead),
                (tick(CEILING), ahead),
                (tick(u64::MAX), above),
                (tick(4), behind),
                (tick(5), None),
                (tick(5 + HOUR), None),
                (tick(5 + 2 * HOUR), None),
                (tick(5 + 2 * HOUR - 1), behind),
            ],
        );
    }
}

/// A cut event has only that reason, whatever its bytes are, and is dropped though it comes first.
#[test]
fn cut_ends() {
    for head in HEADS {
        for cut in 1..14 {
            for last in [tick(0), event(255, 255, u32::MAX, u64::MAX)] {
                let good = trace(head, &[tick(9)]);
                let torn = [&good[..], &last[..cut]].concat();
                assert_eq!(of(&torn), Ok((good, vec![(2, Reason::Cut)])));
                let torn = [head, &last[..cut]].concat();
                assert_eq!(of(&torn), Ok((head.to_vec(), vec![(1, Reason::Cut)])));
            }
        }
    }
}

#[test]
fn headers() {
    for head in HEADS {
        for length in 0..head.len() {
            assert_eq!(of(&head[..length]), Err(Refusal::TraceHeaderCut));
        }
        let changed = |at: usize, byte: u8| {
            let mut torn = trace(head, &[tick(1)]);
            torn[at] = byte;
            of(&torn)
        };
        assert_eq!(changed(0, b's'), Err(Refusal::TraceMark));
        for version in [0, 3, 255] {
            assert_eq!(changed(3, version), Err(Refusal::TraceVersion));
        }
        assert_eq!(changed(4, 1), Err(Refusal::TraceVersion));
        assert_eq!(changed(5, 0), Err(Refusal::Setting));
    }
    let mut unruled = HEADS[1].to_vec();
    unruled[9] = 3;
    assert_eq!(into(&unruled, 0, 0), Err(Refusal::Setting));
}

/// Room that is just enough is enough; what is too short for either refuses both.
#[test]
fn rooms() {
    for head in HEADS {
        let torn = trace(head, &[tick(1), tick(0), tick(2), event(3, 0, 0, 0)]);
        let good = trace(head, &[tick(1), tick(2)]);
        let list = vec![(2, Reason::TimeBehind), (4, Reason::Kind)];
        for (room, rows) in [(good.len(), 2), (good.len() + 1, 3), (torn.len(), 100)] {
            assert_eq!(into(&torn, room, rows), Ok((good.clone(), list.clone())));
        }
        for (room, rows) in [
            (good.len() - 1, 2),
            (good.len(), 1),
            (0, 0),
            (torn.len(), 0),
        ] {
            assert_eq!(into(&torn, room, rows), Err(Refusal::ShortRoom));
        }
        assert_eq!(into(&good, good.len(), 0), Ok((good, vec![])));
        assert_eq!(into(&head[..5], 0, 0), Err(Refusal::TraceHeaderCut));
    }
}

/// The shortest header and nothing but cut or bad events fill the list that is always enough.
#[test]
fn the_longest_list() {
    for head in HEADS {
        for length in 0..60 {
            let torn = [head, &vec![255; length]].concat();
            let (kept, list) = of(&torn).expect("room enough");
            assert_eq!(kept, head);
            assert_eq!(list.len(), length.div_ceil(14));
            assert!(list.len() <= most_dropped(torn.len()));
        }
    }
}

#[test]
fn reasons_by_number() {
    let numbers = Reason::ALL.iter().map(|reason| reason.number());
    assert!(numbers.eq(1..=5));
    for &reason in Reason::ALL {
        assert_eq!(Reason::of(reason.number()), Some(reason));
    }
    for number in [0, 6, u64::MAX] {
        assert_eq!(Reason::of(number), None);
        assert_eq!(
            Dropped {
                event: 1,
                reason: number
            }
            .why(),
            None
        );
    }
    assert_eq!(Reason::TimeBehind.to_string(), "time behind the last kept");
}
