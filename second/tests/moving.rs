//! The moves between the versions of a trace: document 02, K9.

mod common;
use common::*;
use second::kinds::{fixed, trace};
use second::trace::{header_bytes, header_bytes_2, Event, Header, Version, EVENT_BYTES};
use second::{back, sheet, up};
use std::collections::BTreeMap;
use std::io::Write;
use std::process::{Command, Stdio};

type Move = fn(&[u8], &mut [u8]) -> (u8, usize, u64);

/// A move into room of just this length, or the refusal and its event.
fn into(room: usize, to: Move, bytes: &[u8]) -> Result<Vec<u8>, (u8, u64)> {
    let mut lent = vec![77; room];
    let (refusal, written, event) = to(bytes, &mut lent);
    assert!(lent[written..].iter().all(|byte| *byte == 77));
    if refusal == 0 {
        assert_eq!(event, 0);
        Ok(lent[..written].to_vec())
    } else {
        assert_eq!(written, 0);
        Err((refusal, event))
    }
}

/// The same with room enough.
fn by(to: Move, bytes: &[u8]) -> Result<Vec<u8>, (u8, u64)> {
    into(bytes.len() + 200, to, bytes)
}

/// Two guests, an arrival of this first byte and some other events.
fn one() -> Vec<u8> {
    let mut b = header_bytes(2, 2, 3, &[guest(0, 0, 1), guest(5, 5, 1)]);
    b.extend(first_byte(0, event(0, 1, 7, 3)));
    b.extend(first_byte(1, event(1, 9, 7, 2)));
    b.extend(first_byte(2, event(2, 0, 0, u64::MAX)));
    b
}

fn two() -> Vec<u8> {
    let mut b = header_bytes_2(2, 2, 3, 1, &[guest(0, 0, 1), guest(5, 5, 1)]);
    b.extend(&one()[9 + 2 * 12..]);
    b
}

fn first_byte(first: u8, event: Event) -> [u8; EVENT_BYTES] {
    let mut b = event.bytes(Version::One);
    b[0] = first;
    b
}

/// Where the events begin in `one` and in `two`.
const EVENTS_1: usize = 9 + 2 * 12;
const EVENTS_2: usize = 10 + 2 * 14;

#[test]
fn there_and_back() {
    assert_eq!(by(up, &one()), Ok(two()));
    assert_eq!(by(back, &two()), Ok(one()));
    // Without events too.
    assert_eq!(by(up, &one()[..EVENTS_1]), Ok(two()[..EVENTS_2].to_vec()));
    assert_eq!(by(back, &two()[..EVENTS_2]), Ok(one()[..EVENTS_1].to_vec()));
}

#[test]
fn the_wrong_version_is_12() {
    assert_eq!(by(up, &two()), Err((12, 0)));
    assert_eq!(by(back, &one()), Err((12, 0)));
    // Before what else is wrong, and with the first nine bytes alone.
    assert_eq!(by(back, &one()[..9]), Err((12, 0)));
    assert_eq!(by(up, &two()[..9]), Err((12, 0)));
    for (to, mut b) in [(up as Move, one()), (back as Move, two())] {
        for version in [0, 3, 255] {
            b[3] = version;
            assert_eq!(by(to, &b), Err((12, 0)));
        }
    }
    assert_eq!(by(back, &two()[..9]), Err((13, 0)));
    assert_eq!(by(up, &one()[..9]), Err((13, 0)));
    assert_eq!(by(up, &one()[..8]), Err((13, 0)));
    assert_eq!(by(back, &one()[..8]), Err((13, 0)));
    assert_eq!(by(up, b"SGq000000"), Err((11, 0)));
}

#[test]
fn header_faults_as_when_reading() {
    for (to, version, kind) in [(up as Move, 1, "header"), (back, 2, "header2")] {
        let mut seen = BTreeMap::new();
        for seed in 0..600 {
            let bytes = trace(kind, seed).unwrap();
            let number = match Header::read(&bytes) {
                // No fault but the version.
                Ok(header) if header.version.number() == version => continue,
                Ok(_) => 12,
                // Its own version's faults.
                Err(_) if bytes.len() >= 9 && bytes[3..5] == [3 - version as u8, 0] => 12,
                Err(number) => number,
            };
            // Eleven comes before twelve.
            let marked = bytes.len() < 9 || bytes[..3] == *b"SGQ";
            let number = if marked { number } else { 11 };
            assert_eq!(by(to, &bytes), Err((number, 0)), "{seed}");
            *seen.entry(number).or_insert(0) += 1;
        }
        assert!(
            [1, 11, 12, 13].iter().all(|number| seen[number] > 20),
            "{seen:?}"
        );
    }
}

#[test]
fn the_first_event_that_is_14_or_15() {
    let mut b = one();
    b.truncate(b.len() - 1);
    assert_eq!(by(up, &b), Err((15, 3)));
    b[EVENTS_1 + 14] = 3;
    assert_eq!(by(up, &b), Err((14, 2)));
    b[EVENTS_1] = 4;
    assert_eq!(by(up, &b), Err((14, 1)));
    let mut b = two();
    b.truncate(EVENTS_2 + 14 + 1);
    assert_eq!(by(back, &b), Err((15, 2)));
    b[EVENTS_2] = 7;
    assert_eq!(by(back, &b), Err((14, 1)));
    // A spare part, and a tick with an id.
    let mut b = two();
    b[EVENTS_2 + 14] = 1 | 1 << 2;
    assert_eq!(by(back, &b), Err((14, 2)));
    let mut b = two();
    b[EVENTS_2 + 28] = 2 | 32 << 2;
    assert_eq!(by(back, &b), Err((14, 3)));
    let mut b = two();
    b[EVENTS_2 + 28 + 2] = 1;
    assert_eq!(by(back, &b), Err((14, 3)));
}

#[test]
fn what_version_1_cannot_say_is_19() {
    let mut cost = two();
    cost[EVENTS_2] = 63 << 2;
    assert_eq!(by(back, &cost), Err((19, 1)));
    let mut later = two();
    later.extend(first_byte(0, event(0, 0, 1, 0)));
    later.extend(first_byte(1 << 2, event(0, 0, 2, 0)));
    later.extend(first_byte(1 << 2, event(0, 0, 3, 0)));
    assert_eq!(by(back, &later), Err((19, 5)));
    // The rule and a credit come before a cost, and name no event.
    for at in [9, 10 + 12, 10 + 14 + 12] {
        let mut other = cost.clone();
        other[at] = 2;
        assert_eq!(by(back, &other), Err((19, 0)));
        // 14 and 15 come before them.
        let mut bad = other.clone();
        bad[EVENTS_2 + 28] = 3;
        assert_eq!(by(back, &bad), Err((14, 3)));
        bad.truncate(EVENTS_2 + 28 + 1);
        assert_eq!(by(back, &bad), Err((15, 3)));
        // Room comes last.
        assert_eq!(into(0, back, &other), Err((19, 0)));
    }
    assert_eq!(into(0, back, &cost), Err((19, 1)));
}

#[test]
fn room_too_short_is_21_and_spare_room_stays() {
    for (to, from, result) in [(up as Move, one(), two()), (back, two(), one())] {
        for room in 0..result.len() {
            assert_eq!(into(room, to, &from), Err((21, 0)));
        }
        for room in [result.len(), result.len() + 1, result.len() + 100] {
            assert_eq!(into(room, to, &from), Ok(result.clone()));
        }
    }
    let mut bad = one();
    bad[EVENTS_1] = 9;
    assert_eq!(into(0, up, &bad), Err((14, 1)));
}

fn sheet_of(bytes: &[u8]) -> Vec<u8> {
    let mut out = Vec::new();
    sheet::run(bytes, &mut out).unwrap();
    out
}

/// A moved trace prints the same, and moved back it has the same bytes.
#[test]
fn random_traces_of_version_1_there_and_back() {
    let mut seen = BTreeMap::new();
    for kind in ["small", "ceiling", "jumps", "waits", "cut", "garbage"] {
        for seed in 0..60 {
            let bytes = trace(kind, seed).unwrap();
            let refusal = match by(up, &bytes) {
                Ok(result) => {
                    assert_eq!(result.len(), bytes.len() + 1 + 2 * bytes[6] as usize);
                    assert_eq!(by(back, &result), Ok(bytes.clone()));
                    assert_eq!(printed(&result), printed(&bytes));
                    assert_eq!(sheet_of(&result), sheet_of(&bytes));
                    0
                }
                Err((number, event)) => {
                    let line = format!("\n{event} X {number}\n");
                    let printed = printed(&bytes);
                    let (before, _) = printed.split_once(&line).unwrap();
                    assert!(!before.contains("X 14"));
                    number
                }
            };
            *seen.entry(refusal).or_insert(0) += 1;
        }
    }
    assert!(
        [0, 14, 15].iter().all(|number| seen[number] > 10),
        "{seen:?}"
    );
    let large = fixed(1_000, 20_000);
    let result = by(up, &large).unwrap();
    assert_eq!(by(back, &result), Ok(large));
}

#[test]
fn random_traces_of_version_2_back_and_forth() {
    let mut seen = BTreeMap::new();
    for kind in ["small2", "ceiling2", "jumps2", "waits2", "cut2", "garbage2"] {
        for seed in 0..60 {
            let bytes = trace(kind, seed).unwrap();
            let refusal = match by(back, &bytes) {
                Ok(result) => {
                    assert_eq!(by(up, &result), Ok(bytes.clone()));
                    assert_eq!(printed(&result), printed(&bytes));
                    (0, false)
                }
                Err((number, event)) => (number, event != 0),
            };
            let (header, events) = taken_apart(&bytes);
            let plain = header.rule == 1 && header.settings.iter().all(|s| s.credit == 0);
            let costs = events.iter().any(|e| e.kind == 0 && e.upper != 0);
            match refusal {
                (0, _) => assert!(plain && !costs),
                (19, named) => assert_eq!(named, plain),
                _ => {}
            }
            *seen.entry(refusal).or_insert(0) += 1;
        }
    }
    let all = [(0, false), (14, true), (15, true), (19, false), (19, true)];
    assert!(all.iter().all(|answer| seen[answer] > 2), "{seen:?}");
}

#[test]
fn any_bytes_are_judged() {
    let mut rng = second::sample::Prng::new(101);
    for _ in 0..3_000 {
        let mut bytes = match rng.below(3) {
            0 => one(),
            1 => two(),
            _ => trace("mixed", rng.below(50)).unwrap(),
        };
        for _ in 0..rng.below(4) {
            let at = rng.below(bytes.len() as u64) as usize;
            bytes[at] = rng.sized(8) as u8;
            if rng.chance(20) {
                bytes.truncate(at.max(1));
            }
        }
        let (moved, returned) = (by(up, &bytes), by(back, &bytes));
        assert!(moved.is_err() || returned.is_err());
    }
}

#[test]
fn the_program_moves_when_told_to() {
    let told = |word: &str, bytes: &[u8]| {
        let mut second = Command::new(env!("CARGO_BIN_EXE_second"))
            .arg(word)
            .stdin(Stdio::piped())
            .stdout(Stdio::piped())
            .spawn()
            .unwrap();
        second.stdin.take().unwrap().write_all(bytes).unwrap();
        let ended = second.wait_with_output().unwrap();
        (ended.status.code(), ended.stdout)
    };
    assert_eq!(told("up", &one()), (Some(0), two()));
    assert_eq!(told("back", &two()), (Some(0), one()));
    assert_eq!(told("up", &two()), (Some(1), b"refused 12 0\n".to_vec()));
    let mut cost = two();
    cost[EVENTS_2] = 63 << 2;
    assert_eq!(told("back", &cost), (Some(1), b"refused 19 1\n".to_vec()));
    // 64 guests: the longest header.
    let most = header_bytes(1, 64, 1, &[guest(0, 0, 1); 64]);
    let (status, result) = told("up", &most);
    assert_eq!((status, result.len()), (Some(0), 10 + 64 * 14));
}
