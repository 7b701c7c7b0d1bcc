//! Salvage of a torn trace: document 02, K12.

mod common;
use common::*;
use second::kinds::trace;
use second::sample::{tear, tear_events, Prng};
use second::trace::{header_bytes, header_bytes_2, Event, Header, Version, EVENT_BYTES};
use second::{salvage, Salvaged, CEILING};
use std::collections::BTreeMap;
use std::fs;
use std::path::Path;
use std::process::Command;

const HOUR: u64 = 3_600_000_000_000;

/// What is kept and the rows of the list, with room that is just enough or so
/// many bytes and numbers longer; the rest of the room must stay.
fn with_spare(spare: usize, bytes: &[u8]) -> Result<(Vec<u8>, Vec<[u64; 2]>), u64> {
    let mut room = vec![77; bytes.len() + spare];
    let mut list = vec![77; 2 * bytes.len().div_ceil(EVENT_BYTES) + spare];
    let answer = salvage(bytes, &mut room, &mut list);
    let (written, rows) = (answer.bytes as usize, answer.rows as usize);
    assert!(room[written..].iter().all(|byte| *byte == 77));
    assert!(list[2 * rows..].iter().all(|number| *number == 77));
    if answer.refusal != 0 {
        assert_eq!((written, rows), (0, 0));
        return Err(answer.refusal);
    }
    room.truncate(written);
    let rows = list[..2 * rows].chunks(2).map(|row| [row[0], row[1]]);
    Ok((room, rows.collect()))
}

fn salvaged(bytes: &[u8]) -> Result<(Vec<u8>, Vec<[u64; 2]>), u64> {
    with_spare(5, bytes)
}

fn just_refused(number: u64) -> Salvaged {
    Salvaged {
        refusal: number,
        bytes: 0,
        rows: 0,
    }
}

fn start(version: Version) -> Vec<u8> {
    let settings = [guest(0, 0, 1), guest(5, 5, 1)];
    match version {
        Version::One => header_bytes(2, 2, 3, &settings),
        Version::Two => header_bytes_2(2, 2, 3, 2, &settings),
    }
}

const VERSIONS: [Version; 2] = [Version::One, Version::Two];

fn with_events(version: Version, events: &[Event]) -> Vec<u8> {
    let mut b = start(version);
    b.extend(events.iter().flat_map(|event| event.bytes(version)));
    b
}

fn tick(time: u64) -> Event {
    event(2, 0, 0, time)
}

/// The rows for ticks at these times, and the times kept.
fn at_times(times: &[u64]) -> (Vec<u64>, Vec<[u64; 2]>) {
    let events: Vec<_> = times.iter().map(|time| tick(*time)).collect();
    let (kept, rows) = salvaged(&with_events(Version::One, &events)).unwrap();
    let (_, kept) = taken_apart(&kept);
    (kept.iter().map(|event| event.time).collect(), rows)
}

#[test]
fn each_reason() {
    for version in VERSIONS {
        let good = event(1, 9, 7, 50);
        let last = event(0, 1, 8, 50 + HOUR);
        let bytes = with_events(
            version,
            &[
                tick(CEILING + 1),
                event(3, 0, 0, 50),
                good,
                tick(49),
                tick(51 + HOUR),
                event(2, 1, 0, 50),
                last,
                tick(50),
                tick(CEILING),
            ],
        );
        let mut cut = bytes.clone();
        cut.push(0);
        let rows = vec![[1, 2], [2, 1], [4, 3], [5, 4], [6, 1], [8, 3], [9, 4]];
        let kept = with_events(version, &[good, last]);
        assert_eq!(salvaged(&bytes), Ok((kept.clone(), rows.clone())));
        let with_cut = [rows, vec![[10, 5]]].concat();
        assert_eq!(salvaged(&cut), Ok((kept, with_cut)));
    }
}

#[test]
fn the_hour_and_the_last_kept() {
    let t = 7;
    assert_eq!(at_times(&[t, t + HOUR]), (vec![t, t + HOUR], vec![]));
    assert_eq!(at_times(&[t, t + HOUR + 1]), (vec![t], vec![[2, 4]]));
    assert_eq!(at_times(&[t, t]), (vec![t, t], vec![]));
    assert_eq!(at_times(&[t, t - 1]), (vec![t], vec![[2, 3]]));
    // It is the last kept that counts, not one that was dropped.
    let late = t + 2 * HOUR;
    assert_eq!(
        at_times(&[t, late, t + 1, late, t, t + 1 + HOUR, late]),
        (
            vec![t, t + 1, t + 1 + HOUR, late],
            vec![[2, 4], [4, 4], [5, 3]]
        )
    );
    assert_eq!(
        at_times(&[t, u64::MAX, t, 0, t]),
        (vec![t, t, t], vec![[2, 2], [4, 3]])
    );
}

#[test]
fn the_first_kept_is_free_of_the_last_two_time_tests() {
    for first in [0, 1, HOUR, HOUR + 1, 1 << 61, CEILING] {
        assert_eq!(at_times(&[first]), (vec![first], vec![]));
        assert_eq!(
            at_times(&[u64::MAX, CEILING + 1, first]),
            (vec![first], vec![[1, 2], [2, 2]])
        );
    }
    // And not the second, however early or late the first.
    assert_eq!(
        at_times(&[CEILING, 0, CEILING]),
        (vec![CEILING; 2], vec![[2, 3]])
    );
    assert_eq!(at_times(&[0, CEILING]), (vec![0], vec![[2, 4]]));
}

#[test]
fn near_the_ceiling() {
    let near = CEILING - HOUR / 2;
    assert_eq!(
        at_times(&[near, CEILING, CEILING + 1, near + HOUR]),
        (vec![near, CEILING], vec![[3, 2], [4, 2]])
    );
}

#[test]
fn the_first_reason_that_fits() {
    let bad = |time| event(7, 0, 0, time);
    for version in VERSIONS {
        let bytes = with_events(
            version,
            &[
                tick(HOUR),
                bad(u64::MAX),
                bad(0),
                bad(3 * HOUR),
                tick(u64::MAX),
                bad(HOUR),
            ],
        );
        let (kept, rows) = salvaged(&bytes).unwrap();
        assert_eq!(kept, with_events(version, &[tick(HOUR)]));
        assert_eq!(rows, [[2, 1], [3, 1], [4, 1], [5, 2], [6, 1]]);
        // A cut event has only the one, whatever it begins with.
        for length in 1..EVENT_BYTES {
            for first in [0, 2, 7, 255] {
                let mut cut = with_events(version, &[tick(5)]);
                let mut piece = tick(u64::MAX).bytes(version);
                piece[0] = first;
                cut.extend(&piece[..length]);
                let kept = with_events(version, &[tick(5)]);
                assert_eq!(salvaged(&cut), Ok((kept, vec![[2, 5]])));
            }
        }
    }
}

/// What is 14 when it is read.
#[test]
fn kinds_and_spare_parts() {
    for version in VERSIONS {
        for first in 0..=255u8 {
            for (guest, id) in [(0, 0), (1, 0), (0, 1), (255, u32::MAX)] {
                let mut bytes = with_events(version, &[event(0, guest, id, 9)]);
                let at = start(version).len();
                bytes[at] = first;
                let good = match version {
                    Version::One => first < 2 || (first == 2 && guest == 0 && id == 0),
                    Version::Two => {
                        first % 4 == 0 || first == 1 || (first == 2 && guest == 0 && id == 0)
                    }
                };
                let read = printed(&bytes);
                assert_eq!(!good, read.ends_with("1 X 14\n"), "{read}");
                let expected = if good {
                    (bytes.clone(), vec![])
                } else {
                    (start(version), vec![[1, 1]])
                };
                assert_eq!(salvaged(&bytes), Ok(expected));
            }
        }
    }
}

#[test]
fn a_header_alone_comes_out_as_it_is() {
    for version in VERSIONS {
        let bytes = start(version);
        assert_eq!(salvaged(&bytes), Ok((bytes.clone(), vec![])));
    }
}

#[test]
fn header_faults_as_when_reading_and_before_21() {
    for kind in ["header", "header2"] {
        let mut seen = BTreeMap::new();
        for seed in 0..600 {
            let bytes = trace(kind, seed).unwrap();
            let Err(number) = Header::read(&bytes) else {
                assert!(salvaged(&bytes).is_ok());
                continue;
            };
            let number = number as u64;
            assert_eq!(salvaged(&bytes), Err(number));
            assert_eq!(salvage(&bytes, &mut [], &mut []), just_refused(number));
            *seen.entry(number).or_insert(0) += 1;
        }
        assert!(
            [1, 11, 12, 13].iter().all(|number| seen[number] > 20),
            "{seen:?}"
        );
    }
}

#[test]
fn room_too_short_is_21_with_nothing_written() {
    let bytes = with_events(Version::Two, &[tick(9), tick(8), tick(9), tick(u64::MAX)]);
    let (kept, rows) = salvaged(&bytes).unwrap();
    let enough = (kept.len(), 2 * rows.len());
    assert_eq!(enough, (start(Version::Two).len() + 28, 4));
    for room in 0..kept.len() + 3 {
        for numbers in 0..7 {
            let (mut lent, mut list) = (vec![77; room], vec![77; numbers]);
            let answer = salvage(&bytes, &mut lent, &mut list);
            if room < enough.0 || numbers < enough.1 {
                assert_eq!(answer, just_refused(21));
                assert_eq!((lent, list), (vec![77; room], vec![77; numbers]));
            } else {
                assert_eq!((answer.bytes, answer.rows), (kept.len() as u64, 2));
                assert_eq!(lent[..kept.len()], kept);
                assert_eq!(list[..4], [2, 3, 4, 2]);
                assert!(lent[kept.len()..].iter().all(|byte| *byte == 77));
                assert!(list[4..].iter().all(|number| *number == 77));
            }
        }
    }
    // With nothing to drop no list is needed, and the room of the trace.
    let whole = with_events(Version::One, &[tick(9)]);
    let mut lent = vec![0; whole.len()];
    let answer = salvage(&whole, &mut lent, &mut []);
    assert_eq!((answer.refusal, lent), (0, whole));
}

/// The list as the request words it, each event judged for itself on all that
/// was kept before it.
fn in_other_words(bytes: &[u8]) -> (Vec<u8>, Vec<[u64; 2]>) {
    let two = bytes[3] == 2;
    let guests = bytes[6] as usize;
    let start = if two {
        10 + 14 * guests
    } else {
        9 + 12 * guests
    };
    let mut kept: Vec<&[u8]> = vec![&bytes[..start]];
    let mut rows = Vec::new();
    let mut number = 0;
    let mut at = start;
    while at < bytes.len() {
        number += 1;
        let event = &bytes[at..bytes.len().min(at + 14)];
        at += 14;
        let time_of = |event: &[u8]| {
            let bytes = event[6..14].iter().rev();
            bytes.fold(0i128, |time, byte| time * 256 + *byte as i128)
        };
        if event.len() < 14 {
            rows.push([number, 5]);
            continue;
        }
        let names_nobody = event[1..6].iter().all(|byte| *byte == 0);
        let good = match (event[0], two) {
            (0 | 1, _) => true,
            (2, _) => names_nobody,
            (first, true) => first & 3 == 0,
            _ => false,
        };
        let ahead = match kept[1..].last() {
            Some(last) => time_of(event) - time_of(last),
            None => 0,
        };
        let tests = [
            good,
            time_of(event) < 1 << 62,
            ahead >= 0,
            ahead <= 3_600 * 1_000_000_000,
        ];
        match tests.iter().position(|passed| !passed) {
            None => kept.push(event),
            Some(reason) => rows.push([number, reason as u64 + 1]),
        }
    }
    (kept.concat(), rows)
}

/// A second pass drops nothing, what is kept reads without the refusals that
/// the reasons stand for, and where nothing was dropped no byte has changed.
fn hold(bytes: &[u8]) -> Vec<[u64; 2]> {
    let (kept, rows) = salvaged(bytes).unwrap();
    let expected = (kept.clone(), rows.clone());
    assert_eq!(in_other_words(bytes), expected);
    assert_eq!(with_spare(0, bytes), Ok(expected));
    assert_eq!(rows.is_empty(), kept == bytes);
    assert_eq!(salvaged(&kept), Ok((kept.clone(), vec![])));
    let lost = bytes.len() - kept.len();
    assert_eq!(lost.div_ceil(EVENT_BYTES), rows.len());
    assert!(rows.windows(2).all(|pair| pair[0][0] < pair[1][0]));
    for line in printed(&kept).lines() {
        let fields: Vec<&str> = line.split(' ').collect();
        assert!(
            !matches!(fields[..], [_, "X", "5" | "6" | "14" | "15"]),
            "{line}"
        );
    }
    rows
}

#[test]
fn torn_traces_in_other_words() {
    for kind in ["torn", "torn2"] {
        let mut seen = BTreeMap::new();
        let mut whole = 0;
        for seed in 0..400 {
            let bytes = trace(kind, seed).unwrap();
            let (_, read) = taken_apart(&bytes);
            let rows = hold(&bytes);
            whole += (rows.is_empty() && !read.is_empty()) as u64;
            for [_, reason] in rows {
                *seen.entry(reason).or_insert(0) += 1;
            }
        }
        // Of about 34,000 events.
        assert!((1..5).all(|reason| seen[&reason] > 800), "{seen:?}");
        assert!(seen[&5] > 150 && whole > 20, "{seen:?} {whole}");
    }
}

#[test]
fn other_traces_and_torn_ones_of_them() {
    let mut rng = Prng::new(121);
    for kind in ["small", "ceiling", "jumps", "waits", "cut", "garbage"] {
        for kind in [kind.to_string(), format!("{kind}2")] {
            for seed in 0..40 {
                let mut bytes = trace(&kind, seed).unwrap();
                hold(&bytes);
                let start = Header::read(&bytes).unwrap().length();
                tear_events(&mut rng, 5, &mut bytes[start..]);
                tear(&mut rng, start, &mut bytes);
                hold(&bytes);
            }
        }
    }
}

#[test]
fn the_program_salvages_when_told_to() {
    let folder = Path::new(env!("CARGO_TARGET_TMPDIR")).join("salvaging");
    let _ = fs::remove_dir_all(&folder);
    fs::create_dir_all(&folder).unwrap();
    let (torn, out) = (folder.join("torn"), folder.join("out"));
    let told = |bytes: &[u8]| {
        fs::write(&torn, bytes).unwrap();
        let mut second = Command::new(env!("CARGO_BIN_EXE_second"));
        let ended = second.arg("salvage").arg(&torn).arg(&out).output().unwrap();
        let printed = String::from_utf8(ended.stdout).unwrap();
        (ended.status.code(), printed)
    };
    let bytes = with_events(Version::One, &[tick(9), tick(8), tick(9)]);
    let refused = told(&bytes[..8]);
    assert_eq!(refused, (Some(1), "13 0 0\n".to_string()));
    assert!(!out.exists());
    let cut = [&bytes[..], &[2, 0]].concat();
    let lines = format!("0 {} 2\n2 3\n4 5\n", bytes.len() - EVENT_BYTES);
    assert_eq!(told(&cut), (Some(0), lines));
    let kept = with_events(Version::One, &[tick(9), tick(9)]);
    assert_eq!(fs::read(&out).unwrap(), kept);
    assert_eq!(told(&kept), (Some(0), format!("0 {} 0\n", kept.len())));
    assert_eq!(fs::read(&out).unwrap(), kept);
}
