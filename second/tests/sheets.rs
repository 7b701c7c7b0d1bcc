//! The sale-day sheet of document 02, K1.

mod common;
use common::*;
use second::kinds::trace;
use second::numbers::SECOND;
use second::sheet::{self, Line, Sheet};
use second::trace::{header_bytes, play, Event, Header, Version, ARRIVAL, COMPLETION, TICK};
use second::{Answer, Settings, State, CEILING};
use std::collections::{BTreeMap, VecDeque};
use std::io::Write;
use std::process::{Command, Stdio};

fn sheet_of(bytes: &[u8]) -> String {
    let mut out = Vec::new();
    sheet::run(bytes, &mut out).unwrap();
    String::from_utf8(out).unwrap()
}

fn written(depth: u8, capacity: u16, settings: &[Settings], events: &[Event]) -> Vec<u8> {
    let mut b = header_bytes(depth, settings.len() as u8, capacity, settings);
    b.extend(events.iter().flat_map(|e| e.bytes(Version::One)));
    b
}

/// The trace of document 01's example.
fn example() -> Vec<u8> {
    let mut events: Vec<_> = (1..=4).map(|id| event(ARRIVAL, 0, id, 0)).collect();
    events.extend([4, 8, 10, 9].map(|ms| event(TICK, 0, 0, ms * MS)));
    events.extend([event(COMPLETION, 0, 1, 10 * MS); 2]);
    written(4, 8, &[guest(100, 250, 1)], &events)
}

/// Sent at 0, 4, 8 and 10 ms, the last by reservation before its limit tag
/// of 12 ms; the second completion is refused.
const EXAMPLE_SHEET: &str = "0 4 1 2 2 1 10000000 0 22000000 0 3\n";

#[test]
fn the_sheet_of_the_example() {
    assert_eq!(sheet_of(&example()), EXAMPLE_SHEET);
}

#[test]
fn the_program_prints_a_sheet_when_told_to() {
    let told = |words: &[&str]| {
        let mut second = Command::new(env!("CARGO_BIN_EXE_second"))
            .args(words)
            .stdin(Stdio::piped())
            .stdout(Stdio::piped())
            .stderr(Stdio::null())
            .spawn()
            .unwrap();
        // It may have ended without reading.
        let _ = second.stdin.take().unwrap().write_all(&example());
        let ended = second.wait_with_output().unwrap();
        (
            ended.status.success(),
            String::from_utf8(ended.stdout).unwrap(),
        )
    };
    assert_eq!(told(&["sheet"]), (true, EXAMPLE_SHEET.to_string()));
    assert_eq!(told(&[]), (true, printed(&example())));
    assert_eq!(told(&["sheets"]), (false, String::new()));
    assert_eq!(told(&["sheet", "sheet"]), (false, String::new()));
}

#[test]
fn a_bad_header_prints_as_for_decisions() {
    let mut refused = 0;
    for seed in 0..300 {
        let bytes = trace("header", seed).unwrap();
        let decisions = printed(&bytes);
        if decisions.starts_with("trace refused") {
            refused += 1;
            assert_eq!(sheet_of(&bytes), decisions);
        } else {
            assert_eq!(sheet_of(&bytes).lines().count(), bytes[6] as usize);
        }
    }
    assert!((100..290).contains(&refused), "{refused}");
}

#[test]
fn no_events_give_zeros() {
    let bytes = written(1, 1, &[guest(0, 0, 1); 3], &[]);
    assert_eq!(
        sheet_of(&bytes),
        "0 0 0 0 0 0 0 0 0 0 0\n1 0 0 0 0 0 0 0 0 0 0\n2 0 0 0 0 0 0 0 0 0 0\n"
    );
}

#[test]
fn a_request_is_that_of_its_guest_that_now_waits() {
    let events = [
        event(ARRIVAL, 0, 5, 0),
        event(ARRIVAL, 1, 5, 1),
        event(COMPLETION, 0, 5, 10),
        event(ARRIVAL, 0, 5, 12),
        event(COMPLETION, 1, 5, 15),
        event(ARRIVAL, 1, 5, 16),
    ];
    let bytes = written(1, 4, &[guest(0, 0, 1); 2], &events);
    assert_eq!(
        sheet_of(&bytes),
        "0 2 1 0 2 0 3 0 3 0 1\n1 2 1 0 1 0 9 0 9 1 0\n"
    );
}

#[test]
fn a_limit_tag_at_the_time_does_not_lie_ahead() {
    // Spacings of 333,333,333 and 333,333,334: one short of the limit tag.
    for (late, ahead) in [(0, 1), (1, 0), (2, 0)] {
        let events = [
            event(ARRIVAL, 0, 1, 0),
            event(ARRIVAL, 0, 2, 0),
            event(TICK, 0, 0, 333_333_333 + late),
        ];
        let bytes = written(2, 4, &[guest(3, 3, 1)], &events);
        let waited = 333_333_333 + late;
        let line = format!("0 2 0 2 0 {ahead} {waited} 0 {waited} 0 2\n");
        assert_eq!(sheet_of(&bytes), line);
    }
}

#[test]
fn a_send_at_its_own_arrival_has_its_limit_tag_too() {
    let events = [
        event(ARRIVAL, 0, 1, 0),
        event(ARRIVAL, 0, 2, 333_333_333),
        event(ARRIVAL, 1, 1, 333_333_333),
    ];
    let settings = [guest(3, 3, 1), guest(3, 0, 1)];
    assert_eq!(
        sheet_of(&written(4, 4, &settings, &events)),
        "0 2 0 2 0 1 0 0 0 0 2\n1 1 0 1 0 0 0 0 0 0 1\n"
    );
}

#[test]
fn the_sum_has_an_upper_number() {
    let mut events: Vec<_> = (0..7).map(|id| event(ARRIVAL, 0, id, 0)).collect();
    events.extend([event(TICK, 0, 0, CEILING - 10 * SECOND); 6]);
    // One a second: all but the first wait, until all are due.
    let bytes = written(8, 8, &[guest(0, 1, 1)], &events);
    let wait = (CEILING - 10 * SECOND) as u128;
    let (upper, lower) = ((6 * wait) >> 64, 6 * wait % (1 << 64));
    assert_eq!(upper, 1);
    assert_eq!(
        sheet_of(&bytes),
        format!("0 7 0 0 7 0 {wait} {upper} {lower} 0 7\n")
    );
}

const GOOD: [&str; 9] = [
    "small", "ceiling", "jumps", "waits", "cut", "garbage", "small2", "waits2", "garbage2",
];

/// Traces with a good header: many small ones and a large one.
fn good_traces() -> impl Iterator<Item = Vec<u8>> {
    let small = GOOD
        .iter()
        .flat_map(|kind| (0..100).map(move |seed| (*kind, seed)));
    let all = small.chain([("large", 3)]);
    all.map(|(kind, seed)| trace(kind, seed).unwrap())
}

/// Refused events, bad ones and a cut last one change no figure.
#[test]
fn what_is_refused_is_passed_over() {
    for bytes in good_traces() {
        let (header, mut kept) = taken_apart(&bytes);
        let mut state = header.fresh();
        kept.retain(|e| !refused(play(&mut state, *e)));
        let mut clean = header.bytes();
        clean.extend(kept.iter().flat_map(|e| e.bytes(header.version)));
        assert_eq!(sheet_of(&bytes), sheet_of(&clean));
    }
}

/// Playing along with the sheet decides as playing without it, and what
/// the sheet says is left is what the gate's tables hold.
#[test]
fn arrivals_are_waiting_in_flight_or_completed() {
    for bytes in good_traces() {
        let (header, events) = taken_apart(&bytes);
        let mut state = header.fresh();
        let mut sheet = Sheet::new(state.guests.len());
        let mut alone = state.clone();
        for e in events {
            assert_eq!(sheet.play(&mut state, e), play(&mut alone, e));
            assert_eq!(state, alone);
        }
        for (number, line) in sheet.lines.iter().enumerate() {
            let guest = number as u64;
            let waiting = state.waiting.iter().filter(|w| w.guest == guest).count() as u64;
            let flight = state.flight.iter().filter(|f| f.guest == guest).count() as u64;
            assert_eq!((line.waiting, line.flight), (waiting, flight));
            assert_eq!(line.arrivals, waiting + flight + line.completions);
            assert_eq!(
                line.by_reservation + line.by_weight,
                flight + line.completions
            );
        }
    }
}

/// One guest in another shape: its requests leave in order of acceptance,
/// so a queue of arrival times and limit tags is all there is to keep.
#[derive(Default)]
struct Lane {
    figures: [u128; 7],
    queue: VecDeque<(u64, Option<u64>)>,
    next_limit: u64,
    flight: usize,
}

/// The sheet from the events and the printed lines alone.
fn sheet_from_lines(bytes: &[u8]) -> String {
    let (Header { settings, .. }, events) = taken_apart(bytes);
    let mut lanes: BTreeMap<usize, Lane> = BTreeMap::new();
    let lines = printed(bytes);
    for (e, line) in events.iter().zip(lines.lines().skip(1)) {
        let fields: Vec<&str> = line.split(' ').collect();
        if fields[1] == "X" {
            continue;
        }
        let lane = lanes.entry(e.guest as usize).or_default();
        match e.kind {
            0 => {
                let settings = settings[e.guest as usize];
                let tag = lane.next_limit.max(e.time);
                if settings.has_limit() {
                    lane.next_limit = tag + e.cost() * settings.limit_spacing();
                }
                let limit = settings.has_limit().then_some(tag);
                lane.queue.push_back((e.time, limit));
                lane.figures[0] += 1;
            }
            1 => {
                lane.figures[1] += 1;
                lane.flight -= 1;
            }
            _ => {}
        }
        if fields[1] == "-" {
            continue;
        }
        let lane = lanes.get_mut(&fields[2].parse().unwrap()).unwrap();
        let (since, limit) = lane.queue.pop_front().unwrap();
        let wait = (e.time - since) as u128;
        let by_reservation = fields[1] == "R";
        lane.figures[if by_reservation { 2 } else { 3 }] += 1;
        lane.figures[4] += (by_reservation && limit > Some(e.time)) as u128;
        lane.figures[5] = lane.figures[5].max(wait);
        lane.figures[6] += wait;
        lane.flight += 1;
    }
    let mut sheet = String::new();
    for guest in 0..settings.len() {
        let lane = lanes.remove(&guest).unwrap_or_default();
        let [a, c, r, w, ahead, longest, sum] = lane.figures;
        let (upper, lower) = (sum / (1 << 64), sum % (1 << 64));
        let (waiting, flight) = (lane.queue.len(), lane.flight);
        sheet += &format!(
            "{guest} {a} {c} {r} {w} {ahead} {longest} {upper} {lower} {waiting} {flight}\n"
        );
    }
    sheet
}

#[test]
fn the_sheet_follows_from_events_and_printed_lines() {
    for bytes in good_traces() {
        assert_eq!(sheet_of(&bytes), sheet_from_lines(&bytes));
    }
}

/// Every figure is often other than 0, and some traces are cut, refused
/// in part, and use an id again.
#[test]
fn the_waits_kind_moves_every_figure() {
    let mut often = [0; 9];
    let (mut at_once, mut cut, mut again) = (0, 0, 0);
    for seed in 0..200 {
        let bytes = trace("waits", seed).unwrap();
        let (header, events) = taken_apart(&bytes);
        let mut state = header.fresh();
        cut += (printed(&bytes).ends_with("X 15\n")) as u32;
        let mut sheet = Sheet::new(state.guests.len());
        let mut completed = Vec::new();
        for e in events {
            let answer = sheet.play(&mut state, e);
            let own = |a| a == reservation(e.guest as u64, e.id as u64);
            at_once += (e.kind == ARRIVAL && own(answer)) as u32;
            match e.kind {
                ARRIVAL if !refused(answer) => again += completed.contains(&(e.guest, e.id)) as u32,
                COMPLETION if !refused(answer) => completed.push((e.guest, e.id)),
                _ => {}
            }
        }
        for line in sheet.lines {
            for (times, number) in often.iter_mut().zip(numbers(&line)) {
                *times += (number > 0) as u32;
            }
        }
    }
    assert!(often.iter().all(|times| *times > 40), "{often:?}");
    assert!(
        at_once > 100 && cut > 20 && again > 100,
        "{at_once} {cut} {again}"
    );
}

/// The figures, of the sum only the upper number.
fn numbers(line: &Line) -> [u64; 9] {
    [
        line.arrivals,
        line.completions,
        line.by_reservation,
        line.by_weight,
        line.ahead,
        line.longest,
        (line.summed >> 64) as u64,
        line.waiting,
        line.flight,
    ]
}

#[test]
fn an_answer_of_the_sheet_may_be_a_refusal() {
    let mut state = State::fresh(1, 1, &[guest(0, 0, 1)]);
    let mut sheet = Sheet::new(1);
    let answer = sheet.play(&mut state, event(3, 0, 0, 0));
    assert_eq!(answer, Answer::Refused(14));
    assert_eq!(sheet.lines, [Line::default()]);
}
