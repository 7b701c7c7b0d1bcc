//! Is the other gate right: document 02, K10.

mod common;
use common::mirror::Mirror;
use common::*;
use second::judge::SURPLUS;
use second::kinds::{recorded, trace, KINDS};
use second::sample::{any_lines, bent_lines, erring_lines, spoil_lines_by, DAMAGES};
use second::sample::{spoil_lines, Prng};
use second::trace::{events, header_bytes, header_bytes_2, Event, Header, Next, Version};
use second::{judge, lines_of, Answer, Judged, Settings, Ties};
use std::collections::BTreeMap;
use std::fs;
use std::path::Path;
use std::process::Command;

const ACCEPTED: [u64; 5] = [0; 5];

/// Line, kind, guest, id, refusal.
fn judged(trace: &[u8], lines: &[u8]) -> [u64; 5] {
    let Judged {
        line,
        kind,
        guest,
        id,
        refusal,
    } = judge(trace, lines);
    [line, kind, guest, id, refusal]
}

fn arrival(guest: u8, id: u32, time: u64) -> Event {
    event(0, guest, id, time)
}

fn completion(guest: u8, id: u32, time: u64) -> Event {
    event(1, guest, id, time)
}

fn tick(time: u64) -> Event {
    event(2, 0, 0, time)
}

fn one(depth: u8, capacity: u16, settings: &[Settings], events: &[Event]) -> Vec<u8> {
    let mut b = header_bytes(depth, settings.len() as u8, capacity, settings);
    b.extend(events.iter().flat_map(|event| event.bytes(Version::One)));
    b
}

/// Under rule 2.
fn two(depth: u8, capacity: u16, settings: &[Settings], events: &[Event]) -> Vec<u8> {
    let mut b = header_bytes_2(depth, settings.len() as u8, capacity, 2, settings);
    b.extend(events.iter().flat_map(|event| event.bytes(Version::Two)));
    b
}

/// Document 01's example.
fn example() -> Vec<u8> {
    let arrivals = (1..5).map(|id| arrival(0, id, 0));
    let ticks = [4, 8, 10, 9].map(|t| tick(t * MS));
    let completions = [completion(0, 1, 10 * MS); 2];
    let events: Vec<_> = arrivals.chain(ticks).chain(completions).collect();
    one(4, 8, &[guest(100, 250, 1)], &events)
}

const EXAMPLE: &str = "event answer
1 R 0 1
2 -
3 -
4 -
5 W 0 2
6 W 0 3
7 R 0 4
8 X 6
9 -
10 X 10
";

/// The example's lines with one line another.
fn with_line(number: usize, line: &str) -> Vec<u8> {
    let mut lines: Vec<&str> = EXAMPLE.split_inclusive('\n').collect();
    lines[number - 1] = line;
    lines.concat().into_bytes()
}

#[test]
fn the_example() {
    let trace = example();
    assert_eq!(judged(&trace, EXAMPLE.as_bytes()), ACCEPTED);
    let nothing = [0, 0, 0, 0];
    let by_reservation = [1, 0, 4, 0];
    // A line that is none of the printed forms, or not the right one.
    let wrongs: [(usize, &str, [u64; 4]); 28] = [
        (1, "Event answer\n", nothing),
        (1, "event answer \n", nothing),
        (1, "event answer\r\n", nothing),
        (1, "\n", nothing),
        (1, "1 R 0 1\n", nothing),
        (3, "2  -\n", nothing),
        (3, "2\n", nothing),
        (3, "2 - \n", nothing),
        (3, "02 -\n", nothing),
        (3, "3 -\n", nothing),
        (3, "2 X 0\n", nothing),
        (3, "2 R 0 2\n", nothing),
        (3, "2 W 0 2\n", nothing),
        (3, "18446744073709551618 -\n", nothing),
        (8, "7 -\n", by_reservation),
        (8, "7 W 0 4\n", by_reservation),
        (8, "7 r 0 4\n", by_reservation),
        (8, "7 R 0 4 \n", by_reservation),
        (8, "7 R 0\n", by_reservation),
        (8, "7 R 0 04\n", by_reservation),
        (8, "7 R 0 +4\n", by_reservation),
        (8, "7 R 256 4\n", by_reservation),
        (8, "7 R 0 4294967300\n", by_reservation),
        (8, "7 R 0 3\n", by_reservation),
        (8, "7 X 6\n", by_reservation),
        (9, "8 X 5\n", [3, 0, 0, 6]),
        (9, "8 X 262\n", [3, 0, 0, 6]),
        (9, "8 -\n", [3, 0, 0, 6]),
    ];
    for (number, line, [kind, guest, id, refusal]) in wrongs {
        let expected = [number as u64, kind, guest, id, refusal];
        assert_eq!(judged(&trace, &with_line(number, line)), expected, "{line}");
    }
}

#[test]
fn lines_that_are_missing_surplus_or_not_ended() {
    let trace = example();
    let lines = EXAMPLE.as_bytes();
    assert_eq!(judged(&trace, b""), [1, 0, 0, 0, 0]);
    assert_eq!(judged(&trace, b"event answer"), [1, 0, 0, 0, 0]);
    assert_eq!(judged(&trace, b"event answer\n"), [2, 1, 0, 1, 0]);
    assert_eq!(judged(&trace, b"event answer\n1 R 0 1"), [2, 1, 0, 1, 0]);
    // The last line, cut at any byte or gone.
    let last = lines.len() - "10 X 10\n".len();
    for length in last..lines.len() {
        assert_eq!(judged(&trace, &lines[..length]), [11, 3, 0, 0, 10]);
    }
    for more in ["\n", "\r", " ", "11 -\n", "11", "10 X 10\n", "\n\n"] {
        let more = [lines, more.as_bytes()].concat();
        assert_eq!(judged(&trace, &more), [12, SURPLUS, 0, 0, 0]);
    }
    // One in the middle is missing, is there twice, or is empty.
    assert_eq!(judged(&trace, &with_line(6, "")), [6, 2, 0, 2, 0]);
    assert_eq!(judged(&trace, &with_line(6, "\n")), [6, 2, 0, 2, 0]);
    let twice = with_line(6, "5 W 0 2\n5 W 0 2\n");
    assert_eq!(judged(&trace, &twice), [7, 2, 0, 3, 0]);
}

#[test]
fn a_trace_without_events() {
    let trace = one(1, 1, &[guest(0, 0, 1)], &[]);
    assert_eq!(judged(&trace, b"event answer\n"), ACCEPTED);
    assert_eq!(judged(&trace, b"event answer\n\n"), [2, SURPLUS, 0, 0, 0]);
    assert_eq!(judged(&trace, b"event answer"), [1, 0, 0, 0, 0]);
}

#[test]
fn a_bad_header_has_just_its_line() {
    let mut bad = example();
    bad[3] = 9;
    let line = b"trace refused 12\n";
    assert_eq!(judged(&bad, line), ACCEPTED);
    for wrong in [
        "",
        "trace refused 12",
        "trace refused 12\r\n",
        "trace refused  12\n",
        "trace refused 1\n",
        "trace refused 13\n",
        "event answer\n",
        "\n",
    ] {
        assert_eq!(judged(&bad, wrong.as_bytes()), [1, 3, 0, 0, 12]);
    }
    for more in ["\n", "x", "trace refused 12\n", "event answer\n1 R 0 1\n"] {
        let more = [line, more.as_bytes()].concat();
        assert_eq!(judged(&bad, &more), [2, SURPLUS, 0, 0, 0]);
    }
    // Not with a good header.
    assert_eq!(judged(&example(), line), [1, 0, 0, 0, 0]);
}

#[test]
fn a_cut_last_event_has_its_line() {
    let mut cut = example();
    cut.push(3);
    let right = [EXAMPLE, "11 X 15\n"].concat();
    assert_eq!(judged(&cut, right.as_bytes()), ACCEPTED);
    assert_eq!(judged(&cut, EXAMPLE.as_bytes()), [12, 3, 0, 0, 15]);
    for wrong in ["11 X 14\n", "11 -\n", "11 X 15", "\n"] {
        let wrong = [EXAMPLE, wrong].concat();
        assert_eq!(judged(&cut, wrong.as_bytes()), [12, 3, 0, 0, 15]);
    }
    let more = [EXAMPLE, "11 X 15\n12 X 15\n"].concat();
    assert_eq!(judged(&cut, more.as_bytes()), [13, SURPLUS, 0, 0, 0]);
}

/// Document 01's reading at depth 1, where A's second and B's first tie.
fn a_tie() -> Vec<u8> {
    one(
        1,
        8,
        &[guest(0, 0, 1), guest(0, 0, 2)],
        &[
            arrival(0, 1, 0),
            arrival(0, 2, 0),
            arrival(0, 3, 0),
            arrival(1, 1, 100 * MS),
            completion(0, 1, 100 * MS),
            completion(0, 2, 100 * MS),
            completion(1, 1, 100 * MS),
        ],
    )
}

#[test]
fn a_tie_may_go_either_way_and_the_tables_follow() {
    let trace = a_tie();
    let lines = |rest: &str| format!("event answer\n1 W 0 1\n2 -\n3 -\n4 -\n{rest}").into_bytes();
    let ours = lines("5 W 0 2\n6 W 1 1\n7 W 0 3\n");
    assert_eq!(judged(&trace, &ours), ACCEPTED);
    assert_eq!(lines_of(&trace, Ties::Earlier), ours);
    assert_eq!(lines_of(&trace, Ties::LowGuest), ours);
    // The other way A's second is not in flight when it is named.
    let other = lines("5 W 1 1\n6 X 10\n7 W 0 2\n");
    assert_eq!(judged(&trace, &other), ACCEPTED);
    assert_eq!(lines_of(&trace, Ties::HighGuest), other);
    // Each goes on from its own tables.
    assert_eq!(
        judged(&trace, &lines("5 W 1 1\n6 W 1 1\n")),
        [7, 3, 0, 0, 10]
    );
    assert_eq!(judged(&trace, &lines("5 W 0 2\n6 X 10\n")), [7, 2, 1, 1, 0]);
    assert_eq!(
        judged(&trace, &lines("5 W 1 1\n6 X 10\n7 W 0 3\n")),
        [8, 2, 0, 2, 0]
    );
    assert_eq!(
        judged(&trace, &lines("5 W 1 1\n6 X 10\n7 -\n")),
        [8, 2, 0, 2, 0]
    );
    // No tie: a later one of A, B in the other phase, one that is not there.
    for wrong in ["W 0 3", "R 1 1", "R 0 2", "W 1 2", "W 2 1", "-", "X 10"] {
        let wrong = lines(&format!("5 {wrong}\n"));
        assert_eq!(judged(&trace, &wrong), [6, 2, 0, 2, 0]);
    }
}

#[test]
fn ties_by_reservation() {
    let settings = [guest(10, 0, 1); 3];
    let trace = one(
        1,
        8,
        &settings,
        &[
            arrival(0, 9, 0),
            arrival(2, 1, 5),
            arrival(1, 1, 5),
            arrival(0, 1, 5),
            arrival(1, 2, 5),
            completion(0, 9, 5),
            tick(6),
        ],
    );
    let lines = |sixth: &str| {
        let before = "event answer\n1 R 0 9\n2 -\n3 -\n4 -\n5 -\n";
        format!("{before}6 {sixth}\n7 -\n").into_bytes()
    };
    // Guest 0 was served at 0, and its reservation tag lies ahead.
    for right in ["R 2 1", "R 1 1"] {
        assert_eq!(judged(&trace, &lines(right)), ACCEPTED, "{right}");
    }
    for wrong in ["R 0 1", "R 1 2", "W 2 1", "W 1 1", "W 0 1", "-"] {
        assert_eq!(judged(&trace, &lines(wrong)), [7, 1, 2, 1, 0], "{wrong}");
    }
    assert_eq!(lines_of(&trace, Ties::Earlier), lines("R 2 1"));
    assert_eq!(lines_of(&trace, Ties::LowGuest), lines("R 1 1"));
    assert_eq!(lines_of(&trace, Ties::HighGuest), lines("R 2 1"));
}

/// Event 7 of the example prints `-` under rule 2.
#[test]
fn the_lines_are_read_under_the_rule_of_the_trace() {
    let (header, events) = taken_apart(&example());
    let trace = two(4, 8, &header.settings, &events);
    let under_2 = with_line(8, "7 -\n");
    assert_eq!(judged(&trace, &under_2), ACCEPTED);
    assert_eq!(judged(&trace, EXAMPLE.as_bytes()), [8, 0, 0, 0, 0]);
    assert_eq!(judged(&example(), &under_2), [8, 1, 0, 4, 0]);
}

#[test]
fn with_no_place_free_nothing_goes() {
    let settings = [guest(10, 0, 1), guest(10, 0, 1)];
    let trace = one(1, 8, &settings, &[arrival(0, 1, 0), arrival(1, 1, 0)]);
    assert_eq!(judged(&trace, b"event answer\n1 R 0 1\n2 -\n"), ACCEPTED);
    let sent = b"event answer\n1 R 0 1\n2 R 1 1\n";
    assert_eq!(judged(&trace, sent), [3, 0, 0, 0, 0]);
}

const WAYS: [Ties; 5] = [
    Ties::Earlier,
    Ties::LowGuest,
    Ties::HighGuest,
    Ties::Random(1),
    Ties::Random(2),
];

/// Every kind but `large`, and `mixed`, which draws large ones.
fn short_kinds() -> impl Iterator<Item = &'static str> {
    let long = |kind: &str| kind.starts_with("large") || kind.starts_with("mixed");
    KINDS.into_iter().filter(move |kind| !long(kind))
}

#[test]
fn our_own_lines_and_those_of_every_other_tie_rule_are_accepted() {
    for kind in short_kinds() {
        for seed in 0..60 {
            let trace = trace(kind, seed).unwrap();
            let ours = printed(&trace).into_bytes();
            assert_eq!(judged(&trace, &ours), ACCEPTED);
            assert_eq!(lines_of(&trace, Ties::Earlier), ours);
            for ties in WAYS {
                assert_eq!(judged(&trace, &lines_of(&trace, ties)), ACCEPTED);
            }
        }
    }
    let large = trace("large2", 1).unwrap();
    assert_eq!(judged(&large, printed(&large).as_bytes()), ACCEPTED);
    assert_eq!(judged(&large, &lines_of(&large, Ties::HighGuest)), ACCEPTED);
}

/// How many choices of a gate were among several, and how many sends it made.
fn choices(trace: &[u8], lines: &[u8]) -> (u64, u64) {
    let (mut tied, mut sends) = (0, 0);
    let judged = walk(trace, lines, |right, answer| {
        tied += (right.len() > 1) as u64;
        sends += matches!(answer, Answer::Sent { .. }) as u64;
    });
    assert_eq!(judged, ACCEPTED);
    (tied, sends)
}

/// The traces called ties have them, and a gate that breaks them as the
/// recorder did goes on as well as ours on a trace of our own.
#[test]
fn the_ties_kinds_have_ties() {
    for (version, kind) in [(Version::One, "ties"), (Version::Two, "ties2")] {
        let mut seen = BTreeMap::new();
        for seed in 0..300 {
            let (bytes, ties) = recorded(version, seed);
            assert_eq!(trace(kind, seed).unwrap(), bytes);
            let lines = lines_of(&bytes, ties);
            let (tied, sends) = choices(&bytes, &lines);
            let bent = WAYS[1..].iter().any(|way| lines_of(&bytes, *way) != lines);
            let name = format!("{ties:?}");
            let name = name.split('(').next().unwrap().to_string();
            let [all, choice, sent, differs] = seen.entry(name).or_insert([0; 4]);
            *all += 1;
            *choice += tied;
            *sent += sends;
            *differs += bent as u64;
        }
        assert_eq!(seen.len(), 4);
        for [all, tied, sends, differs] in seen.values() {
            assert!(*all > 40 && 10 * differs > 6 * all, "{seen:?}");
            assert!(*sends > 20 * all && 4 * tied > *sends, "{seen:?}");
        }
    }
}

/// A number as it is printed.
fn strict(field: &str) -> Option<u64> {
    let digits = !field.is_empty() && field.bytes().all(|byte| byte.is_ascii_digit());
    let leads = field.len() > 1 && field.starts_with('0');
    if digits && !leads {
        field.parse().ok()
    } else {
        None
    }
}

/// Number and answer of a line, without its byte 10, if it is a printed form.
fn parsed(line: &[u8]) -> Option<(u64, Answer)> {
    let fields: Vec<&str> = std::str::from_utf8(line).ok()?.split(' ').collect();
    let (number, rest) = fields.split_first()?;
    let answer = match rest[..] {
        ["-"] => Answer::Nothing,
        ["R", guest, id] => reservation(strict(guest)?, strict(id)?),
        ["W", guest, id] => weight(strict(guest)?, strict(id)?),
        ["X", refusal] => Answer::Refused(strict(refusal)?.try_into().ok()?),
        _ => return None,
    };
    Some((strict(number)?, answer))
}

fn numbers(line: u64, answer: Answer) -> [u64; 5] {
    match answer {
        Answer::Nothing => [line, 0, 0, 0, 0],
        Answer::Refused(number) => [line, 3, 0, 0, number as u64],
        Answer::Sent { phase, guest, id } => {
            let kind = match phase {
                second::Phase::Reservation => 1,
                second::Phase::Weight => 2,
            };
            [line, kind, guest, id, 0]
        }
    }
}

/// The judge once more: the lines are read into answers, and held to the
/// mirror of the rules, which looks at the first request of each guest.
/// `look` sees what was right and what was answered, where the two agree.
fn walk(trace: &[u8], lines: &[u8], mut look: impl FnMut(&[Answer], Answer)) -> [u64; 5] {
    let mut found: Vec<&[u8]> = lines.split(|byte| *byte == 10).collect();
    // What follows the last byte 10 is a line that is not ended, or none.
    let open = found.pop().filter(|rest| !rest.is_empty());
    let count = found.len() + open.is_some() as usize;
    let surplus = |due: usize| match count > due {
        true => [due as u64 + 1, 4, 0, 0, 0],
        false => ACCEPTED,
    };
    let first = found.first().map(|line| String::from_utf8_lossy(line));
    let header = match Header::read(trace) {
        Ok(_) if first.as_deref() != Some("event answer") => return [1, 0, 0, 0, 0],
        Ok(header) => header,
        Err(number) if first == Some(format!("trace refused {number}").into()) => {
            return surplus(1)
        }
        Err(number) => return [1, 3, 0, 0, number as u64],
    };
    let mut mirror = Mirror::of(&header.fresh());
    let mut due = 1;
    for next in events(&header, trace) {
        let right = match next {
            Next::Cut => vec![Answer::Refused(15)],
            Next::Event(event) if !event.well_formed() => vec![Answer::Refused(14)],
            Next::Event(event) => match mirror.enter(call_of(event)) {
                Ok(()) => mirror.right(),
                Err(number) => vec![Answer::Refused(number)],
            },
        };
        let answered = found.get(due).and_then(|line| parsed(line));
        match answered {
            Some((number, answer)) if number == due as u64 && right.contains(&answer) => {
                mirror.follow(answer);
                look(&right, answer);
            }
            _ => return numbers(due as u64 + 1, right[0]),
        }
        due += 1;
    }
    surplus(due)
}

/// What stands at the line that was named: how often each was seen.
#[derive(Default)]
struct Seen(BTreeMap<&'static str, u64>);

impl Seen {
    fn note(&mut self, [line, kind, ..]: [u64; 5]) {
        let name = match (line, kind) {
            (0, _) => "accepted",
            (1, _) => "header",
            (_, 0) => "nothing",
            (_, 1) => "reservation",
            (_, 2) => "weight",
            (_, 3) => "refused",
            _ => "surplus",
        };
        *self.0.entry(name).or_insert(0) += 1;
    }

    fn each_more_than(&self, times: u64) -> bool {
        self.0.len() == 7 && self.0.values().all(|seen| *seen > times)
    }
}

#[test]
fn any_lines_in_other_words() {
    let mut rng = Prng::new(101);
    let mut seen = Seen::default();
    for kind in short_kinds() {
        let seeds = if kind.starts_with("ties") { 100 } else { 30 };
        for seed in 0..seeds {
            let trace = trace(kind, seed).unwrap();
            for _ in 0..10 {
                let lines = any_lines(&trace, &mut rng);
                let expected = walk(&trace, &lines, |_, _| {});
                assert_eq!(judged(&trace, &lines), expected, "{kind} {seed}");
                seen.note(expected);
            }
        }
    }
    assert!(seen.each_more_than(60), "{:?}", seen.0);
}

/// A gate that errs at a tie, or nearly: the event at which it does is found.
#[test]
fn gates_that_err() {
    let mut rng = Prng::new(102);
    let mut seen = Seen::default();
    for kind in ["ties", "ties2"] {
        for seed in 0..100 {
            let trace = trace(kind, seed).unwrap();
            for _ in 0..8 {
                let lines = erring_lines(&trace, &mut rng);
                let expected = walk(&trace, &lines, |_, _| {});
                assert_eq!(judged(&trace, &lines), expected, "{kind} {seed}");
                seen.note(expected);
            }
        }
    }
    let often = ["accepted", "nothing", "reservation", "weight", "refused"];
    assert!(often.iter().all(|name| seen.0[name] > 50), "{:?}", seen.0);
}

/// The first line, of those that end and the one that does not, in which two
/// texts differ, from 1; 0 where they are the same.
fn first_difference(a: &[u8], b: &[u8]) -> usize {
    if a == b {
        return 0;
    }
    let same = a.iter().zip(b).take_while(|(a, b)| a == b).count();
    1 + a[..same].iter().filter(|byte| **byte == 10).count()
}

/// With one guest there are no ties: whatever differs is wrong, and the first
/// line that differs is named with what is printed there.
#[test]
fn where_nothing_ties_the_first_line_that_differs_is_named() {
    let mut rng = Prng::new(103);
    let mut seen = BTreeMap::new();
    for kind in ["small", "jumps", "waits", "cut2", "garbage", "small2"] {
        for seed in 0..60 {
            let trace = trace(kind, seed).unwrap();
            if taken_apart(&trace).0.settings.len() > 1 {
                continue;
            }
            let ours = printed(&trace).into_bytes();
            for damage in DAMAGES {
                let mut lines = ours.clone();
                spoil_lines_by(damage, &mut lines, &mut rng);
                let line = first_difference(&ours, &lines);
                let right = ours.split(|byte| *byte == 10).nth(line.max(1) - 1);
                let expected = match (line, right.and_then(parsed)) {
                    (0, _) => ACCEPTED,
                    (1, _) => [1, 0, 0, 0, 0],
                    (_, Some((number, answer))) => {
                        assert_eq!(number, line as u64 - 1);
                        numbers(line as u64, answer)
                    }
                    (_, None) => [line as u64, SURPLUS, 0, 0, 0],
                };
                assert_eq!(judged(&trace, &lines), expected, "{damage:?}");
                *seen.entry(damage).or_insert(0) += (line > 0) as u64;
            }
        }
    }
    assert!(seen.values().all(|wrong| *wrong > 20), "{seen:?}");
}

/// Where a line of our own is gone, no line before it is named.
#[test]
fn a_dropped_line() {
    let trace = example();
    let lines: Vec<&[u8]> = EXAMPLE.as_bytes().split_inclusive(|b| *b == 10).collect();
    for number in 1..=lines.len() {
        let (before, rest) = lines.split_at(number - 1);
        let dropped = [before, &rest[1..]].concat().concat();
        // The next has another number.
        assert_eq!(judge(&trace, &dropped).line, number as u64);
        let doubled = [before, &rest[..1], rest].concat().concat();
        assert_eq!(judge(&trace, &doubled).line, number as u64 + 1);
        if let [first, second, rest @ ..] = rest {
            let swapped = [before, &[second, first], rest].concat().concat();
            assert_eq!(judge(&trace, &swapped).line, number as u64);
        }
    }
}

#[test]
fn bent_and_spoiled_lines_are_as_they_say() {
    let mut rng = Prng::new(104);
    let mut wrong = 0;
    for seed in 0..200 {
        let trace = trace("ties", seed).unwrap();
        let bent = bent_lines(&trace, &mut rng);
        assert_eq!(judged(&trace, &bent), ACCEPTED);
        let mut spoiled = bent.clone();
        let damage = spoil_lines(&mut spoiled, &mut rng);
        let found = judge(&trace, &spoiled).line as usize;
        let differs = first_difference(&bent, &spoiled);
        // Right up to there; what differs may be another way of a tie.
        assert!(found == 0 || found >= differs, "{damage:?}");
        wrong += (found == differs && found != 0) as u64;
    }
    assert!(wrong > 150, "{wrong}");
}

#[test]
fn the_program_judges_when_told_to() {
    let folder = Path::new(env!("CARGO_TARGET_TMPDIR")).join("judging");
    fs::create_dir_all(&folder).unwrap();
    let (trace, lines) = (folder.join("trace"), folder.join("lines"));
    fs::write(&trace, a_tie()).unwrap();
    let told = |text: &[u8]| {
        fs::write(&lines, text).unwrap();
        let mut second = Command::new(env!("CARGO_BIN_EXE_second"));
        let ended = second
            .arg("judge")
            .arg(&trace)
            .arg(&lines)
            .output()
            .unwrap();
        let printed = String::from_utf8(ended.stdout).unwrap();
        (ended.status.code(), printed)
    };
    let other = lines_of(&a_tie(), Ties::HighGuest);
    assert_eq!(told(&other), (Some(0), "0 0 0 0 0\n".to_string()));
    let short = &other[..other.len() - 1];
    assert_eq!(told(short), (Some(1), "8 2 0 2 0\n".to_string()));
}
