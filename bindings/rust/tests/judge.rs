//! Lines of other gates judged through the wrapper.

use sgq::{judge, Answer, Due, Phase, Refusal, Wrong};

/// Document 01's example, and what is printed of it.
const HEAD: &[u8] = b"SGQ\x01\0\x04\x01\x08\0\x64\0\0\0\xfa\0\0\0\x01\0\0\0";
const LINES: &str =
    "event answer\n1 R 0 1\n2 -\n3 -\n4 -\n5 W 0 2\n6 W 0 3\n7 R 0 4\n8 X 6\n9 -\n10 X 10\n";
const MS: u64 = 1_000_000;

fn event(first: u8, guest: u8, id: u32, time: u64) -> Vec<u8> {
    let mut bytes = vec![first, guest];
    bytes.extend(id.to_le_bytes());
    bytes.extend(time.to_le_bytes());
    bytes
}

fn example() -> Vec<u8> {
    let mut trace = HEAD.to_vec();
    for id in 1..=4 {
        trace.extend(event(0, 0, id, 0));
    }
    for tick in [4, 8, 10, 9] {
        trace.extend(event(2, 0, 0, tick * MS));
    }
    for _ in 0..2 {
        trace.extend(event(1, 0, 1, 10 * MS));
    }
    trace
}

fn wrong(line: u64, due: Due) -> Result<(), Wrong> {
    Err(Wrong { line, due })
}

fn nothing(event: u64) -> Due {
    Due::Accepted(event, Answer::Nothing)
}

fn sent(event: u64, phase: Phase, guest: u64, id: u32) -> Due {
    Due::Accepted(event, Answer::Sent { phase, guest, id })
}

#[test]
fn our_own_lines() {
    assert_eq!(judge(&example(), LINES.as_bytes()), Ok(()));
    assert_eq!(judge(HEAD, b"event answer\n"), Ok(()));
}

/// One line changed at a time; what was due is what stood there.
#[test]
fn wrong_lines() {
    let lines: Vec<&str> = LINES.split_inclusive('\n').collect();
    let due = [
        Due::Heading,
        sent(1, Phase::Reservation, 0, 1),
        nothing(2),
        nothing(3),
        nothing(4),
        sent(5, Phase::Weight, 0, 2),
        sent(6, Phase::Weight, 0, 3),
        sent(7, Phase::Reservation, 0, 4),
        Due::Refused(8, Refusal::TimeBeforeLast),
        nothing(9),
        Due::Refused(10, Refusal::NotInFlight),
    ];
    for (at, due) in due.into_iter().enumerate() {
        let number = at as u64 + 1;
        assert_eq!(format!("{due}\n"), lines[at]);
        for other in [
            "",
            "\n",
            "1 W 0 1\n",
            "7 -\n",
            "8 X 5\n",
            "5 W 0 3\n",
            "2  -\n",
            "02 -\n",
        ] {
            let mut changed = lines.clone();
            changed[at] = other;
            let found = judge(&example(), changed.concat().as_bytes());
            // Where the last line is taken away the lines end too soon, elsewhere another one stands there.
            assert_eq!(found, wrong(number, due), "{other:?} in line {number}");
        }
        let returned = lines[at].replace('\n', "\r\n");
        let mut changed = lines.clone();
        changed[at] = &returned;
        assert_eq!(
            judge(&example(), changed.concat().as_bytes()),
            wrong(number, due)
        );
        let cut = &lines[..at].concat();
        assert_eq!(judge(&example(), cut.as_bytes()), wrong(number, due));
        let unended = format!("{cut}{}", lines[at].trim_end());
        assert_eq!(judge(&example(), unended.as_bytes()), wrong(number, due));
    }
}

#[test]
fn surplus_lines() {
    for more in ["\n", "11 -\n", "11 X 15\n", "event answer\n", "1", "\0"] {
        let lines = format!("{LINES}{more}");
        assert_eq!(judge(&example(), lines.as_bytes()), wrong(12, Due::Nothing));
    }
}

#[test]
fn cut_traces() {
    let trace = [&example()[..], &[2]].concat();
    let cut = Due::Refused(11, Refusal::TraceEventCut);
    assert_eq!(judge(&trace, LINES.as_bytes()), wrong(12, cut));
    assert_eq!(
        judge(&trace, format!("{LINES}11 X 15\n").as_bytes()),
        Ok(())
    );
    let bad = [&example()[..], &[3; 14]].concat();
    let kind = Due::Refused(11, Refusal::EventKind);
    assert_eq!(judge(&bad, LINES.as_bytes()), wrong(12, kind));
    assert_eq!(judge(&bad, format!("{LINES}11 X 14\n").as_bytes()), Ok(()));
}

#[test]
fn bad_headers() {
    let mut other = example();
    other[0] = b's';
    for (trace, refusal) in [
        (&example()[..20], Refusal::TraceHeaderCut),
        (&[], Refusal::TraceHeaderCut),
        (&other, Refusal::TraceMark),
    ] {
        let due = Due::TraceRefused(refusal);
        let line = format!("{due}\n");
        assert_eq!(line, format!("trace refused {}\n", refusal.number()));
        assert_eq!(judge(trace, line.as_bytes()), Ok(()));
        for lines in [
            "",
            LINES,
            "trace refused 12\n",
            "trace refused 13",
            "trace refused 013\n",
        ] {
            assert_eq!(judge(trace, lines.as_bytes()), wrong(1, due));
        }
        let twice = line.repeat(2);
        assert_eq!(judge(trace, twice.as_bytes()), wrong(2, Due::Nothing));
    }
}

/// Depth 1, three guests alike, requests of each at 5 ns: who goes next is the other gate's to choose, but each
/// guest's first before its second, and what it has chosen is gone.
#[test]
fn ties() {
    let mut trace = b"SGQ\x01\0\x01\x03\x08\0".to_vec();
    trace.extend([0, 0, 0, 0, 0, 0, 0, 0, 1, 0, 0, 0].repeat(3));
    for (guest, id) in [(0, 1), (1, 1), (1, 2), (2, 1)] {
        trace.extend(event(0, guest, id, 5));
    }
    trace.extend(event(1, 0, 1, 5));
    let start = "event answer\n1 W 0 1\n2 -\n3 -\n4 -\n";
    let of = |more: &str| judge(&trace, format!("{start}{more}").as_bytes());
    let due = sent(5, Phase::Weight, 1, 1);
    assert_eq!(of("5 W 1 1\n"), Ok(()));
    assert_eq!(of("5 W 2 1\n"), Ok(()));
    for lines in ["5 W 1 2\n", "5 R 1 1\n", "5 -\n", "5 W 0 1\n", ""] {
        assert_eq!(of(lines), wrong(6, due));
    }
    // The completion of what the other gate sent: of guest 2 it is in flight where that went, and else not.
    trace.extend(event(1, 2, 1, 6));
    let of = |more: &str| judge(&trace, format!("{start}{more}").as_bytes());
    assert_eq!(of("5 W 2 1\n6 W 1 1\n"), Ok(()));
    assert_eq!(of("5 W 1 1\n6 X 10\n"), Ok(()));
    assert_eq!(
        of("5 W 2 1\n6 X 10\n"),
        wrong(7, sent(6, Phase::Weight, 1, 1))
    );
    assert_eq!(
        of("5 W 1 1\n6 W 1 2\n"),
        wrong(7, Due::Refused(6, Refusal::NotInFlight))
    );
}

/// The rule is the trace's: event 7 of the example goes by reservation under rule 1, and waits under rule 2.
#[test]
fn rules() {
    let mut two = b"SGQ\x02\0\x04\x01\x08\0\x02".to_vec();
    two.extend(&HEAD[9..]);
    two.extend([0, 0]);
    two.extend(&example()[HEAD.len()..]);
    let waits = LINES.replace("7 R 0 4", "7 -");
    assert_eq!(judge(&two, waits.as_bytes()), Ok(()));
    assert_eq!(judge(&two, LINES.as_bytes()), wrong(8, nothing(7)));
    let due = sent(7, Phase::Reservation, 0, 4);
    assert_eq!(judge(&example(), waits.as_bytes()), wrong(8, due));
}

#[test]
fn in_words() {
    let said = |line, due| Wrong { line, due }.to_string();
    assert_eq!(
        said(8, sent(7, Phase::Reservation, 0, 4)),
        "line 8 is wrong: due was 7 R 0 4"
    );
    assert_eq!(said(12, Due::Nothing), "line 12 is surplus");
    let error: Box<dyn std::error::Error> = Box::new(Wrong {
        line: 1,
        due: Due::Heading,
    });
    assert_eq!(error.to_string(), "line 1 is wrong: due was event answer");
}
