//! The moves of a trace from one version to the other, made of the library and of the second program: the answers, and
//! every byte of the room afterwards. Traces are well-formed and damaged, of both versions; the room is too short, just
//! enough or longer.

use crate::fence::{playing, Fenced};
use crate::seeds::Seeds;
use crate::tally::{Tally, OF_MOVES};
use second::kinds::trace;
use second::moves::Moved;
use second::sample::Prng;
use sgq::raw;
use sgq::{Refusal, MOST_GROWTH};
use std::collections::BTreeMap;

/// Kinds of traces, each of both versions, and how many of each.
const KINDS: [&str; 7] = [
    "small", "ceiling", "jumps", "waits", "header", "cut", "garbage",
];
const SEEDS: usize = 120;

/// Longer traces are cut to so much, which the memory before a fence holds; the events are behind the header.
const MOST_BYTES: usize = 20_000;

/// Each move: its name, the library's and the second program's.
type OfLibrary = unsafe extern "C" fn(*const u8, usize, *mut u8, usize) -> raw::Moved;
type OfSecond = fn(&[u8], &mut [u8]) -> Moved;
const MOVES: [(&str, OfLibrary, OfSecond); 2] = [
    ("up", raw::sgq_trace_up, second::up),
    ("back", raw::sgq_trace_back, second::back),
];

/// Where trace and room stand while they are lent.
struct Fences {
    trace: Fenced,
    room: Fenced,
}

/// How often each refusal was given, or 0, and how often it named an event.
#[derive(Default)]
struct Seen(BTreeMap<(u64, bool), u64>);

pub fn moved(seeds: Seeds, tally: &mut Tally) {
    let mut fences = Fences {
        trace: Fenced::new(),
        room: Fenced::new(),
    };
    let mut seen = Seen::default();
    for kind in KINDS
        .iter()
        .flat_map(|kind| [kind.to_string(), format!("{kind}2")])
    {
        for seed in seeds.of(SEEDS) {
            playing(seed);
            let result = of_seed(&kind, seed, &mut fences, &mut seen);
            tally.add(&format!("moves of a {kind} trace, seed {seed}"), result);
        }
    }
    println!("moves: {} calls", seen.0.values().sum::<u64>());
    seen.print();
    tally.add_seen("moves", seen.all_seen());
}

/// Both moves of a trace, of what they make of it, and of the trace with a damage.
fn of_seed(kind: &str, seed: u64, fences: &mut Fences, seen: &mut Seen) -> Result<(), String> {
    let mut rng = Prng::new(seed);
    let mut bytes = trace(kind, seed).ok_or("there is no such kind of trace")?;
    bytes.truncate(MOST_BYTES);
    for of in MOVES {
        if let Some(result) = into_rooms(of, &bytes, &mut rng, fences, seen)? {
            for of in MOVES {
                into_rooms(of, &result, &mut rng, fences, seen)?;
            }
        }
    }
    damage(&mut rng, &mut bytes);
    for of in MOVES {
        into_rooms(of, &bytes, &mut rng, fences, seen)?;
    }
    Ok(())
}

/// A byte or two changed, or some cut away.
fn damage(rng: &mut Prng, bytes: &mut Vec<u8>) {
    for _ in 0..=rng.below(2) {
        if bytes.is_empty() {
            return;
        }
        let at = rng.below(bytes.len() as u64) as usize;
        match rng.below(4) {
            0 => bytes.truncate(at),
            1 => bytes[at] = rng.below(256) as u8,
            _ => bytes[at] ^= 1 << rng.below(8),
        }
    }
}

/// A move into room that is enough, and then into room that is too short, just enough and longer. Gives the result, if
/// the trace is not refused.
fn into_rooms(
    of: (&str, OfLibrary, OfSecond),
    bytes: &[u8],
    rng: &mut Prng,
    fences: &mut Fences,
    seen: &mut Seen,
) -> Result<Option<Vec<u8>>, String> {
    let most = bytes.len() + MOST_GROWTH;
    let (moved, room) = hold(of, bytes, most, rng, fences, seen)?;
    let length = moved.written as usize;
    let shorter = rng.below(length.max(1) as u64) as usize;
    for room in [0, shorter, length.saturating_sub(1), length, length + 1] {
        let _same = hold(of, bytes, room, rng, fences, seen)?;
    }
    Ok((moved.refusal == 0).then(|| room[..length].to_vec()))
}

/// Makes one move of both, into room of this length that holds anything. Gives the answer and the room, or what differs.
fn hold(
    (name, of_library, of_second): (&str, OfLibrary, OfSecond),
    bytes: &[u8],
    room: usize,
    rng: &mut Prng,
    fences: &mut Fences,
    seen: &mut Seen,
) -> Result<(raw::Moved, Vec<u8>), String> {
    let before: Vec<u8> = (0..room).map(|_| rng.below(256) as u8).collect();
    let (mut ours, mut theirs, mut trace) = (before.clone(), before, bytes.to_vec());
    let lent = fences.trace.put_bytes(&trace);
    let lent_room = fences.room.put_bytes(&ours);
    // SAFETY: bytes as long as they are, each in memory of its own.
    let found = unsafe { of_library(lent, trace.len(), lent_room, room) };
    let marks = [
        fences.trace.take_bytes(&mut trace),
        fences.room.take_bytes(&mut ours),
    ];
    let (refusal, written, event) = of_second(bytes, &mut theirs);
    let expected = raw::Moved {
        refusal: refusal.into(),
        written: written as u64,
        event,
    };
    let differs = if found != expected {
        format!("the library answers {found:?}, second {expected:?}")
    } else if let Some(at) = (0..room).find(|&at| ours[at] != theirs[at]) {
        let (has, wants) = (ours[at], theirs[at]);
        format!("byte {at} of the room: the library leaves {has}, second {wants}")
    } else if marks.contains(&false) {
        "the library wrote before the beginning of what it was lent".to_string()
    } else if trace != bytes {
        "the library changed the trace".to_string()
    } else {
        *seen.0.entry((refusal.into(), event != 0)).or_default() += 1;
        return Ok((found, ours));
    };
    let length = bytes.len();
    Err(format!(
        "{name} of {length} bytes into room for {room}: {differs}"
    ))
}

impl Seen {
    fn print(&self) {
        let lines = self.0.iter().map(|((refusal, named), times)| {
            let event = if *named { " with an event" } else { "" };
            format!("{refusal}{event}: {times}")
        });
        let lines: Vec<String> = lines.collect();
        println!("  moved 0, refused: {}", lines.join(", "));
    }

    /// Whether traces were moved, and each refusal of a move was given; 19 with an event and without.
    fn all_seen(&self) -> Result<(), String> {
        let more = [Refusal::Setting, Refusal::EventKind];
        let refusals = OF_MOVES.iter().chain(&more).map(|refusal| refusal.number());
        let given = |number| self.0.keys().any(|&(refusal, _)| refusal == number);
        if let Some(never) = [0]
            .into_iter()
            .chain(refusals)
            .find(|&number| !given(number))
        {
            return Err(format!("{never} was never given"));
        }
        let back = Refusal::NoWayBack.number();
        let both = self.0.contains_key(&(back, true)) && self.0.contains_key(&(back, false));
        both.then_some(())
            .ok_or_else(|| "19 never named an event, or always did".to_string())
    }
}
