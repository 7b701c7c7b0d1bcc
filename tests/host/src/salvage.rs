//! Torn traces salvaged by the library and by the second program: the answers, and every byte of the room and every number
//! of the list afterwards. Traces are torn, well-formed and damaged, of both versions; room and list are too short, just
//! enough or longer, each by itself and both. What is kept is salvaged once more, and must come out as it is.

use crate::fence::{playing, Fenced};
use crate::seeds::Seeds;
use crate::tally::Tally;
use second::kinds::trace;
use second::salvage::ROW_NUMBERS;
use second::sample::Prng;
use sgq::raw;
use sgq::{most_dropped, Reason, Refusal};
use std::collections::BTreeMap;

/// Kinds of traces, each of both versions, and how many of each.
const KINDS: [(&str, usize); 6] = [
    ("torn", 600),
    ("garbage", 100),
    ("ceiling", 100),
    ("jumps", 100),
    ("header", 100),
    ("cut", 50),
];

/// Longer traces are cut to so much, which the memory before a fence holds, and their lists too.
const MOST_BYTES: usize = 20_000;

/// Where trace, room and list stand while they are lent.
struct Fences {
    trace: Fenced,
    room: Fenced,
    list: Fenced,
}

/// How often each refusal was given, or 0, and each reason; and how many traces came out as they were.
#[derive(Default)]
struct Seen {
    refusals: BTreeMap<u64, u64>,
    reasons: BTreeMap<u64, u64>,
    whole: u64,
}

/// What a call left: the answer, the room and the list.
struct Left {
    found: raw::Salvaged,
    room: Vec<u8>,
    list: Vec<u64>,
}

pub fn salvaged(seeds: Seeds, tally: &mut Tally) {
    let mut fences = Fences {
        trace: Fenced::new(),
        room: Fenced::new(),
        list: Fenced::new(),
    };
    let mut seen = Seen::default();
    for (kind, count) in KINDS {
        for kind in [kind.to_string(), format!("{kind}2")] {
            for seed in seeds.of(count) {
                playing(seed);
                let result = of_seed(&kind, seed, &mut fences, &mut seen);
                tally.add(&format!("salvage of a {kind} trace, seed {seed}"), result);
            }
        }
    }
    seen.print();
    tally.add_seen("salvage", seen.all_seen());
}

fn of_seed(kind: &str, seed: u64, fences: &mut Fences, seen: &mut Seen) -> Result<(), String> {
    let mut rng = Prng::new(seed);
    let mut bytes = trace(kind, seed).ok_or("there is no such kind of trace")?;
    bytes.truncate(MOST_BYTES);
    let Some(kept) = into_rooms(&bytes, &mut rng, fences, seen)? else {
        return Ok(());
    };
    let again = hold(&kept, kept.len(), 0, &mut rng, fences, seen)?;
    if again.found.refusal != 0 || again.found.rows != 0 || again.room != kept {
        return Err(format!("a second pass answers {:?}", again.found));
    }
    Ok(())
}

/// A salvage into room and a list that are enough, and then into others. Gives what is kept, if the trace is not refused.
fn into_rooms(
    bytes: &[u8],
    rng: &mut Prng,
    fences: &mut Fences,
    seen: &mut Seen,
) -> Result<Option<Vec<u8>>, String> {
    let most = most_dropped(bytes.len()) * raw::DROPPED_NUMBERS;
    let left = hold(bytes, bytes.len(), most, rng, fences, seen)?;
    let length = left.found.written as usize;
    let numbers = left.found.rows as usize * ROW_NUMBERS;
    let shorter = |rng: &mut Prng, length: usize| rng.below(length.max(1) as u64) as usize;
    let (short_room, short_list) = (shorter(rng, length), shorter(rng, numbers));
    for (room, list) in [
        (length, numbers),
        (length.saturating_sub(1), numbers),
        (length, numbers.saturating_sub(1)),
        (length + 1, numbers + 1),
        (short_room, numbers + 2),
        (length + 20, short_list),
        (short_room, short_list),
        (0, 0),
    ] {
        let _same = hold(bytes, room, list, rng, fences, seen)?;
    }
    if left.found.refusal != 0 {
        return Ok(None);
    }
    seen.whole += u64::from(left.room[..length] == *bytes);
    for row in left.list[..numbers].chunks_exact(ROW_NUMBERS) {
        *seen.reasons.entry(row[1]).or_default() += 1;
    }
    Ok(Some(left.room[..length].to_vec()))
}

/// One salvage by both, into room and a list of these lengths that hold anything. Gives what is left, or what differs.
fn hold(
    bytes: &[u8],
    room: usize,
    list: usize,
    rng: &mut Prng,
    fences: &mut Fences,
    seen: &mut Seen,
) -> Result<Left, String> {
    let before: Vec<u8> = (0..room).map(|_| rng.any() as u8).collect();
    let numbers: Vec<u64> = (0..list).map(|_| rng.any()).collect();
    let (mut theirs, mut their_list) = (before.clone(), numbers.clone());
    let left = lent(bytes, before, numbers, fences)?;
    let answer = second::salvage(bytes, &mut theirs, &mut their_list);
    let expected = raw::Salvaged {
        refusal: answer.refusal,
        written: answer.bytes,
        rows: answer.rows,
    };
    let differs = if left.found != expected {
        let found = left.found;
        format!("the library answers {found:?}, second {expected:?}")
    } else if let Some(at) = (0..room).find(|&at| left.room[at] != theirs[at]) {
        let (has, wants) = (left.room[at], theirs[at]);
        format!("byte {at} of the room: the library leaves {has}, second {wants}")
    } else if let Some(at) = (0..list).find(|&at| left.list[at] != their_list[at]) {
        let (has, wants) = (left.list[at], their_list[at]);
        format!("number {at} of the list: the library leaves {has}, second {wants}")
    } else {
        *seen.refusals.entry(answer.refusal).or_default() += 1;
        return Ok(left);
    };
    let length = bytes.len();
    Err(format!(
        "{length} bytes into room for {room} and {list} numbers: {differs}"
    ))
}

/// One salvage by the library, each buffer right before a fence.
fn lent(
    bytes: &[u8],
    mut room: Vec<u8>,
    mut list: Vec<u64>,
    fences: &mut Fences,
) -> Result<Left, String> {
    let mut trace = bytes.to_vec();
    let lent = fences.trace.put_bytes(&trace);
    let lent_room = fences.room.put_bytes(&room);
    let lent_list = fences.list.put(&list);
    // SAFETY: bytes and numbers as many as they are, each in memory of their own.
    let found = unsafe {
        raw::sgq_salvage(
            lent,
            trace.len(),
            lent_room,
            room.len(),
            lent_list,
            list.len(),
        )
    };
    let marks = [
        fences.trace.take_bytes(&mut trace),
        fences.room.take_bytes(&mut room),
        fences.list.take(&mut list),
    ];
    if marks.contains(&false) {
        return Err("the library wrote before the beginning of what it was lent".to_string());
    }
    if trace != bytes {
        return Err("the library changed the trace".to_string());
    }
    Ok(Left { found, room, list })
}

impl Seen {
    fn print(&self) {
        let told = |numbers: &BTreeMap<u64, u64>| {
            let told = numbers
                .iter()
                .map(|(number, times)| format!("{number}: {times}"));
            told.collect::<Vec<_>>().join(", ")
        };
        println!("salvage: {} calls", self.refusals.values().sum::<u64>());
        println!("  salvaged 0, refused: {}", told(&self.refusals));
        println!("  dropped for each reason: {}", told(&self.reasons));
        println!("  traces that came out as they were: {}", self.whole);
    }

    /// Whether traces were salvaged, each refusal was given, and each reason; and some came out as they were.
    fn all_seen(&self) -> Result<(), String> {
        let refusals = [
            Refusal::Setting,
            Refusal::TraceMark,
            Refusal::TraceVersion,
            Refusal::TraceHeaderCut,
            Refusal::ShortRoom,
        ];
        for refusal in refusals.map(Refusal::number).into_iter().chain([0]) {
            if !self.refusals.contains_key(&refusal) {
                return Err(format!("{refusal} was never given"));
            }
        }
        let mut reasons = Reason::ALL.iter().map(|reason| reason.number());
        if let Some(never) = reasons.find(|reason| !self.reasons.contains_key(reason)) {
            return Err(format!("nothing was dropped for reason {never}"));
        }
        (self.whole > 0)
            .then_some(())
            .ok_or_else(|| "no trace came out as it was".to_string())
    }
}
