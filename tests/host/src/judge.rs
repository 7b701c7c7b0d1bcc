//! Lines of other gates judged by the library and by the second program: all five numbers of the answer. The lines are our
//! own, of gates that break ties by guest number or at random, of gates that err once, each damaged in every way, and
//! rubbish. The traces are recorded at such gates, and well-formed and damaged ones of both versions.

use crate::fence::{playing, Fenced};
use crate::seeds::Seeds;
use crate::tally::Tally;
use second::judge::{lines_of, Ties};
use second::kinds::{recorded, trace};
use second::sample::{
    any_lines, bent_lines, erring_lines, spoil_lines, spoil_lines_by, Prng, DAMAGES,
};
use second::trace::Version;
use sgq::raw::{self, Judged};
use sgq::Refusal;
use std::collections::BTreeMap;

/// Kinds of traces, each of both versions, and how many of each.
const KINDS: [(&str, usize); 8] = [
    ("ties", 150),
    ("large", 3),
    ("small", 50),
    ("ceiling", 30),
    ("waits", 30),
    ("header", 40),
    ("cut", 20),
    ("garbage", 30),
];

/// Longer traces are cut to so much: the memory before a fence holds their lines.
const MOST_BYTES: usize = 20_000;

/// How often lines are spoiled in some way more, for each trace.
const SPOILED: usize = 4;

/// Where trace and lines stand while they are lent.
struct Fences {
    trace: Fenced,
    lines: Fenced,
}

/// How often lines were accepted, how often another gate's that are not ours, and how often each kind was due and each
/// refusal.
#[derive(Default)]
struct Seen {
    calls: u64,
    accepted: u64,
    bent: u64,
    headings: u64,
    kinds: BTreeMap<u64, u64>,
    refusals: BTreeMap<u64, u64>,
}

pub fn judged(seeds: Seeds, tally: &mut Tally) {
    let mut fences = Fences {
        trace: Fenced::new(),
        lines: Fenced::new(),
    };
    let mut seen = Seen::default();
    for (kind, count) in KINDS {
        for kind in [kind.to_string(), format!("{kind}2")] {
            for seed in seeds.of(count) {
                playing(seed);
                let result = of_seed(&kind, seed, &mut fences, &mut seen);
                tally.add(&format!("lines of a {kind} trace, seed {seed}"), result);
            }
        }
    }
    seen.print();
    tally.add_seen("judge", seen.all_seen());
}

/// All lines that are tried for a trace.
fn of_seed(kind: &str, seed: u64, fences: &mut Fences, seen: &mut Seen) -> Result<(), String> {
    let mut rng = Prng::new(seed);
    let mut bytes = trace(kind, seed).ok_or("there is no such kind of trace")?;
    bytes.truncate(MOST_BYTES);
    let ours = lines_of(&bytes, Ties::Earlier);
    let mut right = vec![bent_lines(&bytes, &mut rng)];
    right.extend(as_recorded(kind, seed).map(|ties| lines_of(&bytes, ties)));
    right.extend([Ties::LowGuest, Ties::HighGuest].map(|ties| lines_of(&bytes, ties)));
    accept("our own lines", &bytes, &ours, fences, seen)?;
    for lines in &right {
        accept("lines of another gate", &bytes, lines, fences, seen)?;
        seen.bent += u64::from(*lines != ours);
    }
    right.push(ours);
    for damage in DAMAGES {
        let mut lines = rng.pick_one(&right).clone();
        spoil_lines_by(damage, &mut lines, &mut rng);
        hold(&bytes, &lines, fences, seen)?;
    }
    for _ in 0..SPOILED {
        let mut lines = rng.pick_one(&right).clone();
        let _damage = spoil_lines(&mut lines, &mut rng);
        let _more = spoil_lines(&mut lines, &mut rng);
        hold(&bytes, &lines, fences, seen)?;
        hold(&bytes, &erring_lines(&bytes, &mut rng), fences, seen)?;
        hold(&bytes, &any_lines(&bytes, &mut rng), fences, seen)?;
    }
    hold(&bytes, &[], fences, seen)
}

/// How the gate breaks ties that recorded a trace of the kinds `ties` and `ties2`.
fn as_recorded(kind: &str, seed: u64) -> Option<Ties> {
    match kind {
        "ties" => Some(recorded(Version::One, seed).1),
        "ties2" => Some(recorded(Version::Two, seed).1),
        _ => None,
    }
}

trait PickOne {
    fn pick_one<'a, T>(&mut self, from: &'a [T]) -> &'a T;
}

impl PickOne for Prng {
    fn pick_one<'a, T>(&mut self, from: &'a [T]) -> &'a T {
        &from[self.below(from.len() as u64) as usize]
    }
}

/// Lines that are right.
fn accept(
    name: &str,
    bytes: &[u8],
    lines: &[u8],
    fences: &mut Fences,
    seen: &mut Seen,
) -> Result<(), String> {
    match both(bytes, lines, fences, seen)? {
        Judged { line: 0, .. } => Ok(()),
        wrong => Err(format!("{name} are not accepted: {wrong:?}")),
    }
}

/// Any lines.
fn hold(bytes: &[u8], lines: &[u8], fences: &mut Fences, seen: &mut Seen) -> Result<(), String> {
    both(bytes, lines, fences, seen).map(|_| ())
}

/// One judgement by both. Gives the answer, or what differs.
fn both(
    bytes: &[u8],
    lines: &[u8],
    fences: &mut Fences,
    seen: &mut Seen,
) -> Result<Judged, String> {
    let (mut trace, mut said) = (bytes.to_vec(), lines.to_vec());
    let lent = fences.trace.put_bytes(&trace);
    let lent_lines = fences.lines.put_bytes(&said);
    // SAFETY: bytes as many as they are, each in memory of their own.
    let found = unsafe { raw::sgq_judge(lent, trace.len(), lent_lines, said.len()) };
    let marks = [
        fences.trace.take_bytes(&mut trace),
        fences.lines.take_bytes(&mut said),
    ];
    if marks.contains(&false) || trace != bytes || said != lines {
        return Err("the library wrote into what it was lent, or before it".to_string());
    }
    let second::Judged {
        line,
        kind,
        guest,
        id,
        refusal,
    } = second::judge(bytes, lines);
    let expected = Judged {
        line,
        kind,
        guest,
        id,
        refusal,
    };
    if found != expected {
        let text = String::from_utf8_lossy(lines);
        return Err(format!(
            "the library answers {found:?}, second {expected:?}, of the lines {text:?}"
        ));
    }
    seen.note(found);
    Ok(found)
}

impl Seen {
    fn note(&mut self, found: Judged) {
        self.calls += 1;
        match found.line {
            0 => self.accepted += 1,
            1 if found.kind == raw::NOTHING => self.headings += 1,
            _ => *self.kinds.entry(found.kind).or_default() += 1,
        }
        if found.refusal != 0 {
            *self.refusals.entry(found.refusal).or_default() += 1;
        }
    }

    fn print(&self) {
        let told = |numbers: &BTreeMap<u64, u64>| {
            let told = numbers
                .iter()
                .map(|(number, times)| format!("{number}: {times}"));
            told.collect::<Vec<_>>().join(", ")
        };
        let (accepted, bent) = (self.accepted, self.bent);
        println!(
            "judge: {} calls, {accepted} accepted, {bent} of other gates whose lines are not ours",
            self.calls
        );
        println!(
            "  due where not: the header line {}, kinds {}",
            self.headings,
            told(&self.kinds)
        );
        println!("  refusals that were due: {}", told(&self.refusals));
    }

    /// Whether all kinds were due where lines were wrong, all refusals of a trace, and lines of other gates were accepted.
    fn all_seen(&self) -> Result<(), String> {
        for kind in raw::NOTHING..=raw::NONE_DUE {
            if !self.kinds.contains_key(&kind) {
                return Err(format!("kind {kind} was never due where a line was wrong"));
            }
        }
        let never = |refusal: &&Refusal| match refusal {
            // What no event of a trace is refused for.
            Refusal::ShortTable | Refusal::NotSound | Refusal::Cost => false,
            Refusal::ShortAnswers | Refusal::TooManyEvents => false,
            Refusal::NoWayBack | Refusal::ShortRoom => false,
            Refusal::Delta | Refusal::Array => false,
            _ => !self.refusals.contains_key(&refusal.number()),
        };
        if let Some(never) = Refusal::ALL.iter().find(never) {
            return Err(format!("{} was never due", never.number()));
        }
        (self.headings > 0 && self.bent > 0)
            .then_some(())
            .ok_or_else(|| "no header line was wrong, or no other gate was another".to_string())
    }
}
