//! What passed, what failed, and which answers were seen.

use crate::seeds::Seeds;
use sgq::raw::{Answer, NEVER, REFUSED};
use sgq::Refusal;
use std::collections::BTreeMap;

/// Where nearly all fail, a few lines tell as much as thousands.
const MOST_SHOWN: u64 = 20;

/// The refusals that only a call on a trace gives; a move gives all of them.
pub const OF_MOVES: [Refusal; 6] = [
    Refusal::TraceMark,
    Refusal::TraceVersion,
    Refusal::TraceHeaderCut,
    Refusal::TraceEventCut,
    Refusal::NoWayBack,
    Refusal::ShortRoom,
];

pub struct Tally {
    pub passed: u64,
    pub failed: u64,
    sees_all: bool,
}

impl Tally {
    pub fn new(seeds: Seeds) -> Tally {
        Tally {
            passed: 0,
            failed: 0,
            sees_all: seeds.see_all(),
        }
    }

    pub fn add(&mut self, name: &str, result: Result<(), String>) {
        match result {
            Ok(()) => self.passed += 1,
            Err(why) => {
                self.failed += 1;
                if self.failed <= MOST_SHOWN {
                    println!("FAILED {name}: {why}");
                }
            }
        }
    }

    /// Whether something was seen often enough, where that is asked of these seeds.
    pub fn add_seen(&mut self, name: &str, result: Result<(), String>) {
        if self.sees_all {
            self.add(name, result);
        }
    }
}

/// How often each answer was given, by kind, each refusal, by number, and each time to wake: never, now or later.
#[derive(Default)]
pub struct Seen {
    pub calls: u64,
    kinds: [u64; REFUSED as usize],
    refusals: BTreeMap<u64, u64>,
    wakes: [u64; 3],
}

impl Seen {
    /// An answer, and the gate's time after it.
    pub fn note(&mut self, answer: Answer, time: u64) {
        self.calls += 1;
        match self.kinds.get_mut(answer.kind as usize) {
            Some(times) => {
                *times += 1;
                self.wakes[when(answer.wake, time)] += 1;
            }
            None => *self.refusals.entry(answer.refusal).or_default() += 1,
        }
    }

    fn times(&self, refusal: Refusal) -> u64 {
        self.refusals.get(&refusal.number()).copied().unwrap_or(0)
    }

    /// How many were sent by reservation, and how many by weight.
    pub fn sends(&self) -> [u64; 2] {
        let [_, reservation, weight] = self.kinds;
        [reservation, weight]
    }

    pub fn print(&self) {
        let [nothing, reservation, weight] = self.kinds;
        println!("  nothing {nothing}, sent by reservation {reservation}, by weight {weight}");
        let line = |&refusal: &Refusal| format!("{}: {}", refusal.number(), self.times(refusal));
        let gates = Refusal::ALL.iter().filter(|one| !OF_MOVES.contains(one));
        let lines: Vec<_> = gates.map(line).collect();
        println!("  refused {}", lines.join(", "));
        let [never, now, later] = self.wakes;
        println!("  to wake never {never}, now {now}, later {later}");
    }

    /// Whether an answer of each kind, each of these refusals that a gate gives and each time to wake was seen.
    pub fn all_seen(&self, refusals: &[Refusal]) -> Result<(), String> {
        if let Some(kind) = self.kinds.iter().position(|&times| times == 0) {
            return Err(format!("no answer was of kind {kind}"));
        }
        if let Some(when) = self.wakes.iter().position(|&times| times == 0) {
            let when = ["never", "now", "later"][when];
            return Err(format!("no time to wake was {when}"));
        }
        let mut gates = refusals.iter().filter(|one| !OF_MOVES.contains(one));
        match gates.find(|&&refusal| self.times(refusal) == 0) {
            Some(never) => Err(format!("{} was never given", never.number())),
            None => Ok(()),
        }
    }

    /// Whether none of these refusals was seen.
    pub fn never_seen(&self, refusals: &[Refusal]) -> Result<(), String> {
        let mut all = refusals.iter();
        match all.find(|&&refusal| self.times(refusal) > 0) {
            Some(given) => Err(format!("{} was given", given.number())),
            None => Ok(()),
        }
    }
}

/// The place among the times to wake: never, now or later.
fn when(wake: u64, time: u64) -> usize {
    match wake {
        NEVER => 0,
        _ if wake <= time => 1,
        _ => 2,
    }
}
