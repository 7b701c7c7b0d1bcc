//! Hands random tables, most of them damaged, to each call of the library through the C interface, and compares the
//! answer and every number of every table afterwards with the second program; then plays whole runs on sound tables,
//! and hands batches of events over sound and damaged tables; then calls the arrays of houses that have several; then moves
//! traces from one version to the other, salvages torn ones, judges the lines of other gates, and reads short clocks.
//!
//!     host-tests FRESH [FIRST]     the seeds from FRESH on, a few, and those from FIRST on, where it is named; see seeds.rs
//!
//! A failure names the seed, the call and what differs. Ends with 'N passed, M failed'.

mod arrays;
mod batches;
mod calls;
mod clean;
mod clocks;
mod damage;
mod fence;
mod judge;
mod moves;
mod salvage;
mod seeds;
mod tally;

use calls::{broken_rule, hold, Fences};
use second::numbers::{MOST_COST, RULE_1, RULE_2};
use second::sample::{Owned, Prng};
use second::Rule;
use seeds::Seeds;
use sgq::Refusal;
use std::process::ExitCode;
use tally::{Seen, Tally};

/// Seeds of damaged tables, small and large, with four calls each.
const SEEDS: usize = 10_000;
const LARGE_SEEDS: usize = 400;
const LEAST_CALLS: u64 = 20_000;

/// Seeds of batches, on small tables and on large ones, and how many batches follow each other on the same tables.
const BATCH_SEEDS: usize = 1_500;
const LARGE_BATCH_SEEDS: usize = 20;
const BATCHES: usize = 3;

/// The refusals that no single call on a gate gives.
const NOT_SINGLE: [Refusal; 4] = [
    Refusal::EventKind,
    Refusal::ShortAnswers,
    Refusal::TooManyEvents,
    Refusal::Array,
];

/// The refusals that no batch gives: it opens no gate, and is of one array.
const NOT_BATCHED: [Refusal; 2] = [Refusal::Setting, Refusal::Array];

/// Kinds of traces for clean runs, how many of each, and how many events at most. The large ones come last. Each is
/// played under both rules for limits.
const RUNS: [(&str, usize, usize); 5] = [
    ("small", 60, 400),
    ("ceiling", 60, 400),
    ("jumps", 30, 400),
    ("fixed", 1, 2_000),
    ("large", 2, 3_000),
];

/// The kinds whose runs take long: a fresh seed plays one of them, under one rule.
const LONG: [&str; 2] = ["fixed", "large"];

fn main() -> ExitCode {
    let words: Vec<String> = std::env::args().skip(1).collect();
    let Some(seeds) = Seeds::from_words(&words) else {
        eprintln!("host-tests takes the first fresh seed, and the first fixed one");
        return ExitCode::FAILURE;
    };
    let mut tally = Tally::new(seeds);
    let mut fences = Fences::new();
    fence::watch();
    damaged(seeds, &mut fences, &mut tally);
    clean(seeds, &mut fences, &mut tally);
    batched(seeds, &mut fences, &mut tally);
    arrays::test(seeds, &mut fences, &mut tally);
    moves::moved(seeds, &mut tally);
    salvage::salvaged(seeds, &mut tally);
    judge::judged(seeds, &mut tally);
    clocks::test(seeds, &mut tally);
    println!("{} passed, {} failed", tally.passed, tally.failed);
    ExitCode::from(if tally.failed == 0 { 0 } else { 1 })
}

/// Small tables of every shape.
fn damaged(seeds: Seeds, fences: &mut Fences, tally: &mut Tally) {
    let mut seen = Seen::default();
    let mut rules = Rules::default();
    let mut closer = 0;
    for seed in seeds.of(SEEDS) {
        let mut rng = Prng::new(seed);
        let tables = damage::tables(&mut rng);
        rules.note(broken_rule(&tables));
        closer += u64::from(damage::has_closer_tags(&tables));
        let result = four_calls(seed, &mut rng, &tables, fences, &mut seen);
        tally.add(&format!("seed {seed}"), result);
    }
    println!("damaged tables: {} calls", seen.calls);
    seen.print();
    rules.print();
    println!("  sound, and reservation tags closer than their spacing: {closer}");
    let all = seen.all_seen(&all_but(&NOT_SINGLE));
    let sound = || "no sound table has close reservation tags".to_string();
    let close = (closer > 0).then_some(()).ok_or_else(sound);
    tally.add_seen("damaged tables", all.and(rules.all_seen()).and(close));
    let enough = seen.calls >= LEAST_CALLS || tally.failed > 0;
    let too_few = || format!("only {} calls were made", seen.calls);
    tally.add_seen("calls", enough.then_some(()).ok_or_else(too_few));
}

/// Each of the four calls on the same tables.
fn four_calls(
    seed: u64,
    rng: &mut Prng,
    tables: &Owned,
    fences: &mut Fences,
    seen: &mut Seen,
) -> Result<(), String> {
    fence::playing(seed);
    for call in damage::calls(rng, tables) {
        let mut tables = tables.clone();
        let answer = hold(&call, &mut tables, fences)?;
        seen.note(answer, tables.view().gate().time);
    }
    Ok(())
}

fn clean(seeds: Seeds, fences: &mut Fences, tally: &mut Tally) {
    let (mut seen_1, mut seen_2) = (Seen::default(), Seen::default());
    let large_1 = clean_under(RULE_1, seeds, fences, &mut seen_1, tally);
    let large_2 = clean_under(RULE_2, seeds, fences, &mut seen_2, tally);
    let same = || "both rules sent as many requests in each phase".to_string();
    let differ = seen_1.sends() != seen_2.sends();
    tally.add_seen("the two rules", differ.then_some(()).ok_or_else(same));
    if let Some(large) = large_2.or(large_1) {
        tally.add_seen("costs that wait in a large run", kept_costs(&large));
        damaged_large(seeds, &large, fences, tally);
        batched_large(seeds, &large, fences, tally);
    }
}

/// The clean runs under one rule; gives the tables at the end of the last large one.
fn clean_under(
    rule: u64,
    seeds: Seeds,
    fences: &mut Fences,
    seen: &mut Seen,
    tally: &mut Tally,
) -> Option<Owned> {
    let mut large = None;
    for (kind, runs, most) in RUNS {
        for seed in seeds_of_runs(seeds, kind, rule, runs) {
            fence::playing(seed);
            let played = clean::play(rule, kind, seed, most, fences, seen);
            let name = format!("{kind} trace of seed {seed}, rule {rule}");
            tally.add(&name, played.as_ref().map(|_| ()).map_err(String::clone));
            if kind == "large" {
                large = played.ok();
            }
        }
    }
    println!("clean runs under rule {rule}: {} calls", seen.calls);
    seen.print();
    large
}

fn seeds_of_runs(seeds: Seeds, kind: &str, rule: u64, runs: usize) -> Vec<u64> {
    match (0..).zip(LONG).find(|&(_, long)| long == kind) {
        Some((place, _)) => seeds.by_turns(2 * place + rule - RULE_1, 2 * LONG.len() as u64, runs),
        None => seeds.of(runs),
    }
}

/// Whether requests of the least cost, of the most and of one between wait in these tables.
fn kept_costs(tables: &Owned) -> Result<(), String> {
    let waiting = 0..tables.view().gate().waiting as usize;
    let costs: Vec<u64> = waiting
        .map(|place| tables.view().waiting(place).cost)
        .collect();
    let between = 2..MOST_COST;
    for (name, found) in [
        ("1", costs.contains(&1)),
        ("64", costs.contains(&MOST_COST)),
        ("between", costs.iter().any(|cost| between.contains(cost))),
    ] {
        if !found {
            return Err(format!("none of {} has cost {name}", costs.len()));
        }
    }
    Ok(())
}

/// The tables at the end of a large run, each time with one damage.
fn damaged_large(seeds: Seeds, large: &Owned, fences: &mut Fences, tally: &mut Tally) {
    let mut seen = Seen::default();
    for seed in seeds.of(LARGE_SEEDS) {
        let mut rng = Prng::new(seed);
        let mut tables = large.clone();
        damage::damage(&mut rng, &mut tables);
        let result = four_calls(seed, &mut rng, &tables, fences, &mut seen);
        tally.add(&format!("large tables, seed {seed}"), result);
    }
    let waiting = large.view().gate().waiting;
    println!(
        "damaged tables with {waiting} waiting: {} calls",
        seen.calls
    );
    seen.print();
}

/// Batches on small tables, some of them damaged.
fn batched(seeds: Seeds, fences: &mut Fences, tally: &mut Tally) {
    let mut seen = Seen::default();
    for seed in seeds.of(BATCH_SEEDS) {
        let mut rng = Prng::new(seed);
        let mut tables = damage::tables(&mut rng);
        let result = batches(seed, &mut rng, &mut tables, fences, &mut seen);
        tally.add(&format!("batches of seed {seed}"), result);
    }
    println!("batches: {} answers", seen.calls);
    seen.print();
    tally.add_seen("batches", seen.all_seen(&all_but(&NOT_BATCHED)));
}

/// All refusals but these.
fn all_but(these: &[Refusal]) -> Vec<Refusal> {
    let all = Refusal::ALL.iter().copied();
    all.filter(|one| !these.contains(one)).collect()
}

/// Batches on the tables at the end of a large run, sound and with one damage.
fn batched_large(seeds: Seeds, large: &Owned, fences: &mut Fences, tally: &mut Tally) {
    let mut seen = Seen::default();
    for seed in seeds.of(LARGE_BATCH_SEEDS) {
        let mut rng = Prng::new(seed);
        let mut tables = large.clone();
        if seed % 4 == 0 {
            damage::damage(&mut rng, &mut tables);
        }
        let result = batches(seed, &mut rng, &mut tables, fences, &mut seen);
        tally.add(&format!("batches on large tables, seed {seed}"), result);
    }
    println!("batches on large tables: {} answers", seen.calls);
    seen.print();
}

/// A few batches, each on what the last one left.
fn batches(
    seed: u64,
    rng: &mut Prng,
    tables: &mut Owned,
    fences: &mut Fences,
    seen: &mut Seen,
) -> Result<(), String> {
    fence::playing(seed);
    (0..BATCHES).try_for_each(|_| {
        let batch = second::sample::batch(rng, tables);
        batches::hold(&batch, tables, fences, seen)
    })
}

/// The rules of soundness, each with how often it was the first that was broken.
struct Rules([(Rule, u64); 13]);

impl Default for Rules {
    fn default() -> Rules {
        use Rule::*;
        Rules(
            [
                SettingsInRange,
                CountsFit,
                TimeAtMostCeiling,
                GuestsExist,
                IdsFit,
                NoIdTwice,
                CostsInRange,
                TagsAtMostCeiling,
                TagsSpaced,
                NextFollowsLast,
                IdleNextBounded,
                MeaninglessZero,
                UnusedZero,
            ]
            .map(|rule| (rule, 0)),
        )
    }
}

impl Rules {
    fn note(&mut self, broken: Option<Rule>) {
        for (rule, times) in &mut self.0 {
            *times += u64::from(broken == Some(*rule));
        }
    }

    fn print(&self) {
        let lines = self.0.map(|(rule, times)| format!("{rule:?} {times}"));
        println!("  first broken rule: {}", lines.join(", "));
    }

    /// Whether each rule was the first broken one somewhere.
    fn all_seen(&self) -> Result<(), String> {
        match self.0.iter().find(|(_, times)| *times == 0) {
            Some((rule, _)) => Err(format!("{rule:?} was never the first broken rule")),
            None => Ok(()),
        }
    }
}
