//! Readings of a short clock, made of the library and of the second program, and what differs afterwards; then boards
//! that are read at true instants.

use crate::fence::{self, Fenced};
use crate::seeds::Seeds;
use crate::tally::Tally;
use second::numbers::CEILING;
use second::sample::Prng;
use second::{clock_read, Clock as Record};
use sgq::raw;

/// Seeds of records, and of boards read at true instants, and how many readings each has.
const SEEDS: usize = 10_000;
const BOARDS: usize = 2_000;
const READINGS: usize = 12;

/// The counter starts again after so many microseconds.
const WRAP: u64 = 1 << 32;

/// How often what was seen.
#[derive(Default)]
struct Met {
    first: u64,
    wraps: u64,
    refused: u64,
    readings: u64,
}

impl Met {
    fn all_seen(&self) -> Result<(), String> {
        let met = [self.first, self.wraps, self.refused];
        let seen = met.iter().all(|&times| times > 0);
        seen.then_some(()).ok_or(format!(
            "first readings, wraps, refusals: {met:?}, and one was never seen"
        ))
    }
}

pub fn test(seeds: Seeds, tally: &mut Tally) {
    let mut lent = Fenced::new();
    let mut met = Met::default();
    for seed in seeds.of(SEEDS) {
        fence::playing(seed);
        let result = any_record(&mut Prng::new(seed), &mut lent, &mut met);
        tally.add(&format!("clock of seed {seed}"), result);
    }
    for seed in seeds.of(BOARDS) {
        fence::playing(seed);
        let result = true_instants(&mut Prng::new(seed), &mut lent, &mut met);
        tally.add(&format!("board of seed {seed}"), result);
    }
    println!(
        "clocks: {} readings, {} of them first, {} across the wrap, {} refused",
        met.readings, met.first, met.wraps, met.refused
    );
    tally.add_seen("clocks", met.all_seen());
}

/// A number of 32 bits, often near the wrap.
fn counter(rng: &mut Prng) -> u32 {
    let near = rng.below(4) as u32;
    match rng.below(4) {
        0 => near,
        1 => u32::MAX - near,
        _ => rng.any() as u32,
    }
}

/// Any record, many of them near the ceiling or past it.
fn record(rng: &mut Prng) -> Record {
    let time = match rng.below(6) {
        0 => rng.below(3_000),
        1 => CEILING - rng.below(3_000),
        2 => CEILING - rng.below(WRAP * 1_000),
        3 => CEILING + 1 + rng.below(3),
        4 => u64::MAX - rng.below(3),
        _ => rng.any(),
    };
    let started = match rng.below(8) {
        0 | 1 => 0,
        2 => counter(rng),
        _ => 1,
    };
    let last = counter(rng);
    Record {
        time,
        last,
        started,
    }
}

fn any_record(rng: &mut Prng, lent: &mut Fenced, met: &mut Met) -> Result<(), String> {
    let mut record = record(rng);
    (0..READINGS).try_for_each(|_| {
        let reading = match rng.below(3) {
            0 => record.last.wrapping_add(rng.below(3) as u32),
            _ => counter(rng),
        };
        hold(&mut record, reading, lent, met).map(|_| ())
    })
}

/// Instants of which each is less than a wrap behind the one before: the time is a thousand times the microseconds since
/// the first, as long as that is at most the ceiling.
fn true_instants(rng: &mut Prng, lent: &mut Fenced, met: &mut Met) -> Result<(), String> {
    let mut record = Record {
        started: 0,
        ..record(rng)
    };
    let begin = rng.below(4 * WRAP);
    let mut instant = begin;
    for _ in 0..READINGS {
        let told = hold(&mut record, (instant % WRAP) as u32, lent, met)?;
        let expected = (instant - begin) * 1_000;
        if told != Ok(expected) {
            return Err(format!("{told:?} at {instant}, not {expected}"));
        }
        instant += match rng.below(4) {
            0 => WRAP - 1,
            1 => 0,
            _ => rng.below(WRAP),
        };
    }
    Ok(())
}

/// Makes the reading of both, the record being left as it is computed. Gives what is told, or what differs.
fn hold(
    record: &mut Record,
    reading: u32,
    lent: &mut Fenced,
    met: &mut Met,
) -> Result<Result<u64, u8>, String> {
    let before = *record;
    let told = match clock_read(record, reading) {
        (0, time) => Ok(time),
        (refusal, _) => Err(refusal),
    };
    let (given, left) = of_library(before, reading, lent)?;
    let wanted = raw::Told {
        refusal: told.err().map_or(0, u64::from),
        time: told.unwrap_or(0),
    };
    if given != wanted || left != *record {
        return Err(format!(
            "{before:?} read at {reading}: the library tells {given:?} and leaves {left:?}, not {wanted:?} and {record:?}"
        ));
    }
    met.readings += 1;
    met.first += u64::from(before.started == 0);
    met.wraps += u64::from(before.started != 0 && told.is_ok() && reading < before.last);
    met.refused += u64::from(told.is_err());
    Ok(told)
}

/// What the library tells, and the record that it leaves.
fn of_library(
    record: Record,
    reading: u32,
    lent: &mut Fenced,
) -> Result<(raw::Told, Record), String> {
    let mut words = [
        record.time,
        u64::from(record.last) | u64::from(record.started) << 32,
    ];
    let at = lent.put(&words);
    // SAFETY: a record of its own, of two words.
    let told = unsafe { raw::sgq_clock_read(at.cast(), reading) };
    if !lent.take(&mut words) {
        return Err("the library wrote before the beginning of the record".to_string());
    }
    let left = Record {
        time: words[0],
        last: words[1] as u32,
        started: (words[1] >> 32) as u32,
    };
    Ok((told, left))
}
