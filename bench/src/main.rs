//! Times the library's calls and the second program's on the same events of a bench trace. Each call of either tests
//! the soundness of its tables first.
//!
//!     bench-calls WHICH TRACE SKIP COUNT ROUNDS [BATCH [CAPACITY]]
//!
//! WHICH is library, second, both, idle or arrays. The first SKIP events fill the tables; the COUNT after them are played from there,
//! ROUNDS times, in turn where it is both. The library takes BATCH events in one call; with 0, and where it is not named,
//! each is a call of its own, as it always is of the second program. CAPACITY stands in for the trace's. idle is the
//! library on tables with nothing waiting and nothing in flight: the COUNT events are ticks, and none is skipped; arrays is
//! the same at the first array of a house that has the most. Prints for each round the name and the nanoseconds that the COUNT
//! events took.
//!
//!     bench-calls moves TRACE ROUNDS
//!
//! The moves of the whole trace to version 2 and back, and a plain copy. Prints for each round the move, whose it is, and
//! its nanoseconds.
//!
//!     bench-calls salvage TRACE ROUNDS
//!
//! The salvage of the whole trace, and of the same with events hurt, likewise.
//!
//!     bench-calls lines TRACE
//!     bench-calls judge WHOSE TRACE LINES
//!
//! Prints the lines of a gate that breaks ties otherwise; and judges lines once, by the library or second, which is timed from
//! outside, as the programs are.

mod judge;
mod moves;
mod players;
mod salvage;
mod trace;

use players::{after, Arrays, Batches, Library, Player, Second};
use std::process::ExitCode;
use std::time::Instant;
use trace::Trace;

fn main() -> ExitCode {
    let words: Vec<String> = std::env::args().skip(1).collect();
    match run(&words) {
        Some(()) => ExitCode::SUCCESS,
        None => {
            eprintln!("bench-calls library|second|both|idle|arrays TRACE SKIP COUNT ROUNDS [BATCH [CAPACITY]], moves|salvage TRACE ROUNDS, lines TRACE, or judge library|second TRACE LINES; TRACE one of 'traces fixed'");
            ExitCode::FAILURE
        }
    }
}

fn run(words: &[String]) -> Option<()> {
    let words: Vec<&str> = words.iter().map(String::as_str).collect();
    match words[..] {
        ["moves", file, rounds] => moves::run(file, rounds.parse().ok()?),
        ["salvage", file, rounds] => salvage::run(file, rounds.parse().ok()?),
        ["lines", file] => judge::print_lines(file),
        ["judge", whose, file, lines] => judge::run(whose, file, lines),
        _ => calls(&words),
    }
}

/// The calls on a gate.
fn calls(words: &[&str]) -> Option<()> {
    let [which, file, skip, count, rounds, more @ ..] = words else {
        return None;
    };
    let batch: usize = more.first().map_or(Some(0), |word| word.parse().ok())?;
    let (skip, count): (usize, usize) = (skip.parse().ok()?, count.parse().ok()?);
    let rounds: usize = rounds.parse().ok()?;
    let mut trace = Trace::read(file, skip + count)?;
    if let Some(capacity) = more.get(1) {
        trace.capacity = capacity.parse().ok()?;
    }
    let idle = matches!(*which, "idle" | "arrays");
    if idle {
        trace.events.drain(..skip);
        trace.events.iter_mut().for_each(to_tick);
    }
    let skip = if idle { 0 } else { skip };
    let (first, timed) = trace.events.split_at(skip);
    let start = after(&trace, first);
    if *which == "arrays" {
        let arrays = Arrays::new(start);
        for _ in 0..rounds {
            let _nothing_to_compare = time("library", &arrays, timed);
        }
        return Some(());
    }
    let library = (*which != "second").then(|| Batches::new(Library(start.clone()), batch));
    let second = matches!(*which, "second" | "both").then_some(Second(start));
    for _ in 0..rounds {
        let ours = library
            .as_ref()
            .map(|player| time("library", player, timed));
        let theirs = second.as_ref().map(|player| time("second", player, timed));
        let differ = ours
            .zip(theirs)
            .is_some_and(|(ours, theirs)| ours != theirs);
        assert!(!differ, "the two do not answer alike");
    }
    Some(())
}

/// A tick at the event's time.
fn to_tick(event: &mut second::trace::Event) {
    *event = second::trace::Event {
        kind: 2,
        guest: 0,
        id: 0,
        ..*event
    };
}

/// Plays the events from the same start and prints how long it took. Gives the answers folded into one number.
fn time<P: Player + Clone>(name: &str, start: &P, events: &[second::trace::Event]) -> u64 {
    let mut player = start.clone();
    let begun = Instant::now();
    let folded = player.play_all(events);
    println!("{name} {}", begun.elapsed().as_nanos());
    folded
}
