//! Many events in one call: document 02, K5.

mod common;
use common::*;
use second::batch::{batch, ANSWER_NUMBERS, EVENT_NUMBERS, MOST_EVENTS};
use second::sample::{self, sound_tables, spoil, Batch, Owned, Prng};
use second::tables::*;
use second::{first_broken, CEILING, NEVER};
use std::collections::BTreeSet;

const ARRIVAL: u64 = 0;
const COMPLETION: u64 = 1;
const TICK: u64 = 2;

type Event = [u64; EVENT_NUMBERS];
type Answers = Vec<[u64; ANSWER_NUMBERS]>;

fn refusal(number: u64) -> [u64; ANSWER_NUMBERS] {
    [3, 0, 0, number, 0]
}

/// The answers of a batch that is taken, with just the room they need.
fn answers_of(t: &mut Owned, events: &[Event]) -> Answers {
    let mut answers = vec![77; events.len() * ANSWER_NUMBERS];
    assert_eq!(batch(&mut t.lend(), &events.concat(), &mut answers), 0);
    let rows = answers.chunks(ANSWER_NUMBERS);
    rows.map(|row| row.try_into().unwrap()).collect()
}

/// The single call that a row of a batch stands for.
fn single(event: Event) -> Option<Call> {
    let [kind, guest, id, time, cost, delta, rho] = event;
    let id = u32::try_from(id).ok()?;
    let bare = cost == 0 && delta == 0 && rho == 0;
    match kind {
        ARRIVAL => Some(Call::Arrive(guest, id, time, cost, [delta, rho])),
        COMPLETION => bare.then_some(Call::Complete(guest, id, time)),
        TICK => (bare && guest == 0 && id == 0).then_some(Call::Tick(time)),
        _ => None,
    }
}

#[test]
fn the_example_in_one_call() {
    let mut t = opened(4, 8, &[guest(100, 250, 1)]);
    let mut events: Vec<Event> = (1..=4).map(|id| [ARRIVAL, 0, id, 0, 1, 1, 1]).collect();
    events.extend([4, 8, 10, 9].map(|ms| [TICK, 0, 0, ms * MS, 0, 0, 0]));
    events.extend([[COMPLETION, 0, 1, 10 * MS, 0, 0, 0]; 2]);
    let wanted = [
        [1, 0, 1, 0, NEVER],
        [0, 0, 0, 0, 4 * MS],
        [0, 0, 0, 0, 4 * MS],
        [0, 0, 0, 0, 4 * MS],
        [2, 0, 2, 0, 8 * MS],
        [2, 0, 3, 0, 10 * MS],
        [1, 0, 4, 0, NEVER],
        refusal(6),
        [0, 0, 0, 0, NEVER],
        refusal(10),
    ];
    assert_eq!(answers_of(&mut t, &events), wanted);
    assert_eq!(t.gate[TIME..=FLIGHT], [10 * MS, 0, 3]);
}

#[test]
fn no_events_change_nothing_and_judge_nothing() {
    let mut t = opened(1, 1, &[guest(0, 0, 1)]);
    t.gate[TIME] = u64::MAX;
    t.waiting.clear();
    let before = t.clone();
    for length in 0..EVENT_NUMBERS {
        let mut answers = [77; 3];
        assert_eq!(batch(&mut t.lend(), &[1; 13][..length], &mut answers), 0);
        assert_eq!(answers, [77; 3]);
    }
    assert_eq!(batch(&mut t.lend(), &[], &mut []), 0);
    assert_eq!(t, before);
}

#[test]
fn what_is_no_event_is_14_and_passed_over() {
    let mut t = opened(1, 4, &[guest(0, 0, 1)]);
    let large = 1 << 32;
    let past = u64::MAX;
    let events = [
        [3, 0, 1, 0, 1, 1, 1],
        [256, 0, 1, 0, 0, 0, 0],
        [large, 0, 1, 0, 65, 0, 0],
        [past, 9, 1, past, past, past, past],
        [TICK, 1, 0, past, 0, 0, 0],
        [TICK, 0, 1, past, 0, 0, 0],
        [TICK, large, 0, 0, 0, 0, 0],
        [TICK, 0, large, 0, 0, 0, 0],
        [TICK, 0, 0, 0, 1, 0, 0],
        [TICK, 0, 0, past, past, 0, 0],
        [TICK, 0, 0, 0, 0, 1, 0],
        [TICK, 0, 0, 0, 0, 0, 1],
        [TICK, 0, 0, past, 0, large, past],
        [ARRIVAL, 0, large, 5, 1, 1, 1],
        [ARRIVAL, 9, large + 1, past, 65, 0, 1],
        [COMPLETION, 0, large, 0, 0, 0, 0],
        [COMPLETION, 9, past, past, 0, 0, 0],
        [COMPLETION, 0, 1, 0, 1, 0, 0],
        [COMPLETION, 9, 1, past, large, 0, 0],
        [COMPLETION, 0, 1, 0, 0, 1, 0],
        [COMPLETION, 0, 1, 0, 0, 0, large],
        [COMPLETION, 9, 1, past, 0, 1, 1],
    ];
    let before = t.clone();
    assert_eq!(answers_of(&mut t, &events), [refusal(14); 22]);
    assert_eq!(t, before);
    // The others are judged as ever, and the good ones go on.
    let events = [
        [ARRIVAL, 0, large - 1, 5, 64, 65_535, 0],
        [3, 0, 0, 9, 0, 0, 0],
        [ARRIVAL, large, 1, 5, 1, 1, 1],
        [TICK, 0, 0, CEILING + 1, 0, 0, 0],
        [TICK, 0, 0, 4, 0, 0, 0],
        // A bad cost is no bad event, and judged in its turn.
        [ARRIVAL, 0, 2, 4, 0, 0, 0],
        [ARRIVAL, 0, large - 1, 5, 0, 1, 1],
        [ARRIVAL, 0, 2, 5, 65, 0, 0],
        [ARRIVAL, 0, 2, 5, past, 1, 2],
        // Nor is a bad delta or rho.
        [ARRIVAL, 0, 2, 4, 1, 0, 0],
        [ARRIVAL, 0, large - 1, 5, 1, 0, 0],
        [ARRIVAL, 0, 2, 5, 1, 65_536, 1],
        [ARRIVAL, 0, 2, 5, 64, 7, 8],
        [ARRIVAL, 0, large - 1, 5, 1, 1, 1],
        [COMPLETION, 0, large - 1, 6, 0, 0, 0],
    ];
    let wanted = [
        [2, 0, large - 1, 0, NEVER],
        refusal(14),
        refusal(4),
        refusal(5),
        refusal(6),
        refusal(6),
        refusal(18),
        refusal(18),
        refusal(18),
        refusal(6),
        refusal(20),
        refusal(20),
        refusal(20),
        refusal(7),
        [0, 0, 0, 0, NEVER],
    ];
    assert_eq!(answers_of(&mut t, &events), wanted);
    assert_eq!(t.gate[TIME], 6);
}

#[test]
fn number_14_comes_before_2_and_3() {
    let bad = [7, 0, 0, 0, 0, 0, 0];
    let tick = [TICK, 0, 0, 0, 0, 0, 0];
    let events = [bad, tick, bad, [ARRIVAL, 9, 1 << 32, 0, 0, 0, 0]];
    let answers = |number| [refusal(14), refusal(number), refusal(14), refusal(14)];
    let mut t = opened(1, 1, &[guest(0, 0, 1)]);
    t.gate[TIME] = CEILING + 1;
    assert_eq!(answers_of(&mut t, &events), answers(3));
    t.flight.clear();
    assert_eq!(answers_of(&mut t, &events), answers(2));
    t.gate.clear();
    assert_eq!(answers_of(&mut t, &events), answers(2));
}

/// Arrivals of as many ids, at a gate that takes 64 and refuses the rest.
fn arrivals(count: usize) -> Vec<u64> {
    let rows = (0..count as u64).map(|id| [ARRIVAL, 0, id, 0, 1, 1, 1]);
    rows.flatten().collect()
}

#[test]
fn short_room_for_answers_then_too_many_events() {
    let mut t = opened(64, 1, &[guest(0, 0, 1)]);
    let before = t.clone();
    let refuses = |count: usize, room: usize, t: &mut Owned| {
        let mut answers = vec![77; room];
        let number = batch(&mut t.lend(), &arrivals(count), &mut answers);
        assert_eq!(answers, vec![77; room]);
        number
    };
    assert_eq!(refuses(1, 0, &mut t), 16);
    assert_eq!(refuses(1, 4, &mut t), 16);
    assert_eq!(refuses(256, 256 * ANSWER_NUMBERS - 1, &mut t), 16);
    // Room for as many as there may be is not room for as many as there are.
    assert_eq!(refuses(257, 256 * ANSWER_NUMBERS, &mut t), 16);
    assert_eq!(refuses(257, 257 * ANSWER_NUMBERS - 1, &mut t), 16);
    assert_eq!(refuses(257, 257 * ANSWER_NUMBERS, &mut t), 17);
    assert_eq!(refuses(300, 2_000, &mut t), 17);
    assert_eq!(refuses(10_000, 10, &mut t), 16);
    assert_eq!(t, before);
    // Before 2 and 3 too.
    let mut broken = t.clone();
    broken.gate.clear();
    assert_eq!(refuses(1, 4, &mut broken), 16);
    assert_eq!(refuses(257, 257 * ANSWER_NUMBERS, &mut broken), 17);
    let mut answers = vec![77; 256 * ANSWER_NUMBERS];
    assert_eq!(batch(&mut t.lend(), &arrivals(256), &mut answers), 0);
    let sent = |row: &&[u64]| row[0] == 2;
    assert_eq!(answers.chunks(ANSWER_NUMBERS).filter(sent).count(), 64);
    assert_eq!(t.gate[TIME..=FLIGHT], [0, 1, 64]);
}

#[test]
fn numbers_behind_the_last_row_are_no_event() {
    let mut t = opened(4, 4, &[guest(0, 0, 1)]);
    let mut events = arrivals(256);
    events.extend([0; EVENT_NUMBERS - 1]);
    let mut answers = vec![77; 256 * ANSWER_NUMBERS];
    assert_eq!(batch(&mut t.lend(), &events, &mut answers), 0);
    let mut answers = [77; 2 * ANSWER_NUMBERS];
    let events = [TICK, 0, 0, 7, 0, 0, 0, 9, 9, 9, 9, 9, 9];
    assert_eq!(batch(&mut t.lend(), &events, &mut answers), 0);
    assert_eq!(answers, [0, 0, 0, 0, NEVER, 77, 77, 77, 77, 77]);
}

/// Tables to start from: sound ones, spoiled ones.
fn start(rng: &mut Prng) -> Owned {
    let mut t = sound_tables(rng);
    if rng.chance(10) {
        spoil(rng, &mut t);
    }
    t
}

#[test]
fn a_batch_goes_as_its_events_one_by_one() {
    let mut rng = Prng::new(61);
    let mut seen = BTreeSet::new();
    for _ in 0..1_000 {
        let mut t = start(&mut rng);
        let Batch { events, answers } = sample::batch(&mut rng, &t);
        let mut one_by_one = t.clone();
        let mut got = answers.clone();
        let number = batch(&mut t.lend(), &events, &mut got);
        let count = events.len() / EVENT_NUMBERS;
        let wanted = match count {
            _ if answers.len() < 5 * count => 16,
            0..=256 => 0,
            _ => 17,
        };
        assert_eq!(number, wanted);
        seen.insert(format!("whole {number}"));
        if number != 0 {
            assert_eq!((&t, &got), (&one_by_one, &answers));
            continue;
        }
        let (used, spare) = got.split_at(count * ANSWER_NUMBERS);
        assert_eq!(*spare, answers[used.len()..]);
        let rows = events.chunks_exact(EVENT_NUMBERS);
        for (event, answer) in rows.zip(used.chunks(ANSWER_NUMBERS)) {
            let wanted = match single(event.try_into().unwrap()) {
                Some(c) => reply(&mut one_by_one.lend(), c).numbers(),
                None => refusal(14),
            };
            assert_eq!(answer, wanted);
            seen.insert(match wanted[0] {
                3 => format!("X {}", wanted[3]),
                kind => kind.to_string(),
            });
        }
        assert_eq!(t, one_by_one);
    }
    let wholes = ["whole 0", "whole 16", "whole 17"];
    let refusals = [2, 3, 4, 5, 6, 7, 8, 9, 10, 14, 18, 20].map(|number| format!("X {number}"));
    for wanted in wholes.into_iter().chain(["0", "1", "2"]) {
        assert!(seen.contains(wanted), "{wanted}");
    }
    assert!(refusals.iter().all(|wanted| seen.contains(wanted)));
}

#[test]
fn two_batches_go_as_one() {
    let mut rng = Prng::new(62);
    for _ in 0..200 {
        let mut t = sound_tables(&mut rng);
        let Batch { events, .. } = sample::batch(&mut rng, &t);
        let count = (events.len() / EVENT_NUMBERS).min(MOST_EVENTS);
        let events = &events[..count * EVENT_NUMBERS];
        let mut halved = t.clone();
        let cut = rng.below(count as u64 + 1) as usize;
        let (first, last) = events.split_at(cut * EVENT_NUMBERS);
        let mut whole = vec![77; count * ANSWER_NUMBERS];
        let mut halves = whole.clone();
        let (room, rest) = halves.split_at_mut(cut * ANSWER_NUMBERS);
        assert_eq!(batch(&mut t.lend(), events, &mut whole), 0);
        assert_eq!(batch(&mut halved.lend(), first, room), 0);
        assert_eq!(batch(&mut halved.lend(), last, rest), 0);
        assert_eq!((whole, t), (halves, halved));
    }
}

/// The random batches do what they are for: most events of a batch without
/// damage are accepted, and soundness stays.
#[test]
fn random_batches_go_a_long_way() {
    let mut rng = Prng::new(63);
    let (mut accepted, mut sent, mut damaged, mut all) = (0, 0, 0, 0);
    let mut lengths = BTreeSet::new();
    for _ in 0..300 {
        let mut t = sound_tables(&mut rng);
        let Batch { events, .. } = sample::batch(&mut rng, &t);
        let count = events.len() / EVENT_NUMBERS;
        lengths.insert(count);
        if count > MOST_EVENTS {
            continue;
        }
        let mut answers = vec![0; count * ANSWER_NUMBERS];
        batch(&mut t.lend(), &events, &mut answers);
        assert_eq!(first_broken(&t.view()), None);
        for answer in answers.chunks(ANSWER_NUMBERS) {
            all += 1;
            accepted += (answer[0] < 3) as u32;
            sent += [1, 2].contains(&answer[0]) as u32;
            damaged += (answer[3] == 14) as u32;
            assert!(answer[4] <= CEILING || answer[4] == NEVER);
        }
    }
    assert!(lengths.contains(&0) && lengths.contains(&256));
    assert!(lengths.contains(&257) && lengths.last() < Some(&301));
    let long = accepted * 2 > all && sent * 20 > all && damaged * 50 > all;
    assert!(long, "{all} {accepted} {sent} {damaged}");
}
