//! A batch, made of the library in one call and of the second program one event at a time, on the same tables, and what
//! differs afterwards.

use crate::calls::{broken_rule, tables_differ, Fences, Lent};
use crate::tally::Seen;
use second::sample::{Batch, Owned};
use sgq::raw::{self, ANSWER_NUMBERS, EVENT_NUMBERS};

/// Where the time stands in a row.
const EVENT_TIME: usize = 3;

/// Makes the batch of both, the tables being left as the second program leaves them. Notes its answers, or gives what
/// differs.
pub fn hold(
    batch: &Batch,
    tables: &mut Owned,
    fences: &mut Fences,
    seen: &mut Seen,
) -> Result<(), String> {
    let count = batch.events.len() / EVENT_NUMBERS;
    let named = |why: String| format!("a batch of {count}: {why}");
    let before = tables.clone();
    let mut ours = (before.clone(), batch.answers.clone());
    let found = of_library(batch, &mut ours, fences).map_err(|why| named(why.to_string()))?;
    let mut answers = batch.answers.clone();
    let expected = u64::from(second::batch(
        &mut tables.lend(),
        &batch.events,
        &mut answers,
    ));
    let mut differs = tables_differ(&before, &ours.0, tables);
    if found != expected {
        differs.push(format!("the library gives {found}, second {expected}"));
    }
    if let Some(at) = (0..answers.len()).find(|&at| ours.1[at] != answers[at]) {
        let (row, event) = (at / ANSWER_NUMBERS, batch.events.chunks(EVENT_NUMBERS));
        let event = event.into_iter().nth(row).unwrap_or(&[]);
        let (was, has, wants) = (batch.answers[at], ours.1[at], answers[at]);
        differs.push(format!(
            "answer number {at}, of event {row} {event:?}, was {was}, the library leaves {has}, second {wants}"
        ));
    }
    if !differs.is_empty() {
        let broken = broken_rule(&before).map(|rule| format!("; second finds broken: {rule:?}"));
        return Err(named(differs.join("; ") + &broken.unwrap_or_default()));
    }
    note(expected, batch, &answers, seen);
    Ok(())
}

/// The number that the library gives, or which memory beside what it was lent it changed.
fn of_library(
    batch: &Batch,
    (tables, answers): &mut (Owned, Vec<u64>),
    fences: &mut Fences,
) -> Result<u64, &'static str> {
    let l = Lent::put(tables, fences);
    let (events, e) = (fences.events.put(&batch.events), batch.events.len());
    let (room, a) = (fences.answers.put(answers), answers.len());
    // SAFETY: all numbers of the gate, and all else as long as it is, each in memory of its own.
    let found = unsafe {
        raw::sgq_batch(
            l.gate, l.guests, l.g, l.waiting, l.w, l.flight, l.f, events, e, room, a,
        )
    };
    let mut events = batch.events.clone();
    let marks = [
        fences.gate.take(&mut tables.gate),
        fences.guests.take(&mut tables.guests),
        fences.waiting.take(&mut tables.waiting),
        fences.flight.take(&mut tables.flight),
        fences.events.take(&mut events),
        fences.answers.take(answers),
    ];
    if marks.contains(&false) {
        return Err("the library wrote before the beginning of what it was lent");
    }
    if events != batch.events {
        return Err("the library changed the events");
    }
    Ok(found)
}

/// Notes the answer to each event, or the refusal of the whole batch. An accepted event's time is then the gate's.
fn note(found: u64, batch: &Batch, answers: &[u64], seen: &mut Seen) {
    if found != 0 {
        let whole = raw::Answer {
            kind: raw::REFUSED,
            refusal: found,
            ..raw::Answer::default()
        };
        seen.note(whole, 0);
        return;
    }
    let events = batch.events.chunks_exact(EVENT_NUMBERS);
    for (event, row) in events.zip(answers.chunks_exact(ANSWER_NUMBERS)) {
        let &[kind, guest, id, refusal, wake] = row else {
            unreachable!("a whole row")
        };
        let answer = raw::Answer {
            kind,
            guest,
            id,
            refusal,
            wake,
        };
        seen.note(answer, event[EVENT_TIME]);
    }
}
