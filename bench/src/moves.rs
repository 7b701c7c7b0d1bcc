//! The moves of a whole trace of version 1 to version 2, and of what that is back again: the library's, the second
//! program's, and a plain copy of as many bytes.

use sgq::MOST_GROWTH;
use std::hint::black_box;
use std::time::Instant;

/// Times each in turn, so often. Prints the name, who, and the nanoseconds; none where the file is no such trace.
pub fn run(file: &str, rounds: usize) -> Option<()> {
    let one = std::fs::read(file).ok()?;
    let mut room = vec![1; one.len() + MOST_GROWTH];
    let written = sgq::trace_up(&one, &mut room).ok()?;
    let two = room[..written].to_vec();
    for _ in 0..rounds {
        time("up library", &one, &two, &mut room, |from, room| {
            sgq::trace_up(from, room).ok()
        });
        time("up second", &one, &two, &mut room, |from, room| {
            of_second(second::up(from, room))
        });
        time("back library", &two, &one, &mut room, |from, room| {
            sgq::trace_back(from, room).ok()
        });
        time("back second", &two, &one, &mut room, |from, room| {
            of_second(second::back(from, room))
        });
        time("copy plain", &one, &one, &mut room, |from, room| {
            room[..from.len()].copy_from_slice(from);
            Some(from.len())
        });
    }
    Some(())
}

fn of_second((refusal, written, _): second::moves::Moved) -> Option<usize> {
    (refusal == 0).then_some(written)
}

/// One move, whose result must be this one.
fn time(
    name: &str,
    from: &[u8],
    result: &[u8],
    room: &mut [u8],
    work: impl Fn(&[u8], &mut [u8]) -> Option<usize>,
) {
    room.fill(1);
    let begun = Instant::now();
    let written = work(black_box(from), black_box(room));
    println!("{name} {}", begun.elapsed().as_nanos());
    let moved = written.map(|written| &room[..written]);
    assert_eq!(moved, Some(result), "{name} gives something else");
}
