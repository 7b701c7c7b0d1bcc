//! The salvage of a whole trace from which nothing is dropped, and of the same with ten in a hundred of its events hurt: the
//! library's, the second program's, and a plain copy of as many bytes.

use second::salvage::ROW_NUMBERS;
use second::sample::{tear_events, Prng};
use second::trace::Header;
use sgq::{most_dropped, raw};
use std::hint::black_box;
use std::time::Instant;

/// How many in a hundred events are hurt.
const HURT: u64 = 10;

/// What a salvage leaves: bytes and rows.
type Left = (usize, usize);

/// Times each in turn, so often. Prints the name, whose, and the nanoseconds; none where the file is no such trace.
pub fn run(file: &str, rounds: usize) -> Option<()> {
    let whole = std::fs::read(file).ok()?;
    let header = Header::read(&whole).ok()?;
    let mut torn = whole.clone();
    tear_events(&mut Prng::new(1), HURT, &mut torn[header.length()..]);
    for _ in 0..rounds {
        for (name, trace) in [("whole", &whole), ("torn", &torn)] {
            let mut library = Room::of(trace);
            let left = library.time(&format!("{name} library"), trace, of_library);
            let mut second = Room::of(trace);
            let expected = second.time(&format!("{name} second"), trace, of_second);
            assert!(
                left == expected && library == second,
                "the two differ on the {name} trace"
            );
            assert_eq!(left.1 == 0, name == "whole", "rows of the {name} trace");
        }
        let _copied = Room::of(&whole).time("copy plain", &whole, |from, room, _| {
            room[..from.len()].copy_from_slice(from);
            (from.len(), 0)
        });
    }
    Some(())
}

/// Room for a result and its list, written once before it is lent, so that all of it is there.
#[derive(PartialEq)]
struct Room {
    trace: Vec<u8>,
    list: Vec<u64>,
}

impl Room {
    fn of(trace: &[u8]) -> Room {
        Room {
            trace: vec![1; trace.len()],
            list: vec![1; most_dropped(trace.len()) * ROW_NUMBERS],
        }
    }

    fn time(
        &mut self,
        name: &str,
        from: &[u8],
        work: impl Fn(&[u8], &mut [u8], &mut [u64]) -> Left,
    ) -> Left {
        let (room, list) = (&mut self.trace, &mut self.list);
        let begun = Instant::now();
        let left = work(black_box(from), black_box(room), black_box(list));
        println!("{name} {}", begun.elapsed().as_nanos());
        left
    }
}

fn of_library(from: &[u8], room: &mut [u8], list: &mut [u64]) -> Left {
    // SAFETY: three slices, which do not overlap, with their lengths.
    let found = unsafe {
        raw::sgq_salvage(
            from.as_ptr(),
            from.len(),
            room.as_mut_ptr(),
            room.len(),
            list.as_mut_ptr(),
            list.len(),
        )
    };
    assert_eq!(found.refusal, 0, "the library refuses the trace");
    (found.written as usize, found.rows as usize)
}

fn of_second(from: &[u8], room: &mut [u8], list: &mut [u64]) -> Left {
    let found = second::salvage(from, room, list);
    assert_eq!(found.refusal, 0, "second refuses the trace");
    (found.bytes as usize, found.rows as usize)
}
