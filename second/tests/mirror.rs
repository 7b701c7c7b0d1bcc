//! Random runs compared with the rules in another shape.

mod common;
use common::mirror::Mirror;
use common::*;
use second::calls::read;
use second::sample::{any_cost, any_spread, sound_tables, Prng};
use second::State;

fn any_call(rng: &mut Prng, state: &State) -> Call {
    let last = state.time;
    let time = match rng.below(12) {
        0..=5 => last,
        6 if !state.waiting.is_empty() => {
            let w = rng.pick(&state.waiting);
            rng.pick(&[w.rtag, w.ltag, w.stag]).max(last)
        }
        7 => last.saturating_sub(1),
        8 => rng.sized(64),
        _ => last + rng.sized(33),
    };
    let guest = rng.below(state.guests.len() as u64 + 1);
    match rng.below(10) {
        0..=4 => {
            let (id, cost) = (rng.sized(9) as u32, any_cost(rng));
            Call::Arrive(guest, id, time, cost, any_spread(rng))
        }
        5..=7 if !state.flight.is_empty() => {
            let f = rng.pick(&state.flight);
            Call::Complete(f.guest, f.id as u32, time)
        }
        8 => Call::Complete(guest, rng.sized(3) as u32, time),
        _ => Call::Tick(time),
    }
}

#[test]
fn the_gate_and_its_mirror_agree() {
    let mut rng = Prng::new(41);
    for _ in 0..800 {
        let tables = sound_tables(&mut rng);
        let mut state = read(&tables.view());
        let mut mirror = Mirror::of(&state);
        for _ in 0..80 {
            let c = any_call(&mut rng, &state);
            let answer = play(&mut state, c);
            assert_eq!(answer, mirror.play(c), "{c:?}");
            assert!(mirror.shows(&state), "{c:?} {answer:?}");
        }
    }
}
