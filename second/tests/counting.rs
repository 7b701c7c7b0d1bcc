//! Houses with several arrays, the host side: document 02, K14.

mod common;
use common::mirror::Mirror;
use common::*;
use second::arrays::{self, house_refusal, House};
use second::calls::{read, table_refusal};
use second::sample::{
    any_cost, any_counters, any_settings, sound_house, spoil_house, Owned, OwnedHouse, Prng,
};
use second::tables::*;
use second::Answer::{Nothing, Refused};
use second::{first_broken, Answer, Phase, Reply, Settings, State, CEILING, NEVER};
use std::collections::BTreeSet;

/// What is asked of an array.
#[derive(Clone, Copy, Debug)]
enum Ask {
    Arrive(u64, u32, u64, u64),
    Complete(u64, u32, u64),
    Tick(u64),
}

impl Ask {
    fn guest(self) -> Option<u64> {
        match self {
            Ask::Arrive(guest, ..) | Ask::Complete(guest, ..) => Some(guest),
            Ask::Tick(_) => None,
        }
    }

    /// What the gate is asked, where so much was counted.
    fn at_gate(self, spread: [u64; 2]) -> Call {
        match self {
            Ask::Arrive(guest, id, time, cost) => Call::Arrive(guest, id, time, cost, spread),
            Ask::Complete(guest, id, time) => Call::Complete(guest, id, time),
            Ask::Tick(time) => Call::Tick(time),
        }
    }
}

fn ask(house: &mut House, ask: Ask) -> Reply {
    match ask {
        Ask::Arrive(guest, id, time, cost) => arrays::arrive(house, guest, id, time, cost),
        Ask::Complete(guest, id, time) => arrays::complete(house, guest, id, time),
        Ask::Tick(time) => arrays::tick(house, time),
    }
}

fn listed(settings: &[Settings]) -> Vec<u64> {
    let rows = settings.iter();
    rows.flat_map(|s| [s.reservation, s.limit, s.shares, s.credit])
        .collect()
}

/// A whole house: the counters, and tables and phases of each array.
#[derive(Clone, Debug, PartialEq, Eq)]
struct Whole {
    counters: Vec<u64>,
    tables: Vec<Owned>,
    phases: Vec<Vec<u64>>,
}

impl Whole {
    /// Every array opened with the same settings.
    fn opened(arrays: u64, rule: u64, depth: u64, capacity: u64, settings: &[Settings]) -> Whole {
        let guests = settings.len();
        let dust = dusty(depth as usize, guests, capacity as usize, 0);
        let mut whole = Whole {
            counters: vec![77; arrays as usize * guests * 2],
            tables: vec![dust; arrays as usize],
            phases: vec![vec![77; depth as usize]; arrays as usize],
        };
        let list = listed(settings);
        for array in 0..arrays {
            let mut house = whole.lend(array);
            let count = guests as u64;
            let reply = arrays::open(depth, count, capacity, rule, &list, &mut house);
            assert_eq!(reply.numbers(), [0, 0, 0, 0, NEVER]);
        }
        whole
    }

    /// Where the array is not there, some other's tables are lent.
    fn lend(&mut self, array: u64) -> House<'_> {
        let arrays = self.tables.len();
        let lent = (array as usize).min(arrays - 1);
        House {
            arrays: arrays as u64,
            array,
            counters: &mut self.counters,
            tables: self.tables[lent].lend(),
            phases: &mut self.phases[lent],
        }
    }

    fn ask(&mut self, array: u64, asked: Ask) -> Answer {
        ask(&mut self.lend(array), asked).answer
    }

    fn state(&self, array: usize) -> State {
        read(&self.tables[array].view())
    }

    fn guests(&self) -> usize {
        self.counters.len() / 2 / self.tables.len()
    }

    fn counted(&self, array: usize, guest: usize) -> [u64; 2] {
        let at = 2 * (array * self.guests() + guest);
        [self.counters[at], self.counters[at + 1]]
    }
}

fn shorten(numbers: &mut Vec<u64>) {
    numbers.pop();
}

/// A guest with a reservation spacing of 10 ms, one with shares alone.
fn two_guests() -> [Settings; 2] {
    [guest(100, 0, 1), guest(0, 0, 1)]
}

#[test]
fn a_day_at_two_arrays() {
    let mut house = Whole::opened(2, 1, 1, 8, &two_guests());
    assert_eq!(house.counters, [0; 8]);
    for array in 0..2 {
        let answer = house.ask(array, Ask::Arrive(0, 1, 0, 1));
        assert_eq!(answer, reservation(0, 1));
    }
    assert_eq!(house.phases, [[1], [1]]);
    // Each completion counts at both.
    assert_eq!(house.ask(0, Ask::Complete(0, 1, MS)), Nothing);
    assert_eq!(house.counters, [1, 1, 0, 0, 1, 1, 0, 0]);
    assert_eq!(house.ask(1, Ask::Complete(0, 1, MS)), Nothing);
    assert_eq!(house.counters, [2, 2, 0, 0, 2, 2, 0, 0]);
    assert_eq!(house.phases, [[0], [0]]);
    // A delta and rho of 2 go out: the next number was 10 ms, the tag is one
    // spacing more. So it goes by weight.
    assert_eq!(house.ask(0, Ask::Arrive(0, 2, MS, 1)), weight(0, 2));
    assert_eq!(house.state(0).guests[0].rnext, 20 * MS);
    assert_eq!(house.counters, [0, 0, 0, 0, 2, 2, 0, 0]);
    assert_eq!(house.phases, [[2], [0]]);
    // What went by weight is in delta alone.
    assert_eq!(house.ask(0, Ask::Complete(0, 2, 2 * MS)), Nothing);
    assert_eq!(house.counters, [1, 0, 0, 0, 3, 2, 0, 0]);
    // The other guest has its own.
    assert_eq!(house.ask(1, Ask::Arrive(1, 2, 2 * MS, 1)), weight(1, 2));
    assert_eq!(house.ask(1, Ask::Arrive(0, 2, 2 * MS, 1)), Nothing);
    assert_eq!(house.counters, [1, 0, 0, 0, 0, 0, 0, 0]);
    assert_eq!(house.state(1).waiting[0].rtag, 20 * MS);
    // A completion whose choice sends.
    let answer = house.ask(1, Ask::Complete(1, 2, 3 * MS));
    assert_eq!(answer, weight(0, 2));
    assert_eq!(house.counters, [1, 0, 1, 0, 0, 0, 1, 0]);
    assert_eq!(house.phases, [[0], [2]]);
}

#[test]
fn a_delta_of_0_goes_out_as_1_and_rho_as_0() {
    // Spacings of 10 ms, and a limit that holds the second back.
    let mut house = Whole::opened(1, 2, 4, 8, &[guest(100, 100, 1)]);
    assert_eq!(house.ask(0, Ask::Arrive(0, 1, 0, 3)), reservation(0, 1));
    assert_eq!(house.ask(0, Ask::Arrive(0, 2, 0, 1)), Nothing);
    let w = house.state(0).waiting[0];
    assert_eq!([w.rtag, w.ltag], [20 * MS, 30 * MS]);
    assert_eq!(house.counters, [0, 0]);
}

#[test]
fn phases_follow_the_requests_in_flight() {
    let mut house = Whole::opened(1, 1, 3, 8, &two_guests());
    house.phases[0].push(9);
    assert_eq!(house.ask(0, Ask::Arrive(1, 1, 0, 1)), weight(1, 1));
    assert_eq!(house.ask(0, Ask::Arrive(0, 1, 0, 1)), reservation(0, 1));
    assert_eq!(house.phases, [[2, 1, 0, 9]]);
    assert_eq!(house.ask(0, Ask::Arrive(1, 2, 0, 1)), weight(1, 2));
    assert_eq!(house.ask(0, Ask::Arrive(1, 3, 0, 1)), Nothing);
    assert_eq!(house.phases, [[2, 1, 2, 9]]);
    // Those behind move down, and what is sent is last.
    assert_eq!(house.ask(0, Ask::Complete(1, 1, 0)), weight(1, 3));
    assert_eq!(house.phases, [[1, 2, 2, 9]]);
    assert_eq!(house.ask(0, Ask::Complete(1, 2, 0)), Nothing);
    assert_eq!(house.phases, [[1, 2, 0, 9]]);
    assert_eq!(house.ask(0, Ask::Complete(0, 1, 0)), Nothing);
    assert_eq!(house.phases, [[2, 0, 0, 9]]);
    assert_eq!(house.counters, [1, 1, 2, 0]);
}

#[test]
fn a_tick_notes_what_it_sends() {
    let mut house = Whole::opened(1, 1, 2, 8, &[guest(0, 100, 1), guest(100, 100, 1)]);
    for number in [0, 1] {
        house.ask(0, Ask::Arrive(number, 1, 0, 1));
        house.ask(0, Ask::Arrive(number, 2, 0, 1));
    }
    assert_eq!(house.phases, [[2, 1]]);
    assert_eq!(house.ask(0, Ask::Complete(0, 1, 0)), reservation(1, 2));
    assert_eq!(house.ask(0, Ask::Complete(1, 1, 0)), Nothing);
    assert_eq!(house.phases, [[1, 0]]);
    let counters = house.counters.clone();
    assert_eq!(house.ask(0, Ask::Tick(10 * MS)), weight(0, 2));
    assert_eq!(house.phases, [[1, 2]]);
    assert_eq!(house.counters, counters);
}

#[test]
fn an_id_may_be_in_flight_at_several_arrays() {
    let mut house = Whole::opened(2, 1, 1, 2, &[guest(100, 0, 1)]);
    house.ask(0, Ask::Arrive(0, 7, 0, 1));
    house.counters[2..].copy_from_slice(&[4, 4]);
    // With a rho of 4 it goes by weight.
    assert_eq!(house.ask(1, Ask::Arrive(0, 7, 0, 1)), weight(0, 7));
    assert_eq!(house.phases, [[1], [2]]);
    house.ask(1, Ask::Complete(0, 7, 0));
    assert_eq!(house.counters, [1, 0, 1, 0]);
    house.ask(0, Ask::Complete(0, 7, 0));
    assert_eq!(house.counters, [2, 1, 2, 1]);
}

#[test]
fn counting_stops_at_65535() {
    let mut house = Whole::opened(3, 1, 2, 2, &two_guests());
    house.ask(0, Ask::Arrive(0, 1, 0, 1));
    house.ask(0, Ask::Arrive(1, 1, 0, 1));
    assert_eq!(house.phases[0], [1, 2]);
    let near = [
        [65_534, 65_533],
        [65_534, 65_534],
        [65_535, 65_533],
        [65_535, 65_534],
        [65_535, 65_535],
        [65_535, 0],
    ];
    for counters in near {
        for (guest, phase) in [(0, 1), (1, 2)] {
            let mut house = house.clone();
            let row = 2 * guest as usize;
            house.counters[row..row + 2].copy_from_slice(&counters);
            house.ask(0, Ask::Complete(guest, 1, 0));
            let rho = if phase == 1 {
                counters[1] + 1
            } else {
                counters[1]
            };
            assert_eq!(house.counted(0, guest as usize), [65_535, rho.min(65_535)]);
            assert_eq!(house.counted(1, guest as usize), [1, 2 - phase]);
        }
    }
}

/// So many completions at one array that those at the other cannot be told in
/// 16 bits any more, and then a request there.
#[test]
fn counting_stops_after_65535_completions() {
    let mut house = Whole::opened(2, 1, 1, 1, &[guest(0, 1_000_000, 1)]);
    house.ask(1, Ask::Arrive(0, 0, 0, 1));
    for id in 0..65_540 {
        let t = (id as u64 + 1) * MS;
        assert_eq!(house.ask(0, Ask::Arrive(0, id, t, 1)), weight(0, id as u64));
        house.ask(0, Ask::Complete(0, id, t));
        let counted = (id as u64 + 1).min(65_535);
        assert_eq!(house.counters, [1, 0, counted, 0]);
    }
    let mut later = house.clone();
    // The limit spacing is 1,000: 65,534 of them, behind the first's.
    later.ask(1, Ask::Arrive(0, 1, 0, 1));
    assert_eq!(later.state(1).waiting[0].ltag, 65_535_000);
    assert_eq!(later.counters, [1, 0, 0, 0]);
}

#[test]
fn refused_ones_count_nothing() {
    let mut house = Whole::opened(2, 1, 1, 1, &two_guests());
    house.ask(0, Ask::Arrive(0, 1, 5, 1));
    house.ask(0, Ask::Arrive(0, 2, 5, 1));
    house.ask(1, Ask::Arrive(0, 1, 5, 1));
    house.ask(1, Ask::Complete(0, 1, 5));
    assert_eq!(house.counters, [1, 1, 0, 0, 1, 1, 0, 0]);
    let mut refuses = |array, asked, number| {
        let before = house.clone();
        assert_eq!(house.ask(array, asked), Refused(number), "{asked:?}");
        assert_eq!(house, before);
    };
    for (array, asked, number) in [
        (0, Ask::Arrive(2, 3, 5, 1), 4),
        (0, Ask::Complete(2, 1, 5), 4),
        (2, Ask::Arrive(0, 3, 5, 1), 22),
        (u64::MAX, Ask::Complete(0, 1, 5), 22),
        (2, Ask::Tick(5), 22),
        (0, Ask::Arrive(0, 3, CEILING + 1, 1), 5),
        (0, Ask::Complete(0, 1, CEILING + 1), 5),
        (0, Ask::Tick(CEILING + 1), 5),
        (0, Ask::Arrive(0, 3, 4, 1), 6),
        (0, Ask::Complete(0, 1, 4), 6),
        (0, Ask::Tick(4), 6),
        (0, Ask::Arrive(0, 3, 5, 0), 18),
        (0, Ask::Arrive(0, 3, 5, 65), 18),
        (0, Ask::Arrive(0, 1, 5, 1), 7),
        (0, Ask::Arrive(0, 2, 5, 1), 7),
        (0, Ask::Arrive(0, 3, 5, 1), 8),
        // Waiting, never there, in flight at another array, completed.
        (0, Ask::Complete(0, 2, 5), 10),
        (0, Ask::Complete(0, 9, 5), 10),
        (0, Ask::Complete(1, 1, 5), 10),
        (1, Ask::Complete(0, 1, 5), 10),
    ] {
        refuses(array, asked, number);
    }
    // The tag would pass the ceiling for the rho that was counted.
    let mut high = Whole::opened(1, 1, 1, 1, &[guest(1, 0, 1)]);
    high.counters.copy_from_slice(&[9, 9]);
    high.tables[0].guests[RNEXT] = CEILING - 7_999_999_999;
    let before = high.clone();
    assert_eq!(high.ask(0, Ask::Arrive(0, 1, 0, 1)), Refused(9));
    assert_eq!(high, before);
}

/// Every number of arrays, and every array of them.
#[test]
fn one_to_eight_arrays() {
    let list = listed(&two_guests());
    for arrays in [0, 1, 2, 7, 8, 9, 256, 257, 1 << 32, u64::MAX] {
        for array in [0, 1, 6, 7, 8, 9, 1 << 32, u64::MAX] {
            let mut house = OwnedHouse {
                arrays,
                array,
                counters: vec![0; 8 * 2 * 2],
                tables: dusty(1, 2, 1, 0),
                phases: vec![0],
            };
            let before = house.clone();
            let there = (1..=8).contains(&arrays) && array < arrays;
            let reply = arrays::open(1, 2, 1, 1, &list, &mut house.lend());
            let wanted = if there { Nothing } else { Refused(22) };
            assert_eq!(reply.answer, wanted, "{array} of {arrays}");
            assert_eq!(house == before, !there);
            // An open one of a house with another number of arrays.
            house.tables = opened(1, 1, &two_guests());
            let before = house.clone();
            for asked in [Ask::Arrive(1, 1, 0, 1), Ask::Tick(0)] {
                let mut house = before.clone();
                let answer = ask(&mut house.lend(), asked).answer;
                assert_eq!(answer == Refused(22), !there, "{array} of {arrays}");
                assert_eq!(refused(answer), !there);
                assert!(there || house == before);
            }
        }
    }
}

#[test]
fn opening_begins_one_array_and_leaves_the_others() {
    let list = listed(&two_guests());
    for array in 0..3 {
        let mut house = OwnedHouse {
            arrays: 3,
            array,
            counters: vec![u64::MAX; 3 * 2 * 2 + 1],
            tables: dusty(2, 2, 3, 1),
            phases: vec![77; 3],
        };
        let reply = arrays::open(2, 2, 3, 2, &list, &mut house.lend());
        assert_eq!(reply.numbers(), [0, 0, 0, 0, NEVER]);
        let mut counters = vec![u64::MAX; 13];
        counters[array as usize * 4..][..4].fill(0);
        assert_eq!(house.counters, counters);
        assert_eq!(house.phases, [0, 0, 77]);
        let mut tables = dusty(2, 2, 3, 1);
        second::open(2, 2, 3, 2, &list, &mut tables.lend());
        assert_eq!(house.tables, tables);
    }
}

#[test]
fn opening_arrays_then_counts_then_lengths_then_settings() {
    let list = listed(&two_guests());
    let bad = [1; 8].map(|n: u64| n * 2_000_000);
    let full = OwnedHouse {
        arrays: 2,
        array: 1,
        counters: vec![77; 8],
        tables: dusty(2, 2, 3, 0),
        phases: vec![77; 2],
    };
    let opens = |change: &dyn Fn(&mut OwnedHouse), counts: [u64; 4], settings: &[u64]| {
        let mut house = full.clone();
        change(&mut house);
        let before = house.clone();
        let [depth, guests, capacity, rule] = counts;
        let mut lent = house.lend();
        let answer = arrays::open(depth, guests, capacity, rule, settings, &mut lent).answer;
        assert_eq!(refused(answer), house == before);
        answer
    };
    let good = [2, 2, 3, 1];
    let short = |house: &mut OwnedHouse| {
        house.counters.clear();
        house.phases.clear();
        house.tables.gate.clear();
    };
    assert_eq!(opens(&|_| {}, good, &list), Nothing);
    let no_array = |house: &mut OwnedHouse| {
        short(house);
        house.array = 2;
    };
    assert_eq!(opens(&no_array, [0; 4], &[]), Refused(22));
    for counts in [
        [0, 2, 3, 1],
        [65, 2, 3, 1],
        [2, 0, 3, 1],
        [2, 65, 3, 1],
        [2, 2, 0, 1],
        [2, 2, 1_025, 1],
        [2, 2, 3, 0],
        [2, 2, 3, 3],
        [u64::MAX; 4],
    ] {
        assert_eq!(opens(&short, counts, &[]), Refused(1));
    }
    // All that is lent comes before the settings of the guests.
    let cuts: [fn(&mut OwnedHouse); 6] = [
        |house| shorten(&mut house.counters),
        |house| shorten(&mut house.phases),
        |house| shorten(&mut house.tables.gate),
        |house| shorten(&mut house.tables.guests),
        |house| shorten(&mut house.tables.waiting),
        |house| shorten(&mut house.tables.flight),
    ];
    for cut in cuts {
        assert_eq!(opens(&cut, good, &bad), Refused(2));
    }
    assert_eq!(opens(&|_| {}, good, &bad[1..]), Refused(2));
    assert_eq!(opens(&|_| {}, good, &bad), Refused(1));
}

/// Depth 2, two guests, three arrays, of which the second is lent; one request
/// of guest 0 in flight.
fn lent() -> OwnedHouse {
    let mut tables = opened(2, 3, &two_guests());
    call(&mut tables.lend(), arrive(0, 1, 10, 1));
    OwnedHouse {
        arrays: 3,
        array: 1,
        counters: vec![0; 3 * 2 * 2],
        tables,
        phases: vec![1, 0],
    }
}

/// The answer to any of the three, which refuse it alike but for the guest of a
/// tick.
fn answers(change: impl Fn(&mut OwnedHouse)) -> [Answer; 3] {
    let mut house = lent();
    change(&mut house);
    let all = [
        Ask::Arrive(9, 1, u64::MAX, 0),
        Ask::Complete(9, 1, u64::MAX),
        Ask::Tick(u64::MAX),
    ];
    all.map(|asked| {
        let before = house.clone();
        let answer = ask(&mut house.lend(), asked).answer;
        assert_eq!(house, before);
        answer
    })
}

#[test]
fn counters_and_phases_are_judged_like_tables() {
    type Change = fn(&mut OwnedHouse);
    let with = |change: Change, number| {
        assert_eq!(answers(change), [Refused(number); 3]);
    };
    // Short, though the guest and the array are not there and the tables are
    // not sound.
    let short: [Change; 4] = [
        |house| shorten(&mut house.counters),
        |house| house.counters.clear(),
        |house| shorten(&mut house.phases),
        |house| house.tables.gate.truncate(GATE_NUMBERS - 1),
    ];
    for cut in short {
        let all = |house: &mut OwnedHouse| {
            house.array = 3;
            house.counters[0] = u64::MAX;
            house.phases[0] = 0;
            house.tables.gate[TIME] = u64::MAX;
            cut(house);
        };
        assert_eq!(answers(all), [Refused(2); 3]);
    }
    // More arrays or guests or places need more.
    with(|house| house.arrays = 4, 2);
    with(|house| house.tables.gate[GUESTS] = 3, 2);
    with(|house| house.tables.gate[DEPTH] = 3, 2);
    // Counts out of range are 3 at once.
    for place in [DEPTH, GUESTS, CAPACITY] {
        for number in [0, 1_025, u64::MAX] {
            let all = |house: &mut OwnedHouse| {
                house.tables.gate[place] = number;
                house.counters.clear();
                house.phases.clear();
                house.tables.flight.clear();
            };
            assert_eq!(answers(all), [Refused(3); 3]);
        }
    }
    // The counters of any guest at any array.
    with(|house| house.counters[0] = 65_536, 3);
    with(|house| house.counters[11] = 1, 3);
    with(|house| house.counters[10..].fill(65_536), 3);
    with(|house| house.counters[6..8].copy_from_slice(&[7, 8]), 3);
    with(|house| house.counters[2..4].fill(u64::MAX), 3);
    // A phase too few, too many, none that there is.
    with(|house| house.phases[0] = 0, 3);
    with(|house| house.phases[1] = 1, 3);
    with(|house| house.phases[1] = 3, 3);
    with(|house| house.phases[0] = 3, 3);
    with(|house| house.phases[0] = (1 << 32) + 1, 3);
    with(|house| house.phases.swap(0, 1), 3);
    with(|house| house.tables.gate[FLIGHT] = 0, 3);
    with(|house| house.tables.gate[FLIGHT] = 2, 3);
    with(|house| house.tables.gate[FLIGHT] = 3, 3);
    with(|house| house.tables.gate[FLIGHT] = u64::MAX, 3);
    // A number of arrays that none may have comes before all that.
    let none = |house: &mut OwnedHouse| {
        house.arrays = 9;
        house.tables.gate.clear();
    };
    assert_eq!(answers(none), [Refused(22); 3]);
}

#[test]
fn an_unknown_guest_then_an_array_not_there_then_the_gates_own() {
    let (four, not_there) = (Refused(4), Refused(22));
    assert_eq!(answers(|_| {}), [four, four, Refused(5)]);
    // The gate's tables come last: short ones and such as are not sound.
    assert_eq!(
        answers(|house| house.tables.waiting.clear()),
        [four, four, Refused(2)]
    );
    assert_eq!(
        answers(|house| house.tables.gate[TIME] = u64::MAX),
        [four, four, Refused(3)]
    );
    let no_array = |house: &mut OwnedHouse| {
        house.array = 3;
        house.tables.guests.clear();
    };
    assert_eq!(answers(no_array), [four, four, not_there]);
    let known = |change: fn(&mut OwnedHouse), number| {
        let mut house = lent();
        change(&mut house);
        let before = house.clone();
        for asked in [
            Ask::Arrive(1, 1, 9, 0),
            Ask::Complete(1, 1, 9),
            Ask::Tick(9),
        ] {
            let answer = ask(&mut house.lend(), asked).answer;
            assert_eq!(answer, Refused(number), "{asked:?}");
            assert_eq!(house, before);
        }
    };
    known(|_| {}, 6);
    known(|house| house.tables.gate[TIME] = u64::MAX, 3);
    known(|house| shorten(&mut house.tables.flight), 2);
    known(|house| house.array = 3, 22);
    let last = |house: &mut OwnedHouse| {
        house.array = 3;
        house.tables.flight.clear();
    };
    known(last, 22);
}

#[test]
fn places_beyond_the_need_are_neither_read_nor_changed() {
    let mut house = lent();
    house.counters.extend([u64::MAX, 5]);
    house.phases.push(9);
    let answer = ask(&mut house.lend(), Ask::Complete(0, 1, 10)).answer;
    assert_eq!(answer, Nothing);
    assert_eq!(house.counters[..4], [1, 1, 0, 0]);
    assert_eq!(house.counters[12..], [u64::MAX, 5]);
    assert_eq!(house.phases, [0, 0, 9]);
}

/// What is refused before the gate is asked, number by number.
fn plain_refusal(house: &OwnedHouse, guest: Option<u64>) -> Option<u8> {
    if house.arrays == 0 || house.arrays > 8 {
        return Some(22);
    }
    let gate = &house.tables.gate;
    if gate.len() < 7 {
        return Some(2);
    }
    let [depth, guests, capacity, flight] = [gate[0], gate[1], gate[2], gate[5]];
    let most = [64, 64, 1_024];
    if [depth, guests, capacity]
        .iter()
        .zip(most)
        .any(|(n, most)| *n == 0 || *n > most)
    {
        return Some(3);
    }
    let rows = (house.arrays * guests) as usize;
    if house.counters.len() < 2 * rows || house.phases.len() < depth as usize {
        return Some(2);
    }
    for row in 0..rows {
        let (delta, rho) = (house.counters[2 * row], house.counters[2 * row + 1]);
        if delta > 65_535 || rho > delta {
            return Some(3);
        }
    }
    for place in 0..depth {
        let phase = house.phases[place as usize];
        if (place < flight) != (phase == 1 || phase == 2) || phase > 2 {
            return Some(3);
        }
    }
    if flight > depth {
        return Some(3);
    }
    match guest {
        Some(guest) if guest >= guests => Some(4),
        _ if house.array >= house.arrays => Some(22),
        _ => None,
    }
}

/// What a call answers and leaves, said once more: the gate is asked with what
/// was counted, and then all numbers are written anew.
fn expected(house: &OwnedHouse, asked: Ask) -> (Reply, OwnedHouse) {
    let refused = |number| Reply {
        answer: Refused(number),
        wake: None,
    };
    if let Some(number) = plain_refusal(house, asked.guest()) {
        return (refused(number), house.clone());
    }
    let mut after = house.clone();
    let guests = house.tables.gate[GUESTS];
    let row = |array: u64, guest: u64| 2 * (array * guests + guest) as usize;
    let spread = asked.guest().map_or([0, 0], |guest| {
        let at = row(house.array, guest);
        [house.counters[at], house.counters[at + 1]]
    });
    let out = match spread {
        [0, _] => [1, 0],
        counted => counted,
    };
    let gates = reply(&mut after.tables.lend(), asked.at_gate(out));
    if common::refused(gates.answer) {
        return (gates, house.clone());
    }
    match asked {
        Ask::Arrive(guest, ..) => after.counters[row(house.array, guest)..][..2].fill(0),
        Ask::Complete(guest, id, _) => {
            let flies = read(&house.tables.view()).flight;
            let named = |f: &Flight| (f.guest, f.id) == (guest, id as u64);
            let place = flies.iter().position(named).unwrap();
            let phase = after.phases.remove(place);
            after.phases.insert(flies.len() - 1, 0);
            for array in 0..house.arrays {
                let at = row(array, guest);
                for (number, one_more) in [(at, 1), (at + 1, 2 - phase)] {
                    let counted = after.counters[number] + one_more;
                    after.counters[number] = if counted == 65_536 { 65_535 } else { counted };
                }
            }
        }
        Ask::Tick(_) => {}
    }
    if let Answer::Sent { phase, .. } = gates.answer {
        let last = after.tables.gate[FLIGHT] as usize - 1;
        after.phases[last] = match phase {
            Phase::Reservation => 1,
            Phase::Weight => 2,
        };
    }
    (gates, after)
}

fn any_ask(rng: &mut Prng, state: Option<&State>) -> Ask {
    let last = state.map_or(0, |state| state.time);
    let time = match rng.below(10) {
        0 => last.saturating_sub(1),
        1 => rng.pick(&[0, CEILING, CEILING + 1, u64::MAX]),
        2..=4 => (last + rng.sized(34)).min(CEILING),
        _ => last,
    };
    let guests = state.map_or(3, |state| state.guests.len() as u64);
    let guest = match rng.below(20) {
        0 => rng.pick(&[guests, 64, 1 << 32, u64::MAX]),
        _ => rng.below(guests),
    };
    match (rng.below(10), state) {
        (0..=3, _) => Ask::Arrive(guest, rng.sized(10) as u32, time, any_cost(rng)),
        (4..=8, Some(state)) if !state.flight.is_empty() => {
            let f = rng.pick(&state.flight);
            Ask::Complete(f.guest, f.id as u32, time)
        }
        (4..=5, _) => Ask::Complete(guest, rng.sized(4) as u32, time),
        _ => Ask::Tick(time),
    }
}

/// Single calls on houses of any numbers, good and spoiled.
#[test]
fn any_house_is_answered_as_a_plain_reading_does() {
    let mut rng = Prng::new(111);
    let mut seen = BTreeSet::new();
    for _ in 0..12_000 {
        let mut house = sound_house(&mut rng);
        assert_eq!(house_refusal(&house.lend()), None);
        for _ in 0..rng.pick(&[0, 0, 1, 1, 2]) {
            spoil_house(&mut rng, &mut house);
        }
        let tables = house.tables.view();
        let state = table_refusal(&tables).is_none().then(|| read(&tables));
        let asked = any_ask(&mut rng, state.as_ref());
        let (wanted, after) = expected(&house, asked);
        let found = ask(&mut house.lend(), asked);
        assert_eq!(found, wanted, "{asked:?}");
        assert_eq!(house, after, "{asked:?} {found:?}");
        let kind = match asked {
            Ask::Arrive(..) => "arrival",
            Ask::Complete(..) => "completion",
            Ask::Tick(_) => "tick",
        };
        let [answer, _, _, refusal, _] = found.numbers();
        seen.insert(format!("{kind} {answer} {refusal}"));
        if answer != 3 {
            assert_eq!(house_refusal(&house.lend()), None);
            assert_eq!(first_broken(&house.tables.view()), None);
        }
    }
    let both = [2, 3, 4, 5, 6, 22];
    let refusals = [
        ("arrival", &[7, 8, 9, 18][..], &both[..]),
        ("completion", &[10][..], &both[..]),
        ("tick", &[][..], &[2, 3, 5, 6, 22][..]),
    ];
    for (kind, own, others) in refusals {
        for answer in 0..3 {
            assert!(seen.contains(&format!("{kind} {answer} 0")), "{kind}");
        }
        for number in own.iter().chain(others) {
            let wanted = format!("{kind} 3 {number}");
            assert!(seen.contains(&wanted), "{wanted}");
        }
    }
    // A counter is never such that the gate refuses it.
    assert!(!seen.contains("arrival 3 20"));
}

/// Lent numbers of any length and content.
#[test]
fn lent_numbers_of_any_kind_are_judged() {
    let mut rng = Prng::new(112);
    let any = |rng: &mut Prng| -> Vec<u64> {
        let length = rng.below(20);
        let bits = rng.pick(&[1, 2, 64]);
        (0..length).map(|_| rng.sized(bits)).collect()
    };
    for _ in 0..20_000 {
        let mut house = OwnedHouse {
            arrays: rng.sized(4),
            array: rng.sized(3),
            counters: any(&mut rng),
            tables: Owned {
                gate: any(&mut rng),
                guests: any(&mut rng),
                waiting: any(&mut rng),
                flight: any(&mut rng),
            },
            phases: any(&mut rng),
        };
        let asked = any_ask(&mut rng, None);
        let (wanted, after) = expected(&house, asked);
        assert_eq!(ask(&mut house.lend(), asked), wanted);
        assert_eq!(house, after);
    }
}

/// All that was asked of a house, and what it answered.
type History = Vec<(usize, Ask, Answer)>;

/// The phase by which the request was sent at this array that is its last of
/// this guest and id.
fn sent_by(history: &[(usize, Ask, Answer)], array: usize, guest: u64, id: u64) -> Phase {
    let sends = history.iter().rev().filter_map(|(at, _, answer)| {
        let Answer::Sent {
            phase,
            guest: whose,
            id: which,
        } = *answer
        else {
            return None;
        };
        ((*at, whose, which) == (array, guest, id)).then_some(phase)
    });
    sends.into_iter().next().expect("it was sent")
}

/// Delta and rho of a guest at an array, counted over all that was asked and
/// answered.
fn recount(history: &History, array: usize, guest: u64) -> [u64; 2] {
    let accepted = |place: &usize| !refused(history[*place].2);
    let arrives = |place: &usize| {
        let (at, asked, _) = history[*place];
        at == array && matches!(asked, Ask::Arrive(whose, ..) if whose == guest)
    };
    let last = (0..history.len()).filter(accepted).rfind(arrives);
    let since = last.map_or(0, |place| place + 1);
    let (mut delta, mut rho) = (0, 0);
    for place in (since..history.len()).filter(accepted) {
        if let (at, Ask::Complete(whose, id, _), _) = history[place] {
            if whose == guest {
                delta += 1;
                let phase = sent_by(&history[..place], at, guest, id as u64);
                rho += (phase == Phase::Reservation) as u64;
            }
        }
    }
    [delta, rho].map(|n: u64| n.min(65_535))
}

/// Settings that let much go by either phase within milliseconds.
fn lively(rng: &mut Prng) -> Settings {
    if rng.chance(20) {
        return any_settings(rng);
    }
    let reservation = rng.pick(&[0, 100, 300, 1_000]);
    let limit = rng.pick(&[0, 0, 1_000, 3_000]);
    credited(
        rng.pick(&[0, 4]),
        guest(reservation, limit, rng.pick(&[100, 500])),
    )
}

/// What a house is asked at this time, most often accepted.
fn likely_ask(rng: &mut Prng, state: &State, now: u64) -> Ask {
    let time = if rng.chance(4) {
        now.saturating_sub(MS)
    } else {
        now
    };
    let guests = state.guests.len() as u64;
    let known = rng.below(guests);
    let guest = if rng.chance(2) { guests } else { known };
    match rng.below(20) {
        0..=7 => Ask::Arrive(guest, rng.below(20) as u32, time, any_cost(rng).min(70)),
        8..=16 if !state.flight.is_empty() => {
            let f = rng.pick(&state.flight);
            Ask::Complete(f.guest, f.id as u32, time)
        }
        17 => Ask::Complete(guest, rng.below(20) as u32, time),
        _ => Ask::Tick(time),
    }
}

/// The counters are those of a recount over the whole history, the phases those
/// of the answers, and each gate stands as the rules in another shape do when
/// they are asked with what was recounted.
#[test]
fn counts_are_those_of_the_history() {
    let mut rng = Prng::new(113);
    let mut seen = BTreeSet::new();
    let (mut spread, mut by_reservation) = (0, 0);
    for run in 0..160 {
        let arrays = run % 8 + 1;
        let guests = rng.between(1, 3);
        let settings: Vec<_> = (0..guests).map(|_| lively(&mut rng)).collect();
        let (rule, depth) = (rng.between(1, 2), rng.between(1, 4));
        let mut house = Whole::opened(arrays, rule, depth, 9, &settings);
        let fresh = State::fresh_under(rule, depth as usize, 9, &settings);
        let mut mirrors = vec![Mirror::of(&fresh); arrays as usize];
        let mut history = History::new();
        let mut now = 0;
        for _ in 0..150 {
            now += rng.pick(&[0, 0, MS, 3 * MS, 10 * MS]);
            let lent = rng.below(arrays);
            let array = if rng.chance(2) { arrays } else { lent };
            let known = array.min(arrays - 1) as usize;
            let asked = likely_ask(&mut rng, &house.state(known), now);
            let before = house.clone();
            let answer = house.ask(array, asked);
            if let Answer::Refused(number) = answer {
                assert_eq!(house, before, "{asked:?}");
                seen.insert(number);
            }
            if array == arrays {
                let unknown = asked.guest().is_some_and(|guest| guest >= guests);
                assert_eq!(answer, Refused(if unknown { 4 } else { 22 }));
                continue;
            }
            // Before it is in the history: what went out.
            let named = asked.guest().filter(|guest| *guest < guests);
            let [delta, rho] = named.map_or([1, 1], |guest| recount(&history, known, guest));
            let out = [delta.max(1), rho];
            let mirror = &mut mirrors[known];
            assert_eq!(mirror.play(asked.at_gate(out)), answer, "{asked:?}");
            assert!(mirror.shows(&house.state(known)), "{asked:?} {answer:?}");
            if matches!(asked, Ask::Arrive(..)) && !refused(answer) {
                spread += (delta > 1) as u32;
                by_reservation += (rho > 0 && rho < delta) as u32;
            }
            history.push((known, asked, answer));
            for array in 0..arrays as usize {
                for guest in 0..guests {
                    let counted = house.counted(array, guest as usize);
                    assert_eq!(counted, recount(&history, array, guest));
                }
                let flies = house.state(array).flight;
                let mut phases: Vec<u64> = flies
                    .iter()
                    .map(|f| sent_by(&history, array, f.guest, f.id))
                    .map(|phase| 1 + (phase == Phase::Weight) as u64)
                    .collect();
                phases.resize(depth as usize, 0);
                assert_eq!(house.phases[array], phases);
            }
        }
    }
    for number in [4, 6, 7, 8, 10, 18, 22] {
        assert!(seen.contains(&number), "{number}");
    }
    assert!(
        spread > 500 && by_reservation > 100,
        "{spread} {by_reservation}"
    );
}

/// The samples reach what they are for.
#[test]
fn the_samples_have_houses_of_all_kinds() {
    let mut rng = Prng::new(114);
    let counters: BTreeSet<[u64; 2]> = (0..4_000).map(|_| any_counters(&mut rng)).collect();
    for [delta, rho] in &counters {
        assert!(*delta <= 65_535 && rho <= delta);
    }
    for ends in [[0, 0], [65_535, 65_535], [65_535, 0], [65_534, 65_534]] {
        assert!(counters.contains(&ends), "{ends:?}");
    }
    let mut refusals = [0; 23];
    let mut numbers = BTreeSet::new();
    for _ in 0..3_000 {
        let mut house = sound_house(&mut rng);
        numbers.insert((house.arrays, house.array));
        spoil_house(&mut rng, &mut house);
        let refusal = plain_refusal(&house, None).unwrap_or(0);
        refusals[refusal as usize] += 1;
    }
    assert_eq!(numbers.len(), 8 * 9 / 2);
    let reached = [0, 2, 3, 22].map(|number| refusals[number]);
    assert!(reached.iter().all(|count| *count > 100), "{reached:?}");
}
