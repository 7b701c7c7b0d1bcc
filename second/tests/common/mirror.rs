//! The rules once more in another shape: signed wide numbers, a queue for each
//! guest, tags that may be absent.

use super::{reservation, weight, Call};
use second::tables::WAITING_NUMBERS;
use second::{Answer, State};
use std::collections::VecDeque;

const CEILING: i128 = (1 << 62) - 1;

#[derive(Clone)]
struct Request {
    turn: u64,
    id: u64,
    tags: [Option<i128>; 3],
    cost: i128,
}

/// A guest: spacing and next number of each kind it has, how far before the
/// time its share tags may lie, and its queue.
#[derive(Clone)]
struct Lane {
    back: i128,
    spacing: [Option<i128>; 3],
    next: [i128; 3],
    queue: VecDeque<Request>,
}

#[derive(Clone)]
pub struct Mirror {
    depth: usize,
    capacity: usize,
    time: i128,
    billed: bool,
    turn: u64,
    lanes: Vec<Lane>,
    flight: Vec<(u64, u64)>,
}

const R: usize = 0;
const L: usize = 1;
const S: usize = 2;

impl Mirror {
    pub fn of(state: &State) -> Mirror {
        let second = 1_000_000_000i128;
        let lane = |g: &second::Guest| {
            let s = g.settings;
            let (r, l, w) = (s.reservation as i128, s.limit as i128, s.shares as i128);
            let up = |l: i128| second / l + (second % l != 0) as i128;
            Lane {
                back: s.credit as i128 * (second / w),
                spacing: [
                    (r > 0).then(|| second / r),
                    (l > 0).then(|| up(l)),
                    Some(second / w),
                ],
                next: [g.rnext, g.lnext, g.snext].map(|n| n as i128),
                queue: VecDeque::new(),
            }
        };
        let mut mirror = Mirror {
            depth: state.depth,
            capacity: state.capacity,
            time: state.time as i128,
            billed: state.rule == 2,
            turn: 0,
            lanes: state.guests.iter().map(lane).collect(),
            flight: state.flight.iter().map(|f| (f.guest, f.id)).collect(),
        };
        for w in &state.waiting {
            let lane = &mut mirror.lanes[w.guest as usize];
            let numbers = [w.rtag, w.ltag, w.stag];
            let tag = |kind: usize| lane.spacing[kind].map(|_| numbers[kind] as i128);
            let tags = [tag(R), tag(L), tag(S)];
            let turn = mirror.turn;
            lane.queue.push_back(Request {
                turn,
                id: w.id,
                tags,
                cost: w.cost as i128,
            });
            mirror.turn += 1;
        }
        mirror
    }

    /// The mirror's tables as the gate's state would show them.
    pub fn shows(&self, state: &State) -> bool {
        let mut all: Vec<(u64, [u64; WAITING_NUMBERS])> = Vec::new();
        for (number, lane) in self.lanes.iter().enumerate() {
            for q in &lane.queue {
                let tag = |kind: usize| q.tags[kind].unwrap_or(0) as u64;
                let (guest, cost) = (number as u64, q.cost as u64);
                all.push((q.turn, [guest, q.id, tag(R), tag(L), tag(S), cost]));
            }
        }
        all.sort();
        let next = |lane: &Lane| lane.next.map(|n| n as u64);
        self.time == state.time as i128
            && all
                .iter()
                .map(|(_, w)| *w)
                .eq(state.waiting.iter().map(|w| w.numbers()))
            && self
                .flight
                .iter()
                .copied()
                .eq(state.flight.iter().map(|f| (f.guest, f.id)))
            && self
                .lanes
                .iter()
                .map(next)
                .eq(state.guests.iter().map(|g| [g.rnext, g.lnext, g.snext]))
    }

    pub fn play(&mut self, c: Call) -> Answer {
        match self.enter(c) {
            Ok(()) => self.choose(),
            Err(number) => Answer::Refused(number),
        }
    }

    /// An event up to the choice, or its refusal.
    pub fn enter(&mut self, c: Call) -> Result<(), u8> {
        let kept = self.clone();
        let entered = match c {
            Call::Arrive(guest, id, t, cost, spread) => {
                self.arrive(guest, id as u64, t as i128, cost, spread)
            }
            Call::Complete(guest, id, t) => self.complete(guest, id as u64, t as i128),
            Call::Tick(t) => self.clock(t as i128),
        };
        if entered.is_err() {
            *self = kept;
        }
        entered
    }

    fn known(&self, guest: u64) -> Result<(), u8> {
        if guest < self.lanes.len() as u64 {
            Ok(())
        } else {
            Err(4)
        }
    }

    fn clock(&mut self, t: i128) -> Result<(), u8> {
        match t {
            t if t > CEILING => Err(5),
            t if t < self.time => Err(6),
            t => {
                self.time = t;
                Ok(())
            }
        }
    }

    fn arrive(
        &mut self,
        guest: u64,
        id: u64,
        t: i128,
        cost: u64,
        spread: [u64; 2],
    ) -> Result<(), u8> {
        self.known(guest)?;
        self.clock(t)?;
        if cost == 0 || cost > 64 {
            return Err(18);
        }
        let cost = cost as i128;
        let [delta, rho] = spread.map(|n| n as i128);
        if !(1..65_536).contains(&delta) || delta < rho {
            return Err(20);
        }
        let number = guest as usize;
        let waits = self.lanes[number].queue.iter().any(|q| q.id == id);
        if waits || self.flight.contains(&(guest, id)) {
            return Err(7);
        }
        let waiting: usize = self.lanes.iter().map(|lane| lane.queue.len()).sum();
        if waiting == self.capacity {
            return Err(8);
        }
        if self.lanes[number].queue.is_empty() && waiting > 0 {
            self.adjust(t)?;
        }
        let lane = &mut self.lanes[number];
        let lowest = [t, t, (t - lane.back).max(0)];
        for (kind, more) in [(R, rho - 1), (L, delta - 1), (S, delta - 1)] {
            let by = more * lane.spacing[kind].unwrap_or(0);
            lane.next[kind] = (lane.next[kind] + by).max(0);
        }
        if lane.queue.is_empty() {
            lane.next[S] = lane.next[S].min(t);
        }
        let mut tags = [None; 3];
        for kind in [R, L, S] {
            if let Some(spacing) = lane.spacing[kind] {
                let tag = lane.next[kind].max(lowest[kind]);
                if tag > CEILING {
                    return Err(9);
                }
                tags[kind] = Some(tag);
                lane.next[kind] = tag + cost * spacing;
            }
        }
        lane.queue.push_back(Request {
            turn: self.turn,
            id,
            tags,
            cost,
        });
        self.turn += 1;
        Ok(())
    }

    fn adjust(&mut self, t: i128) -> Result<(), u8> {
        let all = self.lanes.iter().flat_map(|lane| &lane.queue);
        let by = t - all.filter_map(|q| q.tags[S]).min().unwrap();
        for lane in self.lanes.iter_mut().filter(|lane| !lane.queue.is_empty()) {
            lane.next[S] += by;
            for q in &mut lane.queue {
                q.tags[S] = q.tags[S].map(|tag| tag + by);
                if q.tags[S] > Some(CEILING) {
                    return Err(9);
                }
            }
        }
        Ok(())
    }

    fn complete(&mut self, guest: u64, id: u64, t: i128) -> Result<(), u8> {
        self.known(guest)?;
        self.clock(t)?;
        let before = self.flight.len();
        self.flight.retain(|f| *f != (guest, id));
        if self.flight.len() == before {
            Err(10)
        } else {
            Ok(())
        }
    }

    /// The first of all requests by (tag, turn) in a phase, looking at the
    /// whole queue of every guest.
    fn first(&self, kind: usize, may: impl Fn(&Request) -> bool) -> Option<(i128, u64, usize)> {
        let mut best = None;
        for (number, lane) in self.lanes.iter().enumerate() {
            for q in lane.queue.iter().filter(|q| may(q)) {
                if let Some(tag) = q.tags[kind] {
                    let key = (tag, q.turn, number);
                    if best.is_none() || Some(key) < best {
                        best = Some(key);
                    }
                }
            }
        }
        best
    }

    fn choose(&mut self) -> Answer {
        let t = self.time;
        if self.flight.len() >= self.depth {
            return Answer::Nothing;
        }
        let in_limit = |q: &Request| q.tags[L].is_none_or(|tag| tag <= t);
        let due = |q: &Request| q.tags[R].is_some_and(|tag| tag <= t);
        let may = |q: &Request| due(q) && (!self.billed || in_limit(q));
        if let Some((_, turn, number)) = self.first(R, may) {
            let id = self.send(number, turn).id;
            return reservation(number as u64, id);
        }
        if let Some((_, turn, number)) = self.first(S, in_limit) {
            let sent = self.send(number, turn);
            self.pay(number, sent.cost);
            return weight(number as u64, sent.id);
        }
        Answer::Nothing
    }

    /// After a weight send of this cost.
    fn pay(&mut self, number: usize, cost: i128) {
        let lane = &mut self.lanes[number];
        if let Some(spacing) = lane.spacing[R] {
            let paid = cost * spacing;
            for q in &mut lane.queue {
                q.tags[R] = q.tags[R].map(|tag| (tag - paid).max(0));
            }
            lane.next[R] = match lane.queue.back() {
                Some(q) => q.tags[R].unwrap() + q.cost * spacing,
                None => (lane.next[R] - paid).max(0),
            };
        }
    }

    /// Every right answer once an event was entered, ours first, looking at the
    /// first of each queue alone.
    pub fn right(&self) -> Vec<Answer> {
        let none = vec![Answer::Nothing];
        if self.flight.len() == self.depth {
            return none;
        }
        let fronts = self.lanes.iter().enumerate();
        let fronts = fronts.filter_map(|(number, lane)| Some((number, lane.queue.front()?)));
        let past = |tag: i128| tag <= self.time;
        let (mut due, mut open) = (Vec::new(), Vec::new());
        for (number, q) in fronts {
            let in_limit = q.tags[L].is_none_or(past);
            if q.tags[R].is_some_and(past) && (in_limit || !self.billed) {
                due.push((q.tags[R], q.turn, reservation(number as u64, q.id)));
            }
            if in_limit {
                open.push((q.tags[S], q.turn, weight(number as u64, q.id)));
            }
        }
        let mut all = if due.is_empty() { open } else { due };
        all.sort_by_key(|(tag, turn, _)| (*tag, *turn));
        let tied = all.iter().take_while(|(tag, ..)| *tag == all[0].0);
        let sends: Vec<Answer> = tied.map(|(.., send)| *send).collect();
        if sends.is_empty() {
            none
        } else {
            sends
        }
    }

    /// Sends what an answer that is right names.
    pub fn follow(&mut self, answer: Answer) {
        if let Answer::Sent { phase, guest, .. } = answer {
            let number = guest as usize;
            let turn = self.lanes[number].queue[0].turn;
            let sent = self.send(number, turn);
            if phase == second::Phase::Weight {
                self.pay(number, sent.cost);
            }
        }
    }

    fn send(&mut self, number: usize, turn: u64) -> Request {
        let queue = &mut self.lanes[number].queue;
        let place = queue.iter().position(|q| q.turn == turn).unwrap();
        let sent = queue.remove(place).unwrap();
        self.flight.push((number as u64, sent.id));
        sent
    }
}
