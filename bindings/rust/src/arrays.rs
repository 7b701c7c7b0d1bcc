//! The gates of several arrays, and what is counted between them.

use crate::answer::{named, Outcome, Refusal};
use crate::gate::{numbers_in, places, Gate, Lent, Rule};
use crate::raw::{self, Counter, Settings};
use crate::{MOST_ARRAYS, MOST_DEPTH};

/// The places of an array.
#[derive(Clone, Copy, Debug, PartialEq, Eq, Hash)]
pub struct Size {
    /// Places at the array, 1 to [`crate::MOST_DEPTH`].
    pub depth: u64,
    /// Waiting places, 1 to [`crate::MOST_CAPACITY`].
    pub capacity: u64,
}

/// The arrays of a house that spreads its guests over them, 1 to [`crate::MOST_ARRAYS`], each with an open gate. Document
/// 02, K14: "The host side counts, for each guest and array, completions anywhere since its last request to that array, or
/// since the start (delta), and those of them sent by reservation (rho); both stop at 65,535, and a delta of 0 goes out as
/// 1." An arrival takes to its gate what was counted; a guest's completions alone count for it, and what is refused counts
/// nothing. Each array has its own time, and an outcome says when to tick the array that it is of.
#[derive(Clone, Debug, PartialEq, Eq)]
pub struct Arrays {
    arrays: Vec<Array>,
    counters: Vec<Counter>,
}

/// An array's gate, and by which phase each request in flight was sent.
#[derive(Clone, Debug, PartialEq, Eq)]
struct Array {
    gate: Gate,
    phases: Vec<u64>,
}

impl Arrays {
    /// Opens the gates of so many arrays as sizes are named, for these guests, who are the same at each. Nothing is counted
    /// yet.
    ///
    /// # Errors
    ///
    /// [`Refusal::Array`] where there are none or more than [`crate::MOST_ARRAYS`], else [`Refusal::Setting`] where a size,
    /// the number of guests or a guest's settings are out of range.
    pub fn open(sizes: &[Size], rule: Rule, guests: &[Settings]) -> Result<Arrays, Refusal> {
        // Without an array there is nothing to lend.
        if sizes.is_empty() || sizes.len() as u64 > MOST_ARRAYS {
            return Err(Refusal::Array);
        }
        let with_room = |size: &Size| Array {
            gate: Gate::with_room(size.depth, size.capacity, guests.len()),
            phases: vec![0; places(size.depth, MOST_DEPTH)],
        };
        let mut house = Arrays {
            arrays: sizes.iter().map(with_room).collect(),
            counters: vec![Counter::default(); sizes.len() * guests.len()],
        };
        for (array, &size) in (0..).zip(sizes) {
            let _nothing_waits = house.call_open(array, size, rule, guests)?;
        }
        Ok(house)
    }

    fn call_open(
        &mut self,
        array: u64,
        size: Size,
        rule: Rule,
        settings: &[Settings],
    ) -> Result<Outcome, Refusal> {
        let count = settings.len() as u64;
        let lent = self.lend(array);
        // SAFETY: see `lend`; the settings are rows of numbers too.
        named(unsafe {
            raw::sgq_arrays_open(
                lent.own.gate,
                lent.arrays,
                array,
                size.depth,
                count,
                size.capacity,
                rule.number(),
                settings.as_ptr().cast(),
                numbers_in(settings),
                lent.own.guests,
                lent.own.guests_length,
                lent.own.waiting,
                lent.own.waiting_length,
                lent.own.flight,
                lent.own.flight_length,
                lent.counters,
                lent.counters_length,
                lent.phases,
                lent.phases_length,
            )
        })
    }

    /// A request of a guest arrives at an array, at a cost, with what was counted for the guest there: see
    /// [`Gate::arrive_spread`]. That is 0 again from then on.
    ///
    /// # Errors
    ///
    /// The first that holds of [`Refusal::UnknownGuest`], [`Refusal::Array`], and then of those of [`Gate::arrive`]. Nothing
    /// has changed then.
    pub fn arrive(
        &mut self,
        array: u64,
        guest: u64,
        id: u32,
        time: u64,
        cost: u64,
    ) -> Result<Outcome, Refusal> {
        let lent = self.lend(array);
        // SAFETY: see `lend`.
        named(unsafe {
            raw::sgq_arrays_arrive(
                lent.own.gate,
                lent.arrays,
                array,
                lent.own.guests,
                lent.own.guests_length,
                lent.own.waiting,
                lent.own.waiting_length,
                lent.own.flight,
                lent.own.flight_length,
                lent.counters,
                lent.counters_length,
                lent.phases,
                lent.phases_length,
                guest,
                id,
                time,
                cost,
            )
        })
    }

    /// A request in flight at an array is done: it counts for its guest at all of them.
    ///
    /// # Errors
    ///
    /// The first that holds of [`Refusal::UnknownGuest`], [`Refusal::Array`], and then of those of [`Gate::complete`].
    /// Nothing has changed then.
    pub fn complete(
        &mut self,
        array: u64,
        guest: u64,
        id: u32,
        time: u64,
    ) -> Result<Outcome, Refusal> {
        let lent = self.lend(array);
        // SAFETY: see `lend`.
        named(unsafe {
            raw::sgq_arrays_complete(
                lent.own.gate,
                lent.arrays,
                array,
                lent.own.guests,
                lent.own.guests_length,
                lent.own.waiting,
                lent.own.waiting_length,
                lent.own.flight,
                lent.own.flight_length,
                lent.counters,
                lent.counters_length,
                lent.phases,
                lent.phases_length,
                guest,
                id,
                time,
            )
        })
    }

    /// A tick at an array: see [`Gate::tick`].
    ///
    /// # Errors
    ///
    /// The first that holds of [`Refusal::Array`], and then of those of [`Gate::tick`]. Nothing has changed then.
    pub fn tick(&mut self, array: u64, time: u64) -> Result<Outcome, Refusal> {
        let lent = self.lend(array);
        // SAFETY: see `lend`.
        named(unsafe {
            raw::sgq_arrays_tick(
                lent.own.gate,
                lent.arrays,
                array,
                lent.own.guests,
                lent.own.guests_length,
                lent.own.waiting,
                lent.own.waiting_length,
                lent.own.flight,
                lent.own.flight_length,
                lent.counters,
                lent.counters_length,
                lent.phases,
                lent.phases_length,
                time,
            )
        })
    }

    /// How many arrays there are.
    #[must_use]
    pub fn count(&self) -> u64 {
        self.arrays.len() as u64
    }

    /// The gate of an array, to look at, if there is such an array.
    #[must_use]
    pub fn gate(&self, array: u64) -> Option<&Gate> {
        self.place(array).map(|place| &self.arrays[place].gate)
    }

    /// What is counted for a guest at an array, if there are both.
    #[must_use]
    pub fn counter(&self, array: u64, guest: u64) -> Option<Counter> {
        let guests = self.counters.len() / self.arrays.len();
        let own = &self.counters[self.place(array)? * guests..][..guests];
        own.get(usize::try_from(guest).ok()?).copied()
    }

    fn place(&self, array: u64) -> Option<usize> {
        let place = usize::try_from(array).ok()?;
        (place < self.arrays.len()).then_some(place)
    }

    /// What a call of an array is lent, as the library takes it; where there is no such array, the first one's, and the call
    /// is refused. All is as in [`Gate::lend`]: counters and phases are their own memory too.
    fn lend(&mut self, array: u64) -> LentArray {
        let place = self.place(array).unwrap_or(0);
        let arrays = self.count();
        let Array { gate, phases } = &mut self.arrays[place];
        LentArray {
            arrays,
            own: gate.lend(),
            counters_length: numbers_in(&self.counters),
            counters: self.counters.as_mut_ptr().cast(),
            phases_length: phases.len(),
            phases: phases.as_mut_ptr(),
        }
    }
}

/// Pointers and lengths, in the order of the calls.
struct LentArray {
    arrays: u64,
    own: Lent,
    counters: *mut u64,
    counters_length: usize,
    phases: *mut u64,
    phases_length: usize,
}
