//! The gate of document 01, written a second time from the documents alone.
//!
//! - `numbers`: the ranges, the ceiling, the settings and the spacings
//! - `tables`:  the lent tables of numbers and their records
//! - `sound`:   the test of soundness, rule by rule
//! - `rules`:   the events, the adjustment, the stamping, the choice, the drop
//! - `wake`:    when a tick alone would next send something
//! - `calls`:   the library calls on lent tables
//! - `batch`:   many events in one call
//! - `arrays`:  houses with several arrays, above the calls
//! - `trace`:   the trace in its two versions and the program that prints it
//! - `moves`:   the moves from one version to the other
//! - `salvage`: what is good of a torn trace, and why the rest is not
//! - `judge`:   whether another gate's lines are right
//! - `clock`:   the time of a board with a short clock
//! - `sheet`:   the sale-day sheet of a trace
//! - `sample`:  random numbers and random tables, for tests
//! - `kinds`:   random traces, for tests and benchmarks

pub mod arrays;
pub mod batch;
pub mod calls;
pub mod clock;
pub mod judge;
pub mod kinds;
pub mod moves;
pub mod numbers;
pub mod rules;
pub mod salvage;
pub mod sample;
pub mod sheet;
pub mod sound;
pub mod tables;
pub mod trace;
pub mod wake;

pub use arrays::House;
pub use batch::batch;
pub use calls::{arrive, complete, open, tick, Reply, NEVER};
pub use clock::{clock_read, Clock};
pub use judge::{judge, lines_of, Judged, Ties};
pub use moves::{back, up};
pub use numbers::{Settings, CEILING};
pub use rules::{Answer, Phase, State};
pub use salvage::{salvage, Salvaged};
pub use sound::{first_broken, Rule};
pub use tables::{Flight, Guest, Tables, Waiting};
pub use wake::wake;
