//! Sheets for tests and benchmarks: random ones, damaged ones, named families.
//!
//! Everything is drawn from a generator with a fixed seed, so every sheet can be
//! made again.

mod counters;
mod damage;
mod draft;
mod named;
mod parts;
mod random;
mod rng;
mod shapes;

pub(crate) use counters::add_one;
pub use counters::{
    counter, counter_back_to, counter_to_dead_end, counter_with_a_beginning, falling_promises,
    long_run, long_run_back_to, loosened_counter,
};
pub use damage::{damage, DAMAGES};
pub use draft::Draft;
pub use named::{families, Family};
pub(crate) use parts::with_length;
pub use random::{formula, letters, machine, random_draft, random_sheet, wired, WIRED_LETTERS};
pub(crate) use random::{list, literal};
pub use rng::Rng;
pub use shapes::{dense, exactly, free, late_clash, mostly_idle, never, w15};
