//! A plain implementation of the rule-sheet judge, its two checkers and the auditor.
//!
//! It is written from documents 01 and 02 alone and shares no code with the proved
//! build, so that the two can be held against each other, and timed.
//!
//! | module       | what it does                                                     |
//! |--------------|------------------------------------------------------------------|
//! | [`sheet`]    | reads a sheet's bytes, or names the first fault                  |
//! | [`rules`]    | what a sheet says of states and moves, compiled to bit masks     |
//! | [`list`]     | lists lawful, first and next states in ascending order           |
//! | [`judge`]    | the judge: "can be kept" with a run, "cannot" with a strike list |
//! | [`class`]    | up to 32 joined sheets judged in turn                            |
//! | [`clash`]    | which step rules fight: the check of a choice, and a planner     |
//! | [`check`]    | the checkers of runs and of strike lists                         |
//! | [`audit`]    | the auditor of recorded logs                                     |
//! | [`serial`]   | sheets that come in pieces over a serial lead                    |
//! | [`brute`]    | everything a second time, naively, for at most five letters      |
//! | [`lent`]     | the slices that a judge is lent, for tests                       |
//! | [`make`]     | sheets for tests and benchmarks, good and damaged                |
//! | [`edges`]    | each fault at its first and last possible place                  |
//! | [`families`] | sheets as people write them, in several orders of their letters  |
//! | [`named`]    | the workshop wall's sheets and the guide's                       |
//! | [`source`]   | the case studies and experiments of source document 000          |

#![deny(warnings)]
#![deny(missing_docs)]
#![forbid(unsafe_code)]

/// A state: letter k holds when the bit worth 2^(k-1) is set. The widest sheet
/// has 24 letters. Words, counts and answers are `u32` whatever this is.
pub type State = u32;

pub mod audit;
pub mod brute;
pub mod check;
pub mod clash;
pub mod class;
pub mod edges;
pub mod families;
mod graph;
mod hash;
pub mod judge;
pub mod lent;
pub mod list;
pub mod make;
pub mod named;
pub mod rules;
pub mod serial;
pub mod sheet;
pub mod source;
mod strike;
mod walk;
