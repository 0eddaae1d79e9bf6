//! A second implementation of the engine, written from documents 00 and 01, wishes 1, 3 and 4 of 02 and how they are
//! read, without the engine's code.
//!
//! It is made to be compared with the first one, so it shares no code with it. It computes times in two ways: `minutes`
//! asks yes/no questions of one minute after another over tables of stage times, `plain` hands times up by recursion.

mod calls;
mod log;
mod minutes;
mod plain;
mod start;
mod terms;

pub use calls::{append, check_log, check_terms, listing, plain_report, report, settled_counts, standing, starts};
pub use start::{End, Start};
pub use terms::{MINUS, PLAIN, PLUS};

/// What a call that may write answers: its number, count or length, and the lent memory afterwards.
#[derive(Debug, Clone, PartialEq, Eq)]
pub struct Outcome {
    pub number: u32,
    pub value: u32,
    pub memory: Vec<u8>,
}
