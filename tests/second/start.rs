//! What the tally is told of a leaf, so that it can count early failures by what they come from.

use super::plain::Known;
use std::cmp::Ordering;

/// A leaf's first happening, for one subject, and what decides whether it is too early.
pub struct Start {
    pub first: u32,
    /// None where the lower bound is unknown.
    pub lower: Option<Known>,
    /// The sign of the lower bound.
    pub sign: u8,
    pub end: End,
    /// The failure at the upper bound.
    pub at_end: Option<u32>,
    /// Whether the event comes once.
    pub once: bool,
    /// Whether it is a stage.
    pub stage: bool,
    /// Whether its kind is the subject's.
    pub own_kind: bool,
    /// Whether its kind has the same attribute for its key as the subject's.
    pub own_key: bool,
}

/// What the upper bound is.
#[derive(Clone, Copy, PartialEq, Eq)]
pub enum End {
    Closed,
    Open,
    Unknown,
}

impl Start {
    /// The first minute at which the happening has come and the lower bound is known, if it ever is.
    pub fn time(&self) -> u32 {
        let known = self.lower.as_ref().map_or(0, |lower| lower.since);
        self.first.max(known)
    }

    /// Whether the lower bound became known only after the happening.
    pub fn waited(&self) -> bool {
        self.time() > self.first
    }

    /// On which side of the lower bound the happening lies; none where that is unknown.
    pub fn side(&self) -> Option<Ordering> {
        let lower = self.lower.as_ref()?;
        Some(u64::from(self.first).cmp(&lower.value))
    }

    /// Whether the happening is too early and the leaf hasn't failed at its upper bound by then.
    pub fn early(&self) -> bool {
        self.side() == Some(Ordering::Less) && self.at_end.is_none_or(|end| self.time() < end)
    }

    /// Whether the happening is too early, but the leaf has failed at its upper bound before.
    pub fn had_failed(&self) -> bool {
        self.side() == Some(Ordering::Less) && self.at_end.is_some_and(|end| end < self.time())
    }

    /// Whether the happening is too early, and the leaf fails at its upper bound at the same minute.
    pub fn fails_at_both(&self) -> bool {
        self.side() == Some(Ordering::Less) && self.at_end == Some(self.time())
    }

    /// Whether the lower bound is known and past the last minute.
    pub fn past_last(&self) -> bool {
        let lower = self.lower.as_ref();
        lower.is_some_and(|lower| lower.value >= u64::from(u32::MAX))
    }
}
