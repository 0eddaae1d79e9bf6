//! Records by which an event that comes once happens near the start of a leaf's window: before, at or after it.

use super::counts;
use super::log::{Drawer, Record};
use super::random::Random;
use super::terms::{Leaf, Terms, HIGHEST};

/// A leaf on an event that comes once, for one subject.
struct Target {
    kind: u8,
    subject: Record,
    start: u32,
    /// Where the record stands by which the event happens, if there is one.
    place: Option<usize>,
}

/// Moves such a record to near the start of a window, or adds one there.
pub fn place(random: &mut Random, drawer: &mut Drawer, records: &mut Vec<Record>) {
    let Some(target) = target(random, drawer.terms, records) else {
        return;
    };
    match target.place {
        Some(place) => records[place].stamp = target.stamp(random),
        None => records.push(target.record(random, drawer)),
    }
}

/// Such a record near the start of a window, where there is none yet.
pub fn event(random: &mut Random, drawer: &mut Drawer, records: &[Record]) -> Option<Record> {
    let target = target(random, drawer.terms, records)?;
    target.place.is_none().then(|| target.record(random, drawer))
}

/// One of the leaves, for one of its subjects.
fn target(random: &mut Random, terms: &Terms, records: &[Record]) -> Option<Target> {
    let pairs = counts::pairs(terms, records, |leaf, subject| starts_later(terms, leaf, subject));
    if pairs.is_empty() {
        return None;
    }
    let (leaf, subject) = random.pick(&pairs);
    let kind = terms.kind_of(leaf.event)?;
    let start = counts::minute(terms, records, subject, leaf.lower);
    let own = |record: &Record| record.kind == kind && record.correlates(subject, terms);
    Some(Target {
        kind,
        subject: subject.clone(),
        start,
        place: records.iter().position(own),
    })
}

/// Whether a leaf is on an event that comes once for subjects of a kind, and does not start at minute 0.
fn starts_later(terms: &Terms, leaf: &Leaf, subject: u8) -> bool {
    let started = leaf.lower.sign == 0 && leaf.lower.offset == 0;
    leaf.threshold.is_none() && !started && terms.once(leaf.event, subject)
}

impl Target {
    /// Mostly the minute before the start or one before that, else the start or a minute after it.
    fn stamp(&self, random: &mut Random) -> u32 {
        let before = self.start.saturating_sub(1);
        let earlier = self.start.saturating_sub(random.between(2, 12));
        let after = self.start.saturating_add(1);
        let stamp = random.pick(&[before, before, earlier, earlier, self.start, self.start, after]);
        stamp.min(HIGHEST)
    }

    fn record(&self, random: &mut Random, drawer: &mut Drawer) -> Record {
        let stamp = self.stamp(random);
        drawer.alike(random, self.kind, stamp, &self.subject)
    }
}
