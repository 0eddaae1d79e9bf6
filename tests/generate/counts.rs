//! Records that fill the windows of counts, about as many as the threshold asks for.

use super::log::{Drawer, Record};
use super::random::Random;
use super::terms::{Bound, Leaf, Terms, HIGHEST};

/// A count for one subject: its kind, its window, and how many more records should lie there.
pub struct Target {
    kind: u8,
    subject: Record,
    lower: u32,
    upper: u32,
    pub missing: u32,
}

/// The highest threshold that logs are drawn to pass; those above are taken for 0.
const PASSED: u32 = 4;

/// One of the counts whose kind recurs, for one of its subjects.
pub fn target(random: &mut Random, terms: &Terms, records: &[Record]) -> Option<Target> {
    let pairs = pairs(terms, records, |leaf, subject| {
        leaf.threshold.is_some() && terms.recurs(leaf.event.number, subject)
    });
    if pairs.is_empty() {
        return None;
    }
    let (count, subject) = random.pick(&pairs);
    let kind = count.event.number;
    let [lower, upper] = [count.lower, count.upper].map(|bound| minute(terms, records, subject, bound));
    let inside = stamps(terms, records, kind, subject).filter(|stamp| (lower..upper).contains(stamp));
    let threshold = count.threshold.filter(|&threshold| threshold <= PASSED).unwrap_or(0);
    let wanted = threshold + random.below(3);
    Some(Target {
        kind,
        subject: subject.clone(),
        lower,
        upper,
        missing: wanted.saturating_sub(inside.count() as u32),
    })
}

/// The leaves that are kept, by themselves and their subject kind, with each of their subjects.
pub fn pairs<'a>(
    terms: &'a Terms,
    records: &'a [Record],
    kept: impl Fn(&Leaf, u8) -> bool,
) -> Vec<(&'a Leaf, &'a Record)> {
    let leaves = terms.leaves().into_iter();
    let leaves = leaves.map(|(schema, leaf)| (leaf, terms.schemas[schema].subject));
    let leaves = leaves.filter(|&(leaf, kind)| kept(leaf, kind));
    let pairs = leaves.flat_map(|(leaf, kind)| {
        let subjects = records.iter().filter(move |record| record.kind == kind);
        subjects.map(move |subject| (leaf, subject))
    });
    pairs.collect()
}

/// The stamps of the records of a kind that correlate with the subject.
fn stamps<'a>(
    terms: &'a Terms,
    records: &'a [Record],
    kind: u8,
    subject: &'a Record,
) -> impl Iterator<Item = u32> + 'a {
    let correlated = move |record: &&Record| record.kind == kind && record.correlates(subject, terms);
    records.iter().filter(correlated).map(|record| record.stamp)
}

/// The minute that a bound stands for, as far as the records tell it: stages, and kinds without a record, are taken to
/// happen with the subject.
pub fn minute(terms: &Terms, records: &[Record], subject: &Record, bound: Bound) -> u32 {
    let earliest = || stamps(terms, records, bound.event.number, subject).min();
    let from = match (bound.sign, bound.event.form) {
        (0, _) => 0,
        (_, 0) => earliest().unwrap_or(subject.stamp),
        _ => subject.stamp,
    };
    if bound.sign == 2 {
        from.saturating_sub(bound.offset)
    } else {
        from.saturating_add(bound.offset)
    }
}

impl Target {
    /// A record of the kind in the window.
    pub fn inside(&self, random: &mut Random, drawer: &mut Drawer) -> Record {
        let last = self.upper.saturating_sub(1).max(self.lower);
        let middle = self.lower + (last - self.lower).min(30) / 2;
        let stamp = random.pick(&[self.lower, self.lower, middle, last, last]);
        drawer.alike(random, self.kind, stamp.min(HIGHEST), &self.subject)
    }

    /// A record of the kind just outside the window.
    pub fn beside(&self, random: &mut Random, drawer: &mut Drawer) -> Record {
        let stamp = random.pick(&[self.lower.saturating_sub(1), self.upper, self.upper]);
        drawer.alike(random, self.kind, stamp.min(HIGHEST), &self.subject)
    }
}
