//! Times by plain recursion: nothing is remembered, a cited stage is worked out wherever it is cited.

use super::log::Record;
use super::start::{End, Start};
use super::terms::{Bound, Event, Expr, Leaf, Terms};
use super::terms::{
    COMMITMENT, CREATED, DETACHED, DISCHARGED, EXPIRED, KIND, MINUS, OPEN, PLUS, PROHIBITION, VIOLATED,
};

const LATEST: u32 = 4_294_967_294;

pub struct Plain<'a> {
    pub terms: &'a Terms,
    pub records: &'a [Record],
}

/// A known bound. Its value may lie past any time; an open one lies past everything.
pub struct Known {
    pub value: u64,
    pub since: u32,
}

/// How a count came out, when, and whether that was after its window had ended, since a bound was not known before.
pub struct Settled {
    pub time: u32,
    pub passed: bool,
    pub waited: bool,
}

impl Plain<'_> {
    pub fn stage_time(&self, number: u8, stage: u8, subject: &Record) -> Option<u32> {
        let schema = &self.terms.schemas[usize::from(number)];
        let [create, detach, consequent] = &schema.clauses;
        let occurs = |clause| self.occurrence(clause, subject);
        let fails = |clause| self.failure(clause, subject);
        let time = match (stage, schema.norm) {
            (CREATED, _) => occurs(create),
            (DETACHED, _) => later(occurs(create), occurs(detach)),
            (EXPIRED, _) => later(occurs(create), fails(detach)),
            (DISCHARGED, COMMITMENT) => {
                let done = occurs(consequent);
                earlier(later(occurs(create), done), later(occurs(detach), done))
            }
            (DISCHARGED, PROHIBITION) | (VIOLATED, COMMITMENT) => {
                later(later(occurs(create), occurs(detach)), fails(consequent))
            }
            (DISCHARGED, _) | (VIOLATED, PROHIBITION) => {
                later(later(occurs(create), occurs(detach)), occurs(consequent))
            }
            _ => None,
        };
        later(time, Some(subject.stamp))
    }

    fn occurrence(&self, expr: &Expr<Leaf>, subject: &Record) -> Option<u32> {
        let occurs = |part| self.occurrence(part, subject);
        match expr {
            Expr::Always => Some(0),
            Expr::Leaf(leaf) => self.leaf_occurrence(leaf, subject),
            Expr::And(parts) => later(occurs(&parts[0]), occurs(&parts[1])),
            Expr::Or(parts) => earlier(occurs(&parts[0]), occurs(&parts[1])),
            Expr::Except(parts) => later(occurs(&parts[0]), self.failure(&parts[1], subject)),
        }
    }

    fn failure(&self, expr: &Expr<Leaf>, subject: &Record) -> Option<u32> {
        let fails = |part| self.failure(part, subject);
        match expr {
            Expr::Always => None,
            Expr::Leaf(leaf) => self.leaf_failure(leaf, subject),
            Expr::And(parts) => earlier(fails(&parts[0]), fails(&parts[1])),
            Expr::Or(parts) => later(fails(&parts[0]), fails(&parts[1])),
            Expr::Except(parts) => earlier(fails(&parts[0]), self.occurrence(&parts[1], subject)),
        }
    }

    fn leaf_occurrence(&self, leaf: &Leaf, subject: &Record) -> Option<u32> {
        if leaf.threshold.is_some() {
            let settled = self.settled(leaf, subject)?;
            return settled.passed.then_some(settled.time);
        }
        let lower = self.known(&leaf.lower, subject)?;
        let upper = self.known(&leaf.upper, subject)?;
        let first = self.earliest(leaf.event, subject, lower.value, upper.value)?;
        Some(first.max(lower.since).max(upper.since))
    }

    fn leaf_failure(&self, leaf: &Leaf, subject: &Record) -> Option<u32> {
        if leaf.threshold.is_some() {
            let settled = self.settled(leaf, subject)?;
            return (!settled.passed).then_some(settled.time);
        }
        let at_end = self.failure_at_end(leaf, subject);
        if self.comes_once(leaf.event, subject) {
            earlier(at_end, self.too_early(leaf, subject))
        } else {
            at_end
        }
    }

    /// The failure at a closed upper bound, with nothing in the window.
    fn failure_at_end(&self, leaf: &Leaf, subject: &Record) -> Option<u32> {
        if leaf.upper.sign == OPEN {
            return None;
        }
        let upper = self.known(&leaf.upper, subject)?;
        let end = upper.value.max(u64::from(upper.since));
        if self.earliest(leaf.event, subject, 0, upper.value).is_none() {
            return time(end);
        }
        let lower = self.known(&leaf.lower, subject)?;
        match self.earliest(leaf.event, subject, lower.value, upper.value) {
            Some(_) => None,
            None => time(end.max(u64::from(lower.since))),
        }
    }

    /// The minute by which something has happened before the lower bound and that bound is known.
    fn too_early(&self, leaf: &Leaf, subject: &Record) -> Option<u32> {
        let lower = self.known(&leaf.lower, subject)?;
        let early = self.earliest(leaf.event, subject, 0, lower.value)?;
        Some(early.max(lower.since))
    }

    /// Whether the subject carries the key of the event's kind, which no two records have alike.
    fn comes_once(&self, event: Event, subject: &Record) -> bool {
        let kinds = &self.terms.kinds;
        let key = kinds[usize::from(self.terms.kind_of(event))].key;
        kinds[usize::from(subject.kind)].carries(key)
    }

    /// How a count is settled; none where a bound is unknown, where its time would be past the last one, or where the
    /// leaf doesn't count.
    pub fn settled(&self, count: &Leaf, subject: &Record) -> Option<Settled> {
        let threshold = count.threshold?;
        let lower = self.known(&count.lower, subject)?;
        let upper = self.known(&count.upper, subject)?;
        let window = lower.value..upper.value;
        let records = self.correlated(count.event.number, subject);
        let inside = records.filter(|record| window.contains(&u64::from(record.stamp)));
        let known = u64::from(lower.since.max(upper.since));
        Some(Settled {
            time: time(upper.value.max(known))?,
            passed: inside.count() as u64 > u64::from(threshold),
            waited: known > upper.value,
        })
    }

    /// A leaf's first happening and what goes with it; none if nothing happens, and for a count.
    pub fn start(&self, leaf: &Leaf, subject: &Record) -> Option<Start> {
        let leaf = Some(leaf).filter(|leaf| leaf.threshold.is_none())?;
        let kind = self.terms.kind_of(leaf.event);
        let [key, own_key] = [kind, subject.kind].map(|kind| self.terms.kinds[usize::from(kind)].key);
        Some(Start {
            first: self.earliest(leaf.event, subject, 0, u64::MAX)?,
            lower: self.known(&leaf.lower, subject),
            sign: leaf.lower.sign,
            end: match self.known(&leaf.upper, subject) {
                None => End::Unknown,
                Some(_) if leaf.upper.sign == OPEN => End::Open,
                Some(_) => End::Closed,
            },
            at_end: self.failure_at_end(leaf, subject),
            once: self.comes_once(leaf.event, subject),
            stage: leaf.event.form != KIND,
            own_kind: kind == subject.kind,
            own_key: key == own_key,
        })
    }

    fn known(&self, bound: &Bound, subject: &Record) -> Option<Known> {
        let since = match bound.sign {
            PLUS | MINUS => self.earliest(bound.event, subject, 0, u64::MAX)?,
            _ => 0,
        };
        let value = match bound.sign {
            OPEN => u64::MAX,
            MINUS => u64::from(since.saturating_sub(bound.offset)),
            _ => u64::from(since) + u64::from(bound.offset),
        };
        Some(Known { value, since })
    }

    /// The earliest happening from `lower` up to, but not at, `upper`; in an empty window nothing is looked for.
    fn earliest(&self, event: Event, subject: &Record, lower: u64, upper: u64) -> Option<u32> {
        if lower >= upper {
            return None;
        }
        let correlated = self.correlated(self.terms.kind_of(event), subject);
        let happenings = correlated.filter_map(|record| match event.form {
            KIND => Some(record.stamp),
            stage => self.stage_time(event.number, stage, record),
        });
        happenings
            .filter(|&happening| (lower..upper).contains(&u64::from(happening)))
            .min()
    }

    fn correlated<'b>(&'b self, kind: u8, subject: &'b Record) -> impl Iterator<Item = &'b Record> {
        let own = move |record: &&Record| record.kind == kind && record.correlates(subject);
        self.records.iter().filter(own)
    }
}

fn time(minute: u64) -> Option<u32> {
    u32::try_from(minute).ok().filter(|&time| time <= LATEST)
}

fn later(a: Option<u32>, b: Option<u32>) -> Option<u32> {
    Some(a?.max(b?))
}

fn earlier(a: Option<u32>, b: Option<u32>) -> Option<u32> {
    a.into_iter().chain(b).min()
}
