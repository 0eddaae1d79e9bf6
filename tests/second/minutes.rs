//! Times found minute by minute: what has occurred by t, what has failed by t, and which is the first such t.

use super::log::Record;
use super::terms::{clause_of, Bound, Event, Expr, Leaf, Schema, Terms};
use super::terms::{
    COMMITMENT, CREATED, DETACHED, DISCHARGED, EXPIRED, KIND, MINUS, PLAIN, PLUS, PROHIBITION, VIOLATED,
};
use std::collections::BTreeSet;

const LAST_MINUTE: u64 = 4_294_967_294;

/// The times of the five stages, by schema and by the subject's place in the log.
pub type Times = Vec<Vec<[Option<u32>; 5]>>;

/// All stage times. Clauses are taken by rising rank, so whatever a clause cites is in the table before it is looked up.
pub fn stage_times(terms: &Terms, records: &[Record]) -> Times {
    let mut times = vec![vec![[None; 5]; records.len()]; terms.schemas.len()];
    for (number, schema) in terms.schemas.iter().enumerate() {
        for clause in 0..3 {
            for place in (0..records.len()).filter(|&place| records[place].kind == schema.subject) {
                let history = History::new(terms, records, &times, &records[place]);
                for (stage, time) in history.stages_of(schema, clause) {
                    times[number][place][usize::from(stage) - 1] = time;
                }
            }
        }
    }
    times
}

/// All that one subject can look up.
struct History<'a> {
    terms: &'a Terms,
    records: &'a [Record],
    times: &'a Times,
    subject: &'a Record,
    /// The places of the records that correlate with the subject, by kind.
    correlated: Vec<Vec<usize>>,
}

impl<'a> History<'a> {
    fn new(terms: &'a Terms, records: &'a [Record], times: &'a Times, subject: &'a Record) -> Self {
        let mut correlated = vec![Vec::new(); terms.kinds.len()];
        for (place, record) in records.iter().enumerate() {
            if record.correlates(subject) {
                correlated[usize::from(record.kind)].push(place);
            }
        }
        History {
            terms,
            records,
            times,
            subject,
            correlated,
        }
    }

    /// The times of the stages that the clause at this place settles.
    fn stages_of(&self, schema: &Schema, clause: u8) -> Vec<(u8, Option<u32>)> {
        let needed = schema.clauses.iter().take(usize::from(clause) + 1);
        let clauses: Vec<_> = needed.map(|expr| expr.map(&|leaf: &Leaf| self.window(leaf))).collect();
        let minutes = self.minutes(&clauses);
        let first_yes = |stage| minutes.iter().find(|&&t| reached(schema.norm, stage, &clauses, t));
        let stages = (CREATED..=VIOLATED).filter(|&stage| clause_of(stage) == clause);
        stages.map(|stage| (stage, first_yes(stage).copied())).collect()
    }

    /// The minutes worth asking, rising, none before the subject's stamp: at no other can an answer turn to yes, since it
    /// does so only with the stamp or with a leaf's answer (`turns`).
    fn minutes(&self, clauses: &[Expr<Window>]) -> BTreeSet<u32> {
        let windows = clauses.iter().flat_map(Expr::leaves);
        let turns = windows.flat_map(Window::turns).filter(|&turn| turn <= LAST_MINUTE);
        let minutes = turns.filter_map(|turn| u32::try_from(turn).ok());
        minutes
            .filter(|&minute| minute > self.subject.stamp)
            .chain([self.subject.stamp])
            .collect()
    }

    fn window(&self, leaf: &Leaf) -> Window {
        Window {
            happenings: self.happenings(leaf.event),
            lower: self.edge(&leaf.lower),
            upper: self.edge(&leaf.upper),
            once: self.comes_once(leaf.event),
            threshold: leaf.threshold,
        }
    }

    fn edge(&self, bound: &Bound) -> Option<Edge> {
        let known = match bound.sign {
            PLUS | MINUS => *self.happenings(bound.event).first()?,
            _ => 0,
        };
        let (from, offset) = (u64::from(known), u64::from(bound.offset));
        let minute = match bound.sign {
            PLAIN => Some(offset),
            PLUS => Some(from + offset),
            MINUS => Some(from.saturating_sub(offset)),
            _ => None,
        };
        Some(Edge { known, minute })
    }

    /// Whether records of the event's kind have their key compared with the subject, so that one correlates at most.
    fn comes_once(&self, event: Event) -> bool {
        let [kind, own] =
            [self.terms.kind_of(event), self.subject.kind].map(|kind| &self.terms.kinds[usize::from(kind)]);
        let compared = kind.mask & own.mask;
        compared & 1 << kind.key != 0
    }

    /// When the event happens for this subject, rising.
    fn happenings(&self, event: Event) -> Vec<u32> {
        let places = self.correlated[usize::from(self.terms.kind_of(event))].iter();
        let mut happenings: Vec<u32> = match event.form {
            KIND => places.map(|&place| self.records[place].stamp).collect(),
            stage => {
                let table = &self.times[usize::from(event.number)];
                places
                    .filter_map(|&place| table[place][usize::from(stage) - 1])
                    .collect()
            }
        };
        happenings.sort_unstable();
        happenings
    }
}

/// A bound that becomes known: since when, and the exact minute it stands for; an open one stands for none.
struct Edge {
    known: u32,
    minute: Option<u64>,
}

impl Edge {
    fn known_by(&self, t: u32) -> bool {
        self.known <= t
    }
}

/// A leaf for one subject: its happenings, rising, and its bounds, none where a bound never becomes known.
struct Window {
    happenings: Vec<u32>,
    lower: Option<Edge>,
    upper: Option<Edge>,
    /// Whether there can be no second happening.
    once: bool,
    /// What a count has to pass.
    threshold: Option<u32>,
}

impl Window {
    fn occurred_by(&self, t: u32) -> bool {
        match self.threshold {
            Some(threshold) => self.counted_by(t).is_some_and(|count| count > u64::from(threshold)),
            None => self.entered_by(t),
        }
    }

    fn failed_by(&self, t: u32) -> bool {
        match self.threshold {
            Some(threshold) => self.counted_by(t).is_some_and(|count| count <= u64::from(threshold)),
            None => self.missed_by(t) || self.came_early_by(t),
        }
    }

    /// How many happenings the window has; none while it isn't past or a bound isn't known.
    fn counted_by(&self, t: u32) -> Option<u64> {
        let lower = self.lower.as_ref().filter(|lower| lower.known_by(t))?;
        let upper = self.upper.as_ref().filter(|upper| upper.known_by(t))?;
        let end = upper.minute.filter(|&end| end <= u64::from(t))?;
        let count = self.before(end).saturating_sub(self.before(lower.minute?));
        Some(count as u64)
    }

    fn entered_by(&self, t: u32) -> bool {
        let (Some(lower), Some(upper)) = (&self.lower, &self.upper) else {
            return false;
        };
        lower.known_by(t) && upper.known_by(t) && self.happened_within(lower, upper, t)
    }

    fn missed_by(&self, t: u32) -> bool {
        let Some(upper @ Edge { minute: Some(end), .. }) = &self.upper else {
            return false;
        };
        let none_before_end = self.happenings.first().is_none_or(|&first| u64::from(first) >= *end);
        let lower = self.lower.as_ref().filter(|lower| lower.known_by(t));
        let none_within = lower.is_some_and(|lower| !self.happened_within(lower, upper, t));
        upper.known_by(t) && *end <= u64::from(t) && (none_before_end || none_within)
    }

    /// Whether the one happening there can be has come, and the window is known to start after it.
    fn came_early_by(&self, t: u32) -> bool {
        let (true, Some(lower), Some(&only)) = (self.once, &self.lower, self.happenings.first()) else {
            return false;
        };
        only <= t && lower.known_by(t) && u64::from(only) < lower.minute.unwrap_or(0)
    }

    fn happened_within(&self, lower: &Edge, upper: &Edge, t: u32) -> bool {
        let end = upper.minute.unwrap_or(u64::MAX);
        let first = self.first_from(lower);
        first.is_some_and(|happening| happening <= t && u64::from(happening) < end)
    }

    /// The first happening that isn't before the lower bound.
    fn first_from(&self, lower: &Edge) -> Option<u32> {
        let place = self.before(lower.minute.unwrap_or(0));
        self.happenings.get(place).copied()
    }

    /// How many happenings lie before a minute.
    fn before(&self, minute: u64) -> usize {
        self.happenings
            .partition_point(|&happening| u64::from(happening) < minute)
    }

    /// The minutes at which an answer about this leaf can turn: when a bound becomes known, when the window closes, at the
    /// happening of what comes once, and at the first one from the lower bound on; later ones find the window entered, or past.
    fn turns(&self) -> impl Iterator<Item = u64> {
        let first = self.lower.as_ref().and_then(|lower| self.first_from(lower));
        let only = self.happenings.first().copied().filter(|_| self.once);
        let known = [&self.lower, &self.upper].map(|edge| edge.as_ref().map(|edge| edge.known));
        let end = self.upper.as_ref().and_then(|upper| upper.minute);
        known
            .into_iter()
            .chain([first, only])
            .flatten()
            .map(u64::from)
            .chain(end)
    }
}

fn occurred(expr: &Expr<Window>, t: u32) -> bool {
    match expr {
        Expr::Always => true,
        Expr::Leaf(window) => window.occurred_by(t),
        Expr::And(parts) => occurred(&parts[0], t) && occurred(&parts[1], t),
        Expr::Or(parts) => occurred(&parts[0], t) || occurred(&parts[1], t),
        Expr::Except(parts) => occurred(&parts[0], t) && failed(&parts[1], t),
    }
}

fn failed(expr: &Expr<Window>, t: u32) -> bool {
    match expr {
        Expr::Always => false,
        Expr::Leaf(window) => window.failed_by(t),
        Expr::And(parts) => failed(&parts[0], t) || failed(&parts[1], t),
        Expr::Or(parts) => failed(&parts[0], t) && failed(&parts[1], t),
        Expr::Except(parts) => failed(&parts[0], t) || occurred(&parts[1], t),
    }
}

/// Whether the stage has come about by t, as far as the clauses go; `clauses` ends with the one that settles the stage.
fn reached(norm: u8, stage: u8, clauses: &[Expr<Window>], t: u32) -> bool {
    let held = |place: usize| occurred(&clauses[place], t);
    let broken = |place: usize| failed(&clauses[place], t);
    match (stage, norm) {
        (CREATED, _) => held(0),
        (DETACHED, _) => held(0) && held(1),
        (EXPIRED, _) => held(0) && broken(1),
        (DISCHARGED, COMMITMENT) => (held(0) || held(1)) && held(2),
        (DISCHARGED, PROHIBITION) | (VIOLATED, COMMITMENT) => held(0) && held(1) && broken(2),
        (DISCHARGED, _) | (VIOLATED, PROHIBITION) => held(0) && held(1) && held(2),
        _ => false,
    }
}
