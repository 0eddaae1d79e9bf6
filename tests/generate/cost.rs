//! How many records a report visits at most, with each cited stage worked out anew, and how a case is made cheaper.

use super::log::{walk, Record};
use super::random::Random;
use super::terms::{Bound, Event, Item, Leaf, Schema, Terms, NO_EVENT};

const EXCEPT: u8 = 6;

/// Visits to learn when an expression occurs, and when it fails.
#[derive(Clone, Copy, Default)]
struct Cost {
    occurs: u64,
    fails: u64,
}

struct Table<'a> {
    terms: &'a Terms,
    /// Records of each kind.
    counts: Vec<u64>,
    records: u64,
    /// For each schema so far, what each stage costs for one subject.
    stages: Vec<[u64; 5]>,
}

impl Table<'_> {
    /// A stage that comes once is worked out for one record at most, any other at most for each record.
    fn event(&self, event: Event, subject: u8) -> u64 {
        if event.form == 0 {
            return self.records;
        }
        let number = usize::from(event.number);
        let stage = usize::from(event.form).wrapping_sub(1);
        let Some(cost) = self.stages.get(number).and_then(|costs| costs.get(stage)) else {
            return 0;
        };
        let cited = self.terms.schemas[number].subject;
        let matches = if self.terms.once(event, subject) {
            1
        } else {
            self.count(cited)
        };
        sum(&[self.records, matches.saturating_mul(*cost)])
    }

    fn count(&self, kind: u8) -> u64 {
        self.counts.get(usize::from(kind)).copied().unwrap_or(0)
    }

    /// A failure asks twice for the event: before the upper bound, and within the window; where it comes once, before
    /// the lower bound too, which is asked for again (by plain evaluation; the engine looks for such an event once). A
    /// count asks once, whichever of its times is wanted.
    fn leaf(&self, leaf: &Leaf, subject: u8) -> Cost {
        let bound = |bound: Bound| {
            if matches!(bound.sign, 1 | 2) {
                self.event(bound.event, subject)
            } else {
                0
            }
        };
        let event = self.event(leaf.event, subject);
        let lower = bound(leaf.lower);
        let occurs = sum(&[event, lower, bound(leaf.upper)]);
        let again = match leaf.threshold {
            Some(_) => 0,
            None if self.terms.once(leaf.event, subject) => sum(&[event, event, lower]),
            None => event,
        };
        Cost {
            occurs,
            fails: sum(&[occurs, again]),
        }
    }

    /// Read from the last item on, each item finds its operands done.
    fn clause(&self, items: &[Item], subject: u8) -> Cost {
        let mut done: Vec<Cost> = Vec::new();
        for item in items.iter().rev() {
            let cost = match item {
                Item::Always => Cost::default(),
                Item::Leaf(leaf) => self.leaf(leaf, subject),
                Item::Pair(byte) => {
                    let one = done.pop().unwrap_or_default();
                    let other = done.pop().unwrap_or_default();
                    let turned = Cost {
                        occurs: other.fails,
                        fails: other.occurs,
                    };
                    let other = if *byte == EXCEPT { turned } else { other };
                    Cost {
                        occurs: sum(&[one.occurs, other.occurs]),
                        fails: sum(&[one.fails, other.fails]),
                    }
                }
            };
            done.push(cost);
        }
        done.pop().unwrap_or_default()
    }
}

/// What the five stages of the schema just entered cost; a clause is reckoned once the stages that it may cite are.
fn enter_stages(table: &mut Table, schema: &Schema) {
    let number = table.stages.len();
    table.stages.push([0; 5]);
    let create = table.clause(&schema.clauses[0], schema.subject).occurs;
    table.stages[number][0] = create;
    let detach = table.clause(&schema.clauses[1], schema.subject);
    table.stages[number][1] = sum(&[create, detach.occurs]);
    table.stages[number][2] = sum(&[create, detach.fails]);
    let consequent = table.clause(&schema.clauses[2], schema.subject);
    let both = table.stages[number][1];
    let (held, broken) = (sum(&[both, consequent.occurs]), sum(&[both, consequent.fails]));
    let last = match schema.norm {
        1 => [sum(&[held, consequent.occurs]), broken],
        3 => [broken, held],
        _ => [held, 0],
    };
    table.stages[number][3..].copy_from_slice(&last);
}

fn visits(terms: &Terms, counts: Vec<u64>) -> u64 {
    let records = counts.iter().sum();
    let mut table = Table {
        terms,
        counts,
        records,
        stages: Vec::new(),
    };
    let mut whole = 0;
    for (number, schema) in terms.schemas.iter().enumerate() {
        enter_stages(&mut table, schema);
        let subjects = table.count(schema.subject).saturating_mul(sum(&table.stages[number]));
        whole = sum(&[whole, records, subjects]);
    }
    whole
}

/// The sum, or the largest number where it is larger.
fn sum(costs: &[u64]) -> u64 {
    costs.iter().fold(0, |sum, &cost| sum.saturating_add(cost))
}

fn tally(terms: &Terms, kinds: impl Iterator<Item = u8>) -> Vec<u64> {
    let mut counts = vec![0; terms.kinds.len()];
    for kind in kinds {
        counts[usize::from(kind)] += 1;
    }
    counts
}

/// The visits of a report on bytes, with some more events appended; 0 where the terms are none.
pub fn visits_of(terms: &[u8], log: &[u8], events: &[Vec<u8>]) -> u64 {
    let Some(terms) = Terms::read(terms) else { return 0 };
    let appended = events.iter().flat_map(|event| walk(&terms, event));
    let kinds: Vec<u8> = walk(&terms, log)
        .into_iter()
        .chain(appended)
        .map(|(kind, ..)| kind)
        .collect();
    visits(&terms, tally(&terms, kinds.into_iter()))
}

/// Drops citations and subjects until a report visits no more records than the limit.
pub fn shrink(random: &mut Random, terms: &mut Terms, records: &mut Vec<Record>, limit: u64) {
    while visits(terms, tally(terms, records.iter().map(|record| record.kind))) > limit {
        if random.one_in(2) {
            drop_citation(random, terms);
        } else {
            let schema = random.index(terms.schemas.len());
            let subject = terms.schemas[schema].subject;
            let all = random.one_in(8);
            records.retain(|record| random.one_in(2) || !(all || record.kind == subject));
        }
    }
}

/// Puts the subject's own kind, or for a bound no event, in the place of one citation.
fn drop_citation(random: &mut Random, terms: &mut Terms) {
    let subjects: Vec<u8> = terms.schemas.iter().map(|schema| schema.subject).collect();
    let mut citing = terms.leaves_mut();
    citing.retain(|(_, leaf)| {
        [leaf.event, leaf.lower.event, leaf.upper.event]
            .iter()
            .any(|event| event.form > 0)
    });
    if citing.is_empty() {
        return;
    }
    let place = random.index(citing.len());
    let (rank, leaf) = &mut citing[place];
    if leaf.event.form > 0 {
        leaf.event = Event {
            form: 0,
            number: subjects[*rank / 3],
        };
        return;
    }
    let bound = if leaf.lower.event.form > 0 {
        &mut leaf.lower
    } else {
        &mut leaf.upper
    };
    bound.sign = 0;
    bound.event = NO_EVENT;
}
