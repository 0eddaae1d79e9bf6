//! Logs as values: records drawn at random so that they often correlate and often lie at the edges of windows.

use super::counts;
use super::once;
use super::random::Random;
use super::terms::{attributes, Item, Kind, Terms, HIGHEST};
use super::Size;
use std::collections::HashSet;

#[derive(Clone)]
pub struct Record {
    pub kind: u8,
    pub stamp: u32,
    pub values: Vec<u32>,
}

impl Record {
    pub fn bytes(&self) -> Vec<u8> {
        let mut bytes = vec![self.kind];
        bytes.extend(self.stamp.to_le_bytes());
        bytes.extend(self.values.iter().flat_map(|value| value.to_le_bytes()));
        bytes
    }

    pub fn correlates(&self, other: &Record, terms: &Terms) -> bool {
        let [one, two] = [self, other].map(|record| &terms.kinds[usize::from(record.kind)]);
        let common = attributes(one.mask & two.mask);
        common
            .iter()
            .all(|&attribute| self.values[one.place(attribute)] == other.values[two.place(attribute)])
    }
}

pub fn bytes(records: &[Record]) -> Vec<u8> {
    records.iter().flat_map(Record::bytes).collect()
}

/// Splits bytes into kind, stamp and end of each whole record, up to the first that is none.
pub fn walk(terms: &Terms, log: &[u8]) -> Vec<(u8, u32, usize)> {
    let mut records = Vec::new();
    let mut at = 0;
    while let Some(head) = log.get(at..at + 5) {
        let Some(kind) = terms.kinds.get(usize::from(head[0])) else {
            break;
        };
        at += kind.record_length();
        if at > log.len() {
            break;
        }
        records.push((head[0], u32::from_le_bytes([head[1], head[2], head[3], head[4]]), at));
    }
    records
}

/// Draws what goes into records under given terms.
pub struct Drawer<'a> {
    pub terms: &'a Terms,
    /// The offsets of the terms; stamps lie so far apart, or one off.
    offsets: Vec<u32>,
    subjects: Vec<u8>,
    counted: Vec<u8>,
    spread: u32,
    taken: HashSet<(u8, u32)>,
}

impl<'a> Drawer<'a> {
    pub fn new(random: &mut Random, terms: &'a Terms) -> Drawer<'a> {
        let items = terms.schemas.iter().flat_map(|schema| schema.clauses.iter().flatten());
        let mut offsets = vec![0, 1];
        for item in items {
            if let Item::Leaf(leaf) = item {
                offsets.extend([leaf.lower.offset, leaf.upper.offset]);
            }
        }
        let subjects = terms.schemas.iter().map(|schema| schema.subject).collect();
        let counted = terms.counts().iter().map(|(_, count)| count.event.number).collect();
        Drawer {
            terms,
            offsets,
            subjects,
            counted,
            spread: random.between(1, 3),
            taken: HashSet::new(),
        }
    }

    /// A drawer that knows the keys of a log.
    pub fn after(random: &mut Random, terms: &'a Terms, records: &[Record]) -> Drawer<'a> {
        let mut drawer = Drawer::new(random, terms);
        for record in records {
            let kind = &terms.kinds[usize::from(record.kind)];
            drawer.taken.insert((record.kind, record.values[kind.place(kind.key)]));
        }
        drawer
    }

    pub fn offset(&self, random: &mut Random) -> u32 {
        random.pick(&self.offsets)
    }

    /// A minute an offset away from another one, or one off.
    pub fn edge(&self, random: &mut Random, stamp: u32) -> u32 {
        let offset = self.offset(random);
        let moved = if random.percent(75) {
            stamp.saturating_add(offset)
        } else {
            stamp.saturating_sub(offset)
        };
        let off = [moved, moved, moved.saturating_sub(1), moved.saturating_add(1)];
        random.pick(&off).min(HIGHEST)
    }

    pub fn kind(&self, random: &mut Random) -> u8 {
        match random.below(10) {
            0..=3 => random.pick(&self.subjects),
            4 | 5 if !self.counted.is_empty() => random.pick(&self.counted),
            _ => random.index(self.terms.kinds.len()) as u8,
        }
    }

    /// A record whose key is new for its kind.
    pub fn record(&mut self, random: &mut Random, number: u8, stamp: u32) -> Record {
        let record = self.draft(random, number, stamp);
        self.with_new_key(random, record)
    }

    /// The same with the values of another one, which it correlates with unless that makes its key a repeat.
    pub fn alike(&mut self, random: &mut Random, number: u8, stamp: u32, other: &Record) -> Record {
        let mut record = self.draft(random, number, stamp);
        let [own, theirs] = [number, other.kind].map(|kind| &self.terms.kinds[usize::from(kind)]);
        for attribute in attributes(own.mask & theirs.mask) {
            record.values[own.place(attribute)] = other.values[theirs.place(attribute)];
        }
        self.with_new_key(random, record)
    }

    fn draft(&self, random: &mut Random, number: u8, stamp: u32) -> Record {
        let count = self.terms.kinds[usize::from(number)].mask.count_ones();
        Record {
            kind: number,
            stamp,
            values: (0..count).map(|_| self.value(random)).collect(),
        }
    }

    fn with_new_key(&mut self, random: &mut Random, mut record: Record) -> Record {
        let kind: &Kind = &self.terms.kinds[usize::from(record.kind)];
        let key = kind.place(kind.key);
        let mut more = 0;
        while !self.taken.insert((record.kind, record.values[key])) {
            more += 1;
            record.values[key] = random.between(1, self.spread + more);
        }
        record
    }

    /// One of few values, seldom with a bit set in a higher byte.
    fn value(&self, random: &mut Random) -> u32 {
        let value = random.between(1, self.spread);
        if random.one_in(25) {
            value | 1 << random.pick(&[8, 16, 24, 31])
        } else {
            value
        }
    }
}

/// Draws a log that is accepted, about half of the time with stamps that fall somewhere. Where terms count, some of its
/// records are drawn for the windows of counts; some of those that come once are moved, or added, near a window's start.
pub fn rich(random: &mut Random, terms: &Terms, size: &Size) -> Vec<Record> {
    let mut drawer = Drawer::new(random, terms);
    let count = match random.below(100) {
        0..=3 => 0,
        4 if size.large => random.between(size.records, 3 * size.records),
        _ if drawer.counted.is_empty() => random.between(1, size.records),
        _ => random.between(2, 2 * size.records / 3),
    };
    let mut records = Vec::new();
    for stamp in stamps(random, &drawer, count) {
        let kind = drawer.kind(random);
        records.push(drawer.record(random, kind, stamp));
    }
    for _ in 0..random.between(1, 3) {
        fill_window(random, &mut drawer, &mut records);
    }
    for _ in 0..random.below(4) {
        once::place(random, &mut drawer, &mut records);
    }
    arrange(random, &mut records);
    records
}

/// The latest stamp, wherever it stands; 0 if there is none.
pub fn latest(records: &[Record]) -> u32 {
    records.iter().map(|record| record.stamp).max().unwrap_or(0)
}

/// The stamp of one of the records; 0 if there is none.
pub fn some_stamp(random: &mut Random, records: &[Record]) -> u32 {
    if records.is_empty() {
        0
    } else {
        records[random.index(records.len())].stamp
    }
}

/// Puts records in an order of arrival: that of their stamps, the same but for a few that were uploaded late, or another.
fn arrange(random: &mut Random, records: &mut Vec<Record>) {
    records.sort_by_key(|record| record.stamp);
    match random.below(10) {
        0..=3 => {}
        4..=6 => upload_late(random, records),
        7 => records.reverse(),
        _ => shuffle(random, records),
    }
}

/// Moves a few records to somewhere after their place, mostly to the end.
fn upload_late(random: &mut Random, records: &mut Vec<Record>) {
    for _ in 0..random.between(1, 3).min(records.len() as u32) {
        let place = random.index(records.len());
        let record = records.remove(place);
        let last = records.len();
        let later = place + random.index(last - place + 1);
        records.insert(random.pick(&[later, last, last]), record);
    }
}

fn shuffle(random: &mut Random, records: &mut [Record]) {
    for count in (2..=records.len()).rev() {
        records.swap(count - 1, random.index(count));
    }
}

/// Adds what the window of a count asks for, often with a record just outside it.
fn fill_window(random: &mut Random, drawer: &mut Drawer, records: &mut Vec<Record>) {
    let Some(target) = counts::target(random, drawer.terms, records) else {
        return;
    };
    for _ in 0..target.missing {
        records.push(target.inside(random, drawer));
    }
    if random.percent(40) {
        records.push(target.beside(random, drawer));
    }
}

/// Stamps with many ties, about half of them at an edge that another one makes; now and then all of them high.
fn stamps(random: &mut Random, drawer: &Drawer, count: u32) -> Vec<u32> {
    let high = random.one_in(25);
    let base = if high { HIGHEST - random.between(0, 60) } else { 0 };
    let span = random.pick(&[8, 20, 20, 45]);
    let mut stamps: Vec<u32> = Vec::new();
    for _ in 0..count {
        let stamp = if !stamps.is_empty() && random.percent(55) {
            let other = random.pick(&stamps);
            drawer.edge(random, other)
        } else {
            (base + random.below(span)).min(HIGHEST)
        };
        stamps.push(stamp);
    }
    stamps
}

/// Fills up a log to nearly the limit with records that are no subjects, if there is such a kind.
pub fn lengthen(random: &mut Random, terms: &Terms, records: &mut Vec<Record>, limit: usize) {
    let mut drawer = Drawer::after(random, terms, records);
    let others: Vec<u8> = (0..terms.kinds.len() as u8)
        .filter(|kind| !drawer.subjects.contains(kind))
        .collect();
    if others.is_empty() {
        return;
    }
    let mut length = bytes(records).len();
    loop {
        let kind = random.pick(&others);
        length += terms.kinds[usize::from(kind)].record_length();
        if length > limit {
            break;
        }
        let stamp = random.below(60);
        records.push(drawer.record(random, kind, stamp));
    }
    arrange(random, records);
}

/// Another log that has the same records before the moment, in the same order; of the others, which may stand anywhere
/// between them, some are dropped, changed or new.
pub fn fork(random: &mut Random, terms: &Terms, records: &[Record], moment: u32) -> Vec<Record> {
    let (before, from): (Vec<Record>, Vec<Record>) = records.iter().cloned().partition(|record| record.stamp < moment);
    let mut drawer = Drawer::after(random, terms, records);
    let mut others = Vec::new();
    for mut record in from {
        match random.below(4) {
            0 => continue,
            1 => record.stamp = drawer.edge(random, record.stamp).max(moment),
            2 => record = drawer.record(random, record.kind, record.stamp),
            _ => {}
        }
        others.push(record);
    }
    if moment <= HIGHEST {
        for _ in 0..random.below(4) {
            let kind = drawer.kind(random);
            let stamp = drawer.edge(random, moment).max(moment);
            others.push(drawer.record(random, kind, stamp));
        }
    }
    mixed(random, before, others)
}

/// The first records in their order, and the others by their stamps after them or, mostly, anywhere.
fn mixed(random: &mut Random, mut records: Vec<Record>, mut others: Vec<Record>) -> Vec<Record> {
    if random.one_in(4) {
        others.sort_by_key(|record| record.stamp);
        records.extend(others);
        return records;
    }
    for record in others {
        records.insert(random.index(records.len() + 1), record);
    }
    records
}
