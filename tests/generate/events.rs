//! Events for append calls: accepted ones and such as refusals 11, 13 and 14 name.

use super::counts;
use super::log::{latest, some_stamp, Drawer, Record};
use super::once;
use super::random::Random;
use super::terms::{Terms, HIGHEST};

/// What the log looks like to the generator while appends go on.
struct State<'a> {
    terms: &'a Terms,
    drawer: Drawer<'a>,
    records: Vec<Record>,
    /// Most events are stamped at this minute or later, so that a report given at it lasts.
    from: u32,
}

/// Draws a list of events; the first one aims at the given refusals, as far as they are 11 and 13.
pub fn list(random: &mut Random, terms: &Terms, records: &[Record], count: u32, aims: &[u32]) -> Vec<Vec<u8>> {
    let drawer = Drawer::after(random, terms, records);
    let mut state = State {
        terms,
        drawer,
        records: records.to_vec(),
        from: some_stamp(random, records),
    };
    let aimed: Vec<u32> = aims.iter().copied().filter(|aim| matches!(aim, 11 | 13)).collect();
    let mut events = Vec::new();
    for place in 0..count {
        events.push(match place {
            0 if !aimed.is_empty() => state.refused(random, &aimed),
            _ if random.percent(70) => state.accepted(random),
            _ => {
                let faults = random.pick(&[&[11][..], &[11], &[13], &[13], &[11, 13]]);
                state.refused(random, faults)
            }
        });
    }
    events
}

impl State<'_> {
    /// A record's minute, one an offset away from it, or one after all of them.
    fn stamp(&self, random: &mut Random) -> u32 {
        let some = some_stamp(random, &self.records);
        match random.below(4) {
            0 => some,
            1 => latest(&self.records).saturating_add(random.below(10)).min(HIGHEST),
            _ => self.drawer.edge(random, some),
        }
    }

    fn next(&mut self, random: &mut Random) -> Record {
        let record = self.upload(random);
        let from = if random.one_in(10) { 0 } else { self.from };
        Record {
            stamp: record.stamp.max(from),
            ..record
        }
    }

    /// An event of any minute, now and then one that the window of a count asks for, or that comes once.
    fn upload(&mut self, random: &mut Random) -> Record {
        if random.one_in(3) {
            if let Some(target) = counts::target(random, self.terms, &self.records) {
                return target.inside(random, &mut self.drawer);
            }
        }
        if random.one_in(4) {
            if let Some(record) = once::event(random, &mut self.drawer, &self.records) {
                return record;
            }
        }
        let kind = self.drawer.kind(random);
        let stamp = self.stamp(random);
        self.drawer.record(random, kind, stamp)
    }

    fn accepted(&mut self, random: &mut Random) -> Vec<u8> {
        let record = self.next(random);
        self.records.push(record.clone());
        record.bytes()
    }

    /// An event with all the given faults, as far as they can stand together.
    fn refused(&mut self, random: &mut Random, faults: &[u32]) -> Vec<u8> {
        let mut record = self.next(random);
        if faults.contains(&13) && !self.records.is_empty() {
            let place = random.index(self.records.len());
            let stamp = record.stamp;
            record = Record {
                stamp,
                ..self.records[place].clone()
            };
            self.change_other_values(random, &mut record);
        }
        if faults.contains(&11) {
            self.not_one_record(random, record)
        } else {
            record.bytes()
        }
    }

    /// A repeat is one by its key alone, so the other values may differ.
    fn change_other_values(&self, random: &mut Random, record: &mut Record) {
        let kind = &self.terms.kinds[usize::from(record.kind)];
        let key = kind.place(kind.key);
        for (place, value) in record.values.iter_mut().enumerate() {
            if place != key && random.one_in(2) {
                *value ^= 1;
            }
        }
    }

    fn not_one_record(&mut self, random: &mut Random, mut record: Record) -> Vec<u8> {
        let whole = record.bytes();
        match random.below(8) {
            0 => Vec::new(),
            1 => whole[..random.index(whole.len())].to_vec(),
            2 => whole[..whole.len() - 1].to_vec(),
            3 => [whole, vec![0]].concat(),
            4 => [whole, self.next(random).bytes()].concat(),
            5 => {
                record.kind = random.pick(&[self.terms.kinds.len() as u8, 32, 255]);
                record.bytes()
            }
            6 => {
                record.stamp = random.pick(&[HIGHEST + 1, u32::MAX]);
                record.bytes()
            }
            _ => {
                let more = random.pick(&[2, 4, 5, 9]);
                [whole, random.bytes(more)].concat()
            }
        }
    }
}
