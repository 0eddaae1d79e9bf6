//! Cases drawn at random from a seed: terms and logs that are accepted, and such as every refusal names.

mod cost;
mod counts;
mod damage;
mod events;
mod input;
mod large;
mod log;
mod once;
mod random;
mod terms;

pub use cost::visits_of;
pub use input::{damaged_input, input};
pub use large::{large, LARGE};
pub use log::walk;
pub use random::Random;
pub use terms::Terms;

use log::{latest, some_stamp, Drawer, Record};
use terms::HIGHEST;

pub const TERMS_LIMIT: usize = 16_384;
pub const LOG_LIMIT: usize = 32_768;

/// How large cases may become.
pub struct Size {
    pub kinds: u32,
    pub schemas: u32,
    pub records: u32,
    pub events: u32,
    /// The most records that a report may visit.
    pub visits: u64,
    /// Whether the other limits are passed now and then.
    pub large: bool,
}

pub const SMALL: Size = Size {
    kinds: 4,
    schemas: 2,
    records: 12,
    events: 1,
    visits: 20_000,
    large: false,
};
pub const WIDE: Size = Size {
    kinds: 6,
    schemas: 4,
    records: 24,
    events: 6,
    visits: 300_000,
    large: true,
};

/// Bytes for five rows of each of 22 subjects: a page that small cases hardly ever fill.
const ROOMY: usize = 1_980;

/// The length of a page, to be fixed once the number of rows is known.
#[derive(Clone, Copy)]
pub enum Page {
    /// So many bytes more than the rows take, or fewer.
    Rows(isize),
    Bytes(usize),
}

/// A second log, alike in the records before the moment.
pub struct Fork {
    pub moment: u32,
    pub buffer: Vec<u8>,
    pub used: usize,
}

pub struct Case {
    pub terms: Vec<u8>,
    pub buffer: Vec<u8>,
    pub used: usize,
    pub events: Vec<Vec<u8>>,
    pub moment: u32,
    /// Moments of a report before all appends and of one after them.
    pub lasting: (u32, u32),
    pub page: Page,
    pub schema: usize,
    pub key: u32,
    pub fork: Fork,
}

impl Page {
    pub fn length(self, rows: usize) -> usize {
        match self {
            Page::Rows(more) => (18 * rows).saturating_add_signed(more),
            Page::Bytes(length) => length,
        }
    }
}

/// A case of any sort: about half of them without a fault on purpose.
pub fn any(random: &mut Random) -> Case {
    if random.one_in(250) {
        let which = random.below(LARGE);
        return large(random, which);
    }
    let aims: Vec<u32> = match random.below(100) {
        0..=54 => vec![],
        55..=89 => vec![random.pick(&AIMS)],
        _ => (0..random.between(2, 4)).map(|_| random.pick(&AIMS)).collect(),
    };
    aimed(random, &WIDE, &aims)
}

/// The aim of a case with random changes to its bytes.
pub const NOISE: u32 = 17;
/// What a case can aim at: the refusals from 2 on that are given, and random changes.
pub const AIMS: [u32; 14] = [2, 3, 4, 5, 6, 7, 9, 10, 11, 13, 14, 15, 16, NOISE];

/// A case at which the given refusals are aimed; what comes about may be another one, or none.
pub fn aimed(random: &mut Random, size: &Size, aims: &[u32]) -> Case {
    // Coarse faults come last, since the finer ones need fields that are in range.
    let mut aims = aims.to_vec();
    aims.sort_unstable_by(|one, other| other.cmp(one));
    loop {
        let case = draft(random, size, &aims);
        let log = case.buffer.get(..case.used).unwrap_or(&case.buffer);
        if visits_of(&case.terms, log, &[]) <= size.visits {
            return cheaper(case, 3 * size.visits);
        }
    }
}

/// Keeps only the first event, and the log itself as the second log, where others make reports much dearer.
fn cheaper(mut case: Case, limit: u64) -> Case {
    let log = case.buffer.get(..case.used).unwrap_or(&case.buffer);
    if visits_of(&case.terms, log, &case.events) > limit {
        case.events.truncate(1);
    }
    if visits_of(&case.terms, &case.fork.buffer, &[]) > limit {
        case.fork.buffer = case.buffer.clone();
        case.fork.used = case.used;
    }
    case
}

/// Terms and records of an accepted case, cheap enough.
fn accepted(random: &mut Random, size: &Size) -> (Terms, Vec<Record>) {
    let mut terms = terms::rich(random, size);
    let mut records = log::rich(random, &terms, size);
    let part = if size.large {
        random.pick(&[1, 3, 10, 10, 20, 20, 20, 20])
    } else {
        1
    };
    cost::shrink(random, &mut terms, &mut records, size.visits / part);
    if size.large && random.one_in(300) {
        log::lengthen(random, &terms, &mut records, LOG_LIMIT);
        cost::shrink(random, &mut terms, &mut records, size.visits);
    }
    (terms, records)
}

fn draft(random: &mut Random, size: &Size, aims: &[u32]) -> Case {
    let (terms, mut records) = accepted(random, size);
    let fewest = if size.large { 0 } else { size.events };
    let count = random.between(fewest, size.events);
    let events = events::list(random, &terms, &records, count, aims);
    let fork = fork(random, &terms, &records);
    let moment = moment(random, &terms, &records);
    let (schema, key, moment) = question(random, &terms, &records, moment, aims);
    let lasting = lasting(random, &records, &events, moment);
    let page = page(random, aims);
    let (buffer, used) = lent_log(random, size, &terms, &mut records, &events, aims);
    let terms = lent_terms(random, terms, aims);
    Case {
        terms,
        buffer,
        used,
        events,
        moment,
        lasting,
        page,
        schema,
        key,
        fork,
    }
}

/// The bytes of terms with the faults aimed at.
fn lent_terms(random: &mut Random, mut terms: Terms, aims: &[u32]) -> Vec<u8> {
    for &aim in aims {
        damage::terms(random, &mut terms, aim);
    }
    let mut bytes = if aims.contains(&2) {
        damage::grammar(random, &terms)
    } else {
        terms.bytes()
    };
    if aims.contains(&NOISE) && random.one_in(2) {
        damage::noise(random, &mut bytes);
    }
    bytes
}

/// A log's buffer and used length, with the faults aimed at and with room for some events.
fn lent_log(
    random: &mut Random,
    size: &Size,
    terms: &Terms,
    records: &mut Vec<Record>,
    events: &[Vec<u8>],
    aims: &[u32],
) -> (Vec<u8>, usize) {
    for &aim in aims {
        damage::records(random, terms, records, aim);
    }
    let mut log = log::bytes(records);
    if aims.contains(&7) && random.one_in(3) {
        damage::cut(random, &mut log);
    }
    if aims.contains(&NOISE) && random.one_in(2) {
        damage::noise(random, &mut log);
    }
    let used = log.len();
    let room = room(random, events, aims);
    let junk = if random.one_in(4) {
        vec![0; room]
    } else {
        random.bytes(room)
    };
    log.extend(junk);
    let used = if aims.contains(&6) {
        past(random, size, log.len())
    } else {
        used
    };
    (log, used)
}

/// A used length over the buffer's length.
fn past(random: &mut Random, size: &Size, length: usize) -> usize {
    let far = if size.large { usize::MAX } else { u32::MAX as usize };
    random.pick(&[length + 1, length + 1, length + 2, length + 300, far])
}

/// Bytes behind the used ones: none, or what the first event or all of them take, or about that.
fn room(random: &mut Random, events: &[Vec<u8>], aims: &[u32]) -> usize {
    let first = events.first().map_or(0, Vec::len);
    let all: usize = events.iter().map(Vec::len).sum();
    if aims.contains(&14) {
        return random.pick(&[0, first.saturating_sub(1), first.saturating_sub(1), first / 2, first]);
    }
    let few = random.index(12);
    random.pick(&[0, first, all, all, all + few, all + few, all + few])
}

/// A moment near a record's stamp or an offset away from it, or after everything.
fn moment(random: &mut Random, terms: &Terms, records: &[Record]) -> u32 {
    let drawer = Drawer::new(random, terms);
    let stamp = some_stamp(random, records);
    let last = latest(records);
    match random.below(10) {
        0 => random.pick(&[0, 1, HIGHEST, HIGHEST + 1, u32::MAX - 1]),
        1 => random.word(),
        2 => stamp,
        3 => drawer.edge(random, stamp),
        4 => drawer.edge(random, last),
        5 | 6 => last.saturating_add(random.between(1, 30)),
        _ => u32::MAX,
    }
}

/// Schema number and key for a standing, and the moment: mostly those of a subject stamped before it.
fn question(random: &mut Random, terms: &Terms, records: &[Record], moment: u32, aims: &[u32]) -> (usize, u32, u32) {
    let count = terms.schemas.len();
    let schema = random.index(count);
    let absent = random.pick(&[count, count, count + 1, 255, 256, 256 + schema, 65_536 + schema]);
    let asked = if aims.contains(&15) { absent } else { schema };
    let subject = terms.schemas[schema].subject;
    let subjects: Vec<&Record> = records.iter().filter(|record| record.kind == subject).collect();
    if subjects.is_empty() || random.one_in(12) {
        return (asked, random.below(6), moment);
    }
    let record = subjects[random.index(subjects.len())];
    let kind = &terms.kinds[usize::from(subject)];
    let key = record.values[kind.place(kind.key)];
    if !aims.contains(&16) {
        return (asked, key, moment);
    }
    match random.below(5) {
        0 => (asked, key ^ (1 << random.pick(&[8, 16, 24, 31])), moment),
        1 => (asked, key, record.stamp + 1),
        2 => (asked, key, record.stamp.saturating_sub(1)),
        _ => (asked, key, record.stamp),
    }
}

/// Two moments, the first mostly not after the stamp of any event that an append can take.
fn lasting(random: &mut Random, records: &[Record], events: &[Vec<u8>], moment: u32) -> (u32, u32) {
    let stamps = events
        .iter()
        .filter_map(|event| Some(u32::from_le_bytes(event.get(1..5)?.try_into().ok()?)));
    let soonest = stamps.filter(|&stamp| stamp <= HIGHEST).min().unwrap_or(u32::MAX);
    let some = some_stamp(random, records);
    let first = random.pick(&[
        soonest,
        soonest,
        soonest,
        soonest,
        some,
        some + 1,
        moment,
        latest(records),
    ]);
    let later = random.pick(&[
        first,
        first.saturating_add(1),
        first.saturating_add(20),
        moment.max(first),
        u32::MAX,
    ]);
    (first, later)
}

fn page(random: &mut Random, aims: &[u32]) -> Page {
    if aims.contains(&10) {
        return random.pick(&[
            Page::Rows(-1),
            Page::Rows(-1),
            Page::Rows(-18),
            Page::Bytes(0),
            Page::Rows(0),
        ]);
    }
    if random.one_in(20) {
        return Page::Bytes(ROOMY);
    }
    let some = random.index(100);
    random.pick(&[
        Page::Rows(0),
        Page::Rows(0),
        Page::Rows(1),
        Page::Rows(7),
        Page::Rows(18),
        Page::Bytes(some),
    ])
}

fn fork(random: &mut Random, terms: &Terms, records: &[Record]) -> Fork {
    let stamp = some_stamp(random, records);
    let moment = random.pick(&[stamp, stamp + 1, stamp + 1, stamp / 2]);
    let mut buffer = log::bytes(&log::fork(random, terms, records, moment));
    buffer.truncate(LOG_LIMIT);
    let used = buffer.len();
    let room = random.index(9);
    buffer.extend(random.bytes(room));
    Fork { moment, buffer, used }
}
