//! Cases at the limits of 16,384 and 32,768 bytes, and the longest terms that are accepted.

use super::log::{self, Record};
use super::random::Random;
use super::terms::{self, Bound, Event, Item, Kind, Leaf, Schema, Terms, OPEN};
use super::{Case, Fork, Page, Size, LOG_LIMIT, SMALL, TERMS_LIMIT};

/// How many large cases there are.
pub const LARGE: u32 = 11;
/// The length of the longest terms that keep the grammar.
const LONGEST: usize = 16_320;

/// Long terms, then long logs, then many rows.
pub fn large(random: &mut Random, which: u32) -> Case {
    match which {
        0 => long_terms(random, &SMALL, TERMS_LIMIT + 1),
        1 => long_terms(random, &SMALL, TERMS_LIMIT + 16),
        2 => long_terms(random, &SMALL, TERMS_LIMIT),
        3 => longest_terms(random),
        4 => long_log(random, LOG_LIMIT - 9, LOG_LIMIT),
        5 => long_log(random, LOG_LIMIT - 8, LOG_LIMIT + 32),
        6 => long_log(random, LOG_LIMIT - 9, LOG_LIMIT + 32),
        7 => long_log(random, LOG_LIMIT, LOG_LIMIT),
        8 => long_log(random, LOG_LIMIT + 1, LOG_LIMIT + 1),
        9 => full_page(random, true),
        _ => full_page(random, false),
    }
}

/// Terms padded to a length; no terms are so long and whole.
fn long_terms(random: &mut Random, size: &Size, length: usize) -> Case {
    let terms = terms::rich(random, size);
    let records = log::rich(random, &terms, size);
    let mut bytes = terms.bytes();
    bytes.resize(length, random.pick(&[0, 7, 255]));
    plain(random, bytes, &records, 0)
}

/// Terms with as much of everything as there may be, and a count wherever one can stand; few records.
fn longest_terms(random: &mut Random) -> Case {
    let kinds = (0..32).map(|number| {
        let (mask, key) = if number == 0 { (3, 1) } else { (5, 2) };
        Kind { number, mask, key }
    });
    let schemas = (0..16).map(|_| Schema {
        norm: random.between(1, 4) as u8,
        subject: 0,
        privileged: 0,
        liable: 1,
        clauses: [0; 3].map(|_| most_counts(random)),
    });
    let terms = Terms {
        kinds: kinds.collect(),
        schemas: schemas.collect(),
    };
    let bytes = terms.bytes();
    assert!(bytes.len() == LONGEST, "{} bytes", bytes.len());
    let records = [(0, 0), (1, 5), (2, 5), (1, 20)].map(|(kind, stamp)| Record {
        kind,
        stamp,
        values: vec![1, stamp + 1],
    });
    plain(random, bytes, &records, 0)
}

/// An expression of as many counts as there may be.
fn most_counts(random: &mut Random) -> Vec<Item> {
    let mut items = Vec::new();
    terms::tree(random, 16, &mut items, &mut |random| {
        let mut plain = |end| Bound {
            sign: 0,
            offset: random.below(end),
            ..OPEN
        };
        Item::Leaf(Leaf {
            lower: plain(8),
            upper: plain(40),
            event: Event {
                form: 0,
                number: random.below(3) as u8,
            },
            threshold: Some(random.below(2)),
        })
    });
    items
}

fn long_log(random: &mut Random, used: usize, buffer: usize) -> Case {
    let terms = fillers();
    let records = filled(random, used);
    let mut case = plain(random, terms.bytes(), &records, buffer - used);
    case.events = vec![Record {
        kind: 0,
        stamp: 70,
        values: vec![random.word()],
    }
    .bytes()];
    case
}

fn plain(random: &mut Random, terms: Vec<u8>, records: &[Record], room: usize) -> Case {
    let log = log::bytes(records);
    let used = log.len();
    let buffer = [log, random.bytes(room)].concat();
    let fork = Fork {
        moment: 50,
        buffer: buffer.clone(),
        used,
    };
    let (moment, page) = (101, Page::Rows(0));
    Case {
        terms,
        buffer,
        used,
        events: vec![vec![]],
        moment,
        lasting: (60, 200),
        page,
        schema: 0,
        key: 1,
        fork,
    }
}

/// Just as many rows as the listing program's page holds, 3,640, or one more: three for each subject of schema 0, and
/// one or two for that of schema 1.
fn full_page(random: &mut Random, fits: bool) -> Case {
    let mut terms = fillers();
    let never = Item::Leaf(Leaf {
        event: Event { form: 0, number: 0 },
        lower: Bound { sign: 0, ..OPEN },
        upper: OPEN,
        threshold: None,
    });
    let detach = if fits { never } else { Item::Always };
    let clauses = [vec![Item::Always], vec![detach], vec![never]];
    terms.schemas.push(Schema {
        subject: 1,
        clauses,
        ..terms.schemas[0].clone()
    });
    let narrow = (1..=1_213).map(|key| Record {
        kind: 0,
        stamp: key / 20,
        values: vec![key],
    });
    let middle = Record {
        kind: 1,
        stamp: 90,
        values: vec![0, 1],
    };
    let records: Vec<Record> = narrow.chain([middle]).collect();
    plain(random, terms.bytes(), &records, 20)
}

/// Kinds whose records have 9, 13 and 69 bytes, and a schema without leaves.
fn fillers() -> Terms {
    let kinds = [(0x0001, 0), (0x0003, 1), (0xFFFF, 15)];
    let kinds = (0..)
        .zip(kinds)
        .map(|(number, (mask, key))| Kind { number, mask, key })
        .collect();
    let clauses = [vec![Item::Always], vec![Item::Always], vec![Item::Always]];
    Terms {
        kinds,
        schemas: vec![Schema {
            norm: 1,
            subject: 0,
            privileged: 0,
            liable: 0,
            clauses,
        }],
    }
}

/// Records of exactly so many bytes, unsorted: mostly long ones, then the short ones that come out even.
fn filled(random: &mut Random, length: usize) -> Vec<Record> {
    let wide = (length - 96) / 69;
    let rest = length - 69 * wide;
    let middle = (0..)
        .find(|count| (rest - 13 * count).is_multiple_of(9))
        .expect("every rest from 96 on is a sum of 9s and 13s");
    let narrow = (rest - 13 * middle) / 9;
    let sizes = [(2, 16, wide), (1, 2, middle), (0, 1, narrow)];
    let kinds = sizes
        .into_iter()
        .flat_map(|(kind, values, count)| (0..count as u32).map(move |n| (kind, values, n)));
    kinds
        .map(|(kind, values, number)| {
            let mut values: Vec<u32> = (1..values).map(|_| random.below(3)).collect();
            values.push(number + 1);
            Record {
                kind,
                stamp: random.below(80),
                values,
            }
        })
        .collect()
}
