//! The benchmark's logs and terms: shares that are written to, revoked and written to again, under terms of several sizes.

pub const LOG_LIMIT: usize = 32_768;
/// Bytes of the four records of a share.
pub const SHARE: usize = 56;
/// Bytes of a record of Written.
pub const WRITE: usize = 13;

pub const SHARED: u8 = 0;
pub const REVOKED: u8 = 1;
pub const WRITTEN: u8 = 2;

/// Stamp, kind and values.
pub type Record = (u32, u8, Vec<u32>);

/// The records of so many shares, each written to, revoked and written to again.
pub fn shares(count: usize) -> Vec<Record> {
    let mut records = Vec::new();
    for share in 0..count as u32 {
        let start = 3 * share;
        let revoked = start + 30 + 5 * share % 17;
        records.push((start, SHARED, vec![share % 40, share % 7, share, share % 90]));
        records.push((start + 10 + 7 * share % 13, WRITTEN, vec![share, 2 * share]));
        records.push((revoked, REVOKED, vec![share]));
        records.push((revoked + 15 + 11 * share % 120, WRITTEN, vec![share, 2 * share + 1]));
    }
    records.sort();
    records
}

/// The latest of all stamps, wherever it stands.
pub fn latest(records: &[Record]) -> u32 {
    records.iter().map(|record| record.0).max().unwrap_or(0)
}

/// How far apart in a log the records stand that arrive one after the other: a prime, so that each arrives once.
const STRIDE: usize = 997;

/// The same records, none of them where it was: one here, the next far from it.
pub fn scattered(records: &[Record]) -> Vec<Record> {
    let places = (1..=records.len()).map(|turn| turn * STRIDE % records.len());
    places.map(|place| records[place].clone()).collect()
}

pub fn bytes(records: &[Record]) -> Vec<u8> {
    let mut log = Vec::new();
    for (stamp, kind, values) in records {
        log.push(*kind);
        log.extend(stamp.to_le_bytes());
        log.extend(values.iter().flat_map(|value| value.to_le_bytes()));
    }
    log
}

/// Another write to the first share, at the latest stamp, under a key.
pub fn one_more(records: &[Record], key: u32) -> Record {
    (latest(records), WRITTEN, vec![0, key])
}

/// A key that no write to so many shares has.
pub fn new_key(records: &[Record]) -> u32 {
    records.len() as u32
}

/// The keys of all writes, the oldest first.
pub fn keys(records: &[Record]) -> Vec<u32> {
    let writes = records.iter().filter(|record| record.1 == WRITTEN);
    writes.map(|record| record.2[1]).collect()
}

const CHAINS: u32 = 4096;
const MODULUS: u32 = 4093;

/// The engine's chain of a word (`index::hash_of`): 0 is the stamp, which has the label 0, and after it come the values, each its own label.
fn chain(kind: u8, word: usize, label: u32) -> u32 {
    (label % MODULUS * 31 + u32::from(kind) * 7 + word as u32) % CHAINS
}

/// The same records with values that share a hash, for each kind and attribute.
pub fn one_hash(records: &[Record]) -> Vec<Record> {
    moved(records, |_, _| 0)
}

/// The same records with values that stand in as few chains as possible. Shares have to agree between the kinds, so all of them get the
/// remainder that puts a write's into the chain of all writes; every other value gets the one that puts itself there.
pub fn few_chains(records: &[Record]) -> Vec<Record> {
    moved(records, |kind, place| match (kind, place) {
        (SHARED, 2) | (REVOKED, 0) => joining(WRITTEN, 1),
        _ => joining(kind, place + 1),
    })
}

/// The label that puts a word into the chain of all writes.
fn joining(kind: u8, word: usize) -> u32 {
    (0..MODULUS)
        .find(|&label| chain(kind, word, label) == chain(WRITTEN, 0, 0))
        .expect("every chain has labels for most words")
}

/// The same records with other values, different where they were, each with this remainder, by kind and place.
fn moved(records: &[Record], remainder: fn(u8, usize) -> u32) -> Vec<Record> {
    let values = |kind: u8, values: &[u32]| {
        let values = values.iter().enumerate();
        values
            .map(|(place, value)| MODULUS * value + remainder(kind, place))
            .collect()
    };
    let records = records.iter();
    records
        .map(|(stamp, kind, old)| (*stamp, *kind, values(*kind, old)))
        .collect()
}

/// How many words each chain has that has any, the longest first.
pub fn chains(records: &[Record]) -> Vec<usize> {
    let mut lengths = vec![0; CHAINS as usize];
    for (_, kind, values) in records {
        lengths[chain(*kind, 0, 0) as usize] += 1;
        for (place, &value) in values.iter().enumerate() {
            lengths[chain(*kind, place + 1, value) as usize] += 1;
        }
    }
    lengths.retain(|&length| length > 0);
    lengths.sort_by(|a, b| b.cmp(a));
    lengths
}

const CREATED: u8 = 1;
const DETACHED: u8 = 2;
const VIOLATED: u8 = 5;
const AND: u8 = 4;
const OR: u8 = 5;
const EXCEPT: u8 = 6;
const ALWAYS: [u8; 1] = [7];
const ZERO: [u8; 7] = [0; 7];
const OPEN: [u8; 7] = [3, 0, 0, 0, 0, 0, 0];

fn plus(event: [u8; 2], offset: u8) -> [u8; 7] {
    [1, event[0], event[1], offset, 0, 0, 0]
}

fn minus(event: [u8; 2], offset: u8) -> [u8; 7] {
    [2, event[0], event[1], offset, 0, 0, 0]
}

fn leaf(event: [u8; 2], lower: [u8; 7], upper: [u8; 7]) -> Vec<u8> {
    [&[3][..], &event, &lower, &upper].concat()
}

/// More than so many records of a kind.
fn count(kind: u8, threshold: u32, lower: [u8; 7], upper: [u8; 7]) -> Vec<u8> {
    [&[8, kind][..], &threshold.to_le_bytes(), &lower, &upper].concat()
}

fn declared() -> Vec<u8> {
    [
        [1, SHARED, 0x0F, 0, 2],
        [1, REVOKED, 0x04, 0, 2],
        [1, WRITTEN, 0x14, 0, 4],
    ]
    .concat()
}

/// Schema 0: no writing for 100 minutes from a revocation on.
pub fn sample() -> Vec<u8> {
    prohibiting(leaf([0, WRITTEN], plus([0, REVOKED], 0), plus([0, REVOKED], 100)))
}

/// The same, but only for a second write, those before the revocation counted too.
pub fn counting() -> Vec<u8> {
    prohibiting(count(WRITTEN, 1, ZERO, plus([0, REVOKED], 100)))
}

/// A prohibition of this once a share is revoked.
fn prohibiting(consequent: Vec<u8>) -> Vec<u8> {
    let revoked = leaf([0, REVOKED], ZERO, OPEN);
    [&declared()[..], &[2, 3, SHARED, 1, 3], &ALWAYS, &revoked, &consequent].concat()
}

/// Schema 1, for revocations: what follows once schema 0 is violated.
pub fn citing() -> Vec<u8> {
    let violated = [VIOLATED, 0];
    let create = leaf(violated, ZERO, OPEN);
    let detach = leaf([0, WRITTEN], minus(violated, 20), plus(violated, 20));
    let consequent = leaf([0, WRITTEN], plus(violated, 1), plus([DETACHED, 0], 200));
    [&sample()[..], &[2, 1, REVOKED, 2, 2], &create, &detach, &consequent].concat()
}

/// Schema 2, for shares again: what follows once schema 1 is detached.
pub fn chained() -> Vec<u8> {
    let create = leaf([CREATED, 1], ZERO, OPEN);
    let detach = leaf([DETACHED, 1], plus([CREATED, 1], 0), OPEN);
    let consequent = leaf([0, WRITTEN], minus([DETACHED, 1], 30), plus([VIOLATED, 1], 30));
    [&citing()[..], &[2, 2, SHARED, 3, 1], &create, &detach, &consequent].concat()
}

const SCHEMAS: u8 = 16;
const LEAVES: u8 = 16;
/// Subjects of all these schemas in a share: six are for shares, five for revocations, five for writes, of which there are two.
pub const LEAVES_SUBJECTS: usize = 6 + 5 + 2 * 5;

/// As many schemas as there may be, of every norm type and for all three kinds, each clause with as many leaves as there may be.
pub fn leaves() -> Vec<u8> {
    let mut terms = declared();
    for schema in 0..SCHEMAS {
        terms.extend([2, 1 + schema % 4, schema % 3, 2, 2]);
        for clause in 0..3 {
            terms.extend(joined(schema + clause, LEAVES));
        }
    }
    terms
}

/// So many leaves from this one on, joined in halves: sixteen by or, eight by except, fewer by and.
fn joined(first: u8, count: u8) -> Vec<u8> {
    if count == 1 {
        return varied(first);
    }
    let half = count / 2;
    let by = match count {
        16 => OR,
        8 => EXCEPT,
        _ => AND,
    };
    [vec![by], joined(first, half), joined(first + half, half)].concat()
}

/// One of many leaves: its kinds, signs and offsets come from its number.
fn varied(number: u8) -> Vec<u8> {
    let kind = |step: u8| [0, (number + step) % 3];
    let lower = match number / 3 % 3 {
        0 => ZERO,
        1 => plus(kind(1), number),
        _ => minus(kind(2), 2 * number),
    };
    let upper = match number / 2 % 3 {
        0 => OPEN,
        1 => plus(kind(2), 3 * number),
        _ => plus(kind(0), 60),
    };
    leaf(kind(0), lower, upper)
}
