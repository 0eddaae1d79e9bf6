//! Faults in terms and logs, for each refusal in several ways; about one in six stops just short of the fault.

use super::log::Record;
use super::random::Random;
use super::terms::{attributes, rank, tree, Bound, Event, Item, Kind, Leaf, Schema, Terms, HIGHEST, OPEN};

/// Refusals 3 to 5: faults that leave the grammar whole.
pub fn terms(random: &mut Random, terms: &mut Terms, aim: u32) {
    match aim {
        3 => field(random, terms),
        4 => citation(random, terms),
        5 => nothing_shared(random, terms),
        _ => {}
    }
}

fn field(random: &mut Random, terms: &mut Terms) {
    let schema = random.index(terms.schemas.len());
    match random.below(8) {
        0 | 1 => {
            let kind = random.index(terms.kinds.len());
            kind_field(random, &mut terms.kinds[kind]);
        }
        2 => head_field(random, terms, schema),
        _ => {
            let kinds = terms.kinds.len() as u8;
            match pick_leaf(random, terms) {
                Some((_, leaf)) if leaf.threshold.is_some() && random.one_in(2) => count_field(random, leaf, kinds),
                Some((_, leaf)) => leaf_field(random, leaf, kinds),
                None => head_field(random, terms, schema),
            }
        }
    }
}

/// One of the leaves; now and then it has to be a count, if there is one.
fn pick_leaf<'a>(random: &mut Random, terms: &'a mut Terms) -> Option<(usize, &'a mut Leaf)> {
    let only_counts = random.one_in(3) && !terms.counts().is_empty();
    let mut leaves = terms.leaves_mut();
    leaves.retain(|(_, leaf)| !only_counts || leaf.threshold.is_some());
    if leaves.is_empty() {
        None
    } else {
        Some(leaves.swap_remove(random.index(leaves.len())))
    }
}

fn kind_field(random: &mut Random, kind: &mut Kind) {
    match random.below(4) {
        0 => kind.number = random.pick(&[kind.number.wrapping_add(1), kind.number.wrapping_sub(1), 255]),
        1 => kind.mask = 0,
        _ => kind.key = not_carried(random, kind.mask),
    }
}

fn not_carried(random: &mut Random, mask: u16) -> u8 {
    let mut choices = attributes(!mask);
    choices.extend([16, 17, 31, 32, 33, 48, 64, 128, 255]);
    random.pick(&choices)
}

fn head_field(random: &mut Random, terms: &mut Terms, number: usize) {
    let undeclared = random.pick(&[terms.kinds.len() as u8, 32, 255]);
    let mask = terms.mask(terms.schemas[number].subject);
    let schema = &mut terms.schemas[number];
    match random.below(4) {
        0 => schema.norm = random.pick(&[0, 5, 6, 255]),
        1 => schema.subject = undeclared,
        2 => schema.privileged = not_carried(random, mask),
        _ => schema.liable = not_carried(random, mask),
    }
}

/// What only a count can have wrong, or has in another place than a leaf: an open end, its kind.
fn count_field(random: &mut Random, count: &mut Leaf, kinds: u8) {
    match random.below(4) {
        0 => count.lower = OPEN,
        1 => count.event.number = random.pick(&[kinds, kinds + 1, 255]),
        _ => count.upper = OPEN,
    }
}

fn leaf_field(random: &mut Random, leaf: &mut Leaf, kinds: u8) {
    let wrong = match random.below(3) {
        0 => Event {
            form: 0,
            number: random.pick(&[kinds, kinds + 1, 255]),
        },
        1 => Event {
            form: random.pick(&[6, 7, 255]),
            number: 0,
        },
        _ => return bound_field(random, leaf),
    };
    place_event(random, leaf, wrong);
}

/// Puts an event in the leaf itself or in one of its bounds; a count itself has room for a kind only.
fn place_event(random: &mut Random, leaf: &mut Leaf, event: Event) {
    let bound = match random.below(3) {
        0 if event.form == 0 || leaf.threshold.is_none() => {
            leaf.event = event;
            return;
        }
        1 => &mut leaf.lower,
        _ => &mut leaf.upper,
    };
    if bound.sign == 0 || bound.sign == 3 {
        bound.sign = random.pick(&[1, 2]);
    }
    bound.event = event;
}

fn bound_field(random: &mut Random, leaf: &mut Leaf) {
    let lower = random.one_in(2);
    let bound = if lower { &mut leaf.lower } else { &mut leaf.upper };
    match random.below(8) {
        0 => bound.sign = random.pick(&[4, 5, 128, 255]),
        1 if lower => *bound = OPEN,
        1..=3 => {
            bound.sign = if bound.sign == 3 { 0 } else { bound.sign };
            bound.offset = random.pick(&[HIGHEST + 1, HIGHEST + 1, HIGHEST + 1, u32::MAX, HIGHEST]);
        }
        4 => {
            let form = random.between(1, 6) as u8;
            (bound.sign, bound.event) = (0, Event { form, number: 0 });
        }
        5 => (bound.sign, bound.event) = (0, Event { form: 0, number: 1 }),
        _ => {
            leaf.upper.sign = 3;
            leaf.upper.event = Event {
                form: random.pick(&[0, 1]),
                number: random.pick(&[0, 1]),
            };
            leaf.upper.offset = random.pick(&[0, 1, 256, 1 << 24, 1 << 31]);
        }
    }
}

/// Cites a stage of the clause's own rank, of a higher one or of a schema that is not there; or of the rank just below.
fn citation(random: &mut Random, terms: &mut Terms) {
    let schemas = terms.schemas.len();
    let Some((own, leaf)) = pick_leaf(random, terms) else {
        return;
    };
    let all = (0..schemas as u8).flat_map(|number| (1..=5).map(move |form| Event { form, number }));
    let wanted: Vec<Event> = match random.below(6) {
        0 if own > 0 => all.filter(|&stage| rank(stage) == own - 1).collect(),
        1 | 2 => all.filter(|&stage| rank(stage) == own).collect(),
        3 => {
            let absent = random.pick(&[schemas as u8, 16, 85, 86, 128, 255]);
            vec![Event {
                form: random.between(1, 5) as u8,
                number: absent,
            }]
        }
        _ => all.filter(|&stage| rank(stage) >= own).collect(),
    };
    let stage = random.pick(&wanted);
    place_event(random, leaf, stage);
}

/// Refers to a kind that has no attribute of the subject's, or just one; by the kind or by a stage.
fn nothing_shared(random: &mut Random, terms: &mut Terms) {
    let cited = random.index(terms.schemas.len());
    let subject = terms.schemas[cited].subject;
    let mut mask = !terms.mask(subject) & random.word() as u16;
    if random.one_in(6) {
        mask |= 1 << random.pick(&attributes(terms.mask(subject)));
    }
    let number = terms.kinds.len() as u8;
    if mask == 0 || number == 32 {
        return;
    }
    let key = random.pick(&attributes(mask));
    terms.kinds.push(Kind { number, mask, key });
    if random.one_in(2) && terms.schemas.len() < 16 {
        return terms.schemas.push(citing_schema(random, number, key, cited as u8));
    }
    let leaves = terms.leaves_mut().into_iter().filter(|(rank, _)| rank / 3 == cited);
    let mut leaves: Vec<&mut Leaf> = leaves.map(|(_, leaf)| leaf).collect();
    if !leaves.is_empty() {
        let place = random.index(leaves.len());
        place_event(random, leaves[place], Event { form: 0, number });
    }
}

fn citing_schema(random: &mut Random, subject: u8, party: u8, cited: u8) -> Schema {
    let zero = Bound { sign: 0, ..OPEN };
    let threshold = random.one_in(2).then_some(0);
    let mut leaf = Leaf {
        event: Event {
            form: 0,
            number: subject,
        },
        lower: zero,
        upper: if threshold.is_some() { zero } else { OPEN },
        threshold,
    };
    let stage = Event {
        form: random.between(1, 5) as u8,
        number: cited,
    };
    place_event(random, &mut leaf, stage);
    let mut clauses = [vec![Item::Always], vec![Item::Always], vec![Item::Always]];
    clauses[random.index(3)] = vec![Item::Leaf(leaf)];
    Schema {
        norm: random.between(1, 4) as u8,
        subject,
        privileged: party,
        liable: party,
        clauses,
    }
}

/// Refusal 2: the bytes of terms whose items are out of order, too many or too few.
pub fn grammar(random: &mut Random, terms: &Terms) -> Vec<u8> {
    match random.below(4) {
        0 => numbers(random, terms.clone()).bytes(),
        1 => ends(random, terms.bytes()),
        _ => items(random, terms).concat(),
    }
}

/// One too many kinds, schemas or items of an expression, or as many as there may be.
fn numbers(random: &mut Random, mut terms: Terms) -> Terms {
    let over = u8::from(random.percent(75));
    match random.below(5) {
        0 => {
            let first = terms.kinds[0].clone();
            terms
                .kinds
                .extend((terms.kinds.len() as u8..32 + over).map(|number| Kind {
                    number,
                    ..first.clone()
                }));
        }
        1 => terms.schemas.resize(16 + usize::from(over), terms.schemas[0].clone()),
        2 => {
            let schema = random.index(terms.schemas.len());
            let clause = &mut terms.schemas[schema].clauses[random.index(3)];
            let operand = *clause.last().expect("an expression has an item");
            clause.clear();
            tree(random, 16 + u32::from(over), clause, &mut |random| {
                random.pick(&[Item::Always, operand])
            });
            if random.one_in(3) {
                clause.pop();
            }
        }
        3 => terms.kinds.clear(),
        _ => terms.schemas.clear(),
    }
    terms
}

fn ends(random: &mut Random, mut bytes: Vec<u8>) -> Vec<u8> {
    match random.below(5) {
        0 => bytes.truncate(random.index(bytes.len())),
        1 => bytes.truncate(bytes.len() - 1),
        2 => bytes.push(random.pick(&[0, 1, 2, 3, 4, 7, 8, 9, 255])),
        3 => bytes.extend([1, 0, 1, 0, 0]),
        _ => bytes.clear(),
    }
    bytes
}

/// Bytes that no item begins with.
const UNKNOWN: [u8; 5] = [0, 9, 10, 16, 255];

fn items(random: &mut Random, terms: &Terms) -> Vec<Vec<u8>> {
    let mut items = terms.items();
    let place = random.index(items.len());
    let other = items[random.index(items.len())].clone();
    match random.below(7) {
        0 => items.insert(place, vec![random.pick(&UNKNOWN)]),
        1 => items[place][0] = random.pick(&UNKNOWN),
        2 => drop(items.remove(place)),
        3 => items.insert(place, other),
        4 => items[place] = other,
        5 => body(random, &mut items),
        _ => {
            let kinds = terms.kinds.len();
            let at = kinds + random.index(items.len() - kinds + 1);
            items.insert(at, items[kinds - 1].clone());
        }
    }
    items
}

/// Makes a leaf a byte shorter or longer, or gives it the byte of the other sort of leaf.
fn body(random: &mut Random, items: &mut [Vec<u8>]) {
    let leaves = items.iter_mut().filter(|item| matches!(item[0], 3 | 8));
    let mut leaves: Vec<&mut Vec<u8>> = leaves.collect();
    if leaves.is_empty() {
        return;
    }
    let place = random.index(leaves.len());
    let leaf = &mut leaves[place];
    match random.below(4) {
        0 | 1 => drop(leaf.pop()),
        2 => leaf.push(0),
        _ => leaf[0] = if leaf[0] == 3 { 8 } else { 3 },
    }
}

/// Refusals 7 and 9: faults of records.
pub fn records(random: &mut Random, terms: &Terms, records: &mut Vec<Record>, aim: u32) {
    if records.is_empty() {
        return;
    }
    let place = random.index(records.len());
    match aim {
        7 if random.one_in(2) => records[place].kind = random.pick(&[terms.kinds.len() as u8, 32, 128, 255]),
        7 => {
            let last = records.len() - 1;
            records[random.pick(&[place, last])].stamp = random.pick(&[HIGHEST + 1, u32::MAX, HIGHEST]);
        }
        9 => repeated(random, terms, records, place),
        _ => {}
    }
}

/// Gives a record the key of another one of its kind, or nearly.
fn repeated(random: &mut Random, terms: &Terms, records: &mut Vec<Record>, place: usize) {
    let first = records[place].clone();
    let kind = &terms.kinds[usize::from(first.kind)];
    let key = kind.place(kind.key);
    let alike: Vec<usize> = (0..records.len())
        .filter(|&other| other != place && records[other].kind == first.kind)
        .collect();
    let near = if random.one_in(6) {
        1 << random.pick(&[7, 8, 16, 24, 31])
    } else {
        0
    };
    if alike.is_empty() {
        let mut again = first;
        again.values[key] ^= near;
        records.insert(place + 1, again);
    } else {
        records[random.pick(&alike)].values[key] = first.values[key] ^ near;
    }
}

/// Refusal 7 in a log's bytes: an end that is no whole record.
pub fn cut(random: &mut Random, log: &mut Vec<u8>) {
    match random.below(3) {
        0 if !log.is_empty() => log.truncate(random.index(log.len())),
        1 if !log.is_empty() => log.truncate(log.len() - 1),
        _ => log.extend(vec![0; random.pick(&[1, 4, 5, 8])]),
    }
}

/// Flips, cuts, insertions, or nothing but random bytes.
pub fn noise(random: &mut Random, bytes: &mut Vec<u8>) {
    if random.one_in(12) || bytes.is_empty() {
        let length = random.index(60);
        *bytes = random.bytes(length);
        return;
    }
    for _ in 0..random.pick(&[1, 1, 1, 2, 5]) {
        let place = random.index(bytes.len());
        match random.below(6) {
            0 => bytes.insert(place, random.word() as u8),
            1 if bytes.len() > 1 => drop(bytes.remove(place)),
            2 => bytes[place] = random.pick(&[0, 1, 2, 3, 255]),
            _ => bytes[place] ^= 1 << random.below(8),
        }
    }
}
