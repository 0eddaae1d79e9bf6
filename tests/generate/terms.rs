//! Terms as values: written as bytes, read back, and drawn at random so that none of the refusals 1 to 5 holds.

use super::random::Random;
use super::Size;

pub const HIGHEST: u32 = 2_147_483_647;

const EXPIRED: u8 = 3;

#[derive(Clone)]
pub struct Kind {
    pub number: u8,
    pub mask: u16,
    pub key: u8,
}

#[derive(Clone, Copy)]
pub struct Event {
    pub form: u8,
    pub number: u8,
}

#[derive(Clone, Copy)]
pub struct Bound {
    pub sign: u8,
    pub event: Event,
    pub offset: u32,
}

/// An item 03, or with a threshold an item 08, which has no form: its event is a kind.
#[derive(Clone, Copy)]
pub struct Leaf {
    pub event: Event,
    pub lower: Bound,
    pub upper: Bound,
    pub threshold: Option<u32>,
}

#[derive(Clone, Copy)]
pub enum Item {
    Leaf(Leaf),
    Pair(u8),
    Always,
}

#[derive(Clone)]
pub struct Schema {
    pub norm: u8,
    pub subject: u8,
    pub privileged: u8,
    pub liable: u8,
    /// Create, detach and consequent, each in prefix order.
    pub clauses: [Vec<Item>; 3],
}

#[derive(Clone)]
pub struct Terms {
    pub kinds: Vec<Kind>,
    pub schemas: Vec<Schema>,
}

pub const NO_EVENT: Event = Event { form: 0, number: 0 };
pub const OPEN: Bound = Bound {
    sign: 3,
    event: NO_EVENT,
    offset: 0,
};

/// The rank of a stage, by its form and its schema's number.
pub fn rank(stage: Event) -> usize {
    3 * usize::from(stage.number) + usize::from(stage.form / 2)
}

pub fn attributes(mask: u16) -> Vec<u8> {
    (0..16).filter(|&attribute| mask >> attribute & 1 == 1).collect()
}

impl Kind {
    pub fn place(&self, attribute: u8) -> usize {
        (u32::from(self.mask) & ((1 << attribute) - 1)).count_ones() as usize
    }

    pub fn record_length(&self) -> usize {
        5 + 4 * self.mask.count_ones() as usize
    }
}

impl Item {
    fn bytes(&self) -> Vec<u8> {
        match self {
            Item::Pair(byte) => vec![*byte],
            Item::Always => vec![7],
            Item::Leaf(leaf) => leaf.bytes(),
        }
    }
}

impl Leaf {
    fn bytes(&self) -> Vec<u8> {
        let mut bytes = match self.threshold {
            Some(threshold) => [&[8, self.event.number][..], &threshold.to_le_bytes()].concat(),
            None => vec![3, self.event.form, self.event.number],
        };
        for bound in [self.lower, self.upper] {
            bytes.extend([bound.sign, bound.event.form, bound.event.number]);
            bytes.extend(bound.offset.to_le_bytes());
        }
        bytes
    }
}

impl Terms {
    /// The bytes of each item, in file order.
    pub fn items(&self) -> Vec<Vec<u8>> {
        let mut items = Vec::new();
        for kind in &self.kinds {
            let [low, high] = kind.mask.to_le_bytes();
            items.push(vec![1, kind.number, low, high, kind.key]);
        }
        for schema in &self.schemas {
            items.push(vec![2, schema.norm, schema.subject, schema.privileged, schema.liable]);
            items.extend(schema.clauses.iter().flatten().map(Item::bytes));
        }
        items
    }

    pub fn bytes(&self) -> Vec<u8> {
        self.items().concat()
    }

    /// The leaves, counts too, each with its schema's number.
    pub fn leaves(&self) -> Vec<(usize, &Leaf)> {
        let schemas = self.schemas.iter().enumerate();
        let items =
            schemas.flat_map(|(number, schema)| schema.clauses.iter().flatten().map(move |item| (number, item)));
        items
            .filter_map(|(number, item)| match item {
                Item::Leaf(leaf) => Some((number, leaf)),
                _ => None,
            })
            .collect()
    }

    /// The counts, each with its schema's number.
    pub fn counts(&self) -> Vec<(usize, &Leaf)> {
        let mut leaves = self.leaves();
        leaves.retain(|(_, leaf)| leaf.threshold.is_some());
        leaves
    }

    /// The leaves to be changed, counts too, each with the rank of its clause.
    pub fn leaves_mut(&mut self) -> Vec<(usize, &mut Leaf)> {
        let clauses = self.schemas.iter_mut().flat_map(|schema| schema.clauses.iter_mut());
        let items = clauses
            .enumerate()
            .flat_map(|(rank, clause)| clause.iter_mut().map(move |item| (rank, item)));
        items
            .filter_map(|(rank, item)| {
                if let Item::Leaf(leaf) = item {
                    Some((rank, leaf))
                } else {
                    None
                }
            })
            .collect()
    }

    pub fn mask(&self, kind: u8) -> u16 {
        self.kinds.get(usize::from(kind)).map_or(0, |kind| kind.mask)
    }

    /// The kind whose records bring an event about; none where a schema is not there.
    pub fn kind_of(&self, event: Event) -> Option<u8> {
        match event.form {
            0 => Some(event.number),
            _ => self.schemas.get(usize::from(event.number)).map(|schema| schema.subject),
        }
    }

    /// Whether a subject can have several records of a kind, since it doesn't carry their key.
    pub fn recurs(&self, kind: u8, subject: u8) -> bool {
        let key = self.kinds.get(usize::from(kind)).map(|kind| kind.key);
        !attributes(self.mask(subject))
            .into_iter()
            .any(|attribute| Some(attribute) == key)
    }

    /// Whether an event comes once for a subject, if it comes at all.
    pub fn once(&self, event: Event, subject: u8) -> bool {
        self.kind_of(event).is_some_and(|kind| !self.recurs(kind, subject))
    }

    /// Terms from bytes that keep the grammar; the fields may hold anything.
    pub fn read(bytes: &[u8]) -> Option<Terms> {
        let mut reader = Reader { bytes };
        let mut terms = Terms {
            kinds: Vec::new(),
            schemas: Vec::new(),
        };
        while reader.bytes.first() == Some(&1) {
            let body = reader.take(5)?;
            terms.kinds.push(Kind {
                number: body[1],
                mask: u16::from_le_bytes([body[2], body[3]]),
                key: body[4],
            });
        }
        while reader.bytes.first() == Some(&2) {
            let head = reader.take(5)?;
            let clauses = [reader.expression()?, reader.expression()?, reader.expression()?];
            terms.schemas.push(Schema {
                norm: head[1],
                subject: head[2],
                privileged: head[3],
                liable: head[4],
                clauses,
            });
        }
        reader.bytes.is_empty().then_some(terms)
    }
}

struct Reader<'a> {
    bytes: &'a [u8],
}

impl<'a> Reader<'a> {
    fn take(&mut self, length: usize) -> Option<&'a [u8]> {
        let (taken, rest) = self.bytes.split_at_checked(length)?;
        self.bytes = rest;
        Some(taken)
    }

    /// Reads items until no operand is missing.
    fn expression(&mut self) -> Option<Vec<Item>> {
        let mut items = Vec::new();
        let mut missing = 1;
        while missing > 0 {
            items.push(match *self.bytes.first()? {
                3 => Item::Leaf(leaf_of(self.take(17)?)),
                8 => Item::Leaf(count_of(self.take(20)?)),
                byte @ 4..=6 => Item::Pair(self.take(1).map(|_| byte)?),
                7 => self.take(1).map(|_| Item::Always)?,
                _ => return None,
            });
            missing = if let Some(Item::Pair(_)) = items.last() {
                missing + 1
            } else {
                missing - 1
            };
        }
        Some(items)
    }
}

fn leaf_of(item: &[u8]) -> Leaf {
    Leaf {
        event: event_at(item, 1),
        lower: bound_at(item, 3),
        upper: bound_at(item, 10),
        threshold: None,
    }
}

fn count_of(item: &[u8]) -> Leaf {
    let event = Event {
        form: 0,
        number: item[1],
    };
    Leaf {
        event,
        lower: bound_at(item, 6),
        upper: bound_at(item, 13),
        threshold: Some(number_at(item, 2)),
    }
}

fn event_at(item: &[u8], at: usize) -> Event {
    Event {
        form: item[at],
        number: item[at + 1],
    }
}

fn bound_at(item: &[u8], at: usize) -> Bound {
    Bound {
        sign: item[at],
        event: event_at(item, at + 1),
        offset: number_at(item, at + 3),
    }
}

fn number_at(item: &[u8], at: usize) -> u32 {
    u32::from_le_bytes([item[at], item[at + 1], item[at + 2], item[at + 3]])
}

/// Draws terms that are accepted. Late ones are chains of schemas, each reaching as far past the one before as it can.
pub fn rich(random: &mut Random, size: &Size) -> Terms {
    let mut terms = Terms {
        kinds: kinds(random, size),
        schemas: Vec::new(),
    };
    let late = random.one_in(10);
    let count = match random.below(50) {
        _ if late => random.between(3, 4),
        0 if size.large => random.between(5, 16),
        _ => random.between(1, size.schemas),
    };
    for _ in 0..count {
        let schema = schema(random, &terms, size, late);
        terms.schemas.push(schema);
    }
    terms
}

fn kinds(random: &mut Random, size: &Size) -> Vec<Kind> {
    let seldom = size.large && random.one_in(50);
    let count = if seldom {
        random.between(7, 32)
    } else {
        random.pick(&[1, 2, 2, 3, 3, 3, 4, 4, 5, 6]).min(size.kinds)
    };
    let pool: Vec<u8> = (0..random.between(2, 5)).map(|_| random.below(16) as u8).collect();
    (0..count).map(|number| kind(random, number as u8, &pool)).collect()
}

/// Most kinds carry the pool's first attribute and recur, as their key is another one.
pub fn kind(random: &mut Random, number: u8, pool: &[u8]) -> Kind {
    let mut mask = if random.percent(88) { 1 << pool[0] } else { 0 };
    for &attribute in &pool[1..] {
        mask |= u16::from(random.percent(35)) << attribute;
    }
    if random.one_in(60) {
        mask = random.word() as u16;
    }
    if mask == 0 {
        mask = 1 << random.pick(pool);
    }
    let mut keys = attributes(mask);
    if keys.len() > 1 && random.percent(65) {
        keys.retain(|&key| key != pool[0]);
    }
    Kind {
        number,
        mask,
        key: random.pick(&keys),
    }
}

/// What the clause being drawn may refer to.
struct Scope {
    kinds: Vec<u8>,
    /// Those of which a subject can have several records.
    recurring: Vec<u8>,
    stages: Vec<Event>,
    /// The kinds and stages that come once.
    once: Vec<Event>,
    late: bool,
}

fn scope(terms: &Terms, subject: u8, clause: usize, late: bool) -> Scope {
    let shares = |kind: u8| terms.mask(kind) & terms.mask(subject) != 0;
    let own = terms.schemas.len() as u8;
    let cited = |stage: Event| terms.kind_of(stage).unwrap_or(subject);
    let all = (0..=own).flat_map(|number| (1..=5).map(move |form| Event { form, number }));
    let smaller = all.filter(|&stage| rank(stage) < 3 * usize::from(own) + clause);
    let stages: Vec<Event> = smaller.filter(|&stage| shares(cited(stage))).collect();
    let mut kinds: Vec<u8> = (0..terms.kinds.len() as u8).filter(|&kind| shares(kind)).collect();
    if kinds.len() > 1 {
        kinds.extend(kinds.clone().iter().filter(|&&kind| kind != subject));
    }
    let (recurring, single): (Vec<u8>, Vec<u8>) = kinds.iter().partition(|&&kind| terms.recurs(kind, subject));
    let mut once: Vec<Event> = single.into_iter().map(|number| Event { form: 0, number }).collect();
    once.extend(stages.iter().filter(|&&stage| !terms.recurs(cited(stage), subject)));
    Scope {
        kinds,
        recurring,
        stages,
        once,
        late,
    }
}

fn schema(random: &mut Random, terms: &Terms, size: &Size, late: bool) -> Schema {
    let subject = match terms.schemas.last() {
        Some(before) if random.percent(if late { 85 } else { 40 }) => before.subject,
        _ => random.index(terms.kinds.len()) as u8,
    };
    let carried = attributes(terms.mask(subject));
    let clauses = [0, 1, 2].map(|clause| {
        let always = if clause > 0 {
            8
        } else if late {
            90
        } else {
            45
        };
        let scope = scope(terms, subject, clause, late);
        expression(random, &scope, size, always)
    });
    let norm = random.between(1, 4) as u8;
    Schema {
        norm,
        subject,
        privileged: random.pick(&carried),
        liable: random.pick(&carried),
        clauses,
    }
}

fn expression(random: &mut Random, scope: &Scope, size: &Size, always: u32) -> Vec<Item> {
    let operands = match random.below(100) {
        0 if size.large => random.between(9, 16),
        1..=5 if size.large => random.between(4, 8),
        6..=15 => 3,
        16..=35 => 2,
        _ => 1,
    };
    let mut items = Vec::new();
    tree(random, operands, &mut items, &mut |random| {
        let bare = random.percent(if operands == 1 { always } else { 5 });
        if bare {
            Item::Always
        } else {
            Item::Leaf(leaf(random, scope))
        }
    });
    items
}

/// Puts an expression of so many operands in prefix order, shaped at random.
pub fn tree(random: &mut Random, operands: u32, items: &mut Vec<Item>, operand: &mut dyn FnMut(&mut Random) -> Item) {
    if operands == 1 {
        items.push(operand(random));
        return;
    }
    items.push(Item::Pair(random.between(4, 6) as u8));
    let left = random.between(1, operands - 1);
    tree(random, left, items, operand);
    tree(random, operands - left, items, operand);
}

/// One leaf in four counts; more of them where leaves are late, fewer where no kind recurs. Of those that don't count, one
/// in three late ones starts after an expiry, and one in four others is on an event that comes once.
fn leaf(random: &mut Random, scope: &Scope) -> Leaf {
    let late = scope.late && random.percent(75);
    let counts = random.percent(match scope.recurring[..] {
        _ if late => 40,
        [] => 10,
        _ => 25,
    });
    let leaf = match (late, counts) {
        (true, false) if random.one_in(3) => after_expired(random, scope),
        (true, _) => late_leaf(random, scope),
        (false, true) => closed_leaf(random, scope),
        (false, false) if random.one_in(4) => once_leaf(random, scope),
        (false, false) => usual_leaf(random, scope),
    };
    if counts {
        counting(random, scope, leaf)
    } else {
        leaf
    }
}

/// Mostly thresholds that a few records pass. Of some large ones a few records would pass the low byte, or the number
/// without its highest bit, so that reading no more than that shows.
const THRESHOLDS: [u32; 12] = [0, 0, 0, 0, 0, 1, 1, 1, 2, 2, 3, 4];
const LARGE_THRESHOLDS: [u32; 7] = [u32::MAX, u32::MAX, 1 << 8, 1 << 16, 1 << 24, 1 << 31, 257];

/// The leaf with a threshold, its event a kind that mostly recurs.
fn counting(random: &mut Random, scope: &Scope, leaf: Leaf) -> Leaf {
    let kinds = if scope.recurring.is_empty() || random.one_in(8) {
        &scope.kinds
    } else {
        &scope.recurring
    };
    let thresholds = if random.one_in(10) {
        &LARGE_THRESHOLDS[..]
    } else {
        &THRESHOLDS
    };
    Leaf {
        event: Event {
            form: 0,
            number: random.pick(kinds),
        },
        threshold: Some(random.pick(thresholds)),
        ..leaf
    }
}

/// A leaf whose window has an end, often some minutes after its start, or before a bound is known.
fn closed_leaf(random: &mut Random, scope: &Scope) -> Leaf {
    let leaf = usual_leaf(random, scope);
    let (lower, upper) = match random.below(10) {
        0..=2 => (leaf.lower, end_after(random, leaf.lower)),
        3 => ends_before_known(random, scope),
        4 => begins_before_known(random, scope),
        _ if leaf.upper.sign == OPEN.sign => (leaf.lower, end_after(random, leaf.lower)),
        _ => (leaf.lower, leaf.upper),
    };
    Leaf { lower, upper, ..leaf }
}

/// From the start until a few minutes before an event: the window has ended when its end becomes known.
fn ends_before_known(random: &mut Random, scope: &Scope) -> (Bound, Bound) {
    let event = bound(random, scope, 2);
    let offset = random.between(1, 4);
    (Bound { sign: 0, ..OPEN }, Bound { offset, ..event })
}

/// From some minutes before an event until a minute that often is before it too: the window has ended when its start
/// becomes known.
fn begins_before_known(random: &mut Random, scope: &Scope) -> (Bound, Bound) {
    let event = bound(random, scope, 2);
    let [offset, end] = [random.between(5, 20), random.between(2, 12)];
    let upper = Bound {
        sign: 0,
        offset: end,
        ..OPEN
    };
    (Bound { offset, ..event }, upper)
}

/// An upper bound some minutes after a lower one.
fn end_after(random: &mut Random, lower: Bound) -> Bound {
    let before = if lower.sign == 2 { 0 } else { lower.offset };
    Bound {
        sign: lower.sign.min(1),
        event: lower.event,
        offset: (before + random.between(1, 25)).min(HIGHEST),
    }
}

fn usual_leaf(random: &mut Random, scope: &Scope) -> Leaf {
    let lower_sign = random.pick(&[0, 0, 0, 0, 1, 1, 1, 2, 2]);
    let upper_sign = random.pick(&[3, 3, 3, 0, 0, 1, 1, 1, 1, 2, 2]);
    let mut lower = bound(random, scope, lower_sign);
    if lower_sign == 0 && random.one_in(2) {
        lower.offset = 0;
    }
    let upper = bound(random, scope, upper_sign);
    Leaf {
        event: event(random, scope),
        lower,
        upper,
        threshold: None,
    }
}

/// A leaf on an event that comes once, its window from some minutes on and often without an end.
fn once_leaf(random: &mut Random, scope: &Scope) -> Leaf {
    let event = random.pick(&scope.once);
    let sign = random.pick(&[0, 0, 0, 1, 1, 2]);
    let mut lower = bound(random, scope, sign);
    lower.offset = lower.offset.max(random.between(1, 6));
    if sign == 1 && random.one_in(4) {
        lower.event = event;
    }
    let sign = random.pick(&[0, 1, 2]);
    let upper = match random.below(6) {
        0 | 1 => OPEN,
        2 => end_after(random, lower),
        _ => bound(random, scope, sign),
    };
    Leaf {
        event,
        lower,
        upper,
        threshold: None,
    }
}

/// A leaf that mostly fails at its upper bound, as late as offsets reach; chains of them pass the last minute.
fn late_leaf(random: &mut Random, scope: &Scope) -> Leaf {
    let far = HIGHEST - random.pick(&[0, 0, 0, 0, 1, 2]);
    let plain = |offset| Bound {
        sign: 0,
        event: NO_EVENT,
        offset,
    };
    let upper = match last_expired(scope) {
        Some(event) if random.percent(85) => {
            let offset = random.pick(&[far, far, far, 0, 1, 2, 3]);
            Bound { sign: 1, event, offset }
        }
        _ => plain(far),
    };
    let lower = plain(random.pick(&[HIGHEST, HIGHEST, 0]));
    Leaf {
        event: late_event(random, scope),
        lower,
        upper,
        threshold: None,
    }
}

fn last_expired(scope: &Scope) -> Option<Event> {
    scope.stages.iter().rfind(|stage| stage.form == EXPIRED).copied()
}

/// A leaf on the last stage expired, its window from some minutes after that on: often past the last minute, since that
/// stage mostly waits for others. That of schema 0 waits for none.
fn after_expired(random: &mut Random, scope: &Scope) -> Leaf {
    let Some(event) = last_expired(scope).filter(|stage| stage.number > 0) else {
        return late_leaf(random, scope);
    };
    let offset = random.pick(&[1, 2, HIGHEST, HIGHEST]);
    let lower = Bound { sign: 1, event, offset };
    Leaf {
        event,
        lower,
        upper: random.pick(&[OPEN, lower]),
        threshold: None,
    }
}

/// Mostly a kind that recurs: one that comes once would not leave the failure to the upper bound.
fn late_event(random: &mut Random, scope: &Scope) -> Event {
    if scope.recurring.is_empty() || random.one_in(8) {
        return event(random, scope);
    }
    Event {
        form: 0,
        number: random.pick(&scope.recurring),
    }
}

fn event(random: &mut Random, scope: &Scope) -> Event {
    if !scope.stages.is_empty() && random.percent(40) {
        return random.pick(&scope.stages);
    }
    Event {
        form: 0,
        number: random.pick(&scope.kinds),
    }
}

fn bound(random: &mut Random, scope: &Scope, sign: u8) -> Bound {
    let event = if sign == 1 || sign == 2 {
        event(random, scope)
    } else {
        NO_EVENT
    };
    let huge = random.percent(if scope.late { 40 } else { 2 });
    let offset = match sign {
        3 => 0,
        _ if huge => HIGHEST - random.pick(&[0, 0, 0, 1, 2, 7]),
        0 if random.one_in(2) => random.below(45),
        _ => random.below(13),
    };
    Bound { sign, event, offset }
}
