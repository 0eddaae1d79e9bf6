//! Reading terms, and refusals 1 to 5.

pub const MOST_TERMS_BYTES: usize = 16_384;
const MOST_KINDS: usize = 32;
const MOST_SCHEMAS: usize = 16;
const MOST_ITEMS: usize = 31;
const HIGHEST_OFFSET: u32 = 2_147_483_647;

/// Norm types; 2 and 4, authorization and power, are always treated alike and need no name.
pub const COMMITMENT: u8 = 1;
pub const PROHIBITION: u8 = 3;

/// Forms of an event: a kind, or one of the five stages.
pub const KIND: u8 = 0;
pub const CREATED: u8 = 1;
pub const DETACHED: u8 = 2;
pub const EXPIRED: u8 = 3;
pub const DISCHARGED: u8 = 4;
pub const VIOLATED: u8 = 5;

/// Signs of a bound.
pub const PLAIN: u8 = 0;
pub const PLUS: u8 = 1;
pub const MINUS: u8 = 2;
pub const OPEN: u8 = 3;

pub struct Terms {
    pub kinds: Vec<Kind>,
    pub schemas: Vec<Schema>,
}

pub struct Kind {
    number: u8,
    pub mask: u16,
    pub key: u8,
}

pub struct Schema {
    pub norm: u8,
    pub subject: u8,
    pub privileged: u8,
    pub liable: u8,
    /// Create, detach, consequent.
    pub clauses: [Expr<Leaf>; 3],
}

/// An expression over leaves of any type, so that leaves can be exchanged for what is known about them.
pub enum Expr<L> {
    Always,
    Leaf(L),
    And(Box<[Expr<L>; 2]>),
    Or(Box<[Expr<L>; 2]>),
    Except(Box<[Expr<L>; 2]>),
}

pub struct Leaf {
    /// A kind, where the leaf counts.
    pub event: Event,
    pub lower: Bound,
    pub upper: Bound,
    /// Where the leaf counts, more records than this have to lie in its window.
    pub threshold: Option<u32>,
}

#[derive(Clone, Copy)]
pub struct Event {
    pub form: u8,
    pub number: u8,
}

pub struct Bound {
    pub sign: u8,
    pub event: Event,
    pub offset: u32,
}

impl Terms {
    /// The terms, or the lowest refusal that holds.
    pub fn read(bytes: &[u8]) -> Result<Terms, u32> {
        if bytes.len() > MOST_TERMS_BYTES {
            return Err(1);
        }
        let terms = read_items(bytes).ok_or(2u32)?;
        if terms.out_of_range() {
            Err(3)
        } else if terms.cites_too_high() {
            Err(4)
        } else if terms.shares_nothing() {
            Err(5)
        } else {
            Ok(terms)
        }
    }

    /// The kind whose records bring the event about: for a stage, the subject kind of its schema.
    pub fn kind_of(&self, event: Event) -> u8 {
        match event.form {
            KIND => event.number,
            _ => self.schemas[usize::from(event.number)].subject,
        }
    }

    /// Refusal 3; an empty mask carries no key, so it needs no question of its own.
    fn out_of_range(&self) -> bool {
        let mut kinds = self.kinds.iter().enumerate();
        kinds.any(|(place, kind)| usize::from(kind.number) != place || !kind.carries(kind.key))
            || self.schemas.iter().any(|schema| self.schema_out_of_range(schema))
    }

    fn schema_out_of_range(&self, schema: &Schema) -> bool {
        let parties = [schema.privileged, schema.liable];
        let subject = self.kinds.get(usize::from(schema.subject));
        !(1..=4).contains(&schema.norm)
            || !subject.is_some_and(|kind| parties.iter().all(|&party| kind.carries(party)))
            || schema.leaves().any(|(_, leaf)| self.leaf_out_of_range(leaf))
    }

    /// Any threshold is in range.
    fn leaf_out_of_range(&self, leaf: &Leaf) -> bool {
        leaf.lower.sign == OPEN
            || leaf.threshold.is_some() && leaf.upper.sign == OPEN
            || self.event_out_of_range(leaf.event)
            || self.bound_out_of_range(&leaf.lower)
            || self.bound_out_of_range(&leaf.upper)
    }

    /// A schema that isn't there is left to refusal 4.
    fn event_out_of_range(&self, event: Event) -> bool {
        event.form > VIOLATED || event.form == KIND && usize::from(event.number) >= self.kinds.len()
    }

    fn bound_out_of_range(&self, bound: &Bound) -> bool {
        let names_event = bound.event.form != 0 || bound.event.number != 0;
        match bound.sign {
            PLAIN => names_event || bound.offset > HIGHEST_OFFSET,
            PLUS | MINUS => self.event_out_of_range(bound.event) || bound.offset > HIGHEST_OFFSET,
            OPEN => names_event || bound.offset != 0,
            _ => true,
        }
    }

    /// Refusal 4.
    fn cites_too_high(&self) -> bool {
        self.schemas.iter().enumerate().any(|(number, schema)| {
            let too_high =
                |(clause, event): (usize, Event)| event.rank().is_some_and(|rank| rank >= 3 * number + clause);
            schema.events().any(too_high)
        })
    }

    /// Refusal 5; asked once ranges and ranks are in order, so every number leads somewhere.
    fn shares_nothing(&self) -> bool {
        let mask = |kind: u8| self.kinds[usize::from(kind)].mask;
        self.schemas.iter().any(|schema| {
            let apart = |(_, event): (usize, Event)| mask(self.kind_of(event)) & mask(schema.subject) == 0;
            schema.events().any(apart)
        })
    }
}

impl Kind {
    pub fn carries(&self, attribute: u8) -> bool {
        attribute < 16 && self.mask >> attribute & 1 == 1
    }
}

impl Schema {
    /// Every leaf, with the place of its clause.
    pub fn leaves(&self) -> impl Iterator<Item = (usize, &Leaf)> {
        let clauses = self.clauses.iter().enumerate();
        clauses.flat_map(|(place, clause)| clause.leaves().into_iter().map(move |leaf| (place, leaf)))
    }

    /// Every event of a leaf or bound, with the place of its clause.
    fn events(&self) -> impl Iterator<Item = (usize, Event)> + '_ {
        self.leaves().flat_map(|(place, leaf)| {
            let events = [Some(leaf.event), leaf.lower.cited(), leaf.upper.cited()];
            events.into_iter().flatten().map(move |event| (place, event))
        })
    }
}

impl<L> Expr<L> {
    pub fn leaves(&self) -> Vec<&L> {
        match self {
            Expr::Always => Vec::new(),
            Expr::Leaf(leaf) => vec![leaf],
            Expr::And(parts) | Expr::Or(parts) | Expr::Except(parts) => parts.iter().flat_map(Expr::leaves).collect(),
        }
    }

    /// The same expression with each leaf exchanged.
    pub fn map<M>(&self, exchange: &impl Fn(&L) -> M) -> Expr<M> {
        let both = |parts: &[Expr<L>; 2]| Box::new([parts[0].map(exchange), parts[1].map(exchange)]);
        match self {
            Expr::Always => Expr::Always,
            Expr::Leaf(leaf) => Expr::Leaf(exchange(leaf)),
            Expr::And(parts) => Expr::And(both(parts)),
            Expr::Or(parts) => Expr::Or(both(parts)),
            Expr::Except(parts) => Expr::Except(both(parts)),
        }
    }
}

impl Event {
    /// The rank of a stage; a kind has none.
    fn rank(self) -> Option<usize> {
        (self.form != KIND).then(|| 3 * usize::from(self.number) + usize::from(clause_of(self.form)))
    }
}

impl Bound {
    /// The event the bound is counted from, if any.
    fn cited(&self) -> Option<Event> {
        matches!(self.sign, PLUS | MINUS).then_some(self.event)
    }
}

/// The place of the clause that settles a stage: 0 for created, 1 for detached and expired, 2 for the other two.
pub fn clause_of(stage: u8) -> u8 {
    stage / 2
}

/// Takes the first N bytes off, if there are that many.
pub fn take<const N: usize>(rest: &mut &[u8]) -> Option<[u8; N]> {
    let (first, others) = rest.split_first_chunk()?;
    *rest = others;
    Some(*first)
}

pub fn take_number(rest: &mut &[u8]) -> Option<u32> {
    take(rest).map(u32::from_le_bytes)
}

/// The terms by their grammar alone, whatever the fields hold; none where the grammar is broken.
fn read_items(mut rest: &[u8]) -> Option<Terms> {
    let (mut kinds, mut schemas) = (Vec::new(), Vec::new());
    while rest.first() == Some(&0x01) {
        kinds.push(read_kind(&mut rest)?);
    }
    while !rest.is_empty() {
        schemas.push(read_schema(&mut rest)?);
    }
    let counts_fit = (1..=MOST_KINDS).contains(&kinds.len()) && (1..=MOST_SCHEMAS).contains(&schemas.len());
    counts_fit.then_some(Terms { kinds, schemas })
}

fn read_kind(rest: &mut &[u8]) -> Option<Kind> {
    let [0x01, number, low, high, key] = take(rest)? else {
        return None;
    };
    Some(Kind {
        number,
        mask: u16::from_le_bytes([low, high]),
        key,
    })
}

fn read_schema(rest: &mut &[u8]) -> Option<Schema> {
    let [0x02, norm, subject, privileged, liable] = take(rest)? else {
        return None;
    };
    let clauses = [read_clause(rest)?, read_clause(rest)?, read_clause(rest)?];
    Some(Schema {
        norm,
        subject,
        privileged,
        liable,
        clauses,
    })
}

fn read_clause(rest: &mut &[u8]) -> Option<Expr<Leaf>> {
    let mut left = MOST_ITEMS;
    read_expr(rest, &mut left)
}

/// Every item read uses up one of the items left, so the depth is bounded too.
fn read_expr(rest: &mut &[u8], left: &mut usize) -> Option<Expr<Leaf>> {
    *left = left.checked_sub(1)?;
    let [item] = take(rest)?;
    match item {
        0x03 => Some(Expr::Leaf(read_leaf(rest)?)),
        0x04 => Some(Expr::And(read_pair(rest, left)?)),
        0x05 => Some(Expr::Or(read_pair(rest, left)?)),
        0x06 => Some(Expr::Except(read_pair(rest, left)?)),
        0x07 => Some(Expr::Always),
        0x08 => Some(Expr::Leaf(read_count(rest)?)),
        _ => None,
    }
}

fn read_pair(rest: &mut &[u8], left: &mut usize) -> Option<Box<[Expr<Leaf>; 2]>> {
    Some(Box::new([read_expr(rest, left)?, read_expr(rest, left)?]))
}

fn read_leaf(rest: &mut &[u8]) -> Option<Leaf> {
    Some(Leaf {
        event: read_event(rest)?,
        lower: read_bound(rest)?,
        upper: read_bound(rest)?,
        threshold: None,
    })
}

fn read_count(rest: &mut &[u8]) -> Option<Leaf> {
    let [number] = take(rest)?;
    let threshold = take_number(rest)?;
    Some(Leaf {
        event: Event { form: KIND, number },
        lower: read_bound(rest)?,
        upper: read_bound(rest)?,
        threshold: Some(threshold),
    })
}

fn read_event(rest: &mut &[u8]) -> Option<Event> {
    let [form, number] = take(rest)?;
    Some(Event { form, number })
}

fn read_bound(rest: &mut &[u8]) -> Option<Bound> {
    let [sign] = take(rest)?;
    Some(Bound {
        sign,
        event: read_event(rest)?,
        offset: take_number(rest)?,
    })
}
