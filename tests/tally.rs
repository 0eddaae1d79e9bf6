//! Counts of what was compared.

use crate::generate::{walk, Case, Terms};
use crate::second::{self, End, Start, MINUS, PLAIN, PLUS};
use std::cmp::Ordering::{Equal, Greater};
use std::fmt;

/// What is counted apart: the calls, and the listing program.
pub const CALLS: [&str; 6] = ["check terms", "check log", "append", "report", "standing", "listing"];
pub const CHECK_TERMS: usize = 0;
pub const CHECK_LOG: usize = 1;
pub const APPEND: usize = 2;
pub const REPORT: usize = 3;
pub const STANDING: usize = 4;
pub const LISTING: usize = 5;

/// How often one half of demand 3 was tried, could not be, and on how many rows.
#[derive(Default)]
pub struct Half {
    pub tried: u64,
    pub left_out: u64,
    pub with_rows: u64,
    pub rows: u64,
}

impl Half {
    pub fn add(&mut self, rows: usize) {
        self.tried += 1;
        self.with_rows += u64::from(rows > 0);
        self.rows += rows as u64;
    }

    fn merge(&mut self, other: &Half) {
        self.tried += other.tried;
        self.left_out += other.left_out;
        self.with_rows += other.with_rows;
        self.rows += other.rows;
    }
}

/// How many cases' terms have an item 08, and what came of these counts before the cases' moments.
#[derive(Default)]
pub struct Counts {
    terms: u64,
    with_count: u64,
    /// How many occurred and how many failed; of each, those that were settled after their windows had ended.
    settled: [u64; 2],
    waited: [u64; 2],
}

impl Counts {
    pub fn add(&mut self, case: &Case) {
        let terms = Terms::read(&case.terms);
        self.terms += 1;
        self.with_count += u64::from(terms.is_some_and(|terms| !terms.counts().is_empty()));
        for settled in second::settled_counts(&case.terms, &case.buffer, case.used, case.moment) {
            let outcome = usize::from(!settled.passed);
            self.settled[outcome] += 1;
            self.waited[outcome] += u64::from(settled.waited);
        }
    }

    fn merge(&mut self, other: &Counts) {
        self.terms += other.terms;
        self.with_count += other.with_count;
        for outcome in 0..2 {
            self.settled[outcome] += other.settled[outcome];
            self.waited[outcome] += other.waited[outcome];
        }
    }

    /// What ought to have come up and did not.
    pub fn missed(&self) -> Vec<String> {
        let needed = [
            (3 * self.with_count >= self.terms, "an item 08 in a third of the terms"),
            (self.settled[0] > 0, "a count that occurred"),
            (self.settled[1] > 0, "a count that failed"),
            (self.waited[0] > 0, "a count that occurred after its window"),
            (self.waited[1] > 0, "a count that failed after its window"),
        ];
        let missed = needed.iter().filter(|(met, _)| !met);
        missed.map(|(_, what)| what.to_string()).collect()
    }
}

impl fmt::Display for Counts {
    fn fmt(&self, out: &mut fmt::Formatter) -> fmt::Result {
        let Counts { terms, with_count, .. } = self;
        let [occurred, failed] = self.settled;
        let [late, later] = self.waited;
        write!(
            out,
            "item 08: in {with_count} of {terms} terms; {occurred} counts occurred, {late} of them after their windows; \
             {failed} failed, {later} of them after"
        )
    }
}

/// A sort of leaves, and whether a leaf is of it.
type Sort = (&'static str, fn(&Start) -> bool);

/// Sorts of leaves that failed early.
const EARLY: [Sort; 13] = [
    ("with a closed upper bound", |leaf| leaf.end == End::Closed),
    ("with an open upper bound", |leaf| leaf.end == End::Open),
    ("with an unknown upper bound", |leaf| leaf.end == End::Unknown),
    ("with a plain lower bound", |leaf| leaf.sign == PLAIN),
    ("with event plus as lower bound", |leaf| leaf.sign == PLUS),
    ("with event minus as lower bound", |leaf| leaf.sign == MINUS),
    ("with a lower bound past the last minute", |leaf| leaf.past_last()),
    ("when the lower bound became known", |leaf| leaf.waited()),
    ("on a cited stage", |leaf| leaf.stage),
    ("on another kind's stage", |leaf| leaf.stage && !leaf.own_kind),
    ("on the subject's kind", |leaf| !leaf.stage && leaf.own_kind),
    ("on another kind with the subject's key attribute", |leaf| {
        !leaf.own_kind && leaf.own_key
    }),
    ("on another kind with another key attribute", |leaf| !leaf.own_key),
];

/// Sorts of leaves that did not fail early, although their event comes once and has come.
const SPARED: [Sort; 5] = [
    ("since the leaf had failed at its end before", |leaf| leaf.had_failed()),
    ("since the leaf failed at its end at that minute", |leaf| {
        leaf.fails_at_both()
    }),
    ("since the event came at the lower bound", |leaf| {
        leaf.side() == Some(Equal)
    }),
    ("since the event came after the lower bound", |leaf| {
        leaf.side() == Some(Greater)
    }),
    ("since the lower bound was unknown", |leaf| leaf.side().is_none()),
];

/// How many leaves failed early before the cases' moments, how many with such an event did not, and how many would have
/// if their event did not recur.
#[derive(Default)]
pub struct Early {
    all: u64,
    early: [u64; EARLY.len()],
    spared: [u64; SPARED.len()],
    recurring: u64,
}

impl Early {
    pub fn add(&mut self, case: &Case) {
        for leaf in second::starts(&case.terms, &case.buffer, case.used, case.moment) {
            match (leaf.once, leaf.early()) {
                (true, true) => {
                    self.all += 1;
                    count(&mut self.early, &EARLY, &leaf);
                }
                (true, false) => count(&mut self.spared, &SPARED, &leaf),
                (false, early) => self.recurring += u64::from(early),
            }
        }
    }

    fn merge(&mut self, other: &Early) {
        self.all += other.all;
        self.recurring += other.recurring;
        let own = self.early.iter_mut().chain(&mut self.spared);
        for (count, more) in own.zip(other.early.iter().chain(&other.spared)) {
            *count += more;
        }
    }

    /// What ought to have come up and did not.
    pub fn missed(&self) -> Vec<String> {
        let named = |what: &str, counts: &[u64], sorts: &[Sort]| -> Vec<String> {
            let none = counts.iter().zip(sorts).filter(|(&count, _)| count == 0);
            none.map(|(_, (sort, _))| format!("{what} {sort}")).collect()
        };
        let mut missed = named("an early failure", &self.early, &EARLY);
        missed.extend(named("no early failure", &self.spared, &SPARED));
        if self.recurring == 0 {
            missed.push("an event that came early and recurs".to_string());
        }
        missed
    }
}

/// Counts a leaf under each sort that it is of.
fn count(counts: &mut [u64], sorts: &[Sort], leaf: &Start) {
    for (count, (_, holds)) in counts.iter_mut().zip(sorts) {
        *count += u64::from(holds(leaf));
    }
}

/// How many leaves were of each sort.
fn listed(counts: &[u64], sorts: &[Sort]) -> String {
    let lines = counts.iter().zip(sorts);
    let lines: Vec<String> = lines.map(|(count, (sort, _))| format!("{count} {sort}")).collect();
    lines.join(", ")
}

impl fmt::Display for Early {
    fn fmt(&self, out: &mut fmt::Formatter) -> fmt::Result {
        let Early { all, recurring, .. } = self;
        writeln!(out, "early failures of leaves: {all}; {}", listed(&self.early, &EARLY))?;
        write!(
            out,
            "no early failure: {}; {recurring} since the event recurs, although it came early",
            listed(&self.spared, &SPARED)
        )
    }
}

/// How many accepted logs are unsorted, their stamps falling somewhere, and what was tried on late uploads.
#[derive(Default)]
pub struct Order {
    logs: u64,
    unsorted: u64,
    /// The unsorted logs whose report has rows.
    with_rows: u64,
    appends: u64,
    /// The accepted appends stamped below the log's last record.
    below_last: u64,
}

impl Order {
    /// Counts a case's log, by the rows of its report, if it is accepted.
    pub fn add_log(&mut self, case: &Case, rows: usize) {
        if second::check_log(&case.terms, &case.buffer, case.used) != 0 {
            return;
        }
        let stamps = stamps(&case.terms, &case.buffer[..case.used]);
        let falls = stamps.windows(2).any(|pair| pair[1] < pair[0]);
        self.logs += 1;
        self.unsorted += u64::from(falls);
        self.with_rows += u64::from(falls && rows > 0);
    }

    /// Counts an accepted append; whether its stamp is below the last one of the log.
    pub fn add_append(&mut self, terms: &[u8], log: &[u8], stamp: u32) -> bool {
        let below = stamps(terms, log).last().is_some_and(|&last| stamp < last);
        self.appends += 1;
        self.below_last += u64::from(below);
        below
    }

    fn merge(&mut self, other: &Order) {
        self.logs += other.logs;
        self.unsorted += other.unsorted;
        self.with_rows += other.with_rows;
        self.appends += other.appends;
        self.below_last += other.below_last;
    }

    /// What ought to have come up and did not.
    pub fn missed(&self) -> Vec<String> {
        let needed = [
            (
                3 * self.unsorted >= self.logs,
                "stamps that fall in a third of the accepted logs",
            ),
            (self.with_rows > 0, "a report with rows on an unsorted log"),
            (self.below_last > 0, "an accepted append below the last stamp"),
        ];
        let missed = needed.iter().filter(|(met, _)| !met);
        missed.map(|(_, what)| what.to_string()).collect()
    }
}

/// The stamps of the records in a log's used bytes, in its order.
fn stamps(terms: &[u8], log: &[u8]) -> Vec<u32> {
    let records = Terms::read(terms).map_or(Vec::new(), |terms| walk(&terms, log));
    records.iter().map(|&(_, stamp, _)| stamp).collect()
}

impl fmt::Display for Order {
    fn fmt(&self, out: &mut fmt::Formatter) -> fmt::Result {
        let Order {
            logs,
            unsorted,
            with_rows,
            appends,
            below_last,
        } = self;
        write!(
            out,
            "stamps: {unsorted} of {logs} accepted logs unsorted, {with_rows} of them with rows; \
             {below_last} of {appends} accepted appends below the last stamp"
        )
    }
}

/// What the cases had of counts, of events that come once, and of records out of the order of stamps.
#[derive(Default)]
pub struct Drawn {
    counts: Counts,
    early: Early,
    pub order: Order,
}

impl Drawn {
    /// Counts what a case has of the first two.
    pub fn add(&mut self, case: &Case) {
        self.counts.add(case);
        self.early.add(case);
    }

    fn merge(&mut self, other: &Drawn) {
        self.counts.merge(&other.counts);
        self.early.merge(&other.early);
        self.order.merge(&other.order);
    }

    /// What ought to have come up and did not.
    pub fn missed(&self) -> Vec<String> {
        [self.counts.missed(), self.early.missed(), self.order.missed()].concat()
    }
}

impl fmt::Display for Drawn {
    fn fmt(&self, out: &mut fmt::Formatter) -> fmt::Result {
        write!(out, "{}\n{}\n{}", self.counts, self.early, self.order)
    }
}

#[derive(Default)]
pub struct Tally {
    pub cases: u64,
    pub comparisons: u64,
    pub different: u64,
    pub rows: u64,
    /// By call, how often each of the numbers 0 to 16 was answered.
    pub numbers: [[u64; 17]; 5],
    pub lasting: Half,
    /// How often the first half was tried with an accepted append below the last stamp.
    pub lasting_below: u64,
    pub alike: Half,
    pub drawn: Drawn,
    /// Outputs of the listing program: rows, none, refused, bad input.
    pub listings: [u64; 4],
}

impl Tally {
    pub fn listing(&mut self, output: &[u8]) {
        let sort = match output {
            b"" => 1,
            b"bad input\n" => 3,
            _ if output.starts_with(b"refused") => 2,
            _ => 0,
        };
        self.listings[sort] += 1;
    }

    /// What ought to have come up and did not.
    pub fn missed(&self) -> Vec<String> {
        let mut missed = unanswered(&self.numbers);
        let halves = [&self.lasting, &self.alike].map(|half| half.with_rows);
        if halves.contains(&0) {
            missed.push("a half of demand 3 on a report with rows".to_string());
        }
        if self.lasting.left_out == 0 {
            missed.push("an accepted event stamped before the first report's moment".to_string());
        }
        if self.lasting_below == 0 {
            missed.push("demand 3 with an accepted append below the last stamp".to_string());
        }
        if self.listings.contains(&0) {
            missed.push("a kind of output of the listing program".to_string());
        }
        missed.extend(self.drawn.missed());
        missed
    }

    pub fn merge(&mut self, other: &Tally) {
        self.cases += other.cases;
        self.comparisons += other.comparisons;
        self.different += other.different;
        self.rows += other.rows;
        let own = self.numbers.iter_mut().flatten().chain(&mut self.listings);
        for (count, more) in own.zip(other.numbers.iter().flatten().chain(&other.listings)) {
            *count += more;
        }
        self.lasting.merge(&other.lasting);
        self.lasting_below += other.lasting_below;
        self.alike.merge(&other.alike);
        self.drawn.merge(&other.drawn);
    }
}

/// The numbers that a call can answer; none answers 8 or 12.
fn answers(call: usize) -> Vec<usize> {
    let log = [0, 1, 2, 3, 4, 5, 6, 7, 9];
    let own: &[usize] = match call {
        CHECK_TERMS => return (0..=5).collect(),
        CHECK_LOG => &[],
        APPEND => &[11, 13, 14],
        REPORT => &[10],
        _ => &[15, 16],
    };
    [&log, own].concat()
}

/// The answers that no call gave.
pub fn unanswered(numbers: &[[u64; 17]; 5]) -> Vec<String> {
    let all = (0..5).flat_map(|call| answers(call).into_iter().map(move |number| (call, number)));
    all.filter(|&(call, number)| numbers[call][number] == 0)
        .map(|(call, number)| format!("{} {number}", CALLS[call]))
        .collect()
}

/// A line for each answer that a call gave and never should.
pub fn unexpected(numbers: &[[u64; 17]; 5]) -> Vec<String> {
    let all = (0..5).flat_map(|call| (0..17).map(move |number| (call, number)));
    all.filter(|&(call, number)| numbers[call][number] > 0 && !answers(call).contains(&number))
        .map(|(call, number)| format!("{} {number} came up, which that call never gives", CALLS[call]))
        .collect()
}

/// A line for each call with how often each number was answered.
pub fn spread(numbers: &[[u64; 17]; 5]) -> String {
    let mut lines = String::new();
    for (call, counts) in CALLS.iter().zip(numbers) {
        let answered = counts.iter().enumerate().filter(|(_, &count)| count > 0);
        let answered: Vec<String> = answered.map(|(number, count)| format!("{number}: {count}")).collect();
        lines += &format!(
            "{call}, {} calls: {}\n",
            counts.iter().sum::<u64>(),
            answered.join(", ")
        );
    }
    lines
}

impl fmt::Display for Tally {
    fn fmt(&self, out: &mut fmt::Formatter) -> fmt::Result {
        write!(out, "{}", spread(&self.numbers))?;
        let [rows, none, refused, bad] = self.listings;
        writeln!(
            out,
            "listing: {rows} with rows, {none} without, {refused} refused, {bad} bad input"
        )?;
        writeln!(out, "rows compared: {}", self.rows)?;
        writeln!(out, "{}", self.drawn)?;
        writeln!(
            out,
            "demand 3, first half, with an accepted append below the last stamp: {}",
            self.lasting_below
        )?;
        for (name, half) in [("first", &self.lasting), ("second", &self.alike)] {
            let Half {
                tried,
                left_out,
                with_rows,
                rows,
            } = half;
            writeln!(
                out,
                "demand 3, {name} half: {tried} tried, {with_rows} of them with rows ({rows}), {left_out} left out"
            )?;
        }
        write!(
            out,
            "{} cases, {} comparisons, {} different",
            self.cases, self.comparisons, self.different
        )
    }
}
