//! Compares the engine with the second implementation on cases drawn from a seed, and holds it to demand 3.
//! Arguments: the listing program, the number of cases, the first case's seed. A case alone: 1 and its seed.

mod engine;
mod generate;
mod rows;
#[allow(unused)] // a program uses a part of it
mod second;
mod tally;

use engine::{Answer, Engine, Log};
use generate::{Case, Page, Random, Terms};
use rows::{hex, strike, ROW};
use std::cell::Cell;
use std::io::Write;
use std::process::{Command, ExitCode, Stdio};
use std::sync::atomic::{AtomicU32, Ordering};
use std::time::Instant;
use tally::{Tally, APPEND, CALLS, CHECK_LOG, CHECK_TERMS, LISTING, REPORT, STANDING};

/// From so many cases on, each refusal, both halves of demand 3, each kind of listing and both outcomes of a count have
/// to come up, the latter after its window too, a third of the terms have to have a count, each sort of early failure and
/// of leaves spared one has to come up, and an early event that recurs, a third of the logs have to be unsorted and some
/// accepted events stamped below the last record.
const ENOUGH: u64 = 20_000;
/// How many differences are printed whole.
const SHOWN: u32 = 5;
static SHOWN_SO_FAR: AtomicU32 = AtomicU32::new(0);

thread_local! {
    static CURRENT: Cell<u64> = const { Cell::new(0) };
}

extern "C" {
    fn signal(number: i32, handler: extern "C" fn(i32)) -> usize;
}

/// The engine read or wrote past the end of lent memory, and there is no way back into it.
extern "C" fn fault(_: i32) {
    eprintln!("case {}: the engine touched memory past an end", CURRENT.get());
    std::process::exit(1);
}

const BUS_ERROR: i32 = 7;
const SEGMENTATION_FAULT: i32 = 11;

fn main() -> ExitCode {
    let arguments: Vec<String> = std::env::args().collect();
    let [_, listing, cases, seed] = &arguments[..] else {
        eprintln!("compare LISTING CASES SEED");
        return ExitCode::from(2);
    };
    let (Ok(cases), Ok(seed)) = (cases.parse::<u64>(), seed.parse::<u64>()) else {
        eprintln!("the number of cases and the seed are numbers");
        return ExitCode::from(2);
    };
    for number in [BUS_ERROR, SEGMENTATION_FAULT] {
        // SAFETY: the handler ends the program.
        unsafe { signal(number, fault) };
    }
    let start = Instant::now();
    let tally = run(listing, cases, seed);
    let missed = if cases < ENOUGH { Vec::new() } else { tally.missed() };
    for what in &missed {
        println!("never came up: {what}");
    }
    let unexpected = tally::unexpected(&tally.numbers);
    for what in &unexpected {
        println!("{what}");
    }
    println!("{:.0} s\n{tally}", start.elapsed().as_secs_f64());
    let failed = tally.different > 0 || !missed.is_empty() || !unexpected.is_empty();
    ExitCode::from(u8::from(failed))
}

/// Shares the cases among as many threads as there are cores.
fn run(listing: &str, cases: u64, seed: u64) -> Tally {
    let threads = std::thread::available_parallelism().map_or(1, |count| count.get() as u64);
    let mut whole = Tally::default();
    std::thread::scope(|scope| {
        let workers: Vec<_> = (0..threads)
            .map(|first| {
                scope.spawn(move || {
                    let mut worker = Worker {
                        engine: Engine::new(),
                        listing,
                        tally: Tally::default(),
                        seed,
                    };
                    for number in (first..cases).step_by(threads as usize) {
                        worker.case(seed.wrapping_add(number));
                    }
                    worker.tally
                })
            })
            .collect();
        for worker in workers {
            whole.merge(&worker.join().expect("a thread ended early"));
        }
    });
    whole
}

struct Worker<'a> {
    engine: Engine,
    listing: &'a str,
    tally: Tally,
    seed: u64,
}

impl Worker<'_> {
    fn case(&mut self, seed: u64) {
        self.seed = seed;
        CURRENT.set(seed);
        let mut random = Random::new(seed);
        let case = generate::any(&mut random);
        self.tally.cases += 1;
        self.tally.drawn.add(&case);
        self.checks(&case);
        self.reports(&mut random, &case);
        self.standing(&case);
        self.lasts(&case);
        self.alike(&case);
        self.list(&generate::input(&case));
        if random.one_in(3) {
            self.list(&generate::damaged_input(&mut random, &case));
        }
    }

    fn checks(&mut self, case: &Case) {
        let log = log_of(case);
        let ours = self.engine.check_terms(log.terms);
        self.hold(CHECK_TERMS, log, &[], 0, &ours, &check(second::check_terms(log.terms)));
        let ours = self.engine.check_log(log);
        self.hold(
            CHECK_LOG,
            log,
            &[],
            0,
            &ours,
            &check(second::check_log(log.terms, log.buffer, log.used)),
        );
    }

    /// Reports on pages that just hold the rows, that lack a byte, that are longer, that hold all rows there could be, and
    /// on the case's own.
    fn reports(&mut self, random: &mut Random, case: &Case) {
        let log = log_of(case);
        let rows = count(log, case.moment);
        self.tally.drawn.order.add_log(case, rows);
        let more = random.between(1, 40) as isize;
        for page in [Page::Rows(0), Page::Rows(-1), Page::Rows(more), roomy(log), case.page] {
            let page = random.bytes(page.length(rows));
            let plain = second::plain_report(log.terms, log.buffer, log.used, case.moment, &page);
            let theirs = self.report(log, case.moment, &page);
            self.same("plain report", log, theirs == Answer::from(plain));
        }
    }

    /// A report by both; the second one's answer.
    fn report(&mut self, log: Log, moment: u32, page: &[u8]) -> Answer {
        let ours = self.engine.report(log, moment, page);
        let theirs = Answer::from(second::report(log.terms, log.buffer, log.used, moment, page));
        self.hold(REPORT, log, page, moment, &ours, &theirs);
        theirs
    }

    /// The engine's rows on a page that just holds them, if it accepts.
    fn rows(&mut self, log: Log, moment: u32) -> Option<Vec<u8>> {
        let page = vec![0xA5; ROW * count(log, moment)];
        let ours = self.engine.report(log, moment, &page);
        let theirs = second::report(log.terms, log.buffer, log.used, moment, &page);
        self.hold(REPORT, log, &page, moment, &ours, &theirs.into());
        (ours.number == 0).then_some(ours.memory)
    }

    /// The second one's standing of a key has the times of its rows in the engine's report; the library has no call 5.
    fn standing(&mut self, case: &Case) {
        let log = log_of(case);
        let (number, entries) = second::standing(log.terms, log.buffer, log.used, case.schema, case.key, case.moment);
        self.tally.numbers[STANDING][number as usize] += 1;
        let Some(rows) = self.rows(log, case.moment) else {
            return self.same("standing", log, matches!(number, 1..=7 | 9) && entries == [None; 5]);
        };
        let mut expected = [None; 5];
        let key = case.key.to_le_bytes();
        let own = |row: &&[u8]| usize::from(row[1]) == case.schema && row[2..6] == key;
        for row in rows.chunks(ROW).filter(own) {
            expected[usize::from(row[0]) - 1] = Some(rows::time(row));
        }
        self.same(
            "standing",
            log,
            entries == expected && Some(number) == standing_number(case),
        );
    }

    /// The list of appends, on buffer and used length as they go on.
    fn appends(&mut self, case: &Case) -> Appended {
        let mut appended = Appended {
            buffer: case.buffer.clone(),
            used: case.used,
            earliest: u32::MAX,
            below_last: false,
        };
        for event in &case.events {
            let log = appended.log(case);
            let ours = self.engine.append(log, event);
            let theirs = second::append(log.terms, log.buffer, log.used, event);
            self.hold(APPEND, log, event, 0, &ours, &theirs.into());
            if ours.number == 0 {
                let stamp = u32::from_le_bytes([event[1], event[2], event[3], event[4]]);
                let order = &mut self.tally.drawn.order;
                let below = order.add_append(log.terms, &log.buffer[..log.used], stamp);
                appended.below_last |= below;
                appended.earliest = appended.earliest.min(stamp);
                appended.used = ours.value as usize;
            }
            appended.buffer = ours.memory;
        }
        appended
    }

    /// Demand 3, first half: a report, the appends, a later report without the rows that came after. That one is compared
    /// also where an event was stamped before the first report, which may then not last.
    fn lasts(&mut self, case: &Case) {
        let (first, later) = case.lasting;
        let given = self.rows(log_of(case), first);
        let appended = self.appends(case);
        let log = appended.log(case);
        let (Some(given), Some(after)) = (given, self.rows(log, later)) else {
            return;
        };
        if appended.earliest < first {
            self.tally.lasting.left_out += 1;
            return;
        }
        self.tally.lasting.add(given.len() / ROW);
        self.tally.lasting_below += u64::from(appended.below_last);
        self.same("demand 3, first half", log, strike(&after, first) == given);
    }

    /// Demand 3, second half: two logs with the same records before a moment have the same report at it.
    fn alike(&mut self, case: &Case) {
        let (one, moment) = (log_of(case), case.fork.moment);
        let other = Log {
            terms: &case.terms,
            buffer: &case.fork.buffer,
            used: case.fork.used,
        };
        let (Some(rows), Some(others)) = (self.rows(one, moment), self.rows(other, moment)) else {
            return;
        };
        let same = one.buffer[..one.used] == other.buffer[..other.used];
        if !same && before(one, moment) == before(other, moment) {
            self.tally.alike.add(rows.len() / ROW);
            self.same("demand 3, second half", other, rows == others);
        } else {
            self.tally.alike.left_out += 1;
        }
    }

    fn list(&mut self, input: &[u8]) {
        let output = listed(self.listing, input);
        self.tally.listing(&output);
        self.tally.comparisons += 1;
        let theirs = second::listing(input);
        if output != theirs {
            let texts = [output, theirs].map(|text| String::from_utf8_lossy(&text).into_owned());
            self.differ(
                CALLS[LISTING],
                &format!("{}second:\n{}input {}", texts[0], texts[1], hex(input)),
            );
        }
    }

    /// Counts a call that both answered, and tells where they differ.
    fn hold(&mut self, call: usize, log: Log, lent: &[u8], moment: u32, ours: &Answer, theirs: &Answer) {
        self.tally.comparisons += 1;
        self.tally.numbers[call][ours.number.min(16) as usize] += 1;
        self.tally.rows += if call == REPORT { u64::from(ours.value) } else { 0 };
        if ours != theirs {
            let answers = format!("engine: {}\nsecond: {}", shown(ours), shown(theirs));
            self.differ(
                CALLS[call],
                &format!("{answers}\nmoment {moment}, {}, lent {}", lent_log(log), hex(lent)),
            );
        }
    }

    fn same(&mut self, what: &str, log: Log, holds: bool) {
        self.tally.comparisons += 1;
        if !holds {
            self.differ(what, &lent_log(log));
        }
    }

    fn differ(&mut self, what: &str, text: &str) {
        self.tally.different += 1;
        if SHOWN_SO_FAR.fetch_add(1, Ordering::Relaxed) < SHOWN {
            println!("case {}: {what} differs\n{text}", self.seed);
        }
    }
}

/// The lent log after a list of appends, and what the accepted ones were stamped.
struct Appended {
    buffer: Vec<u8>,
    used: usize,
    earliest: u32,
    /// Whether one was stamped below the last record then.
    below_last: bool,
}

impl Appended {
    fn log<'a>(&'a self, case: &'a Case) -> Log<'a> {
        Log {
            terms: &case.terms,
            buffer: &self.buffer,
            used: self.used,
        }
    }
}

fn log_of(case: &Case) -> Log<'_> {
    Log {
        terms: &case.terms,
        buffer: &case.buffer,
        used: case.used,
    }
}

fn check(number: u32) -> Answer {
    Answer {
        number,
        value: 0,
        memory: Vec::new(),
        strayed: false,
    }
}

fn shown(answer: &Answer) -> String {
    let strayed = if answer.strayed {
        ", and other memory changed"
    } else {
        ""
    };
    format!("{} {} {}{strayed}", answer.number, answer.value, hex(&answer.memory))
}

fn lent_log(log: Log) -> String {
    format!(
        "terms {}, buffer {}, used {}",
        hex(log.terms),
        hex(log.buffer),
        log.used
    )
}

/// How many rows the second implementation finds: on a page that mostly does, else on one for all that can be.
fn count(log: Log, moment: u32) -> usize {
    let find = |rows: usize| second::report(log.terms, log.buffer, log.used, moment, &vec![0; ROW * rows]);
    let some = find(400);
    let all = if some.number == 10 {
        find(5 * 16 * (generate::LOG_LIMIT / 9))
    } else {
        some
    };
    all.value as usize
}

/// A page for five rows of each record under each schema.
fn roomy(log: Log) -> Page {
    let used = log.buffer.get(..log.used).unwrap_or_default();
    let most = Terms::read(log.terms).map_or(0, |terms| 5 * terms.schemas.len() * generate::walk(&terms, used).len());
    Page::Bytes(ROW * most)
}

/// The bytes of an accepted log's records that are stamped before a moment, wherever they stand.
fn before(log: Log, moment: u32) -> Vec<u8> {
    let records = Terms::read(log.terms).map_or(Vec::new(), |terms| generate::walk(&terms, &log.buffer[..log.used]));
    let mut bytes = Vec::new();
    let mut start = 0;
    for (_, stamp, end) in records {
        if stamp < moment {
            bytes.extend(&log.buffer[start..end]);
        }
        start = end;
    }
    bytes
}

/// Whether a standing is accepted or refused 15 or 16, where terms and log are accepted.
fn standing_number(case: &Case) -> Option<u32> {
    let terms = Terms::read(&case.terms)?;
    let Some(schema) = terms.schemas.get(case.schema) else {
        return Some(15);
    };
    let kind = &terms.kinds[usize::from(schema.subject)];
    let mut start = 0;
    for (number, stamp, end) in generate::walk(&terms, &case.buffer[..case.used]) {
        let key = start + 5 + 4 * kind.place(kind.key);
        if number == schema.subject && stamp < case.moment && case.buffer[key..key + 4] == case.key.to_le_bytes() {
            return Some(0);
        }
        start = end;
    }
    Some(16)
}

/// Runs the listing program. It may end before it has read everything, so a failed write is no fault.
fn listed(program: &str, input: &[u8]) -> Vec<u8> {
    let mut command = Command::new(program);
    let mut child = command
        .stdin(Stdio::piped())
        .stdout(Stdio::piped())
        .spawn()
        .expect("the listing program starts");
    let _ = child.stdin.take().expect("a pipe").write_all(input);
    let output = child.wait_with_output().expect("the listing program ends");
    if output.status.success() {
        output.stdout
    } else {
        format!("ended with {}\n", output.status).into_bytes()
    }
}
