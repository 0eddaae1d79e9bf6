//! Times calls by the engine, by the second implementation and by SQLite, and prints ratios as markdown tables.

#[allow(unused)] // a program uses a part of it
mod engine;
mod measure;
#[allow(unused)]
mod rows;
#[allow(unused)]
mod second;
mod shares;
#[cfg(sqlite)]
mod sqlite;

use engine::{Answer, Engine, Log};
use measure::{head, line, measured, Way};
use rows::ROW;
use second::Outcome;
use shares::{bytes, latest, shares, Record, LOG_LIMIT, SHARE, WRITE, WRITTEN};

/// Parts of the longest log.
const ALL: [usize; 4] = [8, 4, 2, 1];
const SHORT: [usize; 3] = [64, 32, 16];
/// The longest log on which plain evaluation of many leaves is timed; twice the log takes it four times as long.
const PLAIN_PART: usize = 8;

/// What the timed calls answer.
const ACCEPTED: u32 = 0;
const KEY_REPEATS: u32 = 9;
const KEY_PRESENT: u32 = 13;

/// What a line of a report and one of a check has first.
const REPORT: &str = "terms, log bytes, records, rows";
const CHECK: &str = "call, log bytes, records";

/// Call 4 of the second implementation, by terms, buffer, used length, moment and page.
type Report = fn(&[u8], &[u8], usize, u32, &[u8]) -> Outcome;
const PLAIN: Report = second::plain_report;
const TABLES: Report = second::report;

/// A page has room for five rows for each of so many subjects in a share, or it just holds the rows.
#[derive(Clone, Copy)]
enum Page {
    Room(usize),
    Exact,
}

/// The sample's schemas have up to three subjects in a share.
const ROOM: Page = Page::Room(3);

fn main() {
    reports();
    checks_and_appends();
    repeated_keys();
    many_leaves();
    orders();
    one_hash();
    database();
}

fn reports() {
    let title = "Reports, by log length.";
    head(title, REPORT, &["plain", "tables"], "growth");
    let (sample, citing, chain) = (shares::sample(), shares::citing(), shares::chained());
    let counting = shares::counting();
    report_lines("sample share", &sample, ROOM, &ALL);
    report_lines("sample share, exact page", &sample, Page::Exact, &ALL);
    report_lines("a count of writes", &counting, ROOM, &ALL);
    report_lines("one cites another", &citing, ROOM, &ALL);
    report_lines("one cites another, exact page", &citing, Page::Exact, &ALL);
    report_lines("chain of three", &chain, ROOM, &ALL);
    report_lines("chain of three, short logs", &chain, ROOM, &SHORT);
    report_lines("chain of three, short logs, exact page", &chain, Page::Exact, &SHORT);
}

/// A line for each part of the longest log.
fn report_lines(name: &str, terms: &[u8], page: Page, parts: &[usize]) {
    let reports = Reports {
        terms,
        page,
        others: &[PLAIN, TABLES],
    };
    lines(parts, 0, |records, before| reports.line(name, records, before));
}

/// Prints a line for each of some parts of the longest log, with room for some bytes more, each compared with the one before.
fn lines(parts: &[usize], room: usize, line: impl Fn(&[Record], &[f64]) -> Vec<f64>) {
    let mut before = Vec::new();
    for part in parts {
        before = line(&shares((LOG_LIMIT / part - room) / SHARE), &before);
    }
}

/// Reports under some terms by the engine and in other ways.
struct Reports<'a> {
    terms: &'a [u8],
    page: Page,
    others: &'a [Report],
}

impl Reports<'_> {
    /// Prints a line and gives its times.
    fn line(&self, name: &str, records: &[Record], before: &[f64]) -> Vec<f64> {
        let log = bytes(records);
        let (log, moment) = (whole(self.terms, &log), late(records));
        let page = blank(self.page, log, moment);
        let mut ways = vec![by_engine(log, moment, &page)];
        let others = self.others.iter();
        ways.extend(others.map(|&other| by_second(other, log, moment, &page)));
        report_line(name, records, ways, before)
    }
}

/// Prints a line for ways of one report and gives their times.
fn report_line(name: &str, records: &[Record], ways: Vec<Way>, before: &[f64]) -> Vec<f64> {
    let (rows, times) = measured(ACCEPTED, ways);
    assert!(rows > 0, "the report has rows");
    let [length, count] = counts(records);
    line(&[name, &length, &count, &rows.to_string()], &times, before);
    times
}

fn by_engine<'a>(log: Log<'a>, moment: u32, page: &'a [u8]) -> Way<'a> {
    let mut engine = Engine::new();
    Box::new(move || engine.report(log, moment, page))
}

fn by_second<'a>(report: Report, log: Log<'a>, moment: u32, page: &'a [u8]) -> Way<'a> {
    Box::new(move || report(log.terms, log.buffer, log.used, moment, page).into())
}

fn whole<'a>(terms: &'a [u8], log: &'a [u8]) -> Log<'a> {
    Log {
        terms,
        buffer: log,
        used: log.len(),
    }
}

/// A moment after everything.
fn late(records: &[Record]) -> u32 {
    latest(records) + 1_000
}

fn blank(page: Page, log: Log, moment: u32) -> Vec<u8> {
    let rows = match page {
        Page::Room(subjects) => 5 * subjects * (log.used / SHARE),
        Page::Exact => TABLES(log.terms, log.buffer, log.used, moment, &blank(ROOM, log, moment)).value as usize,
    };
    vec![0; ROW * rows]
}

/// How many bytes and how many records a log has.
fn counts(records: &[Record]) -> [String; 2] {
    [bytes(records).len(), records.len()].map(|count| count.to_string())
}

/// Calls 2 and 3 on the sample terms.
fn checks_and_appends() {
    let title = "Check log and append under the sample terms, by log length.";
    head(title, CHECK, &["second"], "growth");
    let terms = shares::sample();
    let (check, append) = (accepted("check log", &terms), accepted("append", &terms));
    lines(&ALL, 0, |records, before| check.check_line(records, before));
    lines(&ALL, WRITE, |records, before| {
        append.append_line(records, shares::new_key(records), before)
    });
}

/// Calls 2 and 3 on a full log whose last write, or whose event, has a new key, the newest key before it, or the oldest.
fn repeated_keys() {
    let title = "Check log and append, by the key of a full log's last write or of the event: a new one, \
                 the newest one again, or the oldest.";
    head(title, CHECK, &["second"], "against new");
    let terms = shares::sample();
    let full = shares(LOG_LIMIT / SHARE);
    let (last, older) = full.split_last().expect("a full log has records");
    assert!(last.1 == WRITTEN, "the last record is a write");
    let keys = shares::keys(older);
    let (newest, oldest) = (keys[keys.len() - 1], keys[0]);

    let before = accepted("check log, new key", &terms).check_line(&full, &[]);
    for (name, key) in [("check log, newest key", newest), ("check log, oldest key", oldest)] {
        let again = (last.0, WRITTEN, vec![last.2[0], key]);
        answering(name, KEY_REPEATS, &terms).check_line(&[older, &[again]].concat(), &before);
    }
    let before = accepted("append, new key", &terms).append_line(older, shares::new_key(older), &[]);
    for (name, key) in [("append, newest key", newest), ("append, oldest key", oldest)] {
        answering(name, KEY_PRESENT, &terms).append_line(older, key, &before);
    }
}

/// A call that is timed: what its lines are called, its terms, and what it answers.
struct Call<'a> {
    name: &'a str,
    terms: &'a [u8],
    number: u32,
}

fn accepted<'a>(name: &'a str, terms: &'a [u8]) -> Call<'a> {
    answering(name, ACCEPTED, terms)
}

fn answering<'a>(name: &'a str, number: u32, terms: &'a [u8]) -> Call<'a> {
    Call { name, terms, number }
}

impl Call<'_> {
    /// Prints a line for call 2 and gives its times.
    fn check_line(&self, records: &[Record], before: &[f64]) -> Vec<f64> {
        let log = bytes(records);
        let log = whole(self.terms, &log);
        let mut engine = Engine::new();
        let ways: Vec<Way> = vec![
            Box::new(|| engine.check_log(log)),
            Box::new(|| checked(second::check_log(log.terms, log.buffer, log.used))),
        ];
        self.line(records, ways, before)
    }

    /// Prints a line for call 3, whose event has a key and just fits, and gives its times. Each call finds the buffer as the first one did.
    fn append_line(&self, records: &[Record], key: u32, before: &[f64]) -> Vec<f64> {
        let event = bytes(&[shares::one_more(records, key)]);
        let log = bytes(records);
        let buffer = [&log[..], &[0; WRITE]].concat();
        let log = Log {
            terms: self.terms,
            buffer: &buffer,
            used: log.len(),
        };
        let mut engine = Engine::new();
        let ways: Vec<Way> = vec![
            Box::new(|| engine.append(log, &event)),
            Box::new(|| second::append(log.terms, log.buffer, log.used, &event).into()),
        ];
        self.line(records, ways, before)
    }

    /// Prints a line for ways of the call and gives their times.
    fn line(&self, records: &[Record], ways: Vec<Way>, before: &[f64]) -> Vec<f64> {
        let (_, times) = measured(self.number, ways);
        let [length, count] = counts(records);
        line(&[self.name, &length, &count], &times, before);
        times
    }
}

fn checked(number: u32) -> Answer {
    Answer {
        number,
        value: 0,
        memory: Vec::new(),
        strayed: false,
    }
}

/// Reports under terms with as many leaves as there may be.
fn many_leaves() {
    let terms = shares::leaves();
    let mut reports = Reports {
        terms: &terms,
        page: Page::Room(shares::LEAVES_SUBJECTS),
        others: &[TABLES],
    };
    let name = "16 schemas, 16 leaves a clause";
    let title = "Reports under terms with many leaves, by log length.";
    head(title, REPORT, &["tables"], "growth");
    lines(&ALL, 0, |records, before| reports.line(name, records, before));
    let title =
        "The same by plain evaluation. Longer logs are left out: twice the log takes it about four times as long.";
    head(title, REPORT, &["plain"], "growth");
    reports.others = &[PLAIN];
    lines(&[PLAIN_PART], 0, |records, before| reports.line(name, records, before));
}

/// Calls 4 and 2 on a full log whose records arrive in other orders.
fn orders() {
    let usual = shares(LOG_LIMIT / SHARE);
    let backwards = usual.iter().rev().cloned().collect();
    let scattered = shares::scattered(&usual);
    let logs = [("by stamp", usual), ("backwards", backwards), ("scattered", scattered)];
    let title = "Reports on a full log in other orders of arrival; against the first line.";
    compared(title, "against by stamp", &logs, |name, _| name.to_string());
}

/// Calls 4 and 2 on a full log, and on the same with values that share chains.
fn one_hash() {
    let usual = shares(LOG_LIMIT / SHARE);
    let (one, few) = (shares::one_hash(&usual), shares::few_chains(&usual));
    let logs = [("usual", usual), ("one hash", one), ("few chains", few)];
    let title = "Reports on a full log whose values share chains; against the first line.";
    compared(title, "against usual", &logs, with_chains);
}

/// Calls 4 and 2 under the sample terms on some logs, each against the first.
fn compared(title: &str, against: &str, logs: &[(&str, Vec<Record>)], label: fn(&str, &[Record]) -> String) {
    let terms = shares::sample();
    let reports = Reports {
        terms: &terms,
        page: ROOM,
        others: &[PLAIN, TABLES],
    };
    head(title, REPORT, &["plain", "tables"], against);
    against_first(logs, |name, log, before| reports.line(&label(name, log), log, before));
    head("Check log on the same.", CHECK, &["second"], against);
    against_first(logs, |name, log, before| accepted(name, &terms).check_line(log, before));
}

/// Prints a line for each log, each compared with the first.
fn against_first(logs: &[(&str, Vec<Record>)], line: impl Fn(&str, &[Record], &[f64]) -> Vec<f64>) {
    let mut first = Vec::new();
    for (name, log) in logs {
        let times = line(name, log, &first);
        if first.is_empty() {
            first = times;
        }
    }
}

/// A name, and how many chains the words of a log stand in.
fn with_chains(name: &str, records: &[Record]) -> String {
    let chains = shares::chains(records);
    format!("{name}: {} chains, the longest of {} words", chains.len(), chains[0])
}

#[cfg(not(sqlite))]
fn database() {
    println!("\nSQLite is left out: libsqlite3-dev is not installed.");
}

/// The sample's report by SQLite, its tables filled before the clock starts.
#[cfg(sqlite)]
fn database() {
    let title = format!("Reports by SQLite {} in memory, log loaded.", sqlite::version());
    let others = ["SQLite by stage", "SQLite by subject", "SQLite lookups"];
    head(&title, REPORT, &others, "growth");
    let terms = shares::sample();
    lines(&ALL, 0, |records, before| database_line(&terms, records, before));
}

#[cfg(sqlite)]
fn database_line(terms: &[u8], records: &[Record], before: &[f64]) -> Vec<f64> {
    let log = bytes(records);
    let log = whole(terms, &log);
    let page = blank(ROOM, log, late(records));
    let database = sqlite::Database::new(records);
    let ways = |moment| {
        vec![
            by_engine(log, moment, &page),
            database.rows(sqlite::BY_STAGE, moment, &page),
            database.rows(sqlite::BY_SUBJECT, moment, &page),
            database.lookups(moment, &page),
        ]
    };
    measure::answered(ACCEPTED, &mut ways(middle(records)));
    report_line("sample share", records, ways(late(records)), before)
}

/// The stamp of a share in the middle: a row is timed at it, and has to be left out of the report at that moment.
#[cfg(sqlite)]
fn middle(records: &[Record]) -> u32 {
    let stamps: Vec<u32> = records
        .iter()
        .filter(|record| record.1 == shares::SHARED)
        .map(|record| record.0)
        .collect();
    stamps[stamps.len() / 2]
}
