//! The report of the sample terms by SQLite in memory: a table for each kind, and the rows by a prepared statement.

use crate::engine::Answer;
use crate::measure::Way;
use crate::rows::ROW;
use crate::shares::{Record, REVOKED, SHARED};
use std::ffi::{c_char, c_int, c_void, CStr, CString};
use std::marker::PhantomData;
use std::ptr::{null, null_mut};

#[link(name = "sqlite3")]
extern "C" {
    fn sqlite3_libversion() -> *const c_char;
    fn sqlite3_open(file: *const c_char, connection: *mut *mut c_void) -> c_int;
    fn sqlite3_close(connection: *mut c_void) -> c_int;
    fn sqlite3_exec(
        connection: *mut c_void,
        text: *const c_char,
        each_row: *const c_void,
        argument: *mut c_void,
        message: *mut *mut c_char,
    ) -> c_int;
    fn sqlite3_prepare_v2(
        connection: *mut c_void,
        text: *const c_char,
        length: c_int,
        statement: *mut *mut c_void,
        rest: *mut *const c_char,
    ) -> c_int;
    fn sqlite3_bind_int64(statement: *mut c_void, place: c_int, value: i64) -> c_int;
    fn sqlite3_step(statement: *mut c_void) -> c_int;
    fn sqlite3_column_int64(statement: *mut c_void, place: c_int) -> i64;
    fn sqlite3_reset(statement: *mut c_void) -> c_int;
    fn sqlite3_finalize(statement: *mut c_void) -> c_int;
}

const OK: c_int = 0;
const A_LINE: c_int = 100;
const DONE: c_int = 101;

/// Shares stand in the order of the log; a revocation is found by its share, a share's writes in the order of their stamps.
const TABLES: &str = "
    CREATE TABLE Shared (place INTEGER PRIMARY KEY, stamp INTEGER,
        library INTEGER, owner INTEGER, share INTEGER, player INTEGER);
    CREATE TABLE Revoked (stamp INTEGER, share INTEGER PRIMARY KEY);
    CREATE TABLE Written (stamp INTEGER, share INTEGER, write INTEGER PRIMARY KEY);
    CREATE INDEX ByShare ON Written (share, stamp);
    CREATE TABLE Stage (stage INTEGER PRIMARY KEY);
    INSERT INTO Stage VALUES (1), (2), (4), (5);
    BEGIN";

/// The rows by a query for each stage: created with the share; detached by the revocation; discharged 100 minutes
/// after it if nothing was written, violated by the first write if something was. Expired never: the detach clause has no end.
pub const BY_STAGE: &str = "
    SELECT share, owner, player, 1 AS stage, stamp AS time, place FROM Shared WHERE time < ?1
    UNION ALL
    SELECT s.share, owner, player, 2, max(s.stamp, r.stamp) AS time, place
    FROM Shared AS s JOIN Revoked AS r ON r.share = s.share WHERE time < ?1
    UNION ALL
    SELECT s.share, owner, player, 4, max(s.stamp, r.stamp + 100) AS time, place
    FROM Shared AS s JOIN Revoked AS r ON r.share = s.share WHERE time < ?1 AND NOT EXISTS
        (SELECT 1 FROM Written AS w WHERE w.share = s.share AND w.stamp >= r.stamp AND w.stamp < r.stamp + 100)
    UNION ALL
    SELECT s.share, owner, player, 5, max(s.stamp, min(w.stamp)) AS time, place
    FROM Shared AS s JOIN Revoked AS r ON r.share = s.share
    JOIN Written AS w ON w.share = s.share AND w.stamp >= r.stamp AND w.stamp < r.stamp + 100
    GROUP BY place HAVING time < ?1
    ORDER BY place, stage";

/// The same rows by one query for all stages: each share with its revocation and the first write that counts, and that with each stage.
pub const BY_SUBJECT: &str = "
    SELECT s.share, owner, player, stage, CASE stage
        WHEN 1 THEN s.stamp
        WHEN 2 THEN max(s.stamp, r.stamp)
        WHEN 4 THEN CASE WHEN w.stamp IS NULL THEN max(s.stamp, r.stamp + 100) END
        ELSE max(s.stamp, w.stamp) END AS time
    FROM Shared AS s LEFT JOIN Revoked AS r ON r.share = s.share
    LEFT JOIN Written AS w ON w.write = (SELECT write FROM Written AS v
        WHERE v.share = s.share AND v.stamp >= r.stamp AND v.stamp < r.stamp + 100 ORDER BY v.stamp LIMIT 1)
    CROSS JOIN Stage WHERE time < ?1 ORDER BY place, stage";

/// Each share with its stamp and those of its revocation and of the first write that counts.
const LOOKUPS: &str = "
    SELECT s.share, owner, player, s.stamp, ifnull(r.stamp, ?2),
        ifnull((SELECT w.stamp FROM Written AS w WHERE w.share = s.share AND w.stamp >= r.stamp
            AND w.stamp < r.stamp + 100 ORDER BY w.stamp LIMIT 1), ?2)
    FROM Shared AS s LEFT JOIN Revoked AS r ON r.share = s.share WHERE s.stamp < ?1 ORDER BY place";
/// For ?2: later than any stamp and any moment that has rows.
const NEVER: u32 = u32::MAX;

pub fn version() -> String {
    // SAFETY: the library answers a text that stays.
    let text = unsafe { CStr::from_ptr(sqlite3_libversion()) };
    text.to_string_lossy().into_owned()
}

/// A log under the sample terms, in tables.
pub struct Database(*mut c_void);

impl Database {
    pub fn new(records: &[Record]) -> Database {
        let mut connection = null_mut();
        // SAFETY: both pointers are good for the call.
        let answer = unsafe { sqlite3_open(c":memory:".as_ptr(), &mut connection) };
        assert!(answer == OK, "no database");
        let database = Database(connection);
        database.execute(TABLES);
        database.load(records);
        database.execute("COMMIT; ANALYZE");
        database
    }

    fn execute(&self, text: &str) {
        let text = CString::new(text).expect("no zero byte");
        // SAFETY: the connection is open and the text ends in a zero byte.
        let answer = unsafe { sqlite3_exec(self.0, text.as_ptr(), null(), null_mut(), null_mut()) };
        assert!(answer == OK, "SQLite answers {answer}");
    }

    fn load(&self, records: &[Record]) {
        let shared =
            self.statement("INSERT INTO Shared (stamp, library, owner, share, player) VALUES (?1, ?2, ?3, ?4, ?5)");
        let revoked = self.statement("INSERT INTO Revoked (stamp, share) VALUES (?1, ?2)");
        let written = self.statement("INSERT INTO Written (stamp, share, write) VALUES (?1, ?2, ?3)");
        for (stamp, kind, values) in records {
            let into = match *kind {
                SHARED => &shared,
                REVOKED => &revoked,
                _ => &written,
            };
            into.run(&[&[*stamp], &values[..]].concat(), |_| ());
        }
    }

    fn statement(&self, text: &str) -> Statement<'_> {
        let text = CString::new(text).expect("no zero byte");
        let mut statement = null_mut();
        // SAFETY: the connection is open and the text ends in a zero byte.
        let answer = unsafe { sqlite3_prepare_v2(self.0, text.as_ptr(), -1, &mut statement, null_mut()) };
        assert!(answer == OK, "SQLite answers {answer}");
        Statement(statement, PhantomData)
    }

    /// Call 4 with every row by SQL.
    pub fn rows<'a>(&'a self, text: &str, moment: u32, page: &'a [u8]) -> Way<'a> {
        let statement = self.statement(text);
        Box::new(move || {
            let mut report = Report::new(page);
            statement.run(&[moment], |line| report.put(line.number(3) as u8, line, line.number(4)));
            report.answer()
        })
    }

    /// Call 4 with lookups by SQL: times and rows are made here.
    pub fn lookups<'a>(&'a self, moment: u32, page: &'a [u8]) -> Way<'a> {
        let statement = self.statement(LOOKUPS);
        Box::new(move || {
            let mut report = Report::new(page);
            statement.run(&[moment, NEVER], |line| report.put_stages(line, moment));
            report.answer()
        })
    }
}

impl Drop for Database {
    fn drop(&mut self) {
        // SAFETY: the connection is open, and its statements, which borrow it, are gone.
        unsafe { sqlite3_close(self.0) };
    }
}

/// A prepared statement of a database.
struct Statement<'a>(*mut c_void, PhantomData<&'a Database>);

impl Statement<'_> {
    /// Runs it with these numbers for ?1, ?2 and so on, and shows each line of its answer.
    fn run(&self, numbers: &[u32], mut each: impl FnMut(&Statement)) {
        for (place, &number) in (1..).zip(numbers) {
            // SAFETY: the statement is prepared and not under way.
            unsafe { sqlite3_bind_int64(self.0, place, number.into()) };
        }
        // SAFETY: the statement is prepared.
        let step = || unsafe { sqlite3_step(self.0) };
        let mut end = step();
        while end == A_LINE {
            each(self);
            end = step();
        }
        assert!(end == DONE, "SQLite answers {end}");
        // SAFETY: the statement is prepared.
        unsafe { sqlite3_reset(self.0) };
    }

    /// The number in a column of the line at which the statement stands.
    fn number(&self, column: c_int) -> u32 {
        // SAFETY: the statement is prepared; a column that is not there is 0.
        unsafe { sqlite3_column_int64(self.0, column) as u32 }
    }
}

impl Drop for Statement<'_> {
    fn drop(&mut self) {
        // SAFETY: the statement is prepared, and its database is still open.
        unsafe { sqlite3_finalize(self.0) };
    }
}

/// A page on which rows are put.
struct Report {
    page: Vec<u8>,
    rows: usize,
}

impl Report {
    fn new(page: &[u8]) -> Report {
        Report {
            page: page.to_vec(),
            rows: 0,
        }
    }

    /// Puts a row whose key and parties stand first in the line.
    fn put(&mut self, stage: u8, line: &Statement, time: u32) {
        let row = &mut self.page[ROW * self.rows..][..ROW];
        row[0] = stage;
        row[1] = 0;
        let numbers = [line.number(0), line.number(1), line.number(2), time];
        for (place, number) in numbers.into_iter().enumerate() {
            row[2 + 4 * place..][..4].copy_from_slice(&number.to_le_bytes());
        }
        self.rows += 1;
    }

    /// Puts the rows of a subject, from its stamp and those of revocation and write.
    fn put_stages(&mut self, line: &Statement, moment: u32) {
        let [stamp, revoked, wrote] = [3, 4, 5].map(|column| line.number(column));
        let unbroken = revoked != NEVER && wrote == NEVER;
        let discharged = if unbroken { revoked + 100 } else { NEVER };
        for (stage, time) in [(1, stamp), (2, revoked), (4, discharged), (5, wrote)] {
            if time.max(stamp) < moment {
                self.put(stage, line, time.max(stamp));
            }
        }
    }

    fn answer(self) -> Answer {
        Answer {
            number: 0,
            value: self.rows as u32,
            memory: self.page,
            strayed: false,
        }
    }
}
