//! Processor time of calls that several programs answer, and markdown tables of how these times compare.

use crate::engine::Answer;

/// One program's answer to a call.
pub type Way<'a> = Box<dyn FnMut() -> Answer + 'a>;

const RUNS: usize = 7;
/// A run repeats its call for so many seconds.
const LEAST: f64 = 0.03;

#[repr(C)]
struct Clock {
    seconds: i64,
    nanoseconds: i64,
}

extern "C" {
    fn clock_gettime(clock: i32, time: *mut Clock) -> i32;
}

/// CLOCK_THREAD_CPUTIME_ID of Linux.
const OWN_THREAD: i32 = 3;

/// The value that all ways answer, with this number.
pub fn answered(number: u32, ways: &mut [Way]) -> u32 {
    let answers: Vec<Answer> = ways.iter_mut().map(|way| way()).collect();
    assert!(answers[0].number == number, "the call is answered with {number}");
    assert!(
        answers.iter().all(|answer| *answer == answers[0]),
        "all answer the same"
    );
    answers[0].value
}

/// The value that all ways answer, with this number, and the median time of each over runs taken in turn.
pub fn measured(number: u32, mut ways: Vec<Way>) -> (u32, Vec<f64>) {
    let value = answered(number, &mut ways);
    let mut times = vec![Vec::new(); ways.len()];
    for _ in 0..RUNS {
        for (way, times) in ways.iter_mut().zip(&mut times) {
            times.push(timed(way));
        }
    }
    (value, times.into_iter().map(median).collect())
}

/// Seconds for a call.
fn timed(way: &mut Way) -> f64 {
    let start = processor_time();
    let mut calls = 0;
    while calls == 0 || processor_time() - start < LEAST {
        std::hint::black_box(way());
        calls += 1;
    }
    (processor_time() - start) / f64::from(calls)
}

/// Seconds that this thread was at work, so that other work on the machine counts as little as it can.
fn processor_time() -> f64 {
    let mut time = Clock {
        seconds: 0,
        nanoseconds: 0,
    };
    // SAFETY: the pointer is to a clock of the form that the C library writes.
    let answer = unsafe { clock_gettime(OWN_THREAD, &mut time) };
    assert!(answer == 0, "no clock");
    time.seconds as f64 + time.nanoseconds as f64 / 1e9
}

fn median(mut times: Vec<f64>) -> f64 {
    times.sort_by(f64::total_cmp);
    times[times.len() / 2]
}

/// Prints a title and the head of a table: what a line has first, the ways beside the engine, and the word for times against an earlier line.
pub fn head(title: &str, first: &str, others: &[&str], against: &str) {
    let mut columns: Vec<String> = first.split(", ").map(String::from).collect();
    columns.extend(others.iter().map(|way| format!("{way} / engine")));
    columns.push(format!("{against}: engine"));
    columns.extend(others.iter().map(|way| way.to_string()));
    println!(
        "\n{title}\n\n| {} |\n|{}",
        columns.join(" | "),
        "---|".repeat(columns.len())
    );
}

/// Prints a line: what it has first, the other ways' times against the engine's, and all times against those of an earlier line, if any.
pub fn line(first: &[&str], times: &[f64], before: &[f64]) {
    let mut columns: Vec<String> = first.iter().map(|column| column.to_string()).collect();
    columns.extend(times[1..].iter().map(|time| format!("{:.2}", time / times[0])));
    columns.extend((0..times.len()).map(|way| grown(times[way], before.get(way))));
    println!("| {} |", columns.join(" | "));
}

fn grown(time: f64, before: Option<&f64>) -> String {
    before.map_or(String::new(), |before| format!("{:.1}", time / before))
}
