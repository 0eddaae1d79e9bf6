//! Writes the cases that are compared under continuous integration to standard output, and the spread of their
//! answers to standard error. The answers are those of the second implementation.

#[allow(unused)] // a program uses a part of it
mod generate;
#[allow(unused)]
mod second;
#[allow(unused)]
mod tally;

use generate::{Case, Random, AIMS, SMALL};
use std::io::Write;
use tally::{Drawn, Order};

const SEED: u64 = 20_261_116;
const CASES: u32 = 3_200;
const SIZE_LIMIT: usize = 2_300_000;
/// The large cases but for those of many rows, which come last.
const LONG: u32 = 9;
const NOT_YET: u32 = u32::MAX;

/// What the reading program, crates/compare, has room for.
const TERMS_ROOM: usize = 16_400;
const BUFFER_ROOM: usize = 32_800;
const EVENT_ROOM: usize = 100;
const PAGE_ROOM: usize = 2_000;

fn main() {
    let mut random = Random::new(SEED);
    let mut output = CASES.to_le_bytes().to_vec();
    let mut numbers = [[0; 17]; 5];
    let mut tried = Drawn::default();
    let mut long = 0;
    for place in 0..CASES {
        let (case, written) = loop {
            let case = drawn(&mut random, place);
            if let Some(written) = written(&case) {
                break (case, written);
            }
        };
        tried.add(&case);
        written.add_order(&case, &mut tried.order);
        for (answered, number) in numbers.iter_mut().zip(written.numbers) {
            answered[number as usize] += 1;
        }
        long += u32::from(written.bytes.len() > 4_000);
        output.extend(written.bytes);
    }
    assert!(
        output.len() <= SIZE_LIMIT && long <= LONG,
        "{} bytes, {long} long cases",
        output.len()
    );
    let missed = [tally::unanswered(&numbers), tried.missed()].concat();
    assert!(missed.is_empty(), "never came up: {}", missed.join(", "));
    let unexpected = tally::unexpected(&numbers);
    assert!(unexpected.is_empty(), "{}", unexpected.join(", "));
    eprintln!("{}{tried}", tally::spread(&numbers));
    eprintln!("{CASES} cases, {long} long ones, {} bytes", output.len());
    std::io::stdout()
        .write_all(&output)
        .expect("standard output takes the cases");
}

/// The large cases, then a round of aims: each one alone, two at once, nothing.
fn drawn(random: &mut Random, place: u32) -> Case {
    if place < LONG {
        return generate::large(random, place);
    }
    let aims = match place as usize % 25 {
        step if step < AIMS.len() => vec![AIMS[step]],
        14 | 15 => vec![random.pick(&AIMS), random.pick(&AIMS)],
        _ => vec![],
    };
    generate::aimed(random, &SMALL, &aims)
}

struct Written {
    bytes: Vec<u8>,
    /// What calls 1 to 5 answer.
    numbers: [u32; 5],
    rows: usize,
}

impl Written {
    /// Counts the case's log and its event.
    fn add_order(&self, case: &Case, order: &mut Order) {
        order.add_log(case, self.rows);
        if self.numbers[tally::APPEND] == 0 {
            let event = &case.events[0];
            let stamp = u32::from_le_bytes([event[1], event[2], event[3], event[4]]);
            order.add_append(&case.terms, &case.buffer[..case.used], stamp);
        }
    }
}

/// A case with the answers to its five calls, if the reading program has room for it.
fn written(case: &Case) -> Option<Written> {
    let (terms, buffer, used, moment) = (&case.terms[..], &case.buffer[..], case.used, case.moment);
    let event = case.events.first()?;
    let most = second::report(terms, buffer, used, moment, &[0xA5; PAGE_ROOM]);
    let page = vec![0xA5; case.page.length(most.value as usize)];
    let numbered = used.max(case.schema) <= u32::MAX as usize;
    let lent = [(terms.len(), TERMS_ROOM), (buffer.len(), BUFFER_ROOM)];
    let own = [(event.len(), EVENT_ROOM), (page.len(), PAGE_ROOM)];
    if !numbered || lent.iter().chain(&own).any(|(length, room)| length > room) {
        return None;
    }
    let checks = [second::check_terms(terms), second::check_log(terms, buffer, used)];
    let append = second::append(terms, buffer, used, event);
    let report = second::report(terms, buffer, used, moment, &page);
    let (standing, entries) = second::standing(terms, buffer, used, case.schema, case.key, moment);
    let lengths = [terms.len(), buffer.len(), used, event.len(), page.len()].map(|length| length as u32);
    let mut head = lengths.to_vec();
    head.extend([
        moment,
        case.schema as u32,
        case.key,
        checks[0],
        checks[1],
        append.number,
        append.value,
    ]);
    head.extend([report.number, report.value, standing]);
    head.extend(entries.map(|entry| entry.unwrap_or(NOT_YET)));
    let mut bytes: Vec<u8> = head.into_iter().flat_map(u32::to_le_bytes).collect();
    for part in [terms, buffer, event, &append.memory, &report.memory] {
        bytes.extend(part);
    }
    Some(Written {
        bytes,
        numbers: [checks[0], checks[1], append.number, report.number, standing],
        rows: report.value as usize,
    })
}
