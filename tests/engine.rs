//! The engine's four calls through the static library, on memory that shows what is read or written behind its end and what
//! is written up to 64 bytes before its start.

use crate::second::Outcome;
use std::ffi::c_void;

#[link(name = "service", kind = "static")]
extern "C" {
    fn agreements_check_terms(terms: *const u8, terms_length: usize) -> u64;
    fn agreements_check_log(
        terms: *const u8,
        terms_length: usize,
        log: *const u8,
        log_length: usize,
        used: usize,
    ) -> u64;
    fn agreements_append(
        terms: *const u8,
        terms_length: usize,
        log: *mut u8,
        log_length: usize,
        used: usize,
        event: *const u8,
        event_length: usize,
    ) -> u64;
    fn agreements_report(
        terms: *const u8,
        terms_length: usize,
        log: *const u8,
        log_length: usize,
        used: usize,
        moment: u32,
        page: *mut u8,
        page_length: usize,
    ) -> u64;
}

extern "C" {
    fn mmap(address: *mut c_void, length: usize, protection: i32, flags: i32, file: i32, offset: i64) -> *mut c_void;
    fn mprotect(address: *mut c_void, length: usize, protection: i32) -> i32;
    fn munmap(address: *mut c_void, length: usize) -> i32;
}

const UNREADABLE: i32 = 0;
const READ_AND_WRITE: i32 = 3;
const PRIVATE_AND_ANONYMOUS: i32 = 0x22;
const MEMORY_PAGE: usize = 4096;
const GUARDS: usize = 64;
const GUARD: u8 = 0xC3;

/// What a call answers: number, count or length, and the memory it may write; whether it touched anything else.
#[derive(PartialEq)]
pub struct Answer {
    pub number: u32,
    pub value: u32,
    pub memory: Vec<u8>,
    pub strayed: bool,
}

impl From<Outcome> for Answer {
    fn from(outcome: Outcome) -> Answer {
        Answer {
            number: outcome.number,
            value: outcome.value,
            memory: outcome.memory,
            strayed: false,
        }
    }
}

/// Terms, and a log buffer with its used length.
#[derive(Clone, Copy)]
pub struct Log<'a> {
    pub terms: &'a [u8],
    pub buffer: &'a [u8],
    pub used: usize,
}

/// Memory that ends where an unreadable page begins.
struct Lent {
    start: *mut u8,
    capacity: usize,
    length: usize,
}

impl Lent {
    fn new(most: usize) -> Lent {
        let capacity = (most + GUARDS).next_multiple_of(MEMORY_PAGE);
        // SAFETY: a fresh mapping, of which the last page is made unreadable before anything uses it.
        let start = unsafe {
            let start = mmap(
                std::ptr::null_mut(),
                capacity + MEMORY_PAGE,
                READ_AND_WRITE,
                PRIVATE_AND_ANONYMOUS,
                -1,
                0,
            );
            assert!(start as isize != -1, "no memory");
            assert!(
                mprotect(start.byte_add(capacity), MEMORY_PAGE, UNREADABLE) == 0,
                "no unreadable page"
            );
            start.cast::<u8>()
        };
        Lent {
            start,
            capacity,
            length: 0,
        }
    }

    /// Puts bytes at the end, behind guard bytes, and lends them.
    fn put(&mut self, bytes: &[u8]) -> *mut u8 {
        assert!(
            bytes.len() + GUARDS <= self.capacity,
            "more bytes than were provided for"
        );
        self.length = bytes.len();
        let memory = self.memory();
        let guards = memory.len() - bytes.len();
        memory[..guards].fill(GUARD);
        memory[guards..].copy_from_slice(bytes);
        memory[guards..].as_mut_ptr()
    }

    /// The guard bytes and the bytes lent.
    fn memory(&mut self) -> &mut [u8] {
        let whole = GUARDS + self.length;
        // SAFETY: these bytes lie in the readable part of the mapping, which nobody else has during a borrow.
        unsafe { std::slice::from_raw_parts_mut(self.start.add(self.capacity - whole), whole) }
    }

    fn bytes(&mut self) -> Vec<u8> {
        self.memory()[GUARDS..].to_vec()
    }

    fn guarded(&mut self) -> bool {
        self.memory()[..GUARDS].iter().all(|&byte| byte == GUARD)
    }

    fn stands(&mut self, bytes: &[u8]) -> bool {
        self.guarded() && self.memory()[GUARDS..] == *bytes
    }
}

impl Drop for Lent {
    fn drop(&mut self) {
        // SAFETY: the whole mapping goes, and no borrow of it is left.
        unsafe { munmap(self.start.cast(), self.capacity + MEMORY_PAGE) };
    }
}

pub struct Engine {
    terms: Lent,
    log: Lent,
    event: Lent,
    page: Lent,
}

impl Engine {
    pub fn new() -> Engine {
        Engine {
            terms: Lent::new(1 << 16),
            log: Lent::new(1 << 17),
            event: Lent::new(1 << 16),
            page: Lent::new(1 << 23),
        }
    }

    pub fn check_terms(&mut self, terms: &[u8]) -> Answer {
        let lent = self.terms.put(terms);
        // SAFETY: the pointer lends as many bytes as the length says.
        let answer = unsafe { agreements_check_terms(lent, terms.len()) };
        let strayed = !self.terms.stands(terms);
        split(answer, Vec::new(), strayed)
    }

    pub fn check_log(&mut self, log: Log) -> Answer {
        let (terms, buffer) = (self.terms.put(log.terms), self.log.put(log.buffer));
        // SAFETY: each pointer lends as many bytes as its length says.
        let answer = unsafe { agreements_check_log(terms, log.terms.len(), buffer, log.buffer.len(), log.used) };
        let strayed = !self.log.stands(log.buffer) || !self.terms.stands(log.terms);
        split(answer, Vec::new(), strayed)
    }

    pub fn append(&mut self, log: Log, event: &[u8]) -> Answer {
        let (terms, buffer, lent) = (
            self.terms.put(log.terms),
            self.log.put(log.buffer),
            self.event.put(event),
        );
        let (terms_length, log_length) = (log.terms.len(), log.buffer.len());
        // SAFETY: each pointer lends as many bytes as its length says, and no two of them share any.
        let answer = unsafe { agreements_append(terms, terms_length, buffer, log_length, log.used, lent, event.len()) };
        let strayed = !self.log.guarded() || !self.terms.stands(log.terms) || !self.event.stands(event);
        split(answer, self.log.bytes(), strayed)
    }

    pub fn report(&mut self, log: Log, moment: u32, page: &[u8]) -> Answer {
        let (terms, buffer, lent) = (self.terms.put(log.terms), self.log.put(log.buffer), self.page.put(page));
        let (terms_length, log_length) = (log.terms.len(), log.buffer.len());
        // SAFETY: each pointer lends as many bytes as its length says, and no two of them share any.
        let answer = unsafe {
            agreements_report(
                terms,
                terms_length,
                buffer,
                log_length,
                log.used,
                moment,
                lent,
                page.len(),
            )
        };
        let strayed = !self.page.guarded() || !self.terms.stands(log.terms) || !self.log.stands(log.buffer);
        split(answer, self.page.bytes(), strayed)
    }
}

fn split(answer: u64, memory: Vec<u8>, strayed: bool) -> Answer {
    Answer {
        number: (answer >> 32) as u32,
        value: answer as u32,
        memory,
        strayed,
    }
}
