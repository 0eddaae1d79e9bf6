//! Inputs of the listing program.

use super::random::Random;
use super::{Case, LOG_LIMIT, TERMS_LIMIT};

/// The input that gives the program a case's terms, log and moment.
pub fn input(case: &Case) -> Vec<u8> {
    let log = &case.buffer[..case.used.min(case.buffer.len())];
    framed(&case.terms, log, case.terms.len() as u32, log.len() as u32, case.moment)
}

fn framed(terms: &[u8], log: &[u8], terms_length: u32, log_length: u32, moment: u32) -> Vec<u8> {
    let head = [terms_length, log_length, moment].map(u32::to_le_bytes).concat();
    [&head, terms, log].concat()
}

/// An input whose length does not match, or with lengths over their limits, or nearly so.
pub fn damaged_input(random: &mut Random, case: &Case) -> Vec<u8> {
    let mut whole = input(case);
    let lengths = [case.terms.len() as u32, (whole.len() - 12 - case.terms.len()) as u32];
    let more = random.between(1, 9);
    let wrong = match random.below(9) {
        0 => return whole[..random.index(12)].to_vec(),
        1 => return whole[..random.index(whole.len())].to_vec(),
        2 => return whole[..whole.len() - 1].to_vec(),
        3 => {
            whole.extend(random.bytes(more as usize));
            return whole;
        }
        4 => return limits(random, case.moment),
        5 => [lengths[0].wrapping_sub(more), lengths[1].wrapping_add(more)],
        6 => [lengths[0].wrapping_add(more), lengths[1].wrapping_sub(more)],
        7 => [
            lengths[0],
            random.pick(&[u32::MAX, 1 << 31, lengths[1] + 1, LOG_LIMIT as u32 + 1]),
        ],
        _ => [
            random.pick(&[u32::MAX, 1 << 31, lengths[0] + 1, TERMS_LIMIT as u32 + 1]),
            lengths[1],
        ],
    };
    whole[..4].copy_from_slice(&wrong[0].to_le_bytes());
    whole[4..8].copy_from_slice(&wrong[1].to_le_bytes());
    whole
}

/// Lengths that match, each at its limit or one over.
fn limits(random: &mut Random, moment: u32) -> Vec<u8> {
    let terms = random.pick(&[0, 1, TERMS_LIMIT, TERMS_LIMIT + 1]);
    let log = random.pick(&[0, 1, LOG_LIMIT, LOG_LIMIT + 1]);
    framed(&vec![7; terms], &vec![0; log], terms as u32, log as u32, moment)
}
