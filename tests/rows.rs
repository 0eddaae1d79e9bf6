//! What several of the programs need for rows and bytes.

pub const ROW: usize = 18;

/// The minute in a row's last four bytes.
pub fn time(row: &[u8]) -> u32 {
    u32::from_le_bytes([row[14], row[15], row[16], row[17]])
}

/// The rows timed before a moment, without gaps.
pub fn strike(rows: &[u8], moment: u32) -> Vec<u8> {
    rows.chunks(ROW)
        .filter(|row| time(row) < moment)
        .flatten()
        .copied()
        .collect()
}

pub fn hex(bytes: &[u8]) -> String {
    bytes.iter().map(|byte| format!("{byte:02x}")).collect()
}
