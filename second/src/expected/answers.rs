//! How answers read in a line.

/// A refusal by its number in document 01's table.
pub fn refusal(number: u32) -> String {
    format!(" refused {number}")
}

pub fn hex(bytes: &[u8]) -> String {
    bytes.iter().map(|byte| format!(" {byte:02x}")).collect()
}
