//! The floor of a soundness check: a scan of table and pending array by words.

/// The bits of an entry's first and second half that a sound card has 0.
const ZERO: [u64; 2] = [3, 0xFFFF_FFFE_0000_0000];

/// The word in eight bytes.
fn word(bytes: &[u8]) -> u64 {
    bytes
        .try_into()
        .map_or(0, |bytes: [u8; 8]| u64::from_le_bytes(bytes))
}

/// The bits found, OR-ed: those of the table that must be 0, and the pending
/// bits.
pub fn scan(table: &[u8], pending: &[u8]) -> u64 {
    let mut found = 0;
    for entry in table.chunks_exact(16) {
        found |= word(&entry[..8]) & ZERO[0] | word(&entry[8..]) & ZERO[1];
    }
    for bytes in pending.chunks_exact(8) {
        found |= word(bytes);
    }
    found
}
