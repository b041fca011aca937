//! The bytes of the MSI-X table and of the pending array.

use crate::capability::word_at;
use crate::packets::Message;

/// The bytes of a started card's table.
pub fn fresh_table(table: &mut [u8]) {
    table.fill(0);
    // 01: "except mask bits of table entries, which are 1"
    for entry in table.chunks_exact_mut(16) {
        entry[12] = 1;
    }
}

/// The writable bits of byte `at` of the table.
fn table_writable(at: usize) -> u8 {
    // 01: "A table entry is address, upper address, data, control, four
    // little-endian words; address bits 1:0 and control bits 31:1 read 0 and
    // drop writes."
    match at % 16 {
        0 => 0xFC,
        12 => 0x01,
        13..=15 => 0,
        _ => 0xFF,
    }
}

/// Writes the writable bits of an accepted place and width of the table.
pub fn write_table(table: &mut [u8], place: usize, width: usize, value: u64) {
    // 01: "Any other written bit is dropped, and so are value bytes beyond
    // the access width"
    for (i, byte) in value.to_le_bytes().into_iter().take(width).enumerate() {
        table[place + i] = byte & table_writable(place + i);
    }
}

/// The value of `width` bytes of the table or of the pending array.
pub fn read_bytes(bytes: &[u8], place: usize, width: usize) -> u64 {
    // 01: "in a read's result the bytes beyond the width are 0"
    let mut value = [0; 8];
    value[..width].copy_from_slice(&bytes[place..place + width]);
    u64::from_le_bytes(value)
}

/// Whether the table bits stored as 0 are 0.
pub fn table_zeros(table: &[u8]) -> bool {
    // 01: "address bits 1:0 and control bits 31:1 read 0 and drop writes"
    table
        .chunks_exact(16)
        .all(|entry| word_at(entry, 0) & 3 == 0 && word_at(entry, 12) & !1 == 0)
}

/// Whether the vector's own mask is 0.
pub fn entry_unmasked(table: &[u8], vector: usize) -> bool {
    table[16 * vector + 12] & 1 == 0
}

/// The message of MSI-X vector `vector`.
pub fn msix_message(table: &[u8], vector: usize) -> Message {
    let entry = 16 * vector;
    // 01: "A table entry is address, upper address, data, control, four
    // little-endian words", "MSI-X data: the entry's word."
    Message {
        upper: word_at(table, entry + 4),
        address: word_at(table, entry),
        data: word_at(table, entry + 8),
    }
}

// 01: "Pending bit v is bit v mod 8 of byte v div 8."
/// Whether MSI-X vector `vector` waits.
pub fn waits(pending: &[u8], vector: usize) -> bool {
    pending[vector / 8] >> (vector % 8) & 1 != 0
}

/// Sets the waiting bit of MSI-X vector `vector`.
pub fn set_waiting(pending: &mut [u8], vector: usize) {
    pending[vector / 8] |= 1 << (vector % 8);
}

/// Clears the waiting bit of MSI-X vector `vector`.
pub fn clear_waiting(pending: &mut [u8], vector: usize) {
    pending[vector / 8] &= !(1 << (vector % 8));
}

/// The lowest-numbered MSI-X vector at or above `from` that waits.
pub fn next_waiting(pending: &[u8], from: usize) -> Option<usize> {
    let mut vector = from;
    while vector < 8 * pending.len() {
        if pending[vector / 8] == 0 {
            vector = 8 * (vector / 8 + 1);
        } else if waits(pending, vector) {
            return Some(vector);
        } else {
            vector += 1;
        }
    }
    None
}
