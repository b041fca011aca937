//! The configuration registers: which bits are writable, which are stored as
//! 0, and what a read shows.

use crate::capability::{word_at, Msi};
use crate::shape::Shape;
use crate::Card;

/// One bit mask for each of the 256 configuration bytes.
type ConfigBits = [u8; 256];

/// Adds the bits of the word at `at`, a multiple of 4.
fn add_bits(bits: &mut ConfigBits, at: usize, word: u32) {
    for (byte, more) in bits[at..at + 4].iter_mut().zip(word.to_le_bytes()) {
        *byte |= more;
    }
}

/// The writable bits of the configuration bytes.
pub fn writable_bits(shape: &Shape) -> ConfigBits {
    let mut bits = [0; 256];
    // 01: "Writable: Command (04h) bits 1, 2, 10; Interrupt Line (3Ch);"
    add_bits(&mut bits, 0x04, 1 << 1 | 1 << 2 | 1 << 10);
    add_bits(&mut bits, 0x3C, 0xFF);
    if let Some(msi) = &shape.msi {
        add_msi_writable(&mut bits, msi);
    }
    if let Some(msix) = &shape.msix {
        // 01: "MSI-X control bits 14 and 15." Control is the upper half of
        // the capability's first word.
        add_bits(&mut bits, msix.at, 1 << (16 + 14) | 1 << (16 + 15));
    }
    bits
}

fn add_msi_writable(bits: &mut ConfigBits, msi: &Msi) {
    // 01: "MSI control bits 0 and 6:4, address bits 31:2, upper address,
    // 16-bit data, mask bits below 2^Capable;" Control is the upper half of
    // the capability's first word.
    add_bits(bits, msi.at, 1 << 16 | 7 << (16 + 4));
    add_bits(bits, msi.at + 0x04, !3);
    if let Some(upper) = msi.form.upper {
        add_bits(bits, msi.at + upper, u32::MAX);
    }
    add_bits(bits, msi.at + msi.form.data, 0xFFFF);
    // 02: "Then bit 10, which enables it, and the 16 bits after the data
    // register are writable."
    if msi.extended_capable {
        add_bits(bits, msi.at, 1 << (16 + 10));
        add_bits(bits, msi.at + msi.form.data, 0xFFFF_0000);
    }
    if let Some((mask, _)) = msi.form.masks {
        add_bits(bits, msi.at + mask, msi.capable_bits());
    }
}

/// The bits of the configuration bytes that are always stored as 0.
pub fn zero_bits(shape: &Shape) -> ConfigBits {
    let mut bits = [0; 256];
    // 01: "Stored bits there, address bits 1:0 and masks at or above
    // 2^Capable are 0." There: Status bit 3 and the MSI Pending register.
    add_bits(&mut bits, 0x04, 1 << 19);
    if let Some(msi) = &shape.msi {
        add_bits(&mut bits, msi.at + 0x04, 3);
        if let Some((mask, pending)) = msi.form.masks {
            add_bits(&mut bits, msi.at + mask, !msi.capable_bits());
            add_bits(&mut bits, msi.at + pending, u32::MAX);
        }
    }
    bits
}

/// The configuration bytes of a started card.
pub fn fresh_config(given: &[u8; 256], shape: &Shape) -> [u8; 256] {
    let writable = writable_bits(shape);
    let zero = zero_bits(shape);
    let mut config = [0; 256];
    // 01: "A started card has all writable bits 0", "Bits that always read 0
    // are stored as 0.", "Bits not writable read as given at start"
    for at in 0..256 {
        config[at] = given[at] & !writable[at] & !zero[at];
    }
    config
}

/// What a read of the aligned configuration word at `at` shows.
fn shown_word(card: &Card, shape: &Shape, at: usize) -> u32 {
    let mut word = word_at(&card.config, at);
    // 01: "Status bit 3 (bit 19 of the word at 04h) is the line, whatever
    // Interrupt Disable says"
    if at == 0x04 && card.line {
        word |= 1 << 19;
    }
    // 01: "the MSI Pending register is the 32 MSI waiting bits"
    if let Some(msi) = &shape.msi {
        if msi.form.masks.is_some_and(|(_, p)| msi.at + p == at) {
            word = card.msi_waiting;
        }
    }
    word
}

/// The value of a configuration read of an accepted offset and width.
pub fn read_config(card: &Card, shape: &Shape, offset: usize, width: usize) -> u32 {
    let word = shown_word(card, shape, offset & !3);
    // 01: "in a read's result the bytes beyond the width are 0"
    let shifted = word >> (8 * (offset & 3));
    match width {
        1 => shifted & 0xFF,
        2 => shifted & 0xFFFF,
        _ => shifted,
    }
}

/// Writes the writable bits of an accepted offset and width.
pub fn write_config(
    config: &mut [u8; 256],
    shape: &Shape,
    offset: usize,
    width: usize,
    value: u32,
) {
    let writable = writable_bits(shape);
    // 01: "Any other written bit is dropped, and so are value bytes beyond
    // the access width"
    for (i, byte) in value.to_le_bytes().into_iter().take(width).enumerate() {
        let at = offset + i;
        config[at] = config[at] & !writable[at] | byte & writable[at];
    }
}
