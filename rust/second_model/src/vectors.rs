//! Which mechanism is in force, which vectors are open, what MSI sends, and
//! how the wire should be.

use crate::capability::{bits_below, word_at, Msi, MsiX};
use crate::fields::{
    bus_mastering, extended_enabled, function_mask, interrupt_disable, msi_enable, msi_enabled,
    msix_enabled,
};
use crate::packets::Message;
use crate::shape::Shape;
use crate::table::entry_unmasked;
use crate::Card;

/// The interrupt mechanism in force.
#[derive(Clone, Copy, Debug)]
pub enum InForce {
    MsiX(MsiX),
    Msi(Msi),
    Pin,
}

/// The mechanism in force by these configuration bytes.
pub fn in_force(config: &[u8; 256], shape: &Shape) -> InForce {
    // 01: "MSI-X is in force if present and its bit 15 is set; else MSI if
    // present and bit 0 is set; else the pin. With both set, MSI-X is (house)."
    match (shape.msix, shape.msi) {
        (Some(msix), _) if msix_enabled(config, &msix) => InForce::MsiX(msix),
        (_, Some(msi)) if msi_enabled(config, &msi) => InForce::Msi(msi),
        _ => InForce::Pin,
    }
}

/// Whether MSI-X vectors that are not masked themselves are open, for MSI-X
/// in force.
pub fn msix_unmasked(config: &[u8; 256], msix: &MsiX) -> bool {
    // 01: "MSI-X vector v is open if MSI-X is in force, Function Mask 0, its
    // mask 0, Command bit 2 set."
    !function_mask(config, msix) && bus_mastering(config)
}

/// Whether MSI-X vector `vector` is open, for MSI-X in force.
pub fn msix_open(config: &[u8; 256], msix: &MsiX, table: &[u8], vector: usize) -> bool {
    msix_unmasked(config, msix) && entry_unmasked(table, vector)
}

/// The logarithm of the number of granted MSI vectors.
fn log_granted(config: &[u8; 256], msi: &Msi) -> u32 {
    msi_enable(config, msi).min(msi.capable)
}

// 01: "Granted = 2^(the smaller of Enable and Capable)."
/// The number of granted MSI vectors, 1 to 32.
pub fn granted(config: &[u8; 256], msi: &Msi) -> u32 {
    1 << log_granted(config, msi)
}

/// Whether MSI vector `vector`, below 32, is open, for MSI in force.
pub fn msi_open(config: &[u8; 256], msi: &Msi, vector: u32) -> bool {
    // 01: "MSI vector v is open if MSI is in force, v is below granted, its
    // mask bit is 0 or there are no masks, Command bit 2 set."
    let masked = match msi.form.masks {
        Some((mask, _)) => word_at(config, msi.at + mask) >> vector & 1 != 0,
        None => false,
    };
    vector < granted(config, msi) && !masked && bus_mastering(config)
}

/// The data that MSI messages carry, before the vector replaces low bits.
fn msi_data(config: &[u8; 256], msi: &Msi) -> u32 {
    let word = word_at(config, msi.at + msi.form.data);
    // 02: "While both bits are set, the message carries all 32 bits, ...
    // else the upper half is 0."
    if msi.extended_capable && extended_enabled(config, msi) {
        word
    } else {
        word & 0xFFFF
    }
}

/// The message of MSI vector `vector`.
pub fn msi_message(config: &[u8; 256], msi: &Msi, vector: u32) -> Message {
    let upper = match msi.form.upper {
        Some(upper) => word_at(config, msi.at + upper),
        None => 0,
    };
    // 01: "MSI data: the 16-bit register with its low log2(granted) bits
    // replaced by v, upper half 0." 02: "low bits still replaced by the
    // vector"
    let low = bits_below(log_granted(config, msi));
    Message {
        upper,
        address: word_at(config, msi.at + 0x04),
        data: msi_data(config, msi) & !low | vector & low,
    }
}

/// Whether the wire should be active.
pub fn wire_should_be(card: &Card, shape: &Shape) -> bool {
    // 01: "The wire should be active exactly if the line is high, the pin is
    // in force, pin number is not 0 and Command bit 10 is 0. Bus mastering
    // plays no part."
    card.line
        && matches!(in_force(&card.config, shape), InForce::Pin)
        && shape.pin != 0
        && !interrupt_disable(&card.config)
}
