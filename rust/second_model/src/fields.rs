//! The control fields that decide which vectors are open.

use crate::capability::{Msi, MsiX};

/// The control register of the capability at `at`.
fn control(config: &[u8; 256], at: usize) -> u16 {
    u16::from_le_bytes([config[at + 2], config[at + 3]])
}

/// Command bit 1, memory space.
pub fn memory_space(config: &[u8; 256]) -> bool {
    config[0x04] & 1 << 1 != 0
}

/// Command bit 2, bus mastering.
pub fn bus_mastering(config: &[u8; 256]) -> bool {
    config[0x04] & 1 << 2 != 0
}

/// Command bit 10, Interrupt Disable.
pub fn interrupt_disable(config: &[u8; 256]) -> bool {
    config[0x05] & 1 << 2 != 0
}

/// MSI control bit 0.
pub fn msi_enabled(config: &[u8; 256], msi: &Msi) -> bool {
    control(config, msi.at) & 1 != 0
}

/// MSI control bits 6:4, Multiple Message Enable.
pub fn msi_enable(config: &[u8; 256], msi: &Msi) -> u32 {
    u32::from(control(config, msi.at) >> 4 & 7)
}

/// MSI control bit 10, Extended Message Data Enable.
pub fn extended_enabled(config: &[u8; 256], msi: &Msi) -> bool {
    control(config, msi.at) & 1 << 10 != 0
}

/// MSI-X control bit 15.
pub fn msix_enabled(config: &[u8; 256], msix: &MsiX) -> bool {
    control(config, msix.at) & 1 << 15 != 0
}

/// MSI-X control bit 14, Function Mask.
pub fn function_mask(config: &[u8; 256], msix: &MsiX) -> bool {
    control(config, msix.at) & 1 << 14 != 0
}
