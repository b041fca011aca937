//! An event on a card with 32-bit MSI data.

use crate::cases::{event, Case};
use crate::state::{Given, Second, MSI};

/// MSI control bits 9 and 10, Extended Message Data Capable, in the upper byte,
/// and Enable.
const CAPABLE: u8 = 1 << 1;
const ENABLE: u32 = 1 << 10;
/// The place of the data register.
const DATA: usize = MSI + 0x0C;

/// The card of the other rows without MSI-X, but with 32-bit data, and MSI in
/// force.
fn open() -> Second {
    let mut given = Given::new(0);
    given.config[MSI + 3] |= CAPABLE;
    let mut card = Second::started(&given);
    card.write(0x04, 0x0006);
    card.write(DATA, 0x49A0);
    card.write(DATA + 2, 0xABCD);
    card.write(MSI + 2, 1 | ENABLE);
    card
}

/// The event, sent.
pub fn cases() -> Vec<Case> {
    let (proved, second) = event(&open(), 0);
    vec![Case {
        name: "event, sent, 32-bit MSI data",
        vectors: Some(0),
        proved,
        second,
    }]
}

#[cfg(test)]
mod tests {
    use super::*;

    #[test]
    fn all_32_bits_are_sent() {
        let mut card = open();
        card.event(0);
        assert_eq!(card.out[12..16], [0xA0, 0x49, 0xCD, 0xAB]);
    }
}
