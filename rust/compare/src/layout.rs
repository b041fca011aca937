//! Where a card has its registers, so that calls reach something. A card that
//! is not sound gives any places.

use crate::world::{CARD_BYTES, CONFIG_AT};

/// A place in a BAR.
#[derive(Clone, Copy, Debug, Default, PartialEq, Eq)]
pub struct Place {
    pub bar: u8,
    pub offset: u32,
}

/// MSI control bits 9 and 10, Extended Message Data Capable and Enable.
pub const EXTENDED_CAPABLE: u16 = 1 << 9;
pub const EXTENDED_ENABLE: u16 = 1 << 10;

/// An MSI capability.
#[derive(Clone, Copy, Debug, PartialEq, Eq)]
pub struct Msi {
    pub at: usize,
    pub control: u16,
}

impl Msi {
    /// Whether the form has 64-bit addresses.
    pub fn is_64_bit(&self) -> bool {
        self.control & 0x080 != 0
    }

    /// The vectors that the card may use, 2^Capable.
    pub fn vectors(&self) -> usize {
        1 << (self.control >> 1 & 7)
    }

    /// The vectors granted, 2^(the smaller of Enable and Capable).
    pub fn granted(&self) -> usize {
        self.vectors().min(1 << (self.control >> 4 & 7))
    }

    /// Whether the form has masks.
    pub fn has_masks(&self) -> bool {
        self.control & 0x100 != 0
    }

    /// Extended Message Data Capable, control bit 9.
    pub fn extended_capable(&self) -> bool {
        self.control & EXTENDED_CAPABLE != 0
    }

    /// Extended Message Data Enable, control bit 10.
    pub fn extended_enable(&self) -> bool {
        self.control & EXTENDED_ENABLE != 0
    }

    /// The place of the data register.
    pub fn data(&self) -> usize {
        self.at + if self.is_64_bit() { 0x0C } else { 0x08 }
    }

    /// The place of the mask register in the forms that have one.
    pub fn mask(&self) -> usize {
        self.data() + 4
    }
}

/// An MSI-X capability.
#[derive(Clone, Copy, Debug, PartialEq, Eq)]
pub struct MsiX {
    pub at: usize,
    pub control: u16,
    pub table: Place,
    pub pending: Place,
}

impl MsiX {
    /// N.
    pub fn vectors(&self) -> usize {
        usize::from(self.control & 0x7FF) + 1
    }

    /// Whether a byte of a BAR lies in the table.
    pub fn in_table(&self, bar: u64, offset: u64) -> bool {
        let start = u64::from(self.table.offset);
        let end = start + table_bytes(self.vectors()) as u64;
        bar == u64::from(self.table.bar) && (start..end).contains(&offset)
    }
}

/// The capabilities of a card, and its number of events.
#[derive(Clone, Copy, Debug, Default, PartialEq, Eq)]
pub struct Layout {
    pub msi: Option<Msi>,
    pub msix: Option<MsiX>,
    pub events: u16,
}

/// The mechanism in force.
#[derive(Clone, Copy, Debug, PartialEq, Eq)]
pub enum Mode {
    Pin,
    Msi,
    MsiX,
}

impl Layout {
    /// The layout of a card in the bytes of the C interface.
    pub fn of_card(card: &[u8]) -> Layout {
        if card.len() != CARD_BYTES {
            return Layout::default();
        }
        Layout {
            events: u16::from_le_bytes([card[1], card[2]]),
            ..Layout::of_config(&card[CONFIG_AT..])
        }
    }

    /// The layout of configuration bytes.
    pub fn of_config(config: &[u8]) -> Layout {
        let mut layout = Layout::default();
        if config.len() != 256 || config[0x06] & 0x10 == 0 {
            return layout;
        }
        let mut at = usize::from(config[0x34] & 0xFC);
        for _ in 0..48 {
            if at < 0x40 {
                break;
            }
            let control = u16::from_le_bytes([config[at + 2], config[at + 3]]);
            match config[at] {
                0x05 => layout.msi = Some(Msi { at, control }),
                0x11 if at <= 0xF4 => {
                    layout.msix = Some(MsiX {
                        at,
                        control,
                        table: place_at(config, at + 4),
                        pending: place_at(config, at + 8),
                    })
                }
                _ => {}
            }
            at = usize::from(config[at + 1] & 0xFC);
        }
        layout
    }

    /// N.
    pub fn vectors(&self) -> usize {
        self.msix.map_or(0, |msix| msix.vectors())
    }

    /// The vectors of the mechanism in force; the pin has none.
    pub fn vectors_in_force(&self) -> usize {
        match (self.mode(), self.msi) {
            (Mode::MsiX, _) => self.vectors(),
            (Mode::Msi, Some(msi)) => msi.vectors(),
            _ => 0,
        }
    }

    /// The mechanism in force.
    pub fn mode(&self) -> Mode {
        match (self.msix, self.msi) {
            (Some(msix), _) if msix.control & 0x8000 != 0 => Mode::MsiX,
            (_, Some(msi)) if msi.control & 1 != 0 => Mode::Msi,
            _ => Mode::Pin,
        }
    }
}

/// The place in the word at `at`.
fn place_at(config: &[u8], at: usize) -> Place {
    let word = u32::from_le_bytes([config[at], config[at + 1], config[at + 2], config[at + 3]]);
    Place {
        bar: (word & 7) as u8,
        offset: word & !7,
    }
}

/// The length of a table of `vectors` entries.
pub fn table_bytes(vectors: usize) -> usize {
    16 * vectors
}

/// The length of a pending array of `vectors` bits.
pub fn pending_bytes(vectors: usize) -> usize {
    8 * vectors.div_ceil(64)
}
