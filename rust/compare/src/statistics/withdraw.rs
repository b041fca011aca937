//! What runs of cards meet of withdrawals.

use super::Statistics;
use crate::layout::{Layout, Mode, Msi};
use crate::pair::Made;
use crate::world::CARD_BYTES;

impl Statistics {
    /// Counts a withdrawal.
    pub(super) fn count_withdrawal(&mut self, made: &Made<'_>, vector: u64) {
        if made.card.len() != CARD_BYTES {
            return;
        }
        let layout = Layout::of_card(made.card);
        match (layout.mode(), layout.msi) {
            (Mode::MsiX, _) => self.count_msix_withdrawal(made, &layout, vector),
            (Mode::Msi, Some(msi)) => self.count_msi_withdrawal(made, &msi, vector),
            _ => self.count_pin_withdrawal(made, &layout, vector),
        }
    }

    fn count_msix_withdrawal(&mut self, made: &Made<'_>, layout: &Layout, vector: u64) {
        let vectors = layout.vectors() as u64;
        match outcome(made) {
            Outcome::Set => {
                self.met("MSI-X withdrawal, bit was set");
                if vector + 1 == vectors {
                    self.met("MSI-X withdrawal of N - 1, bit was set");
                }
                if layout.msi.is_some_and(|msi| msi.control & 1 != 0) {
                    self.met("MSI-X withdrawal with MSI switched on too");
                }
                if msi_waits(made.card, vector) {
                    self.met("MSI-X withdrawal, MSI bit of that number kept");
                }
            }
            Outcome::NotSet => self.met("MSI-X withdrawal, bit was not set"),
            Outcome::Refused(1) => self.met("MSI-X withdrawal refused with 1"),
            Outcome::Refused(_) => {
                self.met("MSI-X withdrawal refused with 2");
                if vector == vectors {
                    self.met("MSI-X withdrawal of N refused");
                }
            }
        }
    }

    fn count_msi_withdrawal(&mut self, made: &Made<'_>, msi: &Msi, vector: u64) {
        let vectors = msi.vectors() as u64;
        match outcome(made) {
            Outcome::Set => {
                self.met("MSI withdrawal, bit was set");
                if vector + 1 == vectors {
                    self.met("MSI withdrawal of 2^Capable - 1, bit was set");
                }
                if vector >= msi.granted() as u64 {
                    self.met("MSI withdrawal at or above granted, bit was set");
                }
                if msix_waits(made.pending, vector) {
                    self.met("MSI withdrawal, MSI-X bit of that number kept");
                }
            }
            Outcome::NotSet => self.met("MSI withdrawal, bit was not set"),
            Outcome::Refused(1) => self.met("MSI withdrawal refused with 1"),
            Outcome::Refused(_) => {
                self.met("MSI withdrawal refused with 2");
                if vector == vectors {
                    self.met("MSI withdrawal of 2^Capable refused");
                }
            }
        }
    }

    fn count_pin_withdrawal(&mut self, made: &Made<'_>, layout: &Layout, vector: u64) {
        if made.outcome.refusal == 1 {
            return self.met("pin withdrawal refused with 1");
        }
        self.met("pin withdrawal refused with 7");
        let of_msi = layout.msi.map_or(0, |msi| msi.vectors());
        if vector >= layout.vectors().max(of_msi) as u64 {
            self.met("pin withdrawal refused with 7 before 2");
        }
    }
}

/// What a withdrawal gave.
enum Outcome {
    Set,
    NotSet,
    Refused(u8),
}

fn outcome(made: &Made<'_>) -> Outcome {
    match (made.outcome.refusal, made.outcome.value) {
        (0, Some(1)) => Outcome::Set,
        (0, _) => Outcome::NotSet,
        (number, _) => Outcome::Refused(number),
    }
}

/// Whether the MSI waiting bit of this number is set.
fn msi_waits(card: &[u8], vector: u64) -> bool {
    let waiting = u32::from_le_bytes([card[5], card[6], card[7], card[8]]);
    vector < 32 && waiting >> vector & 1 != 0
}

/// Whether the MSI-X waiting bit of this number, of an MSI vector, is set.
fn msix_waits(pending: &[u8], vector: u64) -> bool {
    let byte = pending.get((vector / 8) as usize);
    byte.is_some_and(|byte| byte >> (vector % 8) & 1 != 0)
}
