//! What runs of cards meet of MSI control bits 9 and 10, Extended Message Data
//! Capable and Enable.

use super::Statistics;
use crate::call::{Call, Given};
use crate::layout::{Layout, Mode, Msi, EXTENDED_ENABLE};
use crate::pair::Made;
use crate::world::CONFIG_AT;
use musgarento::{Packet, Packets};

impl Statistics {
    /// Counts an accepted call of a card.
    pub(super) fn count_extended(&mut self, made: &Made<'_>) {
        let Some(msi) = Layout::of_card(made.card).msi else {
            return;
        };
        match made.call {
            Call::Start(given) => self.count_extended_start(&msi, given),
            Call::ConfigWrite {
                offset,
                width,
                value,
            } => {
                let (from, bytes) = (*offset as usize, *width as usize);
                self.count_control_write(made, &msi, from, bytes, *value);
                self.count_data_write(&msi, from, bytes);
            }
            Call::Reset => self.count_extended_reset(made, &msi),
            Call::Restore(_) if is_32_bit(&msi) => self.met("image with 32-bit data restored"),
            _ => {}
        }
        if made.call.has_output() && !matches!(made.call, Call::Save(_)) {
            self.count_data(made, &msi);
        }
    }

    fn count_extended_start(&mut self, msi: &Msi, given: &Given) {
        let Some(supplied) = Layout::of_config(&given.config).msi else {
            return;
        };
        match (msi.extended_capable(), supplied.extended_enable()) {
            (true, true) => self.met("start cleared bit 10"),
            (false, true) => self.met("start kept bit 10 without bit 9"),
            _ => {}
        }
        if !msi.extended_capable() {
            return;
        }
        self.met(match (msi.is_64_bit(), msi.has_masks()) {
            (false, false) => "MSI 32-bit, 32-bit data started",
            (true, false) => "MSI 64-bit, 32-bit data started",
            (false, true) => "MSI 32-bit, masks, 32-bit data started",
            (true, true) => "MSI 64-bit, masks, 32-bit data started",
        });
        if upper_half(&given.config, msi) != 0 {
            self.met("start cleared the upper half of the data");
        }
    }

    /// Counts a write of `bytes` bytes from `from` on by what it does to bit 10.
    fn count_control_write(
        &mut self,
        made: &Made<'_>,
        msi: &Msi,
        from: usize,
        bytes: usize,
        value: u32,
    ) {
        let Some(before) = Layout::of_card(&made.card_before).msi else {
            return;
        };
        let at = msi.at + 3;
        if !(from..from + bytes).contains(&at) {
            return;
        }
        let written = value.to_le_bytes()[at - from] & (EXTENDED_ENABLE >> 8) as u8 != 0;
        match (msi.extended_capable(), before.extended_enable(), written) {
            (true, false, true) => self.met("bit 10 set by a write"),
            (true, true, false) => self.met("bit 10 cleared by a write"),
            (false, old, new) if old != new => self.met("bit 10 written without bit 9"),
            _ => {}
        }
    }

    fn count_data_write(&mut self, msi: &Msi, from: usize, bytes: usize) {
        let upper = msi.data() + 2;
        let reached = from < upper + 2 && upper < from + bytes;
        match (reached, msi.extended_capable()) {
            (true, true) if from >= upper => self.met("upper half of the data written alone"),
            (true, false) => self.met("upper half of the data written without bit 9"),
            _ => {}
        }
    }

    fn count_extended_reset(&mut self, made: &Made<'_>, msi: &Msi) {
        let before = Layout::of_card(&made.card_before).msi;
        if before.is_some_and(|before| before.extended_enable()) {
            self.met(match msi.extended_capable() {
                true => "reset cleared bit 10",
                false => "reset kept bit 10 without bit 9",
            });
        }
    }

    /// Counts the messages of a call with MSI in force.
    fn count_data(&mut self, made: &Made<'_>, msi: &Msi) {
        if Layout::of_card(made.card).mode() != Mode::Msi {
            return;
        }
        let count = made.outcome.count.unwrap_or(0);
        for packet in Packets::new(&made.out[..count]) {
            let Packet::Message { address, data, .. } = packet else {
                continue;
            };
            if is_32_bit(msi) {
                self.count_32_bit_message(made.call, address, data);
            } else if upper_half(&made.card[CONFIG_AT..], msi) != 0 {
                self.count_kept_back(msi);
            }
        }
    }

    fn count_32_bit_message(&mut self, call: &Call, address: u64, data: u32) {
        self.met("message with 32-bit data");
        if data >> 16 != 0 {
            self.met("message with 32-bit data, upper half not 0");
        }
        if address >> 32 != 0 {
            self.met("message with 32-bit data above 4 GiB");
        }
        if !matches!(call, Call::Event(_)) {
            self.met("waiting message with 32-bit data");
        }
    }

    /// Counts a message without the upper half of the data, which is not 0.
    fn count_kept_back(&mut self, msi: &Msi) {
        match (msi.extended_capable(), msi.extended_enable()) {
            (true, false) => self.met("message with bit 9 alone, upper half not 0 kept back"),
            (false, true) => self.met("message with bit 10 alone, upper half not 0 kept back"),
            _ => {}
        }
    }
}

/// Whether messages carry 32 bits of data.
fn is_32_bit(msi: &Msi) -> bool {
    msi.extended_capable() && msi.extended_enable()
}

/// The 16 bits after the data register.
fn upper_half(config: &[u8], msi: &Msi) -> u16 {
    let at = msi.data() + 2;
    u16::from_le_bytes([config[at], config[at + 1]])
}
