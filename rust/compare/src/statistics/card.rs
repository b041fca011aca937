//! What runs of cards meet.

use super::{Statistics, Table};
use crate::call::{Call, Image, Room, CARD_KINDS};
use crate::layout::{Layout, Mode};
use crate::pair::Made;
use crate::wide;
use crate::world::ROOM;
use musgarento::{Packet, Packets};

/// The refusals that each kind of call can give, 0 for accepted, in the order
/// of `CARD_KINDS`.
const POSSIBLE: [&[u8]; 11] = [
    &[0, 10, 11, 12, 13, 14, 15, 16, 17, 60],
    &[0, 1, 3, 60],
    &[0, 1, 3, 6, 60],
    &[0, 1, 4, 5, 60],
    &[0, 1, 4, 5, 6, 60],
    &[0, 1, 2, 6, 60],
    &[0, 1, 6, 60],
    &[0, 1, 6, 60],
    &[0, 1, 6, 60],
    &[0, 17, 20, 21, 22, 60],
    &[0, 1, 2, 7, 60],
];

/// The same on a card with other flags than line and wire.
const POSSIBLE_WITH_FLAGS: [&[u8]; 11] = [
    &[0, 10, 11, 12, 13, 14, 15, 16, 17, 60],
    &[1, 60],
    &[1, 60],
    &[1, 60],
    &[1, 60],
    &[1, 60],
    &[1, 60],
    &[1, 60],
    &[1, 60],
    &[0, 17, 20, 21, 22, 60],
    &[1, 60],
];

/// Other things that a run should meet.
pub const NAMED: [&str; 87] = [
    "MSI 32-bit started",
    "MSI 64-bit started",
    "MSI 32-bit, masks started",
    "MSI 64-bit, masks started",
    "pin only started",
    "MSI and MSI-X started",
    "N = 0 started",
    "N = 1 started",
    "N = 63 started",
    "N = 64 started",
    "N = 65 started",
    "N = 2048 started",
    "other N started",
    "MSI-X event sent",
    "MSI-X event held",
    "MSI-X event merged",
    "MSI event sent",
    "MSI event held",
    "MSI event merged",
    "pin event lost",
    "message below 4 GiB",
    "message above 4 GiB",
    "Assert",
    "Deassert",
    "call with 1 packet",
    "call with 2 to 31 packets",
    "call with 32 to 2047 packets",
    "call with 2048 packets or more",
    "call with 40976 bytes of packets",
    "wire packet before messages",
    "exact output accepted",
    "longer output accepted",
    "output one byte short refused",
    "own image restored",
    "damaged image restored",
    "foreign image restored",
    "damaged image refused",
    "E wider than 16 bits refused",
    "requester wider than 16 bits refused",
    "config width wider than 8 bits refused",
    "config offset wider than 16 bits refused",
    "BAR wider than 8 bits refused",
    "BAR offset wider than 32 bits refused",
    "BAR width wider than 8 bits refused",
    "event wider than 16 bits refused",
    "level 256, or a multiple of it, is high",
    "MSI 32-bit, 32-bit data started",
    "MSI 64-bit, 32-bit data started",
    "MSI 32-bit, masks, 32-bit data started",
    "MSI 64-bit, masks, 32-bit data started",
    "start cleared bit 10",
    "start cleared the upper half of the data",
    "start kept bit 10 without bit 9",
    "bit 10 set by a write",
    "bit 10 cleared by a write",
    "bit 10 written without bit 9",
    "upper half of the data written alone",
    "upper half of the data written without bit 9",
    "message with 32-bit data",
    "message with 32-bit data, upper half not 0",
    "message with 32-bit data above 4 GiB",
    "waiting message with 32-bit data",
    "message with bit 9 alone, upper half not 0 kept back",
    "message with bit 10 alone, upper half not 0 kept back",
    "reset cleared bit 10",
    "reset kept bit 10 without bit 9",
    "image with 32-bit data restored",
    "MSI-X withdrawal, bit was set",
    "MSI-X withdrawal, bit was not set",
    "MSI-X withdrawal refused with 1",
    "MSI-X withdrawal refused with 2",
    "MSI-X withdrawal of N - 1, bit was set",
    "MSI-X withdrawal of N refused",
    "MSI-X withdrawal with MSI switched on too",
    "MSI-X withdrawal, MSI bit of that number kept",
    "MSI withdrawal, bit was set",
    "MSI withdrawal, bit was not set",
    "MSI withdrawal refused with 1",
    "MSI withdrawal refused with 2",
    "MSI withdrawal of 2^Capable - 1, bit was set",
    "MSI withdrawal of 2^Capable refused",
    "MSI withdrawal at or above granted, bit was set",
    "MSI withdrawal, MSI-X bit of that number kept",
    "pin withdrawal refused with 1",
    "pin withdrawal refused with 7",
    "pin withdrawal refused with 7 before 2",
    "vector wider than 16 bits refused",
];

/// The places of the tables.
const CALLS: usize = 0;
const WITH_FLAGS: usize = 1;

/// The tables: all calls, and those on a card with other flags than line and
/// wire.
pub fn tables() -> Vec<Table> {
    vec![
        Table::new("", &CARD_KINDS, &POSSIBLE),
        Table::new(" over other flags", &CARD_KINDS, &POSSIBLE_WITH_FLAGS),
    ]
}

impl Statistics {
    /// Counts a call of a card.
    pub(super) fn count_card(&mut self, made: &Made<'_>) {
        let (kind, refusal) = (made.call.kind(), made.outcome.refusal);
        self.tables[CALLS].count(kind, refusal);
        if made.other_flags != 0 {
            self.tables[WITH_FLAGS].count(kind, refusal);
        }
        let accepted = refusal == 0;
        match made.call {
            Call::Start(_) if accepted => self.count_start(&Layout::of_card(made.card)),
            Call::Restore(image) => self.count_restore(image, accepted),
            Call::Event(_) if accepted => self.count_event(made),
            Call::Withdraw(vector) => self.count_withdrawal(made, *vector),
            _ => {}
        }
        if made.call.has_output() {
            self.count_output(made);
        }
        if let Some(name) = wide::met(made) {
            self.met(name);
        }
        if accepted {
            self.count_extended(made);
        }
    }

    fn count_start(&mut self, layout: &Layout) {
        if let Some(msi) = layout.msi {
            self.met(match (msi.is_64_bit(), msi.has_masks()) {
                (false, false) => "MSI 32-bit started",
                (true, false) => "MSI 64-bit started",
                (false, true) => "MSI 32-bit, masks started",
                (true, true) => "MSI 64-bit, masks started",
            });
        }
        match (layout.msi, layout.msix) {
            (None, None) => self.met("pin only started"),
            (Some(_), Some(_)) => self.met("MSI and MSI-X started"),
            _ => {}
        }
        self.met(match layout.vectors() {
            0 => "N = 0 started",
            1 => "N = 1 started",
            63 => "N = 63 started",
            64 => "N = 64 started",
            65 => "N = 65 started",
            2048 => "N = 2048 started",
            _ => "other N started",
        });
    }

    fn count_restore(&mut self, image: &Image, accepted: bool) {
        match (image, accepted) {
            (Image::Kept(_, damage), true) if damage.is_empty() => self.met("own image restored"),
            (Image::Kept(..), true) => self.met("damaged image restored"),
            (Image::Kept(..), false) => self.met("damaged image refused"),
            (Image::Bytes(_), true) => self.met("foreign image restored"),
            (Image::Bytes(_), false) => {}
        }
    }

    fn count_event(&mut self, made: &Made<'_>) {
        let mode = Layout::of_card(made.card).mode();
        match (mode, made.outcome.answer) {
            (Mode::MsiX, Some(1)) => self.met("MSI-X event sent"),
            (Mode::MsiX, Some(2)) => self.met("MSI-X event held"),
            (Mode::MsiX, Some(3)) => self.met("MSI-X event merged"),
            (Mode::Msi, Some(1)) => self.met("MSI event sent"),
            (Mode::Msi, Some(2)) => self.met("MSI event held"),
            (Mode::Msi, Some(3)) => self.met("MSI event merged"),
            (Mode::Pin, Some(4)) => self.met("pin event lost"),
            _ => {}
        }
    }

    fn count_output(&mut self, made: &Made<'_>) {
        let count = made.outcome.count.unwrap_or(0);
        match (made.outcome.refusal, made.room) {
            (6, Room::Short) => self.met("output one byte short refused"),
            (0, _) if count > 0 && made.out.len() == count => self.met("exact output accepted"),
            (0, _) if count > 0 => self.met("longer output accepted"),
            _ => {}
        }
        if !matches!(made.call, Call::Save(_)) {
            self.count_packets(&made.out[..count]);
        }
    }

    fn count_packets(&mut self, bytes: &[u8]) {
        let mut wire = false;
        let mut messages = 0;
        for packet in Packets::new(bytes) {
            match packet {
                Packet::Message { address, .. } => {
                    messages += 1;
                    self.met(if address >> 32 == 0 {
                        "message below 4 GiB"
                    } else {
                        "message above 4 GiB"
                    });
                }
                Packet::Assert { .. } => {
                    wire = true;
                    self.met("Assert");
                }
                Packet::Deassert { .. } => {
                    wire = true;
                    self.met("Deassert");
                }
            }
        }
        if bytes.len() == ROOM {
            self.met("call with 40976 bytes of packets");
        }
        if wire && messages > 0 {
            self.met("wire packet before messages");
        }
        match messages + usize::from(wire) {
            0 => {}
            1 => self.met("call with 1 packet"),
            2..=31 => self.met("call with 2 to 31 packets"),
            32..=2047 => self.met("call with 32 to 2047 packets"),
            _ => self.met("call with 2048 packets or more"),
        }
    }
}
