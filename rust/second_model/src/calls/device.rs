//! The device's side: event and line.

use crate::capability::{Msi, MsiX};
use crate::packets::Message;
use crate::settle::{owed, settle};
use crate::sound::sound_shape;
use crate::table::{msix_message, set_waiting, waits};
use crate::vectors::{granted, in_force, msi_message, msi_open, msix_open, InForce};
use crate::{Answer, Card, Outcome};

/// A device event.
pub fn event(
    card: &mut Card,
    table: &mut [u8],
    pending: &mut [u8],
    number: u64,
    out: &mut [u8],
) -> Outcome {
    let Some(shape) = sound_shape(card, table, pending) else {
        return Outcome::refused(1);
    };
    // 01, no. 2: "event number E or more"
    let below_e = u16::try_from(number).ok().filter(|&n| n < card.events);
    let Some(number) = below_e else {
        return Outcome::refused(2);
    };
    // 01: "Under MSI-X event e means vector e; under MSI, vector e mod granted."
    // The wire stays as it should be, and no other vector becomes open.
    match in_force(&card.config, &shape) {
        InForce::MsiX(msix) => msix_event(card, &msix, table, pending, usize::from(number), out),
        InForce::Msi(msi) => {
            let vector = u32::from(number) % granted(&card.config, &msi);
            msi_event(card, &msi, vector, out)
        }
        // 01: "pin in force, nothing kept"
        InForce::Pin => Outcome::answered(Answer::Lost, 0),
    }
}

/// An event that means MSI-X vector `vector`.
fn msix_event(
    card: &Card,
    msix: &MsiX,
    table: &[u8],
    pending: &mut [u8],
    vector: usize,
    out: &mut [u8],
) -> Outcome {
    if msix_open(&card.config, msix, table, vector) {
        return send(msix_message(table, vector), card.requester, out);
    }
    // 01: "shut, the waiting bit goes from 0 to 1; shut and already 1"
    if waits(pending, vector) {
        return Outcome::answered(Answer::Merged, 0);
    }
    set_waiting(pending, vector);
    Outcome::answered(Answer::Held, 0)
}

/// An event that means MSI vector `vector`.
fn msi_event(card: &mut Card, msi: &Msi, vector: u32, out: &mut [u8]) -> Outcome {
    if msi_open(&card.config, msi, vector) {
        let message = msi_message(&card.config, msi, vector);
        return send(message, card.requester, out);
    }
    // 01: "shut, the waiting bit goes from 0 to 1; shut and already 1"
    if card.msi_waiting >> vector & 1 != 0 {
        return Outcome::answered(Answer::Merged, 0);
    }
    card.msi_waiting |= 1 << vector;
    Outcome::answered(Answer::Held, 0)
}

// 01: "open, one packet"
fn send(message: Message, requester: u16, out: &mut [u8]) -> Outcome {
    if out.len() < message.bytes() {
        return Outcome::refused(6);
    }
    Outcome::answered(Answer::Sent, message.write(requester, out))
}

/// Sets the device's line.
pub fn line(
    card: &mut Card,
    table: &mut [u8],
    pending: &mut [u8],
    level: bool,
    out: &mut [u8],
) -> Outcome {
    let Some(shape) = sound_shape(card, table, pending) else {
        return Outcome::refused(1);
    };
    // 01: "Setting the line to the level it already has is accepted and sends
    // nothing." Nothing is owed then, as the card was sound.
    let before = card.line;
    card.line = level;
    if out.len() < owed(card, &shape, table, pending) {
        card.line = before;
        return Outcome::refused(6);
    }
    Outcome::wrote(settle(card, &shape, table, pending, out))
}
