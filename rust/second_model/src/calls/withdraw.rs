//! Withdrawal of a waiting vector.

use crate::capability::{Msi, MsiX};
use crate::sound::sound_shape;
use crate::table::{clear_waiting, waits};
use crate::vectors::{in_force, InForce};
use crate::{Card, Outcome};

// 02: "Add a withdraw call that names a vector of the mechanism in force and
// clears its bit, saying whether it was set."
/// Withdraws a vector of the mechanism in force. The value is 1 if its waiting
/// bit was set, else 0.
pub fn withdraw(card: &mut Card, table: &[u8], pending: &mut [u8], vector: u64) -> Outcome {
    let Some(shape) = sound_shape(card, table, pending) else {
        return Outcome::refused(1);
    };
    // 01: "Bits kept by a mechanism not in force stay."
    match in_force(&card.config, &shape) {
        InForce::MsiX(msix) => withdraw_msix(&msix, pending, vector),
        InForce::Msi(msi) => withdraw_msi(card, &msi, vector),
        // 02: "new refusal 7 when the pin is in force, before 2"
        InForce::Pin => Outcome::refused(7),
    }
}

// 02: "Refusal 2 for a vector at or above N"
fn withdraw_msix(msix: &MsiX, pending: &mut [u8], vector: u64) -> Outcome {
    let below_n = usize::try_from(vector).ok().filter(|&v| v < msix.vectors);
    let Some(vector) = below_n else {
        return Outcome::refused(2);
    };
    let was_set = waits(pending, vector);
    clear_waiting(pending, vector);
    Outcome::withdrew(was_set)
}

// 02: "Refusal 2 for a vector at or above N (MSI: 2^Capable)"
fn withdraw_msi(card: &mut Card, msi: &Msi, vector: u64) -> Outcome {
    if vector >= 1 << msi.capable {
        return Outcome::refused(2);
    }
    let was_set = card.msi_waiting >> vector & 1 != 0;
    card.msi_waiting &= !(1 << vector);
    Outcome::withdrew(was_set)
}
