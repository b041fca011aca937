//! What is sent after an accepted write or line call.

use crate::capability::Msi;
use crate::packets::{write_wire, WIRE_BYTES};
use crate::shape::Shape;
use crate::table::{clear_waiting, entry_unmasked, msix_message, next_waiting};
use crate::vectors::{in_force, msi_message, msi_open, msix_unmasked, wire_should_be, InForce};
use crate::Card;

/// The number of bytes that `settle` will write.
pub fn owed(card: &Card, shape: &Shape, table: &[u8], pending: &[u8]) -> usize {
    let mut bytes = 0;
    if wire_should_be(card, shape) != card.wire {
        bytes += WIRE_BYTES;
    }
    each_open_waiting(card, shape, table, pending, |message_bytes| {
        bytes += message_bytes;
    });
    bytes
}

/// Whether an open vector waits.
pub fn open_waits(card: &Card, shape: &Shape, table: &[u8], pending: &[u8]) -> bool {
    let mut found = false;
    each_open_waiting(card, shape, table, pending, |_| found = true);
    found
}

/// Hands on the packet length of each open waiting vector. Only vectors of the
/// mechanism in force can be open.
fn each_open_waiting(
    card: &Card,
    shape: &Shape,
    table: &[u8],
    pending: &[u8],
    mut found: impl FnMut(usize),
) {
    match in_force(&card.config, shape) {
        InForce::MsiX(msix) if msix_unmasked(&card.config, &msix) => {
            let mut next = next_waiting(pending, 0);
            while let Some(vector) = next {
                if entry_unmasked(table, vector) {
                    found(msix_message(table, vector).bytes());
                }
                next = next_waiting(pending, vector + 1);
            }
        }
        InForce::Msi(msi) => {
            for vector in 0..32 {
                if card.msi_waiting >> vector & 1 != 0 && msi_open(&card.config, &msi, vector) {
                    found(msi_message(&card.config, &msi, vector).bytes());
                }
            }
        }
        _ => {}
    }
}

// 01: "After every accepted write, line call or event: if the wire differs
// from what it should be, one wire packet; then each open waiting vector sends
// one packet and clears its bit, and the lowest-numbered vector goes first."
/// Sends what is owed into `out`, which has the room, and gives its length.
pub fn settle(
    card: &mut Card,
    shape: &Shape,
    table: &[u8],
    pending: &mut [u8],
    out: &mut [u8],
) -> usize {
    // 01: "Packets stand one after another from the start of the output;
    // bytes behind them keep their contents."
    let mut count = 0;
    let wire = wire_should_be(card, shape);
    if wire != card.wire {
        count += write_wire(wire, shape.pin, card.requester, out);
        card.wire = wire;
    }
    match in_force(&card.config, shape) {
        InForce::MsiX(msix) if msix_unmasked(&card.config, &msix) => {
            count += send_msix(card.requester, table, pending, &mut out[count..]);
        }
        InForce::Msi(msi) => count += send_msi(card, &msi, &mut out[count..]),
        _ => {}
    }
    count
}

/// Sends each waiting MSI-X vector whose own mask is 0.
fn send_msix(requester: u16, table: &[u8], pending: &mut [u8], out: &mut [u8]) -> usize {
    let mut count = 0;
    let mut next = next_waiting(pending, 0);
    while let Some(vector) = next {
        if entry_unmasked(table, vector) {
            count += msix_message(table, vector).write(requester, &mut out[count..]);
            clear_waiting(pending, vector);
        }
        next = next_waiting(pending, vector + 1);
    }
    count
}

/// Sends each open waiting MSI vector.
fn send_msi(card: &mut Card, msi: &Msi, out: &mut [u8]) -> usize {
    let mut count = 0;
    for vector in 0..32 {
        if card.msi_waiting >> vector & 1 != 0 && msi_open(&card.config, msi, vector) {
            let message = msi_message(&card.config, msi, vector);
            count += message.write(card.requester, &mut out[count..]);
            card.msi_waiting &= !(1 << vector);
        }
    }
    count
}
