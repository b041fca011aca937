//! Start and reset.

use crate::packets::{write_wire, WIRE_BYTES};
use crate::registers::fresh_config;
use crate::shape::{check_shape, Shape};
use crate::sound::sound_shape;
use crate::table::fresh_table;
use crate::{Card, Outcome};

/// Starts a card.
pub fn start(
    config: &[u8; 256],
    sizes: &[u32; 6],
    events: u64,
    requester: u64,
    table: &mut [u8],
    pending: &mut [u8],
) -> (Card, Outcome) {
    let mut card = Card::zero();
    let shape = match check_shape(config, sizes, events, requester) {
        Ok(shape) => shape,
        Err(refusal) => return (card, Outcome::refused(refusal)),
    };
    // 01, no. 17: "table buffer not 16N bytes, or pending buffer not
    // 8 x (N/64 rounded up) bytes"
    if !shape.buffers_fit(table, pending) {
        return (card, Outcome::refused(17));
    }
    card.config = *config;
    card.sizes = *sizes;
    card.events = shape.events;
    card.requester = shape.requester;
    make_fresh(&mut card, &shape, table, pending);
    (card, Outcome::wrote(0))
}

/// Gives the card and buffers the state of a start.
fn make_fresh(card: &mut Card, shape: &Shape, table: &mut [u8], pending: &mut [u8]) {
    card.config = fresh_config(&card.config, shape);
    fresh_table(table);
    // 01: "Line low, wire inactive, nothing waiting."
    card.line = false;
    card.wire = false;
    card.msi_waiting = 0;
    pending.fill(0);
}

/// Resets the card.
pub fn reset(card: &mut Card, table: &mut [u8], pending: &mut [u8], out: &mut [u8]) -> Outcome {
    let Some(shape) = sound_shape(card, table, pending) else {
        return Outcome::refused(1);
    };
    // 01: "Reset sends Deassert if the wire is active, then gives the state of
    // a start with the same shape. Waiting vectors send nothing."
    let mut count = 0;
    if card.wire {
        if out.len() < WIRE_BYTES {
            return Outcome::refused(6);
        }
        count = write_wire(false, shape.pin, card.requester, out);
    }
    make_fresh(card, &shape, table, pending);
    Outcome::wrote(count)
}
