//! Which cards are sound.

use crate::registers::zero_bits;
use crate::settle::open_waits;
use crate::shape::{check_shape, Shape};
use crate::table::{table_zeros, waits};
use crate::vectors::wire_should_be;
use crate::Card;

/// Whether the card with these buffers is sound.
pub fn is_sound(card: &Card, table: &[u8], pending: &[u8]) -> bool {
    sound_shape(card, table, pending).is_some()
}

// 01, refusal no. 1: "card not sound (all calls but start and restore)"
/// The shape of a sound card; `None` for any other.
pub fn sound_shape(card: &Card, table: &[u8], pending: &[u8]) -> Option<Shape> {
    // 01: "A card is sound if starting accepts its shape and buffers,"
    let shape = card_shape(card).ok()?;
    // C interface: a card with another flag than line and wire is not sound.
    // 01: "bits stored as 0 by the rules above are 0, waiting bits at or above
    // N (MSI: 2^Capable, or any where there is no MSI) are 0, the wire is as
    // it should be, and no open vector waits."
    let sound = shape.buffers_fit(table, pending)
        && card.other_flags == 0
        && config_zeros(card, &shape)
        && table_zeros(table)
        && waiting_zeros(card, &shape, pending)
        && card.wire == wire_should_be(card, &shape)
        && !open_waits(card, &shape, table, pending);
    sound.then_some(shape)
}

/// The checks 10 to 16 of a card.
pub fn card_shape(card: &Card) -> Result<Shape, u8> {
    let (events, requester) = (u64::from(card.events), u64::from(card.requester));
    check_shape(&card.config, &card.sizes, events, requester)
}

/// Whether the configuration bits stored as 0 are 0.
fn config_zeros(card: &Card, shape: &Shape) -> bool {
    let zero = zero_bits(shape);
    let pairs = card.config.iter().zip(&zero);
    pairs.fold(0, |found, (byte, zero)| found | byte & zero) == 0
}

/// Whether the waiting bits of vectors that the card does not have are 0.
fn waiting_zeros(card: &Card, shape: &Shape, pending: &[u8]) -> bool {
    let msi_bits = shape.msi.map_or(0, |msi| msi.capable_bits());
    card.msi_waiting & !msi_bits == 0
        && (shape.vectors()..8 * pending.len()).all(|vector| !waits(pending, vector))
}
