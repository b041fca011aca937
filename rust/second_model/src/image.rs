//! The layout of saved images.

use crate::capability::{pending_bytes, table_bytes, word_at};
use crate::shape::Shape;
use crate::sound::{card_shape, is_sound};
use crate::Card;

// 01: "Mark "IRQ" (49 52 51), version 1 in 16 bits, flags (bit 0 line, bit 1
// wire, rest 0), E 16 bits, requester 16, MSI waiting bits 32, six sizes of 32,
// 256 stored configuration bytes, table, pending array. Numbers little-endian."
const MARK: [u8; 3] = [0x49, 0x52, 0x51];
const VERSION: u16 = 1;
const VERSION_AT: usize = 3;
const FLAGS_AT: usize = 5;
const EVENTS_AT: usize = 6;
const REQUESTER_AT: usize = 8;
const WAITING_AT: usize = 10;
const SIZES_AT: usize = 14;
const CONFIG_AT: usize = 38;
/// The length without the table and the pending array.
const FIXED: usize = 294;

// 01: "length is 294 + 16N + 8 x (N/64 rounded up), at most 33,318"
/// The length of the image of a card with `vectors` MSI-X vectors.
pub fn image_bytes(vectors: usize) -> usize {
    FIXED + table_bytes(vectors) + pending_bytes(vectors)
}

/// Writes the image at the start of `out`, which has the room.
pub fn write_image(card: &Card, table: &[u8], pending: &[u8], out: &mut [u8]) {
    out[..VERSION_AT].copy_from_slice(&MARK);
    out[VERSION_AT..FLAGS_AT].copy_from_slice(&VERSION.to_le_bytes());
    out[FLAGS_AT] = u8::from(card.line) | u8::from(card.wire) << 1;
    out[EVENTS_AT..REQUESTER_AT].copy_from_slice(&card.events.to_le_bytes());
    out[REQUESTER_AT..WAITING_AT].copy_from_slice(&card.requester.to_le_bytes());
    out[WAITING_AT..SIZES_AT].copy_from_slice(&card.msi_waiting.to_le_bytes());
    for (place, size) in out[SIZES_AT..CONFIG_AT].chunks_exact_mut(4).zip(card.sizes) {
        place.copy_from_slice(&size.to_le_bytes());
    }
    out[CONFIG_AT..FIXED].copy_from_slice(&card.config);
    let table_end = FIXED + table.len();
    out[FIXED..table_end].copy_from_slice(table);
    out[table_end..table_end + pending.len()].copy_from_slice(pending);
}

/// The card, table and pending array of an image.
pub struct Saved<'a> {
    pub shape: Shape,
    pub card: Card,
    pub table: &'a [u8],
    pub pending: &'a [u8],
}

/// Reads an image; `Err` is the number of the refusal.
pub fn read_image(image: &[u8]) -> Result<Saved<'_>, u8> {
    // 01: "20 image under 294 bytes or wrong mark;"
    if image.len() < FIXED || image[..VERSION_AT] != MARK {
        return Err(20);
    }
    // 01: "21 version not 1;"
    if half_at(image, VERSION_AT) != VERSION {
        return Err(21);
    }
    // 01: "22 any other image that no sound card saves;"
    read_sound(image).ok_or(22)
}

/// The contents of an image with the right mark and version, if they are those
/// of a sound card.
fn read_sound(image: &[u8]) -> Option<Saved<'_>> {
    let card = read_card(image);
    let shape = card_shape(&card).ok()?;
    if image.len() != image_bytes(shape.vectors()) {
        return None;
    }
    let (table, pending) = image[FIXED..].split_at(table_bytes(shape.vectors()));
    is_sound(&card, table, pending).then_some(Saved {
        shape,
        card,
        table,
        pending,
    })
}

/// The card in the fixed part of an image.
fn read_card(image: &[u8]) -> Card {
    let mut card = Card::zero();
    // 01: "flags (bit 0 line, bit 1 wire, rest 0)"
    card.line = image[FLAGS_AT] & 1 != 0;
    card.wire = image[FLAGS_AT] & 2 != 0;
    card.other_flags = image[FLAGS_AT] & !3;
    card.events = half_at(image, EVENTS_AT);
    card.requester = half_at(image, REQUESTER_AT);
    card.msi_waiting = word_at(image, WAITING_AT);
    for (i, size) in card.sizes.iter_mut().enumerate() {
        *size = word_at(image, SIZES_AT + 4 * i);
    }
    card.config.copy_from_slice(&image[CONFIG_AT..FIXED]);
    card
}

/// The little-endian 16-bit number at `at`.
fn half_at(bytes: &[u8], at: usize) -> u16 {
    u16::from_le_bytes([bytes[at], bytes[at + 1]])
}
