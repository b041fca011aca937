//! Save and restore.

use crate::image::{image_bytes, read_image, write_image};
use crate::sound::sound_shape;
use crate::{Card, Outcome};

/// Saves the card and buffers as an image.
pub fn save(card: &Card, table: &[u8], pending: &[u8], out: &mut [u8]) -> Outcome {
    let Some(shape) = sound_shape(card, table, pending) else {
        return Outcome::refused(1);
    };
    let count = image_bytes(shape.vectors());
    if out.len() < count {
        return Outcome::refused(6);
    }
    // 01: "It stands at the start of the output, and bytes behind it keep
    // their contents."
    write_image(card, table, pending, out);
    Outcome::wrote(count)
}

/// Restores the card and buffers from an image.
pub fn restore(card: &mut Card, table: &mut [u8], pending: &mut [u8], image: &[u8]) -> Outcome {
    let saved = match read_image(image) {
        Ok(saved) => saved,
        Err(refusal) => return Outcome::refused(refusal),
    };
    // 01: "17 lent buffers of other lengths"
    if !saved.shape.buffers_fit(table, pending) {
        return Outcome::refused(17);
    }
    // 01: "Restore sends nothing; the host restores its own view of the wire."
    *card = saved.card;
    table.copy_from_slice(saved.table);
    pending.copy_from_slice(saved.pending);
    Outcome::wrote(0)
}
