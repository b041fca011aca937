//! Configuration read and write.

use crate::registers::{read_config, write_config};
use crate::settle::{owed, settle};
use crate::sound::sound_shape;
use crate::{Card, Outcome};

// 01, no. 3: "configuration width not 1, 2, 4, offset not a multiple of it, or
// above 255"
/// The offset and width of an accepted access.
fn config_place(offset: u64, width: u64) -> Option<(usize, usize)> {
    if !matches!(width, 1 | 2 | 4) || !offset.is_multiple_of(width) || offset > 255 {
        return None;
    }
    Some((usize::try_from(offset).ok()?, usize::try_from(width).ok()?))
}

/// Reads configuration bytes.
pub fn config_read(card: &Card, table: &[u8], pending: &[u8], offset: u64, width: u64) -> Outcome {
    let Some(shape) = sound_shape(card, table, pending) else {
        return Outcome::refused(1);
    };
    let Some((offset, width)) = config_place(offset, width) else {
        return Outcome::refused(3);
    };
    Outcome::read(u64::from(read_config(card, &shape, offset, width)))
}

/// Writes configuration bytes.
pub fn config_write(
    card: &mut Card,
    table: &mut [u8],
    pending: &mut [u8],
    offset: u64,
    width: u64,
    value: u32,
    out: &mut [u8],
) -> Outcome {
    let Some(shape) = sound_shape(card, table, pending) else {
        return Outcome::refused(1);
    };
    let Some((offset, width)) = config_place(offset, width) else {
        return Outcome::refused(3);
    };
    let before = card.config;
    write_config(&mut card.config, &shape, offset, width, value);
    // 01, no. 6: "output shorter than this call's packets or image"
    if out.len() < owed(card, &shape, table, pending) {
        card.config = before;
        return Outcome::refused(6);
    }
    // 01: "The values sent are those after the write."
    Outcome::wrote(settle(card, &shape, table, pending, out))
}
