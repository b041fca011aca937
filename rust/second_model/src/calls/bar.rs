//! BAR read and write.

use crate::fields::memory_space;
use crate::settle::{owed, settle};
use crate::shape::Shape;
use crate::sound::sound_shape;
use crate::table::{read_bytes, write_table};
use crate::{Card, Outcome};

/// A place in one of the two lent buffers.
enum Place {
    Table(usize),
    Pending(usize),
}

// 01, no. 4: "BAR above 5, width not 4 or 8, offset not a multiple, or outside
// table and pending array"
/// The place and width of an accepted access.
fn bar_place(shape: &Shape, bar: u64, offset: u64, width: u64) -> Option<(Place, usize)> {
    if bar > 5 || !matches!(width, 4 | 8) || !offset.is_multiple_of(width) {
        return None;
    }
    let msix = shape.msix?;
    let place = match msix.table.place(bar, offset, width) {
        Some(at) => Place::Table(at),
        None => Place::Pending(msix.pending.place(bar, offset, width)?),
    };
    Some((place, usize::try_from(width).ok()?))
}

/// Reads the table or the pending array.
pub fn bar_read(
    card: &Card,
    table: &[u8],
    pending: &[u8],
    bar: u64,
    offset: u64,
    width: u64,
) -> Outcome {
    let Some(shape) = sound_shape(card, table, pending) else {
        return Outcome::refused(1);
    };
    let Some((place, width)) = bar_place(&shape, bar, offset, width) else {
        return Outcome::refused(4);
    };
    // 01, no. 5: "BAR access with Command bit 1 clear"
    if !memory_space(&card.config) {
        return Outcome::refused(5);
    }
    Outcome::read(match place {
        Place::Table(at) => read_bytes(table, at, width),
        Place::Pending(at) => read_bytes(pending, at, width),
    })
}

/// Writes the table or the pending array.
#[allow(clippy::too_many_arguments)]
pub fn bar_write(
    card: &mut Card,
    table: &mut [u8],
    pending: &mut [u8],
    bar: u64,
    offset: u64,
    width: u64,
    value: u64,
    out: &mut [u8],
) -> Outcome {
    let Some(shape) = sound_shape(card, table, pending) else {
        return Outcome::refused(1);
    };
    let Some((place, width)) = bar_place(&shape, bar, offset, width) else {
        return Outcome::refused(4);
    };
    // 01, no. 5: "BAR access with Command bit 1 clear"
    if !memory_space(&card.config) {
        return Outcome::refused(5);
    }
    // 01: "Writes to the pending array are accepted and change nothing
    // (house)." Nothing is owed then, as the card was sound.
    let Place::Table(at) = place else {
        return Outcome::wrote(0);
    };
    let before = read_bytes(table, at, width);
    write_table(table, at, width, value);
    // 01, no. 6: "output shorter than this call's packets or image"
    if out.len() < owed(card, &shape, table, pending) {
        write_table(table, at, width, before);
        return Outcome::refused(6);
    }
    // 01: "The values sent are those after the write."
    Outcome::wrote(settle(card, &shape, table, pending, out))
}
