//! What a host reads before a start or a restore, and from what a card sends.
//!
//! The numbers are those of document 01. That they can be asked for is a rule of
//! the C interface, and so is each answer that document 01 does not give.

use crate::capability::{pending_bytes, table_bytes, vectors_at, walk, MSIX_ID};
use crate::image::read_image;

pub use crate::packets::{first as packet, Contents, Packet};

/// The number of MSI-X vectors, and the lengths of the buffers to lend.
#[derive(Clone, Copy, Debug, Default, PartialEq, Eq)]
pub struct Lengths {
    pub vectors: usize,
    pub table: usize,
    pub pending: usize,
}

impl Lengths {
    // 01, no. 17: "table buffer not 16N bytes, or pending buffer not
    // 8 x (N/64 rounded up) bytes"
    fn of(vectors: usize) -> Lengths {
        Lengths {
            vectors,
            table: table_bytes(vectors),
            pending: pending_bytes(vectors),
        }
    }
}

/// The lengths that a start from this configuration asks for.
pub fn config_lengths(config: &[u8; 256]) -> Lengths {
    // C interface: with a broken list, which a start refuses, all are 0.
    let Some(list) = walk(config) else {
        return Lengths::of(0);
    };
    // C interface: with ID 11h listed twice, which a start refuses, the first
    // one counts.
    let first = list.with_id(config, MSIX_ID).next();
    Lengths::of(first.map_or(0, |at| vectors_at(config, at)))
}

/// The lengths that a restore of this image asks for; `Err` is the number of
/// the refusal, 20, 21 or 22, that a restore gives.
pub fn image_lengths(image: &[u8]) -> Result<Lengths, u8> {
    let saved = read_image(image)?;
    Ok(Lengths::of(saved.shape.vectors()))
}
