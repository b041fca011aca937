//! Lengths and places, and the lengths of the buffers that a card asks for.

use crate::raw;
use crate::refusal::{accepted, never_refused, ImageError};
use std::ops::Range;

/// The bytes of a card in the C interface.
pub const CARD_BYTES: usize = 289;

/// The bytes of a switch in the C interface.
pub const SWITCH_BYTES: usize = 10;

/// The bytes of a player of a log in the C interface.
pub const PLAYER_BYTES: usize = 25;

/// Where the fields stand in a card's bytes.
pub const EVENTS_AT: usize = 1;
pub const REQUESTER_AT: usize = 3;
pub const MSI_WAITING_AT: Range<usize> = 5..9;
pub const COMMAND_AT: usize = 33 + 0x04;

/// Where the ports' wires stand in a switch's bytes.
pub const PORTS_AT: usize = 2;

/// Where the fields stand in a player's bytes.
pub const STAGE_AT: usize = 0;
pub const TAKEN_AT: usize = 1;
pub const PART_AT: usize = 2;
pub const RECORDS_AT: usize = 17;

/// The most bytes of packets that one call of a card makes.
pub const PACKET_BYTES: usize = 40_976;

/// The most bytes of packets that one call of a switch sends upstream.
pub const SWITCH_PACKET_BYTES: usize = 64;

/// The bytes of the beginning of a log: mark and version.
pub const LOG_HEADER_BYTES: usize = 5;

/// The bytes of the longest record of a log.
pub const RECORD_BYTES: usize = 15;

/// The length of the longest image.
pub const IMAGE_BYTES: usize = 33_318;

/// The bytes of an image without the table and the pending array.
pub const FIXED_BYTES: usize = 294;

/// The most vectors that MSI has.
const MSI_VECTORS: usize = 32;

/// The bytes of a wire packet, and of the longest message.
const WIRE_BYTES: usize = 16;
const MESSAGE_BYTES: usize = 20;

/// The number of a card's MSI-X vectors, and the lengths of its buffers.
#[derive(Clone, Copy, Debug, Default, PartialEq, Eq)]
pub struct Lengths {
    pub vectors: usize,
    pub table: usize,
    pub pending: usize,
}

impl Lengths {
    /// The lengths that a start from this configuration asks for. Of one with a
    /// broken list, which a start refuses, all are 0.
    pub fn of_config(config: &[u8; 256]) -> Lengths {
        let mut lengths = Lengths::default();
        never_refused(raw::config_lengths(
            config,
            &mut lengths.vectors,
            &mut lengths.table,
            &mut lengths.pending,
        ));
        lengths
    }

    /// The lengths that a restore of this image asks for.
    pub fn of_image(image: &[u8]) -> Result<Lengths, ImageError> {
        let mut lengths = Lengths::default();
        accepted(raw::image_lengths(
            image,
            &mut lengths.vectors,
            &mut lengths.table,
            &mut lengths.pending,
        ))?;
        Ok(lengths)
    }
}

/// The most bytes of packets that a call makes on a card of `vectors` MSI-X
/// vectors: a wire packet, and a message of each vector of MSI or of MSI-X.
pub fn packet_bytes(vectors: usize) -> usize {
    WIRE_BYTES + MESSAGE_BYTES * vectors.max(MSI_VECTORS)
}

#[cfg(test)]
mod tests {
    use super::*;

    fn vectors(config: &[u8; 256]) -> usize {
        Lengths::of_config(config).vectors
    }

    #[test]
    fn vectors_of_a_list() {
        let mut config = [0; 256];
        config[0x34] = 0x43;
        config[0x40..0x42].copy_from_slice(&[0x01, 0xFC]);
        config[0xFC..].copy_from_slice(&[0x11, 0x00, 0xFF, 0xC7]);
        assert_eq!(vectors(&config), 0);
        config[0x06] = 0x10;
        assert_eq!(vectors(&config), 2048);
        config[0xFC] = 0x10;
        assert_eq!(vectors(&config), 0);
    }

    #[test]
    fn vectors_of_broken_lists() {
        let mut config = [0; 256];
        config[0x06] = 0x10;
        config[0x34] = 0x3C;
        assert_eq!(vectors(&config), 0);
        config[0x34] = 0x40;
        config[0x41] = 0x40;
        assert_eq!(vectors(&config), 0);
        config[0x40] = 0x11;
        assert_eq!(vectors(&config), 0);
    }

    #[test]
    fn longest() {
        let mut config = [0; 256];
        config[0x06] = 0x10;
        config[0x34] = 0x40;
        config[0x40..0x44].copy_from_slice(&[0x11, 0x00, 0xFF, 0x07]);
        let lengths = Lengths::of_config(&config);
        assert_eq!(FIXED_BYTES + lengths.table + lengths.pending, IMAGE_BYTES);
        assert_eq!(packet_bytes(lengths.vectors), PACKET_BYTES);
    }
}
