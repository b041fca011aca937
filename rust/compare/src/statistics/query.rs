//! What runs of queries meet.

use super::{Statistics, Table};
use crate::call::{Call, Fields, Found, Image, Lengths, QueryCall, QUERY_KINDS};
use crate::layout::Layout;
use crate::packets::{aligned, CODE_AT, UPPER_AT};
use crate::pair::Made;
use musgarento::Packet;

/// The refusals that each kind of call can give, 0 for accepted, in the order
/// of `QUERY_KINDS`.
const POSSIBLE: [&[u8]; 3] = [&[0, 60], &[0, 20, 21, 22], &[0, 60]];

/// Other things that a run should meet.
pub const NAMED: [&str; 44] = [
    "configuration without MSI-X",
    "configuration with MSI-X",
    "configuration with MSI-X in a broken list",
    "configuration with MSI-X twice, of other sizes",
    "configuration with MSI-X past byte FFh",
    "configuration of 255 bytes or fewer",
    "configuration of 257 bytes or more",
    "configuration, N = 0",
    "configuration, N = 1",
    "configuration, N = 63",
    "configuration, N = 64",
    "configuration, N = 65",
    "configuration, N = 2048",
    "configuration, other N",
    "image, N = 0",
    "image, N = 1",
    "image, N = 63",
    "image, N = 64",
    "image, N = 65",
    "image, N = 2048",
    "image, other N",
    "image as it was saved",
    "damaged image accepted",
    "damaged image refused",
    "message below 4 GiB",
    "message above 4 GiB",
    "Assert of pin 1",
    "Assert of pin 2",
    "Assert of pin 3",
    "Assert of pin 4",
    "Deassert of pin 1",
    "Deassert of pin 2",
    "Deassert of pin 3",
    "Deassert of pin 4",
    "wire packet with a device number",
    "packet with nothing behind it",
    "packet with another behind it",
    "packet with other bytes behind it",
    "60 for no bytes",
    "60 for a packet that is cut",
    "60 for address bits 1:0",
    "60 for an upper address of 0 in the long form",
    "60 for another code of a wire packet",
    "60 for other bytes",
];

/// The places in `NAMED` of the numbers of vectors, and of the pins.
const CONFIG_N: usize = 7;
const IMAGE_N: usize = 14;
const ASSERT: usize = 26;
const DEASSERT: usize = 30;

/// The table of all calls.
pub fn tables() -> Vec<Table> {
    vec![Table::new("", &QUERY_KINDS, &POSSIBLE)]
}

impl Statistics {
    /// Counts a query.
    pub(super) fn count_query(&mut self, made: &Made<'_>) {
        let Call::Query(call) = made.call else {
            return;
        };
        let refusal = made.outcome.refusal;
        self.tables[0].count(made.call.kind(), refusal);
        match (call, made.outcome.found) {
            (QueryCall::ConfigLengths(config), Some(Found::Lengths(lengths))) => {
                self.count_config(config, refusal, lengths)
            }
            (QueryCall::ImageLengths(image), Some(Found::Lengths(lengths))) => {
                self.count_image(image, refusal, lengths)
            }
            (QueryCall::Packet(bytes), Some(Found::Packet(fields))) => match refusal {
                0 => self.count_read(bytes, &fields),
                _ => self.met(no_packet(bytes)),
            },
            _ => {}
        }
    }

    fn count_config(&mut self, config: &[u8], refusal: u8, lengths: Lengths) {
        if refusal != 0 {
            return self.met(match config.len() {
                0..=255 => "configuration of 255 bytes or fewer",
                _ => "configuration of 257 bytes or more",
            });
        }
        // The layout has the last MSI-X that is whole, of a broken list too.
        self.met(
            match (lengths.vectors, Layout::of_config(config).vectors()) {
                (0, 0) => "configuration without MSI-X",
                (0, _) => "configuration with MSI-X in a broken list",
                (_, 0) => "configuration with MSI-X past byte FFh",
                (first, last) if first != last => "configuration with MSI-X twice, of other sizes",
                _ => "configuration with MSI-X",
            },
        );
        self.met(NAMED[CONFIG_N + vectors_place(lengths)]);
    }

    fn count_image(&mut self, image: &Image, refusal: u8, lengths: Lengths) {
        if refusal == 0 {
            self.met(NAMED[IMAGE_N + vectors_place(lengths)]);
        }
        match (image, refusal) {
            (Image::Kept(_, damage), 0) if damage.is_empty() => self.met("image as it was saved"),
            (Image::Kept(..), 0) => self.met("damaged image accepted"),
            (Image::Kept(_, damage), _) if !damage.is_empty() => self.met("damaged image refused"),
            _ => {}
        }
    }

    fn count_read(&mut self, bytes: &[u8], fields: &Fields) {
        let pin = usize::from(fields.pin);
        self.met(match (pin, fields.level) {
            (0, _) if fields.address >> 32 == 0 => "message below 4 GiB",
            (0, _) => "message above 4 GiB",
            (_, 0) => NAMED[DEASSERT + pin - 1],
            _ => NAMED[ASSERT + pin - 1],
        });
        if pin != 0 && fields.requester >> 3 & 0x1F != 0 {
            self.met("wire packet with a device number");
        }
        let behind = &bytes[fields.count..];
        self.met(match Packet::read(behind) {
            Some(_) => "packet with another behind it",
            None if behind.is_empty() => "packet with nothing behind it",
            None => "packet with other bytes behind it",
        });
    }
}

/// Which of the names of numbers of vectors it is.
fn vectors_place(lengths: Lengths) -> usize {
    let edges = [0, 1, 63, 64, 65, 2048];
    let place = edges.iter().position(|&edge| edge == lengths.vectors);
    place.unwrap_or(edges.len())
}

/// Why bytes begin with no packet: what would make them one.
fn no_packet(bytes: &[u8]) -> &'static str {
    let with = |at: usize, value: u8| {
        let mut bytes = bytes.to_vec();
        bytes.iter_mut().skip(at).take(1).for_each(|b| *b = value);
        bytes
    };
    let is_packet = |bytes: &[u8]| Packet::read(bytes).is_some();
    if bytes.is_empty() {
        "60 for no bytes"
    } else if is_packet(&[bytes, &[0; 20]].concat()) {
        "60 for a packet that is cut"
    } else if is_packet(&aligned(bytes)) {
        "60 for address bits 1:0"
    } else if is_packet(&with(UPPER_AT, 1)) {
        "60 for an upper address of 0 in the long form"
    } else if is_packet(&with(CODE_AT, 0x20)) {
        "60 for another code of a wire packet"
    } else {
        "60 for other bytes"
    }
}
