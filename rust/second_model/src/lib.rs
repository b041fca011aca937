//! A second, independent model of the interrupts of one PCIe endpoint function.
//!
//! Each rule stands beside the sentence of document 01 that it follows,
//! marked `01:`. Doubts about the wording are listed in `READINGS.md`. A rule
//! that the C interface adds is marked `C interface:`.
//!
//! The card is that of document 01 with two requests of document 02: request
//! 3, withdrawals, and request 6, 32-bit MSI data. [`log`] is a model of
//! request 1 of document 02, a player of recorded calls, and [`switch`] of
//! request 4, a switch between cards and host; a sentence of that document is
//! marked `02:`. [`query`] reads lengths and packets for a host.
//!
//! Numbers that a caller hands in may be wider than their fields, and each rule
//! is applied to the whole number.

#![forbid(unsafe_code)]

mod calls;
mod capability;
mod fields;
mod image;
pub mod log;
mod packets;
pub mod query;
mod registers;
mod settle;
mod shape;
mod sound;
pub mod switch;
mod table;
mod vectors;

pub use calls::{
    bar_read, bar_write, config_read, config_write, event, line, reset, restore, save, start,
    withdraw,
};
pub use sound::is_sound;

// 01: "No call makes more than 40,976 bytes."
/// The most bytes that one call writes: one wire packet and 2,048 long messages.
pub const ROOM: usize = 40_976;

// 01: "All 256 configuration bytes are held in the card's state; the two
// buffers are lent at each call."
/// The state of a card, without its table and pending array.
#[derive(Clone, Debug, PartialEq, Eq)]
pub struct Card {
    pub config: [u8; 256],
    pub sizes: [u32; 6],
    pub events: u16,
    pub requester: u16,
    pub line: bool,
    pub wire: bool,
    /// Bits 7:2 of the flags; a sound card has none of them.
    pub other_flags: u8,
    pub msi_waiting: u32,
}

impl Card {
    // 01: "A refused start hands out a card whose fields are all 0"
    fn zero() -> Card {
        Card {
            config: [0; 256],
            sizes: [0; 6],
            events: 0,
            requester: 0,
            line: false,
            wire: false,
            other_flags: 0,
            msi_waiting: 0,
        }
    }
}

// 01: "An accepted event answers sent, held, merged or lost"
/// What became of an accepted event.
#[derive(Clone, Copy, Debug, PartialEq, Eq)]
pub enum Answer {
    Sent,
    Held,
    Merged,
    Lost,
}

/// The result of a call. Refusal 0 is accepted; `answer` is given only for an
/// accepted event; `value` is 0 but for an accepted read, and 1 for an accepted
/// withdrawal whose bit was set; `count` is the number of bytes written to the
/// output.
#[derive(Clone, Copy, Debug, PartialEq, Eq)]
pub struct Outcome {
    pub refusal: u8,
    pub answer: Option<Answer>,
    pub value: u64,
    pub count: usize,
}

impl Outcome {
    // 01: "reads and byte counts give 0 beside it"
    fn refused(refusal: u8) -> Outcome {
        Outcome {
            refusal,
            answer: None,
            value: 0,
            count: 0,
        }
    }

    fn wrote(count: usize) -> Outcome {
        Outcome {
            refusal: 0,
            answer: None,
            value: 0,
            count,
        }
    }

    fn read(value: u64) -> Outcome {
        Outcome {
            refusal: 0,
            answer: None,
            value,
            count: 0,
        }
    }

    // 02: "saying whether it was set"
    fn withdrew(was_set: bool) -> Outcome {
        Outcome::read(u64::from(was_set))
    }

    fn answered(answer: Answer, count: usize) -> Outcome {
        Outcome {
            refusal: 0,
            answer: Some(answer),
            value: 0,
            count,
        }
    }
}
