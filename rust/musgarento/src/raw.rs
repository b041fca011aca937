//! The C interface as safe functions on slices, one for each function of
//! `include/musgarento.h` and with its parameters.
//!
//! A slice stands for a pointer and a length; slices of any length may be
//! handed in. Each function returns 0 or the number of the refusal. A number
//! that a rule is about has 64 bits, and the rule is applied to all of them: a
//! width of 260 is not a width of 4, and port 256 is not port 0. [`Card`],
//! [`Switch`], [`Player`] and [`Recorded`] are the interface to use; this one is
//! for hosts that keep the bytes themselves, and for tests of the interface.
//!
//! [`Card`]: crate::Card
//! [`Switch`]: crate::Switch
//! [`Player`]: crate::Player
//! [`Recorded`]: crate::Recorded
#![allow(unsafe_code)]
#![allow(clippy::too_many_arguments)]

// In all functions of this module each pointer comes from a slice and goes with
// that slice's length, or comes from a reference to one number. So it is not
// null, it is valid for the call, and what is written overlaps nothing else.
// The C functions take any contents and any lengths, and keep no pointer.

mod card;
mod log;
mod query;
mod switch;

pub use card::{
    bar_read, bar_write, config_read, config_write, event, line, reset, restore, save, start,
    withdraw,
};
pub use log::{log_begin, log_record, play};
pub use query::{config_lengths, image_lengths, packet, PACKET_MESSAGE, PACKET_WIRE};
pub use switch::{switch_down, switch_packet, switch_start};
