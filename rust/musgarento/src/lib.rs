//! A safe interface to the proved model of a PCIe card's interrupts: the pin
//! (INTx), MSI and MSI-X of one endpoint function; of a switch between such
//! cards and the host; and of a player for logs of a card's calls.
//!
//! A [`Card`] is started from 256 configuration bytes and what else [`Start`]
//! has, takes configuration and BAR accesses, device events, line levels and
//! withdrawals of waiting vectors, and gives register values, [`Answer`]s and
//! [`Packet`]s. It can be saved as an image at any time and restored from it.
//!
//! ```
//! use musgarento::{Card, Packet, Start};
//!
//! let mut config = [0; 256];
//! config[0x3D] = 1; // The card uses pin 1, INTA.
//! let mut card = Card::start(&Start {
//!     config,
//!     sizes: [0; 6],
//!     events: 1,
//!     requester: 0x0100,
//! })?;
//! let packets: Vec<Packet> = card.line(true).collect();
//! assert_eq!(packets, [Packet::Assert { requester: 0x0100, pin: 1 }]);
//! # Ok::<(), musgarento::StartError>(())
//! ```
//!
//! A [`Switch`] has up to eight cards at its ports, takes what they send and
//! gives what goes upstream.
//!
//! A [`Recorded`] card writes a log of its calls, and a [`Player`] plays a log
//! on a card; [`Record`] is one call in it.
//!
//! A call that can be refused has an error type with the refusals that it can
//! meet, and no other: [`StartError`], [`ConfigError`], [`BarError`],
//! [`EventError`], [`WithdrawError`], [`ImageError`], [`RestoreError`],
//! [`PortError`], [`LogError`], [`RecordError`]. Line, reset and save are never refused. Each
//! of these errors converts into a [`Refusal`]:
//!
//! ```
//! use musgarento::{Card, Refusal};
//!
//! fn play(card: &mut Card) -> Result<u32, Refusal> {
//!     card.config_write(0x04, 2, 0x0006)?;
//!     card.event(0)?;
//!     Ok(card.config_read(0x04, 4)?)
//! }
//! ```
//!
//! The types of the arguments leave out only numbers that the rules refuse. A
//! host that has wider ones converts them with `try_from`, since `as` would cut
//! them, or calls the functions of [`raw`], which take 64 bits.
//!
//! The model itself is the static libraries `capi`, `capi_switch`, `capi_log` and
//! `capi_query`, proved in Rattle; this crate only lends them buffers, of the
//! lengths that they ask for, and names their numbers.

#![warn(missing_docs)]
#![deny(unsafe_code)]

mod card;
mod layout;
mod packet;
mod player;
pub mod raw;
mod record;
mod recorded;
mod refusal;
mod start;
mod switch;

pub use card::{Answer, Card, Event};
pub use layout::{
    CARD_BYTES, IMAGE_BYTES, LOG_HEADER_BYTES, PACKET_BYTES, PLAYER_BYTES, RECORD_BYTES,
    SWITCH_BYTES, SWITCH_PACKET_BYTES,
};
pub use packet::{Packet, Packets};
pub use player::{Call, Played, Player};
pub use record::{Record, Records};
pub use recorded::{BeginError, EndedBy, Recorded};
pub use refusal::{
    BarError, ConfigError, EventError, ImageError, LogError, PortError, RecordError, Refusal,
    RestoreError, StartError, WithdrawError,
};
pub use start::Start;
pub use switch::Switch;
