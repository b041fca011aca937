//! The card.

use crate::layout::{
    packet_bytes, Lengths, CARD_BYTES, COMMAND_AT, EVENTS_AT, FIXED_BYTES, MSI_WAITING_AT,
    REQUESTER_AT,
};
use crate::packet::Packets;
use crate::raw;
use crate::refusal::{
    accepted, never_refused, BarError, ConfigError, EventError, ImageError, RestoreError,
    StartError, WithdrawError,
};
use crate::start::Start;
use std::fmt;

/// What became of an accepted event.
#[derive(Clone, Copy, Debug, PartialEq, Eq, Hash)]
#[repr(u8)]
pub enum Answer {
    /// The vector was open: one packet was sent.
    Sent = 1,
    /// The vector was shut: its waiting bit went from 0 to 1.
    Held = 2,
    /// The vector was shut, and its waiting bit was 1 already.
    Merged = 3,
    /// The pin is in force: nothing was kept.
    Lost = 4,
}

impl Answer {
    /// The answer with this number in the C interface.
    pub fn from_number(number: u8) -> Option<Answer> {
        match number {
            1 => Some(Answer::Sent),
            2 => Some(Answer::Held),
            3 => Some(Answer::Merged),
            4 => Some(Answer::Lost),
            _ => None,
        }
    }
}

/// An accepted event: the answer and the packets.
#[derive(Clone, Debug)]
pub struct Event<'a> {
    /// What became of the event.
    pub answer: Answer,
    /// The packet sent, if one was.
    pub packets: Packets<'a>,
}

/// What a call of a player gave, in the numbers of the C interface.
pub(crate) struct Given {
    /// 0, or the player's refusal.
    pub stopped: u8,
    pub taken: usize,
    pub ended: bool,
    pub refusal: u8,
    pub answer: u8,
    pub count: usize,
}

/// A card with its table, its pending array and room for what it sends.
///
/// Two cards are equal if their registers, waiting bits, line and wire are.
pub struct Card {
    state: [u8; CARD_BYTES],
    table: Vec<u8>,
    pending: Vec<u8>,
    /// Room for the packets of any call; its contents do not belong to the card.
    out: Vec<u8>,
}

impl Clone for Card {
    fn clone(&self) -> Card {
        Card {
            state: self.state,
            table: self.table.clone(),
            pending: self.pending.clone(),
            out: vec![0; self.out.len()],
        }
    }
}

impl PartialEq for Card {
    fn eq(&self, other: &Card) -> bool {
        self.state == other.state && self.table == other.table && self.pending == other.pending
    }
}

impl Eq for Card {}

/// A summary: what the card was started with, Command, line, wire and how many
/// vectors wait.
impl fmt::Debug for Card {
    fn fmt(&self, f: &mut fmt::Formatter<'_>) -> fmt::Result {
        let number = |at| u16::from_le_bytes([self.state[at], self.state[at + 1]]);
        let waiting = |bytes: &[u8]| bytes.iter().map(|byte| byte.count_ones()).sum::<u32>();
        f.debug_struct("Card")
            .field("events", &number(EVENTS_AT))
            .field("requester", &format_args!("{:#06X}", number(REQUESTER_AT)))
            .field("vectors", &self.vectors())
            .field("command", &format_args!("{:#06X}", number(COMMAND_AT)))
            .field("line", &self.is_line_high())
            .field("wire", &self.is_wire_active())
            .field("msi_waiting", &waiting(&self.state[MSI_WAITING_AT]))
            .field("msix_waiting", &waiting(&self.pending))
            .finish_non_exhaustive()
    }
}

impl Card {
    /// A card that is not started, with buffers of these lengths.
    fn blank(lengths: Lengths) -> Card {
        Card {
            state: [0; CARD_BYTES],
            table: vec![0; lengths.table],
            pending: vec![0; lengths.pending],
            out: vec![0; packet_bytes(lengths.vectors)],
        }
    }

    /// Starts a card.
    pub fn start(start: &Start) -> Result<Card, StartError> {
        let mut card = Card::blank(Lengths::of_config(&start.config));
        accepted(raw::start(
            &mut card.state,
            &start.config,
            &start.sizes,
            start.events.into(),
            start.requester.into(),
            &mut card.table,
            &mut card.pending,
        ))?;
        Ok(card)
    }

    /// The card of an image.
    pub fn from_image(image: &[u8]) -> Result<Card, ImageError> {
        let mut card = Card::blank(Lengths::of_image(image)?);
        never_refused(card.restored(image));
        Ok(card)
    }

    /// Reads `width` configuration bytes, 1, 2 or 4.
    pub fn config_read(&self, offset: u16, width: u8) -> Result<u32, ConfigError> {
        let mut value = 0;
        accepted(raw::config_read(
            &self.state,
            &self.table,
            &self.pending,
            offset.into(),
            width.into(),
            &mut value,
        ))?;
        Ok(value)
    }

    /// Writes `width` configuration bytes, 1, 2 or 4, and gives the packets
    /// that this sends.
    pub fn config_write(
        &mut self,
        offset: u16,
        width: u8,
        value: u32,
    ) -> Result<Packets<'_>, ConfigError> {
        let mut count = 0;
        accepted(raw::config_write(
            &mut self.state,
            &self.table,
            &mut self.pending,
            offset.into(),
            width.into(),
            value,
            &mut self.out,
            &mut count,
        ))?;
        Ok(self.packets(count))
    }

    /// Reads `width` bytes, 4 or 8, of the table or the pending array.
    pub fn bar_read(&self, bar: u8, offset: u32, width: u8) -> Result<u64, BarError> {
        let mut value = 0;
        accepted(raw::bar_read(
            &self.state,
            &self.table,
            &self.pending,
            bar.into(),
            offset.into(),
            width.into(),
            &mut value,
        ))?;
        Ok(value)
    }

    /// Writes `width` bytes, 4 or 8, of the table, and gives the packets that
    /// this sends. A write to the pending array changes nothing.
    pub fn bar_write(
        &mut self,
        bar: u8,
        offset: u32,
        width: u8,
        value: u64,
    ) -> Result<Packets<'_>, BarError> {
        let mut count = 0;
        accepted(raw::bar_write(
            &mut self.state,
            &mut self.table,
            &mut self.pending,
            bar.into(),
            offset.into(),
            width.into(),
            value,
            &mut self.out,
            &mut count,
        ))?;
        Ok(self.packets(count))
    }

    /// A device event.
    pub fn event(&mut self, number: u16) -> Result<Event<'_>, EventError> {
        let (mut answer, mut count) = (0, 0);
        accepted(raw::event(
            &mut self.state,
            &self.table,
            &mut self.pending,
            number.into(),
            &mut self.out,
            &mut answer,
            &mut count,
        ))?;
        Ok(Event {
            // The contracts of the proved calls allow no other number.
            answer: Answer::from_number(answer).expect("an answer that the rules have"),
            packets: self.packets(count),
        })
    }

    /// Withdraws a vector of the mechanism in force: clears its waiting bit, and
    /// gives whether it was set. This sends nothing.
    ///
    /// A vector is a number below N of MSI-X, or below 2^Capable of MSI,
    /// whatever is granted. The bit of the other mechanism stays. A vector that
    /// does not wait may be withdrawn too, so an open one.
    ///
    /// A driver that has emptied a masked channel withdraws its vector, and gets
    /// no stale interrupt when it unmasks it:
    ///
    /// ```
    /// use musgarento::{Answer, Card, Start, WithdrawError};
    ///
    /// let mut config = [0; 256];
    /// config[0x06] = 0x10;
    /// config[0x34] = 0x40;
    /// config[0x40] = 0x11; // MSI-X, 4 vectors, its table at 1000h of BAR 0.
    /// config[0x42] = 3;
    /// config[0x45] = 0x10;
    /// let mut card = Card::start(&Start {
    ///     config,
    ///     sizes: [0x2000; 6],
    ///     events: 4,
    ///     requester: 0x0100,
    /// })?;
    /// assert_eq!(card.withdraw(3), Err(WithdrawError::Pin));
    /// card.config_write(0x04, 2, 0x0006)?;
    /// card.config_write(0x42, 2, 0x8000)?;
    ///
    /// // Vector 3 is masked, so its event waits. Then its cause is satisfied.
    /// assert_eq!(card.event(3)?.answer, Answer::Held);
    /// assert_eq!(card.withdraw(3), Ok(true));
    /// assert_eq!(card.withdraw(3), Ok(false));
    /// assert_eq!(card.bar_write(0, 0x103C, 4, 0)?.count(), 0);
    ///
    /// assert_eq!(card.withdraw(4), Err(WithdrawError::Vector));
    /// # Ok::<(), Box<dyn std::error::Error>>(())
    /// ```
    pub fn withdraw(&mut self, vector: u16) -> Result<bool, WithdrawError> {
        let mut was_set = 0;
        accepted(raw::withdraw(
            &mut self.state,
            &self.table,
            &mut self.pending,
            vector.into(),
            &mut was_set,
        ))?;
        Ok(was_set != 0)
    }

    /// Sets the device's line high or low, and gives the packets that this
    /// sends.
    pub fn line(&mut self, high: bool) -> Packets<'_> {
        let mut count = 0;
        never_refused(raw::line(
            &mut self.state,
            &self.table,
            &self.pending,
            high.into(),
            &mut self.out,
            &mut count,
        ));
        self.packets(count)
    }

    /// Resets the card, and gives the packets that this sends.
    pub fn reset(&mut self) -> Packets<'_> {
        let mut count = 0;
        never_refused(raw::reset(
            &mut self.state,
            &mut self.table,
            &mut self.pending,
            &mut self.out,
            &mut count,
        ));
        self.packets(count)
    }

    /// Saves the card as an image.
    pub fn save(&self) -> Vec<u8> {
        let mut image = vec![0; FIXED_BYTES + self.table.len() + self.pending.len()];
        let mut count = 0;
        never_refused(raw::save(
            &self.state,
            &self.table,
            &self.pending,
            &mut image,
            &mut count,
        ));
        image.truncate(count);
        image
    }

    /// Restores the card from an image of a card with the same number of
    /// vectors. This sends nothing: the host restores its own view of the
    /// wire. [`Card::from_image`] takes an image with any number of vectors.
    pub fn restore(&mut self, image: &[u8]) -> Result<(), RestoreError> {
        accepted(self.restored(image))
    }

    /// Restores the card, and gives the number of the refusal.
    fn restored(&mut self, image: &[u8]) -> u8 {
        raw::restore(&mut self.state, &mut self.table, &mut self.pending, image)
    }

    /// Plays a log with a player of these bytes, up to the end of the log's
    /// first complete record.
    pub(crate) fn play(&mut self, player: &mut [u8], log: &[u8]) -> Given {
        let (mut taken, mut ended, mut refusal, mut answer, mut count) = (0, 0, 0, 0, 0);
        let stopped = raw::play(
            &mut self.state,
            &mut self.table,
            &mut self.pending,
            player,
            log,
            &mut self.out,
            &mut taken,
            &mut ended,
            &mut refusal,
            &mut answer,
            &mut count,
        );
        Given {
            stopped,
            taken,
            ended: ended != 0,
            refusal,
            answer,
            count,
        }
    }

    /// The number of MSI-X vectors, 0 to 2,048.
    pub fn vectors(&self) -> usize {
        self.table.len() / 16
    }

    /// The device's line.
    pub fn is_line_high(&self) -> bool {
        self.state[0] & 1 != 0
    }

    /// Whether the wire is active.
    pub fn is_wire_active(&self) -> bool {
        self.state[0] & 2 != 0
    }

    /// The packets in the first `count` bytes of the output.
    pub(crate) fn packets(&self, count: usize) -> Packets<'_> {
        Packets::new(&self.out[..count])
    }
}
