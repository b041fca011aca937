//! A card whose calls are recorded.

use crate::card::{Card, Event};
use crate::layout::RECORD_BYTES;
use crate::packet::Packets;
use crate::record::{header, Record};
use crate::refusal::{
    BarError, ConfigError, EventError, Refusal, RestoreError, StartError, WithdrawError,
};
use crate::start::Start;
use std::error::Error;
use std::fmt;
use std::io::{self, Write};

/// A card that writes a log of its calls.
///
/// It has the methods of a [`Card`], which give what the card gives. Each
/// event, line, configuration write, BAR write and reset is written to the log
/// after the card has answered it, refused ones too. Reads and saves have no
/// record, since they change nothing. Played from the card as it was at the
/// beginning, the log gives the same packets, answers and card.
///
/// ```
/// use musgarento::{Card, Player, Recorded, Start};
///
/// let start = Start {
///     config: [0; 256],
///     sizes: [0; 6],
///     events: 4,
///     requester: 0x0100,
/// };
/// let mut card = Recorded::start(&start, Vec::new())?;
/// card.config_write(0x04, 2, 0x0004)?;
/// card.event(3)?;
/// assert!(card.event(4).is_err());
/// let (card, log) = card.finish()?;
/// assert_eq!(log[..5], [b'C', b'L', b'G', 1, 0]);
/// assert_eq!(log[5..13], [3, 0x04, 0x00, 2, 0x04, 0, 0, 0]);
/// assert_eq!(log[13..], [1, 3, 0, 1, 4, 0]);
///
/// let (mut again, mut player) = (Card::start(&start)?, Player::new());
/// let mut rest = &log[..];
/// while !rest.is_empty() {
///     let played = player.play(&mut again, rest);
///     played.call?;
///     rest = &rest[played.taken..];
/// }
/// assert_eq!(player.records(), 3);
/// assert_eq!(again, card);
/// # Ok::<(), Box<dyn std::error::Error>>(())
/// ```
///
/// # Errors of the log
///
/// What a call gives is always the card's own. At the first record that cannot
/// be written recording stops for good, and the error is kept: [`error`] shows
/// it and [`finish`] gives it. A record is one small write, so that a file is
/// best given in a [`BufWriter`](io::BufWriter).
///
/// # Restores and withdrawals
///
/// A restore has no record, and a withdrawal has none. An accepted one ends the
/// log, a withdrawal also if its bit was not set. The log is then complete: it
/// tells of the calls before, and of none after, so that playing it gives the
/// card as it was just before the restore or the withdrawal. A refused one
/// changes nothing, and the log goes on. [`ended_by`] tells what ended the log,
/// the first time that something did. [`finish`] gives the card back, and
/// [`Recorded::new`] begins another log with it, which is played from the card's
/// image.
///
/// [`error`]: Recorded::error
/// [`ended_by`]: Recorded::ended_by
/// [`finish`]: Recorded::finish
#[derive(Debug)]
pub struct Recorded<W> {
    card: Card,
    log: Log<W>,
}

/// What ended a log, so that calls are not recorded any more.
#[derive(Clone, Copy, Debug, PartialEq, Eq, Hash)]
#[non_exhaustive]
pub enum EndedBy {
    /// A restore was accepted. The log is complete up to it.
    Restore,
    /// A withdrawal was accepted. The log is complete up to it.
    Withdrawal,
    /// A record could not be written: [`Recorded::error`] has the error.
    Error,
}

/// Why a card that is recorded was not started.
#[derive(Debug)]
#[non_exhaustive]
pub enum BeginError {
    /// The start was refused.
    Start(StartError),
    /// The beginning of the log could not be written.
    Log(io::Error),
}

impl From<StartError> for BeginError {
    fn from(error: StartError) -> BeginError {
        BeginError::Start(error)
    }
}

impl From<io::Error> for BeginError {
    fn from(error: io::Error) -> BeginError {
        BeginError::Log(error)
    }
}

impl fmt::Display for BeginError {
    fn fmt(&self, f: &mut fmt::Formatter<'_>) -> fmt::Result {
        match self {
            BeginError::Start(error) => error.fmt(f),
            BeginError::Log(error) => write!(f, "log not begun: {error}"),
        }
    }
}

impl Error for BeginError {
    fn source(&self) -> Option<&(dyn Error + 'static)> {
        match self {
            BeginError::Start(error) => Some(error),
            BeginError::Log(error) => Some(error),
        }
    }
}

impl<W: Write> Recorded<W> {
    /// Starts a card and begins a log.
    pub fn start(start: &Start, log: W) -> Result<Recorded<W>, BeginError> {
        Ok(Recorded::new(Card::start(start)?, log)?)
    }

    /// Begins a log of a card, which is played from the card as it is now. The
    /// card's image, saved now, belongs with the log.
    pub fn new(card: Card, mut log: W) -> io::Result<Recorded<W>> {
        log.write_all(&header())?;
        Ok(Recorded {
            card,
            log: Log {
                writer: log,
                ended_by: None,
                error: None,
            },
        })
    }

    /// [`Card::config_read`], which has no record.
    pub fn config_read(&self, offset: u16, width: u8) -> Result<u32, ConfigError> {
        self.card.config_read(offset, width)
    }

    /// [`Card::config_write`], recorded.
    pub fn config_write(
        &mut self,
        offset: u16,
        width: u8,
        value: u32,
    ) -> Result<Packets<'_>, ConfigError> {
        let packets = self.card.config_write(offset, width, value);
        let record = Record::ConfigWrite {
            offset,
            width,
            value,
        };
        self.log.record(record, refusal(&packets));
        packets
    }

    /// [`Card::bar_read`], which has no record.
    pub fn bar_read(&self, bar: u8, offset: u32, width: u8) -> Result<u64, BarError> {
        self.card.bar_read(bar, offset, width)
    }

    /// [`Card::bar_write`], recorded.
    pub fn bar_write(
        &mut self,
        bar: u8,
        offset: u32,
        width: u8,
        value: u64,
    ) -> Result<Packets<'_>, BarError> {
        let packets = self.card.bar_write(bar, offset, width, value);
        let record = Record::BarWrite {
            bar,
            offset,
            width,
            value,
        };
        self.log.record(record, refusal(&packets));
        packets
    }

    /// [`Card::event`], recorded.
    pub fn event(&mut self, number: u16) -> Result<Event<'_>, EventError> {
        let event = self.card.event(number);
        self.log.record(Record::Event(number), refusal(&event));
        event
    }

    /// [`Card::withdraw`], which has no record. An accepted one ends the log,
    /// whether its bit was set or not; a refused one changes nothing.
    pub fn withdraw(&mut self, vector: u16) -> Result<bool, WithdrawError> {
        let was_set = self.card.withdraw(vector)?;
        self.log.end(EndedBy::Withdrawal);
        Ok(was_set)
    }

    /// [`Card::line`], recorded.
    pub fn line(&mut self, high: bool) -> Packets<'_> {
        let packets = self.card.line(high);
        self.log.record(Record::Line(high), ACCEPTED);
        packets
    }

    /// [`Card::reset`], recorded.
    pub fn reset(&mut self) -> Packets<'_> {
        let packets = self.card.reset();
        self.log.record(Record::Reset, ACCEPTED);
        packets
    }

    /// [`Card::save`], which has no record.
    pub fn save(&self) -> Vec<u8> {
        self.card.save()
    }

    /// [`Card::restore`], which has no record. An accepted one ends the log; a
    /// refused one changes nothing.
    pub fn restore(&mut self, image: &[u8]) -> Result<(), RestoreError> {
        self.card.restore(image)?;
        self.log.end(EndedBy::Restore);
        Ok(())
    }

    /// [`Card::vectors`].
    pub fn vectors(&self) -> usize {
        self.card.vectors()
    }

    /// [`Card::is_line_high`].
    pub fn is_line_high(&self) -> bool {
        self.card.is_line_high()
    }

    /// [`Card::is_wire_active`].
    pub fn is_wire_active(&self) -> bool {
        self.card.is_wire_active()
    }

    /// The card.
    pub fn card(&self) -> &Card {
        &self.card
    }

    /// Whether calls are still recorded: no record failed to be written, and no
    /// restore and no withdrawal was accepted.
    pub fn is_recording(&self) -> bool {
        self.log.ended_by.is_none()
    }

    /// What ended the log; `None` while calls are recorded. Only the first
    /// reason counts.
    pub fn ended_by(&self) -> Option<EndedBy> {
        self.log.ended_by
    }

    /// Why recording stopped, if a record could not be written. The log then
    /// ends with the records before it, and perhaps a part of it.
    pub fn error(&self) -> Option<&io::Error> {
        self.log.error.as_ref()
    }

    /// Flushes the log, and gives card and log back, or the first error of
    /// the log.
    pub fn finish(mut self) -> io::Result<(Card, W)> {
        if let Some(error) = self.log.error {
            return Err(error);
        }
        self.log.writer.flush()?;
        Ok((self.card, self.log.writer))
    }

    /// Gives card and log back, whatever became of the log; it is not flushed.
    pub fn into_parts(self) -> (Card, W) {
        (self.card, self.log.writer)
    }
}

/// The number of an accepted call.
const ACCEPTED: u8 = 0;

/// The number of a call's refusal.
fn refusal<T, E: Copy>(result: &Result<T, E>) -> u8
where
    Refusal: From<E>,
{
    match result {
        Ok(_) => ACCEPTED,
        Err(error) => Refusal::from(*error).number(),
    }
}

/// Where the records go.
#[derive(Debug)]
struct Log<W> {
    writer: W,
    ended_by: Option<EndedBy>,
    /// The error that ended the log, if one did.
    error: Option<io::Error>,
}

impl<W> Log<W> {
    /// Ends the log, if nothing has ended it before.
    fn end(&mut self, by: EndedBy) {
        self.ended_by.get_or_insert(by);
    }
}

impl<W: Write> Log<W> {
    /// Writes the record of a call that was answered with `refusal`.
    fn record(&mut self, record: Record, refusal: u8) {
        if self.ended_by.is_some() {
            return;
        }
        let mut out = [0; RECORD_BYTES];
        let bytes = record.recorded(refusal, &mut out);
        if let Err(error) = self.writer.write_all(bytes) {
            self.end(EndedBy::Error);
            self.error = Some(error);
        }
    }
}
