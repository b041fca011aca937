//! The player of a log.

use crate::card::{Answer, Card};
use crate::layout::{LOG_HEADER_BYTES, PART_AT, PLAYER_BYTES, RECORDS_AT, STAGE_AT, TAKEN_AT};
use crate::packet::Packets;
use crate::record::Record;
use crate::refusal::{accepted, LogError, RecordError};
use std::fmt;

/// What a player reads, by the number in the C interface.
const HEADER: u8 = 0;
const RECORDS: u8 = 1;
const AGAIN: u8 = 2;
const BROKEN: u8 = 3;

/// A player of a log: how far it is in the log, and the bytes of a record that
/// it has begun.
///
/// A log may come in pieces, cut at any byte. Each call takes bytes up to the
/// end of the first complete record, makes that record's call of the card, and
/// tells how many bytes it took; those behind them are handed in again. The
/// card is no part of the player, and is lent at each call.
///
/// ```
/// use musgarento::{Card, Packet, Player, Record, Refusal, Start};
///
/// let mut config = [0; 256];
/// config[0x3D] = 1; // pin 1
/// let mut card = Card::start(&Start {
///     config,
///     sizes: [0; 6],
///     events: 1,
///     requester: 0x0100,
/// })?;
/// let log = [
///     b'C', b'L', b'G', 1, 0, // mark and version
///     2, 1, // line high
///     1, 9, 0, // event 9, which the card does not have
/// ];
///
/// let mut player = Player::new();
/// let played = player.play(&mut card, &log);
/// assert_eq!(played.taken, 7);
/// let mut call = played.call?.expect("a complete record");
/// assert_eq!(call.record, Record::Line(true));
/// assert_eq!(call.answer, Ok(None));
/// let (requester, pin) = (0x0100, 1);
/// assert_eq!(call.packets.next(), Some(Packet::Assert { requester, pin }));
///
/// let played = player.play(&mut card, &log[7..]);
/// assert_eq!(played.taken, 3);
/// let call = played.call?.expect("a complete record");
/// assert_eq!(call.answer.map_err(Refusal::from), Err(Refusal::Event));
/// assert!(player.is_complete());
///
/// // 6 is no kind of a record.
/// let played = player.play(&mut card, &[6]);
/// assert_eq!(played.taken, 0);
/// assert_eq!(played.call.unwrap_err().number(), 30);
/// assert!(player.is_broken());
/// # Ok::<(), Refusal>(())
/// ```
///
/// Two players are equal if they go on in the same way and have played the
/// same number of records.
#[derive(Clone, PartialEq, Eq)]
pub struct Player {
    state: [u8; PLAYER_BYTES],
}

/// What one call of a player gave.
#[derive(Clone, Debug)]
pub struct Played<'a> {
    /// How many bytes of the log it took; at a wrong byte, how many stand
    /// before it.
    pub taken: usize,
    /// The call that was made; `None` if all bytes were taken and no record is
    /// complete yet.
    pub call: Result<Option<Call<'a>>, LogError>,
}

/// The call that a record made, and what it gave.
#[derive(Clone, Debug)]
pub struct Call<'a> {
    /// The record.
    pub record: Record,
    /// What became of an accepted event, `None` of another accepted call, or
    /// why the card refused the call. A refused call changed nothing, and play
    /// goes on.
    pub answer: Result<Option<Answer>, RecordError>,
    /// The packets that the call sent.
    pub packets: Packets<'a>,
}

impl Default for Player {
    fn default() -> Player {
        Player::new()
    }
}

/// What the player reads, how many bytes of it are taken, and how many records
/// were complete.
impl fmt::Debug for Player {
    fn fmt(&self, f: &mut fmt::Formatter<'_>) -> fmt::Result {
        let stage = match self.state[STAGE_AT] {
            HEADER => "header",
            RECORDS => "records",
            AGAIN => "again",
            _ => "broken",
        };
        f.debug_struct("Player")
            .field("stage", &format_args!("{stage}"))
            .field("taken", &self.taken())
            .field("records", &self.records())
            .finish_non_exhaustive()
    }
}

impl Player {
    /// A player that has taken nothing yet.
    pub fn new() -> Player {
        Player {
            state: [0; PLAYER_BYTES],
        }
    }

    /// Takes bytes of the log up to the end of the first complete record, and
    /// makes that record's call of the card.
    ///
    /// The first wrong byte of mark, version, kind or line is an error; it and
    /// all bytes behind it are not taken, and every later call gives the error
    /// again.
    pub fn play<'a>(&mut self, card: &'a mut Card, log: &[u8]) -> Played<'a> {
        let before = self.clone();
        let given = card.play(&mut self.state, log);
        let taken = given.taken;
        let call = accepted(given.stopped).map(|()| {
            given.ended.then(|| Call {
                record: before.record(&log[..taken]),
                answer: accepted(given.refusal).map(|()| Answer::from_number(given.answer)),
                packets: card.packets(given.count),
            })
        });
        Played { taken, call }
    }

    /// How many records were complete.
    pub fn records(&self) -> u64 {
        let bytes = &self.state[RECORDS_AT..];
        u64::from_le_bytes(bytes.try_into().expect("eight bytes"))
    }

    /// Whether what was taken is a complete log: mark, version and any number
    /// of complete records.
    pub fn is_complete(&self) -> bool {
        self.state[STAGE_AT] == RECORDS && self.taken() == 0
    }

    /// Whether the player met a wrong byte.
    pub fn is_broken(&self) -> bool {
        self.state[STAGE_AT] == BROKEN
    }

    /// How many bytes of the header or of a record are taken.
    fn taken(&self) -> usize {
        self.state[TAKEN_AT].into()
    }

    /// The record that these bytes complete.
    fn record(&self, bytes: &[u8]) -> Record {
        let bytes = match self.state[STAGE_AT] {
            HEADER => bytes[LOG_HEADER_BYTES - self.taken()..].to_vec(),
            _ => [&self.state[PART_AT..PART_AT + self.taken()], bytes].concat(),
        };
        // The contract of the proved player allows no other bytes.
        let (record, _) = Record::read(&bytes).expect("a complete record");
        record
    }
}
