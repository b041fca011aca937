//! A player of recorded calls, and the bytes that record them.
//!
//! Each rule stands beside the sentence of request 1 of document 02 that it
//! follows, marked `02:`, or of document 01, marked `01:`. A rule that the C
//! interface adds is marked `C interface:`.

use crate::{bar_write, config_write, event, line, reset, Card, Outcome};

// 02: "A log is "CLG", a 16-bit version (1), then records"
// 02: "Numbers little-endian."
/// Mark and version.
const BEGIN: [u8; 5] = [b'C', b'L', b'G', 1, 0];

// 02: "kind byte first: 1, event (16 bits); 2, line (one byte, 0 or 1); 3,
// configuration write (offset 16, width 8, value 32); 4, BAR write (BAR 8,
// offset 32, width 8, value 64); 5, reset."
const EVENT: u8 = 1;
const LINE: u8 = 2;
const CONFIG_WRITE: u8 = 3;
const BAR_WRITE: u8 = 4;
const RESET: u8 = 5;

/// A card call that a log may hold.
#[derive(Clone, Copy, Debug, PartialEq, Eq)]
pub enum Call {
    Event(u64),
    Line(bool),
    ConfigWrite {
        offset: u64,
        width: u64,
        value: u32,
    },
    BarWrite {
        bar: u64,
        offset: u64,
        width: u64,
        value: u64,
    },
    Reset,
}

// 02: "The player's own state is no part of card or image"
/// What is kept of a log between two calls of the player.
#[derive(Clone, Debug, Default, PartialEq, Eq)]
pub struct Player {
    /// How many bytes of mark and version are taken.
    begun: usize,
    /// The bytes taken of a record that is not complete.
    part: Vec<u8>,
    /// The call of a complete record that is to be tried again.
    again: Option<Call>,
    /// Whether a wrong byte was met.
    stopped: bool,
    records: u64,
}

/// The result of a call of the player. `refusal` is 0 or 30; `taken` is the
/// number of bytes taken; `record` is the outcome of the card call that was
/// made, if one was.
#[derive(Clone, Copy, Debug, PartialEq, Eq)]
pub struct Played {
    pub refusal: u8,
    pub taken: usize,
    pub record: Option<Outcome>,
}

impl Player {
    /// A player that has taken nothing.
    pub fn new() -> Player {
        Player::default()
    }

    /// The number of complete records so far; it stays at 2^64 - 1.
    pub fn records(&self) -> u64 {
        self.records
    }

    // 02: "each call takes what it is given up to the end of the first complete
    // record and tells how many bytes."
    /// Takes bytes, and gives their number and the call of a complete record.
    fn take(&mut self, log: &[u8]) -> (usize, Option<Call>) {
        for (taken, &byte) in log.iter().enumerate() {
            // 02: "it and all after it are not taken"
            if self.is_wrong(byte) {
                self.stopped = true;
                return (taken, None);
            }
            if let Some(call) = self.add(byte) {
                return (taken + 1, Some(call));
            }
        }
        (log.len(), None)
    }

    // 02: "The first wrong byte of mark, version, kind or line is refusal 30"
    /// Whether this cannot be the log's next byte.
    fn is_wrong(&self, byte: u8) -> bool {
        if let Some(&right) = BEGIN.get(self.begun) {
            return byte != right;
        }
        match self.part[..] {
            [] => !matches!(byte, EVENT..=RESET),
            [LINE] => byte > 1,
            _ => false,
        }
    }

    /// Adds a byte that is not wrong, and gives the call of a record that it
    /// completes.
    fn add(&mut self, byte: u8) -> Option<Call> {
        if self.begun < BEGIN.len() {
            self.begun += 1;
            return None;
        }
        self.part.push(byte);
        let call = read_call(&self.part)?;
        self.part.clear();
        self.records = self.records.saturating_add(1);
        Some(call)
    }
}

/// The call of a complete record; `None` for a part of one.
fn read_call(record: &[u8]) -> Option<Call> {
    match *record {
        [EVENT, _, _] => Some(Call::Event(read_number(&record[1..]))),
        [LINE, level] => Some(Call::Line(level == 1)),
        [CONFIG_WRITE, _, _, width, a, b, c, d] => Some(Call::ConfigWrite {
            offset: read_number(&record[1..3]),
            width: u64::from(width),
            value: u32::from_le_bytes([a, b, c, d]),
        }),
        [BAR_WRITE, bar, _, _, _, _, width, _, _, _, _, _, _, _, _] => Some(Call::BarWrite {
            bar: u64::from(bar),
            offset: read_number(&record[2..6]),
            width: u64::from(width),
            value: read_number(&record[7..]),
        }),
        [RESET] => Some(Call::Reset),
        _ => None,
    }
}

// 02: "Numbers little-endian."
fn read_number(bytes: &[u8]) -> u64 {
    let join = |number: u64, byte: &u8| number << 8 | u64::from(*byte);
    bytes.iter().rev().fold(0, join)
}

/// Plays a log, or the part of it that is given, up to the end of a record.
pub fn play(
    card: &mut Card,
    table: &mut [u8],
    pending: &mut [u8],
    player: &mut Player,
    log: &[u8],
    out: &mut [u8],
) -> Played {
    // 02: "and every later call answers 30"
    if player.stopped {
        return Played::without_record(30, 0);
    }
    // 02: "and the next call only tries it again, taking 0 bytes"
    let (taken, call) = match player.again {
        Some(call) => (0, Some(call)),
        None => player.take(log),
    };
    let Some(call) = call else {
        let refusal = if player.stopped { 30 } else { 0 };
        return Played::without_record(refusal, taken);
    };
    let outcome = make(card, table, pending, &call, out);
    // 02: "The card's own refusals are noted and play goes on, except 6: the
    // record's bytes count as taken"
    player.again = (outcome.refusal == 6).then_some(call);
    Played {
        refusal: 0,
        taken,
        record: Some(outcome),
    }
}

impl Played {
    fn without_record(refusal: u8, taken: usize) -> Played {
        Played {
            refusal,
            taken,
            record: None,
        }
    }
}

/// Makes a card call.
fn make(
    card: &mut Card,
    table: &mut [u8],
    pending: &mut [u8],
    call: &Call,
    out: &mut [u8],
) -> Outcome {
    match *call {
        Call::Event(number) => event(card, table, pending, number, out),
        Call::Line(level) => line(card, table, pending, level, out),
        Call::ConfigWrite {
            offset,
            width,
            value,
        } => config_write(card, table, pending, offset, width, value, out),
        Call::BarWrite {
            bar,
            offset,
            width,
            value,
        } => bar_write(card, table, pending, bar, offset, width, value, out),
        Call::Reset => reset(card, table, pending, out),
    }
}

/// The bytes that a log begins with.
pub fn begin() -> Vec<u8> {
    BEGIN.to_vec()
}

/// The bytes that record a call answered with this refusal, 0 for an accepted
/// one.
pub fn record(call: &Call, refusal: u8) -> Vec<u8> {
    // C interface: a call refused with 6 is left out. It did nothing, and
    // played with room it would be done.
    if refusal == 6 {
        return Vec::new();
    }
    match *call {
        Call::Event(number) => [vec![EVENT], field(number, 2)].concat(),
        Call::Line(level) => vec![LINE, u8::from(level)],
        Call::ConfigWrite {
            offset,
            width,
            value,
        } => {
            let (offset, width) = (field(offset, 2), field(width, 1));
            let value = value.to_le_bytes().to_vec();
            [vec![CONFIG_WRITE], offset, width, value].concat()
        }
        Call::BarWrite {
            bar,
            offset,
            width,
            value,
        } => {
            let (bar, offset, width) = (field(bar, 1), field(offset, 4), field(width, 1));
            let value = value.to_le_bytes().to_vec();
            [vec![BAR_WRITE], bar, offset, width, value].concat()
        }
        Call::Reset => vec![RESET],
    }
}

// C interface: a number too wide for its field is recorded as the largest that
// fits, since the card refuses both in the same way.
fn field(number: u64, bytes: usize) -> Vec<u8> {
    let largest = (1 << (8 * bytes)) - 1;
    number.min(largest).to_le_bytes()[..bytes].to_vec()
}

#[cfg(test)]
mod tests {
    use super::*;

    #[test]
    fn the_number_of_records_stays_at_the_largest() {
        let mut player = Player {
            begun: BEGIN.len(),
            records: u64::MAX - 2,
            ..Player::new()
        };
        let mut card = Card::zero();
        for records in [u64::MAX - 1, u64::MAX, u64::MAX, u64::MAX] {
            let played = play(&mut card, &mut [], &mut [], &mut player, &[RESET], &mut []);
            assert_eq!((played.refusal, played.taken), (0, 1));
            assert_eq!(played.record, Some(Outcome::refused(1)));
            assert_eq!(player.records(), records);
        }
    }
}
