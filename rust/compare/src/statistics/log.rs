//! What runs of logs meet.

use super::{Statistics, Table};
use crate::call::{Call, LogCall, Played, Recording, Room, CARD_KINDS, LOG_KINDS};
use crate::pair::Made;
use crate::world::{
    AGAIN, BROKEN, CARD_BYTES, HEADER, LOG_HEADER_BYTES, NUMBER_AT, PART_AT, PLAYER_BYTES, ROOM,
};

/// The refusals that each kind of call can give, 0 for accepted, in the order
/// of `LOG_KINDS`.
const POSSIBLE: [&[u8]; 4] = [&[0, 30, 60], &[0, 6], &[0, 6, 60], &[0]];

/// The kinds of records, by their numbers from 1 on.
const RECORD_KINDS: [&str; 5] = ["event", "line", "config write", "BAR write", "reset"];

/// The refusals that each kind of record can give.
const POSSIBLE_OF_RECORDS: [&[u8]; 5] = [
    &[0, 1, 2, 6],
    &[0, 1, 6],
    &[0, 1, 3, 6],
    &[0, 1, 4, 5, 6],
    &[0, 1, 6],
];

/// The card's own calls between those of the player should be accepted at
/// times.
const POSSIBLE_BETWEEN: [&[u8]; 11] = [&[0]; 11];

/// Other things that a run should meet.
pub const NAMED: [&str; 48] = [
    "event sent",
    "event held",
    "event merged",
    "event lost",
    "record with packets",
    "record with 40976 bytes of packets",
    "record in one piece",
    "record in two pieces or more",
    "mark, version and record in one piece",
    "bytes behind the record not taken",
    "piece without bytes",
    "piece of one byte",
    "piece that ends inside mark or version",
    "piece that ends inside a record",
    "piece that ends between records",
    "tried again: accepted",
    "tried again: 6 once more",
    "tried again: another refusal",
    "tried again, no bytes at hand",
    "tried again, bytes at hand",
    "wrong byte of the mark",
    "wrong byte of the version",
    "wrong byte of a kind",
    "wrong byte of a line",
    "wrong byte first in its piece",
    "wrong byte behind others",
    "call after a wrong byte, with bytes",
    "call after a wrong byte, without bytes",
    "30 for a player that no log leaves behind",
    "60 for another length than 289",
    "60 for another flag than line and wire",
    "60 for another length than 25",
    "60 for a first byte above 3",
    "number of records stays at 2^64 - 1",
    "exact output accepted",
    "longer output accepted",
    "output one byte short refused",
    "empty output refused",
    "call refused with 6 not recorded",
    "call refused otherwise recorded",
    "event too wide for its record",
    "config offset too wide for its record",
    "config width too wide for its record",
    "BAR too wide for its record",
    "BAR offset too wide for its record",
    "BAR width too wide for its record",
    "level 256, or a multiple of it, recorded as high",
    "recorded calls played again",
];

/// The places of the tables.
const CALLS: usize = 0;
const RECORDS: usize = 1;
const BETWEEN: usize = 2;

/// The tables: calls of player and recorder, those that records made, and the
/// card's own.
pub fn tables() -> Vec<Table> {
    vec![
        Table::new("", &LOG_KINDS, &POSSIBLE),
        Table::new(" of a record", &RECORD_KINDS, &POSSIBLE_OF_RECORDS),
        Table::new(" of the card between", &CARD_KINDS, &POSSIBLE_BETWEEN),
    ]
}

/// The sums over all logs.
#[derive(Clone, Copy, Debug, Default)]
pub struct Sums {
    pub records: u64,
    pieces: u64,
    retries: u64,
    broken: u64,
}

impl Sums {
    /// The sums as text.
    pub fn text(&self) -> String {
        format!(
            "{} records played in {} pieces; {} tried again after 6; {} logs with a wrong byte\n",
            self.records, self.pieces, self.retries, self.broken
        )
    }
}

impl Statistics {
    /// Counts a call in a trial of a log.
    pub(super) fn count_log(&mut self, made: &Made<'_>) {
        let table = match made.call {
            Call::Log(_) => CALLS,
            _ => BETWEEN,
        };
        self.tables[table].count(made.call.kind(), made.outcome.refusal);
        match made.call {
            Call::Log(LogCall::Play(bytes)) => self.count_play(made, bytes),
            Call::Log(LogCall::Record(recording)) => self.count_recording(made, recording),
            Call::Log(LogCall::Trial(_)) => self.met("recorded calls played again"),
            _ => {}
        }
    }

    fn count_play(&mut self, made: &Made<'_>, bytes: &[u8]) {
        let Some(played) = made.outcome.played else {
            return;
        };
        self.sums.pieces += 1;
        match bytes.len() {
            0 => self.met("piece without bytes"),
            1 => self.met("piece of one byte"),
            _ => {}
        }
        match (made.outcome.refusal, played.ended) {
            (0, 0) => self.count_piece(made),
            (0, _) => self.count_record(made, bytes, &played),
            (30, _) => self.count_30(made, bytes, &played),
            _ => self.count_lengths(made),
        }
    }

    /// Counts a piece that ended no record.
    fn count_piece(&mut self, made: &Made<'_>) {
        self.met(match made.player[..PART_AT] {
            [HEADER, _] => "piece that ends inside mark or version",
            [_, 0] => "piece that ends between records",
            _ => "piece that ends inside a record",
        });
    }

    fn count_record(&mut self, made: &Made<'_>, bytes: &[u8], played: &Played) {
        let before = &made.player_before;
        let kind = match before[..PART_AT] {
            [HEADER, taken] => bytes[LOG_HEADER_BYTES - usize::from(taken)],
            [_, 0] => bytes[0],
            _ => before[PART_AT],
        };
        self.tables[RECORDS].count(usize::from(kind) - 1, played.refusal);
        match before[..PART_AT] {
            [AGAIN, _] => self.count_retry(bytes, played),
            [HEADER, _] => self.count_first_try(made, "mark, version and record in one piece"),
            [_, 0] => self.count_first_try(made, "record in one piece"),
            _ => self.count_first_try(made, "record in two pieces or more"),
        }
        if before[0] != AGAIN && played.taken < bytes.len() {
            self.met("bytes behind the record not taken");
        }
        match made.outcome.answer {
            Some(1) => self.met("event sent"),
            Some(2) => self.met("event held"),
            Some(3) => self.met("event merged"),
            Some(4) => self.met("event lost"),
            _ => {}
        }
        self.count_output_of_record(made, played);
    }

    /// Counts a record that was not tried before.
    fn count_first_try(&mut self, made: &Made<'_>, name: &'static str) {
        self.sums.records += 1;
        self.met(name);
        if made.player_before[NUMBER_AT..] == [0xFF; 8] {
            self.met("number of records stays at 2^64 - 1");
        }
    }

    fn count_retry(&mut self, bytes: &[u8], played: &Played) {
        self.sums.retries += 1;
        self.met(match played.refusal {
            0 => "tried again: accepted",
            6 => "tried again: 6 once more",
            _ => "tried again: another refusal",
        });
        self.met(match bytes {
            [] => "tried again, no bytes at hand",
            _ => "tried again, bytes at hand",
        });
    }

    fn count_output_of_record(&mut self, made: &Made<'_>, played: &Played) {
        let (length, count) = (made.out.len(), made.outcome.count.unwrap_or(0));
        match played.refusal {
            0 if count > 0 && length == count => self.met("exact output accepted"),
            0 if count > 0 => self.met("longer output accepted"),
            6 if length == 0 => self.met("empty output refused"),
            6 if made.room == Room::Short => self.met("output one byte short refused"),
            _ => {}
        }
        if count > 0 {
            self.met("record with packets");
        }
        if count == ROOM {
            self.met("record with 40976 bytes of packets");
        }
    }

    /// Counts which of the ways to 30 it was.
    fn count_30(&mut self, made: &Made<'_>, bytes: &[u8], played: &Played) {
        let before = &made.player_before;
        if before[0] == BROKEN {
            return self.met(match bytes {
                [] => "call after a wrong byte, without bytes",
                _ => "call after a wrong byte, with bytes",
            });
        }
        if made.player == &before[..] {
            return self.met("30 for a player that no log leaves behind");
        }
        self.sums.broken += 1;
        self.met(wrong_byte(before, played.taken));
        self.met(match played.taken {
            0 => "wrong byte first in its piece",
            _ => "wrong byte behind others",
        });
    }

    /// Counts which of the ways to 60 it was.
    fn count_lengths(&mut self, made: &Made<'_>) {
        self.met(if made.card.len() != CARD_BYTES {
            "60 for another length than 289"
        } else if made.other_flags != 0 {
            "60 for another flag than line and wire"
        } else if made.player.len() != PLAYER_BYTES {
            "60 for another length than 25"
        } else {
            "60 for a first byte above 3"
        });
    }

    fn count_recording(&mut self, made: &Made<'_>, recording: &Recording) {
        if made.outcome.refusal != 0 {
            return;
        }
        match recording.refusal {
            0 => {}
            6 => return self.met("call refused with 6 not recorded"),
            _ => self.met("call refused otherwise recorded"),
        }
        for name in too_wide(recording) {
            self.met(name);
        }
    }
}

/// Which byte was wrong behind `taken` others of a piece.
fn wrong_byte(before: &[u8], taken: usize) -> &'static str {
    let in_header = usize::from(before[1]) + taken;
    match before[0] {
        HEADER if in_header < 3 => "wrong byte of the mark",
        HEADER if in_header < LOG_HEADER_BYTES => "wrong byte of the version",
        HEADER if in_header == LOG_HEADER_BYTES => "wrong byte of a kind",
        HEADER => "wrong byte of a line",
        _ if in_header == 0 => "wrong byte of a kind",
        _ => "wrong byte of a line",
    }
}

/// The numbers that are too wide for their record.
fn too_wide(recording: &Recording) -> Vec<&'static str> {
    let &Recording {
        kind,
        bar,
        offset,
        width,
        value,
        ..
    } = recording;
    let mut names = Vec::new();
    let mut add = |is_wide: bool, name: &'static str| {
        if is_wide {
            names.push(name);
        }
    };
    match kind {
        1 => add(value > 0xFFFF, "event too wide for its record"),
        2 => add(
            value > 0 && value & 0xFF == 0,
            "level 256, or a multiple of it, recorded as high",
        ),
        3 => {
            add(offset > 0xFFFF, "config offset too wide for its record");
            add(width > 0xFF, "config width too wide for its record");
        }
        4 => {
            add(bar > 0xFF, "BAR too wide for its record");
            add(offset > 0xFFFF_FFFF, "BAR offset too wide for its record");
            add(width > 0xFF, "BAR width too wide for its record");
        }
        _ => {}
    }
    names
}
