//! The records of a log.

use crate::layout::{LOG_HEADER_BYTES, RECORD_BYTES};
use crate::raw;
use crate::refusal::never_refused;
use std::fmt;
use std::iter::FusedIterator;

/// A record of a log: one call of a card, with the numbers that it was given.
///
/// ```
/// use musgarento::Record;
///
/// let (record, rest) = Record::read(&[1, 0x02, 0x01, 5]).unwrap();
/// assert_eq!(record, Record::Event(0x0102));
/// assert_eq!(record.to_string(), "event 258");
/// assert_eq!(record.bytes(), [1, 0x02, 0x01]);
/// assert_eq!(Record::read(rest), Some((Record::Reset, &[][..])));
/// ```
#[derive(Clone, Copy, Debug, PartialEq, Eq, Hash)]
pub enum Record {
    /// A device event of this number.
    Event(u16),
    /// The device's line goes high or low.
    Line(bool),
    /// A configuration write.
    ConfigWrite {
        /// The offset of the first byte.
        offset: u16,
        /// The number of bytes.
        width: u8,
        /// What is written.
        value: u32,
    },
    /// A BAR write.
    BarWrite {
        /// The number of the BAR.
        bar: u8,
        /// The offset of the first byte.
        offset: u32,
        /// The number of bytes.
        width: u8,
        /// What is written.
        value: u64,
    },
    /// A reset.
    Reset,
}

impl Record {
    /// Reads the record at the start of `bytes`, and gives the bytes behind it
    /// too; `None` if no complete record stands there.
    pub fn read(bytes: &[u8]) -> Option<(Record, &[u8])> {
        let (&kind, rest) = bytes.split_first()?;
        match kind {
            1 => event(rest),
            2 => line(rest),
            3 => config_write(rest),
            4 => bar_write(rest),
            5 => Some((Record::Reset, rest)),
            _ => None,
        }
    }

    /// The bytes of the record.
    pub fn bytes(&self) -> Vec<u8> {
        self.recorded(0, &mut [0; RECORD_BYTES]).to_vec()
    }

    /// What a log has of this call, which was answered with `refusal`.
    pub(crate) fn recorded<'a>(&self, refusal: u8, out: &'a mut [u8; RECORD_BYTES]) -> &'a [u8] {
        let [kind, bar, offset, width, value] = self.numbers();
        let mut count = 0;
        never_refused(raw::log_record(
            kind, bar, offset, width, value, refusal, out, &mut count,
        ));
        &out[..count]
    }

    /// Kind, BAR, offset, width and value; 0 for what the kind has no use for.
    fn numbers(&self) -> [u64; 5] {
        match *self {
            Record::Event(number) => [1, 0, 0, 0, number.into()],
            Record::Line(high) => [2, 0, 0, 0, high.into()],
            Record::ConfigWrite {
                offset,
                width,
                value,
            } => [3, 0, offset.into(), width.into(), value.into()],
            Record::BarWrite {
                bar,
                offset,
                width,
                value,
            } => [4, bar.into(), offset.into(), width.into(), value],
            Record::Reset => [5, 0, 0, 0, 0],
        }
    }
}

/// A record, and the bytes behind it.
type Found<'a> = Option<(Record, &'a [u8])>;

// Each of these functions is given the bytes behind the kind.

fn event(bytes: &[u8]) -> Found<'_> {
    let (number, rest) = bytes.split_first_chunk()?;
    Some((Record::Event(u16::from_le_bytes(*number)), rest))
}

fn line(bytes: &[u8]) -> Found<'_> {
    match bytes {
        [0, rest @ ..] => Some((Record::Line(false), rest)),
        [1, rest @ ..] => Some((Record::Line(true), rest)),
        _ => None,
    }
}

fn config_write(bytes: &[u8]) -> Found<'_> {
    let (offset, rest) = bytes.split_first_chunk()?;
    let (&width, rest) = rest.split_first()?;
    let (value, rest) = rest.split_first_chunk()?;
    let record = Record::ConfigWrite {
        offset: u16::from_le_bytes(*offset),
        width,
        value: u32::from_le_bytes(*value),
    };
    Some((record, rest))
}

fn bar_write(bytes: &[u8]) -> Found<'_> {
    let (&bar, rest) = bytes.split_first()?;
    let (offset, rest) = rest.split_first_chunk()?;
    let (&width, rest) = rest.split_first()?;
    let (value, rest) = rest.split_first_chunk()?;
    let record = Record::BarWrite {
        bar,
        offset: u32::from_le_bytes(*offset),
        width,
        value: u64::from_le_bytes(*value),
    };
    Some((record, rest))
}

impl fmt::Display for Record {
    fn fmt(&self, f: &mut fmt::Formatter<'_>) -> fmt::Result {
        match *self {
            Record::Event(number) => write!(f, "event {number}"),
            Record::Line(high) => write!(f, "line {}", if high { "high" } else { "low" }),
            Record::ConfigWrite {
                offset,
                width,
                value,
            } => write!(
                f,
                "configuration write, offset {offset:04X}h, width {width}, value {value:08X}h"
            ),
            Record::BarWrite {
                bar,
                offset,
                width,
                value,
            } => write!(
                f,
                "BAR {bar} write, offset {offset:08X}h, width {width}, value {value:016X}h"
            ),
            Record::Reset => write!(f, "reset"),
        }
    }
}

/// The beginning of a log: mark and version.
pub(crate) fn header() -> [u8; LOG_HEADER_BYTES] {
    let (mut header, mut count) = ([0; LOG_HEADER_BYTES], 0);
    never_refused(raw::log_begin(&mut header, &mut count));
    header
}

/// The records that stand one after another in a log, for looking at.
///
/// The iterator ends at the first bytes that are no complete record.
#[derive(Clone, Debug)]
pub struct Records<'a> {
    bytes: &'a [u8],
}

impl<'a> Records<'a> {
    /// The records of a log; `None` if it does not begin with mark and version.
    pub fn new(log: &'a [u8]) -> Option<Records<'a>> {
        let bytes = log.strip_prefix(&header())?;
        Some(Records { bytes })
    }

    /// The bytes of the log that are still to come.
    pub fn bytes(&self) -> &'a [u8] {
        self.bytes
    }
}

impl Iterator for Records<'_> {
    type Item = Record;

    fn next(&mut self) -> Option<Record> {
        let (record, rest) = Record::read(self.bytes)?;
        self.bytes = rest;
        Some(record)
    }
}

impl FusedIterator for Records<'_> {}

#[cfg(test)]
mod tests {
    use super::*;

    const EVENT: [u8; 3] = [1, 0x02, 0x01];
    const LINE: [u8; 2] = [2, 1];
    const CONFIG_WRITE: [u8; 8] = [3, 0x42, 0x00, 2, 0x00, 0x80, 0x0A, 0x0B];
    const BAR_WRITE: [u8; 15] = [4, 2, 0x30, 0x10, 0, 0, 8, 1, 2, 3, 4, 5, 6, 7, 8];
    const RESET: [u8; 1] = [5];
    const ALL: [&[u8]; 5] = [&EVENT, &LINE, &CONFIG_WRITE, &BAR_WRITE, &RESET];

    /// The records of `ALL`.
    fn records() -> [Record; 5] {
        [
            Record::Event(0x0102),
            Record::Line(true),
            Record::ConfigWrite {
                offset: 0x42,
                width: 2,
                value: 0x0B0A_8000,
            },
            Record::BarWrite {
                bar: 2,
                offset: 0x1030,
                width: 8,
                value: 0x0807_0605_0403_0201,
            },
            Record::Reset,
        ]
    }

    #[test]
    fn read_and_written() {
        for (bytes, record) in ALL.into_iter().zip(records()) {
            assert_eq!(Record::read(bytes), Some((record, &[][..])));
            assert_eq!(record.bytes(), bytes);
            let longer = [bytes, &[7, 8]].concat();
            assert_eq!(Record::read(&longer), Some((record, &[7, 8][..])));
            for length in 0..bytes.len() {
                assert_eq!(Record::read(&bytes[..length]), None);
            }
        }
    }

    #[test]
    fn no_record() {
        for kind in [0].into_iter().chain(6..=255) {
            assert_eq!(Record::read(&[kind; 20]), None);
        }
        assert!(Record::read(&[2, 0]).is_some());
        for level in 2..=255 {
            assert_eq!(Record::read(&[2, level]), None);
        }
    }

    #[test]
    fn records_of_a_log() {
        let header = [0x43, 0x4C, 0x47, 1, 0];
        let log = [&header[..], &ALL.concat()].concat();
        let mut read = Records::new(&log).unwrap();
        assert_eq!(read.by_ref().collect::<Vec<_>>(), records());
        assert!(read.bytes().is_empty());
        let cut = &log[..log.len() - 2];
        let mut read = Records::new(cut).unwrap();
        assert_eq!(read.by_ref().count(), 3);
        assert_eq!(read.bytes(), &BAR_WRITE[..14]);
        for at in 0..header.len() {
            let mut wrong = log.clone();
            wrong[at] ^= 2;
            assert!(Records::new(&wrong).is_none());
            assert!(Records::new(&log[..at]).is_none());
        }
    }

    #[test]
    fn text() {
        let text = [
            "event 258",
            "line high",
            "configuration write, offset 0042h, width 2, value 0B0A8000h",
            "BAR 2 write, offset 00001030h, width 8, value 0807060504030201h",
            "reset",
        ];
        assert_eq!(records().map(|record| record.to_string()), text);
        assert_eq!(Record::Line(false).to_string(), "line low");
    }
}
