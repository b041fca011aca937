//! Logs played, beside the same calls made directly. Each case goes through
//! its records over and over, one at each call.

use crate::cases::{repeat, Calls};
use crate::state::{Given, Proved, Second, States, MSI, MSIX, TABLE_BAR};
use musgarento::{raw, Record, LOG_HEADER_BYTES, PLAYER_BYTES};
use second_model::log::{self, Player};
use std::hint::black_box;

/// The number of records in a log.
pub const RECORDS: usize = 1_000;
/// The number of records after which a mixed log comes back to its card.
const ROUND: usize = 20;

/// Where Interrupt Line and the MSI mask register are.
const INTERRUPT_LINE: u16 = 0x3C;
const MSI_MASK: u16 = MSI as u16 + 0x10;

/// A log: played by the proved code, made as direct calls, and played by the
/// second model.
pub struct LogCase {
    pub name: &'static str,
    pub vectors: usize,
    pub played: Calls,
    pub calls: Calls,
    pub second: Calls,
}

/// All cases: mixed logs for three numbers of vectors, then each kind of record
/// alone.
pub fn cases() -> Vec<LogCase> {
    let mut cases: Vec<LogCase> = [0, 64, 2048].map(mixed).into();
    cases.push(alone("events, sent", 0, |_| Record::Event(0)));
    cases.push(alone("lines, no packet", 0, |i| Record::Line(i % 2 == 1)));
    cases.push(alone("configuration writes, no packet", 0, |i| {
        config_write(INTERRUPT_LINE, 1, i as u32)
    }));
    cases.push(alone("BAR writes, no packet", 1, |i| {
        bar_write(8, 4, i as u64)
    }));
    cases.push(alone("resets", 0, |_| Record::Reset));
    cases
}

/// A log of one kind of record, on a card with messages in force.
fn alone(name: &'static str, vectors: usize, record: fn(usize) -> Record) -> LogCase {
    let records = (0..RECORDS).map(record).collect();
    case(name, vectors, records)
}

/// A mixed log, on a card with messages in force.
fn mixed(vectors: usize) -> LogCase {
    let rounds = 0..RECORDS / ROUND;
    let records = match vectors {
        0 => rounds.flat_map(|_| msi_round()).collect(),
        _ => rounds.flat_map(|i| msix_round(37 * i % vectors)).collect(),
    };
    case("mixed", vectors, records)
}

fn case(name: &'static str, vectors: usize, records: Vec<Record>) -> LogCase {
    let mut second = States::new(&Given::new(vectors)).open;
    let proved = second.proved();
    let log = log_of(&records);
    LogCase {
        name,
        vectors,
        played: repeat(Played::new(proved.clone(), log.clone()), |p, _| p.next()),
        calls: repeat(Direct::new(proved, records), |d, _| d.next()),
        second: repeat(SecondPlayed::new(second, log), |s, _| s.next()),
    }
}

fn config_write(offset: u16, width: u8, value: u32) -> Record {
    Record::ConfigWrite {
        offset,
        width,
        value,
    }
}

fn bar_write(offset: usize, width: u8, value: u64) -> Record {
    Record::BarWrite {
        bar: TABLE_BAR as u8,
        offset: offset as u32,
        width,
        value,
    }
}

/// Writes to the entry of a vector, events that are sent, held and merged while
/// it is masked and while Function Mask is set, and two lines.
fn msix_round(vector: usize) -> [Record; ROUND] {
    let (entry, event) = (16 * vector, Record::Event(vector as u16));
    let control = |value| config_write(MSIX as u16 + 2, 2, value);
    [
        bar_write(entry, 8, 0x1_FEE0_2000),
        bar_write(entry + 8, 4, vector as u64),
        event,
        event,
        event,
        bar_write(entry + 12, 4, 1),
        event,
        event,
        bar_write(entry + 12, 4, 0),
        event,
        Record::Line(true),
        event,
        config_write(INTERRUPT_LINE, 1, vector as u32),
        Record::Line(false),
        control(0xC000),
        event,
        event,
        control(0x8000),
        event,
        event,
    ]
}

/// The same on a card without MSI-X, with the masks of MSI and Command.
fn msi_round() -> [Record; ROUND] {
    let event = Record::Event(0);
    [
        config_write(MSI as u16 + 4, 4, 0xFEE0_2000),
        config_write(MSI as u16 + 12, 2, 0x40),
        event,
        event,
        event,
        config_write(MSI_MASK, 4, 1),
        event,
        event,
        config_write(MSI_MASK, 4, 0),
        event,
        Record::Line(true),
        event,
        config_write(INTERRUPT_LINE, 1, 7),
        Record::Line(false),
        config_write(0x04, 2, 2),
        event,
        event,
        config_write(0x04, 2, 6),
        event,
        event,
    ]
}

/// The log of these records.
fn log_of(records: &[Record]) -> Vec<u8> {
    let (mut log, mut count) = (vec![0; LOG_HEADER_BYTES], 0);
    assert_eq!(raw::log_begin(&mut log, &mut count), 0);
    log.extend(records.iter().flat_map(Record::bytes));
    log
}

/// A card of the C interface, and a player in a log.
struct Played {
    card: Proved,
    player: [u8; PLAYER_BYTES],
    log: Vec<u8>,
    at: usize,
}

impl Played {
    fn new(card: Proved, log: Vec<u8>) -> Played {
        let (player, at) = ([0; PLAYER_BYTES], 0);
        Played {
            card,
            player,
            log,
            at,
        }
    }

    /// Plays the next record; all bytes of the log behind it are handed in.
    fn next(&mut self) -> u8 {
        if self.at == self.log.len() {
            self.player = [0; PLAYER_BYTES];
            self.at = 0;
        }
        let (mut taken, mut count) = (0, 0);
        let (mut ended, mut refusal, mut answer) = (0, 0, 0);
        let stopped = raw::play(
            &mut self.card.card,
            &mut self.card.table,
            &mut self.card.pending,
            &mut self.player,
            &self.log[self.at..],
            &mut self.card.out,
            &mut taken,
            &mut ended,
            &mut refusal,
            &mut answer,
            &mut count,
        );
        black_box((answer, count));
        self.at += taken;
        stopped | refusal | (ended ^ 1)
    }
}

/// A card of the C interface, and calls to make.
struct Direct {
    card: Proved,
    calls: Vec<Record>,
    at: usize,
}

impl Direct {
    fn new(card: Proved, calls: Vec<Record>) -> Direct {
        Direct { card, calls, at: 0 }
    }

    /// Makes the next call.
    fn next(&mut self) -> u8 {
        if self.at == self.calls.len() {
            self.at = 0;
        }
        let record = self.calls[self.at];
        self.at += 1;
        call(&mut self.card, record)
    }
}

/// Makes the call of a record.
fn call(p: &mut Proved, record: Record) -> u8 {
    let (card, table, pending, out) = (&mut p.card, &mut p.table, &mut p.pending, &mut p.out);
    let (mut answer, mut count) = (0, 0);
    let refusal = match record {
        Record::Event(number) => raw::event(
            card,
            table,
            pending,
            number.into(),
            out,
            &mut answer,
            &mut count,
        ),
        Record::Line(high) => raw::line(card, table, pending, high.into(), out, &mut count),
        Record::ConfigWrite {
            offset,
            width,
            value,
        } => {
            let (offset, width) = (offset.into(), width.into());
            raw::config_write(card, table, pending, offset, width, value, out, &mut count)
        }
        Record::BarWrite {
            bar,
            offset,
            width,
            value,
        } => {
            let (bar, offset, width) = (bar.into(), offset.into(), width.into());
            raw::bar_write(
                card, table, pending, bar, offset, width, value, out, &mut count,
            )
        }
        Record::Reset => raw::reset(card, table, pending, out, &mut count),
    };
    black_box((answer, count));
    refusal
}

/// A card of the second model, and its player in a log.
struct SecondPlayed {
    card: Second,
    player: Player,
    log: Vec<u8>,
    at: usize,
}

impl SecondPlayed {
    fn new(card: Second, log: Vec<u8>) -> SecondPlayed {
        let (player, at) = (Player::new(), 0);
        SecondPlayed {
            card,
            player,
            log,
            at,
        }
    }

    /// Plays the next record.
    fn next(&mut self) -> u8 {
        if self.at == self.log.len() {
            self.player = Player::new();
            self.at = 0;
        }
        let played = black_box(log::play(
            &mut self.card.card,
            &mut self.card.table,
            &mut self.card.pending,
            &mut self.player,
            &self.log[self.at..],
            &mut self.card.out,
        ));
        self.at += played.taken;
        played.refusal | played.record.map_or(1, |outcome| outcome.refusal)
    }
}

#[cfg(test)]
mod tests {
    use super::*;

    /// The records of the mixed log for a number of vectors.
    fn records(vectors: usize) -> Vec<Record> {
        match vectors {
            0 => msi_round().into(),
            _ => msix_round(vectors - 1).into(),
        }
    }

    #[test]
    fn all_three_end_with_the_same_card() {
        for vectors in [0, 1, 64] {
            let mut second = States::new(&Given::new(vectors)).open;
            let (proved, records) = (second.proved(), records(vectors));
            let log = log_of(&records);
            let mut played = Played::new(proved.clone(), log.clone());
            let mut direct = Direct::new(proved, records);
            let mut second = SecondPlayed::new(second, log);
            for _ in 0..3 * ROUND {
                assert_eq!((played.next(), direct.next(), second.next()), (0, 0, 0));
                assert_eq!(played.card.card, direct.card.card);
                assert_eq!(played.card.table, direct.card.table);
                assert_eq!(played.card.pending, direct.card.pending);
                assert_eq!(played.card.out, direct.card.out);
                assert_eq!(played.card.card, second.card.proved().card);
                assert_eq!(played.card.table, second.card.table);
                assert_eq!(played.card.pending, second.card.pending);
            }
        }
    }

    #[test]
    fn a_round_comes_back_to_its_card() {
        for vectors in [0, 1, 64] {
            let card = States::new(&Given::new(vectors)).open.proved();
            let mut direct = Direct::new(card, records(vectors));
            let mut ends = [(); 2].map(|()| {
                (0..ROUND).for_each(|_| assert_eq!(direct.next(), 0));
                (direct.card.card.clone(), direct.card.table.clone())
            });
            let [first, second] = &mut ends;
            assert_eq!(first, second);
            assert!(direct.card.pending.iter().all(|&byte| byte == 0));
        }
    }
}
