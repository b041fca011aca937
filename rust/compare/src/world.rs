//! The bytes that a call reads and changes.

use crate::second::Left;

/// The bytes of a card in the C interface.
pub const CARD_BYTES: usize = 289;
/// Where the card's bytes have the BAR sizes and the configuration.
pub const SIZES_AT: usize = 9;
pub const CONFIG_AT: usize = 33;
/// The most bytes that one call of a card writes.
pub const ROOM: usize = 40_976;
/// The bytes of a switch in the C interface; those of its ports are the last 8.
pub const SWITCH_BYTES: usize = 10;
pub const PORTS_AT: usize = 2;
/// The most bytes that one call of a switch writes.
pub const SWITCH_ROOM: usize = 64;

/// The bytes of a player in the C interface: what it reads, how many bytes of
/// that it has taken, those of the record, and the number of records.
pub const PLAYER_BYTES: usize = 25;
pub const PART_AT: usize = 2;
pub const NUMBER_AT: usize = 17;
/// What a player reads: mark and version, records, nothing until its record is
/// tried again, nothing any more.
pub const HEADER: u8 = 0;
pub const RECORDS: u8 = 1;
pub const AGAIN: u8 = 2;
pub const BROKEN: u8 = 3;
/// The bytes of the beginning of a log and of its longest record.
pub const LOG_HEADER_BYTES: usize = 5;
pub const RECORD_BYTES: usize = 15;

/// Card, table, pending array, switch, player and output, as one of the models
/// left them. A trial has a card with its buffers, or these and a player, or a
/// switch; what it does not have is empty.
#[derive(Clone, Debug, Default)]
pub struct World {
    pub card: Vec<u8>,
    pub table: Vec<u8>,
    pub pending: Vec<u8>,
    pub switch: Vec<u8>,
    pub player: Vec<u8>,
    pub out: Vec<u8>,
    /// The second model's own player.
    pub left: Left,
}

/// Worlds are compared by their bytes.
impl PartialEq for World {
    fn eq(&self, other: &World) -> bool {
        let same = |part: &Part| self.part(*part) == other.part(*part);
        PARTS.iter().all(same) && self.out == other.out
    }
}

impl Eq for World {}

/// A part that is handed on from call to call.
#[derive(Clone, Copy, Debug, PartialEq, Eq)]
pub enum Part {
    Card,
    Table,
    Pending,
    Switch,
    Player,
}

/// All parts.
pub const PARTS: [Part; 5] = [
    Part::Card,
    Part::Table,
    Part::Pending,
    Part::Switch,
    Part::Player,
];

impl Part {
    /// The name to print.
    pub fn name(self) -> &'static str {
        match self {
            Part::Card => "card",
            Part::Table => "table",
            Part::Pending => "pending array",
            Part::Switch => "switch",
            Part::Player => "player",
        }
    }

    /// What is written at a byte of the part, for a person; empty for table and
    /// pending array.
    pub fn byte_name(self, at: usize) -> String {
        match self {
            Part::Card => card_byte_name(at),
            Part::Switch => switch_byte_name(at),
            Part::Player => player_byte_name(at),
            Part::Table | Part::Pending => String::new(),
        }
    }
}

impl World {
    /// The bytes of a part.
    pub fn part(&self, part: Part) -> &Vec<u8> {
        match part {
            Part::Card => &self.card,
            Part::Table => &self.table,
            Part::Pending => &self.pending,
            Part::Switch => &self.switch,
            Part::Player => &self.player,
        }
    }

    /// The bytes of a part, to change.
    pub fn part_mut(&mut self, part: Part) -> &mut Vec<u8> {
        match part {
            Part::Card => &mut self.card,
            Part::Table => &mut self.table,
            Part::Pending => &mut self.pending,
            Part::Switch => &mut self.switch,
            Part::Player => &mut self.player,
        }
    }

    /// Gives the output its length, and contents that do not depend on
    /// earlier calls.
    pub fn lend_output(&mut self, length: usize) {
        self.out.clear();
        self.out
            .extend((0..length).map(|at| (at as u8).wrapping_mul(37) ^ 0xA5));
    }
}

/// The flags of a card besides line and wire.
pub fn other_flags(card: &[u8]) -> u8 {
    card.first().map_or(0, |flags| flags & !3)
}

fn card_byte_name(at: usize) -> String {
    match at {
        0 => "flags".to_string(),
        1..=2 => "E".to_string(),
        3..=4 => "requester".to_string(),
        5..=8 => "MSI waiting bits".to_string(),
        SIZES_AT..CONFIG_AT => format!("size of BAR {}", (at - SIZES_AT) / 4),
        _ => format!("configuration byte {:02X}h", at - CONFIG_AT),
    }
}

fn switch_byte_name(at: usize) -> String {
    match at {
        0..PORTS_AT => "requester".to_string(),
        _ => format!("wires of port {}", at - PORTS_AT),
    }
}

fn player_byte_name(at: usize) -> String {
    let name = match at {
        0 => "what is read",
        1 => "bytes taken",
        PART_AT..NUMBER_AT => "bytes of the record",
        _ => "number of records",
    };
    name.to_string()
}
