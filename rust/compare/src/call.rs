//! Calls and the other steps of a trial.

use crate::world::{Part, LOG_HEADER_BYTES, RECORD_BYTES, ROOM, SWITCH_ROOM};

/// One call with its arguments, but for card, buffers, switch and output.
#[derive(Clone, Debug, PartialEq, Eq)]
pub enum Call {
    Start(Given),
    ConfigRead {
        offset: u64,
        width: u64,
    },
    ConfigWrite {
        offset: u64,
        width: u64,
        value: u32,
    },
    BarRead {
        bar: u64,
        offset: u64,
        width: u64,
    },
    BarWrite {
        bar: u64,
        offset: u64,
        width: u64,
        value: u64,
    },
    Event(u64),
    Line(u64),
    Reset,
    /// The image is kept under this number.
    Save(usize),
    Restore(Image),
    /// A vector of the mechanism in force is withdrawn.
    Withdraw(u64),
    /// A call of a switch.
    Switch(SwitchCall),
    /// A call of a player or recorder of logs; the others are of a card.
    Log(LogCall),
    /// What a host asks about bytes.
    Query(QueryCall),
}

/// One call of a switch.
#[derive(Clone, Debug, PartialEq, Eq)]
pub enum SwitchCall {
    /// With this requester ID.
    Start(u64),
    Packet {
        port: u64,
        packet: Vec<u8>,
    },
    /// This port goes down.
    Down(u64),
}

/// One call of a player or of a recorder of logs.
#[derive(Clone, Debug, PartialEq, Eq)]
pub enum LogCall {
    /// The player is handed these bytes.
    Play(Vec<u8>),
    /// The beginning of a log is written.
    Begin,
    /// A record is written.
    Record(Recording),
    /// Calls of the card are made and recorded, and their log is played.
    Trial(Recorded),
}

/// A question about bytes. It changes nothing.
#[derive(Clone, Debug, PartialEq, Eq)]
pub enum QueryCall {
    /// The lengths that a start from this configuration asks for.
    ConfigLengths(Vec<u8>),
    /// The lengths that a restore of this image asks for.
    ImageLengths(Image),
    /// The first packet of these bytes.
    Packet(Vec<u8>),
}

/// The numbers of a call of the recorder.
#[derive(Clone, Copy, Debug, PartialEq, Eq)]
pub struct Recording {
    pub kind: u64,
    pub bar: u64,
    pub offset: u64,
    pub width: u64,
    pub value: u64,
    pub refusal: u8,
}

/// Calls of a card to record, and how their log is played.
#[derive(Clone, Debug, PartialEq, Eq)]
pub struct Recorded {
    /// Each with the length of its output.
    pub calls: Vec<(Call, usize)>,
    /// The most bytes that the player is handed at once.
    pub piece: usize,
}

/// What a start is given.
#[derive(Clone, Debug, PartialEq, Eq)]
pub struct Given {
    pub config: Vec<u8>,
    pub sizes: Vec<u32>,
    pub events: u64,
    pub requester: u64,
}

/// The image of a restore, or of a question about it.
#[derive(Clone, Debug, PartialEq, Eq)]
pub enum Image {
    /// The one kept under this number (empty if there is none), damaged.
    Kept(usize, Vec<Damage>),
    /// Any bytes.
    Bytes(Vec<u8>),
}

/// A change of an image.
#[derive(Clone, Copy, Debug, PartialEq, Eq)]
pub enum Damage {
    /// The byte at the place, if there is one, gets the value.
    Byte(usize, u8),
    /// The image is cut, or made longer with zeros.
    Length(usize),
}

/// The length of a call's output.
#[derive(Clone, Copy, Debug, PartialEq, Eq)]
pub enum Room {
    /// Just what the call needs by the second model.
    Exact,
    /// One byte less than that.
    Short,
    /// This many bytes.
    Bytes(usize),
}

/// One step of a trial.
#[derive(Clone, Debug, PartialEq, Eq)]
pub enum Step {
    /// A call, with its room.
    Call(Call, Room),
    /// A part is cut, or made longer with bytes AAh.
    Length(Part, usize),
    /// A byte of a part, if it is there, gets the value.
    Byte(Part, usize, u8),
    /// A part gets these bytes.
    Contents(Part, Vec<u8>),
}

/// What a run compares.
#[derive(Clone, Copy, Debug, PartialEq, Eq)]
pub enum Subject {
    Card,
    Switch,
    Log,
    Query,
}

impl Subject {
    /// The name to print.
    pub fn name(self) -> &'static str {
        match self {
            Subject::Card => "card",
            Subject::Switch => "switch",
            Subject::Log => "log",
            Subject::Query => "query",
        }
    }
}

/// The kinds of calls of a card, in the order of `Call`.
pub const CARD_KINDS: [&str; 11] = [
    "start",
    "config read",
    "config write",
    "BAR read",
    "BAR write",
    "event",
    "line",
    "reset",
    "save",
    "restore",
    "withdraw",
];

/// The kinds of calls of a switch, in the order of `SwitchCall`.
pub const SWITCH_KINDS: [&str; 3] = ["switch start", "packet", "port down"];

/// The kinds of calls of logs, in the order of `LogCall`.
pub const LOG_KINDS: [&str; 4] = ["play", "log begin", "log record", "recorded trial"];

/// The kinds of questions, in the order of `QueryCall`.
pub const QUERY_KINDS: [&str; 3] = ["config lengths", "image lengths", "packet"];

impl Call {
    /// The place of the call's kind in `CARD_KINDS`, `SWITCH_KINDS`, `LOG_KINDS`
    /// or `QUERY_KINDS`.
    pub fn kind(&self) -> usize {
        match self {
            Call::Start(_) => 0,
            Call::ConfigRead { .. } => 1,
            Call::ConfigWrite { .. } => 2,
            Call::BarRead { .. } => 3,
            Call::BarWrite { .. } => 4,
            Call::Event(_) => 5,
            Call::Line(_) => 6,
            Call::Reset => 7,
            Call::Save(_) => 8,
            Call::Restore(_) => 9,
            Call::Withdraw(_) => 10,
            Call::Switch(SwitchCall::Start(_)) => 0,
            Call::Switch(SwitchCall::Packet { .. }) => 1,
            Call::Switch(SwitchCall::Down(_)) => 2,
            Call::Log(LogCall::Play(_)) => 0,
            Call::Log(LogCall::Begin) => 1,
            Call::Log(LogCall::Record(_)) => 2,
            Call::Log(LogCall::Trial(_)) => 3,
            Call::Query(QueryCall::ConfigLengths(_)) => 0,
            Call::Query(QueryCall::ImageLengths(_)) => 1,
            Call::Query(QueryCall::Packet(_)) => 2,
        }
    }

    /// The image that the call reads, if it reads one.
    pub fn image(&self) -> Option<&Image> {
        match self {
            Call::Restore(image) | Call::Query(QueryCall::ImageLengths(image)) => Some(image),
            _ => None,
        }
    }

    /// The same, to change.
    pub fn image_mut(&mut self) -> Option<&mut Image> {
        match self {
            Call::Restore(image) | Call::Query(QueryCall::ImageLengths(image)) => Some(image),
            _ => None,
        }
    }

    /// Whether the call has an output.
    pub fn has_output(&self) -> bool {
        !matches!(
            self,
            Call::Start(_)
                | Call::ConfigRead { .. }
                | Call::BarRead { .. }
                | Call::Restore(_)
                | Call::Withdraw(_)
                | Call::Switch(SwitchCall::Start(_))
                | Call::Log(LogCall::Trial(_))
                | Call::Query(_)
        )
    }

    /// Whether what the call writes to its output are packets.
    pub fn sends_packets(&self) -> bool {
        match self {
            Call::Save(_) => false,
            Call::Log(call) => matches!(call, LogCall::Play(_)),
            other => other.has_output(),
        }
    }

    /// Whether a log can hold the call.
    pub fn has_record(&self) -> bool {
        matches!(
            self,
            Call::ConfigWrite { .. }
                | Call::BarWrite { .. }
                | Call::Event(_)
                | Call::Line(_)
                | Call::Reset
        )
    }

    /// No call of this kind writes more bytes.
    pub fn most_bytes(&self) -> usize {
        match self {
            Call::Switch(_) => SWITCH_ROOM,
            Call::Log(LogCall::Begin) => LOG_HEADER_BYTES,
            Call::Log(LogCall::Record(_)) => RECORD_BYTES,
            _ => ROOM,
        }
    }
}

/// What a call gave. A call without an answer, value or count has `None`.
#[derive(Clone, Copy, Debug, PartialEq, Eq)]
pub struct Outcome {
    pub refusal: u8,
    pub answer: Option<u8>,
    pub value: Option<u64>,
    pub count: Option<usize>,
    /// Of a call of the player.
    pub played: Option<Played>,
    /// Of a question.
    pub found: Option<Found>,
}

/// What a question was answered with.
#[derive(Clone, Copy, Debug, PartialEq, Eq)]
pub enum Found {
    Lengths(Lengths),
    Packet(Fields),
}

/// The number of MSI-X vectors, and the lengths of the buffers to lend.
#[derive(Clone, Copy, Debug, Default, PartialEq, Eq)]
pub struct Lengths {
    pub vectors: usize,
    pub table: usize,
    pub pending: usize,
}

/// The fields of a packet, and how many bytes it has.
#[derive(Clone, Copy, Debug, Default, PartialEq, Eq)]
pub struct Fields {
    pub count: usize,
    pub kind: u8,
    pub requester: u16,
    pub address: u64,
    pub data: u32,
    pub pin: u8,
    pub level: u8,
}

/// What else a call of the player gave: how many bytes it took, whether a
/// record's call was made, and its refusal.
#[derive(Clone, Copy, Debug, PartialEq, Eq)]
pub struct Played {
    pub taken: usize,
    pub ended: u8,
    pub refusal: u8,
}

impl Outcome {
    /// The outcome of a call that gives only a refusal number.
    pub fn number(refusal: u8) -> Outcome {
        Outcome {
            refusal,
            answer: None,
            value: None,
            count: None,
            played: None,
            found: None,
        }
    }

    /// The outcome of a question.
    pub fn found(refusal: u8, found: Found) -> Outcome {
        Outcome {
            found: Some(found),
            ..Outcome::number(refusal)
        }
    }

    /// The outcome of a read, and of a withdrawal: 1 if the bit was set.
    pub fn read(refusal: u8, value: u64) -> Outcome {
        Outcome {
            value: Some(value),
            ..Outcome::number(refusal)
        }
    }

    /// The outcome of a call that writes to the output.
    pub fn wrote(refusal: u8, count: usize) -> Outcome {
        Outcome {
            count: Some(count),
            ..Outcome::number(refusal)
        }
    }

    /// The outcome of a call of the player that took bytes and made no call of
    /// the card.
    pub fn took(refusal: u8, taken: usize) -> Outcome {
        let (ended, of_record) = (0, 0);
        Outcome {
            answer: Some(0),
            count: Some(0),
            played: Some(Played {
                taken,
                ended,
                refusal: of_record,
            }),
            ..Outcome::number(refusal)
        }
    }
}
