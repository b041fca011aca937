//! The packets, written and read.

/// The length of a wire packet.
pub const WIRE_BYTES: usize = 16;

/// The lengths of a message with upper address 0, and of any other.
const SHORT_BYTES: usize = 16;
const LONG_BYTES: usize = 20;

/// One interrupt message.
#[derive(Clone, Copy, Debug)]
pub struct Message {
    pub upper: u32,
    pub address: u32,
    pub data: u32,
}

impl Message {
    /// The length of the message's packet.
    pub fn bytes(&self) -> usize {
        if self.upper == 0 {
            SHORT_BYTES
        } else {
            LONG_BYTES
        }
    }

    /// Writes the packet at the start of `out` and gives its length.
    pub fn write(&self, requester: u16, out: &mut [u8]) -> usize {
        let [high, low] = requester.to_be_bytes();
        // 01: "Message, upper address 0: 40 00 00 01, requester (high byte
        // first), 00, 0F, address high byte first, data low byte first: 16
        // bytes."
        out[..8].copy_from_slice(&[0x40, 0, 0, 1, high, low, 0, 0x0F]);
        let mut at = 8;
        // 01: "Upper address not 0: first byte 60, upper address before the
        // lower: 20 bytes."
        if self.upper != 0 {
            out[0] = 0x60;
            out[8..12].copy_from_slice(&self.upper.to_be_bytes());
            at = 12;
        }
        out[at..at + 4].copy_from_slice(&self.address.to_be_bytes());
        out[at + 4..at + 8].copy_from_slice(&self.data.to_le_bytes());
        at + 8
    }
}

/// Writes a wire packet at the start of `out` and gives its length. The pin
/// is 1 to 4.
pub fn write_wire(assert: bool, pin: u8, requester: u16, out: &mut [u8]) -> usize {
    let [high, low] = requester.to_be_bytes();
    // 01: "Code 1Fh + pin asserts, 23h + pin deasserts."
    let code = if assert { 0x1F + pin } else { 0x23 + pin };
    // 01: "Wire: 34 00 00 00, requester, 00, code, eight zeros: 16 bytes."
    out[..8].copy_from_slice(&[0x34, 0, 0, 0, high, low, 0, code]);
    out[8..16].fill(0);
    WIRE_BYTES
}

/// What a packet says besides its requester.
#[derive(Clone, Copy, Debug, PartialEq, Eq)]
pub enum Contents {
    /// The upper address is the high half of the address.
    Message { address: u64, data: u32 },
    /// The pin is 1 to 4.
    Wire { assert: bool, pin: u8 },
}

/// A packet that was read.
#[derive(Clone, Copy, Debug, PartialEq, Eq)]
pub struct Packet {
    /// The number of its bytes.
    pub bytes: usize,
    pub requester: u16,
    pub contents: Contents,
}

// 01: "Packets stand one after another from the start of the output"
/// The packet at the start of `bytes`, whatever stands behind it; `None` if
/// there is none.
pub fn first(bytes: &[u8]) -> Option<Packet> {
    let beginning = |length| bytes.get(..length).and_then(single);
    beginning(SHORT_BYTES).or_else(|| beginning(LONG_BYTES))
}

/// The packet that these bytes are, the whole of them; `None` if they are none.
pub fn single(bytes: &[u8]) -> Option<Packet> {
    let contents = if is_short_message(bytes) {
        message_contents(0, &bytes[8..])
    } else if is_long_message(bytes) {
        message_contents(big_endian(&bytes[8..]), &bytes[12..])
    } else if has_wire_layout(bytes) {
        read_code(bytes[7])?
    } else {
        return None;
    };
    Some(Packet {
        bytes: bytes.len(),
        // 01: "requester (high byte first)"
        requester: u16::from(bytes[4]) << 8 | u16::from(bytes[5]),
        contents,
    })
}

// 01: "Message, upper address 0: 40 00 00 01, requester (high byte first), 00,
// 0F, address high byte first, data low byte first: 16 bytes."
fn is_short_message(bytes: &[u8]) -> bool {
    bytes.len() == SHORT_BYTES
        && bytes[0..4] == [0x40, 0, 0, 1]
        && bytes[6..8] == [0, 0x0F]
        && bytes[11] & 3 == 0
}

// 01: "Upper address not 0: first byte 60, upper address before the lower: 20
// bytes."
fn is_long_message(bytes: &[u8]) -> bool {
    bytes.len() == LONG_BYTES
        && bytes[0..4] == [0x60, 0, 0, 1]
        && bytes[6..8] == [0, 0x0F]
        && bytes[8..12] != [0, 0, 0, 0]
        && bytes[15] & 3 == 0
}

// 01: "address high byte first, data low byte first"
/// The contents of a message, of which `bytes` are lower address and data.
fn message_contents(upper: u64, bytes: &[u8]) -> Contents {
    let data = bytes[4..8].iter().rev();
    Contents::Message {
        address: upper << 32 | big_endian(bytes),
        data: data.fold(0, |number, &byte| number << 8 | u32::from(byte)),
    }
}

/// The first four bytes as a number, high byte first.
fn big_endian(bytes: &[u8]) -> u64 {
    let word = bytes[..4].iter();
    word.fold(0, |number, &byte| number << 8 | u64::from(byte))
}

// 01: "Wire: 34 00 00 00, requester, 00, code, eight zeros: 16 bytes."
/// Whether the bytes are a wire packet but for the code.
fn has_wire_layout(bytes: &[u8]) -> bool {
    bytes.len() == WIRE_BYTES
        && bytes[0..4] == [0x34, 0, 0, 0]
        && bytes[6] == 0
        && bytes[8..16] == [0; 8]
}

// 01: "Code 1Fh + pin asserts, 23h + pin deasserts."
fn read_code(code: u8) -> Option<Contents> {
    for pin in 1..=4 {
        if code == 0x1F + pin {
            return Some(Contents::Wire { assert: true, pin });
        }
        if code == 0x23 + pin {
            return Some(Contents::Wire { assert: false, pin });
        }
    }
    None
}
