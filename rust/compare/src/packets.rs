//! Packets that cards send, for the calls of switches and for queries.

use musgarento::Packet;

/// The places of the lower address in the two forms of a message, and of the
/// upper address in the long one.
pub const SHORT_ADDRESS_AT: usize = 8;
pub const LONG_ADDRESS_AT: usize = 12;
pub const UPPER_AT: usize = 8;
/// The places of the two bytes of a requester ID, and of the code of a wire
/// packet.
pub const BUS_AT: usize = 4;
pub const DEVICE_AT: usize = 5;
pub const CODE_AT: usize = 7;

/// The wire packet of a card pin, 1 to 4.
pub fn wire(assert: bool, pin: usize, requester: u16) -> Vec<u8> {
    let pin = pin as u8;
    let packet = match assert {
        true => Packet::Assert { requester, pin },
        false => Packet::Deassert { requester, pin },
    };
    packet.bytes().expect("the pin is 1 to 4")
}

/// The message to an address, in the short form if its upper half is 0.
pub fn message(requester: u16, address: u64, data: u32) -> Vec<u8> {
    let packet = Packet::Message {
        requester,
        address,
        data,
    };
    packet.bytes().expect("a message has no pin")
}

/// The bytes with address bits 1:0 cleared, if they are those of a message.
pub fn aligned(packet: &[u8]) -> Vec<u8> {
    let mut bytes = packet.to_vec();
    let last = match packet.first() {
        Some(0x40) => bytes.get_mut(SHORT_ADDRESS_AT + 3),
        Some(0x60) => bytes.get_mut(LONG_ADDRESS_AT + 3),
        _ => None,
    };
    if let Some(byte) = last {
        *byte &= !3;
    }
    bytes
}

/// A packet of each layout.
pub fn samples(requester: u16) -> [Vec<u8>; 4] {
    [
        message(requester, 0xFEE0_0000, 0x49A1),
        message(requester, 0x1_FEE0_1000, 0x31),
        wire(true, 1, requester),
        wire(false, 4, requester),
    ]
}

/// The card pin of a port, 0 to 7, that becomes an upstream pin.
pub fn card_pin(port: usize, upstream: usize) -> usize {
    (upstream + 7 - port) % 4 + 1
}
