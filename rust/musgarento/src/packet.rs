//! The packets that a card or a switch sends.

use crate::raw;
use std::fmt;
use std::iter::{self, FusedIterator};

/// A packet.
#[derive(Clone, Copy, Debug, PartialEq, Eq, Hash)]
pub enum Packet {
    /// An MSI or MSI-X message: a memory write of one word.
    Message {
        /// The requester ID.
        requester: u16,
        /// The address, with the upper address in its high half.
        address: u64,
        /// The data.
        data: u32,
    },
    /// The wire of a pin becomes active.
    Assert {
        /// The requester ID.
        requester: u16,
        /// The pin, 1 to 4.
        pin: u8,
    },
    /// The wire of a pin becomes inactive.
    Deassert {
        /// The requester ID.
        requester: u16,
        /// The pin, 1 to 4.
        pin: u8,
    },
}

impl Packet {
    /// Reads the packet at the start of `bytes`, and gives the bytes behind
    /// it too; `None` if no packet stands there. An address with bits 1:0 set is
    /// in no packet.
    pub fn read(bytes: &[u8]) -> Option<(Packet, &[u8])> {
        let (mut count, mut kind, mut requester) = (0, 0, 0);
        let (mut address, mut data, mut pin, mut level) = (0, 0, 0, 0);
        let refusal = raw::packet(
            bytes,
            &mut count,
            &mut kind,
            &mut requester,
            &mut address,
            &mut data,
            &mut pin,
            &mut level,
        );
        if refusal != 0 {
            return None;
        }
        let packet = match (kind, level) {
            (raw::PACKET_MESSAGE, _) => Packet::Message {
                requester,
                address,
                data,
            },
            (_, 0) => Packet::Deassert { requester, pin },
            _ => Packet::Assert { requester, pin },
        };
        Some((packet, &bytes[count..]))
    }

    /// The bytes of the packet, 16 or 20; `None` if the pin is not 1 to 4. An
    /// address is written as it is.
    pub fn bytes(&self) -> Option<Vec<u8>> {
        match *self {
            Packet::Message {
                requester,
                address,
                data,
            } => Some(message_bytes(requester, address, data)),
            Packet::Assert { requester, pin } => wire_bytes(requester, 0x1F, pin),
            Packet::Deassert { requester, pin } => wire_bytes(requester, 0x23, pin),
        }
    }

    /// The requester ID.
    pub fn requester(&self) -> u16 {
        match *self {
            Packet::Message { requester, .. }
            | Packet::Assert { requester, .. }
            | Packet::Deassert { requester, .. } => requester,
        }
    }
}

/// The bytes of a message.
fn message_bytes(requester: u16, address: u64, data: u32) -> Vec<u8> {
    let [a, b] = requester.to_be_bytes();
    let address = address.to_be_bytes();
    let (first, address) = match address {
        [0, 0, 0, 0, ..] => (0x40, &address[4..]),
        _ => (0x60, &address[..]),
    };
    let head = [first, 0, 0, 1, a, b, 0, 0x0F];
    [&head[..], address, &data.to_le_bytes()].concat()
}

/// The bytes of a wire packet, whose code is `base` + pin.
fn wire_bytes(requester: u16, base: u8, pin: u8) -> Option<Vec<u8>> {
    if !(1..=4).contains(&pin) {
        return None;
    }
    let [a, b] = requester.to_be_bytes();
    let head = [0x34, 0, 0, 0, a, b, 0, base + pin];
    Some([head, [0; 8]].concat())
}

impl fmt::Display for Packet {
    fn fmt(&self, f: &mut fmt::Formatter<'_>) -> fmt::Result {
        let from = self.requester();
        let (bus, device, function) = (from >> 8, from >> 3 & 0x1F, from & 7);
        let pin_name = |pin: u8| char::from(b'A' + pin - 1);
        match *self {
            Packet::Message { address, data, .. } => {
                write!(f, "message of data {data:08X}h to address {address:016X}h")?
            }
            Packet::Assert { pin, .. } => write!(f, "Assert_INT{}", pin_name(pin))?,
            Packet::Deassert { pin, .. } => write!(f, "Deassert_INT{}", pin_name(pin))?,
        }
        write!(f, ", from {bus:02X}:{device:02X}.{function}")
    }
}

/// The packets that stand one after another in some bytes.
///
/// The iterator ends at the first bytes that are no packet; in what a card or a
/// switch sends that is its end.
#[derive(Clone, Debug)]
pub struct Packets<'a> {
    bytes: &'a [u8],
}

impl<'a> Packets<'a> {
    /// The packets in these bytes.
    pub fn new(bytes: &'a [u8]) -> Packets<'a> {
        Packets { bytes }
    }

    /// The bytes of the packets that are still to come.
    pub fn bytes(&self) -> &'a [u8] {
        self.bytes
    }

    /// The bytes of each packet that is still to come, as a
    /// [`Switch`](crate::Switch) takes them.
    pub fn slices(mut self) -> impl Iterator<Item = &'a [u8]> {
        iter::from_fn(move || {
            let bytes = self.bytes;
            self.next()?;
            Some(&bytes[..bytes.len() - self.bytes.len()])
        })
    }
}

impl Iterator for Packets<'_> {
    type Item = Packet;

    fn next(&mut self) -> Option<Packet> {
        let (packet, rest) = Packet::read(self.bytes)?;
        self.bytes = rest;
        Some(packet)
    }
}

impl FusedIterator for Packets<'_> {}

#[cfg(test)]
mod tests {
    use super::{Packet, Packets};

    const SHORT: [u8; 16] = [
        0x40, 0, 0, 1, 1, 0, 0, 0x0F, 0xFE, 0xE0, 0, 0, 0xA1, 0x49, 0, 0,
    ];
    const LONG: [u8; 20] = [
        0x60, 0, 0, 1, 1, 0, 0, 0x0F, 0, 0, 0, 1, 0xFE, 0xE0, 0x10, 0, 0x31, 0, 0, 0,
    ];
    const WIRE: [u8; 16] = [0x34, 0, 0, 0, 1, 8, 0, 0x27, 0, 0, 0, 0, 0, 0, 0, 0];

    #[test]
    fn packets_one_after_another() {
        let bytes = [&WIRE[..], &SHORT, &LONG].concat();
        let packets: Vec<Packet> = Packets::new(&bytes).collect();
        let message = |address, data| Packet::Message {
            requester: 0x0100,
            address,
            data,
        };
        let deassert = Packet::Deassert {
            requester: 0x0108,
            pin: 4,
        };
        let expected = [
            deassert,
            message(0xFEE0_0000, 0x49A1),
            message(0x1_FEE0_1000, 0x31),
        ];
        assert_eq!(packets, expected);
    }

    #[test]
    fn bytes_of_each_packet() {
        let bytes = [&WIRE[..], &SHORT, &LONG].concat();
        let slices: Vec<&[u8]> = Packets::new(&bytes).slices().collect();
        assert_eq!(slices, [&WIRE[..], &SHORT, &LONG]);
        let mut rest = Packets::new(&bytes);
        rest.next();
        assert_eq!(rest.slices().next(), Some(&SHORT[..]));
        let cut = Packets::new(&bytes[..bytes.len() - 1]);
        assert_eq!(cut.slices().count(), 2);
    }

    #[test]
    fn what_is_read_is_written() {
        for bytes in [&SHORT[..], &LONG, &WIRE] {
            let (packet, rest) = Packet::read(bytes).unwrap();
            assert!(rest.is_empty());
            assert_eq!(packet.bytes().as_deref(), Some(bytes));
        }
        for code in 0x20..=0x27 {
            let mut bytes = WIRE;
            bytes[7] = code;
            let packet = Packet::read(&bytes).unwrap().0;
            assert_eq!(packet.bytes().as_deref(), Some(&bytes[..]));
        }
    }

    #[test]
    fn what_is_written_is_read() {
        let wires = (1..=4).flat_map(|pin| {
            let requester = 0x12FD;
            [
                Packet::Assert { requester, pin },
                Packet::Deassert { requester, pin },
            ]
        });
        let addresses = [0, 4, 0xFFFF_FFFC, 1 << 32, 1 << 63, !3];
        let messages = addresses.map(|address| Packet::Message {
            requester: 0xFE01,
            address,
            data: 0x8765_4321,
        });
        for packet in wires.chain(messages) {
            let bytes = packet.bytes().unwrap();
            assert_eq!(Packet::read(&bytes), Some((packet, &[][..])));
        }
    }

    #[test]
    fn pins_that_no_packet_has() {
        let requester = 0;
        for pin in [0, 5, 0x20, 0xFF] {
            assert_eq!(Packet::Assert { requester, pin }.bytes(), None);
            assert_eq!(Packet::Deassert { requester, pin }.bytes(), None);
        }
    }

    #[test]
    fn what_is_no_packet() {
        for packet in [&SHORT[..], &LONG, &WIRE] {
            assert!(Packet::read(packet).is_some());
            assert!(Packet::read(&packet[..packet.len() - 1]).is_none());
        }
        let changed = |packet: &[u8], at: usize, value: u8| {
            let mut bytes = packet.to_vec();
            bytes[at] = value;
            Packet::read(&bytes).is_some()
        };
        assert!(!changed(&SHORT, 3, 2));
        assert!(!changed(&SHORT, 7, 0xFF));
        assert!(!changed(&SHORT, 11, 1));
        assert!(!changed(&LONG, 15, 2));
        assert!(!changed(&LONG, 11, 0));
        assert!(!changed(&WIRE, 7, 0x1F));
        assert!(!changed(&WIRE, 7, 0x28));
        assert!(!changed(&WIRE, 15, 1));
        assert!(Packet::read(&[]).is_none());
    }

    #[test]
    fn text() {
        let text = |bytes: &[u8]| Packet::read(bytes).unwrap().0.to_string();
        assert_eq!(text(&WIRE), "Deassert_INTD, from 01:01.0");
        assert_eq!(
            text(&LONG),
            "message of data 00000031h to address 00000001FEE01000h, from 01:00.0"
        );
    }
}
