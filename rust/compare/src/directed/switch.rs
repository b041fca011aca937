//! Switches: mappings, joined wires, ports, packets, outputs and bytes.

mod bytes;
mod packets;
mod wires;

use super::{Run, Trial};
use crate::call::{Call, Room, Step, SwitchCall};
use crate::packets::wire;
use crate::run::Runner;
use crate::world::{Part, PORTS_AT, SWITCH_BYTES, SWITCH_ROOM};

/// The requester IDs of the switch and of a card.
const SWITCH: u64 = 0x0310;
const CARD: u16 = 0x0500;

pub fn run(runner: &mut Runner<'_>) -> Run {
    wires::run(runner)?;
    packets::run(runner)?;
    bytes::run(runner)
}

fn start(requester: u64) -> Call {
    Call::Switch(SwitchCall::Start(requester))
}

fn packet(port: u64, packet: &[u8]) -> Call {
    let packet = packet.to_vec();
    Call::Switch(SwitchCall::Packet { port, packet })
}

fn down(port: u64) -> Call {
    Call::Switch(SwitchCall::Down(port))
}

fn assert(port: usize, pin: usize) -> Call {
    packet(port as u64, &wire(true, pin, CARD))
}

fn deassert(port: usize, pin: usize) -> Call {
    packet(port as u64, &wire(false, pin, CARD))
}

/// The bytes of a switch with these port bytes.
fn switch_bytes(ports: [u8; 8]) -> Vec<u8> {
    let mut bytes = (SWITCH as u16).to_le_bytes().to_vec();
    bytes.extend(ports);
    bytes
}

impl Trial {
    /// A trial that begins with a start.
    fn switch() -> Trial {
        let mut trial = Trial::default();
        trial
            .length(Part::Switch, SWITCH_BYTES)
            .room(start(SWITCH), 0);
        trial
    }

    /// Makes a call with an output of this length.
    fn room(&mut self, call: Call, length: usize) -> &mut Trial {
        self.step(Step::Call(call, Room::Bytes(length)))
    }

    /// Makes a call of a switch with a long output.
    fn on(&mut self, call: Call) -> &mut Trial {
        self.room(call, SWITCH_ROOM + 16)
    }

    /// Gives the switch these bytes.
    fn contents(&mut self, bytes: Vec<u8>) -> &mut Trial {
        self.step(Step::Contents(Part::Switch, bytes))
    }

    /// Gives the switch these port bytes.
    fn wires(&mut self, ports: [u8; 8]) -> &mut Trial {
        self.contents(switch_bytes(ports))
    }

    fn port_byte(&mut self, port: usize, value: u8) -> &mut Trial {
        self.byte(Part::Switch, PORTS_AT + port, value)
    }
}
