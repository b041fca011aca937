//! What runs of switches meet.

use super::{Statistics, Table};
use crate::call::{Call, Room, SwitchCall, SWITCH_KINDS};
use crate::packets::aligned;
use crate::pair::Made;
use crate::wide;
use crate::world::{PORTS_AT, SWITCH_BYTES};
use musgarento::{Packet, Packets};

/// The refusals that each kind of call can give, 0 for accepted, in the order
/// of `SWITCH_KINDS`.
const POSSIBLE: [&[u8]; 3] = [&[0, 60], &[0, 6, 50, 60], &[0, 6, 50, 60]];

/// Other things that a run should meet.
pub const NAMED: [&str; 49] = [
    "60 for another length than 10",
    "60 for a port byte above 15",
    "60 for a requester above FFFFh",
    "start over a port byte above 15",
    "50 for a port above 7 alone",
    "50 for port and packet",
    "50 for no bytes",
    "50 for bytes that are no packet",
    "50 for bytes behind a packet",
    "50 for address bits 1:0",
    "50 for a device number",
    "message below 4 GiB passed",
    "message above 4 GiB passed",
    "Assert that changes the upstream wire",
    "Assert hidden by another port",
    "Assert repeated",
    "Deassert that changes the upstream wire",
    "Deassert hidden by another port",
    "Deassert repeated",
    "wire packet with a bus and function not 0 accepted",
    "port down, no wire active",
    "port down, all wires hidden",
    "port down, some wires hidden",
    "port down, no wire hidden",
    "call with 0 packets",
    "call with 1 packet",
    "call with 2 packets",
    "call with 3 packets",
    "call with 4 packets",
    "upstream Assert of pin 1",
    "upstream Assert of pin 2",
    "upstream Assert of pin 3",
    "upstream Assert of pin 4",
    "upstream Deassert of pin 1",
    "upstream Deassert of pin 2",
    "upstream Deassert of pin 3",
    "upstream Deassert of pin 4",
    "wire packet sent, function part of the switch 0",
    "wire packet sent, function part of the switch not 0",
    "all 32 wires active",
    "exact output accepted",
    "longer output accepted",
    "empty output accepted",
    "empty output refused",
    "output one byte short refused",
    "port wider than 8 bits refused",
    "port wider than 16 bits refused",
    "port wider than 32 bits refused",
    "requester wider than 16 bits refused",
];

/// By the number of packets.
const CALL_WITH: [&str; 5] = [
    "call with 0 packets",
    "call with 1 packet",
    "call with 2 packets",
    "call with 3 packets",
    "call with 4 packets",
];

/// By the pin.
const UPSTREAM_ASSERT: [&str; 4] = [
    "upstream Assert of pin 1",
    "upstream Assert of pin 2",
    "upstream Assert of pin 3",
    "upstream Assert of pin 4",
];
const UPSTREAM_DEASSERT: [&str; 4] = [
    "upstream Deassert of pin 1",
    "upstream Deassert of pin 2",
    "upstream Deassert of pin 3",
    "upstream Deassert of pin 4",
];

/// The table of all calls.
pub fn tables() -> Vec<Table> {
    vec![Table::new("", &SWITCH_KINDS, &POSSIBLE)]
}

impl Statistics {
    /// Counts a call of a switch.
    pub(super) fn count_switch(&mut self, made: &Made<'_>) {
        let Call::Switch(call) = made.call else {
            return;
        };
        self.tables[0].count(made.call.kind(), made.outcome.refusal);
        match made.outcome.refusal {
            0 => self.count_accepted(made, call),
            50 => self.count_50(call),
            60 => self.count_60(made),
            _ => {}
        }
        if made.call.has_output() {
            self.count_room(made);
        }
        if let Some(name) = wide::met(made) {
            self.met(name);
        }
    }

    fn count_60(&mut self, made: &Made<'_>) {
        self.met(if made.switch.len() != SWITCH_BYTES {
            "60 for another length than 10"
        } else if made.call.has_output() {
            "60 for a port byte above 15"
        } else {
            "60 for a requester above FFFFh"
        });
    }

    /// Counts which of the ways to 50 it was.
    fn count_50(&mut self, call: &SwitchCall) {
        let (port, wrong) = match call {
            SwitchCall::Packet { port, packet } => (*port, wrong_packet(packet)),
            SwitchCall::Down(port) => (*port, None),
            SwitchCall::Start(_) => return,
        };
        match (port > 7, wrong) {
            (true, None) => self.met("50 for a port above 7 alone"),
            (true, Some(_)) => self.met("50 for port and packet"),
            (false, Some(name)) => self.met(name),
            (false, None) => {}
        }
    }

    fn count_accepted(&mut self, made: &Made<'_>, call: &SwitchCall) {
        if made.switch[PORTS_AT..].iter().all(|&wires| wires == 15) {
            self.met("all 32 wires active");
        }
        match call {
            SwitchCall::Start(_) => {
                if made.switch_before[PORTS_AT..].iter().any(|&byte| byte > 15) {
                    self.met("start over a port byte above 15");
                }
                return;
            }
            SwitchCall::Packet { packet, .. } => self.count_packet(made, packet),
            SwitchCall::Down(port) => self.count_down(made, *port as usize),
        }
        self.count_sent(made);
    }

    fn count_packet(&mut self, made: &Made<'_>, packet: &[u8]) {
        let changed = made.switch != made.switch_before;
        let sent = made.outcome.count != Some(0);
        let Some((packet, _)) = Packet::read(packet) else {
            return;
        };
        self.met(match (packet, changed, sent) {
            (Packet::Message { address, .. }, ..) if address >> 32 == 0 => {
                "message below 4 GiB passed"
            }
            (Packet::Message { .. }, ..) => "message above 4 GiB passed",
            (Packet::Assert { .. }, true, true) => "Assert that changes the upstream wire",
            (Packet::Assert { .. }, true, false) => "Assert hidden by another port",
            (Packet::Assert { .. }, false, _) => "Assert repeated",
            (Packet::Deassert { .. }, true, true) => "Deassert that changes the upstream wire",
            (Packet::Deassert { .. }, true, false) => "Deassert hidden by another port",
            (Packet::Deassert { .. }, false, _) => "Deassert repeated",
        });
        let from = packet.requester();
        if !matches!(packet, Packet::Message { .. }) && from >> 8 != 0 && from & 7 != 0 {
            self.met("wire packet with a bus and function not 0 accepted");
        }
    }

    fn count_down(&mut self, made: &Made<'_>, port: usize) {
        let dropped = made.switch_before[PORTS_AT + port].count_ones() as usize;
        let sent = Packets::new(sent(made)).count();
        self.met(match (dropped, sent) {
            (0, _) => "port down, no wire active",
            (_, 0) => "port down, all wires hidden",
            _ if sent < dropped => "port down, some wires hidden",
            _ => "port down, no wire hidden",
        });
    }

    fn count_sent(&mut self, made: &Made<'_>) {
        let function = made.switch[0] & 7;
        for packet in Packets::new(sent(made)) {
            match packet {
                Packet::Message { .. } => continue,
                Packet::Assert { pin, .. } => self.met(UPSTREAM_ASSERT[usize::from(pin) - 1]),
                Packet::Deassert { pin, .. } => self.met(UPSTREAM_DEASSERT[usize::from(pin) - 1]),
            }
            self.met(match function {
                0 => "wire packet sent, function part of the switch 0",
                _ => "wire packet sent, function part of the switch not 0",
            });
        }
        let packets = Packets::new(sent(made)).count();
        if let Some(name) = CALL_WITH.get(packets) {
            self.met(name);
        }
    }

    fn count_room(&mut self, made: &Made<'_>) {
        let count = sent(made).len();
        match (made.outcome.refusal, made.out.len()) {
            (6, 0) => self.met("empty output refused"),
            (0, 0) => self.met("empty output accepted"),
            (0, length) if count > 0 && length == count => self.met("exact output accepted"),
            (0, _) if count > 0 => self.met("longer output accepted"),
            _ => {}
        }
        if (made.outcome.refusal, made.room) == (6, Room::Short) {
            self.met("output one byte short refused");
        }
    }
}

/// What a call sent.
fn sent<'a>(made: &Made<'a>) -> &'a [u8] {
    &made.out[..made.outcome.count.unwrap_or(0)]
}

/// What is wrong with a packet, by its name; `None` if it is one that a port
/// takes.
fn wrong_packet(packet: &[u8]) -> Option<&'static str> {
    let aligned = aligned(packet);
    match Packet::read(&aligned) {
        None if packet.is_empty() => Some("50 for no bytes"),
        None => Some("50 for bytes that are no packet"),
        Some((_, [_, ..])) => Some("50 for bytes behind a packet"),
        Some((Packet::Message { .. }, [])) => {
            (aligned != packet).then_some("50 for address bits 1:0")
        }
        Some((wire, [])) => (wire.requester() >> 3 & 0x1F != 0).then_some("50 for a device number"),
    }
}
