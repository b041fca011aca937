//! A switch between up to eight cards and the host.
//!
//! Each rule stands beside the sentence of request 4 of document 02 that it
//! follows, marked `02:`, or of document 01, marked `01:`.

use crate::packets::{single, write_wire, Contents, WIRE_BYTES};
use crate::Outcome;

// 02: "each port keeps four wires of its own"
/// The state of a switch.
#[derive(Clone, Debug, PartialEq, Eq)]
pub struct Switch {
    pub requester: u16,
    /// The level of each port's wires; the wire of card pin p stands at p - 1.
    pub wires: [[bool; 4]; 8],
}

/// Starts a switch, with no wire active. A refused start hands out none.
pub fn start(requester: u64) -> (Option<Switch>, Outcome) {
    // C interface: a requester ID of more than 16 bits is refused with 60.
    let Ok(requester) = u16::try_from(requester) else {
        return (None, Outcome::refused(60));
    };
    let wires = [[false; 4]; 8];
    (Some(Switch { requester, wires }), Outcome::wrote(0))
}

/// A packet from the card at a port.
pub fn packet(switch: &mut Switch, port: u64, packet: &[u8], out: &mut [u8]) -> Outcome {
    let Some(port) = read_port(port) else {
        return Outcome::refused(50);
    };
    match read_packet(packet) {
        None => Outcome::refused(50),
        Some(Contents::Message { .. }) => pass(packet, out),
        // 02: "A repeated Assert or Deassert changes nothing."
        Some(Contents::Wire { assert, pin }) => {
            let mut wires = switch.wires;
            wires[port][usize::from(pin) - 1] = assert;
            change(switch, wires, out)
        }
    }
}

/// A port going down.
pub fn down(switch: &mut Switch, port: u64, out: &mut [u8]) -> Outcome {
    let Some(port) = read_port(port) else {
        return Outcome::refused(50);
    };
    // 02: "A port going down drops its wires"
    let mut wires = switch.wires;
    wires[port] = [false; 4];
    change(switch, wires, out)
}

// 02: "Refusal 50 is for a port above 7"
fn read_port(port: u64) -> Option<usize> {
    if port > 7 {
        return None;
    }
    usize::try_from(port).ok()
}

// 02: "bytes that are no single packet in 01's layouts (any requester, address
// bits 1:0 zero)"
/// What the packet says that these bytes are; `None` for one that is refused.
fn read_packet(bytes: &[u8]) -> Option<Contents> {
    let packet = single(bytes)?;
    // 02: "or a wire packet with a device number other than 0"
    // The device number is bits 7:3 of the requester ID.
    let is_wire = matches!(packet.contents, Contents::Wire { .. });
    if is_wire && packet.requester >> 3 & 0x1F != 0 {
        return None;
    }
    Some(packet.contents)
}

// 02: "Message writes pass unchanged."
fn pass(message: &[u8], out: &mut [u8]) -> Outcome {
    // 01, no. 6: "output shorter than this call's packets or image"
    if out.len() < message.len() {
        return Outcome::refused(6);
    }
    out[..message.len()].copy_from_slice(message);
    Outcome::wrote(message.len())
}

// 02: "card pin p (1 to 4) becomes upstream pin ((k + p - 1) mod 4) + 1."
fn upstream_pin(port: usize, pin: usize) -> usize {
    (port + pin - 1) % 4 + 1
}

// 02: "The upstream wire is active while any port's mapped wire is."
/// Whether the wire of an upstream pin is active.
fn is_active(wires: &[[bool; 4]; 8], upstream: usize) -> bool {
    let maps =
        |port: usize, pin: usize| wires[port][pin - 1] && upstream_pin(port, pin) == upstream;
    (0..8).any(|port| (1..=4).any(|pin| maps(port, pin)))
}

/// Gives the ports these wires and sends what that changes upstream.
fn change(switch: &mut Switch, wires: [[bool; 4]; 8], out: &mut [u8]) -> Outcome {
    let before = switch.wires;
    let changes = |pin: &usize| is_active(&wires, *pin) != is_active(&before, *pin);
    // 02: "Each change of that, and nothing else, sends a wire packet"
    let bytes = WIRE_BYTES * (1..=4).filter(changes).count();
    // 01, no. 6: "output shorter than this call's packets or image"
    if out.len() < bytes {
        return Outcome::refused(6);
    }
    // 02: "with the switch's requester ID, function part 0"
    // The function part is bits 2:0 of the requester ID.
    let requester = switch.requester & !7;
    let mut count = 0;
    // 02: "changes sent in upstream pin order"
    for pin in (1..=4).filter(changes) {
        let assert = is_active(&wires, pin);
        count += write_wire(assert, pin as u8, requester, &mut out[count..]);
    }
    switch.wires = wires;
    Outcome::wrote(count)
}
