//! The switch.

use crate::layout::{PORTS_AT, SWITCH_BYTES, SWITCH_PACKET_BYTES};
use crate::packet::Packets;
use crate::raw;
use crate::refusal::{accepted, never_refused, PortError};
use std::fmt;

/// A switch between up to eight cards and the host.
///
/// Each of the ports 0 to 7 keeps the level of four wires, one for each pin of
/// its card. Card pin p at port k is upstream pin ((k + p - 1) mod 4) + 1, and
/// an upstream wire is active while any port's wire of it is. Only a change of
/// an upstream wire sends a wire packet, with the switch's requester ID,
/// function part 0. Messages pass unchanged.
///
/// Pin 1 at port 0 and pin 1 at port 4 share INTA:
///
/// ```
/// use musgarento::{Card, Packet, Refusal, Start, Switch};
///
/// let mut config = [0; 256];
/// config[0x3D] = 1; // pin 1
/// let start = Start {
///     config,
///     sizes: [0; 6],
///     events: 1,
///     requester: 0x0200,
/// };
/// let mut first = Card::start(&start)?;
/// let mut second = Card::start(&Start { requester: 0x0600, ..start })?;
/// let mut switch = Switch::new(0x0100);
/// let (requester, pin) = (0x0100, 1);
///
/// // The first Assert goes up, the second is hidden.
/// let mut up = switch.packet(0, first.line(true).bytes())?;
/// assert_eq!(up.next(), Some(Packet::Assert { requester, pin }));
/// let mut up = switch.packet(4, second.line(true).bytes())?;
/// assert_eq!(up.next(), None);
///
/// // The first Deassert is hidden, the second goes up.
/// let mut up = switch.packet(0, first.line(false).bytes())?;
/// assert_eq!(up.next(), None);
/// assert!(switch.is_upstream_active(1));
/// let mut up = switch.packet(4, second.line(false).bytes())?;
/// assert_eq!(up.next(), Some(Packet::Deassert { requester, pin }));
/// # Ok::<(), Refusal>(())
/// ```
///
/// A call of a card can send several packets; [`Packets::slices`] gives the
/// bytes of each.
///
/// Two switches are equal if their requester IDs and wires are.
#[derive(Clone)]
pub struct Switch {
    state: [u8; SWITCH_BYTES],
    /// Room for the packets of any call; its contents do not belong to the
    /// switch.
    out: [u8; SWITCH_PACKET_BYTES],
}

impl PartialEq for Switch {
    fn eq(&self, other: &Switch) -> bool {
        self.state == other.state
    }
}

impl Eq for Switch {}

/// Four wires in binary digits: the last one is the level of pin 1.
struct Wires(u8);

impl fmt::Debug for Wires {
    fn fmt(&self, f: &mut fmt::Formatter<'_>) -> fmt::Result {
        write!(f, "{:04b}", self.0)
    }
}

/// The requester ID and the wires, the last digit of which is that of pin 1.
impl fmt::Debug for Switch {
    fn fmt(&self, f: &mut fmt::Formatter<'_>) -> fmt::Result {
        let ports: Vec<Wires> = self.ports().iter().copied().map(Wires).collect();
        f.debug_struct("Switch")
            .field("requester", &format_args!("{:#06X}", self.requester()))
            .field("ports", &ports)
            .field("upstream", &Wires(self.upstream()))
            .finish_non_exhaustive()
    }
}

impl Switch {
    /// A switch with no active wire. The function part of the requester ID is
    /// 0 in what it sends.
    pub fn new(requester: u16) -> Switch {
        let mut state = [0; SWITCH_BYTES];
        never_refused(raw::switch_start(&mut state, requester.into()));
        Switch {
            state,
            out: [0; SWITCH_PACKET_BYTES],
        }
    }

    /// Takes the bytes of one packet from the card at a port, and gives what
    /// goes upstream: at most one packet.
    pub fn packet(&mut self, port: u8, packet: &[u8]) -> Result<Packets<'_>, PortError> {
        let mut count = 0;
        accepted(raw::switch_packet(
            &mut self.state,
            port.into(),
            packet,
            &mut self.out,
            &mut count,
        ))?;
        Ok(self.packets(count))
    }

    /// Drops the wires of a port that goes down, and gives what goes upstream:
    /// at most four packets, in the order of the upstream pins. The port takes
    /// packets as before.
    pub fn down(&mut self, port: u8) -> Result<Packets<'_>, PortError> {
        let mut count = 0;
        accepted(raw::switch_down(
            &mut self.state,
            port.into(),
            &mut self.out,
            &mut count,
        ))?;
        Ok(self.packets(count))
    }

    /// The requester ID, as it was given.
    pub fn requester(&self) -> u16 {
        u16::from_le_bytes([self.state[0], self.state[1]])
    }

    /// Whether a port's wire of a card pin, 1 to 4, is active; no other port or
    /// pin has one.
    pub fn is_wire_active(&self, port: u8, pin: u8) -> bool {
        let wires = self.ports().get(usize::from(port));
        wires.is_some_and(|&wires| has_pin(wires, pin))
    }

    /// Whether the upstream wire of a pin, 1 to 4, is active; no other pin has
    /// one.
    pub fn is_upstream_active(&self, pin: u8) -> bool {
        has_pin(self.upstream(), pin)
    }

    /// The wires of each port.
    fn ports(&self) -> &[u8] {
        &self.state[PORTS_AT..]
    }

    /// The upstream wires: those of the ports, each turned by its number. Only
    /// for looking at; what is sent comes from the proved code alone.
    fn upstream(&self) -> u8 {
        let ports = self.ports().iter().enumerate();
        ports.fold(0, |wires, (port, &own)| wires | turned(own, port))
    }

    /// The packets in the first `count` bytes of the output.
    fn packets(&self, count: usize) -> Packets<'_> {
        Packets::new(&self.out[..count])
    }
}

/// Whether bit `pin` - 1 of four wires is set.
fn has_pin(wires: u8, pin: u8) -> bool {
    (1..=4).contains(&pin) && wires >> (pin - 1) & 1 != 0
}

/// Four wires, each moved up by `port` places and around.
fn turned(wires: u8, port: usize) -> u8 {
    let moved = wires << (port % 4);
    (moved | moved >> 4) & 0x0F
}

#[cfg(test)]
mod tests {
    use super::*;

    #[test]
    fn wires_of_a_port_upstream() {
        for port in 0..8 {
            for pin in 0..4 {
                assert_eq!(turned(1 << pin, port), 1 << ((port + pin) % 4));
            }
            assert_eq!(turned(0x0F, port), 0x0F);
        }
    }
}
