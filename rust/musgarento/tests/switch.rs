//! The rules of the switch, through [`Switch`].

use musgarento::{Card, Packet, Packets, PortError, Start, Switch};

/// The switch's requester ID: bus 1, device 2, function 3.
const REQUESTER: u16 = 0x0113;
/// The one in what it sends: function part 0.
const SENT: u16 = 0x0110;
/// A card's requester ID: device 0 of its bus.
const CARD: u16 = 0x0500;

/// The upstream pin of card pin p at port k: row k, place p - 1.
const UPSTREAM: [[u8; 4]; 8] = [
    [1, 2, 3, 4],
    [2, 3, 4, 1],
    [3, 4, 1, 2],
    [4, 1, 2, 3],
    [1, 2, 3, 4],
    [2, 3, 4, 1],
    [3, 4, 1, 2],
    [4, 1, 2, 3],
];

const SHORT: [u8; 16] = [
    0x40, 0, 0, 1, 9, 0x5A, 0, 0x0F, 0xFE, 0xE0, 0, 0, 0xA1, 0x49, 0, 0,
];
const LONG: [u8; 20] = [
    0x60, 0, 0, 1, 9, 0x5A, 0, 0x0F, 0, 0, 0, 1, 0xFE, 0xE0, 0x10, 0, 0x31, 0, 0, 0,
];

/// A card's wire.
#[derive(Clone, Copy, Debug, PartialEq, Eq)]
struct Wire {
    port: u8,
    pin: u8,
}

impl Wire {
    /// The wires of all ports.
    fn all() -> impl Iterator<Item = Wire> {
        (0..8).flat_map(|port| (1..=4).map(move |pin| Wire { port, pin }))
    }

    /// The pin of its upstream wire.
    fn upstream(self) -> u8 {
        UPSTREAM[usize::from(self.port)][usize::from(self.pin) - 1]
    }

    /// Sends an Assert or a Deassert of the wire, and gives what goes up.
    fn set(self, switch: &mut Switch, high: bool) -> Vec<Packet> {
        let packet = wire_packet(high, CARD, self.pin).bytes().unwrap();
        up(switch.packet(self.port, &packet))
    }

    /// Whether the switch has it active.
    fn is_active(self, switch: &Switch) -> bool {
        switch.is_wire_active(self.port, self.pin)
    }
}

/// An Assert if `high`, else a Deassert.
fn wire_packet(high: bool, requester: u16, pin: u8) -> Packet {
    match high {
        true => Packet::Assert { requester, pin },
        false => Packet::Deassert { requester, pin },
    }
}

/// A wire packet of the switch.
fn sent(high: bool, pin: u8) -> Packet {
    wire_packet(high, SENT, pin)
}

/// The packets of an accepted call.
fn up(packets: Result<Packets<'_>, PortError>) -> Vec<Packet> {
    packets.unwrap().collect()
}

/// A switch with these wires active.
fn switch_with(wires: impl IntoIterator<Item = Wire>) -> Switch {
    let mut switch = Switch::new(REQUESTER);
    for wire in wires {
        wire.set(&mut switch, true);
    }
    switch
}

/// The upstream pins whose wires are active.
fn active_upstream(switch: &Switch) -> Vec<u8> {
    let pins = 0..=u8::MAX;
    pins.filter(|&pin| switch.is_upstream_active(pin)).collect()
}

/// The wires that are active.
fn active(switch: &Switch) -> Vec<Wire> {
    let ports = 0..=u8::MAX;
    let wires = ports.flat_map(|port| (0..=u8::MAX).map(move |pin| Wire { port, pin }));
    wires.filter(|wire| wire.is_active(switch)).collect()
}

/// Offers a packet that is refused and changes nothing.
fn refuses(switch: &mut Switch, port: u8, packet: &[u8]) {
    let before = switch.clone();
    let refusal = switch.packet(port, packet).err();
    assert_eq!(refusal, Some(PortError::PortPacket));
    assert_eq!(*switch, before);
}

#[test]
fn a_fresh_switch() {
    let switch = Switch::new(REQUESTER);
    assert_eq!(switch.requester(), REQUESTER);
    assert_eq!(active(&switch), []);
    assert_eq!(active_upstream(&switch), []);
}

#[test]
fn upstream_pins() {
    for wire in Wire::all() {
        let mut switch = Switch::new(REQUESTER);
        let pin = wire.upstream();
        assert_eq!(wire.set(&mut switch, true), [sent(true, pin)]);
        assert_eq!(active(&switch), [wire]);
        assert_eq!(active_upstream(&switch), [pin]);
        assert_eq!(wire.set(&mut switch, false), [sent(false, pin)]);
        assert_eq!(switch, Switch::new(REQUESTER));
    }
}

#[test]
fn repeated_packets_change_nothing() {
    for wire in Wire::all() {
        let mut switch = Switch::new(REQUESTER);
        for high in [false, true, false] {
            wire.set(&mut switch, high);
            let before = switch.clone();
            assert_eq!(wire.set(&mut switch, high), []);
            assert_eq!(switch, before);
        }
    }
}

#[test]
fn two_wires_with_one_upstream_wire() {
    for (first, second) in pairs().filter(|(first, second)| first.upstream() == second.upstream()) {
        let mut switch = switch_with([first]);
        assert_eq!(second.set(&mut switch, true), []);
        assert!(first.is_active(&switch) && second.is_active(&switch));
        assert_eq!(first.set(&mut switch, false), []);
        assert_eq!(active(&switch), [second]);
        let pin = first.upstream();
        assert_eq!(active_upstream(&switch), [pin]);
        assert_eq!(second.set(&mut switch, false), [sent(false, pin)]);
    }
}

#[test]
fn two_wires_with_an_upstream_wire_each() {
    for (first, second) in pairs().filter(|(first, second)| first.upstream() != second.upstream()) {
        let mut switch = switch_with([first]);
        let (own, other) = (first.upstream(), second.upstream());
        assert_eq!(second.set(&mut switch, true), [sent(true, other)]);
        assert_eq!(first.set(&mut switch, false), [sent(false, own)]);
        assert_eq!(active_upstream(&switch), [other]);
    }
}

/// All pairs of two wires.
fn pairs() -> impl Iterator<Item = (Wire, Wire)> {
    let pairs = Wire::all().flat_map(|first| Wire::all().map(move |second| (first, second)));
    pairs.filter(|(first, second)| first != second)
}

#[test]
fn messages_pass_unchanged() {
    let mut switch = switch_with(Wire::all().filter(|wire| wire.port == 3));
    let before = switch.clone();
    for port in 0..8 {
        for message in [&SHORT[..], &LONG] {
            assert_eq!(switch.packet(port, message).unwrap().bytes(), message);
            assert_eq!(switch, before);
        }
    }
}

#[test]
fn requesters() {
    for (given, expected) in [(0, 0), (7, 0), (8, 8), (0x0113, 0x0110), (0xFFFF, 0xFFF8)] {
        let mut switch = Switch::new(given);
        let wire = Wire { port: 6, pin: 2 };
        let packets = wire.set(&mut switch, true);
        assert_eq!(packets, [wire_packet(true, expected, 4)]);
        let packets = up(switch.down(6));
        assert_eq!(packets, [wire_packet(false, expected, 4)]);
        assert_eq!(switch.requester(), given);
    }
}

#[test]
fn device_numbers() {
    for high in [true, false] {
        let packet = |requester| wire_packet(high, requester, 1).bytes().unwrap();
        for requester in [0x0000, 0x0007, 0x0500, 0x0507, 0xFF00] {
            let mut switch = switch_with([]);
            let packets = up(switch.packet(0, &packet(requester)));
            assert_eq!(packets.len(), usize::from(high));
        }
        for requester in (1..32).map(|device| 0x0500 | device << 3) {
            let mut switch = switch_with([Wire { port: 0, pin: 1 }]);
            refuses(&mut switch, 0, &packet(requester));
            refuses(&mut switch, 0, &packet(requester | 7));
        }
    }
}

#[test]
fn ports() {
    let packet = wire_packet(true, CARD, 1).bytes().unwrap();
    let mut switch = switch_with([]);
    assert_eq!(up(switch.packet(7, &packet)), [sent(true, 4)]);
    for port in 8..=u8::MAX {
        for packet in [&packet[..], &SHORT, &LONG] {
            refuses(&mut switch, port, packet);
        }
        assert_eq!(switch.down(port).err(), Some(PortError::PortPacket));
    }
    assert_eq!(active(&switch), [Wire { port: 7, pin: 1 }]);
    assert_eq!(up(switch.down(7)), [sent(false, 4)]);
}

#[test]
fn going_down_in_the_order_of_upstream_pins() {
    for port in 0..8 {
        for pins in 0_u8..16 {
            let own: Vec<Wire> = Wire::all()
                .filter(|wire| wire.port == port && pins >> (wire.pin - 1) & 1 != 0)
                .collect();
            let mut upstream: Vec<u8> = own.iter().map(|wire| wire.upstream()).collect();
            upstream.sort();
            let expected: Vec<Packet> = upstream.iter().map(|&pin| sent(false, pin)).collect();
            let mut switch = switch_with(own);
            assert_eq!(up(switch.down(port)), expected);
            assert_eq!(switch, Switch::new(REQUESTER));
            assert_eq!(up(switch.down(port)), []);
        }
    }
}

#[test]
fn going_down_beside_other_ports() {
    // Port 1 has upstream pins 2, 4 and 1; ports 0 and 5 keep pins 2 and 4.
    let kept = [Wire { port: 0, pin: 2 }, Wire { port: 5, pin: 3 }];
    let own = [1, 3, 4].map(|pin| Wire { port: 1, pin });
    let mut switch = switch_with(own.into_iter().chain(kept));
    assert_eq!(active_upstream(&switch), [1, 2, 4]);
    assert_eq!(up(switch.down(1)), [sent(false, 1)]);
    assert_eq!(active(&switch), kept);
    assert_eq!(active_upstream(&switch), [2, 4]);
}

#[test]
fn a_port_that_went_down_takes_packets() {
    let wire = Wire { port: 2, pin: 1 };
    let mut switch = switch_with([wire]);
    assert_eq!(up(switch.down(2)), [sent(false, 3)]);
    assert_eq!(wire.set(&mut switch, false), []);
    assert_eq!(wire.set(&mut switch, true), [sent(true, 3)]);
    assert_eq!(switch.packet(2, &SHORT).unwrap().bytes(), SHORT);
    assert_eq!(active(&switch), [wire]);
}

/// What an accepted call did to wires.
#[derive(Clone, Copy)]
enum Step {
    Set(Wire, bool),
    Down(u8),
}

/// Whether a wire is active after these steps: the last packet for it was an
/// Assert, and the port has not gone down since.
fn is_active_after(steps: &[Step], wire: Wire) -> bool {
    let last = steps.iter().rev().find_map(|step| match *step {
        Step::Set(of, high) => (of == wire).then_some(high),
        Step::Down(port) => (port == wire.port).then_some(false),
    });
    last == Some(true)
}

/// Numbers that look random.
struct Random(u64);

impl Random {
    /// A number below `bound`.
    fn below(&mut self, bound: u8) -> u8 {
        self.0 = self.0.wrapping_mul(6364136223846793005).wrapping_add(1);
        ((self.0 >> 33) % u64::from(bound)) as u8
    }

    /// Makes a call; `None` if it did nothing to wires.
    fn call(&mut self, switch: &mut Switch) -> (Option<Step>, Vec<Packet>) {
        let wire = Wire {
            port: self.below(8),
            pin: 1 + self.below(4),
        };
        match self.below(16) {
            0 => (Some(Step::Down(wire.port)), up(switch.down(wire.port))),
            1 => {
                refuses(switch, wire.port + 8, &SHORT);
                refuses(switch, wire.port, &SHORT[1..]);
                (None, Vec::new())
            }
            2 => {
                assert_eq!(switch.packet(wire.port, &LONG).unwrap().bytes(), LONG);
                (None, Vec::new())
            }
            number => {
                let high = number % 2 != 0;
                (Some(Step::Set(wire, high)), wire.set(switch, high))
            }
        }
    }
}

#[test]
fn wires_after_any_calls() {
    for seed in 0..50 {
        let (mut random, mut switch) = (Random(seed), Switch::new(REQUESTER));
        let (mut steps, mut upstream) = (Vec::new(), [false; 4]);
        for _ in 0..200 {
            let (step, packets) = random.call(&mut switch);
            steps.extend(step);
            let mut expected = Vec::new();
            for (pin, level) in (1..).zip(&mut upstream) {
                let mut wires = Wire::all().filter(|wire| wire.upstream() == pin);
                let now = wires.any(|wire| is_active_after(&steps, wire));
                if now != *level {
                    expected.push(sent(now, pin));
                }
                *level = now;
                assert_eq!(switch.is_upstream_active(pin), now);
            }
            assert_eq!(packets, expected);
            for wire in Wire::all() {
                assert_eq!(wire.is_active(&switch), is_active_after(&steps, wire));
            }
        }
    }
}

/// A card with this pin.
fn pin_card(pin: u8) -> Card {
    let mut config = [0; 256];
    config[0x3D] = pin;
    Card::start(&Start {
        config,
        sizes: [0; 6],
        events: 1,
        requester: CARD,
    })
    .unwrap()
}

#[test]
fn lines_of_cards() {
    for wire in Wire::all() {
        let (mut card, mut switch) = (pin_card(wire.pin), Switch::new(REQUESTER));
        for high in [true, false] {
            let packets = up(switch.packet(wire.port, card.line(high).bytes()));
            assert_eq!(packets, [sent(high, wire.upstream())]);
            assert_eq!(wire.is_active(&switch), card.is_wire_active());
        }
    }
}

/// A card whose two MSI-X vectors wait behind Function Mask, with line and wire
/// high.
fn waiting_card() -> Card {
    let mut config = [0; 256];
    config[0x06] = 0x10;
    config[0x34] = 0x40;
    config[0x3D] = 1;
    config[0x40] = 0x11;
    config[0x42] = 1;
    config[0x48] = 1;
    let start = Start {
        config,
        sizes: [0x1000; 6],
        events: 2,
        requester: CARD,
    };
    let mut card = Card::start(&start).unwrap();
    card.config_write(0x04, 2, 6).unwrap();
    card.config_write(0x42, 2, 0xC000).unwrap();
    for number in 0..2 {
        card.bar_write(0, 16 * u32::from(number) + 12, 4, 0)
            .unwrap();
        card.event(number).unwrap();
    }
    card.config_write(0x42, 2, 0).unwrap();
    card.line(true);
    card
}

#[test]
fn several_packets_of_one_call() {
    let mut switch = switch_with([Wire { port: 1, pin: 1 }]);
    let mut card = waiting_card();
    let packets = card.config_write(0x42, 2, 0x8000).unwrap();
    refuses(&mut switch, 1, packets.bytes());
    let slices: Vec<&[u8]> = packets.slices().collect();
    assert_eq!(slices.len(), 3);
    assert_eq!(up(switch.packet(1, slices[0])), [sent(false, 2)]);
    for message in &slices[1..] {
        assert_eq!(switch.packet(1, message).unwrap().bytes(), *message);
    }
}

#[test]
fn equal_switches() {
    let mut switch = Switch::new(REQUESTER);
    assert_ne!(switch, Switch::new(REQUESTER + 1));
    let before = switch.clone();
    let wire = Wire { port: 0, pin: 1 };
    wire.set(&mut switch, true);
    assert_ne!(switch, before);
    wire.set(&mut switch, false);
    assert_eq!(switch, before);
}

#[test]
fn text_of_a_switch() {
    let switch = switch_with([Wire { port: 0, pin: 1 }, Wire { port: 5, pin: 3 }]);
    assert_eq!(
        format!("{switch:?}"),
        "Switch { requester: 0x0113, \
         ports: [0001, 0000, 0000, 0000, 0000, 0100, 0000, 0000], upstream: 1001, .. }"
    );
}
