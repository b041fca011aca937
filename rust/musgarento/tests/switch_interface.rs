//! What bytes, lengths and wide numbers do to a switch, through
//! [`musgarento::raw`]: each refusal beside the nearest call that is accepted.

use musgarento::{raw, SWITCH_BYTES, SWITCH_PACKET_BYTES};

const REQUESTER: u64 = 0x0113;

/// What count holds before a call, so that it shows if it is not set.
const UNSET: usize = 0xB7;

/// What the output holds before a call.
const KEPT: u8 = 0xEE;

/// An Assert of pin 1.
const WIRE: [u8; 16] = [0x34, 0, 0, 0, 5, 0, 0, 0x20, 0, 0, 0, 0, 0, 0, 0, 0];
const SHORT: [u8; 16] = [
    0x40, 0, 0, 1, 5, 0, 0, 0x0F, 0xFE, 0xE0, 0, 0, 0xA1, 0x49, 0, 0,
];
const LONG: [u8; 20] = [
    0x60, 0, 0, 1, 5, 0, 0, 0x0F, 1, 1, 1, 1, 0xFE, 0xE0, 0x10, 0, 0x31, 0, 0, 0,
];
const LAYOUTS: [&[u8]; 3] = [&WIRE, &SHORT, &LONG];

/// The bits of each layout that are not fixed: requester, address and data of a
/// message; bus, function and the eight codes of a wire packet.
const FREE_WIRE: [u8; 16] = [0, 0, 0, 0, 0xFF, 7, 0, 7, 0, 0, 0, 0, 0, 0, 0, 0];
const FREE_SHORT: [u8; 16] = [
    0, 0, 0, 0, 0xFF, 0xFF, 0, 0, 0xFF, 0xFF, 0xFF, 0xFC, 0xFF, 0xFF, 0xFF, 0xFF,
];
const FREE_LONG: [u8; 20] = [
    0, 0, 0, 0, 0xFF, 0xFF, 0, 0, 0xFF, 0xFF, 0xFF, 0xFF, 0xFF, 0xFF, 0xFF, 0xFC, 0xFF, 0xFF, 0xFF,
    0xFF,
];

/// The layout with another byte.
fn changed(layout: &[u8], at: usize, value: u8) -> Vec<u8> {
    let mut bytes = layout.to_vec();
    bytes[at] = value;
    bytes
}

/// What the switch sends for a change of an upstream wire.
fn sent(code: u8) -> [u8; 16] {
    [0x34, 0, 0, 0, 1, 0x10, 0, code, 0, 0, 0, 0, 0, 0, 0, 0]
}

/// What a call gave.
#[derive(Clone, Copy, Debug, PartialEq, Eq)]
struct Outcome {
    refusal: u8,
    count: usize,
}

/// The bytes that calls change.
#[derive(Clone, Debug, PartialEq, Eq)]
struct Host {
    switch: Vec<u8>,
    out: Vec<u8>,
}

impl Host {
    /// A switch of these bytes, and an output of this many.
    fn new(switch: &[u8], out: usize) -> Host {
        Host {
            switch: switch.to_vec(),
            out: vec![KEPT; out],
        }
    }

    /// A fresh switch.
    fn started(out: usize) -> Host {
        let mut host = Host::new(&[0; SWITCH_BYTES], out);
        assert_eq!(host.start(REQUESTER), 0);
        host
    }

    fn start(&mut self, requester: u64) -> u8 {
        raw::switch_start(&mut self.switch, requester)
    }

    fn packet(&mut self, port: u64, packet: &[u8]) -> Outcome {
        let mut count = UNSET;
        let refusal = raw::switch_packet(&mut self.switch, port, packet, &mut self.out, &mut count);
        Outcome { refusal, count }
    }

    fn down(&mut self, port: u64) -> Outcome {
        let mut count = UNSET;
        let refusal = raw::switch_down(&mut self.switch, port, &mut self.out, &mut count);
        Outcome { refusal, count }
    }

    /// Makes a call that is refused with this number and changes nothing.
    fn refuses(&mut self, refusal: u8, call: impl FnOnce(&mut Host) -> Outcome) {
        let before = self.clone();
        assert_eq!(call(self), Outcome { refusal, count: 0 });
        assert_eq!(*self, before);
    }

    /// Makes a call that sends these bytes and keeps the output behind them.
    fn sends(&mut self, bytes: &[u8], call: impl FnOnce(&mut Host) -> Outcome) {
        self.out.fill(KEPT);
        let (refusal, count) = (0, bytes.len());
        assert_eq!(call(self), Outcome { refusal, count });
        let (written, behind) = self.out.split_at(count);
        assert_eq!(written, bytes);
        assert!(behind.iter().all(|&byte| byte == KEPT));
    }

    /// The same for a packet in an output that it fills, after it was refused
    /// with 6 in one that is a byte shorter.
    fn needs(&mut self, bytes: &[u8], call: impl Fn(&mut Host) -> Outcome) {
        self.out = vec![KEPT; bytes.len() - 1];
        self.refuses(6, &call);
        self.out.push(KEPT);
        self.sends(bytes, &call);
    }
}

/// The refusal of bytes at port 0 of a fresh switch.
fn judged(bytes: &[u8]) -> u8 {
    let mut host = Host::started(SWITCH_PACKET_BYTES);
    let before = host.clone();
    let outcome = host.packet(0, bytes);
    if outcome.refusal != 0 {
        assert_eq!(outcome.count, 0);
        assert_eq!(host, before);
    }
    outcome.refusal
}

#[test]
fn bytes_of_a_switch() {
    let mut host = Host::new(&[0xFF; SWITCH_BYTES], SWITCH_PACKET_BYTES);
    assert_eq!(host.start(REQUESTER), 0);
    assert_eq!(host.switch, [0x13, 0x01, 0, 0, 0, 0, 0, 0, 0, 0]);
    for port in 0..8 {
        for pin in 0..4 {
            let mut host = host.clone();
            let upstream = (port + pin) % 4;
            let set = changed(&WIRE, 7, 0x20 + pin);
            let clear = changed(&WIRE, 7, 0x24 + pin);
            let wires = changed(&host.switch, 2 + usize::from(port), 1 << pin);
            host.sends(&sent(0x20 + upstream), |host| {
                host.packet(port.into(), &set)
            });
            assert_eq!(host.switch, wires);
            host.sends(&sent(0x24 + upstream), |host| {
                host.packet(port.into(), &clear)
            });
            assert_eq!(host.switch, [0x13, 0x01, 0, 0, 0, 0, 0, 0, 0, 0]);
        }
    }
}

#[test]
fn accepted_layouts() {
    let mut host = Host::started(SWITCH_PACKET_BYTES);
    host.sends(&sent(0x20), |host| host.packet(0, &WIRE));
    host.sends(&[], |host| host.packet(4, &WIRE));
    host.sends(&SHORT, |host| host.packet(7, &SHORT));
    host.sends(&LONG, |host| host.packet(7, &LONG));
    host.sends(&[], |host| host.down(0));
    host.sends(&sent(0x24), |host| host.down(4));
}

#[test]
fn every_byte_of_a_packet() {
    let layouts = [
        (&WIRE[..], &FREE_WIRE[..]),
        (&SHORT, &FREE_SHORT),
        (&LONG, &FREE_LONG),
    ];
    for (layout, free) in layouts {
        for (at, free) in free.iter().enumerate() {
            for value in 0..=255 {
                let fits = (value ^ layout[at]) & !free == 0;
                let refusal = if fits { 0 } else { 50 };
                assert_eq!(judged(&changed(layout, at, value)), refusal);
            }
        }
    }
}

#[test]
fn codes() {
    let code = |code| judged(&changed(&WIRE, 7, code));
    assert_eq!([0x1F, 0x20, 0x23].map(code), [50, 0, 0]);
    assert_eq!([0x24, 0x27, 0x28].map(code), [0, 0, 50]);
}

#[test]
fn lengths_of_a_packet() {
    for layout in LAYOUTS {
        for length in [0, 1, 8, 12, 15, 16, 17, 19, 20, 21, 32, 64] {
            let mut bytes = layout.to_vec();
            bytes.resize(length, 0);
            let refusal = if length == layout.len() { 0 } else { 50 };
            assert_eq!(judged(&bytes), refusal);
        }
    }
}

#[test]
fn more_than_one_packet() {
    for first in LAYOUTS {
        for second in LAYOUTS {
            assert_eq!(judged(&[first, second].concat()), 50);
        }
    }
}

#[test]
fn upper_addresses() {
    let upper = |upper: u32| {
        let mut bytes = LONG;
        bytes[8..12].copy_from_slice(&upper.to_be_bytes());
        judged(&bytes)
    };
    assert_eq!(
        [0, 1, 1 << 8, 1 << 16, 1 << 31].map(upper),
        [50, 0, 0, 0, 0]
    );
}

#[test]
fn low_bits_of_addresses() {
    for (layout, at) in [(&SHORT[..], 11), (&LONG, 15)] {
        let low = |value| judged(&changed(layout, at, value));
        assert_eq!([0, 1, 2, 3, 4].map(low), [0, 50, 50, 50, 0]);
    }
}

#[test]
fn wide_ports() {
    let mut host = Host::started(SWITCH_PACKET_BYTES);
    host.sends(&sent(0x23), |host| host.packet(7, &WIRE));
    let wide = [
        8,
        15,
        255,
        256,
        263,
        1 << 16,
        1 << 32,
        (1 << 32) + 7,
        1 << 63,
    ];
    for port in wide.into_iter().chain([u64::MAX - 7, u64::MAX]) {
        for packet in LAYOUTS {
            host.refuses(50, |host| host.packet(port, packet));
        }
        host.refuses(50, |host| host.down(port));
    }
    host.sends(&sent(0x27), |host| host.down(7));
}

#[test]
fn room_of_a_packet() {
    let mut host = Host::started(0);
    host.needs(&SHORT, |host| host.packet(0, &SHORT));
    host.needs(&LONG, |host| host.packet(0, &LONG));
    host.needs(&sent(0x20), |host| host.packet(0, &WIRE));
    let deassert = changed(&WIRE, 7, 0x24);
    host.needs(&sent(0x24), |host| host.packet(0, &deassert));
}

#[test]
fn hidden_packets_need_no_room() {
    let mut host = Host::started(16);
    host.sends(&sent(0x20), |host| host.packet(0, &WIRE));
    host.out.clear();
    let deassert = changed(&WIRE, 7, 0x24);
    host.sends(&[], |host| host.packet(4, &WIRE));
    host.sends(&[], |host| host.packet(4, &WIRE));
    host.sends(&[], |host| host.packet(0, &deassert));
    host.sends(&[], |host| host.packet(0, &deassert));
    host.sends(&[], |host| host.down(0));
    host.refuses(6, |host| host.packet(4, &deassert));
    host.refuses(6, |host| host.down(4));
}

#[test]
fn room_of_a_port_that_goes_down() {
    let deasserts: Vec<u8> = (0x24..=0x27).flat_map(sent).collect();
    assert_eq!(deasserts.len(), SWITCH_PACKET_BYTES);
    for port in 0..8 {
        let mut host = Host::started(0);
        host.switch[2 + port] = 0x0F;
        for length in [0, 15, 16, 48] {
            host.out = vec![KEPT; length];
            host.refuses(6, |host| host.down(port as u64));
        }
        host.needs(&deasserts, |host| host.down(port as u64));
        assert_eq!(host.switch, Host::started(0).switch);
    }
}

#[test]
fn refusal_50_comes_before_6() {
    let mut host = Host::started(0);
    host.switch[2] = 0x0F;
    for packet in LAYOUTS {
        host.refuses(50, |host| host.packet(8, packet));
        host.refuses(50, |host| host.packet(1, &packet[1..]));
    }
    host.refuses(50, |host| host.packet(1, &changed(&WIRE, 5, 8)));
    host.refuses(50, |host| host.down(8));
    host.refuses(6, |host| host.down(0));
}

type Call = fn(&mut Host) -> Outcome;

/// Calls of the switch `full`, with their refusals.
const CALLS: [(u8, Call); 9] = [
    (0, |host| host.packet(0, &WIRE)),
    (0, |host| host.packet(4, &WIRE)),
    (0, |host| host.down(1)),
    (50, |host| host.packet(8, &WIRE)),
    (50, |host| host.packet(0, &[])),
    (50, |host| host.packet(0, &WIRE[1..])),
    (50, |host| host.down(8)),
    (6, |host| host.packet(0, &SHORT)),
    (6, |host| host.down(0)),
];

/// A switch whose port 0 has all wires active, with no room.
fn full() -> Host {
    let mut host = Host::started(0);
    host.switch[2] = 0x0F;
    host
}

#[test]
fn calls_of_a_full_switch() {
    for (refusal, call) in CALLS {
        assert_eq!(call(&mut full()).refusal, refusal);
    }
}

#[test]
fn lengths_of_a_switch() {
    for length in [0, 9, 11, 289] {
        for (_, call) in CALLS {
            let mut host = full();
            host.switch.resize(length, 0);
            host.refuses(60, call);
        }
    }
}

#[test]
fn bytes_that_no_switch_has() {
    for at in 2..SWITCH_BYTES {
        for (_, call) in CALLS {
            for value in [0x10, 0x1F, 0x20, 0x40, 0x80, 0xFF] {
                let mut host = full();
                host.switch[at] = value;
                host.refuses(60, call);
            }
            let mut host = full();
            host.switch[at] = 0x0F;
            assert_ne!(call(&mut host).refusal, 60);
        }
    }
}

#[test]
fn any_requester_bytes_are_a_switch() {
    for (low, high) in [(0, 0), (0xFF, 0xFF), (0x07, 0x80)] {
        let mut host = Host::new(&[low, high, 0, 0, 0, 0, 0, 0, 0, 0], 16);
        let mut expected = sent(0x20);
        expected[4..6].copy_from_slice(&[high, low & 0xF8]);
        host.sends(&expected, |host| host.packet(0, &WIRE));
        assert_eq!(host.switch, [low, high, 1, 0, 0, 0, 0, 0, 0, 0]);
    }
}

#[test]
fn starts() {
    let start = |requester: u64| {
        move |host: &mut Host| Outcome {
            refusal: host.start(requester),
            count: 0,
        }
    };
    for length in [0, 9, 11, 289] {
        let mut host = Host::new(&vec![0xFF; length], 0);
        host.refuses(60, start(REQUESTER));
        host.refuses(60, start(1 << 16));
    }
    let mut host = Host::new(&[0xFF; SWITCH_BYTES], 0);
    for requester in [1 << 16, REQUESTER + (1 << 16), 1 << 32, 1 << 63, u64::MAX] {
        host.refuses(60, start(requester));
    }
    for (requester, low, high) in [(0, 0, 0), (0xFFFF, 0xFF, 0xFF), (0x0107, 7, 1)] {
        host.switch.fill(0xFF);
        assert_eq!(host.start(requester), 0);
        assert_eq!(host.switch, [low, high, 0, 0, 0, 0, 0, 0, 0, 0]);
    }
}
