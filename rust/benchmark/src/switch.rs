//! The calls of a switch to measure.

use crate::cases::{repeat, Calls, Case};
use musgarento::{raw, SWITCH_BYTES, SWITCH_PACKET_BYTES};
use second_model::switch::{self, Switch};
use std::hint::black_box;

const REQUESTER: u16 = 0x0100;

/// Assert and Deassert of pin 1.
const WIRES: [[u8; 16]; 2] = [wire(0x20), wire(0x24)];

const MESSAGE: [u8; 20] = [
    0x60, 0, 0, 1, 2, 0, 0, 0x0F, 0, 0, 0, 1, 0xFE, 0xE0, 0x10, 0, 0x31, 0, 0, 0,
];

/// The wire packet with this code.
const fn wire(code: u8) -> [u8; 16] {
    [0x34, 0, 0, 0, 2, 0, 0, code, 0, 0, 0, 0, 0, 0, 0, 0]
}

/// A switch, as the C interface has it.
#[derive(Clone)]
struct Proved {
    switch: [u8; SWITCH_BYTES],
    out: [u8; SWITCH_PACKET_BYTES],
}

/// The same switch, as the second model has it.
#[derive(Clone)]
struct Second {
    switch: Switch,
    out: [u8; SWITCH_PACKET_BYTES],
}

impl Proved {
    fn new() -> Proved {
        let mut switch = [0; SWITCH_BYTES];
        assert_eq!(raw::switch_start(&mut switch, REQUESTER.into()), 0);
        let out = [0; SWITCH_PACKET_BYTES];
        Proved { switch, out }
    }

    fn packet(&mut self, packet: &[u8]) -> u8 {
        let mut count = 0;
        let refusal = raw::switch_packet(&mut self.switch, 0, packet, &mut self.out, &mut count);
        black_box(count);
        refusal
    }

    fn down(&mut self) -> u8 {
        let mut count = 0;
        let refusal = raw::switch_down(&mut self.switch, 0, &mut self.out, &mut count);
        black_box(count);
        refusal
    }
}

impl Second {
    fn new() -> Second {
        let (requester, wires) = (REQUESTER, [[false; 4]; 8]);
        Second {
            switch: Switch { requester, wires },
            out: [0; SWITCH_PACKET_BYTES],
        }
    }

    fn packet(&mut self, packet: &[u8]) -> u8 {
        black_box(switch::packet(&mut self.switch, 0, packet, &mut self.out)).refusal
    }

    fn down(&mut self) -> u8 {
        black_box(switch::down(&mut self.switch, 0, &mut self.out)).refusal
    }
}

/// All cases of a switch.
pub fn cases() -> Vec<Case> {
    let case = |name, (proved, second): (Calls, Calls)| Case {
        name,
        vectors: None,
        proved,
        second,
    };
    vec![
        case(
            "packet through the switch: Assert and Deassert in turn",
            wires(),
        ),
        case("message through the switch", message()),
        case("port going down", down()),
    ]
}

/// Sends Assert and Deassert in turn; each goes upstream.
fn wires() -> (Calls, Calls) {
    let packet = |i: u64| black_box(&WIRES[(i & 1) as usize]);
    (
        repeat(Proved::new(), move |p, i| p.packet(packet(i))),
        repeat(Second::new(), move |s, i| s.packet(packet(i))),
    )
}

fn message() -> (Calls, Calls) {
    (
        repeat(Proved::new(), |p, _| p.packet(black_box(&MESSAGE))),
        repeat(Second::new(), |s, _| s.packet(black_box(&MESSAGE))),
    )
}

/// Drops the four wires of a port, each of which sends. The switch is copied
/// back before each call, which counts.
fn down() -> (Calls, Calls) {
    let (mut proved, mut second) = (Proved::new(), Second::new());
    for code in 0x20..=0x23 {
        assert_eq!(proved.packet(&wire(code)), 0);
        assert_eq!(second.packet(&wire(code)), 0);
    }
    let proved = repeat((proved.clone(), proved), |(p, before), _| {
        p.switch = before.switch;
        p.down()
    });
    let second = repeat((second.clone(), second), |(s, before), _| {
        s.switch.clone_from(&before.switch);
        s.down()
    });
    (proved, second)
}
