//! Request 4 of document 02, sentence by sentence, and its last sentence over
//! random lists of calls.

mod common;

use common::Random;
use second_model::switch::{down, packet, start, Switch};
use second_model::Outcome;

const REQUESTER: u64 = 0x0310;
const BEHIND: u8 = 0xEE;

/// The upstream pin of each port's card pins 1 to 4.
const UPSTREAM: [[u8; 4]; 8] = [
    [1, 2, 3, 4],
    [2, 3, 4, 1],
    [3, 4, 1, 2],
    [4, 1, 2, 3],
    [1, 2, 3, 4],
    [2, 3, 4, 1],
    [3, 4, 1, 2],
    [4, 1, 2, 3],
];

const SHORT: [u8; 16] = [
    0x40, 0, 0, 1, 0x01, 0x00, 0, 0x0F, 0xFE, 0xE0, 0, 0, 0xA1, 0x49, 0, 0,
];
const LONG: [u8; 20] = [
    0x60, 0, 0, 1, 0x01, 0x00, 0, 0x0F, 0, 0, 0, 1, 0xFE, 0xE0, 0x10, 0, 0x31, 0, 0, 0,
];

fn wire(code: u8, requester: u16) -> [u8; 16] {
    let [high, low] = requester.to_be_bytes();
    let mut bytes = [0; 16];
    bytes[..8].copy_from_slice(&[0x34, 0, 0, 0, high, low, 0, code]);
    bytes
}

fn assert_packet(pin: u8) -> [u8; 16] {
    wire(0x1F + pin, 0x0100)
}

fn deassert_packet(pin: u8) -> [u8; 16] {
    wire(0x23 + pin, 0x0100)
}

fn fresh() -> Switch {
    let (switch, outcome) = start(REQUESTER);
    assert_eq!((outcome.refusal, outcome.count), (0, 0));
    switch.unwrap()
}

/// One call but for its output.
#[derive(Clone, Debug)]
enum Call {
    Packet(u64, Vec<u8>),
    Down(u64),
}

fn apply(switch: &mut Switch, call: &Call, out: &mut [u8]) -> Outcome {
    match call {
        Call::Packet(port, bytes) => packet(switch, *port, bytes, out),
        Call::Down(port) => down(switch, *port, out),
    }
}

/// Makes a call with a long output, checks what holds of every call, and gives
/// the refusal and what was sent.
fn made(switch: &mut Switch, call: &Call) -> (u8, Vec<u8>) {
    let before = switch.clone();
    let mut out = [BEHIND; 80];
    let outcome = apply(switch, call, &mut out);
    assert_eq!((outcome.answer, outcome.value), (None, 0));
    assert!(out[outcome.count..].iter().all(|&byte| byte == BEHIND));
    if outcome.refusal != 0 {
        assert_eq!((&*switch, outcome.count), (&before, 0));
    }
    rooms(&before, switch, call, outcome, &out[..outcome.count]);
    (outcome.refusal, out[..outcome.count].to_vec())
}

/// The call with outputs of other lengths.
fn rooms(before: &Switch, after: &Switch, call: &Call, outcome: Outcome, sent: &[u8]) {
    for length in [0, 1, 15, 16, 17, 19, 20, 31, 32, 48, 63, 64] {
        let mut again = before.clone();
        let mut out = vec![BEHIND; length];
        let other = apply(&mut again, call, &mut out);
        if outcome.refusal == 50 {
            assert_eq!((other, &again), (outcome, before));
        } else if length < sent.len() {
            assert_eq!((other.refusal, other.count, &again), (6, 0, before));
            assert!(out.iter().all(|&byte| byte == BEHIND));
        } else {
            assert_eq!((other, &again), (outcome, after));
            assert_eq!(out[..sent.len()], *sent);
        }
    }
}

/// What an accepted packet sends.
fn sent(switch: &mut Switch, port: u64, bytes: &[u8]) -> Vec<u8> {
    let (refusal, sent) = made(switch, &Call::Packet(port, bytes.to_vec()));
    assert_eq!(refusal, 0);
    sent
}

/// What a port sends that goes down.
fn sent_down(switch: &mut Switch, port: u64) -> Vec<u8> {
    let (refusal, sent) = made(switch, &Call::Down(port));
    assert_eq!(refusal, 0);
    sent
}

/// The refusal of a packet at a switch with some wires active.
fn refusal(port: u64, bytes: &[u8]) -> u8 {
    let mut switch = fresh();
    sent(&mut switch, 1, &assert_packet(1));
    sent(&mut switch, 7, &assert_packet(4));
    made(&mut switch, &Call::Packet(port, bytes.to_vec())).0
}

#[test]
fn a_fresh_switch_has_no_active_wire() {
    for requester in [0, 1, 7, 8, 0x0310, 0xFFFF] {
        let (switch, outcome) = start(requester);
        let switch = switch.unwrap();
        assert_eq!(u64::from(switch.requester), requester);
        assert_eq!(switch.wires, [[false; 4]; 8]);
        assert_eq!((outcome.refusal, outcome.count), (0, 0));
    }
    for requester in [0x1_0000, 0x1_0310, 1 << 32, u64::MAX] {
        let (switch, outcome) = start(requester);
        assert_eq!((switch, outcome.refusal), (None, 60));
    }
}

#[test]
fn card_pins_become_upstream_pins() {
    for port in 0..8u8 {
        for pin in 1..=4 {
            let upstream = (port + pin - 1) % 4 + 1;
            assert_eq!(UPSTREAM[usize::from(port)][usize::from(pin) - 1], upstream);
            let mut switch = fresh();
            let up = sent(&mut switch, u64::from(port), &assert_packet(pin));
            assert_eq!(up, wire(0x1F + upstream, 0x0310));
            let mut wires = [[false; 4]; 8];
            wires[usize::from(port)][usize::from(pin) - 1] = true;
            assert_eq!(switch.wires, wires);
            let up = sent(&mut switch, u64::from(port), &deassert_packet(pin));
            assert_eq!(up, wire(0x23 + upstream, 0x0310));
            assert_eq!(switch, fresh());
        }
    }
}

#[test]
fn ports_above_7() {
    for port in 0..8 {
        assert_eq!(refusal(port, &SHORT), 0);
        assert_eq!(refusal(port, &assert_packet(1)), 0);
        assert_eq!(made(&mut fresh(), &Call::Down(port)).0, 0);
    }
    for port in [8, 9, 255, 256, 1 << 16, 1 << 32, 1 << 63, u64::MAX] {
        assert_eq!(refusal(port, &SHORT), 50);
        assert_eq!(refusal(port, &assert_packet(1)), 50);
        assert_eq!(made(&mut fresh(), &Call::Down(port)).0, 50);
    }
}

#[test]
fn bytes_of_other_lengths() {
    for whole in [&SHORT[..], &LONG, &assert_packet(1), &deassert_packet(4)] {
        for length in 0..=50 {
            let mut bytes = whole.to_vec();
            bytes.resize(length, 0);
            let expected = if length == whole.len() { 0 } else { 50 };
            assert_eq!(refusal(0, &bytes), expected);
        }
        for second in [&SHORT[..], &LONG, &assert_packet(1)] {
            assert_eq!(refusal(0, &[whole, second].concat()), 50);
        }
    }
}

/// The values of the byte at a place with which a packet is accepted.
fn accepted_values(whole: &[u8], at: usize) -> Vec<u8> {
    let changed = |value: u8| {
        let mut bytes = whole.to_vec();
        bytes[at] = value;
        refusal(0, &bytes)
    };
    let values: Vec<u8> = (0..=255).filter(|&value| changed(value) == 0).collect();
    let refused = (0..=255).filter(|value| !values.contains(value));
    refused.for_each(|value| assert_eq!(changed(value), 50));
    values
}

#[test]
fn each_byte_of_a_short_message() {
    let any: Vec<u8> = (0..=255).collect();
    let aligned: Vec<u8> = (0..=255).step_by(4).collect();
    for (at, byte) in SHORT.into_iter().enumerate() {
        let expected = match at {
            0..=3 | 6..=7 => &vec![byte],
            11 => &aligned,
            _ => &any,
        };
        assert_eq!(accepted_values(&SHORT, at), *expected, "byte {at}");
    }
}

#[test]
fn each_byte_of_a_long_message() {
    let any: Vec<u8> = (0..=255).collect();
    let not_zero: Vec<u8> = (1..=255).collect();
    let aligned: Vec<u8> = (0..=255).step_by(4).collect();
    for (at, byte) in LONG.into_iter().enumerate() {
        let expected = match at {
            0..=3 | 6..=7 => &vec![byte],
            // The only byte of this upper address that is not 0.
            11 => &not_zero,
            15 => &aligned,
            _ => &any,
        };
        assert_eq!(accepted_values(&LONG, at), *expected, "byte {at}");
    }
    for at in 8..12 {
        let mut bytes = LONG;
        bytes[8..12].fill(0);
        assert_eq!(refusal(0, &bytes), 50);
        bytes[at] = 0x80;
        assert_eq!(refusal(0, &bytes), 0);
    }
}

#[test]
fn each_byte_of_a_wire_packet() {
    let any: Vec<u8> = (0..=255).collect();
    for pin in 1..=4 {
        for whole in [assert_packet(pin), deassert_packet(pin)] {
            for (at, byte) in whole.into_iter().enumerate() {
                let expected = match at {
                    4 => any.clone(),
                    // Device number 0 and any function number.
                    5 => (0..8).collect(),
                    7 => (0x20..=0x27).collect(),
                    _ => vec![byte],
                };
                assert_eq!(accepted_values(&whole, at), expected, "byte {at}");
            }
        }
    }
}

#[test]
fn requesters() {
    let mut switch = fresh();
    let mut out = [0; 16];
    for requester in 0..=0xFFFFu16 {
        let mut message = SHORT;
        message[4..6].copy_from_slice(&requester.to_be_bytes());
        assert_eq!(packet(&mut switch, 0, &message, &mut out).refusal, 0);
        assert_eq!(out, message);
        let device = requester >> 3 & 0x1F;
        let expected = if device == 0 { 0 } else { 50 };
        let wire = wire(0x24, requester);
        assert_eq!(packet(&mut switch, 0, &wire, &mut out).refusal, expected);
    }
}

#[test]
fn function_part_0_is_sent() {
    for requester in [0x0000, 0x0001, 0x0107, 0x03FF, 0xFFF8, 0xFFFF] {
        let mut switch = start(u64::from(requester)).0.unwrap();
        for pin in 1..=4 {
            let up = sent(&mut switch, 4, &assert_packet(pin));
            assert_eq!(up, wire(0x1F + pin, requester / 8 * 8));
        }
        let up = sent_down(&mut switch, 4);
        let expected = [0x24, 0x25, 0x26, 0x27].map(|code| wire(code, requester / 8 * 8));
        assert_eq!(up, expected.concat());
        assert_eq!(switch.requester, requester);
    }
}

#[test]
fn repeated_packets_change_nothing() {
    let mut switch = fresh();
    assert_eq!(sent(&mut switch, 2, &deassert_packet(3)), []);
    assert_eq!(switch, fresh());
    assert_eq!(sent(&mut switch, 2, &assert_packet(3)), wire(0x20, 0x0310));
    let active = switch.clone();
    assert_eq!(sent(&mut switch, 2, &assert_packet(3)), []);
    assert_eq!(switch, active);
    assert_eq!(
        sent(&mut switch, 2, &deassert_packet(3)),
        wire(0x24, 0x0310)
    );
    assert_eq!(sent(&mut switch, 2, &deassert_packet(3)), []);
    assert_eq!(switch, fresh());
}

#[test]
fn the_upstream_wire_is_active_while_any_mapped_wire_is() {
    // The eight wires of upstream pin 1, one of each port.
    let wires: Vec<(u64, u8)> = (0..8)
        .map(|port| (port, 4 - (port + 3) as u8 % 4))
        .collect();
    assert_eq!(wires[..5], [(0, 1), (1, 4), (2, 3), (3, 2), (4, 1)]);
    let mut switch = fresh();
    for (i, &(port, pin)) in wires.iter().enumerate() {
        let up = sent(&mut switch, port, &assert_packet(pin));
        let expected = if i == 0 { &wire(0x20, 0x0310)[..] } else { &[] };
        assert_eq!(up, expected);
    }
    for (i, &(port, pin)) in wires.iter().enumerate() {
        let up = sent(&mut switch, port, &deassert_packet(pin));
        let expected = if i == 7 { &wire(0x24, 0x0310)[..] } else { &[] };
        assert_eq!(up, expected);
    }
}

#[test]
fn a_port_going_down_drops_its_wires() {
    let mut switch = fresh();
    for pin in [3, 1, 4, 2] {
        sent(&mut switch, 1, &assert_packet(pin));
    }
    // Card pin 2 of port 5 shares upstream pin 3 with card pin 2 of port 1.
    assert_eq!(sent(&mut switch, 5, &assert_packet(2)), []);
    let up = sent_down(&mut switch, 1);
    let expected = [0x24, 0x25, 0x27].map(|code| wire(code, 0x0310));
    assert_eq!(up, expected.concat());
    assert_eq!(switch.wires[1], [false; 4]);
    assert_eq!(switch.wires[5], [false, true, false, false]);
    assert_eq!(sent_down(&mut switch, 1), []);
    // The port takes packets again.
    assert_eq!(sent(&mut switch, 1, &SHORT), SHORT);
    assert_eq!(sent(&mut switch, 1, &assert_packet(2)), []);
    assert_eq!(sent_down(&mut switch, 5), []);
    assert_eq!(sent_down(&mut switch, 1), wire(0x26, 0x0310));
    assert_eq!(switch, fresh());
}

#[test]
fn messages_pass_unchanged() {
    let mut switch = fresh();
    sent(&mut switch, 3, &assert_packet(2));
    let before = switch.clone();
    for port in 0..8 {
        assert_eq!(sent(&mut switch, port, &SHORT), SHORT);
        assert_eq!(sent(&mut switch, port, &LONG), LONG);
    }
    assert_eq!(switch, before);
}

#[test]
fn refusal_50_is_before_6() {
    let mut switch = fresh();
    for (port, bytes) in [(8, &SHORT[..]), (0, &[]), (0, &wire(0x20, 8))] {
        assert_eq!(packet(&mut switch, port, bytes, &mut []).refusal, 50);
    }
    assert_eq!(packet(&mut switch, 0, &SHORT, &mut []).refusal, 6);
    assert_eq!(down(&mut switch, 8, &mut []).refusal, 50);
    assert_eq!(down(&mut switch, 0, &mut []).refusal, 0);
}

/// An accepted call.
#[derive(Clone, Copy, Debug, PartialEq, Eq)]
enum Accepted {
    Assert(usize, usize),
    Deassert(usize, usize),
    Message,
    Down(usize),
}

// 02: "a port's wire is active exactly if the last accepted packet for it was
// an Assert and the port has not gone down since"
fn active_by_history(history: &[Accepted], port: usize, pin: usize) -> bool {
    let last = history.iter().rposition(|call| {
        *call == Accepted::Assert(port, pin) || *call == Accepted::Deassert(port, pin)
    });
    let Some(last) = last else {
        return false;
    };
    let down_since = history[last..].contains(&Accepted::Down(port));
    history[last] == Accepted::Assert(port, pin) && !down_since
}

/// A switch, the accepted calls, and what the host heard of upstream pins 1 to
/// 4.
struct Bench {
    switch: Switch,
    history: Vec<Accepted>,
    heard: [bool; 4],
    refused: [u32; 2],
}

impl Bench {
    fn new(requester: u64) -> Bench {
        Bench {
            switch: start(requester).0.unwrap(),
            history: Vec::new(),
            heard: [false; 4],
            refused: [0; 2],
        }
    }

    /// Makes a call with an output of this length.
    fn call(&mut self, call: &Call, accepted: Accepted, length: usize) {
        let before = self.switch.clone();
        let mut out = vec![BEHIND; length];
        let outcome = apply(&mut self.switch, call, &mut out);
        match outcome.refusal {
            0 => {
                self.history.push(accepted);
                self.hear(&out[..outcome.count], accepted);
            }
            50 => self.refused[0] += 1,
            6 => self.refused[1] += 1,
            other => panic!("refusal {other}"),
        }
        if outcome.refusal != 0 {
            assert_eq!((&self.switch, outcome.count), (&before, 0));
        }
        assert!(out[outcome.count..].iter().all(|&byte| byte == BEHIND));
        self.check();
    }

    /// The host hears what is sent; each wire packet is a change.
    fn hear(&mut self, up: &[u8], accepted: Accepted) {
        if accepted == Accepted::Message {
            assert!(up.len() == 16 || up.len() == 20);
            return;
        }
        for bytes in up.chunks(16) {
            let assert = bytes[7] < 0x24;
            let pin = bytes[7] - if assert { 0x1F } else { 0x23 };
            assert_eq!(bytes, wire(bytes[7], self.switch.requester & 0xFFF8));
            assert_ne!(self.heard[usize::from(pin) - 1], assert);
            self.heard[usize::from(pin) - 1] = assert;
        }
    }

    /// Compares the wires with the history, and what the host heard with the
    /// wires joined.
    fn check(&self) {
        let mut joined = [false; 4];
        for port in 0..8 {
            for pin in 1..=4 {
                let active = active_by_history(&self.history, port, pin);
                assert_eq!(self.switch.wires[port][pin - 1], active);
                joined[usize::from(UPSTREAM[port][pin - 1]) - 1] |= active;
            }
        }
        assert_eq!(self.heard, joined);
    }
}

/// A random call, and what it is if it is accepted.
fn random_call(random: &Random) -> (Call, Accepted) {
    let port = random.below(8) as usize;
    let pin = random.below(4) as usize + 1;
    let shown = match random.below(24) {
        0 => random.pick(&[8, 9, 256 + port as u64, u64::MAX]),
        _ => port as u64,
    };
    let (bytes, accepted) = match random.below(16) {
        0 => return (Call::Down(shown), Accepted::Down(port)),
        1..=2 => (SHORT.to_vec(), Accepted::Message),
        3 => (LONG.to_vec(), Accepted::Message),
        4..=9 => (
            assert_packet(pin as u8).to_vec(),
            Accepted::Assert(port, pin),
        ),
        _ => (
            deassert_packet(pin as u8).to_vec(),
            Accepted::Deassert(port, pin),
        ),
    };
    (Call::Packet(shown, spoilt(random, bytes)), accepted)
}

/// The bytes, or now and then others that are no packet.
fn spoilt(random: &Random, mut bytes: Vec<u8>) -> Vec<u8> {
    match random.below(24) {
        0 => bytes[2] ^= 1 << random.below(8),
        1 => bytes.truncate(random.below(16) as usize),
        2 => bytes.extend_from_slice(&SHORT),
        _ => {}
    }
    bytes
}

#[test]
fn wires_follow_the_history() {
    let random = Random::new(4);
    let (mut accepted, mut refused) = (0, [0; 2]);
    for _ in 0..2_000 {
        let mut bench = Bench::new(random.number() & 0xFFFF);
        bench.check();
        for _ in 0..random.below(120) {
            let (call, kind) = random_call(&random);
            let length = random.pick(&[64, 64, 20, 16, 15, 0]);
            bench.call(&call, kind, length);
        }
        accepted += bench.history.len();
        refused[0] += bench.refused[0];
        refused[1] += bench.refused[1];
    }
    println!("accepted {accepted}, refused with 50 and 6 {refused:?}");
    assert!(accepted > 50_000 && refused.iter().all(|&count| count > 1_000));
}

/// Bytes near packets, to any port, of any switch: no call panics, and a
/// refused call changes nothing.
#[test]
fn arbitrary_bytes() {
    let random = Random::new(5);
    let mut refusals = [0; 256];
    for _ in 0..50_000 {
        let mut bytes = vec![0; random.pick(&[16, 16, 16, 20, 20, random.below(40) as usize])];
        random.fill(&mut bytes);
        let wire = assert_packet(2);
        let whole = random.pick(&[&SHORT[..], &LONG, &wire]);
        for (byte, &other) in bytes.iter_mut().zip(whole) {
            if !random.once_in(12) {
                *byte = other;
            }
        }
        let mut switch = Switch {
            requester: random.number() as u16,
            wires: [[false; 4]; 8].map(|wires| wires.map(|_| random.once_in(4))),
        };
        let port = random.below(9);
        let call = match random.below(8) {
            0 => Call::Down(port),
            _ => Call::Packet(port, bytes),
        };
        refusals[usize::from(made(&mut switch, &call).0)] += 1;
    }
    assert!(refusals[0] > 1_000 && refusals[50] > 1_000);
}
