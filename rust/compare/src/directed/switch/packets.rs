//! The ways of refusal 50 with their neighbours, and outputs.

use super::{assert, deassert, down, packet, Run, Trial, CARD};
use crate::call::{Call, Room, Step};
use crate::directed::wider;
use crate::packets::{
    samples, wire, BUS_AT, CODE_AT, DEVICE_AT, LONG_ADDRESS_AT, SHORT_ADDRESS_AT, UPPER_AT,
};
use crate::run::Runner;

pub fn run(runner: &mut Runner<'_>) -> Run {
    ports(runner)?;
    lengths(runner)?;
    single_bytes(runner)?;
    two_at_once(runner)?;
    addresses(runner)?;
    codes(runner)?;
    senders(runner)?;
    rooms(runner)
}

/// A trial with two wires active, of upstream pins 1 and 4.
fn begun() -> Trial {
    let mut trial = Trial::switch();
    trial.on(assert(4, 1)).on(assert(7, 1));
    trial
}

/// Ports up to 7, above it and wider than their field.
fn ports(runner: &mut Runner<'_>) -> Run {
    let mut trial = begun();
    let wide = [0, 4, 7].into_iter().flat_map(wider);
    for port in (0..=16).chain([255, 256, 263, 1 << 32]).chain(wide) {
        for sample in samples(CARD) {
            trial
                .on(packet(port, &sample))
                .room(packet(port, &sample), 0);
        }
        trial
            .on(packet(port, &[]))
            .on(down(port))
            .room(down(port), 0);
        trial.on(assert(4, 1)).on(assert(7, 1));
    }
    trial.run(runner, "ports")
}

/// Each packet cut, and with zeros or other bytes behind it.
fn lengths(runner: &mut Runner<'_>) -> Run {
    for sample in samples(CARD) {
        let mut trial = begun();
        for length in 0..=41 {
            for filler in [0, 0x34, 0xFF] {
                let mut bytes = sample.clone();
                bytes.resize(length, filler);
                trial.on(packet(0, &bytes));
            }
        }
        trial.run(runner, "lengths of packets")?;
    }
    Ok(())
}

/// Each packet with each value of each byte.
fn single_bytes(runner: &mut Runner<'_>) -> Run {
    for sample in samples(CARD) {
        let mut trial = begun();
        for at in 0..sample.len() {
            for value in 0..=255 {
                let mut bytes = sample.clone();
                bytes[at] = value;
                trial.on(packet(2, &bytes));
            }
        }
        trial.run(runner, "bytes of packets")?;
    }
    Ok(())
}

/// Two packets, and one with a part of another.
fn two_at_once(runner: &mut Runner<'_>) -> Run {
    let mut trial = begun();
    for first in samples(CARD) {
        for second in samples(CARD) {
            for length in [1, 4, 15, 16, second.len()] {
                let bytes = [&first[..], &second[..length]].concat();
                trial.on(packet(0, &bytes));
            }
        }
        trial.on(packet(0, &first));
    }
    trial.run(runner, "two packets at once")
}

/// Addresses in both forms with each bit, and a long form of upper address 0.
fn addresses(runner: &mut Runner<'_>) -> Run {
    let [short, long, ..] = samples(CARD);
    let mut trial = begun();
    for bit in 0..32 {
        trial.on(with_bits(&short, SHORT_ADDRESS_AT, 1 << bit));
        trial.on(with_bits(&long, LONG_ADDRESS_AT, 1 << bit));
        trial.on(with_bits(&long, UPPER_AT, 1 << bit));
    }
    for bits in [0, 1, 2, 3, 4, 7, u32::MAX, u32::MAX - 3] {
        trial.on(with_bits(&short, SHORT_ADDRESS_AT, bits));
        trial.on(with_bits(&long, LONG_ADDRESS_AT, bits));
        trial.on(with_bits(&long, UPPER_AT, bits));
    }
    trial.run(runner, "addresses")
}

/// A packet with this word, high byte first, at a place.
fn with_bits(sample: &[u8], at: usize, word: u32) -> Call {
    let mut bytes = sample.to_vec();
    bytes[at..at + 4].copy_from_slice(&word.to_be_bytes());
    packet(6, &bytes)
}

/// The codes of wire packets and those beside them, at each port.
fn codes(runner: &mut Runner<'_>) -> Run {
    let mut trial = begun();
    for port in 0..8 {
        for code in [0x20, 0x1F, 0x23, 0x24, 0x27, 0x28, 0, 0x0F, 0xA0, 0xFF] {
            let mut bytes = wire(true, 1, CARD);
            bytes[CODE_AT] = code;
            trial.on(packet(port, &bytes));
        }
    }
    trial.run(runner, "codes")
}

/// Each device number with some buses and functions, in wire packets and
/// messages.
fn senders(runner: &mut Runner<'_>) -> Run {
    let mut trial = begun();
    for sample in samples(CARD) {
        for device in 0..32 {
            for bus in [0, 1, 0x80, 0xFF] {
                for function in 0..8 {
                    let mut bytes = sample.clone();
                    bytes[BUS_AT] = bus;
                    bytes[DEVICE_AT] = device << 3 | function;
                    trial.on(packet(3, &bytes));
                }
            }
        }
    }
    trial.run(runner, "requesters of packets")
}

/// Calls that send 0 to 4 packets, with all lengths of outputs. Port 3 has 0
/// to 4 active wires, and the other ports none or all.
fn rooms(runner: &mut Runner<'_>) -> Run {
    for others in [0x0, 0xF] {
        for own in [0x0, 0x1, 0x5, 0xE, 0xF] {
            let mut ports = [others; 8];
            ports[3] = own;
            let mut trial = Trial::switch();
            for call in room_calls() {
                for length in 0..=70 {
                    trial.wires(ports).room(call.clone(), length);
                }
                for room in [Room::Short, Room::Exact] {
                    trial.wires(ports).step(Step::Call(call.clone(), room));
                }
            }
            trial.run(runner, "outputs")?;
        }
    }
    Ok(())
}

fn room_calls() -> Vec<Call> {
    let [short, long, ..] = samples(CARD);
    vec![
        packet(1, &short),
        packet(1, &long),
        packet(8, &short),
        assert(2, 3),
        assert(3, 1),
        deassert(3, 1),
        deassert(3, 2),
        down(1),
        down(3),
        down(8),
    ]
}
