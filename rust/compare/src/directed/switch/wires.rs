//! Wire packets and ports that go down.

use super::{assert, deassert, down, start, Run, Trial};
use crate::packets::card_pin;
use crate::run::Runner;

pub fn run(runner: &mut Runner<'_>) -> Run {
    mappings(runner)?;
    pairs(runner)?;
    joined(runner)?;
    ports_down(runner)?;
    requesters(runner)
}

/// The 32 wires, by port and card pin.
fn wires() -> impl Iterator<Item = (usize, usize)> {
    (0..8).flat_map(|port| (1..=4).map(move |pin| (port, pin)))
}

/// Each wire by itself, and each packet repeated.
fn mappings(runner: &mut Runner<'_>) -> Run {
    for (port, pin) in wires() {
        Trial::switch()
            .on(deassert(port, pin))
            .tight(assert(port, pin))
            .on(assert(port, pin))
            .tight(deassert(port, pin))
            .on(deassert(port, pin))
            .run(runner, "mappings")?;
    }
    Ok(())
}

/// Each two wires, the first dropped before the second and after it.
fn pairs(runner: &mut Runner<'_>) -> Run {
    let mut trial = Trial::switch();
    for (port, pin) in wires() {
        for (other, other_pin) in wires() {
            trial.on(assert(port, pin)).on(assert(other, other_pin));
            trial.on(deassert(port, pin)).on(deassert(other, other_pin));
        }
    }
    trial.run(runner, "two wires")
}

/// For each upstream pin all sets of ports whose wire of it is active, and each
/// change of a port on them. The wires of other pins are inactive or active.
fn joined(runner: &mut Runner<'_>) -> Run {
    for upstream in 1..=4 {
        for others in [0x0, 0xF] {
            let mut trial = Trial::switch();
            for ports in 0..256 {
                for port in 0..8 {
                    let pin = card_pin(port, upstream);
                    let bytes = port_bytes(upstream, ports, others);
                    trial.wires(bytes).on(assert(port, pin));
                    trial.wires(bytes).on(deassert(port, pin));
                    trial.wires(bytes).on(down(port as u64));
                }
            }
            trial.run(runner, "joined wires")?;
        }
    }
    Ok(())
}

/// Port bytes in which the wire of an upstream pin is active at the ports of
/// this set, and the other wires are as given.
fn port_bytes(upstream: usize, ports: usize, others: u8) -> [u8; 8] {
    [0, 1, 2, 3, 4, 5, 6, 7].map(|port| {
        let bit = 1 << (card_pin(port, upstream) - 1);
        match ports >> port & 1 {
            0 => others & !bit,
            _ => others | bit,
        }
    })
}

/// Each port going down, with all its sets of wires, while another port holds
/// each set of them.
fn ports_down(runner: &mut Runner<'_>) -> Run {
    for port in 0..8 {
        for other in [(port + 4) % 8, (port + 1) % 8] {
            let mut trial = Trial::switch();
            for own in 0..16 {
                for held in 0..16 {
                    let mut bytes = [0; 8];
                    bytes[port] = own;
                    bytes[other] = held;
                    trial.wires(bytes).tight(down(port as u64));
                    trial.on(down(port as u64)).on(down(other as u64));
                }
            }
            trial.run(runner, "ports down")?;
        }
    }
    Ok(())
}

/// The switch's requester ID with each bit, and what is sent with it.
fn requesters(runner: &mut Runner<'_>) -> Run {
    let mut trial = Trial::switch();
    let single = (0..16).map(|bit| 1 << bit);
    for requester in single.chain([0, 7, 8, 0x0107, 0xFFF8, 0xFFFF]) {
        trial.on(start(requester));
        for pin in 1..=4 {
            trial.on(assert(5, pin));
        }
        trial.on(deassert(5, 2)).on(down(5)).on(down(5));
    }
    trial.run(runner, "requesters of switches")
}
