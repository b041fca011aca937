//! Bytes that no switch has, starts, and the order of the refusals.

use super::{assert, down, packet, start, Run, Trial, SWITCH};
use crate::directed::wider;
use crate::packets::message;
use crate::run::Runner;
use crate::world::{Part, SWITCH_BYTES};

/// Lengths other than 10, and 10.
const LENGTHS: [usize; 10] = [0, 1, 2, 8, 9, 10, 11, 16, 20, 289];

pub fn run(runner: &mut Runner<'_>) -> Run {
    starts(runner)?;
    lengths(runner)?;
    port_bytes(runner)?;
    requester_bytes(runner)?;
    orders(runner)
}

/// Requester IDs up to FFFFh and above it, over bytes of any contents.
fn starts(runner: &mut Runner<'_>) -> Run {
    let mut trial = Trial::switch();
    let wide = [0, SWITCH, 0xFFFF].into_iter().flat_map(wider);
    let near = [0, 1, 0xFFFE, 0xFFFF, 0x1_0000, 0x1_FFFF];
    for requester in near.into_iter().chain(wide) {
        for filler in [0x00, 0x0F, 0x10, 0xFF] {
            trial.wires([filler; 8]).on(start(requester));
            trial.on(assert(1, 1)).on(down(1));
        }
    }
    trial.run(runner, "starts of switches")
}

/// Each call on bytes of each length, right and wrong requesters among them.
fn lengths(runner: &mut Runner<'_>) -> Run {
    let mut trial = Trial::default();
    for length in LENGTHS {
        for requester in [SWITCH, 0x1_0000] {
            trial.length(Part::Switch, 0).length(Part::Switch, length);
            trial.on(assert(0, 1)).on(down(0)).on(start(requester));
            trial.on(assert(0, 1)).on(down(0));
        }
        // Zeros in all places.
        trial.contents(vec![0; length]);
        trial.on(assert(0, 1)).on(down(0));
    }
    trial.run(runner, "lengths of switches")
}

/// Each value of each port's byte, for each call.
fn port_bytes(runner: &mut Runner<'_>) -> Run {
    for port in 0..8 {
        let mut trial = Trial::switch();
        for value in 0..=255 {
            for call in [
                assert(port, 2),
                assert((port + 1) % 8, 1),
                down(port as u64),
            ] {
                trial.wires([0; 8]).port_byte(port, value).on(call);
            }
            trial.port_byte(port, value).on(start(SWITCH));
        }
        trial.run(runner, "bytes of ports")?;
    }
    Ok(())
}

/// Each value of the two bytes of the requester ID.
fn requester_bytes(runner: &mut Runner<'_>) -> Run {
    let mut trial = Trial::switch();
    for at in [0, 1] {
        for value in 0..=255 {
            trial.byte(Part::Switch, at, value);
            trial.on(assert(3, 2)).on(down(3));
        }
    }
    trial.run(runner, "bytes of the requester")
}

/// Two or three reasons for a refusal at once.
fn orders(runner: &mut Runner<'_>) -> Run {
    let mut trial = Trial::switch();
    for ports in [[0; 8], [0x10; 8]] {
        for length in [SWITCH_BYTES, 9] {
            trial.wires(ports).length(Part::Switch, length);
            for port in [0, 8] {
                for bytes in [&[][..], &message(0, 4, 0)] {
                    for room in [0, 15, 16] {
                        trial.room(packet(port, bytes), room);
                        trial.room(down(port), room);
                    }
                }
            }
        }
    }
    trial.run(runner, "orders of refusals")
}
