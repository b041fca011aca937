//! The second model of the switch.

use super::LENGTHS;
use crate::call::{Outcome, SwitchCall};
use crate::world::{World, PORTS_AT, SWITCH_BYTES};
use second_model::switch::{self, Switch};

/// The wires in the byte of a port; `None` if a bit of 7:4 is set.
fn read_wires(byte: u8) -> Option<[bool; 4]> {
    (byte <= 15).then(|| [0, 1, 2, 3].map(|bit| byte >> bit & 1 != 0))
}

/// The byte of a port.
fn write_wires(wires: [bool; 4]) -> u8 {
    (0..4).map(|bit| u8::from(wires[bit]) << bit).sum()
}

/// The switch in these bytes; `None` for bytes that no switch has.
fn read_switch(bytes: &[u8]) -> Option<Switch> {
    if bytes.len() != SWITCH_BYTES {
        return None;
    }
    let mut wires = [[false; 4]; 8];
    for (wires, byte) in wires.iter_mut().zip(&bytes[PORTS_AT..]) {
        *wires = read_wires(*byte)?;
    }
    let requester = u16::from_le_bytes([bytes[0], bytes[1]]);
    Some(Switch { requester, wires })
}

/// Writes the bytes of a switch.
fn write_switch(switch: &Switch, bytes: &mut [u8]) {
    bytes[..PORTS_AT].copy_from_slice(&switch.requester.to_le_bytes());
    for (byte, wires) in bytes[PORTS_AT..].iter_mut().zip(switch.wires) {
        *byte = write_wires(wires);
    }
}

/// Makes a call of a switch.
pub fn apply(world: &mut World, call: &SwitchCall) -> Outcome {
    if let SwitchCall::Start(requester) = call {
        return start(world, *requester);
    }
    let Some(mut switch) = read_switch(&world.switch) else {
        return Outcome::wrote(LENGTHS, 0);
    };
    let result = match call {
        SwitchCall::Start(_) => unreachable!("a start has no switch"),
        SwitchCall::Packet { port, packet } => {
            switch::packet(&mut switch, *port, packet, &mut world.out)
        }
        SwitchCall::Down(port) => switch::down(&mut switch, *port, &mut world.out),
    };
    write_switch(&switch, &mut world.switch);
    Outcome::wrote(result.refusal, result.count)
}

/// A start takes any bytes of the right length.
fn start(world: &mut World, requester: u64) -> Outcome {
    if world.switch.len() != SWITCH_BYTES {
        return Outcome::number(LENGTHS);
    }
    let (switch, result) = switch::start(requester);
    if let Some(switch) = switch {
        write_switch(&switch, &mut world.switch);
    }
    Outcome::number(result.refusal)
}

/// Whether the world's bytes are those of a switch.
pub fn is_switch(world: &World) -> bool {
    read_switch(&world.switch).is_some()
}
