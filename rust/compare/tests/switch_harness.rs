//! The harness finds faults of switches and cuts their trials down. The faulty
//! models are the second model with one thing changed.

mod common;

use common::{last_call, shortest};
use compare::call::{Call, Outcome, Subject, SwitchCall};
use compare::packets::{wire, CODE_AT, DEVICE_AT, LONG_ADDRESS_AT, SHORT_ADDRESS_AT, UPPER_AT};
use compare::second;
use compare::world::{World, PORTS_AT};

/// The call that shows a fault.
fn showing(model: &dyn Fn(&mut World, &SwitchCall) -> Outcome) -> SwitchCall {
    let model = |world: &mut World, call: &Call, _: &[u8]| match call {
        Call::Switch(call) => model(world, call),
        other => panic!("{other:?}"),
    };
    let steps = shortest(Subject::Switch, &model);
    match last_call(&steps) {
        Call::Switch(call) => call.clone(),
        other => panic!("{other:?}"),
    }
}

/// Makes a call on the second model.
fn apply(world: &mut World, call: &SwitchCall) -> Outcome {
    second::apply(world, &Call::Switch(call.clone()), &[])
}

/// The call that shows a fault by which another call is made in its place.
fn showing_change(change: fn(&mut SwitchCall)) -> SwitchCall {
    showing(&|world, call| {
        let mut call = call.clone();
        change(&mut call);
        apply(world, &call)
    })
}

/// The call that shows a fault in what a call leaves.
fn showing_end(end: fn(&mut World, &SwitchCall, &mut Outcome)) -> SwitchCall {
    showing(&|world, call| {
        let mut outcome = apply(world, call);
        end(world, call, &mut outcome);
        outcome
    })
}

/// The packet of a call, if it has one with this first byte and length.
fn packet_mut(call: &mut SwitchCall, first: u8, length: usize) -> Option<&mut Vec<u8>> {
    match call {
        SwitchCall::Packet { packet, .. } => {
            (packet.len() == length && packet[0] == first).then_some(packet)
        }
        _ => None,
    }
}

fn is_packet(call: &SwitchCall) -> bool {
    matches!(call, SwitchCall::Packet { .. })
}

#[test]
fn no_fault() {
    common::no_fault(Subject::Switch);
}

#[test]
fn ports_cut_to_their_fields() {
    for bits in [8, 16, 32] {
        let call = showing(&|world, call| {
            let mut call = call.clone();
            if let SwitchCall::Packet { port, .. } | SwitchCall::Down(port) = &mut call {
                *port &= (1 << bits) - 1;
            }
            apply(world, &call)
        });
        assert!(!matches!(call, SwitchCall::Start(_)));
    }
}

#[test]
fn requester_cut_to_its_field() {
    let call = showing_change(|call| {
        if let SwitchCall::Start(requester) = call {
            *requester &= 0xFFFF;
        }
    });
    assert!(matches!(call, SwitchCall::Start(0x1_0000..)));
}

#[test]
fn port_8_is_taken() {
    let call = showing_change(|call| {
        if let SwitchCall::Packet { port: port @ 8, .. } = call {
            *port = 0;
        }
    });
    assert!(is_packet(&call));
}

#[test]
fn device_number_not_looked_at() {
    let call = showing_change(|call| {
        if let Some(packet) = packet_mut(call, 0x34, 16) {
            packet[DEVICE_AT] &= 7;
        }
    });
    assert!(is_packet(&call));
}

#[test]
fn function_number_refused() {
    let call = showing_change(|call| {
        if let Some(packet) = packet_mut(call, 0x34, 16) {
            packet[DEVICE_AT] <<= 3;
        }
    });
    assert!(is_packet(&call));
}

#[test]
fn address_bits_not_looked_at() {
    for (first, at, length) in [(0x40, SHORT_ADDRESS_AT, 16), (0x60, LONG_ADDRESS_AT, 20)] {
        let call = showing(&|world, call| {
            let mut call = call.clone();
            if let Some(packet) = packet_mut(&mut call, first, length) {
                packet[at + 3] &= !3;
            }
            apply(world, &call)
        });
        assert!(is_packet(&call));
    }
}

#[test]
fn upper_address_0_accepted() {
    let call = showing(&|world, call| {
        let mut other = call.clone();
        match packet_mut(&mut other, 0x60, 20) {
            Some(packet) if packet[UPPER_AT..LONG_ADDRESS_AT] == [0; 4] => packet[UPPER_AT] = 1,
            _ => return apply(world, call),
        }
        let outcome = apply(world, &other);
        if outcome.refusal == 0 {
            world.out[UPPER_AT] = 0;
        }
        outcome
    });
    assert!(is_packet(&call));
}

#[test]
fn bytes_behind_a_packet_dropped() {
    let call = showing_change(|call| {
        if let SwitchCall::Packet { packet, .. } = call {
            let length = if packet.first() == Some(&0x60) {
                20
            } else {
                16
            };
            packet.truncate(length);
        }
    });
    assert!(is_packet(&call));
}

#[test]
fn another_upstream_pin_of_a_port() {
    let call = showing_end(|world, call, outcome| {
        if let (SwitchCall::Packet { port: 6, .. }, Some(1..)) = (call, outcome.count) {
            if world.out[0] == 0x34 {
                world.out[CODE_AT] ^= 1;
            }
        }
    });
    assert!(is_packet(&call));
}

#[test]
fn function_part_sent() {
    let call = showing_end(|world, _, outcome| {
        let function = world.switch.first().map_or(0, |low| low & 7);
        for wire in world.out[..outcome.count.unwrap_or(0)].chunks_exact_mut(16) {
            if wire[0] == 0x34 {
                wire[5] |= function;
            }
        }
    });
    assert!(!matches!(call, SwitchCall::Start(_)));
}

#[test]
fn message_with_another_requester() {
    let call = showing_end(|world, call, outcome| {
        if let (SwitchCall::Packet { packet, .. }, Some(1..)) = (call, outcome.count) {
            if packet[0] != 0x34 {
                world.out[4] = world.switch[1];
            }
        }
    });
    assert!(is_packet(&call));
}

#[test]
fn hidden_change_sent() {
    let call = showing(&|world, call| {
        let before = world.switch.clone();
        let mut outcome = apply(world, call);
        if world.switch != before && outcome.count == Some(0) && world.out.len() >= 16 {
            world.out[..16].copy_from_slice(&wire(true, 1, 0));
            outcome.count = Some(16);
        }
        outcome
    });
    assert!(!matches!(call, SwitchCall::Start(_)));
}

#[test]
fn hidden_change_forgotten() {
    let call = showing(&|world, call| {
        let before = world.switch.clone();
        let outcome = apply(world, call);
        if outcome.count == Some(0) {
            world.switch = before;
        }
        outcome
    });
    assert!(!matches!(call, SwitchCall::Start(_)));
}

#[test]
fn changes_in_another_order() {
    let call = showing_end(|world, _, outcome| {
        let (first, rest) = world.out.split_at_mut(16.min(outcome.count.unwrap_or(0)));
        if let (Some(32..), true) = (outcome.count, first.len() == 16) {
            first.swap_with_slice(&mut rest[..16]);
        }
    });
    assert!(matches!(call, SwitchCall::Down(_)));
}

#[test]
fn a_wire_kept_by_a_port_that_goes_down() {
    let call = showing(&|world, call| {
        let before = world.switch.clone();
        let outcome = apply(world, call);
        if let (SwitchCall::Down(port), 0) = (call, outcome.refusal) {
            let at = PORTS_AT + *port as usize;
            world.switch[at] = before[at] & 8;
        }
        outcome
    });
    assert!(matches!(call, SwitchCall::Down(_)));
}

#[test]
fn wires_kept_by_a_start() {
    let call = showing(&|world, call| {
        let before = world.switch.clone();
        let outcome = apply(world, call);
        if let (SwitchCall::Start(_), 0) = (call, outcome.refusal) {
            world.switch[PORTS_AT..].copy_from_slice(&before[PORTS_AT..]);
        }
        outcome
    });
    assert!(matches!(call, SwitchCall::Start(_)));
}

#[test]
fn bits_above_the_wires_not_looked_at() {
    let call = showing(&|world, call| {
        let high: Vec<u8> = world
            .switch
            .iter()
            .skip(PORTS_AT)
            .map(|b| b & 0xF0)
            .collect();
        if matches!(call, SwitchCall::Start(_)) || world.switch.len() != 10 {
            return apply(world, call);
        }
        world.switch[PORTS_AT..].iter_mut().for_each(|b| *b &= 15);
        let outcome = apply(world, call);
        for (byte, high) in world.switch[PORTS_AT..].iter_mut().zip(high) {
            *byte |= high;
        }
        outcome
    });
    assert!(!matches!(call, SwitchCall::Start(_)));
}

#[test]
fn wires_changed_beside_a_refusal() {
    for number in [6, 50, 60] {
        let call = showing(&|world, call| {
            let outcome = apply(world, call);
            if outcome.refusal == number {
                if let Some(byte) = world.switch.last_mut() {
                    *byte ^= 1;
                }
            }
            outcome
        });
        assert!(number == 60 || !matches!(call, SwitchCall::Start(_)));
    }
}

#[test]
fn count_beside_a_refusal() {
    for number in [6, 50, 60] {
        let call = showing(&|world, call| {
            let mut outcome = apply(world, call);
            if outcome.refusal == number && outcome.count.is_some() {
                outcome.count = Some(16);
            }
            outcome
        });
        assert!(!matches!(call, SwitchCall::Start(_)));
    }
}

#[test]
fn byte_behind_the_packets() {
    let call = showing_end(|world, _, outcome| {
        if let (Some(count @ 1..), 0) = (outcome.count, outcome.refusal) {
            if let Some(byte) = world.out.get_mut(count) {
                *byte = 0;
            }
        }
    });
    assert!(!matches!(call, SwitchCall::Start(_)));
}

#[test]
fn refusal_6_before_50() {
    let call = showing_end(|world, _, outcome| {
        if outcome.refusal == 50 && world.out.len() < 16 {
            outcome.refusal = 6;
        }
    });
    assert!(!matches!(call, SwitchCall::Start(_)));
}
