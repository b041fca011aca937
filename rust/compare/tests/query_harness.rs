//! The harness finds faults in what is read for a host and cuts their trials
//! down. The faulty models are the second model with one thing changed.

mod common;

use common::{last_call, shortest};
use compare::call::{Call, Fields, Found, Lengths, Outcome, QueryCall, Subject};
use compare::layout::Layout;
use compare::packets::aligned;
use compare::second;
use compare::world::World;

/// The query that shows a fault in the answer.
fn showing(fault: &dyn Fn(&QueryCall, &[u8], &mut Outcome)) -> QueryCall {
    let model = |world: &mut World, call: &Call, image: &[u8]| {
        let mut outcome = second::apply(world, call, image);
        if let Call::Query(call) = call {
            fault(call, image, &mut outcome);
        }
        outcome
    };
    match last_call(&shortest(Subject::Query, &model)) {
        Call::Query(call) => call.clone(),
        other => panic!("{other:?}"),
    }
}

/// The query that shows a fault in accepted lengths.
fn showing_lengths(fault: fn(&QueryCall, &mut Lengths)) -> QueryCall {
    showing(&|call, _, outcome| {
        if let (Some(Found::Lengths(lengths)), 0) = (&mut outcome.found, outcome.refusal) {
            fault(call, lengths);
        }
    })
}

/// The bytes that show a fault in a packet that is read.
fn showing_packet(fault: fn(&[u8], &mut Fields)) -> Vec<u8> {
    let call = showing(&|call, _, outcome| {
        if let (QueryCall::Packet(bytes), 0) = (call, outcome.refusal) {
            if let Some(Found::Packet(fields)) = &mut outcome.found {
                fault(bytes, fields);
            }
        }
    });
    packet_bytes(call)
}

/// The bytes of a packet query that shows a fault.
fn packet_bytes(call: QueryCall) -> Vec<u8> {
    match call {
        QueryCall::Packet(bytes) => bytes,
        other => panic!("{other:?}"),
    }
}

#[test]
fn no_fault() {
    common::no_fault(Subject::Query);
}

#[test]
fn table_size_without_one_more() {
    showing_lengths(|_, lengths| lengths.vectors = lengths.vectors.saturating_sub(1));
    showing_lengths(|_, lengths| lengths.table = lengths.table.saturating_sub(16));
}

#[test]
fn pending_array_rounded_otherwise() {
    showing_lengths(|_, lengths| lengths.pending = 8 * (lengths.vectors / 64));
    showing_lengths(|_, lengths| lengths.pending = lengths.vectors.div_ceil(8));
    showing_lengths(|_, lengths| {
        if lengths.vectors != 0 {
            lengths.pending = 8 * (lengths.vectors / 64 + 1);
        }
    });
}

#[test]
fn vectors_cut_to_a_field() {
    showing_lengths(|_, lengths| lengths.vectors &= 0x3FF);
    showing_lengths(|_, lengths| lengths.vectors &= 0x7FF);
}

#[test]
fn broken_list_read_up_to_its_break() {
    let call = showing_lengths(|call, lengths| {
        if let QueryCall::ConfigLengths(config) = call {
            lengths.vectors = lengths.vectors.max(Layout::of_config(config).vectors());
        }
    });
    assert!(matches!(call, QueryCall::ConfigLengths(_)));
}

#[test]
fn msix_past_the_end_not_read() {
    let call = showing_lengths(|call, lengths| {
        if let QueryCall::ConfigLengths(config) = call {
            if Layout::of_config(config).msix.is_none() {
                *lengths = Lengths::default();
            }
        }
    });
    assert!(matches!(call, QueryCall::ConfigLengths(_)));
}

#[test]
fn image_judged_by_its_length_alone() {
    let call = showing(&|call, image, outcome| {
        let config = image.get(38..294).unwrap_or(&[]);
        let vectors = Layout::of_config(config).vectors();
        let (table, pending) = (16 * vectors, 8 * vectors.div_ceil(64));
        let fits = image.len() == 294 + table + pending;
        if matches!(call, QueryCall::ImageLengths(_)) && outcome.refusal == 22 && fits {
            let lengths = Lengths {
                vectors,
                table,
                pending,
            };
            *outcome = Outcome::found(0, Found::Lengths(lengths));
        }
    });
    assert!(matches!(call, QueryCall::ImageLengths(_)));
}

#[test]
fn another_number_for_a_refusal() {
    for (number, other) in [(20, 21), (21, 22), (22, 20), (60, 22), (22, 17), (60, 0)] {
        showing(&|_, _, outcome| {
            if outcome.refusal == number {
                outcome.refusal = other;
            }
        });
    }
}

#[test]
fn a_number_beside_a_refusal() {
    for number in [20, 21, 22, 60] {
        showing(&|_, _, outcome| match &mut outcome.found {
            Some(Found::Lengths(lengths)) if outcome.refusal == number => lengths.vectors = 1,
            _ => {}
        });
    }
    let beside: [fn(&mut Fields); 3] = [|f| f.count = 16, |f| f.kind = 1, |f| f.requester = 1];
    for fault in beside {
        showing(&|_, _, outcome| match &mut outcome.found {
            Some(Found::Packet(fields)) if outcome.refusal == 60 => fault(fields),
            _ => {}
        });
    }
}

#[test]
fn fields_of_a_message() {
    let faults: [fn(&[u8], &mut Fields); 6] = [
        |_, fields| fields.data = fields.data.swap_bytes(),
        |_, fields| fields.data &= 0xFFFF,
        |_, fields| fields.address &= 0xFFFF_FFFF,
        |_, fields| fields.address = fields.address.rotate_left(32),
        |bytes, fields| fields.pin |= u8::from(bytes[0] != 0x34),
        |_, fields| fields.count = 16,
    ];
    for fault in faults {
        let bytes = showing_packet(fault);
        assert_ne!(bytes[0], 0x34);
    }
}

#[test]
fn fields_of_a_wire_packet() {
    let faults: [fn(&[u8], &mut Fields); 4] = [
        |_, fields| fields.pin = fields.pin.min(3),
        |bytes, fields| fields.level = u8::from(bytes[0] == 0x34),
        |_, fields| fields.level = 0,
        |bytes, fields| fields.data = u32::from(bytes[0] == 0x34),
    ];
    for fault in faults {
        showing_packet(fault);
    }
}

#[test]
fn requester_read_otherwise() {
    showing_packet(|_, fields| fields.requester = fields.requester.swap_bytes());
    showing_packet(|_, fields| fields.requester &= 0xFFF8);
}

#[test]
fn address_bits_not_looked_at() {
    let bytes = packet_bytes(showing(&|call, _, outcome| {
        if let QueryCall::Packet(bytes) = call {
            let call = Call::Query(QueryCall::Packet(aligned(bytes)));
            *outcome = second::apply(&mut World::default(), &call, &[]);
        }
    }));
    assert_ne!(bytes, aligned(&bytes));
}

#[test]
fn bytes_behind_a_packet_refused() {
    let bytes = packet_bytes(showing(&|call, _, outcome| {
        if let (QueryCall::Packet(bytes), Some(Found::Packet(fields))) = (call, outcome.found) {
            if fields.count != bytes.len() {
                *outcome = Outcome::found(60, Found::Packet(Fields::default()));
            }
        }
    }));
    assert!(bytes.len() > 16);
}
