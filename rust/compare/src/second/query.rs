//! What the second model reads for a host.

use super::LENGTHS;
use crate::call::{Fields, Found, Lengths, Outcome, QueryCall};
use second_model::query::{self, Contents, Packet};

/// Answers a question. `image` is the image that it is about.
pub fn apply(call: &QueryCall, image: &[u8]) -> Outcome {
    match call {
        QueryCall::ConfigLengths(config) => {
            let config = <&[u8; 256]>::try_from(&config[..]);
            lengths(config.map(query::config_lengths).map_err(|_| LENGTHS))
        }
        QueryCall::ImageLengths(_) => lengths(query::image_lengths(image)),
        QueryCall::Packet(bytes) => match query::packet(bytes) {
            Some(packet) => Outcome::found(0, Found::Packet(fields(&packet))),
            None => Outcome::found(LENGTHS, Found::Packet(Fields::default())),
        },
    }
}

/// The outcome of a question for lengths: beside a refusal all are 0.
fn lengths(given: Result<query::Lengths, u8>) -> Outcome {
    let (refusal, given) = match given {
        Ok(given) => (0, given),
        Err(refusal) => (refusal, query::Lengths::default()),
    };
    let lengths = Lengths {
        vectors: given.vectors,
        table: given.table,
        pending: given.pending,
    };
    Outcome::found(refusal, Found::Lengths(lengths))
}

/// The numbers of the C interface: what a kind has no use for is 0.
fn fields(packet: &Packet) -> Fields {
    let fields = Fields {
        count: packet.bytes,
        requester: packet.requester,
        ..Fields::default()
    };
    match packet.contents {
        Contents::Message { address, data } => Fields {
            kind: 1,
            address,
            data,
            ..fields
        },
        Contents::Wire { assert, pin } => Fields {
            kind: 2,
            pin,
            level: u8::from(assert),
            ..fields
        },
    }
}
