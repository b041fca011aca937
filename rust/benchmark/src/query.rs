//! What a host reads, to measure.

use crate::cases::{repeat, Calls, Case};
use crate::state::{Given, Second};
use musgarento::{raw, Packet};
use second_model::query;
use std::hint::black_box;

/// The number of packets that stand one after another.
const PACKETS: u32 = 2_048;

/// All cases of lengths and packets.
pub fn cases() -> Vec<Case> {
    let case = |name, vectors, (proved, second): (Calls, Calls)| Case {
        name,
        vectors,
        proved,
        second,
    };
    let mut cases = vec![case("lengths of a configuration", None, config())];
    for vectors in [0, 64, 2048] {
        cases.push(case("lengths of an image", Some(vectors), image(vectors)));
    }
    let name = "2,048 messages read one after another";
    cases.push(case(name, None, packets()));
    cases
}

/// A configuration with MSI and MSI-X.
fn config() -> (Calls, Calls) {
    let config = Given::new(64).config;
    let proved = repeat(config, |config, _| {
        let (mut vectors, mut table, mut pending) = (0, 0, 0);
        let refusal = raw::config_lengths(config, &mut vectors, &mut table, &mut pending);
        black_box((vectors, table, pending));
        refusal
    });
    let second = repeat(config, |config, _| {
        black_box(query::config_lengths(config));
        0
    });
    (proved, second)
}

/// The image of a started card.
fn image(vectors: usize) -> (Calls, Calls) {
    let image = Second::started(&Given::new(vectors)).image();
    let proved = repeat(image.clone(), |image, _| {
        let (mut vectors, mut table, mut pending) = (0, 0, 0);
        let refusal = raw::image_lengths(image, &mut vectors, &mut table, &mut pending);
        black_box((vectors, table, pending));
        refusal
    });
    let second = repeat(image, |image, _| match query::image_lengths(image) {
        Ok(lengths) => {
            black_box(lengths);
            0
        }
        Err(refusal) => refusal,
    });
    (proved, second)
}

/// Messages, above and below 4 GiB in turn.
fn packets() -> (Calls, Calls) {
    let message = |data: u32| Packet::Message {
        requester: 0x0100,
        address: u64::from(data & 1) << 32 | 0xFEE0_1000,
        data,
    };
    let bytes = |data| message(data).bytes().expect("a message has no pin");
    let row: Vec<u8> = (0..PACKETS).flat_map(bytes).collect();
    let proved = repeat(row.clone(), |row, _| walked(row, proved_count));
    let second = repeat(row, |row, _| walked(row, second_count));
    (proved, second)
}

/// Reads one packet after another; 0 if there were as many as there should be.
fn walked(row: &[u8], count: impl Fn(&[u8]) -> Option<usize>) -> u8 {
    let (mut rest, mut packets) = (row, 0);
    while let Some(count) = count(rest) {
        rest = &rest[count..];
        packets += 1;
    }
    u8::from(packets != PACKETS)
}

/// The number of bytes of the first packet.
fn proved_count(bytes: &[u8]) -> Option<usize> {
    let (mut count, mut kind, mut requester) = (0, 0, 0);
    let (mut address, mut data, mut pin, mut level) = (0, 0, 0, 0);
    let refusal = raw::packet(
        bytes,
        &mut count,
        &mut kind,
        &mut requester,
        &mut address,
        &mut data,
        &mut pin,
        &mut level,
    );
    black_box((kind, requester, address, data, pin, level));
    (refusal == 0).then_some(count)
}

fn second_count(bytes: &[u8]) -> Option<usize> {
    black_box(query::packet(bytes)).map(|packet| packet.bytes)
}
