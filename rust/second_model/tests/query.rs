//! Lengths of configurations and images, and packets that are read.

mod common;

use common::*;
use second_model::query::*;

/// The message of bench case 5, and the wire packets of case 6.
const MESSAGE: [u8; 20] = [
    0x60, 0, 0, 1, 1, 0, 0, 0x0F, 0, 0, 0, 1, 0xFE, 0xE0, 0x10, 0, 0x31, 0, 0, 0,
];
const ASSERT: [u8; 16] = [0x34, 0, 0, 0, 1, 0, 0, 0x20, 0, 0, 0, 0, 0, 0, 0, 0];
const DEASSERT: [u8; 16] = [0x34, 0, 0, 0, 1, 0, 0, 0x24, 0, 0, 0, 0, 0, 0, 0, 0];

fn lengths(config: &[u8; 256]) -> (usize, usize, usize) {
    let lengths = config_lengths(config);
    (lengths.vectors, lengths.table, lengths.pending)
}

/// A configuration whose only capability, MSI-X with this control word, stands
/// at a place.
fn listed(at: u8, control: u16) -> [u8; 256] {
    let mut config = [0; 256];
    config[0x06] = 0x10;
    config[0x34] = at;
    let at = usize::from(at);
    config[at] = 0x11;
    config[at + 2..at + 4].copy_from_slice(&control.to_le_bytes());
    config
}

#[test]
fn lengths_of_configurations() {
    assert_eq!(lengths(&[0; 256]), (0, 0, 0));
    assert_eq!(lengths(&listed(0x40, 0)), (1, 16, 8));
    assert_eq!(lengths(&listed(0x40, 63)), (64, 1024, 8));
    assert_eq!(lengths(&listed(0xF4, 64)), (65, 1040, 16));
    assert_eq!(lengths(&listed(0xFC, 0xFFFF)), (2048, 32_768, 256));
}

#[test]
fn lists_that_a_start_refuses() {
    let mut config = listed(0x40, 3);
    config[0x60..0x64].copy_from_slice(&[0x11, 0, 7, 0]);
    config[0x41] = 0x60;
    assert_eq!(lengths(&config), (4, 64, 8));
    config[0x61] = 0x3C;
    assert_eq!(lengths(&config), (0, 0, 0));
    config[0x61] = 0x40;
    assert_eq!(lengths(&config), (0, 0, 0));
}

#[test]
fn lengths_of_images() {
    let config = config_with(1, None, Some(65));
    let (bench, started) = Bench::start(&config, &[0x10_0000; 6], 65);
    assert_eq!(started.refusal, 0);
    let mut image = vec![0; 294 + 1040 + 16];
    let saved = second_model::save(&bench.card, &bench.table, &bench.pending, &mut image);
    assert_eq!((saved.refusal, saved.count), (0, image.len()));
    let found = image_lengths(&image).unwrap();
    assert_eq!((found.vectors, found.table, found.pending), (65, 1040, 16));
    let changed = |at: usize, value: u8| {
        let mut image = image.clone();
        image[at] = value;
        image_lengths(&image)
    };
    assert_eq!(changed(0, 0), Err(20));
    assert_eq!(changed(4, 1), Err(21));
    assert_eq!(changed(5, 2), Err(22));
    assert_eq!(image_lengths(&image[..293]), Err(20));
    assert_eq!(image_lengths(&image[..1349]), Err(22));
}

#[test]
fn packets_one_after_another() {
    let bytes = [&ASSERT[..], &MESSAGE, &DEASSERT, &[0x34]].concat();
    let wire = |assert| Contents::Wire { assert, pin: 1 };
    let message = Contents::Message {
        address: 0x1_FEE0_1000,
        data: 0x31,
    };
    let mut at = 0;
    for (contents, length) in [(wire(true), 16), (message, 20), (wire(false), 16)] {
        let expected = Packet {
            bytes: length,
            requester: 0x0100,
            contents,
        };
        assert_eq!(packet(&bytes[at..]), Some(expected));
        at += length;
    }
    assert_eq!(packet(&bytes[at..]), None);
}

#[test]
fn what_is_no_packet() {
    let changed = |bytes: &[u8], at: usize, value: u8| {
        let mut bytes = bytes.to_vec();
        bytes[at] = value;
        packet(&bytes).is_some()
    };
    assert!(!changed(&MESSAGE, 11, 0));
    assert!(!changed(&MESSAGE, 15, 1));
    assert!(changed(&MESSAGE, 15, 4));
    assert!(!changed(&MESSAGE, 0, 0x40));
    assert!(changed(&DEASSERT, 5, 0xFF));
    assert!(changed(&DEASSERT, 7, 0x27));
    assert!(!changed(&DEASSERT, 7, 0x28));
    assert!(!changed(&DEASSERT, 15, 1));
    assert_eq!(packet(&MESSAGE[..19]), None);
    assert_eq!(packet(&[]), None);
}
